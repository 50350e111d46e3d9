"""What is said of a part that breaks a rule C or K: what the rule asks, and what is wrong there."""
import re

from . import flow, pages, sequences
from .saying import say

LAST = 1048575
C_RULES = "## C: a component by itself"
LISTS, WALK = "### The lists", "### The walk"


def near(one, other):
    """Whether two areas meet, or no address lies between them."""
    return one[1] <= other[2] + 1 and other[1] <= one[2] + 1


def area_text(area):
    return f"{area[0]} {area[1]}..{area[2]}"


def area_named(listing, name):
    return next((area for area in listing.areas() if area[0] == name), (name, 0, 0))


def seals_text(listing):
    base, count = listing.seals
    return f"{base}..{base + count - 1}" if count else "none"


def clause(text, place):
    """Of a sentence whose clauses have numbers in brackets behind them, that of a number."""
    for part in re.split(r";|: ", text):
        found = re.search(r"\((\d)\)", part)
        if found and int(found[1]) == place:
            return part[: found.start()].strip()
    return text


def code_text(listing):
    return f"the code has {len(listing.code)} words, from 0 on"


# ---- C


def c1(part, place):
    name = ("code", "data", "linear area")[place]
    area = area_named(part.listing, name)
    return [f"{part.place_of('.' + name.split()[0])}: the {area_text(area)} ends above {LAST:,}"]


def c2(part, place):
    names = (("code", "data"), ("code", "linear area"), ("data", "linear area"))[place]
    one, other = (area_named(part.listing, name) for name in names)
    where = part.place_of("." + names[1].split()[0])
    return [f"{where}: no address lies between the {area_text(one)} and the {area_text(other)}"]


def c3(part, place):
    listing = part.listing
    base, count = listing.seals
    if base + count - 1 > LAST:
        return [f"{part.place_of('.seals')}: the seals {seals_text(listing)} end above {LAST:,}"]
    why = f"the closure seal {listing.closure} is one of the seals {seals_text(listing)}"
    return [f"{part.place_of('.closure')}: {why}"]


def c4(part, place):
    listing = part.listing
    slot, count = int(listing.imports[place][2]), len(listing.data)
    if slot + 1 >= count:
        why = f"the slot is the data words {slot} and {slot + 1}, and the data has {count} words, from 0 on"
    else:
        why = f"the slot begins at {slot}, and the slot before it at {listing.imports[place - 1][2]}"
    return [part.item_line("import", place), why]


def c5(part, place):
    slot = int(part.listing.imports[place][2])
    words = [at for at in (slot, slot + 1) if part.listing.data[at] != ".int 0"]
    return [part.item_line("import", place)] + [part.word_line("data", at) for at in words]


def c6(part, place):
    return [part.item_line("export", place), code_text(part.listing)]


def capability(text):
    """The linearity, the rights, the base and the end of a `.cap`."""
    fields = text.split()
    return fields[2], fields[1], int(fields[3]), int(fields[4])


def c7(part, place):
    section, index = part.indexed(place)
    line = part.word_line(section, index)
    linearity, rights, base, end = capability(part.listing.words(section)[index])
    areas = {name: (base_of, end_of) for name, base_of, end_of in part.listing.areas()}
    within = [name for name, (low, high) in areas.items() if low <= base and end <= high]
    has = " and ".join(f"the {area_text(area)}" for area in part.listing.areas())
    if not within:
        return [line, f"its range {base}..{end} is within none of {has}"]
    kind = "linear" if linearity == "lin" else "normal"
    return [line, f"it is {kind}, has {rights}, and is within the {within[0]}"]


def c8(part, place):
    section, index = part.indexed(place)
    words = part.listing.code + part.listing.data
    _, _, base, end = capability(words[place])
    for earlier, text in enumerate(words[:place]):
        if text.startswith(".cap ") and capability(text)[0] == "lin":
            _, _, low, high = capability(text)
            if low <= end and base <= high:
                shared = f"both are over the address {max(low, base)}"
                return [part.word_line(section, index), part.word_line(*part.indexed(earlier)), shared]
    return [part.word_line(section, index)]


def c9(part, place):
    return [part.word_line(*part.indexed(place)), f"the own return seals are {seals_text(part.listing)}"]


def one_word(part, place):
    return [part.word_line(*part.indexed(place))]


def c12(part, place):
    listing = part.listing
    if place == 0:
        return [f"{part.place_of('.linear')}: the {area_text(area_named(listing, 'linear area'))}"]
    if place == 2:
        return [f"{part.title}: there are {len(listing.sites)} sites, and {listing.seals[1]} seals"]
    kind = "fail" if place == 1 else "literal"
    offset = getattr(listing, kind)
    if offset is None:
        return [f"{part.title}: it has no .{kind}"]
    told = [f"{part.place_of('.' + kind)}: .{kind} {offset}", part.word_line("code", offset)]
    return told + ([f"the own return seals are {seals_text(listing)}"] if kind == "literal" else [])


# ---- K


def k1(part, place):
    listing = part.listing
    index = listing.sites.index(place)
    end = place + sequences.site_length() - 1
    if end >= len(listing.code):
        why = f"the words {place}..{end} would be its own, and {code_text(listing)}"
    else:
        before = listing.sites[index - 1]
        why = f"the site before it is {before}, {place - before} words before"
    return [part.item_line("site", index), why]


def should_be(part, step):
    return f"{step.title} should be here: {sequences.word_at(part.listing, step)}"


def k2(part, place):
    return [part.word_line("code", place), should_be(part, sequences.step_at(part.listing, place))]


def overlap(listing, begin):
    """What an entry has a word in common with: a site, or another entry."""
    end = begin + sequences.length(sequences.ENTRY) - 1
    for number, site in enumerate(listing.sites):
        if site <= end and begin <= site + sequences.site_length() - 1:
            return f"site {number}, the words {site}..{site + sequences.site_length() - 1}"
    for other, name in listing.entries().items():
        if other != begin and abs(other - begin) <= end - begin:
            return f"the entry of {name}, the words {other}..{other + end - begin}"
    return None


def k3(part, place):
    listing = part.listing
    title = f"the entry of {listing.entries()[place]}, the words {place}.."
    for index in range(sequences.length(sequences.ENTRY)):
        step = sequences.Step(sequences.ENTRY, index, place, f"of {listing.entries()[place]}")
        if place + index >= len(listing.code):
            return [f"{title}{place + sequences.length(step.sequence) - 1}, ends behind the code",
                    code_text(listing)]
        if listing.code[place + index] != sequences.word_at(listing, step):
            return [part.word_line("code", place + index), should_be(part, step)]
    other = overlap(listing, place)
    return [part.word_line("code", place)] + ([f"this entry overlaps with {other}"] if other else [])


def k4(part, place):
    listing = part.listing
    line = part.item_line("row", list(listing.rows).index(place))
    step = sequences.step_at(listing, place)
    if place >= len(listing.code):
        return [line, code_text(listing)]
    return [line, f"{step.title} stands there"] if step else [line]


def k10_asks(part, place, asks):
    """Of the sentence on K10, what it says of a site or of an `xjmp`."""
    if place not in part.listing.sites:
        return asks.split(";")[0] + "."
    said = [line for line in pages.section("RULES.md", WALK) if line.startswith("4. ")]
    return said[0][3:].split(" (K10)")[0] + "." if said else asks


def walked(part, rule, place):
    """The word at which a rule K5 to K10 is broken, and which register is at fault there."""
    broken = flow.Walk(part.listing).first_break()
    why = broken.why if broken and (broken.rule, broken.place) == (rule, place) else []
    if rule == "K9":
        return [part.word_line("code", place - 1), *why]
    step = sequences.step_at(part.listing, place)
    return [part.word_line("code", place), *([f"it is {step.title}"] if step else []), *why]


C = {"C1": c1, "C2": c2, "C3": c3, "C4": c4, "C5": c5, "C6": c6, "C7": c7, "C8": c8, "C9": c9}
C.update({"C10": one_word, "C11": one_word, "C12": c12})
K = {"K1": k1, "K2": k2, "K3": k3, "K4": k4}


def asks_of(rule, part, place):
    """What a rule asks, and where that is written."""
    heading = C_RULES if rule.startswith("C") else LISTS if rule in K else WALK
    asks = pages.row("RULES.md", heading, rule)[1]
    if rule == "C12":
        asks = f"Trusted: {clause(asks, place)}."
    if rule == "K10" and part.listing:
        asks = k10_asks(part, place, asks)
    return f"{asks} ({pages.where('RULES.md', heading)})"


def details(rule, part, place):
    if part.listing is None:
        return []
    if rule in C:
        return C[rule](part, place)
    return K[rule](part, place) if rule in K else walked(part, rule, place)


def explain_part_rule(part, rule, place):
    """Says what a rule C or K asks, and what breaks it in a part."""
    say(f"{part.title}: rule {rule}: {asks_of(rule, part, place)}")
    for line in details(rule, part, place):
        say(line)
