"""What is said of parts that break a rule together: which of them, and what each says."""
import copy
import re

from . import pages
from .rules import LAST, area_text, near, seals_text
from .saying import say

LINK_RULES = "### The rules"
MEAN_RULES = "### What `mean` asks of sources"
STACK, MOST_WORDS, MOST_SITES = 4096, 65536, 4096


def size_of(call):
    """The size of the stack that the words or the image tell."""
    if call.words.is_image:
        with open(call.words.operands[0], "rb") as file:
            return int.from_bytes(file.read(10)[6:], "little")
    return int(call.words.options.get("--stack", STACK))


# ---- where parts stand (docs/RULES.md, 'Placing')


def lowest(listing):
    seals = [listing.closure] + ([listing.seals[0]] if listing.seals[1] else [])
    return min(base for _, base, _ in listing.areas()), min(seals)


def behind(listing):
    """The first free address and the first free seal behind a part."""
    return max(end for _, _, end in listing.areas()) + 2, max(listing.seal_numbers()) + 1


def moved(listing, address, seal):
    """A movable part with its lowest address and its lowest seal at these."""
    by, seals_by = address - lowest(listing)[0], seal - lowest(listing)[1]
    found = copy.copy(listing)
    found.code_base, found.data_base = listing.code_base + by, listing.data_base + by
    found.linear = (listing.linear[0] + by, listing.linear[1]) if listing.linear[1] else listing.linear
    found.closure = listing.closure + seals_by
    found.seals = (listing.seals[0] + seals_by, listing.seals[1]) if listing.seals[1] else listing.seals
    return found


def stack_area(listings, size):
    base = listings[0].stack
    return ("stack", base, base + size - 1) if 2 <= size <= MOST_WORDS else None


def placed(listings, size):
    """The parts where they stand: the movable ones behind the others and the stack."""
    fixed = [behind(listing) for listing in listings if not listing.movable]
    stack = stack_area(listings, size)
    address = max([0] + [at for at, _ in fixed] + ([stack[2] + 2] if stack else []))
    seal = max([0] + [at for _, at in fixed])
    found = []
    for listing in listings:
        if listing.movable:
            listing = moved(listing, address, seal)
            address, seal = behind(listing)
        found.append(listing)
    return found


# ---- the rules


class Link:
    """The parts of a call with the size of their stack, and the place of the rule that they break."""

    def __init__(self, call, index, place):
        self.call, self.place = call, place
        self.parts = call.parts
        self.part = call.part_at(index)
        self.size = size_of(call)
        self.placed = placed([part.listing for part in self.parts], self.size)

    def earlier(self):
        return self.parts[self.place]

    def regions(self):
        """Each region with the part that it is of, in their order; that of the stack is of none."""
        found = []
        for part, listing in zip(self.parts, self.placed):
            found += [(part, area) for area in listing.areas()]
        stack = stack_area(self.placed, self.size)
        return found + ([(None, stack)] if stack else [])

    def l1(self):
        wanted = "stack" if self.part is None else ("code", "data", "linear area")[self.place]
        regions = self.regions()
        at = next(i for i, (part, area) in enumerate(regions) if part is self.part and area[0] == wanted)
        area = regions[at][1]
        part, other = next((part, other) for part, other in regions[:at] if near(area, other))
        meets = "meets" if max(area[1], other[1]) <= min(area[2], other[2]) else "touches"
        whose = f" of {self.part.name}" if self.part else ""
        return [f"the {area_text(area)}{whose} {meets} the {area_text(other)} of {part.name} ({part.title})"]

    def l2(self):
        one, other = self.placed[self.part.index], self.placed[self.place]
        common = min(one.seal_numbers() & other.seal_numbers())
        told = []
        for part, listing in ((self.part, one), (self.earlier(), other)):
            seals = f"its closure seal is {listing.closure}, its return seals are {seals_text(listing)}"
            told.append(f"{part.title}: {part.name}: {seals}")
        return [*told, f"both have the seal {common}"]

    def l3(self):
        return [f"{part.place_of('.name')}: the name is {part.name}" for part in (self.part, self.earlier())]

    def named_part(self):
        name = self.part.listing.imports[self.place][0]
        return name, next((part for part in self.parts if part.name == name), None)

    def l4(self):
        line = self.part.item_line("import", self.place)
        name, other = self.named_part()
        if other is None:
            names = ", ".join(part.name for part in self.parts)
            return [line, f"no part has the name {name}: here are {names}"]
        exports = ", ".join(export[0] for export in other.listing.exports) or "none"
        export = self.part.listing.imports[self.place][1]
        return [line, f"{name} ({other.title}) has no export {export}; its exports: {exports}"]

    def l5(self):
        line = self.part.item_line("import", self.place)
        other = self.named_part()[1]
        names = [export[0] for export in other.listing.exports]
        return [line, other.item_line("export", names.index(self.part.listing.imports[self.place][1]))]

    def mains(self):
        return [part.item_line("export", index) for part in self.parts
                for index, export in enumerate(part.listing.exports) if export[0] == "main"]

    def l6(self):
        if self.part is None:
            return self.mains() or ["no part has an export main"]
        return [line for line in self.mains() if line.endswith("shared")][:2]

    def l7(self):
        first = self.parts[0]
        return [f"{self.part.place_of('.stack')}: the stack base is {self.place}",
                f"{first.place_of('.stack')}: it is {first.listing.stack}"]

    def l8(self):
        base = self.parts[0].listing.stack
        told = f"the size is {self.size}"
        if self.call.words.is_image:
            told += ", as the image tells"
        elif "--stack" not in self.call.words.options:
            told += ", as no --stack tells another"
        if 2 <= self.size <= MOST_WORDS:
            told += f": the stack would be {base}..{base + self.size - 1}, and ends above {LAST:,}"
        return [told]

    def l9(self):
        counts = [(part.name, len(part.listing.sites)) for part in self.parts if part.is_trusted]
        return ["the sites of the trusted parts: " + ", ".join(f"{name} {count}" for name, count in counts)]

    def l10(self):
        listing = self.placed[self.part.index]
        if self.place == 0:
            area = max(listing.areas(), key=lambda area: area[2])
            return [f"where it is placed the {area_text(area)} ends above {LAST:,}"]
        if self.place == 1:
            greatest = max(listing.seal_numbers())
            return [f"where it is placed its greatest seal is {greatest:,}, above {LAST:,}"]
        return ["where it is placed a word of it has a number that 64 bits don't hold"]


def asks_of(rule, place, heading):
    """What a rule asks; of L10, whose clauses have numbers, the one that is broken."""
    asks = pages.row("RULES.md", heading, rule)[1]
    if rule == "L10":
        parts = re.split(r"(?<=\)); |(?<=placed): ", asks.rstrip("."))
        asks = f"{parts[0]}: {re.sub(r' .[0-9].$', '', parts[1 + place])}."
    return f"{asks} ({pages.where('RULES.md', heading)})"


def explain_link_rule(call, rule, index, place):
    """Says what a rule L asks, and which parts break it."""
    heading = MEAN_RULES if call.action == "mean" else LINK_RULES
    part = call.part_at(index)
    title = part.title if part else "the parts together"
    say(f"{title}: rule {rule}: {asks_of(rule, place, heading)}")
    if call.parts and all(part.listing for part in call.parts):
        for line in getattr(Link(call, index, place), rule.lower())():
            say(line)
