"""What is wrong with a line of a script, of a text for `audit` and of a feed: field by field."""
import re

from . import pages

REGISTERS = "pc rcode rdata stk data t1 t2 c1 c2 a0 a1 a2 a3 g0 g1 g2".split()
ENDED = 1048575
NUMBER32, NUMBER64 = 2**32, 2**64
CAUSE = re.compile("F([1-9]|1[0-4])")
NAME = re.compile("[a-z_][a-z0-9_]{0,30}")


def number_fault(text, least, most):
    """Why a text isn't the decimal text of a number in these bounds, if so."""
    if not re.fullmatch("[0-9]+", text):
        return f"'{text}' isn't decimal digits alone"
    if len(text) > 1 and text[0] == "0":
        return f"'{text}' has a zero in front"
    if len(text) > 20 or not least <= int(text) <= most:
        return f"{text} isn't {least} to {most}"
    return None


def blanks_fault(line):
    """What is wrong with a line before its fields are looked at."""
    if line.endswith("\r"):
        return "it ends in a carriage return, before the newline"
    if not line.strip():
        return "it is empty"
    if "\t" in line:
        return "it has a tab, and fields are parted by one blank"
    if line != line.strip(" ") or "  " in line:
        return "it has a blank too many: one blank parts two fields, and none stands at an end"
    return None


def end_fault(lines, number):
    """Of the last line, where no newline ends it."""
    return "no newline stands at its end" if number == len(lines) and lines[-1] else None


# ---- scripts

COMMANDS = {"f": ("N", 1, 1000000), "b": ("N", 1, 1000000)}
COMMANDS.update({name: ("A", 0, ENDED) for name in ("stop", "clear", "c")})
MOST_LINES = 1000


def commands():
    """The commands of a script, as the page has them."""
    found = [cells[0] for cells in pages.rows("DEBUGGER.md", "## Commands")]
    return ", ".join(cell.strip("`") for cell in found if cell.startswith("`"))


def command_fault(line):
    """Why a line is no command of a script."""
    fields = line.split(" ")
    name = fields[0]
    if name != "r" and name not in COMMANDS:
        return f"no command is '{name}'; the commands are {commands()}"
    if len(fields) != 2:
        return f"a command has one word behind it, and here are {len(fields) - 1}"
    if name == "r":
        known = fields[1] in REGISTERS
        return None if known else f"no register is '{fields[1]}'; there are {' '.join(REGISTERS)}"
    what, least, most = COMMANDS[name]
    wrong = number_fault(fields[1], least, most)
    return f"{what} is a number from {least} to {most}: {wrong}" if wrong else None


def script_fault(lines, number):
    """What is wrong with a line of a script; lines are given as they stand between newlines."""
    if number > MOST_LINES:
        return f"a script has at most {MOST_LINES:,} lines"
    line = lines[number - 1]
    return blanks_fault(line) or command_fault(line) or end_fault(lines, number) or "it is no command"


# ---- the lines of runs


def word_fault(text):
    """Why a text isn't that of a word, as far as its form goes."""
    number = "(0|-?[1-9][0-9]*)"
    plain = "(0|[1-9][0-9]*)"
    cap = rf"cap\((no|r|rw|rx|rwx),(nor|lin),{plain},{plain},{number}\)"
    seal = rf"seal\({plain},{plain},{number}\)"
    if re.fullmatch(rf"{number}|{cap}|{seal}|sealed\({plain},({cap}|{seal})\)", text):
        return None
    return f"'{text}' isn't the text of a word" if text else "a word is missing"


def name_fault(text):
    return None if NAME.fullmatch(text) else f"'{text}' is no name"


def site_fault(text):
    return number_fault(text, 0, NUMBER32 - 1)


def steps_fault(text):
    return number_fault(text, 0, NUMBER64 - 1)


def pc_fault(text):
    if text == "-" or re.fullmatch("0|-?[1-9][0-9]*", text) and -(2**63) <= int(text) < 2**63:
        return None
    return f"'{text}' is no address of pc"


def cause_fault(text):
    return None if CAUSE.fullmatch(text) else f"'{text}' is no cause, F1 to F14"


def direction_fault(text):
    return None if text in ("in", "out") else f"'{text}' is neither in nor out"


def way_fault(*plain):
    """Of fields such as BACK and P0, with the words that they may be."""

    pair = ", pair:PART:SITE:BASE" if "pair" in plain else ""
    told = ", ".join(word for word in plain if word != "pair") + pair + ", hop:PART:EXPORT"

    def fault(text):
        kind, *fields = text.split(":")
        if text in plain:
            return None
        if kind == "hop" and len(fields) == 2 or kind == "pair" and "pair" in plain and len(fields) == 4:
            names = [name_fault(name) for name in (fields[:2] if kind == "hop" else fields[:1])]
            return next(filter(None, names + [site_fault(number) for number in fields[len(names):]]), None)
        return f"'{text}' is none of {told}"

    return fault


back_fault, half_fault = way_fault("out", "bad", "pair"), way_fault("none", "bad", "out")
FRAME = [("PART", name_fault), ("SITE", site_fault), ("BASE", site_fault), ("END", site_fault)]
ENTRY = [("PART", name_fault), ("EXPORT", name_fault)]
ARGUMENTS = [(f"A{i}", word_fault) for i in range(4)]
# The fields of each line behind its first word; a head may have words of any number behind its colon.
LINES = {
    "call": [("DIR", direction_fault), *FRAME, *ARGUMENTS],
    "ret": [("DIR", direction_fault), *FRAME, ARGUMENTS[0]],
    "enter": [*ENTRY, ("STK", word_fault), *ARGUMENTS, ("BACK", back_fault)],
    "pass": [(f"P{i}", half_fault) for i in range(3)],
    "leave": [("PART", name_fault), ARGUMENTS[0]],
    "halted": [("W", word_fault), ("steps", None), ("N", steps_fault)],
    "failed": [("PC", pc_fault), ("CAUSE", cause_fault), ("steps", None), ("N", steps_fault)],
    "running": [("PC", pc_fault), ("steps", None), ("N", steps_fault)],
}
ENDS = ("halted", "failed", "running")


def literal_fault(name, text):
    return None if text == name else f"'{text}' stands in its place"


def fields_fault(kind, fields, due):
    """The first of the fields that isn't what is due, or that there are too few or too many."""
    form = f"{kind} " + " ".join(name for name, _ in due)
    for (name, fault), text in zip(due, fields):
        wrong = fault(text) if fault else literal_fault(name, text)
        if wrong:
            return f"{name} of `{form}`: {wrong}"
    if len(fields) != len(due):
        return f"`{form}` has {len(due)} fields behind {kind}, and here are {len(fields)}"
    return None


def line_fault(line):
    """Why a line has none of the forms of a run's lines."""
    kind, *fields = line.split(" ")
    if kind not in LINES:
        return f"no line begins with '{kind}'; they begin with {', '.join(LINES)}"
    due = LINES[kind]
    if kind not in ("call", "ret"):
        if kind == "failed" and len(fields) == 3 and fields[1] == "steps":
            return "it has no cause: so a trace ends that failed, and audit reads the text of a run"
        return fields_fault(kind, fields, due)
    if ":" not in fields:
        return fields_fault(kind, fields, due) or "no ` :` stands behind its fields"
    at = fields.index(":")
    words = [word_fault(word) for word in fields[at + 1 :]]
    return fields_fault(kind, fields[:at], due) or next(filter(None, words), None)


def place_fault(lines, number):
    """Why a line may not stand at its place, whatever it is."""
    before = lines[number - 2] if number > 1 else ""
    if before.split(" ")[0] in ENDS:
        return "it stands behind the end line"
    if number > len(lines) or number == len(lines) and not lines[-1]:
        return "the text ends here without its end line, `halted ..`, `failed ..` or `running ..`"
    return None


def pass_fault(lines, number):
    fields = lines[number - 1].split(" ")
    if fields[0] != "pass":
        return None
    if number == 1 or not lines[number - 2].startswith("enter "):
        return "a `pass` line stands only right behind an `enter` line"
    return "one of its fields isn't `none`" if fields[1:] == ["none"] * 3 else None


def audit_form_fault(lines, number):
    """What is wrong with a line of a text for audit that has none of the forms."""
    wrong = place_fault(lines, number)
    if wrong:
        return wrong
    line = lines[number - 1]
    wrong = blanks_fault(line) or line_fault(line) or pass_fault(lines, number)
    return wrong or end_fault(lines, number) or "it is none of the forms"


def frame_of(line):
    """Of a `call` or a `ret` line PART, SITE, BASE and END, and the words behind the colon."""
    head, _, words = line.partition(" :")
    return head.split(" ")[2:6], words.split(" ")[1:]


def newest_call(lines):
    """The number of the line of the newest call that is open behind these lines."""
    found = []
    for number, line in enumerate(lines, 1):
        if line.startswith("call "):
            found.append(number)
        elif line.startswith("ret "):
            found.pop()
    return found[-1] if found else None


def mismatch(due, told):
    """The first in which a return differs from its call."""
    for name, one, other in zip(("PART", "SITE", "BASE", "END"), due[0], told[0]):
        if one != other:
            return f"{name} is {other}, and there it is {one}"
    for index, (one, other) in enumerate(zip(due[1], told[1])):
        if one != other:
            return f"word {index} behind the colon is {other}, and there it is {one}"
    return "they differ"


def audit_fault(lines, number, fault):
    """What spoils a line of a text for audit that has its form, by the number of the fault, 2, 3 or 5."""
    told = frame_of(lines[number - 1])
    base, end = told[0][2:4]
    if fault == "2":
        addresses = int(end) - int(base) + 1
        return f"the range {base}..{end} has {addresses} addresses, and the line has {len(told[1])} words"
    newest = newest_call(lines[: number - 1])
    due = frame_of(lines[newest - 1])
    if fault == "3":
        return f"END is {end}, and the call of line {newest} is open from {due[0][2]} on"
    return f"the call of line {newest} is open: {mismatch(due, told)}"


# ---- feeds

ANY = [(name, None) for name in ("STK", "A0", "A1", "A2", "A3")]
# The fields that must stand behind the first word of a line that a feed reads.
FEED_LINES = {
    "enter": [*ENTRY, *ANY, ("BACK", back_fault)],
    "ret": [("out", None), *FRAME, ("A0", None)],
    "pass": LINES["pass"],
}


def feed_form(line):
    """How the page says that a line must be, by its first word."""
    kind = line.split(" ")[0]
    told = [cells[1] for cells in pages.rows("FORMATS.md", "## Feeds") if cells[0].startswith(f"`{kind} ")]
    return told[0] if told else "a line of a run"


def feed_fault(line):
    """What is wrong with a line of a feed that must have a form."""
    kind, *fields = line.split(" ")
    if kind not in FEED_LINES:
        return "it hasn't its form"
    due = FEED_LINES[kind]
    if kind == "ret":
        fields = fields[: fields.index(":")] if ":" in fields else fields
    for (name, fault), text in zip(due, fields):
        wrong = fault(text) if fault else None
        if wrong:
            return f"{name} is wrong: {wrong}"
    if len(fields) != len(due):
        return f"it has {len(fields)} fields behind {kind}, and {len(due)} are due"
    if kind == "ret" and " :" not in line:
        return "no ` :` stands behind A0"
    return "a carriage return stands at its end" if line.endswith("\r") else "it hasn't that form"
