"""What is said of a refusal by its line: the fault of a file, and where it stands."""
import os

from . import links, pages, rules, texts
from .calls import is_in_pieces, read, why_unreadable
from .saying import named, say, say_at_byte, say_at_line

TEXT_PAGES = {"asm": ("ASSEMBLER.md", "## Faults"), "source": ("LANGUAGE.md", "## Faults")}
TOKEN_FAULTS = range(12, 17)
SCANS = {
    "s1": "no token begins with this byte",
    "s2": "the number that begins here is above 2^63",
}
LIMIT = 4194304


def explain_read(call):
    """Says which file couldn't be read: the first, in the order in which they are read."""
    for path in call.paths:
        why = why_unreadable(path)
        if why:
            say(f"{named(path)}: {why}")
            return
    pipes = [path for path in call.paths if not is_in_pieces(path)]
    for path in pipes[:1]:
        say(f"{named(path)}: it can't be read piece by piece, as a pipe can't")
    if not pipes:
        say("stk: a file could not be read")


def file_of(call, index):
    """The file of a number: a part, an image (0), or behind them the file of --feed."""
    if call.words.is_image:
        return call.words.operands[0] if index == 0 else call.feed
    return call.words.operands[index][2:] if index < len(call.words.operands) else call.feed


def explain_too_long(call, index):
    path = file_of(call, int(index))
    say(f"{named(path)}: it has {os.path.getsize(path)} bytes; a file has at most {LIMIT:,}")


def explain_text(call, kind, index, number, at):
    """Says a fault of an assembler text or of a source, and shows its line."""
    path = file_of(call, int(index))
    data = read(path)
    page, heading = TEXT_PAGES[kind]
    if kind == "source" and number.isdigit() and int(number) in TOKEN_FAULTS:
        page = "TOKENS.md"
    if number == "s3":
        say_at_line(path, data, int(at), "this line has more than 512 bytes")
    elif kind == "source" and number in ("10", "11"):
        say(f"{named(path)}: {pages.fault(page, heading, number)}")
    else:
        words = SCANS[number] if number in SCANS else pages.fault(page, heading, number)
        say_at_byte(path, data, int(at), words)


def explain_file(call, index, number, at):
    part = call.part_at(int(index))
    path = part.path if part else file_of(call, int(index))
    words = pages.fault("FORMATS.md", "## Components", number)
    beside = "" if not part or part.image is None else f", the byte {part.image + int(at)} of the image"
    say(f"{named(path)}: at the byte {at} of part {index}{beside}: {words}")


def explain_image(call, number, at):
    words = pages.fault("FORMATS.md", "## Images", number)
    say(f"{named(call.words.operands[0])}: at the byte {at}: {words}")


def lines_of(path):
    """The bytes of a text, and its lines."""
    data = read(path)
    return data, data.decode("utf-8", "replace").split("\n")


def explain_script(call, number):
    data, lines = lines_of(call.feed)
    say_at_line(call.feed, data, int(number), texts.script_fault(lines, int(number)))


def explain_feed(call, number):
    data, lines = lines_of(call.feed)
    line = lines[int(number) - 1]
    words = f"this line must be {texts.feed_form(line)}; {texts.feed_fault(line)}"
    say_at_line(call.feed, data, int(number), words)


def explain_audit(call, number, line):
    data, lines = lines_of(call.feed)
    if number == "1":
        words = f"Form: {texts.audit_form_fault(lines, int(line))}"
    else:
        words = pages.fault("AUDIT.md", "## The answers", number).replace(": ", ": the line ", 1)
        words += "" if number == "4" else f" ({texts.audit_fault(lines, int(line), number)})"
    say_at_line(call.feed, data, int(line), words)


def explain_rule(call, index, rule, place):
    part = call.part_at(int(index))
    if rule[0] in "CK" and part:
        rules.explain_part_rule(part, rule, int(place))
    else:
        links.explain_link_rule(call, rule, int(index), int(place))


EXPLAIN = {
    "too": lambda call, long, index: explain_too_long(call, index),
    "asm": lambda call, *fields: explain_text(call, "asm", *fields),
    "source": lambda call, *fields: explain_text(call, "source", *fields),
    "file": explain_file,
    "image": explain_image,
    "script": explain_script,
    "feed": explain_feed,
    "audit": explain_audit,
    "rule": explain_rule,
}


def explain_line(call, line):
    """Says what a refusal's line means."""
    kind, *fields = line.split()
    EXPLAIN[kind](call, *fields)
