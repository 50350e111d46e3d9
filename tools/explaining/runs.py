"""What is said of a run that failed or was cut off, and of a meaning that did: where it stands, and why."""
import re

from . import pages, sequences
from .calls import read
from .machine import CAPABILITY, REGISTERS, Debugger, failing
from .saying import named, say, say_at_line

SOURCE_CHECKS = "### Where a check of a source fails"
FETCH = ("F1", "F2", "F3")
# A step of the overlay stands for fewer instructions.
LONGEST_STEP = 30
# So many steps a script makes, of 1,000 lines, and has lines left for its questions.
FURTHEST = 900000000


def tell_place(place):
    say(place.line)
    if place.now != place.text:
        say(f"it was changed in the run, and is {place.now} now")


def operands_of(instruction):
    """The registers of an instruction, each once."""
    return list(dict.fromkeys(word for word in instruction.split()[1:] if word in REGISTERS))


def tell_registers(instruction, registers):
    for register in operands_of(instruction):
        say(f"{register} holds {registers[register]}")


def step_of(place):
    """The step of a sequence that stands at a word of trusted code."""
    return sequences.step_at(place.part.listing, place.offset) if place.part.is_trusted else None


# ---- why


def address_text(condition, registers):
    """Which of both makes an address fail: the range, or that no cell is there."""
    match = CAPABILITY.fullmatch(registers.get(condition.of, ""))
    if condition.asks != "address" or not match:
        return ""
    within = int(match[3]) <= int(match[5]) <= int(match[4])
    return ", and its address has no cell" if within else ", and its address is outside its range"


def splice_text(instruction, registers):
    """Which of the three that a splice asks of two capabilities doesn't hold."""
    low, high = instruction.split()[2:4]
    first, second = (CAPABILITY.fullmatch(registers[name]) for name in (low, high))
    if first[1] != second[1]:
        return f", and the permissions are {first[1]} and {second[1]}"
    if first[2] != second[2]:
        return f", and the linearities are {first[2]} and {second[2]}"
    return f", and {low} ends at {first[4]}, and {high} begins at {second[3]}"


def asks_text(condition, instruction, registers):
    """What an instruction asks, in the words of the page, and of which register; and what isn't so."""
    asks = condition.asks.replace("`", "")
    of = "" if condition.of in asks else f" of {condition.of}"
    if condition.cause == "F14":
        return f"it asks: {asks}{splice_text(instruction, registers)}"
    return f"it asks{of}: {asks}{address_text(condition, registers)}"


def cause_text(cause):
    cells = pages.row("MACHINE.md", "## A step", cause)
    return f"{cause}: {cells[1]}" if cells else cause


def tell_cause(call, cause, state):
    """Says what the cause means, with the words in the registers that the instruction names."""
    instruction = state.place.now if state.place else ""
    fetched = instruction and cause not in (*FETCH, "F4")
    condition = failing(instruction, cause, state.registers) if fetched else None
    asks = f"; {asks_text(condition, instruction, state.registers)}" if condition else ""
    say(cause_text(cause) + asks)
    if cause in FETCH:
        say(f"pc holds {state.registers['pc']}")
    tell_registers(instruction, state.registers)


def check_text(part, offset, cause):
    """What a check says that a source is compiled to, if the word at an offset is one that fails so."""
    words = part.listing.code
    before = words[offset - 1] if offset else ""
    for cells in pages.rows("COMMANDS.md", SOURCE_CHECKS)[1:]:
        fits = [matches(pattern, word) for pattern, word in ((cells[0], words[offset]), (cells[1], before))]
        if all(fits) and cells[2] == cause:
            return cells[3]
    return None


def matches(pattern, word):
    """Whether a word is as a pattern with R for a register says; an empty one says nothing."""
    pattern = re.escape(pattern.strip("`")).replace("R", r"(\w+)", 1).replace("R", r"\1")
    return not pattern or bool(re.fullmatch(pattern, word))


def procedure_of(listing, offset):
    """The name of the entry before a word."""
    before = [(at, name) for at, name in listing.entries().items() if at <= offset]
    return max(before)[1] if before else None


def tell_step(place, cause):
    """Says where in a sequence a word stands, and what it says that it failed there by the cause."""
    part = place.part
    step = step_of(place)
    if step:
        says = sequences.test_at(step, cause)
        say(f"{step.title} of {part.name}{': ' + says if says else ''}")
        return
    procedure = procedure_of(part.listing, place.offset) if part.is_trusted and part.is_source else None
    if procedure:
        says = check_text(part, place.offset, cause)
        say(f"in the procedure {procedure} of {part.name}{': ' + says if says else ''}")


def tell_came_from(before):
    """Says from which instruction the run came to where it failed."""
    say(f"it came there from {before.place.line}")
    tell_registers(before.place.now, before.registers)
    tell_step(before.place, "F4")


# ---- runs


def explain_failed(call, steps):
    """Says where and why a run failed that has made so many steps, the last one included."""
    state, before = Debugger(call).states(steps, 2)
    cause = re.fullmatch(r"failed \S+ (F\d+) steps \d+", state.reply)[1]
    if state.place:
        say(f"stk: {state.place.part.name} failed at the address {state.pc}, by {cause}")
        tell_place(state.place)
    else:
        say(f"stk: the run failed by {cause}, where no part has code")
    tell_cause(call, cause, state)
    if state.place:
        tell_step(state.place, cause)
    if cause in (*FETCH, "F4") and before.place and before.steps == state.steps - 2:
        tell_came_from(before)


def explain_running(call, steps):
    """Says where a run stands that was cut off after so many steps."""
    most = call.words.options.get("--steps", "1000000")
    say(f"stk: the run was cut off after {steps} steps, since --steps allows {int(most)}; it hasn't ended")
    state = Debugger(call).states(steps, 1)[0]
    if state.place is None:
        return
    say(f"{state.place.part.name} goes on at the address {state.pc}:")
    tell_place(state.place)
    tell_registers(state.place.now, state.registers)
    step = step_of(state.place)
    if step:
        say(f"{step.title} of {state.place.part.name}")


# ---- meanings


def item_ends(lines):
    """How many lines of a feed there are up to each of its items, with the `pass` line that is part of it."""
    found = []
    for number, line in enumerate(lines, 1):
        if line.startswith(b"pass ") and number > 1 and lines[number - 2].startswith(b"enter "):
            found[-1] = number
        elif line.startswith((b"enter ", b"ret out ")):
            found.append(number)
    return found


def waits_after(call, lines, count):
    """Whether the meaning waits for more behind the first lines of its feed."""
    feed = call.put("feed.txt", b"\n".join(lines[:count]) + b"\n")
    steps = ["--steps", call.words.options["--steps"]] if "--steps" in call.words.options else []
    told = call.ask_of_parts("mean", *steps, "--feed", feed)
    return told.rstrip("\n").split("\n")[-1].startswith("waiting ")


def explain_meaning(call, kind):
    """Says which item of the feed a meaning took last before it failed or had no fuel left."""
    data = read(call.feed)
    lines = data.split(b"\n")
    ends = item_ends(lines)
    least, most = 0, len(ends)
    while least < most:
        middle = (least + most) // 2
        if waits_after(call, lines, ends[middle - 1] if middle else 0):
            least = middle + 1
        else:
            most = middle
    what = "failed" if kind == "fail" else "had no fuel left"
    rules = pages.where("LANGUAGE.md", "What a source means")
    beside = f" ({rules}, has what fails)" if kind == "fail" else ""
    if least == 0:
        say(f"stk: the meaning {what} before it took an item of {named(call.feed)}{beside}")
        return
    words = f"the meaning {what} behind item {least} of {len(ends)}{beside}:"
    number = ends[least - 1]
    say_at_line(call.feed, data, number - lines[number - 1].startswith(b"pass "), words)


def explain_end(call, line):
    """Says what the end line means with which the program ended with 1 or 2."""
    fields = line.split()
    steps = int(fields[-1])
    if call.action == "mean":
        explain_meaning(call, fields[0])
    elif not call.parts:
        say(f"stk: the run of the parts that it made ended otherwise than by a halt: {line}")
    elif steps > FURTHEST:
        say(f"stk: {line}; a run of more than {FURTHEST:,} steps isn't made again to tell more")
    elif fields[0] == "running":
        explain_running(call, steps)
    else:
        # of a trace the steps are those before the overlay's step that failed
        explain_failed(call, steps + LONGEST_STEP if call.action == "trace" else steps)
