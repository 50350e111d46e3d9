"""Where a run stands: the debugger of the program is asked, and `reach` for where each part's code begins."""
import re
from dataclasses import dataclass
from typing import Dict, List, Optional

from . import pages
from .parts import Part

REGISTERS = "pc rcode rdata stk data t1 t2 c1 c2 a0 a1 a2 a3 g0 g1 g2".split()
MOST_STEPS, LAST_ADDRESS = 1000000, 1048575
CAPABILITY = re.compile(r"cap\((\w+),(\w+),(\d+),(\d+),(-?\d+)\)")
INTEGER = re.compile(r"-?\d+")


@dataclass
class Place:
    """A word of a part's code at which pc stands, and the instruction that its cell holds then."""

    part: Part
    offset: int
    now: str = ""

    @property
    def line(self):
        return self.part.word_line("code", self.offset)

    @property
    def text(self):
        """The word as `dis` writes it of the part."""
        return self.part.listing.code[self.offset]


@dataclass
class State:
    """A state of the run: the registers by their names, what the last step replied, and where pc stands."""

    registers: Dict[str, str]
    reply: str
    place: Optional[Place] = None

    @property
    def steps(self):
        return int(self.reply.split()[-1]) if self.reply else 0

    @property
    def pc(self):
        match = CAPABILITY.fullmatch(self.registers.get("pc", ""))
        return int(match[5]) if match else None

    @property
    def has_address(self):
        """Whether a cell may stand at pc's address."""
        return self.pc is not None and 0 <= self.pc <= LAST_ADDRESS


class Debugger:
    """Scripts over the parts of a call; each begins at the start of the run."""

    def __init__(self, call):
        self.call = call

    def replies(self, steps, commands) -> List[str]:
        """The last reply to so many steps forward, and those to commands behind them."""
        forward = ["f 1000000"] * (steps // MOST_STEPS)
        forward += [f"f {steps % MOST_STEPS}"] if steps % MOST_STEPS else []
        script = self.call.put("script.txt", "".join(line + "\n" for line in forward + commands).encode())
        found = self.call.ask_of_parts("debug", "--feed", script).splitlines()
        if len(found) != len(forward) + len(commands):
            raise ValueError("debug doesn't answer as it is due")
        return found[len(forward) - 1 :] if forward else ["", *found]

    def states(self, steps, back) -> List[State]:
        """The state behind so many steps, and that before the last ones of them, each with its place."""
        looks = [f"r {register}" for register in REGISTERS]
        found = self.replies(steps, [*looks, f"b {back}", *looks])
        count = len(looks)
        states = [State(dict(zip(REGISTERS, found[1:])), found[0])]
        states.append(State(dict(zip(REGISTERS, found[count + 2 :])), found[count + 1]))
        self.find_places(steps, back, states)
        return states

    def find_places(self, steps, back, states):
        """Finds the words at which pc stands in two states, with what their cells hold in these."""
        looks = [f"c {state.pc if state.has_address else 0}" for state in states]
        cells = self.replies(steps, [looks[0], f"b {back}", looks[1]])[1::2]
        for state, cell in zip(states, cells):
            state.place = place_of(self.call, state.pc)
            if state.place:
                state.place.now = instruction_of(self.call, cell)


def code_bases(call):
    """Where the code of each part stands: the one stretch that the part can run."""
    found = []
    for line in call.ask_of_parts("reach").splitlines():
        fields = line.split()
        if fields[0] == "part":
            found.append(None)
        elif fields[0] == "at" and fields[3].endswith("x"):
            found[-1] = int(fields[1])
    return found


def place_of(call, address) -> Optional[Place]:
    """The word of a part's code that stands at an address."""
    for part, base in zip(call.parts, call.code_bases):
        within = address is not None and base is not None and part.listing
        if within and 0 <= address - base < len(part.listing.code):
            return Place(part, address - base)
    return None


def instruction_of(call, word):
    """A word of a cell as `dis` writes it in the code."""
    if not INTEGER.fullmatch(word):
        return word
    lines = [".name a", ".stack 0", ".closure 0", ".code 0", f".int {word}", ".data 2", ".int 0", ""]
    file = call.put("word.asm", "\n".join(lines).encode())
    return call.ask("dis", "--", f"u:{file}").decode().split("\n")[4]


# ---- the conditions of an instruction


@dataclass
class Condition:
    """A condition of an instruction: its cause, what it asks, and of which register."""

    cause: str
    asks: str
    of: str


def conditions_of(instruction):
    """The conditions of an instruction in their order, with its own registers and numbers in them."""
    op, *operands = instruction.split()
    for cells in pages.rows("MACHINE.md", "## The instructions"):
        form = cells[1].strip("`").split() if len(cells) > 3 else [""]
        if form[0] == op:
            names = dict(zip(form[1:], operands))
            text = re.sub(r"\b(r[123]|n)\b", lambda match: names.get(match[0], match[0]), cells[3])
            return conditions_in(text)
    return []


def conditions_in(text):
    found, of = [], ""
    for part in text.split(";"):
        match = re.match(r"(F\d+) (.*)", part.strip())
        if match:
            register = re.match(r"w\((\w+)\)|the content of (\w+)|(-?\w+) integer", match[2])
            of = next((name for name in register.groups() if name), of) if register else of
            found.append(Condition(match[1], match[2], of))
    return found


KINDS = {
    "integer": INTEGER.fullmatch,
    "memory capability": CAPABILITY.fullmatch,
    "seal capability": lambda word: word.startswith("seal("),
    "cap": lambda word: word.startswith(("cap(", "seal(")),
    "sealed": lambda word: word.startswith("sealed("),
}


def content_of(word):
    return word.split(",", 1)[1][:-1] if word.startswith("sealed(") else ""


def holds(condition, registers):
    """Whether a condition holds, of those of which an instruction has two with one cause; else none."""
    word = registers.get(condition.of, condition.of)
    content = content_of(word)
    runs = content.startswith(("cap(rx,", "cap(rwx,"))
    kind = re.fullmatch(rf"(?:w\(\w+\)|-?\w+) ({'|'.join(KINDS)})", condition.asks)
    if kind:
        return bool(KINDS[kind[1]](word))
    if condition.asks.endswith("is 0 to 4"):
        return word in ("0", "1", "2", "3", "4")
    if condition.asks.endswith("is a memory capability"):
        return bool(CAPABILITY.fullmatch(content))
    if condition.asks == "it is `rx` or `rwx`":
        return runs
    return not runs if "isn't a memory capability with" in condition.asks else None


def failing(instruction, cause, registers) -> Optional[Condition]:
    """The first condition of the cause that doesn't hold."""
    found = [condition for condition in conditions_of(instruction) if condition.cause == cause]
    broken = [condition for condition in found if holds(condition, registers) is False]
    return broken[0] if broken else found[-1] if found else None
