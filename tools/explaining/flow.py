"""The walk over trusted code by kinds, as docs/RULES.md has it: which register has which kind where a rule is
broken. What it comes to is said only where the program has told the same rule at the same place."""
from dataclasses import dataclass
from typing import Dict, List, Optional, Tuple

from . import pages
from .sequences import ENTRY, length, site_length

REGISTERS = "rcode rdata stk data t1 t2 c1 c2 a0 a1 a2 a3 g0 g1 g2".split()
PASSED = "c1 c2 a0 a1 a2 a3 g0 g1 g2".split()
LAST_OFFSET = 65535
TITLES = {"int": "Int", "any": "Any", "data": "DataCap", "stk": "Stk", "top": "Top"}

Row = Dict[str, str]


def title(kind):
    """A kind as the page writes it."""
    return TITLES.get(kind) or f"Pc({kind.split()[1]})"


def asked_title(kind):
    return "below Any" if kind == "any" else title(kind)


def below(kind, other):
    return kind == other or other == "top" or other == "any" and kind in ("int", "stk")


def row_of(**kinds):
    return {register: kinds.get(register, "any") for register in REGISTERS}


ENTRY_ROW = row_of(data="data")
CLEAN_ROW = row_of(data="data", stk="stk", t1="int", t2="int")
SITE_ROW = {"stk": "stk", "data": "data", **{register: "any" for register in PASSED}}
# At an `xjmp` each register but data is below Any.
HANDED_ROW = {register: "any" for register in REGISTERS if register != "data"}


@dataclass
class Break:
    """A rule that is broken at a place, and what is wrong there."""

    rule: str
    place: int
    why: List[str]


def wants(row, asked, rule, place, what=""):
    """The break where a register has a kind that isn't below the one that is asked."""
    wrong = {}
    for name, kind in asked.items():
        if not below(row[name], kind):
            wrong.setdefault((row[name], kind), []).append(name)
    why = []
    for (has, kind), names in wrong.items():
        verb = "is" if len(names) == 1 else "are"
        why.append(f"{', '.join(names)} {verb} {title(has)}, and must be {asked_title(kind)}")
    return Break(rule, place, [what, *why] if what else why) if why else None


@dataclass
class Instruction:
    """An instruction before which a row is current: what it asks, where it may jump, and what it leaves."""

    text: str
    place: int
    row: Row

    def __post_init__(self):
        self.op, *self.operands = self.text.split()

    def kind(self, operand):
        """The kind of a register; a number is an Int."""
        if operand == "pc":
            return f"pc {self.place}"
        return self.row.get(operand, "int")

    def broken(self, why, rule="K6"):
        return Break(rule, self.place, [why])

    def is_not(self, operand, asked):
        return self.broken(f"{operand} is {title(self.kind(operand))}, and it must be {asked}")

    @property
    def destination(self):
        return self.operands[0] if self.op in SETTERS else None

    @property
    def sources(self):
        """The registers whose kind must be known."""
        if self.op in ("jnz", *GETTERS, "lt", "plus", "minus", "move"):
            return self.operands[1:]
        return self.operands[1:] if self.op == "cca" else []

    def fault(self):
        """K5, K6 and, of an `xjmp`, K10."""
        if self.op not in OPS:
            return self.broken(not_in_table(self.text), "K5")
        if self.destination == "pc":
            return self.broken("it sets pc", "K5")
        for operand in self.sources:
            if self.kind(operand) == "top":
                return self.broken(f"{operand} is Top, and a register of kind Top is never read")
        return self.kind_fault()

    def kind_fault(self):
        first = self.operands[0] if self.operands else ""
        if self.op in ("jmp", "jnz") and not self.kind(first).startswith("pc "):
            return self.is_not(first, "Pc(o)")
        if self.op == "store":
            return self.area_fault(first) or self.below_any_fault(self.operands[1])
        if self.op == "load":
            return self.area_fault(self.operands[1])
        if self.op == "cca":
            return self.moved_fault(first)
        if self.op == "xjmp":
            return self.handed_fault()
        return None

    def area_fault(self, operand):
        return None if self.kind(operand) in ("data", "stk") else self.is_not(operand, "DataCap or Stk")

    def below_any_fault(self, operand):
        return None if below(self.kind(operand), "any") else self.is_not(operand, "below Any")

    def moved_fault(self, first):
        kind, by = self.kind(first), self.operands[1]
        if kind in ("data", "stk"):
            return None
        if not kind.startswith("pc "):
            return self.is_not(first, "DataCap, Stk or Pc(o)")
        if by in self.row or by == "pc":
            return self.broken(f"{first} is {title(kind)}, and is moved by a register and not by a number")
        if not 0 <= int(kind[3:]) + int(by) <= LAST_OFFSET:
            return self.broken(f"{first} is {title(kind)}, and is moved to {int(kind[3:]) + int(by)}")
        return None

    def handed_fault(self):
        for operand in self.operands:
            if self.below_any_fault(operand):
                return self.below_any_fault(operand)
        return wants(self.row, HANDED_ROW, "K10", self.place)

    def target(self) -> Optional[int]:
        return int(self.kind(self.operands[0])[3:]) if self.op in ("jmp", "jnz") else None

    def after(self) -> Optional[Row]:
        """The row behind it, or none where the code doesn't go on."""
        if self.op in ("fail", "halt", "jmp", "xjmp"):
            return None
        row = dict(self.row)
        if self.op == "move":
            kind = self.kind(self.operands[1])
            if kind == "stk":
                row[self.operands[1]] = "int"
            row[self.operands[0]] = kind
        elif self.op == "store":
            if self.kind(self.operands[1]) == "stk":
                row[self.operands[1]] = "int"
        elif self.op == "load":
            row[self.operands[0]] = "any"
        elif self.op == "cca" and self.kind(self.operands[0]).startswith("pc "):
            row[self.operands[0]] = f"pc {int(self.kind(self.operands[0])[3:]) + int(self.operands[1])}"
        elif self.op in GETTERS + ("lt", "plus", "minus"):
            row[self.operands[0]] = "int"
        return row


GETTERS = ("gettype", "geta", "getb", "gete", "getp", "getlin")
SETTERS = (*GETTERS, "lt", "plus", "minus", "move", "load", "cca")
OPS = (*SETTERS, "fail", "halt", "jmp", "jnz", "store", "xjmp")


def not_in_table(text):
    """Why a word is no instruction of the table."""
    if text.startswith("."):
        return "it is no instruction"
    said = [line for line in pages.section("RULES.md", "### The walk") if "stand in sequences alone" in line]
    return f"it isn't in the table: {said[0].split('. ')[0]}" if said else "it isn't in the table"


@dataclass
class Walk:
    """The walk over the code of a listing."""

    listing: object

    def __post_init__(self):
        self.declared = {at: dict(zip(REGISTERS, kinds)) for at, kinds in self.listing.rows.items()}
        self.entries, self.sites = self.listing.entries(), set(self.listing.sites)

    def first_break(self) -> Optional[Break]:
        row, at, code = None, 0, self.listing.code
        while at < len(code):
            row, at, broken = self.step(row, at)
            if broken:
                return broken
        why = "a row is current behind the last word: the code goes on there"
        return Break("K9", len(code), [why]) if row else None

    def step(self, row, at) -> Tuple[Optional[Row], int, Optional[Break]]:
        """The row behind what stands at an offset, the next offset, and what is broken there."""
        if at in self.entries:
            what = f"the entry of {self.entries[at]} begins here:"
            broken = row and wants(row, ENTRY_ROW, "K8", at, what)
            return dict(CLEAN_ROW), at + length(ENTRY), broken
        if at in self.declared:
            broken = row and wants(row, self.declared[at], "K8", at, "a row is declared here:")
            if broken:
                return row, at, broken
            row = self.declared[at]
        if at in self.sites:
            broken = row and wants(row, SITE_ROW, "K10", at)
            return dict(CLEAN_ROW) if row else None, at + site_length(), broken
        if row is None:
            return None, at + 1, None
        return self.word(row, at)

    def word(self, row, at):
        instruction = Instruction(self.listing.code[at], at, row)
        broken = instruction.fault()
        if broken:
            return row, at, broken
        target = instruction.target()
        if target is not None:
            broken = self.jump_fault(instruction, target)
        return instruction.after(), at + 1, broken

    def jump_fault(self, instruction, target):
        """K7 of a jump to an offset."""
        place, row = instruction.place, instruction.row
        if target == self.listing.fail:
            return None
        if target in self.entries:
            what = f"it jumps to {target}, the entry of {self.entries[target]}:"
            return wants(row, ENTRY_ROW, "K7", place, what)
        if target in self.declared:
            what = f"it jumps to {target}, where a row is declared:"
            return wants(row, self.declared[target], "K7", place, what)
        why = f"it jumps to {target}: no fail and no entry's first word, and no row is declared there"
        return Break("K7", place, [why])
