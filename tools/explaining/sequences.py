"""The sequences of trusted code, as docs/RULES.md writes them: which word should stand where."""
import functools
import re
from dataclasses import dataclass
from typing import List

from . import pages

HEADING = "### The sequences"
TESTS = "### Where a run fails in a sequence"
CALL, RETURN, ENTRY = "call", "return", "entry"
HOLE = re.compile(r"<([^>]*)>")


@dataclass(frozen=True)
class Step:
    """A word of a sequence: of which one, how many words come before it, and where its sequence begins."""

    sequence: str
    index: int
    begin: int
    of: str

    @property
    def title(self):
        return f"word {self.index} of the {self.sequence} {self.of}"


@functools.lru_cache(maxsize=None)
def words_of(sequence) -> List[str]:
    """The words of a sequence, with holes for its numbers."""
    for title, words in pages.rows("RULES.md", HEADING):
        if title.startswith(sequence + ","):
            return [word.strip().strip("`") for word in words.split(";")]
    return []


def length(sequence):
    return len(words_of(sequence))


def site_length():
    return length(CALL) + length(RETURN)


def value_of(formula, numbers):
    """What a sum comes to, as `fail - (q + 3)`: the sign before a bracket is that of all in it."""
    total, sign, outer = 0, 1, 1
    for token in re.findall(r"\w+|[-+()]", formula):
        if token in "+-":
            sign = outer if token == "+" else -outer
        elif token == "(":
            outer = sign
        elif token == ")":
            outer = 1
        else:
            total += sign * (int(token) if token.isdigit() else numbers[token])
    return total


def word_at(listing, step):
    """The word that should stand at a step."""
    numbers = {"p": step.begin, "q": step.begin, "SB": listing.stack}
    numbers.update({"fail": listing.fail or 0, "literal": listing.literal or 0})
    if step.sequence == CALL:
        numbers["site"] = listing.sites.index(step.begin)
    return HOLE.sub(lambda hole: str(value_of(hole[1], numbers)), words_of(step.sequence)[step.index])


def step_at(listing, offset):
    """The step of a sequence that trusted code has at an offset, if it is one."""
    for number, site in enumerate(listing.sites):
        if 0 <= offset - site < length(CALL):
            return Step(CALL, offset - site, site, f"at site {number}")
        begin = site + length(CALL)
        if 0 <= offset - begin < length(RETURN):
            return Step(RETURN, offset - begin, begin, f"at site {number}")
    for begin, name in listing.entries().items():
        if 0 <= offset - begin < length(ENTRY):
            return Step(ENTRY, offset - begin, begin, f"of {name}")
    return None


def test_at(step, cause):
    """What a failure of a cause says at a step, or none where nothing is written of it."""
    for cells in pages.rows("COMMANDS.md", TESTS):
        if cells[:3] == [step.sequence, str(step.index), cause]:
            return cells[3]
    return None
