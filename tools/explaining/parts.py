"""A part: its component, as `dis` writes it, and where the lines of an assembler text have its items."""
import re
from dataclasses import dataclass, field
from functools import cached_property
from typing import Callable, Dict, List, Optional, Tuple

from .saying import named

LABEL = re.compile(rb"\s*[a-z_][a-z0-9_]*\s*:")
DIRECTIVE = re.compile(rb"\s*\.\s*([a-z]+)")
WORDS = ("int", "cap", "seal")
MOST_BYTES = 4194304


@dataclass
class Listing:
    """A component by its text: each number of it, its words as lines, and its lists."""

    name: str = ""
    stack: int = 0
    closure: int = 0
    movable: bool = False
    seals: Tuple[int, int] = (0, 0)
    linear: Tuple[int, int] = (0, 0)
    code_base: int = 0
    data_base: int = 0
    code: List[str] = field(default_factory=list)
    data: List[str] = field(default_factory=list)
    imports: List[List[str]] = field(default_factory=list)
    exports: List[List[str]] = field(default_factory=list)
    sites: List[int] = field(default_factory=list)
    fail: Optional[int] = None
    literal: Optional[int] = None
    rows: Dict[int, List[str]] = field(default_factory=dict)

    def take(self, directive, fields):
        """Takes an item that is no word."""
        numbers = [int(word) for word in fields if word.isdigit()]
        if directive == "name":
            self.name = fields[0]
        elif directive == "movable":
            self.movable = True
        elif directive in ("stack", "closure", "fail", "literal"):
            setattr(self, directive, numbers[0])
        elif directive in ("code", "data"):
            setattr(self, directive + "_base", numbers[0])
        elif directive in ("seals", "linear"):
            setattr(self, directive, (numbers[0], numbers[1]))
        elif directive in ("import", "export"):
            getattr(self, directive + "s").append(fields)
        elif directive == "site":
            self.sites.append(numbers[0])
        elif directive == "row":
            self.rows[numbers[0]] = kinds_of(fields[1:])

    def words(self, section):
        return self.code if section == "code" else self.data

    def areas(self):
        """The areas that aren't empty: the name, the base and the end of each."""
        spans = [("code", self.code_base, len(self.code)), ("data", self.data_base, len(self.data))]
        spans.append(("linear area", *self.linear))
        return [(name, base, base + count - 1) for name, base, count in spans if count]

    def seal_numbers(self):
        return set(range(self.seals[0], sum(self.seals))) | {self.closure}

    def entries(self):
        """The names of the exports at each offset."""
        found = {}
        for name, offset, _ in self.exports:
            found.setdefault(int(offset), name)
        return found


def kinds_of(fields):
    """The kinds of the registers 1 to 15; that of a pc has its offset as a second field."""
    left, found = list(fields), []
    while left:
        kind = left.pop(0)
        found.append(f"pc {left.pop(0)}" if kind == "pc" else kind)
    return found


def listing_of(text):
    """The component of a text that `dis` wrote, or none where it wrote something else."""
    if not text.startswith(b".name "):
        return None
    found, section = Listing(), None
    for line in text.decode("ascii", "replace").splitlines():
        fields = line.split()
        directive = fields[0][1:] if fields[0].startswith(".") else None
        if section and (directive is None or directive in WORDS):
            found.words(section).append(line)
        else:
            section = directive if directive in ("code", "data") else None
            found.take(directive, fields[1:])
    return found


def lines_by_item(data):
    """The numbers of the lines of an assembler text that have the words and the items, by their kinds."""
    found, section = {}, None
    for number, line in enumerate(data.split(b"\n"), 1):
        rest = LABEL.sub(b"", line.split(b"#")[0], count=1)
        match = DIRECTIVE.match(rest)
        directive = match[1].decode() if match else None
        if section and rest.strip() and (directive is None or directive in WORDS):
            found.setdefault(section, []).append(number)
        elif directive:
            section = directive if directive in ("code", "data") else None
            found.setdefault("." + directive, []).append(number)
    return found


@dataclass
class Part:
    """A part of a call: its number, its word and its file, and how to get its component's text."""

    index: int
    word: str
    path: str
    image: Optional[int]
    list_it: Callable[[], Optional[Listing]]

    @property
    def is_trusted(self):
        return self.word.startswith("t:")

    @property
    def is_source(self):
        return self.word.endswith((".prc", ".tok"))

    @cached_property
    def listing(self):
        return self.list_it()

    @property
    def title(self):
        """Its file, and of an image its number there."""
        return named(self.path) + ("" if self.image is None else f", part {self.index}")

    @cached_property
    def lines(self):
        if self.image is not None or not self.path.endswith(".asm"):
            return {}
        with open(self.path, "rb") as file:
            return lines_by_item(file.read(MOST_BYTES))

    def place_of(self, kind, index=0):
        """The file and, of an assembler text, the line of an item."""
        numbers = self.lines.get(kind, [])
        return f"{self.title}:{numbers[index]}" if index < len(numbers) else self.title

    def word_line(self, section, index):
        """A word of the code or of the data, with its line."""
        words = self.listing.words(section)
        if not 0 <= index < len(words):
            return f"{self.title}: the {section} has {len(words)} words, which count from 0"
        return f"{self.place_of(section, index)}: word {index} of the {section}: {words[index]}"

    def indexed(self, index):
        """The section in which a word index stands, and the index there."""
        count = len(self.listing.code)
        return ("code", index) if index < count else ("data", index - count)

    def item_line(self, kind, index):
        """An item of a list, with its line."""
        items = {"import": self.listing.imports, "export": self.listing.exports}
        items["site"] = [[str(site)] for site in self.listing.sites]
        items["row"] = [[str(at), *kinds] for at, kinds in self.listing.rows.items()]
        return f"{self.place_of('.' + kind, index)}: .{kind} {' '.join(items[kind][index])}"

    @cached_property
    def name(self):
        """Its own name, by which other parts import from it."""
        return self.listing.name if self.listing else named(self.path)
