"""A call of the program: the files that its words name, and what else the program is asked about them."""
import errno
import os
import stat
import struct
import subprocess
import tempfile
from dataclasses import dataclass
from functools import cached_property
from typing import List, Optional

from . import machine
from .parts import Part, listing_of
from .saying import named
from .words import Words

REASONS = {
    errno.EACCES: "a folder on the way to it may not be searched",
    errno.ELOOP: "it is a link of a loop of links, which leads nowhere",
    errno.ENOTDIR: "a name on the way to it is no folder",
    errno.ENAMETOOLONG: "its name is longer than the system takes",
}
IMAGE_HEADER = struct.Struct("<4sHIH")
PART_HEADER = struct.Struct("<BI")


def why_unreadable(path):
    """Why a file can't be read, if so."""
    try:
        mode = os.stat(path).st_mode
    except OSError as error:
        if error.errno == errno.ENOENT and os.path.islink(path):
            return f"it is a link to {named(os.readlink(path))}, and there is no such file"
        return REASONS.get(error.errno, "there is no such file")
    if stat.S_ISDIR(mode):
        return "it is a folder"
    if not os.access(path, os.R_OK):
        return "it may not be read"
    return None


def is_in_pieces(path):
    """Whether a file can be read piece by piece, and again: a pipe can't."""
    try:
        found = os.stat(path)
    except OSError:
        return True
    is_plain = stat.S_ISREG(found.st_mode) or stat.S_ISDIR(found.st_mode)
    return is_plain or os.path.samestat(found, os.stat(os.devnull))


def read(path):
    with open(path, "rb") as file:
        return file.read()


@dataclass
class Call:
    """The program, its words as they were taken apart, and a folder for files of our own."""

    program: str
    words: Words
    folder: str

    def ask(self, *words):
        """What the program writes for other words."""
        ways = {"stdout": subprocess.PIPE, "stderr": subprocess.DEVNULL, "check": False}
        return subprocess.run([self.program, *words], **ways).stdout

    def ask_of_parts(self, action, *options):
        """What an action writes of the same parts, or the same image, with the same stack."""
        stack = ["--stack", self.words.options["--stack"]] if "--stack" in self.words.options else []
        return self.ask(action, *options, *stack, "--", *self.words.operands).decode("utf-8", "replace")

    def last_line(self, words):
        """The last line that the program writes for the same words again."""
        end = b""
        ways = {"stdout": subprocess.PIPE, "stderr": subprocess.DEVNULL}
        with subprocess.Popen([self.program, *words], **ways) as asked:
            while piece := asked.stdout.read(65536):
                end = (end + piece)[-65536:]
        return end.rstrip(b"\n").rsplit(b"\n", 1)[-1].decode("utf-8", "replace")

    def put(self, name, data):
        """Puts a file of our own, and gives its name."""
        path = os.path.join(self.folder, name)
        with open(path, "wb") as file:
            file.write(data)
        return path

    @property
    def action(self):
        return self.words.action

    @property
    def feed(self):
        return self.words.options.get("--feed")

    @property
    def paths(self):
        """The files in the order in which they are read."""
        operands = self.words.operands
        paths = list(operands) if self.words.is_image else [word[2:] for word in operands]
        return paths + ([self.feed] if self.feed is not None else [])

    @property
    def can_ask_again(self):
        return all(is_in_pieces(path) for path in self.paths)

    @cached_property
    def parts(self) -> List[Part]:
        """The parts of the words, or those of the image."""
        if self.words.is_image:
            return self.parts_of_image(self.words.operands[0])
        return [self.part(index, word, word[2:]) for index, word in enumerate(self.words.operands)]

    @cached_property
    def code_bases(self):
        return machine.code_bases(self)

    def part(self, index, word, path, image=None):
        return Part(index, word, path, image, lambda: listing_of(self.ask("dis", "--", word)))

    def parts_of_image(self, path):
        """The parts of an image, each with its component in a file of its own, as far as there are any."""
        data, found = read(path), []
        if len(data) < IMAGE_HEADER.size:
            return found
        at, count = IMAGE_HEADER.size, IMAGE_HEADER.unpack_from(data)[3]
        while len(found) < count and at + PART_HEADER.size <= len(data):
            trusted, length = PART_HEADER.unpack_from(data, at)
            at += PART_HEADER.size
            mark = "t:" if trusted else "u:"
            file = self.put(f"part{len(found)}.stc", data[at : at + length])
            found.append(self.part(len(found), mark + file, path, image=at))
            at += length
        return found

    def part_at(self, index) -> Optional[Part]:
        return self.parts[index] if index < len(self.parts) else None


def own_folder():
    return tempfile.TemporaryDirectory(prefix="stk-explain.")
