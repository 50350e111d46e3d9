"""The words of a call: taken apart, and what is wrong with them where they are no command."""
import os
import re
from dataclasses import dataclass, field
from typing import Dict, List, Optional

from . import pages
from .saying import named, say

# The least and the greatest value of each option that has a number.
NUMBERS = {"--stack": (0, 4294967295), "--steps": (1, 1000000000), "--seed": (0, 2147483647)}
NAMES = ("--out", "--feed")
ENDINGS = (".stc", ".asm", ".prc", ".tok")
MOST_PARTS = 16
LONGEST_NAME = 255
# The parts that an action takes, where it doesn't take all.
ONE_KIND = {
    "asm": (r"[tu]:.*\.asm", "the name of asm's part ends in .asm"),
    "compile": (r"[tu]:.*\.(prc|tok)", "the name of compile's part ends in .prc or .tok"),
    "mean": (r"t:.*\.(prc|tok)", "each part of mean is a trusted source, t:NAME.prc or t:NAME.tok"),
    "erase": (r"t:.*\.tok", "the part of erase is t:NAME.tok"),
}


@dataclass
class Words:
    """The words by what they are, and the first that is wrong with them before the action is looked at."""

    action: Optional[str] = None
    options: Dict[str, str] = field(default_factory=dict)
    operands: List[str] = field(default_factory=list)
    behind_dashes: List[str] = field(default_factory=list)
    wrong: Optional[str] = None

    def note(self, wrong):
        self.wrong = self.wrong or wrong

    @property
    def is_image(self):
        """Whether they name an image in place of parts."""
        return len(self.operands) == 1 and is_image(self.operands[0])


def is_image(word):
    return word.endswith(".img") and word[:2] not in ("t:", "u:")


def name_fault(what, name):
    if not name or name.startswith("-"):
        return f"{what} '{named(name)}': a name isn't empty and doesn't begin with -"
    if len(os.fsencode(name)) > LONGEST_NAME:
        return f"{what}: a name has at most {LONGEST_NAME} bytes"
    return None


def value_fault(option, value):
    """What is wrong with the value of an option, if anything."""
    if option in NAMES:
        return name_fault(option, value)
    least, most = NUMBERS[option]
    if not re.fullmatch("[0-9]+", value):
        return f"the value of {option} is a number, in decimal digits alone"
    digits = value.lstrip("0") or "0"
    if len(digits) > 10 or not least <= int(digits) <= most:
        return f"the value of {option} is {least} to {most}"
    return None


def take_option(found, option, value):
    if option not in NUMBERS and option not in NAMES:
        found.note(f"{named(option)} is no option")
        return
    if option in found.options:
        found.note(f"{option} stands twice")
    if value is None:
        found.note(f"{option} has no value")
        return
    found.options[option] = value
    wrong = value_fault(option, value)
    if wrong:
        found.note(wrong)


def not_utf8(words):
    """The first word that isn't UTF-8, if there is one."""
    for word in words:
        try:
            os.fsencode(word).decode("utf-8")
        except UnicodeDecodeError:
            return word
    return None


def take_word(found, word, left):
    """Takes one word that stands before `--`, and the value behind it where it has one."""
    option, sign, value = word.partition("=")
    if word in ("--help", "-h"):
        found.note("these are the commands")
    elif word in ("--explain", "--unproved"):
        found.note(f"{word} stands as the first word only, alone before the others: ./stk {word} WORDS")
    elif sign and option.startswith("--"):
        take_option(found, option, value)
    elif word in NUMBERS or word in NAMES:
        take_option(found, word, left.pop(0) if left else None)
    elif word.startswith("-"):
        found.note(f"{named(word)} is no option")
    else:
        take_operand(found, word)


def take_operand(found, word):
    if found.action is None:
        found.action = word
    else:
        found.operands.append(word)


def take_apart(words):
    found = Words()
    odd = not_utf8(words)
    if odd is not None:
        found.note(f"the word '{named(odd)}' isn't UTF-8")
    left = list(words)
    while left:
        word = left.pop(0)
        if word == "--":
            found.behind_dashes = list(left)
            for operand in left:
                take_operand(found, operand)
            break
        take_word(found, word, left)
    return found


def option_fault(found, forms):
    """An option that the action doesn't take, or one that it asks for."""
    for option in found.options:
        if option + " " not in forms + " ":
            return f"{found.action} takes no {option}"
    for option in ("--out", "--feed", "--seed"):
        if option in forms and option not in found.options:
            return f"{found.action} asks for {option}"
    return None


def count_fault(found, forms):
    count = len(found.operands)
    if "PART.." in forms:
        if count == 0:
            return f"{found.action} asks for a part"
        if count > MOST_PARTS:
            return f"{found.action} takes at most {MOST_PARTS} parts, and here are {count}"
    elif "PART" in forms:
        if count != 1:
            return f"{found.action} takes one part, and here are {count}"
    elif count:
        return f"{found.action} takes no part"
    return None


def image_fault(found, word, forms):
    if "IMAGE" not in forms:
        return f"{named(word)}: {found.action} takes no image"
    if len(found.operands) > 1:
        return f"{named(word)}: an image stands alone, in place of parts"
    if "--stack" in found.options:
        return f"{named(word)}: an image tells the size of the stack itself"
    return name_fault("image", word)


def unmarked_fault(found, word, forms):
    """A word with no mark that is no image: which word was perhaps meant."""
    name = named(word)
    if word in found.behind_dashes and word.startswith("-"):
        return f"{name} stands behind --, where each word is an action, a part or an image"
    mark, colon, rest = word.partition(":")
    if colon and "/" not in mark and rest.endswith(ENDINGS):
        return f"{name}: the mark of a part is u: or t:, and here it is {named(mark)}:"
    if name_fault("part", word) is None and word.endswith(".tok"):
        return f"{name} has no mark: t:{name} is a part, which is trusted"
    if name_fault("part", word) is None and word.endswith(ENDINGS):
        return f"{name} has no mark: u:{name} is a part that isn't trusted, t:{name} one that is"
    ends = ".stc, .asm, .prc or .tok"
    image = "; an image is a name that ends in .img" if "IMAGE" in forms else ""
    small = ", in small letters" if word.lower().endswith(ENDINGS + (".img",)) else ""
    return f"'{name}' is no part, which is u:NAME or t:NAME with a name that ends in {ends}{image}{small}"


def part_fault(found, word, forms):
    """Why a word may not stand behind the action, if so."""
    if is_image(word):
        return image_fault(found, word, forms)
    if word[:2] not in ("t:", "u:"):
        return unmarked_fault(found, word, forms)
    if word.endswith(".img"):
        return f"{named(word)}: an image has no mark, and only run, trace, reach and debug take one"
    if name_fault("part", word[2:]):
        return name_fault("part", word[2:])
    if not word.endswith(ENDINGS):
        return f"{named(word)}: the name of a part ends in .stc, .asm, .prc or .tok"
    if word.startswith("u:") and word.endswith(".tok"):
        return f"{named(word)}: a part in .tok is trusted, t:{named(word[2:])}"
    pattern, wants = ONE_KIND.get(found.action, (".*", ""))
    return None if re.fullmatch(pattern, word, re.S) else f"{named(word)}: {wants}"


def why_no_command(found):
    """What is wrong with the words, as far as it is what mostly is."""
    if found.wrong:
        return found.wrong
    if found.action is None:
        return "these are the commands"
    forms = "\n".join(pages.forms(found.action)) if re.fullmatch("[a-z]+", found.action) else ""
    if not forms:
        return f"{named(found.action)} is no action"
    wrong = option_fault(found, forms) or count_fault(found, forms)
    for word in found.operands:
        wrong = wrong or part_fault(found, word, forms)
    return wrong or "these words are no command"


def explain_usage(found):
    say(f"stk: {why_no_command(found)}")
    action = found.action or ""
    for form in pages.forms(action) or pages.forms():
        say(form)
