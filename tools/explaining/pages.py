"""The sentences of the pages in docs/, from which all is taken that they say already."""
import functools
import os
import re

DOCS = os.path.join(os.path.dirname(os.path.realpath(__file__)), "..", "..", "docs")


@functools.lru_cache(maxsize=None)
def lines_of(page):
    with open(os.path.join(DOCS, page), encoding="utf-8") as file:
        return file.read().split("\n")


def section(page, heading):
    """The lines under a heading, those under its own lower headings too."""
    level = len(heading) - len(heading.lstrip("#"))
    within, found = False, []
    for line in lines_of(page):
        if line.startswith("#"):
            within = within and len(line) - len(line.lstrip("#")) > level or line == heading
        elif within:
            found.append(line)
    return found


def plain(text):
    """A sentence without its links and stars."""
    return re.sub(r"\[([^]]*)\]\([^)]*\)", r"\1", text).replace("*", "")


def rows(page, heading):
    """The cells of each row of the tables under a heading."""
    found = []
    for line in section(page, heading):
        if line.startswith("| "):
            cells = re.split(r"(?<!\\)\|", line.strip()[1:-1])
            found.append([plain(cell).strip() for cell in cells])
    return found


def row(page, heading, key, column=0):
    """The cells of the row that has this in a column, or none."""
    found = (cells for cells in rows(page, heading) if len(cells) > column and cells[column] == key)
    return next(found, None)


def where(page, heading):
    """How to find a section."""
    return f"docs/{page}, '{heading.lstrip('# ')}'"


def fault(page, heading, number):
    """What a page says of the fault of a number: its name, and when it comes."""
    cells = row(page, heading, str(number))
    if cells is None:
        return f"the fault {number} ({where(page, heading)})"
    return f"{cells[1].strip('`')}: {cells[-1]}"


def forms(action=""):
    """The forms of the commands, or of one action: they stand before the first heading but the title."""
    found = []
    for line in lines_of("COMMANDS.md"):
        if line.startswith("## "):
            return found
        if line.startswith("    stk ") and (not action or line.split()[1] == action):
            found.append(line.strip())
    return found
