"""What is written on standard error: sentences, and lines of files with a caret under a column."""
import os
import sys


def shown(text):
    """A text as it can be shown: a character that can't be printed is a question mark."""
    if isinstance(text, bytes):
        text = text.decode("utf-8", "replace")
    plain = (char if char.isprintable() or char == "\t" else "?" for char in text)
    return "".join(plain).replace("\ufffd", "?")


def named(name):
    """A word of the command line, a name of a file say, as it can be shown."""
    return shown(os.fsencode(name)).replace("\t", "?")


def say(text):
    """Writes a line. Where nobody reads it, nothing is lost but the line."""
    try:
        sys.stderr.buffer.write(text.encode("utf-8", "replace") + b"\n")
        sys.stderr.buffer.flush()
    except (OSError, ValueError, AttributeError):
        pass


def screen_width():
    try:
        return max(os.get_terminal_size(2).columns, 20)
    except OSError:
        return 100


def cut(text, at=0):
    """As much of a text as a line of the screen has, with what stands at `at`, and where that stands then."""
    width = screen_width()
    if len(text) <= width:
        return text, at
    room = width - 4
    start = max(0, min(at - room // 2, len(text) - room))
    front = "" if start == 0 else ".."
    end = "" if start + room >= len(text) else ".."
    return front + text[start : start + room] + end, at - start + len(front)


def say_line(line, column=None):
    """Shows a line of a file, given as bytes, with a caret under a byte of it."""
    text = shown(line)
    at = 0 if column is None else len(shown(line[:column]))
    text, at = cut(text, at)
    say(text)
    if column is not None:
        say("".join("\t" if char == "\t" else " " for char in text[:at]) + "^")


def say_at_byte(name, data, at, words):
    """Says words of the byte `at` of a file, with its line, and shows that line with a caret."""
    before = data[:at]
    start = before.rfind(b"\n") + 1
    line = data[start:].split(b"\n", 1)[0]
    end = " (This is the end of the text.)" if at >= len(data) else ""
    place = f"{before.count(10) + 1}:{len(before) - start + 1}"
    say(f"{named(name)}:{place}: {words}{end}")
    say_line(line, len(before) - start)


def say_at_line(name, data, number, words):
    """Says words of a line, which counts from 1, and shows it."""
    say(f"{named(name)}:{number}: {words}")
    lines = data.split(b"\n")
    if number <= len(lines):
        say_line(lines[number - 1])
