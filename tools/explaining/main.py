"""Runs the program, and says what its answer means where it refused, failed or was cut off."""
import os
import signal
import subprocess

from . import runs
from .calls import Call, own_folder, read
from .faults import explain_line, explain_read
from .saying import named, say
from .words import explain_usage, take_apart

USAGE, READ, OUTPUT, MEMORY = 10, 11, 12, 13
ENDED, REFUSED = (1, 2), (14, 15, 16, 17, 18, 20)
KINDS = {14: "a file is too long", 15: "an assembler text has a fault", 16: "a source has a fault"}
KINDS.update({17: "a file hasn't its form", 18: "a rule is broken", 20: "the text is no trace of a run"})
KINDS.update({1: "the run or the meaning failed", 2: "the run or the meaning was cut off"})


def run(program, words):
    """Runs the program as it would run alone, and gives its status as a shell tells it."""
    child = subprocess.Popen([program, *words])
    while True:
        try:
            status = child.wait()
            return 128 - status if status < 0 else status
        except KeyboardInterrupt:
            continue


def explain_signal(status):
    try:
        name = signal.Signals(status - 128).name
    except ValueError:
        name = str(status - 128)
    if name == "SIGXFSZ":
        say("stk: a file would have passed the limit on sizes (ulimit -f), so the system ended the program")
    elif name != "SIGINT":
        say(f"stk: the system ended the program by the signal {name}")


def output_name():
    """The name of the file that is the standard output, as far as the system tells it."""
    try:
        return f" ({named(os.readlink('/proc/self/fd/1'))})"
    except OSError:
        return " (it is closed)"


def why_not_put(path):
    """Why a file can't be put, as far as that can be seen."""
    folder = os.path.dirname(path) or "."
    if os.path.isdir(path):
        return "it is a folder"
    if not os.path.isdir(folder):
        return f"there is no folder {named(folder)}"
    if not os.access(path if os.path.exists(path) else folder, os.W_OK):
        return "it may not be written"
    return "no space is left" if os.statvfs(folder).f_bavail == 0 else "the system refused it"


def was_put(call, path):
    """Whether a file holds what the program puts for the same words, as it does here once more elsewhere."""
    own = os.path.join(call.folder, "put")
    call.ask_of_parts(call.action, "--out", own)
    try:
        return read(own) == read(path)
    except OSError:
        return False


def explain_output(call):
    """Says whether the standard output or the file of --out failed."""
    path = call.words.options.get("--out")
    output = f"stk: the standard output{output_name()} could not be written"
    if path is None:
        say(output)
    elif not call.can_ask_again:
        say(f"{output}, or {named(path)} could not be put")
    elif was_put(call, path):
        say(f"{output}; {named(path)} was put")
    else:
        say(f"stk: {named(path)} could not be put: {why_not_put(path)}")


def explain_again(call, status, words):
    """Asks the program once more for its last line, and says what it means."""
    if not call.can_ask_again:
        say(f"stk: {KINDS[status]}; no more is said, since a file of the words can't be read twice")
        return
    line = call.last_line(words)
    if status in ENDED:
        runs.explain_end(call, line)
    else:
        explain_line(call, line)


def explain(program, words, status):
    """Says what a status means that isn't 0."""
    found = take_apart(words)
    if status == USAGE:
        explain_usage(found)
    elif status == MEMORY:
        say("stk: memory was refused, before anything was written or put")
    elif status > 128:
        explain_signal(status)
    elif status in (READ, OUTPUT, *ENDED, *REFUSED):
        with own_folder() as folder:
            call = Call(program, found, folder)
            if status == READ:
                explain_read(call)
            elif status == OUTPUT:
                explain_output(call)
            else:
                explain_again(call, status, words)
    else:
        say(f"stk: the program ended with {status}, which is no answer of its own")


def main(program, words):
    """Runs the program with the words; its status is the answer, whatever comes of the explaining."""
    status = run(program, words)
    if status:
        try:
            explain(program, words, status)
        except Exception as error:  # what is said besides must not change the answer
            say(f"stk: no more can be said: {type(error).__name__}: {error}")
    return status
