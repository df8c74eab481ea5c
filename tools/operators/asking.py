"""Asks the program, reads files, and ends a tool: what can't be taken is told on standard error with file and line, and the status is 2."""

import concurrent.futures
import os
import re
import subprocess
import sys
from typing import NamedTuple

from operators.faults import fault_words

# The first call of `./statesman` proves and builds it.
PROGRAM = os.path.join(os.path.dirname(os.path.dirname(os.path.dirname(os.path.abspath(__file__)))), "statesman")
# Names another program, for checks that type commands as they stand in pages.
PROGRAM_VARIABLE = "STATESMAN_PROGRAM"

OK, TOO_LONG, BAD_LINE, FULL, ILLEGAL = 0, 4, 5, 6, 7
BAD_END, INTERRUPTED, BROKEN_PIPE = 2, 130, 141

AT_ONCE = os.cpu_count() or 1

COUNTS = re.compile(r"ok groups \d+ devices \d+ links \d+ promises \d+ apps \d+ commands \d+\n\Z")


class BadInput(Exception):
    """What can't be taken, in the words that are told."""


class Answer(NamedTuple):
    status: int
    text: str


def add_program(parser):
    parser.add_argument("--program", metavar="FILE", default=os.environ.get(PROGRAM_VARIABLE, PROGRAM),
                        help="the program to ask (the one that %s names, else ./statesman of this repository)" % PROGRAM_VARIABLE)


def read_file(path):
    """The bytes of a file, or of standard input where its name is `-`."""
    try:
        if path == "-":
            return sys.stdin.buffer.read()
        with open(path, "rb") as file:
            return file.read()
    except OSError as error:
        raise BadInput("%s: %s" % (shown(path), error.strerror)) from None
    except ValueError as error:
        raise BadInput("%r: %s" % (path, error)) from None


def shown(path):
    """A file's name as it is told."""
    return "standard input" if path == "-" else path


def ask(program, words, data):
    """What the program answers to words and an input. What it says on standard error, as while it is built, is passed on."""
    try:
        ended = subprocess.run([program, *words], input=data, stdout=subprocess.PIPE, check=False)
    except OSError as error:
        raise BadInput("%s: can't be run: %s" % (program, error.strerror)) from None
    answer = Answer(ended.returncode, ended.stdout.decode("latin-1"))
    if answer.status not in (OK, TOO_LONG, BAD_LINE, FULL, ILLEGAL):
        raise BadInput("%s %s: ended with status %d%s" % (program, " ".join(words), answer.status, said(answer)))
    if answer.status == OK and not is_answer(words, answer.text):
        raise BadInput("%s %s: is not the program: it answers %r" % (program, " ".join(words), answer.text[:60]))
    return answer


def each_at_once(function, items, count=AT_ONCE):
    """What a function gives for each of some items, so many at a time. Where one raises, no further one is begun."""
    with concurrent.futures.ThreadPoolExecutor(count) as pool:
        try:
            return list(pool.map(function, items))
        finally:
            pool.shutdown(wait=False, cancel_futures=True)


def is_answer(words, text):
    """Whether a text can be the answer to words without a form: a line that counts, or a report."""
    if words == ["check"]:
        return COUNTS.match(text) is not None
    return len(words) > 1 or (text.startswith("statesman report 1\n") and text.endswith("end\n"))


def said(answer):
    return ", and said %r" % answer.text[:60] if answer.text else ""


def answer_of(program, words, path, data):
    """The text of an answer; a fault of the input is raised, with its line in words."""
    answer = ask(program, words, data)
    if answer.status != OK:
        raise BadInput(told_fault(path, data, answer.text))
    return answer.text


def told_fault(path, data, text):
    """A line that begins with `fault`, in words: the file, the line, what is wrong with it, and the line of the program."""
    line, what = fault_words(data, text)
    return "%s:%s %s (%s)" % (shown(path), "%d:" % line if line else "", what, text.strip())


def run_tool(main):
    """Ends a tool with the status that `main` answers, or as its input calls for."""
    sys.stdout.reconfigure(errors="backslashreplace")
    try:
        status = main()
        sys.stdout.flush()
    except BadInput as bad:
        return last_words(str(bad))
    except KeyboardInterrupt:
        return INTERRUPTED
    except BrokenPipeError:
        os.dup2(os.open(os.devnull, os.O_WRONLY), sys.stdout.fileno())
        return BROKEN_PIPE
    except OSError as error:
        os.dup2(os.open(os.devnull, os.O_WRONLY), sys.stdout.fileno())
        return last_words("standard output: %s" % error.strerror)
    return status


def last_words(text):
    """Tells what ended a tool, behind all that it wrote."""
    try:
        sys.stdout.flush()
    except OSError:
        os.dup2(os.open(os.devnull, os.O_WRONLY), sys.stdout.fileno())
    print(text, file=sys.stderr)
    return BAD_END
