"""Makes a document that shows a difference small: lines left out by halves down to one, then tokens, then smaller numbers."""

import re
import time


def smaller(text, still_differs, seconds):
    """The smallest text that was found within the time and still differs."""
    end = time.monotonic() + seconds

    def shows(lines):
        return time.monotonic() < end and still_differs(b"".join(lines))

    lines = re.findall(rb"[^\n]*\n|[^\n]+", text)
    before = None
    while before != lines and time.monotonic() < end:
        before = lines
        lines = fewer_lines(lines, shows)
        lines = shorter_lines(lines, shows)
        lines = lower_numbers(lines, shows)
    return b"".join(lines)


def fewer_lines(lines, shows):
    size = max(1, len(lines) // 2)
    while True:
        place = 0
        while place < len(lines):
            rest = lines[:place] + lines[place + size:]
            if shows(rest):
                lines = rest
            else:
                place += size
        if size == 1:
            return lines
        size //= 2


def shorter_lines(lines, shows):
    """Tries each line without one of its tokens."""
    for place in range(len(lines)):
        token = 1
        while token < len(lines[place].split()):
            tokens = lines[place].split()
            del tokens[token]
            changed = lines[:place] + [b" ".join(tokens) + b"\n"] + lines[place + 1:]
            if shows(changed):
                lines = changed
            else:
                token += 1
    return lines


def lower_numbers(lines, shows):
    """Tries 0, 1 and the half in the place of each number that is a token or stands behind a `=`."""
    for place in range(len(lines)):
        for found in reversed(list(re.finditer(rb"(?<=[ =])[0-9]+(?=[ \n])", lines[place]))):
            number = int(found.group())
            for lower in (0, 1, number // 2):
                line = lines[place][:found.start()] + b"%d" % lower + lines[place][found.end():]
                changed = lines[:place] + [line] + lines[place + 1:]
                if lower < number and shows(changed):
                    lines = changed
                    break
    return lines
