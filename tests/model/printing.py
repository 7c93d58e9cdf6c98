"""Numbers and lines of numbers as bytes: what a printer of the crate `text` answers and leaves in a slice, and what its reader finds.

From the words of the definitions in crates/text/specs. Bytes are lists of numbers.
"""
import re

from .base import LARGEST, line

MOST_ROOM = 16384  # the longest slice that is lent
DOT, BLANK = ord("."), ord(" ")  # every byte of one is a dot before the call
TEXT, NUMBER, PADDED, FOLLOWING, LINE = PRINTERS = range(5)


def bytes_of(ws):
    """The bytes that words are."""
    return [word % 256 for word in ws]


def spelt(text):
    return list(text.encode())


def padded(number, width):
    """Blanks in front of the digits, up to the width; of many blanks no more than a slice takes."""
    digits = spelt(str(number))
    return [BLANK] * min(width - len(digits), MOST_ROOM) + digits


def printed(which, number, width, ws):
    """What a printer prints, as far as a slice can take it."""
    if which == TEXT:
        return bytes_of(ws)
    if which == NUMBER:
        return spelt(str(number))
    if which == PADDED:
        return padded(number, width)
    if which == FOLLOWING:
        return spelt("".join(f" {word}" for word in ws) + "\n")
    return spelt(line(ws))


def length(which, number, width, ws):
    """How long it is."""
    return max(width, len(str(number))) if which == PADDED else len(printed(which, number, width, ws))


def put(which, at, number, width, ws, room):
    """The place that is answered, and the slice: the text stands from the place on, as far as the slice goes."""
    out = [DOT] * room
    for place, byte in zip(range(at, room), printed(which, number, width, ws)):
        out[place] = byte
    return min(at + length(which, number, width, ws), LARGEST), out


def read_number(ws, at, limit):
    """The number that stands at a place, and the place behind its digits: decimal, no leading nought, at most the limit; or None."""
    digits = re.match(rb"[0-9]*", bytes(bytes_of(ws))[at:])[0]
    if not re.fullmatch(rb"0|[1-9][0-9]*", digits) or int(digits) > limit:
        return None
    return int(digits), at + len(digits)
