"""What the model's parts share: refusals, words as text, and the ten records of a sheet."""
import re

LARGEST = 2**64 - 1
RECORDS = "names bounds types self steps returns structs params output force".split()
HEADING = (" ".join(RECORDS) + "\n").encode()


class Refusal(Exception):
    """A refusal with its number in 01's table."""

    def __init__(self, number):
        super().__init__(number)
        self.number = number


def refuse(due, number):
    if due:
        raise Refusal(number)


def number_of(call, *given):
    """The number by which a call is refused, or 0."""
    try:
        call(*given)
    except Refusal as refusal:
        return refusal.number
    return 0


# ---- words as text: "0 2..33 7*512 (0 7)*3" are a 0, the numbers from 2 to 33, 512 times 7, and three times 0 7


def words(text):
    if "(" in text:
        text = re.sub(r"\((.*?)\)\*(\d+)", lambda m: (m[1] + " ") * int(m[2]), text)
    out = []
    for part in text.split():
        if ".." in part:
            first, last = part.split("..")
            out += range(int(first), int(last) + 1)
        elif "*" in part:
            word, count = part.split("*")
            out += [int(word)] * int(count)
        else:
            out.append(int(part))
    return out


def paired(ws):
    """Words as pairs."""
    return list(zip(ws[0::2], ws[1::2]))


def pairs(text):
    return paired(words(text))


def lists(text):
    """Lists of words, parted by "/"."""
    return [words(part) for part in text.split("/")] if text else []


def records(text):
    """The ten records of a sheet, parted by "|"."""
    out = [words(part) for part in text.split("|")]
    assert len(out) == len(RECORDS), text
    return out


def flat(parts):
    """One list of the elements of several."""
    return [element for part in parts for element in part]


def record(ws):
    """A record as a question has it: the number of its words, then they."""
    return [len(ws)] + ws


def line(numbers):
    return " ".join(map(str, numbers)) + "\n"


def written(rs):
    """The text of a sheet with these records."""
    return HEADING + "".join(line(r) for r in rs).encode()
