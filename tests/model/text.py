"""Bytes to the ten records of a sheet, whether these are in shape, and ten records to bytes (02, W-214).

`wrong` is the wrong reading of 01 or 02 that is followed, if any: one of WRONG, or where records are written one of WRONG_WRITTEN. tests/readings.py shows that each of the first contradicts an answer,
tests/vectors.py that each of the second does.
"""
import re

from . import elision, environment, methods
from .base import HEADING, RECORDS, Refusal, flat, record, refuse, written

LARGEST_WORD = 65535  # of a sheet


def most_word(wrong):
    return LARGEST_WORD + (wrong == "65536 is a word")


def word_of(part, wrong):
    if wrong == "a leading zero passes":
        part = part.lstrip(b"0") or part[:1]
    if wrong == "a plus sign passes":
        part = part.removeprefix(b"+")
    if wrong == "numbers wrap at 2^64" and re.fullmatch(rb"[1-9][0-9]{,40}", part):
        part = b"%d" % (int(part) % 2**64)
    if wrong == "hexadecimal passes" and re.fullmatch(rb"0x[0-9a-f]+", part):
        part = b"%d" % int(part, 16)
    refuse(not re.fullmatch(rb"0|[1-9][0-9]*", part), 10)
    refuse(len(part) > 5 or int(part) > most_word(wrong), 10)
    return int(part)


def words_of(line, wrong):
    if wrong == "a tab parts words":
        line = line.replace(b"\t", b" ")
    if wrong == "CR LF ends a line":
        line = line.removesuffix(b"\r")
    if wrong == "a blank behind a line passes":
        line = line.removesuffix(b" ")
    if wrong == "a blank before a line passes":
        line = line.removeprefix(b" ")
    if wrong == "a line of blanks is empty":
        line = b"" if not line.strip(b" ") else line
    if wrong == "several blanks part words":
        line = re.sub(rb"(?<=\d) +(?=\d)", b" ", line)
    parts = line.split(b" ") if line else []
    if wrong == "a record is read to its 1,025th word":
        parts = parts[:1025]
    return [word_of(part, wrong) for part in parts]


def read_text(data, wrong=""):
    """The ten records; refused by 10, then by 1."""
    most_bytes = {"65,537 bytes pass": 65537, "65,536 bytes are too many": 65535, "any number of bytes passes": len(data)}.get(wrong, 65536)
    most_words = {"1,025 words pass": 1025, "1,024 words are too many": 1023, "any number of words passes": len(data)}.get(wrong, 1024)
    refuse(len(data) > most_bytes, 10)
    if wrong == "NUL ends the text":
        data = data.split(b"\0")[0]
    if wrong == "any ten names":
        refuse(len(data.split(b"\n")[0].split(b" ")) != 10, 10)
        data = HEADING + b"\n".join(data.split(b"\n")[1:])
    if wrong == "blanks are free in the names line":
        first, _, rest = data.partition(b"\n")
        data = (HEADING if first.split() == HEADING.split() else first) + rest
    if wrong == "no names line":
        data = data if data.startswith(HEADING) else HEADING + data
    refuse(not data.startswith(HEADING), 10)
    body = data[len(HEADING) :]
    if wrong == "the last LF may be missing" and not body.endswith(b"\n"):
        body += b"\n"
    if wrong == "lines may be missing" and body.endswith(b"\n"):
        body += b"\n" * (10 - body.count(b"\n"))
    if wrong == "bytes behind the end pass":
        body = b"\n".join(body.split(b"\n")[:10]) + b"\n" if body.count(b"\n") >= 10 else body
    if wrong == "empty lines behind the end pass":
        body = body.rstrip(b"\n") + b"\n" if body.count(b"\n") > 10 else body
    rows = body.split(b"\n")
    rs = []
    for row in rows[:10]:
        rs.append(words_of(row, wrong))
        refuse(wrong == "1 is given before a later 10" and len(rs[-1]) > most_words, 1)
    refuse(len(rows) != 11 or rows[10] != b"", 10)
    refuse(any(len(r) > most_words for r in rs), 10 if wrong == "a long record is unreadable" else 1)
    return rs


def in_shape(rs, wrong=""):
    """1 where a record is not in shape."""
    names, bounds, types, own, steps, returns, structs, params, output, force = rs
    if wrong == "empty means 0":
        names, bounds, force = names or [0], bounds or [0], force or [0]
    if wrong == "the impl's count is free":
        names = [0] + names[1:] if names else names
    if wrong == "the first 32 names are looked at":
        names = names[:33] + [2] * len(names[33:])
    if wrong == "bounds are counted in words":
        bounds = [bounds[0] // 2] + bounds[1:] if bounds else bounds
    if wrong == "half a pair passes":
        bounds = bounds[: len(bounds) - (len(bounds) + 1) % 2]
    if wrong == "self may have two words":
        own = own[:1]
    if wrong == "a third output passes":
        output = output[:2] if output[:3] == [0, 0, 0] else output
    if wrong == "force is any word":
        force = force[:1] and [0]
    if wrong == "returns are not looked at":
        returns = []
    if wrong == "output is not looked at":
        output = []
    environment.names_shape(names)
    environment.bounds_shape(bounds)
    environment.types_shape(types)
    elision.self_shape(own)
    elision.read_steps(steps)
    elision.read_steps(returns)
    rows = len(methods.read_rows(structs))
    if wrong == "rows from the 33rd on are unknown":
        rows = min(rows, 32)
    methods.read_types(params, rows)
    methods.output_shape(output, rows)
    methods.force_shape(force)


def sheet_shape(rs, wrong=""):
    """1 over all ten records, then 13; nothing else."""
    if wrong == "13 is given before 1":
        methods.retired(rs[-1])
    in_shape(rs, wrong)
    if wrong != "force 1 passes":
        methods.retired(rs[-1])


def read_sheet(data, wrong=""):
    """The ten records; refused by 10, by 1, by 13, and checked no further."""
    rs = read_text(data, wrong)
    sheet_shape(rs, wrong)
    return rs


def answer_of(call, data, room, wrong=""):
    """What `read_text` or `read_sheet` answers with so much room: the refusal's number or 0, the ends, what was written."""
    left = []
    try:
        if wrong == "9 is given before 1":
            refuse(sum(map(len, read_text(data))) > room, 9)
        if wrong == "9 is given before 13":
            refuse(len(flat(call(data, "force 1 passes"))) > room, 9)
        rs = call(data, wrong)
        if wrong == "words are stored before a refusal":
            left = flat(rs)[:room]
        refuse(len(flat(rs)) > room or wrong == "9 although the words just fit" and len(flat(rs)) == room, 9)
    except Refusal as refusal:
        return not_read(refusal.number, left)
    return read(rs)


def ends_of(rs):
    """Where each record ends among the words of all."""
    return [sum(map(len, rs[: k + 1])) for k in range(len(rs))]


def read(rs):
    return [0] + ends_of(rs) + record(flat(rs))


def not_read(number, left=()):
    return [number] + [0] * 10 + record(list(left))


# ---- writing


def write_sheet(rs, wrong=""):
    """The bytes of the sheet of ten records, as numbers; refused by 10 for a word above 65535, however long its record is, then by 1, then by 13. Whether there is room for them is the caller's."""
    if wrong == "1 is given before 10":
        in_shape(rs)
    if wrong == "13 is given before 10":
        methods.retired(rs[-1])
    if wrong == "words wrap at 2^16":
        rs = [[word % 2**16 for word in r] for r in rs]
    if wrong == "a text that is too long to be read is unreadable":
        refuse(len(written(rs)) > 65536, 10)
    looked_at = flat(r[:1024] if wrong == "words behind the 1,024th are not looked at" else r for r in rs)
    if wrong == "words are looked at by 32 bits":
        looked_at = [word % 2**32 for word in looked_at]
    refuse(any(word > most_word(wrong) for word in looked_at), 10)
    sheet_shape(rs, wrong)
    if wrong == "later refusals prevent writing":
        elision.lower_records(environment.from_method_item(*rs[:3]).names, *rs[3:6])
    return list(written(rs))


def laid(ws, ends, wrong=""):
    """The ten records that stand in some words one behind another, each up to its end; 1 where the ends are not ten, not ascending, or past the words. Words behind the last end are not looked at."""
    if wrong == "ends behind the tenth are left out":
        ends = ends[:10]
    if wrong == "where ends are missing the records are empty":
        ends = ends + (ends[-1:] or [0]) * (len(RECORDS) - len(ends))
    if wrong == "a last end past the words is their end":
        ends = [min(end, len(ws)) for end in ends]
    if wrong == "ends may go down":
        ends = [max(ends[: k + 1]) for k in range(len(ends))]
    bad = len(ends) != len(RECORDS) or ends != sorted(ends) or ends[-1] > len(ws)
    if wrong == "no record is empty":
        bad = bad or 0 in map(len, laid(ws, ends))
    if wrong == "no words stand behind the last end":
        bad = bad or ends[-1] < len(ws)
    if wrong == "10 is given before the 1 of bad ends":
        refuse(bad and any(word > LARGEST_WORD for word in ws), 10)
    if wrong == "words behind the last end are looked at":
        refuse(not bad and any(word > LARGEST_WORD for word in ws), 10)
    refuse(bad, 1)
    return [ws[a:b] for a, b in zip([0] + ends, ends)]


def write_laid(ws, ends, wrong=""):
    """The same of records that are laid: 1 of the ends before all else."""
    return write_sheet(laid(ws, ends, wrong), wrong)


WRONG = [
    "a leading zero passes",
    "a plus sign passes",
    "numbers wrap at 2^64",
    "hexadecimal passes",
    "65536 is a word",
    "a tab parts words",
    "CR LF ends a line",
    "a blank behind a line passes",
    "a blank before a line passes",
    "a line of blanks is empty",
    "several blanks part words",
    "a record is read to its 1,025th word",
    "65,537 bytes pass",
    "65,536 bytes are too many",
    "any number of bytes passes",
    "1,025 words pass",
    "1,024 words are too many",
    "any number of words passes",
    "NUL ends the text",
    "any ten names",
    "blanks are free in the names line",
    "no names line",
    "the last LF may be missing",
    "lines may be missing",
    "bytes behind the end pass",
    "empty lines behind the end pass",
    "1 is given before a later 10",
    "a long record is unreadable",
    "empty means 0",
    "the impl's count is free",
    "the first 32 names are looked at",
    "bounds are counted in words",
    "half a pair passes",
    "self may have two words",
    "a third output passes",
    "force is any word",
    "returns are not looked at",
    "output is not looked at",
    "rows from the 33rd on are unknown",
    "13 is given before 1",
    "force 1 passes",
    "9 is given before 1",
    "9 is given before 13",
    "words are stored before a refusal",
    "9 although the words just fit",
]

WRONG_WRITTEN = [
    "1 is given before 10",
    "13 is given before 10",
    "13 is given before 1",
    "force 1 passes",
    "65536 is a word",
    "words wrap at 2^16",
    "words are looked at by 32 bits",
    "words behind the 1,024th are not looked at",
    "a text that is too long to be read is unreadable",
    "later refusals prevent writing",
    "ends behind the tenth are left out",
    "where ends are missing the records are empty",
    "a last end past the words is their end",
    "ends may go down",
    "no record is empty",
    "no words stand behind the last end",
    "10 is given before the 1 of bad ends",
    "words behind the last end are looked at",
]
