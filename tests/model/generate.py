"""Random method sheets, seeded: accepted ones, ones with a fault, and both sides of every limit of the scope paper ("01"); and random things made by hand that no sheet gives.

`sheets` yields sheets without end. `KINDS` are all the things that sheets are made for. Where a sheet is made for a certain answer, it is for the model of 01 to say whether it has that answer; a sheet
that has another is not yielded.

A sheet is a dict from the names of the records to their words while it is being made.
"""
import random

from . import printing
from .base import LARGEST, RECORDS, flat, paired, written
from .environment import MAX_BOUNDS, MAX_LIFETIMES, MAX_NAMES, MAX_WORDS, AstEnv, Env
from .listing import Answer
from .methods import read_rows
from .text import LARGEST_WORD, ends_of


def text(sheet):
    """The bytes of a sheet."""
    return written(sheet[name] for name in RECORDS)


# The smallest accepted sheet.
EMPTY = dict.fromkeys(RECORDS, []) | {"names": [0], "bounds": [0], "force": [0]}


# ---- parts of an ordinary sheet


def fresh(rng, taken, count):
    """Names that are not taken."""
    out = []
    while len(out) < count:
        name = rng.choice([rng.randint(2, 60), rng.randint(2, 65535), 65535])
        if name not in taken and name not in out:
            out.append(name)
    return out


def bound_words(rng, names, count):
    """Bounds among some names, longer, shorter: any, a chain, a circle, or the same ones again and again."""
    if not names:
        return []
    form = rng.choice(["any", "any", "chain", "circle", "again"])
    if form == "chain":
        order = rng.sample(names, len(names))
        return flat(zip(order[1:], order[:-1]))[: 2 * count]
    if form == "circle":
        order = rng.sample(names, len(names))
        return flat(zip(order[1:] + order[:1], order))[: 2 * count]
    several = names if form == "any" else rng.sample(names, min(2, len(names)))
    return [rng.choice(several) for _ in range(2 * count)]


def type_words(rng, lifetimes, nesting):
    """A type of `types` of at most this nesting, rich in paths behind references."""
    code = rng.choice([0, 1, 2, 2, 2, 2, 3, 4]) if nesting > 1 else rng.choice([0, 1, 1])
    if code == 1:
        return path(rng, [1], lifetimes, rng.choice([0, 1, 1, 2, 2, 3, 5]))
    if code == 2:
        inner = path(rng, [1], lifetimes, rng.choice([1, 2, 3])) if rng.random() < 0.6 else type_words(rng, lifetimes, nesting - 1)
        return [2, rng.choice(lifetimes)] + inner
    if code == 3:
        return [3] + type_words(rng, lifetimes, nesting - 1)
    if code == 4:
        return [4] + type_words(rng, lifetimes, nesting - 1) + type_words(rng, lifetimes, nesting - 1)
    return [0]


def path(rng, front, words, n):
    return front + [n] + [rng.choice(words) for _ in range(n)]


def steps(rng, names, count, anonymous=True):
    """Some steps; without `anonymous` none of them takes a lifetime from a source, nor makes one."""
    words = [0] + names * 2 + [1, 1] * anonymous
    out = []
    for _ in range(count):
        kind = rng.choice([0, 0, 1, 1, 2])
        n = rng.choice([0, 1, 1, 2, 3, 5])
        if kind == 0:
            out += [0, rng.choice(words)]
        elif kind == 1:
            out += path(rng, [1, rng.choice([0, 1, 2, 3, 6]) if anonymous else rng.randint(0, n)], words, n)
        else:
            out += path(rng, [2], words, n)
    return out


def lowered(rng, rows, words, option=True):
    """A lowered type over rows with these numbers of lifetimes."""
    code = rng.choice([0, 1, 1, 1, 2, 2, 2, 2, 3, 3, 3] + [4, 4] * option)
    if code == 1:
        return path(rng, [1, rng.choice([0, 1])], words, rng.choice([0, 1, 1, 2, 3])) + rng.choice([[0], [1, rng.choice(words)]])
    if code == 2 and rows:
        row = rng.randrange(len(rows))
        return path(rng, [2, row], words, rows[row])
    if code == 3:
        form = rng.choice([0, 1, 1, 1, 2, 3, 3])
        return {0: [3, 0], 1: [3, 1, rng.choice(words)], 2: [3, 2], 3: path(rng, [3, 3], words, rng.choice([0, 1, 2])) + [rng.choice(words)]}[form]
    if code == 4:
        return [4] + lowered(rng, rows, words, option=False)
    return [0]


def structs(rng, count):
    """The words of some rows, and their numbers of lifetimes."""
    out, rows = [], []
    for _ in range(count):
        d = rng.choice([0, 1, 1, 2, 2, 3, 4, rng.randint(0, 16)])
        words = list(range(d + 1)) + [d + 1, rng.randint(0, 9)]
        fields = [lowered(rng, rows, words) for _ in range(rng.choice([0, 1, 1, 2, 3]))]
        out += [d, len(fields)] + flat(fields)
        rows.append(d)
    return out, rows


def output(rng, rows, count):
    """Two types, one or none; no lifetime past the count, and no `Strs`."""
    words = [0] + list(range(1, count + 1)) * 2
    types = [lowered(rng, rows, words) for _ in range(rng.choice([0, 1, 1, 2, 2]))]
    return flat([3, 0] if found in ([3, 2], [4, 3, 2]) else found for found in types)


def ordinary(rng, large=False):
    """A sheet of which most are accepted."""
    names = fresh(rng, [], rng.randint(12, 32) if large else rng.choice([0, 1, 2, 2, 3, 3, 4, 5, 6]))
    impls = rng.randint(0, len(names))
    impl_pairs = bound_words(rng, names[:impls], rng.choice([0, 0, 1, 2, 4]))
    method_pairs = bound_words(rng, names, rng.choice([0, 1, 2, 3, 5, 40 if large else 6]))
    source = rng.choice(["self", "self", "one", "none", "several"])
    own = [rng.choice([0, 1] + names)] if source == "self" else []
    if source == "one":
        given = rng.choice([[], [2, 0]]) + rng.choice([[0, rng.choice([0, 1] + names)], [1, 1, 0]])
    else:
        given = [] if source == "none" else steps(rng, names, rng.choice([1, 2, 3, 4]))
    returned = steps(rng, names, rng.choice([0, 1, 1, 2, 3]), anonymous=source in ("self", "one"))
    count = len(names) + 2
    rows_words, rows = structs(rng, rng.choice([0, 1, 2, 2, 3, 4, 6]))
    used = [0] + list(range(1, count + 1)) * 2 + [count + 1, 65535]
    few = [rng.choice(used) for _ in range(3)]
    return {
        "names": [impls] + names,
        "bounds": [len(impl_pairs) // 2] + impl_pairs + method_pairs,
        "types": flat(type_words(rng, names * 5 + [0, 1], rng.choice([2, 3, 4, 8])) for _ in range(rng.choice([0, 1, 2, 3, 4]))),
        "self": own,
        "steps": given,
        "returns": returned,
        "structs": rows_words,
        "params": flat(lowered(rng, rows, rng.choice([used, few])) for _ in range(rng.choice([0, 1, 2, 3, 4, 6, 16 if large else 5]))),
        "output": output(rng, rows, len(names) + rng.choice([0, 0, 1])),
        "force": [int(rng.random() < 0.04)],
    }


def changed(sheet, **records):
    return {**sheet, **records}


# ---- limits: each maker gets a random generator, a sheet that is accepted, and 0 for the limit itself or 1 for one more (-1 for one less); it answers a sheet or bytes


def names_limit(rng, sheet, more):
    names = sheet["names"] + fresh(rng, sheet["names"][1:], 32 + more - len(sheet["names"][1:]))
    if more == 1 and rng.random() < 0.5:
        names[-1] = rng.choice(names[1:-1])  # repeated, and still the 33rd
    return changed(sheet, names=names)


def to_64(rng, sheet, last, made, more, returns=()):
    """Steps that bring the lifetimes to 64 with these last ones, that make so many."""
    names = sheet["names"]
    left = 64 + more - made - (len(names) - 1)
    filling = []
    while left:
        filling.append(min(left, rng.randint(1, 16)))
        left -= filling[-1]
    given = flat(rng.choice([[1, n, 0], [1, 0, n] + [1] * n]) for n in filling)
    return changed(sheet, self=[0], steps=given + last, returns=list(returns), output=[])


def by_step(rng, sheet, more):
    return to_64(rng, sheet, [0, 1], 1, more)


def by_listed(rng, sheet, more):
    return to_64(rng, sheet, [1, 0, 3, 0, 1, 1], 2, more)


def by_appended(rng, sheet, more):
    n = rng.randint(1, 15)
    return to_64(rng, sheet, [1, n + 1, 1, 0], n, more)


def by_kind_2(rng, sheet, more):
    n = rng.randint(1, 16)
    return to_64(rng, sheet, [2, n] + [1] * n + [2, 1, 1], n, more)


def by_kind_2_in_returns(rng, sheet, more):
    n = rng.randint(1, 16)
    return to_64(rng, sheet, [], n, more, [2, n] + [1] * n + [0, 1, 2, 0])


def explicit_bounds(rng, sheet, more):
    names = sheet["names"][1:] or [7]
    given = [rng.choice(names) for _ in range(2 * (256 + more))]
    return changed(sheet, names=[0] + names, bounds=[0] + given, types=[])


def implied_bounds(rng, sheet, more):
    """The last bounds implied, by a path behind a reference that none of its lifetimes outlives before."""
    one, *others = fresh(rng, [], 6)
    n = rng.randint(1, 16)
    given = [one] * 2 * (256 + more - n)
    return changed(sheet, names=[0, one] + others, bounds=[0] + given, types=path(rng, [2, one, 1], others, n), self=[], steps=[], returns=[], output=[])


def rows_limit(rng, sheet, more):
    fields = [[0], [3, 1, 1], [3, 2], [1, 0, 1, 1, 0]]
    rows = [[rng.randint(0, 3), 1] + rng.choice(fields) for _ in range(32 + more)]
    for k in rng.sample(range(1, len(rows)), 6):
        rows[k] = [2, 1, 2, k - 1] + [rows[k - 1][0]] + [rng.randint(0, 3) for _ in range(rows[k - 1][0])]
    last = rows[-1]
    return changed(sheet, structs=flat(rows), params=[2, len(rows) - 1, last[0]] + [1] * last[0], output=[])


def params_limit(rng, sheet, more):
    kinds = [[0], [3, 0], [3, 1, 1], [1, 0, 1, 1, 0], [4, 3, 1, 2], [3, 2]]
    return changed(sheet, params=flat(rng.choice(kinds) for _ in range(16 + more)))


def nesting_limit(rng, sheet, more):
    names = sheet["names"][1:] + [0, 1]
    wrapped = rng.choice([[0], [1, 0], [1, 1, 0]])
    for _ in range(7 + more):
        wrapped = rng.choice([[2, rng.choice(names)] + wrapped, [3] + wrapped, [4] + rng.choice([[0] + wrapped, wrapped + [0]])])
    return changed(sheet, types=wrapped)


def sixteen(record, front, behind=(), word=0):
    """A record that is a list of 16 words between others, its length in front."""
    return lambda rng, sheet, more: changed(sheet, **{"params": [], "output": [], record: list(front) + [16 + more] + [word] * (16 + more) + list(behind)})


def generics_limit(rng, sheet, more):
    return changed(sheet, self=[0], **{rng.choice(["steps", "returns"]): [1, 16 + more, 0]})


def row_lifetimes(rng, sheet, more):
    n = min(16, 16 + more)
    return changed(sheet, structs=[16 + more, 0], params=path(rng, [2, 0], [0, 1, 2], n), output=[])


def row_fields(rng, sheet, more):
    return changed(sheet, structs=[0, 16 + more] + flat(rng.choice([[0], [3, 1, 1], [3, 2]]) for _ in range(16 + more)), params=[], output=[])


def struct_words(rng, sheet, more):
    n = min(16, 16 + more)
    return changed(sheet, structs=[n, 0], params=path(rng, [2, 0], [0, 1, 2], 16 + more), output=[])


ROW = [0, 15] + [3, 2] * 15  # 32 words
SHORT_ROW = [0, 15] + [3, 2] * 14 + [0]
LONG = {
    "names": lambda n: [0] + list(range(2, n + 1)),
    "bounds": lambda n: [0] + [7] * (n - 1),
    "steps": lambda n: [1, 0, 0] * (n % 2) + [0, 0] * ((n - 3 * (n % 2)) // 2),
    "returns": lambda n: [1, 0, 0] * (n % 2) + [0, 0] * ((n - 3 * (n % 2)) // 2),
    "structs": lambda n: ROW * 31 + (SHORT_ROW if n < 1024 else ROW) + [0] * (n - 1024),
}


def long_record(record):
    """A record of 1,024 words; the others as short as can be."""

    def make(rng, sheet, more):
        n = 1024 + more
        return changed(EMPTY, names=[0, 7], self=[rng.choice([0, 7])]) | {record: LONG[record](n) if record in LONG else [0] * n}

    return make


def bytes_limit(rng, sheet, more):
    """Only a sheet with a long record is so long."""
    record = rng.choice(RECORDS)
    data = text(changed(sheet, **{record: []}))
    lines = data.split(b"\n")
    at = 1 + RECORDS.index(record)
    room = 65536 + more - len(data)
    lines[at] = b"0 " * ((room - 2) // 2) + (b"0" if room % 2 else b"10")
    return b"\n".join(lines)


def edges_limit(rng, sheet, more):
    """32 names in a circle and an elided lifetime, all used: a struct's word has 32 edges where it is a name, one where it is the elided lifetime, none where it is static or past the count."""
    names = fresh(rng, [], 32)
    few = 32 * rng.randint(0, 3)
    named, elided = divmod(4096 + more - few, 32)
    words = [rng.randint(1, 32) for _ in range(named)] + [33] * (elided + few)
    words += [rng.choice([0, 34]) for _ in range(-len(words) % 16)]
    rng.shuffle(words)
    option = rng.choice([[], [4]])
    return changed(
        sheet,
        names=[0] + names,
        bounds=[0] + flat(zip(names[1:] + names[:1], names)),
        types=[],
        self=[],
        steps=[0, 1],
        returns=[],
        structs=[16, 0],
        params=flat(option + [2, 0, 16] + words[at : at + 16] for at in range(0, len(words), 16)),
        output=[1, 0, 16] + list(range(1, 17)) + [0, 1, 0, 16] + list(range(17, 33)) + [1, 33],
    )


def largest_word(rng, sheet, more):
    return changed(sheet, params=[3, 1, 65535 + more] + sheet["params"])


# what is at its limit; the maker; the answer at the limit, and one past it. One below it the answer is 0 too, or left to chance where the limit itself is refused
LIMITS = [
    ("32 names", names_limit, 0, 4),
    ("64 lifetimes by a step", by_step, 0, 4),
    ("64 lifetimes by kind 1, listed", by_listed, 0, 4),
    ("64 lifetimes by kind 1, appended", by_appended, 0, 4),
    ("64 lifetimes by the first kind 2 in steps", by_kind_2, 0, 4),
    ("64 lifetimes by the first kind 2 in returns", by_kind_2_in_returns, 0, 4),
    ("256 bounds", explicit_bounds, 0, 4),
    ("256 bounds, the last ones implied", implied_bounds, 0, 4),
    ("32 rows", rows_limit, 0, 4),
    ("16 params", params_limit, 0, 4),
    ("nesting 8", nesting_limit, 0, 1),
    ("g 16", generics_limit, 0, 1),
    ("n 16 of kind 1", sixteen("steps", [1, 3]), 0, 1),
    ("n 16 of kind 2 in steps", sixteen("steps", [2], [2, 0]), 0, 1),
    ("n 16 of kind 2 in returns", sixteen("returns", [2]), 0, 1),
    ("n 16 of a path in types", sixteen("types", [3, 1]), 0, 1),
    ("n 16 of an opaque", sixteen("params", [1, 1], [1, 1]), 0, 1),
    ("n 16 of a slice of opaques", sixteen("output", [3, 3], [0]), 0, 1),
    ("n 16 of a struct", struct_words, 0, 1),
    ("d 16", row_lifetimes, 0, 1),
    ("16 fields", row_fields, 0, 1),
    ("1,024 words of names", long_record("names"), 4, 1),
    ("1,024 words of bounds", long_record("bounds"), 1, 1),
    ("1,024 words of types", long_record("types"), 0, 1),
    ("1,024 words of self", long_record("self"), 1, 1),
    ("1,024 words of steps", long_record("steps"), 0, 1),
    ("1,024 words of returns", long_record("returns"), 0, 1),
    ("1,024 words of structs", long_record("structs"), 0, 1),
    ("1,024 words of params", long_record("params"), 4, 1),
    ("1,024 words of output", long_record("output"), 1, 1),
    ("1,024 words of force", long_record("force"), 1, 1),
    ("65,536 bytes", bytes_limit, 1, 10),
    ("4,096 edges", edges_limit, 0, 9),
    ("the word 65535", largest_word, 0, 10),
]

# ---- faults: each maker gets a random generator, a sheet that is accepted, and the number of its lifetimes; it answers a sheet or bytes, or None where the sheet is not fit for it


def stranger(rng, sheet):
    return fresh(rng, sheet["names"][1:], 1)[0]


def added(record, *items):
    """An item before or behind a record's words."""

    def make(rng, sheet, count):
        item = list(rng.choice(items))
        return changed(sheet, **{record: rng.choice([item + sheet[record], sheet[record] + item])})

    return make


def replaced(record, *values):
    return lambda rng, sheet, count: changed(sheet, **{record: list(rng.choice(values))})


def unknown_row(rng, sheet, count):
    rows = rows_of(sheet)
    own = changed(sheet, structs=sheet["structs"] + [0, 1] + rng.choice([[], [4]]) + [2, rows + rng.choice([0, 1]), 0])
    return rng.choice([own, changed(sheet, params=[2, rows, 0] + sheet["params"]), changed(sheet, output=[2, rows + rng.choice([0, 9]), 0])])


def rows_of(sheet):
    """How many rows a sheet in shape has."""
    return len(read_rows(sheet["structs"]))


def impl_count(rng, sheet, count):
    if rng.random() < 0.5:
        return changed(sheet, names=[len(sheet["names"])] + sheet["names"][1:])
    return changed(sheet, bounds=[len(sheet["bounds"]) // 2 + 1] + sheet["bounds"][1:])


def twice(rng, sheet, count):
    names = sheet["names"]
    return changed(sheet, names=names + [rng.choice(names[1:])]) if 1 < len(names) < 33 else None


def strange_bound(rng, sheet, count):
    if len(sheet["names"]) == 1:
        return None
    pair = [rng.choice(sheet["names"][1:]), rng.choice([0, 1, stranger(rng, sheet)])]
    return changed(sheet, bounds=sheet["bounds"] + rng.sample(pair, 2))


def strange_impl_bound(rng, sheet, count):
    """A bound of the impl's over a name of the method's, or over one that is none."""
    impls, *names = sheet["names"]
    first, *rest = sheet["bounds"]
    pair = [rng.choice(names[:impls] or [0]), rng.choice([0, 1, stranger(rng, sheet)] + names[impls:])]
    return changed(sheet, bounds=[first + 1] + rng.sample(pair, 2) + rest)


def strange_type(rng, sheet, count):
    if len(sheet["names"]) == 1:
        return None
    known, strange = rng.choice(sheet["names"][1:]), stranger(rng, sheet)
    behind, inner = rng.choice([(known, strange), (strange, known), (strange, strange)])
    return changed(sheet, types=sheet["types"] + [2, behind, 1, 2, 0, inner])


def strange_self(rng, sheet, count):
    return changed(sheet, self=[stranger(rng, sheet)])


def strange_step(rng, sheet, count):
    strange = stranger(rng, sheet)
    record = rng.choice(["steps", "returns"])
    return changed(sheet, **{record: rng.choice([[0, strange], [1, 0, 2, 0, strange]]) + sheet[record]})


def strange_first_kind_2(rng, sheet, count):
    return changed(sheet, steps=[2, 1, stranger(rng, sheet)] + sheet["steps"])


ANONYMOUS = [[0, 1], [1, 1, 0], [1, 3, 1, 0], [1, 0, 1, 1]]


def no_source(rng, sheet, count):
    return changed(sheet, self=[], steps=rng.choice([[], [2, 1, 1], [1, 0, 0], [2, 0, 2, 1, 1]]), returns=rng.choice(ANONYMOUS) + sheet["returns"])


def ambiguous(rng, sheet, count):
    two = rng.choice([[0, 0, 0, 0], [1, 2, 0], [0, 1, 0, 0], [1, 0, 2, 0, 0], [1, 2, 1, 0]])
    return changed(sheet, self=[], steps=sheet["steps"] + two, returns=rng.choice(ANONYMOUS) + sheet["returns"])


def misfit(rng, sheet, count):
    row, d = rows_of(sheet), rng.randint(0, 16)
    n = rng.choice([k for k in (d - 1, d + 1, 0, 16) if 0 <= k <= 16 and k != d])
    found = rng.choice([[], [4]]) + path(rng, [2, row], [0, 1], n)
    made = changed(sheet, structs=sheet["structs"] + [d, 0])
    place = rng.choice(["structs", "params", "output"])
    if place == "structs":
        return changed(made, structs=made["structs"] + [0, 1] + found)
    return changed(made, **{place: found})


def outside(rng, sheet, count):
    word = rng.choice([count + 1, count + 1, 65, 65535])
    types = [[3, 1, word], [1, 0, 1, word, 0], [1, 1, 1, 0, 1, word], [3, 3, 0, word], [3, 3, 1, word, 0]]
    return changed(sheet, output=rng.choice([[], [0]]) + rng.choice([[], [4]]) + rng.choice(types))


def struct_outside(rng, sheet, count):
    return changed(sheet, structs=sheet["structs"] + [2, 0], output=[2, rows_of(sheet), 2, 0, count + 1])


def strs_outside(rng, sheet, count):
    return changed(sheet, output=rng.choice([[3, 2], [4, 3, 2], [0, 3, 2], [3, 0, 4, 3, 2]]))


def many_edges(rng, sheet, count):
    made = edges_limit(rng, sheet, 0)
    return changed(made, params=flat([2, 0, 16] + [rng.randint(1, 32) for _ in range(16)] for _ in range(rng.randint(9, 16))))


# texts that are no sheets


def bad_word(rng, sheet, count):
    data = text(sheet)
    record = rng.choice(RECORDS)
    word = rng.choice(["00", "01", "65536", "70000", "100000", "18446744073709551616", "+1", "-1", "0x1", "a", "1.0", "", "\u0661"])
    line = " ".join(map(str, sheet[record]))
    lines = data.decode().split("\n")
    lines[1 + RECORDS.index(record)] = rng.choice([f"{line} {word}", f"{word} {line}"]) if line or word == "" else word
    return "\n".join(lines).encode()


def bad_blank(rng, sheet, count):
    data = text(sheet)
    form = rng.choice(["double", "before", "behind", "tab", "CR", "NUL"])
    at = rng.choice([k for k, byte in enumerate(data) if byte == (10 if form in ("before", "behind", "CR") else 32)])
    put = {"double": b"  ", "before": b"\n ", "behind": b" \n", "tab": b"\t", "CR": b"\r\n", "NUL": b"\0"}[form]
    return data[:at] + put + data[at + 1 :]


def bad_heading(rng, sheet, count):
    at = rng.randrange(65)
    data = text(sheet)
    return data[:at] + rng.choice([b"", b"x", b" ", data[at : at + 1] * 2, data[at : at + 1].upper() + b"_"]) + data[at + 1 :]


def bad_lines(rng, sheet, count):
    data = text(sheet)
    lines = data[:-1].split(b"\n")
    at = rng.randrange(11)
    return rng.choice(
        [data[:-1], data + b"\n", data + b"0\n", data + b"0", b"", b"\n", data + data, b"\n".join(lines[:at]) + b"\n", b"\n".join(lines[:at] + [b""] + lines[at:]) + b"\n", data[: rng.randrange(len(data))]]
    )


def long_and_unreadable(rng, sheet, count):
    """Unreadable text behind or before a record above 1,024 words is 10, not 1."""
    lines = text(sheet).split(b"\n")
    long, bad = rng.sample(range(1, 11), 2)
    lines[long] = b"0 " * 1024 + b"0"
    lines[bad] = rng.choice([b"01", b" ", b"65536", b"0 ", b"x"])
    return b"\n".join(lines)


def beside_force(numbers):
    """A fault that has one of some numbers, with force 1 beside it."""

    def make(rng, sheet, count):
        name, fault, _ = rng.choice([entry for entry in FAULTS if entry[2] in numbers and "force" not in entry[0]])
        made = fault(rng, sheet, count)
        return made and changed(made, force=[1])

    return make


torn_and_retired = beside_force([1])
late_and_retired = beside_force([2, 3, 4, 5, 6, 7, 8, 9])

# what is wrong; the maker; the number
FAULTS = [
    ("a word that is none", bad_word, 10),
    ("a blank, tab, CR or NUL", bad_blank, 10),
    ("the names line", bad_heading, 10),
    ("lines or bytes missing or over", bad_lines, 10),
    ("unreadable text beside a long record", long_and_unreadable, 10),
    ("an unknown type", added("types", [5], [65535], [3, 9]), 1),
    ("an unknown step", added("steps", [3], [3, 0], [65535, 0]), 1),
    ("an unknown step in returns", added("returns", [3], [3, 0]), 1),
    ("an unknown lowered type", added("params", [5], [3, 4], [4, 5]), 1),
    ("a flag above 1", added("params", [1, 2, 0, 0], [1, 0, 0, 2], [1, 65535, 0, 0]), 1),
    ("an option in an option", added("params", [4, 4, 0], [4, 4, 3, 2]), 1),
    ("an unknown row", unknown_row, 1),
    ("a name 0 or 1", lambda rng, sheet, count: changed(sheet, names=sheet["names"] + [rng.choice([0, 1])]), 1),
    ("an impl count beyond its record", impl_count, 1),
    ("half a pair", lambda rng, sheet, count: changed(sheet, bounds=sheet["bounds"] + [2]), 1),
    ("no impl count", lambda rng, sheet, count: changed(sheet, **{rng.choice(["names", "bounds"]): []}), 1),
    ("self of several words", replaced("self", [0, 0], [9, 9], [0] * 16), 1),
    ("three output types", replaced("output", [0, 0, 0], [3, 0, 3, 0, 0]), 1),
    ("force that is no flag", replaced("force", [], [2], [0, 0], [65535]), 1),
    ("a type that ends too early", lambda rng, sheet, count: changed(sheet, types=sheet["types"] + rng.choice([[1], [1, 2, 0], [2], [2, 0], [3], [4, 0]])), 1),
    ("a step that ends too early", lambda rng, sheet, count: changed(sheet, returns=sheet["returns"] + rng.choice([[0], [1, 0], [1, 0, 1], [2], [2, 2, 0]])), 1),
    ("a param that ends too early", lambda rng, sheet, count: changed(sheet, params=sheet["params"] + rng.choice([[1], [1, 0], [1, 0, 1, 1], [1, 0, 0, 1], [2], [2, 0], [3], [3, 1], [3, 3, 0], [4]])), 1),
    ("a row that ends too early", lambda rng, sheet, count: changed(sheet, structs=sheet["structs"] + rng.choice([[1], [1, 1], [0, 2, 0]])), 1),
    ("force 1", replaced("force", [1]), 13),
    ("force 1 beside a torn record", torn_and_retired, 1),
    ("force 1 beside a later refusal", late_and_retired, 13),
    ("a name declared twice", twice, 2),
    ("a stranger in bounds", strange_bound, 3),
    ("a stranger in an impl's bounds", strange_impl_bound, 3),
    ("a stranger in types", strange_type, 3),
    ("a stranger in self", strange_self, 3),
    ("a stranger in a step", strange_step, 3),
    ("a stranger in the first kind 2", strange_first_kind_2, 3),
    ("anonymous in returns, no source", no_source, 5),
    ("anonymous in returns, several positions", ambiguous, 6),
    ("struct words not d many", misfit, 7),
    ("an output lifetime past the count", outside, 8),
    ("an output struct's lifetime past the count", struct_outside, 8),
    ("`Strs` in the output", strs_outside, 8),
    ("many edges", many_edges, 9),
]


# ---- sheets that are accepted for a reason of their own


def later_kind_2(rng, sheet, count):
    """Strangers in later uses are none, and their words count for nothing."""
    first = rng.choice([[2, 0], [2, 2, 0, 1], [2, 1, 1]])
    later = path(rng, [2], [stranger(rng, sheet), 0, 1], rng.randint(0, 16))
    return changed(sheet, self=[0], steps=first + later, returns=later + [0, 1])


def harmless_types(rng, sheet, count):
    strange = stranger(rng, sheet)
    return changed(sheet, types=sheet["types"] + rng.choice([[2, strange, 1, 2, 0, 1], [2, strange, 2, 0, 1, 1, strange], [1, 1, strange], [2, strange, 3, 1, 1, strange], [2, 1, 1, 1, strange]]))


def rows_of_rows(rng, sheet, count):
    """Rows that name the row before several times: up to ten to the 31st ways down."""
    several = rng.choice([2, 3, 10])
    rows = [[0, several] + [3, 1, 1] * several] + [[0, several] + [2, row, 0] * several for row in range(rng.randint(1, 31))]
    return changed(sheet, structs=flat(rows), params=[2, len(rows) - 1, 0], output=[])


def many_words(rng, sheet, count):
    """The longest lowered records."""
    return changed(sheet, names=[0], bounds=[0], types=[], self=[1], steps=[2, 16] + [1] * 16 + [2, 0] * 503, returns=[2, 0] * 512, output=[3, 1, 17], params=[3, 1, 17])


def most_used(rng, sheet, count):
    """As many lifetimes used as two output types have: 34 of 64."""
    names = fresh(rng, [], 32)
    kinds = flat([[3, 1, k + 1] for k in range(0, 32, 2)])
    used = rng.sample(range(1, 65), 34)
    output = [3, 3, 16] + used[:17] + [3, 3, 16] + used[17:]
    return changed(sheet, names=[0] + names, bounds=[0] + bound_words(rng, names, 40), types=[], self=[], steps=[1, 16, 0] * 2, returns=[], structs=[], params=kinds, output=output)


SPECIAL = [
    ("strangers in a later kind 2", later_kind_2),
    ("strangers in types that imply nothing", harmless_types),
    ("rows of rows", rows_of_rows),
    ("the longest lowered records", many_words),
    ("34 lifetimes used", most_used),
]


# ---- sheets with two faults, of which the first one due counts

FAULTY = [make for _, make, number in FAULTS if number not in (1, 10)] + [lambda rng, sheet, count, make=make: make(rng, sheet, 1) for _, make, _, past in LIMITS if past in (4, 9)]


def two_faults(rng, sheet, count):
    first, second = rng.sample(FAULTY, 2)
    made = first(rng, sheet, count)
    return made and second(rng, made, count)


# ---- sheets changed at random


def other_words(rng, sheet):
    out = {name: list(words) for name, words in sheet.items()}
    for _ in range(rng.choice([1, 1, 2, 3])):
        words = out[rng.choice(RECORDS)]
        at = rng.randint(0, len(words))
        form = rng.choice(["put", "take", "change", "change"])
        word = rng.choice([0, 1, 2, 3, 4, 5, 7, 16, 17, 65535, rng.choice(sheet["names"]), rng.randint(0, 70)])
        if form == "put":
            words.insert(at, word)
        elif at < len(words):
            words[at : at + 1] = [word] if form == "change" else []
    return out


def other_bytes(rng, sheet):
    data = bytearray(text(sheet))
    for _ in range(rng.choice([1, 1, 2])):
        at = rng.randrange(len(data))
        byte = rng.choice(b"0123456789 \n") if rng.random() < 0.9 else rng.randrange(256)
        data[at : at + rng.choice([0, 1])] = rng.choice([b"", bytes([byte]), bytes([byte])])
    return bytes(data)


# ---- the stream

PAST = {-1: "one less: ", 0: "", 1: "one more: "}
KINDS = (
    ["ordinary", "large", "two faults", "words changed", "bytes changed"]
    + [PAST[more] + name for name, *_ in LIMITS for more in PAST]
    + ["fault: " + name for name, *_ in FAULTS]
    + ["special: " + name for name, _ in SPECIAL]
)


def drawn(rng, pool):
    """What a sheet is made for, the answer it is made for, and the sheet."""
    if not pool or rng.random() < 0.5:
        large = rng.random() < 0.06
        return "large" if large else "ordinary", None, ordinary(rng, large)
    base, count = rng.choice(pool)
    form = rng.random()
    if form < 0.37:
        wanted = rng.choice([1, 2, 3, 5, 6, 7, 8, 9, 10, 13])
        name, make, number = rng.choice([fault for fault in FAULTS if fault[2] == wanted])
        return "fault: " + name, number, make(rng, base, count)
    if form < 0.65:
        name, make, at, past = rng.choice(LIMITS)
        more = rng.choice(list(PAST))
        number = past if more == 1 else None if more == -1 and at else at
        return PAST[more] + name, number, make(rng, base, more)
    if form < 0.7:
        name, make = rng.choice(SPECIAL)
        return "special: " + name, 0, make(rng, base, count)
    if form < 0.8:
        return "two faults", None, two_faults(rng, base, count)
    if form < 0.92:
        return "words changed", None, other_words(rng, base)
    return "bytes changed", None, other_bytes(rng, base)


def sheets(seed):
    """Sheets without end: what each was made for, its bytes, and the model's answer to it."""
    rng = random.Random(seed)
    pool = []
    while True:
        kind, number, sheet = drawn(rng, pool)
        if sheet is None:
            continue
        data = sheet if isinstance(sheet, bytes) else text(sheet)
        answer = Answer(data)
        if number is not None and answer.refusal != number:
            continue
        if kind == "ordinary" and answer.refusal == 0:
            pool = pool[-40:] + [(sheet, answer.count)]
        yield kind, data, answer


# ---- made by hand: what no sheet gives


def ast_environment(rng):
    """Named, names, pushed, pairs: now and then past a limit, with equal names, or with the names 0 and 1."""
    names = fresh(rng, [], rng.choice([1, 2, 3, 3, 4, 4, 5, 5, 6, 7, 8]))
    if rng.random() < 0.3:
        names += rng.sample(names, 1) + rng.choice([[], [0], [1]])
        rng.shuffle(names)
    named = rng.choice([len(names)] * 12 + [len(names) + 1, max(0, len(names) - 1), MAX_NAMES + 1])
    limit = max(1, min(named, MAX_NAMES))
    bounds = [(rng.randrange(limit), rng.randrange(limit)) for _ in range(rng.choice([0, 1, 2, 3, 4, 6, 8]))]
    if bounds and rng.random() < 0.1:
        bounds[rng.randrange(len(bounds))] = rng.choice([(limit, 0), (0, limit), (0, LARGEST)])
    pushed = rng.choice([len(bounds)] * 16 + [len(bounds) + 1, max(0, len(bounds) - 1), MAX_BOUNDS, MAX_BOUNDS + 1])
    return AstEnv(named, names, pushed, bounds)


def method_environment(rng):
    """Declared, count, pushed, pairs with up to 64 lifetimes: any bounds, chains, circles, repeats."""
    count = rng.choice([1, 2, 3, 4, 5, 8, 33, MAX_LIFETIMES])
    declared = rng.choice([count, count, rng.randint(0, count)])
    ws = bound_words(rng, list(range(declared)), rng.choice([1, 3, 6, 12, 40, MAX_BOUNDS]))
    bounds = paired(ws)
    rng.shuffle(bounds)
    return Env(declared, count, len(bounds), bounds)


def damaged(rng, env):
    """A method's environment with one of its numbers past what the others allow."""
    changes = [
        {"declared": env.count + 1},
        {"count": MAX_LIFETIMES + 1},
        {"pushed": MAX_BOUNDS + 1},
        {"declared": max(0, env.declared - 1)},
        {"pushed": env.pushed + 1, "bounds": env.walked() + [(env.declared, 0)]},
        {"pushed": max(0, env.pushed - 1)},
    ]
    return env._replace(**rng.choice(changes))


def lowerer(rng):
    """Source, word, count, kept, n, list: at and past the limits too."""
    own = [rng.randrange(70) for _ in range(rng.choice([0, 1, 2, 3, 16]))]
    count = rng.choice([0, 1, 2, 5, 30, 60, 62, 63, 64, 65, LARGEST])
    return rng.choice([0, 1, 2, 3]), rng.randrange(70), count, rng.choice([0, 1]), rng.choice([0, 1, 2, 5, 16, 17, LARGEST]), own


def lowerer_names(rng):
    """Names, some of them equal, 0 or 1."""
    return [rng.choice([0, 1, 7, 8, 9, 11, 13]) for _ in range(rng.choice([0, 1, 2, 3, 5]))]


def lowerer_step(rng, names):
    """Kind, generics (kind 0: the lifetime), lifetimes, output; kind 3 is a step by its words, now and then damaged."""
    kind, output = rng.choice([0, 1, 1, 2, 2, 3, 3]), rng.choice([0, 1])
    if kind == 3:
        ws = steps(rng, [7, 9] + names, 1)
        return 3, 0, rng.choice([ws, ws, ws, ws[:-1], ws + [0]]), output
    ws = [rng.choice([0, 1, 1, 7, 9] + names) for _ in range(rng.choice([0, 1, 2, 3, rng.choice([4, 16, 17])]))]
    return kind, rng.choice([0, 1, 7, 9]) if kind == 0 else rng.choice([0, 1, 2, 4, 16, 17]), ws, output


def rooms(rng, lengths, short=0.0):
    """How long slices are that take so many words: just so many or a few more, now and then too few."""
    return [rng.randrange(n) if n and rng.random() < short else n + rng.choice([0, 0, 0, 1, 2, 4]) for n in lengths]


def visits(rng, params):
    """Params to visit, in any order and with repeats."""
    return [rng.randrange(params) for _ in range(rng.randint(1, 2 * params))] if params else []


def number(rng):
    """A number with any number of digits, often at an end of those with as many."""
    power = 10 ** rng.randrange(20)
    return rng.choice([rng.randrange(10), rng.randrange(100), rng.randrange(power), power - 1, power, 65535, 65536, LARGEST])


def printer(rng, which=None):
    """Which printer, place, number, width, words, room: room for the text, just so much, too little or none; the place before the end, at it, behind it, or near 2^64 - 1."""
    which = rng.choice(printing.PRINTERS) if which is None else which
    given, ws = number(rng), [number(rng) for _ in range(rng.choice([0, 1, 1, 2, 3, 6]))]
    if which == printing.TEXT:
        ws = [rng.choice([rng.randrange(256), 32, 48, 255, rng.randrange(1024)]) for _ in range(rng.choice([0, 1, 2, 5, 9]))]
    size = len(str(given))
    width = rng.choice([0, max(0, size - 1), size, size + 1, size + 3, rng.randrange(30), rng.choice([100, LARGEST - size, LARGEST])])
    need = min(printing.length(which, given, width, ws), 30)
    at = rng.choice([0, 0, 1, 2, 5])
    room = rng.choice([0, max(0, at + need - 3), max(0, at + need - 1)] + [at + need] * 2 + [at + need + 1, at + need + 4])
    at = rng.choice([at] * 8 + [max(0, room - 1), room, room + 1, LARGEST - need - 1, LARGEST - need, LARGEST - rng.randrange(need + 1), LARGEST])
    return which, at, given, width, ws, room


def reading(rng):
    """Bytes, a place, a limit: digits between other bytes, now and then none of them or a leading nought; the limit near their value."""
    value = rng.choice([number(rng)] * 6 + [LARGEST + 1, LARGEST + rng.randrange(2**64), 10 ** rng.randrange(20, 24)])
    digits = rng.choice(["", "0", "00"] + [str(value)] * 9 + [f"0{value}"])
    front = rng.choice(["", "", "", " ", "a", "7 ", "0 ", "\n", "12/"])
    data = [*(front + digits).encode(), *rng.choice([b"", b"", b" ", b"\n", b"a", b"/", b":", b" 7", b"\x00", b"\xff9"])]
    place = rng.choice([len(front)] * 9 + [0, len(front) + 1, max(0, len(data) - 1), len(data), len(data) + 1, LARGEST])
    limit = rng.choice([value] * 3 + [value + 1, max(0, value - 1), value // 10, 10 * value, 0, 5, 9, 65535] + [LARGEST] * 4)
    return data, place, min(limit, LARGEST)


def visitor_sets(rng):
    """Used lifetimes, now and then some that are in no set; and sets, fewer or more than there are lifetimes."""
    lifetimes = rng.choice([rng.sample(range(66), rng.choice([0, 1, 2, 4, 8])), list(range(rng.choice([3, 8, 64]))), [rng.randrange(8), LARGEST]])
    sets = [rng.choice([0, 1 << rng.randrange(64), rng.getrandbits(64), rng.randrange(9), LARGEST]) for _ in range(rng.choice([0, 1, 2, 3, 4, 6, 8, 8, 12, rng.choice([16, 63, 64, 65])]))]
    return lifetimes, sets


def pushed_bounds(rng):
    """How many lifetimes, how many bounds are pushed, bounds: now and then a side at the limit or past it, among the pushed ones or behind them, or one too many."""
    lifetimes = rng.choice([0, 1, 2, 3, 8, 32, 64, 254, 255, 256, LARGEST])
    limit = max(1, min(lifetimes, 255))
    bounds = [(rng.randrange(limit), rng.randrange(limit)) for _ in range(rng.choice([0, 1, 2, 3, 4, 5, 8, 12, 20, rng.choice([20, 255, 256, 257])]))]
    if bounds and rng.random() < 0.5:
        past = rng.choice([lifetimes, lifetimes, lifetimes + 1, 255, LARGEST])
        bounds[rng.choice([0, rng.randrange(len(bounds)), -1])] = rng.choice([(min(past, LARGEST), 0), (0, min(past, LARGEST))])
    pushed = rng.choice([len(bounds)] * 6 + [len(bounds) + 1, max(0, len(bounds) - 1), 0, MAX_BOUNDS, MAX_BOUNDS + 1, LARGEST])
    return lifetimes, pushed, bounds


# ---- records to be written (02, W-214)

LARGE_WORDS = [LARGEST_WORD + 1] * 3 + [LARGEST_WORD + 2, 2**17, 2**31, 2**32 - 1, 2**32, 2**32 + 7, 2**63, LARGEST]


def sheet_records(rng):
    """The ten records of a random sheet, accepted or not: an ordinary one, one with a fault or at a limit, or one with words changed."""
    sheet = ordinary(rng)
    form = rng.random()
    if form < 0.08:
        made = other_words(rng, sheet)
    elif form < 0.28:
        _, make, _ = rng.choice(FAULTS)
        made = make(rng, sheet, len(sheet["names"]) + 1)
    elif form < 0.42:
        _, make, *_ = rng.choice(LIMITS)
        made = make(rng, sheet, rng.choice(list(PAST)))
    else:
        made = sheet
    made = made if isinstance(made, dict) else sheet  # no sheet of the kind, or one only as bytes
    return [list(made[name]) for name in RECORDS]


def large_word(rng, rs):
    """A word that no sheet has, anywhere; now and then one with the same last 16 bits as what stood there."""
    at = rng.randrange(len(rs))
    k = rng.randrange(len(rs[at]) + 1)
    same = [min(rs[at][k] + more, LARGEST) for more in (2**16, 2**32)] if k < len(rs[at]) else []
    return rs[:at] + [rs[at][:k] + [rng.choice(LARGE_WORDS + 3 * same)] + rs[at][k + 1 :]] + rs[at + 1 :]


def largest_words(rng, rs):
    """The largest word of a sheet, in place of some words or behind a record."""
    at = rng.randrange(len(rs))
    return rs[:at] + [[rng.choice([word, word, LARGEST_WORD]) for word in rs[at]] + rng.choice([[], [LARGEST_WORD]])] + rs[at + 1 :]


def long_words(rng, rs):
    """A record at the limit of its words or past it, now and then with a large word behind the limit."""
    at = rng.randrange(len(rs))
    n = MAX_WORDS + rng.choice([-1, 0, 0, 1, 1, 2, 70])
    name = RECORDS[at]
    words = LONG[name](n) if name in LONG and n <= MAX_WORDS + 1 else [0] * n
    if n > MAX_WORDS and rng.random() < 0.4:
        words[rng.randrange(MAX_WORDS, n)] = rng.choice(LARGE_WORDS)
    return rs[:at] + [words] + rs[at + 1 :]


def torn_words(rng, rs):
    """A record with a word less, a word more, or none."""
    at = rng.randrange(len(rs))
    return rs[:at] + [rng.choice([rs[at][:-1], rs[at] + [rng.randrange(6)], []])] + rs[at + 1 :]


def other_force(rng, rs):
    return rs[:-1] + [rng.choice([[1], [1], [1], [0], [2], [], [1, 1], [1, 0], [LARGEST_WORD + 1], [LARGEST_WORD + 2], [LARGEST]])]


WORSE = [large_word, large_word, largest_words, long_words, torn_words, other_force, other_force]


def writing(rng):
    """Ten records to be written: those of a random sheet, of which half are changed: a large word, a long record, a torn one, another `force`, and now and then two of these."""
    rs = sheet_records(rng)
    for change in rng.sample(WORSE, rng.choice([0, 0, 0, 0, 1, 1, 1, 2])):
        rs = change(rng, rs)
    return rs


def laid_out(rng, rs):
    """Records as words and ends: now and then with words behind the last end, with ends that are too few, too many, not ascending or past the words, or with an end that stands elsewhere."""
    ws, ends = flat(rs), ends_of(rs)
    if rng.random() < 0.3:
        ws = ws + [rng.choice([0, 7, LARGEST_WORD] + LARGE_WORDS) for _ in range(rng.choice([1, 1, 2, 5]))]
    if rng.random() < 0.3:
        at = rng.randrange(len(ends))
        ends = rng.choice(
            [
                ends[:at] + ends[at + 1 :],
                ends[:at] + [ends[at]] + ends[at:],
                ends + [rng.choice([ends[-1], len(ws), 0, LARGEST])],
                [],
                ends[:at] + [max(0, ends[at] - 1)] + ends[at + 1 :],
                ends[:at] + [ends[at] + 1] + ends[at + 1 :],
                ends[:at] + [rng.choice([0, len(ws), len(ws) + 1, 2**32, LARGEST])] + ends[at + 1 :],
                ends[:-1] + [len(ws)],
                ends[:-1] + [rng.choice([len(ws) + 1, LARGEST])],
                ends[::-1],
            ]
        )
    return ws, ends


def text_room(rng, rs):
    """How many bytes are lent for the text of records: just so many, one more or less, ample, none, or any number; a few where it would be longer than what is lent."""
    size = len(written(rs))
    if size > printing.MOST_ROOM - 50:
        return rng.choice([0, 1, 70])
    return rng.choice([size, size, size, size + 1, size - 1, size - 1, size + rng.randrange(40), 0, rng.randrange(size)])
