"""A whole sheet: bytes to its method, its borrows and its listing, or to the refusal's number; and a listing read again.

`wrong` is the wrong reading of 01 that is followed, if any: one of WRONG_LISTINGS, or of text.WRONG.
"""
from .base import Refusal, flat, line, refuse, words
from .elision import lower_records
from .environment import Env, from_method_item, last_first, than
from .methods import read_method, used_lifetimes
from .text import read_sheet
from .visits import EDGE, answer_number, edges_of, in_listing_order

SECTIONS = ["lifetimes used params edges", "lowered", "lifetime longer", "param answer", "used param kind def option"]
MAX_EDGES = 4096

# The smallest accepted sheet, its records parted by "|"; 01's own, and the paper's own listing of it
SMALLEST = "0 | 0 | | | | | | | | 0"
EXAMPLE = "0 7 9 | 0 | 2 7 1 1 9 | | 0 7 0 9 0 1 | 0 7 | | 1 0 1 2 1 1 3 1 3 | 1 0 1 1 0 | 0"
EXAMPLE_LISTING = """\
lifetimes used params edges
3 1 2 1
lowered

1 2 3
1
lifetime longer
0 0 1
1 1
2 2
param answer
0 4
1 1
used param kind def option
0 0 1 0 0
"""


def walk(env, k, wrong):
    """The lifetimes that outlive one: the last pushed is taken first."""
    if wrong == "one order for both traversals":
        return than(list(range(env.declared)), env.bounds, k, True) or [k]
    return last_first(env.bounds, k, True)


def env_of(rs):
    """The environment of a sheet's method, and the lowered words of self, steps, returns; refused by a number."""
    ast = from_method_item(*rs[:3])
    *lowered, count = lower_records(ast.names, *rs[3:6])
    return Env(ast.named, count, ast.pushed, ast.bounds), lowered


def method_of(rs):
    """A sheet's lowered words, its environment, the records of its method, and what is in them: rows, params, outputs; refused by a number."""
    env, lowered = env_of(rs)
    return lowered, env, rs[6:], read_method(env, *rs[6:])


def by_model(data, wrong=""):
    """What the program answers: how many bounds, used lifetimes, listing; refused by a number."""
    return listing_of(method_of(read_sheet(data, wrong)), wrong)


def listing_of(method, wrong=""):
    """The same from a sheet's method."""
    lowered, env, _, (_, found, outputs) = method
    used = used_lifetimes(outputs)
    visits = [edges_of(env, used, number, t) for number, t in enumerate(found)]
    if wrong == "a struct's first edge only":
        visits = [[e for at, e in enumerate(es) if e[2] != 3 or e[0] not in [d[0] for d in es[:at]]] for es in visits]
    if wrong == "an option is one for every kind":
        visits = [[(*e[:4], int(t.option)) for e in es] for es, t in zip(visits, found)]
    answers = [answer_number(t, es) for t, es in zip(found, visits)]
    if wrong == "nothing used, nothing borrowed":
        answers = [a if used else 0 for a in answers]
    if wrong == "edges counted into the answer":
        answers = [{1: 4 * len(es), 3: 1 + len(es)}.get(t.code, a) for t, es, a in zip(found, visits, answers)]
    edges = in_listing_order(flat(visits))
    if wrong == "edges by parameter":
        edges.sort(key=lambda e: e[1])
    most = {"4,096 edges are too many": MAX_EDGES - 1, "4,097 edges are listed": MAX_EDGES + 1, "any number of edges is listed": len(edges)}.get(wrong, MAX_EDGES)
    if wrong == "the edges that have room are listed":
        edges = edges[:most]
    refuse(len(edges) > most, 9)
    longer = [[k] + walk(env, k, wrong) for k in range(env.declared if wrong == "longer lines of the declared" else env.count)]
    if wrong == "the number stands once":
        longer = [row[1:] for row in longer]
    tables = [
        [[env.count, len(used), len(found), len(edges)]],
        lowered if wrong != "empty lines are left out" else list(filter(None, lowered)),
        longer,
        [list(row) for row in enumerate(answers)],
        edges,
    ]
    sections = [(heading, rows) for heading, rows in zip(SECTIONS, tables) if rows or wrong != "empty sections are left out"]
    return env.pushed, used, "".join(heading + "\n" + "".join(line(row) for row in rows) for heading, rows in sections)


def response_of(data, wrong=""):
    """The bytes that the program answers, as text."""
    try:
        return by_model(data, wrong)[2]
    except Refusal as refusal:
        return refusal_text(refusal.number)


def refusal_text(number):
    return f"refusal\n{number}\n"


class Answer:
    """The refusal's number or 0, and the program's response. Of an accepted sheet also: `records`, all ten; `env`, the environment; `rows`, `params`, `outputs`;
    `used`."""

    def __init__(self, data):
        self.refusal, self.count = 0, 0
        try:
            self.records = read_sheet(data)
            method = method_of(self.records)
            _, self.env, _, (self.rows, self.params, self.outputs) = method
            self.count = self.env.count
            _, self.used, self.response = listing_of(method)
        except Refusal as refusal:
            self.refusal = refusal.number
            self.response = refusal_text(self.refusal)

    def method(self):
        """The method made by hand: the environment, records structs to force."""
        return self.env, *self.records[6:]


WRONG_LISTINGS = [
    "one order for both traversals",
    "a struct's first edge only",
    "an option is one for every kind",
    "nothing used, nothing borrowed",
    "edges counted into the answer",
    "edges by parameter",
    "4,096 edges are too many",
    "4,097 edges are listed",
    "any number of edges is listed",
    "the edges that have room are listed",
    "longer lines of the declared",
    "the number stands once",
    "empty lines are left out",
    "empty sections are left out",
]

# ---- a listing read again


def section(listing, heading):
    """The rows of numbers that stand under a heading."""
    lines = listing[:-1].split("\n")
    rows = []
    for row in lines[lines.index(heading) + 1 :]:
        if row[:1].isalpha():
            break
        rows.append(words(row))
    return rows


def read_listing(text):
    """The five sections of a listing as rows of numbers. Each line ends in LF, and no blank stands at an end."""
    assert text.endswith("\n")
    rows = text[:-1].split("\n")
    assert all(row == " ".join(row.split()) for row in rows)
    places = [rows.index(heading) for heading in SECTIONS]
    assert places[:3] == [0, 2, 6] and places == sorted(places)
    numbers = [[list(map(int, row.split())) for row in rows[a + 1 : b]] for a, b in zip(places, places[1:] + [len(rows)])]
    [[count, used, params, edges]], lowered, longer, answers, listed = numbers
    assert len(longer) == count and all(row[:2] == [k, k] for k, row in enumerate(longer))
    assert len(answers) == params and all(row[0] == k and len(row) == 2 for k, row in enumerate(answers))
    assert len(listed) == edges and listed == in_listing_order(listed) and all(len(e) == EDGE for e in listed)
    assert len({e[0] for e in listed}) <= used
    return numbers
