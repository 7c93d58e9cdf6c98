"""The Rust: an oracle, a program that runs the files of diplomat_core 0.17.0 on method sheets (oracle/README.md), and what it printed as an answer to a question of `vectors`.

Two orders are the model's: the Rust keeps two lists at each lifetime and no list of all bounds, and the edges at each used lifetime and no list of all edges. The model's order must give the Rust's lists
at every lifetime.
"""
import subprocess

from .base import flat, paired, words, written
from .environment import from_method_item
from .listing import section
from .questions import accepted, lowered_words, reached, seen_pairs, used, visited, visits_answer
from .visits import EDGE


def sheet_text(*rs):
    """The text of a sheet; the records behind those given are empty, force is 0."""
    return written(list(rs) + [[]] * (9 - len(rs)) + [[0]] * (len(rs) < 10))


class Oracle:
    """A command for many sheets, and one for a method made by hand. By `variant` it chooses among the Rust's forms that a sheet leaves open."""

    def __init__(self, path, variant=0):
        self.path, self.variant = path, variant

    def run(self, command, given, data):
        told = [self.path, *command.split(), "--variant", str(self.variant), *given]
        return subprocess.run(told, input=data, stdout=subprocess.PIPE, stderr=subprocess.DEVNULL, check=True).stdout.decode()

    def __call__(self, command, texts):
        """For each sheet what the Rust prints."""
        if not texts:
            return []
        answers = [answer + "\n" for answer in self.run(command, ["--stream"], b"".join(texts)).split("\n.\n")[:-1]]
        assert len(answers) == len(texts), "one answer for each sheet"
        return answers

    def by_hand(self, command, env, *four):
        """What it prints for a method with an environment made by hand; nothing but that where no records are given."""
        hand = ",".join(map(str, [env.declared, env.count] + flat(env.walked())))
        return self.run(command, ["--hand", hand], sheet_text([0], [0], [], [], [], [], *four))


# ---- what it printed


def numbered(listing, heading):
    """The lists under a heading, each with its number in front."""
    rows = section(listing, heading)
    assert [row[0] for row in rows] == list(range(len(rows)))
    return [row[1:] for row in rows]


def read_environment(three, bounds, ast):
    """Kind 1, from `bounds` and from `ast`; the order of all bounds from the model."""
    env = from_method_item(*three)
    assert section(bounds, "declared lifetimes bounds") == [[env.named, env.named, env.pushed]], three
    longer, shorter = numbered(bounds, "lifetime longer"), numbered(bounds, "lifetime shorter")
    for k in range(env.named):
        assert longer[k] == [up for up, down in env.bounds if down == k], three
        assert shorter[k] == [down for up, down in env.bounds if up == k], three
    return accepted(env.bounds, numbered(ast, "name longer"), numbered(ast, "name shorter"))


def read_reach(listing, shorter):
    """Kind 16, from a listing and from `shorter`."""
    return reached(numbered(listing, "lifetime longer"), numbered(shorter, "lifetime shorter"))


def read_lowering(declared, rooms, listing):
    """Kind 7 behind an accepted environment, from a listing."""
    [[count, *_]] = section(listing, "lifetimes used params edges")
    return lowered_words(declared, rooms, (*section(listing, "lowered"), count))


def read_fields(fields):
    """Kind 11, from `fields`: the answer of each struct-typed field, by row and field."""
    return {(row, field): [0, len(found) // 2] + found for row, field, *found in section(fields, "row field pairs")}


def used_probes(method):
    """The method with an opaque of every lifetime behind its params, whose edges show what is used."""
    env, structs, params, output, force = method
    return env, structs, params + flat([1, 0, 1, word, 0] for word in range(1, env.count + 1)), output, force


def read_used(listing):
    """Kind 10, from the listing of a method with probes."""
    found = sorted({edge[0] for edge in section(listing, "used param kind def option")})
    [[_, count, *_]] = section(listing, "lifetimes used params edges")
    assert count == len(found), listing
    return used(found)


def read_visits(method, room, visits, printed):
    """Kind 13 with enough room, from `visits`; the order of all edges from the model, which must give the Rust's edges of each used lifetime."""
    lines = printed[:-1].split("\n")
    middle = lines.index("used param kind def option")
    answers = []
    for number, row in zip(visits, map(words, lines[1:middle]), strict=True):
        assert row[0] == number, method
        found = paired(row[2:])
        answers += seen_pairs(row[1], [(place, sorted(u for d, u in found if d == place)) for place in sorted({d for d, _ in found})])
    edges = [tuple(words(row)) for row in lines[middle + 1 :]]
    ours = visits_answer(method, room, visits)
    count = ours[1 + len(answers)]
    stored = ours[2 + len(answers) : 2 + len(answers) + EDGE * count]
    by_visit = [tuple(stored[k : k + EDGE]) for k in range(0, EDGE * count, EDGE)]
    assert sorted(by_visit, key=lambda edge: edge[0]) == edges, (method, visits, by_visit, edges)
    return visited(answers, stored, room)
