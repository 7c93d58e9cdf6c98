"""The edges of a parameter, what a visit answers, and a method's borrows as a whole."""
from .base import flat, refuse
from .environment import longer_ones
from .methods import read_method, used_lifetimes

NO_BORROW, UNUSED_SLICE, SLICE, STRUCT, OPAQUE = range(5)  # the numbers of answers
EDGE = 5  # the words of an edge: used, param, kind, def, option


def edges_of(env, used, number, found):
    """The edges that a param brings, by used lifetime, then by def."""
    out = []
    for k in used:
        drawn = longer_ones(env, k)
        hits = [place for place, word in enumerate(found.lifetimes()) if word - 1 in drawn]
        if found.code == 2:
            out += [(k, number, 3, place, int(found.option)) for place in hits]
        elif hits:
            out.append((k, number, 1 if found.code == 1 else 2, 0, 0))
    return out


def answer_number(found, edges):
    """The number of a visit's answer."""
    if not edges:
        return UNUSED_SLICE if found.code == 3 else NO_BORROW
    return {1: OPAQUE, 2: STRUCT, 3: SLICE}[found.code]


def struct_pairs(found, edges):
    """What a struct's answer carries: each definition lifetime with edges, and its used lifetimes."""
    if found.code != 2:
        return []
    return [(place, used) for place in range(16) if (used := [edge[0] for edge in edges if edge[3] == place])]


class Visits:
    """A visitor: the params of an accepted method, its used lifetimes, and the edges stored so far."""

    def __init__(self, env, *four):
        rows, self.params, outputs = read_method(env, *four)
        self.env, self.used, self.stored = env, used_lifetimes(outputs), []

    def edges(self, number):
        return edges_of(self.env, self.used, number, self.params[number])

    def visit(self, number, room):
        """The number of the answer and its pairs, with room for so many words of edges in all."""
        refuse(number >= len(self.params), 1)
        edges = self.edges(number)
        refuse(edges and EDGE * len(self.stored + edges) > room, 9)
        self.stored += edges
        return answer_number(self.params[number], edges), struct_pairs(self.params[number], edges)


def in_listing_order(edges):
    return sorted(edges, key=lambda e: (e[0], e[1], e[3]))


def borrows(env, *four):
    """A whole method: its used lifetimes, the answers of its params, its edges in listing order."""
    visitor = Visits(env, *four)
    numbers = range(len(visitor.params))
    answers = [answer_number(visitor.params[number], visitor.edges(number)) for number in numbers]
    return visitor.used, answers, in_listing_order(flat(visitor.edges(number) for number in numbers))
