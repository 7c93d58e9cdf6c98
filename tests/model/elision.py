"""Records self, steps, returns: the lowerer, step by step, and whole records by it."""
from .base import Refusal, refuse
from .environment import MAX_LIFETIMES, MAX_LIST, MAX_WORDS, Env, check, check_method_env

NO_SOURCE, SELF, ONE, SEVERAL = range(4)  # where an elided lifetime of the output comes from


class Lowerer:
    """What is known between two steps: the source and its lowered word, how many lifetimes there are, whether the `Self` type was there, how many lifetimes that has, and their 16 places."""

    def __init__(self, source, word, count, kept, n, own):
        self.source = min(source, SEVERAL)
        self.word = word if self.source in (SELF, ONE) else 0
        self.count, self.kept, self.n = count, int(kept > 0), n
        self.own = (own + [0] * MAX_LIST)[:MAX_LIST]


# ---- shapes


def self_shape(ws):
    refuse(len(ws) > 1, 1)


def read_step(ws, at):
    """The step at a place: its kind, its words with the appended ones, and the place behind it."""
    kind = ws[at]
    refuse(kind > 2, 1)
    behind = at + (2, 3, 2)[kind]
    refuse(behind > len(ws), 1)
    n = 0 if kind == 0 else ws[behind - 1]
    g = ws[at + 1] if kind == 1 else 0
    refuse(n > MAX_LIST or g > MAX_LIST or behind + n > len(ws), 1)
    given = [ws[at + 1]] if kind == 0 else ws[behind : behind + n]
    return kind, given + [1] * (g - len(given)), behind + n


def read_steps(ws):
    """The steps of a record: kind, words with the appended ones."""
    refuse(len(ws) > MAX_WORDS, 1)
    out, at = [], 0
    while at < len(ws):
        kind, given, at = read_step(ws, at)
        out.append((kind, given))
    return out


# ---- steps


def lower_word(names, count, word):
    """The lowered word of a lifetime that takes nothing from the source, and how many lifetimes there are then."""
    if word == 1:
        refuse(count >= MAX_LIFETIMES, 4)
        return count + 1, count + 1
    refuse(word > 1 and word not in names, 3)
    return names.index(word) + 1 if word else 0, count


def source_behind(lowerer, word):
    """The source behind one more position of the input, with this lowered word."""
    if lowerer.source == SELF:
        return SELF, lowerer.word
    return (ONE, word) if lowerer.source == NO_SOURCE else (SEVERAL, 0)


def elided(lowerer):
    """The lifetime that the output takes from the source."""
    refuse(lowerer.source == NO_SOURCE, 5)
    refuse(lowerer.source == SEVERAL, 6)
    return lowerer.word


def start(names, receiver):
    """The lowerer of a method with this `self`, and the lowered words of that."""
    count, given = len(names), []
    for word in receiver:
        taken, count = lower_word(names, count, word)
        given.append(taken)
    return Lowerer(SELF if given else NO_SOURCE, given[0] if given else 0, count, 0, 0, []), given


def step(names, lowerer, kind, ws, output):
    """The lowerer behind a step, and the lowered words of that. The `Self` type (kind 2) is no position, and is lowered at its first use only."""
    refuse(len(ws) > MAX_LIST, 1)
    if kind == 2 and lowerer.kept:
        return lowerer, lowerer.own[: lowerer.n]
    source, word, count, given = lowerer.source, lowerer.word, lowerer.count, []
    for w in ws:
        if w == 1 and output and kind < 2:
            given.append(elided(lowerer))
        else:
            taken, count = lower_word(names, count, w)
            given.append(taken)
        if kind < 2 and not output:
            source, word = source_behind(Lowerer(source, word, 0, 0, 0, []), given[-1])
    if kind == 2:
        return Lowerer(source, word, count, 1, len(given), given), given
    return Lowerer(source, word, count, lowerer.kept, lowerer.n, lowerer.own), given


def worded_step(names, lowerer, ws, output):
    """The same of a step by its words."""
    refuse(not ws, 1)
    kind, given, to = read_step(ws, 0)
    refuse(to != len(ws), 1)
    return step(names, lowerer, kind, given, output)


def input_then_output(names, lowerer, first, second):
    """The lowered words of the second of two steps in a row. Where the first is refused, the second finds the lowerer as it was."""
    try:
        lowerer, _ = worded_step(names, lowerer, first, False)
    except Refusal:
        pass
    return worded_step(names, lowerer, second, True)[1]


# ---- whole records


def lower_records(names, receiver, steps, returns):
    """The lowered words of self, steps, returns, and the count."""
    self_shape(receiver)
    both = read_steps(steps), read_steps(returns)
    lowerer, own = start(names, receiver)
    out = [], []
    for steps_of, taken, output in zip(both, out, (False, True)):
        for kind, ws in steps_of:
            lowerer, given = step(names, lowerer, kind, ws, output)
            taken += given
    return own, *out, lowerer.count


def finish(lowerer, ast):
    """The method's environment from the AST's."""
    check(ast)
    env = Env(ast.named, lowerer.count, ast.pushed, ast.bounds)
    check_method_env(env)
    return env
