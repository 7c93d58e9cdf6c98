"""Records names, bounds, types: the AST's environment, and a method's.

Bounds are pairs longer, shorter by number. An environment made by hand may have any counts, and what its bounds leave of the places is 0 0.
"""
from typing import NamedTuple

from .base import paired, refuse

MAX_NAMES, MAX_LIFETIMES, MAX_BOUNDS = 32, 64, 256
MAX_WORDS, MAX_LIST, MAX_NESTING = 1024, 16, 8


class AstEnv(NamedTuple):
    """The AST's environment: how many names are declared, they, how many bounds are pushed, they."""

    named: int
    names: list
    pushed: int
    bounds: list

    def declared(self):
        return (self.names + [0] * MAX_NAMES)[: self.named]

    def walked(self):
        return filled(self.pushed, self.bounds)


class Env(NamedTuple):
    """A method's environment: how many lifetimes are declared, how many there are, how many bounds are pushed, they."""

    declared: int
    count: int
    pushed: int
    bounds: list

    def walked(self):
        return filled(self.pushed, self.bounds)


NO_LIFETIMES = Env(0, 0, 0, [])  # the environment beside a refusal
NO_NAMES = AstEnv(0, [], 0, [])  # the AST's


def filled(pushed, bounds):
    """The first bounds of an environment, 0 0 where none is given."""
    return (bounds + [(0, 0)] * MAX_BOUNDS)[: min(pushed, MAX_BOUNDS)]


def kept(bounds):
    """Bounds as the places for them have them: at most 256, and of a side above 254 only that it is past every lifetime."""
    return [tuple(min(side, 255) for side in bound) for bound in bounds[:MAX_BOUNDS]]


# ---- shapes


def type_end(ws, at, nesting):
    """Where the type at a place ends; 1 where there is none."""
    refuse(nesting == 0 or at >= len(ws), 1)
    code = ws[at]
    if code == 0:
        return at + 1
    if code == 1:
        refuse(at + 1 >= len(ws) or ws[at + 1] > MAX_LIST or at + 2 + ws[at + 1] > len(ws), 1)
        return at + 2 + ws[at + 1]
    if code == 2:
        return type_end(ws, at + 2, nesting - 1)
    if code == 3:
        return type_end(ws, at + 1, nesting - 1)
    refuse(code != 4, 1)
    return type_end(ws, type_end(ws, at + 1, nesting - 1), nesting - 1)


def names_shape(ws):
    refuse(not 1 <= len(ws) <= MAX_WORDS or ws[0] > len(ws) - 1 or any(w < 2 for w in ws[1:]), 1)


def bounds_shape(ws):
    refuse(not 1 <= len(ws) <= MAX_WORDS or len(ws) % 2 == 0 or ws[0] > len(ws) // 2, 1)


def types_shape(ws):
    refuse(len(ws) > MAX_WORDS, 1)
    at = 0
    while at < len(ws):
        at = type_end(ws, at, MAX_NESTING)


# ---- the AST's


def declare(names, more):
    for name in more:
        refuse(len(names) == MAX_NAMES, 4)
        refuse(name in names, 2)
        names.append(name)


def push(names, bounds, longer, shorter):
    refuse(longer not in names or shorter not in names, 3)
    refuse(len(bounds) == MAX_BOUNDS, 4)
    bounds.append((names.index(longer), names.index(shorter)))


def than(names, bounds, name, longer):
    """Depth first in list order, itself first; nothing for an unknown name."""
    seen = []

    def visit(x):
        if x not in seen:
            seen.append(x)
            for up, down in bounds:
                if (down if longer else up) == x:
                    visit(up if longer else down)

    if name in names:
        visit(names.index(name))
    return seen


def imply(names, bounds, types):
    """What types in shape imply, pushed behind the bounds."""
    at, behind = 0, 0
    while at < len(types):
        code = types[at]
        if code == 2:
            behind = types[at + 1]
            at += 2
            continue
        if code == 1:
            lifetimes = types[at + 2 : at + 2 + types[at + 1]]
            at += 1 + len(lifetimes)
            taken = than(names, bounds, behind, True)
            for lifetime in lifetimes:
                among = lifetime in names and names.index(lifetime) in taken
                if behind >= 2 and lifetime >= 2 and not among:
                    push(names, bounds, lifetime, behind)
        at += 1
        behind = 0


def from_method_item(names, bounds, types):
    """The environment of three records; refused by a number."""
    names_shape(names)
    bounds_shape(bounds)
    types_shape(types)
    declared, pushed = [], []
    impls, impl_words = names[0], 1 + 2 * bounds[0]
    declare(declared, names[1 : 1 + impls])
    for k in range(1, impl_words, 2):
        push(declared, pushed, bounds[k], bounds[k + 1])
    declare(declared, names[1 + impls :])
    for k in range(impl_words, len(bounds), 2):
        push(declared, pushed, bounds[k], bounds[k + 1])
    imply(declared, pushed, types)
    return AstEnv(len(declared), declared, len(pushed), pushed)


def within(limit, bounds):
    """8 where a bound has a side past a limit."""
    refuse(any(side >= limit for bound in bounds for side in bound), 8)


def check_bounds(lifetimes, pushed, bounds):
    """Whether these are bounds between so many lifetimes."""
    refuse(pushed > MAX_BOUNDS, 4)
    within(lifetimes, filled(pushed, kept(bounds)))


def check(env):
    """Whether this is an AST environment."""
    refuse(env.named > MAX_NAMES or env.pushed > MAX_BOUNDS, 4)
    within(env.named, env.walked())


def extend(env, types):
    """The environment with the bounds that types imply."""
    types_shape(types)
    check(env)
    declared, after = env.declared(), env.walked()
    imply(declared, after, types)
    return AstEnv(env.named, declared, len(after), after)


# ---- a method's


def limits(env):
    refuse(env.count > MAX_LIFETIMES or env.pushed > MAX_BOUNDS, 4)


def ranges(env):
    refuse(env.declared > env.count, 8)
    within(env.declared, env.walked())


def check_method_env(env):
    """Whether this is a method's environment."""
    limits(env)
    ranges(env)


def new_env(declared, count, ws):
    """The environment of a record of pairs."""
    refuse(len(ws) % 2 == 1, 1)
    env = Env(declared, count, len(ws) // 2, paired(ws))
    check_method_env(env)
    return env


def push_bound(env, longer, shorter):
    """The environment with one bound more."""
    refuse(env.pushed >= MAX_BOUNDS, 4)
    check_method_env(env)
    refuse(longer >= env.declared or shorter >= env.declared, 8)
    return env._replace(pushed=env.pushed + 1, bounds=env.walked() + [(longer, shorter)] + env.bounds[env.pushed + 1 :])


def last_first(bounds, k, longer):
    """The walk along bounds that takes the last pushed first: the lifetimes that outlive one, or those that it outlives."""
    pending, out = [k], []
    while pending:
        x = pending.pop()
        if x not in out:
            out.append(x)
            pending += [(up if longer else down) for up, down in bounds if (down if longer else up) == x]
    return out


def reach(env):
    """The lists longer of all lifetimes, and the lists shorter."""
    check_method_env(env)
    return [[last_first(env.walked(), k, longer) for k in range(env.count)] for longer in (True, False)]


def longer_ones(env, k):
    """The lifetimes that outlive one, itself among them; an elided one has itself only."""
    reached = [k]
    for x in reached:
        reached += {up for up, down in env.walked() if down == x and x < env.declared} - set(reached)
    return set(reached)
