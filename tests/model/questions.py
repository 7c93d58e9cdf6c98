"""The kinds of questions of the program `vectors`: how each is asked, and what the model answers.

For each kind a function makes the question, a list of numbers with the kind in front, and one gives the model's answer, the numbers of the line that the program prints. What a kind asks and prints is said in
crates/vectors/src, in the module of its crate:

    ast.rt           1 from_method_item; 2, 3, 4 the shapes of names, bounds, types; 5 longer_than, shorter_than; 6 extend_implicit_lifetime_bounds
    lowering.rt      7 lower; 8, 9 the shapes of self, steps
    lowered.rt       10 check_method, used_method_lifetimes; 11 compute_for_struct_field; 12 type_lifetimes
    visits.rt        13 a visitor and its visits; 27 edge_at; 30 from_sets
    lowerer.rt       14 a step of a lowerer; 15 finish; 21 no_self_ref, lower_self_ref; 22 input_then_output
    reach.rt         16 check, all_longer_lifetimes, all_shorter_lifetimes
    environments.rt  17 LifetimeEnv::new; 18 push_bound, get_bounds; 32 Bounds::none, LifetimeEnv::none, the AST's LifetimeEnv::none
    bounds.rt        31 Bounds::check
    words.rt         19 set::members, copy_words; 20 word
    borrows.rt       23 borrow_method
    sheets.rt        24 lower_sheet; 25 borrow_sheet, borrows_sheet; 26 listing, borrows_listing
    texts.rt         28 put_text, put_number, put_padded, put_following, put_line; 29 read_number
    writes.rt        33 sheet_shape, write_sheet; 34 write_laid, borrows_write_sheet
"""
from . import elision, environment, methods, printing, text
from .base import LARGEST, Refusal, flat, number_of, record, refuse, words
from .elision import Lowerer
from .listing import by_model, method_of
from .printing import DOT, MOST_ROOM
from .visits import EDGE, Visits, borrows

MOST_BYTES = 524288  # of questions that the program reads
EDGES_ROOM, BYTES_ROOM = 20480, MOST_ROOM  # the most words for edges and the most bytes that it lends; of other words it lends 8,192
UNWRITTEN = 99  # every word of a lent slice before the call; every byte of one is a dot


def refused(number):
    return [number]


def lent(answer, room, unwritten=UNWRITTEN):
    """What a slice of this length has behind a call that writes this."""
    assert len(answer) <= room
    return list(answer) + [unwritten] * (room - len(answer))


def answered(call, *given):
    """What a call gives, or the number by which it is refused."""
    try:
        return call(*given)
    except Refusal as refusal:
        return refusal.number


def listed(found, room, unwritten=UNWRITTEN):
    """A list written to one slice: the refusal's number or 0, the count, and the whole slice. `found` may be the number of a refusal."""
    if isinstance(found, int) or len(found) > room:
        return [found if isinstance(found, int) else 9, 0] + lent([], room, unwritten)
    return [0, len(found)] + lent(found, room, unwritten)


def records_of(*rs):
    return flat(map(record, rs))


# ---- kinds 1 to 6, 17, 18, 31 and 32: environments and their bounds


def accepted(bounds, longer, shorter):
    """Kind 1: bounds by number, and for each name its two lists."""
    return [0, len(longer), len(bounds)] + flat(bounds) + flat(record(up) + record(down) for up, down in zip(longer, shorter))


def method_question(names, bounds, types):
    return [1] + records_of(names, bounds, types)


def method_answer(names, bounds, types):
    found = answered(environment.from_method_item, names, bounds, types)
    if isinstance(found, int):
        return refused(found)
    return accepted(found.bounds, *([environment.than(found.names, found.bounds, name, longer) for name in found.names] for longer in (True, False)))


SHAPE_CHECKS = {2: environment.names_shape, 3: environment.bounds_shape, 4: environment.types_shape, 8: elision.self_shape, 9: elision.read_steps}


def shape_question(kind, ws):
    return [kind] + record(ws)


def shape_answer(kind, ws):
    return [number_of(SHAPE_CHECKS[kind], ws)]


def ast_environment_words(env):
    """An AST environment made by hand, as a part of a question."""
    return [env.named] + record(env.names) + [env.pushed] + record(flat(env.bounds))


def lists_question(env, name, room):
    return [5] + ast_environment_words(env) + [name, room]


def lists_answer(env, name, room):
    number = number_of(environment.check, env)
    if number:
        return [number] + 2 * listed(number, room)
    both = (environment.than(env.declared(), env.walked(), name, longer) for longer in (True, False))
    return [0] + flat(listed(found, room) for found in both)


def bounds_filled(bounds):
    """The bounds up to the last that is not 0 0, with their number in front."""
    bounds = environment.kept(bounds)
    while bounds and bounds[-1] == (0, 0):
        bounds = bounds[:-1]
    return [len(bounds)] + flat(bounds)


def whole_ast(env):
    """An AST environment as answers have it: all 32 places for names, and the bounds."""
    return [env.named, env.pushed] + (env.names + [0] * 32)[:32] + bounds_filled(env.bounds)


def extended(verdict, env):
    """Kind 6."""
    return [verdict] + whole_ast(env)


def extend_question(env, types):
    return [6] + ast_environment_words(env) + record(types)


def extend_answer(env, types):
    found = answered(environment.extend, env, types)
    return extended(found, env) if isinstance(found, int) else extended(0, found)


def method_environment_words(env):
    """A method's environment made by hand, as a part of a question."""
    return [env.declared, env.count, env.pushed] + record(flat(env.bounds))


def whole(env):
    """A method's environment as answers have it."""
    return [env.declared, env.count, env.pushed] + bounds_filled(env.bounds)


def new_question(declared, count, ws):
    return [17, declared, count] + record(ws)


def new_answer(declared, count, ws):
    found = answered(environment.new_env, declared, count, ws)
    return [found] + whole(environment.NO_LIFETIMES) if isinstance(found, int) else [0] + whole(found)


def push_question(env, longer, shorter):
    return [18] + method_environment_words(env) + [longer, shorter]


def push_answer(env, longer, shorter):
    found = answered(environment.push_bound, env, longer, shorter)
    after = [found] + whole(env) if isinstance(found, int) else [0] + whole(found)
    return after + [int(k < env.declared) for k in (longer, shorter)]


def check_question(lifetimes, pushed, bounds):
    return [31, lifetimes, pushed] + record(flat(bounds))


def check_answer(lifetimes, pushed, bounds):
    return [number_of(environment.check_bounds, lifetimes, pushed, bounds)]


def none_question():
    return [32]


def none_answer():
    """No bounds, an environment without lifetimes, an AST environment without names."""
    return [0] + bounds_filled([]) + whole(environment.NO_LIFETIMES) + whole_ast(environment.NO_NAMES)


# ---- kind 16: reach


def reached(longer, shorter):
    """Accepted: the lists of each lifetime; the start at the count is refused by 8."""
    return [0] + flat(record(up) + record(down) for up, down in zip(longer, shorter, strict=True)) + [8, 8]


def reach_question(env):
    return [16] + method_environment_words(env)


def reach_answer(env):
    found = answered(environment.reach, env)
    return refused(found) if isinstance(found, int) else reached(*found)


# ---- kinds 19 and 20: lists to one slice, lowered words


def members_question(lifetimes, room):
    return [19, 0] + record(lifetimes) + [0, room]


def members_answer(lifetimes, room):
    return listed(sorted({k for k in lifetimes if k < 64}), room)


def copy_question(ws, count, room):
    return [19, 1] + record(ws) + [count, room]


def copy_answer(ws, count, room):
    return listed(ws[:count], room)


def word_question(code, number):
    return [20, code, number]


def word_answer(code, number):
    """Static is 0, and the lifetime numbered k - 1 is k, as far as there are words; of a method's lifetime and of a definition's."""
    word = number + 1 if code else 0
    return 2 * ([0, word] if word <= LARGEST else [1, 0])


# ---- kind 7: lower


def lowered_words(declared, rooms, found):
    """The answer behind an accepted environment; `found` is a refusal's number, or the lowered words of three records and the count. Refused where a room is too short."""
    if not isinstance(found, int):
        *parts, count = found
        if all(len(part) <= room for part, room in zip(parts, rooms)):
            return [0] + [len(part) for part in parts] + [declared, count] + flat(map(lent, parts, rooms))
        found = 9
    return [found, 0, 0, 0, 0, 0] + lent([], sum(rooms))


def lower_question(three, rs, rooms):
    return [7] + records_of(*three, *rs) + rooms


def lower_answer(three, rs, rooms):
    found = answered(environment.from_method_item, *three)
    if isinstance(found, int):
        return refused(found)
    return lowered_words(found.named, rooms, answered(elision.lower_records, found.names, *rs))


# ---- kinds 14, 15, 21 and 22: lowerers. One made by hand is source, word, count, kept, n, list


def lowerer_words(source, word, count, kept, n, own):
    return [source, word, count, kept, n] + record(own)


def lifetimes_words(given, n=None):
    """A list of lifetimes: how many it has, and its 16 places."""
    return [len(given) if n is None else n] + (given + [0] * 16)[:16]


def stepped(number, lowerer, given):
    return [number, lowerer.source, lowerer.word, lowerer.count, lowerer.kept] + lifetimes_words(lowerer.own, lowerer.n) + lifetimes_words(given)


def step_question(names, lowerer, step):
    """A step is its kind, the number of generics (kind 0: the lifetime), the lifetimes (kind 3: the words of the step), and whether it is in the output."""
    kind, generics, ws, output = step
    return [14] + record(names) + lowerer_words(*lowerer) + [kind, generics] + record(ws) + [output]


def step_answer(names, lowerer, step):
    lowerer = Lowerer(*lowerer)
    found = answered(made_step, names, lowerer, *step)
    return stepped(found, lowerer, []) if isinstance(found, int) else stepped(0, *found)


def made_step(names, lowerer, kind, generics, ws, output):
    if kind == 3:
        return elision.worded_step(names, lowerer, ws, output)
    if kind == 0:
        ws = [generics]
    if kind == 1:
        refuse(generics > environment.MAX_LIST or len(ws) > environment.MAX_LIST, 1)
        ws = ws + [1] * (generics - len(ws))
    return elision.step(names, lowerer, kind, ws, output)


def start_question(names, receiver):
    return [21] + records_of(names, receiver)


def start_answer(names, receiver):
    found = answered(elision.start, names, receiver)
    if isinstance(found, int):
        return stepped(found, elision.start(names, [])[0], [])
    return stepped(0, *found)


def both_question(names, lowerer, first, second):
    return [22] + record(names) + lowerer_words(*lowerer) + records_of(first, second)


def both_answer(names, lowerer, first, second):
    found = answered(elision.input_then_output, names, Lowerer(*lowerer), first, second)
    return [found] + lifetimes_words([]) if isinstance(found, int) else [0] + lifetimes_words(found)


def finish_question(lowerer, env):
    return [15] + lowerer_words(*lowerer) + ast_environment_words(env)


def finish_answer(lowerer, env):
    found = answered(elision.finish, Lowerer(*lowerer), env)
    return [found, 0, 0, 0] if isinstance(found, int) else [0, *found[:3]]


# ---- kinds 10 to 13 and 23: methods. One made by hand is an environment and the records structs, params, output, force


def used_question(env, *four):
    return [10] + method_environment_words(env) + records_of(*four)


def used(found):
    """Kind 10: twice the number of a refusal, or the used lifetimes behind two zeros."""
    return [found, found] if isinstance(found, int) else [0, 0] + found


def used_answer(env, *four):
    found = answered(methods.read_method, env, *four)
    return used(found if isinstance(found, int) else methods.used_lifetimes(found[2]))


def field_question(structs, row, field):
    return [11] + record(structs) + [row, field]


def field_answer(structs, row, field):
    found = answered(methods.field_pairs, structs, row, field)
    return refused(found) if isinstance(found, int) else [0, len(found)] + flat(found)


def type_question(ws, index):
    return [12] + record(ws) + [index]


def type_answer(ws, index):
    found = answered(methods.only_type, ws)
    if isinstance(found, int):
        return refused(found)
    found = found.lifetimes()
    if index >= len(found):
        return [0, 0]
    return [0, 2, found[index] - 1] if found[index] else [0, 1]


def seen(number, *sets):
    """Kind 13, what a visit answers: its number, and for each definition lifetime with pairs it and its used lifetimes, as text `def used ..`."""
    return seen_pairs(number, [(place, used_) for place, *used_ in map(words, sets)])


def seen_pairs(number, found):
    return [0, number, len(found)] + flat([place] + record(used_) for place, used_ in found)


def not_seen(refusal):
    return [refusal, 0, 0]


def visited(answers, edges, room):
    """Kind 13: the answers of all visits, and the words of all edges in the slice."""
    return [0] + answers + [len(edges) // EDGE] + lent(edges, room)


def visits_question(method, room, visits):
    env, *four = method
    return [13] + method_environment_words(env) + records_of(*four) + [room] + record(visits)


def visits_answer(method, room, visits):
    visitor = answered(Visits, *method)
    if isinstance(visitor, int):
        return refused(visitor)
    found = [answered(visitor.visit, number, room) for number in visits]
    return visited(flat(not_seen(f) if isinstance(f, int) else seen_pairs(*f) for f in found), flat(visitor.stored), room)


def borrowed(found, rooms):
    """What `borrow_method` and `borrow_sheet` answer, and all words of three slices; `found` is a refusal's number, or used lifetimes, answers, edges."""
    if not isinstance(found, int):
        parts = [found[0], found[1], flat(found[2])]
        if all(len(part) <= room for part, room in zip(parts, rooms)):
            return [0] + [len(part) for part in found] + flat(map(lent, parts, rooms))
        found = 9
    return [found, 0, 0, 0] + lent([], sum(rooms[:3]))


def borrow_question(method, rooms):
    env, *four = method
    return [23] + method_environment_words(env) + records_of(*four, rooms)


def borrow_answer(method, rooms):
    return borrowed(answered(borrows, *method), rooms)


# ---- kinds 24 to 26: whole sheets as bytes


def sheet_question(kind, data, rooms):
    return [kind] + records_of(list(data), rooms)


def sheet_method(data):
    """The records of a sheet, and its method: environment, records structs to force; refused by a number."""
    rs = text.read_sheet(data)
    _, env, four, _ = method_of(rs)
    return rs, (env, *four)


def lower_sheet_answer(data, rooms):
    """Kind 24."""
    return sheet_lowered(answered(sheet_method, data), rooms[0])


def sheet_lowered(found, room):
    """`found` is a refusal's number, or the records and the environment."""
    if not isinstance(found, int):
        rs, (env, *_) = found
        if len(flat(rs)) <= room:
            return [0] + text.ends_of(rs) + whole(env) + lent(flat(rs), room)
        found = 9
    return [found] + [0] * 10 + whole(environment.NO_LIFETIMES) + lent([], room)


def borrow_sheet_answer(data, rooms):
    """Kind 25."""
    found = answered(sheet_method, data)
    return sheet_borrowed(found if isinstance(found, int) else borrows(*found[1]), rooms)


def sheet_borrowed(found, rooms):
    """`found` is a refusal's number, or used lifetimes, answers, edges."""
    called = borrowed(found, rooms)
    status, counts, slices = called[0], called[1:4], called[4:]
    if status == 0 and rooms[3] >= 3:
        return called + [0] + slices + lent(counts, rooms[3])
    return called + [status or 9] + lent([], sum(rooms))


def listing_answer(data, rooms):
    """Kind 26."""
    found = answered(by_model, data)
    return sheet_listed(found if isinstance(found, int) else found[2], rooms)


def sheet_listed(found, rooms):
    """`found` is a refusal's number, or the listing."""
    return exported(found if isinstance(found, int) else list(found.encode()), *rooms)


def exported(found, room, counted):
    """Bytes written to one slice, by the library's call and by the exported one, which wants room for their number besides: what the first answers and the whole slice; the second's status and both slices."""
    called = listed(found, room, DOT)
    if called[0] == 0 and counted >= 1:
        return called + [0] + called[2:] + lent([called[1]], counted)
    return called + [called[0] or 9] + lent([], room, DOT) + lent([], counted)


# ---- kind 27: an edge by its place


def edge_question(ws, place):
    return [27] + record(ws) + [place]


def edge_answer(ws, place):
    found = ws[EDGE * place:EDGE * (place + 1)]
    return [1] + found if len(found) == EDGE else [0]


# ---- kinds 28 and 29: the crate text


def put_question(which, at, number, width, ws, room):
    return [28, which, at, number, width] + record(ws) + [room]


def put_answer(*asked):
    place, out = printing.put(*asked)
    return [place] + out


def read_question(data, at, limit):
    return [29] + record(data) + [at, limit]


def read_answer(data, at, limit):
    found = printing.read_number(data, at, limit)
    return [0] if found is None else [1, *found]


# ---- kind 30: a visitor from sets, each the sum of 2^k over its lifetimes k


def sets_question(lifetimes, sets):
    return [30] + records_of(lifetimes, sets)


def sets_answer(lifetimes, sets):
    """The set of the used lifetimes, no edges, and at each used lifetime its set, at the others 0."""
    used_ones = {k for k in lifetimes if k < environment.MAX_LIFETIMES}
    drawn = [found if k in used_ones else 0 for k, found in enumerate(sets[: environment.MAX_LIFETIMES])]
    while drawn and drawn[-1] == 0:
        drawn.pop()
    return [sum(2**k for k in used_ones), 0] + record(drawn)


# ---- kinds 33 and 34: records written as a sheet


def write_question(rs, room):
    return [33] + records_of(*rs) + [room]


def write_answer(rs, room, wrong=""):
    return [number_of(text.sheet_shape, rs)] + listed(answered(text.write_sheet, rs, wrong), room, DOT)


def laid_question(ws, ends, room, counted):
    return [34] + records_of(ws, ends) + [room, counted]


def laid_answer(ws, ends, room, counted, wrong=""):
    return exported(answered(text.write_laid, ws, ends, wrong), room, counted)
