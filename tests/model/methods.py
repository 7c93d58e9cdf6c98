"""Records structs, params, output, force: lowered types, rows, a method, its used lifetimes, a field's pairs."""
from .base import LARGEST, refuse
from .environment import MAX_LIST, MAX_WORDS, limits, ranges

MAX_ROWS, MAX_PARAMS, MAX_OUTPUTS = 32, 16, 2

class Lowered:
    """A lowered type: code without option, option, row, path words, own word (None for none, "strs")."""

    def __init__(self, code, option, row, path, own):
        self.code, self.option, self.row, self.path, self.own = code, option, row, path, own

    def lifetimes(self):
        """Words; those of `Strs` stand for the number 2^64 - 1."""
        own = [] if self.own is None else [LARGEST + 1] if self.own == "strs" else [self.own]
        return self.path + own


def read_lowered(ws, at, rows, option=False):
    """The type at a place and the place behind it; `rows` None where rows are not looked up."""

    def word(k):
        refuse(k >= len(ws), 1)
        return ws[k]

    def path(k):
        n = word(k)
        refuse(n > 16 or k + 1 + n > len(ws), 1)
        return ws[k + 1 : k + 1 + n], k + 1 + n

    code = word(at)
    refuse(code > 4 or (code == 4 and option), 1)
    if code == 4:
        return read_lowered(ws, at + 1, rows, True)
    if code == 0:
        return Lowered(0, option, None, [], None), at + 1
    if code == 1:
        refuse(word(at + 1) > 1, 1)
        found, to = path(at + 2)
        refuse(word(to) > 1, 1)
        return Lowered(1, option, None, found, word(to + 1) if ws[to] else None), to + 1 + ws[to]
    if code == 2:
        row = word(at + 1)
        found, to = path(at + 2)
        refuse(rows is not None and row >= rows, 1)
        return Lowered(2, option, row, found, None), to
    form = word(at + 1)
    refuse(form > 3, 1)
    if form == 3:
        found, to = path(at + 2)
        return Lowered(3, option, None, found, word(to)), to + 1
    own = (None, word(at + 2) if form == 1 else None, "strs")[form]
    return Lowered(3, option, None, [], own), at + 2 + (form == 1)


# ---- shapes


def read_types(ws, rows):
    refuse(len(ws) > MAX_WORDS, 1)
    out, at = [], 0
    while at < len(ws):
        found, at = read_lowered(ws, at, rows)
        out.append(found)
    return out


def read_rows(ws):
    """Rows: d, fields."""
    refuse(len(ws) > MAX_WORDS, 1)
    out, at = [], 0
    while at < len(ws):
        refuse(at + 1 >= len(ws) or ws[at] > MAX_LIST or ws[at + 1] > MAX_LIST, 1)
        d, n = ws[at : at + 2]
        at, fields = at + 2, []
        for _ in range(n):
            found, at = read_lowered(ws, at, len(out))
            fields.append(found)
        out.append((d, fields))
    return out


def output_shape(ws, rows):
    outputs = read_types(ws, rows)
    refuse(len(outputs) > MAX_OUTPUTS, 1)
    return outputs


def force_shape(ws):
    refuse(len(ws) != 1 or ws[0] > 1, 1)


def retired(force):
    """13 for `force` 1 (02, W-211); asked once all records are in shape."""
    refuse(force == [1], 13)


# ---- a method


def fits(rows, types):
    refuse(any(t.code == 2 and len(t.path) != rows[t.row][0] for t in types), 7)


def fit_rows(rows):
    for k, (_, fields) in enumerate(rows):
        refuse(k == MAX_ROWS, 4)
        fits(rows, fields)


def read_method(env, structs, params, output, force):
    """Rows, params, outputs of an accepted method; refused by a number."""
    rows = read_rows(structs)
    types = read_types(params, len(rows))
    outputs = output_shape(output, len(rows))
    force_shape(force)
    retired(force)
    limits(env)
    fit_rows(rows)
    for k, found in enumerate(types):
        refuse(k == MAX_PARAMS, 4)
        fits(rows, [found])
    fits(rows, outputs)
    ranges(env)
    refuse(any(word > env.count for t in outputs for word in t.lifetimes()), 8)
    return rows, types, outputs


def used_lifetimes(outputs):
    """Those of the output that are not static; ascending."""
    return sorted({word - 1 for t in outputs for word in t.lifetimes() if word})


# ---- a field, and a single type


def field_pairs(structs, row, field):
    """`compute_for_struct_field`: pairs of the field's definition lifetime and the row's own."""
    rows = read_rows(structs)
    refuse(row >= len(rows) or field >= len(rows[row][1]) or rows[row][1][field].code != 2, 1)
    fit_rows(rows)
    d, fields = rows[row]
    return [(k, word - 1) for k, word in enumerate(fields[field].path) if 1 <= word <= d]


def only_type(ws):
    """The one type of a record."""
    found, to = read_lowered(ws, 0, None)
    refuse(to != len(ws), 1)
    return found
