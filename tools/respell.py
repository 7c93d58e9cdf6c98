#!/usr/bin/env python3
"""Brings this repository's own definitions and laws to the spelling of today's Rattle: words in snake case.

usage: tools/respell.py [--check]     at the top of the repository, right after the kit's own script; --check writes nothing

A definition, field or law of specs/ and proofs/ that is spelt `likeThis` or `like-this` becomes `like_this`. Names of libraries, and
names that Rattle makes of the code, stay. Functions of src/, strings and everything that programs read or write stay too.
Each name that would fall together with another is in APART with a spelling of its own; the script stops at any other.
"""

import glob
import os
import re
import sys

# these stand already, as a law's part or a field in another file, and are never in one scope with the definition of that name
LOCAL = ["answer_at", "goes_on", "self_type", "too_many"]
TOKEN = re.compile(r"[^\W\d][\w'\-]*", re.U)
CAMEL = re.compile(r"(?<![A-Za-z0-9])[a-z][a-z0-9]*(?:[A-Z][A-Za-z0-9₀-₉]*)+")
DECLARED = re.compile(r"^\s*(?:(?:abbrev|unfoldable|pub|data|record|let) )*((?:[^\W\d][\w'\-]* )+):(?= |$)", re.U)
IMPORT = re.compile(r"^(?:ghost )?use ([^\s;{]+?)(?:\.\{([^}]*)\})?(?: as (\S+?))?;?$", re.M)
MADE = re.compile(r"\.(Tie|Statement|Goals|Given|Code|Reads|Kinds|Symbol|Met|Lts-\w+|declared|contracts)\b")

# A law that would have its definition's name gets `_lem`, as in the kit; found by collect(). Those here had the new spelling already.
LAWS = ["both_below", "digits_in", "is_digit", "line_before", "words_step"]
APART = {name: name + "_lem" for name in LAWS}
APART["noPairs"] = "empty_pairs"  # beside the field `no_pairs` of a record about it


def files(*kinds):
    found = []
    for kind in kinds:
        found += glob.glob(kind, recursive=True)
    return sorted(f for f in found if "/out/" not in f)


def snake(name):
    """Words joined by _: a capital inside a word begins a new one; a digit behind a dash stays with its word."""
    def turned(it):
        return re.sub(r"[A-Z]+", lambda up: "_" + up[0].lower(), it[0])
    return CAMEL.sub(turned, name).replace("-", "_")


def is_own(path):
    """Whether an import's path is a file of this repository, and not a module that Rattle makes."""
    if not path.startswith("Rattle.") or MADE.search(path):
        return False
    parts = path.split(".")
    return os.path.isdir(os.path.join("crates", parts[1]))


def imports(text):
    """The names that a file takes from elsewhere: libraries' and Rattle's, and this repository's own."""
    theirs, own = set(), set()
    for it in IMPORT.finditer(text):
        path, names, alias = it[1], it[2], it[3]
        for name in (names or "").replace("\n", " ").split(","):
            words = name.split()
            if words:
                (own if is_own(path) else theirs).add(words[-1])
        if alias:
            theirs.add(alias)
    return theirs, own


def is_turned(name):
    return name in APART or (name != snake(name) and name[0].islower())


def collect():
    own, fields = set(), set()
    for path in files("crates/*/specs/**/*.antt", "crates/*/proofs/**/*.antt"):
        text = open(path, encoding="utf-8").read()
        record = None
        for line in text.splitlines():
            it = DECLARED.match(line)
            if it:
                for name in it[1].split():
                    own.add(name)
                    if record is not None and len(line) - len(line.lstrip()) > record:
                        fields.add(name)
            if re.match(r"\s*(pub )?record \S", line):
                record = len(line) - len(line.lstrip())
            elif line.strip() and len(line) - len(line.lstrip()) <= (record if record is not None else -1):
                record = None
    # a law `a-b` beside a definition `aB` or `a_b`
    for name in own:
        if "-" in name and is_turned(name) and (snake(name) in own or any(n != name and CAMEL.search(n) and snake(n) == snake(name) for n in own)):
            APART[name] = snake(name) + "_lem"
    return own, fields


def turned_tokens(text, theirs, own, fields, camel_too=True, laws=True, aliases=()):
    """The text with each of the repository's own tokens in its new spelling."""
    def turn(it):
        name, start = it[0], it.start()
        tail = ""
        while name.endswith("-"):
            name, tail = name[:-1], "-" + tail
        if not name or not is_turned(name) or name in theirs or (name in LAWS and not laws):
            return it[0]
        if start and text[start - 1] in ".+" and not path_of_import(text, start):
            if name not in fields and qualifier(text, start) not in aliases:
                return it[0]
        if name in own or (camel_too and CAMEL.fullmatch(name)):
            return APART.get(name, snake(name)) + tail
        return it[0]
    return TOKEN.sub(turn, text)


def qualifier(text, start):
    """The word before the dot before a place."""
    it = re.search(r"([^\W\d][\w'\-]*)\.$", text[max(0, start - 80) : start], re.U)
    return it[1] if it else ""


def own_aliases(text):
    """The names under which a file has this repository's own modules, as a line `use .. as NAME` or `use ..NAME` gives them."""
    return {it[3] or it[1].split(".")[-1] for it in IMPORT.finditer(text) if not it[2] and is_own(it[1])}


def path_of_import(text, start):
    """Whether the place is the last part of a path to a file of this repository."""
    line = text[text.rfind("\n", 0, start) + 1 : start]
    it = re.search(r"Rattle\.[\w.'+\-]*$", line)
    return bool(it) and is_own(it[0])


def antt(text, own, fields):
    """An antt file: import lists by the path that they name, all else by the file's own names."""
    theirs, mine = imports(text)
    aliases = own_aliases(text)
    out, last = [], 0
    for it in IMPORT.finditer(text):
        out.append(turned_tokens(text[last : it.start()], theirs, own, fields, aliases=aliases))
        line = it[0]
        if is_own(it[1]):
            line = turned_tokens(line, theirs - mine, own, fields)
        out.append(line)
        last = it.end()
    out.append(turned_tokens(text[last:], theirs, own, fields, aliases=aliases))
    return "".join(out)


def source(text, own, fields):
    """A source file: its ghost imports, its clauses and its comments; no string and no code."""
    ghost = "\n".join(l for l in text.splitlines() if l.startswith("ghost use"))
    theirs, mine = imports(ghost)
    aliases = own_aliases(ghost)
    lines = []
    for line in text.splitlines(keepends=True):
        it = IMPORT.match(line.rstrip("\n"))
        if it and line.startswith("ghost use"):
            lines.append(turned_tokens(line, theirs - mine, own, fields, True, False) if is_own(it[1]) else line)
        elif '"' in line and not line.lstrip().startswith("//"):
            parts = re.split(r'("(?:[^"\\]|\\.)*")', line)
            lines.append("".join(p if i % 2 else turned_tokens(p, theirs, own, fields, False, False, aliases) for i, p in enumerate(parts)))
        else:
            lines.append(turned_tokens(line, theirs, own, fields, False, False, aliases))
    return "".join(lines)


def main(argv):
    own, fields = collect()
    new = {}
    for name in sorted(own):
        if is_turned(name):
            new.setdefault(APART.get(name, snake(name)), set()).add(name)
    bad = [(n, o) for n, o in new.items() if len(o) > 1 or (n in own and n not in APART and n not in LOCAL)]
    code = set()
    for path in files("crates/*/src/**/*.rt"):
        text = open(path, encoding="utf-8").read()
        code |= set(re.findall(r"(?m)^\s*(?:pub )?([a-z_0-9]+): [^=;]*,$", text))
    hit = [(n, o) for n, o in new.items() if n in code and "-" not in "".join(o)]
    for n, o in bad:
        print("falls together:", n, sorted(o), "and there is" if n in own else "")
    for n, o in hit:
        print("a field of src/ has this name:", n, sorted(o))
    if "--check" in argv or bad:
        return 1 if bad else 0
    for path in files("crates/*/specs/**/*.antt", "crates/*/proofs/**/*.antt"):
        write(path, lambda t: antt(t, own, fields))
    for path in files("crates/*/src/**/*.rt"):
        write(path, lambda t: source(t, own, fields))
    for path in files("crates/*/must-fail/*.edit"):
        write(path, lambda t: turned_tokens(t, set(), own, fields, True, False))
    for path in files("README.md", "CONTRIBUTING.md", "docs/*.md", "docs/landings/*.md"):
        write(path, lambda t: re.sub(r"`[^`\n]+`", lambda it: turned_tokens(it[0], set(), {n for n in own if CAMEL.search(n)}, fields, False, False), t))
    return 0


def write(path, turn):
    text = open(path, encoding="utf-8").read()
    after = turn(text)
    if after != text:
        with open(path, "w", encoding="utf-8") as f:
            f.write(after)


if __name__ == "__main__":
    raise SystemExit(main(sys.argv[1:]))
