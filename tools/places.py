#!/usr/bin/env python3
"""Counts the places of docs/DESIGN-PASS.md in crates/*/src, as they stand or as they stood at a commit.

    tools/places.py [COMMIT] [--list]

One line for each point; with --list the places too."""
import re
import subprocess
import sys


def sources(commit):
    """Path and text of each source file, of the work tree or of a commit."""
    if commit is None:
        names = subprocess.run(["git", "ls-files", "crates/*/src/*.rt"], capture_output=True, text=True, check=True)
        return [(n, open(n, encoding="utf-8").read()) for n in names.stdout.split()]
    names = subprocess.run(["git", "ls-tree", "-r", "--name-only", commit, "crates"], capture_output=True, text=True,
                           check=True).stdout.split()
    names = [n for n in names if re.fullmatch(r"crates/[a-z_]+/src/[a-z_/]+\.rt", n)]
    return [(n, subprocess.run(["git", "show", f"{commit}:{n}"], capture_output=True, text=True, check=True).stdout)
            for n in names]


def blocks(text, head):
    """Line number, first line and body of each item whose first line matches, to the closing brace in its column."""
    lines = text.split("\n")
    for i, line in enumerate(lines):
        m = re.match(head, line)
        if not m:
            continue
        close = line[:len(line) - len(line.lstrip())] + "}"
        j = i
        while not line.endswith(";") and j < len(lines) - 1 and not lines[j].startswith(close):
            j += 1
        yield i + 1, line.strip(), "\n".join(lines[i:j + 1])


def functions(text):
    """Line, name, parameters and body of each function; contracts are left out."""
    for m in re.finditer(r"^( *)(?:#\[[^\n]*\]\n *)*(?:pub(?:\(crate\))? )?(?:extern \"C\" )?fn ([a-z_0-9]+)[^(]*\(", text,
                         re.M):
        depth, k = 1, m.end()
        while depth:
            depth += {"(": 1, ")": -1}.get(text[k], 0)
            k += 1
        params = text[m.end():k - 1]
        start = text.find("\n" + m.group(1) + "{\n", k)
        one = re.compile(r"[^\n]*\{\n").match(text, k)
        if one and (start < 0 or one.end() <= start + 1):
            start = one.end() - 3
        end = text.find("\n" + m.group(1) + "}\n", max(start, 0))
        if start < 0 or end < 0:
            continue
        yield text.count("\n", 0, m.start()) + 1, m.group(2), params, text[start:end]


ABSENT = r"\b(Refused|Absent|Missing|Nothing|Misfit|Past|Short|Unreadable)\b"
OWN_WORDS = (r"(less|least|larger|at_most_16|both|either|accepted|wide|is_digit|option_number|copy_names|copy_to|"
             r"copy_words|place_behind|room|ten_of|word_or_anonymous|position|first_of|is_in|split|joined|assembled)")


def enums(sources_):
    """1: enums of the shape of Option or Result."""
    for name, text in sources_:
        for line, _, body in blocks(text, r"(pub(\(crate\))? )?enum "):
            if re.search(ABSENT, body) and "Malformed" not in body:
                yield name, line, body.split("\n")[0]


def flags(sources_):
    """1: a verdict, an answer or a flag with values beside it in a struct."""
    for name, text in sources_:
        for line, first, body in blocks(text, r"(pub(\(crate\))? )?struct [A-Z]"):
            fields = re.findall(r"^    (?:pub(?:\(crate\))? )?([a-z_]+): (.*),$", body, re.M)
            said = [f for f, t in fields if re.match(r"(Verdict|Listed|FieldAnswer|Result<|Option<)", t)
                    or f in ("failed", "unread")]
            if said and len(fields) > 1:
                yield name, line, first


def handed(sources_):
    """1: a refusal handed on by hand."""
    for name, text in sources_:
        for i, line in enumerate(text.split("\n")):
            if re.match(r"\s*(let (Verdict::Accepted|Listed::Count\(.*\)|Ok\(.*\)|Some\(.*\)|[A-Z][A-Za-z]*::[A-Z][a-z]+"
                        r"(\(.*\)| \{.*\})?) = .* else \{|if let (Verdict::Refused|Err)\()", line):
                yield name, i + 1, line.strip()


def codes(sources_):
    """1: numbers for kinds."""
    for name, text in sources_:
        for i, line in enumerate(text.split("\n")):
            if re.match(r"\s*pub (kind|number|option): usize,", line):
                yield name, i + 1, line.strip()


def twins(sources_):
    """2: functions of one shape: the same body but for numbers, constants, types and names."""
    seen = {}
    for name, text in sources_:
        for line, fn, params, body in functions(text):
            words = re.findall(r"[A-Za-z_][A-Za-z_0-9]*|[0-9]+|[^\sA-Za-z_0-9]", re.sub(r"//[^\n]*", "", body))
            key, ids = [], {}
            for w in words:
                if w in ("let", "mut", "if", "else", "while", "for", "in", "return", "match", "loop", "break", "continue",
                         "true", "false", "as", "self", "Some", "None", "Ok", "Err"):
                    key.append(w)
                elif re.match(r"[A-Za-z_]", w):
                    key.append("v%d" % ids.setdefault(w, len(ids)))
                elif re.match(r"[0-9]", w):
                    key.append("0")
                else:
                    key.append(w)
            if len(key) > 24:
                seen.setdefault(" ".join(key), []).append((name, line, fn))
    for group in seen.values():
        if len(group) > 1:
            yield from group


def loops(sources_):
    """3: loops that count by hand: what the test compares is stepped by a constant in the body."""
    for name, text in sources_:
        for line, first, body in blocks(text, r" *('[a-z]+: )?while "):
            test = set(re.findall(r"[a-z_]+", first))
            if any(v in test for v in re.findall(r"^ *([a-z_]+) [+-]= [0-9]+;", body, re.M)):
                yield name, line, first


def own(sources_):
    """4: equality, order, copying, conversion by hand: functions for which the library has a method."""
    for name, text in sources_:
        for line, fn, params, body in functions(text):
            if re.fullmatch(OWN_WORDS, fn):
                yield name, line, fn


def wide(sources_):
    """5: functions with more than seven parameters."""
    for name, text in sources_:
        for line, fn, params, body in functions(text):
            n = len([p for p in re.sub(r"<[^>]*>|\([^)]*\)|\[[^\]]*\]", "", params).split(",") if p.strip()])
            if n > 7:
                yield name, line, f"{fn}: {n}"


def parallel(sources_):
    """6: parallel arrays: a function that is lent two arrays, or an array with its length beside it."""
    for name, text in sources_:
        for line, fn, params, body in functions(text):
            if len(re.findall(r"\[u?[a-z0-9]+; ", params)) > 1 or re.search(r"\[[a-z0-9]+; [^\]]*\],\s*(named|n|count)\b", params):
                yield name, line, fn


def switches(sources_):
    """7: a flag as a parameter that says what to do."""
    for name, text in sources_:
        for line, fn, params, body in functions(text):
            for flag in re.findall(r"\b([a-z_]+): bool", params):
                yield name, line, f"{fn}: {flag}"


POINTS = [("1 enums of the shape of Option or Result", enums), ("1 verdicts and flags beside values", flags),
          ("1 refusals handed on by hand", handed), ("1 numbers for kinds", codes), ("2 functions of one shape", twins),
          ("3 loops that count by hand", loops), ("4 what a library's method does", own),
          ("5 functions with more than seven parameters", wide), ("6 parallel arrays", parallel),
          ("7 flags as parameters", switches)]


def main():
    args = sys.argv[1:]
    listed = "--list" in args
    commits = [a for a in args if a != "--list"]
    all_ = sources(commits[0] if commits else None)
    for title, point in POINTS:
        found = list(point(all_))
        print(f"{len(found):4}  {title}")
        if listed:
            for place in found:
                print("        %s:%d  %s" % place)


main()
