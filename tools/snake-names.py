#!/usr/bin/env python3
"""Spells the repository's own definitions, lemmas and fields in snake case, as std's words are: inWay and in-way as in_way.

usage: tools/snake-names.py [--list]      at the top of the repository; with --list the table alone, nothing is written

It was run once, right after the toolchain's port.py (docs/PORT.md). What turns: each name with a dash or a capital inside
that a file of specs/, or a file of lemmas in proofs/, declares. It turns in .antt files, in clauses and 'ghost use' lines of
.rt files, in must-fail edits, and in code spans of comments and pages. Functions of src/, strings, types and the names that
Rattle makes in the files of a function's own proof stay.
"""

import os
import re
import sys

TOKEN = re.compile(r"[^\s(){}\[\].;,:@\"«»`|'λ∷·/*+=<>≤≡⌜⌝$&!\\]+'*")
DECLARED = re.compile(r"^[ \t]*(?:abbrev |unfoldable |pub |ruleset |data |record |syntax )*([^\s(){}\[\].;,:@\"«»`|]+)(?: \{[^{}\n]*\})*[ \t]*:(?=\s)", re.M)
RULESET = re.compile(r"^[ \t]*(?:pub )?ruleset ([^\s=]+) =", re.M)
CONSTRUCTORS = re.compile(r"^[ \t]+([a-z][^\s(){}\[\].;,:@\"«»`|]*) : ", re.M)
USE = re.compile(r"^[ \t]*(?:pub )?use ([^\s{;]+?)\.?(?:\{([^}]*)\})?(?: as \S+)?$", re.M)


def snake(name):
    name = re.sub(r"(?<=[a-z0-9])[A-Z]", lambda m: "_" + m[0].lower(), name) if name[:1].islower() else name
    return name.replace("-", "_")


def files(*endings):
    for top in ("crates",):
        for folder, dirs, names in os.walk(top):
            dirs[:] = sorted(d for d in dirs if d != "out")
            for name in sorted(names):
                if name.endswith(endings):
                    yield os.path.join(folder, name)


def of_a_function(path):
    return bool(re.match(r"crates/\w+/proofs/.+/(Proof|Answers|Invariants|Cut)\.antt$", path))


def read(path):
    with open(path, encoding="utf-8", newline="") as f:
        return f.read()


def table():
    own, fields, library, everything = {}, set(), {}, set()
    for path in files(".antt"):
        text = read(path)
        for m in USE.finditer(text):
            if not m[1].startswith("Rattle.") or m[1].startswith(("Rattle.std", "Rattle.core")):
                for item in (m[2] or "").split(","):
                    library.setdefault(item.split(" as ")[0].strip(), path)
        if of_a_function(path):
            continue
        for m in list(DECLARED.finditer(text)) + list(RULESET.finditer(text)):
            name = m[1]
            everything.add(name)
            if name.startswith("-") or name.startswith("="):
                continue
            if snake(name) != name:
                own.setdefault(name, path)
                if re.match(r"[ \t]+", m[0]):
                    fields.add(name)
    rows = {}
    for name, path in sorted(own.items()):
        if name in library:
            print(f"stays: {name} ({path}) is also a library's, in {library[name]}", file=sys.stderr)
            continue
        new = snake(name)
        others = [other for other in everything if other != name and snake(other) == new]
        if others and "-" in name:
            # A lemma that would have its definition's name: as std does it.
            new += "_lem"
        elif any("-" not in other and other not in LEMMAS for other in others):
            print(f"meets: {name} ({path}) and {others} would all be {new}", file=sys.stderr)
        if new in library:
            print(f"library: {name} ({path}) would be {new}, a library's in {library[new]}", file=sys.stderr)
        rows[name] = new
    return rows, fields


# Lemmas that port.py had already given the name of a definition, each with the module that declares it.
LEMMAS = {
    "goes_on": "Rattle.laws.proofs.Walking",
    "has_room": "Rattle.sweep.proofs.Turns",
    "listed_then": "Rattle.promises.specs.Demand.Sets",
    "seen_by": "Rattle.arbiter.specs.ChangeLaws",
    "table_on": "Rattle.listing.specs.GoingLaws",
    "wrong_size": "Rattle.loading.specs.LoadingLaws",
}


def lemmas_of(path, text):
    """The rows of LEMMAS for a file: those that it declares or imports."""
    module = "Rattle." + path[len("crates/") : -len(".antt")].replace("/", ".")
    names = {name for name, home in LEMMAS.items() if home == module}
    for m in USE.finditer(text):
        names |= {n.strip() for n in (m[2] or "").split(",") if LEMMAS.get(n.strip()) == m[1].rstrip(".")}
    return {name: name + "_lem" for name in names}


def turn_code(text, rows, skip_dotted=None):
    def one(m):
        word = m[0]
        if word not in rows:
            return word
        if skip_dotted is not None and m.start() > 0 and text[m.start() - 1] == "." and word not in skip_dotted:
            return word
        return rows[word]

    return TOKEN.sub(one, text)


def turn_spans(text, rows):
    camel = {a: b for a, b in rows.items() if "-" not in a}
    text = TOKEN.sub(lambda m: camel.get(m[0], m[0]), text)
    return re.sub(r"`[^`\n]*`", lambda m: turn_code(m[0], rows), text)


def turn_antt(text, rows, skip_dotted):
    out = []
    for line in text.split("\n"):
        m = re.search(r"(?:(?<=\s)|^)-- .*$", line)
        code, note = (line[: m.start()], line[m.start() :]) if m else (line, "")
        out.append(turn_code(code, rows, skip_dotted) + turn_spans(note, rows))
    return "\n".join(out)


CLAUSE = re.compile(r"(?:\b(?:requires|ensures)\*?\s*(?:\w+\s*)?|\bghost\s+\w+\s*(?::\s*)?|ghost use [^;{]*)\{")


def turn_rt(text, rows):
    """Clauses and 'ghost use' items as code, comments by their code spans, the rest as it is."""
    out, at = [], 0
    for m in CLAUSE.finditer(text):
        if m.start() < at:
            continue
        depth, end = 1, m.end()
        while depth and end < len(text):
            depth += {"{": 1, "}": -1}.get(text[end], 0)
            end += 1
        out.append(re.sub(r"//.*", lambda n: turn_spans(n[0], rows), text[at : m.start()]))
        out.append(turn_code(text[m.start() : end], rows))
        at = end
    out.append(re.sub(r"//.*", lambda n: turn_spans(n[0], rows), text[at:]))
    return "".join(out)


def turn_edit(text, rows):
    of_rt = re.search(r"^file: \S+\.rt$", text, re.M)
    lines = []
    for line in text.split("\n"):
        if line.startswith(("old:", "new:")):
            line = turn_spans(line, rows) if of_rt and "≡" not in line and "λ" not in line else turn_code(line, rows)
        else:
            line = turn_spans(line, rows)
        lines.append(line)
    return "\n".join(lines)


def main(words):
    rows, fields = table()
    if words == ["--list"]:
        for name, new in rows.items():
            print(name, new)
        return 0
    changed = 0
    pages = ["README.md"] + sorted(os.path.join("docs", n) for n in os.listdir("docs") if n.endswith(".md"))
    for path in [*files(".antt", ".rt", ".edit"), *pages]:
        text = read(path)
        if path.endswith(".antt"):
            new = turn_antt(text, rows | lemmas_of(path, text), fields if of_a_function(path) else None)
        elif path.endswith(".rt"):
            new = turn_rt(text, rows)
        elif path.endswith(".edit"):
            new = turn_edit(text, rows)
        else:
            new = turn_spans(text, rows)
        if new != text:
            with open(path, "w", encoding="utf-8", newline="") as f:
                f.write(new)
            changed += 1
    print(f"snake-names: {len(rows)} names, {changed} files changed")
    return 0


if __name__ == "__main__":
    raise SystemExit(main(sys.argv[1:]))
