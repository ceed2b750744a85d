#!/usr/bin/env python3
"""Spells the repository's own definitions and lemmas as Rattle's library does: words in snake case.

usage: python3 tools/respell.py [TOP]     once, at the top of a checkout in which port.py ran

port.py respells what the library's tables know; this does the rest, in crates/ and in the pages of README.md and docs/:
- a word in camel case, as sessionOf, that no library declares becomes session_of, wherever it stands in specs/, proofs/, clauses and edits;
- a lemma of the repository that has hyphens, as view-node, becomes view_node;
- where that would be the name of another definition, the lemma ends in _lem.
In an edit a projection of a definition is written tight, as r.path, as port.py writes it elsewhere.
Functions of src/, goals that Rattle names, strings, inputs and outputs keep their names. It ends with the names that fall together
with another name in some file, for a reader to look at: a function's folder or a field of the same name does no harm.
"""

import collections
import glob
import os
import re
import sys

TOKEN = re.compile(r"""[^\s(){}.;,@"«»\[\]`]+""")
DECLARED = re.compile(r"^ *((?:abbrev|unfoldable|data|record) )*(pub )?([^\s(){}.;,:]+)((?: \{[^}]*\}| \([^)]*\))*) :(?!:)(.*)")
CAMEL = re.compile(r"[a-z]\w*[a-z0-9][A-Z][\w'-]*")
USE = re.compile(r"\buse ([^\s;{]+?)(?:\.?\{([^}]*)\})?(?: as (\S+?))?;?$", re.M)
GENERATED = ("tie.", "statement ", "stated.", "goal.")


def snake(name):
    return re.sub(r"(?<=[a-z0-9])[A-Z]", lambda m: "_" + m[0].lower(), name).replace("-", "_")


def texts(top):
    for pattern in ("crates/*/specs/**/*.antt", "crates/*/proofs/**/*.antt"):
        yield from sorted(glob.glob(os.path.join(top, pattern), recursive=True))


def read(path):
    with open(path, encoding="utf-8") as f:
        return f.read()


def declared(text):
    """The names that a text declares, with their types' first lines."""
    for line in text.split("\n"):
        m = DECLARED.match(line)
        if m:
            yield m[3], m[5].strip()


def is_of_function(path):
    return os.path.basename(path) in ("Proof.antt", "Answers.antt", "Invariants.antt")


def table(top):
    """Old name to new name, of each definition and lemma of the repository that is respelled."""
    known, ours, library, lemmas = set(), set(), set(), set()
    for path in texts(top):
        text = read(path)
        for m in USE.finditer(text):
            if not m[1].startswith("Rattle.") or m[1].startswith("Rattle.std"):
                library |= {n.strip().split(" as ")[0] for n in (m[2] or "").split(",")}
        for name, kind in declared(text):
            if is_of_function(path) and kind.startswith(GENERATED):
                continue
            known.add(name)
            if "/proofs/" in path and not is_of_function(path):
                lemmas.add(name)
            if "-" in name or CAMEL.fullmatch(name):
                ours.add(name)
        for word in TOKEN.findall(text):
            if CAMEL.fullmatch(word) and "-" not in word:
                ours.add(word)
    words = {snake(n) for n in ours if "-" not in n and n in known}
    of_records = fields(top)
    new = {n: n + "_lem" for n in lemmas & words if n not in ours}
    plain = {n for n in known if n not in ours} | words
    for name in sorted(ours - library):
        to = snake(name)
        if name == "ℕ-order":
            to = "nat_order"
        if "-" in name and to in plain and name not in of_records:
            to += "_lem"
        new[name] = to
    return new


def fields(top):
    """The fields with hyphens that records of the repository declare."""
    found = set()
    for path in texts(top):
        inside = False
        for line in read(path).split("\n"):
            inside = bool(re.match(r" *((pub|abbrev) )*record ", line)) or inside and line.startswith(" ")
            m = inside and re.match(r" +(?:pub )?([^\s(){}.;,:]+-[^\s(){}.;,:]+) :", line)
            if m:
                found.add(m[1])
    return found


def turned(text, new, path, of_records=frozenset()):
    """The text with its names respelled; a name behind a dot only if it is in camel case, a field of a record, or a module's."""
    here = {n for n, kind in declared(text) if is_of_function(path) and kind.startswith(GENERATED)}
    modules = {m[3] for m in USE.finditer(text) if m[3] and not m[1].endswith((".Tie", ".Goals", ".Given"))}
    out, last, before = [], 0, ""
    for m in TOKEN.finditer(text):
        word, gap = m[0], text[last : m.start()]
        out.append(gap)
        to = new.get(word)
        if gap == "." and word in of_records:
            to = snake(word)
        elif to and "-" in word and (word in here or gap == "." and before not in modules and not before[:1].isupper()):
            to = None
        out.append(to or word)
        last, before = m.end(), word
    return "".join(out) + text[last:]


def turned_page(text, new, names):
    """A page: in code between backticks also the names that port.py respelled, which are declared by now."""

    def code(m):
        inner = turned(m[0], new, "page")
        return TOKEN.sub(lambda w: snake(w[0]) if w[0] not in names and w[0][:1].islower() and snake(w[0]) in names else w[0], inner)

    return re.sub(r"`[^`\n]+`", code, text)


def turned_clauses(text, new):
    """A source file or an edit: words in camel case alone, outside strings."""
    parts = re.split(r'("(?:[^"\\\n]|\\.)*")', text)
    for i in range(0, len(parts), 2):
        parts[i] = re.sub(r"(?<![\w'-])[a-z]\w*[A-Z]\w*(?![\w'-])", lambda m: new.get(m[0], m[0]), parts[i])
    return "".join(parts)


def met(path, text, new):
    """Names that would fall together in this file: the new spelling stands there already, for something else."""
    words = set(TOKEN.findall(text))
    here = collections.defaultdict(set)
    for w in words:
        here[new.get(w, w)].add(w)
    return [(path, to, sorted(olds)) for to, olds in here.items() if len(olds) > 1]


def met_in_source(path, text, new):
    """A parameter, a field or a local of the source with a new spelling, where the clauses of its file name the definition too."""
    to = set(new.values())
    named = set(re.findall(r"\b([a-z_]\w*)\s*:(?!:)", text)) | set(re.findall(r"\blet (?:mut )?(\w+)", text))
    used = set(w for m in re.finditer(r"ghost use [^;]*;", text) for w in re.findall(r"\w+", m[0]))
    return [(path, n, [n, "a name of the source"]) for n in sorted(named & to & used)]


def main():
    top = sys.argv[1] if len(sys.argv) > 1 else "."
    new = table(top)
    of_records = fields(top)
    falls, names = [], set()
    for path in texts(top):
        text = read(path)
        falls += met(path, text, new)
        write(path, turned(text, new, path, of_records))
        names |= {n for n, kind in declared(read(path)) if not kind.startswith(GENERATED)}
        names |= {m[1] for m in re.finditer(r"(?m)^  (?:pub )?([a-z]\w*) :", read(path))}
    for path in sorted(glob.glob(os.path.join(top, "crates/*/src/**/*.rt"), recursive=True) + glob.glob(os.path.join(top, "crates/*/must-fail/*.edit"))):
        text = turned_clauses(read(path), new)
        if path.endswith(".edit") and "file: src" not in text:
            text = re.sub(r"(?<=[\w)']) \.(?=[\w])", ".", text)
        write(path, text)
        falls += met_in_source(path, read(path), new)
    for path in [os.path.join(top, "README.md"), *sorted(glob.glob(os.path.join(top, "docs/*.md")))]:
        if os.path.basename(path) not in ("PORT.md",):
            write(path, turned_page(read(path), new, names))
    print(f"{len(new)} names respelled")
    for path, to, olds in falls:
        print(f"look: {os.path.relpath(path, top)}: {' and '.join(olds)} would both be {to}")


def write(path, text):
    with open(path, "w", encoding="utf-8") as f:
        f.write(text)


if __name__ == "__main__":
    main()
