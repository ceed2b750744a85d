#!/usr/bin/env python3
"""Counts the places of docs/DESIGN-PASS.md in crates/*/src (and, for point 8, in proofs/): tools/design.py [POINT..] at the top.

Each place is a line FILE:LINE and what stands there; the last line of a point is its count."""
import re
import sys
from collections import defaultdict
from pathlib import Path

SRC = sorted(Path("crates").glob("*/src/**/*.rt"))
ROWS = re.compile(r"(nodes?|attributes?|permissions?)", re.I)
COMPARE = r"same_\w+|is_same|is_before|\w+_before|first_before|last_before|is_less|larger|is_word|starts_with"
CONVERT = r"read[248]|put[248]|time_of|bits_of_time|pattern_of|reading_of|is_finite|raw_of|path_of|put_text|owner_found"


def code(path):
    """The lines of a file without comments."""
    return [(i, re.sub(r"//.*", "", line)) for i, line in enumerate(path.read_text().splitlines(), 1)]


def items(path, head):
    """Each item whose first line matches head, with its lines up to the brace that closes it."""
    lines = code(path)
    k = 0
    while k < len(lines):
        m = re.match(head, lines[k][1])
        if not m:
            k += 1
            continue
        first, depth, text, opened = k, 0, [], False
        while k < len(lines):
            line = lines[k][1]
            text.append(line)
            clause = re.match(r"\s+(requires|ensures|invariant)\b", line) or (not opened and line.startswith("        ×"))
            if not clause:
                depth += line.count("{") - line.count("}")
                opened = opened or "{" in line
            k += 1
            if (opened and depth == 0) or (not opened and line.rstrip().endswith(";")):
                break
        yield lines[first][0], m, text


def functions(path):
    yield from items(path, r"\s*(?:pub )?(?:extern \"C\" )?fn (\w+)")


def say(point, places):
    for p in places:
        print(f"{point}  {p}")
    print(f"{point}: {len(places)} places\n")


def point1():
    enums, flags, codes = [], [], []
    for f in SRC:
        for at, m, text in items(f, r"(?:pub )?enum (\w+)"):
            variants = re.findall(r"^    (\w+)(\(.*\))?,", "\n".join(text), re.M)
            unit = [v for v, p in variants if not p]
            if (len(variants) == 2 and len(unit) == 1) or any(v == "Refused" for v, _ in variants):
                enums.append(f"{f}:{at} enum {m[1]} {{ {', '.join(v + p for v, p in variants)} }}")
        for at, m, text in items(f, r"(?:pub )?struct (\w+)"):
            for i, line in enumerate(text):
                if re.match(r"\s+(?:pub )?(good|ok|there|whole|long|ended|branch|attribute): bool", line):
                    flags.append(f"{f}:{at + i} {m[1]}.{line.strip()}")
                if re.match(r"\s+(?:pub )?(kind|class|refusal|number|action|record): (u8|usize)", line):
                    codes.append(f"{f}:{at + i} {m[1]}.{line.strip()}")
        for at, line in code(f):
            if re.match(r"\s+(Refused|Full)\(u8\)", line):
                codes.append(f"{f}:{at} {line.strip()}")
            if re.match(r"\s*(pub )?fn \w*(class|kind)\w*\(.*\) -> u8", line):
                codes.append(f"{f}:{at} {line.strip()}")
    say("1 enums", enums)
    say("1 flags", flags)
    say("1 codes", codes)


def point2():
    groups = defaultdict(list)
    for f in SRC:
        for at, m, text in functions(f):
            body = "\n".join(t for t in text if not re.match(r"\s+(requires|ensures)\b", t))
            body = body.replace(m[1], "F", 1)
            body = ROWS.sub("ROW", body)
            body = re.sub(r"\b(u8|u16|u32|u64|usize|i64|Byte|Short|Long|Moment|Number)\b", "U", body)
            body = re.sub(r"\b\w*F\b|\b\d[\d_]*\b", "N", body)
            body = re.sub(r"\s+", " ", body)
            if len(text) >= 3:
                groups[body].append(f"{f}:{at} {m[1]}")
    twins = [" ~ ".join(g) for g in groups.values() if len(g) > 1]
    say("2 twins", twins)
    shapes = [f"{f}:{at} struct {m[1]}" for f in SRC for at, m, t in items(f, r"pub struct (\w+)")
              if any(re.search(r": \[\w+; \d+\]", x) for x in t) and any(re.search(r"(count|len): usize", x) for x in t)]
    say("2 and 6, an array with its length beside it", shapes)


def point3():
    say("3 while", [f"{f}:{at} {line.strip()}" for f in SRC for at, line in code(f) if re.search(r"\bwhile\b", line)])
    say("3 for", [f"{f}:{at} {line.strip()}" for f in SRC for at, line in code(f) if re.match(r"\s*for ", line)])


def point4():
    say("4 compare", [f"{f}:{at} {m[1]}" for f in SRC for at, m, _ in functions(f) if re.fullmatch(COMPARE, m[1])])
    say("4 convert", [f"{f}:{at} {m[1]}" for f in SRC for at, m, _ in functions(f) if re.fullmatch(CONVERT, m[1])])


def point5():
    facts, together = defaultdict(set), defaultdict(set)
    for f in SRC:
        for at, m, text in functions(f):
            for line in text:
                if re.match(r"\s+(requires|ensures)\b", line):
                    for w in set(re.findall(r"\b([A-Z]\w*(?:Sound|Fits))\b", line)):
                        facts[w].add(f"{f}:{at}")
            head = " ".join(text).split("{")[0]
            params = re.findall(r"(\w+): ([^,()]+)", head[head.find("("):])
            for a, b in zip(params, params[1:]):
                together[(a, b)].add(f"{f}:{at}")
    say("5 facts", [f"{w}: {len(s)} functions" for w, s in sorted(facts.items()) if len(s) >= 3])
    say("5 parameters", [f"{a[0]}: {a[1]}, {b[0]}: {b[1]}: {len(s)} functions" for (a, b), s in sorted(together.items()) if len(s) >= 5])


def point6():
    say("6 halving", [f"{f}:{at} {line.strip()}" for f in SRC for at, line in code(f) if re.search(r"let mid = ", line)])
    say("6 columns", [f"{f}:{at} {line.strip()}" for f in SRC for at, line in code(f) if re.match(r"\s+(pub )?\w+: \[u(8|16|64); \d+\],", line)])


def point7():
    say("7 switches", [f"{f}:{at} {line.strip()}" for f in SRC for at, line in code(f)
                       if re.search(r"\bmatch (number|class|kind)\b|\bif class == |\bfn\(|\bdyn\b", line)])


def point8():
    proofs = {p: p.read_text() for p in sorted(Path("crates").glob("*/proofs/**/*.antt")) + sorted(Path("crates").glob("*/specs/**/*.antt"))}
    words = defaultdict(int)
    for text in proofs.values():
        for w in re.findall(r"[\w\-×'→≤]+", re.sub(r"--.*", "", text)):
            words[w] += 1
    src = "\n".join(f.read_text() for f in SRC)
    lone = []
    for p, text in proofs.items():
        if p.name in ("Answers.antt", "Invariants.antt") or "/specs/" in str(p):
            continue
        for m in re.finditer(r"^pub ([\w\-]+) :", text, re.M):
            uses = words[m[1]] - len(re.findall(r"(?<![\w\-])" + re.escape(m[1]) + r"(?![\w\-])", re.sub(r"--.*", "", text)))
            own = len(re.findall(r"^" + re.escape(m[1]) + r"\b.* =|^" + re.escape(m[1]) + r" ", text, re.M))
            inside = len(re.findall(r"(?<![\w\-])" + re.escape(m[1]) + r"(?![\w\-])", re.sub(r"--.*", "", text))) - 1 - own
            if uses == 0 and inside <= 0 and m[1] not in src:
                lone.append(f"{p} {m[1]}")
    say("8 laws cited by nothing", lone)
    goals = sum(len(re.findall(r"^pub \S+ : goal\.", t, re.M)) for p, t in proofs.items() if p.name == "Answers.antt")
    print(f"8 answers: {goals} goals in {sum(p.name == 'Answers.antt' for p in proofs)} files, "
          f"{sum(p.name == 'Invariants.antt' for p in proofs)} files of invariants, "
          f"{sum(len(t.splitlines()) for p, t in proofs.items() if '/proofs/' in str(p))} lines of proof")


if __name__ == "__main__":
    for n in sys.argv[1:] or "12345678":
        globals()["point" + n]()
