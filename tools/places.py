#!/usr/bin/env python3
"""Counts the places in crates/*/src that docs/DESIGN-PASS.md speaks of, point by point, and lists them.

    tools/places.py [-l] [FOLDER]      FOLDER: a checkout (default: this one); -l lists each place

It goes by text: a row is a place to look at. What each line counts stands beside its name below."""
import glob
import os
import re
import sys

LIST = "-l" in sys.argv
ROOTS = [a for a in sys.argv[1:] if a != "-l"]
ROOT = ROOTS[0] if ROOTS else os.path.join(os.path.dirname(os.path.abspath(__file__)), "..")
FILES = sorted(glob.glob(os.path.join(ROOT, "crates/*/src/**/*.rt"), recursive=True))
WORDS = set("if else while for in return match let mut fn as true false pub loop continue break unsafe extern".split())


def lines():
    for f in FILES:
        with open(f, encoding="utf-8") as h:
            for i, s in enumerate(h.read().split("\n"), 1):
                yield os.path.relpath(f, ROOT), i, s


def grep(pattern, but=None):
    r, b = re.compile(pattern), re.compile(but) if but else None
    return [(f, i, s.strip()) for f, i, s in lines() if r.search(s) and not (b and b.search(s))]


def functions():
    """File, line, name, parameters, clauses and body of each function."""
    for f in FILES:
        text = open(f, encoding="utf-8").read().split("\n")
        i = 0
        while i < len(text):
            m = re.match(r"^\s*(?:pub )?(?:extern \"C\" )?(?:const )?fn (\w+)", text[i])
            if not m:
                i += 1
                continue
            indent = re.match(r"^\s*", text[i]).group()
            j = i
            while text[j] != indent + "{" and not text[j].rstrip().endswith(" {"):
                j += 1
            k = j
            while text[k] != indent + "}":
                k += 1
            yield os.path.relpath(f, ROOT), i + 1, m.group(1), "\n".join(text[i:j]), "\n".join(text[j : k + 1])
            i = k + 1


def shape(body):
    body = re.sub(r"//.*", "", body)
    tokens = re.findall(r"[A-Za-z_]\w*|0x[0-9A-Fa-f_]+|\d[\d_]*|b?'.'|b?\"[^\"]*\"|[^\s\w]", body)
    return tuple(t if t in WORDS or not re.match(r"[\w'\"]", t) else "x" for t in tokens)


def twins():
    groups = {}
    for f, i, n, head, body in functions():
        s = shape(body)
        if len(s) >= 30:
            groups.setdefault(s, []).append((f, i, n))
    return [(g[0][0], g[0][1], " = ".join(f"{f.split('/')[1]}:{n}" for f, _, n in g)) for g in groups.values() if len(g) > 1]


def facts():
    """Conjuncts of clauses that stand in three functions or more, said in the same words."""
    seen = {}
    for f, i, n, head, body in functions():
        here = set()
        for clause in re.findall(r"(?:requires|ensures)[^{]*\{((?:[^{}]|\{[^{}]*\})*)\}", head):
            for part in re.split(r" × ", re.sub(r"\s+", " ", clause.strip())):
                part = part.strip().strip("()").strip()
                if "result" in part or len(part) < 8:
                    continue
                here.add(re.sub(r"\.(old|new|now|entry|exit)\b", "", part))
        for p in here:
            seen.setdefault(p, []).append((f, i, n))
    return [(v[0][0], v[0][1], f"{len(v)} functions: {p}") for p, v in sorted(seen.items(), key=lambda x: -len(x[1])) if len(v) > 2]


def travel():
    """Two neighbouring parameters, the same names and types, in five functions or more."""
    seen = {}
    for f, i, n, head, body in functions():
        m = re.search(r"fn \w+(?:<[^>]*>)?\(([^)]*)\)", head, re.S)
        if not m:
            continue
        ps = [re.sub(r"\s+", " ", p.strip()) for p in re.split(r",(?![^<\[]*[>\]])", m.group(1)) if p.strip()]
        for a, b in zip(ps, ps[1:]):
            seen.setdefault((a, b), []).append((f, i, n))
    return [(v[0][0], v[0][1], f"{len(v)} functions: {a}, {b}") for (a, b), v in sorted(seen.items(), key=lambda x: -len(x[1])) if len(v) > 4]


def counted():
    """`while` loops whose test reads a variable that the body steps by a number."""
    found = []
    for f in FILES:
        text = open(f, encoding="utf-8").read().split("\n")
        for i, s in enumerate(text):
            m = re.match(r"^(\s*)while (.*) \{$", s)
            if not m:
                continue
            j = i + 1
            while text[j] != m.group(1) + "}":
                j += 1
            body = "\n".join(text[i + 1 : j])
            for v in re.findall(r"\b[a-z]\w*\b", m.group(2)):
                if re.search(rf"\b{v} (\+=|-=) \w+;|\b{v} = {v} [+-] \w+;", body):
                    found.append((os.path.relpath(f, ROOT), i + 1, s.strip()))
                    break
    return found


ROWS = [
    ("1 enums of the repository's own", grep(r"^\s*(pub )?enum ")),
    ("1 numbers that stand for 'none', by the comment", grep(r"^\s*// .*(\bor 0\b|\b0 (for|where|of|behind)\b|\(0: none\)|none \(0\)|: 0,|\b0 to no\b)")),
    ("1 fields that are flags", grep(r"^\s*(pub )?[a-z_]+: bool,$")),
    ("1 numbers for kinds and refusals", grep(r"\b(question|kind|fault): u8|^\s*(pub )?fn (\w*fault|enter|enter_script|candidate|kind_of|kind_in|check_entries|index_kind)\(.*-> u(8|64)$|\bASK: u32|return (\w+::)?(Failed|Refused|Missed|Rejected|Shut|Fault|Broken)\(\d+")),
    ("2 functions of one shape, 30 tokens or more", twins()),
    ("3 `while` loops", grep(r"^\s*while ")),
    ("3 of these, loops that count by hand", counted()),
    ("4 bytes of numbers taken apart by hand", grep(r"% 256\) as u8|/ 256\) as u8")),
    ("4 conversions, copies, tests with a function of their own", grep(r"^\s*(pub )?fn (wide|wide64|widened|bit|flag|both|inside|within|least|join2|join4|joined|four|swapped|swap32|swap64|is_same|put_bytes|put_zeros|clear|put_again|put_eight|put_sixteen|signed32|signed64|size32|size64)\(")),
    ("5 facts in the clauses of three functions or more", facts()),
    ("5 neighbouring parameters in five functions or more", travel()),
    ("6 arrays lent, or with a length or parallel columns beside", grep(r"^\s*(pub )?fn .*\[u32; |^\s*\w+: &(mut )?\[u32; |^(pub )?const \w+: \[")),
    ("7 switches on which step to run", grep(r"\bmatch (what|which|field|kind)\b|^\s*if kind == ")),
]
for name, found in ROWS:
    print(f"{len(found):5}  {name}")
    if LIST:
        for f, i, s in found:
            print(f"       {f}:{i}: {s[:150]}")
