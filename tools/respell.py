#!/usr/bin/env python3
"""Respells the names that specs/ and proofs/ declare, once, after the kit's port.py: words in snake case, a dash only where it joins two names.

usage: tools/respell.py [--table]       at the top of the repository; --table prints old and new names and writes nothing

The rule is the one of the library: types, facts and modules keep upper camel case; any other name is in snake case; a dash joins two names that are
declared somewhere, and a plain word is added with `_`. A law that would have its function's name gets `_lem`. What Rattle makes of a function's
text (its goals and their fields), the functions of src/, strings, inputs and outputs keep their names. In prose only code spans turn, and words
with a capital inside. Documents and must-fail edits turn too, in which port.py turned nothing.
"""

import os
import re
import sys

NAME = r'[^\s(){}.;,@"«»]+'
WORD = re.compile(NAME)
DECLARED = re.compile(r"^( *)(?:(?:abbrev|unfoldable|opaque|pub|rule|irrelevant) +)*(" + NAME + r")(?: \{[^{}\n]*\})*(?: \([^()\n]*\))* : ", re.M)
RECORD = re.compile(r"^ *(?:pub +|abbrev +)*(?:data|record) +(?:pub +)?(" + NAME + ")", re.M)
ABBREVIATIONS = "lt le eq ne".split()
# What port.py turned because a library had a word of the same spelling, to names that others of ours have too: these are laws.
LAWS = "no_names is_digit units_of front_bytes size_in first_step text_at head_at second_at counts_of bytes_left rows_on in_order all_are".split()


def in_snake_case(name):
    if re.fullmatch("[A-Z][A-Z0-9]*", name):
        return name
    return re.sub(r"(?<=[a-z0-9])[A-Z]+", lambda m: "_" + m[0].lower(), name).replace("-", "_")


def files(root, ends):
    for folder, dirs, names in os.walk(root):
        dirs[:] = sorted(d for d in dirs if d not in ("out", ".git", "target"))
        for f in sorted(names):
            if f.endswith(ends):
                yield os.path.join(folder, f)


def read(path):
    with open(path, encoding="utf-8") as f:
        return f.read()


def declared():
    """The names that specs/ and the lemma files declare, and those that answer a need that Rattle makes, by file."""
    names, needs = {}, {}
    for path in files("crates", ".antt"):
        text = read(path)
        needs[path] = set()
        for m in DECLARED.finditer(text):
            if path.endswith("Proof.antt") and text.startswith("tie.", m.end()):
                needs[path].add(m[2])
            else:
                names.setdefault(m[2], []).append(path)
        for m in RECORD.finditer(text):
            names.setdefault(m[1], []).append(path)
    return names, needs


def imported():
    """The words without a dash that are brought in from a library."""
    words = set()
    for path in files("crates", (".antt", ".rt")):
        for m in re.finditer(r"use (?!Rattle\.(?!std\.))[^\s{]+\{([^}]*)\}", read(path)):
            words |= {w.strip().split(" as ")[0] for w in m[1].split(",")}
    return {w for w in words if re.fullmatch(r"[a-z]\w*", w)}


def joined(name, known):
    """A name of several parts: the longest names from the left on, a dash between two of them, `_` beside a plain word."""
    parts = [in_snake_case(p) for p in name.split("-")]
    out, was = "", None
    while parts:
        for k in range(len(parts), 0, -1):
            piece = "_".join(parts[:k])
            if piece in known or piece.isdigit() or k == 1:
                break
        is_name = piece in known
        out += ("" if was is None else "-" if was and is_name else "_") + piece
        was = is_name
        parts = parts[k:]
    return out


def table():
    names, _ = declared()
    library = imported()
    mine = {in_snake_case(n) for n in names if "-" not in n and n not in LAWS} | {n for n in names if "-" not in n and n not in LAWS}
    known = mine | library | set(ABBREVIATIONS)
    turned = {}
    for n in names:
        if n[:1].isupper() and not "-" in n:
            continue
        camel = re.search("[a-z0-9][A-Z]", n) and not n[0].isupper()
        if n in LAWS and any(in_snake_case(x) == n for x in names if x != n):
            turned[n] = n + "_lem"
        elif "-" in n and not n[0].isupper():
            new = joined(n, known)
            turned[n] = new + "_lem" if new in mine else new
        elif camel:
            turned[n] = in_snake_case(n)
    # two names that fall together: the one with more dashes keeps one
    by_new = {}
    for n in names:
        by_new.setdefault(turned.get(n, n), []).append(n)
    for new, olds in by_new.items():
        for n in sorted(olds, key=lambda n: n.count("-"))[1:]:
            turned[n] = turned.get(n, n) + "_lem"
    return {a: b for a, b in turned.items() if a != b}, names


QUIET = re.compile(r'"(?:[^"\\\n]|\\.)*"|(?<![^\s(){}.;,@"«»])--[^\n]*|(?<!:)//[^\n]*')
SPAN = re.compile(r"`[^`\n]*`")


def turn_words(text, words, stay, dotted):
    """Turns each word of the table; a word behind a dot only where `dotted` lets it."""

    def one(m):
        w = m[0]
        if w in stay or w not in words:
            return w
        if m.start() and text[m.start() - 1] == "." and not dotted(w, text, m.start()):
            return w
        return words[w]

    return WORD.sub(one, text)


def turn_prose(text, words):
    """Code spans, and words with a capital inside."""
    camel = {a: b for a, b in words.items() if re.search("[a-z][A-Z]", a)}
    text = re.sub(r"[A-Za-z][\w'-]*", lambda m: camel.get(m[0], m[0]), text)
    return SPAN.sub(lambda m: re.sub(r"[^\s(){}.;,@\"«»`/:\[\]]+", lambda w: words.get(w[0], w[0]), m[0]), text)


def turn_code(text, words, stay, dotted):
    out, at = [], 0
    for m in QUIET.finditer(text):
        out.append(turn_words(text[at : m.start()], words, stay, dotted))
        out.append(m[0] if m[0].startswith('"') else turn_prose(m[0], words))
        at = m.end()
    out.append(turn_words(text[at:], words, stay, dotted))
    return "".join(out)


def main():
    words, names = table()
    if "--table" in sys.argv:
        for a, b in sorted(words.items()):
            print(a, b, sep="\t")
        return
    _, needs = declared()
    fields = {n for n in names if "-" not in n}
    for path in files("crates", (".antt", ".rt")):
        text = read(path)
        stay = set(needs.get(path, ()))
        for m in re.finditer(r"use (?!Rattle\.(?!std\.))[^\s{]+\{([^}]*)\}", text):
            stay |= {w.strip().split(" as ")[-1] for w in m[1].split(",")}
        in_proof = path.endswith("Proof.antt")

        def dotted(w, t, at):
            return not in_proof or w in fields

        if path.endswith(".rt"):
            def whole(m):
                return turn_words(m[0], words, stay, dotted)

            # clauses and imports alone: a word of the table with a dash or a capital inside stands nowhere else
            new = turn_code(text, {a: b for a, b in words.items() if "-" in a or re.search("[a-z0-9][A-Z]", a)}, stay, dotted)
        else:
            new = turn_code(text, words, stay, dotted)
        if new != text:
            with open(path, "w", encoding="utf-8") as f:
                f.write(new)
    for path in files("crates", ".edit"):
        text = read(path)
        lines = []
        for line in text.split("\n"):
            key, sep, rest = line.partition(": ")
            if key in ("old", "new"):
                line = key + sep + turn_words(rest, words, set(), lambda w, t, at: True)
            elif line.startswith(("#", "mistake")):
                line = turn_prose(line, words)
            lines.append(line)
        if "\n".join(lines) != text:
            with open(path, "w", encoding="utf-8") as f:
                f.write("\n".join(lines))
    # What port.py turned itself is known by its new spelling.
    theirs = {n for n in names if "_" in n}

    def in_document(w):
        if w in words:
            return words[w]
        s = in_snake_case(w)
        return words.get(s, s) if s != w and s in theirs and not w[0].isupper() else w

    for path in files(".", ".md"):
        text = read(path)
        new = SPAN.sub(lambda m: re.sub(r"[A-Za-z][\w'-]*", lambda w: in_document(w[0]), m[0]) if "/" not in m[0] else m[0], text)
        if new != text:
            with open(path, "w", encoding="utf-8") as f:
                f.write(new)


if __name__ == "__main__":
    main()
