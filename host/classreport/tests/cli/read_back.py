"""Reads rows from a file with Python's own readers: read_back.py csv|tsv|jsonl|html FILE.

A line for each row; each field as the hexadecimal digits of its UTF-8, or - where it is empty.
"""
import csv
import html.parser
import json
import sys


def told(value):
    """A JSON value as CSV has it."""
    if value is None:
        return "?"
    if isinstance(value, bool):
        return "1" if value else "0"
    return str(value)


def unescaped(text):
    """What a field of TSV stands for."""
    out, at = [], 0
    letters = {"t": "\t", "n": "\n", "r": "\r", "\\": "\\"}
    while at < len(text):
        if text[at] == "\\":
            out.append(letters[text[at + 1]])
            at += 2
        else:
            out.append(text[at])
            at += 1
    return "".join(out)


class Page(html.parser.HTMLParser):
    """The cells of a page's table; anything that could load or run something else is an error."""

    def __init__(self):
        super().__init__(convert_charrefs=True)
        self.rows, self.open, self.scripts, self.bars, self.ids = [], [], 0, 0, set()
        self.links = set()

    def handle_starttag(self, tag, attributes):
        known = "html head meta title style body h1 h2 p svg g text rect input label span table thead tbody tr th td bdi a"
        known += " figure ol li small script br"
        assert tag in known.split(), tag
        for name, value in attributes:
            assert not name.startswith("on") and name != "src", (tag, name)
            if name == "href":
                assert value.startswith("#chain-"), value
                self.links.add(value[1:])
            if name == "id":
                assert value not in self.ids, value
                self.ids.add(value)
        if tag == "tr":
            self.rows.append([])
        if tag in ("td", "th"):
            self.rows[-1].append("")
        self.scripts += tag == "script"
        self.bars += tag == "rect"
        if tag not in ("meta", "input", "rect", "br"):
            self.open.append(tag)

    def handle_startendtag(self, tag, attributes):
        assert tag == "rect", tag
        self.bars += 1

    def handle_endtag(self, tag):
        assert self.open.pop() == tag, tag

    def handle_data(self, data):
        if "td" in self.open or "th" in self.open:
            self.rows[-1][-1] += data


def page(text):
    parser = Page()
    parser.feed(text)
    parser.close()
    assert parser.open == [], parser.open
    assert parser.scripts == 1 and parser.bars > 0
    assert parser.links <= parser.ids, parser.links - parser.ids
    return parser.rows


def main(mode, name):
    with open(name, encoding="utf-8", newline="") as file:
        if mode == "csv":
            rows = list(csv.reader(file, strict=True))
        elif mode == "tsv":
            rows = [[unescaped(field) for field in line.split("\t")] for line in file.read().split("\n")[:-1]]
        elif mode == "jsonl":
            objects = [json.loads(line) for line in file.read().split("\n")[:-1]]
            rows = [list(objects[0])] + [[told(value) for value in row.values()] for row in objects]
        else:
            rows = page(file.read())
    for row in rows:
        print(" ".join(field.encode().hex() or "-" for field in row))


main(*sys.argv[1:])
