#!/usr/bin/env python3
"""Makes the scenes from flights.txt: NAME.lines, NAME.expected, the library's files with those of the chain, and the lists in README.md; and
season.expected, the table of season.counts; logbook/, the expanded document of a scene, its ledger and their page; and count/, the
expanded documents of two scenes and the table of what they count.

The expected answers come from reckon.py, and never from the program. Run again, it writes the same bytes.
"""
import re
import sys
import textwrap
from pathlib import Path

sys.dont_write_bytecode = True  # no files beside the sources
from reckon import NONE, deep, expand, row
from reading import line

FOLDER = Path(__file__).resolve().parent
LIMITS = 400, 64, 400  # N, D and K of the program expand
CHAIN, CHAIN_LEGS, CHAIN_BASE, CHAIN_LIMITS = "chain-of-files", 65, 1000, (400, 512, 1000)
MOST_ROWS = 500
HEADER = 5
TAGS = (
    "SFBool SFColor SFFloat SFImage SFInt32 SFNode SFRotation SFString SFTime SFVec2f SFVec3f "
    "MFColor MFFloat MFInt32 MFNode MFRotation MFString MFTime MFVec2f MFVec3f"
).split()  # the first of FieldType::ALL
ACCESS = ["eventIn", "eventOut", "field", "exposedField"]
MARKS = ["field", "interface", "statement"]
# Scenes that are expanded with a library too: base and file of each, in the library's order.
LIBRARIES = {
    "extern-kept": [("whaleFile", "whales")],
    "corrected-file": [("whaleFile", "whales"), ("belugaFile", "belugas"), ("whaleFile", "whales-corrected")],
    "which-address": [("whaleFile", "whales"), ("belugaFile", "belugas")],
    "shared-library": [("surveyFile", "surveys"), ("animalFile", "animals"), ("flukeFile", "flukes")],
    "circle-of-files": [("portFile", "port"), ("starboardFile", "starboard")],
}
SEASON_WIDTH = 3
LOGBOOK = "defaults"
# The scenes whose documents are counted, and the type names: a pod is a Shape, a window a Transform.
COUNTED = ("both-windows", "two-pods")
COUNTED_TYPES = ("Shape", "Transform")
PAGE_LINES = 60


class Names:
    """Words to numbers, in the order of first use. 7 comes first: in document 01's example it is the node's type name."""

    def __init__(self):
        self.numbers = {}

    def __getitem__(self, word):
        return self.numbers.setdefault(word, 7 + len(self.numbers))


class Scene:
    """One scene or library file of flights.txt: its rows."""

    def __init__(self, kind, name, names):
        self.kind, self.name, self.names = kind, name, names
        self.words = []  # what it shows
        self.parts = {"node": [], "PROTO": [], "EXTERNPROTO": [], "top": []}  # each part: its head, its lines
        self.labels = {"node": [], "PROTO": [], "EXTERNPROTO": []}  # in order; an id is a label's place

    def part(self, head):
        kind = "node" if head[0] == "DEF" else head[0]
        self.parts[kind].append((head, []))
        if kind != "top":
            self.labels[kind].append(head[1])
        return self.parts[kind][-1][1]

    def id(self, kind, label):
        """A label's id; a number stands for itself."""
        return int(label) if label.isdigit() else self.labels[kind].index(label)

    def value(self, words):
        """Columns e, f, g of `TYPE NUMBER` or `TYPE [ LABEL ... ]`, and the id rows."""
        tag, *rest = words
        if rest[0] == "[" and rest[-1] == "]":
            ids = [row(9, self.id("node", label)) for label in rest[1:-1]]
            return [TAGS.index(tag), 2, len(ids)], ids
        (payload,) = rest
        return [TAGS.index(tag), 1, int(payload)], []

    def interface(self, words):
        """`ACCESS TYPE NAME`, then perhaps `IS NAME`, then perhaps a value."""
        access, tag, name, *rest = words
        target = NONE
        if rest[:1] == ["IS"]:
            target, rest = self.names[rest[1]], rest[2:]
        columns, ids = self.value([tag] + rest) if rest else ([0, 0, 0], [])
        return [row(4, ACCESS.index(access), TAGS.index(tag), self.names[name], target, *columns)] + ids

    def field(self, words):
        """`NAME IS NAME` or `NAME TYPE VALUE`."""
        name, *rest = words
        if rest[0] == "IS":
            return [row(3, self.names[name], 1, self.names[rest[1]])]
        columns, ids = self.value(rest)
        return [row(3, self.names[name], 0, 0, 0, *columns)] + ids

    def statement(self, words):
        if words[0] == "ROUTE":
            ends = [words[1].split("."), words[3].split(".")]
            numbers = [self.names[word] for end in ends for word in end]
            return row(5, 3, *numbers, *(self.id("node", label) for label, _ in ends))
        if words[0] in ("PROTO", "EXTERNPROTO"):
            return row(5, 1 if words[0] == "PROTO" else 2, self.id(*words))
        if words[0] == "other":
            return row(5, 4, int(words[1]))
        return row(5, 0, self.id("node", *words))

    def node(self, head, lines):
        word, label, type_name = head
        origin = (0, 0)
        for number, kind in ((1, "PROTO"), (2, "EXTERNPROTO")):
            if type_name in self.labels[kind]:
                origin = number, self.id(kind, type_name)
        found = {"field": [], "interface": [], "statement": [], "order": []}
        for words in lines:
            if words[0] == "order":
                found["order"] += [row(6, MARKS.index(mark)) for mark in words[1:]]
            elif words[0] in ACCESS:
                found["interface"] += self.interface(words)
            elif words[0] in ("ROUTE", "PROTO", "EXTERNPROTO"):
                found["statement"].append(self.statement(words))
            else:
                found["field"] += self.field(words)
        head = row(2, self.names[type_name], self.names[label] if word == "DEF" else NONE, *origin)
        return [head, *found["field"], *found["interface"], *found["statement"], *found["order"]]

    def proto(self, head, lines):
        at = lines.index(["body"])
        rows = [row(7, self.names[head[1]])]
        for words in lines[:at]:
            rows += self.interface(words)
        return rows + [self.statement(words) for words in lines[at + 1 :]]

    def extern(self, head, lines):
        rows = [row(8, self.names[head[1]])]
        for words in lines:
            if words[0] == "url":
                number = lambda word: int(word) if word.isdigit() else self.names[word]
                base, *fragment = [number(word) for word in words[1:] if word != "#"]
                rows.append(row(10, base, *(fragment or [NONE])))
            else:
                rows += self.interface(words)
        return rows

    def rows(self):
        rows = [row(1, HEADER)]
        for kind, write in (("node", self.node), ("PROTO", self.proto), ("EXTERNPROTO", self.extern)):
            for head, lines in self.parts[kind]:
                rows += write(head, lines)
        ((_, lines),) = self.parts["top"]
        return rows + [row(11)] + [self.statement(words) for words in lines]


def read_flights(names):
    """The scenes in the order of the page."""
    scenes, lines = [], None
    for text in (FOLDER / "flights.txt").read_text().splitlines():
        words = text.split()
        if not words or text.startswith("#"):
            continue
        if not text.startswith(" "):
            if words[0] in ("scene", "library"):
                scenes.append(Scene(*words, names))
                lines = scenes[-1].words
            else:
                lines = scenes[-1].part(words)
        else:
            lines.append(words)
    return scenes


def leg(number, names):
    """A file of the chain: the prototype of a leg, which holds the next one."""
    scene = Scene("library", f"chain/leg-{number:02}", names)
    scene.part(["EXTERNPROTO", "Leg"]).append(["url", str(CHAIN_BASE + number + 1)])
    scene.part(["PROTO", "Leg"]).extend([["body"], ["track"]])
    scene.part(["node", "track", "Shape"]).append(["children", "MFNode", "[", "next", "]"])
    scene.part(["node", "next", "Leg"])
    scene.part(["top"]).append(["PROTO", "Leg"])
    return scene.rows()


def lines_of(rows):
    return b"".join(line(r) for r in rows)


def words_of(rows):
    return [number for r in rows for number in r]


def printed(root, library=(), limits=LIMITS):
    """What the program expand prints, and its answer."""
    answer, out, _, _ = expand(words_of(root), words_of(library), *limits)
    refusal, first, second, nodes, scopes, charges, _ = answer
    return lines_of([[refusal, first, second, 0, nodes, scopes, charges, 0]] + out), answer


def in_words(answer):
    refusal, first, second, nodes, scopes, charges, rows = answer
    if refusal:
        return f"refused {refusal}, places {first} and {second}"
    counts = (nodes, "node"), (scopes, "scope"), (charges, "charge"), (rows, "row")
    return ", ".join(f"{n} {what}{'s' * (n != 1)}" for n, what in counts) + " out"


def page_lists(scenes, answers, names):
    """The lists of the page: every scene in words with its answer, every name with its number."""
    text = []
    for scene in scenes:
        where = "library/" if scene.kind == "library" else ""
        said = f" ({answers[scene.name]})" if scene.name in answers else ""
        shown = " ".join(word for words in scene.words for word in words)
        text.append(textwrap.fill(f"- **{where}{scene.name}**{said}: {shown}", 124, subsequent_indent="  "))
    table = ", ".join(f"{word}\0{number}" for word, number in names.numbers.items())  # a pair stays on its line
    text += ["", "The names and their numbers:", "", textwrap.fill(table, 124).replace("\0", " ") + "."]
    return "\n".join(text)


def season(counts, width):
    """The table that the runner prints of a season: every total a plain sum."""
    totals = [sum(counts[leg - width : leg]) for leg in range(width, len(counts) + 1)]
    largest = totals.index(max(totals))
    lines = ["leg  count  total"]
    for leg, count in enumerate(counts, 1):
        total = f"  {totals[leg - width]:5}" if leg >= width else ""
        lines.append(f"{leg:3}  {count:5}{total}" + ("  largest" if leg - width == largest else ""))
    return "".join(line + "\n" for line in lines)


def logbook(rows, ledger):
    """The pages of an expanded document: for each node its id, its ledger's entry, its type name and its DEF name, if any."""
    nodes = [(i, *entry, r[1], r[2]) for i, (entry, r) in enumerate(zip(ledger, (r for r in rows if r[0] == 2)))]
    fields = [["" if column == 5 and n == NONE else n for column, n in enumerate(node)] for node in nodes]
    lines = ["".join(f"{n:>12}" for n in node) for node in fields]
    text = []
    for page, first in enumerate(range(0, len(lines), PAGE_LINES - 1), 1):
        text.append(f"{page:>72}")
        text += (lines[first : first + PAGE_LINES - 1] + [" " * 72] * PAGE_LINES)[: PAGE_LINES - 1]
    return "".join(line + "\n" for line in text)


def mentioned(rows):
    """Of an expanded document: the type name of each node, and the ids that are mentioned, those of top Node statements and those
    in values of reached nodes; and the reached nodes."""
    types, values, inside, tops = [], [], False, []
    for r in rows:
        if r[0] == 2:
            types.append(r[1])
            values.append([])
        inside = r[0] in (2, 3, 4) or inside and r[0] == 9
        if r[0] == 9 and inside:
            values[-1].append(r[1])
    top = next(at for at, r in enumerate(rows) if r[0] == 11)
    tops = [r[2] for r in rows[top + 1 :] if r[1] == 0]
    reached, mentions = [], list(tops)
    for i in mentions:  # grows as it goes
        if i < len(types) and i not in reached:
            reached.append(i)
            mentions += values[i]
    return types, mentions, reached


def count_table(documents, columns):
    """The table that the runner prints of documents: a line for each and its protocol, a column for each name, the totals last."""
    lines, totals = [], {1: [0] * len(columns), 2: [0] * len(columns)}
    for name, rows in documents:
        types, mentions, reached = mentioned(rows)
        for protocol, ids in ((1, mentions), (2, reached)):
            counts = [sum(i < len(types) and types[i] == column for i in ids) for column in columns]
            totals[protocol] = [a + b for a, b in zip(totals[protocol], counts)]
            lines.append([f"scenes/count/{name}.lines", protocol, *counts])
    lines = [["document", "protocol", *columns]] + lines + [["total", p, *totals[p]] for p in (1, 2)]
    widths = [max(len(str(line[k])) for line in lines) for k in range(len(lines[0]))]
    return "".join(f"{line[0]:<{widths[0]}}" + "".join(f"  {n:>{w}}" for n, w in zip(line[1:], widths[1:])) + "\n" for line in lines)


def main():
    names = Names()
    scenes = read_flights(names)
    sheets = {scene.name: scene.rows() for scene in scenes}
    answers = {}
    for scene in scenes:
        rows = sheets[scene.name]
        if scene.kind == "library":
            (FOLDER / "library" / f"{scene.name}.lines").write_bytes(lines_of(rows))
            continue
        assert len(rows) <= MOST_ROWS, scene.name
        text, answer = printed(rows)
        answers[scene.name] = f"{len(rows)} rows; {in_words(answer)}"
        (FOLDER / f"{scene.name}.lines").write_bytes(lines_of(rows))
        (FOLDER / f"{scene.name}.expected").write_bytes(text)

    for name, files in LIBRARIES.items():
        library = [r for base, file in files for r in [row(12, names[base])] + sheets[file]]
        text, answer = printed(sheets[name], library)
        (FOLDER / "library" / f"{name}.expected").write_bytes(text)
        *before, last = (file for _, file in files)
        for file in before:
            answers.setdefault(file, f"{len(sheets[file])} rows")
        behind = f", behind {' and '.join(before)}," if before else ""
        answers[last] = f"{len(sheets[last])} rows; with it{behind} {name} {'is' if answer[0] else 'gives'} {in_words(answer)}"

    (FOLDER / "library" / "chain").mkdir(exist_ok=True)
    library = []
    for number in range(1, CHAIN_LEGS + 1):
        rows = leg(number, names)
        (FOLDER / "library" / "chain" / f"leg-{number:02}.lines").write_bytes(lines_of(rows))
        library += [row(12, CHAIN_BASE + number)] + rows
    text, answer = printed(sheets[CHAIN], library, CHAIN_LIMITS)
    (FOLDER / "library" / f"{CHAIN}.expected").write_bytes(text)
    answers[CHAIN] += f"; with its library {in_words(answer)}"

    counts = [int(count) for count in (FOLDER / "season.counts").read_text().split()]
    (FOLDER / "season.expected").write_text(season(counts, SEASON_WIDTH))

    _, out, ledger, _ = expand(words_of(sheets[LOGBOOK]), [], *LIMITS)
    (FOLDER / "logbook").mkdir(exist_ok=True)
    (FOLDER / "logbook" / "document.lines").write_bytes(lines_of(out))
    (FOLDER / "logbook" / "ledger.txt").write_text("".join("".join(f"{n:11}" for n in entry) + "\n" for entry in ledger))
    (FOLDER / "logbook" / "expected.txt").write_text(logbook(out, ledger))

    documents = [(name, expand(words_of(sheets[name]), [], *LIMITS)[1]) for name in COUNTED]
    (FOLDER / "count").mkdir(exist_ok=True)
    for name, rows in documents:
        (FOLDER / "count" / f"{name}.lines").write_bytes(lines_of(rows))
    (FOLDER / "count" / "expected.txt").write_text(count_table(documents, [names[name] for name in COUNTED_TYPES]))

    page = FOLDER / "README.md"
    lists = page_lists(scenes, answers, names)
    made = re.compile("(<!-- made by make.py -->\n).*(<!-- end -->)", re.S)
    page.write_text(made.sub(lambda m: f"{m[1]}{lists}\n{m[2]}", page.read_text()))
    print(f"{len(scenes)} sheets, {len(names.numbers)} names")


if __name__ == "__main__":
    deep(main)
