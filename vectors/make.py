#!/usr/bin/env python3
"""Makes crates/test_vectors/stdin, the cases, and crates/test_vectors/stdout, what they have to print.

The answers come from reading.py, and never from the program.

    python3 vectors/make.py          write both files, and say how many cases there are
    python3 vectors/make.py NUMBER   show one case, counted from 0: what it tries, its frame, its rows, its answer
"""
import sys
from pathlib import Path

sys.dont_write_bytecode = True  # no files beside the sources
from reading import (
    EXPANDED, EXTERN, LIBRARY, NODE, NONE, PROTO, PROTO_ROWS, ROOT,
    check, checksum, line, lookup, read_lines, rows_of, write_lines,
)

CRATE = Path(__file__).resolve().parent.parent / "crates" / "vectors"
LENT_WORD = 3123456789
LENT_BYTE = 165


# ---- Frames

def padded(numbers):
    return (list(numbers) + [0] * 8)[:8]


def words_of(rows):
    return [n for r in rows for n in r]


class Vectors:
    """The cases, each with its frame and its answer."""

    def __init__(self):
        self.cases = []
        self.length = 0
        self.buffers = [[], []]

    def add(self, label, header, data, answer, rows=()):
        frame = line(padded(header)) + data
        self.cases.append((label, frame, line(padded(answer)), rows))
        self.length += len(frame)

    def kept(self, buffer, rows):
        """How many first rows the program has already, and the lines of the others."""
        old = self.buffers[buffer]
        n = 0
        while n < min(len(old), len(rows)) and old[n] == rows[n]:
            n += 1
        self.buffers[buffer] = rows + old[len(rows) :]
        return n, b"".join(line(r) for r in rows[n:])

    def check_words(self, label, form, words):
        rows = rows_of(words)
        kept, data = self.kept(0, rows)
        self.add(label, (1, form, len(words), kept), data, (1,) + check(words, form), rows)

    def check(self, label, form, rows):
        self.check_words(label, form, words_of(rows))

    def read(self, label, text, lent):
        refusal, place, count, words = read_lines(text, [LENT_WORD] * lent)
        self.add(label, (2, len(text), lent), text, (2, refusal, place, count, checksum(words)))

    def write(self, label, words, lent):
        rows = rows_of(words)
        kept, data = self.kept(0, rows)
        refusal, count, text = write_lines(words, bytes([LENT_BYTE]) * lent)
        self.add(label, (3, len(words), lent, kept), data, (3, refusal, count, checksum(text)), rows)

    def lookup(self, label, root, library, doc, which, number):
        n, first = self.kept(0, root)
        m, second = self.kept(1, library)
        header = (4, len(root), len(library), doc, which, number, n, m)
        answer = (4,) + lookup(root, library, doc, which, number)
        self.add(label, header, first + second, answer, root + library)

    def cut_short(self):
        """A last frame that is no frame, so that the end of the input is seen to be reached."""
        self.cases.append(("a frame cut short", b"          1", line(padded((9, self.length))), ()))


# ---- Rows, by kind

def row(*numbers):
    return padded(numbers)


def document(header=5):
    return row(1, header)


def node(kind=10, called=NONE, origin=0, number=0):
    return row(2, kind, called, origin, number)


def field(of, v=(5, 1, 77), inferred=0):
    return row(3, of, 0, 0, inferred, *v)


def field_is(of, target, inferred=0):
    return row(3, of, 1, target, inferred)


def interface(access, tag, of, target=NONE, v=(0, 0, 0)):
    return row(4, access, tag, of, target, *v)


def statement(what, number):
    return row(5, what, number)


def route(ends=(40, 41, 42, 43), ids=(NONE, NONE)):
    return row(5, 3, *ends, *ids)


def mark(what):
    return row(6, what)


def proto(called):
    return row(7, called)


def extern(called):
    return row(8, called)


def of_id(number):
    return row(9, number)


def url(base, fragment=NONE):
    return row(10, base, fragment)


TOP = row(11)


def file(base):
    return row(12, base)


def instance(called, roots=0, routes=0, associations=0):
    return row(13, called, roots, routes, associations)


def association(of, number, inner):
    return row(14, of, number, inner)


def nodes(tag, *ids):
    """A field whose value is nodes, and its ids."""
    return [field(12, (tag, 2, len(ids)))] + [of_id(i) for i in ids]


# ---- Sheets that fit

RICH_NODE = (
    [node(), field(11)]
    + nodes(41, 1, 2, 9)
    + [field_is(13, 14, 1), field(15, (0, 2, 0), 1)]
    + [interface(0, 3, 20), interface(1, 41, 21, 30), interface(2, 0, 22, NONE, (1, 1, NONE))]
    + [interface(3, 6, 23, 31, (7, 2, 2)), of_id(0), of_id(1)]
    + [statement(0, 1), statement(1, 0), statement(2, 0), route(ids=(2, 1)), statement(4, 99)]
    + [mark(0), mark(1), mark(2), instance(50, 2, 2, 2), of_id(1), of_id(2)]
    + [route((1, 2, 3, 4), (0, NONE)), route(ids=(2, 8)), association(20, 1, 11), association(21, 2, 12)]
)
PLAIN_NODES = [node(16, 33, 1, 0), node(17, NONE, 2, 0), node(18, 34, 3, 0), instance(51)]
PROTOS = (
    [proto(60), interface(2, 0, 61, NONE, (0, 1, 3)), interface(3, 6, 62, 63, (6, 2, 2)), of_id(0), of_id(3)]
    + [statement(0, 0), route(ids=(2, 1)), statement(1, 0), statement(2, 0), statement(4, NONE)]
    + [proto(64), proto(65), statement(0, 2)]
)
EXTERNS = [extern(70), interface(0, 0, 71, 72), interface(1, 1, 73), url(80), url(80, 81), extern(74), url(82), extern(75)]
TOPS = [TOP, statement(0, 0), statement(1, 0), statement(2, 1), route(ids=(2, 2)), statement(4, 7)]

RICH = [document(NONE)] + RICH_NODE + PLAIN_NODES + PROTOS + EXTERNS + TOPS
SMALL = [document(), TOP]
FIRST = (
    [file(80), document(1), node(19), node(20)] + nodes(6, 1)
    + [interface(0, 3, 20), route(), mark(0), instance(53, 0, 0, 1), association(4, 5, 6)]
    + [proto(66), statement(0, 1), extern(76), url(83), TOP, statement(1, 0)]
)
SECOND = [file(81), document(2), TOP]
THIRD = (
    [file(80), document(3), node(21), instance(52, 1, 1, 1), of_id(0), route(), association(1, 2, 3)]
    + [node(22)] + nodes(6, 0, 1) + [statement(2, 0)]
    + [proto(67), interface(3, 6, 62, NONE, (6, 2, 1)), of_id(1), statement(0, 0), proto(68), proto(69), statement(0, 1)]
    + [extern(77), interface(0, 0, 71), url(84), extern(78), TOP, statement(1, 2), statement(0, 1)]
)
FOURTH = [file(82), document(4), node(23), proto(63), statement(0, 0), TOP]
FILES = FIRST + SECOND + THIRD + FOURTH
EXPANDED_NODE = (
    [node(30), field(11), field_is(13, 14)] + nodes(6, 1)
    + [interface(0, 3, 20, 30), interface(2, 0, 22, NONE, (1, 1, 5)), statement(2, 0), route(ids=(2, NONE)), mark(0)]
    + [instance(50, 1, 1, 1), of_id(1), route(ids=(0, 1)), association(20, 1, 11), node(31, 4, 2, 0), node(32, NONE, 3, 0)]
)
FLAT = (
    [document()] + EXPANDED_NODE + [extern(70), interface(0, 0, 71, 72), url(80)]
    + [TOP, statement(0, 0), statement(2, 0), route(), statement(4, 1)]
)


FORMS = ((ROOT, "root"), (LIBRARY, "library"), (EXPANDED, "expanded"))


def fitting(v):
    sheets = (([], "an empty sheet"), (SMALL, "a document and its top"), (RICH, "every kind"))
    for sheet, title in sheets + ((FLAT, "an expanded document"), (FILES, "four files")):
        for form, wanted in FORMS:
            v.check(f"{title}, {wanted}", form, sheet)
    v.check("every kind in a file", LIBRARY, [file(1)] + RICH)
    v.check("a file alone", LIBRARY, [file(1)])
    v.check("a file and its document", LIBRARY, [file(1), document()])
    v.check("two equal files", LIBRARY, [file(1)] + SMALL + [file(1)] + SMALL)
    v.check("a file in a file", LIBRARY, [file(1), file(1)] + SMALL)
    v.check("two documents", ROOT, SMALL + SMALL)
    v.check("two documents in a file", LIBRARY, [file(1)] + SMALL + SMALL)


def lengths(v):
    """Each prefix, by rows; then lengths that are no multiple of 8."""
    for form, sheet, title in ((LIBRARY, FILES, "files"), (EXPANDED, FLAT, "expanded"), (ROOT, RICH, "every kind")):
        for n in reversed(range(len(sheet))):
            v.check(f"{title}: the first {n} rows", form, sheet[:n])
    for n in (8 * len(RICH) - 1, 8 * len(RICH) - 7, 17, 15, 9, 7, 1):
        v.check_words(f"the first {n} words of every kind", ROOT, words_of(RICH)[:n])
    for n in range(1, 8):
        v.check_words(f"{n} words past a document", ROOT, words_of(SMALL) + [0] * n)
        v.check_words(f"{n} words past a file", LIBRARY, words_of([file(1)] + SMALL) + [12] * n)
    v.check_words("seven words of a library", LIBRARY, [12, 1, 0, 0, 0, 0, 0])
    v.check_words("a bad row and words past it", ROOT, words_of([row(0)]) + [1, 2, 3])


# ---- Columns: each of every kind in turn, at a place where its row fits

IN_NODE = [document(), node()]
IN_INSTANCE = IN_NODE + [instance(50, 1, 1, 1)]
PLACES = [
    ("document", ROOT, [], document()),
    ("node, Builtin", ROOT, [document()], node()),
    ("node, Proto", ROOT, [document()], node(10, 3, 1, 4)),
    ("node, ExternProto", ROOT, [document()], node(10, NONE, 2, 4)),
    ("node, Unknown", ROOT, [document()], node(10, 3, 3)),
    ("field, payload", ROOT, IN_NODE, field(11)),
    ("field, nodes", ROOT, IN_NODE, field(11, (6, 2, 0))),
    ("field, IS", ROOT, IN_NODE, field_is(11, 12)),
    ("interface, no value", ROOT, IN_NODE, interface(0, 3, 20)),
    ("interface, payload", ROOT, IN_NODE, interface(2, 3, 20, 21, (5, 1, 6))),
    ("interface, nodes", ROOT, IN_NODE, interface(3, 3, 20, NONE, (6, 2, 0))),
    ("interface of a proto", ROOT, [document(), proto(60)], interface(2, 3, 20, NONE, (5, 1, 6))),
    ("interface of an extern", ROOT, [document(), extern(70)], interface(1, 3, 20, 21)),
    ("statement, Node", ROOT, SMALL, statement(0, 3)),
    ("statement, Proto", ROOT, SMALL, statement(1, 3)),
    ("statement, ExternProto", ROOT, SMALL, statement(2, 3)),
    ("statement, Route", ROOT, SMALL, route(ids=(6, NONE))),
    ("statement, other", ROOT, SMALL, statement(4, 3)),
    ("statement of a node", ROOT, IN_NODE, statement(0, 3)),
    ("statement of a proto", ROOT, [document(), proto(60)], statement(0, 3)),
    ("body order", ROOT, IN_NODE, mark(1)),
    ("proto", ROOT, [document()], proto(60)),
    ("extern", ROOT, [document()], extern(70)),
    ("id of a field", ROOT, IN_NODE + nodes(6, 0, 0)[:1], of_id(3)),
    ("url, no fragment", ROOT, [document(), extern(70)], url(80)),
    ("url, fragment", ROOT, [document(), extern(70)], url(80, 81)),
    ("top", ROOT, [document()], TOP),
    ("file", LIBRARY, [], file(80)),
    ("instance", ROOT, IN_NODE, instance(50)),
    ("id of an instance", ROOT, IN_INSTANCE, of_id(3)),
    ("route of an instance", ROOT, IN_INSTANCE + [of_id(1)], route()),
    ("association", ROOT, IN_INSTANCE + [of_id(1), route()], association(1, 2, 3)),
]
COLUMN_NAMES = "kind a b c d e f g".split()


def one_column(v):
    for title, form, before, good in PLACES:
        v.check(f"{title}: fits", form, before + [good])
        for column in range(1, 8):
            for n in (NONE - 1, NONE) if good[column] else (1,):
                other = good[:column] + [n] + good[column + 1 :]
                v.check(f"{title}: {COLUMN_NAMES[column]} {n}", form, before + [other])


EDGES = [
    ("tag 41 of a payload", field(11, (41, 1, 0))),
    ("tag 42 of a payload", field(11, (42, 1, 0))),
    ("tag 41 of nodes", field(11, (41, 2, 0))),
    ("tag 42 of nodes", field(11, (42, 2, 0))),
    ("field of class 3", field(11, (5, 3, 0))),
    ("value of class 0", field(11, (0, 0, 0))),
    ("value of class 0 with a tag", field(11, (1, 0, 0))),
    ("value with an IS target", row(3, 11, 0, 1, 0, 5, 1, 0)),
    ("IS of class 1", row(3, 11, 1, 12, 0, 0, 1, 0)),
    ("IS of class 2", row(3, 11, 1, 12, 0, 0, 2, 0)),
    ("IS with a tag", row(3, 11, 1, 12, 0, 5, 0, 0)),
    ("IS with a payload", row(3, 11, 1, 12, 0, 0, 0, 5)),
    ("IS with no target", field_is(11, NONE)),
    ("IS, inferred", field_is(11, 12, 1)),
    ("neither a value nor an IS", row(3, 11, 2, 12)),
    ("b 2 with a value", row(3, 11, 2, 0, 0, 5, 1, 0)),
    ("inferred 1", field(11, inferred=1)),
    ("inferred 2", field(11, inferred=2)),
    ("IS, inferred 2", field_is(11, 12, 2)),
    ("access 3", interface(3, 0, 20)),
    ("access 4", interface(4, 0, 20)),
    ("interface tag 41", interface(0, 41, 20)),
    ("interface tag 42", interface(0, 42, 20)),
    ("interface value tag 41", interface(0, 0, 20, NONE, (41, 1, 0))),
    ("interface value tag 42", interface(0, 0, 20, NONE, (42, 1, 0))),
    ("interface nodes tag 42", interface(0, 0, 20, NONE, (42, 2, 0))),
    ("interface of class 3", interface(0, 0, 20, NONE, (0, 3, 0))),
    ("interface of class 0 with a tag", interface(0, 0, 20, NONE, (1, 0, 0))),
    ("interface of class 0 with a payload", interface(0, 0, 20, NONE, (0, 0, 1))),
    ("statement 5", row(5, 5, 0)),
    ("statement 4294967295", row(5, NONE, 0)),
    ("mark 2", mark(2)),
    ("mark 3", mark(3)),
    ("a row of zeros", row(0)),
    ("kind 15", row(15)),
    ("kind 4294967295", row(NONE)),
]


def url_marks(v):
    for form, before in ((ROOT, []), (LIBRARY, [file(80)]), (EXPANDED, [])):
        for c in (0, 1, 2):
            v.check(f"url, c {c}", form, before + [document(), extern(70), row(10, 80, NONE, c), url(81), TOP])


def edges(v):
    for title, edge in EDGES:
        v.check(title, ROOT, IN_NODE + [edge])
    for origin in range(5):
        for number in (0, 1, NONE):
            v.check(f"origin {origin}, id {number}", ROOT, [document(), node(10, NONE, origin, number)])
    for of_class in (1, 2, 3):
        bad = interface(0, 0, 20, NONE, (0, of_class, 0))
        v.check(f"an extern's interface of class {of_class}", ROOT, [document(), extern(70), bad])


# ---- Order: at each place of the grammar, each kind of row

STATES = [
    ("at the start", []),
    ("after a document's row", [document()]),
    ("in a node", IN_NODE),
    ("after a field", IN_NODE + [field(11)]),
    ("where an id is owed", IN_NODE + nodes(6, 1)[:1]),
    ("after ids", IN_NODE + nodes(6, 1)),
    ("after an interface", IN_NODE + [interface(0, 3, 20)]),
    ("where an interface's id is owed", IN_NODE + [interface(2, 6, 20, NONE, (6, 2, 1))]),
    ("after a statement", IN_NODE + [route()]),
    ("after a mark", IN_NODE + [mark(0)]),
    ("after an instance of nothing", IN_NODE + [instance(50)]),
    ("where an instance's id is owed", IN_INSTANCE),
    ("where an instance's route is owed", IN_INSTANCE + [of_id(1)]),
    ("where an association is owed", IN_INSTANCE + [of_id(1), route()]),
    ("after an instance", IN_INSTANCE + [of_id(1), route(), association(1, 2, 3)]),
    ("in a second node", IN_NODE + [node()]),
    ("in a proto", [document(), proto(60)]),
    ("after a proto's interface", [document(), proto(60), interface(0, 3, 20)]),
    ("where a proto's id is owed", [document(), proto(60), interface(2, 6, 20, NONE, (6, 2, 1))]),
    ("after a proto's statement", [document(), proto(60), route()]),
    ("in an extern", [document(), extern(70)]),
    ("after an extern's interface", [document(), extern(70), interface(0, 3, 20)]),
    ("after a url", [document(), extern(70), url(80)]),
    ("after the top's row", SMALL),
    ("after a top statement", SMALL + [statement(0, 0)]),
]
EACH_KIND = [
    ("document", document()),
    ("node", node()),
    ("field", field(11)),
    ("interface", interface(0, 3, 20)),
    ("Node statement", statement(0, 0)),
    ("route", route()),
    ("mark", mark(0)),
    ("proto", proto(60)),
    ("extern", extern(70)),
    ("id", of_id(0)),
    ("url", url(80)),
    ("top", TOP),
    ("file", file(80)),
    ("instance", instance(50)),
    ("association", association(1, 2, 3)),
]
FOR_EXPANDED = [
    ("node, Proto", node(10, NONE, 1, 0)),
    ("node, ExternProto", node(10, NONE, 2, 0)),
    ("interface with an IS", interface(2, 3, 20, 21)),
    ("interface with an IS and a payload", interface(2, 3, 20, 21, (5, 1, 6))),
    ("interface with an IS and nodes", interface(2, 3, 20, 21, (5, 2, 0))),
    ("interface with a payload", interface(2, 3, 20, NONE, (5, 1, 6))),
    ("Node statement", statement(0, 0)),
    ("Proto statement", statement(1, 0)),
    ("ExternProto statement", statement(2, 0)),
    ("route", route()),
    ("other statement", statement(4, 0)),
    ("proto", proto(60)),
]
FILE_STATES = [
    ("at the start of a library", []),
    ("after a file's row", [file(80)]),
    ("in a file's node", [file(80)] + IN_NODE),
    ("after a file's top", [file(80)] + SMALL),
    ("after a file's statement", [file(80)] + SMALL + [statement(0, 0)]),
    ("after a second file's row", [file(80)] + SMALL + [file(80)]),
]
EXPANDED_STATES = (1, 2, 3, 6, 8, 10, 12, 20, 23, 24)


def order(v):
    for where, before in STATES:
        for what, r in EACH_KIND:
            v.check(f"{where}: {what}", ROOT, before + [r])
    for where, before in FILE_STATES:
        for what, r in EACH_KIND:
            v.check(f"{where}: {what}", LIBRARY, before + [r])
    for where, before in (STATES[i] for i in EXPANDED_STATES):
        for what, r in FOR_EXPANDED:
            v.check(f"expanded, {where}: {what}", EXPANDED, before + [r])


def counted(v):
    """Counts that are too small, too large, or larger than any sheet; the rest of the sheet fits."""
    rest = [TOP]
    for n in (0, 1, 2, 3, NONE):
        ids = [of_id(1), of_id(2)]
        v.check(f"a field that counts {n} of two ids", ROOT, IN_NODE + [field(12, (6, 2, n))] + ids + rest)
        head = interface(2, 6, 20, NONE, (6, 2, n))
        v.check(f"an interface that counts {n} of two ids", ROOT, IN_NODE + [head] + ids + rest)
        v.check(f"a proto's interface that counts {n} of two ids", ROOT, [document(), proto(60), head] + ids + rest)
        both = ids + [route(), route(), association(1, 2, 3), association(1, 2, 3)]
        v.check(f"an instance that counts {n} of two ids", ROOT, IN_NODE + [instance(50, n, 2, 2)] + both + rest)
        v.check(f"an instance that counts {n} of two routes", ROOT, IN_NODE + [instance(50, 2, n, 2)] + both + rest)
        v.check(f"an instance that counts {n} of two associations", ROOT, IN_NODE + [instance(50, 2, 2, n)] + both + rest)
    swapped = [association(1, 2, 3), route(), of_id(1)]
    v.check("an instance's rows in the wrong order", ROOT, IN_INSTANCE + swapped + rest)
    v.check("an instance's route before its id", ROOT, IN_INSTANCE + [route(), of_id(1), association(1, 2, 3)] + rest)
    v.check("an instance's association before its route", ROOT, IN_INSTANCE + [of_id(1), association(1, 2, 3), route()] + rest)
    for what in (0, 1, 2, 4):
        owed = IN_NODE + [instance(50, 0, 1, 0), statement(what, 0)]
        v.check(f"statement {what} where a route is owed", ROOT, owed)
        v.check(f"statement {what} where a route is owed, expanded", EXPANDED, owed)
    v.check("a second instance", ROOT, IN_NODE + [instance(50), instance(51)] + rest)


# ---- Sheets changed by chance

class Chance:
    """The same numbers at each run."""

    def __init__(self, seed):
        self.state = seed

    def below(self, n):
        self.state = (6364136223846793005 * self.state + 1442695040888963407) % 2**64
        return (self.state >> 33) % n

    def one(self, things):
        return things[self.below(len(things))]


def changed(chance, sheet):
    """One row left out, doubled, swapped with the next, moved, or with another number in one column."""
    i = chance.below(len(sheet) - 1)
    how = chance.below(5)
    rest = sheet[i + 1 :]
    if how == 0:
        return sheet[:i] + rest
    if how == 1:
        return sheet[: i + 1] + sheet[i:]
    if how == 2:
        return sheet[:i] + [sheet[i + 1], sheet[i]] + sheet[i + 2 :]
    if how == 3:
        return sheet[:i] + [chance.one(sheet)] + rest
    column = chance.below(8)
    other = sheet[i][:column] + [chance.one([0, 1, 2, 3, 4, 5, 9, 13, 14, 41, NONE - 1, NONE])] + sheet[i][column + 1 :]
    return sheet[:i] + [other] + rest


TO_CHANGE = [
    (ROOT, IN_NODE + nodes(6, 1, 2) + [statement(1, 0)] + PROTOS[:1] + PROTOS[2:6] + EXTERNS[:4] + TOPS[:3]),
    (LIBRARY, FIRST[:3] + TOPS[:2] + SECOND + THIRD[:7] + TOPS[:1]),
    (EXPANDED, FLAT[:2] + FLAT[4:9] + FLAT[11:15] + FLAT[17:22]),
]


def by_chance(v):
    chance = Chance(14772)
    for form, sheet in TO_CHANGE:
        for n in range(8):
            v.check(f"a changed sheet of form {form}, {n}", form, changed(chance, sheet))


# ---- Lines

DIGITS = [0, 9, 10, 99, 100, 999, 1000, 9999, 10000, 99999, 100000, 999999, 1000000, 9999999, 10000000, 99999999]
LARGE = [100000000, 999999999, 1000000000, 4294967294, NONE, 2147483647, 2147483648, 1]
GOOD = [DIGITS[:8], DIGITS[8:], LARGE]
BAD_FIELDS = [
    ("a leading zero", b"01"),
    ("two zeros", b"00"),
    ("eleven digits from 0", b"00000000001"),
    ("a plus", b"+1"),
    ("a minus", b"-1"),
    ("minus zero", b"-0"),
    ("a tab before", b"\t1"),
    ("a tab after", b"1\t"),
    ("4294967296", b"4294967296"),
    ("4294967300", b"4294967300"),
    ("9999999999", b"9999999999"),
    ("42949672950", b"42949672950"),
    ("99999999999", b"99999999999"),
    ("no number", b""),
    ("digits interrupted", b"1 2"),
    ("left-justified", b"5          "),
    ("a space after", b"5 "),
    ("a letter", b"1a"),
    ("a hexadecimal", b"0x1"),
    ("a point", b"1.0"),
    ("an underscore", b"1_0"),
    ("the byte before 0", b"/"),
    ("the byte after 9", b":"),
    ("a zero byte", b"\x001"),
    ("byte 255", b"\xff1"),
    ("byte 178", b"1\xb2"),
    ("a line end", b"\n1"),
    ("a carriage return", b"1\r"),
]


def with_field(text, number, column, field):
    at = 89 * number + 11 * column
    return text[:at] + field.rjust(11) + text[at + 11 :]


def with_end(text, number, end):
    at = 89 * number + 88
    return text[:at] + end + text[at + 1 :]


def reading_lines(v):
    text = b"".join(line(r) for r in GOOD)
    for n in range(4):
        v.read(f"{n} good lines, words for three", text[: 89 * n], 24)
    for lent in (0, 8, 16, 23, 24, 25, 31, 32, 100):
        v.read(f"three good lines, {lent} words", text, lent)
    for n in (1, 88, 90, 177, 179, 266, 268):
        v.read(f"{n} bytes", (text + text)[:n], 64)
    for lent in (0, 1, 7, 8):
        v.read(f"no line, {lent} words", b"", lent)
        v.read(f"one line, {lent} words", text[:89], lent)
    for i, (title, field) in enumerate(BAD_FIELDS):
        v.read(f"{title}, line {i % 3}", with_field(text, i % 3, i % 8, field), 24)
    for number in range(3):
        for column in (0, 7):
            v.read(f"a bad number in line {number}", with_field(text, number, column, b"x"), 30)
        for end in (b"\r", b" ", b"0", b"\0"):
            v.read(f"a bad end of line {number}", with_end(text, number, end), 24)
    two = with_field(with_field(text, 2, 0, b"x"), 1, 7, b"x")
    v.read("two bad lines", two, 24)
    v.read("bad lines and too few words", two, 23)
    v.read("bad lines and a byte too many", two + b" ", 32)
    v.read("a field of 12 bytes", text[:11] + b" " + text[11:88] + text[89:], 24)
    v.read("a field moved to the left", text[1:11] + b" " + text[11:], 24)
    v.read("lines without ends", (text.replace(b"\n", b"") + text)[: 89 * 2], 24)


def writing_lines(v):
    words = words_of(GOOD)
    for n in range(4):
        for lent in (89 * n - 1, 89 * n, 89 * n + 1, 89 * n + 100):
            if lent >= 0:
                v.write(f"{n} rows, {lent} bytes", words[: 8 * n], lent)
    for n in (1, 7, 9, 15, 23):
        v.write(f"{n} words", words[:n], 300)
    v.write("seven words, no byte", words[:7], 0)
    v.write("one row, no byte", words[:8], 0)
    v.write("three rows, bytes for two", words, 178)
    v.write("every number of digits, other columns", words[5:] + words[:5], 267)
    v.write("none in each column", [NONE] * 8, 89)


# ---- Lookups

LOOKUPS = ((NODE, "node"), (PROTO, "proto"), (EXTERN, "extern"), (PROTO_ROWS, "rows of proto"))


def looking_up(v):
    for root, library, files in ((RICH, FILES, "four files"), (FLAT, [file(1)] + SMALL, "one file"), (SMALL, [], "no file")):
        past = sum(r[0] == 12 for r in library) + 1
        for which, title in LOOKUPS:
            for doc in range(past):
                for number in (0, 1, 2, 3, 4, NONE - 1, NONE) if past > 2 else (0, 1, 3):
                    v.lookup(f"{title} {number} of document {doc}, {files}", root, library, doc, which, number)
            for doc in (past, past + 1, NONE):
                v.lookup(f"{title} 0 of document {doc}, {files}", root, library, doc, which, 0)


def all_cases():
    v = Vectors()
    for part in (fitting, lengths, one_column, edges, url_marks, order, counted, by_chance, reading_lines, writing_lines, looking_up):
        part(v)
    v.cut_short()
    return v.cases


def main():
    cases = all_cases()
    if len(sys.argv) > 1:
        label, frame, answer, rows = cases[int(sys.argv[1])]
        print(label)
        print(f"frame: {frame[:89].decode().split()}, then {frame[89:]!r}")
        for number, r in enumerate(rows):
            print(f"row {number}:", *r)
        print("answer:", answer.decode(), end="")
        return
    (CRATE / "stdin").write_bytes(b"".join(frame for _, frame, _, _ in cases))
    (CRATE / "stdout").write_bytes(b"".join(answer for _, _, answer, _ in cases))
    for tag, title in enumerate(("check", "read lines", "write lines", "lookup"), 1):
        print(f"{title}:", sum(int(answer[:11]) == tag for _, _, answer, _ in cases))


if __name__ == "__main__":
    main()
