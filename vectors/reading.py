"""Document 01 (Read lines, Write lines, Lines, Sheets, Lookups), read anew in plain Python: what the cases have to answer."""
import re

NONE = 4294967295
ROOT, LIBRARY, EXPANDED = range(3)
NODE, PROTO, EXTERN, PROTO_ROWS = range(4)


def checksum(numbers):
    """In which each number and its place count."""
    total = 0
    for n in numbers:
        total = (65599 * total + n + 1) % 4294967291
    return total


def rows_of(words):
    """Rows of eight; the last one is filled up with zeros."""
    filled = words + [0] * (-len(words) % 8)
    return [filled[i : i + 8] for i in range(0, len(filled), 8)]


# ---- Lines

NUMBER = re.compile(rb" *(0|[1-9][0-9]*)")


def line(numbers):
    """Eight numbers, each right-justified in 11 bytes, then byte 10."""
    return b"".join(b"%11d" % n for n in numbers) + b"\n"


def numbers_of(text):
    """The numbers of one line, or None where it is bad."""
    found = [NUMBER.fullmatch(text[i : i + 11]) for i in range(0, 88, 11)]
    if text[88:] != b"\n" or None in found:
        return None
    numbers = [int(f[1]) for f in found]
    return numbers if max(numbers) <= NONE else None


def read_lines(text, words):
    """Refusal, place, row count; the lent words as they are afterwards."""
    if len(text) % 89 != 0 or len(text) // 89 > len(words) // 8:
        return 12, 0, 0, words
    new = []
    for i in range(len(text) // 89):
        numbers = numbers_of(text[89 * i : 89 * i + 89])
        if numbers is None:
            return 13, i, 0, words
        new += numbers
    return 0, 0, len(new) // 8, new + words[len(new) :]


def write_lines(words, lent):
    """Refusal, byte count; the lent bytes as they are afterwards."""
    if len(words) % 8 != 0 or len(lent) < len(words) // 8 * 89:
        return 14, 0, lent
    text = b"".join(line(words[i : i + 8]) for i in range(0, len(words), 8))
    return 0, len(text), text + lent[len(text) :]


# ---- Sheets: the columns of each kind. A row fits if one of its kind's alternatives does, column by column.

def one_of(*numbers):
    return lambda n: n in numbers


def name(n):
    """A name or an id: below none."""
    return n < NONE


def any_word(n):
    """A header number, a payload, a count; or a name or an id that may be none."""
    return True


zero = one_of(0)
tag = one_of(*range(42))
flag = one_of(0, 1)
VALUE = [tag, one_of(1, 2), any_word]
NO_VALUE = [zero, zero, zero]


def columns(*given):
    """What columns a to g hold; those that are not named are unused."""
    return list(given) + [zero] * (7 - len(given))


COLUMNS = {
    1: [columns(any_word)],
    2: [columns(name, any_word, one_of(0, 3)), columns(name, any_word, one_of(1, 2), name)],
    3: [[name, one_of(0), zero, flag] + VALUE, [name, one_of(1), name, flag] + NO_VALUE],
    4: [[one_of(0, 1, 2, 3), tag, name, any_word] + v for v in (VALUE, NO_VALUE)],
    5: [
        columns(one_of(0, 1, 2), name),
        columns(one_of(3), name, name, name, name, any_word, any_word),
        columns(one_of(4), any_word),
    ],
    6: [columns(one_of(0, 1, 2))],
    7: [columns(name)],
    8: [columns(name)],
    9: [columns(name)],
    10: [columns(name, any_word, flag)],
    11: [columns()],
    12: [columns(name)],
    13: [columns(name, any_word, any_word, any_word)],
    14: [columns(name, name, name)],
}


# ---- Sheets: what follows what

class Misfit(Exception):
    """The number of the first row that does not fit; the row count, where the sheet ends early."""


class Document:
    def __init__(self):
        self.nodes, self.protos, self.externs = [], [], []


class Sheet:
    """Reads a sheet row by row, from the top. Each of its methods reads one thing of the grammar."""

    def __init__(self, rows, form):
        self.rows, self.form, self.at = rows, form, 0

    def comes(self, kind):
        return self.at < len(self.rows) and self.rows[self.at][0] == kind

    def take(self, kind, fits=lambda r: True):
        if not self.comes(kind):
            raise Misfit(self.at)
        row = self.rows[self.at]
        shapes = COLUMNS[kind]
        if not any(all(f(n) for f, n in zip(shape, row[1:])) for shape in shapes) or not fits(row):
            raise Misfit(self.at)
        self.at += 1
        return row

    def unless_expanded(self, bad):
        return lambda row: self.form != EXPANDED or not bad(row)

    def value(self, row):
        if row[6] == 2:
            for _ in range(row[7]):
                self.take(9)

    def interface(self):
        self.value(self.take(4, self.unless_expanded(lambda r: r[4] != NONE and r[6] != 0)))

    def instance(self):
        row = self.take(13)
        for _ in range(row[2]):
            self.take(9)
        for _ in range(row[3]):
            self.take(5, lambda r: r[1] == 3)
        for _ in range(row[4]):
            self.take(14)

    def node(self):
        self.take(2, self.unless_expanded(lambda r: r[3] == 1))
        while self.comes(3):
            self.value(self.take(3))
        while self.comes(4):
            self.interface()
        while self.comes(5):
            self.take(5, self.unless_expanded(lambda r: r[1] not in (2, 3)))
        while self.comes(6):
            self.take(6)
        if self.comes(13):
            self.instance()

    def proto(self):
        self.take(7, self.unless_expanded(lambda r: True))
        while self.comes(4):
            self.interface()
        while self.comes(5):
            self.take(5)

    def extern(self):
        self.take(8)
        while self.comes(4):
            self.take(4, lambda r: r[6] == 0)
        while self.comes(10):
            # Sheets given to Expand keep 0 in c; an expanded document takes 0 or 1 (document 02, wish 1).
            self.take(10, lambda r: r[3] == 0 or self.form == EXPANDED)

    def document(self):
        found = Document()
        self.take(1)
        while self.comes(2):
            found.nodes.append(self.at)
            self.node()
        while self.comes(7):
            start = self.at
            self.proto()
            found.protos.append((start, self.at))
        while self.comes(8):
            found.externs.append(self.at)
            self.extern()
        self.take(11)
        while self.comes(5):
            self.take(5, self.unless_expanded(lambda r: r[1] == 1))
        return found

    def documents(self):
        """A root sheet is one document; a library is any number of files."""
        found = []
        if self.form != LIBRARY:
            found.append(self.document())
            if self.at < len(self.rows):
                raise Misfit(self.at)
        while self.at < len(self.rows):
            self.take(12)
            found.append(self.document())
        return found


def check(words, form):
    """Refusal and place. Words past the last whole row are no row: their refusal is its caller's."""
    try:
        Sheet(rows_of(words[: len(words) // 8 * 8]), form).documents()
    except Misfit as misfit:
        return 3, misfit.args[0]
    return 0, 0


def lookup(root, library, doc, which, number):
    """1 and the row, or 0 0; for a prototype's rows how many words they have, and their sum."""
    documents = Sheet(root, ROOT).documents() + Sheet(library, LIBRARY).documents()
    found = []
    if doc < len(documents):
        d = documents[doc]
        found = (d.nodes, [p[0] for p in d.protos], d.externs, d.protos)[which][number : number + 1]
    if which == PROTO_ROWS:
        sheet = library if doc else root
        words = [n for start, end in found for r in sheet[start:end] for n in r]
        return len(words), checksum(words)
    return (1, found[0]) if found else (0, 0)
