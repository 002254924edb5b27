#!/usr/bin/env python3
"""Expand, reckoned in plain Python from the text of documents 01 and 02: what a scene has to give.

It shares nothing with the Rattle code and its definitions; the check of a sheet is the one of vectors/reading.py.

    python3 scenes/reckon.py < CASES > ANSWERS      answer calls in the frames of compare/README.md
"""
import struct
import sys
import threading
from dataclasses import dataclass, field, replace
from pathlib import Path

sys.dont_write_bytecode = True  # no files beside the sources
sys.path.insert(0, str(Path(__file__).resolve().parent.parent / "vectors"))
from reading import LIBRARY, NONE, ROOT, check, rows_of

MOST_NODES, MOST_DEPTH, MOST_CHARGES, MOST_ROWS, MOST_BASES = 4_000_000, 512, 16_777_216, 1_048_576, 64


class Refused(Exception):
    """A refusal: its number and its two places."""

    def __init__(self, number, first=0, second=0):
        self.answer = (number, first, second)


# ---- A sheet that passed the check, as a tree


@dataclass
class Value:
    tag: int
    payload: int = None
    ids: list = None


@dataclass
class Field:
    name: int
    target: int  # of an IS; None for a value
    inferred: int
    value: Value


@dataclass
class Interface:
    access: int
    tag: int
    name: int
    target: int  # of an IS; None without
    value: Value


@dataclass
class Record:
    """What an instance leaves on the root of its body."""

    name: int
    roots: list
    routes: list
    associations: list


@dataclass
class Node:
    type_name: int
    def_name: int
    origin: int
    origin_id: int
    fields: list = field(default_factory=list)
    interfaces: list = field(default_factory=list)
    statements: list = field(default_factory=list)
    order: list = field(default_factory=list)
    record: Record = None


@dataclass
class Declared:
    """A PROTO, with the statements of its body, or an EXTERNPROTO, with its urls."""

    name: int
    interfaces: list
    rest: list


@dataclass
class Document:
    base: int
    header: int
    nodes: list
    protos: list
    externs: list
    top: list


BUILTIN, PROTO, EXTERN = 0, 1, 2  # origins
NODE_STATEMENT, PROTO_STATEMENT, EXTERN_STATEMENT, ROUTE_STATEMENT = 0, 1, 2, 3


class Reader:
    """Rows to documents. Statements and urls stay rows."""

    def __init__(self, rows):
        self.rows, self.at = rows, 0

    def next(self):
        self.at += 1
        return self.rows[self.at - 1]

    def while_kind(self, kind):
        while self.at < len(self.rows) and self.rows[self.at][0] == kind:
            yield self.next()

    def value(self, row):
        tag, kind, number = row[5:]
        if kind == 0:
            return None
        return Value(tag, payload=number) if kind == 1 else Value(tag, ids=[self.next()[1] for _ in range(number)])

    def interfaces(self):
        return [
            Interface(r[1], r[2], r[3], None if r[4] == NONE else r[4], self.value(r)) for r in self.while_kind(4)
        ]

    def node(self, row):
        node = Node(*row[1:5])
        node.fields = [Field(r[1], r[3] if r[2] else None, r[4], self.value(r)) for r in self.while_kind(3)]
        node.interfaces = self.interfaces()
        node.statements = list(self.while_kind(5))
        node.order = [r[1] for r in self.while_kind(6)]
        for r in self.while_kind(13):
            self.at += r[2] + r[3] + r[4]  # an instance of the input is dropped
        return node

    def document(self, base=None):
        header = self.next()[1]
        nodes = [self.node(r) for r in self.while_kind(2)]
        protos = [Declared(r[1], self.interfaces(), list(self.while_kind(5))) for r in self.while_kind(7)]
        externs = [Declared(r[1], self.interfaces(), list(self.while_kind(10))) for r in self.while_kind(8)]
        self.next()
        return Document(base, header, nodes, protos, externs, list(self.while_kind(5)))

    def files(self):
        return [self.document(r[1]) for r in self.while_kind(12)]


# ---- A tree as rows


def row(*columns):
    return (list(columns) + [0] * 8)[:8]


def id_rows(ids):
    return [row(9, i) for i in ids]


def value_columns(value):
    if value is None:
        return 0, 0, 0
    return (value.tag, 1, value.payload) if value.ids is None else (value.tag, 2, len(value.ids))


def value_ids(value):
    return value.ids if value and value.ids else []


def interface_rows(interfaces):
    for i in interfaces:
        yield row(4, i.access, i.tag, i.name, NONE if i.target is None else i.target, *value_columns(i.value))
        yield from id_rows(value_ids(i.value))


def node_rows(node):
    yield row(2, node.type_name, node.def_name, node.origin, node.origin_id)
    for f in node.fields:
        is_columns = (0, 0) if f.target is None else (1, f.target)
        yield row(3, f.name, *is_columns, f.inferred, *value_columns(f.value))
        yield from id_rows(value_ids(f.value))
    yield from interface_rows(node.interfaces)
    yield from node.statements
    yield from (row(6, mark) for mark in node.order)
    if node.record:
        r = node.record
        yield row(13, r.name, len(r.roots), len(r.routes), len(r.associations))
        yield from id_rows(r.roots)
        yield from r.routes
        yield from (row(14, *a) for a in r.associations)


# ---- Picks


def pick_in(document, fragment):
    """The first top-level Proto, by its name where there is a fragment."""
    for s in document.top:
        if s[1] == PROTO_STATEMENT:
            found = document.protos[s[2] : s[2] + 1]
            if fragment == NONE or (found and found[0].name == fragment):
                return s[2]
    return None


def picks_of(documents):
    """By document number and extern id: the document number and PROTO id that stand for it and the index of the url taken. Root
    externs come first, then those of each fetched document in order of first fetch (document 02, wish 12)."""
    newest = {d.base: n for n, d in enumerate(documents) if n > 0}  # of several files with the same base the last
    bases, picks, fetched = set(), {}, [0]
    for document in fetched:  # grows as it goes
        for number, extern in enumerate(documents[document].externs):
            for at, url in enumerate(extern.rest):
                base, fragment = url[1:3]
                if base not in bases and len(bases) == MOST_BASES:
                    continue
                bases.add(base)
                if base not in newest:
                    continue
                file = newest[base]
                if file not in fetched:
                    fetched.append(file)
                proto = pick_in(documents[file], fragment)
                if proto is not None:
                    picks[document, number] = (file, proto, at)
                    break
    return picks


# ---- The steps


class Scope:
    def __init__(self, entry, values):
        self.entry = entry  # kind, document, PROTO id, interface index, opening scope
        self.document = entry[1]
        self.map = {}
        self.values = values  # of the interfaces, in a body scope; None elsewhere
        self.associations = []


class Expansion:
    def __init__(self, documents, picks, max_nodes, max_depth, max_rows):
        self.documents, self.picks = documents, picks
        self.max_nodes, self.max_depth, self.max_rows = max_nodes, max_depth, max_rows
        self.charges = 0
        self.scopes, self.nodes, self.ledger, self.externs = [], [], [], []
        self.declared = {}
        self.top = []

    def charge(self, count=1):
        if self.charges + count > self.max_rows:
            raise Refused(10)
        self.charges += count

    def open(self, *entry, values=None):
        self.charge()
        self.scopes.append(Scope(entry, values))
        return len(self.scopes) - 1

    def run(self):
        self.charge(2)  # document, top
        scope = self.open(0, 0, 0, 0, 0)
        for s in self.documents[0].top:
            if s[1] == PROTO_STATEMENT:
                continue
            if s[1] == NODE_STATEMENT:
                s = row(5, 0, self.copy(scope, s[2], 0))
            elif s[1] == EXTERN_STATEMENT:
                s = row(5, 2, self.declare(0, s[2]))
            elif s[1] == ROUTE_STATEMENT:
                s = self.remap(scope, s)
            self.charge()
            self.top.append(s)

    def remap(self, scope, route):
        """A Route row with the ends that the scope's map has at this moment."""
        mapped = self.scopes[scope].map
        return route[:6] + [mapped.get(end, NONE) for end in route[6:]]

    def declare(self, document, number):
        """The output's id of an extern, which is declared once."""
        externs = self.documents[document].externs
        if number >= len(externs):
            raise Refused(4, document, number)
        if (document, number) not in self.declared:
            extern = externs[number]
            self.charge(1 + len(extern.interfaces) + len(extern.rest))
            self.declared[document, number] = len(self.externs)
            pick = self.picks.get((document, number))
            self.externs.append((extern, pick and pick[2]))
        return self.declared[document, number]

    def prototype(self, document, node):
        """Document and id of the PROTO that a node is an instance of; None for a plain node."""
        if node.origin == PROTO:
            return document, node.origin_id
        pick = self.picks.get((document, node.origin_id)) if node.origin == EXTERN else None
        return pick and pick[:2]

    def copy(self, scope, number, depth):
        """The output's id of a node in a scope. `depth` nodes are open around it."""
        s = self.scopes[scope]
        if number in s.map:
            return s.map[number]
        nodes = self.documents[s.document].nodes
        if number >= len(nodes):
            raise Refused(5, s.document, number)
        if depth + 1 > self.max_depth:
            raise Refused(9)
        prototype = self.prototype(s.document, nodes[number])
        if prototype:
            return self.instantiate(scope, number, nodes[number], *prototype, depth + 1)
        return self.copy_plain(scope, number, nodes[number], depth + 1)

    def copy_value(self, scope, value, depth):
        if value is None or value.ids is None:
            return value
        ids = []
        for number in value.ids:
            ids.append(self.copy(scope, number, depth))
            self.charge()
        return Value(value.tag, ids=ids)

    def bound_value(self, scope, target):
        """The value that an IS target has in a body scope, cloned."""
        value = (self.scopes[scope].values or {}).get(target)
        self.charge(len(value_ids(value)))
        return value

    def associate(self, scope, target, out, inner):
        self.charge()
        self.scopes[scope].associations.append((target, out, inner))

    def copy_plain(self, scope, number, node, depth):
        s = self.scopes[scope]
        if len(self.nodes) >= self.max_nodes:
            raise Refused(8)
        self.charge(2)  # row, map entry
        out = len(self.nodes)
        new = Node(node.type_name, node.def_name, node.origin, node.origin_id)
        self.nodes.append(new)
        self.ledger.append((scope, s.document, number))
        s.map[number] = out
        if node.origin == EXTERN:
            new.origin_id = self.declare(s.document, node.origin_id)
        in_body = s.values is not None

        fields_kept = []
        for f in node.fields:
            if f.target is None:
                f = replace(f, value=self.copy_value(scope, f.value, depth))
            else:
                self.associate(scope, f.target, out, f.name)
                if in_body:
                    value = self.bound_value(scope, f.target)
                    f = value and replace(f, target=None, value=value)
            fields_kept.append(f is not None)
            if f:
                self.charge()
                new.fields.append(f)

        for i in node.interfaces:
            if i.target is None:
                i = replace(i, value=self.copy_value(scope, i.value, depth))
            else:
                self.associate(scope, i.target, out, i.name)
                if in_body:
                    i = replace(i, target=None, value=self.bound_value(scope, i.target))
                else:
                    i = replace(i, value=None)
            self.charge()
            new.interfaces.append(i)

        statements_kept = []
        for statement in node.statements:
            kept = None
            if statement[1] == ROUTE_STATEMENT:
                kept = self.remap(scope, statement)
            elif statement[1] == EXTERN_STATEMENT:
                kept = row(5, 2, self.declare(s.document, statement[2]))
            statements_kept.append(kept is not None)
            if kept:
                self.charge()
                new.statements.append(kept)

        kept = {0: iter(fields_kept), 2: iter(statements_kept)}
        for mark in node.order:
            if mark == 1 or next(kept[mark], False):
                self.charge()
                new.order.append(mark)
        return out

    def given(self, scope, node, document, number, index, depth):
        """The value that an instance has for an interface of its PROTO, by the interface's place."""
        interface = self.documents[document].protos[number].interfaces[index]
        equal = [f for f in node.fields if f.name == interface.name]
        if equal and equal[-1].target is None:
            return self.copy_value(scope, equal[-1].value, depth)
        if equal:
            value = self.bound_value(scope, equal[-1].target)
            if value is not None:
                return value
        # No field of that name, or one bound by IS to something without a value.
        if interface.value is None:
            return None
        default = self.open(2, document, number, index, scope)
        return self.copy_value(default, interface.value, depth)

    def instantiate(self, scope, number, node, document, proto_number, depth):
        protos = self.documents[document].protos
        if proto_number >= len(protos):
            raise Refused(6, document, proto_number)
        proto = protos[proto_number]
        values = {}
        for index, interface in enumerate(proto.interfaces):
            value = self.given(scope, node, document, proto_number, index, depth)
            if value is not None:
                self.charge()
                values[interface.name] = value
        body = self.open(1, document, proto_number, 0, scope, values=values)
        root, roots, routes = None, [], []
        for s in proto.rest:
            if s[1] == NODE_STATEMENT:
                out = self.copy(body, s[2], depth)
                self.charge()  # the instance's map entry, or an extra root
                if root is None:
                    root = out
                    self.scopes[scope].map[number] = out
                else:
                    roots.append(out)
            elif s[1] == ROUTE_STATEMENT:
                self.charge()
                routes.append(s)
            elif s[1] == EXTERN_STATEMENT:
                self.declare(document, s[2])
        routes = [self.remap(body, r) for r in routes]
        if root is None:
            raise Refused(7, document, proto_number)
        self.charge()  # the record
        new = self.nodes[root]
        if node.def_name != NONE:
            new.def_name = node.def_name
        if new.record:
            roots, routes = roots + new.record.roots, routes + new.record.routes
        new.record = Record(proto.name, roots, routes, self.scopes[body].associations)
        return root

    def rows(self):
        """Out, in order."""
        rows = [row(1, self.documents[0].header)]
        for node in self.nodes:
            rows += node_rows(node)
        for extern, taken in self.externs:
            # The url that was taken has 1 in c, every other 0 (document 02, wish 1).
            urls = [row(*url[:3], int(at == taken)) for at, url in enumerate(extern.rest)]
            rows += [row(8, extern.name), *interface_rows(extern.interfaces), *urls]
        return rows + [row(11)] + self.top


def needed(max_nodes, max_depth, max_rows):
    """The words of out, ledger, scopes and work that refusal 1 asks for."""
    return 8 * max_rows, 3 * max_nodes, 5 * max_rows, 16 * max_rows + 64 * (max_depth + 1)


def expand(root, library, max_nodes, max_depth, max_rows, lent=None):
    """The seven numbers of the answer, out's rows, the ledger's triples and the scopes' entries. Sheets are words."""
    try:
        need = needed(max_nodes, max_depth, max_rows)
        short = any(have < want for have, want in zip(lent or need, need))
        if max_nodes > MOST_NODES or max_depth > MOST_DEPTH or max_rows > MOST_CHARGES or short:
            raise Refused(1)
        if any(len(sheet) % 8 or len(sheet) // 8 > MOST_ROWS for sheet in (root, library)):
            raise Refused(2)
        for number, (sheet, form) in enumerate([(root, ROOT), (library, LIBRARY)]):
            refusal, place = check(sheet, form)
            if refusal:
                raise Refused(3, number, place)
        documents = [Reader(rows_of(root)).document()] + Reader(rows_of(library)).files()
        run = Expansion(documents, picks_of(documents), max_nodes, max_depth, max_rows)
        run.run()
    except Refused as refused:
        return (*refused.answer, 0, 0, 0, 0), [], [], []
    rows = run.rows()
    counts = len(run.nodes), len(run.scopes), run.charges, len(rows)
    return (0, 0, 0, *counts), rows, run.ledger, [s.entry for s in run.scopes]


# ---- Frames

MAGIC = 0x4C554845
PATTERNS = 0x5A000000, 0x5B000000, 0x5C000000


def answer_frames(cases, answers):
    """Cases and answers in the frames of compare/README.md."""
    while head := cases.read(40):
        _, nodes, depth, rows, root_words, library_words, *lent = struct.unpack("<10I", head)
        root = list(struct.unpack(f"<{root_words}I", cases.read(4 * root_words)))
        library = list(struct.unpack(f"<{library_words}I", cases.read(4 * library_words)))
        answer, *lists = expand(root, library, nodes, depth, rows, lent)
        words = [MAGIC, *answer]
        for entries, first, length in zip(lists, PATTERNS, lent):
            written = [n for entry in entries for n in entry]
            words += written + [first + i for i in range(len(written), length)]
        answers.write(struct.pack(f"<{len(words)}I", *words))


def deep(work):
    """Runs `work` where copies may nest 512 deep."""
    sys.setrecursionlimit(100_000)
    threading.stack_size(256 << 20)
    failed = []

    def run():
        try:
            work()
        except BaseException as error:
            failed.append(error)

    thread = threading.Thread(target=run)
    thread.start()
    thread.join()
    if failed:
        raise failed[0]


if __name__ == "__main__":
    deep(lambda: answer_frames(sys.stdin.buffer, sys.stdout.buffer))
