//! The check of a sheet by recursive descent, and its tree. A failure is the first row that doesn't fit, or the row count
//! where the sheet ends early.

use crate::rows::*;
use crate::tree::*;

type Fit<T> = Result<T, usize>;

/// The tree of a root sheet.
pub fn root(words: &[u32]) -> Fit<Doc> {
    document(words, false)
}

/// The tree of a document, whose urls may be marked or not.
pub fn document(words: &[u32], marks: bool) -> Fit<Doc> {
    let rows = rows_of(words);
    let mut at = Cursor { rows: &rows, next: 0, marks };
    let doc = at.document()?;
    at.end()?;
    Ok(doc)
}

/// The files of a library sheet.
pub fn library(words: &[u32]) -> Fit<Vec<File>> {
    files(words, false)
}

/// The files of a sheet, whose urls may be marked or not.
pub fn files(words: &[u32], marks: bool) -> Fit<Vec<File>> {
    let rows = rows_of(words);
    let mut at = Cursor { rows: &rows, next: 0, marks };
    let mut files = Vec::new();
    while at.kind() == FILE {
        let row = at.take(FILE, |r| name(r[1]) && zero(&r[2..]))?;
        files.push(File { base: row[1], doc: at.document()? });
    }
    at.end()?;
    Ok(files)
}

fn zero(columns: &[u32]) -> bool {
    columns.iter().all(|w| *w == 0)
}

/// A name or an id.
fn name(word: u32) -> bool {
    word != NONE
}

fn or_none(word: u32) -> Option<u32> {
    (word != NONE).then_some(word)
}

/// Columns e, f, g hold a value of class 0, 1 or 2.
fn value_fits(r: &Row) -> bool {
    match r[6] {
        0 => r[5] == 0 && r[7] == 0,
        1 | 2 => r[5] < TAGS,
        _ => false,
    }
}

fn field_fits(r: &Row) -> bool {
    let binding = match r[2] {
        0 => r[3] == 0 && r[6] != 0,
        1 => name(r[3]) && r[6] == 0,
        _ => false,
    };
    name(r[1]) && binding && r[4] <= 1 && value_fits(r)
}

fn interface_fits(r: &Row) -> bool {
    r[1] <= 3 && r[2] < TAGS && name(r[3]) && value_fits(r)
}

fn statement_fits(r: &Row) -> bool {
    match r[1] {
        0..=2 => name(r[2]) && zero(&r[3..]),
        3 => r[2..6].iter().all(|w| name(*w)),
        4 => zero(&r[3..]),
        _ => false,
    }
}

fn node_fits(r: &Row) -> bool {
    let origin = match r[3] {
        0 | 3 => r[4] == 0,
        1 | 2 => name(r[4]),
        _ => false,
    };
    name(r[1]) && origin && zero(&r[5..])
}

struct Cursor<'a> {
    rows: &'a [Row],
    next: usize,
    /// Whether urls may be marked.
    marks: bool,
}

impl Cursor<'_> {
    /// The kind of the next row, 0 at the end.
    fn kind(&self) -> u32 {
        self.rows.get(self.next).map_or(0, |r| r[0])
    }

    /// The next row, if it is of this kind and fits.
    fn take(&mut self, kind: u32, fits: impl Fn(&Row) -> bool) -> Fit<Row> {
        match self.rows.get(self.next) {
            Some(r) if r[0] == kind && fits(r) => {
                self.next += 1;
                Ok(*r)
            }
            _ => Err(self.next),
        }
    }

    fn end(&self) -> Fit<()> {
        if self.next == self.rows.len() {
            Ok(())
        } else {
            Err(self.next)
        }
    }

    fn document(&mut self) -> Fit<Doc> {
        let mut doc = Doc { header: self.take(DOCUMENT, |r| zero(&r[2..]))?[1], ..Doc::default() };
        while self.kind() == NODE {
            doc.nodes.push(self.node()?);
        }
        while self.kind() == PROTO {
            let name = self.take(PROTO, |r| name(r[1]) && zero(&r[2..]))?[1];
            let interfaces = self.interfaces(interface_fits)?;
            let body = self.statements()?;
            doc.protos.push(Proto { name, interfaces, body });
        }
        while self.kind() == EXTERN {
            let name = self.take(EXTERN, |r| name(r[1]) && zero(&r[2..]))?[1];
            let interfaces = self.interfaces(|r| interface_fits(r) && r[6] == 0)?;
            let urls = self.urls()?;
            doc.externs.push(Extern { name, interfaces, urls });
        }
        self.take(TOP, |r| zero(&r[1..]))?;
        doc.top = self.statements()?;
        Ok(doc)
    }

    fn node(&mut self) -> Fit<Node> {
        let r = self.take(NODE, node_fits)?;
        let origin = match r[3] {
            0 => Origin::Builtin,
            1 => Origin::Proto(r[4]),
            2 => Origin::Extern(r[4]),
            _ => Origin::Unknown,
        };
        let mut node = Node::new(r[1], origin);
        node.def = or_none(r[2]);
        while self.kind() == FIELD {
            let r = self.take(FIELD, field_fits)?;
            let binding = match self.value(&r)? {
                Some(value) => Binding::Value(value),
                None => Binding::Is(r[3]),
            };
            node.fields.push(Field { name: r[1], binding, inferred: r[4] });
        }
        node.interfaces = self.interfaces(interface_fits)?;
        node.statements = self.statements()?;
        while self.kind() == ORDER {
            node.order.push(self.take(ORDER, |r| r[1] <= 2 && zero(&r[2..]))?[1]);
        }
        if self.kind() == INSTANCE {
            node.instance = Some(self.record()?);
        }
        Ok(node)
    }

    fn record(&mut self) -> Fit<Record> {
        let r = self.take(INSTANCE, |r| name(r[1]) && zero(&r[5..]))?;
        let mut record = Record { name: r[1], roots: self.ids(r[2])?, routes: Vec::new(), associations: Vec::new() };
        for _ in 0..r[3] {
            let row = self.take(STATEMENT, |r| r[1] == 3 && statement_fits(r))?;
            record.routes.push(route(&row));
        }
        for _ in 0..r[4] {
            let row = self.take(ASSOCIATION, |r| r[1..4].iter().all(|w| name(*w)) && zero(&r[4..]))?;
            record.associations.push([row[1], row[2], row[3]]);
        }
        Ok(record)
    }

    fn interfaces(&mut self, fits: impl Fn(&Row) -> bool) -> Fit<Vec<Interface>> {
        let mut list = Vec::new();
        while self.kind() == INTERFACE {
            let r = self.take(INTERFACE, &fits)?;
            let value = self.value(&r)?;
            list.push(Interface { access: r[1], tag: r[2], name: r[3], is: or_none(r[4]), value });
        }
        Ok(list)
    }

    fn statements(&mut self) -> Fit<Vec<Statement>> {
        let mut list = Vec::new();
        while self.kind() == STATEMENT {
            let r = self.take(STATEMENT, statement_fits)?;
            list.push(match r[1] {
                0 => Statement::Node(r[2]),
                1 => Statement::Proto(r[2]),
                2 => Statement::Extern(r[2]),
                3 => Statement::Route(route(&r)),
                _ => Statement::Other(r[2]),
            });
        }
        Ok(list)
    }

    fn urls(&mut self) -> Fit<Vec<(u32, Option<u32>)>> {
        let mut list = Vec::new();
        while self.kind() == URL {
            let most = self.marks as u32;
            let r = self.take(URL, |r| name(r[1]) && r[3] <= most && zero(&r[4..]))?;
            list.push((r[1], or_none(r[2])));
        }
        Ok(list)
    }

    fn value(&mut self, r: &Row) -> Fit<Option<Value>> {
        Ok(match r[6] {
            0 => None,
            1 => Some(Value::Payload { tag: r[5], number: r[7] }),
            _ => Some(Value::Nodes { tag: r[5], ids: self.ids(r[7])? }),
        })
    }

    /// That many id rows.
    fn ids(&mut self, count: u32) -> Fit<Vec<u32>> {
        let mut ids = Vec::new();
        for _ in 0..count {
            ids.push(self.take(ID, |r| name(r[1]) && zero(&r[2..]))?[1]);
        }
        Ok(ids)
    }
}

fn route(r: &Row) -> Route {
    Route { names: [r[2], r[3], r[4], r[5]], from: or_none(r[6]), to: or_none(r[7]) }
}
