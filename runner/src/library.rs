//! The library's functions, by its C interface (include/luhetami.h).

use crate::answer::Answer;
use crate::memory::Zeroed;

pub const ROW_WORDS: usize = 8;
pub const ROW_BYTES: usize = 89;
pub const MOST_NODES: u32 = 4_000_000;
pub const MOST_DEPTH: u32 = 512;
pub const MOST_ROWS: u32 = 16_777_216;
pub const MOST_SHEET_ROWS: usize = 1_048_576;

/// The refusal of a K that is too small.
pub const TOO_MANY_ROWS: u32 = 10;

mod c {
    extern "C" {
        pub fn luhetami_expand(
            root: *const u32,
            root_len: usize,
            library: *const u32,
            library_len: usize,
            max_nodes: u32,
            max_depth: u32,
            max_rows: u32,
            out: *mut u32,
            out_len: usize,
            ledger: *mut u32,
            ledger_len: usize,
            scopes: *mut u32,
            scopes_len: usize,
            work: *mut u32,
            work_len: usize,
            answer: *mut u32,
            answer_len: usize,
        ) -> u32;
        pub fn luhetami_read_lines(
            lines: *const u8,
            lines_len: usize,
            words: *mut u32,
            words_len: usize,
            answer: *mut u32,
            answer_len: usize,
        ) -> u32;
        pub fn luhetami_write_lines(
            words: *const u32,
            words_len: usize,
            lines: *mut u8,
            lines_len: usize,
            answer: *mut u32,
            answer_len: usize,
        ) -> u32;
        pub fn luhetami_moving(
            counts: *const u64,
            counts_len: usize,
            width: u32,
            totals: *mut u64,
            totals_len: usize,
            answer: *mut u64,
            answer_len: usize,
        ) -> u32;
        pub fn luhetami_check(
            words: *const u32,
            words_len: usize,
            form: u32,
            answer: *mut u64,
            answer_len: usize,
        ) -> u32;
        pub fn luhetami_count(
            documents: *const u32,
            documents_len: usize,
            protocols: *const u32,
            protocols_len: usize,
            names: *const u32,
            names_len: usize,
            totals: *mut u64,
            totals_len: usize,
            work: *mut u32,
            work_len: usize,
            answer: *mut u64,
            answer_len: usize,
        ) -> u32;
        pub fn luhetami_pages(
            document: *const u32,
            document_len: usize,
            ledger: *const u32,
            ledger_len: usize,
            text: *mut u8,
            text_len: usize,
            work: *mut u32,
            work_len: usize,
            answer: *mut u64,
            answer_len: usize,
        ) -> u32;
    }
}

/// The limits N, D and K.
pub struct Limits {
    pub nodes: u32,
    pub depth: u32,
    pub rows: u32,
}

/// What is lent to an expansion.
pub struct Room {
    pub out: Zeroed,
    pub ledger: Zeroed,
    pub scopes: Zeroed,
    pub work: Zeroed,
}

impl Room {
    /// What the limits ask for. A limit over its cap is refused whatever is lent, so no more is lent than the caps ask for.
    pub fn new(limits: &Limits) -> Result<Room, String> {
        let nodes = limits.nodes.min(MOST_NODES) as usize;
        let depth = limits.depth.min(MOST_DEPTH) as usize;
        let rows = limits.rows.min(MOST_ROWS) as usize;
        Ok(Room {
            out: Zeroed::new(8 * rows)?,
            ledger: Zeroed::new(3 * nodes)?,
            scopes: Zeroed::new(5 * rows)?,
            work: Zeroed::new(16 * rows + 64 * (depth + 1))?,
        })
    }
}

/// Expands a root sheet with a library sheet.
pub fn expand(root: &[u32], library: &[u32], limits: &Limits, room: &mut Room) -> Answer {
    let mut answer = [0; 7];
    // Safety: each pointer comes with the length of its own slice; those that are written are borrowed alone.
    unsafe {
        c::luhetami_expand(
            root.as_ptr(),
            root.len(),
            library.as_ptr(),
            library.len(),
            limits.nodes,
            limits.depth,
            limits.rows,
            room.out.as_mut_ptr(),
            room.out.len(),
            room.ledger.as_mut_ptr(),
            room.ledger.len(),
            room.scopes.as_mut_ptr(),
            room.scopes.len(),
            room.work.as_mut_ptr(),
            room.work.len(),
            answer.as_mut_ptr(),
            answer.len(),
        )
    };
    Answer(answer)
}

/// Reads lines into words. The row count, or the refusal and its place.
pub fn read_lines(lines: &[u8], words: &mut [u32]) -> Result<usize, (u32, u32)> {
    let mut answer = [0; 3];
    // Safety: as in `expand`.
    let refusal = unsafe {
        c::luhetami_read_lines(
            lines.as_ptr(),
            lines.len(),
            words.as_mut_ptr(),
            words.len(),
            answer.as_mut_ptr(),
            answer.len(),
        )
    };
    match refusal {
        0 => Ok(answer[2] as usize),
        _ => Err((refusal, answer[1])),
    }
}

/// Writes words as lines. The byte count, or the refusal.
pub fn write_lines(words: &[u32], lines: &mut [u8]) -> Result<usize, u32> {
    let mut answer = [0; 3];
    // Safety: as in `expand`.
    let refusal = unsafe {
        c::luhetami_write_lines(
            words.as_ptr(),
            words.len(),
            lines.as_mut_ptr(),
            lines.len(),
            answer.as_mut_ptr(),
            answer.len(),
        )
    };
    match refusal {
        0 => Ok(answer[2] as usize),
        _ => Err(refusal),
    }
}

/// What the moving totals answered.
pub struct Moving {
    pub refusal: u32,
    pub totals: u64,
    pub largest: u64,
    pub place: u64,
}

/// The moving totals of a run of counts.
pub fn moving(counts: &[u64], width: u32, totals: &mut [u64]) -> Moving {
    let mut answer = [0; 4];
    // Safety: as in `expand`.
    let refusal = unsafe {
        c::luhetami_moving(
            counts.as_ptr(),
            counts.len(),
            width,
            totals.as_mut_ptr(),
            totals.len(),
            answer.as_mut_ptr(),
            answer.len(),
        )
    };
    let [_, totals, largest, place] = answer;
    Moving { refusal, totals, largest, place }
}

/// What writing the pages answered.
pub struct Paged {
    pub refusal: u32,
    pub bytes: u64,
}

/// The pages of an expanded document and its ledger.
pub fn pages(document: &[u32], ledger: &[u32], text: &mut [u8], work: &mut Zeroed) -> Paged {
    let mut answer = [0; 2];
    // Safety: as in `expand`.
    let refusal = unsafe {
        c::luhetami_pages(
            document.as_ptr(),
            document.len(),
            ledger.as_ptr(),
            ledger.len(),
            text.as_mut_ptr(),
            text.len(),
            work.as_mut_ptr(),
            work.len(),
            answer.as_mut_ptr(),
            answer.len(),
        )
    };
    Paged { refusal, bytes: answer[1] }
}

/// What counting answers.
pub struct Counted {
    pub refusal: u32,
}

/// The total of each name over documents, each under its protocol.
pub fn count(documents: &[u32], protocols: &[u32], names: &[u32], totals: &mut [u64], work: &mut Zeroed) -> Counted {
    let mut answer = [0; 2];
    // Safety: as in `expand`.
    let refusal = unsafe {
        c::luhetami_count(
            documents.as_ptr(),
            documents.len(),
            protocols.as_ptr(),
            protocols.len(),
            names.as_ptr(),
            names.len(),
            totals.as_mut_ptr(),
            totals.len(),
            work.as_mut_ptr(),
            work.len(),
            answer.as_mut_ptr(),
            answer.len(),
        )
    };
    Counted { refusal }
}

/// What a sheet is to be, by its number.
#[derive(Clone, Copy)]
pub enum Form {
    Root = 0,
    Library = 1,
    Expanded = 2,
    Documents = 3,
    Protos = 4,
}

impl Form {
    /// The form of a name that an option gives.
    pub fn named(name: &str) -> Option<Form> {
        match name {
            "root" => Some(Form::Root),
            "library" => Some(Form::Library),
            "expanded" => Some(Form::Expanded),
            "documents" => Some(Form::Documents),
            "protos" => Some(Form::Protos),
            _ => None,
        }
    }

    pub fn in_words(self) -> &'static str {
        match self {
            Form::Root => "a root sheet",
            Form::Library => "a library",
            Form::Expanded => "an expanded document",
            Form::Documents => "expanded documents one after another",
            Form::Protos => "protos without body statements",
        }
    }
}

/// The first row of a sheet that doesn't fit, or the row count where it ends early; nothing where it fits.
pub fn check(words: &[u32], form: Form) -> Option<usize> {
    let mut answer = [0; 2];
    // Safety: as in `expand`.
    let fits =
        unsafe { c::luhetami_check(words.as_ptr(), words.len(), form as u32, answer.as_mut_ptr(), answer.len()) };
    (fits == 0).then_some(answer[1] as usize)
}
