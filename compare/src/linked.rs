//! The linked static library, by its C interface. `build.rs` links `libluhetami.a` where the feature `library` is on.

use crate::call::Call;

/// Whether a library is linked.
pub const LINKED: bool = cfg!(feature = "library");

/// The slices lent to one call.
#[cfg_attr(not(feature = "library"), allow(dead_code))]
pub struct Lent<'a> {
    pub out: &'a mut [u32],
    pub ledger: &'a mut [u32],
    pub scopes: &'a mut [u32],
    pub work: &'a mut [u32],
    pub answer: &'a mut [u32],
}

#[cfg(feature = "library")]
extern "C" {
    fn luhetami_expand(
        root: *const u32,
        root_length: usize,
        library: *const u32,
        library_length: usize,
        max_nodes: u32,
        max_depth: u32,
        max_rows: u32,
        out: *mut u32,
        out_length: usize,
        ledger: *mut u32,
        ledger_length: usize,
        scopes: *mut u32,
        scopes_length: usize,
        work: *mut u32,
        work_length: usize,
        answer: *mut u32,
        answer_length: usize,
    ) -> u32;
    fn luhetami_moving(
        counts: *const u64,
        counts_length: usize,
        width: u32,
        totals: *mut u64,
        totals_length: usize,
        answer: *mut u64,
        answer_length: usize,
    ) -> u32;
    fn luhetami_pages(
        document: *const u32,
        document_length: usize,
        ledger: *const u32,
        ledger_length: usize,
        text: *mut u8,
        text_length: usize,
        work: *mut u32,
        work_length: usize,
        answer: *mut u64,
        answer_length: usize,
    ) -> u32;
    fn luhetami_count(
        documents: *const u32,
        documents_length: usize,
        protocols: *const u32,
        protocols_length: usize,
        names: *const u32,
        names_length: usize,
        totals: *mut u64,
        totals_length: usize,
        work: *mut u32,
        work_length: usize,
        answer: *mut u64,
        answer_length: usize,
    ) -> u32;
    fn luhetami_check(words: *const u32, words_length: usize, form: u32, answer: *mut u64, answer_length: usize)
        -> u32;
    fn luhetami_write_lines(
        words: *const u32,
        words_length: usize,
        lines: *mut u8,
        lines_length: usize,
        answer: *mut u32,
        answer_length: usize,
    ) -> u32;
}

/// One call of the library with a call's limits and these sheets.
#[cfg(feature = "library")]
pub fn expand(call: &Call, root: &[u32], library: &[u32], lent: &mut Lent) -> u32 {
    // Safety: every pointer comes with the length of its own slice, and the slices do not overlap.
    unsafe {
        luhetami_expand(
            root.as_ptr(),
            root.len(),
            library.as_ptr(),
            library.len(),
            call.max_nodes,
            call.max_depth,
            call.max_rows,
            lent.out.as_mut_ptr(),
            lent.out.len(),
            lent.ledger.as_mut_ptr(),
            lent.ledger.len(),
            lent.scopes.as_mut_ptr(),
            lent.scopes.len(),
            lent.work.as_mut_ptr(),
            lent.work.len(),
            lent.answer.as_mut_ptr(),
            lent.answer.len(),
        )
    }
}

#[cfg(not(feature = "library"))]
pub fn expand(_: &Call, _: &[u32], _: &[u32], _: &mut Lent) -> u32 {
    unreachable!("no library is linked")
}

/// One call of the library's moving totals.
#[cfg(feature = "library")]
pub fn moving(counts: &[u64], width: u32, totals: &mut [u64], answer: &mut [u64]) -> u32 {
    // Safety: every pointer comes with the length of its own slice, and the slices do not overlap.
    unsafe {
        luhetami_moving(
            counts.as_ptr(),
            counts.len(),
            width,
            totals.as_mut_ptr(),
            totals.len(),
            answer.as_mut_ptr(),
            answer.len(),
        )
    }
}

#[cfg(not(feature = "library"))]
pub fn moving(_: &[u64], _: u32, _: &mut [u64], _: &mut [u64]) -> u32 {
    unreachable!("no library is linked")
}

/// One call of the library's pages.
#[cfg(feature = "library")]
pub fn pages(document: &[u32], ledger: &[u32], text: &mut [u8], work: &mut [u32], answer: &mut [u64]) -> u32 {
    // Safety: every pointer comes with the length of its own slice, and the slices do not overlap.
    unsafe {
        luhetami_pages(
            document.as_ptr(),
            document.len(),
            ledger.as_ptr(),
            ledger.len(),
            text.as_mut_ptr(),
            text.len(),
            work.as_mut_ptr(),
            work.len(),
            answer.as_mut_ptr(),
            answer.len(),
        )
    }
}

#[cfg(not(feature = "library"))]
pub fn pages(_: &[u32], _: &[u32], _: &mut [u8], _: &mut [u32], _: &mut [u64]) -> u32 {
    unreachable!("no library is linked")
}

/// One call of the library's counts.
#[cfg(feature = "library")]
pub fn count(
    documents: &[u32],
    protocols: &[u32],
    names: &[u32],
    totals: &mut [u64],
    work: &mut [u32],
    answer: &mut [u64],
) -> u32 {
    // Safety: every pointer comes with the length of its own slice, and the slices do not overlap.
    unsafe {
        luhetami_count(
            documents.as_ptr(),
            documents.len(),
            protocols.as_ptr(),
            protocols.len(),
            names.as_ptr(),
            names.len(),
            totals.as_mut_ptr(),
            totals.len(),
            work.as_mut_ptr(),
            work.len(),
            answer.as_mut_ptr(),
            answer.len(),
        )
    }
}

#[cfg(not(feature = "library"))]
pub fn count(_: &[u32], _: &[u32], _: &[u32], _: &mut [u64], _: &mut [u32], _: &mut [u64]) -> u32 {
    unreachable!("no library is linked")
}

/// One call of the library's check of a sheet.
#[cfg(feature = "library")]
pub fn check(words: &[u32], form: u32, answer: &mut [u64]) -> u32 {
    // Safety: every pointer comes with the length of its own slice, and the slices do not overlap.
    unsafe { luhetami_check(words.as_ptr(), words.len(), form, answer.as_mut_ptr(), answer.len()) }
}

#[cfg(not(feature = "library"))]
pub fn check(_: &[u32], _: u32, _: &mut [u64]) -> u32 {
    unreachable!("no library is linked")
}

/// One call of the library's Write lines.
#[cfg(feature = "library")]
pub fn write_lines(words: &[u32], lines: &mut [u8], answer: &mut [u32]) -> u32 {
    // Safety: every pointer comes with the length of its own slice, and the slices do not overlap.
    unsafe {
        luhetami_write_lines(
            words.as_ptr(),
            words.len(),
            lines.as_mut_ptr(),
            lines.len(),
            answer.as_mut_ptr(),
            answer.len(),
        )
    }
}

#[cfg(not(feature = "library"))]
pub fn write_lines(_: &[u32], _: &mut [u8], _: &mut [u32]) -> u32 {
    unreachable!("no library is linked")
}
