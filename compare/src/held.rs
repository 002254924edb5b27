//! One call of the library with every lent word looked at: what is written, what must stay, and the words around each slice.

use crate::call::{head, Answer, Call, Expanded};
use crate::frames::{GARBAGE, LEDGER, OUT, SCOPES};
use crate::linked::{self, Lent};
use crate::pairs::Words;

/// Words of an answer.
pub const ANSWER: usize = 7;
/// What an answer's words are before the call; no count or refusal is this number.
pub const UNANSWERED: u32 = 0xA5A5_A5A5;
/// Words before and after each lent slice, which no call may write.
const AROUND: usize = 32;
const GUARD: u32 = 0x6B6B_6B6B;

/// A slice with words around it that must stay.
#[derive(Default)]
struct Guarded(Vec<u32>);

impl Guarded {
    /// A slice of this length; its words are what they were where they are not set here.
    fn lend(&mut self, length: usize) {
        self.0.resize(length + 2 * AROUND, GUARD);
        self.0[..AROUND].fill(GUARD);
        self.0[AROUND + length..].fill(GUARD);
    }

    fn fill(&mut self, word: impl Fn(u32) -> u32) {
        self.slice().iter_mut().enumerate().for_each(|(i, w)| *w = word(i as u32));
    }

    fn slice(&mut self) -> &mut [u32] {
        let end = self.0.len() - AROUND;
        &mut self.0[AROUND..end]
    }

    fn words(&self) -> &[u32] {
        &self.0[AROUND..self.0.len() - AROUND]
    }

    fn kept_around(&self) -> bool {
        let end = self.0.len() - AROUND;
        self.0[..AROUND].iter().chain(&self.0[end..]).all(|w| *w == GUARD)
    }
}

/// The slices that are lent, reused from call to call.
#[derive(Default)]
pub struct Slices {
    root: Guarded,
    library: Guarded,
    out: Guarded,
    ledger: Guarded,
    scopes: Guarded,
    work: Guarded,
    answer: Guarded,
    calls: u64,
}

impl Slices {
    /// One call with an answer of this many words; how it parts from the expected answer. Work holds garbage before every
    /// other call, and what the last call left before the rest.
    pub fn differs(&mut self, call: &Call, expected: &Answer, answer_words: usize) -> Option<String> {
        let result = self.call(call, answer_words);
        let refused = answer_words < ANSWER;
        self.answered(result, if refused { None } else { Some(expected) })
            .or_else(|| self.written(if refused { None } else { expected.as_ref().ok() }))
            .or_else(|| self.kept(call))
    }

    /// What stands in the slices after a call that did not part from its answer: the answer, and what it says is written.
    pub fn words(&self) -> Words {
        let mut answer = [0; ANSWER];
        answer.copy_from_slice(&self.answer.words()[..ANSWER]);
        let [.., nodes, scopes, _, rows] = answer.map(|n| n as usize);
        let written = [(&self.out, 8 * rows), (&self.ledger, 3 * nodes), (&self.scopes, 5 * scopes)];
        Words { answer, slices: written.map(|(slice, length)| slice.words()[..length].to_vec()) }
    }

    fn call(&mut self, call: &Call, answer_words: usize) -> u32 {
        for (slice, sheet) in [(&mut self.root, &call.root), (&mut self.library, &call.library)] {
            slice.lend(sheet.len());
            slice.slice().copy_from_slice(sheet);
        }
        let lent = call.lent.map(|n| n as usize);
        for (slice, length, first) in
            [(&mut self.out, lent[0], OUT), (&mut self.ledger, lent[1], LEDGER), (&mut self.scopes, lent[2], SCOPES)]
        {
            slice.lend(length);
            slice.fill(|i| first.wrapping_add(i));
        }
        self.work.lend(lent[3]);
        if self.calls % 2 == 0 {
            self.work.fill(|i| i.wrapping_mul(GARBAGE));
        }
        self.calls += 1;
        self.answer.lend(answer_words);
        self.answer.fill(|_| UNANSWERED);
        let mut lent = Lent {
            out: self.out.slice(),
            ledger: self.ledger.slice(),
            scopes: self.scopes.slice(),
            work: self.work.slice(),
            answer: self.answer.slice(),
        };
        linked::expand(call, self.root.words(), self.library.words(), &mut lent)
    }

    /// The result and the answer's words; without an answer expected, refusal 1 and no word written.
    fn answered(&self, result: u32, expected: Option<&Answer>) -> Option<String> {
        let head = match expected {
            None => [1, UNANSWERED, UNANSWERED, UNANSWERED, UNANSWERED, UNANSWERED, UNANSWERED],
            Some(answer) => head(answer),
        };
        if result != head[0] {
            return Some(format!("result: expected {}, got {result}", head[0]));
        }
        let names = ["refusal", "first place", "second place", "nodes", "scopes", "charges", "rows of out"];
        self.answer.words().iter().enumerate().find_map(|(i, got)| {
            let must = if i < ANSWER && expected.is_some() { head[i] } else { UNANSWERED };
            let name = names.get(i).copied().unwrap_or("answer past its words");
            (*got != must).then(|| format!("{name}: expected {must}, got {got}"))
        })
    }

    /// Every word of out, ledger and scopes.
    fn written(&self, expected: Option<&Expanded>) -> Option<String> {
        let (out, ledger, scopes) = match expected {
            Some(e) => (e.out.as_flattened(), e.ledger.as_flattened(), e.scopes.as_flattened()),
            None => (&[][..], &[][..], &[][..]),
        };
        let parts = [
            ("out", &self.out, out, OUT),
            ("ledger", &self.ledger, ledger, LEDGER),
            ("scopes", &self.scopes, scopes, SCOPES),
        ];
        parts.into_iter().find_map(|(name, slice, written, first)| {
            let must = |i: usize| written.get(i).copied().unwrap_or(first.wrapping_add(i as u32));
            let got = slice.words();
            let part = |at: usize| Some(format!("{name} word {at}: expected {}, got {}", must(at), got[at]));
            if got.len() < written.len() || got[..written.len()] != *written {
                return part((0..got.len()).find(|i| got[*i] != must(*i))?);
            }
            let rest = got[written.len()..].iter().zip(written.len() as u32..);
            let (_, at) = rest.into_iter().find(|(word, i)| **word != first.wrapping_add(*i))?;
            part(at as usize)
        })
    }

    /// The sheets, and the words around every slice.
    fn kept(&self, call: &Call) -> Option<String> {
        if self.root.words() != call.root || self.library.words() != call.library {
            return Some("a sheet was written".into());
        }
        let all = [&self.root, &self.library, &self.out, &self.ledger, &self.scopes, &self.work, &self.answer];
        let names = ["root", "library", "out", "ledger", "scopes", "work", "answer"];
        let at = all.iter().position(|s| !s.kept_around())?;
        Some(format!("a word beside {} was written", names[at]))
    }
}
