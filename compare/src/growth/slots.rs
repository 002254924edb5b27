//! Where the code looks for a key, so that a scene can be made whose keys meet: the slots of the journal's index, the words of
//! the tables of names and of fragments.

/// Names below this, exchanged, stay below it; 4294967295 is none.
const NAMES: u64 = 0xFFFF_0000;

/// The slots of the journal's index.
pub fn slots(max_rows: u32, max_depth: u32) -> u64 {
    max_rows as u64 - max_rows as u64 / 4 + 32 * (max_depth as u64 + 1)
}

/// An id with two of its digits exchanged; exchanged again, the id.
pub fn spread(id: u64) -> u64 {
    id % 4 + id / 4 % 128 * 512 + id / 512 % 128 * 4 + id / 65536 * 65536
}

/// The slot of a key: the place of a scope or family, or a document's number, and an id or name.
fn slot(slots: u64, place: u64, id: u64) -> u64 {
    (2 * place + spread(id)) % slots
}

/// The most keys that have one slot.
pub fn most_in_one(keys: &[[u32; 2]], slots: u64) -> usize {
    let mut counts = vec![0; slots as usize];
    for [place, id] in keys {
        counts[slot(slots, *place as u64, *id as u64) as usize] += 1;
    }
    counts.into_iter().max().unwrap_or(0)
}

/// The `i`-th name whose key, with a place, has a slot. Where the names of a slot are used up, those of the next follow.
pub fn name_at(slots: u64, place: u64, slot: u64, i: u64) -> u32 {
    let most = NAMES / slots;
    let (turn, i) = (i / most, i % most);
    let rest = (slot + turn + slots - 2 * place % slots) % slots;
    spread(rest + slots * i) as u32
}

/// The `i`-th name of a rest by a span, the rests in turn where the names of one are used up.
pub fn name_of_rest(span: u64, rest: u64, i: u64) -> u32 {
    let most = NAMES / span;
    let (turn, i) = (i / most, i % most);
    ((rest + turn) % span + span * i) as u32
}
