//! The crate's safe functions, called over a third copy of the lent memory. Their outcome is
//! turned back into what the model leaves: the five numbers of the answer, and a list of writes.

use crate::calls::{Call, Lent};
use crate::iteration::Iteration;
use crate::model::Answer;
use crate::twins::Arena;
use std::ops::Range;
use trieff::{Counts, Found, Refusal, Shape, Writes};

/// What stands for the number of `Refusal::Unknown`. The crate knows every number that a call may
/// give, so it differs from all that the model answers.
pub const UNKNOWN: u32 = u32::MAX;

/// What stands for the number of a look up that answers `Some(0)`. An absent key is `None`, so no
/// look up may. A value could not stand for it, since data of eight bytes can hold every one.
pub const SOME_ZERO: u32 = u32::MAX - 1;

/// The memory that is lent to the safe functions, and what they give besides.
pub struct Wrapper {
    pub arena: Arena,
    pub answer: Answer,
    /// The list that the `Writes` passed holds after the call.
    pub writes: Vec<Range<usize>>,
    pub iteration: Option<Iteration>,
    /// Holds the list of a store that was done before the call.
    earlier: Writes,
}

impl Wrapper {
    pub fn new() -> Wrapper {
        Wrapper {
            arena: Arena::default(),
            answer: Answer::default(),
            writes: Vec::new(),
            iteration: None,
            earlier: earlier_writes(),
        }
    }

    /// As `clone`, but without new memory for what is lent.
    pub fn copy_from(&mut self, other: &Wrapper) {
        self.arena.copy_from(&other.arena);
        self.answer = other.answer;
        self.writes.clone_from(&other.writes);
        self.iteration.clone_from(&other.iteration);
    }

    /// Makes the call. A store with writes is passed the list of an earlier store. Before a next
    /// key the iterator is tried with the same key.
    pub fn ask(&mut self, call: Call) {
        self.iteration = Iteration::of(call, &self.arena);
        self.writes.clear();
        if call.writes_len() == 0 {
            self.answer = ask_safe(call, self.arena.lent(), &mut Writes::new());
        } else {
            let mut writes = self.earlier.clone();
            self.answer = ask_safe(call, self.arena.lent(), &mut writes);
            self.writes.extend(writes.iter());
        }
    }

    /// Lays the list of a store that was done where the model leaves its own, so that the two are
    /// compared as memory.
    pub fn lay_writes(&mut self) {
        if self.answer.number == 0 {
            let list = &mut self.arena.words[self.arena.writes.clone()];
            for (numbers, write) in list.chunks_mut(2).zip(&self.writes) {
                numbers.copy_from_slice(&[narrowed(write.start), narrowed(write.len())]);
            }
        }
    }

    /// Whether a refused store with writes changed the list that it was passed.
    pub fn lost_writes(&self, call: Call) -> bool {
        let refused = call.writes_len() > 0 && self.answer.number > 0;
        refused && !self.earlier.iter().eq(self.writes.iter().cloned())
    }
}

/// The list of a store of two new nodes: four writes.
fn earlier_writes() -> Writes {
    let (mut image, mut writes) = ([0; 43], Writes::new());
    let shape = Shape { n: 3, a: 1, d: 1, min: 1, max: 3 };
    trieff::make(&mut image, shape, b"ABC").expect("the image has room for three nodes");
    trieff::store_writes(&mut image, &mut [0; 3], &[1, 0], 9, &mut writes)
        .expect("the image has room for two more nodes");
    writes
}

/// Makes the call by the crate's safe function, over slices.
fn ask_safe(call: Call, lent: Lent, writes: &mut Writes) -> Answer {
    let Lent { image, given, key, work, counts, .. } = lent;
    let mut counts = Counts::new(counts);
    let result = match call {
        Call::Make { n, a, d, min, max } => {
            trieff::make(image, Shape { n, a, d, min, max }, given).map(nothing)
        }
        Call::Check => trieff::check(image, work).map(nothing),
        Call::Count => trieff::count(image, work).map(value_of),
        Call::LookUp => trieff::look_up(image, given).map(present),
        Call::LookUpText => trieff::look_up_text(image, given).map(present),
        Call::Store { value } => trieff::store(image, work, given, value).map(changed),
        Call::StoreText { value } => trieff::store_text(image, work, given, value).map(changed),
        Call::StoreWrites { value } => {
            trieff::store_writes(image, work, given, value, writes).map(|by| listed(by, writes))
        }
        Call::StoreTextWrites { value } => {
            trieff::store_text_writes(image, work, given, value, writes)
                .map(|by| listed(by, writes))
        }
        Call::Mend => trieff::mend(image, work).map(nothing),
        Call::NextKey { after } => trieff::next_key(image, work, given, after, key).map(found),
        Call::Counts => counts.work_out(image, work).map(nothing),
        Call::CheckCounts => counts.check(image, work).map(nothing),
        Call::StoreCounts { value } => counts.store(image, work, given, value).map(changed),
        Call::StoreTextCounts { value } => {
            counts.store_text(image, work, given, value).map(changed)
        }
        Call::KeyAt { position } => counts.nth(image, work, position, key).map(found),
        Call::Position => counts.position(image, work, given).map(value_of),
        Call::PositionText => counts.position_text(image, work, given).map(value_of),
    };
    result.unwrap_or_else(refused)
}

fn refused(refusal: Refusal) -> Answer {
    Answer { number: number_of(&refusal), place: refusal.place(), ..Answer::default() }
}

/// The number of a refusal that the crate knows.
pub fn number_of(refusal: &Refusal) -> u32 {
    match refusal {
        Refusal::Unknown { .. } => UNKNOWN,
        known => known.number(),
    }
}

fn nothing(_: ()) -> Answer {
    Answer::default()
}

fn value_of(value: u64) -> Answer {
    Answer { value, ..Answer::default() }
}

fn present(value: Option<u64>) -> Answer {
    match value {
        Some(0) => Answer { number: SOME_ZERO, ..Answer::default() },
        _ => value_of(value.unwrap_or(0)),
    }
}

fn changed(change: i32) -> Answer {
    Answer { change, ..Answer::default() }
}

fn listed(change: i32, writes: &Writes) -> Answer {
    Answer { length: narrowed(writes.len()), ..changed(change) }
}

fn found(found: Found) -> Answer {
    Answer { length: narrowed(found.length), ..value_of(found.value) }
}

/// A length as the C answer holds it. One that it cannot hold becomes one that no call answers.
fn narrowed(length: usize) -> u32 {
    u32::try_from(length).unwrap_or(u32::MAX)
}
