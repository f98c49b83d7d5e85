//! Lays out the memory lent to a call between guards, twice with the same content: once for the
//! library, once for the model. After the call the two must be equal in every byte: also in the
//! guards, in what was lent to be read only, and in all that a call must not touch. In the random
//! part the crate's safe function is called too, over a third copy, and compared in the same way.

use crate::calls::{ask_library, ask_model, Call, Lent, Pointers};
use crate::model::Answer;
use crate::rng::Rng;
use crate::saboteurs::{Sabotage, Spoiled};
use crate::safe::Wrapper;
use std::ops::Range;

/// A call with what is lent to it. The key buffer and the working numbers have only a length here,
/// since they hold rubbish, as the list of writes does. `counts` is empty if the call takes none.
#[derive(Clone, Copy)]
pub struct Asked<'a> {
    pub call: Call,
    pub image: &'a [u8],
    pub given: &'a [u8],
    pub key_len: usize,
    pub work_len: usize,
    pub counts: &'a [u32],
}

/// Guard, image, guard, given, guard, key buffer, guard; and guard, working numbers, guard, list
/// of writes, guard, counts, guard.
#[derive(Clone, Default)]
pub struct Arena {
    pub bytes: Vec<u8>,
    pub words: Vec<u32>,
    pub image: Range<usize>,
    pub given: Range<usize>,
    pub key: Range<usize>,
    pub work: Range<usize>,
    pub writes: Range<usize>,
    pub counts: Range<usize>,
}

impl Arena {
    /// Guards have 9 to 16 bytes, so that buffers start at odd addresses as well as at even ones.
    fn guard(&mut self, rng: &mut Rng) {
        let len = 9 + rng.below(8) as usize;
        self.bytes.extend_from_slice(&rng.next().to_le_bytes());
        self.bytes.extend_from_slice(&rng.next().to_le_bytes()[..len - 8]);
    }

    fn place(&mut self, bytes: &[u8]) -> Range<usize> {
        let start = self.bytes.len();
        self.bytes.extend_from_slice(bytes);
        start..self.bytes.len()
    }

    fn lay(&mut self, asked: &Asked, rng: &mut Rng) {
        self.bytes.clear();
        self.guard(rng);
        self.image = self.place(asked.image);
        self.guard(rng);
        self.given = self.place(asked.given);
        self.guard(rng);
        let start = self.bytes.len();
        self.bytes.resize(start + asked.key_len, 0);
        self.key = start..self.bytes.len();
        rng.fill(&mut self.bytes[start..]);
        self.guard(rng);
        self.lay_words(asked.work_len, asked.call.writes_len(), rng);
        self.lay_counts(asked.counts, rng);
    }

    /// Lays the counts after the guard of the list of writes. The guard after them holds a 1,
    /// which could be a count, and random numbers.
    fn lay_counts(&mut self, counts: &[u32], rng: &mut Rng) {
        let start = self.words.len();
        self.counts = start..start + counts.len();
        self.words.extend_from_slice(counts);
        let rubbish = rng.next();
        self.words.extend_from_slice(&[1, rubbish as u32, (rubbish >> 32) as u32]);
    }

    /// Lays the working numbers and the list of writes, with rubbish in them. In the working
    /// numbers it is random: any numbers or small ones. In the list of writes it rises by steps,
    /// which is quick.
    fn lay_words(&mut self, work_len: usize, writes_len: usize, rng: &mut Rng) {
        let start = 2 + rng.below(3) as usize;
        self.work = start..start + work_len;
        let start = self.work.end + 3;
        self.writes = start..start + writes_len;
        self.words.clear();
        let mask = rng.pick(&[u32::MAX, u32::MAX, 1, 3]);
        self.words.extend((0..start).map(|_| (rng.next() >> 20) as u32 & mask));
        let (first, step) = (rng.next() as u32, rng.next() as u32);
        self.words
            .extend((0..writes_len as u32 + 3).map(|i| first.wrapping_add(i.wrapping_mul(step))));
    }

    /// As `clone`, but without new memory.
    pub fn copy_from(&mut self, other: &Arena) {
        self.bytes.clone_from(&other.bytes);
        self.words.clone_from(&other.words);
        self.image = other.image.clone();
        self.given = other.given.clone();
        self.key = other.key.clone();
        self.work = other.work.clone();
        self.writes = other.writes.clone();
        self.counts = other.counts.clone();
    }

    pub fn lent(&mut self) -> Lent<'_> {
        let (front, key) = self.bytes.split_at_mut(self.key.start);
        let (front, given) = front.split_at_mut(self.given.start);
        let (words, counts) = self.words.split_at_mut(self.counts.start);
        let (work, writes) = words.split_at_mut(self.writes.start);
        Lent {
            image: &mut front[self.image.clone()],
            given: &given[..self.given.len()],
            key: &mut key[..self.key.len()],
            work: &mut work[self.work.clone()],
            writes: &mut writes[..self.writes.len()],
            counts: &mut counts[..self.counts.len()],
        }
    }

    /// The pieces as the library takes them. One of no elements is at NULL in half of the cases:
    /// where the first guard has an odd length.
    fn pointers(&mut self) -> Pointers {
        let odd = self.image.start % 2 == 1;
        let (bytes, words) = (self.bytes.as_mut_ptr(), self.words.as_mut_ptr());
        let piece = |range: &Range<usize>| (at(bytes, range, odd), range.len());
        let list = |range: &Range<usize>| (at(words, range, odd), range.len());
        Pointers {
            image: piece(&self.image),
            given: piece(&self.given),
            key: piece(&self.key),
            work: list(&self.work),
            writes: at(words, &self.writes, false),
            counts: list(&self.counts),
        }
    }

    pub fn image(&self) -> &[u8] {
        &self.bytes[self.image.clone()]
    }

    pub fn given(&self) -> &[u8] {
        &self.bytes[self.given.clone()]
    }

    pub fn key(&self) -> &[u8] {
        &self.bytes[self.key.clone()]
    }

    pub fn writes(&self) -> &[u32] {
        &self.words[self.writes.clone()]
    }

    pub fn counts(&self) -> &[u32] {
        &self.words[self.counts.clone()]
    }

    fn name_byte(&self, at: usize) -> String {
        name(
            "byte",
            at,
            &[("image", &self.image), ("given", &self.given), ("key buffer", &self.key)],
        )
    }

    fn name_word(&self, at: usize) -> String {
        name(
            "number",
            at,
            &[
                ("working numbers", &self.work),
                ("list of writes", &self.writes),
                ("counts", &self.counts),
            ],
        )
    }
}

/// Where a piece of memory begins; NULL, if that is wanted and it has no elements.
fn at<T>(memory: *mut T, piece: &Range<usize>, null: bool) -> *mut T {
    if null && piece.is_empty() {
        return std::ptr::null_mut();
    }
    unsafe { memory.add(piece.start) }
}

/// Says where `at` is among the pieces of memory. In a guard it is counted from the nearer piece.
fn name(what: &str, at: usize, pieces: &[(&str, &Range<usize>)]) -> String {
    if let Some((name, range)) = pieces.iter().find(|(_, range)| range.contains(&at)) {
        return format!("{what} {} of the {name}", at - range.start);
    }
    let before = pieces
        .iter()
        .filter(|(_, range)| at < range.start)
        .map(|(name, range)| (range.start - at, "before", name));
    let after = pieces
        .iter()
        .filter(|(_, range)| at >= range.end)
        .map(|(name, range)| (at - range.end + 1, "after", name));
    let (far, side, name) =
        before.chain(after).min_by_key(|(far, _, _)| *far).expect("every guard has a neighbour");
    format!("guard {what} {far} {side} the {name}")
}

/// What they answered, and where the library or the safe wrapper differs from the model, as text.
pub struct Outcome {
    pub model: Answer,
    pub library: Answer,
    pub wrapper: Option<Answer>,
    pub difference: Option<String>,
}

/// What a report says in front of a difference of the crate's safe functions.
pub const IN_WRAPPER: &str = "in the safe wrapper: ";

#[derive(Default)]
pub struct Twins {
    pub library: Arena,
    pub model: Arena,
    /// The crate's safe functions, if they are called too.
    pub wrapper: Option<Wrapper>,
}

impl Twins {
    /// Those that call the crate's safe functions too.
    pub fn with_wrapper() -> Twins {
        Twins { wrapper: Some(Wrapper::new()), ..Twins::default() }
    }

    /// Makes the call in all of them and compares. With a saboteur, the outcome that it spoils is
    /// spoiled first.
    pub fn ask(&mut self, asked: &Asked, rng: &mut Rng, sabotage: Option<Sabotage>) -> Outcome {
        self.lay(asked, rng);
        let before = sabotage.map(|_| self.library.clone());
        let (model, library) = self.perform(asked.call);
        match (sabotage, before) {
            (Some(sabotage), Some(before)) => {
                self.compare_spoiled(asked.call, (model, library), &before, sabotage)
            }
            _ => self.compare(asked.call, model, library),
        }
    }

    /// Lays out what is lent, the same in all of them.
    pub fn lay(&mut self, asked: &Asked, rng: &mut Rng) {
        self.library.lay(asked, rng);
        self.model.copy_from(&self.library);
        if let Some(wrapper) = &mut self.wrapper {
            wrapper.arena.copy_from(&self.library);
        }
    }

    /// Makes the call in all of them. Returns what the model and the library answer.
    pub fn perform(&mut self, call: Call) -> (Answer, Answer) {
        if let Some(wrapper) = &mut self.wrapper {
            wrapper.ask(call);
        }
        let pointers = self.library.pointers();
        let library = unsafe { ask_library(call, &pointers) };
        (ask_model(call, self.model.lent()), library)
    }

    /// As `clone`, but without new memory.
    pub fn copy_from(&mut self, other: &Twins) {
        self.library.copy_from(&other.library);
        self.model.copy_from(&other.model);
        if let (Some(mine), Some(its)) = (&mut self.wrapper, &other.wrapper) {
            mine.copy_from(its);
        }
    }

    /// Compares what a call left.
    pub fn compare(&mut self, call: Call, model: Answer, library: Answer) -> Outcome {
        if let Some(wrapper) = &mut self.wrapper {
            wrapper.lay_writes();
        }
        let difference = self.difference(call, &model, &library);
        let wrapper = self.wrapper.as_ref().map(|wrapper| wrapper.answer);
        Outcome { model, library, wrapper, difference }
    }

    /// The same after a saboteur. `before` is what was lent.
    pub fn compare_spoiled(
        &mut self,
        call: Call,
        (model, mut library): (Answer, Answer),
        before: &Arena,
        sabotage: Sabotage,
    ) -> Outcome {
        let spoil = |after, answer, writes, keys| {
            sabotage.spoil(&mut Spoiled { call, before, after, answer, writes, keys })
        };
        match &mut self.wrapper {
            Some(wrapper) if sabotage.in_wrapper => {
                let Wrapper { arena, answer, writes, iteration, .. } = wrapper;
                let keys = iteration.as_mut().map(|iteration| &mut iteration.keys);
                spoil(arena, answer, writes, keys)
            }
            _ => spoil(&mut self.library, &mut library, &mut Vec::new(), None),
        }
        self.compare(call, model, library)
    }

    /// Where the library and the safe wrapper differ from the model.
    fn difference(&self, call: Call, model: &Answer, library: &Answer) -> Option<String> {
        let ours = (model, &self.model);
        let in_library = difference(ours, ("library", library, &self.library));
        let in_wrapper = self.wrapper.as_ref().and_then(|wrapper| {
            let memory = difference(ours, ("wrapper", &wrapper.answer, &wrapper.arena));
            let lost = wrapper.lost_writes(call).then(|| "a refusal changed Writes".to_string());
            let iteration = wrapper.iteration.as_ref();
            let keys = iteration.and_then(|iteration| iteration.difference(&self.model));
            joined([memory, lost, keys])
        });
        joined([in_library, in_wrapper.map(|found| format!("{IN_WRAPPER}{found}"))])
    }
}

/// Where the model and another differ: in the answers, the first byte, the first number.
fn difference(model: (&Answer, &Arena), other: (&str, &Answer, &Arena)) -> Option<String> {
    let ((answer, ours), (name, its_answer, its)) = (model, other);
    let answers = if answer != its_answer { Some("the answers".to_string()) } else { None };
    let byte = first_other(&ours.bytes, &its.bytes).map(|at| {
        let (mine, its) = (ours.bytes[at], its.bytes[at]);
        format!("{}: model {mine:02X}, {name} {its:02X}", ours.name_byte(at))
    });
    let word = first_other(&ours.words, &its.words).map(|at| {
        let (mine, its) = (ours.words[at], its.words[at]);
        format!("{}: model {mine}, {name} {its}", ours.name_word(at))
    });
    joined([answers, byte, word])
}

/// The first index at which two pieces of memory of the same length differ.
fn first_other<T: PartialEq>(ours: &[T], its: &[T]) -> Option<usize> {
    // comparing them whole is the quick way where they are equal
    if ours == its {
        None
    } else {
        (0..ours.len()).find(|at| ours[*at] != its[*at])
    }
}

fn joined<const MOST: usize>(found: [Option<String>; MOST]) -> Option<String> {
    let found: Vec<String> = found.into_iter().flatten().collect();
    if found.is_empty() {
        None
    } else {
        Some(found.join("; "))
    }
}
