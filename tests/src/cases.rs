//! A random case: one seed gives an image and a run of calls on it. Some of the calls are made
//! while the image is damaged.

use crate::calls::Call;
use crate::damage::{damage, hide, readable};
use crate::keys;
use crate::lists;
use crate::model::{self, Answer, Head, LONGEST_IMAGE};
use crate::rng::Rng;
use crate::shapes::{self, Shape};
use crate::twins::{Arena, Asked};

/// Which calls a case makes.
#[derive(Clone, Copy, PartialEq)]
enum Sort {
    /// All calls on one image.
    Usual,
    /// A make, then mostly stores.
    Fresh,
    /// Mostly calls with counts, and mostly with the list that the call before left.
    Counted,
    /// All calls on a deep image, often with data that max hides.
    Deep,
    /// Only makes, at every limit.
    Makes,
    /// An image of 16,777,216 bytes, one less or one more: only a few calls, since they are slow.
    Huge,
}

/// A call, and the lengths of the key buffer and of the working numbers that it is lent.
#[derive(Clone, Copy)]
pub struct Step {
    pub call: Call,
    pub key_len: usize,
    pub work_len: usize,
    /// It is the check of what a store left.
    pub after_store: bool,
}

pub struct Case {
    rng: Rng,
    image: Vec<u8>,
    given: Vec<u8>,
    /// The letters from which `given` was made.
    letters: Vec<u8>,
    /// The list of counts that is lent to the call.
    counts: Vec<u32>,
    /// The list that the last call that wrote counts left.
    kept: Vec<u32>,
    /// Counts were refused with 25, so they are to be worked out afresh.
    stale: bool,
    sort: Sort,
    shape: Shape,
    /// The image as it was before it was damaged.
    whole: Option<Vec<u8>>,
    last_found: Vec<u8>,
    /// The last call was a store that was done.
    stored: bool,
    asked: u64,
    calls: u64,
}

impl Case {
    pub fn new(seed: u64) -> Case {
        let mut rng = Rng::new(seed);
        let (sort, shape, image) = match rng.below(3_000) {
            0 => huge(&mut rng),
            1..=12 => full_of_two_bytes(&mut rng),
            13..=130 => makes(&mut rng),
            131..=180 => rubbish(&mut rng),
            181..=230 => deep(&mut rng),
            231..=600 => full_of_one_byte(&mut rng),
            601..=1_100 => fresh(&mut rng),
            1_101..=1_700 => counted(&mut rng),
            _ => tree(&mut rng),
        };
        let calls = match sort {
            Sort::Huge => 8,
            _ if image.len() > 100_000 => 12,
            _ => rng.between(24, 60),
        };
        Case {
            rng,
            image,
            given: Vec::new(),
            letters: Vec::new(),
            counts: Vec::new(),
            kept: Vec::new(),
            stale: false,
            sort,
            shape,
            whole: None,
            last_found: Vec::new(),
            stored: false,
            asked: 0,
            calls,
        }
    }

    /// The next call, or nothing at the end of the case. After each store that was done it is a
    /// check.
    pub fn next(&mut self) -> Option<Step> {
        if std::mem::take(&mut self.stored) {
            let work_len = self.g() + 1;
            return Some(Step { call: Call::Check, key_len: 0, work_len, after_store: true });
        }
        if self.asked == self.calls {
            return None;
        }
        self.asked += 1;
        self.damage_or_restore();
        let call = self.draw();
        let call = self.beside_counts(call);
        let (key_len, work_len) = (self.draw_key_len(), self.draw_work_len(call));
        Some(Step { call, key_len, work_len, after_store: false })
    }

    /// The call that was drawn last, with what is lent to it.
    pub fn asked(&self, step: &Step) -> Asked<'_> {
        Asked {
            call: step.call,
            image: &self.image,
            given: &self.given,
            key_len: step.key_len,
            work_len: step.work_len,
            counts: &self.counts,
        }
    }

    /// Takes over what the call left, so that the case goes on from there.
    pub fn learn(&mut self, call: Call, answer: &Answer, left: &Arena) {
        self.stale |= answer.number == 25;
        if answer.number > 0 {
            return;
        }
        self.image.copy_from_slice(left.image());
        self.stored = call.stored().is_some();
        if let Call::NextKey { .. } | Call::KeyAt { .. } = call {
            self.last_found = left.key()[..answer.length as usize].to_vec();
        }
        if call == Call::Counts || call.stores_counts() {
            self.kept = left.counts().to_vec();
            self.stale = false;
        }
    }

    /// Damages the image at times. It stays damaged for some calls, then it is restored.
    fn damage_or_restore(&mut self) {
        let often = match self.sort {
            Sort::Makes => return,
            Sort::Huge | Sort::Counted => 8,
            Sort::Fresh => 5,
            Sort::Usual | Sort::Deep => 3,
        };
        match self.whole.take() {
            Some(whole) if self.rng.one_in(3) => self.image = whole,
            Some(whole) => self.whole = Some(whole),
            None if self.asked > 1 && self.rng.one_in(often) => {
                self.whole = Some(self.image.clone());
                match readable(&self.image) {
                    Some(head) if self.sort == Sort::Deep && !self.rng.one_in(4) => {
                        return hide(&mut self.rng, &mut self.image, &head);
                    }
                    _ => damage(&mut self.rng, &mut self.image),
                }
                if self.rng.one_in(6) {
                    damage(&mut self.rng, &mut self.image);
                }
            }
            None => {}
        }
    }

    /// Draws a call, and what it reads in `given`.
    fn draw(&mut self) -> Call {
        self.given.clear();
        self.letters.clear();
        if self.sort == Sort::Makes {
            self.draw_make_limits();
        }
        let make_first = self.sort == Sort::Fresh && self.asked == 1;
        let choice = match self.sort {
            Sort::Makes => 0,
            _ if make_first => 0,
            Sort::Fresh if self.rng.one_in(2) => self.rng.between(12, 19),
            Sort::Counted if self.asked == 1 || (self.stale && self.rng.one_in(2)) => 27,
            Sort::Counted if self.rng.below(4) > 0 => self.rng.pick(&COUNTED_RUN),
            Sort::Huge => self.rng.between(1, 44),
            _ if self.rng.one_in(60) => 0,
            _ => self.rng.between(1, 44),
        };
        match choice {
            0 => self.draw_make(),
            1..=2 => Call::Check,
            3..=4 => Call::Count,
            5..=8 => self.with_letters(Call::LookUp),
            9..=11 => self.with_text(Call::LookUpText),
            12..=15 => {
                let value = keys::value(&mut self.rng, &self.image);
                self.with_letters(if choice < 14 {
                    Call::Store { value }
                } else {
                    Call::StoreWrites { value }
                })
            }
            16..=19 => {
                let value = keys::value(&mut self.rng, &self.image);
                self.with_text(if choice < 18 {
                    Call::StoreText { value }
                } else {
                    Call::StoreTextWrites { value }
                })
            }
            20..=21 => Call::Mend,
            22..=26 => self.draw_next_key(),
            27..=28 => Call::Counts,
            29..=30 => Call::CheckCounts,
            31..=34 => {
                let value = keys::value(&mut self.rng, &self.image);
                self.with_letters(Call::StoreCounts { value })
            }
            35..=37 => {
                let value = keys::value(&mut self.rng, &self.image);
                self.with_text(Call::StoreTextCounts { value })
            }
            38..=40 => Call::KeyAt { position: 0 },
            41..=42 => self.with_letters(Call::Position),
            _ => self.with_text(Call::PositionText),
        }
    }

    fn with_letters(&mut self, call: Call) -> Call {
        self.letters = keys::letters(&mut self.rng, &self.image, &self.last_found);
        self.given = self.letters.clone();
        call
    }

    fn with_text(&mut self, call: Call) -> Call {
        self.letters = keys::letters(&mut self.rng, &self.image, &self.last_found);
        self.given = keys::text(&mut self.rng, &self.shape.alphabet, &self.letters);
        call
    }

    /// Draws the list of counts for a call that takes one, and the position for `KeyAt`.
    fn beside_counts(&mut self, call: Call) -> Call {
        self.counts.clear();
        if !call.takes_counts() {
            return call;
        }
        let right = lists::of_stored_keys(&self.image);
        let keys = right.as_ref().map_or(3, |counts| u64::from(counts[0]));
        self.draw_counts(call, right);
        match call {
            Call::KeyAt { .. } => Call::KeyAt { position: self.draw_position(keys) },
            _ => call,
        }
    }

    /// Draws a list of counts that is right, wrong in one way, kept from the last call, or
    /// rubbish. Where 19 alone refuses the image, a right list has the counts of its stored keys.
    /// Its length is drawn independently.
    fn draw_counts(&mut self, call: Call, right: Option<Vec<u32>>) {
        let k = right.as_ref().map_or(0, |_| self.new_nodes(call));
        let len = self.draw_counts_len(k);
        let keeps = self.sort == Sort::Counted && self.rng.below(8) > 0;
        let sort = self.rng.below(12);
        let counts = match right {
            _ if keeps || sort == 0 => self.kept.clone(),
            Some(right) if sort < 8 => right,
            Some(mut right) if sort < 11 => {
                lists::spoil(&mut self.rng, &self.image, &mut right);
                right
            }
            _ => Vec::new(),
        };
        self.counts = lists::of_length(&mut self.rng, counts, len);
    }

    /// The k of a store in an image whose links are good; 0 for other calls, and if a letter is
    /// bad.
    fn new_nodes(&self, call: Call) -> usize {
        let head = Head::read(&self.image);
        match call.stored() {
            Some(value) if self.letters.iter().all(|letter| u32::from(*letter) < head.n) => {
                model::new_nodes(&self.image, &head, &self.letters, value) as usize
            }
            _ => 0,
        }
    }

    /// Draws a position: 0, any, the last, the number of keys, one more, the greatest number, or
    /// one that would be valid if it were read in 32 bits.
    fn draw_position(&mut self, keys: u64) -> u64 {
        let any = self.rng.below(keys);
        let wraps = (1 + self.rng.below(3)) << 32 | any;
        let last = keys.saturating_sub(1);
        self.rng.pick(&[0, any, any, any, last, last, keys, keys + 1, wraps, u64::MAX])
    }

    /// Draws a next key, at times from the key found last or from the empty key, as a listing
    /// does.
    fn draw_next_key(&mut self) -> Call {
        let after = self.rng.one_in(2);
        match self.rng.below(4) {
            0 => {
                self.given = self.last_found.clone();
                return Call::NextKey { after: true };
            }
            1 => {}
            _ => self.given = keys::letters(&mut self.rng, &self.image, &self.last_found),
        }
        Call::NextKey { after }
    }

    fn draw_make(&mut self) -> Call {
        self.given = self.shape.alphabet_bytes();
        let Head { n, a, d, min, max, .. } = self.shape.head;
        let mut fields = [n, a, d, min, max];
        if self.sort == Sort::Makes && self.rng.one_in(2) {
            self.spoil_make(&mut fields);
        }
        let [n, a, d, min, max] = fields;
        Call::Make { n, a, d, min, max }
    }

    /// Draws another shape and slice: of about the length that the make needs, or far from it.
    fn draw_make_limits(&mut self) {
        let n = self.rng.pick(&[1, 2, 3, 255, 256]);
        self.shape = Shape::of(&mut self.rng, n);
        let needed = self.shape.head.u() as usize;
        let any = self.rng.below(3_000) as usize;
        let lengths = [
            0,
            27,
            28,
            29,
            28 + self.shape.head.f as usize,
            needed - 1,
            needed - 1,
            needed,
            needed,
            needed + 1,
            needed + 100,
            any,
        ];
        let length = self.rng.pick(&lengths);
        self.image = self.rng.rubbish(length);
    }

    fn spoil_make(&mut self, fields: &mut [u32; 5]) {
        let rng = &mut self.rng;
        match rng.below(4) {
            0 => {
                let field = rng.below(5) as usize;
                let limits: [&[u32]; 5] = [
                    &[0, 257, u32::MAX],
                    &[0, 5, u32::MAX],
                    &[0, 9, 9, 16, u32::MAX],
                    &[65, u32::MAX],
                    &[65, u32::MAX],
                ];
                let next = fields[4].wrapping_add(1);
                fields[field] =
                    if field == 3 && rng.one_in(2) { next } else { rng.pick(limits[field]) };
            }
            1 => {
                let length = rng.pick(&[1_024, 1_025, 1_026, 2_000]);
                self.given = rng.rubbish(length);
            }
            2 => {
                if !self.given.is_empty() {
                    let at = rng.below(self.given.len() as u64) as usize;
                    self.given[at] = rng.next() as u8;
                }
            }
            _ => {
                let more = shapes::character(rng, 5);
                match rng.below(3) {
                    0 => self.given.extend(more),
                    1 => {
                        self.given.pop();
                    }
                    _ => self.given = more.repeat(fields[0].min(256) as usize),
                }
            }
        }
    }

    /// G, but at most half the image's length plus 1. With a greater G the image is refused with 4
    /// or earlier, never with 5.
    fn g(&self) -> usize {
        let g = if self.image.len() < 28 { 3 } else { Head::read(&self.image).g as usize };
        g.min(self.image.len() / 2 + 1)
    }

    /// Draws a length near G+1 or, for a store with k new nodes, near G+k+1.
    fn draw_counts_len(&mut self, k: usize) -> usize {
        let g = self.g();
        let more = self.rng.below(6) as usize;
        let fewer = self.rng.below(g as u64 + 1) as usize;
        match self.rng.below(24) {
            0 => 0,
            1 => g,
            2 => fewer,
            3..=4 => g + 1,
            5..=6 => g + k.max(1),
            7..=12 => g + k + 1,
            13..=18 => g + k + 1 + more,
            _ => g + 1 + 64 + more,
        }
    }

    fn draw_work_len(&mut self, call: Call) -> usize {
        let g = self.g();
        let more = self.rng.below(6) as usize;
        let fewer = self.rng.below(g as u64 + 1) as usize;
        match self.rng.below(20) {
            // with counts the working numbers are short less often, since the list may be short
            // too
            0..=3 if call.takes_counts() && self.rng.below(3) > 0 => g + 1,
            0 => 0,
            1..=2 => g,
            3 => fewer,
            4..=8 => g + 1 + more,
            _ => g + 1,
        }
    }

    fn draw_key_len(&mut self) -> usize {
        let max =
            if self.image.len() < 28 { 3 } else { Head::read(&self.image).max.min(70) as usize };
        let more = self.rng.below(20) as usize;
        match self.rng.below(12) {
            0 => 0,
            1 => max.saturating_sub(1),
            2..=5 => max + more,
            _ => max,
        }
    }
}

/// The choices of `draw` in a run of calls with counts: most are stores with counts, then the
/// other calls with counts, and a mend, after which the counts may have to be worked out afresh.
const COUNTED_RUN: [u64; 16] = [31, 32, 33, 34, 35, 36, 37, 31, 35, 38, 38, 41, 43, 29, 27, 20];

// ---- how the cases begin ----

fn tree(rng: &mut Rng) -> (Sort, Shape, Vec<u8>) {
    let mut shape = Shape::draw(rng);
    shape.draw_g(rng);
    let spare = shape.draw_spare(rng);
    let image = shape.grow(rng, spare);
    (Sort::Usual, shape, image)
}

fn fresh(rng: &mut Rng) -> (Sort, Shape, Vec<u8>) {
    let shape = Shape::draw(rng);
    let spare = shape.draw_spare(rng) + shape.draw_spare(rng) + shape.draw_spare(rng);
    let image = rng.rubbish(shape.head.u() as usize + spare);
    (Sort::Fresh, shape, image)
}

/// A tree with room for more nodes, for stores with counts.
fn counted(rng: &mut Rng) -> (Sort, Shape, Vec<u8>) {
    let (_, shape, mut image) = tree(rng);
    let spare = shape.draw_spare(rng) + shape.draw_spare(rng);
    let rubbish = rng.rubbish(spare);
    image.extend(rubbish);
    (Sort::Counted, shape, image)
}

fn makes(rng: &mut Rng) -> (Sort, Shape, Vec<u8>) {
    (Sort::Makes, Shape::draw(rng), Vec::new())
}

/// Rubbish, or a head that could be an image's with rubbish after it.
fn rubbish(rng: &mut Rng) -> (Sort, Shape, Vec<u8>) {
    let shape = Shape::draw(rng);
    let length = rng.below(200) as usize;
    let mut image = rng.rubbish(length);
    if length >= 28 && rng.one_in(2) {
        Head { g: rng.below(9) as u32, ..shape.head }.write(&mut image);
    }
    (Sort::Usual, shape, image)
}

/// A = 1, and all addresses or nearly all are in use.
fn full_of_one_byte(rng: &mut Rng) -> (Sort, Shape, Vec<u8>) {
    let n = if rng.one_in(40) { 256 } else { rng.between(1, 6) as u32 };
    let mut shape = Shape::of(rng, n);
    shape.head.a = 1;
    shape.head.g = rng.pick(&[255, 255, 254, 253, 250]);
    let spare = shape.draw_spare(rng);
    let image = shape.grow(rng, spare);
    (Sort::Usual, shape, image)
}

/// A = 2, and all addresses or nearly all are in use.
fn full_of_two_bytes(rng: &mut Rng) -> (Sort, Shape, Vec<u8>) {
    let mut shape = Shape::of(rng, 2);
    shape.head.a = 2;
    shape.head.g = rng.pick(&[65_535, 65_535, 65_534]);
    let spare = shape.draw_spare(rng);
    let image = shape.grow(rng, spare);
    (Sort::Usual, shape, image)
}

/// A chain deeper than 64 nodes, than 256, or than 65,536.
fn deep(rng: &mut Rng) -> (Sort, Shape, Vec<u8>) {
    let mut shape = Shape::narrow(rng, 3);
    shape.head.d = rng.pick(&[1, 1, 5, 8]);
    let lengths = [(0, 64), (0, 64), (1, 64), (64, 64), (0, 3), (2, 2), (0, 0)];
    (shape.head.min, shape.head.max) = rng.pick(&lengths);
    let (low, high) = rng.pick(&[(64, 68), (68, 250), (255, 330), (320, 700), (65_536, 70_000)]);
    shape.head.g = rng.between(low, high) as u32;
    let spare = shape.draw_spare(rng);
    let image = shape.grow(rng, spare);
    (Sort::Deep, shape, image)
}

/// An image of the greatest length, or one byte longer or shorter. It has all nodes that fit, in
/// one chain or in a tree, or only a few nodes.
fn huge(rng: &mut Rng) -> (Sort, Shape, Vec<u8>) {
    let length = LONGEST_IMAGE + rng.below(3) as usize - 1;
    let mut shape = match rng.below(3) {
        0 => Shape::narrow(rng, 3),
        1 => Shape::of(rng, 5),
        _ => Shape::draw(rng),
    };
    if shape.head.n == 1 || shape.head.n == 5 {
        shape.head.a = 3;
        let body = (LONGEST_IMAGE - 28 - shape.head.f as usize) as u64;
        shape.head.g = (body / shape.head.w() as u64) as u32 - 1 - rng.below(2) as u32;
    } else {
        shape.draw_g(rng);
    }
    let mut image = shape.grow(rng, 0);
    let rubbish = rng.rubbish(length.saturating_sub(image.len()));
    image.extend(rubbish);
    (Sort::Huge, shape, image)
}
