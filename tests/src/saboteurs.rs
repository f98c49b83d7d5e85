//! Saboteurs: each spoils the outcome of the library, or of the crate's safe functions, in one
//! small way. The judge must report every one of them. Otherwise it would not find such a fault
//! there either.

use crate::calls::{Call, KINDS};
use crate::iteration::Met;
use crate::lists;
use crate::model::{self, Answer, Head};
use crate::renumbering::under;
use crate::safe::{SOME_ZERO, UNKNOWN};
use crate::twins::Arena;
use std::ops::Range;

#[path = "wide_saboteurs.rs"]
mod wide;

/// What a saboteur sees, and may spoil.
pub struct Spoiled<'a> {
    pub call: Call,
    pub before: &'a Arena,
    pub after: &'a mut Arena,
    pub answer: &'a mut Answer,
    /// The list that the wrapper's `Writes` holds. For the library it is empty.
    pub writes: &'a mut Vec<Range<usize>>,
    /// What the crate's iterator gave, if it was tried.
    pub keys: Option<&'a mut Vec<Met>>,
}

pub struct Saboteur {
    pub name: &'static str,
    pub spoil: fn(&mut Spoiled),
}

/// A saboteur, and whose outcome it spoils.
#[derive(Clone, Copy)]
pub struct Sabotage {
    saboteur: &'static Saboteur,
    /// It spoils that of the crate's safe functions, not the library's as `trieff::raw` gives it.
    pub in_wrapper: bool,
    /// The name of the only call that it spoils. Without it, it spoils all that it fits.
    pub call: Option<&'static str>,
}

impl Sabotage {
    pub const fn of_library(saboteur: &'static Saboteur) -> Sabotage {
        Sabotage { saboteur, in_wrapper: false, call: None }
    }

    pub fn name(&self) -> &'static str {
        self.saboteur.name
    }

    pub fn spoil(&self, spoiled: &mut Spoiled) {
        if self.spoils(spoiled.call) {
            (self.saboteur.spoil)(spoiled);
        }
    }

    /// Whether it may spoil such a call.
    pub fn spoils(&self, call: Call) -> bool {
        self.call.map_or(true, |only| only == KINDS[call.kind()].name)
    }
}

/// A node of the image at entry that is reached from the root.
struct Reached {
    node: u64,
    depth: u64,
    data: u64,
}

impl Spoiled<'_> {
    fn is_store(&self) -> bool {
        self.call.stored().is_some()
    }

    /// Whether it is a store with writes that was done.
    fn listed(&self) -> bool {
        self.call.writes_len() > 0 && self.done()
    }

    /// Whether it is a mend that was done and lowered G.
    fn lowered(&self) -> bool {
        self.call == Call::Mend && self.done() && self.g() < self.head().unwrap().g
    }

    fn number(&self) -> u32 {
        self.answer.number
    }

    fn done(&self) -> bool {
        self.number() == 0
    }

    fn value(&self) -> u64 {
        self.call.stored().unwrap_or(0)
    }

    /// G at return.
    fn g(&self) -> u32 {
        Head::read(self.after.image()).g
    }

    fn set_g(&mut self, g: u32) {
        let start = self.after.image.start;
        model::write_number(&mut self.after.bytes[start..start + 4], u64::from(g));
    }

    /// The numbers of the list of writes that are in use.
    fn list(&mut self) -> &mut [u32] {
        let start = self.after.writes.start;
        &mut self.after.words[start..start + 2 * self.answer.length as usize]
    }

    /// The head at entry, if there is one.
    fn head(&self) -> Option<Head> {
        if self.before.image.len() >= 28 {
            Some(Head::read(self.before.image()))
        } else {
            None
        }
    }

    /// U at return, if it is inside the image.
    fn used(&self) -> Option<usize> {
        if self.after.image.len() < 28 {
            return None;
        }
        let u = Head::read(self.after.image()).u();
        if u <= self.after.image.len() as u128 {
            Some(u as usize)
        } else {
            None
        }
    }

    fn past_five(&self) -> bool {
        let uses_work = !matches!(self.call, Call::Make { .. } | Call::LookUp | Call::LookUpText);
        uses_work && !(1..=5).contains(&self.number())
    }

    fn refuse(&mut self, number: u32) {
        *self.answer = Answer { number, ..Answer::default() };
    }

    fn restore_image(&mut self) {
        let image = self.before.image.clone();
        self.after.bytes[image.clone()].copy_from_slice(&self.before.bytes[image]);
    }

    fn restore_work(&mut self) {
        self.after.words.clone_from(&self.before.words);
    }

    /// G+1 at entry, of an image that has a head.
    fn nodes(&self) -> usize {
        self.head().unwrap().g as usize + 1
    }

    /// The counts at return.
    fn counts(&mut self) -> &mut [u32] {
        &mut self.after.words[self.after.counts.clone()]
    }

    /// Puts a node's count back to what it was.
    fn restore_count(&mut self, node: usize) {
        let at = self.after.counts.start + node;
        self.after.words[at] = self.before.words[at];
    }

    /// For a store with counts that was done: the number by which it raised G.
    fn counted_store(&self) -> Option<u32> {
        if self.call.stores_counts() && self.done() {
            Some(self.g() - self.head().unwrap().g)
        } else {
            None
        }
    }

    /// For a call with counts that answered 5: whether the working numbers were enough for the
    /// first 5, and whether the list was.
    fn five_beside(&self) -> Option<(bool, bool)> {
        if self.call.takes_counts() && self.number() == 5 {
            Some((
                self.before.work.len() >= self.nodes(),
                self.before.counts.len() >= self.nodes(),
            ))
        } else {
            None
        }
    }

    /// As if a list that is too short were long enough: gives the check's own answer, and clears
    /// the working numbers that are there.
    fn pass_five(&mut self) {
        let (nodes, start) = (self.nodes(), self.after.work.start);
        *self.answer = model::check(self.before.image(), &mut vec![0; nodes]);
        let end = self.after.work.end.min(start + nodes);
        self.after.words[start..end].fill(0);
    }

    /// The stored keys at entry, of an image that the call accepted.
    fn stored_keys(&self) -> Vec<(Vec<u8>, u64)> {
        model::stored_keys(self.before.image(), &self.head().unwrap())
    }

    /// Makes key at answer this key.
    fn find(&mut self, key: &[u8], value: u64) {
        let start = self.after.key.start;
        self.after.bytes[start..start + key.len()].copy_from_slice(key);
        *self.answer = Answer { length: key.len() as u32, value, ..Answer::default() };
    }

    /// Works the counts out as if each node at such a depth were a stored key.
    fn recount(&mut self, at: impl Fn(u64) -> bool) {
        let counts = lists::too_many(self.before.image(), at);
        self.counts()[..counts.len()].copy_from_slice(&counts);
    }

    /// The letters of a store's key. Nothing if a letter is bad, or if the text is not well-formed
    /// or not in the alphabet.
    fn letters(&self) -> Option<Vec<u8>> {
        let (given, head) = (self.before.given().to_vec(), self.head()?);
        match KINDS[self.call.kind()].given {
            "text" => {
                let image = self.before.image();
                let alphabet = model::characters(&image[28..28 + head.f as usize])?;
                let letter = |character: &&[u8]| {
                    alphabet.iter().position(|one| one == character).map(|at| at as u8)
                };
                model::characters(&given)?.iter().map(letter).collect()
            }
            _ => Some(given)
                .filter(|letters| letters.iter().all(|letter| u32::from(*letter) < head.n)),
        }
    }

    fn refuse_at(&mut self, number: u32, place: u64) {
        *self.answer = Answer { number, place: place as u32, ..Answer::default() };
    }

    /// The nodes 1 to G of the image at entry, which passed 4, that fit.
    fn nodes_where(&self, fits: impl Fn(u64) -> bool) -> Vec<u64> {
        (1..self.nodes() as u64).filter(|node| fits(*node)).collect()
    }

    /// The link of a node at entry.
    fn link(&self, node: u64, letter: u64) -> u64 {
        model::link(self.before.image(), &self.head().unwrap(), node, letter)
    }

    fn links(&self, node: u64) -> Vec<u64> {
        (0..u64::from(self.head().unwrap().n)).map(|letter| self.link(node, letter)).collect()
    }

    /// The nodes that are not reached from the root at entry. A link above G leads nowhere.
    fn unreached(&self) -> Vec<u64> {
        let reached = under(self.before.image(), &self.head().unwrap(), 0);
        self.nodes_where(|node| !reached[node as usize])
    }

    fn stands_in_a_link(&self, address: u64) -> bool {
        (0..self.nodes() as u64).any(|node| self.links(node).contains(&address))
    }

    /// What the check answers for the image at entry with another G.
    fn check_with(&self, g: u32) -> Answer {
        let mut trial = self.before.image().to_vec();
        model::write_number(&mut trial[..4], u64::from(g));
        model::check(&trial, &mut vec![0; g as usize + 1])
    }

    fn is_look_up(&self) -> bool {
        matches!(self.call, Call::LookUp | Call::LookUpText)
    }

    /// Whether it is a store by letters, without counts.
    fn by_letters(&self) -> bool {
        matches!(self.call, Call::Store { .. } | Call::StoreWrites { .. })
    }

    /// The data of a node at entry.
    fn data(&self, node: u64) -> u64 {
        model::data(self.before.image(), &self.head().unwrap(), node)
    }

    /// The reached nodes of the image at entry, which passed 4, that fit.
    fn reached_where(&self, fits: impl Fn(&Reached, &Head) -> bool) -> Vec<Reached> {
        let head = self.head().unwrap();
        let depths = (0..).zip(model::depths(self.before.image(), &head));
        depths
            .filter_map(|(node, depth)| Some((node, depth?)))
            .map(|(node, depth)| Reached { node, depth, data: self.data(node) })
            .filter(|reached| fits(reached, &head))
            .collect()
    }

    /// The reached nodes at entry that have data at a depth outside min..max.
    fn hidden(&self) -> Vec<Reached> {
        self.reached_where(|at, head| model::outside(head, at.depth) && at.data != 0)
    }

    /// Moves the place of 19 to another of the hidden nodes.
    fn name_hidden(&mut self, choose: impl Fn(Vec<Reached>) -> Option<Reached>) {
        if self.number() == 19 {
            if let Some(chosen) = choose(self.hidden()) {
                self.refuse_at(19, chosen.node);
            }
        }
    }

    /// As if only some of the hidden data were seen: moves the place of 19 to the lowest node of
    /// these. If there is none, the check accepts the image.
    fn see_hidden(&mut self, seen: impl Fn(&Reached, &Head) -> bool) {
        if self.number() == 19 {
            let head = self.head().unwrap();
            match self.hidden().iter().find(|at| seen(at, &head)) {
                Some(at) => self.refuse_at(19, at.node),
                None if self.call == Call::Check => self.refuse(0),
                None => {}
            }
        }
    }

    /// As if the depth were counted otherwise.
    fn count_depth(&mut self, otherwise: fn(u64) -> u64) {
        self.see_hidden(|at, head| model::outside(head, otherwise(at.depth)));
    }

    /// As if such nodes were hidden in an image that the check accepts.
    fn hide(&mut self, fits: impl Fn(&Reached, &Head) -> bool) {
        if self.call == Call::Check && self.done() {
            if let Some(at) = self.reached_where(fits).first() {
                self.refuse_at(19, at.node);
            }
        }
    }

    /// Gives 19 in front of another refusal of the links, where reached data is hidden.
    fn give_19_before(&mut self, number: u32) {
        if self.number() == number && !self.is_look_up() {
            if let Some(at) = self.hidden().first() {
                self.refuse_at(19, at.node);
            }
        }
    }

    /// Whether the list lent holds the counts of the stored keys, for a call that passed 5.
    fn counts_are_of_stored_keys(&self) -> bool {
        let fresh = model::fresh_counts(self.before.image(), &self.head().unwrap());
        self.before.counts()[..fresh.len()] == fresh[..]
    }

    /// The image at entry without its hidden data.
    fn without_hidden(&self) -> Vec<u8> {
        let (mut image, head) = (self.before.image().to_vec(), self.head().unwrap());
        for Reached { node, .. } in self.hidden() {
            let at = head.data_at(node);
            image[at..at + head.d as usize].fill(0);
        }
        image
    }

    /// For a store by letters that answered 19: makes it as if the hidden data were not there. It
    /// is kept or cleared.
    fn store_beside_hidden(&mut self, keep: bool) {
        if !self.by_letters() || self.number() != 19 {
            return;
        }
        let (mut image, head) = (self.without_hidden(), self.head().unwrap());
        let work = &mut vec![0; self.nodes()];
        *self.answer = model::store(&mut image, work, self.before.given(), self.value());
        if self.done() {
            for Reached { node, .. } in self.hidden().into_iter().filter(|_| keep) {
                let at = head.data_at(node);
                let data = at..at + head.d as usize;
                image[data.clone()].copy_from_slice(&self.before.image()[data]);
            }
            self.after.bytes[self.after.image.clone()].copy_from_slice(&image);
        }
    }

    /// The nodes on the key's path at return, from the root on.
    fn passed(&self) -> Vec<usize> {
        let (image, head) = (self.after.image(), Head::read(self.after.image()));
        let letters = self.letters().unwrap_or_default();
        let far = model::path(image, &head, &letters).1;
        (0..=far).map(|length| model::path(image, &head, &letters[..length]).0 as usize).collect()
    }
}

/// All saboteurs.
pub fn all() -> impl Iterator<Item = Sabotage> {
    let of_library = SABOTEURS
        .iter()
        .chain(&REACH_SABOTEURS)
        .chain(&HIDDEN_SABOTEURS)
        .chain(&COUNT_SABOTEURS)
        .chain(&CUT_SABOTEURS);
    let of_wrapper = WRAPPER_SABOTEURS
        .iter()
        .map(|saboteur| Sabotage { in_wrapper: true, ..Sabotage::of_library(saboteur) });
    of_library.map(Sabotage::of_library).chain(wide::all()).chain(of_wrapper)
}

/// One that spoils nothing.
pub fn idle() -> Sabotage {
    Sabotage::of_library(&Saboteur { name: "nothing is spoiled", spoil: |_| {} })
}

const SABOTEURS: [Saboteur; 38] = [
    Saboteur {
        name: "the place of 7 is one too high",
        spoil: |s| {
            if s.number() == 7 {
                s.answer.place += 1;
            }
        },
    },
    Saboteur {
        name: "the place of 6 in a look up is the root",
        spoil: |s| {
            if s.number() == 6 && matches!(s.call, Call::LookUp | Call::LookUpText) {
                s.answer.place = 0;
            }
        },
    },
    Saboteur {
        name: "8 is given before 7",
        spoil: |s| {
            if s.number() == 7 {
                let head = s.head().unwrap();
                let stands = |address: u64| {
                    let links = |node: u64| {
                        (0..u64::from(head.n)).any(|letter| {
                            model::link(s.before.image(), &head, node, letter) == address
                        })
                    };
                    (0..=u64::from(head.g)).any(links)
                };
                if let Some(place) = (1..=u64::from(head.g)).find(|address| !stands(*address)) {
                    *s.answer = Answer { number: 8, place: place as u32, ..Answer::default() };
                }
            }
        },
    },
    Saboteur {
        name: "a changed value counts as a new key",
        spoil: |s| {
            if s.is_store() && s.done() && s.answer.change == 0 && s.value() > 0 {
                s.answer.change = 1;
            }
        },
    },
    Saboteur {
        name: "a store of 0 over nothing is -1",
        spoil: |s| {
            if s.is_store() && s.done() && s.answer.change == 0 && s.value() == 0 {
                s.answer.change = -1;
            }
        },
    },
    Saboteur {
        name: "the last working number is not cleared",
        spoil: |s| {
            if s.past_five() {
                let at = s.after.work.start + s.head().unwrap().g as usize;
                s.after.words[at] = s.before.words[at];
            }
        },
    },
    Saboteur {
        name: "the working numbers are not cleared when next key gives 15",
        spoil: |s| {
            if s.number() == 15 {
                s.restore_work();
            }
        },
    },
    Saboteur {
        name: "one working number too many is cleared",
        spoil: |s| {
            let at = s.head().map_or(0, |head| head.g as usize).saturating_add(1);
            if s.past_five() && at < s.after.work.len() {
                let at = s.after.work.start + at;
                s.after.words[at] = 0;
            }
        },
    },
    Saboteur {
        name: "the working numbers lent are cleared at 5",
        spoil: |s| {
            if s.number() == 5 {
                let work = s.after.work.clone();
                s.after.words[work].fill(0);
            }
        },
    },
    Saboteur {
        name: "the word after the working numbers is cleared",
        spoil: |s| {
            if s.past_five() {
                let at = s.after.work.end;
                s.after.words[at] = 0;
            }
        },
    },
    Saboteur {
        name: "the byte before the image is changed by a store",
        spoil: |s| {
            if s.is_store() && s.done() {
                let at = s.after.image.start - 1;
                s.after.bytes[at] ^= 1;
            }
        },
    },
    Saboteur {
        name: "the byte after the image is changed by a make",
        spoil: |s| {
            if matches!(s.call, Call::Make { .. }) && s.done() {
                let at = s.after.image.end;
                s.after.bytes[at] ^= 1;
            }
        },
    },
    Saboteur {
        name: "a spare byte is cleared by a make",
        spoil: |s| {
            if matches!(s.call, Call::Make { .. }) && s.done() {
                if let Some(used) = s.used().filter(|used| *used < s.after.image.len()) {
                    let at = s.after.image.start + used;
                    s.after.bytes[at] = 0;
                }
            }
        },
    },
    Saboteur {
        name: "the last spare byte is changed by a store",
        spoil: |s| {
            if s.is_store()
                && s.done()
                && s.used().map_or(false, |used| used < s.after.image.len())
            {
                let at = s.after.image.end - 1;
                s.after.bytes[at] ^= 0x80;
            }
        },
    },
    Saboteur {
        name: "a new node keeps what the spare byte held",
        spoil: |s| {
            if s.is_store() && s.done() {
                let (old, new) = (s.head().unwrap(), Head::read(s.after.image()));
                if new.g > old.g {
                    let at = s.after.image.start + new.link_at(u64::from(old.g) + 1, 0);
                    if s.after.bytes[at] == 0 {
                        s.after.bytes[at] = s.before.bytes[at];
                    }
                }
            }
        },
    },
    Saboteur {
        name: "a refused store raises G",
        spoil: |s| {
            if s.is_store() && s.number() == 13 {
                let at = s.after.image.start + 3;
                s.after.bytes[at] = s.after.bytes[at].wrapping_add(1);
            }
        },
    },
    Saboteur {
        name: "12 and 13 are exchanged",
        spoil: |s| match s.number() {
            12 => s.answer.number = 13,
            13 => s.answer.number = 12,
            _ => {}
        },
    },
    Saboteur {
        name: "13 is given before 12",
        spoil: |s| {
            if s.number() == 12 {
                let head = s.head().unwrap();
                if head.u() + head.w() > s.before.image.len() as u128 {
                    s.answer.number = 13;
                }
            }
        },
    },
    Saboteur {
        name: "a store of 0 in a full image is refused",
        spoil: |s| {
            let full = s.used() == Some(s.after.image.len());
            if s.is_store() && s.done() && s.value() == 0 && s.answer.change == 0 && full {
                s.refuse(13);
            }
        },
    },
    Saboteur {
        name: "a store does nothing and says that it is done",
        spoil: |s| {
            if s.is_store() && s.done() {
                s.restore_image();
            }
        },
    },
    Saboteur {
        name: "next key does not move on",
        spoil: |s| {
            if s.call == (Call::NextKey { after: true }) && s.done() {
                let value = model::look_up(s.before.image(), s.before.given()).value;
                if value > 0 {
                    let (start, given) = (s.after.key.start, s.before.given());
                    s.after.bytes[start..start + given.len()].copy_from_slice(given);
                    *s.answer = Answer { length: given.len() as u32, value, ..Answer::default() };
                }
            }
        },
    },
    Saboteur {
        name: "next key clears the rest of the key buffer",
        spoil: |s| {
            if matches!(s.call, Call::NextKey { .. }) && s.done() {
                let rest = s.after.key.start + s.answer.length as usize..s.after.key.end;
                s.after.bytes[rest].fill(0);
            }
        },
    },
    Saboteur {
        name: "next key writes its key before it gives 15",
        spoil: |s| {
            if s.number() == 15 && !s.after.key.is_empty() {
                let at = s.after.key.start;
                s.after.bytes[at] ^= 1;
            }
        },
    },
    Saboteur {
        name: "14 looks at the key found",
        spoil: |s| {
            if s.number() == 14 && !s.after.key.is_empty() {
                s.refuse(15);
            }
        },
    },
    Saboteur {
        name: "a look up finds a key that min and max hide",
        spoil: |s| {
            let head = s.head();
            if s.call == Call::LookUp && s.number() == 9 && s.before.given().is_empty() {
                let value = model::data(s.before.image(), &head.unwrap(), 0);
                if value > 0 {
                    *s.answer = Answer { value, ..Answer::default() };
                }
            }
        },
    },
    Saboteur {
        name: "the letters lent are changed",
        spoil: |s| {
            if s.call == Call::LookUp && s.done() && !s.after.given.is_empty() {
                let at = s.after.given.end - 1;
                s.after.bytes[at] ^= 1;
            }
        },
    },
    Saboteur {
        name: "the image lent to a check is changed",
        spoil: |s| {
            if s.call == Call::Check && s.number() == 8 {
                let at = s.after.image.end - 1;
                s.after.bytes[at] ^= 1;
            }
        },
    },
    Saboteur {
        name: "a refused look up answers a value",
        spoil: |s| {
            if s.call == Call::LookUpText && s.number() == 10 {
                s.answer.value = 1;
            }
        },
    },
    Saboteur {
        name: "for text 9 stands before 10",
        spoil: |s| {
            if s.call == Call::LookUpText && s.number() == 10 {
                let characters =
                    model::characters(s.before.given()).map(|found| found.len() as u32);
                if characters.map_or(false, |length| length > s.head().unwrap().max) {
                    s.refuse(9);
                }
            }
        },
    },
    Saboteur {
        name: "U is worked out in 32 bits",
        spoil: |s| {
            if s.call == Call::Check && s.number() == 4 {
                let head = s.head().unwrap();
                if u128::from(head.u() as u32) <= s.before.image.len() as u128 {
                    s.refuse(5);
                }
            }
        },
    },
    Saboteur {
        name: "the alphabet is read past F",
        spoil: |s| {
            if s.number() == 3 && !matches!(s.call, Call::Make { .. }) {
                let head = s.head().unwrap();
                let longer = |more: u32| {
                    let bytes = s.before.image().get(28..28 + (head.f + more) as usize);
                    bytes
                        .and_then(model::characters)
                        .map_or(false, |found| found.len() == head.n as usize)
                };
                if (1..=3).any(longer) {
                    s.refuse(4);
                }
            }
        },
    },
    Saboteur {
        name: "an image of 16,777,216 bytes is too long, or one of 28 too short",
        spoil: |s| {
            let length = s.after.image.len();
            if (length == model::LONGEST_IMAGE || length == 28) && s.number() != 1 {
                s.refuse(1);
            }
        },
    },
    Saboteur {
        name: "a number after the last write is touched",
        spoil: |s| {
            let at = s.after.writes.start + 2 * s.answer.length as usize;
            if s.listed() && at < s.after.writes.end {
                s.after.words[at] ^= 1;
            }
        },
    },
    Saboteur {
        name: "a refused store touches the list of writes",
        spoil: |s| {
            if s.call.writes_len() > 0 && !s.done() {
                let at = s.after.writes.end - 1;
                s.after.words[at] ^= 1;
            }
        },
    },
    Saboteur {
        name: "a value that is there already is not in the list of writes",
        spoil: |s| {
            if s.listed() && s.answer.length == 1 && s.before.image() == s.after.image() {
                s.restore_work();
                s.answer.length = 0;
            }
        },
    },
    Saboteur {
        name: "mend does not try the lowered image",
        spoil: |s| {
            if s.call == Call::Mend && s.number() == 8 {
                s.set_g(s.answer.place - 1);
                s.refuse(0);
            }
        },
    },
    Saboteur {
        name: "mend answers what the trial answered",
        spoil: |s| {
            if s.call == Call::Mend && s.number() == 8 {
                let mut trial = s.before.image().to_vec();
                model::write_number(&mut trial[..4], u64::from(s.answer.place) - 1);
                *s.answer = model::check(&trial, &mut vec![0; s.answer.place as usize]);
            }
        },
    },
    Saboteur {
        name: "mend clears only the working numbers of the lowered G",
        spoil: |s| {
            if s.lowered() {
                let kept = s.after.work.start + s.g() as usize + 1..s.after.work.end;
                s.after.words[kept.clone()].copy_from_slice(&s.before.words[kept]);
            }
        },
    },
];

/// The saboteurs of request 3: links to lower nodes, and nodes that are not reached.
const REACH_SABOTEURS: [Saboteur; 19] = [
    Saboteur {
        name: "a node that stands in a link counts as reached: check",
        spoil: |s| {
            if s.call == Call::Check && s.number() == 16 {
                s.refuse(0);
            }
        },
    },
    Saboteur {
        name: "a node that stands in a link counts as reached: number of keys",
        spoil: |s| {
            if s.call == Call::Count && s.number() == 16 {
                let value = s.stored_keys().len() as u64;
                *s.answer = Answer { value, ..Answer::default() };
            }
        },
    },
    Saboteur {
        name: "the place of 16 is the lowest node on a cycle",
        spoil: |s| {
            if s.number() == 16 && s.nodes() < 300 {
                let (image, head) = (s.before.image(), s.head().unwrap());
                let on_cycle = s.nodes_where(|node| under(image, &head, node)[node as usize]);
                s.refuse_at(16, on_cycle[0]);
            }
        },
    },
    Saboteur {
        name: "the place of 16 is the highest node that is not reached",
        spoil: |s| {
            if s.number() == 16 {
                let unreached = s.unreached();
                s.refuse_at(16, unreached[unreached.len() - 1]);
            }
        },
    },
    Saboteur {
        name: "a node that links to itself alone is missed",
        spoil: |s| {
            if s.call == Call::Check && s.number() == 16 {
                let unreached = s.unreached();
                if unreached.iter().all(|node| s.links(*node).contains(node)) {
                    s.refuse(0);
                }
            }
        },
    },
    Saboteur {
        name: "the check gives 6 for a link to a lower node",
        spoil: |s| {
            let judged = s.call == Call::Check && matches!(s.number(), 0 | 7 | 8 | 16);
            if judged {
                let lower = |node: u64| s.links(node).iter().any(|to| *to > 0 && *to <= node);
                if let Some(node) = s.nodes_where(lower).first() {
                    s.refuse_at(6, *node);
                }
            }
        },
    },
    Saboteur {
        name: "a look up gives 6 for a link to a lower node",
        spoil: |s| {
            if s.call == Call::LookUp && matches!(s.number(), 0 | 6) {
                let mut node = 0;
                for letter in s.before.given().to_vec() {
                    let next = s.link(node, u64::from(letter));
                    if next == 0 || next >= s.nodes() as u64 {
                        return;
                    }
                    if next <= node {
                        s.refuse_at(6, node);
                        return;
                    }
                    node = next;
                }
            }
        },
    },
    Saboteur {
        name: "a look up gives 16",
        spoil: |s| {
            if matches!(s.call, Call::LookUp | Call::LookUpText) && s.done() {
                let checked = s.check_with(s.head().unwrap().g);
                if checked.number == 16 {
                    *s.answer = checked;
                }
            }
        },
    },
    Saboteur {
        name: "a look up that comes to a node twice finds nothing",
        spoil: |s| {
            if s.call == Call::LookUp && s.answer.value > 0 {
                let (mut node, mut passed) = (0, vec![0]);
                for letter in s.before.given().to_vec() {
                    node = s.link(node, u64::from(letter));
                    if passed.contains(&node) {
                        s.answer.value = 0;
                    }
                    passed.push(node);
                }
            }
        },
    },
    Saboteur {
        name: "16 is given before 8",
        spoil: |s| {
            if s.number() == 8 {
                let unreached = s.unreached();
                if let Some(node) = unreached.iter().find(|node| s.stands_in_a_link(**node)) {
                    s.refuse_at(16, *node);
                }
            }
        },
    },
    Saboteur {
        name: "16 is given before 7",
        spoil: |s| {
            if s.number() == 7 {
                if let Some(node) = s.unreached().first() {
                    s.refuse_at(16, *node);
                }
            }
        },
    },
    Saboteur {
        name: "16 is given before 6",
        spoil: |s| {
            if s.number() == 6 && !matches!(s.call, Call::LookUp | Call::LookUpText) {
                if let Some(node) = s.unreached().first() {
                    s.refuse_at(16, *node);
                }
            }
        },
    },
    Saboteur {
        name: "a store gives 9 before 16",
        spoil: |s| {
            let by_letters = matches!(s.call, Call::Store { .. } | Call::StoreWrites { .. });
            if by_letters && s.number() == 16 {
                let looked_up = model::look_up(s.before.image(), s.before.given());
                if looked_up.number == 9 {
                    *s.answer = looked_up;
                }
            }
        },
    },
    Saboteur {
        name: "25 is given before 16",
        spoil: |s| {
            if s.call.compares_counts() && s.number() == 16 {
                let fresh = model::fresh_counts(s.before.image(), &s.head().unwrap());
                let differs = |node: &usize| fresh[*node] != s.before.counts()[*node];
                if let Some(node) = (0..fresh.len()).find(differs) {
                    s.refuse_at(25, node as u64);
                }
            }
        },
    },
    Saboteur {
        name: "the working numbers are not cleared when 16 is given",
        spoil: |s| {
            if s.number() == 16 {
                s.restore_work();
            }
        },
    },
    Saboteur {
        name: "mend lowers G to below the place of 16",
        spoil: |s| {
            if s.call == Call::Mend && s.number() == 16 {
                let below = s.answer.place - 1;
                if s.check_with(below).number == 0 {
                    s.set_g(below);
                    s.refuse(0);
                }
            }
        },
    },
    Saboteur {
        name: "mend leaves nodes that are not reached",
        spoil: |s| {
            if s.call == Call::Mend && s.number() == 8 {
                let below = s.answer.place - 1;
                if s.check_with(below).number == 16 {
                    s.set_g(below);
                    s.refuse(0);
                }
            }
        },
    },
    Saboteur {
        name: "mend goes on where the lowered image has another 8",
        spoil: |s| {
            if s.call == Call::Mend && s.number() == 8 {
                let mut below = s.answer.place - 1;
                let mut trial = s.check_with(below);
                while trial.number == 8 {
                    below = trial.place - 1;
                    trial = s.check_with(below);
                }
                if trial.number == 0 {
                    s.set_g(below);
                    s.refuse(0);
                }
            }
        },
    },
    Saboteur {
        name: "the counts are added up by falling address",
        spoil: |s| {
            if s.call == Call::Counts && s.done() {
                let fresh = model::fresh_counts(s.before.image(), &s.head().unwrap());
                let nodes = 0..fresh.len() as u64;
                let children: Vec<Vec<u64>> = nodes
                    .map(|node| s.links(node).into_iter().filter(|link| *link > 0).collect())
                    .collect();
                let all = |counts: &[u32], node: usize| -> u32 {
                    children[node].iter().map(|child| counts[*child as usize]).sum()
                };
                // at first each node has the key of its own alone
                let mut counts: Vec<u32> =
                    (0..fresh.len()).map(|node| fresh[node] - all(&fresh, node)).collect();
                for node in (0..fresh.len()).rev() {
                    counts[node] += all(&counts, node);
                }
                s.counts()[..fresh.len()].copy_from_slice(&counts);
            }
        },
    },
];

/// The saboteurs of request 8: data at a depth outside min..max. No accepted image has any, so a
/// number of keys or counts that take hidden data in must have accepted it first.
const HIDDEN_SABOTEURS: [Saboteur; 51] = [
    Saboteur {
        name: "hidden data is accepted: check",
        spoil: |s| {
            if s.call == Call::Check && s.number() == 19 {
                s.refuse(0);
            }
        },
    },
    Saboteur {
        name: "hidden data is accepted: number of keys, without it",
        spoil: |s| {
            if s.call == Call::Count && s.number() == 19 {
                let value = s.stored_keys().len() as u64;
                *s.answer = Answer { value, ..Answer::default() };
            }
        },
    },
    Saboteur {
        name: "hidden data is accepted: number of keys, with it",
        spoil: |s| {
            if s.call == Call::Count && s.number() == 19 {
                let value = s.reached_where(|at, _| at.data != 0).len() as u64;
                *s.answer = Answer { value, ..Answer::default() };
            }
        },
    },
    Saboteur {
        name: "hidden data is accepted: next key",
        spoil: |s| {
            if matches!(s.call, Call::NextKey { .. }) && s.number() == 19 {
                let next = |(key, _): &&(Vec<u8>, u64)| model::comes_before(s.before.given(), key);
                let keys = s.stored_keys();
                if let Some((key, value)) = keys.iter().find(next) {
                    if key.len() <= s.after.key.len() {
                        s.find(key, *value);
                    }
                }
            }
        },
    },
    Saboteur { name: "hidden data is accepted: store", spoil: |s| s.store_beside_hidden(true) },
    Saboteur {
        name: "a store clears hidden data and goes on",
        spoil: |s| s.store_beside_hidden(false),
    },
    Saboteur {
        name: "hidden data is accepted: the counts are worked out",
        spoil: |s| {
            if s.call == Call::Counts && s.number() == 19 {
                s.refuse(0);
                s.recount(|_| false);
            }
        },
    },
    Saboteur {
        name: "hidden data is accepted: check with counts",
        spoil: |s| {
            if s.call == Call::CheckCounts && s.number() == 19 && s.counts_are_of_stored_keys() {
                s.refuse(0);
            }
        },
    },
    Saboteur {
        name: "hidden data is accepted: store with counts",
        spoil: |s| {
            if s.call.stores_counts() && s.number() == 19 && s.counts_are_of_stored_keys() {
                s.refuse(0);
            }
        },
    },
    Saboteur {
        name: "hidden data is accepted: key at",
        spoil: |s| {
            if let (Call::KeyAt { position }, 19) = (s.call, s.number()) {
                let keys = s.stored_keys();
                if let Some((key, value)) = keys.get(position as usize) {
                    if key.len() <= s.after.key.len() && s.counts_are_of_stored_keys() {
                        s.find(key, *value);
                    }
                }
            }
        },
    },
    Saboteur {
        name: "hidden data is accepted: position",
        spoil: |s| {
            if s.call == Call::Position && s.number() == 19 && s.counts_are_of_stored_keys() {
                let keys = s.stored_keys();
                if let Some(at) = keys.iter().position(|(key, _)| key == s.before.given()) {
                    *s.answer = Answer { value: at as u64, ..Answer::default() };
                }
            }
        },
    },
    Saboteur {
        name: "19 looks only for data shorter than min",
        spoil: |s| s.see_hidden(|at, head| at.depth < u64::from(head.min)),
    },
    Saboteur {
        name: "19 looks only for data deeper than max",
        spoil: |s| s.see_hidden(|at, head| at.depth > u64::from(head.max)),
    },
    Saboteur { name: "19 forgets the root", spoil: |s| s.see_hidden(|at, _| at.node > 0) },
    Saboteur { name: "19 looks only at the root", spoil: |s| s.see_hidden(|at, _| at.node == 0) },
    Saboteur {
        name: "19 forgets data one step above min",
        spoil: |s| s.see_hidden(|at, head| at.depth + 1 != u64::from(head.min)),
    },
    Saboteur {
        name: "19 forgets data one step below max",
        spoil: |s| s.see_hidden(|at, head| at.depth != u64::from(head.max) + 1),
    },
    Saboteur {
        name: "19 looks only at nodes without links",
        spoil: |s| {
            let before = s.before;
            s.see_hidden(|at, head| {
                let link = |letter| model::link(before.image(), head, at.node, letter);
                (0..u64::from(head.n)).all(|letter| link(letter) == 0)
            });
        },
    },
    Saboteur {
        name: "19 looks only at the last byte of the data",
        spoil: |s| s.see_hidden(|at, _| at.data % 256 != 0),
    },
    Saboteur {
        name: "19 looks only at the first byte of the data",
        spoil: |s| s.see_hidden(|at, head| at.data >= 256u64.pow(head.d - 1)),
    },
    Saboteur {
        name: "data at min counts as hidden",
        spoil: |s| s.hide(|at, head| at.depth == u64::from(head.min) && at.data != 0),
    },
    Saboteur {
        name: "data at max counts as hidden",
        spoil: |s| s.hide(|at, head| at.depth == u64::from(head.max) && at.data != 0),
    },
    Saboteur {
        name: "an empty node shorter than min counts as hidden",
        spoil: |s| s.hide(|at, head| at.depth < u64::from(head.min)),
    },
    Saboteur {
        name: "an empty node deeper than max counts as hidden",
        spoil: |s| s.hide(|at, head| at.depth > u64::from(head.max)),
    },
    Saboteur {
        name: "a store gives 19 for an empty node outside min..max",
        spoil: |s| {
            if s.is_store() && s.done() {
                let empty = s.reached_where(|at, head| model::outside(head, at.depth));
                if let Some(at) = empty.first() {
                    s.restore_image();
                    s.refuse_at(19, at.node);
                }
            }
        },
    },
    Saboteur {
        name: "a store of 0 that empties a node gives 19",
        spoil: |s| {
            if s.is_store() && s.answer.change == -1 {
                s.restore_image();
                s.refuse_at(19, 0);
            }
        },
    },
    Saboteur {
        name: "the place of 19 is the hidden node of least depth",
        spoil: |s| s.name_hidden(|all| all.into_iter().min_by_key(|at| (at.depth, at.node))),
    },
    Saboteur {
        name: "the place of 19 is the deepest hidden node",
        spoil: |s| s.name_hidden(|all| all.into_iter().max_by_key(|at| (at.depth, !at.node))),
    },
    Saboteur {
        name: "the place of 19 is the highest hidden node",
        spoil: |s| s.name_hidden(|mut all| all.pop()),
    },
    Saboteur {
        name: "the place of 19 is the first hidden node in the order of keys",
        spoil: |s| {
            if s.number() == 19 {
                let hidden: Vec<u64> = s.hidden().iter().map(|at| at.node).collect();
                let mut to_visit = vec![0];
                while let Some(node) = to_visit.pop() {
                    if hidden.contains(&node) {
                        return s.refuse_at(19, node);
                    }
                    to_visit.extend(s.links(node).into_iter().rev().filter(|link| *link > 0));
                }
            }
        },
    },
    Saboteur {
        name: "the place of 19 is the depth",
        spoil: |s| {
            if s.number() == 19 {
                let depth = s.hidden()[0].depth;
                s.refuse_at(19, depth);
            }
        },
    },
    Saboteur { name: "19 is given before 16", spoil: |s| s.give_19_before(16) },
    Saboteur { name: "19 is given before 8", spoil: |s| s.give_19_before(8) },
    Saboteur { name: "19 is given before 7", spoil: |s| s.give_19_before(7) },
    Saboteur { name: "19 is given before 6", spoil: |s| s.give_19_before(6) },
    Saboteur { name: "the depth stops at 64", spoil: |s| s.count_depth(|depth| depth.min(64)) },
    Saboteur {
        name: "the depth is counted in 6 bits",
        spoil: |s| s.count_depth(|depth| depth % 64),
    },
    Saboteur {
        name: "the depth is counted modulo 65",
        spoil: |s| s.count_depth(|depth| depth % 65),
    },
    Saboteur {
        name: "the depth is counted modulo 66",
        spoil: |s| s.count_depth(|depth| depth % 66),
    },
    Saboteur {
        name: "the depth is counted in 7 bits",
        spoil: |s| s.count_depth(|depth| depth % 128),
    },
    Saboteur {
        name: "the depth is counted in 8 bits",
        spoil: |s| s.count_depth(|depth| depth % 256),
    },
    Saboteur {
        name: "the depth is counted in 16 bits",
        spoil: |s| s.count_depth(|depth| depth % 65_536),
    },
    Saboteur {
        name: "depths are worked out in one pass by rising address",
        spoil: |s| {
            if s.call == Call::Check && matches!(s.number(), 0 | 19) {
                let (head, mut depths) = (s.head().unwrap(), vec![0; s.nodes()]);
                for node in 0..s.nodes() as u64 {
                    for link in s.links(node).into_iter().filter(|link| *link > 0) {
                        depths[link as usize] = depths[node as usize] + 1;
                    }
                }
                let hidden = (0..s.nodes() as u64).find(|node| {
                    s.data(*node) != 0 && model::outside(&head, depths[*node as usize])
                });
                match hidden {
                    Some(node) => s.refuse_at(19, node),
                    None => s.refuse(0),
                }
            }
        },
    },
    Saboteur {
        name: "a look up gives 19",
        spoil: |s| {
            if s.is_look_up() && s.done() {
                let checked = s.check_with(s.head().unwrap().g);
                if checked.number == 19 {
                    *s.answer = checked;
                }
            }
        },
    },
    Saboteur {
        name: "a look up gives 19 before 9",
        spoil: |s| {
            if s.call == Call::LookUp && s.number() == 9 {
                let checked = s.check_with(s.head().unwrap().g);
                if checked.number == 19 {
                    *s.answer = checked;
                }
            }
        },
    },
    Saboteur {
        name: "a store gives 9 before 19",
        spoil: |s| {
            if s.by_letters() && s.number() == 19 {
                let looked_up = model::look_up(s.before.image(), s.before.given());
                if looked_up.number == 9 {
                    *s.answer = looked_up;
                }
            }
        },
    },
    Saboteur {
        name: "next key gives 14 before 19",
        spoil: |s| {
            let next_key = matches!(s.call, Call::NextKey { .. });
            if next_key && s.number() == 19 && s.after.key.len() < s.head().unwrap().max as usize {
                s.refuse(14);
            }
        },
    },
    Saboteur {
        name: "25 is given before 19",
        spoil: |s| {
            if s.call.compares_counts() && s.number() == 19 {
                let fresh = model::fresh_counts(s.before.image(), &s.head().unwrap());
                let differs = |node: &usize| fresh[*node] != s.before.counts()[*node];
                if let Some(node) = (0..fresh.len()).find(differs) {
                    s.refuse_at(25, node as u64);
                }
            }
        },
    },
    Saboteur {
        name: "the working numbers are not cleared when 19 is given",
        spoil: |s| {
            if s.number() == 19 {
                s.restore_work();
            }
        },
    },
    Saboteur {
        name: "mend leaves hidden data",
        spoil: |s| {
            if s.call == Call::Mend && s.number() == 8 {
                let below = s.answer.place - 1;
                if s.check_with(below).number == 19 {
                    s.set_g(below);
                    s.refuse(0);
                }
            }
        },
    },
    Saboteur {
        name: "mend clears hidden data",
        spoil: |s| {
            if s.call == Call::Mend && s.number() == 19 {
                let image = s.without_hidden();
                s.after.bytes[s.after.image.clone()].copy_from_slice(&image);
                s.refuse(0);
            }
        },
    },
];

/// The saboteurs of the calls with counts.
const COUNT_SABOTEURS: [Saboteur; 32] = [
    Saboteur {
        name: "the counts are compared only before G",
        spoil: |s| {
            if s.call == Call::CheckCounts
                && s.number() == 25
                && s.answer.place == s.head().unwrap().g
            {
                s.refuse(0);
            }
        },
    },
    Saboteur {
        name: "the counts are compared only where stored keys are",
        spoil: |s| {
            if s.call == Call::CheckCounts && s.number() == 25 {
                let (at, start) = (s.answer.place as usize, s.before.counts.start);
                let fresh = model::fresh_counts(s.before.image(), &s.head().unwrap());
                if fresh[at] == 0
                    && s.before.words[start..]
                        .iter()
                        .zip(&fresh)
                        .skip(at + 1)
                        .all(|(one, other)| one == other)
                {
                    s.refuse(0);
                }
            }
        },
    },
    Saboteur {
        name: "a count is compared in 16 bits",
        spoil: |s| {
            if s.call == Call::CheckCounts && s.number() == 25 {
                let same = |(one, other): (&u32, &u32)| one & 0xFFFF == other & 0xFFFF;
                let fresh = model::fresh_counts(s.before.image(), &s.head().unwrap());
                if fresh.iter().zip(s.before.counts()).all(same) {
                    s.refuse(0);
                }
            }
        },
    },
    Saboteur {
        name: "a count past G is compared too",
        spoil: |s| {
            if s.call == Call::CheckCounts
                && s.done()
                && s.before.counts().get(s.nodes()).map_or(false, |count| *count > 0)
            {
                *s.answer = Answer { number: 25, place: s.nodes() as u32, ..Answer::default() };
            }
        },
    },
    Saboteur {
        name: "the place of 25 is the highest node that differs",
        spoil: |s| {
            if s.number() == 25 {
                let fresh = model::fresh_counts(s.before.image(), &s.head().unwrap());
                let differs = |node: &usize| fresh[*node] != s.before.counts()[*node];
                s.answer.place = (0..fresh.len()).rev().find(differs).unwrap() as u32;
            }
        },
    },
    Saboteur {
        name: "the counts worked out lack the last node",
        spoil: |s| {
            if s.call == Call::Counts && s.done() {
                s.restore_count(s.nodes() - 1);
            }
        },
    },
    Saboteur {
        name: "a count past G is cleared",
        spoil: |s| {
            let past = s.head().map_or(0, |head| head.g as usize).saturating_add(1);
            if s.call == Call::Counts && s.done() && past < s.after.counts.len() {
                s.counts()[past] = 0;
            }
        },
    },
    Saboteur {
        name: "a node shorter than min is counted",
        spoil: |s| {
            if s.call == Call::Counts && s.done() {
                let min = u64::from(s.head().unwrap().min);
                s.recount(|depth| depth < min);
            }
        },
    },
    Saboteur {
        name: "a node deeper than max is counted",
        spoil: |s| {
            if s.call == Call::Counts && s.done() {
                let max = u64::from(s.head().unwrap().max);
                s.recount(|depth| depth > max);
            }
        },
    },
    Saboteur {
        name: "the call that works out counts answers the number of keys",
        spoil: |s| {
            if s.call == Call::Counts && s.done() {
                s.answer.value = u64::from(s.counts()[0]);
            }
        },
    },
    Saboteur {
        name: "a position by letters is one too high",
        spoil: |s| {
            if s.call == Call::Position && s.done() {
                s.answer.value += 1;
            }
        },
    },
    Saboteur {
        name: "a position by text is one too low",
        spoil: |s| {
            if s.call == Call::PositionText && s.done() {
                s.answer.value = s.answer.value.saturating_sub(1);
            }
        },
    },
    Saboteur {
        name: "a key's extensions stand before it",
        spoil: |s| {
            if s.call == Call::Position && s.done() {
                let (keys, key) = (s.stored_keys(), s.before.given());
                let under = keys
                    .iter()
                    .filter(|(longer, _)| longer.len() > key.len() && longer.starts_with(key))
                    .count();
                s.answer.value += under as u64;
            }
        },
    },
    Saboteur {
        name: "a key that is not stored has the position of the next",
        spoil: |s| {
            if s.call == Call::Position && s.number() == 15 {
                let before = s
                    .stored_keys()
                    .iter()
                    .filter(|(key, _)| model::comes_before(key, s.before.given()))
                    .count();
                *s.answer = Answer { value: before as u64, ..Answer::default() };
            }
        },
    },
    Saboteur {
        name: "key at answers the key before",
        spoil: |s| {
            if let (Call::KeyAt { position: 1.. }, true) = (s.call, s.done()) {
                let keys = s.stored_keys();
                let at = keys
                    .iter()
                    .position(|(key, _)| *key == s.after.key()[..s.answer.length as usize])
                    .unwrap();
                let (key, value) = &keys[at - 1];
                s.find(key, *value);
            }
        },
    },
    Saboteur {
        name: "the position after the last is the last",
        spoil: |s| {
            if let (Call::KeyAt { position }, 15) = (s.call, s.number()) {
                let keys = s.stored_keys();
                if position == keys.len() as u64 && position > 0 {
                    let (key, value) = &keys[keys.len() - 1];
                    s.find(key, *value);
                }
            }
        },
    },
    Saboteur {
        name: "a position is read in 32 bits",
        spoil: |s| {
            if let (Call::KeyAt { position }, 15) = (s.call, s.number()) {
                if let Some((key, value)) = s.stored_keys().get(position as u32 as usize) {
                    s.find(key, *value);
                }
            }
        },
    },
    Saboteur {
        name: "key at clears the rest of the key buffer",
        spoil: |s| {
            if matches!(s.call, Call::KeyAt { .. }) && s.done() {
                let rest = s.after.key.start + s.answer.length as usize..s.after.key.end;
                s.after.bytes[rest].fill(0);
            }
        },
    },
    Saboteur {
        name: "key at gives 15 before 14",
        spoil: |s| {
            if let (Call::KeyAt { position }, 14) = (s.call, s.number()) {
                if position >= s.stored_keys().len() as u64 {
                    s.refuse(15);
                }
            }
        },
    },
    Saboteur {
        name: "25 is given before 8",
        spoil: |s| {
            if s.call.compares_counts() && s.number() == 8 {
                let fresh = model::fresh_counts(s.before.image(), &s.head().unwrap());
                let differs = |node: &usize| fresh[*node] != s.before.counts()[*node];
                if let Some(node) = (0..fresh.len()).find(differs) {
                    *s.answer = Answer { number: 25, place: node as u32, ..Answer::default() };
                }
            }
        },
    },
    Saboteur {
        name: "a store with counts gives 9 before 25",
        spoil: |s| {
            if s.call.stores_counts() && s.number() == 25 {
                let head = s.head().unwrap();
                let lengths = head.min as usize..=head.max as usize;
                if s.letters().map_or(false, |letters| !lengths.contains(&letters.len())) {
                    s.refuse(9);
                }
            }
        },
    },
    Saboteur {
        name: "a store with counts gives 10 before 25",
        spoil: |s| {
            if s.call.stores_counts() && s.number() == 25 && s.letters().is_none() {
                s.refuse(10);
            }
        },
    },
    Saboteur {
        name: "the second 5 is given before 13",
        spoil: |s| {
            if s.call.stores_counts() && s.number() == 13 {
                let head = s.head().unwrap();
                let k =
                    model::new_nodes(s.before.image(), &head, &s.letters().unwrap(), s.value());
                if s.before.counts.len() < s.nodes() + k as usize {
                    s.refuse(5);
                }
            }
        },
    },
    Saboteur {
        name: "5 looks at the working numbers alone",
        spoil: |s| {
            if s.five_beside() == Some((true, false)) {
                s.pass_five();
            }
        },
    },
    Saboteur {
        name: "5 looks at the counts alone",
        spoil: |s| {
            if s.five_beside() == Some((false, true)) {
                s.pass_five();
            }
        },
    },
    Saboteur {
        name: "the working numbers are cleared though the list of counts is too short",
        spoil: |s| {
            if s.five_beside() == Some((true, false)) {
                let front = s.after.work.start..s.after.work.start + s.nodes();
                s.after.words[front].fill(0);
            }
        },
    },
    Saboteur {
        name: "the working numbers are not cleared when 25 is given",
        spoil: |s| {
            if s.number() == 25 {
                s.restore_work();
            }
        },
    },
    Saboteur {
        name: "the working numbers are not cleared at the second 5",
        spoil: |s| {
            if s.five_beside() == Some((true, true)) {
                s.restore_work();
            }
        },
    },
    Saboteur {
        name: "the check with counts mends the count that differs",
        spoil: |s| {
            if s.call == Call::CheckCounts && s.number() == 25 {
                let at = s.answer.place as usize;
                let right = model::fresh_counts(s.before.image(), &s.head().unwrap())[at];
                s.counts()[at] = right;
            }
        },
    },
    Saboteur {
        name: "a store that stops at its second 5 has changed the root's count",
        spoil: |s| {
            if s.five_beside() == Some((true, true)) {
                s.counts()[0] += 1;
            }
        },
    },
    Saboteur {
        name: "a store that stops at its second 5 has changed the image",
        spoil: |s| {
            if s.five_beside() == Some((true, true)) {
                s.set_g(s.g() + 1);
            }
        },
    },
    Saboteur {
        name: "a store clears the counts after the new G",
        spoil: |s| {
            let past = s.counted_store().map_or(usize::MAX, |_| s.g() as usize + 1);
            if past < s.after.counts.len() {
                s.counts()[past] = 0;
            }
        },
    },
];

/// The saboteurs that the cuts must report too, by the answers of a mended image and without the
/// model's own list of writes and mend.
pub const CUT_SABOTEURS: [Saboteur; 20] = [
    Saboteur {
        name: "in the list of writes the old link comes before G",
        spoil: |s| {
            if s.listed() && s.answer.length > 1 {
                let list = s.list();
                let end = list.len();
                list[end - 4..].rotate_left(2);
            }
        },
    },
    Saboteur {
        name: "in the list of writes the old link comes first",
        spoil: |s| {
            if s.listed() && s.answer.length > 1 {
                s.list().rotate_right(2);
            }
        },
    },
    Saboteur {
        name: "in the list of writes G comes before the nodes",
        spoil: |s| {
            if s.listed() && s.answer.length > 1 {
                let list = s.list();
                let end = list.len();
                list[..end - 2].rotate_right(2);
            }
        },
    },
    Saboteur {
        name: "the last write is missing",
        spoil: |s| {
            if s.listed() {
                s.answer.length = s.answer.length.saturating_sub(1);
            }
        },
    },
    Saboteur {
        name: "the number of writes is one too high",
        spoil: |s| {
            if s.listed() {
                s.answer.length += 1;
            }
        },
    },
    Saboteur {
        name: "the first write is a byte short",
        spoil: |s| {
            if s.listed() && s.answer.length > 0 {
                s.list()[1] -= 1;
            }
        },
    },
    Saboteur {
        name: "in the list of writes a data field has its last four bytes alone",
        spoil: |s| {
            if s.listed() && s.answer.length == 1 && s.list()[1] > 4 {
                let list = s.list();
                (list[0], list[1]) = (list[0] + list[1] - 4, 4);
            }
        },
    },
    Saboteur {
        name: "in the list of writes a data field is two writes, the last of four bytes",
        spoil: |s| {
            if s.listed() && s.answer.length == 1 && s.list()[1] > 4 {
                let (place, first) = (s.list()[0], s.list()[1] - 4);
                s.answer.length = 2;
                s.list().copy_from_slice(&[place, first, place + first, 4]);
            }
        },
    },
    Saboteur {
        name: "mend only checks",
        spoil: |s| {
            if s.lowered() {
                *s.answer = Answer { number: 8, place: s.g() + 1, ..Answer::default() };
                s.restore_image();
            }
        },
    },
    Saboteur {
        name: "mend lowers G of an accepted image",
        spoil: |s| {
            if s.call == Call::Mend && s.done() && !s.lowered() && s.g() > 0 {
                s.set_g(s.g() - 1);
            }
        },
    },
    Saboteur {
        name: "mend lowers G twice",
        spoil: |s| {
            if s.lowered() && s.g() > 0 {
                s.set_g(s.g() - 1);
            }
        },
    },
    Saboteur {
        name: "mend clears the spare bytes",
        spoil: |s| {
            if let Some(used) = s.used().filter(|_| s.lowered()) {
                let spare = s.after.image.start + used..s.after.image.end;
                s.after.bytes[spare].fill(0);
            }
        },
    },
    Saboteur {
        name: "mend gives 19 for data that is cut off",
        spoil: |s| {
            if s.lowered() {
                let cut_off = u64::from(s.g()) + 1..s.nodes() as u64;
                if let Some(node) = cut_off.into_iter().find(|node| s.data(*node) != 0) {
                    s.restore_image();
                    s.refuse_at(19, node);
                }
            }
        },
    },
    Saboteur {
        name: "a store of 0 drops the last node",
        spoil: |s| {
            if s.by_letters() && s.answer.change == -1 && s.passed().len() > 1 {
                let passed = s.passed();
                let (node, above) = (passed[passed.len() - 1], passed[passed.len() - 2]);
                if node as u32 == s.g() && s.links(node as u64).iter().all(|link| *link == 0) {
                    let head = s.head().unwrap();
                    let letter = s.before.given()[passed.len() - 2];
                    let at = s.after.image.start + head.link_at(above as u64, u64::from(letter));
                    s.after.bytes[at..at + head.a as usize].fill(0);
                    s.set_g(s.g() - 1);
                }
            }
        },
    },
    Saboteur {
        name: "a store leaves the root's count",
        spoil: |s| {
            if s.counted_store().is_some() {
                s.restore_count(0);
            }
        },
    },
    Saboteur {
        name: "a store leaves the count of the node above the key's own",
        spoil: |s| {
            let passed = if s.counted_store().is_some() { s.passed() } else { Vec::new() };
            if passed.len() > 2
                && passed.len() == s.letters().map_or(0, |letters| letters.len() + 1)
            {
                s.restore_count(passed[passed.len() - 2]);
            }
        },
    },
    Saboteur {
        name: "a store leaves the first new node's count as it was",
        spoil: |s| {
            if s.counted_store() > Some(0) {
                s.restore_count(s.nodes());
            }
        },
    },
    Saboteur {
        name: "a store leaves the last new node's count as it was",
        spoil: |s| {
            if s.counted_store() > Some(0) {
                s.restore_count(s.g() as usize);
            }
        },
    },
    Saboteur {
        name: "a changed value is counted once more",
        spoil: |s| {
            if s.counted_store() == Some(0) && s.answer.change == 0 && s.value() > 0 {
                s.passed().iter().for_each(|node| s.counts()[*node] += 1);
            }
        },
    },
    Saboteur {
        name: "a store of 0 on an incomplete path takes one from the counts",
        spoil: |s| {
            if s.counted_store() == Some(0) && s.answer.change == 0 && s.value() == 0 {
                let passed = s.passed();
                if passed.len() <= s.letters().map_or(0, |letters| letters.len()) {
                    passed
                        .iter()
                        .for_each(|node| s.counts()[*node] = s.counts()[*node].wrapping_sub(1));
                }
            }
        },
    },
];

/// The saboteurs of the crate's safe functions: what a wrapper can get wrong.
const WRAPPER_SABOTEURS: [Saboteur; 17] = [
    Saboteur {
        name: "the wrapper takes 19 for 16",
        spoil: |s| {
            if s.number() == 19 {
                s.answer.number = 16;
            }
        },
    },
    Saboteur {
        name: "the wrapper does not know 19",
        spoil: |s| {
            if s.number() == 19 {
                s.answer.number = UNKNOWN;
            }
        },
    },
    Saboteur {
        name: "the wrapper takes 16 for 15",
        spoil: |s| {
            if s.number() == 16 {
                s.answer.number = 15;
            }
        },
    },
    Saboteur { name: "the wrapper loses the place of a refusal", spoil: |s| s.answer.place = 0 },
    Saboteur {
        name: "the wrapper takes 7 for 6",
        spoil: |s| {
            if s.number() == 7 {
                s.answer.number = 6;
            }
        },
    },
    Saboteur {
        name: "the wrapper answers the change 0 for every store with counts",
        spoil: |s| {
            if s.call.stores_counts() {
                s.answer.change = 0;
            }
        },
    },
    Saboteur {
        name: "the wrapper gives Some(0) for an absent key",
        spoil: |s| {
            if s.call == Call::LookUp && s.done() && s.answer.value == 0 {
                s.answer.number = SOME_ZERO;
            }
        },
    },
    Saboteur {
        name: "the wrapper does not note the number of writes",
        spoil: |s| {
            if s.listed() {
                s.writes.resize(EARLIER, 0..4);
                s.answer.length = EARLIER as u32;
            }
        },
    },
    Saboteur {
        name: "the wrapper notes the number of writes of a refused store",
        spoil: |s| {
            if !s.done() {
                s.writes.clear();
            }
        },
    },
    Saboteur {
        name: "the wrapper takes text for letters",
        spoil: |s| {
            if s.call == Call::LookUpText {
                *s.answer = model::look_up(s.before.image(), s.before.given());
            }
        },
    },
    Saboteur {
        name: "the wrapper's key is one letter short",
        spoil: |s| {
            if matches!(s.call, Call::NextKey { .. } | Call::KeyAt { .. }) {
                s.answer.length = s.answer.length.saturating_sub(1);
            }
        },
    },
    Saboteur {
        name: "the wrapper exchanges the working numbers and the counts",
        spoil: |s| {
            if s.call == Call::Counts && s.done() {
                let fresh = model::fresh_counts(s.before.image(), &s.head().unwrap());
                let start = s.after.work.start;
                s.after.words[start..start + fresh.len()].copy_from_slice(&fresh);
                s.counts()[..fresh.len()].fill(0);
            }
        },
    },
    Saboteur {
        name: "the wrapper does not pass `after` on",
        spoil: |s| {
            if s.call == (Call::NextKey { after: true }) && !(1..=14).contains(&s.number()) {
                let key = s.after.key.clone();
                s.after.bytes[key.clone()].copy_from_slice(s.before.key());
                *s.answer = model::next_key(
                    s.before.image(),
                    &mut vec![0; s.nodes()],
                    s.before.given(),
                    false,
                    &mut s.after.bytes[key],
                );
            }
        },
    },
    Saboteur {
        name: "the wrapper does not pass the image's last byte on",
        spoil: |s| {
            if s.call == Call::Count && s.done() && s.used() == Some(s.after.image.len()) {
                s.refuse(4);
            }
        },
    },
    Saboteur {
        name: "the iterator gives the second key twice",
        spoil: |s| {
            if let Some(keys) = &mut s.keys {
                if let Some(Ok(second)) = keys.get(1).cloned() {
                    keys.insert(1, Ok(second));
                }
            }
        },
    },
    Saboteur {
        name: "the iterator gives 15 at its end",
        spoil: |s| {
            if let (Some(keys), 15) = (&mut s.keys, s.answer.number) {
                keys.push(Err((15, 0)));
            }
        },
    },
    Saboteur {
        name: "the iterator gives a refusal twice",
        spoil: |s| {
            if let Some(keys) = &mut s.keys {
                if let Some(Err(refusal)) = keys.last().cloned() {
                    keys.push(Err(refusal));
                }
            }
        },
    },
];

/// The number of writes in the list that a store with writes is passed.
const EARLIER: usize = 4;
