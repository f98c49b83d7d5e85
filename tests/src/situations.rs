//! Situations that the random cases must meet, besides each number of each call. A run that meets
//! one of them too seldom fails.

use crate::calls::Call;
use crate::damage::readable;
use crate::lists;
use crate::model::{self, Answer, Head};
use crate::renumbering::{rises, under};
use crate::twins::Asked;

/// A call with what was lent to it, and what the model answered.
pub struct Seen<'a> {
    asked: Asked<'a>,
    answer: Answer,
    /// The reached nodes with hidden data and their depths, if the call was refused with 19 in an
    /// image that is not huge.
    hidden: Vec<(u64, u64)>,
}

pub struct Situation {
    pub name: &'static str,
    pub met: fn(&Seen) -> bool,
}

/// The reached nodes that have data at a depth outside min..max, each with its depth. Only for an
/// image that passed 4.
fn hidden_data(image: &[u8]) -> Vec<(u64, u64)> {
    let head = Head::read(image);
    let depths = (0..).zip(model::depths(image, &head));
    depths
        .filter_map(|(node, depth)| Some((node, depth?)))
        .filter(|(_, depth)| model::outside(&head, *depth))
        .filter(|(node, _)| model::data(image, &head, *node) != 0)
        .collect()
}

impl Seen<'_> {
    pub fn new(asked: Asked<'_>, answer: Answer) -> Seen<'_> {
        let nineteen = answer.number == 19 && asked.image.len() < 1_000_000;
        let hidden = if nineteen { hidden_data(asked.image) } else { Vec::new() };
        Seen { asked, answer, hidden }
    }

    /// The call's row in `calls::KINDS`.
    pub fn kind(&self) -> usize {
        self.call().kind()
    }

    pub fn number(&self) -> u32 {
        self.answer.number
    }

    fn done(&self) -> bool {
        self.number() == 0
    }

    fn call(&self) -> Call {
        self.asked.call
    }

    /// The head at entry, of an image that has one.
    fn head(&self) -> Head {
        Head::read(self.asked.image)
    }

    fn image_len(&self) -> u128 {
        self.asked.image.len() as u128
    }

    fn is_make(&self) -> bool {
        matches!(self.call(), Call::Make { .. })
    }

    fn is_store(&self) -> bool {
        self.call().stored().is_some()
    }

    /// Whether it is a store with writes that was done, with this number of writes.
    fn lists(&self, writes: u32) -> bool {
        self.call().writes_len() > 0 && self.done() && self.answer.length == writes
    }

    /// For a mend that was done: the address that stood in no link, or 0 if the image was accepted
    /// as it was.
    fn mended_at(&self) -> Option<u32> {
        if self.call() == Call::Mend && self.done() {
            self.check().map(|answer| answer.place)
        } else {
            None
        }
    }

    fn is_look_up(&self) -> bool {
        matches!(self.call(), Call::LookUp | Call::LookUpText)
    }

    fn by_letters(&self) -> bool {
        matches!(
            self.call(),
            Call::Store { .. } | Call::StoreWrites { .. } | Call::StoreCounts { .. }
        )
    }

    fn by_text(&self) -> bool {
        matches!(
            self.call(),
            Call::StoreText { .. } | Call::StoreTextWrites { .. } | Call::StoreTextCounts { .. }
        )
    }

    fn is_next_key(&self) -> bool {
        matches!(self.call(), Call::NextKey { .. })
    }

    fn value(&self) -> u64 {
        self.call().stored().unwrap_or(0)
    }

    /// The number of nodes that are missing on the path of a store by letters.
    fn missing(&self) -> usize {
        if self.by_letters() && matches!(self.number(), 0 | 11 | 12 | 13) {
            self.asked.given.len()
                - model::path(self.asked.image, &self.head(), self.asked.given).1
        } else {
            0
        }
    }

    /// For a store by letters that was done on a complete path: the value from before it.
    fn old(&self) -> Option<u64> {
        let known = self.by_letters() && self.done() && self.missing() == 0;
        known.then(|| model::look_up(self.asked.image, self.asked.given).value)
    }

    /// For a call that answers a stored key's value: this value.
    fn found(&self) -> Option<u64> {
        let key_at = matches!(self.call(), Call::KeyAt { .. });
        let told = self.done() && (self.is_look_up() || self.is_next_key() || key_at);
        told.then_some(self.answer.value).filter(|value| *value > 0)
    }

    /// Whether a small image that the call accepted has such a value.
    fn holds(&self, fits: impl Fn(u64) -> bool) -> bool {
        let (image, head) = (self.asked.image, self.head());
        self.small() && (0..self.nodes() as u64).any(|node| fits(model::data(image, &head, node)))
    }

    /// For a call that was refused with 2 where D alone is outside its limits: D.
    fn refused_d(&self) -> Option<u32> {
        if self.number() != 2 {
            return None;
        }
        let (mut front, head) = ([0; 28], self.head());
        let (d, with_another) = match self.call() {
            Call::Make { n, a, d, min, max } => {
                (d, model::make(&mut front, n, a, 1, self.asked.given, min, max))
            }
            _ => {
                Head { d: 1, ..head }.write(&mut front);
                (head.d, model::check(&front, &mut []))
            }
        };
        (with_another.number != 2).then_some(d)
    }

    fn nodes(&self) -> usize {
        self.head().g as usize + 1
    }

    /// For a call with counts that was refused with 5: whether the working numbers were enough for
    /// the first 5, and whether the list was.
    fn five_beside(&self) -> Option<(bool, bool)> {
        if self.call().takes_counts() && self.number() == 5 {
            Some((self.asked.work_len >= self.nodes(), self.asked.counts.len() >= self.nodes()))
        } else {
            None
        }
    }

    /// The k of a store with counts by letters that stopped at 12, 13 or its second 5, or was
    /// done.
    fn k(&self) -> Option<usize> {
        let accepted =
            matches!(self.number(), 0 | 12 | 13) || self.five_beside() == Some((true, true));
        match self.call() {
            Call::StoreCounts { value } if accepted => {
                Some(model::new_nodes(self.asked.image, &self.head(), self.asked.given, value)
                    as usize)
            }
            _ => None,
        }
    }

    /// Whether the list of a store with counts has `more` numbers more than G+k, for k above 0.
    fn counts_past_k(&self, more: usize) -> bool {
        self.k().map_or(false, |k| k > 0 && self.asked.counts.len() + 1 == self.nodes() + k + more)
    }

    /// For a call with counts on a small image that was refused with 25: the right counts.
    fn differing(&self) -> Option<Vec<u32>> {
        if self.number() == 25 && self.small() {
            lists::right(self.asked.image)
        } else {
            None
        }
    }

    /// By how much the count at the place of 25 differs.
    fn off(&self) -> Option<u32> {
        let at = self.answer.place as usize;
        self.differing().map(|right| self.asked.counts[at].wrapping_sub(right[at]))
    }

    /// For a key at a position with right counts: the position, and the number of keys.
    fn position(&self) -> Option<(u64, u64)> {
        match self.call() {
            Call::KeyAt { position } if matches!(self.number(), 0 | 14 | 15) => {
                Some((position, u64::from(self.asked.counts[0])))
            }
            _ => None,
        }
    }

    fn is_position(&self) -> bool {
        matches!(self.call(), Call::Position | Call::PositionText)
    }

    fn characters(&self) -> usize {
        model::characters(self.asked.given).map_or(0, |found| found.len())
    }

    /// Whether the image is so small that what takes time is done for it.
    fn small(&self) -> bool {
        self.asked.image.len() < 300
    }

    /// What the check of a small image answers.
    fn check(&self) -> Option<Answer> {
        if self.small() {
            Some(model::check(self.asked.image, &mut [0; 300]))
        } else {
            None
        }
    }

    /// Whether the image is small and accepted, and one of its links does not rise.
    fn falls(&self) -> bool {
        self.check().map_or(false, |answer| answer.number == 0) && !rises(self.asked.image)
    }

    /// What the check answers for the image with the lower G that a mend tried, where 8 stays.
    fn trial(&self) -> Option<Answer> {
        if self.call() != Call::Mend || self.number() != 8 || !self.small() {
            return None;
        }
        let mut trial = self.asked.image.to_vec();
        Head { g: self.answer.place - 1, ..self.head() }.write(&mut trial);
        Some(model::check(&trial, &mut [0; 300]))
    }

    /// For each node, whether links lead to it from this node. Only for an image that passed 4.
    fn under(&self, node: u64) -> Vec<bool> {
        under(self.asked.image, &self.head(), node)
    }

    /// Whether the nodes of a small image include a cycle that is not reached from the root, for
    /// a call that passed 4.
    fn cycle_apart(&self) -> bool {
        let reached = if self.small() { self.under(0) } else { return false };
        (1..self.nodes()).any(|node| !reached[node] && self.under(node as u64)[node])
    }

    /// For 16 in a small image: for each node, whether it is reached; and whether the place is on
    /// a cycle.
    fn unreached(&self) -> Option<(Vec<bool>, bool)> {
        if self.number() != 16 || !self.small() {
            return None;
        }
        let place = self.answer.place;
        Some((self.under(0), self.under(u64::from(place))[place as usize]))
    }

    /// Whether a small image has hidden data, for a call that passed 4.
    fn hides(&self) -> bool {
        self.small() && !hidden_data(self.asked.image).is_empty()
    }

    /// Whether the call is refused with 19 in an image that is not huge, and what is hidden is so.
    fn nineteen(&self, is_so: impl Fn(&[(u64, u64)], &Head) -> bool) -> bool {
        !self.hidden.is_empty() && is_so(&self.hidden, &self.head())
    }

    /// The same, where all that is hidden would be inside min..max if the depth were counted
    /// otherwise.
    fn nineteen_missed(&self, otherwise: fn(u64) -> u64) -> bool {
        self.nineteen(|hidden, head| {
            hidden.iter().all(|(_, depth)| !model::outside(head, otherwise(*depth)))
        })
    }

    /// For a call that passed the check of a chain with one link in a node: the node at a depth,
    /// if there is one.
    fn chain_at(&self, depth: u64) -> Option<u64> {
        if self.is_make() || self.is_look_up() || !matches!(self.number(), 0 | 25) {
            return None;
        }
        let (image, head) = (self.asked.image, self.head());
        if head.n > 1 || depth > u64::from(head.g) {
            return None;
        }
        Some((0..depth).fold(0, |node, _| model::link(image, &head, node, 0)))
    }

    /// Whether a small image has a node at such a depth, for a call that passed 4.
    fn has_node_at(&self, fits: impl Fn(u64, &Head) -> bool) -> bool {
        let (image, head) = (self.asked.image, self.head());
        self.small()
            && model::depths(image, &head).into_iter().flatten().any(|depth| fits(depth, &head))
    }

    /// For a store by letters that took a key away: the key's own node.
    fn emptied(&self) -> Option<u64> {
        let taken = self.by_letters() && self.answer.change == -1;
        taken.then(|| model::path(self.asked.image, &self.head(), self.asked.given).0)
    }

    /// The nodes that the key of a call by letters passes, as far as its links go, if the call did
    /// not refuse the image or the key.
    fn passed(&self) -> Vec<u64> {
        let judged = match self.call() {
            Call::LookUp => matches!(self.number(), 0 | 6),
            _ => self.by_letters() && self.done(),
        };
        let (image, head, mut passed) = (self.asked.image, readable(self.asked.image), vec![0]);
        if let (true, Some(head)) = (judged, head) {
            for letter in self.asked.given {
                let node = passed[passed.len() - 1];
                match model::link(image, &head, node, u64::from(*letter)) {
                    0 => break,
                    next if next > u64::from(head.g) => break,
                    next => passed.push(next),
                }
            }
        }
        passed
    }

    /// Whether one of these nodes is not above the one before it.
    fn passes_lower(&self) -> bool {
        self.passed().windows(2).any(|pair| pair[1] <= pair[0])
    }
}

pub const SITUATIONS: [Situation; 211] = [
    Situation {
        name: "1: the image is shorter than 28",
        met: |s| s.number() == 1 && s.image_len() < 28,
    },
    Situation {
        name: "1: the image is longer than 16,777,216",
        met: |s| s.number() == 1 && s.image_len() > 28,
    },
    Situation {
        name: "an image of 16,777,216 bytes, done",
        met: |s| s.done() && s.image_len() == 16_777_216,
    },
    Situation {
        name: "a chain of four million nodes, done",
        met: |s| s.done() && s.head().g > 4_000_000 && !s.is_make(),
    },
    Situation {
        name: "2: F above 1,024 in a short image",
        met: |s| s.number() == 2 && !s.is_make() && s.head().f > 1_024,
    },
    Situation {
        name: "2: min above max",
        met: |s| s.number() == 2 && !s.is_make() && s.head().min > s.head().max,
    },
    Situation {
        name: "2: D is 0, the other fields are permitted",
        met: |s| !s.is_make() && s.refused_d() == Some(0),
    },
    Situation {
        name: "2: D is 9, the other fields are permitted",
        met: |s| !s.is_make() && s.refused_d() == Some(9),
    },
    Situation { name: "make: 2, D is 9", met: |s| s.is_make() && s.refused_d() == Some(9) },
    Situation {
        name: "make: done, D is 5 to 7",
        met: |s| s.done() && matches!(s.call(), Call::Make { d: 5..=7, .. }),
    },
    Situation {
        name: "make: done, W is 1,032",
        met: |s| s.done() && matches!(s.call(), Call::Make { n: 256, a: 4, d: 8, .. }),
    },
    Situation {
        name: "3: the last character is cut at F, its missing bytes follow",
        met: cut_at_f,
    },
    Situation {
        name: "3: U exceeds the length too",
        met: |s| s.number() == 3 && !s.is_make() && s.head().u() > s.image_len(),
    },
    Situation {
        name: "4: the F bytes are not all inside",
        met: |s| s.number() == 4 && !s.is_make() && s.image_len() < 28 + u128::from(s.head().f),
    },
    Situation {
        name: "4: one byte is missing",
        met: |s| s.number() == 4 && !s.is_make() && s.head().u() == s.image_len() + 1,
    },
    Situation {
        name: "4: U in 32 bits lies inside the image",
        met: |s| {
            s.number() == 4 && !s.is_make() && u128::from(s.head().u() as u32) <= s.image_len()
        },
    },
    Situation {
        name: "4: G is FFFFFFFF",
        met: |s| s.number() == 4 && !s.is_make() && s.head().g == u32::MAX,
    },
    Situation {
        name: "4: the nodes would fit with four bytes of data",
        met: |s| {
            let narrower = |head: Head| Head { d: 4, ..head }.u() <= s.image_len();
            s.number() == 4 && !s.is_make() && s.head().d > 4 && narrower(s.head())
        },
    },
    Situation {
        name: "W above 1,028: done",
        met: |s| s.done() && !s.is_make() && s.head().w() > 1_028,
    },
    Situation {
        name: "W is 1,032: store with new nodes",
        met: |s| s.answer.change == 1 && s.missing() > 0 && s.head().w() == 1_032,
    },
    Situation {
        name: "5: G working numbers",
        met: |s| s.number() == 5 && s.asked.work_len as u64 == u64::from(s.head().g),
    },
    Situation {
        name: "5: a link is broken too",
        met: |s| s.number() == 5 && s.check().map_or(false, |answer| answer.number == 6),
    },
    Situation {
        name: "5: a node is not reached too",
        met: |s| s.number() == 5 && s.check().map_or(false, |answer| answer.number == 16),
    },
    Situation {
        name: "5: data is hidden too",
        met: |s| s.number() == 5 && s.check().map_or(false, |answer| answer.number == 19),
    },
    Situation { name: "6: a link to G+1", met: link_past_g },
    Situation {
        name: "6: data is hidden too",
        met: |s| s.number() == 6 && !s.is_look_up() && s.hides(),
    },
    Situation { name: "7: data is hidden too", met: |s| s.number() == 7 && s.hides() },
    Situation { name: "8: data is hidden too", met: |s| s.number() == 8 && s.hides() },
    Situation { name: "16: data is hidden too", met: |s| s.number() == 16 && s.hides() },
    Situation {
        name: "16: data is hidden in a lower node",
        met: |s| {
            s.number() == 16
                && s.hides()
                && hidden_data(s.asked.image)[0].0 < u64::from(s.answer.place)
        },
    },
    Situation { name: "19: the root alone", met: |s| s.nineteen(|hidden, _| hidden == [(0, 0)]) },
    Situation {
        name: "19: shorter than min, not at the root",
        met: |s| s.nineteen(|hidden, head| hidden[0].0 > 0 && hidden[0].1 < u64::from(head.min)),
    },
    Situation {
        name: "19: one node, one step above min",
        met: |s| {
            s.nineteen(|hidden, head| hidden.len() == 1 && hidden[0].1 + 1 == u64::from(head.min))
        },
    },
    Situation {
        name: "19: one node, one step below max",
        met: |s| {
            s.nineteen(|hidden, head| hidden.len() == 1 && hidden[0].1 == u64::from(head.max) + 1)
        },
    },
    Situation {
        name: "19: shorter than min and deeper than max",
        met: |s| {
            s.nineteen(|hidden, head| {
                let shorter = hidden.iter().filter(|(_, depth)| *depth < u64::from(head.min));
                (1..hidden.len()).contains(&shorter.count())
            })
        },
    },
    Situation {
        name: "19: the lowest node has not the least depth",
        met: |s| s.nineteen(|hidden, _| hidden.iter().any(|(_, depth)| *depth < hidden[0].1)),
    },
    Situation {
        name: "19: the lowest node has the least depth, another is deeper",
        met: |s| {
            s.nineteen(|hidden, _| {
                hidden.iter().all(|(_, depth)| *depth >= hidden[0].1)
                    && hidden.iter().any(|(_, depth)| *depth > hidden[0].1)
            })
        },
    },
    Situation { name: "19: max is 0", met: |s| s.nineteen(|_, head| head.max == 0) },
    Situation {
        name: "19: min is max, above 0",
        met: |s| s.nineteen(|_, head| head.min == head.max && head.max > 0),
    },
    Situation {
        name: "19: all links rise",
        met: |s| s.nineteen(|_, head| head.g > 3) && rises(s.asked.image),
    },
    Situation {
        name: "19: a link does not rise",
        met: |s| s.nineteen(|_, _| true) && !rises(s.asked.image),
    },
    Situation {
        name: "19: one node, at depth 65",
        met: |s| {
            s.nineteen(|hidden, head| hidden.len() == 1 && hidden[0].1 == 65 && head.max == 64)
        },
    },
    Situation {
        name: "19: one node, at depth 66",
        met: |s| {
            s.nineteen(|hidden, head| hidden.len() == 1 && hidden[0].1 == 66 && head.max == 64)
        },
    },
    Situation {
        name: "19: inside min..max if the depth stops at 64",
        met: |s| s.nineteen_missed(|depth| depth.min(64)),
    },
    Situation {
        name: "19: inside min..max if the depth is counted modulo 65",
        met: |s| s.nineteen_missed(|depth| depth % 65),
    },
    Situation {
        name: "19: inside min..max if the depth is counted in 8 bits",
        met: |s| s.nineteen_missed(|depth| depth % 256),
    },
    Situation {
        name: "19: inside min..max if the depth is counted in 16 bits",
        met: |s| s.nineteen_missed(|depth| depth % 65_536),
    },
    Situation {
        name: "19: deeper than 65,536, at any depth",
        met: |s| s.nineteen(|hidden, _| hidden.iter().any(|(_, depth)| *depth > 65_536)),
    },
    Situation {
        name: "19: the last byte of its data is 0",
        met: |s| {
            s.number() == 19
                && model::data(s.asked.image, &s.head(), u64::from(s.answer.place)) % 256 == 0
        },
    },
    Situation {
        name: "19: the low 32 bits of all hidden data are 0",
        met: |s| {
            let data = |node| model::data(s.asked.image, &s.head(), node);
            s.nineteen(|hidden, _| hidden.iter().all(|(node, _)| low_is_0(data(*node))))
        },
    },
    Situation {
        name: "19: all hidden data is 2^63 or more",
        met: |s| {
            let data = |node| model::data(s.asked.image, &s.head(), node);
            s.nineteen(|hidden, _| hidden.iter().all(|(node, _)| data(*node) >= 1 << 63))
        },
    },
    Situation {
        name: "19: at an address above 255",
        met: |s| s.number() == 19 && s.answer.place > 255,
    },
    Situation {
        name: "19: at an address above 65,535",
        met: |s| s.number() == 19 && s.answer.place > 65_535,
    },
    Situation {
        name: "19: the key of a store is refused too",
        met: |s| {
            s.number() == 19
                && s.by_letters()
                && matches!(model::look_up(s.asked.image, s.asked.given).number, 9 | 10)
        },
    },
    Situation {
        name: "19: the key buffer is too short too",
        met: |s| s.number() == 19 && s.is_next_key() && s.asked.key_len < s.head().max as usize,
    },
    Situation { name: "19: the counts differ too", met: |s| counts_beside_hidden(s, false) },
    Situation {
        name: "19: the counts are those of the stored keys",
        met: |s| counts_beside_hidden(s, true),
    },
    Situation {
        name: "accepted: data at depth 64",
        met: |s| {
            let node = s.chain_at(64);
            node.map_or(false, |node| model::data(s.asked.image, &s.head(), node) > 0)
        },
    },
    Situation { name: "accepted: empty nodes deeper than 64", met: |s| s.chain_at(65).is_some() },
    Situation {
        name: "accepted: empty nodes deeper than 65,536",
        met: |s| s.chain_at(0).is_some() && s.head().g > 65_536,
    },
    Situation {
        name: "accepted: stored keys beside empty nodes deeper than max",
        met: |s| {
            s.call() == Call::Count
                && s.answer.value > 0
                && s.has_node_at(|depth, head| depth > u64::from(head.max))
        },
    },
    Situation {
        name: "6: beside it a cycle that is not reached",
        met: |s| s.number() == 6 && !s.is_look_up() && s.cycle_apart(),
    },
    Situation {
        name: "7: a node links to itself",
        met: |s| s.number() == 7 && s.small() && links_to(s, s.answer.place, s.answer.place),
    },
    Situation {
        name: "7: a link to an ancestor",
        met: |s| {
            let place = s.answer.place;
            s.number() == 7
                && s.small()
                && !links_to(s, place, place)
                && s.under(0)[place as usize]
                && s.under(u64::from(place))[place as usize]
        },
    },
    Situation {
        name: "7: beside it a cycle that is not reached",
        met: |s| s.number() == 7 && s.cycle_apart(),
    },
    Situation {
        name: "8: beside it a cycle that is not reached",
        met: |s| s.number() == 8 && s.cycle_apart(),
    },
    Situation {
        name: "8: a lower node is not reached",
        met: |s| {
            s.number() == 8 && s.small() && s.under(0)[1..s.answer.place as usize].contains(&false)
        },
    },
    Situation {
        name: "16: its place is on a cycle",
        met: |s| s.unreached().map_or(false, |(_, on_cycle)| on_cycle),
    },
    Situation {
        name: "16: its place is not on a cycle",
        met: |s| s.unreached().map_or(false, |(_, on_cycle)| !on_cycle),
    },
    Situation {
        name: "16: its place links to itself",
        met: |s| s.unreached().is_some() && links_to(s, s.answer.place, s.answer.place),
    },
    Situation {
        name: "16: nodes below and above its place are reached",
        met: |s| {
            let place = s.answer.place as usize;
            s.unreached()
                .map_or(false, |(reached, _)| place > 1 && reached[place..].contains(&true))
        },
    },
    Situation {
        name: "16: the root alone is reached",
        met: |s| s.unreached().map_or(false, |(reached, _)| !reached.contains(&true)),
    },
    Situation {
        name: "16: at an address above 255",
        met: |s| s.number() == 16 && s.answer.place > 255,
    },
    Situation {
        name: "16: the key of a store is refused too",
        met: |s| {
            s.number() == 16
                && s.by_letters()
                && matches!(model::look_up(s.asked.image, s.asked.given).number, 9 | 10)
        },
    },
    Situation {
        name: "accepted where a link does not rise: check",
        met: |s| s.call() == Call::Check && s.done() && s.falls(),
    },
    Situation {
        name: "accepted where a link does not rise: number of keys, above 2",
        met: |s| s.call() == Call::Count && s.answer.value > 2 && s.falls(),
    },
    Situation {
        name: "accepted where a link does not rise: next key found",
        met: |s| s.is_next_key() && s.done() && s.falls(),
    },
    Situation {
        name: "accepted where a link does not rise: 25",
        met: |s| s.number() == 25 && s.falls(),
    },
    Situation {
        name: "accepted where a link does not rise: the key at a position",
        met: |s| s.position().is_some() && s.done() && s.falls(),
    },
    Situation {
        name: "accepted where a link does not rise: store with new nodes",
        met: |s| s.missing() > 0 && s.answer.change == 1 && s.falls(),
    },
    Situation {
        name: "accepted where a link does not rise: store with counts",
        met: |s| s.call().stores_counts() && s.answer.change != 0 && s.falls(),
    },
    Situation {
        name: "a store passes a lower node, then adds nodes",
        met: |s| s.missing() > 0 && s.answer.change == 1 && s.passes_lower(),
    },
    Situation {
        name: "a store with counts passes a lower node",
        met: |s| s.call().stores_counts() && s.answer.change != 0 && s.passes_lower(),
    },
    Situation {
        name: "8: an address that A bytes cannot hold",
        met: |s| s.number() == 8 && u64::from(s.head().g) > model::greatest(s.head().a),
    },
    Situation {
        name: "look up: found",
        met: |s| s.is_look_up() && s.done() && s.answer.value > 0,
    },
    Situation {
        name: "look up: absent",
        met: |s| s.is_look_up() && s.done() && s.answer.value == 0,
    },
    Situation {
        name: "look up: found, the low 32 bits of the value are 0",
        met: |s| s.is_look_up() && s.found().map_or(false, low_is_0),
    },
    Situation {
        name: "look up: found, the value is 2^63 or more",
        met: |s| s.is_look_up() && s.found() >= Some(1 << 63),
    },
    Situation {
        name: "look up: found, the value is 2^64 - 1",
        met: |s| s.is_look_up() && s.found() == Some(u64::MAX),
    },
    Situation {
        name: "look up: the empty key found",
        met: |s| s.is_look_up() && s.answer.value > 0 && s.asked.given.is_empty(),
    },
    Situation {
        name: "look up: a key of 64 letters found",
        met: |s| s.call() == Call::LookUp && s.answer.value > 0 && s.asked.given.len() == 64,
    },
    Situation {
        name: "look up: done where the check refuses",
        met: |s| s.is_look_up() && s.done() && s.check().map_or(false, |a| a.number > 0),
    },
    Situation {
        name: "look up: another place of 6 than the check",
        met: |s| {
            s.is_look_up()
                && s.number() == 6
                && s.check().map_or(false, |a| a.number == 6 && a.place != s.answer.place)
        },
    },
    Situation {
        name: "look up: found under a lower node",
        met: |s| s.call() == Call::LookUp && s.answer.value > 0 && s.passes_lower(),
    },
    Situation {
        name: "look up: 6 under a lower node",
        met: |s| s.call() == Call::LookUp && s.number() == 6 && s.passes_lower(),
    },
    Situation {
        name: "look up: found after a node was passed twice",
        met: |s| {
            let mut passed = s.passed();
            let many = passed.len();
            passed.sort();
            passed.dedup();
            s.call() == Call::LookUp && s.answer.value > 0 && passed.len() < many
        },
    },
    Situation {
        name: "look up: done where the check gives 16",
        met: |s| s.is_look_up() && s.done() && s.check().map_or(false, |a| a.number == 16),
    },
    Situation {
        name: "look up: found where the check gives 19",
        met: |s| {
            s.is_look_up()
                && s.answer.value > 0
                && s.check().map_or(false, |answer| answer.number == 19)
        },
    },
    Situation {
        name: "look up: 9 for a key whose data is hidden",
        met: |s| {
            let asked_for = |hidden: &(u64, u64)| {
                let (last, far) = model::path(s.asked.image, &s.head(), s.asked.given);
                far == s.asked.given.len() && last == hidden.0
            };
            s.call() == Call::LookUp
                && s.number() == 9
                && s.asked.given.iter().all(|letter| u32::from(*letter) < s.head().n)
                && s.check().map_or(false, |answer| answer.number == 19)
                && hidden_data(s.asked.image).iter().any(asked_for)
        },
    },
    Situation {
        name: "9: shorter than min",
        met: |s| s.number() == 9 && (s.asked.given.len() as u32) < s.head().min,
    },
    Situation {
        name: "9: a letter is bad too",
        met: |s| {
            s.number() == 9 && s.asked.given.iter().any(|letter| u32::from(*letter) >= s.head().n)
        },
    },
    Situation {
        name: "9: a text of more than 64 characters",
        met: |s| s.number() == 9 && s.call() == Call::LookUpText && s.characters() > 64,
    },
    Situation {
        name: "10: a text longer than max too",
        met: |s| {
            s.number() == 10
                && s.call() == Call::LookUpText
                && s.characters() as u32 > s.head().max
        },
    },
    Situation {
        name: "10: text, well-formed, a character outside the alphabet",
        met: text_outside,
    },
    Situation { name: "10: text, ill-formed", met: bad_text },
    Situation {
        name: "10: text, F is 0",
        met: |s| s.number() == 10 && s.call() == Call::LookUpText && s.head().f == 0,
    },
    Situation {
        name: "text: the empty text where F is 0, done",
        met: |s| s.call() == Call::LookUpText && s.done() && s.head().f == 0,
    },
    Situation {
        name: "N is 256: letter 255 done",
        met: |s| s.call() == Call::LookUp && s.done() && s.asked.given.contains(&255),
    },
    Situation {
        name: "F is 1,024: done",
        met: |s| s.done() && !s.is_make() && s.head().f == 1_024,
    },
    Situation {
        name: "11: the path is complete",
        met: |s| s.number() == 11 && s.by_letters() && s.missing() == 0,
    },
    Situation {
        name: "11: 256^D, D is 1 to 3",
        met: |s| eleven_at_the_limit(s) && s.head().d < 4,
    },
    Situation { name: "11: 2^32, D is 4", met: |s| eleven_at_the_limit(s) && s.head().d == 4 },
    Situation {
        name: "11: 256^D, D is 5 to 7",
        met: |s| eleven_at_the_limit(s) && s.head().d > 4,
    },
    Situation {
        name: "11: 2^64 - 1, D is 4 or more",
        met: |s| s.number() == 11 && s.value() == u64::MAX && s.head().d >= 4,
    },
    Situation {
        name: "11: the low 32 bits of the value would fit, and are not 0",
        met: |s| {
            let low = s.value() & 0xFFFF_FFFF;
            s.number() == 11 && low > 0 && low <= model::greatest(s.head().d)
        },
    },
    Situation {
        name: "12: there is room",
        met: |s| s.number() == 12 && s.head().u() + 64 * s.head().w() <= s.image_len(),
    },
    Situation {
        name: "12: there is no room either",
        met: |s| s.number() == 12 && s.head().u() + s.head().w() > s.image_len(),
    },
    Situation {
        name: "12: one of two addresses is left",
        met: |s| s.number() == 12 && s.missing() == 2 && s.head().g == 254,
    },
    Situation { name: "12: A is 2", met: |s| s.number() == 12 && s.head().a == 2 },
    Situation {
        name: "13: there is room for one node",
        met: |s| s.number() == 13 && s.head().u() + s.head().w() <= s.image_len(),
    },
    Situation {
        name: "13: the new nodes would fit with four bytes of data",
        met: |s| {
            let fits = |w: u128| s.head().u() + s.missing() as u128 * w <= s.image_len();
            s.number() == 13 && s.missing() > 0 && s.head().d > 4 && {
                fits(Head { d: 4, ..s.head() }.w())
            }
        },
    },
    Situation {
        name: "store: exact room for two nodes or more",
        met: |s| {
            s.missing() > 1
                && s.answer.change == 1
                && s.head().u() + s.missing() as u128 * s.head().w() == s.image_len()
        },
    },
    Situation {
        name: "store: the last address of one byte is given",
        met: |s| {
            s.done()
                && s.missing() > 0
                && s.value() > 0
                && s.head().a == 1
                && s.missing() as u32 + s.head().g == 255
        },
    },
    Situation {
        name: "store: 64 new nodes",
        met: |s| s.done() && s.missing() == 64 && s.value() > 0,
    },
    Situation {
        name: "store: 0 on an incomplete path, full image",
        met: |s| s.done() && s.missing() > 0 && s.value() == 0 && s.head().u() == s.image_len(),
    },
    Situation { name: "store: -1", met: |s| s.answer.change == -1 },
    Situation {
        name: "store: a changed value",
        met: |s| s.is_store() && s.done() && s.answer.change == 0 && s.value() > 0,
    },
    Situation {
        name: "store: 1 on a complete path",
        met: |s| s.by_letters() && s.answer.change == 1 && s.missing() == 0,
    },
    Situation {
        name: "store: -1 at a node without links, which stays",
        met: |s| {
            s.emptied().map_or(false, |node| {
                let link = |letter| model::link(s.asked.image, &s.head(), node, letter);
                node > 0 && (0..u64::from(s.head().n)).all(|letter| link(letter) == 0)
            })
        },
    },
    Situation {
        name: "store: -1 at a node above empty ones deeper than max",
        met: |s| s.emptied().is_some() && s.has_node_at(|depth, head| depth > u64::from(head.max)),
    },
    Situation {
        name: "store: new nodes beside empty ones deeper than max",
        met: |s| {
            s.missing() > 0
                && s.answer.change == 1
                && s.has_node_at(|depth, head| depth > u64::from(head.max))
        },
    },
    Situation { name: "store: 2^32 - 1, D is 4", met: |s| stores_the_most(s, 4) },
    Situation { name: "store: 2^40 - 1, D is 5", met: |s| stores_the_most(s, 5) },
    Situation { name: "store: 2^48 - 1, D is 6", met: |s| stores_the_most(s, 6) },
    Situation { name: "store: 2^56 - 1, D is 7", met: |s| stores_the_most(s, 7) },
    Situation { name: "store: 2^64 - 1, D is 8", met: |s| stores_the_most(s, 8) },
    Situation {
        name: "store: 2^64 - 1 with new nodes",
        met: |s| stores_the_most(s, 8) && s.missing() > 0,
    },
    Situation {
        name: "store: 2^63 to 2^64 - 2",
        met: |s| s.is_store() && s.done() && (1 << 63..u64::MAX).contains(&s.value()),
    },
    Situation {
        name: "store: 1 with new nodes, the low 32 bits of the value are 0",
        met: |s| s.answer.change == 1 && s.missing() > 0 && low_is_0(s.value()),
    },
    Situation {
        name: "store: 1 on a complete path, the low 32 bits of the value are 0",
        met: |s| s.answer.change == 1 && s.old().is_some() && low_is_0(s.value()),
    },
    Situation {
        name: "store: a changed value, the low 32 bits of the old one are 0",
        met: |s| s.value() > 0 && s.old().map_or(false, low_is_0),
    },
    Situation {
        name: "store: -1, the low 32 bits of the old value are 0",
        met: |s| s.value() == 0 && s.old().map_or(false, low_is_0),
    },
    Situation {
        name: "store: the low 32 bits stay, the others change",
        met: |s| {
            let old = s.old().filter(|old| *old != s.value());
            old.map_or(false, |old| old as u32 == s.value() as u32)
        },
    },
    Situation { name: "list of writes: empty", met: |s| s.lists(0) },
    Situation { name: "list of writes: one write", met: |s| s.lists(1) },
    Situation {
        name: "list of writes: one write, of five to seven bytes",
        met: |s| s.lists(1) && (5..8).contains(&s.head().d),
    },
    Situation {
        name: "list of writes: one write, of eight bytes",
        met: |s| s.lists(1) && s.head().d == 8,
    },
    Situation {
        name: "list of writes: three writes, D is 8",
        met: |s| s.lists(3) && s.head().d == 8,
    },
    Situation {
        name: "list of writes: one write, of the value already there",
        met: |s| {
            s.lists(1)
                && s.by_letters()
                && s.value() > 0
                && model::look_up(s.asked.image, s.asked.given).value == s.value()
        },
    },
    Situation { name: "list of writes: three writes", met: |s| s.lists(3) },
    Situation { name: "list of writes: 66 writes", met: |s| s.lists(66) },
    Situation { name: "mend: accepted as it is", met: |s| s.mended_at() == Some(0) },
    Situation {
        name: "mend: G lowered by one",
        met: |s| s.mended_at().map_or(false, |p| p == s.head().g && p > 0),
    },
    Situation {
        name: "mend: G lowered by more",
        met: |s| s.mended_at().map_or(false, |p| p < s.head().g && p > 0),
    },
    Situation { name: "mend: G lowered to 0", met: |s| s.mended_at() == Some(1) },
    Situation {
        name: "mend: G lowered, D is 5 to 8",
        met: |s| s.mended_at().map_or(false, |p| p > 0) && s.head().d > 4,
    },
    Situation {
        name: "mend: G lowered, with more working numbers than needed",
        met: |s| {
            s.mended_at().map_or(false, |p| p > 0)
                && s.asked.work_len as u64 > u64::from(s.head().g) + 1
        },
    },
    Situation {
        name: "mend: G lowered where a link does not rise",
        met: |s| {
            let mended = s.mended_at().filter(|p| *p > 0);
            mended.map_or(false, |p| {
                let mut left = s.asked.image.to_vec();
                Head { g: p - 1, ..s.head() }.write(&mut left);
                !rises(&left)
            })
        },
    },
    Situation {
        name: "mend: 8 stays, for a node before the gap links past it",
        met: |s| s.trial().map_or(false, |answer| answer.number == 6),
    },
    Situation {
        name: "mend: 8 stays, for a lower node stood in a link after the gap",
        met: |s| s.trial().map_or(false, |answer| answer.number == 8),
    },
    Situation {
        name: "mend: 8 stays, for a lower node is not reached",
        met: |s| s.trial().map_or(false, |answer| answer.number == 16),
    },
    Situation {
        name: "mend: 8 stays, for data is hidden in a lower node",
        met: |s| s.trial().map_or(false, |answer| answer.number == 19),
    },
    Situation {
        name: "mend: G lowered, data is cut off",
        met: |s| {
            let (image, head) = (s.asked.image, readable(s.asked.image));
            let data = |node| head.map_or(0, |head| model::data(image, &head, u64::from(node)));
            s.mended_at()
                .map_or(false, |p| p > 0 && (p..s.nodes() as u32).any(|node| data(node) > 0))
        },
    },
    Situation {
        name: "next key: the key given is shorter than min",
        met: |s| s.is_next_key() && s.done() && (s.asked.given.len() as u32) < s.head().min,
    },
    Situation {
        name: "next key: the empty key found",
        met: |s| s.is_next_key() && s.done() && s.answer.length == 0,
    },
    Situation {
        name: "next key: shorter than the key given",
        met: |s| s.is_next_key() && s.done() && (s.answer.length as usize) < s.asked.given.len(),
    },
    Situation {
        name: "next key: the low 32 bits of its value are 0",
        met: |s| s.is_next_key() && s.found().map_or(false, low_is_0),
    },
    Situation {
        name: "next key: its value is 2^63 or more",
        met: |s| s.is_next_key() && s.found() >= Some(1 << 63),
    },
    Situation {
        name: "count: above 2, and some nodes are empty",
        met: |s| {
            s.call() == Call::Count && s.answer.value > 2 && s.answer.value < s.nodes() as u64
        },
    },
    Situation {
        name: "count: the number of nodes",
        met: |s| s.call() == Call::Count && s.done() && s.answer.value == s.nodes() as u64,
    },
    Situation {
        name: "count: the low 32 bits of a value are 0",
        met: |s| s.call() == Call::Count && s.done() && s.holds(low_is_0),
    },
    Situation {
        name: "counts worked out: the low 32 bits of a value are 0",
        met: |s| s.call() == Call::Counts && s.done() && s.holds(low_is_0),
    },
    Situation {
        name: "counts compared: the low 32 bits of a value are 0",
        met: |s| s.call() == Call::CheckCounts && s.done() && s.holds(low_is_0),
    },
    Situation {
        name: "5 beside counts: the working numbers alone are short",
        met: |s| s.five_beside() == Some((false, true)),
    },
    Situation {
        name: "5 beside counts: the list alone is short",
        met: |s| s.five_beside() == Some((true, false)),
    },
    Situation {
        name: "5 beside counts: both are short",
        met: |s| s.five_beside() == Some((false, false)),
    },
    Situation {
        name: "5 beside counts: a list of G",
        met: |s| {
            s.five_beside()
                .map_or(false, |(work, _)| work && s.asked.counts.len() + 1 == s.nodes())
        },
    },
    Situation {
        name: "5 beside counts: the list alone is short, a link is broken too",
        met: |s| {
            s.five_beside() == Some((true, false))
                && s.check().map_or(false, |answer| answer.number == 6)
        },
    },
    Situation {
        name: "5 again: a list of G+k",
        met: |s| s.five_beside() == Some((true, true)) && s.counts_past_k(0),
    },
    Situation {
        name: "5 again: a list of G+1, two nodes or more are missing",
        met: |s| {
            s.five_beside() == Some((true, true))
                && s.asked.counts.len() == s.nodes()
                && s.k() > Some(1)
        },
    },
    Situation {
        name: "5 again: by text",
        met: |s| s.five_beside() == Some((true, true)) && s.by_text(),
    },
    Situation {
        name: "12: the list of counts is too short too",
        met: |s| s.number() == 12 && short_for_k(s),
    },
    Situation {
        name: "13: the list of counts is too short too",
        met: |s| s.number() == 13 && short_for_k(s),
    },
    Situation {
        name: "store with counts: new nodes, a list of G+k+1",
        met: |s| s.done() && s.counts_past_k(1),
    },
    Situation {
        name: "store with counts: new nodes, a longer list",
        met: |s| {
            s.done() && s.k().map_or(false, |k| k > 0 && s.asked.counts.len() > s.nodes() + k)
        },
    },
    Situation { name: "store with counts: 64 new nodes", met: |s| s.done() && s.k() == Some(64) },
    Situation {
        name: "store with counts: -1",
        met: |s| s.call().stores_counts() && s.answer.change == -1,
    },
    Situation {
        name: "store with counts: 1 on a complete path",
        met: |s| s.k() == Some(0) && s.value() > 0 && s.answer.change == 1,
    },
    Situation {
        name: "store with counts: a changed value",
        met: |s| s.call().stores_counts() && s.done() && s.answer.change == 0 && s.value() > 0,
    },
    Situation {
        name: "store with counts: 0 on an incomplete path, a list of G+1",
        met: |s| {
            s.done()
                && s.k() == Some(0)
                && s.value() == 0
                && s.missing() > 0
                && s.asked.counts.len() == s.nodes()
        },
    },
    Situation { name: "25: one too high", met: |s| s.off() == Some(1) },
    Situation { name: "25: one too low", met: |s| s.off() == Some(u32::MAX) },
    Situation {
        name: "25: right in 16 bits",
        met: |s| s.off().map_or(false, |off| off & 0xFFFF == 0),
    },
    Situation {
        name: "25: at G alone",
        met: |s| s.number() == 25 && s.answer.place == s.head().g && s.head().g > 1,
    },
    Situation {
        name: "25: at the root alone",
        met: |s| s.differing().map_or(false, |right| right[1..] == s.asked.counts[1..right.len()]),
    },
    Situation {
        name: "25: at a node that no stored key passes",
        met: |s| {
            s.differing()
                .map_or(false, |right| right[s.answer.place as usize] == 0 && s.answer.place > 0)
        },
    },
    Situation { name: "25: at a node deeper than max", met: deeper_than_max },
    Situation {
        name: "25: nodes shorter than min are counted",
        met: |s| nodes_are_counted(s, |depth, head| depth < u64::from(head.min)),
    },
    Situation {
        name: "25: nodes deeper than max are counted",
        met: |s| nodes_are_counted(s, |depth, head| depth > u64::from(head.max)),
    },
    Situation {
        name: "25: the key of a store is refused too",
        met: |s| {
            s.number() == 25
                && s.call().stores_counts()
                && s.by_letters()
                && model::look_up(s.asked.image, s.asked.given).number > 0
        },
    },
    Situation {
        name: "key at: the first of two or more",
        met: |s| s.done() && s.position().map_or(false, |(at, keys)| at == 0 && keys > 1),
    },
    Situation {
        name: "key at: the last of three or more",
        met: |s| s.done() && s.position().map_or(false, |(at, keys)| keys > 2 && at + 1 == keys),
    },
    Situation {
        name: "key at: the empty key",
        met: |s| s.done() && s.position().is_some() && s.answer.length == 0,
    },
    Situation {
        name: "key at: the low 32 bits of its value are 0",
        met: |s| s.position().is_some() && s.found().map_or(false, low_is_0),
    },
    Situation {
        name: "key at: its value is 2^63 or more",
        met: |s| s.position().is_some() && s.found() >= Some(1 << 63),
    },
    Situation {
        name: "key at: 15, the number of keys",
        met: |s| {
            s.number() == 15 && s.position().map_or(false, |(at, keys)| at == keys && keys > 0)
        },
    },
    Situation {
        name: "key at: 15, a position that is there in 32 bits",
        met: |s| {
            s.number() == 15 && s.position().map_or(false, |(at, keys)| (at & 0xFFFF_FFFF) < keys)
        },
    },
    Situation {
        name: "key at: 14, past the end too",
        met: |s| s.number() == 14 && s.position().map_or(false, |(at, keys)| at >= keys),
    },
    Situation {
        name: "position: above 2",
        met: |s| s.is_position() && s.done() && s.answer.value > 2,
    },
    Situation { name: "position: 15 on a complete path", met: |s| not_stored(s, true) },
    Situation { name: "position: 15 on an incomplete path", met: |s| not_stored(s, false) },
];

/// Whether a value is not 0, but its low 32 bits are.
fn low_is_0(value: u64) -> bool {
    value > 0 && value as u32 == 0
}

/// Whether a store was refused with 11 for the first value that D bytes cannot hold.
fn eleven_at_the_limit(s: &Seen) -> bool {
    s.number() == 11 && s.value() - 1 == model::greatest(s.head().d)
}

/// Whether a store of the greatest value in D bytes was done, for this D.
fn stores_the_most(s: &Seen, d: u32) -> bool {
    s.is_store() && s.done() && s.head().d == d && s.value() == model::greatest(d)
}

fn short_for_k(s: &Seen) -> bool {
    s.k().map_or(false, |k| s.asked.counts.len() < s.nodes() + k)
}

/// Whether the counts lent to a call that answered 25 count each node at such a depth as a key.
fn nodes_are_counted(s: &Seen, at: fn(u64, &Head) -> bool) -> bool {
    s.differing().map_or(false, |right| {
        let wrong = lists::too_many(s.asked.image, |depth| at(depth, &s.head()));
        s.asked.counts[..right.len()] == wrong[..]
    })
}

/// Whether a call that compares counts answered 19 in a small image, and its list is or is not
/// that of the stored keys.
fn counts_beside_hidden(s: &Seen, of_stored_keys: bool) -> bool {
    if s.number() != 19 || !s.call().compares_counts() || !s.small() {
        return false;
    }
    let fresh = model::fresh_counts(s.asked.image, &s.head());
    (s.asked.counts[..fresh.len()] == fresh[..]) == of_stored_keys
}

/// Whether the place of 25 is deeper than max. Its depth is found by climbing from it to the root.
fn deeper_than_max(s: &Seen) -> bool {
    if s.differing().is_none() {
        return false;
    }
    let (image, head) = (s.asked.image, s.head());
    let above = |node: u64| {
        (0..=u64::from(head.g)).filter(|_| node > 0).find(|parent| {
            (0..u64::from(head.n)).any(|letter| model::link(image, &head, *parent, letter) == node)
        })
    };
    let climbed = std::iter::successors(Some(u64::from(s.answer.place)), |node| above(*node));
    climbed.count() > head.max as usize + 1
}

fn not_stored(s: &Seen, complete: bool) -> bool {
    let path = |letters: &[u8]| model::path(s.asked.image, &s.head(), letters).1;
    s.call() == Call::Position
        && s.number() == 15
        && (path(s.asked.given) == s.asked.given.len()) == complete
}

fn link_past_g(s: &Seen) -> bool {
    s.number() == 6 && s.head().g < u32::MAX && links_to(s, s.answer.place, s.head().g + 1)
}

/// Whether a node has a link to an address. Only for an image that passed 4.
fn links_to(s: &Seen, node: u32, address: u32) -> bool {
    let link = |letter| model::link(s.asked.image, &s.head(), u64::from(node), letter);
    (0..u64::from(s.head().n)).any(|letter| link(letter) == u64::from(address))
}

fn bad_text(s: &Seen) -> bool {
    s.number() == 10
        && matches!(s.call(), Call::LookUpText | Call::StoreText { .. })
        && model::characters(s.asked.given).is_none()
}

fn text_outside(s: &Seen) -> bool {
    s.number() == 10
        && matches!(s.call(), Call::LookUpText | Call::StoreText { .. })
        && model::characters(s.asked.given).is_some()
        && s.head().f > 0
}

fn cut_at_f(s: &Seen) -> bool {
    if s.number() != 3 || s.is_make() || readable(s.asked.image).is_none() {
        return false;
    }
    let head = s.head();
    let longer = |more: u32| {
        let bytes = s.asked.image.get(28..28 + (head.f + more) as usize);
        bytes.and_then(model::characters).map_or(false, |found| found.len() == head.n as usize)
    };
    (1..=3).any(longer)
}
