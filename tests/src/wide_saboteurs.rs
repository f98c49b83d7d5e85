//! The saboteurs of request 6: data of up to eight bytes, and values of 64 bits. Each is tried in
//! each call that can show it, and spoils that call alone. Most of them make the call once more,
//! as the model does it, with another value, on another head, or as if some data were 0.

use super::*;
use crate::calls::ask_model;
use crate::model::greatest;

/// The low 32 bits of a value.
const LOW: u64 = 0xFFFF_FFFF;

/// A saboteur, and the calls in which it is tried, one after the other.
struct InEach {
    saboteur: Saboteur,
    calls: fn(&str) -> bool,
}

const fn in_each(calls: fn(&str) -> bool, name: &'static str, spoil: fn(&mut Spoiled)) -> InEach {
    InEach { saboteur: Saboteur { name, spoil }, calls }
}

/// Each saboteur in each of its calls.
pub fn all() -> impl Iterator<Item = Sabotage> {
    let of = |each: &'static InEach, in_wrapper: bool| {
        let sabotage = Sabotage { in_wrapper, ..Sabotage::of_library(&each.saboteur) };
        let calls = KINDS.iter().map(|kind| kind.name).filter(|call| (each.calls)(call));
        calls.map(move |call| Sabotage { call: Some(call), ..sabotage })
    };
    let of_library = WIDE_SABOTEURS.iter().flat_map(move |each| of(each, false));
    of_library.chain(WIDE_WRAPPER_SABOTEURS.iter().flat_map(move |each| of(each, true)))
}

// The calls that can show something, by their names.
const CALLS: fn(&str) -> bool = |_| true;
const READING: fn(&str) -> bool = |call| call != "make";
const STORES: fn(&str) -> bool = |call| call.starts_with("store");
const COUNTED: fn(&str) -> bool = |call| STORES(call) && call.ends_with("counts");
/// Those that answer a key's value.
const FINDING: fn(&str) -> bool =
    |call| call.starts_with("look_up") || call == "next_key" || call == "key_at";
const NEXT_KEY: fn(&str) -> bool = |call| call == "next_key";

impl Spoiled<'_> {
    /// The head at entry, if the call passed 4.
    fn opened(&self) -> Option<Head> {
        let refused = (1..=4).contains(&self.number());
        self.head().filter(|_| !refused && !matches!(self.call, Call::Make { .. }))
    }

    /// D at entry, if the call passed 4; else 0.
    fn d(&self) -> u32 {
        self.opened().map_or(0, |head| head.d)
    }

    /// Takes over the list that the model left, as a wrapper's `Writes` has it.
    fn note_list(&mut self) {
        if self.listed() {
            let range = |write: &[u32]| write[0] as usize..(write[0] + write[1]) as usize;
            *self.writes = self.list().chunks(2).map(range).collect();
        }
    }

    /// Makes the store with another value.
    fn store_instead(&mut self, value: u64) {
        let call = match self.call {
            Call::Store { .. } => Call::Store { value },
            Call::StoreText { .. } => Call::StoreText { value },
            Call::StoreWrites { .. } => Call::StoreWrites { value },
            Call::StoreTextWrites { .. } => Call::StoreTextWrites { value },
            Call::StoreCounts { .. } => Call::StoreCounts { value },
            Call::StoreTextCounts { .. } => Call::StoreTextCounts { value },
            other => other,
        };
        self.after.copy_from(self.before);
        *self.answer = ask_model(call, self.after.lent());
        self.note_list();
    }

    /// Refuses with 11 a store that was done with such a value and D.
    fn refuse_value(&mut self, refused: impl Fn(u64, u32) -> bool) {
        if self.is_store() && self.done() && refused(self.value(), self.d()) {
            let nodes = self.nodes();
            self.after.copy_from(self.before);
            let start = self.after.work.start;
            self.after.words[start..start + nodes].fill(0);
            self.refuse(11);
        }
    }

    /// Changes the value that a done call found.
    fn find_otherwise(&mut self, otherwise: impl Fn(u64, u32) -> u64) {
        if self.done() && self.answer.value > 0 {
            self.answer.value = otherwise(self.answer.value, self.d());
        }
    }

    /// The offset in the arena of a node's data.
    fn data_in_arena(&self, head: &Head, node: u64) -> Range<usize> {
        let at = self.after.image.start + head.data_at(node);
        at..at + head.d as usize
    }

    /// For a store whose key has a complete path at entry, in an image with good links: the key's
    /// own node.
    fn own_node(&self) -> Option<u64> {
        if !self.is_store() || matches!(self.number(), 5..=8 | 16) {
            return None;
        }
        let (head, letters) = (self.opened()?, self.letters()?);
        let (last, far) = model::path(self.before.image(), &head, &letters);
        Some(last).filter(|_| far == letters.len())
    }

    /// For a store that was done: the data field that it wrote, if it wrote one.
    fn written_data(&self) -> Option<Range<usize>> {
        if !self.is_store() || !self.done() {
            return None;
        }
        let (old, new) = (self.opened()?, self.g());
        let node = if new > old.g { Some(u64::from(new)) } else { self.own_node() };
        node.map(|node| self.data_in_arena(&old, node))
    }

    /// Makes the call as if such data were 0, if there is some. It is still there afterwards, but
    /// where a store wrote.
    fn overlook(&mut self, overlooked: impl Fn(u64, u32) -> bool) {
        let head = match self.opened() {
            Some(head) => head,
            None => return,
        };
        let nodes: Vec<u64> = (0..self.nodes() as u64)
            .filter(|node| self.data(*node) != 0 && overlooked(self.data(*node), head.d))
            .collect();
        if nodes.is_empty() {
            return;
        }
        let own = self.own_node();
        self.after.copy_from(self.before);
        for node in &nodes {
            let data = self.data_in_arena(&head, *node);
            self.after.bytes[data].fill(0);
        }
        *self.answer = ask_model(self.call, self.after.lent());
        self.note_list();
        let written = own.filter(|_| self.done());
        for node in nodes.into_iter().filter(|node| Some(*node) != written) {
            let data = self.data_in_arena(&head, node);
            self.after.bytes[data.clone()].copy_from_slice(&self.before.bytes[data]);
        }
    }

    /// The D of a call that passed 1: that of the head or, for a make, the one given.
    fn judged_d(&self) -> Option<u32> {
        let head = self.head().filter(|_| self.number() != 1)?;
        match self.call {
            Call::Make { d, .. } => Some(d),
            _ => Some(head.d),
        }
    }

    /// Makes the call as if D, where it is such a number, were another one. The head keeps its D.
    fn mistake_d(&mut self, mistaken: impl Fn(u32) -> bool, another: u32) {
        let d = match self.judged_d().filter(|d| mistaken(*d)) {
            Some(d) => d,
            None => return,
        };
        self.after.copy_from(self.before);
        let (call, start) = (self.call, self.after.image.start + 12);
        let set_d = |s: &mut Spoiled, d: u32| {
            model::write_number(&mut s.after.bytes[start..start + 4], u64::from(d));
        };
        if let Call::Make { n, a, min, max, .. } = call {
            let made = Call::Make { n, a, d: another, min, max };
            *self.answer = ask_model(made, self.after.lent());
        } else {
            set_d(self, another);
            *self.answer = ask_model(call, self.after.lent());
        }
        self.note_list();
        if self.done() || !matches!(call, Call::Make { .. }) {
            set_d(self, d);
        }
    }

    /// Refuses with 2 a call whose D is such a number.
    fn refuse_d(&mut self, refused: impl Fn(u32) -> bool) {
        if self.judged_d().map_or(false, refused) {
            self.after.copy_from(self.before);
            self.refuse(2);
        }
    }

    /// For a store that was done on a complete path: the value from before it.
    fn old(&self) -> Option<u64> {
        self.own_node().filter(|_| self.done()).map(|node| self.data(node))
    }
}

/// 1 for a value that is not 0, as the change counts it.
fn present(value: u64) -> i32 {
    i32::from(value != 0)
}

const WIDE_SABOTEURS: &[InEach] = &[
    // the value on its way in
    in_each(STORES, "the value is cut to 32 bits", |s| {
        if s.value() > LOW {
            s.store_instead(s.value() & LOW);
        }
    }),
    in_each(STORES, "the value is cut to 32 bits once 11 is judged", |s| {
        if s.done() && s.value() > LOW {
            s.store_instead(s.value() & LOW);
        }
    }),
    in_each(STORES, "a value whose low 32 bits are 0 is taken for 0", |s| {
        if s.done() && s.value() & LOW == 0 {
            s.store_instead(0);
        }
    }),
    in_each(STORES, "a value whose low 32 bits are 0 builds no nodes", |s| {
        if s.done() && s.value() & LOW == 0 && s.own_node().is_none() {
            s.store_instead(0);
        }
    }),
    in_each(STORES, "a value of 2^63 or more is taken for 0", |s| {
        if s.done() && s.value() >= 1 << 63 {
            s.store_instead(0);
        }
    }),
    // 11
    in_each(STORES, "11 is judged on the low 32 bits", |s| {
        if s.number() == 11 && s.value() & LOW <= greatest(s.d()) {
            s.store_instead(s.value() & LOW);
        }
    }),
    in_each(STORES, "11 is never given for D = 4", |s| {
        if s.number() == 11 && s.d() == 4 {
            s.store_instead(s.value() & LOW);
        }
    }),
    in_each(STORES, "11 is never given for D of 5 to 7", |s| {
        if s.number() == 11 && s.d() > 4 {
            s.store_instead(s.value() & greatest(s.d()));
        }
    }),
    in_each(STORES, "11 is not given for 256^D", |s| {
        if s.number() == 11 && s.value() - 1 == greatest(s.d()) {
            s.store_instead(0);
        }
    }),
    in_each(STORES, "11 is given for 256^D - 1, D is below 5", |s| {
        s.refuse_value(|value, d| d < 5 && value == greatest(d));
    }),
    in_each(STORES, "11 is given for 256^D - 1, D is 5 to 7", |s| {
        s.refuse_value(|value, d| (5..8).contains(&d) && value == greatest(d));
    }),
    in_each(STORES, "11 is given for 2^64 - 1, D is 8", |s| {
        s.refuse_value(|value, d| d == 8 && value == u64::MAX);
    }),
    in_each(STORES, "11 is given from 2^63 on, D is 8", |s| {
        s.refuse_value(|value, d| d == 8 && value >= 1 << 63);
    }),
    in_each(STORES, "11 is given for every value but 0, D is 8: (1 << 64) - 1 is 0", |s| {
        s.refuse_value(|value, d| d == 8 && value > 0);
    }),
    in_each(STORES, "11 is given from 2^32 on, D is 5 to 8", |s| {
        s.refuse_value(|value, d| d > 4 && value > LOW);
    }),
    in_each(STORES, "11 is given above 256^(D-4) - 1, D is 5 to 8", |s| {
        s.refuse_value(|value, d| d > 4 && value > greatest(d - 4));
    }),
    // a store's data field
    in_each(STORES, "only the last four bytes of a data field are written", |s| {
        if let Some(data) = s.written_data().filter(|data| data.len() > 4) {
            let first = data.start..data.end - 4;
            if s.own_node().is_some() {
                s.after.bytes[first.clone()].copy_from_slice(&s.before.bytes[first]);
            } else {
                s.after.bytes[first].fill(0);
            }
        }
    }),
    in_each(STORES, "only the first four bytes of a data field are written", |s| {
        if let Some(data) = s.written_data().filter(|data| data.len() > 4) {
            let last = data.start + 4..data.end;
            if s.own_node().is_some() {
                s.after.bytes[last.clone()].copy_from_slice(&s.before.bytes[last]);
            } else {
                s.after.bytes[last].fill(0);
            }
        }
    }),
    in_each(STORES, "the bytes before the last four are cleared by a store", |s| {
        if let Some(data) = s.written_data().filter(|data| data.len() > 4) {
            s.after.bytes[data.start..data.end - 4].fill(0);
        }
    }),
    in_each(STORES, "13 goes by four bytes of data", |s| {
        if s.number() == 13 && s.d() > 4 {
            let (head, letters) = (s.opened().unwrap(), s.letters().unwrap());
            let k = model::new_nodes(s.before.image(), &head, &letters, s.value());
            let w = Head { d: 4, ..head }.w();
            if head.u() + u128::from(k) * w <= s.before.image.len() as u128 {
                *s.answer = Answer { change: 1, ..Answer::default() };
            }
        }
    }),
    // the change
    in_each(STORES, "the change goes by the low 32 bits of the old value", |s| {
        if let Some(old) = s.old() {
            s.answer.change = present(s.value()) - present(old & LOW);
        }
    }),
    in_each(STORES, "the change goes by the low 32 bits of the new value", |s| {
        if s.done() {
            s.answer.change = present(s.value() & LOW) - present(s.old().unwrap_or(0));
        }
    }),
    in_each(STORES, "the change goes by the sign of the old value", |s| {
        if let Some(old) = s.old() {
            s.answer.change = present(s.value()) - i32::from(old as i64 > 0);
        }
    }),
    in_each(COUNTED, "the counts of a store go by the low 32 bits of the new value", |s| {
        if s.answer.change == 1 && s.value() & LOW == 0 {
            let counts = s.after.counts.clone();
            s.after.words[counts.clone()].copy_from_slice(&s.before.words[counts]);
        }
    }),
    in_each(COUNTED, "the counts of a store go by the low 32 bits of the old value", |s| {
        if s.old().map_or(false, |old| old > 0 && old & LOW == 0) {
            let (right, wrong) = (s.answer.change, present(s.value()));
            for node in s.passed() {
                let count = &mut s.counts()[node];
                *count = count.wrapping_add((wrong - right) as u32);
            }
        }
    }),
    // the value on its way out
    in_each(FINDING, "the value found is cut to 32 bits", |s| {
        s.find_otherwise(|value, _| value & LOW);
    }),
    in_each(FINDING, "the value found is that of the first four bytes", |s| {
        s.find_otherwise(|value, d| value >> (8 * d.saturating_sub(4)));
    }),
    in_each(FINDING, "the value found is that of seven bytes at most", |s| {
        s.find_otherwise(|value, _| value & greatest(7));
    }),
    in_each(FINDING, "the value found lacks its top bit", |s| {
        s.find_otherwise(|value, _| value & !(1 << 63));
    }),
    in_each(FINDING, "the value found is 0, D is 8: (1 << 64) - 1 is 0", |s| {
        s.find_otherwise(|value, d| if d == 8 { 0 } else { value });
    }),
    in_each(FINDING, "the value found is that of D - 4 bytes, D is 5 to 8", |s| {
        s.find_otherwise(|value, d| if d > 4 { value & greatest(d - 4) } else { value });
    }),
    // data that is compared with 0
    in_each(READING, "data whose low 32 bits are 0 counts as nothing", |s| {
        s.overlook(|data, _| data & LOW == 0);
    }),
    in_each(READING, "data of 2^63 or more counts as nothing", |s| {
        s.overlook(|data, _| data >= 1 << 63);
    }),
    in_each(READING, "all data counts as nothing, D is 8: (1 << 64) - 1 is 0", |s| {
        s.overlook(|_, d| d == 8);
    }),
    in_each(READING, "data below 2^32 counts as nothing, D is 5 to 8", |s| {
        s.overlook(|data, d| d > 4 && data <= LOW);
    }),
    in_each(READING, "data whose last D - 4 bytes are 0 counts as nothing, D is 5 to 8", |s| {
        s.overlook(|data, d| d > 4 && data & greatest(d - 4) == 0);
    }),
    // D in the head
    in_each(CALLS, "D = 8 is refused with 2", |s| s.refuse_d(|d| d == 8)),
    in_each(CALLS, "D of 5 to 7 is refused with 2", |s| s.refuse_d(|d| (5..8).contains(&d))),
    in_each(CALLS, "D = 9 is accepted", |s| s.mistake_d(|d| d == 9, 8)),
    in_each(CALLS, "D of 5 to 8 is taken for 4", |s| s.mistake_d(|d| (5..9).contains(&d), 4)),
    in_each(READING, "4 goes by four bytes of data, D is 5 to 8", |s| {
        if s.number() == 4 {
            s.mistake_d(|d| (5..9).contains(&d), 4);
        }
    }),
];

/// What a wrapper can get wrong with a value.
const WIDE_WRAPPER_SABOTEURS: &[InEach] = &[
    in_each(STORES, "the wrapper cuts the value to 32 bits", |s| {
        if s.value() > LOW {
            s.store_instead(s.value() & LOW);
        }
    }),
    in_each(FINDING, "the wrapper cuts the value found to 32 bits", |s| {
        s.find_otherwise(|value, _| value & LOW);
    }),
    in_each(NEXT_KEY, "the iterator cuts a value to 32 bits", |s| {
        if let Some(keys) = &mut s.keys {
            for (_, value) in keys.iter_mut().flatten() {
                *value &= LOW;
            }
        }
    }),
];
