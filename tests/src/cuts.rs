//! Cuts: what request 1 of document 02 asks of a store that is cut. The library's own list of
//! writes is carried out on the image from before the store, up to every cut. Each image that is
//! left is mended, and then the calls that read are made on it. The expected answers come from a
//! map of last values that is kept beside the image. Each store is made with counts too, with the
//! list that the store before left or, after a cut, with one that is worked out afresh.

use crate::calls::{ask_library, Call, Pointers};
use crate::keys;
use crate::model::{self, greatest, Answer, Head};
use crate::progress::Progress;
use crate::renumbering::{self, renumbered, rises};
use crate::report;
use crate::rng::Rng;
use crate::saboteurs::{Sabotage, CUT_SABOTEURS};
use crate::shapes::Shape;
use crate::small::{self, Key};
use crate::twins::{Asked, Twins};
use std::collections::BTreeMap;
use std::ops::Range;
use std::ptr::NonNull;
use std::sync::atomic::{AtomicU64, Ordering};
use std::sync::Mutex;

/// A run stops after this number of failures.
const ENOUGH: usize = 5;

/// A write to spare bytes is tried with every set of its bytes landed if it has at most this
/// number of bytes.
const EVERY_PART: usize = 4;

/// The values of the stored keys, in 01's order: a key comes before its extensions.
type Stored = BTreeMap<Vec<u8>, u64>;

/// An accepted image and what it holds.
#[derive(Clone)]
struct Held {
    image: Vec<u8>,
    stored: Stored,
    /// Its counts, if a store with counts has left them.
    counts: Option<Vec<u32>>,
}

impl Held {
    fn of(image: Vec<u8>) -> Held {
        let stored = model::stored_keys(&image, &Head::read(&image)).into_iter().collect();
        Held { image, stored, counts: None }
    }
}

/// What was tried: the images to begin with, those of them in which a link does not rise, the
/// stores that were not refused, those of them that change a data field of more than four bytes
/// alone, the images that the cuts left, and of these images those with a write that landed in
/// part and those whose G was lowered.
#[derive(Clone, Copy, Default)]
pub struct Tried {
    pub images: u64,
    pub falling: u64,
    pub stores: u64,
    pub wide: u64,
    pub cuts: u64,
    pub partly: u64,
    pub lowered: u64,
    pub failed: usize,
}

impl Tried {
    fn add(&mut self, other: &Tried) {
        self.images += other.images;
        self.falling += other.falling;
        self.stores += other.stores;
        self.wide += other.wide;
        self.cuts += other.cuts;
        self.partly += other.partly;
        self.lowered += other.lowered;
        self.failed += other.failed;
    }
}

fn claim(holds: bool, broken: impl Fn() -> String) -> Result<(), String> {
    if holds {
        Ok(())
    } else {
        Err(broken())
    }
}

/// Whether the key has a text. Without an alphabet only the empty key has one.
fn has_text(key: &Key) -> bool {
    key.letters.is_empty() || !key.text.is_empty()
}

/// Calls the library alone, without the model, and makes only calls that change no image. They
/// change the working numbers, the key buffer and the counts.
struct Reader {
    work: Vec<u32>,
    key: [u8; 64],
    counts: Vec<u32>,
    /// Chooses the position to be tried: the positions come in turn.
    turn: usize,
}

impl Reader {
    fn ask(&mut self, call: Call, image: &[u8], given: &[u8]) -> Answer {
        let lent = Pointers {
            image: (image.as_ptr() as *mut u8, image.len()),
            given: (given.as_ptr() as *mut u8, given.len()),
            key: (self.key.as_mut_ptr(), self.key.len()),
            work: (self.work.as_mut_ptr(), self.work.len()),
            writes: NonNull::dangling().as_ptr(),
            counts: (self.counts.as_mut_ptr(), self.counts.len()),
        };
        unsafe { ask_library(call, &lent) }
    }

    /// Looks up the keys by letters and, if they have a text, by text. Only an image that is not
    /// mended yet may refuse a lookup.
    fn look_ups(
        &mut self,
        image: &[u8],
        stored: &Stored,
        keys: &[Key],
        mended: bool,
    ) -> Result<(), String> {
        for key in keys {
            let expected = Answer {
                value: stored.get(&key.letters).copied().unwrap_or(0),
                ..Answer::default()
            };
            let by_letters = self.ask(Call::LookUp, image, &key.letters);
            let by_text = if has_text(key) {
                self.ask(Call::LookUpText, image, &key.text)
            } else {
                by_letters
            };
            for found in [by_letters, by_text] {
                if found != expected && (mended || found.number == 0) {
                    return Err(format!(
                        "mended {mended}: look up of {:?} gives {found:?}, not {expected:?}",
                        key.letters
                    ));
                }
            }
        }
        Ok(())
    }

    /// Makes the calls that read on a mended image.
    fn all(&mut self, image: &[u8], stored: &Stored, keys: &[Key]) -> Result<(), String> {
        let checked = self.ask(Call::Check, image, &[]);
        claim(checked == Answer::default(), || {
            format!("the check of the mended image gives {checked:?}")
        })?;
        self.look_ups(image, stored, keys, true)?;
        let counted = self.ask(Call::Count, image, &[]);
        claim(counted == Answer { value: stored.len() as u64, ..Answer::default() }, || {
            format!("the number of keys is {counted:?}")
        })?;
        let mut last: &[u8] = &[];
        for (i, (key, value)) in stored.iter().enumerate() {
            let next = self.ask(Call::NextKey { after: i > 0 }, image, last);
            let expected = Answer { length: key.len() as u32, value: *value, ..Answer::default() };
            claim(next == expected && self.key[..key.len()] == key[..], || {
                format!("after {last:?} comes {next:?}, not {key:?}")
            })?;
            last = key;
        }
        let end = self.ask(Call::NextKey { after: !stored.is_empty() }, image, last);
        claim(end.number == 15, || format!("after the last key comes {end:?}"))?;
        self.positions(image, stored)
    }

    /// The library works the counts out afresh, in a list of G+1 numbers that keeps what it held
    /// before.
    fn work_out_counts(&mut self, image: &[u8]) -> Result<(), String> {
        let nodes = Head::read(image).g as usize + 1;
        self.work.resize(nodes, 7);
        self.counts.resize(nodes, 7);
        let answer = self.ask(Call::Counts, image, &[]);
        claim(answer == Answer::default(), || {
            format!("the call that works out counts gives {answer:?}")
        })
    }

    /// The counts worked out afresh are not refused. With them one of the keys is found by its
    /// position, and its position by the key, or no key is found past the last position.
    fn positions(&mut self, image: &[u8], stored: &Stored) -> Result<(), String> {
        self.work_out_counts(image)?;
        let checked = self.ask(Call::CheckCounts, image, &[]);
        claim(checked == Answer::default(), || {
            format!("the check with the counts {:?} gives {checked:?}", self.counts)
        })?;
        claim(self.counts[0] as usize == stored.len(), || {
            format!("the root's count is {}", self.counts[0])
        })?;
        self.turn += 1;
        let position = self.turn % (stored.len() + 1);
        let found = self.ask(Call::KeyAt { position: position as u64 }, image, &[]);
        let (key, value) = match stored.iter().nth(position) {
            Some(stored) => stored,
            None => {
                return claim(found.number == 15, || {
                    format!("past the last position stands {found:?}")
                })
            }
        };
        let expected = Answer { length: key.len() as u32, value: *value, ..Answer::default() };
        claim(found == expected && self.key[..key.len()] == key[..], || {
            format!("at position {position} stands {found:?}, not {key:?}")
        })?;
        let stands = self.ask(Call::Position, image, key);
        claim(stands == Answer { value: position as u64, ..Answer::default() }, || {
            format!("the position of {key:?} is {stands:?}")
        })
    }
}

/// One thread's work.
struct Worker {
    twins: Twins,
    rng: Rng,
    reader: Reader,
    /// Spoils the store with writes, the store with counts and mend. It must be found without the
    /// model.
    sabotage: Option<Sabotage>,
    done: Tried,
}

impl Worker {
    fn new(seed: u64, sabotage: Option<Sabotage>) -> Worker {
        let reader = Reader { work: Vec::new(), key: [0; 64], counts: Vec::new(), turn: 0 };
        Worker {
            twins: Twins::default(),
            rng: Rng::new(seed),
            reader,
            sabotage,
            done: Tried::default(),
        }
    }

    fn begins_with(&mut self, held: &Held) {
        self.done.images += 1;
        self.done.falling += u64::from(!rises(&held.image));
    }

    fn ask(&mut self, call: Call, image: &[u8], given: &[u8]) -> Result<Answer, String> {
        self.ask_beside(call, image, given, &[])
    }

    /// Makes a call, lent enough working numbers, and compares it with the model.
    fn ask_beside(
        &mut self,
        call: Call,
        image: &[u8],
        given: &[u8],
        counts: &[u32],
    ) -> Result<Answer, String> {
        let work_len = Head::read(image).g as usize + 1 + self.rng.below(2) as usize;
        let asked = Asked { call, image, given, key_len: 0, work_len, counts };
        let outcome = self.twins.ask(&asked, &mut self.rng, self.sabotage);
        match outcome.difference {
            Some(_) if self.sabotage.is_none() => {
                Err(report::asked(&asked) + &report::outcome(&outcome))
            }
            _ => Ok(outcome.library),
        }
    }

    /// Tries a store with all its cuts. If it is not refused, returns one of the mended images and
    /// what it holds.
    fn store(
        &mut self,
        held: &Held,
        key: &Key,
        value: u64,
        keys: &[Key],
    ) -> Result<Option<Held>, String> {
        self.try_store(held, key, value, keys).map_err(|why| {
            format!(
                "store of {value} under {:?}: {why}\n    image [{}]\n",
                key.letters,
                report::hex(&held.image)
            )
        })
    }

    fn try_store(
        &mut self,
        held: &Held,
        key: &Key,
        value: u64,
        keys: &[Key],
    ) -> Result<Option<Held>, String> {
        let answer = if has_text(key) && self.rng.one_in(2) {
            self.ask(Call::StoreTextWrites { value }, &held.image, &key.text)?
        } else {
            self.ask(Call::StoreWrites { value }, &held.image, &key.letters)?
        };
        if answer.number > 0 {
            return Ok(None);
        }
        self.done.stores += 1;
        let list = listed(self.twins.library.writes(), answer.length as usize, held.image.len())?;
        let after = self.twins.library.image().to_vec();
        self.done.wide += u64::from(list.len() == 1 && list[0].len() > 4 && held.image != after);
        self.ask(Call::Store { value }, &held.image, &key.letters)?;
        claim(self.twins.library.image() == after, || {
            "the store leaves other bytes than the store with writes".to_string()
        })?;
        let counts = self.store_with_counts(held, key, value, &after)?;
        let next = self.cuts(held, key, value, &list, &after, keys)?;
        Ok(Some(Held { counts: if next.image == after { Some(counts) } else { None }, ..next }))
    }

    /// Makes the same store with counts, with the list that the store before left or with one that
    /// is worked out afresh. Returns the counts that it leaves. They must be those of the image
    /// after it, worked out afresh.
    fn store_with_counts(
        &mut self,
        held: &Held,
        key: &Key,
        value: u64,
        after: &[u8],
    ) -> Result<Vec<u32>, String> {
        let mut list = match &held.counts {
            Some(left) => left.clone(),
            None => {
                self.reader.work_out_counts(&held.image)?;
                self.reader.counts.clone()
            }
        };
        list.resize(Head::read(after).g as usize + 1, self.rng.next() as u32);
        let answer = if has_text(key) && self.rng.one_in(2) {
            self.ask_beside(Call::StoreTextCounts { value }, &held.image, &key.text, &list)?
        } else {
            self.ask_beside(Call::StoreCounts { value }, &held.image, &key.letters, &list)?
        };
        claim(answer.number == 0, || {
            format!("the store with the counts {list:?} gives {answer:?}")
        })?;
        claim(self.twins.library.image() == after, || {
            "the store with counts leaves other bytes than the store".to_string()
        })?;
        let left = self.twins.library.counts().to_vec();
        self.reader.work_out_counts(after)?;
        claim(left == self.reader.counts, || {
            format!("the store leaves the counts {left:?}, not {:?}", self.reader.counts)
        })?;
        Ok(left)
    }

    fn cuts(
        &mut self,
        held: &Held,
        key: &Key,
        value: u64,
        list: &[Range<usize>],
        after: &[u8],
        keys: &[Key],
    ) -> Result<Held, String> {
        let used = Head::read(&held.image).u() as usize;
        let mut landed = held.image.clone();
        let mut left = Vec::new();
        for (i, write) in list.iter().enumerate() {
            for part in self.parts(write, write.start >= used) {
                let mut image = landed.clone();
                part.iter().for_each(|at| image[*at] = after[*at]);
                self.done.partly += u64::from(!part.is_empty());
                let tell = |why| {
                    format!(
                        "cut at write {i} of {list:?}, of which the bytes {part:?} landed: {why}"
                    )
                };
                left.push(self.mend(image, &held.stored, keys).map_err(tell)?);
            }
            landed[write.clone()].copy_from_slice(&after[write.clone()]);
        }
        for part in self.parts_of_all(list, used) {
            let mut image = held.image.clone();
            part.iter().for_each(|at| image[*at] = after[*at]);
            self.done.partly += u64::from(!part.is_empty());
            let tell = |why| format!("cut among {list:?}, the bytes {part:?} landed: {why}");
            left.push(self.mend(image, &held.stored, keys).map_err(tell)?);
        }
        claim(landed == after, || {
            format!("the list {list:?} carried out whole leaves other bytes than the store")
        })?;
        let mut stored = held.stored.clone();
        if value > 0 {
            stored.insert(key.letters.clone(), value);
        } else {
            stored.remove(&key.letters);
        }
        let whole = self
            .mend(landed, &stored, keys)
            .map_err(|why| format!("all of {list:?} landed: {why}"))?;
        if left.is_empty() || self.rng.one_in(2) {
            return Ok(Held { image: whole, stored, counts: None });
        }
        let any = self.rng.below(left.len() as u64) as usize;
        Ok(Held { image: left.swap_remove(any), stored: held.stored.clone(), counts: None })
    }

    /// The sets of bytes that land of the write that is hit. If it does not go to spare bytes, no
    /// byte lands. Otherwise every set but the whole is tried if the write is short, else some.
    fn parts(&mut self, write: &Range<usize>, spare: bool) -> Vec<Vec<usize>> {
        let bytes: Vec<usize> = write.clone().collect();
        if !spare {
            return vec![Vec::new()];
        }
        if bytes.len() <= EVERY_PART {
            let some = |set: usize| {
                bytes
                    .iter()
                    .enumerate()
                    .filter(|(i, _)| set >> i & 1 == 1)
                    .map(|(_, at)| *at)
                    .collect()
            };
            return (0..(1 << bytes.len()) - 1).map(some).collect();
        }
        let (first, last) = (bytes[0], bytes[bytes.len() - 1]);
        let middle = self.rng.below(bytes.len() as u64) as usize;
        let one_side = if self.rng.one_in(2) { &bytes[..middle] } else { &bytes[middle..] };
        let all_but_one = bytes.iter().copied().filter(|at| *at != bytes[middle]).collect();
        let any = bytes.iter().copied().filter(|_| self.rng.one_in(2)).collect();
        vec![Vec::new(), vec![first], vec![last], one_side.to_vec(), all_but_one, any]
    }

    /// Sets of bytes that land of all writes to spare bytes, where they share one flush: the last
    /// node without those before it, and any bytes of all of them.
    fn parts_of_all(&mut self, list: &[Range<usize>], used: usize) -> Vec<Vec<usize>> {
        let spare: Vec<Range<usize>> =
            list.iter().filter(|write| write.start >= used).cloned().collect();
        if spare.len() < 2 {
            return Vec::new();
        }
        let last = spare[spare.len() - 1].clone().collect();
        let any = spare.into_iter().flatten().filter(|_| self.rng.one_in(2)).collect();
        vec![last, any]
    }

    /// Mends what a cut left, and makes the calls that read on it. Returns the mended image.
    fn mend(&mut self, left: Vec<u8>, stored: &Stored, keys: &[Key]) -> Result<Vec<u8>, String> {
        self.done.cuts += 1;
        self.reader.work.resize(Head::read(&left).g as usize + 1, 7);
        self.reader.look_ups(&left, stored, keys, false)?;
        let answer = self.ask(Call::Mend, &left, &[])?;
        claim(answer == Answer::default(), || format!("mend gives {answer:?}"))?;
        let mended = self.twins.library.image().to_vec();
        claim(mended[4..] == left[4..], || "mend changes more than G".to_string())?;
        self.done.lowered += u64::from(mended != left);
        self.reader.all(&mended, stored, keys)?;
        Ok(mended)
    }
}

/// The writes of a list, each as the range of bytes that it writes.
fn listed(writes: &[u32], many: usize, image_len: usize) -> Result<Vec<Range<usize>>, String> {
    let range = |pair: &[u32]| pair[0] as usize..pair[0] as usize + pair[1] as usize;
    let list: Vec<Range<usize>> = writes.chunks(2).take(many).map(range).collect();
    claim(list.len() == many && list.iter().all(|write| write.end <= image_len), || {
        format!("{many} writes, to {list:?}")
    })?;
    Ok(list)
}

/// Those of the keys that the image does not refuse, each once, with their text if there is an
/// alphabet.
fn keys_of(image: &[u8], mut keys: Vec<Vec<u8>>) -> Vec<Key> {
    let head = Head::read(image);
    let alphabet = model::characters(&image[28..28 + head.f as usize]).unwrap_or_default();
    keys.retain(|key| {
        key.len() >= head.min as usize
            && key.len() <= head.max as usize
            && key.iter().all(|l| u32::from(*l) < head.n)
    });
    keys.sort();
    keys.dedup();
    let text = |key: &[u8]| {
        if head.f > 0 {
            key.iter().flat_map(|l| alphabet[usize::from(*l)].to_vec()).collect()
        } else {
            Vec::new()
        }
    };
    keys.into_iter().map(|letters| Key { text: text(&letters), letters }).collect()
}

// ---- small images ----

/// All accepted images with A = 1 and this N, G and D. Those with hidden data are passed over.
struct Family {
    n: u32,
    g: u32,
    d: u32,
    /// The data values of every node.
    data: &'static [u64],
    /// An image is tried in every n-th of the 56 settings, where n is this number. If n is above
    /// 56, some images are left out.
    settings: usize,
}

const FAMILIES: [Family; 25] = [
    Family { n: 1, g: 0, d: 1, data: &[0, 1, 255], settings: 1 },
    Family { n: 1, g: 1, d: 1, data: &[0, 1, 255], settings: 1 },
    Family { n: 1, g: 2, d: 1, data: &[0, 1, 255], settings: 1 },
    Family { n: 1, g: 3, d: 1, data: &[0, 1, 255], settings: 3 },
    Family { n: 1, g: 4, d: 1, data: &[0, 1], settings: 11 },
    Family { n: 2, g: 0, d: 1, data: &[0, 1, 255], settings: 1 },
    Family { n: 2, g: 1, d: 1, data: &[0, 1, 255], settings: 1 },
    Family { n: 2, g: 2, d: 1, data: &[0, 1, 255], settings: 5 },
    Family { n: 2, g: 3, d: 1, data: &[0, 1], settings: 13 },
    Family { n: 2, g: 4, d: 1, data: &[0, 1], settings: 181 },
    Family { n: 3, g: 0, d: 1, data: &[0, 1, 255], settings: 1 },
    Family { n: 3, g: 1, d: 1, data: &[0, 1, 255], settings: 3 },
    Family { n: 3, g: 2, d: 1, data: &[0, 1], settings: 5 },
    Family { n: 3, g: 3, d: 1, data: &[0, 1], settings: 67 },
    Family { n: 1, g: 0, d: 5, data: &[0, 1, 1 << 32], settings: 1 },
    Family { n: 1, g: 1, d: 5, data: &[0, 1, 1 << 32], settings: 1 },
    Family { n: 1, g: 2, d: 5, data: &[0, 1, 1 << 32], settings: 5 },
    Family { n: 2, g: 1, d: 5, data: &[0, 1, 1 << 32], settings: 3 },
    Family { n: 2, g: 2, d: 5, data: &[0, 1 << 32], settings: 13 },
    Family { n: 1, g: 0, d: 8, data: &[0, 1, 1 << 56], settings: 1 },
    Family { n: 1, g: 1, d: 8, data: &[0, 1, 1 << 56], settings: 1 },
    Family { n: 1, g: 2, d: 8, data: &[0, 1, 1 << 56], settings: 5 },
    Family { n: 2, g: 1, d: 8, data: &[0, 1, 1 << 56], settings: 3 },
    Family { n: 2, g: 2, d: 8, data: &[0, 1 << 56], settings: 13 },
    Family { n: 3, g: 1, d: 8, data: &[0, 1 << 56], settings: 13 },
];

/// The values that are stored under every key: 0, 256^(D-1) and 256^D - 1.
fn values(d: u32) -> [u64; 3] {
    [0, small::first_byte(d), greatest(d)]
}

fn run_tree(
    worker: &mut Worker,
    family: &Family,
    index: usize,
    links: &[u8],
) -> Result<(), String> {
    for (i, data) in small::tuples(family.data, family.g as usize + 1).enumerate() {
        for setting in
            small::settings().iter().skip((index + i) % family.settings).step_by(family.settings)
        {
            let (rng, widths) = (&mut worker.rng, (family.n, family.d));
            let image = small::image(rng, widths, links, &data, setting);
            if model::check(&image, &mut [0; 5]).number > 0 {
                continue;
            }
            let held = Held::of(image);
            worker.begins_with(&held);
            let keys = keys_of(
                &held.image,
                small::keys(family.n).into_iter().map(|key| key.letters).collect(),
            );
            for key in &keys {
                for value in values(family.d) {
                    worker.store(&held, key, value, &keys)?;
                }
            }
        }
    }
    Ok(())
}

/// Tries every cut of every store on the small images, in two threads.
pub fn run_small() -> Tried {
    let tried = Mutex::new(Tried::default());
    std::thread::scope(|scope| {
        for thread in 0..2 {
            let tried = &tried;
            scope.spawn(move || {
                let mut worker = Worker::new(thread as u64, None);
                let mut progress = Progress::of(thread);
                let trees = |family: &'static Family| {
                    small::trees(family.n as usize, family.g as usize)
                        .into_iter()
                        .enumerate()
                        .map(move |(i, links)| (family, i, links))
                };
                for (family, index, links) in
                    FAMILIES.iter().flat_map(trees).skip(thread).step_by(2)
                {
                    progress.at(&format!(
                        "cuts: N {} G {} D {} links {}",
                        family.n,
                        family.g,
                        family.d,
                        report::hex(&links)
                    ));
                    if let Err(failure) = run_tree(&mut worker, family, index, &links) {
                        print!("FAILED: cuts: {failure}");
                        worker.done.failed += 1;
                        if worker.done.failed >= ENOUGH {
                            break;
                        }
                    }
                }
                progress.done();
                tried.lock().unwrap().add(&worker.done);
            });
        }
    });
    tried.into_inner().unwrap()
}

// ---- random images ----

/// The stored keys, the key itself, its neighbours, and some others.
fn keys_near(rng: &mut Rng, held: &Held, key: &[u8]) -> Vec<Key> {
    let mut near: Vec<Vec<u8>> = held.stored.keys().cloned().collect();
    near.push(key.to_vec());
    if let Some((last, front)) = key.split_last() {
        near.push(front.to_vec());
        near.push([front, &[last.wrapping_add(1)]].concat());
        near.push([front, &[last.wrapping_sub(1)]].concat());
    }
    near.push([key, &[0]].concat());
    near.extend((0..3).map(|_| keys::letters(rng, &held.image, key)));
    keys_of(&held.image, near)
}

/// A small image to begin with: fresh, or grown, then also with empty nodes at depths outside
/// min..max. Most grown images are renumbered, after their keys were read.
fn begin(rng: &mut Rng) -> Held {
    let mut shape = Shape::draw(rng);
    let spare = shape.draw_spare(rng) + shape.draw_spare(rng);
    if rng.one_in(2) {
        let Head { n, a, d, min, max, .. } = shape.head;
        let mut image = rng.rubbish(shape.head.u() as usize + spare);
        model::make(&mut image, n, a, d, &shape.alphabet_bytes(), min, max);
        return Held { image, stored: Stored::new(), counts: None };
    }
    let most = rng.pick(&[8, 8, 8, 8, 8, 40]);
    shape.head.g = rng.between(0, most) as u32;
    let held = Held::of(shape.grow(rng, spare));
    if rng.one_in(3) {
        return held;
    }
    Held { image: renumbered(&held.image, &renumbering::draw(rng, shape.head.g)), ..held }
}

/// A run of stores that begins with one image. Each store is tried with all its cuts. The next one
/// begins with one of the mended images.
fn history(worker: &mut Worker, seed: u64) -> Result<(), String> {
    let mut rng = Rng::new(seed);
    worker.rng = Rng::new(!seed);
    let mut held = begin(&mut rng);
    worker.begins_with(&held);
    for _ in 0..rng.between(4, 12) {
        let letters = keys::letters(&mut rng, &held.image, &[]);
        let keys = keys_near(&mut rng, &held, &letters);
        let value = keys::value(&mut rng, &held.image);
        let key = match keys.iter().find(|key| key.letters == letters) {
            Some(key) => key,
            None => continue,
        };
        let tell = |why| format!("replay with tests/replay cuts {seed}: {why}");
        if let Some(next) = worker.store(&held, key, value, &keys).map_err(tell)? {
            held = next;
        }
    }
    Ok(())
}

/// Tries a number of histories, from the starting seed on, in two threads.
pub fn run_random(start: u64, histories: u64) -> Tried {
    let next = AtomicU64::new(0);
    let tried = Mutex::new(Tried::default());
    std::thread::scope(|scope| {
        for thread in 0..2 {
            let (next, tried) = (&next, &tried);
            scope.spawn(move || {
                let mut worker = Worker::new(0, None);
                let mut progress = Progress::of(thread);
                loop {
                    let index = next.fetch_add(1, Ordering::Relaxed);
                    if index >= histories || worker.done.failed >= ENOUGH {
                        break;
                    }
                    let seed = start.wrapping_add(index);
                    progress.at(&format!("tests/replay cuts {seed}"));
                    if let Err(failure) = history(&mut worker, seed) {
                        print!("FAILED: cuts: {failure}");
                        worker.done.failed += 1;
                    }
                }
                progress.done();
                tried.lock().unwrap().add(&worker.done);
            });
        }
    });
    tried.into_inner().unwrap()
}

/// Repeats one history and prints its failure. Returns whether there was none.
pub fn replay(seed: u64) -> bool {
    let mut worker = Worker::new(0, None);
    let outcome = history(&mut worker, seed);
    match &outcome {
        Ok(()) => println!(
            "seed {seed}: {} cuts of {} stores, all mended",
            worker.done.cuts, worker.done.stores
        ),
        Err(failure) => print!("FAILED: cuts: {failure}"),
    }
    outcome.is_ok()
}

/// Every saboteur of the cuts must be reported within the same histories, by the answers of the
/// images alone. Returns the number of saboteurs that were not.
pub fn self_test(start: u64, histories: u64) -> usize {
    let mut missed = 0;
    for saboteur in &CUT_SABOTEURS {
        let mut worker = Worker::new(0, Some(Sabotage::of_library(saboteur)));
        match (0..histories)
            .find(|index| history(&mut worker, start.wrapping_add(*index)).is_err())
        {
            Some(index) => {
                println!("    caught in history {:>3} of the cuts: {}", index + 1, saboteur.name)
            }
            None => {
                missed += 1;
                println!("    NOT CAUGHT by the cuts: {}", saboteur.name);
            }
        }
    }
    missed
}
