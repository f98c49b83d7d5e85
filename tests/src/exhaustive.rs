//! The exhaustive part: all small images with A = 1, in families. Every link takes every link
//! value of its family: those that matter (0 to G+1, and 255) or all 256. Every node takes every
//! data value of its family. The calls, without make, are made with every key of at most three
//! letters from 0 to N, where the letter N is bad. With D = 1, N and G up to 2, and the link
//! values that matter, this is done on every image, refused or not. In some other families fewer
//! calls, or none, are made on the images whose links are refused, as `Asks` says. The calls with
//! counts are made with right, wrong and short lists; those that take a key or a position are made
//! on images whose links are good, also if 19 refuses their data, and then with the counts of the
//! stored keys. In an accepted image the number of keys must be the number of nodes with data.
//!
//! In the families with D = 4, 5 and 8 the data is 0, 1, or 1 in its first byte alone: with D = 5
//! and 8 its low 32 bits are 0 then. In the smallest images each byte of the data alone takes
//! every value.
//!
//! After the families, small accepted images are renumbered in every way. Each must answer as the
//! one it was made from. With data in all nodes, 19 must name the lowest of the new addresses
//! whose nodes are hidden in the one it was made from.

use crate::calls::Call;
use crate::lists;
use crate::model::{self, greatest, Answer, Head};
use crate::progress::Progress;
use crate::renumbering;
use crate::report;
use crate::rng::Rng;
use crate::small::{self, first_byte, keys, rising_trees, settings, trees, tuples, Key, Setting};
use crate::twins::{Asked, Twins};
use std::sync::Mutex;

/// The run stops after this number of failures.
const ENOUGH: usize = 5;

/// Which calls are made on the images whose links the check refuses. All calls are made on the
/// others: those that it accepts, and those that 19 alone refuses.
#[derive(Clone, Copy, PartialEq)]
enum Asks {
    /// Every call with every key.
    All,
    /// The check and mend, with one choice of data.
    Check,
    /// None: only images whose links are good are built.
    Nothing,
}

/// All images with this N, G and D.
struct Family {
    n: u32,
    g: u32,
    d: u32,
    /// The values of every link, or `MATTERING`.
    links: &'static [u8],
    /// The data values of every node.
    data: &'static [u64],
    refused: Asks,
    /// An image whose links are good is tried in every n-th setting, where n is this number.
    settings: usize,
}

const fn family(
    (n, g, d): (u32, u32, u32),
    links: &'static [u8],
    data: &'static [u64],
    refused: Asks,
    settings: usize,
) -> Family {
    Family { n, g, d, links, data, refused, settings }
}

/// Stands for the link values that matter: 0 to G+1, and 255.
const MATTERING: &[u8] = &[];
/// Every value of a byte.
const BYTES: [u8; 256] = {
    let mut all = [0; 256];
    let mut i = 0;
    while i < 256 {
        all[i] = i as u8;
        i += 1;
    }
    all
};

/// Every value of each byte of D bytes alone, and 0: 255 * D + 1 values.
const fn each_byte<const MANY: usize>() -> [u64; MANY] {
    let mut all = [0; MANY];
    let mut i = 1;
    while i < MANY {
        all[i] = ((i - 1) % 255 + 1 << 8 * ((i - 1) / 255)) as u64;
        i += 1;
    }
    all
}

const EACH_1: [u64; 256] = each_byte();
const EACH_5: [u64; 1_276] = each_byte();
const EACH_8: [u64; 2_041] = each_byte();

/// Data of D bytes: none, and 1 in the last byte or in the first.
const ENDS_4: [u64; 3] = [0, 1, 1 << 24];
const ENDS_5: [u64; 3] = [0, 1, 1 << 32];
const ENDS_8: [u64; 3] = [0, 1, 1 << 56];

const FAMILIES: [Family; 38] = [
    family((1, 0, 1), &BYTES, &EACH_1, Asks::All, 1),
    family((1, 1, 1), &BYTES, &[0, 1, 255], Asks::Check, 1),
    family((2, 0, 1), &BYTES, &[0, 1, 255], Asks::Check, 1),
    family((1, 1, 1), MATTERING, &[0, 1, 255], Asks::All, 1),
    family((1, 2, 1), MATTERING, &[0, 1, 255], Asks::All, 1),
    family((1, 3, 1), MATTERING, &[0, 1], Asks::All, 1),
    family((2, 0, 1), MATTERING, &[0, 1, 255], Asks::All, 1),
    family((2, 1, 1), MATTERING, &[0, 1, 255], Asks::All, 1),
    family((2, 2, 1), MATTERING, &[0, 1, 255], Asks::All, 1),
    family((3, 0, 1), MATTERING, &[0, 1, 255], Asks::All, 1),
    family((3, 1, 1), MATTERING, &[0, 1, 255], Asks::All, 1),
    family((1, 4, 1), MATTERING, &[0, 1], Asks::Check, 3),
    family((2, 3, 1), MATTERING, &[0, 1], Asks::Check, 3),
    family((3, 2, 1), MATTERING, &[0, 1], Asks::Check, 3),
    family((3, 3, 1), MATTERING, &[0, 1], Asks::Nothing, 24),
    family((2, 4, 1), MATTERING, &[0, 1], Asks::Nothing, 56),
    family((1, 0, 4), MATTERING, &ENDS_4, Asks::All, 1),
    family((2, 1, 4), MATTERING, &ENDS_4, Asks::All, 1),
    family((1, 0, 5), MATTERING, &EACH_5, Asks::All, 8),
    family((1, 1, 5), MATTERING, &ENDS_5, Asks::All, 1),
    family((1, 2, 5), MATTERING, &ENDS_5, Asks::All, 1),
    family((1, 3, 5), MATTERING, &ENDS_5, Asks::Check, 3),
    family((2, 0, 5), MATTERING, &ENDS_5, Asks::All, 1),
    family((2, 1, 5), MATTERING, &ENDS_5, Asks::All, 1),
    family((2, 2, 5), MATTERING, &ENDS_5, Asks::Check, 3),
    family((2, 3, 5), MATTERING, &ENDS_5, Asks::Nothing, 56),
    family((3, 1, 5), MATTERING, &ENDS_5, Asks::Check, 3),
    family((3, 2, 5), MATTERING, &ENDS_5, Asks::Nothing, 24),
    family((1, 0, 8), MATTERING, &EACH_8, Asks::All, 8),
    family((1, 1, 8), MATTERING, &ENDS_8, Asks::All, 1),
    family((1, 2, 8), MATTERING, &ENDS_8, Asks::All, 1),
    family((1, 3, 8), MATTERING, &ENDS_8, Asks::Check, 3),
    family((2, 0, 8), MATTERING, &ENDS_8, Asks::All, 1),
    family((2, 1, 8), MATTERING, &ENDS_8, Asks::All, 1),
    family((2, 2, 8), MATTERING, &ENDS_8, Asks::Check, 3),
    family((2, 3, 8), MATTERING, &ENDS_8, Asks::Nothing, 56),
    family((3, 1, 8), MATTERING, &ENDS_8, Asks::Check, 3),
    family((3, 2, 8), MATTERING, &ENDS_8, Asks::Nothing, 24),
];

/// The greatest G of the images that are renumbered, for N from 1 on, and their D.
const RENUMBERED: [u32; 3] = [4, 4, 3];
const RENUMBERED_D: [u32; 3] = [1, 5, 8];

/// What was tried, how many of the calls gave 16 and 19, and how many numbers of keys were
/// compared with the nodes that have data.
#[derive(Clone, Copy, Default)]
pub struct Exhausted {
    pub images: u64,
    pub calls: u64,
    pub unreached: u64,
    pub hidden: u64,
    pub counted: u64,
    pub failed: usize,
}

impl Exhausted {
    fn add(&mut self, other: &Exhausted) {
        self.images += other.images;
        self.calls += other.calls;
        self.unreached += other.unreached;
        self.hidden += other.hidden;
        self.counted += other.counted;
        self.failed += other.failed;
    }
}

/// One thread's work.
struct Worker {
    twins: Twins,
    rng: Rng,
    done: Exhausted,
}

impl Worker {
    fn ask(
        &mut self,
        call: Call,
        image: &[u8],
        given: &[u8],
        key_len: usize,
        work_len: usize,
    ) -> Answer {
        self.ask_beside(call, image, given, key_len, work_len, &[])
    }

    /// Makes a call with a list of counts. Returns the library's answer.
    fn ask_beside(
        &mut self,
        call: Call,
        image: &[u8],
        given: &[u8],
        key_len: usize,
        work_len: usize,
        counts: &[u32],
    ) -> Answer {
        let asked = Asked { call, image, given, key_len, work_len, counts };
        let outcome = self.twins.ask(&asked, &mut self.rng, None);
        self.done.calls += 1;
        self.done.unreached += u64::from(outcome.model.number == 16);
        self.done.hidden += u64::from(outcome.model.number == 19);
        if outcome.difference.is_some() {
            self.fail(&(report::asked(&asked) + &report::outcome(&outcome)), image);
        }
        outcome.library
    }

    fn fail(&mut self, told: &str, image: &[u8]) {
        if self.done.failed < ENOUGH {
            self.done.failed += 1;
            println!("FAILED: exhaustive: {told}    image [{}]", report::hex(image));
        }
    }

    /// Makes the call for the number of keys. If the image is accepted, that is the number of
    /// nodes with data.
    fn ask_count(&mut self, image: &[u8], work_len: usize) -> Answer {
        let counted = self.ask(Call::Count, image, &[], 0, work_len);
        if counted.number == 0 {
            let head = Head::read(image);
            let nodes = 0..=u64::from(head.g);
            let full = nodes.filter(|node| model::data(image, &head, *node) != 0).count() as u64;
            self.done.counted += 1;
            if counted.value != full {
                self.fail(&format!("{} keys in {full} nodes with data\n", counted.value), image);
            }
        }
        counted
    }

    fn image(
        &mut self,
        family: &Family,
        links: &[u8],
        data: &[u64],
        setting: &Setting,
    ) -> Vec<u8> {
        self.done.images += 1;
        small::image(&mut self.rng, (family.n, family.d), links, data, setting)
    }

    /// Makes check, mend and number of keys, with enough working numbers and with too few.
    fn ask_without_key(&mut self, image: &[u8], g: usize) {
        self.ask(Call::Check, image, &[], 0, g + 1);
        self.ask(Call::Check, image, &[], 0, g);
        self.ask(Call::Mend, image, &[], 0, g + 2);
        self.ask(Call::Mend, image, &[], 0, g);
        self.ask_count(image, g + 2);
        self.ask(Call::Count, image, &[], 0, g);
    }

    fn ask_look_ups(&mut self, image: &[u8], key: &Key, text: bool) {
        self.ask(Call::LookUp, image, &key.letters, 0, 0);
        if text || key.letters.len() < 2 {
            self.ask(Call::LookUpText, image, &key.text, 0, 0);
        }
    }

    /// Makes the stores and next keys with one key, each on the image as it was. The last value
    /// is 256^D, but with D = 8 the greatest.
    fn ask_others(&mut self, image: &[u8], key: &Key, setting: &Setting, g: usize) {
        let (max, d) = (setting.lengths.1 as usize, Head::read(image).d);
        for value in [0, first_byte(d), greatest(d).saturating_add(1)] {
            self.ask(Call::Store { value }, image, &key.letters, 0, g + 1);
            self.ask(Call::StoreWrites { value }, image, &key.letters, 0, g + 1);
            if setting.alphabet || key.letters.is_empty() {
                self.ask(Call::StoreText { value }, image, &key.text, 0, g + 1);
                self.ask(Call::StoreTextWrites { value }, image, &key.text, 0, g + 1);
            }
        }
        for after in [false, true] {
            self.ask(Call::NextKey { after }, image, &key.letters, max, g + 1);
        }
        self.ask(Call::NextKey { after: true }, image, &key.letters, max.saturating_sub(1), g + 2);
    }

    /// Works the counts out and compares them, in lists that are long enough and in a short one.
    /// `list` holds the counts of the stored keys or, for an image whose links are refused, any
    /// counts.
    fn ask_counts(&mut self, image: &[u8], list: &[u32]) {
        let nodes = list.len();
        self.ask_beside(Call::Counts, image, &[], 0, nodes, &vec![9; nodes + 1]);
        self.ask_beside(Call::CheckCounts, image, &[], 0, nodes, list);
        self.ask_beside(Call::CheckCounts, image, &[], 0, nodes, &list[..nodes - 1]);
    }

    /// Tries what does not depend on spare bytes: a wrong count at each node in turn, the key at
    /// every position and past the last one, and the position of every key.
    fn ask_positions(&mut self, image: &[u8], keys: &[Key], right: &[u32], setting: &Setting) {
        let (nodes, max) = (right.len(), setting.lengths.1 as usize);
        let mut wrong = [right, &[1]].concat();
        for node in 0..nodes {
            for off in [1, u32::MAX] {
                wrong[node] = right[node].wrapping_add(off);
                self.ask_beside(Call::CheckCounts, image, &[], 0, nodes + 1, &wrong);
            }
            self.ask_beside(Call::KeyAt { position: 0 }, image, &[], max, nodes, &wrong);
            self.ask_beside(Call::Position, image, &[0], 0, nodes, &wrong);
            wrong[node] = right[node];
        }
        let many = u64::from(right[0]);
        for position in (0..=many).chain([1 << 32, u64::MAX]) {
            self.ask_beside(Call::KeyAt { position }, image, &[], max, nodes, right);
        }
        for position in [0, many] {
            self.ask_beside(
                Call::KeyAt { position },
                image,
                &[],
                max.saturating_sub(1),
                nodes,
                right,
            );
        }
        for key in keys {
            self.ask_beside(Call::Position, image, &key.letters, 0, nodes, right);
            if setting.alphabet || key.letters.is_empty() {
                self.ask_beside(Call::PositionText, image, &key.text, 0, nodes, right);
            }
        }
    }

    /// Makes the stores with counts of one key, with a list that is just long enough and with one
    /// that is one number too short. The value is 0, or the greatest in D bytes.
    fn ask_stores_beside(&mut self, image: &[u8], key: &Key, right: &[u32], text: bool) {
        let nodes = right.len();
        let (head, letters) = (Head::read(image), &key.letters);
        let good = letters.iter().all(|letter| u32::from(*letter) < head.n);
        let k = if good { model::new_nodes(image, &head, letters, 1) as usize } else { 0 };
        let (list, value) = ([right, &[9; 4]].concat(), greatest(head.d));
        self.ask_beside(Call::StoreCounts { value: 0 }, image, letters, 0, nodes, right);
        for len in [nodes + k, nodes + k - 1] {
            let (call, list) = (Call::StoreCounts { value }, &list[..len]);
            self.ask_beside(call, image, letters, 0, nodes, list);
        }
        if text || letters.is_empty() {
            self.ask_beside(Call::StoreTextCounts { value }, image, &key.text, 0, nodes, &list);
        }
    }

    fn ask_all(&mut self, image: &[u8], keys: &[Key], setting: &Setting, g: usize) {
        self.ask_without_key(image, g);
        for key in keys {
            self.ask_look_ups(image, key, setting.alphabet);
            self.ask_others(image, key, setting, g);
        }
        let right = lists::of_stored_keys(image);
        self.ask_counts(image, right.as_ref().unwrap_or(&vec![1; g + 1]));
        if let Some(right) = right {
            if setting.spare == (0, 0) {
                self.ask_positions(image, keys, &right, setting);
            }
            keys.iter()
                .for_each(|key| self.ask_stores_beside(image, key, &right, setting.alphabet));
        }
    }

    /// Tries one pattern of links with all data and, if the links are good, in all settings of the
    /// family.
    fn try_links(
        &mut self,
        family: &Family,
        links: &[u8],
        index: usize,
        keys: &[Key],
        settings: &[Setting],
    ) {
        let g = family.g as usize;
        let turn = |i: usize| &settings[(index + i) % settings.len()];
        let first = self.image(family, links, &[1; 5], turn(0));
        let answer = self.ask(Call::Check, &first, &[], 0, g + 1);
        let good = matches!(answer.number, 0 | 19);
        self.ask(Call::Mend, &first, &[], 0, g + 1);
        if !good && matches!(family.refused, Asks::Check | Asks::Nothing) {
            return;
        }
        for (i, data) in tuples(family.data, g + 1).enumerate() {
            if good {
                for setting in settings.iter().skip(i % family.settings).step_by(family.settings) {
                    let image = self.image(family, links, &data, setting);
                    self.ask_all(&image, keys, setting, g);
                }
            } else {
                let image = self.image(family, links, &data, turn(i));
                self.ask_all(&image, keys, turn(i), g);
            }
        }
    }
}

// ---- renumbered images ----

/// What an accepted image tells: the answers that name no address, the key buffer after each next
/// key, and the counts.
#[derive(PartialEq)]
struct Told {
    answers: Vec<Answer>,
    found: Vec<Vec<u8>>,
    counts: Vec<u32>,
}

impl Worker {
    /// Makes the calls that read: without a key, with every key, and with every position.
    fn told(&mut self, image: &[u8], keys: &[Key], setting: &Setting, nodes: usize) -> Told {
        let max = setting.lengths.1 as usize;
        let mut answers = vec![
            self.ask(Call::Check, image, &[], 0, nodes),
            self.ask_count(image, nodes),
            self.ask_beside(Call::Counts, image, &[], 0, nodes, &vec![9; nodes]),
        ];
        let counts = self.twins.library.counts().to_vec();
        let mut found = Vec::new();
        for key in keys {
            answers.push(self.ask(Call::LookUp, image, &key.letters, 0, 0));
            answers.push(self.ask(Call::LookUpText, image, &key.text, 0, 0));
            answers.push(self.ask_beside(Call::Position, image, &key.letters, 0, nodes, &counts));
            for after in [false, true] {
                let next = self.ask(Call::NextKey { after }, image, &key.letters, max, nodes);
                found.push(self.twins.library.key()[..next.length as usize].to_vec());
                answers.push(next);
            }
        }
        for position in 0..=u64::from(counts[0]) {
            let call = Call::KeyAt { position };
            let at = self.ask_beside(call, image, &[], max, nodes, &counts);
            found.push(self.twins.library.key()[..at.length as usize].to_vec());
            answers.push(at);
        }
        Told { answers, found, counts }
    }

    /// Renumbers one image in every way. Each image must tell the same, with the counts at the new
    /// addresses.
    fn renumber(
        &mut self,
        widths: (u32, u32),
        links: &[u8],
        data: &[u64],
        keys: &[Key],
        setting: &Setting,
    ) {
        let nodes = data.len();
        let image = small::image(&mut self.rng, widths, links, data, setting);
        let told = self.told(&image, keys, setting, nodes);
        for new in renumbering::every(nodes as u32 - 1) {
            let moved = renumbering::renumbered(&image, &new);
            let mut its = self.told(&moved, keys, setting, nodes);
            its.counts = new.iter().map(|address| its.counts[*address as usize]).collect();
            self.done.images += 1;
            if its != told {
                let told = format!("renumbered, it answers otherwise [{}]\n", report::hex(&moved));
                self.fail(&told, &image);
            }
        }
    }

    /// Renumbers one image with data in all nodes in every way. If some of them are hidden, the
    /// check must name the lowest of their new addresses.
    fn renumber_hidden(
        &mut self,
        (n, d): (u32, u32),
        links: &[u8],
        depths: &[u32],
        setting: &Setting,
    ) {
        let nodes = depths.len();
        let data = vec![first_byte(d); nodes];
        let image = small::image(&mut self.rng, (n, d), links, &data, setting);
        let lengths = setting.lengths.0..=setting.lengths.1;
        for new in renumbering::every(nodes as u32 - 1) {
            let moved = renumbering::renumbered(&image, &new);
            let hidden = new.iter().zip(depths).filter(|(_, depth)| !lengths.contains(*depth));
            let expected = match hidden.map(|(address, _)| *address).min() {
                Some(place) => Answer { number: 19, place: place as u32, ..Answer::default() },
                None => Answer::default(),
            };
            self.done.images += 1;
            if self.ask(Call::Check, &moved, &[], 0, nodes) != expected {
                self.fail(&format!("renumbered, the check should give {expected:?}\n"), &moved);
            }
        }
    }
}

/// The depth of each node, by the links of a rising tree.
fn depths(n: usize, links: &[u8]) -> Vec<u32> {
    let mut depths = vec![0; links.len() / n];
    for (node, links) in links.chunks(n).enumerate() {
        for link in links.iter().filter(|link| **link > 0) {
            depths[usize::from(*link)] = depths[node] + 1;
        }
    }
    depths
}

/// Renumbers the rising trees with this N and G. Each node has data of its own, which is only in
/// the first byte, or none; none at a depth outside min..max. Then all nodes have data.
fn run_renumbered(
    worker: &mut Worker,
    (n, d): (u32, u32),
    g: u32,
    thread: usize,
    progress: &mut Progress,
) {
    let (keys, settings) = (keys(n), settings());
    let trees = rising_trees(n as usize, g as usize);
    for (index, links) in trees.iter().enumerate().skip(thread).step_by(2) {
        let links_in_hex = report::hex(links);
        progress.at(&format!("exhaustive: renumbered: N {n} G {g} D {d} links {links_in_hex}"));
        let depths = depths(n as usize, links);
        for (i, empty) in [0, index + 1, 2 * index + 3].into_iter().enumerate() {
            let setting = &settings[(3 * index + i) % settings.len()];
            let lengths = setting.lengths.0..=setting.lengths.1;
            let value = |node: u32| {
                let hidden = !lengths.contains(&depths[node as usize]);
                if hidden || empty >> node & 1 == 1 {
                    0
                } else {
                    (u64::from(node) + 1) * first_byte(d)
                }
            };
            let data: Vec<u64> = (0..=g).map(value).collect();
            worker.renumber((n, d), links, &data, &keys, setting);
            worker.renumber_hidden((n, d), links, &depths, setting);
        }
        if worker.done.failed >= ENOUGH {
            break;
        }
    }
}

/// The patterns of links of a family: all of them, or only the good ones.
fn patterns(family: &Family) -> Box<dyn Iterator<Item = Vec<u8>>> {
    let (n, g) = (family.n as usize, family.g as usize);
    if family.refused == Asks::Nothing {
        return Box::new(trees(n, g).into_iter());
    }
    let mattering: Vec<u8> = (0..=g as u8 + 1).chain([255]).collect();
    let values = if family.links.is_empty() { &mattering } else { family.links };
    Box::new(tuples(values, n * (g + 1)))
}

fn run_family(worker: &mut Worker, family: &Family, thread: usize, progress: &mut Progress) {
    let (keys, settings) = (keys(family.n), settings());
    for (index, links) in patterns(family).enumerate().skip(thread).step_by(2) {
        progress.at(&format!(
            "exhaustive: N {} G {} D {} links {}",
            family.n,
            family.g,
            family.d,
            report::hex(&links)
        ));
        worker.try_links(family, &links, index, &keys, &settings);
        if worker.done.failed >= ENOUGH {
            break;
        }
    }
}

/// Tries all families, in two threads.
pub fn run() -> Exhausted {
    let tried = Mutex::new([Exhausted::default(); FAMILIES.len() + RENUMBERED.len()]);
    std::thread::scope(|scope| {
        for thread in 0..2 {
            let tried = &tried;
            scope.spawn(move || {
                let mut worker = Worker {
                    twins: Twins::default(),
                    rng: Rng::new(thread as u64),
                    done: Exhausted::default(),
                };
                let mut progress = Progress::of(thread);
                for (i, family) in FAMILIES.iter().enumerate() {
                    run_family(&mut worker, family, thread, &mut progress);
                    let done = std::mem::take(&mut worker.done);
                    tried.lock().unwrap()[i].add(&done);
                    if done.failed >= ENOUGH {
                        break;
                    }
                }
                for (n, most) in (1..).zip(RENUMBERED) {
                    for (g, d) in (1..=most).flat_map(|g| RENUMBERED_D.map(|d| (g, d))) {
                        run_renumbered(&mut worker, (n, d), g, thread, &mut progress);
                    }
                    let done = std::mem::take(&mut worker.done);
                    tried.lock().unwrap()[FAMILIES.len() + n as usize - 1].add(&done);
                }
                progress.done();
            });
        }
    });
    let (mut all, tried) = (Exhausted::default(), tried.into_inner().unwrap());
    for (family, tried) in FAMILIES.iter().zip(&tried) {
        let every = if family.links.is_empty() { "" } else { ", every byte" };
        let Exhausted { images, calls, unreached, hidden, .. } = tried;
        println!(
            "exhaustive: N {} G {} D {}{every}: {images} images, {calls} calls, {unreached} give \
             16, {hidden} give 19",
            family.n, family.g, family.d
        );
        all.add(tried);
        if family.g > 0 && family.refused != Asks::Nothing && tried.unreached == 0 {
            all.failed += 1;
            println!("FAILED: exhaustive: in this family no call gives 16");
        }
        if tried.hidden == 0 || tried.counted == 0 {
            all.failed += 1;
            println!("FAILED: exhaustive: in this family no call gives 19, or none counts keys");
        }
    }
    for ((n, g), tried) in (1..).zip(RENUMBERED).zip(&tried[FAMILIES.len()..]) {
        println!(
            "exhaustive: N {n} G up to {g}, renumbered in every way: {} images, {} calls, {} give \
             19",
            tried.images, tried.calls, tried.hidden
        );
        all.add(tried);
        if tried.hidden == 0 || tried.counted == 0 {
            all.failed += 1;
            println!("FAILED: exhaustive: renumbered, no image gives 19, or none is counted");
        }
    }
    all
}
