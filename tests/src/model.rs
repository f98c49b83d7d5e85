//! The model: every call as documents 01 and 02 say it, in their order. It is plain, not quick,
//! and uses nothing of the library.
//!
//! A refusal is one function, named by its number. A call is its refusals in order, then what it
//! does when it is done.

use std::collections::BTreeSet;

/// Number 1: an image has 28 to 16,777,216 bytes.
pub const SHORTEST_IMAGE: usize = 28;
pub const LONGEST_IMAGE: usize = 16_777_216;
/// The head's ceilings.
pub const MOST_LINKS: u32 = 256;
pub const WIDEST_LINK: u32 = 4;
pub const WIDEST_DATA: u32 = 8;
pub const LONGEST_ALPHABET: u32 = 1_024;
pub const LONGEST_KEY: u32 = 64;
/// The numbers lent for a list of writes: two for each of 64 new nodes, G and the link.
pub const WRITES: usize = 2 * (LONGEST_KEY as usize + 2);
/// The most bytes that the listing program reads, and its number of working numbers.
pub const LONGEST_INPUT: usize = 65_536;
pub const LISTING_WORK: usize = 16_384;

/// The answer of a call. A field that the call does not use is 0.
#[derive(Clone, Copy, Debug, PartialEq, Eq, Default)]
pub struct Answer {
    pub number: u32,
    pub place: u32,
    pub length: u32,
    pub change: i32,
    pub value: u64,
}

/// A refusal: its number and its place.
#[derive(Clone, Copy, Debug, PartialEq, Eq)]
pub struct Refusal {
    pub number: u32,
    pub place: u32,
}

/// "Numbers in a refused answer other than number and place are 0."
fn answer(outcome: Result<Answer, Refusal>) -> Answer {
    match outcome {
        Ok(done) => done,
        Err(Refusal { number, place }) => Answer { number, place, ..Answer::default() },
    }
}

fn refuse_if(applies: bool, number: u32) -> Result<(), Refusal> {
    refuse_at(if applies { Some(0) } else { None }, number)
}

fn refuse_at(place: Option<u64>, number: u32) -> Result<(), Refusal> {
    match place {
        Some(place) => Err(Refusal { number, place: place as u32 }),
        None => Ok(()),
    }
}

// ---- the image ----

/// "All numbers are big-endian"
pub fn read_number(bytes: &[u8]) -> u64 {
    bytes.iter().fold(0, |so_far, byte| so_far * 256 + u64::from(*byte))
}

pub fn write_number(bytes: &mut [u8], number: u64) {
    let mut rest = number;
    for byte in bytes.iter_mut().rev() {
        *byte = (rest % 256) as u8;
        rest /= 256;
    }
    assert_eq!(rest, 0, "{} does not fit {} bytes", number, bytes.len());
}

/// The greatest number in `width` bytes, of which there are 1 to 8: 256^width - 1.
pub fn greatest(width: u32) -> u64 {
    (256u128.pow(width) - 1) as u64
}

/// The seven fields of the head, in their order.
#[derive(Clone, Copy, Debug, PartialEq, Eq)]
pub struct Head {
    pub g: u32,
    pub n: u32,
    pub a: u32,
    pub d: u32,
    pub f: u32,
    pub min: u32,
    pub max: u32,
}

impl Head {
    /// The head of an image of 28 bytes or more.
    pub fn read(image: &[u8]) -> Head {
        let field = |i: usize| read_number(&image[4 * i..4 * i + 4]) as u32;
        Head {
            g: field(0),
            n: field(1),
            a: field(2),
            d: field(3),
            f: field(4),
            min: field(5),
            max: field(6),
        }
    }

    pub fn write(&self, image: &mut [u8]) {
        for (i, field) in
            [self.g, self.n, self.a, self.d, self.f, self.min, self.max].iter().enumerate()
        {
            write_number(&mut image[4 * i..4 * i + 4], u64::from(*field));
        }
    }

    /// W = N*A + D.
    pub fn w(&self) -> u128 {
        u128::from(self.n) * u128::from(self.a) + u128::from(self.d)
    }

    /// Where node n begins: 28 + F + n*W.
    pub fn node(&self, n: u64) -> u128 {
        28 + u128::from(self.f) + u128::from(n) * self.w()
    }

    /// The used length: U = 28 + F + (G+1)*W.
    pub fn u(&self) -> u128 {
        self.node(u64::from(self.g) + 1)
    }

    /// Where a link begins. Only for a head that 2 permits and a node inside the image.
    pub fn link_at(&self, node: u64, letter: u64) -> usize {
        self.node(node) as usize + letter as usize * self.a as usize
    }

    pub fn data_at(&self, node: u64) -> usize {
        self.link_at(node, u64::from(self.n))
    }
}

pub fn link(image: &[u8], head: &Head, node: u64, letter: u64) -> u64 {
    let at = head.link_at(node, letter);
    read_number(&image[at..at + head.a as usize])
}

fn write_link(image: &mut [u8], head: &Head, node: u64, letter: u64, address: u64) {
    let at = head.link_at(node, letter);
    write_number(&mut image[at..at + head.a as usize], address);
}

pub fn data(image: &[u8], head: &Head, node: u64) -> u64 {
    let at = head.data_at(node);
    read_number(&image[at..at + head.d as usize])
}

fn write_data(image: &mut [u8], head: &Head, node: u64, value: u64) {
    let at = head.data_at(node);
    write_number(&mut image[at..at + head.d as usize], value);
}

// ---- characters ----

/// Table 3-7 of the Unicode Standard: first byte from, to; second byte from, to; bytes.
const WELL_FORMED: [[u8; 5]; 9] = [
    [0x00, 0x7F, 0x00, 0x00, 1],
    [0xC2, 0xDF, 0x80, 0xBF, 2],
    [0xE0, 0xE0, 0xA0, 0xBF, 3],
    [0xE1, 0xEC, 0x80, 0xBF, 3],
    [0xED, 0xED, 0x80, 0x9F, 3],
    [0xEE, 0xEF, 0x80, 0xBF, 3],
    [0xF0, 0xF0, 0x90, 0xBF, 4],
    [0xF1, 0xF3, 0x80, 0xBF, 4],
    [0xF4, 0xF4, 0x80, 0x8F, 4],
];

/// The length in bytes of the well-formed character at the front, if there is one.
fn character_length(bytes: &[u8]) -> Option<usize> {
    let first = *bytes.first()?;
    let row = WELL_FORMED.iter().find(|row| row[0] <= first && first <= row[1])?;
    let length = usize::from(row[4]);
    if bytes.len() < length {
        return None;
    }
    let second_good = length < 2 || (row[2] <= bytes[1] && bytes[1] <= row[3]);
    let rest_good = bytes[..length].iter().skip(2).all(|byte| (0x80..=0xBF).contains(byte));
    if second_good && rest_good {
        Some(length)
    } else {
        None
    }
}

/// The characters in the bytes, or nothing if these are not well-formed.
pub fn characters(bytes: &[u8]) -> Option<Vec<&[u8]>> {
    let mut found = Vec::new();
    let mut rest = bytes;
    while !rest.is_empty() {
        let (character, after) = rest.split_at(character_length(rest)?);
        found.push(character);
        rest = after;
    }
    Some(found)
}

/// The characters of the letters, from letter 0. Only for an image that passed 4.
fn alphabet<'a>(image: &'a [u8], head: &Head) -> Vec<&'a [u8]> {
    characters(&image[28..28 + head.f as usize]).expect("3 was passed")
}

// ---- refusals ----

fn refusal_1(image_len: usize) -> Result<(), Refusal> {
    refuse_if(!(SHORTEST_IMAGE..=LONGEST_IMAGE).contains(&image_len), 1)
}

fn refusal_2(head: &Head) -> Result<(), Refusal> {
    let permitted = (1..=MOST_LINKS).contains(&head.n)
        && (1..=WIDEST_LINK).contains(&head.a)
        && (1..=WIDEST_DATA).contains(&head.d)
        && head.f <= LONGEST_ALPHABET
        && head.min <= head.max
        && head.max <= LONGEST_KEY;
    refuse_if(!permitted, 2)
}

/// `alphabet` is the F bytes, or nothing if they are not all inside the image.
fn refusal_3(head: &Head, alphabet: Option<&[u8]>) -> Result<(), Refusal> {
    let bytes = match alphabet {
        Some(bytes) if head.f > 0 => bytes,
        _ => return Ok(()),
    };
    let good = match characters(bytes) {
        Some(found) => {
            let different: BTreeSet<&[u8]> = found.iter().copied().collect();
            found.len() == head.n as usize && different.len() == found.len()
        }
        None => false,
    };
    refuse_if(!good, 3)
}

fn refusal_4(head: &Head, image_len: usize) -> Result<(), Refusal> {
    refuse_if(head.u() > image_len as u128, 4)
}

fn refusal_5(head: &Head, work_len: usize) -> Result<(), Refusal> {
    refuse_if((work_len as u64) < u64::from(head.g) + 1, 5)
}

/// "5, in its old place, also if the list is shorter than G+1"
fn refusal_5_of_counts(head: &Head, counts_len: usize) -> Result<(), Refusal> {
    refuse_if((counts_len as u64) < u64::from(head.g) + 1, 5)
}

/// "for a store 5 again, after 13, if the list is shorter than G+k+1"
fn refusal_5_again(head: &Head, k: u64, counts_len: usize) -> Result<(), Refusal> {
    refuse_if((counts_len as u64) < u64::from(head.g) + k + 1, 5)
}

/// "From now on 6, in lookups too, means only a link above G"
fn above_g(head: &Head, link: u64) -> bool {
    link > u64::from(head.g)
}

fn refusal_6(image: &[u8], head: &Head) -> Result<(), Refusal> {
    let holds_one = |node: &u64| {
        (0..u64::from(head.n)).any(|letter| above_g(head, link(image, head, *node, letter)))
    };
    refuse_at((0..=u64::from(head.g)).find(holds_one), 6)
}

/// The number of links in which each address from 0 to G stands. Only for an image in which no
/// link is above G.
fn standing(image: &[u8], head: &Head) -> Vec<u32> {
    let mut times = vec![0; head.g as usize + 1];
    for node in 0..=u64::from(head.g) {
        for letter in 0..u64::from(head.n) {
            times[link(image, head, node, letter) as usize] += 1;
        }
    }
    times
}

fn refusal_7(head: &Head, standing: &[u32]) -> Result<(), Refusal> {
    refuse_at((1..=u64::from(head.g)).find(|address| standing[*address as usize] >= 2), 7)
}

fn refusal_8(head: &Head, standing: &[u32]) -> Result<(), Refusal> {
    refuse_at((1..=u64::from(head.g)).find(|address| standing[*address as usize] == 0), 8)
}

/// "every node must be reached from the root": for each node from 0 to G, whether it is. The root
/// is reached, and so is each node that stands in a link of a reached one. Only for an image in
/// which no link is above G.
pub fn reached(image: &[u8], head: &Head) -> Vec<bool> {
    let mut reached = vec![false; head.g as usize + 1];
    let mut to_visit = vec![0];
    while let Some(node) = to_visit.pop() {
        if !reached[node as usize] {
            reached[node as usize] = true;
            let links = (0..u64::from(head.n)).map(|letter| link(image, head, node, letter));
            to_visit.extend(links.filter(|link| *link != 0));
        }
    }
    reached
}

/// "16, a node unreached, place the lowest"
fn refusal_16(image: &[u8], head: &Head) -> Result<(), Refusal> {
    let reached = reached(image, head);
    refuse_at((0..=u64::from(head.g)).find(|node| !reached[*node as usize]), 16)
}

/// The depth of each node from 0 to G: the number of links from the root to it. The root's is 0,
/// and a link leads one deeper. The nodes are met level by level, so a node to which several ways
/// lead has the least depth. One that is not reached has none. A link above G leads nowhere.
pub fn depths(image: &[u8], head: &Head) -> Vec<Option<u64>> {
    let mut depths = vec![None; head.g as usize + 1];
    let (mut met, mut visited) = (vec![(0, 0)], 0);
    while visited < met.len() {
        let (node, depth) = met[visited];
        visited += 1;
        if depths[node as usize].is_none() {
            depths[node as usize] = Some(depth);
            let links = (0..u64::from(head.n)).map(|letter| link(image, head, node, letter));
            let below = links.filter(|link| *link != 0 && !above_g(head, *link));
            met.extend(below.map(|link| (link, depth + 1)));
        }
    }
    depths
}

/// Whether a depth is outside min..max, so that data there is hidden.
pub fn outside(head: &Head, depth: u64) -> bool {
    depth < u64::from(head.min) || depth > u64::from(head.max)
}

/// "The check now refuses data at any depth outside min..max": "19, place the lowest such node".
/// Only for an image in which every node is reached.
fn refusal_19(image: &[u8], head: &Head) -> Result<(), Refusal> {
    let depths = depths(image, head);
    let hidden = |node: &u64| {
        let depth = depths[*node as usize].expect("16 was passed");
        data(image, head, *node) != 0 && outside(head, depth)
    };
    refuse_at((0..=u64::from(head.g)).find(hidden), 19)
}

fn refusal_9(head: &Head, length: usize) -> Result<(), Refusal> {
    refuse_if(length < head.min as usize || length > head.max as usize, 9)
}

/// "For next key, 9 means only a key longer than max."
fn refusal_9_of_next_key(head: &Head, length: usize) -> Result<(), Refusal> {
    refuse_if(length > head.max as usize, 9)
}

fn refusal_10_of_letters(head: &Head, letters: &[u8]) -> Result<(), Refusal> {
    refuse_if(letters.iter().any(|letter| u32::from(*letter) >= head.n), 10)
}

/// If it does not refuse: the letters of the text.
fn refusal_10_of_text(image: &[u8], head: &Head, text: &[u8]) -> Result<Vec<u8>, Refusal> {
    let refused = Err(Refusal { number: 10, place: 0 });
    let found = match characters(text) {
        Some(found) => found,
        None => return refused,
    };
    let alphabet = alphabet(image, head);
    let mut letters = Vec::new();
    for character in found {
        match alphabet.iter().position(|letter| *letter == character) {
            Some(letter) => letters.push(letter as u8),
            None => return refused,
        }
    }
    Ok(letters)
}

/// "values are 64 bits wide in every call", so "11 is never given for D = 8".
fn refusal_11(head: &Head, value: u64) -> Result<(), Refusal> {
    refuse_if(value > greatest(head.d), 11)
}

fn refusal_12(head: &Head, k: u64) -> Result<(), Refusal> {
    refuse_if(k > 0 && u64::from(head.g) + k > greatest(head.a), 12)
}

fn refusal_13(head: &Head, k: u64, image_len: usize) -> Result<(), Refusal> {
    refuse_if(k > 0 && head.u() + u128::from(k) * head.w() > image_len as u128, 13)
}

fn refusal_14(head: &Head, key_len: usize) -> Result<(), Refusal> {
    refuse_if(key_len < head.max as usize, 14)
}

/// "25, counts differ": the place is the lowest node whose count differs. Only for a list of G+1
/// counts or more.
fn refusal_25(image: &[u8], head: &Head, counts: &[u32]) -> Result<(), Refusal> {
    let fresh = fresh_counts(image, head);
    refuse_at(
        (0..=u64::from(head.g)).find(|node| counts[*node as usize] != fresh[*node as usize]),
        25,
    )
}

// ---- orders that several calls share ----

pub fn one_to_four(image: &[u8]) -> Result<Head, Refusal> {
    refusal_1(image.len())?;
    let head = Head::read(image);
    refusal_2(&head)?;
    refusal_3(&head, image.get(28..28 + head.f as usize))?;
    refusal_4(&head, image.len())?;
    Ok(head)
}

/// The order of the check: 1 to 8, 16, 19.
pub fn checked(image: &[u8], work: &mut [u32]) -> Result<Head, Refusal> {
    let head = one_to_four(image)?;
    refusal_5(&head, work.len())?;
    checked_links(image, head, work)
}

/// The same of a call with counts: 5 is also for the list of counts.
fn checked_beside(image: &[u8], work: &mut [u32], counts: &[u32]) -> Result<Head, Refusal> {
    let head = one_to_four(image)?;
    refusal_5(&head, work.len())?;
    refusal_5_of_counts(&head, counts.len())?;
    checked_links(image, head, work)
}

/// 6, 7, 8, then 16 "right after 8", and 19 "right after 16".
///
/// "Once 5 is passed, the first G+1 of them are 0 when the call returns, with the G of entry". The
/// model uses no working numbers, so it clears them here.
fn checked_links(image: &[u8], head: Head, work: &mut [u32]) -> Result<Head, Refusal> {
    work[..=head.g as usize].fill(0);
    refusal_6(image, &head)?;
    let standing = standing(image, &head);
    refusal_7(&head, &standing)?;
    refusal_8(&head, &standing)?;
    refusal_16(image, &head)?;
    refusal_19(image, &head)?;
    Ok(head)
}

/// "every other call that takes counts, a checking call too, first compares them with fresh ones":
/// 25 stands "after all the check's answers".
fn compared(image: &[u8], work: &mut [u32], counts: &[u32]) -> Result<Head, Refusal> {
    let head = checked_beside(image, work, counts)?;
    refusal_25(image, &head, counts)?;
    Ok(head)
}

// ---- stored keys ----

/// Passes every stored key of an accepted image and its value to `met`, in no promised order.
fn each_stored_key(image: &[u8], head: &Head, met: &mut dyn FnMut(&[u8], u64)) {
    each_below(image, head, 0, &mut Vec::new(), met);
}

fn each_below(
    image: &[u8],
    head: &Head,
    node: u64,
    key: &mut Vec<u8>,
    met: &mut dyn FnMut(&[u8], u64),
) {
    let value = data(image, head, node);
    if key.len() >= head.min as usize && key.len() <= head.max as usize && value != 0 {
        met(key, value);
    }
    if key.len() < head.max as usize {
        for letter in 0..head.n {
            let child = link(image, head, node, u64::from(letter));
            if child != 0 {
                key.push(letter as u8);
                each_below(image, head, child, key, met);
                key.pop();
            }
        }
    }
}

/// "a key comes before its extensions; otherwise the first different letter number decides"
pub fn comes_before(one: &[u8], other: &[u8]) -> bool {
    match one.iter().zip(other).find(|(mine, its)| mine != its) {
        Some((mine, its)) => mine < its,
        None => one.len() < other.len(),
    }
}

/// The stored keys of an accepted image, in order.
pub fn stored_keys(image: &[u8], head: &Head) -> Vec<(Vec<u8>, u64)> {
    let mut keys = Vec::new();
    each_stored_key(image, head, &mut |key, value| keys.push((key.to_vec(), value)));
    keys.sort_by(|(one, _), (other, _)| {
        if comes_before(one, other) {
            std::cmp::Ordering::Less
        } else {
            std::cmp::Ordering::Greater
        }
    });
    keys
}

// ---- counts ----

/// The counts of an accepted image, "one for each node: how many stored keys lie at or under it".
/// So a count is the number of stored keys whose path from the root passes the node.
pub fn fresh_counts(image: &[u8], head: &Head) -> Vec<u32> {
    let mut counts = vec![0; head.g as usize + 1];
    each_stored_key(image, head, &mut |key, _| {
        let mut node = 0;
        counts[node] += 1;
        for letter in key {
            node = link(image, head, node as u64, u64::from(*letter)) as usize;
            counts[node] += 1;
        }
    });
    counts
}

/// Writes the fresh counts to the front of the list. The rest keeps what it held.
fn write_counts(counts: &mut [u32], image: &[u8]) {
    let fresh = fresh_counts(image, &Head::read(image));
    counts[..fresh.len()].copy_from_slice(&fresh);
}

// ---- calls ----

/// Make: 1, 2, 3, 4, for G = 0, with F the length of the alphabet given.
pub fn make(
    image: &mut [u8],
    n: u32,
    a: u32,
    d: u32,
    alphabet: &[u8],
    min: u32,
    max: u32,
) -> Answer {
    answer(try_make(image, n, a, d, alphabet, min, max))
}

fn try_make(
    image: &mut [u8],
    n: u32,
    a: u32,
    d: u32,
    alphabet: &[u8],
    min: u32,
    max: u32,
) -> Result<Answer, Refusal> {
    refusal_1(image.len())?;
    // a length that does not fit 32 bits is above 1,024 in any case
    let f = alphabet.len().min(u32::MAX as usize) as u32;
    let head = Head { g: 0, n, a, d, f, min, max };
    refusal_2(&head)?;
    refusal_3(&head, Some(alphabet))?;
    refusal_4(&head, image.len())?;
    head.write(image);
    image[28..28 + alphabet.len()].copy_from_slice(alphabet);
    image[head.node(0) as usize..head.u() as usize].fill(0);
    Ok(Answer::default())
}

/// Check: 1 to 8, 16, 19.
pub fn check(image: &[u8], work: &mut [u32]) -> Answer {
    answer(checked(image, work).map(|_| Answer::default()))
}

/// Mend: "if the check answers 8 at p, and the image with G set to p-1 is accepted, G becomes p-1
/// and the answer is 0; otherwise nothing changes and the check's answer is returned".
pub fn mend(image: &mut [u8], work: &mut [u32]) -> Answer {
    let answered = check(image, work);
    if answered.number == 8 {
        let p = answered.place;
        let mut trial = image.to_vec();
        Head { g: p - 1, ..Head::read(image) }.write(&mut trial);
        if checked(&trial, &mut vec![0; p as usize]).is_ok() {
            image.copy_from_slice(&trial);
            return Answer::default();
        }
    }
    answered
}

/// Number of stored keys: 1 to 8, 16, 19.
pub fn count(image: &[u8], work: &mut [u32]) -> Answer {
    answer(checked(image, work).map(|head| {
        let mut keys = 0;
        each_stored_key(image, &head, &mut |_, _| keys += 1);
        Answer { value: keys, ..Answer::default() }
    }))
}

/// Look up by letters: 1 to 4, 9, 10, then 6 on the path.
pub fn look_up(image: &[u8], letters: &[u8]) -> Answer {
    answer(try_look_up(image, letters))
}

fn try_look_up(image: &[u8], letters: &[u8]) -> Result<Answer, Refusal> {
    let head = one_to_four(image)?;
    nine_and_ten(&head, letters)?;
    walk(image, &head, letters)
}

/// Look up by text: 1 to 4, 10, 9, then 6 on the path.
pub fn look_up_text(image: &[u8], text: &[u8]) -> Answer {
    answer(try_look_up_text(image, text))
}

fn try_look_up_text(image: &[u8], text: &[u8]) -> Result<Answer, Refusal> {
    let head = one_to_four(image)?;
    let letters = ten_and_nine(image, &head, text)?;
    walk(image, &head, &letters)
}

/// The descent of a lookup, in an image that was not checked.
fn walk(image: &[u8], head: &Head, letters: &[u8]) -> Result<Answer, Refusal> {
    let mut node = 0;
    for letter in letters {
        let next = link(image, head, node, u64::from(*letter));
        if next == 0 {
            return Ok(Answer::default());
        }
        if above_g(head, next) {
            return Err(Refusal { number: 6, place: node as u32 });
        }
        node = next;
    }
    Ok(Answer { value: data(image, head, node), ..Answer::default() })
}

/// Store by letters: 1 to 8, 16, 19, 9, 10, 11, 12, 13.
pub fn store(image: &mut [u8], work: &mut [u32], letters: &[u8], value: u64) -> Answer {
    answer(
        before_store(image, work, letters).and_then(|head| store_at(image, &head, letters, value)),
    )
}

/// Store with writes by letters: the same refusals.
pub fn store_writes(
    image: &mut [u8],
    work: &mut [u32],
    letters: &[u8],
    value: u64,
    writes: &mut [u32],
) -> Answer {
    answer(
        before_store(image, work, letters)
            .and_then(|head| store_and_list(image, &head, letters, value, writes)),
    )
}

fn before_store(image: &[u8], work: &mut [u32], letters: &[u8]) -> Result<Head, Refusal> {
    let head = checked(image, work)?;
    nine_and_ten(&head, letters)?;
    Ok(head)
}

fn nine_and_ten(head: &Head, letters: &[u8]) -> Result<(), Refusal> {
    refusal_9(head, letters.len())?;
    refusal_10_of_letters(head, letters)
}

/// Store by text: 1 to 8, 16, 19, 10, 9, 11, 12, 13.
pub fn store_text(image: &mut [u8], work: &mut [u32], text: &[u8], value: u64) -> Answer {
    answer(
        before_store_text(image, work, text)
            .and_then(|(head, letters)| store_at(image, &head, &letters, value)),
    )
}

/// Store with writes by text: the same refusals.
pub fn store_text_writes(
    image: &mut [u8],
    work: &mut [u32],
    text: &[u8],
    value: u64,
    writes: &mut [u32],
) -> Answer {
    answer(
        before_store_text(image, work, text)
            .and_then(|(head, letters)| store_and_list(image, &head, &letters, value, writes)),
    )
}

fn before_store_text(
    image: &[u8],
    work: &mut [u32],
    text: &[u8],
) -> Result<(Head, Vec<u8>), Refusal> {
    let head = checked(image, work)?;
    let letters = ten_and_nine(image, &head, text)?;
    Ok((head, letters))
}

/// "For text, 10 stands before 9." If they do not refuse: the letters of the text.
fn ten_and_nine(image: &[u8], head: &Head, text: &[u8]) -> Result<Vec<u8>, Refusal> {
    let letters = refusal_10_of_text(image, head, text)?;
    refusal_9(head, letters.len())?;
    Ok(letters)
}

/// How far the key's path goes in an accepted image: the last node and the number of letters up to
/// it.
pub fn path(image: &[u8], head: &Head, letters: &[u8]) -> (u64, usize) {
    let mut node = 0;
    for (depth, letter) in letters.iter().enumerate() {
        match link(image, head, node, u64::from(*letter)) {
            0 => return (node, depth),
            next => node = next,
        }
    }
    (node, letters.len())
}

/// "k is the number of nodes missing on the key's path, but 0 where the value is 0"
pub fn new_nodes(image: &[u8], head: &Head, letters: &[u8], value: u64) -> u64 {
    let (_, depth) = path(image, head, letters);
    if value == 0 {
        0
    } else {
        (letters.len() - depth) as u64
    }
}

/// 11, 12, 13 of a store whose key is not refused. If they do not refuse: k.
fn eleven_to_thirteen(
    image: &[u8],
    head: &Head,
    letters: &[u8],
    value: u64,
) -> Result<u64, Refusal> {
    refusal_11(head, value)?;
    let k = new_nodes(image, head, letters, value);
    refusal_12(head, k)?;
    refusal_13(head, k, image.len())?;
    Ok(k)
}

/// The part of a store after the check, 9 and 10: 11, 12, 13, then what it writes.
fn store_at(image: &mut [u8], head: &Head, letters: &[u8], value: u64) -> Result<Answer, Refusal> {
    let k = eleven_to_thirteen(image, head, letters, value)?;
    let (last, depth) = path(image, head, letters);
    let missing = (letters.len() - depth) as u64;
    let before = if missing == 0 { data(image, head, last) } else { 0 };
    if missing == 0 {
        write_data(image, head, last, value);
    } else if k > 0 {
        let new = u64::from(head.g) + 1;
        write_link(image, head, last, u64::from(letters[depth]), new);
        let new_nodes = head.node(new) as usize..head.node(new + k) as usize;
        image[new_nodes].fill(0);
        for (i, letter) in letters[depth + 1..].iter().enumerate() {
            write_link(image, head, new + i as u64, u64::from(*letter), new + i as u64 + 1);
        }
        write_data(image, head, new + k - 1, value);
        Head { g: (u64::from(head.g) + k) as u32, ..*head }.write(image);
    }
    let change = i32::from(value != 0) - i32::from(before != 0);
    Ok(Answer { change, ..Answer::default() })
}

/// The same part of a store with writes. The list of writes goes to the front of the numbers lent.
/// A refusal changes none of them.
fn store_and_list(
    image: &mut [u8],
    head: &Head,
    letters: &[u8],
    value: u64,
    writes: &mut [u32],
) -> Result<Answer, Refusal> {
    let listed = list(image, head, letters, value);
    let done = store_at(image, head, letters, value)?;
    for (pair, (place, length)) in writes.chunks_mut(2).zip(&listed) {
        pair.copy_from_slice(&[*place as u32, *length as u32]);
    }
    Ok(Answer { length: listed.len() as u32, ..done })
}

/// The same part of a store with counts: 11, 12, 13, 5 again. "the result equals the counts worked
/// out afresh"
fn store_and_count(
    image: &mut [u8],
    head: &Head,
    letters: &[u8],
    value: u64,
    counts: &mut [u32],
) -> Result<Answer, Refusal> {
    let k = eleven_to_thirteen(image, head, letters, value)?;
    refusal_5_again(head, k, counts.len())?;
    let done = store_at(image, head, letters, value)?;
    write_counts(counts, image);
    Ok(done)
}

/// The offset and the length of each write of a store: "first the new nodes, one write each by
/// rising address, then G, then the old link; for a complete path, the data field alone".
fn list(image: &[u8], head: &Head, letters: &[u8], value: u64) -> Vec<(usize, usize)> {
    let (last, depth) = path(image, head, letters);
    let k = (letters.len() - depth) as u64;
    if k == 0 {
        return vec![(head.data_at(last), head.d as usize)];
    }
    if value == 0 {
        return Vec::new();
    }
    let new = u64::from(head.g) + 1;
    let mut writes: Vec<(usize, usize)> =
        (new..new + k).map(|node| (head.node(node) as usize, head.w() as usize)).collect();
    writes.push((0, 4));
    writes.push((head.link_at(last, u64::from(letters[depth])), head.a as usize));
    writes
}

/// Next key: 1 to 8, 16, 19, 9 (longer than max), 10, 14, 15. If `after` is false, it is "at or
/// after".
pub fn next_key(
    image: &[u8],
    work: &mut [u32],
    letters: &[u8],
    after: bool,
    key: &mut [u8],
) -> Answer {
    answer(try_next_key(image, work, letters, after, key))
}

fn try_next_key(
    image: &[u8],
    work: &mut [u32],
    letters: &[u8],
    after: bool,
    key: &mut [u8],
) -> Result<Answer, Refusal> {
    let head = checked(image, work)?;
    refusal_9_of_next_key(&head, letters.len())?;
    refusal_10_of_letters(&head, letters)?;
    refusal_14(&head, key.len())?;
    let mut first: Option<(Vec<u8>, u64)> = None;
    each_stored_key(image, &head, &mut |stored, value| {
        let meets = comes_before(letters, stored) || (!after && letters == stored);
        let is_first = first.as_ref().map_or(true, |(found, _)| comes_before(stored, found));
        if meets && is_first {
            first = Some((stored.to_vec(), value));
        }
    });
    let (found, value) = first.ok_or(Refusal { number: 15, place: 0 })?;
    key[..found.len()].copy_from_slice(&found);
    Ok(Answer { length: found.len() as u32, value, ..Answer::default() })
}

// ---- calls with counts ----

/// Work out counts: 1 to 8, 16, 19 (5 for either list).
pub fn counts(image: &[u8], work: &mut [u32], counts: &mut [u32]) -> Answer {
    answer(checked_beside(image, work, counts).map(|_| {
        write_counts(counts, image);
        Answer::default()
    }))
}

/// Check with counts: 1 to 8, 16, 19, 25.
pub fn check_counts(image: &[u8], work: &mut [u32], counts: &[u32]) -> Answer {
    answer(compared(image, work, counts).map(|_| Answer::default()))
}

/// Store with counts by letters: 1 to 8, 16, 19, 25, 9, 10, 11, 12, 13, 5 again.
pub fn store_counts(
    image: &mut [u8],
    work: &mut [u32],
    letters: &[u8],
    value: u64,
    counts: &mut [u32],
) -> Answer {
    answer(try_store_counts(image, work, letters, value, counts))
}

fn try_store_counts(
    image: &mut [u8],
    work: &mut [u32],
    letters: &[u8],
    value: u64,
    counts: &mut [u32],
) -> Result<Answer, Refusal> {
    let head = compared(image, work, counts)?;
    nine_and_ten(&head, letters)?;
    store_and_count(image, &head, letters, value, counts)
}

/// Store with counts by text: 1 to 8, 16, 19, 25, 10, 9, 11, 12, 13, 5 again.
pub fn store_text_counts(
    image: &mut [u8],
    work: &mut [u32],
    text: &[u8],
    value: u64,
    counts: &mut [u32],
) -> Answer {
    answer(try_store_text_counts(image, work, text, value, counts))
}

fn try_store_text_counts(
    image: &mut [u8],
    work: &mut [u32],
    text: &[u8],
    value: u64,
    counts: &mut [u32],
) -> Result<Answer, Refusal> {
    let head = compared(image, work, counts)?;
    let letters = ten_and_nine(image, &head, text)?;
    store_and_count(image, &head, &letters, value, counts)
}

/// Key at a position: 1 to 8, 16, 19, 25, 14, 15.
pub fn key_at(
    image: &[u8],
    work: &mut [u32],
    counts: &[u32],
    position: u64,
    key: &mut [u8],
) -> Answer {
    answer(try_key_at(image, work, counts, position, key))
}

fn try_key_at(
    image: &[u8],
    work: &mut [u32],
    counts: &[u32],
    position: u64,
    key: &mut [u8],
) -> Result<Answer, Refusal> {
    let head = compared(image, work, counts)?;
    refusal_14(&head, key.len())?;
    let keys = stored_keys(image, &head);
    refuse_if(position >= keys.len() as u64, 15)?;
    let (found, value) = &keys[position as usize];
    key[..found.len()].copy_from_slice(found);
    Ok(Answer { length: found.len() as u32, value: *value, ..Answer::default() })
}

/// Position of a key by letters: 1 to 8, 16, 19, 25, 9, 10, 15.
pub fn position(image: &[u8], work: &mut [u32], counts: &[u32], letters: &[u8]) -> Answer {
    answer(compared(image, work, counts).and_then(|head| {
        nine_and_ten(&head, letters)?;
        position_of(image, &head, letters)
    }))
}

/// Position of a key by text: 1 to 8, 16, 19, 25, 10, 9, 15.
pub fn position_text(image: &[u8], work: &mut [u32], counts: &[u32], text: &[u8]) -> Answer {
    answer(compared(image, work, counts).and_then(|head| {
        let letters = ten_and_nine(image, &head, text)?;
        position_of(image, &head, &letters)
    }))
}

fn position_of(image: &[u8], head: &Head, letters: &[u8]) -> Result<Answer, Refusal> {
    let keys = stored_keys(image, head);
    let position =
        keys.iter().position(|(key, _)| key == letters).ok_or(Refusal { number: 15, place: 0 })?;
    Ok(Answer { value: position as u64, ..Answer::default() })
}

// ---- the listing program ----

/// What the listing program writes for its input.
pub fn listing(input: &[u8]) -> String {
    if input.len() > LONGEST_INPUT {
        return "refused 1 at 0\n".to_string();
    }
    let head = match checked(input, &mut [0; LISTING_WORK]) {
        Ok(head) => head,
        Err(Refusal { number, place }) => return format!("refused {number} at {place}\n"),
    };
    let keys = stored_keys(input, &head);
    let mut lines = format!("entries {}\n", keys.len());
    for (key, value) in keys {
        let letters: Vec<String> = key.iter().map(|letter| letter.to_string()).collect();
        let name = if key.is_empty() { "-".to_string() } else { letters.join(".") };
        lines += &format!("{name} {value}\n");
    }
    lines
}

#[cfg(test)]
#[path = "model_cases.rs"]
mod cases;
