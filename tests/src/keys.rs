//! Keys by letters and by text: on paths of the tree and beside them, at every limit and past it,
//! and texts that are ill-formed in every way.

use crate::damage::{readable, taken_letter, ILL_FORMED};
use crate::model::{greatest, link, Head, WIDEST_DATA};
use crate::rng::Rng;
use crate::shapes::{self, character};

/// N, min and max, kept within their limits; if the head cannot be read, those of 01's small file.
fn limits(image: &[u8]) -> (u64, u64, u64) {
    if image.len() < 28 {
        return (3, 1, 3);
    }
    let head = Head::read(image);
    (u64::from(head.n).clamp(1, 256), u64::from(head.min).min(64), u64::from(head.max).min(64))
}

pub fn letters(rng: &mut Rng, image: &[u8], last_found: &[u8]) -> Vec<u8> {
    let (n, min, max) = limits(image);
    let any = rng.between(min, max);
    let near = rng.between(min, (min + 3).min(max));
    let length = match rng.below(12) {
        0 => rng.pick(&[0, min.saturating_sub(1), max + 1, 64, 65, 300]),
        1..=3 => any,
        4 => max,
        5 => min,
        _ => near,
    };
    let mut letters = match rng.below(8) {
        0 => last_found.to_vec(),
        1..=2 => (0..length).map(|_| rng.below(n) as u8).collect(),
        _ => walked(rng, image, length, min),
    };
    if n < 256 && !letters.is_empty() && rng.one_in(12) {
        let at = rng.below(letters.len() as u64) as usize;
        let past = rng.between(n, 255);
        letters[at] = rng.pick(&[n, n, 255, past]) as u8;
    }
    letters
}

/// Letters along links that are not empty, as far as these go, at times with a letter that leaves
/// the path. The letters after that are random.
fn walked(rng: &mut Rng, image: &[u8], length: u64, min: u64) -> Vec<u8> {
    let (n, _, _) = limits(image);
    let head = readable(image);
    let mut letters = Vec::new();
    let mut node = if head.is_some() { Some(0) } else { None };
    let stray = rng.pick(&[4, 8, 50]);
    while (letters.len() as u64) < length {
        let taken = match (node, &head) {
            (Some(node), Some(head)) if !rng.one_in(stray) => taken_letter(rng, image, head, node),
            _ => None,
        };
        if taken.is_none() && node.is_some() && letters.len() as u64 >= min && rng.one_in(2) {
            break;
        }
        node = match (node, &head, taken) {
            (Some(node), Some(head), Some(letter)) => {
                Some(link(image, head, node, letter)).filter(|next| *next <= u64::from(head.g))
            }
            _ => None,
        };
        letters.push(taken.unwrap_or_else(|| rng.below(n)) as u8);
    }
    letters
}

/// The text of a key. A letter that the alphabet does not have becomes a random character. The
/// text is spoiled at times.
pub fn text(rng: &mut Rng, alphabet: &[Vec<u8>], letters: &[u8]) -> Vec<u8> {
    let mut characters: Vec<Vec<u8>> = letters
        .iter()
        .map(|letter| match alphabet.get(usize::from(*letter)) {
            Some(character) => character.clone(),
            None => any_character(rng),
        })
        .collect();
    if rng.one_in(5) {
        spoil(rng, alphabet, &mut characters);
    }
    let mut text = characters.concat();
    if rng.one_in(30) && !text.is_empty() {
        let at = rng.below(text.len() as u64) as usize;
        text[at] = rng.next() as u8;
    }
    text
}

fn any_character(rng: &mut Rng) -> Vec<u8> {
    let sort = rng.below(6);
    character(rng, sort)
}

/// Changes or adds one character, or makes the text long, at times with a bad character at its
/// end.
fn spoil(rng: &mut Rng, alphabet: &[Vec<u8>], characters: &mut Vec<Vec<u8>>) {
    let at = rng.below(characters.len() as u64 + 1) as usize;
    match rng.below(7) {
        0 => characters.insert(at, rng.pick(&ILL_FORMED).to_vec()),
        1 => characters.insert(at, any_character(rng)),
        2 => {
            if let Some(last) = characters.last_mut() {
                last.pop();
            }
        }
        3 => {
            if at < characters.len() {
                characters[at].remove(0);
            }
        }
        4 => characters.insert(at, near_character(rng, alphabet)),
        _ => {
            let many = rng.pick(&[64, 65, 66, 200, 300]);
            for _ in characters.len()..many {
                characters.push(if alphabet.is_empty() {
                    any_character(rng)
                } else {
                    alphabet[rng.below(alphabet.len() as u64) as usize].clone()
                });
            }
            match rng.below(4) {
                0 => characters.push(rng.pick(&ILL_FORMED).to_vec()),
                1 => characters.push(near_character(rng, alphabet)),
                _ => {}
            }
        }
    }
}

/// A letter's character with its last byte changed by one: only its first bytes match.
fn near_character(rng: &mut Rng, alphabet: &[Vec<u8>]) -> Vec<u8> {
    if alphabet.is_empty() {
        return any_character(rng);
    }
    let mut character = alphabet[rng.below(alphabet.len() as u64) as usize].clone();
    let last = character.len() - 1;
    character[last] ^= 1;
    character
}

/// The value of a store: 0, one that D bytes can hold, or one that they cannot, if D is not 8:
/// 256^D, one whose low 32 bits they can hold, or any.
pub fn value(rng: &mut Rng, image: &[u8]) -> u64 {
    let d = if image.len() < 28 { 1 } else { Head::read(image).d.clamp(1, WIDEST_DATA) };
    let most = greatest(d);
    let fits = shapes::value(rng, d);
    let any = shapes::value(rng, WIDEST_DATA);
    match rng.below(12) {
        0..=1 => 0,
        2 => 1,
        3 => most,
        4 => most.saturating_add(1),
        5 if rng.one_in(2) => rng.pick(&[any, any >> 32 << 32 | fits, u64::MAX]),
        _ => fits,
    }
}
