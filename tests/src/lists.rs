//! Lists of counts to lend: right ones, ones that are wrong in one way, and rubbish, in every
//! length that matters.

use crate::model::{self, Head};
use crate::rng::Rng;

/// The right counts of an image, if it is accepted.
pub fn right(image: &[u8]) -> Option<Vec<u32>> {
    counts_if(image, &[0])
}

/// The counts of the stored keys, if the image is accepted or would be without its hidden data.
pub fn of_stored_keys(image: &[u8]) -> Option<Vec<u32>> {
    counts_if(image, &[0, 19])
}

/// The counts of an image whose check answers one of these numbers.
fn counts_if(image: &[u8], numbers: &[u32]) -> Option<Vec<u32>> {
    let head = model::one_to_four(image).ok()?;
    let answer = model::check(image, &mut vec![0; head.g as usize + 1]);
    numbers.contains(&answer.number).then(|| model::fresh_counts(image, &head))
}

/// Random numbers: 0 alone, small ones as counts are, or any.
pub fn rubbish(rng: &mut Rng, len: usize) -> Vec<u32> {
    let mask = rng.pick(&[0, 1, 3, u32::MAX]);
    (0..len).map(|_| rng.next() as u32 & mask).collect()
}

/// The list with rubbish added or its end cut off, so that it has a length.
pub fn of_length(rng: &mut Rng, mut counts: Vec<u32>, len: usize) -> Vec<u32> {
    let more = rubbish(rng, len.saturating_sub(counts.len()));
    counts.truncate(len);
    counts.extend(more);
    counts
}

/// Makes the right counts of an accepted image wrong in one way. They stay right if the image has
/// nothing to which the chosen way applies.
pub fn spoil(rng: &mut Rng, image: &[u8], counts: &mut [u32]) {
    let head = Head::read(image);
    let last = counts.len() - 1;
    let any = rng.between(0, last as u64) as usize;
    match rng.below(9) {
        0 => counts[any] = counts[any].wrapping_add(1),
        1 => counts[any] = counts[any].wrapping_sub(1),
        2 => {
            counts[any] =
                rng.pick(&[0, u32::MAX, counts[any] ^ 0x0001_0000, counts[any] ^ 0x8000_0000])
        }
        3 => counts[last] ^= 1,
        4 => count_where_none_is(rng, counts),
        5 => counts.copy_from_slice(&too_many(image, |depth| depth < u64::from(head.min))),
        6 => counts.copy_from_slice(&too_many(image, |depth| depth > u64::from(head.max))),
        7 => counts.rotate_right(1),
        _ => {
            counts[any] = counts[any].wrapping_add(1);
            counts[last] = counts[last].wrapping_sub(1);
        }
    }
}

/// Gives a count of 1 to a node whose count is 0: no stored key passes it.
fn count_where_none_is(rng: &mut Rng, counts: &mut [u32]) {
    let start = rng.below(counts.len() as u64) as usize;
    let many = counts.len();
    let mut nodes = (0..many).map(|i| (start + i) % many);
    if let Some(node) = nodes.find(|node| counts[*node] == 0) {
        counts[node] = 1;
    }
}

/// The counts that there would be if each node at such a depth were a stored key, with or without
/// data. Only for an image in which every node is reached.
pub fn too_many(image: &[u8], at: impl Fn(u64) -> bool) -> Vec<u32> {
    let head = Head::read(image);
    let depth: Vec<u64> = model::depths(image, &head).into_iter().flatten().collect();
    let stored = |node: u64, depth: u64| {
        model::data(image, &head, node) != 0 && !model::outside(&head, depth)
    };
    let mut counts: Vec<u32> = (0..)
        .zip(&depth)
        .map(|(node, depth)| u32::from(at(*depth) || stored(node, *depth)))
        .collect();
    let mut deepest_first: Vec<u64> = (0..depth.len() as u64).collect();
    deepest_first.sort_by_key(|node| std::cmp::Reverse(depth[*node as usize]));
    for node in deepest_first {
        for letter in 0..u64::from(head.n) {
            match model::link(image, &head, node, letter) as usize {
                0 => {}
                child => counts[node as usize] += counts[child],
            }
        }
    }
    counts
}
