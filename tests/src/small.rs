//! Small images with A = 1 and their keys, for the exhaustive part and for the cuts.

use crate::model::{greatest, write_number, Head};
use crate::renumbering;
use crate::rng::Rng;

/// All of an image but its body: the lengths of keys, the alphabet, the spare bytes.
#[derive(Clone, Copy)]
pub struct Setting {
    pub lengths: (u32, u32),
    pub alphabet: bool,
    /// Spare bytes: room for this number of nodes, and this number of bytes more.
    pub spare: (usize, usize),
}

const LENGTHS: [(u32, u32); 7] = [(0, 3), (1, 3), (0, 0), (1, 2), (2, 2), (0, 1), (3, 3)];
const SPARE: [(usize, usize); 4] = [(0, 0), (1, 0), (2, 2), (3, 1)];

pub fn settings() -> Vec<Setting> {
    let mut all = Vec::new();
    for lengths in LENGTHS {
        for alphabet in [false, true] {
            all.extend(SPARE.iter().map(|spare| Setting { lengths, alphabet, spare: *spare }));
        }
    }
    all
}

/// The characters of the letters have one, two and three bytes. `OUTSIDE` is in no alphabet and
/// shares a byte with a letter's character.
pub const CHARACTERS: [&str; 3] = ["A", "é", "€"];
const OUTSIDE: &str = "ê";

/// A key as letters and as text.
pub struct Key {
    pub letters: Vec<u8>,
    pub text: Vec<u8>,
}

/// Every key of at most three letters from 0 to n, where n is bad.
pub fn keys(n: u32) -> Vec<Key> {
    let mut all: Vec<Vec<u8>> = vec![Vec::new()];
    let mut longest = all.clone();
    for _ in 0..3 {
        longest = longest
            .iter()
            .flat_map(|key| (0..=n as u8).map(move |letter| [key.as_slice(), &[letter]].concat()))
            .collect();
        all.extend(longest.clone());
    }
    let character = |letter: &u8| {
        if u32::from(*letter) < n {
            CHARACTERS[usize::from(*letter)]
        } else {
            OUTSIDE
        }
    };
    all.into_iter()
        .map(|letters| Key {
            text: letters.iter().map(character).collect::<String>().into_bytes(),
            letters,
        })
        .collect()
}

/// An image with N links and D bytes of data in a node, and with rubbish in its spare bytes.
pub fn image(
    rng: &mut Rng,
    (n, d): (u32, u32),
    links: &[u8],
    data: &[u64],
    setting: &Setting,
) -> Vec<u8> {
    let alphabet: String =
        if setting.alphabet { CHARACTERS[..n as usize].concat() } else { String::new() };
    let (min, max) = setting.lengths;
    let g = (links.len() / n as usize) as u32 - 1;
    let head = Head { g, n, a: 1, d, f: alphabet.len() as u32, min, max };
    let mut image = vec![0; 28];
    head.write(&mut image);
    image.extend(alphabet.into_bytes());
    for (node, value) in links.chunks(n as usize).zip(data) {
        image.extend(node);
        let at = image.len();
        image.resize(at + d as usize, 0);
        write_number(&mut image[at..], *value);
    }
    let rubbish = rng.rubbish(setting.spare.0 * head.w() as usize + setting.spare.1);
    image.extend(rubbish);
    image
}

/// The value of D bytes with 1 in the first of them alone: 256^(D-1).
pub fn first_byte(d: u32) -> u64 {
    greatest(d - 1) + 1
}

/// Every tuple of the values with this length.
pub fn tuples<T: Copy>(values: &[T], length: usize) -> impl Iterator<Item = Vec<T>> {
    let values = values.to_vec();
    let many = values.len().pow(length as u32);
    (0..many).map(move |index| {
        let mut rest = index;
        let mut next = |_| {
            let value = values[rest % values.len()];
            rest /= values.len();
            value
        };
        (0..length).map(&mut next).collect()
    })
}

/// The links of every accepted image in which links rise: each address from 1 to G stands in one
/// link of a lower node.
pub fn rising_trees(n: usize, g: usize) -> Vec<Vec<u8>> {
    let mut all = vec![vec![0; n * (g + 1)]];
    for address in 1..=g {
        let hang = |tree: &Vec<u8>| {
            let free: Vec<usize> = (0..n * address).filter(|link| tree[*link] == 0).collect();
            let tree = tree.clone();
            free.into_iter().map(move |link| {
                let mut taller = tree.clone();
                taller[link] = address as u8;
                taller
            })
        };
        all = all.iter().flat_map(hang).collect();
    }
    all
}

/// The links of a tree whose nodes get new addresses: node n gets `new[n]`.
pub fn renumbered(n: usize, links: &[u8], new: &[u64]) -> Vec<u8> {
    let mut moved = vec![0; links.len()];
    for (node, to) in links.chunks(n).zip(new) {
        let start = *to as usize * n;
        for (link, address) in moved[start..start + n].iter_mut().zip(node) {
            *link = new[usize::from(*address)] as u8;
        }
    }
    moved
}

/// The links of every accepted image: the rising trees, with their addresses in every order.
pub fn trees(n: usize, g: usize) -> Vec<Vec<u8>> {
    let rising = rising_trees(n, g);
    let moved = |new: Vec<u64>| {
        rising.iter().map(|links| renumbered(n, links, &new)).collect::<Vec<Vec<u8>>>()
    };
    let mut all: Vec<Vec<u8>> = renumbering::every(g as u32).into_iter().flat_map(moved).collect();
    all.sort();
    all.dedup();
    all
}

#[cfg(test)]
mod tests {
    use super::*;
    use crate::model::{self, Answer};

    #[test]
    fn trees_are_the_accepted_images() {
        // by N and G: the trees with G+1 nodes, by their form, times the orders of G addresses
        let many = [(1, 4, 24), (2, 1, 2), (2, 2, 5 * 2), (2, 3, 14 * 6), (3, 2, 12 * 2)];
        for (n, g, many) in many {
            let values: Vec<u8> = (0..=g).collect();
            let links = n as usize * (usize::from(g) + 1);
            let accepted = |links: &Vec<u8>| {
                let setting = &settings()[0];
                let image = image(&mut Rng::new(0), (n, 1), links, &[0; 5], setting);
                model::check(&image, &mut [0; 5]) == Answer::default()
            };
            let mut all: Vec<Vec<u8>> = tuples(&values, links).filter(accepted).collect();
            all.sort();
            assert_eq!(all.len(), many);
            assert_eq!(all, trees(n as usize, usize::from(g)));
        }
    }
}
