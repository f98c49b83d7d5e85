//! Accepted images of many shapes: alphabets, heads, trees with rising addresses and renumbered
//! ones, nodes at every depth, data where min and max permit it, spare bytes.

use crate::model::{greatest, outside, write_number, Head, MOST_LINKS, WIDEST_DATA, WIDEST_LINK};
use crate::renumbering::{self, renumbered};
use crate::rng::Rng;

/// What stores do not change in an image, and the G at the start.
#[derive(Clone)]
pub struct Shape {
    /// The head with the G at the start.
    pub head: Head,
    /// The characters of the letters; none if F is 0.
    pub alphabet: Vec<Vec<u8>>,
}

/// The form of a tree.
#[derive(Clone, Copy, PartialEq)]
enum Growth {
    Chain,
    Deep,
    Bushy,
    Flat,
}

impl Shape {
    pub fn draw(rng: &mut Rng) -> Shape {
        let n = match rng.below(40) {
            0 => MOST_LINKS,
            1 => 255,
            2 => rng.between(17, 200) as u32,
            3..=8 => 1,
            9..=16 => 2,
            17..=24 => 3,
            25..=28 => 16,
            _ => rng.between(4, 15) as u32,
        };
        let mut shape = Shape::of(rng, n);
        if n == MOST_LINKS && rng.one_in(3) {
            (shape.head.a, shape.head.d) = (WIDEST_LINK, WIDEST_DATA);
        }
        shape
    }

    pub fn of(rng: &mut Rng, n: u32) -> Shape {
        let (min, max) = lengths(rng);
        let alphabet = if rng.one_in(4) { Vec::new() } else { alphabet(rng, n as usize) };
        let f = alphabet.iter().map(|character| character.len() as u32).sum();
        let head = Head {
            g: 0,
            n,
            a: rng.between(1, 4) as u32,
            d: rng.between(1, u64::from(WIDEST_DATA)) as u32,
            f,
            min,
            max,
        };
        Shape { head, alphabet }
    }

    /// A shape with N = 1 and D = 1: it has the most nodes.
    pub fn narrow(rng: &mut Rng, a: u32) -> Shape {
        let mut shape = Shape::of(rng, 1);
        shape.head.a = a;
        shape.head.d = 1;
        shape
    }

    pub fn alphabet_bytes(&self) -> Vec<u8> {
        self.alphabet.concat()
    }

    /// The number of nodes in a number of bytes: at least one, and no more than A permits.
    fn nodes_in(&self, bytes: u64) -> u64 {
        (bytes / self.head.w() as u64).clamp(1, greatest(self.head.a) + 1)
    }

    /// Draws a G, mostly for a small image. It is at most the greatest address in A bytes.
    pub fn draw_g(&mut self, rng: &mut Rng) {
        let budget = rng.pick(&[60, 200, 200, 600, 600, 2_000, 6_000]);
        let most = self.nodes_in(budget) - 1;
        let any = rng.between(0, most);
        self.head.g = rng.pick(&[0, 1.min(most), any, any, most]) as u32;
    }

    /// An accepted image with `spare` bytes of rubbish after U. Half of them are renumbered. Nodes
    /// at a depth outside min..max have no data.
    pub fn grow(&self, rng: &mut Rng, spare: usize) -> Vec<u8> {
        let head = &self.head;
        let mut image = vec![0; head.u() as usize];
        head.write(&mut image);
        image[28..28 + head.f as usize].copy_from_slice(&self.alphabet_bytes());
        let growth = rng.pick(&[
            Growth::Chain,
            Growth::Deep,
            Growth::Deep,
            Growth::Bushy,
            Growth::Bushy,
            Growth::Flat,
        ]);
        let mut depths = vec![0];
        for address in 1..=u64::from(head.g) {
            let (parent, at) = self.free_link(rng, &image, growth, address);
            write_number(&mut image[at..at + head.a as usize], address);
            depths.push(depths[parent as usize] + 1);
        }
        let full = rng.pick(&[1, 2, 2, 4]);
        for (node, depth) in (0..).zip(depths) {
            let empty = outside(head, depth) || (rng.below(full) == 0 && full > 1);
            let value = if empty { 0 } else { value(rng, head.d) };
            let at = head.data_at(node);
            write_number(&mut image[at..at + head.d as usize], value);
        }
        if rng.one_in(2) {
            image = renumbered(&image, &renumbering::draw(rng, head.g));
        }
        let rubbish = rng.rubbish(spare);
        image.extend(rubbish);
        image
    }

    /// A node below `address` with an empty link, and that link's offset, for the node at
    /// `address`. There is one, since all links of the node before it are empty.
    fn free_link(
        &self,
        rng: &mut Rng,
        image: &[u8],
        growth: Growth,
        address: u64,
    ) -> (u64, usize) {
        let head = &self.head;
        let mut tries = 0;
        loop {
            let parent = match growth {
                _ if tries > 6 => address - 1,
                Growth::Chain => address - 1,
                Growth::Deep if rng.below(4) > 0 => address - 1,
                Growth::Flat => rng.below(1 + address / u64::from(head.n)).min(address - 1),
                _ => rng.below(address),
            };
            let at = head.link_at(parent, rng.below(u64::from(head.n)));
            if image[at..at + head.a as usize].iter().all(|byte| *byte == 0) {
                return (parent, at);
            }
            tries += 1;
        }
    }

    /// Draws a number of spare bytes: none, exact room for some nodes, a byte less, a byte more,
    /// or half a node more.
    pub fn draw_spare(&self, rng: &mut Rng) -> usize {
        let w = self.head.w() as u64;
        let nodes = match rng.below(8) {
            0 => 0,
            1 => u64::from(self.head.max),
            2 if w < 100 => 70,
            _ => rng.between(1, 6),
        };
        let exact = nodes * w;
        rng.pick(&[exact, exact, exact.saturating_sub(1), exact + 1, exact + w / 2]) as usize
    }
}

fn lengths(rng: &mut Rng) -> (u32, u32) {
    let fixed = [
        (0, 0),
        (0, 1),
        (1, 1),
        (1, 3),
        (0, 3),
        (2, 2),
        (0, 64),
        (1, 64),
        (64, 64),
        (63, 64),
        (2, 5),
        (3, 8),
        (0, 5),
        (1, 10),
    ];
    if rng.one_in(4) {
        let max = rng.below(13) as u32;
        (rng.below(u64::from(max) + 1) as u32, max)
    } else {
        rng.pick(&fixed)
    }
}

/// A value in D bytes, not 0: a limit or any. Often only its first byte is not 0, or only the
/// bytes before the last four. Without such bytes it is any.
pub fn value(rng: &mut Rng, d: u32) -> u64 {
    let most = greatest(d);
    let any = rng.between(1, most);
    let first = rng.between(1, 255) << (8 * (d - 1));
    let high = match any >> 32 << 32 {
        0 => any,
        high => high,
    };
    let limit = limit(rng, d);
    rng.pick(&[1, 2, 255, limit, limit, most, any, any, first, high])
}

/// A limit of some width k, from 1 to D: 256^k - 1, 256^(k-1), or 2^(8k-1), which has the top bit
/// of k bytes.
fn limit(rng: &mut Rng, d: u32) -> u64 {
    let k = rng.between(1, u64::from(d)) as u32;
    let top = 1 << (8 * k - 1);
    rng.pick(&[greatest(k), greatest(k - 1) + 1, top])
}

/// Characters at or near the ends of the rows of Table 3-7, the newline and an ordinary letter.
const BOUNDARIES: [u32; 20] = [
    0x00, 0x0A, 0x41, 0x7F, 0x80, 0xBF, 0x7FF, 0x800, 0xFFF, 0x1000, 0xCFFF, 0xD000, 0xD7FF,
    0xE000, 0xFFFF, 0x10000, 0x3FFFF, 0x40000, 0xFFFFF, 0x10FFFF,
];

/// One character: of 1 to 4 bytes for `sort` 1 to 4, at a boundary for 0, else near a boundary.
pub fn character(rng: &mut Rng, sort: u64) -> Vec<u8> {
    loop {
        let code = match sort {
            0 => rng.pick(&BOUNDARIES),
            1 => rng.below(0x80) as u32,
            2 => rng.between(0x80, 0x7FF) as u32,
            3 => rng.between(0x800, 0xFFFF) as u32,
            4 => rng.between(0x10000, 0x10FFFF) as u32,
            _ => (u64::from(rng.pick(&BOUNDARIES)) + rng.below(300)).saturating_sub(150) as u32,
        };
        if let Some(character) = char::from_u32(code) {
            return character.to_string().into_bytes();
        }
    }
}

/// N different characters, in any order.
pub fn alphabet(rng: &mut Rng, n: usize) -> Vec<Vec<u8>> {
    let sort = rng.below(8);
    let mut letters: Vec<Vec<u8>> = Vec::new();
    let mut tries = 0;
    while letters.len() < n {
        // there are not enough characters of one byte, or at a boundary, for every N
        let short_of = (sort < 2 && n > 10 && tries > 2 * n) || sort > 5;
        let drawn = character(rng, if short_of { [1, 2, 3, 4, 5][tries % 5] } else { sort });
        tries += 1;
        if !letters.contains(&drawn) {
            letters.push(drawn);
        }
    }
    letters
}
