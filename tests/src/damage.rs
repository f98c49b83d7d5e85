//! Spoils an image in one way: a head field, the alphabet, links, data, the length. Or it spoils
//! the image in two ways, so that the order of the refusals matters.

use crate::model::{
    depths, greatest, link, outside, write_number, Head, LONGEST_IMAGE, WIDEST_DATA,
};
use crate::renumbering::{self, renumbered};
use crate::rng::Rng;
use crate::shapes;

pub fn damage(rng: &mut Rng, image: &mut Vec<u8>) {
    if image.len() < 28 {
        let more = rng.between(0, 40) as usize;
        let rubbish = rng.rubbish(more);
        image.extend(rubbish);
        return;
    }
    match rng.below(26) {
        0..=2 => head_field(rng, image),
        3 => {
            head_field(rng, image);
            head_field(rng, image);
        }
        4 => wrapping_g(rng, image),
        5..=6 => alphabet(rng, image),
        7 => cut_alphabet(rng, image),
        8..=9 => length(rng, image),
        10 => byte(rng, image),
        _ => body(rng, image),
    }
}

/// The head, if the nodes can be read: the fields N, A, D and F are permitted and U is inside the
/// image. The alphabet, min and max are not judged.
pub fn readable(image: &[u8]) -> Option<Head> {
    if image.len() < 28 {
        return None;
    }
    let head = Head::read(image);
    let widths = (1..=256).contains(&head.n)
        && (1..=4).contains(&head.a)
        && (1..=WIDEST_DATA).contains(&head.d)
        && head.f <= 1_024;
    if widths && head.u() <= image.len() as u128 {
        Some(head)
    } else {
        None
    }
}

fn head_field(rng: &mut Rng, image: &mut [u8]) {
    let Head { g, n, a, d, f, min, max } = Head::read(image);
    let field = rng.below(7);
    let values = match field {
        0 => vec![
            0,
            g.wrapping_add(1),
            g.wrapping_sub(1),
            254,
            255,
            256,
            65_535,
            u32::MAX,
            u32::MAX - 1,
            0x7FFF_FFFF,
            0x8000_0000,
        ],
        1 => vec![
            0,
            1,
            n.wrapping_add(1),
            n.wrapping_sub(1),
            255,
            256,
            257,
            512,
            0x0100_0000 | n,
            u32::MAX,
        ],
        2 => vec![0, 1, 2, 3, 4, 5, a | 256, u32::MAX],
        3 => vec![0, 1, 4, 5, 7, 8, 9, 9, 9, 12, 16, d ^ 4, d | 256, u32::MAX],
        4 => vec![
            0,
            f.wrapping_add(1),
            f.wrapping_sub(1),
            1_024,
            1_025,
            u32::MAX,
            u32::MAX - 27,
            u32::MAX - 28,
        ],
        5 => vec![0, max, max.wrapping_add(1), min.wrapping_add(1), 64, 65, u32::MAX],
        _ => vec![0, min, min.wrapping_sub(1), max.wrapping_add(1), 63, 64, 65, 256, u32::MAX],
    };
    let value = rng.pick(&values);
    write_number(&mut image[4 * field as usize..4 * field as usize + 4], u64::from(value));
}

/// A great G such that (G+1)*W, or U, would fit the image if it were computed in 32 bits.
fn wrapping_g(rng: &mut Rng, image: &mut [u8]) {
    let head = Head::read(image);
    let w = head.w() as u32;
    if w == 0 {
        return;
    }
    let twos = w.trailing_zeros();
    let odd = w >> twos;
    // the inverse of an odd number modulo 2^32, by Newton's method
    let inverse = (0..5).fold(odd, |x, _| x.wrapping_mul(2u32.wrapping_sub(odd.wrapping_mul(x))));
    let room = (image.len() as u64).saturating_sub(28 + u64::from(head.f)) >> twos;
    let any = rng.below(room + 1);
    let body = rng.pick(&[0, 1, room, any]) as u32;
    // nodes * odd = body modulo 2^(32 - twos), so nodes * W = body << twos modulo 2^32
    let low = body.wrapping_mul(inverse);
    let nodes = if twos > 0 {
        (low & (u32::MAX >> twos)) | ((rng.next() as u32) << (32 - twos))
    } else {
        low
    };
    write_number(&mut image[0..4], u64::from(nodes.wrapping_sub(1)));
}

fn alphabet(rng: &mut Rng, image: &mut [u8]) {
    let f = (Head::read(image).f as usize).min(1_024).min(image.len() - 28);
    if f == 0 {
        return;
    }
    let bytes = &mut image[28..28 + f];
    let at = rng.below(f as u64) as usize;
    match rng.below(4) {
        0 => bytes[at] = rng.next() as u8,
        1 => {
            bytes[at] =
                rng.pick(&[0x80, 0xBF, 0xC0, 0xC1, 0xC2, 0xE0, 0xED, 0xF0, 0xF4, 0xF5, 0xFF, 0x41])
        }
        2 => {
            let from = rng.below(f as u64) as usize;
            let len = rng.between(1, 4) as usize;
            let len = len.min(f - from).min(f - at);
            bytes.copy_within(from..from + len, at);
        }
        _ => {
            let bad = rng.pick(&ILL_FORMED);
            for (byte, ill) in bytes[at..].iter_mut().zip(bad) {
                *byte = *ill;
            }
        }
    }
}

/// Lowers F a little: the last character may be cut then, with its missing bytes after the F
/// bytes.
fn cut_alphabet(rng: &mut Rng, image: &mut [u8]) {
    let f = Head::read(image).f;
    let lower = f.saturating_sub(rng.between(1, 3) as u32);
    write_number(&mut image[16..20], u64::from(lower));
}

fn length(rng: &mut Rng, image: &mut Vec<u8>) {
    let head = Head::read(image);
    let (f, u) = (u128::from(head.f), head.u());
    let half = image.len() as u128 / 2;
    let wanted = rng.pick(&[
        0,
        1,
        27,
        28,
        29,
        28 + f - 1.min(f),
        28 + f,
        28 + f + 1,
        u - 1,
        u,
        u + 1,
        half,
    ]);
    let wanted = wanted.min(image.len() as u128 + 2_000).min(LONGEST_IMAGE as u128 + 1) as usize;
    let rubbish = rng.rubbish(wanted.saturating_sub(image.len()));
    image.truncate(wanted);
    image.extend(rubbish);
}

fn byte(rng: &mut Rng, image: &mut [u8]) {
    let used = readable(image).map_or(image.len() as u64, |head| head.u() as u64);
    let at = rng.below(used) as usize;
    image[at] = rng.next() as u8;
}

/// Damages links or data, if they can be read.
fn body(rng: &mut Rng, image: &mut [u8]) {
    let head = match readable(image) {
        Some(head) => head,
        None => return,
    };
    match rng.below(36) {
        0 => {
            let node = rng.between(0, u64::from(head.g));
            let value = if rng.one_in(3) { 0 } else { shapes::value(rng, head.d) };
            set_data(image, &head, node, value);
        }
        1 => {
            for _ in 0..rng.between(2, 4) {
                tear(rng, image, &head);
            }
        }
        2..=3 => copy_link(rng, image, &head),
        4 | 23 => unlinked_nodes(rng, image, &head),
        5 => empty_link(rng, image, &head),
        6..=9 => cycle(rng, image, &head),
        10..=12 => {
            cycle(rng, image, &head);
            beside_a_cycle(rng, image, &head);
        }
        13 => move_link(rng, image, &head),
        14 => link_up(rng, image, &head),
        15 => renumber(rng, image, &head),
        16 => {
            unlinked_nodes(rng, image, &head);
            renumber(rng, image, &Head::read(image));
        }
        17..=19 => {
            for _ in 0..rng.between(1, 3) {
                link_above(rng, image, &head);
            }
        }
        24..=27 => hide(rng, image, &head),
        28..=35 => {
            hide(rng, image, &head);
            beside_hidden_data(rng, image, &head);
        }
        _ => tear(rng, image, &head),
    }
}

/// Puts data into one node or some that are at a depth outside min..max, if there are any.
pub fn hide(rng: &mut Rng, image: &mut [u8], head: &Head) {
    let depths = depths(image, head);
    for _ in 0..rng.pick(&[1, 1, 1, 2, 3, 6]) {
        if let Some(node) = node_outside(rng, head, &depths) {
            let value = shapes::value(rng, head.d);
            set_data(image, head, node, value);
        }
    }
}

/// A node at a depth outside min..max, if there is one. The depth is often just outside, or one
/// that would be inside if it were counted in 6, 7, 8 or 16 bits, or only up to 64.
fn node_outside(rng: &mut Rng, head: &Head, depths: &[Option<u64>]) -> Option<u64> {
    let (min, max) = (u64::from(head.min), u64::from(head.max));
    let inside = rng.between(min, max);
    let near = [min.saturating_sub(1), max + 1, max + 2, 0, 1, 64, 65, 66];
    let far = [65 + inside, 128 + inside, 255, 256, 256 + inside, 65_535, 65_536, 65_536 + inside];
    let deepest = depths.iter().flatten().max().copied().unwrap_or(0);
    let wanted = match rng.below(8) {
        _ if deepest > 65_600 && rng.one_in(2) => Some(65_536 + inside),
        0..=2 => Some(rng.pick(&near)),
        3..=5 => Some(rng.pick(&far)),
        6 => Some(deepest),
        _ => None,
    };
    let any: Vec<u64> = (0..)
        .zip(depths)
        .filter(|(_, depth)| depth.map_or(false, |depth| outside(head, depth)))
        .map(|(node, _)| node)
        .collect();
    let there = any.iter().filter(|node| depths[**node as usize] == wanted);
    let there: Vec<u64> = there.copied().collect();
    let from = if there.is_empty() { any } else { there };
    if from.is_empty() {
        return None;
    }
    Some(rng.pick(&from))
}

/// A fault of the links beside hidden data: one of 6, 7, 8 or 16. Or none, but other addresses.
fn beside_hidden_data(rng: &mut Rng, image: &mut [u8], head: &Head) {
    match rng.below(8) {
        0 => link_above(rng, image, head),
        1 => copy_link(rng, image, head),
        2..=3 => unlinked_nodes(rng, image, head),
        4 => empty_link(rng, image, head),
        5..=6 => cycle(rng, image, head),
        _ => renumber(rng, image, head),
    }
}

/// Another fault beside a cycle that is not reached: a link above G, an address in two links, one
/// in no link, or a further cycle. Or none, but other addresses.
fn beside_a_cycle(rng: &mut Rng, image: &mut [u8], head: &Head) {
    match rng.below(8) {
        0 => link_above(rng, image, head),
        1 => copy_link(rng, image, head),
        2 | 7 => unlinked_nodes(rng, image, head),
        3 => empty_link(rng, image, head),
        4 => cycle(rng, image, head),
        _ => renumber(rng, image, head),
    }
}

/// A node on a path that a key may take, or any node.
fn some_node(rng: &mut Rng, image: &[u8], head: &Head) -> u64 {
    if rng.one_in(3) {
        return rng.between(0, u64::from(head.g));
    }
    let path = some_path(rng, image, head);
    path[path.len() - 1]
}

/// The nodes on a path that a key may take, from the root on.
fn some_path(rng: &mut Rng, image: &[u8], head: &Head) -> Vec<u64> {
    let (mut path, mut node) = (vec![0], 0);
    for _ in 0..rng.below(u64::from(head.max).min(8) + 1) {
        match child(rng, image, head, node) {
            Some(next) => node = next,
            None => break,
        }
        path.push(node);
    }
    path
}

/// A node that stands in a link of this one, if there is one.
fn child(rng: &mut Rng, image: &[u8], head: &Head, node: u64) -> Option<u64> {
    let letter = taken_letter(rng, image, head, node)?;
    Some(link(image, head, node, letter)).filter(|next| *next <= u64::from(head.g))
}

/// A letter whose link is not empty, if there is one.
pub fn taken_letter(rng: &mut Rng, image: &[u8], head: &Head, node: u64) -> Option<u64> {
    some_letter(rng, head, |letter| link(image, head, node, letter) != 0)
}

/// A letter whose link is empty, if there is one.
fn free_letter(rng: &mut Rng, image: &[u8], head: &Head, node: u64) -> Option<u64> {
    some_letter(rng, head, |letter| link(image, head, node, letter) == 0)
}

fn some_letter(rng: &mut Rng, head: &Head, fits: impl Fn(u64) -> bool) -> Option<u64> {
    let n = u64::from(head.n);
    let start = rng.below(n);
    (0..n).map(|i| (start + i) % n).find(|letter| fits(*letter))
}

fn set_data(image: &mut [u8], head: &Head, node: u64, value: u64) {
    let at = head.data_at(node);
    write_number(&mut image[at..at + head.d as usize], value);
}

fn set_link(image: &mut [u8], head: &Head, node: u64, letter: u64, address: u64) {
    let at = head.link_at(node, letter);
    write_number(&mut image[at..at + head.a as usize], address);
}

/// A link becomes 0, the address of its own node, a lower address, one above G, or any.
fn tear(rng: &mut Rng, image: &mut [u8], head: &Head) {
    let node = some_node(rng, image, head);
    let any = rng.below(u64::from(head.n));
    let letter =
        if rng.one_in(3) { any } else { taken_letter(rng, image, head, node).unwrap_or(any) };
    let g = u64::from(head.g);
    let most = greatest(head.a);
    let (near, far) = (rng.below(g + 2), rng.below(most));
    let address =
        rng.pick(&[0, 0, node, node.saturating_sub(1), 1, g, g + 1, g + 2, most, near, far]);
    set_link(image, head, node, letter, address.min(most));
}

/// A link becomes one above G, if A bytes can hold it.
fn link_above(rng: &mut Rng, image: &mut [u8], head: &Head) {
    let node = some_node(rng, image, head);
    let any = rng.below(u64::from(head.n));
    let letter = taken_letter(rng, image, head, node).unwrap_or(any);
    let (first, most) = (u64::from(head.g) + 1, greatest(head.a));
    if first <= most {
        let far = rng.between(first, most);
        set_link(image, head, node, letter, rng.pick(&[first, most, far]));
    }
}

/// A link becomes 0, so that its address stands in no link. Nodes below that address may link to
/// addresses above it.
fn empty_link(rng: &mut Rng, image: &mut [u8], head: &Head) {
    let node = some_node(rng, image, head);
    if let Some(letter) = taken_letter(rng, image, head, node) {
        set_link(image, head, node, letter, 0);
    }
}

/// Moves the link to a node into that node, or into a node under it. So each address stands in as
/// many links as before, but this node and all under it are not reached. Those from the node to
/// its new link are a cycle, and the others hang under it.
fn cycle(rng: &mut Rng, image: &mut [u8], head: &Head) {
    let above = some_node(rng, image, head);
    let letter = match taken_letter(rng, image, head, above) {
        Some(letter) => letter,
        None => return,
    };
    let top = link(image, head, above, letter);
    let mut node = Some(top).filter(|top| *top <= u64::from(head.g));
    // the tree may be damaged already, so the way down may never end
    for _ in 0..=head.g {
        let under = match node {
            Some(under) => under,
            None => return,
        };
        node = child(rng, image, head, under);
        if node.is_none() || rng.one_in(3) {
            if let Some(free) = free_letter(rng, image, head, under) {
                set_link(image, head, above, letter, 0);
                set_link(image, head, under, free, top);
                return;
            }
        }
    }
}

/// Moves a link to any other place: the tree takes another form, or a part of it is not reached.
fn move_link(rng: &mut Rng, image: &mut [u8], head: &Head) {
    let (from, to) = (some_node(rng, image, head), rng.between(0, u64::from(head.g)));
    let letters = (taken_letter(rng, image, head, from), free_letter(rng, image, head, to));
    if let (Some(letter), Some(free)) = letters {
        let address = link(image, head, from, letter);
        set_link(image, head, from, letter, 0);
        set_link(image, head, to, free, address);
    }
}

/// A node links to itself or to an ancestor, which stands in two links then.
fn link_up(rng: &mut Rng, image: &mut [u8], head: &Head) {
    let path = some_path(rng, image, head);
    let node = path[path.len() - 1];
    if let Some(free) = free_letter(rng, image, head, node) {
        let up = rng.pick(&path);
        set_link(image, head, node, free, up);
    }
}

/// Gives the nodes other addresses, if A bytes can hold them.
fn renumber(rng: &mut Rng, image: &mut [u8], head: &Head) {
    if u64::from(head.g) <= greatest(head.a) {
        let moved = renumbered(image, &renumbering::draw(rng, head.g));
        image.copy_from_slice(&moved);
    }
}

/// Copies one link over another: an address then stands in two links, or in no link, or both
/// occur.
fn copy_link(rng: &mut Rng, image: &mut [u8], head: &Head) {
    let from = some_node(rng, image, head);
    let letter = match taken_letter(rng, image, head, from) {
        Some(letter) => letter,
        None => return,
    };
    let to = rng.between(0, u64::from(head.g));
    let start = head.link_at(from, letter);
    let at = head.link_at(to, rng.below(u64::from(head.n)));
    image.copy_within(start..start + head.a as usize, at);
}

/// Raises G by some nodes, if there is room, as after a cut before the old link. The first of them
/// stands in no link, and perhaps A bytes cannot hold its address. Each other one mostly stands in
/// the node before it. The last one mostly has data.
fn unlinked_nodes(rng: &mut Rng, image: &mut [u8], head: &Head) {
    let (first, many) = (u64::from(head.g) + 1, rng.pick(&[1, 1, 2, 3]));
    let (start, end) = (head.node(first) as usize, head.node(first + many) as usize);
    if end > image.len() {
        return;
    }
    image[start..end].fill(0);
    for node in first + 1..first + many {
        if node <= greatest(head.a) && !rng.one_in(8) {
            set_link(image, head, node - 1, rng.below(u64::from(head.n)), node);
        }
    }
    if !rng.one_in(3) {
        let value = shapes::value(rng, head.d);
        set_data(image, head, first + many - 1, value);
    }
    write_number(&mut image[..4], first + many - 1);
}

/// Bytes that are no well-formed character, of every kind: overlong, a surrogate, above 10FFFF, a
/// stray byte, a character that is cut.
pub const ILL_FORMED: [&[u8]; 20] = [
    &[0xC0, 0x80],
    &[0xC1, 0xBF],
    &[0xE0, 0x80, 0x80],
    &[0xE0, 0x9F, 0xBF],
    &[0xED, 0xA0, 0x80],
    &[0xED, 0xBF, 0xBF],
    &[0xF0, 0x80, 0x80, 0x80],
    &[0xF0, 0x8F, 0xBF, 0xBF],
    &[0xF4, 0x90, 0x80, 0x80],
    &[0xF5, 0x80, 0x80, 0x80],
    &[0xFE],
    &[0xFF],
    &[0x80],
    &[0xBF],
    &[0xC2],
    &[0xC2, 0x41],
    &[0xE2, 0x82],
    &[0xE2, 0x82, 0x41],
    &[0xF0, 0x9F, 0x98],
    &[0xF0, 0x9F, 0x98, 0xC0],
];
