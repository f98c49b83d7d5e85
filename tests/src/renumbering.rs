//! Renumbers the nodes of an image, as request 3's partner does: every node but the root may get
//! another address, and each link follows. The trie stays the same. And what the situations and
//! the saboteurs ask of such images: whether links rise, and where they lead.

use crate::model::{link, write_number, Head};
use crate::rng::Rng;

/// The image with node n at the address `new[n]`, for each n from 0 to G. `new` holds every
/// address from 0 to G once, and the root's is 0. A link above G stays as it is. Only for an image
/// whose nodes can be read and whose addresses A bytes can hold.
pub fn renumbered(image: &[u8], new: &[u64]) -> Vec<u8> {
    let head = Head::read(image);
    let mut moved = image.to_vec();
    let (w, a) = (head.w() as usize, head.a as usize);
    for (node, to) in (0..).zip(new) {
        let (from, start) = (head.node(node) as usize, head.node(*to) as usize);
        moved[start..start + w].copy_from_slice(&image[from..from + w]);
        for letter in 0..u64::from(head.n) {
            if let Some(follows) = new.get(link(image, &head, node, letter) as usize) {
                let at = head.link_at(*to, letter);
                write_number(&mut moved[at..at + a], *follows);
            }
        }
    }
    moved
}

/// Draws new addresses for the nodes 0 to G: shuffled, in reverse, moved up by one, or with two of
/// them exchanged.
pub fn draw(rng: &mut Rng, g: u32) -> Vec<u64> {
    let mut new: Vec<u64> = (0..=u64::from(g)).collect();
    let others = &mut new[1..];
    let many = others.len() as u64;
    match rng.below(6) {
        _ if others.is_empty() => {}
        0 => others.reverse(),
        1 => others.rotate_left(1),
        2 => others.swap(rng.below(many) as usize, rng.below(many) as usize),
        _ => (1..many).for_each(|i| others.swap(i as usize, rng.below(i + 1) as usize)),
    }
    new
}

/// Every way to give the nodes 0 to G new addresses. The first leaves them as they are.
pub fn every(g: u32) -> Vec<Vec<u64>> {
    let mut all = vec![vec![0]];
    for address in 1..=u64::from(g) {
        let longer = |new: &Vec<u64>| {
            let new = new.clone();
            (1..=new.len()).rev().map(move |at| {
                let mut longer = new.clone();
                longer.insert(at, address);
                longer
            })
        };
        all = all.iter().flat_map(longer).collect();
    }
    all
}

/// Whether every link leads to a greater address than that of its node. Only for an image whose
/// nodes can be read.
pub fn rises(image: &[u8]) -> bool {
    let head = Head::read(image);
    let rises = |node: u64, link: u64| link == 0 || link > node;
    (0..=u64::from(head.g)).all(|node| {
        (0..u64::from(head.n)).all(|letter| rises(node, link(image, &head, node, letter)))
    })
}

/// For each node from 0 to G, whether links lead to it from this node, in one step or more. A link
/// above G leads nowhere. Only for an image whose nodes can be read.
pub fn under(image: &[u8], head: &Head, node: u64) -> Vec<bool> {
    let mut under = vec![false; head.g as usize + 1];
    let mut last = vec![node];
    while let Some(node) = last.pop() {
        for letter in 0..u64::from(head.n) {
            let next = link(image, head, node, letter);
            if next > 0 && next <= u64::from(head.g) && !under[next as usize] {
                under[next as usize] = true;
                last.push(next);
            }
        }
    }
    under
}

#[cfg(test)]
mod tests {
    use super::*;
    use crate::model::{check, listing, Answer};
    use crate::shapes::Shape;

    #[test]
    fn every_order_once() {
        for (g, many) in [(0, 1), (1, 1), (2, 2), (3, 6), (4, 24)] {
            let mut all = every(g);
            assert_eq!(all[0], (0..=u64::from(g)).collect::<Vec<u64>>());
            assert!(all.iter().all(|new| new[0] == 0 && new.len() == g as usize + 1));
            all.sort();
            all.dedup();
            assert_eq!(all.len(), many);
        }
    }

    #[test]
    fn p3_renumbered_by_hand() {
        let head = [2, 3, 1, 1, 0, 1, 3].map(u32::to_be_bytes).concat();
        let p3 = [&head[..], &[0, 1, 0, 0, 2, 0, 0, 5, 0, 0, 0, 9, 77]].concat();
        let moved = [&head[..], &[0, 2, 0, 0, 0, 0, 0, 9, 1, 0, 0, 5, 77]].concat();
        assert_eq!(renumbered(&p3, &[0, 2, 1]), moved);
        assert_eq!(renumbered(&moved, &[0, 2, 1]), p3);
        assert_eq!(renumbered(&p3, &[0, 1, 2]), p3);
        assert_eq!((rises(&p3), rises(&moved)), (true, false));
        let damaged = [&head[..], &[0, 3, 1, 0, 255, 0, 0, 5, 0, 2, 0, 9]].concat();
        let moved = [&head[..], &[0, 3, 2, 0, 0, 1, 0, 9, 255, 0, 0, 5]].concat();
        assert_eq!(renumbered(&damaged, &[0, 2, 1]), moved);
    }

    #[test]
    fn the_trie_stays_the_same() {
        let mut fallen = 0;
        for seed in 0..400 {
            let mut rng = Rng::new(seed);
            let mut shape = Shape::draw(&mut rng);
            shape.draw_g(&mut rng);
            let image = shape.grow(&mut rng, 3);
            let moved = renumbered(&image, &draw(&mut rng, shape.head.g));
            let mut work = vec![0; shape.head.g as usize + 1];
            assert_eq!(check(&moved, &mut work), Answer::default());
            assert_eq!(listing(&moved), listing(&image));
            fallen += u64::from(!rises(&moved));
        }
        assert!(fallen > 100, "{fallen}");
    }
}
