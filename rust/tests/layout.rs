//! The answer's layout is the one in the header. Programs written elsewhere depend on it. In an
//! image, no field lies across the end of a sector if the shape says so.

use std::mem::{align_of, size_of};
use trieff::raw::TrieffAnswer;
use trieff::Shape;

#[test]
fn the_answer_lies_as_the_header_says() {
    let answer = TrieffAnswer::default();
    let start = std::ptr::addr_of!(answer) as usize;
    assert_eq!((size_of::<TrieffAnswer>(), align_of::<TrieffAnswer>()), (24, 8));
    assert_eq!(std::ptr::addr_of!(answer.number) as usize - start, 0);
    assert_eq!(std::ptr::addr_of!(answer.place) as usize - start, 4);
    assert_eq!(std::ptr::addr_of!(answer.length) as usize - start, 8);
    assert_eq!(std::ptr::addr_of!(answer.change) as usize - start, 12);
    assert_eq!(std::ptr::addr_of!(answer.value) as usize - start, 16);
}

/// Every link and data field of the first nodes, as its place and its length.
fn fields(shape: Shape, f: usize) -> Vec<(usize, usize)> {
    let (n, a, d) = (shape.n as usize, shape.a as usize, shape.d as usize);
    let node = |i| {
        let start = shape.length(i, f);
        (0..n).map(move |j| (start + j * a, a)).chain([(start + n * a, d)])
    };
    (0..9).flat_map(node).collect()
}

/// Whether no field lies across the end of a sector.
fn inside(fields: &[(usize, usize)], sector: usize) -> bool {
    fields.iter().all(|(place, length)| place / sector == (place + length - 1) / sector)
}

#[test]
fn fields_that_are_whole_lie_in_one_sector() {
    let mut whole = [0; 9];
    for i in 0..12 * 4 * 8 * 13 {
        let (n, a, d, f) = (i % 12 + 1, i / 12 % 4 + 1, i / 48 % 8 + 1, i as usize / 384);
        let shape = Shape { n, a, d, min: 0, max: 1 };
        let all = fields(shape, f);
        let fits =
            |&(place, length): &(usize, usize)| length.is_power_of_two() && place % length == 0;
        assert_eq!(shape.fields_whole(f), all.iter().all(fits), "{shape:?} {f}");
        if shape.fields_whole(f) {
            whole[d as usize] += 1;
            assert!(inside(&all, 8) && inside(&all, 512), "{shape:?} {f}");
            // a device that promises words of four bytes alone
            assert_eq!(inside(&all, 4), d <= 4, "{shape:?} {f}");
        }
        if d == 8 {
            let multiples = a != 3 && (28 + f) % 8 == 0 && n * a % 8 == 0;
            assert_eq!(shape.fields_whole(f), multiples, "{shape:?} {f}");
        }
    }
    // of D = 8: N a multiple of 8, 4 and 2 for the three A, and F = 4 or 12
    assert_eq!((whole[3], whole[5], whole[6], whole[7], whole[8]), (0, 0, 0, 0, 20));
    assert!(whole[1] > 100 && whole[2] > 50 && whole[4] > 20);
    for (a, d) in [(0, 1), (1, 0), (8, 8), (1, 16)] {
        assert!(!Shape { n: 16, a, d, min: 0, max: 1 }.fields_whole(4));
    }
}

/// In a shape of which it does not hold, a field of eight bytes does lie across the end of a
/// sector: 16 letters of one byte each, as in a file with D = 4.
#[test]
fn eight_bytes_across_the_end_of_a_sector() {
    let shape = Shape { n: 16, a: 2, d: 8, min: 0, max: 1 };
    assert!(!shape.fields_whole(16) && Shape { d: 4, ..shape }.fields_whole(16));
    let all: Vec<_> = (0..64).map(|i| (shape.length(i, 16) + 32, 8)).collect();
    assert!(!inside(&all, 512));
}
