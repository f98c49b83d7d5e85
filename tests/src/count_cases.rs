//! Compares the model's calls with counts with counts of document 01's small file that were worked
//! out by hand, and with next key.

use super::*;

/// P3, then CCC = 1: G is 5.
fn p7() -> Vec<u8> {
    abc("00000005", "00010300 02000005 00000009 00000400 00000500 00000001")
}

/// A chain by the letter A, with data at depth 3 alone. Its last node is deeper than max.
fn deeper() -> Vec<u8> {
    abc("00000004", "01000000 02000000 03000000 04000008 00000000")
}

#[test]
fn counts_of_the_small_file() {
    let cases: [(Vec<u8>, &[u32]); 6] = [
        (abc("00000000", "00000000"), &[0]),
        (abc("00000001", "00010000 00000000"), &[0, 0]),
        (p2(), &[1, 1, 1]),
        (p3(), &[2, 2, 1]),
        (p7(), &[3, 2, 1, 1, 1, 1]),
        (deeper(), &[1, 1, 1, 1, 0]),
    ];
    for (image, right) in cases {
        let nodes = right.len();
        let (mut work, mut list) = (vec![7; nodes + 1], vec![9; nodes + 1]);
        assert_eq!(counts(&image, &mut work, &mut list), Answer::default());
        assert_eq!((&list[..nodes], list[nodes]), (right, 9));
        assert_eq!((&work[..nodes], work[nodes]), (&vec![0; nodes][..], 7));
        assert_eq!(check_counts(&image, &mut work, &list), Answer::default());
        for node in 0..nodes {
            let mut wrong = list.clone();
            wrong[node..].iter_mut().for_each(|count| *count += 1);
            assert_eq!(check_counts(&image, &mut work, &wrong), refused(25, node as u32));
        }
    }
}

#[test]
fn lists_of_counts_that_are_short() {
    for (work_len, counts_len) in [(2, 3), (3, 2), (2, 2), (0, 3), (3, 0)] {
        let (mut work, mut list) = (vec![7; work_len], vec![9; counts_len]);
        let mut key = [7; 3];
        assert_eq!(counts(&p3(), &mut work, &mut list), refused(5, 0));
        assert_eq!(check_counts(&p3(), &mut work, &list), refused(5, 0));
        assert_eq!(store_counts(&mut p3(), &mut work, &[B], 6, &mut list), refused(5, 0));
        assert_eq!(key_at(&p3(), &mut work, &list, 0, &mut key), refused(5, 0));
        assert_eq!(position_text(&p3(), &mut work, &list, b"B"), refused(5, 0));
        assert_eq!((work, list, key), (vec![7; work_len], vec![9; counts_len], [7; 3]));
    }
}

#[test]
fn order_of_25() {
    let mut work = [7; 4];
    let unlinked = abc("00000001", "00000000 00000000");
    assert_eq!(check_counts(&unlinked, &mut work, &[9, 9]), refused(8, 1), "8 before 25");
    assert_eq!(work, [0, 0, 7, 7]);
    work = [7; 4];
    let hidden = abc("00000001", "00010007 00000005");
    assert_eq!(check_counts(&hidden, &mut work, &[1, 9]), refused(19, 0), "19 before 25");
    assert_eq!(check_counts(&hidden, &mut work, &[1, 1]), refused(19, 0));
    assert_eq!(check_counts(&hidden, &mut work, &[2, 1]), refused(19, 0));
    assert_eq!(work, [0, 0, 7, 7]);
    let mut wrong = [2, 2, 0, 1];
    work = [7; 4];
    let mut image = p3();
    assert_eq!(
        store_counts(&mut image, &mut work, &[], 256, &mut wrong),
        refused(25, 2),
        "25 before 9"
    );
    assert_eq!(work, [0, 0, 0, 7]);
    assert_eq!(
        store_text_counts(&mut image, &mut work, b"D", 1, &mut wrong),
        refused(25, 2),
        "25 before 10"
    );
    assert_eq!((image, wrong), (p3(), [2, 2, 0, 1]));
    assert_eq!(key_at(&p3(), &mut work, &wrong, 9, &mut []), refused(25, 2), "25 before 14");
    assert_eq!(position(&p3(), &mut work, &wrong, &[3; 4]), refused(25, 2));
    assert_eq!(position_text(&p3(), &mut work, &wrong, b"DDDD"), refused(25, 2));
}

/// Stores with counts by letters, in `image`, and by text, in a copy. Returns the counts that both
/// leave.
fn store_both_ways(
    image: &mut Vec<u8>,
    key: (&[u8], &[u8]),
    value: u64,
    list: &[u32],
    answered: Answer,
) -> Vec<u32> {
    let g = Head::read(image).g as usize;
    let (mut plain, mut by_text, before) = (image.clone(), image.clone(), image.clone());
    let (mut left, mut left_by_text) = (list.to_vec(), list.to_vec());
    let mut work = [7; 8];
    assert_eq!(store_counts(image, &mut work, key.0, value, &mut left), answered);
    assert!(
        work[..=g].iter().all(|number| *number == 0)
            && work[g + 1..].iter().all(|number| *number == 7)
    );
    assert_eq!(
        store_text_counts(&mut by_text, &mut work, key.1, value, &mut left_by_text),
        answered
    );
    if answered.number == 0 {
        assert_eq!(store(&mut plain, &mut work, key.0, value), answered);
        assert_eq!(*image, plain);
    } else {
        assert_eq!((&*image, &left[..]), (&before, list));
    }
    assert_eq!((&*image, &left), (&by_text, &left_by_text));
    left
}

#[test]
fn stores_with_counts() {
    let mut image = with_room(abc("00000000", "00000000"), 55);
    let left = store_both_ways(&mut image, (&[B, A], b"BA"), 9, &[0, 7, 7], changed(1));
    assert_eq!(left, [1, 1, 1], "P2: the new nodes have 1, whatever the list held");
    let left = store_both_ways(&mut image, (&[B], b"B"), 5, &[1, 1, 1, 9], changed(1));
    assert_eq!(left, [2, 2, 1, 9], "P3");
    let left = store_both_ways(&mut image, (&[B], b"B"), 6, &left, changed(0));
    assert_eq!(left, [2, 2, 1, 9], "a changed value is no new key");
    let left = store_both_ways(&mut image, (&[A, B, C], b"ABC"), 0, &left[..3], changed(0));
    assert_eq!(left, [2, 2, 1], "0 on an incomplete path needs no more counts");
    store_both_ways(&mut image, (&[C, C, C], b"CCC"), 1, &[2, 2, 1, 9, 9], refused(5, 0));
    store_both_ways(&mut image, (&[C, C, C], b"CCC"), 1, &[2, 2, 1], refused(5, 0));
    let left =
        store_both_ways(&mut image, (&[C, C, C], b"CCC"), 1, &[2, 2, 1, 9, 9, 9, 9], changed(1));
    assert_eq!(left, [3, 2, 1, 1, 1, 1, 9], "P7");
    let left = store_both_ways(&mut image, (&[B, A], b"BA"), 0, &left, changed(-1));
    assert_eq!(left, [2, 1, 0, 1, 1, 1, 9]);
    store_both_ways(&mut image, (&[B, A], b"BA"), 256, &left, refused(11, 0));
    store_both_ways(&mut image, (&[], b""), 1, &left, refused(9, 0));
    store_both_ways(&mut image, (&[3], b"D"), 1, &left, refused(10, 0));
    store_both_ways(&mut with_room(p3(), 54), (&[C, C, C], b"CCC"), 1, &[2, 2, 1], refused(13, 0));
}

#[test]
fn keys_at_positions() {
    let found = |length, value| Answer { length, value, ..Answer::default() };
    let (mut key, mut work) = ([7; 4], [7; 4]);
    assert_eq!(key_at(&p3(), &mut work, &[2, 2, 1, 9], 0, &mut key), found(1, 5));
    assert_eq!((key, work), ([B, 7, 7, 7], [0, 0, 0, 7]));
    assert_eq!(key_at(&p3(), &mut work, &[2, 2, 1], 1, &mut key), found(2, 9));
    assert_eq!(key, [B, A, 7, 7]);
    for past in [2, 3, 1 << 32, u64::MAX] {
        assert_eq!(key_at(&p3(), &mut work, &[2, 2, 1], past, &mut key), refused(15, 0));
        assert_eq!(
            key_at(&p3(), &mut work, &[2, 2, 1], past, &mut [7; 2]),
            refused(14, 0),
            "14 before 15"
        );
    }
    assert_eq!(key, [B, A, 7, 7]);
    assert_eq!(key_at(&p7(), &mut [7; 6], &[3, 2, 1, 1, 1, 1], 2, &mut key), found(3, 1));
    assert_eq!(key, [C, C, C, 7]);
    assert_eq!(key_at(&deeper(), &mut [7; 5], &[1, 1, 1, 1, 0], 0, &mut key), found(3, 8));
    assert_eq!(key_at(&deeper(), &mut [7; 5], &[1, 1, 1, 1, 0], 1, &mut key), refused(15, 0));
}

#[test]
fn positions_of_keys() {
    let cases: [(&[u8], &[u8], Answer); 8] = [
        (&[B], b"B", value(0)),
        (&[B, A], b"BA", value(1)),
        (&[C, C, C], b"CCC", value(2)),
        (&[C, C], b"CC", refused(15, 0)),
        (&[A], b"A", refused(15, 0)),
        (&[B, A, C], b"BAC", refused(15, 0)),
        (&[], b"", refused(9, 0)),
        (&[3], b"D", refused(10, 0)),
    ];
    let list = [3, 2, 1, 1, 1, 1];
    for (letters, text, answered) in cases {
        assert_eq!(position(&p7(), &mut [7; 6], &list, letters), answered);
        assert_eq!(position_text(&p7(), &mut [7; 6], &list, text), answered);
    }
    assert_eq!(
        position(&p7(), &mut [7; 6], &list, &[3; 4]),
        refused(9, 0),
        "letters: 9 before 10"
    );
    assert_eq!(
        position_text(&p7(), &mut [7; 6], &list, b"DDDD"),
        refused(10, 0),
        "text: 10 before 9"
    );
}

/// The key at position i is "the first stored key moved on by i steps of next key", for every i,
/// and its position is i.
fn held_to_next_key(image: &[u8], list: &[u32]) {
    let (mut work, mut last, mut next, mut at) = ([7; 400], Vec::new(), [0; 4], [0; 4]);
    let mut begun = false;
    for i in 0..u64::from(list[0]) {
        let moved = next_key(image, &mut work, &last, begun, &mut next);
        assert_eq!(key_at(image, &mut work, list, i, &mut at), moved);
        last = next[..moved.length as usize].to_vec();
        assert_eq!(at[..last.len()], last[..]);
        assert_eq!(position(image, &mut work, list, &last), value(i));
        begun = true;
    }
    assert_eq!(next_key(image, &mut work, &last, begun, &mut next), refused(15, 0));
    assert_eq!(key_at(image, &mut work, list, u64::from(list[0]), &mut at), refused(15, 0));
}

/// "A store changes counts only on the key's path and at the new nodes". There it adds the store's
/// change.
#[test]
fn a_store_changes_counts_on_its_path_alone() {
    let mut image = vec![0xEE; 5_000];
    make(&mut image, 3, 2, 2, b"ABC", 1, 4);
    let mut list = vec![0; 400];
    for letters in some_keys(300) {
        let before = list.clone();
        let g = Head::read(&image).g as usize;
        let stored = (letters[0] + letters[letters.len() - 1]) % 3;
        let done = store_counts(&mut image, &mut [7; 400], &letters, u64::from(stored), &mut list);
        assert_eq!(done.number, 0);
        let head = Head::read(&image);
        let mut passed = vec![0];
        for length in 1..=path(&image, &head, &letters).1 {
            passed.push(path(&image, &head, &letters[..length]).0 as usize);
        }
        for node in 0..400 {
            let old = if node <= g { before[node] } else { 0 };
            let change = if passed.contains(&node) { done.change } else { 0 };
            let right =
                if node <= head.g as usize { (old as i32 + change) as u32 } else { before[node] };
            assert_eq!(list[node], right, "node {node}");
        }
        held_to_next_key(&image, &list);
    }
    assert!(list[0] > 20);
}
