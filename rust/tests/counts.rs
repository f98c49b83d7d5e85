//! Counts beside an image. A store leaves the counts that working them out afresh would give. The
//! keys by position are those of the listing, in its order.

use trieff::{keys, make, Counts, Refusal, Shape, Stored};

const SEASON: &[u8] = include_bytes!("../../samples/season.trieff");
const NODES: usize = 659;

/// Every stored key with its value. There are no more keys than nodes.
fn listing(image: &[u8], work: &mut [u32]) -> Vec<Stored> {
    keys(image, work).take(NODES + 1).collect::<Result<_, _>>().unwrap()
}

/// The keys by position are those of the listing, and each key's position leads back to it. The
/// number of keys.
fn agree(image: &[u8], counts: &Counts, work: &mut [u32]) -> usize {
    let all = listing(image, work);
    for (position, stored) in all.iter().enumerate() {
        let mut key = [0; 64];
        let found = counts.nth(image, work, position as u64, &mut key).unwrap();
        assert_eq!((&key[..found.length], found.value), (stored.letters(), stored.value()));
        assert_eq!(counts.position(image, work, stored.letters()), Ok(position as u64));
    }
    for position in [all.len() as u64, u64::MAX] {
        assert_eq!(counts.nth(image, work, position, &mut [0; 64]), Err(Refusal::NoKey));
    }
    all.len()
}

#[test]
fn a_season_by_position() {
    let (mut work, mut numbers) = ([7; NODES], [7; NODES]);
    let mut counts = Counts::new(&mut numbers);
    assert_eq!(counts.check(SEASON, &mut work), Err(Refusal::CountsDiffer(0)));
    counts.work_out(SEASON, &mut work).unwrap();
    assert_eq!(agree(SEASON, &counts, &mut work), 394);
    assert_eq!(counts.numbers()[0], 394);
}

/// The values are multiples of a unit: 2^32, whose low 32 bits are 0, and one that makes the first
/// value the greatest of all.
#[test]
fn stores_keep_the_counts() {
    const STORES: [(&[u8], u64, i32); 8] = [
        (&[1, 0], 15, 1),
        (&[1], 5, 1),
        (&[1], 6, 0),
        (&[2, 2, 2], 0, 0),
        (&[2, 2, 2], 1, 1),
        (&[0], 3, 1),
        (&[1, 0], 0, -1),
        (&[1, 0], 0, 0),
    ];
    for (d, unit) in [(1, 1), (5, 1 << 32), (8, 1 << 32), (8, u64::MAX / 15)] {
        let shape = Shape { n: 3, a: 1, d, min: 1, max: 3 };
        let mut image = vec![255; shape.length(8, 3)];
        let (mut work, mut numbers) = ([7; 9], [0; 9]);
        make(&mut image, shape, b"ABC").unwrap();
        numbers[1..].fill(77); // a store writes these before they are read
        let mut counts = Counts::new(&mut numbers);
        for (letters, value, change) in STORES {
            assert_eq!(counts.store(&mut image, &mut work, letters, value * unit), Ok(change));
            let mut fresh = [77; 9];
            Counts::new(&mut fresh).work_out(&image, &mut work).unwrap();
            assert_eq!(counts.numbers(), fresh);
            agree(&image, &counts, &mut work);
        }
        assert_eq!(counts.numbers(), [3, 1, 0, 1, 1, 1, 1, 77, 77]);
    }
}

#[test]
fn a_refusal_leaves_image_and_counts() {
    const SHAPE: Shape = Shape { n: 3, a: 1, d: 1, min: 1, max: 3 };
    let mut image = [0; SHAPE.length(5, 3)];
    let (mut work, mut numbers) = ([7; 6], [0; 4]);
    make(&mut image, SHAPE, b"ABC").unwrap();
    let mut counts = Counts::new(&mut numbers);
    counts.store_text(&mut image, &mut work, b"BA", 9).unwrap();
    let before = image;
    for (text, value, refusal) in [
        ("", 1, Refusal::KeyLength),
        ("ABCx", 1, Refusal::Letter),
        ("BA", 256, Refusal::ValueTooGreat),
        ("BA", 1 << 32 | 9, Refusal::ValueTooGreat),
        ("CCC", 1, Refusal::NoRoom), // three nodes, room for two: 13 before the second 5
        ("CC", 1, Refusal::TooFewNumbers), // two nodes and room for them, but one more count
    ] {
        work.fill(7);
        let heard = counts.store_text(&mut image, &mut work, text.as_bytes(), value);
        assert_eq!((heard, image), (Err(refusal), before));
        assert_eq!((counts.numbers(), work), (&[1, 1, 1, 0][..], [0, 0, 0, 7, 7, 7]));
    }
    let mut wrong = [1, 0, 1, 0];
    let mut counts = Counts::new(&mut wrong);
    work.fill(7);
    let heard = counts.store_text(&mut image, &mut work, b"x", 256);
    assert_eq!((heard, image), (Err(Refusal::CountsDiffer(1)), before));
    assert_eq!((counts.numbers(), work), (&[1, 0, 1, 0][..], [0, 0, 0, 7, 7, 7]));
    // data at the root, though no key is empty: 19 stands before 25
    image[SHAPE.length(1, 3) - 1] = 1;
    let before = image;
    work.fill(7);
    let heard = counts.store_text(&mut image, &mut work, b"x", 256);
    assert_eq!((heard, image), (Err(Refusal::Hidden(0)), before));
    assert_eq!((counts.numbers(), work), (&[1, 0, 1, 0][..], [0, 0, 0, 7, 7, 7]));
}

/// Counts are not worked out for a file with hidden records, and none are right for it: those that
/// count all the same are refused with 19 too.
#[test]
fn hidden_records_have_no_counts() {
    const HIDDEN: &[u8] = include_bytes!("../../samples/hidden.trieff");
    let hidden = Refusal::Hidden(331);
    let (mut work, mut numbers) = ([7; NODES], [7; NODES]);
    let mut file = HIDDEN.to_vec();
    assert_eq!(Counts::new(&mut numbers).work_out(&file, &mut work), Err(hidden));
    assert_eq!(numbers, [7; NODES]);
    file[23] = 1; // min = 1: now they are keys
    let mut counts = Counts::new(&mut numbers);
    counts.work_out(&file, &mut work).unwrap();
    assert_eq!(agree(&file, &counts, &mut work), 396);
    assert_eq!(counts.check(HIDDEN, &mut work), Err(hidden));
    assert_eq!(counts.nth(HIDDEN, &mut work, 0, &mut [0; 64]), Err(hidden));
    assert_eq!(counts.position(HIDDEN, &mut work, &[13]), Err(hidden));
    assert_eq!(counts.position_text(HIDDEN, &mut work, b"x"), Err(hidden));
}
