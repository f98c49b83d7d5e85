//! The iterator over the stored keys gives what next key gives, step by step, and then ends.

use trieff::{
    count, keys, keys_from, look_up, make, next_key, store, Found, Keys, Refusal, Shape,
};

const SEASON: &[u8] = include_bytes!("../../samples/season.trieff");
const RENUMBERED: &[u8] = include_bytes!("../../samples/renumbered.trieff");
const HIDDEN: &[u8] = include_bytes!("../../samples/hidden.trieff");
const NODES: usize = 659;
const DEEP: Shape = Shape { n: 2, a: 1, d: 4, min: 0, max: 64 };

/// Compares the iterator with next key, called by hand. After the end it must stay ended. The
/// number of keys, and the refusal that came last.
fn agree(image: &[u8], nodes: usize, from: &[u8], after: bool) -> (usize, Refusal) {
    let (mut lent, mut work) = (vec![7; nodes], vec![7; nodes]);
    let mut given = keys_from(image, &mut lent, from, after);
    let (mut last, mut after, mut count) = (from.to_vec(), after, 0);
    loop {
        let mut key = [0; 64];
        match next_key(image, &mut work, &last, after, &mut key) {
            Ok(Found { length, value }) => {
                let stored = given.next().unwrap().unwrap();
                assert_eq!((stored.letters(), stored.value()), (&key[..length], value));
                (last, after) = (key[..length].to_vec(), true);
            }
            Err(refusal) => {
                let end = if refusal == Refusal::NoKey { None } else { Some(Err(refusal)) };
                assert_eq!(given.next(), end);
                assert_eq!((given.next(), given.next()), (None, None));
                assert_eq!(lent, work);
                return (count, refusal);
            }
        }
        count += 1;
    }
}

#[test]
fn a_season_key_by_key() {
    assert_eq!(agree(SEASON, NODES, &[], false), (394, Refusal::NoKey));
    let mut work = [0; NODES];
    let all: Vec<_> = keys(SEASON, &mut work).take(NODES).collect::<Result<_, _>>().unwrap();
    assert_eq!(all.len(), 394);
    for (i, stored) in all.iter().enumerate() {
        let mut first = |after| keys_from(SEASON, &mut work, stored.letters(), after).next();
        assert_eq!(
            (first(false), first(true)),
            (Some(Ok(*stored)), all.get(i + 1).map(|s| Ok(*s)))
        );
    }
    assert_eq!(agree(SEASON, NODES, all[200].letters(), true), (193, Refusal::NoKey));
}

#[test]
fn a_renumbered_season_has_the_same_keys() {
    assert_eq!(agree(RENUMBERED, NODES, &[], false), (394, Refusal::NoKey));
    let (mut work, mut other) = ([0; NODES], [0; NODES]);
    assert!(keys(RENUMBERED, &mut work).eq(keys(SEASON, &mut other)));
    assert_ne!(RENUMBERED, SEASON);
}

/// No key is given from a file with records at nodes of too few letters. Where min allows them,
/// the same records are keys as all others.
#[test]
fn hidden_records_are_refused_or_given() {
    assert_eq!(agree(HIDDEN, NODES, &[], false), (0, Refusal::Hidden(331)));
    assert_eq!(agree(HIDDEN, NODES, &[99; 65], false), (0, Refusal::Hidden(331)));
    let (mut file, mut work) = (HIDDEN.to_vec(), [0; NODES]);
    for (min, heard) in [(1, Ok(396)), (2, Err(Refusal::Hidden(547)))] {
        file[23] = min;
        assert_eq!(count(&file, &mut work), heard);
    }
    file[23] = 1;
    assert_eq!(agree(&file, NODES, &[], false), (396, Refusal::NoKey));
    for (label, value) in [(&[13][..], 2795), (&[11, 0, 3, 15, 1, 4, 5], 2796)] {
        let stored = keys_from(&file, &mut work, label, false).next().unwrap().unwrap();
        assert_eq!((stored.letters(), stored.value()), (label, value));
    }
}

#[test]
fn a_key_given_of_any_length() {
    let mut image = [0; DEEP.length(66, 0)];
    make(&mut image, DEEP, b"").unwrap();
    assert_eq!(agree(&image, 66, &[], false), (0, Refusal::NoKey));
    for letters in [&[][..], &[1], &[0; 63], &[0; 64]] {
        store(&mut image, &mut [0; 66], letters, 77).unwrap();
    }
    for (length, count, refusal) in [
        (0, 4, Refusal::NoKey),
        (63, 3, Refusal::NoKey),
        (64, 2, Refusal::NoKey),
        (65, 0, Refusal::KeyLength),
        (66, 0, Refusal::KeyLength),
        (1000, 0, Refusal::KeyLength),
    ] {
        assert_eq!(agree(&image, 66, &vec![0; length], false), (count, refusal));
    }
    assert_eq!(agree(&image, 66, &[0; 64], true), (1, Refusal::NoKey));
    assert_eq!(agree(&image, 66, &[2; 64], true), (0, Refusal::Letter));
    assert_eq!(agree(&image, 66, &[2; 65], true), (0, Refusal::KeyLength));
    assert_eq!(agree(&image, 65, &[2; 65], true), (0, Refusal::TooFewNumbers));
    image[28] = 77; // the root links to a node that is not there
    assert_eq!(agree(&image, 66, &[2; 65], true), (0, Refusal::Link(0)));
    assert_eq!(agree(&image[..27], 66, &[2; 65], true), (0, Refusal::ImageLength));
}

/// The greatest value of each length of data is given back whole, and every greater one is
/// refused; with D = 8 there is none. A value whose low 32 bits are 0 is not absent.
#[test]
fn values_of_each_length_of_data() {
    for d in 1..=8 {
        let shape = Shape { n: 2, a: 1, d, min: 0, max: 3 };
        let greatest = u64::MAX >> (64 - 8 * d);
        let one = if d > 4 { 1 << 32 } else { 1 };
        let (mut image, mut work) = (vec![0xA5; shape.length(6, 0)], [0; 6]);
        make(&mut image, shape, b"").unwrap();
        let stored: [(&[u8], u64); 5] = [
            (&[], greatest),
            (&[0], greatest / 2 + 1), // the highest bit alone
            (&[0, 1], one),
            (&[1], greatest - 1),
            (&[1, 1], greatest - one + 1),
        ];
        for (letters, value) in stored {
            assert_eq!(store(&mut image, &mut work, letters, value), Ok(1), "{d} {value}");
            assert_eq!(store(&mut image, &mut work, letters, value), Ok(0));
            assert_eq!(look_up(&image, letters), Ok(Some(value)));
        }
        assert_eq!(image[30..30 + d as usize], greatest.to_be_bytes()[8 - d as usize..]);
        let given: Vec<_> = keys(&image, &mut work).collect::<Result<_, _>>().unwrap();
        assert!(given.iter().map(|s| (s.letters(), s.value())).eq(stored));
        assert_eq!(agree(&image, 6, &[], false), (5, Refusal::NoKey));
        assert_eq!(count(&image, &mut work), Ok(5));

        let before = image.clone();
        for value in [greatest.wrapping_add(1), 1 << 32, 1 << 32 | 1, 1 << 63, u64::MAX] {
            if value > greatest {
                let refused = Err(Refusal::ValueTooGreat);
                assert_eq!(store(&mut image, &mut work, &[1], value), refused, "{d} {value}");
                assert_eq!(store(&mut image, &mut work, &[1, 1, 1], value), refused);
                assert_eq!(image, before);
            }
        }
        for (letters, _) in stored {
            assert_eq!(store(&mut image, &mut work, letters, 0), Ok(-1));
            assert_eq!(look_up(&image, letters), Ok(None));
        }
    }
}

/// One byte of the root's data that is not 0, whichever it is, is hidden data where min is 1.
#[test]
fn each_byte_of_hidden_data_counts() {
    const SHORTEST: Shape = Shape { n: 2, a: 1, d: 8, min: 1, max: 2 };
    for byte in 0..8 {
        let mut image = [0; SHORTEST.length(1, 0)];
        make(&mut image, SHORTEST, b"").unwrap();
        assert_eq!(agree(&image, 1, &[], false), (0, Refusal::NoKey));
        image[28 + 2 + byte] = 1;
        assert_eq!(agree(&image, 1, &[], false), (0, Refusal::Hidden(0)));
    }
}

#[test]
fn data_of_no_other_length() {
    let mut image = [0; DEEP.length(2, 0)];
    make(&mut image, DEEP, b"").unwrap();
    for d in [0, 9, 256 + 8, u32::MAX] {
        assert_eq!(make(&mut image, Shape { d, ..DEEP }, b""), Err(Refusal::HeadField));
        image[12..16].copy_from_slice(&d.to_be_bytes());
        assert_eq!(count(&image, &mut [0; 2]), Err(Refusal::HeadField));
        assert_eq!(look_up(&image, &[1]), Err(Refusal::HeadField));
        assert_eq!(store(&mut image, &mut [0; 2], &[1], 1), Err(Refusal::HeadField));
    }
}

#[test]
fn the_key_given_is_not_borrowed() {
    let mut work = [0; NODES];
    let mut last = keys(SEASON, &mut work).next().unwrap().unwrap();
    let mut pages = 0;
    loop {
        let before = last;
        for stored in keys_from(SEASON, &mut work, last.letters(), true).take(100) {
            last = stored.unwrap();
        }
        if last == before {
            break;
        }
        pages += 1;
    }
    assert_eq!(pages, 4);
}

#[test]
fn a_stored_key_in_words() {
    let mut image = [0; DEEP.length(3, 0)];
    make(&mut image, DEEP, b"").unwrap();
    store(&mut image, &mut [0; 3], &[1, 0], 9).unwrap();
    let mut work = [0; 3];
    let mut all: Keys = keys(&image, &mut work);
    let stored = all.next().unwrap().unwrap();
    assert_eq!(format!("{stored:?}"), "Stored { letters: [1, 0], value: 9 }");
}
