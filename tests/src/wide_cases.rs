//! Compares the model with cases of request 6 whose bytes are written out by hand: 01's small file
//! with data of up to eight bytes, and values of up to 64 bits.

use super::*;

/// The small file of 01's cases with a G, a D and a body.
fn abc_of(g: &str, d: &str, body: &str) -> Vec<u8> {
    hex(&format!("{g} 00000003 00000001 {d} 00000003 00000001 00000003 414243 {body}"))
}

/// With five bytes of data, W is 8 and the root begins at byte 31.
fn five(g: &str, body: &str) -> Vec<u8> {
    abc_of(g, "00000005", body)
}

/// With eight bytes of data, W is 11.
fn eight(g: &str, body: &str) -> Vec<u8> {
    abc_of(g, "00000008", body)
}

/// B = 2^32 and BA = 2^40 - 1.
fn two_of_five() -> Vec<u8> {
    five("00000002", "000100 0000000000 020000 0100000000 000000 FFFFFFFFFF")
}

/// B = 2^32 and BA = 2^64 - 1.
fn two_of_eight() -> Vec<u8> {
    let nodes = "000100 0000000000000000 020000 0000000100000000 000000 FFFFFFFFFFFFFFFF";
    eight("00000002", nodes)
}

/// D, 256^D - 1, and its bytes.
const GREATEST: [(u32, u64, &str); 8] = [
    (1, 255, "FF"),
    (2, 65_535, "FFFF"),
    (3, 16_777_215, "FFFFFF"),
    (4, 4_294_967_295, "FFFFFFFF"),
    (5, 1_099_511_627_775, "FFFFFFFFFF"),
    (6, 281_474_976_710_655, "FFFFFFFFFFFF"),
    (7, 72_057_594_037_927_935, "FFFFFFFFFFFFFF"),
    (8, 18_446_744_073_709_551_615, "FFFFFFFFFFFFFFFF"),
];

#[test]
fn fields_of_every_width() {
    for (d, most, bytes) in GREATEST {
        assert_eq!((greatest(d), read_number(&hex(bytes))), (most, most));
        let mut written = vec![0xEE; d as usize];
        write_number(&mut written, most);
        assert_eq!(written, hex(bytes));
    }
    assert_eq!(read_number(&hex("0000000100000000")), 4_294_967_296);
    assert_eq!(read_number(&hex("8000000000000001")), 9_223_372_036_854_775_809);
    let mut written = [0xEE; 8];
    write_number(&mut written, 0x0123_4567_89AB_CDEF);
    assert_eq!(written[..], hex("0123456789ABCDEF"));
}

#[test]
fn fresh_with_five_and_eight_bytes() {
    let fresh = [
        (5, 39, five("00000000", "000000 0000000000")),
        (8, 42, eight("00000000", "000000 0000000000000000")),
    ];
    for (d, length, expected) in fresh {
        let mut image = vec![0xEE; length + 3];
        assert_eq!(make(&mut image, 3, 1, d, b"ABC", 1, 3), Answer::default());
        assert_eq!(image, with_room(expected, length + 3));
        assert_eq!(check(&image[..length], &mut [7]), Answer::default());
        assert_eq!(check(&image[..length - 1], &mut [7]), refused(4, 0));
        let mut short = vec![0xEE; length - 1];
        assert_eq!(make(&mut short, 3, 1, d, b"ABC", 1, 3), refused(4, 0));
        assert_eq!(short, vec![0xEE; length - 1]);
    }
    for d in [0, 9, 10, 16, 261, u32::MAX] {
        assert_eq!(make(&mut [0xEE; 99], 3, 1, d, b"AA", 1, 3), refused(2, 0), "2 before 3");
        assert_eq!(make(&mut [0xEE; 27], 3, 1, d, b"ABC", 1, 3), refused(1, 0), "1 before 2");
    }
}

#[test]
fn the_widest_node() {
    // 256 links of four bytes and eight bytes of data: W is 1,032
    let mut image = vec![0xEE; 28 + 2 * 1_032];
    assert_eq!(make(&mut image, 256, 4, 8, &[], 0, 1), Answer::default());
    assert_eq!((Head::read(&image).w(), Head::read(&image).u()), (1_032, 1_060));
    assert_eq!(image[28..1_060], [0; 1_032]);
    assert_eq!(image[1_060..], [0xEE; 1_032]);
    assert_eq!(check(&image[..1_059], &mut [7]), refused(4, 0));
    assert_eq!(store(&mut image[..2_091], &mut [7], &[255], 1 << 32), refused(13, 0));
    assert_eq!(store(&mut image, &mut [7], &[255], 1 << 32), changed(1));
    // the last link of the root, then the root's data, then an empty node and its data
    let root = [&[0; 255 * 4][..], &[0, 0, 0, 1], &[0; 8]].concat();
    let node = [&[0; 256 * 4][..], &[0, 0, 0, 1, 0, 0, 0, 0]].concat();
    assert_eq!((&image[28..1_060], &image[1_060..]), (&root[..], &node[..]));
    assert_eq!(look_up(&image, &[255]), value(4_294_967_296));
}

#[test]
fn stores_of_five_bytes() {
    let image = with_room(five("00000000", "000000 0000000000"), 60);
    let lists: [&[(u32, u32)]; 3] = [&[(39, 8), (47, 8), (0, 4), (32, 1)], &[(42, 5)], &[(50, 5)]];
    let image = store_all_ways(&image, &[B, A], b"BA", 1_099_511_627_775, listed(4, 1), lists[0]);
    let one = five("00000002", "000100 0000000000 020000 0000000000 000000 FFFFFFFFFF");
    assert_eq!(image, with_room(one, 60));
    let image = store_all_ways(&image, &[B], b"B", 4_294_967_296, listed(1, 1), lists[1]);
    assert_eq!(image, with_room(two_of_five(), 60));
    // the value of B has low 32 bits 0: other values are no new key, and 0 takes it away
    for (stored, bytes) in
        [(4_294_967_296, "0100000000"), (5, "0000000005"), (1_095_216_660_480, "FF00000000")]
    {
        let left = store_all_ways(&image, &[B], b"B", stored, listed(1, 0), lists[1]);
        let nodes = format!("000100 0000000000 020000 {bytes} 000000 FFFFFFFFFF");
        assert_eq!(left, with_room(five("00000002", &nodes), 60));
    }
    let left = store_all_ways(&image, &[B], b"B", 0, listed(1, -1), lists[1]);
    assert_eq!((look_up(&left, &[B]), count(&left, &mut [7; 3])), (value(0), value(1)));
    let left = store_all_ways(&image, &[B, A], b"BA", 0, listed(1, -1), lists[2]);
    assert_eq!((look_up(&left, &[B]), count(&left, &mut [7; 3])), (value(1 << 32), value(1)));
    for past in [1_099_511_627_776, 1_099_511_627_777, 1 << 63, u64::MAX] {
        store_all_ways(&image, &[B], b"B", past, refused(11, 0), &[]);
        store_all_ways(&image, &[C, C, C], b"CCC", past, refused(11, 0), &[]);
    }
    // W is 8: three nodes need 24 bytes, from 55 on
    store_all_ways(
        &with_room(two_of_five(), 78),
        &[C, C, C],
        b"CCC",
        1 << 32,
        refused(13, 0),
        &[],
    );
    let image = store_all_ways(
        &with_room(two_of_five(), 79),
        &[C, C, C],
        b"CCC",
        1 << 32,
        listed(5, 1),
        &[(55, 8), (63, 8), (71, 8), (0, 4), (33, 1)],
    );
    let nodes = "000103 0000000000 020000 0100000000 000000 FFFFFFFFFF \
                 000004 0000000000 000005 0000000000 000000 0100000000";
    assert_eq!(image, five("00000005", nodes));
}

#[test]
fn stores_of_eight_bytes() {
    let image = with_room(eight("00000000", "000000 0000000000000000"), 70);
    let lists: [&[(u32, u32)]; 2] = [&[(42, 11), (53, 11), (0, 4), (32, 1)], &[(45, 8)]];
    let image = store_all_ways(&image, &[B, A], b"BA", u64::MAX, listed(4, 1), lists[0]);
    let image = store_all_ways(&image, &[B], b"B", 4_294_967_296, listed(1, 1), lists[1]);
    assert_eq!(image, with_room(two_of_eight(), 70));
    for (stored, bytes) in [
        (1, "0000000000000001"),
        (4_294_967_295, "00000000FFFFFFFF"),
        (18_446_744_069_414_584_320, "FFFFFFFF00000000"),
        (1_099_511_627_776, "0000010000000000"),
        (72_057_594_037_927_936, "0100000000000000"),
        (9_223_372_036_854_775_807, "7FFFFFFFFFFFFFFF"),
        (9_223_372_036_854_775_808, "8000000000000000"),
        (18_446_744_073_709_551_614, "FFFFFFFFFFFFFFFE"),
        (18_446_744_073_709_551_615, "FFFFFFFFFFFFFFFF"),
    ] {
        let left = store_all_ways(&image, &[B], b"B", stored, listed(1, 0), lists[1]);
        let nodes = format!("000100 0000000000000000 020000 {bytes} 000000 FFFFFFFFFFFFFFFF");
        assert_eq!(left, with_room(eight("00000002", &nodes), 70));
        assert_eq!((look_up(&left, &[B]), count(&left, &mut [7; 3])), (value(stored), value(2)));
        let left = store_all_ways(&left, &[B], b"B", 0, listed(1, -1), lists[1]);
        assert_eq!((look_up(&left, &[B]), count(&left, &mut [7; 3])), (value(0), value(1)));
        store_all_ways(&left, &[B], b"B", stored, listed(1, 1), lists[1]);
    }
}

#[test]
fn eleven_by_width() {
    for (d, most, bytes) in GREATEST {
        let mut image = vec![0xEE; 31 + 2 * (3 + d as usize)];
        make(&mut image, 3, 1, d, b"ABC", 1, 3);
        let before = image.clone();
        let past = [most.saturating_add(1), most.saturating_mul(2), 1 << 63, u64::MAX];
        for value in past.into_iter().filter(|_| d < 8) {
            assert_eq!(store(&mut image, &mut [7], &[C], value), refused(11, 0), "{d} {value}");
            assert_eq!(image, before);
        }
        assert_eq!(store(&mut image, &mut [7], &[C], most), changed(1), "{d}");
        assert_eq!(image[image.len() - d as usize..], hex(bytes));
        assert_eq!(look_up_text(&image, b"C"), value(most));
    }
    // a value whose low 32 bits would fit
    for (d, value) in [(1, 4_294_967_297), (2, 4_294_967_296), (4, 4_294_967_296)] {
        let mut image = vec![0xEE; 31 + 2 * (3 + d as usize)];
        make(&mut image, 3, 1, d, b"ABC", 1, 3);
        assert_eq!(store(&mut image, &mut [7], &[C], value), refused(11, 0));
    }
}

#[test]
fn found_and_listed() {
    let found = |length, value| Answer { length, value, ..Answer::default() };
    let images = [(two_of_five(), 1_099_511_627_775), (two_of_eight(), u64::MAX)];
    for (image, most) in images {
        assert_eq!(check(&image, &mut [7; 3]), Answer::default());
        assert_eq!(count(&image, &mut [7; 3]), value(2));
        assert_eq!(look_up(&image, &[B]), value(4_294_967_296));
        assert_eq!(look_up_text(&image, b"BA"), value(most));
        let (mut key, mut work) = ([7; 3], [7; 3]);
        assert_eq!(next_key(&image, &mut work, &[], false, &mut key), found(1, 1 << 32));
        assert_eq!(next_key(&image, &mut work, &[B], true, &mut key), found(2, most));
        assert_eq!(next_key(&image, &mut work, &[B, A], true, &mut key), refused(15, 0));
        let lines = format!("entries 2\n1 4294967296\n1.0 {most}\n");
        assert_eq!(listing(&image), lines);
    }
    assert!(listing(&two_of_eight()).ends_with("\n1.0 18446744073709551615\n"));
}

#[test]
fn counted_beside_eight_bytes() {
    let found = |length, value| Answer { length, value, ..Answer::default() };
    let (image, mut work, mut list) = (two_of_eight(), [7; 3], [9; 4]);
    assert_eq!(counts(&image, &mut work, &mut list), Answer::default());
    assert_eq!(list, [2, 2, 1, 9]);
    assert_eq!(check_counts(&image, &mut work, &list), Answer::default());
    assert_eq!(check_counts(&image, &mut work, &[1, 1, 1]), refused(25, 0), "B is counted");
    let mut key = [7; 3];
    assert_eq!(key_at(&image, &mut work, &list, 0, &mut key), found(1, 1 << 32));
    assert_eq!(key_at(&image, &mut work, &list, 1, &mut key), found(2, u64::MAX));
    assert_eq!(position(&image, &mut work, &list, &[B]), value(0));
    assert_eq!(position_text(&image, &mut work, &list, b"BA"), value(1));
    // C = 2^63 in a new node, B to 2^56, BA away
    let mut image = with_room(image, 75);
    let stored = store_counts(&mut image, &mut work, &[C], 1 << 63, &mut list);
    assert_eq!((stored, list), (changed(1), [3, 2, 1, 1]));
    let stored = store_text_counts(&mut image, &mut [7; 4], b"B", 1 << 56, &mut list);
    assert_eq!((stored, list), (changed(0), [3, 2, 1, 1]));
    let stored = store_counts(&mut image, &mut [7; 4], &[B, A], 0, &mut list);
    assert_eq!((stored, list), (changed(-1), [2, 1, 0, 1]));
    let nodes = "000103 0000000000000000 020000 0100000000000000 000000 0000000000000000 \
                 000000 8000000000000000";
    assert_eq!(image, eight("00000003", nodes));
}

/// Makes every call on an image whose D is not permitted. All of them answer 2, and change
/// nothing.
fn two_in_every_call(before: &[u8]) {
    let mut image = before.to_vec();
    let (work, writes, counts) = (&mut [7; 4][..], &mut [7; WRITES], &mut [9; 4][..]);
    let mut key = [7; 3];
    let answers = [
        check(&image, work),
        count(&image, work),
        look_up(&image, &[B]),
        look_up_text(&image, b"B"),
        store(&mut image, work, &[B], 5),
        store_text(&mut image, work, b"B", 5),
        store_writes(&mut image, work, &[B], 5, writes),
        store_text_writes(&mut image, work, b"B", 5, writes),
        mend(&mut image, work),
        next_key(&image, work, &[], false, &mut key),
        super::counts(&image, work, counts),
        check_counts(&image, work, counts),
        store_counts(&mut image, work, &[B], 5, counts),
        store_text_counts(&mut image, work, b"B", 5, counts),
        key_at(&image, work, counts, 0, &mut key),
        position(&image, work, counts, &[B]),
        position_text(&image, work, counts, b"B"),
    ];
    assert_eq!(answers, [refused(2, 0); 17]);
    assert_eq!((&image[..], &*writes, key), (before, &[7; WRITES], [7; 3]));
    assert_eq!((&*counts, &*work), (&[9; 4][..], &[7; 4][..]));
    assert_eq!(listing(before), "refused 2 at 0\n");
}

#[test]
fn d_is_1_to_8() {
    // P3's tree with B = 5 and BA = 9, for each D; D of 5 to 8 was refused with 2
    for d in 1..=8 {
        let zeros = "00".repeat(d - 1);
        let nodes = format!("000100 {zeros}00 020000 {zeros}05 000000 {zeros}09");
        let image = abc_of("00000002", &format!("{d:08X}"), &nodes);
        assert_eq!(image.len(), 31 + 3 * (3 + d));
        assert_eq!(mend(&mut image.clone(), &mut [7; 3]), Answer::default());
        assert_eq!(listing(&image), "entries 2\n1 5\n1.0 9\n");
        assert_eq!(check(&image[..image.len() - 1], &mut [7; 3]), refused(4, 0));
    }
    // with nine bytes of data the same tree would fit
    let nine = "000100 000000000000000000 020000 000000000000000005 000000 000000000000000009";
    two_in_every_call(&abc_of("00000002", "00000009", nine));
    for d in ["00000000", "00000009", "00000010", "00000108", "08000000", "FFFFFFFF"] {
        two_in_every_call(&with_room(abc_of("00000000", d, "00"), 99));
    }
}

#[test]
fn hidden_in_each_byte() {
    for (d, _, _) in GREATEST {
        for byte in 0..d as usize {
            // data of the root alone, with 1 in one byte
            let data = |at: usize| if at == byte { "01" } else { "00" };
            let bytes: String = (0..d as usize).map(data).collect();
            let nodes = format!("000100 {bytes} 000000 {}", "00".repeat(d as usize));
            let image = abc_of("00000001", &format!("{d:08X}"), &nodes);
            in_every_call_with_the_check(&image, refused(19, 0));
            assert_eq!(listing(&image), "refused 19 at 0\n");
            assert_eq!(look_up(&image, &[B]), value(0));
            // with min = 0 it is the empty key
            let mut image = image;
            image[23] = 0;
            let found = 1 << (8 * (d as usize - 1 - byte));
            assert_eq!(look_up(&image, &[]), value(found));
            assert_eq!(count(&image, &mut [7; 2]), value(1));
            assert_eq!(listing(&image), format!("entries 1\n- {found}\n"));
        }
    }
}

#[test]
fn eight_bytes_cut_at_each_write() {
    // CC = 2^32 after B and BA: two new nodes, G, the link
    let before = "000100 0000000000000000 020000 0000000100000000 000000 FFFFFFFFFFFFFFFF";
    let after = "000103 0000000000000000 020000 0000000100000000 000000 FFFFFFFFFFFFFFFF";
    let cuts = [
        ("00000002", "EEEEEE EEEEEEEEEEEEEEEE EEEEEE EEEEEEEEEEEEEEEE"),
        ("00000002", "000004 0000EEEEEEEE0000 EEEEEE EEEEEEEEEEEEEEEE"),
        ("00000002", "000004 0000000000000000 EEEEEE EEEEEEEE00000000"),
        ("00000002", "000004 0000000000000000 000000 0000000100000000"),
        ("00000004", "000004 0000000000000000 000000 0000000100000000"),
    ];
    for (g, nodes) in cuts {
        let mut image = eight(g, &format!("{before} {nodes}"));
        assert_eq!(mend(&mut image, &mut [7; 5]), Answer::default());
        assert_eq!(image, eight("00000002", &format!("{before} {nodes}")));
        assert_eq!(listing(&image), listing(&two_of_eight()));
    }
    let mut image = eight("00000004", &format!("{after} {}", cuts[4].1));
    assert_eq!(mend(&mut image, &mut [7; 5]), Answer::default());
    let lines = "entries 3\n1 4294967296\n1.0 18446744073709551615\n2.2 4294967296\n";
    assert_eq!(listing(&image), lines);
    // a node that stands in no link, above data that is hidden: 8 stays
    let nodes = "000000 0000000100000000 000000 0000000000000000";
    let mut image = eight("00000001", nodes);
    assert_eq!(mend(&mut image, &mut [7; 2]), refused(8, 1));
    assert_eq!(image, eight("00000001", nodes));
}
