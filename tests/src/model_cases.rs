//! Compares the model with document 01's cases, with their lists of writes and their cuts, whose
//! bytes are written out by hand, and with Rust's own UTF-8.

use super::*;

#[path = "count_cases.rs"]
mod counted;

#[path = "wide_cases.rs"]
mod wide;

/// Bytes from hexadecimal; spaces are for the reader.
fn hex(text: &str) -> Vec<u8> {
    let digits: Vec<u8> =
        text.chars().filter_map(|c| c.to_digit(16)).map(|digit| digit as u8).collect();
    digits.chunks(2).map(|pair| pair[0] * 16 + pair[1]).collect()
}

/// The small file of 01's cases with a G and a body.
fn abc(g: &str, body: &str) -> Vec<u8> {
    hex(&format!("{g} 00000003 00000001 00000001 00000003 00000001 00000003 414243 {body}"))
}

fn p2() -> Vec<u8> {
    abc("00000002", "00010000 02000000 00000009")
}

fn p3() -> Vec<u8> {
    abc("00000002", "00010000 02000005 00000009")
}

fn with_room(mut image: Vec<u8>, len: usize) -> Vec<u8> {
    image.resize(len, 0xEE);
    image
}

fn refused(number: u32, place: u32) -> Answer {
    Answer { number, place, ..Answer::default() }
}

fn changed(change: i32) -> Answer {
    Answer { change, ..Answer::default() }
}

fn value(value: u64) -> Answer {
    Answer { value, ..Answer::default() }
}

const A: u8 = 0;
const B: u8 = 1;
const C: u8 = 2;

#[test]
fn p1_fresh() {
    let mut image = vec![0xEE; 35];
    assert_eq!(make(&mut image, 3, 1, 1, b"ABC", 1, 3), Answer::default());
    let fresh = "00000000 00000003 00000001 00000001 00000003 00000001 00000003 414243 00000000";
    assert_eq!(image, hex(fresh));
    let mut longer = vec![0xEE; 40];
    assert_eq!(make(&mut longer, 3, 1, 1, b"ABC", 1, 3), Answer::default());
    assert_eq!(longer, hex(&format!("{fresh} EEEEEEEEEE")));
    let mut short = vec![0xEE; 34];
    assert_eq!(make(&mut short, 3, 1, 1, b"ABC", 1, 3), refused(4, 0));
    assert_eq!(short, vec![0xEE; 34]);
}

#[test]
fn p2_and_p3_store() {
    let mut image = with_room(abc("00000000", "00000000"), 50);
    let mut work = vec![7; 5];
    assert_eq!(store(&mut image, &mut work, &[B, A], 9), changed(1));
    assert_eq!(image, with_room(p2(), 50));
    assert_eq!(Head::read(&image).u(), 43);
    assert_eq!(work, [0, 7, 7, 7, 7], "the first G+1 with the G of entry");
    assert_eq!(store_text(&mut image, &mut work, b"B", 5), changed(1));
    assert_eq!(image, with_room(p3(), 50));
    assert_eq!(work, [0, 0, 0, 7, 7]);
    assert_eq!(count(&image, &mut work), value(2));
}

#[test]
fn p4_look_up() {
    let keys: [(&[u8], &[u8], u64); 5] = [
        (&[B, A], b"BA", 9),
        (&[B], b"B", 5),
        (&[A], b"A", 0),
        (&[B, B], b"BB", 0),
        (&[B, A, C], b"BAC", 0),
    ];
    for (letters, text, found) in keys {
        assert_eq!(look_up(&p3(), letters), value(found));
        assert_eq!(look_up_text(&p3(), text), value(found));
    }
}

#[test]
fn p5_keys_refused() {
    assert_eq!(look_up(&p3(), &[]), refused(9, 0));
    assert_eq!(look_up_text(&p3(), b""), refused(9, 0));
    assert_eq!(look_up(&p3(), &[B, A, B, A]), refused(9, 0));
    assert_eq!(look_up_text(&p3(), b"BABA"), refused(9, 0));
    assert_eq!(look_up(&p3(), &[3]), refused(10, 0));
    assert_eq!(look_up(&p3(), &[3, 3, 3, 3]), refused(9, 0), "letters: 9 before 10");
    assert_eq!(look_up_text(&p3(), b"DDDD"), refused(10, 0), "text: 10 before 9");
}

#[test]
fn p6_store_refused_or_nothing() {
    let mut image = p3();
    assert_eq!(store(&mut image, &mut [7; 3], &[B, A], 256), refused(11, 0));
    assert_eq!(image, p3());
    assert_eq!(store(&mut image, &mut [7; 3], &[A, B, C], 0), changed(0));
    assert_eq!(image, p3());
    assert_eq!(store(&mut image, &mut [7; 3], &[B, A], 0), changed(-1));
    assert_eq!(image, abc("00000002", "00010000 02000005 00000000"));
    assert_eq!(store(&mut image, &mut [7; 3], &[B], 6), changed(0));
    assert_eq!(image, abc("00000002", "00010000 02000006 00000000"));
}

#[test]
fn p7_room_for_three() {
    let mut short = with_room(p3(), 54);
    assert_eq!(store(&mut short, &mut [7; 3], &[C, C, C], 1), refused(13, 0));
    assert_eq!(short, with_room(p3(), 54));
    let mut image = with_room(p3(), 55);
    assert_eq!(store(&mut image, &mut [7; 3], &[C, C, C], 1), changed(1));
    assert_eq!(image, abc("00000005", "00010300 02000005 00000009 00000400 00000500 00000001"));
}

#[test]
fn p8_to_p11_links() {
    let cases = [
        ("00010100 00000000", refused(7, 1)),
        ("00020000 00000000", refused(6, 0)),
        ("00000000 00000000", refused(8, 1)),
        ("00010000 00010000", refused(7, 1)),
    ];
    for (body, answered) in cases {
        let mut work = [7, 7, 7];
        assert_eq!(check(&abc("00000001", body), &mut work), answered);
        assert_eq!(work, [0, 0, 7]);
        let mut too_few = [7];
        assert_eq!(check(&abc("00000001", body), &mut too_few), refused(5, 0));
        assert_eq!(too_few, [7]);
    }
}

#[test]
fn p12_next_key() {
    let mut key = [7; 4];
    let mut work = [7; 4];
    let found = |length, value| Answer { length, value, ..Answer::default() };
    assert_eq!(next_key(&p3(), &mut work, &[], false, &mut key), found(1, 5));
    assert_eq!((key, work), ([B, 7, 7, 7], [0, 0, 0, 7]));
    assert_eq!(next_key(&p3(), &mut work, &[B], true, &mut key), found(2, 9));
    assert_eq!(key, [B, A, 7, 7]);
    assert_eq!(next_key(&p3(), &mut work, &[B, A], true, &mut key), refused(15, 0));
    assert_eq!(key, [B, A, 7, 7]);
    assert_eq!(
        next_key(&p3(), &mut work, &[B, A], true, &mut [7; 2]),
        refused(14, 0),
        "14 before 15"
    );
}

fn listed(length: u32, change: i32) -> Answer {
    Answer { length, change, ..Answer::default() }
}

/// The numbers lent for a list of writes: the writes, then the 7s that were there.
fn list_of(writes: &[(u32, u32)]) -> [u32; WRITES] {
    let mut numbers = [7; WRITES];
    for (i, (place, length)) in writes.iter().enumerate() {
        numbers[2 * i] = *place;
        numbers[2 * i + 1] = *length;
    }
    numbers
}

/// Makes both stores with writes and the plain store. Returns the image that all three leave.
fn store_all_ways(
    image: &[u8],
    letters: &[u8],
    text: &[u8],
    value: u64,
    answered: Answer,
    list: &[(u32, u32)],
) -> Vec<u8> {
    let (mut plain, mut by_letters, mut by_text) =
        (image.to_vec(), image.to_vec(), image.to_vec());
    let mut writes = [7; WRITES];
    assert_eq!(store(&mut plain, &mut [7; 6], letters, value), Answer { length: 0, ..answered });
    assert_eq!(store_writes(&mut by_letters, &mut [7; 6], letters, value, &mut writes), answered);
    assert_eq!((&by_letters, writes), (&plain, list_of(list)));
    let mut writes = [7; WRITES];
    assert_eq!(store_text_writes(&mut by_text, &mut [7; 6], text, value, &mut writes), answered);
    assert_eq!((&by_text, writes), (&plain, list_of(list)));
    plain
}

#[test]
fn lists_of_p2_p3_p6_p7() {
    assert_eq!(WRITES, 132);
    let image = with_room(abc("00000000", "00000000"), 50);
    let image = store_all_ways(
        &image,
        &[B, A],
        b"BA",
        9,
        listed(4, 1),
        &[(35, 4), (39, 4), (0, 4), (32, 1)],
    );
    assert_eq!(image, with_room(p2(), 50));
    let image = store_all_ways(&image, &[B], b"B", 5, listed(1, 1), &[(38, 1)]);
    assert_eq!(image, with_room(p3(), 50));
    store_all_ways(&image, &[B], b"B", 5, listed(1, 0), &[(38, 1)]);
    store_all_ways(&image, &[B, A], b"BA", 256, refused(11, 0), &[]);
    store_all_ways(&image, &[A, B, C], b"ABC", 0, listed(0, 0), &[]);
    store_all_ways(&image, &[B, A], b"BA", 0, listed(1, -1), &[(42, 1)]);
    store_all_ways(&with_room(p3(), 54), &[C, C, C], b"CCC", 1, refused(13, 0), &[]);
    store_all_ways(
        &with_room(p3(), 55),
        &[C, C, C],
        b"CCC",
        1,
        listed(5, 1),
        &[(43, 4), (47, 4), (51, 4), (0, 4), (33, 1)],
    );
}

#[test]
fn p7_cut_at_each_write() {
    let before = "00010000 02000005 00000009";
    let cuts = [
        ("00000002", "EEEEEEEE EEEEEEEE EEEEEEEE"),
        ("00000002", "EE00EE00 EEEEEEEE EEEEEEEE"),
        ("00000002", "00000400 EEEEEEEE EEEEEEEE"),
        ("00000002", "00000400 EEEE05EE EEEEEEEE"),
        ("00000002", "00000400 00000500 EEEEEEEE"),
        ("00000002", "00000400 00000500 EEEEEE01"),
        ("00000002", "00000400 00000500 00000001"),
        ("00000005", "00000400 00000500 00000001"),
    ];
    for (g, nodes) in cuts {
        let mut image = abc(g, &format!("{before} {nodes}"));
        assert_eq!(mend(&mut image, &mut [7; 6]), Answer::default());
        assert_eq!(image, abc("00000002", &format!("{before} {nodes}")));
        assert_eq!(
            (look_up(&image, &[C, C, C]), count(&image, &mut [7; 3])),
            (value(0), value(2))
        );
    }
    let whole = abc("00000005", "00010300 02000005 00000009 00000400 00000500 00000001");
    let mut image = whole.clone();
    assert_eq!(mend(&mut image, &mut [7; 6]), Answer::default());
    assert_eq!(image, whole);
    assert_eq!((look_up(&image, &[C, C, C]), count(&image, &mut [7; 6])), (value(1), value(3)));
}

#[test]
fn mend_lowers_g_or_changes_nothing() {
    // G, body, answer, the G that is left
    let cases = [
        ("00000001", "00000000 00000000", Answer::default(), "00000000"),
        ("00000002", "00000000 02000000 00000000", Answer::default(), "00000000"),
        ("00000003", "01000000 00000000 03000000 00000000", Answer::default(), "00000001"),
        ("00000002", "00010000 02000005 00000009", Answer::default(), "00000002"),
        ("00000002", "02000000 00000000 00000000", refused(8, 1), "00000002"),
        ("00000001", "00010100 00000000", refused(7, 1), "00000001"),
        ("00000001", "00020000 00000000", refused(6, 0), "00000001"),
        ("00000001", "00010000 00010000", refused(7, 1), "00000001"),
        // lowered, the image has another 8: node 2 holds the link of node 1
        ("00000002", "00000000 00000000 01000000", refused(8, 2), "00000002"),
        // lowered, it has 16: nodes 1 and 2 are a cycle
        ("00000003", "00000000 02000000 01000000 00000000", refused(8, 3), "00000003"),
        // lowered, it has 6: node 1 links to node 3
        ("00000003", "01000000 03000000 00000000 00000000", refused(8, 2), "00000003"),
        // 16 alone
        ("00000002", "00000000 02000000 01000000", refused(16, 1), "00000002"),
        // lowered, it is accepted, though node 2 links to node 1
        ("00000003", "00020000 00000009 01000005 00000000", Answer::default(), "00000002"),
        // lowered, it has 19: at the root
        ("00000001", "00000007 00000000", refused(8, 1), "00000001"),
        // lowered, it has 19: node 4 is deeper than max
        (
            "00000005",
            "01000000 02000000 03000000 04000000 00000009 00000000",
            refused(8, 5),
            "00000005",
        ),
        // lowered, it is accepted: the data of node 2 is cut off, and node 4 is empty
        ("00000002", "01000000 00000005 00000009", Answer::default(), "00000001"),
        (
            "00000005",
            "01000000 02000000 03000000 04000005 00000000 00000009",
            Answer::default(),
            "00000004",
        ),
        // 19 alone
        ("00000001", "01000007 00000000", refused(19, 0), "00000001"),
    ];
    for (g, body, answered, left) in cases {
        let mut image = abc(g, body);
        let nodes = body.split(' ').count();
        let mut work = [7; 7];
        assert_eq!(mend(&mut image, &mut work), answered);
        assert_eq!(image, abc(left, body));
        let cleared: Vec<u32> = (0..7).map(|i| if i < nodes { 0 } else { 7 }).collect();
        assert_eq!(work[..], cleared[..], "the first G+1 with the G of entry");
        let mut image = abc(g, body);
        let mut too_few = vec![7; nodes - 1];
        assert_eq!(mend(&mut image, &mut too_few), refused(5, 0));
        assert_eq!((image, too_few), (abc(g, body), vec![7; nodes - 1]));
    }
}

#[test]
fn run_alphabets() {
    let made = |n: u32, alphabet: &[u8]| make(&mut [0; 100], n, 1, 1, alphabet, 0, 0);
    assert_eq!(made(1, &[0xC0, 0x80]), refused(3, 0));
    assert_eq!(made(1, &[0xED, 0xA0, 0x80]), refused(3, 0));
    assert_eq!(made(1, &[0xF4, 0x8F, 0xBF, 0xBF]), Answer::default());
    assert_eq!(made(2, b"AA"), refused(3, 0));
    assert_eq!(made(1, b"AB"), refused(3, 0), "more than N characters");
    assert_eq!(made(3, b"AB"), refused(3, 0), "fewer than N characters");
    assert_eq!(
        make(&mut [0; 28], 2, 1, 1, b"AA", 0, 0),
        refused(3, 0),
        "3 before 4, on the alphabet given"
    );
}

#[test]
fn run_great_g() {
    for len in [35, 1_000, LONGEST_IMAGE] {
        let image = with_room(abc("FFFFFFFF", "00000000"), len);
        assert_eq!(check(&image, &mut [7; 3]), refused(4, 0));
        let wraps = with_room(abc("3FFFFFFF", "00000000"), len);
        assert_eq!(check(&wraps, &mut [7; 3]), refused(4, 0), "(G+1)*W is 0 in 32 bits");
    }
}

/// 256 nodes of two links and one byte of data in a chain by letter 0: G = 255.
fn full_chain() -> Vec<u8> {
    let mut image = hex("000000FF 00000002 00000001 00000001 00000000 00000000 00000040");
    for node in 0..=255u8 {
        image.extend([node.wrapping_add(1), 0, 0]);
    }
    image
}

#[test]
fn run_all_addresses_taken() {
    let mut image = with_room(full_chain(), full_chain().len() + 6);
    assert_eq!(check(&image, &mut [7; 256]), Answer::default());
    assert_eq!(store(&mut image, &mut [7; 256], &[B], 1), refused(12, 0));
    assert_eq!(store(&mut image, &mut [7; 256], &[A, A], 1), changed(1), "no new node is wanted");
    assert_eq!(store(&mut image, &mut [7; 256], &[B], 0), changed(0));
}

#[test]
fn lengths_of_1() {
    let image = with_room(p3(), LONGEST_IMAGE + 1);
    assert_eq!(look_up(&image, &[B]), refused(1, 0));
    assert_eq!(look_up(&image[..LONGEST_IMAGE], &[B]), value(5));
    assert_eq!(look_up(&image[..27], &[B]), refused(1, 0));
    assert_eq!(look_up(&image[..28], &[B]), refused(4, 0), "the F bytes are not all inside");
    assert_eq!(look_up(&image[..42], &[B]), refused(4, 0));
    assert_eq!(look_up(&image[..43], &[B]), value(5));
}

#[test]
fn order_of_6_7_8_16_19() {
    // 19 at 0, 16 at 1, 8 at 3, 7 at 4 and 6 at 5: all of 6 first, then all of 7, then all of 8,
    // then all of 16
    let mut image = abc("00000005", "04040007 02000000 01000000 00000000 05000000 00000600");
    let mut repair = |at: usize, byte: u8| {
        image[31 + at] = byte;
        check(&image, &mut [7; 6])
    };
    assert_eq!(repair(0, 4), refused(6, 5));
    assert_eq!(repair(22, 0), refused(7, 4));
    assert_eq!(repair(1, 0), refused(8, 3));
    assert_eq!(repair(1, 3), refused(16, 1));
    assert_eq!(repair(8, 0), refused(8, 1), "the cycle is broken, so node 1 stands in no link");
    assert_eq!(repair(2, 1), refused(19, 0));
    assert_eq!(repair(3, 0), Answer::default());
}

/// Images whose addresses all stand in one link, and the lowest node that is not reached.
const UNREACHED: [(&str, &str, u32); 7] = [
    ("00000002", "00000000 02000000 01000000", 1),
    // a node that links to itself
    ("00000001", "00000000 01000000", 1),
    // 2 and 3 are a cycle, and 1 hangs under 3
    ("00000003", "00000000 00000000 03000000 02010000", 1),
    // 2 and 3 are a cycle, and 4 hangs under 3
    ("00000004", "00010000 00000000 03000000 02040000 00000000", 2),
    // 4 and 5 are a cycle, 3 hangs under 5, 1 under 3; the root links to 2
    ("00000005", "02000000 00000000 00000000 00000100 05000000 03040000", 1),
    // two cycles: 4, and 2 with 3
    ("00000004", "01000000 00000000 00000300 00000200 00000400", 2),
    // the last node alone
    ("00000003", "01000000 00000200 00000000 00000300", 3),
];

#[test]
fn sixteen_is_the_lowest_unreached() {
    for (g, body, place) in UNREACHED {
        let nodes = body.split(' ').count();
        let mut work = vec![7; nodes + 1];
        assert_eq!(check(&abc(g, body), &mut work), refused(16, place), "{body}");
        assert_eq!(work, [&vec![0; nodes], &[7][..]].concat());
        let mut too_few = vec![7; nodes - 1];
        assert_eq!(check(&abc(g, body), &mut too_few), refused(5, 0));
        assert_eq!(too_few, vec![7; nodes - 1]);
    }
}

/// Makes every call that checks on a refused image of 01's small file. The keys, the value, the
/// counts and the key buffer are bad too: the check's answers stand before 25, 9, 10, 11 and 14.
fn in_every_call_with_the_check(before: &[u8], answered: Answer) {
    let nodes = Head::read(before).g as usize + 1;
    for (letters, text) in [(&[3, 3, 3, 3][..], &b"DDDD"[..]), (&[B], b"B")] {
        let mut image = before.to_vec();
        let (work, writes) = (&mut vec![7; nodes][..], &mut [7; WRITES]);
        let counts = &mut vec![9; nodes][..];
        let answers = [
            check(&image, work),
            count(&image, work),
            mend(&mut image, work),
            store(&mut image, work, letters, 256),
            store_text(&mut image, work, text, 256),
            store_writes(&mut image, work, letters, 256, writes),
            store_text_writes(&mut image, work, text, 256, writes),
            next_key(&image, work, letters, false, &mut []),
            super::counts(&image, work, counts),
            check_counts(&image, work, counts),
            store_counts(&mut image, work, letters, 256, counts),
            store_text_counts(&mut image, work, text, 256, counts),
            key_at(&image, work, counts, 0, &mut []),
            position(&image, work, counts, letters),
            position_text(&image, work, counts, text),
        ];
        assert_eq!(answers, [answered; 15]);
        assert_eq!((&image[..], &*writes), (before, &[7; WRITES]));
        assert_eq!((&*counts, &*work), (&vec![9; nodes][..], &vec![0; nodes][..]));
    }
}

#[test]
fn sixteen_in_every_call_with_the_check() {
    let (g, body, place) = UNREACHED[2];
    let image = abc(g, body);
    in_every_call_with_the_check(&image, refused(16, place));
    assert_eq!(look_up(&image, &[B]), value(0), "look up never gives 16");
    assert_eq!(look_up_text(&image, b"B"), value(0));
}

/// Images whose nodes are all reached, with data outside min 1 and max 3, and the lowest node that
/// has some.
const HIDDEN: [(&str, &str, u32); 6] = [
    // the root alone
    ("00000000", "00000007", 0),
    // the root of P3
    ("00000002", "00010007 02000005 00000009", 0),
    // a chain of 5 nodes: at depth 3 data is in place, at depth 4 it is hidden
    ("00000004", "01000000 02000000 03000000 04000008 00000009", 4),
    // the root and depth 4
    ("00000004", "01000007 02000000 03000000 04000008 00000009", 0),
    // a chain of 6 nodes that falls: node 2 has depth 4, node 1 has depth 5
    ("00000005", "05000000 00000009 01000009 02000000 03000000 04000000", 1),
    // two chains from the root: node 2 has depth 4 in the one, node 5 in the other
    (
        "00000008",
        "01080000 03000000 00000009 04000000 00000200 00000001 00050000 00060000 00070005",
        2,
    ),
];

#[test]
fn nineteen_is_the_lowest_hidden() {
    for (g, body, place) in HIDDEN {
        let nodes = body.split(' ').count();
        let mut work = vec![7; nodes + 1];
        assert_eq!(check(&abc(g, body), &mut work), refused(19, place), "{body}");
        assert_eq!(work, [&vec![0; nodes], &[7][..]].concat());
        let mut too_few = vec![7; nodes - 1];
        assert_eq!(check(&abc(g, body), &mut too_few), refused(5, 0));
        assert_eq!(too_few, vec![7; nodes - 1]);
        // without that data the place is a higher one, or the image is accepted
        let mut image = abc(g, body);
        image[31 + 4 * place as usize + 3] = 0;
        let next = check(&image, &mut work);
        assert!(next == Answer::default() || (next.number == 19 && next.place > place));
    }
}

#[test]
fn nineteen_in_every_call_with_the_check() {
    for (g, body, place) in HIDDEN {
        in_every_call_with_the_check(&abc(g, body), refused(19, place));
    }
    let (g, body, _) = HIDDEN[1];
    assert_eq!(look_up(&abc(g, body), &[B, A]), value(9), "look up never gives 19");
    assert_eq!(look_up_text(&abc(g, body), b"B"), value(5));
    assert_eq!(look_up(&abc(g, body), &[]), refused(9, 0));
}

/// P3 with other lengths of keys.
fn p3_within(min: u8, max: u8) -> Vec<u8> {
    let mut image = p3();
    (image[23], image[27]) = (min, max);
    image
}

#[test]
fn nineteen_by_min_and_max() {
    // P3 has data at depth 1, in node 1, and at depth 2, in node 2
    let hidden = [(0, 0, 1), (0, 1, 2), (1, 1, 2), (2, 2, 1), (2, 64, 1), (3, 3, 1), (64, 64, 1)];
    for (min, max, place) in hidden {
        assert_eq!(check(&p3_within(min, max), &mut [7; 3]), refused(19, place), "{min} {max}");
    }
    for (min, max) in [(0, 2), (1, 2), (0, 3), (1, 3), (1, 64)] {
        assert_eq!(count(&p3_within(min, max), &mut [7; 3]), value(2), "{min} {max}");
    }
    // the root's data is the empty key, where min is 0
    let mut image = p3_within(0, 3);
    image[34] = 7;
    assert_eq!(count(&image, &mut [7; 3]), value(3));
    assert_eq!(look_up(&image, &[]), value(7));
    image[23] = 1;
    assert_eq!(check(&image, &mut [7; 3]), refused(19, 0));
}

/// A chain with one link of three bytes and one byte of data in a node. At one depth the data is
/// 1. If the chain falls, the node after the root has the address G, and the last one has 1.
fn chain(nodes: u32, depth: Option<u32>, falls: bool, (min, max): (u32, u32)) -> Vec<u8> {
    let fields = [nodes - 1, 1, 3, 1, 0, min, max];
    let mut image: Vec<u8> = fields.iter().flat_map(|field| field.to_be_bytes()).collect();
    let address = |depth: u32| if falls && depth > 0 { nodes - depth } else { depth };
    image.resize(28 + 4 * nodes as usize, 0);
    for at in 0..nodes {
        let start = 28 + 4 * address(at) as usize;
        let next = if at + 1 < nodes { address(at + 1) } else { 0 };
        image[start..start + 3].copy_from_slice(&next.to_be_bytes()[1..]);
        image[start + 3] = u8::from(depth == Some(at));
    }
    image
}

#[test]
fn nineteen_in_deep_chains() {
    const NODES: u32 = 70_000;
    let mut work = vec![7; NODES as usize];
    for falls in [false, true] {
        for lengths in [(0, 64), (64, 64), (1, 3), (0, 0)] {
            let empty = chain(NODES, None, falls, lengths);
            assert_eq!(check(&empty, &mut work), Answer::default(), "empty nodes at any depth");
            for depth in [0, 1, 3, 4, 63, 64, 65, 66, 67, 128, 129, 192, 255, 256, 257, 259, 320]
                .into_iter()
                .chain([321, 65_535, 65_536, 65_537, 65_539, 65_600, 65_601, NODES - 1])
            {
                let image = chain(NODES, Some(depth), falls, lengths);
                let place = if falls && depth > 0 { NODES - depth } else { depth };
                let within = lengths.0 <= depth && depth <= lengths.1;
                let expected = if within { Answer::default() } else { refused(19, place) };
                assert_eq!(check(&image, &mut work), expected, "{lengths:?} {depth}");
            }
        }
    }
}

/// P3 with the addresses 1 and 2 exchanged.
fn renumbered_p3() -> Vec<u8> {
    abc("00000002", "00020000 00000009 01000005")
}

#[test]
fn renumbered_answers_as_p3() {
    let image = renumbered_p3();
    assert_eq!(check(&image, &mut [7; 3]), Answer::default());
    assert_eq!(count(&image, &mut [7; 3]), value(2));
    assert_eq!(listing(&image), "entries 2\n1 5\n1.0 9\n");
    let found = |length, value| Answer { length, value, ..Answer::default() };
    let asked: [(&[u8], bool, Answer); 5] = [
        (&[], false, found(1, 5)),
        (&[B], false, found(1, 5)),
        (&[B], true, found(2, 9)),
        (&[A, C, C], true, found(1, 5)),
        (&[B, A], true, refused(15, 0)),
    ];
    for (letters, after, answered) in asked {
        let mut key = [7; 3];
        assert_eq!(next_key(&image, &mut [7; 3], letters, after, &mut key), answered);
        assert_eq!(key, [[7, 7, 7], [B, 7, 7], [B, A, 7]][answered.length as usize]);
    }
    for letters in [&[B][..], &[B, A], &[A], &[C], &[B, B], &[B, A, C], &[], &[3], &[B, A, B, A]] {
        assert_eq!(look_up(&image, letters), look_up(&p3(), letters));
    }
    let mut counts = [9; 4];
    assert_eq!(super::counts(&image, &mut [7; 3], &mut counts), Answer::default());
    assert_eq!(counts, [2, 1, 2, 9], "the counts are by address");
    assert_eq!(position(&image, &mut [7; 3], &counts, &[B, A]), value(1));
}

#[test]
fn renumbered_is_stored_into() {
    let image = with_room(renumbered_p3(), 55);
    let image = store_all_ways(
        &image,
        &[C, C, C],
        b"CCC",
        1,
        listed(5, 1),
        &[(43, 4), (47, 4), (51, 4), (0, 4), (33, 1)],
    );
    assert_eq!(image, abc("00000005", "00020300 00000009 01000005 00000400 00000500 00000001"));
    let image = store_all_ways(&image, &[B, A], b"BA", 0, listed(1, -1), &[(38, 1)]);
    assert_eq!(image, abc("00000005", "00020300 00000000 01000005 00000400 00000500 00000001"));
    assert_eq!((look_up(&image, &[B]), count(&image, &mut [7; 6])), (value(5), value(2)));
}

#[test]
fn look_ups_walk_round_a_cycle() {
    // node 1 links to itself by B
    let image = abc("00000001", "00010000 00010007");
    for letters in [&[B][..], &[B, B], &[B, B, B]] {
        assert_eq!(look_up(&image, letters), value(7));
    }
    assert_eq!(look_up(&image, &[B, B, A]), value(0));
    assert_eq!(look_up_text(&image, b"BBB"), value(7));
    assert_eq!(check(&image, &mut [7; 2]), refused(7, 1));
    // node 2 links to node 1 by B, and above G by C
    let image = abc("00000002", "00010000 00020005 00010306");
    assert_eq!(look_up(&image, &[B, B]), value(6));
    assert_eq!(look_up(&image, &[B, B, B]), value(5));
    assert_eq!(look_up(&image, &[B, B, C]), refused(6, 2));
    assert_eq!(check(&image, &mut [7; 3]), refused(6, 2));
}

/// The node with a link to an address, in an image in which each address stands in one link.
fn parent(image: &[u8], head: &Head, address: u64) -> u64 {
    (0..=u64::from(head.g))
        .find(|node| (0..u64::from(head.n)).any(|l| link(image, head, *node, l) == address))
        .expect("it stands in one link")
}

#[test]
fn from_an_unreached_node_climbing_never_ends() {
    // every image with N = 3 and G = 2, and every one with N = 2 and G = 3
    let mut met = [0; 17];
    for (n, g, links) in [(3, 2, 9), (2, 3, 8)] {
        for index in 0..(g as usize + 1).pow(links) {
            let fields = [g, n, 1, 1, 0, 0, 0];
            let mut image: Vec<u8> = fields.iter().flat_map(|f: &u32| f.to_be_bytes()).collect();
            let mut rest = index;
            for _ in 0..=g {
                for _ in 0..n {
                    image.push((rest % (g as usize + 1)) as u8);
                    rest /= g as usize + 1;
                }
                image.push(0);
            }
            let answered = check(&image, &mut [7; 4]);
            met[answered.number as usize] += 1;
            if matches!(answered.number, 7 | 8) {
                continue;
            }
            let head = Head::read(&image);
            let climbs_on = |node: &u64| {
                (0..=g).try_fold(*node, |at, _| (at > 0).then(|| parent(&image, &head, at)))
            };
            let endless = (0..=u64::from(g)).find(|node| climbs_on(node).is_some());
            let expected = endless.map_or(Answer::default(), |place| refused(16, place as u32));
            assert_eq!(answered, expected, "{image:02X?}");
        }
    }
    // 12 trees of three nodes and 14 of four, with their addresses in every order; and all other
    // ways to put each address into one link
    let (trees, all) = (12 * 2 + 14 * 6, 9 * 8 + 8 * 7 * 6);
    assert_eq!((met[0], met[16], met[6]), (trees, all - trees, 0));
}

#[test]
fn hidden_data_by_climbing() {
    // every tree with N = 3 and G = 2, and every one with N = 2 and G = 3; data in every set of
    // nodes; keys of all lengths up to 4. The depth is the number of steps up to the root
    let (mut accepted, mut hidden) = (0, 0);
    for (n, g) in [(3, 2), (2, 3)] {
        for links in crate::small::trees(n, g) {
            for (set, min, max) in (0..1 << (g + 1)).flat_map(|set| {
                (0..5).flat_map(move |max| (0..=max).map(move |min| (set, min, max)))
            }) {
                let fields = [g as u32, n as u32, 1, 1, 0, min, max];
                let mut image: Vec<u8> = fields.iter().flat_map(|f| f.to_be_bytes()).collect();
                for (node, links) in links.chunks(n).enumerate() {
                    image.extend(links);
                    image.push((set >> node & 1) as u8);
                }
                let head = Head::read(&image);
                let up = |at: &u64| (*at > 0).then(|| parent(&image, &head, *at));
                let depth = |node: u64| std::iter::successors(Some(node), up).count() as u32 - 1;
                let lowest = (0..=g as u64)
                    .filter(|node| set >> node & 1 == 1)
                    .find(|node| depth(*node) < min || depth(*node) > max);
                let expected = lowest.map_or(Answer::default(), |node| refused(19, node as u32));
                assert_eq!(check(&image, &mut [7; 4]), expected, "{image:02X?}");
                match expected.number {
                    0 => {
                        accepted += 1;
                        let with_data = u64::from((set as u32).count_ones());
                        assert_eq!(count(&image, &mut [7; 4]), value(with_data));
                    }
                    _ => hidden += 1,
                }
            }
        }
    }
    assert_eq!(accepted + hidden, 15 * (12 * 2 * 8 + 14 * 6 * 16));
    assert!(accepted > 2_000 && hidden > 10_000, "{accepted} {hidden}");
}

#[test]
fn listing_of_the_small_file() {
    assert_eq!(listing(&p3()), "entries 2\n1 5\n1.0 9\n");
    assert_eq!(listing(&abc("00000001", "00010100 00000000")), "refused 7 at 1\n");
    assert_eq!(listing(&abc(UNREACHED[0].0, UNREACHED[0].1)), "refused 16 at 1\n");
    assert_eq!(listing(&abc(HIDDEN[2].0, HIDDEN[2].1)), "refused 19 at 4\n");
    assert_eq!(
        listing(&hex("00000000 00000001 00000001 00000001 00000000 00000000 00000000 0007")),
        "entries 1\n- 7\n"
    );
    assert_eq!(listing(&[]), "refused 1 at 0\n");
    assert_eq!(listing(&with_room(p3(), LONGEST_INPUT)), "entries 2\n1 5\n1.0 9\n");
    assert_eq!(listing(&with_room(p3(), LONGEST_INPUT + 1)), "refused 1 at 0\n");
}

/// Keys of 1 to 4 letters A, B and C, some of them more than once.
fn some_keys(many: usize) -> Vec<Vec<u8>> {
    let mut seed = 1u32;
    let mut key = || {
        seed = seed.wrapping_mul(1_664_525).wrapping_add(1_013_904_223);
        let length = 1 + (seed >> 10) as usize % 4;
        (0..length).map(|i| ((seed >> (12 + 2 * i)) % 3) as u8).collect()
    };
    (0..many).map(|_| key()).collect()
}

#[test]
fn changes_add_up_to_the_number_of_keys() {
    let mut image = vec![0xEE; 5_000];
    make(&mut image, 3, 2, 2, b"ABC", 1, 4);
    let mut sum = 0;
    for (i, letters) in some_keys(500).iter().enumerate() {
        sum += store(&mut image, &mut [7; 400], letters, i as u64 * 7 / 3 % 3).change;
        assert_eq!(count(&image, &mut [7; 400]).value, sum as u64);
    }
    assert!(sum > 20);
}

#[test]
fn stores_hide_nothing_and_deletes_prune_nothing() {
    let mut image = vec![0xEE; 5_000];
    make(&mut image, 3, 2, 2, b"ABC", 2, 3);
    let mut refusals = 0;
    for (i, letters) in some_keys(500).iter().enumerate() {
        let before = Head::read(&image).g;
        let stored = store(&mut image, &mut [7; 400], letters, i as u64 * 7 / 3 % 3);
        refusals += u64::from(stored.number == 9);
        assert!(Head::read(&image).g >= before, "a store of 0 leaves the nodes");
        assert_eq!(check(&image, &mut [7; 400]), Answer::default());
        let head = Head::read(&image);
        let with_data = (0..=u64::from(head.g)).filter(|node| data(&image, &head, *node) > 0);
        assert_eq!(count(&image, &mut [7; 400]), value(with_data.count() as u64));
    }
    assert!(refusals > 100 && count(&image, &mut [7; 400]).value > 5);
}

/// Compares well-formedness with Rust's own, which was not written from 01's table.
fn held_to_rust(bytes: &[u8]) {
    let ours = characters(bytes).map(|found| found.len());
    let theirs = std::str::from_utf8(bytes).ok().map(|text| text.chars().count());
    assert_eq!(ours, theirs, "{bytes:02X?}");
}

#[test]
fn utf8_of_one_two_and_three_bytes() {
    for first in 0..=255 {
        held_to_rust(&[first]);
        for second in 0..=255 {
            held_to_rust(&[first, second]);
            for third in 0..=255 {
                held_to_rust(&[first, second, third]);
            }
        }
    }
}

#[test]
fn utf8_of_four_bytes() {
    let bounds = [
        0x00, 0x7F, 0x80, 0x81, 0x8F, 0x90, 0x91, 0x9F, 0xA0, 0xBE, 0xBF, 0xC0, 0xC2, 0xE0, 0xF0,
        0xFF,
    ];
    for first in 0..=255 {
        for second in 0..=255 {
            for third in bounds {
                for fourth in bounds {
                    held_to_rust(&[first, second, third, fourth]);
                }
            }
        }
    }
}

#[test]
fn utf8_table_by_hand() {
    let good: [&[u8]; 9] = [
        &[0x00],
        &[0x7F],
        &[0xC2, 0x80],
        &[0xDF, 0xBF],
        &[0xE0, 0xA0, 0x80],
        &[0xED, 0x9F, 0xBF],
        &[0xEE, 0x80, 0x80],
        &[0xF0, 0x90, 0x80, 0x80],
        &[0xF4, 0x8F, 0xBF, 0xBF],
    ];
    for bytes in good {
        assert_eq!(character_length(bytes), Some(bytes.len()), "{bytes:02X?}");
    }
    let bad: [&[u8]; 10] = [
        &[0x80],
        &[0xC0, 0x80],
        &[0xC1, 0xBF],
        &[0xC2],
        &[0xE0, 0x9F, 0xBF],
        &[0xED, 0xA0, 0x80],
        &[0xEF, 0xBF],
        &[0xF0, 0x8F, 0xBF, 0xBF],
        &[0xF4, 0x90, 0x80, 0x80],
        &[0xF5, 0x80, 0x80, 0x80],
    ];
    for bytes in bad {
        assert_eq!(character_length(bytes), None, "{bytes:02X?}");
    }
}
