//! Every cut of a list of writes, in memory. After mending, the answers are those from after the
//! store if the last write landed, else those from before it.

use trieff::{
    check, count, keys, look_up, make, mend, store_text_writes, store_writes, Refusal, Shape,
    Stored, Writes,
};

const NODES: usize = 20;
/// The keys of the stores, each with the number of writes in its list. Every shape stores under
/// them, with values of its own.
const KEYS: [(&[u8], usize); 9] = [
    (&[1, 0], 4),
    (&[1], 1),
    (&[2, 2, 2], 5),
    (&[1, 0], 1),
    (&[1, 0], 1),
    (&[0, 0, 0], 0),
    (&[], 1),
    (&[2, 2, 1], 3),
    (&[0, 1, 2], 5),
];

/// What an image answers: the keys of the listing. The count must be their number, and each key's
/// lookup must give its value. There are no more keys than nodes.
fn answers(image: &[u8]) -> Vec<Stored> {
    let mut work = [0; NODES];
    let all: Vec<Stored> =
        keys(image, &mut work).take(NODES + 1).collect::<Result<_, _>>().unwrap();
    for stored in &all {
        assert_eq!(look_up(image, stored.letters()), Ok(Some(stored.value())));
    }
    assert_eq!(count(image, &mut work), Ok(all.len() as u64));
    all
}

/// Stores the values one after the other, and cuts each store at each of its writes.
fn every_cut(shape: Shape, alphabet: &[u8], values: [u64; 9]) {
    // spare bytes may hold anything
    let room = shape.length(NODES, alphabet.len());
    let mut image: Vec<u8> = (0..room).map(|i| (i * 37 % 251) as u8).collect();
    let mut work = [0; NODES];
    let mut writes = Writes::new();
    make(&mut image, shape, alphabet).unwrap();
    for ((letters, count), value) in KEYS.into_iter().zip(values) {
        let before = image.clone();
        store_writes(&mut image, &mut work, letters, value, &mut writes).unwrap();
        let list: Vec<_> = writes.iter().collect();
        assert_eq!(list.len(), count);
        for cut in 0..=list.len() {
            let mut kept = before.clone();
            for write in &list[..cut] {
                kept[write.clone()].copy_from_slice(&image[write.clone()]);
            }
            // of the write that is hit, if it is a node's, some bytes land: four choices
            for lot in 0..4 {
                let mut torn = kept.clone();
                if cut + 2 < list.len() {
                    for i in list[cut].clone().filter(|i| i * 7 / 4 % 4 == lot) {
                        torn[i] = image[i];
                    }
                }
                let hit = torn.clone();
                assert_eq!(mend(&mut torn, &mut work), Ok(()));
                assert_eq!(torn[4..], hit[4..]);
                assert_eq!(check(&torn, &mut work), Ok(()));
                assert_eq!(
                    answers(&torn),
                    answers(if cut == list.len() { &image } else { &before })
                );
            }
            if cut == list.len() {
                assert_eq!(kept, image);
            }
        }
        // G, the link, the data field: each inside a sector of eight bytes
        let fields = &list[list.len().saturating_sub(2)..];
        let inside = fields.iter().all(|write| write.start / 8 == (write.end - 1) / 8);
        assert!(inside || !shape.fields_whole(alphabet.len()));
    }
}

#[test]
fn after_any_cut_the_store_is_whole_or_has_not_been() {
    const SHAPE: Shape = Shape { n: 3, a: 2, d: 3, min: 0, max: 3 };
    every_cut(SHAPE, b"", [9, 5, 70_000, 9, 0, 0, 3, 1, 2]);
}

/// The same with data of eight bytes: the greatest value, and values whose low 32 bits are 0.
#[test]
fn after_any_cut_eight_bytes_are_whole_or_have_not_been() {
    const EIGHT: Shape = Shape { n: 4, a: 2, d: 8, min: 0, max: 3 };
    const _: () = assert!(EIGHT.fields_whole(4));
    let (most, low) = (u64::MAX, 1 << 32);
    every_cut(EIGHT, b"ABC-", [most, low, most - low + 1, low, 0, 0, 1 << 63, most - 1, most]);
}

/// Also in an image that another tool has renumbered, a cut leaves an accepted image, or 8 at the
/// old G+1 where G landed and the link did not.
#[test]
fn a_cut_in_a_renumbered_image() {
    const USED: &[u8] = include_bytes!("../../samples/renumbered.trieff");
    let mut image = [USED, &[0xA5; 52 * 20]].concat();
    let before = image.clone();
    let mut work = [0; 700];
    let mut writes = Writes::new();
    store_text_writes(&mut image, &mut work, b"E01-100-1", 2400, &mut writes).unwrap();
    assert_eq!(writes.len(), 11);
    for cut in 0..=11 {
        let mut kept = before.clone();
        for write in writes.iter().take(cut) {
            kept[write.clone()].copy_from_slice(&image[write]);
        }
        let heard = if cut == 10 { Err(Refusal::NotLinked(659)) } else { Ok(()) };
        assert_eq!(check(&kept, &mut work), heard);
        assert_eq!(mend(&mut kept, &mut work), Ok(()));
        match cut {
            11 => assert_eq!(kept, image),
            _ => assert_eq!(kept[..USED.len()], *USED),
        }
    }
}

/// Mending leaves hidden data, and an 8 where a lower G would leave hidden data. What the lower G
/// cuts off may hold any data, since it becomes spare bytes.
#[test]
fn hidden_data_is_not_mended() {
    const ABC: Shape = Shape { n: 3, a: 1, d: 1, min: 1, max: 2 };
    let mut work = [0; 4];
    for (g, nodes, heard, lowered) in [
        (0, [[0, 0, 0, 4], [0; 4], [0; 4], [0; 4]], Err(Refusal::Hidden(0)), 0),
        (1, [[0, 0, 0, 4], [0; 4], [0; 4], [0; 4]], Err(Refusal::NotLinked(1)), 1),
        (1, [[0; 4], [0, 0, 0, 4], [0; 4], [0; 4]], Ok(()), 0),
        // a chain of four nodes, with data at depth 3; then without its last link
        (3, [[1, 0, 0, 0], [2, 0, 0, 0], [3, 0, 0, 4], [0, 0, 0, 5]], Err(Refusal::Hidden(3)), 3),
        (3, [[1, 0, 0, 0], [2, 0, 0, 0], [0, 0, 0, 4], [0, 0, 0, 5]], Ok(()), 2),
        // the chain 0, 3, 2, 1: the deepest node has the lowest address
        (3, [[3, 0, 0, 0], [0, 0, 0, 4], [1, 0, 0, 0], [2, 0, 0, 5]], Err(Refusal::Hidden(1)), 3),
    ] {
        let mut image = [0; ABC.length(4, 3)];
        make(&mut image, ABC, b"ABC").unwrap();
        image[3] = g;
        image[31..].copy_from_slice(&nodes.concat());
        let before = image;
        assert_eq!(mend(&mut image, &mut work), heard);
        assert_eq!((image[3], &image[4..]), (lowered, &before[4..]));
    }
}

#[test]
fn the_longest_list_and_a_list_in_words() {
    const DEEP: Shape = Shape { n: 1, a: 1, d: 1, min: 0, max: 64 };
    let mut image = [0; DEEP.length(65, 0)];
    let mut writes = Writes::default();
    make(&mut image, DEEP, b"").unwrap();
    store_writes(&mut image, &mut [0; 65], &[0; 64], 1, &mut writes).unwrap();
    assert_eq!((writes.len(), writes.iter().len()), (trieff::WRITES_MOST, 66));
    assert_eq!(writes.iter().next_back(), Some(28..29));
    store_writes(&mut image, &mut [0; 65], &[], 1, &mut writes).unwrap();
    assert_eq!(format!("{writes:?}"), "[29..30]");
}
