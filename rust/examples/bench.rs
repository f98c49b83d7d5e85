//! What a bench's firmware does with the library, in short. It stores, finds, lists and deletes
//! labels. It meets refusals: wrong labels, too little memory, damaged images. It mends an image
//! after a cut, and finds a label by its position, also in a file that another tool has
//! renumbered. It takes over a file with data of four bytes into one with data of eight. It
//! refuses a file with records that no lookup finds. rust/examples/bench.txt holds what it must
//! print.
//!
//! ```sh
//! cargo run --manifest-path rust/Cargo.toml --example bench
//! ```

use trieff::{
    check, count, keys, look_up_text, make, mend, store_text, store_text_writes, Counts, Refusal,
    Shape, Writes,
};

/// A record number begins with the year and the bench, as in 2026 04 000002402. It does not fit
/// four bytes, so D is 8. With 20 letters no field lies across the end of a sector.
const ALPHABET: &[u8] = b"0123456789ABCDEFGHI-";
const SHAPE: Shape = Shape { n: 20, a: 2, d: 8, min: 1, max: 12 };
const _: () = assert!(SHAPE.fields_whole(ALPHABET.len()));
const NODES: usize = 30;
/// A season's labels in a file from before, with data of four bytes and an alphabet of its own.
/// `jump` adds room for more nodes.
const SEASON: &[u8] = include_bytes!("../../samples/season.trieff");
const SEASON_ALPHABET: &[u8] = b"0123456789ABCDE-";
const SEASON_SHAPE: Shape = Shape { n: 16, a: 3, d: 4, min: 1, max: 12 };
/// The same labels. Many a node has a lower address than its parent.
const RENUMBERED: &[u8] = include_bytes!("../../samples/renumbered.trieff");
/// The same labels, with min = 9, and two records at nodes of fewer letters.
const HIDDEN: &[u8] = include_bytes!("../../samples/hidden.trieff");
const SEASON_NODES: usize = 700;

/// What the bench does after a refusal. The match names all refusals, so the program does not
/// compile until a new one has its line here.
fn advice(refusal: Refusal) -> &'static str {
    match refusal {
        Refusal::KeyLength | Refusal::Letter => "tap again",
        Refusal::ValueTooGreat => "tap again, or begin an image with a greater D",
        Refusal::NoAddress | Refusal::NoRoom => "begin a greater image",
        Refusal::TooFewNumbers | Refusal::ShortBuffer => "lend more memory",
        Refusal::NoKey => "end of the list",
        Refusal::ImageLength | Refusal::HeadField | Refusal::Alphabet | Refusal::ImageRoom => {
            "load the copy"
        }
        Refusal::NotLinked(_) => "mend it, or load the copy",
        Refusal::Link(_) | Refusal::LinkedTwice(_) | Refusal::NotReached(_) => "load the copy",
        Refusal::Hidden(_) => "load the copy, or have the file repaired",
        Refusal::CountsDiffer(_) => "work the counts out afresh",
        Refusal::Unknown { .. } => "call the maker",
    }
}

fn show<T: std::fmt::Debug>(asked: &str, heard: Result<T, Refusal>) {
    match heard {
        Ok(answer) => println!("{asked}: {answer:?}"),
        Err(refusal) => println!("{asked}: {}; {refusal}", advice(refusal)),
    }
}

/// A key's letters as the label that the worker taps in.
fn label(alphabet: &[u8], letters: &[u8]) -> String {
    letters.iter().map(|&letter| alphabet[letter as usize] as char).collect()
}

/// Every label in order.
fn list(image: &[u8], work: &mut [u32]) -> Result<(), Refusal> {
    println!("labels: {}", count(image, work)?);
    for stored in keys(image, work) {
        let stored = stored?;
        println!("{} {}", label(ALPHABET, stored.letters()), stored.value());
    }
    Ok(())
}

/// Stores a label in memory and carries out the first `cut` writes on the kept image. Then the
/// power is cut.
fn cut_off(image: &[u8], label: &str, record: u64, cut: usize) -> Result<(), Refusal> {
    let (mut memory, mut kept) = (image.to_vec(), image.to_vec());
    let mut work = [0; NODES];
    let mut writes = Writes::new();
    store_text_writes(&mut memory, &mut work, label.as_bytes(), record, &mut writes)?;
    for write in writes.iter().take(cut) {
        kept[write.clone()].copy_from_slice(&memory[write]);
    }
    println!("{label}, cut after {cut} of {} writes", writes.len());
    show("check", check(&kept, &mut work));
    show("mend", mend(&mut kept, &mut work));
    show(&format!("look up {label}"), look_up_text(&kept, label.as_bytes()));
    Ok(())
}

/// Finds labels of a season by position. The counts are worked out once, and a store with counts
/// keeps them right. A store without counts does not, so they are worked out afresh after it.
fn jump(season: &[u8]) -> Result<(), Refusal> {
    let mut image = season.to_vec();
    image.resize(SEASON_SHAPE.length(SEASON_NODES, SEASON_ALPHABET.len()), 0);
    let (mut work, mut numbers) = ([0; SEASON_NODES], [0; SEASON_NODES]);
    let mut counts = Counts::new(&mut numbers);
    counts.work_out(&image, &mut work)?;
    let mut key = [0; 12];
    let found = counts.nth(&image, &mut work, 199, &mut key)?;
    let name = label(SEASON_ALPHABET, &key[..found.length]);
    println!("label 200 of {}: {name} {}", counts.numbers()[0], found.value);
    let asked = format!("position of {name}");
    show(&asked, counts.position_text(&image, &mut work, name.as_bytes()));
    show("store A01-100-1", counts.store_text(&mut image, &mut work, b"A01-100-1", 2400));
    show(&asked, counts.position_text(&image, &mut work, name.as_bytes()));
    show("delete without counts", store_text(&mut image, &mut work, b"A01-100-1", 0));
    show(&asked, counts.position_text(&image, &mut work, name.as_bytes()));
    show("work out", counts.work_out(&image, &mut work));
    show(&asked, counts.position_text(&image, &mut work, name.as_bytes()));
    show("label 395", counts.nth(&image, &mut work, 394, &mut key));
    Ok(())
}

/// Takes the season over into a file with data of eight bytes. D cannot be changed in a file. So
/// a fresh image is made, and each label of the listing is stored in it anew, as text: the letters
/// have other numbers there.
fn widen(season: &[u8]) -> Result<(), Refusal> {
    let record = 202604000002400;
    let (mut old, mut wide) =
        (season.to_vec(), vec![0; SHAPE.length(SEASON_NODES, ALPHABET.len())]);
    let (mut work, mut numbers) = ([0; SEASON_NODES], [0; SEASON_NODES]);
    show("store in the season", store_text(&mut old, &mut work, b"A01-101-1", record));
    make(&mut wide, SHAPE, ALPHABET)?;
    for stored in keys(season, &mut numbers) {
        let stored = stored?;
        let name = label(SEASON_ALPHABET, stored.letters());
        store_text(&mut wide, &mut work, name.as_bytes(), stored.value())?;
    }
    let labels = (count(season, &mut work)?, count(&wide, &mut work)?);
    println!("labels in the season and in the wider file: {labels:?}");
    show("look up B03-145-1", look_up_text(&wide, b"B03-145-1"));
    show("store in the wider file", store_text(&mut wide, &mut work, b"A01-101-1", record));
    show("look up A01-101-1", look_up_text(&wide, b"A01-101-1"));
    Ok(())
}

/// What the bench does with a file that came in: it goes by it only if the check accepts it. This
/// one is refused for a record under a context, though a lookup of a bucket's label finds its own.
fn came_in(file: &[u8]) {
    let mut image = file.to_vec();
    let mut work = [0; SEASON_NODES];
    show("check the file with hidden records", check(&image, &mut work));
    show("mend", mend(&mut image, &mut work));
    show("count", count(&image, &mut work));
    show("look up B03-145", look_up_text(&image, b"B03-145"));
    show("look up B03-145-1", look_up_text(&image, b"B03-145-1"));
}

fn main() {
    let mut image = [0; SHAPE.length(NODES, ALPHABET.len())];
    let mut work = [0; NODES];
    show("make", make(&mut image, SHAPE, ALPHABET));
    for (label, record) in [
        ("B04-117-2", 202604000002402),
        ("B04-117-1", 202604000002401),
        ("A01-101-1", 202604000002400),
        ("B04-117-2", 202604000002409),
    ] {
        show(
            &format!("store {label} = {record}"),
            store_text(&mut image, &mut work, label.as_bytes(), record),
        );
    }
    show("look up B04-117-2", look_up_text(&image, b"B04-117-2"));
    show("look up B04-117-3", look_up_text(&image, b"B04-117-3"));
    show("list", list(&image, &mut work));
    show("delete B04-117-1", store_text(&mut image, &mut work, b"B04-117-1", 0));
    show("list", list(&image, &mut work));
    for cut in 1..=3 {
        show("cut", cut_off(&image, "B04-118", 202604000002412, cut));
    }
    show("jump", jump(SEASON));
    show("jump in the renumbered season", jump(RENUMBERED));
    show("widen", widen(SEASON));
    came_in(HIDDEN);

    show("look up B04/117", look_up_text(&image, b"B04/117"));
    show("look up 13 letters", look_up_text(&image, b"0123456789ABC"));
    let record = 202604000002410;
    show("store C02-140-12", store_text(&mut image, &mut work, b"C02-140-12", record));
    show("store C02-140-123", store_text(&mut image, &mut work, b"C02-140-123", record + 1));
    show("check, 19 working numbers", check(&image, &mut work[..19]));
    show("check, cut off", check(&image[..100], &mut work));
    image[SHAPE.length(5, ALPHABET.len()) + 1] = 200;
    show("check, a link torn in node 5", check(&image, &mut work));

    // BA = 9, then the root's link to node 1 moves to node 2: the two link to each other
    let mut small = [0; 43];
    show("make ABC", make(&mut small, Shape { n: 3, a: 1, d: 1, min: 1, max: 3 }, b"ABC"));
    show("store BA = 9", store_text(&mut small, &mut work, b"BA", 9));
    (small[32], small[39]) = (0, 1);
    show("check, a cycle", check(&small, &mut work));
    show("mend", mend(&mut small, &mut work));

    // the links as before, and data at the root, though the shortest key has one letter
    (small[32], small[39], small[34]) = (1, 0, 4);
    show("check, data at the root", check(&small, &mut work));
    show("mend", mend(&mut small, &mut work));
}
