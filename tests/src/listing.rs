//! Runs the listing program as a child process and compares its output with the lines that
//! document 01 asks for: first in cases whose lines are written out by hand, then on random
//! images, with the model's listing.

use crate::damage::damage;
use crate::model::{self, write_number, Head, LISTING_WORK, LONGEST_INPUT};
use crate::renumbering::{self, renumbered, rises};
use crate::report;
use crate::rng::Rng;
use crate::shapes::Shape;
use std::fs::File;
use std::io::Write;
use std::path::Path;
use std::process::{Child, Command, Output, Stdio};
use std::time::Duration;

const PROGRAM: &str = "target/bin/list";
const RANDOM: u64 = 600;

#[derive(Default)]
pub struct Listed {
    pub tried: u64,
    pub failed: usize,
}

fn start(input: Stdio) -> Result<Child, String> {
    let started = Command::new(PROGRAM).stdin(input).stdout(Stdio::piped()).spawn();
    started.map_err(|error| format!("{PROGRAM} does not start: {error}"))
}

/// What the program writes for a file.
fn written_of_file(path: &Path) -> Result<Vec<u8>, String> {
    let file = File::open(path).map_err(|error| error.to_string())?;
    lines_of(start(Stdio::from(file))?.wait_with_output())
}

/// What the program writes for an input that comes in pieces, with a pause between them.
fn written(pieces: &[&[u8]]) -> Result<Vec<u8>, String> {
    let mut child = start(Stdio::piped())?;
    let mut input = child.stdin.take().expect("it is piped");
    let output = std::thread::scope(|scope| {
        scope.spawn(move || {
            for (i, piece) in pieces.iter().enumerate() {
                if i > 0 {
                    std::thread::sleep(Duration::from_millis(100));
                }
                // the program may stop reading after 65,537 bytes
                if input.write_all(piece).is_err() {
                    return;
                }
            }
        });
        child.wait_with_output()
    });
    lines_of(output)
}

fn lines_of(output: std::io::Result<Output>) -> Result<Vec<u8>, String> {
    let output = output.map_err(|error| error.to_string())?;
    // 01 names no exit status, so any is good; a program that was killed has none
    match output.status.code() {
        Some(_) => Ok(output.stdout),
        None => Err(format!("{PROGRAM} was killed: {}", output.status)),
    }
}

impl Listed {
    fn hold(&mut self, name: &str, pieces: &[&[u8]], expected: &str) {
        self.compare(name, written(pieces), expected);
    }

    fn compare(&mut self, name: &str, written: Result<Vec<u8>, String>, expected: &str) {
        self.tried += 1;
        let fault = match written {
            Ok(lines) if lines == expected.as_bytes() => return,
            Ok(lines) => {
                let at = lines
                    .iter()
                    .zip(expected.as_bytes())
                    .take_while(|(its, ours)| its == ours)
                    .count();
                let around = |bytes: &[u8]| {
                    String::from_utf8_lossy(
                        &bytes[at.saturating_sub(60)..bytes.len().min(at + 60)],
                    )
                    .into_owned()
                };
                format!(
                    "byte {at} differs\n  expected there: {:?}\n  written there: {:?}",
                    around(expected.as_bytes()),
                    around(&lines)
                )
            }
            Err(fault) => fault,
        };
        self.failed += 1;
        println!("FAILED: listing: {name}: {fault}");
    }

    /// A case whose lines are written out by hand. The model's listing is compared with them too.
    fn case(&mut self, name: &str, image: &[u8], expected: &str) {
        self.hold(name, &[image], expected);
        if model::listing(image) != expected {
            self.failed += 1;
            println!("FAILED: listing: {name}: the model does not list what is expected");
        }
    }

    /// A sample of the repository, with the text file beside it.
    fn sample(&mut self, name: &str) {
        let path = |ending: &str| Path::new("samples").join(name).with_extension(ending);
        match (std::fs::read(path("trieff")), std::fs::read_to_string(path("txt"))) {
            (Ok(image), Ok(text)) => {
                self.case(name, &image, &text);
                self.compare(
                    &format!("{name} from its file"),
                    written_of_file(&path("trieff")),
                    &text,
                );
                let parts = (11.min(image.len()), 5_011.min(image.len()));
                self.hold(
                    &format!("{name} in pieces"),
                    &[&image[..parts.0], &image[parts.0..parts.1], &image[parts.1..]],
                    &text,
                );
            }
            _ => {
                self.failed += 1;
                println!("FAILED: listing: samples/{name}.trieff and .txt cannot be read");
            }
        }
    }
}

// ---- images of the cases by hand ----

fn with_head(fields: [u32; 7], rest: &[u8]) -> Vec<u8> {
    let mut image: Vec<u8> = fields.iter().flat_map(|field| field.to_be_bytes()).collect();
    image.extend(rest);
    image
}

/// The small file of 01's cases.
fn abc(g: u32, body: &[u8]) -> Vec<u8> {
    with_head([g, 3, 1, 1, 3, 1, 3], &[b"ABC", body].concat())
}

const P3_BODY: [u8; 12] = [0, 1, 0, 0, 2, 0, 0, 5, 0, 0, 0, 9];
const P3_LINES: &str = "entries 2\n1 5\n1.0 9\n";

/// P3 with rubbish after it, `length` bytes in all.
fn p3_of(length: usize) -> Vec<u8> {
    let mut image = abc(2, &P3_BODY);
    image.resize(length, 0xFF);
    image
}

/// The image with its nodes 1 to G in reverse.
fn reversed(image: &[u8]) -> Vec<u8> {
    let g = u64::from(Head::read(image).g);
    renumbered(image, &[vec![0], (1..=g).rev().collect()].concat())
}

/// The chain below without the root's link: its last node links to its first.
fn ring(g: u32) -> Vec<u8> {
    let mut image = chain(g, 2);
    let last = image.len() - 3;
    image[28..30].fill(0);
    image[last..last + 2].copy_from_slice(&[0, 1]);
    image
}

/// A chain of nodes with one link of `a` bytes and one byte of data. It is 1 where a key may end,
/// at depths 0 to 3.
fn chain(g: u32, a: usize) -> Vec<u8> {
    let node = |address: u32| {
        let next = if address < g { address + 1 } else { 0 };
        [&next.to_be_bytes()[4 - a..], &[u8::from(address < 4)]].concat()
    };
    with_head([g, 1, a as u32, 1, 0, 0, 3], &(0..=g).flat_map(node).collect::<Vec<u8>>())
}

/// 65 nodes in a chain by letter 230, so keys of up to 64 letters with three digits each. Their
/// values are the greatest of D bytes, with this number of digits. Then one node more, which is
/// deeper than any key and holds `data` in each byte.
fn deep(d: usize, value: &str, data: u8) -> (Vec<u8>, String) {
    let mut body = Vec::new();
    for node in 0..=65u8 {
        let mut links = [0; 256];
        links[230] = if node < 65 { node + 1 } else { 0 };
        body.extend(links);
        body.extend(vec![if node < 65 { 255 } else { data }; d]);
    }
    let mut lines = format!("entries 65\n- {value}\n");
    for length in 1..=64 {
        lines += &format!("{} {value}\n", vec!["230"; length].join("."));
    }
    (with_head([65, 256, 1, d as u32, 0, 0, 64], &body), lines)
}

/// The full tree of two letters with 8,191 nodes. Node q has the data q + 1; the root, which is
/// shorter than min, has none.
fn full_tree() -> (Vec<u8>, String) {
    let mut body = Vec::new();
    for node in 0..=8_190u16 {
        let (left, right) = if node < 4_095 { (2 * node + 1, 2 * node + 2) } else { (0, 0) };
        let data = if node > 0 { node + 1 } else { 0 };
        [left, right, data].iter().for_each(|number| body.extend(number.to_be_bytes()));
    }
    fn below(node: u32, key: &str, lines: &mut String) {
        if !key.is_empty() {
            *lines += &format!("{key} {}\n", node + 1);
        }
        if node < 4_095 {
            for letter in 0..2 {
                let longer =
                    if key.is_empty() { letter.to_string() } else { format!("{key}.{letter}") };
                below(2 * node + 1 + letter, &longer, lines);
            }
        }
    }
    let mut lines = "entries 8190\n".to_string();
    below(0, "", &mut lines);
    (with_head([8_190, 2, 2, 2, 0, 1, 12], &body), lines)
}

fn small_cases(listed: &mut Listed) {
    listed.case("P1", &abc(0, &[0; 4]), "entries 0\n");
    listed.case("P3", &abc(2, &P3_BODY), P3_LINES);
    listed.case("P8", &abc(1, &[0, 1, 1, 0, 0, 0, 0, 0]), "refused 7 at 1\n");
    listed.case("P9", &abc(1, &[0, 2, 0, 0, 0, 0, 0, 0]), "refused 6 at 0\n");
    listed.case("P10", &abc(1, &[0; 8]), "refused 8 at 1\n");
    listed.case("P11", &abc(1, &[0, 1, 0, 0, 0, 1, 0, 0]), "refused 7 at 1\n");
    listed.case("a cycle", &abc(2, &[0, 0, 0, 0, 2, 0, 0, 0, 1, 0, 0, 0]), "refused 16 at 1\n");
    listed.case(
        "a node under a cycle",
        &abc(4, &[0, 0, 2, 7, 0, 0, 0, 1, 0, 0, 0, 9, 0, 1, 4, 0, 0, 3, 0, 0]),
        "refused 16 at 1\n",
    );
    listed.case(
        "a cycle above a reached node",
        &abc(3, &[2, 0, 0, 0, 0, 0, 3, 0, 0, 0, 0, 9, 1, 0, 0, 0]),
        "refused 16 at 1\n",
    );
    listed.case(
        "a node that links to itself",
        &abc(2, &[1, 0, 0, 0, 0, 0, 0, 1, 0, 0, 2, 0]),
        "refused 16 at 2\n",
    );
    listed.case("P3 renumbered", &abc(2, &[0, 2, 0, 0, 0, 0, 0, 9, 1, 0, 0, 5]), P3_LINES);
    listed.case("P3 renumbered by rule", &reversed(&p3_of(47)), P3_LINES);
    listed.case("G = FFFFFFFF", &abc(u32::MAX, &[0; 4]), "refused 4 at 0\n");
    listed.case("one node cut off", &abc(1, &[0; 4]), "refused 4 at 0\n");
    listed.case("spare bytes", &p3_of(47), P3_LINES);
    listed.case("nothing at all", &[], "refused 1 at 0\n");
    listed.case("27 bytes", &p3_of(43)[..27], "refused 1 at 0\n");
    listed.case("28 bytes", &p3_of(43)[..28], "refused 4 at 0\n");
    listed.case("N = 257", &with_head([0, 257, 1, 1, 0, 0, 0], &[0; 300]), "refused 2 at 0\n");
    listed.case(
        "alphabet C0 80",
        &with_head([0, 1, 1, 1, 2, 0, 0], &[0xC0, 0x80, 0, 0]),
        "refused 3 at 0\n",
    );
    listed.case(
        "the empty key",
        &with_head([0, 1, 1, 4, 0, 0, 0], &[0, 255, 255, 255, 255]),
        "entries 1\n- 4294967295\n",
    );
    listed.case(
        "data shorter than min",
        &with_head([1, 2, 1, 1, 0, 1, 1], &[1, 0, 7, 0, 0, 0]),
        "refused 19 at 0\n",
    );
    listed.case(
        "empty nodes shorter than min",
        &with_head([2, 2, 1, 1, 0, 2, 2], &[1, 0, 0, 0, 2, 0, 0, 0, 9]),
        "entries 1\n0.1 9\n",
    );
    listed.case(
        "data shorter than min, not at the root",
        &with_head([2, 2, 1, 1, 0, 2, 2], &[1, 0, 0, 0, 2, 5, 0, 0, 9]),
        "refused 19 at 1\n",
    );
    listed.case(
        "data deeper than max",
        &with_head([2, 2, 1, 1, 0, 0, 1], &[1, 0, 7, 0, 2, 5, 0, 0, 9]),
        "refused 19 at 2\n",
    );
    listed.case(
        "an empty node deeper than max",
        &with_head([2, 2, 1, 1, 0, 0, 1], &[1, 0, 7, 0, 2, 5, 0, 0, 0]),
        "entries 2\n- 7\n0 5\n",
    );
    listed.case(
        "the lowest hidden node is the deepest",
        &with_head([3, 1, 1, 1, 0, 0, 1], &[3, 7, 0, 9, 1, 9, 2, 5]),
        "refused 19 at 1\n",
    );
    listed.case(
        "a cycle beside hidden data",
        &abc(2, &[0, 0, 0, 7, 2, 0, 0, 0, 1, 0, 0, 0]),
        "refused 16 at 1\n",
    );
    let mut last_letter = vec![0; 2 * 257];
    last_letter[255..257].copy_from_slice(&[1, 7]);
    last_letter[513] = 9;
    listed.case(
        "the last letter",
        &with_head([1, 256, 1, 1, 0, 0, 1], &last_letter),
        "entries 2\n- 7\n255 9\n",
    );
}

/// Values at their limits: of each D, of 32 and of 64 bits, of the number of digits, which is 1 to
/// 20. Data with a single 1 in each of its bytes. And D outside its limits.
fn values(listed: &mut Listed) {
    const TEN_19: u64 = 10_000_000_000_000_000_000;
    let of_eight = [
        (1, "1"),
        (9, "9"),
        (10, "10"),
        (4_294_967_295, "4294967295"),
        (4_294_967_296, "4294967296"),
        (4_294_967_297, "4294967297"),
        (9_999_999_999, "9999999999"),
        (10_000_000_000, "10000000000"),
        (1_099_511_627_776, "1099511627776"),
        (72_057_594_037_927_936, "72057594037927936"),
        (9_007_199_254_740_993, "9007199254740993"),
        (999_999_999_999_999_999, "999999999999999999"),
        (1_000_000_000_000_000_000, "1000000000000000000"),
        (9_223_372_036_854_775_807, "9223372036854775807"),
        (9_223_372_036_854_775_808, "9223372036854775808"),
        (TEN_19 - 1, "9999999999999999999"),
        (TEN_19, "10000000000000000000"),
        (18_446_744_069_414_584_320, "18446744069414584320"),
        (18_446_744_073_709_551_614, "18446744073709551614"),
        (18_446_744_073_709_551_615, "18446744073709551615"),
    ];
    for (value, digits) in of_eight {
        let data = [&[0][..], &value.to_be_bytes()].concat();
        let image = with_head([0, 1, 1, 8, 0, 0, 0], &data);
        listed.case(&format!("the value {digits}"), &image, &format!("entries 1\n- {digits}\n"));
    }
    // the greatest value of each D, under a root without data
    let greatest = [
        "255",
        "65535",
        "16777215",
        "4294967295",
        "1099511627775",
        "281474976710655",
        "72057594037927935",
        "18446744073709551615",
    ];
    for (d, digits) in (1..).zip(greatest) {
        let body = [&[1][..], &vec![0; d], &[0], &vec![255; d]].concat();
        let image = with_head([1, 1, 1, d as u32, 0, 1, 1], &body);
        let lines = format!("entries 1\n0 {digits}\n");
        listed.case(&format!("the greatest value, D = {d}"), &image, &lines);
        let short = &image[..image.len() - 1];
        listed.case(&format!("a byte is missing, D = {d}"), short, "refused 4 at 0\n");
    }
    for d in [0, 9, 16, 264, 0x0800_0000] {
        let image = with_head([0, 1, 1, d, 0, 0, 0], &[0; 40]);
        listed.case(&format!("D = {d}"), &image, "refused 2 at 0\n");
    }
    // data in one byte of node 1, which max = 0 hides
    for d in 1..=8 {
        for byte in 0..d {
            let mut body = vec![0; 2 * (1 + d)];
            (body[0], body[2 + d + byte]) = (1, 1);
            let image = with_head([1, 1, 1, d as u32, 0, 0, 0], &body);
            let name = format!("hidden data, D = {d}, byte {byte}");
            listed.case(&name, &image, "refused 19 at 1\n");
            // with max = 1 it is a record
            let image = with_head([1, 1, 1, d as u32, 0, 0, 1], &body);
            let lines = format!("entries 1\n0 {}\n", 1u64 << (8 * (d - 1 - byte)));
            listed.case(&format!("a record, D = {d}, byte {byte}"), &image, &lines);
        }
    }
}

/// The limits of the program: 65,536 bytes and one more, 16,384 nodes and one more.
fn limits(listed: &mut Listed) {
    listed.case("65,536 bytes", &p3_of(LONGEST_INPUT), P3_LINES);
    listed.case("65,537 bytes", &p3_of(LONGEST_INPUT + 1), "refused 1 at 0\n");
    listed.case("a million bytes", &p3_of(1_000_000), "refused 1 at 0\n");
    let broken = abc(1, &[0; 4]);
    listed.case(
        "65,537 bytes, and broken",
        &[broken, vec![0; LONGEST_INPUT]].concat(),
        "refused 1 at 0\n",
    );
    let most = LISTING_WORK as u32;
    let all_data = "entries 4\n- 1\n0 1\n0.0 1\n0.0.0 1\n";
    listed.case("16,384 nodes", &chain(most - 1, 2), all_data);
    listed.case("16,385 nodes", &chain(most, 2), "refused 5 at 0\n");
    listed.case("16,384 nodes in reverse", &reversed(&chain(most - 1, 2)), all_data);
    let mut hiding = chain(most - 1, 2);
    let last = hiding.len() - 1;
    hiding[last] = 1;
    listed.case("16,384 nodes, the last with data", &hiding, "refused 19 at 16383\n");
    listed.case(
        "16,384 nodes, the last with data, in reverse",
        &reversed(&hiding),
        "refused 19 at 1\n",
    );
    listed.case("16,383 nodes in a ring", &ring(most - 1), "refused 16 at 1\n");
    listed.case(
        "16,383 nodes in a ring, in reverse",
        &reversed(&ring(most - 1)),
        "refused 16 at 1\n",
    );
    listed.case("16,384 nodes in a ring", &ring(most), "refused 5 at 0\n");
    // W = 2: there are more nodes than a link of one byte can name. Node 255 has an empty link,
    // and node 256 links to node 1, as the root does
    let mut narrow = chain(most - 1, 1);
    listed.case("16,384 nodes of two bytes", &narrow, "refused 7 at 1\n");
    write_number(&mut narrow[..4], u64::from(most));
    narrow.extend([0, 0]);
    listed.case("16,385 nodes of two bytes", &narrow, "refused 5 at 0\n");
}

/// Images with long lines and with many lines.
fn long_listings(listed: &mut Listed) {
    for (d, value) in [(1, "255"), (8, "18446744073709551615")] {
        listed.case("data at depth 65", &deep(d, value, 200).0, "refused 19 at 65\n");
        let (image, lines) = deep(d, value, 0);
        listed.case("long lines", &image, &lines);
        listed.case("long lines, renumbered", &reversed(&image), &lines);
    }
    let (image, lines) = full_tree();
    listed.case("many lines", &image, &lines);
    listed.case("many lines, renumbered", &reversed(&image), &lines);
    let shuffled = renumbered(&image, &renumbering::draw(&mut Rng::new(4), 8_190));
    listed.case("many lines, shuffled", &shuffled, &lines);
    let mut hiding = image.clone();
    hiding[33] = 1;
    listed.case("many lines, and data of the root", &hiding, "refused 19 at 0\n");
    listed.hold(
        "many lines in pieces",
        &[&image[..1], &image[1..28], &image[28..40_000], &image[40_000..]],
        &lines,
    );
}

/// An image for the program: mostly a small one, at times one near the limits of length or nodes.
fn random_image(rng: &mut Rng) -> Vec<u8> {
    let mut shape = Shape::draw(rng);
    shape.draw_g(rng);
    if rng.one_in(8) {
        shape = Shape::narrow(rng, 2);
        shape.head.g = (LISTING_WORK as u64 - 2 + rng.below(4)) as u32;
    }
    let spare = shape.draw_spare(rng);
    let mut image = shape.grow(rng, spare);
    if rng.one_in(8) && image.len() < LONGEST_INPUT {
        let length = LONGEST_INPUT - 1 + rng.below(3) as usize;
        let rubbish = rng.rubbish(length - image.len());
        image.extend(rubbish);
    }
    if rng.one_in(3) {
        damage(rng, &mut image);
    }
    image
}

/// The names of all samples, without their ending.
fn samples() -> Vec<String> {
    let files = std::fs::read_dir("samples").into_iter().flatten().flatten();
    let name = |path: &Path| path.file_stem().and_then(|name| name.to_str()).map(str::to_string);
    let mut names: Vec<String> = files
        .map(|file| file.path())
        .filter(|path| path.extension().map_or(false, |ending| ending == "trieff"))
        .filter_map(|path| name(&path))
        .collect();
    names.sort();
    names
}

pub fn run(start: u64) -> Listed {
    let mut listed = Listed::default();
    small_cases(&mut listed);
    values(&mut listed);
    limits(&mut listed);
    long_listings(&mut listed);
    listed.compare("/dev/null", written_of_file(Path::new("/dev/null")), "refused 1 at 0\n");
    let samples = samples();
    samples.iter().for_each(|name| listed.sample(name));
    let (mut refused, mut unreached, mut hidden, mut falling, mut wide) = (0, 0, 0, 0, 0);
    for seed in start..start + RANDOM {
        let image = random_image(&mut Rng::new(seed));
        let expected = model::listing(&image);
        refused += u64::from(expected.starts_with("refused"));
        unreached += u64::from(expected.starts_with("refused 16 "));
        hidden += u64::from(expected.starts_with("refused 19 "));
        falling += u64::from(expected.starts_with("entries") && !rises(&image));
        let twenty = |line: &str| line.rsplit(' ').next().map_or(false, |value| value.len() == 20);
        wide += u64::from(expected.lines().any(twenty));
        let short = &image[..image.len().min(2_000)];
        listed.hold(
            &format!("random image {seed} of {} bytes [{}]", image.len(), report::hex(short)),
            &[&image],
            &expected,
        );
    }
    println!(
        "listing: {} tried, {} samples, {RANDOM} random images, of which {refused} are refused, \
         {unreached} with 16, {hidden} with 19, {falling} are accepted though a link does not \
         rise, and {wide} have a value of 20 digits",
        listed.tried,
        samples.len()
    );
    if samples.len() < 2 {
        listed.failed += 1;
        println!("FAILED: listing: samples/ has too few images");
    }
    if unreached < 5 || hidden < 5 || falling < RANDOM / 10 || wide < 5 {
        listed.failed += 1;
        println!(
            "FAILED: listing: too few random images have cycles, hidden data, links that do not \
             rise, or values of 20 digits"
        );
    }
    if refused.min(RANDOM - refused) < RANDOM / 5 {
        listed.failed += 1;
        println!("FAILED: listing: too few random images are refused, or too few accepted");
    }
    listed
}
