//! The judge: compares libtrieff.a, the crate's safe functions and the listing program with a
//! model written from documents 01 and 02 alone. tests/README.md says how.

mod calls;
mod cases;
mod cuts;
mod damage;
mod exhaustive;
mod iteration;
mod keys;
mod listing;
mod lists;
mod model;
mod progress;
mod random;
mod renumbering;
mod report;
mod rng;
mod saboteurs;
mod safe;
mod shapes;
mod situations;
mod small;
mod twins;

use std::process::exit;
use std::time::Instant;

/// What the gate runs: these cases make a million calls or more.
const GATE_SEED: u64 = 20_240_601;
const GATE_CASES: u64 = 26_000;
const GATE_CALLS: u64 = 1_000_000;
const LONG_CASES: u64 = 10 * GATE_CASES;
/// These histories leave a million cut images or more. The histories of a long run make a million
/// stores or more.
const GATE_HISTORIES: u64 = 16_000;
const GATE_CUTS: u64 = 1_000_000;
const LONG_HISTORIES: u64 = 250_000;
const LONG_STORES: u64 = 1_000_000;

fn main() {
    let words: Vec<String> = std::env::args().skip(1).collect();
    let words: Vec<&str> = words.iter().map(String::as_str).collect();
    let good = match words.as_slice() {
        ["gate"] => gate(),
        ["long"] => long(fresh_seed()),
        ["long", seed] => long(number(seed)),
        ["replay", seed] => random::replay(number(seed)),
        ["replay", "cuts", seed] => cuts::replay(number(seed)),
        _ => {
            eprintln!("usage: judge gate | judge long [SEED] | judge replay [cuts] SEED");
            exit(2);
        }
    };
    exit(if good { 0 } else { 1 });
}

fn number(word: &str) -> u64 {
    word.parse().unwrap_or_else(|_| {
        eprintln!("judge: {word} is no seed: a number from 0 to 18446744073709551615");
        exit(2)
    })
}

/// A seed from the clock and the process, so that each run is a new one.
fn fresh_seed() -> u64 {
    let since = std::time::SystemTime::now()
        .duration_since(std::time::UNIX_EPOCH)
        .map_or(0, |since| since.as_nanos() as u64);
    rng::Rng::new(since ^ (u64::from(std::process::id()) << 40)).next() >> 16
}

/// 1234567 as 1,234,567.
fn grouped(number: u64) -> String {
    let digits = number.to_string();
    let mut grouped = String::new();
    for (i, digit) in digits.chars().enumerate() {
        if i > 0 && (digits.len() - i) % 3 == 0 {
            grouped.push(',');
        }
        grouped.push(digit);
    }
    grouped
}

/// Runs the random part. Returns what was met and the number of failures.
fn random_part(seed: u64, cases: u64) -> (random::Tally, usize) {
    println!("random: {} cases from seed {seed}", grouped(cases));
    let begun = Instant::now();
    let (tally, failures) = random::run(seed, cases);
    failures.iter().for_each(|failure| print!("FAILED: {failure}"));
    println!("random: {} calls in {:.1} s", grouped(tally.calls), begun.elapsed().as_secs_f64());
    (tally, failures.len())
}

/// Runs the cuts of random stores.
fn random_cuts(seed: u64, histories: u64) -> cuts::Tried {
    let begun = Instant::now();
    let tried = cuts::run_random(seed, histories);
    told("random", &tried, begun);
    tried
}

/// Prints what was tried.
fn told(sort: &str, tried: &cuts::Tried, begun: Instant) {
    let cuts::Tried { images, falling, stores, wide, cuts, partly, lowered, .. } = *tried;
    let [images, falling, stores, wide, cuts, partly, lowered] =
        [images, falling, stores, wide, cuts, partly, lowered].map(grouped);
    println!(
        "cuts: {stores} stores from {images} {sort} images on, {falling} of them with a link \
         that does not rise, {wide} stores change a data field of more than four bytes, {cuts} \
         images mended, {partly} with a write in part, {lowered} with G lowered, in {:.1} s",
        begun.elapsed().as_secs_f64()
    );
}

fn gate() -> bool {
    let (tally, mut failed) = random_part(GATE_SEED, GATE_CASES);
    if failed == 0 && (!tally.print() || tally.calls < GATE_CALLS) {
        println!("FAILED: the random cases do not meet what they must");
        failed += 1;
    }
    let begun = Instant::now();
    let exhausted = exhaustive::run();
    println!("exhaustive: {:.1} s", begun.elapsed().as_secs_f64());
    failed += exhausted.failed;
    let begun = Instant::now();
    let small = cuts::run_small();
    told("small", &small, begun);
    let cut = random_cuts(GATE_SEED, GATE_HISTORIES);
    failed += small.failed + cut.failed;
    if failed == 0 && cut.cuts < GATE_CUTS {
        println!("FAILED: the random cuts are too few");
        failed += 1;
    }
    let few =
        |tried: &cuts::Tried| tried.falling < tried.images / 8 || tried.wide < tried.stores / 100;
    if failed == 0 && (few(&small) || few(&cut)) {
        println!(
            "FAILED: too few of the images that stores are cut in have a link to a lower node, or \
             too few of the stores change a data field of more than four bytes"
        );
        failed += 1;
    }
    let begun = Instant::now();
    let listed = listing::run(GATE_SEED);
    println!("listing: {:.1} s", begun.elapsed().as_secs_f64());
    failed += listed.failed;
    if failed == 0 {
        let begun = Instant::now();
        println!("self-test: {} saboteurs", saboteurs::all().count());
        failed += random::self_test(GATE_SEED, GATE_CASES);
        failed += cuts::self_test(GATE_SEED, GATE_HISTORIES);
        println!("self-test: {:.1} s", begun.elapsed().as_secs_f64());
    } else {
        println!(
            "self-test: left out, since a case that fails by itself shows nothing of a saboteur"
        );
    }
    println!(
        "tests: {} random calls, {} exhaustive calls on {} images, {} and {} cuts of {} small \
         and {} random stores, {} listings, {} saboteurs: \
         {failed} failed",
        grouped(tally.calls),
        grouped(exhausted.calls),
        grouped(exhausted.images),
        grouped(small.cuts),
        grouped(cut.cuts),
        grouped(small.stores),
        grouped(cut.stores),
        grouped(listed.tried),
        saboteurs::all().count()
    );
    failed == 0
}

fn long(seed: u64) -> bool {
    let (tally, mut failed) = random_part(seed, LONG_CASES);
    if failed == 0 && !tally.print() {
        failed += 1;
    }
    let cut = random_cuts(seed, LONG_HISTORIES);
    failed += cut.failed;
    if failed == 0 && cut.stores < LONG_STORES {
        println!("FAILED: the random stores that are cut are too few");
        failed += 1;
    }
    println!(
        "tests: {} random calls and {} cuts of {} random stores from seed {seed}: {failed} failed",
        grouped(tally.calls),
        grouped(cut.cuts),
        grouped(cut.stores)
    );
    failed == 0
}
