//! The random part: runs cases by their seeds, in two threads, and compares each call. And the
//! self-test with the saboteurs.

use crate::calls::{Call, KINDS, NUMBERS};
use crate::cases::{Case, Step};
use crate::model::{self, Answer, Head};
use crate::progress::Progress;
use crate::report::{self, say};
use crate::rng::Rng;
use crate::saboteurs::{self, Sabotage};
use crate::situations::{Seen, SITUATIONS};
use crate::twins::{Asked, Outcome, Twins, IN_WRAPPER};
use std::sync::atomic::{AtomicU64, Ordering};
use std::sync::Mutex;

/// How often a run must meet each number of each call.
const OFTEN: u64 = 50;
/// How often a run must meet each situation.
const SITUATION_OFTEN: u64 = 5;
/// A run stops after this number of failures.
const ENOUGH: usize = 5;
/// Images from this length on are passed over by the saboteurs: each of them needs a copy.
const SPOILED_MOST: usize = 1_000_000;

/// What a run met.
pub struct Tally {
    pub cases: u64,
    pub calls: u64,
    numbers: [[u64; NUMBERS]; KINDS.len()],
    situations: [u64; SITUATIONS.len()],
}

impl Tally {
    pub fn new() -> Tally {
        Tally {
            cases: 0,
            calls: 0,
            numbers: [[0; NUMBERS]; KINDS.len()],
            situations: [0; SITUATIONS.len()],
        }
    }

    fn see(&mut self, seen: &Seen) {
        self.calls += 1;
        self.numbers[seen.kind()][seen.number() as usize] += 1;
        for (met, situation) in self.situations.iter_mut().zip(&SITUATIONS) {
            *met += u64::from((situation.met)(seen));
        }
    }

    fn add(&mut self, other: &Tally) {
        self.cases += other.cases;
        self.calls += other.calls;
        let theirs = other.numbers.iter().flatten().chain(&other.situations);
        for (mine, its) in
            self.numbers.iter_mut().flatten().chain(&mut self.situations).zip(theirs)
        {
            *mine += its;
        }
    }

    /// The numbers that some call may give, or gave.
    fn columns(&self) -> Vec<usize> {
        let allowed =
            |number: usize| KINDS.iter().any(|kind| kind.numbers.contains(&(number as u32)));
        let met = |number: usize| self.numbers.iter().any(|met| met[number] > 0);
        (0..NUMBERS).filter(|number| allowed(*number) || met(*number)).collect()
    }

    /// Prints the tables. Returns whether everything that is allowed was met often enough, and
    /// nothing else was met.
    pub fn print(&self) -> bool {
        let mut good = true;
        println!("answers by call and number:");
        let columns = self.columns();
        print!("{:18}", "");
        columns.iter().for_each(|number| print!("{number:>8}"));
        println!();
        for (kind, met) in KINDS.iter().zip(&self.numbers) {
            print!("{:18}", kind.name);
            for number in &columns {
                let times = met[*number];
                let allowed = kind.numbers.contains(&(*number as u32));
                let fault = allowed != (times >= OFTEN) && (allowed || times > 0);
                good &= !fault;
                print!(
                    "{:>8}",
                    if fault {
                        format!("!{times}")
                    } else if allowed {
                        times.to_string()
                    } else {
                        "-".to_string()
                    }
                );
            }
            println!();
        }
        println!("situations:");
        for (situation, times) in SITUATIONS.iter().zip(&self.situations) {
            good &= *times >= SITUATION_OFTEN;
            println!(
                "{:>10}  {}",
                if *times >= SITUATION_OFTEN { times.to_string() } else { format!("!{times}") },
                situation.name
            );
        }
        if !good {
            println!("an entry marked ! was met too seldom, or is not allowed");
        }
        good
    }
}

/// What is claimed of an outcome besides: the check accepts what a store leaves, since "Our own
/// calls never make" hidden data; and the number of keys is the number of nodes with data.
/// Returns the claim that does not hold, as text. Only for an answer that is the model's.
fn broken_claim(step: &Step, asked: &Asked, answer: &Answer) -> Option<String> {
    if step.after_store && answer.number > 0 {
        return Some("the check refuses what a store left".to_string());
    }
    if asked.call != Call::Count || answer.number > 0 {
        return None;
    }
    let head = Head::read(asked.image);
    let has_data = |node: &u64| model::data(asked.image, &head, *node) != 0;
    let full = (0..=u64::from(head.g)).filter(has_data).count() as u64;
    (answer.value != full).then(|| format!("{} keys, {full} nodes with data", answer.value))
}

/// Makes a call in all of them and compares. A claim that does not hold is a difference too.
fn ask(twins: &mut Twins, case: &Case, step: &Step, guards: &mut Rng) -> Outcome {
    let asked = case.asked(step);
    let outcome = twins.ask(&asked, guards, None);
    let broken = || broken_claim(step, &asked, &outcome.library);
    Outcome { difference: outcome.difference.or_else(broken), ..outcome }
}

/// Runs a case. The first difference ends it and is returned as text.
fn run_case(seed: u64, twins: &mut Twins, tally: &mut Tally) -> Result<(), String> {
    let mut case = Case::new(seed);
    let mut guards = Rng::new(!seed);
    let mut number = 0;
    while let Some(step) = case.next() {
        number += 1;
        let asked = case.asked(&step);
        let outcome = ask(twins, &case, &step, &mut guards);
        if outcome.difference.is_some() {
            let told = report::asked(&asked) + &report::outcome(&outcome);
            return Err(format!(
                "seed {seed}, call {number} of the case: {told}    \
                 replay with: tests/replay {seed}\n"
            ));
        }
        tally.see(&Seen::new(asked, outcome.model));
        case.learn(step.call, &outcome.model, &twins.model);
    }
    tally.cases += 1;
    Ok(())
}

/// Runs a number of cases, from the starting seed on, in two threads. Returns what was met and the
/// failures.
pub fn run(start: u64, cases: u64) -> (Tally, Vec<String>) {
    let next = AtomicU64::new(0);
    let all = Mutex::new((Tally::new(), Vec::new()));
    std::thread::scope(|scope| {
        for thread in 0..2 {
            let (next, all) = (&next, &all);
            scope.spawn(move || {
                let mut twins = Twins::with_wrapper();
                let mut tally = Tally::new();
                let mut progress = Progress::of(thread);
                loop {
                    let index = next.fetch_add(1, Ordering::Relaxed);
                    if index >= cases || all.lock().unwrap().1.len() >= ENOUGH {
                        break;
                    }
                    let seed = start.wrapping_add(index);
                    progress.at(&format!("tests/replay {seed}"));
                    if let Err(failure) = run_case(seed, &mut twins, &mut tally) {
                        all.lock().unwrap().1.push(failure);
                    }
                }
                progress.done();
                all.lock().unwrap().0.add(&tally);
            });
        }
    });
    all.into_inner().unwrap()
}

/// A saboteur in the self-test: the number of the case in which it was reported, and whether the
/// report said that the safe wrapper differs.
struct Attempt {
    sabotage: Sabotage,
    caught: Option<(u64, bool)>,
}

/// Every saboteur must be reported within the same cases, and the report must say whether the safe
/// wrapper differs. One that spoils nothing must not be reported. Returns the number of those for
/// which this does not hold.
pub fn self_test(start: u64, cases: u64) -> usize {
    let new = |sabotage| Attempt { sabotage, caught: None };
    let mut all: Vec<Attempt> = saboteurs::all().chain([saboteurs::idle()]).map(new).collect();
    let last = all.len() - 1;
    let (mut twins, mut spoiled) = (Twins::with_wrapper(), Twins::with_wrapper());
    for index in 0..cases {
        if all[..last].iter().all(|tried| tried.caught.is_some()) {
            break;
        }
        spoil_case(start, index, &mut all, &mut twins, &mut spoiled);
    }
    let idle = all.pop().map_or(false, |tried| tried.caught.is_none());
    if !idle {
        println!("    REPORTED, though nothing is spoiled");
    }
    print_attempts(&all) + usize::from(!idle)
}

/// Runs a case in `twins`. After each call, each saboteur that is not yet caught spoils what the
/// call left, in the copy `spoiled`, which is then compared.
fn spoil_case(
    start: u64,
    index: u64,
    all: &mut [Attempt],
    twins: &mut Twins,
    spoiled: &mut Twins,
) {
    let seed = start.wrapping_add(index);
    let (mut case, mut guards) = (Case::new(seed), Rng::new(!seed));
    while let Some(step) = case.next() {
        let asked = case.asked(&step);
        twins.lay(&asked, &mut guards);
        let before = twins.model.clone();
        let answers = twins.perform(step.call);
        let spoils = |tried: &Attempt| tried.caught.is_none() && tried.sabotage.spoils(step.call);
        let left = all.iter_mut().filter(|tried| spoils(tried));
        for tried in left.filter(|_| asked.image.len() < SPOILED_MOST) {
            spoiled.copy_from(twins);
            let outcome = spoiled.compare_spoiled(step.call, answers, &before, tried.sabotage);
            let broken = || broken_claim(&step, &asked, &outcome.library);
            let said = outcome.difference.or_else(broken);
            tried.caught = said.map(|said| (index + 1, said.contains(IN_WRAPPER)));
        }
        case.learn(step.call, &answers.0, &twins.model);
    }
}

/// Prints in which case each saboteur was caught. Those that were tried in several calls share a
/// line, with the last of their cases. Returns the number of those that were not caught.
fn print_attempts(all: &[Attempt]) -> usize {
    let caught = |tried: &Attempt| {
        let rightly = tried.caught.filter(|(_, said)| *said == tried.sabotage.in_wrapper);
        rightly.map(|(case, _)| case)
    };
    let mut names: Vec<&str> = all.iter().map(|tried| tried.sabotage.name()).collect();
    names.dedup();
    for name in names {
        let of_name = all.iter().filter(|tried| tried.sabotage.name() == name);
        let cases: Vec<u64> = of_name.clone().filter_map(caught).collect();
        for tried in of_name.filter(|tried| caught(tried).is_none()) {
            let call = tried.sabotage.call.map_or(String::new(), |call| format!(", in {call}"));
            println!("    NOT CAUGHT: {name}{call}");
        }
        if let Some(last) = cases.iter().max() {
            let many = match cases.len() {
                1 => String::new(),
                many => format!(", in {many} calls"),
            };
            println!("    caught in case {last:>6}: {name}{many}");
        }
    }
    all.iter().filter(|tried| caught(tried).is_none()).count()
}

/// Repeats one case and prints all of it. Returns whether the model, the library and the safe
/// wrapper agreed.
pub fn replay(seed: u64) -> bool {
    let mut case = Case::new(seed);
    let mut guards = Rng::new(!seed);
    let mut twins = Twins::with_wrapper();
    let mut printed: Vec<u8> = Vec::new();
    let mut number = 0;
    while let Some(step) = case.next() {
        number += 1;
        let asked = case.asked(&step);
        if number == 1 || asked.image != printed.as_slice() {
            printed = asked.image.to_vec();
            say(&format!("image of {} bytes:\n{}", printed.len(), report::hex_lines(&printed)));
        }
        say(&format!("call {number}: {}", report::asked(&asked)));
        let outcome = ask(&mut twins, &case, &step, &mut guards);
        say(&report::outcome(&outcome));
        if outcome.difference.is_some() {
            say_images(&twins);
            return false;
        }
        case.learn(step.call, &outcome.model, &twins.model);
    }
    say(&format!("seed {seed}: {number} calls; model, library and safe wrapper agree\n"));
    true
}

fn say_images(twins: &Twins) {
    let wrapper = twins.wrapper.as_ref().map(|wrapper| ("safe wrapper", &wrapper.arena));
    let all = [("model", &twins.model), ("library", &twins.library)];
    for (name, arena) in all.into_iter().chain(wrapper) {
        let lines = report::hex_lines(arena.image());
        say(&format!("the image as the {name} leaves it:\n{lines}"));
    }
}
