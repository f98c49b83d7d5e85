//! A bench that keeps its labels in a file and may lose its power at any moment. It takes commands
//! from standard input, one in a line, and answers each with one line or more:
//!
//! ```text
//! store LABEL RECORD     stores a record number under a label; 0 deletes the label
//! look LABEL             the label's record number
//! count                  the number of labels
//! list                   every label with its record number, in order
//! ```
//!
//! It reads, writes and answers what examples/bench_file.c does. It needs Rust 1.89, for the lock.
//!
//! ```sh
//! printf '%s\n' 'store B04-117-2 2402' list | cargo run --quiet \
//!     --manifest-path rust/Cargo.toml --example bench_file target/labels.trieff
//! ```
//!
//! What it keeps to:
//! - One bench at a time. The lock is on a file of its own, which is never removed. It is taken
//!   before anything is read or made, and held until the program ends.
//! - Every start reads the file, mends the image in memory, and writes all of it to a new file,
//!   which then takes the name. Nothing is answered before that is flushed. What was read may have
//!   been in the computer's memory alone: written by a bench that was stopped before its flush, or
//!   by one whose flush failed. A cut at any step leaves the old file or the new one. (So the file
//!   has the rights of a new one, and the name is not a link to a file elsewhere.)
//! - A store is answered after its last flush. So no store that was answered is lost.
//! - After a write or a flush that failed, nothing more is stored or answered. The bench stops,
//!   and may be started again at once.
//!
//! What it depends on: the system writes the few bytes of a field whole or not at all. So does the
//! disk with a sector, and it leaves the neighbours as they are. A flush returns when all is safe
//! from a power cut, or fails. A rename leaves the old file or the new one under the name. In this
//! image no field lies across the end of a sector: an assertion below says so. With D = 8, for
//! record numbers of more than four bytes, that needs another alphabet: bench.rs has one.
#![allow(clippy::incompatible_msrv)] // the crate itself needs Rust 1.63

use std::env;
use std::ffi::OsString;
use std::fmt::Display;
use std::fs::{self, File, OpenOptions, TryLockError};
use std::io::{self, BufRead, ErrorKind, Read, Write};
use std::os::unix::fs::FileExt;
use std::path::{Path, PathBuf};
use std::process::ExitCode;
use trieff::{
    count, keys, look_up_text, make, mend, store_text_writes, Refusal, Shape, Stored, Writes,
};

const ALPHABET: &[u8] = b"0123456789ABCDE-";
const SHAPE: Shape = Shape { n: 16, a: 2, d: 4, min: 1, max: 64 };
const NODES: usize = 1024;
const LENGTH: usize = SHAPE.length(NODES, ALPHABET.len());
const HEAD: usize = 28 + ALPHABET.len();
const _: () = assert!(SHAPE.fields_whole(ALPHABET.len()));

const NOT_UNDERSTOOD: &[u8] = b"not understood: store LABEL RECORD, look LABEL, count, list\n";

/// Why the bench stops: a sentence for the person at it.
struct Stop(String);

/// At a start: no store has begun. A store says more.
impl From<io::Error> for Stop {
    fn from(why: io::Error) -> Stop {
        Stop(format!("{}. What was answered is stored: start again", disk(&why)))
    }
}

/// What is wrong with the disk. Short and interrupted writes are not: `write_all_at` goes on with
/// the rest, and the flushes begin again.
fn disk(why: &io::Error) -> String {
    const EIO: i32 = 5;
    let what = match why.kind() {
        ErrorKind::StorageFull | ErrorKind::QuotaExceeded | ErrorKind::WriteZero => {
            "the disk is full"
        }
        _ if why.raw_os_error() == Some(EIO) => "the disk failed",
        _ => "it cannot be used",
    };
    format!("{what} ({why})")
}

/// The image in memory, and the file that holds it.
struct Bench {
    image: [u8; LENGTH],
    work: [u32; NODES],
    writes: Writes,
    file: File,
    _lock: File,
}

impl Bench {
    fn start(name: &Path) -> Result<Bench, Stop> {
        let (mut image, mut work) = ([0; LENGTH], [0; NODES]);
        make(&mut image, SHAPE, ALPHABET).map_err(|refusal| Stop(format!("make: {refusal}")))?;
        let lock = lock(name)?;
        load(name, &mut image)?;
        let g = [image[0], image[1], image[2], image[3]];
        mend(&mut image, &mut work)
            .map_err(|refusal| Stop(format!("{refusal}. Put the copy in its place")))?;
        let file = save(name, &image)?;
        if image[..4] != g {
            say(name, "mended; the last store was cut off");
        }
        Ok(Bench { image, work, writes: Writes::new(), file, _lock: lock })
    }

    /// The answer to a line, which may hold any bytes.
    fn obey(&mut self, line: &[u8]) -> Result<Vec<u8>, Stop> {
        let blank = |byte: &u8| b" \t\r\n".contains(byte);
        let words: Vec<_> = line.split(blank).filter(|word| !word.is_empty()).take(4).collect();
        let record = words.get(2).and_then(|digits| record_of(digits));
        Ok(match (&words[..], record) {
            ([], _) => Vec::new(),
            _ if line.contains(&0) => NOT_UNDERSTOOD.to_vec(),
            ([b"store", label, _], Some(record)) => return self.store(label, record),
            ([b"look", label], _) => self.look_up(label),
            ([b"count"], _) => self.count(),
            ([b"list"], _) => self.list(),
            _ => NOT_UNDERSTOOD.to_vec(),
        })
    }

    /// The library stores in memory. Then the file is written. After a failure nobody knows which
    /// bytes are on the disk: what is read back may be in memory alone, and the next flush may
    /// answer that all is well. So nothing goes on from here.
    fn store(&mut self, label: &[u8], record: u32) -> Result<Vec<u8>, Stop> {
        let (image, work) = (&mut self.image, &mut self.work);
        let change = match store_text_writes(image, work, label, record.into(), &mut self.writes) {
            Ok(change) => change,
            Err(refusal) => return Ok(refused(label, refusal)),
        };
        self.carry_out().map_err(|why| {
            let (disk, label) = (disk(&why), String::from_utf8_lossy(label));
            Stop(format!("{disk}. {label} may be stored or not: start again and look it up"))
        })?;
        let writes = self.writes.len();
        Ok(answer(label, format!(" = {record}: change {change}, writes {writes}")))
    }

    /// Carries out the list of writes in the file: the new nodes, flush, G, flush, the link,
    /// flush; or the data field, flush. So each of the last three writes has its flush.
    fn carry_out(&self) -> io::Result<()> {
        for (i, write) in self.writes.iter().enumerate() {
            self.file.write_all_at(&self.image[write.clone()], write.start as u64)?;
            if i + 3 >= self.writes.len() {
                self.file.sync_data()?;
            }
        }
        Ok(())
    }

    fn look_up(&self, label: &[u8]) -> Vec<u8> {
        match look_up_text(&self.image, label) {
            Ok(Some(record)) => answer(label, format!(": record {record}")),
            Ok(None) => answer(label, ": absent"),
            Err(refusal) => refused(label, refusal),
        }
    }

    fn count(&mut self) -> Vec<u8> {
        match count(&self.image, &mut self.work) {
            Ok(labels) => answer(b"labels", format!(": {labels}")),
            Err(refusal) => refused(b"count", refusal),
        }
    }

    fn list(&mut self) -> Vec<u8> {
        let mut all = Vec::new();
        for stored in keys(&self.image, &mut self.work) {
            match stored {
                Ok(stored) => all.extend(answer(&label(&stored), format!(" {}", stored.value()))),
                Err(refusal) => return [all, refused(b"list", refusal)].concat(),
            }
        }
        [all, answer(b"end of the list", "")].concat()
    }
}

/// The lock holds until the file is closed, when the program ends.
fn lock(name: &Path) -> Result<File, Stop> {
    let mut how = OpenOptions::new();
    let lock = how.read(true).write(true).create(true).open(with_ending(name, ".lock"))?;
    loop {
        match lock.try_lock() {
            Ok(()) => return Ok(lock),
            Err(TryLockError::WouldBlock) => {
                let why = "another bench has it open. Use that bench, or end it first";
                return Err(Stop(why.to_string()));
            }
            Err(TryLockError::Error(why)) if why.kind() == ErrorKind::Interrupted => {}
            Err(TryLockError::Error(why)) => return Err(why.into()),
        }
    }
}

/// Reads the file into memory, which holds a fresh image. If there is no file, or an empty one,
/// the fresh image stays. Head and alphabet, except G, must be those of this bench.
fn load(name: &Path, image: &mut [u8; LENGTH]) -> Result<(), Stop> {
    let mut file = match File::open(name) {
        Err(why) if why.kind() == ErrorKind::NotFound => return Ok(()),
        opened => opened?,
    };
    let length = file.metadata()?.len();
    if length == 0 {
        return Ok(());
    }
    if length != LENGTH as u64 {
        let why = format!("it has {length} bytes, an image of this bench has {LENGTH}");
        return Err(Stop(why));
    }
    let head = image[4..HEAD].to_vec();
    file.read_exact(image)?;
    if image[4..HEAD] != head {
        return Err(Stop("it is no image of this bench".to_string()));
    }
    Ok(())
}

/// Writes the image to a new file, which takes the name when all of it is flushed. The name is in
/// the folder, so the folder is flushed too: without that a cut could bring the old file back.
fn save(name: &Path, image: &[u8]) -> io::Result<File> {
    let folder = match name.parent() {
        Some(parent) if parent != Path::new("") => File::open(parent)?,
        _ => File::open(".")?,
    };
    let new = with_ending(name, ".new");
    let file = File::create(&new)?;
    file.write_all_at(image, 0)?;
    file.sync_all()?;
    fs::rename(&new, name)?;
    folder.sync_all()?;
    Ok(file)
}

fn with_ending(name: &Path, ending: &str) -> PathBuf {
    let mut whole = OsString::from(name);
    whole.push(ending);
    whole.into()
}

/// A record number as it was tapped in: digits alone, and a number that fits the D = 4 bytes.
fn record_of(digits: &[u8]) -> Option<u32> {
    let digits = std::str::from_utf8(digits).ok()?;
    digits.parse().ok().filter(|_| digits.bytes().all(|byte| byte.is_ascii_digit()))
}

fn label(stored: &Stored) -> Vec<u8> {
    stored.letters().iter().map(|&letter| ALPHABET[usize::from(letter)]).collect()
}

/// One line. The label goes out as it came in, whatever bytes it has.
fn answer(label: &[u8], words: impl Display) -> Vec<u8> {
    [label, words.to_string().as_bytes(), b"\n"].concat()
}

fn refused(asked: &[u8], refusal: Refusal) -> Vec<u8> {
    answer(asked, format!(": {refusal}"))
}

/// A line to standard error. If that fails, nobody can be told.
fn say(name: &Path, words: &str) {
    let _ = writeln!(io::stderr(), "bench_file: {}: {words}", name.display());
}

fn run(name: &Path) -> Result<(), Stop> {
    let mut bench = Bench::start(name)?;
    let (mut commands, mut answers) = (io::stdin().lock(), io::stdout().lock());
    let mut line = Vec::new();
    loop {
        line.clear();
        let length = commands.read_until(b'\n', &mut line);
        if length.map_err(|why| Stop(format!("the commands cannot be read: {why}")))? == 0 {
            return Ok(());
        }
        let answer = bench.obey(&line)?;
        answers
            .write_all(&answer)
            .and_then(|()| answers.flush())
            .map_err(|why| Stop(format!("the answers cannot be written: {why}")))?;
    }
}

fn main() -> ExitCode {
    let names: Vec<OsString> = env::args_os().skip(1).collect();
    let [name] = &names[..] else {
        let _ =
            writeln!(io::stderr(), "usage: bench_file FILE, with commands from standard input");
        return ExitCode::from(2);
    };
    match run(Path::new(name)) {
        Ok(()) => ExitCode::SUCCESS,
        Err(Stop(why)) => {
            say(Path::new(name), &why);
            ExitCode::FAILURE
        }
    }
}
