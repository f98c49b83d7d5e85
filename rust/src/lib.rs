//! TRIEFF 0.6.0 images over lent memory, for Rust: make, check, count, look up, store, mend, list,
//! jump by position.
//!
//! The caller lends memory: slices, for the time of the call. A call allocates nothing and keeps
//! nothing. Any bytes, any key, any text and any value may be passed, and each has its answer: the
//! first [`Refusal`] that applies, else what was asked for. A refused call changes nothing but the
//! working numbers. The crate links `libtrieff.a`, which `tools/build trieff` proves and builds,
//! for x86-64 alone.
//!
//! The crate needs no `std`. Its feature `std` is for compilers before Rust 1.81: with it
//! [`Refusal`] is an `Error` there too.
//!
//! The nodes of an accepted image are one tree. A child may have a lower address than its parent,
//! as in a file that another tool has renumbered. Data stands only at depths of min to max, where
//! the depth of a node is the number of links from the root to it. So every record in an accepted
//! image can be looked up, is listed and is counted.
//!
//! [`Refusal::Link`], [`Refusal::LinkedTwice`] and [`Refusal::NotReached`] mean that the nodes are
//! not one tree, [`Refusal::Hidden`] that data stands where no lookup finds it. No cut of a store
//! leaves such an image, and mending does not help: refuse the file and restore a copy. Do the
//! same if [`mend`] gives [`Refusal::NotLinked`].
//!
//! A value is 64 bits wide in every call. An image holds it in D bytes, so there it is at most
//! 256^D - 1. With D = 8 every value fits. 0 means that nothing is stored.
//!
//! Working numbers: every call but [`make`] and the lookups needs G+1 of them, one for each node
//! in use. No answer depends on what they held. If the call stops at [`Refusal::TooFewNumbers`],
//! where its order first names it, or before that, all of them keep what they held. Otherwise the
//! first G+1 of them are 0 when the call returns, whatever the answer. G is the one at entry. The
//! rest keep what they held.
//!
//! Lend as many as the image can ever have nodes, in every call: those passed to
//! [`Shape::length`]. A store needs one for each node from before it, but [`mend`] needs one for
//! each node of the image that it meets. After a cut this may be the greater number: G may count
//! new nodes already.
//!
//! ```
//! use trieff::{count, keys, look_up_text, make, store_text, Refusal, Shape};
//!
//! let mut image = [0; 100];
//! let mut work = [0; 16];
//! make(&mut image, Shape { n: 3, a: 1, d: 1, min: 1, max: 3 }, b"ABC")?;
//! store_text(&mut image, &mut work, b"BA", 9)?;
//! store_text(&mut image, &mut work, b"B", 5)?;
//! assert_eq!(look_up_text(&image, b"BA")?, Some(9));
//! assert_eq!(count(&image, &mut work)?, 2);
//!
//! let first = keys(&image, &mut work).next().unwrap()?;
//! assert_eq!((first.letters(), first.value()), (&[1][..], 5));
//! # Ok::<(), Refusal>(())
//! ```
//!
//! # A power cut
//!
//! An image that must survive a power cut is kept twice: in memory, and in a file or on a device.
//! The second one is called the kept image here. The calls work on the image in memory alone. One
//! program at a time works on a kept image: in a file it takes a lock before it reads or makes it.
//!
//! At a start:
//!
//! 1. Read the kept image into memory.
//! 2. Write back all that was read, in whole sectors, and flush; in a file, write it to a new
//!    file, as below. This may be left out if the machine was off since the last write: then what
//!    was read has landed. Otherwise it may be in a cache alone.
//! 3. Call [`mend`]. If it changed the first four bytes, write them back, and flush.
//! 4. Only now answer and store.
//!
//! To store, call [`store_writes`] or [`store_text_writes`]. Carry out the list of writes on the
//! kept image, in its order, with three flushes: the new nodes, flush, G, flush, the link, flush.
//! A list of one write has a data field: the field, flush. Answer after the last flush.
//!
//! If a write or a flush failed, or may have failed: store nothing more and answer nothing more,
//! no lookup either. The image in memory holds a store that the kept image may lack. What is read
//! back may never have landed, and a second flush may succeed without it. So restart the machine
//! and begin at step 1. Or begin at step 1 without a restart, and do not leave out step 2.
//!
//! A fresh image is made in memory by [`make`]. To put it on a device, write 28 zero bytes where
//! it begins, and flush; then its bytes from 28 on, up to U at least, and flush; then its first 28
//! bytes, and flush. If a start finds 28 zero bytes there, the making was cut: begin again. To put
//! it in a file, write it to a new file, flush that file, rename it, and flush the folder.
//!
//! `rust/examples/bench_file.rs` does all of this in a file. The device must promise:
//!
//! - What was written before a flush has landed once the flush has returned without a failure.
//!   What comes after a flush is not begun before that.
//! - A write of G, of a link, of a data field (up to 8 bytes) or of the first 28 bytes lands whole
//!   or not at all. Devices promise this within a sector. So the image begins at the start of a
//!   sector, and no field lies across the end of one: see [`Shape::fields_whole`]. A device that
//!   promises only words of 4 bytes does not promise a data field of 8: the header says what to do
//!   there.
//! - Of nodes that were written since the last flush any bytes may have landed, in any order. They
//!   go to spare bytes.
//! - No byte changes that was not written.
//!
//! The order in which a call writes to the image in memory is not promised. So do not lend memory
//! that outlives a cut, such as FRAM or a mapped file, as the image: also there keep two images,
//! and go by the list of writes.
//!
//! With these promises, wherever the cut was, mending with enough working numbers is done. After
//! that, all answers are those from before the store, or all answers are those from after it. They
//! are those from after it exactly if the last write of the list landed.
//!
//! ```
//! use trieff::{look_up_text, make, mend, store_text_writes, Refusal, Shape, Writes};
//!
//! let mut image = [0; 100];
//! let mut work = [0; 16];
//! let mut writes = Writes::new();
//! make(&mut image, Shape { n: 3, a: 1, d: 1, min: 1, max: 3 }, b"ABC")?;
//! let mut kept = image; // stands for the image in a file
//!
//! store_text_writes(&mut image, &mut work, b"BA", 9, &mut writes)?;
//! for write in writes.iter().take(3) {
//!     kept[write.clone()].copy_from_slice(&image[write]);
//! } // here the power is cut: the link is missing
//! mend(&mut kept, &mut work)?;
//! assert_eq!(look_up_text(&kept, b"BA")?, None);
//!
//! for write in writes.iter() {
//!     kept[write.clone()].copy_from_slice(&image[write]);
//! }
//! mend(&mut kept, &mut work)?;
//! assert_eq!(look_up_text(&kept, b"BA")?, Some(9));
//! # Ok::<(), Refusal>(())
//! ```
//!
//! # Positions and counts
//!
//! The position of a stored key says where it stands in the listing, from 0. To jump by position,
//! lend a list of counts beside the image, as [`Counts`]: for each node the number of stored keys
//! at or under it. Work the counts out once, after the start or after [`mend`]. The stores of
//! [`Counts`] keep them right. After any other call that changes the image, such as a store with
//! writes, work them out afresh. They are not part of the image, and need not be kept through a
//! power cut.
//!
//! ```
//! use trieff::{make, Counts, Refusal, Shape};
//!
//! let mut image = [0; 100];
//! let (mut work, mut numbers) = ([0; 16], [0; 16]);
//! make(&mut image, Shape { n: 3, a: 1, d: 1, min: 1, max: 3 }, b"ABC")?;
//!
//! let mut counts = Counts::new(&mut numbers);
//! counts.work_out(&image, &mut work)?;
//! counts.store_text(&mut image, &mut work, b"BA", 9)?;
//! counts.store_text(&mut image, &mut work, b"B", 5)?;
//! assert_eq!(counts.numbers()[..3], [2, 2, 1]);
//! assert_eq!(counts.position_text(&image, &mut work, b"BA")?, 1);
//!
//! let mut key = [0; 3];
//! let found = counts.nth(&image, &mut work, 1, &mut key)?;
//! assert_eq!((&key[..found.length], found.value), (&[1, 0][..], 9));
//! # Ok::<(), Refusal>(())
//! ```
#![no_std]
#![warn(missing_docs)]

#[cfg(all(feature = "std", not(core_error)))]
extern crate std;

mod counts;
mod keys;
pub mod raw;
mod refusal;
mod writes;

pub use counts::Counts;
pub use keys::{keys, keys_from, Keys, Stored};
use raw::TrieffAnswer;
pub use refusal::Refusal;
pub use writes::{Writes, WRITES_MOST};

/// The numbers that a fresh image is made with. The alphabet is passed beside them. G begins at 0.
#[derive(Clone, Copy, Debug, PartialEq, Eq)]
pub struct Shape {
    /// Links in a node, which is the number of letters: 1 to 256.
    pub n: u32,
    /// Bytes in a link: 1 to 4. An image has at most 256^A nodes.
    pub a: u32,
    /// Bytes of data: 1 to 8. A value is at most 256^D - 1, and with 8 bytes it is any `u64`.
    pub d: u32,
    /// Letters of the shortest key: 0 to `max`.
    pub min: u32,
    /// Letters of the longest key: 0 to 64.
    pub max: u32,
}

impl Shape {
    /// The used length U of an image with this number of nodes and an alphabet of `f` bytes. In a
    /// slice of this length, as many working numbers as nodes are enough, and as many counts, as
    /// long as the image in it was made with these numbers.
    ///
    /// It is a constant function, for static memory. It overflows only where the image would be
    /// too long for [`make`].
    ///
    /// ```
    /// use trieff::{make, Refusal, Shape};
    ///
    /// const ABC: Shape = Shape { n: 3, a: 1, d: 1, min: 1, max: 3 };
    /// assert_eq!(make(&mut [0; ABC.length(1, 3)], ABC, b"ABC"), Ok(()));
    /// assert_eq!(make(&mut [0; ABC.length(1, 3) - 1], ABC, b"ABC"), Err(Refusal::ImageRoom));
    /// ```
    pub const fn length(&self, nodes: usize, f: usize) -> usize {
        28 + f + nodes * self.width()
    }

    /// Whether every link of an image with these numbers and an alphabet of `f` bytes has 1, 2 or
    /// 4 bytes, every data field has 1, 2, 4 or 8, and each stands at a multiple of its length.
    /// Then none lies across the end of a sector, if the image begins at the start of a sector,
    /// and sectors have 512 bytes or another power of two from 8 on. G never does.
    ///
    /// For D = 8 it says that 28 + F and N*A are multiples of 8. So F is 4, 12, 20 or such, and
    /// never 0. If the alphabet has another length, add characters that no label has.
    ///
    /// ```
    /// use trieff::Shape;
    ///
    /// const LABELS: Shape = Shape { n: 20, a: 2, d: 8, min: 1, max: 64 };
    /// const _: () = assert!(LABELS.fields_whole(20));
    /// assert!(!LABELS.fields_whole(21));
    /// assert!(!Shape { n: 16, ..LABELS }.fields_whole(16));
    /// assert!(Shape { n: 16, d: 4, ..LABELS }.fields_whole(16));
    /// ```
    pub const fn fields_whole(&self, f: usize) -> bool {
        matches!(self.a, 1 | 2 | 4)
            && matches!(self.d, 1 | 2 | 4 | 8)
            && self.stands_whole(self.a as usize, f)
            && self.stands_whole(self.d as usize, f)
    }

    /// It holds of the data too, though that begins after the links: if D divides W = N*A + D, it
    /// divides N*A.
    const fn stands_whole(&self, length: usize, f: usize) -> bool {
        (28 + f) % length == 0 && self.width() % length == 0
    }

    /// The node width W.
    const fn width(&self) -> usize {
        self.n as usize * self.a as usize + self.d as usize
    }
}

/// The key that [`next_key`] or [`Counts::nth`] found. Its letters are in the key buffer.
#[derive(Clone, Copy, Debug, PartialEq, Eq)]
pub struct Found {
    /// How many letters were written to the front of the key buffer.
    pub length: usize,
    /// The value that is stored under the key, never 0.
    pub value: u64,
}

/// Makes a fresh image in the slice. Letter i is the i-th character of the alphabet, from 0. An
/// alphabet of no bytes makes an image whose keys are letter numbers alone.
///
/// Done: it writes head, alphabet and a zero root. The spare bytes after them keep what they held.
///
/// Refusals: 1, 2, 3, 4.
///
/// ```
/// use trieff::{make, Refusal, Shape};
///
/// let shape = Shape { n: 3, a: 1, d: 1, min: 1, max: 3 };
/// let mut image = [255; 36];
/// assert_eq!(make(&mut image, shape, b"ABC"), Ok(()));
/// assert_eq!(image[..8], [0, 0, 0, 0, 0, 0, 0, 3]);
/// assert_eq!(image[28..], [b'A', b'B', b'C', 0, 0, 0, 0, 255]);
///
/// assert_eq!(make(&mut image[..27], shape, b"ABC"), Err(Refusal::ImageLength));
/// assert_eq!(make(&mut image, Shape { n: 257, ..shape }, b"ABC"), Err(Refusal::HeadField));
/// assert_eq!(make(&mut image, Shape { d: 9, ..shape }, b"ABC"), Err(Refusal::HeadField));
/// assert_eq!(make(&mut image, shape, b"ABA"), Err(Refusal::Alphabet));
/// assert_eq!(make(&mut image[..34], shape, b"ABC"), Err(Refusal::ImageRoom));
/// ```
pub fn make(image: &mut [u8], shape: Shape, alphabet: &[u8]) -> Result<(), Refusal> {
    let Shape { n, a, d, min, max } = shape;
    // SAFETY: each slice's pointer and length; image is borrowed for writing, so alphabet does not
    // overlap it.
    let answer = unsafe {
        raw::trieff_make(
            image.as_mut_ptr(),
            image.len(),
            n,
            a,
            d,
            alphabet.as_ptr(),
            alphabet.len(),
            min,
            max,
        )
    };
    heard(answer).map(|_| ())
}

/// Checks an image: its head, its alphabet, every link, whether each node is reached from the
/// root, and whether data stands only at depths of min to max. An image that passes is accepted.
///
/// Refusals: 1 to 8, 16, 19.
///
/// ```
/// use trieff::{check, make, store, Refusal, Shape};
///
/// let mut image = [0; 43];
/// let mut work = [0; 3];
/// make(&mut image, Shape { n: 3, a: 1, d: 1, min: 1, max: 3 }, b"ABC")?;
/// store(&mut image, &mut work, &[1, 0], 9)?;
/// assert_eq!(check(&image, &mut work), Ok(()));
/// assert_eq!(check(&image, &mut work[..2]), Err(Refusal::TooFewNumbers));
///
/// image[35] = 3; // node 1 links to a node that is not there
/// assert_eq!(check(&image, &mut work), Err(Refusal::Link(1)));
///
/// // node 1 links to node 2, node 2 to node 1, and the root to neither
/// image[31..].copy_from_slice(&[0, 0, 0, 0, 2, 0, 0, 0, 1, 0, 0, 9]);
/// assert_eq!(check(&image, &mut work), Err(Refusal::NotReached(1)));
///
/// // the root links to node 2, and node 2 to node 1
/// image[31..].copy_from_slice(&[0, 2, 0, 0, 0, 0, 0, 9, 1, 0, 0, 0]);
/// assert_eq!(check(&image, &mut work), Ok(()));
///
/// image[34] = 4; // data at the root, though no key is empty
/// assert_eq!(check(&image, &mut work), Err(Refusal::Hidden(0)));
/// # Ok::<(), Refusal>(())
/// ```
pub fn check(image: &[u8], work: &mut [u32]) -> Result<(), Refusal> {
    // SAFETY: each slice's pointer and length; work is borrowed for writing, so image does not
    // overlap it.
    let answer =
        unsafe { raw::trieff_check(image.as_ptr(), image.len(), work.as_mut_ptr(), work.len()) };
    heard(answer).map(|_| ())
}

/// The number of stored keys: those of min to max letters whose data is not 0. It is the number of
/// nodes whose data is not 0, since data at any other depth is refused.
///
/// Refusals: 1 to 8, 16, 19.
///
/// ```
/// use trieff::{count, make, store, Refusal, Shape};
///
/// let mut image = [0; 43];
/// let mut work = [0; 3];
/// make(&mut image, Shape { n: 3, a: 1, d: 1, min: 1, max: 3 }, b"ABC")?;
/// assert_eq!(count(&image, &mut work)?, 0);
/// store(&mut image, &mut work, &[1, 0], 9)?;
/// assert_eq!(count(&image, &mut work)?, 1);
/// assert_eq!(count(&image[..42], &mut work), Err(Refusal::ImageRoom));
/// # Ok::<(), Refusal>(())
/// ```
pub fn count(image: &[u8], work: &mut [u32]) -> Result<u64, Refusal> {
    // SAFETY: each slice's pointer and length; work is borrowed for writing, so image does not
    // overlap it.
    let answer =
        unsafe { raw::trieff_count(image.as_ptr(), image.len(), work.as_mut_ptr(), work.len()) };
    heard(answer).map(|done| done.value)
}

/// The value that is stored under a key given by its letter numbers, `None` for absent.
///
/// No stored value is 0. So `None` means what the value 0 means in C, and a caller cannot take it
/// for a value. The call does not check the image: 6 is given only for links on the key's path,
/// and its place is the node that holds the first one above G. 19 is never given.
///
/// Refusals: 1 to 4, 9, 10, 6.
///
/// ```
/// use trieff::{look_up, make, store, Refusal, Shape};
///
/// let mut image = [0; 43];
/// make(&mut image, Shape { n: 3, a: 1, d: 1, min: 1, max: 3 }, b"ABC")?;
/// store(&mut image, &mut [0; 3], &[1, 0], 9)?;
/// assert_eq!(look_up(&image, &[1, 0])?, Some(9));
/// assert_eq!(look_up(&image, &[1])?, None);
/// assert_eq!(look_up(&image, &[]), Err(Refusal::KeyLength));
/// assert_eq!(look_up(&image, &[3]), Err(Refusal::Letter));
///
/// image[35] = 3; // node 1 links to a node that is not there
/// assert_eq!(look_up(&image, &[1, 0]), Err(Refusal::Link(1)));
/// assert_eq!(look_up(&image, &[0])?, None);
/// # Ok::<(), Refusal>(())
/// ```
pub fn look_up(image: &[u8], letters: &[u8]) -> Result<Option<u64>, Refusal> {
    // SAFETY: each slice's pointer and length; neither slice is written to.
    let answer = unsafe {
        raw::trieff_look_up(image.as_ptr(), image.len(), letters.as_ptr(), letters.len())
    };
    heard(answer).map(present)
}

/// The value that is stored under a key given as text in UTF-8, `None` for absent. The text is a
/// slice of bytes and not a `str`, since any bytes may be passed. Bytes that are not well-formed
/// are refused with 10.
///
/// Refusals: 1 to 4, 10, 9, 6.
///
/// ```
/// use trieff::{look_up_text, make, store, Refusal, Shape};
///
/// let mut image = [0; 48];
/// make(&mut image, Shape { n: 3, a: 1, d: 1, min: 1, max: 3 }, "AÉ→".as_bytes())?;
/// store(&mut image, &mut [0; 3], &[1, 0], 9)?;
/// assert_eq!(look_up_text(&image, "ÉA".as_bytes())?, Some(9));
/// assert_eq!(look_up_text(&image, "→".as_bytes())?, None);
/// assert_eq!(look_up_text(&image, b"AAAA"), Err(Refusal::KeyLength));
/// assert_eq!(look_up_text(&image, b"AAAAx"), Err(Refusal::Letter));
/// assert_eq!(look_up_text(&image, b"\xC3"), Err(Refusal::Letter));
/// # Ok::<(), Refusal>(())
/// ```
pub fn look_up_text(image: &[u8], text: &[u8]) -> Result<Option<u64>, Refusal> {
    // SAFETY: each slice's pointer and length; neither slice is written to.
    let answer = unsafe {
        raw::trieff_look_up_text(image.as_ptr(), image.len(), text.as_ptr(), text.len())
    };
    heard(answer).map(present)
}

/// Stores a value under a key given by its letter numbers, or deletes the key if the value is 0.
/// The answer is the change in the number of stored keys: 1 for a new key, -1 for a deleted one, 0
/// for another value of a stored key and for deleting a key that is not stored.
///
/// Done: if the key's path is complete, it writes the key's data. If it is not complete, a value
/// of 0 changes nothing. Any other value writes the new nodes to the spare bytes at U, G, and the
/// link to the first new node.
///
/// Refusals: 1 to 8, 16, 19, 9, 10, 11, 12, 13. A value of 0 needs no new nodes, so 12 and 13 are
/// never given for it.
///
/// ```
/// use trieff::{make, store, Refusal, Shape};
///
/// let mut image = [0; 43];
/// let mut work = [0; 3];
/// make(&mut image, Shape { n: 3, a: 1, d: 1, min: 1, max: 3 }, b"ABC")?;
/// assert_eq!(store(&mut image, &mut work, &[1, 0], 9)?, 1);
/// assert_eq!(store(&mut image, &mut work, &[1, 0], 8)?, 0);
/// assert_eq!(store(&mut image, &mut work, &[1, 0], 0)?, -1);
/// assert_eq!(store(&mut image, &mut work, &[1, 0], 256), Err(Refusal::ValueTooGreat));
/// assert_eq!(store(&mut image, &mut work, &[2, 2, 2], 1), Err(Refusal::NoRoom));
/// assert_eq!(store(&mut image, &mut work, &[2, 2, 2], 0)?, 0);
/// # Ok::<(), Refusal>(())
/// ```
///
/// A record number that needs more than four bytes, in an image with D = 8:
///
/// ```
/// use trieff::{look_up, make, store, Refusal, Shape};
///
/// const WIDE: Shape = Shape { n: 4, a: 2, d: 8, min: 1, max: 3 };
/// let mut image = [0; WIDE.length(3, 4)];
/// let mut work = [0; 3];
/// make(&mut image, WIDE, b"ABC-")?;
/// store(&mut image, &mut work, &[1, 0], 202_604_000_002_402)?;
/// store(&mut image, &mut work, &[1], u64::MAX)?;
/// assert_eq!(look_up(&image, &[1, 0])?, Some(202_604_000_002_402));
/// assert_eq!(look_up(&image, &[1])?, Some(u64::MAX));
///
/// // with D = 4 it is refused
/// make(&mut image, Shape { d: 4, ..WIDE }, b"ABC-")?;
/// let refused = store(&mut image, &mut work, &[1, 0], 202_604_000_002_402);
/// assert_eq!(refused, Err(Refusal::ValueTooGreat));
/// # Ok::<(), Refusal>(())
/// ```
pub fn store(
    image: &mut [u8],
    work: &mut [u32],
    letters: &[u8],
    value: u64,
) -> Result<i32, Refusal> {
    // SAFETY: each slice's pointer and length; image and work are borrowed for writing, so no two
    // slices overlap.
    let answer = unsafe {
        raw::trieff_store(
            image.as_mut_ptr(),
            image.len(),
            work.as_mut_ptr(),
            work.len(),
            letters.as_ptr(),
            letters.len(),
            value,
        )
    };
    heard(answer).map(|done| done.change)
}

/// The same as [`store`], for a key given as text in UTF-8.
///
/// Refusals: 1 to 8, 16, 19, 10, 9, 11, 12, 13.
///
/// ```
/// use trieff::{look_up, make, store_text, Refusal, Shape};
///
/// let mut image = [0; 48];
/// let mut work = [0; 3];
/// make(&mut image, Shape { n: 3, a: 1, d: 1, min: 1, max: 3 }, "AÉ→".as_bytes())?;
/// assert_eq!(store_text(&mut image, &mut work, "É→".as_bytes(), 9)?, 1);
/// assert_eq!(look_up(&image, &[1, 2])?, Some(9));
/// assert_eq!(store_text(&mut image, &mut work, b"E", 9), Err(Refusal::Letter));
/// # Ok::<(), Refusal>(())
/// ```
pub fn store_text(
    image: &mut [u8],
    work: &mut [u32],
    text: &[u8],
    value: u64,
) -> Result<i32, Refusal> {
    // SAFETY: each slice's pointer and length; image and work are borrowed for writing, so no two
    // slices overlap.
    let answer = unsafe {
        raw::trieff_store_text(
            image.as_mut_ptr(),
            image.len(),
            work.as_mut_ptr(),
            work.len(),
            text.as_ptr(),
            text.len(),
            value,
        )
    };
    heard(answer).map(|done| done.change)
}

/// A store with writes: the same as [`store`] in what it answers, refuses and writes to the image.
/// It also leaves the list of its writes, so that they can be carried out on a kept image one by
/// one.
///
/// If the key's path is complete, the list is one write, of the data field, also if the value was
/// there already. If it is not complete, the list is empty for a value of 0. For any other value
/// it is the new nodes, one write each by rising address, then G, then the link to the first new
/// node. All writes, carried out in order, turn the image from before the call into the image
/// after it. A refusal leaves the list as it was.
///
/// Refusals: 1 to 8, 16, 19, 9, 10, 11, 12, 13.
///
/// ```
/// use trieff::{make, store_writes, Refusal, Shape, Writes};
///
/// let mut image = [0; 43];
/// let mut work = [0; 3];
/// let mut writes = Writes::new();
/// make(&mut image, Shape { n: 3, a: 1, d: 1, min: 1, max: 3 }, b"ABC")?;
/// let mut kept = image;
/// assert_eq!(store_writes(&mut image, &mut work, &[1, 0], 9, &mut writes)?, 1);
/// for write in writes.iter() {
///     kept[write.clone()].copy_from_slice(&image[write]);
/// }
/// assert_eq!(kept, image);
///
/// let refused = store_writes(&mut image, &mut work, &[2, 2, 2], 1, &mut writes);
/// assert_eq!(refused, Err(Refusal::NoRoom));
/// assert_eq!(writes.len(), 4);
/// # Ok::<(), Refusal>(())
/// ```
pub fn store_writes(
    image: &mut [u8],
    work: &mut [u32],
    letters: &[u8],
    value: u64,
    writes: &mut Writes,
) -> Result<i32, Refusal> {
    // SAFETY: each slice's pointer and length, and an array of 2 * WRITES_MOST numbers; image,
    // work and writes are borrowed for writing, so no two overlap.
    let answer = unsafe {
        raw::trieff_store_writes(
            image.as_mut_ptr(),
            image.len(),
            work.as_mut_ptr(),
            work.len(),
            letters.as_ptr(),
            letters.len(),
            value,
            writes.numbers.as_mut_ptr(),
        )
    };
    listed(answer, writes)
}

/// The same as [`store_writes`], for a key given as text in UTF-8.
///
/// Refusals: 1 to 8, 16, 19, 10, 9, 11, 12, 13.
///
/// ```
/// use trieff::{make, store_text_writes, Refusal, Shape, Writes};
///
/// let mut image = [0; 48];
/// let mut work = [0; 3];
/// let mut writes = Writes::new();
/// make(&mut image, Shape { n: 3, a: 1, d: 1, min: 1, max: 3 }, "AÉ→".as_bytes())?;
/// assert_eq!(store_text_writes(&mut image, &mut work, "É→".as_bytes(), 9, &mut writes)?, 1);
/// assert!(writes.iter().eq([38..42, 42..46, 0..4, 35..36]));
/// let refused = store_text_writes(&mut image, &mut work, b"E", 9, &mut writes);
/// assert_eq!(refused, Err(Refusal::Letter));
/// # Ok::<(), Refusal>(())
/// ```
pub fn store_text_writes(
    image: &mut [u8],
    work: &mut [u32],
    text: &[u8],
    value: u64,
    writes: &mut Writes,
) -> Result<i32, Refusal> {
    // SAFETY: each slice's pointer and length, and an array of 2 * WRITES_MOST numbers; image,
    // work and writes are borrowed for writing, so no two overlap.
    let answer = unsafe {
        raw::trieff_store_text_writes(
            image.as_mut_ptr(),
            image.len(),
            work.as_mut_ptr(),
            work.len(),
            text.as_ptr(),
            text.len(),
            value,
            writes.numbers.as_mut_ptr(),
        )
    };
    listed(answer, writes)
}

/// Mends an image after a cut. If [`check`] refuses it with 8 at p, and the image with G set to
/// p-1 is accepted, G becomes p-1. Otherwise nothing changes and the check's answer is returned:
/// `Ok` for an image that is accepted as it is. This holds for every image, cut or not. G is
/// lowered once: in a file from elsewhere the lower G may leave a 6, another 8, a 16 or a 19, and
/// then the answer is 8 at p.
///
/// Done: it changes the first four bytes or nothing. If they changed, write them back to the kept
/// image, as one write that lands whole or not at all, and flush, before the next store. Until
/// then the kept image still counts the nodes that were cut off, so new nodes would not go to its
/// spare bytes. If a cut comes there, the next start mends again.
///
/// Refusals: 1 to 8, 16, 19.
///
/// ```
/// use trieff::{check, make, mend, Refusal, Shape};
///
/// let mut image = [0; 39];
/// let mut work = [0; 2];
/// make(&mut image, Shape { n: 3, a: 1, d: 1, min: 1, max: 3 }, b"ABC")?;
/// image[3] = 1; // G = 1, and no link to node 1
/// assert_eq!(check(&image, &mut work), Err(Refusal::NotLinked(1)));
/// assert_eq!(mend(&mut image, &mut work), Ok(()));
/// assert_eq!(image[..4], [0, 0, 0, 0]);
/// assert_eq!(check(&image, &mut work), Ok(()));
///
/// // no cut of a store leaves this: the root links to node 2, and no link leads to node 1
/// let mut image = [0; 43];
/// let mut work = [0; 3];
/// make(&mut image, Shape { n: 3, a: 1, d: 1, min: 1, max: 3 }, b"ABC")?;
/// (image[3], image[32]) = (2, 2);
/// assert_eq!(mend(&mut image, &mut work), Err(Refusal::NotLinked(1)));
/// assert_eq!(image[..4], [0, 0, 0, 2]);
///
/// (image[32], image[39]) = (0, 1); // node 2 links to node 1, and no link leads to node 2
/// assert_eq!(mend(&mut image, &mut work), Err(Refusal::NotLinked(2)));
/// assert_eq!(image[..4], [0, 0, 0, 2]);
///
/// (image[3], image[34], image[39]) = (1, 4, 0); // no link to node 1, and data at the root
/// assert_eq!(mend(&mut image, &mut work), Err(Refusal::NotLinked(1)));
/// assert_eq!(image[..4], [0, 0, 0, 1]);
/// # Ok::<(), Refusal>(())
/// ```
pub fn mend(image: &mut [u8], work: &mut [u32]) -> Result<(), Refusal> {
    // SAFETY: each slice's pointer and length; image and work are borrowed for writing, so they do
    // not overlap.
    let answer = unsafe {
        raw::trieff_mend(image.as_mut_ptr(), image.len(), work.as_mut_ptr(), work.len())
    };
    heard(answer).map(|_| ())
}

/// The first stored key at or after the key given or, if `after` is true, after it. A key comes
/// before its extensions; otherwise the first different letter number decides. The key given has 0
/// to max letters and need not be stored. The first stored key of all is the one at or after the
/// empty key. [`keys`] and [`keys_from`] call it repeatedly.
///
/// Done: it writes the letters of the key found to the front of the key buffer. The rest of the
/// buffer keeps what it held. If there is no such key, the refusal is [`Refusal::NoKey`].
///
/// Refusals: 1 to 8, 16, 19, 9 (only for a key longer than max), 10, 14, 15.
///
/// ```
/// use trieff::{make, next_key, store, Found, Refusal, Shape};
///
/// let mut image = [0; 43];
/// let mut work = [0; 3];
/// make(&mut image, Shape { n: 3, a: 1, d: 1, min: 1, max: 3 }, b"ABC")?;
/// store(&mut image, &mut work, &[1, 0], 9)?;
/// store(&mut image, &mut work, &[1], 5)?;
///
/// let mut key = [7; 3];
/// assert_eq!(next_key(&image, &mut work, &[], false, &mut key)?, Found { length: 1, value: 5 });
/// assert_eq!(next_key(&image, &mut work, &[1], true, &mut key)?, Found { length: 2, value: 9 });
/// assert_eq!(key, [1, 0, 7]);
/// assert_eq!(next_key(&image, &mut work, &[1, 0], true, &mut key), Err(Refusal::NoKey));
/// assert_eq!(next_key(&image, &mut work, &[1], true, &mut key[..2]), Err(Refusal::ShortBuffer));
/// # Ok::<(), Refusal>(())
/// ```
pub fn next_key(
    image: &[u8],
    work: &mut [u32],
    letters: &[u8],
    after: bool,
    key: &mut [u8],
) -> Result<Found, Refusal> {
    // SAFETY: each slice's pointer and length; work and key are borrowed for writing, so no two
    // slices overlap but perhaps image and letters, which are only read.
    let answer = unsafe {
        raw::trieff_next_key(
            image.as_ptr(),
            image.len(),
            work.as_mut_ptr(),
            work.len(),
            letters.as_ptr(),
            letters.len(),
            after,
            key.as_mut_ptr(),
            key.len(),
        )
    };
    heard(answer).map(found)
}

fn heard(answer: TrieffAnswer) -> Result<TrieffAnswer, Refusal> {
    match Refusal::of(answer.number, answer.place) {
        None => Ok(answer),
        Some(refusal) => Err(refusal),
    }
}

fn listed(answer: TrieffAnswer, writes: &mut Writes) -> Result<i32, Refusal> {
    let done = heard(answer)?;
    writes.count = done.length as usize;
    Ok(done.change)
}

fn found(done: TrieffAnswer) -> Found {
    Found { length: done.length as usize, value: done.value }
}

fn present(done: TrieffAnswer) -> Option<u64> {
    match done.value {
        0 => None,
        value => Some(value),
    }
}
