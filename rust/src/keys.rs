use crate::{next_key, Found, Refusal};
use core::fmt;
use core::iter::FusedIterator;

/// The most letters in a key.
const KEY_MOST: usize = 64;

/// The stored keys in order, each with its value: an iterator that begins with the first one.
///
/// Each step is one [`next_key`], which checks the whole image. So the time of a step grows with
/// the number of nodes. After the last key the iterator ends; [`Refusal::NoKey`] is never given.
/// Any other refusal is given once, and ends the iterator too. The key buffer is the iterator's
/// own and always long enough, so [`Refusal::ShortBuffer`] is never given.
///
/// Refusals: 1 to 8, 16, 19.
///
/// ```
/// use trieff::{keys, make, store, Refusal, Shape};
///
/// let mut image = [0; 43];
/// let mut work = [0; 3];
/// make(&mut image, Shape { n: 3, a: 1, d: 1, min: 1, max: 3 }, b"ABC")?;
/// store(&mut image, &mut work, &[1, 0], 9)?;
/// store(&mut image, &mut work, &[1], 5)?;
///
/// let mut sum = 0;
/// for stored in keys(&image, &mut work) {
///     sum += stored?.value();
/// }
/// assert_eq!(sum, 14);
///
/// image[35] = 3; // node 1 links to a node that is not there
/// assert!(keys(&image, &mut work).eq([Err(Refusal::Link(1))]));
/// # Ok::<(), Refusal>(())
/// ```
pub fn keys<'a>(image: &'a [u8], work: &'a mut [u32]) -> Keys<'a> {
    keys_from(image, work, &[], false)
}

/// The same as [`keys`], from a key on: the iterator begins with the first stored key at or after
/// the key given or, if `after` is true, after it. The key given has 0 to max letters and need not
/// be stored.
///
/// Refusals: 1 to 8, 16, 19, 9 (only for a key longer than max), 10.
///
/// ```
/// use trieff::{keys_from, make, store, Refusal, Shape};
///
/// let mut image = [0; 43];
/// let mut work = [0; 3];
/// make(&mut image, Shape { n: 3, a: 1, d: 1, min: 1, max: 3 }, b"ABC")?;
/// store(&mut image, &mut work, &[1, 0], 9)?;
/// store(&mut image, &mut work, &[1], 5)?;
///
/// let mut from = keys_from(&image, &mut work, &[1], true);
/// let stored = from.next().unwrap()?;
/// assert_eq!((stored.letters(), stored.value()), (&[1, 0][..], 9));
/// assert_eq!(from.next(), None);
///
/// assert_eq!(keys_from(&image, &mut work, &[2], false).next(), None);
/// let refused = Some(Err(Refusal::KeyLength));
/// assert_eq!(keys_from(&image, &mut work, &[0; 4], false).next(), refused);
/// # Ok::<(), Refusal>(())
/// ```
pub fn keys_from<'a>(
    image: &'a [u8],
    work: &'a mut [u32],
    letters: &[u8],
    after: bool,
) -> Keys<'a> {
    // No image takes a key of more than KEY_MOST letters. So one letter more is enough for the
    // answer that a longer key has: 9, where it comes in the order.
    let length = letters.len().min(KEY_MOST + 1);
    let mut last = [0; KEY_MOST + 1];
    last[..length].copy_from_slice(&letters[..length]);
    Keys { image, work, last, length, after, ended: false }
}

/// The iterator that [`keys`] and [`keys_from`] give.
#[derive(Debug)]
pub struct Keys<'a> {
    image: &'a [u8],
    work: &'a mut [u32],
    /// The key given, then the last one found, in the first `length` letters.
    last: [u8; KEY_MOST + 1],
    length: usize,
    after: bool,
    ended: bool,
}

impl Iterator for Keys<'_> {
    type Item = Result<Stored, Refusal>;

    fn next(&mut self) -> Option<Result<Stored, Refusal>> {
        if self.ended {
            return None;
        }
        let mut letters = [0; KEY_MOST];
        let last = &self.last[..self.length];
        match next_key(self.image, self.work, last, self.after, &mut letters) {
            Ok(Found { length, value }) => {
                self.last[..length].copy_from_slice(&letters[..length]);
                (self.length, self.after) = (length, true);
                Some(Ok(Stored { letters, length, value }))
            }
            Err(refusal) => {
                self.ended = true;
                (refusal != Refusal::NoKey).then_some(Err(refusal))
            }
        }
    }
}

impl FusedIterator for Keys<'_> {}

/// A stored key with its value, as [`Keys`] gives it.
#[derive(Clone, Copy, PartialEq, Eq)]
pub struct Stored {
    /// Those after the first `length` are 0.
    letters: [u8; KEY_MOST],
    length: usize,
    value: u64,
}

impl Stored {
    /// The key's letter numbers.
    pub fn letters(&self) -> &[u8] {
        &self.letters[..self.length]
    }

    /// The value that is stored under the key, never 0.
    pub fn value(&self) -> u64 {
        self.value
    }
}

/// The key's letters alone, and the value.
impl fmt::Debug for Stored {
    fn fmt(&self, f: &mut fmt::Formatter<'_>) -> fmt::Result {
        let letters = &self.letters();
        f.debug_struct("Stored").field("letters", letters).field("value", &self.value).finish()
    }
}
