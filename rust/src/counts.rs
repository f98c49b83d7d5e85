use crate::raw;
use crate::{found, heard, Found, Refusal};

/// The counts beside an image, in a list of numbers that is lent: for each node the number of
/// stored keys at or under it. They lead from a position to a key, and from a key to its position.
///
/// The list has one 32-bit number for each node. Lend enough for the greatest G that the image can
/// reach: as many as the nodes passed to [`Shape::length`](crate::Shape::length). The counts after
/// the first G+1 are never read.
///
/// What the list holds at first does not matter: call [`work_out`](Counts::work_out) once, after
/// the start or after [`mend`](crate::mend). Every other call with counts compares them with fresh
/// ones, once the image has passed the check. So wrong counts are never used: the answer is
/// [`Refusal::CountsDiffer`] at the lowest node whose count differs. The stores here keep the
/// counts right. The functions of the crate's root do not change the counts. After one of them has
/// changed the image, a store with writes too, work the counts out afresh.
///
/// ```
/// use trieff::{make, store, Counts, Refusal, Shape};
///
/// let mut image = [0; 43];
/// let (mut work, mut numbers) = ([0; 3], [0; 3]);
/// make(&mut image, Shape { n: 3, a: 1, d: 1, min: 1, max: 3 }, b"ABC")?;
/// let mut counts = Counts::new(&mut numbers);
/// counts.store(&mut image, &mut work, &[1, 0], 9)?;
/// assert_eq!(counts.numbers(), [1, 1, 1]);
///
/// store(&mut image, &mut work, &[1], 5)?; // a store that does not change the counts
/// assert_eq!(counts.position(&image, &mut work, &[1, 0]), Err(Refusal::CountsDiffer(0)));
/// counts.work_out(&image, &mut work)?;
/// assert_eq!(counts.numbers(), [2, 2, 1]);
/// assert_eq!(counts.position(&image, &mut work, &[1, 0])?, 1);
/// # Ok::<(), Refusal>(())
/// ```
#[derive(Debug)]
pub struct Counts<'a> {
    numbers: &'a mut [u32],
}

impl<'a> Counts<'a> {
    /// A list of counts in the numbers lent. They keep what they hold. So counts that were worked
    /// out for this image before need not be worked out again. Zeros are right for a fresh image.
    pub fn new(numbers: &'a mut [u32]) -> Counts<'a> {
        Counts { numbers }
    }

    /// The counts, one for each node. The first is the number of stored keys.
    pub fn numbers(&self) -> &[u32] {
        self.numbers
    }

    /// Works the counts out afresh, whatever the list held.
    ///
    /// Done: it writes the first G+1 counts. The rest keep what they held.
    ///
    /// Refusals: 1 to 8 (5 for either list), 16, 19.
    ///
    /// ```
    /// use trieff::{make, store, Counts, Refusal, Shape};
    ///
    /// let mut image = [0; 43];
    /// let (mut work, mut numbers) = ([0; 3], [77; 4]);
    /// make(&mut image, Shape { n: 3, a: 1, d: 1, min: 1, max: 3 }, b"ABC")?;
    /// store(&mut image, &mut work, &[1, 0], 9)?;
    /// Counts::new(&mut numbers).work_out(&image, &mut work)?;
    /// assert_eq!(numbers, [1, 1, 1, 77]);
    ///
    /// let mut counts = Counts::new(&mut numbers[..2]);
    /// assert_eq!(counts.work_out(&image, &mut work), Err(Refusal::TooFewNumbers));
    /// # Ok::<(), Refusal>(())
    /// ```
    pub fn work_out(&mut self, image: &[u8], work: &mut [u32]) -> Result<(), Refusal> {
        // SAFETY: each slice's pointer and length; work and the counts are borrowed for writing,
        // so no two slices overlap.
        let answer = unsafe {
            raw::trieff_counts(
                image.as_ptr(),
                image.len(),
                work.as_mut_ptr(),
                work.len(),
                self.numbers.as_mut_ptr(),
                self.numbers.len(),
            )
        };
        heard(answer).map(|_| ())
    }

    /// Checks an image and its counts.
    ///
    /// Refusals: 1 to 8 (5 for either list), 16, 19, 25.
    ///
    /// ```
    /// use trieff::{make, store, Counts, Refusal, Shape};
    ///
    /// let mut image = [0; 43];
    /// let mut work = [0; 3];
    /// make(&mut image, Shape { n: 3, a: 1, d: 1, min: 1, max: 3 }, b"ABC")?;
    /// store(&mut image, &mut work, &[1, 0], 9)?;
    /// assert_eq!(Counts::new(&mut [1, 1, 1]).check(&image, &mut work), Ok(()));
    /// let differ = Err(Refusal::CountsDiffer(1));
    /// assert_eq!(Counts::new(&mut [1, 2, 2]).check(&image, &mut work), differ);
    /// # Ok::<(), Refusal>(())
    /// ```
    pub fn check(&self, image: &[u8], work: &mut [u32]) -> Result<(), Refusal> {
        // SAFETY: each slice's pointer and length; work is borrowed for writing, so no other slice
        // overlaps it.
        let answer = unsafe {
            raw::trieff_check_counts(
                image.as_ptr(),
                image.len(),
                work.as_mut_ptr(),
                work.len(),
                self.numbers.as_ptr(),
                self.numbers.len(),
            )
        };
        heard(answer).map(|_| ())
    }

    /// The same as [`store`](crate::store) in what it answers and writes to the image. It also
    /// keeps the counts right.
    ///
    /// Done: the first G+1 counts, with the new G, are those of the new image. Only the counts on
    /// the key's path and those of the new nodes change.
    ///
    /// Refusals: 1 to 8 (5 for either list), 16, 19, 25, 9, 10, 11, 12, 13, then 5 again if fewer
    /// than G+k+1 counts are lent. Here k is the number of nodes that are missing on the key's
    /// path. A value of 0 needs no new nodes, so 12, 13 and the second 5 are never given for it.
    ///
    /// ```
    /// use trieff::{make, Counts, Refusal, Shape};
    ///
    /// let mut image = [0; 55];
    /// let (mut work, mut numbers) = ([0; 6], [0; 4]);
    /// make(&mut image, Shape { n: 3, a: 1, d: 1, min: 1, max: 3 }, b"ABC")?;
    /// let mut counts = Counts::new(&mut numbers);
    /// assert_eq!(counts.store(&mut image, &mut work, &[1, 0], 9)?, 1);
    /// assert_eq!(counts.store(&mut image, &mut work, &[1], 5)?, 1);
    /// assert_eq!(counts.numbers(), [2, 2, 1, 0]);
    /// assert_eq!(counts.store(&mut image, &mut work, &[1], 0)?, -1);
    /// assert_eq!(counts.numbers(), [1, 1, 1, 0]);
    ///
    /// // the image has room for three more nodes, the list only for one more count
    /// let short = Err(Refusal::TooFewNumbers);
    /// assert_eq!(counts.store(&mut image, &mut work, &[2, 2, 2], 1), short);
    /// assert_eq!(counts.store(&mut image, &mut work, &[2], 1)?, 1);
    /// assert_eq!(counts.numbers(), [2, 1, 1, 1]);
    /// # Ok::<(), Refusal>(())
    /// ```
    pub fn store(
        &mut self,
        image: &mut [u8],
        work: &mut [u32],
        letters: &[u8],
        value: u64,
    ) -> Result<i32, Refusal> {
        // SAFETY: each slice's pointer and length; image, work and the counts are borrowed for
        // writing, so no two slices overlap.
        let answer = unsafe {
            raw::trieff_store_counts(
                image.as_mut_ptr(),
                image.len(),
                work.as_mut_ptr(),
                work.len(),
                letters.as_ptr(),
                letters.len(),
                value,
                self.numbers.as_mut_ptr(),
                self.numbers.len(),
            )
        };
        heard(answer).map(|done| done.change)
    }

    /// The same as [`store`](Counts::store), for a key given as text in UTF-8.
    ///
    /// Refusals: 1 to 8 (5 for either list), 16, 19, 25, 10, 9, 11, 12, 13, then 5 again.
    ///
    /// ```
    /// use trieff::{make, Counts, Refusal, Shape};
    ///
    /// let mut image = [0; 48];
    /// let (mut work, mut numbers) = ([0; 3], [0; 3]);
    /// make(&mut image, Shape { n: 3, a: 1, d: 1, min: 1, max: 3 }, "AÉ→".as_bytes())?;
    /// let mut counts = Counts::new(&mut numbers);
    /// assert_eq!(counts.store_text(&mut image, &mut work, "É→".as_bytes(), 9)?, 1);
    /// assert_eq!(counts.numbers(), [1, 1, 1]);
    /// let letter = Err(Refusal::Letter);
    /// assert_eq!(counts.store_text(&mut image, &mut work, b"E", 9), letter);
    /// # Ok::<(), Refusal>(())
    /// ```
    pub fn store_text(
        &mut self,
        image: &mut [u8],
        work: &mut [u32],
        text: &[u8],
        value: u64,
    ) -> Result<i32, Refusal> {
        // SAFETY: each slice's pointer and length; image, work and the counts are borrowed for
        // writing, so no two slices overlap.
        let answer = unsafe {
            raw::trieff_store_text_counts(
                image.as_mut_ptr(),
                image.len(),
                work.as_mut_ptr(),
                work.len(),
                text.as_ptr(),
                text.len(),
                value,
                self.numbers.as_mut_ptr(),
                self.numbers.len(),
            )
        };
        heard(answer).map(|done| done.change)
    }

    /// The stored key at a position, from 0: the first stored key moved on by `position` steps of
    /// [`next_key`](crate::next_key).
    ///
    /// Done: it writes the key's letters to the front of the key buffer. The rest of the buffer
    /// keeps what it held. For a position past the end the refusal is [`Refusal::NoKey`].
    ///
    /// Refusals: 1 to 8 (5 for either list), 16, 19, 25, 14, 15.
    ///
    /// ```
    /// use trieff::{make, Counts, Found, Refusal, Shape};
    ///
    /// let mut image = [0; 43];
    /// let (mut work, mut numbers) = ([0; 3], [0; 3]);
    /// make(&mut image, Shape { n: 3, a: 1, d: 1, min: 1, max: 3 }, b"ABC")?;
    /// let mut counts = Counts::new(&mut numbers);
    /// counts.store(&mut image, &mut work, &[1, 0], 9)?;
    /// counts.store(&mut image, &mut work, &[1], 5)?;
    ///
    /// let mut key = [7; 3];
    /// let found = counts.nth(&image, &mut work, 0, &mut key)?;
    /// assert_eq!((found, key), (Found { length: 1, value: 5 }, [1, 7, 7]));
    /// let found = counts.nth(&image, &mut work, 1, &mut key)?;
    /// assert_eq!((found, key), (Found { length: 2, value: 9 }, [1, 0, 7]));
    /// assert_eq!(counts.nth(&image, &mut work, 2, &mut key), Err(Refusal::NoKey));
    /// let short = Err(Refusal::ShortBuffer);
    /// assert_eq!(counts.nth(&image, &mut work, 1, &mut key[..2]), short);
    /// # Ok::<(), Refusal>(())
    /// ```
    pub fn nth(
        &self,
        image: &[u8],
        work: &mut [u32],
        position: u64,
        key: &mut [u8],
    ) -> Result<Found, Refusal> {
        // SAFETY: each slice's pointer and length; work and key are borrowed for writing, so no
        // two slices overlap but perhaps image and the counts, which are only read.
        let answer = unsafe {
            raw::trieff_key_at(
                image.as_ptr(),
                image.len(),
                work.as_mut_ptr(),
                work.len(),
                self.numbers.as_ptr(),
                self.numbers.len(),
                position,
                key.as_mut_ptr(),
                key.len(),
            )
        };
        heard(answer).map(found)
    }

    /// The position of a stored key given by its letter numbers, from 0. If the key is not stored,
    /// the refusal is [`Refusal::NoKey`].
    ///
    /// Refusals: 1 to 8 (5 for either list), 16, 19, 25, 9, 10, 15.
    ///
    /// ```
    /// use trieff::{make, Counts, Refusal, Shape};
    ///
    /// let mut image = [0; 43];
    /// let (mut work, mut numbers) = ([0; 3], [0; 3]);
    /// make(&mut image, Shape { n: 3, a: 1, d: 1, min: 1, max: 3 }, b"ABC")?;
    /// let mut counts = Counts::new(&mut numbers);
    /// counts.store(&mut image, &mut work, &[1, 0], 9)?;
    /// assert_eq!(counts.position(&image, &mut work, &[1, 0])?, 0);
    /// assert_eq!(counts.position(&image, &mut work, &[1]), Err(Refusal::NoKey));
    /// assert_eq!(counts.position(&image, &mut work, &[]), Err(Refusal::KeyLength));
    /// assert_eq!(counts.position(&image, &mut work, &[3]), Err(Refusal::Letter));
    /// # Ok::<(), Refusal>(())
    /// ```
    pub fn position(
        &self,
        image: &[u8],
        work: &mut [u32],
        letters: &[u8],
    ) -> Result<u64, Refusal> {
        // SAFETY: each slice's pointer and length; work is borrowed for writing, so no other slice
        // overlaps it.
        let answer = unsafe {
            raw::trieff_position(
                image.as_ptr(),
                image.len(),
                work.as_mut_ptr(),
                work.len(),
                self.numbers.as_ptr(),
                self.numbers.len(),
                letters.as_ptr(),
                letters.len(),
            )
        };
        heard(answer).map(|done| done.value)
    }

    /// The same as [`position`](Counts::position), for a key given as text in UTF-8.
    ///
    /// Refusals: 1 to 8 (5 for either list), 16, 19, 25, 10, 9, 15.
    ///
    /// ```
    /// use trieff::{make, Counts, Refusal, Shape};
    ///
    /// let mut image = [0; 48];
    /// let (mut work, mut numbers) = ([0; 3], [0; 3]);
    /// make(&mut image, Shape { n: 3, a: 1, d: 1, min: 1, max: 3 }, "AÉ→".as_bytes())?;
    /// let mut counts = Counts::new(&mut numbers);
    /// counts.store_text(&mut image, &mut work, "É".as_bytes(), 5)?;
    /// counts.store_text(&mut image, &mut work, "É→".as_bytes(), 9)?;
    /// assert_eq!(counts.position_text(&image, &mut work, "É→".as_bytes())?, 1);
    /// assert_eq!(counts.position_text(&image, &mut work, b"A"), Err(Refusal::NoKey));
    /// assert_eq!(counts.position_text(&image, &mut work, b"\xC3"), Err(Refusal::Letter));
    /// # Ok::<(), Refusal>(())
    /// ```
    pub fn position_text(
        &self,
        image: &[u8],
        work: &mut [u32],
        text: &[u8],
    ) -> Result<u64, Refusal> {
        // SAFETY: each slice's pointer and length; work is borrowed for writing, so no other slice
        // overlaps it.
        let answer = unsafe {
            raw::trieff_position_text(
                image.as_ptr(),
                image.len(),
                work.as_mut_ptr(),
                work.len(),
                self.numbers.as_ptr(),
                self.numbers.len(),
                text.as_ptr(),
                text.len(),
            )
        };
        heard(answer).map(|done| done.value)
    }
}
