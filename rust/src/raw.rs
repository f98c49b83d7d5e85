//! The C functions as they are: `include/trieff.h`, name for name. The functions of the crate's
//! root call them and are safe. Here the caller's part is what the header says. As many elements
//! are there as the length says. Where the length is 0, the pointer may be null. `writes` has no
//! length, is never null, and 132 numbers are there. `work`, `counts` and `writes` are aligned. A
//! slice that a call may write to overlaps no other slice of that call. Nobody else changes a
//! slice during the call.

/// The version of the header that these declarations follow, TRIEFF_VERSION. In version 1 a store
/// took a value of 32 bits. A library of version 1 links all the same, and drops the upper half.
pub const VERSION: u32 = 2;

/// The answer of every call. A field that a call does not use is 0. In a refusal all fields but
/// `number` and `place` are 0.
#[repr(C)]
#[derive(Clone, Copy, Debug, PartialEq, Eq, Default)]
pub struct TrieffAnswer {
    /// 0: done; otherwise the refusal's number.
    pub number: u32,
    /// The node or address that the refusal names, else 0.
    pub place: u32,
    /// Next key and key at a position: the number of letters written to the key buffer. Store with
    /// writes: the number of writes in the list.
    pub length: u32,
    /// Every store: the change in the number of stored keys, -1, 0 or 1.
    pub change: i32,
    /// Look up: the value, 0 for absent. Next key and key at a position: the value of the key
    /// found. Count: the number of stored keys. Position: the key's position.
    pub value: u64,
}

extern "C" {
    /// Makes a fresh image. Refusals: 1, 2, 3, 4.
    pub fn trieff_make(
        image: *mut u8,
        image_len: usize,
        n: u32,
        a: u32,
        d: u32,
        alphabet: *const u8,
        alphabet_len: usize,
        min: u32,
        max: u32,
    ) -> TrieffAnswer;

    /// Checks an image. Refusals: 1 to 8, 16, 19.
    pub fn trieff_check(
        image: *const u8,
        image_len: usize,
        work: *mut u32,
        work_len: usize,
    ) -> TrieffAnswer;

    /// The number of stored keys. Refusals: 1 to 8, 16, 19.
    pub fn trieff_count(
        image: *const u8,
        image_len: usize,
        work: *mut u32,
        work_len: usize,
    ) -> TrieffAnswer;

    /// The value under a key given by its letters. Refusals: 1 to 4, 9, 10, 6.
    pub fn trieff_look_up(
        image: *const u8,
        image_len: usize,
        letters: *const u8,
        letters_len: usize,
    ) -> TrieffAnswer;

    /// The value under a key given by its text. Refusals: 1 to 4, 10, 9, 6.
    pub fn trieff_look_up_text(
        image: *const u8,
        image_len: usize,
        text: *const u8,
        text_len: usize,
    ) -> TrieffAnswer;

    /// Stores a value under a key given by its letters, 0 to delete.
    /// Refusals: 1 to 8, 16, 19, 9, 10, 11, 12, 13.
    pub fn trieff_store(
        image: *mut u8,
        image_len: usize,
        work: *mut u32,
        work_len: usize,
        letters: *const u8,
        letters_len: usize,
        value: u64,
    ) -> TrieffAnswer;

    /// Stores a value under a key given by its text, 0 to delete.
    /// Refusals: 1 to 8, 16, 19, 10, 9, 11, 12, 13.
    pub fn trieff_store_text(
        image: *mut u8,
        image_len: usize,
        work: *mut u32,
        work_len: usize,
        text: *const u8,
        text_len: usize,
        value: u64,
    ) -> TrieffAnswer;

    /// As `trieff_store`, and also leaves the list of its writes in the 132 numbers lent.
    /// Refusals: 1 to 8, 16, 19, 9, 10, 11, 12, 13.
    pub fn trieff_store_writes(
        image: *mut u8,
        image_len: usize,
        work: *mut u32,
        work_len: usize,
        letters: *const u8,
        letters_len: usize,
        value: u64,
        writes: *mut u32,
    ) -> TrieffAnswer;

    /// As `trieff_store_text`, and also leaves the list of its writes in the 132 numbers lent.
    /// Refusals: 1 to 8, 16, 19, 10, 9, 11, 12, 13.
    pub fn trieff_store_text_writes(
        image: *mut u8,
        image_len: usize,
        work: *mut u32,
        work_len: usize,
        text: *const u8,
        text_len: usize,
        value: u64,
        writes: *mut u32,
    ) -> TrieffAnswer;

    /// Mends an image after a cut: lowers G if the check answers 8 and the image is then accepted.
    /// Refusals: 1 to 8, 16, 19, those of the check.
    pub fn trieff_mend(
        image: *mut u8,
        image_len: usize,
        work: *mut u32,
        work_len: usize,
    ) -> TrieffAnswer;

    /// The first stored key at or after a key or, if `after` is true, after it.
    /// Refusals: 1 to 8, 16, 19, 9 (only for a key longer than max), 10, 14, 15.
    pub fn trieff_next_key(
        image: *const u8,
        image_len: usize,
        work: *mut u32,
        work_len: usize,
        letters: *const u8,
        letters_len: usize,
        after: bool,
        key: *mut u8,
        key_len: usize,
    ) -> TrieffAnswer;

    /// Works the counts out afresh. Refusals: 1 to 8 (5 for either list), 16, 19.
    pub fn trieff_counts(
        image: *const u8,
        image_len: usize,
        work: *mut u32,
        work_len: usize,
        counts: *mut u32,
        counts_len: usize,
    ) -> TrieffAnswer;

    /// Checks an image and its counts. Refusals: 1 to 8 (5 for either list), 16, 19, 25.
    pub fn trieff_check_counts(
        image: *const u8,
        image_len: usize,
        work: *mut u32,
        work_len: usize,
        counts: *const u32,
        counts_len: usize,
    ) -> TrieffAnswer;

    /// As `trieff_store`, and keeps the counts right.
    /// Refusals: 1 to 8 (5 for either list), 16, 19, 25, 9, 10, 11, 12, 13, then 5 again.
    pub fn trieff_store_counts(
        image: *mut u8,
        image_len: usize,
        work: *mut u32,
        work_len: usize,
        letters: *const u8,
        letters_len: usize,
        value: u64,
        counts: *mut u32,
        counts_len: usize,
    ) -> TrieffAnswer;

    /// As `trieff_store_text`, and keeps the counts right.
    /// Refusals: 1 to 8 (5 for either list), 16, 19, 25, 10, 9, 11, 12, 13, then 5 again.
    pub fn trieff_store_text_counts(
        image: *mut u8,
        image_len: usize,
        work: *mut u32,
        work_len: usize,
        text: *const u8,
        text_len: usize,
        value: u64,
        counts: *mut u32,
        counts_len: usize,
    ) -> TrieffAnswer;

    /// The stored key at a position. Refusals: 1 to 8 (5 for either list), 16, 19, 25, 14, 15.
    pub fn trieff_key_at(
        image: *const u8,
        image_len: usize,
        work: *mut u32,
        work_len: usize,
        counts: *const u32,
        counts_len: usize,
        position: u64,
        key: *mut u8,
        key_len: usize,
    ) -> TrieffAnswer;

    /// The position of a stored key given by its letters.
    /// Refusals: 1 to 8 (5 for either list), 16, 19, 25, 9, 10, 15.
    pub fn trieff_position(
        image: *const u8,
        image_len: usize,
        work: *mut u32,
        work_len: usize,
        counts: *const u32,
        counts_len: usize,
        letters: *const u8,
        letters_len: usize,
    ) -> TrieffAnswer;

    /// The position of a stored key given by its text.
    /// Refusals: 1 to 8 (5 for either list), 16, 19, 25, 10, 9, 15.
    pub fn trieff_position_text(
        image: *const u8,
        image_len: usize,
        work: *mut u32,
        work_len: usize,
        counts: *const u32,
        counts_len: usize,
        text: *const u8,
        text_len: usize,
    ) -> TrieffAnswer;
}
