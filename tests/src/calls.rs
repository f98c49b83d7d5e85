//! The calls. Each has its name and the numbers that documents 01 and 02 let it answer. The model
//! and the library are called here.
//!
//! To add a call, add a variant of `Call`, its row in `KINDS`, an arm in `Call::kind`,
//! `ask_model`, `ask_library` and `safe::ask_safe`, and a choice in `cases::Case::draw`.

use crate::model::{self, Answer, WRITES};
use trieff::raw;

/// A call without the memory lent to it. The alphabet, letters or text that it reads are lent
/// memory too.
#[derive(Clone, Copy, Debug, PartialEq, Eq)]
pub enum Call {
    Make { n: u32, a: u32, d: u32, min: u32, max: u32 },
    Check,
    Count,
    LookUp,
    LookUpText,
    Store { value: u64 },
    StoreText { value: u64 },
    StoreWrites { value: u64 },
    StoreTextWrites { value: u64 },
    Mend,
    NextKey { after: bool },
    Counts,
    CheckCounts,
    StoreCounts { value: u64 },
    StoreTextCounts { value: u64 },
    KeyAt { position: u64 },
    Position,
    PositionText,
}

pub struct Kind {
    pub name: &'static str,
    /// What is lent to be read: `alphabet`, `letters`, `text` or `nothing`.
    pub given: &'static str,
    /// The numbers of its order, and 0.
    pub numbers: &'static [u32],
}

pub const KINDS: [Kind; 18] = [
    Kind { name: "make", given: "alphabet", numbers: &[0, 1, 2, 3, 4] },
    Kind { name: "check", given: "nothing", numbers: &[0, 1, 2, 3, 4, 5, 6, 7, 8, 16, 19] },
    Kind { name: "count", given: "nothing", numbers: &[0, 1, 2, 3, 4, 5, 6, 7, 8, 16, 19] },
    Kind { name: "look_up", given: "letters", numbers: &[0, 1, 2, 3, 4, 6, 9, 10] },
    Kind { name: "look_up_text", given: "text", numbers: &[0, 1, 2, 3, 4, 6, 9, 10] },
    Kind {
        name: "store",
        given: "letters",
        numbers: &[0, 1, 2, 3, 4, 5, 6, 7, 8, 9, 10, 11, 12, 13, 16, 19],
    },
    Kind {
        name: "store_text",
        given: "text",
        numbers: &[0, 1, 2, 3, 4, 5, 6, 7, 8, 9, 10, 11, 12, 13, 16, 19],
    },
    Kind {
        name: "store_writes",
        given: "letters",
        numbers: &[0, 1, 2, 3, 4, 5, 6, 7, 8, 9, 10, 11, 12, 13, 16, 19],
    },
    Kind {
        name: "store_text_writes",
        given: "text",
        numbers: &[0, 1, 2, 3, 4, 5, 6, 7, 8, 9, 10, 11, 12, 13, 16, 19],
    },
    Kind { name: "mend", given: "nothing", numbers: &[0, 1, 2, 3, 4, 5, 6, 7, 8, 16, 19] },
    Kind {
        name: "next_key",
        given: "letters",
        numbers: &[0, 1, 2, 3, 4, 5, 6, 7, 8, 9, 10, 14, 15, 16, 19],
    },
    Kind { name: "counts", given: "nothing", numbers: &[0, 1, 2, 3, 4, 5, 6, 7, 8, 16, 19] },
    Kind {
        name: "check_counts",
        given: "nothing",
        numbers: &[0, 1, 2, 3, 4, 5, 6, 7, 8, 16, 19, 25],
    },
    Kind {
        name: "store_counts",
        given: "letters",
        numbers: &[0, 1, 2, 3, 4, 5, 6, 7, 8, 9, 10, 11, 12, 13, 16, 19, 25],
    },
    Kind {
        name: "store_text_counts",
        given: "text",
        numbers: &[0, 1, 2, 3, 4, 5, 6, 7, 8, 9, 10, 11, 12, 13, 16, 19, 25],
    },
    Kind {
        name: "key_at",
        given: "nothing",
        numbers: &[0, 1, 2, 3, 4, 5, 6, 7, 8, 14, 15, 16, 19, 25],
    },
    Kind {
        name: "position",
        given: "letters",
        numbers: &[0, 1, 2, 3, 4, 5, 6, 7, 8, 9, 10, 15, 16, 19, 25],
    },
    Kind {
        name: "position_text",
        given: "text",
        numbers: &[0, 1, 2, 3, 4, 5, 6, 7, 8, 9, 10, 15, 16, 19, 25],
    },
];

/// One more than the greatest refusal.
pub const NUMBERS: usize = 26;

impl Call {
    /// The index of its row in `KINDS`.
    pub fn kind(&self) -> usize {
        match self {
            Call::Make { .. } => 0,
            Call::Check => 1,
            Call::Count => 2,
            Call::LookUp => 3,
            Call::LookUpText => 4,
            Call::Store { .. } => 5,
            Call::StoreText { .. } => 6,
            Call::StoreWrites { .. } => 7,
            Call::StoreTextWrites { .. } => 8,
            Call::Mend => 9,
            Call::NextKey { .. } => 10,
            Call::Counts => 11,
            Call::CheckCounts => 12,
            Call::StoreCounts { .. } => 13,
            Call::StoreTextCounts { .. } => 14,
            Call::KeyAt { .. } => 15,
            Call::Position => 16,
            Call::PositionText => 17,
        }
    }

    /// The value of a store; nothing for other calls.
    pub fn stored(&self) -> Option<u64> {
        match *self {
            Call::Store { value } | Call::StoreText { value } => Some(value),
            Call::StoreWrites { value } | Call::StoreTextWrites { value } => Some(value),
            Call::StoreCounts { value } | Call::StoreTextCounts { value } => Some(value),
            _ => None,
        }
    }

    /// Whether it is lent a list of counts.
    pub fn takes_counts(&self) -> bool {
        self.kind() >= Call::Counts.kind()
    }

    /// Whether it compares the counts lent with fresh ones.
    pub fn compares_counts(&self) -> bool {
        self.takes_counts() && *self != Call::Counts
    }

    /// Whether it is a store with counts, by letters or by text.
    pub fn stores_counts(&self) -> bool {
        self.takes_counts() && self.stored().is_some()
    }

    /// The length of the list of writes that is lent: 0 for a call that is no store with writes.
    pub fn writes_len(&self) -> usize {
        match self {
            Call::StoreWrites { .. } | Call::StoreTextWrites { .. } => WRITES,
            _ => 0,
        }
    }
}

/// The memory lent to the model or to the crate's safe functions.
pub struct Lent<'a> {
    pub image: &'a mut [u8],
    pub given: &'a [u8],
    pub key: &'a mut [u8],
    pub work: &'a mut [u32],
    pub writes: &'a mut [u32],
    pub counts: &'a mut [u32],
}

pub fn ask_model(call: Call, lent: Lent) -> Answer {
    let Lent { image, given, key, work, writes, counts } = lent;
    match call {
        Call::Make { n, a, d, min, max } => model::make(image, n, a, d, given, min, max),
        Call::Check => model::check(image, work),
        Call::Count => model::count(image, work),
        Call::LookUp => model::look_up(image, given),
        Call::LookUpText => model::look_up_text(image, given),
        Call::Store { value } => model::store(image, work, given, value),
        Call::StoreText { value } => model::store_text(image, work, given, value),
        Call::StoreWrites { value } => model::store_writes(image, work, given, value, writes),
        Call::StoreTextWrites { value } => {
            model::store_text_writes(image, work, given, value, writes)
        }
        Call::Mend => model::mend(image, work),
        Call::NextKey { after } => model::next_key(image, work, given, after, key),
        Call::Counts => model::counts(image, work, counts),
        Call::CheckCounts => model::check_counts(image, work, counts),
        Call::StoreCounts { value } => model::store_counts(image, work, given, value, counts),
        Call::StoreTextCounts { value } => {
            model::store_text_counts(image, work, given, value, counts)
        }
        Call::KeyAt { position } => model::key_at(image, work, counts, position, key),
        Call::Position => model::position(image, work, counts, given),
        Call::PositionText => model::position_text(image, work, counts, given),
    }
}

/// The memory lent to the library. All pointers are mutable. So a write through one of them where
/// none is allowed is seen afterwards, and is no undefined behaviour.
pub struct Pointers {
    pub image: (*mut u8, usize),
    pub given: (*mut u8, usize),
    pub key: (*mut u8, usize),
    pub work: (*mut u32, usize),
    pub writes: *mut u32,
    pub counts: (*mut u32, usize),
}

/// Safe if the six pieces of memory exist and do not overlap.
pub unsafe fn ask_library(call: Call, lent: &Pointers) -> Answer {
    let ((image, image_len), (given, given_len), (work, work_len)) =
        (lent.image, lent.given, lent.work);
    let ((counts, counts_len), (key, key_len)) = (lent.counts, lent.key);
    let raw::TrieffAnswer { number, place, length, change, value } = match call {
        Call::Make { n, a, d, min, max } => {
            raw::trieff_make(image, image_len, n, a, d, given, given_len, min, max)
        }
        Call::Check => raw::trieff_check(image, image_len, work, work_len),
        Call::Count => raw::trieff_count(image, image_len, work, work_len),
        Call::LookUp => raw::trieff_look_up(image, image_len, given, given_len),
        Call::LookUpText => raw::trieff_look_up_text(image, image_len, given, given_len),
        Call::Store { value } => {
            raw::trieff_store(image, image_len, work, work_len, given, given_len, value)
        }
        Call::StoreText { value } => {
            raw::trieff_store_text(image, image_len, work, work_len, given, given_len, value)
        }
        Call::StoreWrites { value } => raw::trieff_store_writes(
            image,
            image_len,
            work,
            work_len,
            given,
            given_len,
            value,
            lent.writes,
        ),
        Call::StoreTextWrites { value } => raw::trieff_store_text_writes(
            image,
            image_len,
            work,
            work_len,
            given,
            given_len,
            value,
            lent.writes,
        ),
        Call::Mend => raw::trieff_mend(image, image_len, work, work_len),
        Call::NextKey { after } => raw::trieff_next_key(
            image, image_len, work, work_len, given, given_len, after, key, key_len,
        ),
        Call::Counts => raw::trieff_counts(image, image_len, work, work_len, counts, counts_len),
        Call::CheckCounts => {
            raw::trieff_check_counts(image, image_len, work, work_len, counts, counts_len)
        }
        Call::StoreCounts { value } => raw::trieff_store_counts(
            image, image_len, work, work_len, given, given_len, value, counts, counts_len,
        ),
        Call::StoreTextCounts { value } => raw::trieff_store_text_counts(
            image, image_len, work, work_len, given, given_len, value, counts, counts_len,
        ),
        Call::KeyAt { position } => raw::trieff_key_at(
            image, image_len, work, work_len, counts, counts_len, position, key, key_len,
        ),
        Call::Position => raw::trieff_position(
            image, image_len, work, work_len, counts, counts_len, given, given_len,
        ),
        Call::PositionText => raw::trieff_position_text(
            image, image_len, work, work_len, counts, counts_len, given, given_len,
        ),
    };
    Answer { number, place, length, change, value }
}
