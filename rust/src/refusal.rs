#[cfg(core_error)]
use core::error::Error;
use core::fmt;
#[cfg(all(feature = "std", not(core_error)))]
use std::error::Error;

/// Why a call was refused. There is a variant for each number. Those whose place is a node or an
/// address carry the place.
///
/// ```
/// use trieff::{check, Refusal};
///
/// let refusal = check(&[0; 27], &mut []).unwrap_err();
/// assert_eq!(refusal, Refusal::ImageLength);
/// assert_eq!((refusal.number(), refusal.place()), (1, 0));
/// let words = "image shorter than 28 or longer than 16,777,216 bytes";
/// assert_eq!(refusal.to_string(), format!("refused 1 at 0: {words}"));
/// ```
#[derive(Clone, Copy, Debug, PartialEq, Eq, Hash)]
pub enum Refusal {
    /// 1: the image is shorter than 28 or longer than 16,777,216 bytes.
    ImageLength,
    /// 2: a head field is outside its limits.
    HeadField,
    /// 3: the bytes of the alphabet are not N different well-formed characters.
    Alphabet,
    /// 4: U exceeds the image's length.
    ImageRoom,
    /// 5: fewer than G+1 working numbers, or fewer than G+1 counts, are lent. A store with counts
    /// also gives it after 13: if fewer than G+k+1 counts are lent, for k new nodes.
    TooFewNumbers,
    /// 6: a link is above G. Place: the lowest node that holds such a link; in a lookup, the node
    /// that holds the first one on the key's path.
    Link(u32),
    /// 7: an address stands in two links or more. Place: the lowest such address.
    LinkedTwice(u32),
    /// 8: an address in 1..G stands in no link. Place: the lowest such address.
    NotLinked(u32),
    /// 9: the key's length is outside min..max; for next key, above max.
    KeyLength,
    /// 10: a letter number is N or more; or the text is not well-formed or has a character outside
    /// the alphabet.
    Letter,
    /// 11: the value is above 256^D - 1. It is never given for D = 8, where every `u64` fits.
    ValueTooGreat,
    /// 12: new nodes are needed, and G with them would exceed 256^A - 1.
    NoAddress,
    /// 13: new nodes are needed, and U with them would exceed the image's length.
    NoRoom,
    /// 14: the key buffer is shorter than max.
    ShortBuffer,
    /// 15: no stored key meets the request.
    NoKey,
    /// 16: a node is not reached from the root by links. Since 7 and 8 come first, it is on a
    /// cycle of links or under one. Place: the lowest such node.
    NotReached(u32),
    /// 19: data that is not 0 stands at a depth outside min..max, where no lookup finds it. Place:
    /// the lowest such node, which may be the root, 0.
    Hidden(u32),
    /// 25: a count differs from the fresh one. Place: the lowest such node.
    CountsDiffer(u32),
    /// A number that this crate does not know, with its place. The library that the crate was
    /// written for is proved to answer only 0 to 16, 19 and 25, so only a newer `libtrieff.a` can
    /// give another number. The crate passes it on: firmware should not stop because of it, and
    /// should not take it for another refusal.
    Unknown {
        /// The number.
        number: u32,
        /// The place.
        place: u32,
    },
}

impl Refusal {
    /// The refusal with this number and place; `None` for 0, done.
    pub(crate) fn of(number: u32, place: u32) -> Option<Refusal> {
        Some(match number {
            0 => return None,
            1 => Refusal::ImageLength,
            2 => Refusal::HeadField,
            3 => Refusal::Alphabet,
            4 => Refusal::ImageRoom,
            5 => Refusal::TooFewNumbers,
            6 => Refusal::Link(place),
            7 => Refusal::LinkedTwice(place),
            8 => Refusal::NotLinked(place),
            9 => Refusal::KeyLength,
            10 => Refusal::Letter,
            11 => Refusal::ValueTooGreat,
            12 => Refusal::NoAddress,
            13 => Refusal::NoRoom,
            14 => Refusal::ShortBuffer,
            15 => Refusal::NoKey,
            16 => Refusal::NotReached(place),
            19 => Refusal::Hidden(place),
            25 => Refusal::CountsDiffer(place),
            _ => Refusal::Unknown { number, place },
        })
    }

    /// The refusal's number.
    pub fn number(&self) -> u32 {
        match *self {
            Refusal::ImageLength => 1,
            Refusal::HeadField => 2,
            Refusal::Alphabet => 3,
            Refusal::ImageRoom => 4,
            Refusal::TooFewNumbers => 5,
            Refusal::Link(_) => 6,
            Refusal::LinkedTwice(_) => 7,
            Refusal::NotLinked(_) => 8,
            Refusal::KeyLength => 9,
            Refusal::Letter => 10,
            Refusal::ValueTooGreat => 11,
            Refusal::NoAddress => 12,
            Refusal::NoRoom => 13,
            Refusal::ShortBuffer => 14,
            Refusal::NoKey => 15,
            Refusal::NotReached(_) => 16,
            Refusal::Hidden(_) => 19,
            Refusal::CountsDiffer(_) => 25,
            Refusal::Unknown { number, .. } => number,
        }
    }

    /// The node or address that the refusal names, else 0.
    pub fn place(&self) -> u32 {
        match *self {
            Refusal::Link(place)
            | Refusal::LinkedTwice(place)
            | Refusal::NotLinked(place)
            | Refusal::NotReached(place)
            | Refusal::Hidden(place)
            | Refusal::CountsDiffer(place)
            | Refusal::Unknown { place, .. } => place,
            _ => 0,
        }
    }

    fn words(&self) -> &'static str {
        match self {
            Refusal::ImageLength => "image shorter than 28 or longer than 16,777,216 bytes",
            Refusal::HeadField => "a head field outside its limits",
            Refusal::Alphabet => "the alphabet is not N different well-formed characters",
            Refusal::ImageRoom => "U exceeds the image's length",
            Refusal::TooFewNumbers => "too few working numbers or counts lent",
            Refusal::Link(_) => "a link is above G",
            Refusal::LinkedTwice(_) => "an address stands in two links or more",
            Refusal::NotLinked(_) => "an address in 1..G stands in no link",
            Refusal::KeyLength => "key length outside min..max",
            Refusal::Letter => "a letter number is N or more, or the text names no key",
            Refusal::ValueTooGreat => "value above 256^D - 1",
            Refusal::NoAddress => "G + k above 256^A - 1, with k new nodes",
            Refusal::NoRoom => "U + k*W exceeds the image's length, with k new nodes",
            Refusal::ShortBuffer => "key buffer shorter than max",
            Refusal::NoKey => "no stored key meets the request",
            Refusal::NotReached(_) => "a node is not reached from the root",
            Refusal::Hidden(_) => "data stands at a depth outside min..max",
            Refusal::CountsDiffer(_) => "a count is not the fresh one",
            Refusal::Unknown { .. } => "a number that this crate does not know",
        }
    }
}

/// One line, which begins as the line of the listing program: `refused 7 at 1: an address stands
/// in two links or more`.
impl fmt::Display for Refusal {
    fn fmt(&self, f: &mut fmt::Formatter<'_>) -> fmt::Result {
        write!(f, "refused {} at {}: {}", self.number(), self.place(), self.words())
    }
}

/// From Rust 1.81 on it is `core::error::Error`, without `std`. Older compilers need the feature
/// `std` for it.
///
/// ```
/// fn labels(image: &[u8], work: &mut [u32]) -> Result<String, Box<dyn std::error::Error>> {
///     Ok(format!("{} labels", trieff::count(image, work)?))
/// }
///
/// let refused = labels(&[0; 28], &mut [0; 1]).unwrap_err();
/// assert_eq!(refused.to_string(), "refused 2 at 0: a head field outside its limits");
/// assert_eq!(refused.downcast_ref(), Some(&trieff::Refusal::HeadField));
/// ```
#[cfg(any(core_error, feature = "std"))]
impl Error for Refusal {}

#[cfg(test)]
mod tests {
    use super::Refusal;

    #[test]
    fn every_number_keeps_its_number_and_place() {
        assert_eq!(Refusal::of(0, 0), None);
        for number in 1..=40 {
            let unknown = number > 16 && number != 19 && number != 25;
            let place = if unknown || [6, 7, 8, 16, 19, 25].contains(&number) { 77 } else { 0 };
            let refusal = Refusal::of(number, place).unwrap();
            assert_eq!((refusal.number(), refusal.place()), (number, place));
            assert_eq!(matches!(refusal, Refusal::Unknown { .. }), unknown);
        }
    }
}
