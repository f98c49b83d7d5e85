use core::fmt;
use core::ops::Range;

/// The most writes of one store: 64 new nodes, G and a link.
pub const WRITES_MOST: usize = 66;

/// The list of writes of [`store_writes`](crate::store_writes) or
/// [`store_text_writes`](crate::store_text_writes), in order: for each write a range of the
/// image's bytes. The bytes of a write are those of the image after the call.
///
/// It is lent as the other buffers are, so it may be static. It holds the list of the last store
/// with writes that was done. A refused store leaves it as it was.
///
/// ```
/// use trieff::{make, store, store_writes, Refusal, Shape, Writes};
///
/// let mut image = [0; 43];
/// let mut writes = Writes::new();
/// make(&mut image, Shape { n: 3, a: 1, d: 1, min: 1, max: 3 }, b"ABC")?;
/// store_writes(&mut image, &mut [0; 3], &[1, 0], 9, &mut writes)?;
/// assert_eq!(writes.len(), 4);
/// assert!(writes.iter().eq([35..39, 39..43, 0..4, 32..33])); // two nodes, G, the link
///
/// store_writes(&mut image, &mut [0; 3], &[1], 5, &mut writes)?;
/// assert!(writes.iter().eq([38..39])); // the data field alone
/// store_writes(&mut image, &mut [0; 3], &[2, 2, 2], 0, &mut writes)?;
/// assert!(writes.is_empty()); // there is nothing to delete
/// # Ok::<(), Refusal>(())
/// ```
#[derive(Clone)]
pub struct Writes {
    pub(crate) numbers: [u32; 2 * WRITES_MOST],
    pub(crate) count: usize,
}

impl Writes {
    /// An empty list.
    pub const fn new() -> Writes {
        Writes { numbers: [0; 2 * WRITES_MOST], count: 0 }
    }

    /// The number of writes: 0 to [`WRITES_MOST`].
    pub const fn len(&self) -> usize {
        self.count
    }

    /// Whether the list is empty. After a store it is empty if the value was 0 and the key's path
    /// was not complete.
    pub const fn is_empty(&self) -> bool {
        self.count == 0
    }

    /// The writes in order, each as the range of the image's bytes that it writes.
    pub fn iter(
        &self,
    ) -> impl DoubleEndedIterator<Item = Range<usize>> + ExactSizeIterator + Clone + '_ {
        self.numbers.chunks_exact(2).take(self.count).map(|write| {
            let place = write[0] as usize;
            place..place + write[1] as usize
        })
    }
}

impl Default for Writes {
    fn default() -> Writes {
        Writes::new()
    }
}

/// The ranges, as a list.
impl fmt::Debug for Writes {
    fn fmt(&self, f: &mut fmt::Formatter<'_>) -> fmt::Result {
        f.debug_list().entries(self.iter()).finish()
    }
}
