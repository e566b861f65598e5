//! The plan: a record of 16 bytes for each page.

/// The bytes of a plan record.
pub const RECORD_SIZE: usize = 16;

/// A planned page: what the TDX module is to add, and where its data is.
#[derive(Clone, Copy, Debug, PartialEq, Eq, Hash)]
pub struct Page {
    /// The page's address in the guest's memory.
    pub address: u64,
    /// Where its data starts in the image (types 0 and 1) or in the hand-off list (type 2).
    pub offset: u32,
    /// How much data it has, at most 4,096 bytes; zeros follow up to the page's end.
    pub length: u16,
    /// The type of its section: 0 boot volume, 1 configuration volume, 2 TD HOB, 3 temporary memory.
    pub sort: u8,
    /// Whether its contents are measured, beside its address.
    pub measured: bool,
}

impl Page {
    /// Reads one record.
    pub fn from_record(record: &[u8; RECORD_SIZE]) -> Page {
        let [a0, a1, a2, a3, a4, a5, a6, a7, o0, o1, o2, o3, l0, l1, sort, measured] = *record;
        Page {
            address: u64::from_le_bytes([a0, a1, a2, a3, a4, a5, a6, a7]),
            offset: u32::from_le_bytes([o0, o1, o2, o3]),
            length: u16::from_le_bytes([l0, l1]),
            sort,
            measured: measured != 0,
        }
    }

    /// The page's data, as [`view`](crate::view) shows it; zeros fill the page behind it. Lend the
    /// hand-off list alone, `&hob[..accepted.hob_length]`, and not the whole buffer.
    pub fn data<'a>(&self, image: &'a [u8], hob: &'a [u8]) -> &'a [u8] {
        crate::view(image, hob, self.offset, self.length, self.sort)
    }
}

/// Reads the first `count` records of a plan buffer, in order. A buffer that has fewer whole records
/// yields those that it has.
pub fn pages(plan: &[u8], count: usize) -> impl ExactSizeIterator<Item = Page> + '_ {
    let read = |record: &[u8]| Page::from_record(record.try_into().expect("a whole record"));
    plan.chunks_exact(RECORD_SIZE).take(count).map(read)
}
