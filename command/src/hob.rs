//! Reads the hand-off list from its bytes.

/// What the list's first block says of it, and its pieces of memory in order.
pub struct List {
    /// The address just past the list in the guest's memory.
    pub end: u64,
    pub pieces: Vec<Piece>,
}

/// A piece of memory that the guest is told of.
pub struct Piece {
    pub start: u64,
    pub length: u64,
    pub resource_type: u32,
    pub attributes: u32,
}

impl Piece {
    /// From a block of type 3; `None` where it is too short.
    fn read(block: &[u8]) -> Option<Piece> {
        Some(Piece {
            resource_type: u32::from_le_bytes(bytes_at(block, 24)?),
            attributes: u32::from_le_bytes(bytes_at(block, 28)?),
            start: u64::from_le_bytes(bytes_at(block, 32)?),
            length: u64::from_le_bytes(bytes_at(block, 40)?),
        })
    }

    /// In an accepted launch every end is at most 2^52, so the sum is exact.
    pub fn end(&self) -> u64 {
        self.start.saturating_add(self.length)
    }

    pub fn meaning(&self) -> &'static str {
        match self.resource_type {
            0 => "accepted section memory",
            1 => "MMIO",
            7 => "unaccepted memory",
            _ => "unknown",
        }
    }
}

/// Reads the list block by block up to its last, of type 0xFFFF; `None` where a block does not end in
/// the list or has another type. Each block that is passed has a length above 0, so this ends.
pub fn read(list: &[u8]) -> Option<List> {
    let (mut rest, mut end, mut pieces) = (list, None, Vec::new());
    loop {
        let length = usize::from(u16::from_le_bytes(bytes_at(rest, 2)?));
        let block = rest.get(..length)?;
        match u16::from_le_bytes(bytes_at(block, 0)?) {
            1 => end = Some(u64::from_le_bytes(bytes_at(block, 48)?)),
            3 => pieces.push(Piece::read(block)?),
            0xFFFF => return Some(List { end: end?, pieces }),
            _ => return None,
        }
        rest = &rest[length..];
    }
}

fn bytes_at<const COUNT: usize>(block: &[u8], at: usize) -> Option<[u8; COUNT]> {
    block.get(at..at + COUNT)?.try_into().ok()
}
