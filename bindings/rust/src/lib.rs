//! A launch loader for Intel TDX trust domains: safe Rust over the proved static library libtdload.a.
//!
//! A launch tries a firmware image in the TDVF format against a memory map and a guest address width.
//! It is refused by the first rule that it breaks, or it yields the pages that the TDX module is to
//! add, the hand-off list that the guest is given, and the measurement.
//!
//! ```no_run
//! let image = std::fs::read("image.bin")?;
//! let map = std::fs::read("map.bin")?;
//! let mut plan = vec![0; tdload::PLAN_SIZE];
//! let mut hob = vec![0; tdload::HOB_SIZE];
//! let accepted = tdload::launch(&image, &map, 48, &mut plan, &mut hob)?;
//! let list = &hob[..accepted.hob_length];
//! for page in tdload::pages(&plan, accepted.pages) {
//!     let data = page.data(&image, list);
//!     println!("{:016x} has {} bytes of data, then zeros", page.address, data.len());
//! }
//! # Ok::<(), Box<dyn std::error::Error>>(())
//! ```
//!
//! A thread that has others to answer meanwhile calls [`begin`] instead and has the measurement done in
//! turns, of as many blocks as it allows each.
//!
//! What the C interface asks of its callers, Rust's references already give: a slice's pointer is
//! never null, also where it is empty, its length is at most `isize::MAX`, and what is lent to be
//! written overlaps nothing and is seen by no other thread. So every function here is safe.

mod plan;
mod raw;
mod refusal;
mod turns;

pub use plan::{pages, Page, RECORD_SIZE};
pub use refusal::{Place, Refusal};
pub use turns::{begin, Begun, Measuring, Turned};

/// This binding's version.
pub const VERSION: &str = "0.1.0";

/// The least length of a plan buffer.
pub const PLAN_SIZE: usize = 65_536;

/// The least length of a hand-off buffer.
pub const HOB_SIZE: usize = 8_192;

/// What an accepted launch answers.
#[derive(Clone, Debug, PartialEq, Eq, Hash)]
#[non_exhaustive]
pub struct Accepted {
    /// Planned pages: the plan buffer starts with so many records, and zeros follow.
    pub pages: usize,
    /// Bytes of the hand-off list at the start of its buffer; zeros follow.
    pub hob_length: usize,
    /// Blocks of 128 bytes in the measured stream.
    pub blocks: u64,
    /// SHA-384 of that stream: MRTD as the TDX module computes it.
    pub measurement: [u8; 48],
}

/// Tries a launch. `width` is the guest address width, 48 or 52; the map has records of 24 bytes.
///
/// Both buffers are cleared first, whatever comes of the launch, so that nothing of an older plan is
/// left. They may have any length: shorter than [`PLAN_SIZE`] and [`HOB_SIZE`] is refusal 1.
pub fn launch(
    image: &[u8],
    map: &[u8],
    width: u32,
    plan: &mut [u8],
    hob: &mut [u8],
) -> Result<Accepted, Refusal> {
    // SAFETY: each pointer comes with the length of the slice that it is of. The slices are borrowed
    // for the call, the last two exclusively, and the library keeps no pointer.
    let answer = unsafe {
        raw::tdload_launch(
            image.as_ptr(),
            image.len(),
            map.as_ptr(),
            map.len(),
            width,
            plan.as_mut_ptr(),
            plan.len(),
            hob.as_mut_ptr(),
            hob.len(),
        )
    };
    Refusal::unless_zero(answer.refusal, answer.place, answer.index)?;
    Ok(Accepted {
        // Both count what is in a lent slice, so they fit.
        pages: answer.pages as usize,
        hob_length: answer.hob_length as usize,
        blocks: answer.blocks,
        measurement: answer.measurement,
    })
}

/// The bytes behind a plan record, by its data offset, data length and section type: a part of the
/// image for types 0 and 1, of the hand-off list for type 2.
///
/// It is empty where the range does not lie in that slice, where the length is above 4,096 and for
/// types from 3 on, so a damaged record leads to no byte outside. Lend the hand-off list alone,
/// `&hob[..accepted.hob_length]`, and not the whole buffer.
pub fn view<'a>(image: &'a [u8], hob: &'a [u8], offset: u32, length: u16, sort: u8) -> &'a [u8] {
    // SAFETY: as in `launch`; here nothing is lent to be written.
    let shown = unsafe {
        raw::tdload_view(image.as_ptr(), image.len(), hob.as_ptr(), hob.len(), offset, length, sort)
    };
    let slice = match shown.slice {
        1 => image,
        2 => hob,
        _ => &[],
    };
    part(slice, shown.offset, shown.length)
}

/// A part of a slice, or nothing where it does not lie in it. The library only names parts that do;
/// `get` tries it once more, so that memory safety does not rest on that.
fn part(slice: &[u8], offset: u32, length: u32) -> &[u8] {
    let start = offset as usize;
    start.checked_add(length as usize).and_then(|end| slice.get(start..end)).unwrap_or(&[])
}

/// SHA-384 (FIPS 180-4) of a message.
pub fn sha384(message: &[u8]) -> [u8; 48] {
    let mut digest = [0; 48];
    // SAFETY: the message as in `launch`; the library writes 48 bytes at the digest, which it has.
    unsafe { raw::tdload_sha384(message.as_ptr(), message.len(), digest.as_mut_ptr()) };
    digest
}

#[cfg(test)]
mod tests;
