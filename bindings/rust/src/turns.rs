//! The measurement in turns: a launch without its measurement, and then a few blocks at a time, for a
//! thread that has others to answer meanwhile.

use crate::{raw, Refusal};

/// What an accepted launch answers whose measurement is still to be done.
#[derive(Clone, Debug, PartialEq, Eq, Hash)]
#[non_exhaustive]
pub struct Begun {
    /// Planned pages: the plan buffer starts with so many records, and zeros follow.
    pub pages: usize,
    /// Bytes of the hand-off list at the start of its buffer; zeros follow.
    pub hob_length: usize,
    /// Blocks of 128 bytes in the measured stream.
    pub blocks: u64,
    /// The measurement, with no block of it done.
    pub measuring: Measuring,
}

/// Tries a launch as [`launch`](crate::launch) does, with the same refusals and the same content of both
/// buffers, but leaves the measurement to turns of the caller's choice.
///
/// ```no_run
/// # let (image, map) = (std::fs::read("image.bin")?, std::fs::read("map.bin")?);
/// # let (mut plan, mut hob) = (vec![0; tdload::PLAN_SIZE], vec![0; tdload::HOB_SIZE]);
/// let mut measuring = tdload::begin(&image, &map, 48, &mut plan, &mut hob)?.measuring;
/// let measurement = loop {
///     if let Some(measurement) = measuring.turn(&image, &plan, 256)?.measurement {
///         break measurement;
///     }
///     println!("{} of {} blocks", measuring.done(), measuring.total());
/// };
/// # let _: [u8; 48] = measurement;
/// # Ok::<(), Box<dyn std::error::Error>>(())
/// ```
pub fn begin(
    image: &[u8],
    map: &[u8],
    width: u32,
    plan: &mut [u8],
    hob: &mut [u8],
) -> Result<Begun, Refusal> {
    // SAFETY: as in `launch`, which is lent the same.
    let raw::Begun { answer, state } = unsafe {
        raw::tdload_begin(
            image.as_ptr(),
            image.len(),
            map.as_ptr(),
            map.len(),
            width,
            plan.as_mut_ptr(),
            plan.len(),
            hob.as_mut_ptr(),
            hob.len(),
        )
    };
    Refusal::unless_zero(answer.refusal, answer.place, answer.index)?;
    Ok(Begun {
        // Both count what is in a lent slice, so they fit.
        pages: answer.pages as usize,
        hob_length: answer.hob_length as usize,
        blocks: answer.blocks,
        measuring: Measuring { state },
    })
}

/// A measurement under way. It borrows nothing, and a clone goes on from the same block by itself.
#[derive(Clone, Debug, PartialEq, Eq, Hash)]
pub struct Measuring {
    /// Never a refused one: [`begin`] hands none out.
    state: raw::State,
}

/// What a turn did.
#[derive(Clone, Debug, PartialEq, Eq, Hash)]
#[non_exhaustive]
pub struct Turned {
    /// Blocks done in this turn: the smaller of its quota and of what was left.
    pub blocks: u64,
    /// The measurement, once it is finished: SHA-384 of the measured stream, MRTD as the TDX module
    /// computes it.
    pub measurement: Option<[u8; 48]>,
}

impl Measuring {
    /// Does the next blocks, `quota` at most.
    ///
    /// Lend the image and the plan that [`begin`] was lent, the plan as it left it: then the last turn
    /// answers what [`launch`](crate::launch) does, however the blocks were cut into turns. Others of
    /// the same lengths give the measurement of no launch.
    ///
    /// A quota of 0 is refusal 24, and an image or a plan of another length is refusal 27. A refused turn
    /// does no block, and the next one goes on where the last left off. A finished measurement is
    /// answered again at every further turn, with 0 blocks.
    pub fn turn(&mut self, image: &[u8], plan: &[u8], quota: u64) -> Result<Turned, Refusal> {
        // SAFETY: each pointer comes with the length of the slice that it is of. Nothing is lent to be
        // written, and the library keeps no pointer; every state is safe to hand to it.
        let turned = unsafe {
            raw::tdload_turn(self.state, image.as_ptr(), image.len(), plan.as_ptr(), plan.len(), quota)
        };
        // With a refusal it is the same state again.
        self.state = turned.state;
        Refusal::unless_zero(turned.refusal, turned.place, turned.index)?;
        let measurement = self.is_finished().then_some(turned.measurement);
        Ok(Turned { blocks: turned.blocks, measurement })
    }

    /// Blocks done so far.
    pub fn done(&self) -> u64 {
        self.state.done
    }

    /// Blocks to do in all: those of the measured stream, and one for the padding.
    pub fn total(&self) -> u64 {
        self.state.total
    }

    /// Whether every block is done.
    pub fn is_finished(&self) -> bool {
        self.done() >= self.total()
    }
}
