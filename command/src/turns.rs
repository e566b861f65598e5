//! The measurement in turns, with a bar for who waits for it and a way to stop it.

use tdload::{Measuring, Turned};

use crate::outcome::Failure;
use crate::progress::Bar;
use crate::signals::Watch;

/// The blocks of a turn: about 2 ms, so that the bar moves smoothly and an interrupt is soon obeyed, and
/// so many that starting and ending a turn is not felt.
const QUOTA: u64 = 4096;

/// Finishes a measurement, or ends the command by a signal that came meanwhile.
pub fn finish(mut measuring: Measuring, image: &[u8], plan: &[u8], with_bar: bool) -> Result<[u8; 48], Failure> {
    let watch = Watch::start();
    let mut bar = Bar::new(with_bar);
    let last = loop {
        bar.show(measuring.done(), measuring.total());
        let turned = measuring.turn(image, plan, QUOTA);
        let goes_on = matches!(turned, Ok(Turned { measurement: None, .. }));
        if !goes_on || watch.noted().is_some() {
            break turned;
        }
    };
    bar.erase();
    watch.end();
    match last {
        Ok(Turned { measurement: Some(measurement), .. }) => Ok(measurement),
        // Neither quota nor lengths give a reason to refuse, and without one a measurement ends.
        other => Err(Failure::new(format!("the library does not finish the measurement: {other:?}"))),
    }
}
