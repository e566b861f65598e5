//! The signals that ask the command to stop. While a measurement is under way they are noted, so that
//! its turn ends and the terminal is left clean, and the command then ends by them all the same.

use std::os::raw::c_int;
use std::process;
use std::sync::atomic::{AtomicI32, Ordering};

const INTERRUPT: c_int = 2;
const TERMINATE: c_int = 15;

/// Two actions of the C library, beside the address of a handler.
const DEFAULT: usize = 0;
const IGNORE: usize = 1;

extern "C" {
    fn signal(number: c_int, action: usize) -> usize;
    fn raise(number: c_int) -> c_int;
}

/// The first signal that was noted, or 0.
static NOTED: AtomicI32 = AtomicI32::new(0);

extern "C" fn note(number: c_int) {
    let _ = NOTED.compare_exchange(0, number, Ordering::SeqCst, Ordering::SeqCst);
    // The same signal once more ends the command at once: a terminal that takes no output must not hold it.
    // SAFETY: the default action is no code of this program, and a handler may set it.
    unsafe { signal(number, DEFAULT) };
}

/// While it lasts, an interrupt or a request to terminate is noted and ends nothing.
pub struct Watch {
    watched: Vec<c_int>,
}

impl Watch {
    /// Who started the command may have it ignore one of them, as `nohup` does: that one stays ignored.
    pub fn start() -> Watch {
        let mut watched = Vec::new();
        for number in [INTERRUPT, TERMINATE] {
            // SAFETY: `note` does only what a handler may do.
            if unsafe { signal(number, note as *const () as usize) } != IGNORE {
                watched.push(number);
                continue;
            }
            // SAFETY: as for the default action.
            unsafe { signal(number, IGNORE) };
            // What came between the two calls is ignored too.
            let _ = NOTED.compare_exchange(number, 0, Ordering::SeqCst, Ordering::SeqCst);
        }
        Watch { watched }
    }

    /// The first signal that was noted.
    pub fn noted(&self) -> Option<c_int> {
        Some(NOTED.load(Ordering::SeqCst)).filter(|number| *number != 0)
    }

    /// Ends the watch, and the command too if a signal was noted: no later than here.
    pub fn end(self) {
        for number in &self.watched {
            // SAFETY: as in `note`.
            unsafe { signal(*number, DEFAULT) };
        }
        // Asked when nothing is noted any more, so that no signal is lost.
        if let Some(number) = self.noted() {
            end_by(number);
        }
    }
}

/// Ends as the signal does by itself, so that a shell sees by what the command ended.
fn end_by(number: c_int) -> ! {
    // SAFETY: the signal's action is the default one again, which runs no code of this program.
    unsafe { raise(number) };
    // Only where the signal is blocked: with the status that a shell shows for it.
    process::exit(128 + number)
}
