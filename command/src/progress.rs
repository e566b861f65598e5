//! A progress bar on standard error, if that is a terminal. It is plain characters and carriage returns,
//! which every terminal understands.

use std::os::raw::{c_int, c_ulong};
use std::time::{Duration, Instant};

use crate::outcome::to_standard_error;

/// The time between two drawings at least: more often than 20 times a second nobody can see.
const INTERVAL: Duration = Duration::from_millis(50);

/// The places between the brackets.
const PLACES: u64 = 30;

/// The columns of a terminal that does not say how many it has.
const COLUMNS: usize = 80;

pub struct Bar {
    /// The columns that it may use, or `None` where it is not to be drawn.
    room: Option<usize>,
    drawn: Option<Instant>,
}

impl Bar {
    pub fn new(wanted: bool) -> Bar {
        // A character in the last column would make some terminals begin a new line.
        let room = (wanted && terminal::is_there()).then(|| terminal::columns().unwrap_or(COLUMNS) - 1);
        Bar { room, drawn: None }
    }

    /// Draws the bar over the older one, unless that is too new.
    pub fn show(&mut self, done: u64, total: u64) {
        let wait = self.drawn.map_or(false, |drawn| drawn.elapsed() < INTERVAL);
        if let (Some(room), false) = (self.room, wait) {
            let mut line = line(done, total);
            line.truncate(room);
            to_standard_error(&format!("\r{line}"));
            self.drawn = Some(Instant::now());
        }
    }

    /// Leaves the line empty for what is printed next, with the `^C` too that a terminal puts behind the bar.
    pub fn erase(self) {
        if let (Some(room), Some(_)) = (self.room, self.drawn) {
            to_standard_error(&format!("\r{}\r", " ".repeat(room)));
        }
    }
}

/// The bar in 72 columns or fewer: a measurement has at most 200,705 blocks. It is plain ASCII, so that a
/// byte is a column.
fn line(done: u64, total: u64) -> String {
    let parts = |of: u64| done.min(total) * of / total.max(1);
    let filled = "#".repeat(parts(PLACES) as usize);
    let (places, digits) = (PLACES as usize, total.to_string().len());
    format!("measuring [{filled:places$}] {:3}%, {done:digits$} of {total} blocks", parts(100))
}

/// What standard error is, as the C library knows it.
mod terminal {
    use super::{c_int, c_ulong};

    const STANDARD_ERROR: c_int = 2;
    const TIOCGWINSZ: c_ulong = 0x5413;

    /// `struct winsize`.
    #[derive(Default)]
    #[repr(C)]
    struct Size {
        rows: u16,
        columns: u16,
        width: u16,
        height: u16,
    }

    extern "C" {
        fn isatty(file: c_int) -> c_int;
        fn ioctl(file: c_int, request: c_ulong, ...) -> c_int;
    }

    pub fn is_there() -> bool {
        // SAFETY: it takes any number.
        unsafe { isatty(STANDARD_ERROR) == 1 }
    }

    pub fn columns() -> Option<usize> {
        let mut size = Size::default();
        // SAFETY: this request writes one `struct winsize`, which is lent to it.
        let status = unsafe { ioctl(STANDARD_ERROR, TIOCGWINSZ, &mut size as *mut Size) };
        Some(usize::from(size.columns)).filter(|columns| status == 0 && *columns > 0)
    }
}
