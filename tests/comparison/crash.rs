//! What is said where a call does not come back, or the test itself panics: which launch or turn it was,
//! with its inputs as files.

use crate::desk::Lent;
use crate::draft::Launch;
use std::fs;
use std::panic;
use std::process::exit;
use std::sync::atomic::{AtomicBool, Ordering};
use std::sync::Mutex;

const SIGNALS: [(i32, &str); 6] = [
    (4, "SIGILL"),
    (6, "SIGABRT"),
    (7, "SIGBUS"),
    (8, "SIGFPE"),
    (11, "SIGSEGV"),
    (14, "SIGALRM: the call did not return in time"),
];

/// Far more than any launch takes, on a busy machine too.
const SECONDS: u32 = 100;

pub const FOLDER: &str = "target/tests";

extern "C" {
    fn signal(number: i32, handler: usize) -> usize;
    fn alarm(seconds: u32) -> u32;
    fn _exit(status: i32) -> !;
}

struct Current {
    name: String,
    launch: *const Launch,
    lent: *const Lent,
}

// The pointers are only followed while what they point to is lent.
unsafe impl Send for Current {}

static CURRENT: Mutex<Current> = Mutex::new(Current {
    name: String::new(),
    launch: std::ptr::null(),
    lent: std::ptr::null(),
});
static IN_CALL: AtomicBool = AtomicBool::new(false);

pub fn watch() {
    for (number, _) in SIGNALS {
        unsafe { signal(number, caught as extern "C" fn(i32) as usize) };
    }
    panic::set_hook(Box::new(|what| {
        println!("FAILED, the second loader or the test panicked: {what}");
        tell();
        exit(1);
    }));
}

/// Names the launch or the turn, and keeps its inputs where it is one alone.
fn tell() {
    if let Ok(current) = CURRENT.try_lock() {
        println!("{}", current.name);
        if let Some(launch) = unsafe { current.launch.as_ref() } {
            keep(launch);
        }
        if let Some(lent) = unsafe { current.lent.as_ref() } {
            keep_lent(lent);
        }
    }
}

/// Names the launch or the turn that comes next.
pub fn name(text: String) {
    if let Ok(mut current) = CURRENT.lock() {
        current.name = text;
    }
}

/// Says that the library is called next, and with which launch, where it is one launch alone.
pub fn entering(launch: Option<&Launch>) {
    enter(launch.map_or(std::ptr::null(), |launch| launch), std::ptr::null());
}

/// Says that a turn comes next, and what it is lent.
pub fn entering_turn(lent: &Lent) {
    enter(std::ptr::null(), lent);
}

fn enter(launch: *const Launch, lent: *const Lent) {
    if let Ok(mut current) = CURRENT.lock() {
        current.launch = launch;
        current.lent = lent;
    }
    unsafe { alarm(SECONDS) };
    IN_CALL.store(true, Ordering::SeqCst);
}

pub fn left() {
    IN_CALL.store(false, Ordering::SeqCst);
    unsafe { alarm(0) };
}

/// The library's calls allocate nothing and hold no lock, so after a crash in one of them this
/// process can still write files. A crash anywhere else is a mistake in the test, and is only named.
extern "C" fn caught(number: i32) {
    let known = SIGNALS.iter().find(|(known, _)| *known == number);
    let signal = known.map_or("a signal", |(_, name)| name);
    if !IN_CALL.load(Ordering::SeqCst) {
        println!("FAILED outside the library's calls, by {signal}");
        unsafe { _exit(2) }
    }
    println!("FAILED in the library's call, by {signal}");
    tell();
    unsafe { _exit(1) }
}

/// Writes inputs where a reader finds them.
fn keep_files(files: [(&str, &[u8]); 2]) {
    for (name, bytes) in files {
        let path = format!("{FOLDER}/{name}");
        match fs::write(&path, bytes) {
            Ok(()) => println!("{path}: {} bytes", bytes.len()),
            Err(error) => println!("{path} cannot be written: {error}"),
        }
    }
}

/// What a turn was lent. Its state and quota stand in its name.
pub fn keep_lent(lent: &Lent) {
    keep_files([
        ("compare-turn-image.bin", &lent.image),
        ("compare-turn-plan.bin", &lent.plan),
    ]);
}

/// The launch's inputs, and how to make it again.
pub fn keep(launch: &Launch) {
    keep_files([
        ("compare-image.bin", &launch.image),
        ("compare-map.bin", &launch.map),
    ]);
    println!(
        "width {}, a plan buffer of {} bytes, a HOB buffer of {} bytes{}",
        launch.width,
        launch.plan_length,
        launch.hob_length,
        if launch.map_in_image {
            ", the map lent as the image's first bytes"
        } else {
            ""
        }
    );
}
