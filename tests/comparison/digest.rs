//! The second loader's SHA-384 against the published vectors, against sha384sum, and against the
//! library's: all comparisons of measurements rest on it.

use crate::lent::{Arena, Side};
use crate::library;
use crate::noise::Random;
use crate::second::sha384::sha384;
use std::fs;
use std::process::Command;

const FILE: &str = "target/tests/compare-message.bin";

/// FIPS 180's examples: no byte, one block and two blocks.
const PUBLISHED: [(&str, &str); 3] = [
    (
        "",
        "38b060a751ac96384cd9327eb1b1e36a21fdb71114be07434c0cc7bf63f6e1da\
         274edebfe76f65fbd51ad2f14898b95b",
    ),
    (
        "abc",
        "cb00753f45a35e8bb5a03d699ac65007272c32ab0eded1631a8b605a43ff5bed\
         8086072ba1e7cc2358baeca134c825a7",
    ),
    (
        "abcdefghbcdefghicdefghijdefghijkefghijklfghijklmghijklmn\
         hijklmnoijklmnopjklmnopqklmnopqrlmnopqrsmnopqrstnopqrstu",
        "09330c33f71147e83d192fc782cd1b4753111b173b3b05d22fa08086e3b0f712\
         fcc7c71a557e2db966c3e9fa91746039",
    ),
];

fn hex(bytes: &[u8]) -> String {
    bytes.iter().map(|byte| format!("{byte:02x}")).collect()
}

pub fn run() -> Result<(), String> {
    for (message, digest) in PUBLISHED {
        if hex(&sha384(message.as_bytes())) != digest {
            return Err(format!("the second loader's SHA-384 of {message:?} is wrong"));
        }
    }
    let mut random = Random::new(384, 0);
    let lengths = [
        1, 110, 111, 112, 113, 127, 128, 129, 239, 240, 241, 255, 256, 257, 6_272, 100_003,
    ];
    for length in lengths {
        let message: Vec<u8> = (0..length).map(|_| random.next() as u8).collect();
        let digest = sha384(&message);
        if hex(&digest) != by_coreutils(&message)? {
            return Err(format!(
                "the second loader and sha384sum differ on {length} bytes"
            ));
        }
        for side in [Side::Before, Side::Behind] {
            if digest[..] != *by_library(&message, side) {
                return Err(format!(
                    "the second loader and tdload_sha384 differ on {length} bytes"
                ));
            }
        }
    }
    println!(
        "digest: {} published vectors, {} lengths",
        PUBLISHED.len(),
        lengths.len()
    );
    Ok(())
}

/// Message and digest stand against unreadable pages.
fn by_library(message: &[u8], side: Side) -> Vec<u8> {
    let (mut from, mut to) = (Arena::new(message.len()), Arena::new(48));
    let at = from.write(message, side);
    let digest = to.place(48, side);
    unsafe { library::tdload_sha384(at, message.len(), digest) };
    if to.beside(48, side, 256).iter().any(|&byte| byte != 0) {
        return Vec::new(); // no digest, so that it differs
    }
    to.read(48, side).to_vec()
}

fn by_coreutils(message: &[u8]) -> Result<String, String> {
    fs::write(FILE, message).map_err(|error| format!("{FILE}: {error}"))?;
    let run = Command::new("sha384sum").arg(FILE).output();
    let output = run.map_err(|error| format!("sha384sum: {error}"))?;
    let text = String::from_utf8_lossy(&output.stdout).to_string();
    Ok(text.split(' ').next().unwrap_or("").to_string())
}
