//! Times launches, in one run: of large images beside SHA-384 of as many bytes as their measured
//! streams have, of the page's worked launch, and how the time grows with pages, sections and records.
//! `bench/run` builds and runs it.

mod common;
mod launches;

use common::{noise, openssl, plain, print_machine, proved, times, Digest};
use launches::{all_measured, Launch, Record, Section, FIRMWARE, HIGH, PAGE, RAM};
use std::hint::black_box;

// ---- launches

/// 4 MiB with the kinds of sections that OVMF's metadata has: a boot volume of 3,568 KiB that is
/// measured, a configuration volume of 528 KiB that is not, a TD HOB and temporary memory.
fn like_a_real_one() -> Launch {
    let (boot, variables) = (0x37C000u64, 0x84000u64);
    Launch::new(
        4 << 20,
        &[
            (0x84000, boot as u32, 0xFFC8_4000, boot, 0, 1),
            (0, variables as u32, 0xFFC0_0000, variables, 1, 0),
            (0, 0, 0x81_0000, 0x10000, 3, 0),
            (0, 0, 0x80_9000, 0x2000, 2, 0),
        ],
        &[(0, 0x8000_0000, RAM), (0xFFC0_0000, 0x40_0000, FIRMWARE), (HIGH, 0x8000_0000, RAM)],
    )
}

/// The page's launch in full.
fn worked() -> Launch {
    Launch::new(
        4096,
        &[(0, 4096, 0xFFFF_F000, PAGE, 0, 1), (0, 0, 0x9000, PAGE, 2, 0), (0, 0, 0xA000, 2 * PAGE, 3, 0)],
        &[(0, 0x10000, RAM), (0xFFFF_F000, PAGE, FIRMWARE)],
    )
}

/// `measured` pages of a boot volume, two of the TD HOB, and `added` pages of temporary memory in
/// `sections` sections, in a map of `records`.
fn grown(measured: u64, added: u64, sections: u64, records: u64) -> Launch {
    let volume = measured * PAGE;
    let mut table: Vec<Section> = vec![(0, volume as u32, HIGH, volume, 0, 1), (0, 0, 0x8000, 2 * PAGE, 2, 0)];
    for k in 0..sections {
        let size = added / sections * PAGE;
        table.push((0, 0, 2 * HIGH + k * (size + PAGE), size, 3, 0));
    }
    let mut map: Vec<Record> = vec![(0, 0x10000, RAM), (HIGH, HIGH, FIRMWARE), (2 * HIGH, 1 << 34, RAM)];
    map.extend((3..records).map(|k| (k << 40, PAGE, RAM)));
    Launch::new(volume as usize + 4096, &table, &map)
}

// ---- what is printed

/// A launch beside SHA-384 of as many bytes as its stream has.
fn beside_hashes(name: &str, mut launch: Launch, rounds: usize) {
    let accepted = launch.run();
    let message = noise(accepted.blocks as usize * 128);
    let [mut a, mut b, mut c] = [proved, plain, openssl].map(|hash: fn(&[u8]) -> Digest| {
        let message = &message;
        move || {
            black_box(hash(black_box(message)));
        }
    });
    let mut whole = || {
        black_box(launch.run());
    };
    let all = times(&mut [&mut whole, &mut a, &mut b, &mut c], rounds);
    println!("{name}: {} pages, {} blocks, so {} bytes of stream", accepted.pages, accepted.blocks, message.len());
    let names = ["the launch", "this SHA-384 of as many bytes", "plain Rust, rustc -O", "OpenSSL, EVP"];
    for (name, (median, minimum)) in names.iter().zip(&all) {
        let ratio = (all[0].0 / median, all[0].1 / minimum);
        println!("  {name:32}{:9.2} ms median{:9.2} ms minimum   launch / this {:.2} {:.2}", median * 1e3, minimum * 1e3, ratio.0, ratio.1);
    }
    println!();
}

/// Small launches, of which many are timed at a time.
fn small(name: &str, mut launch: Launch) {
    // A launch of many measured pages takes as long as many small ones.
    let many = if launch.image.len() < 100_000 { 200 } else { 2 };
    let mut job = || {
        for _ in 0..many {
            black_box(launch.run());
        }
    };
    let time = times(&mut [&mut job], 15)[0].0 / many as f64;
    println!("  {name:44}{:9.1} us{:12.0} a second", time * 1e6, 1.0 / time);
}

fn main() {
    print_machine();
    beside_hashes("16 MiB, all measured", all_measured(), 15);
    beside_hashes("4 MiB, laid out as a real one", like_a_real_one(), 31);
    println!("one launch, by the median of 15 rounds:");
    small("the page's worked launch", worked());
    for measured in [1, 256, 4093] {
        small(&format!("{measured} measured and 3 other pages"), grown(measured, 1, 1, 3));
    }
    for added in [1, 256, 4093] {
        small(&format!("1 measured and {} other pages", added + 2), grown(1, added, 1, 3));
    }
    for sections in [1, 6, 30] {
        small(&format!("33 pages in {} sections", sections + 2), grown(1, 30, sections, 3));
    }
    for records in [3, 16, 64] {
        small(&format!("33 pages in 32 sections, a map of {records}"), grown(1, 30, 30, records));
    }
}
