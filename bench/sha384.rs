//! Times three SHA-384s on the same 32 MiB, in one run: this repository's static library, a plain
//! one in Rust and OpenSSL's (common.rs). `bench/run` builds and runs it.

mod common;

use common::{noise, openssl, plain, print_machine, proved, times, Digest};
use std::hint::black_box;

const MIB: usize = 32;
const ROUNDS: usize = 15;

fn main() {
    let message = noise(MIB << 20);
    let names = ["(a) tdload, static library", "(b) plain Rust, rustc -O", "(c) OpenSSL, EVP"];
    let hashes: [fn(&[u8]) -> Digest; 3] = [proved, plain, openssl];
    let digests = hashes.map(|hash| hash(&message));
    assert!(digests.iter().all(|digest| *digest == digests[0]), "the digests differ: {digests:02x?}");

    print_machine();
    let [mut a, mut b, mut c] = hashes.map(|hash| {
        let message = &message;
        move || {
            black_box(hash(black_box(message)));
        }
    });
    let all = times(&mut [&mut a, &mut b, &mut c], ROUNDS);
    println!("{:28}{:>11}{:>9}{:>12}{:>9}", format!("SHA-384 of {MIB} MiB"), "median ms", "MiB/s", "minimum ms", "MiB/s");
    for (name, (median, minimum)) in names.iter().zip(&all) {
        let rate = |time: f64| MIB as f64 / time;
        println!("{name:28}{:11.1}{:9.0}{:12.1}{:9.0}", median * 1e3, rate(*median), minimum * 1e3, rate(*minimum));
    }
    println!();
    for (name, other) in [("(b)", all[1]), ("(c)", all[2])] {
        println!("time of (a) / {name}: {:.2} by the medians, {:.2} by the minima", all[0].0 / other.0, all[0].1 / other.1);
    }
    println!();
    println!("Measured in one process and one thread, by the wall clock: after a warm-up of each, {ROUNDS} rounds, each of");
    println!("which digests the same {MIB} MiB once by each of the three, in an order that turns by one each round. All");
    println!("three gave the same digest first. (a) is for x86-64-v2, (b) for any x86-64; OpenSSL picks its code as it runs.");
}
