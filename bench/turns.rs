//! Times the measurement in turns beside one run, on the largest launch. `bench/run` builds and runs it.

#[allow(dead_code)] // no SHA-384 is timed by itself here
mod common;
mod launches;

use common::{print_machine, times};
use launches::{all_measured, Launch};
use std::cell::RefCell;
use std::hint::black_box;

/// Rounds, and the quotas in blocks that are timed in them beside one run. Turns of one block take much longer than
/// all others together, and in the same rounds would draw those apart.
const GROUPS: [(usize, &[u64]); 2] = [(51, &[4096, 256, 16]), (15, &[1])];

fn begin(launch: &mut Launch) -> tdload::Begun {
    let begun = tdload::begin(&launch.image, &launch.map, 48, &mut launch.plan, &mut launch.hob);
    begun.unwrap_or_else(|refusal| panic!("{refusal}"))
}

/// The whole launch with a measurement in turns: what it comes to, and how many turns it took.
fn in_turns(launch: &mut Launch, quota: u64) -> ([u8; 48], u64) {
    let mut measuring = begin(launch).measuring;
    for turns in 1.. {
        let turned = measuring.turn(&launch.image, &launch.plan, quota);
        if let Some(measurement) = turned.unwrap_or_else(|refusal| panic!("{refusal}")).measurement {
            return (measurement, turns);
        }
    }
    unreachable!("a measurement ends")
}

/// Times one run and turns by each quota. All work on one launch, so that none has memory of its own.
fn compare(launch: &RefCell<Launch>, rounds: usize, quotas: &[u64]) {
    let mut one_run = || {
        black_box(launch.borrow_mut().run());
    };
    let turn = |quota: u64| {
        move || {
            black_box(in_turns(&mut launch.borrow_mut(), quota));
        }
    };
    let mut turned: Vec<_> = quotas.iter().copied().map(turn).collect();
    let mut jobs: Vec<&mut dyn FnMut()> = vec![&mut one_run];
    jobs.extend(turned.iter_mut().map(|job| job as &mut dyn FnMut()));
    let all = times(&mut jobs, rounds);
    println!("  {:30}{:9.2} ms median{:9.2} ms minimum", "one run, tdload_launch", all[0].0 * 1e3, all[0].1 * 1e3);
    for (quota, (median, minimum)) in quotas.iter().zip(&all[1..]) {
        let turns = in_turns(&mut launch.borrow_mut(), *quota).1;
        print!("  {:30}{:9.2} ms median{:9.2} ms minimum", format!("quota {quota}: {turns} turns"), median * 1e3, minimum * 1e3);
        print!("   this / one run {:.3} {:.3}", median / all[0].0, minimum / all[0].1);
        println!("{:11.2} us a turn", median / turns as f64 * 1e6);
    }
    println!("  ({rounds} rounds)");
}

fn main() {
    let mut launch = all_measured();
    let accepted = launch.run();
    for quota in GROUPS.iter().flat_map(|(_, quotas)| quotas.iter().copied()) {
        assert_eq!(in_turns(&mut launch, quota).0, accepted.measurement, "turns of {quota}");
    }

    print_machine();
    println!("16 MiB, all measured: {} pages, {} blocks and the padding's", accepted.pages, accepted.blocks);
    let launch = RefCell::new(launch);
    for (rounds, quotas) in GROUPS {
        compare(&launch, rounds, quotas);
    }
    let mut start = || {
        black_box(begin(&mut launch.borrow_mut()));
    };
    println!("  the start alone, tdload_begin: {:.1} us median of 51", times(&mut [&mut start], 51)[0].0 * 1e6);
    println!();
    println!("Measured in one process and one thread, by the wall clock: after a warm-up of each, rounds, each of which runs");
    println!("one run and each of the quotas below it once, in an order that turns by one each round. All gave the same");
    println!("measurement first. The ratios are by the medians and by the minima; the start is in all of these times.");
}
