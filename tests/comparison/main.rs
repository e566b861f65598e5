//! Compares the static library with the second loader (tests/second), which was written from page 01
//! and the rules of the measurement in turns alone: on the page's own cases, on each two rules broken at once, on random and damaged
//! launches, from several threads at once, on the page view, and on the measurement in turns.
//! tests/compare builds and starts it.

#[path = "../second/mod.rs"]
mod second;

mod cases;
mod check;
mod crash;
mod desk;
mod digest;
mod draft;
mod each;
mod invented;
mod lent;
mod library;
mod noise;
mod pairs;
mod random;
mod threads;
mod turns;
mod views;

use check::{Bench, Setting};
use noise::Random;
use std::process::exit;
use std::time::Instant;

const LAUNCHES: u64 = 200_000;
const SEED: u64 = 1;

/// What a run of at least `LAUNCHES` has to come to.
const LEAST_OF_EACH: u64 = 500;

struct Wishes {
    launches: u64,
    seed: u64,
    only: Option<u64>,
    /// Parts to run; all where it is empty.
    parts: Vec<String>,
}

fn usage() -> ! {
    println!("options: --launches N, --seed N,");
    println!("--only N (one random launch; behind --part turns, one random case of it),");
    println!("--part digest, cases, pairs, views, turns, random or threads");
    exit(2)
}

fn wishes() -> Wishes {
    let mut wishes = Wishes {
        launches: LAUNCHES,
        seed: SEED,
        only: None,
        parts: Vec::new(),
    };
    let mut words = std::env::args().skip(1);
    while let Some(option) = words.next() {
        let value = words.next().unwrap_or_else(|| usage());
        let number = || value.parse().unwrap_or_else(|_| usage());
        match option.as_str() {
            "--launches" => wishes.launches = number(),
            "--seed" => wishes.seed = number(),
            "--only" => wishes.only = Some(number()),
            "--part" => wishes.parts.push(value),
            _ => usage(),
        }
    }
    wishes
}

fn main() {
    let wishes = wishes();
    crash::watch();
    let mut bench = Bench::new();
    if let Some(number) = wishes.only {
        if wishes.parts == ["turns"] {
            if let Err(what) = turns::only(&mut bench, wishes.seed, number) {
                fail(&bench, &what);
            }
            return;
        }
        match one_random(&mut bench, wishes.seed, number) {
            Ok(answer) => println!("launch {number}: both answer {}", check::shown(&answer)),
            Err(what) => fail(&bench, &what),
        }
        crash::keep(bench.rendered());
        return;
    }
    let parts: [(&str, fn(&mut Bench, &Wishes) -> Result<(), String>); 7] = [
        ("digest", |_, _| digest::run()),
        ("cases", run_cases),
        ("pairs", run_pairs),
        ("views", run_views),
        ("turns", |bench, wishes| turns::run(bench, wishes.seed)),
        ("random", run_random),
        ("threads", run_threads),
    ];
    for (name, part) in parts {
        if !wishes.parts.is_empty() && !wishes.parts.iter().any(|wished| wished == name) {
            continue;
        }
        let start = Instant::now();
        if let Err(what) = part(&mut bench, &wishes) {
            fail(&bench, &what);
        }
        println!("ok {name}, {:.1} s", start.elapsed().as_secs_f64());
    }
}

fn fail(bench: &Bench, what: &str) -> ! {
    println!("FAILED {what}");
    if let Some(launch) = bench.tried() {
        crash::keep(launch);
    }
    exit(1)
}

fn run_cases(bench: &mut Bench, _: &Wishes) -> Result<(), String> {
    println!(
        "cases: {}, and {} at each place of the largest launch",
        cases::run(bench)?,
        each::run(bench)?
    );
    Ok(())
}

fn run_pairs(bench: &mut Bench, _: &Wishes) -> Result<(), String> {
    let counts = pairs::run(bench)?;
    println!(
        "pairs: {} changes alone; {} pairs of rules by {} combinations",
        counts.changes, counts.pairs, counts.combinations
    );
    for reason in counts.impossible {
        println!("  impossible: {reason}");
    }
    Ok(())
}

fn run_views(bench: &mut Bench, _: &Wishes) -> Result<(), String> {
    bench.forget();
    crash::name("views: slices of many lengths".to_string());
    crash::entering(None);
    let compared = bench.views.compare_edges();
    crash::left();
    compared?;
    println!(
        "views: {}, {} with data",
        bench.views.compared, bench.views.with_data
    );
    Ok(())
}

fn run_threads(bench: &mut Bench, wishes: &Wishes) -> Result<(), String> {
    let (launches, accepted) = threads::run(bench, wishes.seed)?;
    println!(
        "threads: {launches} launches by {} threads at once, {accepted} accepted",
        threads::THREADS
    );
    Ok(())
}

fn one_random(bench: &mut Bench, seed: u64, number: u64) -> Result<second::Answer, String> {
    let again =
        format!("launch {number} of seed {seed}; again by: tests/compare --seed {seed} --only {number}");
    crash::name(again.clone());
    let mut random = Random::new(seed, number);
    let draft = random::draft(&mut random);
    let setting = Setting::new(random.next());
    bench
        .try_in(&draft, setting)
        .map_err(|what| format!("{again}\n{what}"))
}

#[derive(Default)]
struct Tally {
    answers: [u64; 20],
    pages: u64,
    most_pages: u64,
    longest_list: u64,
    blocks: u64,
    long_images: u64,
    too_long_images: u64,
}

fn run_random(bench: &mut Bench, wishes: &Wishes) -> Result<(), String> {
    let mut tally = Tally::default();
    let before = bench.views.compared;
    for number in 0..wishes.launches {
        let answer = one_random(bench, wishes.seed, number)?;
        tally.answers[answer.refusal as usize] += 1;
        tally.pages += answer.pages;
        tally.most_pages = tally.most_pages.max(answer.pages);
        tally.longest_list = tally.longest_list.max(answer.hob_length);
        tally.blocks += answer.blocks;
        let length = bench.rendered().image.len();
        tally.long_images += u64::from(length > 16_000_000);
        tally.too_long_images += u64::from(length > draft::LONGEST_IMAGE);
    }
    println!("random: {} launches, seed {}", wishes.launches, wishes.seed);
    println!(
        "  accepted {}, with {} pages (at most {}), {} blocks, HOB lists of at most {} bytes",
        tally.answers[0], tally.pages, tally.most_pages, tally.blocks, tally.longest_list
    );
    println!(
        "  views {}; images of about 16 MiB {}, of them too long {}",
        bench.views.compared - before,
        tally.long_images,
        tally.too_long_images
    );
    for (rule, count) in tally.answers.iter().enumerate().skip(1) {
        println!("  refused {rule}: {count}");
    }
    enough(&tally, wishes.launches)
}

/// A shortfall means that the generator no longer reaches what it is for.
fn enough(tally: &Tally, launches: u64) -> Result<(), String> {
    if launches < LAUNCHES {
        println!("  fewer than {LAUNCHES} launches: the counts are not held against anything");
        return Ok(());
    }
    if 4 * tally.answers[0] < launches {
        return Err("random: fewer than a quarter of the launches are accepted".to_string());
    }
    match (1..20).find(|&rule| tally.answers[rule] < LEAST_OF_EACH) {
        Some(rule) => Err(format!(
            "random: rule {rule} is answered fewer than {LEAST_OF_EACH} times"
        )),
        None => Ok(()),
    }
}
