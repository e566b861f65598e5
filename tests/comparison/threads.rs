//! Several threads at once: they share the image and the map, and each has buffers of its own.

use crate::check::{compare_answers, same_bytes, Bench};
use crate::crash;
use crate::draft::Launch;
use crate::lent::{Arena, Side};
use crate::library;
use crate::noise::Random;
use crate::random;
use crate::second;
use std::sync::Barrier;
use std::thread;

pub const THREADS: usize = 8;
const LAUNCHES: u64 = 300;
const ROUNDS: usize = 5;

/// The launch at which a thread found a difference first, and what it is.
type Found = Option<(usize, String)>;

struct Shared {
    number: u64,
    launch: Launch,
    image: Arena,
    map: Arena,
    answer: second::Answer,
    plan: Vec<u8>,
    hob: Vec<u8>,
}

// The arenas are written before the threads start, and only read by them.
unsafe impl Sync for Shared {}

fn side(number: u64) -> Side {
    if number % 2 == 0 {
        Side::Before
    } else {
        Side::Behind
    }
}

/// Answers how many launches were tried, and how many of them were accepted.
pub fn run(bench: &mut Bench, seed: u64) -> Result<(usize, usize), String> {
    let mut launches = Vec::new();
    for number in 0..LAUNCHES {
        let draft = random::draft(&mut Random::new(seed ^ 0x7468_7265, number));
        let mut launch = Launch::default();
        draft.render(&bench.noise, &mut launch);
        launch.map_in_image = false;
        if launch.image.len() <= 70_000 {
            launches.push(shared(launch, number));
        }
    }
    let accepted = launches
        .iter()
        .filter(|shared| shared.answer.refusal == 0)
        .count();
    let tried = launches.len();
    crash::name(format!("threads: one of {tried} launches by {THREADS} threads"));
    crash::entering(None);
    let barrier = Barrier::new(THREADS);
    let results: Vec<Found> = thread::scope(|scope| {
        let (launches, barrier, noise) = (&launches, &barrier, &bench.noise);
        let started: Vec<_> = (0..THREADS)
            .map(|k| scope.spawn(move || one_thread(launches, barrier, noise, k)))
            .collect();
        let ended = started.into_iter().map(|handle| handle.join());
        let panicked = || Some((0, "threads: a thread panicked".to_string()));
        ended.map(|end| end.unwrap_or_else(|_| panicked())).collect()
    });
    crash::left();
    match results.into_iter().flatten().next() {
        Some((at, what)) => {
            bench.show(launches.swap_remove(at).launch);
            Err(what)
        }
        None => Ok((tried, accepted)),
    }
}

fn shared(launch: Launch, number: u64) -> Shared {
    let (answer, plan, hob) = second::launch(
        &launch.image,
        &launch.map,
        launch.width,
        launch.plan_length,
        launch.hob_length,
    );
    let mut image = Arena::new(launch.image.len());
    let mut map = Arena::new(launch.map.len());
    image.write(&launch.image, side(number));
    map.write(&launch.map, side(number / 2));
    image.set_read_only(launch.image.len(), side(number), true);
    map.set_read_only(launch.map.len(), side(number / 2), true);
    Shared {
        number,
        launch,
        image,
        map,
        answer,
        plan,
        hob,
    }
}

/// All launches several times: in the first round all threads try the same one at the same moment,
/// and then different ones, so that nothing that two calls share can go unseen. A thread that finds
/// a difference goes on to the end, since the others wait for it.
fn one_thread(launches: &[Shared], barrier: &Barrier, noise: &[u8], k: usize) -> Found {
    let mut buffers = (Arena::new(1 << 17), Arena::new(1 << 17));
    let mut found = None;
    for round in 0..ROUNDS {
        for number in 0..launches.len() {
            let at = (number + round * k * 37) % launches.len();
            let compared = one_launch(
                &launches[at],
                &mut buffers,
                barrier,
                &noise[k * 4096 + 1..],
                at + k,
            );
            if let (None, Err(what)) = (&found, compared) {
                found = Some((
                    at,
                    format!("threads: round {round}, thread {k}, launch {at}: {what}"),
                ));
            }
        }
    }
    found
}

fn one_launch(
    shared: &Shared,
    buffers: &mut (Arena, Arena),
    barrier: &Barrier,
    garbage: &[u8],
    sides: usize,
) -> Result<(), String> {
    let launch = &shared.launch;
    let (plan, hob) = buffers;
    let (plan_side, hob_side) = (side(sides as u64), side(sides as u64 / 2));
    let plan_at = plan.write(&garbage[..launch.plan_length], plan_side);
    let hob_at = hob.write(&garbage[..launch.hob_length], hob_side);
    barrier.wait();
    let answer = unsafe {
        library::tdload_launch(
            shared.image.place(launch.image.len(), side(shared.number)),
            launch.image.len(),
            shared.map.place(launch.map.len(), side(shared.number / 2)),
            launch.map.len(),
            launch.width,
            plan_at,
            launch.plan_length,
            hob_at,
            launch.hob_length,
        )
    };
    compare_answers(&answer, &shared.answer)?;
    same_bytes("plan", plan.read(launch.plan_length, plan_side), &shared.plan)?;
    same_bytes("HOB", hob.read(launch.hob_length, hob_side), &shared.hob)
}
