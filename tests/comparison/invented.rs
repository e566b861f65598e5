//! Plans and states that no launch gives: a turn takes any.

use crate::desk::{blocks_of, Desk};
use crate::noise::{Random, STARTS};
use crate::second::sha384;
use crate::second::turns::{State, Turned};

pub const CASES: u64 = 10_000;

const LONG_PLANS: u64 = 20;

/// Turns on what one case lends.
const TURNS: u64 = 4;

/// A turn's blocks, so that a quota of 2^64 - 1 is only given where few are left.
const MOST_BLOCKS: u64 = 120;

const RECORD: usize = 16;

// ---- plans

/// One record: its numbers are near those at which a turn goes wrong.
fn record(random: &mut Random, image_length: usize, last_bytes: &[u8]) -> [u8; RECORD] {
    let some = random.next();
    let (offset, length) = data(random, image_length as u32);
    let address = match random.below(4) {
        0 => 0u64.wrapping_sub(random.within(1, 4_200)),
        1 => 0u64.wrapping_sub(4_096),
        2 => some & !0xFFF,
        _ => some,
    };
    let mut bytes = [0; RECORD];
    bytes[..8].copy_from_slice(&address.to_le_bytes());
    bytes[8..12].copy_from_slice(&offset.to_le_bytes());
    bytes[12..14].copy_from_slice(&length.to_le_bytes());
    bytes[14] = random.pick(&[0, 0, 0, 0, 1, 1, 1, 2, 2, 3, 3, 4, 255, some as u8]);
    bytes[15] = random.pick(last_bytes);
    bytes
}

/// A record's data offset and data length, in an image with so much room.
fn data(random: &mut Random, room: u32) -> (u32, u16) {
    let length = match random.below(8) {
        0 => random.pick(&[0, 1, 127, 128, 255, 256, 257]),
        1 => random.pick(&[4_095, 4_096]),
        2 | 3 => random.pick(&[4_097, 4_098, 8_192, 65_535]),
        4 => random.next() as u16,
        _ => random.within(1, 4_096) as u16,
    };
    let last = room.wrapping_sub(u32::from(length));
    let top = 0u32.wrapping_sub(u32::from(length));
    let offset = match random.below(8) {
        0 => last,
        1 | 2 => last.wrapping_add(1),
        3 => room.wrapping_sub(random.below(3) as u32),
        4 => top.wrapping_add(random.below(3) as u32),
        5 => random.next() as u32,
        6 => 0,
        _ => random.below(u64::from(room) / 2 + 1) as u32,
    };
    (offset, length)
}

/// A plan of such records, drawn from a few, and most of them measured or hardly any; what is left at its
/// end is a cut one.
pub fn plan(random: &mut Random, length: usize, image_length: usize) -> Vec<u8> {
    let some = random.next() as u8;
    let last_bytes = match random.below(2) {
        0 => [0, 1, 1, 1, 1, 1, 2, some],
        _ => [0, 0, 1, 2, 2, 255, 255, some],
    };
    let few: Vec<[u8; RECORD]> = (0..40)
        .map(|_| record(random, image_length, &last_bytes))
        .collect();
    let mut plan = Vec::with_capacity(length + RECORD);
    while plan.len() < length {
        plan.extend(random.pick(&few));
    }
    plan.truncate(length);
    plan
}

// ---- states

/// Blocks done and the total: near the bounds of the stream that the plan's records give, near 2^64, and
/// where the padding's length in bits or bytes passes 32 or 64 bits.
fn done_and_total(random: &mut Random, stream: u64) -> (u64, u64) {
    let near = random.below(5);
    let done = match random.below(8) {
        0 => 0,
        1 => (stream + near).saturating_sub(2),
        2 => (random.pick(&[48, 49, 50, 98]) + near).saturating_sub(2),
        3 => u64::MAX - random.below(60),
        4 => (1u64 << random.pick(&[22, 25, 29, 32, 53, 54, 57, 61, 63])) - 2 + near,
        5 => random.next(),
        _ => random.below(stream + 9),
    };
    let total = match random.below(8) {
        0 => done,
        1 => random.below(done.max(1)),
        2 => random.next(),
        3 => done.saturating_add(1),
        4 => done.saturating_add(random.within(2, 4)),
        _ => done.saturating_add(random.within(1, MOST_BLOCKS)),
    };
    (done, total)
}

/// Another length than this one, also such that its low half is the same.
fn other_length(random: &mut Random, length: u64) -> u64 {
    let far = length ^ 1 << random.within(0, 63);
    random.pick(&[
        length.wrapping_add(1),
        length.wrapping_sub(1),
        length ^ 1 << 32,
        !length,
        far,
    ])
}

/// A state of random bytes, but that now and then the first questions of a turn let it through.
fn random_state(random: &mut Random, image: &[u8], plan: &[u8]) -> State {
    let mut state = State {
        hash: [0; 8].map(|_: u64| random.next()),
        done: random.next(),
        total: random.next(),
        image_length: random.next(),
        plan_length: random.next(),
        refusal: random.next() as u32,
        place: random.next() as u32,
        index: random.next(),
    };
    if random.one_in(2) {
        state.refusal = 0;
    }
    if random.one_in(2) {
        state.image_length = image.len() as u64;
        state.plan_length = plan.len() as u64;
    }
    state
}

/// A state that most often lets the turn do some blocks.
fn state(random: &mut Random, image: &[u8], plan: &[u8]) -> State {
    let (done, total) = done_and_total(random, blocks_of(plan));
    let some = random.next();
    let mut state = State {
        hash: [0; 8].map(|_: u64| random.next()),
        done,
        total,
        image_length: image.len() as u64,
        plan_length: plan.len() as u64,
        refusal: 0,
        place: random.pick(&[0, 0, 1, 2, 3, some as u32]),
        index: random.pick(&[0, 0, 7, u64::MAX, some]),
    };
    if random.one_in(7) {
        let known = random.within(1, 19) as u32;
        state.refusal = random.pick(&[known, known, 20, 24, 27, 256, 1 << 31, some as u32 | 1]);
    }
    if random.one_in(6) {
        let which = random.below(3);
        if which != 0 {
            state.image_length = other_length(random, state.image_length);
        }
        if which != 1 {
            state.plan_length = other_length(random, state.plan_length);
        }
    }
    state
}

fn quota(random: &mut Random, state: &State) -> u64 {
    let left = state.total.saturating_sub(state.done);
    let some = random.within(1, MOST_BLOCKS);
    let quota = match random.below(12) {
        0 | 1 => 0,
        2 => u64::MAX,
        3 => left.saturating_sub(1).max(1),
        4 => left.max(1),
        5 => left.saturating_add(1),
        6 => 1,
        7 => 1 << random.within(7, 63),
        _ => some,
    };
    if left > MOST_BLOCKS {
        quota.min(some)
    } else {
        quota
    }
}

/// A case: one image and plan, and some states on them; now and then the state that a turn gave.
pub fn one(desk: &mut Desk, noise: &[u8], random: &mut Random) -> Result<(), String> {
    let some = random.index(20_000);
    let image_length = random.pick(&[0, 1, 255, 256, 4_095, 4_096, 4_097, 8_192, some, some, some, some]);
    let some = random.index(200);
    let plan_length = random.pick(&[0, 1, 15, 16, 17, 31, 32, 33, 47, 48, 49, some, some, some]);
    let from = random.index(STARTS);
    let mut image = &noise[from..from + image_length];
    let plan = plan(random, plan_length, image_length);
    if random.one_in(10) {
        image = &plan;
        desk.lend_in_one(image, random.next());
    } else {
        desk.lend(image, &plan, random.next());
    }
    let mut next = None;
    for _ in 0..TURNS {
        let state = match (next.take(), random.below(8)) {
            (Some(state), 0..=3) => state,
            (_, 4) => random_state(random, image, &plan),
            _ => state(random, image, &plan),
        };
        let quota = quota(random, &state);
        let turned = desk.turn(&state, quota)?;
        let lent = (image.len() as u64, plan.len() as u64);
        see(desk, &state, quota, lent, &turned)?;
        next = Some(turned.state);
    }
    Ok(())
}

/// The four questions of a turn, in their order: each answers before those behind it.
fn questions(state: &State, quota: u64, lent: (u64, u64)) -> [bool; 4] {
    [
        state.refusal != 0,
        quota == 0,
        lent != (state.image_length, state.plan_length),
        state.done >= state.total,
    ]
}

const QUESTIONS: [&str; 4] = ["refused", "quota 0", "other length", "finished"];

fn name(questions: [bool; 4]) -> String {
    let yes = (0..4).filter(|&k| questions[k]).map(|k| QUESTIONS[k]);
    let yes: Vec<&str> = yes.collect();
    match yes.len() {
        0 => "invented: goes on".to_string(),
        _ => format!("invented: {}", yes.join(", ")),
    }
}

/// Each of the 16 combinations has to come up.
pub fn least() -> impl Iterator<Item = (String, u64)> {
    (0..16).map(|bits| (name([0, 1, 2, 3].map(|k| bits >> k & 1 == 1)), 10))
}

fn note(desk: &mut Desk, state: &State, refusal: &(u32, u32, u64), blocks: u64) {
    if blocks > 0 && state.done > u64::MAX - 1_000 {
        desk.tally.add("blocks near 2^64");
    }
    if refusal.0 == 0 && state.done > state.total {
        desk.tally.add("done above the total");
    }
}

/// Holds against the rules what both implementations answer, but for the hash value.
fn see(desk: &mut Desk, state: &State, quota: u64, lent: (u64, u64), turned: &Turned) -> Result<(), String> {
    let asked = questions(state, quota, lent);
    desk.tally.add(&name(asked));
    let refusal = match asked {
        [true, ..] => (state.refusal, state.place, state.index),
        [_, true, ..] => (24, 0, 0),
        [_, _, true, _] => (27, 0, 0),
        _ => (0, 0, 0),
    };
    let left = state.total.saturating_sub(state.done);
    let blocks = if refusal.0 == 0 { quota.min(left) } else { 0 };
    note(desk, state, &refusal, blocks);
    let hash = if blocks == 0 {
        state.hash
    } else {
        turned.state.hash
    };
    let ended = refusal.0 == 0 && blocks == left;
    let want = Turned {
        state: State {
            hash,
            done: state.done + blocks,
            ..state.clone()
        },
        refusal: refusal.0,
        place: refusal.1,
        index: refusal.2,
        blocks,
        measurement: if ended { sha384::left_most(&hash) } else { [0; 48] },
    };
    if *turned == want {
        return Ok(());
    }
    Err(format!(
        "{}\nboth implementations answer, against the rules, not {want:?} but {turned:?}",
        desk.name
    ))
}

/// Plans with more records than any launch plans, where the turn comes from the last of those to the next,
/// and where it comes to the plan's end.
pub fn long_plans(desk: &mut Desk, noise: &[u8], seed: u64) -> Result<(), String> {
    let image = &noise[..5_000];
    for number in 0..LONG_PLANS {
        desk.name = format!("turns: long plan {number} of seed {seed}");
        let mut random = Random::new(seed ^ 0x6C6F_6E67, number);
        let plan = plan(&mut random, 70_001, image.len());
        desk.lend(image, &plan, number);
        for before in [&plan[..65_536], &plan[..]] {
            let done = blocks_of(before) - random.within(1, 60);
            let state = State {
                done,
                total: done + 200,
                ..first_state(0, image.len(), plan.len())
            };
            desk.turn(&state, random.within(61, 120))?;
        }
    }
    Ok(())
}

// ---- by hand

/// The block that adds a page at an address.
fn add_block(address: u64) -> Vec<u8> {
    let mut block = b"MEM.PAGE.ADD\0\0\0\0".to_vec();
    block.extend(address.to_le_bytes());
    block.resize(128, 0);
    block
}

fn first_state(blocks: u64, image_length: usize, plan_length: usize) -> State {
    State {
        hash: sha384::start(),
        done: 0,
        total: blocks + 1,
        image_length: image_length as u64,
        plan_length: plan_length as u64,
        refusal: 0,
        place: 0,
        index: 0,
    }
}

/// Streams that are written out here, hashed as a whole: of no plan, and of two plans in two turns.
pub fn by_hand(desk: &mut Desk) -> Result<(), String> {
    desk.name = "turns: streams by hand".to_string();
    for length in [0, 1, 15, 16, 17, 31, 32] {
        for blocks in 0..5 {
            let plan = vec![if length < 16 { 1 } else { 0 }; length];
            let turns = [(&plan[..], 2), (&plan[..], 9), (&plan[..], 9)];
            let stream = add_block(0).repeat(blocks);
            last_measurement(desk, &turns, blocks as u64, &stream)?;
        }
    }
    let plan = |first: u64| -> Vec<u8> {
        let records = (0..6).map(|k| (u128::from(first + k) | (2 << 120)).to_le_bytes());
        records.flatten().collect()
    };
    let (one, other) = (plan(0x1000), plan(0x5000));
    let turns = [(&one[..], 2), (&other[..], 1), (&one[..], 1), (&other[..], 9)];
    let addresses = [0x1000, 0x1001, 0x5002, 0x1003, 0x5004, 0x5005, 0];
    let stream: Vec<u8> = addresses.iter().flat_map(|&address| add_block(address)).collect();
    last_measurement(desk, &turns, 7, &stream)
}

fn last_measurement(
    desk: &mut Desk,
    turns: &[(&[u8], u64)],
    blocks: u64,
    stream: &[u8],
) -> Result<(), String> {
    let mut state = first_state(blocks, 0, turns[0].0.len());
    let mut measurement = [0; 48];
    for (k, &(plan, quota)) in turns.iter().enumerate() {
        desk.lend(&[], plan, k as u64);
        let turned = desk.turn(&state, quota)?;
        state = turned.state;
        measurement = turned.measurement;
    }
    if measurement == sha384::sha384(stream) {
        return Ok(());
    }
    Err(format!(
        "{}\nboth implementations answer another measurement for {blocks} blocks",
        desk.name
    ))
}
