//! The measurement in turns: the library against the second implementation. Each start is held against the
//! launch as well, and the turns from it, however they are cut, have to end with the launch's measurement.
//! Then the turns are lent another image and plan of the same lengths. States that no start gives are in
//! invented.rs.

use crate::cases;
use crate::check::{Bench, Setting, Start};
use crate::crash;
use crate::desk::{Desk, Tally};
use crate::draft::Draft;
use crate::invented;
use crate::noise::{Random, STARTS as NOISE_STARTS};
use crate::random;
use crate::second::turns::{State, Turned};

/// Random launches to start from.
const STARTS: u64 = 3_000;

/// How many bytes the turns of one cut may move, about: the second implementation builds the stream anew in
/// each turn.
const RANDOM_WORK: u64 = 20_000_000;
const CASE_WORK: u64 = 300_000_000;

/// The longest image in whose place others are lent: longer ones would show no more and take long.
const LONGEST_OTHER: usize = 70_001;

/// How the blocks are cut into turns: by one quota, or at random.
#[derive(Clone, Copy)]
struct Cut {
    name: &'static str,
    quota: Option<u64>,
}

const fn cut(name: &'static str, quota: Option<u64>) -> Cut {
    Cut { name, quota }
}

const CUTS: [Cut; 5] = [
    cut("cut into turns of 1", Some(1)),
    cut("cut into turns of 5", Some(5)),
    cut("cut into turns of 1,000", Some(1_000)),
    cut("not cut", Some(u64::MAX)),
    cut("cut at random", None),
];

/// What a run has to come to, at least. The names from "last byte" on are the desk's: it counts the records
/// that the turns' blocks came from.
const LEAST: [(&str, u64); 45] = [
    ("start accepted", 1_000),
    ("start refused", 1_000),
    ("turn on a refused start", 5_000),
    ("cut into turns of 1", 300),
    ("cut into turns of 5", 300),
    ("cut into turns of 1,000", 300),
    ("not cut", 300),
    ("cut at random", 300),
    ("several turns of 1,000", 5),
    ("finished, and asked again", 1_500),
    ("24 on the way", 1_500),
    ("27 on the way", 1_500),
    ("24 when finished", 1_500),
    ("27 when finished", 1_500),
    ("lent another image", 4_000),
    ("lent another plan", 5_000),
    ("finished with others", 1_000),
    ("last byte 0", 10_000),
    ("last byte 1", 10_000),
    ("last byte 2", 4_000),
    ("last byte 3 to 254", 2_000),
    ("last byte 255", 4_000),
    ("a chunk's address past 2^64", 1_000),
    ("page of type 0", 10_000),
    ("page of type 1", 5_000),
    ("page of type 2", 1_000),
    ("page of type 3", 1_000),
    ("page of type 4 to 254", 1_000),
    ("page of type 255", 400),
    ("page of no data", 1_000),
    ("page of data and zeros", 1_000),
    ("page full of data", 1_000),
    ("page of more than 4,096 bytes", 100),
    ("page up to the image's end", 1_000),
    ("page a byte past the image's end", 300),
    ("page far past the image's end", 500),
    ("page past 2^32", 300),
    ("a cut record", 600),
    ("a record behind 4,096", 100),
    ("past the plan's end", 4_000),
    ("padding", 5_000),
    ("padding of 2^64 bits or more", 1_000),
    ("image and plan in one", 500),
    ("blocks near 2^64", 500),
    ("done above the total", 1_000),
];

pub fn run(bench: &mut Bench, seed: u64) -> Result<(), String> {
    let mut desk = Desk::new();
    let cases = run_cases(bench, &mut desk, seed)?;
    bench.forget();
    invented::by_hand(&mut desk)?;
    invented::long_plans(&mut desk, &bench.noise, seed)?;
    for number in 0..STARTS + invented::CASES {
        one(bench, &mut desk, seed, number)?;
    }
    println!(
        "turns: {} of {} blocks in all, from {cases} cases, {STARTS} random launches and {} lots of \
         invented states, seed {seed}",
        desk.turns,
        desk.blocks,
        invented::CASES
    );
    enough(&desk.tally)
}

/// One of the random cases again, alone.
pub fn only(bench: &mut Bench, seed: u64, number: u64) -> Result<(), String> {
    let mut desk = Desk::new();
    one(bench, &mut desk, seed, number)?;
    println!(
        "case {number}: no difference in {} turns with {} blocks",
        desk.turns, desk.blocks
    );
    Ok(())
}

/// A shortfall means that the cases no longer reach what they are for.
fn enough(tally: &Tally) -> Result<(), String> {
    let rules = (1..20).map(|rule| (format!("start refused {rule}"), 5));
    let table = LEAST.iter().map(|&(what, least)| (what.to_string(), least));
    let mut short = Ok(());
    for (what, least) in table.chain(rules).chain(invented::least()) {
        let count = tally.count(&what);
        println!("  {what}: {count}");
        if count < least {
            short = Err(format!("turns: \"{what}\" came up fewer than {least} times"));
        }
    }
    short
}

/// The page's cases, each cut in all ways that do not take too long.
fn run_cases(bench: &mut Bench, desk: &mut Desk, seed: u64) -> Result<usize, String> {
    let cases = cases::all();
    for (number, case) in cases.iter().enumerate() {
        desk.name = format!("turns: case: {}", case.name);
        crash::name(desk.name.clone());
        let mut random = Random::new(seed ^ 0x6361_7365, number as u64);
        let start = begin(bench, desk, &case.draft, &mut random)?;
        let mut course = Course {
            desk: &mut *desk,
            image: &bench.rendered().image,
            start: &start,
            random,
        };
        if start.state.refusal != 0 {
            course.refused()?;
            continue;
        }
        for cut in CUTS {
            course.through_if_short(cut, CASE_WORK)?;
        }
    }
    Ok(cases.len())
}

/// A random case, by its number alone: first the starts, then the invented states.
fn one(bench: &mut Bench, desk: &mut Desk, seed: u64, number: u64) -> Result<(), String> {
    desk.name = format!(
        "turns: case {number} of seed {seed}; again by: \
         tests/compare --part turns --seed {seed} --only {number}"
    );
    crash::name(desk.name.clone());
    let mut random = Random::new(seed ^ 0x7475_726E, number);
    if number >= STARTS {
        bench.forget();
        return invented::one(desk, &bench.noise, &mut random);
    }
    let draft = random::draft(&mut random);
    let start = begin(bench, desk, &draft, &mut random)?;
    let mut course = Course {
        desk,
        image: &bench.rendered().image,
        start: &start,
        random,
    };
    if start.state.refusal != 0 {
        return course.refused();
    }
    for _ in 0..2 {
        let cut = course.random.pick(&CUTS);
        course.through_if_short(cut, RANDOM_WORK)?;
    }
    course.with_others(&bench.noise)?;
    course.with_others(&bench.noise)
}

fn begin(bench: &mut Bench, desk: &mut Desk, draft: &Draft, random: &mut Random) -> Result<Start, String> {
    let start = bench
        .try_start(draft, Setting::new(random.next()))
        .map_err(|what| format!("{}\n{what}", desk.name))?;
    match start.state.refusal {
        0 => desk.tally.add("start accepted"),
        rule => {
            desk.tally.add("start refused");
            desk.tally.add(&format!("start refused {rule}"));
        }
    }
    Ok(start)
}

/// The turns from one start.
struct Course<'a> {
    desk: &'a mut Desk,
    image: &'a [u8],
    start: &'a Start,
    random: Random,
}

/// What a turn answers that does no block.
fn idle(state: &State, refusal: u32, measurement: [u8; 48]) -> Turned {
    Turned {
        state: state.clone(),
        refusal,
        place: 0,
        index: 0,
        blocks: 0,
        measurement,
    }
}

impl Course<'_> {
    /// Holds against the rules what both implementations answer.
    fn see(&self, stands: bool, what: &str) -> Result<(), String> {
        if stands {
            return Ok(());
        }
        Err(format!(
            "{}\nboth implementations answer, against the rules: {what}",
            self.desk.name
        ))
    }

    /// Lends what the start was lent and left.
    fn lend(&mut self) {
        self.desk.lend(self.image, &self.start.plan, self.random.next());
    }

    /// Each turn on a refused start answers the launch's refusal, whatever it is lent.
    fn refused(&mut self) -> Result<(), String> {
        let state = &self.start.state;
        let want = Turned {
            place: state.place,
            index: state.index,
            ..idle(state, state.refusal, [0; 48])
        };
        self.lend();
        for quota in [0, 1, u64::MAX] {
            let turned = self.desk.turn(state, quota)?;
            self.see(turned == want, "a refused start gives another answer")?;
            self.desk.tally.add("turn on a refused start");
        }
        self.desk.lend(&[1; 17], &[1; 33], self.random.next());
        let turned = self.desk.turn(state, self.random.below(2))?;
        self.see(
            turned == want,
            "a refused start, lent others, gives another answer",
        )
    }

    fn through_if_short(&mut self, cut: Cut, work: u64) -> Result<(), String> {
        let total = self.start.state.total;
        let turns = cut.quota.map_or(20, |quota| total / quota + 1);
        let bytes = 128 * total / 2 + (self.image.len() + self.start.plan.len()) as u64;
        if turns * bytes > work {
            return Ok(());
        }
        self.through(cut)
    }

    /// All turns of a measurement, lent what the start left.
    fn through(&mut self, cut: Cut) -> Result<(), String> {
        self.lend();
        let total = self.start.state.total;
        let mut state = self.start.state.clone();
        let mut sum = 0;
        while sum < total {
            let quota = self.quota(cut, total - sum);
            let turned = self.desk.turn(&state, quota)?;
            self.see(turned.refusal == 0, "a refusal in the middle")?;
            let left = total - sum;
            self.see(turned.blocks == quota.min(left), "another number of blocks")?;
            sum += turned.blocks;
            let ended = sum == total;
            let want = if ended { self.start.measurement } else { [0; 48] };
            self.see(turned.measurement == want, "another measurement")?;
            state = turned.state;
            if ended || self.random.one_in(12) {
                self.refused_between(&state, ended)?;
            }
        }
        self.see(sum == total, "more blocks than the total")?;
        self.desk.tally.add(cut.name);
        if cut.quota == Some(1_000) && total > 1_000 {
            self.desk.tally.add("several turns of 1,000");
        }
        self.ask_again(&state)
    }

    fn quota(&mut self, cut: Cut, left: u64) -> u64 {
        if let Some(quota) = cut.quota {
            return quota;
        }
        let most = (self.start.state.total / 6).max(30);
        match self.random.below(20) {
            0..=2 => self.random.within(1, 3),
            3..=5 => self.random.within(48, 50),
            6 => left.max(2) - 1,
            7 => left,
            8 => left + 1,
            _ => self.random.within(1, most),
        }
    }

    fn ask_again(&mut self, state: &State) -> Result<(), String> {
        for quota in [1, u64::MAX] {
            let turned = self.desk.turn(state, quota)?;
            let want = idle(state, 0, self.start.measurement);
            self.see(turned == want, "a finished state gives another answer")?;
        }
        self.desk.tally.add("finished, and asked again");
        Ok(())
    }

    /// Refused turns in between: the state stays as it is, so the next turn goes on from it.
    fn refused_between(&mut self, state: &State, finished: bool) -> Result<(), String> {
        if self.image.len() > LONGEST_OTHER {
            return Ok(());
        }
        let when = if finished { "when finished" } else { "on the way" };
        let turned = self.desk.turn(state, 0)?;
        self.see(turned == idle(state, 24, [0; 48]), "no refusal 24")?;
        self.desk.tally.add(&format!("24 {when}"));
        let (mut image, mut plan) = (self.image.to_vec(), self.start.plan.clone());
        match self.random.below(4) {
            0 => image.push(0),
            1 => image.truncate(image.len() - 1),
            2 => plan.push(0),
            _ => plan.truncate(plan.len() - 1),
        }
        self.desk.lend(&image, &plan, self.random.next());
        let turned = self.desk.turn(state, self.random.within(1, 9))?;
        self.see(turned == idle(state, 27, [0; 48]), "no refusal 27")?;
        self.desk.tally.add(&format!("27 {when}"));
        self.lend();
        Ok(())
    }

    /// Some turns that are lent another image, another plan or both, each of the start's length.
    fn with_others(&mut self, noise: &[u8]) -> Result<(), String> {
        if self.image.len() > LONGEST_OTHER {
            return Ok(());
        }
        let mut state = self.start.state.clone();
        for _ in 0..6 {
            self.lend_others(noise);
            let left = state.total - state.done;
            let some = self.random.within(1, 150);
            let quota = self.random.pick(&[1, 2, 48, 49, 50, some, some, some]);
            let turned = self.desk.turn(&state, quota)?;
            self.see(turned.refusal == 0, "a refusal in the middle")?;
            self.see(turned.blocks == quota.min(left), "another number of blocks")?;
            state = turned.state;
            if quota >= left {
                self.lend_others(noise);
                let again = self.desk.turn(&state, some)?;
                let want = idle(&state, 0, turned.measurement);
                self.see(again == want, "what is lent changes a finished measurement")?;
                self.desk.tally.add("finished with others");
                break;
            }
        }
        Ok(())
    }

    fn lend_others(&mut self, noise: &[u8]) {
        let random = &mut self.random;
        let (length, plan_length) = (self.image.len(), self.start.plan.len());
        let from = random.index(NOISE_STARTS);
        let image = match random.below(3) {
            0 => self.image,
            _ => &noise[from..from + length],
        };
        let plan = match random.below(7) {
            0 => self.start.plan.clone(),
            1 => noise[from + length..][..plan_length].to_vec(),
            _ => invented::plan(random, plan_length, length),
        };
        if image != self.image {
            self.desk.tally.add("lent another image");
        }
        if plan != self.start.plan {
            self.desk.tally.add("lent another plan");
        }
        self.desk.lend(image, &plan, random.next());
    }
}
