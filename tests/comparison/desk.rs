//! One turn through the library and the second implementation, and what differs. What is lent stands on
//! pages that can only be read, against unreadable ones.

use crate::check::{same_bytes, LONGEST_BUFFER};
use crate::crash;
use crate::lent::{Arena, Side};
use crate::library;
use crate::noise::LONGEST;
use crate::second::turns::{turn, State, Turned};
use std::collections::BTreeMap;

const RECORD: usize = 16;

/// No launch plans more records.
const MOST_PLANNED: usize = 4096;

/// A record whose last byte is 1 gives a block to add its page, and three for each of its 16 chunks.
const MEASURED: u128 = 1 + 3 * 16;

/// What a turn is lent.
#[derive(Default)]
pub struct Lent {
    pub image: Vec<u8>,
    pub plan: Vec<u8>,
}

/// How often each thing that is to be tried was tried.
#[derive(Default)]
pub struct Tally(BTreeMap<String, u64>);

impl Tally {
    pub fn add(&mut self, what: &str) {
        match self.0.get_mut(what) {
            Some(count) => *count += 1,
            None => {
                self.0.insert(what.to_string(), 1);
            }
        }
    }

    pub fn count(&self, what: &str) -> u64 {
        self.0.get(what).copied().unwrap_or(0)
    }
}

pub struct Desk {
    image: Arena,
    plan: Arena,
    sides: (Side, Side),
    lent: Lent,
    /// The plan is lent as the image's own bytes.
    in_one: bool,
    /// What is tried, and how to try it again.
    pub name: String,
    pub tally: Tally,
    pub turns: u64,
    pub blocks: u128,
}

impl Desk {
    pub fn new() -> Desk {
        Desk {
            image: Arena::new(LONGEST),
            plan: Arena::new(LONGEST_BUFFER),
            sides: (Side::Before, Side::Before),
            lent: Lent::default(),
            in_one: false,
            name: String::new(),
            tally: Tally::default(),
            turns: 0,
            blocks: 0,
        }
    }

    /// What the next turns are lent. The two low bits of `sides` say where it stands.
    pub fn lend(&mut self, image: &[u8], plan: &[u8], sides: u64) {
        let side = |bit: u64| {
            if bit % 2 == 0 {
                Side::Before
            } else {
                Side::Behind
            }
        };
        self.set_read_only(false);
        self.sides = (side(sides), side(sides / 2));
        self.image.write(image, self.sides.0);
        self.plan.write(plan, self.sides.1);
        self.lent.image.clear();
        self.lent.image.extend_from_slice(image);
        self.lent.plan.clear();
        self.lent.plan.extend_from_slice(plan);
        self.in_one = false;
        self.set_read_only(true);
    }

    /// Lends the same bytes as the image and as the plan. Both are only read, so that is allowed.
    pub fn lend_in_one(&mut self, bytes: &[u8], sides: u64) {
        self.lend(bytes, bytes, sides);
        self.in_one = true;
        self.tally.add("image and plan in one");
    }

    fn set_read_only(&mut self, read_only: bool) {
        let (image, plan) = (self.lent.image.len(), self.lent.plan.len());
        self.image.set_read_only(image, self.sides.0, read_only);
        self.plan.set_read_only(plan, self.sides.1, read_only);
    }

    /// A turn on what is lent now. Answers what both answer, or what differs.
    pub fn turn(&mut self, state: &State, quota: u64) -> Result<Turned, String> {
        let (image, plan) = (self.lent.image.len(), self.lent.plan.len());
        let text = format!(
            "a turn of {quota}, lent an image of {image} bytes and a plan of {plan}, on {}",
            shown_state(state)
        );
        crash::name(format!("{}\n{text}", self.name));
        let turned = from_library(self.call(state, quota));
        let expected = turn(state, &self.lent.image, &self.lent.plan, quota);
        self.compare(&turned, &expected).map_err(|what| {
            crash::keep_lent(&self.lent);
            format!("{}\n{text}:\n{what}", self.name)
        })?;
        self.note(state, &expected);
        Ok(expected)
    }

    fn call(&mut self, state: &State, quota: u64) -> library::Turned {
        let (image, plan) = (self.lent.image.len(), self.lent.plan.len());
        let image_at = self.image.place(image, self.sides.0);
        let plan_at = if self.in_one {
            image_at
        } else {
            self.plan.place(plan, self.sides.1)
        };
        let state = for_library(state);
        crash::entering_turn(&self.lent);
        let turned = unsafe { library::tdload_turn(state, image_at, image, plan_at, plan, quota) };
        crash::left();
        turned
    }

    fn compare(&self, turned: &Turned, expected: &Turned) -> Result<(), String> {
        if turned != expected {
            let (left, right) = (shown(turned), shown(expected));
            return Err(format!(
                "the library answers\n  {left}\nand the second implementation\n  {right}"
            ));
        }
        let (image, plan) = (&self.lent.image, &self.lent.plan);
        same_bytes("lent image's", self.image.read(image.len(), self.sides.0), image)?;
        same_bytes("lent plan's", self.plan.read(plan.len(), self.sides.1), plan)
    }

    fn note(&mut self, state: &State, turned: &Turned) {
        self.turns += 1;
        self.blocks += u128::from(turned.blocks);
        if turned.blocks == 0 {
            return;
        }
        let from = u128::from(state.done);
        let mut to = from + u128::from(turned.blocks);
        if turned.state.done == state.total {
            to -= 1; // the padding block comes from no record
            self.tally.add("padding");
            if to >= 1 << 54 {
                self.tally.add("padding of 2^64 bits or more");
            }
        }
        note_records(&mut self.tally, &self.lent, from, to);
    }
}

/// What was lent is gone then, and must not be looked at.
impl Drop for Desk {
    fn drop(&mut self) {
        crash::entering(None);
        crash::left();
    }
}

/// Counts the records that a turn's blocks came from, each by what is special about it.
fn note_records(tally: &mut Tally, lent: &Lent, from: u128, to: u128) {
    let mut first = 0;
    for (k, record) in lent.plan.chunks(RECORD).enumerate() {
        if first >= to {
            return;
        }
        let whole = record.len() == RECORD;
        let blocks = if whole && record[15] == 1 { MEASURED } else { 1 };
        let done = (from.max(first) - first, to.min(first + blocks) - first);
        if done.0 < done.1 && whole {
            note_record(tally, record, lent.image.len(), done);
        } else if done.0 < done.1 {
            tally.add("a cut record");
        }
        if done.0 < done.1 && k >= MOST_PLANNED {
            tally.add("a record behind 4,096");
        }
        first += blocks;
    }
    if first < to {
        tally.add("past the plan's end");
    }
}

/// How many blocks the whole records of a plan give.
pub fn blocks_of(plan: &[u8]) -> u64 {
    let measured = |record: &[u8]| record[15] == 1;
    let blocks = |record: &[u8]| if measured(record) { MEASURED } else { 1 };
    plan.chunks_exact(RECORD).map(blocks).sum::<u128>() as u64
}

/// Blocks `done.0` up to but not including `done.1` of a whole record.
fn note_record(tally: &mut Tally, record: &[u8], image_length: usize, done: (u128, u128)) {
    tally.add(match record[15] {
        0 => "last byte 0",
        1 => "last byte 1",
        2 => "last byte 2",
        3..=254 => "last byte 3 to 254",
        255 => "last byte 255",
    });
    let address = number(&record[..8]);
    let mut chunks = (done.0..done.1).filter(|block| block % 3 == 1);
    if chunks.any(|block| address + 256 * (block / 3) >= 1 << 64) {
        tally.add("a chunk's address past 2^64");
    }
    if !(done.0..done.1).any(|block| block > 0 && block % 3 != 1) {
        return; // no bytes of the page
    }
    tally.add(match record[14] {
        0 => "page of type 0",
        1 => "page of type 1",
        2 => "page of type 2",
        3 => "page of type 3",
        4..=254 => "page of type 4 to 254",
        255 => "page of type 255",
    });
    if record[14] < 2 {
        let (offset, length) = (number(&record[8..12]), number(&record[12..14]));
        tally.add(kind_of_data(offset, length, image_length as u128));
    }
}

fn kind_of_data(offset: u128, length: u128, room: u128) -> &'static str {
    let end = offset + length;
    match length {
        0 => "page of no data",
        4097.. if end > room => "page of more than 4,096 bytes past the image's end",
        4097.. => "page of more than 4,096 bytes",
        _ if end == room => "page up to the image's end",
        _ if end == room + 1 => "page a byte past the image's end",
        _ if end >= 1 << 32 && end % (1 << 32) <= room => "page past 2^32",
        _ if end > room => "page far past the image's end",
        4096 => "page full of data",
        _ => "page of data and zeros",
    }
}

/// A little-endian number.
fn number(bytes: &[u8]) -> u128 {
    bytes
        .iter()
        .rev()
        .fold(0, |sum, &byte| sum << 8 | u128::from(byte))
}

fn for_library(state: &State) -> library::State {
    library::State {
        hash: state.hash,
        done: state.done,
        total: state.total,
        image_length: state.image_length,
        plan_length: state.plan_length,
        refusal: state.refusal,
        place: state.place,
        index: state.index,
    }
}

fn state_from_library(state: library::State) -> State {
    State {
        hash: state.hash,
        done: state.done,
        total: state.total,
        image_length: state.image_length,
        plan_length: state.plan_length,
        refusal: state.refusal,
        place: state.place,
        index: state.index,
    }
}

fn from_library(turned: library::Turned) -> Turned {
    Turned {
        state: state_from_library(turned.state),
        refusal: turned.refusal,
        place: turned.place,
        index: turned.index,
        blocks: turned.blocks,
        measurement: turned.measurement,
    }
}

pub fn compare_states(state: library::State, expected: &State) -> Result<(), String> {
    let state = state_from_library(state);
    if state == *expected {
        return Ok(());
    }
    let (left, right) = (shown_state(&state), shown_state(expected));
    Err(format!(
        "the library's first state is\n  {left}\nand the second implementation's\n  {right}"
    ))
}

fn shown_state(state: &State) -> String {
    let words: Vec<String> = state.hash.iter().map(|word| format!("{word:016x}")).collect();
    format!(
        "hash {} done {} total {} image {} plan {} refusal {} place {} index {}",
        words.join(" "),
        state.done,
        state.total,
        state.image_length,
        state.plan_length,
        state.refusal,
        state.place,
        state.index
    )
}

fn shown(turned: &Turned) -> String {
    let digits: String = turned
        .measurement
        .iter()
        .map(|byte| format!("{byte:02x}"))
        .collect();
    format!(
        "refusal {} place {} index {} blocks {} measurement {digits}\n  state {}",
        turned.refusal,
        turned.place,
        turned.index,
        turned.blocks,
        shown_state(&turned.state)
    )
}
