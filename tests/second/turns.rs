//! The measurement in turns, for the second implementation, written from the text of its request alone. It is
//! plain and slow on purpose: a turn builds the blocks of what it is lent from the plan's first record on,
//! up to the last that it needs, and only then passes over those that were done before.

use super::{number, sha384, view, Answer};

const RECORD: usize = 16;
const PAGE: usize = 4096;

const NO_QUOTA: u32 = 24;
const OTHER_LENGTH: u32 = 27;

type Block = [u8; 128];

#[derive(Clone, Debug, PartialEq, Eq)]
pub struct State {
    pub hash: [u64; 8],
    pub done: u64,
    pub total: u64,
    pub image_length: u64,
    pub plan_length: u64,
    pub refusal: u32,
    pub place: u32,
    pub index: u64,
}

#[derive(Clone, Debug, PartialEq, Eq)]
pub struct Turned {
    pub state: State,
    pub refusal: u32,
    pub place: u32,
    pub index: u64,
    pub blocks: u64,
    pub measurement: [u8; 48],
}

/// The answer to a start, the first state, and what both buffers hold after it. The launch is gone through
/// as a whole and its measurement thrown away.
pub fn begin(
    image: &[u8],
    map: &[u8],
    width: u32,
    plan_length: usize,
    hob_length: usize,
) -> (Answer, State, Vec<u8>, Vec<u8>) {
    let (launched, plan, hob) = super::launch(image, map, width, plan_length, hob_length);
    let state = State {
        hash: sha384::start(),
        done: 0,
        total: launched.blocks + 1,
        image_length: image.len() as u64,
        plan_length: plan_length as u64,
        refusal: launched.refusal,
        place: launched.place,
        index: launched.index,
    };
    let answer = Answer {
        measurement: [0; 48],
        ..launched
    };
    (answer, state, plan, hob)
}

pub fn turn(state: &State, image: &[u8], plan: &[u8], quota: u64) -> Turned {
    if state.refusal != 0 {
        return refused(state, state.refusal, state.place, state.index);
    }
    if quota == 0 {
        return refused(state, NO_QUOTA, 0, 0);
    }
    if image.len() as u64 != state.image_length || plan.len() as u64 != state.plan_length {
        return refused(state, OTHER_LENGTH, 0, 0);
    }
    let (done, total) = (u128::from(state.done), u128::from(state.total));
    let left = total.saturating_sub(done);
    let count = left.min(u128::from(quota));
    let end = done + count;
    let stream = first_blocks(image, plan, end);
    let mut hash = state.hash;
    for n in done..end {
        let alone = total - n == 1;
        let block = if alone { padding(n) } else { block(&stream, n) };
        hash = sha384::after_block(hash, &block);
    }
    Turned {
        state: State {
            hash,
            done: end as u64,
            ..state.clone()
        },
        refusal: 0,
        place: 0,
        index: 0,
        blocks: count as u64,
        measurement: if end >= total {
            sha384::left_most(&hash)
        } else {
            [0; 48]
        },
    }
}

fn refused(state: &State, refusal: u32, place: u32, index: u64) -> Turned {
    Turned {
        state: state.clone(),
        refusal,
        place,
        index,
        blocks: 0,
        measurement: [0; 48],
    }
}

// ---- the stream of what is lent

/// At least the first `wanted` blocks, or all of the plan's where it has fewer.
fn first_blocks(image: &[u8], plan: &[u8], wanted: u128) -> Vec<Block> {
    let mut blocks = Vec::new();
    let mut at = 0;
    while at < plan.len() && (blocks.len() as u128) < wanted {
        blocks.extend(record_blocks(image, &record(plan, at)));
        at += RECORD;
    }
    blocks
}

/// Block n of the stream. Past the plan's end each record is zeros, and each of those is one block.
fn block(stream: &[Block], n: u128) -> Block {
    let known = usize::try_from(n).ok().and_then(|n| stream.get(n));
    match known {
        Some(block) => *block,
        None => named(b"MEM.PAGE.ADD", 0),
    }
}

/// The record at an offset of the plan: zeros where it is not wholly inside.
fn record(plan: &[u8], at: usize) -> [u8; RECORD] {
    let mut record = [0; RECORD];
    if at + RECORD <= plan.len() {
        record.copy_from_slice(&plan[at..at + RECORD]);
    }
    record
}

fn record_blocks(image: &[u8], record: &[u8; RECORD]) -> Vec<Block> {
    let address = number(record, 0, 8);
    let mut blocks = vec![named(b"MEM.PAGE.ADD", address)];
    if record[15] == 1 {
        for (k, chunk) in page(image, record).chunks(256).enumerate() {
            let place = (address + 256 * k as u128) % (1 << 64);
            blocks.push(named(b"MR.EXTEND", place));
            for half in chunk.chunks(128) {
                let mut block = [0; 128];
                block.copy_from_slice(half);
                blocks.push(block);
            }
        }
    }
    blocks
}

/// A record's page. The HOB list is not lent to a turn: in a list of no bytes a TD HOB page's view is empty.
fn page(image: &[u8], record: &[u8; RECORD]) -> [u8; PAGE] {
    let (offset, length) = (number(record, 8, 4), number(record, 12, 2));
    let (_, from, size) = view(image.len(), 0, offset as u32, length as u16, record[14]);
    let (from, size) = (from as usize, size as usize);
    let mut page = [0; PAGE];
    page[..size].copy_from_slice(&image[from..from + size]);
    page
}

fn named(name: &[u8], address: u128) -> Block {
    let mut block = [0; 128];
    block[..name.len()].copy_from_slice(name);
    block[16..24].copy_from_slice(&address.to_le_bytes()[..8]);
    block
}

/// What FIPS 180-4 puts behind a message of n whole blocks: a bit 1, zeros, and the length in bits.
fn padding(n: u128) -> Block {
    let mut block = [0; 128];
    block[0] = 0x80;
    block[112..].copy_from_slice(&(n * 128 * 8).to_be_bytes());
    block
}
