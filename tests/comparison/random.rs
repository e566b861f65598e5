//! Random launches: most start from one that breaks no rule, and many are then damaged, by a change
//! that aims at one rule, by numbers near a bound, or by bits flipped anywhere.

use crate::draft::*;
use crate::noise::{Random, STARTS};

/// Numbers near which a loader goes wrong.
const EDGES: [u64; 24] = [
    0,
    1,
    2,
    3,
    4,
    31,
    32,
    33,
    255,
    256,
    2048,
    4095,
    4096,
    4097,
    8192,
    65_536,
    0x7FFF_FFFF,
    0x8000_0000,
    0xFFFF_F000,
    0xFFFF_FFFF,
    1 << 32,
    (1 << 48) - 4096,
    1 << 48,
    (1 << 52) - 4096,
];
const HIGH_EDGES: [u64; 8] = [
    1 << 52,
    1 << 63,
    (1 << 63) - 4096,
    0u64.wrapping_sub(4096),
    0u64.wrapping_sub(8192),
    u64::MAX,
    u64::MAX - 1,
    u64::MAX - 4095,
];

fn edge(random: &mut Random) -> u64 {
    match random.below(4) {
        0 => random.pick(&HIGH_EDGES),
        1 => random.next() >> random.below(64),
        _ => random.pick(&EDGES),
    }
}

/// How a launch is laid out.
#[derive(Clone, Copy, PartialEq, Eq)]
enum Style {
    Plain,
    /// Many records and sections, so that the HOB list has up to 128 pieces.
    Wide,
    /// A section of hundreds or thousands of pages.
    Vast,
}

/// A launch by the numbers of `random` alone.
pub fn draft(random: &mut Random) -> Draft {
    if random.one_in(60) {
        return formless(random);
    }
    let rule = random.within(1, 19) as u32;
    let roll = random.below(100);
    let aimed = (40..82).contains(&roll);
    let style = match rule {
        19 if aimed => Style::Wide,
        18 if aimed => Style::Vast,
        _ if random.one_in(40) => Style::Wide,
        _ if random.one_in(800) => Style::Vast,
        _ => Style::Plain,
    };
    let mut draft = sound(random, style);
    match roll {
        0..=39 => (),
        40..=75 => aim(&mut draft, rule, random),
        76..=81 => {
            aim(&mut draft, rule, random);
            let other = random.within(1, 19) as u32;
            aim(&mut draft, other, random);
        }
        82..=90 => flip_bits(&mut draft, random),
        _ => {
            for _ in 0..random.within(1, 4) {
                set_field(&mut draft, random);
            }
        }
    }
    draft
}

/// An image and a map of random bytes; the signature is there now and then.
fn formless(random: &mut Random) -> Draft {
    let mut draft = Draft::new(4096, Vec::new(), Vec::new());
    draft.filler = random.index(STARTS);
    draft.length = if random.one_in(2) {
        random.index(200)
    } else {
        random.index(70_001)
    };
    draft.start = random.below(draft.length as u64 + 20) as u32;
    draft.count = random.below(40) as u32;
    draft.descriptor_length = 16 + 32 * draft.count;
    if random.one_in(3) {
        draft.signature = [0; 4];
    }
    for _ in 0..random.below(71) {
        let kind = random.below(5) as u32;
        draft.records.push(record(random.next(), random.next(), kind));
    }
    if random.one_in(2) {
        draft.records = vec![record(0, 1 << 47, RAM)];
    }
    draft.width = random.pick(&[48, 52]);
    draft
}

// ---- launches that break no rule

fn sound(random: &mut Random, style: Style) -> Draft {
    let width = random.pick(&[48, 52]);
    let records = sound_records(random, style, width);
    let length = image_length(random, style);
    let sections = sound_sections(random, style, &records, length);
    let mut draft = Draft::new(length.max(48 + 32 * sections.len()), sections, records);
    let last = u64::from(draft.start);
    draft.start = match random.below(3) {
        0 => last,
        1 => random.below(last.min(64) + 1),
        _ => random.below(last + 1),
    } as u32;
    draft.width = width;
    draft.filler = random.index(STARTS);
    draft.plan_length = random.pick(&[65_536, 65_536, 65_536, 65_537, 65_552, 70_001]);
    draft.hob_length = random.pick(&[8_192, 8_192, 8_192, 8_193, 8_200, 10_007, 40_000]);
    // The descriptor must stay clear of the map at the image's start.
    let clear = draft.start as usize >= draft.records.len() * 24;
    draft.map_in_image = clear && random.one_in(12);
    draft
}

fn image_length(random: &mut Random, style: Style) -> usize {
    match random.below(100) {
        0..=39 => random.within(112, 2_000),
        40..=79 => random.within(2_000, 14_000),
        80..=97 => random.within(14_000, 70_000),
        98 => random.pick(&[65_535, 65_536, 65_537, 4_095, 4_096, 4_097, 8_192]),
        // Some of 16 MiB; they take most of the time that a run takes.
        _ if style == Style::Plain && random.one_in(12) => {
            let below = random.pick(&[0, 0, 0, 1, 4_095, 70_000]);
            (LONGEST_IMAGE - below) as u64
        }
        _ => random.within(112, 70_000),
    }
    .try_into()
    .unwrap_or(0)
}

fn sound_records(random: &mut Random, style: Style, width: u32) -> Vec<Record> {
    let count = match style {
        Style::Wide => random.within(50, 70).min(64),
        _ if random.one_in(20) => random.within(1, 64),
        _ => random.within(1, 7),
    };
    let mut records = Vec::new();
    let mut end = 0;
    for _ in 0..count {
        let gap = match random.below(8) {
            0..=2 => 0,
            3..=6 => random.below(40),
            _ => random.below(1 << 24),
        };
        let pages = match random.below(10) {
            _ if style == Style::Wide => random.within(3, 12),
            _ if style == Style::Vast => random.within(5_000, 9_000),
            0 => 1,
            1 => random.within(1, 1 << 22),
            _ => random.within(1, 60),
        };
        let kind = match random.below(10) {
            0..=8 if style == Style::Wide => random.pick(&[RAM, RAM, RAM, RAM, RAM, MMIO]),
            0..=5 => RAM,
            6..=7 => FIRMWARE,
            _ => MMIO,
        };
        let start = end + gap * PAGE;
        records.push(record(start, pages * PAGE, kind));
        end = start + pages * PAGE;
    }
    let home = random.index(records.len());
    records[home].kind = RAM; // the TD HOB has to lie somewhere
    let shift = base_address(random, end, width);
    for record in &mut records {
        record.start += shift;
    }
    records
}

/// Where the first record's address 0 comes to lie, so that the last record still ends in bounds.
fn base_address(random: &mut Random, span: u64, width: u32) -> u64 {
    let last = (1u64 << width) - span;
    let near = |point: u64, random: &mut Random| (point - random.below(span / PAGE + 1) * PAGE).min(last);
    match random.below(8) {
        0..=2 => 0,
        3 => last,
        4 => last - random.below(8) * PAGE,
        5 => near(1 << 48, random),
        6 if span <= 1 << 32 => near(1 << 32, random),
        _ => random.below(last / PAGE + 1) * PAGE,
    }
}

fn sound_sections(random: &mut Random, style: Style, records: &[Record], length: usize) -> Vec<Section> {
    let count = match style {
        Style::Wide => random.within(14, 40).min(32),
        _ if random.one_in(12) => random.within(2, 32),
        _ => random.within(2, 6),
    };
    // Each section moves the descriptor's end: an image that is too short for all has fewer.
    let count = (count as usize).min((length - 48) / 32).max(2);
    let mut sections: Vec<Section> = Vec::new();
    for k in 0..count {
        let sort = match k {
            0 => TD_HOB,
            1 => BFV,
            _ => random.pick(&[BFV, CFV, CFV, TEMPORARY, TEMPORARY]),
        };
        if let Some((address, size)) = free_place(random, style, sort, records, &sections) {
            sections.push(filled(random, sort, address, size, length));
        }
    }
    // In table order any section may be the first.
    for k in (1..sections.len()).rev() {
        sections.swap(k, random.index(k + 1));
    }
    sections
}

/// Some pages in an allowed record that no section has yet. After many tries there is none.
fn free_place(
    random: &mut Random,
    style: Style,
    sort: u32,
    records: &[Record],
    sections: &[Section],
) -> Option<(u64, u64)> {
    let allowed = |record: &&Record| record.kind == RAM || (record.kind == FIRMWARE && sort <= CFV);
    let homes: Vec<&Record> = records.iter().filter(allowed).collect();
    for _ in 0..12 {
        let home = homes[random.index(homes.len())];
        let room = home.length / PAGE;
        let pages = wanted_pages(random, style, sort).min(room);
        let last = room - pages;
        let page = match random.below(6) {
            0 => 0,
            1 => last,
            2 => random.below(last + 1),
            _ if style == Style::Wide => last.min(1) + random.below(last.max(2) - 1),
            _ => random.below(last.min(16) + 1),
        };
        let (address, size) = (home.start + page * PAGE, pages * PAGE);
        let free = |s: &Section| address + size <= s.address || s.address + s.size <= address;
        if sections.iter().all(free) {
            return Some((address, size));
        }
    }
    None
}

fn wanted_pages(random: &mut Random, style: Style, sort: u32) -> u64 {
    match (style, sort) {
        (Style::Wide, TD_HOB) => random.within(1, 2),
        (Style::Wide, _) => 1,
        (Style::Vast, TEMPORARY) => random.within(1, 3_000),
        (_, TEMPORARY) if random.one_in(30) => random.within(1, 400),
        (_, TEMPORARY) | (_, TD_HOB) => random.within(1, 5),
        _ if random.one_in(100) => random.within(1, 60),
        _ if random.one_in(3) => random.within(1, 4),
        _ => 1,
    }
}

fn filled(random: &mut Random, sort: u32, address: u64, size: u64, length: usize) -> Section {
    if sort == TD_HOB || sort == TEMPORARY {
        return section(0, 0, address, size, sort, 0);
    }
    let most = size.min(length as u64);
    let raw = match random.below(6) {
        0 => most,
        1 => 1,
        2 => (size - PAGE + random.within(1, PAGE)).min(most),
        3 => (random.within(1, size / PAGE) * PAGE).min(most),
        _ => random.within(1, most),
    };
    let last = length as u64 - raw;
    let offset = match random.below(4) {
        0 => last,
        1 => 0,
        _ => random.below(last + 1),
    };
    let attributes = if sort == BFV { 1 } else { random.below(2) as u32 };
    section(offset as u32, raw as u32, address, size, sort, attributes)
}

// ---- damage

/// Changes what one rule speaks of. In most launches that breaks it; where the launch has nothing
/// that fits, nothing is changed.
fn aim(draft: &mut Draft, rule: u32, random: &mut Random) {
    match rule {
        1 => aim_buffers(draft, random),
        2 => {
            let some = random.next() as u32;
            draft.width = random.pick(&[0, 1, 32, 47, 49, 50, 51, 53, 64, 304, 308, u32::MAX, some]);
        }
        3 => {
            draft.length = match random.below(150) {
                0 => LONGEST_IMAGE + random.pick(&[1, 2, 4_096, 70_000]),
                1 => LONGEST_IMAGE,
                _ => random.index(33),
            }
        }
        4 => aim_map(draft, random),
        5 => aim_start(draft, random),
        6 => draft.signature[random.index(4)] ^= 1 << random.below(8),
        7 => {
            let flipped = 1 ^ 1 << random.below(32);
            draft.version = random.pick(&[0, 2, 257, u32::MAX, flipped, flipped]);
        }
        8 => aim_lengths(draft, random),
        9..=15 => aim_section(draft, rule, random),
        16 | 17 => aim_types(draft, rule, random),
        18 => aim_pages(draft, random),
        _ => {
            for section in &mut draft.sections {
                if section.sort == TD_HOB {
                    section.size = PAGE;
                }
            }
        }
    }
}

/// Rules 16 and 17: sections are given another type, or left out so that few remain.
fn aim_types(draft: &mut Draft, rule: u32, random: &mut Random) {
    let (from, to) = match rule {
        16 => (BFV, CFV),
        _ => random.pick(&[(TD_HOB, TEMPORARY), (TEMPORARY, TD_HOB)]),
    };
    if from != TEMPORARY && random.one_in(2) {
        let kept = draft
            .sections
            .iter()
            .filter(|section| section.sort != from)
            .copied();
        draft.sections = kept.collect();
        if random.one_in(3) {
            draft.sections.truncate(1);
        }
        draft.count_sections();
        return;
    }
    for section in &mut draft.sections {
        if section.sort == from && (from != TEMPORARY || random.one_in(2)) {
            section.sort = to;
        }
    }
}

fn aim_buffers(draft: &mut Draft, random: &mut Random) {
    let which = random.below(3);
    if which != 0 {
        let some = random.index(65_536);
        draft.plan_length = random.pick(&[0, 1, 15, 16, 4_096, 65_520, 65_535, 65_536, some, some]);
    }
    if which != 1 {
        let some = random.index(8_192);
        draft.hob_length = random.pick(&[0, 1, 7, 56, 4_096, 8_191, 8_192, some, some]);
    }
}

fn aim_map(draft: &mut Draft, random: &mut Random) {
    let k = random.index(draft.records.len().max(1));
    if draft.records.is_empty() {
        return;
    }
    let top = 1u64 << draft.width.min(63);
    match random.below(14) {
        0 => draft.records[k].start += random.pick(&[1, 8, 2_048, 4_095]),
        1 => draft.records[k].length += random.pick(&[1, 8, 2_048, 4_095]),
        2 => draft.records[k].length = 0,
        3 => draft.records[k].kind = random.pick(&[0, 4, 5, 256 + 1, 65_536 + 2, u32::MAX, 3 << 24]),
        4 => draft.records[k].zero = 1 << random.below(32),
        5 => draft.map_length = Some(random.index(draft.records.len() * 24 + 30)),
        6 => draft.records.clear(),
        7 => add_records(&mut draft.records, random),
        8 => {
            let last = draft.records.len() - 1;
            let by = random.pick(&[0, PAGE, 0u64.wrapping_sub(PAGE)]);
            let end = top.wrapping_add(by);
            draft.records[last].length = end.wrapping_sub(draft.records[last].start);
        }
        9 => {
            draft.records[k].start = 0u64.wrapping_sub(random.within(1, 3) * PAGE);
            draft.records[k].length = random.within(1, 4) * PAGE;
        }
        10 => draft.records[k].length = 0u64.wrapping_sub(random.within(0, 3) * PAGE),
        11 if k > 0 => {
            let before = draft.records[k - 1].end();
            draft.records[k].start = before.wrapping_sub(random.within(0, 2) * PAGE);
        }
        12 => {
            let other = random.index(draft.records.len());
            draft.records.swap(k, other);
        }
        _ => {
            let copy = draft.records[k];
            draft.records.insert(k, copy);
        }
    }
}

/// 60 to 70 records: those added follow the last one, if there is room below the top.
fn add_records(records: &mut Vec<Record>, random: &mut Random) {
    let count = random.within(60, 70) as usize;
    while records.len() < count {
        let end = records[records.len() - 1].end();
        records.push(record(end, PAGE, random.pick(&[RAM, FIRMWARE, MMIO])));
    }
}

fn aim_start(draft: &mut Draft, random: &mut Random) {
    let length = draft.length as u64;
    draft.start = match random.below(6) {
        0 => (length + random.below(3)).wrapping_sub(49),
        1 => length.wrapping_sub(random.below(64)),
        2 => length + random.below(70_000),
        3 => u64::from(u32::MAX) - random.below(64),
        4 => length.wrapping_sub(u64::from(draft.start)), // D counted from the end
        _ => random.next(),
    } as u32;
}

fn aim_lengths(draft: &mut Draft, random: &mut Random) {
    match random.below(7) {
        0 => draft.count = random.pick(&[0, 33, 34, 64, u32::MAX, draft.count + (1 << 27)]),
        1 => draft.count = draft.count.wrapping_add(random.pick(&[1, u32::MAX])),
        2 => {
            let by = random.pick(&[1, u32::MAX, 32, 0u32.wrapping_sub(32), 1 << 16]);
            draft.descriptor_length = draft.descriptor_length.wrapping_add(by);
        }
        3 => draft.descriptor_length = random.next() as u32,
        4 => {
            // 31 to 33 sections, where the image has the room.
            let count = random.within(31, 33) as usize;
            if let Some(&last) = draft.sections.last() {
                draft.sections.resize(count, last);
            }
            draft.count_sections();
            let need = draft.descriptor_length + 32;
            draft.start = draft.start.min((draft.length as u32).saturating_sub(need));
        }
        _ => {
            // The descriptor's end against L - 32: just past it, or just not.
            let end = (draft.length as u32).wrapping_sub(32);
            let start = end.wrapping_sub(draft.descriptor_length);
            draft.start = start.wrapping_add(random.below(34) as u32);
        }
    }
}

fn aim_section(draft: &mut Draft, rule: u32, random: &mut Random) {
    let fits = |section: &Section| match rule {
        12 => section.sort <= CFV,
        _ => true,
    };
    let able: Vec<usize> = (0..draft.sections.len())
        .filter(|&k| fits(&draft.sections[k]))
        .collect();
    if able.is_empty() {
        return;
    }
    let k = random.pick(&able);
    let mut section = draft.sections[k];
    match rule {
        9 => {
            let flipped = section.sort ^ 1 << random.within(2, 31);
            section.sort = random.pick(&[4, 5, 6, 255, 256, u32::MAX, flipped, flipped]);
        }
        10 => {
            section.attributes ^= 1 << random.pick(&[0, 0, 0, 1, 1, 2, 8, 15, 16, 30, 31]);
            if random.one_in(10) {
                section.attributes = random.next() as u32;
            }
        }
        11 => aim_raw(&mut section, random),
        12 => aim_data(&mut section, draft.length as u64, random),
        13 => aim_memory(&mut section, random),
        14 => aim_place(&mut section, &draft.records, random),
        _ => {
            let other = draft.sections[random.index(draft.sections.len())];
            aim_shared(&mut section, &other, random);
        }
    }
    draft.sections[k] = section;
}

/// Rule 11: no data where there has to be some, or some where there has to be none.
fn aim_raw(section: &mut Section, random: &mut Random) {
    if section.sort <= CFV {
        section.raw = 0;
        return;
    }
    match random.below(3) {
        0 => section.raw = random.pick(&[1, 4_096, 1 << 31, u32::MAX]),
        1 => section.offset = random.pick(&[1, 4_096, 1 << 31, u32::MAX]),
        _ => {
            section.raw = 1 + random.below(9) as u32;
            section.offset = 1 + random.below(9) as u32;
        }
    }
}

/// Rule 12: data that ends behind the image, or in 32 bits before it starts.
fn aim_data(section: &mut Section, length: u64, random: &mut Random) {
    match random.below(5) {
        0 => section.offset = (length - u64::from(section.raw).min(length) + 1) as u32,
        1 => section.offset = 0u32.wrapping_sub(section.raw).wrapping_add(random.below(3) as u32),
        2 => section.offset = random.next() as u32,
        3 => {
            section.raw = (length + 1).saturating_sub(u64::from(section.offset)) as u32;
            if section.size < u64::from(section.raw) && random.one_in(2) {
                section.size = (u64::from(section.raw) + 4_095) / PAGE * PAGE;
            }
        }
        _ => section.offset = (length + random.below(3)) as u32,
    }
}

/// Rule 13: an address or a size that is no multiple, or a size too small.
fn aim_memory(section: &mut Section, random: &mut Random) {
    match random.below(6) {
        0 => section.address += random.pick(&[1, 256, 2_048, 4_095]),
        1 => section.size += random.pick(&[1, 256, 2_048, 4_095]),
        2 => section.size = 0,
        3 => section.size = u64::from(section.raw) / PAGE * PAGE,
        4 => section.size = u64::from(section.raw),
        _ => section.address ^= 1 << random.below(12),
    }
}

/// Rule 15: at the start or the end of another section, around it, or just behind it, where nothing is
/// shared.
fn aim_shared(section: &mut Section, other: &Section, random: &mut Random) {
    match random.below(5) {
        0 => section.address = other.address,
        1 => section.address = other.address + other.size - PAGE,
        2 => section.address = (other.address + PAGE).wrapping_sub(section.size),
        3 => section.address = other.address + other.size,
        _ => {
            section.address = other.address.wrapping_sub(PAGE);
            section.size = section.size.max(other.size + 2 * PAGE);
        }
    }
}

/// Rule 14: over a record's bounds, between two records, in a kind that is not allowed, or where
/// the end does not fit 64 bits.
fn aim_place(section: &mut Section, records: &[Record], random: &mut Random) {
    if records.is_empty() {
        return;
    }
    let record = records[random.index(records.len())];
    match random.below(8) {
        0 => section.address = record.end(),
        1 => section.address = record.end().wrapping_sub(section.size),
        2 => section.address = record.end().wrapping_sub(section.size).wrapping_add(PAGE),
        3 => section.address = record.start.wrapping_sub(PAGE),
        4 => section.address = record.start,
        5 => section.address = 0u64.wrapping_sub(random.within(1, 3) * PAGE),
        6 => {
            section.size = 0u64
                .wrapping_sub(random.within(0, 3) * PAGE)
                .wrapping_sub(section.address)
        }
        _ => section.address = edge(random) & !0xFFF,
    }
}

/// Rule 18: all pages together come to about 4,096, or to very many.
fn aim_pages(draft: &mut Draft, random: &mut Random) {
    let able = |s: &Section| s.sort == TEMPORARY || s.sort == TD_HOB;
    let able: Vec<usize> = (0..draft.sections.len())
        .filter(|&k| able(&draft.sections[k]))
        .collect();
    if able.is_empty() {
        return;
    }
    let k = random.pick(&able);
    let others: u64 = (0..draft.sections.len())
        .filter(|&j| j != k)
        .map(|j| draft.sections[j].size / PAGE)
        .sum();
    let total = random.pick(&[4_095, 4_096, 4_097, 4_097, 4_098, 4_200, 4_600]);
    if others >= total {
        return;
    }
    draft.sections[k].size = (total - others) * PAGE;
    // Room for it: the section moves to the end of the last record, which grows where it can.
    let width = draft.width.min(52);
    if let Some(last) = draft.records.last_mut() {
        let room = ((1u64 << width) - last.start.min(1 << width)) / PAGE;
        if room >= 10_000 {
            let end = draft.sections.iter().map(|s| s.address + s.size);
            let used = end.filter(|&end| end > last.start).max().unwrap_or(last.start);
            let start = used.max(last.end());
            if last.kind != RAM {
                let length = (1 << 15) * PAGE;
                if start + length <= 1 << width && draft.records.len() < 64 {
                    draft.sections[k].address = start;
                    draft.records.push(record(start, length, RAM));
                }
            } else if start + 10_000 * PAGE <= 1 << width {
                draft.sections[k].address = start;
                last.length = start + 10_000 * PAGE - last.start;
            }
        }
    }
}

/// A field of the launch set to a number near a bound.
fn set_field(draft: &mut Draft, random: &mut Random) {
    let value = edge(random);
    let k = random.index(draft.sections.len().max(1));
    let j = random.index(draft.records.len().max(1));
    let by_a_page = random.pick(&[PAGE, 0u64.wrapping_sub(PAGE)]);
    match random.below(20) {
        0 => draft.start = value as u32,
        1 => draft.count = value as u32,
        2 => draft.descriptor_length = value as u32,
        3 => draft.version = value as u32,
        4 => draft.width = value as u32,
        5..=15 => {
            if let Some(section) = draft.sections.get_mut(k) {
                match random.below(8) {
                    0 => section.offset = value as u32,
                    1 => section.raw = value as u32,
                    2 => section.address = value,
                    3 => section.size = value,
                    4 => section.sort = random.below(5) as u32,
                    5 => section.attributes = random.below(4) as u32,
                    6 => section.address = section.address.wrapping_add(by_a_page),
                    _ => section.size = section.size.wrapping_add(by_a_page),
                }
            }
        }
        _ => {
            if let Some(record) = draft.records.get_mut(j) {
                match random.below(6) {
                    0 => record.start = value,
                    1 => record.length = value,
                    2 => record.kind = random.below(5) as u32,
                    3 => record.start = record.start.wrapping_add(by_a_page),
                    4 => record.length = record.length.wrapping_add(by_a_page),
                    _ => record.zero = random.below(2) as u32,
                }
            }
        }
    }
}

/// Bits flipped in the descriptor, in the word at L - 32, in the map or anywhere in the image.
fn flip_bits(draft: &mut Draft, random: &mut Random) {
    for _ in 0..random.within(1, 3) {
        let by = 1 << random.below(8);
        let descriptor = draft.start as usize;
        match random.below(10) {
            0 => draft.image_flips.push((descriptor + random.index(16), by)),
            1..=4 => {
                let size = draft.sections.len().max(1) * 32;
                draft.image_flips.push((descriptor + 16 + random.index(size), by));
            }
            5 => draft
                .image_flips
                .push((draft.length.max(32) - 32 + random.index(4), by)),
            6..=7 => draft.map_flips.push((random.index(24 * 64), by)),
            _ => draft.image_flips.push((random.index(draft.length.max(1)), by)),
        }
    }
}
