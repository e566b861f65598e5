//! A second launch loader, written from page 01 alone, to compare the proved one with. It is plain
//! and slow on purpose: whole numbers are u128, so that no sum can wrap; all broken rules are
//! collected first and the answer is the one whose turn comes first; the measured stream is built
//! in memory before it is hashed.

pub mod sha384;
pub mod turns;

const PAGE: u128 = 4096;

const BFV: u128 = 0;
const CFV: u128 = 1;
const TD_HOB: u128 = 2;
const TEMPORARY: u128 = 3;

const RAM: u128 = 1;
const FIRMWARE: u128 = 2;
const MMIO: u128 = 3;

#[derive(Clone, Debug, PartialEq, Eq)]
pub struct Answer {
    pub refusal: u32,
    pub place: u32,
    pub index: u64,
    pub pages: u64,
    pub hob_length: u64,
    pub blocks: u64,
    pub measurement: [u8; 48],
}

/// A broken rule, and for rules 9 to 15 the section that breaks it.
#[derive(Clone, Copy, Debug, PartialEq, Eq)]
pub struct Broken {
    pub rule: u32,
    pub section: Option<usize>,
}

impl Broken {
    /// When the rule is tried: rules 1 to 8, then section after section, then rules 16 to 19.
    fn turn(&self) -> (u32, usize, u32) {
        match self.section {
            None if self.rule <= 8 => (0, 0, self.rule),
            Some(section) => (1, section, self.rule),
            None => (2, 0, self.rule),
        }
    }
}

struct Record {
    start: u128,
    length: u128,
    kind: u128,
    zero: u128,
}

struct Section {
    offset: u128,
    raw: u128,
    address: u128,
    size: u128,
    sort: u128,
    attributes: u128,
}

struct Descriptor {
    start: u128,
    signature: Vec<u8>,
    length: u128,
    version: u128,
    count: u128,
    /// The sections that lie in the image: fewer than `count` where the descriptor does not fit.
    sections: Vec<Section>,
}

struct Page {
    address: u128,
    offset: u128,
    length: u128,
    sort: u128,
    measured: bool,
}

/// The answer to a launch, and what both buffers hold after it.
pub fn launch(
    image: &[u8],
    map: &[u8],
    width: u32,
    plan_length: usize,
    hob_length: usize,
) -> (Answer, Vec<u8>, Vec<u8>) {
    let mut plan_buffer = vec![0; plan_length];
    let mut hob_buffer = vec![0; hob_length];
    let broken = broken(image, map, width, plan_length, hob_length);
    if let Some(first) = broken.first() {
        return (refused(*first), plan_buffer, hob_buffer);
    }
    let records = records(map);
    let sections = match descriptor(image) {
        Some(descriptor) => descriptor.sections,
        None => unreachable!("rule 5 is not broken"),
    };
    let list = hob_list(&records, &sections);
    let pages = pages(&sections, list.len());
    let plan = plan(&pages);
    plan_buffer[..plan.len()].copy_from_slice(&plan);
    hob_buffer[..list.len()].copy_from_slice(&list);
    let stream = stream(&pages, image, &list);
    let measured = pages.iter().filter(|page| page.measured).count();
    assert_eq!(stream.len(), 128 * (pages.len() + 48 * measured));
    let answer = Answer {
        refusal: 0,
        place: 0,
        index: 0,
        pages: pages.len() as u64,
        hob_length: list.len() as u64,
        blocks: (stream.len() / 128) as u64,
        measurement: sha384::sha384(&stream),
    };
    (answer, plan_buffer, hob_buffer)
}

fn refused(broken: Broken) -> Answer {
    Answer {
        refusal: broken.rule,
        place: u32::from(broken.section.is_some()),
        index: broken.section.unwrap_or(0) as u64,
        pages: 0,
        hob_length: 0,
        blocks: 0,
        measurement: [0; 48],
    }
}

/// The page view: which slice (1 the image, 2 the HOB list), from where and how long; three zeros
/// where there is no byte to show.
pub fn view(image_length: usize, hob_length: usize, offset: u32, length: u16, sort: u8) -> (u32, u32, u32) {
    let (slice, room) = match u128::from(sort) {
        BFV | CFV => (1, image_length as u128),
        TD_HOB => (2, hob_length as u128),
        _ => return (0, 0, 0),
    };
    let inside = u128::from(offset) + u128::from(length) <= room;
    if !inside || u128::from(length) > PAGE || length == 0 {
        return (0, 0, 0);
    }
    (slice, offset, u32::from(length))
}

// ---- reading

fn number(bytes: &[u8], at: usize, size: usize) -> u128 {
    let mut number = 0;
    for k in (0..size).rev() {
        number = number * 256 + u128::from(bytes[at + k]);
    }
    number
}

/// The whole records of a map. That bytes are left over is for rule 4 to say.
fn records(map: &[u8]) -> Vec<Record> {
    let read = |bytes: &[u8]| Record {
        start: number(bytes, 0, 8),
        length: number(bytes, 8, 8),
        kind: number(bytes, 16, 4),
        zero: number(bytes, 20, 4),
    };
    map.chunks_exact(24).map(read).collect()
}

/// What the image says at D, as far as it is there, whether or not a rule is broken. None where
/// there is no D or the 16 bytes at D are not in the image.
fn descriptor(image: &[u8]) -> Option<Descriptor> {
    if image.len() < 32 {
        return None;
    }
    let start = number(image, image.len() - 32, 4);
    if start + 16 > image.len() as u128 {
        return None;
    }
    let at = start as usize;
    let count = number(image, at + 12, 4);
    let mut sections = Vec::new();
    for bytes in image[at + 16..].chunks_exact(32).take(count.min(64) as usize) {
        sections.push(Section {
            offset: number(bytes, 0, 4),
            raw: number(bytes, 4, 4),
            address: number(bytes, 8, 8),
            size: number(bytes, 16, 8),
            sort: number(bytes, 24, 4),
            attributes: number(bytes, 28, 4),
        });
    }
    Some(Descriptor {
        start,
        signature: image[at..at + 4].to_vec(),
        length: number(image, at + 4, 4),
        version: number(image, at + 8, 4),
        count,
        sections,
    })
}

// ---- the rules

/// All rules that the launch breaks, as far as the bytes they speak of are there, in the order in
/// which they are tried. Only the first one is the answer; the others are for the test to see that
/// a launch breaks what it is built to break.
pub fn broken(image: &[u8], map: &[u8], width: u32, plan_length: usize, hob_length: usize) -> Vec<Broken> {
    let mut found = Vec::new();
    let mut note = |rule: u32, is_broken: bool| {
        if is_broken {
            found.push(Broken { rule, section: None });
        }
    };
    let length = image.len() as u128;
    let records = records(map);
    let whole_records = map.len() % 24 == 0;
    note(1, plan_length < 65_536 || hob_length < 8_192);
    note(2, width != 48 && width != 52);
    note(3, length < 32 || length > 16_777_216);
    note(4, !whole_records || !map_stands(&records, width));
    if length >= 32 {
        let start = number(image, image.len() - 32, 4);
        note(5, start + 16 + 32 > length);
    }
    if let Some(descriptor) = descriptor(image) {
        note(6, descriptor.signature != b"TDVF");
        note(7, descriptor.version != 1);
        note(8, !lengths_stand(&descriptor, length));
        if descriptor.sections.len() as u128 == descriptor.count {
            for rule in broken_by_all(&descriptor.sections, &records) {
                note(rule, true);
            }
        }
        found.extend(broken_by_sections(&descriptor.sections, &records, length));
    }
    found.sort_by_key(Broken::turn);
    found
}

fn map_stands(records: &[Record], width: u32) -> bool {
    let top = 1u128 << width.min(100);
    let each = records.iter().all(|record| {
        record.start % PAGE == 0
            && record.length % PAGE == 0
            && record.length != 0
            && [RAM, FIRMWARE, MMIO].contains(&record.kind)
            && record.zero == 0
            && record.start + record.length <= top
    });
    let apart = records
        .windows(2)
        .all(|pair| pair[1].start >= pair[0].start + pair[0].length);
    (1..=64).contains(&records.len()) && each && apart
}

fn lengths_stand(descriptor: &Descriptor, image_length: u128) -> bool {
    (1..=32).contains(&descriptor.count)
        && descriptor.length == 16 + 32 * descriptor.count
        && descriptor.start + descriptor.length + 32 <= image_length
}

/// Rules 9 to 15.
fn broken_by_sections(sections: &[Section], records: &[Record], image_length: u128) -> Vec<Broken> {
    let mut found = Vec::new();
    for (k, section) in sections.iter().enumerate() {
        let earlier = &sections[..k];
        let verdicts = [
            (9, section.sort <= TEMPORARY),
            (10, attributes_stand(section)),
            (11, raw_stands(section)),
            (12, section.offset + section.raw <= image_length),
            (13, memory_stands(section)),
            (14, records.iter().any(|record| may_hold(record, section))),
            (15, !earlier.iter().any(|other| share(other, section))),
        ];
        for (rule, stands) in verdicts {
            if !stands {
                found.push(Broken {
                    rule,
                    section: Some(k),
                });
            }
        }
    }
    found
}

fn attributes_stand(section: &Section) -> bool {
    match section.sort {
        BFV => section.attributes == 1,
        TD_HOB | TEMPORARY => section.attributes == 0,
        // A type above 3 breaks rule 9; only that the other bits are 0 is said of all types.
        _ => section.attributes <= 1,
    }
}

fn raw_stands(section: &Section) -> bool {
    match section.sort {
        BFV | CFV => section.raw != 0,
        TD_HOB | TEMPORARY => section.raw == 0 && section.offset == 0,
        _ => true,
    }
}

fn memory_stands(section: &Section) -> bool {
    section.address % PAGE == 0
        && section.size % PAGE == 0
        && section.size != 0
        && section.size >= section.raw
}

fn lies_in(record: &Record, section: &Section) -> bool {
    section.address >= record.start && section.address + section.size <= record.start + record.length
}

fn may_hold(record: &Record, section: &Section) -> bool {
    let allowed: &[u128] = match section.sort {
        BFV | CFV => &[RAM, FIRMWARE],
        TD_HOB | TEMPORARY => &[RAM],
        _ => &[RAM, FIRMWARE, MMIO],
    };
    allowed.contains(&record.kind) && lies_in(record, section)
}

fn share(a: &Section, b: &Section) -> bool {
    let first = a.address.max(b.address);
    let end = (a.address + a.size).min(b.address + b.size);
    first < end
}

/// Rules 16 to 19.
fn broken_by_all(sections: &[Section], records: &[Record]) -> Vec<u32> {
    let mut found = Vec::new();
    let hobs: Vec<&Section> = sections.iter().filter(|s| s.sort == TD_HOB).collect();
    let pages: u128 = sections.iter().map(|s| s.size / PAGE).sum();
    let list = 56 + 48 * pieces(records, sections).len() as u128 + 8;
    if !sections.iter().any(|s| s.sort == BFV) {
        found.push(16);
    }
    if hobs.len() != 1 {
        found.push(17);
    }
    if pages > 4096 {
        found.push(18);
    }
    if !hobs.is_empty() && hobs.iter().all(|s| list > s.size) {
        found.push(19);
    }
    found
}

// ---- the HOB list

struct Piece {
    resource: u128,
    attributes: u128,
    start: u128,
    end: u128,
}

fn pieces(records: &[Record], sections: &[Section]) -> Vec<Piece> {
    let mut pieces = Vec::new();
    for record in records {
        let end = record.start + record.length;
        if record.kind == MMIO {
            pieces.push(Piece {
                resource: 1,
                attributes: 0x403,
                start: record.start,
                end,
            });
        }
        if record.kind == RAM {
            pieces.extend(cut(record, sections));
        }
    }
    pieces
}

/// A RAM record, cut at each address where a section in it starts or ends. What lies between two
/// neighbouring cuts is a section, or a longest run without one.
fn cut(record: &Record, sections: &[Section]) -> Vec<Piece> {
    let inside: Vec<&Section> = sections.iter().filter(|s| lies_in(record, s)).collect();
    let mut cuts = vec![record.start, record.start + record.length];
    for section in &inside {
        cuts.push(section.address);
        cuts.push(section.address + section.size);
    }
    cuts.sort_unstable();
    cuts.dedup();
    let piece = |pair: &[u128]| Piece {
        resource: if inside.iter().any(|s| s.address == pair[0]) {
            0
        } else {
            7
        },
        attributes: 7,
        start: pair[0],
        end: pair[1],
    };
    cuts.windows(2).map(piece).collect()
}

fn append(bytes: &mut Vec<u8>, number: u128, size: usize) {
    bytes.extend_from_slice(&number.to_le_bytes()[..size]);
}

fn append_header(list: &mut Vec<u8>, sort: u128, length: u128) {
    append(list, sort, 2);
    append(list, length, 2);
    append(list, 0, 4);
}

fn hob_list(records: &[Record], sections: &[Section]) -> Vec<u8> {
    let mut rest = Vec::new();
    for piece in pieces(records, sections) {
        append_header(&mut rest, 3, 48);
        append(&mut rest, 0, 16);
        append(&mut rest, piece.resource, 4);
        append(&mut rest, piece.attributes, 4);
        append(&mut rest, piece.start, 8);
        append(&mut rest, piece.end - piece.start, 8);
    }
    append_header(&mut rest, 0xFFFF, 8);

    let home = sections.iter().find(|s| s.sort == TD_HOB);
    let address = home.map_or(0, |section| section.address);
    let mut list = Vec::new();
    append_header(&mut list, 1, 56);
    append(&mut list, 9, 4);
    append(&mut list, 0, 4);
    for _ in 0..4 {
        append(&mut list, 0, 8);
    }
    append(&mut list, address + 56 + rest.len() as u128, 8);
    list.extend(rest);
    list
}

// ---- the plan and the stream

fn pages(sections: &[Section], list_length: usize) -> Vec<Page> {
    let mut pages = Vec::new();
    for section in sections {
        let (from, amount) = match section.sort {
            BFV | CFV => (section.offset, section.raw),
            TD_HOB => (0, list_length as u128),
            _ => (0, 0),
        };
        let mut done = 0;
        while done < section.size {
            let length = amount.saturating_sub(done).min(PAGE);
            pages.push(Page {
                address: section.address + done,
                offset: if length == 0 { 0 } else { from + done },
                length,
                sort: section.sort,
                measured: section.attributes % 2 == 1,
            });
            done += PAGE;
        }
    }
    pages
}

fn plan(pages: &[Page]) -> Vec<u8> {
    let mut plan = Vec::new();
    for page in pages {
        append(&mut plan, page.address, 8);
        append(&mut plan, page.offset, 4);
        append(&mut plan, page.length, 2);
        append(&mut plan, page.sort, 1);
        append(&mut plan, u128::from(page.measured), 1);
    }
    plan
}

fn append_block(stream: &mut Vec<u8>, name: &[u8], address: u128) {
    let end = stream.len() + 128;
    stream.extend_from_slice(name);
    stream.resize(end - 128 + 16, 0);
    append(stream, address, 8);
    stream.resize(end, 0);
}

fn stream(pages: &[Page], image: &[u8], list: &[u8]) -> Vec<u8> {
    let mut stream = Vec::new();
    for page in pages {
        append_block(&mut stream, b"MEM.PAGE.ADD", page.address);
        if !page.measured {
            continue;
        }
        let source = if page.sort == TD_HOB { list } else { image };
        let data = &source[page.offset as usize..(page.offset + page.length) as usize];
        let mut content = data.to_vec();
        content.resize(PAGE as usize, 0);
        for (k, chunk) in content.chunks(256).enumerate() {
            append_block(&mut stream, b"MR.EXTEND", page.address + 256 * k as u128);
            stream.extend_from_slice(chunk);
        }
    }
    stream
}
