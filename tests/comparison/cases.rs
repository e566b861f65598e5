//! The page's worked launch and its cases on either side of each line, with the page's answers
//! written out here, and further bounds from both sides.

use crate::check::Bench;
use crate::crash;
use crate::draft::*;
use crate::second;

pub enum Want {
    Accepted(u64, u64, u64),
    AnyAccepted,
    Refused(u32),
    RefusedAt(u32, u64),
}

use Want::*;

pub struct Case {
    pub name: &'static str,
    pub draft: Draft,
    want: Want,
}

const TOP48: u64 = 1 << 48;
const TOP52: u64 = 1 << 52;

/// "A launch in full".
pub fn page_launch() -> Draft {
    let sections = vec![
        section(0, 4096, 0xFFFF_F000, 0x1000, BFV, 1),
        section(0, 0, 0x9000, 0x1000, TD_HOB, 0),
        section(0, 0, 0xA000, 0x2000, TEMPORARY, 0),
    ];
    let records = vec![record(0, 0x10000, RAM), record(0xFFFF_F000, 0x1000, FIRMWARE)];
    let draft = Draft::new(4096, sections, records);
    assert_eq!(draft.start, 3952, "the page's D");
    draft
}

pub fn all() -> Vec<Case> {
    let mut cases = page_cases();
    cases.extend(image_bounds());
    cases.extend(map_bounds());
    cases.extend(section_bounds());
    cases.extend(whole_bounds());
    cases
}

/// Runs all cases and answers how many there are.
pub fn run(bench: &mut Bench) -> Result<usize, String> {
    let cases = all();
    for case in &cases {
        let name = case.name;
        crash::name(format!("case: {name}"));
        let answer = bench.try_draft(&case.draft);
        let answer = answer.map_err(|what| format!("case: {name}: {what}"))?;
        if !meets(&answer, &case.want) {
            let shown = crate::check::shown(&answer);
            return Err(format!(
                "case: {name}: both loaders answer, against the page: {shown}"
            ));
        }
    }
    page_buffers(bench)?;
    Ok(cases.len())
}

fn meets(answer: &second::Answer, want: &Want) -> bool {
    let counts = (answer.pages, answer.hob_length, answer.blocks);
    let refusal = (answer.refusal, answer.place, answer.index);
    match *want {
        Accepted(pages, hob, blocks) => refusal == (0, 0, 0) && counts == (pages, hob, blocks),
        AnyAccepted => refusal == (0, 0, 0),
        Refused(rule) => refusal == (rule, 0, 0) && counts == (0, 0, 0),
        RefusedAt(rule, section) => refusal == (rule, 1, section) && counts == (0, 0, 0),
    }
}

/// A little-endian number.
fn number(bytes: &[u8]) -> u64 {
    bytes.iter().rev().fold(0, |sum, &byte| sum << 8 | u64::from(byte))
}

/// The worked launch's plan, pieces and end address, as the page lists them.
fn page_buffers(bench: &mut Bench) -> Result<(), String> {
    bench.try_draft(&page_launch())?;
    let launch = bench.rendered();
    let (_, plan, hob) = second::launch(&launch.image, &launch.map, 48, 65_536, 8_192);
    page_plan(&plan)?;
    page_list(&hob)
}

fn page_plan(plan: &[u8]) -> Result<(), String> {
    let read = |r: &[u8]| (number(&r[..8]), number(&r[8..12]), number(&r[12..14]), r[14], r[15]);
    let records: Vec<_> = plan.chunks(16).take(4).map(read).collect();
    let listed = [
        (0xFFFF_F000, 0, 4096, 0, 1),
        (0x9000, 0, 256, 2, 0),
        (0xA000, 0, 0, 3, 0),
        (0xB000, 0, 0, 3, 0),
    ];
    if records != listed {
        return Err(format!("the worked launch's plan is {records:x?}"));
    }
    Ok(())
}

fn page_list(hob: &[u8]) -> Result<(), String> {
    let read = |p: &[u8]| {
        let start = number(&p[32..40]);
        (start, start + number(&p[40..48]), number(&p[24..28]))
    };
    let pieces: Vec<_> = hob[56..].chunks(48).take(4).map(read).collect();
    let listed = [
        (0, 0x9000, 7),
        (0x9000, 0xA000, 0),
        (0xA000, 0xC000, 0),
        (0xC000, 0x10000, 7),
    ];
    if pieces != listed || number(&hob[48..56]) != 0x9100 {
        return Err(format!("the worked launch's pieces are {pieces:x?}"));
    }
    Ok(())
}

fn changed(name: &'static str, want: Want, change: impl FnOnce(&mut Draft)) -> Case {
    let mut draft = page_launch();
    change(&mut draft);
    Case { name, draft, want }
}

fn grown(temporary_pages: u64) -> Draft {
    let mut draft = page_launch();
    draft.records[0].length = 0x200_0000;
    draft.sections[2].size = temporary_pages * PAGE;
    draft
}

/// "Either side of each line".
fn page_cases() -> Vec<Case> {
    vec![
        changed("unchanged", Accepted(4, 256, 52), |_| ()),
        changed("empty image", Refused(3), |d| d.length = 0),
        changed("L = 32", Refused(5), |d| d.length = 32),
        changed("empty map", Refused(4), |d| d.records.clear()),
        changed("descriptor at 3,953", Refused(8), |d| d.start = 3953),
        changed("descriptor at 3,952", Accepted(4, 256, 52), |d| d.start = 3952),
        changed("width 50", Refused(2), |d| d.width = 50),
        // The page says only that it is not refusal 4. The boot volume then lies in RAM.
        changed("RAM up to 2^48", AnyAccepted, |d| {
            d.records = vec![record(0, TOP48, RAM)]
        }),
        changed("RAM up to 2^48 + 4,096", Refused(4), |d| {
            d.records = vec![record(0, TOP48 + PAGE, RAM)]
        }),
        changed("BFV raw size 4,097", RefusedAt(12, 0), |d| {
            d.sections[0].raw = 4097
        }),
        changed("BFV raw size 1", Accepted(4, 256, 52), |d| d.sections[0].raw = 1),
        changed("temporary memory at 0x9000", RefusedAt(15, 2), |d| {
            d.sections[2].address = 0x9000
        }),
        changed("temporary memory at 0xF000", RefusedAt(14, 2), |d| {
            d.sections[2].address = 0xF000
        }),
        changed("BFV attributes 0", RefusedAt(10, 0), |d| {
            d.sections[0].attributes = 0
        }),
        changed("a second TD HOB", Refused(17), |d| {
            d.sections.push(section(0, 0, 0xC000, 0x1000, TD_HOB, 0));
            d.count_sections();
            d.start = 3920;
        }),
        changed("signature and version wrong", Refused(6), |d| {
            d.signature = *b"TDVG";
            d.version = 2;
        }),
        changed("4,096 pages", Accepted(4096, 256, 4144), |d| *d = grown(4094)),
        changed("4,097 pages", Refused(18), |d| *d = grown(4095)),
    ]
}

/// Rules 1 to 3 and 5 to 8.
fn image_bounds() -> Vec<Case> {
    let longest = |length: usize| {
        let mut draft = page_launch();
        draft.length = length;
        draft.start = (length - 32 - 112) as u32;
        draft
    };
    let many = |sections: usize| {
        let mut draft = page_launch();
        while draft.sections.len() < sections {
            let address = 0x10_0000 + 0x2000 * draft.sections.len() as u64;
            draft.sections.push(section(7, 9, address, PAGE, CFV, 1));
        }
        draft.records.insert(1, record(0x10_0000, 0x10_0000, RAM));
        draft.count_sections();
        draft.start = 1000;
        draft
    };
    vec![
        changed("plan buffer of 65,535", Refused(1), |d| d.plan_length = 65_535),
        changed("plan buffer of 65,536", AnyAccepted, |d| d.plan_length = 65_536),
        changed("plan buffer of 0", Refused(1), |d| d.plan_length = 0),
        changed("plan buffer of 1,000,001", AnyAccepted, |d| {
            d.plan_length = 1_000_001
        }),
        changed("HOB buffer of 8,191", Refused(1), |d| d.hob_length = 8_191),
        changed("HOB buffer of 8,192", AnyAccepted, |d| d.hob_length = 8_192),
        changed("HOB buffer of 0", Refused(1), |d| d.hob_length = 0),
        changed("HOB buffer of 1,000,001", AnyAccepted, |d| {
            d.hob_length = 1_000_001
        }),
        changed("buffers of 0 and nothing lent", Refused(1), |d| {
            d.plan_length = 0;
            d.hob_length = 0;
            d.length = 0;
            d.records.clear();
        }),
        changed("width 47", Refused(2), |d| d.width = 47),
        changed("width 49", Refused(2), |d| d.width = 49),
        changed("width 51", Refused(2), |d| d.width = 51),
        changed("width 52", AnyAccepted, |d| d.width = 52),
        changed("width 53", Refused(2), |d| d.width = 53),
        changed("width 0", Refused(2), |d| d.width = 0),
        changed("width 304", Refused(2), |d| d.width = 304),
        changed("width 2^32 - 1", Refused(2), |d| d.width = u32::MAX),
        changed("L = 31", Refused(3), |d| d.length = 31),
        changed("L = 1", Refused(3), |d| d.length = 1),
        changed("L = 16,777,216", AnyAccepted, |d| *d = longest(LONGEST_IMAGE)),
        changed("L = 16,777,217", Refused(3), |d| *d = longest(LONGEST_IMAGE + 1)),
        changed("L = 47, D = 0", Refused(5), |d| {
            d.length = 47;
            d.start = 0;
        }),
        changed("L = 48, D = 0", Refused(8), |d| {
            d.length = 48;
            d.start = 0;
        }),
        changed("D + 16 = L - 32", Refused(8), |d| d.start = 4096 - 48),
        changed("D + 16 = L - 31", Refused(5), |d| d.start = 4096 - 47),
        changed("D = L", Refused(5), |d| d.start = 4096),
        changed("D = 2^32 - 16", Refused(5), |d| d.start = u32::MAX - 15),
        changed("D = 2^32 - 1", Refused(5), |d| d.start = u32::MAX),
        changed("D = 0", AnyAccepted, |d| d.start = 0),
        changed("version 0", Refused(7), |d| d.version = 0),
        changed("version 2", Refused(7), |d| d.version = 2),
        changed("version 257", Refused(7), |d| d.version = 257),
        changed("version 1 + 2^24", Refused(7), |d| d.version = 1 + (1 << 24)),
        changed("32 sections", AnyAccepted, |d| *d = many(32)),
        changed("33 sections", Refused(8), |d| *d = many(33)),
        changed("no sections", Refused(8), |d| {
            d.sections.clear();
            d.count_sections();
        }),
        changed("3 + 2^27 sections", Refused(8), |d| d.count = 3 + (1 << 27)),
        changed("descriptor length 111", Refused(8), |d| d.descriptor_length = 111),
        changed("descriptor length 113", Refused(8), |d| {
            d.start = 1000;
            d.descriptor_length = 113;
        }),
        changed("descriptor length 144", Refused(8), |d| {
            d.start = 1000;
            d.descriptor_length = 144;
        }),
    ]
}

/// Rule 4.
fn map_bounds() -> Vec<Case> {
    let above = |count: usize| {
        let mut draft = page_launch();
        while draft.records.len() < count {
            let start = (1 << 32) + 0x2000 * draft.records.len() as u64;
            draft.records.push(record(start, 0x1000, FIRMWARE));
        }
        draft
    };
    let more = |start: u64, length: u64, kind: u32| {
        let mut draft = page_launch();
        draft.records.push(record(start, length, kind));
        draft
    };
    vec![
        changed("64 records", AnyAccepted, |d| *d = above(64)),
        changed("65 records", Refused(4), |d| *d = above(65)),
        changed("a map of 47 bytes", Refused(4), |d| d.map_length = Some(47)),
        changed("a map of 49 bytes", Refused(4), |d| d.map_length = Some(49)),
        changed("a map of 23 bytes", Refused(4), |d| d.map_length = Some(23)),
        changed("record of length 0", Refused(4), |d| *d = more(1 << 32, 0, MMIO)),
        changed("record of length 4,095", Refused(4), |d| {
            *d = more(1 << 32, 4095, MMIO)
        }),
        changed("record of length 4,096", AnyAccepted, |d| {
            *d = more(1 << 32, 4096, MMIO)
        }),
        changed("record at an odd page", Refused(4), |d| {
            *d = more((1 << 32) + 1, 4096, MMIO)
        }),
        changed("kind 0", Refused(4), |d| *d = more(1 << 32, 4096, 0)),
        changed("kind 1", AnyAccepted, |d| *d = more(1 << 32, 4096, 1)),
        changed("kind 3", AnyAccepted, |d| *d = more(1 << 32, 4096, 3)),
        changed("kind 4", Refused(4), |d| *d = more(1 << 32, 4096, 4)),
        changed("kind 258", Refused(4), |d| *d = more(1 << 32, 4096, 258)),
        changed("the zero field is 1", Refused(4), |d| d.records[1].zero = 1),
        changed("the zero field is 2^31", Refused(4), |d| {
            d.records[0].zero = 1 << 31
        }),
        changed("end at 2^48", AnyAccepted, |d| {
            *d = more(TOP48 - PAGE, PAGE, MMIO)
        }),
        changed("end at 2^48 + 4,096", Refused(4), |d| {
            *d = more(TOP48 - PAGE, 2 * PAGE, MMIO)
        }),
        changed("end at 2^48 + 4,096, width 52", AnyAccepted, |d| {
            *d = more(TOP48 - PAGE, 2 * PAGE, MMIO);
            d.width = 52;
        }),
        changed("end at 2^52", AnyAccepted, |d| {
            *d = more(TOP52 - PAGE, PAGE, MMIO);
            d.width = 52;
        }),
        changed("end at 2^52 + 4,096", Refused(4), |d| {
            *d = more(TOP52 - PAGE, 2 * PAGE, MMIO);
            d.width = 52;
        }),
        changed("end at 2^64", Refused(4), |d| {
            *d = more(0u64.wrapping_sub(PAGE), PAGE, MMIO)
        }),
        changed("end past 2^64", Refused(4), |d| {
            *d = more(0u64.wrapping_sub(PAGE), 2 * PAGE, MMIO)
        }),
        changed("touching records", AnyAccepted, |d| {
            d.records.insert(1, record(0x10000, PAGE, MMIO))
        }),
        changed("overlap of a page", Refused(4), |d| {
            d.records.insert(1, record(0xF000, PAGE, MMIO))
        }),
        changed("records out of order", Refused(4), |d| d.records.reverse()),
    ]
}

/// Rules 9 to 15.
fn section_bounds() -> Vec<Case> {
    let last_page = 0u64.wrapping_sub(PAGE);
    let with = |offset: u32, raw: u32, address: u64, size: u64| {
        let mut draft = page_launch();
        draft.sections.push(section(offset, raw, address, size, CFV, 0));
        draft.count_sections();
        draft.start -= 32;
        draft
    };
    vec![
        changed("type 4", RefusedAt(9, 2), |d| d.sections[2].sort = 4),
        changed("type 259", RefusedAt(9, 2), |d| d.sections[2].sort = 259),
        changed("type 2^32 - 1", RefusedAt(9, 0), |d| {
            d.sections[0].sort = u32::MAX
        }),
        changed("BFV attributes 3", RefusedAt(10, 0), |d| {
            d.sections[0].attributes = 3
        }),
        changed("CFV attributes 1", AnyAccepted, |d| {
            *d = with(0, 1, 0xC000, PAGE);
            d.sections[3].attributes = 1;
        }),
        changed("CFV attributes 2", RefusedAt(10, 3), |d| {
            *d = with(0, 1, 0xC000, PAGE);
            d.sections[3].attributes = 2;
        }),
        changed("TD HOB attributes 1", RefusedAt(10, 1), |d| {
            d.sections[1].attributes = 1
        }),
        changed("temporary attributes 1", RefusedAt(10, 2), |d| {
            d.sections[2].attributes = 1
        }),
        changed("attributes 2^31", RefusedAt(10, 2), |d| {
            d.sections[2].attributes = 1 << 31
        }),
        changed("BFV raw size 0", RefusedAt(11, 0), |d| d.sections[0].raw = 0),
        changed("CFV raw size 0", RefusedAt(11, 3), |d| {
            *d = with(0, 0, 0xC000, PAGE)
        }),
        changed("TD HOB raw size 1", RefusedAt(11, 1), |d| d.sections[1].raw = 1),
        changed("TD HOB offset 1", RefusedAt(11, 1), |d| d.sections[1].offset = 1),
        changed("temporary offset 2^31", RefusedAt(11, 2), |d| {
            d.sections[2].offset = 1 << 31
        }),
        changed("data up to L", AnyAccepted, |d| *d = with(4095, 1, 0xC000, PAGE)),
        changed("data past L", RefusedAt(12, 3), |d| {
            *d = with(4095, 2, 0xC000, PAGE)
        }),
        changed("data at L", RefusedAt(12, 3), |d| {
            *d = with(4096, 1, 0xC000, PAGE)
        }),
        changed("data end 2^32", RefusedAt(12, 3), |d| {
            *d = with(u32::MAX, 1, 0xC000, PAGE)
        }),
        changed("address + 1", RefusedAt(13, 2), |d| d.sections[2].address += 1),
        changed("address + 2,048", RefusedAt(13, 2), |d| {
            d.sections[2].address += 2048
        }),
        changed("size + 1", RefusedAt(13, 2), |d| d.sections[2].size += 1),
        changed("size 0", RefusedAt(13, 2), |d| d.sections[2].size = 0),
        changed("size below raw size", RefusedAt(13, 0), |d| {
            d.length = 8192;
            d.sections[0].raw = 4097;
        }),
        changed("CFV in firmware", AnyAccepted, |d| {
            *d = with(0, 1, 0xFFFF_E000, PAGE);
            d.records[1] = record(0xFFFF_E000, 0x2000, FIRMWARE);
        }),
        changed("CFV in MMIO", RefusedAt(14, 3), |d| {
            *d = with(0, 1, 0xFFFF_E000, PAGE);
            d.records.insert(1, record(0xFFFF_E000, PAGE, MMIO));
        }),
        changed("TD HOB in firmware", RefusedAt(14, 1), |d| {
            d.sections[1].address = 0xFFFF_E000;
            d.records[1] = record(0xFFFF_E000, 0x2000, FIRMWARE);
        }),
        changed("over two touching records", RefusedAt(14, 2), |d| {
            d.records[0].length = 0xB000;
            d.records.insert(1, record(0xB000, 0x5000, RAM));
        }),
        changed("up to a record's end", AnyAccepted, |d| {
            d.sections[2].address = 0xE000
        }),
        changed("end 2^64 + 4,096", RefusedAt(14, 2), |d| {
            d.sections[2].address = last_page
        }),
        changed("end 2^64", RefusedAt(14, 2), |d| {
            d.sections[2].address = last_page;
            d.sections[2].size = PAGE;
        }),
        changed("size 2^64 - 4,096", RefusedAt(14, 2), |d| {
            d.sections[2].size = last_page
        }),
        changed("end at 2^52", AnyAccepted, |d| {
            d.width = 52;
            d.records.push(record(TOP52 - 0x10000, 0x10000, RAM));
            d.sections[2].address = TOP52 - 0x2000;
        }),
        changed("TD HOB ends at 2^48", AnyAccepted, |d| {
            d.records.push(record(TOP48 - 0x10000, 0x10000, RAM));
            d.sections[1].address = TOP48 - 0x1000;
        }),
        changed("last page shared", RefusedAt(15, 2), |d| {
            d.sections[2].address = 0x8000
        }),
        changed("just before", AnyAccepted, |d| d.sections[2].address = 0x7000),
        changed("around", RefusedAt(15, 2), |d| {
            d.sections[2].address = 0x8000;
            d.sections[2].size = 0x3000;
        }),
        changed("inside", RefusedAt(15, 2), |d| {
            d.sections[1].size = 0x4000;
            d.sections[2].size = 0x1000;
        }),
        changed("first page shared", RefusedAt(15, 2), |d| {
            d.sections[1].size = 0x2000
        }),
    ]
}

/// Rules 16 to 19, and the longest stream.
fn whole_bounds() -> Vec<Case> {
    // The TD HOB and the temporary memory with a run before, between and behind them: 5 pieces. A
    // section of one page in each of 20 RAM records of two: 40. MMIO records give the rest.
    let pieces = |count: u64, size: u64| {
        let mut draft = page_launch();
        draft.sections[1].size = size;
        draft.sections[2].address = 0xD000;
        let firmware = draft.records.pop();
        for k in 0..20 {
            let address = 0x10_0000 + 0x4000 * k;
            draft.sections.push(section(0, 0, address, PAGE, TEMPORARY, 0));
            draft.records.push(record(address, 2 * PAGE, RAM));
        }
        for k in 45..count {
            draft.records.push(record(0x20_0000 + 0x4000 * k, PAGE, MMIO));
        }
        draft.records.extend(firmware);
        draft.count_sections();
        draft.start = 1000;
        draft
    };
    let accepted = |count: u64, size: u64| {
        let pages = 1 + size / PAGE + 2 + 20;
        Accepted(pages, 64 + 48 * count, pages + 48)
    };
    vec![
        changed("no BFV", Refused(16), |d| {
            d.sections.remove(0);
            d.count_sections();
        }),
        changed("CFV instead of BFV", Refused(16), |d| d.sections[0].sort = CFV),
        changed("no TD HOB", Refused(17), |d| d.sections[1].sort = TEMPORARY),
        changed("two TD HOBs", Refused(17), |d| d.sections[2].sort = TD_HOB),
        changed("84 pieces, one page", accepted(84, 0x1000), |d| {
            *d = pieces(84, 0x1000)
        }),
        changed("85 pieces, one page", Refused(19), |d| *d = pieces(85, 0x1000)),
        changed("85 pieces, two pages", accepted(85, 0x2000), |d| {
            *d = pieces(85, 0x2000)
        }),
        // The page's largest list: 64 RAM records, and a section inside each of 32 of them.
        changed("128 pieces", Accepted(34, 6_208, 34 + 48 * 2), |d| {
            d.records = (0..64).map(|k| record(0x10000 * k, 0x8000, RAM)).collect();
            d.sections = (0..32)
                .map(|k| section(0, 0, 0x10000 * k + 0x3000, PAGE, TEMPORARY, 0))
                .collect();
            d.sections[7] = section(5, 6, 0x73000, 2 * PAGE, BFV, 1);
            d.sections[31] = section(0, 0, 0x1F_3000, 2 * PAGE, TD_HOB, 0);
            d.count_sections();
            d.start = 1000;
        }),
        // In RAM: a run, the TD HOB, a run, the boot volume, a run.
        changed(
            "4,095 measured pages",
            Accepted(4096, 64 + 48 * 5, 4096 + 48 * 4095),
            |d| {
                d.length = LONGEST_IMAGE;
                d.start = 4097;
                d.records[0].length = 0x200_0000;
                d.sections.truncate(2);
                d.sections[0] = section(4096, 4095 * 4096 - 1, 0x10_0000, 4095 * PAGE, BFV, 1);
                d.records.truncate(1);
                d.count_sections();
            },
        ),
    ]
}
