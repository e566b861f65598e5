//! Each rule broken alone, and each two rules broken in one launch: the first must be answered.
//!
//! A change breaks one rule of a launch that breaks none. It names the fields that it touches, and
//! the fields that it needs as they are; two changes are combined where neither touches what the
//! other touches or needs. That a combination breaks both rules is not taken on trust: each change
//! alone must be answered by its own rule, the two must commute, and the second loader, which
//! collects all broken rules, must find both.

use crate::check::Bench;
use crate::crash;
use crate::draft::*;
use crate::second::Broken;
use std::collections::BTreeSet;

struct Change {
    rule: u32,
    section: Option<usize>,
    name: String,
    touches: Vec<String>,
    needs: Vec<String>,
    /// Rules that this change cannot help breaking as well.
    also: Vec<u32>,
    apply: Box<dyn Fn(&mut Draft)>,
}

/// Pairs that no launch breaks together, with the reason.
const IMPOSSIBLE: [(u32, std::ops::RangeInclusive<u32>, &str); 1] = [(
    5,
    9..=19,
    "where D + 16 > L - 32 at most 31 bytes of the image follow the descriptor's header, and a \
     section has 32: there is no section that could break a rule",
)];

/// Pairs that no one section breaks together. Two sections do.
const IMPOSSIBLE_IN_ONE: [(u32, u32, &str); 1] = [(
    9,
    11,
    "the raw size and the data offset are held against the type, and a type above 3 asks nothing \
     of them",
)];

const HOB_AT: u64 = 0x1000;
const OUTSIDE: u64 = 0x7000_0000;

/// A launch that uses much of what there is: 25 sections in 64 records, 110 pieces in a TD HOB
/// section of two pages, and room to break each rule. Sections 2 and 3 have a record each.
fn base() -> Draft {
    let mut sections = vec![
        section(0, 5000, 0xFFC0_0000, 0x2000, BFV, 1),
        section(0, 0, HOB_AT, 0x2000, TD_HOB, 0),
        section(100, 8192, 0x10_4000, 0x2000, CFV, 1),
        section(3000, 4097, 0x20_4000, 0x2000, CFV, 0),
        section(0, 0, 0x1000_0000, 0x1000, TEMPORARY, 0),
    ];
    let mut records = vec![
        record(0, 0x80000, RAM),
        record(0x10_0000, 0x10000, RAM),
        record(0x20_0000, 0x10000, RAM),
        record(0x1000_0000, 0x200_0000, RAM),
    ];
    for k in 0..20 {
        sections.push(section(0, 0, 0x10000 + 0x2000 * k, 0x1000, TEMPORARY, 0));
    }
    for k in 0..59 {
        records.push(record(0x4000_0000 + 0x2000 * k, 0x1000, MMIO));
    }
    records.push(record(0xFFC0_0000, 0x4000, FIRMWARE));
    Draft::new(20_480, sections, records)
}

fn change(rule: u32, name: &str, touches: &str, needs: &str, apply: impl Fn(&mut Draft) + 'static) -> Change {
    let list = |text: &str| {
        let words = text.split(',').map(|word| word.trim().to_string());
        words.filter(|word| !word.is_empty()).collect()
    };
    Change {
        rule,
        section: None,
        name: name.to_string(),
        touches: list(touches),
        needs: list(needs),
        also: Vec::new(),
        apply: Box::new(apply),
    }
}

impl Change {
    fn also(mut self, rules: &[u32]) -> Change {
        self.also = rules.to_vec();
        self
    }

    fn at(mut self, section: usize) -> Change {
        self.section = Some(section);
        self.name = format!("{} of section {section}", self.name);
        self
    }

    fn goes_with(&self, other: &Change) -> bool {
        let apart = |a: &[String], b: &[String]| a.iter().all(|field| !b.contains(field));
        apart(&self.touches, &other.touches)
            && apart(&self.touches, &other.needs)
            && apart(&self.needs, &other.touches)
    }

    fn broken(&self) -> Broken {
        Broken {
            rule: self.rule,
            section: self.section,
        }
    }
}

/// Rules 1 to 4. "content" is all that the image holds, "map" all that the map holds.
fn outer_changes() -> Vec<Change> {
    let mut changes = vec![
        change(1, "plan buffer of 65,535", "plan", "", |d| d.plan_length = 65_535),
        change(1, "plan buffer of 0", "plan", "", |d| d.plan_length = 0),
        change(1, "HOB buffer of 8,191", "hob", "", |d| d.hob_length = 8_191),
        change(1, "HOB buffer of 0", "hob", "", |d| d.hob_length = 0),
        change(2, "width 50", "width", "", |d| d.width = 50),
        change(2, "width 0", "width", "", |d| d.width = 0).also(&[4]),
        change(2, "width 304", "width", "", |d| d.width = 304),
        change(3, "L = 16,777,217", "length", "", |d| {
            d.length = LONGEST_IMAGE + 1
        }),
        change(3, "L = 31", "length, content", "", |d| d.length = 31),
        change(3, "L = 0", "length, content", "", |d| d.length = 0),
        change(4, "no records", "map", "", |d| d.records.clear()).also(&[14, 15, 19]),
        change(4, "a byte behind the records", "map length", "map", |d| {
            d.map_length = Some(64 * 24 + 1)
        }),
        change(4, "65 records", "map length", "map", |d| {
            d.records.push(record(0xFFD0_0000, 0x1000, FIRMWARE))
        }),
        change(4, "end past 2^width", "map length", "map, width", |d| {
            d.records[63] = record(0xFFC0_0000, (1 << 48) - 0xFFC0_0000 + PAGE, FIRMWARE)
        }),
        change(4, "end past 2^64", "record 62", "map", |d| {
            d.records[62] = record(0u64.wrapping_sub(PAGE), 2 * PAGE, MMIO)
        }),
        change(4, "overlap", "record 20", "map", |d| {
            d.records[20].start = d.records[19].start
        }),
        change(4, "order", "record 20, record 30", "map", |d| {
            d.records.swap(20, 30)
        }),
    ];
    let wrong: [(&str, fn(&mut Record)); 7] = [
        ("kind 0", |r| r.kind = 0),
        ("kind 4", |r| r.kind = 4),
        ("zero field 1", |r| r.zero = 1),
        ("start + 1", |r| r.start += 1),
        ("length + 1", |r| r.length += 1),
        ("length 0", |r| r.length = 0),
        ("length 2^64 - 4,096", |r| r.length = 0u64.wrapping_sub(PAGE)),
    ];
    for (name, damage) in wrong {
        changes.push(change(4, name, "record 20", "map", move |d| {
            damage(&mut d.records[20])
        }));
    }
    changes
}

/// Rules 5 to 8. "sections" is what the descriptor holds behind its header.
fn descriptor_changes() -> Vec<Change> {
    let mut changes = vec![
        change(5, "D = 2^32 - 1", "start, content, sections", "", |d| {
            d.start = u32::MAX
        }),
        change(5, "D = 2^32 - 16", "start, content, sections", "", |d| {
            d.start = u32::MAX - 15
        }),
        change(5, "D = L - 47", "start, sections", "length, content", |d| {
            d.start = d.length as u32 - 47
        })
        .also(&[8]),
        change(6, "signature in small letters", "signature", "content", |d| {
            d.signature = *b"tdvf"
        }),
        change(7, "version 0", "version", "content", |d| d.version = 0),
        change(7, "version 2", "version", "content", |d| d.version = 2),
        change(7, "version 1 + 2^16", "version", "content", |d| {
            d.version = 1 + (1 << 16)
        }),
        change(8, "descriptor length + 1", "descriptor length", "content", |d| {
            d.descriptor_length += 1
        }),
        change(8, "descriptor length - 1", "descriptor length", "content", |d| {
            d.descriptor_length -= 1
        }),
        change(
            8,
            "33 sections",
            "start, count, descriptor length",
            "content",
            |d| {
                for k in 25..33 {
                    d.sections
                        .push(section(0, 0, 0x30000 + 0x2000 * k, PAGE, TEMPORARY, 0));
                }
                d.count_sections();
                d.start -= 8 * 32;
            },
        ),
        change(
            8,
            "no sections",
            "count, descriptor length, sections",
            "content",
            |d| {
                d.count = 0;
                d.descriptor_length = 16;
            },
        )
        .also(&[16, 17]),
        change(8, "descriptor ends at L - 31", "start", "length, content", |d| {
            d.start += 1
        })
        .also(&[10]),
    ];
    for k in 0..4 {
        let name = format!("signature, byte {k}");
        changes.push(change(6, &name, "signature", "content", move |d| {
            d.signature[k] ^= 0x20
        }));
    }
    changes
}

/// Rules 9 to 15, for section 2 or 3: both are configuration volumes in a RAM record of their own.
/// Three names are not fields: "extent" is that the section has pages near where the base has it,
/// "stay" that it lies in its own record, and "home" what kind that record has.
fn section_changes(k: usize) -> Vec<Change> {
    let of = |rule: u32, name: &str, touches: &str, needs: &str, apply: fn(&mut Draft, usize)| {
        let with_number = |text: &str| {
            let fields = text.split(',').map(|field| format!("{} {k}", field.trim()));
            fields
                .filter(|field| !field.starts_with(' '))
                .collect::<Vec<_>>()
                .join(",")
        };
        let needs = format!("content, sections, {}", with_number(needs));
        change(rule, name, &with_number(touches), &needs, move |d| apply(d, k)).at(k)
    };
    let mut changes = vec![
        of(9, "type 4", "type", "", |d, k| d.sections[k].sort = 4),
        of(9, "type 257", "type", "", |d, k| d.sections[k].sort = 257),
        of(10, "attributes 2", "attributes", "", |d, k| {
            d.sections[k].attributes = 2
        }),
        of(10, "attributes 2^31 + 1", "attributes", "", |d, k| {
            d.sections[k].attributes = (1 << 31) + 1
        }),
        of(11, "raw size 0", "raw", "type", |d, k| d.sections[k].raw = 0),
        of(12, "data offset 2^32 - 50", "offset", "", |d, k| {
            d.sections[k].offset = u32::MAX - 49
        }),
        of(13, "address + 1", "address", "", |d, k| {
            d.sections[k].address += 1
        }),
        of(13, "address + 2,048", "address", "", |d, k| {
            d.sections[k].address += 2048
        }),
        of(13, "size + 1", "size", "", |d, k| d.sections[k].size += 1),
        of(13, "size 0", "size, extent", "", |d, k| d.sections[k].size = 0),
        of(13, "size below the raw size", "size", "raw", |d, k| {
            d.sections[k].size = PAGE
        }),
        of(14, "address outside", "address, extent", "", |d, k| {
            d.sections[k].address = OUTSIDE
        }),
        of(14, "end past 2^64", "address, extent", "", |d, k| {
            d.sections[k].address = 0u64.wrapping_sub(PAGE)
        }),
        of(14, "size past the record", "size", "", |d, k| {
            d.sections[k].size = 200 * PAGE
        }),
        of(14, "record of MMIO", "home", "type, stay", |d, k| {
            d.records[k - 1].kind = MMIO
        }),
        of(15, "address of the TD HOB", "address, stay", "extent", |d, k| {
            d.sections[k].address = HOB_AT
        }),
        of(
            15,
            "boot volume at the address",
            "",
            "address, extent, home",
            |d, k| d.sections[0].address = 0x10_4000 + 0x10_0000 * (k as u64 - 2),
        ),
    ];
    for change in &mut changes {
        if change.rule == 14 {
            change.needs.push("map".to_string());
        }
        if change.rule == 15 && change.touches.is_empty() {
            change.touches.push("address 0".to_string());
        }
    }
    changes
}

/// Rules 16 to 19.
fn whole_changes() -> Vec<Change> {
    vec![
        change(16, "CFV instead of BFV", "type 0", "content, sections", |d| {
            d.sections[0].sort = CFV
        }),
        change(17, "no TD HOB", "type 1", "content, sections", |d| {
            d.sections[1].sort = TEMPORARY
        }),
        change(17, "two TD HOBs", "type 4", "content, sections", |d| {
            d.sections[4].sort = TD_HOB
        }),
        change(18, "4,124 pages", "size 4", "content, sections", |d| {
            d.sections[4].size = 4096 * PAGE
        }),
        change(
            18,
            "4,097 pages",
            "size 4",
            "content, sections, size 1, size 2, size 3",
            |d| d.sections[4].size = 4069 * PAGE,
        ),
        change(
            19,
            "TD HOB of one page",
            "size 1",
            "content, sections, map, type 1",
            |d| d.sections[1].size = PAGE,
        ),
    ]
}

pub struct Counts {
    pub changes: usize,
    pub pairs: usize,
    pub combinations: usize,
    pub impossible: Vec<String>,
}

pub fn run(bench: &mut Bench) -> Result<Counts, String> {
    let mut changes = outer_changes();
    changes.extend(descriptor_changes());
    changes.extend(section_changes(2));
    changes.extend(section_changes(3));
    changes.extend(whole_changes());
    let name = "pairs: the launch that breaks no rule";
    crash::name(name.to_string());
    let answer = bench
        .try_draft(&base())
        .map_err(|what| format!("{name}: {what}"))?;
    if answer.refusal != 0 {
        return Err(format!("{name} is refused by {}", answer.refusal));
    }
    for change in &changes {
        alone(bench, change)?;
    }
    let mut seen = BTreeSet::new();
    let mut combinations = 0;
    for first in &changes {
        for second in &changes {
            let wanted =
                first.rule < second.rule || (first.rule == second.rule && first.section < second.section);
            if wanted && first.goes_with(second) {
                together(bench, first, second)?;
                combinations += 1;
                let one = first.section.is_some() && first.section == second.section;
                seen.insert((first.rule, second.rule, one));
            }
        }
    }
    let (pairs, impossible) = complete(&seen)?;
    Ok(Counts {
        changes: changes.len(),
        pairs,
        combinations,
        impossible,
    })
}

/// A change alone: its own rule is answered, and the second loader finds no other broken one.
fn alone(bench: &mut Bench, change: &Change) -> Result<(), String> {
    let name = format!("pairs: rule {} alone, {}", change.rule, change.name);
    crash::name(name.clone());
    let mut draft = base();
    (change.apply)(&mut draft);
    let answer = bench
        .try_draft(&draft)
        .map_err(|what| format!("{name}: {what}"))?;
    if answered(&answer) != change.broken() {
        return Err(format!("{name}: {:?} is answered", answered(&answer)));
    }
    let own = change.broken();
    let others: Vec<Broken> = bench.broken().into_iter().filter(|b| *b != own).collect();
    if others.iter().any(|other| !change.also.contains(&other.rule)) {
        return Err(format!("{name}: breaks {others:?} as well"));
    }
    Ok(())
}

/// Two changes in one launch: both rules are broken, and the one whose turn is first is answered.
fn together(bench: &mut Bench, a: &Change, b: &Change) -> Result<(), String> {
    let name = format!(
        "pairs: rules {} and {}, {} and {}",
        a.rule, b.rule, a.name, b.name
    );
    crash::name(name.clone());
    let (mut draft, mut other_way) = (base(), base());
    (a.apply)(&mut draft);
    (b.apply)(&mut draft);
    (b.apply)(&mut other_way);
    (a.apply)(&mut other_way);
    if draft != other_way {
        return Err(format!("{name}: the changes do not commute"));
    }
    let answer = bench
        .try_draft(&draft)
        .map_err(|what| format!("{name}: {what}"))?;
    let broken = bench.broken();
    if !broken.contains(&a.broken()) || !broken.contains(&b.broken()) {
        return Err(format!("{name}: the launch does not break both, but {broken:?}"));
    }
    let first = match (a.section, b.section) {
        (Some(of_a), Some(of_b)) if of_b < of_a => b,
        _ => a,
    };
    if answered(&answer) != first.broken() {
        return Err(format!("{name}: {:?} is answered", answered(&answer)));
    }
    Ok(())
}

fn answered(answer: &crate::second::Answer) -> Broken {
    Broken {
        rule: answer.refusal,
        section: if answer.place == 1 {
            Some(answer.index as usize)
        } else {
            None
        },
    }
}

/// Sees that each pair was tried, and in one section as well where both rules are a section's, but
/// for those that are listed as impossible; and that none of those was tried.
fn complete(seen: &BTreeSet<(u32, u32, bool)>) -> Result<(usize, Vec<String>), String> {
    let mut pairs = 0;
    let mut reasons = Vec::new();
    for (first, rest, reason) in IMPOSSIBLE {
        reasons.push(format!(
            "{first} with each of {} to {}: {reason}",
            rest.start(),
            rest.end()
        ));
    }
    for (first, second, reason) in IMPOSSIBLE_IN_ONE {
        reasons.push(format!("{first} with {second} in one section: {reason}"));
    }
    for first in 1..=19 {
        for second in first + 1..=19 {
            let tried = seen.contains(&(first, second, false)) || seen.contains(&(first, second, true));
            let listed = IMPOSSIBLE
                .iter()
                .any(|(a, b, _)| *a == first && b.contains(&second));
            if tried == listed {
                return Err(format!(
                    "pairs: {first} and {second} are tried: {tried}, impossible: {listed}"
                ));
            }
            pairs += usize::from(tried);
            if (9..=15).contains(&first) && second <= 15 {
                let tried = seen.contains(&(first, second, true));
                let listed = IMPOSSIBLE_IN_ONE
                    .iter()
                    .any(|(a, b, _)| (*a, *b) == (first, second));
                if tried == listed || !seen.contains(&(first, second, false)) {
                    return Err(format!(
                        "pairs: {first} and {second} in one section, or in two, are not as listed"
                    ));
                }
            }
        }
    }
    Ok((pairs, reasons))
}
