//! The largest table and map, 32 sections and 64 records, with each place of them in turn: a loader
//! that is right at the first places may be wrong at the last.

use crate::check::{shown, Bench};
use crate::crash;
use crate::draft::*;

const FAR: u64 = 0x10_0000;

/// A section of one page (the TD HOB has two) in the middle of every second record, 128 pieces.
fn base() -> Draft {
    let records = (0..64).map(|r| record(FAR * (r + 1), 16 * PAGE, RAM)).collect();
    let at = |k: u64| FAR * (2 * k + 1) + 4 * PAGE;
    let sections = (0..32)
        .map(|k| match k % 4 {
            0 => section(k as u32, 4000 - k as u32, at(k), PAGE, BFV, 1),
            1 if k == 1 => section(0, 0, at(k), 2 * PAGE, TD_HOB, 0),
            1 => section(0, 0, at(k), PAGE, TEMPORARY, 0),
            2 => section(100 + k as u32, 1, at(k), PAGE, CFV, 0),
            _ => section(4095 - k as u32, 1 + k as u32, at(k), PAGE, CFV, 1),
        })
        .collect();
    let mut draft = Draft::new(4096, sections, records);
    draft.start = 1500;
    draft
}

struct Tries<'a> {
    bench: &'a mut Bench,
    count: usize,
}

impl Tries<'_> {
    /// Changes the launch and compares both loaders; `want` is the rule and the section, or (0, 0).
    fn want(&mut self, what: &str, want: (u32, u64), change: impl FnOnce(&mut Draft)) -> Result<(), String> {
        let mut draft = base();
        change(&mut draft);
        crash::name(format!("case: {what}"));
        self.count += 1;
        let answer = self
            .bench
            .try_draft(&draft)
            .map_err(|error| format!("case: {what}: {error}"))?;
        if (answer.refusal, answer.index) == want {
            return Ok(());
        }
        Err(format!(
            "case: {what}: both loaders answer, against the page: {}",
            shown(&answer)
        ))
    }
}

/// Answers how many launches were tried.
pub fn run(bench: &mut Bench) -> Result<usize, String> {
    let mut tries = Tries { bench, count: 0 };
    for k in 0..32 {
        own_rules(&mut tries, k)?;
        table_places(&mut tries, k)?;
        for j in 0..k {
            shared_addresses(&mut tries, j, k)?;
        }
    }
    for r in 0..64 {
        homes(&mut tries, r)?;
        map_rules(&mut tries, r)?;
    }
    Ok(tries.count)
}

/// Rules 9 to 14, broken by section k.
fn own_rules(tries: &mut Tries, k: usize) -> Result<(), String> {
    let at = k as u64;
    tries.want(&format!("type of {k}"), (9, at), |d| d.sections[k].sort = 4)?;
    tries.want(&format!("attributes of {k}"), (10, at), |d| {
        d.sections[k].attributes ^= 2
    })?;
    let has_data = base().sections[k].sort <= CFV;
    tries.want(&format!("raw size of {k}"), (11, at), |d| {
        d.sections[k].raw = if has_data { 0 } else { 1 }
    })?;
    if has_data {
        tries.want(&format!("data of {k}"), (12, at), |d| {
            d.sections[k].offset = 4097 - d.sections[k].raw
        })?;
    }
    tries.want(&format!("address of {k}"), (13, at), |d| {
        d.sections[k].address += 1
    })?;
    tries.want(&format!("size of {k}"), (13, at), |d| d.sections[k].size = 0)?;
    tries.want(&format!("place of {k}"), (14, at), |d| {
        d.sections[k].address += 12 * PAGE
    })
}

/// Sections in another order, and tables of each length.
fn table_places(tries: &mut Tries, k: usize) -> Result<(), String> {
    tries.want(&format!("TD HOB as section {k}"), (0, 0), |d| {
        d.sections.swap(1, k)
    })?;
    tries.want(&format!("section 0 as section {k}"), (0, 0), |d| {
        d.sections.swap(0, k)
    })?;
    let few = |d: &mut Draft| {
        d.sections.truncate(k + 1);
        d.count_sections();
    };
    tries.want(
        &format!("{} sections", k + 1),
        (if k == 0 { 17 } else { 0 }, 0),
        few,
    )
}

/// Rule 15 between sections j and k, of which j is the earlier: each way to share a page, and none.
fn shared_addresses(tries: &mut Tries, j: usize, k: usize) -> Result<(), String> {
    let ways: [(&str, bool, i64, u64); 5] = [
        ("the same address", true, 0, 1),
        ("the last page", true, 3, 1),
        ("around", true, -1, 6),
        ("just behind", false, 4, 1),
        ("just before", false, -2, 2),
    ];
    for (name, shares, pages, size) in ways {
        let want = if shares { (15, k as u64) } else { (0, 0) };
        tries.want(&format!("{k} and {j}, {name}"), want, |d| {
            let with = d.sections[j].address;
            d.sections[j].size = 4 * PAGE;
            // The TD HOB must keep two pages for its list, behind the other section too.
            let least = if d.sections[k].sort == TD_HOB { 2 } else { 1 };
            d.sections[k].size = size.max(least) * PAGE;
            d.sections[k].address = with.wrapping_add((pages * PAGE as i64) as u64);
        })?;
    }
    Ok(())
}

/// Section 2 at the first and the last page of record r, and one page past either.
fn homes(tries: &mut Tries, r: usize) -> Result<(), String> {
    let start = FAR * (r as u64 + 1);
    let mut place = |name: &str, want, address| {
        tries.want(&format!("{name} of record {r}"), want, |d| {
            d.sections[2].address = address
        })
    };
    place("first page", (0, 0), start)?;
    place("last page", (0, 0), start + 15 * PAGE)?;
    place("the page before", (14, 2), start - PAGE)?;
    place("the page behind", (14, 2), start + 16 * PAGE)
}

/// Rule 4, broken by record r; and the kinds that a record without a section may have.
fn map_rules(tries: &mut Tries, r: usize) -> Result<(), String> {
    let wrong: [(&str, fn(&mut Record)); 6] = [
        ("start", |r| r.start += 1),
        ("length", |r| r.length += 1),
        ("length 0", |r| r.length = 0),
        ("kind 0", |r| r.kind = 0),
        ("kind 4", |r| r.kind = 4),
        ("zero field", |r| r.zero = 1 << 31),
    ];
    for (name, damage) in wrong {
        tries.want(&format!("{name} of record {r}"), (4, 0), |d| {
            damage(&mut d.records[r])
        })?;
    }
    if r > 0 {
        tries.want(&format!("records {} and {r} touch", r - 1), (0, 0), |d| {
            d.records[r - 1].length = FAR
        })?;
        tries.want(&format!("records {} and {r} overlap", r - 1), (4, 0), |d| {
            d.records[r - 1].length = FAR + PAGE
        })?;
    }
    if r % 2 == 1 {
        tries.want(&format!("MMIO record {r}"), (0, 0), |d| d.records[r].kind = MMIO)?;
        tries.want(&format!("firmware record {r}"), (0, 0), |d| {
            d.records[r].kind = FIRMWARE
        })?;
    }
    Ok(())
}
