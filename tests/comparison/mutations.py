"""Mistakes for the second loader, and the run that sees each of them found (tests/compare --self-check).

A mistake is a change of tests/second/mod.rs or turns.rs: most are ones that a loader is likely to make, such
as `<` for `<=` at a bound or two rules in the other order. It is found where a part of the comparison ends
with a difference; a part that goes through with a wrong loader shows nothing about the right one.
"""

import pathlib
import shutil
import subprocess

FOLDER = pathlib.Path("target", "tests", "mutated")
LAUNCHES = "20000"

# What is wrong, the text in tests/second/mod.rs that stands there once, and what is put in its place.
MUTATIONS = [
    ("rule 1, plan: <= for <", "plan_length < 65_536 ||", "plan_length <= 65_536 ||"),
    ("rule 1, plan: one byte less is enough", "plan_length < 65_536 ||", "plan_length < 65_535 ||"),
    ("rule 1, HOB: <= for <", "hob_length < 8_192)", "hob_length <= 8_192)"),
    ("rule 1, HOB: one byte less is enough", "hob_length < 8_192)", "hob_length < 8_191)"),
    ("rule 1, both must be short", "plan_length < 65_536 || hob_length", "plan_length < 65_536 && hob_length"),
    ("rule 2, any width from 48 to 52", "width != 48 && width != 52", "!(48..=52).contains(&width)"),
    (
        "rule 2, the width's low byte alone",
        "width != 48 && width != 52",
        "width % 256 != 48 && width % 256 != 52",
    ),
    ("rule 3, 32 is too short", "length < 32 || length > 16_777_216", "length <= 32 || length > 16_777_216"),
    ("rule 3, 16 MiB is too long", "length > 16_777_216", "length >= 16_777_216"),
    ("rule 3, 16 MiB and a byte is not too long", "length > 16_777_216", "length > 16_777_217"),
    ("rule 4, bytes behind the records", "!whole_records || !map_stands", "!map_stands"),
    ("rule 4, 65 records", "(1..=64).contains(&records.len())", "(1..=65).contains(&records.len())"),
    (
        "rule 4, 64 records are too many",
        "(1..=64).contains(&records.len())",
        "(1..=63).contains(&records.len())",
    ),
    ("rule 4, no records", "(1..=64).contains(&records.len())", "(0..=64).contains(&records.len())"),
    ("rule 4, start not tried", "record.start % PAGE == 0\n            && ", ""),
    ("rule 4, length not tried", "            && record.length % PAGE == 0\n", ""),
    ("rule 4, length 0", "            && record.length != 0\n", ""),
    ("rule 4, kind not tried", "            && [RAM, FIRMWARE, MMIO].contains(&record.kind)\n", ""),
    ("rule 4, zero field not tried", "            && record.zero == 0\n", ""),
    ("rule 4, end at 2^width", "record.start + record.length <= top", "record.start + record.length < top"),
    (
        "rule 4, end not tried",
        "            && record.start + record.length <= top\n",
        "            && top > 0\n",
    ),
    (
        "rule 4, end in 64 bits",
        "record.start + record.length <= top",
        "((record.start + record.length) as u64) as u128 <= top",
    ),
    ("rule 4, touching records", "pair[1].start >= pair[0].start", "pair[1].start > pair[0].start"),
    (
        "rule 4, order by start only",
        "pair[1].start >= pair[0].start + pair[0].length",
        "pair[1].start > pair[0].start",
    ),
    ("rule 5, >= for >", "start + 16 + 32 > length", "start + 16 + 32 >= length"),
    ("rule 5, one byte more", "start + 16 + 32 > length", "start + 16 + 32 > length + 1"),
    (
        "D from the end",
        "let start = number(image, image.len() - 32, 4);\n    if",
        "let start = (image.len() as u128).saturating_sub(number(image, image.len() - 32, 4));\n    if",
    ),
    (
        "rule 6, three bytes only",
        'descriptor.signature != b"TDVF"',
        'descriptor.signature[..3] != b"TDVF"[..3]',
    ),
    ("rule 7, the low byte only", "descriptor.version != 1", "descriptor.version % 256 != 1"),
    ("rule 8, 33 sections", "(1..=32).contains(&descriptor.count)", "(1..=33).contains(&descriptor.count)"),
    (
        "rule 8, 32 sections are too many",
        "(1..=32).contains(&descriptor.count)",
        "(1..=31).contains(&descriptor.count)",
    ),
    (
        "rule 8, the length in 32 bits",
        "(1..=32).contains(&descriptor.count)\n        && descriptor.length == 16 + 32 * descriptor.count",
        "descriptor.count != 0\n        && descriptor.length == (16 + 32 * descriptor.count) % (1 << 32)",
    ),
    ("rule 8, length not tried", "descriptor.length == 16 + 32 * descriptor.count", "descriptor.length >= 16"),
    (
        "rule 8, end: < for <=",
        "descriptor.start + descriptor.length + 32 <= image_length",
        "descriptor.start + descriptor.length + 32 < image_length",
    ),
    (
        "rule 8, end: a byte more",
        "descriptor.start + descriptor.length + 32 <= image_length",
        "descriptor.start + descriptor.length + 31 <= image_length",
    ),
    (
        "rule by rule, not section by section",
        "Some(section) => (1, section, self.rule)",
        "Some(section) => (1, self.rule as usize, section as u32)",
    ),
    ("rules 16 to 19 before the sections", "None => (2, 0, self.rule)", "None => (0, 0, self.rule)"),
    ("rule 9, type 4", "section.sort <= TEMPORARY", "section.sort <= TEMPORARY + 1"),
    ("rule 10, other bits", "BFV => section.attributes == 1", "BFV => section.attributes % 2 == 1"),
    (
        "rule 10, TD HOB measured",
        "TD_HOB | TEMPORARY => section.attributes == 0",
        "TD_HOB | TEMPORARY => section.attributes <= 1",
    ),
    ("rule 10, CFV attributes 2", "_ => section.attributes <= 1", "_ => section.attributes <= 2"),
    ("rule 11, raw size 0", "BFV | CFV => section.raw != 0", "BFV | CFV => section.raw < 1 << 32"),
    ("rule 11, data offset", "section.raw == 0 && section.offset == 0", "section.raw == 0"),
    ("rule 11, raw size of a TD HOB", "section.raw == 0 && section.offset == 0", "section.offset == 0"),
    (
        "rule 12, < for <=",
        "section.offset + section.raw <= image_length",
        "section.offset + section.raw < image_length",
    ),
    (
        "rule 12, a byte more",
        "section.offset + section.raw <= image_length",
        "section.offset + section.raw <= image_length + 1",
    ),
    (
        "rule 12, in 32 bits",
        "section.offset + section.raw <= image_length",
        "(section.offset + section.raw) % (1 << 32) <= image_length",
    ),
    ("rule 13, address not tried", "section.address % PAGE == 0\n        && ", ""),
    ("rule 13, size not tried", "        && section.size % PAGE == 0\n", ""),
    ("rule 13, size 0", "        && section.size != 0\n", ""),
    ("rule 13, > for >=", "section.size >= section.raw", "section.size > section.raw"),
    ("rule 13, size below raw size", "        && section.size >= section.raw\n", ""),
    ("rule 14, > for >=", "section.address >= record.start", "section.address > record.start"),
    (
        "rule 14, < for <=",
        "section.address + section.size <= record.start",
        "section.address + section.size < record.start",
    ),
    (
        "rule 14, in 64 bits",
        "section.address + section.size <= record.start",
        "(section.address + section.size) % (1 << 64) <= record.start",
    ),
    ("rule 14, BFV in RAM alone", "BFV | CFV => &[RAM, FIRMWARE],", "BFV | CFV => &[FIRMWARE],"),
    ("rule 14, BFV in MMIO", "BFV | CFV => &[RAM, FIRMWARE],", "BFV | CFV => &[RAM, FIRMWARE, MMIO],"),
    ("rule 14, TD HOB in firmware", "TD_HOB | TEMPORARY => &[RAM],", "TD_HOB | TEMPORARY => &[RAM, FIRMWARE],"),
    ("rule 15, <= for <", "    first < end\n", "    first <= end\n"),
    ("rule 15, by first addresses only", "    first < end\n", "    first < end && a.address == b.address\n"),
    ("rule 15, with the section before only", "earlier.iter().any(", "earlier.iter().rev().take(1).any("),
    ("rule 15, not with section 0", "earlier.iter().any(", "earlier.iter().skip(1).any("),
    ("rule 16, a CFV will do", "any(|s| s.sort == BFV)", "any(|s| s.sort <= CFV)"),
    ("rule 17, two will do", "hobs.len() != 1", "hobs.is_empty()"),
    ("rule 17, none will do", "hobs.len() != 1", "hobs.len() > 1"),
    ("rule 18, >= for >", "pages > 4096", "pages >= 4096"),
    ("rule 18, a page more", "pages > 4096", "pages > 4097"),
    ("rule 19, >= for >", "list > s.size", "list >= s.size"),
    ("rule 19, a piece more", "list > s.size", "list > s.size + 48"),
    ("section number left out", "index: broken.section.unwrap_or(0) as u64", "index: 0"),
    ("list: MMIO attributes", "attributes: 0x403", "attributes: 0x7"),
    ("list: a run as memory", "            7\n        },", "            0\n        },"),
    (
        "list: neighbouring sections as one piece",
        "    cuts.sort_unstable();",
        "    cuts.retain(|cut| cuts_stay(*cut, record, &inside));\n    cuts.sort_unstable();",
    ),
    (
        "list: BFV and CFV no pieces",
        "filter(|s| lies_in(record, s))",
        "filter(|s| lies_in(record, s) && s.sort > CFV)",
    ),
    (
        "list: the end's address is the section's end",
        "address + 56 + rest.len() as u128, 8",
        "address + 4096, 8",
    ),
    ("list: the last block left out", "    append_header(&mut rest, 0xFFFF, 8);\n", ""),
    ("list: firmware records as pieces", "if record.kind == RAM {", "if record.kind != MMIO {"),
    ("list: version 8", "append(&mut list, 9, 4);", "append(&mut list, 8, 4);"),
    (
        "plan: offset of an empty page",
        "offset: if length == 0 { 0 } else { from + done }",
        "offset: from + done",
    ),
    ("plan: TD HOB pages without data", "TD_HOB => (0, list_length as u128)", "TD_HOB => (0, 0)"),
    (
        "plan: whole pages of data",
        "amount.saturating_sub(done).min(PAGE)",
        "if amount > done { PAGE } else { 0 }",
    ),
    ("plan: only BFVs measured", "measured: section.attributes % 2 == 1", "measured: section.sort == BFV"),
    (
        "stream: zero tail of a page not measured",
        "content.resize(PAGE as usize, 0);",
        "content.resize((data.len() + 255) / 256 * 256, 0);",
    ),
    (
        "stream: pages without data not measured",
        "if !page.measured {",
        "if !page.measured || page.length == 0 {",
    ),
    ("stream: the chunk's address is the page's", "page.address + 256 * k as u128", "page.address"),
    ("stream: address at 12", "stream.resize(end - 128 + 16, 0);", "stream.resize(end - 128 + 12, 0);"),
    (
        "stream: all pages added first",
        '    for page in pages {\n        append_block(&mut stream, b"MEM.PAGE.ADD", page.address);\n',
        '    for page in pages {\n        append_block(&mut stream, b"MEM.PAGE.ADD", '
        "page.address);\n    }\n    for page in pages {\n",
    ),
    ("view: < for <=", "u128::from(length) <= room", "u128::from(length) < room"),
    (
        "view: in 32 bits",
        "u128::from(offset) + u128::from(length) <= room",
        "u128::from(offset.wrapping_add(u32::from(length))) <= room",
    ),
    ("view: >= for >", "u128::from(length) > PAGE", "u128::from(length) >= PAGE"),
    ("view: any length", "u128::from(length) > PAGE || ", ""),
    (
        "view: type 3 from the list",
        "TD_HOB => (2, hob_length as u128)",
        "TD_HOB | TEMPORARY => (2, hob_length as u128)",
    ),
    (
        "view: type 1 from the list",
        "BFV | CFV => (1, image_length as u128)",
        "BFV => (1, image_length as u128),\n        CFV => (2, hob_length as u128)",
    ),
]

TURN = "    fn turn(&self) -> (u32, usize, u32) {\n"


def swapped(first, second):
    """Two rules in the other order."""
    exchange = f"match self.rule {{ {first} => {second}, {second} => {first}, rule => rule }}"
    body = f"        Broken {{ rule: {exchange}, ..*self }}.turn_before()\n    }}\n\n"
    return f"rules {first} and {second} in the other order", TURN, TURN + body + TURN.replace("turn", "turn_before")


# Rules 8 and 9, and 15 and 16, are not here: between them the sections begin and end.
MUTATIONS += [swapped(rule, rule + 1) for rule in (1, 2, 3, 4, 5, 6, 7, 9, 10, 11, 12, 13, 14, 16, 17, 18)]

# Called by one of the mistakes above: is the cut kept where a section's end is another one's start?
CUTS_STAY = """
fn cuts_stay(cut: u128, record: &Record, inside: &[&Section]) -> bool {
    let starts = inside.iter().any(|s| s.address == cut);
    let ends = inside.iter().any(|s| s.address + s.size == cut);
    !(starts && ends) || cut == record.start
}
"""


# Mistakes in the measurement in turns: the text stands in tests/second/turns.rs once.
TURN_MUTATIONS = [
    ("the padding not in the total", "total: launched.blocks + 1", "total: launched.blocks"),
    (
        "no total for a refused start",
        "total: launched.blocks + 1",
        "total: launched.blocks + u64::from(launched.refusal == 0)",
    ),
    (
        "the start answers the measurement",
        "        measurement: [0; 48],\n        ..launched",
        "        ..launched",
    ),
    ("the start's place left out", "place: launched.place", "place: 0"),
    ("the start's index left out", "index: launched.index", "index: 0"),
    ("the start's hash value is zeros", "hash: sha384::start()", "hash: [0; 8]"),
    ("the HOB buffer's length kept", "plan_length: plan_length as u64", "plan_length: hob_length as u64"),
    (
        "the plan's length kept, not the buffer's",
        "plan_length: plan_length as u64",
        "plan_length: 16 * launched.pages",
    ),
    ("24 before the launch's refusal", "if state.refusal != 0 {", "if state.refusal != 0 && quota != 0 {"),
    (
        "27 before the launch's refusal",
        "if state.refusal != 0 {",
        "if state.refusal != 0 && lent_as_at_start(state, image, plan) {",
    ),
    ("27 before 24", "if quota == 0 {", "if quota == 0 && lent_as_at_start(state, image, plan) {"),
    ("the finished answer before 24", "if quota == 0 {", "if quota == 0 && state.done < state.total {"),
    (
        "the finished answer before 27",
        "if image.len() as u64 != state.image_length || plan.len() as u64 != state.plan_length {",
        "if state.done < state.total && !lent_as_at_start(state, image, plan) {",
    ),
    ("27 for the plan alone", "image.len() as u64 != state.image_length || ", ""),
    ("27 for the image alone", " || plan.len() as u64 != state.plan_length", ""),
    ("27 for both together alone", "!= state.image_length || plan", "!= state.image_length && plan"),
    (
        "27 for a shorter image alone",
        "image.len() as u64 != state.image_length",
        "(image.len() as u64) < state.image_length",
    ),
    (
        "27 for a shorter plan alone",
        "plan.len() as u64 != state.plan_length",
        "(plan.len() as u64) < state.plan_length",
    ),
    (
        "27, the image's length in 32 bits",
        "image.len() as u64 != state.image_length",
        "image.len() as u32 != state.image_length as u32",
    ),
    (
        "27, the plan's length in 32 bits",
        "plan.len() as u64 != state.plan_length",
        "plan.len() as u32 != state.plan_length as u32",
    ),
    ("only known refusals answered", "if state.refusal != 0 {", "if (1..=19).contains(&state.refusal) {"),
    (
        "a refused state without its place",
        "state.refusal, state.place, state.index",
        "state.refusal, 0, state.index",
    ),
    (
        "a refused state without its index",
        "state.refusal, state.place, state.index",
        "state.refusal, state.place, 0",
    ),
    (
        "24 with the state's place",
        "refused(state, NO_QUOTA, 0, 0)",
        "refused(state, NO_QUOTA, state.place, state.index)",
    ),
    (
        "27 with the state's place",
        "refused(state, OTHER_LENGTH, 0, 0)",
        "refused(state, OTHER_LENGTH, state.place, state.index)",
    ),
    ("24 for 27", "refused(state, OTHER_LENGTH", "refused(state, NO_QUOTA"),
    ("quota off by one, a block more", "left.min(u128::from(quota))", "left.min(u128::from(quota) + 1)"),
    ("quota off by one, a block less", "left.min(u128::from(quota))", "left.min(u128::from(quota).max(2) - 1)"),
    ("quota in 32 bits", "u128::from(quota));", "u128::from(quota as u32));"),
    (
        "the padding does not count against the quota",
        "left.min(u128::from(quota))",
        "if left == u128::from(quota) + 1 { left } else { left.min(u128::from(quota)) }",
    ),
    (
        "the padding in a turn of its own",
        "left.min(u128::from(quota))",
        "left.min(u128::from(quota)).min(left.max(2) - 1)",
    ),
    (
        "the padding not reported",
        "blocks: count as u64",
        "blocks: (count - u128::from(end == total).min(count)) as u64",
    ),
    ("the padding twice", "total - n == 1", "total - n <= 2"),
    ("no padding", "total - n == 1", "total - n == 0"),
    ("the padding at each turn's end", "total - n == 1", "end - n == 1"),
    (
        "the measurement a block too early",
        "measurement: if end >= total {",
        "measurement: if end + 1 >= total {",
    ),
    ("the measurement of an unfinished turn", "measurement: if end >= total {", "measurement: if end > 0 {"),
    ("zeros when asked again", "measurement: if end >= total {", "measurement: if end >= total && count > 0 {"),
    ("zeros when done above the total", "measurement: if end >= total {", "measurement: if end == total {"),
    ("done above the total is set back", "done: end as u64", "done: end.min(total) as u64"),
    (
        "the state's place is cleared",
        "            done: end as u64,",
        "            done: end as u64,\n            place: 0,",
    ),
    (
        "the state's index is cleared",
        "            done: end as u64,",
        "            done: end as u64,\n            index: 0,",
    ),
    (
        "the state's place is answered",
        "place: 0,\n        index: 0,\n        blocks: count",
        "place: state.place,\n        index: state.index,\n        blocks: count",
    ),
    (
        "a refusal changes the state",
        "        state: state.clone(),\n",
        "        state: State { done: state.done.wrapping_add(1), ..state.clone() },\n",
    ),
    (
        "a refusal answers the hash value",
        "blocks: 0,\n        measurement: [0; 48]",
        "blocks: 0,\n        measurement: sha384::left_most(&state.hash)",
    ),
    (
        "the plan of the first turn",
        "first_blocks(image, plan, end)",
        "first_blocks(image, &remembered(state, plan), end)",
    ),
    (
        "the image of the first turn",
        "first_blocks(image, plan, end)",
        "first_blocks(&remembered(state, image), plan, end)",
    ),
    ("blocks counted from the turn's start", "block(&stream, n)", "block(&stream, n - done)"),
    ("block n in 32 bits", "usize::try_from(n).ok()", "usize::try_from(n % (1 << 32)).ok()"),
    (
        "the last block again past the plan's end",
        'None => named(b"MEM.PAGE.ADD", 0)',
        'None => *stream.last().unwrap_or(&named(b"MEM.PAGE.ADD", 0))',
    ),
    ("zeros past the plan's end", 'None => named(b"MEM.PAGE.ADD", 0)', "None => [0; 128]"),
    (
        "a cut record read byte by byte",
        "    record\n}\n",
        "    let rest = &plan[at..plan.len().min(at + RECORD)];\n"
        "    record[..rest.len()].copy_from_slice(rest);\n    record\n}\n",
    ),
    ("the last whole record left out", "if at + RECORD <= plan.len() {", "if at + RECORD < plan.len() {"),
    (
        "plans longer than 4,096 records cut",
        "while at < plan.len()",
        "while at < plan.len().min(65_536)",
    ),
    ("byte 2 measures", "if record[15] == 1 {", "if record[15] == 1 || record[15] == 2 {"),
    ("byte 255 measures", "if record[15] == 1 {", "if record[15] == 1 || record[15] == 255 {"),
    ("any byte but 0 measures", "if record[15] == 1 {", "if record[15] != 0 {"),
    ("a page without data is not measured", "if record[15] == 1 {", "if record[15] == 1 && record[14] < 2 {"),
    ("the address not wrapped", " % (1 << 64);", ".min((1 << 64) - 1);"),
    ("the chunk's address is the page's", "address + 256 * k as u128", "address + 0 * k as u128"),
    ("the halves of a chunk in the other order", "chunk.chunks(128)", "chunk.chunks(128).rev()"),
    ("a TD HOB page from the image", "view(image.len(), 0, ", "view(image.len(), image.len(), "),
    ("type 3 from the image", "length as u16, record[14]", "length as u16, record[14] % 3"),
    (
        "type 255 from the image",
        "length as u16, record[14]",
        "length as u16, record[14].wrapping_add(1).max(1) - 1",
    ),
    ("a length above 4,096 cut to a page", "length as u16, record", "(length as u16).min(4096), record"),
    (
        "data past the image's end cut there",
        "length as u16, record",
        "(length as u16).min((image.len() as u128).saturating_sub(offset).min(65_535) as u16), record",
    ),
    ("the padding's length in bytes", "n * 128 * 8", "n * 128"),
    ("the padding's length with the padding", "n * 128 * 8", "(n + 1) * 128 * 8"),
    ("the padding's length in 64 bits", "n * 128 * 8", "u128::from((n * 128 * 8) as u64)"),
    ("the padding's bytes in 64 bits", "n * 128 * 8", "u128::from((n * 128) as u64) * 8"),
    ("the padding's length in 32 bits", "n * 128 * 8", "u128::from((n * 128 * 8) as u32)"),
    ("the padding's first bit", "block[0] = 0x80", "block[0] = 1"),
]

TURN_MUTATIONS = [(f"turns: {name}", old, new) for name, old, new in TURN_MUTATIONS]

# Called by some of them: what a wrong implementation would keep from the first turn, and the question of
# refusal 27.
REMEMBERED = """
thread_local! {
    static FIRST: std::cell::RefCell<Vec<u8>> = std::cell::RefCell::new(Vec::new());
}

fn remembered(state: &State, lent: &[u8]) -> Vec<u8> {
    FIRST.with(|first| {
        let mut first = first.borrow_mut();
        if state.done == 0 || first.len() != lent.len() {
            *first = lent.to_vec();
        }
        first.clone()
    })
}
"""
LENT_AS_AT_START = """
fn lent_as_at_start(state: &State, image: &[u8], plan: &[u8]) -> bool {
    image.len() as u64 == state.image_length && plan.len() as u64 == state.plan_length
}
"""

# The loader sees for itself that a stream is as long as the page says. In a wrong one the comparison has to.
OWN_CHECK = "    assert_eq!(stream.len(), 128 * (pages.len() + 48 * measured));\n"

# Which file the mistakes are put into, and the parts of the comparison that are to find them.
FILES = [
    ("mod.rs", MUTATIONS, ("cases", "pairs", "views", "random")),
    ("turns.rs", TURN_MUTATIONS, ("turns",)),
]


def mutated(text, old, new):
    """A file of the second loader with one mistake; None where the text is not there just once."""
    if text.count(old) != 1:
        return None
    changed = text.replace(OWN_CHECK, "").replace(old, new)
    for called, function in (
        ("cuts_stay", CUTS_STAY),
        ("remembered", REMEMBERED),
        ("lent_as_at_start", LENT_AS_AT_START),
    ):
        if called in new:
            changed += function
    return changed


def finding_parts(program, parts):
    """The parts of the comparison that fail. Some mistakes lead the wrong loader out of its own bounds: then
    it panics, and there is no answer to compare. That too few cases came up is no find."""
    found = []
    for part in parts:
        command = [program, "--part", part, "--launches", LAUNCHES]
        ended = subprocess.run(command, capture_output=True, text=True)
        if ended.returncode == 1 and "came up fewer than" in ended.stdout:
            continue
        if ended.returncode == 1 and "FAILED" in ended.stdout:
            found.append(f"{part} (panic)" if "panicked" in ended.stdout else part)
        elif ended.returncode != 0:
            raise SystemExit(f"{program} --part {part} ended with status {ended.returncode}: {ended.stdout}")
    return found


def tried(build, file, text, parts):
    """The parts that find a mistake: the program is built from copies, with this text for a file."""
    for part in ("second", "comparison"):
        shutil.copytree(pathlib.Path("tests", part), FOLDER / part, dirs_exist_ok=True)
    (FOLDER / "second" / file).write_text(text)
    build(FOLDER, FOLDER / "compare", "-C", "opt-level=1", "-A", "warnings")
    return finding_parts(FOLDER / "compare", parts)


def run(build, words):
    """Tries the mistakes whose name has one of the words; all where there is none."""
    missed = []
    if OWN_CHECK not in pathlib.Path("tests", "second", "mod.rs").read_text():
        return "tests/compare --self-check: the loader's own check of the stream's length is not found"
    for file, mutations, parts in FILES:
        source = pathlib.Path("tests", "second", file).read_text()
        for name, old, new in mutations:
            if words and not any(word in name for word in words):
                continue
            text = mutated(source, old, new)
            if text is None:
                missed.append(name)
                print(f"{name}: the text is not in tests/second/{file} just once", flush=True)
                continue
            found = tried(build, file, text, parts)
            if not found:
                missed.append(name)
            print(f"{name}: {'found by ' + ', '.join(found) if found else 'NOT FOUND'}", flush=True)
    if missed:
        return f"tests/compare --self-check: not found: {'; '.join(missed)}"
    return 0
