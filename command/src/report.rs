//! What is printed of an answer, for people and as JSON.

use tdload::{Begun, Page, Refusal};

use crate::arguments::{Conversion, Launch};
use crate::hob::{self, List, Piece};
use crate::json::{array, or_null, quoted, Object};
use crate::map::{Map, RECORD_SIZE};
use crate::outcome::{Failure, Output};

/// The rule of the map, whose refusal may come of a file taken for the wrong form.
const MAP_RULE: u32 = 4;

pub fn refused(asked: &Launch, map: &Map, refusal: &Refusal) -> Output {
    if asked.json {
        let why = Object::new()
            .value("number", refusal.number)
            .value("place", or_null(refusal.place.name().map(quoted)))
            .value("index", or_null(refusal.place.index()))
            .text("meaning", refusal.meaning());
        let whole = launch_object(false, map).value("refusal", why.finish());
        return Output::refused(whole.finish() + "\n", String::new());
    }
    let mut remark = format!("{}\n", refusal.meaning());
    if refusal.number == MAP_RULE {
        remark += &format!("{}\n", map.form.reason());
    }
    Output::refused(format!("{refusal}\n"), remark)
}

pub fn plan(asked: &Launch, map: &Map, begun: &Begun, plan: &[u8]) -> Output {
    let pages = tdload::pages(plan, begun.pages);
    Output::accepted(if asked.json {
        plan_object(launch_object(true, map), begun, pages)
    } else {
        plan_listing(begun, pages)
    })
}

pub fn handoff(asked: &Launch, map: &Map, begun: &Begun, hob: &[u8]) -> Result<Output, Failure> {
    let list = hob.get(..begun.hob_length).and_then(hob::read);
    let list = list.ok_or_else(|| Failure::new("the library's hand-off list cannot be read".into()))?;
    Ok(Output::accepted(if asked.json {
        hob_object(launch_object(true, map), begun, &list)
    } else {
        hob_table(begun, &list)
    }))
}

pub fn measurement(asked: &Launch, map: &Map, blocks: u64, measurement: &[u8]) -> Output {
    let digits: String = measurement.iter().map(|byte| format!("{byte:02x}")).collect();
    Output::accepted(if asked.json {
        launch_object(true, map).value("blocks", blocks).text("measurement", &digits).finish() + "\n"
    } else {
        digits + "\n"
    })
}

pub fn converted(asked: &Conversion, map: &Map) -> Output {
    let (records, bytes) = (map.bytes.len() / RECORD_SIZE, map.bytes.len());
    Output::accepted(if asked.json {
        Object::new().value("records", records).value("bytes", bytes).finish() + "\n"
    } else {
        format!("records {records} bytes {bytes}\n")
    })
}

/// What every launch's object starts with.
fn launch_object(accepted: bool, map: &Map) -> Object {
    Object::new().value("accepted", accepted).text("map_form", map.form.name())
}

fn plan_listing(begun: &Begun, pages: impl Iterator<Item = Page>) -> String {
    let mut text = format!("pages {} hob {} blocks {}\n", begun.pages, begun.hob_length, begun.blocks);
    for page in pages {
        let Page { address, offset, length, sort, measured } = page;
        text += &format!("{address:016x} {offset} {length} {sort} {}\n", u8::from(measured));
    }
    text
}

fn plan_object(object: Object, begun: &Begun, pages: impl Iterator<Item = Page>) -> String {
    let records = pages.map(|page| {
        Object::new()
            .value("address", page.address)
            .value("offset", page.offset)
            .value("length", page.length)
            .value("type", page.sort)
            .value("measured", page.measured)
            .finish()
    });
    let counted = object
        .value("pages", begun.pages)
        .value("hob_length", begun.hob_length)
        .value("blocks", begun.blocks);
    counted.value("plan", array(records)).finish() + "\n"
}

fn hob_table(begun: &Begun, list: &List) -> String {
    let mut text = format!("hob {} pieces {} end {:#x}\n", begun.hob_length, list.pieces.len(), list.end);
    text += "start            end              length           type attributes what\n";
    for piece in &list.pieces {
        let Piece { start, length, resource_type, attributes } = piece;
        let (end, what) = (piece.end(), piece.meaning());
        text += &format!("{start:016x} {end:016x} {length:016x} {resource_type:>4} {attributes:>#10x} {what}\n");
    }
    text
}

fn hob_object(object: Object, begun: &Begun, list: &List) -> String {
    let pieces = list.pieces.iter().map(|piece| {
        Object::new()
            .value("start", piece.start)
            .value("end", piece.end())
            .value("length", piece.length)
            .value("resource_type", piece.resource_type)
            .value("attributes", piece.attributes)
            .text("what", piece.meaning())
            .finish()
    });
    object.value("hob_length", begun.hob_length).value("end", list.end).value("pieces", array(pieces)).finish() + "\n"
}
