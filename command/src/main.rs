//! `tdload`: shows what a launch of a firmware image comes to, or why it is refused. The answers are
//! those of the proved library; this program reads files and prints.

mod arguments;
mod help;
mod hob;
mod json;
mod map;
mod outcome;
mod progress;
mod report;
mod signals;
mod turns;

use std::env;
use std::fs;
use std::path::Path;
use std::process::ExitCode;

use arguments::{Command, Conversion, Launch, Request};
use outcome::{Failure, Output};

/// The longest image that rule 3 lets pass.
const LONGEST_IMAGE: u64 = 16_777_216;

fn main() -> ExitCode {
    let asked = arguments::parse(env::args_os().skip(1));
    let status = match asked.and_then(answer) {
        Ok(output) => output.deliver(),
        Err(failure) => failure.deliver(),
    };
    ExitCode::from(status)
}

fn answer(request: Request) -> Result<Output, Failure> {
    match request {
        Request::Help(command) => Ok(Output::accepted(help::of(command))),
        Request::Version => Ok(Output::accepted(format!("tdload {}\n", tdload::VERSION))),
        Request::Launch(launch) => try_launch(&launch),
        Request::Convert(conversion) => convert(&conversion),
    }
}

fn try_launch(asked: &Launch) -> Result<Output, Failure> {
    // Past the longest image one byte decides as much as all: the answer is refusal 3.
    let image = outcome::read_file(&asked.image, LONGEST_IMAGE + 1)?;
    let map = map::read(&asked.map)?;
    let mut plan = vec![0; tdload::PLAN_SIZE];
    let mut hob = vec![0; tdload::HOB_SIZE];
    let begun = match tdload::begin(&image, &map.bytes, asked.width, &mut plan, &mut hob) {
        Ok(begun) => begun,
        Err(refusal) => return Ok(report::refused(asked, &map, &refusal)),
    };
    match asked.command {
        Command::Plan => Ok(report::plan(asked, &map, &begun, &plan)),
        Command::Hob => report::handoff(asked, &map, &begun, &hob),
        // The measurement takes nearly all the time of a launch, and only here is it wanted.
        _ => {
            let measurement = turns::finish(begun.measuring, &image, &plan, !asked.quiet)?;
            Ok(report::measurement(asked, &map, begun.blocks, &measurement))
        }
    }
}

fn convert(asked: &Conversion) -> Result<Output, Failure> {
    let map = map::read(&asked.text)?;
    if map.form == map::Form::Binary {
        let why = "is not the text form of a map: it has a zero byte";
        return Err(Failure::new(format!("{:?} {why}", asked.text)));
    }
    if same_file(&asked.text, &asked.out) {
        let why = "is both TEXT and OUT: writing it would lose the text";
        return Err(Failure::new(format!("{:?} {why}", asked.out)));
    }
    fs::write(&asked.out, &map.bytes).map_err(|cause| outcome::cannot("write", &asked.out, &cause))?;
    Ok(report::converted(asked, &map))
}

/// Whether both paths lead to one file. A path that leads nowhere is no file yet.
fn same_file(one: &Path, other: &Path) -> bool {
    matches!((one.canonicalize(), other.canonicalize()), (Ok(a), Ok(b)) if a == b)
}
