//! The command `planner`.

mod command;
mod failure;
mod files;
mod terminal;

use std::ffi::{OsStr, OsString};
use std::io::IsTerminal;
use std::process::ExitCode;

use account::sheet::layout;
use command::{asked, Asked, Call};
use conformance::proved;
use failure::{Done, Failure};
use files::{Contents, Source, Target, PICTURE, PLAN, SHEET};
use planner::{at_thresholds, drawn_pair, picture, thresholds, thresholds_table, Drawing};
use planner::{check, contract, credit, listing, listing_at, print_events};
use planner::{minute_of, parse, parse_sheet};
use planner::{plan_reason, sheet_reason, warnings, windows_are};
use planner::{Checked, Fault, Named, Progress, Witness};
use plans::Lists;
use terminal::{print, tell};

fn main() -> ExitCode {
    let words: Vec<OsString> = std::env::args_os().skip(1).collect();
    let done = asked(&words).and_then(|asked| match asked {
        Asked::Help(text) => Ok(text.into()),
        Asked::Run(call) => run(&call),
    });
    let ended = done.and_then(|Done { text, status }| print(&text).map(|()| status));
    ExitCode::from(ended.unwrap_or_else(|Failure { status, message }| {
        tell(&message);
        status
    }))
}

/// What a command prints.
fn run(call: &Call) -> Result<Done, Failure> {
    match (call.name(), &call.operands[..]) {
        ("file", [from, to]) => write_file(call, from, to),
        ("text", [from]) => text_of(call, from),
        ("check", [from]) => check_of(call, from),
        ("listing", [from]) => listing_of(call, from),
        ("bounds", [from]) => bounds_of(call, from),
        ("thresholds", [from, words @ ..]) => thresholds_of(call, from, words),
        ("credit", [from, words @ ..]) => credit_of(call, from, words),
        ("sheet", [from, to]) => write_sheet(call, from, to),
        ("events", [from]) => events_of(call, from),
        _ => Err(call.wrong_operands()),
    }
}

/// What a plan in text form says.
fn read_text<T>(
    call: &Call,
    source: &Source,
    parse: fn(&str) -> Result<T, Fault>,
) -> Result<T, Failure> {
    match &source.contents {
        Contents::Text(text) => parse(text).map_err(|fault| source.refused(fault)),
        _ => Err(call.wrong_kind(source)),
    }
}

/// A plan file, by the proved reader.
fn read_file(call: &Call, source: &Source) -> Result<Named, Failure> {
    let Contents::Plan(bytes) = &source.contents else {
        return Err(call.wrong_kind(source));
    };
    let lists = proved::read(bytes).map_err(|number| refused_plan(source, number))?;
    let plan = lists.lent().plan().expect("a plan that was read");
    Ok(Named::by_number(plan))
}

/// A plan of either form.
fn read_any(call: &Call, source: &Source) -> Result<Named, Failure> {
    match &source.contents {
        Contents::Plan(_) => read_file(call, source),
        _ => read_text(call, source, parse),
    }
}

fn refused_plan(source: &Source, number: u32) -> Failure {
    source.refused(format!("refused {number}, {}", plan_reason(number)))
}

/// What is told of the windows of a plan where a command takes none.
const NOT_COUNTED: &str = "not counted: only listing --at takes windows";

/// Tells on standard error what becomes of the windows of a text, if it has any, and what the plan leaves perfect.
fn tell_plan(source: &Source, named: &Named, what: &str) {
    if let Some(windows) = windows_are(&named.windows) {
        tell(&format!("{}: {windows} {what}", source.name));
    }
    tell_perfect(source, named);
}

/// Tells on standard error what a plan leaves perfect.
fn tell_perfect(source: &Source, named: &Named) {
    for said in warnings(named) {
        tell(&format!("{}: warning: {said}", source.name));
    }
}

/// Writes the plan file of a text, by the proved writer.
fn write_file(call: &Call, from: &OsStr, to: &OsStr) -> Result<Done, Failure> {
    let source = Source::read(from)?;
    let named = read_text(call, &source, parse)?;
    let bytes =
        proved::write(&Lists::of(&named.plan)).map_err(|number| refused_plan(&source, number))?;
    Target::of(to, &PLAN, call.has("--force"), &source)?.write(&bytes)?;
    tell_plan(&source, &named, "left out: a plan file has no windows");
    Ok(Done::from(String::new()))
}

fn text_of(call: &Call, from: &OsStr) -> Result<Done, Failure> {
    let source = Source::read(from)?;
    let named = read_file(call, &source)?;
    Ok(Done::from(format!(
        "# From {}. A plan file holds no names: node, link and event i are n, l and e with i.\n{}",
        source.name,
        planner::print(&named)
    )))
}

/// What there is to say of a plan. Why it is refused is printed too, in place of the answer.
fn check_of(call: &Call, from: &OsStr) -> Result<Done, Failure> {
    let source = Source::read(from)?;
    let checked = read_any(call, &source)
        .and_then(|named| walked(&source, |progress| check(&named, progress)));
    let refused = |failure: Failure| Checked::refused(&source.name, &failure.message);
    let Checked { lines, clean } = checked.unwrap_or_else(refused);
    Ok(match clean {
        true => Done::from(lines),
        false => Done::with_warnings(lines),
    })
}

/// A listing of a plan, at a time of the week where one is given.
fn listing_of(call: &Call, from: &OsStr) -> Result<Done, Failure> {
    let minute = minute_asked(call)?;
    let [shown, left_out] = ["--witness", "--no-witness"].map(|option| call.has(option));
    let witness =
        Witness::of(shown, left_out, minute.is_some()).map_err(|wrong| call.usage(wrong))?;
    let source = Source::read(from)?;
    let named = read_any(call, &source)?;
    let text = walked(&source, |progress| match minute {
        Some(minute) => listing_at(&named, minute, progress),
        None => listing(&named, witness, progress),
    })?;
    tell_perfect(&source, &named);
    Ok(Done::from(text))
}

/// What is made by a walk, whose progress goes to standard error where that is a terminal.
fn walked<T>(
    source: &Source,
    made: impl FnOnce(&mut Progress) -> Result<T, u32>,
) -> Result<T, Failure> {
    let mut err = std::io::stderr();
    let mut progress = match err.is_terminal() {
        true => Progress::on(&mut err),
        false => Progress::unseen(),
    };
    made(&mut progress).map_err(|number| refused_plan(source, number))
}

/// The minute of the week after --at.
fn minute_asked(call: &Call) -> Result<Option<u64>, Failure> {
    let Some(words) = call.words("--at") else {
        return Ok(None);
    };
    let time = call.strings(words)?.join(" ");
    let minute = minute_of(&time).map_err(|wrong| call.usage(format!("--at: {wrong}")))?;
    Ok(Some(minute))
}

fn bounds_of(call: &Call, from: &OsStr) -> Result<Done, Failure> {
    let source = Source::read(from)?;
    let named = read_any(call, &source)?;
    let text = proved::plan_listing(&Lists::of(&named.plan));
    tell_plan(&source, &named, NOT_COUNTED);
    Ok(Done::from(text))
}

/// The table of a plan at thresholds. Where a picture is asked for, it is written too.
fn thresholds_of(call: &Call, from: &OsStr, words: &[OsString]) -> Result<Done, Failure> {
    let thresholds = thresholds(&call.strings(words)?).map_err(|wrong| call.usage(wrong))?;
    let drawing = drawing_asked(call)?;
    let source = Source::read(from)?;
    let named = read_any(call, &source)?;
    let target = drawing
        .map(|drawing| Target::of(drawing.file, &PICTURE, call.has("--force"), &source))
        .transpose()?;
    let all = at_thresholds(&named, &thresholds).map_err(Failure::refused)?;
    if let (Some(drawing), Some(target)) = (drawing, target) {
        let place = drawn_pair(&named, &drawing, &all).map_err(Failure::refused)?;
        target.write(picture(&source.name, &named, place, &all).as_bytes())?;
    }
    tell_plan(&source, &named, NOT_COUNTED);
    Ok(Done::from(thresholds_table(&named, &all)))
}

/// The picture that is asked for, if any. Only a picture has a pair and may be forced.
fn drawing_asked(call: &Call) -> Result<Option<Drawing<'_>>, Failure> {
    let Some([file]) = call.words("--svg") else {
        let alone = ["--pair", "--force"]
            .into_iter()
            .find(|option| call.has(option));
        return match alone {
            None => Ok(None),
            Some(option) => Err(call.usage(format!(
                "{option}: expected --svg FILE beside it; found none"
            ))),
        };
    };
    let nodes = call.strings(call.words("--pair").unwrap_or(&[]))?;
    let drawing = Drawing::of(file, &nodes).map_err(|wrong| call.usage(wrong))?;
    Ok(Some(drawing))
}

/// The credit of a contract for two nodes.
fn credit_of(call: &Call, from: &OsStr, words: &[OsString]) -> Result<Done, Failure> {
    let [first, second, fee, limit, rate] = call.strings(words)?[..] else {
        return Err(call.wrong_operands());
    };
    let contract = contract([fee, limit, rate]).map_err(|wrong| call.usage(wrong))?;
    let source = Source::read(from)?;
    let named = read_any(call, &source)?;
    let text = credit(&named, [first, second], &contract).map_err(Failure::refused)?;
    tell_plan(&source, &named, NOT_COUNTED);
    Ok(Done::from(text))
}

/// The events of an equipment sheet, by the proved reader.
fn read_sheet(source: &Source, bytes: &[u8]) -> Result<proved::SheetEvents, Failure> {
    proved::read_sheet(bytes)
        .map_err(|number| source.refused(format!("refused {number}, {}", sheet_reason(number))))
}

/// Writes the equipment sheet of a text, if the proved reader takes it.
fn write_sheet(call: &Call, from: &OsStr, to: &OsStr) -> Result<Done, Failure> {
    let source = Source::read(from)?;
    let both = |text: &str| Ok((parse_sheet(text)?, parse(text)?));
    let (sheet, named) = read_text(call, &source, both)?;
    let bytes = layout(&sheet);
    read_sheet(&source, &bytes)?;
    Target::of(to, &SHEET, call.has("--force"), &source)?.write(&bytes)?;
    tell_plan(&source, &named, "left out: a sheet has no windows");
    Ok(Done::from(String::new()))
}

fn events_of(call: &Call, from: &OsStr) -> Result<Done, Failure> {
    let source = Source::read(from)?;
    let Contents::Sheet(bytes) = &source.contents else {
        return Err(call.wrong_kind(&source));
    };
    let sheet = read_sheet(&source, bytes)?;
    Ok(Done::from(format!(
        "# From {}: {} nodes, {} links, {} events by falling q, which counts units of 10^-9.\n\
         # A sheet holds no names: node, link and event i are n, l and e with i.\n{}",
        source.name,
        sheet.nodes,
        sheet.links,
        sheet.events.len(),
        print_events(&sheet)
    )))
}
