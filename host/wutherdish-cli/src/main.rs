//! The command for node crews, trainers and reconcilers: verdicts in words, books as pictures.

mod arguments;
mod arrangement;
mod calls;
mod cases;
mod commands;
mod compose;
mod convert;
mod entries;
mod explain;
mod feed;
mod files;
mod ids;
mod input;
mod judging;
mod marks;
mod names;
mod output;
mod picture;
mod problem;
mod progress;
mod room;
mod spelling;
mod streams;
mod summary;
mod tally;
mod text;
mod usage;
mod words;

use std::ffi::{OsStr, OsString};
use std::process::ExitCode;

use arguments::Arguments;
use arrangement::Arrangement;
use problem::Problem;

fn main() -> ExitCode {
    match Arguments::read(std::env::args_os().skip(1)).and_then(run) {
        Ok(()) => ExitCode::SUCCESS,
        Err(problem) => problem.report(),
    }
}

fn run(mut arguments: Arguments) -> Result<(), Problem> {
    let wants_help = arguments.flag(&usage::HELP);
    if !wants_help && arguments.flag(&usage::VERSION) {
        arguments.done()?;
        return commands::version();
    }
    let Some(command) = arguments.next() else {
        return if wants_help { commands::help(None) } else { Err(Problem::Usage("a command is missing".into())) };
    };
    if wants_help {
        return commands::help(Some(&command));
    }
    match command.to_str() {
        Some("explain") => explain(arguments),
        Some("show") => show(arguments),
        Some("tally") => tally(arguments),
        Some("compose") => compose(arguments),
        Some("convert") => convert(arguments),
        Some("drill") => drill(arguments),
        Some("demo") => demo(arguments),
        Some("help") => help(arguments),
        _ => Err(commands::no_command(&command)),
    }
}

fn explain(mut arguments: Arguments) -> Result<(), Problem> {
    let options = commands::Explaining {
        room: room(&mut arguments)?,
        book: arguments.value(&usage::BOOK),
        full_ids: arguments.flag(&usage::FULL_IDS),
        last: arguments.flag(&usage::LAST),
        trail: arguments.flag(&usage::TRAIL),
        force: arguments.flag(&usage::FORCE),
        progress: arguments.flag(&usage::PROGRESS),
    };
    let file = file(&mut arguments)?;
    arguments.done()?;
    commands::explain(&file, &options)
}

fn show(mut arguments: Arguments) -> Result<(), Problem> {
    let (room, output) = (room(&mut arguments)?, arguments.value(&usage::OUTPUT));
    let progress = arguments.flag(&usage::PROGRESS);
    let file = file(&mut arguments)?;
    arguments.done()?;
    commands::show(&file, room, output.as_deref(), progress)
}

fn tally(mut arguments: Arguments) -> Result<(), Problem> {
    let progress = arguments.flag(&usage::PROGRESS);
    let file = arguments.next();
    arguments.done()?;
    commands::tally(file.as_deref().unwrap_or(OsStr::new("-")), progress)
}

fn compose(mut arguments: Arguments) -> Result<(), Problem> {
    let (output, feed) = (arguments.value(&usage::OUTPUT), arguments.value(&usage::APPEND));
    let is_leader = arguments.flag(&usage::LEADER);
    let file = file(&mut arguments)?;
    arguments.done()?;
    match (feed, output) {
        (None, _) if is_leader => Err(Problem::Usage("--leader is said of an offer, and needs --append".into())),
        (None, output) => compose::record(&file, output.as_deref()),
        (Some(feed), None) => compose::offer(&file, &feed, is_leader),
        (Some(_), Some(_)) => Err(Problem::Usage("-o has no use beside --append".into())),
    }
}

fn convert(mut arguments: Arguments) -> Result<(), Problem> {
    let (to, output) = (arrangement(&mut arguments)?, arguments.value(&usage::OUTPUT));
    let file = file(&mut arguments)?;
    arguments.done()?;
    commands::convert(&file, to, output.as_deref())
}

fn drill(mut arguments: Arguments) -> Result<(), Problem> {
    let output = arguments.value(&usage::OUTPUT);
    let name = arguments.next();
    arguments.done()?;
    match (name, output) {
        (Some(name), output) => commands::drill(&name, output.as_deref()),
        (None, None) => commands::drills(),
        (None, Some(_)) => Err(Problem::Usage("-o needs the name of a drill".into())),
    }
}

fn demo(mut arguments: Arguments) -> Result<(), Problem> {
    let output = arguments.value(&usage::OUTPUT);
    arguments.done()?;
    commands::drill(OsStr::new("demo"), output.as_deref())
}

fn help(mut arguments: Arguments) -> Result<(), Problem> {
    let command = arguments.next();
    arguments.done()?;
    commands::help(command.as_deref())
}

fn file(arguments: &mut Arguments) -> Result<OsString, Problem> {
    arguments.next().ok_or_else(|| Problem::Usage("a file is missing".into()))
}

/// The arrangement that records are brought to. There is no other way to tell which one they have.
fn arrangement(arguments: &mut Arguments) -> Result<Arrangement, Problem> {
    let value = arguments.value(&usage::TO);
    let wanted = "--to columns or --to pairs says what records are converted to";
    value.as_deref().and_then(Arrangement::named).ok_or_else(|| Problem::Usage(wanted.into()))
}

/// The book's size. The calls refuse another one.
fn room(arguments: &mut Arguments) -> Result<Option<usize>, Problem> {
    let Some(value) = arguments.value(&usage::ROOM) else { return Ok(None) };
    let size = value.to_str().and_then(|digits| digits.parse().ok()).filter(|size| room::SIZES.contains(size));
    match size {
        Some(size) => Ok(Some(size)),
        None => Err(Problem::Usage("--room needs a number from 47 to 16777216".into())),
    }
}
