//! What each command does.

use std::ffi::{OsStr, OsString};
use std::io::{self, IsTerminal};

use wutherdish::{Book, Point, Refusal, Unreadable};

use crate::arrangement::Arrangement;
use crate::cases::Cases;
use crate::convert::{convert_feed, convert_records};
use crate::explain::Explain;
use crate::feed::Feed;
use crate::files::{Identity, write_file};
use crate::ids::Ids;
use crate::input::{Input, Kind};
use crate::names::Names;
use crate::output::{Output, print, write};
use crate::picture;
use crate::problem::{Problem, remark, shown};
use crate::progress::Progress;
use crate::room::Room;
use crate::summary::Summary;
use crate::tally::print_lines;
use crate::usage;
use crate::words::Words;

/// How `explain` is to go about it.
pub struct Explaining {
    /// The book's size; none for a book that grows.
    pub room: Option<usize>,
    /// Where the book's bytes go.
    pub book: Option<OsString>,
    /// Whether ids are written whole.
    pub full_ids: bool,
    /// Whether the last point alone is explained.
    pub last: bool,
    /// Whether all faults are said that judging finds.
    pub trail: bool,
    /// Whether it is said what the network can force.
    pub force: bool,
    /// Whether progress is shown in any case.
    pub progress: bool,
}

/// What each point of a feed or of a file of cases is found to be, or what a point record says.
pub fn explain(file: &OsStr, options: &Explaining) -> Result<(), Problem> {
    let mut out = Output::new(options.book.is_some())?;
    let input = Input::read(file)?;
    keep_apart(&input, options.book.as_deref())?;
    let kind = input.kind()?;
    let asked = [(options.trail, usage::TRAIL), (options.force, usage::FORCE)];
    if let Some((_, option)) = asked.iter().find(|(is_given, _)| *is_given && kind != Kind::Cases) {
        let what = format!("{} is no file of cases, and {} is for cases of judging", input.name, option.name);
        return Err(Problem::Usage(what));
    }
    let bad = match (kind, &options.book) {
        (Kind::Cases, None) => {
            let ids = || Ids::of_cases(Cases::new(&input.bytes));
            explaining(&input, options, ids, &mut out).cases(Cases::new(&input.bytes), options.trail, options.force)?
        }
        (Kind::Record, None) => {
            let point = Point::try_from(&input.bytes[..]).map_err(|unreadable| input.bad(unreadable))?;
            explaining(&input, options, || Ids::of_point(&point), &mut out).record(&point)?;
            None
        }
        (Kind::Cases, Some(_)) => return Err(leaves_no_book(&input, "a file of cases")),
        (Kind::Record, Some(_)) => return Err(leaves_no_book(&input, "a point record")),
        (Kind::Feed | Kind::Book, book) => {
            let feed = feed(&input)?;
            let mut room = opened(&input, &feed, options.room)?;
            let bad = explaining(&input, options, || Ids::of_feed(&feed), &mut out).feed(&feed, &mut room)?;
            book.as_ref().map_or(Ok(()), |book| write_file(book, room.book().bytes()))?;
            bad
        }
    };
    out.finish()?;
    bad.map_or(Ok(()), |unreadable| Err(input.bad(unreadable)))
}

fn leaves_no_book(input: &Input, what: &str) -> Problem {
    Problem::Usage(format!("{} is {what}, which leaves no book", input.name))
}

/// Refuses to write words or book over the input, or the book over the words.
fn keep_apart(input: &Input, book: Option<&OsStr>) -> Result<(), Problem> {
    input.spare(None)?;
    let Some(book) = book else { return Ok(()) };
    input.spare(Some(("--book", book)))?;
    match Identity::is_output(book) {
        true => Err(Problem::Usage(format!("--book {} would write over the words", shown(book)))),
        false => Ok(()),
    }
}

fn explaining<'a>(
    input: &Input,
    options: &Explaining,
    ids: impl FnOnce() -> Ids,
    out: &'a mut Output,
) -> Explain<'a, Output> {
    let progress = Progress::new(input.bytes.len(), options.progress, io::stdout().is_terminal());
    let names = if options.full_ids { Names::default() } else { Names::new(ids()) };
    Explain { words: Words { names }, last: options.last, progress, out }
}

/// A book that is to be shown.
struct Shown {
    book: Book<Vec<u8>>,
    /// What is said of it beside how many points it keeps.
    title: String,
    /// The ids of the feed that filled it, if one did.
    ids: Option<Ids>,
    /// What of the feed can't be read.
    bad: Option<Unreadable>,
}

/// A book, or the book that a feed leaves, as a picture.
pub fn show(file: &OsStr, room: Option<usize>, output: Option<&OsStr>, progress: bool) -> Result<(), Problem> {
    let input = Input::read(file)?;
    input.spare(output.map(|output| ("-o", output)))?;
    let Shown { book, title, ids, bad } = match input.kind()? {
        Kind::Book => found(&input)?,
        Kind::Feed => fed(&input, room, progress)?,
        Kind::Cases => return Err(Problem::file(&input.name, "a file of cases, which leaves no book to show")),
        Kind::Record => return Err(Problem::file(&input.name, "a point record, which leaves no book to show")),
    };
    let unreadable = |unreadable| input.bad(unreadable);
    let (settings, kept) = (book.settings().map_err(unreadable)?, book.kept().map_err(unreadable)?);
    let words = Words { names: Names::new(ids.unwrap_or_else(|| Ids::of_book(&settings, &kept))) };
    let title = format!("Points kept: {}{title}", kept.len());
    let lines = [Summary::of_kept(&kept).to_string(), words.settings(&settings)];
    let picture = picture::draw((&settings, &kept), &title, &lines, &words.names);
    write(output, picture.as_bytes())?;
    bad.map_or(Ok(()), |unreadable| Err(input.bad(unreadable)))
}

/// A book that was stored. An offer tests first whether it is one, and a schedule of no bytes then refuses the offer.
fn found(input: &Input) -> Result<Shown, Problem> {
    let mut book = Book::found(input.bytes.clone());
    book.kept().map_err(|unreadable| input.bad(unreadable))?;
    match book.offer(&[], 0, &[]) {
        Err(Refusal::Schedule) => Ok(Shown { book, title: String::new(), ids: None, bad: None }),
        Err(refusal) => Err(Problem::file(&input.name, refusal)),
        Ok(_) => Err(Problem::file(&input.name, Refusal::Foreign(0))),
    }
}

/// The book that a feed leaves.
fn fed(input: &Input, room: Option<usize>, progress: bool) -> Result<Shown, Problem> {
    let mut progress = Progress::new(input.bytes.len(), progress, false);
    let feed = feed(input)?;
    let (mut room, mut offered, mut bad) = (opened(input, &feed, room)?, 0, None);
    for offer in feed.offers() {
        match offer {
            Ok(offer) => {
                // what it keeps says the rest
                let _ = room.offer(&feed, &offer);
                offered = offer.place;
                progress.show(offer.place, offer.end);
            }
            Err(unreadable) => bad = Some(unreadable),
        }
    }
    drop(progress);
    let title = format!(" of {offered} offered{}", refused(&room));
    Ok(Shown { book: room.into_book(), title, ids: Some(Ids::of_feed(&feed)), bad })
}

/// What the picture says of points that were refused for lack of room; how to get more is said on standard error.
fn refused(room: &Room) -> String {
    if room.refused() == 0 {
        return String::new();
    }
    room.note().iter().for_each(|note| remark(note));
    format!(", {} refused for lack of room", room.refused())
}

/// Document 01's tally.
pub fn tally(file: &OsStr, progress: bool) -> Result<(), Problem> {
    let mut out = Output::new(false)?;
    let input = Input::read(file)?;
    input.spare(None)?;
    let mut progress = Progress::new(input.bytes.len(), progress, io::stdout().is_terminal());
    print_lines(&input.bytes, &mut progress, &mut out).map_err(|error| Problem::output(&error))?;
    out.finish()
}

/// A feed or a file of records, converted. Where a record can't be read, nothing is written.
pub fn convert(file: &OsStr, to: Arrangement, output: Option<&OsStr>) -> Result<(), Problem> {
    not_for_terminal("converted records are", output)?;
    let input = Input::read(file)?;
    input.spare(output.map(|output| ("-o", output)))?;
    let converted = match input.kind()? {
        Kind::Record => convert_records(&input.bytes, to),
        Kind::Feed => convert_feed(&feed(&input)?, to),
        Kind::Book => return Err(Problem::file(&input.name, "a book, which is not converted but begun anew")),
        Kind::Cases => return Err(Problem::file(&input.name, "a file of cases, which is not converted")),
    };
    write(output, &converted.map_err(|bad| Problem::file(&input.name, bad))?)
}

/// Refuses to write bytes to a terminal.
pub fn not_for_terminal(what: &str, output: Option<&OsStr>) -> Result<(), Problem> {
    match output.is_none() && io::stdout().is_terminal() {
        true => Err(Problem::Usage(format!(
            "{what} bytes, not for a terminal: name a file with -o, or send them elsewhere"
        ))),
        false => Ok(()),
    }
}

/// The drills by name.
pub fn drills() -> Result<(), Problem> {
    let drills = wutherdish_drills::all();
    let width = drills.iter().map(|drill| drill.name.len()).max().unwrap_or(0);
    let lines: String = drills.iter().map(|drill| format!("{:width$}  {}\n", drill.name, drill.what)).collect();
    print(lines.as_bytes())
}

/// The bytes of a drill.
pub fn drill(name: &OsStr, output: Option<&OsStr>) -> Result<(), Problem> {
    let Some(drill) = name.to_str().and_then(wutherdish_drills::named) else {
        let what = format!("no drill is called {}; `wutherdish drill` lists them", shown(name));
        return Err(Problem::Usage(what));
    };
    not_for_terminal("a drill is", output)?;
    write(output, drill.input.bytes())
}

/// How the commands are used, or one of them.
pub fn help(command: Option<&OsStr>) -> Result<(), Problem> {
    let text = match command {
        None => usage::of_all(),
        Some(name) => usage::of_command(name.to_str().and_then(usage::command).ok_or_else(|| no_command(name))?),
    };
    print(text.as_bytes())
}

/// The problem that there is no such command.
pub fn no_command(name: &OsStr) -> Problem {
    Problem::Usage(format!("{} is no command", shown(name)))
}

/// Which version this is, and which library it uses.
pub fn version() -> Result<(), Problem> {
    print(format!("wutherdish {}\nlibrary {}\n", env!("CARGO_PKG_VERSION"), wutherdish::version()).as_bytes())
}

/// The feed that a file is.
pub fn feed(input: &Input) -> Result<Feed<'_>, Problem> {
    Feed::read(&input.bytes).map_err(|unreadable| match input.kind() {
        Ok(Kind::Book) => Problem::file(&input.name, format!("{unreadable}; it may be a book, which `show` takes")),
        _ => input.bad(unreadable),
    })
}

fn opened(input: &Input, feed: &Feed<'_>, size: Option<usize>) -> Result<Room, Problem> {
    Room::open(feed.settings, size).map_err(|refusal| Problem::file(&input.name, format!("byte 0: {refusal}")))
}
