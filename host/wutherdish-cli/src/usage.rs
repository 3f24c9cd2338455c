//! The commands and their options, and how they are used.

/// An option.
pub struct Opt {
    /// Its name.
    pub name: &'static str,
    /// What stands for its value in the help; none for one that has no value.
    pub value: Option<&'static str>,
    /// What it does.
    what: &'static str,
}

/// A command.
pub struct Command {
    /// Its name.
    pub name: &'static str,
    /// What it takes besides options that may lack.
    takes: &'static str,
    /// What it does.
    what: &'static str,
    options: &'static [&'static Opt],
}

/// Explains the last point alone.
pub const LAST: Opt = Opt { name: "--last", value: None, what: "explains the last point alone" };
/// Says all faults.
pub const TRAIL: Opt = Opt {
    name: "--trail",
    value: None,
    what: "of cases of judging: says all faults of a point, in the order in which the rules fired,\n\
           each with the entry of the list that set it",
};
/// Says what the network can force.
pub const FORCE: Opt = Opt {
    name: "--force",
    value: None,
    what: "of cases of judging: says between which reasons the network chooses by the order in which\n\
           the entries of the list arrive, or which one the author forces",
};
/// The book's size.
pub const ROOM: Opt = Opt {
    name: "--room",
    value: Some("BYTES"),
    what: "the size of the book that a feed is offered to, 47 to 16777216; else it begins\n\
           with tally's 65536 and grows as the feed needs it",
};
/// Where the book goes.
pub const BOOK: Opt =
    Opt { name: "--book", value: Some("FILE"), what: "writes the book's bytes to FILE, as the feed leaves it" };
/// Whole ids.
pub const FULL_IDS: Opt = Opt {
    name: "--full-ids",
    value: None,
    what: "writes ids whole; else by their first four bytes, and by last ones where these are alike",
};
/// Progress.
pub const PROGRESS: Opt = Opt {
    name: "--progress",
    value: None,
    what: "says on standard error how far a file is read, also where that is no terminal",
};
/// The arrangement that records are brought to.
pub const TO: Opt = Opt {
    name: "--to",
    value: Some("NAME"),
    what: "what records are converted to: columns, which have the peers of a map first and which\n\
           all other commands read, or pairs of peer and digest, as before format 2",
};
/// The feed that a point is appended to.
pub const APPEND: Opt = Opt {
    name: "--append",
    value: Some("FEED"),
    what: "appends the point to the file FEED, a feed, as an offer, and writes nothing else",
};
/// The leader flag of an offer.
pub const LEADER: Opt =
    Opt { name: "--leader", value: None, what: "with --append: the point's author leads its round" };
/// Where the output goes.
pub const OUTPUT: Opt = Opt { name: "-o", value: Some("FILE"), what: "writes to FILE, not to standard output" };
/// How it is used.
pub const HELP: Opt = Opt { name: "--help", value: None, what: "says how the command is used; -h does too" };
/// Which version it is.
pub const VERSION: Opt =
    Opt { name: "--version", value: None, what: "says which version this is, and which library it uses" };

static OPTIONS: [&Opt; 13] =
    [&LAST, &TRAIL, &FORCE, &ROOM, &BOOK, &FULL_IDS, &PROGRESS, &APPEND, &LEADER, &TO, &OUTPUT, &HELP, &VERSION];

static COMMANDS: [Command; 8] = [
    Command {
        name: "explain",
        takes: "FILE",
        what: "what each point of a feed or case of a file is found to be, and why; or what a point record says",
        options: &[&LAST, &TRAIL, &FORCE, &ROOM, &BOOK, &FULL_IDS, &PROGRESS],
    },
    Command {
        name: "show",
        takes: "FILE",
        what: "a book, or the book that a feed leaves, as a picture (SVG)",
        options: &[&OUTPUT, &ROOM, &PROGRESS],
    },
    Command {
        name: "tally",
        takes: "[FILE]",
        what: "document 01's tally: a line of numbers for each point of a feed",
        options: &[&PROGRESS],
    },
    Command {
        name: "compose",
        takes: "FILE",
        what: "the record of the point that a text tells of, as `explain --full-ids` tells what a record says",
        options: &[&APPEND, &LEADER, &OUTPUT],
    },
    Command {
        name: "convert",
        takes: "--to NAME FILE",
        what: "the bytes of a feed, or of point records one after the other, with each record converted",
        options: &[&TO, &OUTPUT],
    },
    Command {
        name: "drill",
        takes: "[NAME]",
        what: "the drills by name, or the bytes of one of them",
        options: &[&OUTPUT],
    },
    Command { name: "demo", takes: "", what: "the bytes of the drill `demo`, a feed", options: &[&OUTPUT] },
    Command { name: "help", takes: "[COMMAND]", what: "how the commands are used, or one of them", options: &[] },
];

const END: &str = "
FILE is a file's name, or - for standard input (tally's default). The value of an option stands after
it, or after = as in --room=4000; after -- there are no options. No command writes over its input;
--append adds to FEED.

Exit code: 0 done, whatever the verdicts; 1 a file can't be read or written, or its bytes are not
what they should be; 2 wrong usage; 141 nobody reads the output any more.
";

/// The option of a name.
pub fn option(name: &str) -> Option<&'static Opt> {
    let name = if name == "-h" { HELP.name } else { name };
    OPTIONS.into_iter().find(|option| option.name == name)
}

/// The command of a name.
pub fn command(name: &str) -> Option<&'static Command> {
    COMMANDS.iter().find(|command| command.name == name)
}

/// How a command is used.
pub fn of_command(command: &Command) -> String {
    let mut text = usage(command, "");
    if !command.options.is_empty() {
        text.push('\n');
    }
    command.options.iter().for_each(|option| add_option(&mut text, option));
    text + END
}

/// How all commands are used.
pub fn of_all() -> String {
    let mut text = "wutherdish: verdicts on Tycho points in words, and books as pictures\n\n".to_owned();
    COMMANDS.iter().for_each(|command| text += &usage(command, "  "));
    text.push('\n');
    OPTIONS.iter().for_each(|option| add_option(&mut text, option));
    text + END
}

/// A command's first lines.
fn usage(command: &Command, indent: &str) -> String {
    let mut line = format!("{indent}wutherdish {}", command.name);
    let may_lack = command.options.iter().filter(|option| !command.takes.starts_with(option.name));
    let options = may_lack.map(|option| format!("[{}]", spelled(option)));
    let words = Some(command.takes.to_owned()).filter(|takes| !takes.is_empty()).into_iter().chain(options);
    words.for_each(|word| line += &format!(" {word}"));
    format!("{line}\n{indent}    {}\n", command.what)
}

/// An option and what stands for its value.
fn spelled(option: &Opt) -> String {
    option.value.map_or(option.name.to_owned(), |value| format!("{} {value}", option.name))
}

fn add_option(text: &mut String, option: &Opt) {
    let what = option.what.replace('\n', &format!("\n{:17}", ""));
    *text += &format!("  {:15}{what}\n", spelled(option));
}
