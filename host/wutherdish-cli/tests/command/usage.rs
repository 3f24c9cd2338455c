//! Exit codes and messages.

use wutherdish::{Refusal, SETTINGS, Schedule, Settings, Unreadable};

use crate::run::{done, drill, fed, run, scratch, shell};

/// Wrong usage: what is wrong, and where to find help.
fn assert_usage(arguments: &[&str], wanted: &str) {
    let ran = fed(arguments, &drill("invalid-02"));
    assert_eq!((ran.code, &ran.out[..]), (Some(2), ""), "{arguments:?}");
    assert!(ran.err.starts_with("wutherdish: ") && ran.err.contains(wanted), "{arguments:?}: {}", ran.err);
    assert!(ran.err.ends_with("`wutherdish help` says how it is used\n"), "{arguments:?}: {}", ran.err);
}

#[test]
fn wrong_usage_is_2() {
    assert_usage(&[], "a command is missing");
    assert_usage(&["explian"], "explian is no command");
    assert_usage(&["explain"], "a file is missing");
    assert_usage(&["show"], "a file is missing");
    assert_usage(&["explain", "-", "more"], "more is one argument too many");
    assert_usage(&["tally", "-", "more"], "more is one argument too many");
    assert_usage(&["explain", "-", "--fullids"], "--fullids is no option here");
    assert_usage(&["--fullids", "explain", "-"], "--fullids is no option here");
    assert_usage(&["tally", "--full-ids"], "--full-ids is no option here");
    assert_usage(&["explain", "-", "--book"], "--book needs a value");
    assert_usage(&["explain", "-", "--book="], "--book needs a value");
    assert_usage(&["explain", "-", "--last=yes"], "--last takes no value");
    assert_usage(&["explain", "-", "--fullids=yes"], "--fullids is no option here");
    assert_usage(&["explain", "-", "--room", "100", "--room=100"], "--room stands twice");
    assert_usage(&["explain", "-", "--last", "--last"], "--last stands twice");
    assert_usage(&["show", "-", "--book=x"], "--book is no option here");
    assert_usage(&["explain", "--", "-", "--last"], "--last is one argument too many");
    assert_usage(&["--", "--help"], "--help is no command");
    assert_usage(&["help", "explian"], "explian is no command");
    assert_usage(&["explian", "--help"], "explian is no command");
    assert_usage(&["help", "explain", "show"], "show is one argument too many");
    assert_usage(&["--version", "explain"], "explain is one argument too many");
    assert_usage(&["explain", "-", "--book", "x"], "standard input is a file of cases, which leaves no book");
    assert_usage(&["drill", "no-such-drill"], "no drill is called no-such-drill");
    assert_usage(&[""], "\"\" is no command");
    assert_usage(&["drill", ""], "no drill is called \"\"");
    assert_usage(&["explain", "-", "a\nb"], r#""a\nb" is one argument too many"#);
    assert_usage(&["drill", "-o", "x"], "-o needs the name of a drill");
    for to in [&[][..], &["--to", "rows"], &["--to=Pairs"]] {
        let wanted = "--to columns or --to pairs says what records are converted to";
        assert_usage(&[&["convert", "-"], to].concat(), wanted);
    }
    assert_usage(&["convert", "--to", "pairs"], "a file is missing");
    assert_usage(&["compose"], "a file is missing");
    assert_usage(&["compose", "-", "--leader"], "--leader is said of an offer, and needs --append");
    assert_usage(&["compose", "-", "--append", "x", "-o", "y"], "-o has no use beside --append");
    assert_usage(&["tally", "--to", "pairs"], "--to is no option here");
    for room in ["46", "16777217", "-1", "many", " 100"] {
        assert_usage(&["explain", "-", "--room", room], "--room needs a number from 47 to 16777216");
        assert_usage(&["explain", "-", &format!("--room={room}")], "--room needs a number from 47 to 16777216");
    }
    assert_usage(&["explain", "-", "--room", ""], "--room needs a value");
}

#[test]
fn values_after_an_equals_sign() {
    let (feed, [file, other]) = (drill("demo"), ["equals.book", "other=equals.book"].map(scratch));
    let out = done(&["explain", "-", "--room", "4000", "--book", &file], &feed);
    assert_eq!(done(&["explain", "-", "--room=4000", &format!("--book={other}")], &feed), out);
    assert_eq!(std::fs::read(&file).expect("it is written"), std::fs::read(&other).expect("it is written"));
}

#[test]
fn after_two_dashes_there_are_no_options() {
    let folder = scratch("dashes");
    let _ = std::fs::remove_dir_all(&folder);
    std::fs::create_dir(&folder).expect("the folder is made");
    std::fs::write(format!("{folder}/--last"), drill("demo")).expect("it is written");
    let script = format!("cd '{folder}' && exec \"$0\" \"$@\"");
    let expected = done(&["explain", "-"], &drill("demo"));
    for arguments in [&["explain", "--", "--last"][..], &["--", "explain", "--last"]] {
        let ran = shell(&script, arguments, &[]);
        assert_eq!((ran.code, &ran.out, &ran.err[..]), (Some(0), &expected, ""), "{arguments:?}");
    }
    assert_eq!(done(&["explain", "--", "-"], &drill("demo")), expected);
    let ran = shell(&script, &["explain", "--last", "--", "--last"], &[]);
    assert_eq!(ran.out, done(&["explain", "--last", "-"], &drill("demo")));
}

#[test]
fn help_and_version() {
    let help = done(&["help"], &[]);
    let commands =
        ["explain FILE", "show FILE", "tally [FILE]", "compose FILE", "convert --to NAME FILE", "drill [NAME", "demo"];
    for words in commands.into_iter().chain(["--version", "Exit code"]) {
        assert!(help.contains(words), "{words}");
    }
    for option in [
        "--trail",
        "--force",
        "--room",
        "--book",
        "--full-ids",
        "--progress",
        "--append",
        "--leader",
        "--to",
        "-o",
        "--help",
        "--version",
    ] {
        assert!(help.contains(&format!("\n  {option} ")), "{option}");
    }
    assert!(help.lines().all(|line| line.chars().count() <= 110), "{help}");
    for arguments in [&["--help"][..], &["-h"]] {
        assert_eq!(done(arguments, &[]), help);
    }
    let version = done(&["--version"], &[]);
    assert_eq!(version, concat!("wutherdish ", env!("CARGO_PKG_VERSION"), "\nlibrary 0.1, format 2, ABI 1\n"));
}

#[test]
fn help_for_one_command() {
    let options =
        ["--last", "--trail", "--force", "--room", "--book", "--full-ids", "--progress", "--append", "--leader", "-o"];
    let commands = [
        ("explain", &["--last", "--trail", "--force", "--room", "--book", "--full-ids", "--progress"][..]),
        ("show", &["--room", "--progress", "-o"]),
        ("tally", &["--progress"]),
        ("compose", &["--append", "--leader", "-o"]),
        ("convert", &["-o"]),
        ("drill", &["-o"]),
        ("demo", &["-o"]),
        ("help", &[]),
    ];
    let all = done(&["help"], &[]);
    for (command, has) in commands {
        let help = done(&["help", command], &[]);
        assert!(help.starts_with(&format!("wutherdish {command}")) && help.contains("Exit code"), "{help}");
        assert_eq!(help.matches("\nwutherdish ").count(), 0, "{help}");
        for option in options {
            assert_eq!(help.contains(&format!("\n  {option} ")), has.contains(&option), "{command} {option}");
            assert_eq!(
                help.lines().next().is_some_and(|line| line.contains(&format!("[{option}"))),
                has.contains(&option)
            );
        }
        assert!(all.contains(help.lines().next().expect("it has a line")), "{help}");
        for arguments in [&[command, "--help"][..], &[command, "-h"], &["--help", command], &[command, "x", "--help"]] {
            assert_eq!(done(arguments, &[]), help, "{arguments:?}");
        }
    }
    let help = done(&["help", "convert"], &[]);
    assert!(
        help.starts_with("wutherdish convert --to NAME FILE [-o FILE]\n") && help.contains("\n  --to NAME "),
        "{help}"
    );
}

/// A file that is not what it should be: its name, and what is wrong.
fn assert_bad(arguments: &[&str], input: &[u8], wanted: &str) {
    let ran = fed(arguments, input);
    assert_eq!((ran.code, &ran.err[..]), (Some(1), &format!("wutherdish: {wanted}\n")[..]), "{arguments:?}");
    assert!(!ran.out.contains("<svg"), "{arguments:?}");
}

#[test]
fn bad_input_is_1() {
    let neither = "standard input: byte 0: expected a feed or a book (tag 32), a point record (tag 1), or a case (1, 2 or 16 to 20)";
    for command in ["explain", "show"] {
        assert_bad(&[command, "-"], &[], neither);
        assert_bad(&[command, "-"], b"text", neither);
        let short = [32, 44, 0, 1];
        let unreadable = Settings::read(&short).expect_err("that is too short");
        assert_bad(&[command, "-"], &short, &format!("standard input: {unreadable}"));
        let outside = format!("standard input: byte 0: {}", Refusal::Settings);
        assert_bad(&[command, "-"], &drill("number-01"), &outside);
        let ran = run(&[command, "no/such/file"]);
        assert_eq!((ran.code, &ran.out[..]), (Some(1), ""));
        assert!(ran.err.starts_with("wutherdish: no/such/file: "), "{}", ran.err);
        assert!(run(&[command, ""]).err.starts_with("wutherdish: \"\": "), "{command}");
    }
    assert_bad(&["show", "-"], &drill("invalid-02"), "standard input: a file of cases, which leaves no book to show");
}

#[test]
fn a_schedule_that_cannot_be_read_is_named_by_its_place() {
    let feed = drill("number-02");
    let unreadable = Schedule::read(&feed[SETTINGS..]).expect_err("its last byte is missing");
    // tag, length and three bytes of the last field
    let unreadable = Unreadable { at: feed.len() - 6, ..unreadable };
    assert_bad(&["explain", "-"], &feed, &format!("standard input: {unreadable}"));
    assert_bad(&["show", "-"], &feed, &format!("standard input: {unreadable}"));
}

#[test]
fn what_cannot_be_written_is_1() {
    for arguments in [&["demo", "-o"][..], &["drill", "valid", "-o"], &["show", "-", "-o"], &["explain", "-", "--book"]]
    {
        let ran = fed(&[arguments, &["no/such/folder/file"]].concat(), &drill("demo"));
        assert_eq!(ran.code, Some(1), "{arguments:?}");
        assert!(ran.err.starts_with("wutherdish: no/such/folder/file: "), "{arguments:?}: {}", ran.err);
    }
}

#[test]
fn drills_are_listed_and_written() {
    let list = done(&["drill"], &[]);
    let drills = wutherdish_drills::all();
    assert_eq!(list.lines().count(), drills.len());
    for (line, drill) in list.lines().zip(drills) {
        assert!(line.starts_with(drill.name) && line.ends_with(drill.what), "{line}");
        let file = scratch(&format!("drill-{}", drill.name));
        done(&["drill", drill.name, "-o", &file], &[]);
        assert_eq!(std::fs::read(&file).expect("it is written"), drill.input.bytes(), "{}", drill.name);
    }
    let file = scratch("demo.bin");
    done(&["demo", "-o", &file], &[]);
    assert_eq!(std::fs::read(&file).expect("it is written"), drill("demo"));
}
