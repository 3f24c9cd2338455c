//! Standard input and output that are closed or fail, and progress.

use std::io::{PipeWriter, Read, Write};
use std::time::Instant;

use crate::compose::told;
use crate::record::{proof, record};
use crate::run::{command, done, drill, fed, scratch, shell, split_front};

/// The genesis point, offered again and again.
fn long_feed() -> Vec<u8> {
    let feed = drill("valid");
    let (front, point) = split_front(&feed);
    [front, &point.repeat(20_000)].concat()
}

/// The exit code of a command whose output nobody reads.
const CLOSED: i32 = 141;

/// A pipe that nobody reads.
fn closed_pipe() -> PipeWriter {
    std::io::pipe().expect("there is a pipe").1
}

/// Runs the command on an input, which it need not read; what it writes goes into the pipe.
fn assert_closed(arguments: &[&str], out: PipeWriter, input: &[u8]) {
    let mut child = command(arguments).stdout(out).spawn().expect("the command starts");
    let _ = child.stdin.take().expect("its input is a pipe").write_all(input);
    let output = child.wait_with_output().expect("the command ends");
    assert_eq!((output.status.code(), &output.stderr[..]), (Some(CLOSED), &b""[..]), "{arguments:?}");
}

/// The commands that write to standard output.
const TELLING: [&[&str]; 9] = [
    &["explain", "-"],
    &["show", "-"],
    &["tally"],
    &["convert", "--to=pairs", "-"],
    &["compose", "-"],
    &["demo"],
    &["drill"],
    &["help"],
    &["--version"],
];

/// What such a command is fed.
fn input(arguments: &[&str]) -> Vec<u8> {
    if arguments[0] == "compose" { told(&record(&proof())).into_bytes() } else { drill("demo") }
}

#[test]
fn a_closed_pipe_ends_it_quietly() {
    for arguments in TELLING {
        assert_closed(arguments, closed_pipe(), &input(arguments));
    }
    // one that is closed after its first bytes
    for arguments in [&["explain", "-"][..], &["tally"]] {
        let (mut reader, writer) = std::io::pipe().expect("there is a pipe");
        let reading = std::thread::spawn(move || reader.read_exact(&mut [0; 10]));
        assert_closed(arguments, writer, &long_feed());
        reading.join().expect("it ends").expect("it begins");
    }
}

#[test]
fn the_book_is_written_though_nobody_reads_the_words() {
    let (feed, [read, closed, full]) = (long_feed(), ["read.book", "closed.book", "full.book"].map(scratch));
    done(&["explain", "-", "--book", &read], &feed);
    assert_closed(&["explain", "-", "--book", &closed], closed_pipe(), &feed);
    let ran = shell("exec \"$0\" \"$@\" >/dev/full", &["explain", "-", "--book", &full], &feed);
    assert_eq!((ran.code, &ran.err[..]), (Some(1), FULL));
    let [read, closed, full] = [read, closed, full].map(|file| std::fs::read(file).expect("it is written"));
    assert!(read == closed && read == full);
}

const FULL: &str = "wutherdish: standard output: No space left on device (os error 28)\n";

#[test]
fn output_that_cannot_be_written_is_1() {
    let bad = "wutherdish: standard output: Bad file descriptor (os error 9)\n";
    for (redirection, message) in [(">/dev/full", FULL), (">&-", bad), ("1</dev/null", bad)] {
        let script = format!("exec \"$0\" \"$@\" {redirection}");
        for arguments in TELLING {
            let ran = shell(&script, arguments, &input(arguments));
            assert_eq!((ran.code, &ran.err[..]), (Some(1), message), "{redirection} {arguments:?}");
        }
        // a command that writes to a file alone needs no other output
        let file = scratch("streams.svg");
        let ran = shell(&script, &["show", "-", "-o", &file], &drill("demo"));
        assert_eq!((ran.code, &ran.err[..]), (Some(0), ""), "{redirection}");
        assert_eq!(std::fs::read_to_string(&file).expect("it is written"), done(&["show", "-"], &drill("demo")));
    }
}

#[test]
fn input_that_cannot_be_read_is_1() {
    for redirection in ["<&-", "0>/dev/null"] {
        for arguments in
            [&["explain", "-"][..], &["show", "-"], &["tally"], &["convert", "--to=pairs", "-"], &["compose", "-"]]
        {
            let ran = shell(&format!("exec \"$0\" \"$@\" {redirection}"), arguments, &[]);
            assert_eq!((ran.code, &ran.out[..]), (Some(1), ""), "{redirection} {arguments:?}");
            assert_eq!(ran.err, "wutherdish: standard input: Bad file descriptor (os error 9)\n");
        }
    }
}

#[test]
fn progress_is_shown_where_it_is_asked_for() {
    let feed = long_feed();
    for arguments in [&["explain", "-"][..], &["tally"], &["show", "-"]] {
        let quiet = done(arguments, &feed);
        let begin = Instant::now();
        let ran = fed(&[arguments, &["--progress"]].concat(), &feed);
        let seconds = begin.elapsed().as_secs_f64();
        assert_eq!((ran.code, &ran.out), (Some(0), &quiet), "{arguments:?}");
        assert!(ran.err.starts_with("\rpoints: 1, "), "{arguments:?}: {}", ran.err);
        assert!(ran.err.ends_with(" %\r\x1b[K"), "{arguments:?}: {}", ran.err);
        let lines = ran.err.matches('%').count();
        assert!(lines as f64 <= 4.0 * seconds + 1.0, "{arguments:?}: {lines} lines in {seconds} s");
    }
}
