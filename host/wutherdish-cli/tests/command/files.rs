//! Files that are read, and files that are written.

use std::fs;
use std::os::unix::fs::{PermissionsExt, symlink};
use std::path::Path;

use crate::run::{Ran, done, drill, fed, run, scratch, shell};

/// A folder of its own, empty.
fn folder(name: &str) -> String {
    let path = scratch(name);
    let _ = fs::remove_dir_all(&path);
    fs::create_dir(&path).expect("the folder is made");
    path
}

fn names_in(folder: &str) -> Vec<String> {
    let entries = fs::read_dir(folder).expect("it is a folder");
    let mut names: Vec<String> =
        entries.map(|entry| entry.expect("it can be read").file_name().into_string().expect("it is text")).collect();
    names.sort();
    names
}

#[test]
fn nothing_writes_over_its_input() {
    let folder = folder("over-input");
    let [file, hard, soft] = ["feed", "hard", "soft"].map(|name| format!("{folder}/{name}"));
    let feed = drill("demo");
    fs::write(&file, &feed).expect("it is written");
    fs::hard_link(&file, &hard).expect("it is linked");
    symlink(&file, &soft).expect("it is linked");
    let assert_spared = |ran: Ran, option: &str, output: &str| {
        let message = format!("wutherdish: {option} {output} would write over the input\n");
        assert_eq!((ran.code, &ran.out[..]), (Some(2), ""), "{option} {output}");
        assert!(ran.err.starts_with(&message), "{}", ran.err);
        assert!(fs::read(&file).expect("it is there") == feed, "{option} {output}");
    };
    for (command, option) in [("explain", "--book"), ("show", "-o")] {
        for output in [&file, &hard, &soft] {
            assert_spared(run(&[command, &file, option, output]), option, output);
            assert_spared(run(&[command, &soft, option, output]), option, output);
            let redirected = shell(&format!("exec \"$0\" \"$@\" <'{file}'"), &[command, "-", option, output], &[]);
            assert_spared(redirected, option, output);
        }
    }
    for arguments in [&["explain", &file][..], &["show", &file], &["tally", &soft], &["tally", "-"]] {
        let ran = shell(&format!("exec \"$0\" \"$@\" <'{file}' >>'{hard}'"), arguments, &[]);
        assert_eq!(ran.code, Some(2), "{arguments:?}");
        assert!(ran.err.starts_with("wutherdish: standard output would write over the input\n"), "{}", ran.err);
        assert!(fs::read(&file).expect("it is there") == feed, "{arguments:?}");
    }
    assert_eq!(names_in(&folder), ["feed", "hard", "soft"]);
}

/// A link to what is open as a number, as /dev/stdout is one; a command that replaced it would do no harm.
fn link_to_open(folder: &str, number: u8) -> String {
    let link = format!("{folder}/open-{number}");
    symlink(format!("/proc/self/fd/{number}"), &link).expect("it is linked");
    link
}

#[test]
fn a_book_does_not_replace_the_words() {
    let folder = folder("words");
    let (words, link) = (format!("{folder}/words"), link_to_open(&folder, 1));
    for book in [&words, &link] {
        let ran = shell(&format!("exec \"$0\" \"$@\" >'{words}'"), &["explain", "-", "--book", book], &drill("demo"));
        assert_eq!(ran.code, Some(2), "{book}");
        assert!(ran.err.starts_with(&format!("wutherdish: --book {book} would write over the words\n")), "{}", ran.err);
    }
}

#[test]
fn what_is_open_is_written_as_it_stands() {
    let folder = folder("open");
    let (demo, [out, third]) = (drill("demo"), [1, 3].map(|number| link_to_open(&folder, number)));
    assert_eq!(done(&["show", "-", "-o", &out], &demo), done(&["show", "-"], &demo));
    let file = format!("{folder}/file");
    // others write to the same file before and after it
    let ran = shell(&format!("(echo before; \"$0\" \"$@\" && echo after) >'{file}'"), &["demo", "-o", &out], &[]);
    assert_eq!((ran.code, &ran.err[..]), (Some(0), ""));
    assert_eq!(fs::read(&file).expect("it is written"), [b"before\n", &demo[..], b"after\n"].concat());
    // one that has no name any more
    let script = format!("exec 3<>'{file}'; rm '{file}'; \"$0\" \"$@\" && cat '{third}'; exec 3>&-");
    let ran = shell(&script, &["show", "-", "-o", &third], &demo);
    assert_eq!((ran.code, &ran.err[..]), (Some(0), ""));
    assert_eq!(ran.out, done(&["show", "-"], &demo));
    assert_eq!(names_in(&folder), ["open-1", "open-3"]);
}

#[test]
fn what_cannot_be_written_whole_leaves_what_was_there() {
    let folder = folder("no-space");
    let [old, new] = ["old", "new"].map(|name| format!("{folder}/{name}"));
    fs::write(&old, "what was there").expect("it is written");
    // files of at most 4 blocks, and writing more is an error, not the end
    let limit = "trap '' XFSZ; ulimit -f 4; exec \"$0\" \"$@\"";
    let demo = drill("demo");
    assert!(demo.len() > 4 * 1_024);
    for arguments in [&["demo", "-o"][..], &["show", "-", "-o"], &["explain", "-", "--last", "--book"]] {
        for file in [&old, &new] {
            let ran = shell(limit, &[arguments, &[file]].concat(), &demo);
            assert_eq!(ran.code, Some(1), "{arguments:?}");
            assert!(ran.err.starts_with(&format!("wutherdish: {file}: File too large")), "{}", ran.err);
            assert_eq!(names_in(&folder), ["old"], "{arguments:?}");
            assert_eq!(fs::read(&old).expect("it is there"), b"what was there", "{arguments:?}");
        }
    }
}

#[test]
fn a_file_that_is_replaced_keeps_its_mode_and_its_links() {
    let folder = folder("replaced");
    let [file, link, lost] = ["file", "link", "lost"].map(|name| format!("{folder}/{name}"));
    fs::write(&file, "what was there").expect("it is written");
    fs::set_permissions(&file, fs::Permissions::from_mode(0o640)).expect("it is ours");
    symlink("file", &link).expect("it is linked");
    symlink("found", &lost).expect("it is linked");
    for output in [&file, &link, &lost] {
        assert_eq!(done(&["demo", "-o", output], &[]), "");
        assert_eq!(fs::read(output).expect("it is there"), drill("demo"), "{output}");
    }
    assert_eq!(fs::metadata(&file).expect("it is there").permissions().mode() & 0o777, 0o640);
    assert!([&link, &lost].iter().all(|name| Path::new(name).is_symlink()));
    assert_eq!(names_in(&folder), ["file", "found", "link", "lost"]);
}

#[test]
fn what_is_no_file_is_not_replaced() {
    let ran = run(&["demo", "-o", "no/such/folder/file"]);
    assert_eq!(ran.err, "wutherdish: no/such/folder/file: its folder: No such file or directory (os error 2)\n");
    let folder = folder("no-file");
    let ran = run(&["demo", "-o", &folder]);
    assert_eq!(ran.code, Some(1));
    assert_eq!(ran.err, format!("wutherdish: {folder}: Is a directory (os error 21)\n"));
    let circle = format!("{folder}/circle");
    symlink("circle", &circle).expect("it is linked");
    let ran = run(&["demo", "-o", &circle]);
    assert_eq!(ran.code, Some(1));
    assert!(ran.err.starts_with(&format!("wutherdish: {circle}: Too many levels of symbolic links")), "{}", ran.err);
    assert!(Path::new(&circle).is_symlink());
    let [pipe, read] = ["pipe", "read"].map(|name| format!("{folder}/{name}"));
    let script = format!("mkfifo '{pipe}' && {{ timeout 20 cat '{pipe}' >'{read}' & \"$0\" \"$@\"; wait $!; }}");
    let ran = shell(&script, &["show", "-", "-o", &pipe], &drill("demo"));
    assert_eq!((ran.code, &ran.err[..]), (Some(0), ""));
    assert_eq!(fs::read_to_string(&read).expect("it is written"), done(&["show", "-"], &drill("demo")));
    assert_eq!(names_in(&folder), ["circle", "pipe", "read"]);
}

#[test]
fn what_cannot_be_read_is_1() {
    let folder = folder("no-input");
    for command in ["explain", "show", "tally"] {
        for (name, why) in
            [(&folder[..], "Is a directory (os error 21)"), ("/proc/self/mem", "Input/output error (os error 5)")]
        {
            let ran = run(&[command, name]);
            assert_eq!((ran.code, &ran.out[..]), (Some(1), ""), "{command} {name}");
            assert_eq!(ran.err, format!("wutherdish: {name}: {why}\n"));
        }
        let ran = shell(&format!("exec \"$0\" \"$@\" <'{folder}'"), &[command, "-"], &[]);
        assert_eq!((ran.code, &ran.out[..]), (Some(1), ""), "{command}");
        assert_eq!(ran.err, "wutherdish: standard input: Is a directory (os error 21)\n");
    }
}

#[test]
fn what_is_no_input_is_not_read_to_its_end() {
    let memory = "ulimit -v 200000; exec \"$0\" \"$@\"";
    for command in ["explain", "show"] {
        let ran = shell(memory, &[command, "/dev/zero"], &[]);
        assert_eq!((ran.code, &ran.out[..]), (Some(1), ""));
        assert!(ran.err.starts_with("wutherdish: /dev/zero: byte 0: expected a feed or a book"), "{}", ran.err);
    }
    assert_eq!(shell(memory, &["tally", "/dev/zero"], &[]).out, "0 0 - 0 1\nend 0\n");
}

#[test]
fn feeds_and_books_that_are_cut_off_anywhere() {
    let (feed, book) = (drill("invalid-19"), scratch("cut.book"));
    done(&["explain", "-", "--room", "800", "--book", &book], &feed);
    let cut_book = fs::read(&book).expect("it is written");
    for (command, bytes) in [("explain", &feed), ("show", &feed), ("show", &cut_book)] {
        for cut in 0..bytes.len() {
            let ran = fed(&[command, "-"], &bytes[..cut]);
            let code = ran.code.expect("it ends by itself");
            assert_eq!(code == 0, ran.err.is_empty(), "{command} at {cut}: {}", ran.err);
            assert!(
                code == 0 || code == 1 && ran.err.starts_with("wutherdish: standard input: "),
                "{command} at {cut}"
            );
        }
    }
}
