//! Runs the command.

use std::io::Write;
use std::path::{Path, PathBuf};
use std::process::{Command, Stdio};

use wutherdish::{Schedule, Settings};
use wutherdish_drills::{Answer, Drill, Input};

/// The repository's root, from the crate's folder, where cargo runs its tests.
const ROOT: &str = "../../";

/// What a run left.
#[derive(Debug)]
pub struct Ran {
    pub code: Option<i32>,
    pub out: String,
    pub err: String,
}

/// The command's file. Cargo says where it is when it runs a test, so a tree that was built and then moved is tested itself.
fn program() -> PathBuf {
    std::env::var_os("CARGO_BIN_EXE_wutherdish").expect("cargo runs the test").into()
}

pub fn command(arguments: &[&str]) -> Command {
    let mut command = Command::new(program());
    command.args(arguments).stdin(Stdio::piped()).stdout(Stdio::piped()).stderr(Stdio::piped());
    command
}

/// Runs the command with an input. It need not read that.
pub fn fed(arguments: &[&str], input: &[u8]) -> Ran {
    ran(command(arguments), input)
}

/// Runs a script of the shell in which `$0` is the command and `$@` its arguments.
pub fn shell(script: &str, arguments: &[&str], input: &[u8]) -> Ran {
    let mut command = Command::new("bash");
    command.args(["-c", script]).arg(program()).args(arguments);
    command.stdin(Stdio::piped()).stdout(Stdio::piped()).stderr(Stdio::piped());
    ran(command, input)
}

fn ran(mut command: Command, input: &[u8]) -> Ran {
    let mut child = command.spawn().expect("the command starts");
    let _ = child.stdin.take().expect("its input is a pipe").write_all(input);
    let output = child.wait_with_output().expect("the command ends");
    let text = |bytes| String::from_utf8(bytes).expect("it prints UTF-8");
    let ran = Ran { code: output.status.code(), out: text(output.stdout), err: text(output.stderr) };
    assert!(!ran.err.contains("panicked"), "{command:?}: {}", ran.err);
    ran
}

pub fn run(arguments: &[&str]) -> Ran {
    fed(arguments, &[])
}

/// A run that does what it should, and says nothing else.
pub fn done(arguments: &[&str], input: &[u8]) -> String {
    let ran = fed(arguments, input);
    assert_eq!((ran.code, &ran.err[..]), (Some(0), ""), "{arguments:?}");
    ran.out
}

/// A file of the repository.
pub fn repository(name: &str) -> Vec<u8> {
    std::fs::read(ROOT.to_owned() + name).expect("the file is there")
}

/// The feed of `tally`'s data.
pub fn feed() -> Vec<u8> {
    repository("crates/tally/data/feed.bin")
}

/// Settings and schedule of a feed, and the rest.
pub fn split_front(feed: &[u8]) -> (&[u8], &[u8]) {
    let (_, after) = Settings::read(feed).expect("it begins with settings");
    let (_, points) = Schedule::read(after).expect("a schedule follows");
    feed.split_at(feed.len() - points.len())
}

/// The name of a file to write, which is not there yet; each test names its own.
pub fn scratch(name: &str) -> String {
    let built = program().parent().and_then(Path::parent).expect("a folder for each profile").to_owned();
    let folder = built.join("tmp");
    std::fs::create_dir_all(&folder).expect("the folder is made");
    let path = folder.join(name);
    // one that an earlier run left
    let _ = std::fs::remove_file(&path);
    path.to_str().expect("its path is text").to_owned()
}

/// The bytes of a drill that is there.
pub fn drill(name: &str) -> Vec<u8> {
    wutherdish_drills::named(name).expect("there is such a drill").input.bytes().to_vec()
}

/// The drills that are feeds.
pub fn feed_drills() -> impl Iterator<Item = Drill> {
    wutherdish_drills::all().into_iter().filter(|drill| matches!(drill.input, Input::Feed(_)))
}

/// Whether a drill is a feed that can't be read, or not to its end.
pub fn is_bad(drill: &Drill) -> bool {
    matches!((&drill.input, drill.answer), (Input::Feed(_), Answer::Number(1..=3)))
}
