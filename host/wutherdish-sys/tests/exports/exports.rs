//! What is exported, by the header, by the sources and by the library.

use std::collections::BTreeSet;
use std::path::{Path, PathBuf};
use std::process::Command;
use std::{env, fs};

use crate::call::Call;

/// The repository's root, from the crate's folder, where cargo runs its tests.
const ROOT: &str = "../..";
/// The one crate that exports anything.
const CRATE: &str = "crates/wutherdish_c/";
/// What the library may need from outside, as the header says: a host need not link a C library.
const NEEDED: [&str; 2] = ["memcpy", "memset"];
/// How an export begins.
const EXPORT: &str = "extern \"C\" fn ";

pub struct Exports {
    pub header: String,
    /// Every file of Rattle, by its path from the root.
    pub sources: Vec<(String, String)>,
    /// The library's global symbols.
    pub symbols: BTreeSet<String>,
    /// What it needs from outside.
    pub needed: BTreeSet<String>,
}

impl Exports {
    /// Those of the repository, and of the library that the crate links by the build script's rule.
    pub fn read() -> Self {
        let header = fs::read_to_string(format!("{ROOT}/include/wutherdish.h")).expect("the header");
        let mut sources = Vec::new();
        add_sources(&Path::new(ROOT).join("crates"), &mut sources);
        sources.sort();
        let folder = env::var_os("WUTHERDISH_LIB_DIR").filter(|name| !name.is_empty());
        let made = format!("{CRATE}out/libwutherdish_c.a");
        let library = folder.map_or_else(|| PathBuf::from(made), |folder| Path::new(&folder).join("libwutherdish.a"));
        let library = Path::new(ROOT).join(library);
        let [symbols, needed] = ["--defined-only", "--undefined-only"].map(|which| symbols(&library, which));
        Self { header, sources, symbols, needed }
    }

    /// What is not as it has to be, in words.
    pub fn faults(&self) -> Vec<String> {
        let mut faults = Vec::new();
        let mut names = BTreeSet::new();
        for (path, code) in &self.sources {
            let code = joined(code);
            if code.contains("/*") {
                faults.push(format!("{path} has a comment that is not a line's"));
            }
            if !is_marked(&code) {
                faults.push(format!("an export of {path} is not #[unsafe(no_mangle)] pub"));
            }
            let calls = calls(&code);
            names.extend(calls.iter().map(|call| call.name.clone()));
            faults.extend(calls.iter().flat_map(|call| call_faults(path, call)));
        }
        faults.extend(self.lacking(names));
        let others = self.needed.iter().filter(|name| !NEEDED.contains(&name.as_str()));
        faults.extend(others.map(|name| format!("the library needs {name} from outside")));
        faults
    }

    /// The names that stand in one of header, sources and library, and not in all.
    fn lacking(&self, exported: BTreeSet<String>) -> Vec<String> {
        let declared = declared(&self.header);
        let places = [("header", &declared), ("sources", &exported), ("library", &self.symbols)];
        let names: BTreeSet<&String> = places.iter().flat_map(|(_, names)| names.iter()).collect();
        let lacks = |name: &String| {
            let lacking = places.iter().filter(|(_, names)| !names.contains(name));
            lacking.map(|(place, _)| format!("{name} is not in the {place}")).collect::<Vec<_>>()
        };
        names.into_iter().flat_map(lacks).collect()
    }
}

fn call_faults(path: &str, call: &Call) -> Vec<String> {
    let elsewhere = (!path.starts_with(CRATE)).then(|| format!("{} is exported by {path}", call.name));
    elsewhere.into_iter().chain(call.faults()).collect()
}

fn add_sources(folder: &Path, sources: &mut Vec<(String, String)>) {
    for entry in fs::read_dir(folder).expect("a folder of the repository") {
        let path = entry.expect("an entry of it").path();
        if path.is_dir() {
            // What rt writes is no source.
            if path.file_name().is_none_or(|name| name != "out") {
                add_sources(&path, sources);
            }
        } else if path.extension().is_some_and(|extension| extension == "rt") {
            let name = path.strip_prefix(ROOT).expect("a path below the root").display().to_string();
            sources.push((name, fs::read_to_string(&path).expect("a file of Rattle")));
        }
    }
}

/// The names that stand before a bracket in the header, outside comments.
fn declared(header: &str) -> BTreeSet<String> {
    let code = header.split("/*").map(|part| part.split_once("*/").map_or(part, |(_, code)| code)).collect::<String>();
    let code = code.lines().filter(|line| !line.starts_with('#')).collect::<Vec<_>>().join(" ");
    let before = code.split('(').map(|part| part.rsplit([' ', '*', ')']).next().unwrap_or_default().to_string());
    before.filter(|name| !name.is_empty() && name.starts_with(|c: char| c.is_alphabetic())).collect()
}

/// A source without the comments of lines, its words parted by single spaces.
fn joined(code: &str) -> String {
    let lines: Vec<&str> = code.lines().map(|line| line.split("//").next().unwrap_or_default()).collect();
    lines.join(" ").split_whitespace().collect::<Vec<_>>().join(" ")
}

/// Whether each export is marked for the linker, and nothing else is.
fn is_marked(code: &str) -> bool {
    let all = code.matches(EXPORT).count();
    code.matches(&format!("#[unsafe(no_mangle)] pub {EXPORT}")).count() == all
        && code.matches("no_mangle").count() == all
}

fn calls(code: &str) -> Vec<Call> {
    code.split(EXPORT).skip(1).map(Call::read).collect()
}

/// The library's global symbols of one kind, as an option of nm names it.
fn symbols(library: &Path, which: &str) -> BTreeSet<String> {
    let output = Command::new("nm").args(["-g", which]).arg(library).output().expect("nm, of binutils");
    assert!(output.status.success(), "{}", String::from_utf8_lossy(&output.stderr));
    let lines = String::from_utf8(output.stdout).expect("names");
    lines
        .lines()
        .filter(|line| line.contains(' '))
        .filter_map(|line| line.split(' ').next_back())
        .map(String::from)
        .collect()
}
