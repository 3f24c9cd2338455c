//! Finds the source, checks it against source.sha256 and writes the module lines that compile it where it stands. For the package
//! tycho-noted, whose feature `noted` is on, verifier.rs is a copy, in which every reason is noted as it is set.

use std::path::{Path, PathBuf};
use std::process::Command;
use std::{env, fs};

const DEFAULT: &str = "../shared/docs/src";
/// From either package's folder.
const SUMS: &str = "../tycho/source.sha256";
/// The variable of verifier.rs that holds the reason that was set last, and how often the source sets it.
const REASON: &str = "invalid_reason";
const SETS: usize = 19;
/// The copy of verifier.rs.
const NOTED: &str = "verifier.rs";

fn main() {
    println!("cargo:rerun-if-env-changed=TYCHO_SRC");
    println!("cargo:rerun-if-changed={SUMS}");
    if let Err(fault) = wire() {
        eprintln!("{fault}");
        std::process::exit(1);
    }
}

fn wire() -> Result<(), String> {
    let here = PathBuf::from(env::var("CARGO_MANIFEST_DIR").unwrap());
    let source = source_folder(&here)?;
    let sums = fs::read_to_string(here.join(SUMS)).map_err(|e| format!("{SUMS}: {e}"))?;
    let files: Vec<&str> = sums.lines().filter_map(|line| line.split_whitespace().nth(1)).collect();
    for file in &files {
        println!("cargo:rerun-if-changed={}", source.join(file).display());
    }
    check(&source, &here.join(SUMS))?;
    write_modules(&source, &files)?;
    if env::var_os("CARGO_FEATURE_NOTED").is_none() {
        return Ok(());
    }
    let verifier = source.join("consensus/src/dag/verifier.rs");
    let text = fs::read_to_string(&verifier).map_err(|e| format!("{}: {e}", verifier.display()))?;
    let target = out().join(NOTED);
    fs::write(&target, noting(&text)?).map_err(|e| format!("{}: {e}", target.display()))
}

fn out() -> PathBuf {
    PathBuf::from(env::var("OUT_DIR").unwrap())
}

/// The text with `noted(` for `Some(` wherever a reason is set. Each place has to be found: the variable is given nothing else, but
/// `None` where it begins.
fn noting(text: &str) -> Result<String, String> {
    let mut parts = text.split(REASON);
    let mut copy = parts.next().unwrap_or_default().to_string();
    let mut sets = 0;
    for part in parts {
        copy.push_str(REASON);
        let given = part.trim_start().strip_prefix('=').map(str::trim_start);
        match given.map(|given| (given.strip_prefix("Some("), given.starts_with("None;"))) {
            Some((Some(reason), _)) => {
                sets += 1;
                copy.push_str(" = crate::notes::noted(");
                copy.push_str(reason);
            }
            None | Some((None, true)) => copy.push_str(part),
            Some((None, false)) => return Err(format!("verifier.rs sets {REASON} to something else:{part}")),
        }
    }
    if sets == SETS { Ok(copy) } else { Err(format!("verifier.rs sets {REASON} at {sets} places, not at {SETS}")) }
}

/// A relative TYCHO_SRC is taken from the repository's root.
fn source_folder(here: &Path) -> Result<PathBuf, String> {
    let named = env::var("TYCHO_SRC").ok().filter(|name| !name.is_empty());
    let root = here.join("../..");
    let folder = root.join(named.as_deref().unwrap_or(DEFAULT));
    folder.canonicalize().ok().filter(|folder| folder.is_dir()).ok_or_else(|| {
        format!("no tycho source at {} (TYCHO_SRC names the folder; default {DEFAULT})", folder.display())
    })
}

fn check(source: &Path, sums: &Path) -> Result<(), String> {
    let out = Command::new("sha256sum")
        .args(["--check", "--quiet", "--strict"])
        .arg(sums)
        .current_dir(source)
        .output()
        .map_err(|e| format!("sha256sum: {e}"))?;
    if out.status.success() {
        return Ok(());
    }
    let said = [out.stdout, out.stderr].concat();
    Err(format!(
        "the tycho source at {} is not the one of {SUMS}:\n{}",
        source.display(),
        String::from_utf8_lossy(&said)
    ))
}

/// One file per folder of the source: dag.rs, point.rs, models.rs, peer_schedule.rs.
fn write_modules(source: &Path, files: &[&str]) -> Result<(), String> {
    for folder in ["dag", "models", "point", "peer_schedule"] {
        let lines: String = files
            .iter()
            .map(Path::new)
            .filter(|file| file.parent().and_then(Path::file_name).is_some_and(|name| name == folder))
            .map(|file| module_line(&compiled(source, file)))
            .collect();
        let target = out().join(folder).with_extension("rs");
        fs::write(&target, lines).map_err(|e| format!("{}: {e}", target.display()))?;
    }
    Ok(())
}

/// The file itself, or its copy.
fn compiled(source: &Path, file: &Path) -> PathBuf {
    let is_copied = env::var_os("CARGO_FEATURE_NOTED").is_some() && file.ends_with(NOTED);
    if is_copied { out().join(NOTED) } else { source.join(file) }
}

fn module_line(file: &Path) -> String {
    let name = file.file_stem().unwrap().to_str().unwrap();
    format!("#[allow(warnings)]\n#[path = {file:?}]\npub mod {name};\n")
}
