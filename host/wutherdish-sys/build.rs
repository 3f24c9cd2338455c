//! Finds the static library that the crate links, or has it proved and built. The library is copied into OUT_DIR and linked
//! from there, and what stands in the repository is watched by paths from this crate's folder: so a tree that was built and
//! then moved needs nothing of its old place.

use std::path::{Path, PathBuf};
use std::process::Command;
use std::{env, fs};

/// Names the folder of a library that is there already; a relative one is taken from the repository's root.
const VARIABLE: &str = "WUTHERDISH_LIB_DIR";
const LIBRARY: &str = "libwutherdish.a";
/// The repository's root, from this crate's folder. A packaged crate has no repository around it.
const ROOT: &str = "../..";
/// What the library is made of, from the repository's root.
const SOURCES: [&str; 2] = ["crates", "crates.txt"];
/// What of each crate is a source: `rt` writes beside these.
const PARTS: [&str; 3] = ["src", "specs", "proofs"];
/// The crate whose library it is, from the repository's root, and what `rt lib` makes there.
const CRATE: &str = "crates/wutherdish_c";
const MADE: &str = "out/libwutherdish_c.a";

fn main() {
    println!("cargo:rerun-if-env-changed={VARIABLE}");
    let here = variable("CARGO_MANIFEST_DIR");
    let root =
        here.join(ROOT).canonicalize().ok().filter(|root| SOURCES.iter().all(|source| root.join(source).exists()));
    let library = match (env::var_os(VARIABLE).filter(|name| !name.is_empty()), &root) {
        (Some(named), _) => found(&here, Path::new(&named), root.is_some()),
        (None, Some(root)) => built(root),
        (None, None) => {
            fail(&format!("no sources of the library: no crates and crates.txt two folders above {}", here.display()))
        }
    };
    let out = variable("OUT_DIR");
    let copied = fs::read(&library).and_then(|bytes| fs::write(out.join(LIBRARY), bytes));
    if let Err(error) = copied {
        fail(&format!("{} could not be copied to {}: {error}", library.display(), out.display()));
    }
    println!("cargo:rustc-link-search=native={}", out.display());
}

/// A path that cargo hands over.
fn variable(name: &str) -> PathBuf {
    env::var_os(name).unwrap_or_else(|| fail(&format!("cargo sets no {name}"))).into()
}

/// The library in a folder that is named.
fn found(here: &Path, named: &Path, in_repository: bool) -> PathBuf {
    if named.is_relative() && !in_repository {
        fail(&format!("{VARIABLE} is {}: outside the repository it is an absolute path", named.display()));
    }
    let library = Path::new(ROOT).join(named).join(LIBRARY);
    watch(&library);
    let library = here.join(library);
    if !library.is_file() {
        fail(&format!("{VARIABLE} is {}: there is no {}", named.display(), library.display()));
    }
    library
}

/// The library that `rt` makes of the sources. It proves anew only what has changed; where there is no `rt`, a library
/// that it has made before will do.
fn built(root: &Path) -> PathBuf {
    // Not the library itself: it is newer than this run, and would be built again by the next one.
    watch(&Path::new(ROOT).join("crates.txt"));
    folders(&root.join("crates")).iter().for_each(|name| {
        let folder = Path::new(ROOT).join("crates").join(name);
        PARTS.iter().map(|part| folder.join(part)).filter(|part| part.exists()).for_each(|part| watch(&part));
    });
    let library = root.join(CRATE).join(MADE);
    match Command::new("rt").arg("lib").current_dir(root.join(CRATE)).output() {
        Ok(output) if output.status.success() => {}
        Ok(output) => {
            eprintln!("{}", String::from_utf8_lossy(&output.stdout));
            eprintln!("{}", String::from_utf8_lossy(&output.stderr));
            fail(&format!("`rt lib` failed in {CRATE}"));
        }
        Err(_) if library.is_file() => println!(
            "cargo:warning=`rt` is not at hand: the library that it made before is linked, of whatever sources"
        ),
        Err(error) => fail(&format!("`rt lib` could not be run in {CRATE}: {error}")),
    }
    library
}

/// The names of what stands in a folder, in order.
fn folders(folder: &Path) -> Vec<PathBuf> {
    let entries = fs::read_dir(folder).unwrap_or_else(|error| fail(&format!("{}: {error}", folder.display())));
    let mut names: Vec<PathBuf> = entries.flatten().map(|entry| entry.file_name().into()).collect();
    names.sort();
    names
}

/// Has this script run again when the file, or one in the folder, changes. A relative path is taken from this crate's
/// folder.
fn watch(path: &Path) {
    println!("cargo:rerun-if-changed={}", path.display());
}

fn fail(why: &str) -> ! {
    eprintln!("{why}");
    eprintln!(
        "In the repository `rt`, the command of the Rattle toolchain, builds the library; {VARIABLE} names the folder"
    );
    eprintln!("of one that is there already");
    std::process::exit(1);
}
