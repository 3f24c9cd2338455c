//! The host's duties stand in one wording in the README, the header and this crate's documentation.

use std::fs;

/// The repository's root, from the crate's folder, where cargo runs its tests.
const ROOT: &str = "../..";

/// The duties of a file of the repository, without comment marks, words in brackets, and line ends.
fn duties(path: &str, mark: &str) -> Vec<String> {
    let text = fs::read_to_string(format!("{ROOT}/{path}")).expect("a file of the repository");
    let (_, after) = text.split_once("The library judges what it is handed;").expect("the duties");
    let (inside, _) = after.split_once("none of these.").expect("their end");
    let lines = inside.lines().map(|line| line.trim_start().strip_prefix(mark).unwrap_or(line));
    let words: Vec<&str> = lines.flat_map(str::split_whitespace).collect();
    without_brackets(&words.join(" ")).split(' ').map(str::to_string).collect()
}

fn without_brackets(text: &str) -> String {
    let mut parts = text.split(" (");
    let first = parts.next().unwrap_or_default().to_string();
    parts.fold(first, |kept, part| kept + part.split_once(')').map_or("", |(_, after)| after))
}

#[test]
fn one_wording() {
    let readme = duties("README.md", "");
    assert!(readme.len() > 100);
    assert_eq!(duties("include/wutherdish.h", "*"), readme);
    assert_eq!(duties("host/wutherdish/src/lib.rs", "//!"), readme);
}
