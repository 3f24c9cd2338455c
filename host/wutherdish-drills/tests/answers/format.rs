//! The example of docs/FORMAT.md is the drill `valid`, byte for byte.

use std::fs;

use crate::run::drill;

/// From the crate's folder, where cargo runs its tests.
const FORMAT: &str = "../../docs/FORMAT.md";

/// A row's place and its bytes: "| 7 | `10 0a 00 01` × 8 | what |".
fn row(line: &str) -> Option<(usize, Vec<u8>)> {
    let [_, at, bytes, ..] = line.split('|').map(str::trim).collect::<Vec<_>>()[..] else { return None };
    let (hex, times) = bytes.strip_prefix('`')?.split_once('`')?;
    let times = times.trim().strip_prefix("× ").map_or(Ok(1), str::parse).ok()?;
    let hex: Result<Vec<u8>, _> = hex.split(' ').map(|byte| u8::from_str_radix(byte, 16)).collect();
    Some((at.parse().ok()?, hex.ok()?.repeat(times)))
}

#[test]
fn the_example_is_the_drill() {
    let text = fs::read_to_string(FORMAT).expect("docs/FORMAT.md");
    let (_, example) = text.split_once("## An example").expect("an example");
    let mut bytes = Vec::new();
    for (at, part) in example.lines().filter_map(row) {
        assert_eq!(at, bytes.len());
        bytes.extend(part);
    }
    assert_eq!(bytes, drill("valid").input.bytes());
}
