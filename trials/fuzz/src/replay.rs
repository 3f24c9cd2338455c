//! Saved calls again, through the comparison alone.

use std::path::Path;

use hard_use::desk::Desk;
use hard_use::model::Model;
use hard_use::watch;
use inputs::call::Lent;
use oracle::arrangement::Arrangement;

use crate::fuzzer::compare;
use crate::{BOUND, seeds};

/// Both sides of every buffer, and two fills.
const LAYOUTS: [u64; 4] = [0, UPPER, 0xA5 << SIDES, (0x5A << SIDES) | UPPER];
const SIDES: usize = Lent::ALL.len();
const UPPER: u64 = (1 << SIDES) - 1;

pub fn all(files: &[&str]) -> Result<(), String> {
    watch::start(BOUND);
    let mut desk = Desk::new(None).map_err(|e| e.to_string())?;
    let mut calls = 0;
    for file in files {
        for (place, call) in seeds::of_file(Path::new(file), Arrangement::Columns)?.iter().enumerate() {
            watch::at(0, place as u64);
            for layout in LAYOUTS {
                calls += 1;
                let number = desk.call(call, layout).number;
                compare(&desk, &Model::default(), call, number, layout)
                    .map_err(|why| format!("{file}, call {place}: {why}"))?;
            }
        }
    }
    println!("{} files, {calls} calls: no difference", files.len());
    Ok(())
}
