//! What the fuzzer begins with: generated calls, and those of a file of cases.

use std::path::Path;
use std::process::Command;

use book::file::moved;
use cases::random::Random;
use feeds::{Feed, Step};
use hard_use::file::read;
use hard_use::sources::{Source, calls};
use inputs::call::Call;
use oracle::arrangement::Arrangement;
use oracle::file::{Blobs, blobs};

/// Books of the feeds that are longer are left out: a call should take microseconds.
const LONGEST_BOOK: usize = 20_000;
const BEGIN: u8 = 4;
const OFFER: u8 = 5;

/// Undamaged calls of a seed: n cases, and as many offers to books.
pub fn generated(seed: u64, count: u64) -> Vec<Call> {
    let whole = |place| calls(Source::Generated, seed, place);
    let mut all: Vec<Call> = (0..count).flat_map(whole).collect();
    all.extend((0..count / 2).filter_map(|place| calls(Source::SmallBook, seed, place).into_iter().next()));
    all.extend((0..count / 50).flat_map(|place| offers(seed, place)));
    all.extend((0..count / 50).flat_map(|place| calls(Source::Opening, seed, place)));
    all.extend((0..count / 10).flat_map(|place| calls(Source::Converted, seed, place)));
    all.extend((0..count / 2).flat_map(|place| calls(Source::Composed, seed, place)));
    all.extend((0..count / 2).flat_map(|place| calls(Source::Trailed, seed, place)));
    all.extend((0..count / 4).flat_map(|place| calls(Source::Asked, seed, place)));
    all
}

/// Some offers of a feed, each with its book as it stands then.
fn offers(seed: u64, place: u64) -> Vec<Call> {
    let mut random = Random::new(seed, place);
    let mut feed = Feed::new(seed, place);
    let mut all = Vec::new();
    loop {
        let book = feed.book().bytes();
        let Some(Step { offer, .. }) = feed.next() else { return all };
        if book.len() <= LONGEST_BOOK && random.chance(1, 8) {
            all.push(Call::Offer { book: Some(book), offer });
        }
    }
}

/// The calls of a file of cases, packed by xz or not, whose maps lie so; pairs are moved. An offer of a row is given its book as
/// the model leaves it.
pub fn of_file(path: &Path, arrangement: Arrangement) -> Result<Vec<Call>, String> {
    let bytes = if path.extension().is_some_and(|ending| ending == "xz") {
        let output = Command::new("xz").arg("-dc").arg(path).output().map_err(|e| format!("xz: {e}"))?;
        output.stdout
    } else {
        std::fs::read(path).map_err(|e| format!("{}: {e}", path.display()))?
    };
    let is_not_whole = || format!("{}: not a whole file of cases", path.display());
    let bytes = match arrangement {
        Arrangement::Pairs => moved(&bytes).ok_or_else(is_not_whole)?,
        Arrangement::Columns => bytes,
    };
    let whole = blobs(&bytes).filter(|blobs| !blobs.is_empty()).ok_or_else(is_not_whole)?;
    let mut book = Vec::new();
    Ok(whole.iter().filter_map(|blobs| call(blobs, &mut book)).collect())
}

fn call(blobs: &Blobs<'_>, slice: &mut Vec<u8>) -> Option<Call> {
    match (blobs.0, &blobs.1[..]) {
        (BEGIN, [settings, length, ..]) => {
            *slice = vec![0; u32::from_le_bytes((*length).try_into().ok()?) as usize];
            book::open(slice, settings);
            None
        }
        (OFFER, [inputs @ .., _, _]) => {
            let given = [&[&slice[..]], inputs].concat();
            let call = read(&(6, given))?;
            let Call::Offer { offer, .. } = &call else { return None };
            let mut peers = vec![0; offer.peer_buffer as usize];
            book::offer(slice, &offer.schedule, offer.leader, &offer.record, &mut peers);
            Some(call)
        }
        _ => read(blobs),
    }
}
