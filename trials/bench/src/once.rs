//! One call, the first of a table's row, for callgrind to count.

use inputs::dag::Dag;
use oracle::numbers::KEPT;

use crate::offer::Offering;
use crate::{compose, convert, judge, verify};

/// Makes the call of a way, by the library, or by the Rust.
pub fn run(way: &str, peers: usize, entries: usize) -> Result<(), String> {
    let right = match way {
        "verify" => verify::once(verify::Way::Library, peers)?,
        "verify-direct" => verify::once(verify::Way::Direct, peers)?,
        "verify-alone" => verify::once(verify::Way::Alone, peers)?,
        "judge" => judge::once(judge::Way::Library, peers)?,
        "judge-direct" => judge::once(judge::Way::Direct, peers)?,
        "judge-alone" => judge::once(judge::Way::Alone, peers)?,
        "offer" => offer(&Dag::new(peers, entries + 1), entries, entries)? == 0,
        "offer-far" => offer(&Dag::new(peers, entries + 1).with_history(u8::MAX), entries, entries)? == 0,
        "refused" => offer(&Dag::new(peers, entries + 1), entries, entries - 1)? == KEPT,
        "to-columns" => convert::once(convert::Way::Columns, peers),
        "to-pairs" => convert::once(convert::Way::Pairs, peers),
        "copy" => convert::once(convert::Way::Copy, peers),
        "rising" => compose::once(compose::Way::Library, compose::Order::Rising, peers)?,
        "falling" => compose::once(compose::Way::Library, compose::Order::Falling, peers)?,
        "shuffled" => compose::once(compose::Way::Library, compose::Order::Shuffled, peers)?,
        "rising-parts" => compose::once(compose::Way::Parts, compose::Order::Rising, peers)?,
        "falling-parts" => compose::once(compose::Way::Parts, compose::Order::Falling, peers)?,
        "shuffled-parts" => compose::once(compose::Way::Parts, compose::Order::Shuffled, peers)?,
        _ => return Err(format!("there is no way {way}")),
    };
    if right { Ok(()) } else { Err("the call gave something else than it had to".to_string()) }
}

/// Offers the point at a place to the book of the first points.
fn offer(dag: &Dag, entries: usize, place: usize) -> Result<u8, String> {
    let mut offering = Offering::new(dag, entries)?;
    Ok(result_of(&mut || offering.offer(place).0))
}

/// Makes a call. Callgrind counts what is done under the name `counted`.
pub fn result_of<T>(call: &mut dyn FnMut() -> T) -> T {
    let mut result = None;
    counted(&mut || result = Some(call()));
    result.expect("the call was made")
}

#[unsafe(no_mangle)]
#[inline(never)]
fn counted(call: &mut dyn FnMut()) {
    call();
}
