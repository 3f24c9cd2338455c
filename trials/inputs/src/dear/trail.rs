//! Lists in which entries give reasons, to be judged with a trail.

use cases::random::Random;
use oracle::value::{Entry, State};

use super::judge::{LONGEST, entry, made, versions, versions_of};
use super::{Made, Shape, ends_alike, room, shortest, without_prev};
use crate::call::Call;
use crate::faults::{self, FIRST_ALONE, FULL, KEPT, VERSIONS, full};

pub const SHAPES: [Shape; 7] = [
    Shape::typical("three reasons an entry, full maps of 100 peers", 100, |_, count| {
        trailed(Made::of(full(FULL[4], count.max(4), 0)))
    }),
    Shape::dear("all reasons of an entry, full maps of 253 peers", 253, |_, count| {
        trailed(Made::of(full(FULL[5], count.max(4), 0)))
    }),
    Shape::dear("versions of the author, certified and not found", LONGEST, |_, count| {
        trailed(Made::of(faults::versions(VERSIONS[0].1, count, false)))
    }),
    Shape::dear("versions of the author, shortest records, invalid", LONGEST, |_, count| {
        trailed(Made::of(faults::versions(VERSIONS[2].1, count, false)))
    }),
    Shape::dear("versions of the author, trans-invalid, their digests end alike", LONGEST, |random, count| {
        trailed(versions(random, count, ends_alike, |id| State::TransInvalid(shortest(id), id, 1)))
    }),
    Shape::dear("versions of the author, not found, the first 257 certified", LONGEST, |random, count| {
        let of = without_prev(random, 4);
        let version = |place, id| Entry { certified: place <= KEPT, ..entry(State::NotFound(id)) };
        let entries = versions_of(random, &of.1, count, Random::bytes, version);
        trailed(made(random, &of, entries))
    }),
    Shape::dear(FIRST_ALONE.name, 253, |_, count| trailed(Made::of(full(FIRST_ALONE, count.max(4), 0)))),
];

/// An entry gives nine reasons at most.
fn trailed(made: Made) -> Made {
    made.to(|case, entries| {
        let length = room(&case, entries, 9);
        Call::Trail { case, length }
    })
}
