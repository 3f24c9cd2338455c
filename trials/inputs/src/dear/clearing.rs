//! Lists by which a point waits for one certificate, so that the search for it reads all of them: a single entry is trans-invalid
//! without a mark, and none gives a reason.

use cases::random::Random;
use oracle::value::{Digest, Entry, Id, Peer, State};

use super::judge::{LONGEST, entry, short_list_of, versions_of, whole};
use super::{Made, Of, Shape, alike, ends_alike, question, shortest, without_prev};
use crate::call::Call;
use crate::points::{judged, list_of, set};

pub const SHAPES: [Shape; 6] = [
    Shape::typical("one dependency trans-invalid, full maps of 100 peers", 100, |random, count| {
        let set = set(random, count.max(4));
        full_maps(random, set)
    }),
    Shape::dear("the same, full maps of 253 peers alike but for their last byte", 253, |random, count| {
        let set = alike(random, count.max(4));
        full_maps(random, set)
    }),
    // judging tells valid ones by a quick test of their records
    Shape::dear("the same, 253 peers, the dependencies without maps", 253, |random, count| {
        let set = set(random, count.max(4));
        let point = judged(random, &set, 0);
        let list = short_list_of(random, &set, &point);
        waiting(random, &(set, point), list)
    }),
    Shape::dear("versions of the author, not found, then one trans-invalid dependency", LONGEST, |random, count| {
        versions(random, count, Random::bytes, |_, id| entry(State::NotFound(id)))
    }),
    Shape::dear("the same, their digests end alike", LONGEST, |random, count| {
        versions(random, count, ends_alike, |_, id| entry(State::NotFound(id)))
    }),
    Shape::dear("the same, valid but not first, shortest records", LONGEST, |random, count| {
        versions(random, count, ends_alike, |_, id| entry(State::Valid(shortest(id))))
    }),
];

fn full_maps(random: &mut Random, set: Vec<Peer>) -> Made {
    let point = judged(random, &set, 0);
    let list = list_of(random, &set, &point);
    waiting(random, &(set, point), list)
}

fn versions(
    random: &mut Random,
    count: usize,
    digest: fn(&mut Random) -> Digest,
    version: fn(usize, Id) -> Entry,
) -> Made {
    let of @ (set, point) = &without_prev(random, 4);
    let mut list = versions_of(random, point, count, digest, version);
    list.extend(list_of(random, set, point));
    waiting(random, of, list)
}

/// The last dependency that isn't the previous point becomes trans-invalid.
fn waiting(random: &mut Random, of: &Of, mut list: Vec<Entry>) -> Made {
    let author = of.1.id.author;
    let is_other =
        |entry: &&mut Entry| entry.indirect.is_none() && entry.state.id().is_some_and(|id| id.author != author);
    let last = list.iter_mut().rfind(is_other).expect("a dependency of another peer");
    if let State::Valid(point) = &last.state {
        let state = State::TransInvalid(point.clone(), point.id, 1);
        *last = entry(state);
    }
    whole(random, of, &list).to(|case, _| Call::Clearing(question(case)))
}
