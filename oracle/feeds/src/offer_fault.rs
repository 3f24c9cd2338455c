//! Faults of an offer beside its point: what is refused or fails, and keeps nothing.

use book::Offer;
use cases::random::Random;
use oracle::value::{Point, Schedule};
use oracle::{PEER_BUFFER, write};

type Fault = fn(&mut Random, &mut Schedule, &Point, &mut Offer);

/// One of the faults. The schedule is written into the offer anew; faults in its bytes come after that.
pub fn spoil(random: &mut Random, schedule: &mut Schedule, point: &Point, offer: &mut Offer) {
    let fault = random.pick(&ALL);
    fault(random, schedule, point, offer);
}

const ALL: [Fault; 9] = [
    |random, schedule, point, offer| {
        // 6
        schedule.last_known = point.id.round.saturating_add(random.between(0, 3));
        offer.schedule = write::schedule(schedule);
    },
    fail,
    fail,
    |random, _, _, offer| damage(random, &mut offer.schedule),
    |random, _, _, offer| damage(random, &mut offer.record),
    |random, _, _, offer| offer.leader = random.pick(&[2, 3, 128, 255]),
    |_, _, _, offer| offer.leader ^= 1,
    |random, _, _, offer| offer.peer_buffer = random.pick(&[0, 32, PEER_BUFFER - 1]),
    |random, _, _, offer| offer.peer_buffer = PEER_BUFFER + random.between(1, 40),
];

/// A set that is too small, or none, at one of the rounds that verifying asks for.
fn fail(random: &mut Random, schedule: &mut Schedule, point: &Point, offer: &mut Offer) {
    match schedule.span(point.id.round.saturating_sub(random.between(0, 2))) {
        Some(place) if random.chance(3, 4) => schedule.spans[place].peers.truncate(random.below(3)),
        _ => schedule.last_known = point.id.round.saturating_sub(1),
    }
    offer.schedule = write::schedule(schedule);
}

/// Cut short, a byte after, or a byte changed near the front.
fn damage(random: &mut Random, bytes: &mut Vec<u8>) {
    match random.below(3) {
        0 => bytes.truncate(random.below(bytes.len().max(1))),
        1 => bytes.push(random.number() as u8),
        _ if bytes.is_empty() => {}
        _ => {
            let place = random.below(bytes.len().min(12));
            bytes[place] ^= 1 << random.below(8);
        }
    }
}
