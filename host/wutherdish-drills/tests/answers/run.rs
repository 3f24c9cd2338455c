//! Runs a drill through the crate `wutherdish`.

use wutherdish::lent::{self, ANSWER};
use wutherdish::{Book, Point, PointId, Refusal, SETTINGS, Schedule, Verdict};
use wutherdish_drills::{Answer, Drill, Input, named};

const BOOK: usize = 65_536;

/// The feeds that are larger than their last answer needs.
pub const STORIES: [&str; 12] = [
    "never-found",
    "late-parent",
    "found-bad",
    "found-bad-certified",
    "certified-by-invalid",
    "successor-first",
    "certificate-spreads",
    "window-inside",
    "window-outside",
    "equivocation",
    "two-valid-versions",
    "demo",
];

pub fn drill(name: &str) -> Drill {
    named(name).unwrap_or_else(|| panic!("there is no drill {name}"))
}

/// A feed, taken apart. Its last offer may be one whose record is unreadable.
#[derive(Clone)]
pub struct Feed {
    pub settings: Vec<u8>,
    pub schedule: Vec<u8>,
    pub offers: Vec<(u8, Vec<u8>)>,
}

impl Feed {
    pub fn of(name: &str) -> Self {
        match drill(name).input {
            Input::Feed(bytes) => Self::read(&bytes),
            Input::Case(_) => panic!("{name} is no feed"),
        }
    }

    pub fn read(bytes: &[u8]) -> Self {
        let (settings, rest) = bytes.split_at(SETTINGS);
        let after = Schedule::read(rest).map_or(&[][..], |(_, after)| after);
        let (schedule, mut after) = rest.split_at(rest.len() - after.len());
        let mut offers = Vec::new();
        while let Some((leader, rest)) = after.split_first() {
            after = Point::read(rest).map_or(&[][..], |(_, after)| after);
            offers.push((*leader, rest[..rest.len() - after.len()].to_vec()));
        }
        Self { settings: settings.to_vec(), schedule: schedule.to_vec(), offers }
    }

    /// The points that are offered, of a feed whose records are readable.
    pub fn points(&self) -> Vec<Point> {
        self.offers.iter().map(|(_, record)| Point::read(record).expect("a record").0).collect()
    }

    /// The id of the point at a place, counted from 1 as `tally` counts.
    pub fn id(&self, place: usize) -> PointId {
        self.points()[place - 1].id
    }

    /// What each offer gives, in one book. A feed without offers gives what an empty record does: a schedule is tested
    /// before it.
    pub fn answers(&self) -> Vec<Result<Verdict, Refusal>> {
        let mut book = match Book::open(vec![0; BOOK], &self.settings) {
            Ok(book) => book,
            Err(refusal) => return vec![Err(refusal)],
        };
        if self.offers.is_empty() {
            return vec![book.offer(&self.schedule, 0, &[])];
        }
        self.offers.iter().map(|(leader, record)| book.offer(&self.schedule, *leader, record)).collect()
    }

    pub fn last_answer(&self) -> Answer {
        answer(self.answers().last().expect("there is always one"))
    }
}

/// A call's letter, and the number of the reason or of the refusal.
pub fn letter(given: &Result<Verdict, Refusal>) -> (char, u8) {
    match given {
        Ok(Verdict::Fail(_)) => ('F', 0),
        Ok(Verdict::IllFormed(reason)) => ('L', reason.number()),
        Ok(Verdict::Invalid(reason)) => ('I', reason.number()),
        Ok(Verdict::TransInvalid(_)) => ('T', 0),
        Ok(Verdict::Valid) => ('V', 0),
        Err(refusal) => ('-', refusal.number()),
    }
}

pub fn answer(given: &Result<Verdict, Refusal>) -> Answer {
    match letter(given) {
        ('-', number) => Answer::Number(number),
        (letter, reason) => Answer::Verdict { letter, reason },
    }
}

/// What the call of a case gives. No drill is there for a record that is written or converted, or for rows.
pub fn case_answer(bytes: &[u8]) -> Answer {
    let (kind, blobs) = (bytes[0], blobs(bytes));
    let length = |bytes: &[u8]| u32::from_le_bytes(bytes.try_into().expect("four bytes")) as usize;
    let mut room = vec![0xa5; length(blobs[blobs.len() - 1])];
    let mut bytes = [0; ANSWER];
    let number = match *blobs {
        [settings, schedule, record, &[leader, presence], list, _] if kind == 19 => {
            lent::force(settings, schedule, record, leader, presence, list, &mut room, &mut 0)
        }
        [settings, schedule, record, _] => lent::verify(settings, schedule, record, &mut room, &mut bytes),
        [settings, schedule, record, &[leader, presence], list, _] => {
            lent::judge(settings, schedule, record, leader, presence, list, &mut room, &mut bytes)
        }
        [settings, schedule, record, &[leader, presence], list, peers, _] => {
            let mut trail = std::mem::replace(&mut room, vec![0xa5; length(peers)]);
            let (room, trail) = (&mut room, &mut trail);
            lent::trail(settings, schedule, record, leader, presence, list, room, trail, &mut 0, &mut bytes)
        }
        [&[0], record, _] => return Answer::Number(lent::pairs_to_columns(record, &mut room, &mut 0)),
        [ref parts @ .., _] if parts.len() == 9 => return Answer::Number(write(parts, &mut room)),
        _ => panic!("neither verifying, judging, writing nor converting to columns"),
    };
    match number {
        0 => answer(&Ok(Verdict::read(&bytes, &room).expect("an answer of judging"))),
        number => Answer::Number(number),
    }
}

/// The number of a case of writing.
fn write(parts: &[&[u8]], out: &mut [u8]) -> u8 {
    let &[id, payload, includes, witness, evidence, proof, trigger, &[role, seq_no, is_last], times] = parts else {
        panic!("nine parts, three bytes of them the role");
    };
    let number = |bytes: &[u8]| bytes.iter().rev().fold(0, |number, byte| number << 8 | u64::from(*byte));
    let link = |bytes| <&[u8; 102]>::try_from(bytes).expect("102 bytes");
    lent::write(
        id.try_into().expect("68 bytes"),
        number(&payload[..4]) as u32,
        number(&payload[4..]) as u32,
        includes,
        witness,
        evidence,
        link(proof),
        link(trigger),
        role,
        seq_no,
        is_last,
        number(&times[..8]),
        number(&times[8..]),
        out,
        &mut 0,
    )
}

/// The blobs of a case, which has nothing after them and as many as its kind asks for.
pub fn blobs(bytes: &[u8]) -> Vec<&[u8]> {
    let (head, mut rest) = bytes.split_at(2);
    let mut blobs = Vec::new();
    while let Some((length, after)) = rest.split_first_chunk() {
        let (blob, after) = after.split_at(u32::from_le_bytes(*length) as usize);
        blobs.push(blob);
        rest = after;
    }
    assert!(rest.is_empty());
    assert_eq!(blobs.len(), usize::from(head[1]));
    let counts = [(1, 4), (2, 6), (16, 10), (17, 3), (18, 7), (19, 6)];
    assert!(counts.iter().any(|(kind, count)| head[0] == *kind && blobs.len() == *count), "{head:?}");
    blobs
}
