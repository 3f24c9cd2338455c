//! What a call leaves, and what it has to.

use book::Offer;
use oracle::file::Case;
use oracle::value::Peer;
use oracle::{Answer, Verdict, read};
use wutherdish::lent::{self, ANSWER};

/// What lent bytes hold before a call.
pub const FILL: u8 = 0xA5;

/// What a call has to leave: its number or 0, the answer's bytes, and the peers at the buffer's front.
#[derive(Clone, PartialEq, Eq)]
pub struct Expected {
    pub number: u8,
    pub answer: [u8; ANSWER],
    pub unknown: Vec<Peer>,
}

impl Expected {
    /// With a number nothing changes. A panic is no answer.
    pub fn new(answer: &Answer) -> Option<Self> {
        Some(match answer {
            Answer::Number(number) => Self { number: *number, answer: [FILL; ANSWER], unknown: Vec::new() },
            Answer::Verdict(verdict) => Self { number: 0, answer: verdict.bytes(), unknown: verdict.unknown.clone() },
            Answer::Panic(_) => return None,
        })
    }
}

/// What the calls are lent, and the number that the last one gave.
pub struct Lent {
    pub number: u8,
    pub answer: [u8; ANSWER],
    pub peers: Vec<u8>,
    /// Never lent: as many bytes of `FILL` as `peers` ever had.
    untouched: Vec<u8>,
}

impl Default for Lent {
    fn default() -> Self {
        Self { number: 0, answer: [FILL; ANSWER], peers: Vec::new(), untouched: Vec::new() }
    }
}

impl Lent {
    /// A freshly filled peer buffer of this length, and answer.
    fn fill(&mut self, peer_buffer: u32) -> (&mut [u8], &mut [u8; ANSWER]) {
        let length = peer_buffer as usize;
        self.peers.clear();
        self.peers.resize(length, FILL);
        if self.untouched.len() < length {
            self.untouched.resize(length, FILL);
        }
        self.answer = [FILL; ANSWER];
        (&mut self.peers, &mut self.answer)
    }

    /// Calls the library on freshly filled bytes.
    pub fn call(&mut self, case: &Case) {
        let (Case::Verify { peer_buffer, .. } | Case::Judge { peer_buffer, .. }) = case;
        let (peers, answer) = self.fill(*peer_buffer);
        self.number = match case {
            Case::Verify { settings, schedule, record, .. } => lent::verify(settings, schedule, record, peers, answer),
            Case::Judge { settings, schedule, record, leader, presence, list, .. } => {
                lent::judge(settings, schedule, record, *leader, *presence, list, peers, answer)
            }
        };
    }

    /// The library's answer to a case, as the oracle says it.
    pub fn answer(&mut self, case: &Case) -> Answer {
        self.call(case);
        if self.number != 0 { Answer::Number(self.number) } else { self.verdict().into() }
    }

    /// The last answer's fields, but for the peers.
    fn verdict(&self) -> Verdict {
        let answer = &self.answer;
        let part = |at: usize| u32::from_le_bytes(std::array::from_fn(|place| answer[at + place]));
        Verdict {
            id: Some(read::id(&std::array::from_fn(|place| answer[2 + place]))),
            map: answer[70],
            role: answer[71],
            first: part(72),
            second: part(76),
            root_reason: answer[80],
            peer: Some(std::array::from_fn(|place| answer[81 + place])),
            ..Verdict::new(answer[0], answer[1])
        }
    }

    /// Offers a point to the book in a slice, likewise.
    pub fn offer(&mut self, slice: &mut [u8], offer: &Offer) {
        let (peers, answer) = self.fill(offer.peer_buffer);
        self.number = lent::offer(slice, &offer.schedule, offer.leader, &offer.record, peers, answer);
    }

    /// Whether number, answer and every byte of the peer buffer are as expected.
    pub fn is(&self, expected: &Expected) -> bool {
        let unknown = expected.unknown.as_flattened();
        let Some((front, rest)) = self.peers.split_at_checked(unknown.len()) else { return false };
        self.number == expected.number
            && self.answer == expected.answer
            && front == unknown
            && rest == &self.untouched[..rest.len()]
    }
}
