//! What is said of a point and of the answer to it. The words on verdicts are the crate wutherdish's.

use wutherdish::{
    Digest, FaultOf, IllFormedNumber, IllFormedReason, InvalidNumber, PeerId, Point, Refusal, Schedule, Settings,
    Verdict, Verified,
};

use crate::calls::{Answer, Said};
use crate::names::Names;

/// How many unknown peers the words on a verdict name themselves.
const NAMED: usize = 8;

/// Words with names for ids.
pub struct Words {
    /// How ids are named.
    pub names: Names,
}

impl Words {
    /// A point, and what it is.
    pub fn point(&self, point: &Point, leader: u8) -> String {
        let leader = match leader {
            0 => String::new(),
            1 => ", leader".into(),
            other => format!(", leader flag {other}"),
        };
        format!("{}, {}{leader}", self.names.say(&point.id), point.role)
    }

    /// What a point record says, line by line. With whole ids `compose` makes the record of it again.
    pub fn record(&self, point: &Point) -> Vec<String> {
        let (messages, bytes) = (point.payload_len as usize, point.payload_bytes as usize);
        let payload = format!("payload: {}, {}", counted(messages, "message"), counted(bytes, "byte"));
        let mut lines = vec![self.point(point, 0), payload];
        for (map, pairs) in [("includes", &point.includes), ("witness", &point.witness)] {
            lines.push(format!("{map}: {}", pairs.len()));
            let row = |(peer, digest): (&PeerId, &Digest)| {
                format!("  {} by {}", self.names.name(&digest.0), self.names.name(&peer.0))
            };
            lines.extend(pairs.iter().map(row));
        }
        lines.push(format!("evidence: {}", point.evidence.len()));
        lines.extend(point.evidence.iter().map(|peer| format!("  {}", self.names.name(&peer.0))));
        lines.extend([
            format!("anchor proof link: {}", self.names.say(&point.anchor_proof)),
            format!("anchor trigger link: {}", self.names.say(&point.anchor_trigger)),
            format!("time: {}", point.time),
            format!("anchor time: {}", point.anchor_time),
        ]);
        lines
    }

    /// The answer to a point, line by line.
    pub fn answer(&self, answer: &Result<Answer, Refusal>) -> Vec<String> {
        let (verdict, said) = match answer {
            Ok(Answer::Verdict(verdict)) => (verdict, None),
            Ok(Answer::Judged(verdict, said)) => (verdict, Some(said)),
            Ok(Answer::Clearing(clearing)) => return vec![self.names.say(clearing)],
            Ok(Answer::Forced(reasons)) => return self.forced(reasons),
            Ok(Answer::Passed) => return vec![Verified::Passed.to_string()],
            Ok(Answer::Converted) => return vec!["converted".into()],
            Ok(Answer::Written) => return vec!["written".into()],
            Err(refusal) => return vec![format!("refused with number {}: {refusal}", refusal.number())],
        };
        let mut lines = vec![self.names.say(verdict)];
        lines.extend(name(verdict).map(|name| format!("reason {}, {name}", verdict.reason_number())));
        if let Verdict::IllFormed(IllFormedReason::UnknownPeers { peers, .. }) = verdict {
            let more = peers.iter().skip(NAMED);
            lines.extend(more.map(|peer| format!("unknown too: {}", self.names.say(peer))));
        }
        lines.extend(said.iter().flat_map(|said| self.said(said)));
        lines
    }

    /// What else is said of a verdict.
    fn said(&self, said: &Said) -> Vec<String> {
        let Said { faults, clearing, forced } = said;
        let mut lines: Vec<String> = clearing.iter().map(|clearing| self.names.say(clearing)).collect();
        if !faults.is_empty() {
            lines.push(format!("{}, in the order in which the rules fired:", counted(faults.len(), "fault")));
            lines.extend(self.rows(faults));
        }
        lines.extend(forced.iter().flat_map(|reasons| self.forced(reasons)));
        lines
    }

    /// What the network chooses between, or what the author forces.
    fn forced(&self, reasons: &[FaultOf]) -> Vec<String> {
        let head = match reasons {
            [] => "no order of arrival makes it invalid".into(),
            [_] => "its author forces this reason, which every order of arrival gives:".into(),
            [..] => format!("the network chooses between {} reasons, by the order of arrival:", reasons.len()),
        };
        std::iter::once(head).chain(self.rows(reasons)).collect()
    }

    fn rows(&self, faults: &[FaultOf]) -> impl Iterator<Item = String> {
        faults.iter().map(|fault| format!("  {}", self.names.say(fault)))
    }

    /// Settings.
    pub fn settings(&self, settings: &Settings) -> String {
        let Settings { genesis_round, genesis_digest, payload_batch_bytes, .. } = settings;
        let Settings { sticky_anchors, clock_skew_millis, commit_history_rounds, .. } = settings;
        format!(
            "genesis {} of round {genesis_round}; payload_batch_bytes {payload_batch_bytes}, \
             sticky_anchors {sticky_anchors}, clock_skew_millis {clock_skew_millis}, \
             commit_history_rounds {commit_history_rounds}",
            self.names.say(genesis_digest)
        )
    }
}

/// A schedule.
pub fn schedule(schedule: &Schedule) -> String {
    let mut words = String::new();
    for span in &schedule.spans {
        words += &format!("{} from round {} on, ", counted(span.peers.len(), "peer"), span.first_round);
    }
    format!("{words}known up to round {}", schedule.last_known_round)
}

/// How many there are, and of what.
fn counted(count: usize, one: &str) -> String {
    format!("{count} {one}{}", if count == 1 { "" } else { "s" })
}

/// The source's name of a verdict's reason.
fn name(verdict: &Verdict) -> Option<&'static str> {
    match verdict {
        Verdict::IllFormed(reason) => IllFormedNumber(reason.number()).name(),
        Verdict::Invalid(reason) => InvalidNumber(reason.number()).name(),
        Verdict::Fail(_) | Verdict::TransInvalid(_) | Verdict::Valid => None,
    }
}
