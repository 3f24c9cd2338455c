//! How often each answer appears, and which ones have to.

use std::collections::BTreeMap;

use oracle::answer::{
    Answer, FAIL, ILL_FORMED, ILL_FORMED_REASONS, INVALID, INVALID_REASONS, MAPS, NONE, PASSED, ROLES,
    STRUCTURE_ISSUES, TRANS_INVALID, VALID, Verdict,
};
use oracle::file::Case;
use oracle::numbers::{self, split};
use oracle::read;
use oracle::value::{AnchorStageRole, Entry, Id, State};

#[derive(Default)]
pub struct Histogram(BTreeMap<String, u64>);

impl Histogram {
    pub fn add(&mut self, case: &Case, answer: &Answer) {
        *self.0.entry(label(case, answer)).or_default() += 1;
    }

    /// Every label that was seen or has to be, with its count.
    pub fn rows(&self) -> BTreeMap<String, u64> {
        let mut rows = self.0.clone();
        for label in required() {
            rows.entry(label).or_default();
        }
        rows
    }

    /// The label that has to appear and did so least often.
    pub fn rarest(&self) -> (String, u64) {
        let count = |label: String| (self.0.get(&label).copied().unwrap_or(0), label);
        let (count, label) = required().into_iter().map(count).min().unwrap_or_default();
        (label, count)
    }

    /// The labels that have to appear and did so less than `least` times.
    pub fn lacking(&self, least: u64) -> Vec<String> {
        required().into_iter().filter(|label| self.0.get(label).copied().unwrap_or(0) < least).collect()
    }
}

/// What tells an answer from others: verdict, reason, map, role and what else the reason tells apart.
pub fn label(case: &Case, answer: &Answer) -> String {
    match answer {
        Answer::Number(number) => number_label(*number),
        Answer::Panic(_) => "panic".to_string(),
        Answer::Verdict(verdict) => verdict_label(case, verdict),
    }
}

fn number_label(number: u8) -> String {
    format!("number {number} {}", numbers::WORDS[usize::from(number) - 1])
}

fn verdict_label(case: &Case, verdict: &Verdict) -> String {
    let map = if verdict.map == NONE { "" } else { MAPS[usize::from(verdict.map)] };
    let role = if verdict.role == NONE { "" } else { ROLES[usize::from(verdict.role)] };
    let rest = match verdict.kind {
        VALID => return "valid".to_string(),
        PASSED => return "passed".to_string(),
        FAIL => return words(["fail", map, "", ""]),
        TRANS_INVALID => return words(["trans-invalid", "through", recorded(case, verdict, map), ""]),
        ILL_FORMED => ill_formed_rest(verdict, map, role),
        _ => invalid_rest(verdict, map, role),
    };
    let kind = if verdict.kind == INVALID { "invalid" } else { "ill-formed" };
    format!("{kind} {:02} {rest}", verdict.reason)
}

fn ill_formed_rest(verdict: &Verdict, map: &str, role: &str) -> String {
    let name = verdict.reason_name();
    let detail = match (verdict.reason, verdict.first, verdict.second) {
        (7, 1, 0) => "ExpectedGenesis not",
        (7, issue, _) => STRUCTURE_ISSUES[issue as usize - 1],
        (16, 0, _) => "no leader",
        (16, _, _) => "leader",
        _ => "",
    };
    words([name, detail, role, map])
}

fn invalid_rest(verdict: &Verdict, map: &str, role: &str) -> String {
    let detail = match (verdict.reason, verdict.first) {
        (17, 0) => "source",
        (17, _) => "target",
        _ => "",
    };
    words([verdict.reason_name(), detail, role, map])
}

fn words(parts: [&str; 4]) -> String {
    parts.into_iter().filter(|part| !part.is_empty()).collect::<Vec<_>>().join(" ")
}

/// The map that the root came through, or the indirect target that alone carries it.
fn recorded<'a>(case: &Case, verdict: &Verdict, map: &'a str) -> &'a str {
    let Case::Judge { list, .. } = case else { return map };
    let entries = read::list(list).unwrap_or_default();
    let (direct, indirect) = split(&entries);
    let carries = |entry: &&Entry| root(entry) == verdict.id;
    if direct.iter().any(|entry| carries(&entry)) {
        return map;
    }
    match indirect.iter().find(carries).and_then(|entry| entry.indirect) {
        Some(AnchorStageRole::Proof) => "indirect proof",
        Some(AnchorStageRole::Trigger) => "indirect trigger",
        None => map,
    }
}

fn root(entry: &Entry) -> Option<Id> {
    match &entry.state {
        State::TransInvalid(_, root, _) => Some(*root),
        State::Invalid(point, _) => Some(point.id),
        _ => None,
    }
}

/// Every answer that can be given, but a panic.
fn required() -> Vec<String> {
    let mut labels = vec!["valid".to_string(), "passed".to_string()];
    labels.extend((1..=9).map(number_label));
    labels.extend(MAPS.map(|map| format!("fail {map}")));
    for through in ["includes", "witness", "indirect proof", "indirect trigger"] {
        labels.push(format!("trans-invalid through {through}"));
    }
    for reason in 3..=16 {
        let name = ILL_FORMED_REASONS[reason - 1];
        labels.extend(ill_formed_details(reason).iter().map(|rest| row("ill-formed", reason, name, rest)));
    }
    for reason in 2..=19 {
        let name = INVALID_REASONS[reason - 1];
        labels.extend(invalid_details(reason).iter().map(|rest| row("invalid", reason, name, rest)));
    }
    labels
}

fn row(kind: &str, reason: usize, name: &str, rest: &str) -> String {
    format!("{kind} {reason:02} {}", words([name, rest, "", ""]))
}

/// What tells the answers of one ill-formed reason apart. The includes are never asked to be empty, and the
/// witness has no least number.
fn ill_formed_details(reason: usize) -> &'static [&'static str] {
    match reason {
        7 => &[
            "ExpectedGenesis",
            "ExpectedGenesis not",
            "BadGenesisPrevPoint",
            "AuthorInMap evidence",
            "AuthorInMap includes",
            "AuthorInMap witness",
            "TriggerBadProofLink",
            "Link proof includes",
            "Link proof witness",
            "Link trigger includes",
            "Link trigger witness",
            "AnchorTime",
            "NoPrevPoint",
        ],
        11 => &["evidence", "witness"],
        12 => &["evidence", "includes", "witness"],
        13 => &["proof", "trigger"],
        14 => &["evidence", "includes"],
        16 => &["leader", "no leader"],
        _ => &[""],
    }
}

fn invalid_details(reason: usize) -> &'static [&'static str] {
    match reason {
        2 => &MAPS,
        12..=15 => &ROLES,
        17 => &["source", "target"],
        _ => &[""],
    }
}
