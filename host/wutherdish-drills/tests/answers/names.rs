//! Every answer that can be given has its drill.

use std::collections::BTreeSet;

use wutherdish::{IllFormedReason, StructureIssue, Verdict};
use wutherdish_drills::{Answer, Input, all, named};

use crate::run::{Feed, STORIES};

const LISTS: [&str; 15] = [
    "list-with-version",
    "list-without-version",
    "list-with-target",
    "list-without-target",
    "flag-of-judging",
    "flag-of-arrival",
    "tie-first",
    "tie-second",
    "two-reasons",
    "two-reasons-reversed",
    "four-faults",
    "waits-for-one",
    "waits-for-one-certified",
    "waits-for-two",
    "forced-reason",
];

const STRUCTURE: [&str; 7] = [
    "expected-genesis",
    "bad-genesis-prev-point",
    "author-in-map",
    "trigger-bad-proof-link",
    "link",
    "anchor-time",
    "no-prev-point",
];

/// The names by document 01's numbers: 10 needs a damaged book.
fn expected() -> BTreeSet<String> {
    let ill_formed = (3..=16).filter(|number| *number != 7).map(|number| format!("ill-formed-{number:02}"));
    let structure = STRUCTURE.iter().map(|issue| format!("ill-formed-07-{issue}"));
    let invalid = (2..=19).map(|number| format!("invalid-{number:02}"));
    let numbers = (1..=17).filter(|number| ![10, 16].contains(number)).map(|number| format!("number-{number:02}"));
    let verdicts = ["valid", "trans-invalid", "fail"];
    let others = verdicts.iter().chain(&STORIES).chain(&LISTS).map(|name| name.to_string());
    ill_formed.chain(structure).chain(invalid).chain(numbers).chain(others).collect()
}

#[test]
fn the_names_are_those_of_all_answers() {
    let names: Vec<String> = all().iter().map(|drill| drill.name.to_string()).collect();
    let set: BTreeSet<String> = names.iter().cloned().collect();
    assert_eq!(set, expected());
    assert_eq!(names.len(), set.len());
}

#[test]
fn a_name_says_the_answer() {
    for drill in all() {
        let (word, rest) = drill.name.rsplit_once('-').unwrap_or((drill.name, ""));
        let Ok(number) = rest.parse() else { continue };
        let answer = match word {
            "ill-formed" => Answer::Verdict { letter: 'L', reason: number },
            "invalid" => Answer::Verdict { letter: 'I', reason: number },
            _ => Answer::Number(number),
        };
        assert_eq!(drill.answer, answer, "{}", drill.name);
    }
}

#[test]
fn each_structure_issue_has_its_drill() {
    for (place, issue) in STRUCTURE.iter().enumerate() {
        let answers = Feed::of(&format!("ill-formed-07-{issue}")).answers();
        let Some(Ok(Verdict::IllFormed(IllFormedReason::Structure(given)))) = answers.last() else { panic!("{issue}") };
        let number = match given {
            StructureIssue::ExpectedGenesis { .. } => 1,
            StructureIssue::BadGenesisPrevPoint => 2,
            StructureIssue::AuthorInMap { .. } => 3,
            StructureIssue::TriggerBadProofLink => 4,
            StructureIssue::Link { .. } => 5,
            StructureIssue::AnchorTime => 6,
            StructureIssue::NoPrevPoint => 7,
        };
        assert_eq!(number, place + 1, "{issue}");
    }
}

#[test]
fn only_what_no_feed_can_give_is_a_case() {
    let cases: Vec<&str> =
        all().iter().filter(|drill| matches!(drill.input, Input::Case(_))).map(|drill| drill.name).collect();
    let answers = [
        "invalid-02",
        "invalid-03",
        "number-05",
        "number-07",
        "number-08",
        "number-09",
        "number-13",
        "number-14",
        "number-15",
        "number-17",
    ];
    assert_eq!(cases, [&answers[..], &LISTS].concat());
}

#[test]
fn a_drill_is_found_by_its_name() {
    for drill in all() {
        assert_eq!(named(drill.name), Some(drill));
    }
    assert_eq!(named("number-10"), None);
}
