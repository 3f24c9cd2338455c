//! What an offer reached.

use std::collections::HashSet;

use book::{Book, MOST, State as Kept};
use oracle::answer::{INVALID, TRANS_INVALID};
use oracle::numbers::{FULL, is_version, split};
use oracle::read;
use oracle::value::{AnchorStageRole, Entry, Id, Point, Settings, State};
use oracle::{Answer, Verdict};

use crate::Step;

/// The features of a step that led to this book.
pub fn features(book: &Book, step: &Step) -> Vec<&'static str> {
    let mut features = Vec::new();
    if step.offered.stood_in {
        features.push("254 or 255 peers: the plain judge stood in");
    }
    match &step.offered.answer {
        Answer::Number(FULL) if book.entries().len() == MOST => features.push("full by its entries"),
        Answer::Number(FULL) => features.push("full by its bytes"),
        Answer::Verdict(verdict) => verdict_features(book, step, verdict, &mut features),
        _ => {}
    }
    features
}

fn verdict_features(book: &Book, step: &Step, verdict: &Verdict, features: &mut Vec<&'static str>) {
    let Some(point) = read::record(&step.offer.record) else { return };
    let Some(settings) = read::settings(book.settings()) else { return };
    if let Some((place, before)) = step.offered.marked {
        features.push(mark(&book.entries()[place].state, before));
        if !before && verdict.kind == INVALID {
            features.push("mark: stays with an invalid verdict");
        }
    }
    if let Some(entries) = step.offered.list.as_deref().and_then(read::list) {
        schedule_features(step, &point, features);
        list_features(&settings, &point, &entries, step.offered.marked.is_some(), features);
    }
    if verdict.kind == TRANS_INVALID && verdict.id.is_some_and(|root| root.round + 2 < point.id.round) {
        features.push("trans-invalid: the root is over 2 rounds old");
    }
    kept_features(book, &point, features);
}

fn schedule_features(step: &Step, point: &Point, features: &mut Vec<&'static str>) {
    let Some(schedule) = read::schedule(&step.offer.schedule) else { return };
    let [before, now, then] =
        [point.id.round - 1, point.id.round, point.id.round + 4].map(|round| schedule.span(round));
    if before != now {
        features.push("schedule: r-1 is in another span");
    }
    if now != then {
        features.push("schedule: r+4 is in another span");
    }
}

fn mark(state: &Kept, before: bool) -> &'static str {
    match state {
        _ if before => "mark: made before",
        Kept::Valid => "mark: on valid",
        Kept::TransInvalid(_) => "mark: on trans-invalid",
        Kept::Invalid(_) => "mark: on invalid",
        Kept::IllFormed(_) => "mark: on ill-formed",
    }
}

fn list_features(
    settings: &Settings,
    point: &Point,
    entries: &[Entry],
    marked: bool,
    features: &mut Vec<&'static str>,
) {
    let (direct, indirect) = split(entries);
    let versions = direct.iter().filter_map(|entry| entry.state.id()).filter(|id| is_version(point, id)).count();
    match (point.prev_digest().is_some(), versions) {
        (true, _) if !marked => features.push("list: the previous point is not kept"),
        (true, _) => {}
        (false, 0) => features.push("list: no previous digest, no version"),
        (false, 1) => features.push("list: one version"),
        (false, _) => features.push("list: two versions or more"),
    }
    let reached: HashSet<_> = direct.iter().filter_map(|entry| direct_feature(settings, point, entry)).collect();
    features.extend(reached);
    features.extend(indirect.iter().map(|entry| indirect_feature(&entry.state)));
    indirect_order(point, indirect, features);
    let ids: HashSet<&Id> = direct.iter().filter_map(|entry| entry.state.id()).collect();
    if indirect.iter().filter_map(|entry| entry.state.id()).any(|id| ids.contains(id)) {
        features.push("list: an id as direct entry and as target");
    }
}

fn direct_feature(settings: &Settings, point: &Point, entry: &Entry) -> Option<&'static str> {
    let history = u32::from(settings.commit_history_rounds);
    Some(match &entry.state {
        State::TransInvalid(..) if entry.certified => "list: trans-invalid, certified",
        State::TransInvalid(_, root, _) if point.id.round - 1 < root.round + history => {
            "list: trans-invalid, in the window"
        }
        State::TransInvalid(..) => "list: trans-invalid, out of the window",
        State::Invalid(..) if entry.certified => "list: invalid, certified",
        State::Invalid(..) => "list: invalid, not certified",
        State::IllFormed(..) => "list: ill-formed",
        State::NotFound(_) => "list: not found",
        State::Valid(_) if !entry.first_valid => "list: valid, not the first",
        State::Valid(_) | State::Dropped => return None,
    })
}

fn indirect_feature(state: &State) -> &'static str {
    match state {
        State::Valid(_) => "target: valid",
        State::TransInvalid(..) => "target: trans-invalid",
        State::Invalid(..) => "target: invalid",
        State::IllFormed(..) => "target: ill-formed",
        State::NotFound(_) | State::Dropped => "target: not found",
    }
}

fn indirect_order(point: &Point, indirect: &[Entry], features: &mut Vec<&'static str>) {
    let [first, _] = indirect else { return };
    let rounds = AnchorStageRole::ALL.map(|role| point.link(role).to.map(|to| to.round));
    features.push(match first.indirect {
        _ if rounds[0] == rounds[1] => "targets: of one round",
        Some(AnchorStageRole::Trigger) => "targets: the trigger first",
        _ => "targets: the proof first",
    });
}

fn kept_features(book: &Book, point: &Point, features: &mut Vec<&'static str>) {
    let Some((last, before)) = book.entries().split_last() else { return };
    if last.id != point.id {
        return;
    }
    if before.iter().any(|entry| entry.id.round == point.id.round && entry.id.author == point.id.author) {
        features.push("kept: a second version");
    }
    let genesis = |id: &Id| read::settings(book.settings()).is_some_and(|settings| settings.genesis_round == id.round);
    if genesis(&last.id) && last.state == Kept::Valid && before.iter().any(|entry| genesis(&entry.id)) {
        features.push("kept: a second genesis point");
    }
    if before.iter().any(|entry| entry.id.round > point.id.round) {
        features.push("kept: late, after a higher round");
    }
    if book.used() == book.length() {
        features.push("kept: an exact fit");
    }
    if book.entries().len() == MOST {
        features.push("kept: the last of 4,096");
    }
}
