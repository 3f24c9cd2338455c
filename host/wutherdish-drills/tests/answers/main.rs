//! What the library answers to the drills.

mod demo;
mod format;
mod lists;
mod names;
mod reasons;
mod run;
mod smallest;
mod stories;

use wutherdish_drills::{Input, all};

use run::{Feed, case_answer};

#[test]
fn every_drill_gives_its_answer() {
    for drill in all() {
        let answer = match &drill.input {
            Input::Feed(bytes) => Feed::read(bytes).last_answer(),
            Input::Case(bytes) => case_answer(bytes),
        };
        assert_eq!(answer, drill.answer, "{}", drill.name);
    }
}
