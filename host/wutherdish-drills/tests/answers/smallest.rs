//! Nothing can be left out of a drill. The stories are larger than their last answer needs.

use std::collections::BTreeSet;

use wutherdish::{PeerId, Schedule};
use wutherdish_drills::{Drill, Input, all};

use crate::run::{Feed, STORIES};

fn smallest() -> impl Iterator<Item = (Drill, Feed)> {
    all().into_iter().filter(|drill| !STORIES.contains(&drill.name)).filter_map(|drill| {
        let Input::Feed(bytes) = &drill.input else { return None };
        let feed = Feed::read(bytes);
        Some((drill, feed))
    })
}

/// The feed with some of its offers: those whose bits are set.
fn part(feed: &Feed, chosen: u32) -> Feed {
    let offers = feed.offers.iter().enumerate().filter(|(place, _)| chosen >> place & 1 == 1);
    Feed { offers: offers.map(|(_, offer)| offer.clone()).collect(), ..feed.clone() }
}

/// Not even several of the earlier offers can be left out together.
#[test]
fn the_last_answer_hangs_on_every_offer() {
    for (drill, feed) in smallest().filter(|(_, feed)| feed.offers.len() > 1) {
        let last = 1 << (feed.offers.len() - 1);
        for earlier in 0..last - 1 {
            let answer = part(&feed, last | earlier).last_answer();
            assert_ne!(answer, drill.answer, "{} with the offers {earlier:b} alone before its last", drill.name);
        }
    }
}

/// One offer where no dependency is asked for, else the parent that decides; the drills with more say why.
#[test]
fn offers_are_few() {
    for (drill, feed) in smallest() {
        let count = match drill.name {
            "number-01" | "number-02" => 0,
            "invalid-19" => 1,
            "invalid-09" => 3,
            "trans-invalid" => 4,
            "invalid-13" | "invalid-14" => 5,
            "number-11" | "number-12" => 2,
            name if name.starts_with("invalid-") => 2,
            _ => 1,
        };
        assert_eq!(feed.offers.len(), count, "{}", drill.name);
    }
}

/// One peer up to the genesis round, three above it, and four where the author's own point is left out.
#[test]
fn peers_are_few() {
    for (drill, feed) in smallest().filter(|(drill, _)| drill.name != "number-02") {
        let (schedule, _) = Schedule::read(&feed.schedule).expect("a schedule");
        let peers: BTreeSet<PeerId> = schedule.spans.into_iter().flat_map(|span| span.peers).collect();
        let count = match drill.name {
            "fail" | "number-03" => 1,
            "invalid-09" | "invalid-10" => 4,
            _ if feed.points().iter().all(|point| point.id.round <= 10) => 1,
            _ => 3,
        };
        assert_eq!(peers.len(), count, "{}", drill.name);
    }
}
