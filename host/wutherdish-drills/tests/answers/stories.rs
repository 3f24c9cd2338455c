//! The stories, offer by offer.

use wutherdish::{Book, InvalidReason, PeerId, PointId, Verdict};

use crate::run::{Feed, letter};

/// The letters with their numbers, as `tally` prints them.
fn told(feed: &Feed) -> Vec<String> {
    let word =
        |(letter, number): (char, u8)| if number == 0 { letter.to_string() } else { format!("{letter}{number}") };
    feed.answers().iter().map(|given| word(letter(given))).collect()
}

/// The root cause of the last answer, with the peer that it came through.
fn root(feed: &Feed) -> (PointId, PeerId) {
    match feed.answers().last() {
        Some(Ok(Verdict::TransInvalid(root))) => (root.link.to, root.link.through.peer()),
        other => panic!("{other:?}"),
    }
}

fn without(feed: &Feed, place: usize) -> Feed {
    let mut rest = feed.clone();
    rest.offers.remove(place - 1);
    rest
}

/// The other parents in `equivocation` are an exception: they keep out reasons that are replaced. So is the successor in
/// `successor-first`, which marks nothing.
#[test]
fn a_later_answer_hangs_on_every_offer() {
    let names = ["never-found", "found-bad", "found-bad-certified", "certified-by-invalid", "certificate-spreads"];
    for name in names.into_iter().chain(["window-inside", "window-outside"]) {
        let feed = Feed::of(name);
        for place in 1..feed.offers.len() {
            assert_ne!(feed.answers()[place..], without(&feed, place).answers()[place - 1..], "{name}, offer {place}");
        }
    }
}

#[test]
fn a_parent_that_is_never_found_found_bad_or_certified() {
    let feeds = ["never-found", "found-bad", "found-bad-certified"].map(Feed::of);
    let [never, bad, certified] = &feeds;
    assert_eq!(told(never), ["V", "V", "V", "I19"]);
    assert_eq!(told(bad), ["V", "I8", "V", "V", "T"]);
    assert_eq!(told(certified), ["V", "I8", "V", "V", "V", "V"]);
    let parent = bad.id(2);
    assert_eq!(never.answers().last(), Some(&Ok(Verdict::Invalid(InvalidReason::DepNotFound { id: parent }))));
    assert_eq!(root(bad), (parent, parent.author));
    // one offer more each time
    assert_eq!(without(bad, 2).offers, never.offers);
    assert_eq!(without(certified, 5).offers, bad.offers);
    assert_eq!(certified.id(5).author, parent.author);
}

/// The parent is valid, and so is another's point above it. The child's verdict stays.
#[test]
fn a_parent_that_comes_late() {
    let [never, late] = ["never-found", "late-parent"].map(Feed::of);
    assert_eq!(told(&late), ["V", "V", "V", "I19", "V", "V", "-11"]);
    assert_eq!(late.offers[..4], never.offers[..]);
    assert_eq!(late.offers[6], late.offers[3]);
    let [child, other] = [4, 6].map(|place| late.points()[place - 1].clone());
    assert_eq!(child.includes, other.includes);
    assert_eq!(child.includes.get(&late.id(5).author), Some(&late.id(5).digest));
}

/// Without the certifier the child is that of `found-bad`.
#[test]
fn a_certifier_that_is_itself_invalid() {
    let [bad, feed] = ["found-bad", "certified-by-invalid"].map(Feed::of);
    assert_eq!(told(&feed), ["V", "I8", "V", "V", "I6", "V"]);
    assert_eq!(without(&feed, 5).offers, bad.offers);
    assert_eq!(feed.points()[4].prev_digest(), Some(feed.id(2).digest));
}

/// The same points as in `found-bad-certified`, and the parent has no mark.
#[test]
fn a_successor_that_comes_first() {
    let [certified, feed] = ["found-bad-certified", "successor-first"].map(Feed::of);
    assert_eq!(told(&feed), ["V", "V", "V", "I19", "I8", "T"]);
    let moved = [1, 5, 2, 3, 4, 6].map(|place| feed.offers[place - 1].clone());
    assert_eq!(moved[..], certified.offers[..]);
    assert_eq!(root(&feed).0, feed.id(5));
}

/// Without the point that certifies, the last one inherits from its witness, which is the root cause itself and comes first in the
/// list.
#[test]
fn a_certificate_that_spreads() {
    let feed = Feed::of("certificate-spreads");
    assert_eq!(told(&feed), ["V", "I8", "V", "V", "V", "T", "V", "V", "V", "V"]);
    let [bad, heir, certifier] = [2, 6, 9].map(|place| feed.id(place));
    let points = feed.points();
    assert_eq!((certifier.author, points[8].prev_digest()), (heir.author, Some(heir.digest)));
    assert_eq!(points[9].witness.get(&bad.author), Some(&bad.digest));
    assert_eq!(root(&without(&feed, 9)), (bad, bad.author));

    let mut book = Book::open(vec![0; 65_536], &feed.settings).expect("settings");
    for (leader, record) in &feed.offers {
        let _ = book.offer(&feed.schedule, *leader, record);
    }
    let kept = book.kept().expect("a book");
    let marked: Vec<usize> = (0..kept.len()).filter(|place| kept[*place].certified).map(|place| place + 1).collect();
    // the genesis point, those of round 11 that the marked ones of round 12 include, and B's and C's of round 12
    assert_eq!(marked, [1, 2, 3, 4, 5, 6, 7]);
}

#[test]
fn a_root_cause_inside_the_window_and_outside() {
    let [inside, outside] = ["window-inside", "window-outside"].map(Feed::of);
    assert_eq!(told(&inside), ["V", "I8", "V", "V", "T", "V", "V", "T"]);
    assert_eq!(told(&outside), ["V", "I8", "V", "V", "T", "V", "V", "V"]);
    assert_eq!(root(&inside), (inside.id(2), inside.id(5).author));
    assert_eq!(inside.offers, outside.offers);
    assert_eq!(inside.schedule, outside.schedule);
    let last = inside.settings.len() - 1;
    assert_eq!(inside.settings[..last], outside.settings[..last]);
    assert_eq!((inside.settings[last], outside.settings[last]), (2, 1));
}

#[test]
fn two_versions_of_one_author() {
    let feed = Feed::of("equivocation");
    assert_eq!(told(&feed), ["V", "V", "V", "V", "V", "I9", "I8", "I10"]);
    let [first, second] = [5, 7].map(|place| feed.id(place));
    assert_eq!((first.round, first.author), (second.round, second.author));
    let answers = feed.answers();
    assert_eq!(answers[5], Ok(Verdict::Invalid(InvalidReason::MustHaveReferencedPrevPoint { id: first })));
    assert_eq!(answers[7], Ok(Verdict::Invalid(InvalidReason::MustHaveSkippedRound { id: second })));
}

#[test]
fn two_versions_that_are_both_valid() {
    let feed = Feed::of("two-valid-versions");
    assert_eq!(told(&feed), ["V"; 7]);
    let [first, second] = [3, 5].map(|place| feed.id(place));
    assert_eq!((first.round, first.author), (second.round, second.author));
    assert_ne!(first.digest, second.digest);
    let points = feed.points();
    let [above_first, above_second] = [6, 7].map(|place| points[place - 1].includes.get(&first.author));
    assert_eq!((above_first, above_second), (Some(&first.digest), Some(&second.digest)));
}
