//! `explain --force`, and cases that ask what the network can force.

use crate::cases::case;
use crate::explain::explained;
use crate::run::{done, drill, fed};
use crate::trail::blobs;

/// The case of judging as one that asks what the network can force, with an output of this many bytes.
fn asking(judging: &[u8], output: u32, answer: &[&[u8]]) -> Vec<u8> {
    case(19, &[&blobs(judging)[..5], &[&output.to_le_bytes()], answer].concat())
}

const NO_ORDER: &str = "no order of arrival makes it invalid";
const BY_AUTHOR: &str = "its author forces this reason, which every order of arrival gives:";

/// What is said of a case: the first line, and the fronts of the others.
fn assert_said(lines: &[&str], head: &str, fronts: &[&str]) {
    assert_eq!((lines[0], lines.len()), (head, 1 + fronts.len()), "{lines:?}");
    for (line, front) in lines[1..].iter().zip(fronts) {
        assert!(line.starts_with(&format!("  {front}")), "{line}");
    }
}

#[test]
fn the_network_chooses_or_the_author_does() {
    let chosen = |count| format!("the network chooses between {count} reasons, by the order of arrival:");
    let lost = "DepNotFound (19), the point 110a0001.. of round 11 by 0a0a0a0a.., ";
    let late = "DependencyTimeTooFarInFuture (11), the point 110b0001.. of round 11 by 0b0b0b0b.., ";
    let said = |name: &str, head: &str, fronts: &[&str]| {
        let (plain, with) = (done(&["explain", "-"], &drill(name)), done(&["explain", "--force", "-"], &drill(name)));
        let (plain, with) = (explained(&plain).remove(0), explained(&with).remove(0));
        assert_eq!(with[..plain.len()], plain);
        assert_said(&with[plain.len()..], head, fronts);
        let asked = done(&["explain", "-"], &asking(&drill(name), u32::MAX, &[]));
        assert_said(&explained(&asked)[0][1..], head, fronts);
    };
    for (name, [first, second]) in [("two-reasons", [0, 1]), ("two-reasons-reversed", [1, 0])] {
        let rows = [format!("direct entry {second}: {late}"), format!("direct entry {first}: {lost}")];
        said(name, &chosen(2), &[&rows[0], &rows[1]]);
    }
    said(
        "four-faults",
        &chosen(3),
        &[
            "direct entry 0: TimeNotGreaterThanInPrevPoint (6)",
            "direct entry 1: Anchor",
            "direct entry 2: DepNotFound (19)",
        ],
    );
    said(
        "list-with-target",
        &chosen(2),
        &["indirect entry 0: AnchorLinkRole (14)", "indirect entry 1: AnchorLinkRole (14)"],
    );
    said("forced-reason", BY_AUTHOR, &["direct entry 1: AnchorTimeNotInheritedFromProof (8)"]);
    said("invalid-02", BY_AUTHOR, &["the rounds that are present: NoRoundInDag (2)"]);
    said("invalid-03", BY_AUTHOR, &["direct entry 0: DependencyRoundDropped (3)"]);
    ["list-without-target", "waits-for-two"].iter().for_each(|name| said(name, NO_ORDER, &[]));
}

#[test]
fn beside_all_faults() {
    let out = done(&["explain", "--trail", "--force", "-"], &drill("forced-reason"));
    let lines = &explained(&out)[0][3..];
    assert_eq!((lines[0], lines[3]), ("2 faults, in the order in which the rules fired:", BY_AUTHOR));
    let refused = done(&["explain", "--force", "--last", "-"], &drill("number-07"));
    assert!(!refused.contains("order of arrival"), "{refused}");
}

#[test]
fn cases_that_ask() {
    let judging = drill("two-reasons");
    let cases = [
        asking(&judging, 16, &[]),
        asking(&judging, 16, &[&[0; 21]]),
        asking(&drill("forced-reason"), 8, &[]),
        asking(&drill("waits-for-one"), 0, &[]),
        asking(&judging, 15, &[]),
        asking(&drill("number-07"), 0, &[]),
    ];
    let out = done(&["explain", "-"], &cases.concat());
    let lines = explained(&out);
    assert_eq!(lines[0][0], "force: point 120c0001.. of round 12 by 0c0c0c0c.., regular, presence 3");
    assert_eq!(lines[0][1..], lines[1][1..]);
    assert!(lines[4][1].starts_with("refused with number 17: the lent list "), "{lines:?}");
    let verdicts = "2 chosen by the network, 1 forced by the author, 1 invalid in no order, 1 refused with number 7, 1 refused with number 17";
    assert!(out.ends_with(&format!("\n\ncases: 6\nverdicts: {verdicts}\n")), "{out}");
    for arguments in [&["explain", "--force", "-"][..], &["explain", "--trail", "--force", "-"]] {
        assert_eq!(done(arguments, &cases.concat()), out);
    }
    assert!(fed(&["explain", "-"], &case(19, &blobs(&judging)[..5])).err.contains(": byte 0: expected a case: "));
}
