//! The two cases of a pair differ in their lists alone; and what a case with several faults gives, and what others wait for.

use wutherdish::{Clearing, InvalidReason, PeerId, SetBy, Verdict, clearing, judge, judge_with_trail};
use wutherdish_drills::Input;

use crate::run::{blobs, drill};

/// The blobs of a case of judging, its list apart.
fn parts(name: &str) -> (Vec<Vec<u8>>, Vec<u8>) {
    let Input::Case(bytes) = drill(name).input else { panic!("{name} is no case") };
    let mut blobs: Vec<Vec<u8>> = blobs(&bytes).into_iter().map(<[u8]>::to_vec).collect();
    let list = blobs.remove(4);
    (blobs, list)
}

fn lists([one, other]: [&str; 2]) -> [Vec<u8>; 2] {
    let ((one, list), (other, other_list)) = (parts(one), parts(other));
    assert_eq!(one, other);
    [list, other_list]
}

/// Without some bytes at one place the first list is the second.
fn is_cut(whole: &[u8], cut: &[u8]) -> bool {
    let count = whole.len() - cut.len();
    (0..=cut.len()).any(|at| [&whole[..at], &whole[at + count..]].concat() == cut)
}

#[test]
fn a_list_leaves_out_a_version_or_the_targets() {
    for pair in [["list-with-version", "list-without-version"], ["list-with-target", "list-without-target"]] {
        let [whole, cut] = lists(pair);
        assert!(whole.len() > cut.len() && is_cut(&whole, &cut), "{pair:?}");
    }
}

/// The byte is the first entry's certified flag: after tag, length and state.
#[test]
fn a_flag_is_another() {
    for pair in [["flag-of-judging", "flag-of-arrival"], ["waits-for-one-certified", "waits-for-one"]] {
        let [with, without] = lists(pair);
        let different: Vec<usize> = (0..with.len()).filter(|at| with[*at] != without[*at]).collect();
        assert_eq!((with.len(), different), (without.len(), vec![4]));
        assert_eq!((with[4], without[4]), (1, 0));
    }
}

/// The author of the root cause that judging names.
fn root_author(name: &str) -> PeerId {
    let (blobs, list) = parts(name);
    let [settings, schedule, record, flags, _] = &blobs[..] else { panic!("a case of judging has six blobs") };
    match judge(settings, schedule, record, flags[0], flags[1], &list) {
        Ok(Verdict::TransInvalid(dependency)) => dependency.link.to.author,
        other => panic!("{name}: {other:?}"),
    }
}

/// Two cases whose lists differ in the order of the first two entries alone.
fn assert_swapped(pair: [&str; 2]) {
    let [one, other] = lists(pair);
    let is_swapped = |first: usize, second: usize| {
        let [first, second] = [first, first + second];
        [&one[first..second], &one[..first], &one[second..]].concat() == other
    };
    let places = 1..one.len();
    let swapped =
        places.clone().any(|first| places.clone().take(one.len() - first).any(|second| is_swapped(first, second)));
    assert!(one != other && swapped, "{pair:?}");
}

/// Each order names the first.
#[test]
fn a_tie_is_decided_by_the_order() {
    let pair = ["tie-first", "tie-second"];
    assert_swapped(pair);
    assert_eq!(pair.map(root_author), [PeerId([0x0a; 32]), PeerId([0x0b; 32])]);
}

#[test]
fn two_reasons_in_two_orders() {
    assert_swapped(["two-reasons", "two-reasons-reversed"]);
}

/// Three entries give them, and the verdict names the last.
#[test]
fn four_faults() {
    let (blobs, list) = parts("four-faults");
    let [settings, schedule, record, flags, _] = &blobs[..] else { panic!("a case of judging has six blobs") };
    let (verdict, faults) = judge_with_trail(settings, schedule, record, flags[0], flags[1], &list).expect("a verdict");
    let said: Vec<(SetBy, u8)> = faults.iter().map(|fault| (fault.set_by, fault.reason.0)).collect();
    assert_eq!(said, [(0, 6), (1, 11), (1, 8), (2, 19)].map(|(place, reason)| (SetBy::Direct(place), reason)));
    assert!(matches!(verdict, Verdict::Invalid(InvalidReason::DepNotFound { .. })), "{verdict}");
}

/// C's point of round 12 is waited for, where the root cause is A's of round 11.
#[test]
fn what_is_waited_for() {
    let waits = |name| {
        let (blobs, list) = parts(name);
        let [settings, schedule, record, flags, _] = &blobs[..] else { panic!("a case of judging has six blobs") };
        clearing(settings, schedule, record, flags[0], flags[1], &list).expect("an answer")
    };
    let Clearing::ClearedBy(heir) = waits("waits-for-one") else { panic!("one point") };
    assert_eq!((heir.round, heir.author), (12, PeerId([0x0c; 32])));
    for name in ["waits-for-one", "waits-for-two"] {
        assert_eq!(root_author(name), PeerId([0x0a; 32]));
    }
    assert_eq!(waits("waits-for-two"), Clearing::NoSingleMark);
    assert_eq!(waits("waits-for-one-certified"), Clearing::NotWaiting);
}
