//! What a crew reads: every answer is one line that names what it carries.

mod tables;

use std::collections::BTreeSet;
use std::error::Error;

use wutherdish::PointMap::{Includes, Witness};
use wutherdish::{
    AnchorLink, BuildError, Clearing, Fault, FaultOf, IllFormedNumber, IllFormedReason, IndirectLink,
    InvalidDependency, InvalidNumber, InvalidReason, Kept, Point, PointRole, Refusal, SetBy, Status, Through,
    UninitVset, Unreadable, Verdict, Verified, VerifyError,
};

use crate::tables::{ID, PEER, ill_formed, invalid, issues};

/// One line for a crew that names these things, and says what is so, not what should be.
fn assert_line(line: &str, named: &[&str]) {
    assert!(!line.is_empty() && !line.contains(['\n', '{', '}']), "{line:?}");
    assert!(line.starts_with(|first: char| first.is_ascii_lowercase()), "{line}");
    assert!(!line.ends_with('.') || line.ends_with(".."), "a period that is no cut id's: {line}");
    assert!(!line.contains(" must "), "a rule, where the fault is wanted: {line}");
    for name in named {
        assert!(line.contains(name), "{name} is not in: {line}");
    }
}

/// The same, for a text in which the point has a place: whole ids are shown where they are asked for.
fn assert_names_point(short: &str, long: &str) {
    assert_line(short, &["point 1a1a1a1a.. of round 70123 by 0b0b0b0b.."]);
    assert_line(long, &[&"1a".repeat(32), &"0b".repeat(32), "round 70123"]);
}

fn assert_error<E: Error>(error: &E, named: &[&str]) {
    assert_line(&error.to_string(), named);
}

fn all_different(lines: impl IntoIterator<Item = String>) {
    let mut seen = BTreeSet::new();
    for line in lines {
        assert!(seen.insert(line.clone()), "twice: {line}");
    }
}

#[test]
fn ill_formed_reasons() {
    let mut numbers = BTreeSet::new();
    for (reason, named) in ill_formed() {
        assert_error(&reason, &named);
        numbers.insert(reason.number());
        let name = IllFormedNumber(reason.number()).name().expect("a name");
        assert!(format!("{reason:?}").starts_with(name), "{name} is not the name of {reason:?}");
        let error = VerifyError::IllFormed(reason.clone());
        assert_error(&error, &[&format!("ill-formed: {reason}")]);
        assert_eq!(Verified::Failed(error).to_string(), Verdict::IllFormed(reason).to_string());
    }
    assert_eq!(numbers, (3..=16).collect());
    all_different(ill_formed().iter().map(|(reason, _)| reason.to_string()));
    let whole = format!("{:#}", IllFormedReason::UnknownPeers { peers: vec![PEER], map: Includes });
    assert_line(&whole, &[&"c7".repeat(32)]);
}

#[test]
fn structure_issues() {
    for (issue, named) in issues() {
        assert_error(&issue, &named);
        assert_eq!(IllFormedReason::Structure(issue).to_string(), issue.to_string());
    }
    all_different(issues().iter().map(|(issue, _)| issue.to_string()));
}

#[test]
fn invalid_reasons() {
    let mut numbers = BTreeSet::new();
    for (reason, named) in invalid() {
        assert_error(&reason, &named);
        numbers.insert(reason.number());
        let name = InvalidNumber(reason.number()).name().expect("a name");
        assert!(format!("{reason:?}").starts_with(name), "{name} is not the name of {reason:?}");
        let verdict = Verdict::Invalid(reason);
        assert_line(&verdict.to_string(), &[&format!("invalid: {reason}")]);
        assert_eq!(reason.id().is_some(), reason.number() > 3);
        if reason.id().is_some() {
            assert_names_point(&verdict.to_string(), &format!("{verdict:#}"));
        }
    }
    assert_eq!(numbers, (2..=19).collect());
    all_different(invalid().iter().map(|(reason, _)| reason.to_string()));
}

#[test]
fn reasons_by_number() {
    for number in 0..=255 {
        let (ill_formed, invalid) = (IllFormedNumber(number), InvalidNumber(number));
        assert_eq!(ill_formed.name().is_some(), (1..=16).contains(&number));
        assert_eq!(invalid.name().is_some(), (1..=20).contains(&number));
        let in_brackets = format!("({number})");
        for (line, name) in [(ill_formed.to_string(), ill_formed.name()), (invalid.to_string(), invalid.name())] {
            assert!(line.starts_with(name.unwrap_or("unknown")), "{line}");
            assert_line(&line.to_lowercase(), &[&in_brackets]);
        }
    }
    all_different((1..=16).map(|number| IllFormedNumber(number).to_string()));
    all_different((1..=20).map(|number| InvalidNumber(number).to_string()));
}

/// A fault says what the verdict says of the same reason, but for what a row lacks: a map, seq_nos, the way and an ill-formed number.
#[test]
fn faults() {
    let places = [
        (SetBy::Presence, "the rounds that are present: "),
        (SetBy::Direct(258), "direct entry 258: "),
        (SetBy::Indirect(1), "indirect entry 1: "),
    ];
    for (reason, _) in invalid() {
        let number = InvalidNumber(reason.number());
        let role = match reason {
            InvalidReason::NewerAnchorInDependency { role, .. }
            | InvalidReason::AnchorLink { role, .. }
            | InvalidReason::AnchorLinkRole { role, .. }
            | InvalidReason::AnchorLinkBadPath { role, .. } => Some(role),
            _ => None,
        };
        for (set_by, place) in places {
            let fault = Fault { set_by, reason: number, role };
            let named = FaultOf(fault, reason.id());
            let front = format!("{place}{} ({}), ", number.name().expect("a name"), number.0);
            [fault.to_string(), named.to_string()].iter().for_each(|line| {
                assert_line(line, &[]);
                assert!(line.starts_with(&front), "{line}");
            });
            if reason.id().is_some() {
                assert_names_point(&named.to_string(), &format!("{named:#}"));
            }
            if !matches!(number.0, 2 | 16..=18) {
                assert_eq!(named.to_string(), format!("{front}{reason}"));
            }
            assert_eq!(FaultOf(fault, None).to_string(), fault.to_string());
        }
    }
}

#[test]
fn verdicts_and_entries() {
    let vset = UninitVset { len: 2, round: 70_000, map: Witness };
    assert_error(&vset, &["2 peers", "round 70000", "witness"]);
    assert_error(&VerifyError::Fail(vset), &["cannot be verified", "round 70000"]);
    assert_line(&Verdict::Fail(vset).to_string(), &[&VerifyError::Fail(vset).to_string()]);
    assert_line(&Verified::Passed.to_string(), &["verified"]);
    let dependency = InvalidDependency { link: IndirectLink { to: ID, through: Through::Witness(PEER) }, reason: 19 };
    let verdict = Verdict::TransInvalid(dependency);
    assert_names_point(&verdict.to_string(), &format!("{verdict:#}"));
    assert_line(&verdict.to_string(), &["trans-invalid", "c7c7c7c7..", "witness", "DepNotFound (19)"]);
    assert_line(&format!("{verdict:#}"), &[&"c7".repeat(32)]);
    let statuses = [
        (Status::Valid, vec!["valid"]),
        (Status::TransInvalid(dependency), vec!["trans-invalid", "c7c7c7c7..", "DepNotFound (19)"]),
        (Status::Invalid { reason: 20 }, vec!["invalid", "AfterLoadFromDb (20)"]),
        (Status::IllFormed { reason: 2 }, vec!["ill-formed", "EvidenceSigError (2)"]),
    ];
    for (status, named) in statuses {
        assert_line(&status.to_string(), &named);
        let point = Point::new(ID, 0, 0);
        for certified in [false, true] {
            let kept = Kept { point: point.clone(), status, certified };
            assert_names_point(&kept.to_string(), &format!("{kept:#}"));
            assert_line(&kept.to_string(), &named);
            assert_eq!(kept.to_string().starts_with("certified "), certified);
        }
    }
}

#[test]
fn what_is_waited_for() {
    let lines = [Clearing::NotWaiting, Clearing::NoSingleMark, Clearing::ClearedBy(ID)];
    lines.iter().for_each(|clearing| assert_line(&clearing.to_string(), &["certificate"]));
    assert_names_point(&lines[2].to_string(), &format!("{:#}", lines[2]));
    all_different(lines.iter().map(Clearing::to_string));
}

#[test]
fn letters_and_numbers() {
    let vset = UninitVset { len: 2, round: 70_000, map: Witness };
    let dependency = InvalidDependency { link: IndirectLink { to: ID, through: Through::Witness(PEER) }, reason: 19 };
    let verdicts = [
        (Verdict::Fail(vset), 'F', 0),
        (Verdict::IllFormed(IllFormedReason::NotRegular), 'L', 15),
        (Verdict::Invalid(InvalidReason::DepNotFound { id: ID }), 'I', 19),
        (Verdict::TransInvalid(dependency), 'T', 0),
        (Verdict::Valid, 'V', 0),
    ];
    for (verdict, letter, number) in verdicts {
        assert_eq!((verdict.letter(), verdict.reason_number()), (letter, number));
    }
}

#[test]
fn parts_of_a_point() {
    let roles = [
        (PointRole::Regular, "regular"),
        (PointRole::AnchorProof { seq_no: 3, is_last: false }, "anchor proof 3"),
        (PointRole::AnchorProof { seq_no: 4, is_last: true }, "anchor proof 4, the last"),
        (PointRole::AnchorTrigger, "anchor trigger"),
        (PointRole::Genesis, "genesis"),
    ];
    for (role, line) in roles {
        assert_eq!(role.to_string(), line);
    }
    for (through, map) in [(Through::Includes(PEER), "includes"), (Through::Witness(PEER), "witness")] {
        let direct = AnchorLink::Direct(through);
        let indirect = AnchorLink::Indirect(IndirectLink { to: ID, through });
        assert_line(&direct.to_string(), &["direct", "c7c7c7c7..", map]);
        assert_line(&indirect.to_string(), &["indirect", "c7c7c7c7..", map]);
        assert_names_point(&indirect.to_string(), &format!("{indirect:#}"));
        assert_line(&format!("{direct:#}"), &[&"c7".repeat(32)]);
    }
}

#[test]
fn refusals_and_errors() {
    for number in 0..=255 {
        let refusal = Refusal::new(number);
        assert_eq!(refusal.number(), number);
        assert_eq!(refusal == Refusal::Foreign(number), !matches!(number, 1..=15 | 17));
        assert_error(&refusal, &[]);
    }
    all_different((1..=18).map(|number| Refusal::new(number).to_string()));
    assert_error(&Unreadable { at: 4_711, wanted: "something" }, &["byte 4711", "something"]);
    let errors = [
        (BuildError::Map { map: Witness, len: 256 }, vec!["witness", "256"]),
        (BuildError::Spans { len: 5 }, vec!["5 spans"]),
        (BuildError::Span { first_round: 70, len: 256 }, vec!["round 70", "256"]),
        (BuildError::SpanTwice { first_round: 70 }, vec!["round 70"]),
        (BuildError::Entries { len: 65_536 }, vec!["65536"]),
    ];
    for (error, named) in errors {
        assert_error(&error, &named);
    }
}
