//! `explain --trail`, and cases of judging with a trail.

use wutherdish::{Digest, FaultOf, PeerId, PointId, judge_with_trail};
use wutherdish_drills::Input;

use crate::explain::explained;
use crate::run::{done, drill, fed, repository};

/// The blobs of a case.
pub fn blobs(case: &[u8]) -> Vec<&[u8]> {
    let mut rest = &case[2..];
    let mut blobs = Vec::new();
    while let Some((length, after)) = rest.split_first_chunk() {
        let (blob, after) = after.split_at(u32::from_le_bytes(*length) as usize);
        blobs.push(blob);
        rest = after;
    }
    blobs
}

/// The same case of kind 18, with a trail of this many bytes.
fn with_trail(case: &[u8], length: u32) -> Vec<u8> {
    [&[18, case[1] + 1], &case[2..], &[4, 0, 0, 0], &length.to_le_bytes()].concat()
}

fn id(round: u32, author: u8) -> PointId {
    let digest = Digest(std::array::from_fn(|place| [0x11, author, 0, 1][place % 4]));
    PointId { round, digest, author: PeerId([author; 32]) }
}

#[test]
fn all_faults_are_said_with_their_entries() {
    let case = drill("four-faults");
    let blobs = blobs(&case);
    let (_, faults) = judge_with_trail(blobs[0], blobs[1], blobs[2], 0, 3, blobs[4]).expect("a verdict");
    let points = [id(11, 0x0b), id(11, 0x0a), id(11, 0x0a), id(11, 0x0c)];
    let said: Vec<FaultOf> = faults.into_iter().zip(points).map(|(fault, id)| FaultOf(fault, Some(id))).collect();
    assert_eq!(said.len(), 4);
    let mut lines = vec!["4 faults, in the order in which the rules fired:".to_string()];
    lines.extend(said.iter().map(|fault| format!("  {fault}")));
    let plain = done(&["explain", "-"], &case);
    let with = done(&["explain", "--trail", "-"], &case);
    assert_eq!(explained(&plain)[0].len(), 3);
    let added: String = lines.iter().map(|line| format!("      {line}\n")).collect();
    let (before, after) = plain.split_once("\n\ncases: 1\n").expect("a summary");
    assert_eq!(with, format!("{before}\n{added}\ncases: 1\n{after}"));
    let whole = done(&["explain", "--trail", "--full-ids", "--last", "-"], &case);
    said.iter().for_each(|fault| assert!(whole.contains(&format!("\n        {fault:#}\n")), "{whole}"));
}

#[test]
fn a_fault_without_an_entry_or_an_id() {
    let lines = |name| done(&["explain", "--trail", "--last", "-"], &drill(name));
    let one = "      1 fault, in the order in which the rules fired:\n        ";
    assert!(lines("invalid-02").contains(&format!("{one}the rounds that are present: NoRoundInDag (2), ")));
    assert!(lines("invalid-03").contains(&format!("{one}direct entry 0: DependencyRoundDropped (3), ")));
    let indirect = lines("list-with-target");
    for (place, role) in [(0, "proof"), (1, "trigger")] {
        let said = format!(
            "indirect entry {place}: AnchorLinkRole (14), its indirect {role} link leads to the point 110c0001.."
        );
        assert!(indirect.contains(&said), "{indirect}");
    }
}

/// Of the drills and of the stored cases those that are invalid have faults, and what else is said is said without a trail too.
#[test]
fn what_else_is_said_stays() {
    let drills = wutherdish_drills::all().into_iter().filter_map(|drill| match drill.input {
        Input::Case(case) => Some(case),
        Input::Feed(_) => None,
    });
    let is_row = |line: &str| line.starts_with("        ");
    let is_head = |line: &str| line.ends_with(", in the order in which the rules fired:");
    for bytes in [drills.collect::<Vec<_>>().concat(), repository("oracle/stored/answers.bin")] {
        let (plain, with) = (done(&["explain", "-"], &bytes), done(&["explain", "--trail", "-"], &bytes));
        let rest: Vec<&str> = with.lines().filter(|line| !is_row(line) && !is_head(line)).collect();
        assert_eq!(rest, plain.lines().collect::<Vec<_>>());
        let is_invalid = |lines: &&Vec<&str>| lines[0].starts_with("judge: ") && lines[1].starts_with("invalid: ");
        let invalid = explained(&plain).iter().filter(is_invalid).count();
        let count = |is: &dyn Fn(&str) -> bool| with.lines().filter(|line| is(line)).count();
        let (heads, rows) = (count(&is_head), count(&is_row));
        assert!(invalid > 6 && heads == invalid && rows > invalid, "{heads} heads and {rows} rows of {invalid}");
    }
}

#[test]
fn a_case_with_a_trail_says_its_faults() {
    let case = drill("four-faults");
    let with = done(&["explain", "--trail", "-"], &case);
    for length in [32, 33, u32::MAX] {
        for arguments in [&["explain", "-"][..], &["explain", "--trail", "-"]] {
            assert_eq!(done(arguments, &with_trail(&case, length)), with);
            // with an answer
            let mut answered = with_trail(&case, length);
            answered[1] += 1;
            answered.extend([1, 0, 0, 0, 9]);
            assert_eq!(done(arguments, &answered), with);
        }
    }
    for arguments in [&["explain", "-"][..], &["explain", "--trail", "-"]] {
        let out = done(arguments, &with_trail(&case, 31));
        assert!(out.contains("\n      refused with number 15: the lent trail "), "{out}");
        assert!(out.ends_with("\n\ncases: 1\nverdicts: 1 refused with number 15\n"), "{out}");
    }
    let mut short = with_trail(&case, 32);
    short.pop();
    let end = short.len() - 7;
    short[end..end + 4].copy_from_slice(&[3, 0, 0, 0]);
    assert!(fed(&["explain", "-"], &short).err.contains(": byte 0: expected a case: "));
}

#[test]
fn feeds_and_records_have_no_list() {
    for input in [drill("demo"), drill("valid")[94..].to_vec()] {
        for option in ["--trail", "--force"] {
            let ran = fed(&["explain", option, "-"], &input);
            assert_eq!((ran.code, &ran.out[..]), (Some(2), ""));
            let wanted =
                format!("wutherdish: standard input is no file of cases, and {option} is for cases of judging\n");
            assert!(ran.err.starts_with(&wanted), "{}", ran.err);
        }
    }
}
