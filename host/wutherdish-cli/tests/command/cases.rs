//! `explain` on files of cases.

use wutherdish::{Point, columns_to_pairs};

use crate::explain::{explained, says};
use crate::run::{done, drill, fed, repository, split_front};

/// The answer, the last blob, of each case of a file whose cases have one.
fn answers(bytes: &[u8]) -> Vec<&[u8]> {
    let mut answers = Vec::new();
    let mut at = 0;
    while at < bytes.len() {
        let count = bytes[at + 1];
        at += 2;
        let mut blob: &[u8] = &[];
        for _ in 0..count {
            let length: [u8; 4] = bytes[at..at + 4].try_into().expect("four bytes");
            blob = &bytes[at + 4..at + 4 + u32::from_le_bytes(length) as usize];
            at += 4 + blob.len();
        }
        answers.push(blob);
    }
    answers
}

#[test]
fn every_stored_case_gives_the_stored_answer() {
    let bytes = repository("oracle/stored/answers.bin");
    let (out, answers) = (done(&["explain", "-"], &bytes), answers(&bytes));
    let cases = explained(&out);
    assert_eq!(cases.len(), answers.len());
    let of_kind = |kind: u8| answers.iter().filter(|answer| answer[..2] == [0, kind]).count();
    let kinds =
        [(0, "valid"), (5, "passed"), (1, "trans-invalid"), (2, "invalid"), (3, "ill-formed"), (4, "not verifiable")];
    let verdicts = kinds.map(|(kind, words)| format!("{} {words}", of_kind(kind))).join(", ");
    let summary = format!("\n\ncases: {}\nverdicts: {verdicts}, ", answers.len());
    assert!(out.contains(&summary), "{summary}");
    // every id that an answer names was found in its case
    let whole = out.split(|letter: char| !letter.is_ascii_hexdigit()).find(|digits| digits.len() == 64);
    assert_eq!(whole, None);
    for (lines, answer) in cases.iter().zip(answers) {
        let (number, kind, reason) = (answer[0], answer[1], answer[2]);
        let letter = if number == 0 { ['V', 'T', 'I', 'L', 'F', 'P'][usize::from(kind)] } else { '-' };
        assert!(says(lines, letter, if number == 0 { reason } else { 0 }, number), "{lines:?}");
        assert!(lines[0].starts_with("judge: ") || lines[0].starts_with("verify: "), "{lines:?}");
    }
}

#[test]
fn cases_follow_each_other() {
    let (first, second) = (drill("invalid-02"), drill("number-05"));
    let out = done(&["explain", "-"], &[&first[..], &second].concat());
    let cases = explained(&out);
    assert!(says(&cases[0], 'I', 2, 0) && says(&cases[1], '-', 0, 5), "{cases:?}");
    assert!(out.ends_with("\n\ncases: 2\nverdicts: 1 invalid, 1 refused with number 5\n"), "{out}");
}

#[test]
fn what_stands_before_a_bad_case_is_explained() {
    let case = drill("invalid-02");
    let bad = |bytes: &[u8], at: usize, wanted: &str| {
        let ran = fed(&["explain", "-"], &[&case[..], bytes].concat());
        let message = format!("wutherdish: standard input: byte {}: expected {wanted}\n", case.len() + at);
        assert_eq!((ran.code, ran.err), (Some(1), message));
        assert!(ran.out.ends_with("\n\ncases: 1\nverdicts: 1 invalid\n"), "{}", ran.out);
    };
    let no_case = "a case: 1 for verifying, 2 for judging, 18 for judging with a trail, 19 for what the network can force, \
                   20 for what clears a point, 16 for writing or 17 for converting, and its blobs";
    bad(&[3, 0], 0, no_case);
    bad(&[2], 0, no_case);
    bad(&[1, 1, 0, 0, 0, 0], 0, no_case);
    bad(&[1, 4, 9, 0], 2, "the length of a blob");
    bad(&[1, 4, 255, 255, 255, 255, 7], 6, "a blob as long as said");
    bad(&case[..case.len() - 1], case.len() - 4, "a blob as long as said");
}

#[test]
fn a_peer_buffer_of_any_length() {
    let mut case = drill("number-05");
    let place = case.len() - 4;
    assert_eq!(case[place..], 8_159_u32.to_le_bytes());
    for length in [8_160, u32::MAX] {
        case[place..].copy_from_slice(&length.to_le_bytes());
        assert!(!done(&["explain", "-"], &case).contains("refused"));
    }
}

/// A case of converting, with an answer or without.
fn converting(direction: u8, record: &[u8], output: u32, answer: Option<&[u8]>) -> Vec<u8> {
    let (direction, output) = ([direction], output.to_le_bytes());
    case(17, &[&direction, record, &output].into_iter().chain(answer).collect::<Vec<_>>())
}

/// A case with these blobs.
pub fn case(kind: u8, blobs: &[&[u8]]) -> Vec<u8> {
    let mut case = vec![kind, blobs.len() as u8];
    for blob in blobs {
        case.extend((blob.len() as u32).to_le_bytes());
        case.extend(*blob);
    }
    case
}

/// A case of writing a proof without maps, whose links are direct ones.
fn writing(role: [u8; 3], includes: &[u8], output: u32, answer: &[&[u8]]) -> Vec<u8> {
    let (id, output) = ([&[9, 0, 0, 0], &[0x44; 32][..], &[0x55; 32]].concat(), output.to_le_bytes());
    let parts = [&id, &[1; 8][..], includes, &[], &[], &[0; 102], &[0; 102], &role, &[0; 16], &output];
    case(16, &[&parts[..], answer].concat())
}

#[test]
fn writing_is_explained() {
    let (proof, length) = ([1, 2, 1], 190);
    let cases = [
        (writing(proof, &[], length, &[]), "anchor proof 2, the last", "written"),
        (writing([3, 9, 9], &[], u32::MAX, &[&[]]), "genesis", "written"),
        (writing(proof, &[1], length, &[]), "anchor proof 2, the last", "refused with number 3: "),
        (writing([1, 2, 2], &[], length, &[]), "", "refused with number 4: "),
        (writing(proof, &[0; 128], length, &[]), "anchor proof 2, the last", "refused with number 13: "),
        (writing(proof, &[], length - 1, &[]), "anchor proof 2, the last", "refused with number 14: "),
    ];
    let out = done(&["explain", "-"], &cases.each_ref().map(|(case, _, _)| &case[..]).concat());
    let explained = explained(&out);
    assert_eq!(explained.len(), cases.len());
    for ((_, role, answer), lines) in cases.iter().zip(&explained) {
        let point = format!("write: point 44444444.. of round 9 by 55555555.., {role}");
        assert_eq!(lines[0], if role.is_empty() { "write: a point of an unknown role" } else { &point });
        assert!(lines[1].starts_with(answer), "{lines:?}");
    }
    let verdicts = [3, 4, 13, 14].map(|number| format!("1 refused with number {number}")).join(", ");
    assert!(out.ends_with(&format!("\n\ncases: 6\nverdicts: 2 written, {verdicts}\n")), "{out}");
    let short = case(16, &[&[0; 67][..], &[1; 8], &[], &[], &[], &[0; 102], &[0; 102], &proof, &[0; 16], &[0; 4]]);
    assert!(fed(&["explain", "-"], &short).err.contains(": byte 0: expected a case: "));
}

#[test]
fn converting_is_explained() {
    let point = Point::read(&split_front(&drill("number-12")).1[1..]).expect("it can be read").0;
    let columns = point.to_bytes().expect("it can be written");
    let pairs = columns_to_pairs(&columns).expect("it can be converted");
    let length = columns.len() as u32;
    let cases = [
        (converting(0, &pairs, length, None), "from pairs to columns", "converted"),
        (converting(1, &columns, u32::MAX, Some(&[])), "from columns to pairs", "converted"),
        (converting(1, &columns, length - 1, None), "from columns to pairs", "refused with number 14: "),
        (converting(0, &columns, length, None), "from pairs to columns", "refused with number 3: "),
    ];
    let out = done(&["explain", "-"], &cases.each_ref().map(|(case, _, _)| &case[..]).concat());
    let explained = explained(&out);
    assert_eq!(explained.len(), cases.len());
    for (place, ((_, way, answer), lines)) in cases.iter().zip(&explained).enumerate() {
        let said = if place == 3 { "a record that can't be read".into() } else { format!("{}, genesis", point.id) };
        assert_eq!(lines[0], format!("convert: {said}, {way}"));
        assert!(lines[1].starts_with(answer), "{lines:?}");
    }
    let verdicts = "2 converted, 1 refused with number 3, 1 refused with number 14";
    assert!(out.ends_with(&format!("\n\ncases: 4\nverdicts: {verdicts}\n")), "{out}");
    let ran = fed(&["explain", "-"], &converting(2, &columns, length, None));
    assert!(ran.err.contains(": byte 0: expected a case: "), "{}", ran.err);
}
