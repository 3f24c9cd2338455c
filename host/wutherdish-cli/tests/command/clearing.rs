//! What a trans-invalid point of a case waits for, and cases that ask for it.

use crate::cases::case;
use crate::explain::explained;
use crate::run::{done, drill, fed};
use crate::trail::blobs;

const ONE: &str = "waits for a certificate of the point 120c0001.. of round 12 by 0c0c0c0c..";
const TWO: &str = "no single certificate clears it, unless it spreads to more points";

/// The case of judging as one that asks what clears its point.
fn asking(judging: &[u8], answer: &[&[u8]]) -> Vec<u8> {
    case(20, &[&blobs(judging)[..5], answer].concat())
}

#[test]
fn a_trans_invalid_point_of_a_case_says_what_it_waits_for() {
    for (name, line) in [("waits-for-one", ONE), ("waits-for-two", TWO)] {
        for arguments in [&["explain", "-"][..], &["explain", "--trail", "-"]] {
            let out = done(arguments, &drill(name));
            let lines = explained(&out);
            assert!(lines[0][1].starts_with("trans-invalid: it comes after the point 110a0001.. "), "{lines:?}");
            assert_eq!(lines[0][2..], [line]);
        }
    }
    for name in ["waits-for-one-certified", "invalid-02", "four-faults"] {
        let out = done(&["explain", "-"], &drill(name));
        assert!(!out.contains("certificate"), "{out}");
    }
    // offered to a book, whose lists are its own
    assert!(!done(&["explain", "-"], &drill("found-bad")).contains("certificate"));
    let whole = done(&["explain", "--full-ids", "-"], &drill("waits-for-one"));
    assert!(whole.contains(&format!("of round 12 by {}\n", "0c".repeat(32))), "{whole}");
}

#[test]
fn cases_that_ask() {
    let names = ["waits-for-one", "waits-for-two", "waits-for-one-certified", "number-07"];
    let mut cases: Vec<u8> = names.iter().flat_map(|name| asking(&drill(name), &[])).collect();
    cases.extend(asking(&drill("waits-for-two"), &[&[9; 70]]));
    let out = done(&["explain", "-"], &cases);
    let lines = explained(&out);
    assert_eq!(lines[0][0], "clear: point 130b0001.. of round 13 by 0b0b0b0b.., regular, presence 3");
    assert_eq!([lines[0][1], lines[1][1], lines[2][1], lines[4][1]], [ONE, TWO, "waits for no certificate", TWO]);
    assert!(lines[3][1].starts_with("refused with number 7: "), "{lines:?}");
    let verdicts = "1 waiting for a certificate, 2 cleared by no single certificate, 1 waiting for no certificate, 1 refused with number 7";
    assert!(out.ends_with(&format!("\n\ncases: 5\nverdicts: {verdicts}\n")), "{out}");
    for arguments in [&["explain", "--trail", "-"][..], &["explain", "-"]] {
        assert_eq!(done(arguments, &cases), out);
    }
    let judging = drill("waits-for-one");
    for count in [4, 7] {
        let more = [&blobs(&judging)[..], &[&[]]].concat();
        let wrong = case(20, &more[..count]);
        assert!(fed(&["explain", "-"], &wrong).err.contains(": byte 0: expected a case: "));
    }
}
