//! `tally` prints what the proved program prints. feed.txt is what that program printed of the feed in its data.

use wutherdish_drills::Answer;

use crate::run::{done, feed, feed_drills, repository, scratch};

const EXPECTED: &str = include_str!("feed.txt");

#[test]
fn the_stored_input_gives_the_stored_output() {
    let expected = String::from_utf8(repository("crates/tally/stdout")).expect("it is text");
    assert_eq!(done(&["tally"], &repository("crates/tally/stdin")), expected);
}

#[test]
fn the_feed_gives_what_the_proved_program_prints() {
    assert_eq!(done(&["tally"], &feed()), EXPECTED);
    assert_eq!(done(&["tally", "-"], &feed()), EXPECTED);
    let file = scratch("tally.bin");
    std::fs::write(&file, feed()).expect("the file is written");
    assert_eq!(done(&["tally", &file], &[]), EXPECTED);
}

#[test]
fn a_feed_cut_off_anywhere() {
    let feed = feed();
    let ends = point_ends(&feed);
    // every cut in the front and in the first points, then those around the end of each point
    let around_ends = ends.iter().flat_map(|end| end - 1..=end + 1).filter(|cut| *cut <= feed.len());
    let cuts: Vec<usize> = (0..2_000).chain(around_ends).collect();
    assert!(cuts.len() > 2_100);
    for cut in cuts {
        assert_eq!(done(&["tally"], &feed[..cut]), cut_off(&ends, cut), "cut at {cut}");
    }
}

/// What document 01 says of the feed's first bytes.
fn cut_off(ends: &[usize], cut: usize) -> String {
    if cut < 47 {
        return "0 0 - 0 1\nend 0\n".into();
    }
    if cut < ends[0] {
        return "0 0 - 0 2\nend 0\n".into();
    }
    let whole = ends.iter().skip(1).filter(|end| **end <= cut).count();
    let mut lines: Vec<String> = EXPECTED.lines().take(whole).map(str::to_owned).collect();
    let kept = lines.iter().filter(|line| line.contains(['L', 'I', 'T', 'V'])).count();
    if !ends.contains(&cut) {
        lines.push(format!("{} 0 - 0 3", whole + 1));
    }
    format!("{}\nend {kept}\n", lines.join("\n")).trim_start().to_owned()
}

/// Where the schedule ends, and then each point: at its field of tag 9.
fn point_ends(feed: &[u8]) -> Vec<usize> {
    let field = |at: usize| (feed[at], at + 3 + usize::from(feed[at + 1]) + 256 * usize::from(feed[at + 2]));
    let mut ends = Vec::new();
    let mut at = 0;
    while at < feed.len() {
        let last = if ends.is_empty() { 35 } else { 9 };
        at += usize::from(!ends.is_empty());
        loop {
            let (tag, end) = field(at);
            at = end;
            if tag == last {
                break;
            }
        }
        ends.push(at);
    }
    ends
}

#[test]
fn every_feed_drill_gives_its_answer() {
    for drill in feed_drills() {
        let out = done(&["tally"], drill.input.bytes());
        let lines: Vec<&str> = out.lines().collect();
        let [.., last, end] = lines[..] else { panic!("{}: {out}", drill.name) };
        let answer = match drill.answer {
            Answer::Verdict { letter, reason } => format!(" {letter} {reason} 0"),
            Answer::Number(number) => format!(" - 0 {number}"),
        };
        assert!(last.ends_with(&answer) && end.starts_with("end "), "{}: {out}", drill.name);
    }
}
