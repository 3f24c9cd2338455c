//! `explain` says what each point of a feed is found to be.

use wutherdish::{
    Digest, IllFormedReason, IndirectLink, InvalidDependency, InvalidReason, PeerId, Point, PointId, PointMap, Refusal,
    Through, UninitVset, Unreadable, Verdict, Verified,
};
use wutherdish_drills::Answer;

use crate::run::{done, drill, fed, feed, is_bad, scratch, split_front};

/// The lines on each point, the point's own first.
pub fn explained(out: &str) -> Vec<Vec<&str>> {
    let mut points: Vec<Vec<&str>> = Vec::new();
    for line in out.lines() {
        let next = format!("{:>4}  ", points.len() + 1);
        if let Some(point) = line.strip_prefix(&next) {
            points.push(vec![point]);
        } else if let (Some(lines), Some(words)) = (points.last_mut(), line.strip_prefix("      ")) {
            lines.push(words);
        }
    }
    points
}

/// Whether the lines on a point say an answer, which is given as `tally` prints it; P is for passed.
pub fn says(lines: &[&str], letter: char, reason: u8, number: u8) -> bool {
    let begin = match letter {
        'P' => Verified::Passed.to_string(),
        '-' => format!("refused with number {number}: {}", Refusal::new(number)),
        letter => SAMPLES.iter().find(|sample| sample.letter() == letter).map(kind).expect("a letter of a verdict"),
    };
    let named = lines.get(2).is_some_and(|line| line.starts_with(&format!("reason {reason}, ")));
    let kind = lines[1].split(": ").next().expect("there is a first part");
    (lines[1] == begin || kind == begin) && (reason == 0) != named
}

const ID: PointId = PointId { round: 4, digest: Digest([1; 32]), author: PeerId([2; 32]) };

/// A verdict of each kind.
const SAMPLES: [Verdict; 5] = [
    Verdict::Valid,
    Verdict::TransInvalid(InvalidDependency {
        link: IndirectLink { to: ID, through: Through::Includes(PeerId([2; 32])) },
        reason: 3,
    }),
    Verdict::Invalid(InvalidReason::DependencyRoundDropped),
    Verdict::IllFormed(IllFormedReason::UnknownAuthor),
    Verdict::Fail(UninitVset { len: 2, round: 4, map: PointMap::Evidence }),
];

/// What stands before a verdict's reason.
fn kind(verdict: &Verdict) -> String {
    verdict.to_string().split(": ").next().expect("there is a first part").to_owned()
}

#[test]
fn the_last_point_alone() {
    for name in ["demo", "invalid-19", "number-08"] {
        let whole = done(&["explain", "-"], &drill(name));
        let last = done(&["explain", "--last", "-"], &drill(name));
        let points = explained(&whole);
        let lines = points.last().expect("there is a point");
        let said = format!("{:>4}  {}\n", points.len(), lines.join("\n      "));
        assert_eq!(last, said, "{name}");
    }
}

#[test]
fn every_drill_gives_its_answer() {
    for drill in wutherdish_drills::all() {
        // as large as `tally`'s book, for which the drills are made
        let ran = fed(&["explain", "-", "--room", "65536"], drill.input.bytes());
        if is_bad(&drill) {
            assert_eq!(ran.code, Some(1), "{}", drill.name);
            assert!(ran.err.starts_with("wutherdish: standard input: byte "), "{}: {}", drill.name, ran.err);
            continue;
        }
        assert_eq!((ran.code, &ran.err[..]), (Some(0), ""), "{}", drill.name);
        let points = explained(&ran.out);
        let last = points.last().expect("it has a point");
        let said = match drill.answer {
            Answer::Verdict { letter, reason } => says(last, letter, reason, 0),
            Answer::Number(number) => says(last, '-', 0, number),
        };
        assert!(said, "{}: {last:?}", drill.name);
    }
}

#[test]
fn every_point_of_the_feed_gives_the_answer_of_tally() {
    let out = done(&["explain", "-"], &feed());
    let points = explained(&out);
    let tally: Vec<&str> = include_str!("feed.txt").lines().collect();
    assert_eq!(points.len() + 1, tally.len());
    for (lines, line) in points.iter().zip(&tally) {
        let [_, round, letter, reason, number] = line.split(' ').collect::<Vec<_>>()[..] else { panic!("{line}") };
        let numbers = [reason, number].map(|digits| digits.parse().expect("a number"));
        assert!(says(lines, letter.chars().next().expect("a letter"), numbers[0], numbers[1]), "{line}: {lines:?}");
        assert!(lines[0].contains(&format!(" of round {round} by ")), "{line}: {lines:?}");
    }
    let verdicts = "56 valid, 3 trans-invalid, 6 invalid, 2 ill-formed, 1 not verifiable, \
                    1 refused with number 4, 1 refused with number 11";
    assert!(out.ends_with(&format!("\n\npoints: 70\nverdicts: {verdicts}\nkept: 67\n")), "{out}");
    assert!(out.contains("\nnote: ids are named by their first four bytes, and by last ones where these are alike\n"));
}

#[test]
fn what_stands_before_a_bad_record_is_explained() {
    let mut feed = feed();
    let whole = done(&["explain", "-"], &feed);
    let (front, points) = split_front(&feed);
    let (_, after) = Point::read(&points[1..]).expect("the first point can be read");
    let second = feed.len() - after.len();
    let (_, after) = Point::read(&after[1..]).expect("the second point can be read");
    let third = feed.len() - after.len();
    assert!(front.len() < second && second < third);
    // the tag of the third point's payload, after leader byte and id
    let place = third + 1 + 71;
    assert_eq!(feed[place], 2);
    feed[place] = 3;
    let ran = fed(&["explain", "-"], &feed);
    let unreadable = Point::read(&feed[third + 1..]).expect_err("its payload is missing");
    let unreadable = Unreadable { at: place, ..unreadable };
    assert_eq!((ran.code, ran.err), (Some(1), format!("wutherdish: standard input: {unreadable}\n")));
    assert_eq!(explained(&ran.out), explained(&whole)[..2]);
    assert!(ran.out.ends_with("\n\npoints: 2\nverdicts: 2 valid\nkept: 2\n"), "{}", ran.out);
}

#[test]
fn ids_are_short_unless_asked_for_whole() {
    let feed = drill("demo");
    let root = "120d0001".to_owned();
    let (short, full) = (done(&["explain", "-"], &feed), done(&["explain", "-", "--full-ids"], &feed));
    assert!(short.contains(&format!("{root}.. of round 12")) && !full.contains(".. of round"));
    let (points, whole) = (explained(&short), explained(&full));
    assert_eq!(points.len(), whole.len());
    let point = Point::read(&split_front(&feed).1[1..]).expect("the first point can be read").0;
    assert!(whole[0][0].starts_with(&format!("{:#}, genesis", point.id)), "{:?}", whole[0]);
    assert!(points[0][0].starts_with(&format!("{}, genesis", point.id)), "{:?}", points[0]);
}

#[test]
fn all_unknown_peers_are_named() {
    let feed = drill("ill-formed-12");
    let (front, points) = split_front(&feed);
    let (mut point, rest) = Point::read(&points[1..]).expect("the point can be read");
    assert!(rest.is_empty());
    let digest = *point.includes.values().next().expect("it includes a point");
    let unknown: Vec<PeerId> = (0xe0..0xf4).map(|byte| PeerId([byte; 32])).collect();
    unknown.iter().for_each(|peer| {
        point.includes.insert(*peer, digest);
    });
    let record = point.to_bytes().expect("it can be written");
    let out = done(&["explain", "-", "--full-ids"], &[front, &points[..1], &record].concat());
    let lines = explained(&out).pop().expect("there is a point");
    assert!(says(&lines, 'L', 12, 0), "{lines:?}");
    for peer in unknown {
        assert_eq!(lines.iter().map(|line| line.matches(&format!("{peer:#}")).count()).sum::<usize>(), 1, "{peer}");
    }
}

#[test]
fn the_book_is_written_and_has_the_size_that_is_asked_for() {
    let (file, small) = (scratch("feed.book"), scratch("small.book"));
    done(&["explain", "-", "--book", &file], &feed());
    let book = std::fs::read(&file).expect("it is written");
    assert_eq!((book.len(), &book[..47]), (65_536, &feed()[..47]));
    assert!(done(&["show", &file], &[]).contains(">Points kept: 67<"));
    let out = done(&["explain", "-", "--room", "4000", "--book", &small], &feed());
    let book = std::fs::read(&small).expect("it is written");
    assert_eq!(book.len(), 4_000);
    assert!(out.contains("refused with number 12: "), "{out}");
    let kept = out.lines().find_map(|line| line.strip_prefix("kept: ")).expect("a line says it");
    assert!(done(&["show", &small], &[]).contains(&format!(">Points kept: {kept}<")));
}

#[test]
fn a_book_is_no_feed() {
    let file = scratch("no-feed.book");
    done(&["explain", "-", "--book", &file], &drill("demo"));
    let ran = fed(&["explain", &file], &[]);
    assert_eq!((ran.code, &ran.out[..]), (Some(1), ""));
    assert!(
        ran.err.contains(": byte 47: ") && ran.err.ends_with("; it may be a book, which `show` takes\n"),
        "{}",
        ran.err
    );
}
