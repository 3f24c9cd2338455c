//! Ids that begin alike are told apart, and are named alike everywhere.

use std::collections::BTreeSet;

use wutherdish::{PeerId, Point};

use crate::explain::explained;
use crate::network::Network;
use crate::run::{done, drill, feed, scratch, split_front};
use crate::xml::elements;

/// Peers that begin alike, and points that do: all but peer 0's of a round have the same first four bytes.
pub fn network() -> Network {
    let peers = (1..=4).map(|last| PeerId(std::array::from_fn(|place| if place < 31 { 7 } else { last })));
    let digest = |round: u32, peer: usize| {
        let mut digest = [round as u8; 32];
        digest[0] = if peer == 0 { 0xaa } else { 0xbb };
        digest[30] = peer as u8;
        digest
    };
    Network { peers: peers.collect(), digest }
}

/// The points of a feed.
fn points(feed: &[u8]) -> Vec<Point> {
    let (mut points, mut rest) = (Vec::new(), split_front(feed).1);
    while let [_, record @ ..] = rest {
        let (point, after) = Point::read(record).expect("it can be read");
        points.push(point);
        rest = after;
    }
    points
}

/// How the words call a point: what stands before its role.
fn called<'a>(lines: &[&'a str]) -> &'a str {
    lines[0].split(", ").next().expect("there is a first part")
}

/// The part of a picture that has this title's first line.
fn is_titled(picture: &str, title: &str) -> usize {
    elements(picture)
        .iter()
        .filter(|element| element.name == "title" && element.text.lines().next() == Some(title))
        .count()
}

#[test]
fn points_that_begin_alike_have_names_of_their_own() {
    let feed = network().feed(3);
    let out = done(&["explain", "-"], &feed);
    let (explained, points) = (explained(&out), points(&feed));
    assert_eq!(explained.len(), points.len());
    assert!(out.contains("\nnote: ids are named by their first four bytes, and by last ones where these are alike\n"));
    let names: BTreeSet<&str> = explained.iter().map(|lines| called(lines)).collect();
    assert_eq!(names.len(), points.len(), "{names:?}");
    let digests: BTreeSet<&str> = names.iter().map(|name| name.split(' ').nth(1).expect("a name")).collect();
    assert_eq!(digests.len(), points.len(), "{digests:?}");
    let authors: BTreeSet<&str> = names.iter().filter_map(|name| name.rsplit(' ').next()).collect();
    assert_eq!(authors, BTreeSet::from(["07070707..01", "07070707..02", "07070707..03", "07070707..04", "fefefefe.."]));
    // one that begins like no other needs no more
    assert!(digests.contains("aa0b0b0b..") && digests.contains("bb0b0b0b..010b") && digests.contains("bb0c0c0c..020c"));
}

#[test]
fn words_box_and_heading_name_a_point_alike() {
    for feed in [network().feed(3), drill("demo"), drill("window-inside"), feed()] {
        let book = scratch("names.book");
        let out = done(&["explain", "-", "--book", &book], &feed);
        let picture = done(&["show", "-"], &feed);
        assert_eq!(done(&["show", &book], &[]).matches("<title>").count(), picture.matches("<title>").count());
        let settings = out.lines().find_map(|line| line.strip_prefix("settings: ")).expect("it begins so");
        assert!(picture.contains(&format!(">{settings}<")), "{settings}");
        let elements = elements(&picture);
        let has =
            |class: &str, text: &str| elements.iter().any(|element| element.class() == class && element.text == text);
        let (explained, mut kept) = (explained(&out), 0);
        for (lines, point) in explained.iter().zip(points(&feed)) {
            let (name, kind) = (called(lines), lines[1]);
            if kind.starts_with("refused") || kind.starts_with("cannot") {
                continue;
            }
            kept += 1;
            let [_, digest, _, _, _, _, author] = name.split(' ').collect::<Vec<_>>()[..] else { panic!("{name}") };
            assert!(has("id", digest) && has("author", author), "{name}");
            let title = elements.iter().find(|element| {
                let plain = element.text.strip_prefix("certified ").unwrap_or(&element.text);
                element.name == "title" && plain.starts_with(&format!("{name}: "))
            });
            let title = &title.unwrap_or_else(|| panic!("{name}")).text;
            assert!(
                title.ends_with(&format!("\ndigest {:#}\nauthor {:#}", point.id.digest, point.id.author)),
                "{title}"
            );
            if kind.starts_with("trans-invalid") {
                assert!(title.contains(&format!(": {kind}\n")), "{title}: {kind}");
            }
        }
        assert!(kept > 4);
    }
}

#[test]
fn a_dependency_is_named_as_its_box_is() {
    let feed = drill("never-found");
    let picture = done(&["show", "-"], &feed);
    let out = done(&["explain", "-", "--last"], &feed);
    let lacking = out.split("the point ").nth(1).and_then(|rest| rest.split(", which").next()).expect("it names one");
    assert_eq!(is_titled(&picture, &format!("point {lacking}: not kept")), 1, "{lacking}");
}

#[test]
fn full_ids_need_no_note() {
    let feed = network().feed(2);
    let out = done(&["explain", "-", "--full-ids"], &feed);
    assert!(!out.contains("note: ") && !out.contains(".."), "{out}");
    let (explained, points) = (explained(&out), points(&feed));
    for (lines, point) in explained.iter().zip(&points) {
        assert_eq!(called(lines), format!("{:#}", point.id));
    }
}
