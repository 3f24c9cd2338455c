//! `show` draws books.

use std::collections::BTreeSet;

use wutherdish::{AnchorLink, AnchorStageRole, Book, Point, PointId, Refusal, Status, Through};

use crate::names;
use crate::run::{done, drill, fed, feed, feed_drills, is_bad, scratch, split_front};
use crate::xml::{Element, elements};

/// The book that a feed leaves.
fn book(feed: &[u8]) -> Book<Vec<u8>> {
    let (front, mut points) = split_front(feed);
    let mut book = Book::open(vec![0; 65_536], &front[..47]).expect("it is opened");
    while let [leader, after @ ..] = points {
        let (_, rest) = Point::read(after).expect("the point can be read");
        let _ = book.offer(&front[47..], *leader, &after[..after.len() - rest.len()]);
        points = rest;
    }
    book
}

fn count(elements: &[Element], name: &str, class: &str, text: Option<&str>) -> usize {
    let is_same = |element: &&Element| element.name == name && element.class() == class;
    elements.iter().filter(is_same).filter(|element| text.is_none_or(|text| element.text == text)).count()
}

#[test]
fn every_feed_drill_gives_well_formed_xml() {
    for drill in feed_drills() {
        let ran = fed(&["show", "-"], drill.input.bytes());
        assert_eq!(ran.code, Some(i32::from(is_bad(&drill))), "{}: {}", drill.name, ran.err);
        // one of them has a front that can be read, and no point before the bad one
        if !is_bad(&drill) || drill.name == "number-03" {
            assert_eq!(elements(&ran.out)[0].name, "svg", "{}", drill.name);
        } else {
            assert_eq!(ran.out, "", "{}", drill.name);
        }
    }
}

/// Each sign once for each point, and once in the legend.
fn assert_signs(feed: &[u8]) {
    let (picture, book) = (done(&["show", "-"], feed), book(feed));
    let (elements, kept) = (elements(&picture), book.kept().expect("it is a book"));
    for letter in ['V', 'T', 'I', 'L'] {
        let points = kept.iter().filter(|entry| entry.status.letter() == letter).count();
        assert_eq!(count(&elements, "text", "letter", Some(&letter.to_string())), points + 1, "{letter}");
    }
    let certified = kept.iter().filter(|entry| entry.certified).count();
    assert_eq!(count(&elements, "circle", "seal", None), certified + 1);
    for entry in &kept {
        let end = format!("\ndigest {:#}\nauthor {:#}", entry.id().digest, entry.id().author);
        let titles: Vec<&Element> = elements.iter().filter(|element| element.text.ends_with(&end)).collect();
        let [title] = titles[..] else { panic!("{entry}: {titles:?}") };
        assert_eq!(title.text.starts_with("certified "), entry.certified, "{title:?}");
        let kind = entry.status.to_string().split(": ").next().map(|kind| format!(": {kind}")).expect("a kind");
        assert!(title.text.contains(&kind), "{title:?}");
    }
    let classes = ["valid", "trans-invalid", "invalid", "ill-formed"];
    for (class, count_of) in classes.map(|class| (class, count(&elements, "rect", class, None))) {
        assert!(count_of > 0, "{class}");
    }
}

#[test]
fn every_verdict_has_its_mark() {
    let kept = book(&drill("demo")).kept().expect("it is a book");
    let letters: String = kept.iter().map(|entry| entry.status.letter()).collect();
    assert!(['V', 'T', 'I', 'L'].iter().all(|letter| letters.contains(*letter)), "{letters}");
    assert_signs(&drill("demo"));
    assert_signs(&feed());
}

#[test]
fn roles_and_what_is_not_kept_are_shown() {
    let elements_of = |feed: &[u8]| elements(&done(&["show", "-"], feed));
    let demo = elements_of(&drill("demo"));
    for (class, text) in [("proof-role", "proof 0, last"), ("trigger-role", "trigger"), ("genesis-role", "genesis")] {
        assert_eq!(count(&demo, "text", class, Some(text)), 1, "{text}");
    }
    // the legend has one
    assert_eq!(count(&demo, "rect", "unkept", None), 1);
    let never_found = elements_of(&drill("never-found"));
    let named = book(&drill("never-found")).kept().expect("it is a book");
    let kept: Vec<_> = named.iter().map(|entry| entry.id()).collect();
    let mut lacking: Vec<_> = named.iter().flat_map(|entry| entry.point.dependencies()).collect();
    lacking.retain(|id| !kept.contains(id) && id.digest.0 != [0; 32]);
    lacking.sort();
    lacking.dedup();
    assert!(!lacking.is_empty());
    assert_eq!(count(&never_found, "rect", "unkept", None), lacking.len() + 1);
    for id in lacking {
        let title = format!("{id}: not kept\ndigest {:#}\nauthor {:#}", id.digest, id.author);
        assert_eq!(count(&never_found, "title", "", Some(&title)), 1);
    }
}

/// The way that a marked point's mark came last, and what is said of it.
#[test]
fn every_mark_has_its_cause() {
    let feed = drill("certificate-spreads");
    let kept = book(&feed).kept().expect("it is a book");
    let elements = elements(&done(&["show", "-"], &feed));
    let title = |place: usize| {
        let end = format!("\ndigest {:#}\nauthor {:#}", kept[place].id().digest, kept[place].id().author);
        let title = elements.iter().find(|element| element.text.ends_with(&end)).expect("it has a title");
        title.text.lines().nth(2).expect("a third line").to_owned()
    };
    let ids: Vec<PointId> = kept.iter().map(|entry| entry.id()).collect();
    let (bad, heir, certifier) = (1, 5, ids[8]);
    assert_eq!(title(heir), format!("certified by the {certifier}, whose previous point it is"));
    assert_eq!(title(bad), format!("certified by the {certifier}, through its previous {}", ids[heir]));
    assert_eq!(title(8), format!("digest {:#}", certifier.digest), "it is not marked");
    assert_eq!(count(&elements, "title", "", Some(&format!("certifies its previous {}", ids[heir]))), 1);
    assert_eq!(count(&elements, "title", "", Some(&format!("passes a certificate on to {}", ids[bad]))), 1);
}

/// Each mark has come along one way, and the legend has one of each kind.
#[test]
fn every_mark_is_drawn() {
    for feed in [drill("demo"), drill("certificate-spreads"), feed(), names::network().feed(3)] {
        let elements = elements(&done(&["show", "-"], &feed));
        let marked = book(&feed).kept().expect("it is a book").iter().filter(|entry| entry.certified).count();
        let [certifies, passed_on] =
            ["way mark", "way mark passed-on"].map(|class| count(&elements, "path", class, None));
        assert_eq!(certifies + passed_on, marked + 2);
        assert!(certifies > 1 && passed_on > 1);
    }
}

/// A book that was not filled by these calls: its last point is marked, and nothing above it is kept.
#[test]
fn a_mark_without_a_cause_is_said() {
    let mut bytes = book(&drill("found-bad")).into_bytes();
    let end = bytes.iter().rposition(|byte| *byte != 0).expect("a filled book") + 1;
    let certified = (0..end).rev().find(|at| bytes[*at..].starts_with(&[33, 105, 0])).expect("an entry's verdict") + 4;
    assert_eq!(std::mem::replace(&mut bytes[certified], 1), 0);
    let titles = elements(&done(&["show", "-"], &bytes));
    let said = titles.iter().filter(|title| title.text.contains("\ncertified by no point of this book\n"));
    assert_eq!(said.count(), 1);
}

#[test]
fn a_root_cause_is_drawn_through_the_peer_it_came_through() {
    let feed = drill("window-inside");
    let kept = book(&feed).kept().expect("it is a book");
    let roots: Vec<_> = kept.iter().filter(|entry| matches!(entry.status, Status::TransInvalid(_))).collect();
    assert_eq!(roots.len(), 2);
    let elements = elements(&done(&["show", "-"], &feed));
    // from the later point to the earlier one, from that to the root cause, and in the legend
    assert_eq!(count(&elements, "path", "way root", None), 3);
    assert_eq!(count(&elements, "path", "root-head", None), 2);
    let Status::TransInvalid(root) = roots[1].status else { panic!("it is trans-invalid") };
    let through = roots[1].point.through_id(root.link.through).expect("it has that dependency");
    assert_eq!(count(&elements, "title", "", Some(&format!("root cause, through {through}"))), 1);
    assert_eq!(count(&elements, "title", "", Some(&format!("root cause: {}", root.link.to))), 1);
}

/// The class of each way that a point adds, and where it leads, but for those to root causes.
fn ways(point: &Point) -> Vec<(&'static str, PointId)> {
    let links = [
        (AnchorStageRole::Proof, ["way proof", "way proof indirect"]),
        (AnchorStageRole::Trigger, ["way trigger", "way trigger indirect"]),
    ];
    let class =
        |role, classes: [_; 2]| classes[usize::from(matches!(point.anchor_link(role), AnchorLink::Indirect(_)))];
    let links = links.map(|(role, classes)| (class(role, classes), point.link_target(role)));
    let includes = point.includes.keys().map(|peer| ("way includes", point.through_id(Through::Includes(*peer))));
    let witness = point.witness.keys().map(|peer| ("way witness", point.through_id(Through::Witness(*peer))));
    let ways = includes.chain(witness).chain(links).filter_map(|(class, to)| Some((class, to?)));
    ways.filter(|(_, to)| to.digest.0 != [0; 32]).collect()
}

#[test]
fn every_link_and_every_dependency_is_drawn() {
    let elements = elements(&done(&["show", "-"], &feed()));
    let kept = book(&feed()).kept().expect("it is a book");
    let ways: Vec<(&str, PointId)> = kept.iter().flat_map(|entry| ways(&entry.point)).collect();
    for class in
        ["way includes", "way witness", "way proof", "way proof indirect", "way trigger", "way trigger indirect"]
    {
        let paths = elements.iter().filter(|element| element.name == "path" && element.class() == class);
        let drawn: usize = paths.map(|path| path.attribute("d").map_or(0, |d| d.matches('M').count())).sum();
        let wanted = ways.iter().filter(|way| way.0 == class).count();
        // the legend has one
        assert_eq!(drawn, wanted + 1, "{class}");
        assert!(wanted > 0, "{class}");
    }
    // the links of one kind to one point come together, and the legend has two of each role
    for (head, class) in [("proof-head", "way proof"), ("trigger-head", "way trigger")] {
        let ends: BTreeSet<_> = ways.iter().filter(|way| way.0.starts_with(class)).collect();
        assert_eq!(count(&elements, "path", head, None), ends.len() + 2, "{head}");
    }
}

#[test]
fn rounds_that_are_left_out_are_marked() {
    let breaks = |name: &str| {
        let elements = elements(&done(&["show", "-"], &drill(name)));
        let rounds: Vec<&Element> = elements.iter().filter(|element| element.class() == "round").collect();
        let round = |element: &&Element| element.text.trim_start_matches("round ").parse::<u32>().expect("a round");
        let wanted = rounds.windows(2).filter(|pair| round(&pair[0]) + 1 < round(&pair[1])).count();
        // the legend has one
        assert_eq!(count(&elements, "path", "break", None), wanted + 1, "{name}");
        wanted
    };
    assert_eq!((breaks("demo"), breaks("invalid-07")), (0, 1));
}

#[test]
fn a_book_looks_as_its_feed_does() {
    let (file, picture) = (scratch("show.book"), scratch("show.svg"));
    std::fs::write(&file, book(&feed()).bytes()).expect("it is written");
    let of_feed = done(&["show", "-"], &feed());
    assert_eq!(of_feed, done(&["show", "-"], &feed()));
    assert_eq!(done(&["show", &file, "-o", &picture], &[]), "");
    let of_book = std::fs::read_to_string(&picture).expect("it is written");
    assert_eq!(of_feed.replace("Points kept: 67 of 70 offered", "Points kept: 67"), of_book);
}

#[test]
fn a_damaged_book_is_refused() {
    let bytes = book(&drill("demo")).into_bytes();
    let bad = |place: usize, value: u8, wanted: &dyn Fn(&Book<Vec<u8>>) -> String| {
        let mut bytes = bytes.clone();
        bytes[place] = value;
        let ran = fed(&["show", "-"], &bytes);
        assert_eq!((ran.code, &ran.out[..]), (Some(1), ""));
        assert_eq!(ran.err, format!("wutherdish: standard input: {}\n", wanted(&Book::found(bytes))));
    };
    let unreadable = |book: &Book<Vec<u8>>| book.kept().expect_err("it can't be read").to_string();
    // the tag of the first entry's payload, after its id
    bad(47 + 71, 3, &unreadable);
    // a byte after the entries, and a round that no point has: only a call notices
    bad(65_535, 1, &|_| Refusal::Book.to_string());
    bad(47 + 3 + 3, 0x80, &|_| Refusal::Book.to_string());
}

#[test]
fn empty_books_have_pictures_too() {
    let settings = &feed()[..47];
    let empty = elements(&done(&["show", "-"], settings));
    assert_eq!(count(&empty, "text", "title", Some("Points kept: 0")), 1);
    let zeros = [settings, &[0; 1_000]].concat();
    assert_eq!(elements(&done(&["show", "-"], &zeros)).len(), empty.len());
}

/// About what a text takes: left, top, right and bottom. On the average a letter of the fonts that are asked for is at
/// most 0.63 of its height wide.
fn text_box(text: &Element) -> (f64, f64, f64, f64) {
    let height = match text.class() {
        "title" | "letter" => 15.0,
        "round" | "author" => 12.0,
        "reason" | "proof-role" | "trigger-role" | "genesis-role" => 10.0,
        _ => 11.0,
    };
    let width = 0.63 * height * text.text.chars().count() as f64;
    let (x, y) = (f64::from(text.number("x")), f64::from(text.number("y")));
    let left = if ["round", "letter", "reason"].contains(&text.class()) { x - width / 2.0 } else { x };
    (left, y - 0.75 * height, left + width, y + 0.2 * height)
}

/// Whether a text lies in the frame of a verdict.
fn is_framed(text: &Element, elements: &[Element]) -> bool {
    let (left, top, right, bottom) = text_box(text);
    let frames = ["valid", "trans-invalid", "invalid", "ill-formed", "unkept"];
    elements.iter().filter(|element| element.name == "rect" && frames.contains(&element.class())).any(|frame| {
        let [x, y, width, height] = ["x", "y", "width", "height"].map(|name| f64::from(frame.number(name)));
        x <= left && y <= top && x + width >= right && y + height >= bottom
    })
}

#[test]
fn no_texts_overlap() {
    for feed in [drill("demo"), drill("equivocation"), drill("invalid-17"), feed(), names::network().feed(3)] {
        let elements = elements(&done(&["show", "-"], &feed));
        let texts: Vec<&Element> =
            elements.iter().filter(|element| element.name == "text" && !element.text.is_empty()).collect();
        let width = f64::from(elements[0].number("width"));
        for (place, text) in texts.iter().enumerate() {
            let (left, top, right, bottom) = text_box(text);
            assert!(left >= 0.0 && right <= width, "{text:?}");
            assert!(!text.class().starts_with("id") || is_framed(text, &elements), "{text:?}");
            for other in &texts[..place] {
                let (x, y, to_x, to_y) = text_box(other);
                assert!(left >= to_x || right <= x || top >= to_y || bottom <= y, "{text:?} and {other:?}");
            }
        }
    }
}
