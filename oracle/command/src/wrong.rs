//! Answers that are wrong on purpose: whoever replays cases has to find each of these different.

use book::file::{BEGIN, OFFER, OFFER_TO, OPEN};
use book::replay::FILL;
use oracle::Answer;
use oracle::clearing::CLEARING;
use oracle::draft::COMPOSE;
use oracle::file::{Blobs, JUDGE, VERIFY, answer_bytes, blobs, write};
use oracle::forcing::FORCE;
use oracle::numbers;
use trail::{ROW, TRAIL};

/// The fields of an answer, by where each begins: number, kind, reason, id, map, role, first number, second number,
/// root's reason, peer, zeros, count of unknown peers, the first of them; and where that one ends.
const FIELDS: [usize; 14] = [0, 1, 2, 3, 71, 72, 73, 77, 81, 82, 114, 154, 155, 187];
/// The calls that have such an answer. A field's first place goes to each, the others in turn to the first two, whose
/// cases are small.
const CALLS: [u8; 3] = [VERIFY, JUDGE, OFFER_TO];
/// A case that is larger is taken only where no other will do.
const SMALL: usize = 2_000;
/// Offers to the first book.
const OFFERS: usize = 8;
const DIGEST: usize = 32;
/// The place of an answer's count of unknown peers, which end it, and how long one is.
const COUNT: usize = 154;
const PEER: usize = 32;
/// The zeros of an answer: the first of them, and the last.
const ZEROS: [usize; 2] = [114, 153];
/// What to expect in place of an answer with unknown peers, and of how many at least. In turn: other zeros (the changes by
/// field find those in answers with a number); a byte after the peers; one more peer, whose bytes are what the buffer is
/// filled with, so that the count alone is wrong; the last peer's first byte and last byte changed; no unknown peer; and a
/// number, with which nothing that is lent may change.
const WITH_PEERS: [(u8, Change); 8] = [
    (1, |answer| raised(answer, ZEROS[0])),
    (1, |answer| raised(answer, ZEROS[1])),
    (1, |answer| [answer, &[0]].concat()),
    (1, one_more),
    (2, |answer| raised(answer, answer.len() - PEER)),
    (2, |answer| raised(answer, answer.len() - 1)),
    (1, none),
    (1, number),
];

/// Where the count of a composed record and the record stand in an answer, after the number.
const COUNT_OF_BYTES: usize = 1;
const RECORD: usize = 5;
/// What to expect in place of a composed record, in turn: another number, another count in each of its bytes, the record's
/// first byte and its last changed, a byte after it, one that is what the output is filled with and counted, a byte less, and a
/// number, with which nothing that is lent may change.
const COMPOSED: [Change; 11] = [
    |answer| raised(answer, 0),
    |answer| raised(answer, COUNT_OF_BYTES),
    |answer| raised(answer, COUNT_OF_BYTES + 1),
    |answer| raised(answer, COUNT_OF_BYTES + 2),
    |answer| raised(answer, COUNT_OF_BYTES + 3),
    |answer| raised(answer, RECORD),
    |answer| raised(answer, answer.len() - 1),
    |answer| [answer, &[0]].concat(),
    |answer| [raised(answer, COUNT_OF_BYTES), vec![FILL]].concat(),
    |answer| answer[..answer.len() - 1].to_vec(),
    |_| vec![14, 0, 0, 0, 0],
];
/// The same of a number: another, a count, and a byte after it.
const REFUSED: [Change; 4] = [
    |answer| raised(answer, 0),
    |answer| raised(answer, COUNT_OF_BYTES),
    |answer| raised(answer, COUNT_OF_BYTES + 3),
    |answer| [answer, &[0]].concat(),
];

/// Where the rows of a trail stand in an answer, after their count, and how long one is.
const TRAIL_ROWS: usize = 4;
/// What to expect in place of a trail of two rows or more, in turn: another count in each of its bytes; each byte of the first row
/// changed, and the last of the last row; a row less; one more, whose bytes are what the trail is filled with; the answer's number,
/// its kind and the last byte of the answer changed; and number 15, with which nothing that is lent may change.
const TRAILED: [Change; 19] = [
    |answer| raised(answer, 0),
    |answer| raised(answer, 1),
    |answer| raised(answer, 2),
    |answer| raised(answer, 3),
    |answer| raised(answer, TRAIL_ROWS),
    |answer| raised(answer, TRAIL_ROWS + 1),
    |answer| raised(answer, TRAIL_ROWS + 2),
    |answer| raised(answer, TRAIL_ROWS + 3),
    |answer| raised(answer, TRAIL_ROWS + 4),
    |answer| raised(answer, TRAIL_ROWS + 5),
    |answer| raised(answer, TRAIL_ROWS + 6),
    |answer| raised(answer, TRAIL_ROWS + 7),
    |answer| raised(answer, end_of_rows(answer) - 1),
    |answer| [&[answer[0] - 1], &answer[1..TRAIL_ROWS], &answer[TRAIL_ROWS + ROW..]].concat(),
    |answer| {
        let (rows, rest) = answer.split_at(end_of_rows(answer));
        [&[rows[0] + 1], &rows[1..], &[FILL; ROW], rest].concat()
    },
    |answer| raised(answer, end_of_rows(answer)),
    |answer| raised(answer, end_of_rows(answer) + 1),
    |answer| raised(answer, answer.len() - 1),
    |_| [&[0; TRAIL_ROWS][..], &number_answer(numbers::ROWS)].concat(),
];
/// The same of a number: another, a count, and a row of what the trail is filled with.
const UNTRAILED: [Change; 3] = [
    |answer| raised(answer, TRAIL_ROWS),
    |answer| raised(answer, 0),
    |answer| [&[1, 0, 0, 0][..], &[FILL; ROW], &answer[TRAIL_ROWS..]].concat(),
];

fn end_of_rows(answer: &[u8]) -> usize {
    TRAIL_ROWS + ROW * usize::from(answer[0])
}

/// What to expect in place of a point that would clear another, in turn: another number, no single mark, no waiting, another byte
/// of the id's round, digest and author, first and last, a byte after it, a byte less, and a number.
const CLEARED: [Change; 12] = [
    |answer| raised(answer, 0),
    |answer| [&[0, 1], &answer[2..]].concat(),
    |answer| [&[0, 0], &answer[2..]].concat(),
    |answer| raised(answer, 2),
    |answer| raised(answer, 5),
    |answer| raised(answer, 6),
    |answer| raised(answer, 37),
    |answer| raised(answer, 38),
    |answer| raised(answer, 69),
    |answer| [answer, &[0]].concat(),
    |answer| answer[..69].to_vec(),
    |_| [&[9, 255], &[0; 68][..]].concat(),
];
/// The same where no single mark clears the point: a point, no waiting, and an id's last byte.
const UNCLEARED: [Change; 3] =
    [|answer| raised(answer, 1), |answer| [&[0, 0], &answer[2..]].concat(), |answer| raised(answer, 69)];
/// The same of a point that doesn't wait: a number, and no single mark.
const NOT_WAITING: [Change; 2] = [|answer| raised(answer, 0), |answer| raised(answer, 1)];
/// The same of a number: another, an answer's first byte beside it, and an id's first and last.
const UNASKED: [Change; 4] =
    [|answer| raised(answer, 0), |answer| raised(answer, 1), |answer| raised(answer, 2), |answer| raised(answer, 69)];

/// Where the rows of a list stand in an answer, after the number and the count.
const ROWS: usize = RECORD;
/// What to expect in place of a list of two rows or more, in turn: another number, another count in each of its bytes, each byte of
/// the first row and the last byte changed, a row more of what the output is filled with and counted, a row less and counted, the
/// first two rows exchanged, and a number.
const FORCED: [Change; 18] = [
    |answer| raised(answer, 0),
    |answer| raised(answer, COUNT_OF_BYTES),
    |answer| raised(answer, COUNT_OF_BYTES + 1),
    |answer| raised(answer, COUNT_OF_BYTES + 2),
    |answer| raised(answer, COUNT_OF_BYTES + 3),
    |answer| raised(answer, ROWS),
    |answer| raised(answer, ROWS + 1),
    |answer| raised(answer, ROWS + 2),
    |answer| raised(answer, ROWS + 3),
    |answer| raised(answer, ROWS + 4),
    |answer| raised(answer, ROWS + 5),
    |answer| raised(answer, ROWS + 6),
    |answer| raised(answer, ROWS + 7),
    |answer| raised(answer, answer.len() - 1),
    |answer| [raised(answer, COUNT_OF_BYTES), vec![FILL; ROW]].concat(),
    fewer,
    |answer| {
        [&answer[..ROWS], &answer[ROWS + ROW..][..ROW], &answer[ROWS..][..ROW], &answer[ROWS + 2 * ROW..]].concat()
    },
    |_| vec![17, 0, 0, 0, 0],
];

fn fewer(answer: &[u8]) -> Vec<u8> {
    let mut answer = answer[..answer.len() - ROW].to_vec();
    answer[COUNT_OF_BYTES] -= 1;
    answer
}

/// Cases of the files, each with a change in what it expects.
pub fn make(path: &str, files: &[&str]) -> Result<(), String> {
    let read = |file: &&str| std::fs::read(file).map_err(|e| format!("{file}: {e}"));
    let bytes = files.iter().map(read).collect::<Result<Vec<_>, _>>()?.concat();
    let cases = blobs(&bytes).ok_or("not whole files of cases")?;
    let answers = CALLS.into_iter().enumerate().flat_map(|(turn, kind)| answers(&cases, turn, kind));
    let peers = CALLS.into_iter().flat_map(|kind| peers(&cases, kind));
    let openings = openings(&cases).into_iter().chain(first_book(&cases));
    let chosen = openings
        .chain(answers)
        .chain(digests(&cases))
        .chain(peers)
        .chain(composes(&cases))
        .chain(trails(&cases))
        .chain(clears(&cases))
        .chain(forces(&cases));
    let chosen: Vec<Changed> = chosen.collect();
    let mut out = Vec::new();
    for (kind, blobs) in &chosen {
        write(*kind, &blobs.iter().map(Vec::as_slice).collect::<Vec<_>>(), &mut out);
    }
    std::fs::write(path, &out).map_err(|e| format!("{path}: {e}"))?;
    println!("{} cases, each with a change in what it expects, {} bytes", chosen.len(), out.len());
    Ok(())
}

/// The answers of a kind of call, each changed at one of the places that are its turn.
fn answers(cases: &[Blobs<'_>], turn: usize, kind: u8) -> Vec<Changed> {
    let rising = rising(cases, kind);
    let places = FIELDS.windows(2).flat_map(|ends| places(ends[0], ends[1], turn));
    places.filter_map(|place| answer_changed(&rising, place)).collect()
}

/// The smallest cases of a kind of call with unknown peers and room for one more, each with another answer.
fn peers(cases: &[Blobs<'_>], kind: u8) -> Vec<Changed> {
    let rising = rising(cases, kind);
    let other = |(least, change): &(u8, Change)| {
        let case = rising.iter().find(|case| unknown(case).is_some_and(|count| count >= *least))?;
        let answer = change(case.1.last()?);
        Some(with_answer(case, answer))
    };
    WITH_PEERS.iter().filter_map(other).collect()
}

/// The smallest case of two rows or more whose trail has room for another, and the smallest that is refused by 15, each with other
/// answers.
fn trails(cases: &[Blobs<'_>]) -> Vec<Changed> {
    let rising = rising(cases, TRAIL);
    let has_room = |blobs: &[&[u8]]| {
        let [.., room, answer] = blobs else { return false };
        let room = (*room).try_into().map_or(0, u32::from_le_bytes) as usize;
        answer[0] > 1 && TRAIL_ROWS + room >= end_of_rows(answer) + ROW
    };
    let trailed = rising.iter().find(|(_, blobs)| has_room(blobs)).map(|case| (*case, &TRAILED[..]));
    let refused =
        rising.iter().find(|(_, blobs)| blobs.last().is_some_and(|answer| answer[TRAIL_ROWS] == numbers::ROWS));
    let all = [trailed, refused.map(|case| (*case, &UNTRAILED[..]))].into_iter().flatten();
    all.flat_map(|(case, changes)| each(case, changes)).collect()
}

/// The smallest draft whose record leaves room in the output, and the smallest that is refused, each with other answers.
fn composes(cases: &[Blobs<'_>]) -> Vec<Changed> {
    let rising = rising(cases, COMPOSE);
    let composed = rising.iter().find(|(_, blobs)| leaves(blobs, 1));
    let refused = rising.iter().find(|(_, blobs)| blobs.last().is_some_and(|answer| answer[0] != 0));
    [composed.map(|case| each(case, &COMPOSED)), refused.map(|case| each(case, &REFUSED))]
        .into_iter()
        .flatten()
        .flatten()
        .collect()
}

/// A case with each of these answers.
fn each(case: &Blobs<'_>, changes: &[Change]) -> Vec<Changed> {
    let answer = case.1.last().expect("a case has an answer");
    changes.iter().map(|change| with_answer(case, change(answer))).collect()
}

/// The smallest questions that are answered by a point, by none, by no waiting and by a number, each with other answers.
fn clears(cases: &[Blobs<'_>]) -> Vec<Changed> {
    let rising = rising(cases, CLEARING);
    let smallest =
        |front: &[u8]| rising.iter().find(|(_, blobs)| blobs.last().is_some_and(|answer| answer.starts_with(front)));
    [(&[0, 2][..], &CLEARED[..]), (&[0, 1], &UNCLEARED), (&[0, 0], &NOT_WAITING), (&[8], &UNASKED)]
        .into_iter()
        .flat_map(|(front, changes)| smallest(front).into_iter().flat_map(|case| each(case, changes)))
        .collect()
}

/// A case whose output has room for so many bytes more than are written.
fn leaves(blobs: &[&[u8]], more: usize) -> bool {
    let [.., room, answer] = blobs else { return false };
    let room = (*room).try_into().map_or(0, u32::from_le_bytes) as usize;
    answer[0] == 0 && answer.len() - RECORD + more <= room
}

/// The smallest list with rows that differ and room for one more, and the smallest with 17, each with other answers.
fn forces(cases: &[Blobs<'_>]) -> Vec<Changed> {
    let rising = rising(cases, FORCE);
    let has_rows =
        |blobs: &[&[u8]]| blobs.last().is_some_and(|answer| answer[0] == 0 && answer.len() >= ROWS + 2 * ROW);
    let rows = rising.iter().find(|(_, blobs)| has_rows(blobs) && leaves(blobs, ROW));
    let short = rising.iter().find(|(_, blobs)| blobs.last().is_some_and(|answer| answer[0] == 17));
    [rows.map(|case| each(case, &FORCED)), short.map(|case| each(case, &REFUSED))]
        .into_iter()
        .flatten()
        .flatten()
        .collect()
}

/// The cases of a kind, the smallest first.
fn rising<'a, 'b>(cases: &'a [Blobs<'b>], kind: u8) -> Vec<&'a Blobs<'b>> {
    let mut rising: Vec<&Blobs<'_>> = cases.iter().filter(|case| case.0 == kind).collect();
    rising.sort_by_key(|case| size(case));
    rising
}

/// How many unknown peers a case expects, where its peer buffer has room for one more.
fn unknown((kind, blobs): &Blobs<'_>) -> Option<u8> {
    let (answer, inputs) = blobs.split_last()?;
    let buffer = inputs.iter().rev().nth(usize::from(*kind == OFFER_TO))?;
    let room = u32::from_le_bytes((*buffer).try_into().ok()?) as usize;
    let count = *answer.get(COUNT)?;
    (PEER * usize::from(count) + PEER <= room).then_some(count)
}

fn one_more(answer: &[u8]) -> Vec<u8> {
    raised(answer, COUNT).into_iter().chain([FILL; PEER]).collect()
}

fn none(answer: &[u8]) -> Vec<u8> {
    answer[..COUNT].iter().copied().chain([0]).collect()
}

fn number(_: &[u8]) -> Vec<u8> {
    number_answer(5)
}

fn number_answer(number: u8) -> Vec<u8> {
    answer_bytes(&Answer::Number(number)).expect("a number is no panic")
}

/// The smallest offer to a given book, once for each byte of the digest.
fn digests(cases: &[Blobs<'_>]) -> Vec<Changed> {
    let smallest = cases.iter().filter(|case| case.0 == OFFER_TO).min_by_key(|case| size(case));
    smallest.into_iter().flat_map(|case| (0..DIGEST).map(|place| changed(case, 1, place))).collect()
}

type Changed = (u8, Vec<Vec<u8>>);
/// From an answer to a wrong one.
type Change = fn(&[u8]) -> Vec<u8>;

fn size((_, blobs): &Blobs<'_>) -> usize {
    blobs.iter().map(|blob| blob.len()).sum()
}

/// Every opening with another number.
fn openings(cases: &[Blobs<'_>]) -> Vec<Changed> {
    cases.iter().filter(|case| case.0 == OPEN).map(|case| changed(case, 0, 0)).collect()
}

/// The first book with another number, and offers to it: of one the digest is changed, of the next the answer.
fn first_book(cases: &[Blobs<'_>]) -> Vec<Changed> {
    let from_begin = cases.iter().skip_while(|case| case.0 != BEGIN);
    let begin = from_begin.clone().take(1).map(|case| changed(case, 0, 0));
    let offers = from_begin.skip(1).take_while(|case| case.0 == OFFER).take(OFFERS);
    begin.chain(offers.enumerate().map(|(at, case)| changed(case, (at + 1) % 2, at))).collect()
}

/// The places of a field whose turn it is.
fn places(start: usize, end: usize, turn: usize) -> impl Iterator<Item = usize> {
    (start..end).filter(move |place| *place == start || place % 2 == turn)
}

/// The smallest case that has something at this place of its answer, else the smallest that has the place.
fn answer_changed(rising: &[&Blobs<'_>], place: usize) -> Option<Changed> {
    let byte = |case: &Blobs<'_>| case.1.last().and_then(|answer| answer.get(place)).copied();
    let is_blank = |byte: u8| byte == if matches!(place, 1 | 71 | 72) { 255 } else { 0 };
    let has = |case: &&&Blobs<'_>| size(case) <= SMALL && byte(case).is_some_and(|byte| !is_blank(byte));
    let case = rising.iter().find(has).or_else(|| rising.iter().find(|case| byte(case).is_some()))?;
    Some(changed(case, 0, place))
}

/// With one more in a byte of a blob, counted from the last.
fn changed((kind, blobs): &Blobs<'_>, from_last: usize, place: usize) -> Changed {
    let mut blobs: Vec<Vec<u8>> = blobs.iter().map(|blob| blob.to_vec()).collect();
    let at = blobs.len() - 1 - from_last;
    blobs[at] = raised(&blobs[at], place);
    (*kind, blobs)
}

fn with_answer((kind, blobs): &Blobs<'_>, answer: Vec<u8>) -> Changed {
    let inputs = blobs[..blobs.len() - 1].iter().map(|blob| blob.to_vec());
    (*kind, inputs.chain([answer]).collect())
}

/// With one more at this place.
fn raised(bytes: &[u8], place: usize) -> Vec<u8> {
    let mut bytes = bytes.to_vec();
    bytes[place] = bytes[place].wrapping_add(1);
    bytes
}
