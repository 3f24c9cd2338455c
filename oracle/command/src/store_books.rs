//! The stored books: openings, feeds and offers to given books, with the plain book's answers and its bytes.

use std::collections::{BTreeMap, BTreeSet};

use book::file::{After, Case};
use book::spread::Mistake as OfMarks;
use book::{BESIDE_RECORD, Book, Marks, Mistake, Offer, offer};
use feeds::{Feed, Ordered, damaged_books, opening};
use oracle::file::answer_bytes;
use oracle::sha256::sha256;

const SEED: u64 = 1;
const OPENINGS: usize = 24;
const FEEDS: u64 = 256;
/// Feeds for certificates, whose places come after the others'.
const ORDERED: u64 = 32;
/// Of a feed only the first offers are looked at.
const OFFERS: usize = 36;
/// No slice is longer.
const ROOM: usize = 65_536;
/// Of offers to given books, no larger one is stored for its answer alone.
const SMALL: usize = 2_000;

/// What an offer is stored for: its answer's number, kind and reason, or a mistake that it notices, of the book or of its rule
/// for marks.
#[derive(Clone, Copy, PartialEq, Eq, PartialOrd, Ord)]
enum Sight {
    Answer([u8; 3]),
    Mistake(usize),
    Marks(usize),
}

/// The first offers of a feed: the bytes up to each, and where each sight is seen first.
struct Seen {
    place: u64,
    sizes: Vec<usize>,
    first: BTreeMap<Sight, usize>,
}

/// Why a feed is dropped: it begins with a given book, or one of its answers is a panic.
#[derive(PartialEq, Eq)]
enum Dropped {
    Given,
    Panic,
}

/// Openings; beginnings of feeds that show every answer and notice every mistake that these feeds can; and of the
/// offers to damaged books the smallest for each.
pub fn write(path: &str) -> Result<(), String> {
    let mut out = Vec::new();
    openings().for_each(|case| case.write(&mut out));
    let ((feeds, dropped), given) = std::thread::scope(|scope| {
        let given = scope.spawn(given);
        (all_seen(), given.join().expect("no panic"))
    });
    let chosen = choose(&feeds);
    for (place, offers) in &chosen {
        feed_cases(*place, *offers).iter().for_each(|case| case.write(&mut out));
    }
    let cases: BTreeMap<_, _> = given.values().map(|(_, at, case)| (at, case)).collect();
    cases.values().for_each(|case| case.write(&mut out));
    std::fs::write(path, &out).map_err(|e| format!("{path}: {e}"))?;
    let (books, offers) = (chosen.len(), chosen.values().sum::<usize>());
    println!("{OPENINGS} openings, {books} books with {offers} offers, {} offers to given books", cases.len());
    report(feeds.iter().flat_map(|feed| feed.first.keys()).chain(given.keys()).collect());
    report_dropped(&dropped);
    Ok(())
}

/// The feeds that can be stored, and why the others can't.
fn all_seen() -> (Vec<Seen>, Vec<Dropped>) {
    let (mut feeds, mut dropped) = (Vec::new(), Vec::new());
    for place in 0..FEEDS + ORDERED {
        match seen(place) {
            Ok(feed) => feeds.push(feed),
            Err(why) => dropped.push(why),
        }
    }
    (feeds, dropped)
}

fn report_dropped(dropped: &[Dropped]) {
    let count = |why: Dropped| dropped.iter().filter(|other| **other == why).count();
    let (given, panic) = (count(Dropped::Given), count(Dropped::Panic));
    println!(
        "of {} feeds dropped: {given} that begin with a given book, {panic} with a panic for an answer",
        FEEDS + ORDERED
    );
}

fn report(sights: BTreeSet<&Sight>) {
    let answers = sights.iter().filter(|sight| matches!(sight, Sight::Answer(_))).count();
    let of_book = Mistake::ALL.iter().enumerate().map(|(at, mistake)| (Sight::Mistake(at), mistake.text()));
    let of_marks = OfMarks::ALL.iter().enumerate().map(|(at, mistake)| (Sight::Marks(at), mistake.text()));
    let unnoticed = of_book.chain(of_marks).filter(|(sight, _)| !sights.contains(sight));
    unnoticed.for_each(|(_, text)| println!("not noticed: {text}"));
    let (noticed, all) = (sights.len() - answers, Mistake::ALL.len() + OfMarks::ALL.len());
    println!("{answers} answers; {noticed} of {all} mistakes of the book and of its rule for marks noticed");
}

fn openings() -> impl Iterator<Item = Case> {
    let fitting = (0..).map(|place| opening(SEED, place)).filter(|(_, length)| *length <= ROOM);
    fitting.take(OPENINGS).map(|(settings, length)| {
        let number = book::open(&mut vec![0; length], &settings);
        Case::Open { settings, length, number }
    })
}

/// The first offers of a feed and a book of its own, in a slice of at most `ROOM`; none where the feed begins with a given book.
fn begin(place: u64) -> Option<(Vec<Offer>, Book)> {
    let open = |book: &Book| Book::open(book.settings(), book.length().min(ROOM)).expect("the feed's own settings");
    if let Some(place) = place.checked_sub(FEEDS) {
        let feed = Ordered::new(SEED, place);
        let book = open(feed.book());
        return Some((feed.take(OFFERS).map(|step| step.offer).collect(), book));
    }
    let feed = Feed::new(SEED, place);
    let book = open(feed.book());
    feed.opened().then(|| (feed.take(OFFERS).map(|step| step.offer).collect(), book))
}

fn seen(place: u64) -> Result<Seen, Dropped> {
    let (offers, mut book) = begin(place).ok_or(Dropped::Given)?;
    let mut mistaken = mistaken(&book);
    let mut seen = Seen { place, sizes: Vec::new(), first: BTreeMap::new() };
    let mut size = 0;
    for (at, offer) in offers.iter().enumerate() {
        let answer = book.offer(offer).answer;
        let bytes = answer_bytes(&answer).ok_or(Dropped::Panic)?;
        size += size_of(offer) + bytes.len();
        seen.sizes.push(size);
        seen.first.entry(shown(&bytes)).or_insert(at);
        mistaken.retain_mut(|(sight, other)| {
            let same = other.offer(offer).answer == answer && other.entries() == book.entries();
            if !same {
                seen.first.insert(*sight, at);
            }
            same
        });
    }
    Ok(seen)
}

/// The book with each mistake in it that offers can notice.
fn mistaken(book: &Book) -> Vec<(Sight, Book)> {
    let places = (0..Mistake::ALL.len()).filter(|at| !Mistake::ALL[*at].is_in_reading());
    let of_book = places.map(|at| (Sight::Mistake(at), book.mistaken(Mistake::ALL[at])));
    let marking = |mistake: &OfMarks| book.clone().marking(Marks::Spread(Some(*mistake)));
    let of_marks = OfMarks::ALL.iter().enumerate().map(|(at, mistake)| (Sight::Marks(at), marking(mistake)));
    of_book.chain(of_marks).collect()
}

fn size_of(offer: &Offer) -> usize {
    offer.schedule.len() + offer.record.len()
}

fn shown(answer: &[u8]) -> Sight {
    Sight::Answer([answer[0], answer[1], answer[2]])
}

/// How many offers of which feeds: the dearest sight first, each where it is cheapest, until all are seen.
fn choose(feeds: &[Seen]) -> BTreeMap<u64, usize> {
    let mut chosen = BTreeMap::new();
    let mut left: BTreeSet<Sight> = feeds.iter().flat_map(|feed| feed.first.keys().copied()).collect();
    while let Some((_, at, feed)) = left.iter().filter_map(|sight| cheapest(feeds, sight)).max() {
        let Seen { place, first, .. } = &feeds[feed];
        left.retain(|sight| first.get(sight).is_none_or(|seen| *seen > at));
        let offers: &mut usize = chosen.entry(*place).or_default();
        *offers = (*offers).max(at + 1);
    }
    chosen
}

/// The bytes up to the sight, the offer that shows it and its feed.
fn cheapest(feeds: &[Seen], sight: &Sight) -> Option<(usize, usize, usize)> {
    let places = feeds.iter().enumerate().filter_map(|(feed, seen)| {
        let at = *seen.first.get(sight)?;
        Some((seen.sizes[at], at, feed))
    });
    places.min()
}

/// The beginning of a book, and offers to it, in a slice that has just the room for them.
fn feed_cases(place: u64, offers: usize) -> Vec<Case> {
    let (mut feed, book) = begin(place).expect("it was seen");
    feed.truncate(offers);
    let mut book = Book::open(book.settings(), room(book.clone(), &feed)).expect("a slice that is no longer");
    let begins = Case::Begin { settings: book.settings().to_vec(), length: book.length(), number: 0 };
    let offers = feed.into_iter().map(|offer| {
        let answer = answer_bytes(&book.offer(&offer).answer).expect("no panic");
        Case::Offer { offer, after: After { sha256: sha256(&book.bytes()).to_vec(), answer } }
    });
    [begins].into_iter().chain(offers).collect()
}

/// The room that offers need so that none is refused that wasn't.
fn room(mut book: Book, offers: &[Offer]) -> usize {
    offers.iter().for_each(|offer| drop(book.offer(offer)));
    let longest = offers.iter().map(|offer| offer.record.len() + BESIDE_RECORD).max().unwrap_or(0);
    book.length().min(book.used() + longest)
}

/// An offer to a given book: its size, where it was met, and the case.
type Given = (usize, (u64, usize), Case);

/// Of all offers to damaged books the smallest for each sight.
fn given() -> BTreeMap<Sight, Given> {
    let mut best = BTreeMap::new();
    for (place, (at, (slice, step))) in
        (0..FEEDS).flat_map(|place| damaged_books(SEED, place).enumerate().map(move |met| (place, met)))
    {
        let slice = shortened(slice, &step.offer);
        let size = slice.len() + size_of(&step.offer);
        let (case, sights) = given_case(slice, step.offer);
        let wanted = sights.iter().filter(|sight| is_small(size, sight));
        wanted.for_each(|sight| keep_smaller(&mut best, *sight, (size, (place, at), case.clone())));
    }
    best
}

fn is_small(size: usize, sight: &Sight) -> bool {
    size <= if matches!(sight, Sight::Answer(_)) { SMALL } else { ROOM }
}

fn keep_smaller(best: &mut BTreeMap<Sight, Given>, sight: Sight, given: Given) {
    if best.get(&sight).is_none_or(|(size, ..)| given.0 < *size) {
        best.insert(sight, given);
    }
}

/// The zeros at the end cut down: a book has just the room for the offered record.
fn shortened(mut slice: Vec<u8>, offer: &Offer) -> Vec<u8> {
    let zeros = slice.iter().rev().take_while(|byte| **byte == 0).count();
    let used = Book::read(&slice).map_or(slice.len() - zeros, |book| book.used());
    slice.truncate(used + offer.record.len() + BESIDE_RECORD);
    slice
}

fn given_case(book: Vec<u8>, given: Offer) -> (Case, Vec<Sight>) {
    let reads = Book::read(&book).is_some();
    let notices =
        |mistake: Mistake| mistake.is_in_reading() && Book::read_mistaken(&book, Some(mistake)).is_some() != reads;
    let mistakes = Mistake::ALL.iter().enumerate().filter(|(_, mistake)| notices(**mistake));
    let mut sights: Vec<Sight> = mistakes.map(|(at, _)| Sight::Mistake(at)).collect();
    let mut slice = book.clone();
    let mut peers = vec![0; given.peer_buffer as usize];
    let answer = offer(&mut slice, &given.schedule, given.leader, &given.record, &mut peers);
    let answer = answer_bytes(&answer).expect("no panic");
    sights.push(shown(&answer));
    (Case::OfferTo { book, offer: given, after: After { sha256: sha256(&slice).to_vec(), answer } }, sights)
}
