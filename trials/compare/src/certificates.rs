//! Feeds for certificates: the marks of all kept points after each offer, by the source's own certificates, by the plain book,
//! and by the library.

use std::time::Instant;

use book::{Spread, State};
use compare::run::{Counts, Range, run};
use feeds::{Ordered, OrderedStep};
use wutherdish::lent::open;

use crate::lent::{Expected, FILL, Lent};
use crate::report::offer_report;

/// Feeds that a thread takes at a time.
const BLOCK: u64 = 2;

#[derive(Default)]
struct Compared {
    lent: Lent,
    counts: [u64; NAMES.len()],
}

const NAMES: [&str; 12] = [
    "offers",
    "verdicts that the source gives over its own certificates",
    "points kept",
    "of them trans-invalid",
    "of them invalid",
    "of them ill-formed",
    "previous points marked",
    "entries that previous points' certificates covered, by spreading",
    "of them not marked before",
    "offers after which one of them was not",
    "marks compared",
    "of them set",
];

impl Counts for Compared {
    fn merge(&mut self, other: Self) {
        self.counts.iter_mut().zip(other.counts).for_each(|(all, count)| *all += count);
    }
}

/// Every mark after every offer, and every answer; of the library also every byte of its book.
pub fn certificates(range: &Range) -> Result<(), String> {
    let start = Instant::now();
    let Compared { counts, .. } = run(range, BLOCK, |compared: &mut Compared, place| compared.feed(range.seed, place))?;
    for (count, name) in counts.iter().zip(NAMES) {
        println!("{count:12} {name}");
    }
    let seconds = start.elapsed().as_secs_f64();
    let Range { seed, count, threads } = range;
    let offers = counts[0];
    println!(
        "seed {seed}, {count} feeds: {offers} offers in {seconds:.1} s, threads {threads}: \
         the source's certificates, the plain book and the library: no difference"
    );
    Ok(())
}

impl Compared {
    fn feed(&mut self, seed: u64, place: u64) -> Result<(), String> {
        let mut feed = Ordered::new(seed, place);
        let mut slice = vec![FILL; feed.book().length()];
        open(&mut slice, feed.book().settings());
        let mut offers = 0;
        while let Some(step) = feed.next() {
            offers += 1;
            let at = |difference: String| format!("offer {offers} of the feed: {difference}");
            agree(&feed, &step).map_err(at)?;
            self.library(&feed, &step, &mut slice).map_err(at)?;
            self.count(&feed, &step);
        }
        self.count_kept(&feed);
        Ok(())
    }

    fn library(&mut self, feed: &Ordered, step: &OrderedStep, slice: &mut [u8]) -> Result<(), String> {
        let OrderedStep { offer, offered, .. } = step;
        self.lent.offer(slice, offer);
        let book = feed.book().bytes();
        let same = Expected::new(&offered.answer).is_some_and(|expected| self.lent.is(&expected)) && book == slice;
        if same { Ok(()) } else { Err(offer_report(offer, &offered.answer, &self.lent, &book, slice)) }
    }

    fn count(&mut self, feed: &Ordered, step: &OrderedStep) {
        let Spread { covered, marked: spread } = step.offered.spread;
        let marked = feed.marks().filter(|mark| *mark).count() as u64;
        let entries = feed.book().entries().len() as u64;
        let first = u64::from(matches!(step.offered.marked, Some((_, false))));
        let verdict = u64::from(step.by_source.is_some());
        let (covered, new) = (covered as u64, spread as u64);
        let counts = [1, verdict, 0, 0, 0, 0, first, covered, new, u64::from(new > 0), entries, marked];
        self.merge(Self { counts, ..Self::default() });
    }

    fn count_kept(&mut self, feed: &Ordered) {
        let entries = feed.book().entries();
        let of = |is: fn(&State) -> bool| entries.iter().filter(|entry| is(&entry.state)).count() as u64;
        let trans_invalid = of(|state| matches!(state, State::TransInvalid(_)));
        let invalid = of(|state| matches!(state, State::Invalid(_)));
        let ill_formed = of(|state| matches!(state, State::IllFormed(_)));
        let counts = [0, 0, entries.len() as u64, trans_invalid, invalid, ill_formed, 0, 0, 0, 0, 0, 0];
        self.merge(Self { counts, ..Self::default() });
    }
}

/// The plain book's answer, and the mark of every kept point, are the source's.
fn agree(feed: &Ordered, step: &OrderedStep) -> Result<(), String> {
    let answer = &step.offered.answer;
    if let Some(by_source) = step.by_source.as_ref().filter(|by_source| *by_source != answer) {
        return Err(format!("the plain book gives {answer}, the source {by_source}"));
    }
    let Some(place) = feed.difference(feed.book()) else { return Ok(()) };
    let marks: Vec<bool> = feed.marks().collect();
    let entry = &feed.book().entries()[place];
    Err(format!(
        "the mark of entry {place}, {:?}, is {}; the source's {:?}",
        entry.id,
        entry.certified,
        marks.get(place)
    ))
}
