//! The calls of a place: made, compared and counted.

use book::{Book, Offer, Offered};
use cases::random::Random;
use feeds::{Feed, Ordered, OrderedStep, Step, damaged_books};
use inputs::call::Call;

use crate::counts::Counts;
use crate::desk::{Desk, fill};
use crate::fault::Fault;
use crate::model::{Expected, Model};
use crate::sources::{self, Source};
use crate::watch;

/// Layouts of a seed differ from its cases.
const LAYOUT: u64 = 0x6C61_796F;

/// What every worker of a run does.
#[derive(Clone, Copy)]
pub struct Plan {
    pub seed: u64,
    pub model: Model,
    pub fault: Option<Fault>,
}

/// One thread's desk and counts.
#[derive(Default)]
pub struct Worker {
    desk: Option<Desk>,
    pub counts: Counts,
}

impl compare::run::Counts for Worker {
    fn merge(&mut self, other: Self) {
        self.counts.merge(other.counts);
    }
}

/// The calls of one place.
struct Place<'a> {
    plan: Plan,
    place: u64,
    source: Source,
    random: Random,
    desk: &'a mut Desk,
    counts: &'a mut Counts,
    calls: usize,
}

impl Worker {
    /// Runs a place, up to the first difference.
    pub fn run(&mut self, plan: Plan, place: u64) -> Result<(), String> {
        self.run_source(plan, Source::of(plan.seed, place), place)
    }

    /// Runs a place as if it had this source.
    pub fn run_source(&mut self, plan: Plan, source: Source, place: u64) -> Result<(), String> {
        let desk = match &mut self.desk {
            Some(desk) => desk,
            none => none.insert(Desk::new(plan.fault).map_err(|e| format!("no memory to lend from: {e}"))?),
        };
        watch::at(plan.seed, place);
        let random = Random::new(plan.seed ^ LAYOUT, place);
        let mut run = Place { plan, place, source, random, desk, counts: &mut self.counts, calls: 0 };
        let result = match source {
            Source::Feed => run.feed(),
            Source::Certificates => run.certificates(),
            Source::DamagedBook => run.damaged_books(),
            _ => sources::calls(source, plan.seed, place).iter().try_for_each(|call| run.call(call)),
        };
        result.map_err(|why| format!("{}, call {} of the place: {why}", source.name(), run.calls))
    }
}

impl Place<'_> {
    fn call(&mut self, call: &Call) -> Result<(), String> {
        let layout = self.random.number();
        self.compare(call, layout, |model, fill| model.expected(call, fill))
    }

    fn compare(
        &mut self,
        call: &Call,
        layout: u64,
        expected: impl FnOnce(&Model, u8) -> Result<Expected, String>,
    ) -> Result<(), String> {
        self.calls += 1;
        let called = self.desk.call(call, layout);
        let expected = expected(&self.plan.model, fill(layout))?;
        let name = Call::NAMES[call.kind()];
        self.desk.check(call, called.number, &expected).map_err(|why| format!("{name} differs: {why}"))?;
        self.counts.add(self.source.name(), self.place, call, &expected, called.took);
        Ok(())
    }

    fn feed(&mut self) -> Result<(), String> {
        let mut feed = Feed::new(self.plan.seed, self.place);
        let (book, given) = (feed.book().clone(), !feed.opened());
        self.offers(&book, given, || {
            let Step { offer, offered } = feed.next()?;
            Some((offer, offered, feed.book().bytes()))
        })
    }

    /// Windows of up to 255 rounds, of which a certificate covers all.
    fn certificates(&mut self) -> Result<(), String> {
        let mut feed = Ordered::new(self.plan.seed, self.place);
        let book = feed.book().clone();
        self.offers(&book, false, || {
            let OrderedStep { offer, offered, .. } = feed.next()?;
            Some((offer, offered, feed.book().bytes()))
        })
    }

    /// Offers to a book, given or opened, which stays where it was lent first.
    fn offers(
        &mut self,
        book: &Book,
        is_given: bool,
        mut next: impl FnMut() -> Option<(Offer, Offered, Vec<u8>)>,
    ) -> Result<(), String> {
        let mut given = is_given.then(|| book.bytes());
        if !is_given {
            self.call(&Call::Open { settings: book.settings().to_vec(), length: book.length() })?;
        }
        let mut mistaken = self.plan.model.mistaken(book);
        while let Some((offer, offered, after)) = next() {
            let expected = match &mut mistaken {
                Some(book) => {
                    let offered = book.offer(&offer);
                    Expected::new(&offered.answer, Some(book.bytes()), offered.stood_in)
                }
                None => Expected::new(&offered.answer, Some(after), offered.stood_in),
            };
            let layout = self.random.number();
            self.compare(&Call::Offer { book: given.take(), offer }, layout, |_, _| expected)?;
        }
        Ok(())
    }

    /// Each offer goes to a damaged copy of its book.
    fn damaged_books(&mut self) -> Result<(), String> {
        for (slice, Step { offer, .. }) in damaged_books(self.plan.seed, self.place) {
            self.call(&Call::Offer { book: Some(slice), offer })?;
        }
        Ok(())
    }
}
