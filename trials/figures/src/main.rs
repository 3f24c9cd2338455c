//! How many points are trans-invalid after one bad one, and from which round on a book that begins late gives the verdicts of
//! the network, by either rule for marks, in the plain book.

mod network;

use book::spread::Mistake;
use book::{Book, Marks, Offer};
use cases::random::Random;
use network::{GENESIS, Includes, Made, Network};
use oracle::answer::{TRANS_INVALID, VALID};
use oracle::feed::Feed;
use oracle::value::Settings;
use oracle::{Answer, read, write};

const PEERS: usize = 13;
const SEEDS: u64 = 20;
/// The bad point's round.
const BAD: u32 = GENESIS + 15;
/// Points that are counted after it.
const AFTER: usize = 260;
/// The round at which a late book begins, and the last one that it is offered.
const LATE: u32 = 40;
const LAST: u32 = LATE + 40;

/// Who marks.
#[derive(Clone, Copy)]
enum Rule {
    Prev,
    Spread,
    Source,
}

const RULES: [(&str, Rule); 3] = [
    ("the plain book, the previous point alone", Rule::Prev),
    ("the plain book, as certificates spread", Rule::Spread),
    ("the source's own certificates", Rule::Source),
];

const NETWORKS: [(&str, Includes); 3] = [
    ("round by round, points that include all of the round below", Includes::All),
    ("round by round, points that include a majority of it", Includes::Majority),
    ("as points come, each over what has come", Includes::Arrived),
];

fn main() {
    for (name, includes) in NETWORKS {
        for history in [20, 21] {
            println!("{PEERS} peers, commit_history_rounds {history}, {name}; {SEEDS} seeds:");
            for (words, rule) in RULES {
                let new = |seed| Network::new(Random::new(seed, 0), PEERS, history, includes);
                let bad: Vec<usize> = (0..SEEDS).map(|seed| after_bad(new(seed), rule)).collect();
                let late: Vec<usize> = (0..SEEDS).map(|seed| clean_from(new(seed), rule)).collect();
                println!("  marks by {words}:");
                println!("    trans-invalid of the {AFTER} points after one bad one: {}", spread(&bad));
                println!("    a book begun at round {LATE} gives Valid alone from this round on: {}", spread(&late));
            }
        }
    }
}

fn spread(figures: &[usize]) -> String {
    let mut sorted = figures.to_vec();
    sorted.sort_unstable();
    let mean = sorted.iter().sum::<usize>() as f64 / sorted.len() as f64;
    format!(
        "least {}, median {}, mean {mean:.1}, most {}",
        sorted[0],
        sorted[sorted.len() / 2],
        sorted[sorted.len() - 1]
    )
}

/// What points are offered to.
enum Judge {
    Plain(Box<Book>),
    Source(Box<Feed>),
}

impl Judge {
    fn new(settings: &Settings, rule: Rule) -> Self {
        let open = || Book::open(&write::settings(settings), 16_777_216).expect("settings and a slice");
        match rule {
            Rule::Prev => Self::Plain(Box::new(open().marking(Marks::Spread(Some(Mistake::PrevAlone))))),
            Rule::Spread => Self::Plain(Box::new(open().marking(Marks::Spread(None)))),
            Rule::Source => Self::Source(Box::new(Feed::new(settings.clone()))),
        }
    }

    /// The kind of the verdict.
    fn offer(&mut self, offer: &Offer) -> u8 {
        let answer = match self {
            Self::Plain(book) => book.offer(offer).answer,
            Self::Source(feed) => {
                let schedule = read::schedule(&offer.schedule).expect("a schedule");
                let point = read::record(&offer.record).expect("a record");
                feed.offer(&schedule, offer.leader == 1, &point)
            }
        };
        match answer {
            Answer::Verdict(verdict) => verdict.kind,
            other => panic!("no verdict: {other}"),
        }
    }
}

fn after_bad(network: Network, rule: Rule) -> usize {
    let mut book = Judge::new(&network.settings, rule);
    let offers = network.offers(BAD + 40, BAD);
    let bad = offers.iter().position(|made| made.is_bad).expect("there is a bad one");
    let kinds: Vec<u8> = offers[..=bad + AFTER].iter().map(|made| book.offer(&made.offer)).collect();
    assert!(kinds[..bad].iter().all(|kind| *kind == VALID), "a sound network");
    let counted = kinds[bad + 1..].iter().filter(|kind| **kind != VALID).count();
    assert_eq!(counted, kinds.iter().filter(|kind| **kind == TRANS_INVALID).count(), "nothing else is wrong");
    counted
}

fn clean_from(network: Network, rule: Rule) -> usize {
    let mut book = Judge::new(&network.settings, rule);
    let offers = network.offers(LAST, 0);
    let begun = offers.iter().filter(|made| made.round >= LATE);
    let faulty = begun.filter(|made: &&Made| book.offer(&made.offer) != VALID).map(|made| made.round);
    faulty.max().map_or(LATE, |round| round + 1) as usize
}
