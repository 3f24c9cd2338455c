//! Points with full maps that are handed over in parts, written as records in several ways.

use std::hint::black_box;

use cases::random::Random;
use inputs::compose::compose;
use inputs::points::bytes;
use oracle::draft::Draft;
use oracle::value::Point;
use oracle::{read, write};

use crate::once::result_of;
use crate::plain_writer::{self, Maps};
use crate::rounds::{count, median, rounds};

/// Points of each set, so that no call repeats the one before it.
const POINTS: usize = 8;
const ROUNDS: usize = 301;

const WORDS: &str = "\
Composing. Points with full maps: all peers included, all but the author witnessed and in evidence; their rows are handed
over rising, falling or shuffled. Nanoseconds a call, medians of the rounds; each round runs the ways one after another over
the same points.
  library  wutherdish_write, from the parts, into a slice that is there
  parts    Rust written for speed, from the same parts into the same slice, with the same numbers tested: positions sorted by
           the standard library; a map whose rows rise is copied whole
  maps     the same from BTreeMaps and a BTreeSet that are there already, so sorted before and by nobody's time here
  reading  the oracle's writer, written for comparing, from the same parts: BTreeMaps are made of the rows, and of these its
           point with vectors of pairs, of which it writes a new vector
  oracle   the same of the point that is there already, whose vectors rise
  copy     the record's bytes copied into the slice, nothing else
";

/// Prints a row for each count of peers and each order.
pub fn table(counts: &[usize]) -> Result<(), String> {
    println!("{WORDS}");
    println!("{ROUNDS} rounds, {POINTS} points for each count of peers, one output for all");
    println!(
        "                                                nanoseconds a call                      ratio to the library"
    );
    println!(
        "peers  order     bytes   library     parts      maps   reading    oracle      copy   parts   maps  reading  oracle"
    );
    for &peers in counts {
        for order in Order::ALL {
            // few enough that other processes interrupt few rounds
            let calls = (4_000 / peers).next_multiple_of(POINTS);
            Drafts::new(peers, POINTS, order)?.row(calls)?;
        }
    }
    Ok(())
}

/// Whether the first point is written, for callgrind to count.
pub fn once(way: Way, order: Order, peers: usize) -> Result<bool, String> {
    let mut drafts = Drafts::new(peers, 1, order)?;
    Ok(result_of(&mut || drafts.is_written(way, 0)))
}

/// In which rows are handed over.
#[derive(Clone, Copy)]
pub enum Order {
    Rising,
    Falling,
    Shuffled,
}

impl Order {
    const ALL: [Self; 3] = [Self::Rising, Self::Falling, Self::Shuffled];

    fn name(self) -> &'static str {
        match self {
            Self::Rising => "rising",
            Self::Falling => "falling",
            Self::Shuffled => "shuffled",
        }
    }

    /// Arranges rising rows, whose peers stand before their digests if there are any.
    fn arrange(self, random: &mut Random, map: &mut [u8], rows: usize) {
        let mut order: Vec<usize> = (0..rows).collect();
        match self {
            Self::Rising => {}
            Self::Falling => order.reverse(),
            Self::Shuffled => random.shuffle(&mut order),
        }
        for blocks in map.as_chunks_mut::<32>().0.chunks_mut(rows) {
            let before = blocks.to_vec();
            blocks.iter_mut().zip(&order).for_each(|(block, from)| *block = before[*from]);
        }
    }
}

/// How a record is written.
#[derive(Clone, Copy)]
pub enum Way {
    Library,
    /// Rust written for speed, of the same parts.
    Parts,
    /// Rust written for speed, of sorted maps.
    Maps,
    /// The oracle's writer, of the same parts.
    Reading,
    /// The oracle's writer, of a point.
    Oracle,
    Copy,
}

const WAYS: [Way; 6] = [Way::Library, Way::Parts, Way::Maps, Way::Reading, Way::Oracle, Way::Copy];

/// The points of one set, whose records are all as long, in each form that a way begins with.
struct Drafts {
    peers: usize,
    order: Order,
    drafts: Vec<Draft>,
    maps: Vec<Maps>,
    points: Vec<Point>,
    records: Vec<Vec<u8>>,
    out: Vec<u8>,
}

impl Drafts {
    fn new(peers: usize, points: usize, order: Order) -> Result<Self, String> {
        let random = &mut Random::new(peers as u64, 2);
        let records = bytes(peers, points).records;
        let points: Option<Vec<Point>> = records.iter().map(|record| read::record(record)).collect();
        let points = points.ok_or_else(|| format!("a point of {peers} peers is unreadable"))?;
        let mut drafts: Vec<Draft> = points.iter().map(Draft::of).collect();
        for draft in &mut drafts {
            order.arrange(random, &mut draft.includes, peers);
            order.arrange(random, &mut draft.witness, peers - 1);
            order.arrange(random, &mut draft.evidence, peers - 1);
        }
        let out = vec![0; records[0].len()];
        Ok(Self { peers, order, maps: points.iter().map(Maps::of).collect(), drafts, points, records, out })
    }

    /// Prints the row of these, over `calls` calls a round that go round the points.
    fn row(mut self, calls: usize) -> Result<(), String> {
        let points = self.points.len();
        for way in WAYS {
            for place in 0..points {
                self.out.fill(0);
                if !self.is_written(way, place) || self.out != self.records[place] {
                    return Err("a way writes other bytes".to_string());
                }
            }
        }
        let rounds = rounds(ROUNDS, WAYS, |way| count(0..calls, |call| self.is_written(way, call % points)))?;
        print!("{:5}  {:8}  {:5}", self.peers, self.order.name(), self.out.len());
        for way in WAYS {
            print!("  {:8.0}", median(&rounds, |times| times[way as usize]));
        }
        let ratio = |way: Way| median(&rounds, |times| times[way as usize] / times[Way::Library as usize]);
        print!("  {:6.2} {:6.2}", ratio(Way::Parts), ratio(Way::Maps));
        println!("  {:7.2} {:7.2}", ratio(Way::Reading), ratio(Way::Oracle));
        Ok(())
    }

    fn is_written(&mut self, way: Way, place: usize) -> bool {
        let draft = black_box(&self.drafts[place]);
        let out = &mut self.out[..];
        let length = out.len();
        let written = match way {
            Way::Library => {
                let mut written = 0;
                let number = compose(draft, out, &mut written);
                (number == 0).then_some(written as usize)
            }
            Way::Parts => plain_writer::compose(draft, out).ok(),
            Way::Maps => Some(black_box(&self.maps[place]).write(draft, out)),
            Way::Reading => draft.composed(length).ok().map(|record| {
                out.copy_from_slice(&record);
                record.len()
            }),
            Way::Oracle => {
                let record = write::record(black_box(&self.points[place]));
                out.copy_from_slice(&record);
                Some(record.len())
            }
            Way::Copy => {
                out.copy_from_slice(black_box(&self.records[place]));
                Some(length)
            }
        };
        black_box(&*out);
        written == Some(length)
    }
}
