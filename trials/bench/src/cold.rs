//! Records and books that together are longer than the caches, each handed over once a round.

use std::hint::black_box;

use inputs::dag::Dag;
use inputs::points::{Bytes, bytes};
use oracle::answer::PASSED;
use oracle::numbers::KEPT;
use wutherdish::lent::{self, ANSWER, PEER_BUFFER};

use crate::offer::Offering;
use crate::pass::sum;
use crate::rounds::{count, median, rounds};

/// Bytes of the records, or of the slices, of a row together, at least; and of the outputs of converting.
pub const BYTES: usize = 128 << 20;
pub const ROUNDS: usize = 31;
/// Peers and entries.
const BOOKS: [(usize, usize); 4] = [(13, 4_095), (100, 300), (100, 1_000), (253, 600)];

const WORDS: &str = "\
What is not in the caches: points of 128 MB together, verified one after another, and books of 128 MB together, to each of
which a point is offered that it keeps. Nanoseconds a call, medians of the rounds; in each round a pass over the same bytes
follows on the calls.
  call     wutherdish_verify or, of books, wutherdish_offer, which gives 11
  pass     the record or the slice summed as words of 64 bits, nothing else
";

/// What is done with a record or a slice.
#[derive(Clone, Copy)]
enum Way {
    Call,
    Pass,
}

const WAYS: [Way; 2] = [Way::Call, Way::Pass];

/// Prints a row for each count of peers, and one for each book.
pub fn table(counts: &[usize]) -> Result<(), String> {
    println!("{WORDS}\n{ROUNDS} rounds");
    println!("                                         nanoseconds a call");
    println!("peers  entries  bytes each  how many       call       pass  ratio of call to pass");
    for &peers in counts {
        verify(peers)?;
    }
    BOOKS.into_iter().try_for_each(|(peers, entries)| refused(peers, entries))
}

fn verify(peers: usize) -> Result<(), String> {
    let length = bytes(peers, 1).records[0].len();
    let Bytes { settings, schedule, records } = bytes(peers, BYTES.div_ceil(length));
    let mut buffer = vec![0; PEER_BUFFER];
    let rounds = rounds(ROUNDS, WAYS, |way| {
        count(records.iter(), |record| match way {
            Way::Call => {
                let mut answer = [0; ANSWER];
                let number = lent::verify(&settings, &schedule, black_box(record), &mut buffer, &mut answer);
                (number, answer[0]) == (0, PASSED)
            }
            Way::Pass => passes(record),
        })
    })?;
    print_row(peers, 0, length, &rounds);
    Ok(())
}

fn refused(peers: usize, entries: usize) -> Result<(), String> {
    let dag = Dag::new(peers, entries + 1);
    let offering = Offering::new(&dag, entries)?;
    let length = offering.slice().len();
    let mut books = vec![offering; BYTES.div_ceil(length)];
    let rounds = rounds(ROUNDS, WAYS, |way| {
        count(books.iter_mut(), |book| match way {
            Way::Call => book.offer(entries - 1).0 == KEPT,
            Way::Pass => passes(book.slice()),
        })
    })?;
    print_row(peers, entries, length, &rounds);
    Ok(())
}

fn passes(bytes: &[u8]) -> bool {
    black_box(sum(black_box(bytes)));
    true
}

fn print_row(peers: usize, entries: usize, length: usize, rounds: &[[f64; 2]]) {
    let [call, pass] = WAYS.map(|way| median(rounds, |times| times[way as usize]));
    let ratio = median(rounds, |times| times[Way::Call as usize] / times[Way::Pass as usize]);
    let many = BYTES.div_ceil(length);
    println!("{peers:5}  {entries:7}  {length:10}  {many:8}  {call:9.0}  {pass:9.0}  {ratio:6.2}");
}
