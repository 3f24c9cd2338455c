//! How many rows are compared for the order of a map's rows, by the code of crates/row_order written once more in Rust.

use std::cmp::Ordering;

use cases::random::Random;

const ROWS: [usize; 6] = [2, 4, 13, 100, 253, 255];
const MOST_ROWS: usize = 255;
/// Shuffled orders of a count.
const SHUFFLED: usize = 10_000;
/// Up to this many rows every order is tried.
const ALL_ORDERS: usize = 8;

const WORDS: &str = "\
Comparisons of two rows for one map, by the order in which its rows are handed over.
  rising    the least
  falling   the most that a count of rows was found to take: of every order up to 8 rows, and of the shuffled ones
  shuffled  the mean and the most of 10,000 orders

 rows  rising  falling  shuffled: mean    most  n log2 n";

/// Prints a row for some counts; fails where any count takes more than n log2 n, or an order more than the falling one.
pub fn table() -> Result<(), String> {
    println!("{WORDS}");
    for rows in 1..=MOST_ROWS {
        let [rising, falling] =
            [(0..rows).collect::<Vec<_>>(), (0..rows).rev().collect()].map(|order| compared(&order));
        let bound = rows as f64 * (rows as f64).log2();
        if rising != rows - 1 || falling as f64 > bound {
            return Err(format!("{rows} rows: {rising} and {falling} comparisons, n log2 n is {bound:.0}"));
        }
        if rows <= ALL_ORDERS {
            every_order(&mut (0..rows).collect(), 0, falling)?;
        }
        if ROWS.contains(&rows) {
            let (mean, most) = shuffled(rows);
            println!("{rows:5}  {rising:6}  {falling:7}  {mean:14.0}  {most:6}  {bound:8.0}");
            at_most(most, falling)?;
        }
    }
    Ok(())
}

fn at_most(found: usize, falling: usize) -> Result<(), String> {
    if found <= falling {
        Ok(())
    } else {
        Err(format!("an order takes {found} comparisons, the falling one {falling}"))
    }
}

/// All orders of the rows from a place on.
fn every_order(rows: &mut Vec<usize>, from: usize, falling: usize) -> Result<(), String> {
    if from == rows.len() {
        return at_most(compared(rows), falling);
    }
    for place in from..rows.len() {
        rows.swap(from, place);
        every_order(rows, from + 1, falling)?;
        rows.swap(from, place);
    }
    Ok(())
}

fn shuffled(rows: usize) -> (f64, usize) {
    let random = &mut Random::new(rows as u64, 3);
    let mut order: Vec<usize> = (0..rows).collect();
    let counts: Vec<usize> = (0..SHUFFLED)
        .map(|_| {
            random.shuffle(&mut order);
            compared(&order)
        })
        .collect();
    (counts.iter().sum::<usize>() as f64 / SHUFFLED as f64, counts.into_iter().max().unwrap_or(0))
}

/// `rising_order`: how many comparisons it makes of rows that differ.
fn compared(rows: &[usize]) -> usize {
    let mut count = 0;
    let mut compare = |i: usize, j: usize| {
        count += 1;
        rows[i].cmp(&rows[j])
    };
    let mut order: Vec<usize> = (0..rows.len()).collect();
    for i in rising_front(rows.len(), &mut compare)..rows.len() {
        let at = place(&order[..i], i, &mut compare);
        order.copy_within(at..i, at + 1);
        order[at] = i;
    }
    assert!(order.is_sorted_by_key(|place| rows[*place]), "{rows:?} come out as {order:?}");
    count
}

fn rising_front(n: usize, compare: &mut impl FnMut(usize, usize) -> Ordering) -> usize {
    (1..n).find(|i| !compare(i - 1, *i).is_lt()).unwrap_or(n)
}

fn place(order: &[usize], i: usize, compare: &mut impl FnMut(usize, usize) -> Ordering) -> usize {
    let (mut lo, mut hi) = (0, order.len());
    while lo < hi {
        let mid = lo + (hi - lo) / 2;
        if compare(order[mid], i).is_lt() { lo = mid + 1 } else { hi = mid }
    }
    lo
}
