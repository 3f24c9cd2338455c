//! What the network can force, beside judging by the same list.

use std::time::Duration;

use cases::random::Random;
use inputs::call::Call;
use inputs::clock::timed;
use inputs::dear::{Made, Shape};
use oracle::forcing::ROW;
use oracle::question::Question;
use wutherdish::lent::{self, ANSWER, PEER_BUFFER};

use crate::rounds::repeated;

const WORDS: &str = "\
What the network can force. Bytes are all that the call is lent to read, entries those of the list; times are the processor's,
medians of up to 31 calls. In \"room\" the output has eight bytes more than the list, which is room for certain, in \"exact\" as many as
the rows take; a ratio is its time divided by judging's, and an entry's nanoseconds are those of \"exact\". Numbers are the reasons'
different ones.

| list | bytes | entries | number | rows | numbers | judging µs | room µs | exact µs | room / judging | exact / judging | ns an entry |
|---|---|---|---|---|---|---|---|---|---|---|---|";

/// Prints a row for each shape, with its greatest count, and at last the one that took longest.
pub fn table() -> Result<(), String> {
    println!("{WORDS}");
    let mut dearest = (Duration::ZERO, "");
    for shape in Shape::lists() {
        let Made { call, entries } = shape.make(&mut Random::new(1, 0), shape.most);
        let question = match call {
            Call::Case(case) => Question::of(case),
            Call::Force { question, .. } => Some(question),
            _ => None,
        };
        let question = question.ok_or_else(|| format!("{} is no list", shape.name))?;
        let took = row(shape.name, &question, entries)?;
        dearest = dearest.max((took, shape.name));
    }
    println!("\nthe dearest: {}, {:.1} ms", dearest.1, dearest.0.as_secs_f64() * 1e3);
    Ok(())
}

/// How long forcing took into as many bytes as the rows take.
fn row(name: &str, question: &Question, entries: usize) -> Result<Duration, String> {
    let Question { settings, schedule, record, leader, presence, list } = question;
    let (mut peers, mut answer) = (vec![0; PEER_BUFFER], [0; ANSWER]);
    let (judged, judging) = repeated(|| {
        timed(|| lent::judge(settings, schedule, record, *leader, *presence, list, &mut peers, &mut answer))
    });
    let mut out = vec![0; list.len() + ROW];
    let ([number, again], count, [room, exact]) = forced(question, &mut out);
    if [number, again] != [judged; 2] {
        return Err(format!("{name}: judging gives {judged}, forcing {number}, and {again} where the rows just fit"));
    }
    let rows = &out.as_chunks::<ROW>().0[..count];
    let numbers = rows.chunk_by(|one, next| one[3] == next[3]).count();
    let bytes = settings.len() + schedule.len() + record.len() + list.len();
    let micros = |took: Duration| took.as_nanos() as f64 / 1e3;
    let [judging, room_took, exact_took] = [judging, room, exact].map(micros);
    print!("| {name} | {bytes} | {entries} | {number} | {count} | {numbers} ");
    print!("| {judging:.1} | {room_took:.1} | {exact_took:.1} | {:.2} ", room_took / judging);
    println!("| {:.2} | {:.0} |", exact_took / judging, exact_took * 1e3 / entries.max(1) as f64);
    Ok(exact)
}

/// The numbers, how many rows, and the times of forcing into an output with room for certain, and into as many bytes as the rows take.
fn forced(question: &Question, out: &mut [u8]) -> ([u8; 2], usize, [Duration; 2]) {
    let Question { settings, schedule, record, leader, presence, list } = question;
    let mut count = 0;
    let mut force = |out: &mut [u8]| {
        let given =
            repeated(|| timed(|| lent::force(settings, schedule, record, *leader, *presence, list, out, &mut count)));
        (given, count as usize)
    };
    let ((number, room), rows) = force(out);
    let ((again, exact), _) = force(&mut out[..ROW * rows]);
    ([number, again], rows, [room, exact])
}
