//! Calls the library on lent bytes, and compares what it left with what it had to.

use std::io;
use std::time::Duration;

use inputs::call::{Call, Lent};
use wutherdish_sys::ANSWER;

use crate::fault::Fault;
use crate::memory::{Access, Buffer, Side};
use crate::model::Expected;
use crate::{raw, watch};

/// Bytes of a count.
const COUNT: usize = size_of::<u32>();
/// Room for what is lent: over the longest book and the longest list that the sources make.
const ROOM: usize = 32 << 20;

/// One worker's memory to lend from.
pub struct Desk {
    /// By the place of `Lent`.
    buffers: [Buffer; Lent::ALL.len()],
    /// Made beside every call.
    pub fault: Option<Fault>,
}

/// What a call gave, and how long it took.
pub struct Called {
    pub number: u8,
    pub took: Duration,
}

impl Desk {
    /// The thread that makes a desk is a worker from then on.
    pub fn new(fault: Option<Fault>) -> io::Result<Self> {
        watch::enlist();
        let buffer = |lent: Lent| {
            let room = match lent {
                Lent::Answer => ANSWER,
                Lent::Count => COUNT,
                _ => ROOM,
            };
            Buffer::new(room, if lent.is_written() { Access::ReadAndWrite } else { Access::Read })
        };
        let buffers: io::Result<Vec<Buffer>> = Lent::ALL.into_iter().map(buffer).collect();
        let buffers = buffers?.try_into().unwrap_or_else(|_| unreachable!("there are as many"));
        Ok(Self { buffers, fault })
    }

    pub fn buffer(&self, lent: Lent) -> &Buffer {
        &self.buffers[lent as usize]
    }

    /// Lays out what the call is lent. The lowest bits of `layout` choose each buffer's side, `fill` of it is what the buffers
    /// hold that are to be written.
    pub fn lay_out(&mut self, call: &Call, layout: u64) {
        let side = |lent: Lent| if layout >> lent as u8 & 1 == 1 { Side::Upper } else { Side::Lower };
        let fill = fill(layout);
        for (lent, bytes) in call.inputs() {
            self.buffers[lent as usize].lend(bytes, side(lent), fill);
        }
        if let Some(length) = call.peer_buffer() {
            self.buffers[Lent::Peers as usize].lend_filled(length, side(Lent::Peers), fill);
        }
        if let Some(length) = call.answer() {
            self.buffers[Lent::Answer as usize].lend_filled(length, side(Lent::Answer), fill);
        }
        if let Some(length) = call.output() {
            self.buffers[Lent::Output as usize].lend_filled(length, side(Lent::Output), fill);
            self.buffers[Lent::Count as usize].lend_filled(COUNT, side(Lent::Count), fill);
        }
        let book = &mut self.buffers[Lent::Book as usize];
        match call {
            Call::Open { length, .. } => book.lend_filled(*length, side(Lent::Book), fill),
            Call::Offer { book: Some(bytes), .. } => book.lend(bytes, side(Lent::Book), fill),
            _ => {}
        }
    }

    /// Lays out what the call is lent, and makes it.
    pub fn call(&mut self, call: &Call, layout: u64) -> Called {
        self.lay_out(call, layout);
        let (number, took) = watch::timed(|| {
            let number = raw::call(self, call);
            match self.fault {
                Some(fault) => fault.make(self, call, number),
                None => number,
            }
        });
        Called { number, took }
    }

    /// The error says what differs.
    pub fn check(&self, call: &Call, number: u8, expected: &Expected) -> Result<(), String> {
        if number != expected.number {
            return Err(format!("the number is {number}, expected {}", expected.number));
        }
        if call.answer().is_some() {
            same("answer", self.buffer(Lent::Answer), expected.answer.as_deref().unwrap_or_default())?;
        }
        if call.peer_buffer().is_some() {
            same("peer buffer", self.buffer(Lent::Peers), expected.unknown.as_flattened())?;
        }
        if call.output().is_some() {
            let written = expected.written.as_deref().unwrap_or_default();
            let count = expected.written.as_ref().map(|written| ((written.len() / call.unit()) as u32).to_ne_bytes());
            same("output", self.buffer(Lent::Output), written)?;
            same("count", self.buffer(Lent::Count), count.as_ref().map_or(&[], |count| &count[..]))?;
        }
        if let Some(book) = &expected.book {
            same("book", self.buffer(Lent::Book), book)?;
        }
        for (lent, bytes) in call.inputs() {
            same("lent to be read", self.buffer(lent), bytes)?;
        }
        match Lent::ALL.into_iter().find(|lent| call.lends(*lent) && !self.buffer(*lent).neighbours_kept()) {
            Some(lent) => Err(format!("{lent:?}: a byte outside of what is lent was written")),
            None => Ok(()),
        }
    }
}

/// The bits of a layout after those for the sides: what buffers hold that are to be written.
pub fn fill(layout: u64) -> u8 {
    (layout >> Lent::ALL.len()) as u8
}

/// Whether a buffer holds these bytes, and after them what it was filled with.
fn same(name: &str, buffer: &Buffer, expected: &[u8]) -> Result<(), String> {
    let found = buffer.bytes();
    let Some((front, rest)) = found.split_at_checked(expected.len()) else {
        return Err(format!("{name}: {} bytes were lent, {} expected", found.len(), expected.len()));
    };
    if front == expected && is_filled(rest, buffer.fill()) {
        return Ok(());
    }
    let wanted = expected.iter().copied().chain(std::iter::repeat(buffer.fill()));
    let place = found.iter().zip(wanted).position(|(found, wanted)| *found != wanted);
    Err(format!("{name}: byte {place:?} of {} is another; found from there on {:02x?}", found.len(), {
        let start = place.unwrap_or(0);
        &found[start..found.len().min(start + 48)]
    }))
}

fn is_filled(bytes: &[u8], fill: u8) -> bool {
    let wide = u64::from_ne_bytes([fill; 8]);
    let (chunks, rest) = bytes.as_chunks::<8>();
    chunks.iter().all(|chunk| u64::from_ne_bytes(*chunk) == wide) && rest.iter().all(|byte| *byte == fill)
}
