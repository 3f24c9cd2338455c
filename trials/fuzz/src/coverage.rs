//! Which ways the library's code has gone, found by breakpoints in it.
//!
//! A byte that traps stands at every site whose ways have not all been seen. The trap's handler sees the flags, so it
//! knows which way the code goes; a conditional jump it makes itself, and past a conditional move it goes by a single
//! step. Once all ways of a site are seen its own byte stands there again, so that the code gets faster as less is new. A
//! site that shows the same way twice in a call is let alone until the next, and one that did so a thousand times is
//! watched in one call of eight: so a new way can be overlooked, but none is counted that wasn't gone.

use std::cell::Cell;
use std::ffi::{c_int, c_void};
use std::path::Path;
use std::ptr;
use std::sync::atomic::{AtomicPtr, Ordering::Relaxed};

use hard_use::watch::{Info, handle};
use wutherdish_sys::wutherdish_verify;

use crate::code::{self, Site};

const SIGTRAP: c_int = 5;
/// The instruction that traps, int3.
const TRAP: u8 = 0xCC;
const PAGE: usize = 4_096;
const READ_WRITE_EXECUTE: c_int = 7;

/// Where `ucontext_t` of x86-64 holds rip and the flags, in words.
const RIP: usize = 5 + 16;
const FLAGS: usize = 5 + 17;
const SINGLE_STEP: u64 = 1 << 8;

unsafe extern "C" {
    fn mprotect(start: *mut c_void, length: usize, access: c_int) -> c_int;
}

/// For the handler.
static ARMED: AtomicPtr<Coverage> = AtomicPtr::new(ptr::null_mut());

pub struct Coverage {
    /// Where the code stands in memory, less where it stands in the file.
    moved: u64,
    start: u64,
    /// By the distance from the start: the site's place, or `NO_SITE`.
    places: Vec<u16>,
    sites: Vec<Watched>,
    /// The site that is passed by a single step.
    stepping: Cell<Option<usize>>,
    seen: Cell<usize>,
    ways: usize,
}

const NO_SITE: u16 = u16::MAX;

struct Watched {
    address: u64,
    site: Site,
    /// The code's own byte.
    byte: u8,
    /// One bit for each way; the upper one if the condition holds.
    seen: Cell<u8>,
    is_armed: Cell<bool>,
    /// Traps that showed nothing new: in this call, and in all.
    idle: Cell<u32>,
    idle_in_all: Cell<u32>,
}

/// A site that showed nothing new in n traps of a call is let alone until the next.
const IDLE: u32 = 2;
/// In n of all calls, and it is watched in one call of `SELDOM`.
const IDLE_IN_ALL: u32 = 1_000;
const SELDOM: u64 = 8;

impl Watched {
    fn new(address: u64, site: Site, byte: u8) -> Self {
        let (idle, idle_in_all) = (Cell::new(0), Cell::new(0));
        Self { address, site, byte, seen: Cell::new(0), is_armed: Cell::new(false), idle, idle_in_all }
    }

    fn is_done(&self) -> bool {
        self.seen.get().count_ones() as usize == self.site.ways()
    }

    /// Puts the byte that traps into the code, or the code's own.
    fn arm(&self, is_armed: bool) {
        if self.is_armed.replace(is_armed) != is_armed {
            put(self.address, if is_armed { TRAP } else { self.byte });
        }
    }

    /// One in n calls watches it.
    fn seldom(&self) -> u64 {
        if self.idle_in_all.get() < IDLE_IN_ALL { 1 } else { SELDOM }
    }
}

impl Coverage {
    /// Arms every site of this process's library; from then on only the calling thread may call it.
    pub fn arm(program: &Path) -> Result<&'static Self, String> {
        let (code, functions) = code::read(program)?;
        let verify = functions.get("wutherdish_verify").ok_or("wutherdish_verify isn't in the program")?;
        let moved = (wutherdish_verify as *const () as u64).wrapping_sub(*verify);
        let start = code.start.wrapping_add(moved);
        let mut places = vec![NO_SITE; (code.end - code.start) as usize];
        let mut sites = Vec::new();
        for (address, site) in &code.sites {
            places[(address - code.start) as usize] = u16::try_from(sites.len()).map_err(|e| e.to_string())?;
            let address = address.wrapping_add(moved);
            // SAFETY: the library's code stands there.
            let byte = unsafe { (address as *const u8).read_volatile() };
            sites.push(Watched::new(address, *site, byte));
        }
        println!("{} functions of the library, {} sites", code.functions, sites.len());
        make_writable(start, places.len())?;
        let ways = code.sites.values().map(|site| site.ways()).sum();
        let (stepping, seen) = (Cell::new(None), Cell::new(0));
        let coverage = Box::into_raw(Box::new(Self { moved, start, places, sites, stepping, seen, ways }));
        ARMED.store(coverage, Relaxed);
        // SAFETY: it is never freed, and only shared from here on.
        let coverage = unsafe { &*coverage };
        handle(SIGTRAP, trapped);
        Ok(coverage)
    }

    /// Arms the sites that the call of this number is to watch.
    pub fn begin(&self, call: u64) {
        for (place, watched) in self.sites.iter().enumerate().filter(|(_, watched)| !watched.is_done()) {
            watched.idle.set(0);
            watched.arm((call + place as u64).is_multiple_of(watched.seldom()));
        }
    }

    /// How many ways have been seen, and how many there are.
    pub fn seen(&self) -> (usize, usize) {
        (self.seen.get(), self.ways)
    }

    /// The sites with ways that were not seen, by their addresses in the program's file, and the ways that were.
    pub fn unseen(&self) -> Vec<(u64, Site, u8)> {
        let left = self.sites.iter().filter(|watched| !watched.is_done());
        left.map(|watched| (watched.address.wrapping_sub(self.moved), watched.site, watched.seen.get())).collect()
    }

    /// The handler's part: gives where the code goes on, and the flags.
    fn trap(&self, rip: u64, flags: u64) -> Option<(u64, u64)> {
        if let Some(place) = self.stepping.take() {
            self.sites[place].arm(true);
            return Some((rip, flags & !SINGLE_STEP));
        }
        let address = rip - 1;
        let place = *self.places.get(address.checked_sub(self.start)? as usize)?;
        let watched = self.sites.get(usize::from(place))?;
        let way = match watched.site {
            Site::Reached => 1,
            Site::Jump { condition, .. } | Site::Choice { condition } => 1 << u8::from(holds(condition, flags)),
        };
        let is_left = self.note(watched, way);
        if is_left {
            watched.arm(false);
        }
        Some(match watched.site {
            Site::Jump { target, next, .. } => (self.moved.wrapping_add(if way == 2 { target } else { next }), flags),
            Site::Choice { .. } if !is_left => {
                watched.arm(false);
                self.stepping.set(Some(usize::from(place)));
                (address, flags | SINGLE_STEP)
            }
            _ => (address, flags),
        })
    }

    /// Notes the way that the code goes, and says whether the site is let alone from now on.
    fn note(&self, watched: &Watched, way: u8) -> bool {
        let before = watched.seen.replace(watched.seen.get() | way);
        if before & way == 0 {
            self.seen.set(self.seen.get() + 1);
        } else {
            watched.idle.set(watched.idle.get() + 1);
            watched.idle_in_all.set(watched.idle_in_all.get() + 1);
        }
        watched.is_done() || watched.idle.get() >= IDLE
    }
}

extern "C" fn trapped(_: c_int, _: *const Info, context: *mut c_void) {
    let words = context.cast::<u64>();
    // SAFETY: the system hands over the registers; the coverage is leaked, and only the thread that traps uses it.
    unsafe {
        let coverage = &*ARMED.load(Relaxed);
        let (rip, flags) = (words.add(RIP), words.add(FLAGS));
        match coverage.trap(*rip, *flags) {
            Some(on) => (*rip, *flags) = on,
            None => std::process::abort(),
        }
    }
}

/// Whether a condition holds, by its code.
fn holds(condition: u8, flags: u64) -> bool {
    let flag = |bit: u32| flags >> bit & 1 == 1;
    let (carry, parity, zero, sign, overflow) = (flag(0), flag(2), flag(6), flag(7), flag(11));
    let upright = match condition >> 1 {
        0 => overflow,
        1 => carry,
        2 => zero,
        3 => carry || zero,
        4 => sign,
        5 => parity,
        6 => sign != overflow,
        _ => zero || sign != overflow,
    };
    upright != (condition & 1 == 1)
}

fn put(address: u64, byte: u8) {
    // SAFETY: the library's code stands there, in pages that were made writable.
    unsafe { (address as *mut u8).write_volatile(byte) };
}

fn make_writable(start: u64, length: usize) -> Result<(), String> {
    let first = start as usize / PAGE * PAGE;
    let end = (start as usize + length).next_multiple_of(PAGE);
    // SAFETY: these are pages of code; they stay readable and executable.
    let status = unsafe { mprotect(first as *mut c_void, end - first, READ_WRITE_EXECUTE) };
    if status == 0 { Ok(()) } else { Err("the library's code can't be made writable".to_string()) }
}
