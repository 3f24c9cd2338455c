//! What each worker is at, so that a call that faults or hangs is named: a handler for the signals of a fault, and a
//! thread that looks for calls that take too long.

use std::cell::Cell;
use std::ffi::{c_int, c_void};
use std::fmt::{self, Write};
use std::fs::File;
use std::os::fd::AsRawFd;
use std::sync::OnceLock;
use std::sync::atomic::{AtomicI32, AtomicPtr, AtomicU64, AtomicUsize, Ordering::Relaxed};
use std::time::{Duration, Instant};
use std::{ptr, thread};

use inputs::clock;

/// Exit statuses.
pub const FAULTED: i32 = 3;
pub const HUNG: i32 = 4;

const SIGILL: c_int = 4;
const SIGBUS: c_int = 7;
const SIGFPE: c_int = 8;
const SIGSEGV: c_int = 11;
const SA_SIGINFO: c_int = 4;
const SA_ONSTACK: c_int = 0x0800_0000;

/// `struct sigaction` of glibc on x86-64.
#[repr(C)]
pub struct Action {
    pub handler: extern "C" fn(c_int, *const Info, *mut c_void),
    pub mask: [u64; 16],
    pub flags: c_int,
    pub restorer: *const c_void,
}

/// The front of `siginfo_t`, for the signals of a fault.
#[repr(C)]
pub struct Info {
    signal: c_int,
    error: c_int,
    code: c_int,
    address: usize,
}

unsafe extern "C" {
    fn sigaction(signal: c_int, action: *const Action, before: *mut Action) -> c_int;
    fn write(file: c_int, bytes: *const u8, length: usize) -> isize;
    fn _exit(status: c_int) -> !;
}

/// Workers at most.
const WORKERS: usize = 4;
static DOING: [Doing; WORKERS] = [const { Doing::new() }; WORKERS];
static TAKEN: AtomicUsize = AtomicUsize::new(0);
static START: OnceLock<Instant> = OnceLock::new();

/// The bytes to be saved where a call faults or hangs, and the open file for them; none below 0.
static LAST: AtomicPtr<u8> = AtomicPtr::new(ptr::null_mut());
static LAST_LENGTH: AtomicUsize = AtomicUsize::new(0);
static LAST_FILE: AtomicI32 = AtomicI32::new(-1);

thread_local! {
    /// The number of this thread's worker; it needs no initialisation, so that a handler may read it.
    static WORKER: Cell<usize> = const { Cell::new(0) };
}

/// What a worker is at.
struct Doing {
    seed: AtomicU64,
    place: AtomicU64,
    /// Which call of the place, from 1 on.
    call: AtomicU64,
    /// Milliseconds from the start at which the call began, and 1; or 0 outside of calls.
    since: AtomicU64,
}

impl Doing {
    const fn new() -> Self {
        Self { seed: AtomicU64::new(0), place: AtomicU64::new(0), call: AtomicU64::new(0), since: AtomicU64::new(0) }
    }
}

/// This thread is a worker from now on.
pub fn enlist() {
    let worker = TAKEN.fetch_add(1, Relaxed);
    assert!(worker < WORKERS, "there are more workers than {WORKERS}");
    WORKER.set(worker);
}

pub fn at(seed: u64, place: u64) {
    let doing = &DOING[WORKER.get()];
    doing.seed.store(seed, Relaxed);
    doing.place.store(place, Relaxed);
    doing.call.store(0, Relaxed);
}

/// Has these bytes saved in an open file if the next call faults or hangs. They have to stay until then.
pub fn save_on_end(file: &File, bytes: &[u8]) {
    LAST.store(bytes.as_ptr().cast_mut(), Relaxed);
    LAST_LENGTH.store(bytes.len(), Relaxed);
    LAST_FILE.store(file.as_raw_fd(), Relaxed);
}

/// Runs one call of the library, and says how much of the processor's time it took. The watch goes by the clock.
pub fn timed<T>(call: impl FnOnce() -> T) -> (T, Duration) {
    let doing = &DOING[WORKER.get()];
    doing.call.fetch_add(1, Relaxed);
    doing.since.store(milliseconds(Instant::now()) + 1, Relaxed);
    let timed = clock::timed(call);
    doing.since.store(0, Relaxed);
    timed
}

fn milliseconds(now: Instant) -> u64 {
    now.duration_since(*START.get_or_init(Instant::now)).as_millis() as u64
}

/// Names faults from now on, and ends the process where a call takes longer than `bound`.
pub fn start(bound: Duration) {
    START.get_or_init(Instant::now);
    for signal in [SIGSEGV, SIGBUS, SIGILL, SIGFPE] {
        handle(signal, faulted);
    }
    thread::spawn(move || {
        loop {
            thread::sleep(bound / 10);
            let now = milliseconds(Instant::now());
            for doing in &DOING {
                let since = doing.since.load(Relaxed);
                if since > 0 && now + 1 > since + bound.as_millis() as u64 {
                    end(doing, HUNG, format_args!("a call has run for over {} ms", bound.as_millis()));
                }
            }
        }
    });
}

/// Has a signal handled on the thread's own stack for signals, so that a full stack is named too.
pub fn handle(signal: c_int, handler: extern "C" fn(c_int, *const Info, *mut c_void)) {
    let action = Action { handler, mask: [0; 16], flags: SA_SIGINFO | SA_ONSTACK, restorer: ptr::null() };
    // SAFETY: the action is laid out as the C library's, which fills in the restorer.
    let status = unsafe { sigaction(signal, &action, ptr::null_mut()) };
    assert_eq!(status, 0, "no handler could be set for signal {signal}");
}

extern "C" fn faulted(signal: c_int, info: *const Info, _: *mut c_void) {
    // SAFETY: the system hands over the fault's information.
    let address = unsafe { (*info).address };
    let doing = &DOING[WORKER.get()];
    let inside = if doing.since.load(Relaxed) > 0 { "in a call" } else { "outside of calls" };
    end(doing, FAULTED, format_args!("signal {signal} {inside}, at address {address:#x}"));
}

/// Says what a worker is at, without taking memory, and ends the process.
fn end(doing: &Doing, status: c_int, what: fmt::Arguments<'_>) -> ! {
    let mut line = Line { bytes: [0; 256], length: 0 };
    let (seed, place, call) = (doing.seed.load(Relaxed), doing.place.load(Relaxed), doing.call.load(Relaxed));
    let _ = writeln!(line, "seed {seed}, place {place}, call {call} of the place: {what}");
    // SAFETY: the line has as many bytes, and so have those to be saved.
    unsafe {
        if LAST_FILE.load(Relaxed) >= 0 {
            write(LAST_FILE.load(Relaxed), LAST.load(Relaxed), LAST_LENGTH.load(Relaxed));
        }
        write(2, line.bytes.as_ptr(), line.length);
        _exit(status)
    }
}

struct Line {
    bytes: [u8; 256],
    length: usize,
}

impl Write for Line {
    fn write_str(&mut self, text: &str) -> fmt::Result {
        let end = self.length + text.len();
        self.bytes.get_mut(self.length..end).ok_or(fmt::Error)?.copy_from_slice(text.as_bytes());
        self.length = end;
        Ok(())
    }
}
