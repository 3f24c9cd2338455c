//! How much stack the calls need: each is made on a stack that is painted before and looked at afterwards.

use std::ffi::{c_int, c_void};
use std::hint::black_box;
use std::ptr;

use inputs::call::Call;

use crate::desk::Desk;
use crate::raw;
use crate::sources::{self, Source};

const PAINT: u8 = 0xA5;
const PAGE: usize = 4_096;
const PAGES: usize = 64;

/// What include/wutherdish.h says that each call needs at most, by the place of its name.
pub const SAID: [usize; Call::NAMES.len()] =
    [4 << 10, 48 << 10, 1 << 10, 72 << 10, 4 << 10, 4 << 10, 4 << 10, 48 << 10, 56 << 10, 56 << 10];

/// Makes the calls of places, and fails where one needs more than is said. Gives the most that each kind of call needed.
pub fn most(seed: u64, places: u64) -> Result<[usize; Call::NAMES.len()], String> {
    let mut desk = Desk::new(None).map_err(|e| format!("no memory to lend from: {e}"))?;
    let (mut stack, mut most) = (Stack::default(), [0; Call::NAMES.len()]);
    for place in 0..places {
        let source = Source::of(seed, place);
        if matches!(source, Source::Feed | Source::Certificates | Source::DamagedBook) {
            continue;
        }
        for call in sources::calls(source, seed, place) {
            desk.lay_out(&call, 0);
            let (kind, need) = (call.kind(), stack.need(&desk, &call));
            if need > SAID[kind] {
                return Err(format!("place {place}: {} needs {need} bytes of stack", Call::NAMES[kind]));
            }
            most[kind] = most[kind].max(need);
        }
    }
    Ok(most)
}

/// `pthread_attr_t` of glibc on x86-64, and some room.
#[repr(C, align(8))]
struct Attributes([u8; 64]);

unsafe extern "C" {
    fn pthread_attr_init(attributes: *mut Attributes) -> c_int;
    fn pthread_attr_setstack(attributes: *mut Attributes, stack: *mut c_void, size: usize) -> c_int;
    fn pthread_create(
        thread: *mut usize,
        attributes: *const Attributes,
        start: extern "C" fn(*mut c_void) -> *mut c_void,
        task: *mut c_void,
    ) -> c_int;
    fn pthread_join(thread: usize, result: *mut *mut c_void) -> c_int;
}

#[derive(Clone)]
#[repr(align(4096))]
struct Page([u8; PAGE]);

impl Page {
    /// Bytes at its front that still have the paint.
    fn unchanged(&self) -> usize {
        self.0.iter().take_while(|byte| **byte == PAINT).count()
    }
}

/// A stack to make calls on.
pub struct Stack(Vec<Page>);

/// What the thread does, and where its stack stood before it.
struct Task<'a> {
    desk: &'a Desk,
    call: &'a Call,
    top: usize,
}

impl Default for Stack {
    fn default() -> Self {
        Self(vec![Page([PAINT; PAGE]); PAGES])
    }
}

impl Stack {
    /// Makes a call, for which all is laid out, and says how many bytes of the stack lie between its caller and the lowest
    /// that changed.
    pub fn need(&mut self, desk: &Desk, call: &Call) -> usize {
        let mut task = Task { desk, call, top: 0 };
        let start = self.0.as_ptr() as usize;
        self.run(&mut task);
        let changed: Vec<usize> = (0..PAGES).filter(|page| self.0[*page].0 != [PAINT; PAGE]).collect();
        let lowest = changed.first().map_or(task.top, |page| start + page * PAGE + self.0[*page].unchanged());
        changed.iter().for_each(|page| self.0[*page] = Page([PAINT; PAGE]));
        task.top - lowest
    }

    fn run(&mut self, task: &mut Task<'_>) {
        let done = |status: c_int| assert_eq!(status, 0, "no thread can be run on a stack of its own");
        let (mut attributes, mut thread) = (Attributes([0; 64]), 0);
        // SAFETY: the stack and the task stay until the thread has ended.
        unsafe {
            done(pthread_attr_init(&mut attributes));
            done(pthread_attr_setstack(&mut attributes, self.0.as_mut_ptr().cast(), PAGES * PAGE));
            done(pthread_create(&mut thread, &attributes, start, ptr::from_mut(task).cast()));
            done(pthread_join(thread, ptr::null_mut()));
        }
    }
}

extern "C" fn start(task: *mut c_void) -> *mut c_void {
    // SAFETY: it is the task that `run` handed over.
    let task = unsafe { &mut *task.cast::<Task<'_>>() };
    let marker = 0_u8;
    task.top = ptr::from_ref(black_box(&marker)) as usize;
    black_box(raw::call(task.desk, task.call));
    ptr::null_mut()
}
