//! A dependency that arrives when its turn has come.

use std::cell::{Cell, RefCell};
use std::future::Future;
use std::pin::Pin;
use std::rc::Rc;
use std::task::{Context, Poll, Waker};

use crate::effects::TaskResult;
use crate::models::DagPoint;

/// Lists of entries, as a row of a trail names them.
pub const DIRECT: u8 = 1;
pub const INDIRECT: u8 = 2;

/// Of the entries of a list: whose turn it is, and who waits for a later one.
pub struct Turns {
    /// Which one, for the notes.
    #[cfg_attr(not(feature = "noted"), expect(dead_code, reason = "nothing is noted"))]
    list: u8,
    now: Cell<usize>,
    waiting: RefCell<Vec<Option<Waker>>>,
}

impl Turns {
    pub fn new(list: u8, count: usize) -> Rc<Self> {
        Rc::new(Self { list, now: Cell::new(0), waiting: RefCell::new(vec![None; count]) })
    }

    fn arrive(&self, turn: usize, cx: &Context<'_>) -> bool {
        let mut waiting = self.waiting.borrow_mut();
        if self.now.get() != turn {
            waiting[turn] = Some(cx.waker().clone());
            return false;
        }
        #[cfg(feature = "noted")]
        crate::notes::arrived(self.list, turn);
        self.now.set(turn + 1);
        if let Some(next) = waiting.get_mut(turn + 1).and_then(Option::take) {
            next.wake();
        }
        true
    }
}

/// `None` as a point is a dependency that was dropped with its round.
#[derive(Clone)]
pub struct DagPointFuture {
    point: Option<DagPoint>,
    turn: Option<(Rc<Turns>, usize)>,
}

impl DagPointFuture {
    pub fn in_turn(point: Option<DagPoint>, turns: &Rc<Turns>, turn: usize) -> Self {
        Self { point, turn: Some((turns.clone(), turn)) }
    }

    /// Dropped, and seen to be so at once.
    pub fn gone() -> Self {
        Self { point: None, turn: None }
    }

    pub fn downgrade(&self) -> WeakDagPointFuture {
        WeakDagPointFuture(self.clone())
    }
}

pub struct WeakDagPointFuture(DagPointFuture);

impl Future for WeakDagPointFuture {
    type Output = TaskResult<Option<DagPoint>>;

    fn poll(mut self: Pin<&mut Self>, cx: &mut Context<'_>) -> Poll<Self::Output> {
        let arrived = match &self.0.turn {
            Some((turns, turn)) => turns.arrive(*turn, cx),
            None => true,
        };
        if arrived { Poll::Ready(Ok(self.0.point.take())) } else { Poll::Pending }
    }
}
