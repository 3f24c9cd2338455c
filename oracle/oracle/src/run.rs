//! Runs the source's verifier on what was read.

use std::cell::{Cell, RefCell};
use std::panic::{self, AssertUnwindSafe};
use std::pin::pin;
use std::rc::Rc;
use std::sync::atomic::{AtomicBool, Ordering};
use std::sync::{Arc, Once};
use std::task::{Context, Poll, Wake, Waker};

use tycho::dag::dag_point_future::{DagPointFuture, INDIRECT, Turns};
use tycho::dag::{
    BasicVerifier, DagRound, IndirectSlot, InvalidReason, RoundParts, ValidateResult, Verifier, WeakDagRound,
};
use tycho::effects::ValidateCtx;
use tycho::engine::MempoolConfig;
use tycho::intercom::{Downloader, PeerSchedule, PeerScheduleStateless};
use tycho::models::{Cert, DagPoint, PointInfo, PointMap};
use tycho::storage::MempoolStore;
use tycho::{FastHashMap, set_leader_place};

use crate::answer::{Answer, PASSED, Verdict};
use crate::numbers::{self, Read};
use crate::value::{AnchorStageRole, Entry};

mod arrivals;
pub mod convert;

use arrivals::{Arrivals, arrival};
use convert::{config, dag_point, point_id, point_info, schedule, validated, verify_error};

thread_local! {
    static GUARDED: Cell<bool> = const { Cell::new(false) };
    static MESSAGE: RefCell<String> = const { RefCell::new(String::new()) };
}

/// Runs the Rust; its panic becomes an answer of its own.
pub fn guarded(run: impl FnOnce() -> Answer) -> Answer {
    static HOOK: Once = Once::new();
    HOOK.call_once(|| {
        let before = panic::take_hook();
        panic::set_hook(Box::new(move |info| {
            if GUARDED.get() {
                MESSAGE.set(info.payload_as_str().unwrap_or("without a message").replace('\n', " "));
            } else {
                before(info);
            }
        }));
    });
    GUARDED.set(true);
    let result = panic::catch_unwind(AssertUnwindSafe(run));
    GUARDED.set(false);
    result.unwrap_or_else(|_| Answer::Panic(MESSAGE.take()))
}

/// `BasicVerifier::verify`.
pub fn verify(read: &Read) -> Answer {
    match Node::new(read).verify() {
        Ok(()) => Verdict::new(PASSED, 0).into(),
        Err(verdict) => verdict.into(),
    }
}

/// `BasicVerifier::verify`, then `Verifier::validate`, with the numbers 6 to 9 where they stand between.
pub fn judge(read: &Read, leader: bool, presence: u8, list: &[u8]) -> Answer {
    let node = Node::new(read);
    if let Err(verdict) = node.verify() {
        return verdict.into();
    }
    if read.point.id.round == read.settings.genesis_round {
        return validated(&node.validate(None, Cert::default())).into();
    }
    if let Err(number) = numbers::horizon(read) {
        return Answer::Number(number);
    }
    if presence == 0 {
        return validated(&node.validate_absent(leader)).into();
    }
    let unlisted = node.validate_unlisted(leader);
    if presence == 1 || matches!(unlisted, ValidateResult::IllFormed(_)) {
        return validated(&unlisted).into();
    }
    match numbers::needed(&read.point, presence, list) {
        Err(number) => Answer::Number(number),
        Ok(entries) => {
            let listed = Listed::of_case(entries, &node.conf);
            validated(&node.validate_listed(leader, presence, &listed, Cert::default())).into()
        }
    }
}

/// An entry with its certificate, and as the DAG resolves it.
pub struct Listed {
    entry: Entry,
    cert: Cert,
    point: Option<DagPoint>,
}

impl Listed {
    pub fn new(entry: Entry, cert: Cert) -> Self {
        let point = dag_point(&entry, &cert);
        Self { entry, cert, point }
    }

    /// Entries that are certified as their flags say.
    pub fn of_case(entries: Vec<Entry>, conf: &MempoolConfig) -> Vec<Self> {
        let listed = |entry: Entry| {
            let cert = Cert::default();
            if entry.certified {
                cert.certify(conf);
            }
            Self::new(entry, cert)
        };
        entries.into_iter().map(listed).collect()
    }
}

/// What the source's calls are given.
pub struct Node<'a> {
    read: &'a Read,
    pub conf: Rc<MempoolConfig>,
    schedule: Rc<PeerScheduleStateless>,
    info: PointInfo,
}

impl<'a> Node<'a> {
    pub fn new(read: &'a Read) -> Self {
        Self {
            read,
            conf: Rc::new(config(&read.settings)),
            schedule: Rc::new(schedule(&read.schedule)),
            info: point_info(&read.point),
        }
    }

    pub fn verify(&self) -> Result<(), Verdict> {
        let verifier = BasicVerifier::new(&self.info, &self.schedule, &self.conf);
        verifier.verify().map_err(|error| verify_error(&error))
    }

    pub fn validate(&self, round: Option<DagRound>, cert: Cert) -> ValidateResult {
        let future = Verifier::validate(
            self.info.clone(),
            WeakDagRound(round),
            Downloader(PeerSchedule::new(self.schedule.clone())),
            MempoolStore,
            cert,
            ValidateCtx::new(self.conf.clone()),
        );
        finish(future).expect("no task is cancelled")
    }

    /// Presence 1: an ill-formed point is refused before r-1 is asked for, others are refused then.
    pub fn validate_unlisted(&self, leader: bool) -> ValidateResult {
        self.validate(Some(self.round(leader, None, Vec::new())), Cert::default())
    }

    /// Presence 0.
    fn validate_absent(&self, leader: bool) -> ValidateResult {
        match self.leader_place(leader) {
            Some(place) => {
                set_leader_place(place);
                self.validate(None, Cert::default())
            }
            None => self.validate_without_wave(leader),
        }
    }

    /// Without its round in the DAG a point's leader comes from wave.rs. This is the place to draw there,
    /// or none where wave.rs can't give the flag that was handed in.
    fn leader_place(&self, leader: bool) -> Option<usize> {
        let round = self.read.point.id.round;
        let author = &self.read.point.id.author;
        let peers = self.read.schedule.peers((round / 4 * 4).max(self.read.settings.genesis_round));
        if peers.is_empty() {
            return None;
        }
        if round % 4 != 2 {
            return (!leader).then_some(0);
        }
        peers.iter().position(|peer| (peer == author) == leader)
    }

    /// The flag is given by a DAG round, and the missing round put right in the answer.
    fn validate_without_wave(&self, leader: bool) -> ValidateResult {
        match self.validate_unlisted(leader) {
            ValidateResult::Invalid(InvalidReason::NoRoundInDag(PointMap::Includes)) => {
                ValidateResult::Invalid(InvalidReason::NoRoundInDag(PointMap::Evidence))
            }
            other => other,
        }
    }

    /// The judged point's own round.
    fn round(&self, leader: bool, prev: Option<DagRound>, indirect: Vec<IndirectSlot>) -> DagRound {
        let round = self.info.round();
        DagRound::new(RoundParts {
            round,
            leader: leader.then(|| *self.info.author()),
            require_regular_points: self.schedule.require_regular_points(round),
            prev,
            dependencies: FastHashMap::default(),
            versions: FastHashMap::default(),
            indirect,
        })
    }

    pub fn validate_listed(&self, leader: bool, presence: u8, listed: &[Listed], cert: Cert) -> ValidateResult {
        match self.listed_round(leader, presence, listed) {
            Ok(round) => self.validate(Some(round), cert),
            Err(spare_drop) => self.validate_spare_drop(leader, spare_drop),
        }
    }

    /// The judged point's own round over those of its list; the direct entries alone where no DAG gives them.
    pub fn listed_round(&self, leader: bool, presence: u8, listed: &[Listed]) -> Result<DagRound, Arrivals> {
        let (direct, indirect) = listed.split_at(listed.partition_point(|listed| listed.entry.indirect.is_none()));
        let arrivals = Arrivals::new(&self.read.point, presence, direct);
        if arrivals.spare_drop.is_some() {
            return Err(arrivals);
        }
        Ok(self.round(leader, Some(arrivals.prev), self.indirect_slots(indirect)))
    }

    /// All dependencies are listed before a dropped entry that no DAG gives. `check_valid` would end there:
    /// with the reason that is set by then, else with `DependencyRoundDropped`, and no indirect entry judged.
    fn validate_spare_drop(&self, leader: bool, arrivals: Arrivals) -> ValidateResult {
        let slots = self.indirect_slots(&[]);
        match self.validate(Some(self.round(leader, Some(arrivals.prev), slots)), Cert::default()) {
            ValidateResult::Invalid(reason) => ValidateResult::Invalid(reason),
            _ => {
                #[cfg(feature = "noted")]
                crate::noted::note_drop(arrivals.spare_drop);
                ValidateResult::Invalid(InvalidReason::DependencyRoundDropped)
            }
        }
    }

    /// One slot for each indirect link, proof first. One that isn't listed is seen to be gone at once.
    fn indirect_slots(&self, indirect: &[Listed]) -> Vec<IndirectSlot> {
        let turns = Turns::new(INDIRECT, indirect.len());
        let slot = |role: AnchorStageRole| {
            let id = point_id(self.read.point.link(role).to.as_ref()?);
            let place = indirect.iter().position(|listed| listed.entry.indirect == Some(role));
            let (future, cert) = match place {
                Some(place) => arrival(&indirect[place], &turns, place),
                None => (DagPointFuture::gone(), Cert::default()),
            };
            Some(IndirectSlot { id, listed: place.is_some(), future, cert, taken: Cell::new(false) })
        };
        AnchorStageRole::ALL.into_iter().filter_map(slot).collect()
    }
}

struct Woken(AtomicBool);

impl Wake for Woken {
    fn wake(self: Arc<Self>) {
        self.0.store(true, Ordering::Relaxed);
    }
}

thread_local! {
    static WOKEN: Arc<Woken> = Arc::new(Woken(AtomicBool::new(false)));
}

/// Polls to the end. A future that waits without having been woken would wait for ever.
fn finish<F: Future>(future: F) -> F::Output {
    let woken = WOKEN.with(Arc::clone);
    let waker = Waker::from(woken.clone());
    let mut context = Context::from_waker(&waker);
    let mut future = pin!(future);
    loop {
        woken.0.store(false, Ordering::Relaxed);
        match future.as_mut().poll(&mut context) {
            Poll::Ready(output) => return output,
            Poll::Pending => assert!(woken.0.load(Ordering::Relaxed), "a dependency never arrives"),
        }
    }
}
