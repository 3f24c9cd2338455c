//! Rounds of a DAG that holds what one case lists.

use std::cell::Cell;
use std::rc::Rc;

use tycho_network::PeerId;
use tycho_util::FastHashMap;

use crate::dag::dag_location::DagLocation;
use crate::dag::dag_point_future::{DagPointFuture, WeakDagPointFuture};
use crate::effects::ValidateCtx;
use crate::intercom::Downloader;
use crate::models::{Cert, Digest, PointId, Round, WeakCert};
use crate::storage::MempoolStore;

#[derive(Copy, Clone)]
pub struct RequireRegularPoints(pub bool);

/// What a round of the DAG holds. A round that is gone is `None` where it is asked for.
pub struct RoundParts {
    pub round: Round,
    pub leader: Option<PeerId>,
    pub require_regular_points: RequireRegularPoints,
    pub prev: Option<DagRound>,
    pub dependencies: FastHashMap<(PeerId, Digest), (DagPointFuture, Cert)>,
    pub versions: FastHashMap<PeerId, DagLocation>,
    pub indirect: Vec<IndirectSlot>,
}

/// One indirect link's target; `listed` is false where the list has no entry for it.
pub struct IndirectSlot {
    pub id: PointId,
    pub listed: bool,
    pub future: DagPointFuture,
    pub cert: Cert,
    pub taken: Cell<bool>,
}

#[derive(Clone)]
pub struct DagRound {
    parts: Rc<RoundParts>,
    scanned: Option<Round>,
}

/// The judged point's round, r-1 and r-2 stay or are gone for the whole of a case.
#[derive(Clone)]
pub struct WeakDagRound(pub Option<DagRound>);

impl WeakDagRound {
    pub fn upgrade(&self) -> Option<DagRound> {
        self.0.clone()
    }
}

impl DagRound {
    pub fn new(parts: RoundParts) -> Self {
        Self { parts: Rc::new(parts), scanned: None }
    }

    pub fn round(&self) -> Round {
        self.scanned.unwrap_or(self.parts.round)
    }

    pub fn leader(&self) -> Option<&PeerId> {
        self.parts.leader.as_ref()
    }

    pub fn require_regular_points(&self) -> RequireRegularPoints {
        self.parts.require_regular_points
    }

    pub fn prev(&self) -> WeakDagRound {
        WeakDagRound(self.parts.prev.clone())
    }

    pub fn view<R>(&self, author: &PeerId, view: impl FnOnce(&DagLocation) -> R) -> Option<R> {
        self.parts.versions.get(author).map(view)
    }

    /// A round with an indirect target. It is gone if neither it nor an older one is listed.
    pub fn scan(&self, round: Round) -> Option<Self> {
        assert!(self.round() >= round, "Coding error: cannot scan DAG rounds chain for a future round");
        let listed = |slot: &IndirectSlot| slot.listed && slot.id.round <= round;
        self.parts.indirect.iter().any(listed).then(|| Self { parts: self.parts.clone(), scanned: Some(round) })
    }

    pub fn add_dependency(
        &self,
        author: &PeerId,
        digest: &Digest,
        _depender: &PeerId,
        _downloader: &Downloader,
        _store: &MempoolStore,
        _ctx: &ValidateCtx,
    ) -> (WeakDagPointFuture, WeakCert) {
        let (future, cert) = match self.scanned {
            None => self.direct(author, digest),
            Some(round) => self.take_indirect(PointId { round, digest: *digest, author: *author }),
        };
        (future.downgrade(), cert.downgrade())
    }

    fn direct(&self, author: &PeerId, digest: &Digest) -> (&DagPointFuture, &Cert) {
        let (future, cert) = &self.parts.dependencies[&(*author, *digest)];
        (future, cert)
    }

    /// Proof and trigger may have one target: the source asks for the proof's first then.
    fn take_indirect(&self, id: PointId) -> (&DagPointFuture, &Cert) {
        let slot = (self.parts.indirect.iter())
            .find(|slot| slot.id == id && !slot.taken.replace(true))
            .expect("every indirect link has its slot");
        (&slot.future, &slot.cert)
    }
}
