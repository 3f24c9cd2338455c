//! The direct entries of a list as rounds of a DAG, each arriving in its turn.

use std::collections::HashMap;
use std::rc::Rc;

use tycho::dag::dag_location::DagLocation;
use tycho::dag::dag_point_future::{DIRECT, DagPointFuture, Turns};
use tycho::dag::{DagRound, RequireRegularPoints, RoundParts};
use tycho::models::{Cert, Digest, Round};
use tycho::{FastHashMap, PeerId};

use super::Listed;
use crate::numbers;
use crate::value::{Id, Point, Through, back};

/// An entry that arrives in its turn, with its certificate.
pub fn arrival(listed: &Listed, turns: &Rc<Turns>, turn: usize) -> (DagPointFuture, Cert) {
    (DagPointFuture::in_turn(listed.point.clone(), turns, turn), listed.cert.clone())
}

/// The direct entries as rounds of a DAG.
pub struct Arrivals {
    /// r-1, and r-2 after it where it is there.
    pub prev: DagRound,
    /// The place of a dropped entry in the list where no dependency is left to carry it.
    pub spare_drop: Option<usize>,
}

type Dependencies = FastHashMap<(PeerId, Digest), (DagPointFuture, Cert)>;

impl Arrivals {
    pub fn new(point: &Point, presence: u8, direct: &[Listed]) -> Self {
        let turns = Turns::new(DIRECT, direct.len());
        let mut dropped = Dropped::new(point, presence, direct);
        let prev = (presence == 3).then(|| {
            let witness = dropped.dependencies(point, Through::Witness, direct, &turns);
            round_of(point, Through::Witness, None, witness, FastHashMap::default())
        });
        let includes = dropped.dependencies(point, Through::Includes, direct, &turns);
        let versions = dropped.versions(point, direct, &turns);
        Self { prev: round_of(point, Through::Includes, prev, includes, versions), spare_drop: dropped.turn }
    }
}

/// r-1 or r-2: the judged point's leader and its need of regular points are asked of r alone.
fn round_of(
    point: &Point,
    through: Through,
    prev: Option<DagRound>,
    dependencies: Dependencies,
    versions: FastHashMap<PeerId, DagLocation>,
) -> DagRound {
    DagRound::new(RoundParts {
        round: Round(point.id.round - back(through)),
        leader: None,
        require_regular_points: RequireRegularPoints(false),
        prev,
        dependencies,
        versions,
        indirect: Vec::new(),
    })
}

/// The first dropped entry ends the list. Its turn goes to a dependency that is lacking, else to a point
/// that is listed after it and so never seen, else to a version of the author's point.
struct Dropped {
    /// The turn, until something carries it.
    turn: Option<usize>,
    places: HashMap<Id, usize>,
    any_lacking: bool,
}

impl Dropped {
    fn new(point: &Point, presence: u8, direct: &[Listed]) -> Self {
        let places: HashMap<Id, usize> = (direct.iter().enumerate())
            .filter_map(|(place, listed)| Some((*listed.entry.state.id()?, place)))
            .collect();
        let lacks = |through| point.dependencies(through).any(|id| !places.contains_key(&id));
        Self {
            turn: direct.iter().position(|listed| listed.entry.state.id().is_none()),
            any_lacking: lacks(Through::Includes) || (presence == 3 && lacks(Through::Witness)),
            places,
        }
    }

    /// Whether this point, listed at that place or lacking, carries the turn.
    fn takes(&mut self, place: Option<usize>) -> Option<usize> {
        let turn = self.turn?;
        let carries = match place {
            None => true,
            Some(place) => !self.any_lacking && place > turn,
        };
        if carries { self.turn.take() } else { None }
    }

    fn future(&mut self, id: &Id, direct: &[Listed], turns: &Rc<Turns>) -> (DagPointFuture, Cert) {
        let place = self.places.get(id).copied();
        if let Some(turn) = self.takes(place) {
            return (DagPointFuture::in_turn(None, turns, turn), Cert::default());
        }
        match place {
            Some(place) => arrival(&direct[place], turns, place),
            // after the first dropped one: never seen
            None => (DagPointFuture::in_turn(None, turns, direct.len() - 1), Cert::default()),
        }
    }

    fn dependencies(&mut self, point: &Point, through: Through, direct: &[Listed], turns: &Rc<Turns>) -> Dependencies {
        let mut dependencies = Dependencies::default();
        for id in point.dependencies(through) {
            let future = self.future(&id, direct, turns);
            dependencies.insert((PeerId(id.author), *Digest::wrap(&id.digest)), future);
        }
        dependencies
    }

    fn versions(&mut self, point: &Point, direct: &[Listed], turns: &Rc<Turns>) -> FastHashMap<PeerId, DagLocation> {
        let mut location = DagLocation::default();
        for id in direct.iter().filter_map(|listed| listed.entry.state.id()) {
            if numbers::is_version(point, id) {
                let (future, _) = self.future(id, direct, turns);
                location.versions.insert(*Digest::wrap(&id.digest), future);
            }
        }
        if point.prev_digest().is_none()
            && let Some(turn) = self.turn.take()
        {
            let unused = (0..=u8::MAX).map(|byte| *Digest::wrap(&[byte; 32]));
            let digest = unused.into_iter().find(|digest| !location.versions.contains_key(digest));
            let digest = digest.expect("fewer versions than that are named so");
            location.versions.insert(digest, DagPointFuture::in_turn(None, turns, turn));
        }
        FastHashMap::from_iter([(PeerId(point.id.author), location)])
    }
}
