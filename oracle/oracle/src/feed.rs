//! Points offered one after another to a DAG with the source's certificates, which live on from offer to offer.
//!
//! Lists are built as document 01's book builds them. Marks are `Cert::is_certified` of the source's own `Cert`,
//! which `Verifier::validate` fills and spreads: it calls `certify` of the previous point's and `set_deps` of the judged
//! one's. As in dag_round.rs a point that is depended on before it comes has a certificate from then on, and keeps it.

use std::collections::HashMap;

use tycho::models::Cert;

use crate::answer::{FAIL, ILL_FORMED, INVALID, TRANS_INVALID, VALID};
use crate::numbers::{Read, horizon, is_version};
use crate::run::convert::validated;
use crate::run::{Listed, Node, guarded};
use crate::value::{AnchorStageRole, Entry, Id, Peer, Point, Schedule, Settings, State, Through};
use crate::{Answer, Verdict};

pub struct Feed {
    settings: Settings,
    kept: Vec<Kept>,
    places: HashMap<Id, usize>,
    /// Of every point that came or was depended on: what dag_location.rs has in its versions.
    certs: HashMap<Id, Cert>,
    /// The earliest valid point of a round and an author.
    first_valid: HashMap<(u32, Peer), Id>,
}

struct Kept {
    id: Id,
    state: State,
    cert: Cert,
}

impl Feed {
    pub fn new(settings: Settings) -> Self {
        let (places, certs, first_valid) = (HashMap::new(), HashMap::new(), HashMap::new());
        Self { settings, kept: Vec::new(), places, certs, first_valid }
    }

    /// Judges a point over what is kept. Fail, a number or a panic keeps nothing.
    pub fn offer(&mut self, schedule: &Schedule, leader: bool, point: &Point) -> Answer {
        let read = Read { settings: self.settings.clone(), schedule: schedule.clone(), point: point.clone() };
        let cert = self.cert(&point.id);
        let answer = guarded(|| self.judge(&read, leader, cert.clone()));
        if let Answer::Verdict(verdict) = &answer {
            self.keep(point, verdict, cert);
        }
        answer
    }

    /// Whether each kept point is certified, in the order of keeping.
    pub fn marks(&self) -> impl Iterator<Item = (&Id, bool)> {
        self.kept.iter().map(|kept| (&kept.id, kept.cert.is_certified()))
    }

    /// The certificate of an id: a new one where none was asked for before.
    fn cert(&mut self, id: &Id) -> Cert {
        self.certs.entry(*id).or_default().clone()
    }

    fn judge(&mut self, read: &Read, leader: bool, cert: Cert) -> Answer {
        let node = Node::new(read);
        if let Err(verdict) = node.verify() {
            return verdict.into();
        }
        if read.point.id.round == read.settings.genesis_round {
            return validated(&node.validate(None, cert)).into();
        }
        if let Err(number) = horizon(read) {
            return Answer::Number(number);
        }
        let unlisted = validated(&node.validate_unlisted(leader));
        if unlisted.kind == ILL_FORMED {
            return unlisted.into();
        }
        let list = self.list(&read.point);
        validated(&node.validate_listed(leader, 3, &list, cert)).into()
    }

    /// Witness rising, includes rising, without a previous digest the kept versions, then indirect targets with
    /// the higher round first, proof first on a tie.
    fn list(&mut self, point: &Point) -> Vec<Listed> {
        let maps = point.dependencies(Through::Witness).chain(point.dependencies(Through::Includes));
        let versions = self.kept.iter().map(|kept| kept.id).filter(|id| is_version(point, id));
        let direct: Vec<Id> = maps.chain(versions).collect();
        let mut targets: Vec<(AnchorStageRole, Id)> =
            AnchorStageRole::ALL.into_iter().filter_map(|role| Some((role, point.link(role).to?))).collect();
        targets.sort_by_key(|(_, id)| std::cmp::Reverse(id.round));
        let direct = direct.into_iter().map(|id| (None, id));
        let indirect = targets.into_iter().map(|(role, id)| (Some(role), id));
        direct.chain(indirect).map(|(role, id)| self.listed(id, role)).collect()
    }

    /// A point that isn't kept is not found.
    fn listed(&mut self, id: Id, indirect: Option<AnchorStageRole>) -> Listed {
        let cert = self.cert(&id);
        let kept = self.places.get(&id).map(|place| &self.kept[*place]);
        let state = kept.map_or(State::NotFound(id), |kept| kept.state.clone());
        let first_valid = self.first_valid.get(&(id.round, id.author)) == Some(&id);
        Listed::new(Entry { indirect, certified: cert.is_certified(), first_valid, state }, cert)
    }

    fn keep(&mut self, point: &Point, verdict: &Verdict, cert: Cert) {
        let state = match verdict.kind {
            FAIL => return,
            VALID => {
                self.first_valid.entry((point.id.round, point.id.author)).or_insert(point.id);
                State::Valid(point.clone())
            }
            INVALID => State::Invalid(point.clone(), verdict.reason),
            TRANS_INVALID => {
                let root = verdict.id.expect("a root cause has an id");
                State::TransInvalid(point.clone(), root, verdict.root_reason)
            }
            _ => State::IllFormed(point.id, verdict.reason),
        };
        self.places.insert(point.id, self.kept.len());
        self.kept.push(Kept { id: point.id, state, cert });
    }
}
