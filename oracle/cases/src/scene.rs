//! A judged point that is well formed, with dependencies that agree with it.
//!
//! The newest proof and the newest trigger are chosen first; every dependency then links to them or to older
//! ones, so that judging finds no fault.

use oracle::PEER_BUFFER;
use oracle::file::Case;
use oracle::numbers::LAST_ROUND;
use oracle::value::{
    AnchorLink, AnchorStageRole, Digest, Entry, Id, Peer, Point, PointRole, Schedule, Settings, Span, State, Through,
};
use oracle::write;

use crate::random::Random;

/// What a case is made of.
#[derive(Clone)]
pub struct Scene {
    pub settings: Settings,
    pub schedule: Schedule,
    pub point: Point,
    pub leader: u8,
    pub presence: u8,
    pub entries: Vec<Entry>,
    pub peer_buffer: u32,
}

impl Scene {
    pub fn verify(&self) -> Case {
        Case::Verify {
            settings: write::settings(&self.settings),
            schedule: write::schedule(&self.schedule),
            record: write::record(&self.point),
            peer_buffer: self.peer_buffer,
        }
    }

    pub fn judge(&self) -> Case {
        Case::Judge {
            settings: write::settings(&self.settings),
            schedule: write::schedule(&self.schedule),
            record: write::record(&self.point),
            leader: self.leader,
            presence: self.presence,
            list: write::list(&self.entries),
            peer_buffer: self.peer_buffer,
        }
    }

    pub fn round(&self) -> u32 {
        self.point.id.round
    }

    /// The place of an id among the direct entries.
    pub fn place(&self, id: &Id) -> Option<usize> {
        self.entries.iter().position(|entry| entry.indirect.is_none() && entry.state.id() == Some(id))
    }

    pub fn prev(&self) -> Option<Id> {
        let digest = *self.point.prev_digest()?;
        Some(Id { round: self.round() - 1, digest, author: self.point.id.author })
    }

    /// The point that a link goes through; for a direct link its target.
    pub fn source(&self, role: AnchorStageRole) -> Option<Id> {
        let link = self.point.link(role);
        self.point.dependencies(link.through).find(|id| id.author == link.peer)
    }

    pub fn target(&self, role: AnchorStageRole) -> Option<Id> {
        self.point.link(role).to.or_else(|| self.source(role))
    }
}

/// How a link reaches its target.
#[derive(Clone, Copy, PartialEq, Eq, Debug)]
pub enum Form {
    DirectIncludes,
    DirectWitness,
    /// A direct link to the author's own previous point.
    DirectPrev,
    ThroughIncludes,
    ThroughWitness,
    /// Indirect through includes, and the target is a witness pair too.
    ThroughIncludesSeen,
}

#[derive(Clone, Copy, PartialEq, Eq, Debug)]
pub enum RoleWish {
    Regular,
    FirstProof,
    LaterProof,
    Trigger,
}

/// What a fault asks of the scene that it is put into.
#[derive(Clone, Copy, Default)]
pub struct Wish {
    pub rounds_above_genesis: Option<u32>,
    pub role: Option<RoleWish>,
    pub prev: Option<bool>,
    pub regular_required: Option<bool>,
    pub proof: Option<Form>,
    pub trigger: Option<Form>,
    pub far_proof: bool,
    pub witness: bool,
    pub indirect_listed: bool,
    pub sticky: bool,
}

/// The genesis point of a scene's settings, judged.
pub fn genesis(random: &mut Random) -> Scene {
    let round = genesis_round(random, 0);
    let author = random.bytes();
    let settings = settings(random, round, false);
    let time = u64::from(random.between(1, 1_000_000));
    let point = genesis_point(&settings, author, time);
    let first = round - random.between(0, 3);
    let mut spans = vec![Span { first, peers: vec![author] }];
    if random.chance(1, 2) {
        spans.push(Span { first: round + random.between(1, 6), peers: peer_set(random, 4) });
    }
    Scene {
        settings,
        schedule: Schedule { spans, last_known: round + random.between(0, 9) },
        point,
        leader: random.below(2) as u8,
        presence: random.below(4) as u8,
        entries: Vec::new(),
        peer_buffer: PEER_BUFFER,
    }
}

fn genesis_point(settings: &Settings, author: Peer, time: u64) -> Point {
    Point::genesis(Id { round: settings.genesis_round, digest: settings.genesis_digest, author }, time)
}

/// Mostly low; sometimes anywhere; sometimes so that the judged round is the greatest of the domain.
fn genesis_round(random: &mut Random, above: u32) -> u32 {
    match random.below(8) {
        0 => random.between(4, LAST_ROUND - above),
        1 => LAST_ROUND - above,
        2 => 4,
        _ => random.between(4, 60),
    }
}

fn settings(random: &mut Random, genesis_round: u32, sticky: bool) -> Settings {
    Settings {
        genesis_round,
        genesis_digest: random.bytes(),
        payload_batch_bytes: random.between(1, 1_000_000),
        sticky_anchors: if sticky { random.between(1, 5) as u8 } else { random.pick(&[0, 0, 1, 2, 3, 255]) },
        clock_skew_millis: random.between(1, 5_000) as u16,
        commit_history_rounds: random.pick(&[1, 2, 5, 21, 255]),
    }
}

pub fn peer_set(random: &mut Random, count: usize) -> Vec<Peer> {
    let mut peers: Vec<Peer> = (0..count).map(|_| random.bytes()).collect();
    if random.chance(1, 8) {
        // long common beginnings: only the last bytes tell them apart
        let beginning = random.bytes();
        for peer in &mut peers {
            peer[..30].copy_from_slice(&beginning[..30]);
        }
    }
    peers.sort_unstable();
    peers.dedup();
    peers
}

fn peer_count(random: &mut Random) -> usize {
    match random.below(400) {
        0..300 => 3 + random.below(5),
        300..385 => 3 + random.below(20),
        385..399 => 20 + random.below(80),
        _ => 100 + random.below(156),
    }
}

/// A well-formed point above genesis, its entries, and no fault.
pub fn above_genesis(random: &mut Random, wish: &Wish) -> Scene {
    Builder::new(random, wish).build()
}

struct Builder<'a> {
    random: &'a mut Random,
    wish: Wish,
    settings: Settings,
    schedule: Schedule,
    genesis: Point,
    /// Rounds above genesis.
    above: u32,
    round: u32,
    author: Peer,
    time: u64,
    anchor_time: u64,
}

/// The newest point of a stage, and how the judged point links to it.
#[derive(Clone, Copy)]
struct Newest {
    id: Id,
    role: PointRole,
    link: AnchorLink,
    /// The proof that a trigger is bound to.
    bound: Option<Id>,
}

impl<'a> Builder<'a> {
    fn new(random: &'a mut Random, wish: &Wish) -> Self {
        let above = wish.rounds_above_genesis.unwrap_or_else(|| match random.below(20) {
            0 => 1,
            1 => 2,
            2 => 3,
            3 => 4,
            _ => random.between(5, 60),
        });
        let above = if wish.far_proof || wish.role == Some(RoleWish::FirstProof) { above.max(6) } else { above };
        let settings = {
            let first = genesis_round(random, above);
            settings(random, first, wish.sticky)
        };
        let genesis_author = random.bytes();
        let early = u64::from(random.between(10_000, 2_000_000));
        let time = if random.chance(1, 30) { i64::MAX as u64 - early % 6_000 } else { early };
        let round = settings.genesis_round + above;
        let schedule = spans(random, wish, &settings, round, genesis_author);
        let genesis = genesis_point(&settings, genesis_author, time / 2);
        Self {
            author: [0; 32],
            anchor_time: time / 2 - 1,
            random,
            wish: *wish,
            settings,
            schedule,
            genesis,
            above,
            round,
            time,
        }
    }

    fn build(mut self) -> Scene {
        let regular_required = self.schedule.span(self.round) != self.schedule.span(self.round + 4);
        let has_prev = self.choose_author();
        let role = self.choose_role(has_prev, regular_required);
        let includes = self.choose_includes(has_prev);
        let witness = self.choose_witness();
        let proof = self.choose_proof(role, has_prev, &includes, &witness);
        let trigger = self.choose_trigger(role, &proof, &includes, &witness);
        let prev_time = self.time - u64::from(self.random.between(1, 2_000));
        if matches!(role, PointRole::AnchorProof { .. }) {
            self.anchor_time = prev_time;
        } else if proof.id == self.genesis.id {
            self.anchor_time = self.genesis.anchor_time;
        }
        let point = self.point(role, has_prev, &includes, &witness, &proof, &trigger);
        let leader = self.choose_leader(&point, has_prev);
        let mut scene = Scene {
            settings: self.settings.clone(),
            schedule: self.schedule.clone(),
            point,
            leader,
            presence: 3,
            entries: Vec::new(),
            peer_buffer: PEER_BUFFER,
        };
        self.add_direct(&mut scene, &proof, &trigger, prev_time);
        self.add_versions(&mut scene);
        self.random.shuffle(&mut scene.entries);
        self.add_indirect(&mut scene, &proof, &trigger);
        scene
    }

    /// Whether the author has a previous point too.
    fn choose_author(&mut self) -> bool {
        let now = self.schedule.peers(self.round);
        let before = self.schedule.peers(self.round - 1);
        let both: Vec<Peer> = now.iter().filter(|peer| before.contains(peer)).copied().collect();
        let needs_prev = self.wish.prev == Some(true) || self.wish.role.is_some_and(|role| role != RoleWish::Regular);
        let wants_prev = needs_prev || (self.wish.prev.is_none() && self.random.chance(3, 4));
        if wants_prev && !both.is_empty() {
            self.author = self.random.pick(&both);
            return true;
        }
        // without a previous point the others of r-1 have to be a majority
        let majority = if self.above == 1 { 1 } else { (before.len() + 1) / 3 * 2 + 1 };
        let enough = before.len() > majority;
        let free: Vec<Peer> = now.iter().filter(|peer| enough || !before.contains(peer)).copied().collect();
        let has_prev = free.is_empty();
        self.author = self.random.pick(if has_prev { &both } else { &free });
        has_prev
    }

    fn choose_role(&mut self, has_prev: bool, regular_required: bool) -> PointRole {
        let may_be_stage = has_prev && (!regular_required || self.wish.role.is_some());
        let wished = match self.wish.role {
            Some(role) => role,
            None if self.above == 1 => RoleWish::Trigger,
            None if self.random.chance(1, 2) => RoleWish::Regular,
            None => self.random.pick(&[RoleWish::FirstProof, RoleWish::LaterProof, RoleWish::Trigger]),
        };
        let sticky = self.settings.sticky_anchors;
        match wished {
            RoleWish::FirstProof if may_be_stage && self.above >= 5 => {
                PointRole::AnchorProof { seq_no: 0, is_last: sticky == 0 }
            }
            RoleWish::LaterProof if may_be_stage && sticky > 0 && self.above > 1 => {
                let seq_no = 1 + self.random.below(usize::from(sticky.min(6))) as u8;
                PointRole::AnchorProof { seq_no, is_last: seq_no == sticky }
            }
            RoleWish::Trigger if may_be_stage => PointRole::AnchorTrigger,
            _ => PointRole::Regular,
        }
    }

    /// At least 2F+1 peers of r-1; the author's own only with a previous point.
    fn choose_includes(&mut self, has_prev: bool) -> Vec<(Peer, Digest)> {
        let peers = self.schedule.peers(self.round - 1).to_vec();
        let majority = if self.above == 1 { 1 } else { (peers.len() + 1) / 3 * 2 + 1 };
        let mut others: Vec<Peer> = peers.into_iter().filter(|peer| *peer != self.author).collect();
        self.random.shuffle(&mut others);
        let least = majority.saturating_sub(usize::from(has_prev)).min(others.len());
        others.truncate(least + self.random.below(others.len() - least + 1));
        others.extend(has_prev.then_some(self.author));
        self.digests(others, self.round - 1)
    }

    fn choose_witness(&mut self) -> Vec<(Peer, Digest)> {
        if self.above == 1 || !(self.wish.witness || self.random.chance(2, 3)) {
            return Vec::new();
        }
        let round = self.round - 2;
        let mut others: Vec<Peer> = self.schedule.peers(round).to_vec();
        others.retain(|peer| *peer != self.author);
        self.random.shuffle(&mut others);
        if others.is_empty() {
            return Vec::new();
        }
        others.truncate(1 + self.random.below(others.len().min(3)));
        self.digests(others, round)
    }

    fn digests(&mut self, mut peers: Vec<Peer>, round: u32) -> Vec<(Peer, Digest)> {
        peers.sort_unstable();
        let of_genesis = round == self.settings.genesis_round;
        let digest = |peer| (peer, if of_genesis { self.settings.genesis_digest } else { self.random.bytes() });
        peers.into_iter().map(digest).collect()
    }

    /// The newest proof: as wished, else in any form that fits.
    fn choose_proof(
        &mut self,
        role: PointRole,
        has_prev: bool,
        includes: &[(Peer, Digest)],
        witness: &[(Peer, Digest)],
    ) -> Newest {
        let sticky = self.settings.sticky_anchors;
        let (form, stage) = match role {
            PointRole::AnchorProof { seq_no: 0, .. } => {
                (self.random.pick(&[Form::ThroughIncludes, Form::ThroughWitness]), None)
            }
            PointRole::AnchorProof { seq_no, .. } => {
                (Form::DirectPrev, Some(PointRole::AnchorProof { seq_no: seq_no - 1, is_last: false }))
            }
            PointRole::AnchorTrigger => {
                (Form::DirectPrev, Some(PointRole::AnchorProof { seq_no: sticky, is_last: true }))
            }
            _ => (self.wish.proof.unwrap_or_else(|| self.any_form()), None),
        };
        let form = if form == Form::DirectPrev && !has_prev { Form::DirectIncludes } else { form };
        let far = self.wish.far_proof || matches!(role, PointRole::AnchorProof { seq_no: 0, .. });
        let direct = !matches!(form, Form::ThroughIncludes | Form::ThroughWitness);
        let form = if far && direct && form != Form::DirectPrev { Form::ThroughIncludes } else { form };
        let (id, link) = self.reach(form, if far { 4 } else { 1 }, includes, witness, None);
        let role = if id == self.genesis.id {
            PointRole::Genesis
        } else {
            stage.unwrap_or(PointRole::AnchorProof { seq_no: 0, is_last: sticky == 0 })
        };
        Newest { id, role, link, bound: None }
    }

    /// The newest trigger. A proof that is a trigger too, and is listed, is the newest one itself.
    fn choose_trigger(
        &mut self,
        role: PointRole,
        proof: &Newest,
        includes: &[(Peer, Digest)],
        witness: &[(Peer, Digest)],
    ) -> Newest {
        let both = matches!(proof.role, PointRole::AnchorProof { seq_no: 1.., .. });
        let genesis_listed = proof.role == PointRole::Genesis && self.above <= 2;
        if both || genesis_listed {
            return Newest { link: proof.link, ..*proof };
        }
        let form = match self.wish.trigger {
            Some(form) => form,
            None if self.random.chance(1, 8) => Form::DirectPrev,
            None => self.any_form(),
        };
        let prev_is_free = role == PointRole::Regular && proof.id.author != self.author;
        let form = if form == Form::DirectPrev && !prev_is_free { Form::DirectIncludes } else { form };
        let (id, link) = self.reach(form, 1, includes, witness, Some(proof));
        if id == self.genesis.id {
            return Newest { id, role: PointRole::Genesis, link, bound: None };
        }
        let bound = if proof.id.round < id.round { proof.id } else { self.older(id.round - 1) };
        Newest { id, role: PointRole::AnchorTrigger, link, bound: Some(bound) }
    }

    fn any_form(&mut self) -> Form {
        self.random.pick(&[
            Form::DirectIncludes,
            Form::DirectWitness,
            Form::ThroughIncludes,
            Form::ThroughIncludes,
            Form::ThroughWitness,
            Form::ThroughIncludesSeen,
        ])
    }

    /// A target at least `back` rounds ago and a link of this form to it, or the nearest form that fits.
    fn reach(
        &mut self,
        form: Form,
        back: u32,
        includes: &[(Peer, Digest)],
        witness: &[(Peer, Digest)],
        proof: Option<&Newest>,
    ) -> (Id, AnchorLink) {
        let direct = |through, peer| AnchorLink { through, peer, to: None };
        let others: Vec<(Peer, Digest)> = self.free(includes, self.round - 1, proof);
        if self.above == 1 || (matches!(form, Form::DirectIncludes) && !others.is_empty()) {
            let (author, digest) = if self.above == 1 { includes[0] } else { self.random.pick(&others) };
            let id = Id { round: self.round - 1, digest, author };
            return (id, direct(Through::Includes, author));
        }
        if form == Form::DirectPrev {
            let author = self.author;
            let digest = includes.iter().find(|(peer, _)| *peer == author).map(|(_, digest)| *digest);
            if let Some(digest) = digest {
                return (Id { round: self.round - 1, digest, author }, direct(Through::Includes, author));
            }
        }
        let seen: Vec<(Peer, Digest)> = self.free(witness, self.round - 2, proof);
        if matches!(form, Form::DirectWitness | Form::ThroughIncludesSeen) && !seen.is_empty() {
            let (author, digest) = self.random.pick(&seen);
            let id = Id { round: self.round - 2, digest, author };
            if form == Form::DirectWitness {
                return (id, direct(Through::Witness, author));
            }
            let (peer, _) = self.random.pick(includes);
            return (id, AnchorLink { through: Through::Includes, peer, to: Some(id) });
        }
        let through_witness = form == Form::ThroughWitness && !seen.is_empty() && self.above >= 3;
        let nearest = back.max(if through_witness { 3 } else { 2 }).min(self.above);
        let farthest = self.above.min(nearest + 9);
        let round = self.round - self.random.between(nearest, farthest);
        let id = self.point_at(round);
        let (through, (peer, _)) = if through_witness {
            (Through::Witness, self.random.pick(&seen))
        } else {
            (Through::Includes, self.random.pick(includes))
        };
        (id, AnchorLink { through, peer, to: Some(id) })
    }

    /// Pairs that may become a stage: not the author's, and not the proof.
    fn free(&self, map: &[(Peer, Digest)], round: u32, proof: Option<&Newest>) -> Vec<(Peer, Digest)> {
        let is_proof = |peer: &Peer| proof.is_some_and(|proof| proof.id.round == round && proof.id.author == *peer);
        map.iter().filter(|(peer, _)| *peer != self.author && !is_proof(peer)).copied().collect()
    }

    /// A point of a round that isn't listed, or the genesis point.
    fn point_at(&mut self, round: u32) -> Id {
        if round == self.settings.genesis_round {
            return self.genesis.id;
        }
        let peers = self.schedule.peers(round).to_vec();
        let author = if peers.is_empty() { self.random.bytes() } else { self.random.pick(&peers) };
        Id { round, digest: self.random.bytes(), author }
    }

    /// Some point at or before a round.
    fn older(&mut self, round: u32) -> Id {
        let first = self.settings.genesis_round;
        if round <= first {
            return self.genesis.id;
        }
        let round = self.random.between(first.max(round.saturating_sub(5)), round);
        self.point_at(round)
    }

    fn point(
        &mut self,
        role: PointRole,
        has_prev: bool,
        includes: &[(Peer, Digest)],
        witness: &[(Peer, Digest)],
        proof: &Newest,
        trigger: &Newest,
    ) -> Point {
        let evidence = if has_prev { self.choose_evidence() } else { Vec::new() };
        Point {
            id: Id { round: self.round, digest: self.random.bytes(), author: self.author },
            payload_len: self.random.between(0, 9),
            payload_bytes: self.random.between(0, self.settings.payload_batch_bytes),
            includes: includes.to_vec(),
            witness: witness.to_vec(),
            evidence,
            anchor_proof: proof.link,
            anchor_trigger: trigger.link,
            role,
            time: self.time,
            anchor_time: self.anchor_time,
        }
    }

    /// At least 2F others of r.
    fn choose_evidence(&mut self) -> Vec<Peer> {
        let peers = self.schedule.peers(self.round).to_vec();
        let least = (peers.len() + 1) / 3 * 2;
        let mut others: Vec<Peer> = peers.into_iter().filter(|peer| *peer != self.author).collect();
        self.random.shuffle(&mut others);
        let least = least.min(others.len());
        others.truncate(least + self.random.below(others.len() - least + 1));
        others.sort_unstable();
        others
    }

    /// A flag that the point's wave link agrees with.
    fn choose_leader(&mut self, point: &Point, has_prev: bool) -> u8 {
        let far = point.anchor_proof.to.is_some_and(|to| self.round.saturating_sub(to.round) >= 4);
        match point.role {
            PointRole::AnchorProof { seq_no: 0, .. } => 1,
            PointRole::Regular if has_prev && far => 0,
            _ => self.random.below(2) as u8,
        }
    }

    fn add_direct(&mut self, scene: &mut Scene, proof: &Newest, trigger: &Newest, prev_time: u64) {
        let prev = scene.prev();
        for through in [Through::Includes, Through::Witness] {
            for id in scene.point.dependencies(through).collect::<Vec<_>>() {
                let mut point = self.dependency(scene, id, proof, trigger);
                let is_prev = prev == Some(id);
                if is_prev && id != self.genesis.id {
                    point.time = prev_time;
                }
                let certified = is_prev || self.random.chance(1, 3);
                let first_valid = self.random.chance(1, 2);
                scene.entries.push(Entry { indirect: None, certified, first_valid, state: State::Valid(point) });
            }
        }
    }

    /// A dependency that agrees with the judged point's links.
    fn dependency(&mut self, scene: &Scene, id: Id, proof: &Newest, trigger: &Newest) -> Point {
        if id == self.genesis.id {
            return self.genesis.clone();
        }
        let is_source = |role| scene.source(role) == Some(id);
        let proof_source = is_source(AnchorStageRole::Proof);
        let role = if id == proof.id {
            proof.role
        } else if id == trigger.id {
            trigger.role
        } else {
            PointRole::Regular
        };
        let proof_top = if proof_source && id != proof.id {
            proof.id
        } else if id == trigger.id
            && let Some(bound) = trigger.bound
        {
            bound
        } else {
            self.top(id, proof.id)
        };
        let trigger_top =
            if is_source(AnchorStageRole::Trigger) && id != trigger.id { trigger.id } else { self.top(id, trigger.id) };
        let mut point = self.linked(id, role, proof_top, trigger_top);
        if proof_source && !matches!(scene.point.role, PointRole::AnchorProof { .. }) {
            point.anchor_time = self.anchor_time;
        }
        point
    }

    /// The newest stage's point, or one that is older than both it and the dependency.
    fn top(&mut self, dependency: Id, newest: Id) -> Id {
        if newest.round < dependency.round && self.random.chance(2, 3) {
            return newest;
        }
        let before = newest.round.min(dependency.round).max(self.settings.genesis_round + 1) - 1;
        self.older(before)
    }

    /// A record whose links have these targets.
    fn linked(&mut self, id: Id, role: PointRole, proof: Id, trigger: Id) -> Point {
        let mut point = Point {
            id,
            payload_len: 0,
            payload_bytes: 0,
            includes: Vec::new(),
            witness: Vec::new(),
            evidence: Vec::new(),
            anchor_proof: AnchorLink { through: Through::Includes, peer: id.author, to: None },
            anchor_trigger: AnchorLink { through: Through::Includes, peer: id.author, to: None },
            role,
            time: self.time - u64::from(self.random.between(0, 3_000)),
            anchor_time: self.anchor_time.saturating_sub(u64::from(self.random.between(0, 3))),
        };
        set_link(self.random, &mut point, AnchorStageRole::Proof, proof);
        set_link(self.random, &mut point, AnchorStageRole::Trigger, trigger);
        point
    }

    /// Other versions of the author's previous point, such as judging passes over.
    fn add_versions(&mut self, scene: &mut Scene) {
        if scene.prev().is_some() || !self.random.chance(1, 2) {
            return;
        }
        for _ in 0..1 + self.random.below(2) {
            let id = Id { round: self.round - 1, digest: self.random.bytes(), author: self.author };
            let proof = self.older(self.round - 2);
            let trigger = self.older(self.round - 2);
            let state = if self.random.chance(1, 2) {
                State::NotFound(id)
            } else {
                State::Valid(self.linked(id, PointRole::Regular, proof, trigger))
            };
            let certified = matches!(state, State::Valid(_)) && self.random.chance(1, 2);
            scene.entries.push(Entry { indirect: None, certified, first_valid: false, state });
        }
    }

    fn add_indirect(&mut self, scene: &mut Scene, proof: &Newest, trigger: &Newest) {
        let mut indirect = Vec::new();
        for (role, newest) in [(AnchorStageRole::Proof, proof), (AnchorStageRole::Trigger, trigger)] {
            let Some(to) = newest.link.to else { continue };
            if !self.wish.indirect_listed && self.random.chance(1, 4) {
                continue;
            }
            let mut point = if to == self.genesis.id {
                self.genesis.clone()
            } else {
                let proof_top = newest.bound.unwrap_or_else(|| self.older(to.round - 1));
                let trigger_top = self.older(to.round - 1);
                self.linked(to, newest.role, proof_top, trigger_top)
            };
            if role == AnchorStageRole::Proof && to != self.genesis.id {
                point.anchor_time = self.anchor_time;
            }
            let certified = self.random.chance(1, 3);
            indirect.push(Entry { indirect: Some(role), certified, first_valid: false, state: State::Valid(point) });
        }
        self.random.shuffle(&mut indirect);
        scene.entries.extend(indirect);
    }
}

/// Links a record in a role to a target, directly where it can.
pub fn set_link(random: &mut Random, point: &mut Point, role: AnchorStageRole, to: Id) {
    let distance = point.id.round.saturating_sub(to.round);
    let through = if distance == 1 { Through::Includes } else { Through::Witness };
    let direct = (distance == 1 || distance == 2) && random.chance(2, 3) && put_pair(point, through, &to);
    let link = if direct {
        AnchorLink { through, peer: to.author, to: None }
    } else {
        let through = random.pick(&[Through::Includes, Through::Witness]);
        AnchorLink { through, peer: random.bytes(), to: Some(to) }
    };
    match role {
        AnchorStageRole::Proof => point.anchor_proof = link,
        AnchorStageRole::Trigger => point.anchor_trigger = link,
    }
}

/// Whether the map now holds the id; another digest beside the peer keeps its place.
fn put_pair(point: &mut Point, through: Through, id: &Id) -> bool {
    let map = match through {
        Through::Includes => &mut point.includes,
        Through::Witness => &mut point.witness,
    };
    match map.binary_search_by(|(peer, _)| peer.cmp(&id.author)) {
        Ok(place) => map[place].1 == id.digest,
        Err(place) => {
            map.insert(place, (id.author, id.digest));
            true
        }
    }
}

/// The genesis set, the set above it, and now and then a change of the set near r or r+4.
fn spans(random: &mut Random, wish: &Wish, settings: &Settings, round: u32, genesis_author: Peer) -> Schedule {
    let genesis = settings.genesis_round;
    let count = peer_count(random);
    let count = if wish.prev == Some(false) && (count == 3 || count == 5) { count + 1 } else { count };
    let mut peers = peer_set(random, count);
    let mut firsts = borders(random, wish, genesis, round);
    let first = genesis - random.between(0, 3);
    // the genesis set is asked for up to two rounds above genesis; further up its span may be the next one's
    let no_genesis_set = round >= genesis + 3 && random.chance(1, 4);
    if no_genesis_set || random.chance(1, 6) {
        peers.push(genesis_author);
        peers.sort_unstable();
    }
    let mut spans = Vec::new();
    if no_genesis_set {
        firsts.insert(0, first);
    } else {
        spans.push(Span { first, peers: vec![genesis_author] });
        firsts.insert(0, genesis + 1);
    }
    for first in firsts {
        spans.push(Span { first, peers: peers.clone() });
        change_set(random, &mut peers);
    }
    let last_known = round + 4 + random.pick(&[0, 0, 1, 7, 100]);
    Schedule { spans, last_known }
}

/// Up to two first rounds of later spans. A regular point is required exactly when one lies in r+1 to r+4.
fn borders(random: &mut Random, wish: &Wish, genesis: u32, round: u32) -> Vec<u32> {
    let required = wish.regular_required.unwrap_or_else(|| random.chance(1, 8));
    let mut firsts = Vec::new();
    if round >= genesis + 3 && random.chance(1, 3) {
        firsts.push(random.between((genesis + 2).max(round.saturating_sub(6)), round));
    }
    if required {
        firsts.push(round + random.between(1, 4));
    } else if random.chance(1, 3) {
        firsts.push(round + random.between(5, 8));
    }
    firsts
}

/// A few peers leave and a few come.
fn change_set(random: &mut Random, peers: &mut Vec<Peer>) {
    if random.chance(1, 3) {
        return; // two spans differ by place, not by peers
    }
    for _ in 0..random.below(3) {
        if peers.len() > 3 {
            let place = random.below(peers.len());
            peers.remove(place);
        }
    }
    for _ in 0..random.below(3) {
        if peers.len() < 255 {
            peers.push(random.bytes());
        }
    }
    peers.sort_unstable();
}
