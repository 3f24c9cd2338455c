//! The rule for marks as cert.rs has it: what a certificate covers, and what it goes on through.

use std::collections::HashMap;

use oracle::read;
use oracle::value::{AnchorStageRole, Id, Through, back};

use crate::{Book, Entry, State};

/// How far a mark goes.
#[derive(Clone, Copy, PartialEq, Eq, Debug)]
pub enum Marks {
    /// It covers the previous point alone, as in document 01 without U3.
    Prev,
    /// It spreads as a certificate does, with this mistake made on the way.
    Spread(Option<Mistake>),
}

/// What a book does that nobody told otherwise. The library's does the same.
pub const MARKS: Marks = Marks::Spread(None);

plain::mistakes! {
    /// a mark goes one round less deep
    DepthShort,
    /// a mark goes one round deeper
    DepthLong,
    /// a witness step counts as one round
    WitnessIsOne,
    /// a mark doesn't go on to witness pairs
    NoWitness,
    /// a mark goes on to indirect targets too
    TargetsToo,
    /// the walk stops at entries that were marked before
    StopsAtMarked,
    /// an ill-formed entry passes a mark on
    IllFormedPasses,
    /// an ill-formed entry takes no mark
    IllFormedUnmarked,
    /// a genesis point passes a mark on
    GenesisPasses,
    /// an invalid entry doesn't pass a mark on
    InvalidStops,
    /// a trans-invalid entry doesn't pass a mark on
    TransInvalidStops,
    /// the previous point alone is marked
    PrevAlone,
    /// marks are made after judging
    AfterJudging,
}

/// What the kept points depend on. Ids stand as numbers, which they are given when they are met first.
#[derive(Clone, Default, Debug)]
pub struct Graph {
    numbers: HashMap<Id, usize>,
    /// By number; none of an id that isn't kept.
    nodes: Vec<Option<Node>>,
    kept: usize,
}

#[derive(Clone, Debug)]
struct Node {
    state: State,
    round: u32,
    includes: Vec<usize>,
    witness: Vec<usize>,
    targets: Vec<usize>,
}

impl Graph {
    fn number(&mut self, id: Id) -> usize {
        let Self { numbers, nodes, .. } = self;
        *numbers.entry(id).or_insert_with(|| {
            nodes.push(None);
            nodes.len() - 1
        })
    }

    fn add(&mut self, entry: &Entry) {
        let number = self.number(entry.id);
        if self.nodes[number].is_some() {
            return;
        }
        let point = read::record(&entry.record).expect("a kept record is readable");
        let targets: Vec<Id> = AnchorStageRole::ALL.into_iter().filter_map(|role| point.link(role).to).collect();
        let mut numbers = |ids: Vec<Id>| ids.into_iter().map(|id| self.number(id)).collect();
        let node = Node {
            state: entry.state.clone(),
            round: point.id.round,
            includes: numbers(point.dependencies(Through::Includes).collect()),
            witness: numbers(point.dependencies(Through::Witness).collect()),
            targets: numbers(targets),
        };
        self.nodes[number] = Some(node);
        self.kept += 1;
    }

    /// Adds what it lacks of a book's entries, of which the newest stands last.
    fn update(&mut self, entries: &[Entry]) {
        for entry in entries.iter().rev() {
            if self.kept == entries.len() {
                return;
            }
            self.add(entry);
        }
    }
}

/// One walk of a certificate.
struct Walk<'a> {
    graph: &'a Graph,
    history: u32,
    genesis_round: u32,
    mistake: Option<Mistake>,
    /// By number: the entries that were marked before.
    marked: Vec<bool>,
}

impl Walk<'_> {
    /// `max_height_published`: dependencies are set of points above genesis whose list was needed, so not of ill-formed ones.
    fn passes_on(&self, number: usize, node: &Node) -> bool {
        let at_genesis = node.round <= self.genesis_round && !self.made(Mistake::GenesisPasses);
        let met = self.made(Mistake::StopsAtMarked) && self.marked[number];
        let stops = match node.state {
            State::Valid => false,
            State::TransInvalid(_) => self.made(Mistake::TransInvalidStops),
            State::Invalid(_) => self.made(Mistake::InvalidStops),
            State::IllFormed(_) => !self.made(Mistake::IllFormedPasses),
        };
        !(at_genesis || met || stops)
    }

    fn made(&self, mistake: Mistake) -> bool {
        self.mistake == Some(mistake)
    }

    /// `traverse_certify`: level by level from the previous point downwards. A level's entries are included by entries of the
    /// level above, or witnessed by entries of the one above that.
    fn reached(&self, top: usize) -> Vec<bool> {
        let mut reached = vec![false; self.graph.nodes.len()];
        reached[top] = true;
        let depth = self.history + u32::from(self.made(Mistake::DepthLong)) - u32::from(self.made(Mistake::DepthShort));
        let depth = if self.made(Mistake::PrevAlone) { 0 } else { depth as usize };
        let mut levels = vec![vec![top]];
        for level in 1..=depth {
            let mut below = Vec::new();
            for (through, above) in [Through::Includes, Through::Witness].map(|map| (map, self.back(map))) {
                let from = level.checked_sub(above).map_or(&[][..], |above| &levels[above]);
                self.enter(from, through, &mut reached, &mut below);
            }
            levels.push(below);
        }
        reached
    }

    fn back(&self, through: Through) -> usize {
        if self.made(Mistake::WitnessIsOne) { 1 } else { back(through) as usize }
    }

    /// The kept dependencies, through a map, of entries that pass the mark on.
    fn enter(&self, from: &[usize], through: Through, reached: &mut [bool], below: &mut Vec<usize>) {
        for &number in from {
            let Some(node) = &self.graph.nodes[number] else { continue };
            if !self.passes_on(number, node) {
                continue;
            }
            let map = match through {
                Through::Includes => &node.includes,
                Through::Witness if self.made(Mistake::NoWitness) => continue,
                Through::Witness => &node.witness,
            };
            let targets = if self.made(Mistake::TargetsToo) { &node.targets[..] } else { &[] };
            for &number in map.iter().chain(targets) {
                if self.graph.nodes[number].is_some() && !std::mem::replace(&mut reached[number], true) {
                    below.push(number);
                }
            }
        }
    }
}

/// What one walk came to, beside the previous point.
#[derive(Clone, Copy, Default, Debug)]
pub struct Spread {
    /// How many entries it covered.
    pub covered: usize,
    /// How many of them were not marked before.
    pub marked: usize,
}

impl Book {
    /// Marks what a certificate of this id covers, if it is kept.
    pub(crate) fn spread(&mut self, prev: &Id, mistake: Option<Mistake>) -> Spread {
        self.graph.update(&self.entries);
        let Some(&top) = self.graph.numbers.get(prev).filter(|number| self.graph.nodes[**number].is_some()) else {
            return Spread::default();
        };
        let settings = read::settings(&self.settings).expect("a book has readable settings");
        let mut marked = vec![false; self.graph.nodes.len()];
        self.entries.iter().for_each(|entry| marked[self.graph.numbers[&entry.id]] = entry.certified);
        // it has its mark by now, from where the walk begins
        marked[top] = false;
        let walk = Walk {
            graph: &self.graph,
            history: u32::from(settings.commit_history_rounds),
            genesis_round: settings.genesis_round,
            mistake,
            marked,
        };
        let reached = walk.reached(top);
        let takes = |entry: &Entry| {
            !(mistake == Some(Mistake::IllFormedUnmarked) && matches!(entry.state, State::IllFormed(_)))
        };
        let mut spread = Spread::default();
        for entry in &mut self.entries {
            if reached[self.graph.numbers[&entry.id]] && takes(entry) {
                let before = std::mem::replace(&mut entry.certified, true);
                spread.covered += usize::from(entry.id != *prev);
                spread.marked += usize::from(entry.id != *prev && !before);
            }
        }
        spread
    }
}
