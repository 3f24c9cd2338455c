//! Verifying and judging in their steps, so that each can be measured alone.

use tycho::dag::{BasicVerifier, ValidateResult};
use tycho::engine::MempoolConfig;
use tycho::intercom::PeerScheduleStateless;
use tycho::models::Cert;

pub use tycho::dag::DagRound;
pub use tycho::models::PointInfo;

use crate::numbers::{self, Read};
use crate::read;
use crate::run::convert::{config, point_info, schedule};
use crate::run::{Listed, Node};

/// Settings and schedule as the source's types.
pub struct Steps {
    conf: MempoolConfig,
    schedule: PeerScheduleStateless,
}

impl Steps {
    pub fn new(read: &Read) -> Self {
        Self { conf: config(&read.settings), schedule: schedule(&read.schedule) }
    }

    /// `BasicVerifier::verify` alone: whether the point passes.
    pub fn passes(&self, info: &PointInfo) -> bool {
        BasicVerifier::new(info, &self.schedule, &self.conf).verify().is_ok()
    }
}

/// A record's bytes as the source's type; `None` is unreadable.
pub fn read_record(record: &[u8]) -> Option<PointInfo> {
    read::record(record).map(|point| point_info(&point))
}

/// A point and its list as the source's types, with all rounds present and another leader.
pub struct Judging<'a> {
    node: Node<'a>,
    listed: Vec<Listed>,
}

impl<'a> Judging<'a> {
    /// `None` where the numbers 7 to 9 refuse the list.
    pub fn new(read: &'a Read, list: &[u8]) -> Option<Self> {
        let node = Node::new(read);
        let listed = Listed::of_case(numbers::needed(&read.point, 3, list).ok()?, &node.conf);
        Some(Self { node, listed })
    }

    /// The point's round in a DAG of its list, for one call of `is_valid`; `None` where no DAG gives the list.
    pub fn round(&self) -> Option<DagRound> {
        self.node.listed_round(false, 3, &self.listed).ok()
    }

    /// `BasicVerifier::verify` and `Verifier::validate` alone: whether the point is valid.
    pub fn is_valid(&self, round: DagRound) -> bool {
        let valid = || matches!(self.node.validate(Some(round), Cert::default()), ValidateResult::Valid);
        self.node.verify().is_ok() && valid()
    }
}
