//! What is asked of a point that is judged by a list: what judging takes, without a peer buffer.

use crate::file::Case;
use crate::{PEER_BUFFER, read};

#[derive(Clone, PartialEq, Eq, Debug)]
pub struct Question {
    pub settings: Vec<u8>,
    pub schedule: Vec<u8>,
    pub record: Vec<u8>,
    pub leader: u8,
    pub presence: u8,
    pub list: Vec<u8>,
}

impl Question {
    /// Of a judge case; `None` of another.
    pub fn of(case: Case) -> Option<Self> {
        match case {
            Case::Judge { settings, schedule, record, leader, presence, list, .. } => {
                Some(Self { settings, schedule, record, leader, presence, list })
            }
            Case::Verify { .. } => None,
        }
    }

    /// Judging with another list, and a peer buffer that is large enough.
    pub fn judging(&self, list: Vec<u8>) -> Case {
        let Self { settings, schedule, record, leader, presence, .. } = self.clone();
        Case::Judge { settings, schedule, record, leader, presence, list, peer_buffer: PEER_BUFFER }
    }

    /// Whether the point lies at the genesis round, above which lists are read.
    pub fn is_genesis(&self) -> bool {
        let genesis = read::settings(&self.settings).map(|settings| settings.genesis_round);
        genesis.is_some() && genesis == read::record(&self.record).map(|point| point.id.round)
    }

    /// As a file of cases holds it.
    pub fn blobs(&self) -> [Vec<u8>; 5] {
        let flags = vec![self.leader, self.presence];
        [self.settings.clone(), self.schedule.clone(), self.record.clone(), flags, self.list.clone()]
    }

    pub fn of_blobs([settings, schedule, record, flags, list]: [&[u8]; 5]) -> Option<Self> {
        let &[leader, presence] = flags else { return None };
        let [settings, schedule, record, list] = [settings, schedule, record, list].map(<[u8]>::to_vec);
        Some(Self { settings, schedule, record, leader, presence, list })
    }
}
