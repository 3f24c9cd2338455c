//! A case of either kind as one of the kind that is wanted.

use oracle::file::Case;

pub fn as_verify(case: Case) -> Case {
    match case {
        Case::Judge { settings, schedule, record, peer_buffer, .. } => {
            Case::Verify { settings, schedule, record, peer_buffer }
        }
        verify => verify,
    }
}

/// A verify case is judged with an empty list, all rounds present and another leader.
pub fn as_judge(case: Case) -> Case {
    match case {
        Case::Verify { settings, schedule, record, peer_buffer } => {
            Case::Judge { settings, schedule, record, leader: 0, presence: 3, list: Vec::new(), peer_buffer }
        }
        judge => judge,
    }
}
