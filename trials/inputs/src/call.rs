//! One call of the library, with all that it is lent.

use book::Offer;
use oracle::arrangement::Arrangement;
use oracle::clearing;
use oracle::draft::Draft;
use oracle::file::Case;
use oracle::question::Question;
use oracle::row::Row;
use wutherdish::lent::ANSWER;

#[derive(Clone)]
pub enum Call {
    /// Verifying or judging.
    Case(Case),
    Open {
        settings: Vec<u8>,
        /// Of the slice.
        length: usize,
    },
    Offer {
        /// The book's slice; none if it is that of the call before, as that one left it.
        book: Option<Vec<u8>>,
        offer: Offer,
    },
    Convert {
        from: Arrangement,
        record: Vec<u8>,
        /// Of the output.
        length: usize,
    },
    Compose {
        draft: Box<Draft>,
        /// Of the output.
        length: usize,
    },
    /// Judging with a trail, which is its output.
    Trail {
        /// To be judged.
        case: Case,
        /// Of the trail, in bytes.
        length: usize,
    },
    /// What would clear a point.
    Clearing(Question),
    /// What the network can force.
    Force {
        question: Question,
        /// Of the output, in bytes.
        length: usize,
    },
}

/// What a call can be lent.
#[derive(Clone, Copy, PartialEq, Eq, Debug)]
pub enum Lent {
    Settings,
    Schedule,
    Record,
    List,
    Book,
    Peers,
    Answer,
    Output,
    Count,
    Id,
    Includes,
    Witness,
    Evidence,
    Proof,
    Trigger,
}

impl Lent {
    pub const ALL: [Self; 15] = [
        Self::Settings,
        Self::Schedule,
        Self::Record,
        Self::List,
        Self::Book,
        Self::Peers,
        Self::Answer,
        Self::Output,
        Self::Count,
        Self::Id,
        Self::Includes,
        Self::Witness,
        Self::Evidence,
        Self::Proof,
        Self::Trigger,
    ];

    /// Whether a call may write it.
    pub fn is_written(self) -> bool {
        matches!(self, Self::Book | Self::Peers | Self::Answer | Self::Output | Self::Count)
    }
}

/// The list by which a case is judged; none of one that is verified.
pub fn judged_list(case: &Case) -> &[u8] {
    match case {
        Case::Judge { list, .. } => list,
        Case::Verify { .. } => &[],
    }
}

/// How many entries it has.
pub fn entry_count(case: &Case) -> usize {
    oracle::read::list(judged_list(case)).map_or(0, |entries| entries.len())
}

impl Call {
    pub const NAMES: [&str; 10] = [
        "verify",
        "judge",
        "open",
        "offer",
        "pairs to columns",
        "columns to pairs",
        "write",
        "trail",
        "clearing",
        "force",
    ];

    /// The place of its name.
    pub fn kind(&self) -> usize {
        match self {
            Self::Case(Case::Verify { .. }) => 0,
            Self::Case(Case::Judge { .. }) => 1,
            Self::Open { .. } => 2,
            Self::Offer { .. } => 3,
            Self::Convert { from: Arrangement::Pairs, .. } => 4,
            Self::Convert { from: Arrangement::Columns, .. } => 5,
            Self::Compose { .. } => 6,
            Self::Trail { .. } => 7,
            Self::Clearing(_) => 8,
            Self::Force { .. } => 9,
        }
    }

    /// Judging by the same list, of a call that judges first and then looks at the list again.
    pub fn judging(&self) -> Option<Self> {
        match self {
            Self::Trail { case, .. } => Some(Self::Case(case.clone())),
            Self::Clearing(question) | Self::Force { question, .. } => {
                Some(Self::Case(question.judging(question.list.clone())))
            }
            _ => None,
        }
    }

    /// What it is lent to read.
    pub fn inputs(&self) -> Vec<(Lent, &[u8])> {
        match self {
            Self::Case(Case::Verify { settings, schedule, record, .. })
            | Self::Trail { case: Case::Verify { settings, schedule, record, .. }, .. } => {
                vec![(Lent::Settings, settings), (Lent::Schedule, schedule), (Lent::Record, record)]
            }
            Self::Case(Case::Judge { settings, schedule, record, list, .. })
            | Self::Trail { case: Case::Judge { settings, schedule, record, list, .. }, .. }
            | Self::Clearing(Question { settings, schedule, record, list, .. })
            | Self::Force { question: Question { settings, schedule, record, list, .. }, .. } => {
                let inputs: [&[u8]; 4] = [settings, schedule, record, list];
                Lent::ALL.into_iter().zip(inputs).collect()
            }
            Self::Open { settings, .. } => vec![(Lent::Settings, settings)],
            Self::Offer { offer, .. } => vec![(Lent::Schedule, &offer.schedule), (Lent::Record, &offer.record)],
            Self::Convert { record, .. } => vec![(Lent::Record, record)],
            Self::Compose { draft, .. } => vec![
                (Lent::Id, &draft.id[..]),
                (Lent::Includes, &draft.includes),
                (Lent::Witness, &draft.witness),
                (Lent::Evidence, &draft.evidence),
                (Lent::Proof, &draft.anchor_proof),
                (Lent::Trigger, &draft.anchor_trigger),
            ],
        }
    }

    /// The length of the peer buffer, where there is one.
    pub fn peer_buffer(&self) -> Option<usize> {
        match self {
            Self::Case(case) | Self::Trail { case, .. } => {
                let (Case::Verify { peer_buffer, .. } | Case::Judge { peer_buffer, .. }) = case;
                Some(*peer_buffer as usize)
            }
            Self::Offer { offer, .. } => Some(offer.peer_buffer as usize),
            _ => None,
        }
    }

    /// The length of the answer, where there is one.
    pub fn answer(&self) -> Option<usize> {
        match self {
            Self::Clearing(_) => Some(clearing::BYTES),
            _ => self.peer_buffer().map(|_| ANSWER),
        }
    }

    /// The length of the output, where there is one, with a count beside it.
    pub fn output(&self) -> Option<usize> {
        match self {
            Self::Convert { length, .. }
            | Self::Compose { length, .. }
            | Self::Trail { length, .. }
            | Self::Force { length, .. } => Some(*length),
            _ => None,
        }
    }

    /// How many bytes of the output the count counts as one.
    pub fn unit(&self) -> usize {
        if matches!(self, Self::Trail { .. } | Self::Force { .. }) { size_of::<Row>() } else { 1 }
    }

    /// What it is lent.
    pub fn lends(&self, lent: Lent) -> bool {
        match lent {
            Lent::Book => matches!(self, Self::Open { .. } | Self::Offer { .. }),
            Lent::Peers => self.peer_buffer().is_some(),
            Lent::Answer => self.answer().is_some(),
            Lent::Output | Lent::Count => self.output().is_some(),
            _ => self.inputs().iter().any(|(other, _)| *other == lent),
        }
    }
}
