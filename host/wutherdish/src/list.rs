//! What judging looks at beside the point, in the order of arrival.

use crate::build_error::{BuildError, MOST_ENTRIES};
use crate::field::{field, join};
use crate::id::PointId;
use crate::reasons::AnchorStageRole;

/// What became of a listed point.
#[derive(Clone, PartialEq, Eq, Debug)]
pub enum State {
    /// It was judged valid.
    Valid {
        /// Its point record.
        record: Vec<u8>,
    },
    /// It was judged trans-invalid.
    TransInvalid {
        /// Its point record.
        record: Vec<u8>,
        /// Its root cause.
        root: PointId,
        /// The number of the root cause's reason, 1 to 20.
        reason: u8,
    },
    /// It was judged invalid.
    Invalid {
        /// Its point record.
        record: Vec<u8>,
        /// The number of its reason, 1 to 20.
        reason: u8,
    },
    /// It is ill-formed.
    IllFormed {
        /// Its id.
        id: PointId,
        /// The number of its reason, 1 to 16.
        reason: u8,
    },
    /// It was not found.
    NotFound {
        /// Its id.
        id: PointId,
    },
    /// Its round left the DAG while it was waited for.
    Dropped,
}

/// An entry of a list: a dependency, a version of the author's point, or the target of an indirect link.
#[derive(Clone, PartialEq, Eq, Debug)]
pub struct Dependency {
    /// What became of it.
    pub state: State,
    /// Whether a certificate covers it at the moment of judging.
    pub certified: bool,
    /// Whether it is the first valid point of its author and round; it counts only of a version of the author's point.
    pub first_valid: bool,
}

/// The list that [`judge`](crate::judge) takes. In it belong, each as it was found and in the order of arrival,
///
/// - the points that the judged one includes and, with presence 3, those that it witnesses. Where one lacks, and no
///   dropped entry stands for it, judging is refused with [`Refusal::Mismatch`](crate::Refusal::Mismatch);
/// - if it includes no point of its author: every known point of that author in the round before;
/// - with presence 3, in `indirect`: the target of each of its two links that is indirect.
///
/// The last two may lack, and then what they would have given is lost in silence: reasons 9 and 10 without the author's
/// points; without the targets reason 14, their reasons 8, 11, 17, 18 and 19, and root causes that come through links.
///
/// The certified flags are those of the moment of judging: a node certifies the point's previous point, and all that
/// this spreads to, before it judges. With the flags of arrival a point can be trans-invalid here and valid at a node.
/// Of the previous point the flag is tested: without it judging is refused with
/// [`Refusal::Uncovered`](crate::Refusal::Uncovered).
#[derive(Clone, PartialEq, Eq, Debug, Default)]
pub struct List {
    /// The includes, the witness and the versions of the author's point, in the order of their arrival.
    pub direct: Vec<Dependency>,
    /// The targets of the indirect links, each with its link's role, in the order of their arrival.
    pub indirect: Vec<(AnchorStageRole, Dependency)>,
}

impl Dependency {
    /// An entry that no certificate covers.
    pub fn new(state: State) -> Self {
        Self { state, certified: false, first_valid: false }
    }

    /// Covered by a certificate.
    pub fn certified(mut self) -> Self {
        self.certified = true;
        self
    }

    /// The first valid point of its author and round.
    pub fn first_valid(mut self) -> Self {
        self.first_valid = true;
        self
    }

    fn add_to(&self, bytes: &mut Vec<u8>) {
        let (state, reason) = match &self.state {
            State::Valid { .. } => (0, 0),
            State::TransInvalid { .. } => (1, 0),
            State::Invalid { reason, .. } => (2, *reason),
            State::IllFormed { reason, .. } => (3, *reason),
            State::NotFound { .. } => (4, 0),
            State::Dropped => (5, 0),
        };
        bytes.extend(field(16, [state, u8::from(self.certified), u8::from(self.first_valid), reason]));
        match &self.state {
            State::Valid { record } | State::Invalid { record, .. } => bytes.extend(record),
            State::TransInvalid { record, root, reason } => {
                bytes.extend(field(18, join::<68, 1, 69>(root.to_bytes(), [*reason])));
                bytes.extend(record);
            }
            State::IllFormed { id, .. } | State::NotFound { id } => bytes.extend(field(17, id.to_bytes())),
            State::Dropped => {}
        }
    }
}

impl List {
    /// A list without entries.
    pub fn new() -> Self {
        Self::default()
    }

    /// With one more include, witness or version of the author's point.
    pub fn direct(mut self, dependency: Dependency) -> Self {
        self.direct.push(dependency);
        self
    }

    /// With the target of the indirect link of a role.
    pub fn indirect(mut self, role: AnchorStageRole, dependency: Dependency) -> Self {
        self.indirect.push((role, dependency));
        self
    }

    /// Document 01's bytes.
    pub fn to_bytes(&self) -> Result<Vec<u8>, BuildError> {
        let len = self.direct.len() + self.indirect.len();
        if len > MOST_ENTRIES {
            return Err(BuildError::Entries { len });
        }
        let mut bytes = Vec::new();
        for dependency in &self.direct {
            dependency.add_to(&mut bytes);
        }
        for (role, dependency) in &self.indirect {
            bytes.extend(field(19, [u8::from(*role == AnchorStageRole::Trigger)]));
            dependency.add_to(&mut bytes);
        }
        Ok(bytes)
    }
}
