//! The calls that take what judging takes.

use wutherdish::lent::{self, ANSWER};
use wutherdish::{Clearing, Fault, FaultOf, Refusal, Verdict, clearing};

use crate::calls::{Answer, Network, Said, answered};
use crate::entries::Entries;

/// How many bytes a row has.
const ROW: usize = 8;

/// What judging is lent but for what it writes to.
pub struct Judging<'a> {
    pub network: Network<'a>,
    /// The leader flag.
    pub leader: u8,
    /// How many rounds are in the DAG.
    pub presence: u8,
    pub list: &'a [u8],
}

/// What is asked of a point beside the verdict.
#[derive(Clone, Copy, Default)]
pub struct Asked {
    /// Whether all faults are, with a trail of how many bytes.
    pub trail: Option<usize>,
    /// Whether it is asked what the network can force.
    pub force: bool,
}

impl<'a> Judging<'a> {
    /// Those of a case.
    pub fn read(parts: &[&'a [u8]]) -> Option<Self> {
        let &[settings, schedule, record, &[leader, presence], list] = parts else { return None };
        Some(Self { network: Network { settings, schedule, record }, leader, presence, list })
    }

    /// Judges with a buffer for unknown peers, and asks more of the point. Of a trans-invalid one it is always asked what it waits for.
    pub fn judge(&self, peers: &mut [u8], asked: Asked) -> Result<Answer, Refusal> {
        let Self { network: Network { settings, schedule, record }, leader, presence, list } = *self;
        let mut answer = [0; ANSWER];
        let (mut trail, mut rows) = (asked.trail.map(|length| self.rows(length)), 0);
        let number = match &mut trail {
            None => lent::judge(settings, schedule, record, leader, presence, list, peers, &mut answer),
            Some(trail) => {
                lent::trail(settings, schedule, record, leader, presence, list, peers, trail, &mut rows, &mut answer)
            }
        };
        let verdict = answered(number, || Verdict::read(&answer, peers))?;
        let faults = self.faults(&trail.unwrap_or_default(), rows)?;
        let waits = matches!(verdict, Verdict::TransInvalid(_));
        let clearing = if waits { Some(self.clearing()?) } else { None };
        let forced = if asked.force { Some(self.forced(usize::MAX)?) } else { None };
        Ok(Answer::Judged(verdict, Said { faults, clearing, forced }))
    }

    /// What the point waits for.
    pub fn clearing(&self) -> Result<Clearing, Refusal> {
        let Network { settings, schedule, record } = self.network;
        clearing(settings, schedule, record, self.leader, self.presence, self.list)
    }

    /// The reasons that some order of the entries gives, with this many bytes for their rows.
    pub fn forced(&self, length: usize) -> Result<Vec<FaultOf>, Refusal> {
        let Self { network: Network { settings, schedule, record }, leader, presence, list } = *self;
        let (mut out, mut rows) = (self.rows(length), 0);
        let number = lent::force(settings, schedule, record, leader, presence, list, &mut out, &mut rows);
        answered(number, || Some(()))?;
        self.faults(&out, rows)
    }

    /// This many bytes for rows. More than a row's over its list make no difference.
    fn rows(&self, length: usize) -> Vec<u8> {
        vec![0; length.min(self.list.len() + ROW)]
    }

    /// What so many rows say, with the ids of the entries.
    fn faults(&self, rows: &[u8], count: u32) -> Result<Vec<FaultOf>, Refusal> {
        let entries = Entries::of(self.list);
        let rows = usize::try_from(count).ok().and_then(|count| rows.as_chunks::<ROW>().0.get(..count));
        let faults = rows.and_then(|rows| rows.iter().map(Fault::read).collect::<Option<Vec<_>>>());
        let faults = faults.ok_or(Refusal::Foreign(0))?;
        Ok(faults.into_iter().map(|fault| FaultOf(fault, entries.id(fault.set_by))).collect())
    }
}
