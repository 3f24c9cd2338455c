//! Files of cases with their answers, laid out as docs/FORMAT.md says.

use crate::answer::NONE;
use crate::{Answer, Verdict, judge, verify};

pub const VERIFY: u8 = 1;
pub const JUDGE: u8 = 2;

/// The inputs of one case.
#[derive(Clone, PartialEq, Eq, Debug)]
pub enum Case {
    Verify {
        settings: Vec<u8>,
        schedule: Vec<u8>,
        record: Vec<u8>,
        peer_buffer: u32,
    },
    Judge {
        settings: Vec<u8>,
        schedule: Vec<u8>,
        record: Vec<u8>,
        leader: u8,
        presence: u8,
        list: Vec<u8>,
        peer_buffer: u32,
    },
}

impl Case {
    pub fn answer(&self) -> Answer {
        match self {
            Self::Verify { settings, schedule, record, peer_buffer } => {
                verify(settings, schedule, record, *peer_buffer)
            }
            Self::Judge { settings, schedule, record, leader, presence, list, peer_buffer } => {
                judge(settings, schedule, record, *leader, *presence, list, *peer_buffer)
            }
        }
    }

    /// Bytes of all inputs.
    pub fn size(&self) -> usize {
        self.blobs().1.iter().map(Vec::len).sum()
    }

    /// Its kind, and its inputs as the file holds them.
    pub fn blobs(&self) -> (u8, Vec<Vec<u8>>) {
        match self.clone() {
            Self::Verify { settings, schedule, record, peer_buffer } => {
                (VERIFY, vec![settings, schedule, record, peer_buffer.to_le_bytes().to_vec()])
            }
            Self::Judge { settings, schedule, record, leader, presence, list, peer_buffer } => {
                let flags = vec![leader, presence];
                (JUDGE, vec![settings, schedule, record, flags, list, peer_buffer.to_le_bytes().to_vec()])
            }
        }
    }

    /// The case and its answer, as the file holds them.
    pub fn write(&self, answer: &[u8], out: &mut Vec<u8>) {
        let (kind, blobs) = self.blobs();
        let blobs = blobs.iter().map(Vec::as_slice).chain([answer]);
        write(kind, &blobs.collect::<Vec<_>>(), out);
    }
}

/// A case of any kind as the file holds it, the answer being its last blob.
pub fn write(kind: u8, blobs: &[&[u8]], out: &mut Vec<u8>) {
    out.extend([kind, blobs.len() as u8]);
    for blob in blobs {
        out.extend((blob.len() as u32).to_le_bytes());
        out.extend(*blob);
    }
}

/// The answer as the file holds it: none for a panic. With a number, kind, map and role are 255.
pub fn answer_bytes(answer: &Answer) -> Option<Vec<u8>> {
    let no_verdict = Verdict::new(NONE, 0);
    let (number, verdict) = match answer {
        Answer::Panic(_) => return None,
        Answer::Number(number) => (*number, &no_verdict),
        Answer::Verdict(verdict) => (0, &**verdict),
    };
    let bytes = verdict.bytes();
    let mut out = vec![number];
    out.extend(&bytes[..113]);
    out.extend([0; 40]);
    out.push(bytes[113]);
    out.extend(verdict.unknown.as_flattened());
    Some(out)
}

/// A case as it stands in a file: its kind and its blobs.
pub type Blobs<'a> = (u8, Vec<&'a [u8]>);

/// The cases of a file. `None` if it isn't whole.
pub fn blobs(mut bytes: &[u8]) -> Option<Vec<Blobs<'_>>> {
    let mut cases = Vec::new();
    while !bytes.is_empty() {
        let (&[kind, count], rest) = bytes.split_first_chunk()?;
        bytes = rest;
        let mut blobs = Vec::with_capacity(usize::from(count));
        for _ in 0..count {
            let (length, rest) = bytes.split_first_chunk()?;
            let (blob, rest) = rest.split_at_checked(u32::from_le_bytes(*length) as usize)?;
            blobs.push(blob);
            bytes = rest;
        }
        cases.push((kind, blobs));
    }
    Some(cases)
}

/// Cases of kinds 1 and 2 with their answers; other kinds are passed over. `None` if the file isn't whole.
pub fn read(bytes: &[u8]) -> Option<Vec<(Case, Vec<u8>)>> {
    let judged = blobs(bytes)?.into_iter().filter(|(kind, _)| matches!(*kind, VERIFY | JUDGE));
    judged.map(|(kind, blobs)| case(kind, blobs.into_iter().map(<[u8]>::to_vec).collect())).collect()
}

fn case(kind: u8, blobs: Vec<Vec<u8>>) -> Option<(Case, Vec<u8>)> {
    if kind == VERIFY {
        let [settings, schedule, record, buffer, answer] = blobs.try_into().ok()?;
        let peer_buffer = u32::from_le_bytes(buffer.try_into().ok()?);
        return Some((Case::Verify { settings, schedule, record, peer_buffer }, answer));
    }
    let [settings, schedule, record, flags, list, buffer, answer] = blobs.try_into().ok()?;
    let [leader, presence] = flags.try_into().ok()?;
    let peer_buffer = u32::from_le_bytes(buffer.try_into().ok()?);
    Some((Case::Judge { settings, schedule, record, leader, presence, list, peer_buffer }, answer))
}
