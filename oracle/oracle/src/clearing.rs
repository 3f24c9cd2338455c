//! Which certificate would clear a trans-invalid point (document 02, U13): found by judging again with each point of the list
//! marked.

use crate::answer::{NONE, TRANS_INVALID, VALID};
use crate::question::Question;
use crate::value::Id;
use crate::{Answer, read, write};

/// The kind of its cases in a file.
pub const CLEARING: u8 = 20;
/// Bytes of the call's answer.
pub const BYTES: usize = 69;

#[derive(Clone, Copy, PartialEq, Eq, Debug)]
pub enum Clearing {
    NotWaiting,
    NoSingleMark,
    ClearedBy(Id),
}

impl Clearing {
    /// As the C call lays it out.
    pub fn bytes(&self) -> [u8; BYTES] {
        let mut out = [0; BYTES];
        match self {
            Self::NotWaiting => {}
            Self::NoSingleMark => out[0] = 1,
            Self::ClearedBy(id) => {
                out[0] = 2;
                out[1..].copy_from_slice(&write::id(id));
            }
        }
        out
    }
}

/// The answer as a file holds it: number, kind and id; with a number the kind is 255.
pub fn answer_bytes(found: &Result<Clearing, u8>) -> Vec<u8> {
    match found {
        Ok(clearing) => [&[0], &clearing.bytes()[..]].concat(),
        Err(number) => [&[*number, NONE], &[0; BYTES - 1][..]].concat(),
    }
}

/// Judges the question's list, and where the verdict is trans-invalid again with each point of it marked. The outer error says
/// why there is no answer: a panic, or more than one mark that clears the point.
pub fn found(question: &Question, mut judge: impl FnMut(Vec<u8>) -> Answer) -> Result<Result<Clearing, u8>, String> {
    let mut kind = |list: Vec<u8>| match judge(list) {
        Answer::Verdict(verdict) => Ok(Ok(verdict.kind)),
        Answer::Number(number) => Ok(Err(number)),
        Answer::Panic(message) => Err(message),
    };
    match kind(question.list.clone())? {
        Ok(TRANS_INVALID) => {}
        Ok(_) => return Ok(Ok(Clearing::NotWaiting)),
        Err(number) => return Ok(Err(number)),
    }
    let mut clearing = Vec::new();
    for id in ids(&question.list) {
        if kind(marked(&question.list, &id))? == Ok(VALID) {
            clearing.push(id);
        }
    }
    match clearing[..] {
        [] => Ok(Ok(Clearing::NoSingleMark)),
        [id] => Ok(Ok(Clearing::ClearedBy(id))),
        _ => Err(format!("{} marks clear the point", clearing.len())),
    }
}

/// The points of a list, each once.
fn ids(list: &[u8]) -> Vec<Id> {
    let mut ids: Vec<Id> = Vec::new();
    for entry in read::list(list).unwrap_or_default() {
        if let Some(id) = entry.state.id().filter(|id| !ids.contains(id)) {
            ids.push(*id);
        }
    }
    ids
}

/// The list with the certified flag of a point's entries set.
pub fn marked(list: &[u8], id: &Id) -> Vec<u8> {
    let mut entries = read::list(list).unwrap_or_default();
    for entry in entries.iter_mut().filter(|entry| entry.state.id() == Some(id)) {
        entry.certified = true;
    }
    write::list(&entries)
}
