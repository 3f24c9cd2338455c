//! Every order of a short list.

use oracle::file::Case;
use oracle::numbers::split;
use oracle::value::Entry;
use oracle::{read, write};

/// Direct entries of the longest list that is permuted.
const LONGEST: usize = 4;
/// One list in this many is run with a damaged entry too.
const DAMAGED: u64 = 4;

/// An entry's bytes.
type Piece = Vec<u8>;

/// The judge case of this seed at this place with every order of its direct entries, and after each one every order of
/// its indirect ones; none if the list is unreadable or longer. At some places the same again, with an entry outside
/// the domain: its certified flag is 2.
pub fn permuted(seed: u64, place: u64) -> Vec<Vec<Case>> {
    let case = cases::case(seed, place);
    let Case::Judge { list, .. } = &case else { return Vec::new() };
    let Some(entries) = read::list(list) else { return Vec::new() };
    let (direct, indirect) = split(&entries);
    if direct.len().max(indirect.len()) > LONGEST {
        return Vec::new();
    }
    let (direct, indirect) = (pieces(direct), pieces(indirect));
    let mut lists = vec![arranged(&case, &direct, &indirect)];
    if place.is_multiple_of(DAMAGED) && !(direct.is_empty() && indirect.is_empty()) {
        let (mut direct, mut indirect) = (direct, indirect);
        match direct.first_mut() {
            Some(piece) => piece[CERTIFIED] = 2,
            None => indirect[0][ROLE + CERTIFIED] = 2,
        }
        lists.push(arranged(&case, &direct, &indirect));
    }
    lists
}

/// Where the certified flag of an entry stands, after tag 16, its length and the state.
const CERTIFIED: usize = 4;
/// Bytes of tag 19, before an indirect entry.
const ROLE: usize = 4;

fn pieces(entries: &[Entry]) -> Vec<Piece> {
    entries.iter().map(|entry| write::list(std::slice::from_ref(entry))).collect()
}

/// The case with each order of these entries.
fn arranged(case: &Case, direct: &[Piece], indirect: &[Piece]) -> Vec<Case> {
    let orders_after = orders(indirect);
    orders(direct)
        .iter()
        .flat_map(|front| orders_after.iter().map(|after| with_list(case, [&front[..], after].concat().concat())))
        .collect()
}

fn with_list(case: &Case, bytes: Vec<u8>) -> Case {
    let mut case = case.clone();
    if let Case::Judge { list, .. } = &mut case {
        *list = bytes;
    }
    case
}

fn orders(pieces: &[Piece]) -> Vec<Vec<Piece>> {
    if pieces.is_empty() {
        return vec![Vec::new()];
    }
    let from = |place: usize| {
        let mut rest = pieces.to_vec();
        let first = rest.remove(place);
        orders(&rest).into_iter().map(move |order| [vec![first.clone()], order].concat())
    };
    (0..pieces.len()).flat_map(from).collect()
}
