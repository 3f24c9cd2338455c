//! How ids are named, in words and in pictures alike.

use std::collections::{BTreeMap, BTreeSet};
use std::fmt::Display;

use crate::ids::{Id, Ids};

/// How many first bytes of an id its name has.
const HEAD: usize = 4;

/// The names of the ids at hand: the first four bytes, and where several of these ids begin with the same four, as many
/// of the last bytes as tell those apart. Another id, and any where none are at hand, is named by all of its bytes.
#[derive(Default)]
pub struct Names {
    ids: BTreeSet<Id>,
    /// How many last bytes the names of ids have that begin alike, by what they begin with.
    tails: BTreeMap<[u8; HEAD], usize>,
}

impl Names {
    /// For these ids.
    pub fn new(Ids(ids): Ids) -> Self {
        let all: Vec<Id> = ids.iter().copied().collect();
        let groups = all.chunk_by(|x, y| head(x) == head(y)).filter(|group| group.len() > 1);
        let tails = groups.map(|group| (head(&group[0]), tail(group))).collect();
        Self { ids, tails }
    }

    /// The name of an id.
    pub fn name(&self, id: &Id) -> String {
        let tail = self.tails.get(&head(id)).copied().unwrap_or(0);
        if !self.ids.contains(id) || HEAD + tail >= id.len() {
            return hex(id);
        }
        format!("{}..{}", hex(&head(id)), hex(&id[id.len() - tail..]))
    }

    /// A value that names ids. Its alternate form writes them whole, and no other digits are as many.
    pub fn say(&self, value: &impl Display) -> String {
        let (whole, mut said) = (format!("{value:#}"), String::new());
        let is_other = |letter: char| !letter.is_ascii_hexdigit();
        for part in whole.split_inclusive(is_other) {
            let digits = part.trim_end_matches(is_other);
            match id(digits) {
                Some(id) => said += &(self.name(&id) + &part[digits.len()..]),
                None => said += part,
            }
        }
        said
    }

    /// What names are.
    pub fn words(&self) -> &'static str {
        match self.have_tails() {
            false => "ids are named by their first four bytes",
            true => "ids are named by their first four bytes, and by last ones where these are alike",
        }
    }

    /// Whether first bytes alone would not tell all ids apart.
    pub fn have_tails(&self) -> bool {
        !self.tails.is_empty()
    }
}

fn head(id: &Id) -> [u8; HEAD] {
    std::array::from_fn(|place| id[place])
}

/// How many last bytes tell ids apart.
fn tail(ids: &[Id]) -> usize {
    let tells = |tail: &usize| ids.iter().map(|id| &id[id.len() - tail..]).collect::<BTreeSet<_>>().len() == ids.len();
    (1..=32 - HEAD).find(tells).unwrap_or(32 - HEAD)
}

fn hex(bytes: &[u8]) -> String {
    bytes.iter().map(|byte| format!("{byte:02x}")).collect()
}

/// The id that digits are.
fn id(digits: &str) -> Option<Id> {
    let bytes: Option<Vec<u8>> =
        (0..digits.len() / 2).map(|n| u8::from_str_radix(&digits[2 * n..2 * n + 2], 16).ok()).collect();
    if digits.len() == 64 { bytes?.try_into().ok() } else { None }
}

#[cfg(test)]
mod tests {
    use super::*;

    #[test]
    fn every_id_at_hand_has_a_name_of_its_own() {
        let id = |changes: &[(usize, u8)]| {
            let mut id = [0xab; 32];
            changes.iter().for_each(|&(place, byte)| id[place] = byte);
            id
        };
        // alike in the first four bytes; in the last too; in all but a middle one
        let ids = [id(&[(0, 1)]), id(&[]), id(&[(31, 2)]), id(&[(30, 3)]), id(&[(4, 5)])];
        for count in 1..=ids.len() {
            let names = Names::new(Ids(ids[..count].iter().copied().collect()));
            let named: BTreeSet<String> = ids[..count].iter().map(|id| names.name(id)).collect();
            assert_eq!(named.len(), count, "{named:?}");
        }
        let names = Names::new(Ids(ids[..4].iter().copied().collect()));
        let named = ids.map(|id| names.name(&id));
        assert_eq!(named[..4], ["01ababab..", "abababab..abab", "abababab..ab02", "abababab..03ab"]);
        assert_eq!(named[4], hex(&ids[4]));
    }
}
