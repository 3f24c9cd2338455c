//! The entries of a list, by their places.

use wutherdish::{Digest, PeerId, PointId, SetBy};

/// The ids of a list's entries, in their order; none where an entry has none, as one that was dropped.
#[derive(Default)]
pub struct Entries {
    direct: Vec<Option<PointId>>,
    indirect: Vec<Option<PointId>>,
}

impl Entries {
    /// Those of a list that judging has read. Tag 19 stands before an indirect entry, tag 16 begins any, and tag 1 or 17 has the id.
    pub fn of(list: &[u8]) -> Self {
        let (mut entries, mut is_indirect) = (Self::default(), false);
        for (tag, content) in fields(list) {
            match tag {
                19 => is_indirect = true,
                16 => entries.of_kind(is_indirect).push(None),
                1 | 17 => {
                    let last = entries.of_kind(is_indirect).last_mut();
                    last.into_iter().for_each(|last| *last = id(content));
                }
                _ => {}
            }
        }
        entries
    }

    /// The id of what set a reason.
    pub fn id(&self, set_by: SetBy) -> Option<PointId> {
        match set_by {
            SetBy::Presence => None,
            SetBy::Direct(place) => *self.direct.get(place)?,
            SetBy::Indirect(place) => *self.indirect.get(place)?,
        }
    }

    fn of_kind(&mut self, is_indirect: bool) -> &mut Vec<Option<PointId>> {
        if is_indirect { &mut self.indirect } else { &mut self.direct }
    }
}

/// The fields of a list, each its tag and its content, up to what is none.
pub fn fields(mut list: &[u8]) -> impl Iterator<Item = (u8, &[u8])> {
    std::iter::from_fn(move || {
        let (&[tag, low, high], rest) = list.split_first_chunk()?;
        let (content, rest) = rest.split_at_checked(u16::from_le_bytes([low, high]).into())?;
        list = rest;
        Some((tag, content))
    })
}

fn id(content: &[u8]) -> Option<PointId> {
    let (round, rest) = content.split_first_chunk()?;
    let (digest, author) = rest.split_first_chunk()?;
    Some(PointId {
        round: u32::from_le_bytes(*round),
        digest: Digest(*digest),
        author: PeerId(author.try_into().ok()?),
    })
}
