//! What a trans-invalid point waits for.

use crate::field::Content;
use crate::id::PointId;

/// Which certificate would clear a point.
#[derive(Clone, Copy, PartialEq, Eq, Debug)]
pub enum Clearing {
    /// The point waits for none: its verdict is not trans-invalid.
    NotWaiting,
    /// The mark of no single point makes the verdict valid.
    NoSingleMark,
    /// The mark of this point does, if it is set wherever the point stands in the list, and that of no other point. It is a dependency
    /// or the target of an indirect link, and need not be the root cause that the verdict names.
    ClearedBy(PointId),
}

impl Clearing {
    /// What an answer of [`lent::clearing`](crate::lent::clearing) says; none where the bytes are no such answer.
    pub fn read(answer: &[u8; 69]) -> Option<Self> {
        match answer {
            [2, id @ ..] => PointId::read(&mut Content(id)).map(Self::ClearedBy),
            [0, rest @ ..] if *rest == [0; 68] => Some(Self::NotWaiting),
            [1, rest @ ..] if *rest == [0; 68] => Some(Self::NoSingleMark),
            _ => None,
        }
    }
}

#[cfg(test)]
mod tests {
    use super::*;
    use crate::field::join;
    use crate::id::{Digest, PeerId};

    #[test]
    fn answers() {
        let id = PointId { round: 70_123, digest: Digest([7; 32]), author: PeerId([8; 32]) };
        assert_eq!(Clearing::read(&join([2], id.to_bytes())), Some(Clearing::ClearedBy(id)));
        for (kind, clearing) in [(0, Clearing::NotWaiting), (1, Clearing::NoSingleMark)] {
            let mut answer = join([kind], [0; 68]);
            assert_eq!(Clearing::read(&answer), Some(clearing));
            answer[68] = 1;
            assert_eq!(Clearing::read(&answer), None);
        }
        assert_eq!(Clearing::read(&join([3], [0; 68])), None);
        assert_eq!(Clearing::read(&[255; 69]), None);
    }
}
