//! What the words on a point mean: the inverse of how they are written.

use std::fmt::Display;
use std::str::FromStr;

use wutherdish::{AnchorLink, Digest, IndirectLink, PeerId, PointId, PointRole, Through};

use crate::ids::Id;

/// What is wrong with words, or what was expected.
type Read<T> = Result<T, String>;

/// How a link is written.
const LINK: &str = "`direct to the point of PEER in its MAP` or `indirect to the POINT through PEER in its MAP`, \
                    MAP being includes or witness";

/// How a role is written.
const ROLE: &str = "`regular`, `anchor proof NUMBER`, `anchor proof NUMBER, the last`, `anchor trigger` or `genesis`";

/// 32 bytes in 64 hex digits; or in the 2, 4 or 8 that they repeat, as those of drills do.
fn id(digits: &str) -> Read<Id> {
    let wanted = "an id is written with 64 hex digits, or with the 2, 4 or 8 that it repeats";
    let is_hex = digits.bytes().all(|digit| digit.is_ascii_hexdigit());
    match digits.len() {
        2 | 4 | 8 | 64 if is_hex => {
            let byte = |place: usize| u8::from_str_radix(&digits[place..place + 2], 16).unwrap_or_default();
            Ok(std::array::from_fn(|place| byte(2 * place % digits.len())))
        }
        _ if digits.ends_with("..") => {
            Err(format!("`{digits}` is cut short, and explain --full-ids writes it whole: {wanted}"))
        }
        _ => Err(format!("`{digits}` is no id: {wanted}")),
    }
}

fn peer(digits: &str) -> Read<PeerId> {
    id(digits).map(PeerId)
}

/// A number up to a greatest one.
pub fn number<N: FromStr + Display>(digits: &str, most: N) -> Read<N> {
    let read = digits.parse().ok().filter(|_| digits.bytes().all(|digit| digit.is_ascii_digit()));
    read.ok_or_else(|| format!("`{digits}` is no number from 0 to {most}"))
}

/// `2 messages, 412 bytes`.
pub fn payload(words: &str) -> Read<(u32, u32)> {
    let count = |words: &str, one: &str| {
        let digits = words.strip_suffix('s').unwrap_or(words).strip_suffix(one)?.strip_suffix(' ')?;
        Some(number(digits, u32::MAX))
    };
    let both = words.split_once(", ").and_then(|(len, bytes)| Some((count(len, "message")?, count(bytes, "byte")?)));
    let (len, bytes) = both.ok_or("expected `NUMBER messages, NUMBER bytes`")?;
    Ok((len?, bytes?))
}

/// `point DIGEST of round NUMBER by PEER`, without its first word.
fn point_id(words: &str) -> Read<PointId> {
    let parts = words.split_once(" of round ").and_then(|(digest, rest)| Some((digest, rest.split_once(" by ")?)));
    let (digest, (round, author)) = parts.ok_or("expected `point DIGEST of round NUMBER by PEER`")?;
    Ok(PointId { round: number(round, u32::MAX)?, digest: Digest(id(digest)?), author: peer(author)? })
}

/// A point's id and its role, without the first word.
pub fn point(words: &str) -> Read<(PointId, PointRole)> {
    let (id, words) = words.split_once(", ").ok_or("expected `point DIGEST of round NUMBER by PEER, ROLE`")?;
    Ok((point_id(id)?, role(words)?))
}

fn role(words: &str) -> Read<PointRole> {
    Ok(match (words, words.strip_prefix("anchor proof ")) {
        ("regular", _) => PointRole::Regular,
        ("anchor trigger", _) => PointRole::AnchorTrigger,
        ("genesis", _) => PointRole::Genesis,
        (_, Some(proof)) => {
            let last = proof.strip_suffix(", the last");
            PointRole::AnchorProof { seq_no: number(last.unwrap_or(proof), u8::MAX)?, is_last: last.is_some() }
        }
        (_, None) => return Err(format!("`{words}` is no role: expected {ROLE}")),
    })
}

/// A row of includes or witness.
pub fn pair(words: &str) -> Read<(PeerId, Digest)> {
    let (digest, author) = words.split_once(" by ").ok_or("expected a row `DIGEST by PEER`, or the next part")?;
    Ok((peer(author)?, Digest(id(digest)?)))
}

/// A row of evidence.
pub fn signer(words: &str) -> Read<(PeerId, ())> {
    Ok((peer(words)?, ()))
}

/// A link.
pub fn link(words: &str) -> Read<AnchorLink> {
    let wanted = || format!("expected {LINK}");
    if let Some(words) = words.strip_prefix("direct to the point of ") {
        return through(words)?.map(AnchorLink::Direct).ok_or_else(wanted);
    }
    let indirect = words.strip_prefix("indirect to the point ").and_then(|words| words.split_once(" through "));
    let (to, words) = indirect.ok_or_else(wanted)?;
    let through = through(words)?.ok_or_else(wanted)?;
    Ok(AnchorLink::Indirect(IndirectLink { to: point_id(to)?, through }))
}

/// `PEER in its MAP`, if it is written so.
fn through(words: &str) -> Read<Option<Through>> {
    let Some((digits, map)) = words.split_once(" in its ") else { return Ok(None) };
    let through: fn(PeerId) -> Through = match map {
        "includes" => Through::Includes,
        "witness" => Through::Witness,
        _ => return Ok(None),
    };
    peer(digits).map(through).map(Some)
}
