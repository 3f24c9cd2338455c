//! The points, drawn.

use wutherdish::{Kept, Point, PointRole, Status};

use super::graph::{Graph, Node};
use super::layout::{HIGH, Layout, Place};
use super::svg::Svg;
use crate::marks::Cause;
use crate::names::Names;

/// What a verdict looks like.
#[derive(Clone, Copy)]
pub struct Look {
    /// The class of its frame.
    pub class: &'static str,
    /// Its letter.
    pub letter: &'static str,
}

/// A valid point.
pub const VALID: Look = Look { class: "valid", letter: "V" };
/// A trans-invalid point.
pub const TRANS_INVALID: Look = Look { class: "trans-invalid", letter: "T" };
/// An invalid point.
pub const INVALID: Look = Look { class: "invalid", letter: "I" };
/// An ill-formed point.
pub const ILL_FORMED: Look = Look { class: "ill-formed", letter: "L" };
/// A point that is not kept.
pub const UNKEPT: Look = Look { class: "unkept", letter: "" };

/// Draws all points.
pub fn draw(svg: &mut Svg, graph: &Graph<'_>, layout: &Layout, names: &Names) {
    for (node, place) in graph.nodes.iter().zip(&layout.places) {
        svg.open(&title(node, names));
        match node.kept {
            Some(kept) => draw_kept(svg, kept, *place, (layout.widths.point, names)),
            None => {
                frame(svg, UNKEPT, (place.x, place.y), (layout.widths.point, HIGH));
                svg.text("id faint", place.x + 30, place.y + 24, &names.name(&node.id.digest.0));
            }
        }
        svg.close();
    }
}

fn draw_kept(svg: &mut Svg, kept: &Kept, Place { x, y, .. }: Place, (wide, names): (i32, &Names)) {
    let (look, role) = (look(&kept.status), role(kept.point.role));
    let reason = Some(kept.status.reason_number()).filter(|reason| *reason != 0);
    frame(svg, look, (x, y), (wide, HIGH));
    svg.text("letter", x + 16, y + if reason.is_some() { 19 } else { 25 }, look.letter);
    if let Some(reason) = reason {
        svg.text("reason", x + 16, y + 33, &reason.to_string());
    }
    svg.text("id", x + 30, y + if role.is_some() { 17 } else { 24 }, &names.name(&kept.point.id.digest.0));
    if let Some((class, text)) = role {
        svg.text(class, x + 30, y + 32, &text);
    }
    if kept.certified {
        seal(svg, x + wide - 14, y);
    }
}

/// A verdict's frame.
pub fn frame(svg: &mut Svg, look: Look, (x, y): (i32, i32), (width, height): (i32, i32)) {
    svg.rect(look.class, (x, y), (width, height));
    if look.class == ILL_FORMED.class {
        svg.rect(look.class, (x + 3, y + 3), (width - 6, height - 6));
    }
}

/// The mark of a certified point.
pub fn seal(svg: &mut Svg, x: i32, y: i32) {
    svg.add(format_args!(r#"<circle class="seal" cx="{x}" cy="{y}" r="7"/>"#));
    svg.path("tick", &format!("M{} {}l2 3l5 -6", x - 3, y));
}

/// What a kept verdict looks like.
fn look(status: &Status) -> Look {
    match status {
        Status::Valid => VALID,
        Status::TransInvalid(_) => TRANS_INVALID,
        Status::Invalid { .. } => INVALID,
        Status::IllFormed { .. } => ILL_FORMED,
    }
}

/// The class and the words of a role; none for a regular point.
fn role(role: PointRole) -> Option<(&'static str, String)> {
    match role {
        PointRole::Regular => None,
        PointRole::AnchorProof { seq_no, is_last: false } => Some(("proof-role", format!("proof {seq_no}"))),
        PointRole::AnchorProof { seq_no, is_last: true } => Some(("proof-role", format!("proof {seq_no}, last"))),
        PointRole::AnchorTrigger => Some(("trigger-role", "trigger".into())),
        PointRole::Genesis => Some(("genesis-role", "genesis".into())),
    }
}

/// What is said of a point where it is pointed at: its names, and the ids that they stand for.
fn title(node: &Node<'_>, names: &Names) -> String {
    let said = match node.kept {
        None => format!("{}: not kept", names.say(&node.id)),
        Some(kept) => {
            let Point { role, time, anchor_time, .. } = kept.point;
            let mark = if kept.certified { mark(node.cause.as_ref(), names) } else { String::new() };
            format!("{}\n{role}, time {time}, anchor time {anchor_time}{mark}", names.say(kept))
        }
    };
    format!("{said}\ndigest {:#}\nauthor {:#}", node.id.digest, node.id.author)
}

/// Why a point is marked: which point's offer did it first, and which kept dependencies lead to it from that point's previous one.
fn mark(cause: Option<&Cause>, names: &Names) -> String {
    let Some(Cause { by, chain }) = cause else { return "\ncertified by no point of this book".into() };
    let by = names.say(by);
    match chain[..] {
        [] | [_] => format!("\ncertified by the {by}, whose previous point it is"),
        [prev, ref between @ .., _] => {
            let between: String = between.iter().map(|id| format!(", the {}", names.say(id))).collect();
            format!("\ncertified by the {by}, through its previous {}{between}", names.say(&prev))
        }
    }
}

#[cfg(test)]
mod tests {
    use wutherdish::{Digest, PeerId, PointId};

    use super::*;

    #[test]
    fn a_mark_that_came_far() {
        let id = |round: u32| PointId { round, digest: Digest([1; 32]), author: PeerId([2; 32]) };
        let said = |chain: &[u32]| {
            let cause = Cause { by: id(9), chain: chain.iter().map(|round| id(*round)).collect() };
            let said = mark(Some(&cause), &Names::default());
            said.replace(&format!("{:#}", id(9).digest), "D").replace(&format!("{:#}", id(9).author), "A")
        };
        let by = "\ncertified by the point D of round 9 by A";
        assert_eq!(said(&[8]), format!("{by}, whose previous point it is"));
        assert_eq!(said(&[8, 7]), format!("{by}, through its previous point D of round 8 by A"));
        let far =
            ", through its previous point D of round 8 by A, the point D of round 6 by A, the point D of round 5 by A";
        assert_eq!(said(&[8, 6, 5, 3]), by.to_owned() + far);
    }
}
