//! The ways between points, drawn.

use std::cmp::Reverse;
use std::collections::BTreeSet;

use super::graph::{Edge, Graph, Way};
use super::layout::{HIGH, Layout, Place};
use super::svg::Svg;
use crate::names::Names;

/// How far a way bows out that leads to no earlier round.
const BOW: i32 = 60;

/// Draws all ways, the thin ones first. Those of one kind to one point share their line in a channel: it is drawn once,
/// from the latest round on, so that dashes stay dashes.
pub fn draw(svg: &mut Svg, graph: &Graph<'_>, layout: &Layout, names: &Names) {
    let mut edges: Vec<&Edge> = graph.edges.iter().collect();
    edges.sort_by_key(|edge| (edge.way, Reverse(edge.from), edge.to));
    let mut drawn = BTreeSet::new();
    for edges in edges.chunk_by(|x, y| (x.way, x.from) == (y.way, y.from)) {
        let firsts: Vec<bool> = edges.iter().map(|edge| drawn.insert((edge.way, edge.to))).collect();
        let ways = edges.iter().zip(firsts);
        match title(edges[0].way) {
            // a point's thin ways are one path: there are many
            None => {
                let paths: String = ways.map(|(edge, is_first)| path(layout, edge, is_first)).collect();
                svg.path(class(edges[0].way), &paths);
            }
            Some(title) => ways.for_each(|(edge, is_first)| {
                svg.open(&format!("{title} {}", names.say(&graph.nodes[edge.to].id)));
                draw_link(svg, layout, edge, is_first);
                svg.close();
            }),
        }
    }
}

fn draw_link(svg: &mut Svg, layout: &Layout, edge: &Edge, is_first: bool) {
    svg.path(class(edge.way), &path(layout, edge, is_first));
    if let (true, Some(head)) = (is_first, head(edge.way)) {
        let (x, y) = end(edge.way, layout, layout.places[edge.to]);
        svg.path(head, &arrow_head(x, y));
    }
}

/// How a way looks.
pub fn class(way: Way) -> &'static str {
    match way {
        Way::Includes => "way includes",
        Way::Witness => "way witness",
        Way::Certifies => "way mark",
        Way::PassesOn => "way mark passed-on",
        Way::DirectProof => "way proof",
        Way::IndirectProof => "way proof indirect",
        Way::DirectTrigger => "way trigger",
        Way::IndirectTrigger => "way trigger indirect",
        Way::RootThrough | Way::Root => "way root",
    }
}

/// How the head of its arrow looks, if it has one.
pub fn head(way: Way) -> Option<&'static str> {
    match way {
        Way::Includes | Way::Witness | Way::RootThrough => None,
        Way::Certifies | Way::PassesOn => Some("mark-head"),
        Way::DirectProof | Way::IndirectProof => Some("proof-head"),
        Way::DirectTrigger | Way::IndirectTrigger => Some("trigger-head"),
        Way::Root => Some("root-head"),
    }
}

/// The head of an arrow to the left.
pub fn arrow_head(x: i32, y: i32) -> String {
    format!("M{x} {y}l9 -4v8z")
}

/// What is said of a way where it is pointed at. Includes and witness are too many for that.
fn title(way: Way) -> Option<&'static str> {
    match way {
        Way::Includes | Way::Witness => None,
        Way::Certifies => Some("certifies its previous"),
        Way::PassesOn => Some("passes a certificate on to"),
        Way::DirectProof => Some("direct anchor proof link to"),
        Way::IndirectProof => Some("indirect anchor proof link to"),
        Way::DirectTrigger => Some("direct anchor trigger link to"),
        Way::IndirectTrigger => Some("indirect anchor trigger link to"),
        Way::RootThrough => Some("root cause, through"),
        Way::Root => Some("root cause:"),
    }
}

/// How far below a point's middle the ways of a kind leave it and reach it, so that they stay apart.
fn port(way: Way) -> i32 {
    match way {
        Way::DirectProof => -13,
        Way::IndirectProof => -8,
        Way::Certifies | Way::PassesOn => -4,
        Way::Includes | Way::Root | Way::RootThrough => 0,
        Way::Witness => 4,
        Way::DirectTrigger => 9,
        Way::IndirectTrigger => 14,
    }
}

fn start(way: Way, place: Place) -> (i32, i32) {
    (place.x, place.y + HIGH / 2 + port(way))
}

fn end(way: Way, layout: &Layout, place: Place) -> (i32, i32) {
    (place.x + layout.widths.point, place.y + HIGH / 2 + port(way))
}

fn path(layout: &Layout, edge: &Edge, is_first: bool) -> String {
    let (from, to) = (layout.places[edge.from], layout.places[edge.to]);
    let (start, end) = (start(edge.way, from), end(edge.way, layout, to));
    if from.column <= to.column {
        let ((x, y), right) = ((from.x + layout.widths.point, start.1), from.x.max(to.x) + layout.widths.point + BOW);
        return format!("M{x} {y}C{right} {y} {right} {} {} {}", end.1, end.0, end.1);
    }
    let Some(&y) = layout.lines.get(&(edge.to, edge.way)).filter(|_| Layout::is_long(&layout.places, edge)) else {
        return format!("M{} {}{}", start.0, start.1, curve(start, end));
    };
    let joins = (layout.columns[from.column - 1].x + layout.widths.point, y);
    let branch = format!("M{} {}{}", start.0, start.1, curve(start, joins));
    if !is_first {
        return branch;
    }
    let leaves = (layout.columns[to.column + 1].x, y);
    format!("{branch}H{}{}", leaves.0, curve(leaves, end))
}

/// A curve that begins and ends level.
fn curve((x, y): (i32, i32), (to_x, to_y): (i32, i32)) -> String {
    let middle = (x + to_x) / 2;
    format!("C{middle} {y} {middle} {to_y} {to_x} {to_y}")
}
