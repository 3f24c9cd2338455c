//! Where everything stands: a column for each round, a lane for each author, and channels between the lanes, in which
//! the ways that lead past a column run, so that no line crosses a point.

use std::collections::{BTreeMap, BTreeSet};

use wutherdish::PeerId;

use super::graph::{Edge, Graph, Node, Way};
use crate::names::Names;

/// The width of a point at least, and what of it is not its name.
const POINT: (i32, i32) = (116, 32);
/// The height of a point.
pub const HIGH: i32 = 40;
/// What is free between two columns at least, and at most.
const GAP: (i32, i32) = (84, 200);
/// How much of it there is for each version of each author, so that ways over many lanes don't become steep.
const GAP_PER_VERSION: i32 = 10;
/// What stands free around the picture.
pub const MARGIN: i32 = 24;
/// What more is free where rounds are left out.
const BREAK: i32 = 40;
/// What is free between two versions of a point.
const BETWEEN: i32 = 10;
/// What is free above and below the lines of a channel.
const PAD: i32 = 13;
/// What is between two lines of a channel.
const LINE: i32 = 7;
/// The width of the authors' names, left and right of all columns, at least, and what of it is free.
const AUTHOR: (i32, i32) = (84, 4);
/// The width of a letter of a point's name, and of an author's.
const LETTER: (i32, i32) = (7, 8);
/// The heading, above all lanes.
const HEADING: i32 = 112;

/// A round's column.
pub struct Column {
    /// The round.
    pub round: u32,
    /// Its left side.
    pub x: i32,
    /// The middle of what is free before it, where rounds are left out there.
    pub break_x: Option<i32>,
}

/// An author's lane.
pub struct Lane {
    /// The author.
    pub author: PeerId,
    /// The upper side of its points.
    pub y: i32,
    /// How high its points stand.
    pub height: i32,
}

/// A point's place.
#[derive(Clone, Copy)]
pub struct Place {
    /// Its column.
    pub column: usize,
    /// Its lane.
    lane: usize,
    /// How many versions stand above it.
    version: usize,
    /// Its left side.
    pub x: i32,
    /// Its upper side.
    pub y: i32,
}

/// What is as wide as the longest name needs it.
#[derive(Clone, Copy)]
pub struct Widths {
    /// A point.
    pub point: i32,
    /// The authors' names, left and right of all columns.
    pub author: i32,
}

impl Widths {
    fn new(graph: &Graph<'_>, names: &Names) -> Self {
        let longest = |id: &dyn Fn(&Node) -> [u8; 32]| {
            let names = graph.nodes.iter().map(|node| names.name(&id(node)).len());
            names.max().unwrap_or(0) as i32
        };
        let point = POINT.1 + LETTER.0 * longest(&|node| node.id.digest.0);
        let author = AUTHOR.1 + LETTER.1 * longest(&|node| node.id.author.0);
        Self { point: POINT.0.max(point), author: AUTHOR.0.max(author) }
    }
}

/// The places of all points and of the lines in the channels.
pub struct Layout {
    /// The columns by rising round.
    pub columns: Vec<Column>,
    /// The lanes by rising author.
    pub lanes: Vec<Lane>,
    /// The places of the nodes.
    pub places: Vec<Place>,
    /// The height of the line in a channel that the ways of one kind to one point share.
    pub lines: BTreeMap<(usize, Way), i32>,
    /// What depends on the names.
    pub widths: Widths,
    /// The right end of the last column.
    pub right: i32,
    /// The lower end of the last channel.
    pub bottom: i32,
}

/// A line in a channel, over some columns.
struct Line {
    to: usize,
    way: Way,
    first: usize,
    last: usize,
    slot: usize,
}

impl Layout {
    /// Places a graph.
    pub fn new(graph: &Graph<'_>, names: &Names) -> Self {
        let authors: BTreeSet<PeerId> = graph.nodes.iter().map(|node| node.id.author).collect();
        let authors: Vec<PeerId> = authors.into_iter().collect();
        let rounds: BTreeSet<u32> = graph.nodes.iter().map(|node| node.id.round).collect();
        let mut places = places(graph, &rounds.iter().copied().collect::<Vec<_>>(), &authors);
        let heights: Vec<usize> = (0..authors.len()).map(|lane| versions(&places, lane)).collect();
        let widths = Widths::new(graph, names);
        let columns = columns(&rounds, heights.iter().sum(), widths);
        let channels = channels(graph, &places, authors.len());
        let (mut lanes, mut lines, mut y) = (Vec::new(), BTreeMap::new(), HEADING);
        for (number, channel) in channels.iter().enumerate() {
            y += PAD;
            lines.extend(channel.iter().map(|line| ((line.to, line.way), y + LINE * line.slot as i32)));
            y += LINE * slots(channel).saturating_sub(1) as i32 + PAD;
            if let Some(&author) = authors.get(number) {
                let height = heights[number] as i32 * (HIGH + BETWEEN) - BETWEEN;
                lanes.push(Lane { author, y, height });
                y += height;
            }
        }
        for place in &mut places {
            place.x = columns[place.column].x;
            place.y = lanes[place.lane].y + place.version as i32 * (HIGH + BETWEEN);
        }
        let right = columns.last().map_or(MARGIN + widths.author, |column| column.x + widths.point);
        Self { columns, lanes, places, lines, widths, right, bottom: y }
    }

    /// Whether a way leads past a column, so that it runs in a channel.
    pub fn is_long(places: &[Place], edge: &Edge) -> bool {
        places[edge.from].column > places[edge.to].column + 1
    }
}

fn columns(rounds: &BTreeSet<u32>, versions: usize, widths: Widths) -> Vec<Column> {
    let gap = (versions as i32 * GAP_PER_VERSION).clamp(GAP.0, GAP.1);
    let mut columns: Vec<Column> = Vec::new();
    for &round in rounds {
        let (x, break_x) = match columns.last() {
            None => (MARGIN + widths.author, None),
            Some(last) if last.round + 1 == round => (last.x + widths.point + gap, None),
            Some(last) => {
                let right = last.x + widths.point;
                (right + gap + BREAK, Some(right + (gap + BREAK) / 2))
            }
        };
        columns.push(Column { round, x, break_x });
    }
    columns
}

/// The nodes' columns, lanes and versions. The nodes come by round and author.
fn places(graph: &Graph<'_>, rounds: &[u32], authors: &[PeerId]) -> Vec<Place> {
    let mut places: Vec<Place> = Vec::new();
    for node in &graph.nodes {
        let column = rounds.partition_point(|round| *round < node.id.round);
        let lane = authors.partition_point(|author| *author < node.id.author);
        let version = match places.last() {
            Some(last) if (last.column, last.lane) == (column, lane) => last.version + 1,
            _ => 0,
        };
        places.push(Place { column, lane, version, x: 0, y: 0 });
    }
    places
}

/// How many versions of an author's point a round has at most.
fn versions(places: &[Place], lane: usize) -> usize {
    places.iter().filter(|place| place.lane == lane).map(|place| place.version + 1).max().unwrap_or(1)
}

/// The lines of each channel; the one of a number lies above the lane of that number.
fn channels(graph: &Graph<'_>, places: &[Place], lanes: usize) -> Vec<Vec<Line>> {
    let mut ends: BTreeMap<(usize, Way), usize> = BTreeMap::new();
    for edge in graph.edges.iter().filter(|edge| Layout::is_long(places, edge)) {
        let last = ends.entry((edge.to, edge.way)).or_default();
        *last = (*last).max(places[edge.from].column - 1);
    }
    let mut channels: Vec<Vec<Line>> = (0..=lanes).map(|_| Vec::new()).collect();
    for ((to, way), last) in ends {
        let number = places[to].lane + usize::from(runs_below(way));
        let channel = &mut channels[number];
        let line = Line { to, way, first: places[to].column + 1, last, slot: 0 };
        let taken: BTreeSet<usize> =
            channel.iter().filter(|other| meets(other, &line)).map(|other| other.slot).collect();
        let slot = (0..).find(|slot| !taken.contains(slot)).unwrap_or(0);
        channel.push(Line { slot, ..line });
    }
    channels
}

/// Whether the ways of a kind run below the lane of the point that they lead to, not above.
fn runs_below(way: Way) -> bool {
    matches!(way, Way::Witness | Way::DirectTrigger | Way::IndirectTrigger)
}

/// Whether two lines have a column in common or next to each other.
fn meets(x: &Line, y: &Line) -> bool {
    x.first <= y.last + 1 && y.first <= x.last + 1
}

fn slots(channel: &[Line]) -> usize {
    channel.iter().map(|line| line.slot + 1).max().unwrap_or(0)
}
