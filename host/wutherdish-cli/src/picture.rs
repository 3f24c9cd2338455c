//! A book as a picture: its points by round and author, and what leads from one to another.

mod edges;
mod graph;
mod layout;
mod legend;
mod points;
mod svg;

use wutherdish::{Kept, Settings};

use graph::Graph;
use layout::{Layout, MARGIN};
use svg::Svg;

use crate::names::Names;

/// The least width, for the heading and the legend.
const LEAST: i32 = 950;

/// The picture of a book's settings and what it keeps, as SVG, under a title and two lines.
pub fn draw((settings, kept): (&Settings, &[Kept]), title: &str, lines: &[String; 2], names: &Names) -> String {
    let graph = Graph::new(settings, kept);
    let layout = Layout::new(&graph, names);
    let width = LEAST.max(layout.right + layout.widths.author + MARGIN);
    let mut svg = Svg::default();
    svg.text("title", MARGIN, MARGIN + 12, title);
    for (line, y) in lines.iter().zip([MARGIN + 32, MARGIN + 48]) {
        svg.text("line", MARGIN, y, line);
    }
    draw_grid(&mut svg, &layout, names, width);
    edges::draw(&mut svg, &graph, &layout, names);
    points::draw(&mut svg, &graph, &layout, names);
    let bottom = legend::draw(&mut svg, layout.bottom + MARGIN);
    svg.text(
        "faint",
        MARGIN,
        bottom + MARGIN,
        &format!("A lane is an author's, and rounds rise to the right; {}.", names.words()),
    );
    svg.finish(width, bottom + 2 * MARGIN)
}

/// The lanes with their authors, the columns with their rounds.
fn draw_grid(svg: &mut Svg, layout: &Layout, names: &Names, width: i32) {
    for lane in &layout.lanes {
        svg.rect("lane", (0, lane.y - 6), (width, lane.height + 12));
        svg.open(&format!("author {:#}", lane.author));
        for x in [MARGIN, layout.right + MARGIN] {
            svg.text("author", x, lane.y + lane.height / 2 + 4, &names.name(&lane.author.0));
        }
        svg.close();
    }
    let Some(top) = layout.lanes.first().map(|lane| lane.y) else { return };
    for column in &layout.columns {
        svg.text("round", column.x + layout.widths.point / 2, MARGIN + 82, &format!("round {}", column.round));
        if let Some(x) = column.break_x {
            svg.path("break", &format!("M{x} {top}V{}", layout.bottom));
        }
    }
}
