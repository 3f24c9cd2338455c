//! What the signs of the picture mean.

use super::edges;
use super::graph::Way;
use super::layout::MARGIN;
use super::points::{self, Look};
use super::svg::Svg;

/// A sign and its meaning.
enum Sign {
    Point(Look),
    Seal,
    Break,
    Way(Way),
}

/// The width of a sign with its words.
const ITEM: i32 = 226;
/// The height of a row of signs.
const ROW: i32 = 30;
/// The width of a sign.
const SIGN: i32 = 46;

/// The signs, column by column.
const SIGNS: [&[(Sign, &str)]; 4] = [
    &[
        (Sign::Point(points::VALID), "valid"),
        (Sign::Point(points::TRANS_INVALID), "trans-invalid"),
        (Sign::Point(points::INVALID), "invalid, with its reason"),
        (Sign::Point(points::ILL_FORMED), "ill-formed, with its reason"),
    ],
    &[
        (Sign::Point(points::UNKEPT), "named, but not kept"),
        (Sign::Seal, "certified"),
        (Sign::Way(Way::Includes), "includes"),
        (Sign::Way(Way::Witness), "witness"),
    ],
    &[
        (Sign::Way(Way::DirectProof), "anchor proof link, direct"),
        (Sign::Way(Way::IndirectProof), "anchor proof link, indirect"),
        (Sign::Way(Way::DirectTrigger), "anchor trigger link, direct"),
        (Sign::Way(Way::IndirectTrigger), "anchor trigger link, indirect"),
    ],
    &[
        (Sign::Way(Way::Root), "to the root cause"),
        (Sign::Way(Way::Certifies), "certificate"),
        (Sign::Way(Way::PassesOn), "certificate that spreads"),
        (Sign::Break, "rounds are left out"),
    ],
];

/// Draws the legend from a height on. Gives its lower end.
pub fn draw(svg: &mut Svg, top: i32) -> i32 {
    for (signs, x) in SIGNS.iter().zip((MARGIN..).step_by(ITEM as usize)) {
        for ((sign, meaning), y) in signs.iter().zip((top + ROW / 2..).step_by(ROW as usize)) {
            draw_sign(svg, sign, x, y);
            svg.text("meaning", x + SIGN + 12, y + 4, meaning);
        }
    }
    top + SIGNS[0].len() as i32 * ROW
}

/// Draws a sign whose left end and middle are given.
fn draw_sign(svg: &mut Svg, sign: &Sign, x: i32, y: i32) {
    match sign {
        Sign::Point(look) => {
            points::frame(svg, *look, (x, y - 11), (SIGN, 22));
            svg.text("letter", x + SIGN / 2, y + 6, look.letter);
        }
        Sign::Seal => points::seal(svg, x + SIGN / 2, y),
        Sign::Break => svg.path("break", &format!("M{} {}v22", x + SIGN / 2, y - 11)),
        Sign::Way(way) => {
            svg.path(edges::class(*way), &format!("M{} {y}H{x}", x + SIGN));
            if let Some(head) = edges::head(*way) {
                svg.path(head, &edges::arrow_head(x, y));
            }
        }
    }
}
