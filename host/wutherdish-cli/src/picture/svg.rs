//! SVG, written by hand.

use std::fmt::{Display, Write};

/// How everything looks. Verdicts differ in border and letter too, ways in dashes.
const STYLE: &str = include_str!("style.css");

/// An SVG picture that grows.
#[derive(Default)]
pub struct Svg(String);

impl Svg {
    /// A line of SVG. Writing to a string can't fail.
    pub fn add(&mut self, line: impl Display) {
        let _ = writeln!(self.0, "{line}");
    }

    /// A text.
    pub fn text(&mut self, class: &str, x: i32, y: i32, text: &str) {
        self.add(format_args!(r#"<text class="{class}" x="{x}" y="{y}">{}</text>"#, escaped(text)));
    }

    /// A rectangle.
    pub fn rect(&mut self, class: &str, (x, y): (i32, i32), (width, height): (i32, i32)) {
        self.add(format_args!(r#"<rect class="{class}" x="{x}" y="{y}" width="{width}" height="{height}"/>"#));
    }

    /// A line along a path.
    pub fn path(&mut self, class: &str, path: &str) {
        self.add(format_args!(r#"<path class="{class}" d="{path}"/>"#));
    }

    /// The beginning of a group that has a text for the pointer.
    pub fn open(&mut self, title: &str) {
        self.add(format_args!("<g><title>{}</title>", escaped(title)));
    }

    /// The end of a group.
    pub fn close(&mut self) {
        self.add("</g>");
    }

    /// The whole picture.
    pub fn finish(self, width: i32, height: i32) -> String {
        let size = format!(r#"width="{width}" height="{height}" viewBox="0 0 {width} {height}""#);
        format!(
            "<?xml version=\"1.0\" encoding=\"UTF-8\"?>\n<svg xmlns=\"http://www.w3.org/2000/svg\" {size}>\n\
             <style>\n{STYLE}</style>\n<rect class=\"paper\" width=\"{width}\" height=\"{height}\"/>\n{}</svg>\n",
            self.0
        )
    }
}

fn escaped(text: &str) -> String {
    text.replace('&', "&amp;").replace('<', "&lt;").replace('>', "&gt;")
}

#[cfg(test)]
mod tests {
    use super::*;

    #[test]
    fn texts_are_escaped() {
        let mut svg = Svg::default();
        svg.text("id", 1, 2, "a < b & b > a");
        assert!(svg.finish(1, 1).contains(">a &lt; b &amp; b &gt; a</text>"));
    }
}
