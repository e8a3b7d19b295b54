//! SVG as text: elements with whole-number places, one a line.

use std::fmt::Write;

/// Where a text stands to its place.
#[derive(Clone, Copy, Debug, PartialEq, Eq)]
pub enum Anchor {
    Start,
    Middle,
    End,
}

impl Anchor {
    fn attribute(self) -> &'static str {
        match self {
            Anchor::Start => "",
            Anchor::Middle => " text-anchor=\"middle\"",
            Anchor::End => " text-anchor=\"end\"",
        }
    }
}

#[derive(Default)]
pub struct Svg {
    text: String,
}

impl Svg {
    pub fn line(&mut self, class: &str, from: (i32, i32), to: (i32, i32)) {
        let ((x1, y1), (x2, y2)) = (from, to);
        self.put(format_args!("<path class=\"{class}\" d=\"M{x1} {y1}L{x2} {y2}\"/>"));
    }

    pub fn path(&mut self, class: &str, path: &str) {
        self.put(format_args!("<path class=\"{class}\" d=\"{path}\"/>"));
    }

    /// A box with its upper left corner, its width and height, and how round its corners are.
    pub fn rect(&mut self, class: &str, corner: (i32, i32), size: (i32, i32), round: i32) {
        let ((x, y), (width, height)) = (corner, size);
        let round = if round > 0 { format!(" rx=\"{round}\"") } else { String::new() };
        self.put(format_args!(
            "<rect class=\"{class}\" x=\"{x}\" y=\"{y}\" width=\"{width}\" height=\"{height}\"{round}/>"
        ));
    }

    pub fn circle(&mut self, class: &str, centre: (i32, i32), radius: i32) {
        let (x, y) = centre;
        self.put(format_args!("<circle class=\"{class}\" cx=\"{x}\" cy=\"{y}\" r=\"{radius}\"/>"));
    }

    /// A text with its place on the base line.
    pub fn text(&mut self, class: &str, place: (i32, i32), anchor: Anchor, text: &str) {
        let (x, y) = place;
        let class = if class.is_empty() { String::new() } else { format!(" class=\"{class}\"") };
        let anchor = anchor.attribute();
        self.put(format_args!("<text{class} x=\"{x}\" y=\"{y}\"{anchor}>{}</text>", escaped(text)));
    }

    /// A group that says what it is where the pointer rests on it.
    pub fn group(&mut self, class: &str, title: &str, draw: impl FnOnce(&mut Svg)) {
        self.put(format_args!("<g class=\"{class}\"><title>{}</title>", escaped(title)));
        draw(self);
        self.put(format_args!("</g>"));
    }

    /// The whole picture, of this size.
    pub fn finish(self, size: (i32, i32), title: &str, style: &str) -> String {
        let (width, height) = size;
        format!(
            "<svg xmlns=\"http://www.w3.org/2000/svg\" width=\"{width}\" height=\"{height}\" \
             viewBox=\"0 0 {width} {height}\">\n<title>{}</title>\n<style>\n{style}</style>\n\
             <rect class=\"paper\" width=\"{width}\" height=\"{height}\"/>\n{}</svg>\n",
            escaped(title),
            self.text
        )
    }

    fn put(&mut self, line: std::fmt::Arguments) {
        let _ = writeln!(self.text, "{line}");
    }
}

/// A text without the characters that mean something in SVG, or that may not stand in it.
pub fn escaped(text: &str) -> String {
    let mut safe = String::with_capacity(text.len());
    for letter in text.chars() {
        match letter {
            '&' => safe.push_str("&amp;"),
            '<' => safe.push_str("&lt;"),
            '>' => safe.push_str("&gt;"),
            '"' => safe.push_str("&quot;"),
            letter if letter.is_control() || matches!(letter, '\u{fffe}' | '\u{ffff}') => safe.push('\u{fffd}'),
            letter => safe.push(letter),
        }
    }
    safe
}
