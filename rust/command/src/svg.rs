//! Pictures: the few shapes of SVG that the command draws.

use std::fmt::Write;

/// Colours that people who are colour-blind can tell apart.
pub mod colour {
    /// Text and lines.
    pub const INK: &str = "#222222";
    /// Text of less weight, and guiding lines.
    pub const GREY: &str = "#767676";
    /// A filled cell, where cells are told apart a measured one.
    pub const FILLED: &str = "#cfe3f2";
    /// A worked-out cell.
    pub const WORKED_OUT: &str = "#5b9bd5";
    /// A gap.
    pub const GAP: &str = "#d55e00";
    /// Guiding lines.
    pub const GUIDE: &str = "#d5d5d5";
    /// The hops of a chain.
    pub const HOP: &str = "#a8a8a8";
    /// The messages of remote writes.
    pub const REMOTE: &str = "#a0306e";
    /// One for each round; six are more than a plan has.
    pub const ROUNDS: [&str; 6] = [
        "#0072b2", "#b35900", "#007a5a", "#9c4f86", "#6b5b00", "#222222",
    ];
}

/// Where a text stands beside its point.
#[derive(Clone, Copy, Debug)]
pub enum Anchor {
    /// The point is at its start.
    Start,
    /// The point is in its middle.
    Middle,
    /// The point is at its end.
    End,
}

/// A picture that grows.
#[derive(Debug, Default)]
pub struct Picture {
    shapes: String,
    width: usize,
    height: usize,
}

impl Picture {
    /// Makes room up to this point.
    pub fn reach(&mut self, x: usize, y: usize) {
        self.width = self.width.max(x);
        self.height = self.height.max(y);
    }

    fn shape(&mut self, shape: &str) {
        self.shapes += shape;
        self.shapes.push('\n');
    }

    /// What is drawn until [`Picture::close`] belongs to a round.
    pub fn open_round(&mut self, round: u8) {
        self.shape(&format!(r#"<g data-round="{round}">"#));
    }

    /// Ends what belongs to a round.
    pub fn close(&mut self) {
        self.shape("</g>");
    }

    /// A rectangle.
    pub fn rectangle(&mut self, x: usize, y: usize, width: usize, height: usize, fill: &str) {
        self.shape(&format!(
            r#"<rect x="{x}" y="{y}" width="{width}" height="{height}" fill="{fill}"/>"#
        ));
    }

    /// A text of this size; its point is on its base line.
    pub fn text(
        &mut self,
        (x, y): (usize, usize),
        anchor: Anchor,
        look: (usize, &str),
        text: &str,
    ) {
        let anchor = match anchor {
            Anchor::Start => "start",
            Anchor::Middle => "middle",
            Anchor::End => "end",
        };
        let (size, fill) = look;
        let text = escaped(text);
        self.shape(&format!(
            r#"<text x="{x}" y="{y}" font-size="{size}" text-anchor="{anchor}" fill="{fill}">{text}</text>"#
        ));
    }

    /// A straight line.
    pub fn line(&mut self, from: (usize, usize), to: (usize, usize), stroke: &str, width: &str) {
        let ((x1, y1), (x2, y2)) = (from, to);
        self.shape(&format!(
            r#"<line x1="{x1}" y1="{y1}" x2="{x2}" y2="{y2}" stroke="{stroke}" stroke-width="{width}"/>"#
        ));
    }

    /// A level arrow.
    pub fn arrow(&mut self, y: usize, from: usize, to: usize, stroke: &str) {
        self.arrow_with(y, from, to, stroke, "2");
    }

    /// A level arrow with a dashed shaft.
    pub fn dashed_arrow(&mut self, y: usize, from: usize, to: usize, stroke: &str) {
        self.arrow_with(y, from, to, stroke, r#"2" stroke-dasharray="6 4"#);
    }

    fn arrow_with(&mut self, y: usize, from: usize, to: usize, stroke: &str, width: &str) {
        let (back, shaft) = if from < to {
            (to - 9, to - 8)
        } else {
            (to + 9, to + 8)
        };
        self.line((from, y), (shaft, y), stroke, width);
        let (above, below) = (y - 5, y + 5);
        self.path(&format!("M{to} {y}L{back} {above}L{back} {below}Z"), stroke);
    }

    /// A circle with an edge.
    pub fn circle(&mut self, (x, y): (usize, usize), radius: usize, fill: &str, stroke: &str) {
        self.shape(&format!(
            r#"<circle cx="{x}" cy="{y}" r="{radius}" fill="{fill}" stroke="{stroke}"/>"#
        ));
    }

    /// A filled outline.
    pub fn path(&mut self, outline: &str, fill: &str) {
        self.shape(&format!(r#"<path d="{outline}" fill="{fill}"/>"#));
    }

    /// The file.
    pub fn print(&self, title: &str) -> String {
        let (width, height) = (self.width, self.height);
        let mut file = String::new();
        let _ = writeln!(
            file,
            "<svg xmlns=\"http://www.w3.org/2000/svg\" width=\"{width}\" height=\"{height}\" \
             viewBox=\"0 0 {width} {height}\" font-family=\"DejaVu Sans, Verdana, sans-serif\">\n\
             <title>{}</title>\n\
             <rect x=\"0\" y=\"0\" width=\"{width}\" height=\"{height}\" fill=\"#ffffff\"/>",
            escaped(title)
        );
        file + &self.shapes + "</svg>\n"
    }
}

/// A text as HTML and SVG have it.
pub fn escaped(text: &str) -> String {
    text.replace('&', "&amp;").replace('<', "&lt;")
}
