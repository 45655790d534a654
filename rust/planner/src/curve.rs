//! The two curves of a picture: how the lower and the upper bound are drawn.

use account::bounds::Bounds;

use crate::svg::line;

/// A curve: the bound that it shows, its line and its marks.
pub struct Curve {
    pub name: &'static str,
    pub bound: fn(&Bounds) -> u64,
    pub colour: &'static str,
    pub width: f64,
    shape: fn(f64, f64) -> String,
}

/// The curves in the order in which they are drawn. The line and the marks of the lower bound are the larger ones, so that
/// they are seen where the upper bound is the same.
pub const CURVES: [&Curve; 2] = [&LOWER, &UPPER];

pub const LOWER: Curve = Curve {
    name: "lower bound",
    bound: |bounds| bounds.lower,
    colour: "#5b8fd0",
    width: 4.0,
    shape: |x, y| {
        let (x, y) = (x - 5.5, y - 5.5);
        format!("rect x=\"{x:.1}\" y=\"{y:.1}\" width=\"11\" height=\"11\"")
    },
};

pub const UPPER: Curve = Curve {
    name: "upper bound",
    bound: |bounds| bounds.upper,
    colour: "#a01c1c",
    width: 1.5,
    shape: |x, y| format!("circle cx=\"{x:.1}\" cy=\"{y:.1}\" r=\"3.5\""),
};

impl Curve {
    /// A mark at a place: filled where the walk is complete, hollow where it is not.
    pub fn mark(&self, [x, y]: [f64; 2], complete: bool) -> String {
        let (shape, colour) = ((self.shape)(x, y), self.colour);
        let fill = if complete { colour } else { "white" };
        format!("<{shape} fill=\"{fill}\" stroke=\"{colour}\" stroke-width=\"1.5\"/>\n")
    }

    /// A piece of the line, to the right of a place.
    pub fn piece(&self, [x, y]: [f64; 2], length: f64) -> String {
        let piece = line([x, y], [x + length, y]);
        let Curve { colour, width, .. } = self;
        format!("<g stroke=\"{colour}\" stroke-width=\"{width}\">\n{piece}</g>\n")
    }
}
