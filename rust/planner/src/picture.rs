//! The picture of a pair's two bounds over thresholds, both axes logarithmic, as the text of an SVG file.
//!
//! Thresholds fall to the right, in the order of the rows: further to the right the walk leaves less out, and takes longer.

use account::bounds::Bounds;

use crate::asked::Drawing;
use crate::axis::Axis;
use crate::curve::{Curve, CURVES, LOWER, UPPER};
use crate::frame::{frame, legend, HEIGHT, LEFT, MARGIN, TOP, WIDTH};
use crate::named::Named;
use crate::svg::{escaped, group, points, text};
use crate::table::share;
use crate::thresholds::AtThreshold;

/// A pair at one threshold.
struct Point {
    threshold: u64,
    complete: bool,
    bounds: Bounds,
}

/// The points of a pair, by falling threshold, and the two axes that have room for them.
struct Plot {
    points: Vec<Point>,
    x: Axis,
    y: Axis,
}

/// The place, in the order of pairs, of the pair that is drawn: the two nodes that are named, or else the worst pair at the
/// threshold with the smallest gap, of equal ones the lowest.
pub fn drawn_pair(named: &Named, drawing: &Drawing, all: &[AtThreshold]) -> Result<usize, String> {
    let place = match drawing.nodes {
        None => narrowest(all).and_then(AtThreshold::worst),
        Some([first, second]) => {
            let (a, b) = (named.node(first)?, named.node(second)?);
            let pair = (a.min(b), a.max(b));
            named.plan.pairs().iter().position(|&other| other == pair)
        }
    };
    place.ok_or_else(|| "--svg: expected a plan with two nodes to draw; found one".to_string())
}

/// What the threshold with the smallest gap gives, of equal ones the lowest: the gap is 1 less E, and thresholds fall.
fn narrowest(all: &[AtThreshold]) -> Option<&AtThreshold> {
    all.iter().max_by_key(|at| at.outcome.mass)
}

/// The picture of the pair at a place in the order of pairs. The file that the plan came from is named in it.
pub fn picture(from: &str, named: &Named, place: usize, all: &[AtThreshold]) -> String {
    let (v, w) = named.plan.pairs()[place];
    let pair = [&named.nodes[v], &named.nodes[w]].map(String::as_str);
    let plot = Plot::of(place, all);
    let complete = plot.points.iter().all(|point| point.complete);
    let parts = [
        frame(from, pair, named.plan.cap, &plot.x, &plot.y),
        plot.between(),
        plot.curve(&LOWER),
        plot.curve(&UPPER),
        plot.marks(),
        plot.zeros(),
        legend(complete),
    ];
    let said = format!("{} and {} in {from}", pair[0], pair[1]);
    format!(
        "<svg xmlns=\"http://www.w3.org/2000/svg\" viewBox=\"0 0 960 600\" width=\"960\" height=\"600\" \
         font-family=\"sans-serif\" font-size=\"12\">\n<title>{}</title>\n{}</svg>\n",
        escaped(&said),
        parts.concat()
    )
}

impl Plot {
    fn of(place: usize, all: &[AtThreshold]) -> Plot {
        let point = |at: &AtThreshold| Point {
            threshold: at.threshold,
            complete: at.outcome.complete == 1,
            bounds: at.bounds[place],
        };
        let points: Vec<Point> = all.iter().map(point).collect();
        let thresholds: Vec<u64> = points.iter().map(|point| point.threshold).collect();
        let bounds = points.iter().map(|point| &point.bounds);
        let bounds: Vec<u64> = bounds.flat_map(|two| [two.lower, two.upper]).collect();
        Plot {
            points,
            x: Axis::of(&thresholds, LEFT + MARGIN, WIDTH - 2.0 * MARGIN),
            y: Axis::of(&bounds, TOP, HEIGHT),
        }
    }

    /// The place of a point on a curve.
    fn place(&self, point: &Point, curve: &Curve) -> [f64; 2] {
        let bound = (curve.bound)(&point.bounds);
        [self.x.at(point.threshold), self.y.at(bound)]
    }

    fn places<'a>(&'a self, curve: &'a Curve) -> impl DoubleEndedIterator<Item = [f64; 2]> + 'a {
        self.points.iter().map(|point| self.place(point, curve))
    }

    /// The area between the two curves.
    fn between(&self) -> String {
        let around = self.places(&LOWER).chain(self.places(&UPPER).rev());
        format!(
            "<polygon points=\"{}\" fill=\"#e0d5b0\" fill-opacity=\"0.5\"/>\n",
            points(around)
        )
    }

    fn curve(&self, curve: &Curve) -> String {
        let Curve { colour, width, .. } = curve;
        let points = points(self.places(curve));
        format!("<polyline points=\"{points}\" fill=\"none\" stroke=\"{colour}\" stroke-width=\"{width}\"/>\n")
    }

    /// The marks of each threshold. The numbers behind them are shown where a pointer rests on them.
    fn marks(&self) -> String {
        let marks = |point: &Point| {
            let Bounds { lower, upper } = point.bounds;
            let (threshold, complete) = (point.threshold, u64::from(point.complete));
            let (lower, upper) = (share(lower), share(upper));
            let marks = CURVES.map(|curve| curve.mark(self.place(point, curve), point.complete));
            format!(
                "<g>\n<title>threshold {threshold}: lower {lower}, upper {upper}, complete {complete}</title>\n{}</g>\n",
                marks.concat()
            )
        };
        self.points.iter().map(marks).collect()
    }

    /// A 0 above the mark of each lower bound that is 0, but one alone for marks that lie over each other. Where an upper bound
    /// is 0, the lower one is too.
    fn zeros(&self) -> String {
        let (mut zeros, mut last) = (String::new(), 0.0);
        for point in self.points.iter().filter(|point| point.bounds.lower == 0) {
            let [x, y] = self.place(point, &LOWER);
            if x - last > 9.0 {
                zeros += &text(x, y - 9.0, "0");
                last = x;
            }
        }
        let halo = "stroke=\"white\" stroke-width=\"3\" paint-order=\"stroke\"";
        group(
            &format!("text-anchor=\"middle\" font-weight=\"bold\" {halo}"),
            &zeros,
        )
    }
}
