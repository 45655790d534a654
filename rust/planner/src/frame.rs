//! What stands around the curves of a picture: its title, its grid with the decades, and its legend.

use crate::axis::Axis;
use crate::curve::{CURVES, LOWER, UPPER};
use crate::svg::{escaped, group, line, power, short, text, upwards};

/// The place of the plot in the picture. Thresholds keep a margin to its sides.
pub const LEFT: f64 = 80.0;
pub const TOP: f64 = 80.0;
pub const WIDTH: f64 = 760.0;
pub const HEIGHT: f64 = 400.0;
pub const MARGIN: f64 = 20.0;

const RIGHT: f64 = LEFT + WIDTH;
const BOTTOM: f64 = TOP + HEIGHT;

/// What 10^-18, 10^-17 and so on up to 1 of a year of 365 days are, to three digits or more.
const OF_A_YEAR: [&str; 19] = [
    "31.5 ps",
    "315 ps",
    "3.15 ns",
    "31.5 ns",
    "315 ns",
    "3.15 µs",
    "31.5 µs",
    "315 µs",
    "3.15 ms",
    "31.5 ms",
    "0.315 s",
    "3.15 s",
    "31.5 s",
    "315 s",
    "3154 s",
    "31536 s",
    "315360 s",
    "3153600 s",
    "31536000 s",
];

/// The most characters that are shown of a name and of a path, so that wide ones have room too.
const NAME: usize = 24;
const PATH: usize = 60;

/// The picture without its curves.
pub fn frame(from: &str, pair: [&str; 2], cap: u64, x: &Axis, y: &Axis) -> String {
    let background = "<rect width=\"960\" height=\"600\" fill=\"white\"/>\n";
    [
        background.to_string(),
        head(from, pair, cap),
        grid(x, y),
        thresholds(x),
        shares(y),
        seconds(y),
    ]
    .concat()
}

fn head(from: &str, pair: [&str; 2], cap: u64) -> String {
    let [first, second] = pair.map(|name| escaped(&short(name, NAME)));
    let title = text(LEFT, 34.0, &format!("{first} and {second}"));
    let from = escaped(&short(from, PATH));
    let below = text(LEFT, 58.0, &format!("{from}, cap {cap}"));
    group("font-size=\"16\" font-weight=\"bold\"", &title) + &group("font-size=\"13\"", &below)
}

/// A line for each decade, lighter ones between the decades where there are few, and the edges of the plot.
fn grid(x: &Axis, y: &Axis) -> String {
    let across = |y: f64| line([LEFT, y], [RIGHT, y]);
    let down = |x: f64| line([x, TOP], [x, BOTTOM]);
    let lines = |xs: Vec<f64>, ys: Vec<f64>| -> String {
        let across = ys.into_iter().map(across);
        across.chain(xs.into_iter().map(down)).collect()
    };
    let decades = |axis: &Axis| axis.decades().into_iter().map(|(_, at)| at).collect();
    let edges = line([LEFT, TOP], [LEFT, BOTTOM]) + &line([LEFT, BOTTOM], [RIGHT, BOTTOM]);
    group("stroke=\"#eeeeee\"", &lines(x.between(), y.between()))
        + &group("stroke=\"#cccccc\"", &lines(decades(x), decades(y)))
        + &group("stroke=\"black\"", &edges)
}

fn thresholds(x: &Axis) -> String {
    let label = |(decade, x)| text(x, BOTTOM + 22.0, &power(decade));
    let labels: String = x.decades().into_iter().map(label).collect();
    let said = format!(
        "threshold, falling to the right, in units of {}",
        power(-18)
    );
    let said = text(LEFT + WIDTH / 2.0, BOTTOM + 48.0, &said);
    group("text-anchor=\"middle\"", &(labels + &said))
}

fn shares(y: &Axis) -> String {
    let label = |(decade, y): (i32, f64)| text(LEFT - 10.0, y + 4.0, &power(decade - 18));
    let labels: String = y.decades().into_iter().map(label).collect();
    let zero = y.zero().map(|y| text(LEFT - 10.0, y + 4.0, "0"));
    let said = upwards(
        24.0,
        TOP + HEIGHT / 2.0,
        "share of time that the two are cut off",
    );
    group("text-anchor=\"end\"", &(labels + &zero.unwrap_or_default()))
        + &group("text-anchor=\"middle\"", &said)
}

fn seconds(y: &Axis) -> String {
    let label = |(decade, y): (i32, f64)| text(RIGHT + 10.0, y + 4.0, OF_A_YEAR[decade as usize]);
    let labels: String = y.decades().into_iter().map(label).collect();
    let said = upwards(948.0, TOP + HEIGHT / 2.0, "time in a year of 365 days");
    group("fill=\"#555555\"", &labels) + &group("fill=\"#555555\" text-anchor=\"middle\"", &said)
}

/// What lines and marks are; hollow marks are explained where there are some.
pub fn legend(complete: bool) -> String {
    let (y, mut all) = (BOTTOM + 78.0, String::new());
    for (i, curve) in CURVES.iter().rev().enumerate() {
        let x = LEFT + 140.0 * i as f64;
        all += &curve.piece([x, y], 30.0);
        all += &curve.mark([x + 15.0, y], true);
        all += &text(x + 38.0, y + 4.0, curve.name);
    }
    if !complete {
        let x = LEFT + 280.0;
        all += &UPPER.mark([x, y], false);
        all += &LOWER.mark([x + 15.0, y], false);
        all += &text(
            x + 28.0,
            y + 4.0,
            "hollow: complete 0, the walk stopped at the cap",
        );
    }
    all + &text(
        LEFT,
        y + 28.0,
        "At each threshold the exact share lies between the two bounds. Lines between marks only lead the eye.",
    )
}

#[cfg(test)]
mod tests {
    use super::OF_A_YEAR;

    /// A year of 365 days has 31,536,000 seconds.
    #[test]
    fn shares_of_a_year() {
        for (decade, label) in OF_A_YEAR.iter().enumerate() {
            let (number, unit) = label.split_once(' ').expect("a number and its unit");
            let unit = match unit {
                "s" => 1.0,
                "ms" => 1e-3,
                "µs" => 1e-6,
                "ns" => 1e-9,
                "ps" => 1e-12,
                other => panic!("{other}"),
            };
            let shown: f64 = number.parse::<f64>().expect("a number") * unit;
            let exact = 31_536_000.0 * 10_f64.powi(decade as i32 - 18);
            assert!((shown / exact - 1.0).abs() < 0.002, "{label}: {exact}");
        }
    }
}
