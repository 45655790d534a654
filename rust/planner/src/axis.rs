//! A logarithmic axis of a picture, for masses in units of 10^-18: thresholds and bounds.

/// An axis that falls along the page, from the decade `high` at the pixel `start` to the decade `low` at its end.
pub struct Axis {
    high: i32,
    low: i32,
    has_zero: bool,
    start: f64,
    length: f64,
}

/// The decades of all masses: one unit is 10^0, one whole 10^18.
const DECADES: [i32; 2] = [0, 18];

impl Axis {
    /// The axis of whole decades that has room for these masses. Where one of them is 0, its place is the lower end, one decade
    /// below the others.
    pub fn of(masses: &[u64], start: f64, length: f64) -> Axis {
        let [mut low, mut high] = decades_of(masses);
        if low == high {
            low = DECADES[0].max(low - 1);
            high = DECADES[1].min(high + 1);
        }
        let has_zero = masses.contains(&0);
        Axis {
            high,
            low: low - i32::from(has_zero),
            has_zero,
            start,
            length,
        }
    }

    /// The pixel of a mass.
    pub fn at(&self, mass: u64) -> f64 {
        match mass {
            0 => self.at_decade(self.low),
            _ => self.along((mass as f64).log10()),
        }
    }

    /// The pixel of a decade.
    pub fn at_decade(&self, decade: i32) -> f64 {
        self.along(f64::from(decade))
    }

    fn along(&self, decades: f64) -> f64 {
        let all = f64::from(self.high - self.low);
        self.start + (f64::from(self.high) - decades) / all * self.length
    }

    /// The decades that are shown, the highest first, each with its pixel; none stands at the place of 0.
    pub fn decades(&self) -> Vec<(i32, f64)> {
        let last = self.low + i32::from(self.has_zero);
        let decades = (last..=self.high).rev();
        decades.map(|d| (d, self.at_decade(d))).collect()
    }

    /// The pixels of 2 to 9 times each decade but the highest, where few decades are shown.
    pub fn between(&self) -> Vec<f64> {
        let decades = self.decades();
        if decades.len() > 4 {
            return Vec::new();
        }
        let lower = decades.into_iter().skip(1);
        let times = |(decade, _)| (2..10).map(move |times| times * 10_u64.pow(decade as u32));
        lower.flat_map(times).map(|mass| self.at(mass)).collect()
    }

    /// The pixel of 0, where 0 is one of the masses.
    pub fn zero(&self) -> Option<f64> {
        self.has_zero.then(|| self.at(0))
    }
}

/// The decade at or below the smallest of the masses above 0, and the decade at or above the largest; all decades where there
/// is none.
fn decades_of(masses: &[u64]) -> [i32; 2] {
    let above = masses.iter().filter(|&&mass| mass > 0);
    let Some((least, most)) = above.clone().min().zip(above.max()) else {
        return DECADES;
    };
    let below = |mass: &u64| mass.ilog10();
    let part = u32::from(*most > 10_u64.pow(below(most)));
    [below(least) as i32, (below(most) + part) as i32]
}

#[cfg(test)]
mod tests {
    use account::WHOLE;

    use super::Axis;

    /// The decades that an axis shows, and whether it has a place for 0.
    fn shown(masses: &[u64]) -> (i32, i32, bool) {
        let axis = Axis::of(masses, 0.0, 100.0);
        let decades = axis.decades();
        assert_eq!(decades[0].1, 0.0, "the highest decade is the start");
        let (high, low) = (decades[0].0, decades[decades.len() - 1].0);
        (high, low, axis.zero().is_some())
    }

    #[test]
    fn whole_decades_around_the_masses() {
        for (masses, expected) in [
            (&[1_000, 10][..], (3, 1, false)),
            (&[1_001, 9], (4, 0, false)),
            (&[999, 11], (3, 1, false)),
            (&[1_000, 999], (3, 2, false)),
            (&[WHOLE, WHOLE - 1], (18, 17, false)),
            (&[0, 1_000, 10], (3, 1, true)),
            (&[1, 0], (1, 0, true)),
        ] {
            assert_eq!(shown(masses), expected, "{masses:?}");
        }
    }

    #[test]
    fn one_mass_or_none_above_0() {
        for (masses, expected) in [
            (&[1_000][..], (4, 2, false)),
            (&[1_500], (4, 3, false)),
            (&[1], (1, 0, false)),
            (&[WHOLE, WHOLE], (18, 17, false)),
            (&[0], (18, 0, true)),
        ] {
            assert_eq!(shown(masses), expected, "{masses:?}");
        }
    }

    /// From 10^3 to 10^1, and one decade more for 0.
    #[test]
    fn pixels() {
        let axis = Axis::of(&[1_000, 10, 0], 50.0, 300.0);
        let places = [1_000, 100, 10, 0].map(|mass| axis.at(mass));
        assert_eq!(places, [50.0, 150.0, 250.0, 350.0]);
        assert_eq!(axis.zero(), Some(350.0));
        assert_eq!(axis.decades(), [(3, 50.0), (2, 150.0), (1, 250.0)]);
    }
}
