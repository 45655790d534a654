//! The walk of a listing in steps, so that a person who waits sees how far it is.

use std::io::Write;

use account::panel::Quota;
use conformance::proved::Walk;
use plans::Lists;

/// The ends of one step of the walk.
const STEP: u64 = 10_000;

/// A line of a terminal that is written again and again, from the second step of a walk on, and cleared at the end. It goes
/// nowhere where there is no terminal.
pub struct Progress<'a> {
    to: Option<&'a mut dyn Write>,
    steps: u64,
    width: usize,
}

impl<'a> Progress<'a> {
    /// Progress that nobody sees.
    pub fn unseen() -> Progress<'a> {
        Progress {
            to: None,
            steps: 0,
            width: 0,
        }
    }

    /// Progress on a terminal.
    pub fn on(to: &'a mut dyn Write) -> Progress<'a> {
        Progress {
            to: Some(to),
            ..Progress::unseen()
        }
    }

    /// One step more of the walk, after which so many ends are reached.
    fn step(&mut self, reached: u64, cap: u64) {
        self.steps += 1;
        self.write(&format!("{reached} ends reached of at most {cap}"));
    }

    /// After the walk, the search for a scenario that cuts one of so many pairs.
    pub fn pair(&mut self, number: usize, pairs: usize) {
        self.write(&format!("a scenario for pair {number} of {pairs}"));
    }

    /// After the walk, the run with windows, which is no walk in steps.
    pub fn work(&mut self) {
        self.write("the run with planned work");
    }

    /// After the walk, the runs at the usual thresholds, which are one walk and not in steps.
    pub fn thresholds(&mut self) {
        self.write("the runs at ten thresholds");
    }

    /// Puts a text in place of the line. In the first step of a walk nothing is written: a short one has no other. A
    /// terminal that does not take the text is no fault of the listing.
    fn write(&mut self, text: &str) {
        if let (Some(to), 2..) = (&mut self.to, self.steps) {
            let _ = write!(to, "\r{text:<width$}", width = self.width);
            let _ = to.flush();
            self.width = text.len();
        }
    }

    /// Clears the line, if there is one, and goes back to its start.
    pub fn clear(&mut self) {
        if self.width > 0 {
            self.write("");
            self.write("");
        }
    }
}

/// The walk of a plan from its first end to its last, in steps, on a quota of its own; or the refusal's number.
pub fn whole_walk(lists: &Lists, progress: &mut Progress) -> Result<Walk, u32> {
    let mut quota = Quota::FULL.left;
    walk_in_steps(lists, &mut quota, STEP, progress)
}

/// The walk of a plan, begun and gone on with in steps of so many ends until it has ended, or the refusal's number.
fn walk_in_steps(
    lists: &Lists,
    quota: &mut u64,
    step: u64,
    progress: &mut Progress,
) -> Result<Walk, u32> {
    let mut walk = Walk::begin(lists)?;
    let mut reached = 0;
    loop {
        match walk.go_on(quota, step)? {
            0 => return Ok(walk),
            ends => reached += ends,
        }
        progress.step(reached, lists.header.cap);
    }
}

#[cfg(test)]
mod tests {
    use account::panel::Quota;
    use conformance::proved;
    use plans::examples::{mesh_64, triangle};
    use plans::valid::random_plan;
    use plans::{Lists, Rng};

    use super::{walk_in_steps, Progress};

    /// What a walk in steps writes on its line, and its answer: the quota that is left, or the number.
    fn written(lists: &Lists, quota: u64, step: u64) -> (String, Result<u64, u32>) {
        let (mut line, mut left) = (Vec::new(), quota);
        let mut progress = Progress::on(&mut line);
        let walk = walk_in_steps(lists, &mut left, step, &mut progress);
        progress.clear();
        let line = String::from_utf8(line).expect("a text");
        (line, walk.map(|_| left))
    }

    /// The triangle has 8 ends under its cap of 100.
    #[test]
    fn the_line_is_written_from_the_second_step_on_and_cleared() {
        let lists = Lists::of(&triangle());
        let line = |ends| format!("\r{ends} ends reached of at most 100");
        let cleared = format!("\r{:29}\r", "");
        let threes = line(6) + &line(8) + &cleared;
        assert_eq!(written(&lists, 100, 3), (threes, Ok(92)));
        let fours = line(8) + &cleared;
        assert_eq!(written(&lists, 100, 4), (fours, Ok(92)));
        for step in [8, 9, u64::MAX] {
            assert_eq!(written(&lists, 100, step), (String::new(), Ok(92)));
        }
    }

    #[test]
    fn an_empty_quota_is_told_by_its_number() {
        let lists = Lists::of(&triangle());
        assert_eq!(written(&lists, 0, 3), (String::new(), Err(19)));
        let (line, answer) = written(&lists, 7, 3);
        assert_eq!(answer, Err(19));
        assert!(line.contains("\r7 ends reached") && line.ends_with(" \r"));
        assert_eq!(written(&lists, 8, 3).1, Ok(0));
    }

    #[test]
    fn a_refused_plan_is_told_by_its_number() {
        let mut lists = Lists::of(&triangle());
        lists.header.cap = 0;
        assert_eq!(written(&lists, 100, 3), (String::new(), Err(6)));
    }

    /// 524,288 ends in steps of 10,000: all lines but that of the first step, the last one with all ends.
    #[test]
    fn the_lines_of_a_long_walk() {
        let (text, left) = written(&Lists::of(&mesh_64()), Quota::FULL.left, 10_000);
        assert_eq!(left, Ok(10_000_000 - 524_288));
        let lines: Vec<&str> = text.split('\r').collect();
        let told: Vec<&str> = lines.into_iter().filter(|l| l.contains("ends")).collect();
        assert_eq!(told.len(), 52);
        assert_eq!(told[0], "20000 ends reached of at most 1000000");
        assert_eq!(told[51], "524288 ends reached of at most 1000000");
    }

    #[test]
    fn the_figures_are_those_of_the_run() {
        let mut rng = Rng::for_stream(75);
        for _ in 0..300 {
            let lists = Lists::of(&random_plan(&mut rng));
            let step = rng.pick(&[1, 10, 1_000]);
            let mut quota = Quota::FULL.left;
            let walk = walk_in_steps(&lists, &mut quota, step, &mut Progress::unseen());
            let walk = walk.expect("a plan that meets no refusal");
            assert_eq!((walk.look(), walk.bounds()), proved::run(&lists));
        }
    }
}
