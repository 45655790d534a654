//! Times of the week: a day and a time of the day, as minutes from Mon 00:00 on.

use std::fmt;

const DAYS: [&str; 7] = ["Mon", "Tue", "Wed", "Thu", "Fri", "Sat", "Sun"];

const DAY_MINUTES: u64 = 24 * 60;

/// Words that are no day or no time: what was expected in their place.
#[derive(Debug, PartialEq, Eq)]
pub struct Wrong {
    pub expected: String,
    pub found: String,
}

impl fmt::Display for Wrong {
    fn fmt(&self, out: &mut fmt::Formatter) -> fmt::Result {
        write!(out, "expected {}; found {}", self.expected, self.found)
    }
}

/// The minute of a day and a time from 00:00 to 23:59: 0 to 10,079.
pub fn minute(day: &str, time: &str) -> Result<u64, Wrong> {
    up_to(day, time, DAY_MINUTES - 1)
}

/// The minute at which a window ends: a time may be 24:00 too, so that Sun 24:00, 10,080, is the end of the week.
pub fn end(day: &str, time: &str) -> Result<u64, Wrong> {
    up_to(day, time, DAY_MINUTES)
}

/// The minute of a text such as `Tue 14:30`.
pub fn minute_of(text: &str) -> Result<u64, Wrong> {
    let words: Vec<&str> = text.split_whitespace().collect();
    match words[..] {
        [day, time] => minute(day, time),
        ref words => Err(Wrong {
            expected: "a day and a time, as in 'Tue 14:30'".to_string(),
            found: match words.is_empty() {
                true => "nothing".to_string(),
                false => format!("`{text}`"),
            },
        }),
    }
}

/// A minute as a day and a time.
pub fn shown(minute: u64) -> String {
    day_and_time(minute / DAY_MINUTES, minute % DAY_MINUTES)
}

/// The end of a window as a day and a time: midnight is 24:00 of the day that it ends.
pub fn shown_end(end: u64) -> String {
    let day = (end - 1) / DAY_MINUTES;
    day_and_time(day, end - day * DAY_MINUTES)
}

fn day_and_time(day: u64, minute: u64) -> String {
    format!(
        "{} {:02}:{:02}",
        DAYS[day as usize],
        minute / 60,
        minute % 60
    )
}

/// The minute of the week of a day and a time up to that minute of the day.
fn up_to(day: &str, time: &str, last: u64) -> Result<u64, Wrong> {
    let number = DAYS.iter().position(|&known| known == day);
    let number = number.ok_or_else(|| Wrong {
        expected: "a day: Mon, Tue, Wed, Thu, Fri, Sat or Sun".to_string(),
        found: format!("`{day}`"),
    })?;
    let within = minute_of_day(time).filter(|&minute| minute <= last);
    let of_day = within.ok_or_else(|| Wrong {
        expected: format!(
            "a time HH:MM from 00:00 to {:02}:{:02}",
            last / 60,
            last % 60
        ),
        found: format!("`{time}`"),
    })?;
    Ok(number as u64 * DAY_MINUTES + of_day)
}

/// The minute of the day of a time HH:MM.
fn minute_of_day(time: &str) -> Option<u64> {
    let (hours, minutes) = time.split_once(':')?;
    let (hours, minutes) = (two_digits(hours)?, two_digits(minutes)?);
    (minutes < 60).then_some(60 * hours + minutes)
}

fn two_digits(word: &str) -> Option<u64> {
    let digits = word.len() == 2 && word.bytes().all(|byte| byte.is_ascii_digit());
    word.parse().ok().filter(|_| digits)
}

#[cfg(test)]
mod tests {
    use super::{end, minute, minute_of, shown, shown_end, Wrong};

    /// 1,440 minutes a day: Tue 14:30 is 1,440 + 14 × 60 + 30.
    #[test]
    fn minutes_of_the_week() {
        for (text, expected) in [
            ("Mon 00:00", 0),
            ("Mon 00:01", 1),
            ("Mon 23:59", 1_439),
            ("Tue 00:00", 1_440),
            ("Tue 14:30", 2_310),
            ("Wed 08:00", 3_360),
            ("Thu 12:00", 5_040),
            ("Fri 09:09", 6_309),
            ("Sat 10:00", 7_800),
            ("Sun 23:59", 10_079),
        ] {
            assert_eq!(minute_of(text), Ok(expected), "{text}");
            assert_eq!(shown(expected), text);
        }
        assert_eq!(minute_of(" Tue  14:30 "), Ok(2_310));
    }

    #[test]
    fn ends_of_windows() {
        for (day, time, expected) in [
            ("Mon", "00:01", 1),
            ("Mon", "24:00", 1_440),
            ("Tue", "16:00", 2_400),
            ("Sun", "23:59", 10_079),
            ("Sun", "24:00", 10_080),
        ] {
            assert_eq!(end(day, time), Ok(expected), "{day} {time}");
            assert_eq!(shown_end(expected), format!("{day} {time}"));
        }
        assert_eq!(end("Mon", "00:00"), Ok(0));
        assert_eq!(end("Tue", "00:00"), end("Mon", "24:00"));
    }

    /// Each minute of the week, as a minute and as an end, comes back from what is shown for it.
    #[test]
    fn every_minute_comes_back() {
        for number in 0..10_080 {
            assert_eq!(minute_of(&shown(number)), Ok(number));
            let text = shown_end(number + 1);
            let (day, time) = text.split_once(' ').expect("two words");
            assert_eq!(end(day, time), Ok(number + 1), "{text}");
        }
    }

    fn wrong(expected: &str, found: &str) -> Result<u64, Wrong> {
        Err(Wrong {
            expected: expected.to_string(),
            found: found.to_string(),
        })
    }

    #[test]
    fn what_is_no_time_of_the_week() {
        let two_words = "a day and a time, as in 'Tue 14:30'";
        for text in ["Tue", "14:30", "Tue14:30", "Tue 14:30 15:00"] {
            assert_eq!(minute_of(text), wrong(two_words, &format!("`{text}`")));
        }
        for text in ["", " "] {
            assert_eq!(minute_of(text), wrong(two_words, "nothing"));
        }
        let day = "a day: Mon, Tue, Wed, Thu, Fri, Sat or Sun";
        for word in ["tue", "TUE", "Tuesday", "Di", "2", "14:30"] {
            let found = format!("`{word}`");
            assert_eq!(minute(word, "14:30"), wrong(day, &found));
            assert_eq!(end(word, "25:00"), wrong(day, &found));
        }
        let [time, last] =
            ["23:59", "24:00"].map(|last| format!("a time HH:MM from 00:00 to {last}"));
        for word in [
            "8:00", "08:0", "08:000", "0800", "08.00", "08:60", "24:01", "25:00", "99:99", "+8:00",
            "08:-1", "08:00:00", "0é:00", ":", "",
        ] {
            let found = format!("`{word}`");
            assert_eq!(minute("Tue", word), wrong(&time, &found));
            assert_eq!(end("Tue", word), wrong(&last, &found));
        }
        assert_eq!(minute("Sun", "24:00"), wrong(&time, "`24:00`"));
    }
}
