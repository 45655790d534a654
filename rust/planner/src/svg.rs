//! Elements of an SVG file, as text.

/// A text between marks. What XML takes for its own is escaped; a character that it does not allow is replaced.
pub fn escaped(text: &str) -> String {
    let mut escaped = String::new();
    for character in text.chars() {
        match character {
            '&' => escaped += "&amp;",
            '<' => escaped += "&lt;",
            '>' => escaped += "&gt;",
            '\u{fffe}' | '\u{ffff}' => escaped.push('\u{fffd}'),
            other if other.is_control() => escaped.push('\u{fffd}'),
            other => escaped.push(other),
        }
    }
    escaped
}

/// A text of at most so many characters: of a longer one the middle is left out.
pub fn short(text: &str, most: usize) -> String {
    let characters: Vec<char> = text.chars().collect();
    if characters.len() <= most {
        return text.to_string();
    }
    let first = (most - 1) / 2;
    let last = characters.len() - (most - 1 - first);
    let kept = [&characters[..first], &['…'], &characters[last..]];
    kept.concat().into_iter().collect()
}

/// A power of ten, its exponent raised.
pub fn power(exponent: i32) -> String {
    match exponent {
        0 => "1".to_string(),
        1 => "10".to_string(),
        _ => {
            let exponent = exponent.to_string().replace('-', "\u{2212}");
            format!("10<tspan dy=\"-5\" font-size=\"9\">{exponent}</tspan>")
        }
    }
}

/// A group of elements with attributes in common.
pub fn group(attributes: &str, elements: &str) -> String {
    format!("<g {attributes}>\n{elements}</g>\n")
}

/// A text at a place; what it says stands as it is in the file.
pub fn text(x: f64, y: f64, said: &str) -> String {
    format!("<text x=\"{x:.1}\" y=\"{y:.1}\">{said}</text>\n")
}

/// A text that runs upwards, its middle at a place.
pub fn upwards(x: f64, y: f64, said: &str) -> String {
    format!("<text transform=\"translate({x:.1} {y:.1}) rotate(-90)\">{said}</text>\n")
}

/// A line between two places.
pub fn line([x1, y1]: [f64; 2], [x2, y2]: [f64; 2]) -> String {
    format!("<line x1=\"{x1:.1}\" y1=\"{y1:.1}\" x2=\"{x2:.1}\" y2=\"{y2:.1}\"/>\n")
}

/// Places as the points of a line or an area.
pub fn points(places: impl IntoIterator<Item = [f64; 2]>) -> String {
    let places = places.into_iter();
    let places: Vec<String> = places.map(|[x, y]| format!("{x:.1},{y:.1}")).collect();
    places.join(" ")
}
