//! A small reader of XML: enough to tell whether a picture is well formed, and to find its elements.

/// Fails where a text is not well formed: one outermost element, each end the end of the last one open, every attribute in
/// quotes and given once, and no bare `&` or `<`.
#[track_caller]
pub fn well_formed(text: &str) {
    let mut open: Vec<&str> = Vec::new();
    let mut rest = text;
    while let Some((before, after)) = rest.split_once('<') {
        content(before);
        assert!(before.trim().is_empty() || !open.is_empty(), "{before}");
        let (tag, after) = after.split_once('>').expect("the end of a tag");
        match (tag.strip_prefix('/'), tag.strip_suffix('/')) {
            (Some(name), _) => assert_eq!(open.pop(), Some(name), "<{tag}>"),
            (None, Some(tag)) => attributes(tag),
            (None, None) => {
                attributes(tag);
                open.push(tag.split(' ').next().expect("a name"));
            }
        }
        rest = after;
        let ended = open.is_empty();
        assert!(!ended || rest.trim().is_empty(), "after the end: {rest}");
    }
    assert!(open.is_empty() && rest.trim().is_empty(), "{open:?} {rest}");
}

/// The text between tags, or the value of an attribute.
#[track_caller]
fn content(text: &str) {
    for after in text.split('&').skip(1) {
        let known = ["amp;", "lt;", "gt;", "quot;"];
        let escaped = known.iter().any(|name| after.starts_with(name));
        assert!(escaped, "a bare & in `{text}`");
    }
    assert!(!text.contains('<'), "a bare < in `{text}`");
    let allowed = |c: char| c == '\n' || !c.is_control() && !matches!(c, '\u{fffe}' | '\u{ffff}');
    assert!(text.chars().all(allowed), "{text:?}");
}

/// The attributes of a tag, after its name.
#[track_caller]
fn attributes(tag: &str) {
    let (name, mut rest) = tag.split_once(' ').unwrap_or((tag, ""));
    let letters = |name: &str| {
        !name.is_empty() && name.bytes().all(|b| b.is_ascii_alphanumeric() || b == b'-')
    };
    assert!(letters(name), "<{tag}>");
    let mut given = Vec::new();
    while !rest.is_empty() {
        let (name, after) = rest.split_once("=\"").expect("a value in quotes");
        let (value, after) = after.split_once('"').expect("the end of a value");
        assert!(letters(name) && !given.contains(&name), "{name} in <{tag}>");
        content(value);
        given.push(name);
        rest = after.strip_prefix(' ').unwrap_or(after);
    }
}

/// The tags of a kind, without their marks.
pub fn elements<'a>(text: &'a str, kind: &'a str) -> impl Iterator<Item = &'a str> {
    let tags = text.split('<').filter_map(|part| part.split('>').next());
    tags.filter(move |tag| tag.split(' ').next() == Some(kind))
}

/// The value of an attribute of a tag.
pub fn attribute<'a>(tag: &'a str, name: &str) -> Option<&'a str> {
    let start = format!(" {name}=\"");
    let (_, after) = tag.split_once(&start)?;
    after.split('"').next()
}

#[test]
fn what_is_not_well_formed_is_seen() {
    well_formed("<a b=\"1\" c=\"&lt;\">x &amp; y<d/><e></e></a>\n");
    for wrong in [
        "<a>",
        "</a>",
        "<a></b>",
        "<a><b></a></b>",
        "<a/><b/>",
        "<a>&</a>",
        "<a>&nbsp;</a>",
        "<a b=1/>",
        "<a b=\"1\" b=\"2\"/>",
        "<a b=\"&\"/>",
        "<a>\u{1}</a>",
        "x<a/>",
        "<a/>x",
    ] {
        let seen = std::panic::catch_unwind(|| well_formed(wrong));
        assert!(seen.is_err(), "{wrong}");
    }
}
