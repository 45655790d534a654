//! The examples: each text gives its plan file and its sheet, and each listing is the account's and the proved run's.

use std::path::{Path, PathBuf};

use conformance::proved;
use planner::{parse, parse_sheet};
use plans::examples::{files_with, folder};
use plans::Lists;

/// The texts of the folder `examples/`.
fn texts() -> Vec<PathBuf> {
    let texts = files_with("txt");
    assert!(texts.len() >= 5, "the texts of the folder examples/");
    texts
}

fn bytes_of(path: &Path) -> Vec<u8> {
    std::fs::read(path).unwrap_or_else(|error| panic!("{}: {error}", path.display()))
}

#[test]
fn each_text_gives_its_plan_file() {
    for path in texts() {
        let text = String::from_utf8(bytes_of(&path)).expect("a text");
        let named = parse(&text).unwrap_or_else(|fault| panic!("{}: {fault}", path.display()));
        let bytes = proved::write(&Lists::of(&named.plan)).expect("a plan that meets no refusal");
        let same = bytes == bytes_of(&path.with_extension("plan"));
        assert!(same, "{} and its plan file differ", path.display());
    }
}

#[test]
fn each_sheet_is_that_of_its_text_and_gives_the_events_of_its_plan() {
    let sheets = files_with("sheet");
    assert!(!sheets.is_empty(), "the sheets of the folder examples/");
    for path in sheets {
        let bytes = bytes_of(&path);
        let text = String::from_utf8(bytes_of(&path.with_extension("txt"))).expect("a text");
        let said = parse_sheet(&text).expect("a text that says a sheet");
        assert!(account::sheet::layout(&said) == bytes, "{}", path.display());
        let plan = account::file::parse(&bytes_of(&path.with_extension("plan")));
        let events = plan.expect("a plan").events;
        let own = account::sheet::parse(&bytes).expect("a sheet").events();
        assert_eq!(own, events, "the account: {}", path.display());
        let proved = proved::read_sheet(&bytes).expect("a sheet").events;
        assert_eq!(proved, events, "the proved reader: {}", path.display());
    }
}

#[test]
fn each_listing_is_the_accounts_and_the_proved_runs() {
    for path in texts() {
        let plan = bytes_of(&path.with_extension("plan"));
        let text = String::from_utf8(bytes_of(&path.with_extension("listing"))).expect("a text");
        assert!(
            text == account::listing::listing(&plan),
            "the account: {}",
            path.display()
        );
        assert!(
            text == proved::listing(&plan),
            "the proved run: {}",
            path.display()
        );
    }
}

#[test]
fn the_readme_shows_the_triangle() {
    let readme = std::fs::read_to_string(folder().join("../README.md")).expect("the README");
    let text = std::fs::read_to_string(folder().join("triangle.txt")).expect("the triangle");
    let indented = |line: &str| match line {
        "" => String::new(),
        _ => format!("    {line}"),
    };
    let shown: Vec<String> = text.lines().map(indented).collect();
    assert!(readme.contains(&shown.join("\n")), "the text in the README");
    let listing = account::listing::listing(&bytes_of(&folder().join("triangle.plan")));
    let shown: Vec<String> = listing.lines().map(indented).collect();
    assert!(
        readme.contains(&shown.join("\n")),
        "the listing in the README"
    );
}

#[test]
fn the_tables_of_the_rings_have_the_bounds_and_the_seconds() {
    let page = std::fs::read_to_string(folder().join("README.md")).expect("the page");
    let page = page.replace(',', "");
    for (name, pair) in [
        ("ring-separate", "0 3 "),
        ("ring-shared-duct", "0 3 "),
        ("equipment-ring", "0 2 "),
    ] {
        let listing = account::listing::listing(&bytes_of(&folder().join(format!("{name}.plan"))));
        let bounds = listing.lines().find_map(|line| line.strip_prefix(pair));
        let numbers = bounds.expect("the pair").split(' ');
        let bounds: Vec<u64> = numbers.map(|n| n.parse().expect("a bound")).collect();
        let seconds = account::readings::downtime(bounds[0], bounds[1]).expect("bounds");
        let row = format!(
            "| `{name}` | {} | {} | {} |",
            bounds[0], bounds[1], seconds.1
        );
        assert!(page.contains(&row), "{row}");
    }
}
