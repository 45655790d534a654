//! Standard output and standard error that are closed, full or read in part: no call panics.

use crate::{shell, Call};

/// What a call does that ends with a status of its own, never with that of a panic.
#[track_caller]
fn ended(script: &str) -> Call {
    let call = shell(script, &[]);
    assert!(call.status <= 2, "{script}: {} {}", call.status, call.err);
    assert!(!call.err.contains("panicked"), "{script}: {}", call.err);
    call
}

/// Calls that print, and that tell of windows besides; each ends with 0.
const PRINTING: [&str; 4] = [
    "--help",
    "--version",
    "listing ring-shared-duct.txt",
    "bounds ring-duct-opened.txt",
];

/// Calls that tell what is wrong, with the status of each.
const TELLING: [(&str, i32); 4] = [
    ("lsiting", 2),
    ("listing", 2),
    ("listing absent.txt", 2),
    ("listing refused-rising-probability.plan", 1),
];

#[test]
fn a_full_output() {
    for words in PRINTING {
        let call = ended(&format!("planner {words} >/dev/full"));
        let told = "planner: standard output: No space left on device (os error 28)\n";
        assert_eq!(call.status, 2, "{words}");
        assert!(call.err.ends_with(told), "{words}: {}", call.err);
        let call = ended(&format!("planner {words} >/dev/full 2>&1"));
        assert_eq!((call.status, call.err.as_str()), (2, ""), "{words}");
    }
}

#[test]
fn a_full_or_closed_error() {
    for error in ["2>/dev/full", "2>&-"] {
        for words in PRINTING {
            let call = ended(&format!("planner {words} {error}"));
            assert_eq!(call.status, 0, "{words} {error}");
            let out = shell(&format!("planner {words} 2>/dev/null"), &[]).out;
            assert!(!out.is_empty() && call.out == out, "{words} {error}");
        }
        for (words, status) in TELLING {
            let call = ended(&format!("planner {words} {error}"));
            assert_eq!((call.status, call.out.as_str()), (status, ""), "{words}");
        }
    }
}

#[test]
fn a_closed_output() {
    for words in PRINTING {
        ended(&format!("planner {words} >&-"));
        ended(&format!("planner {words} >&- 2>&-"));
        ended(&format!("planner {words} <&- >&- 2>&-"));
    }
    for (words, status) in TELLING {
        assert_eq!(ended(&format!("planner {words} >&-")).status, status);
        assert_eq!(
            ended(&format!("planner {words} <&- >&- 2>&-")).status,
            status
        );
    }
}

/// A reader that stops early is no fault. What is printed is longer than a pipe takes at once.
#[test]
fn a_reader_that_stops_early() {
    let long = "planner listing mesh-64-nodes-19-events.plan --at Mon 00:00";
    assert!(ended(long).out.len() > 1 << 16);
    let call = ended(&format!("{{ {long}; echo \"$?\" >&2; }} | head -n 1"));
    assert_eq!((call.status, call.told().as_str()), (0, "0\n"));
    assert!(call.out.starts_with("64 nodes, "), "{}", call.out);
    let call = ended(&format!("{{ {long}; echo \"$?\" >&2; }} | :"));
    assert_eq!((call.out.as_str(), call.told().as_str()), ("", "0\n"));
}
