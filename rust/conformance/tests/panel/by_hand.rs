//! Answers that were worked out by hand; the account has no part in them.

use account::WHOLE;
use conformance::panel;
use plans::examples::{longest, triangle};
use plans::walks::{by_hand, lists_of_calls, row, still};

use crate::{all_bounds, begun, go_on, look, look_pair, same, walked, UNSET};

#[test]
fn looks() {
    for case in by_hand() {
        let mut state = begun(&case.plan);
        let mut quota = [10_000_000];
        for (ends, expected) in case.shown.iter().enumerate() {
            assert_eq!(look(&state), (0, expected.totals), "{}, {ends}", case.name);
            let bounds = all_bounds(&state, case.plan.nodes);
            assert_eq!(bounds, expected.bounds, "{}, {ends}", case.name);
            let more = u64::from(ends + 1 < case.shown.len());
            assert_eq!(go_on(&mut state, &mut quota, 1), (0, more), "{}", case.name);
        }
        assert_eq!(quota, [10_000_001 - case.shown.len() as u64]);
    }
}

/// Every number of ends in one go-on, by k and by the quota.
#[test]
fn looks_after_one_go_on() {
    for case in by_hand() {
        for (ends, expected) in case.shown.iter().enumerate() {
            let (mut by_k, mut by_quota) = (begun(&case.plan), begun(&case.plan));
            let ends = ends as u64;
            assert_eq!(go_on(&mut by_k, &mut [99], ends), (0, ends));
            let number = if ends == 0 { 19 } else { 0 };
            assert_eq!(go_on(&mut by_quota, &mut [ends], 99), (number, ends));
            for state in [by_k, by_quota] {
                assert_eq!(look(&state), (0, expected.totals), "{}", case.name);
                let bounds = all_bounds(&state, case.plan.nodes);
                assert_eq!(bounds, expected.bounds, "{}", case.name);
            }
        }
    }
}

#[test]
fn lists_of_calls_on_one_quota() {
    for list in lists_of_calls() {
        let mut walks: Vec<Vec<u64>> = list.plans.iter().map(begun).collect();
        let mut quota = [list.quota];
        for (i, call) in list.calls.iter().enumerate() {
            let before = walks.clone();
            let answer = go_on(&mut walks[call.walk], &mut quota, call.k);
            let expected = (call.number, call.reached);
            assert_eq!(answer, expected, "{}, call {i}", list.name);
            assert_eq!(quota, [call.left], "{}, call {i}", list.name);
            if call.reached == 0 {
                assert!(walks == before, "{}, call {i}: a walk moved", list.name);
            }
        }
    }
}

/// 19 with a quota of 0, none with 1; an empty list holds 0; only the first word of the list may change.
#[test]
fn the_quota_is_the_first_word_of_its_list() {
    let lists: [(&[u64], u32, &[u64]); 6] = [
        (&[], 19, &[]),
        (&[0], 19, &[0]),
        (&[1], 0, &[0]),
        (&[0, 7], 19, &[0, 7]),
        (&[2, 0, 9], 0, &[1, 0, 9]),
        (&[u64::MAX], 0, &[u64::MAX - 1]),
    ];
    for (before, number, after) in lists {
        let mut state = walked(&triangle(), 3);
        let mut quota = before.to_vec();
        let reached = u64::from(number == 0);
        assert_eq!(go_on(&mut state, &mut quota, 1), (number, reached));
        assert_eq!(quota, after);
        let expected = walked(&triangle(), 3 + reached);
        assert!(same(&state, &expected), "{before:?}");
    }
}

/// k = 0 and an ended walk come before 19, whether the walk ended by itself or at the plan's cap.
#[test]
fn nothing_is_asked_of_the_quota_where_nothing_is_reached() {
    let ended = [walked(&still(), 1), walked(&row(1, 4), 4)];
    let capped = [walked(&row(1, 3), 3), walked(&row(1, 1), 1)];
    for state in ended.into_iter().chain(capped) {
        for k in [0, 1, u64::MAX] {
            let mut after = state.clone();
            assert_eq!(go_on(&mut after, &mut [], k), (0, 0));
            assert_eq!(go_on(&mut after, &mut [0], k), (0, 0));
            assert!(after == state);
        }
    }
    let state = walked(&row(1, 4), 3);
    let mut after = state.clone();
    assert_eq!(go_on(&mut after, &mut [0], 0), (0, 0));
    assert_eq!(go_on(&mut after, &mut [0], 1), (19, 0));
    assert!(after == state);
}

/// 13 without v < w < nodes, at 0 ends and after some; the row has three nodes.
#[test]
fn pairs_that_are_none() {
    let far = u64::MAX;
    for state in [begun(&row(1, 9)), walked(&row(1, 9), 2)] {
        for (v, w) in [(0, 1), (0, 2), (1, 2)] {
            assert_eq!(look_pair(&state, v, w).0, 0, "{v} {w}");
        }
        for (v, w) in [(0, 3), (2, 3), (0, 0), (2, 2), (2, 1), (1, 0), (3, 4)] {
            assert_eq!(look_pair(&state, v, w), (13, [0, 0]), "{v} {w}");
        }
        // Each of these is a pair of the row in 32 bits or in 8.
        for (v, w) in [(0, 1 << 32 | 1), (1 << 32, 2), (256, 1), (0, 258)] {
            assert_eq!(look_pair(&state, v, w), (13, [0, 0]), "{v} {w}");
        }
        for (v, w) in [(far, far), (0, far), (far, 0), (1, 1 << 63)] {
            assert_eq!(look_pair(&state, v, w), (13, [0, 0]), "{v} {w}");
        }
    }
    let state = begun(&longest());
    assert_eq!(look_pair(&state, 62, 63), (0, [0, WHOLE]));
    assert_eq!(look_pair(&state, 63, 64), (13, [0, 0]));
}

/// What is answered goes into a list as far as it has room; the rest of the list stays as it was. After two ends of the row
/// count, complete and E are 2, 0 and 0.5, and the pair 0 2 has 0.125 and 0.625.
#[test]
fn lists_of_any_room() {
    let half = WHOLE / 2;
    let totals = [2, 0, half, UNSET, UNSET];
    let bounds = [half / 4, half / 4 * 5, UNSET, UNSET, UNSET];
    let state = walked(&row(1, 9), 2);
    for room in 0..=5 {
        let mut result = [UNSET; 5];
        assert_eq!(panel::look(&state, &mut result[..room]), 0);
        assert_eq!(result[..room], totals[..room]);
        assert_eq!(result[room..], [UNSET; 5][room..]);
        let mut result = [UNSET; 5];
        assert_eq!(panel::look_pair(&state, 0, 2, &mut result[..room]), 0);
        assert_eq!(result[..room], bounds[..room]);
        let mut reached = [UNSET; 5];
        let mut after = state.clone();
        let number = panel::go_on(&mut after, &mut [9], 1, &mut reached[..room]);
        assert_eq!(number, 0);
        assert_eq!(reached[..room], [1, UNSET, UNSET, UNSET, UNSET][..room]);
        assert!(same(&after, &walked(&row(1, 9), 3)), "{room}");
        for (k, quota, number) in [(0, 9, 0), (1, 0, 19)] {
            let mut reached = [UNSET; 5];
            let answer = panel::go_on(&mut after, &mut [quota], k, &mut reached[..room]);
            assert_eq!(answer, number);
            assert_eq!(reached[..room], [0, UNSET, UNSET, UNSET, UNSET][..room]);
        }
    }
}
