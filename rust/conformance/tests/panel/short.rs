//! Words that are too few for a walk: 12, after the lists' tests in a begin and before everything else in the other calls.

use account::{Header, Lent};
use conformance::panel::{self, begin, walk_words};
use plans::examples::triangle;
use plans::Lists;

use crate::{walked, UNSET};

/// Lengths below that of a walk.
fn too_few() -> [usize; 7] {
    let words = walk_words();
    [0, 1, 5, 9, words / 2, words - 2, words - 1]
}

#[test]
fn a_begin_tests_the_lists_first() {
    let lists = Lists::of(&triangle());
    let bad = Lent {
        links: &[1, 1, 0, 2, 1, 2],
        ..lists.lent()
    };
    let no_cap = Lent {
        header: Header {
            cap: 0,
            ..lists.header
        },
        ..bad
    };
    for words in too_few() {
        let mut state = vec![UNSET; words];
        assert_eq!(begin(&lists.lent(), &mut state), 12, "{words} words");
        assert_eq!(begin(&bad, &mut state), 7, "{words} words");
        assert_eq!(begin(&no_cap, &mut state), 6, "{words} words");
        assert_eq!(state, vec![UNSET; words]);
    }
    let mut state = vec![UNSET; walk_words()];
    assert_eq!(begin(&bad, &mut state), 7);
    assert!(state.iter().all(|&word| word == UNSET));
    assert_eq!(begin(&lists.lent(), &mut state), 0);
}

#[test]
fn a_begin_leaves_words_past_the_walk() {
    let words = walk_words();
    for more in [0, 1, 100] {
        let mut state = vec![UNSET; words + more];
        assert_eq!(begin(&Lists::of(&triangle()).lent(), &mut state), 0);
        assert_eq!(state[words..], vec![UNSET; more]);
        let mut reached = [UNSET];
        let number = panel::go_on(&mut state, &mut [5], 9, &mut reached);
        assert_eq!((number, reached), (0, [5]));
        assert_eq!(state[words..], vec![UNSET; more]);
        assert!(state[..words] == walked(&triangle(), 5), "{more} more");
    }
}

/// Whatever k, quota and pair are: nothing changes, and what is answered is 0 as far as there is room.
#[test]
fn the_other_calls_test_it_first() {
    let whole = walked(&triangle(), 5);
    for words in too_few() {
        let mut state = whole[..words].to_vec();
        for (k, left) in [(1, 9), (0, 9), (1, 0), (0, 0), (u64::MAX, u64::MAX)] {
            let (mut quota, mut reached) = ([left, UNSET], [UNSET; 2]);
            let number = panel::go_on(&mut state, &mut quota, k, &mut reached);
            assert_eq!((number, quota), (12, [left, UNSET]), "{words} words");
            assert_eq!(reached, [0, UNSET]);
            assert_eq!(panel::go_on(&mut state, &mut [], k, &mut []), 12);
        }
        assert_eq!(state, whole[..words]);
        for room in 0..=4 {
            let mut result = [UNSET; 4];
            assert_eq!(panel::look(&state, &mut result[..room]), 12);
            assert_eq!(result[..room], [0, 0, 0, UNSET][..room]);
            for (v, w) in [(0, 1), (1, 1), (0, u64::MAX)] {
                let mut result = [UNSET; 4];
                let number = panel::look_pair(&state, v, w, &mut result[..room]);
                assert_eq!(number, 12, "{words} words, {v} {w}");
                assert_eq!(result[..room], [0, 0, UNSET, UNSET][..room]);
            }
        }
    }
}
