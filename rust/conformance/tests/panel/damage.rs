//! Words that are no walk, or another one: each call finishes, and keeps what is promised from any state.

use account::{Plan, WHOLE};
use conformance::compare::{random_pair, words};
use conformance::panel::walk_words;
use plans::examples::{longest, mesh_64, ring_of_six, triangle};
use plans::valid::random_plan;
use plans::Rng;

use crate::place::{self, AT, EVENTS, EVENTS_COUNT, LINKS, LINKS_COUNT, MASS, NODES, STACK, SUMS};
use crate::{begun, go_on, look, look_pair, walked};

/// What holds of a go-on from any words. Of a word that holds a link byte the lowest eight bits count, and a go-on that
/// reaches some ends lays down these alone.
#[track_caller]
fn expect_go_on(before: &[u64], k: u64, left: u64, name: &str) -> u64 {
    let (mut state, mut quota) = (before.to_vec(), [left]);
    let (number, reached) = go_on(&mut state, &mut quota, k);
    assert!(
        reached <= k.min(left),
        "{name}: {reached} of {k} and {left}"
    );
    assert_eq!(quota[0], left - reached, "{name}");
    match number {
        0 => {}
        19 => assert!(left == 0 && k > 0 && reached == 0, "{name}"),
        _ => panic!("{name}: number {number}"),
    }
    if reached == 0 {
        assert!(state == before, "{name}: words changed");
    }
    let kept = |at: usize| match at {
        LINKS..EVENTS => before[at] % 256,
        _ => before[at],
    };
    let moved = (0..state.len()).filter(|&at| place::of_the_plan(at) && state[at] != kept(at));
    let moved: Vec<usize> = moved.filter(|_| reached > 0).collect();
    assert!(moved.is_empty(), "{name}: words of the plan {moved:?}");
    reached
}

/// What holds of looks at any words.
#[track_caller]
fn expect_looks(rng: &mut Rng, state: &[u64], name: &str) {
    assert_eq!(look(state).0, 0, "{name}");
    for _ in 0..3 {
        let (v, w) = random_pair(rng, state[NODES]);
        let (number, [lower, upper]) = look_pair(state, v, w);
        if v < w && w < state[NODES] {
            assert_eq!(number, 0, "{name}: {v} {w}");
            assert!(lower <= upper && upper <= WHOLE, "{name}: {v} {w}");
        } else {
            assert_eq!((number, lower, upper), (13, 0, 0), "{name}: {v} {w}");
        }
        if state[NODES] > 64 || state[MASS] > WHOLE {
            let unknown = number == 13 || (lower, upper) == (0, WHOLE);
            assert!(unknown, "{name}: {v} {w}");
        }
    }
}

/// All calls on some words. Returns how many ends the go-ons reached.
fn expect_calls(rng: &mut Rng, state: &[u64], name: &str) -> u64 {
    expect_looks(rng, state, name);
    let calls = [(1, 50), (30, 50), (u64::MAX, 200), (9, 4), (1, 0), (0, 50)];
    let reached = calls.map(|(k, left)| expect_go_on(state, k, left, name));
    reached.iter().sum()
}

/// Half-walked plans: small and large ones, one whose next ends are dropped ones in one entry of the stack.
fn half_walked() -> Vec<(&'static str, Vec<u64>)> {
    let capped = Plan {
        cap: 200,
        ..mesh_64()
    };
    vec![
        ("the triangle", walked(&triangle(), 5)),
        ("the triangle, begun", begun(&triangle())),
        ("a ring", walked(&ring_of_six(), 60)),
        ("a mesh", walked(&capped, 100)),
        ("the longest plan", walked(&longest(), 500)),
    ]
}

/// Places of each field: of a list the first entries, those around its count, and the last ones.
fn places(state: &[u64]) -> Vec<usize> {
    let around = |from: usize, used: usize, length: usize| {
        let places = [0, 1, 2, 3, used.saturating_sub(2), used.saturating_sub(1)];
        let past = [used, used + 1, length - 2, length - 1];
        let places = places.into_iter().chain(past);
        places
            .filter(move |&at| at < length)
            .map(move |at| from + at)
    };
    let nodes = state[NODES] as usize;
    let mut all: Vec<usize> = (0..LINKS).collect();
    all.extend(around(LINKS, 2 * state[LINKS_COUNT] as usize, 256));
    all.extend(around(EVENTS, 4 * state[EVENTS_COUNT] as usize, 512));
    let at = state[AT] as usize;
    all.extend((at.saturating_sub(4)..(at + 16).min(512)).map(|at| STACK + at));
    all.extend(STACK + 504..STACK + 512);
    all.extend(around(SUMS, nodes * (nodes - 1) / 2, 2016));
    all
}

/// Words for a place that held another one: the limits of words and of a mass, one more, one less, and a random one.
fn edges(rng: &mut Rng, word: u64) -> [u64; 12] {
    [
        0,
        1,
        64,
        128,
        129,
        256 | word & 255,
        WHOLE,
        1 << 63,
        u64::MAX,
        word.wrapping_add(1),
        word.wrapping_sub(1),
        rng.bits() >> rng.below(64),
    ]
}

#[test]
fn each_field_by_itself() {
    let mut rng = Rng::for_stream(120);
    let (mut states, mut still_walks) = (0, 0);
    for (name, state) in half_walked() {
        assert!(expect_calls(&mut rng, &state, name) > 0, "{name}");
        for at in places(&state) {
            for word in edges(&mut rng, state[at]) {
                let mut damaged = state.clone();
                damaged[at] = word;
                let name = format!("{name}, word {at}: {word}");
                let reached = expect_calls(&mut rng, &damaged, &name);
                states += 1;
                still_walks += u32::from(reached > 0);
            }
        }
    }
    assert!(states > 3_000, "{states} states");
    assert!(
        (500..states - 500).contains(&still_walks),
        "{still_walks} of {states} go on"
    );
}

/// A walk that was gone on with a little, with one to four words changed.
fn damaged_walk(rng: &mut Rng) -> Vec<u64> {
    let mut state = begun(&random_plan(rng));
    let k = rng.between(0, 40);
    go_on(&mut state, &mut [40], k);
    let places = places(&state);
    for _ in 0..rng.between(1, 4) {
        let at = match rng.below(3) {
            0 => rng.below(LINKS),
            1 => rng.pick(&places),
            _ => rng.below(state.len()),
        };
        let edges = edges(rng, state[at]);
        state[at] = rng.pick(&edges);
    }
    state
}

#[test]
fn random_damage() {
    let mut rng = Rng::for_stream(121);
    for i in 0..4_000 {
        let state = damaged_walk(&mut rng);
        expect_calls(&mut rng, &state, &format!("damaged walk {i}"));
    }
}

#[test]
fn words_of_no_walk() {
    let mut rng = Rng::for_stream(122);
    let length = walk_words();
    let mut all = vec![vec![0; length], vec![1; length], vec![u64::MAX; length]];
    for i in 0..600 {
        let mut state = words(&mut rng, length);
        match i % 3 {
            0 => {}
            1 => state.iter_mut().for_each(|word| *word %= 130),
            _ => state.iter_mut().for_each(|word| *word >>= *word & 63),
        }
        all.push(state);
    }
    for state in all {
        let name = format!("{:?}", &state[..9]);
        assert_eq!(expect_calls(&mut rng, &state, &name), 0, "{name}");
    }
}

/// Going on from a damaged state again and again ends: each call takes from the quota or changes nothing.
#[test]
fn calls_one_after_another_finish() {
    let mut rng = Rng::for_stream(123);
    for i in 0..500 {
        let mut state = damaged_walk(&mut rng);
        let mut quota = [500];
        for k in [0, 1, 2, 40, 400, u64::MAX, 1] {
            let before = (state.clone(), quota[0]);
            let (number, reached) = go_on(&mut state, &mut quota, k);
            assert!(number == 0 || number == 19, "walk {i}: {number}");
            assert_eq!(quota[0], before.1 - reached, "walk {i}");
            assert!(reached > 0 || state == before.0, "walk {i}");
            expect_looks(&mut rng, &state, &format!("walk {i}"));
        }
    }
}
