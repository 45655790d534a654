//! A begin beside the account's, on lists that are valid and damaged and on lent words of any length.

use account::panel::begin as own_begin;
use account::{number, Plan, CERTAIN, WHOLE};
use conformance::compare::{lent_length, words};
use conformance::panel::{begin, walk_words};
use conformance::Tally;
use plans::damage::damaged_lists;
use plans::valid::random_plan;
use plans::{Lists, Rng};

use crate::{look, look_pair};

/// The begin on lent words with a random pattern. It returns the refusal's number.
fn compare(rng: &mut Rng, lists: &Lists) -> u32 {
    let needed = walk_words();
    let length = lent_length(rng, needed);
    let lent = words(rng, length);
    let mut state = lent.clone();
    let refusal = begin(&lists.lent(), &mut state);
    let expected = match number(&own_begin(&lists.lent())) {
        0 if length < needed => 12,
        expected => expected,
    };
    assert_eq!(refusal, expected, "{length} words, {lists:?}");
    if refusal != 0 {
        assert!(state == lent, "a refused begin wrote, {lists:?}");
        return refusal;
    }
    assert!(
        state[needed..] == lent[needed..],
        "past the walk, {lists:?}"
    );
    assert_eq!(look(&state), (0, [0; 3]), "{lists:?}");
    if lists.header.nodes > 1 {
        let w = rng.between(1, lists.header.nodes - 1);
        let v = rng.between(0, w - 1);
        assert_eq!(look_pair(&state, v, w), (0, [0, WHOLE]), "{lists:?}");
    }
    let mut again = words(rng, needed);
    assert_eq!(begin(&lists.lent(), &mut again), 0);
    assert!(
        again == state[..needed],
        "the words before count, {lists:?}"
    );
    0
}

/// The lists of a plan with a probability above 10^9, or above that of the event before, if it has two events.
fn with_probability(rng: &mut Rng, plan: &Plan) -> Lists {
    let mut lists = Lists::of(plan);
    if plan.events.len() > 1 {
        let event = 1 + rng.below(plan.events.len() - 1);
        let before = plan.events[event - 1].probability;
        lists.events[4 * event] = rng.pick(&[before + 1, CERTAIN, CERTAIN + 1, u64::MAX]);
    }
    lists
}

#[test]
fn begin_agrees_on_many_lists() {
    let mut rng = Rng::for_stream(111);
    let mut tally = Tally::default();
    for _ in 0..20_000 {
        let plan = random_plan(&mut rng);
        let lists = match rng.below(8) {
            0 | 1 => Lists::of(&plan),
            2 | 3 => Lists::of(&plan).with_spare(&mut rng),
            4 => with_probability(&mut rng, &plan),
            _ => damaged_lists(&mut rng, &plan),
        };
        tally.add(compare(&mut rng, &lists));
    }
    tally.expect_each(&[0, 4, 5, 6, 7, 8, 9, 10, 12], 200);
}
