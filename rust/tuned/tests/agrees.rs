//! The tuned program gives what the account gives.

use account::calls;
use plans::valid::random_plan;
use plans::{Lists, Rng};

#[test]
fn the_tuned_program_agrees_with_the_account() {
    let mut rng = Rng::for_stream(100);
    for _ in 0..5_000 {
        let plan = random_plan(&mut rng);
        let lists = Lists::of(&plan);
        let spare = plan.pairs().len() + 3;
        let (mut lower, mut upper) = (vec![7; spare], vec![7; spare]);
        let (mut tuned_lower, mut tuned_upper) = (lower.clone(), upper.clone());
        let outcome = calls::run(&lists.lent(), &mut lower, &mut upper).expect("a valid plan");
        let tuned_lists = tuned::Lists {
            nodes: plan.nodes,
            links: &lists.links,
            events: &lists.events,
            threshold: plan.threshold,
            cap: plan.cap,
        };
        let tuned = tuned::run(&tuned_lists, &mut tuned_lower, &mut tuned_upper);
        assert_eq!(
            (tuned.count, tuned.complete, tuned.mass),
            (outcome.count, outcome.complete, outcome.mass)
        );
        assert_eq!((tuned_lower, tuned_upper), (lower, upper));
    }
}
