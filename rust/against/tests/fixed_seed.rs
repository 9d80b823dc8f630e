//! A fixed seed: no difference, and everything reached.

use against::engine::{by_name, USUAL};
use against::reached::{
    ARRIVE_REFUSALS, ASK_REFUSALS, BLOCKED_REFUSALS, DEPART_REFUSALS, SETTLE_REFUSALS,
    TREE_REFUSALS,
};
use against::{run, Limit, Reached};

/// What is to be reached more than once or twice.
fn often(reached: &Reached) -> Vec<u64> {
    let singly = [
        reached.needed,
        reached.idle_alone,
        reached.covered_by_one,
        reached.covered_by_several,
        reached.broken,
        reached.open,
        reached.closed[0],
        reached.closed[1],
        reached.closed[2],
        reached.closed_alone,
        reached.closed_by_several,
        reached.unblocked,
        reached.causes[0],
        reached.causes[1],
        reached.causes[2],
        reached.causes[3],
        reached.causes_by_order,
    ];
    let for_each_part = [
        reached.pairs,
        reached.flows_misread,
        reached.verdicts_misread,
        reached.asks_misread,
    ];
    let [holds, trees] = [&reached.holds.often()[..], &reached.trees.often()];
    let withdrawn = &reached.withdrawn.often();
    let edits = &reached.edits.often();
    let parts = for_each_part.as_flattened();
    [&singly, parts, holds, trees, withdrawn, edits].concat()
}

#[test]
fn no_difference_and_everything_reached() {
    let engines = USUAL.map(|name| by_name(name).expect("it is there"));
    let engines = [engines[0].as_ref(), engines[1].as_ref()];
    let cases = if cfg!(debug_assertions) {
        4_000
    } else {
        128_000
    };
    let reached = match run(engines, 20_240_501, Limit::Cases(cases), &mut |_| ()) {
        Ok(reached) => reached,
        Err(difference) => panic!("{difference}"),
    };
    println!("{reached}");
    assert_eq!(reached.not_reached(), [0; 0], "{reached}");
    // Without optimizing, the cases are too few for these.
    if !cfg!(debug_assertions) {
        assert!(often(&reached).iter().all(|&n| n >= 5), "{reached}");
        assert_eq!(reached.refusals_of("arrive"), ARRIVE_REFUSALS);
        assert_eq!(reached.refusals_of("depart"), DEPART_REFUSALS);
    }
    assert!(reached.fewer_functions * 100 > reached.needed, "{reached}");
    assert_eq!(reached.refusals_of("blocked"), BLOCKED_REFUSALS);
    assert_eq!(reached.refusals_of("culprits"), BLOCKED_REFUSALS);
    assert_eq!(reached.refusals_of("ask"), ASK_REFUSALS);
    assert_eq!(reached.refusals_of("commit"), SETTLE_REFUSALS);
    assert_eq!(reached.refusals_of("drop"), SETTLE_REFUSALS);
    assert_eq!(reached.refusals_of("tree"), TREE_REFUSALS);
    assert_eq!(reached.trees.most, 4_096, "{reached}");
    let closed: u64 = reached.closed.iter().chain(&reached.causes).sum();
    let open = reached.open + reached.unblocked;
    let edits = reached.edits.arrivals + reached.edits.departures;
    let searched = reached.idle + reached.needed + open + closed + edits;
    assert!(reached.given_up * 5 < searched, "{reached}");
}
