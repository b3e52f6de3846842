//! The budget: steps done is the smaller of budget and list length, and what comes after stays as it was.
mod common;
use common::{falling, Lent, UNTOUCHED};
use romaludiv::*;

/// Four bodies that fall, and one normal step on each.
fn four() -> Lent {
    let (bodies, contacts): (Vec<_>, Vec<_>) = (0..4).map(falling).unzip();
    Lent::new(&bodies, &contacts, &[(0, 1), (1, 1), (2, 1), (3, 1)])
}

#[test]
fn done_is_the_smaller_of_budget_and_list() {
    for (budget, done) in [(0, 0), (1, 1), (3, 3), (4, 4), (5, 4), (usize::MAX, 4)] {
        let before = four();
        let mut lent = before.clone();
        assert_eq!(lent.call(budget), Ok(Done { done, refused: 0 }));
        for k in 0..4 {
            let (answer, load) = if k < done {
                ((0, 0), 2.0)
            } else {
                ((UNTOUCHED, UNTOUCHED), 0.0)
            };
            assert_eq!(lent.answer(k), answer, "budget {budget}, step {k}");
            assert_eq!(lent.loads(k), (load, 0.0), "budget {budget}, contact {k}");
            let falls = lent.body(k) == before.body(k);
            assert_eq!(falls, k >= done, "budget {budget}, body {k}");
        }
    }
}

#[test]
fn a_budget_of_0_writes_nothing() {
    let mut lent = four();
    let before = lent.clone();
    assert!(lent.call(0).is_ok());
    assert!(lent.same(&before));
}

#[test]
fn refused_counts_only_the_steps_done() {
    let mut lent = four();
    lent.numbers[5] = 3; // contact 1 has three points
    lent.numbers[11] = 0; // and contact 3 none
    for (budget, refused) in [(1, 0), (2, 1), (3, 1), (4, 2), (9, 2)] {
        let done = budget.min(4);
        assert_eq!(lent.clone().call(budget), Ok(Done { done, refused }));
    }
}
