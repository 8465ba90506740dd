//! The answers with ready minutes and windows, compared before anything is timed: the library and its
//! plain build are of one method, so their rows must be the same word for word.

use crate::cases::Case;
use crate::compare::{same_answers, At};
use crate::independent::{self, Order, Times};
use crate::subjects::{Buffers, LIBRARY, PLAIN, TIMED_TASKS};
use crate::timed::{Timed, FULL};

const BOUND_TOO_TIGHT: u32 = 10;

pub fn compare(place: usize, case: &Case) {
    let _at = At(place, case);
    let order = independent::read(&case.file).expect("the independent reader takes the order");
    for (task, _) in TIMED_TASKS {
        same_answers(case, task);
    }
    let given = case.times();
    let times = Times::of(&order, &given.ready, &given.windows).expect("times of the order");
    check_rows(case, &order, &times);
    check_tight(case, &order, &times);
    check_plans(case, &order, &times);
}

/// All ask for the same rows, of a full order for as many as there can be.
fn check_rows(case: &Case, order: &Order, times: &Times) {
    let Timed {
        bound,
        ready,
        windows,
        ..
    } = case.times();
    let asked = independent::timed_rows_asked(order, times, (*bound).into());
    for functions in [LIBRARY, PLAIN] {
        let mut answer = [0];
        (functions.timed_rows)(&case.file, *bound, ready, windows, &mut answer);
        assert_eq!(answer[0] as usize, asked, "rows asked differ");
    }
    assert!(
        case.family != FULL || asked == 8064,
        "times are not distinct"
    );
}

/// A minute below the least bound there is no plan.
fn check_tight(case: &Case, order: &Order, times: &Times) {
    let Timed {
        least,
        ready,
        windows,
        ..
    } = case.times();
    let bound = least - 1;
    let mut buffers = Buffers::new();
    for functions in [LIBRARY, PLAIN] {
        let Buffers { rows, answer, .. } = &mut buffers;
        let result = (functions.timed_plan)(&case.file, bound, ready, windows, rows, answer);
        assert_eq!(result, BOUND_TOO_TIGHT, "a plan below the least bound");
    }
    let met = independent::timed_meets(order, times, bound.into());
    assert!(!met, "a plan below the least bound");
}

/// Each one's plan is right by every check; one that lacks its last row is not, nor one whose first row
/// begins a minute before its job is ready.
fn check_plans(case: &Case, order: &Order, times: &Times) {
    let given = case.times();
    let rows = &given.plan;
    judged(case, order, times, rows, true);
    judged(case, order, times, &rows[..rows.len() - 4], false);
    let other = independent::timed_plan(order, times, given.bound.into());
    let other = other.expect("a plan that meets the bound");
    judged(case, order, times, &other.concat(), true);
    if !given.long_plan.is_empty() {
        judged(case, order, times, &given.long_plan, true);
    }
    let mut later = times.clone();
    later.ready[rows[0] as usize - 1] = rows[2] + 1;
    judged(case, order, &later, rows, false);
}

fn judged(case: &Case, order: &Order, times: &Times, rows: &[u32], right: bool) {
    let bound = case.times().bound;
    let windows = times.windows.concat();
    let mut answer = [0];
    for functions in [LIBRARY, PLAIN] {
        let check = functions.timed_check;
        let result = check(&case.file, bound, &times.ready, &windows, rows, &mut answer);
        assert_eq!((result, answer[0]), (0, i32::from(right)), "checks differ");
    }
    let own = independent::timed_right(order, times, bound.into(), rows);
    assert_eq!(own, right, "checks differ");
}
