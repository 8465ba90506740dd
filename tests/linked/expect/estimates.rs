//! What a function that takes highs must do. The path of an estimate is walked where it is short; what was
//! found of it is kept, since several numbers are asked for of one estimate.

use super::{refused, Expected, Known};
use crate::independent::{self, met_by_halving, Estimate, Order, DOCK};
use crate::lent::Call;
use crate::library::Function;

/// A path of up to so many minutes is walked.
const SHORT: u64 = 60;

/// An estimate with its leasts and with the walk along its path, once these were asked for.
pub struct Estimated {
    estimate: Estimate,
    leasts: Option<(i32, i32)>,
    walk: Option<Vec<(Order, i32)>>,
}

impl Estimated {
    fn of(estimate: Estimate) -> Estimated {
        Estimated {
            estimate,
            leasts: None,
            walk: None,
        }
    }

    fn leasts(&mut self) -> (i32, i32) {
        let found = || independent::leasts(&self.estimate);
        *self.leasts.get_or_insert_with(found)
    }

    /// The first order met whose least lateness is this number.
    fn first_met(&mut self, number: i32) -> Option<Order> {
        if self.estimate.minutes() > SHORT {
            return met_by_halving(&self.estimate, number);
        }
        let walked = || independent::walk(&self.estimate);
        let walk = self.walk.get_or_insert_with(walked);
        independent::first_met(walk, number)
    }
}

impl Known {
    /// Turns to this estimate, of the file that was turned to.
    fn estimated(&mut self, estimate: Estimate) -> &mut Estimated {
        let same = |known: &Estimated| known.estimate == estimate;
        if !self.estimated.as_ref().is_some_and(same) {
            self.estimated = None;
        }
        self.estimated
            .get_or_insert_with(|| Estimated::of(estimate))
    }
}

/// Whether there is one high to a job is judged right after 12.
pub fn estimated(function: Function, call: &Call, known: &mut Known) -> Expected {
    let file = call.file.content();
    let Some(listed) = independent::lists(file) else {
        return refused(12, 0);
    };
    let Some(estimate) = Estimate::of(&listed, call.highs.content()) else {
        return refused(253, 0);
    };
    if let Some(refusal) = independent::judge_estimate(&estimate) {
        return Expected::Refused(refusal);
    }
    known.turn_to(&DOCK, file);
    let known = known.estimated(estimate);
    if function == Function::Between {
        let (at_lows, at_highs) = known.leasts();
        return Expected::Answer(vec![at_lows, at_highs]);
    }
    let met = known.first_met(call.number);
    let bytes = met.map_or(Vec::new(), |order| independent::write(&order));
    if call.order.len() < bytes.len() {
        return refused(9, 0);
    }
    Expected::Order(bytes)
}
