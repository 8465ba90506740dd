//! Wrong in the jobs that lie by falling need: "each job once, with the input number kept beside each".
//! A column lies otherwise than the others, a place is told for a number or taken for one.

use super::books::{added, counts};
use super::makers::remade;
use super::{accepted, answered, Wrong};
use crate::independent::{held, judge_times, late, lists, order_of, Held, Job, Order, Times};
use crate::lent::Call;
use crate::library::Function;
use crate::model::MODEL;

pub const PARTS: &[&[Wrong]] = &[COLUMNS, NUMBERS, REASONS, READY, BOOKED];

/// Another order than the one lent, made with its jobs as they lie.
type Change = fn(&[Held], &mut Order);
/// Another ready minute to each job.
type Move = fn(&[Held], &[u32]) -> Vec<u32>;

/// A wrong thing of each function that answers otherwise if jobs are otherwise.
macro_rules! of_answers {
    ($($listed:tt)*) => {
        of_these!(
            [
                Least, Plan, BookLeast, BookPlan, Reason, Sentence, Parse, Check, TimedPlan,
                TimedCheck, Between, BetweenOrder
            ],
            $($listed)*
        )
    };
}

/// One column by falling need, the others in input order; or a job twice.
const COLUMNS: &[Wrong] = of_answers!(of_other, Change:
    "holds needs by themselves" => |lying, order| {
        each(lying, order, |job, lies| job.need = lies.need);
    },
    "holds times by themselves" => |lying, order| {
        each(lying, order, |job, lies| job.time = lies.time);
    },
    "holds due times by themselves" => |lying, order| {
        each(lying, order, |job, lies| job.due = lies.due);
    },
    "holds the first that lies twice and not the last" => |lying, order| {
        let last = lying[lying.len() - 1].number;
        order.jobs[last as usize - 1] = lying[0].job;
    },
);

const AS_THEY_LIE: Change = |lying, order| *order = order_of(order, lying);

/// A job that is lent by its number is looked for at that place.
const NUMBERS: &[Wrong] = &[
    (
        Function::Sentence,
        "takes a job's number for its place",
        |call| of_other(Function::Sentence, call, AS_THEY_LIE),
    ),
    (
        Function::Parse,
        "takes a job's number for its place",
        |call| of_other(Function::Parse, call, AS_THEY_LIE),
    ),
    (
        Function::Check,
        "takes a job's number for its place",
        |call| of_other(Function::Check, call, AS_THEY_LIE),
    ),
    (
        Function::TimedCheck,
        "takes a job's number for its place",
        |call| of_other(Function::TimedCheck, call, AS_THEY_LIE),
    ),
];

const REASONS: &[Wrong] = of_one!(Reason, tells:
    "tells the place of the late job" => |at| (at.place_of(at.number), at.told().job.time),
    "tells the late job of the largest need" => |at| (at.over[0].number, at.over[0].job.time),
    "tells the place of the late job of the largest need" => |at| {
        (at.place_of(at.over[0].number), at.over[0].job.time)
    },
    "tells the late job of the smallest need" => |at| {
        let last = at.over[at.over.len() - 1];
        (last.number, last.job.time)
    },
    "tells the time at the place of the late job's number" => |at| {
        (at.number, at.lying[at.number as usize - 1].job.time)
    },
    "tells the time of the late job of the largest need" => |at| (at.number, at.over[0].job.time),
);

const AT_PLACES: Move = |lying, ready| {
    let mut moved = ready.to_vec();
    for (one, minute) in lying.iter().zip(ready) {
        moved[one.number as usize - 1] = *minute;
    }
    moved
};
const TO_PLACES: Move = |lying, ready| {
    let minute = |one: &Held| ready[one.number as usize - 1];
    lying.iter().map(minute).collect()
};

const READY: &[Wrong] = &[
    (
        Function::TimedPlan,
        "takes ready minutes for those of places",
        |call| moved(Function::TimedPlan, call, AT_PLACES),
    ),
    (
        Function::TimedCheck,
        "takes ready minutes for those of places",
        |call| moved(Function::TimedCheck, call, AT_PLACES),
    ),
    (
        Function::TimedPlan,
        "holds ready minutes by themselves",
        |call| moved(Function::TimedPlan, call, TO_PLACES),
    ),
    (
        Function::TimedCheck,
        "holds ready minutes by themselves",
        |call| moved(Function::TimedCheck, call, TO_PLACES),
    ),
];

const BOOKED: &[Wrong] = of_both!(counts:
    "books the times of jobs as they lie to makers in input order" => |before, made| {
        let mut order = made.order.clone();
        each(&held(&made.order), &mut order, |job, lies| job.time = lies.time);
        added(before, &order.jobs, |job| job.time)
    },
    "books the first that lies twice and not the last" => |before, made| {
        let mut jobs: Vec<Job> = held(&made.order).iter().map(|one| one.job).collect();
        jobs.rotate_right(1);
        jobs[0] = jobs[1];
        added(before, &jobs, |job| job.time)
    },
);

/// Changes each job in input order by the one that lies at that place.
fn each(lying: &[Held], order: &mut Order, change: fn(&mut Job, &Job)) {
    let both = order.jobs.iter_mut().zip(lying);
    both.for_each(|(job, one)| change(job, &one.job));
}

/// The call with other jobs in its file, where that is accepted.
fn of_other(function: Function, call: &mut Call, change: Change) -> u32 {
    if accepted(call).is_none() {
        return MODEL.entry(function)(call);
    }
    remade(function, call, |order| change(&held(order), order))
}

/// Where jobs are late: all jobs as they lie, those of them that are over their ends, and the number
/// told.
struct Over {
    lying: Vec<Held>,
    over: Vec<Held>,
    number: u32,
}

impl Over {
    /// The place of a job, from 1.
    fn place_of(&self, number: u32) -> u32 {
        let place = self.lying.iter().position(|one| one.number == number);
        place.map_or(0, |place| place as u32 + 1)
    }

    fn told(&self) -> Held {
        self.lying[self.place_of(self.number) as usize - 1]
    }
}

/// Another job or another time told of a late job.
fn tells(call: &mut Call, told: fn(&Over) -> (u32, u32)) -> u32 {
    answered(MODEL.reason, call, |call| {
        if call.answer.content()[0] != 1 {
            return;
        }
        let order = accepted(call).expect("the call was answered");
        let lying = held(&order);
        let over = lying.iter().filter(|one| late(&one.job, call.bound));
        let over = Over {
            over: over.copied().collect(),
            number: call.answer.content()[1] as u32,
            lying,
        };
        let (number, time) = told(&over);
        call.answer.put(&[1, number as i32, time as i32]);
    })
}

/// The call with other ready minutes, where they are accepted; they are then as they were.
fn moved(function: Function, call: &mut Call, change: Move) -> u32 {
    let listed = lists(call.file.content());
    let times = |order: &Order| Times::of(order, call.ready.content(), call.windows.content());
    let good = |times: &Times| judge_times(times).is_none();
    let Some(order) = listed.filter(|order| times(order).is_some_and(|times| good(&times))) else {
        return MODEL.entry(function)(call);
    };
    let ready = call.ready.clone();
    call.ready.put(&change(&held(&order), ready.content()));
    let result = MODEL.entry(function)(call);
    call.ready = ready;
    result
}
