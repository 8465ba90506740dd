//! Wrong in how many processors and jobs a caller holds: "holds 12 jobs and 4 processors"; "A screen order over
//! 12 jobs is 20 and over 4 processors is 21, given in place of 4 and 2 and where those stand."

use super::Wrong;
use crate::independent::{lists, Order};
use crate::lent::Call;
use crate::library::{Function, Library, REASON_NUMBERS};
use crate::model::MODEL;
use std::sync::atomic::{AtomicBool, Ordering};

pub const PARTS: &[&[Wrong]] = &[LIMITS, TOLD, ORDER, OF_DOCK];

/// A refusal, and whether it is told of so many processors and jobs.
type Row = (u32, fn(usize, usize) -> bool);
/// The refusals of counts, in the order in which they are told.
type Rows = [Row; 6];

const NO_PROCESSOR: Row = (1, |processors, _| processors == 0);
const NO_JOB: Row = (3, |_, jobs| jobs == 0);
const OVER_4: Row = (21, |processors, _| processors > 4);
const OVER_12: Row = (20, |_, jobs| jobs > 12);
const OVER_16: Row = (2, |processors, _| processors > 16);
const OVER_48: Row = (4, |_, jobs| jobs > 48);
/// No row.
const NONE: Row = (0, |_, _| false);

const LIMITS: &[Wrong] = of_screen!(by_rows, Rows:
    "takes 5 processors" => with_processors((21, |processors, _| processors > 5)),
    "takes 13 jobs" => with_jobs((20, |_, jobs| jobs > 13)),
    "does not take 4 processors" => with_processors((21, |processors, _| processors >= 4)),
    "does not take 12 jobs" => with_jobs((20, |_, jobs| jobs >= 12)),
    "takes 16 processors" => with_processors((21, OVER_16.1)),
    "takes 48 jobs" => with_jobs((20, OVER_48.1)),
    "takes 12 processors" => with_processors((21, |processors, _| processors > 12)),
    "takes 4 jobs alone" => with_jobs((20, |_, jobs| jobs > 4)),
    "does not count processors" => with_processors(NONE),
    "does not count jobs" => with_jobs(NONE),
    "counts processors in 4 bits" => with_processors((21, |processors, _| processors % 16 > 4)),
    "counts jobs in 4 bits" => with_jobs((20, |_, jobs| jobs % 16 > 12)),
    "takes more processors where there are fewer jobs" => with_processors((21, |processors, jobs| {
        processors > 4 && processors + jobs > 16
    })),
    "takes more jobs where there are fewer processors" => with_jobs((20, |processors, jobs| {
        jobs > 12 && processors + jobs > 16
    })),
    "takes what fits into 220 bytes" => [
        NO_PROCESSOR,
        (21, |processors, jobs| processors > 4 && long(processors, jobs)),
        NO_JOB,
        (20, long),
        NONE,
        NONE,
    ],
);

const TOLD: &[Wrong] = of_screen!(by_rows, Rows:
    "tells 20 for processors and 21 for jobs" => [
        NO_PROCESSOR, (20, OVER_4.1), NO_JOB, (21, OVER_12.1), NONE, NONE,
    ],
    "tells 20 for processors" => with_processors((20, OVER_4.1)),
    "tells 21 for jobs" => with_jobs((21, OVER_12.1)),
    "tells 2 for 21" => with_processors((2, OVER_4.1)),
    "tells 4 for 20" => with_jobs((4, OVER_12.1)),
    "tells 2 of over 16 processors" => [NO_PROCESSOR, OVER_16, OVER_4, NO_JOB, OVER_12, NONE],
    "tells 4 of over 48 jobs" => [NO_PROCESSOR, OVER_4, NO_JOB, OVER_48, OVER_12, NONE],
    "judges by the dock's limits first" => [
        NO_PROCESSOR, OVER_16, NO_JOB, OVER_48, OVER_4, OVER_12,
    ],
    "tells 1 of more processors than it holds" => with_processors((1, OVER_4.1)),
    "tells 12 of more jobs than it holds" => with_jobs((12, OVER_12.1)),
);

/// 1 and 21 never hold together, nor do 3 and 20.
const ORDER: &[Wrong] = of_screen!(by_rows, Rows:
    "tells 21 after 3" => [NO_PROCESSOR, NO_JOB, OVER_4, OVER_12, NONE, NONE],
    "tells 21 after 20" => [NO_PROCESSOR, NO_JOB, OVER_12, OVER_4, NONE, NONE],
    "tells 20 before 21" => [NO_PROCESSOR, OVER_12, OVER_4, NO_JOB, NONE, NONE],
    "tells 20 before 1" => [OVER_12, NO_PROCESSOR, OVER_4, NO_JOB, NONE, NONE],
    "tells 3 before 1" => [NO_JOB, NO_PROCESSOR, OVER_4, OVER_12, NONE, NONE],
);

/// The dock by a screen's limits or numbers.
const OF_DOCK: &[Wrong] = of_dock!(by_rows, Rows:
    "is judged as a screen's" => with_jobs(OVER_12),
    "holds 4 processors, 21 beyond" => at_dock(OVER_4, OVER_48),
    "holds 12 jobs, 20 beyond" => at_dock(OVER_16, OVER_12),
    "holds 4 processors, 2 beyond" => at_dock((2, OVER_4.1), OVER_48),
    "holds 12 jobs, 4 beyond" => at_dock(OVER_16, (4, OVER_12.1)),
    "tells 21 for 2" => at_dock((21, OVER_16.1), OVER_48),
    "tells 20 for 4" => at_dock(OVER_16, (20, OVER_48.1)),
    "tells 20 for 2 and 21 for 4" => at_dock((20, OVER_16.1), (21, OVER_48.1)),
);

/// What is wrong with a library in several functions, and the wrong one.
pub const LIBRARIES: &[(&str, Library)] = &[
    (
        "takes the dock for a screen and a screen for the dock",
        Library {
            judge: MODEL.screen_judge,
            least: MODEL.screen_least,
            plan: MODEL.screen_plan,
            reason: MODEL.screen_reason,
            sentence: MODEL.screen_sentence,
            check: MODEL.screen_check,
            ..DOCK_ALONE
        },
    ),
    ("takes a screen for the dock", DOCK_ALONE),
    (
        "keeps the limits of the last caller",
        Library {
            judge: |call| by_last(Function::Judge, call),
            least: |call| by_last(Function::Least, call),
            plan: |call| by_last(Function::Plan, call),
            reason: |call| by_last(Function::Reason, call),
            sentence: |call| by_last(Function::Sentence, call),
            check: |call| by_last(Function::Check, call),
            screen_judge: |call| by_last(Function::ScreenJudge, call),
            screen_least: |call| by_last(Function::ScreenLeast, call),
            screen_plan: |call| by_last(Function::ScreenPlan, call),
            screen_reason: |call| by_last(Function::ScreenReason, call),
            screen_sentence: |call| by_last(Function::ScreenSentence, call),
            screen_check: |call| by_last(Function::ScreenCheck, call),
            ..MODEL
        },
    ),
];

/// Both callers have the dock's functions.
const DOCK_ALONE: Library = Library {
    screen_judge: MODEL.judge,
    screen_least: MODEL.least,
    screen_plan: MODEL.plan,
    screen_reason: MODEL.reason,
    screen_sentence: MODEL.sentence,
    screen_check: MODEL.check,
    ..MODEL
};

/// Whether the file of so many processors and jobs has over 220 bytes.
fn long(processors: usize, jobs: usize) -> bool {
    4 * processors + 16 * jobs + 12 > 220
}

/// A screen's rows with another one for too many processors.
const fn with_processors(row: Row) -> Rows {
    [NO_PROCESSOR, row, NO_JOB, OVER_12, NONE, NONE]
}

/// A screen's rows with another one for too many jobs.
const fn with_jobs(row: Row) -> Rows {
    [NO_PROCESSOR, OVER_4, NO_JOB, row, NONE, NONE]
}

/// The dock's rows with others for too many processors and too many jobs.
const fn at_dock(processors: Row, jobs: Row) -> Rows {
    [NO_PROCESSOR, processors, NO_JOB, jobs, NONE, NONE]
}

/// The order lent to a function, accepted or not, where nothing is told before its counts are judged.
pub fn counted(function: Function, call: &Call) -> Option<Order> {
    let enough = call.answer.len() >= function.answer_length();
    let composes = function.at_dock() == Function::Sentence;
    let told = !enough || composes && call.reason.len() < REASON_NUMBERS;
    lists(call.file.content()).filter(|_| !told)
}

/// The call by other rows; what these let through gets the dock's reply.
fn by_rows(function: Function, call: &mut Call, rows: Rows) -> u32 {
    if let Some(order) = counted(function, call) {
        let (processors, jobs) = (order.memories.len(), order.jobs.len());
        let mut rows = rows.iter();
        if let Some((number, _)) = rows.find(|(_, holds)| holds(processors, jobs)) {
            return *number;
        }
    }
    MODEL.entry(function.at_dock())(call)
}

/// The call by the limits of whoever called last.
fn by_last(function: Function, call: &mut Call) -> u32 {
    static SCREEN: AtomicBool = AtomicBool::new(false);
    let dock = function.at_dock();
    let was_screen = SCREEN.swap(function != dock, Ordering::Relaxed);
    match was_screen {
        true => by_rows(dock, call, with_jobs(OVER_12)),
        false => MODEL.entry(dock)(call),
    }
}
