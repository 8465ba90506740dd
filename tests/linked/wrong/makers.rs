//! Wrong in makers: "Each job gains a maker number, 1 to 16"; "A maker number out of range is 13, right
//! after 6 in the order".

use super::Wrong;
use crate::draw::files::jobs_first;
use crate::expect::listed;
use crate::independent::{lists, write, Job, Order};
use crate::lent::{job_numbers, Call};
use crate::library::Function;
use crate::model::MODEL;

pub const PARTS: &[&[Wrong]] = &[TAKEN, TOLD, READ];

/// Makers that are let through, each taken for maker 1.
type Taken = fn(u32) -> bool;
type Told = fn(&mut Order, u32);
type Change = fn(&mut Order);

const TAKEN: &[Wrong] = of_all!(takes, Taken:
    "takes maker 0" => |maker| maker == 0,
    "takes maker 17" => |maker| maker == 17,
    "does not look at makers" => |_| true,
);

const TOLD: &[Wrong] = of_all!(tells, Told:
    "tells a job that fits no processor before a maker" => |order, told| match told {
        13 => order.jobs.iter_mut().for_each(|job| job.maker = 1),
        _ => {}
    },
    "tells a maker before a due time" => |order, told| match told {
        6 => order.jobs.iter_mut().for_each(|job| job.due = 0),
        _ => {}
    },
    "tells a maker before a time" => |order, told| match told {
        5 => order.jobs.iter_mut().for_each(|job| job.time = 1),
        _ => {}
    },
    "tells the last such maker's job" => |order, told| if told == 13 {
        let last = order.jobs.iter().rposition(|job| !named(job));
        let last = last.unwrap_or(0);
        order.jobs[..last].iter_mut().for_each(|job| job.maker = 1);
    },
);

/// Other makers read than those that are lent.
const READ: &[Wrong] = of_all!(remade, Change:
    "reads a maker in 8 bits" => |order| each(order, |job| job.maker %= 256),
    "reads a maker in 16 bits" => |order| each(order, |job| job.maker %= 65_536),
    "takes a maker for a signed number" => |order| each(order, |job| {
        if job.maker > i32::MAX as u32 {
            job.maker = 1;
        }
    }),
    "reads makers backwards" => |order| each(order, |job| job.maker = job.maker.swap_bytes()),
    "takes a need for a maker" => |order| each(order, |job| job.maker = job.need),
    "takes a time for a maker" => |order| each(order, |job| job.maker = job.time),
    "takes makers at three numbers to a job" => |order| {
        let numbers = job_numbers(&order.jobs);
        for (place, job) in order.jobs.iter_mut().enumerate() {
            job.maker = numbers[3 * place + 3];
        }
    },
    "looks at the maker of the first job alone" => |order| {
        let first = order.jobs.first().map_or(1, |job| job.maker);
        each(order, |job| job.maker = first);
    },
    "does not look at the maker of the last job" => |order| {
        if let Some(job) = order.jobs.last_mut() {
            job.maker = 1;
        }
    },
);

fn named(job: &Job) -> bool {
    (1..=16).contains(&job.maker)
}

/// Changes each job.
pub fn each(order: &mut Order, change: impl FnMut(&mut Job)) {
    order.jobs.iter_mut().for_each(change);
}

/// The call with other jobs in its file or its lists, which are then as they were.
pub fn remade(function: Function, call: &mut Call, change: impl Fn(&mut Order)) -> u32 {
    let (file, jobs) = (call.file.clone(), call.jobs.clone());
    if function == Function::Write {
        let mut order = listed(call);
        change(&mut order);
        call.jobs.put(&job_numbers(&order.jobs));
        let result = (MODEL.write)(call);
        call.jobs = jobs;
        return result;
    }
    if let Some(order) = lists(file.content()) {
        let mut other = order.clone();
        change(&mut other);
        let turned = file.content() == jobs_first(&order);
        let bytes = if turned {
            jobs_first(&other)
        } else {
            write(&other)
        };
        call.file.put(&bytes);
    }
    let result = MODEL.entry(function)(call);
    call.file = file;
    result
}

/// The call where it tells 13, with the makers that are let through taken for maker 1.
fn takes(function: Function, call: &mut Call, taken: Taken) -> u32 {
    let result = MODEL.entry(function)(&mut call.clone());
    if result % 256 != 13 {
        return MODEL.entry(function)(call);
    }
    let mut only = call.clone();
    let none_other = |order: &Order| order.jobs.iter().all(|job| named(job) || taken(job.maker));
    let lent = match function {
        Function::Write => Some(listed(call)),
        _ => lists(call.file.content()),
    };
    if !lent.is_some_and(|order| none_other(&order)) {
        return result;
    }
    let result = remade(function, &mut only, |order| {
        each(order, |job| {
            if !named(job) {
                job.maker = 1;
            }
        })
    });
    *call = only;
    result
}

/// The refusal that the order would have with a change that depends on the one it has; only 13 and 7
/// are told in place of it.
fn tells(function: Function, call: &mut Call, change: Told) -> u32 {
    let result = MODEL.entry(function)(call);
    let other = match result % 256 {
        5 => {
            let mut other = call.clone();
            other.highs.content_mut().fill(1);
            remade(function, &mut other, |order| change(order, 5))
        }
        6 => remade(function, &mut call.clone(), |order| change(order, 6)),
        13 => remade(function, &mut call.clone(), |order| change(order, 13)),
        _ => result,
    };
    match other % 256 {
        7 | 13 => other,
        _ => result,
    }
}
