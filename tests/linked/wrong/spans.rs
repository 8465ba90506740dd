//! Wrong in which lows and highs are taken: "A low above its high is 19, after 6 and 13, and both ends must be
//! in the time's range or 5 is given."

use super::makers::remade;
use super::{lent_estimate, Wrong};
use crate::independent::{
    fits, is_due, is_made, is_time, judge_counts, judge_estimate, Estimate, DOCK,
};
use crate::lent::Call;
use crate::library::Function;
use crate::model::MODEL;

pub const PARTS: &[&[Wrong]] = &[RANGES, ORDER, CARRIED];

/// A refusal, and whether it is told of the job at a place.
type Row = (u32, fn(&Estimate, usize) -> bool);
/// The refusals of an estimate's jobs, in the order in which they are told.
type Rows = [Row; 6];
/// What is told, from the result and from the numbers of the jobs that it could be told of.
type Told = fn(u32, &[u32]) -> u32;

const OUT: Row = (5, |own, place| {
    !is_time(low(own, place)) || !is_time(own.highs[place])
});
const LOW_OUT: Row = (5, |own, place| !is_time(low(own, place)));
const HIGH_OUT: Row = (5, |own, place| !is_time(own.highs[place]));
const DUE: Row = (6, |own, place| !is_due(&own.lows.jobs[place]));
const MAKER: Row = (13, |own, place| !is_made(&own.lows.jobs[place]));
const ABOVE: Row = (19, |own, place| low(own, place) > own.highs[place]);
const UNFIT: Row = (7, |own, place| !fits(&own.lows, &own.lows.jobs[place]));
/// No row.
const NONE: Row = (0, |_, _| false);

const RANGES: &[Wrong] = of_estimated!(by_rows, Rows:
    "looks at the range of lows alone" => with_range(LOW_OUT),
    "looks at the range of highs alone" => with_range(HIGH_OUT),
    "takes an end of 100,001" => with_range((5, |own, place| {
        let out = |end: u32| !is_time(end) && end != 100_001;
        out(low(own, place)) || out(own.highs[place])
    })),
    "takes a high of 0" => with_range((5, |own, place| {
        OUT.1(own, place) && own.highs[place] != 0
    })),
    "does not take a high of 100,000" => with_range((5, |own, place| {
        OUT.1(own, place) || own.highs[place] == 100_000
    })),
    "takes ends for signed numbers" => with_range((5, |own, place| {
        let out = |end: u32| end == 0 || end as i32 > 100_000;
        out(low(own, place)) || out(own.highs[place])
    })),
    "does not look for a low above its high" => with_above(NONE),
    "does not look at the last job for a low above its high" => with_above((19, |own, place| {
        ABOVE.1(own, place) && place + 1 < own.highs.len()
    })),
    "takes a low one above its high" => with_above((19, |own, place| {
        low(own, place) > own.highs[place] + 1
    })),
    "tells a low that equals its high" => with_above((19, |own, place| {
        low(own, place) >= own.highs[place]
    })),
    "tells 5 for a low above its high" => with_above((5, ABOVE.1)),
);

const ORDER: &[Wrong] = of_estimated!(by_rows, Rows:
    "tells lows out of range before highs" => [LOW_OUT, HIGH_OUT, DUE, MAKER, ABOVE, UNFIT],
    "tells highs out of range before lows" => [HIGH_OUT, LOW_OUT, DUE, MAKER, ABOVE, UNFIT],
    "tells a high out of range after 19" => [LOW_OUT, DUE, MAKER, ABOVE, HIGH_OUT, UNFIT],
    "tells 19 after 7" => [OUT, DUE, MAKER, UNFIT, ABOVE, NONE],
    "tells 19 before 13" => [OUT, DUE, ABOVE, MAKER, UNFIT, NONE],
    "tells 19 before 6" => [OUT, ABOVE, DUE, MAKER, UNFIT, NONE],
    "tells 19 before 5" => [ABOVE, OUT, DUE, MAKER, UNFIT, NONE],
);

const CARRIED: &[Wrong] = of_estimated!(carries, Told:
    "carries no job with 19" => |told, _| if told % 256 == 19 { 19 } else { told },
    "counts the jobs of 19 from 0" => |told, _| if told % 256 == 19 { told - 256 } else { told },
    "carries the last job with a low above its high" => |told, jobs| last_of(19, told, jobs),
    "carries the last job with an end out of range" => |told, jobs| last_of(5, told, jobs),
);

fn low(own: &Estimate, place: usize) -> u32 {
    own.lows.jobs[place].time
}

/// The rows with another one for the range of lows and highs.
const fn with_range(row: Row) -> Rows {
    [row, DUE, MAKER, ABOVE, UNFIT, NONE]
}

/// The rows with another one for a low above its high.
const fn with_above(row: Row) -> Rows {
    [OUT, DUE, MAKER, row, UNFIT, NONE]
}

/// The numbers of the jobs of which a row is told.
fn jobs_of(own: &Estimate, holds: fn(&Estimate, usize) -> bool) -> Vec<u32> {
    let places = (0..own.highs.len()).filter(|place| holds(own, *place));
    places.map(|place| place as u32 + 1).collect()
}

/// The call by other rows; what these let through is taken for the nearest that is good.
fn by_rows(function: Function, call: &mut Call, rows: Rows) -> u32 {
    let lent = lent_estimate(function, call);
    let Some(own) = lent.filter(|own| judge_counts(&DOCK, &own.lows).is_none()) else {
        return MODEL.entry(function)(call);
    };
    for (number, holds) in rows {
        if let Some(job) = jobs_of(&own, holds).first() {
            return number + 256 * job;
        }
    }
    mended(function, call, &own)
}

/// The call with each low and each high in range, no low above its high; all is then as it was.
fn mended(function: Function, call: &mut Call, own: &Estimate) -> u32 {
    if judge_estimate(own).is_none() {
        return MODEL.entry(function)(call);
    }
    let within = |time: u32| time.clamp(1, 100_000);
    let both = own.lows.jobs.iter().zip(&own.highs);
    let highs = both.map(|(job, high)| within(*high).max(within(job.time)));
    let lent = call.highs.clone();
    call.highs.put(&highs.collect::<Vec<u32>>());
    let result = remade(function, call, |order| {
        let jobs = order.jobs.iter_mut();
        jobs.for_each(|job| job.time = within(job.time));
    });
    call.highs = lent;
    result
}

/// Another job carried.
fn carries(function: Function, call: &mut Call, told: Told) -> u32 {
    let result = MODEL.entry(function)(call);
    let holds = match result % 256 {
        5 => OUT.1,
        19 => ABOVE.1,
        _ => return result,
    };
    let own = lent_estimate(function, call).expect("its jobs were judged");
    told(result, &jobs_of(&own, holds))
}

/// The last of these jobs where this refusal is told.
fn last_of(number: u32, told: u32, jobs: &[u32]) -> u32 {
    match jobs.last() {
        Some(job) if told % 256 == number => number + 256 * job,
        _ => told,
    }
}
