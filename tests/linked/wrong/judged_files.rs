//! Wrong in the file that a command judges: "the order file at the screen's limits, judged as a screen order".

use super::block::{comes_to, wrote};
use super::judged::{at, right, told, within, RANGE};
use super::Wrong;
use crate::independent::{
    judge_within, least, lists, plan, read_within, Block, Limits, Order, Outcome, Row, DOCK,
    LONGEST_FILE, SCREEN,
};
use crate::lent::{held_numbers, Call};
use crate::library::Function;

pub const PARTS: &[&[Wrong]] = &[LIMITS, FILES, BEHIND];

const LIMITS: &[Wrong] = of_one!(BlockWrite, comes_to:
    "is judged by the dock's limits" => |command, block| within(command, block, &DOCK),
    "tells 2 for 21" => |command, block| {
        within(command, block, &Limits { over_processors: 2, ..SCREEN })
    },
    "tells 20 for 21" => |command, block| {
        within(command, block, &Limits { over_processors: 20, ..SCREEN })
    },
    "holds 5 processors" => |command, block| {
        within(command, block, &Limits { processors: 5, ..SCREEN })
    },
    "holds 3 processors" => |command, block| {
        within(command, block, &Limits { processors: 3, ..SCREEN })
    },
    "holds 11 jobs" => |command, block| within(command, block, &Limits { jobs: 11, ..SCREEN }),
    "tells 21 after 3" => |command, block| match right(command, block) {
        (Outcome::Refused(21), _) if no_job(block) => told(3),
        came => came,
    },
    "tells 1 of more processors than it holds" => |command, block| {
        within(command, block, &Limits { over_processors: 1, ..SCREEN })
    },
    "tells 20 of 13 jobs without a processor" => |command, block| match right(command, block) {
        (Outcome::Refused(1), _) if jobs(block) > 12 => told(20),
        came => came,
    },
);

const FILES: &[Wrong] = of_one!(BlockWrite, comes_to:
    "takes the file from byte 31 on" => |command, block| {
        let mut other = block.clone();
        other.file.rotate_right(1);
        right(command, &other)
    },
    "takes the file from byte 33 on" => |command, block| {
        let mut other = block.clone();
        other.file.rotate_left(1);
        right(command, &other)
    },
    "takes the trailer from the end of the bytes" => |command, block| {
        let mut other = block.clone();
        let length = usize::from(block.length).min(LONGEST_FILE);
        if let Some(trailer) = length.checked_sub(12) {
            other.file.copy_within(LONGEST_FILE - 12.., trailer);
        }
        right(command, &other)
    },
    "takes no file with the jobs first" => |command, block| {
        let file = block.order_file().unwrap_or(&[]);
        let at = file.len().checked_sub(12).map_or(0, |trailer| file[trailer]);
        match right(command, block) {
            (outcome, _) if at != 0 && outcome.planned_at().is_some() => told(12),
            came => came,
        }
    },
    "tells the job in place of the number" => |command, block| match right(command, block) {
        (Outcome::Refused(number @ (5 | 6 | 7 | 13)), _) => {
            let refused = read_within(&SCREEN, block.order_file().unwrap_or(&[]));
            told(refused.err().map_or(number, |refusal| refusal.job as u8))
        }
        came => came,
    },
    "takes any maker" => |command, block| match right(command, block) {
        (Outcome::Refused(13), _) => planned(command, block, |order| {
            order.jobs.iter_mut().for_each(|job| job.maker = 1);
        }),
        came => came,
    },
    "takes any due time" => |command, block| match right(command, block) {
        (Outcome::Refused(6), _) => planned(command, block, |order| {
            let jobs = order.jobs.iter_mut();
            jobs.for_each(|job| job.due = job.due.clamp(-1_000_000, 1_000_000));
        }),
        came => came,
    },
    "takes any time" => |command, block| match right(command, block) {
        (Outcome::Refused(5), _) => planned(command, block, |order| {
            let jobs = order.jobs.iter_mut();
            jobs.for_each(|job| job.time = job.time.clamp(1, 100_000));
        }),
        came => came,
    },
    "takes a job that fits no processor" => |command, block| match right(command, block) {
        (Outcome::Refused(7), _) => planned(command, block, |order| {
            let largest = order.memories.iter().copied().max().unwrap_or(0);
            order.jobs.iter_mut().for_each(|job| job.need = job.need.min(largest));
        }),
        came => came,
    },
    "tells 12 in place of every refusal" => |command, block| match right(command, block) {
        (Outcome::Refused(_), _) => told(12),
        came => came,
    },
    "tells 0 in place of every refusal" => |command, block| match right(command, block) {
        (Outcome::Refused(_), _) => told(0),
        came => came,
    },
);

/// Bytes 252 to 255 are no part of a file.
const BEHIND: &[Wrong] = of_one!(BlockWrite, wrote:
    "takes a file of up to 224 bytes" => |before, after| {
        let bytes = before.block.content();
        let length = usize::from(u16::from_le_bytes([bytes[8], bytes[9]]));
        if is_plan(before) && (221..=224).contains(&length) {
            if let Err(refusal) = read_within(&SCREEN, &bytes[32..32 + length]) {
                after.block.content_mut()[2] = refusal.number as u8;
            }
        }
    },
    "takes a file of up to 224 bytes by the dock's limits" => |before, after| {
        let bytes = before.block.content();
        let length = usize::from(u16::from_le_bytes([bytes[8], bytes[9]]));
        if is_plan(before) && (221..=224).contains(&length) {
            if let Ok(order) = read_within(&DOCK, &bytes[32..32 + length]) {
                let rows = plan(&order, least(&order)).unwrap_or_default();
                after.block.content_mut()[1] ^= 3;
                after.block.content_mut()[2] = 0;
                after.rows.put(&held_numbers(&rows));
            }
        }
    },
);

fn is_plan(call: &Call) -> bool {
    call.address == 0 && [1, 2].contains(&call.value)
}

/// The order of a file that is refused, mended and planned.
fn planned(command: u8, block: &Block, mend: fn(&mut Order)) -> (Outcome, Vec<Row>) {
    let listed = lists(block.order_file().unwrap_or(&[]));
    let mut order = listed.expect("lists that agree with their trailer");
    mend(&mut order);
    match judge_within(&SCREEN, &order) {
        None => at(command, block, &order, RANGE),
        Some(refusal) => told(refusal.number as u8),
    }
}

fn jobs(block: &Block) -> usize {
    let listed = lists(block.order_file().unwrap_or(&[]));
    listed.map_or(0, |order| order.jobs.len())
}

fn no_job(block: &Block) -> bool {
    jobs(block) == 0
}
