//! The line of a reason that is handed in as its numbers: the kind, the job or the count of classes,
//! the job's time, and the classes' due times.

use super::order::{self, Order};
use super::setting::Setting;
use super::standing;
use super::text::Text;

pub type Reason = [i32; 19];

pub const JOB: i32 = 1;
pub const STAIRS: i32 = 2;

/// Empty where the reason does not stand.
pub fn line_of(order: &Order, bound: i32, reason: &Reason) -> Text {
    let mut text = Text::new();
    let &[kind, which, time, ref dues @ ..] = reason;
    match kind {
        JOB if all_zero(dues) => put_job(order, bound, which, time, &mut text),
        STAIRS if time == 0 => {
            if let Some((dues, beyond)) = dues.split_at_checked(which as usize) {
                if all_zero(beyond) {
                    put_stairs(order, bound, dues, &mut text);
                }
            }
        }
        _ => {}
    }
    text
}

fn all_zero(dues: &[i32]) -> bool {
    dues.iter().all(|&due| due == 0)
}

/// A job over its end; nothing of one that is not, or with another time.
fn put_job(order: &Order, bound: i32, number: i32, time: i32, text: &mut Text) {
    let Some(job) = order.jobs().get((number as usize).wrapping_sub(1)) else {
        return;
    };
    let end = order::end(job.due, bound);
    if job.time as i32 != time || time <= end {
        return;
    }
    text.word(b"job ");
    text.number(number as u32);
    text.word(b": time ");
    text.number(job.time);
    text.word(b", end ");
    text.signed(end);
    put_sums(job.time, end, text);
}

/// A staircase that stands; nothing of another.
fn put_stairs(order: &Order, bound: i32, dues: &[i32], text: &mut Text) {
    let setting = Setting::of(order);
    let Some((owed, on_hand)) = standing::weigh(order, &setting, bound, dues) else {
        return;
    };
    for (i, (&memory, &due)) in setting.memories.iter().zip(dues).enumerate() {
        if 0 < i {
            text.word(b", ");
        }
        text.word(b"memory ");
        text.number(memory);
        text.word(b" due ");
        text.signed(due);
    }
    put_sums(owed, on_hand as i32, text);
}

fn put_sums(owed: u32, on_hand: i32, text: &mut Text) {
    text.word(b": owed ");
    text.number(owed);
    text.word(b", on hand ");
    text.signed(on_hand);
}
