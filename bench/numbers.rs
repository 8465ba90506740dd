//! A reason as the independent implementation has it, and as the numbers of the C interface.

use crate::independent::Reason;

/// The numbers of a reason, zeros where there is none.
pub fn numbers_of(reason: Option<Reason>) -> [i32; 19] {
    let mut numbers = [0; 19];
    match reason {
        Some(Reason::Job { job, time }) => {
            numbers[..3].copy_from_slice(&[1, job as i32, time as i32]);
        }
        Some(Reason::Stairs(dues)) => {
            numbers[..2].copy_from_slice(&[2, dues.len() as i32]);
            numbers[3..3 + dues.len()].copy_from_slice(&dues);
        }
        None => {}
    }
    numbers
}

/// The reason that has these numbers.
pub fn reason_of(numbers: &[i32; 19]) -> Reason {
    let [kind, which, time, dues @ ..] = numbers;
    match kind {
        1 => Reason::Job {
            job: *which as u32,
            time: *time as u32,
        },
        _ => Reason::Stairs(dues[..*which as usize].to_vec()),
    }
}
