//! A high for each job of an order, whose own times are the lows, the least lateness at the lows and at
//! the highs, and the number in the middle. The highs are drawn from the bytes of the order's file, so
//! that no other draw changes.

use crate::orders::Order;
use crate::plain;
use crate::random::Random;
use crate::tables::LONGEST;

pub struct Estimate {
    pub highs: Vec<u32>,
    pub at_lows: i32,
    pub at_highs: i32,
    pub number: i32,
}

pub fn draw(order: &Order, file: &[u8]) -> Estimate {
    let mut random = Random::of(file);
    let jobs = order.jobs.iter();
    let highs: Vec<u32> = jobs
        .map(|job| random.between(job.time, LONGEST) as u32)
        .collect();
    let mut answer = [0; 2];
    let result = plain::between(file, &highs, &mut answer);
    assert_eq!(result, 0, "a drawn estimate is refused");
    let [at_lows, at_highs] = answer;
    Estimate {
        highs,
        at_lows,
        at_highs,
        number: at_lows + (at_highs - at_lows) / 2,
    }
}
