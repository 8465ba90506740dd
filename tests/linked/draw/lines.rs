//! Lines before hbr_parse: those that compose, and others that a careless reader might take for
//! them.

use super::reasons::{near, standing};
use super::Random;
use crate::independent::{line_of, Order};
use std::ops::Range;

/// A line at a bound; `tight` is a bound at which the order has a reason.
pub fn drawn(random: &mut Random, order: &Order, bound: i32, tight: i32) -> Vec<u8> {
    let line = match random.below(8) {
        0..=1 => line_of(order, bound, &near(random, order, tight)),
        2 => of_another(random, order, bound),
        _ => composing(random, order, bound).unwrap_or_default(),
    };
    match random.below(16) {
        0..=5 => line.into_bytes(),
        6 => longer(random, line.into_bytes()),
        7 => (0..random.below(80))
            .map(|_| random.number() as u8)
            .collect(),
        _ => changed(random, &line),
    }
}

/// A line that composes, if one does.
fn composing(random: &mut Random, order: &Order, bound: i32) -> Option<String> {
    let reason = standing(random, order, bound)?;
    Some(line_of(order, bound, &reason))
}

/// A line that composes at another bound, or for an order that differs in one thing.
fn of_another(random: &mut Random, order: &Order, bound: i32) -> String {
    let mut other = order.clone();
    let mut at = bound;
    let place = random.below(other.jobs.len());
    match random.below(5) {
        0 => other.jobs[place].time += 1,
        1 => other.jobs[place].due -= 1,
        2 => other.jobs.reverse(),
        3 => other.memories.push(order.memories[0]),
        _ => at = bound.saturating_sub(random.pick(&[1, 2, 1_000])),
    }
    composing(random, &other, at).unwrap_or_default()
}

/// The line with much behind it. Lengths of 256 and of 65,536 more look like its own to whoever
/// counts in 8 or 16 bits.
fn longer(random: &mut Random, mut line: Vec<u8>) -> Vec<u8> {
    let more = match random.below(12) {
        0 => 65_536,
        1..=3 => 256,
        4..=7 => 600,
        _ => 5_000,
    };
    let tail = match random.below(3) {
        0 => vec![random.pick(b"\0\n 0")],
        1 => b", memory 4 due 2".to_vec(),
        _ => line.clone(),
    };
    let tail = tail.iter().cycle().take(more);
    let tail: Vec<u8> = tail.copied().collect();
    line.extend(tail);
    line
}

/// The line with one thing changed.
pub fn changed(random: &mut Random, line: &str) -> Vec<u8> {
    let numbers = numbers(line);
    if numbers.is_empty() {
        return vec![random.pick(b"\0\n 0jm")];
    }
    let number = numbers[random.below(numbers.len())].clone();
    match random.below(10) {
        0..=2 => change_bytes(random, line.as_bytes().to_vec()),
        3 => insert(random, line, number.start),
        4..=5 => change_number(random, line, number),
        6 => exchange(random, line, &numbers),
        7 => change_sign(line, number),
        8 => change_steps(random, line),
        _ => change_case(random, line),
    }
}

/// Where the digits of numbers stand.
fn numbers(line: &str) -> Vec<Range<usize>> {
    let mut found: Vec<Range<usize>> = Vec::new();
    for (at, byte) in line.bytes().enumerate() {
        match found.last_mut() {
            _ if !byte.is_ascii_digit() => {}
            Some(last) if last.end == at => last.end += 1,
            _ => found.push(at..at + 1),
        }
    }
    found
}

fn change_bytes(random: &mut Random, mut line: Vec<u8>) -> Vec<u8> {
    let place = random.below(line.len());
    match random.below(10) {
        0 => line[place] = random.number() as u8,
        1 => line[place] ^= 1 << random.below(8),
        2 => drop(line.remove(0)),
        3 => drop(line.pop()),
        4 => line.truncate(place),
        5 => drop(line.remove(place)),
        6 => line.insert(place, line[place]),
        7 => line.insert(0, random.pick(b" \n\0")),
        8 => line.extend(random.pick(&["\r\n", "\n\n", ".", " "]).bytes()),
        _ => line.push(random.pick(b"\n\n\0 0")),
    }
    line
}

/// A sign or a 0 before a number, or a space.
fn insert(random: &mut Random, line: &str, at: usize) -> Vec<u8> {
    let mut line = line.as_bytes().to_vec();
    line.insert(at, random.pick(b"000+- "));
    line
}

/// Another number: next to it, or one that looks the same to whoever counts in few bits.
fn change_number(random: &mut Random, line: &str, place: Range<usize>) -> Vec<u8> {
    let number: i128 = line[place.clone()].parse().unwrap_or(0);
    let by = random.pick(&[1, -1, 256, 65_536, 1 << 31, 1 << 32, 1 << 64]);
    let mut line = line.to_string();
    line.replace_range(place, &(number + by).to_string());
    line.into_bytes()
}

fn exchange(random: &mut Random, line: &str, numbers: &[Range<usize>]) -> Vec<u8> {
    let place = random.below(numbers.len());
    let other = (place + 1) % numbers.len();
    let (first, second) = (place.min(other), place.max(other));
    let (first, second) = (numbers[first].clone(), numbers[second].clone());
    let words = [
        &line[..first.start],
        &line[second.clone()],
        &line[first.end..second.start],
        &line[first],
        &line[second.end..],
    ];
    words.concat().into_bytes()
}

/// A minus sign where there is none, or none where there is one; 0 becomes -0.
fn change_sign(line: &str, number: Range<usize>) -> Vec<u8> {
    let (before, after) = line.split_at(number.start);
    match before.strip_suffix('-') {
        Some(before) => [before, after].concat().into_bytes(),
        None => [before, "-", after].concat().into_bytes(),
    }
}

/// A part between commas left out, doubled or moved to the end.
fn change_steps(random: &mut Random, line: &str) -> Vec<u8> {
    let mut parts: Vec<&str> = line.split(", ").collect();
    let place = random.below(parts.len());
    let part = parts[place];
    match random.below(3) {
        0 => drop(parts.remove(place)),
        1 => parts.insert(place, part),
        _ => {
            parts.remove(place);
            parts.push(part);
        }
    }
    parts.join(", ").into_bytes()
}

fn change_case(random: &mut Random, line: &str) -> Vec<u8> {
    let mut line = line.as_bytes().to_vec();
    if random.once_in(2) {
        line.make_ascii_uppercase();
    } else {
        line[0].make_ascii_uppercase();
    }
    line
}
