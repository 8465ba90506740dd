//! Row lists for the plan check, right ones and hostile ones: "The plan check takes rows in any
//! order and answers yes or no; a malformed row gives no."

use super::Random;
use crate::independent::Row;

/// A list made from a right plan by up to three changes, as numbers; most of the changes break it.
pub fn hostile(random: &mut Random, plan: &[Row]) -> Vec<u32> {
    let mut rows = plan.to_vec();
    for _ in 0..random.below(4) {
        change(random, &mut rows);
    }
    let mut numbers = rows.concat();
    if random.once_in(10) {
        let left_over = 1 + random.below(3);
        numbers.extend((0..left_over).map(|_| random.below(3) as u32));
    }
    numbers
}

/// A list that is no plan: none, or numbers of any or of one size.
pub fn senseless(random: &mut Random) -> Vec<u32> {
    let length = random.below(40);
    match random.below(4) {
        0 => Vec::new(),
        1 => (0..length).map(|_| random.number() as u32).collect(),
        2 => (0..length).map(|_| random.below(4) as u32).collect(),
        _ => vec![u32::MAX; length],
    }
}

/// The plan cut into this many rows, still right where its minutes suffice; else rows are repeated.
pub fn cut(plan: &[Row], count: usize) -> Vec<u32> {
    let mut more = count.saturating_sub(plan.len());
    let mut rows = Vec::new();
    for &[job, processor, from, to] in plan {
        let minutes = (to - from - 1).min(more as u32);
        rows.extend((from..from + minutes).map(|at| [job, processor, at, at + 1]));
        rows.push([job, processor, from + minutes, to]);
        more -= minutes as usize;
    }
    let repeated: Vec<Row> = plan.iter().copied().cycle().take(more).collect();
    rows.extend(repeated);
    rows.concat()
}

/// One change: some leave a right plan right, such as another order of rows, a row cut in two, or
/// two processors of equal memory exchanged.
fn change(random: &mut Random, rows: &mut Vec<Row>) {
    if rows.is_empty() {
        return;
    }
    let place = random.below(rows.len());
    let other = random.below(rows.len());
    match random.below(12) {
        0 | 1 => random.shuffle(rows),
        2 => change_number(random, &mut rows[place]),
        3 | 4 => split(random, rows, place),
        5 => rows.push(rows[place]),
        6 => drop(rows.remove(place)),
        7 => exchange(rows, 1, place, other),
        8 => exchange(rows, 0, place, other),
        9 => move_row(random, &mut rows[place]),
        10 => shift_minute(random, rows),
        _ => swap_number(random, rows, place, other),
    }
}

/// Takes a minute from the end of one row and gives it to another row's end.
fn shift_minute(random: &mut Random, rows: &mut [Row]) {
    let place = random.below(rows.len());
    rows[place][3] = rows[place][3].wrapping_sub(1);
    let other = random.below(rows.len());
    rows[other][3] = rows[other][3].wrapping_add(1);
}

fn change_number(random: &mut Random, row: &mut Row) {
    let at = random.below(4);
    row[at] = match random.below(5) {
        0 => row[at].wrapping_add(1),
        1 => row[at].wrapping_sub(1),
        2 => random.pick(&[0, 1, 16, 17, 48, 49]),
        3 => random.pick(&[1 << 31, u32::MAX - 1, u32::MAX]),
        _ => random.number() as u32,
    };
}

fn split(random: &mut Random, rows: &mut Vec<Row>, place: usize) {
    let [job, processor, from, to] = rows[place];
    if from.saturating_add(1) < to {
        let middle = random.between(i64::from(from) + 1, i64::from(to) - 1) as u32;
        rows[place][3] = middle;
        rows.push([job, processor, middle, to]);
    }
}

/// Exchanges the jobs or the processors of two rows in all rows.
fn exchange(rows: &mut [Row], at: usize, place: usize, other: usize) {
    let (one, other) = (rows[place][at], rows[other][at]);
    for row in rows {
        row[at] = match row[at] {
            number if number == one => other,
            number if number == other => one,
            number => number,
        };
    }
}

/// Moves a row by a minute, forward or back.
fn move_row(random: &mut Random, row: &mut Row) {
    let by = random.pick(&[1, u32::MAX]);
    row[2] = row[2].wrapping_add(by);
    row[3] = row[3].wrapping_add(by);
}

fn swap_number(random: &mut Random, rows: &mut [Row], place: usize, other: usize) {
    let at = random.below(4);
    let number = rows[place][at];
    rows[place][at] = rows[other][at];
    rows[other][at] = number;
}
