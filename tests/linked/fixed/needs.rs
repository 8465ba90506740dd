//! Document 02's §7, needs from a maker's table: "first 32 lines count, any further ones being passed
//! over"; "Lengths 1 to 100,000 must each be met by one line, lines in any order"; "the refusals here are
//! 17, 18, 5 and 9, in that order".

use super::case;
use crate::independent::{Line, LONGEST_LENGTH as LAST};
use crate::lent::Call;
use crate::library::{Function, MOST_LENGTHS};
use crate::trial::Trial;

const HALVES: [Line; 2] = [[1, 30_000, 4], [30_001, LAST, 8]];
const WHOLE: Line = [1, LAST, 6];

pub fn run(trial: &mut Trial) {
    filled(trial);
    unmet(trial);
    met_twice(trial);
    idle_lines(trial);
    first_32(trial);
    left_over(trial);
    lists(trial);
    rooms(trial);
    in_order(trial);
}

/// These numbers for a table give these lengths these needs.
fn gives(trial: &mut Trial, table: &[u32], lengths: &[u32], needs: &[u32]) {
    let count = lengths.len();
    let call = Call::with_table(&mut trial.random, table, lengths, count, 1);
    let Some((result, after)) = trial.call(Function::Needs, call) else {
        return;
    };
    let told = (result, after.answer.content()[0]);
    if told != (0, count as i32) || after.needs.content() != needs {
        let is = format!("result and needs {told:?}, {:?}", after.needs.content());
        trial.differs(format!("{table:?}, {lengths:?}: {is}, not {needs:?}"));
    }
}

/// These numbers for a table are refused, or not, with a list of no length and with one of two.
fn judged(trial: &mut Trial, table: &[u32], result: u32) {
    for lengths in [&[][..], &[1, LAST]] {
        let call = Call::with_table(&mut trial.random, table, lengths, lengths.len(), 1);
        case(trial, Function::Needs, call, result, &[]);
    }
}

/// Lines of so many lengths each, from 1 on, with the places as needs.
fn even(count: u32, lengths: u32) -> Vec<Line> {
    let line = |place: u32| [1 + place * lengths, (place + 1) * lengths, place];
    (0..count).map(line).collect()
}

fn filled(trial: &mut Trial) {
    let [short, long] = HALVES;
    for table in [[short, long], [long, short]] {
        gives(trial, &table.concat(), &[30_000, 30_001], &[4, 8]);
        gives(trial, &table.concat(), &[1, LAST, 1], &[4, 8, 4]);
    }
    for need in [0, 1, 65_536, 1 << 31, u32::MAX] {
        gives(trial, &[1, LAST, need], &[1, 7, LAST], &[need; 3]);
    }
    let single = [[2, LAST - 1, 5], [LAST, LAST, 9], [1, 1, 7]];
    let lengths = [LAST, LAST - 1, 2, 1, 1];
    gives(trial, &single.concat(), &lengths, &[9, 5, 5, 7, 7]);
    let mut lines = even(32, 3_125);
    let firsts: Vec<u32> = lines.iter().map(|line| line[0]).collect();
    let lasts: Vec<u32> = lines.iter().map(|line| line[1]).collect();
    let places: Vec<u32> = (0..32).collect();
    for _ in 0..2 {
        gives(trial, &lines.concat(), &firsts, &places);
        gives(trial, &lines.concat(), &lasts, &places);
        lines.reverse();
    }
    gives(trial, &WHOLE, &[], &[]);
}

/// "A length that no line meets is 17, carrying the smallest such length".
fn unmet(trial: &mut Trial) {
    let cases: [(&[Line], u32); 12] = [
        (&[], 1),
        (&[[1, 10, 0], [10, 50, 0], [52, LAST, 0]], 51),
        (&[[1, 10, 0], [12, 50, 0], [50, LAST, 0]], 11),
        (&[[2, LAST, 0]], 1),
        (&[[1, LAST - 1, 0]], LAST),
        (&[[2, LAST - 1, 0]], 1),
        (&[[1, 499, 0], [501, LAST, 0]], 500),
        (&[[501, LAST, 0], [1, 499, 0]], 500),
        (&[[1, 1, 0]], 2),
        (&[[LAST, LAST, 0]], 1),
        (&[[1, 65_535, 0], [65_537, LAST, 0]], 65_536),
        (&[[1, 9, 0], [11, 19, 0], [21, LAST, 0]], 10),
    ];
    for (lines, length) in cases {
        judged(trial, &lines.concat(), 17 + 256 * length);
    }
}

/// "one met by two lines is 18, likewise".
fn met_twice(trial: &mut Trial) {
    let cases: [(&[Line], u32); 13] = [
        (&[[1, 10, 0], [10, LAST, 0]], 10),
        (&[[10, LAST, 0], [1, 10, 0]], 10),
        (&[WHOLE, WHOLE], 1),
        (&[WHOLE, [1, LAST, 7]], 1),
        (&[WHOLE, WHOLE, WHOLE], 1),
        (&[WHOLE, [1, 1, 0]], 1),
        (&[WHOLE, [LAST, LAST, 0]], LAST),
        (&[WHOLE, [LAST, LAST, 0], [7, 7, 0], [9, 9, 0]], 7),
        (&[[1, 60, 0], [40, 80, 0], [50, LAST, 0]], 40),
        (&[[1, 60, 0], [61, LAST, 0], [60, 61, 0]], 60),
        (&[[1, 65_536, 0], [65_536, LAST, 0]], 65_536),
        (&[[1, 50, 0], [20, 30, 0], [51, LAST, 0]], 20),
        (&[[2, LAST, 0], [1, 9, 0], [9, 9, 0]], 2),
    ];
    for (lines, length) in cases {
        judged(trial, &lines.concat(), 18 + 256 * length);
    }
}

/// "a line out of range or running backwards meets no length", not even in its part that is in range.
fn idle_lines(trial: &mut Trial) {
    let (far, most) = (LAST + 1, u32::MAX);
    let ends = [
        [0, LAST],
        [1, far],
        [LAST, 1],
        [0, far],
        [0, 0],
        [far, far],
        [2, 1],
        [LAST, LAST - 1],
        [1, 0],
        [far, LAST],
        [1, most],
        [most, LAST],
        [131_073, LAST],
        [1, 1 << 31],
    ];
    for [from, to] in ends {
        judged(trial, &[from, to, 3], 17 + 256);
        let lines = [WHOLE, [from, to, 3]];
        gives(trial, &lines.concat(), &[1, LAST], &[6, 6]);
        gives(trial, &[lines[1], WHOLE].concat(), &[1, LAST], &[6, 6]);
    }
}

/// "whose first 32 lines count, any further ones being passed over".
fn first_32(trial: &mut Trial) {
    let mut lines = even(32, 3_031);
    lines.push([96_993, LAST, 0]);
    judged(trial, &lines.concat(), 17 + 256 * 96_993);
    lines.rotate_right(1);
    judged(trial, &lines.concat(), 17 + 256 * 93_962);
    lines[1][1] = 2 * 3_031;
    lines.remove(2);
    judged(trial, &lines.concat(), 0);
    let mut lines = even(32, 3_125);
    judged(trial, &lines.concat(), 0);
    judged(trial, &lines[..31].concat(), 17 + 256 * 96_876);
    for further in [[1, 1, 9], WHOLE, [0, LAST, 9], [LAST, LAST, 9]] {
        lines.push(further);
        gives(trial, &lines.concat(), &[1, LAST], &[0, 31]);
        lines.push(WHOLE);
        gives(trial, &lines.concat(), &[1, LAST], &[0, 31]);
    }
    // as many lines as look like none or one to whoever counts in 8 or 16 bits
    for count in [256, 257, 65_536, 65_537] {
        lines.resize(count, [5, 5, 5]);
        gives(trial, &lines.concat(), &[1, LAST], &[0, 31]);
    }
    let mut late = vec![[0, 0, 0]; 32];
    late.push(WHOLE);
    judged(trial, &late.concat(), 17 + 256);
    judged(trial, &late[1..].concat(), 0);
    judged(trial, &late[2..].concat(), 0);
}

/// One or two numbers left over are no line.
fn left_over(trial: &mut Trial) {
    let numbers = HALVES.concat();
    judged(trial, &numbers[..5], 17 + 256 * 30_001);
    judged(trial, &numbers[..4], 17 + 256 * 30_001);
    judged(trial, &numbers[..2], 17 + 256);
    judged(trial, &numbers[..1], 17 + 256);
    for more in [&[1][..], &[1, LAST], &[0], &[0, 0], &[LAST, LAST]] {
        let table = [&numbers[..], more].concat();
        gives(trial, &table, &[30_000, 30_001], &[4, 8]);
    }
    let lines = even(32, 3_125).concat();
    judged(trial, &[&lines[..], &[1, 1]].concat(), 0);
    judged(trial, &lines[..95], 17 + 256 * 96_876);
    judged(trial, &lines[1..], 17 + 256);
}

/// "a listed length out of range is 5": the first such place is carried. The list may be longer than any
/// order's.
fn lists(trial: &mut Trial) {
    let table = HALVES.concat();
    for length in [0, LAST + 1, 131_073, 1 << 31, u32::MAX - 1, u32::MAX] {
        for (good, bad) in [(0, 1), (0, 3), (2, 1), (2, 2)] {
            let lengths = [vec![LAST; good], vec![length; bad], vec![1]].concat();
            let result = 5 + 256 * (good as u32 + 1);
            let call = Call::with_table(&mut trial.random, &table, &lengths, 9, 1);
            case(trial, Function::Needs, call, result, &[]);
        }
    }
    for count in [1, 48, 49, 255, 256, 257, 65_535, 65_536, 65_537, 70_000] {
        let mut lengths: Vec<u32> = (0..count).map(|place| 30_000 + place as u32 % 2).collect();
        let needs: Vec<u32> = (0..count).map(|place| 4 + 4 * (place as u32 % 2)).collect();
        gives(trial, &table, &lengths, &needs);
        lengths[count - 1] = 0;
        let call = Call::with_table(&mut trial.random, &table, &lengths, count, 2);
        case(trial, Function::Needs, call, 5 + 256 * count as u32, &[]);
    }
}

/// "a buffer for fewer needs is 9, and then none is filled in"; one for more is left beyond the needs.
fn rooms(trial: &mut Trial) {
    let table = HALVES.concat();
    for count in [0, 1, 2, 3, 47, 48, 49, 300] {
        let lengths = vec![LAST; count];
        let rooms = [0, count.max(1) - 1, count, count + 1, 48, 256, 65_536];
        for room in rooms {
            let call = Call::with_table(&mut trial.random, &table, &lengths, room, 3);
            let (result, answer) = match room < count {
                true => (9, None),
                false => (0, Some(count as i32)),
            };
            case(trial, Function::Needs, call, result, answer.as_slice());
        }
    }
}

/// "the refusals here are 17, 18, 5 and 9, in that order", after 255: all that hold at once.
fn in_order(trial: &mut Trial) {
    let tables: [(&[Line], u32); 4] = [
        (&[WHOLE], 0),
        (&[[1, 8, 0], [10, LAST, 0]], 17 + 256 * 9),
        (&[WHOLE, [4, 4, 0]], 18 + 256 * 4),
        (&[[1, 8, 0], [4, 4, 0], [10, LAST, 0]], 17 + 256 * 9),
    ];
    for (lines, of_table) in tables {
        for (length, of_list) in [(5, 0), (0, 5 + 256 * 2), (LAST + 1, 5 + 256 * 2)] {
            for (room, of_room) in [(3, 0), (2, 9), (1, 9), (0, 9)] {
                for (answer, of_answer) in [(1, 0), (0, 255)] {
                    let told = [of_answer, of_table, of_list, of_room];
                    let first = told.into_iter().find(|result| *result != 0);
                    let (random, table) = (&mut trial.random, lines.concat());
                    let call = Call::with_table(random, &table, &[5, length, 5], room, answer);
                    case(trial, Function::Needs, call, first.unwrap_or(0), &[]);
                }
            }
        }
    }
}

/// As many lengths as a result has room for a place of, and one more, which is 253: after 255 and before
/// all others.
pub fn long_lists(trial: &mut Trial) {
    let good = HALVES.concat();
    let (gap, twice) = ([2, LAST, 0], [WHOLE, WHOLE].concat());
    let mut lengths = vec![30_001; MOST_LENGTHS + 1];
    lengths[MOST_LENGTHS] = 0;
    let last = 5 + 256 * MOST_LENGTHS as u32;
    let cases: [(&[u32], &[u32], usize, u32); 5] = [
        (&gap, &lengths, 0, 255),
        (&gap, &lengths, 1, 253),
        (&twice, &lengths, 1, 253),
        (&good, &lengths, 1, 253),
        (&good, &lengths[1..], 1, last),
    ];
    for (table, lengths, answer, result) in cases {
        if trial.difference.is_none() {
            let call = Call::with_table(&mut trial.random, table, lengths, 0, answer);
            case(trial, Function::Needs, call, result, &[]);
        }
    }
    lengths.truncate(MOST_LENGTHS);
    if trial.difference.is_none() {
        gives(trial, &good, &lengths, &vec![8; MOST_LENGTHS]);
    }
}
