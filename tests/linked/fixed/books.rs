//! Document 02's §4, the books: counts from opening on, the most that a count may be, and which
//! refusal is told before which.

use super::{a, b, c, case, d, made, on_few};
use crate::independent::{write, Order, MAKERS};
use crate::lent::Call;
use crate::library::Function;
use crate::trial::Trial;

const MOST: u32 = 4_000_000_000;
const BOOKING: [Function; 2] = [Function::BookLeast, Function::BookPlan];

type Book = [u32; MAKERS];

pub fn run(trial: &mut Trial) {
    opened(trial);
    by_makers(trial);
    one_book(trial);
    at_the_most(trial);
    over_the_most(trial);
    lengths(trial);
    before_others(trial);
}

/// A book of zeros but for these makers.
fn book(counts: &[(usize, u32)]) -> Book {
    let mut book = [0; MAKERS];
    counts
        .iter()
        .for_each(|(maker, count)| book[maker - 1] = *count);
    book
}

/// A booked call at a bound that is met, with this book before and that one after.
fn books(trial: &mut Trial, function: Function, order: &Order, before: Book, after: Book) {
    let call = on_few(&mut trial.random, order).with_book(&mut trial.random, &before);
    let Some((result, left)) = trial.call(function, call.at(5)) else {
        return;
    };
    if result != 0 || left.book.content() != after {
        let is = format!("result {result}, book {:?}", left.book.content());
        trial.differs(format!(
            "{} of {order:?}: {is}, not {after:?}",
            function.name()
        ));
    }
}

/// A call that is refused as full.
fn full(trial: &mut Trial, order: &Order, before: Book) {
    for function in BOOKING {
        let call = on_few(&mut trial.random, order).with_book(&mut trial.random, &before);
        case(trial, function, call.at(5), 14, &[]);
    }
}

/// "In document 01's cases the maker is 1."
fn opened(trial: &mut Trial) {
    for (order, minutes) in [(a(), 8), (b(), 8), (c(), 3), (d(), 3)] {
        for function in BOOKING {
            let after = book(&[(1, minutes)]);
            books(trial, function, &order, book(&[]), after);
        }
    }
}

/// Order A with a job each of makers 16, 2 and 16, and B with the sixteenth maker alone: 3 and 2 and
/// then 8 minutes are maker 16's.
fn of_makers() -> [Order; 2] {
    let a = made(&[8, 4], &[(3, 3, 8, 16), (3, 3, 4, 2), (2, 4, 2, 16)]);
    let mut b = b();
    b.jobs.iter_mut().for_each(|job| job.maker = 16);
    [a, b]
}

fn by_makers(trial: &mut Trial) {
    let [a, b] = of_makers();
    let all: Vec<(u32, i32, u32, u32)> = (1..=16).map(|maker| (100 * maker, 0, 1, maker)).collect();
    let mut of_all = made(&[4; 16], &all);
    of_all.jobs.iter_mut().for_each(|job| job.due = 1_000_000);
    let each: Vec<(usize, u32)> = (1..=16).map(|maker| (maker, 100 * maker as u32)).collect();
    for function in BOOKING {
        let after = book(&[(2, 3), (16, 5)]);
        books(trial, function, &a, book(&[]), after);
        books(trial, function, &b, after, book(&[(2, 3), (16, 13)]));
        books(trial, function, &of_all, book(&[]), book(&each));
    }
}

/// One book through calls that are accepted, refused and not booked, from opening on.
fn one_book(trial: &mut Trial) {
    let [a, b] = of_makers();
    let mut kept = book(&[]);
    let steps = [
        (Function::BookLeast, c(), 5, 0, book(&[(1, 3)])),
        (Function::BookPlan, c(), -9, 10, book(&[(1, 3)])),
        (
            Function::BookPlan,
            a.clone(),
            0,
            0,
            book(&[(1, 3), (2, 3), (16, 5)]),
        ),
        (
            Function::Least,
            a.clone(),
            0,
            0,
            book(&[(1, 3), (2, 3), (16, 5)]),
        ),
        (
            Function::BookPlan,
            b.clone(),
            -1,
            10,
            book(&[(1, 3), (2, 3), (16, 5)]),
        ),
        (
            Function::BookPlan,
            b,
            0,
            0,
            book(&[(1, 3), (2, 3), (16, 13)]),
        ),
        (
            Function::Plan,
            a.clone(),
            0,
            0,
            book(&[(1, 3), (2, 3), (16, 13)]),
        ),
        (Function::Check, a, 0, 0, book(&[(1, 3), (2, 3), (16, 13)])),
        (
            Function::BookLeast,
            c(),
            0,
            0,
            book(&[(1, 6), (2, 3), (16, 13)]),
        ),
    ];
    for (function, order, bound, result, then) in steps {
        let call = on_few(&mut trial.random, &order)
            .with_book(&mut trial.random, &kept)
            .at(bound);
        let Some((told, after)) = trial.call(function, call) else {
            return;
        };
        kept.copy_from_slice(after.book.content());
        if told != result || kept != then {
            let is = format!("result {told}, book {kept:?}");
            trial.differs(format!(
                "{} at {bound}: {is}, not {then:?}",
                function.name()
            ));
        }
    }
}

/// Exactly the most is good, by this plan or before it.
fn at_the_most(trial: &mut Trial) {
    let [a, _] = of_makers();
    for function in BOOKING {
        let before = book(&[(1, MOST - 3)]);
        books(trial, function, &c(), before, book(&[(1, MOST)]));
        let before = book(&[(1, 7), (2, MOST), (16, MOST)]);
        let after = book(&[(1, 10), (2, MOST), (16, MOST)]);
        books(trial, function, &c(), before, after);
        let before = book(&[(1, MOST), (2, MOST - 3), (16, MOST - 5)]);
        let after = book(&[(1, MOST), (2, MOST), (16, MOST)]);
        books(trial, function, &a, before, after);
    }
}

/// One more is not, whether its maker has a job here or not; and no sum is counted in 32 bits.
fn over_the_most(trial: &mut Trial) {
    let [a, b] = of_makers();
    full(trial, &c(), book(&[(1, MOST - 2)]));
    full(trial, &c(), book(&[(1, MOST)]));
    full(trial, &c(), book(&[(16, MOST + 1)]));
    full(trial, &c(), book(&[(2, MOST + 1)]));
    full(trial, &c(), book(&[(9, u32::MAX)]));
    full(trial, &c(), book(&[(1, u32::MAX)]));
    full(trial, &c(), book(&[(1, u32::MAX - 2)]));
    full(trial, &c(), [u32::MAX; MAKERS]);
    full(trial, &c(), [MOST + 1; MAKERS]);
    full(trial, &a, book(&[(16, MOST - 4)]));
    full(trial, &a, book(&[(2, MOST - 2)]));
    full(trial, &a, book(&[(1, MOST + 1)]));
    full(trial, &b, book(&[(16, MOST - 7)]));
}

/// "sixteen lent numbers": numbers after them are neither looked at nor changed.
fn lengths(trial: &mut Trial) {
    let file = write(&c());
    for function in BOOKING {
        for (length, result) in [(0, 253), (1, 253), (15, 253), (16, 0), (17, 0), (40, 0)] {
            let mut counts = vec![u32::MAX; length];
            counts[..length.min(MAKERS)].fill(0);
            let call = Call::with_file(&mut trial.random, &file, 2)
                .with_room(&mut trial.random, 4)
                .with_book(&mut trial.random, &counts);
            case(trial, function, call, result, &[]);
        }
    }
}

/// 255, 253, 12, 6, 13, 7, 8, 9, 10, 14, each where all that follow hold too.
fn before_others(trial: &mut Trial) {
    let bad = |due, maker, need| write(&made(&[4], &[(3, due, need, maker)]));
    let (late, nobody, large) = (bad(1_000_001, 0, 5), bad(10, 0, 5), bad(10, 1, 5));
    let (file, full, out) = (write(&c()), [u32::MAX; MAKERS], 10_000_001);
    let planning: [(usize, usize, &[u8], i32, usize, u32); 10] = [
        (0, 15, &late[1..], out, 0, 255),
        (1, 15, &late[1..], out, 0, 253),
        (1, 16, &late[1..], out, 0, 12),
        (1, 16, &late, out, 0, 6 + 256),
        (1, 16, &nobody, out, 0, 13 + 256),
        (1, 16, &large, out, 0, 7 + 256),
        (1, 16, &file, out, 0, 8),
        (1, 16, &file, -9, 3, 9),
        (1, 16, &file, -9, 4, 10),
        (1, 16, &file, -8, 4, 14),
    ];
    for (answer, length, file, bound, room, result) in planning {
        let call = Call::with_file(&mut trial.random, file, answer)
            .with_room(&mut trial.random, room)
            .with_book(&mut trial.random, &full[..length])
            .at(bound);
        case(trial, Function::BookPlan, call.clone(), result, &[]);
        // at the least lateness no bound is out of range or too tight
        let at_least = match result {
            8 | 9 => 9,
            10 => 14,
            _ => result,
        };
        let call = match answer {
            0 => call,
            _ => lengthened(trial, call),
        };
        case(trial, Function::BookLeast, call, at_least, &[]);
    }
}

/// The same call with room for the answer of the least lateness.
fn lengthened(trial: &mut Trial, call: Call) -> Call {
    let (file, rows) = (call.file.content(), call.rows.len());
    Call::with_file(&mut trial.random, file, 2)
        .with_room(&mut trial.random, rows)
        .with_book(&mut trial.random, call.book.content())
}
