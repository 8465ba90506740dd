//! Wrong in a booked call but not in what it books: sixteen numbers are lent, and no other is changed;
//! 253 stands after 255 and before 12; the plan is that of the call that does not book.

use super::{accepted, answered, count_at, plan_of, refused, replanned, Wrong};
use crate::independent::{plan, MAKERS};
use crate::lent::Call;
use crate::library::{Entry, Function};
use crate::model::MODEL;

pub const PARTS: &[&[Wrong]] = &[BUFFERS, LENGTHS, ORDER, PLANS];

const BUFFERS: &[Wrong] = of_both!(writes:
    "changes the number after the sixteenth" => |_, call| {
        if let Some(number) = call.book.content_mut().get_mut(MAKERS) {
            *number ^= 1;
        }
    },
    "clears a longer book to its end" => |_, call| call.book.content_mut()[MAKERS..].fill(0),
    "has the sum of all counts after the sixteenth" => |_, call| {
        let sum = |sum: u32, count: &u32| sum.wrapping_add(*count);
        let sum = call.book.content()[..MAKERS].iter().fold(0, sum);
        if let Some(number) = call.book.content_mut().get_mut(MAKERS) {
            *number = sum;
        }
    },
    "touches the guard before its book" => |_, call| *call.book.before_mut() ^= 1,
    "touches the guard after its book" => |_, call| *call.book.after_mut() ^= 1,
    "changes the file" => |_, call| call.file.content_mut()[12] ^= 1,
    "clears the rows beyond its plan" => |function, call| {
        let written = 4 * call.answer.content()[count_at(function)] as usize;
        call.rows.content_mut()[written..].fill(0);
    },
    "clears a longer answer to its end" => |function, call| {
        call.answer.content_mut()[function.answer_length()..].fill(0)
    },
);

const LENGTHS: &[Wrong] = of_both!(asks:
    "does not take a book of 16" => |length| length > 16,
    "takes no book of over 16" => |length| length == 16,
    "counts the book in 8 bits" => |length| length % 256 >= 16,
    "counts the book in 16 bits" => |length| length % 65_536 >= 16,
    "takes a book of 15" => |length| length >= 15,
    "takes a book of any length" => |_| true,
);

const ORDER: &[Wrong] = of_both!(short_book:
    "tells a short book before a short answer" => |told, _| match told {
        255 => 253,
        _ => told,
    },
    "tells a bad file before a short book" => |told, next| match next {
        12 => 12,
        _ => told,
    },
    "tells a refused order before a short book" => |told, next| match next % 256 {
        1..=7 | 12 | 13 => next,
        _ => told,
    },
    "tells a short buffer before a short book" => |told, next| match next {
        9 => 9,
        _ => told,
    },
);

const PLANS: &[Wrong] = &[
    (Function::BookLeast, "is one too large", |call| {
        answered(MODEL.book_least, call, |call| {
            call.answer.content_mut()[0] += 1
        })
    }),
    (Function::BookLeast, "is one too small", |call| {
        answered(MODEL.book_least, call, |call| {
            call.answer.content_mut()[0] -= 1
        })
    }),
    (Function::BookLeast, "has a plan a minute later", |call| {
        replanned(Function::BookLeast, call, |made| {
            plan(&made.order, made.bound + 1).expect("a looser bound is met")
        })
    }),
    (Function::BookLeast, "counts a row too many", |call| {
        answered(MODEL.book_least, call, |call| {
            call.answer.content_mut()[1] += 1
        })
    }),
    (Function::BookPlan, "counts a row too few", |call| {
        answered(MODEL.book_plan, call, |call| {
            call.answer.content_mut()[0] -= 1
        })
    }),
    (Function::BookPlan, "writes its rows backwards", |call| {
        replanned(Function::BookPlan, call, |made| {
            made.rows.iter().rev().copied().collect()
        })
    }),
    (Function::BookPlan, "plans at the least lateness", |call| {
        let bound = accepted(call).map(|_| super::least(call));
        replanned(Function::BookPlan, call, |made| {
            plan(&made.order, bound.unwrap_or(made.bound)).expect("the least lateness is met")
        })
    }),
    (Function::BookPlan, "writes no rows", |call| {
        replanned(Function::BookPlan, call, |_| Vec::new())
    }),
    (Function::BookLeast, "answers the minutes booked", |call| {
        answered(MODEL.book_least, call, |call| {
            let made = plan_of(Function::BookLeast, call);
            let all: u32 = made.order.jobs.iter().map(|job| job.time).sum();
            call.answer.content_mut()[count_at(Function::BookLeast)] = all as i32;
        })
    }),
    (
        Function::BookPlan,
        "writes rows where the bound is tight",
        |call| {
            refused(MODEL.book_plan, call, |call| {
                if let Some(number) = call.rows.content_mut().first_mut() {
                    *number = 0;
                }
            })
        },
    ),
];

/// A change where the call succeeds.
fn writes(function: Function, call: &mut Call, change: fn(Function, &mut Call)) -> u32 {
    answered(MODEL.entry(function), call, |call| change(function, call))
}

/// 253 by another rule for lengths; a book that is taken though it is short is not written.
fn asks(function: Function, call: &mut Call, enough: fn(usize) -> bool) -> u32 {
    let result = MODEL.entry(function)(&mut call.clone());
    match (result, enough(call.book.len())) {
        (253, true) => unbooked(function)(call),
        (255, _) | (_, true) => MODEL.entry(function)(call),
        (_, false) => 253,
    }
}

/// Another result where the book is short, from this one and from that with no book asked for.
fn short_book(function: Function, call: &mut Call, told: fn(u32, u32) -> u32) -> u32 {
    let result = MODEL.entry(function)(call);
    if call.book.len() >= MAKERS {
        return result;
    }
    let next = unbooked(function)(&mut call.clone());
    told(result, next)
}

/// The function that plans likewise and does not book.
fn unbooked(function: Function) -> Entry {
    match function {
        Function::BookLeast => MODEL.least,
        _ => MODEL.plan,
    }
}
