//! Wrong in a full book: "a count that would then be over 4,000,000,000, handed in so or not, is 14,
//! last of all and before any row is written".

use super::{accepted, Wrong};
use crate::independent::{booked, minutes_of, Order, MAKERS, MOST_BOOKED};
use crate::lent::{Call, Lent};
use crate::library::Function;
use crate::model::MODEL;

pub const PARTS: &[&[Wrong]] = &[ASKED, BEFORE, BEFORE_BOUNDS, TOLD, WRITTEN];

/// Another rule for when a book is full: of each maker the count handed in and the minutes planned.
const ASKED: &[Wrong] = of_both!(full_where:
    "is never full" => |_| false,
    "is full only by makers of the order" => |makers| {
        makers.iter().any(|at| at.planned > 0 && at.over())
    },
    "is full only by makers without a job" => |makers| {
        makers.iter().any(|at| at.planned == 0 && at.over())
    },
    "is full only by what is handed in" => |makers| {
        makers.iter().any(|at| at.count > MOST_BOOKED)
    },
    "is full only by what is planned on top" => |makers| {
        makers.iter().any(|at| at.count <= MOST_BOOKED && at.over())
    },
    "is full by maker 1 alone" => |makers| makers[0].over(),
    "is not full by maker 1" => |makers| makers[1..].iter().any(Maker::over),
    "is not full by maker 16" => |makers| makers[..15].iter().any(Maker::over),
    "is full only where every count is" => |makers| makers.iter().all(Maker::over),
    "is full by the first maker planned alone" => |makers| {
        let first = makers.iter().find(|at| at.planned > 0);
        first.is_some_and(Maker::over)
    },
    "is full at 4,000,000,000" => |makers| makers.iter().any(|at| at.then() >= MOST_BOOKED),
    "is full at 4,000,000,000 handed in" => |makers| {
        makers.iter().any(|at| at.count >= MOST_BOOKED || at.over())
    },
    "is full only over 4,000,000,001" => |makers| {
        makers.iter().any(|at| at.then() > MOST_BOOKED + 1)
    },
    "is full only over 4,294,967,295" => |makers| {
        makers.iter().any(|at| at.then() > u32::MAX.into())
    },
    "counts in 32 bits" => |makers| {
        makers.iter().any(|at| at.then() % (1 << 32) > MOST_BOOKED)
    },
    "takes counts for signed numbers" => |makers| {
        makers.iter().any(|at| i64::from(at.then() as u32 as i32) > MOST_BOOKED as i64)
    },
    "takes large counts for negative numbers" => |makers| {
        makers.iter().any(|at| at.then() > i32::MAX as u64)
    },
    "is full by the sum of all counts" => |makers| {
        makers.iter().map(Maker::then).sum::<u64>() > MOST_BOOKED
    },
    "is full by all minutes of the order" => |makers| {
        let all: u64 = makers.iter().map(|at| at.planned).sum();
        makers.iter().any(|at| at.count + all > MOST_BOOKED)
    },
    "does not see the minutes planned" => |makers| {
        makers.iter().any(|at| at.count >= MOST_BOOKED && at.planned > 0 || at.count > MOST_BOOKED)
    },
);

/// 14 in place of another refusal.
const BEFORE: &[Wrong] = of_both!(told_before:
    "tells a full book before a short buffer" => 9,
    "tells a full book before a job that fits no processor" => 7,
    "tells a full book before a maker" => 13,
    "tells a full book before a time" => 5,
    "tells a full book before a bad file" => 12,
);

/// 14 in place of the refusals that only a bound can have.
const BEFORE_BOUNDS: &[Wrong] = &[
    (
        Function::BookPlan,
        "tells a full book before a tight bound",
        |call| told_before(Function::BookPlan, call, 10),
    ),
    (
        Function::BookPlan,
        "tells a full book before a bound out of range",
        |call| told_before(Function::BookPlan, call, 8),
    ),
];

const TOLD: &[Wrong] = of_both!(tells:
    "carries the maker of a full book" => |makers, _| {
        let over = makers.iter().position(Maker::over);
        14 + 256 * (over.unwrap_or(0) as u32 + 1)
    },
    "carries the first job of a full book" => |makers, order| {
        let over = |maker: u32| makers[maker as usize - 1].over();
        let first = order.jobs.iter().position(|job| over(job.maker));
        first.map_or(14, |place| 14 + 256 * (place as u32 + 1))
    },
    "carries job 1 with a full book" => |_, _| 14 + 256,
    "tells a full book as a short buffer" => |_, _| 9,
    "tells a full book as a tight bound" => |_, _| 10,
    "tells a full book as a maker out of range" => |_, _| 13,
    "tells a full book as a short one" => |_, _| 253,
);

/// Something written though the book is full.
const WRITTEN: &[Wrong] = of_both!(leaves:
    "writes its rows though the book is full" => |call, roomy| {
        call.rows = roomy.rows.clone();
    },
    "writes a row though the book is full" => |call, roomy| {
        let row = roomy.rows.content()[..4].to_vec();
        call.rows.put(&row);
    },
    "answers though the book is full" => |call, roomy| {
        call.answer = roomy.answer.clone();
    },
    "fills a full book to the most" => |call, roomy| {
        let then = call.book.content().iter().zip(&roomy.book.content()[..MAKERS]);
        let then = then.map(|(count, planned)| {
            (u64::from(*count) + u64::from(*planned)).min(MOST_BOOKED) as u32
        });
        let then: Vec<u32> = then.collect();
        call.book.put(&then);
    },
    "books the makers before the full one" => |call, roomy| {
        let planned = roomy.book.content()[..MAKERS].to_vec();
        for (count, planned) in call.book.content_mut().iter_mut().zip(planned) {
            let then = u64::from(*count) + u64::from(planned);
            if then > MOST_BOOKED {
                break;
            }
            *count = then as u32;
        }
    },
);

/// A maker's count handed in, and the minutes of his jobs in the order.
struct Maker {
    count: u64,
    planned: u64,
}

impl Maker {
    fn then(&self) -> u64 {
        self.count + self.planned
    }

    fn over(&self) -> bool {
        self.then() > MOST_BOOKED
    }
}

fn makers(call: &Call, order: &Order) -> Vec<Maker> {
    let counts = (1..).zip(&call.book.content()[..MAKERS]);
    let maker = |(maker, count): (u32, &u32)| Maker {
        count: u64::from(*count),
        planned: minutes_of(order, maker),
    };
    counts.map(maker).collect()
}

/// The call with an opened book in place of its own; none where it is refused even so.
fn roomy(function: Function, call: &Call) -> Option<Call> {
    let mut roomy = call.clone();
    let opened = vec![0; call.book.len().min(MAKERS)];
    roomy.book.put(&opened);
    (MODEL.entry(function)(&mut roomy) == 0).then_some(roomy)
}

/// The planner with another rule for when a book is full; where it is not, each count is added to in
/// 32 bits.
fn full_where(function: Function, call: &mut Call, full: fn(&[Maker]) -> bool) -> u32 {
    let Some(roomy) = roomy(function, call) else {
        return MODEL.entry(function)(call);
    };
    let order = accepted(call).expect("the call was answered");
    let makers = makers(call, &order);
    if full(&makers) {
        return 14;
    }
    let then: Vec<u32> = makers.iter().map(|at| at.then() as u32).collect();
    put(&mut call.rows, &roomy.rows);
    put(&mut call.answer, &roomy.answer);
    call.book.put(&then);
    0
}

fn put<T: Copy + PartialEq>(lent: &mut Lent<T>, other: &Lent<T>) {
    lent.put(other.content());
}

/// 14 in place of this refusal where the book is full, by an order that is not accepted where a count
/// is handed in so.
fn told_before(function: Function, call: &mut Call, number: u32) -> u32 {
    let result = MODEL.entry(function)(call);
    if result % 256 != number || call.book.len() < MAKERS {
        return result;
    }
    let counts = &call.book.content()[..MAKERS];
    let full = match accepted(call) {
        Some(order) => booked(counts, &order).is_none(),
        None => counts.iter().any(|count| u64::from(*count) > MOST_BOOKED),
    };
    if full {
        14
    } else {
        result
    }
}

/// Another result where the book is full.
fn tells(function: Function, call: &mut Call, told: fn(&[Maker], &Order) -> u32) -> u32 {
    let result = MODEL.entry(function)(call);
    if result != 14 {
        return result;
    }
    let order = accepted(call).expect("the order was accepted");
    told(&makers(call, &order), &order)
}

/// Something written where the book is full, from what would be written with an opened one.
fn leaves(function: Function, call: &mut Call, write: fn(&mut Call, &Call)) -> u32 {
    let result = MODEL.entry(function)(call);
    if let (14, Some(roomy)) = (result, roomy(function, call)) {
        write(call, &roomy);
    }
    result
}
