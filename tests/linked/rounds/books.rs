//! One book through a list of calls, booked and unbooked ones, accepted and refused, over several
//! orders: "From opening on, each call being given the book that the last one gave back, each count
//! equals the times of that maker's jobs in all plans written with it, worked out from the orders."

use super::estimates;
use crate::draw::bounds::Around;
use crate::draw::damage::{damaged, OF_ORDERS};
use crate::draw::files::file_of;
use crate::draw::lengths::{answer_length, room};
use crate::draw::orders::SMALL_FAMILIES;
use crate::draw::{books, reasons, times, Random};
use crate::expect::reason_numbers;
use crate::independent::{plan, read, rows_asked, timed_rows_asked, Order, MAKERS};
use crate::lent::{job_numbers, Call};
use crate::library::{Function, CLASS_NUMBERS, READERS};
use crate::trial::Trial;
use std::collections::BTreeMap;

/// An order whose calls share the book, accepted or not.
struct Subject {
    order: Order,
    file: Vec<u8>,
    around: Around,
}

/// A round: from opening, or from a drawn book.
pub fn sequence(trial: &mut Trial, seed: u64) {
    let subjects: Vec<Subject> = (0..1 + seed % 4).map(|_| subject(trial)).collect();
    let random = &mut trial.random;
    let first = match seed % 4 {
        0 | 1 => books::opened(),
        2 => books::nearly_full(random, &subjects[0].order),
        _ => books::drawn(random, &subjects[0].order),
    };
    let mut lent = first.clone();
    lent.resize(MAKERS + random.below(3), random.number() as u32);
    let mut ledger = Ledger {
        first,
        written: Vec::new(),
    };
    let calls = 8 + random.below(13);
    for _ in 0..calls {
        let subject = &subjects[trial.random.below(subjects.len())];
        let function = any_function(&mut trial.random);
        let call = call(&mut trial.random, function, subject);
        let call = call.with_book(&mut trial.random, &lent);
        let Some((result, after)) = trial.call(function, call) else {
            return;
        };
        lent = after.book.content().to_vec();
        if function.books() && result == 0 {
            ledger.written.push(&subject.order);
        }
        if let Some(wrong) = ledger.wrong(&lent) {
            trial.differs(format!("books, seed {seed}, {}: {wrong}", function.name()));
            return;
        }
    }
    let opened = ledger.first == books::opened();
    trial
        .tally
        .count_sequence(opened, calls, ledger.written.len());
}

/// A drawn order, sometimes one that is refused.
fn subject(trial: &mut Trial) -> Subject {
    let random = &mut trial.random;
    let (_, family) = SMALL_FAMILIES[random.below(SMALL_FAMILIES.len())];
    let mut order = family(random);
    if random.once_in(6) {
        let number = random.pick(&OF_ORDERS);
        order = damaged(random, &order, number);
    }
    let file = file_of(random, &order);
    let around = match read(&file).is_ok() {
        true => Around::of(&order, trial.least(&file)),
        false => Around::any(&mut trial.random),
    };
    Subject {
        order,
        file,
        around,
    }
}

/// Mostly one that books, else any that takes an order.
fn any_function(random: &mut Random) -> Function {
    let any = [&READERS[..], &[Function::Write]].concat();
    match random.below(5) {
        0..=1 => Function::BookLeast,
        2..=3 => Function::BookPlan,
        _ => random.pick(&any),
    }
}

/// A call on the order, mostly with bounds and buffers that are good.
fn call(random: &mut Random, function: Function, subject: &Subject) -> Call {
    let answer = answer_length(random, function);
    if function == Function::Write {
        let (memories, jobs) = (&subject.order.memories, job_numbers(&subject.order.jobs));
        return Call::with_lists(random, memories, &jobs, subject.file.len(), answer);
    }
    let bound = match random.below(4) {
        0 => subject.around.bound(random),
        _ => subject.around.least + random.between(-1, 9) as i32,
    };
    let call = Call::with_file(random, &subject.file, answer).at(bound);
    if function.takes_highs() {
        return estimates::with_any_highs(random, &subject.file, call);
    }
    let Ok(order) = read(&subject.file) else {
        return call.with_room(random, 4);
    };
    if function == Function::Check {
        let rows = plan(&order, subject.around.least).unwrap_or_default();
        return call.with_rows(random, &rows.concat());
    }
    if function.takes_times() {
        let drawn = times::drawn(random, &order, subject.around.least);
        let room = room(random, timed_rows_asked(&order, &drawn, bound.into()));
        let windows = times::window_numbers(&drawn.windows);
        return call
            .with_room(random, room)
            .with_times(random, &drawn.ready, &windows);
    }
    let reason = reasons::standing(random, &order, bound);
    let room = room(random, rows_asked(&order));
    call.with_room(random, room)
        .with_class_room(random, CLASS_NUMBERS)
        .with_reason(random, &reason_numbers(reason))
        .with_line_room(random, 541)
}

/// The book at the beginning, and the orders of all plans that were written with it since.
struct Ledger<'a> {
    first: Vec<u32>,
    written: Vec<&'a Order>,
}

impl Ledger<'_> {
    /// The minutes of each maker, worked out from the orders.
    fn minutes(&self) -> BTreeMap<u32, u64> {
        let mut minutes = BTreeMap::new();
        for job in self.written.iter().flat_map(|order| &order.jobs) {
            *minutes.entry(job.maker).or_insert(0) += u64::from(job.time);
        }
        minutes
    }

    /// What is wrong with the book by now. "The sum of the sixteen counts equals the times of all
    /// their jobs".
    fn wrong(&self, book: &[u32]) -> Option<String> {
        let minutes = self.minutes();
        for (maker, (first, count)) in (1..).zip(self.first.iter().zip(book)) {
            let own = minutes.get(&maker).copied().unwrap_or(0);
            if u64::from(*first) + own != u64::from(*count) {
                let from = format!("from {first} on {own} minutes were planned");
                return Some(format!("maker {maker}: {from}, and {count} is booked"));
            }
        }
        let jobs = self.written.iter().flat_map(|order| &order.jobs);
        let times: u64 = jobs.map(|job| u64::from(job.time)).sum();
        let grown = sum(&book[..MAKERS]) - sum(&self.first);
        (grown != times).then(|| format!("{grown} minutes are booked in all, not {times}"))
    }
}

fn sum(counts: &[u32]) -> u64 {
    counts.iter().map(|count| u64::from(*count)).sum()
}
