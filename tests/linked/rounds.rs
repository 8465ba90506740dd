//! The drawn calls: accepted orders with bounds, row lists, reasons, lines and books around their
//! least lateness, orders that are refused, doubtful files, lists for the writer, processors of few
//! and of many memories, books that go through many calls, orders with ready minutes and windows,
//! tables of needs, orders whose jobs lie, by falling need, elsewhere than they are given, times known
//! only between lows and highs, orders from both callers, and register blocks that go through many accesses.

mod accepted;
mod block;
mod books;
mod classes;
mod estimates;
mod held;
mod needs;
mod refused;
mod screen;
mod times;

use crate::draw::bounds::Around;
use crate::draw::files::file_of;
use crate::draw::lengths::{answer_length, book_length, file_room, room};
use crate::draw::orders::{Family, LARGE_FAMILIES, SMALL_FAMILIES};
use crate::draw::Random;
use crate::draw::{books as drawn_books, lines, lists};
use crate::independent::{rows_asked, write, Order};
use crate::lent::{job_numbers, Call};
use crate::library::Function;
use crate::trial::Trial;
use accepted::Accepted;

/// How many rounds of each part.
pub struct Rounds {
    pub small: u64,
    pub large: u64,
    pub refused: u64,
    pub files: u64,
    pub lists: u64,
    pub classes: u64,
    pub books: u64,
    pub times: u64,
    pub large_times: u64,
    pub needs: u64,
    pub held: u64,
    pub estimates: u64,
    pub large_estimates: u64,
    pub screen: u64,
    pub screen_counts: u64,
    pub blocks: u64,
}

/// Runs all parts, up to the first difference.
pub fn run(trial: &mut Trial, rounds: &Rounds) {
    let parts: [(&str, u64, fn(&mut Trial, u64)); 16] = [
        ("small orders", rounds.small, small_order),
        ("large orders", rounds.large, large_order),
        ("refused orders", rounds.refused, refused::any_order),
        ("files", rounds.files, refused::doubtful_file),
        ("lists", rounds.lists, refused::any_lists),
        ("classes", rounds.classes, classes::any_memories),
        ("books", rounds.books, books::sequence),
        ("times", rounds.times, times::small),
        ("times of large orders", rounds.large_times, times::large),
        ("needs", rounds.needs, needs::any_table),
        ("jobs held", rounds.held, held::any_needs),
        ("estimates", rounds.estimates, estimates::small),
        (
            "estimates of large orders",
            rounds.large_estimates,
            estimates::large,
        ),
        ("both callers", rounds.screen, screen::any_order),
        ("counts", rounds.screen_counts, screen::any_counts),
        ("blocks", rounds.blocks, block::any_accesses),
    ];
    for (part, times, round) in parts {
        for seed in 0..times {
            if trial.difference.is_none() {
                trial.begin(part, seed);
                round(trial, seed);
            }
        }
    }
}

fn small_order(trial: &mut Trial, seed: u64) {
    accepted_order(trial, SMALL_FAMILIES, seed);
}

fn large_order(trial: &mut Trial, seed: u64) {
    accepted_order(trial, LARGE_FAMILIES, seed);
}

fn accepted_order(trial: &mut Trial, families: &[Family], seed: u64) {
    let (_, family) = families[seed as usize % families.len()];
    let order = family(&mut trial.random);
    let file = file_of(&mut trial.random, &order);
    let least = trial.least(&file);
    let around = Around::of(&order, least);
    let asked = rows_asked(&order);
    let accepted = Accepted {
        order: &order,
        file: &file,
        around,
    };
    trial_of(trial, Function::Judge, |random, answer| {
        Call::with_file(random, &file, answer)
    });
    classes::list(trial, &file);
    for _ in 0..3 {
        trial_of(trial, Function::Least, |random, answer| {
            let room = room(random, asked);
            Call::with_file(random, &file, answer).with_room(random, room)
        });
    }
    for _ in 0..6 {
        trial_of(trial, Function::Plan, |random, answer| {
            accepted.planning(random, answer)
        });
    }
    for _ in 0..8 {
        trial_of(trial, Function::Reason, |random, answer| {
            accepted.asking_why(random, answer)
        });
    }
    for function in [Function::BookLeast, Function::BookPlan] {
        for _ in 0..3 {
            trial_of(trial, function, |random, answer| {
                let (room, bound) = (room(random, asked), around.bound(random));
                let book = book(random, &order);
                Call::with_file(random, &file, answer)
                    .with_room(random, room)
                    .with_book(random, &book)
                    .at(bound)
            });
        }
    }
    sentences(trial, &accepted);
    checks(trial, &accepted);
    for _ in 0..2 {
        write_order(trial, &order);
    }
}

/// Makes a call with a drawn answer length.
fn trial_of(trial: &mut Trial, function: Function, make: impl FnOnce(&mut Random, usize) -> Call) {
    let answer = answer_length(&mut trial.random, function);
    let call = make(&mut trial.random, answer);
    trial.call(function, call);
}

/// A book before a plan of this order, of a drawn length.
fn book(random: &mut Random, order: &Order) -> Vec<u32> {
    let mut book = drawn_books::drawn(random, order);
    book.resize_with(book_length(random), || random.number() as u32);
    book
}

/// Reasons before hbr_sentence and lines before hbr_parse.
fn sentences(trial: &mut Trial, accepted: &Accepted) {
    for _ in 0..6 {
        trial_of(trial, Function::Sentence, |random, answer| {
            accepted.composing(random, answer)
        });
    }
    let Accepted {
        order,
        file,
        around,
    } = *accepted;
    for _ in 0..8 {
        trial_of(trial, Function::Parse, |random, answer| {
            let bound = around.tight(random);
            let line = lines::drawn(random, order, bound, around.least - 1);
            Call::with_file(random, file, answer)
                .with_line(random, &line)
                .at(bound)
        });
    }
}

/// Row lists before the plan check.
fn checks(trial: &mut Trial, accepted: &Accepted) {
    let made = accepted.made(&mut trial.random);
    for turn in 0..12 {
        trial_of(trial, Function::Check, |random, answer| {
            accepted.checking(random, &made, turn, answer)
        });
    }
}

/// A list around the most rows that a check takes, with or without numbers left over.
fn at_most_rows(random: &mut Random, made: &[[u32; 4]], most: usize) -> Vec<u32> {
    let far = if random.once_in(20) { 65_536 } else { 0 };
    let count = far + random.pick(&[most - 1, most, most + 1]);
    let mut rows = lists::cut(made, count);
    if random.once_in(3) {
        rows.extend(vec![1; 1 + random.below(3)]);
    }
    rows
}

fn write_order(trial: &mut Trial, order: &Order) {
    let length = write(order).len();
    write_lists(trial, &order.memories, &job_numbers(&order.jobs), length);
}

/// hbr_write with room for a file of about this length.
fn write_lists(trial: &mut Trial, memories: &[u32], jobs: &[u32], length: usize) {
    trial_of(trial, Function::Write, |random, answer| {
        let room = file_room(random, length);
        Call::with_lists(random, memories, jobs, room, answer)
    });
}
