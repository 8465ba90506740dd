//! Wrong in the words of a line: "the job with its time and its end, or each class's memory with its
//! due time, then minutes owed and minutes on hand".

use super::sentences::{composes, right};
use super::Wrong;
use crate::expect::reason_named;
use crate::independent::{end, line_of, minutes, Order, Reason};
use crate::lent::Call;
use crate::library::Function;

pub const WRONG: &[Wrong] = &[
    (Function::Sentence, "tells ends, not due times", |call| {
        says_stairs(call, |order, bound, dues, line| {
            let ends = dues.iter().map(|due| end(*due, bound.into()) as i32);
            let ends = line_of(order, bound, &Reason::Stairs(ends.collect()));
            line.replace(what(line), what(&ends))
        })
    }),
    (
        Function::Sentence,
        "tells due times a minute later",
        |call| {
            says_stairs(call, |order, bound, dues, line| {
                let later = dues.iter().map(|due| due + 1).collect();
                let later = line_of(order, bound, &Reason::Stairs(later));
                line.replace(what(line), what(&later))
            })
        },
    ),
    (
        Function::Sentence,
        "leaves out the due minute in a job's numbers",
        |call| {
            says(call, |order, bound, reason, line| match reason {
                Reason::Job { .. } => line_of(order, bound - 1, reason),
                Reason::Stairs(_) => line.to_string(),
            })
        },
    ),
    (
        Function::Sentence,
        "leaves out the due minute in a job's end alone",
        |call| {
            says(call, |order, bound, reason, line| match reason {
                Reason::Job { .. } => {
                    let early = line_of(order, bound - 1, reason);
                    line.replace(what(line), what(&early))
                }
                Reason::Stairs(_) => line.to_string(),
            })
        },
    ),
    (
        Function::Sentence,
        "leaves out the due minute in what staircases have on hand",
        |call| {
            says_stairs(call, |order, bound, dues, _| {
                line_of(order, bound - 1, &Reason::Stairs(dues.to_vec()))
            })
        },
    ),
    (
        Function::Sentence,
        "tells memories in input order",
        |call| {
            says_stairs(call, |order, _, dues, line| {
                let steps = order.memories.iter().zip(dues);
                let steps = steps.map(|(memory, due)| format!("memory {memory} due {due}"));
                let steps: Vec<String> = steps.collect();
                line.replace(what(line), &steps.join(", "))
            })
        },
    ),
    (
        Function::Sentence,
        "takes a memory for a signed number",
        |call| {
            says_stairs(call, |order, _, _, line| {
                let signed = |line: String, memory: &u32| {
                    let told = format!("memory {memory} ");
                    line.replace(&told, &format!("memory {} ", *memory as i32))
                };
                order.memories.iter().fold(line.to_string(), signed)
            })
        },
    ),
    (
        Function::Sentence,
        "tells a job's due time, not its end",
        |call| {
            // at -1 a job's end is its due time
            says(call, |order, _, reason, line| match reason {
                Reason::Job { .. } => line_of(order, -1, reason),
                Reason::Stairs(_) => line.to_string(),
            })
        },
    ),
    (Function::Sentence, "loses the minus sign", |call| {
        says(call, |_, _, _, line| line.replace('-', ""))
    }),
    (Function::Sentence, "exchanges owed and on hand", |call| {
        says(call, |order, bound, reason, line| {
            let (owed, on_hand) = minutes(order, bound, reason);
            format!("{}: owed {on_hand}, on hand {owed}", what(line))
        })
    }),
    (
        Function::Sentence,
        "ends its line with a line feed",
        |call| says(call, |_, _, _, line| format!("{line}\n")),
    ),
    (
        Function::Sentence,
        "has no line of over 540 bytes",
        |call| {
            says(call, |_, _, _, line| match line.len() {
                0..=540 => line.to_string(),
                _ => String::new(),
            })
        },
    ),
];

/// Other words for a reason that stands.
fn says(call: &mut Call, words: impl Fn(&Order, i32, &Reason, &str) -> String) -> u32 {
    composes(call, |order, bound, numbers| {
        let line = right(order, bound, numbers);
        match reason_named(numbers) {
            Some(reason) if !line.is_empty() => words(order, bound, &reason, &line),
            _ => line,
        }
    })
}

fn says_stairs(call: &mut Call, words: fn(&Order, i32, &[i32], &str) -> String) -> u32 {
    says(call, |order, bound, reason, line| match reason {
        Reason::Stairs(dues) => words(order, bound, dues, line),
        Reason::Job { .. } => line.to_string(),
    })
}

/// The words of a line before its minutes.
fn what(line: &str) -> &str {
    line.split(": owed").next().unwrap_or(line)
}
