//! Wrong in how the list for classes is lent: room for 16 classes whatever the order, else 253, after
//! 255 and before 12; nothing is written beyond the classes, and where the call is refused nothing at
//! all. Wrong in which orders are refused.

use super::classes::{down, put};
use super::{accepted, answered, refused, Wrong};
use crate::draw::files::jobs_first;
use crate::draw::Random;
use crate::independent::{class_list, lists, write};
use crate::lent::{Call, Lent};
use crate::library::{Function, CLASS_NUMBERS};
use crate::model::MODEL;

pub const PARTS: &[&[Wrong]] = &[WRITES, REFUSES, LENGTHS, ORDER, TAKES];

/// Something else written where the call succeeds, from what was lent.
const WRITES: &[Wrong] = of_one!(Classes, writes:
    "writes 0s after its classes" => |call, _| beyond(call, CLASS_NUMBERS).fill(0),
    "clears the list to its end" => |call, _| {
        let end = call.classes.len();
        beyond(call, end).fill(0);
    },
    "clears what lies beyond 32 numbers" => |call, _| {
        call.classes.content_mut()[CLASS_NUMBERS..].fill(0)
    },
    "closes its classes with a 0" => |call, _| {
        if let Some(next) = beyond(call, CLASS_NUMBERS).first_mut() {
            *next = 0;
        }
    },
    "leaves the sorted list behind its classes" => |call, _| {
        let order = accepted(call).expect("the call was answered");
        let sorted = down(&order.memories);
        for (place, memory) in beyond(call, CLASS_NUMBERS).iter_mut().zip(sorted) {
            *place = memory;
        }
    },
    "adds to the counts that lie there" => |call, before| {
        let written = 2 * call.answer.content()[0] as usize;
        for place in (1..written).step_by(2) {
            let count = &mut call.classes.content_mut()[place];
            *count = count.wrapping_add(before.classes.content()[place]);
        }
    },
    "leaves the first number" => |call, before| {
        let first = before.classes.content()[0];
        call.classes.content_mut()[0] = first;
    },
    "leaves the last count" => |call, before| {
        let last = 2 * call.answer.content()[0] as usize - 1;
        call.classes.content_mut()[last] = before.classes.content()[last];
    },
    "writes nothing" => |call, before| call.classes = before.classes.clone(),
    "leaves its answer" => |call, before| call.answer = before.answer.clone(),
    "begins its classes at the second number" => |call, before| {
        let first = before.classes.content()[0];
        call.classes.content_mut().rotate_right(1);
        call.classes.content_mut()[0] = first;
    },
    "has memories before all counts" => |call, _| {
        let count = call.answer.content()[0] as usize;
        let mut numbers = call.classes.content()[..2 * count].to_vec();
        for (place, class) in call.classes.content()[..2 * count].chunks_exact(2).enumerate() {
            (numbers[place], numbers[count + place]) = (class[0], class[1]);
        }
        call.classes.put(&numbers);
    },
    "touches the guard before its classes" => |call, _| *call.classes.before_mut() ^= 1,
    "touches the guard after its classes" => |call, _| *call.classes.after_mut() ^= 1,
    "touches the guard before its answer" => |call, _| *call.answer.before_mut() ^= 1,
    "touches the guard after its answer" => |call, _| *call.answer.after_mut() ^= 1,
    "clears a longer answer to its end" => |call, _| call.answer.content_mut()[1..].fill(0),
    "sorts the processors in the file" => |call, _| {
        let mut order = accepted(call).expect("the call was answered");
        let turned = call.file.content() == jobs_first(&order);
        order.memories = down(&order.memories);
        call.file.put(&if turned { jobs_first(&order) } else { write(&order) });
    },
);

/// Something written where the call is refused.
const REFUSES: &[Wrong] = of_one!(Classes, writes_refused:
    "writes classes where it refuses" => |call| {
        if let Some(first) = call.classes.content_mut().first_mut() {
            *first = 0;
        }
    },
    "clears its classes where it refuses" => |call| call.classes.content_mut().fill(0),
    "writes its answer where it refuses" => |call| {
        if let Some(first) = call.answer.content_mut().first_mut() {
            *first = 0;
        }
    },
    "writes what fits of a list that is too short" => |call| {
        if let Some(order) = accepted(call) {
            let numbers = class_list(&order).concat();
            let fits = numbers.len().min(call.classes.len());
            call.classes.put(&numbers[..fits]);
        }
    },
    "answers the classes though the list is too short" => |call| match accepted(call) {
        Some(order) if call.answer.len() > 0 => call.answer.put(&[class_list(&order).len() as i32]),
        _ => {}
    },
    "writes the last number of a refused list" => |call| {
        if let Some(last) = call.classes.content_mut().last_mut() {
            *last ^= 1;
        }
    },
);

/// How many numbers are lent, and how many classes and processors there are.
struct Lengths {
    lent: usize,
    classes: usize,
    processors: usize,
}

/// 253 by another rule.
const LENGTHS: &[Wrong] = of_one!(Classes, asks:
    "takes any list" => |_| true,
    "takes a list of 31 numbers" => |l| l.lent >= 31,
    "takes a list of 30 numbers" => |l| l.lent >= 30,
    "takes a list of 16 numbers" => |l| l.lent >= 16,
    "takes no list of 32 numbers" => |l| l.lent > 32,
    "takes a list of 32 numbers only" => |l| l.lent == 32,
    "takes no list of odd length" => |l| l.lent >= 32 && l.lent % 2 == 0,
    "asks for two numbers to a class of the order" => |l| l.lent >= 2 * l.classes,
    "asks for a number to a class of the order" => |l| l.lent >= l.classes,
    "asks for two numbers to a processor of the order" => |l| l.lent >= 2 * l.processors,
    "asks for more than two numbers to a class" => |l| l.lent >= 32 && l.lent > 2 * l.classes,
    "asks for three numbers to a class" => |l| l.lent >= 48,
    "counts the numbers lent in 8 bits" => |l| l.lent % 256 >= 32,
    "counts the numbers lent in 16 bits" => |l| l.lent % 65_536 >= 32,
);

/// Another refusal: from the one that is told, and from that with room for all classes.
const ORDER: &[Wrong] = of_one!(Classes, tells:
    "tells a short list before a short answer" => |call, told, _| match told {
        255 if call.classes.len() < CLASS_NUMBERS => 253,
        _ => told,
    },
    "tells a bad file before a short list" => |_, told, next| match (told, next) {
        (253, 12) => 12,
        _ => told,
    },
    "tells counts out of range before a short list" => |_, told, next| match (told, next) {
        (253, 1..=4) => next,
        _ => told,
    },
    "tells jobs before a short list" => |_, told, next| match (told, next % 256) {
        (253, 5..=7 | 13) => next,
        _ => told,
    },
    "tells a short list last of all" => |_, told, next| match (told, next) {
        (253, 0) => 253,
        (253, _) => next,
        _ => told,
    },
    "tells a bad file before a short answer" => |call, told, _| match told {
        255 if lists(call.file.content()).is_none() => 12,
        _ => told,
    },
    "tells a short list as a short buffer" => |_, told, _| match told {
        253 => 9,
        _ => told,
    },
    "tells a short list as a short answer" => |_, told, _| match told {
        253 => 255,
        _ => told,
    },
    "tells a short answer as a short list" => |_, told, _| match told {
        255 => 253,
        _ => told,
    },
    "carries the class that lacks room" => |call, told, _| match told {
        253 => 253 + 256 * (call.classes.len() as u32 / 2 + 1),
        _ => told,
    },
    "carries no job" => |_, told, _| told % 256,
);

/// Orders that are refused, let through.
const TAKES: &[Wrong] = of_one!(Classes, takes:
    "tells no class of no processor" => &[1],
    "tells the classes of the first 16 processors" => &[2],
    "takes an order without a job" => &[3],
    "takes an order of over 48 jobs" => &[4],
    "does not look at times" => &[5],
    "does not look at due times" => &[6],
    "takes a job that fits no processor" => &[7],
    "does not look at the jobs" => &[3, 4, 5, 6, 13, 7],
);

/// What lies beyond the classes that were written, up to so many numbers of the list.
fn beyond(call: &mut Call, end: usize) -> &mut [u32] {
    let written = 2 * call.answer.content()[0] as usize;
    &mut call.classes.content_mut()[written..end]
}

/// A change where the call succeeds.
fn writes(call: &mut Call, change: fn(&mut Call, &Call)) -> u32 {
    let before = call.clone();
    answered(MODEL.classes, call, |call| change(call, &before))
}

/// A change where the call is refused.
fn writes_refused(call: &mut Call, change: fn(&mut Call)) -> u32 {
    refused(MODEL.classes, call, change)
}

/// The call with room for all classes.
fn roomy(call: &Call) -> (u32, Call) {
    let mut roomy = call.clone();
    roomy.classes = Lent::filled(CLASS_NUMBERS, &mut Random::new(0), |drawn| drawn as u32);
    let result = (MODEL.classes)(&mut roomy);
    (result, roomy)
}

/// 253 by another rule for lengths; of the classes those numbers are written that fit.
fn asks(call: &mut Call, enough: fn(&Lengths) -> bool) -> u32 {
    let (result, roomy) = roomy(call);
    if result == 255 {
        return 255;
    }
    let listed = lists(call.file.content());
    let (classes, processors) = listed.map_or((0, 0), |order| {
        (class_list(&order).len(), order.memories.len())
    });
    let lent = call.classes.len();
    let lengths = Lengths {
        lent,
        classes,
        processors,
    };
    if !enough(&lengths) {
        return 253;
    }
    if result == 0 {
        let written = lent.min(2 * classes);
        call.classes.put(&roomy.classes.content()[..written]);
        call.answer = roomy.answer;
    }
    result
}

/// Another result.
fn tells(call: &mut Call, told: fn(&Call, u32, u32) -> u32) -> u32 {
    let (next, _) = roomy(call);
    let result = (MODEL.classes)(call);
    told(call, result, next)
}

/// Success in place of these refusals, with the classes of the first 16 processors.
fn takes(call: &mut Call, numbers: &[u32]) -> u32 {
    let result = (MODEL.classes)(call);
    match lists(call.file.content()) {
        Some(mut order) if numbers.contains(&(result % 256)) => {
            order.memories.truncate(16);
            put(call, &class_list(&order));
            0
        }
        _ => result,
    }
}
