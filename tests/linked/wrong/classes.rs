//! Wrong in the classes: "Sort the distinct memories downwards: class 1 is the largest"; "However
//! distinct memories and the processors of each are counted now, one pass over the sorted list shall do
//! both."

use super::{accepted, answered, Wrong};
use crate::independent::{class_list, Classes, Order};
use crate::lent::Call;
use crate::library::Function;
use crate::model::MODEL;
use std::cmp::Reverse;
use std::collections::BTreeSet;

pub const PARTS: &[&[Wrong]] = &[LISTED, PASSED, COUNTED, TOLD];

/// Memory and processors of a class.
type Class = [u32; 2];

/// Other classes.
const LISTED: &[Wrong] = of_one!(Classes, listing:
    "has the smallest memory first" => |order| {
        let mut classes = class_list(order);
        classes.reverse();
        classes
    },
    "has the classes as they come first in the input" => |order| {
        let mut classes = class_list(order);
        let first = |class: &Class| order.memories.iter().position(|memory| *memory == class[0]);
        classes.sort_by_key(first);
        classes
    },
    "has the largest count first" => |order| {
        let mut classes = class_list(order);
        classes.sort_by_key(|class| Reverse(class[1]));
        classes
    },
    "takes memories for signed numbers" => |order| {
        let mut classes = class_list(order);
        classes.sort_by_key(|class| Reverse(class[0] as i32));
        classes
    },
    "leaves out the last class" => |order| {
        let mut classes = class_list(order);
        classes.pop();
        classes
    },
    "leaves out the last of several classes" => |order| {
        let mut classes = class_list(order);
        classes.truncate((classes.len() - 1).max(1));
        classes
    },
    "leaves out the first class" => |order| class_list(order)[1..].to_vec(),
    "leaves out the first of several classes" => |order| {
        let classes = class_list(order);
        classes[usize::from(classes.len() > 1)..].to_vec()
    },
    "leaves out memory 0" => |order| kept(order, |class, _| class[0] > 0),
    "leaves out memory 4,294,967,295" => |order| kept(order, |class, _| class[0] < u32::MAX),
    "leaves out classes of one processor" => |order| kept(order, |class, _| class[1] > 1),
    "leaves out classes without a job" => |order| kept(order, |class, order| {
        let of = |job| super::class_memory(order, job);
        order.jobs.iter().any(|job| of(job) == class[0])
    }),
    "leaves out classes below every need" => |order| kept(order, |class, order| {
        order.jobs.iter().any(|job| job.need <= class[0])
    }),
    "tells 15 classes at most" => |order| {
        let mut classes = class_list(order);
        classes.truncate(15);
        classes
    },
    "leaves out the last processor of the input" => |order| {
        passed(&down(&order.memories[..order.memories.len() - 1]))
    },
    "leaves out the first processor of the input" => |order| passed(&down(&order.memories[1..])),
    "has needs for memories" => |order| {
        let needs: Vec<u32> = order.jobs.iter().map(|job| job.need).collect();
        let mut classes = passed(&down(&needs));
        classes.truncate(16);
        classes
    },
    "has memories of 31 bits" => |order| changed(order, |class, _| class[0] &= i32::MAX as u32),
    "has memories of 16 bits" => |order| changed(order, |class, _| class[0] %= 65_536),
    "has the memory after the processors" => |order| changed(order, |class, _| class.reverse()),
    "has numbers of classes for memories" => |order| {
        let classes = class_list(order);
        (1..).zip(&classes).map(|(number, class)| [number, class[1]]).collect()
    },
);

/// Another pass.
const PASSED: &[Wrong] = of_one!(Classes, listing:
    "opens a class at an equal memory" => |order| {
        down(&order.memories).iter().map(|memory| [*memory, 1]).collect()
    },
    "passes the processors in input order" => |order| passed(&order.memories),
    "takes memory 0 for passed at the beginning" => |order| {
        let passed = order.memories.iter().all(|memory| *memory == 0);
        if passed { Vec::new() } else { class_list(order) }
    },
    "counts in the first class" => |order| counted_in(order, |_| 0),
    "counts in the class before" => |order| counted_in(order, |last| last.saturating_sub(1)),
    "compares memories in 8 bits" => |order| passed_by(order, |one, other| one % 256 == other % 256),
    "compares memories in 16 bits" => |order| {
        passed_by(order, |one, other| one % 65_536 == other % 65_536)
    },
    "compares memories in the upper 16 bits" => |order| {
        passed_by(order, |one, other| one >> 16 == other >> 16)
    },
    "takes memories a unit apart for one class" => |order| {
        passed_by(order, |one, other| one.abs_diff(other) <= 1)
    },
    "sorts neighbours only once" => |order| {
        let mut memories = order.memories.clone();
        for place in 1..memories.len() {
            if memories[place - 1] < memories[place] {
                memories.swap(place - 1, place);
            }
        }
        passed(&memories)
    },
    "passes all but the last by falling memory" => |order| {
        let memories = down(&order.memories);
        passed(&memories[..memories.len() - 1])
    },
    "passes all but the first by falling memory" => |order| passed(&down(&order.memories)[1..]),
    "passes the first twice" => |order| {
        let memories = down(&order.memories);
        passed(&[&memories[..1], &memories].concat())
    },
    "passes the last twice" => |order| {
        let memories = down(&order.memories);
        passed(&[&memories, &memories[memories.len() - 1..]].concat())
    },
    "sorts the second half only" => |order| {
        let (first, second) = order.memories.split_at(order.memories.len() / 2);
        passed(&[first, &down(second)].concat())
    },
);

/// Other counts of processors.
const COUNTED: &[Wrong] = of_one!(Classes, listing:
    "counts each class as one processor" => |order| changed(order, |class, _| class[1] = 1),
    "counts processors from 0" => |order| changed(order, |class, _| class[1] -= 1),
    "counts a processor more" => |order| changed(order, |class, _| class[1] += 1),
    "counts 15 processors at most" => |order| changed(order, |class, _| class[1] = class[1].min(15)),
    "counts the jobs of each class" => |order| changed(order, |class, order| {
        let own = order.jobs.iter().filter(|job| super::class_memory(order, job) == class[0]);
        class[1] = own.count() as u32;
    }),
    "counts the jobs that need just the memory" => |order| changed(order, |class, order| {
        let own = order.jobs.iter().filter(|job| job.need == class[0]);
        class[1] = own.count() as u32;
    }),
    "counts the processors that suffice" => |order| changed(order, |class, order| {
        let own = order.memories.iter().filter(|memory| **memory >= class[0]);
        class[1] = own.count() as u32;
    }),
    "counts the processors of no more memory" => |order| changed(order, |class, order| {
        let own = order.memories.iter().filter(|memory| **memory <= class[0]);
        class[1] = own.count() as u32;
    }),
    "counts all processors in each class" => |order| changed(order, |class, order| {
        class[1] = order.memories.len() as u32;
    }),
    "has the counts upwards" => |order| {
        let mut counts = Classes::of(order).processors;
        counts.reverse();
        recounted(order, &counts)
    },
    "has the count of the next class" => |order| {
        let mut counts = Classes::of(order).processors;
        counts.rotate_left(1);
        recounted(order, &counts)
    },
    "has the first processor's place for a count" => |order| changed(order, |class, order| {
        let place = order.memories.iter().position(|memory| *memory == class[0]);
        class[1] = place.unwrap_or(0) as u32 + 1;
    }),
);

/// Another number of classes.
const TOLD: &[Wrong] = of_one!(Classes, telling:
    "answers a class too many" => |count, _| count + 1,
    "answers a class too few" => |count, _| count - 1,
    "answers numbers and not classes" => |count, _| 2 * count,
    "answers processors and not classes" => |_, order| order.memories.len(),
    "answers jobs and not classes" => |_, order| order.jobs.len(),
    "answers 16 classes always" => |_, _| 16,
    "answers 1 class always" => |_, _| 1,
    "answers the classes of the jobs" => |_, order| {
        let own = order.jobs.iter().map(|job| super::class_memory(order, job));
        own.collect::<BTreeSet<u32>>().len()
    },
    "answers 15 classes at most" => |count, _| count.min(15),
);

/// Memories downwards.
pub fn down(memories: &[u32]) -> Vec<u32> {
    let mut memories = memories.to_vec();
    memories.sort_by(|one, other| other.cmp(one));
    memories
}

/// The classes of equal neighbours in a list.
fn passed(memories: &[u32]) -> Vec<Class> {
    runs(memories, |one, other| one == other)
}

/// The classes of neighbours by falling memory that are taken for equal.
fn passed_by(order: &Order, equal: fn(u32, u32) -> bool) -> Vec<Class> {
    runs(&down(&order.memories), equal)
}

fn runs(memories: &[u32], equal: fn(u32, u32) -> bool) -> Vec<Class> {
    let runs = memories.chunk_by(|one, other| equal(*one, *other));
    runs.map(|run| [run[0], run.len() as u32]).collect()
}

/// The classes by one pass in which a further processor is counted at another place than the last.
fn counted_in(order: &Order, place: fn(usize) -> usize) -> Vec<Class> {
    let mut classes: Vec<Class> = Vec::new();
    for memory in down(&order.memories) {
        match classes.last() {
            Some([last, _]) if *last == memory => {
                let place = place(classes.len() - 1);
                classes[place][1] += 1;
            }
            _ => classes.push([memory, 1]),
        }
    }
    classes
}

fn kept(order: &Order, keep: fn(&Class, &Order) -> bool) -> Vec<Class> {
    let mut classes = class_list(order);
    classes.retain(|class| keep(class, order));
    classes
}

/// The classes, each changed.
fn changed(order: &Order, change: fn(&mut Class, &Order)) -> Vec<Class> {
    let mut classes = class_list(order);
    classes.iter_mut().for_each(|class| change(class, order));
    classes
}

fn recounted(order: &Order, counts: &[i64]) -> Vec<Class> {
    let memories = Classes::of(order).memories;
    let both = memories.iter().zip(counts);
    both.map(|(memory, count)| [*memory, *count as u32])
        .collect()
}

/// Other classes, where the call succeeds.
fn listing(call: &mut Call, list: fn(&Order) -> Vec<Class>) -> u32 {
    let before = call.classes.clone();
    answered(MODEL.classes, call, |call| {
        call.classes = before;
        put(call, &list(&accepted(call).expect("the call was answered")));
    })
}

/// Writes these classes and answers how many they are.
pub fn put(call: &mut Call, classes: &[Class]) {
    call.classes.put(&classes.concat());
    call.answer.put(&[classes.len() as i32]);
}

/// Another number of classes, where the call succeeds.
fn telling(call: &mut Call, told: fn(usize, &Order) -> usize) -> u32 {
    answered(MODEL.classes, call, |call| {
        let count = call.answer.content()[0] as usize;
        let order = accepted(call).expect("the call was answered");
        call.answer.put(&[told(count, &order) as i32]);
    })
}
