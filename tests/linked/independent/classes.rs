//! "Sort the distinct memories downwards: class 1 is the largest. A job belongs to the last class
//! whose memory still suffices." Class 1 has index 0 here.

use super::{Job, Order};
use std::collections::BTreeMap;

/// The classes of an order.
pub struct Classes {
    /// The memory of each class.
    pub memories: Vec<u32>,
    /// How many processors are in each class.
    pub processors: Vec<i64>,
}

impl Classes {
    pub fn of(order: &Order) -> Classes {
        let mut memories = order.memories.clone();
        memories.sort();
        memories.dedup();
        memories.reverse();
        let mut classes = Classes {
            memories,
            processors: Vec::new(),
        };
        classes.processors = classes.counts(&order.memories);
        classes
    }

    /// How many processors of these memories are in each class.
    pub fn counts(&self, memories: &[u32]) -> Vec<i64> {
        let in_class = |class: &u32| memories.iter().filter(|m| *m == class).count() as i64;
        self.memories.iter().map(in_class).collect()
    }

    pub fn count(&self) -> usize {
        self.memories.len()
    }

    /// The class of a job of an accepted order.
    pub fn class(&self, job: &Job) -> usize {
        let suffices = |memory: &u32| *memory >= job.need;
        self.memories
            .iter()
            .rposition(suffices)
            .expect("a job of an accepted order fits some processor")
    }
}

/// The memory of each class and how many processors have it, class 1 first: the processors are counted
/// under their memories, in input order.
pub fn class_list(order: &Order) -> Vec<[u32; 2]> {
    let mut counts = BTreeMap::new();
    for memory in &order.memories {
        *counts.entry(*memory).or_insert(0) += 1;
    }
    let downwards = counts.into_iter().rev();
    downwards
        .map(|(memory, processors)| [memory, processors])
        .collect()
}
