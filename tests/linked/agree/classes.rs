//! Classes counted under their memories against classes sorted out and then counted one by one: their
//! memories fall, their processors together are all; and "After each processor passed, classes and
//! counts are those of the processors passed so far", the processors by falling memory.

use super::hold;
use crate::independent::{class_list, Classes, Order};

pub fn agree(order: &Order) -> Result<(), String> {
    let listed = class_list(order);
    let Classes {
        memories,
        processors,
    } = Classes::of(order);
    let both = memories.iter().zip(&processors);
    let both: Vec<[u32; 2]> = both
        .map(|(memory, count)| [*memory, *count as u32])
        .collect();
    hold(order, "of the same classes both ways", listed == both)?;
    let falls = listed.windows(2).all(|two| two[1][0] < two[0][0]);
    hold(order, "of classes that fall", falls)?;
    let all: u32 = listed.iter().map(|class| class[1]).sum();
    let every = all as usize == order.memories.len();
    hold(order, "of classes with every processor", every)?;
    passed(order)
}

/// One processor more is in the last class, or it opens one.
fn passed(order: &Order) -> Result<(), String> {
    let mut memories = order.memories.clone();
    memories.sort_by(|one, other| other.cmp(one));
    let mut classes: Vec<[u32; 2]> = Vec::new();
    for (count, memory) in (1..).zip(&memories) {
        match classes.last_mut() {
            Some([last, processors]) if last == memory => *processors += 1,
            _ => classes.push([*memory, 1]),
        }
        let so_far = Order {
            memories: memories[..count].to_vec(),
            jobs: Vec::new(),
        };
        let same = classes == class_list(&so_far);
        hold(order, "of the classes passed so far", same)?;
    }
    hold(order, "of all classes passed", classes == class_list(order))
}
