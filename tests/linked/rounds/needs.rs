//! Tables of needs, whole and with defects, each with several lists of lengths.

use super::trial_of;
use crate::draw::lengths::need_room;
use crate::draw::needs::{lengths, table};
use crate::lent::Call;
use crate::library::Function;
use crate::trial::Trial;

pub fn any_table(trial: &mut Trial, _: u64) {
    let table = table(&mut trial.random);
    for _ in 0..3 {
        trial_of(trial, Function::Needs, |random, answer| {
            let lengths = lengths(random, &table);
            let room = need_room(random, lengths.len());
            Call::with_table(random, &table, &lengths, room, answer)
        });
    }
}
