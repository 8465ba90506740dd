//! Joining seen on the rows alone, without stretches: a row continues another one if it has the same
//! job on the same processor and begins where the other ends. "a second joining finds nothing to
//! join" where no row continues another.

use super::Row;
use std::collections::BTreeMap;

/// The places of a row and of one that continues it, or none.
pub fn left_to_join(rows: &[Row]) -> Option<(usize, usize)> {
    let begins = rows.iter().enumerate();
    let begins = begins.map(|(place, &[job, processor, from, _])| ([job, processor, from], place));
    let begins: BTreeMap<[u32; 3], usize> = begins.collect();
    let pair = |(place, &[job, processor, _, to]): (usize, &Row)| {
        let next = begins.get(&[job, processor, to])?;
        Some((place, *next))
    };
    rows.iter().enumerate().find_map(pair)
}

/// Rows joined pair by pair until no row continues another. "A joined row stands where its earliest
/// part stood."
pub fn join_pairs(rows: &[Row]) -> Vec<Row> {
    let mut rows = rows.to_vec();
    while let Some((place, next)) = left_to_join(&rows) {
        rows[place][3] = rows[next][3];
        rows.remove(next);
    }
    rows
}
