//! A register block against the list of the writes that it has had since it was cleared, each byte from that list
//! alone: what was last written, the last command, the commands that raised the interrupt and what was written over
//! it since; and against itself as it lies in memory.

use crate::draw::block::{file, length, row};
use crate::draw::bounds::Around;
use crate::draw::Random;
use crate::expect::block::{laid, lying};
use crate::independent::{least, Block, Outcome, Row};
use crate::lent::{held_numbers, held_rows, Call};
use crate::library::BLOCK_BYTES;

/// A write, and of a command what it came to and the rows that it made.
struct Write {
    address: u8,
    value: u8,
    ended: Option<(Outcome, Vec<Row>)>,
}

/// Drawn writes, up to the first clear among them and on from it.
pub fn agree(random: &mut Random) -> Result<(), String> {
    let mut block = Block::cleared();
    let mut writes: Vec<Write> = Vec::new();
    for (address, value) in drawn(random) {
        let before = block.clone();
        block.write(address, value);
        let ended = (address == 0).then(|| {
            let outcome = before.outcome(value, least);
            (outcome, block.rows.clone())
        });
        if (address, value) == (0, 3) {
            writes.clear();
        } else {
            writes.push(Write {
                address,
                value,
                ended,
            });
        }
        let listed: Vec<u8> = (0..=255).map(|address| byte(&writes, address)).collect();
        let read: Vec<u8> = (0..=255).map(|address| block.read(address)).collect();
        if listed != read {
            return Err(format!(
                "the independent implementation: a block reads {read:?}, its writes say {listed:?}"
            ));
        }
        lies(random, &block, &read)?;
    }
    Ok(())
}

/// Files, bounds, lengths, row numbers, flags and commands.
fn drawn(random: &mut Random) -> Vec<(u8, u8)> {
    let file = file(random);
    let around = Around::any(random);
    let mut writes = Vec::new();
    let put = |writes: &mut Vec<(u8, u8)>, from: u8, bytes: &[u8]| {
        writes.extend((from..=251).zip(bytes.iter().copied()));
    };
    for turn in 0..24 {
        match random.below(9) {
            _ if turn == 0 => {
                put(&mut writes, 32, &file);
                put(&mut writes, 8, &(file.len() as u16).to_le_bytes());
            }
            0 => put(&mut writes, 8, &length(random, file.len()).to_le_bytes()),
            1 => put(&mut writes, 4, &around.bound(random).to_le_bytes()),
            2..=4 => writes.push((0, random.pick(&[1, 2, 2, 3, 0, 255]))),
            5 => writes.push((1, random.number() as u8)),
            6 => writes.push((3, random.number() as u8)),
            7 => put(&mut writes, 10, &row(random, 9).to_le_bytes()),
            _ => writes.push((1 + random.below(255) as u8, random.number() as u8)),
        }
    }
    writes
}

/// A byte by the writes since the clear.
fn byte(writes: &[Write], address: u8) -> u8 {
    match address {
        1 => flags(writes),
        2 => match last_command(writes) {
            Some((Outcome::Refused(number), _)) => *number,
            _ => 0,
        },
        3 => written(writes, 3) % 2,
        4..=11 | 32..=251 => written(writes, address),
        12..=15 => {
            let command = last_command(writes);
            let used = command.and_then(|(outcome, _)| outcome.planned_at());
            used.unwrap_or(0).to_le_bytes()[usize::from(address) - 12]
        }
        16..=31 => {
            let number = u16::from_le_bytes([written(writes, 10), written(writes, 11)]);
            let rows = last_command(writes).map_or(&[][..], |(_, rows)| rows);
            let row = (1..).zip(rows).find(|(own, _)| *own == number);
            let numbers = row.map_or([0; 4], |(_, row)| *row);
            let bytes = numbers.map(u32::to_le_bytes);
            bytes.as_flattened()[usize::from(address) - 16]
        }
        0 | 252..=255 => 0,
    }
}

/// What was last written at an address.
fn written(writes: &[Write], address: u8) -> u8 {
    let last = writes.iter().rfind(|write| write.address == address);
    last.map_or(0, |write| write.value)
}

fn last_command(writes: &[Write]) -> Option<&(Outcome, Vec<Row>)> {
    writes.iter().rev().find_map(|write| write.ended.as_ref())
}

/// A flag is set from the command that set it until a 1 is written over it or, of the lower two, until the next
/// command.
fn flags(writes: &[Write]) -> u8 {
    let commands = || (0..writes.len()).filter(|at| writes[*at].ended.is_some());
    let over = |at: usize, bit: u8| {
        let mut later = writes[at..].iter();
        later.any(|write| write.address == 1 && write.value & bit != 0)
    };
    let allowed = |at: &usize| written(&writes[..*at], 3) % 2 == 1;
    let bit = |at: usize| match writes[at].ended {
        Some((Outcome::Refused(_), _)) => 2,
        _ => 1,
    };
    let last = commands().last().filter(|at| !over(*at, bit(*at)));
    let raised = commands().filter(allowed).any(|at| !over(at, 4));
    last.map_or(0, bit) + 4 * u8::from(raised)
}

/// Laid into memory with anything in it a block reads the same; rows lie as numbers.
fn lies(random: &mut Random, block: &Block, read: &[u8]) -> Result<(), String> {
    let anything: Vec<u8> = (0..BLOCK_BYTES).map(|_| random.number() as u8).collect();
    let bytes = laid(block, &anything);
    let numbers = held_numbers(&block.rows);
    let call = Call::with_block(random, &bytes, &numbers, 1);
    let again = lying(&call);
    let same = (0..=255)
        .map(|address| again.read(address))
        .eq(read.iter().copied());
    if same && held_rows(&numbers) == block.rows {
        return Ok(());
    }
    Err(format!(
        "the independent implementation: a block that lies in {bytes:?} does not read {read:?}"
    ))
}
