//! What the unbroken library and the wrong ones are put before.

use crate::draw::screen::TURNS;
use crate::every;
use crate::fixed;
use crate::library::Library;
use crate::rounds::{self, Rounds};
use crate::trial::Trial;

const ROUNDS: Rounds = Rounds {
    small: 450,
    refused: 480,
    files: 490,
    lists: 150,
    classes: 120,
    books: 60,
    ..NO_ROUNDS
};

/// The rounds with ready minutes and windows.
const TIMED_ROUNDS: Rounds = Rounds {
    times: 90,
    ..NO_ROUNDS
};

/// The rounds with tables of needs.
const NEED_ROUNDS: Rounds = Rounds {
    needs: 200,
    ..NO_ROUNDS
};

/// The rounds with jobs that lie elsewhere than they are given.
const HELD_ROUNDS: Rounds = Rounds {
    held: 40,
    ..NO_ROUNDS
};

/// The rounds with lows and highs.
const ESTIMATE_ROUNDS: Rounds = Rounds {
    estimates: 60,
    ..NO_ROUNDS
};

/// The rounds of both callers.
const SCREEN_ROUNDS: Rounds = Rounds {
    screen: 84,
    screen_counts: TURNS,
    ..NO_ROUNDS
};

/// The rounds with register blocks.
const BLOCK_ROUNDS: Rounds = Rounds {
    blocks: 40,
    ..NO_ROUNDS
};

/// The value that is written to every address of a block.
const VALUES: [u8; 1] = [0xFF];

const NO_ROUNDS: Rounds = Rounds {
    small: 0,
    large: 0,
    refused: 0,
    files: 0,
    lists: 0,
    classes: 0,
    books: 0,
    times: 0,
    large_times: 0,
    needs: 0,
    held: 0,
    estimates: 0,
    large_estimates: 0,
    screen: 0,
    screen_counts: 0,
    blocks: 0,
};

/// What a library is put before.
#[derive(Clone, Copy)]
pub enum Cases {
    /// with ready minutes and windows
    Timed,
    /// with tables of needs
    Needs,
    /// with lists of millions of lengths
    LongLists,
    /// with jobs that lie elsewhere than they are given
    Held,
    /// with lows and highs
    Estimates,
    /// from both callers
    Screen,
    /// with register blocks
    Blocks,
    Others,
}

pub const ALL: [Cases; 8] = [
    Cases::Others,
    Cases::Timed,
    Cases::Needs,
    Cases::LongLists,
    Cases::Held,
    Cases::Estimates,
    Cases::Screen,
    Cases::Blocks,
];

/// The difference that is found in a library, if any, and the number of calls made, by these cases.
pub fn tried(library: Library, cases: Cases) -> (Option<String>, u64) {
    let mut trial = Trial::of(library);
    match cases {
        Cases::Timed => {
            fixed::run_timed(&mut trial);
            rounds::run(&mut trial, &TIMED_ROUNDS);
        }
        Cases::Needs => {
            fixed::run_needs(&mut trial);
            rounds::run(&mut trial, &NEED_ROUNDS);
        }
        Cases::LongLists => fixed::run_long_lists(&mut trial),
        Cases::Held => {
            fixed::run_held(&mut trial);
            rounds::run(&mut trial, &HELD_ROUNDS);
        }
        Cases::Estimates => {
            fixed::run_estimates(&mut trial);
            rounds::run(&mut trial, &ESTIMATE_ROUNDS);
        }
        Cases::Screen => {
            fixed::run_screen(&mut trial);
            rounds::run(&mut trial, &SCREEN_ROUNDS);
        }
        Cases::Blocks => {
            fixed::run_block(&mut trial);
            rounds::run(&mut trial, &BLOCK_ROUNDS);
            every::run(&mut trial, &VALUES);
        }
        Cases::Others => {
            fixed::run(&mut trial);
            rounds::run(&mut trial, &ROUNDS);
        }
    }
    (trial.difference, trial.tally.calls)
}
