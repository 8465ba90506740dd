//! Differential tests of the static library from outside: every call that it is lent is compared
//! with an implementation made apart from it, from documents 01 and 02 alone.
//!
//!     linked             the run of the gate
//!     linked N           N times as many rounds
//!     linked --broken    wrong libraries, each of which must be caught

mod agree;
mod bus;
mod compare;
mod draw;
mod every;
mod expect;
mod fixed;
#[allow(dead_code)]
#[path = "../../link/highboyrobin.rs"]
mod highboyrobin;
mod independent;
mod lent;
mod library;
mod linked;
mod model;
mod rounds;
mod search;
mod tally;
mod trial;
mod wrong;

use draw::screen::TURNS;
use rounds::Rounds;
use std::process::ExitCode;
use trial::Trial;

fn main() -> ExitCode {
    let arguments: Vec<String> = std::env::args().skip(1).collect();
    let arguments: Vec<&str> = arguments.iter().map(String::as_str).collect();
    let done = match arguments[..] {
        [] => compare_linked(1),
        ["--broken"] => wrong::run(),
        [times] => match times.parse() {
            Ok(times) => compare_linked(times),
            Err(_) => Err("usage: linked [N | --broken]".to_string()),
        },
        _ => Err("usage: linked [N | --broken]".to_string()),
    };
    match done {
        Ok(last_line) => {
            println!("{last_line}");
            ExitCode::SUCCESS
        }
        Err(difference) => {
            println!("{difference}");
            ExitCode::FAILURE
        }
    }
}

/// Compares the linked library with what is expected; answers the last line.
fn compare_linked(times: u64) -> Result<String, String> {
    let agreed = agree::run(1_800 * times, 220 * times)?;
    println!("independent implementation: {agreed} orders agree");
    let agreed = agree::needs::run(2_000 * times)?;
    println!("independent implementation: {agreed} tables of needs agree");
    let agreed = agree::blocks(100 * times)?;
    println!("independent implementation: {agreed} register blocks agree");
    let mut trial = Trial::of(linked::LINKED);
    fixed::run(&mut trial);
    fixed::run_timed(&mut trial);
    fixed::run_needs(&mut trial);
    fixed::run_long_lists(&mut trial);
    fixed::run_held(&mut trial);
    fixed::run_estimates(&mut trial);
    fixed::run_screen(&mut trial);
    fixed::run_block(&mut trial);
    every::run(&mut trial, &(0..=255).collect::<Vec<u8>>());
    let rounds = Rounds {
        small: 2_340 * times,
        large: 660 * times,
        refused: 2_200 * times,
        files: 2_800 * times,
        lists: 1_000 * times,
        classes: 1_200 * times,
        books: 400 * times,
        times: 1_000 * times,
        large_times: 60 * times,
        needs: 3_000 * times,
        held: 100 * times,
        estimates: 500 * times,
        large_estimates: 36 * times,
        screen: 1_400 * times,
        screen_counts: 3 * TURNS * times,
        blocks: 1_200 * times,
    };
    rounds::run(&mut trial, &rounds);
    if let Some(difference) = trial.difference {
        return Err(difference);
    }
    trial
        .tally
        .lines()
        .iter()
        .for_each(|line| println!("{line}"));
    let never = trial.tally.never_met();
    if !never.is_empty() {
        return Err(format!("linked: never met: {}", never.join("; ")));
    }
    let unnamed = trial.tally.never_named();
    if !unnamed.is_empty() {
        return Err(format!("linked: not to be met: {}", unnamed.join("; ")));
    }
    Ok(format!("linked: {} calls, 0 differ", trial.tally.calls))
}
