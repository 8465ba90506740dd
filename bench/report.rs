//! The tables: mean and worst of the times over orders, in microseconds, and the library's times
//! divided by those of its plain build.

use crate::clock::Times;

struct Summary {
    mean: Times,
    worst: Times,
}

fn summary(times: &[Times]) -> Summary {
    let mut mean = [0.0; 3];
    let mut worst = [0.0f64; 3];
    for time in times {
        for i in 0..3 {
            mean[i] += time[i] / times.len() as f64;
            worst[i] = worst[i].max(time[i]);
        }
    }
    Summary { mean, worst }
}

pub fn head(what: &str) {
    let subjects = ["library", "plain", "independent"].map(|name| format!("{name} mean / worst"));
    let subjects = subjects.join(" | ");
    println!("| {what} | {subjects} | ratio of means | ratio of worsts |");
    println!("|---|---|---|---|---|---|");
}

/// A row of a table: the times of one task or one family.
pub fn row(name: &str, times: &[Times]) {
    let Summary { mean, worst } = summary(times);
    let cells: Vec<String> = (0..3)
        .map(|i| format!("{} / {}", micros(mean[i]), micros(worst[i])))
        .collect();
    let means = mean[0] / mean[1];
    let worsts = worst[0] / worst[1];
    println!(
        "| {name} | {} | {means:.2} | {worsts:.2} |",
        cells.join(" | ")
    );
}

fn micros(time: f64) -> String {
    if time < 100.0 {
        format!("{time:.1}")
    } else {
        format!("{time:.0}")
    }
}
