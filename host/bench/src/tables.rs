//! The tables that are printed.

use crate::case::Class;
use crate::timing::Measured;
use std::time::Duration;

/// In microseconds.
fn micros(time: Duration) -> String {
    format!("{:.2}", time.as_secs_f64() * 1e6)
}

/// Every class with its sizes, both times and their ratio.
pub fn speed(classes: &[Class], measured: &[Measured]) {
    println!("| class | file, bytes | statements: file, flattened | nodes: file, flattened | instances | library, µs | Rust, µs | ratio | ratio of medians | the Rust's reading, trees and build, µs | rounds |");
    println!("|---|---|---|---|---|---|---|---|---|---|---|");
    for (class, m) in classes.iter().zip(measured) {
        let s = class.sizes();
        println!(
            "| {} | {} | {}, {} | {}, {} | {} | {} | {} | {:.2} | {:.2} | {}, {}, {} | {} |",
            class.label,
            s.bytes,
            s.stmts,
            s.flat_stmts,
            s.nodes,
            s.flat_nodes,
            s.instances,
            micros(m.library.least),
            micros(m.rust.least),
            m.ratio(),
            m.ratio_of_medians(),
            micros(m.parts[0]),
            micros(m.parts[1]),
            micros(m.parts[2]),
            m.rounds
        );
    }
    let mut ratios: Vec<f64> = measured.iter().map(Measured::ratio).collect();
    ratios.sort_by(f64::total_cmp);
    let (low, high) = (ratios[(ratios.len() - 1) / 2], ratios[ratios.len() / 2]);
    println!(
        "ratios: {:.2} the least, {:.2} the median, {:.2} the most\n",
        ratios[0],
        (low + high) / 2.0,
        ratios[ratios.len() - 1]
    );
}

/// A series in which something doubles: both times, and by how much each is longer than the one before.
pub fn growth(what: &str, classes: &[Class], measured: &[Measured]) {
    println!("| {what} | file, bytes | library, µs | times the one before | Rust, µs | times the one before | ratio |");
    println!("|---|---|---|---|---|---|---|");
    let mut before: Option<&Measured> = None;
    for (class, m) in classes.iter().zip(measured) {
        let times = |now: Duration, old: fn(&Measured) -> Duration| {
            before.map_or(String::new(), |before| {
                format!("{:.2}", now.as_secs_f64() / old(before).as_secs_f64())
            })
        };
        println!(
            "| {} | {} | {} | {} | {} | {} | {:.2} |",
            class.label,
            class.sizes().bytes,
            micros(m.library.least),
            times(m.library.least, |m| m.library.least),
            micros(m.rust.least),
            times(m.rust.least, |m| m.rust.least),
            m.ratio()
        );
        before = Some(m);
    }
    println!();
}

/// The stack of each class, and the largest.
pub fn stack(classes: &[Class], used: &[usize]) {
    println!("| deepest build of | stack, bytes |");
    println!("|---|---|");
    for (class, used) in classes.iter().zip(used) {
        println!("| {} | {used} |", class.label);
    }
    println!("the most: {} bytes", used.iter().max().unwrap_or(&0));
}
