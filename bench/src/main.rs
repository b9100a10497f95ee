//! Compares the keeper with a plain Rust of the same rules, word by word, and then measures both, with a `Vec<Vec<u64>>` beside them.
//! With the word `same` it only compares; with one of `elements`, `rows`, `churn`, `tidy`, `insert`, `load`, `free` it measures that alone.

mod booking;
mod calls;
mod clock;
mod plain;
mod proved;
mod ready;
mod same;
mod seeded;
mod speed;

use speed::{lines, Line, SIZES};
use std::process::ExitCode;

/// A time in the unit that reads best.
fn time(nanoseconds: f64) -> String {
    if nanoseconds < 1e3 {
        format!("{nanoseconds:.1} ns")
    } else if nanoseconds < 1e6 {
        format!("{:.2} µs", nanoseconds / 1e3)
    } else {
        format!("{:.2} ms", nanoseconds / 1e6)
    }
}

/// Each measurement with its ratios.
fn ratios(measured: &[Line]) {
    println!("\n| what | words | keeper | plain Rust | beside | keeper / plain | keeper / beside | spread |");
    println!("|---|---:|---:|---:|---:|---:|---:|---:|");
    for line in measured {
        let (keeper, plain, beside) = (line.keeper.median, line.plain.median, line.beside.median);
        println!(
            "| {} | {} | {} | {} | {} | {:.2} | {:.2} | {:.0} % |",
            line.what,
            line.count,
            time(keeper),
            time(plain),
            time(beside),
            keeper / plain,
            keeper / beside,
            100.0 * line.keeper.spread.max(line.plain.spread),
        );
    }
}

/// How each grows from a store to one sixteen times as large.
fn growth(measured: &[Line]) {
    println!("\n| what | words | keeper | plain Rust | beside |");
    println!("|---|---:|---:|---:|---:|");
    for line in measured {
        let smaller = measured
            .iter()
            .find(|other| other.what == line.what && other.count * 16 == line.count);
        if let Some(smaller) = smaller {
            println!(
                "| {} | {} to {} | {:.1} | {:.1} | {:.1} |",
                line.what,
                smaller.count,
                line.count,
                line.keeper.median / smaller.keeper.median,
                line.plain.median / smaller.plain.median,
                line.beside.median / smaller.beside.median,
            );
        }
    }
}

fn main() -> ExitCode {
    let only = std::env::args().nth(1);
    if let Err(difference) = same::same() {
        eprintln!("bench: {difference}");
        return ExitCode::FAILURE;
    }
    if only.as_deref() == Some("same") {
        return ExitCode::SUCCESS;
    }
    let mut measured: Vec<Line> = SIZES
        .into_iter()
        .flat_map(|count| lines(count, only.as_deref()))
        .collect();
    let order: Vec<String> = measured
        .iter()
        .rev()
        .map(|line| line.what.clone())
        .collect();
    measured.sort_by_key(|line| {
        (
            std::cmp::Reverse(order.iter().position(|what| *what == line.what)),
            line.count,
        )
    });
    ratios(&measured);
    growth(&measured);
    ExitCode::SUCCESS
}
