//! The library beside plain Rust and beside what one would use instead, in one run. bench/run says how to start it.
use measure::{measure, Measured};
use std::time::Instant;

mod block_printed;
mod blocks;
mod blockwise;
mod calls;
mod checks;
mod clock;
mod contenders;
mod files;
mod held;
mod join_first;
mod library;
mod measure;
mod outcome;
mod plot;
mod printed;
mod profile;
mod rectangle;
mod report;
mod roots;
mod rows;
mod score_first;
mod suite;
mod sure;
mod sweep;
mod tables;
mod tolerances;

/// Measures a section and prints its tables.
fn section(section: &suite::Section, seeds: u64) -> Vec<Measured> {
    let measured: Vec<Measured> = section
        .cases
        .iter()
        .map(|&case| measure(case, seeds))
        .collect();
    println!(
        "\n## {}: counts (medians of {seeds} seeds)\n",
        section.title
    );
    report::counts(&measured);
    println!(
        "\n## {}: the library's time over the other's, median (lowest–highest of {seeds} seeds)\n",
        section.title
    );
    report::times(&measured);
    measured
}

fn queries(full: bool, seeds: u64, plot_to: &str) {
    let mut all = Vec::new();
    for cases in &suite::sections(full) {
        let measured = section(cases, seeds);
        if all.is_empty() {
            std::fs::write(plot_to, plot::svg(&measured)).expect("the plot can be written");
            println!("\nPlot: {plot_to}");
        }
        all.extend(measured);
    }
    println!(
        "\n## All {} cases: the library's time over the other's\n",
        all.len()
    );
    report::summary("Beside", &all);
    let new: Vec<Measured> = suite::new_card(full)
        .iter()
        .flat_map(|cases| section(cases, seeds))
        .collect();
    println!(
        "\n## The {} cases on the new card: the library's time over the other's\n",
        new.len()
    );
    report::summary("Beside, on the new card", &new);
}

fn main() {
    let arguments: Vec<String> = std::env::args().skip(1).collect();
    let words: Vec<&str> = arguments.iter().map(String::as_str).collect();
    let began = Instant::now();
    match words.as_slice() {
        ["profile", rest @ ..] => return profile::run(rest),
        ["files"] => files::run(),
        ["calls"] => calls::run(),
        ["roots"] => roots::run(),
        ["tolerances"] => tolerances::run(),
        ["blocks"] => blocks::run(),
        ["short", plot_to] => queries(false, 3, plot_to),
        ["full", plot_to] => queries(true, 5, plot_to),
        _ => {
            eprintln!("usage: bench/run [short|full|files|calls|roots|tolerances|blocks]");
            eprintln!(
                "   or: bench/run profile CONTENDER RADIUS K BLOCK RUNS [new] [drifting|apart] [surely|possibly T]"
            );
            std::process::exit(2);
        }
    }
    if matches!(words[0], "short" | "full") {
        println!("\n## Tolerances\n");
        tolerances::run();
        println!("\n## Files of 65,535 rows\n");
        files::run();
        println!("\n## A read of a settled session\n");
        calls::run();
        println!("\n## Roots\n");
        roots::run();
    }
    println!("\n{} took {:.0} s", words[0], began.elapsed().as_secs_f64());
}
