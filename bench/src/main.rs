//! The time of the proved library beside the second program's, in one process: see the README.

mod checking;
mod corpora;
mod fans;
mod growth;
mod putting;
mod receiving;
mod rounds;
mod saving;
mod sides;
#[cfg(traces)]
mod traces;
mod writing;

use std::process::ExitCode;

/// What can be measured, by its name: prints and gives the number of differences.
const PARTS: &[(&str, fn() -> usize)] = &[
    ("check", checking::report),
    ("growth", growth::report),
    ("receiving", receiving::report),
    ("writing", writing::report),
    ("listing", putting::listing),
    ("rewriting", putting::rewriting),
    ("fan", fans::report),
    #[cfg(traces)]
    ("trace", traces::report),
    ("saving", saving::report),
];

fn main() -> ExitCode {
    let asked: Vec<String> = std::env::args().skip(1).collect();
    let known = |name: &String| PARTS.iter().any(|(part, _)| part == name);
    if let Some(name) = asked.iter().find(|name| !known(name)) {
        let parts: Vec<&str> = PARTS.iter().map(|(part, _)| *part).collect();
        let parts = parts.join(", ");
        eprintln!("bench: there is no part '{name}'; there are {parts}");
        return ExitCode::from(2);
    }
    println!("Median time for one table, rounds of both sides in turn.");
    let differences: usize = PARTS
        .iter()
        .filter(|(part, _)| asked.is_empty() || asked.iter().any(|name| name == part))
        .map(|(_, report)| report())
        .sum();
    if differences == 0 {
        ExitCode::SUCCESS
    } else {
        println!("\nThe two sides give different answers: {differences} differences");
        ExitCode::from(1)
    }
}
