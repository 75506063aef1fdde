//! The proved reader and writer, linked from its static library, against the second program: see the README.
#![forbid(unsafe_code)]

mod answer;
mod answers;
mod call;
mod comparison;
mod driver;
mod exchange;
mod fans;
mod fields;
mod gate;
mod hex;
mod known;
mod long;
mod options;
mod outcome;
mod pairs;
mod progress;
mod question;
mod receiving;
mod removals;
mod salvage;
mod settings;
mod sheets;
mod stand_in;
mod tally;
mod texts;
mod traces;
mod writer;

use options::{Command, Options};
use std::process::ExitCode;

const USAGE: &str = "\
use: compare gate [WHAT...] [--writer] [--first] --driver COMMAND...
     compare long --seed S --count N [WHAT...] --driver COMMAND...
     compare writer --seed S --count N --driver COMMAND...
     compare stand-in
WHAT is --elements, --listing, --fields, --fans, --removals, --sheets, --hex, --receive, --pairs, --traces, --salvage.
";

fn main() -> ExitCode {
    let arguments: Vec<String> = std::env::args().skip(1).collect();
    let options = match Options::read(&arguments) {
        Ok(options) => options,
        Err(why) => {
            eprint!("compare: {why}\n{USAGE}");
            return ExitCode::from(2);
        }
    };
    let good = match options.command {
        Command::Gate => gate(&options),
        Command::Long { seed, count } => long::long(&options, seed, count),
        Command::Writer { seed, count } => writer::long(&options, seed, count),
        Command::StandIn => stand_in::serve(std::io::stdin(), std::io::stdout()),
    };
    match good {
        Ok(true) => ExitCode::SUCCESS,
        Ok(false) => ExitCode::from(1),
        Err(why) => {
            eprintln!("compare: {why}");
            ExitCode::from(1)
        }
    }
}

fn gate(options: &Options) -> Result<bool, String> {
    let good = gate::gate(options)?;
    Ok((!options.writer || writer::gate(options)?) && good)
}
