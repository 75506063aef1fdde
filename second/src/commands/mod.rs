//! The program's commands.

mod bench;
mod files;
mod options;
mod own;
mod rows;
mod stream;
mod traces;

use second::{Rules, Settings};
use std::process::ExitCode;

const USAGE: &str = "\
use: second COMMAND [--chip 320|321] [--archive] ...
  list                                       list the table on standard input
  rewrite                                    write the table on standard input again
  fan ZONE                                   is there a fan in the zone, and the elements visited
  remove K                                   the table on standard input without element K
  pins                                       the pin sheet of the table on standard input
  hex                                        the table on standard input as Intel HEX
  unhex                                      the table of the Intel HEX on standard input
  receive [BYTES]                            check the table on standard input in reports of so many bytes, 64 if
                                             it is not said
  salvage                                    what can be saved of the file on standard input; its lines go to
                                             standard error
  diff ONE TWO                               the fields in which two tables differ, one line each
  trace TABLE [TRACE]                        the counts of a trace, or of standard input, run through a table
  lines --seed S --count N TABLE             a trace of so many lines for a table, good ones and others
  check FILE...                              number, place or count, and file, one line each
  rows --seed S --count N --max BYTES        tables in hex with their answers
  make KIND --seed S --count N DIR           tables as files; KIND is valid, mixed, controllers,
                                             texts, damaged, wrecked or any
  self --seed S --count N                    hold the program's own parts against each other
  bench                                      time the reader
The chip is the 320 if none is named, and the rules are the ordinary ones without --archive. Tables are
made, read and written for them; rewrite, fan, remove, pins, trace, lines and salvage have the ordinary
rules alone, hex, unhex and diff the archive's.
";

/// A command's end: good, a failure already told, or a misuse to be told with the usage.
pub enum End {
    Good,
    Failed,
    Misused(String),
}

/// Runs the command that the arguments name.
pub fn run(arguments: &[String]) -> ExitCode {
    let end = match arguments.split_first() {
        None => End::Misused("a command is missing".into()),
        Some((command, rest)) => match options::settings(rest) {
            Ok((settings, rest)) => dispatch(command, settings, rest),
            Err(why) => End::Misused(why),
        },
    };
    match end {
        End::Good => ExitCode::SUCCESS,
        End::Failed => ExitCode::from(1),
        End::Misused(why) => {
            eprint!("second: {why}\n{USAGE}");
            ExitCode::from(2)
        }
    }
}

fn dispatch(command: &str, settings: Settings, rest: &[String]) -> End {
    match command {
        "list" => stream::list(settings, rest),
        "rewrite" | "fan" | "remove" | "pins" | "trace" | "lines" | "salvage"
            if settings.rules == Rules::Archive =>
        {
            End::Misused(format!("'{command}' has the ordinary rules alone"))
        }
        "hex" | "unhex" | "diff" if settings.rules == Rules::Archive => {
            End::Misused(format!("'{command}' has the archive's rules always"))
        }
        "diff" => files::diff(settings.chip, rest),
        "trace" => traces::trace(settings.chip, rest),
        "lines" => traces::lines(settings.chip, rest),
        "rewrite" => stream::rewrite(settings.chip, rest),
        "fan" => stream::fan(settings.chip, rest),
        "remove" => stream::remove(settings.chip, rest),
        "pins" => stream::pins(settings.chip, rest),
        "hex" => stream::hex(settings.chip, rest),
        "unhex" => stream::unhex(settings.chip, rest),
        "salvage" => stream::salvage(settings.chip, rest),
        "receive" => stream::receive(settings, rest),
        "check" => files::check(settings, rest),
        "rows" => rows::rows(settings, rest),
        "make" => files::make(settings, rest),
        "self" => own::own(settings, rest),
        "bench" => bench::bench(settings, rest),
        _ => End::Misused(format!("there is no command '{command}'")),
    }
}
