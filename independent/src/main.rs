//! A second implementation of the storage port's two halves, written from the paper alone, and
//! programs that compare the proved implementation with it.

mod area;
mod compare;
mod coverage;
#[cfg(test)]
mod examples;
mod generate;
mod host;
mod memory;
mod notes;
mod port;
mod random;
mod reply;
mod rounds;
mod schedule;
mod script;
mod show;
mod words;

use std::io::{self, Read, Write};
use std::process::ExitCode;

const USAGE: &str = "\
usage:
  independent replay                             a script on standard input
  independent schedule                           a schedule on standard input
  independent rounds COMMAND RESPONSE SIZE COUNT
  independent compare SEED SCRIPTS SCHEDULES REPLAY SCHEDULE
  independent stored DIR REPLAY SCHEDULE
REPLAY and SCHEDULE are shell commands that run the programs compared with.
";

fn usage() -> ExitCode {
    eprint!("{USAGE}");
    ExitCode::from(2)
}

fn input() -> io::Result<Vec<u8>> {
    let mut bytes = Vec::new();
    io::stdin().lock().read_to_end(&mut bytes)?;
    Ok(bytes)
}

fn differs(trouble: &str) -> ExitCode {
    print!("{trouble}");
    ExitCode::FAILURE
}

fn main() -> ExitCode {
    let arguments: Vec<String> = std::env::args().skip(1).collect();
    let arguments: Vec<&str> = arguments.iter().map(String::as_str).collect();
    let printed = match arguments[..] {
        ["replay"] => input().map(|bytes| script::replay(&bytes, &mut script::NoWatch)),
        ["schedule"] => input().map(|bytes| schedule::line(&bytes) + "\n"),
        ["rounds", command, response, size, count] => {
            let line = (|| {
                rounds::line(
                    command.parse().ok()?,
                    response.parse().ok()?,
                    size.parse().ok()?,
                    count.parse().ok()?,
                )
            })();
            match line {
                Some(line) => Ok(line + "\n"),
                None => return usage(),
            }
        }
        ["compare", seed, scripts, schedules, replay, schedule] => {
            let (Ok(seed), Ok(scripts), Ok(schedules)) =
                (seed.parse(), scripts.parse(), schedules.parse())
            else {
                return usage();
            };
            match compare::random(seed, scripts, schedules, replay, schedule) {
                Ok(text) => Ok(text),
                Err(trouble) => return differs(&trouble),
            }
        }
        ["stored", folder, replay, schedule] => match compare::stored(folder, replay, schedule) {
            Ok(text) => Ok(text),
            Err(trouble) => return differs(&trouble),
        },
        _ => return usage(),
    };
    match printed.and_then(|text| io::stdout().lock().write_all(text.as_bytes())) {
        Ok(()) => ExitCode::SUCCESS,
        Err(error) => {
            eprintln!("independent: {error}");
            ExitCode::FAILURE
        }
    }
}
