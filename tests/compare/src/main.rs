//! Differential runs of the vertex front end: see README.md.

mod answer;
mod commands;
#[cfg(test)]
#[path = "../copies.rs"]
mod copies;
mod coverage;
mod damage;
mod deck;
mod differ;
mod faults;
mod generate;
mod model;
mod oracle;
mod random;
mod replay;
mod station;
mod sweep;
#[cfg(test)]
mod tests;
mod trace;

use std::io::{Read, Write};
use std::process::ExitCode;

const USAGE: &str = "compare generate SEED COUNT [DIR]
compare list SEED NUMBER > TRACE
compare sweeps > TRACE
compare oracle < TRACE
compare model [--fault FAULT] < TRACE
compare show < TRACE
compare compare SEED COUNT --replay PATH
compare station SEED COUNT [--holes PERIOD LENGTH] --program PATH [ARGUMENT..]
compare station-shows SEED COUNT [--holes PERIOD LENGTH] --program PATH [ARGUMENT..]
compare self SEED COUNT
compare faults [SEED COUNT]
compare coverage SEED COUNT
compare record SEED COUNT DIR
compare deck HOUR > TRACE";

fn input() -> Vec<u8> {
    let mut bytes = Vec::new();
    let mut stdin = std::io::stdin().lock();
    stdin.read_to_end(&mut bytes).expect("standard input can be read");
    bytes
}

fn print(text: &[u8]) -> bool {
    std::io::stdout().lock().write_all(text).is_ok()
}

/// A command on a program behind the station's boundary.
fn station_command(
    arguments: &[&str],
    command: fn(u64, u64, &[&str], Option<oracle::Holes>) -> bool,
) -> Option<bool> {
    let (seed, count, rest) = match arguments {
        [seed, count, rest @ ..] => (seed.parse().ok()?, count.parse().ok()?, rest),
        _ => return None,
    };
    let (holes, rest) = match rest {
        ["--holes", period, length, rest @ ..] => {
            let (period, length) = (period.parse().ok()?, length.parse().ok()?);
            (Some(oracle::Holes { period, length }), rest)
        }
        _ => (None, rest),
    };
    match rest {
        ["--program", program @ ..] if !program.is_empty() => {
            Some(command(seed, count, program, holes))
        }
        _ => None,
    }
}

fn run(arguments: &[&str]) -> Option<bool> {
    let number = |text: &str| text.parse::<u64>().ok();
    Some(match *arguments {
        ["generate", seed, count] => print(&commands::one_trace(number(seed)?, number(count)?)),
        ["generate", seed, count, dir] => commands::write_lists(number(seed)?, number(count)?, dir),
        ["list", seed, n] => print(&generate::list(number(seed)?, number(n)?).bytes()),
        ["sweeps"] => print(&commands::all_sweeps()),
        ["oracle"] => print(&oracle::answers(&input())),
        ["model"] => print(&model::answers(&input(), None)),
        ["model", "--fault", fault] => {
            let wanted = |(f, _): &&(faults::Fault, &str)| format!("{f:?}") == fault;
            let (fault, _) = faults::ALL.iter().find(wanted)?;
            print(&model::answers(&input(), Some(*fault)))
        }
        ["show"] => print(&commands::shown(&input())),
        ["compare", seed, count, "--replay", path] => {
            commands::compare(number(seed)?, number(count)?, path)
        }
        ["station", ref rest @ ..] => station_command(rest, station::compare)?,
        ["station-shows", ref rest @ ..] => station_command(rest, station::shows)?,
        ["self"] => commands::compare_self(1, 1000),
        ["self", seed, count] => commands::compare_self(number(seed)?, number(count)?),
        ["faults"] => commands::faults(1, 2000),
        ["faults", seed, count] => commands::faults(number(seed)?, number(count)?),
        ["coverage", seed, count] => commands::coverage(number(seed)?, number(count)?),
        ["record", seed, count, dir] => commands::record(number(seed)?, number(count)?, dir),
        ["deck", hour] => print(&deck::trace(hour)?),
        _ => return None,
    })
}

fn main() -> ExitCode {
    let arguments: Vec<String> = std::env::args().skip(1).collect();
    let arguments: Vec<&str> = arguments.iter().map(String::as_str).collect();
    match run(&arguments) {
        Some(true) => ExitCode::SUCCESS,
        Some(false) => ExitCode::FAILURE,
        None => {
            eprintln!("{USAGE}");
            ExitCode::from(2)
        }
    }
}
