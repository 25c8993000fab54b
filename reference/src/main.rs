//! The commands of the reference program.

use std::env;
use std::fmt::Display;
use std::io::{self, Read, Write};
use std::path::Path;
use std::process::ExitCode;
use std::time::{Duration, Instant};

use reference::bench::bench;
use reference::compare::compare;
use reference::count::Counts;
use reference::play::play;
use reference::timer_list::TimerCall;
use reference::timer_run::{own_rtos, rtos_of_program};
use reference::{stored, timer_run};

const USAGE: &str = "usage: reference play | script | count | stream | bench | \
                     timer CALLS SEED [PROGRAM] | compare COUNT SEED [PROGRAM]";
const DEFAULT_PROGRAM: &str = "target/bin/replay";

const DIFFERENT: u8 = 1;
const CANNOT_RUN: u8 = 2;

fn main() -> ExitCode {
    let arguments: Vec<String> = env::args().skip(1).collect();
    let words: Vec<&str> = arguments.iter().map(String::as_str).collect();
    match run(&words) {
        Ok(status) => status,
        Err(error) => {
            eprintln!("reference: {}", error);
            ExitCode::from(CANNOT_RUN)
        }
    }
}

fn run(words: &[&str]) -> io::Result<ExitCode> {
    match *words {
        ["play"] => write_output(play(&read_input()?).as_bytes()),
        ["script"] => write_output(&stored::script()),
        ["stream"] => write_output(&stored::stream()),
        ["count"] => print(&Counts::of(&read_input()?)),
        ["bench"] => run_bench(),
        ["timer", calls, seed] => run_timer(calls, seed, |list| Ok(own_rtos(list))),
        ["timer", calls, seed, program] => run_timer(calls, seed, |list| {
            rtos_of_program(Path::new(program), list).map_err(|error| naming(program, error))
        }),
        ["compare", count, seed] => run_compare(count, seed, DEFAULT_PROGRAM),
        ["compare", count, seed, program] => run_compare(count, seed, program),
        _ => usage(),
    }
}

fn usage() -> io::Result<ExitCode> {
    eprintln!("{}", USAGE);
    Ok(ExitCode::from(CANNOT_RUN))
}

fn read_input() -> io::Result<Vec<u8>> {
    let mut input = Vec::new();
    io::stdin().lock().read_to_end(&mut input)?;
    Ok(input)
}

fn write_output(octets: &[u8]) -> io::Result<ExitCode> {
    let mut output = io::stdout().lock();
    output.write_all(octets)?;
    output.flush()?;
    Ok(ExitCode::SUCCESS)
}

fn print(text: &impl Display) -> io::Result<ExitCode> {
    write_output(text.to_string().as_bytes())
}

fn run_bench() -> io::Result<ExitCode> {
    bench(&mut io::stdin().lock(), &mut io::stdout().lock())?;
    Ok(ExitCode::SUCCESS)
}

fn run_timer(
    calls: &str,
    seed: &str,
    rtos: impl Fn(&[TimerCall]) -> io::Result<Vec<u32>>,
) -> io::Result<ExitCode> {
    let (calls, seed) = match (calls.parse(), seed.parse()) {
        (Ok(calls), Ok(seed)) => (calls, seed),
        _ => return usage(),
    };
    match timer_run::run(calls, seed, rtos)? {
        Ok(summary) => print(&summary),
        Err(failure) => {
            print(&failure)?;
            Ok(ExitCode::from(DIFFERENT))
        }
    }
}

fn run_compare(count: &str, seed: &str, program: &str) -> io::Result<ExitCode> {
    let (count, seed) = match (count.parse(), seed.parse()) {
        (Ok(count), Ok(seed)) => (count, seed),
        _ => return usage(),
    };
    let difference = compare(count, seed, Path::new(program), progress_of(count));
    match difference.map_err(|error| naming(program, error))? {
        None => print(&format!(
            "compared {} calls, seed {}: no difference\n",
            count, seed
        )),
        Some(difference) => {
            print(&format!("{}\n", difference))?;
            Ok(ExitCode::from(DIFFERENT))
        }
    }
}

fn naming(program: &str, error: io::Error) -> io::Error {
    io::Error::new(error.kind(), format!("{}: {}", program, error))
}

/// Writes to standard error how many calls are done, at most once a second.
fn progress_of(count: u64) -> impl FnMut(u64) {
    let mut shown = Instant::now();
    move |done| {
        if shown.elapsed() >= Duration::from_secs(1) {
            shown = Instant::now();
            eprintln!("compared {} of {} calls", done, count);
        }
    }
}
