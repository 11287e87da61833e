//! `trace SEED N [--max-records R]`: N steps of the histories of a seed, one a line, over stores of at most R records
//! (12 if not given). The notation is that of `trials::notation`.

use std::io::{BufWriter, Write};
use std::process::ExitCode;
use trials::histories::History;

fn main() -> ExitCode {
    let arguments: Vec<String> = std::env::args().skip(1).collect();
    let Some((seed, steps, records)) = read(&arguments) else {
        eprintln!("usage: trace SEED N [--max-records R], with R from 2 to 256");
        return ExitCode::from(2);
    };
    let mut out = BufWriter::new(std::io::stdout().lock());
    for step in History::new(seed, records).take(steps) {
        // A reader that has seen enough closes the pipe; that is no failure.
        if writeln!(out, "{}", step.line()).is_err() {
            return ExitCode::SUCCESS;
        }
    }
    match out.flush() {
        Ok(()) => ExitCode::SUCCESS,
        Err(_) => ExitCode::FAILURE,
    }
}

fn read(arguments: &[String]) -> Option<(u64, usize, usize)> {
    let records = match arguments.get(2..)? {
        [] => 12,
        [flag, records] if flag == "--max-records" => records.parse().ok().filter(|count| (2..=256).contains(count))?,
        _ => return None,
    };
    Some((arguments[0].parse().ok()?, arguments[1].parse().ok()?, records))
}
