//! `table SEED N [--max-records R] [--intents]`: runs N steps and prints how often each method gave each status, and
//! how often rare things happened. It fails if a pair that the paper allows was never met, if one was met that it does
//! not allow, or if one of the rare things never happened.

use std::process::ExitCode;
use trials::events::Events;
use trials::histories::History;
use trials::table::Table;

fn main() -> ExitCode {
    let mut numbers = Vec::new();
    let mut records = 256;
    let mut intents = false;
    let mut arguments = std::env::args().skip(1);
    while let Some(argument) = arguments.next() {
        match argument.as_str() {
            "--intents" => intents = true,
            "--max-records" => match arguments.next().and_then(|value| value.parse().ok()) {
                Some(value) => records = value,
                None => return usage(),
            },
            number => match number.parse::<u64>() {
                Ok(value) => numbers.push(value),
                Err(_) => return usage(),
            },
        }
    }
    let [seed, steps] = numbers[..] else {
        return usage();
    };

    let mut table = Table::default();
    let mut events = Events::default();
    for step in History::new(seed, records).take(steps as usize) {
        table.add(&step);
        events.add(&step);
    }
    print!("{}\n{}", table.text(), events.text());
    if intents {
        print!("{}", table.intents_text());
    }
    let mut faults = table.faults();
    faults.extend(events.missing().iter().map(|event| format!("never seen: {event}\n")));
    print!("{}", faults.concat());
    if faults.is_empty() {
        ExitCode::SUCCESS
    } else {
        ExitCode::FAILURE
    }
}

fn usage() -> ExitCode {
    eprintln!("usage: table SEED N [--max-records R] [--intents]");
    ExitCode::from(2)
}
