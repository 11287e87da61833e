//! `orders [PAIRS [SEED]]`: demand 3 as random trials over the proved library (`trials::side_by_side`). It runs until so many
//! pairs of calls have met the premises of the first half, and a twentieth as many histories those of the second, and
//! fails with the case in hex where the library breaks one, or if the trials were too much alike.

use std::process::ExitCode;
use trials::side_by_side::{both_orders, first_close_stands};

const USAGE: &str = "usage: orders [PAIRS [SEED]], 60000 pairs of seed 1 if not given";

fn library(store: &mut [u8], call: &[u8], chip: &[u8], reply: &mut [u8]) -> u8 {
    sks::call(store, call, chip, reply).0
}

fn main() -> ExitCode {
    let arguments: Result<Vec<u64>, _> = std::env::args().skip(1).map(|word| word.parse()).collect();
    let (pairs, seed) = match arguments.as_deref() {
        Ok([]) => (60_000, 1),
        Ok(&[pairs]) => (pairs, 1),
        Ok(&[pairs, seed]) => (pairs, seed),
        _ => {
            eprintln!("{USAGE}");
            return ExitCode::from(2);
        }
    };
    match hold(pairs, seed) {
        Ok(()) => ExitCode::SUCCESS,
        Err(told) => {
            print!("{told}");
            ExitCode::FAILURE
        }
    }
}

fn hold(pairs: u64, seed: u64) -> Result<(), String> {
    let orders = both_orders(library, seed, pairs)?;
    print!("{orders}");
    let stands = first_close_stands(library, seed, pairs.div_ceil(20))?;
    print!("{stands}");
    if orders.are_enough() && stands.are_enough() {
        Ok(())
    } else {
        Err("too few pairs or histories of some sort\n".to_string())
    }
}
