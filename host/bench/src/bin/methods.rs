//! `methods [ROUNDS]`: times each call through `sks_call`, through the second implementation with the plain test of
//! soundness (bench/sound/plain.rs), which goes over pairs and allocates nothing, and through the second implementation
//! as it is, in turn. A line has the call, its status, and microseconds: least and median of each of the three.

use std::hint::black_box;
use std::time::Instant;

#[path = "../../../../bench/sound/plain.rs"]
mod plain;

type Answer = fn(&mut [u8], &[u8], &[u8], &mut [u8]) -> u8;
const ANSWERS: [Answer; 3] = [
    |store, call, chip, reply| sks::call(store, call, chip, reply).0,
    |store, call, chip, reply| second::call_with(plain::is_sound, store, call, chip, reply),
    second::call,
];

fn main() {
    let rounds = std::env::args().nth(1).map_or(2000, |word| word.parse().expect("a number of rounds"));
    let (store, cases) = bench::cases();
    let mut after = [store.clone(), store.clone(), store.clone()];
    let mut replies = [[0; sks::REPLY]; 3];
    let mut times = vec![[vec![], vec![], vec![]]; cases.len()];
    for round in 0..rounds {
        for (case, times) in cases.iter().zip(&mut times) {
            for who in [round % 3, (round + 1) % 3, (round + 2) % 3] {
                after[who].copy_from_slice(&store);
                let (call, chip) = black_box((&case.built.call, &case.built.chip));
                let start = Instant::now();
                let status = ANSWERS[who](&mut after[who], call, chip, &mut replies[who]);
                times[who].push(start.elapsed().as_nanos());
                assert_eq!(status, case.status.0, "{}", case.name);
            }
            for who in 1..3 {
                assert!(after[0] == after[who] && replies[0] == replies[who], "{}: the answers differ", case.name);
            }
        }
    }
    for (case, times) in cases.iter().zip(&mut times) {
        print!("{}\t{}", case.name, case.status.0);
        for times in times {
            times.sort_unstable();
            print!("\t{:.2}\t{:.2}", times[0] as f64 / 1e3, times[rounds / 2] as f64 / 1e3);
        }
        println!();
    }
}
