//! `differ [CALLS [SEED]]`: holds the proved library against the second implementation.
//!
//! Random histories over stores of 2 to 256 records: after every call status, whole store and whole reply must be the
//! same. Beside them, formats over any bytes of any length, and a sound store with one byte changed, at every place. It
//! prints how often each method gave each status, and fails with the case in hex at the first difference; also if an
//! answer that the paper allows a method was never met, if one was met that it does not allow, or if one of the rare
//! things of `trials::events` never happened.

use std::process::ExitCode;
use std::time::{Duration, Instant};
use trials::author::Order;
use trials::events::Events;
use trials::histories::{run, History, Step};
use trials::notation::{hex, store_text, FILL};
use trials::random::Random;
use trials::sample::sample;
use trials::table::Table;

const USAGE: &str = "usage: differ [CALLS [SEED]], 200000 calls of seed 1 if not given";

/// A format is tried once in so many calls.
const CALLS_A_FORMAT: usize = 20;

fn main() -> ExitCode {
    let arguments: Result<Vec<u64>, _> = std::env::args().skip(1).map(|word| word.parse()).collect();
    let (calls, seed) = match arguments.as_deref() {
        Ok([]) => (200_000, 1),
        Ok(&[calls]) => (calls, 1),
        Ok(&[calls, seed]) => (calls, seed),
        _ => {
            eprintln!("{USAGE}");
            return ExitCode::from(2);
        }
    };
    match compare(calls as usize, seed) {
        Ok(summary) => {
            print!("{summary}");
            ExitCode::SUCCESS
        }
        Err(told) => {
            print!("{told}");
            ExitCode::FAILURE
        }
    }
}

fn compare(calls: usize, seed: u64) -> Result<String, String> {
    let edits = one_byte_changed()?;
    let (mut table, mut events, mut formats) = (Table::default(), Events::default(), Formats::new(seed));
    let mut clock = Clock::new(calls);
    for (done, step) in History::new(seed, 256).take(calls).enumerate() {
        same_answer(&step).map_err(|told| format!("call {} of seed {seed}: {told}", done + 1))?;
        table.add(&step);
        events.add(&step);
        if done.is_multiple_of(CALLS_A_FORMAT) {
            formats.try_one()?;
        }
        clock.tell(done + 1);
    }
    let shown = format!("{}\n{edits}{}\n{}\n", table.text(), formats.text(), events.text());
    let unseen = events.missing().into_iter().map(|event| format!("never seen: {event}\n"));
    let wrong: String = table.faults().into_iter().chain(unseen).chain(formats.missing()).collect();
    if wrong.is_empty() {
        let seconds = clock.start.elapsed().as_secs_f64();
        Ok(format!("{shown}seed {seed}: library and second implementation agree on {calls} calls ({seconds:.1} s)\n"))
    } else {
        Err(format!("{shown}{wrong}"))
    }
}

/// Gives the library a step that the second implementation has answered.
fn same_answer(step: &Step) -> Result<(), String> {
    let mut store = step.before.clone();
    let mut reply = vec![FILL; step.reply_length];
    let status = sks::call(&mut store, &step.call, &step.chip, &mut reply).0;
    if status == step.status && reply == step.reply && store == step.after {
        return Ok(());
    }
    let answer = |who: &str, status: u8, reply: &[u8], store: &[u8]| {
        format!("{who}: status {status}\n  reply {}\n  store {}\n", hex(reply), store_text(store))
    };
    Err(format!(
        "the two differ over \"{}\"\nstore {}\ncall {}\nchip {}\nreply of {} bytes\n{}{}",
        step.intent,
        store_text(&step.before),
        hex(&step.call),
        hex(&step.chip),
        step.reply_length,
        answer("library", status, &reply, &store),
        answer("second", step.status, &step.reply, &step.after),
    ))
}

/// Changes one byte of the sample store, at every place and to several values. The call is the use of a key.
fn one_byte_changed() -> Result<String, String> {
    let built = builder::user(100, 65_541, &[b""]);
    let order = Order { intent: "one byte changed", built, ordered: None, fault: None };
    let sound = sample().concat();
    let (mut unsound, mut all) = (0, 0);
    for place in 0..sound.len() {
        let byte = sound[place];
        for value in
            [byte.wrapping_add(1), byte.wrapping_sub(1), 0, 1, 2, 3, 4, 8, 16, 17, 32, 33, 97, 0x7f, 0x80, 0xff]
        {
            let mut store = sound.clone();
            store[place] = value;
            if sks::is_sound(&store) != second::sound(&store) {
                return Err(format!("sks_sound and the second implementation differ with {value} at place {place}"));
            }
            let step = run(&order, store, 37);
            same_answer(&step)?;
            all += 1;
            unsound += u64::from(step.status == 19);
        }
    }
    Ok(format!("one byte of a sound store changed: {all} calls, {unsound} with 19\n"))
}

/// Formats of any bytes: how often each status came back.
struct Formats {
    random: Random,
    done: u64,
    refused: u64,
}

impl Formats {
    fn new(seed: u64) -> Formats {
        Formats { random: Random::new(!seed), done: 0, refused: 0 }
    }

    fn try_one(&mut self) -> Result<(), String> {
        let records = self.random.pick(&[0, 1, 2, 3, 8, 40, 255, 256, 257]);
        let more = if self.random.percent(60) { 0 } else { self.random.pick(&[1, 128, 255]) };
        let before = self.random.bytes(256 * records + more);
        let (mut one, mut other) = (before.clone(), before.clone());
        let (status, expected) = (sks::format(&mut one).0, second::format(&mut other));
        if status != expected || one != other {
            return Err(format!(
                "the two differ over a format\nstore {}\nlibrary: status {status}\n  store {}\nsecond: status {expected}\n  store {}\n",
                store_text(&before),
                store_text(&one),
                store_text(&other)
            ));
        }
        *(if expected == 0 { &mut self.done } else { &mut self.refused }) += 1;
        Ok(())
    }

    fn missing(&self) -> Option<String> {
        (self.done == 0 || self.refused == 0).then(|| "never met: one of the two answers of format\n".to_string())
    }

    fn text(&self) -> String {
        format!("formats: {} with 0, {} with 19\n", self.done, self.refused)
    }
}

/// Says on long runs how far it has come.
struct Clock {
    start: Instant,
    next: Duration,
    calls: usize,
}

impl Clock {
    const EVERY: Duration = Duration::from_secs(30);

    fn new(calls: usize) -> Clock {
        Clock { start: Instant::now(), next: Clock::EVERY, calls }
    }

    fn tell(&mut self, done: usize) {
        if done.is_multiple_of(1000) && self.start.elapsed() >= self.next {
            eprintln!("{done} of {} calls agree after {:.0} s", self.calls, self.start.elapsed().as_secs_f64());
            self.next += Clock::EVERY;
        }
    }
}
