//! Random histories of a store: stores begin, live for some dozen calls, and make way for the next.

use crate::author::{closed_keys, sessions, Author, Order};
use crate::crafted::{random_store, spoil};
use crate::notation::{hex, store_text, FILL};
use crate::ordered::Ordered;
use crate::random::Random;
use crate::table::Column::{self, Status};
use builder::Issuer;
use second::records::session;

/// One step of a history.
#[derive(Clone, Debug)]
pub struct Step {
    pub intent: &'static str,
    pub fault: Option<Column>,
    pub before: Vec<u8>,
    pub call: Vec<u8>,
    pub chip: Vec<u8>,
    pub ordered: Option<(Issuer, Ordered)>,
    pub reply_length: usize,
    pub status: u8,
    pub reply: Vec<u8>,
    pub after: Vec<u8>,
}

impl Step {
    /// The step as a line of a trace, without its end.
    pub fn line(&self) -> String {
        [
            store_text(&self.before),
            hex(&self.call),
            hex(&self.chip),
            self.reply_length.to_string(),
            self.status.to_string(),
            hex(&self.reply),
            store_text(&self.after),
        ]
        .join("\t")
    }
}

/// Runs one call over a copy of a store.
pub fn run(order: &Order, before: Vec<u8>, reply_length: usize) -> Step {
    let mut after = before.clone();
    let mut reply = vec![FILL; reply_length];
    let status = second::call(&mut after, &order.built.call, &order.built.chip, &mut reply);
    Step {
        intent: order.intent,
        fault: order.fault,
        before,
        call: order.built.call.clone(),
        chip: order.built.chip.clone(),
        ordered: order.ordered.clone(),
        reply_length,
        status,
        reply,
        after,
    }
}

/// A history that never ends.
pub struct History {
    author: Author,
    most_records: usize,
    store: Vec<u8>,
    steps_left: usize,
}

impl History {
    /// The history of a seed, over stores of at most so many records.
    pub fn new(seed: u64, most_records: usize) -> History {
        History {
            author: Author { random: Random::new(seed) },
            most_records: most_records.clamp(2, 256),
            store: vec![],
            steps_left: 0,
        }
    }

    /// The store as it stands.
    pub fn store(&self) -> &[u8] {
        &self.store
    }

    fn begin(&mut self) {
        let random = &mut self.author.random;
        self.steps_left = random.between(10, 70);
        // A test of soundness takes time as the square of the records, so the large stores are the fewer.
        let count = match random.below(16) {
            0 => self.most_records,
            1 => random.between(2.max(self.most_records * 2 / 3), self.most_records),
            2 | 3 => random.between(2, self.most_records),
            4 | 5 => random.between(2, self.most_records.min(4)),
            _ => random.between(2, self.most_records.min(40)),
        };
        if random.percent(15) {
            self.store = random.bytes(256 * count);
            second::format(&mut self.store);
        } else {
            self.store = random_store(random, count);
        }
    }
}

impl Iterator for History {
    type Item = Step;

    fn next(&mut self) -> Option<Step> {
        // A store without keys that users or other sessions could name has little left to show, least of all if no
        // session is at work on one.
        let spent = second::records::records(&self.store).map_or(0, |records| {
            match (closed_keys(records).is_empty(), sessions(records, session::OPEN).is_empty()) {
                (true, true) => 30,
                (true, false) => 4,
                _ => 0,
            }
        });
        if self.steps_left == 0 || self.author.random.percent(spent) {
            self.begin();
        }
        self.steps_left -= 1;
        let mut order = self.author.order(second::records::records(&self.store)?);
        let random = &mut self.author.random;
        let reply_length = if random.percent(80) { 37 } else { random.between(37, 70) };
        let step = match random.below(100) {
            0..=1 => {
                let short = if random.percent(50) { 36 } else { random.below(37) };
                order.fault = Some(Status(21));
                run(&order, self.store.clone(), short)
            }
            2..=9 => {
                let mut spoilt = self.store.clone();
                spoil(&mut spoilt, random);
                order.intent = "spoilt store";
                order.fault = (!second::sound(&spoilt)).then_some(Status(19));
                // The history goes on from the store as it was, so that one bad page does not end it.
                return Some(run(&order, spoilt, reply_length));
            }
            _ => run(&order, self.store.clone(), reply_length),
        };
        self.store.clone_from(&step.after);
        Some(step)
    }
}
