//! The table of methods and statuses, and which of its places the paper allows.

use crate::histories::Step;
use std::collections::BTreeMap;
use std::fmt;

/// The methods, by number.
pub const METHODS: [u8; 13] = [2, 3, 5, 8, 9, 10, 12, 50, 51, 80, 82, 83, 100];

/// A column: a status, with the two 16 of the order told apart.
#[derive(Clone, Copy, Debug, PartialEq, Eq, PartialOrd, Ord)]
pub enum Column {
    Status(u8),
    FirstForm,
    SecondForm,
}

use Column::{FirstForm, SecondForm, Status};

impl fmt::Display for Column {
    fn fmt(&self, f: &mut fmt::Formatter) -> fmt::Result {
        match self {
            Status(number) => f.pad(&number.to_string()),
            FirstForm => f.pad("16 first"),
            SecondForm => f.pad("16 rest"),
        }
    }
}

/// The order in which refusals come, and done at its end.
pub const ORDER: [Column; 15] = [
    Status(21),
    Status(19),
    FirstForm,
    Status(5),
    SecondForm,
    Status(8),
    Status(7),
    Status(17),
    Status(20),
    Status(1),
    Status(3),
    Status(4),
    Status(6),
    Status(2),
    Status(0),
];

/// Where a column stands in the order.
pub fn rank(column: Column) -> usize {
    ORDER.iter().position(|&other| other == column).unwrap_or(ORDER.len())
}

/// What a method can answer. A first byte that is no method, or none, is `None`.
pub fn allowed(method: Option<u8>) -> Vec<Column> {
    let own: &[Column] = match method {
        Some(2) => &[SecondForm, Status(8), Status(17), Status(2), Status(0)],
        Some(3) => &[Status(5), SecondForm, Status(17), Status(3), Status(6), Status(0)],
        Some(5) => &[Status(5), SecondForm, Status(0)],
        Some(8 | 9) => &[Status(5), SecondForm, Status(17), Status(3), Status(2), Status(0)],
        Some(10) => &[Status(5), SecondForm, Status(8), Status(17), Status(3), Status(2), Status(0)],
        Some(12) => &[Status(5), SecondForm, Status(7), Status(17), Status(3), Status(0)],
        Some(50 | 51) => &[Status(5), SecondForm, Status(7), Status(17), Status(3), Status(4), Status(2), Status(0)],
        // 20, allowed for 82 and 100, cannot be met over a sound store and is left out.
        Some(80 | 82 | 83) => &[SecondForm, Status(7), Status(17), Status(1), Status(0)],
        Some(100) => &[SecondForm, Status(7), Status(1), Status(0)],
        _ => &[],
    };
    [&[Status(21), Status(19), FirstForm], own].concat()
}

/// The method a call names.
pub fn method_of(call: &[u8]) -> Option<u8> {
    call.first().copied().filter(|method| METHODS.contains(method))
}

/// The column an answer falls into.
pub fn column_of(call: &[u8], status: u8) -> Column {
    match status {
        16 if method_of(call).is_none() || !(5..=16_384).contains(&call.len()) => FirstForm,
        16 => SecondForm,
        other => Status(other),
    }
}

/// Counts of answers.
#[derive(Default)]
pub struct Table {
    counts: BTreeMap<(Option<u8>, Column), u64>,
    intents: BTreeMap<(&'static str, Column), u64>,
    steps: u64,
}

impl Table {
    /// Counts a step.
    pub fn add(&mut self, step: &Step) {
        let column = column_of(&step.call, step.status);
        *self.counts.entry((method_of(&step.call), column)).or_default() += 1;
        *self.intents.entry((step.intent, column)).or_default() += 1;
        self.steps += 1;
    }

    /// How often a method gave an answer.
    pub fn count(&self, method: Option<u8>, column: Column) -> u64 {
        self.counts.get(&(method, column)).copied().unwrap_or(0)
    }

    /// Places of the table that the paper allows and that were never met.
    pub fn missing(&self) -> Vec<(Option<u8>, Column)> {
        rows()
            .flat_map(|method| allowed(method).into_iter().map(move |column| (method, column)))
            .filter(|&(method, column)| self.count(method, column) == 0)
            .collect()
    }

    /// Places that were met though the paper does not allow them.
    pub fn forbidden(&self) -> Vec<(Option<u8>, Column)> {
        self.counts.keys().copied().filter(|&(method, column)| !allowed(method).contains(&column)).collect()
    }

    /// What is wrong with the counts, in words: places that are missing or forbidden.
    pub fn faults(&self) -> Vec<String> {
        let told = |word: &str, places: Vec<(Option<u8>, Column)>| -> Vec<String> {
            places.iter().map(|(method, column)| format!("{word}: method {} with {column}\n", name(*method))).collect()
        };
        [told("never met", self.missing()), told("met and not allowed", self.forbidden())].concat()
    }

    /// The table as text; a dot is a place the paper does not allow.
    pub fn text(&self) -> String {
        let mut text = format!("{} steps\n{:>8}", self.steps, "method");
        for column in ORDER {
            text += &format!("{column:>9}");
        }
        text += "\n";
        for method in rows() {
            text += &format!("{:>8}", name(method));
            for column in ORDER {
                let count = self.count(method, column);
                let shown =
                    if count == 0 && !allowed(method).contains(&column) { ".".into() } else { count.to_string() };
                text += &format!("{shown:>9}");
            }
            text += "\n";
        }
        text
    }

    /// What the generator meant each call to be, and how it was answered.
    pub fn intents_text(&self) -> String {
        let mut text = String::new();
        let mut last = "";
        for (&(intent, column), count) in &self.intents {
            if intent != last {
                text += &format!("\n{intent:<44}");
                last = intent;
            }
            text += &format!("  {column}: {count}");
        }
        text + "\n"
    }
}

fn name(method: Option<u8>) -> String {
    method.map_or("other".into(), |number| number.to_string())
}

fn rows() -> impl Iterator<Item = Option<u8>> {
    METHODS.into_iter().map(Some).chain([None])
}
