//! How many calls were compared, by kind, call and answer number.

use crate::exports::Answer;
use std::collections::BTreeMap;

/// What a call must answer, and whether the Rust was asked for it or document 01 alone says so.
#[derive(Clone, Copy)]
pub enum Expected {
    Asked(Answer),
    Unasked(Answer),
}

impl Expected {
    pub fn answer(self) -> Answer {
        match self {
            Expected::Asked(answer) | Expected::Unasked(answer) => answer,
        }
    }
}

/// Document 01: of refused calls, those with these numbers are put to the Rust, and no others.
const PUT: [u8; 4] = [6, 7, 14, 15];

/// How often each number was answered.
type Numbers = BTreeMap<u8, u64>;

#[derive(Default)]
struct Row {
    asked: Numbers,
    unasked: Numbers,
}

impl Row {
    fn calls(&self) -> u64 {
        self.asked.values().chain(self.unasked.values()).sum()
    }

    fn add(&mut self, other: &Row) {
        add(&mut self.asked, &other.asked);
        add(&mut self.unasked, &other.unasked);
    }

    fn print(&self, kind: &str, call: &str) {
        let calls = self.calls();
        let (asked, unasked) = (show(&self.asked), show(&self.unasked));
        println!("{kind:8} {call:31} {calls:>9}  {asked:44} {unasked}");
    }
}

fn add(to: &mut Numbers, from: &Numbers) {
    for (&number, count) in from {
        *to.entry(number).or_default() += count;
    }
}

fn show(numbers: &Numbers) -> String {
    let each: Vec<_> = numbers
        .iter()
        .map(|(number, count)| format!("{number}: {count}"))
        .collect();
    if each.is_empty() {
        "-".into()
    } else {
        each.join(", ")
    }
}

#[derive(Default)]
pub struct Tally {
    rows: BTreeMap<(&'static str, &'static str), Row>,
    explored: Vec<String>,
}

impl Tally {
    /// Counts a call that answered as expected. The kind `panics` shows what the Rust does where it
    /// is not to be asked.
    pub fn agreed(&mut self, kind: &'static str, call: &'static str, expected: Expected) {
        let row = self.rows.entry((kind, call)).or_default();
        let number = expected.answer().number();
        let (numbers, is_asked) = match expected {
            Expected::Asked(_) => (&mut row.asked, true),
            Expected::Unasked(_) => (&mut row.unasked, false),
        };
        assert!(
            kind == "panics" || number == 0 || is_asked == PUT.contains(&number),
            "{kind} {call}: {number}, put to the Rust: {is_asked}"
        );
        *numbers.entry(number).or_default() += 1;
    }

    pub fn explored(&mut self, line: String) {
        self.explored.push(line);
    }

    pub fn checks(&self) -> u64 {
        self.rows.values().map(Row::calls).sum()
    }

    /// A line for each call, then one for each kind.
    pub fn print(&self) {
        println!(
            "{:8} {:31} {:>9}  {:44} not put to it",
            "kind", "call", "compared", "put to the Rust, by answer number"
        );
        let mut kinds = BTreeMap::<_, Row>::new();
        for (&(kind, call), row) in &self.rows {
            row.print(kind, call);
            kinds.entry(kind).or_default().add(row);
        }
        for (kind, row) in kinds {
            row.print(kind, "in all");
        }
        for line in &self.explored {
            println!("{line}");
        }
    }
}
