//! Compares the exports of libgomxeli.a with the unchanged Rust, in one process.

mod answer;
mod bounds;
mod cases;
mod demand;
mod exports;
mod image;
mod keys;
mod leaves;
mod lists;
mod loop_back;
mod one_tree;
mod pair;
mod panics;
mod record;
mod registry;
mod regular;
mod regular_bytes;
mod requests;
mod rng;
mod runs;
mod tally;
mod transmit;
mod transmit_bytes;
mod transmit_calls;
mod transmit_cases;
mod transmit_draw;
mod tree;
mod vectors;
mod whole;

use pair::Size;
use rng::Rng;
use std::path::Path;
use std::process::ExitCode;
use std::time::{Duration, Instant, SystemTime, UNIX_EPOCH};
use tally::Tally;

const USAGE: &str = "\
compare [--seed N] [--calls N | --seconds N] [--kinds K,..]
    compares; K is leaves, vectors, cases, panics, mcq, iq, reg, lb, req, txm, txr, img (default: all);
    N random calls in all (default 2000000), or as many as fit in N seconds (a line a minute on stderr),
    besides what is done over all inputs
compare --panics        shows each sequence in which the Rust panics and ours does not
compare --record DIR    writes DIR/stdin and DIR/stdout: calls, and the Rust's answers
exit 0: no difference; 1: a difference, after the shortened calls that show it; 2: bad usage";

const CALLS: u64 = 2_000_000;

/// How much is run at random.
enum Amount {
    Calls(u64),
    Seconds(u64),
}

struct Options {
    seed: u64,
    amount: Amount,
    kinds: Vec<String>,
    panics: bool,
    record: Option<String>,
}

impl Options {
    fn read(mut words: impl Iterator<Item = String>) -> Option<Self> {
        let clock = SystemTime::now().duration_since(UNIX_EPOCH).ok()?;
        let mut options = Options {
            seed: clock.as_nanos() as u64 % 1_000_000_000,
            amount: Amount::Calls(CALLS),
            kinds: kind_names().map(String::from).collect(),
            panics: false,
            record: None,
        };
        while let Some(word) = words.next() {
            match word.as_str() {
                "--seed" => options.seed = words.next()?.parse().ok()?,
                "--calls" => options.amount = Amount::Calls(words.next()?.parse().ok()?),
                "--seconds" => options.amount = Amount::Seconds(words.next()?.parse().ok()?),
                "--kinds" => options.kinds = read_kinds(&words.next()?)?,
                "--panics" => options.panics = true,
                "--record" => options.record = Some(words.next()?),
                _ => return None,
            }
        }
        Some(options)
    }

    fn has(&self, kind: &str) -> bool {
        self.kinds.iter().any(|k| k == kind)
    }
}

/// A kind of state: its name, its sizes, and those small enough to be explored.
struct Kind {
    name: &'static str,
    sizes: fn() -> Vec<Size>,
    small: fn() -> Vec<Size>,
}

const KINDS: &[Kind] = &[
    Kind {
        name: "mcq",
        sizes: lists::sizes,
        small: lists::small,
    },
    Kind {
        name: "iq",
        sizes: keys::sizes,
        small: keys::small,
    },
    Kind {
        name: "reg",
        sizes: regular::sizes,
        small: regular::small,
    },
    Kind {
        name: "lb",
        sizes: loop_back::sizes,
        small: loop_back::small,
    },
    Kind {
        name: "req",
        sizes: requests::sizes,
        small: requests::small,
    },
    Kind {
        name: "txm",
        sizes: transmit::message_sizes,
        small: transmit::small_messages,
    },
    Kind {
        name: "txr",
        sizes: transmit::response_sizes,
        small: transmit::small_responses,
    },
    Kind {
        name: "img",
        sizes: image::sizes,
        small: image::small,
    },
];

/// What is compared before the kinds: without a state, or in written sequences.
const STATELESS: [&str; 4] = ["leaves", "vectors", "cases", "panics"];

fn kind_names() -> impl Iterator<Item = &'static str> {
    STATELESS
        .into_iter()
        .chain(KINDS.iter().map(|kind| kind.name))
}

/// Names parted by commas, each of them known.
fn read_kinds(word: &str) -> Option<Vec<String>> {
    let named: Vec<_> = word.split(',').map(String::from).collect();
    let known = |name: &String| kind_names().any(|kind| kind == name);
    named.iter().all(known).then_some(named)
}

/// Says once a minute how far a long run is.
struct Progress {
    begun: Instant,
    minutes: u64,
}

impl Progress {
    fn begin() -> Self {
        Progress {
            begun: Instant::now(),
            minutes: 0,
        }
    }

    fn say(&mut self, tally: &Tally) {
        let minutes = self.begun.elapsed().as_secs() / 60;
        if minutes > self.minutes {
            self.minutes = minutes;
            eprintln!("compare: {minutes} min, {} checks", tally.checks());
        }
    }
}

/// Random calls at all sizes, by their shares, round by round.
fn run_random(sizes: &[Size], options: &Options, tally: &mut Tally) -> Result<(), String> {
    const ROUND: u64 = 100_000;
    let mut rng = Rng::new(options.seed);
    let mut progress = Progress::begin();
    let shares: u64 = sizes.iter().map(|size| size.share).sum();
    let mut made = 0;
    loop {
        let round = match options.amount {
            Amount::Calls(calls) => ROUND.min(calls.saturating_sub(made)),
            Amount::Seconds(seconds) if progress.begun.elapsed() < Duration::from_secs(seconds) => {
                ROUND
            }
            Amount::Seconds(_) => 0,
        };
        if round == 0 || sizes.is_empty() {
            return Ok(());
        }
        for size in sizes {
            runs::random(size, (round * size.share).div_ceil(shares), &mut rng, tally)
                .map_err(|d| d.to_string())?;
        }
        made += round;
        progress.say(tally);
    }
}

fn compare(options: &Options, tally: &mut Tally) -> Result<(), String> {
    if options.has("leaves") {
        leaves::compare(tally)?;
    }
    if options.has("vectors") {
        vectors::run(tally)?;
    }
    if options.has("cases") {
        cases::run(tally)?;
    }
    if options.has("panics") {
        panics::run(false, tally)?;
    }
    let kinds: Vec<_> = KINDS.iter().filter(|kind| options.has(kind.name)).collect();
    for size in kinds.iter().flat_map(|kind| (kind.small)()) {
        runs::explore(&size, tally).map_err(|d| d.to_string())?;
    }
    let sizes: Vec<_> = kinds.iter().flat_map(|kind| (kind.sizes)()).collect();
    run_random(&sizes, options, tally)
}

fn record(folder: &str) -> ExitCode {
    match record::write(Path::new(folder)) {
        Ok(count) => {
            println!("compare: {count} calls recorded in {folder}");
            ExitCode::SUCCESS
        }
        Err(error) => {
            eprintln!("compare: {folder}: {error}");
            ExitCode::FAILURE
        }
    }
}

fn report(result: Result<(), String>, tally: &Tally) -> ExitCode {
    tally.print();
    if let Err(text) = result {
        println!("{text}");
        println!("compare: {} checks, 1 difference", tally.checks());
        return ExitCode::FAILURE;
    }
    println!("compare: {} checks, 0 differences", tally.checks());
    ExitCode::SUCCESS
}

fn main() -> ExitCode {
    let Some(options) = Options::read(std::env::args().skip(1)) else {
        eprintln!("{USAGE}");
        return ExitCode::from(2);
    };
    panics::prepare();
    let mut tally = Tally::default();
    if let Some(folder) = &options.record {
        return record(folder);
    }
    if options.panics {
        let result = panics::run(true, &mut tally);
        return report(result, &tally);
    }
    println!("compare: seed {}", options.seed);
    let result = compare(&options, &mut tally);
    report(result, &tally)
}
