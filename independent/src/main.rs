//! Compares the answers of `list` and `ask` with those of a second, independent program.

mod answers;
mod apart;
mod asking;
mod body;
mod body_examples;
mod by_column;
mod channels;
mod columns;
mod columns_examples;
mod compact;
mod compare;
mod cursor;
mod description;
mod divided;
mod double_examples;
mod doubles;
mod examples;
mod inputs;
mod itself;
mod kinds;
mod layout;
mod listing;
mod looked_at;
mod lookup;
mod lookup_examples;
mod mending;
mod naming_examples;
mod questions;
mod random;
mod record;
mod refusal;
mod template;
mod thousandths;
mod turning;
mod values;
mod which;
mod words;
mod writing;

use std::process::ExitCode;

use compare::{Comparison, Programs};

const USAGE: &str =
    "independent --list PATH --ask PATH [--seed N] [--cases N] [--wrapper \"WORDS..\"]
independent --self [--seed N] [--cases N]";

struct Wishes {
    list: Option<String>,
    ask: Option<String>,
    wrapper: Vec<String>,
    seed: u64,
    cases: usize,
    itself: bool,
}

fn read_wishes() -> Option<Wishes> {
    let mut wishes = Wishes {
        list: None,
        ask: None,
        wrapper: Vec::new(),
        seed: 19794,
        cases: 100,
        itself: false,
    };
    let mut words = std::env::args().skip(1);
    while let Some(word) = words.next() {
        match word.as_str() {
            "--self" => wishes.itself = true,
            "--list" => wishes.list = Some(words.next()?),
            "--ask" => wishes.ask = Some(words.next()?),
            "--seed" => wishes.seed = words.next()?.parse().ok()?,
            "--cases" => wishes.cases = words.next()?.parse().ok()?,
            "--wrapper" => {
                wishes.wrapper = words.next()?.split_whitespace().map(String::from).collect();
            }
            _ => return None,
        }
    }
    Some(wishes)
}

fn main() -> ExitCode {
    let Some(wishes) = read_wishes() else {
        eprintln!("{USAGE}");
        return ExitCode::from(2);
    };
    let (seed, cases) = (wishes.seed, wishes.cases);
    let good = match (wishes.itself, wishes.list, wishes.ask) {
        (true, ..) => itself::check(seed, cases),
        (_, Some(list), Some(ask)) => {
            let programs = Programs {
                list,
                ask,
                wrapper: wishes.wrapper,
            };
            let mut comparison = Comparison::new(Some(programs), cases);
            asking::everything(&mut comparison, seed);
            comparison.finish()
        }
        _ => {
            eprintln!("{USAGE}");
            return ExitCode::from(2);
        }
    };
    ExitCode::from(u8::from(!good))
}
