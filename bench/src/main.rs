//! Measures the proved library of each model beside plain Rust, and prints the tables: see docs/PERFORMANCE.md. No pass and no fail.
//!
//! What depends on a model's sizes is `model.rs` and the files below it. They are written once and compiled twice, in a module for each
//! model that gives them the sizes and the library. So plain Rust has arrays of constant length in both.
#![allow(clippy::duplicate_mod)]
mod clock;
mod copies;
mod library;
mod process;
mod random;
mod stack;

/// The entry model.
#[path = "."]
mod entry {
    pub use crate::library::{entry as proved, entry_counting as counting, entry_listings as on_listings};
    pub const NAME: &str = "entry";
    pub const SPACES: usize = 8;
    pub const PAGES: usize = 32;
    pub const PLACES: usize = 8;
    /// The lengths of the longest lines, on the boards that are timed and have lines of more than one page.
    pub const LONG_LINES: &[usize] = &[8];
    pub mod model;
}

/// The premium model.
#[path = "."]
mod premium {
    pub use crate::library::{premium as proved, premium_counting as counting, premium_listings as on_listings};
    pub const NAME: &str = "premium";
    pub const SPACES: usize = 16;
    pub const PAGES: usize = 64;
    pub const PLACES: usize = 16;
    /// As for the entry model.
    pub const LONG_LINES: &[usize] = &[8, 16];
    pub mod model;
}

use std::io::Read as _;

/// The times of a model: the label of each row, and the nanoseconds of library, plain Rust on the image, plain Rust on its struct.
type Columns = Vec<(String, [f64; 3])>;

/// The options of the command line.
struct Options {
    seconds: f64,
    /// The script program of each model, compiled for this machine, where there is one.
    entry_script: Option<String>,
    premium_script: Option<String>,
}

fn options() -> Options {
    let mut options = Options { seconds: 1.0, entry_script: None, premium_script: None };
    let mut words = std::env::args().skip(1);
    while let Some(word) = words.next() {
        let value = words.next();
        match (word.as_str(), value.as_ref().and_then(|text| text.parse().ok())) {
            ("--seconds", Some(seconds)) => options.seconds = seconds,
            ("--entry-script", _) => options.entry_script = value,
            ("--premium-script", _) => options.premium_script = value,
            _ => {
                eprintln!("usage: run.sh [--write] [--seconds S]: seconds for each row, 1 if none are given");
                std::process::exit(2);
            }
        }
    }
    options
}

/// The script program of a model in plain Rust: standard input to standard output.
fn run_script(model: &str) {
    let mut input = Vec::new();
    std::io::stdin().take(65_536).read_to_end(&mut input).expect("the input");
    let answer = match model {
        entry::NAME => entry::model::script::run(&input),
        _ => premium::model::script::run(&input),
    };
    print!("{answer}");
}

/// How much longer each column takes on a premium board, in the rows that both models have.
fn print_beside(entry: &Columns, premium: &Columns) {
    println!("\n### Premium beside entry\n");
    println!("How many times as long a call takes on a premium board:\n");
    println!("| call | library | plain Rust, image | plain Rust, struct |\n|---|---:|---:|---:|");
    for (label, small) in entry {
        for (_, large) in premium.iter().filter(|(other, _)| other == label) {
            let [library, image, own]: [f64; 3] = std::array::from_fn(|i| large[i] / small[i]);
            println!("| {label} | {library:.1} | {image:.1} | {own:.1} |");
        }
    }
}

fn main() {
    let words: Vec<String> = std::env::args().collect();
    if let [_, word, model] = &words[..] {
        if word == process::RUN_SCRIPT {
            return run_script(model);
        }
    }
    let options = options();
    let entry = entry::model::tables::print(options.seconds, options.entry_script.as_deref());
    let premium = premium::model::tables::print(options.seconds, options.premium_script.as_deref());
    print_beside(&entry, &premium);
}
