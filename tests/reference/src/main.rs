//! Holds the proved page-lending board against the model.
//!
//! ```text
//! reference script --program COMMAND   random scripts through the script program
//! reference library --driver COMMAND   random calls on the C functions, which a driver process serves
//! reference listing --driver COMMAND   listings written and read by the C functions
//! reference from --program COMMAND     random scripts that start from a listing: COMMAND --from FILE
//! reference both --driver COMMAND --premium-driver COMMAND   the same calls on both models
//! reference rehearse                   all five, with the model in the place of the implementation: what is reached
//! reference answer [--from FILE]       the model's answers to the script on standard input
//! ```
//!
//! A COMMAND is a program and its words, parted by spaces.
//!
//! Options: `--model entry` (if not given) or `--model premium`, which `both` has no use for; `--seed N` (1 if not given),
//! `--count N` (sessions or calls), `--seconds N`. With neither of the last two a mode runs for about 60 seconds. The last line
//! is `N passed, 0 failed` and the exit status 0 if nothing differed and every answer and corner occurred; the status is 1 if
//! not, and 2 if the request cannot be read.

use reference::calls::Kind;
use reference::command::is_there;
use reference::drive_both::Both;
use reference::drive_from::{self, Case};
use reference::drive_library::{Driver, Model, Subject};
use reference::drive_listing::Listings;
use reference::drive_script::{self, run_program, Outcome};
use reference::script;
use reference::served::Served;
use reference::sizes::Sizes;
use reference::tally::{Limit, Tally};
use std::io::{Read, Write};
use std::process::ExitCode;
use std::time::{Duration, Instant};

const USAGE: &str =
    "reference script --program COMMAND | library --driver COMMAND | listing --driver COMMAND | from --program COMMAND \
    | both --driver COMMAND --premium-driver COMMAND \
    | rehearse | answer [--from FILE]  [--model entry|premium] [--seed N] [--count N] [--seconds N]";
const DEFAULT_SECONDS: u64 = 60;

#[derive(Debug)]
struct Options {
    mode: String,
    sizes: Sizes,
    program: Option<String>,
    driver: Option<String>,
    premium_driver: Option<String>,
    from: Option<String>,
    seed: u64,
    count: Option<u64>,
    seconds: Option<u64>,
}

impl Options {
    /// What holds where no option is given.
    fn new(mode: String) -> Options {
        Options {
            mode,
            sizes: Sizes::ENTRY,
            program: None,
            driver: None,
            premium_driver: None,
            from: None,
            seed: 1,
            count: None,
            seconds: None,
        }
    }

    fn read(mut arguments: impl Iterator<Item = String>) -> Result<Options, String> {
        let mut options = Options::new(arguments.next().ok_or("no mode")?);
        while let Some(name) = arguments.next() {
            let value = arguments.next().ok_or(format!("{name} has no value"))?;
            let number = || value.parse::<u64>().map_err(|_| format!("{name} {value}: not a number"));
            match name.as_str() {
                "--model" => options.sizes = Sizes::named(&value).ok_or(format!("{value} is no model"))?,
                "--program" => options.program = Some(value),
                "--driver" => options.driver = Some(value),
                "--premium-driver" => options.premium_driver = Some(value),
                "--from" => options.from = Some(value),
                "--seed" => options.seed = number()?,
                "--count" => options.count = Some(number()?),
                "--seconds" => options.seconds = Some(number()?),
                _ => return Err(format!("{name} is no option")),
            }
        }
        Ok(options)
    }

    /// From now on. A count alone has no limit of time.
    fn limit(&self) -> Limit {
        let seconds = match (self.seconds, self.count) {
            (None, None) => Some(DEFAULT_SECONDS),
            (seconds, _) => seconds,
        };
        let until = seconds.map(|seconds| Instant::now() + Duration::from_secs(seconds));
        Limit { count: self.count, until }
    }
}

fn main() -> ExitCode {
    let result = Options::read(std::env::args().skip(1)).and_then(|options| run(&options));
    match result {
        Ok(true) => ExitCode::SUCCESS,
        Ok(false) => ExitCode::from(1),
        Err(complaint) => {
            eprintln!("{complaint}\n{USAGE}");
            ExitCode::from(2)
        }
    }
}

/// True if nothing failed.
fn run(options: &Options) -> Result<bool, String> {
    match options.mode.as_str() {
        "script" => {
            let line = program(options)?;
            Ok(drive_scripts(options, &mut |input| run_program(line, input)))
        }
        "from" => {
            let line = program(options)?;
            Ok(drive_from(options, &mut |case| run_from(line, case)))
        }
        "library" => Ok(drive_calls(options, &mut served(&options.driver, "--driver")?)),
        "listing" => Ok(drive_listings(options, &mut served(&options.driver, "--driver")?)),
        "both" => {
            let mut entry = served(&options.driver, "--driver")?;
            let mut premium = served(&options.premium_driver, "--premium-driver")?;
            Ok(drive_both(options, &mut entry, &mut premium))
        }
        "rehearse" => Ok(rehearse(options)),
        "answer" => answer(options).map(|()| true),
        mode => Err(format!("{mode} is no mode")),
    }
}

/// The command that answers scripts.
fn program(options: &Options) -> Result<&str, String> {
    let line = options.program.as_deref().ok_or("the mode needs --program COMMAND")?;
    is_there(line).then_some(line).ok_or(format!("{line}: no such file"))
}

/// Runs the program from a file with the case's listing.
fn run_from(line: &str, case: &Case) -> Outcome {
    let path = std::env::temp_dir().join(format!("lend-listing-{}.txt", std::process::id()));
    std::fs::write(&path, &case.listing).expect("a file for the listing");
    let outcome = run_program(&format!("{line} --from {}", path.display()), &case.input);
    std::fs::remove_file(&path).expect("the file for the listing");
    outcome
}

fn served(driver: &Option<String>, option: &str) -> Result<Served, String> {
    Served::start(driver.as_deref().ok_or(format!("the mode needs {option} COMMAND"))?)
}

fn rehearse(options: &Options) -> bool {
    let sizes = options.sizes;
    let scripts = drive_scripts(options, &mut |input| Outcome::plain(script::answer(sizes, input)));
    let calls = drive_calls(options, &mut Model(sizes));
    let both = drive_both(options, &mut Model(Sizes::ENTRY), &mut Model(Sizes::PREMIUM));
    let listings = drive_listings(options, &mut Model(sizes));
    let answer_from = |case: &Case| Outcome::plain(script::answer_from(sizes, &case.listing, &case.input));
    let from = drive_from(options, &mut { answer_from });
    scripts && calls && both && listings && from
}

/// Answers the script on standard input, from a listing if there is one.
fn answer(options: &Options) -> Result<(), String> {
    let mut input = Vec::new();
    let limit = script::INPUT_LIMIT as u64;
    std::io::stdin().take(limit).read_to_end(&mut input).map_err(|error| error.to_string())?;
    let output = match &options.from {
        None => script::answer(options.sizes, &input),
        Some(path) => {
            let listing = std::fs::read(path).map_err(|error| format!("{path}: {error}"))?;
            script::answer_from(options.sizes, &listing, &input)
        }
    };
    std::io::stdout().write_all(&output).map_err(|error| error.to_string())
}

fn drive_scripts(options: &Options, program: &mut dyn FnMut(&[u8]) -> Outcome) -> bool {
    let (sizes, seed) = (options.sizes, options.seed);
    println!("script sessions, {} model, seed {seed}", sizes.name());
    let mut tally = Tally::new(sizes);
    let (passed, difference) = drive_script::drive(sizes, program, seed, &options.limit(), &mut tally);
    let report = difference.map(|found| drive_script::report(sizes, program, seed, &found));
    print!("{}{}", tally.table(&Kind::SCRIPT), tally.corners());
    conclude(passed, report, tally.missing_of_script())
}

fn drive_calls(options: &Options, subject: &mut dyn Subject) -> bool {
    println!("library calls, {} model, seed {}", options.sizes.name(), options.seed);
    let mut driver = Driver::new(options.sizes, subject);
    let report = driver.drive(options.seed, &options.limit());
    print!("{}{}", driver.tally.table(Kind::LIBRARY), driver.tally.corners());
    let rounds = driver.sweep_hundredths() as f64 / 100.0;
    println!("every byte of an image had every telling value {rounds:.2} times");
    conclude(driver.passed, report, driver.tally.missing_of_library())
}

fn drive_listings(options: &Options, subject: &mut dyn Subject) -> bool {
    println!("listings, {} model, seed {}", options.sizes.name(), options.seed);
    let mut listings = Listings::new(options.sizes, subject);
    let report = listings.drive(options.seed, &options.limit());
    print!("{}{}", listings.tally.table(Kind::LISTING), listings.tally.counts());
    conclude(listings.passed, report, listings.tally.missing_of_listings())
}

fn drive_from(options: &Options, program: &mut dyn FnMut(&Case) -> Outcome) -> bool {
    let (sizes, seed) = (options.sizes, options.seed);
    println!("script sessions from a listing, {} model, seed {seed}", sizes.name());
    let mut tally = Tally::new(sizes);
    let (passed, difference) = drive_from::drive(sizes, program, seed, &options.limit(), &mut tally);
    let report = difference.map(|found| drive_from::report(sizes, program, seed, &found));
    print!("{}{}", tally.table(&[&[Kind::ReadListing], &Kind::SCRIPT[..]].concat()), tally.counts());
    conclude(passed, report, drive_from::missing(&tally))
}

fn drive_both(options: &Options, entry: &mut dyn Subject, premium: &mut dyn Subject) -> bool {
    println!("the same calls on both models, seed {}", options.seed);
    let mut both = Both::new(entry, premium);
    let report = both.drive(options.seed, &options.limit());
    print!("{}{}{}", both.tally.table(Kind::ONE_PAGE), both.tally.corners(), both.hits.table());
    conclude(both.passed, report, both.missing())
}

/// Prints what failed and the last line. True if nothing failed.
fn conclude(passed: u64, report: Option<String>, missing: Vec<String>) -> bool {
    let failed = report.is_some() || !missing.is_empty();
    match report {
        Some(report) => print!("{report}"),
        None if failed => println!("these answers never occurred: {}", missing.join(", ")),
        None => (),
    }
    println!("{passed} passed, {} failed", failed as u32);
    !failed
}
