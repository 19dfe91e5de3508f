//! Holds a script program that starts from a listing against the model: random scripts, each with a file that is a listing or is
//! refused; outputs are compared byte for byte.

use crate::calls::{Call, Reply};
use crate::drive_script::{answer_counted, first_difference, shown, Outcome};
use crate::listing;
use crate::listings::{edge_listings, listings_at_limit, some_board, twisted, Twist};
use crate::random::Random;
use crate::script::{self, first_bytes, INPUT_LIMIT};
use crate::sessions::random_session;
use crate::shrink::shrink;
use crate::sizes::Sizes;
use crate::tally::{Limit, Tally};

/// How many lines of a listing and of a script are printed.
const SHOWN_LINES: usize = 200;

/// What a program is given: the bytes of the listing's file, and its input.
#[derive(Clone, Debug, PartialEq, Eq)]
pub struct Case {
    pub listing: Vec<u8>,
    pub input: Vec<u8>,
}

impl Case {
    fn answer(&self, sizes: Sizes) -> Outcome {
        Outcome::plain(script::answer_from(sizes, &self.listing, &self.input))
    }
}

/// A case on which program and model differ.
pub struct Difference {
    part: usize,
    case: Case,
}

/// Drives `program` over cases until the limit: in how many it agreed, and the first that differed.
pub fn drive(
    sizes: Sizes,
    program: &mut dyn FnMut(&Case) -> Outcome,
    seed: u64,
    limit: &Limit,
    tally: &mut Tally,
) -> (u64, Option<Difference>) {
    let edges = edge_cases(sizes);
    let mut passed = 0;
    for part in 0.. {
        if limit.over(passed) {
            break;
        }
        let case = match edges.get(part) {
            Some(edge) => edge.clone(),
            None => compose(sizes, &mut Random::of_part(seed, part as u64), tally),
        };
        if program(&case) != Outcome::plain(counted_answer(sizes, &case, tally)) {
            return (passed, Some(Difference { part, case }));
        }
        passed += 1;
    }
    (passed, None)
}

/// The listings at their limits, and files that the limit cuts, each before a script of one line.
fn edge_cases(sizes: Sizes) -> Vec<Case> {
    let input = b"op=create space=2\n".to_vec();
    let files = listings_at_limit().into_iter().chain(edge_listings(sizes));
    files.map(|listing| Case { listing, input: input.clone() }).collect()
}

/// A random case: a script for the board of a listing, which in many cases is then changed.
fn compose(sizes: Sizes, random: &mut Random, tally: &mut Tally) -> Case {
    let board = some_board(random, sizes);
    let twist = if random.chance(60) { Twist::Untouched } else { random.pick(&Twist::ALL) };
    tally.count_named(format!("{twist:?}"));
    let listing = twisted(random, &board, twist);
    let started = listing::read(sizes, &listing).unwrap_or(board);
    Case { listing, input: random_session(random, started).bytes }
}

/// What the model writes, with the answer to the listing and those to the lines counted.
fn counted_answer(sizes: Sizes, case: &Case, tally: &mut Tally) -> Vec<u8> {
    let read = listing::read(sizes, first_bytes(&case.listing));
    let number = read.as_ref().map_or_else(|refusal| refusal.number(), |_| 0);
    tally.count(&Call::ReadListing, &Reply::bare(number));
    if case.listing.len() > INPUT_LIMIT {
        tally.count_named(format!("cut listing: {number}"));
    }
    match read {
        Ok(board) => answer_counted(board, &case.input, tally),
        Err(refusal) => script::refused(refusal),
    }
}

/// What should have occurred and did not: each answer to a listing, and both refusals of one that the limit cuts.
pub fn missing(tally: &Tally) -> Vec<String> {
    [tally.missing_of_from(), tally.missing_named(&["cut listing: 17", "cut listing: 18"])].concat()
}

/// What differs, with a script and a listing from which no line can be left out.
pub fn report(sizes: Sizes, program: &mut dyn FnMut(&Case) -> Outcome, seed: u64, difference: &Difference) -> String {
    let Difference { part, case } = difference;
    let mut differs = |case: &Case| program(case) != case.answer(sizes);
    if !differs(case) {
        return format!("case {part} of seed {seed} differed once, and not when it was run again\n");
    }
    let mut short = case.clone();
    short.input = fewer_lines(&case.input, |input| differs(&Case { input, ..short.clone() }));
    short.listing = fewer_lines(&case.listing, |listing| differs(&Case { listing, ..short.clone() }));
    let mut text = format!("case {part} of seed {seed} differs; from this listing of {} bytes:\n", short.listing.len());
    text += &show_lines(&short.listing);
    text += &format!("this script of {} bytes:\n", short.input.len());
    text += &show_lines(&short.input);
    text + &first_difference(&short.answer(sizes).output, &program(&short))
}

/// The lines that cannot be left out.
fn fewer_lines(bytes: &[u8], mut differs: impl FnMut(Vec<u8>) -> bool) -> Vec<u8> {
    let lines: Vec<&[u8]> = bytes.split_inclusive(|&byte| byte == b'\n').collect();
    shrink(&lines, |fewer| differs(fewer.concat())).concat()
}

fn show_lines(bytes: &[u8]) -> String {
    let lines = bytes.split_inclusive(|&byte| byte == b'\n').take(SHOWN_LINES);
    lines.map(|line| format!("    {}\n", shown(line))).collect()
}

#[cfg(test)]
mod tests {
    use super::*;

    const LIMIT: Limit = Limit { count: Some(150), until: None };
    const ENTRY: Sizes = Sizes::ENTRY;

    fn right(case: &Case) -> Vec<u8> {
        case.answer(ENTRY).output
    }

    /// Drives a wrong program, which has to be told apart.
    fn caught(name: &str, mut wrong: impl FnMut(&Case) -> Vec<u8>) {
        let mut program = |case: &Case| Outcome::plain(wrong(case));
        let (_, difference) = drive(ENTRY, &mut program, 5, &LIMIT, &mut Tally::new(ENTRY));
        assert!(difference.is_some(), "{name} was not told apart");
    }

    #[test]
    fn the_model_agrees_with_itself_and_reaches_every_answer() {
        for sizes in Sizes::MODELS {
            let mut tally = Tally::new(sizes);
            let (passed, difference) = drive(sizes, &mut |case| case.answer(sizes), 5, &LIMIT, &mut tally);
            assert_eq!((passed, difference.is_none()), (150, true));
            assert_eq!(missing(&tally), Vec::<String>::new());
        }
    }

    #[test]
    fn wrong_programs_are_told_apart() {
        caught("the listing is not read", |case| script::answer(ENTRY, &case.input));
        caught("a refused listing is the start board", |case| match right(case).starts_with(b"answer=") {
            true => script::answer(ENTRY, &case.input),
            false => right(case),
        });
        caught("a listing after the refusal", |case| match right(case) {
            answer if answer.starts_with(b"answer=") => [answer.as_slice(), b"live=3\nheld=0\n"].concat(),
            answer => answer,
        });
        caught("no limit", |case| match listing::read(ENTRY, &case.listing) {
            Ok(_) => right(case),
            Err(refusal) => script::refused(refusal),
        });
        caught("limit one less", |case| {
            let listing = case.listing[..case.listing.len().min(INPUT_LIMIT - 1)].to_vec();
            right(&Case { listing, input: case.input.clone() })
        });
        caught("the other model", |case| case.answer(Sizes::PREMIUM).output);
    }

    #[test]
    fn a_report_shows_listing_script_and_difference() {
        let mut program = |case: &Case| {
            let answers = String::from_utf8(right(case)).unwrap();
            Outcome::plain(answers.replace("emptied=2", "emptied=3").into_bytes())
        };
        let (_, difference) = drive(ENTRY, &mut program, 5, &LIMIT, &mut Tally::new(ENTRY));
        let report = report(ENTRY, &mut program, 5, &difference.unwrap());
        assert!(report.contains("    live=") && report.contains("    op="), "{report}");
        assert!(report.contains("emptied=2") && report.contains("emptied=3"), "{report}");
    }
}
