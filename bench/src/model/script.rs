//! The script program in plain Rust, and a session for it.
use super::boards::request;
use super::calls::call;
use super::listing::listing;
use super::own::Board;
use super::SPACES;
use crate::library::{Numbers, Out};
use crate::random::Random;
use std::fmt::Write as _;

const INPUT: usize = 65_536;
const LINE: usize = 80;

/// Each command and its keys.
const FORMS: [(&str, &[&str]); 7] = [
    ("create", &["space"]),
    ("delete", &["space"]),
    ("unmap", &["space", "page", "rights"]),
    ("flush", &["space", "page", "rights"]),
    ("map", &["from", "page", "to", "at", "rights"]),
    ("grant", &["from", "page", "to", "at", "rights"]),
    ("translate", &["space", "address", "rights"]),
];

fn number(text: &str) -> Option<u32> {
    let digits = (1..=5).contains(&text.len()) && text.bytes().all(|b| b.is_ascii_digit());
    if !digits || (text.len() > 1 && text.starts_with('0')) {
        return None;
    }
    text.parse().ok()
}

/// The command of a line, or nothing where it is malformed.
fn command(line: &[u8]) -> Option<(&'static str, Numbers)> {
    if line.len() > LINE {
        return None;
    }
    let mut words = std::str::from_utf8(line).ok()?.split(' ');
    let name = words.next()?.strip_prefix("op=")?;
    let (name, keys) = *FORMS.iter().find(|form| form.0 == name)?;
    let mut numbers = Numbers::default();
    for (key, place) in keys.iter().zip(&mut numbers) {
        *place = number(words.next()?.strip_prefix(key)?.strip_prefix('=')?)?;
    }
    words.next().is_none().then_some((name, numbers))
}

/// Answers one line on the board.
fn answer(board: &mut Board, at: usize, line: &[u8], output: &mut String) {
    let mut out = Out::default();
    let written = match command(line) {
        None => writeln!(output, "line={at} answer=16"),
        Some((name, numbers)) => {
            let number = (call(name).own)(board, &mut [], &numbers, &mut out);
            match name {
                "translate" => writeln!(output, "line={at} answer={number} address={} hit={} links={}", out[0], out[1], out[2]),
                _ => writeln!(output, "line={at} answer={number} emptied={}", out[0]),
            }
        }
    };
    written.expect("a string takes all");
}

/// What the script program writes for an input.
pub fn run(input: &[u8]) -> String {
    let input = &input[..input.len().min(INPUT)];
    let (mut board, mut output) = (Board::start(), String::new());
    let whole = input.strip_suffix(b"\n").unwrap_or(input);
    if !input.is_empty() {
        for (at, line) in whole.split(|&b| b == b'\n').enumerate() {
            if !line.starts_with(b"#") {
                answer(&mut board, at + 1, line, &mut output);
            }
        }
    }
    output += std::str::from_utf8(&listing(&board)).expect("a listing is text");
    output
}

/// A session of the greatest length: spaces made, then random commands.
pub fn session(random: &mut Random) -> String {
    let mut text: String = (2..SPACES).map(|space| format!("op=create space={space}\n")).collect();
    loop {
        let name = ["map", "map", "map", "grant", "unmap", "flush", "translate", "translate"][random.below(8) as usize];
        let keys = FORMS.iter().find(|form| form.0 == name).expect("a form").1;
        let numbers = request(random, name, SPACES as u32);
        let words: String = keys.iter().zip(numbers).map(|(key, number)| format!(" {key}={number}")).collect();
        let line = format!("op={name}{words}\n");
        if text.len() + line.len() > INPUT {
            return text;
        }
        text += &line;
    }
}
