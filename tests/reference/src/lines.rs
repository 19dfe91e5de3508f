//! Malformed script lines of every kind, and comments of every length.

use crate::random::Random;

/// What is wrong with a line.
#[derive(Clone, Copy, Debug, PartialEq, Eq)]
pub enum Flaw {
    BadDigit,
    LeadingZero,
    SixDigits,
    HugeNumber,
    NoNumber,
    MissingKey,
    WrongOrder,
    ExtraField,
    WrongKey,
    UnknownOp,
    OtherForm,
    UpperCase,
    Equals,
    LeadingSpace,
    DoubleSpace,
    TrailingSpace,
    Tab,
    CarriageReturn,
    NotAscii,
    ControlByte,
    Empty,
    Cut,
    TooLong,
    LateComment,
    AnyBytes,
}

impl Flaw {
    pub const ALL: [Flaw; 25] = [
        Flaw::BadDigit,
        Flaw::LeadingZero,
        Flaw::SixDigits,
        Flaw::HugeNumber,
        Flaw::NoNumber,
        Flaw::MissingKey,
        Flaw::WrongOrder,
        Flaw::ExtraField,
        Flaw::WrongKey,
        Flaw::UnknownOp,
        Flaw::OtherForm,
        Flaw::UpperCase,
        Flaw::Equals,
        Flaw::LeadingSpace,
        Flaw::DoubleSpace,
        Flaw::TrailingSpace,
        Flaw::Tab,
        Flaw::CarriageReturn,
        Flaw::NotAscii,
        Flaw::ControlByte,
        Flaw::Empty,
        Flaw::Cut,
        Flaw::TooLong,
        Flaw::LateComment,
        Flaw::AnyBytes,
    ];
}

/// A line with that flaw, made from a well-formed one. `Cut` and `AnyBytes` may by chance leave a well-formed line.
pub fn spoil(random: &mut Random, line: &str, flaw: Flaw) -> Vec<u8> {
    let text = match flaw {
        Flaw::BadDigit => bad_digit(random, line),
        Flaw::LeadingZero => with_number(random, line, |digits| format!("0{digits}")),
        Flaw::SixDigits => {
            let number = random.between(100_000, 999_999);
            with_number(random, line, |_| number.to_string())
        }
        Flaw::HugeNumber => huge_number(random, line),
        Flaw::NoNumber => with_number(random, line, |_| String::new()),
        Flaw::MissingKey => missing_key(random, line),
        Flaw::WrongOrder => wrong_order(random, line),
        Flaw::ExtraField => extra_field(random, line),
        Flaw::WrongKey => wrong_key(random, line),
        Flaw::UnknownOp => unknown_op(random, line),
        Flaw::OtherForm => other_form(random, line),
        Flaw::UpperCase => upper_case(random, line),
        Flaw::Equals => equals(random, line),
        Flaw::LeadingSpace => format!(" {line}"),
        Flaw::DoubleSpace => replace_a_space(random, line, "  "),
        Flaw::TrailingSpace => format!("{line} "),
        Flaw::Tab => tab(random, line),
        Flaw::CarriageReturn => format!("{line}\r"),
        Flaw::NotAscii => return with_byte_between(random, line, 128, 255),
        Flaw::ControlByte => return with_byte_between(random, line, 0, 9),
        Flaw::Empty => String::new(),
        Flaw::Cut => line[..random.below(line.len())].to_string(),
        Flaw::TooLong => too_long(random, line),
        Flaw::LateComment => late_comment(random, line),
        Flaw::AnyBytes => return any_bytes(random),
    };
    text.into_bytes()
}

/// The fields of a line, the one with `op` first.
fn fields(line: &str) -> Vec<String> {
    line.split(' ').map(str::to_string).collect()
}

/// A random field after the one with `op`.
fn some_field(random: &mut Random, fields: &[String]) -> usize {
    random.between(1, fields.len() - 1)
}

/// Changes the number of a random field.
fn with_number(random: &mut Random, line: &str, change: impl Fn(&str) -> String) -> String {
    let mut fields = fields(line);
    let at = some_field(random, &fields);
    let (key, digits) = fields[at].split_once('=').expect("key=number");
    fields[at] = format!("{key}={}", change(digits));
    fields.join(" ")
}

fn bad_digit(random: &mut Random, line: &str) -> String {
    let bad = random.pick(&["+", "-", "x", ".", "a", ":", "/", "_", ",", "\u{b2}", "\u{661}", "'", "e"]);
    let in_front = random.chance(50);
    with_number(random, line, |digits| if in_front { format!("{bad}{digits}") } else { format!("{digits}{bad}") })
}

/// Numbers that become small when they run over.
fn huge_number(random: &mut Random, line: &str) -> String {
    let wraps = random.pick(&[1u128 << 32, 1 << 64, 1 << 31, 1 << 63, 1 << 16 << 16, 10u128.pow(20), 10u128.pow(6)]);
    let small = random.below(8) as u128;
    with_number(random, line, |_| (wraps + small).to_string())
}

fn missing_key(random: &mut Random, line: &str) -> String {
    let mut fields = fields(line);
    fields.remove(random.below(fields.len()));
    fields.join(" ")
}

/// Two fields change places, `op` too where there is only one other.
fn wrong_order(random: &mut Random, line: &str) -> String {
    let mut fields = fields(line);
    let first = random.below(fields.len());
    let second = (first + random.between(1, fields.len() - 1)) % fields.len();
    fields.swap(first, second);
    fields.join(" ")
}

fn extra_field(random: &mut Random, line: &str) -> String {
    let mut fields = fields(line);
    let extra = match random.below(3) {
        0 => random.pick(&["rights=4", "page=0", "x", "size=1", "op=map"]).to_string(),
        _ => fields[random.below(fields.len())].clone(),
    };
    fields.insert(random.below(fields.len() + 1), extra);
    fields.join(" ")
}

fn wrong_key(random: &mut Random, line: &str) -> String {
    let mut fields = fields(line);
    let at = some_field(random, &fields);
    let (key, digits) = fields[at].split_once('=').expect("key=number");
    let other = match random.below(4) {
        0 => format!("{key}s"),
        1 => key[..key.len() - 1].to_string(),
        2 => String::new(),
        _ => random.pick(&["size", "base", "value", "parent", "held", "line", "op"]).to_string(),
    };
    fields[at] = format!("{other}={digits}");
    fields.join(" ")
}

fn unknown_op(random: &mut Random, line: &str) -> String {
    let mut fields = fields(line);
    fields[0] = random
        .pick(&["op=", "op=load", "op=store", "op=maps", "op=ma", "op=creat", "op=start", "map", "op=map=", "p=map", ""])
        .to_string();
    fields.join(" ")
}

/// The fields of one call with the name of one that has others.
fn other_form(random: &mut Random, line: &str) -> String {
    let mut fields = fields(line);
    let ops: &[&str] = match fields[0].as_str() {
        "op=create" | "op=delete" => &["op=unmap", "op=map", "op=translate"],
        "op=unmap" | "op=flush" => &["op=create", "op=grant", "op=translate"],
        "op=translate" => &["op=flush", "op=delete", "op=map"],
        _ => &["op=create", "op=unmap", "op=translate"],
    };
    fields[0] = random.pick(ops).to_string();
    fields.join(" ")
}

/// One letter in upper case.
fn upper_case(random: &mut Random, line: &str) -> String {
    let letters: Vec<usize> = line.match_indices(|c: char| c.is_ascii_lowercase()).map(|(at, _)| at).collect();
    let at = random.pick(&letters);
    [&line[..at], &line[at..=at].to_ascii_uppercase(), &line[at + 1..]].concat()
}

/// One `=` doubled, left out, or with a space beside it.
fn equals(random: &mut Random, line: &str) -> String {
    let all: Vec<usize> = line.match_indices('=').map(|(at, _)| at).collect();
    let at = random.pick(&all);
    let instead = random.pick(&["==", "", " =", "= ", ":", " "]);
    [&line[..at], instead, &line[at + 1..]].concat()
}

fn replace_a_space(random: &mut Random, line: &str, instead: &str) -> String {
    let all: Vec<usize> = line.match_indices(' ').map(|(at, _)| at).collect();
    let at = random.pick(&all);
    [&line[..at], instead, &line[at + 1..]].concat()
}

fn tab(random: &mut Random, line: &str) -> String {
    match random.below(3) {
        0 => format!("{line}\t"),
        1 => format!("\t{line}"),
        _ => replace_a_space(random, line, "\t"),
    }
}

/// One byte more, from `low` to `high`, anywhere in the line.
fn with_byte_between(random: &mut Random, line: &str, low: usize, high: usize) -> Vec<u8> {
    let mut bytes = line.as_bytes().to_vec();
    let byte = random.between(low, high) as u8;
    bytes.insert(random.below(bytes.len() + 1), byte);
    bytes
}

/// A line over the limit of 80 bytes, just or by much.
fn too_long(random: &mut Random, line: &str) -> String {
    let length = random.pick(&[81, 82, 100, 128, 255, 256, 257, 1000, 4097]);
    match random.below(3) {
        0 => line.to_string() + &" ".repeat(length - line.len()),
        1 => line.to_string() + &"0".repeat(length - line.len()),
        _ => "op=create space=".to_string() + &"0".repeat(length - 17) + "2",
    }
}

fn late_comment(random: &mut Random, line: &str) -> String {
    match random.below(3) {
        0 => format!("{line} # {line}"),
        1 => format!("{line}#"),
        _ => format!(" # {line}"),
    }
}

/// Any bytes but newlines; not a comment.
fn any_bytes(random: &mut Random) -> Vec<u8> {
    let length = random.between(1, 100);
    let mut bytes: Vec<u8> = (0..length).map(|_| random.byte()).map(|byte| if byte == b'\n' { 0 } else { byte }).collect();
    if bytes[0] == b'#' {
        bytes[0] = b'"';
    }
    bytes
}

/// A comment of any length and of any bytes.
pub fn comment(random: &mut Random) -> Vec<u8> {
    let length = random.pick(&[0, 1, 10, 78, 79, 80, 81, 300, 5000]);
    let plain = random.chance(60);
    let mut bytes = vec![b'#'];
    bytes
        .extend((0..length).map(|_| if plain { b'c' } else { random.byte() }).map(|byte| if byte == b'\n' { 0 } else { byte }));
    bytes
}

#[cfg(test)]
mod tests {
    use super::*;
    use crate::script::{parse, LINE_LIMIT};

    const LINES: [&str; 4] = [
        "op=create space=2",
        "op=flush space=1 page=31 rights=7",
        "op=map from=0 page=5 to=1 at=0 rights=7",
        "op=translate space=2 address=3077 rights=4",
    ];

    #[test]
    fn every_flaw_makes_a_malformed_line() {
        let mut random = Random::new(11);
        for flaw in Flaw::ALL {
            for line in LINES.iter().cycle().take(800) {
                let spoilt = spoil(&mut random, line, flaw);
                assert!(!spoilt.contains(&b'\n'));
                assert!(!spoilt.starts_with(b"#"));
                let by_chance = matches!(flaw, Flaw::Cut | Flaw::AnyBytes);
                assert!(by_chance || parse(&spoilt).is_none(), "{flaw:?}: {}", spoilt.escape_ascii());
            }
        }
    }

    #[test]
    fn too_long_lines_are_too_long_and_comments_are_comments() {
        let mut random = Random::new(12);
        for line in LINES.iter().cycle().take(200) {
            assert!(spoil(&mut random, line, Flaw::TooLong).len() > LINE_LIMIT);
            let comment = comment(&mut random);
            assert!(comment.starts_with(b"#") && !comment.contains(&b'\n'));
        }
    }
}
