//! The script program of the model: 01, "The script program", byte for byte.

use crate::board::Board;
use crate::calls::{Call, Lending, Refusal, Reply, Withdrawal, MALFORMED};
use crate::listing;
use crate::sizes::Sizes;

/// Only so many bytes are read, and are the whole input.
pub const INPUT_LIMIT: usize = 65_536;

/// A line has at most so many bytes before the newline.
pub const LINE_LIMIT: usize = 80;

const DIGIT_LIMIT: usize = 5;

const SPACE_KEYS: &[&str] = &["space"];
const PAGE_KEYS: &[&str] = &["space", "page", "rights"];
const LENDING_KEYS: &[&str] = &["from", "page", "to", "at", "rights"];
const ADDRESS_KEYS: &[&str] = &["space", "address", "rights"];

/// What the program writes on the input, from the start board.
pub fn answer(sizes: Sizes, input: &[u8]) -> Vec<u8> {
    answer_with(Board::start(sizes), input, |board, call| board.play(&mut [], call), |_| ())
}

/// What the program writes where it starts from a listing, of which the first bytes are read; for a refused one its number alone.
pub fn answer_from(sizes: Sizes, listing: &[u8], input: &[u8]) -> Vec<u8> {
    match listing::read(sizes, first_bytes(listing)) {
        Ok(board) => answer_with(board, input, |board, call| board.play(&mut [], call), |_| ()),
        Err(refusal) => refused(refusal),
    }
}

/// What is written for a refused listing.
pub fn refused(refusal: Refusal) -> Vec<u8> {
    format!("answer={}\n", refusal.number()).into_bytes()
}

/// As `answer`, from any board, with every call made by `play`; `malformed` is told of each malformed line.
pub fn answer_with(
    mut board: Board,
    input: &[u8],
    mut play: impl FnMut(&mut Board, &Call) -> Reply,
    mut malformed: impl FnMut(&[u8]),
) -> Vec<u8> {
    let mut output = String::new();
    for (index, line) in lines(input).into_iter().enumerate() {
        let number = index + 1;
        if line.starts_with(b"#") {
            continue;
        }
        match parse(line) {
            None => {
                malformed(line);
                output += &format!("line={number} answer={MALFORMED}\n");
            }
            Some(call) => output += &answer_line(number, &call, play(&mut board, &call)),
        }
    }
    output += &listing::write(&board);
    output.into_bytes()
}

/// The bytes that are read of an input, or of a listing's file.
pub fn first_bytes(bytes: &[u8]) -> &[u8] {
    &bytes[..bytes.len().min(INPUT_LIMIT)]
}

/// The lines of the input: nothing after the last newline is no line.
pub fn lines(input: &[u8]) -> Vec<&[u8]> {
    let mut lines: Vec<&[u8]> = first_bytes(input).split(|&byte| byte == b'\n').collect();
    if lines.last().is_some_and(|last| last.is_empty()) {
        lines.pop();
    }
    lines
}

/// The call that a line states, or nothing if it is malformed.
pub fn parse(line: &[u8]) -> Option<Call> {
    if line.len() > LINE_LIMIT {
        return None;
    }
    let text = std::str::from_utf8(line).ok()?;
    let (op, fields) = text.split_once(' ')?;
    match op {
        "op=create" => numbers(fields, SPACE_KEYS).map(|n| Call::Create { space: n[0] }),
        "op=delete" => numbers(fields, SPACE_KEYS).map(|n| Call::Delete { space: n[0] }),
        "op=unmap" => numbers(fields, PAGE_KEYS).map(|n| Call::Unmap(withdrawal(&n))),
        "op=flush" => numbers(fields, PAGE_KEYS).map(|n| Call::Flush(withdrawal(&n))),
        "op=map" => numbers(fields, LENDING_KEYS).map(|n| Call::Map(lending(&n))),
        "op=grant" => numbers(fields, LENDING_KEYS).map(|n| Call::Grant(lending(&n))),
        "op=translate" => numbers(fields, ADDRESS_KEYS).map(|n| Call::Translate { space: n[0], address: n[1], rights: n[2] }),
        _ => None,
    }
}

fn withdrawal(n: &[u32]) -> Withdrawal {
    Withdrawal { space: n[0], page: n[1], rights: n[2] }
}

fn lending(n: &[u32]) -> Lending {
    Lending { from: n[0], page: n[1], to: n[2], at: n[3], rights: n[4] }
}

/// The numbers of `key=number` fields with exactly these keys, in this order, one space between.
pub fn numbers(fields: &str, keys: &[&str]) -> Option<Vec<u32>> {
    let fields: Vec<&str> = fields.split(' ').collect();
    if fields.len() != keys.len() {
        return None;
    }
    let value = |(field, key): (&&str, &&str)| number(field.strip_prefix(*key)?.strip_prefix('=')?);
    fields.iter().zip(keys).map(value).collect()
}

/// A decimal number of 1 to 5 digits without a needless leading zero.
fn number(digits: &str) -> Option<u32> {
    let well_formed = (1..=DIGIT_LIMIT).contains(&digits.len())
        && digits.bytes().all(|byte| byte.is_ascii_digit())
        && (digits == "0" || !digits.starts_with('0'));
    if well_formed {
        digits.parse().ok()
    } else {
        None
    }
}

/// What is printed for a well-formed line.
fn answer_line(number: usize, call: &Call, reply: Reply) -> String {
    let Reply { number: answer, out, .. } = reply;
    match call {
        Call::Translate { .. } => {
            format!("line={number} answer={answer} address={} hit={} links={}\n", out[0], out[1], out[2])
        }
        _ => format!("line={number} answer={answer} emptied={}\n", out[0]),
    }
}

/// The line that states a call (without newline), or nothing for a call that scripts do not have.
pub fn write_line(call: &Call) -> Option<String> {
    let one_page = |op: &str, w: &Withdrawal| format!("op={op} space={} page={} rights={}", w.space, w.page, w.rights);
    let two_pages =
        |op: &str, l: &Lending| format!("op={op} from={} page={} to={} at={} rights={}", l.from, l.page, l.to, l.at, l.rights);
    match call {
        Call::Create { space } => Some(format!("op=create space={space}")),
        Call::Delete { space } => Some(format!("op=delete space={space}")),
        Call::Unmap(asked) => Some(one_page("unmap", asked)),
        Call::Flush(asked) => Some(one_page("flush", asked)),
        Call::Map(asked) => Some(two_pages("map", asked)),
        Call::Grant(asked) => Some(two_pages("grant", asked)),
        Call::Translate { space, address, rights } => {
            Some(format!("op=translate space={space} address={address} rights={rights}"))
        }
        Call::Start | Call::Sound | Call::Load { .. } | Call::Store { .. } | Call::Frame { .. } => None,
        Call::UnmapRange(_) | Call::FlushRange(_) | Call::MapRange(_) | Call::GrantRange(_) => None,
        Call::WriteListing | Call::ReadListing => None,
    }
}

#[cfg(test)]
mod tests {
    use super::*;

    /// What the programs of both models write.
    fn answers(input: &[u8]) -> String {
        let [entry, premium] = Sizes::MODELS.map(|sizes| String::from_utf8(answer(sizes, input)).unwrap());
        assert_eq!(entry, premium);
        entry
    }

    const SESSION: &str = "\
# port counters
op=create space=2
op=map from=0 page=5 to=1 at=0 rights=7
op=map from=1 page=0 to=2 at=3 rights=6
op=translate space=2 address=3077 rights=4
op=unmap space=1 page=0 rights=2
op=translate space=2 address=3077 rights=2
op=map from=2 page=3 to=1 at=9 rights=4
";

    const ANSWERS: &str = "\
line=2 answer=0 emptied=0
line=3 answer=0 emptied=0
line=4 answer=0 emptied=0
line=5 answer=0 address=5125 hit=0 links=3
line=6 answer=0 emptied=0
line=7 answer=12 address=0 hit=0 links=0
line=8 answer=13 emptied=0
live=7
space=1 page=0 parent=0 at=5 rights=7
space=2 page=3 parent=1 at=0 rights=4
held=2
";

    #[test]
    fn the_session_of_01() {
        assert_eq!(answers(SESSION.as_bytes()), ANSWERS);
        assert_eq!(answers(SESSION.trim_end().as_bytes()), ANSWERS);
    }

    #[test]
    fn the_models_part_at_their_limits() {
        let input =
            b"op=create space=8\nop=map from=0 page=32 to=1 at=63 rights=4\nop=translate space=1 address=65535 rights=4\n";
        let answers = |sizes| String::from_utf8(answer(sizes, input)).unwrap();
        let refused = "line=1 answer=3 emptied=0\nline=2 answer=5 emptied=0\nline=3 answer=5 address=0 hit=0 links=0\n\
            live=3\nheld=0\n";
        assert_eq!(answers(Sizes::ENTRY), refused);
        let done = "line=1 answer=0 emptied=0\nline=2 answer=0 emptied=0\nline=3 answer=0 address=33791 hit=0 links=2\n\
            live=259\nspace=1 page=63 parent=0 at=32 rights=4\nheld=1\n";
        assert_eq!(answers(Sizes::PREMIUM), done);
    }

    #[test]
    fn empty_input_and_empty_lines() {
        assert_eq!(answers(b""), "live=3\nheld=0\n");
        assert_eq!(answers(b"\n"), "line=1 answer=16\nlive=3\nheld=0\n");
        assert_eq!(answers(b"\n\n"), "line=1 answer=16\nline=2 answer=16\nlive=3\nheld=0\n");
        assert_eq!(answers(b"#"), "live=3\nheld=0\n");
        assert_eq!(answers(b"x"), "line=1 answer=16\nlive=3\nheld=0\n");
    }

    #[test]
    fn well_formed_lines_are_read_back() {
        for line in SESSION.lines().filter(|line| !line.starts_with('#')) {
            let call = parse(line.as_bytes()).expect(line);
            assert_eq!(write_line(&call).as_deref(), Some(line));
        }
        assert_eq!(parse(b"op=create space=99999"), Some(Call::Create { space: 99999 }));
        assert_eq!(parse(b"op=create space=0"), Some(Call::Create { space: 0 }));
    }

    #[test]
    fn lines_of_another_form_are_malformed() {
        for line in [
            "",
            " ",
            "op=create",
            "op=create ",
            "op=create space=",
            "op=create space=00",
            "op=create space=01",
            "op=create space=100000",
            "op=create space=+1",
            "op=create space=-1",
            "op=create  space=1",
            " op=create space=1",
            "op=create space=1 ",
            "op=create space=1\r",
            "op=create\tspace=1",
            "op=create space=1 page=1",
            "op=Create space=1",
            "op=load space=1",
            "space=1 op=create",
            "op=unmap page=1 space=1 rights=1",
            "op=unmap space=1 page=1",
            "op=create space=\u{661}",
            "op=create space=1\0",
            "op=create space= 1",
            "op=create space==1",
            " # no comment",
        ] {
            assert_eq!(parse(line.as_bytes()), None, "{line:?}");
        }
        assert_eq!(parse(b"op=create space=1\xff"), None);
    }

    #[test]
    fn only_the_first_bytes_are_read() {
        let fill = |length: usize| [vec![b'#'; length - 1], vec![b'\n']].concat();
        let cut = [fill(INPUT_LIMIT - 17), b"op=create space=23\n".to_vec()].concat();
        assert_eq!(answers(&cut), "line=2 answer=0 emptied=0\nlive=7\nheld=0\n", "cut after space=2");
        let past = [fill(INPUT_LIMIT), b"op=create space=2\n".to_vec()].concat();
        assert_eq!(answers(&past), "live=3\nheld=0\n");
        let one = [fill(INPUT_LIMIT - 1), b"op=create space=2\n".to_vec()].concat();
        assert_eq!(answers(&one), "line=2 answer=16\nlive=3\nheld=0\n");
    }
    #[test]
    fn a_script_starts_from_a_listing() {
        let from = |listing: &str| {
            let [entry, premium] = Sizes::MODELS.map(|sizes| answer_from(sizes, listing.as_bytes(), b"op=create space=2\n"));
            assert_eq!(entry, premium);
            String::from_utf8(entry).unwrap()
        };
        let page = "space=1 page=0 parent=0 at=5 rights=7\n";
        let done = format!("line=1 answer=0 emptied=0\nlive=15\n{page}held=1\n");
        assert_eq!(from(&format!("live=11\n{page}held=1\n")), done);
        assert_eq!(from(&format!("live=11\n{page}held=2\n")), "answer=18\n");
        assert_eq!(from(&format!("live=9\n{page}held=1\n")), "answer=1\n");
        assert_eq!(from(""), "answer=17\n");
    }
}
