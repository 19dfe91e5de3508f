//! Holds a script program against the model: random sessions, outputs compared byte for byte.

use crate::board::Board;
use crate::command::command;
use crate::random::Random;
use crate::script;
use crate::sessions::{edge_sessions, random_session};
use crate::shrink::shrink;
use crate::sizes::Sizes;
use crate::tally::{Limit, Tally};
use std::io::{Read, Write};
use std::process::{Child, Stdio};
use std::sync::mpsc;
use std::thread;
use std::time::{Duration, Instant};

/// How long a program may take for one session.
const PATIENCE: Duration = Duration::from_secs(60);

/// What a program did with an input.
#[derive(Clone, Debug, PartialEq, Eq)]
pub struct Outcome {
    pub output: Vec<u8>,
    /// What else it did that it should not: its exit status, what it wrote on standard error (decision 14), no end.
    pub complaint: Option<String>,
}

impl Outcome {
    /// An output and no complaint.
    pub fn plain(output: Vec<u8>) -> Outcome {
        Outcome { output, complaint: None }
    }

    fn failed(complaint: String) -> Outcome {
        Outcome { output: Vec::new(), complaint: Some(complaint) }
    }
}

/// How many lines of a session are printed; the file that is kept has all of them.
const SHOWN_LINES: usize = 400;

/// How long a session that differs is made shorter.
const SHRINK_TIME: Duration = Duration::from_secs(120);

/// A session on which program and model differ.
pub struct Difference {
    part: usize,
    input: Vec<u8>,
}

/// Drives `program` over sessions until the limit. The tally counts the model's answers in every session.
/// Answers in how many sessions the program agreed, and the first one that differed.
pub fn drive(
    sizes: Sizes,
    program: &mut dyn FnMut(&[u8]) -> Outcome,
    seed: u64,
    limit: &Limit,
    tally: &mut Tally,
) -> (u64, Option<Difference>) {
    let edges = edge_sessions(sizes);
    let mut passed = 0;
    for part in 0.. {
        if limit.over(passed) {
            break;
        }
        let input = match edges.get(part) {
            Some(edge) => edge.clone(),
            None => compose(sizes, seed, part as u64, tally),
        };
        let expected = Outcome::plain(tallied_answer(sizes, &input, tally));
        if program(&input) != expected {
            return (passed, Some(Difference { part, input }));
        }
        passed += 1;
    }
    (passed, None)
}

/// The numbered random session of a seed.
fn compose(sizes: Sizes, seed: u64, part: u64, tally: &mut Tally) -> Vec<u8> {
    let session = random_session(&mut Random::of_part(seed, part), Board::start(sizes));
    for flaw in session.flaws {
        tally.count_named(format!("{flaw:?}"));
    }
    session.bytes
}

/// What the model writes, with its answers counted.
fn tallied_answer(sizes: Sizes, input: &[u8], tally: &mut Tally) -> Vec<u8> {
    answer_counted(Board::start(sizes), input, tally)
}

/// What the model writes from this board, with its answers counted.
pub fn answer_counted(board: Board, input: &[u8], tally: &mut Tally) -> Vec<u8> {
    let mut malformed = 0;
    let output = script::answer_with(
        board,
        input,
        |board, call| {
            let before = board.clone();
            let reply = board.play(&mut [], call);
            tally.record(call, &reply, &before, board);
            reply
        },
        |_| malformed += 1,
    );
    for _ in 0..malformed {
        tally.count_malformed();
    }
    output
}

fn differs(sizes: Sizes, program: &mut dyn FnMut(&[u8]) -> Outcome, input: &[u8]) -> bool {
    program(input) != Outcome::plain(script::answer(sizes, input))
}

/// A session that still differs and from which no line can be left out; false if there was no time to try every line.
pub fn shrink_session(
    sizes: Sizes,
    program: &mut dyn FnMut(&[u8]) -> Outcome,
    input: &[u8],
    time: Duration,
) -> (Vec<u8>, bool) {
    let until = Instant::now() + time;
    let mut in_time = true;
    let lines: Vec<&[u8]> = input.split_inclusive(|&byte| byte == b'\n').collect();
    let short = shrink(&lines, |fewer| {
        in_time = in_time && Instant::now() < until;
        in_time && differs(sizes, program, &fewer.concat())
    });
    (short.concat(), in_time)
}

/// What differs, with a session that is made as short as it can be.
pub fn report(sizes: Sizes, program: &mut dyn FnMut(&[u8]) -> Outcome, seed: u64, difference: &Difference) -> String {
    let Difference { part, input } = difference;
    if !differs(sizes, program, input) {
        return format!("session {part} of seed {seed} differed once, and not when it was run again\n");
    }
    let (short, shortest) = shrink_session(sizes, program, input, SHRINK_TIME);
    let claim = if shortest { "no line can be left out of this one" } else { "there was no time to shorten it further" };
    let mut text = format!("session {part} of seed {seed} differs; {claim}");
    text += &format!(" ({} bytes{}):\n", short.len(), keep_file(seed, *part, &short));
    for line in short.split_inclusive(|&byte| byte == b'\n').take(SHOWN_LINES) {
        text += &format!("    {}\n", shown(line));
    }
    text + &first_difference(&script::answer(sizes, &short), &program(&short))
}

/// Keeps the session in a file, for running it again by hand.
fn keep_file(seed: u64, part: usize, session: &[u8]) -> String {
    let path = std::env::temp_dir().join(format!("lend-session-{seed}-{part}.txt"));
    match std::fs::write(&path, session) {
        Ok(()) => format!(", in {}", path.display()),
        Err(_) => String::new(),
    }
}

/// A line as it can be printed.
pub fn shown(line: &[u8]) -> String {
    let start = line[..line.len().min(120)].escape_ascii().to_string();
    if line.len() > 120 {
        format!("{start}... ({} bytes)", line.len())
    } else {
        start
    }
}

/// What differs first between the model's output and the program's.
pub fn first_difference(expected: &[u8], seen: &Outcome) -> String {
    let mut text = match &seen.complaint {
        Some(complaint) => format!("the program {complaint}\n"),
        None => String::new(),
    };
    let mut theirs = seen.output.split_inclusive(|&byte| byte == b'\n');
    let mut ours = expected.split_inclusive(|&byte| byte == b'\n');
    let nothing = "(nothing)".to_string();
    for number in 1.. {
        let (our, their) = (ours.next(), theirs.next());
        if our.is_none() && their.is_none() {
            break;
        }
        if our != their {
            let [our, their] = [our, their].map(|line| line.map_or(nothing.clone(), shown));
            text += &format!("line {number} of the output\n    expected {our}\n    seen     {their}\n");
            break;
        }
    }
    text
}

// ---- a program of its own ----------------------------------------------------------------------------------------------------

/// Runs a program, a command and its words, once on an input.
pub fn run_program(line: &str, input: &[u8]) -> Outcome {
    match command(line).stderr(Stdio::piped()).spawn() {
        Ok(child) => converse(child, input),
        Err(error) => Outcome::failed(format!("did not start: {error}")),
    }
}

fn converse(mut child: Child, input: &[u8]) -> Outcome {
    feed(&mut child, input.to_vec());
    let output = gather(child.stdout.take().expect("piped"));
    let errors = gather(child.stderr.take().expect("piped"));
    let (output, errors) = match (output.recv_timeout(PATIENCE), errors.recv_timeout(PATIENCE)) {
        (Ok(output), Ok(errors)) => (output, errors),
        _ => {
            let _ = child.kill();
            let _ = child.wait();
            return Outcome::failed(format!("did not end within {} seconds", PATIENCE.as_secs()));
        }
    };
    let complaint = match child.wait() {
        Ok(status) if status.success() && errors.is_empty() => None,
        Ok(status) => Some(format!("ended with {status} and wrote on standard error: {}", shown(&errors))),
        Err(error) => Some(format!("could not be waited for: {error}")),
    };
    Outcome { output, complaint }
}

/// Writes the input from a thread of its own, in pieces of a size that goes by its length. A program may end before it has read
/// everything, so that a failed write is no fault.
fn feed(child: &mut Child, input: Vec<u8>) {
    let mut pipe = child.stdin.take().expect("piped");
    let piece = match input.len() % 8 {
        0 => 61,
        1 => 4096,
        2 if input.len() < 2000 => 1,
        _ => input.len().max(1),
    };
    thread::spawn(move || {
        for part in input.chunks(piece) {
            if pipe.write_all(part).is_err() {
                return;
            }
        }
    });
}

/// Reads a pipe to its end in a thread of its own.
fn gather(mut pipe: impl Read + Send + 'static) -> mpsc::Receiver<Vec<u8>> {
    let (sender, receiver) = mpsc::channel();
    thread::spawn(move || {
        let mut bytes = Vec::new();
        let _ = pipe.read_to_end(&mut bytes);
        let _ = sender.send(bytes);
    });
    receiver
}

#[cfg(test)]
mod tests {
    use super::*;

    const LIMIT: Limit = Limit { count: Some(400), until: None };

    /// Drives a wrong program, which has to be told apart.
    fn caught(name: &str, mut wrong: impl FnMut(&[u8]) -> Vec<u8>) {
        let mut program = |input: &[u8]| Outcome::plain(wrong(input));
        let (_, difference) = drive(Sizes::ENTRY, &mut program, 5, &LIMIT, &mut Tally::new(Sizes::ENTRY));
        assert!(difference.is_some(), "{name} was not told apart");
    }

    fn right(input: &[u8]) -> Vec<u8> {
        script::answer(Sizes::ENTRY, input)
    }

    /// The input with each line changed, newlines kept.
    fn each_line(input: &[u8], change: impl Fn(&[u8]) -> Vec<u8>) -> Vec<u8> {
        let input = &input[..input.len().min(script::INPUT_LIMIT)];
        input.split(|&byte| byte == b'\n').map(change).collect::<Vec<_>>().join(&b'\n')
    }

    fn without_end(line: &[u8], byte: u8) -> Vec<u8> {
        line.strip_suffix(&[byte]).unwrap_or(line).to_vec()
    }

    #[test]
    fn the_model_agrees_with_itself_and_reaches_every_answer() {
        for (sizes, count) in [(Sizes::ENTRY, 400), (Sizes::PREMIUM, 150)] {
            let mut tally = Tally::new(sizes);
            let mut program = |input: &[u8]| Outcome::plain(script::answer(sizes, input));
            let limit = Limit { count: Some(count), until: None };
            let (passed, difference) = drive(sizes, &mut program, 5, &limit, &mut tally);
            assert_eq!((passed, difference.is_none()), (count, true));
            assert_eq!(tally.missing_of_script(), Vec::<String>::new());
        }
    }

    /// The program of one model, held against the other model.
    #[test]
    fn the_other_model_is_told_apart() {
        for sizes in Sizes::MODELS {
            let mut program = |input: &[u8]| Outcome::plain(script::answer(sizes.other(), input));
            let (_, difference) = drive(sizes, &mut program, 5, &LIMIT, &mut Tally::new(sizes));
            assert!(difference.is_some());
        }
    }

    #[test]
    fn lenient_readers_are_told_apart() {
        caught("CR", |input| right(&each_line(input, |line| without_end(line, b'\r'))));
        caught("trailing space", |input| right(&each_line(input, |line| without_end(line, b' '))));
        caught("tabs", |input| right(&input.iter().map(|&b| if b == b'\t' { b' ' } else { b }).collect::<Vec<_>>()));
        caught("upper case", |input| right(&input.to_ascii_lowercase()));
        caught("leading zero", |input| {
            let text = each_line(input, |line| {
                let text: Vec<u8> = line.to_vec();
                match text.windows(3).position(|w| w[0] == b'=' && w[1] == b'0' && w[2].is_ascii_digit()) {
                    Some(at) if !line.starts_with(b"#") => [&text[..at + 1], &text[at + 2..]].concat(),
                    _ => text,
                }
            });
            right(&text)
        });
    }

    #[test]
    fn wrong_lines_and_limits_are_told_apart() {
        caught("no limit", right_without_limit);
        caught("limit one less", |input| right(&input[..input.len().min(script::INPUT_LIMIT - 1)]));
        caught("the last line lost", |input| {
            let end = input.iter().rposition(|&byte| byte == b'\n').map_or(0, |at| at + 1);
            right(&input[..end])
        });
        caught("comments not counted", |input| {
            let lines = script::lines(input).into_iter().filter(|line| !line.starts_with(b"#"));
            right(&lines.map(|line| [line, b"\n"].concat()).collect::<Vec<_>>().concat())
        });
        caught("long comments malformed", |input| {
            right(&each_line(input, |line| if line.len() > 80 { b"x".to_vec() } else { line.to_vec() }))
        });
    }

    /// Answers the whole input, by leaving out comments that only fill.
    fn right_without_limit(input: &[u8]) -> Vec<u8> {
        let shorter: Vec<Vec<u8>> = input
            .split(|&byte| byte == b'\n')
            .map(|line| if line.starts_with(b"#") { b"#".to_vec() } else { line.to_vec() })
            .collect();
        right(&shorter.join(&b'\n'))
    }

    #[test]
    fn wrong_outputs_are_told_apart() {
        caught("no last newline", |input| without_end(&right(input), b'\n'));
        caught("cut", |input| right(input).into_iter().take(500_000).collect());
        let exit = |input: &[u8]| Outcome { output: right(input), complaint: Some("ended with 1".into()) };
        assert!(drive(Sizes::ENTRY, &mut { exit }, 5, &LIMIT, &mut Tally::new(Sizes::ENTRY)).1.is_some());
    }

    #[test]
    fn a_shrunk_session_has_only_what_it_needs() {
        let session = "op=create space=3\nop=create space=2\nx\n\
            op=map from=0 page=1 to=2 at=7 rights=4\nop=translate space=2 address=7168 rights=4\nop=create space=4\n";
        let mut program = |input: &[u8]| {
            let answers = String::from_utf8(right(input)).unwrap();
            Outcome::plain(answers.replace("address=1024", "address=1025").into_bytes())
        };
        let (short, shortest) = shrink_session(Sizes::ENTRY, &mut program, session.as_bytes(), SHRINK_TIME);
        assert!(shortest);
        let expected = "op=create space=2\nop=map from=0 page=1 to=2 at=7 rights=4\n\
            op=translate space=2 address=7168 rights=4\n";
        assert_eq!(String::from_utf8(short).unwrap(), expected);
    }

    #[test]
    fn a_report_shows_the_session_and_the_first_difference() {
        let mut program = |input: &[u8]| {
            let answers = String::from_utf8(right(input)).unwrap();
            Outcome::plain(answers.replace("answer=14", "answer=15").into_bytes())
        };
        let (_, difference) = drive(Sizes::ENTRY, &mut program, 5, &LIMIT, &mut Tally::new(Sizes::ENTRY));
        let report = report(Sizes::ENTRY, &mut program, 5, &difference.unwrap());
        assert!(report.contains("no line can be left out"), "{report}");
        assert!(report.contains("answer=14") && report.contains("answer=15"), "{report}");
        assert!(report.lines().count() < 30, "{report}");
    }

    #[test]
    fn a_program_is_run_and_its_faults_are_seen() {
        assert_eq!(run_program("/bin/cat", b"a\nb"), Outcome::plain(b"a\nb".to_vec()));
        let large = vec![b'z'; 300_000];
        assert_eq!(run_program("/bin/cat", &large).output.len(), 300_000);
        assert!(run_program("/bin/false", &large).complaint.is_some());
        assert!(run_program("/no/such/program", b"").complaint.is_some());
        assert_eq!(run_program("/usr/bin/env cat", b"a"), Outcome::plain(b"a".to_vec()));
    }
}
