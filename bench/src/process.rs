//! The time of a script program that runs as a process.
use std::io::Write as _;
use std::process::{Command, Stdio};
use std::time::{Duration, Instant};

/// The word that makes this program run a script in plain Rust; the model's name follows it.
pub const RUN_SCRIPT: &str = "--run-script";

/// Runs a program on an input; what it wrote, and how long it took.
fn timed(program: &[String], input: &str) -> (Vec<u8>, Duration) {
    let began = Instant::now();
    let mut child = Command::new(&program[0])
        .args(&program[1..])
        .stdin(Stdio::piped())
        .stdout(Stdio::piped())
        .spawn()
        .unwrap_or_else(|error| panic!("{}: {error}", program[0]));
    let mut stdin = child.stdin.take().expect("its input");
    let text = input.to_owned();
    let feed = std::thread::spawn(move || stdin.write_all(text.as_bytes()));
    let output = child.wait_with_output().expect("its end").stdout;
    feed.join().expect("the feeding thread").expect("all of the input taken");
    (output, began.elapsed())
}

/// Lines per second of each program on the session in the seconds given, in turns; the best time on empty input is taken off the best
/// time on the session. What each program writes must be what `expected` gives.
pub fn lines_per_second<const N: usize>(
    programs: &[Vec<String>; N],
    session: &str,
    expected: fn(&[u8]) -> String,
    seconds: f64,
) -> [f64; N] {
    let inputs = [session, ""].map(|input| (input, expected(input.as_bytes())));
    let mut best = [[Duration::MAX; 2]; N];
    let began = Instant::now();
    let mut turns = 0;
    while turns < 3 || began.elapsed().as_secs_f64() < seconds {
        for (program, best) in programs.iter().zip(&mut best) {
            for ((input, wanted), best) in inputs.iter().zip(best) {
                let (output, took) = timed(program, input);
                assert!(output == wanted.as_bytes(), "{}: it wrote something else than plain Rust", program[0]);
                *best = took.min(*best);
            }
        }
        turns += 1;
    }
    let lines = session.lines().count() as f64;
    best.map(|[full, none]| lines / full.saturating_sub(none).as_secs_f64())
}
