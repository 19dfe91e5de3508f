//! The tables of docs/PERFORMANCE.md for this model, as they stand there.
use super::boards::{Kind, Ring, Wanted};
use super::calls::{call, CALLS};
use super::time::{times, Times};
use super::{agree, listings, script, space, LONG_LINES, NAME, PAGES};
use crate::library::Out;
use crate::process::{lines_per_second, RUN_SCRIPT};
use crate::random::Random;
use crate::Columns;

const GROUPS: [&str; 3] = ["one page", "unmap and flush of all pages", "map and grant of all pages"];

/// A row of the first table: what it says, the call, the boards, and which answers are wanted.
struct Row {
    label: String,
    name: &'static str,
    kind: Kind,
    wanted: Wanted,
}

impl Row {
    fn new(label: &str, name: &'static str, kind: Kind, wanted: Wanted) -> Row {
        let label = match kind {
            Kind::Lines(_) => format!("{label}, {kind}"),
            _ => label.to_string(),
        };
        Row { label, name, kind, wanted }
    }

    /// The rows of which the least and the most are said together.
    fn group(&self) -> &'static str {
        match self.name {
            "unmap_range" | "flush_range" => GROUPS[1],
            "map_range" | "grant_range" => GROUPS[2],
            _ => GROUPS[0],
        }
    }
}

fn done(number: u32, _: &Out) -> bool {
    number == 0
}

/// The test's own answer: the board is sound.
fn is_sound(number: u32, _: &Out) -> bool {
    number == 1
}

/// A range call that was done to all pages.
fn all_done(number: u32, out: &Out) -> bool {
    number == 0 && out[0] == PAGES as u32
}

fn rows() -> Vec<Row> {
    let long = || LONG_LINES.iter().map(|&length| Kind::Lines(length));
    let emptied: Wanted = |number, out| done(number, out) && out[0] > 0;
    let all_emptied: Wanted = |number, out| all_done(number, out) && out[2] > 0;
    let (unmap, flush) = ("unmap of all pages", "flush of all pages");
    let mut rows = vec![Row::new("sound", "sound", Kind::Lines(1), is_sound)];
    rows.extend(long().map(|kind| Row::new("sound", "sound", kind, is_sound)));
    rows.push(Row::new("create", "create", Kind::Mixed, done));
    rows.push(Row::new("unmap", "unmap", Kind::Lines(1), done));
    rows.extend(long().map(|kind| Row::new("unmap", "unmap", kind, emptied)));
    rows.push(Row::new("map", "map", Kind::Mixed, done));
    rows.push(Row::new("grant", "grant", Kind::Mixed, done));
    rows.push(Row::new("translate, hit", "translate", Kind::Mixed, |number, out| done(number, out) && out[1] == 1));
    rows.push(Row::new("translate, miss", "translate", Kind::Mixed, |number, out| done(number, out) && out[1] == 0));
    rows.push(Row::new(unmap, "unmap_range", Kind::Lines(1), all_done));
    rows.extend(long().map(|kind| Row::new(unmap, "unmap_range", kind, all_emptied)));
    rows.extend(long().map(|kind| Row::new(flush, "flush_range", kind, all_emptied)));
    rows.push(Row::new("map of all pages", "map_range", Kind::Lent, all_done));
    rows.push(Row::new("grant of all pages", "grant_range", Kind::Lent, all_done));
    // New rows come last, so that those above keep their boards.
    rows.push(Row::new("frame", "frame", Kind::Mixed, done));
    rows
}

/// Holds the columns to one another, and says on what.
fn print_agreement(rings: &[(Row, Ring)], random: &mut Random) {
    let timed: usize = rings.iter().map(|(row, ring)| agree::on_ring(&call(row.name), ring)).sum();
    let others = agree::at_random(random, 200);
    let held = |kind| rings.iter().find(|(row, _)| row.kind == kind).map(|(_, ring)| format!("{:.0} ({kind})", ring.held()));
    let held: Vec<String> = Kind::all().into_iter().filter_map(held).collect();
    let boards = rings[0].1.boards.len();
    println!("The columns agree on the {timed} requests that are timed and on {others} others. Each row has {boards} boards;");
    println!("pages held outside space 0, on the average: {}.", held.join(", "));
}

/// The least and the most of some ratios.
fn span(ratios: impl Iterator<Item = f64> + Clone) -> String {
    format!("{:.2} to {:.2}", ratios.clone().fold(f64::INFINITY, f64::min), ratios.fold(0.0, f64::max))
}

/// How many times as long as plain Rust the library takes: the least and the most over each group of rows.
fn print_spans(times: &[(&Row, Times)]) {
    println!("The library takes so many times as long as plain Rust on the image, and as plain Rust on its struct:\n");
    for group in GROUPS {
        let of = times.iter().filter(|(row, _)| row.group() == group).map(|(_, times)| times);
        let by_image = span(of.clone().map(|t| t.library / t.image));
        let by_own = span(of.map(|t| t.library / t.own));
        println!("- {group}: {by_image}, and {by_own}");
    }
}

fn print_times(rings: &[(Row, Ring)], seconds: f64) -> Columns {
    println!("\nNanoseconds per call:\n");
    println!("| call | library | plain Rust, image | plain Rust, struct | library / image | library / struct |");
    println!("|---|---:|---:|---:|---:|---:|");
    let mut taken = Vec::new();
    for (row, ring) in rings {
        let t = times(&call(row.name), ring, seconds);
        let (by_image, by_own) = (t.library / t.image, t.library / t.own);
        println!("| {} | {:.0} | {:.0} | {:.0} | {by_image:.2} | {by_own:.2} |", row.label, t.library, t.image, t.own);
        taken.push((row, t));
    }
    let least = |copy: usize| taken.iter().map(|(_, t)| t.copies[copy]).fold(f64::INFINITY, f64::min);
    let samples = taken.iter().map(|(_, t)| t.samples).min().unwrap_or(0);
    println!("\n{samples} samples or more in each column; {:.0} ns were taken off for the copy of an image,", least(0));
    print!("{:.0} ns for that of a struct. ", least(1));
    print_spans(&taken);
    taken.into_iter().map(|(row, t)| (row.label.clone(), [t.library, t.image, t.own])).collect()
}

fn print_space(random: &mut Random) {
    println!("\nStack bytes per call, and what the library copies:\n");
    println!("| call | stack: library | plain Rust, image | plain Rust, struct | library: copies of a table | bytes copied |");
    println!("|---|---:|---:|---:|---:|---:|");
    for call in &CALLS {
        let (kind, wanted): (Kind, Wanted) = match call.name {
            "sound" => (Kind::Mixed, is_sound),
            name if name.ends_with("_range") => (Kind::Lent, all_done),
            _ => (Kind::Mixed, done),
        };
        let ring = Ring::new(random, call.name, kind, wanted);
        let [library, image, own] = space::stack(call, &ring);
        let [tables, bytes] = space::copies(call, &ring);
        println!("| {} | {library} | {image} | {own} | {tables} | {bytes} |", call.name);
    }
}

fn print_script(random: &mut Random, program: Option<&str>, seconds: f64) {
    let session = script::session(random);
    println!("\nScript lines per second, on a session of {} lines:\n", session.lines().count());
    let Some(program) = program else {
        println!("not measured: the script program was not built");
        return;
    };
    let own = std::env::current_exe().expect("this program's path").display().to_string();
    let programs = [vec![program.to_string()], vec![own, RUN_SCRIPT.to_string(), NAME.to_string()]];
    let [proved, plain] = lines_per_second(&programs, &session, script::run, seconds);
    println!("| board-script | plain Rust, struct | plain Rust / board-script |\n|---:|---:|---:|");
    println!("| {proved:.0} | {plain:.0} | {:.2} |", plain / proved);
}

/// Measures this model and prints its tables; the seconds are for each row. Gives the times of the first one.
pub fn print(seconds: f64, program: Option<&str>) -> Columns {
    let mut random = Random(0x9E37_79B9_7F4A_7C15);
    println!("\n### The {NAME} model\n");
    let with_ring = |row: Row| {
        let ring = Ring::new(&mut random, row.name, row.kind, row.wanted);
        (row, ring)
    };
    let rings: Vec<(Row, Ring)> = rows().into_iter().map(with_ring).collect();
    print_agreement(&rings, &mut random);
    let columns = print_times(&rings, seconds);
    print_space(&mut random);
    print_script(&mut random, program, seconds);
    listings::print(&mut random, seconds);
    columns
}
