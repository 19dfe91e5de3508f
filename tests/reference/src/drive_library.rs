//! Holds the calls over images against the model: long runs of calls on one image, with side trips to damaged images and to
//! memory of the wrong length. After every call the number, the out fields and every byte of image and memory are compared.

use crate::board::Board;
use crate::calls::{Call, Kind, Reply};
use crate::damage::{damaged, Damage, Sweep};
use crate::image;
use crate::random::Random;
use crate::sessions::{along_a_line, crowded_board, loose, random_board, Composer};
use crate::shrink::shrink;
use crate::sizes::{Sizes, PAGE_BYTES};
use crate::tally::{Limit, Tally};

/// What answers calls over an image.
pub trait Subject {
    fn call(&mut self, image: &mut [u8], memory: &mut [u8], call: &Call) -> Reply;
}

/// The model itself.
pub struct Model(pub Sizes);

impl Subject for Model {
    fn call(&mut self, image: &mut [u8], memory: &mut [u8], call: &Call) -> Reply {
        image::play(self.0, image, memory, call)
    }
}

/// The bytes that calls are made on.
#[derive(Clone, Debug, PartialEq, Eq)]
pub struct World {
    pub image: Vec<u8>,
    pub memory: Vec<u8>,
}

/// A call to which the two answer differently.
pub struct Mismatch {
    pub expected: (Reply, World),
    pub seen: (Reply, World),
}

/// A list of calls from a world, the last of which is answered differently.
struct Trial {
    world: World,
    calls: Vec<Call>,
}

pub struct Driver<'a> {
    sizes: Sizes,
    subject: &'a mut dyn Subject,
    pub tally: Tally,
    /// How many calls have been compared and were answered alike.
    pub passed: u64,
    sweep: Sweep,
}

impl<'a> Driver<'a> {
    pub fn new(sizes: Sizes, subject: &'a mut dyn Subject) -> Driver<'a> {
        Driver { sizes, subject, tally: Tally::new(sizes), passed: 0, sweep: Sweep::new(sizes) }
    }

    /// Drives the subject until the limit. A report if a call differed.
    pub fn drive(&mut self, seed: u64, limit: &Limit) -> Option<String> {
        for part in 0.. {
            if limit.over(self.passed) {
                break;
            }
            let mut random = Random::of_part(seed, part);
            if let Err(trial) = self.long_run(&mut random, limit) {
                return Some(format!("run {part} of seed {seed} differs\n{}", self.report(trial)));
            }
        }
        None
    }

    /// How many times every byte of an image had every telling value, in hundredths.
    pub fn sweep_hundredths(&self) -> usize {
        self.sweep.hundredths()
    }

    // ---- what is tried -------------------------------------------------------------------------------------------------------

    /// Many calls on one image, from the start board or from a random sound one.
    fn long_run(&mut self, random: &mut Random, limit: &Limit) -> Result<(), Trial> {
        let start = self.start_world(random);
        let mut world = start.clone();
        let mut calls = Vec::new();
        let mut composer = Composer::new(Kind::BOARD);
        for _ in 0..random.between(100, 1500) {
            if limit.over(self.passed) {
                break;
            }
            let board = image::decode(self.sizes, &world.image).expect("the model leaves a board's image");
            let call = match random.below(2000) {
                0 => Call::Start,
                1..=40 => Call::Sound,
                _ => composer.compose(random, &board),
            };
            calls.push(call);
            self.step(&mut world, &call).map_err(|before| self.trial(before, &start, &calls))?;
            if random.chance(25) {
                self.side_trip(random, &board, &world.memory)?;
            }
        }
        Ok(())
    }

    fn start_world(&self, random: &mut Random) -> World {
        let board = if random.chance(40) { Board::start(self.sizes) } else { random_board(random, self.sizes) };
        World { image: image::encode(&board), memory: patterned_memory(self.sizes) }
    }

    /// A few calls on bytes that are then thrown away: a damaged image, memory of the wrong length, a board with long lines or with
    /// most pages on one frame, or none of these and calls with more than one fault.
    fn side_trip(&mut self, random: &mut Random, board: &Board, memory: &[u8]) -> Result<(), Trial> {
        let start = World { image: image::encode(board), memory: memory.to_vec() };
        let (start, calls) = match random.below(20) {
            0..=2 => (self.with_wrong_memory(random, board, start), trip_calls(random, board, &[Kind::Load, Kind::Store])),
            3..=5 => (start, trip_calls(random, board, &[Kind::Map, Kind::Grant, Kind::Flush, Kind::Translate])),
            6 => {
                let (lines, calls) = along_a_line(random, self.sizes);
                (World { image: image::encode(&lines), ..start }, calls)
            }
            7 => {
                let crowded = crowded_board(random, self.sizes);
                let kinds = [Kind::Frame, Kind::Frame, Kind::Unmap, Kind::Flush, Kind::Delete, Kind::Grant];
                (World { image: image::encode(&crowded), ..start }, trip_calls(random, &crowded, &kinds))
            }
            _ => (self.with_damaged_image(random, board, start), trip_calls(random, board, Kind::BOARD)),
        };
        let mut world = start.clone();
        for made in 1..=calls.len() {
            let step = self.step(&mut world, &calls[made - 1]);
            step.map_err(|before| self.trial(before, &start, &calls[..made]))?;
        }
        Ok(())
    }

    fn with_damaged_image(&mut self, random: &mut Random, board: &Board, world: World) -> World {
        let damage = match random.below(100) {
            0..=49 => Damage::Field,
            50..=54 => Damage::Length,
            55..=64 => random.pick(&Damage::OF_SUMMARY),
            _ => random.pick(&Damage::ALL),
        };
        self.tally.count_named(format!("{damage:?}"));
        World { image: damaged(random, board, damage, &mut self.sweep), ..world }
    }

    /// Memory of the wrong length; the image too is damaged at times, as 1 comes before 2.
    fn with_wrong_memory(&mut self, random: &mut Random, board: &Board, mut world: World) -> World {
        let length = wrong_length(random, self.sizes.memory());
        world.memory.resize(length, 1);
        if random.chance(20) {
            self.with_damaged_image(random, board, world)
        } else {
            world
        }
    }

    // ---- the comparison ------------------------------------------------------------------------------------------------------

    /// Makes one call with both and counts it. If they differ, the world before the call comes back.
    fn step(&mut self, world: &mut World, call: &Call) -> Result<(), World> {
        let before = world.clone();
        match self.compare(&before, call) {
            Ok((reply, after)) => {
                *world = after;
                self.passed += 1;
                self.count(&before, call, &reply, world);
                Ok(())
            }
            Err(_) => Err(before),
        }
    }

    /// Makes one call with both.
    fn compare(&mut self, before: &World, call: &Call) -> Result<(Reply, World), Box<Mismatch>> {
        let mut ours = before.clone();
        let mut theirs = before.clone();
        let expected = image::play(self.sizes, &mut ours.image, &mut ours.memory, call);
        let seen = self.subject.call(&mut theirs.image, &mut theirs.memory, call);
        if expected == seen && ours == theirs {
            Ok((expected, ours))
        } else {
            Err(Box::new(Mismatch { expected: (expected, ours), seen: (seen, theirs) }))
        }
    }

    fn count(&mut self, before: &World, call: &Call, reply: &Reply, after: &World) {
        let decode = |world: &World| image::decode(self.sizes, &world.image);
        let boards = (decode(before), decode(after));
        let unsound = if call.kind() == Kind::Sound { 0 } else { 1 };
        if let (Some(board), true) = (&boards.0, reply.number == unsound) {
            self.tally.count_wrong_summary(call, board);
        }
        match boards {
            (Some(before), Some(after)) if reply.number == 0 && call.kind() != Kind::Sound => {
                self.tally.record(call, reply, &before, &after);
            }
            _ => self.tally.count(call, reply),
        }
    }

    /// The first of the calls that differs, with what differs.
    fn first_mismatch(&mut self, world: &World, calls: &[Call]) -> Option<(usize, Box<Mismatch>)> {
        let mut world = world.clone();
        for (index, call) in calls.iter().enumerate() {
            match self.compare(&world, call) {
                Ok((_, after)) => world = after,
                Err(mismatch) => return Some((index, mismatch)),
            }
        }
        None
    }

    fn differs(&mut self, world: &World, calls: &[Call]) -> bool {
        self.first_mismatch(world, calls).is_some()
    }

    // ---- the report ----------------------------------------------------------------------------------------------------------

    /// The shortest list of calls: one from the world before it, or, if that does not differ, all from the start of the run less
    /// those that can be left out.
    fn trial(&mut self, before: World, start: &World, calls: &[Call]) -> Trial {
        let last = vec![*calls.last().expect("the call that differed")];
        if self.differs(&before, &last) {
            return Trial { world: before, calls: last };
        }
        let world = start.clone();
        let calls = shrink(calls, |fewer| self.differs(&world, fewer));
        Trial { world, calls }
    }

    /// The same calls from a world with as few bytes other than 0 as still show a difference.
    fn simplified(&mut self, trial: Trial) -> Trial {
        let Trial { mut world, calls } = trial;
        let records: Vec<_> = image::records(self.sizes).into_iter().filter(|record| record.end <= world.image.len()).collect();
        let kept = shrink(&records, |kept| {
            let image = image::reduced(self.sizes, &world.image, kept);
            self.differs(&World { image, memory: world.memory.clone() }, &calls)
        });
        let image = image::reduced(self.sizes, &world.image, &kept);
        if self.differs(&World { image: image.clone(), memory: world.memory.clone() }, &calls) {
            world.image = image;
        }
        let bytes: Vec<_> = (0..world.memory.len()).map(|at| at..at + 1).collect();
        let kept = shrink(&bytes, |kept| {
            let memory = image::only(&world.memory, kept);
            self.differs(&World { image: world.image.clone(), memory }, &calls)
        });
        world.memory = image::only(&world.memory, &kept);
        Trial { world, calls }
    }

    fn report(&mut self, trial: Trial) -> String {
        if !self.differs(&trial.world, &trial.calls) {
            return "it differed once, and not when it was run again\n".to_string();
        }
        let trial = self.simplified(trial);
        let (index, mismatch) = self.first_mismatch(&trial.world, &trial.calls).expect("it still differs");
        let mut text = show_world(self.sizes, &trial.world);
        text += "calls:\n";
        for call in &trial.calls {
            text += &format!("    {call:?}\n");
        }
        text + &format!("call {} differs:\n", index + 1) + &show_mismatch(self.sizes, &mismatch)
    }
}

/// Memory in which neighbours, and the same places of two frames, differ.
pub fn patterned_memory(sizes: Sizes) -> Vec<u8> {
    (0..sizes.memory()).map(|at| (7 * at + 13 * (at / PAGE_BYTES) + 1) as u8).collect()
}

/// Any length but the right one, that of the other model too.
fn wrong_length(random: &mut Random, right: usize) -> usize {
    let any = random.below(right);
    random.pick(&[0, 1, PAGE_BYTES, right - 1, right + 1, right - PAGE_BYTES, right + PAGE_BYTES, right / 2, 2 * right, any])
}

/// One to three calls for a board; often sound, seldom start.
fn trip_calls(random: &mut Random, board: &Board, kinds: &[Kind]) -> Vec<Call> {
    (0..random.between(1, 3))
        .map(|_| match random.below(30) {
            0 | 1 => Call::Start,
            2..=9 => Call::Sound,
            _ => {
                let kind = random.pick(kinds);
                let slack = random.pick(&[0, 10, 40, 60]);
                loose(random, board, kind, slack)
            }
        })
        .collect()
}

/// An image, and its records that are not as in the start board.
pub fn show_image(sizes: Sizes, image: &[u8]) -> String {
    let mut text = format!("from this image of {} bytes:\n", image.len());
    for chunk in image.chunks(64) {
        let hex: String = chunk.iter().map(|byte| format!("{byte:02x}")).collect();
        text += &format!("    {hex}\n");
    }
    let start = image::encode(&Board::start(sizes));
    if image.len() == start.len() {
        text += "which is the start board but for:\n";
        text += &show_records(sizes, &start, image, |_, now| now);
    }
    text
}

/// A world: its image, and the bytes of memory other than 0.
pub fn show_world(sizes: Sizes, world: &World) -> String {
    let mut text = show_image(sizes, &world.image);
    let other: Vec<usize> = (0..world.memory.len()).filter(|&at| world.memory[at] != 0).collect();
    text += &format!("and {} bytes of memory, all 0", world.memory.len());
    for &at in other.iter().take(50) {
        text += &format!(", but at {at}: {}", world.memory[at]);
    }
    text + "\n"
}

/// The records in which two images differ.
fn show_records(sizes: Sizes, first: &[u8], second: &[u8], show: impl Fn(String, String) -> String) -> String {
    let mut text = String::new();
    for (index, record) in image::records(sizes).into_iter().enumerate() {
        let (one, other) = (&first[record.clone()], &second[record]);
        if one != other {
            let shown = show(format!("{one:?}"), format!("{other:?}"));
            text += &format!("    {}: {shown}\n", image::record_name(sizes, index));
        }
    }
    text
}

/// The answers and the bytes that differ; the memory is the text in calls of listings.
pub fn show_mismatch(sizes: Sizes, mismatch: &Mismatch) -> String {
    let (expected, ours) = &mismatch.expected;
    let (seen, theirs) = &mismatch.seen;
    let mut text = String::new();
    if (expected.number, expected.out) != (seen.number, seen.out) {
        let both = [expected, seen].map(|reply| format!("number {} out {:?}", reply.number, reply.out));
        text += &format!("    expected {}\n    seen     {}\n", both[0], both[1]);
    }
    if seen.strayed {
        text += "    a byte outside image, memory and out has changed\n";
    }
    if ours.image.len() == sizes.image() {
        text += &show_records(sizes, &ours.image, &theirs.image, |our, their| format!("expected {our}, seen {their}"));
    } else if ours.image != theirs.image {
        text += "    the image has changed\n";
    }
    for at in (0..ours.memory.len()).filter(|&at| ours.memory[at] != theirs.memory[at]).take(20) {
        text += &format!("    memory or text {at}: expected {}, seen {}\n", ours.memory[at], theirs.memory[at]);
    }
    text
}

#[cfg(test)]
mod tests {
    use super::*;
    use crate::left::Left;
    use crate::wrong::{Fault, Wrong};

    /// Drives a wrong model for so many calls: the report.
    fn drive_wrong(sizes: Sizes, wrong: &mut dyn Subject, seed: u64, count: u64) -> Option<String> {
        Driver::new(sizes, wrong).drive(seed, &Limit { count: Some(count), until: None })
    }

    #[test]
    fn the_model_agrees_with_itself_and_reaches_every_answer() {
        for sizes in Sizes::MODELS {
            let mut model = Model(sizes);
            let mut driver = Driver::new(sizes, &mut model);
            let report = driver.drive(1, &Limit { count: Some(40_000), until: None });
            assert_eq!(report, None);
            assert!(driver.passed >= 40_000, "a side trip may go past the limit");
            assert_eq!(driver.tally.missing_of_library(), Vec::<String>::new());
        }
    }

    #[test]
    fn every_wrong_model_is_told_apart() {
        let mut missed = Vec::new();
        for (sizes, seeds) in [(Sizes::ENTRY, 1..=3), (Sizes::PREMIUM, 1..=1)] {
            for fault in Fault::all() {
                let count = if Fault::OF_01.contains(&fault) { 5_000 } else { 20_000 };
                let unseen = |seed: &u64| drive_wrong(sizes, &mut Wrong(sizes, fault), *seed, count).is_none();
                missed.extend(seeds.clone().filter(unseen).map(|seed| (sizes.name(), fault, seed)));
            }
        }
        assert_eq!(missed, []);
    }

    #[test]
    fn every_limit_that_was_left_in_the_premium_model_is_told_apart() {
        let mut missed = Vec::new();
        for left in Left::ALL {
            let unseen = |seed: &u64| drive_wrong(Sizes::PREMIUM, &mut { left }, *seed, 10_000).is_none();
            missed.extend((1..=2).filter(unseen).map(|seed| (left, seed)));
        }
        assert_eq!(missed, []);
    }

    #[test]
    fn a_report_has_one_call_and_what_differs() {
        let report = drive_wrong(Sizes::ENTRY, &mut Wrong(Sizes::ENTRY, Fault::GrantSparesBelow), 1, 5_000);
        let report = report.unwrap();
        assert_eq!(report.matches("Grant(").count(), 1, "{report}");
        assert!(report.contains("call 1 differs"), "{report}");
        assert!(report.contains("seen"), "{report}");
    }

    /// A subject that goes wrong only after a number of loads: the list of calls is needed then.
    struct Forgetful {
        loads: usize,
    }

    impl Subject for Forgetful {
        fn call(&mut self, image: &mut [u8], memory: &mut [u8], call: &Call) -> Reply {
            let mut reply = image::play(Sizes::ENTRY, image, memory, call);
            if call.kind() == Kind::Load && reply.number == 0 {
                self.loads += 1;
                reply.out[0] ^= (self.loads > 3) as u32;
            }
            reply
        }
    }

    #[test]
    fn a_subject_that_remembers_is_told_apart() {
        let mut forgetful = Forgetful { loads: 0 };
        let mut driver = Driver::new(Sizes::ENTRY, &mut forgetful);
        assert!(driver.drive(1, &Limit { count: Some(5000), until: None }).is_some());
    }
}
