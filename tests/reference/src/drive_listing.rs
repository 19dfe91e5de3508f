//! Holds the calls that write and read listings against the model: boards written and read back, buffers of every length, changed
//! listings, damaged images. After every call the number, the out fields and every byte of image and text are compared.

use crate::board::Board;
use crate::calls::{Call, Reply};
use crate::corners::Corner;
use crate::damage::{damaged, Damage, Sweep};
use crate::drive_library::{show_image, show_mismatch, Mismatch, Subject, World};
use crate::drive_script::shown;
use crate::image;
use crate::listing;
use crate::listings::{edge_listings, listings_at_limit, small_changes, some_board, twisted, Twist};
use crate::random::Random;
use crate::shrink::shrink;
use crate::sizes::Sizes;
use crate::tally::{Limit, Tally};

/// How many lines of a text are printed.
const SHOWN_LINES: usize = 60;

pub struct Listings<'a> {
    sizes: Sizes,
    subject: &'a mut dyn Subject,
    pub tally: Tally,
    /// How many calls have been compared and were answered alike.
    pub passed: u64,
    sweep: Sweep,
}

/// A call that was answered differently, with the image and the text before it.
struct Trial {
    world: World,
    call: Call,
}

impl<'a> Listings<'a> {
    pub fn new(sizes: Sizes, subject: &'a mut dyn Subject) -> Listings<'a> {
        Listings { sizes, subject, tally: Tally::new(sizes), passed: 0, sweep: Sweep::new(sizes) }
    }

    /// Drives the subject until the limit, the listings at their limits first and small changes of one listing last. A report if
    /// a call differed.
    pub fn drive(&mut self, seed: u64, limit: &Limit) -> Option<String> {
        let edges = edge_listings(self.sizes).into_iter().chain(listings_at_limit()).collect();
        if let Err(trial) = self.read_all(edges) {
            return Some(format!("a listing at a limit differs\n{}", self.report(*trial)));
        }
        for part in 0.. {
            if limit.over(self.passed) {
                break;
            }
            if let Err(trial) = self.some_calls(&mut Random::of_part(seed, part)) {
                return Some(format!("part {part} of seed {seed} differs\n{}", self.report(*trial)));
            }
        }
        let changed = self.read_all(small_changes(self.sizes));
        changed.err().map(|trial| format!("a small change differs\n{}", self.report(*trial)))
    }

    // ---- what is tried -------------------------------------------------------------------------------------------------------

    /// Reads each of the texts, over bytes that are no board's.
    fn read_all(&mut self, texts: Vec<Vec<u8>>) -> Result<(), Box<Trial>> {
        let image = vec![255; self.sizes.image()];
        texts.into_iter().try_for_each(|text| self.step(&image, &text, Call::ReadListing).map(|_| ()))
    }

    /// Some calls about one board.
    fn some_calls(&mut self, random: &mut Random) -> Result<(), Box<Trial>> {
        let board = some_board(random, self.sizes);
        self.round_trip(random, &board)?;
        for _ in 0..4 {
            let image = self.some_image(random, &board);
            let text = some_buffer(random, listing::write(&board).len());
            self.step(&image, &text, Call::WriteListing)?;
        }
        for _ in 0..8 {
            let twist = random.pick(&Twist::ALL);
            self.tally.count_named(format!("{twist:?}"));
            let text = twisted(random, &board, twist);
            let image = self.any_image(random, &board);
            self.step(&image, &text, Call::ReadListing)?;
        }
        Ok(())
    }

    /// The board is written, what was written is read over any bytes, and that board is written again.
    fn round_trip(&mut self, random: &mut Random, board: &Board) -> Result<(), Box<Trial>> {
        let buffer = some_long_buffer(random, listing::write(board).len());
        let (reply, after) = self.step(&image::encode(board), &buffer, Call::WriteListing)?;
        let text = after.memory[..reply.out[0] as usize].to_vec();
        let image = self.any_image(random, board);
        let (reply, after) = self.step(&image, &text, Call::ReadListing)?;
        if reply.number == 0 {
            self.step(&after.image, &buffer, Call::WriteListing)?;
        }
        Ok(())
    }

    /// The board's image, or a damaged one.
    fn some_image(&mut self, random: &mut Random, board: &Board) -> Vec<u8> {
        let damage = random.pick(&Damage::ALL);
        match random.below(10) {
            0..=4 => image::encode(board),
            5 => damaged(random, board, Damage::Length, &mut self.sweep),
            _ => damaged(random, board, damage, &mut self.sweep),
        }
    }

    /// What a listing is read over: mostly any bytes of the right length.
    fn any_image(&mut self, random: &mut Random, board: &Board) -> Vec<u8> {
        match random.below(10) {
            0..=3 => damaged(random, board, Damage::AnyBytes, &mut self.sweep),
            4..=6 => image::encode(board),
            7 => image::encode(&Board::start(self.sizes)),
            _ => self.some_image(random, board),
        }
    }

    // ---- the comparison ------------------------------------------------------------------------------------------------------

    /// Makes one call with both and counts it: the reply, and image and text after it.
    fn step(&mut self, image: &[u8], text: &[u8], call: Call) -> Result<(Reply, World), Box<Trial>> {
        let world = World { image: image.to_vec(), memory: text.to_vec() };
        match self.compare(&world, &call) {
            Ok((reply, after)) => {
                self.passed += 1;
                self.tally.count(&call, &reply);
                self.tally.count_corners(Corner::of_listing(self.sizes, &world, &call, &reply));
                if let Some(board) = image::decode(self.sizes, &world.image) {
                    self.tally.count_wrong_summary(&call, &board);
                }
                Ok((reply, after))
            }
            Err(_) => Err(Box::new(Trial { world, call })),
        }
    }

    fn compare(&mut self, before: &World, call: &Call) -> Result<(Reply, World), Box<Mismatch>> {
        let [mut ours, mut theirs] = [before.clone(), before.clone()];
        let expected = image::play(self.sizes, &mut ours.image, &mut ours.memory, call);
        let seen = self.subject.call(&mut theirs.image, &mut theirs.memory, call);
        if expected == seen && ours == theirs {
            Ok((expected, ours))
        } else {
            Err(Box::new(Mismatch { expected: (expected, ours), seen: (seen, theirs) }))
        }
    }

    fn differs(&mut self, image: &[u8], text: &[u8], call: &Call) -> bool {
        self.compare(&World { image: image.to_vec(), memory: text.to_vec() }, call).is_err()
    }

    // ---- the report ----------------------------------------------------------------------------------------------------------

    /// The same call with as few records of the image, and of a listing that is read as few lines, as still show a difference.
    fn simplified(&mut self, trial: Trial) -> Trial {
        let Trial { mut world, call } = trial;
        let lines: Vec<&[u8]> = world.memory.split_inclusive(|&byte| byte == b'\n').collect();
        let mut text = world.memory.clone();
        if call == Call::ReadListing {
            text = shrink(&lines, |fewer| self.differs(&world.image, &fewer.concat(), &call)).concat();
        }
        let records: Vec<_> = image::records(self.sizes).into_iter().filter(|record| record.end <= world.image.len()).collect();
        let kept = shrink(&records, |kept| self.differs(&image::reduced(self.sizes, &world.image, kept), &text, &call));
        let image = image::reduced(self.sizes, &world.image, &kept);
        if self.differs(&image, &text, &call) {
            world.image = image;
        }
        world.memory = text;
        Trial { world, call }
    }

    fn report(&mut self, trial: Trial) -> String {
        if !self.differs(&trial.world.image, &trial.world.memory, &trial.call) {
            return "it differed once, and not when it was run again\n".to_string();
        }
        let Trial { world, call } = self.simplified(trial);
        let mismatch = self.compare(&world, &call).expect_err("it still differs");
        let mut text = show_image(self.sizes, &world.image);
        text += &format!("and this text of {} bytes:\n", world.memory.len());
        for line in world.memory.split_inclusive(|&byte| byte == b'\n').take(SHOWN_LINES) {
            text += &format!("    {}\n", shown(line));
        }
        text + &format!("{call:?} differs:\n") + &show_mismatch(self.sizes, &mismatch)
    }
}

/// A buffer of some length, filled with something that is no listing.
fn buffer(random: &mut Random, length: usize) -> Vec<u8> {
    let fill = random.pick(&[0, b'?', b'\n', 255]);
    vec![fill; length]
}

/// A buffer that has room for so many bytes: just so many, or more.
fn some_long_buffer(random: &mut Random, needed: usize) -> Vec<u8> {
    let more = random.pick(&[0, 1, 2, 100]);
    buffer(random, needed + more)
}

/// A buffer of any length about so many bytes.
fn some_buffer(random: &mut Random, needed: usize) -> Vec<u8> {
    let any = random.below(needed);
    let length = random.pick(&[0, 1, any, needed - 1, needed - 1, needed, needed, needed + 1, needed + 500]);
    buffer(random, length)
}

#[cfg(test)]
mod tests {
    use super::*;
    use crate::calls::Refusal;
    use crate::drive_library::Model;

    fn limit(count: u64) -> Limit {
        Limit { count: Some(count), until: None }
    }

    #[test]
    fn the_model_agrees_with_itself_and_reaches_every_number_and_corner() {
        for (sizes, count) in [(Sizes::ENTRY, 4_000), (Sizes::PREMIUM, 3_000)] {
            let mut model = Model(sizes);
            let mut listings = Listings::new(sizes, &mut model);
            assert_eq!(listings.drive(1, &limit(count)), None);
            assert!(listings.passed >= count);
            assert_eq!(listings.tally.missing_of_listings(), Vec::<String>::new());
        }
    }

    #[test]
    fn a_short_run_says_what_it_did_not_reach() {
        let mut model = Model(Sizes::ENTRY);
        let mut listings = Listings::new(Sizes::ENTRY, &mut model);
        assert_eq!(listings.drive(1, &limit(1)), None);
        let missing = listings.tally.missing_of_listings();
        assert!(missing.contains(&"write: 20".to_string()) && missing.contains(&"OneByteShort".to_string()), "{missing:?}");
    }

    /// A subject that does not answer as the model does.
    struct Wrong(Sizes, fn(&mut World, &Call, Reply, &World) -> Reply);

    impl Subject for Wrong {
        /// The model's call, and then what is wrong: on the world after it, with the one before.
        fn call(&mut self, image: &mut [u8], memory: &mut [u8], call: &Call) -> Reply {
            let before = World { image: image.to_vec(), memory: memory.to_vec() };
            let mut after = before.clone();
            let reply = image::play(self.0, &mut after.image, &mut after.memory, call);
            let reply = (self.1)(&mut after, call, reply, &before);
            image.copy_from_slice(&after.image);
            memory.copy_from_slice(&after.memory);
            reply
        }
    }

    fn caught(name: &str, wrong: fn(&mut World, &Call, Reply, &World) -> Reply) {
        for (sizes, count) in [(Sizes::ENTRY, 3_000), (Sizes::PREMIUM, 2_000)] {
            let report = Listings::new(sizes, &mut Wrong(sizes, wrong)).drive(1, &limit(count));
            assert!(report.is_some_and(|report| report.contains(" differs:\n")), "{name}, {}", sizes.name());
        }
    }

    /// The model with images of that length.
    fn size_of(image: &[u8]) -> Sizes {
        Sizes::MODELS.into_iter().find(|sizes| sizes.image() == image.len()).expect("the call was not refused for its length")
    }

    /// The number of the call is another one, where it is this one.
    fn renumbered(reply: Reply, from: Refusal, to: u32) -> Reply {
        if reply.number == from.number() {
            Reply::bare(to)
        } else {
            reply
        }
    }

    #[test]
    fn wrong_writers_are_told_apart() {
        caught("a zero after the listing", |after, call, reply, _| {
            if let (Call::WriteListing, 0, Some(byte)) = (call, reply.number, after.memory.get_mut(reply.out[0] as usize)) {
                *byte = b'0';
            }
            reply
        });
        caught("writes what fits", |after, call, reply, _| {
            if *call == Call::WriteListing && reply.number == 20 && !after.memory.is_empty() {
                after.memory[0] = b'l';
            }
            reply
        });
        caught("20 before 1", |_, call, reply, before| {
            let short = *call == Call::WriteListing && before.memory.len() < 14;
            renumbered(reply, Refusal::Unsound, if short { 20 } else { 1 })
        });
        caught("the length is not said", |_, _, reply, _| Reply { out: [0; 4], ..reply });
        caught("an exact buffer is too short", |after, call, reply, before| {
            let exact = *call == Call::WriteListing && reply.number == 0 && reply.out[0] as usize == before.memory.len();
            if exact {
                after.memory = before.memory.clone();
                return Reply::bare(20);
            }
            reply
        });
        caught("one byte short is enough", |_, call, reply, before| {
            if *call == Call::WriteListing && reply.number == 20 && before.memory.len() > 12 {
                return Reply::done(before.memory.len() as u32 + 1, 0);
            }
            reply
        });
    }

    #[test]
    fn wrong_readers_are_told_apart() {
        caught("a refusal leaves the image", |after, _, reply, before| {
            if reply.number != 0 {
                after.image = before.image.clone();
            }
            reply
        });
        caught("17 for 18", |_, _, reply, _| renumbered(reply, Refusal::ListingOrder, 17));
        caught("18 for 1", |_, call, reply, _| {
            renumbered(reply, Refusal::Unsound, if *call == Call::ReadListing { 18 } else { 1 })
        });
        caught("the text is looked at first", |_, call, reply, before| {
            let other = Sizes::MODELS.iter().all(|sizes| sizes.image() != before.image.len());
            let malformed = !(before.memory.starts_with(b"live=") && before.memory.ends_with(b"\n"));
            let first = *call == Call::ReadListing && other && malformed;
            renumbered(reply, Refusal::Unsound, if first { 17 } else { 1 })
        });
        caught("the next place stays", |after, call, reply, before| {
            if let (Call::ReadListing, 0) = (call, reply.number) {
                let next = size_of(&before.image).tables() - 1;
                after.image[next] = before.image[next];
            }
            reply
        });
        caught("the summary is not built", |after, call, reply, _| {
            if let (Call::ReadListing, 0) = (call, reply.number) {
                let tables = size_of(&after.image).tables();
                after.image[tables..].fill(0);
            }
            reply
        });
        caught("the old summary stays", |after, call, reply, before| {
            if let (Call::ReadListing, 0) = (call, reply.number) {
                let tables = size_of(&before.image).tables();
                after.image[tables..].copy_from_slice(&before.image[tables..]);
            }
            reply
        });
        caught("a refusal leaves the old summary", |after, call, reply, before| {
            if let (Call::ReadListing, 17 | 18) = (call, reply.number) {
                let tables = size_of(&before.image).tables();
                after.image[tables..].copy_from_slice(&before.image[tables..]);
            }
            reply
        });
        caught("the text is changed", |after, call, reply, _| {
            if let (Call::ReadListing, Some(last)) = (call, after.memory.last_mut()) {
                *last = 0;
            }
            reply
        });
    }

    #[test]
    fn a_report_shows_a_short_text() {
        let wrong = Wrong(Sizes::ENTRY, |_, _, reply, _| renumbered(reply, Refusal::ListingOrder, 17));
        let report = Listings::new(Sizes::ENTRY, &mut { wrong }).drive(1, &limit(3_000)).unwrap();
        assert!(report.contains("ReadListing differs") && report.contains("expected number 18"), "{report}");
        assert!(report.lines().count() < 70, "{report}");
    }
}
