//! Holds the two models beside each other (00: the same command does the same thing on both): random calls for one page, made
//! on an entry board and on the premium board that starts as the same one. After every call the answers must be the same, and
//! the premium board again the entry board's, with nothing in the rest of its tables and memory touched. The caches are the
//! same until the entry board, which has fewer places, replaces an entry; after that a page may be in one and not in the other.

use crate::board::{spot, Board, Cache, Spot};
use crate::calls::{Call, Kind, Reply};
use crate::drive_library::{patterned_memory, show_world, Subject, World};
use crate::image;
use crate::random::Random;
use crate::sessions::{random_board, read, Composer};
use crate::shrink::shrink;
use crate::sizes::{Sizes, PAGE_BYTES};
use crate::tally::{Limit, Tally};

const ENTRY: Sizes = Sizes::ENTRY;
const PREMIUM: Sizes = Sizes::PREMIUM;

/// The premium board that an entry board is: the same pages, live spaces, cache and counts, all else as at the start.
pub fn embed(entry: &Board) -> Board {
    let mut board = Board::start(PREMIUM);
    for page in entry.spots() {
        board.set_slot(page, entry.slot(page));
    }
    board.live[..ENTRY.spaces].copy_from_slice(&entry.live);
    board.cache.places[..ENTRY.places].copy_from_slice(&entry.cache.places);
    board.cache.next = entry.cache.next;
    board.summary[..ENTRY.pages].copy_from_slice(&entry.summary);
    board
}

/// True where each space, page, frame and address is one that both models have, or one that neither has.
fn is_for_both(call: &Call) -> bool {
    let alike = |number: u32, limit: fn(Sizes) -> usize| (number as usize) < limit(ENTRY) || number as usize >= limit(PREMIUM);
    call.spaces().into_iter().all(|space| alike(space, |sizes| sizes.spaces))
        && call.pages().into_iter().chain(call.frame()).all(|page| alike(page, |sizes| sizes.pages))
        && call.address().into_iter().all(|address| alike(address, Sizes::memory))
}

/// A board of each model, with its memory.
#[derive(Clone, Debug)]
struct Pair {
    entry: World,
    premium: World,
    /// The entry board has replaced an entry of its cache.
    replaced: bool,
}

impl Pair {
    /// An entry board, and the premium board that it is.
    fn of(board: &Board, memory: Vec<u8>, rest: &[u8]) -> Pair {
        let long_memory = [&memory, rest].concat();
        Pair {
            entry: World { image: image::encode(board), memory },
            premium: World { image: image::encode(&embed(board)), memory: long_memory },
            replaced: false,
        }
    }

    /// The boards; nothing where the bytes are no board's image.
    fn boards(&self) -> Option<(Board, Board)> {
        Some((image::decode(ENTRY, &self.entry.image)?, image::decode(PREMIUM, &self.premium.image)?))
    }

    /// The memory that only the premium board has.
    fn rest(&self) -> &[u8] {
        &self.premium.memory[ENTRY.memory()..]
    }
}

/// How translations found their pages in the two caches.
#[derive(Clone, Debug, Default)]
pub struct Hits {
    /// While no entry had been replaced: hits and misses, which must be the same.
    before: [u64; 2],
    /// After that: hits and misses on both.
    alike: [u64; 2],
    premium_alone: u64,
    entry_alone: u64,
}

impl Hits {
    fn count(&mut self, replaced: bool, on_entry: bool, on_premium: bool) {
        match (replaced, on_entry, on_premium) {
            (false, hit, _) => self.before[!hit as usize] += 1,
            (true, true, false) => self.entry_alone += 1,
            (true, false, true) => self.premium_alone += 1,
            (true, hit, _) => self.alike[!hit as usize] += 1,
        }
    }

    pub fn table(&self) -> String {
        let Hits { before, alike, premium_alone, entry_alone } = self;
        format!(
            "before an entry was replaced: {} hits and {} misses, on both\n\
             after one was replaced: {} hits and {} misses on both, {premium_alone} hits on premium alone, \
             {entry_alone} on entry alone\n",
            before[0], before[1], alike[0], alike[1]
        )
    }

    fn missing(&self) -> Vec<String> {
        let counts = [
            ("a hit before an entry was replaced", self.before[0]),
            ("a miss before an entry was replaced", self.before[1]),
            ("a hit on both after that", self.alike[0]),
            ("a miss on both after that", self.alike[1]),
            ("a hit on premium alone", self.premium_alone),
            ("a hit on entry alone", self.entry_alone),
        ];
        counts.iter().filter(|(_, count)| *count == 0).map(|(name, _)| name.to_string()).collect()
    }
}

/// A list of calls from a pair of boards, one of which is answered differently.
struct Trial {
    start: Pair,
    calls: Vec<Call>,
}

pub struct Both<'a> {
    entry: &'a mut dyn Subject,
    premium: &'a mut dyn Subject,
    pub tally: Tally,
    pub hits: Hits,
    /// How many calls have been compared and were the same.
    pub passed: u64,
}

impl<'a> Both<'a> {
    pub fn new(entry: &'a mut dyn Subject, premium: &'a mut dyn Subject) -> Both<'a> {
        Both { entry, premium, tally: Tally::new(ENTRY), hits: Hits::default(), passed: 0 }
    }

    /// The answers, lines and hits that should have occurred and did not.
    pub fn missing(&self) -> Vec<String> {
        [self.tally.missing_of_one_page(), self.hits.missing()].concat()
    }

    /// Makes calls on both until the limit. A report if they differed.
    pub fn drive(&mut self, seed: u64, limit: &Limit) -> Option<String> {
        for part in 0.. {
            if limit.over(self.passed) {
                break;
            }
            let mut random = Random::of_part(seed, part);
            if let Err(trial) = self.session(&mut random, limit) {
                return Some(format!("session {part} of seed {seed} differs\n{}", self.report(*trial)));
            }
        }
        None
    }

    /// Calls on one pair of boards: the start boards, or a random sound one and the premium board that it is.
    fn session(&mut self, random: &mut Random, limit: &Limit) -> Result<(), Box<Trial>> {
        let board = if random.chance(40) { Board::start(ENTRY) } else { random_board(random, ENTRY) };
        let rest: Vec<u8> = (ENTRY.memory()..PREMIUM.memory()).map(|_| random.byte()).collect();
        let start = Pair::of(&board, patterned_memory(ENTRY), &rest);
        let mut pair = start.clone();
        let mut calls = Vec::new();
        let mut composer = Composer::new(Kind::ONE_PAGE);
        let longest = random.pick(&[30, 100, 1000]);
        let reads = random.pick(&[0, 30, 60]);
        for _ in 0..random.between(5, longest) {
            if limit.over(self.passed) {
                break;
            }
            let board = image::decode(ENTRY, &pair.entry.image).expect("it was one's after the last call");
            let call = compose(random, &mut composer, &board, reads);
            calls.push(call);
            pair = self.step(pair, &call).map_err(|before| Box::new(self.trial(&before, &start, &calls)))?;
        }
        Ok(())
    }

    // ---- the comparison ------------------------------------------------------------------------------------------------------

    /// Makes one call on both and counts it. If they differ, the pair before the call comes back.
    fn step(&mut self, before: Pair, call: &Call) -> Result<Pair, Box<Pair>> {
        let (replies, after) = self.make(&before, call);
        if !differences(&before, &after, call, &replies).is_empty() {
            return Err(Box::new(before));
        }
        self.passed += 1;
        self.count(&before, &after, call, &replies[0]);
        Ok(after)
    }

    /// Makes one call on both: the answers of entry and premium, and the pair after it.
    fn make(&mut self, before: &Pair, call: &Call) -> ([Reply; 2], Pair) {
        let mut after = before.clone();
        let entry = self.entry.call(&mut after.entry.image, &mut after.entry.memory, call);
        let premium = self.premium.call(&mut after.premium.image, &mut after.premium.memory, call);
        after.replaced |= entry.number == 0 && replaces(before, call);
        ([entry, premium], after)
    }

    fn count(&mut self, before: &Pair, after: &Pair, call: &Call, reply: &Reply) {
        let (entry, premium) = before.boards().expect("the boards of a pair");
        let (board, _) = after.boards().expect("the boards of a pair");
        self.tally.record(call, reply, &entry, &board);
        if let (Some(page), 0) = (translated(call), reply.number) {
            self.hits.count(before.replaced, has(&entry.cache, page), has(&premium.cache, page));
        }
    }

    /// What differs first, and at which of the calls.
    fn first_difference(&mut self, start: &Pair, calls: &[Call]) -> Option<(usize, Vec<String>)> {
        let mut pair = start.clone();
        for (index, call) in calls.iter().enumerate() {
            let (replies, after) = self.make(&pair, call);
            let found = differences(&pair, &after, call, &replies);
            if !found.is_empty() {
                return Some((index, found));
            }
            pair = after;
        }
        None
    }

    fn differs(&mut self, start: &Pair, calls: &[Call]) -> bool {
        self.first_difference(start, calls).is_some()
    }

    // ---- the report ----------------------------------------------------------------------------------------------------------

    /// The last call alone, on the entry board before it and the premium board that this is; or, if that does not differ, all
    /// from the start less those that can be left out.
    fn trial(&mut self, before: &Pair, start: &Pair, calls: &[Call]) -> Trial {
        let last = vec![*calls.last().expect("the call that differed")];
        if let Some((board, _)) = before.boards() {
            let again = Pair::of(&board, before.entry.memory.clone(), before.rest());
            if self.differs(&again, &last) {
                return Trial { start: again, calls: last };
            }
        }
        let calls = shrink(calls, |fewer| self.differs(start, fewer));
        Trial { start: start.clone(), calls }
    }

    /// The same calls from a sound board with as few held pages and filled places as still show a difference.
    fn simplified(&mut self, trial: Trial) -> Trial {
        let Trial { start, calls } = trial;
        let records = image::records(ENTRY);
        let with = |kept: &[std::ops::Range<usize>]| {
            let board = image::decode(ENTRY, &image::reduced(ENTRY, &start.entry.image, kept)).filter(Board::sound);
            board.map(|board| Pair::of(&board, start.entry.memory.clone(), start.rest()))
        };
        let kept = shrink(&records, |kept| with(kept).is_some_and(|start| self.differs(&start, &calls)));
        let start = with(&kept).filter(|fewer| self.differs(fewer, &calls)).unwrap_or(start.clone());
        let (board, _) = start.boards().expect("the boards of a pair");
        let blank = Pair::of(&board, vec![0; ENTRY.memory()], &vec![0; start.rest().len()]);
        let start = if self.differs(&blank, &calls) { blank } else { start };
        Trial { start, calls }
    }

    fn report(&mut self, trial: Trial) -> String {
        if !self.differs(&trial.start, &trial.calls) {
            return "it differed once, and not when it was run again\n".to_string();
        }
        let trial = self.simplified(trial);
        let (index, found) = self.first_difference(&trial.start, &trial.calls).expect("it still differs");
        let mut text = show_world(ENTRY, &trial.start.entry) + "and the premium board that this is\ncalls:\n";
        for call in &trial.calls {
            text += &format!("    {call:?}\n");
        }
        text + &format!("call {} differs:\n    {}\n", index + 1, found.join("\n    "))
    }
}

/// A call for the board, of those that both models have to answer alike; a read in so many more cases of a hundred.
fn compose(random: &mut Random, composer: &mut Composer, board: &Board, reads: usize) -> Call {
    loop {
        let reading = random.chance(reads);
        let call = if reading { read(random, board, Kind::ONE_PAGE) } else { composer.compose(random, board) };
        if is_for_both(&call) {
            return call;
        }
    }
}

/// The page that a call translates.
fn translated(call: &Call) -> Option<Spot> {
    call.address().map(|address| spot(call.spaces()[0] as usize, address as usize / PAGE_BYTES))
}

fn has(cache: &Cache, page: Spot) -> bool {
    cache.places.iter().any(|place| place.names(page))
}

/// True where an accepted call replaces an entry on the entry board: its page is not there, and every place is filled.
fn replaces(before: &Pair, call: &Call) -> bool {
    let cache = before.boards().map(|(entry, _)| entry.cache);
    match (cache, translated(call)) {
        (Some(cache), Some(page)) => cache.places.iter().all(|place| place.filled()) && !has(&cache, page),
        _ => false,
    }
}

// ---- what differs ------------------------------------------------------------------------------------------------------------

/// Everything in which the two differ after a call; nothing if they are the same.
fn differences(before: &Pair, after: &Pair, call: &Call, replies: &[Reply; 2]) -> Vec<String> {
    let mut found = replies_differ(before, call, replies);
    match after.boards() {
        None => found.push("the image is no board's any more".to_string()),
        Some((entry, premium)) => found.extend(boards_differ(&entry, &premium, after.replaced)),
    }
    if after.premium.memory[..ENTRY.memory()] != after.entry.memory {
        found.push("the memory that both have is not the same".to_string());
    }
    if after.rest() != before.rest() {
        found.push("a byte of the memory that only premium has has changed".to_string());
    }
    found
}

/// The number and every field, links among them, must be the same, but for `hit` once an entry was replaced; `hit` must be what
/// each cache says.
fn replies_differ(before: &Pair, call: &Call, replies: &[Reply; 2]) -> Vec<String> {
    let mut found = Vec::new();
    let says_hit = call.kind() == Kind::Translate && replies.iter().all(|reply| reply.number == 0);
    let mut compared = *replies;
    if says_hit && before.replaced {
        compared.iter_mut().for_each(|reply| reply.out[1] = 0);
    }
    if compared[0] != compared[1] || replies.iter().any(|reply| reply.strayed) {
        found.push(format!("entry answers {:?}, premium {:?}", replies[0], replies[1]));
    }
    if let (true, Some(page), Some((entry, premium))) = (says_hit, translated(call), before.boards()) {
        let cached = [has(&entry.cache, page), has(&premium.cache, page)];
        if cached.map(|hit| hit as u32) != replies.map(|reply| reply.out[1]) {
            found.push(format!("the page was cached on entry: {}, on premium: {}", cached[0], cached[1]));
        }
    }
    found
}

/// The premium board must be the entry board's in pages, live spaces and counts; in the cache too while no entry was replaced.
fn boards_differ(entry: &Board, premium: &Board, replaced: bool) -> Vec<String> {
    let mut found = Vec::new();
    let expected = embed(entry);
    for page in premium.spots().filter(|&page| premium.slot(page) != expected.slot(page)) {
        let Spot { space, page: number } = page;
        found.push(format!("({space},{number}): entry {:?}, premium {:?}", expected.slot(page), premium.slot(page)));
    }
    if premium.live != expected.live {
        found.push(format!("live: entry {:?}, premium {:?}", entry.live, premium.live));
    }
    for frame in (0..PREMIUM.pages).filter(|&frame| premium.summary[frame] != expected.summary[frame]) {
        let [entry, premium] = [&expected, premium].map(|board| board.summary[frame]);
        found.push(format!("frame {frame}: entry counts {entry:?}, premium {premium:?}"));
    }
    if !replaced && premium.cache != expected.cache {
        found.push(format!("entry {:?}\n    premium {:?}", entry.cache, premium.cache));
    }
    if !(entry.sound() && premium.sound()) {
        found.push(format!("entry is sound: {}, premium: {}", entry.sound(), premium.sound()));
    }
    found
}

#[cfg(test)]
mod tests {
    use super::*;
    use crate::board::tests::board_k;
    use crate::drive_library::Model;
    use crate::left::Left;
    use crate::wrong::{Fault, Wrong};

    const LIMIT: Limit = Limit { count: Some(20_000), until: None };

    fn drive(entry: &mut dyn Subject, premium: &mut dyn Subject) -> Option<String> {
        Both::new(entry, premium).drive(1, &LIMIT)
    }

    #[test]
    fn the_start_board_and_board_k_are_embedded() {
        assert_eq!(embed(&Board::start(ENTRY)), Board::start(PREMIUM));
        assert_eq!(embed(&board_k(ENTRY)), board_k(PREMIUM));
    }

    #[test]
    fn the_models_do_the_same_and_every_answer_is_reached() {
        let (mut entry, mut premium) = (Model(ENTRY), Model(PREMIUM));
        let mut both = Both::new(&mut entry, &mut premium);
        assert_eq!((both.drive(1, &LIMIT), both.passed), (None, 20_000));
        assert_eq!(both.missing(), Vec::<String>::new());
    }

    /// What each of the two products did for its own users, and more of that kind: a fault in one model alone.
    #[test]
    fn a_fault_in_one_model_is_told_apart() {
        let mut missed = Vec::new();
        for fault in SEEN_HERE.into_iter().chain(Fault::OF_SUMMARY) {
            if drive(&mut Model(ENTRY), &mut Wrong(PREMIUM, fault)).is_none() {
                missed.push(("premium", fault));
            }
            if drive(&mut Wrong(ENTRY, fault), &mut Model(PREMIUM)).is_none() {
                missed.push(("entry", fault));
            }
        }
        assert_eq!(missed, []);
    }

    /// The faults that show on sound boards, with memory of the right length, before an entry is replaced.
    const SEEN_HERE: [Fault; 23] = [
        Fault::GrantSparesBelow,
        Fault::GrantTakesGranted,
        Fault::GrantTakesGrantedBelow,
        Fault::GrantLinksToGiver,
        Fault::GrantCutsOldLines,
        Fault::DirectChildrenOnly,
        Fault::CacheKeptBelow,
        Fault::CacheDroppedForNothing,
        Fault::DeletedEntriesStay,
        Fault::SameLinkKeepsEntry,
        Fault::LateFourteen,
        Fault::RingWithoutOwnPage,
        Fault::FifteenCountsTaker,
        Fault::EmptiedCountsTaker,
        Fault::AlwaysReplaces,
        Fault::LoadAsksNothing,
        Fault::StoreUntranslated,
        Fault::RefusedTranslateCaches,
        Fault::OutLeftAlone,
        Fault::LinksWithoutFrame,
        Fault::HitWithoutLinks,
        Fault::RefusalSaysLinks,
        Fault::LoadSaysLinks,
    ];

    /// Whether the last of these pages of space 0, read one after the other, is a hit on entry and on premium.
    fn last_hits(pages: &[u32]) -> [bool; 2] {
        Sizes::MODELS.map(|sizes| {
            let mut board = Board::start(sizes);
            let hits = pages.iter().map(|page| board.translate(0, PAGE_BYTES as u32 * page, 4).unwrap().hit);
            hits.last().unwrap()
        })
    }

    /// Short lists of reads after which the two caches answer differently.
    #[test]
    fn after_a_replacement_a_hit_may_be_on_either_alone() {
        let eight: Vec<u32> = (0..8).collect();
        assert_eq!(last_hits(&[&eight[..], &[0]].concat()), [true, true]);
        assert_eq!(last_hits(&[&eight[..], &[8, 0]].concat()), [false, true]);
        let sixteen: Vec<u32> = (0..16).collect();
        assert_eq!(last_hits(&[&sixteen[..], &[0, 16, 0]].concat()), [true, false]);
    }

    /// Limits that were left do not show in calls for both.
    #[test]
    fn only_numbers_that_both_have_or_neither_has_are_used() {
        for mut left in [Left::Spaces, Left::Pages, Left::Addresses, Left::Lines] {
            assert_eq!(drive(&mut Model(ENTRY), &mut left), None);
        }
    }

    #[test]
    fn a_report_shows_few_calls_and_what_differs() {
        let report = drive(&mut Model(ENTRY), &mut Wrong(PREMIUM, Fault::GrantSparesBelow)).unwrap();
        assert_eq!(report.matches("Grant(").count(), 1, "{report}");
        assert!(report.contains("call 1 differs"), "{report}");
        assert!(report.contains("premium Slot"), "{report}");
        assert!(report.lines().count() < 50, "{report}");
    }
}
