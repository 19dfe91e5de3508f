//! What a run has reached: the count of every answer, and how far it went into the corners.

use crate::board::Board;
use crate::calls::{Call, Kind, Reply, MALFORMED, NUMBERS};
use crate::corners::Corner;
use crate::sizes::Sizes;
use std::collections::BTreeMap;
use std::fmt::Write;
use std::time::Instant;

/// When a run ends: after so many sessions or calls, or at a time, whichever comes first.
#[derive(Clone, Copy, Debug, Default)]
pub struct Limit {
    pub count: Option<u64>,
    pub until: Option<Instant>,
}

impl Limit {
    pub fn over(&self, done: u64) -> bool {
        self.count.is_some_and(|count| done >= count) || self.until.is_some_and(|until| Instant::now() >= until)
    }
}

#[derive(Clone, Debug)]
pub struct Tally {
    sizes: Sizes,
    answers: [[u64; NUMBERS]; Kind::COUNT],
    malformed: u64,
    deepest_line: usize,
    most_held: usize,
    corners: BTreeMap<Corner, u64>,
    /// Accepted translations that were misses, and those that were hits, by the number of links (1 at index 0).
    lines: [Vec<u64>; 2],
    /// Replaced entries, by place.
    replaced: Vec<u64>,
    /// Calls on boards of which the summary alone was wrong, by kind.
    wrong_summaries: [u64; Kind::COUNT],
    named: BTreeMap<String, u64>,
}

impl Tally {
    pub fn new(sizes: Sizes) -> Tally {
        Tally {
            sizes,
            answers: Default::default(),
            malformed: 0,
            deepest_line: 0,
            most_held: 0,
            corners: BTreeMap::new(),
            lines: [0, 1].map(|_| vec![0; sizes.spaces]),
            replaced: vec![0; sizes.places],
            wrong_summaries: Default::default(),
            named: BTreeMap::new(),
        }
    }

    // ---- counting ------------------------------------------------------------------------------------------------------------

    /// Counts the answer to a call.
    pub fn count(&mut self, call: &Call, reply: &Reply) {
        self.answers[call.kind() as usize][reply.number as usize] += 1;
        self.count_corners(Corner::reached(self.sizes, call, reply));
    }

    pub fn count_corners(&mut self, reached: Vec<Corner>) {
        for corner in reached {
            *self.corners.entry(corner).or_default() += 1;
        }
    }

    pub fn count_malformed(&mut self) {
        self.malformed += 1;
    }

    /// Counts a call that was made on this board, if the summary alone was wrong.
    pub fn count_wrong_summary(&mut self, call: &Call, board: &Board) {
        self.wrong_summaries[call.kind() as usize] += board.only_the_summary_is_wrong() as u64;
    }

    /// Counts a thing by its name (a flaw of a line, a damage of an image).
    pub fn count_named(&mut self, name: String) {
        *self.named.entry(name).or_default() += 1;
    }

    /// Counts the answer to a call and looks at the boards before and after it.
    pub fn record(&mut self, call: &Call, reply: &Reply, before: &Board, board: &Board) {
        self.count(call, reply);
        if reply.number != 0 {
            return;
        }
        self.count_corners(Corner::of_grant(before, call));
        match call {
            Call::Map(_) | Call::Grant(_) => {
                let deepest = board.lent_pages().map(|page| board.line(page).count()).max();
                self.deepest_line = self.deepest_line.max(deepest.unwrap_or(0));
                self.most_held = self.most_held.max(board.lent_pages().count());
            }
            Call::Translate { .. } => self.lines[reply.out[1] as usize][reply.out[2] as usize - 1] += 1,
            _ => (),
        }
        if call.address().is_some() {
            self.replaced[before.cache.next] += (before.cache.next != board.cache.next) as u64;
        }
    }

    // ---- what should have occurred and did not -------------------------------------------------------------------------------

    pub fn missing_of_script(&self) -> Vec<String> {
        let mut missing = self.missing(&Kind::SCRIPT, |number| number != 1);
        if self.malformed == 0 {
            missing.push(format!("a malformed line: {MALFORMED}"));
        }
        missing.extend(self.missing_corners(&Corner::OF_ONE_PAGE));
        missing.extend(self.missing_corners(&Corner::OF_GRANTS));
        missing.extend(self.missing_translations());
        missing
    }

    pub fn missing_of_library(&self) -> Vec<String> {
        let mut missing = self.missing(Kind::LIBRARY, |_| true);
        missing.extend(self.missing(&[Kind::Sound], |_| true));
        missing.extend(self.missing_corners(&Corner::OF_ONE_PAGE));
        missing.extend(self.missing_corners(&Corner::OF_GRANTS));
        missing.extend(self.missing_corners(&Corner::OF_RANGES));
        missing.extend(self.missing_corners(&[Corner::RangeGrantOfPart]));
        missing.extend(self.missing_corners(&Corner::OF_FRAMES));
        missing.extend(self.missing_wrong_summaries(Kind::BOARD));
        missing.extend(self.missing_wrong_summaries(&[Kind::Sound]));
        missing.extend(self.missing_translations());
        missing
    }

    /// Of calls for one page on sound boards with memory of the right length.
    pub fn missing_of_one_page(&self) -> Vec<String> {
        let mut missing = self.missing(Kind::ONE_PAGE, |number| number > 2 || number == 0);
        missing.extend(self.missing_corners(&Corner::OF_GRANTS));
        missing.extend(self.missing_lines());
        missing
    }

    /// Of the calls that write and read listings.
    pub fn missing_of_listings(&self) -> Vec<String> {
        let mut missing = self.missing(Kind::LISTING, |_| true);
        missing.extend(self.missing_corners(&Corner::OF_LISTINGS));
        missing.extend(self.missing_wrong_summaries(Kind::LISTING));
        missing
    }

    /// Of scripts that start from a listing: each answer to one, and some line after a good one.
    pub fn missing_of_from(&self) -> Vec<String> {
        let mut missing = self.missing(&[Kind::ReadListing], |_| true);
        missing.extend(self.missing(&Kind::SCRIPT, |number| number == 0));
        missing
    }

    /// Things counted by these names.
    pub fn missing_named(&self, names: &[&str]) -> Vec<String> {
        names.iter().filter(|name| !self.named.contains_key(**name)).map(|name| name.to_string()).collect()
    }

    fn missing(&self, kinds: &[Kind], possible: impl Fn(u32) -> bool) -> Vec<String> {
        let mut missing = Vec::new();
        for &kind in kinds {
            for &number in kind.numbers().iter().filter(|&&number| possible(number)) {
                if self.answers[kind as usize][number as usize] == 0 {
                    missing.push(format!("{}: {number}", kind.name()));
                }
            }
        }
        missing
    }

    fn missing_corners(&self, corners: &[Corner]) -> Vec<String> {
        corners.iter().filter(|corner| !self.corners.contains_key(corner)).map(|corner| format!("{corner:?}")).collect()
    }

    fn missing_wrong_summaries(&self, kinds: &[Kind]) -> Vec<String> {
        let never = kinds.iter().filter(|&&kind| self.wrong_summaries[kind as usize] == 0);
        never.map(|kind| format!("{} with a wrong summary", kind.name())).collect()
    }

    /// Each length of a translated line, as a miss and as a hit, and each place with a replaced entry.
    fn missing_translations(&self) -> Vec<String> {
        let places = never(&self.replaced).map(|at| format!("place {at} replaced"));
        self.missing_lines().into_iter().chain(places).collect()
    }

    fn missing_lines(&self) -> Vec<String> {
        let [misses, hits] = &self.lines;
        let misses = never(misses).map(|at| format!("a miss with links={}", at + 1));
        let hits = never(hits).map(|at| format!("a hit with links={}", at + 1));
        misses.chain(hits).collect()
    }

    // ---- what is printed -----------------------------------------------------------------------------------------------------

    /// The count of every answer: by number, and by call in it.
    pub fn table(&self, kinds: &[Kind]) -> String {
        let mut table = format!("{:>6} {:>10}", "answer", "count");
        for kind in kinds {
            write!(table, " {:>9}", kind.name()).expect("to a string");
        }
        table.push('\n');
        for number in 0..NUMBERS {
            let row: Vec<u64> = kinds.iter().map(|&kind| self.answers[kind as usize][number]).collect();
            let malformed = if number == MALFORMED as usize { self.malformed } else { 0 };
            let total = row.iter().sum::<u64>() + malformed;
            if total > 0 {
                write!(table, "{number:>6} {total:>10}").expect("to a string");
                for count in row {
                    write!(table, " {count:>9}").expect("to a string");
                }
                table.push('\n');
            }
        }
        table
    }

    /// The corners that were reached.
    pub fn corners(&self) -> String {
        let [no, yes] = [0, 1].map(|number| self.answers[Kind::Sound as usize][number]);
        let mut text = format!("deepest line {}, most lent pages {}\n", self.deepest_line, self.most_held);
        for (name, lines) in ["misses", "hits"].iter().zip(&self.lines) {
            text += &format!("translate {name} with 1 to {} links: {}\n", self.sizes.spaces, spaced(lines));
        }
        text += &format!("replaced entries of each place: {}\n", spaced(&self.replaced));
        if no + yes > 0 {
            text += &format!("sound answered yes {yes} times, no {no} times\n");
        }
        text + &self.counts()
    }

    /// The corners and the named things, each with its count.
    pub fn counts(&self) -> String {
        let corners = self.corners.iter().map(|(corner, count)| format!("{corner:?} {count}"));
        let wrong = format!("calls with a wrong summary: {}\n", self.wrong_summaries.iter().sum::<u64>());
        let named = self.named.iter().map(|(name, count)| format!("{name} {count}"));
        wrong + &corners.collect::<Vec<_>>().join(", ") + "\n" + &named.collect::<Vec<_>>().join(", ") + "\n"
    }
}

/// Where nothing was counted.
fn never(counts: &[u64]) -> impl Iterator<Item = usize> + '_ {
    (0..counts.len()).filter(|&at| counts[at] == 0)
}

fn spaced(counts: &[u64]) -> String {
    counts.iter().map(u64::to_string).collect::<Vec<_>>().join(" ")
}

#[cfg(test)]
mod tests {
    use super::*;
    use crate::board::tests::board_k;

    /// The calls of a session on board K, counted.
    fn tally_of(calls: &[Call]) -> Tally {
        let mut tally = Tally::new(Sizes::ENTRY);
        let mut board = board_k(Sizes::ENTRY);
        for call in calls {
            let before = board.clone();
            let reply = board.play(&mut vec![0; Sizes::ENTRY.memory()], call);
            tally.record(call, &reply, &before, &board);
        }
        tally
    }

    /// A load of the page, or a refused translation, does not count as a translation of that length.
    #[test]
    fn each_length_is_missed_until_a_translation_has_it() {
        let translate = |space, page: u32, rights| Call::Translate { space, address: 1024 * page, rights };
        let load = Call::Load { space: 2, address: 3 * 1024 };
        let missing = |calls: &[Call]| tally_of(calls).missing_lines();
        let all = missing(&[load, load, translate(3, 1, 4)]);
        assert_eq!(all.len(), 16, "{all:?}");
        let less = missing(&[translate(2, 3, 4), translate(3, 1, 2), translate(3, 1, 2)]);
        let found: Vec<&String> = all.iter().filter(|name| !less.contains(name)).collect();
        assert_eq!(found, ["a miss with links=3", "a miss with links=4", "a hit with links=4"]);
        let table = tally_of(&[translate(2, 3, 4), translate(2, 3, 2)]).corners();
        assert!(table.contains("translate hits with 1 to 8 links: 0 0 1 0 0 0 0 0\n"), "{table}");
    }
}
