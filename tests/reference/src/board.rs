//! The model of the board: 01 as 02 amends it, read straight, with no thought for speed.

use crate::calls::{Call, Lending, Refusal, Reply, Withdrawal, ALL_RIGHTS, READ, WRITE};
use crate::sizes::{Sizes, PAGE_BYTES};
use crate::summary::Counts;

/// A page of a space.
#[derive(Clone, Copy, Debug, PartialEq, Eq)]
pub struct Spot {
    pub space: usize,
    pub page: usize,
}

/// A page of a space, for short.
pub fn spot(space: usize, page: usize) -> Spot {
    Spot { space, page }
}

#[derive(Clone, Copy, Debug, PartialEq, Eq)]
pub enum Link {
    Nothing,
    Frame(usize),
    Page(Spot),
}

/// A page's link together with its rights.
#[derive(Clone, Copy, Debug, PartialEq, Eq)]
pub struct Slot {
    pub link: Link,
    pub rights: u8,
}

impl Slot {
    pub const EMPTY: Slot = Slot { link: Link::Nothing, rights: 0 };

    /// A page is held when it has a link (decision 1).
    pub fn held(self) -> bool {
        self.link != Link::Nothing
    }
}

/// A place of the cache. The empty form has every number 0.
#[derive(Clone, Copy, Debug, Default, PartialEq, Eq)]
pub struct Place {
    pub space: usize,
    pub page: usize,
    pub frame: usize,
    pub rights: u8,
}

impl Place {
    /// A place is filled when it has rights (decision 2).
    pub fn filled(self) -> bool {
        self.rights != 0
    }

    /// True where the place holds the translation of that page.
    pub fn names(self, page: Spot) -> bool {
        self.filled() && page == spot(self.space, self.page)
    }
}

/// The translation cache and the number of the next place to replace.
#[derive(Clone, Debug, PartialEq, Eq)]
pub struct Cache {
    pub places: Vec<Place>,
    pub next: usize,
}

impl Cache {
    fn find(&self, page: Spot) -> Option<Place> {
        self.places.iter().copied().find(|place| place.names(page))
    }

    /// To the lowest empty place; with none empty, to the next place to replace.
    fn insert(&mut self, entry: Place) {
        if let Some(empty) = self.places.iter_mut().find(|place| !place.filled()) {
            *empty = entry;
        } else {
            self.places[self.next] = entry;
            self.next = (self.next + 1) % self.places.len();
        }
    }

    pub fn drop_entry(&mut self, page: Spot) {
        for place in &mut self.places {
            if place.names(page) {
                *place = Place::default();
            }
        }
    }
}

/// Map or grant.
#[derive(Clone, Copy, Debug, PartialEq, Eq)]
pub enum Way {
    Map,
    Grant,
}

/// An accepted map or grant: the taker's page is to be linked to the source.
#[derive(Clone, Copy, Debug, PartialEq, Eq)]
pub struct Deal {
    pub giver: Spot,
    pub source: Spot,
    pub taker: Spot,
    pub rights: u8,
}

/// What translate answers.
#[derive(Clone, Copy, Debug, PartialEq, Eq)]
pub struct Translation {
    pub address: usize,
    pub hit: bool,
    /// How many links lead from the page to its frame (M-101).
    pub links: usize,
}

#[derive(Clone, Debug, PartialEq, Eq)]
pub struct Board {
    pub sizes: Sizes,
    /// Space by space, page by page in each.
    pub slots: Vec<Slot>,
    pub live: Vec<bool>,
    pub cache: Cache,
    /// By frame.
    pub summary: Vec<Counts>,
}

/// The refusal if its condition holds.
pub fn refuse_if(condition: bool, refusal: Refusal) -> Result<(), Refusal> {
    if condition {
        Err(refusal)
    } else {
        Ok(())
    }
}

// ---- reading the board ------------------------------------------------------------------------------------------------------

impl Board {
    /// Spaces 0 and 1 live, space 0 with its frames, all else empty, next place 0; so no frame is used outside space 0.
    pub fn start(sizes: Sizes) -> Board {
        let mut board = Board {
            sizes,
            slots: vec![Slot::EMPTY; sizes.spaces * sizes.pages],
            live: (0..sizes.spaces).map(|space| space < 2).collect(),
            cache: Cache { places: vec![Place::default(); sizes.places], next: 0 },
            summary: vec![[0; 4]; sizes.pages],
        };
        for page in 0..sizes.pages {
            board.set_slot(spot(0, page), Slot { link: Link::Frame(page), rights: ALL_RIGHTS });
        }
        board
    }

    pub fn in_range(&self, page: Spot) -> bool {
        page.space < self.sizes.spaces && page.page < self.sizes.pages
    }

    pub fn slot(&self, page: Spot) -> Slot {
        self.slots[page.space * self.sizes.pages + page.page]
    }

    pub fn set_slot(&mut self, page: Spot, slot: Slot) {
        self.slots[page.space * self.sizes.pages + page.page] = slot;
    }

    pub fn held(&self, page: Spot) -> bool {
        self.slot(page).held()
    }

    /// Every page of a space.
    pub fn pages_of(&self, space: usize) -> impl Iterator<Item = Spot> {
        (0..self.sizes.pages).map(move |page| spot(space, page))
    }

    /// Every page of the board, by rising space, then page.
    pub fn spots(&self) -> impl Iterator<Item = Spot> + '_ {
        (0..self.sizes.spaces).flat_map(|space| self.pages_of(space))
    }

    /// Held pages outside space 0, by rising space, then page.
    pub fn lent_pages(&self) -> impl Iterator<Item = Spot> + '_ {
        self.spots().filter(|&page| page.space != 0 && self.held(page))
    }

    /// The page that a page links to, where that is one of the board.
    pub fn parent(&self, page: Spot) -> Option<Spot> {
        match self.slot(page).link {
            Link::Page(parent) if self.in_range(parent) => Some(parent),
            _ => None,
        }
    }

    /// The page itself, its parent, and so on. It is followed for one page more than a sound line can have, so that the line of
    /// an unsound board ends too.
    pub fn line(&self, page: Spot) -> impl Iterator<Item = Spot> + '_ {
        std::iter::successors(Some(page), |&at| self.parent(at)).take(self.sizes.spaces + 1)
    }

    /// `page` is below `other` when `other` is on its line and is not the page itself.
    pub fn is_below(&self, page: Spot, other: Spot) -> bool {
        page != other && self.line(page).any(|at| at == other)
    }

    pub fn pages_below(&self, other: Spot) -> impl Iterator<Item = Spot> + '_ {
        self.spots().filter(move |&page| self.is_below(page, other))
    }

    /// The frame at the end of a page's line.
    pub fn frame(&self, page: Spot) -> Option<usize> {
        let last = self.line(page).last()?;
        match self.slot(last).link {
            Link::Frame(frame) => Some(frame),
            _ => None,
        }
    }

    /// How many links lead from a held page to its frame, the one to the frame included: each page of its line has one.
    pub fn links(&self, page: Spot) -> usize {
        self.line(page).filter(|&at| self.held(at)).count()
    }
}

// ---- soundness: one function for each bullet of 01, and one for the summary (M-106) ------------------------------------------

impl Board {
    pub fn sound(&self) -> bool {
        self.pool_is_whole()
            && self.empty_pages_are_empty()
            && self.parents_hold()
            && self.lines_reach_the_pool()
            && self.cache_is_true()
            && self.summary_agrees()
    }

    /// Spaces 0 and 1 are live; page i of space 0 holds frame i with rights 7; no other space holds a frame directly.
    fn pool_is_whole(&self) -> bool {
        let frame_held = |page: Spot| matches!(self.slot(page).link, Link::Frame(_));
        let whole = |page: Spot| self.slot(page) == Slot { link: Link::Frame(page.page), rights: ALL_RIGHTS };
        self.live[0]
            && self.live[1]
            && self.pages_of(0).all(whole)
            && self.spots().all(|page| page.space == 0 || !frame_held(page))
    }

    /// Pages of a space that isn't live are empty; a page without a link has rights 0.
    fn empty_pages_are_empty(&self) -> bool {
        self.spots().all(|page| {
            let slot = self.slot(page);
            (self.live[page.space] || slot == Slot::EMPTY) && (slot.held() || slot.rights == 0)
        })
    }

    /// A held page outside space 0 has a parent with numbers in range, in a live space, held; its rights are 1 to 7 and
    /// contained in the parent's.
    fn parents_hold(&self) -> bool {
        self.lent_pages().all(|page| match self.parent(page) {
            None => false,
            Some(parent) => {
                let rights = self.slot(page).rights;
                self.live[parent.space]
                    && self.held(parent)
                    && (1..=ALL_RIGHTS).contains(&rights)
                    && rights & !self.slot(parent).rights == 0
            }
        })
    }

    /// Every held page's line reaches space 0 and meets no space twice.
    fn lines_reach_the_pool(&self) -> bool {
        self.spots().filter(|&page| self.held(page)).all(|page| {
            let last = self.line(page).last().expect("a line has its page");
            last.space == 0 && self.line_meets_no_space_twice(page)
        })
    }

    fn line_meets_no_space_twice(&self, page: Spot) -> bool {
        let mut met = 0u64;
        self.line(page).all(|at| {
            let first_time = met & (1 << at.space) == 0;
            met |= 1 << at.space;
            first_time
        })
    }

    /// Each filled cache place names a held page, its frame and its exact rights; no two name the same page; each other place
    /// has the empty form; the number of the next place is in range.
    fn cache_is_true(&self) -> bool {
        let places = &self.cache.places;
        let twice = |i: usize| places[..i].iter().any(|other| other.names(spot(places[i].space, places[i].page)));
        self.cache.next < self.sizes.places
            && (0..places.len()).all(|i| {
                if places[i].filled() {
                    self.place_is_true(places[i]) && !twice(i)
                } else {
                    places[i] == Place::default()
                }
            })
    }

    fn place_is_true(&self, place: Place) -> bool {
        let page = spot(place.space, place.page);
        self.in_range(page)
            && self.held(page)
            && self.frame(page) == Some(place.frame)
            && self.slot(page).rights == place.rights
    }
}

// ---- refusals, in their order ------------------------------------------------------------------------------------------------

impl Board {
    /// Number 1.
    pub fn check_sound(&self) -> Result<(), Refusal> {
        refuse_if(!self.sound(), Refusal::Unsound)
    }

    /// Number 2.
    fn check_memory(&self, memory: &[u8]) -> Result<(), Refusal> {
        refuse_if(memory.len() != self.sizes.memory(), Refusal::Memory)
    }

    /// Number 3.
    fn check_space_numbers(&self, spaces: &[u32]) -> Result<(), Refusal> {
        refuse_if(spaces.iter().any(|&space| space as usize >= self.sizes.spaces), Refusal::Space)
    }

    /// Numbers 3 and 4: 3 for any of the spaces comes before 4 for any (decision 5).
    pub fn check_spaces(&self, spaces: &[u32]) -> Result<(), Refusal> {
        self.check_space_numbers(spaces)?;
        refuse_if(spaces.iter().any(|&space| !self.live[space as usize]), Refusal::NotLive)
    }

    /// Number 5 for pages, and for frames: a space has as many pages as there are frames.
    pub fn check_pages(&self, pages: &[u32]) -> Result<(), Refusal> {
        refuse_if(pages.iter().any(|&page| page as usize >= self.sizes.pages), Refusal::Page)
    }

    /// Number 5 for an address.
    fn check_address(&self, address: u32) -> Result<(), Refusal> {
        refuse_if(address as usize >= self.sizes.memory(), Refusal::Page)
    }

    /// Number 6.
    pub fn check_rights(&self, rights: u32) -> Result<u8, Refusal> {
        refuse_if(rights == 0 || rights > ALL_RIGHTS as u32, Refusal::Rights)?;
        Ok(rights as u8)
    }

    /// Numbers 11 and 12: the page is held, with all of these rights.
    fn check_held(&self, page: Spot, rights: u8) -> Result<(), Refusal> {
        refuse_if(!self.held(page), Refusal::Empty)?;
        refuse_if(rights & !self.slot(page).rights != 0, Refusal::NotHeld)
    }

    fn judge_withdrawal(&self, asked: &Withdrawal) -> Result<(Spot, u8), Refusal> {
        self.check_sound()?;
        self.check_spaces(&[asked.space])?;
        self.check_pages(&[asked.page])?;
        let rights = self.check_rights(asked.rights)?;
        Ok((spot(asked.space as usize, asked.page as usize), rights))
    }

    /// Map and grant up to number 9.
    fn judge_parties(&self, asked: &Lending, way: Way) -> Result<(Spot, Spot, u8), Refusal> {
        self.check_sound()?;
        self.check_spaces(&[asked.from, asked.to])?;
        self.check_pages(&[asked.page, asked.at])?;
        let rights = self.check_rights(asked.rights)?;
        refuse_if(asked.to == 0 || (way == Way::Grant && asked.from == 0), Refusal::Pool)?;
        let giver = spot(asked.from as usize, asked.page as usize);
        let taker = spot(asked.to as usize, asked.at as usize);
        Ok((giver, taker, rights))
    }

    /// All refusals of map and grant.
    pub fn judge_lending(&self, asked: &Lending, way: Way) -> Result<Deal, Refusal> {
        let (giver, taker, rights) = self.judge_parties(asked, way)?;
        self.check_held(giver, rights)?;
        refuse_if(self.line(giver).any(|page| page.space == taker.space), Refusal::Ring)?;
        let source = match way {
            Way::Map => giver,
            Way::Grant => self.parent(giver).expect("held and not in space 0, on a sound board"),
        };
        let source_below = self.pages_below(taker).any(|page| page.space == source.space);
        refuse_if(source_below, Refusal::SourceBelow)?;
        let taker_below = self.pages_below(source).any(|page| page.space == taker.space && page != taker);
        refuse_if(taker_below, Refusal::TakerBelow)?;
        Ok(Deal { giver, source, taker, rights })
    }

    fn judge_translation(&self, space: u32, address: u32, rights: u32) -> Result<Spot, Refusal> {
        self.check_sound()?;
        self.check_spaces(&[space])?;
        self.check_address(address)?;
        let rights = self.check_rights(rights)?;
        let page = spot(space as usize, address as usize / PAGE_BYTES);
        self.check_held(page, rights)?;
        Ok(page)
    }
}

// ---- the steps ---------------------------------------------------------------------------------------------------------------

impl Board {
    /// A page loses those of the rights that it has. If it loses one, its cache entry is dropped; left with nothing, it is empty.
    pub fn lose(&mut self, page: Spot, rights: u8) {
        let slot = self.slot(page);
        let left = slot.rights & !rights;
        if left == slot.rights {
            return;
        }
        self.cache.drop_entry(page);
        self.set_slot(page, if left == 0 { Slot::EMPTY } else { Slot { rights: left, ..slot } });
    }

    /// Each page below the named one loses the rights.
    pub fn unmap_step(&mut self, named: Spot, rights: u8) {
        let below: Vec<Spot> = self.pages_below(named).collect();
        for page in below {
            self.lose(page, rights);
        }
    }

    /// Unmap, then the page itself.
    pub fn flush_step(&mut self, named: Spot, rights: u8) {
        self.unmap_step(named, rights);
        self.lose(named, rights);
    }

    /// The taker's page is flushed of all rights and linked to the source; its cache entry is dropped.
    pub fn link_step(&mut self, deal: &Deal) {
        self.flush_step(deal.taker, ALL_RIGHTS);
        self.cache.drop_entry(deal.taker);
        self.set_slot(deal.taker, Slot { link: Link::Page(deal.source), rights: deal.rights });
    }

    /// Makes a change, counts the summary anew, and counts the pages that were held before the change and are empty after it.
    pub fn count_emptied(&mut self, change: impl FnOnce(&mut Board)) -> u32 {
        let before: Vec<bool> = self.slots.iter().map(|slot| slot.held()).collect();
        change(self);
        self.recount();
        let emptied = |(held, slot): &(&bool, &Slot)| **held && !slot.held();
        before.iter().zip(&self.slots).filter(emptied).count() as u32
    }
}

// ---- the calls: each answers what it is to answer, or the refusal, and then nothing has changed -----------------------------

impl Board {
    pub fn create(&mut self, space: u32) -> Result<u32, Refusal> {
        self.check_sound()?;
        self.check_space_numbers(&[space])?;
        refuse_if(self.live[space as usize], Refusal::Live)?;
        Ok(self.count_emptied(|board| board.live[space as usize] = true))
    }

    /// The refusals of delete.
    pub fn judge_delete(&self, space: u32) -> Result<usize, Refusal> {
        self.check_sound()?;
        self.check_spaces(&[space])?;
        refuse_if(space < 2, Refusal::Pool)?;
        Ok(space as usize)
    }

    pub fn delete(&mut self, space: u32) -> Result<u32, Refusal> {
        let space = self.judge_delete(space)?;
        Ok(self.count_emptied(|board| {
            for page in board.pages_of(space) {
                board.flush_step(page, ALL_RIGHTS);
            }
            board.live[space] = false;
        }))
    }

    pub fn unmap(&mut self, asked: &Withdrawal) -> Result<u32, Refusal> {
        let (page, rights) = self.judge_withdrawal(asked)?;
        Ok(self.count_emptied(|board| board.unmap_step(page, rights)))
    }

    /// The refusals of flush.
    pub fn judge_flush(&self, asked: &Withdrawal) -> Result<(Spot, u8), Refusal> {
        let (page, rights) = self.judge_withdrawal(asked)?;
        refuse_if(page.space == 0, Refusal::Pool)?;
        Ok((page, rights))
    }

    pub fn flush(&mut self, asked: &Withdrawal) -> Result<u32, Refusal> {
        let (page, rights) = self.judge_flush(asked)?;
        Ok(self.count_emptied(|board| board.flush_step(page, rights)))
    }

    pub fn map(&mut self, asked: &Lending) -> Result<u32, Refusal> {
        let deal = self.judge_lending(asked, Way::Map)?;
        Ok(self.count_emptied(|board| board.link_step(&deal)))
    }

    /// The giver's page is flushed of all rights, whichever were granted (M-103).
    pub fn grant(&mut self, asked: &Lending) -> Result<u32, Refusal> {
        let deal = self.judge_lending(asked, Way::Grant)?;
        Ok(self.count_emptied(|board| {
            board.link_step(&deal);
            board.flush_step(deal.giver, ALL_RIGHTS);
        }))
    }

    pub fn translate(&mut self, space: u32, address: u32, rights: u32) -> Result<Translation, Refusal> {
        let page = self.judge_translation(space, address, rights)?;
        let frame = self.frame(page).expect("a sound line ends at a frame");
        let hit = self.cache.find(page).is_some();
        if !hit {
            let rights = self.slot(page).rights;
            self.cache.insert(Place { space: page.space, page: page.page, frame, rights });
        }
        let links = self.links(page);
        Ok(Translation { address: PAGE_BYTES * frame + address as usize % PAGE_BYTES, hit, links })
    }

    pub fn load(&mut self, memory: &[u8], space: u32, address: u32) -> Result<u8, Refusal> {
        self.check_sound()?;
        self.check_memory(memory)?;
        let found = self.translate(space, address, READ as u32)?;
        Ok(memory[found.address])
    }

    pub fn store(&mut self, memory: &mut [u8], space: u32, address: u32, value: u8) -> Result<(), Refusal> {
        self.check_sound()?;
        self.check_memory(memory)?;
        let found = self.translate(space, address, WRITE as u32)?;
        memory[found.address] = value;
        Ok(())
    }

    /// Any call, answered as the C interface does. To the calls of listings the memory is their text.
    pub fn play(&mut self, memory: &mut [u8], call: &Call) -> Reply {
        let answer = match *call {
            Call::Start => {
                *self = Board::start(self.sizes);
                Ok(Reply::done(0, 0))
            }
            Call::Sound => Ok(Reply::bare(self.sound() as u32)),
            Call::Create { space } => self.create(space).map(emptied),
            Call::Delete { space } => self.delete(space).map(emptied),
            Call::Unmap(asked) => self.unmap(&asked).map(emptied),
            Call::Flush(asked) => self.flush(&asked).map(emptied),
            Call::Map(asked) => self.map(&asked).map(emptied),
            Call::Grant(asked) => self.grant(&asked).map(emptied),
            Call::Translate { space, address, rights } => self.translate(space, address, rights).map(Reply::from),
            Call::Load { space, address } => self.load(memory, space, address).map(|byte| Reply::done(byte as u32, 0)),
            Call::Store { space, address, value } => self.store(memory, space, address, value).map(|()| Reply::done(0, 0)),
            Call::Frame { frame } => self.frame_summary(frame).map(|counts| Reply::counts(counts.map(u32::from))),
            Call::UnmapRange(asked) => Ok(self.unmap_range(asked.space, asked.range, asked.rights).into()),
            Call::FlushRange(asked) => Ok(self.flush_range(asked.space, asked.range, asked.rights).into()),
            Call::MapRange(asked) => Ok(self.map_range(asked.from, asked.given, asked.to, asked.taken, asked.rights).into()),
            Call::GrantRange(asked) => {
                Ok(self.grant_range(asked.from, asked.given, asked.to, asked.taken, asked.rights).into())
            }
            Call::WriteListing => self.write_listing(memory).map(|length| Reply::done(length, 0)),
            Call::ReadListing => self.read_listing(memory).map(|()| Reply::done(0, 0)),
        };
        answer.unwrap_or_else(Reply::from)
    }
}

fn emptied(count: u32) -> Reply {
    Reply::done(count, 0)
}

impl From<Translation> for Reply {
    fn from(found: Translation) -> Reply {
        Reply::translated(found.address as u32, found.hit as u32, found.links as u32)
    }
}

#[cfg(test)]
pub mod tests {
    use super::*;

    /// The page of a board, for tests: linked to a parent with rights.
    fn link(board: &mut Board, page: (usize, usize), parent: (usize, usize), rights: u8) {
        let link = Link::Page(spot(parent.0, parent.1));
        board.set_slot(spot(page.0, page.1), Slot { link, rights });
        board.recount();
    }

    /// Board K of 01.
    pub fn board_k(sizes: Sizes) -> Board {
        let mut board = Board::start(sizes);
        for space in 2..5 {
            board.live[space] = true;
        }
        link(&mut board, (1, 0), (0, 5), 7);
        link(&mut board, (2, 3), (1, 0), 6);
        link(&mut board, (3, 1), (2, 3), 2);
        link(&mut board, (2, 4), (0, 6), 7);
        board
    }

    fn unmap(board: &mut Board, space: u32, page: u32, rights: u32) -> Result<u32, Refusal> {
        board.unmap(&Withdrawal { space, page, rights })
    }

    fn lending(giver: (u32, u32), taker: (u32, u32), rights: u32) -> Lending {
        Lending { from: giver.0, page: giver.1, to: taker.0, at: taker.1, rights }
    }

    /// Map on a fresh board K of each model: what both answer.
    fn map_on_k(giver: (u32, u32), taker: (u32, u32), rights: u32) -> Result<u32, Refusal> {
        let [entry, premium] = Sizes::MODELS.map(|sizes| {
            let mut board = board_k(sizes);
            let answer = board.map(&lending(giver, taker, rights));
            assert!(answer.is_ok() || board == board_k(sizes));
            answer
        });
        assert_eq!(entry, premium);
        entry
    }

    fn rights(board: &Board, space: usize, page: usize) -> u8 {
        board.slot(spot(space, page)).rights
    }

    /// What board K becomes when those pages are set to those rights (0: empty).
    fn k_with(sizes: Sizes, changes: &[(usize, usize, u8)]) -> Board {
        let mut board = board_k(sizes);
        for &(space, page, rights) in changes {
            let slot = board.slot(spot(space, page));
            let after = if rights == 0 { Slot::EMPTY } else { Slot { rights, ..slot } };
            board.set_slot(spot(space, page), after);
        }
        board.recount();
        board
    }

    #[test]
    fn start_and_k_are_sound() {
        for sizes in Sizes::MODELS {
            assert!(Board::start(sizes).sound());
            assert!(board_k(sizes).sound());
        }
    }

    #[test]
    fn the_start_board_of_each_model() {
        for (sizes, pages) in [(Sizes::ENTRY, 32), (Sizes::PREMIUM, 64)] {
            let board = Board::start(sizes);
            let held: Vec<Spot> = board.spots().filter(|&page| board.held(page)).collect();
            assert_eq!(held, (0..pages).map(|page| spot(0, page)).collect::<Vec<_>>());
            let own_frame = |page: &Spot| board.slot(*page) == Slot { link: Link::Frame(page.page), rights: 7 };
            assert!(held.iter().all(own_frame));
            assert_eq!((board.live[0], board.live[1], board.live[2..].contains(&true)), (true, true, false));
            assert_eq!(board.cache, Cache { places: vec![Place::default(); sizes.places], next: 0 });
        }
    }

    #[test]
    fn example_1_unmap_of_one_right() {
        for sizes in Sizes::MODELS {
            let mut board = board_k(sizes);
            assert_eq!(unmap(&mut board, 1, 0, 2), Ok(1));
            assert_eq!(board, k_with(sizes, &[(2, 3, 4), (3, 1, 0)]));
        }
    }

    #[test]
    fn example_2_unmap_twice_or_once() {
        for sizes in Sizes::MODELS {
            let mut twice = board_k(sizes);
            assert_eq!(unmap(&mut twice, 1, 0, 2), Ok(1));
            assert_eq!(unmap(&mut twice, 1, 0, 4), Ok(1));
            let mut once = board_k(sizes);
            assert_eq!(unmap(&mut once, 1, 0, 6), Ok(2));
            assert_eq!(twice, k_with(sizes, &[(2, 3, 0), (3, 1, 0)]));
            assert_eq!(once, twice);
        }
    }

    #[test]
    fn example_3_unmap_in_space_0() {
        for sizes in Sizes::MODELS {
            let mut board = board_k(sizes);
            assert_eq!(unmap(&mut board, 0, 5, 1), Ok(0));
            assert_eq!(board, k_with(sizes, &[(1, 0, 6)]));
        }
    }

    #[test]
    fn example_4_flush_in_space_0() {
        for sizes in Sizes::MODELS {
            let mut board = board_k(sizes);
            assert_eq!(board.flush(&Withdrawal { space: 0, page: 5, rights: 1 }), Err(Refusal::Pool));
            assert_eq!(board, board_k(sizes));
        }
    }

    #[test]
    fn example_5_rights_not_held_and_no_rights() {
        assert_eq!(map_on_k((2, 3), (4, 0), 7), Err(Refusal::NotHeld));
        assert_eq!(map_on_k((2, 3), (4, 0), 0), Err(Refusal::Rights));
        assert_eq!(map_on_k((2, 3), (4, 0), 8), Err(Refusal::Rights));
    }

    #[test]
    fn example_6_rings() {
        assert_eq!(map_on_k((2, 3), (1, 7), 4), Err(Refusal::Ring));
        assert_eq!(map_on_k((1, 0), (1, 4), 4), Err(Refusal::Ring));
    }

    #[test]
    fn example_7_the_source_s_space_is_below_the_taker() {
        assert_eq!(map_on_k((2, 4), (1, 0), 4), Err(Refusal::SourceBelow));
    }

    #[test]
    fn example_8_the_taker_s_space_is_below_the_source() {
        assert_eq!(map_on_k((1, 0), (2, 8), 4), Err(Refusal::TakerBelow));
    }

    #[test]
    fn example_9_map_over_a_held_page() {
        for sizes in Sizes::MODELS {
            let mut board = board_k(sizes);
            assert_eq!(board.map(&lending((1, 0), (2, 3), 4)), Ok(1));
            assert_eq!(board, k_with(sizes, &[(2, 3, 4), (3, 1, 0)]));
        }
    }

    #[test]
    fn example_10_grant_of_a_part_of_the_rights() {
        for sizes in Sizes::MODELS {
            let mut board = board_k(sizes);
            assert_eq!(board.grant(&lending((2, 3), (4, 0), 2)), Ok(2));
            let mut expected = k_with(sizes, &[(2, 3, 0), (3, 1, 0)]);
            link(&mut expected, (4, 0), (1, 0), 2);
            assert_eq!(board, expected);
        }
    }

    /// Also a page below the giver with none of the granted rights goes, and each entry with it.
    #[test]
    fn a_grant_of_a_part_takes_every_right_from_giver_and_below() {
        for sizes in Sizes::MODELS {
            let mut board = board_k(sizes);
            for (space, page, right) in [(1, 0, 4), (2, 3, 4), (3, 1, 2)] {
                board.translate(space, 1024 * page, right).unwrap();
            }
            assert_eq!(board.grant(&lending((2, 3), (4, 0), 4)), Ok(2), "(3,1) has only 2");
            let mut expected = k_with(sizes, &[(2, 3, 0), (3, 1, 0)]);
            link(&mut expected, (4, 0), (1, 0), 4);
            expected.cache.places[0] = Place { space: 1, page: 0, frame: 5, rights: 7 };
            assert_eq!(board, expected);
        }
    }

    #[test]
    fn example_11_delete() {
        for sizes in Sizes::MODELS {
            let mut board = board_k(sizes);
            assert_eq!(board.delete(2), Ok(3));
            let mut expected = k_with(sizes, &[(2, 3, 0), (2, 4, 0), (3, 1, 0)]);
            expected.live[2] = false;
            assert_eq!(board, expected);
        }
    }

    #[test]
    fn example_12_translate_at_the_end() {
        for (sizes, last, page) in [(Sizes::ENTRY, 32767, 31), (Sizes::PREMIUM, 65535, 63)] {
            let mut board = board_k(sizes);
            let address = last as usize;
            assert_eq!(board.translate(0, last, 4), Ok(Translation { address, hit: false, links: 1 }));
            assert_eq!(board.translate(0, last, 4), Ok(Translation { address, hit: true, links: 1 }));
            assert_eq!(board.translate(0, last + 1, 4), Err(Refusal::Page));
            let mut expected = board_k(sizes);
            expected.cache.places[0] = Place { space: 0, page, frame: page, rights: 7 };
            assert_eq!(board, expected);
        }
    }

    #[test]
    fn a_taker_below_the_giver_keeps_what_it_was_given() {
        for sizes in Sizes::MODELS {
            for rights in [6, 4, 2] {
                let mut board = board_k(sizes);
                assert_eq!(board.grant(&lending((2, 3), (3, 1), rights)), Ok(1));
                let mut expected = k_with(sizes, &[(2, 3, 0)]);
                link(&mut expected, (3, 1), (1, 0), rights as u8);
                assert_eq!(board, expected);
                assert!(board.sound());
            }
        }
    }

    #[test]
    fn the_cache_drops_what_lost_a_right_and_keeps_the_rest() {
        for sizes in Sizes::MODELS {
            let mut board = board_k(sizes);
            for (space, page) in [(1, 0), (2, 3), (3, 1), (2, 4)] {
                let rights = rights(&board, space, page) as u32;
                board.translate(space as u32, 1024 * page as u32, rights).unwrap();
            }
            let before = board.cache.clone();
            unmap(&mut board, 1, 0, 1).unwrap();
            assert_eq!(board.cache, before, "no page below (1,0) has right 1");
            unmap(&mut board, 1, 0, 4).unwrap();
            let mut expected = before;
            expected.places[1] = Place::default();
            assert_eq!(board.cache, expected, "(2,3) lost 4, (3,1) had only 2");
        }
    }

    #[test]
    fn the_same_link_again_drops_the_entry() {
        for sizes in Sizes::MODELS {
            let mut board = board_k(sizes);
            board.translate(2, 4096, 4).unwrap();
            assert_eq!(board.map(&lending((0, 6), (2, 4), 7)), Ok(0));
            assert_eq!(board, board_k(sizes));
        }
    }

    #[test]
    fn the_cache_wraps_around() {
        for (sizes, places) in [(Sizes::ENTRY, 8), (Sizes::PREMIUM, 16)] {
            let mut board = Board::start(sizes);
            for page in 0..2 * places + 1 {
                assert!(!board.translate(0, 1024 * page as u32, 4).unwrap().hit);
            }
            assert_eq!(board.cache.next, 1);
            assert_eq!(board.cache.places[0].page, 2 * places);
            assert_eq!(board.cache.places[1].page, places + 1);
            assert!(!board.translate(0, 1024 * places as u32, 4).unwrap().hit);
            assert_eq!(board.cache.next, 2);
            assert!(board.sound());
        }
    }

    #[test]
    fn load_and_store_reach_the_frame() {
        for (sizes, length) in [(Sizes::ENTRY, 32768), (Sizes::PREMIUM, 65536)] {
            let mut board = board_k(sizes);
            let mut memory = vec![0; length];
            assert_eq!(board.store(&mut memory, 2, 3 * 1024 + 9, 77), Ok(()));
            assert_eq!(memory[5 * 1024 + 9], 77);
            assert_eq!(memory.iter().filter(|&&byte| byte != 0).count(), 1);
            assert_eq!(board.load(&memory, 1, 9), Ok(77));
            assert_eq!(board.load(&memory, 3, 1024 + 9), Err(Refusal::NotHeld));
            assert_eq!(board.load(&memory[1..], 99, 0), Err(Refusal::Memory));
            board.live[1] = false;
            assert_eq!(board.load(&memory[1..], 99, 0), Err(Refusal::Unsound));
        }
    }

    #[test]
    fn three_for_either_space_comes_before_four() {
        for (sizes, space, page) in [(Sizes::ENTRY, 8, 32), (Sizes::PREMIUM, 16, 64)] {
            let mut board = board_k(sizes);
            assert_eq!(board.map(&lending((space - 1, 99), (space, 99), 0)), Err(Refusal::Space));
            assert_eq!(board.map(&lending((1, 99), (space - 1, 0), 0)), Err(Refusal::NotLive));
            assert_eq!(board.map(&lending((1, 0), (0, page), 0)), Err(Refusal::Page));
            assert_eq!(board.map(&lending((1, 0), (0, page - 1), 0)), Err(Refusal::Rights));
        }
    }

    #[test]
    fn rings_and_long_lines_are_unsound() {
        for sizes in Sizes::MODELS {
            let mut ring = board_k(sizes);
            link(&mut ring, (1, 9), (2, 9), 7);
            link(&mut ring, (2, 9), (1, 9), 7);
            assert!(!ring.sound());
            let mut itself = board_k(sizes);
            link(&mut itself, (1, 9), (1, 9), 7);
            assert!(!itself.sound());
            let mut twice = board_k(sizes);
            link(&mut twice, (1, 9), (2, 3), 4);
            assert!(!twice.sound());
        }
    }

    #[test]
    fn a_line_through_every_space_is_sound() {
        for (sizes, spaces) in [(Sizes::ENTRY, 8), (Sizes::PREMIUM, 16)] {
            let mut board = Board::start(sizes);
            for space in 1..spaces {
                let _ = board.create(space);
                board.map(&lending((space - 1, 4), (space, 4), 7)).unwrap();
            }
            assert_eq!(board.line(spot(spaces as usize - 1, 4)).count(), spaces as usize);
            assert!(board.sound());
            let found = Translation { address: 4096, hit: false, links: spaces as usize };
            assert_eq!(board.translate(spaces - 1, 4096, 7), Ok(found));
        }
    }

    /// Board K: (0,5) has the link to its frame alone, (1,0) one more, and so on; a hit says the same as a miss.
    #[test]
    fn the_links_of_k() {
        for sizes in Sizes::MODELS {
            let mut board = board_k(sizes);
            for (space, page, links) in [(0, 5, 1), (1, 0, 2), (2, 3, 3), (3, 1, 4), (2, 4, 2)] {
                let rights = rights(&board, space, page) as u32;
                let answers = [0, 1].map(|_| board.translate(space as u32, 1024 * page as u32, rights).unwrap());
                assert_eq!(answers.map(|found| (found.hit, found.links)), [(false, links), (true, links)]);
            }
            let refused = Call::Translate { space: 3, address: 1024, rights: 4 };
            assert_eq!(board.play(&mut [], &refused), Reply::bare(12));
            let mut memory = vec![0; sizes.memory()];
            assert_eq!(board.play(&mut memory, &Call::Load { space: 2, address: 3 * 1024 }), Reply::done(0, 0));
        }
    }

    #[test]
    fn a_false_cache_is_unsound() {
        for (sizes, places, spaces) in [(Sizes::ENTRY, 8, 8), (Sizes::PREMIUM, 16, 16)] {
            let place = |space, page, frame, rights| Place { space, page, frame, rights };
            let sound_with = |places: &[Place], next: usize| {
                let mut board = board_k(sizes);
                board.cache.places[..places.len()].copy_from_slice(places);
                board.cache.next = next;
                board.sound()
            };
            assert!(sound_with(&[place(2, 3, 5, 6)], places - 1));
            assert!(!sound_with(&[place(2, 3, 5, 6)], places), "next place out of range");
            assert!(!sound_with(&[place(2, 3, 5, 4)], 0), "rights");
            assert!(!sound_with(&[place(2, 3, 6, 6)], 0), "frame");
            assert!(!sound_with(&[place(2, 5, 5, 6)], 0), "an empty page");
            assert!(!sound_with(&[place(2, 3, 5, 6), place(2, 3, 5, 6)], 0), "twice");
            assert!(!sound_with(&[place(2, 3, 5, 0)], 0), "half empty");
            assert!(!sound_with(&[place(spaces, 3, 5, 6)], 0), "no space");
        }
    }
}
