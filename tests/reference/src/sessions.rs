//! Random boards, random calls and random scripts, made to reach what is rare: deep lines, full boards, a cache that wraps
//! around, spaces deleted and created again, and every refusal.

use crate::board::{spot, Board, Link, Place, Slot, Spot, Way};
use crate::calls::{Call, Kind, Lending, Range, RangeLending, RangeWithdrawal, Refusal, Withdrawal, ALL_RIGHTS};
use crate::lines::{comment, spoil, Flaw};
use crate::random::Random;
use crate::script::{parse, write_line, INPUT_LIMIT};
use crate::sizes::{Sizes, PAGE_BYTES};

// ---- random boards -----------------------------------------------------------------------------------------------------------

/// A sound board, also of the kinds that no list of calls from the start board leads to (two pages of a space with one frame).
pub fn random_board(random: &mut Random, sizes: Sizes) -> Board {
    let mut board = Board::start(sizes);
    let live_share = random.pick(&[50, 90, 100, 100]);
    for space in 2..sizes.spaces {
        board.live[space] = random.chance(live_share);
    }
    if random.chance(70) {
        lay_lines(random, &mut board);
    }
    fill_pages(random, &mut board);
    fill_cache(random, &mut board);
    board.recount();
    board
}

/// A sound board with a few lines through every space, and translations of one of their pages: a miss and a hit.
pub fn along_a_line(random: &mut Random, sizes: Sizes) -> (Board, Vec<Call>) {
    let mut board = Board::start(sizes);
    board.live.fill(true);
    lay_lines(random, &mut board);
    board.recount();
    let page = deepest(&board, random.between(1, sizes.spaces));
    let (space, address) = (page.space as u32, (PAGE_BYTES * page.page + random.below(PAGE_BYTES)) as u32);
    let rights = board.slot(page).rights as u32;
    (board, vec![Call::Translate { space, address, rights }; 2])
}

/// A sound board with most pages of all spaces on one frame, each lent by the pool or by a page that has the frame already.
pub fn crowded_board(random: &mut Random, sizes: Sizes) -> Board {
    let mut board = Board::start(sizes);
    board.live.fill(true);
    let pool = spot(0, random.below(sizes.pages));
    let share = random.pick(&[70, 100]);
    let mut crowd = vec![pool];
    for page in empty_pages(random, &board, share) {
        let giver = random.pick(&crowd);
        let parent = if board.line(giver).all(|at| at.space != page.space) { giver } else { pool };
        let rights = some_of(random, board.slot(parent).rights);
        board.set_slot(page, Slot { link: Link::Page(parent), rights });
        crowd.push(page);
    }
    fill_cache(random, &mut board);
    board.recount();
    board
}

/// A few lines through all live spaces, so through every space of the model where all are live.
fn lay_lines(random: &mut Random, board: &mut Board) {
    let mut spaces = spaces_where(board, |space| space != 0 && board.live[space]);
    for frame in 0..random.between(1, 4) {
        random.shuffle(&mut spaces);
        let mut parent = spot(0, frame);
        for &space in &spaces {
            let page = spot(space, random.below(board.sizes.pages));
            if !board.held(page) {
                let rights =
                    if random.chance(90) { board.slot(parent).rights } else { some_of(random, board.slot(parent).rights) };
                board.set_slot(page, Slot { link: Link::Page(parent), rights });
                parent = page;
            }
        }
    }
}

/// So many of a hundred pages of the live spaces other than 0, less those that are held, in any order.
fn empty_pages(random: &mut Random, board: &Board, share: usize) -> Vec<Spot> {
    let mut pages: Vec<Spot> = board.spots().filter(|page| page.space != 0 && board.live[page.space]).collect();
    random.shuffle(&mut pages);
    pages.truncate(pages.len() * share / 100);
    pages.retain(|&page| !board.held(page));
    pages
}

/// Links a random share of the pages, each to a held page whose line does not meet its space.
fn fill_pages(random: &mut Random, board: &mut Board) {
    let share = random.pick(&[10, 50, 90, 100]);
    let chain = random.chance(50);
    for page in empty_pages(random, board, share) {
        let givers: Vec<Spot> = (0..if chain { 12 } else { 1 }).map(|_| some_held(random, board)).collect();
        let free = givers.into_iter().filter(|&giver| board.line(giver).all(|at| at.space != page.space));
        if let Some(parent) = free.max_by_key(|&giver| board.line(giver).count()) {
            let rights = some_of(random, board.slot(parent).rights);
            board.set_slot(page, Slot { link: Link::Page(parent), rights });
        }
    }
}

fn fill_cache(random: &mut Random, board: &mut Board) {
    let share = random.pick(&[0, 50, 100]);
    board.cache.next = random.below(board.sizes.places);
    for place in 0..board.sizes.places {
        let page = some_held(random, board);
        let cached = board.cache.places.iter().any(|other| other.names(page));
        if random.chance(share) && !cached {
            let frame = board.frame(page).expect("the board is sound");
            let rights = board.slot(page).rights;
            board.cache.places[place] = Place { space: page.space, page: page.page, frame, rights };
        }
    }
}

// ---- drawing from a board ----------------------------------------------------------------------------------------------------

/// A held page: mostly one outside space 0, if there is one.
fn some_held(random: &mut Random, board: &Board) -> Spot {
    let lent = if random.chance(80) { some_lent(random, board) } else { None };
    lent.unwrap_or_else(|| spot(0, random.below(board.sizes.pages)))
}

/// A held page outside space 0: a few random pages first, then the whole list.
fn some_lent(random: &mut Random, board: &Board) -> Option<Spot> {
    for _ in 0..8 {
        let page = spot(random.between(1, board.sizes.spaces - 1), random.below(board.sizes.pages));
        if board.held(page) {
            return Some(page);
        }
    }
    let lent: Vec<Spot> = board.lent_pages().collect();
    random.pick_any(&lent)
}

/// Of so many random held pages the one with the longest line.
fn deepest_of(random: &mut Random, board: &Board, count: usize) -> Spot {
    let pages: Vec<Spot> = (0..count).map(|_| some_held(random, board)).collect();
    pages.into_iter().max_by_key(|&page| board.line(page).count()).expect("one or more")
}

/// The page with the longest line of at most so many pages.
fn deepest(board: &Board, longest: usize) -> Spot {
    let length = |page: &Spot| board.line(*page).count();
    board.lent_pages().filter(|page| length(page) <= longest).max_by_key(length).unwrap_or(spot(0, 0))
}

fn spaces_where(board: &Board, condition: impl Fn(usize) -> bool) -> Vec<usize> {
    (0..board.sizes.spaces).filter(|&space| condition(space)).collect()
}

fn some_live(random: &mut Random, board: &Board) -> usize {
    random.pick(&spaces_where(board, |space| board.live[space]))
}

fn some_dead(random: &mut Random, board: &Board) -> Option<usize> {
    random.pick_any(&spaces_where(board, |space| !board.live[space]))
}

/// A live space that the giver's line does not meet, if there is one.
fn some_taker_space(random: &mut Random, board: &Board, giver: Spot) -> usize {
    let free = |space: usize| board.live[space] && board.line(giver).all(|page| page.space != space);
    random.pick_any(&spaces_where(board, free)).unwrap_or_else(|| some_live(random, board))
}

/// A page of a space: the one with the number of the giver's frame (so that lines stay apart), an empty one, or any.
fn some_taker_page(random: &mut Random, board: &Board, giver: Spot, space: usize) -> usize {
    let empty: Vec<usize> = (0..board.sizes.pages).filter(|&page| !board.held(spot(space, page))).collect();
    let any = random.below(board.sizes.pages);
    match random.below(4) {
        0 | 1 => board.frame(giver).unwrap_or(any),
        2 => random.pick_any(&empty).unwrap_or(any),
        _ => any,
    }
}

/// Some of these rights, at least one: mostly all of them, so that long lines keep rights.
fn some_of(random: &mut Random, rights: u8) -> u8 {
    let part = random.byte() & rights;
    if random.chance(60) || part == 0 {
        rights
    } else {
        part
    }
}

// ---- calls that are mostly accepted ------------------------------------------------------------------------------------------

fn lending(giver: Spot, taker: Spot, rights: u8) -> Lending {
    Lending {
        from: giver.space as u32,
        page: giver.page as u32,
        to: taker.space as u32,
        at: taker.page as u32,
        rights: rights as u32,
    }
}

fn offer(random: &mut Random, board: &Board, giver: Spot) -> Lending {
    let space = some_taker_space(random, board, giver);
    let page = some_taker_page(random, board, giver, space);
    let rights = some_of(random, board.slot(giver).rights);
    lending(giver, spot(space, page), rights)
}

/// Makes lines longer: maps from the deepest of a few pages or of all, after making every space live.
fn deepen(random: &mut Random, board: &Board) -> Call {
    if let (Some(space), true) = (some_dead(random, board), random.chance(20)) {
        return Call::Create { space: space as u32 };
    }
    let live = spaces_where(board, |space| board.live[space]).len();
    let giver = if random.chance(25) { deepest(board, live - 1) } else { deepest_of(random, board, 6) };
    Call::Map(offer(random, board, giver))
}

/// Fills empty pages, mostly from space 0 and with frames that the taker's space does not have yet.
fn fill(random: &mut Random, board: &Board) -> Call {
    let space = some_live(random, board);
    let frames: Vec<usize> = board.pages_of(space).filter_map(|page| board.frame(page)).collect();
    let missing: Vec<usize> = (0..board.sizes.pages).filter(|frame| !frames.contains(frame)).collect();
    let empty: Vec<Spot> = board.pages_of(space).filter(|&page| !board.held(page)).collect();
    match (random.pick_any(&missing), random.pick_any(&empty)) {
        (Some(frame), Some(taker)) if random.chance(70) => {
            Call::Map(lending(spot(0, frame), taker, some_of(random, ALL_RIGHTS)))
        }
        _ => {
            let giver = some_held(random, board);
            Call::Map(offer(random, board, giver))
        }
    }
}

/// Grants to any page, often to one that stands below the giver.
fn grant(random: &mut Random, board: &Board) -> Call {
    let giver = some_lent(random, board).unwrap_or(spot(0, 0));
    let below: Vec<Spot> = board.pages_below(giver).collect();
    match random.pick_any(&below) {
        Some(taker) if random.chance(40) => Call::Grant(lending(giver, taker, some_of(random, board.slot(giver).rights))),
        _ => Call::Grant(offer(random, board, giver)),
    }
}

/// A page in the cache, if there is one.
fn some_cached(random: &mut Random, board: &Board) -> Option<Spot> {
    let cached: Vec<Place> = board.cache.places.iter().copied().filter(|place| place.filled()).collect();
    random.pick_any(&cached).map(|place| spot(place.space, place.page))
}

/// The page in the cache with the longest line of at most so many pages, if there is one.
fn deepest_cached(board: &Board, longest: usize) -> Option<Spot> {
    let cached = board.cache.places.iter().filter(|place| place.filled()).map(|place| spot(place.space, place.page));
    let length = |page: &Spot| board.line(*page).count();
    cached.filter(|page| length(page) <= longest).max_by_key(length)
}

/// Makes a link again that is there already, mostly of a page in the cache.
fn again(random: &mut Random, board: &Board) -> Call {
    let cached = some_cached(random, board).filter(|page| page.space != 0);
    let taker = cached.or_else(|| some_lent(random, board)).unwrap_or(spot(1, 0));
    let giver = board.parent(taker).unwrap_or(spot(0, 0));
    let rights = if random.chance(70) { board.slot(taker).rights } else { some_of(random, board.slot(giver).rights) };
    Call::Map(lending(giver, taker, rights))
}

/// Reads through the cache: pages that are in it, and others, so that it fills up and wraps around. Or asks who uses a frame.
pub fn read(random: &mut Random, board: &Board, kinds: &[Kind]) -> Call {
    let page = match (some_cached(random, board), random.below(100)) {
        (_, 0..=4) => spot(0, board.sizes.pages - 1),
        (_, 5..=19) => deepest(board, random.between(2, board.sizes.spaces)),
        (Some(page), 20..=34) => deepest_cached(board, random.between(2, board.sizes.spaces)).unwrap_or(page),
        (Some(page), 35..=59) => page,
        _ => deepest_of(random, board, 3),
    };
    let any = random.below(PAGE_BYTES);
    let offset = random.pick(&[0, PAGE_BYTES - 1, any, any, any, any]);
    let (space, address) = (page.space as u32, (PAGE_BYTES * page.page + offset) as u32);
    let rights = some_of(random, board.slot(page).rights) as u32;
    if kinds.contains(&Kind::Frame) && random.chance(10) {
        return Call::Frame { frame: some_frame(random, board, page) };
    }
    match random.pick(&[Kind::Translate, Kind::Load, Kind::Store]) {
        Kind::Load if kinds.contains(&Kind::Load) => Call::Load { space, address },
        Kind::Store if kinds.contains(&Kind::Store) => Call::Store { space, address, value: random.byte() },
        _ => Call::Translate { space, address, rights },
    }
}

/// The frame of a page, or any.
fn some_frame(random: &mut Random, board: &Board, page: Spot) -> u32 {
    let any = random.below(board.sizes.pages);
    board.frame(page).filter(|_| random.chance(75)).unwrap_or(any) as u32
}

/// Takes rights away, often along the line of a page in the cache, and often just those that the cached page has not.
fn withdraw(random: &mut Random, board: &Board) -> Call {
    let any = random.pick(&[1, 2, 4, 1, 2, 4, 3, 5, 6, 7]);
    let (page, rights) = match some_cached(random, board) {
        Some(cached) if random.chance(70) => {
            let line: Vec<Spot> = board.line(cached).collect();
            let above: Vec<Spot> = line[1..].iter().copied().filter(|page| page.space != 0).collect();
            let named = random.pick_any(&above).filter(|_| random.chance(60)).unwrap_or(random.pick(&line));
            let lacking = ALL_RIGHTS & !board.slot(cached).rights;
            (named, if lacking != 0 && random.chance(40) { lacking } else { any })
        }
        _ => (some_held(random, board), any),
    };
    let asked = Withdrawal { space: page.space as u32, page: page.page as u32, rights: rights as u32 };
    if page.space == 0 || random.chance(40) {
        Call::Unmap(asked)
    } else {
        Call::Flush(asked)
    }
}

/// Deletes spaces and creates them again.
fn churn(random: &mut Random, board: &Board) -> Call {
    match some_dead(random, board) {
        Some(space) if random.chance(65) => Call::Create { space: space as u32 },
        _ => Call::Delete { space: random.between(2, board.sizes.spaces - 1) as u32 },
    }
}

// ---- calls that are often refused --------------------------------------------------------------------------------------------

/// A number that is out of range below `limit`, or just not: also such as become small when they are narrowed.
fn odd_number(random: &mut Random, limit: usize) -> u32 {
    let limit = limit as u32;
    let small = random.below(limit as usize) as u32;
    random.pick(&[
        limit,
        limit + 1,
        limit - 1,
        limit + small,
        255,
        256,
        256 + small,
        65_535,
        65_536 + small,
        99_999,
        100_000,
        1 << 31,
        (1 << 31) + small,
        u32::MAX,
        u32::MAX - small,
        0u32.wrapping_sub(limit),
    ])
}

/// The parameters of loose calls: each is odd in `slack` cases of a hundred.
struct Loose<'a> {
    random: &'a mut Random,
    board: &'a Board,
    slack: usize,
    /// 14 or 15, if a lending is to be refused with it.
    wanted: Option<Refusal>,
}

impl Loose<'_> {
    fn odd(&mut self) -> bool {
        self.random.chance(self.slack)
    }

    fn space(&mut self, good: usize) -> u32 {
        if !self.odd() {
            return good as u32;
        }
        match self.random.below(3) {
            0 => self.random.below(self.board.sizes.spaces) as u32,
            1 => some_dead(self.random, self.board).unwrap_or(good) as u32,
            _ => odd_number(self.random, self.board.sizes.spaces),
        }
    }

    fn page(&mut self, good: usize) -> u32 {
        if !self.odd() {
            return good as u32;
        }
        match self.random.below(2) {
            0 => self.random.below(self.board.sizes.pages) as u32,
            _ => odd_number(self.random, self.board.sizes.pages),
        }
    }

    /// The frame of a page, the first past the last one, or any odd number.
    fn frame(&mut self, page: Spot) -> u32 {
        let good = some_frame(self.random, self.board, page);
        if self.odd() && self.random.chance(30) {
            return self.board.sizes.pages as u32;
        }
        self.page(good as usize)
    }

    fn address(&mut self, good_page: usize) -> u32 {
        if self.odd() && self.random.chance(50) {
            let past = self.board.sizes.memory();
            if self.random.chance(30) {
                past as u32
            } else {
                odd_number(self.random, past)
            }
        } else {
            let page = if self.odd() { self.random.below(self.board.sizes.pages) } else { good_page };
            (PAGE_BYTES * page + self.random.below(PAGE_BYTES)) as u32
        }
    }

    fn rights(&mut self) -> u32 {
        if !self.odd() {
            return self.random.between(1, ALL_RIGHTS as usize) as u32;
        }
        let small = self.random.below(8) as u32;
        self.random.pick(&[0, 0, 8, 9, 15, 16 + small, 255, 256 + small, 65_536 + small, 99_999, u32::MAX])
    }

    fn withdrawal(&mut self) -> Withdrawal {
        let named = some_held(self.random, self.board);
        Withdrawal { space: self.space(named.space), page: self.page(named.page), rights: self.rights() }
    }

    fn lending(&mut self, way: Way) -> Lending {
        let (giver, taker) = self.parties(way);
        Lending {
            from: self.space(giver.space),
            page: self.page(giver.page),
            to: self.space(taker.space),
            at: self.page(taker.page),
            rights: if self.random.chance(60) {
                some_of(self.random, self.board.slot(giver).rights) as u32
            } else {
                self.rights()
            },
        }
    }

    /// A giver and a taker: both held, or the taker any page, or such as are refused with 14 or 15.
    fn parties(&mut self, way: Way) -> (Spot, Spot) {
        let held = (some_held(self.random, self.board), some_held(self.random, self.board));
        match (self.wanted, self.random.below(8)) {
            (Some(Refusal::SourceBelow), _) | (None, 0) => self.crossed(way).unwrap_or(held),
            (Some(Refusal::TakerBelow), _) => self.nested(way).unwrap_or(held),
            (_, 1 | 2) => (held.0, spot(some_live(self.random, self.board), self.random.below(self.board.sizes.pages))),
            _ => held,
        }
    }

    /// A giver and a taker with a page of the source's space below it, the giver's line not meeting the taker's space: so 14, if
    /// nothing else is in the way.
    fn crossed(&mut self, way: Way) -> Option<(Spot, Spot)> {
        let board = self.board;
        let below = deepest_of(self.random, board, 4);
        let above: Vec<Spot> = board.line(below).skip(1).filter(|page| page.space != 0).collect();
        let taker = self.random.pick_any(&above)?;
        let source = |giver: Spot| if way == Way::Map { Some(giver) } else { board.parent(giver) };
        let crosses = |giver: &Spot| source(*giver).is_some_and(|source| source.space == below.space);
        let apart = |giver: &Spot| board.line(*giver).all(|page| page.space != taker.space);
        let givers: Vec<Spot> = board.lent_pages().filter(crosses).filter(apart).collect();
        Some((self.random.pick_any(&givers)?, taker))
    }

    /// A giver and a taker of whose space another page is below the source, and again only that is in the way: 15.
    fn nested(&mut self, way: Way) -> Option<(Spot, Spot)> {
        let board = self.board;
        let below = deepest_of(self.random, board, 2);
        let above: Vec<Spot> = board.line(below).skip(1).collect();
        let source = self.random.pick_any(&above)?;
        let gives = |page: &Spot| if way == Way::Map { *page == source } else { board.parent(*page) == Some(source) };
        let givers: Vec<Spot> = board.spots().filter(|page| gives(page) && page.space != below.space).collect();
        let taker = spot(below.space, self.random.below(board.sizes.pages));
        Some((self.random.pick_any(&givers)?, taker))
    }

    /// A range, most often a valid one; wide ones are as likely as narrow ones.
    fn range(&mut self, good_page: usize) -> Range {
        let largest = self.board.sizes.largest_part();
        if self.odd() {
            let base = self.page(good_page);
            let past = largest + 1;
            let size = self.random.pick(&[0, 1, 2, 8, 9, 10, largest, past, past, past + 1, 31, 42, 255, 1034, u32::MAX]);
            return Range { base, size };
        }
        let part = self.random.between(10, largest as usize) as u32;
        match self.random.below(24) {
            0 | 1 => Range { base: 0, size: 0 },
            2..=5 => Range { base: 0, size: 1 },
            6 => Range { base: self.board.sizes.pages as u32, size: part },
            7 | 8 => Range { base: self.board.sizes.pages as u32 - 1, size: part },
            9 => Range { base: good_page as u32, size: largest + 1 },
            _ => Range { base: good_page as u32, size: part },
        }
    }

    fn range_withdrawal(&mut self) -> RangeWithdrawal {
        let named = some_held(self.random, self.board);
        RangeWithdrawal { space: self.space(named.space), range: self.range(named.page), rights: self.rights() }
    }

    /// Every page of the pool to a space that has few pages, so that pages far up are the first to be refused.
    fn whole_pool(&mut self) -> RangeLending {
        let all = [Range { base: 0, size: 1 }, Range { base: 0, size: self.board.sizes.largest_part() }];
        let live = spaces_where(self.board, |space| space != 0 && self.board.live[space]);
        let held = |space: &usize| self.board.pages_of(*space).filter(|&page| self.board.held(page)).count();
        let fewest = live.into_iter().filter(|space| held(space) > 0).min_by_key(held).unwrap_or(1);
        let rights = some_of(self.random, ALL_RIGHTS) as u32;
        RangeLending { from: 0, given: self.random.pick(&all), to: fewest as u32, taken: self.random.pick(&all), rights }
    }

    /// Two ranges, of the same size more often than not; in many cases just the pages of a lending.
    fn range_lending(&mut self, way: Way) -> RangeLending {
        let Lending { from, page, to, at, rights } = self.lending(way);
        if way == Way::Map && self.random.chance(30) {
            return self.whole_pool();
        }
        if self.wanted.is_some() || self.random.chance(40) {
            let one = |base: u32| Range { base, size: 10 };
            return RangeLending { from, given: one(page), to, taken: one(at), rights };
        }
        let given = self.range(page as usize % self.board.sizes.pages);
        let mut taken = self.range(at as usize % self.board.sizes.pages);
        if self.random.chance(80) {
            taken.size = given.size;
            taken.base = if given.size < 2 { 0 } else { taken.base };
        }
        RangeLending { from, given, to, taken, rights }
    }

    fn call(&mut self, kind: Kind) -> Call {
        let some = some_held(self.random, self.board);
        match kind {
            Kind::Create => Call::Create { space: self.space(some.space) },
            Kind::Delete => Call::Delete { space: self.space(some.space) },
            Kind::Unmap => Call::Unmap(self.withdrawal()),
            Kind::Flush => Call::Flush(self.withdrawal()),
            Kind::Map => Call::Map(self.lending(Way::Map)),
            Kind::Grant => Call::Grant(self.lending(Way::Grant)),
            Kind::Translate => {
                Call::Translate { space: self.space(some.space), address: self.address(some.page), rights: self.rights() }
            }
            Kind::Load => Call::Load { space: self.space(some.space), address: self.address(some.page) },
            Kind::Store => {
                Call::Store { space: self.space(some.space), address: self.address(some.page), value: self.random.byte() }
            }
            Kind::Frame => Call::Frame { frame: self.frame(some) },
            Kind::UnmapRange => Call::UnmapRange(self.range_withdrawal()),
            Kind::FlushRange => Call::FlushRange(self.range_withdrawal()),
            Kind::MapRange => Call::MapRange(self.range_lending(Way::Map)),
            Kind::GrantRange => Call::GrantRange(self.range_lending(Way::Grant)),
            Kind::Start => Call::Start,
            Kind::Sound => Call::Sound,
            Kind::WriteListing => Call::WriteListing,
            Kind::ReadListing => Call::ReadListing,
        }
    }
}

/// A call whose parameters are odd in `slack` cases of a hundred each.
pub fn loose(random: &mut Random, board: &Board, kind: Kind, slack: usize) -> Call {
    Loose { random, board, slack, wanted: None }.call(kind)
}

/// A call that is to answer a number drawn from those that its kind can give: loose calls until one does so, or the last one.
fn aim(random: &mut Random, board: &Board, kinds: &[Kind]) -> Call {
    let kind = random.pick(kinds);
    let wanted = random.pick(kind.numbers());
    let slack = random.pick(&[5, 15, 40]);
    let rare = [Refusal::SourceBelow, Refusal::TakerBelow].into_iter().find(|refusal| refusal.number() == wanted);
    let mut loose = Loose { random, board, slack, wanted: rare };
    let mut call = loose.call(kind);
    for _ in 0..20 {
        // Of memory, load and store only ask the length before they ask the rest.
        let reply = board.clone().play(&mut vec![0; board.sizes.memory()], &call);
        if reply.number == wanted {
            break;
        }
        call = loose.call(kind);
    }
    call
}

// ---- the composer ------------------------------------------------------------------------------------------------------------

/// What the calls are about for a while.
#[derive(Clone, Copy, Debug, PartialEq, Eq)]
enum Mood {
    Deepen,
    Fill,
    Grant,
    Again,
    Read,
    Withdraw,
    Churn,
    Aim,
    Wild,
    Mixed,
}

/// The moods that a mixed stretch draws each call from.
const MIXED: [Mood; 12] = [
    Mood::Deepen,
    Mood::Deepen,
    Mood::Fill,
    Mood::Fill,
    Mood::Grant,
    Mood::Grant,
    Mood::Again,
    Mood::Read,
    Mood::Read,
    Mood::Read,
    Mood::Withdraw,
    Mood::Withdraw,
];

/// Composes calls of some kinds, in stretches of one mood.
#[derive(Clone, Debug)]
pub struct Composer {
    kinds: &'static [Kind],
    mood: Mood,
    left: usize,
}

impl Composer {
    pub fn new(kinds: &'static [Kind]) -> Composer {
        Composer { kinds, mood: Mood::Mixed, left: 0 }
    }

    /// The next call, for this board.
    pub fn compose(&mut self, random: &mut Random, board: &Board) -> Call {
        if self.left == 0 {
            self.change_mood(random, board.sizes.places);
        }
        self.left -= 1;
        let mood = if self.mood == Mood::Mixed { random.pick(&MIXED) } else { self.mood };
        match mood {
            Mood::Deepen => deepen(random, board),
            Mood::Grant => grant(random, board),
            Mood::Again => again(random, board),
            Mood::Read => read(random, board, self.kinds),
            Mood::Withdraw => withdraw(random, board),
            Mood::Churn => churn(random, board),
            Mood::Aim => aim(random, board, self.kinds),
            Mood::Wild => {
                let lending = random.pick(&[Kind::Map, Kind::Grant, Kind::MapRange, Kind::GrantRange]);
                let lending = if self.kinds.contains(&lending) { lending } else { Kind::Grant };
                let kind = if random.chance(40) { lending } else { random.pick(self.kinds) };
                let slack = random.pick(&[10, 30, 60]);
                loose(random, board, kind, slack)
            }
            Mood::Fill | Mood::Mixed => fill(random, board),
        }
    }

    /// Building moods last long, those that take away are short. Reading goes on until a cache of so many places is replaced.
    fn change_mood(&mut self, random: &mut Random, places: usize) {
        (self.mood, self.left) = match random.below(18) {
            0..=2 => (Mood::Deepen, random.between(10, 80)),
            3 | 4 => (Mood::Fill, random.between(5, 80)),
            5 => (Mood::Grant, random.between(1, 15)),
            6 | 7 => (Mood::Read, random.between(2, 5 * places)),
            8 => (Mood::Withdraw, random.between(1, 10)),
            9 | 10 => (Mood::Churn, random.between(1, 6)),
            11 | 12 => (Mood::Aim, random.between(5, 30)),
            13 | 14 => (Mood::Wild, random.between(5, 40)),
            _ => (Mood::Mixed, random.between(10, 80)),
        };
    }
}

// ---- scripts -----------------------------------------------------------------------------------------------------------------

/// A script as it is composed: its bytes, the board that they lead to, and the flaws put into lines.
pub struct Session {
    pub bytes: Vec<u8>,
    pub flaws: Vec<Flaw>,
    board: Board,
    composer: Composer,
}

impl Session {
    /// A script that starts from this board.
    fn new(board: Board) -> Session {
        Session { bytes: Vec::new(), flaws: Vec::new(), board, composer: Composer::new(&Kind::SCRIPT) }
    }

    fn push_line(&mut self, line: &[u8]) {
        if let Some(call) = parse(line) {
            self.board.play(&mut [], &call);
        }
        self.bytes.extend_from_slice(line);
        self.bytes.push(b'\n');
    }

    fn push_call(&mut self, call: &Call) {
        let line = write_line(call).expect("scripts have this call");
        self.push_line(line.as_bytes());
    }

    fn compose_line(&mut self, random: &mut Random) -> String {
        let call = self.composer.compose(random, &self.board);
        write_line(&call).expect("the composer keeps to the calls of scripts")
    }

    /// A well-formed line, or a malformed one or a comment in so many cases of a hundred.
    fn push_random_line(&mut self, random: &mut Random, noise: usize) {
        let line = self.compose_line(random);
        if !random.chance(noise) {
            self.push_line(line.as_bytes());
        } else if random.chance(15) {
            self.push_line(&comment(random));
        } else {
            let flaw = random.pick(&Flaw::ALL);
            self.flaws.push(flaw);
            self.push_line(&spoil(random, &line, flaw));
        }
    }

    fn walk(&mut self, random: &mut Random, lines: usize, noise: usize) {
        for _ in 0..lines {
            self.push_random_line(random, noise);
        }
    }

    /// Makes every space live and lends every frame through all of them, in one line or from space 0 each time.
    fn fill_board(&mut self, random: &mut Random) {
        let sizes = self.board.sizes;
        for space in 2..sizes.spaces {
            self.push_call(&Call::Create { space: space as u32 });
        }
        let chain = random.chance(70);
        let mut order: Vec<usize> = (1..sizes.spaces).collect();
        let mut frames: Vec<usize> = (0..sizes.pages).collect();
        random.shuffle(&mut frames);
        let shift = random.below(sizes.pages);
        for frame in frames {
            random.shuffle(&mut order);
            let mut giver = spot(0, frame);
            for &space in &order {
                let taker = spot(space, (frame + space * shift) % sizes.pages);
                self.push_call(&Call::Map(lending(giver, taker, ALL_RIGHTS)));
                giver = if chain { taker } else { giver };
            }
        }
    }

    /// A comment that ends (its newline included) where so many bytes are left before the limit.
    fn pad_to_limit(&mut self, random: &mut Random, left: usize) {
        let wanted = (INPUT_LIMIT - left).saturating_sub(self.bytes.len());
        if wanted >= 2 {
            let filler = random.pick(b"# x=\r\0\xff");
            let body: Vec<u8> = vec![filler; wanted - 2];
            self.push_line(&[b"#".as_slice(), &body].concat());
        }
    }

    /// Lines up to the limit, one that the limit cuts (also where a well-formed line is left), and lines after it.
    fn over_limit(&mut self, random: &mut Random) {
        let before = random.below(200);
        self.walk(random, before, 5);
        let mut line = self.compose_line(random);
        let left = if random.chance(40) {
            line.push('0');
            line.len() - 1
        } else {
            random.below(line.len() + 2)
        };
        if random.chance(70) {
            self.pad_to_limit(random, left);
        }
        self.push_line(line.as_bytes());
        while self.bytes.len() <= INPUT_LIMIT {
            self.push_random_line(random, 5);
        }
        let after = random.below(60);
        self.walk(random, after, 5);
    }
}

/// A random script that starts from this board.
pub fn random_session(random: &mut Random, board: Board) -> Session {
    let mut session = Session::new(board);
    match random.below(40) {
        0..=2 => {
            let lines = random.below(4);
            session.walk(random, lines, 50);
        }
        3..=7 => {
            let lines = random.between(10, 150);
            session.walk(random, lines, 80);
        }
        8..=12 => {
            session.fill_board(random);
            let lines = random.below(250);
            session.walk(random, lines, 5);
        }
        13 => session.over_limit(random),
        _ => {
            let lines = random.between(1, 500);
            session.walk(random, lines, 8);
        }
    }
    if random.chance(20) {
        session.bytes.pop();
    }
    session
}

/// Scripts that are run before the random ones: the ends of input, the limit, and the longest answers (last, as they
/// are slow to shorten).
pub fn edge_sessions(sizes: Sizes) -> Vec<Vec<u8>> {
    let mut sessions: Vec<Vec<u8>> = [
        "",
        "\n",
        "\n\n",
        "#",
        "#\n",
        "# a",
        "x",
        "\r\n",
        " ",
        "op=create space=2",
        "op=create space=2\n",
        "op=create space=2\n\n",
        "op=create space=2\r\nop=create space=2\n",
        "#\nop=create space=2\n#",
    ]
    .iter()
    .map(|text| text.as_bytes().to_vec())
    .collect();
    sessions.push(limits(sizes).into_bytes());
    sessions.push(longest_line(sizes).into_bytes());
    sessions.extend(lines_around(80));
    sessions.extend(cut_lines());
    sessions.extend((INPUT_LIMIT - 1..=INPUT_LIMIT + 1).map(few_lines));
    sessions.push(vec![b'\n'; INPUT_LIMIT + 1]);
    sessions.push(b"#\n".repeat(INPUT_LIMIT / 2 + 3));
    sessions.push(vec![b'#'; 3 * INPUT_LIMIT]);
    sessions.push(vec![b'x'; INPUT_LIMIT + 1]);
    sessions.push(b"op=create space=2\n".repeat(INPUT_LIMIT / 18 + 9));
    sessions
}

/// The last space, page and address, each first past it, and the largest numbers of the script.
fn limits(sizes: Sizes) -> String {
    let (space, page, address) = (sizes.spaces - 1, sizes.pages - 1, sizes.memory() - 1);
    let numbers = |last: usize| [0, last, last + 1, 99_999, 100_000];
    let mut text: String = numbers(space).map(|space| format!("op=create space={space}\n")).concat();
    for page in numbers(page) {
        text += &format!("op=map from=0 page={page} to={space} at={page} rights=7\n");
        text += &format!("op=unmap space={space} page={page} rights=2\n");
    }
    for address in numbers(address) {
        text += &format!("op=translate space={space} address={address} rights=4\n");
    }
    text
}

/// A line through every space, each of its pages translated, as a miss and as a hit; then so many pages of the pool that every
/// place of the cache is filled and replaced, and the line taken back from its top.
fn longest_line(sizes: Sizes) -> String {
    let mut text: String = (2..sizes.spaces).map(|space| format!("op=create space={space}\n")).collect();
    for space in 1..sizes.spaces {
        text += &format!("op=map from={} page={} to={space} at={space} rights=7\n", space - 1, space - 1);
    }
    for page in (0..sizes.spaces).chain(0..sizes.spaces) {
        text += &format!("op=translate space={page} address={} rights=4\n", PAGE_BYTES * page + page);
    }
    for page in 1..=2 * sizes.places {
        text += &format!("op=translate space=0 address={} rights=4\n", PAGE_BYTES * page);
    }
    text + "op=unmap space=0 page=0 rights=6\nop=unmap space=0 page=0 rights=1\n"
}

/// Lines with about so many bytes: comments, and spaces after a well-formed line.
fn lines_around(length: usize) -> Vec<Vec<u8>> {
    let call = "op=create space=2";
    let padded = |length: usize| [call, &" ".repeat(length - call.len()), "\n", call, "\n"].concat().into_bytes();
    let comment = |length: usize| ["#", &"c".repeat(length - 1), "\n", call, "\n"].concat().into_bytes();
    (length - 1..=length + 1).flat_map(|length| [padded(length), comment(length)]).collect()
}

/// An input of so many bytes: a comment, and empty lines.
fn few_lines(length: usize) -> Vec<u8> {
    let empty = 200;
    [vec![b'#'; length - empty], vec![b'\n'; empty]].concat()
}

/// Every way in which the limit can cut a line of two numbers.
fn cut_lines() -> Vec<Vec<u8>> {
    let line = "op=translate space=0 address=12345 rights=77\nop=create space=2\n";
    let comment = |length: usize| ["#".repeat(length - 1), "\n".to_string()].concat();
    (1..=line.len() + 1).map(|left| [comment(INPUT_LIMIT - left), line.to_string()].concat().into_bytes()).collect()
}

#[cfg(test)]
mod tests {
    use super::*;
    use crate::script;

    #[test]
    fn random_boards_are_sound_and_of_every_depth() {
        for (sizes, full) in [(Sizes::ENTRY, 200), (Sizes::PREMIUM, 900)] {
            let mut random = Random::new(1);
            let (mut depths, mut fullest, mut unreachable) = (vec![0; sizes.spaces + 1], 0, 0);
            for _ in 0..300 {
                let board = random_board(&mut random, sizes);
                assert!(board.sound());
                depths[deepest_line(&board)] += 1;
                fullest = fullest.max(board.lent_pages().count());
                let frames = |space| board.pages_of(space).filter_map(|page| board.frame(page)).collect::<Vec<_>>();
                let twice = |list: Vec<usize>| (1..list.len()).any(|i| list[..i].contains(&list[i]));
                unreachable += (1..sizes.spaces).any(|space| twice(frames(space))) as usize;
            }
            assert!(depths[sizes.spaces] > 20, "{depths:?}");
            assert!(depths[8] > 10, "{depths:?}");
            assert!(fullest > full, "{fullest}");
            assert!(unreachable > 100, "{unreachable}");
        }
    }

    #[test]
    fn crowded_boards_are_sound_and_have_most_pages_on_one_frame() {
        for (sizes, most) in [(Sizes::ENTRY, 224), (Sizes::PREMIUM, 960)] {
            let mut random = Random::new(6);
            for _ in 0..50 {
                let board = crowded_board(&mut random, sizes);
                assert!(board.sound());
                let used: Vec<u16> = board.summary.iter().map(|counts| counts[0]).filter(|&held| held > 0).collect();
                assert!(used.len() == 1 && 2 * used[0] > most, "{used:?}");
            }
        }
    }

    /// How many pages the longest line of a board has.
    fn deepest_line(board: &Board) -> usize {
        board.spots().map(|page| board.line(page).count()).max().unwrap()
    }

    #[test]
    fn composed_calls_reach_deep_lines_full_boards_and_replaced_places() {
        for (sizes, calls, full) in [(Sizes::ENTRY, 20_000, 150), (Sizes::PREMIUM, 10_000, 300)] {
            let mut random = Random::new(2);
            let mut board = Board::start(sizes);
            let mut composer = Composer::new(Kind::BOARD);
            let mut memory = vec![0; sizes.memory()];
            let (mut deepest, mut fullest, mut wraps) = (0, 0, 0);
            for _ in 0..calls {
                let call = composer.compose(&mut random, &board);
                let next = board.cache.next;
                board.play(&mut memory, &call);
                assert!(board.sound(), "{call:?}");
                wraps += (next == sizes.places - 1 && board.cache.next == 0) as usize;
                deepest = deepest.max(deepest_line(&board));
                fullest = fullest.max(board.lent_pages().count());
            }
            assert_eq!(deepest, sizes.spaces);
            assert!(fullest > full, "{fullest}");
            assert!(wraps > 5, "{wraps}");
        }
    }

    #[test]
    fn a_filled_board_is_full() {
        for (sizes, seeds) in [(Sizes::ENTRY, 20), (Sizes::PREMIUM, 3)] {
            for seed in 0..seeds {
                let mut session = Session::new(Board::start(sizes));
                session.fill_board(&mut Random::new(seed));
                assert_eq!(session.board.lent_pages().count(), (sizes.spaces - 1) * sizes.pages);
                assert!(session.board.sound());
                assert!(session.bytes.len() < INPUT_LIMIT);
            }
        }
    }

    #[test]
    fn sessions_over_the_limit_are_cut_where_a_call_is_left() {
        let mut accepted_cut = 0;
        for seed in 0..100 {
            let mut session = Session::new(Board::start(Sizes::ENTRY));
            session.over_limit(&mut Random::new(seed));
            assert!(session.bytes.len() > INPUT_LIMIT);
            let last = *script::lines(&session.bytes).last().unwrap();
            let whole = session.bytes[INPUT_LIMIT] == b'\n';
            accepted_cut += (!whole && parse(last).is_some()) as usize;
        }
        assert!(accepted_cut > 10, "{accepted_cut}");
    }

    #[test]
    fn the_same_seed_gives_the_same_session() {
        let make = |part| random_session(&mut Random::of_part(9, part), Board::start(Sizes::ENTRY)).bytes;
        assert_eq!(make(3), make(3));
        assert_ne!(make(3), make(4));
    }
}
