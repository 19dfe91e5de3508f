//! The page-lending board in plain Rust, written from document 01 alone: same calls, same refusals in the same order.
//!
//! The rules are written once over [`Tables`], what a board is stored in; `own.rs` stores it in a struct, `image_plain.rs` in the bytes
//! of include/lend.h. Nothing here is shared with the proved code.
use super::{MEMORY, PAGES, PAGE_BYTES, PLACES, SLOTS, SPACES};

const ALL: u8 = 7;

/// What a page is linked to.
#[derive(Clone, Copy, PartialEq, Eq, Debug)]
pub enum Link {
    Nothing,
    Frame(u8),
    Page(u8, u8),
}

/// A page: its link and its rights.
#[derive(Clone, Copy, PartialEq, Eq, Debug)]
pub struct Slot {
    pub link: Link,
    pub rights: u8,
}

impl Slot {
    pub const EMPTY: Slot = Slot { link: Link::Nothing, rights: 0 };

    pub fn held(self) -> bool {
        self.link != Link::Nothing
    }
}

/// A place of the translation cache; all zero when it is empty.
#[derive(Clone, Copy, PartialEq, Eq, Debug, Default)]
pub struct Place {
    pub space: u8,
    pub page: u8,
    pub frame: u8,
    pub rights: u8,
}

impl Place {
    pub fn filled(self) -> bool {
        self != Place::default()
    }
}

/// Of the pages outside space 0 whose line ends at a frame: how many there are, with read, with write, with execute.
#[derive(Clone, Copy, PartialEq, Eq, Debug, Default)]
pub struct Counts(pub [u16; 4]);

impl Counts {
    /// What one page with such rights counts for; nothing where it has none.
    const OF_PAGE: [[u16; 4]; 8] =
        [[0, 0, 0, 0], [1, 0, 0, 1], [1, 0, 1, 0], [1, 0, 1, 1], [1, 1, 0, 0], [1, 1, 0, 1], [1, 1, 1, 0], [1, 1, 1, 1]];

    fn of_page(rights: u8) -> Counts {
        Counts(Counts::OF_PAGE[(rights & ALL) as usize])
    }

    fn plus(self, more: Counts) -> Counts {
        Counts(std::array::from_fn(|i| self.0[i].wrapping_add(more.0[i])))
    }

    fn minus(self, fewer: Counts) -> Counts {
        Counts(std::array::from_fn(|i| self.0[i].wrapping_sub(fewer.0[i])))
    }
}

/// The counts of every frame.
type Summary = [Counts; PAGES];

/// Why a call was refused.
#[derive(Clone, Copy, PartialEq, Eq, Debug)]
pub enum Refusal {
    Unsound = 1,
    Memory = 2,
    Space = 3,
    NotLive = 4,
    Page = 5,
    Rights = 6,
    Range = 7,
    RangesDiffer = 8,
    Pool = 9,
    Live = 10,
    Empty = 11,
    NotHeld = 12,
    Ring = 13,
    SourceBelow = 14,
    TakerBelow = 15,
}

/// What a board is stored in. A page is named by its number, space by space.
pub trait Tables {
    fn slot(&self, page: usize) -> Slot;
    fn set_slot(&mut self, page: usize, slot: Slot);
    fn live(&self, space: usize) -> bool;
    fn set_live(&mut self, space: usize, live: bool);
    fn place(&self, at: usize) -> Place;
    fn set_place(&mut self, at: usize, place: Place);
    fn next(&self) -> usize;
    fn set_next(&mut self, next: usize);
    fn counts(&self, frame: usize) -> Counts;
    fn set_counts(&mut self, frame: usize, counts: Counts);
}

/// A physical address, and whether its page was in the cache.
#[derive(Clone, Copy)]
pub struct Translation {
    pub address: u32,
    pub hit: bool,
    pub links: u32,
}

pub fn refuse_if(holds: bool, refusal: Refusal) -> Result<(), Refusal> {
    if holds {
        Err(refusal)
    } else {
        Ok(())
    }
}

fn number(space: u8, page: u8) -> usize {
    PAGES * space as usize + page as usize
}

fn parent<T: Tables>(b: &T, page: usize) -> Option<usize> {
    match b.slot(page).link {
        Link::Page(space, page) => Some(number(space, page)),
        _ => None,
    }
}

/// The line of a page of a sound board: itself, its parent, and so on.
fn line<T: Tables>(b: &T, page: usize) -> impl Iterator<Item = usize> + '_ {
    std::iter::successors(Some(page), move |&at| parent(b, at))
}

fn below<T: Tables>(b: &T, page: usize, top: usize) -> bool {
    page != top && line(b, page).any(|at| at == top)
}

/// The frame at the end of a held page's line.
fn end<T: Tables>(b: &T, page: usize) -> Option<u8> {
    match b.slot(line(b, page).last()?).link {
        Link::Frame(frame) => Some(frame),
        _ => None,
    }
}

// ---- soundness

/// What the page itself shows: the bullets of document 01 on links and rights.
fn slot_fits<T: Tables>(b: &T, page: usize) -> bool {
    let slot = b.slot(page);
    let space = page / PAGES;
    match slot.link {
        _ if space == 0 => slot == Slot { link: Link::Frame(page as u8), rights: ALL },
        Link::Nothing => slot.rights == 0,
        Link::Frame(_) => false,
        Link::Page(from, at) => {
            if from as usize >= SPACES || at as usize >= PAGES || !b.live(space) || !b.live(from as usize) {
                return false;
            }
            let lender = b.slot(number(from, at));
            lender.held() && (1..=ALL).contains(&slot.rights) && slot.rights & !lender.rights == 0
        }
    }
}

/// The frame of a held page whose line reaches space 0 and meets no space twice, with every page itself known to fit.
fn fitting_end<T: Tables>(b: &T, page: usize) -> Option<usize> {
    let mut met = [false; SPACES];
    let mut at = page;
    loop {
        let space = at / PAGES;
        if met[space] {
            return None;
        }
        met[space] = true;
        match parent(b, at) {
            Some(up) => at = up,
            None => return (space == 0).then_some(at),
        }
    }
}

/// Counts a page that is known to fit itself, where it is held; whether its line fits.
fn count_page<T: Tables>(b: &T, page: usize, summary: &mut Summary) -> bool {
    let slot = b.slot(page);
    if !slot.held() {
        return true;
    }
    let Some(frame) = fitting_end(b, page) else { return false };
    if page >= PAGES {
        summary[frame] = summary[frame].plus(Counts::of_page(slot.rights));
    }
    true
}

fn place_fits<T: Tables>(b: &T, at: usize) -> bool {
    let place = b.place(at);
    if !place.filled() {
        return true;
    }
    if place.space as usize >= SPACES || place.page as usize >= PAGES {
        return false;
    }
    let page = number(place.space, place.page);
    let slot = b.slot(page);
    slot.held()
        && slot.rights == place.rights
        && end(b, page) == Some(place.frame)
        && (0..at).map(|i| b.place(i)).all(|p| !p.filled() || (p.space, p.page) != (place.space, place.page))
}

/// Whether pages and lines fit; every line is followed to the top, and its page counted at its frame.
fn pages_fit<T: Tables>(b: &T, summary: &mut Summary) -> bool {
    b.live(0) && b.live(1) && (0..SLOTS).all(|page| slot_fits(b, page)) && (0..SLOTS).all(|page| count_page(b, page, summary))
}

fn cache_fits<T: Tables>(b: &T) -> bool {
    (0..PLACES).all(|at| place_fits(b, at)) && b.next() < PLACES
}

/// Whether the board is sound.
pub fn sound<T: Tables>(b: &T) -> bool {
    let mut summary = [Counts::default(); PAGES];
    pages_fit(b, &mut summary) && (0..PAGES).all(|frame| b.counts(frame) == summary[frame]) && cache_fits(b)
}

/// Whether the board is sound once it has the summary of its pages, which is put in.
pub fn sound_with_summary<T: Tables>(b: &mut T) -> bool {
    let mut summary = [Counts::default(); PAGES];
    let fits = pages_fit(b, &mut summary) && cache_fits(b);
    (0..PAGES).for_each(|frame| b.set_counts(frame, summary[frame]));
    fits
}

// ---- checks

pub fn check_sound<T: Tables>(b: &T) -> Result<(), Refusal> {
    refuse_if(!sound(b), Refusal::Unsound)
}

pub fn check_spaces<T: Tables>(b: &T, spaces: &[u32]) -> Result<(), Refusal> {
    refuse_if(spaces.iter().any(|&s| s as usize >= SPACES), Refusal::Space)?;
    refuse_if(spaces.iter().any(|&s| !b.live(s as usize)), Refusal::NotLive)
}

fn check_pages(pages: &[u32]) -> Result<(), Refusal> {
    refuse_if(pages.iter().any(|&p| p as usize >= PAGES), Refusal::Page)
}

pub fn check_rights(rights: u32) -> Result<(), Refusal> {
    refuse_if(rights == 0 || rights > ALL as u32, Refusal::Rights)
}

// ---- the cache

fn find<T: Tables>(b: &T, page: usize) -> Option<Place> {
    (0..PLACES).map(|at| b.place(at)).find(|p| p.filled() && number(p.space, p.page) == page)
}

fn drop_entry<T: Tables>(b: &mut T, page: usize) {
    for at in 0..PLACES {
        let place = b.place(at);
        if place.filled() && number(place.space, place.page) == page {
            b.set_place(at, Place::default());
        }
    }
}

fn insert<T: Tables>(b: &mut T, place: Place) {
    match (0..PLACES).find(|&at| !b.place(at).filled()) {
        Some(at) => b.set_place(at, place),
        None => {
            let at = b.next();
            b.set_place(at, place);
            b.set_next((at + 1) % PLACES);
        }
    }
}

// ---- withdrawal

/// Counts a page at its frame with other rights than before.
fn recount<T: Tables>(b: &mut T, frame: u8, before: u8, after: u8) {
    let frame = frame as usize;
    b.set_counts(frame, b.counts(frame).minus(Counts::of_page(before)).plus(Counts::of_page(after)));
}

/// Takes rights from every page that `touched` gives the frame of, on the board as it is; says how many became empty.
fn withdraw<T: Tables>(b: &mut T, rights: u8, touched: impl Fn(&T, usize) -> Option<u8>) -> u32 {
    let mut marked = [false; SLOTS];
    for (page, mark) in marked.iter_mut().enumerate() {
        if let Some(frame) = touched(b, page) {
            *mark = true;
            let before = b.slot(page).rights;
            recount(b, frame, before, before & !rights);
        }
    }
    let mut emptied = 0;
    for page in (0..SLOTS).filter(|&page| marked[page]) {
        let slot = b.slot(page);
        if slot.rights & rights == 0 {
            continue;
        }
        let left = slot.rights & !rights;
        b.set_slot(page, if left == 0 { Slot::EMPTY } else { Slot { rights: left, ..slot } });
        drop_entry(b, page);
        emptied += u32::from(left == 0);
    }
    emptied
}

/// The pages below a page end where it does; an empty page has none below it, and no rights to count.
fn unmap_page<T: Tables>(b: &mut T, page: usize, rights: u8) -> u32 {
    let frame = end(b, page).unwrap_or(0);
    withdraw(b, rights, |b, at| below(b, at, page).then_some(frame))
}

fn flush_page<T: Tables>(b: &mut T, page: usize, rights: u8) -> u32 {
    let frame = end(b, page).unwrap_or(0);
    withdraw(b, rights, |b, at| (at == page || below(b, at, page)).then_some(frame))
}

// ---- the calls

/// The board at boot, over whatever was there.
pub fn start<T: Tables>(b: &mut T) {
    for page in 0..SLOTS {
        b.set_slot(page, if page < PAGES { Slot { link: Link::Frame(page as u8), rights: ALL } } else { Slot::EMPTY });
    }
    for space in 0..SPACES {
        b.set_live(space, space < 2);
    }
    for at in 0..PLACES {
        b.set_place(at, Place::default());
    }
    b.set_next(0);
    for frame in 0..PAGES {
        b.set_counts(frame, Counts::default());
    }
}

pub fn create<T: Tables>(b: &mut T, space: u32) -> Result<u32, Refusal> {
    check_sound(b)?;
    refuse_if(space as usize >= SPACES, Refusal::Space)?;
    refuse_if(b.live(space as usize), Refusal::Live)?;
    b.set_live(space as usize, true);
    Ok(0)
}

pub fn delete<T: Tables>(b: &mut T, space: u32) -> Result<u32, Refusal> {
    check_sound(b)?;
    check_spaces(b, &[space])?;
    refuse_if(space < 2, Refusal::Pool)?;
    let emptied = withdraw(b, ALL, |b, page| end(b, line(b, page).find(|&at| at / PAGES == space as usize)?));
    b.set_live(space as usize, false);
    Ok(emptied)
}

pub fn unmap<T: Tables>(b: &mut T, space: u32, page: u32, rights: u32) -> Result<u32, Refusal> {
    check_sound(b)?;
    unmap_sound(b, space, page, rights)
}

/// The same on a board that is known to be sound.
pub fn unmap_sound<T: Tables>(b: &mut T, space: u32, page: u32, rights: u32) -> Result<u32, Refusal> {
    check_spaces(b, &[space])?;
    check_pages(&[page])?;
    check_rights(rights)?;
    Ok(unmap_page(b, number(space as u8, page as u8), rights as u8))
}

pub fn flush<T: Tables>(b: &mut T, space: u32, page: u32, rights: u32) -> Result<u32, Refusal> {
    check_sound(b)?;
    flush_sound(b, space, page, rights)
}

/// The same on a board that is known to be sound.
pub fn flush_sound<T: Tables>(b: &mut T, space: u32, page: u32, rights: u32) -> Result<u32, Refusal> {
    check_spaces(b, &[space])?;
    check_pages(&[page])?;
    check_rights(rights)?;
    refuse_if(space == 0, Refusal::Pool)?;
    Ok(flush_page(b, number(space as u8, page as u8), rights as u8))
}

/// Numbers 11 and 12: what the giver's page has.
fn check_held(slot: Slot, rights: u32) -> Result<(), Refusal> {
    refuse_if(!slot.held(), Refusal::Empty)?;
    refuse_if(rights as u8 & !slot.rights != 0, Refusal::NotHeld)
}

/// Numbers 13 to 15: where the lines of giver, source and taker meet.
fn check_lines<T: Tables>(b: &T, giver: usize, source: usize, taker: usize) -> Result<(), Refusal> {
    let of = |space: usize| PAGES * space..PAGES * (space + 1);
    let (source_space, taker_space) = (source / PAGES, taker / PAGES);
    refuse_if(line(b, giver).any(|at| at / PAGES == taker_space), Refusal::Ring)?;
    refuse_if(of(source_space).any(|page| below(b, page, taker)), Refusal::SourceBelow)?;
    refuse_if(of(taker_space).any(|page| page != taker && below(b, page, source)), Refusal::TakerBelow)
}

/// Flushes the taker's page of all rights and links it to the source; says how many pages were emptied, the taker's not among them.
fn relink<T: Tables>(b: &mut T, source: usize, taker: usize, rights: u32) -> u32 {
    let was_held = b.slot(taker).held();
    let emptied = flush_page(b, taker, ALL) - u32::from(was_held);
    let link = Link::Page((source / PAGES) as u8, (source % PAGES) as u8);
    b.set_slot(taker, Slot { link, rights: rights as u8 });
    recount(b, end(b, source).unwrap_or(0), 0, rights as u8);
    emptied
}

pub fn map<T: Tables>(b: &mut T, from: u32, page: u32, to: u32, at: u32, rights: u32) -> Result<u32, Refusal> {
    check_sound(b)?;
    map_sound(b, from, page, to, at, rights)
}

/// The same on a board that is known to be sound.
pub fn map_sound<T: Tables>(b: &mut T, from: u32, page: u32, to: u32, at: u32, rights: u32) -> Result<u32, Refusal> {
    check_spaces(b, &[from, to])?;
    check_pages(&[page, at])?;
    check_rights(rights)?;
    refuse_if(to == 0, Refusal::Pool)?;
    let (giver, taker) = (number(from as u8, page as u8), number(to as u8, at as u8));
    check_held(b.slot(giver), rights)?;
    check_lines(b, giver, giver, taker)?;
    Ok(relink(b, giver, taker, rights))
}

pub fn grant<T: Tables>(b: &mut T, from: u32, page: u32, to: u32, at: u32, rights: u32) -> Result<u32, Refusal> {
    check_sound(b)?;
    grant_sound(b, from, page, to, at, rights)
}

/// The same on a board that is known to be sound.
pub fn grant_sound<T: Tables>(b: &mut T, from: u32, page: u32, to: u32, at: u32, rights: u32) -> Result<u32, Refusal> {
    check_spaces(b, &[from, to])?;
    check_pages(&[page, at])?;
    check_rights(rights)?;
    refuse_if(to == 0 || from == 0, Refusal::Pool)?;
    let (giver, taker) = (number(from as u8, page as u8), number(to as u8, at as u8));
    check_held(b.slot(giver), rights)?;
    let source = parent(b, giver).ok_or(Refusal::Empty)?;
    check_lines(b, giver, source, taker)?;
    let emptied = relink(b, source, taker, rights);
    Ok(emptied + flush_page(b, giver, ALL))
}

/// Translates a page that is known to be held, and moves the cache: a load or a store that hits does not follow the page's line.
fn look_up<T: Tables>(b: &mut T, page: usize) -> (u8, bool) {
    if let Some(place) = find(b, page) {
        return (place.frame, true);
    }
    let frame = end(b, page).unwrap_or(0);
    enter(b, page, frame);
    (frame, false)
}

/// Puts the entry of a page into the cache.
fn enter<T: Tables>(b: &mut T, page: usize, frame: u8) {
    insert(b, Place { space: (page / PAGES) as u8, page: (page % PAGES) as u8, frame, rights: b.slot(page).rights });
}

/// A translation tells how many links lead to the frame, so it follows the line whether it hits or not.
fn look_far<T: Tables>(b: &mut T, page: usize) -> (u8, bool, u32) {
    let (links, last) = line(b, page).fold((0, page), |(links, _), at| (links + 1, at));
    let Link::Frame(frame) = b.slot(last).link else { return (0, false, links) };
    let hit = find(b, page).is_some();
    if !hit {
        enter(b, page, frame);
    }
    (frame, hit, links)
}

/// The counts of a frame.
pub fn frame<T: Tables>(b: &T, frame: u32) -> Result<Counts, Refusal> {
    check_sound(b)?;
    check_pages(&[frame])?;
    Ok(b.counts(frame as usize))
}

/// The numbers of an access, and then its page.
fn reachable<T: Tables>(b: &mut T, space: u32, address: u32, rights: u32) -> Result<usize, Refusal> {
    check_sound(b)?;
    check_spaces(b, &[space])?;
    refuse_if(address as usize >= MEMORY, Refusal::Page)?;
    check_rights(rights)?;
    let page = number(space as u8, (address / PAGE_BYTES) as u8);
    check_held(b.slot(page), rights)?;
    Ok(page)
}

/// The byte of a frame that is as far in as the address is in its page.
fn physical(frame: u8, address: u32) -> u32 {
    PAGE_BYTES * u32::from(frame) + address % PAGE_BYTES
}

pub fn translate<T: Tables>(b: &mut T, space: u32, address: u32, rights: u32) -> Result<Translation, Refusal> {
    let page = reachable(b, space, address, rights)?;
    let (frame, hit, links) = look_far(b, page);
    Ok(Translation { address: physical(frame, address), hit, links })
}

/// Number 2, in its place between 1 and 3, and then the byte that a load or a store comes to.
fn reach<T: Tables>(b: &mut T, length: usize, space: u32, address: u32, right: u32) -> Result<usize, Refusal> {
    if length != MEMORY {
        check_sound(b)?;
        return Err(Refusal::Memory);
    }
    let page = reachable(b, space, address, right)?;
    let (frame, _) = look_up(b, page);
    Ok(physical(frame, address) as usize)
}

pub fn load<T: Tables>(b: &mut T, memory: &[u8], space: u32, address: u32) -> Result<u8, Refusal> {
    Ok(memory[reach(b, memory.len(), space, address, 4)?])
}

pub fn store<T: Tables>(b: &mut T, memory: &mut [u8], space: u32, address: u32, value: u8) -> Result<(), Refusal> {
    memory[reach(b, memory.len(), space, address, 2)?] = value;
    Ok(())
}
