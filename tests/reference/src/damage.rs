//! Damaged images: bytes that are no board's image, and boards that are not sound. The model says which of them are harmless.

use crate::board::{spot, Board, Link, Place, Slot, Spot};
use crate::calls::ALL_RIGHTS;
use crate::image;
use crate::random::Random;
use crate::sizes::Sizes;

/// A way to damage an image.
#[derive(Clone, Copy, Debug, PartialEq, Eq)]
pub enum Damage {
    /// One byte of the image: every byte and every telling value in turn (`Sweep`).
    Field,
    ManyFields,
    AnyBytes,
    SwappedRecords,
    UnusedByte,
    Length,
    PoolPage,
    PoolNotLive,
    FrameOutsidePool,
    LinkWithoutRights,
    RightsWithoutLink,
    RightsBeyondParent,
    EmptyParent,
    NotLive,
    Ring,
    SpaceTwice,
    StaleRights,
    StaleFrame,
    CachedEmptyPage,
    CachedTwice,
    HalfEmptyPlace,
    NextPlace,
    /// One count is one too high or too low.
    CountOff,
    /// A right's count is off, and the number of pages held is right.
    RightOff,
    /// Two frames have each other's counts, one of the four or all: every total is right.
    CountsSwapped,
    /// One frame has a page too many and another one too few: every total is right.
    CountsMoved,
    /// A frame that only space 0 uses is counted as used.
    UnusedFrameCounted,
    /// Space 0 is counted with the rest.
    PoolCounted,
    HighByte,
    /// The two bytes of each count are exchanged.
    BytesExchanged,
    /// The counts of two rights are exchanged.
    RightsExchanged,
    NothingCounted,
    /// The summary is that of the board before a page was taken, or before a right was.
    SummaryOfBefore,
}

impl Damage {
    pub const ALL: [Damage; 33] = [
        Damage::Field,
        Damage::ManyFields,
        Damage::AnyBytes,
        Damage::SwappedRecords,
        Damage::UnusedByte,
        Damage::Length,
        Damage::PoolPage,
        Damage::PoolNotLive,
        Damage::FrameOutsidePool,
        Damage::LinkWithoutRights,
        Damage::RightsWithoutLink,
        Damage::RightsBeyondParent,
        Damage::EmptyParent,
        Damage::NotLive,
        Damage::Ring,
        Damage::SpaceTwice,
        Damage::StaleRights,
        Damage::StaleFrame,
        Damage::CachedEmptyPage,
        Damage::CachedTwice,
        Damage::HalfEmptyPlace,
        Damage::NextPlace,
        Damage::CountOff,
        Damage::RightOff,
        Damage::CountsSwapped,
        Damage::CountsMoved,
        Damage::UnusedFrameCounted,
        Damage::PoolCounted,
        Damage::HighByte,
        Damage::BytesExchanged,
        Damage::RightsExchanged,
        Damage::NothingCounted,
        Damage::SummaryOfBefore,
    ];

    /// Those that leave nothing wrong but the summary.
    pub const OF_SUMMARY: [Damage; 11] = [
        Damage::CountOff,
        Damage::RightOff,
        Damage::CountsSwapped,
        Damage::CountsMoved,
        Damage::UnusedFrameCounted,
        Damage::PoolCounted,
        Damage::HighByte,
        Damage::BytesExchanged,
        Damage::RightsExchanged,
        Damage::NothingCounted,
        Damage::SummaryOfBefore,
    ];

    fn is_of_summary(self) -> bool {
        Damage::OF_SUMMARY.contains(&self)
    }
}

/// Goes through every byte of the image with each of a list of values, over and over.
#[derive(Clone, Debug)]
pub struct Sweep {
    /// The kinds of a slot and what is past them, the ends of the model's limits, and the ends of a byte.
    values: Vec<u8>,
    /// Every byte with every value.
    round: usize,
    turn: usize,
}

impl Sweep {
    /// How far one turn goes, so that a part of a round is spread over the whole image. A prime that divides no model's round.
    const STRIDE: usize = 7919;

    pub fn new(sizes: Sizes) -> Sweep {
        let rights = ALL_RIGHTS as usize;
        let (spaces, pages) = (sizes.spaces, sizes.pages);
        let mut values: Vec<u8> =
            [0, 1, 2, 3, rights, rights + 1, spaces - 1, spaces, 2 * spaces, pages - 1, pages, 2 * pages, 128, 255]
                .map(|value| value as u8)
                .to_vec();
        values.sort();
        values.dedup();
        let round = values.len() * sizes.image();
        Sweep { values, round, turn: 0 }
    }

    /// How many times every byte has had every value, in hundredths.
    pub fn hundredths(&self) -> usize {
        100 * self.turn / self.round
    }

    fn change(&mut self, bytes: &mut [u8]) {
        let step = self.turn * Sweep::STRIDE % self.round;
        bytes[step / self.values.len()] = self.values[step % self.values.len()];
        self.turn += 1;
    }
}

/// The image of a sound board, damaged. Where that was done to the tables alone, the summary is mostly counted anew: what is wrong
/// with them has to be seen without it.
pub fn damaged(random: &mut Random, board: &Board, damage: Damage, sweep: &mut Sweep) -> Vec<u8> {
    let bytes = changed(random, board, damage, sweep);
    match image::decode(board.sizes, &bytes) {
        Some(mut after) if after.summary == board.summary && !damage.is_of_summary() && random.chance(80) => {
            after.recount();
            image::encode(&after)
        }
        _ => bytes,
    }
}

fn changed(random: &mut Random, board: &Board, damage: Damage, sweep: &mut Sweep) -> Vec<u8> {
    match damage {
        Damage::Field => damaged_bytes(board, |bytes| sweep.change(bytes)),
        Damage::ManyFields => damaged_bytes(board, |bytes| many_fields(random, board.sizes, bytes)),
        Damage::AnyBytes => (0..board.sizes.image()).map(|_| random.byte()).collect(),
        Damage::SwappedRecords => damaged_bytes(board, |bytes| swap_records(random, board, bytes)),
        Damage::UnusedByte => damaged_bytes(board, |bytes| unused_byte(random, board, bytes)),
        Damage::Length => damaged_bytes(board, |bytes| length(random, board.sizes, bytes)),
        Damage::PoolPage => damaged_board(board, |board| pool_page(random, board)),
        Damage::PoolNotLive => damaged_board(board, |board| board.live[random.below(2)] = false),
        Damage::FrameOutsidePool => damaged_board(board, |board| frame_outside_pool(random, board)),
        Damage::LinkWithoutRights => damaged_board(board, |board| link_without_rights(random, board)),
        Damage::RightsWithoutLink => damaged_board(board, |board| rights_without_link(random, board)),
        Damage::RightsBeyondParent => damaged_board(board, |board| rights_beyond_parent(random, board)),
        Damage::EmptyParent => damaged_board(board, |board| empty_parent(random, board)),
        Damage::NotLive => damaged_board(board, |board| not_live(random, board)),
        Damage::Ring => damaged_board(board, |board| ring(random, board)),
        Damage::SpaceTwice => damaged_board(board, |board| space_twice(random, board)),
        Damage::StaleRights => damaged_board(board, |board| stale_rights(random, board)),
        Damage::StaleFrame => damaged_board(board, |board| stale_frame(random, board)),
        Damage::CachedEmptyPage => damaged_board(board, |board| cached_empty_page(random, board)),
        Damage::CachedTwice => damaged_board(board, |board| cached_twice(random, board)),
        Damage::HalfEmptyPlace => damaged_board(board, |board| half_empty_place(random, board)),
        Damage::NextPlace => damaged_board(board, |board| next_place(random, board)),
        _ => damaged_board(board, |board| wrong_summary(random, board, damage)),
    }
}

fn damaged_bytes(board: &Board, change: impl FnOnce(&mut Vec<u8>)) -> Vec<u8> {
    let mut bytes = image::encode(board);
    change(&mut bytes);
    bytes
}

fn damaged_board(board: &Board, change: impl FnOnce(&mut Board)) -> Vec<u8> {
    let mut board = board.clone();
    change(&mut board);
    image::encode(&board)
}

// ---- bytes -------------------------------------------------------------------------------------------------------------------

/// Bytes of the tables, or of the whole image.
fn many_fields(random: &mut Random, sizes: Sizes, bytes: &mut [u8]) {
    let length = random.pick(&[sizes.tables(), sizes.image()]);
    for _ in 0..random.between(2, 20) {
        let at = random.below(length);
        bytes[at] = if random.chance(50) { random.byte() } else { random.byte() % 8 };
    }
}

/// Two slots or two cache places change places.
fn swap_records(random: &mut Random, board: &Board, bytes: &mut [u8]) {
    let wide: Vec<_> = image::records(board.sizes).into_iter().filter(|record| record.len() == 4).collect();
    let first = wide[random.below(wide.len())].start;
    let second = wide[random.below(wide.len())].start;
    for offset in 0..4 {
        bytes.swap(first + offset, second + offset);
    }
}

/// A number of an empty page, the second number of a frame, a kind above 2 or a live byte above 1.
fn unused_byte(random: &mut Random, board: &Board, bytes: &mut [u8]) {
    let slots = board.slots.len();
    let value = random.between(3, 255) as u8;
    match random.below(4) {
        0 => bytes[4 * slots + random.below(board.sizes.spaces)] = value,
        1 => bytes[4 * random.below(slots)] = value,
        2 => bytes[4 * random.below(board.sizes.pages) + 2] = value,
        _ => {
            let empty: Vec<usize> = (0..slots).filter(|&slot| !board.slots[slot].held()).collect();
            let slot = random.pick_any(&empty).unwrap_or(0);
            bytes[4 * slot + random.between(1, 2)] = value;
        }
    }
}

/// Any length but the right one, that of the other model too.
fn length(random: &mut Random, sizes: Sizes, bytes: &mut Vec<u8>) {
    let right = bytes.len();
    let any = random.below(3 * right);
    let other = sizes.other().image();
    let length = random.pick(&[0, 1, 4, right - 1, right + 1, right - 4, right + 4, right & !1023, 2 * right, other, any]);
    let fill = random.pick(&[0, 1, 255]);
    bytes.resize(length, fill);
}

// ---- slots -------------------------------------------------------------------------------------------------------------------

/// A held page outside space 0; if there is none, one is made.
fn lent_page(random: &mut Random, board: &mut Board) -> Spot {
    let lent: Vec<Spot> = board.lent_pages().collect();
    random.pick_any(&lent).unwrap_or_else(|| {
        let page = spot(1, random.below(board.sizes.pages));
        board.set_slot(page, Slot { link: Link::Page(spot(0, 0)), rights: ALL_RIGHTS });
        page
    })
}

/// A page of a live space other than 0, held or not.
fn live_page(random: &mut Random, board: &Board) -> Spot {
    let spaces: Vec<usize> = (1..board.sizes.spaces).filter(|&space| board.live[space]).collect();
    spot(random.pick(&spaces), random.below(board.sizes.pages))
}

fn some_rights(random: &mut Random) -> u8 {
    random.between(1, ALL_RIGHTS as usize) as u8
}

/// A page of space 0 that does not hold its frame with all rights.
fn pool_page(random: &mut Random, board: &mut Board) {
    let page = spot(0, random.below(board.sizes.pages));
    let other = (page.page + random.between(1, board.sizes.pages - 1)) % board.sizes.pages;
    let lent = lent_page(random, board);
    let slot = match random.below(5) {
        0 => Slot { link: Link::Frame(other), rights: ALL_RIGHTS },
        1 => Slot { link: Link::Frame(page.page), rights: random.byte() & 6 },
        2 => Slot { link: Link::Page(lent), rights: ALL_RIGHTS },
        3 => Slot { link: Link::Page(spot(0, other)), rights: ALL_RIGHTS },
        _ => Slot::EMPTY,
    };
    board.set_slot(page, slot);
}

fn frame_outside_pool(random: &mut Random, board: &mut Board) {
    let page = live_page(random, board);
    let frame = random.pick(&[page.page, 0, board.sizes.pages - 1, board.sizes.pages, 255]);
    board.set_slot(page, Slot { link: Link::Frame(frame), rights: ALL_RIGHTS });
}

fn link_without_rights(random: &mut Random, board: &mut Board) {
    let page = lent_page(random, board);
    let slot = board.slot(page);
    board.set_slot(page, Slot { rights: 0, ..slot });
}

fn rights_without_link(random: &mut Random, board: &mut Board) {
    let empty: Vec<Spot> = board.spots().filter(|&page| !board.held(page)).collect();
    let page = random.pick_any(&empty).unwrap_or(spot(1, 0));
    let rights = some_rights(random);
    board.set_slot(page, Slot { link: Link::Nothing, rights });
}

/// A page with a right that its parent has not: its own rights are raised, or its parent's lowered.
fn rights_beyond_parent(random: &mut Random, board: &mut Board) {
    let page = lent_page(random, board);
    let slot = board.slot(page);
    let parent = board.parent(page).expect("the board is sound");
    let lacking = ALL_RIGHTS & !board.slot(parent).rights;
    if lacking != 0 && random.chance(60) {
        board.set_slot(page, Slot { rights: slot.rights | lacking, ..slot });
    } else if parent.space != 0 && random.chance(70) {
        let rights = board.slot(parent).rights & !slot.rights;
        let link = board.slot(parent).link;
        board.set_slot(parent, Slot { link, rights: rights.max(1) });
    } else {
        let rights = random.pick(&[8, 15, 16, 128, 255]) | slot.rights;
        board.set_slot(page, Slot { rights, ..slot });
    }
}

/// A page whose parent is empty.
fn empty_parent(random: &mut Random, board: &mut Board) {
    let page = lent_page(random, board);
    let parent = board.parent(page).expect("the board is sound");
    let empty: Vec<Spot> = board.spots().filter(|&page| !board.held(page)).collect();
    match random.pick_any(&empty) {
        Some(other) if parent.space == 0 || random.chance(50) => {
            let rights = board.slot(page).rights;
            board.set_slot(page, Slot { link: Link::Page(other), rights });
        }
        _ => board.set_slot(parent, Slot::EMPTY),
    }
}

/// A space with held pages that is not live.
fn not_live(random: &mut Random, board: &mut Board) {
    let page = lent_page(random, board);
    let other = board.parent(page).expect("the board is sound");
    board.live[random.pick(&[page, other]).space] = false;
}

/// A ring of links, of one page or more, also longer than a sound line; all its pages with all rights.
fn ring(random: &mut Random, board: &mut Board) {
    let mut pages: Vec<Spot> = Vec::new();
    for _ in 0..random.between(1, 2 * board.sizes.spaces) {
        let page = live_page(random, board);
        if !pages.contains(&page) {
            pages.push(page);
        }
    }
    for i in 0..pages.len() {
        let link = Link::Page(pages[(i + 1) % pages.len()]);
        board.set_slot(pages[i], Slot { link, rights: ALL_RIGHTS });
    }
}

/// A page linked to one whose line meets its space already.
fn space_twice(random: &mut Random, board: &mut Board) {
    let parent = lent_page(random, board);
    let line: Vec<Spot> = board.line(parent).filter(|page| page.space != 0).collect();
    let page = spot(random.pick(&line).space, random.below(board.sizes.pages));
    let rights = board.slot(parent).rights;
    board.set_slot(page, Slot { link: Link::Page(parent), rights });
}

// ---- the cache ---------------------------------------------------------------------------------------------------------------

/// The true entry of a page.
fn entry(board: &Board, page: Spot) -> Place {
    let frame = board.frame(page).expect("the page is held and the board sound");
    Place { space: page.space, page: page.page, frame, rights: board.slot(page).rights }
}

/// Puts a changed entry of a held page into a random place, and no other of that page.
fn cache_changed(random: &mut Random, board: &mut Board, change: impl FnOnce(&mut Random, &mut Place)) {
    let page = if random.chance(30) { spot(0, random.below(board.sizes.pages)) } else { lent_page(random, board) };
    let mut place = entry(board, page);
    board.cache.drop_entry(page);
    change(random, &mut place);
    board.cache.places[random.below(board.sizes.places)] = place;
}

fn stale_rights(random: &mut Random, board: &mut Board) {
    cache_changed(random, board, |random, place| {
        let all = random.pick(&[ALL_RIGHTS, 15]);
        place.rights = (place.rights ^ some_rights(random)) | if all == 15 { 8 } else { 0 };
    });
}

fn stale_frame(random: &mut Random, board: &mut Board) {
    let pages = board.sizes.pages;
    cache_changed(random, board, |random, place| {
        place.frame = random.pick(&[(place.frame + 1) % pages, place.frame + pages, 255, place.page, 0]);
    });
}

fn cached_empty_page(random: &mut Random, board: &mut Board) {
    let empty: Vec<Spot> = board.spots().filter(|&page| !board.held(page)).collect();
    let page = random.pick_any(&empty).unwrap_or(spot(board.sizes.spaces, 0));
    let place = Place { space: page.space, page: page.page, frame: page.page, rights: some_rights(random) };
    board.cache.places[random.below(board.sizes.places)] = place;
}

fn cached_twice(random: &mut Random, board: &mut Board) {
    let page = if random.chance(30) { spot(0, random.below(board.sizes.pages)) } else { lent_page(random, board) };
    let first = random.below(board.sizes.places);
    let second = (first + random.between(1, board.sizes.places - 1)) % board.sizes.places;
    board.cache.places[first] = entry(board, page);
    board.cache.places[second] = entry(board, page);
}

/// A place without rights that is not of the empty form.
fn half_empty_place(random: &mut Random, board: &mut Board) {
    let mut place = Place::default();
    match random.below(4) {
        0 => place.space = random.between(1, 255),
        1 => place.page = random.between(1, 255),
        2 => place.frame = random.between(1, 255),
        _ => place = Place { rights: 0, ..entry(board, spot(0, random.between(1, board.sizes.pages - 1))) },
    }
    board.cache.places[random.below(board.sizes.places)] = place;
}

fn next_place(random: &mut Random, board: &mut Board) {
    let places = board.sizes.places;
    board.cache.next = random.pick(&[places, places + 1, 2 * places, 127, 128, 255]);
}

// ---- the summary -------------------------------------------------------------------------------------------------------------

/// A sound board with a held page outside space 0 gets a wrong summary; a board with none gets such a page first.
fn wrong_summary(random: &mut Random, board: &mut Board, damage: Damage) {
    let page = lent_page(random, board);
    board.recount();
    let used = board.frame(page).expect("the board is sound");
    match damage {
        Damage::RightOff => one_off(random, board, &[1, 2, 3]),
        Damage::CountsSwapped => swap_counts(random, board, used),
        Damage::CountsMoved => move_count(random, board, used),
        Damage::UnusedFrameCounted => count_unused(random, board),
        Damage::PoolCounted => board.summary.iter_mut().flatten().for_each(|count| *count += 1),
        Damage::HighByte => board.summary[random.below(board.sizes.pages)][random.below(4)] ^= 256 << random.below(8),
        Damage::BytesExchanged => board.summary.iter_mut().flatten().for_each(|count| *count = count.swap_bytes()),
        Damage::RightsExchanged => exchange_rights(random, board),
        Damage::NothingCounted => board.summary.fill([0; 4]),
        Damage::SummaryOfBefore => take_uncounted(random, board, page),
        _ => one_off(random, board, &[0, 1, 2, 3]),
    }
}

/// One of these counts of a frame is one too high or too low.
fn one_off(random: &mut Random, board: &mut Board, fields: &[usize]) {
    let used: Vec<usize> = (0..board.sizes.pages).filter(|&frame| board.summary[frame][0] > 0).collect();
    let frame = if random.chance(50) { random.pick(&used) } else { random.below(board.sizes.pages) };
    let count = &mut board.summary[frame][random.pick(fields)];
    *count = if random.chance(50) { count.wrapping_add(1) } else { count.wrapping_sub(1) };
}

/// The used frame and another one have each other's counts: one of the four, if it tells them apart, or all; where nothing does,
/// one page is moved.
fn swap_counts(random: &mut Random, board: &mut Board, used: usize) {
    let unlike: Vec<usize> = (0..board.sizes.pages).filter(|&frame| board.summary[frame] != board.summary[used]).collect();
    let Some(other) = random.pick_any(&unlike) else {
        return move_count(random, board, used);
    };
    let telling = |field: &usize| board.summary[other][*field] != board.summary[used][*field];
    let fields: Vec<usize> = (0..4).filter(telling).collect();
    let one = random.pick(&fields);
    for field in if random.chance(50) { vec![one] } else { fields } {
        let count = board.summary[used][field];
        board.summary[used][field] = board.summary[other][field];
        board.summary[other][field] = count;
    }
}

/// One of the four counts, or each that can be, is one lower at the used frame and one higher at another.
fn move_count(random: &mut Random, board: &mut Board, used: usize) {
    let other = (used + random.between(1, board.sizes.pages - 1)) % board.sizes.pages;
    let fields: Vec<usize> = (0..4).filter(|&field| board.summary[used][field] > 0).collect();
    let one = random.pick(&fields);
    for field in if random.chance(50) { vec![one] } else { fields } {
        board.summary[used][field] -= 1;
        board.summary[other][field] += 1;
    }
}

/// A frame that only space 0 uses has its page counted, or a right of it; where there is none, any frame has one page more.
fn count_unused(random: &mut Random, board: &mut Board) {
    let unused: Vec<usize> = (0..board.sizes.pages).filter(|&frame| board.summary[frame][0] == 0).collect();
    let frame = random.pick_any(&unused).unwrap_or(random.below(board.sizes.pages));
    let more = random.pick(&[[1, 1, 1, 1], [1, 0, 0, 0], [0, 1, 0, 0], [0, 0, 1, 0], [0, 0, 0, 1]]);
    (0..4).for_each(|field| board.summary[frame][field] += more[field]);
}

/// Two rights that were not given equally often have each other's counts at every frame; where all were, one of them is off.
fn exchange_rights(random: &mut Random, board: &mut Board) {
    let pairs = [(1, 2), (1, 3), (2, 3)];
    let tells = |pair: &(usize, usize)| board.summary.iter().any(|counts| counts[pair.0] != counts[pair.1]);
    let telling: Vec<(usize, usize)> = pairs.into_iter().filter(tells).collect();
    match random.pick_any(&telling) {
        Some((first, second)) => board.summary.iter_mut().for_each(|counts| counts.swap(first, second)),
        None => one_off(random, board, &[1, 2, 3]),
    }
}

/// The page and all below it lose a right or all rights, and so do their cache entries; the counts stay.
fn take_uncounted(random: &mut Random, board: &mut Board, page: Spot) {
    let rights = board.slot(page).rights;
    let one = random.pick(&[1, 2, 4]) & rights;
    board.flush_step(page, if one == 0 { rights } else { one });
}

#[cfg(test)]
mod tests {
    use super::*;
    use crate::sessions::random_board;
    use crate::summary::Counts;

    fn sound(sizes: Sizes, bytes: &[u8]) -> bool {
        image::decode(sizes, bytes).is_some_and(|board| board.sound())
    }

    /// How many of so many random boards a damage leaves unsound.
    fn unsound(sizes: Sizes, damage: Damage, boards: usize) -> usize {
        let mut random = Random::new(21);
        let mut sweep = Sweep::new(sizes);
        (0..boards)
            .filter(|_| {
                let board = random_board(&mut random, sizes);
                !sound(sizes, &damaged(&mut random, &board, damage, &mut sweep))
            })
            .count()
    }

    #[test]
    fn every_damage_is_mostly_unsound() {
        for (sizes, boards) in [(Sizes::ENTRY, 300), (Sizes::PREMIUM, 50)] {
            for damage in Damage::ALL {
                let unsound = unsound(sizes, damage, boards);
                assert!(5 * unsound > 2 * boards, "{damage:?}: {unsound} of {boards}");
            }
        }
    }

    /// On random boards, on full ones where every frame has the same counts, and on the start board.
    #[test]
    fn every_damage_of_the_summary_leaves_nothing_else_wrong() {
        for (sizes, boards) in [(Sizes::ENTRY, 300), (Sizes::PREMIUM, 50)] {
            let mut random = Random::new(23);
            for damage in Damage::OF_SUMMARY.iter().cycle().take(boards * Damage::OF_SUMMARY.len()) {
                let board = match random.below(3) {
                    0 => Board::start(sizes),
                    1 => alike_board(sizes),
                    _ => random_board(&mut random, sizes),
                };
                let bytes = damaged(&mut random, &board, *damage, &mut Sweep::new(sizes));
                assert!(image::decode(sizes, &bytes).unwrap().only_the_summary_is_wrong(), "{damage:?}");
            }
        }
    }

    /// Every page outside space 0 is lent by the page of the pool with its number, with all rights.
    fn alike_board(sizes: Sizes) -> Board {
        let mut board = Board::start(sizes);
        board.live.fill(true);
        for page in board.clone().spots().filter(|page| page.space != 0) {
            board.set_slot(page, Slot { link: Link::Page(spot(0, page.page)), rights: ALL_RIGHTS });
        }
        board.recount();
        board
    }

    /// Those that are wrong in one total, and those that are not.
    #[test]
    fn swapped_and_moved_counts_have_the_right_totals() {
        let mut random = Random::new(24);
        for damage in [Damage::CountsSwapped, Damage::CountsMoved, Damage::CountOff, Damage::RightOff] {
            for _ in 0..100 {
                let board = random_board(&mut random, Sizes::ENTRY);
                let bytes = damaged(&mut random, &board, damage, &mut Sweep::new(Sizes::ENTRY));
                let wrong = image::decode(Sizes::ENTRY, &bytes).unwrap();
                let totals = [&wrong.summary, &wrong.counted()].map(|counts| totals(counts));
                let alike = [0, 1, 2, 3].map(|field| totals[0][field] == totals[1][field]);
                match damage {
                    Damage::CountOff => assert_ne!(alike, [true; 4]),
                    Damage::RightOff => assert!(alike[0] && alike != [true; 4]),
                    _ => assert_eq!(alike, [true; 4]),
                }
            }
        }
    }

    /// The four totals of a summary, as the bytes would add up.
    fn totals(summary: &[Counts]) -> [u16; 4] {
        [0, 1, 2, 3].map(|field| summary.iter().fold(0, |sum: u16, counts| sum.wrapping_add(counts[field])))
    }

    /// What is wrong with the tables has to be seen without the summary in most cases, and not in all.
    #[test]
    fn damaged_tables_have_their_own_summary_in_most_cases() {
        for damage in [Damage::Field, Damage::RightsBeyondParent, Damage::EmptyParent, Damage::Ring, Damage::SwappedRecords] {
            let mut random = Random::new(25);
            let mut sweep = Sweep::new(Sizes::ENTRY);
            let (mut agree, mut disagree) = (0, 0);
            for _ in 0..1000 {
                let board = random_board(&mut random, Sizes::ENTRY);
                let bytes = damaged(&mut random, &board, damage, &mut sweep);
                match image::decode(Sizes::ENTRY, &bytes) {
                    Some(board) if board.summary_agrees() && !board.sound() => agree += 1,
                    Some(board) if !board.sound() => disagree += 1,
                    _ => (),
                }
            }
            assert!(agree > 150 && disagree > 10, "{damage:?}: {agree} and {disagree}");
        }
    }

    #[test]
    fn damage_of_the_start_board_is_possible() {
        for sizes in Sizes::MODELS {
            let board = Board::start(sizes);
            let mut random = Random::new(22);
            for damage in Damage::ALL.iter().cycle().take(2000) {
                damaged(&mut random, &board, *damage, &mut Sweep::new(sizes));
            }
        }
    }

    #[test]
    fn the_telling_values_go_to_the_limits_of_the_model() {
        assert_eq!(Sweep::new(Sizes::ENTRY).values, [0, 1, 2, 3, 7, 8, 16, 31, 32, 64, 128, 255]);
        assert_eq!(Sweep::new(Sizes::PREMIUM).values, [0, 1, 2, 3, 7, 8, 15, 16, 32, 63, 64, 128, 255]);
    }

    #[test]
    fn a_round_of_the_sweep_gives_every_byte_every_value() {
        for sizes in Sizes::MODELS {
            let mut sweep = Sweep::new(sizes);
            let mut values = vec![Vec::new(); sizes.image()];
            while sweep.hundredths() < 100 {
                // 4 is no telling value, so the byte that is not 4 is the one that was changed
                let mut bytes = vec![4; sizes.image()];
                sweep.change(&mut bytes);
                let at = bytes.iter().position(|&byte| byte != 4).expect("one is changed");
                values[at].push(bytes[at]);
            }
            for mut seen in values {
                seen.sort();
                assert_eq!(seen, sweep.values);
            }
        }
    }
}
