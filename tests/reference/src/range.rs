//! The calls over ranges (01, "Ranges").

use crate::board::{refuse_if, Board};
use crate::calls::{Lending, Range, Refusal, Reply, Withdrawal};

/// The pages of a valid range.
#[derive(Clone, Copy, Debug, PartialEq, Eq)]
pub struct Pages {
    pub first: u32,
    pub count: u32,
}

/// What a range call answers. After a refusal of the first checks the other three are 0.
#[derive(Clone, Copy, Debug, Default, PartialEq, Eq)]
pub struct RangeReply {
    /// The number of the first refused page, or 0, or the refusal of the first checks.
    pub number: u32,
    /// How many pages were done.
    pub done: u32,
    /// The offset of the first refused page, or the number of pages in a space where there is none.
    pub first_refused: u32,
    /// Pages held before the whole call and empty after it.
    pub emptied: u32,
}

impl From<RangeReply> for Reply {
    fn from(reply: RangeReply) -> Reply {
        Reply::range(reply.number, reply.done, reply.first_refused, reply.emptied)
    }
}

impl From<Refusal> for RangeReply {
    fn from(refusal: Refusal) -> RangeReply {
        RangeReply { number: refusal.number(), ..RangeReply::default() }
    }
}

impl Board {
    /// The pages of a range, or number 7.
    pub fn range_pages(&self, range: Range) -> Result<Pages, Refusal> {
        let all = self.sizes.pages as u32;
        let largest = self.sizes.largest_part();
        match (range.base, range.size) {
            (0, 0) => Ok(Pages { first: 0, count: 0 }),
            (0, 1) => Ok(Pages { first: 0, count: all }),
            (base, size) if base < all && (10..=largest).contains(&size) => {
                let count = 1 << (size - 10);
                Ok(Pages { first: base / count * count, count })
            }
            _ => Err(Refusal::Range),
        }
    }

    pub fn unmap_range(&mut self, space: u32, range: Range, rights: u32) -> RangeReply {
        self.withdraw_range(space, range, rights, Board::unmap)
    }

    pub fn flush_range(&mut self, space: u32, range: Range, rights: u32) -> RangeReply {
        self.withdraw_range(space, range, rights, Board::flush)
    }

    pub fn map_range(&mut self, from: u32, given: Range, to: u32, taken: Range, rights: u32) -> RangeReply {
        self.lend_range(from, given, to, taken, rights, Board::map)
    }

    pub fn grant_range(&mut self, from: u32, given: Range, to: u32, taken: Range, rights: u32) -> RangeReply {
        self.lend_range(from, given, to, taken, rights, Board::grant)
    }

    fn withdraw_range(
        &mut self,
        space: u32,
        range: Range,
        rights: u32,
        call: fn(&mut Board, &Withdrawal) -> Result<u32, Refusal>,
    ) -> RangeReply {
        let pages = match self.check_range_call(&[space], rights, &[range]) {
            Ok(pages) => pages[0],
            Err(refusal) => return refusal.into(),
        };
        self.for_each_page(pages.count, |board, offset| call(board, &Withdrawal { space, page: pages.first + offset, rights }))
    }

    fn lend_range(
        &mut self,
        from: u32,
        given: Range,
        to: u32,
        taken: Range,
        rights: u32,
        call: fn(&mut Board, &Lending) -> Result<u32, Refusal>,
    ) -> RangeReply {
        let (given, taken) = match self.check_range_call(&[from, to], rights, &[given, taken]) {
            Ok(pages) => (pages[0], pages[1]),
            Err(refusal) => return refusal.into(),
        };
        self.for_each_page(given.count, |board, offset| {
            call(board, &Lending { from, page: given.first + offset, to, at: taken.first + offset, rights })
        })
    }

    /// The first checks: 1, 3, 4, 6, 7, 8.
    fn check_range_call(&self, spaces: &[u32], rights: u32, ranges: &[Range]) -> Result<Vec<Pages>, Refusal> {
        self.check_sound()?;
        self.check_spaces(spaces)?;
        self.check_rights(rights)?;
        let pages: Vec<Pages> = ranges.iter().map(|&range| self.range_pages(range)).collect::<Result<_, Refusal>>()?;
        let differ = pages.iter().any(|other| other.count != pages[0].count);
        refuse_if(differ, Refusal::RangesDiffer)?;
        Ok(pages)
    }

    /// The one-page calls from the lowest page up. A refused page is passed over.
    fn for_each_page(&mut self, count: u32, mut call: impl FnMut(&mut Board, u32) -> Result<u32, Refusal>) -> RangeReply {
        let mut first: Option<(u32, Refusal)> = None;
        let mut done = 0;
        let emptied = self.count_emptied(|board| {
            for offset in 0..count {
                match call(board, offset) {
                    Ok(_) => done += 1,
                    Err(refusal) => first = first.or(Some((offset, refusal))),
                }
            }
        });
        RangeReply {
            number: first.map_or(0, |(_, refusal)| refusal.number()),
            done,
            first_refused: first.map_or(self.sizes.pages as u32, |(offset, _)| offset),
            emptied,
        }
    }
}

#[cfg(test)]
mod tests {
    use super::*;
    use crate::board::{spot, tests::board_k};
    use crate::sizes::Sizes;

    const NIL: Range = Range { base: 0, size: 0 };
    const COMPLETE: Range = Range { base: 0, size: 1 };

    fn pages(sizes: Sizes, base: u32, size: u32) -> Option<(u32, u32)> {
        let found = board_k(sizes).range_pages(Range { base, size }).ok();
        found.map(|pages| (pages.first, pages.count))
    }

    fn reply(number: u32, done: u32, first_refused: u32, emptied: u32) -> RangeReply {
        RangeReply { number, done, first_refused, emptied }
    }

    #[test]
    fn the_ranges_of_01() {
        for (sizes, all, largest) in [(Sizes::ENTRY, 32, 15), (Sizes::PREMIUM, 64, 16)] {
            assert_eq!(pages(sizes, 3, 10), Some((3, 1)));
            assert_eq!(pages(sizes, 3, 11), Some((2, 2)));
            assert_eq!(pages(sizes, all - 1, largest), Some((0, all)));
            assert_eq!(pages(sizes, all - 1, largest - 1), Some((all / 2, all / 2)));
            assert_eq!(pages(sizes, all - 1, 10), Some((all - 1, 1)));
            assert_eq!(pages(sizes, 0, 0), Some((0, 0)));
            assert_eq!(pages(sizes, 0, 1), Some((0, all)));
            let past =
                [(0, 9), (0, largest + 1), (all, 10), (all, largest), (1, 0), (1, 1), (0, 2), (u32::MAX, 10), (0, u32::MAX)];
            for (base, size) in past {
                assert_eq!(pages(sizes, base, size), None, "{base} {size}");
            }
        }
    }

    #[test]
    fn the_largest_part_is_complete() {
        for sizes in Sizes::MODELS {
            let largest = Range { base: 0, size: sizes.largest_part() };
            let [mut part, mut complete] = [board_k(sizes), board_k(sizes)];
            let all = sizes.pages as u32;
            assert_eq!(part.map_range(0, largest, 4, COMPLETE, 3), reply(0, all, all, 0));
            assert_eq!(complete.map_range(0, COMPLETE, 4, largest, 3), reply(0, all, all, 0));
            assert_eq!(part, complete);
        }
    }

    #[test]
    fn a_nil_range_is_done_with_no_page() {
        for (sizes, none) in [(Sizes::ENTRY, 32), (Sizes::PREMIUM, 64)] {
            let mut board = board_k(sizes);
            assert_eq!(board.flush_range(0, NIL, 1), reply(0, 0, none, 0));
            assert_eq!(board.map_range(0, NIL, 0, NIL, 1), reply(0, 0, none, 0));
            assert_eq!(board.map_range(0, NIL, 0, COMPLETE, 1), reply(8, 0, 0, 0));
            assert_eq!(board, board_k(sizes));
        }
    }

    #[test]
    fn the_first_checks_go_before_the_pages() {
        for (sizes, spaces) in [(Sizes::ENTRY, 8), (Sizes::PREMIUM, 16)] {
            let mut board = board_k(sizes);
            let bad = Range { base: 0, size: 9 };
            assert_eq!(board.unmap_range(spaces, bad, 0), reply(3, 0, 0, 0));
            assert_eq!(board.unmap_range(spaces - 1, bad, 0), reply(4, 0, 0, 0));
            assert_eq!(board.unmap_range(1, bad, 0), reply(6, 0, 0, 0));
            assert_eq!(board.unmap_range(1, bad, 1), reply(7, 0, 0, 0));
            assert_eq!(board.flush_range(0, COMPLETE, 1), reply(9, 0, 0, 0));
            board.live[0] = false;
            assert_eq!(board.flush_range(0, NIL, 1), reply(1, 0, 0, 0));
        }
    }

    #[test]
    fn refused_pages_are_passed_over() {
        for (sizes, all, largest) in [(Sizes::ENTRY, 32, 15), (Sizes::PREMIUM, 64, 16)] {
            let mut board = board_k(sizes);
            let part = Range { base: 2, size: 12 };
            assert_eq!(board.map_range(2, COMPLETE, 4, Range { base: 0, size: largest }, 4), reply(11, 2, 0, 0));
            assert!(board.held(spot(4, 3)) && board.held(spot(4, 4)));
            assert_eq!(board.unmap_range(2, part, 7), reply(0, 4, all, 2), "(3,1) and (4,3)");
            assert_eq!(board.flush_range(2, COMPLETE, 7), reply(0, all, all, 3));
        }
    }

    #[test]
    fn a_grant_over_a_range_moves_every_page_it_can() {
        for (sizes, all) in [(Sizes::ENTRY, 32), (Sizes::PREMIUM, 64)] {
            let mut board = Board::start(sizes);
            board.create(2).unwrap();
            let low = Range { base: 0, size: 12 };
            let high = Range { base: all - 1, size: 12 };
            assert_eq!(board.map_range(0, low, 1, low, 7), reply(0, 4, all, 0));
            assert_eq!(board.grant_range(1, low, 2, high, 7), reply(0, 4, all, 4));
            assert_eq!(board.parent(spot(2, all as usize - 2)), Some(spot(0, 2)));
            assert_eq!(board.grant_range(1, low, 2, high, 7), reply(11, 0, 0, 0));
        }
    }
}
