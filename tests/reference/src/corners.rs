//! The corners of a model, which every run has to reach: the ends of each limit, on both sides, the largest ranges, and grants of
//! fewer rights than the giver holds; and of listings, the buffers and images that tell one answer from another.

use crate::board::{spot, Board};
use crate::calls::{Call, Lending, Refusal, Reply};
use crate::drive_library::World;
use crate::image;
use crate::listing;
use crate::sizes::{Sizes, PAGE_BYTES};

/// Something at a limit of the model. `Upper` is the upper half: of the premium model, what the entry model has not.
#[derive(Clone, Copy, Debug, PartialEq, Eq, PartialOrd, Ord)]
pub enum Corner {
    UpperSpace,
    LastSpace,
    PastLastSpace,
    UpperPage,
    LastPage,
    PastLastPage,
    UpperAddress,
    LastAddress,
    PastLastAddress,
    LargestPart,
    PastLargestPart,
    LastBase,
    PastLastBase,
    NoPageRefused,
    /// The first refused page is in the upper half of a space's pages.
    LateRefusal,
    UpperFrame,
    LastFrame,
    PastLastFrame,
    /// Nobody outside space 0 uses the frame that is asked for.
    UnusedFrame,
    /// A frame's four counts are four numbers.
    FourCounts,
    /// Half of all pages outside space 0 or more end at one frame: on the premium model the counts need their high byte.
    CrowdedFrame,
    /// A grant of fewer rights than the giver holds.
    GrantOfPart,
    /// Such a grant, with a page below the giver, other than the taker, that has a right which was not granted.
    GrantOfPartOver,
    /// Such a grant, with the taker below the giver before the call.
    GrantOfPartToBelow,
    /// A grant over a range, every page of which was done, of fewer rights than one of the givers holds.
    RangeGrantOfPart,
    /// A listing was written into a buffer of just its length; into a longer one.
    ExactBuffer,
    LongerBuffer,
    /// The buffer was one byte too short; it had no byte.
    OneByteShort,
    NoBuffer,
    /// An unsound board was written, and the buffer had no byte: 1 comes before 20.
    UnsoundNoBuffer,
    /// The image has another length, in writing; in reading, with a good listing, and with a malformed one.
    WriteWrongLength,
    ReadWrongLength,
    MalformedWrongLength,
    /// A good listing was read over bytes that are no board's, and over a board with a filled cache.
    ReadOverNoBoard,
    ReadOverCache,
    /// A listing was refused over a sound board other than the start board.
    RefusedOverBoard,
    /// A listing with every page was read, one with none, and one in which every space is live.
    FullListing,
    EmptyListing,
    EverySpaceLive,
}

impl Corner {
    /// The corners of calls for one page, which scripts have too.
    pub const OF_ONE_PAGE: [Corner; 9] = [
        Corner::UpperSpace,
        Corner::LastSpace,
        Corner::PastLastSpace,
        Corner::UpperPage,
        Corner::LastPage,
        Corner::PastLastPage,
        Corner::UpperAddress,
        Corner::LastAddress,
        Corner::PastLastAddress,
    ];

    /// The corners of calls over ranges.
    pub const OF_RANGES: [Corner; 6] = [
        Corner::LargestPart,
        Corner::PastLargestPart,
        Corner::LastBase,
        Corner::PastLastBase,
        Corner::NoPageRefused,
        Corner::LateRefusal,
    ];

    /// The corners of the calls that ask for a frame.
    pub const OF_FRAMES: [Corner; 6] = [
        Corner::UpperFrame,
        Corner::LastFrame,
        Corner::PastLastFrame,
        Corner::UnusedFrame,
        Corner::FourCounts,
        Corner::CrowdedFrame,
    ];

    /// The corners of grants of a part of the rights.
    pub const OF_GRANTS: [Corner; 3] = [Corner::GrantOfPart, Corner::GrantOfPartOver, Corner::GrantOfPartToBelow];

    /// The corners that an accepted call on this board has reached, where it is a grant of a part of the rights.
    pub fn of_grant(before: &Board, call: &Call) -> Vec<Corner> {
        match call {
            Call::Grant(asked) => Corner::of_one_grant(before, asked),
            Call::GrantRange(asked) => {
                let given = before.range_pages(asked.given).expect("the call was accepted");
                let mut givers = (given.first..given.first + given.count).map(|page| spot(asked.from as usize, page as usize));
                let part = givers.any(|giver| before.slot(giver).rights & !(asked.rights as u8) != 0);
                part.then_some(Corner::RangeGrantOfPart).into_iter().collect()
            }
            _ => vec![],
        }
    }

    /// The corners of an accepted grant: which pages would keep a right if only those granted were taken.
    fn of_one_grant(before: &Board, asked: &Lending) -> Vec<Corner> {
        let giver = spot(asked.from as usize, asked.page as usize);
        let taker = spot(asked.to as usize, asked.at as usize);
        let would_keep = |page| before.slot(page).rights & !(asked.rights as u8) != 0;
        let part = would_keep(giver);
        let over = part && before.pages_below(giver).any(|page| page != taker && would_keep(page));
        let to_below = part && before.is_below(taker, giver);
        let reached = Corner::OF_GRANTS.into_iter().zip([part, over, to_below]);
        reached.filter(|(_, is_reached)| *is_reached).map(|(corner, _)| corner).collect()
    }

    /// The corners of the calls that write and read listings.
    pub const OF_LISTINGS: [Corner; 14] = [
        Corner::ExactBuffer,
        Corner::LongerBuffer,
        Corner::OneByteShort,
        Corner::NoBuffer,
        Corner::UnsoundNoBuffer,
        Corner::WriteWrongLength,
        Corner::ReadWrongLength,
        Corner::MalformedWrongLength,
        Corner::ReadOverNoBoard,
        Corner::ReadOverCache,
        Corner::RefusedOverBoard,
        Corner::FullListing,
        Corner::EmptyListing,
        Corner::EverySpaceLive,
    ];

    /// The corners that writing or reading a listing has reached: image and text before the call, and its answer.
    pub fn of_listing(sizes: Sizes, before: &World, call: &Call, reply: &Reply) -> Vec<Corner> {
        let reached = match call {
            Call::WriteListing => Corner::of_writing(sizes, before, reply),
            Call::ReadListing => Corner::of_reading(sizes, before, reply),
            _ => vec![],
        };
        reached.into_iter().filter(|(_, is_reached)| *is_reached).map(|(corner, _)| corner).collect()
    }

    fn of_writing(sizes: Sizes, before: &World, reply: &Reply) -> Vec<(Corner, bool)> {
        let (number, room) = (reply.number, before.memory.len());
        let needed = || image::decode(sizes, &before.image).map_or(0, |board| listing::write(&board).len());
        vec![
            (Corner::ExactBuffer, number == 0 && room == reply.out[0] as usize),
            (Corner::LongerBuffer, number == 0 && room > reply.out[0] as usize),
            (Corner::OneByteShort, number == Refusal::Buffer.number() && room + 1 == needed()),
            (Corner::NoBuffer, number == Refusal::Buffer.number() && room == 0),
            (Corner::UnsoundNoBuffer, number == 1 && room == 0 && before.image.len() == sizes.image()),
            (Corner::WriteWrongLength, number == 1 && before.image.len() != sizes.image()),
        ]
    }

    fn of_reading(sizes: Sizes, before: &World, reply: &Reply) -> Vec<(Corner, bool)> {
        let old = image::decode(sizes, &before.image);
        let read = listing::read(sizes, &before.memory);
        let right_length = before.image.len() == sizes.image();
        let done = right_length && reply.number == 0;
        let held = read.as_ref().map_or(0, |board| board.lent_pages().count());
        let cached = |board: &Board| board.cache.places.iter().any(|place| place.filled());
        let lent = |board: &Board| board.sound() && *board != Board::start(sizes);
        vec![
            (Corner::ReadWrongLength, !right_length && read.is_ok()),
            (Corner::MalformedWrongLength, !right_length && read == Err(Refusal::Listing)),
            (Corner::ReadOverNoBoard, done && old.is_none()),
            (Corner::ReadOverCache, done && old.as_ref().is_some_and(cached)),
            (Corner::RefusedOverBoard, right_length && !done && old.as_ref().is_some_and(lent)),
            (Corner::FullListing, done && held == (sizes.spaces - 1) * sizes.pages),
            (Corner::EmptyListing, done && held == 0),
            (Corner::EverySpaceLive, done && read.is_ok_and(|board| board.live.iter().all(|&live| live))),
        ]
    }

    /// The corners that a call and its answer have reached.
    pub fn reached(sizes: Sizes, call: &Call, reply: &Reply) -> Vec<Corner> {
        let all = Corner::OF_ONE_PAGE.iter().chain(&Corner::OF_RANGES).chain(&Corner::OF_FRAMES).copied();
        all.filter(|corner| corner.is_reached(sizes, call, reply)).collect()
    }

    fn is_reached(self, sizes: Sizes, call: &Call, reply: &Reply) -> bool {
        match self {
            Corner::UpperSpace | Corner::LastSpace | Corner::PastLastSpace => self.of_space(sizes, call, reply),
            Corner::UpperPage | Corner::LastPage | Corner::PastLastPage => self.of_page(sizes, call, reply),
            Corner::UpperAddress | Corner::LastAddress | Corner::PastLastAddress => self.of_address(sizes, call, reply),
            _ if Corner::OF_FRAMES.contains(&self) => call.frame().is_some_and(|frame| self.of_frame(sizes, frame, reply)),
            _ => self.of_range(sizes, call, reply),
        }
    }

    fn of_space(self, sizes: Sizes, call: &Call, reply: &Reply) -> bool {
        call.spaces().into_iter().any(|space| self.at_limit(space, sizes.spaces, reply, Refusal::Space))
    }

    fn of_page(self, sizes: Sizes, call: &Call, reply: &Reply) -> bool {
        let addressed = call.address().map(|address| address / PAGE_BYTES as u32);
        let mut pages = call.pages().into_iter().chain(addressed.filter(|_| reply.number == 0));
        pages.any(|page| self.at_limit(page, sizes.pages, reply, Refusal::Page))
    }

    fn of_address(self, sizes: Sizes, call: &Call, reply: &Reply) -> bool {
        call.address().is_some_and(|address| self.at_limit(address, sizes.memory(), reply, Refusal::Page))
    }

    fn of_frame(self, sizes: Sizes, frame: u32, reply: &Reply) -> bool {
        let (done, counts) = (reply.number == 0, reply.out);
        let most = ((sizes.spaces - 1) * sizes.pages) as u32;
        match self {
            Corner::UnusedFrame => done && counts[0] == 0,
            Corner::FourCounts => done && (0..4).all(|field| !counts[..field].contains(&counts[field])),
            Corner::CrowdedFrame => done && 2 * counts[0] >= most,
            _ => self.at_limit(frame, sizes.pages, reply, Refusal::Page),
        }
    }

    /// A number in the upper half or the last one, and the call was accepted; or the first past the limit, and it was refused.
    fn at_limit(self, number: u32, limit: usize, reply: &Reply, refusal: Refusal) -> bool {
        let (number, done) = (number as usize, reply.number == 0);
        match self {
            Corner::UpperSpace | Corner::UpperPage | Corner::UpperAddress | Corner::UpperFrame => {
                done && (limit / 2..limit).contains(&number)
            }
            Corner::LastSpace | Corner::LastPage | Corner::LastAddress | Corner::LastFrame => done && number == limit - 1,
            _ => reply.number == refusal.number() && number == limit,
        }
    }

    fn of_range(self, sizes: Sizes, call: &Call, reply: &Reply) -> bool {
        let (pages, largest) = (sizes.pages as u32, sizes.largest_part());
        let part = 10..=largest;
        let (done, invalid) = (reply.number == 0, reply.number == Refusal::Range.number());
        call.ranges().into_iter().any(|range| match self {
            Corner::LargestPart => range.size == largest && reply.out[0] == pages,
            Corner::PastLargestPart => invalid && range.size == largest + 1 && range.base < pages,
            Corner::LastBase => done && part.contains(&range.size) && range.base == pages - 1,
            Corner::PastLastBase => invalid && part.contains(&range.size) && range.base == pages,
            Corner::LateRefusal => !done && (pages / 2..pages).contains(&reply.out[1]),
            _ => done && reply.out[1] == pages,
        })
    }
}

#[cfg(test)]
mod tests {
    use super::*;
    use crate::board::tests::board_k;
    use crate::calls::{Range, RangeLending, RangeWithdrawal, Withdrawal};

    fn reached(sizes: Sizes, call: Call, reply: Reply) -> Vec<Corner> {
        Corner::reached(sizes, &call, &reply)
    }

    #[test]
    fn buffers_and_images_of_listings() {
        let of_listing = |board: &Board, text: &[u8], call: Call| {
            let before = World { image: image::encode(board), memory: text.to_vec() };
            let mut after = before.clone();
            let reply = image::play(Sizes::ENTRY, &mut after.image, &mut after.memory, &call);
            Corner::of_listing(Sizes::ENTRY, &before, &call, &reply)
        };
        let (start, good) = (Board::start(Sizes::ENTRY), b"live=3\nheld=0\n");
        assert_eq!(of_listing(&start, good, Call::WriteListing), [Corner::ExactBuffer]);
        assert_eq!(of_listing(&start, &[0; 15], Call::WriteListing), [Corner::LongerBuffer]);
        assert_eq!(of_listing(&start, &[0; 13], Call::WriteListing), [Corner::OneByteShort]);
        assert_eq!(of_listing(&start, &[], Call::WriteListing), [Corner::NoBuffer]);
        assert_eq!(of_listing(&start, good, Call::ReadListing), [Corner::EmptyListing]);
        assert_eq!(of_listing(&start, b"x", Call::ReadListing), []);
        assert_eq!(of_listing(&board_k(Sizes::ENTRY), b"x", Call::ReadListing), [Corner::RefusedOverBoard]);
        let other = Board::start(Sizes::PREMIUM);
        assert_eq!(of_listing(&other, good, Call::WriteListing), [Corner::WriteWrongLength]);
        assert_eq!(of_listing(&other, good, Call::ReadListing), [Corner::ReadWrongLength]);
        assert_eq!(of_listing(&other, b"x", Call::ReadListing), [Corner::MalformedWrongLength]);
    }

    #[test]
    fn grants_of_a_part() {
        let of_grant = |page, to, at, rights| {
            let call = Call::Grant(Lending { from: 2, page, to, at, rights });
            Corner::of_grant(&board_k(Sizes::ENTRY), &call)
        };
        assert_eq!(of_grant(3, 4, 0, 6), []);
        assert_eq!(of_grant(3, 4, 0, 4), [Corner::GrantOfPart, Corner::GrantOfPartOver]);
        assert_eq!(of_grant(3, 4, 0, 2), [Corner::GrantOfPart], "(3,1) below it has 2 alone");
        assert_eq!(of_grant(3, 3, 1, 4), [Corner::GrantOfPart, Corner::GrantOfPartToBelow]);
        assert_eq!(of_grant(4, 3, 1, 4), [Corner::GrantOfPart], "(3,1) is not below (2,4)");
        assert_eq!(Corner::of_grant(&board_k(Sizes::ENTRY), &Call::Delete { space: 2 }), []);
    }

    #[test]
    fn grants_of_a_part_over_a_range() {
        let of_grant = |base, rights| {
            let given = Range { base, size: 11 };
            let call = Call::GrantRange(RangeLending { from: 2, given, to: 4, taken: given, rights });
            Corner::of_grant(&board_k(Sizes::PREMIUM), &call)
        };
        assert_eq!(of_grant(3, 4), [Corner::RangeGrantOfPart]);
        assert_eq!(of_grant(3, 6), []);
        assert_eq!(of_grant(4, 6), [Corner::RangeGrantOfPart]);
    }

    #[test]
    fn the_ends_of_spaces_and_pages() {
        let unmap = |space, page| Call::Unmap(Withdrawal { space, page, rights: 1 });
        let done = Reply::done(0, 0);
        let upper_and_last = [Corner::UpperSpace, Corner::LastSpace, Corner::UpperPage, Corner::LastPage];
        assert_eq!(reached(Sizes::PREMIUM, unmap(15, 63), done), upper_and_last);
        assert_eq!(reached(Sizes::PREMIUM, unmap(8, 32), done), [Corner::UpperSpace, Corner::UpperPage]);
        assert_eq!(reached(Sizes::PREMIUM, unmap(7, 31), done), []);
        assert_eq!(reached(Sizes::ENTRY, unmap(7, 31), done), upper_and_last);
        assert_eq!(reached(Sizes::PREMIUM, unmap(16, 64), Reply::bare(3)), [Corner::PastLastSpace]);
        assert_eq!(reached(Sizes::PREMIUM, unmap(1, 64), Reply::bare(5)), [Corner::PastLastPage]);
    }

    #[test]
    fn the_ends_of_addresses() {
        let load = |address| Call::Load { space: 0, address };
        let upper = [Corner::UpperPage, Corner::LastPage, Corner::UpperAddress, Corner::LastAddress];
        assert_eq!(reached(Sizes::PREMIUM, load(65_535), Reply::done(0, 0)), upper);
        assert_eq!(reached(Sizes::PREMIUM, load(65_534), Reply::done(0, 0)), upper[..3]);
        assert_eq!(reached(Sizes::PREMIUM, load(32_768), Reply::done(0, 0)), [Corner::UpperPage, Corner::UpperAddress]);
        assert_eq!(reached(Sizes::PREMIUM, load(65_536), Reply::bare(5)), [Corner::PastLastAddress]);
        assert_eq!(reached(Sizes::ENTRY, load(32_768), Reply::bare(5)), [Corner::PastLastAddress]);
    }

    #[test]
    fn the_ends_of_frames() {
        let of_frame = |sizes, frame, out| reached(sizes, Call::Frame { frame }, Reply::counts(out));
        assert_eq!(of_frame(Sizes::PREMIUM, 63, [3, 1, 2, 1]), [Corner::UpperFrame, Corner::LastFrame]);
        assert_eq!(of_frame(Sizes::PREMIUM, 32, [1, 1, 1, 1]), [Corner::UpperFrame]);
        assert_eq!(of_frame(Sizes::PREMIUM, 31, [0; 4]), [Corner::UnusedFrame]);
        assert_eq!(of_frame(Sizes::ENTRY, 0, [3, 0, 1, 2]), [Corner::FourCounts]);
        assert_eq!(of_frame(Sizes::ENTRY, 0, [3, 3, 1, 2]), []);
        assert_eq!(of_frame(Sizes::ENTRY, 0, [112, 9, 9, 9]), [Corner::CrowdedFrame]);
        assert_eq!(of_frame(Sizes::PREMIUM, 0, [479, 9, 9, 9]), []);
        assert_eq!(of_frame(Sizes::PREMIUM, 0, [480, 9, 9, 9]), [Corner::CrowdedFrame]);
        assert_eq!(reached(Sizes::ENTRY, Call::Frame { frame: 32 }, Reply::bare(5)), [Corner::PastLastFrame]);
        assert_eq!(reached(Sizes::ENTRY, Call::Frame { frame: 33 }, Reply::bare(5)), []);
    }

    #[test]
    fn the_ends_of_ranges() {
        let unmap = |base, size| Call::UnmapRange(RangeWithdrawal { space: 1, range: Range { base, size }, rights: 1 });
        let all = [Corner::LargestPart, Corner::LastBase, Corner::NoPageRefused];
        assert_eq!(reached(Sizes::PREMIUM, unmap(63, 16), Reply::range(0, 64, 64, 0)), all);
        assert_eq!(reached(Sizes::ENTRY, unmap(31, 15), Reply::range(0, 32, 32, 0)), all);
        assert_eq!(reached(Sizes::PREMIUM, unmap(0, 17), Reply::bare(7)), [Corner::PastLargestPart]);
        assert_eq!(reached(Sizes::PREMIUM, unmap(64, 16), Reply::bare(7)), [Corner::PastLastBase]);
        assert_eq!(reached(Sizes::PREMIUM, unmap(3, 10), Reply::range(0, 1, 64, 0)), [Corner::NoPageRefused]);
        assert_eq!(reached(Sizes::PREMIUM, unmap(0, 1), Reply::range(11, 63, 32, 0)), [Corner::LateRefusal]);
        assert_eq!(reached(Sizes::PREMIUM, unmap(0, 1), Reply::range(11, 63, 31, 0)), []);
    }
}
