//! Deliberately wrong models: 01's "Easy ways to get it wrong" and some more. The random runs have to tell each of them apart.

use crate::board::{spot, Board, Deal, Link, Place, Slot, Spot, Way};
use crate::calls::{Call, Kind, Lending, Refusal, Reply, Withdrawal, ALL_RIGHTS};
use crate::drive_library::Subject;
use crate::image;
use crate::sizes::Sizes;
use crate::summary::Counts;

#[derive(Clone, Copy, Debug, PartialEq, Eq)]
pub enum Fault {
    /// Grant takes no right from the pages below the giver.
    GrantSparesBelow,
    /// Grant takes from the giver the rights that were granted, and no more: 01 as it was before M-103.
    GrantTakesGranted,
    /// Grant empties the giver, and takes from the pages below it only the rights that were granted.
    GrantTakesGrantedBelow,
    /// Grant links the taker to the giver.
    GrantLinksToGiver,
    /// Grant cuts the pages that were below the giver before the taker was linked anew.
    GrantCutsOldLines,
    /// Unmap reaches direct children only.
    DirectChildrenOnly,
    /// Flush drops the cache entry of the named page only.
    CacheKeptBelow,
    /// Unmap drops the entries of all pages below, also of those that lose nothing.
    CacheDroppedForNothing,
    /// Delete leaves the entries of its pages.
    DeletedEntriesStay,
    /// A map that makes the same link again keeps the entry.
    SameLinkKeepsEntry,
    /// 14 is tested after the taker was flushed.
    LateFourteen,
    /// 13 does not count the giver's own page.
    RingWithoutOwnPage,
    /// 15 counts the taker's page too.
    FifteenCountsTaker,
    /// 4 for the giver's space comes before 3 for the taker's.
    FourBeforeThree,
    /// `emptied` counts a taker's page that was flushed and linked again.
    EmptiedCountsTaker,
    /// A new entry always goes to the next place to replace.
    AlwaysReplaces,
    /// The next place stays when an entry is replaced.
    NextStays,
    /// Numbers are narrowed to a byte before they are tested.
    Narrowed,
    /// load asks for any right.
    LoadAsksNothing,
    /// store writes to the frame with the page's number.
    StoreUntranslated,
    /// 2 comes before 1.
    MemoryFirst,
    /// A refused translate fills the cache.
    RefusedTranslateCaches,
    /// The cache is no part of soundness.
    CacheUnchecked,
    /// Rings that do not reach space 0 pass.
    RingsPass,
    /// Bytes without a meaning pass.
    UnusedBytesPass,
    /// Out fields are left at what they were after a refusal.
    OutLeftAlone,
    /// The number of links does not count the one to the frame.
    LinksWithoutFrame,
    /// A hit follows no link, and says so.
    HitWithoutLinks,
    /// A translation that is refused with 12 says how many links it followed.
    RefusalSaysLinks,
    /// load says how many links it followed.
    LoadSaysLinks,
    /// The summary is no part of soundness; or only how many pages are held is; or only its totals, its low bytes, or the frames
    /// that are used.
    SummaryUnchecked,
    RightsUnchecked,
    TotalsChecked,
    LowBytesChecked,
    UsedFramesChecked,
    /// The summary stays as it is in calls of this kind.
    SummaryStays(Kind),
    /// A frame's counts stay as long as the number of its pages does.
    LostRightsStayCounted,
    /// A page that is mapped over is counted at its new frame, and still at the old one.
    OldFrameStaysCounted,
    /// The giver of a grant is still counted.
    GiverStaysCounted,
    /// What stood below is still counted where a page is flushed.
    BelowStaysCounted,
    /// frame counts the page of space 0 too.
    FrameCountsPool,
    /// frame answers execute, write, read.
    FrameOtherOrder,
    /// frame answers a number past the last frame with zeros.
    FramePastLast,
    /// frame gives 5 before 1.
    FrameFiveFirst,
    /// frame moves the next place of the cache.
    FrameMovesNext,
}

impl Fault {
    /// 01's "Easy ways to get it wrong", in its order.
    pub const OF_01: [Fault; 5] = [
        Fault::GrantSparesBelow,
        Fault::DirectChildrenOnly,
        Fault::CacheKeptBelow,
        Fault::DeletedEntriesStay,
        Fault::LateFourteen,
    ];

    /// The faults in what calls on a sound board leave in the summary, or answer of it.
    pub const OF_SUMMARY: [Fault; 13] = [
        Fault::SummaryStays(Kind::Unmap),
        Fault::SummaryStays(Kind::Flush),
        Fault::SummaryStays(Kind::Map),
        Fault::SummaryStays(Kind::Grant),
        Fault::SummaryStays(Kind::Delete),
        Fault::LostRightsStayCounted,
        Fault::OldFrameStaysCounted,
        Fault::GiverStaysCounted,
        Fault::BelowStaysCounted,
        Fault::FrameCountsPool,
        Fault::FrameOtherOrder,
        Fault::FramePastLast,
        Fault::FrameMovesNext,
    ];

    /// The faults in what is taken for a right summary, and in calls over ranges.
    pub const OF_WRONG_SUMMARIES: [Fault; 10] = [
        Fault::SummaryUnchecked,
        Fault::RightsUnchecked,
        Fault::TotalsChecked,
        Fault::LowBytesChecked,
        Fault::UsedFramesChecked,
        Fault::FrameFiveFirst,
        Fault::SummaryStays(Kind::UnmapRange),
        Fault::SummaryStays(Kind::FlushRange),
        Fault::SummaryStays(Kind::MapRange),
        Fault::SummaryStays(Kind::GrantRange),
    ];

    /// Every fault.
    pub fn all() -> Vec<Fault> {
        [&Fault::OF_CALLS[..], &Fault::OF_SUMMARY, &Fault::OF_WRONG_SUMMARIES].concat()
    }

    /// The faults in what calls answer, and do to the tables and the memory.
    pub const OF_CALLS: [Fault; 30] = [
        Fault::GrantSparesBelow,
        Fault::GrantTakesGranted,
        Fault::GrantTakesGrantedBelow,
        Fault::GrantLinksToGiver,
        Fault::GrantCutsOldLines,
        Fault::DirectChildrenOnly,
        Fault::CacheKeptBelow,
        Fault::CacheDroppedForNothing,
        Fault::DeletedEntriesStay,
        Fault::SameLinkKeepsEntry,
        Fault::LateFourteen,
        Fault::RingWithoutOwnPage,
        Fault::FifteenCountsTaker,
        Fault::FourBeforeThree,
        Fault::EmptiedCountsTaker,
        Fault::AlwaysReplaces,
        Fault::NextStays,
        Fault::Narrowed,
        Fault::LoadAsksNothing,
        Fault::StoreUntranslated,
        Fault::MemoryFirst,
        Fault::RefusedTranslateCaches,
        Fault::CacheUnchecked,
        Fault::RingsPass,
        Fault::UnusedBytesPass,
        Fault::OutLeftAlone,
        Fault::LinksWithoutFrame,
        Fault::HitWithoutLinks,
        Fault::RefusalSaysLinks,
        Fault::LoadSaysLinks,
    ];
}

impl Fault {
    /// True for the faults of what an accepted grant does.
    fn changes_grant(self) -> bool {
        matches!(
            self,
            Fault::GrantSparesBelow
                | Fault::GrantTakesGranted
                | Fault::GrantTakesGrantedBelow
                | Fault::GrantLinksToGiver
                | Fault::GrantCutsOldLines
        )
    }
}

/// A model with a fault.
pub struct Wrong(pub Sizes, pub Fault);

impl Subject for Wrong {
    fn call(&mut self, bytes: &mut [u8], memory: &mut [u8], call: &Call) -> Reply {
        let Wrong(sizes, fault) = *self;
        if fault == Fault::UnusedBytesPass && *call == Call::Sound {
            let mut tidied = bytes.to_vec();
            tidy(sizes, &mut tidied);
            return image::play(sizes, &mut tidied, memory, call);
        }
        image::play_with(sizes, bytes, memory, call, |board, memory, call| play(fault, board, memory, call))
    }
}

/// Sets the bytes without a meaning to 0.
fn tidy(sizes: Sizes, bytes: &mut [u8]) {
    if bytes.len() == sizes.image() {
        for slot in bytes[..4 * sizes.spaces * sizes.pages].chunks_mut(4) {
            match slot[0] {
                0 => slot[1..3].fill(0),
                1 => slot[2] = 0,
                _ => (),
            }
        }
    }
}

/// The call as the faulty model makes it.
fn play(fault: Fault, board: &mut Board, memory: &mut [u8], call: &Call) -> Reply {
    let counted = board.counted();
    if board.summary != counted && takes_summary(fault, &board.summary, &counted) {
        board.summary = counted;
    }
    let before = board.clone();
    let faulty = match (fault, *call) {
        (_, Call::Frame { frame }) => wrong_frame(fault, board, frame),
        (_, Call::Grant(asked)) if fault.changes_grant() => {
            change_lending(board, &asked, Way::Grant, |board, deal| wrong_grant(fault, board, deal))
        }
        (Fault::DirectChildrenOnly, Call::Unmap(asked)) => direct_unmap(board, &asked),
        (Fault::CacheKeptBelow, Call::Flush(asked)) => cache_kept_below(board, &asked),
        (Fault::CacheDroppedForNothing, Call::Unmap(asked)) => cache_dropped(board, &asked),
        (Fault::DeletedEntriesStay, Call::Delete { space }) => deleted_entries_stay(board, space),
        (Fault::SameLinkKeepsEntry, Call::Map(asked)) => same_link_keeps_entry(board, &asked),
        (Fault::LateFourteen, Call::Map(asked)) => late_fourteen(board, &asked, Way::Map),
        (Fault::LateFourteen, Call::Grant(asked)) => late_fourteen(board, &asked, Way::Grant),
        (Fault::RingWithoutOwnPage, Call::Map(asked)) if asked.from == asked.to => accept_if(board, &asked, Refusal::Ring),
        (Fault::FifteenCountsTaker, Call::Map(asked)) => fifteen_counts_taker(board, &asked),
        (Fault::FourBeforeThree, Call::Map(asked)) => four_before_three(board, &asked),
        (Fault::EmptiedCountsTaker, Call::Map(asked)) => emptied_counts_taker(board, &asked),
        (Fault::AlwaysReplaces, Call::Translate { .. }) => always_replaces(board, call),
        (Fault::NextStays, Call::Translate { .. }) => {
            let next = board.cache.next;
            let reply = board.play(memory, call);
            board.cache.next = next;
            Some(reply)
        }
        (Fault::Narrowed, Call::Create { space }) => Some(board.play(memory, &Call::Create { space: space & 255 })),
        (Fault::LoadAsksNothing, Call::Load { space, address }) => load_asks_nothing(board, memory, space, address),
        (Fault::StoreUntranslated, Call::Store { address, value, .. }) => {
            let before = memory.to_vec();
            let reply = board.play(memory, call);
            if reply.number == 0 {
                memory.copy_from_slice(&before);
                memory[address as usize] = value;
            }
            Some(reply)
        }
        (Fault::MemoryFirst, Call::Load { .. }) => (memory.len() != board.sizes.memory()).then(|| Reply::bare(2)),
        (Fault::RefusedTranslateCaches, Call::Translate { space, address, rights }) => {
            let refused = board.clone().translate(space, address, rights) == Err(Refusal::NotHeld);
            refused.then(|| {
                let held = board.slot(spot(space as usize, address as usize / 1024)).rights;
                board.translate(space, address, held as u32).expect("the page is held");
                Reply::bare(12)
            })
        }
        (Fault::CacheUnchecked, Call::Sound) => {
            let mut bare = board.clone();
            bare.cache.places.fill(Place::default());
            Some(Reply::bare(bare.sound() as u32))
        }
        (Fault::RingsPass, Call::Sound) => Some(Reply::bare(without_rings(board).sound() as u32)),
        (Fault::OutLeftAlone, _) => {
            let mut reply = board.play(memory, call);
            reply.out[0] += (reply.number == 5) as u32;
            Some(reply)
        }
        (Fault::LinksWithoutFrame | Fault::HitWithoutLinks | Fault::RefusalSaysLinks, Call::Translate { .. }) => {
            Some(wrong_links(fault, board, memory, call))
        }
        (Fault::LoadSaysLinks, Call::Load { .. }) => Some(wrong_links(fault, board, memory, call)),
        _ => None,
    };
    let reply = faulty.unwrap_or_else(|| board.play(memory, call));
    miscount(fault, &before, board, call);
    reply
}

fn reply(answer: Result<u32, Refusal>) -> Option<Reply> {
    Some(answer.map_or_else(Reply::from, |emptied| Reply::done(emptied, 0)))
}

/// The judgement of the right model, with another change of the board.
fn change_lending(board: &mut Board, asked: &Lending, way: Way, change: impl FnOnce(&mut Board, &Deal)) -> Option<Reply> {
    let deal = board.judge_lending(asked, way);
    reply(deal.map(|deal| board.count_emptied(|board| change(board, &deal))))
}

/// What an accepted grant does with a fault of it.
fn wrong_grant(fault: Fault, board: &mut Board, deal: &Deal) {
    let old_below: Vec<Spot> = board.pages_below(deal.giver).collect();
    let source = if fault == Fault::GrantLinksToGiver { deal.giver } else { deal.source };
    board.link_step(&Deal { source, ..*deal });
    match fault {
        Fault::GrantTakesGranted => board.flush_step(deal.giver, deal.rights),
        Fault::GrantTakesGrantedBelow => board.unmap_step(deal.giver, deal.rights),
        Fault::GrantCutsOldLines => old_below.into_iter().for_each(|page| board.lose(page, ALL_RIGHTS)),
        _ => (),
    }
    if fault != Fault::GrantTakesGranted {
        board.lose(deal.giver, ALL_RIGHTS);
    }
}

fn direct_unmap(board: &mut Board, asked: &Withdrawal) -> Option<Reply> {
    board.clone().unmap(asked).ok()?;
    let named = spot(asked.space as usize, asked.page as usize);
    let children: Vec<Spot> = board.spots().filter(|&page| board.parent(page) == Some(named)).collect();
    let emptied = board.count_emptied(|board| {
        for page in children {
            board.lose(page, asked.rights as u8);
        }
    });
    reply(Ok(emptied))
}

fn cache_kept_below(board: &mut Board, asked: &Withdrawal) -> Option<Reply> {
    let (named, _) = board.judge_flush(asked).ok()?;
    let mut kept = board.cache.clone();
    let answer = board.flush(asked);
    if board.cache != kept {
        kept.drop_entry(named);
        board.cache = kept;
    }
    reply(answer)
}

fn cache_dropped(board: &mut Board, asked: &Withdrawal) -> Option<Reply> {
    board.clone().unmap(asked).ok()?;
    let named = spot(asked.space as usize, asked.page as usize);
    let below: Vec<Spot> = board.pages_below(named).collect();
    let answer = board.unmap(asked);
    for page in below {
        board.cache.drop_entry(page);
    }
    reply(answer)
}

fn deleted_entries_stay(board: &mut Board, space: u32) -> Option<Reply> {
    let space_number = board.judge_delete(space).ok()?;
    let before = board.cache.clone();
    let answer = board.delete(space);
    for (place, old) in board.cache.places.iter_mut().zip(before.places) {
        if old.filled() && old.space == space_number {
            *place = old;
        }
    }
    reply(answer)
}

fn same_link_keeps_entry(board: &mut Board, asked: &Lending) -> Option<Reply> {
    let deal = board.judge_lending(asked, Way::Map).ok()?;
    let same = Slot { link: Link::Page(deal.source), rights: deal.rights };
    if board.slot(deal.taker) != same {
        return None;
    }
    let before = board.cache.clone();
    let answer = board.map(asked);
    for (place, old) in board.cache.places.iter_mut().zip(before.places) {
        if old.names(deal.taker) {
            *place = old;
        }
    }
    reply(answer)
}

/// After the flush nothing is below the taker, so that 14 is never given.
fn late_fourteen(board: &mut Board, asked: &Lending, way: Way) -> Option<Reply> {
    if board.judge_lending(asked, way) != Err(Refusal::SourceBelow) {
        return None;
    }
    let taker = spot(asked.to as usize, asked.at as usize);
    let mut flushed = board.clone();
    flushed.flush_step(taker, ALL_RIGHTS);
    flushed.recount();
    let answer = match way {
        Way::Map => flushed.map(asked),
        Way::Grant => flushed.grant(asked),
    };
    if answer.is_ok() {
        *board = flushed;
    }
    reply(answer)
}

/// A map that is refused with this number is made all the same.
fn accept_if(board: &mut Board, asked: &Lending, wrongly: Refusal) -> Option<Reply> {
    if board.judge_lending(asked, Way::Map) != Err(wrongly) {
        return None;
    }
    let giver = spot(asked.from as usize, asked.page as usize);
    let taker = spot(asked.to as usize, asked.at as usize);
    let deal = Deal { giver, source: giver, taker, rights: asked.rights as u8 };
    let emptied = board.count_emptied(|board| board.link_step(&deal));
    reply(Ok(emptied))
}

fn fifteen_counts_taker(board: &mut Board, asked: &Lending) -> Option<Reply> {
    let deal = board.judge_lending(asked, Way::Map).ok()?;
    board.is_below(deal.taker, deal.source).then(|| Reply::from(Refusal::TakerBelow))
}

fn four_before_three(board: &mut Board, asked: &Lending) -> Option<Reply> {
    let refused = board.judge_lending(asked, Way::Map) == Err(Refusal::Space);
    let giver_not_live = board.live.get(asked.from as usize) == Some(&false);
    (refused && giver_not_live).then(|| Reply::from(Refusal::NotLive))
}

fn emptied_counts_taker(board: &mut Board, asked: &Lending) -> Option<Reply> {
    let deal = board.judge_lending(asked, Way::Map).ok()?;
    let held = board.held(deal.taker) as u32;
    let answer = board.map(asked);
    reply(answer.map(|emptied| emptied + held))
}

fn always_replaces(board: &mut Board, call: &Call) -> Option<Reply> {
    let mut before = board.cache.clone();
    let reply = board.play(&mut [], call);
    let inserted = (0..before.places.len()).find(|&i| before.places[i] != board.cache.places[i]);
    if let Some(at) = inserted {
        let entry = board.cache.places[at];
        before.places[before.next] = entry;
        before.next = (before.next + 1) % before.places.len();
        board.cache = before;
    }
    Some(reply)
}

fn load_asks_nothing(board: &mut Board, memory: &mut [u8], space: u32, address: u32) -> Option<Reply> {
    if board.clone().load(memory, space, address) != Err(Refusal::NotHeld) {
        return None;
    }
    let page = spot(space as usize, address as usize / 1024);
    let rights = board.slot(page).rights as u32;
    let found = board.translate(space, address, rights).expect("the page is held");
    Some(Reply::done(memory[found.address] as u32, 0))
}

/// The right answer but for the number of links.
fn wrong_links(fault: Fault, board: &mut Board, memory: &mut [u8], call: &Call) -> Reply {
    let mut reply = board.play(memory, call);
    let followed = |board: &Board| {
        let page = spot(call.spaces()[0] as usize, call.address().unwrap_or(0) as usize / 1024);
        board.links(page) as u32
    };
    match (fault, reply.number) {
        (Fault::LinksWithoutFrame, 0) => reply.out[2] -= 1,
        (Fault::HitWithoutLinks, 0) => reply.out[2] *= 1 - reply.out[1],
        (Fault::RefusalSaysLinks, 12) | (Fault::LoadSaysLinks, 0) => reply.out[2] = followed(board),
        _ => (),
    }
    reply
}

// ---- the summary -------------------------------------------------------------------------------------------------------------

/// True where a wrong summary is taken for right.
fn takes_summary(fault: Fault, found: &[Counts], counted: &[Counts]) -> bool {
    let each = |same: fn(&Counts, &Counts) -> bool| found.iter().zip(counted).all(|(one, other)| same(one, other));
    let total = |summary: &[Counts], field| summary.iter().map(|counts: &Counts| counts[field] as u32).sum::<u32>();
    match fault {
        Fault::SummaryUnchecked => true,
        Fault::RightsUnchecked => each(|found, counted| found[0] == counted[0]),
        Fault::TotalsChecked => (0..4).all(|field| total(found, field) == total(counted, field)),
        Fault::LowBytesChecked => each(|found, counted| found.map(|count| count as u8) == counted.map(|count| count as u8)),
        Fault::UsedFramesChecked => each(|found, counted| counted[0] == 0 || found == counted),
        _ => false,
    }
}

/// What frame answers with a fault of it.
fn wrong_frame(fault: Fault, board: &mut Board, frame: u32) -> Option<Reply> {
    let past = frame as usize >= board.sizes.pages;
    let right = board.play(&mut [], &Call::Frame { frame });
    let out = right.out;
    match (fault, right.number) {
        (Fault::FrameCountsPool, 0) => Some(Reply::counts(out.map(|count| count + 1))),
        (Fault::FrameOtherOrder, 0) => Some(Reply::counts([out[0], out[3], out[2], out[1]])),
        (Fault::FramePastLast, 5) => Some(Reply::bare(0)),
        (Fault::FrameFiveFirst, 1) if past => Some(Reply::bare(5)),
        (Fault::FrameMovesNext, 0) => {
            board.cache.next = (board.cache.next + 1) % board.sizes.places;
            Some(right)
        }
        _ => None,
    }
}

/// Leaves what a fault leaves in the summary after a call.
fn miscount(fault: Fault, before: &Board, after: &mut Board, call: &Call) {
    let counted_at = |board: &Board, page: (u32, u32)| board.frame(spot(page.0 as usize, page.1 as usize));
    match (fault, *call) {
        (Fault::SummaryStays(kind), _) if call.kind() == kind => after.summary = before.summary.clone(),
        (Fault::LostRightsStayCounted, Call::Unmap(_) | Call::Flush(_)) => {
            for (counts, old) in after.summary.iter_mut().zip(&before.summary) {
                *counts = if counts[0] == old[0] { *old } else { *counts };
            }
        }
        (Fault::OldFrameStaysCounted, Call::Map(asked)) if before != after => {
            let [old, new] = [before, &*after].map(|board| counted_at(board, (asked.to, asked.at)));
            if let (true, Some(old)) = (old != new, old) {
                after.summary[old] = before.summary[old];
            }
        }
        (Fault::GiverStaysCounted, Call::Grant(asked)) if before != after => {
            let frame = counted_at(before, (asked.from, asked.page)).expect("the giver was held");
            after.summary[frame][0] += 1;
        }
        (Fault::BelowStaysCounted, Call::Flush(asked)) if before != after => {
            let named = spot(asked.space as usize, asked.page as usize);
            let gone = before.pages_below(named).filter(|&page| !after.held(page)).count();
            let frame = before.frame(named).expect("the page was held");
            after.summary[frame][0] += gone as u16;
        }
        _ => (),
    }
}

/// The board without the pages whose lines do not reach space 0.
fn without_rings(board: &Board) -> Board {
    let mut without = board.clone();
    for page in board.spots() {
        let last = board.line(page).last().expect("a line has its page");
        if board.held(page) && last.space != 0 {
            without.set_slot(page, Slot::EMPTY);
        }
    }
    without
}
