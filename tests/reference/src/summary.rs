//! The frame summary (M-106): who uses each frame. The model keeps no books: it follows the line of every held page, each time.

use crate::board::Board;
use crate::calls::{Refusal, EXECUTE, READ, WRITE};

/// Of one frame: how many held pages outside space 0 end there, and how many of those have read, write and execute.
pub type Counts = [u16; 4];

/// What a held page with these rights counts for.
fn counted_once(rights: u8) -> Counts {
    [true, rights & READ != 0, rights & WRITE != 0, rights & EXECUTE != 0].map(u16::from)
}

impl Board {
    /// The summary of the pages. On an unsound board a page whose line ends at no frame of the model is not counted.
    pub fn counted(&self) -> Vec<Counts> {
        let mut summary = vec![[0; 4]; self.sizes.pages];
        for page in self.lent_pages() {
            let end = self.frame(page).and_then(|frame| summary.get_mut(frame));
            if let Some(counts) = end {
                let more = counted_once(self.slot(page).rights);
                (0..4).for_each(|field| counts[field] += more[field]);
            }
        }
        summary
    }

    /// Makes the summary that of the pages.
    pub fn recount(&mut self) {
        self.summary = self.counted();
    }

    /// A board whose summary disagrees with its pages isn't sound.
    pub fn summary_agrees(&self) -> bool {
        self.summary == self.counted()
    }

    /// True where the summary alone is wrong.
    pub fn only_the_summary_is_wrong(&self) -> bool {
        let mut mended = self.clone();
        mended.recount();
        mended != *self && mended.sound()
    }

    /// What `frame` answers: 1, then 5 for a number past the last frame.
    pub fn frame_summary(&self, frame: u32) -> Result<Counts, Refusal> {
        self.check_sound()?;
        self.check_pages(&[frame])?;
        Ok(self.counted()[frame as usize])
    }
}

#[cfg(test)]
mod tests {
    use super::*;
    use crate::board::{spot, tests::board_k, Link, Slot};
    use crate::calls::{Call, Lending, Range, RangeLending, RangeWithdrawal, Reply, Withdrawal};
    use crate::script::parse;
    use crate::sizes::Sizes;

    /// The summary of a board in which only these frames are used.
    fn summary(sizes: Sizes, frames: &[(usize, Counts)]) -> Vec<Counts> {
        let mut summary = vec![[0; 4]; sizes.pages];
        frames.iter().for_each(|&(frame, counts)| summary[frame] = counts);
        summary
    }

    /// Makes the call, which is done, and compares the summary after it.
    fn after(board: &mut Board, call: Call, frames: &[(usize, Counts)]) {
        let mut memory = vec![0; board.sizes.memory()];
        assert_eq!(board.play(&mut memory, &call).number, 0, "{call:?}");
        assert_eq!(board.summary, summary(board.sizes, frames), "{call:?}");
        assert!(board.sound());
    }

    fn map(giver: (u32, u32), taker: (u32, u32), rights: u32) -> Call {
        Call::Map(Lending { from: giver.0, page: giver.1, to: taker.0, at: taker.1, rights })
    }

    /// (1,0) gets frame 5 with 7, (2,3) gets it from there with 6 and is left with 4; the last line is refused.
    #[test]
    fn the_session_of_01() {
        let session: [(&str, Counts); 8] = [
            ("op=create space=2", [0, 0, 0, 0]),
            ("op=map from=0 page=5 to=1 at=0 rights=7", [1, 1, 1, 1]),
            ("op=map from=1 page=0 to=2 at=3 rights=6", [2, 2, 2, 1]),
            ("op=translate space=2 address=3077 rights=4", [2, 2, 2, 1]),
            ("op=unmap space=1 page=0 rights=2", [2, 2, 1, 1]),
            ("op=translate space=2 address=3077 rights=2", [2, 2, 1, 1]),
            ("op=map from=2 page=3 to=1 at=9 rights=4", [2, 2, 1, 1]),
            ("op=delete space=2", [1, 1, 1, 1]),
        ];
        for sizes in Sizes::MODELS {
            let mut board = Board::start(sizes);
            for (line, counts) in session {
                let mut memory = vec![0; sizes.memory()];
                board.play(&mut memory, &parse(line.as_bytes()).unwrap());
                assert_eq!(board.summary, summary(sizes, &[(5, counts)]), "{line}");
            }
        }
    }

    /// Frame 5 is used by (1,0) with 7, (2,3) with 6 and (3,1) with 2, frame 6 by (2,4) with 7.
    #[test]
    fn the_summary_of_k() {
        for (sizes, frames) in [(Sizes::ENTRY, 32), (Sizes::PREMIUM, 64)] {
            let mut board = board_k(sizes);
            assert_eq!(board.summary, summary(sizes, &[(5, [3, 2, 3, 1]), (6, [1, 1, 1, 1])]));
            let before = board.clone();
            let mut answer = |frame| board.play(&mut [], &Call::Frame { frame });
            assert_eq!(answer(5), Reply::counts([3, 2, 3, 1]));
            assert_eq!(answer(6), Reply::counts([1, 1, 1, 1]));
            assert_eq!(answer(0), Reply::counts([0; 4]), "space 0 is not counted");
            assert_eq!(answer(frames - 1), Reply::counts([0; 4]));
            assert_eq!([frames, 256 + 5, u32::MAX].map(&mut answer), [Reply::bare(5); 3]);
            assert_eq!(board, before);
            board.live[1] = false;
            assert_eq!([5, frames].map(|frame| board.play(&mut [], &Call::Frame { frame })), [Reply::bare(1); 2]);
        }
    }

    /// 01's examples on K, and a map of another frame over (2,3), which takes (3,1) with it.
    #[test]
    fn the_examples_on_k() {
        let withdrawal = |space, page, rights| Withdrawal { space, page, rights };
        let other: (usize, Counts) = (6, [1, 1, 1, 1]);
        for sizes in Sizes::MODELS {
            let on_k = |call, frames: &[(usize, Counts)]| after(&mut board_k(sizes), call, frames);
            on_k(Call::Unmap(withdrawal(1, 0, 2)), &[(5, [2, 2, 1, 1]), other]);
            on_k(Call::Unmap(withdrawal(1, 0, 6)), &[(5, [1, 1, 1, 1]), other]);
            on_k(Call::Unmap(withdrawal(0, 5, 1)), &[(5, [3, 2, 3, 0]), other]);
            on_k(Call::Flush(withdrawal(2, 3, 2)), &[(5, [2, 2, 1, 1]), other]);
            on_k(Call::Flush(withdrawal(1, 0, 5)), &[(5, [3, 0, 3, 0]), other]);
            on_k(map((1, 0), (2, 3), 4), &[(5, [2, 2, 1, 1]), other]);
            on_k(map((0, 7), (2, 3), 3), &[(5, [1, 1, 1, 1]), other, (7, [1, 0, 1, 1])]);
            let grant = Lending { from: 2, page: 3, to: 4, at: 0, rights: 2 };
            on_k(Call::Grant(grant), &[(5, [2, 1, 2, 1]), other]);
            on_k(Call::Delete { space: 2 }, &[(5, [1, 1, 1, 1])]);
            on_k(Call::Delete { space: 3 }, &[(5, [2, 2, 2, 1]), other]);
            on_k(Call::Create { space: 6 }, &[(5, [3, 2, 3, 1]), other]);
            on_k(Call::Store { space: 2, address: 3 * 1024, value: 1 }, &[(5, [3, 2, 3, 1]), other]);
        }
    }

    /// Pages 4 to 7 of the pool go to space 4 with 5 and come back, and then (2,4) is taken too.
    #[test]
    fn ranges_on_k() {
        let four = Range { base: 4, size: 12 };
        let lent = Call::MapRange(RangeLending { from: 0, given: four, to: 4, taken: four, rights: 5 });
        let taken = |space| Call::FlushRange(RangeWithdrawal { space, range: four, rights: 7 });
        for sizes in Sizes::MODELS {
            let mut board = board_k(sizes);
            let more = [(4, [1, 1, 0, 1]), (5, [4, 3, 3, 2]), (6, [2, 2, 1, 2]), (7, [1, 1, 0, 1])];
            after(&mut board, lent, &more);
            after(&mut board, taken(4), &[(5, [3, 2, 3, 1]), (6, [1, 1, 1, 1])]);
            after(&mut board, taken(2), &[(5, [3, 2, 3, 1])]);
        }
    }

    /// A listing says nothing of the summary, so it is built; a refused listing brings the start board's.
    #[test]
    fn a_listing_that_is_read_has_its_summary() {
        let good = b"live=7\nspace=1 page=0 parent=0 at=9 rights=6\nspace=2 page=1 parent=1 at=0 rights=4\nheld=2\n";
        for sizes in Sizes::MODELS {
            let mut board = board_k(sizes);
            assert_eq!(board.read_listing(good), Ok(()));
            assert_eq!(board.summary, summary(sizes, &[(9, [2, 2, 1, 0])]));
            assert_eq!(board.read_listing(b""), Err(Refusal::Listing));
            assert_eq!(board.summary, summary(sizes, &[]));
        }
    }

    #[test]
    fn a_wrong_summary_is_unsound() {
        for sizes in Sizes::MODELS {
            let with = |frame: usize, field: usize, count: u16| {
                let mut board = board_k(sizes);
                board.summary[frame][field] = count;
                assert_ne!(board.sound(), board.only_the_summary_is_wrong());
                board.sound()
            };
            assert!(with(5, 0, 3) && with(5, 1, 2) && with(5, 2, 3) && with(5, 3, 1));
            for field in 0..4 {
                assert!(!with(5, field, 4) && !with(5, field, 0) && !with(6, field, 257));
                assert!(!with(0, field, 1) && !with(sizes.pages - 1, field, 1) && !with(5, field, u16::MAX));
            }
        }
    }

    /// What is wrong beside the summary is no matter of the summary alone.
    #[test]
    fn an_unsound_board_with_a_wrong_summary() {
        let mut board = board_k(Sizes::ENTRY);
        board.live[2] = false;
        board.summary[5][0] = 9;
        assert!(!board.sound() && !board.only_the_summary_is_wrong());
    }

    /// Every page outside space 0 holds frame 9: the odd spaces with 4, the even ones with 3.
    #[test]
    fn every_page_on_one_frame() {
        for (sizes, counts) in [(Sizes::ENTRY, [224, 128, 96, 96]), (Sizes::PREMIUM, [960, 512, 448, 448])] {
            let mut board = Board::start(sizes);
            board.live.fill(true);
            for page in board.clone().spots().filter(|page| page.space != 0) {
                let rights = if page.space % 2 == 1 { 4 } else { 3 };
                board.set_slot(page, Slot { link: Link::Page(spot(0, 9)), rights });
            }
            board.recount();
            assert_eq!(board.summary, summary(sizes, &[(9, counts)]));
            assert!(board.sound());
        }
    }
}
