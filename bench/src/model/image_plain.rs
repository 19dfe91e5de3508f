//! Plain Rust, second way: the board stays in the byte image of include/lend.h and is read and changed there.
use super::plain::{self, Counts, Link, Place, Slot, Tables};
use super::{PAGES, PLACES, SLOTS, SPACES};
use crate::library::{Numbers, Out};

const LIVE: usize = 4 * SLOTS;
const CACHE: usize = LIVE + SPACES;
const NEXT: usize = CACHE + 4 * PLACES;
const SUMMARY: usize = NEXT + 1;
/// The length of an image.
pub const IMAGE: usize = SUMMARY + 8 * PAGES;

/// A board in its image.
pub struct Image<'a>(&'a mut [u8; IMAGE]);

impl<'a> Image<'a> {
    /// The bytes as a place for a board, whatever they are; nothing where the length is another.
    fn over(bytes: &'a mut [u8]) -> Option<Image<'a>> {
        bytes.try_into().ok().map(Image)
    }

    /// The board that the bytes are the image of.
    pub fn of(bytes: &'a mut [u8]) -> Option<Image<'a>> {
        Image::over(bytes).filter(Image::is_a_boards)
    }

    fn is_a_boards(&self) -> bool {
        let link_reads = |page| matches!(self.four(4 * page), [0, 0, 0, _] | [1, _, 0, _] | [2, _, _, _]);
        (0..SLOTS).all(link_reads) && self.0[LIVE..CACHE].iter().all(|&live| live < 2)
    }

    /// The four bytes of a slot or of a cache place.
    fn four(&self, at: usize) -> [u8; 4] {
        self.0[at..at + 4].try_into().expect("four bytes")
    }
}

impl Tables for Image<'_> {
    fn slot(&self, page: usize) -> Slot {
        let [kind, first, second, rights] = self.four(4 * page);
        let link = match kind {
            0 => Link::Nothing,
            1 => Link::Frame(first),
            _ => Link::Page(first, second),
        };
        Slot { link, rights }
    }
    fn set_slot(&mut self, page: usize, slot: Slot) {
        let (kind, first, second) = match slot.link {
            Link::Nothing => (0, 0, 0),
            Link::Frame(frame) => (1, frame, 0),
            Link::Page(space, page) => (2, space, page),
        };
        self.0[4 * page..4 * page + 4].copy_from_slice(&[kind, first, second, slot.rights]);
    }
    fn live(&self, space: usize) -> bool {
        self.0[LIVE + space] == 1
    }
    fn set_live(&mut self, space: usize, live: bool) {
        self.0[LIVE + space] = u8::from(live);
    }
    fn place(&self, at: usize) -> Place {
        let [space, page, frame, rights] = self.four(CACHE + 4 * at);
        Place { space, page, frame, rights }
    }
    fn set_place(&mut self, at: usize, place: Place) {
        let at = CACHE + 4 * at;
        self.0[at..at + 4].copy_from_slice(&[place.space, place.page, place.frame, place.rights]);
    }
    fn next(&self) -> usize {
        self.0[NEXT] as usize
    }
    fn set_next(&mut self, next: usize) {
        self.0[NEXT] = next as u8;
    }
    fn counts(&self, frame: usize) -> Counts {
        let at = SUMMARY + 8 * frame;
        let bytes: [u8; 8] = self.0[at..at + 8].try_into().expect("eight bytes");
        Counts(std::array::from_fn(|i| u16::from_le_bytes([bytes[2 * i], bytes[2 * i + 1]])))
    }
    fn set_counts(&mut self, frame: usize, counts: Counts) {
        let at = SUMMARY + 8 * frame;
        for (bytes, count) in self.0[at..at + 8].chunks_exact_mut(2).zip(counts.0) {
            bytes.copy_from_slice(&count.to_le_bytes());
        }
    }
}

/// The start board, over any bytes of an image's length.
pub fn start_over(bytes: &mut [u8]) -> Option<Image<'_>> {
    let mut board = Image::over(bytes)?;
    plain::start(&mut board);
    Some(board)
}

/// Copies a board's tables from one store to another.
pub fn copy_tables(from: &impl Tables, to: &mut impl Tables) {
    (0..SLOTS).for_each(|page| to.set_slot(page, from.slot(page)));
    (0..SPACES).for_each(|space| to.set_live(space, from.live(space)));
    (0..PLACES).for_each(|at| to.set_place(at, from.place(at)));
    to.set_next(from.next());
    (0..PAGES).for_each(|frame| to.set_counts(frame, from.counts(frame)));
}

/// The image of a board.
pub fn image_of(board: &impl Tables) -> [u8; IMAGE] {
    let mut bytes = [0; IMAGE];
    copy_tables(board, &mut Image(&mut bytes));
    bytes
}

/// One function of the shape that all columns have, over a call on an image.
macro_rules! on_image {
    (start, |$board:ident, $memory:ident, $n:ident, $out:ident| $body:expr) => {
        on_image!(@ start, over, |$board, $memory, $n, $out| $body, 1);
    };
    (sound, |$board:ident, $memory:ident, $n:ident, $out:ident| $body:expr) => {
        on_image!(@ sound, of, |$board, $memory, $n, $out| $body, 0);
    };
    ($name:ident, |$board:ident, $memory:ident, $n:ident, $out:ident| $body:expr) => {
        on_image!(@ $name, of, |$board, $memory, $n, $out| $body, 1);
    };
    (@ $name:ident, $from:ident, |$board:ident, $memory:ident, $n:ident, $out:ident| $body:expr, $none:expr) => {
        #[inline(never)]
        pub fn $name(image: &mut [u8], $memory: &mut [u8], $n: &Numbers, $out: &mut Out) -> u32 {
            *$out = [0; 4];
            let Some(mut view) = Image::$from(image) else { return $none };
            let $board = &mut view;
            $body
        }
    };
}
super::calls::each_call!(on_image);
