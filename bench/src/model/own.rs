//! Plain Rust, first way: the board in a struct of its own, changed through `&mut`.
use super::plain::{self, Counts, Place, Slot, Tables};
use super::{PAGES, PLACES, SLOTS, SPACES};
use crate::library::{Numbers, Out};

/// A board.
#[derive(Clone, PartialEq, Eq, Debug)]
pub struct Board {
    slots: [Slot; SLOTS],
    live: [bool; SPACES],
    places: [Place; PLACES],
    next: u8,
    summary: [Counts; PAGES],
}

impl Board {
    /// The board at boot.
    pub fn start() -> Board {
        let mut board = Board {
            slots: [Slot::EMPTY; SLOTS],
            live: [false; SPACES],
            places: [Place::default(); PLACES],
            next: 0,
            summary: [Counts::default(); PAGES],
        };
        plain::start(&mut board);
        board
    }
}

impl Tables for Board {
    fn slot(&self, page: usize) -> Slot {
        self.slots[page]
    }
    fn set_slot(&mut self, page: usize, slot: Slot) {
        self.slots[page] = slot;
    }
    fn live(&self, space: usize) -> bool {
        self.live[space]
    }
    fn set_live(&mut self, space: usize, live: bool) {
        self.live[space] = live;
    }
    fn place(&self, at: usize) -> Place {
        self.places[at]
    }
    fn set_place(&mut self, at: usize, place: Place) {
        self.places[at] = place;
    }
    fn next(&self) -> usize {
        self.next as usize
    }
    fn set_next(&mut self, next: usize) {
        self.next = next as u8;
    }
    fn counts(&self, frame: usize) -> Counts {
        self.summary[frame]
    }
    fn set_counts(&mut self, frame: usize, counts: Counts) {
        self.summary[frame] = counts;
    }
}

/// One function of the shape that all columns have, over a call on a board.
macro_rules! own {
    ($name:ident, |$board:ident, $memory:ident, $n:ident, $out:ident| $body:expr) => {
        #[inline(never)]
        pub fn $name($board: &mut Board, $memory: &mut [u8], $n: &Numbers, $out: &mut Out) -> u32 {
            *$out = [0; 4];
            $body
        }
    };
}
super::calls::each_call!(own);
