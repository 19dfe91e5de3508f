//! The boards and requests that are timed: rings of different boards, each with a request that is done on it.
use super::calls::call;
use super::image_plain::{image_of, IMAGE};
use super::own::Board;
use super::plain::{sound_with_summary, Link, Slot, Tables};
use super::{LONG_LINES, MEMORY, PAGES, PAGE_BYTES, PLACES, SLOTS, SPACES};
use crate::library::{Numbers, Out};
use crate::random::Random;
use std::fmt;

/// How many boards a ring has: as many as have 65,536 pages, so that the rings of both models take the same memory.
const RING: usize = 65_536 / SLOTS;

/// Which answers a request is wanted to have.
pub type Wanted = fn(u32, &Out) -> bool;

/// The kinds of boards.
#[derive(Clone, Copy, PartialEq, Eq)]
pub enum Kind {
    /// With lines of at most so many pages, and some of that length.
    Lines(usize),
    /// After a while.
    Mixed,
    /// All of space 0 is lent to space 1.
    Lent,
}

impl Kind {
    /// Every kind.
    pub fn all() -> Vec<Kind> {
        let long = LONG_LINES.iter().map(|&length| Kind::Lines(length));
        [Kind::Lines(1)].into_iter().chain(long).chain([Kind::Mixed, Kind::Lent]).collect()
    }

    /// A random board of this kind.
    pub fn board(self, random: &mut Random) -> Board {
        let mut board = match self {
            Kind::Lines(1) => flat(random),
            Kind::Lines(length) => deep(random, length),
            Kind::Mixed => mixed(random),
            Kind::Lent => lent(random),
        };
        fill_cache(random, &mut board);
        board
    }
}

impl fmt::Display for Kind {
    fn fmt(&self, f: &mut fmt::Formatter) -> fmt::Result {
        match self {
            Kind::Lines(1) => f.write_str("lines of 1 page"),
            Kind::Lines(length) => write!(f, "lines to {length} pages"),
            Kind::Mixed => f.write_str("mixed"),
            Kind::Lent => f.write_str("lent"),
        }
    }
}

/// Boards in both forms, and a request for each.
pub struct Ring {
    pub boards: Vec<Board>,
    pub images: Vec<[u8; IMAGE]>,
    pub numbers: Vec<Numbers>,
}

impl Ring {
    /// A ring of boards, and for each a request that `wanted` picks by the answer on that board.
    pub fn new(random: &mut Random, name: &str, kind: Kind, wanted: Wanted) -> Ring {
        let boards: Vec<Board> = (0..RING).map(|_| kind.board(random)).collect();
        let numbers = boards.iter().map(|b| wanted_request(random, name, b, wanted)).collect();
        Ring { images: boards.iter().map(image_of).collect(), boards, numbers }
    }

    /// How many pages are held outside space 0, on the average.
    pub fn held(&self) -> f64 {
        let held = |b: &Board| (PAGES..SLOTS).filter(|&page| b.slot(page).held()).count();
        self.boards.iter().map(held).sum::<usize>() as f64 / self.boards.len() as f64
    }
}

/// A request whose answer on the board is as wanted.
fn wanted_request(random: &mut Random, name: &str, board: &Board, wanted: Wanted) -> Numbers {
    let own = call(name).own;
    let (mut memory, mut out) = (vec![0; MEMORY], Out::default());
    for _ in 0..1_000_000 {
        let numbers = request(random, name, SPACES as u32);
        let number = own(&mut board.clone(), &mut memory, &numbers, &mut out);
        if wanted(number, &out) {
            return numbers;
        }
    }
    panic!("no request for {name} on this board");
}

/// Random numbers for a call, with spaces below `spaces`.
pub fn request(random: &mut Random, name: &str, spaces: u32) -> Numbers {
    let (space, page, rights) = (random.below(spaces), random.below(PAGES as u32), 1 + random.below(7));
    let address = PAGE_BYTES * page + random.below(PAGE_BYTES);
    match name {
        "unmap" | "flush" => [space, page, rights, 0, 0, 0, 0],
        "map" | "grant" => [space, page, random.below(spaces), random.below(PAGES as u32), rights, 0, 0],
        "translate" => [space, address, rights, 0, 0, 0, 0],
        "frame" => [page, 0, 0, 0, 0, 0, 0],
        "load" | "store" => [space, address, random.below(256), 0, 0, 0, 0],
        "unmap_range" | "flush_range" => {
            let (base, size) = range(random);
            [space, base, size, rights, 0, 0, 0]
        }
        "map_range" | "grant_range" => {
            let ((base, size), (at_base, at_size)) = (range(random), range(random));
            [space, base, size, random.below(spaces), at_base, at_size, rights]
        }
        _ => [space, 0, 0, 0, 0, 0, 0],
    }
}

/// A base and a size: often every page, else a part or what is no range.
fn range(random: &mut Random) -> (u32, u32) {
    match random.below(3) {
        0 => (0, 1),
        1 => (random.below(PAGES as u32 + 1), 10 + random.below(PAGES.ilog2() + 1)),
        _ => (random.below(3), random.below(18)),
    }
}

/// Makes a call on a board of plain Rust and forgets its answer.
fn make(board: &mut Board, name: &str, numbers: &Numbers) {
    (call(name).own)(board, &mut [], numbers, &mut Out::default());
}

fn create(board: &mut Board, space: u32) {
    make(board, "create", &[space, 0, 0, 0, 0, 0, 0]);
}

/// Some translations that are asked for, half as many again as there are places at most, so that the cache has some entries, or is full.
fn fill_cache(random: &mut Random, board: &mut Board) {
    for _ in 0..1 + random.below(PLACES as u32 * 3 / 2) {
        let [space, address, ..] = request(random, "translate", SPACES as u32);
        (1..=7).for_each(|rights| make(board, "translate", &[space, address, rights, 0, 0, 0, 0]));
    }
    make(board, "translate", &[0, random.below(MEMORY as u32), 4, 0, 0, 0, 0]);
}

/// A board whose pages were put there by hand, with the summary that makes it sound.
pub fn with_summary(mut board: Board) -> Board {
    assert!(sound_with_summary(&mut board), "a board made by hand is not sound");
    board
}

/// A board whose every line has one page: only space 0 holds pages.
fn flat(random: &mut Random) -> Board {
    let mut board = Board::start();
    (2..SPACES as u32).filter(|_| random.below(2) == 0).for_each(|space| create(&mut board, space));
    board
}

/// A board whose longest lines have `length` pages: every page of every space is held, and each page of space 0 has one page of every
/// other space below it. A space is lent from space 0, or from the space before it where the lines are not yet of that length.
fn deep(random: &mut Random, length: usize) -> Board {
    let mut board = Board::start();
    let mut lender = 0;
    for (turn, space) in random.shuffled::<{ SPACES - 1 }>().map(|s| s + 1).into_iter().enumerate() {
        board.set_live(space, true);
        if turn % (length - 1) == 0 {
            lender = 0;
        }
        for (page, at) in random.shuffled::<PAGES>().into_iter().enumerate() {
            let most = board.slot(PAGES * lender + at).rights;
            let fewer = most & !(1 << random.below(3));
            let rights = if fewer != 0 && random.below(6) == 0 { fewer } else { most };
            board.set_slot(PAGES * space + page, Slot { link: Link::Page(lender as u8, at as u8), rights });
        }
        lender = space;
    }
    with_summary(board)
}

/// A board whose space 1 holds every page of space 0, at another page number; all other spaces are live and empty.
fn lent(random: &mut Random) -> Board {
    let mut board = Board::start();
    (2..SPACES as u32).for_each(|space| create(&mut board, space));
    for (page, at) in random.shuffled::<PAGES>().into_iter().enumerate() {
        board.set_slot(PAGES + page, Slot { link: Link::Page(0, at as u8), rights: 7 });
    }
    with_summary(board)
}

/// How many random commands a mixed board has had: 400 and 1,600.
const COMMANDS: usize = SLOTS * 25 / 16;

/// A board as it stands after a while: all spaces live but one, and pages lent on from space to space.
fn mixed(random: &mut Random) -> Board {
    let mut board = Board::start();
    let idle = 2 + random.below(SPACES as u32 - 2);
    (2..SPACES as u32).filter(|&s| s != idle).for_each(|space| create(&mut board, space));
    for turn in 0..COMMANDS {
        let which = if turn < COMMANDS / 2 { 0 } else { random.below(7) as usize };
        let name = ["map", "map", "map", "map", "grant", "unmap", "flush"][which];
        let mut numbers = request(random, name, SPACES as u32);
        if name == "map" && random.below(2) == 0 {
            numbers[4] = 7;
        }
        make(&mut board, name, &numbers);
    }
    board
}
