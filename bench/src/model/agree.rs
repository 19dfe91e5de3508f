//! Holds the three columns to one another: same number, same out fields, same bytes. Not timed.
use super::boards::{request, Kind, Ring};
use super::calls::{Call, CALLS};
use super::image_plain::{image_of, IMAGE};
use super::own::Board;
use super::plain::Tables;
use super::{MEMORY, PAGES, SPACES};
use crate::library::{Numbers, OnImage, Out};
use crate::random::Random;

/// What a call leaves behind.
#[derive(PartialEq, Debug)]
struct Left {
    number: u32,
    out: Out,
    image: Vec<u8>,
    memory: Vec<u8>,
}

fn memory() -> Vec<u8> {
    (0..MEMORY).map(|i| (i % 251) as u8).collect()
}

fn on_image(f: OnImage, image: &[u8], numbers: &Numbers) -> Left {
    let (mut image, mut memory, mut out) = (image.to_vec(), memory(), [9; 4]);
    let number = f(&mut image, &mut memory, numbers, &mut out);
    Left { number, out, image, memory }
}

fn on_board(call: &Call, board: &Board, numbers: &Numbers) -> Left {
    let (mut board, mut memory, mut out) = (board.clone(), memory(), [9; 4]);
    let number = (call.own)(&mut board, &mut memory, numbers, &mut out);
    Left { number, out, image: image_of(&board).to_vec(), memory }
}

fn same(call: &Call, numbers: &Numbers, one: &Left, other: &Left) {
    assert!(
        one == other,
        "{} {numbers:?}: the columns differ: {} {:?} and {} {:?}",
        call.name,
        one.number,
        one.out,
        other.number,
        other.out
    );
}

/// All three columns on one board.
fn all_three(call: &Call, board: &Board, image: &[u8; IMAGE], numbers: &Numbers) {
    let library = on_image(call.library, image, numbers);
    same(call, numbers, &library, &on_image(call.image, image, numbers));
    same(call, numbers, &library, &on_board(call, board, numbers));
}

/// Every call on every board of the ring: the ring's own request for its call.
pub fn on_ring(call: &Call, ring: &Ring) -> usize {
    for ((board, image), numbers) in ring.boards.iter().zip(&ring.images).zip(&ring.numbers) {
        all_three(call, board, image, numbers);
    }
    ring.boards.len()
}

/// The board with one count of its summary changed.
fn miscounted(random: &mut Random, board: &Board) -> Board {
    let (mut board, frame) = (board.clone(), random.below(PAGES as u32) as usize);
    let mut counts = board.counts(frame);
    counts.0[random.below(4) as usize] ^= 1 << random.below(16);
    board.set_counts(frame, counts);
    board
}

/// Every call with random numbers, bad ones among them, on random boards, on damaged images and on boards with a wrong summary.
pub fn at_random(random: &mut Random, boards: usize) -> usize {
    let mut compared = 0;
    for kind in Kind::all().into_iter().cycle().take(boards) {
        let board = kind.board(random);
        let image = image_of(&board);
        let mut damaged = image;
        damaged[random.below(IMAGE as u32) as usize] = random.below(SPACES as u32 + 2) as u8;
        let wrong = miscounted(random, &board);
        for call in &CALLS {
            for _ in 0..8 {
                let mut numbers = request(random, call.name, SPACES as u32 + 1);
                if random.below(8) == 0 {
                    numbers[random.below(7) as usize] = random.below(MEMORY as u32 * 5 / 4);
                }
                all_three(call, &board, &image, &numbers);
                same(call, &numbers, &on_image(call.library, &damaged, &numbers), &on_image(call.image, &damaged, &numbers));
                all_three(call, &wrong, &image_of(&wrong), &numbers);
                compared += 3;
            }
        }
    }
    compared
}
