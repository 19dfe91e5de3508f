//! The table of listings: a board written and read back, at three sizes, by the library and by plain Rust on the image.
use super::boards::with_summary;
use super::image_plain::{image_of, IMAGE};
use super::listing::{self, listing};
use super::own::Board;
use super::plain::{Link, Slot, Tables};
use super::{on_listings, PAGES, SLOTS, SPACES};
use crate::clock::on_processor;
use crate::library::{Numbers, OnImage, Out};
use crate::random::Random;
use std::hint::black_box;
use std::time::Instant;

const BOARDS: usize = 32;
const SAMPLES: usize = 10;

/// A board with all spaces live and so many pages held, each from a page of space 0.
fn board(random: &mut Random, held: usize) -> Board {
    let mut board = Board::start();
    (0..SPACES).for_each(|space| board.set_live(space, true));
    for page in PAGES..PAGES + held {
        let rights = 1 + random.below(7) as u8;
        board.set_slot(page, Slot { link: Link::Page(0, random.below(PAGES as u32) as u8), rights });
    }
    with_summary(board)
}

fn plain_write(image: &mut [u8], text: &mut [u8], _: &Numbers, out: &mut Out) -> u32 {
    listing::write_listing(image, text, out)
}

fn plain_read(image: &mut [u8], text: &mut [u8], _: &Numbers, out: &mut Out) -> u32 {
    listing::read_listing(image, text, out)
}

/// What is handed in and comes back.
type Pair = ([u8; IMAGE], Vec<u8>);

/// The two columns leave the same behind; so they do on a text with one byte changed.
fn agree(calls: [OnImage; 2], pairs: &[Pair], random: &mut Random) {
    let left = |f: OnImage, (image, text): &Pair| {
        let (mut image, mut text, mut out) = (*image, text.clone(), [9; 4]);
        let number = f(&mut image, &mut text, &Numbers::default(), &mut out);
        (number, image, text, out)
    };
    for (image, text) in pairs {
        let mut other = text.clone();
        other[random.below(text.len() as u32) as usize] = 47 + random.below(12) as u8;
        for pair in [(*image, text.clone()), (*image, other)] {
            assert!(left(calls[0], &pair) == left(calls[1], &pair), "a listing: the columns differ");
        }
    }
}

/// Nanoseconds per call, once round the boards.
fn sample(f: OnImage, pairs: &mut [Pair]) -> f64 {
    let (mut out, f, count) = (Out::default(), black_box(f), pairs.len());
    let began = on_processor();
    for (image, text) in pairs {
        assert!(black_box(f(image, text, &Numbers::default(), &mut out)) == 0, "a listing is refused");
        black_box(&out);
    }
    (on_processor() - began).as_nanos() as f64 / count as f64
}

/// The best sample of each column in the seconds given, in turns.
fn times(calls: [OnImage; 2], pairs: &mut [Pair], seconds: f64) -> [f64; 2] {
    let mut best = [f64::INFINITY; 2];
    let (mut samples, began) = (0, Instant::now());
    while samples < SAMPLES || began.elapsed().as_secs_f64() < seconds {
        for (best, f) in best.iter_mut().zip(calls) {
            *best = best.min(sample(f, pairs));
        }
        samples += 1;
    }
    best
}

/// Prints the table; the seconds are for each row and each direction.
pub fn print(random: &mut Random, seconds: f64) {
    println!("\nListings, nanoseconds per call, and per byte of the text:\n");
    print!("| held pages | bytes | write: library | plain Rust | library / plain | library, a byte ");
    println!("| read: library | plain Rust | library / plain | library, a byte |");
    println!("|---:|---:|---:|---:|---:|---:|---:|---:|---:|---:|");
    for held in [4, 2, 1].map(|part| (SLOTS - PAGES) / part) {
        let boards: Vec<Board> = (0..BOARDS).map(|_| board(random, held)).collect();
        let mut pairs: Vec<Pair> = boards.iter().map(|board| (image_of(board), listing(board))).collect();
        let bytes = pairs.iter().map(|(_, text)| text.len()).sum::<usize>() as f64 / BOARDS as f64;
        print!("| {held} | {bytes:.0} |");
        for calls in [[on_listings::write_listing as OnImage, plain_write], [on_listings::read_listing, plain_read]] {
            agree(calls, &pairs, random);
            let [library, plain] = times(calls, &mut pairs, seconds);
            print!(" {library:.0} | {plain:.0} | {:.2} | {:.2} |", library / plain, library / bytes);
        }
        println!();
    }
}
