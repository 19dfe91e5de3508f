//! A listing in plain Rust, written from document 02 (M-102), on the image of include/lend.h: the board as text, the text as a board.
use super::image_plain::{start_over, Image};
use super::plain::{sound, sound_with_summary, Link, Place, Slot, Tables};
use super::{PAGES, PLACES, SLOTS, SPACES};
use crate::library::Out;
use std::io::Write as _;

const HELD: u32 = (SLOTS - PAGES) as u32;

/// The listing of a board.
pub fn listing(board: &impl Tables) -> Vec<u8> {
    let live: u32 = (0..SPACES).map(|space| u32::from(board.live(space)) << space).sum();
    let mut text = Vec::with_capacity(64 * SLOTS);
    writeln!(text, "live={live}").expect("a vector takes all");
    let mut held = 0;
    for page in PAGES..SLOTS {
        let slot = board.slot(page);
        if let Link::Page(parent, at) = slot.link {
            let (space, page, rights) = (page / PAGES, page % PAGES, slot.rights);
            writeln!(text, "space={space} page={page} parent={parent} at={at} rights={rights}").expect("a vector takes all");
            held += 1;
        }
    }
    writeln!(text, "held={held}").expect("a vector takes all");
    text
}

/// Writes the listing of the board in the image: 1, then 20.
pub fn write_listing(image: &mut [u8], text: &mut [u8], out: &mut Out) -> u32 {
    *out = [0; 4];
    let Some(board) = Image::of(image).filter(sound) else { return 1 };
    let listing = listing(&board);
    let Some(start) = text.get_mut(..listing.len()) else { return 20 };
    start.copy_from_slice(&listing);
    out[0] = listing.len() as u32;
    0
}

/// A key and its number at the start of a line: the number, where it is well written, and the rest.
fn field<'a>(line: &'a [u8], key: &str) -> Option<(u32, &'a [u8])> {
    let rest = line.strip_prefix(key.as_bytes())?;
    let digits = rest.iter().take_while(|byte| byte.is_ascii_digit()).count();
    if !(1..=5).contains(&digits) || (digits > 1 && rest[0] == b'0') {
        return None;
    }
    let number = rest[..digits].iter().fold(0, |n, digit| 10 * n + u32::from(digit - b'0'));
    Some((number, &rest[digits..]))
}

/// A line that is one key and its number, at most so large.
fn single(line: &[u8], key: &str, most: u32) -> Option<u32> {
    field(line, key).filter(|(number, rest)| rest.is_empty() && *number <= most).map(|(number, _)| number)
}

/// A page line: the page, and its slot.
fn page(line: &[u8]) -> Option<(usize, Slot)> {
    let (mut rest, mut numbers) = (line, [0; 5]);
    for (key, number) in ["space=", " page=", " parent=", " at=", " rights="].iter().zip(&mut numbers) {
        (*number, rest) = field(rest, key)?;
    }
    let [space, page, parent, at, rights] = numbers;
    let (spaces, pages) = (SPACES as u32, PAGES as u32);
    let fits = rest.is_empty() && (1..spaces).contains(&space) && page < pages && parent < spaces && at < pages;
    (fits && (1..=7).contains(&rights)).then_some((
        space as usize * PAGES + page as usize,
        Slot { link: Link::Page(parent as u8, at as u8), rights: rights as u8 },
    ))
}

/// Puts the listing into the start board: 17, then 18, then 1.
fn read_into(board: &mut impl Tables, text: &[u8]) -> Option<u32> {
    let mut lines = text.strip_suffix(b"\n")?.split(|&byte| byte == b'\n');
    let live = single(lines.next()?, "live=", (1 << SPACES) - 1)?;
    let (mut ordered, mut last, mut count, mut line) = (true, 0, 0, lines.next()?);
    for next in lines {
        let (at, slot) = page(line)?;
        board.set_slot(at, slot);
        ordered &= last < at;
        (last, line) = (at, next);
        count += 1;
    }
    ordered &= single(line, "held=", HELD)? == count;
    (0..SPACES).for_each(|space| board.set_live(space, live >> space & 1 == 1));
    (0..PLACES).for_each(|at| board.set_place(at, Place::default()));
    Some(if !ordered { 18 } else { u32::from(!sound_with_summary(board)) })
}

/// Reads a listing over an image; the start board where it is refused.
pub fn read_listing(image: &mut [u8], text: &mut [u8], out: &mut Out) -> u32 {
    *out = [0; 4];
    let Some(mut board) = start_over(image) else { return 1 };
    let number = read_into(&mut board, text).unwrap_or(17);
    if number != 0 {
        start_over(image);
    }
    number
}
