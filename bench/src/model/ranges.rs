//! The calls over ranges in plain Rust, over the one-page calls of `plain.rs`; soundness is tested once. The numbers stand in the order
//! of include/lend.h.
use super::plain::{self, check_rights, check_sound, check_spaces, refuse_if, Refusal, Tables};
use super::{PAGES, SLOTS};
use crate::library::Numbers;

const LAST_PAGE: u32 = PAGES as u32 - 1;
/// The size of the largest part, which has every page; that of the smallest is 10.
const LARGEST: u32 = 10 + PAGES.ilog2();

/// What a call over a range did: the first refused page's number or 0, the pages done, that page's offset or the number of all pages,
/// and how many pages were emptied.
pub struct Done {
    pub number: u32,
    pub pages: u32,
    pub offset: u32,
    pub emptied: u32,
}

/// The first page of a range and how many it has.
fn decoded(base: u32, size: u32) -> Result<(u32, u32), Refusal> {
    match (base, size) {
        (0, 0) => Ok((0, 0)),
        (0, 1) => Ok((0, PAGES as u32)),
        (0..=LAST_PAGE, 10..=LARGEST) => {
            let count = 1 << (size - 10);
            Ok((base - base % count, count))
        }
        _ => Err(Refusal::Range),
    }
}

/// Makes the one-page call at each offset and passes over the refused ones.
fn each_page<T: Tables>(b: &mut T, count: u32, call: impl Fn(&mut T, u32) -> Result<u32, Refusal>) -> Done {
    let held: [bool; SLOTS] = std::array::from_fn(|page| b.slot(page).held());
    let mut done = Done { number: 0, pages: 0, offset: PAGES as u32, emptied: 0 };
    for offset in 0..count {
        match call(b, offset) {
            Ok(_) => done.pages += 1,
            Err(refusal) if done.number == 0 => (done.number, done.offset) = (refusal as u32, offset),
            Err(_) => {}
        }
    }
    done.emptied = (0..SLOTS).filter(|&page| held[page] && !b.slot(page).held()).count() as u32;
    done
}

/// The first checks of unmap and flush, and the pages.
fn one_range<T: Tables>(b: &T, n: &Numbers) -> Result<(u32, u32), Refusal> {
    check_sound(b)?;
    check_spaces(b, &[n[0]])?;
    check_rights(n[3])?;
    decoded(n[1], n[2])
}

/// The first checks of map and grant, and the two first pages and their number.
fn two_ranges<T: Tables>(b: &T, n: &Numbers) -> Result<(u32, u32, u32), Refusal> {
    check_sound(b)?;
    check_spaces(b, &[n[0], n[3]])?;
    check_rights(n[6])?;
    let (page, count) = decoded(n[1], n[2])?;
    let (at, taken) = decoded(n[4], n[5])?;
    refuse_if(count != taken, Refusal::RangesDiffer)?;
    Ok((page, at, count))
}

pub fn unmap_range<T: Tables>(b: &mut T, n: &Numbers) -> Result<Done, Refusal> {
    let (page, count) = one_range(b, n)?;
    Ok(each_page(b, count, |b, offset| plain::unmap_sound(b, n[0], page + offset, n[3])))
}

pub fn flush_range<T: Tables>(b: &mut T, n: &Numbers) -> Result<Done, Refusal> {
    let (page, count) = one_range(b, n)?;
    Ok(each_page(b, count, |b, offset| plain::flush_sound(b, n[0], page + offset, n[3])))
}

pub fn map_range<T: Tables>(b: &mut T, n: &Numbers) -> Result<Done, Refusal> {
    let (page, at, count) = two_ranges(b, n)?;
    Ok(each_page(b, count, |b, offset| plain::map_sound(b, n[0], page + offset, n[3], at + offset, n[6])))
}

pub fn grant_range<T: Tables>(b: &mut T, n: &Numbers) -> Result<Done, Refusal> {
    let (page, at, count) = two_ranges(b, n)?;
    Ok(each_page(b, count, |b, offset| plain::grant_sound(b, n[0], page + offset, n[3], at + offset, n[6])))
}
