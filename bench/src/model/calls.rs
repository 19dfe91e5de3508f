//! The shape that every column's calls have, so that one loop can time them all.
use super::own::Board;
use super::plain::{Counts, Refusal};
use super::ranges::Done;
use super::{counting, image_plain, own, proved};
use crate::library::{Numbers, OnImage, Out};

/// A call over a board of plain Rust, in the same shape.
pub type OnBoard = fn(&mut Board, &mut [u8], &Numbers, &mut Out) -> u32;

/// Calls the macro with each call's name and what it does in plain Rust.
macro_rules! each_call {
    ($make:ident) => {
        $make!(start, |b, _memory, _n, _out| {
            super::plain::start(b);
            0
        });
        $make!(sound, |b, _memory, _n, _out| u32::from(super::plain::sound(b)));
        $make!(create, |b, _memory, n, out| super::calls::answer(super::plain::create(b, n[0]), out));
        $make!(delete, |b, _memory, n, out| super::calls::answer(super::plain::delete(b, n[0]), out));
        $make!(unmap, |b, _memory, n, out| super::calls::answer(super::plain::unmap(b, n[0], n[1], n[2]), out));
        $make!(flush, |b, _memory, n, out| super::calls::answer(super::plain::flush(b, n[0], n[1], n[2]), out));
        $make!(map, |b, _memory, n, out| super::calls::answer(super::plain::map(b, n[0], n[1], n[2], n[3], n[4]), out));
        $make!(grant, |b, _memory, n, out| super::calls::answer(super::plain::grant(b, n[0], n[1], n[2], n[3], n[4]), out));
        $make!(translate, |b, _memory, n, out| {
            let answer = super::plain::translate(b, n[0], n[1], n[2]);
            out[1..3].copy_from_slice(&answer.map_or([0, 0], |found| [u32::from(found.hit), found.links]));
            super::calls::answer(answer.map(|found| found.address), out)
        });
        $make!(frame, |b, _memory, n, out| super::calls::counts_answer(super::plain::frame(b, n[0]), out));
        $make!(load, |b, memory, n, out| super::calls::answer(super::plain::load(b, memory, n[0], n[1]).map(u32::from), out));
        $make!(store, |b, memory, n, out| {
            super::calls::answer(super::plain::store(b, memory, n[0], n[1], n[2] as u8).map(|()| 0), out)
        });
        $make!(unmap_range, |b, _memory, n, out| super::calls::range_answer(super::ranges::unmap_range(b, n), out));
        $make!(flush_range, |b, _memory, n, out| super::calls::range_answer(super::ranges::flush_range(b, n), out));
        $make!(map_range, |b, _memory, n, out| super::calls::range_answer(super::ranges::map_range(b, n), out));
        $make!(grant_range, |b, _memory, n, out| super::calls::range_answer(super::ranges::grant_range(b, n), out));
    };
}
pub(crate) use each_call;

/// The number of an answer, its first field put where it belongs.
pub fn answer(answer: Result<u32, Refusal>, out: &mut Out) -> u32 {
    match answer {
        Ok(first) => {
            out[0] = first;
            0
        }
        Err(refusal) => refusal as u32,
    }
}

/// The number of an answer that is a frame's counts, each put where it belongs.
pub fn counts_answer(answer: Result<Counts, Refusal>, out: &mut Out) -> u32 {
    match answer {
        Ok(Counts(counts)) => {
            *out = counts.map(u32::from);
            0
        }
        Err(refusal) => refusal as u32,
    }
}

/// The number of a range call's answer, its three fields put where they belong.
pub fn range_answer(answer: Result<Done, Refusal>, out: &mut Out) -> u32 {
    match answer {
        Ok(done) => {
            out[..3].copy_from_slice(&[done.pages, done.offset, done.emptied]);
            done.number
        }
        Err(refusal) => refusal as u32,
    }
}

/// One call in its three columns.
#[derive(Clone, Copy)]
pub struct Call {
    pub name: &'static str,
    pub library: OnImage,
    /// The library with its copies of memory counted: not for timing.
    pub counting: OnImage,
    pub image: OnImage,
    pub own: OnBoard,
}

macro_rules! table {
    ($($name:ident)*) => {
        /// Every call.
        pub const CALLS: [Call; 16] = [$(Call {
            name: stringify!($name),
            library: proved::$name,
            counting: counting::$name,
            image: image_plain::$name,
            own: own::$name,
        }),*];
    };
}
table!(start sound create delete unmap flush map grant translate frame load store unmap_range flush_range map_range grant_range);

/// The call of that name.
pub fn call(name: &str) -> Call {
    *CALLS.iter().find(|call| call.name == name).expect("a call's name")
}
