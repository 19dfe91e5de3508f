//! The proved library of each model, as include/lend.h declares it: once as it is, and once with its copies of memory counted
//! (`copies.rs`).

/// The numbers of a request, in the order of include/lend.h.
pub type Numbers = [u32; 7];
/// The out fields of an answer.
pub type Out = [u32; 4];
/// A call over an image, in the shape that all columns have. The memory is for load and store.
pub type OnImage = fn(&mut [u8], &mut [u8], &Numbers, &mut Out) -> u32;

/// A function that takes an image and numbers. The pointers are valid over the lengths given with them and do not overlap, here and
/// below: they come from `&mut`.
macro_rules! over_image {
    ($prefix:literal, $name:ident($($number:ident),*)) => {
        pub fn $name(image: &mut [u8], _: &mut [u8], numbers: &Numbers, out: &mut Out) -> u32 {
            extern "C" {
                #[link_name = concat!($prefix, stringify!($name))]
                fn call(image: *mut u8, length: usize, $($number: u32,)* out: *mut u32) -> u32;
            }
            let [$($number,)* ..] = *numbers;
            // SAFETY: see above.
            unsafe { call(image.as_mut_ptr(), image.len(), $($number,)* out.as_mut_ptr()) }
        }
    };
}

/// A function that takes an image, memory and numbers; or, in the place of memory, the text of a listing.
macro_rules! over_memory {
    ($prefix:literal, $name:ident($($number:ident: $type:ty),*)) => {
        pub fn $name(image: &mut [u8], memory: &mut [u8], numbers: &Numbers, out: &mut Out) -> u32 {
            extern "C" {
                #[link_name = concat!($prefix, stringify!($name))]
                fn call(image: *mut u8, length: usize, memory: *mut u8, bytes: usize, $($number: $type,)* out: *mut u32) -> u32;
            }
            let [$($number,)* ..] = *numbers;
            let (bytes, out) = (memory.len(), out.as_mut_ptr());
            // SAFETY: see above.
            unsafe { call(image.as_mut_ptr(), image.len(), memory.as_mut_ptr(), bytes, $($number as $type,)* out) }
        }
    };
}

/// The function with no out fields.
macro_rules! test_of_soundness {
    ($prefix:literal, $name:ident) => {
        pub fn $name(image: &mut [u8], _: &mut [u8], _: &Numbers, out: &mut Out) -> u32 {
            extern "C" {
                #[link_name = concat!($prefix, stringify!($name))]
                fn call(image: *mut u8, length: usize) -> u32;
            }
            *out = [0; 4];
            // SAFETY: see above.
            unsafe { call(image.as_mut_ptr(), image.len()) }
        }
    };
}

/// A library: its functions have the names of include/lend.h after a prefix.
macro_rules! library {
    ($module:ident, $prefix:literal) => {
        pub mod $module {
            use super::{Numbers, Out};
            over_image!($prefix, start());
            test_of_soundness!($prefix, sound);
            over_image!($prefix, create(space));
            over_image!($prefix, delete(space));
            over_image!($prefix, unmap(space, page, rights));
            over_image!($prefix, flush(space, page, rights));
            over_image!($prefix, map(from, page, to, at, rights));
            over_image!($prefix, grant(from, page, to, at, rights));
            over_image!($prefix, translate(space, address, rights));
            over_image!($prefix, frame(frame));
            over_memory!($prefix, load(space: u32, address: u32));
            over_memory!($prefix, store(space: u32, address: u32, value: u8));
            over_image!($prefix, unmap_range(space, base, size, rights));
            over_image!($prefix, flush_range(space, base, size, rights));
            over_image!($prefix, map_range(from, base, size, to, at_base, at_size, rights));
            over_image!($prefix, grant_range(from, base, size, to, at_base, at_size, rights));
        }
    };
}

library!(entry, "lend_entry_");
library!(entry_counting, "counting_lend_entry_");
library!(premium, "lend_premium_");
library!(premium_counting, "counting_lend_premium_");

/// The two calls on a listing, whose copies are not counted.
macro_rules! on_listings {
    ($module:ident, $prefix:literal) => {
        pub mod $module {
            use super::{Numbers, Out};
            over_memory!($prefix, write_listing());
            over_memory!($prefix, read_listing());
        }
    };
}

on_listings!(entry_listings, "lend_entry_");
on_listings!(premium_listings, "lend_premium_");
