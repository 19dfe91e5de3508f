//! One model: plain Rust for its sizes, its boards, and what is measured on them. Compiled once for each model, see `main.rs`.
mod agree;
mod boards;
mod calls;
mod image_plain;
mod listing;
mod listings;
mod own;
mod plain;
mod ranges;
pub mod script;
mod space;
pub mod tables;
mod time;

use super::{counting, on_listings, proved, LONG_LINES, NAME, PAGES, PLACES, SPACES};

const SLOTS: usize = SPACES * PAGES;
const PAGE_BYTES: u32 = 1024;
const MEMORY: usize = PAGE_BYTES as usize * PAGES;
