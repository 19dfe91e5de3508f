//! An independent model of the page-lending board, written from the documents alone, and the random sessions that hold the
//! proved implementation against it.
//!
//! * the model: `sizes`, `calls`, `board`, `summary`, `range`, `listing`, `script`, `image`
//! * what is tried: `random`, `sessions` (calls and scripts), `lines` (malformed lines), `listings` (good and refused ones),
//!   `damage` (damaged images)
//! * the comparison: `shrink`, `tally` and `corners`, `drive_script` and `drive_from` (scripts that start from a listing),
//!   `drive_library`, `drive_listing`, `drive_both` (the two models beside each other), and `served` (the C functions, through a
//!   driver process; `command` starts it)
//! * `wrong` and `left` (tests only): deliberately wrong models, which the comparison has to tell apart

pub mod board;
pub mod calls;
pub mod command;
pub mod corners;
pub mod damage;
pub mod drive_both;
pub mod drive_from;
pub mod drive_library;
pub mod drive_listing;
pub mod drive_script;
pub mod image;
#[cfg(test)]
mod left;
pub mod lines;
pub mod listing;
pub mod listings;
pub mod random;
pub mod range;
pub mod script;
pub mod served;
pub mod sessions;
pub mod shrink;
pub mod sizes;
pub mod summary;
pub mod tally;
#[cfg(test)]
mod wrong;
