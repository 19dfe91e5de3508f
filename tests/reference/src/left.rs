//! Premium models in which one limit of the entry model was left. The random runs have to tell each of them apart.

use crate::board::Board;
use crate::calls::{Call, Kind, Range, Reply};
use crate::drive_library::Subject;
use crate::image;
use crate::sizes::Sizes;

/// What was left at the entry model's number.
#[derive(Clone, Copy, Debug, PartialEq, Eq)]
pub enum Left {
    /// A space of 8 or more is refused.
    Spaces,
    /// A page of 32 or more is refused.
    Pages,
    /// An address of 32,768 or more is refused.
    Addresses,
    /// A board with a line of more than 8 pages is unsound.
    Lines,
    /// Eight places of the cache are used.
    Places,
    /// The next place goes up from 7 to 0.
    NextPlace,
    /// A part of size 16 is invalid.
    Parts,
    /// A base of 32 or more is invalid.
    Bases,
    /// Complete is 32 pages.
    Complete,
    /// The offset for no refused page is 32.
    Offset,
    /// load and store take 32,768 bytes of memory.
    Memory,
    /// A translation says that it followed 8 links at most.
    Links,
    /// A frame of 32 or more is refused.
    Frames,
    /// A frame's counts are told as bytes, which are wide enough for the entry model's.
    Counts,
}

impl Left {
    pub const ALL: [Left; 14] = [
        Left::Spaces,
        Left::Pages,
        Left::Addresses,
        Left::Lines,
        Left::Places,
        Left::NextPlace,
        Left::Parts,
        Left::Bases,
        Left::Complete,
        Left::Offset,
        Left::Memory,
        Left::Links,
        Left::Frames,
        Left::Counts,
    ];
}

impl Subject for Left {
    fn call(&mut self, bytes: &mut [u8], memory: &mut [u8], call: &Call) -> Reply {
        let left = *self;
        image::play_with(Sizes::PREMIUM, bytes, memory, call, |board, memory, call| play(left, board, memory, call))
    }
}

fn play(left: Left, board: &mut Board, memory: &mut [u8], call: &Call) -> Reply {
    let any = |numbers: Vec<u32>, limit: u32| numbers.into_iter().any(|number| number >= limit);
    let sizes = |condition: fn(&Range) -> bool| call.ranges().iter().any(condition);
    match left {
        Left::Spaces => refused_if(any(call.spaces(), 8), 3, board, memory, call),
        Left::Pages => refused_if(any(call.pages(), 32), 5, board, memory, call),
        Left::Addresses => refused_if(call.address() >= Some(32_768), 5, board, memory, call),
        Left::Parts => refused_if(sizes(|range| range.size == 16), 7, board, memory, call),
        Left::Bases => refused_if(sizes(|range| range.base >= 32), 7, board, memory, call),
        Left::Lines if board.spots().any(|page| board.line(page).count() > 8) => match call {
            Call::Start => board.play(memory, call),
            Call::Sound => Reply::bare(0),
            _ => Reply::bare(1),
        },
        Left::Places => with_eight_places(board, memory, call),
        Left::NextPlace => {
            let reply = board.play(memory, call);
            board.cache.next %= 8;
            reply
        }
        Left::Complete => board.play(memory, &with_half_complete(call)),
        Left::Offset => {
            let mut reply = board.play(memory, call);
            let none = !call.ranges().is_empty() && reply.out[1] == 64;
            reply.out[1] = if none { 32 } else { reply.out[1] };
            reply
        }
        Left::Memory => refused_if(call.kind().takes_memory() && memory.len() != 32_768, 2, board, memory, call),
        Left::Links => {
            let mut reply = board.play(memory, call);
            let most = if call.kind() == Kind::Translate { 8 } else { u32::MAX };
            reply.out[2] = reply.out[2].min(most);
            reply
        }
        Left::Frames => refused_if(call.frame() >= Some(32), 5, board, memory, call),
        Left::Counts => {
            let mut reply = board.play(memory, call);
            let most = if call.kind() == Kind::Frame { 255 } else { u32::MAX };
            reply.out.iter_mut().for_each(|count| *count &= most);
            reply
        }
        Left::Lines => board.play(memory, call),
    }
}

/// An accepted call is refused with that number if the condition holds.
fn refused_if(condition: bool, number: u32, board: &mut Board, memory: &mut [u8], call: &Call) -> Reply {
    let accepted = board.clone().play(&mut memory.to_vec(), call).number == 0;
    if accepted && condition {
        Reply::bare(number)
    } else {
        board.play(memory, call)
    }
}

/// The last eight places stay as they are and are not looked at.
fn with_eight_places(board: &mut Board, memory: &mut [u8], call: &Call) -> Reply {
    if !board.sound() {
        return board.play(memory, call);
    }
    let rest = board.cache.places.split_off(8);
    board.cache.next %= 8;
    let reply = board.play(memory, call);
    board.cache.places.truncate(8);
    board.cache.places.extend(rest);
    reply
}

/// The call with the lower half in the place of complete.
fn with_half_complete(call: &Call) -> Call {
    let halved = |range: Range| if range == (Range { base: 0, size: 1 }) { Range { base: 0, size: 15 } } else { range };
    let mut call = *call;
    match &mut call {
        Call::UnmapRange(asked) | Call::FlushRange(asked) => asked.range = halved(asked.range),
        Call::MapRange(asked) | Call::GrantRange(asked) => {
            (asked.given, asked.taken) = (halved(asked.given), halved(asked.taken));
        }
        _ => (),
    }
    call
}
