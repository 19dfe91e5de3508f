//! The calls of a board, what comes back from them, and the numbers of 01's table.

pub const READ: u8 = 4;
pub const WRITE: u8 = 2;
pub const EXECUTE: u8 = 1;
pub const ALL_RIGHTS: u8 = 7;

/// Why a call is refused: 01, "Numbers that come back".
#[derive(Clone, Copy, Debug, PartialEq, Eq)]
pub enum Refusal {
    Unsound = 1,
    Memory = 2,
    Space = 3,
    NotLive = 4,
    Page = 5,
    Rights = 6,
    Range = 7,
    RangesDiffer = 8,
    Pool = 9,
    Live = 10,
    Empty = 11,
    NotHeld = 12,
    Ring = 13,
    SourceBelow = 14,
    TakerBelow = 15,
    /// A listing is malformed (M-102).
    Listing = 17,
    /// A listing's pages are out of order or named twice, or `held` is wrong.
    ListingOrder = 18,
    /// The buffer for a listing is too short.
    Buffer = 20,
}

impl Refusal {
    pub fn number(self) -> u32 {
        self as u32
    }
}

/// The number of a malformed script line.
pub const MALFORMED: u32 = 16;

/// How many numbers the table has, 0 included.
pub const NUMBERS: usize = 21;

/// What unmap and flush take.
#[derive(Clone, Copy, Debug, PartialEq, Eq)]
pub struct Withdrawal {
    pub space: u32,
    pub page: u32,
    pub rights: u32,
}

/// What map and grant take: the giver's space and page, the taker's space and page, rights.
#[derive(Clone, Copy, Debug, PartialEq, Eq)]
pub struct Lending {
    pub from: u32,
    pub page: u32,
    pub to: u32,
    pub at: u32,
    pub rights: u32,
}

/// A range as a caller states it: base in KiB and size.
#[derive(Clone, Copy, Debug, PartialEq, Eq)]
pub struct Range {
    pub base: u32,
    pub size: u32,
}

/// What unmap and flush take over a range.
#[derive(Clone, Copy, Debug, PartialEq, Eq)]
pub struct RangeWithdrawal {
    pub space: u32,
    pub range: Range,
    pub rights: u32,
}

/// What map and grant take over two ranges.
#[derive(Clone, Copy, Debug, PartialEq, Eq)]
pub struct RangeLending {
    pub from: u32,
    pub given: Range,
    pub to: u32,
    pub taken: Range,
    pub rights: u32,
}

/// A call with its parameters, which may be any numbers.
#[derive(Clone, Copy, Debug, PartialEq, Eq)]
pub enum Call {
    Start,
    Sound,
    Create {
        space: u32,
    },
    Delete {
        space: u32,
    },
    Unmap(Withdrawal),
    Flush(Withdrawal),
    Map(Lending),
    Grant(Lending),
    Translate {
        space: u32,
        address: u32,
        rights: u32,
    },
    Load {
        space: u32,
        address: u32,
    },
    Store {
        space: u32,
        address: u32,
        value: u8,
    },
    /// Who uses a frame (M-106).
    Frame {
        frame: u32,
    },
    UnmapRange(RangeWithdrawal),
    FlushRange(RangeWithdrawal),
    MapRange(RangeLending),
    GrantRange(RangeLending),
    WriteListing,
    ReadListing,
}

/// Which call it is.
#[derive(Clone, Copy, Debug, PartialEq, Eq)]
pub enum Kind {
    Start,
    Create,
    Delete,
    Unmap,
    Flush,
    Map,
    Grant,
    Translate,
    Load,
    Store,
    Frame,
    UnmapRange,
    FlushRange,
    MapRange,
    GrantRange,
    Sound,
    WriteListing,
    ReadListing,
}

impl Call {
    pub fn kind(&self) -> Kind {
        match self {
            Call::Start => Kind::Start,
            Call::Sound => Kind::Sound,
            Call::Create { .. } => Kind::Create,
            Call::Delete { .. } => Kind::Delete,
            Call::Unmap(_) => Kind::Unmap,
            Call::Flush(_) => Kind::Flush,
            Call::Map(_) => Kind::Map,
            Call::Grant(_) => Kind::Grant,
            Call::Translate { .. } => Kind::Translate,
            Call::Load { .. } => Kind::Load,
            Call::Store { .. } => Kind::Store,
            Call::Frame { .. } => Kind::Frame,
            Call::UnmapRange(_) => Kind::UnmapRange,
            Call::FlushRange(_) => Kind::FlushRange,
            Call::MapRange(_) => Kind::MapRange,
            Call::GrantRange(_) => Kind::GrantRange,
            Call::WriteListing => Kind::WriteListing,
            Call::ReadListing => Kind::ReadListing,
        }
    }
}

/// The numbers that a call names.
impl Call {
    pub fn spaces(&self) -> Vec<u32> {
        match *self {
            Call::Start | Call::Sound | Call::Frame { .. } | Call::WriteListing | Call::ReadListing => vec![],
            Call::Create { space } | Call::Delete { space } => vec![space],
            Call::Unmap(asked) | Call::Flush(asked) => vec![asked.space],
            Call::Map(asked) | Call::Grant(asked) => vec![asked.from, asked.to],
            Call::Translate { space, .. } | Call::Load { space, .. } | Call::Store { space, .. } => vec![space],
            Call::UnmapRange(asked) | Call::FlushRange(asked) => vec![asked.space],
            Call::MapRange(asked) | Call::GrantRange(asked) => vec![asked.from, asked.to],
        }
    }

    pub fn pages(&self) -> Vec<u32> {
        match *self {
            Call::Unmap(asked) | Call::Flush(asked) => vec![asked.page],
            Call::Map(asked) | Call::Grant(asked) => vec![asked.page, asked.at],
            _ => vec![],
        }
    }

    pub fn address(&self) -> Option<u32> {
        match *self {
            Call::Translate { address, .. } | Call::Load { address, .. } | Call::Store { address, .. } => Some(address),
            _ => None,
        }
    }

    pub fn frame(&self) -> Option<u32> {
        match *self {
            Call::Frame { frame } => Some(frame),
            _ => None,
        }
    }

    pub fn ranges(&self) -> Vec<Range> {
        match *self {
            Call::UnmapRange(asked) | Call::FlushRange(asked) => vec![asked.range],
            Call::MapRange(asked) | Call::GrantRange(asked) => vec![asked.given, asked.taken],
            _ => vec![],
        }
    }
}

impl Kind {
    /// How many kinds there are.
    pub const COUNT: usize = 18;

    /// The calls that a script has.
    pub const SCRIPT: [Kind; 7] =
        [Kind::Create, Kind::Delete, Kind::Unmap, Kind::Flush, Kind::Map, Kind::Grant, Kind::Translate];

    /// The calls of the library that answer a number of the table (`sound` answers yes or no): start, those for one page, one
    /// space or one frame, and those for ranges.
    pub const LIBRARY: &'static [Kind] = &[
        Kind::Start,
        Kind::Create,
        Kind::Delete,
        Kind::Unmap,
        Kind::Flush,
        Kind::Map,
        Kind::Grant,
        Kind::Translate,
        Kind::Load,
        Kind::Store,
        Kind::Frame,
        Kind::UnmapRange,
        Kind::FlushRange,
        Kind::MapRange,
        Kind::GrantRange,
    ];

    /// The calls that act on a board, so all but start and sound.
    pub const BOARD: &'static [Kind] = Kind::LIBRARY.split_at(1).1;

    /// The calls for one page, one space or one frame.
    pub const ONE_PAGE: &'static [Kind] = Kind::BOARD.split_at(10).0;

    /// The calls that write and read listings.
    pub const LISTING: &'static [Kind] = &[Kind::WriteListing, Kind::ReadListing];

    pub fn name(self) -> &'static str {
        match self {
            Kind::Start => "start",
            Kind::Create => "create",
            Kind::Delete => "delete",
            Kind::Unmap => "unmap",
            Kind::Flush => "flush",
            Kind::Map => "map",
            Kind::Grant => "grant",
            Kind::Translate => "translate",
            Kind::Load => "load",
            Kind::Store => "store",
            Kind::Frame => "frame",
            Kind::UnmapRange => "unmaps",
            Kind::FlushRange => "flushes",
            Kind::MapRange => "maps",
            Kind::GrantRange => "grants",
            Kind::Sound => "sound",
            Kind::WriteListing => "write",
            Kind::ReadListing => "read",
        }
    }

    /// The numbers that the call can give: 01, "Which concern which", and 0.
    pub fn numbers(self) -> &'static [u32] {
        match self {
            Kind::Start | Kind::Sound => &[0, 1],
            Kind::Create => &[0, 1, 3, 10],
            Kind::Delete => &[0, 1, 3, 4, 9],
            Kind::Unmap => &[0, 1, 3, 4, 5, 6],
            Kind::Flush => &[0, 1, 3, 4, 5, 6, 9],
            Kind::Map | Kind::Grant => &[0, 1, 3, 4, 5, 6, 9, 11, 12, 13, 14, 15],
            Kind::Translate => &[0, 1, 3, 4, 5, 6, 11, 12],
            Kind::Load | Kind::Store => &[0, 1, 2, 3, 4, 5, 11, 12],
            Kind::Frame => &[0, 1, 5],
            Kind::UnmapRange => &[0, 1, 3, 4, 6, 7],
            Kind::FlushRange => &[0, 1, 3, 4, 6, 7, 9],
            Kind::MapRange | Kind::GrantRange => &[0, 1, 3, 4, 6, 7, 8, 9, 11, 12, 13, 14, 15],
            Kind::WriteListing => &[0, 1, 20],
            Kind::ReadListing => &[0, 1, 17, 18],
        }
    }

    /// True for the calls that are given bytes beside the image: memory, or the text of a listing.
    pub fn takes_memory(self) -> bool {
        matches!(self, Kind::Load | Kind::Store | Kind::WriteListing | Kind::ReadListing)
    }
}

/// What a call answers: its number and the four out fields of the C interface.
#[derive(Clone, Copy, Debug, Default, PartialEq, Eq)]
pub struct Reply {
    pub number: u32,
    pub out: [u32; 4],
    /// A byte outside what was lent to the call has changed. Never so for the model.
    pub strayed: bool,
}

impl Reply {
    /// Done, with these first two out fields.
    pub fn done(first: u32, second: u32) -> Reply {
        Reply { number: 0, out: [first, second, 0, 0], strayed: false }
    }

    /// Of an accepted translation: the physical address, 1 for a hit, and the number of links to the frame.
    pub fn translated(address: u32, hit: u32, links: u32) -> Reply {
        Reply { number: 0, out: [address, hit, links, 0], strayed: false }
    }

    /// Of a call over a range: the number, the pages done, the offset of the first refused one, and the pages emptied.
    pub fn range(number: u32, done: u32, offset: u32, emptied: u32) -> Reply {
        Reply { number, out: [done, offset, emptied, 0], strayed: false }
    }

    /// Of a frame: the pages held, and those of them with read, write and execute.
    pub fn counts(out: [u32; 4]) -> Reply {
        Reply { number: 0, out, strayed: false }
    }

    /// Refused, or an answer that is a number only.
    pub fn bare(number: u32) -> Reply {
        Reply { number, ..Reply::default() }
    }
}

impl From<Refusal> for Reply {
    fn from(refusal: Refusal) -> Reply {
        Reply::bare(refusal.number())
    }
}
