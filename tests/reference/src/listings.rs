//! Listings of every kind: of sound boards, with something changed, of boards that are not sound, and at each limit.

use crate::board::{spot, Board, Link, Slot};
use crate::calls::ALL_RIGHTS;
use crate::damage::{damaged, Damage, Sweep};
use crate::image;
use crate::lines::{spoil, Flaw};
use crate::listing;
use crate::random::Random;
use crate::script::INPUT_LIMIT;
use crate::sessions::{crowded_board, random_board};
use crate::sizes::Sizes;

/// What is done to the listing of a sound board. Some by chance leave a good one.
#[derive(Clone, Copy, Debug, PartialEq, Eq)]
pub enum Twist {
    Untouched,
    ByteChanged,
    ByteRemoved,
    ByteAdded,
    LinesExchanged,
    NeighboursExchanged,
    LineRemoved,
    LineTwice,
    LineAdded,
    Cut,
    CutAtLine,
    SpoiltLine,
    Number,
    LateFlaw,
    TwoListings,
    OtherModel,
    UnsoundBoard,
    RandomLines,
    TooManyLines,
    AnyBytes,
}

impl Twist {
    pub const ALL: [Twist; 20] = [
        Twist::Untouched,
        Twist::ByteChanged,
        Twist::ByteRemoved,
        Twist::ByteAdded,
        Twist::LinesExchanged,
        Twist::NeighboursExchanged,
        Twist::LineRemoved,
        Twist::LineTwice,
        Twist::LineAdded,
        Twist::Cut,
        Twist::CutAtLine,
        Twist::SpoiltLine,
        Twist::Number,
        Twist::LateFlaw,
        Twist::TwoListings,
        Twist::OtherModel,
        Twist::UnsoundBoard,
        Twist::RandomLines,
        Twist::TooManyLines,
        Twist::AnyBytes,
    ];
}

/// The listing of a sound board, changed.
pub fn twisted(random: &mut Random, board: &Board, twist: Twist) -> Vec<u8> {
    let text = listing::write(board).into_bytes();
    match twist {
        Twist::Untouched => text,
        Twist::ByteChanged | Twist::ByteRemoved | Twist::ByteAdded => with_byte(random, text, twist),
        Twist::Cut => text[..random.below(text.len())].to_vec(),
        Twist::Number => with_number(random, &text),
        Twist::TwoListings => text.repeat(2),
        Twist::OtherModel => listing::write(&random_board(random, board.sizes.other())).into_bytes(),
        Twist::UnsoundBoard => unsound(random, board),
        Twist::RandomLines => random_lines(random, board.sizes),
        Twist::TooManyLines => too_many_lines(random, board.sizes),
        Twist::AnyBytes => (0..random.below(300)).map(|_| random.byte()).collect(),
        _ => with_lines(random, &text, twist),
    }
}

// ---- bytes -------------------------------------------------------------------------------------------------------------------

/// A byte that listings have, or any.
fn some_byte(random: &mut Random) -> u8 {
    let any = random.byte();
    random.pick(&[b'\n', b' ', b'=', b'0', b'1', b'7', b'9', b'\r', b'\0', b'#', b'e', any, any])
}

/// One byte changed, removed or added; often near an end, where `live`, `held` and the last newline stand.
fn with_byte(random: &mut Random, mut text: Vec<u8>, twist: Twist) -> Vec<u8> {
    let any = random.below(text.len());
    let at = random.pick(&[any, any, any % 9, text.len() - 1 - any % 9]);
    let byte = some_byte(random);
    match twist {
        Twist::ByteChanged => text[at] = if byte == text[at] { byte ^ 1 } else { byte },
        Twist::ByteRemoved => drop(text.remove(at)),
        _ => text.insert(random.pick(&[at, at + 1]), byte),
    }
    text
}

/// One of the numbers is another one: near it, small, or at a limit of some field.
fn with_number(random: &mut Random, text: &[u8]) -> Vec<u8> {
    let starts: Vec<usize> = (1..text.len()).filter(|&at| text[at - 1] == b'=').collect();
    let any = random.pick(&starts);
    let at = random.pick(&[any, any, starts[0], starts[starts.len() - 1]]);
    let digits = text[at..].iter().take_while(|byte| byte.is_ascii_digit()).count();
    let old: usize = String::from_utf8_lossy(&text[at..at + digits]).parse().expect("the listing of a board");
    let small = random.below(9);
    let ends = [0, 1, 7, 8, 15, 16, 31, 32, 63, 64, 224, 225, 255, 256, 960, 961, 65_535, 65_536, 99_999];
    let end = random.pick(&ends);
    let number = random.pick(&[small, old + 1, old.max(1) - 1, old ^ (1 << small), end]);
    [&text[..at], number.to_string().as_bytes(), &text[at + digits..]].concat()
}

// ---- lines -------------------------------------------------------------------------------------------------------------------

/// The lines changed: exchanged, removed, doubled, added, cut off, or one of them spoilt.
fn with_lines(random: &mut Random, text: &[u8], twist: Twist) -> Vec<u8> {
    let mut lines: Vec<Vec<u8>> = text.split_inclusive(|&byte| byte == b'\n').map(<[u8]>::to_vec).collect();
    let [first, second] = [0, 1].map(|_| random.below(lines.len()));
    match twist {
        Twist::LinesExchanged => lines.swap(first, second),
        Twist::NeighboursExchanged => lines.swap(first.max(1) - 1, first.max(1)),
        Twist::LineRemoved => drop(lines.remove(first)),
        Twist::LineTwice => lines.insert(first, lines[first].clone()),
        Twist::LineAdded => {
            let page = b"space=1 page=9 parent=0 at=9 rights=4\n".as_slice();
            let added = random.pick(&[page, b"\n", b"# a comment\n", b"live=3\n", b"held=0\n", b"op=create space=2\n"]);
            lines.insert(random.below(lines.len() + 1), added.to_vec());
        }
        Twist::CutAtLine => lines.truncate(first),
        Twist::LateFlaw => {
            lines.swap(first, second);
            spoil_last_page(random, &mut lines);
        }
        _ => spoil_page(random, &mut lines, first),
    }
    lines.concat()
}

/// The page line at that index, or the one next to it, gets a flaw; where there is none, an empty line is added.
fn spoil_page(random: &mut Random, lines: &mut Vec<Vec<u8>>, at: usize) {
    if lines.len() < 3 {
        return lines.insert(1, b"\n".to_vec());
    }
    let at = at.clamp(1, lines.len() - 2);
    let line = String::from_utf8_lossy(&lines[at]).trim_end().to_string();
    if line.starts_with("space=") {
        let flaw = random.pick(&Flaw::ALL);
        lines[at] = [spoil(random, &line, flaw).as_slice(), b"\n"].concat();
    }
}

fn spoil_last_page(random: &mut Random, lines: &mut Vec<Vec<u8>>) {
    let last = lines.len().max(2) - 2;
    spoil_page(random, lines, last);
}

// ---- boards that are not sound, and lines that are no board's ----------------------------------------------------------------

/// The damages of a board that its listing can say.
const IN_LISTINGS: [Damage; 8] = [
    Damage::PoolNotLive,
    Damage::LinkWithoutRights,
    Damage::RightsBeyondParent,
    Damage::RightsBeyondParent,
    Damage::EmptyParent,
    Damage::NotLive,
    Damage::Ring,
    Damage::SpaceTwice,
];

/// The listing of the board after a damage.
fn unsound(random: &mut Random, board: &Board) -> Vec<u8> {
    let damage = random.pick(&IN_LISTINGS);
    let bytes = damaged(random, board, damage, &mut Sweep::new(board.sizes));
    let board = image::decode(board.sizes, &bytes).expect("these damages leave a board's image");
    listing::write(&board).into_bytes()
}

/// Page lines in rising order with any numbers of their fields: mostly parents in space 0, so that some of the boards are sound.
fn random_lines(random: &mut Random, sizes: Sizes) -> Vec<u8> {
    let mut board = Board::start(sizes);
    board.live.iter_mut().skip(2).for_each(|live| *live = random.chance(90));
    for _ in 0..random.below(6) {
        let page = spot(random.between(1, sizes.spaces - 1), random.below(sizes.pages));
        let space = if random.chance(80) { 0 } else { random.below(sizes.spaces) };
        let link = Link::Page(spot(space, random.below(sizes.pages)));
        board.set_slot(page, Slot { link, rights: random.between(1, ALL_RIGHTS as usize) as u8 });
    }
    listing::write(&board).into_bytes()
}

/// More page lines than the model has pages, the last one malformed in some cases: 18, or 17.
fn too_many_lines(random: &mut Random, sizes: Sizes) -> Vec<u8> {
    let pages = (sizes.spaces - 1) * sizes.pages + random.between(1, 2000);
    let line = b"space=1 page=0 parent=0 at=0 rights=7\n".as_slice();
    let last = random.pick(&[b"".as_slice(), b"space=1 page=0 parent=0 at=0 rights=8\n"]);
    [b"live=3\n", line.repeat(pages).as_slice(), last, b"held=1\n"].concat()
}

/// Every page outside space 0 held, each from the pool.
pub fn full_board(random: &mut Random, sizes: Sizes) -> Board {
    let mut board = Board::start(sizes);
    board.live.fill(true);
    for page in board.clone().spots().filter(|page| page.space != 0) {
        let parent = spot(0, random.below(sizes.pages));
        board.set_slot(page, Slot { link: Link::Page(parent), rights: random.between(1, ALL_RIGHTS as usize) as u8 });
    }
    board.recount();
    board
}

/// A sound board, at times the start board, a full one, or one with most pages on one frame.
pub fn some_board(random: &mut Random, sizes: Sizes) -> Board {
    match random.below(20) {
        0 | 1 => Board::start(sizes),
        2 => full_board(random, sizes),
        3 => crowded_board(random, sizes),
        _ => random_board(random, sizes),
    }
}

// ---- limits ------------------------------------------------------------------------------------------------------------------

/// Listings that are read before the random ones: the shortest, and each field at its ends and just past them.
pub fn edge_listings(sizes: Sizes) -> Vec<Vec<u8>> {
    let mut texts: Vec<String> = [
        "",
        "\n",
        "live=3\n",
        "held=0\n",
        "live=3\nheld=0",
        "live=3\nheld=0\n",
        "live=3\nheld=0\n\n",
        "live=3\nheld=0\n#\n",
        "\nlive=3\nheld=0\n",
        "#\nlive=3\nheld=0\n",
        "live=3\n\nheld=0\n",
        "live=3\r\nheld=0\r\n",
        "live=3\nheld=1\n",
        "live=03\nheld=0\n",
        "live=3\nheld=00\n",
        "live=000003\nheld=0\n",
        "held=0\nlive=3\n",
    ]
    .map(str::to_string)
    .to_vec();
    texts.extend(field_ends(sizes));
    texts.into_iter().map(String::into_bytes).collect()
}

/// A listing of one page with each of its fields at each end, and one past it.
fn field_ends(sizes: Sizes) -> Vec<String> {
    let (space, page) = (sizes.spaces - 1, sizes.pages - 1);
    let all_live = (1 << sizes.spaces) - 1;
    let good = [all_live, 1, 0, 0, 0, 7, 1];
    let ends = [(0, all_live), (1, space), (0, page), (0, space), (0, page), (1, 7), (0, space * sizes.pages)];
    let write = |n: [usize; 7]| {
        let [live, space, page, parent, at, rights, held] = n;
        format!("live={live}\nspace={space} page={page} parent={parent} at={at} rights={rights}\nheld={held}\n")
    };
    let mut texts = Vec::new();
    for (field, (low, high)) in ends.into_iter().enumerate() {
        for number in [low.max(1) - 1, low, high, high + 1] {
            let mut numbers = good;
            numbers[field] = number;
            texts.push(write(numbers));
        }
    }
    texts
}

/// The listing of a line of three pages and of one page more, the last space and page among them.
fn small_listing(sizes: Sizes) -> String {
    let (space, page) = (sizes.spaces - 1, sizes.pages - 1);
    let mut board = Board::start(sizes);
    (board.live[2], board.live[space]) = (true, true);
    let links = [((1, 0), (0, 5), 7), ((2, 3), (1, 0), 6), ((space, page), (2, 3), 2), ((2, page), (0, page), 7)];
    for ((at_space, at_page), (parent, parent_page), rights) in links {
        let link = Link::Page(spot(parent, parent_page));
        board.set_slot(spot(at_space, at_page), Slot { link, rights });
    }
    listing::write(&board)
}

/// That listing cut everywhere, with each byte removed, changed and added before, and with each two of its lines exchanged.
pub fn small_changes(sizes: Sizes) -> Vec<Vec<u8>> {
    let text = small_listing(sizes).into_bytes();
    let mut texts = Vec::new();
    for at in 0..=text.len() {
        let (start, end) = text.split_at(at);
        let rest = end.get(1..).unwrap_or_default();
        texts.extend([start.to_vec(), [start, rest].concat()]);
        for byte in *b"\n =019" {
            texts.extend([[start, &[byte], rest].concat(), [start, &[byte], end].concat()]);
        }
    }
    let lines: Vec<&[u8]> = text.split_inclusive(|&byte| byte == b'\n').collect();
    for second in 0..lines.len() {
        for first in 0..second {
            let mut exchanged = lines.clone();
            exchanged.swap(first, second);
            texts.push(exchanged.concat());
        }
    }
    texts
}

/// A listing of the right form and of just so many bytes (2,000 or more), in which pages stand twice: 18.
pub fn long_listing(length: usize) -> Vec<u8> {
    let [short, long] = ["space=1 page=0 parent=0 at=0 rights=7\n", "space=1 page=10 parent=0 at=0 rights=7\n"];
    let ends = "live=3\nheld=1\n".len();
    let lines = (length - ends) / short.len();
    let longer = (length - ends) % short.len();
    ["live=3\n", &long.repeat(longer), &short.repeat(lines - longer), "held=1\n"].concat().into_bytes()
}

/// Files that the limit cuts, or that just fit.
pub fn listings_at_limit() -> Vec<Vec<u8>> {
    let mut files: Vec<Vec<u8>> = (INPUT_LIMIT - 1..=INPUT_LIMIT + 1).map(long_listing).collect();
    for more in ["x", "\n", "live=3\nheld=0\n"] {
        files.push([long_listing(INPUT_LIMIT).as_slice(), more.as_bytes()].concat());
    }
    files.push([b"live=3\nheld=0\n".as_slice(), &[b'\n'; INPUT_LIMIT]].concat());
    files
}

#[cfg(test)]
mod tests {
    use super::*;
    use crate::calls::Refusal;

    fn number(sizes: Sizes, text: &[u8]) -> usize {
        listing::read(sizes, text).map_or_else(|refusal| refusal.number() as usize, |_| 0)
    }

    #[test]
    fn the_twists_reach_every_number() {
        for (sizes, boards) in [(Sizes::ENTRY, 40), (Sizes::PREMIUM, 10)] {
            let mut random = Random::new(41);
            let mut seen = [0; 21];
            for _ in 0..boards {
                let board = some_board(&mut random, sizes);
                for twist in Twist::ALL {
                    seen[number(sizes, &twisted(&mut random, &board, twist))] += 1;
                }
            }
            assert!([0, 1, 17, 18].iter().all(|&number| seen[number] >= boards / 2), "{seen:?}");
        }
    }

    #[test]
    fn full_boards_are_full_and_sound() {
        for sizes in Sizes::MODELS {
            let board = full_board(&mut Random::new(42), sizes);
            assert!(board.sound());
            assert_eq!(board.lent_pages().count(), (sizes.spaces - 1) * sizes.pages);
            assert!(listing::write(&board).len() < INPUT_LIMIT);
        }
    }

    /// Seven fields with two good ends each: past the ends 17, at them 0 or a board that is not sound, or a wrong `held`.
    #[test]
    fn fields_at_their_ends() {
        for sizes in Sizes::MODELS {
            let refused = |text: &String| listing::read(sizes, text.as_bytes()) == Err(Refusal::Listing);
            let texts = field_ends(sizes);
            assert_eq!((texts.len(), texts.iter().filter(|text| refused(text)).count()), (28, 9));
        }
    }

    #[test]
    fn small_changes_reach_every_number() {
        for sizes in Sizes::MODELS {
            assert_eq!(number(sizes, small_listing(sizes).as_bytes()), 0);
            let mut seen = [0; 21];
            small_changes(sizes).iter().for_each(|text| seen[number(sizes, text)] += 1);
            assert!([0, 1, 17, 18].iter().all(|&number| seen[number] > 10), "{seen:?}");
        }
    }

    #[test]
    fn long_listings_have_their_length_and_are_18() {
        for length in [2000, INPUT_LIMIT - 1, INPUT_LIMIT, INPUT_LIMIT + 1] {
            let text = long_listing(length);
            assert_eq!((text.len(), number(Sizes::ENTRY, &text)), (length, 18));
        }
    }
}
