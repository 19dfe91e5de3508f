//! Listings (01, "The script program", as M-102 amends it): the writer, and the reader with its refusals.

use crate::board::{refuse_if, spot, Board, Link, Slot, Spot};
use crate::calls::{Refusal, ALL_RIGHTS};
use crate::script::numbers;
use crate::sizes::Sizes;

const PAGE_KEYS: &[&str] = &["space", "page", "parent", "at", "rights"];

/// Bit s is set where space s is live.
fn live_bits(board: &Board) -> u32 {
    board.live.iter().enumerate().map(|(space, &live)| (live as u32) << space).sum()
}

/// The listing of a board: its live spaces, the held pages outside space 0, and their number.
pub fn write(board: &Board) -> String {
    let mut listing = format!("live={}\n", live_bits(board));
    let mut held = 0;
    for page in board.lent_pages() {
        let slot = board.slot(page);
        if let Link::Page(parent) = slot.link {
            listing += &format!(
                "space={} page={} parent={} at={} rights={}\n",
                page.space, page.page, parent.space, parent.page, slot.rights
            );
            held += 1;
        }
    }
    listing + &format!("held={held}\n")
}

/// What a listing of the right form says.
struct Listing {
    live: u32,
    pages: Vec<(Spot, Slot)>,
    held: u32,
}

/// The board of a listing, with an empty cache and next place 0; or 17 for the form of the whole text, then 18, then 1.
pub fn read(sizes: Sizes, text: &[u8]) -> Result<Board, Refusal> {
    let listing = parse(sizes, text).ok_or(Refusal::Listing)?;
    refuse_if(!listing.in_order() || listing.pages.len() != listing.held as usize, Refusal::ListingOrder)?;
    let board = listing.board(sizes);
    board.check_sound()?;
    Ok(board)
}

/// The first line `live`, the last `held`, page lines alone between, and a newline after each; nothing for any other text.
fn parse(sizes: Sizes, text: &[u8]) -> Option<Listing> {
    let lines: Vec<&[u8]> = text.strip_suffix(b"\n")?.split(|&byte| byte == b'\n').collect();
    let (first, rest) = lines.split_first()?;
    let (last, pages) = rest.split_last()?;
    let all_live = (1 << sizes.spaces) - 1;
    let most_held = (sizes.spaces - 1) * sizes.pages;
    Some(Listing {
        live: fields(first, &["live"], &[(0, all_live)])?[0],
        pages: pages.iter().map(|line| page_line(sizes, line)).collect::<Option<_>>()?,
        held: fields(last, &["held"], &[(0, most_held)])?[0],
    })
}

fn page_line(sizes: Sizes, line: &[u8]) -> Option<(Spot, Slot)> {
    let (space, page) = (sizes.spaces - 1, sizes.pages - 1);
    let n = fields(line, PAGE_KEYS, &[(1, space), (0, page), (0, space), (0, page), (1, ALL_RIGHTS as usize)])?;
    let link = Link::Page(spot(n[2] as usize, n[3] as usize));
    Some((spot(n[0] as usize, n[1] as usize), Slot { link, rights: n[4] as u8 }))
}

/// The numbers of a line with these keys, each between its two ends.
fn fields(line: &[u8], keys: &[&str], ends: &[(usize, usize)]) -> Option<Vec<u32>> {
    let found = numbers(std::str::from_utf8(line).ok()?, keys)?;
    let within = found.iter().zip(ends).all(|(&number, &(low, high))| (low..=high).contains(&(number as usize)));
    within.then_some(found)
}

impl Listing {
    /// By rising space, then page, and none twice.
    fn in_order(&self) -> bool {
        let key = |page: &(Spot, Slot)| (page.0.space, page.0.page);
        self.pages.windows(2).all(|two| key(&two[0]) < key(&two[1]))
    }

    fn board(&self, sizes: Sizes) -> Board {
        let mut board = Board::start(sizes);
        for space in 0..sizes.spaces {
            board.live[space] = self.live >> space & 1 == 1;
        }
        for &(page, slot) in &self.pages {
            board.set_slot(page, slot);
        }
        board.recount();
        board
    }
}

// ---- the calls ---------------------------------------------------------------------------------------------------------------

impl Board {
    /// Writes the listing to the start of the lent text: its length, or 1, then 20, and no byte is touched.
    pub fn write_listing(&self, text: &mut [u8]) -> Result<u32, Refusal> {
        self.check_sound()?;
        let listing = write(self);
        refuse_if(text.len() < listing.len(), Refusal::Buffer)?;
        text[..listing.len()].copy_from_slice(listing.as_bytes());
        Ok(listing.len() as u32)
    }

    /// Becomes the board of the listing, whatever it was; with a refusal, the start board.
    pub fn read_listing(&mut self, text: &[u8]) -> Result<(), Refusal> {
        let read = read(self.sizes, text);
        *self = read.clone().unwrap_or(Board::start(self.sizes));
        read.map(|_| ())
    }
}

#[cfg(test)]
mod tests {
    use super::*;
    use crate::board::tests::board_k;
    use crate::board::Cache;
    use crate::random::Random;
    use crate::sessions::random_board;

    const K: &str = "\
live=31
space=1 page=0 parent=0 at=5 rights=7
space=2 page=3 parent=1 at=0 rights=6
space=2 page=4 parent=0 at=6 rights=7
space=3 page=1 parent=2 at=3 rights=2
held=4
";

    /// What both models answer to a text: 0 or the refusal.
    fn number(text: &str) -> u32 {
        let [entry, premium] = Sizes::MODELS.map(|sizes| read(sizes, text.as_bytes()).map_or_else(Refusal::number, |_| 0));
        assert_eq!(entry, premium, "{text}");
        entry
    }

    fn without_cache(mut board: Board) -> Board {
        board.cache = Board::start(board.sizes).cache;
        board
    }

    #[test]
    fn board_k_is_written_and_read_back() {
        for sizes in Sizes::MODELS {
            let mut board = board_k(sizes);
            board.translate(2, 3 * 1024, 4).unwrap();
            board.cache.next = 5;
            assert_eq!(write(&board), K);
            assert_eq!(read(sizes, K.as_bytes()), Ok(board_k(sizes)));
            assert_eq!(read(sizes, b"live=3\nheld=0\n"), Ok(Board::start(sizes)));
        }
    }

    #[test]
    fn random_boards_are_written_and_read_back_with_an_empty_cache() {
        for (sizes, boards) in [(Sizes::ENTRY, 200), (Sizes::PREMIUM, 20)] {
            let mut random = Random::new(31);
            for _ in 0..boards {
                let board = random_board(&mut random, sizes);
                let text = write(&board);
                let read = read(sizes, text.as_bytes()).unwrap();
                assert_eq!((&read.cache.places, read.cache.next), (&vec![Default::default(); sizes.places], 0));
                assert_eq!(write(&read), text);
                assert_eq!(read, without_cache(board));
            }
        }
    }

    #[test]
    fn texts_of_another_form_are_17() {
        for text in [
            "",
            "\n",
            "live=3\n",
            "held=0\n",
            "live=3\nheld=0",
            "live=3\nheld=0\n\n",
            "\nlive=3\nheld=0\n",
            "held=0\nlive=3\n",
            "live=3\nlive=3\nheld=0\n",
            "live=3\nheld=0\nheld=0\n",
            "live=3\n\nheld=0\n",
            "live=3\n#\nheld=0\n",
            "# a\nlive=3\nheld=0\n",
            "live=3\r\nheld=0\r\n",
            "live=03\nheld=0\n",
            "live=3\nheld=00\n",
            "live=3 \nheld=0\n",
            "live= 3\nheld=0\n",
            "live=\nheld=0\n",
            "live=+3\nheld=0\n",
            "Live=3\nheld=0\n",
            "live=3 held=0\n",
            "live=3\nheld=0\n ",
            "live=100000\nheld=0\n",
            "live=65536\nheld=0\n",
            "live=3\nheld=961\n",
            "live=3\nheld=0\nlive=3\nheld=0\n",
        ] {
            assert_eq!(number(text), 17, "{text:?}");
        }
        assert_eq!(read(Sizes::ENTRY, &K.as_bytes()[..K.len() - 1]), Err(Refusal::Listing));
        assert_eq!(read(Sizes::ENTRY, b"live=3\nheld=0\xff\n"), Err(Refusal::Listing));
    }

    /// A field at each of its ends and just past them, on each model.
    #[test]
    fn numbers_outside_their_field_are_17() {
        for (sizes, live, last, page, held) in [(Sizes::ENTRY, 255, 7, 31, 224), (Sizes::PREMIUM, 65_535, 15, 63, 960)] {
            let is_17 = |text: String| read(sizes, text.as_bytes()) == Err(Refusal::Listing);
            let line = |space, page, parent, at, rights| {
                is_17(format!("live={live}\nspace={space} page={page} parent={parent} at={at} rights={rights}\nheld=1\n"))
            };
            assert!(!is_17(format!("live={live}\nheld={held}\n")) && !is_17("live=0\nheld=0\n".to_string()));
            assert!(is_17(format!("live={}\nheld=0\n", live + 1)) && is_17(format!("live=3\nheld={}\n", held + 1)));
            assert!(!line(last, page, last, page, 7) && !line(1, 0, 0, 0, 1));
            assert!(line(0, 0, 0, 0, 1) && line(last + 1, 0, 0, 0, 1) && line(1, page + 1, 0, 0, 1));
            assert!(line(1, 0, last + 1, 0, 1) && line(1, 0, 0, page + 1, 1) && line(1, 0, 0, 0, 0) && line(1, 0, 0, 0, 8));
        }
    }

    #[test]
    fn order_and_held_are_18_after_the_whole_form() {
        let [a, b] = ["space=1 page=0 parent=0 at=5 rights=7\n", "space=1 page=1 parent=0 at=6 rights=7\n"];
        assert_eq!(number(&format!("live=3\n{a}{b}held=2\n")), 0);
        assert_eq!(number(&format!("live=3\n{b}{a}held=2\n")), 18);
        assert_eq!(number(&format!("live=3\n{a}{a}held=2\n")), 18);
        assert_eq!(number(&format!("live=3\n{a}{b}held=1\n")), 18);
        assert_eq!(number(&format!("live=3\n{a}{b}held=3\n")), 18);
        assert_eq!(number(&format!("live=0\n{b}{a}held=2\n")), 18, "before 1");
        assert_eq!(number(&format!("live=3\n{b}{a}held=02\n")), 17, "after 17");
        assert_eq!(number(&format!("live=3\n{}held=9\n", a.repeat(3000))), 18, "more lines than pages");
        assert_eq!(number(&format!("live=3\n{}x\nheld=9\n", a.repeat(3000))), 17, "and a malformed one");
    }

    #[test]
    fn boards_that_are_not_sound_are_1() {
        let line = |parent, at, rights| format!("space=2 page=0 parent={parent} at={at} rights={rights}\n");
        let first = "space=1 page=0 parent=0 at=5 rights=6\n";
        assert_eq!(number(&format!("live=7\n{first}{}held=2\n", line(1, 0, 4))), 0);
        for live in [0, 1, 2, 3, 4, 5, 6] {
            assert_eq!(number(&format!("live={live}\n{first}{}held=2\n", line(1, 0, 4))), 1, "live={live}");
        }
        for (parent, at, rights) in [(1, 1, 4), (1, 0, 1), (2, 0, 4), (2, 1, 4)] {
            assert_eq!(number(&format!("live=7\n{first}{}held=2\n", line(parent, at, rights))), 1);
        }
    }

    #[test]
    fn the_writer_takes_a_buffer_that_is_long_enough() {
        for sizes in Sizes::MODELS {
            let board = board_k(sizes);
            let mut text = vec![b'?'; K.len() + 2];
            assert_eq!(board.write_listing(&mut text[..K.len() - 1]), Err(Refusal::Buffer));
            assert_eq!(text, vec![b'?'; K.len() + 2]);
            assert_eq!(board.write_listing(&mut text[..K.len()]), Ok(K.len() as u32));
            assert_eq!(text, [K, "??"].concat().as_bytes());
            let mut unsound = board_k(sizes);
            unsound.live[2] = false;
            assert_eq!(unsound.write_listing(&mut []), Err(Refusal::Unsound));
        }
    }

    #[test]
    fn a_refused_listing_leaves_the_start_board() {
        for sizes in Sizes::MODELS {
            let mut board = board_k(sizes);
            board.cache = Cache { places: vec![Default::default(); sizes.places], next: 3 };
            assert_eq!(board.read_listing(b"x"), Err(Refusal::Listing));
            assert_eq!(board, Board::start(sizes));
            assert_eq!(board.read_listing(K.as_bytes()), Ok(()));
            assert_eq!(board, board_k(sizes));
        }
    }
}
