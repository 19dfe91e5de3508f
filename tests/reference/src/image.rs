//! The byte image of a board, as lend.h lays it out.

use crate::board::{spot, Board, Cache, Link, Place, Slot};
use crate::calls::{Call, Refusal, Reply};
use crate::sizes::Sizes;
use crate::summary::Counts;
use std::ops::Range;

/// The image of a board.
pub fn encode(board: &Board) -> Vec<u8> {
    let mut bytes = Vec::with_capacity(board.sizes.image());
    for slot in &board.slots {
        bytes.extend(encode_slot(*slot));
    }
    bytes.extend(board.live.iter().map(|&live| live as u8));
    for place in &board.cache.places {
        bytes.extend([place.space as u8, place.page as u8, place.frame as u8, place.rights]);
    }
    bytes.push(board.cache.next as u8);
    bytes.extend(board.summary.iter().flatten().flat_map(|count| count.to_le_bytes()));
    bytes
}

fn encode_slot(slot: Slot) -> [u8; 4] {
    match slot.link {
        Link::Nothing => [0, 0, 0, slot.rights],
        Link::Frame(frame) => [1, frame as u8, 0, slot.rights],
        Link::Page(parent) => [2, parent.space as u8, parent.page as u8, slot.rights],
    }
}

/// The board of an image, sound or not; nothing where the bytes are no board's image.
pub fn decode(sizes: Sizes, bytes: &[u8]) -> Option<Board> {
    if bytes.len() != sizes.image() {
        return None;
    }
    let (tables, summary) = bytes.split_at(sizes.tables());
    let (slots, rest) = tables.split_at(4 * sizes.spaces * sizes.pages);
    let (live, rest) = rest.split_at(sizes.spaces);
    let (places, next) = rest.split_at(4 * sizes.places);
    Some(Board {
        sizes,
        slots: slots.chunks(4).map(decode_slot).collect::<Option<_>>()?,
        live: live.iter().map(|&byte| decode_live(byte)).collect::<Option<_>>()?,
        cache: Cache { places: places.chunks(4).map(decode_place).collect(), next: next[0] as usize },
        summary: summary.chunks(8).map(decode_counts).collect(),
    })
}

fn decode_slot(bytes: &[u8]) -> Option<Slot> {
    let (kind, first, second, rights) = (bytes[0], bytes[1], bytes[2], bytes[3]);
    let link = match (kind, first, second) {
        (0, 0, 0) => Link::Nothing,
        (1, frame, 0) => Link::Frame(frame as usize),
        (2, space, page) => Link::Page(spot(space as usize, page as usize)),
        _ => return None,
    };
    Some(Slot { link, rights })
}

fn decode_live(byte: u8) -> Option<bool> {
    (byte < 2).then_some(byte == 1)
}

fn decode_place(bytes: &[u8]) -> Place {
    Place { space: bytes[0] as usize, page: bytes[1] as usize, frame: bytes[2] as usize, rights: bytes[3] }
}

/// Four counts of two bytes each, the low byte first.
fn decode_counts(bytes: &[u8]) -> Counts {
    [0, 2, 4, 6].map(|at| bytes[at] as u16 + 256 * bytes[at + 1] as u16)
}

/// A call over an image, as the C interface makes it.
pub fn play(sizes: Sizes, image: &mut [u8], memory: &mut [u8], call: &Call) -> Reply {
    play_with(sizes, image, memory, call, |board, memory, call| board.play(memory, call))
}

/// As `play`, with what the board does given. It is not asked for an image that is no board's. start and read_listing take any
/// bytes of the right length.
pub fn play_with(
    sizes: Sizes,
    image: &mut [u8],
    memory: &mut [u8],
    call: &Call,
    play: impl FnOnce(&mut Board, &mut [u8], &Call) -> Reply,
) -> Reply {
    let right_length = image.len() == sizes.image();
    match (call, decode(sizes, image)) {
        (Call::Start, _) if right_length => {
            image.copy_from_slice(&encode(&Board::start(sizes)));
            Reply::done(0, 0)
        }
        (Call::ReadListing, _) if right_length => {
            let mut board = Board::start(sizes);
            let reply = play(&mut board, memory, call);
            image.copy_from_slice(&encode(&board));
            reply
        }
        (Call::Sound, None) => Reply::bare(0),
        (_, None) => Refusal::Unsound.into(),
        (_, Some(mut board)) => {
            let reply = play(&mut board, memory, call);
            image.copy_from_slice(&encode(&board));
            reply
        }
    }
}

/// The parts of an image that stand together: each slot, live space, cache place, the next place, and each frame's counts.
pub fn records(sizes: Sizes) -> Vec<Range<usize>> {
    let slots = sizes.spaces * sizes.pages;
    let live = 4 * slots;
    let cache = live + sizes.spaces;
    let next = cache + 4 * sizes.places;
    let summary = next + 1;
    (0..slots)
        .map(|i| 4 * i..4 * i + 4)
        .chain((live..cache).map(|at| at..at + 1))
        .chain((0..sizes.places).map(|i| cache + 4 * i..cache + 4 * i + 4))
        .chain(std::iter::once(next..summary))
        .chain((0..sizes.pages).map(|frame| summary + 8 * frame..summary + 8 * frame + 8))
        .collect()
}

/// What a record of the image is called: `records` in the same order.
pub fn record_name(sizes: Sizes, index: usize) -> String {
    let slots = sizes.spaces * sizes.pages;
    let places = slots + sizes.spaces;
    let next = places + sizes.places;
    if index < slots {
        format!("slot ({},{})", index / sizes.pages, index % sizes.pages)
    } else if index < places {
        format!("live {}", index - slots)
    } else if index < next {
        format!("cache place {}", index - places)
    } else if index == next {
        "next place".to_string()
    } else {
        format!("counts of frame {}", index - next - 1)
    }
}

/// The image with these bytes alone, all others 0, but for the summary: that is as far off as it was, so that where it was right it
/// is right for the pages that are left.
pub fn reduced(sizes: Sizes, image: &[u8], kept: &[Range<usize>]) -> Vec<u8> {
    let fewer = only(image, kept);
    match (decode(sizes, image), decode(sizes, &fewer)) {
        (Some(whole), Some(mut board)) => {
            board.summary = shifted(&board.counted(), &whole.counted(), &whole.summary);
            encode(&board)
        }
        _ => fewer,
    }
}

/// The counts, off by as much as `found` is off from `right`.
fn shifted(counts: &[Counts], right: &[Counts], found: &[Counts]) -> Vec<Counts> {
    let shift = |frame: usize, field: usize| found[frame][field].wrapping_sub(right[frame][field]);
    let moved = |frame: usize| [0, 1, 2, 3].map(|field| counts[frame][field].wrapping_add(shift(frame, field)));
    (0..counts.len()).map(moved).collect()
}

/// The bytes in these ranges; all others 0.
pub fn only(bytes: &[u8], kept: &[Range<usize>]) -> Vec<u8> {
    let mut only = vec![0; bytes.len()];
    for range in kept {
        only[range.clone()].copy_from_slice(&bytes[range.clone()]);
    }
    only
}

#[cfg(test)]
mod tests {
    use super::*;
    use crate::board::tests::board_k;
    use crate::random::Random;

    const ENTRY: Sizes = Sizes::ENTRY;
    const PREMIUM: Sizes = Sizes::PREMIUM;

    #[test]
    fn the_image_of_k() {
        let mut board = board_k(ENTRY);
        board.translate(2, 3 * 1024, 4).unwrap();
        board.cache.next = 5;
        let image = encode(&board);
        assert_eq!(image.len(), 1321);
        assert_eq!(image[4 * 31..4 * 34], [1, 31, 0, 7, 2, 0, 5, 7, 0, 0, 0, 0]);
        assert_eq!(image[4 * (32 * 2 + 3)..][..4], [2, 1, 0, 6]);
        assert_eq!(image[1024..1032], [1, 1, 1, 1, 1, 0, 0, 0]);
        assert_eq!(image[1032..1040], [2, 3, 5, 6, 0, 0, 0, 0]);
        assert_eq!(image[1064], 5);
        assert_eq!(image[1065..1105], [0; 40], "frames 0 to 4");
        assert_eq!(image[1105..1121], [3, 0, 2, 0, 3, 0, 1, 0, 1, 0, 1, 0, 1, 0, 1, 0], "frames 5 and 6");
        assert_eq!(image[1121..], [0; 200]);
        assert_eq!(decode(ENTRY, &image), Some(board));
    }

    #[test]
    fn the_premium_image_of_k() {
        let mut board = board_k(PREMIUM);
        board.translate(2, 3 * 1024, 4).unwrap();
        board.cache.next = 13;
        let image = encode(&board);
        assert_eq!(image.len(), 4689);
        assert_eq!(image[4 * 63..4 * 66], [1, 63, 0, 7, 2, 0, 5, 7, 0, 0, 0, 0]);
        assert_eq!(image[4 * (64 * 2 + 3)..][..4], [2, 1, 0, 6]);
        assert_eq!(image[4096..4112], [1, 1, 1, 1, 1, 0, 0, 0, 0, 0, 0, 0, 0, 0, 0, 0]);
        assert_eq!(image[4112..4120], [2, 3, 5, 6, 0, 0, 0, 0]);
        assert_eq!(image[4176], 13);
        assert_eq!(image[4177..4217], [0; 40], "frames 0 to 4");
        assert_eq!(image[4217..4233], [3, 0, 2, 0, 3, 0, 1, 0, 1, 0, 1, 0, 1, 0, 1, 0], "frames 5 and 6");
        assert_eq!(image[4233..], [0; 456]);
        assert_eq!(decode(PREMIUM, &image), Some(board));
    }

    /// 960 is 3 * 256 + 192, 512 is 2 * 256 and 448 is 256 + 192.
    #[test]
    fn counts_have_their_low_byte_first() {
        let mut board = board_k(PREMIUM);
        board.summary[63] = [960, 512, 448, 7];
        let image = encode(&board);
        assert_eq!(image[4681..], [192, 3, 0, 2, 192, 1, 7, 0]);
        assert_eq!(decode(PREMIUM, &image), Some(board));
    }

    #[test]
    fn bytes_that_are_no_board_s() {
        for (sizes, live) in [(ENTRY, 1024), (PREMIUM, 4096)] {
            let image = encode(&board_k(sizes));
            let with = |at: usize, byte: u8| {
                let mut changed = image.clone();
                changed[at] = byte;
                decode(sizes, &changed)
            };
            let empty = 4 * (sizes.pages + 8);
            assert_eq!(with(0, 3), None, "kind");
            assert_eq!(with(2, 1), None, "after the frame");
            assert_eq!(with(empty + 1, 1), None, "of an empty page");
            assert_eq!(with(empty + 2, 1), None, "of an empty page");
            assert_eq!(with(live, 2), None, "live");
            assert!(with(empty + 3, 1).is_some_and(|board| !board.sound()), "rights without a link");
            assert_eq!(decode(sizes, &image[1..]), None);
            assert_eq!(decode(sizes, &[]), None);
            assert_eq!(decode(sizes.other(), &image), None);
        }
    }

    #[test]
    fn decoding_loses_nothing() {
        for sizes in Sizes::MODELS {
            let mut random = Random::new(5);
            let mut decoded = 0;
            for _ in 0..20_000 {
                let mut image = encode(&board_k(sizes));
                for _ in 0..3 {
                    let at = random.below(image.len());
                    image[at] = random.byte() % 8;
                }
                if let Some(board) = decode(sizes, &image) {
                    assert_eq!(encode(&board), image);
                    decoded += 1;
                }
            }
            assert!(decoded > 500);
        }
    }

    #[test]
    fn calls_over_what_is_no_image() {
        for (sizes, length) in [(ENTRY, 1321), (PREMIUM, 4689)] {
            let mut image = vec![9; length];
            let kept = image.clone();
            assert_eq!(play(sizes, &mut image, &mut [], &Call::Create { space: 2 }), Reply::bare(1));
            assert_eq!(play(sizes, &mut image, &mut [], &Call::Sound), Reply::bare(0));
            assert_eq!(image, kept);
            assert_eq!(play(sizes, &mut image[1..], &mut [], &Call::Start), Reply::bare(1));
            assert_eq!(image, kept);
            assert_eq!(play(sizes, &mut image, &mut [], &Call::Start), Reply::bare(0));
            assert_eq!(image, encode(&Board::start(sizes)));
            assert_eq!(play(sizes, &mut image, &mut [], &Call::Sound), Reply::bare(1));
            assert_eq!(play(sizes, &mut image[1..], &mut [], &Call::Sound), Reply::bare(0));
        }
    }

    #[test]
    fn reading_a_listing_takes_any_bytes_of_the_right_length() {
        for sizes in Sizes::MODELS {
            let mut text = b"live=3\nspace=1 page=0 parent=0 at=0 rights=4\nheld=1\n".to_vec();
            for image in [vec![9; sizes.image()], encode(&board_k(sizes))] {
                let mut read = image.clone();
                assert_eq!(play(sizes, &mut read, &mut text, &Call::ReadListing), Reply::bare(0));
                assert_eq!(decode(sizes, &read).unwrap().lent_pages().count(), 1);
                let mut refused = image.clone();
                assert_eq!(play(sizes, &mut refused, &mut [], &Call::ReadListing), Reply::bare(17));
                assert_eq!(refused, encode(&Board::start(sizes)));
                let mut short = image[1..].to_vec();
                for text in [&mut text[..], &mut []] {
                    assert_eq!(play(sizes, &mut short, text, &Call::ReadListing), Reply::bare(1));
                    assert_eq!(short, image[1..]);
                }
            }
        }
    }

    #[test]
    fn writing_a_listing_leaves_the_image() {
        for sizes in Sizes::MODELS {
            let start = encode(&Board::start(sizes));
            let (mut image, mut text) = (start.clone(), [b'?'; 16]);
            assert_eq!(play(sizes, &mut image, &mut text[..13], &Call::WriteListing), Reply::bare(20));
            assert_eq!(play(sizes, &mut image[1..], &mut text, &Call::WriteListing), Reply::bare(1));
            assert_eq!(text, [b'?'; 16]);
            assert_eq!(play(sizes, &mut image, &mut text, &Call::WriteListing), Reply::done(14, 0));
            assert_eq!(&text, b"live=3\nheld=0\n??");
            assert_eq!(image, start);
        }
    }

    #[test]
    fn records_cover_the_image() {
        for sizes in Sizes::MODELS {
            let records = records(sizes);
            let mut end = 0;
            for record in &records {
                assert_eq!(record.start, end);
                end = record.end;
            }
            assert_eq!(end, sizes.image());
            assert_eq!(record_name(sizes, records.len() - 1), format!("counts of frame {}", sizes.pages - 1));
            assert_eq!(record_name(sizes, records.len() - sizes.pages), "counts of frame 0");
            assert_eq!(record_name(sizes, records.len() - sizes.pages - 1), "next place");
            assert_eq!(record_name(sizes, sizes.pages), "slot (1,0)");
        }
    }

    /// (2,3) and (3,1) are left out: with the summary of K, and with frame 0 one too high and a read of frame 5 missing.
    #[test]
    fn a_reduced_image_has_a_summary_as_far_off() {
        let kept: Vec<_> = (0..4 * (2 * 32)).chain(4 * 68..4 * 69).chain(1024..1032).map(|at| at..at + 1).collect();
        let reduced_k = |change: fn(&mut Board)| {
            let mut board = board_k(ENTRY);
            change(&mut board);
            decode(ENTRY, &reduced(ENTRY, &encode(&board), &kept)).unwrap()
        };
        let right = reduced_k(|_| ());
        assert!(right.sound() && right.lent_pages().count() == 2);
        let wrong = reduced_k(|board| (board.summary[0][0], board.summary[5][1]) = (1, 1));
        assert_eq!((wrong.summary[0], wrong.summary[5], wrong.summary[6]), ([1, 0, 0, 0], [1, 0, 1, 1], [1, 1, 1, 1]));
    }
}
