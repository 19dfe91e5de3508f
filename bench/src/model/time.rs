//! Times a call in its three columns, in turns, each call on a fresh copy of another board.
use super::boards::Ring;
use super::calls::Call;
use super::MEMORY;
use crate::clock::on_processor;
use crate::library::{Numbers, Out};
use std::borrow::BorrowMut;
use std::hint::black_box;
use std::time::Instant;

/// A row has so many samples or more, whatever the seconds.
const SAMPLES: usize = 10;

/// Nanoseconds per call, the copy of the board taken off.
pub struct Times {
    pub library: f64,
    pub image: f64,
    pub own: f64,
    /// The copy that was taken off: of an image, of a struct.
    pub copies: [f64; 2],
    pub samples: usize,
}

#[inline(never)]
fn nothing<B: ?Sized>(_: &mut B, _: &mut [u8], _: &Numbers, _: &mut Out) -> u32 {
    black_box(0)
}

/// The board that is worked on, at the start of a cache line in every column.
#[repr(align(64))]
struct Work<C>(C);

/// Nanoseconds for a copy of a board and a call on it, once round the ring.
fn sample<B: ?Sized, C: Clone + BorrowMut<B>>(
    f: fn(&mut B, &mut [u8], &Numbers, &mut Out) -> u32,
    boards: &[C],
    numbers: &[Numbers],
    memory: &mut [u8],
) -> f64 {
    let (mut work, mut out) = (Work(boards[0].clone()), Out::default());
    let f = black_box(f);
    let began = on_processor();
    for (board, numbers) in boards.iter().zip(numbers) {
        work.0.clone_from(board);
        black_box(&mut work);
        black_box(f(work.0.borrow_mut(), memory, numbers, &mut out));
        black_box(&out);
    }
    (on_processor() - began).as_nanos() as f64 / boards.len() as f64
}

/// The best sample of each column in the seconds given; the columns take turns, the bare copies too.
pub fn times(call: &Call, ring: &Ring, seconds: f64) -> Times {
    let mut memory = vec![0; MEMORY];
    let mut best = [f64::INFINITY; 5];
    let mut samples = 0;
    let began = Instant::now();
    while samples < SAMPLES || began.elapsed().as_secs_f64() < seconds {
        let taken = [
            sample::<[u8], _>(call.library, &ring.images, &ring.numbers, &mut memory),
            sample::<[u8], _>(call.image, &ring.images, &ring.numbers, &mut memory),
            sample(call.own, &ring.boards, &ring.numbers, &mut memory),
            sample::<[u8], _>(nothing, &ring.images, &ring.numbers, &mut memory),
            sample(nothing, &ring.boards, &ring.numbers, &mut memory),
        ];
        best = std::array::from_fn(|i| best[i].min(taken[i]));
        samples += 1;
    }
    let [library, image, own, image_copy, board_copy] = best;
    let copies = [image_copy, board_copy];
    Times { library: library - image_copy, image: image - image_copy, own: own - board_copy, copies, samples }
}
