//! The stack that a call uses and what the library copies: the most over the boards of a ring.
use super::boards::Ring;
use super::calls::Call;
use super::{MEMORY, SLOTS};
use crate::copies::copied;
use crate::library::Out;
use crate::stack::{bytes_of, on_a_thread};

/// The bytes of a table of slots.
const TABLE: usize = 4 * SLOTS;

/// Stack bytes of the library, of plain Rust on an image, of plain Rust on its struct.
pub fn stack(call: &Call, ring: &Ring) -> [usize; 3] {
    let measure = || {
        let mut memory = vec![0; MEMORY];
        let mut most = [0; 3];
        for ((image, board), numbers) in ring.images.iter().zip(&ring.boards).zip(&ring.numbers) {
            let used = [
                bytes_of::<[u8]>(call.library, &mut image.clone(), &mut memory, numbers),
                bytes_of::<[u8]>(call.image, &mut image.clone(), &mut memory, numbers),
                bytes_of(call.own, &mut board.clone(), &mut memory, numbers),
            ];
            most = std::array::from_fn(|i| most[i].max(used[i]));
        }
        most
    };
    on_a_thread(measure)
}

/// What the library copies: whole tables, and bytes in all.
pub fn copies(call: &Call, ring: &Ring) -> [usize; 2] {
    let (mut memory, mut out) = (vec![0; MEMORY], Out::default());
    let mut most = [0; 2];
    for (image, numbers) in ring.images.iter().zip(&ring.numbers) {
        let mut image = *image;
        let taken = copied(TABLE, || {
            (call.counting)(&mut image, &mut memory, numbers, &mut out);
        });
        most = std::array::from_fn(|i| most[i].max(taken[i]));
    }
    most
}
