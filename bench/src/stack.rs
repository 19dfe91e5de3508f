//! How many bytes of stack a call uses: the stack below the caller is painted with a pattern, the call is made, and the deepest
//! place that it overwrote is looked up.
use crate::library::{Numbers, Out};
use std::arch::asm;

/// Bytes that are painted, and the stack of the thread that is measured in.
const PAINTED: usize = 256 * 1024;
const THREAD: usize = 4 * PAINTED;
const PATTERN: u64 = 0xA55A_C33C_9669_F00F;

/// Where the stack of the function that this is inlined into ends.
#[inline(always)]
fn stack_pointer() -> usize {
    let at: usize;
    // SAFETY: a register is read, nothing else.
    unsafe {
        #[cfg(target_arch = "aarch64")]
        asm!("mov {}, sp", out(reg) at, options(nomem, nostack, preserves_flags));
        #[cfg(target_arch = "x86_64")]
        asm!("mov {}, rsp", out(reg) at, options(nomem, nostack, preserves_flags));
    }
    at & !7
}

/// Stack bytes of one call below its caller, in steps of eight. To be called on a thread of [`on_a_thread`].
#[inline(never)]
pub fn bytes_of<B: ?Sized>(
    f: fn(&mut B, &mut [u8], &Numbers, &mut Out) -> u32,
    board: &mut B,
    memory: &mut [u8],
    numbers: &Numbers,
) -> usize {
    let mut out = Out::default();
    let top = stack_pointer();
    let bottom = top - PAINTED;
    for at in (bottom..top).step_by(8) {
        // SAFETY: below the stack pointer of a function that makes calls nothing is kept, and the thread's stack is longer.
        unsafe { std::ptr::write_volatile(at as *mut u64, PATTERN) };
    }
    f(board, memory, numbers, &mut out);
    // SAFETY: as above.
    let deepest = (bottom..top).step_by(8).find(|&at| unsafe { std::ptr::read_volatile(at as *const u64) } != PATTERN);
    top - deepest.unwrap_or(top)
}

/// What the function gives on a thread whose stack is long enough to be painted.
pub fn on_a_thread<A: Send>(measure: impl FnOnce() -> A + Send) -> A {
    std::thread::scope(|scope| {
        let thread = std::thread::Builder::new().stack_size(THREAD).spawn_scoped(scope, measure);
        thread.expect("a thread").join().expect("its answer")
    })
}
