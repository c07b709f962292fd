//! How much stack a call takes. The stack below the caller is painted, and after the call the lowest place is looked for
//! that no longer holds the paint.

use std::arch::asm;
use std::thread;

/// How far down the stack is painted: more than any call takes.
const DEPTH: usize = 1 << 20;

/// The stack of the thread that makes the call.
const STACK: usize = 4 * DEPTH;

const PAINT: u8 = 0xA5;

/// How many bytes of stack a call takes, from the stack pointer of its caller down.
pub fn taken_by(call: impl FnOnce() + Send) -> usize {
    thread::scope(|scope| {
        let painted = thread::Builder::new().stack_size(STACK).spawn_scoped(scope, || paint_and_look(call));
        painted.expect("a thread can be started").join().expect("the call returns")
    })
}

#[inline(never)]
fn paint_and_look(call: impl FnOnce()) -> usize {
    let top: usize;
    // SAFETY: this reads the stack pointer.
    unsafe { asm!("mov {}, rsp", out(reg) top, options(nomem, nostack, preserves_flags)) };
    let below = top - DEPTH;
    for place in below..top {
        // SAFETY: what lies below the stack pointer of a function that makes calls is in no use, and the thread has room for it.
        unsafe { (place as *mut u8).write_volatile(PAINT) };
    }
    call();
    // SAFETY: as above.
    let first = (below..top).find(|place| unsafe { (*place as *const u8).read_volatile() } != PAINT);
    top - first.unwrap_or(top)
}
