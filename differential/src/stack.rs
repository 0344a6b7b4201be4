//! How deep a call goes into the stack: the stack below is painted, and read back from /proc/self/mem.

use std::fs::File;
use std::hint::black_box;
use std::os::unix::fs::FileExt;
use std::thread;

const PAINT: u8 = 0xc5;
const PAINTED: usize = 256 * 1024;

#[inline(never)]
fn paint() {
    black_box(&mut [PAINT; PAINTED]);
}

/// The bytes below this function's own frame that the call has written, in a thread of its own.
#[inline(never)]
fn deepest<T>(call: impl FnOnce() -> T) -> Option<usize> {
    let memory = File::open("/proc/self/mem").ok()?;
    let mut below = vec![0; PAINTED / 2];
    let here = 0u8;
    let start = black_box(&here) as *const u8 as usize - below.len();
    paint();
    black_box(black_box(call)());
    memory.read_exact_at(&mut below, start as u64).ok()?;
    let first = below.iter().position(|byte| *byte != PAINT)?;
    Some(below.len() - first)
}

/// The same, with a stack of one megabyte.
pub fn depth<T>(call: impl FnOnce() -> T + Send + 'static) -> Option<usize> {
    let thread = thread::Builder::new().stack_size(1 << 20);
    thread.spawn(|| deepest(call)).ok()?.join().ok()?
}
