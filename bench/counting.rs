//! Allocations: both sides' are counted, by a heap of each side's own that counts and hands on to the process's.

use crate::{Case, PIECE};
use std::alloc::{GlobalAlloc, Layout, System};
use std::cell::Cell;

/// Blocks asked for (a growth is one), bytes that are held, and the most bytes ever held. A block that grows counts
/// once, whether or not it moves.
#[derive(Clone, Copy)]
struct Count {
    calls: usize,
    held: usize,
    peak: usize,
}

struct Shared(Cell<Count>);

/// The driver has one thread.
unsafe impl Sync for Shared {}

static COUNT: Shared = Shared(Cell::new(Count { calls: 0, held: 0, peak: 0 }));

fn took(gone: usize, new: usize) {
    let mut count = COUNT.0.get();
    count.calls += 1;
    count.held = count.held + new - gone;
    count.peak = count.peak.max(count.held);
    COUNT.0.set(count);
}

fn gave(gone: usize) {
    let mut count = COUNT.0.get();
    count.held -= gone;
    COUNT.0.set(count);
}

/// Calls, and the most bytes held beyond those that were held before.
fn counted(run: impl FnOnce() -> usize) -> (usize, usize) {
    let before = COUNT.0.get();
    COUNT.0.set(Count { peak: before.held, ..before });
    run();
    let after = COUNT.0.get();
    (after.calls - before.calls, after.peak - before.held)
}

/// Rust's heap.
struct Counting;

#[global_allocator]
static HEAP: Counting = Counting;

unsafe impl GlobalAlloc for Counting {
    unsafe fn alloc(&self, layout: Layout) -> *mut u8 {
        took(0, layout.size());
        unsafe { System.alloc(layout) }
    }

    unsafe fn dealloc(&self, at: *mut u8, layout: Layout) {
        gave(layout.size());
        unsafe { System.dealloc(at, layout) }
    }

    unsafe fn realloc(&self, at: *mut u8, layout: Layout, size: usize) -> *mut u8 {
        took(layout.size(), size);
        unsafe { System.realloc(at, layout, size) }
    }
}

/// Rattle's heap: these three stand in the place of the toolchain's own, which call malloc, realloc and free.
#[repr(C)]
struct Tried {
    is_there: u64,
    at: *mut u8,
}

unsafe extern "C" {
    fn malloc(size: usize) -> *mut u8;
    fn realloc(at: *mut u8, size: usize) -> *mut u8;
    fn free(at: *mut u8);
}

/// A block's size is written before it, for the call that frees it.
const HEAD: usize = 16;

fn tried(block: *mut u8, size: usize) -> Tried {
    assert!(!block.is_null(), "out of memory");
    unsafe { block.cast::<usize>().write(size) };
    Tried { is_there: 1, at: unsafe { block.add(HEAD) } }
}

#[unsafe(no_mangle)]
unsafe extern "C" fn rattle_alloc(size: usize, _align: usize) -> Tried {
    took(0, size);
    tried(unsafe { malloc(size + HEAD) }, size)
}

#[unsafe(no_mangle)]
unsafe extern "C" fn rattle_realloc(at: *mut u8, _kept: usize, size: usize, _align: usize) -> Tried {
    let block = unsafe { at.sub(HEAD) };
    took(unsafe { block.cast::<usize>().read() }, size);
    tried(unsafe { realloc(block, size + HEAD) }, size)
}

#[unsafe(no_mangle)]
unsafe extern "C" fn rattle_dealloc(at: *mut u8) {
    let block = unsafe { at.sub(HEAD) };
    gave(unsafe { block.cast::<usize>().read() });
    unsafe { free(block) }
}

/// The counts of one call: those of a run of it without those of a run of no calls.
fn one(run: impl Fn(u32) -> usize) -> (usize, usize) {
    let (calls_else, peak_else) = counted(|| run(0));
    let (calls, peak) = counted(|| run(1));
    (calls - calls_else, peak - peak_else)
}

pub fn run(cases: &[Case]) {
    for case in cases {
        let print = |way, ours: (usize, usize), plain: (usize, usize)| {
            println!("{}:{} {} {} {}", case.key(way), ours.0, plain.0, ours.1, plain.1);
        };
        print("encode", one(|times| case.ours_encode(times, &mut [])), one(|times| case.plain_encode(times, &mut [])));
        print("decode", one(|times| case.ours_decode(times)), one(|times| case.plain_decode(times)));
        print("source", one(|times| case.ours_stream(times, 0)), one(|times| case.ours_decode(times)));
        print("pieces", one(|times| case.ours_stream(times, PIECE)), one(|times| case.ours_decode(times)));
    }
}
