//! Instructions: each call once, between requests to valgrind's callgrind, which writes a file for each.

use crate::{Case, PIECE};
use std::hint::black_box;

const ZERO: usize = 0x4354_0001;
const DUMP: usize = 0x4354_0003;

/// A request to callgrind: nothing where it doesn't run.
fn request(what: usize, name: *const u8) {
    let words = [what, name as usize, 0, 0, 0, 0];
    unsafe {
        std::arch::asm!(
            "rol rdi, 3", "rol rdi, 13", "rol rdi, 61", "rol rdi, 51", "xchg rbx, rbx",
            in("rax") words.as_ptr(), inout("rdx") 0usize => _,
        );
    }
}

/// It runs once before, so that the heap isn't as another case left it.
fn counted(name: &str, run: impl Fn() -> usize) {
    let name = format!("{name}\0");
    black_box(run());
    request(ZERO, std::ptr::null());
    black_box(run());
    request(DUMP, name.as_ptr());
}

/// A run of no calls is counted too: what isn't the call.
fn pair(key: &str, ours: impl Fn(u32) -> usize, plain: impl Fn(u32) -> usize) {
    for times in [1, 0] {
        counted(&format!("{key}:ours {times}"), || ours(times));
        counted(&format!("{key}:plain {times}"), || plain(times));
    }
}

pub fn run(cases: &[Case]) {
    for case in cases {
        pair(&case.key("encode"), |times| case.ours_encode(times, &mut []), |times| case.plain_encode(times, &mut []));
        pair(&case.key("decode"), |times| case.ours_decode(times), |times| case.plain_decode(times));
        pair(&case.key("source"), |times| case.ours_stream(times, 0), |times| case.ours_decode(times));
        pair(&case.key("pieces"), |times| case.ours_stream(times, PIECE), |times| case.ours_decode(times));
    }
}
