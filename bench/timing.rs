//! Times: the least of many runs, ours and the plain codec's in turn.

use crate::{Case, PIECE};
use std::time::Instant;

const ROUNDS: usize = 300;
/// A run takes about so many ns.
const RUN: f64 = 500_000.0;

fn timed(run: impl FnOnce() -> usize) -> f64 {
    let start = Instant::now();
    std::hint::black_box(run());
    start.elapsed().as_nanos() as f64
}

/// The least ns of a call, of ours and of the plain codec's. A run of no calls stands for what isn't the call: at
/// encode the value is read first.
fn pair(ours: impl Fn(u32) -> usize, plain: impl Fn(u32) -> usize) -> (f64, f64) {
    let mut times = 1;
    while timed(|| ours(times)) < RUN && times < 1 << 20 {
        times *= 2;
    }
    let mut least = [f64::INFINITY; 4];
    for _ in 0..ROUNDS {
        let round = [timed(|| ours(times)), timed(|| plain(times)), timed(|| ours(0)), timed(|| plain(0))];
        for (least, took) in least.iter_mut().zip(round) {
            *least = least.min(took);
        }
    }
    let [ours, plain, ours_else, plain_else] = least;
    ((ours - ours_else) / f64::from(times), (plain - plain_else) / f64::from(times))
}

/// What the other drivers counted for a line, in the order of the columns.
fn counts<'a>(all: &'a str, key: &str) -> Vec<&'a str> {
    all.lines()
        .filter_map(|line| line.strip_prefix(key)?.strip_prefix(':'))
        .flat_map(str::split_whitespace)
        .collect()
}

pub fn run(cases: &[Case], all: &str) {
    let word = std::env::args().nth(2).unwrap_or_default();
    println!(
        "{:32} {:6} {:>10} {:>10} {:>6} {:>8} {:>7} {:>7} {:>8} {:>8} {:>8} {:>8}",
        "case", "", "ns", "plain ns", "ratio", "bytes", "allocs", "plain", "peak", "plain", "instr", "plain"
    );
    for case in cases.iter().filter(|case| case.name.contains(&word)) {
        let print = |way, (ours, plain): (f64, f64)| {
            print!("{:32} {way:6} {ours:10.1} {plain:10.1} {:6.2} {:8}", case.name, ours / plain, case.text.len());
            for (count, width) in counts(all, &case.key(way)).iter().zip([7, 7, 8, 8, 8, 8]) {
                print!(" {count:>width$}");
            }
            println!();
        };
        print("encode", pair(|times| case.ours_encode(times, &mut []), |times| case.plain_encode(times, &mut [])));
        print("decode", pair(|times| case.ours_decode(times), |times| case.plain_decode(times)));
        print("source", pair(|times| case.ours_stream(times, 0), |times| case.ours_decode(times)));
        print("pieces", pair(|times| case.ours_stream(times, PIECE), |times| case.ours_decode(times)));
    }
}
