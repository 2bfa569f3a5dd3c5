//! What the programs in Rust share: the messages, and the best time of some runs. `messages.h` says the same in C++.

use std::time::Instant;

pub const BLOB_LEN: u32 = 1 << 20;

/// An item's name, of 20 to 60 bytes.
pub fn item_name(n: u32) -> String {
    let len = 20 + (n * 7 % 41) as usize;
    format!("{:x<len$}", format!("item {n:03} "))
}

pub fn item_count(n: u32) -> i32 {
    (n * n * 31 % 70_000) as i32
}

/// The key of a note, and the note.
pub fn note(n: u32) -> (String, String) {
    (format!("key {n:03}"), format!("what is to be said of it, number {n:03}"))
}

pub const ID: i64 = 1_000_000_007_000;
pub const STATE: i32 = 3;

pub fn blob_byte(n: u32) -> u8 {
    (n.wrapping_mul(2_654_435_761) >> 24) as u8
}

const RUNS: u32 = 10;
const RUN_NANOS: f64 = 4e6;

fn nanos(run: &mut impl FnMut(u32), times: u32) -> f64 {
    let start = Instant::now();
    run(times);
    start.elapsed().as_nanos() as f64
}

fn least(run: &mut impl FnMut(u32), times: u32) -> f64 {
    (0..RUNS).map(|_| nanos(run, times)).fold(f64::INFINITY, f64::min)
}

/// The nanoseconds of one of many turns. `run` does so many; what it does once is taken off, so where that is much, a run
/// is longer.
pub fn turn_time(mut run: impl FnMut(u32)) -> f64 {
    let once = least(&mut run, 1);
    let mut times = 1;
    while nanos(&mut run, times + 1) - once < RUN_NANOS.max(4.0 * once) {
        times *= 2;
    }
    (least(&mut run, times + 1) - once) / f64::from(times)
}

pub fn print_row(name: &str, case: &str, encode: f64, decode: f64, len: usize) {
    println!("{name} {case} {encode:.0} {decode:.0} {len}");
}
