//! Slices of bytes, at three sizes.
use std::hint::black_box;

use crate::compare::Bench;
use crate::exports::*;
use crate::random::Random;

const SIZES: [(&str, usize); 3] = [("16 bytes", 16), ("4 KiB", 4 << 10), ("1 MiB", 1 << 20)];
/// How far copies over themselves move.
const MOVED: usize = 24;
/// What is looked for, and not there.
const ABSENT: u8 = 0;

fn ours_is_ascii(s: &[u8]) -> bool {
    unsafe { pb_text_is_ascii(s.as_ptr(), s.len()) }
}

#[inline(never)]
fn rust_is_ascii(s: &[u8]) -> bool {
    s.is_ascii()
}

fn ours_contains(s: &[u8], v: u8) -> bool {
    unsafe { pb_bytes_contains(s.as_ptr(), s.len(), 0, s.len(), v) }.value
}

#[inline(never)]
fn rust_contains(s: &[u8], v: u8) -> bool {
    s.contains(&v)
}

fn ours_equal(s: &[u8], other: &[u8]) -> bool {
    unsafe { pb_bytes_equal(s.as_ptr(), s.len(), 0, s.len(), other.as_ptr(), other.len()) }.value
}

#[inline(never)]
fn rust_equal(s: &[u8], other: &[u8]) -> bool {
    s == other
}

fn ours_starts_with(s: &[u8], needle: &[u8]) -> bool {
    unsafe { pb_bytes_starts_with(s.as_ptr(), s.len(), 0, s.len(), needle.as_ptr(), needle.len()) }.value
}

#[inline(never)]
fn rust_starts_with(s: &[u8], needle: &[u8]) -> bool {
    s.starts_with(needle)
}

fn ours_copy_from(s: &mut [u8], other: &[u8]) -> bool {
    unsafe { pb_bytes_copy_from(s.as_mut_ptr(), s.len(), 0, s.len(), other.as_ptr(), other.len()) }
}

#[inline(never)]
fn rust_copy_from(s: &mut [u8], other: &[u8]) -> bool {
    s.copy_from_slice(other);
    true
}

fn ours_copy_within(s: &mut [u8], from: usize, to: usize, at: usize) -> bool {
    unsafe { pb_bytes_copy_within(s.as_mut_ptr(), s.len(), from, to, at) }
}

#[inline(never)]
fn rust_copy_within(s: &mut [u8], from: usize, to: usize, at: usize) -> bool {
    s.copy_within(from..to, at);
    true
}

fn ours_reverse(s: &mut [u8]) -> bool {
    unsafe { pb_bytes_reverse(s.as_mut_ptr(), s.len(), 0, s.len()) }
}

#[inline(never)]
fn rust_reverse(s: &mut [u8]) -> bool {
    s.reverse();
    true
}

/// ASCII, so that every test reads all of it.
fn ascii(size: usize) -> Vec<u8> {
    let mut random = Random::new();
    (0..size).map(|_| 1 + random.below(127) as u8).collect()
}

type Test = fn(&[u8], &[u8]) -> bool;

pub fn rows(bench: &mut Bench) {
    let tests: [(&str, Test, Test); 4] = [
        ("text is_ascii", |s, _| ours_is_ascii(s), |s, _| rust_is_ascii(s)),
        ("bytes contains, absent", |s, _| ours_contains(s, ABSENT), |s, _| rust_contains(s, ABSENT)),
        ("bytes equal", ours_equal, |s, other| rust_equal(s, other)),
        ("bytes starts_with", ours_starts_with, |s, other| rust_starts_with(s, other)),
    ];
    for (operation, ours, rust) in tests {
        for (shown, size) in SIZES {
            let other = ascii(size);
            let s = if operation == "bytes starts_with" { other.repeat(2) } else { other.clone() };
            bench.row(&format!("{operation}, {shown}"), 1, || ours(black_box(&s), black_box(&other)), || rust(black_box(&s), black_box(&other)));
        }
    }
    for (shown, size) in SIZES {
        let other = ascii(size);
        let name = format!("bytes copy_from, {shown}");
        bench.writing(&name, 1, &vec![0; size], |s| ours_copy_from(s, black_box(&other)), |s| rust_copy_from(s, black_box(&other)));
    }
    for (direction, from, at) in [("to the front", MOVED, 0), ("to the back", 0, MOVED)] {
        for (shown, size) in SIZES {
            let name = format!("bytes copy_within, {direction}, {shown}");
            bench.writing(&name, 1, &ascii(size + MOVED), |s| ours_copy_within(s, from, from + size, at), |s| rust_copy_within(s, from, from + size, at));
        }
    }
    for (shown, size) in SIZES {
        bench.writing(&format!("bytes reverse, {shown}"), 1, &ascii(size), ours_reverse, rust_reverse);
    }
}
