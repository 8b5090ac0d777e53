//! UTF-8: valid, counted, and read scalar by scalar.
use std::hint::black_box;
use std::str::from_utf8;

use crate::compare::Bench;
use crate::exports::{pb_text_count, pb_text_read_first, pb_text_valid};
use crate::texts::{short_texts, text, KINDS};

fn ours_valid(s: &[u8]) -> bool {
    unsafe { pb_text_valid(s.as_ptr(), s.len()) }
}

#[inline(never)]
fn rust_valid(s: &[u8]) -> bool {
    from_utf8(s).is_ok()
}

fn ours_count(s: &[u8]) -> Option<usize> {
    unsafe { pb_text_count(s.as_ptr(), s.len()) }.option()
}

#[inline(never)]
fn rust_count(s: &[u8]) -> Option<usize> {
    Some(from_utf8(s).ok()?.chars().count())
}

/// The sum of all scalars of a text, each read from the front of what is left of it.
fn ours_sum(s: &[u8]) -> u64 {
    let (mut sum, mut at) = (0, 0);
    while at < s.len() {
        let read = unsafe { pb_text_read_first(s.as_ptr(), s.len(), at, s.len()) };
        if !read.ok {
            return 0;
        }
        sum += u64::from(read.value);
        at += read.length;
    }
    sum
}

#[inline(never)]
fn rust_sum_of_chars(s: &str) -> u64 {
    s.chars().map(u64::from).sum()
}

/// The first scalar of bytes that nothing is known of: the longest valid text in the first four of them begins with it.
#[inline(never)]
fn rust_first(s: &[u8]) -> Option<char> {
    let front = &s[..s.len().min(4)];
    let valid = match from_utf8(front) {
        Ok(valid) => valid,
        Err(end) => from_utf8(&front[..end.valid_up_to()]).ok()?,
    };
    valid.chars().next()
}

fn rust_sum_of_firsts(s: &[u8]) -> u64 {
    let (mut sum, mut at) = (0, 0);
    while at < s.len() {
        let Some(c) = rust_first(&s[at..]) else { return 0 };
        sum += u64::from(c);
        at += c.len_utf8();
    }
    sum
}

pub fn rows(bench: &mut Bench) {
    let long = bench.long();
    for kind in KINDS {
        let name = format!("text valid, {long} MiB, {}", kind.0);
        if bench.wants(&name) {
            let s = text(kind, long << 20);
            bench.row(&name, 1, || ours_valid(black_box(&s)), || rust_valid(black_box(&s)));
        }
    }
    for kind in &KINDS[..2] {
        let name = format!("text valid, 1 to 32 bytes, {}", kind.0);
        if bench.wants(&name) {
            let all = short_texts(*kind);
            let count = |valid: fn(&[u8]) -> bool| all.iter().filter(|s| valid(black_box(s))).count();
            bench.row(&name, all.len(), || count(ours_valid), || count(rust_valid));
        }
    }
    for kind in &KINDS[..2] {
        let name = format!("text count, {long} MiB, {}", kind.0);
        if bench.wants(&name) {
            let s = text(*kind, long << 20);
            bench.row(&name, 1, || ours_count(black_box(&s)), || rust_count(black_box(&s)));
        }
    }
    for kind in &KINDS[..2] {
        let name = format!("text read_first, a scalar, {}", kind.0);
        let s = text(*kind, 1 << 16);
        let valid = from_utf8(&s).unwrap();
        let scalars = valid.chars().count();
        bench.row(&format!("{name}; chars"), scalars, || ours_sum(black_box(&s)), || rust_sum_of_chars(black_box(valid)));
        bench.row(&format!("{name}; from_utf8 of the front"), scalars, || ours_sum(black_box(&s)), || rust_sum_of_firsts(black_box(&s)));
    }
}
