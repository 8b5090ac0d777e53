//! Small operations in loops of Rust, through the crate that users call, beside the standard library's in the same loops.
//!
//!     bench_inlined [--quick] [NAME]    rows whose name begins with NAME; quick: short runs
#[allow(dead_code)]
#[path = "../../compare.rs"]
mod compare;
#[allow(dead_code)]
#[path = "../../random.rs"]
mod random;

use std::hint::black_box;

use compare::{Bench, Effort};
use promisebook::{bytes, i32s, i64s, text, u32s, u64s};
use random::Random;

const NUMBERS: usize = 4096;

fn main() {
    let (flags, names): (Vec<String>, Vec<String>) = std::env::args().skip(1).partition(|word| word.starts_with("--"));
    let effort = if flags.is_empty() { Effort::Full } else { Effort::Quick };
    let mut bench = Bench::new(effort, names.into_iter().next().unwrap_or_default());
    of_numbers(&mut bench);
    of_bytes(&mut bench);
    std::process::exit(bench.end());
}

/// A row of two loops over the same items that differ in what is done with each.
macro_rules! row {
    ($bench:ident, $name:literal, $items:ident.$fold:ident($start:expr), $ours:expr, $rust:expr) => {
        $bench.row($name, NUMBERS, || black_box(&$items[..]).iter().$fold($start, $ours), || black_box(&$items[..]).iter().$fold($start, $rust));
    };
}

/// Numbers of which so many can be added and none is refused.
fn of_numbers(bench: &mut Bench) {
    let mut random = Random::new();
    let wide: Vec<u64> = (0..NUMBERS).map(|_| random.next() >> 12).collect();
    let signed: Vec<i64> = wide.iter().map(|&x| if x % 2 == 0 { x as i64 } else { -(x as i64) }).collect();
    let half: Vec<u32> = wide.iter().map(|&x| (x >> 32) as u32).collect();
    let signed_half: Vec<i32> = signed.iter().map(|&x| (x >> 33) as i32).collect();
    row!(bench, "u64 wrapping_add", wide.fold(0), |sum: u64, &x| u64s::wrapping_add(sum, x), |sum: u64, &x| sum.wrapping_add(x));
    row!(bench, "u64 saturating_add", wide.fold(0), |sum: u64, &x| u64s::saturating_add(sum, x), |sum: u64, &x| sum.saturating_add(x));
    row!(bench, "u64 checked_add", wide.try_fold(0), |sum: u64, &x| u64s::checked_add(sum, x), |sum: u64, &x| sum.checked_add(x));
    row!(bench, "i64 checked_add", signed.try_fold(0), |sum: i64, &x| i64s::checked_add(sum, x), |sum: i64, &x| sum.checked_add(x));
    row!(bench, "u32 checked_add", half.try_fold(0), |sum: u32, &x| u32s::checked_add(sum, x >> 12), |sum: u32, &x| sum.checked_add(x >> 12));
    row!(bench, "i32 checked_add", signed_half.try_fold(0), |sum: i32, &x| i32s::checked_add(sum, x >> 12), |sum: i32, &x| sum.checked_add(x >> 12));
    row!(bench, "i64 checked_rem_euclid by 1000", signed.try_fold(0), |sum: i64, &x| Some(sum + i64s::checked_rem_euclid(x, 1000)?), |sum: i64, &x| Some(
        sum + x.checked_rem_euclid(1000)?
    ));
    row!(bench, "u64 leading_zeros", wide.fold(0), |sum: u32, &x| sum + u64s::leading_zeros(x), |sum: u32, &x| sum + x.leading_zeros());
}

/// Pieces of 16 bytes, and of 1 to 4 figures.
fn of_bytes(bench: &mut Bench) {
    let mut random = Random::new();
    let all: Vec<u8> = (0..NUMBERS * 16).map(|_| b'a' + random.below(26) as u8).collect();
    let pieces: Vec<&[u8]> = all.chunks(16).collect();
    let figures: Vec<String> = (0..NUMBERS).map(|_| random.below(10000).to_string()).collect();
    let other = black_box(pieces[0].to_vec());
    row!(bench, "u64 from_be_bytes", pieces.try_fold(0), |sum: u64, x| Some(sum ^ u64s::from_be_bytes(&x[..8])?), |sum: u64, x| Some(
        sum ^ u64::from_be_bytes(x[..8].try_into().ok()?)
    ));
    row!(bench, "bytes get", pieces.try_fold(0), |sum: u64, x| Some(sum + u64::from(bytes::get(x, 9)?)), |sum: u64, x| Some(sum + u64::from(*x.get(9)?)));
    row!(bench, "bytes equal, 16 bytes", pieces.fold(0), |sum: usize, x| sum + usize::from(bytes::equal(x, &other)), |sum: usize, x| sum
        + usize::from(**x == *other));
    row!(bench, "bytes contains, 16 bytes", pieces.fold(0), |sum: usize, x| sum + usize::from(bytes::contains(x, b'q')), |sum: usize, x| sum
        + usize::from(x.contains(&b'q')));
    row!(bench, "text valid, 16 bytes", pieces.fold(0), |sum: usize, x| sum + usize::from(text::valid(x)), |sum: usize, x| sum
        + usize::from(std::str::from_utf8(x).is_ok()));
    row!(
        bench,
        "u64 read_decimal, 1 to 4 figures; parse",
        figures.try_fold(0),
        |sum: u64, x| Some(sum + u64s::read_decimal(x.as_bytes()).ok()?),
        |sum: u64, x| Some(sum + x.parse::<u64>().ok()?)
    );
}
