//! Integers, in loops over 4096 numbers that the first level of the cache holds: ours are written in Rattle (crates/bench_loops).
use std::hint::black_box;

use crate::compare::Bench;
use crate::random::Random;

const COUNT: usize = 4096;

/// As many numbers as a loop has, each made of a random number and its place.
fn numbers<T>(make: impl Fn(u64, usize) -> T) -> Vec<T> {
    let mut random = Random::new();
    (0..COUNT).map(|at| make(random.next(), at)).collect()
}

/// A row: what a loop over numbers makes of a start, step by step. A step is an expression of what there is so far and the next number.
macro_rules! fold {
    ($bench:ident, $operation:literal, $ours:ident, $kind:ty => $result:ty, $xs:expr, $start:literal, |$so_far:ident, $x:ident| $step:expr) => {{
        extern "C" {
            fn $ours(xs: *const $kind, size: usize) -> $result;
        }
        #[inline(never)]
        fn rust(xs: &[$kind]) -> $result {
            let mut $so_far: $result = $start;
            for &$x in xs {
                $so_far = $step;
            }
            $so_far
        }
        let xs: &[$kind] = $xs;
        let name = concat!(stringify!($kind), " ", $operation);
        $bench.row(name, xs.len(), || unsafe { $ours(xs.as_ptr(), xs.len()) }, || rust(black_box(xs)));
    }};
}

/// The next step of a loop that ends where the operation refuses.
macro_rules! or_end {
    ($checked:expr) => {
        match $checked {
            Some(next) => next,
            None => return 0,
        }
    };
}

/// The rows of a kind. No sum or product is refused, so that the loops go to their ends: the summands are small, and the factors 1, the other sign's where there is
/// one, and few of 2.
macro_rules! integers {
    ($bench:ident, $kind:ident, $other_one:literal, $checked_add:ident, $checked_mul:ident, $wrapping_add:ident, $wrapping_mul:ident) => {{
        let parts = numbers(|x, _| x as $kind / 8192);
        let factors = numbers(|x, at| if at % 256 == 0 { 2 } else if x % 2 == 0 { 1 } else { $other_one });
        let odd = numbers(|x, _| x as $kind | 1);
        fold!($bench, "checked_add", $checked_add, $kind => $kind, &parts, 0, |sum, x| or_end!(sum.checked_add(x)));
        fold!($bench, "checked_mul", $checked_mul, $kind => $kind, &factors, 1, |product, x| or_end!(product.checked_mul(x)));
        fold!($bench, "wrapping_add", $wrapping_add, $kind => $kind, &odd, 0, |sum, x| sum.wrapping_add(x));
        fold!($bench, "wrapping_mul", $wrapping_mul, $kind => $kind, &odd, 1, |product, x| product.wrapping_mul(x));
    }};
}

/// The sums reach the end of the range within the loop.
macro_rules! saturating {
    ($bench:ident, $kind:ident, $add:ident, $mul:ident) => {{
        let parts = numbers(|x, _| x as $kind / 1500);
        let factors = numbers(|_, at| if at % 100 == 0 { 2 } else { 1 });
        fold!($bench, "saturating_add", $add, $kind => $kind, &parts, 0, |sum, x| sum.saturating_add(x));
        fold!($bench, "saturating_mul", $mul, $kind => $kind, &factors, 1, |product, x| product.saturating_mul(x));
    }};
}

/// Rows of the bytes of numbers: read from a slice, where they stand one behind the other, and written into one.
macro_rules! bytes {
    ($bench:ident, $from:ident, $from_name:literal, $ours_from:ident, $to:ident, $to_name:literal, $ours_to:ident) => {{
        extern "C" {
            fn $ours_from(s: *const u8, size: usize) -> u64;
            fn $ours_to(step: u64, s: *mut u8, size: usize) -> u64;
        }
        #[inline(never)]
        fn rust_from(s: &[u8]) -> u64 {
            let mut sum: u64 = 0;
            for number in s.chunks_exact(8) {
                sum = sum.wrapping_add(u64::$from(number.try_into().unwrap()));
            }
            sum
        }
        #[inline(never)]
        fn rust_to(step: u64, s: &mut [u8]) -> u64 {
            let mut x: u64 = 0;
            for number in s.chunks_exact_mut(8) {
                number.copy_from_slice(&x.$to());
                x = x.wrapping_add(step);
            }
            x
        }
        let s: Vec<u8> = numbers(|x, _| x.to_ne_bytes()).concat();
        let step = black_box(0x0123_4567_89ab_cdef);
        $bench.row($from_name, COUNT, || unsafe { $ours_from(s.as_ptr(), s.len()) }, || rust_from(black_box(&s)));
        $bench.writing($to_name, COUNT, &s, |d| unsafe { $ours_to(step, d.as_mut_ptr(), d.len()) }, |d| rust_to(step, d));
    }};
}

pub fn rows(bench: &mut Bench) {
    integers!(bench, u32, 1, loop_u32_checked_add, loop_u32_checked_mul, loop_u32_wrapping_add, loop_u32_wrapping_mul);
    integers!(bench, u64, 1, loop_u64_checked_add, loop_u64_checked_mul, loop_u64_wrapping_add, loop_u64_wrapping_mul);
    integers!(bench, i32, -1, loop_i32_checked_add, loop_i32_checked_mul, loop_i32_wrapping_add, loop_i32_wrapping_mul);
    integers!(bench, i64, -1, loop_i64_checked_add, loop_i64_checked_mul, loop_i64_wrapping_add, loop_i64_wrapping_mul);
    saturating!(bench, u32, loop_u32_saturating_add, loop_u32_saturating_mul);
    saturating!(bench, u64, loop_u64_saturating_add, loop_u64_saturating_mul);
    let lengths = numbers(|x, at| if at % 256 == 0 { 0 } else { x >> (x % 64) << (at % 32) });
    fold!(bench, "leading_zeros", loop_u64_leading_zeros, u64 => u32, &lengths, 0, |sum, x| sum.wrapping_add(x.leading_zeros()));
    fold!(bench, "trailing_zeros", loop_u64_trailing_zeros, u64 => u32, &lengths, 0, |sum, x| sum.wrapping_add(x.trailing_zeros()));
    bytes!(bench, from_le_bytes, "u64 from_le_bytes", loop_u64_from_le_bytes, to_le_bytes, "u64 to_le_bytes", loop_u64_to_le_bytes);
    bytes!(bench, from_be_bytes, "u64 from_be_bytes", loop_u64_from_be_bytes, to_be_bytes, "u64 to_be_bytes", loop_u64_to_be_bytes);
}
