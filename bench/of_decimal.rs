//! Decimal text, there and back: numbers of few digits and of many.
use std::hint::black_box;
use std::io::Write;

use crate::compare::Bench;
use crate::exports::*;
use crate::random::Random;

const COUNT: usize = 1024;
/// Room for the longest number.
const ROOM: usize = 20;

/// The rows of a kind: its numbers are written each into a room of its own, and read.
macro_rules! decimal {
    ($bench:ident, $kind:ident, $what:literal, $make:expr, $read:ident, $write:ident) => {{
        fn ours_read(texts: &[String]) -> $kind {
            let mut sum: $kind = 0;
            for text in texts {
                let read = unsafe { $read(text.as_ptr(), text.len(), 0, text.len()) };
                sum = sum.wrapping_add(if read.ok { read.value } else { 1 });
            }
            sum
        }
        #[inline(never)]
        fn rust_read(texts: &[String]) -> $kind {
            let mut sum: $kind = 0;
            for text in texts {
                sum = sum.wrapping_add(text.parse().unwrap_or(1));
            }
            sum
        }
        fn ours_write(numbers: &[$kind], rooms: &mut [u8]) -> usize {
            let mut sizes = 0;
            for (place, &x) in numbers.iter().enumerate() {
                sizes += unsafe { $write(x, rooms.as_mut_ptr(), rooms.len(), place * ROOM) }.value;
            }
            sizes
        }
        #[inline(never)]
        fn rust_write(numbers: &[$kind], rooms: &mut [u8]) -> usize {
            let mut sizes = 0;
            for (room, x) in rooms.chunks_exact_mut(ROOM).zip(numbers) {
                let mut left = room;
                write!(left, "{x}").unwrap();
                sizes += ROOM - left.len();
            }
            sizes
        }
        #[inline(never)]
        fn rust_to_string(numbers: &[$kind]) -> usize {
            let mut sizes = 0;
            for x in numbers {
                sizes += black_box(x.to_string()).len();
            }
            sizes
        }

        let mut random = Random::new();
        let numbers: Vec<$kind> = (0..COUNT).map(|_| $make(random.next())).collect();
        let texts: Vec<String> = numbers.iter().map($kind::to_string).collect();
        let mut rooms = [0; COUNT * ROOM];
        let name = |ours: &str, rust: &str| format!(concat!(stringify!($kind), " {}_decimal, ", $what, "; {}"), ours, rust);
        $bench.row(&name("read", "parse"), COUNT, || ours_read(black_box(&texts)), || rust_read(black_box(&texts)));
        $bench.writing(&name("write", "write!"), COUNT, &rooms, |d| ours_write(&numbers, d), |d| rust_write(black_box(&numbers), d));
        $bench.row(&name("write", "to_string"), COUNT, || ours_write(&numbers, &mut rooms), || rust_to_string(black_box(&numbers)));
    }};
}

pub fn rows(bench: &mut Bench) {
    decimal!(bench, u64, "1 to 4 digits", |x: u64| x % [10, 100, 1000, 10000][(x >> 60) as usize % 4], pb_u64_read_decimal, pb_u64_write_decimal);
    decimal!(bench, u64, "17 to 20 digits", |x: u64| x / [1, 10, 100, 1000][x as usize % 4], pb_u64_read_decimal, pb_u64_write_decimal);
    decimal!(bench, i32, "any number of digits", |x: u64| x as i32 >> (x >> 59), pb_i32_read_decimal, pb_i32_write_decimal);
}
