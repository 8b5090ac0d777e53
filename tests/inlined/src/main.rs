//! Calls operations of every family with numbers and bytes that the compiler cannot foresee, and compares what they answer.
use promisebook::{bytes, i32s, i64s, text, u16s, u64s, u8s};
use std::hint::black_box;

fn main() {
    let (seven, field) = (black_box(7), black_box("weiche;-42;frei".as_bytes()));
    assert_eq!(u64s::checked_add(seven, u64::MAX), None);
    assert_eq!(u8s::saturating_add(250, seven as u8), 255);
    assert_eq!(i64s::checked_rem_euclid(-(seven as i64), 3), Some(2));
    assert_eq!(i32s::wrapping_mul(seven as i32, i32::MAX), 2147483641);
    assert_eq!(u64s::leading_zeros(seven), 61);
    assert_eq!(u16s::from_be_bytes(&field[..2]), Some(0x7765));
    assert_eq!(bytes::split_at(field, 6), Some((&b"weiche"[..], &b";-42;frei"[..])));
    assert!(bytes::equal(&field[..6], b"weiche"));
    assert_eq!(i64s::read_decimal_in(field, 7..10), Some(Ok(-42)));
    assert!(text::valid(field));
}
