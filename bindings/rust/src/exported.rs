//! The exports of libpromisebook.a, and a safe call of each that takes slices.

use core::ffi::{c_char, CStr};
use core::mem::MaybeUninit;

#[repr(C)]
pub struct Answer<T> {
    pub ok: bool,
    pub value: T,
}

#[repr(C)]
pub struct BytesRange {
    pub ok: bool,
    pub from: usize,
    pub to: usize,
}

#[repr(C)]
pub struct BytesSplit {
    pub ok: bool,
    pub from: usize,
    pub middle: usize,
    pub to: usize,
}

#[repr(C)]
pub struct BytesFirstAndRest {
    pub ok: bool,
    pub first: u8,
    pub from: usize,
    pub to: usize,
}

#[repr(C)]
pub struct TextRead {
    pub ok: bool,
    pub value: u32,
    pub length: usize,
}

#[repr(C)]
pub struct TextSplit {
    pub ok: bool,
    pub middle: usize,
    pub end: usize,
}

// A function of numbers alone asks nothing of its caller. An answer of more than 16 bytes goes through memory: its place is passed first, and comes back. It is
// declared so, as the archive's code has it, and not left to the compiler, so that inlining finds the same function on both sides.
unsafe extern "C" {
    safe fn pb_version() -> *const c_char;
    pub safe fn pb_u8_wrapping_add(x: u8, y: u8) -> u8;
    pub safe fn pb_u8_wrapping_add_signed(x: u8, y: i8) -> u8;
    pub safe fn pb_u8_wrapping_sub(x: u8, y: u8) -> u8;
    pub safe fn pb_u8_wrapping_mul(x: u8, y: u8) -> u8;
    pub safe fn pb_u8_wrapping_shl(x: u8, rhs: u32) -> u8;
    pub safe fn pb_u8_wrapping_shr(x: u8, rhs: u32) -> u8;
    pub safe fn pb_u8_checked_add(x: u8, y: u8) -> Answer<u8>;
    pub safe fn pb_u8_checked_add_signed(x: u8, y: i8) -> Answer<u8>;
    pub safe fn pb_u8_checked_sub(x: u8, y: u8) -> Answer<u8>;
    pub safe fn pb_u8_checked_mul(x: u8, y: u8) -> Answer<u8>;
    pub safe fn pb_u8_checked_next_multiple_of(x: u8, y: u8) -> Answer<u8>;
    pub safe fn pb_u8_checked_div(x: u8, y: u8) -> Answer<u8>;
    pub safe fn pb_u8_checked_div_euclid(x: u8, y: u8) -> Answer<u8>;
    pub safe fn pb_u8_checked_rem(x: u8, y: u8) -> Answer<u8>;
    pub safe fn pb_u8_checked_rem_euclid(x: u8, y: u8) -> Answer<u8>;
    pub safe fn pb_u8_saturating_add(x: u8, y: u8) -> u8;
    pub safe fn pb_u8_saturating_sub(x: u8, y: u8) -> u8;
    pub safe fn pb_u8_saturating_mul(x: u8, y: u8) -> u8;
    pub safe fn pb_u8_is_multiple_of(x: u8, y: u8) -> bool;
    pub safe fn pb_u8_clone(x: u8) -> u8;
    pub safe fn pb_u8_eq(x: u8, y: u8) -> bool;
    pub safe fn pb_u8_ne(x: u8, y: u8) -> bool;
    pub safe fn pb_u8_lt(x: u8, y: u8) -> bool;
    pub safe fn pb_u8_le(x: u8, y: u8) -> bool;
    pub safe fn pb_u8_gt(x: u8, y: u8) -> bool;
    pub safe fn pb_u8_ge(x: u8, y: u8) -> bool;
    pub safe fn pb_u8_cmp(x: u8, y: u8) -> i8;
    pub safe fn pb_u8_partial_cmp(x: u8, y: u8) -> Answer<i8>;
    pub safe fn pb_u8_leading_zeros(i: u8) -> u32;
    pub safe fn pb_u8_leading_ones(i: u8) -> u32;
    pub safe fn pb_u8_trailing_zeros(i: u8) -> u32;
    pub safe fn pb_u8_trailing_ones(i: u8) -> u32;
    fn pb_u8_read_decimal(s: *const u8, s_len: usize, from: usize, to: usize) -> Answer<u8>;
    fn pb_u8_write_decimal(x: u8, s: *mut u8, s_len: usize, at: usize) -> Answer<usize>;
    pub safe fn pb_u16_wrapping_add(x: u16, y: u16) -> u16;
    pub safe fn pb_u16_wrapping_add_signed(x: u16, y: i16) -> u16;
    pub safe fn pb_u16_wrapping_sub(x: u16, y: u16) -> u16;
    pub safe fn pb_u16_wrapping_mul(x: u16, y: u16) -> u16;
    pub safe fn pb_u16_wrapping_shl(x: u16, rhs: u32) -> u16;
    pub safe fn pb_u16_wrapping_shr(x: u16, rhs: u32) -> u16;
    pub safe fn pb_u16_checked_add(x: u16, y: u16) -> Answer<u16>;
    pub safe fn pb_u16_checked_add_signed(x: u16, y: i16) -> Answer<u16>;
    pub safe fn pb_u16_checked_sub(x: u16, y: u16) -> Answer<u16>;
    pub safe fn pb_u16_checked_mul(x: u16, y: u16) -> Answer<u16>;
    pub safe fn pb_u16_checked_next_multiple_of(x: u16, y: u16) -> Answer<u16>;
    pub safe fn pb_u16_checked_div(x: u16, y: u16) -> Answer<u16>;
    pub safe fn pb_u16_checked_div_euclid(x: u16, y: u16) -> Answer<u16>;
    pub safe fn pb_u16_checked_rem(x: u16, y: u16) -> Answer<u16>;
    pub safe fn pb_u16_checked_rem_euclid(x: u16, y: u16) -> Answer<u16>;
    pub safe fn pb_u16_saturating_add(x: u16, y: u16) -> u16;
    pub safe fn pb_u16_saturating_sub(x: u16, y: u16) -> u16;
    pub safe fn pb_u16_saturating_mul(x: u16, y: u16) -> u16;
    pub safe fn pb_u16_is_multiple_of(x: u16, y: u16) -> bool;
    pub safe fn pb_u16_clone(x: u16) -> u16;
    pub safe fn pb_u16_eq(x: u16, y: u16) -> bool;
    pub safe fn pb_u16_ne(x: u16, y: u16) -> bool;
    pub safe fn pb_u16_lt(x: u16, y: u16) -> bool;
    pub safe fn pb_u16_le(x: u16, y: u16) -> bool;
    pub safe fn pb_u16_gt(x: u16, y: u16) -> bool;
    pub safe fn pb_u16_ge(x: u16, y: u16) -> bool;
    pub safe fn pb_u16_cmp(x: u16, y: u16) -> i8;
    pub safe fn pb_u16_partial_cmp(x: u16, y: u16) -> Answer<i8>;
    pub safe fn pb_u16_leading_zeros(i: u16) -> u32;
    pub safe fn pb_u16_leading_ones(i: u16) -> u32;
    pub safe fn pb_u16_trailing_zeros(i: u16) -> u32;
    pub safe fn pb_u16_trailing_ones(i: u16) -> u32;
    fn pb_u16_from_le_bytes(s: *const u8, s_len: usize) -> Answer<u16>;
    fn pb_u16_to_le_bytes(x: u16, s: *mut u8, s_len: usize, at: usize) -> bool;
    fn pb_u16_from_be_bytes(s: *const u8, s_len: usize) -> Answer<u16>;
    fn pb_u16_to_be_bytes(x: u16, s: *mut u8, s_len: usize, at: usize) -> bool;
    fn pb_u16_read_decimal(s: *const u8, s_len: usize, from: usize, to: usize) -> Answer<u16>;
    fn pb_u16_write_decimal(x: u16, s: *mut u8, s_len: usize, at: usize) -> Answer<usize>;
    pub safe fn pb_u32_wrapping_add(x: u32, y: u32) -> u32;
    pub safe fn pb_u32_wrapping_add_signed(x: u32, y: i32) -> u32;
    pub safe fn pb_u32_wrapping_sub(x: u32, y: u32) -> u32;
    pub safe fn pb_u32_wrapping_mul(x: u32, y: u32) -> u32;
    pub safe fn pb_u32_wrapping_shl(x: u32, rhs: u32) -> u32;
    pub safe fn pb_u32_wrapping_shr(x: u32, rhs: u32) -> u32;
    pub safe fn pb_u32_checked_add(x: u32, y: u32) -> Answer<u32>;
    pub safe fn pb_u32_checked_add_signed(x: u32, y: i32) -> Answer<u32>;
    pub safe fn pb_u32_checked_sub(x: u32, y: u32) -> Answer<u32>;
    pub safe fn pb_u32_checked_mul(x: u32, y: u32) -> Answer<u32>;
    pub safe fn pb_u32_checked_next_multiple_of(x: u32, y: u32) -> Answer<u32>;
    pub safe fn pb_u32_checked_div(x: u32, y: u32) -> Answer<u32>;
    pub safe fn pb_u32_checked_div_euclid(x: u32, y: u32) -> Answer<u32>;
    pub safe fn pb_u32_checked_rem(x: u32, y: u32) -> Answer<u32>;
    pub safe fn pb_u32_checked_rem_euclid(x: u32, y: u32) -> Answer<u32>;
    pub safe fn pb_u32_saturating_add(x: u32, y: u32) -> u32;
    pub safe fn pb_u32_saturating_sub(x: u32, y: u32) -> u32;
    pub safe fn pb_u32_saturating_mul(x: u32, y: u32) -> u32;
    pub safe fn pb_u32_is_multiple_of(x: u32, y: u32) -> bool;
    pub safe fn pb_u32_clone(x: u32) -> u32;
    pub safe fn pb_u32_eq(x: u32, y: u32) -> bool;
    pub safe fn pb_u32_ne(x: u32, y: u32) -> bool;
    pub safe fn pb_u32_lt(x: u32, y: u32) -> bool;
    pub safe fn pb_u32_le(x: u32, y: u32) -> bool;
    pub safe fn pb_u32_gt(x: u32, y: u32) -> bool;
    pub safe fn pb_u32_ge(x: u32, y: u32) -> bool;
    pub safe fn pb_u32_cmp(x: u32, y: u32) -> i8;
    pub safe fn pb_u32_partial_cmp(x: u32, y: u32) -> Answer<i8>;
    pub safe fn pb_u32_leading_zeros(i: u32) -> u32;
    pub safe fn pb_u32_leading_ones(i: u32) -> u32;
    pub safe fn pb_u32_trailing_zeros(i: u32) -> u32;
    pub safe fn pb_u32_trailing_ones(i: u32) -> u32;
    fn pb_u32_from_le_bytes(s: *const u8, s_len: usize) -> Answer<u32>;
    fn pb_u32_to_le_bytes(x: u32, s: *mut u8, s_len: usize, at: usize) -> bool;
    fn pb_u32_from_be_bytes(s: *const u8, s_len: usize) -> Answer<u32>;
    fn pb_u32_to_be_bytes(x: u32, s: *mut u8, s_len: usize, at: usize) -> bool;
    fn pb_u32_read_decimal(s: *const u8, s_len: usize, from: usize, to: usize) -> Answer<u32>;
    fn pb_u32_write_decimal(x: u32, s: *mut u8, s_len: usize, at: usize) -> Answer<usize>;
    pub safe fn pb_u64_wrapping_add(x: u64, y: u64) -> u64;
    pub safe fn pb_u64_wrapping_add_signed(x: u64, y: i64) -> u64;
    pub safe fn pb_u64_wrapping_sub(x: u64, y: u64) -> u64;
    pub safe fn pb_u64_wrapping_mul(x: u64, y: u64) -> u64;
    pub safe fn pb_u64_wrapping_shl(x: u64, rhs: u32) -> u64;
    pub safe fn pb_u64_wrapping_shr(x: u64, rhs: u32) -> u64;
    pub safe fn pb_u64_checked_add(x: u64, y: u64) -> Answer<u64>;
    pub safe fn pb_u64_checked_add_signed(x: u64, y: i64) -> Answer<u64>;
    pub safe fn pb_u64_checked_sub(x: u64, y: u64) -> Answer<u64>;
    pub safe fn pb_u64_checked_mul(x: u64, y: u64) -> Answer<u64>;
    pub safe fn pb_u64_checked_next_multiple_of(x: u64, y: u64) -> Answer<u64>;
    pub safe fn pb_u64_checked_div(x: u64, y: u64) -> Answer<u64>;
    pub safe fn pb_u64_checked_div_euclid(x: u64, y: u64) -> Answer<u64>;
    pub safe fn pb_u64_checked_rem(x: u64, y: u64) -> Answer<u64>;
    pub safe fn pb_u64_checked_rem_euclid(x: u64, y: u64) -> Answer<u64>;
    pub safe fn pb_u64_saturating_add(x: u64, y: u64) -> u64;
    pub safe fn pb_u64_saturating_sub(x: u64, y: u64) -> u64;
    pub safe fn pb_u64_saturating_mul(x: u64, y: u64) -> u64;
    pub safe fn pb_u64_is_multiple_of(x: u64, y: u64) -> bool;
    pub safe fn pb_u64_clone(x: u64) -> u64;
    pub safe fn pb_u64_eq(x: u64, y: u64) -> bool;
    pub safe fn pb_u64_ne(x: u64, y: u64) -> bool;
    pub safe fn pb_u64_lt(x: u64, y: u64) -> bool;
    pub safe fn pb_u64_le(x: u64, y: u64) -> bool;
    pub safe fn pb_u64_gt(x: u64, y: u64) -> bool;
    pub safe fn pb_u64_ge(x: u64, y: u64) -> bool;
    pub safe fn pb_u64_cmp(x: u64, y: u64) -> i8;
    pub safe fn pb_u64_partial_cmp(x: u64, y: u64) -> Answer<i8>;
    pub safe fn pb_u64_leading_zeros(i: u64) -> u32;
    pub safe fn pb_u64_leading_ones(i: u64) -> u32;
    pub safe fn pb_u64_trailing_zeros(i: u64) -> u32;
    pub safe fn pb_u64_trailing_ones(i: u64) -> u32;
    fn pb_u64_from_le_bytes(s: *const u8, s_len: usize) -> Answer<u64>;
    fn pb_u64_to_le_bytes(x: u64, s: *mut u8, s_len: usize, at: usize) -> bool;
    fn pb_u64_from_be_bytes(s: *const u8, s_len: usize) -> Answer<u64>;
    fn pb_u64_to_be_bytes(x: u64, s: *mut u8, s_len: usize, at: usize) -> bool;
    fn pb_u64_read_decimal(s: *const u8, s_len: usize, from: usize, to: usize) -> Answer<u64>;
    fn pb_u64_write_decimal(x: u64, s: *mut u8, s_len: usize, at: usize) -> Answer<usize>;
    pub safe fn pb_usize_wrapping_add(x: usize, y: usize) -> usize;
    pub safe fn pb_usize_wrapping_add_signed(x: usize, y: isize) -> usize;
    pub safe fn pb_usize_wrapping_sub(x: usize, y: usize) -> usize;
    pub safe fn pb_usize_wrapping_mul(x: usize, y: usize) -> usize;
    pub safe fn pb_usize_wrapping_shl(x: usize, rhs: u32) -> usize;
    pub safe fn pb_usize_wrapping_shr(x: usize, rhs: u32) -> usize;
    pub safe fn pb_usize_checked_add(x: usize, y: usize) -> Answer<usize>;
    pub safe fn pb_usize_checked_add_signed(x: usize, y: isize) -> Answer<usize>;
    pub safe fn pb_usize_checked_sub(x: usize, y: usize) -> Answer<usize>;
    pub safe fn pb_usize_checked_mul(x: usize, y: usize) -> Answer<usize>;
    pub safe fn pb_usize_checked_next_multiple_of(x: usize, y: usize) -> Answer<usize>;
    pub safe fn pb_usize_checked_div(x: usize, y: usize) -> Answer<usize>;
    pub safe fn pb_usize_checked_div_euclid(x: usize, y: usize) -> Answer<usize>;
    pub safe fn pb_usize_checked_rem(x: usize, y: usize) -> Answer<usize>;
    pub safe fn pb_usize_checked_rem_euclid(x: usize, y: usize) -> Answer<usize>;
    pub safe fn pb_usize_saturating_add(x: usize, y: usize) -> usize;
    pub safe fn pb_usize_saturating_sub(x: usize, y: usize) -> usize;
    pub safe fn pb_usize_saturating_mul(x: usize, y: usize) -> usize;
    pub safe fn pb_usize_is_multiple_of(x: usize, y: usize) -> bool;
    pub safe fn pb_usize_clone(x: usize) -> usize;
    pub safe fn pb_usize_eq(x: usize, y: usize) -> bool;
    pub safe fn pb_usize_ne(x: usize, y: usize) -> bool;
    pub safe fn pb_usize_lt(x: usize, y: usize) -> bool;
    pub safe fn pb_usize_le(x: usize, y: usize) -> bool;
    pub safe fn pb_usize_gt(x: usize, y: usize) -> bool;
    pub safe fn pb_usize_ge(x: usize, y: usize) -> bool;
    pub safe fn pb_usize_cmp(x: usize, y: usize) -> i8;
    pub safe fn pb_usize_partial_cmp(x: usize, y: usize) -> Answer<i8>;
    fn pb_usize_read_decimal(s: *const u8, s_len: usize, from: usize, to: usize) -> Answer<usize>;
    fn pb_usize_write_decimal(x: usize, s: *mut u8, s_len: usize, at: usize) -> Answer<usize>;
    pub safe fn pb_i8_wrapping_add(x: i8, y: i8) -> i8;
    pub safe fn pb_i8_wrapping_add_unsigned(x: i8, y: u8) -> i8;
    pub safe fn pb_i8_wrapping_sub(x: i8, y: i8) -> i8;
    pub safe fn pb_i8_wrapping_mul(x: i8, y: i8) -> i8;
    pub safe fn pb_i8_wrapping_shl(x: i8, rhs: u32) -> i8;
    pub safe fn pb_i8_wrapping_shr(x: i8, rhs: u32) -> i8;
    pub safe fn pb_i8_checked_add(x: i8, y: i8) -> Answer<i8>;
    pub safe fn pb_i8_checked_add_unsigned(x: i8, y: u8) -> Answer<i8>;
    pub safe fn pb_i8_checked_sub(x: i8, y: i8) -> Answer<i8>;
    pub safe fn pb_i8_checked_sub_unsigned(x: i8, y: u8) -> Answer<i8>;
    pub safe fn pb_i8_checked_mul(x: i8, y: i8) -> Answer<i8>;
    pub safe fn pb_i8_checked_div(x: i8, y: i8) -> Answer<i8>;
    pub safe fn pb_i8_checked_div_euclid(x: i8, y: i8) -> Answer<i8>;
    pub safe fn pb_i8_checked_rem(x: i8, y: i8) -> Answer<i8>;
    pub safe fn pb_i8_checked_rem_euclid(x: i8, y: i8) -> Answer<i8>;
    pub safe fn pb_i8_clone(x: i8) -> i8;
    pub safe fn pb_i8_eq(x: i8, y: i8) -> bool;
    pub safe fn pb_i8_ne(x: i8, y: i8) -> bool;
    pub safe fn pb_i8_lt(x: i8, y: i8) -> bool;
    pub safe fn pb_i8_le(x: i8, y: i8) -> bool;
    pub safe fn pb_i8_gt(x: i8, y: i8) -> bool;
    pub safe fn pb_i8_ge(x: i8, y: i8) -> bool;
    pub safe fn pb_i8_cmp(x: i8, y: i8) -> i8;
    pub safe fn pb_i8_partial_cmp(x: i8, y: i8) -> Answer<i8>;
    fn pb_i8_read_decimal(s: *const u8, s_len: usize, from: usize, to: usize) -> Answer<i8>;
    fn pb_i8_write_decimal(x: i8, s: *mut u8, s_len: usize, at: usize) -> Answer<usize>;
    pub safe fn pb_i16_wrapping_add(x: i16, y: i16) -> i16;
    pub safe fn pb_i16_wrapping_add_unsigned(x: i16, y: u16) -> i16;
    pub safe fn pb_i16_wrapping_sub(x: i16, y: i16) -> i16;
    pub safe fn pb_i16_wrapping_mul(x: i16, y: i16) -> i16;
    pub safe fn pb_i16_wrapping_shl(x: i16, rhs: u32) -> i16;
    pub safe fn pb_i16_wrapping_shr(x: i16, rhs: u32) -> i16;
    pub safe fn pb_i16_checked_add(x: i16, y: i16) -> Answer<i16>;
    pub safe fn pb_i16_checked_add_unsigned(x: i16, y: u16) -> Answer<i16>;
    pub safe fn pb_i16_checked_sub(x: i16, y: i16) -> Answer<i16>;
    pub safe fn pb_i16_checked_sub_unsigned(x: i16, y: u16) -> Answer<i16>;
    pub safe fn pb_i16_checked_mul(x: i16, y: i16) -> Answer<i16>;
    pub safe fn pb_i16_checked_div(x: i16, y: i16) -> Answer<i16>;
    pub safe fn pb_i16_checked_div_euclid(x: i16, y: i16) -> Answer<i16>;
    pub safe fn pb_i16_checked_rem(x: i16, y: i16) -> Answer<i16>;
    pub safe fn pb_i16_checked_rem_euclid(x: i16, y: i16) -> Answer<i16>;
    pub safe fn pb_i16_clone(x: i16) -> i16;
    pub safe fn pb_i16_eq(x: i16, y: i16) -> bool;
    pub safe fn pb_i16_ne(x: i16, y: i16) -> bool;
    pub safe fn pb_i16_lt(x: i16, y: i16) -> bool;
    pub safe fn pb_i16_le(x: i16, y: i16) -> bool;
    pub safe fn pb_i16_gt(x: i16, y: i16) -> bool;
    pub safe fn pb_i16_ge(x: i16, y: i16) -> bool;
    pub safe fn pb_i16_cmp(x: i16, y: i16) -> i8;
    pub safe fn pb_i16_partial_cmp(x: i16, y: i16) -> Answer<i8>;
    fn pb_i16_read_decimal(s: *const u8, s_len: usize, from: usize, to: usize) -> Answer<i16>;
    fn pb_i16_write_decimal(x: i16, s: *mut u8, s_len: usize, at: usize) -> Answer<usize>;
    pub safe fn pb_i32_wrapping_add(x: i32, y: i32) -> i32;
    pub safe fn pb_i32_wrapping_add_unsigned(x: i32, y: u32) -> i32;
    pub safe fn pb_i32_wrapping_sub(x: i32, y: i32) -> i32;
    pub safe fn pb_i32_wrapping_mul(x: i32, y: i32) -> i32;
    pub safe fn pb_i32_wrapping_shl(x: i32, rhs: u32) -> i32;
    pub safe fn pb_i32_wrapping_shr(x: i32, rhs: u32) -> i32;
    pub safe fn pb_i32_checked_add(x: i32, y: i32) -> Answer<i32>;
    pub safe fn pb_i32_checked_add_unsigned(x: i32, y: u32) -> Answer<i32>;
    pub safe fn pb_i32_checked_sub(x: i32, y: i32) -> Answer<i32>;
    pub safe fn pb_i32_checked_sub_unsigned(x: i32, y: u32) -> Answer<i32>;
    pub safe fn pb_i32_checked_mul(x: i32, y: i32) -> Answer<i32>;
    pub safe fn pb_i32_checked_div(x: i32, y: i32) -> Answer<i32>;
    pub safe fn pb_i32_checked_div_euclid(x: i32, y: i32) -> Answer<i32>;
    pub safe fn pb_i32_checked_rem(x: i32, y: i32) -> Answer<i32>;
    pub safe fn pb_i32_checked_rem_euclid(x: i32, y: i32) -> Answer<i32>;
    pub safe fn pb_i32_clone(x: i32) -> i32;
    pub safe fn pb_i32_eq(x: i32, y: i32) -> bool;
    pub safe fn pb_i32_ne(x: i32, y: i32) -> bool;
    pub safe fn pb_i32_lt(x: i32, y: i32) -> bool;
    pub safe fn pb_i32_le(x: i32, y: i32) -> bool;
    pub safe fn pb_i32_gt(x: i32, y: i32) -> bool;
    pub safe fn pb_i32_ge(x: i32, y: i32) -> bool;
    pub safe fn pb_i32_cmp(x: i32, y: i32) -> i8;
    pub safe fn pb_i32_partial_cmp(x: i32, y: i32) -> Answer<i8>;
    fn pb_i32_read_decimal(s: *const u8, s_len: usize, from: usize, to: usize) -> Answer<i32>;
    fn pb_i32_write_decimal(x: i32, s: *mut u8, s_len: usize, at: usize) -> Answer<usize>;
    pub safe fn pb_i64_wrapping_add(x: i64, y: i64) -> i64;
    pub safe fn pb_i64_wrapping_add_unsigned(x: i64, y: u64) -> i64;
    pub safe fn pb_i64_wrapping_sub(x: i64, y: i64) -> i64;
    pub safe fn pb_i64_wrapping_mul(x: i64, y: i64) -> i64;
    pub safe fn pb_i64_wrapping_shl(x: i64, rhs: u32) -> i64;
    pub safe fn pb_i64_wrapping_shr(x: i64, rhs: u32) -> i64;
    pub safe fn pb_i64_checked_add(x: i64, y: i64) -> Answer<i64>;
    pub safe fn pb_i64_checked_add_unsigned(x: i64, y: u64) -> Answer<i64>;
    pub safe fn pb_i64_checked_sub(x: i64, y: i64) -> Answer<i64>;
    pub safe fn pb_i64_checked_sub_unsigned(x: i64, y: u64) -> Answer<i64>;
    pub safe fn pb_i64_checked_mul(x: i64, y: i64) -> Answer<i64>;
    pub safe fn pb_i64_checked_div(x: i64, y: i64) -> Answer<i64>;
    pub safe fn pb_i64_checked_div_euclid(x: i64, y: i64) -> Answer<i64>;
    pub safe fn pb_i64_checked_rem(x: i64, y: i64) -> Answer<i64>;
    pub safe fn pb_i64_checked_rem_euclid(x: i64, y: i64) -> Answer<i64>;
    pub safe fn pb_i64_clone(x: i64) -> i64;
    pub safe fn pb_i64_eq(x: i64, y: i64) -> bool;
    pub safe fn pb_i64_ne(x: i64, y: i64) -> bool;
    pub safe fn pb_i64_lt(x: i64, y: i64) -> bool;
    pub safe fn pb_i64_le(x: i64, y: i64) -> bool;
    pub safe fn pb_i64_gt(x: i64, y: i64) -> bool;
    pub safe fn pb_i64_ge(x: i64, y: i64) -> bool;
    pub safe fn pb_i64_cmp(x: i64, y: i64) -> i8;
    pub safe fn pb_i64_partial_cmp(x: i64, y: i64) -> Answer<i8>;
    fn pb_i64_read_decimal(s: *const u8, s_len: usize, from: usize, to: usize) -> Answer<i64>;
    fn pb_i64_write_decimal(x: i64, s: *mut u8, s_len: usize, at: usize) -> Answer<usize>;
    pub safe fn pb_isize_wrapping_add(x: isize, y: isize) -> isize;
    pub safe fn pb_isize_wrapping_add_unsigned(x: isize, y: usize) -> isize;
    pub safe fn pb_isize_wrapping_sub(x: isize, y: isize) -> isize;
    pub safe fn pb_isize_wrapping_mul(x: isize, y: isize) -> isize;
    pub safe fn pb_isize_wrapping_shl(x: isize, rhs: u32) -> isize;
    pub safe fn pb_isize_wrapping_shr(x: isize, rhs: u32) -> isize;
    pub safe fn pb_isize_checked_add(x: isize, y: isize) -> Answer<isize>;
    pub safe fn pb_isize_checked_add_unsigned(x: isize, y: usize) -> Answer<isize>;
    pub safe fn pb_isize_checked_sub(x: isize, y: isize) -> Answer<isize>;
    pub safe fn pb_isize_checked_sub_unsigned(x: isize, y: usize) -> Answer<isize>;
    pub safe fn pb_isize_checked_mul(x: isize, y: isize) -> Answer<isize>;
    pub safe fn pb_isize_checked_div(x: isize, y: isize) -> Answer<isize>;
    pub safe fn pb_isize_checked_div_euclid(x: isize, y: isize) -> Answer<isize>;
    pub safe fn pb_isize_checked_rem(x: isize, y: isize) -> Answer<isize>;
    pub safe fn pb_isize_checked_rem_euclid(x: isize, y: isize) -> Answer<isize>;
    pub safe fn pb_isize_clone(x: isize) -> isize;
    pub safe fn pb_isize_eq(x: isize, y: isize) -> bool;
    pub safe fn pb_isize_ne(x: isize, y: isize) -> bool;
    pub safe fn pb_isize_lt(x: isize, y: isize) -> bool;
    pub safe fn pb_isize_le(x: isize, y: isize) -> bool;
    pub safe fn pb_isize_gt(x: isize, y: isize) -> bool;
    pub safe fn pb_isize_ge(x: isize, y: isize) -> bool;
    pub safe fn pb_isize_cmp(x: isize, y: isize) -> i8;
    pub safe fn pb_isize_partial_cmp(x: isize, y: isize) -> Answer<i8>;
    fn pb_isize_read_decimal(s: *const u8, s_len: usize, from: usize, to: usize) -> Answer<isize>;
    fn pb_isize_write_decimal(x: isize, s: *mut u8, s_len: usize, at: usize) -> Answer<usize>;
    fn pb_bytes_len(s: *const u8, s_len: usize, from: usize, to: usize) -> Answer<usize>;
    fn pb_bytes_is_empty(s: *const u8, s_len: usize, from: usize, to: usize) -> Answer<bool>;
    fn pb_bytes_get(s: *const u8, s_len: usize, from: usize, to: usize, i: usize) -> Answer<u8>;
    fn pb_bytes_first(s: *const u8, s_len: usize, from: usize, to: usize) -> Answer<u8>;
    fn pb_bytes_last(s: *const u8, s_len: usize, from: usize, to: usize) -> Answer<u8>;
    fn pb_bytes_sub_range(answer: *mut BytesRange, s: *const u8, s_len: usize, from: usize, to: usize, a: usize, e: usize) -> *mut BytesRange;
    fn pb_bytes_split_at(answer: *mut BytesSplit, s: *const u8, s_len: usize, from: usize, to: usize, m: usize) -> *mut BytesSplit;
    fn pb_bytes_split_first(answer: *mut BytesFirstAndRest, s: *const u8, s_len: usize, from: usize, to: usize) -> *mut BytesFirstAndRest;
    fn pb_bytes_next_piece(answer: *mut BytesRange, s: *const u8, s_len: usize, from: usize, to: usize, n: usize) -> *mut BytesRange;
    fn pb_bytes_starts_with(s: *const u8, s_len: usize, from: usize, to: usize, needle: *const u8, needle_len: usize) -> Answer<bool>;
    fn pb_bytes_ends_with(s: *const u8, s_len: usize, from: usize, to: usize, needle: *const u8, needle_len: usize) -> Answer<bool>;
    fn pb_bytes_contains(s: *const u8, s_len: usize, from: usize, to: usize, v: u8) -> Answer<bool>;
    fn pb_bytes_equal(s: *const u8, s_len: usize, from: usize, to: usize, other: *const u8, other_len: usize) -> Answer<bool>;
    fn pb_bytes_set(s: *mut u8, s_len: usize, from: usize, to: usize, i: usize, v: u8) -> bool;
    fn pb_bytes_reverse(s: *mut u8, s_len: usize, from: usize, to: usize) -> bool;
    fn pb_bytes_copy_from(s: *mut u8, s_len: usize, from: usize, to: usize, other: *const u8, other_len: usize) -> bool;
    fn pb_bytes_copy_within(s: *mut u8, s_len: usize, from: usize, to: usize, at: usize) -> bool;
    pub safe fn pb_text_scalar_len(c: u32) -> Answer<usize>;
    pub safe fn pb_text_is_white_space(c: u32) -> bool;
    fn pb_text_write(out: *mut u8, out_len: usize, at: usize, c: u32) -> Answer<usize>;
    fn pb_text_read_first(s: *const u8, s_len: usize, from: usize, to: usize) -> TextRead;
    fn pb_text_read_last(s: *const u8, s_len: usize, from: usize, to: usize) -> TextRead;
    fn pb_text_valid(s: *const u8, s_len: usize) -> bool;
    fn pb_text_count(s: *const u8, s_len: usize) -> Answer<usize>;
    fn pb_text_is_boundary(s: *const u8, s_len: usize, at: usize) -> Answer<bool>;
    fn pb_text_split_at(answer: *mut TextSplit, s: *const u8, s_len: usize, at: usize) -> *mut TextSplit;
    fn pb_text_is_ascii(s: *const u8, s_len: usize) -> bool;
    fn pb_text_valid_up_to(s: *const u8, s_len: usize) -> usize;
}

// The text is a constant of the archive, with a zero behind it.
pub fn version() -> &'static CStr {
    unsafe { CStr::from_ptr(pb_version()) }
}

// A slice is there, with its length, and one that is written is shared with nobody: what these functions ask is what Rust's types say. An answer that goes
// through memory is written whole by the call.

#[inline]
pub fn u8_read_decimal(s: &[u8], from: usize, to: usize) -> Answer<u8> {
    unsafe { pb_u8_read_decimal(s.as_ptr(), s.len(), from, to) }
}

#[inline]
pub fn u8_write_decimal(x: u8, s: &mut [u8], at: usize) -> Answer<usize> {
    unsafe { pb_u8_write_decimal(x, s.as_mut_ptr(), s.len(), at) }
}

#[inline]
pub fn u16_from_le_bytes(s: &[u8]) -> Answer<u16> {
    unsafe { pb_u16_from_le_bytes(s.as_ptr(), s.len()) }
}

#[inline]
pub fn u16_to_le_bytes(x: u16, s: &mut [u8], at: usize) -> bool {
    unsafe { pb_u16_to_le_bytes(x, s.as_mut_ptr(), s.len(), at) }
}

#[inline]
pub fn u16_from_be_bytes(s: &[u8]) -> Answer<u16> {
    unsafe { pb_u16_from_be_bytes(s.as_ptr(), s.len()) }
}

#[inline]
pub fn u16_to_be_bytes(x: u16, s: &mut [u8], at: usize) -> bool {
    unsafe { pb_u16_to_be_bytes(x, s.as_mut_ptr(), s.len(), at) }
}

#[inline]
pub fn u16_read_decimal(s: &[u8], from: usize, to: usize) -> Answer<u16> {
    unsafe { pb_u16_read_decimal(s.as_ptr(), s.len(), from, to) }
}

#[inline]
pub fn u16_write_decimal(x: u16, s: &mut [u8], at: usize) -> Answer<usize> {
    unsafe { pb_u16_write_decimal(x, s.as_mut_ptr(), s.len(), at) }
}

#[inline]
pub fn u32_from_le_bytes(s: &[u8]) -> Answer<u32> {
    unsafe { pb_u32_from_le_bytes(s.as_ptr(), s.len()) }
}

#[inline]
pub fn u32_to_le_bytes(x: u32, s: &mut [u8], at: usize) -> bool {
    unsafe { pb_u32_to_le_bytes(x, s.as_mut_ptr(), s.len(), at) }
}

#[inline]
pub fn u32_from_be_bytes(s: &[u8]) -> Answer<u32> {
    unsafe { pb_u32_from_be_bytes(s.as_ptr(), s.len()) }
}

#[inline]
pub fn u32_to_be_bytes(x: u32, s: &mut [u8], at: usize) -> bool {
    unsafe { pb_u32_to_be_bytes(x, s.as_mut_ptr(), s.len(), at) }
}

#[inline]
pub fn u32_read_decimal(s: &[u8], from: usize, to: usize) -> Answer<u32> {
    unsafe { pb_u32_read_decimal(s.as_ptr(), s.len(), from, to) }
}

#[inline]
pub fn u32_write_decimal(x: u32, s: &mut [u8], at: usize) -> Answer<usize> {
    unsafe { pb_u32_write_decimal(x, s.as_mut_ptr(), s.len(), at) }
}

#[inline]
pub fn u64_from_le_bytes(s: &[u8]) -> Answer<u64> {
    unsafe { pb_u64_from_le_bytes(s.as_ptr(), s.len()) }
}

#[inline]
pub fn u64_to_le_bytes(x: u64, s: &mut [u8], at: usize) -> bool {
    unsafe { pb_u64_to_le_bytes(x, s.as_mut_ptr(), s.len(), at) }
}

#[inline]
pub fn u64_from_be_bytes(s: &[u8]) -> Answer<u64> {
    unsafe { pb_u64_from_be_bytes(s.as_ptr(), s.len()) }
}

#[inline]
pub fn u64_to_be_bytes(x: u64, s: &mut [u8], at: usize) -> bool {
    unsafe { pb_u64_to_be_bytes(x, s.as_mut_ptr(), s.len(), at) }
}

#[inline]
pub fn u64_read_decimal(s: &[u8], from: usize, to: usize) -> Answer<u64> {
    unsafe { pb_u64_read_decimal(s.as_ptr(), s.len(), from, to) }
}

#[inline]
pub fn u64_write_decimal(x: u64, s: &mut [u8], at: usize) -> Answer<usize> {
    unsafe { pb_u64_write_decimal(x, s.as_mut_ptr(), s.len(), at) }
}

#[inline]
pub fn usize_read_decimal(s: &[u8], from: usize, to: usize) -> Answer<usize> {
    unsafe { pb_usize_read_decimal(s.as_ptr(), s.len(), from, to) }
}

#[inline]
pub fn usize_write_decimal(x: usize, s: &mut [u8], at: usize) -> Answer<usize> {
    unsafe { pb_usize_write_decimal(x, s.as_mut_ptr(), s.len(), at) }
}

#[inline]
pub fn i8_read_decimal(s: &[u8], from: usize, to: usize) -> Answer<i8> {
    unsafe { pb_i8_read_decimal(s.as_ptr(), s.len(), from, to) }
}

#[inline]
pub fn i8_write_decimal(x: i8, s: &mut [u8], at: usize) -> Answer<usize> {
    unsafe { pb_i8_write_decimal(x, s.as_mut_ptr(), s.len(), at) }
}

#[inline]
pub fn i16_read_decimal(s: &[u8], from: usize, to: usize) -> Answer<i16> {
    unsafe { pb_i16_read_decimal(s.as_ptr(), s.len(), from, to) }
}

#[inline]
pub fn i16_write_decimal(x: i16, s: &mut [u8], at: usize) -> Answer<usize> {
    unsafe { pb_i16_write_decimal(x, s.as_mut_ptr(), s.len(), at) }
}

#[inline]
pub fn i32_read_decimal(s: &[u8], from: usize, to: usize) -> Answer<i32> {
    unsafe { pb_i32_read_decimal(s.as_ptr(), s.len(), from, to) }
}

#[inline]
pub fn i32_write_decimal(x: i32, s: &mut [u8], at: usize) -> Answer<usize> {
    unsafe { pb_i32_write_decimal(x, s.as_mut_ptr(), s.len(), at) }
}

#[inline]
pub fn i64_read_decimal(s: &[u8], from: usize, to: usize) -> Answer<i64> {
    unsafe { pb_i64_read_decimal(s.as_ptr(), s.len(), from, to) }
}

#[inline]
pub fn i64_write_decimal(x: i64, s: &mut [u8], at: usize) -> Answer<usize> {
    unsafe { pb_i64_write_decimal(x, s.as_mut_ptr(), s.len(), at) }
}

#[inline]
pub fn isize_read_decimal(s: &[u8], from: usize, to: usize) -> Answer<isize> {
    unsafe { pb_isize_read_decimal(s.as_ptr(), s.len(), from, to) }
}

#[inline]
pub fn isize_write_decimal(x: isize, s: &mut [u8], at: usize) -> Answer<usize> {
    unsafe { pb_isize_write_decimal(x, s.as_mut_ptr(), s.len(), at) }
}

#[inline]
pub fn bytes_len(s: &[u8], from: usize, to: usize) -> Answer<usize> {
    unsafe { pb_bytes_len(s.as_ptr(), s.len(), from, to) }
}

#[inline]
pub fn bytes_is_empty(s: &[u8], from: usize, to: usize) -> Answer<bool> {
    unsafe { pb_bytes_is_empty(s.as_ptr(), s.len(), from, to) }
}

#[inline]
pub fn bytes_get(s: &[u8], from: usize, to: usize, i: usize) -> Answer<u8> {
    unsafe { pb_bytes_get(s.as_ptr(), s.len(), from, to, i) }
}

#[inline]
pub fn bytes_first(s: &[u8], from: usize, to: usize) -> Answer<u8> {
    unsafe { pb_bytes_first(s.as_ptr(), s.len(), from, to) }
}

#[inline]
pub fn bytes_last(s: &[u8], from: usize, to: usize) -> Answer<u8> {
    unsafe { pb_bytes_last(s.as_ptr(), s.len(), from, to) }
}

#[inline]
pub fn bytes_sub_range(s: &[u8], from: usize, to: usize, a: usize, e: usize) -> BytesRange {
    let mut answer = MaybeUninit::uninit();
    unsafe {
        pb_bytes_sub_range(answer.as_mut_ptr(), s.as_ptr(), s.len(), from, to, a, e);
        answer.assume_init()
    }
}

#[inline]
pub fn bytes_split_at(s: &[u8], from: usize, to: usize, m: usize) -> BytesSplit {
    let mut answer = MaybeUninit::uninit();
    unsafe {
        pb_bytes_split_at(answer.as_mut_ptr(), s.as_ptr(), s.len(), from, to, m);
        answer.assume_init()
    }
}

#[inline]
pub fn bytes_split_first(s: &[u8], from: usize, to: usize) -> BytesFirstAndRest {
    let mut answer = MaybeUninit::uninit();
    unsafe {
        pb_bytes_split_first(answer.as_mut_ptr(), s.as_ptr(), s.len(), from, to);
        answer.assume_init()
    }
}

#[inline]
pub fn bytes_next_piece(s: &[u8], from: usize, to: usize, n: usize) -> BytesRange {
    let mut answer = MaybeUninit::uninit();
    unsafe {
        pb_bytes_next_piece(answer.as_mut_ptr(), s.as_ptr(), s.len(), from, to, n);
        answer.assume_init()
    }
}

#[inline]
pub fn bytes_starts_with(s: &[u8], from: usize, to: usize, needle: &[u8]) -> Answer<bool> {
    unsafe { pb_bytes_starts_with(s.as_ptr(), s.len(), from, to, needle.as_ptr(), needle.len()) }
}

#[inline]
pub fn bytes_ends_with(s: &[u8], from: usize, to: usize, needle: &[u8]) -> Answer<bool> {
    unsafe { pb_bytes_ends_with(s.as_ptr(), s.len(), from, to, needle.as_ptr(), needle.len()) }
}

#[inline]
pub fn bytes_contains(s: &[u8], from: usize, to: usize, v: u8) -> Answer<bool> {
    unsafe { pb_bytes_contains(s.as_ptr(), s.len(), from, to, v) }
}

#[inline]
pub fn bytes_equal(s: &[u8], from: usize, to: usize, other: &[u8]) -> Answer<bool> {
    unsafe { pb_bytes_equal(s.as_ptr(), s.len(), from, to, other.as_ptr(), other.len()) }
}

#[inline]
pub fn bytes_set(s: &mut [u8], from: usize, to: usize, i: usize, v: u8) -> bool {
    unsafe { pb_bytes_set(s.as_mut_ptr(), s.len(), from, to, i, v) }
}

#[inline]
pub fn bytes_reverse(s: &mut [u8], from: usize, to: usize) -> bool {
    unsafe { pb_bytes_reverse(s.as_mut_ptr(), s.len(), from, to) }
}

#[inline]
pub fn bytes_copy_from(s: &mut [u8], from: usize, to: usize, other: &[u8]) -> bool {
    unsafe { pb_bytes_copy_from(s.as_mut_ptr(), s.len(), from, to, other.as_ptr(), other.len()) }
}

#[inline]
pub fn bytes_copy_within(s: &mut [u8], from: usize, to: usize, at: usize) -> bool {
    unsafe { pb_bytes_copy_within(s.as_mut_ptr(), s.len(), from, to, at) }
}

#[inline]
pub fn text_write(out: &mut [u8], at: usize, c: u32) -> Answer<usize> {
    unsafe { pb_text_write(out.as_mut_ptr(), out.len(), at, c) }
}

#[inline]
pub fn text_read_first(s: &[u8], from: usize, to: usize) -> TextRead {
    unsafe { pb_text_read_first(s.as_ptr(), s.len(), from, to) }
}

#[inline]
pub fn text_read_last(s: &[u8], from: usize, to: usize) -> TextRead {
    unsafe { pb_text_read_last(s.as_ptr(), s.len(), from, to) }
}

#[inline]
pub fn text_valid(s: &[u8]) -> bool {
    unsafe { pb_text_valid(s.as_ptr(), s.len()) }
}

#[inline]
pub fn text_count(s: &[u8]) -> Answer<usize> {
    unsafe { pb_text_count(s.as_ptr(), s.len()) }
}

#[inline]
pub fn text_is_boundary(s: &[u8], at: usize) -> Answer<bool> {
    unsafe { pb_text_is_boundary(s.as_ptr(), s.len(), at) }
}

#[inline]
pub fn text_split_at(s: &[u8], at: usize) -> TextSplit {
    let mut answer = MaybeUninit::uninit();
    unsafe {
        pb_text_split_at(answer.as_mut_ptr(), s.as_ptr(), s.len(), at);
        answer.assume_init()
    }
}

#[inline]
pub fn text_is_ascii(s: &[u8]) -> bool {
    unsafe { pb_text_is_ascii(s.as_ptr(), s.len()) }
}

#[inline]
pub fn text_valid_up_to(s: &[u8]) -> usize {
    unsafe { pb_text_valid_up_to(s.as_ptr(), s.len()) }
}

// The bytes are valid UTF-8, which is all that from_utf8_unchecked asks: text_valid answers true of no others, by the contract of pb_text_valid
// (`Valid` of vstd_text: some scalar values are written as these bytes).
#[inline]
pub fn text_as_str(s: &[u8]) -> Option<&str> {
    if text_valid(s) {
        Some(unsafe { core::str::from_utf8_unchecked(s) })
    } else {
        None
    }
}
