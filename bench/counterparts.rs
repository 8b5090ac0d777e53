//! What Rust's standard library has for some exports, under their names and with their answers: bench/instructions compares what the compilers make of both.
use std::slice::{from_raw_parts, from_raw_parts_mut};

#[repr(C)]
pub struct Answer<T> {
    ok: bool,
    value: T,
}

fn answer<T: Default>(value: Option<T>) -> Answer<T> {
    match value {
        Some(value) => Answer { ok: true, value },
        None => Answer { ok: false, value: T::default() },
    }
}

macro_rules! answers {
    ($($name:ident($kind:ty, $other:ty) = $operation:expr;)*) => {
        $(#[no_mangle] pub extern "C" fn $name(x: $kind, y: $other) -> Answer<$kind> { answer($operation(x, y)) })*
    };
}
macro_rules! values {
    ($($name:ident($kind:ty, $other:ty) = $operation:expr;)*) => {
        $(#[no_mangle] pub extern "C" fn $name(x: $kind, y: $other) -> $kind { $operation(x, y) })*
    };
}
macro_rules! counts {
    ($($name:ident($kind:ty) = $operation:expr;)*) => {
        $(#[no_mangle] pub extern "C" fn $name(x: $kind) -> u32 { $operation(x) })*
    };
}

values! {
    pb_u64_wrapping_add(u64, u64) = u64::wrapping_add;
    pb_i64_wrapping_add(i64, i64) = i64::wrapping_add;
    pb_u64_wrapping_mul(u64, u64) = u64::wrapping_mul;
    pb_i64_wrapping_mul(i64, i64) = i64::wrapping_mul;
    pb_u64_wrapping_shl(u64, u32) = u64::wrapping_shl;
    pb_i64_wrapping_shr(i64, u32) = i64::wrapping_shr;
    pb_u64_saturating_add(u64, u64) = u64::saturating_add;
    pb_u64_saturating_sub(u64, u64) = u64::saturating_sub;
    pb_u64_saturating_mul(u64, u64) = u64::saturating_mul;
}

answers! {
    pb_u64_checked_add(u64, u64) = u64::checked_add;
    pb_u64_checked_sub(u64, u64) = u64::checked_sub;
    pb_u64_checked_mul(u64, u64) = u64::checked_mul;
    pb_u64_checked_div(u64, u64) = u64::checked_div;
    pb_i64_checked_add(i64, i64) = i64::checked_add;
    pb_i64_checked_sub(i64, i64) = i64::checked_sub;
    pb_i64_checked_mul(i64, i64) = i64::checked_mul;
    pb_i32_checked_add(i32, i32) = i32::checked_add;
    pb_i32_checked_mul(i32, i32) = i32::checked_mul;
}

counts! {
    pb_u64_leading_zeros(u64) = u64::leading_zeros;
    pb_u64_trailing_zeros(u64) = u64::trailing_zeros;
    pb_u64_leading_ones(u64) = u64::leading_ones;
    pb_u64_trailing_ones(u64) = u64::trailing_ones;
}

/// # Safety
/// `s` points at `size` bytes.
#[no_mangle]
pub unsafe extern "C" fn pb_u64_from_le_bytes(s: *const u8, size: usize) -> Answer<u64> {
    answer(from_raw_parts(s, size).try_into().ok().map(u64::from_le_bytes))
}

/// # Safety
/// `s` points at `size` bytes.
#[no_mangle]
pub unsafe extern "C" fn pb_u64_from_be_bytes(s: *const u8, size: usize) -> Answer<u64> {
    answer(from_raw_parts(s, size).try_into().ok().map(u64::from_be_bytes))
}

/// # Safety
/// `s` points at `size` bytes.
#[no_mangle]
pub unsafe extern "C" fn pb_u64_to_le_bytes(x: u64, s: *mut u8, size: usize, at: usize) -> bool {
    written(from_raw_parts_mut(s, size), at, x.to_le_bytes())
}

/// # Safety
/// `s` points at `size` bytes.
#[no_mangle]
pub unsafe extern "C" fn pb_u64_to_be_bytes(x: u64, s: *mut u8, size: usize, at: usize) -> bool {
    written(from_raw_parts_mut(s, size), at, x.to_be_bytes())
}

fn written(s: &mut [u8], at: usize, bytes: [u8; 8]) -> bool {
    match s.get_mut(at..).and_then(|rest| rest.first_chunk_mut()) {
        Some(room) => {
            *room = bytes;
            true
        }
        None => false,
    }
}
