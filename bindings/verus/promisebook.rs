// What Verus is to believe of the crate promisebook: an assume_specification of each of its functions, in vstd's terms (docs/VERUS.md). Written by
// generate/generate.py from the table of operations.
//
// No Verus is at hand where this file is made: it has not been run through one. What is tested without (tests/verus): every function of the crate stands here,
// with the types that it has; each clause, evaluated at many arguments with vstd's own definitions, holds of the right answer and of no other that is tried.
//
// Above each stands the item of vstd's that it replaces, or the definition of vstd's that it computes, or `beyond vstd`.
#![allow(unused_imports)]
use core::cmp::Ordering;
use core::ops::Range;
use promisebook::text::Read;
use promisebook::NotDecimal;
use vstd::arithmetic::div_mod::{rust_div, rust_rem};
use vstd::bytes::*;
use vstd::math::min;
use vstd::prelude::*;
use vstd::std_specs::bits::*;
use vstd::std_specs::char::is_white_space;
use vstd::std_specs::num::next_multiple_of;
use vstd::std_specs::slice::copy_within_result;
use vstd::utf8::*;
use vstd::wrapping::*;

verus! {

#[verifier::external_type_specification]
pub struct ExRead(Read);

#[verifier::external_type_specification]
pub struct ExNotDecimal(NotDecimal);

// ---- a part of a slice

pub open spec fn is_part(s: Seq<u8>, part: Range<usize>) -> bool {
    part.start <= part.end <= s.len()
}

pub open spec fn part_of(s: Seq<u8>, part: Range<usize>) -> Seq<u8>
    recommends
        is_part(s, part),
{
    s.subrange(part.start as int, part.end as int)
}

/// s with other bytes in place of a part.
pub open spec fn with_part(s: Seq<u8>, part: Range<usize>, new: Seq<u8>) -> Seq<u8>
    recommends
        is_part(s, part),
{
    s.subrange(0, part.start as int) + new + s.subrange(part.end as int, s.len() as int)
}

/// s with other bytes in place of its first ones.
pub open spec fn begun(s: Seq<u8>, new: Seq<u8>) -> Seq<u8>
    recommends
        new.len() <= s.len(),
{
    new + s.subrange(new.len() as int, s.len() as int)
}

// ---- the signed and the unsigned number of the same bits, of which vstd says nothing where a cast does not fit

pub open spec fn u16_of(x: i16) -> u16 {
    if x < 0 { (x + 0x1_0000) as u16 } else { x as u16 }
}

pub open spec fn u32_of(x: i32) -> u32 {
    if x < 0 { (x + 0x1_0000_0000) as u32 } else { x as u32 }
}

pub open spec fn u64_of(x: i64) -> u64 {
    if x < 0 { (x + 0x1_0000_0000_0000_0000) as u64 } else { x as u64 }
}

pub open spec fn i16_of(x: u16) -> i16 {
    if x < 0x8000 { x as i16 } else { (x - 0x1_0000) as i16 }
}

pub open spec fn i32_of(x: u32) -> i32 {
    if x < 0x8000_0000 { x as i32 } else { (x - 0x1_0000_0000) as i32 }
}

pub open spec fn i64_of(x: u64) -> i64 {
    if x < 0x8000_0000_0000_0000 { x as i64 } else { (x - 0x1_0000_0000_0000_0000) as i64 }
}

// ---- text, where vstd speaks of valid text alone

/// The last `length` bytes are the form of one scalar value.
pub open spec fn scalar_ends(bytes: Seq<u8>, length: int) -> bool {
    &&& 1 <= length <= bytes.len()
    &&& valid_first_scalar(bytes.subrange(bytes.len() - length, bytes.len() as int))
    &&& length_of_first_scalar(bytes.subrange(bytes.len() - length, bytes.len() as int)) == length
}

/// How many bytes the form of the scalar value has that ends these bytes; 0 where none does.
pub open spec fn length_at_end(bytes: Seq<u8>) -> int {
    if scalar_ends(bytes, 1) {
        1
    } else if scalar_ends(bytes, 2) {
        2
    } else if scalar_ends(bytes, 3) {
        3
    } else if scalar_ends(bytes, 4) {
        4
    } else {
        0
    }
}

/// That scalar value.
pub open spec fn scalar_at_end(bytes: Seq<u8>) -> u32
    recommends
        length_at_end(bytes) > 0,
{
    decode_first_scalar(bytes.subrange(bytes.len() - length_at_end(bytes), bytes.len() as int))
}

pub open spec fn is_ascii_bytes(bytes: Seq<u8>) -> bool {
    forall|i: int| 0 <= i < bytes.len() ==> #[trigger] bytes[i] <= 0x7f
}

// ---- decimal text, of which vstd promises nothing

/// One figure or more, and nothing else.
pub open spec fn says_natural(s: Seq<u8>) -> bool {
    s.len() > 0 && (forall|i: int| 0 <= i < s.len() ==> 0x30 <= #[trigger] s[i] <= 0x39)
}

/// The number that figures say, the last of which counts once.
pub open spec fn natural(s: Seq<u8>) -> nat
    decreases s.len(),
{
    if s.len() == 0 { 0 } else { natural(s.drop_last()) * 10 + (s.last() - 0x30) as nat }
}

/// The same, with '-' in front or without.
pub open spec fn says_whole(s: Seq<u8>) -> bool {
    says_natural(s) || (s.len() > 0 && s[0] == 0x2d && says_natural(s.drop_first()))
}

pub open spec fn whole(s: Seq<u8>) -> int {
    if s.len() > 0 && s[0] == 0x2d { -(natural(s.drop_first()) as int) } else { natural(s) as int }
}

/// The figures of a number, without a zero in front.
pub open spec fn figures(x: nat) -> Seq<u8>
    decreases x,
{
    if x < 10 { seq![(0x30 + x) as u8] } else { figures(x / 10).push((0x30 + x % 10) as u8) }
}

/// The same, with '-' before a negative number.
pub open spec fn decimal(x: int) -> Seq<u8> {
    if x < 0 { seq![0x2du8] + figures((-x) as nat) } else { figures(x as nat) }
}

// ---- text as a str: its view is its characters (vstd::string)

// beyond vstd
pub assume_specification[ promisebook::text::as_str ](s: &[u8]) -> (r: Option<&str>)
    ensures
        r is Some <==> valid_utf8(s@),
        r matches Some(v) ==> v@ == decode_utf8(s@),
    opens_invariants none
    no_unwind
;

// beyond vstd, of a part
pub assume_specification[ promisebook::text::as_str_in ](s: &[u8], part: Range<usize>) -> (r: Option<&str>)
    ensures
        r is Some <==> is_part(s@, part) && valid_utf8(part_of(s@, part)),
        r matches Some(v) ==> v@ == decode_utf8(part_of(s@, part)),
    opens_invariants none
    no_unwind
;

// ---- u8s

// replaces std_specs/num u::wrapping_add
pub assume_specification[ promisebook::u8s::wrapping_add ](x: u8, y: u8) -> (r: u8)
    ensures
        r == u8_specs::wrapping_add(x, y),
    opens_invariants none
    no_unwind
;

// replaces std_specs/num u::wrapping_add_signed
pub assume_specification[ promisebook::u8s::wrapping_add_signed ](x: u8, y: i8) -> (r: u8)
    ensures
        r == u8_specs::wrapping_add_signed(x, y),
    opens_invariants none
    no_unwind
;

// replaces std_specs/num u::wrapping_sub
pub assume_specification[ promisebook::u8s::wrapping_sub ](x: u8, y: u8) -> (r: u8)
    ensures
        r == u8_specs::wrapping_sub(x, y),
    opens_invariants none
    no_unwind
;

// replaces std_specs/num u::wrapping_mul
pub assume_specification[ promisebook::u8s::wrapping_mul ](x: u8, y: u8) -> (r: u8)
    ensures
        r == u8_specs::wrapping_mul(x, y),
    opens_invariants none
    no_unwind
;

// replaces std_specs/num u::wrapping_shl
pub assume_specification[ promisebook::u8s::wrapping_shl ](x: u8, rhs: u32) -> (r: u8)
    ensures
        r == u8_specs::wrapping_shl(x, rhs),
    opens_invariants none
    no_unwind
;

// replaces std_specs/num u::wrapping_shr
pub assume_specification[ promisebook::u8s::wrapping_shr ](x: u8, rhs: u32) -> (r: u8)
    ensures
        r == u8_specs::wrapping_shr(x, rhs),
    opens_invariants none
    no_unwind
;

// replaces std_specs/num u::checked_add
pub assume_specification[ promisebook::u8s::checked_add ](x: u8, y: u8) -> (r: Option<u8>)
    ensures
        r == (if u8::MIN <= x + y <= u8::MAX { Some((x + y) as u8) } else { None }),
    opens_invariants none
    no_unwind
;

// replaces std_specs/num u::checked_add_signed
pub assume_specification[ promisebook::u8s::checked_add_signed ](x: u8, y: i8) -> (r: Option<u8>)
    ensures
        r == (if u8::MIN <= x + y <= u8::MAX { Some((x + y) as u8) } else { None }),
    opens_invariants none
    no_unwind
;

// replaces std_specs/num u::checked_sub
pub assume_specification[ promisebook::u8s::checked_sub ](x: u8, y: u8) -> (r: Option<u8>)
    ensures
        r == (if u8::MIN <= x - y <= u8::MAX { Some((x - y) as u8) } else { None }),
    opens_invariants none
    no_unwind
;

// replaces std_specs/num u::checked_mul
pub assume_specification[ promisebook::u8s::checked_mul ](x: u8, y: u8) -> (r: Option<u8>)
    ensures
        r == (if u8::MIN <= x * y <= u8::MAX { Some((x * y) as u8) } else { None }),
    opens_invariants none
    no_unwind
;

// replaces std_specs/num u::checked_next_multiple_of
pub assume_specification[ promisebook::u8s::checked_next_multiple_of ](x: u8, y: u8) -> (r: Option<u8>)
    ensures
        r == (if y != 0 && next_multiple_of(x as int, y as int) <= u8::MAX { Some(next_multiple_of(x as int, y as int) as u8) } else { None }),
    opens_invariants none
    no_unwind
;

// replaces std_specs/num u::checked_div
pub assume_specification[ promisebook::u8s::checked_div ](x: u8, y: u8) -> (r: Option<u8>)
    ensures
        r == (if y != 0 { Some(x / y) } else { None }),
    opens_invariants none
    no_unwind
;

// replaces std_specs/num u::checked_div_euclid
pub assume_specification[ promisebook::u8s::checked_div_euclid ](x: u8, y: u8) -> (r: Option<u8>)
    ensures
        r == (if y != 0 { Some(x / y) } else { None }),
    opens_invariants none
    no_unwind
;

// replaces std_specs/num u::checked_rem
pub assume_specification[ promisebook::u8s::checked_rem ](x: u8, y: u8) -> (r: Option<u8>)
    ensures
        r == (if y != 0 { Some(x % y) } else { None }),
    opens_invariants none
    no_unwind
;

// replaces std_specs/num u::checked_rem_euclid
pub assume_specification[ promisebook::u8s::checked_rem_euclid ](x: u8, y: u8) -> (r: Option<u8>)
    ensures
        r == (if y != 0 { Some(x % y) } else { None }),
    opens_invariants none
    no_unwind
;

// replaces std_specs/num u::saturating_add
pub assume_specification[ promisebook::u8s::saturating_add ](x: u8, y: u8) -> (r: u8)
    ensures
        r == (if x + y <= u8::MAX { (x + y) as u8 } else { u8::MAX }),
    opens_invariants none
    no_unwind
;

// replaces std_specs/num u::saturating_sub
pub assume_specification[ promisebook::u8s::saturating_sub ](x: u8, y: u8) -> (r: u8)
    ensures
        r == (if u8::MIN <= x - y { (x - y) as u8 } else { u8::MIN }),
    opens_invariants none
    no_unwind
;

// replaces std_specs/num u::saturating_mul
pub assume_specification[ promisebook::u8s::saturating_mul ](x: u8, y: u8) -> (r: u8)
    ensures
        r == (if x * y <= u8::MAX { (x * y) as u8 } else { u8::MAX }),
    opens_invariants none
    no_unwind
;

// replaces std_specs/num u::is_multiple_of
pub assume_specification[ promisebook::u8s::is_multiple_of ](x: u8, y: u8) -> (r: bool)
    ensures
        r == (if y == 0 { x == 0 } else { x % y == 0 }),
    opens_invariants none
    no_unwind
;

// replaces std_specs/num u::clone
pub assume_specification[ promisebook::u8s::clone ](x: u8) -> (r: u8)
    ensures
        r == x,
    opens_invariants none
    no_unwind
;

// replaces std_specs/num u::eq
pub assume_specification[ promisebook::u8s::eq ](x: u8, y: u8) -> (r: bool)
    ensures
        r == (x == y),
    opens_invariants none
    no_unwind
;

// replaces std_specs/num u::ne
pub assume_specification[ promisebook::u8s::ne ](x: u8, y: u8) -> (r: bool)
    ensures
        r == (x != y),
    opens_invariants none
    no_unwind
;

// replaces std_specs/num u::lt
pub assume_specification[ promisebook::u8s::lt ](x: u8, y: u8) -> (r: bool)
    ensures
        r == (x < y),
    opens_invariants none
    no_unwind
;

// replaces std_specs/num u::le
pub assume_specification[ promisebook::u8s::le ](x: u8, y: u8) -> (r: bool)
    ensures
        r == (x <= y),
    opens_invariants none
    no_unwind
;

// replaces std_specs/num u::gt
pub assume_specification[ promisebook::u8s::gt ](x: u8, y: u8) -> (r: bool)
    ensures
        r == (x > y),
    opens_invariants none
    no_unwind
;

// replaces std_specs/num u::ge
pub assume_specification[ promisebook::u8s::ge ](x: u8, y: u8) -> (r: bool)
    ensures
        r == (x >= y),
    opens_invariants none
    no_unwind
;

// replaces std_specs/num u::cmp
pub assume_specification[ promisebook::u8s::cmp ](x: u8, y: u8) -> (r: Ordering)
    ensures
        r == (if x < y { Ordering::Less } else if x > y { Ordering::Greater } else { Ordering::Equal }),
    opens_invariants none
    no_unwind
;

// replaces std_specs/num u::partial_cmp
pub assume_specification[ promisebook::u8s::partial_cmp ](x: u8, y: u8) -> (r: Option<Ordering>)
    ensures
        r == Some(if x < y { Ordering::Less } else if x > y { Ordering::Greater } else { Ordering::Equal }),
    opens_invariants none
    no_unwind
;

// replaces std_specs/bits u8::leading_zeros
pub assume_specification[ promisebook::u8s::leading_zeros ](i: u8) -> (r: u32)
    ensures
        r == u8_leading_zeros(i),
    opens_invariants none
    no_unwind
;

// replaces std_specs/bits u8::leading_ones
pub assume_specification[ promisebook::u8s::leading_ones ](i: u8) -> (r: u32)
    ensures
        r == u8_leading_ones(i),
    opens_invariants none
    no_unwind
;

// replaces std_specs/bits u8::trailing_zeros
pub assume_specification[ promisebook::u8s::trailing_zeros ](i: u8) -> (r: u32)
    ensures
        r == u8_trailing_zeros(i),
    opens_invariants none
    no_unwind
;

// replaces std_specs/bits u8::trailing_ones
pub assume_specification[ promisebook::u8s::trailing_ones ](i: u8) -> (r: u32)
    ensures
        r == u8_trailing_ones(i),
    opens_invariants none
    no_unwind
;

// beyond vstd
pub assume_specification[ promisebook::u8s::read_decimal ](s: &[u8]) -> (r: Result<u8, NotDecimal>)
    ensures
        r == (if !says_natural(s@) { Err(NotDecimal::NoNumber) } else if natural(s@) > u8::MAX { Err(NotDecimal::TooLarge) } else { Ok(natural(s@) as u8) }),
    opens_invariants none
    no_unwind
;

// beyond vstd, of a part
pub assume_specification[ promisebook::u8s::read_decimal_in ](s: &[u8], part: Range<usize>) -> (r: Option<Result<u8, NotDecimal>>)
    ensures
        r == (
            if is_part(s@, part) {
                Some(
                    if !says_natural(part_of(s@, part)) {
                        Err(NotDecimal::NoNumber)
                    } else if natural(part_of(s@, part)) > u8::MAX {
                        Err(NotDecimal::TooLarge)
                    } else {
                        Ok(natural(part_of(s@, part)) as u8)
                    }
                )
            } else {
                None
            }
        ),
    opens_invariants none
    no_unwind
;

// beyond vstd
pub assume_specification[ promisebook::u8s::write_decimal ](s: &mut [u8], x: u8) -> (r: Option<usize>)
    ensures
        r == (if figures(x as nat).len() <= old(s)@.len() { Some(figures(x as nat).len() as usize) } else { None }),
        final(s)@ == (if r is Some { begun(old(s)@, figures(x as nat)) } else { old(s)@ }),
    opens_invariants none
    no_unwind
;

// beyond vstd, of a part
pub assume_specification[ promisebook::u8s::write_decimal_in ](s: &mut [u8], part: Range<usize>, x: u8) -> (r: Option<usize>)
    ensures
        r == (if is_part(old(s)@, part) && figures(x as nat).len() <= part_of(old(s)@, part).len() { Some(figures(x as nat).len() as usize) } else { None }),
        final(s)@ == (if r is Some { with_part(old(s)@, part, begun(part_of(old(s)@, part), figures(x as nat))) } else { old(s)@ }),
    opens_invariants none
    no_unwind
;

// ---- u16s

// replaces std_specs/num u::wrapping_add
pub assume_specification[ promisebook::u16s::wrapping_add ](x: u16, y: u16) -> (r: u16)
    ensures
        r == u16_specs::wrapping_add(x, y),
    opens_invariants none
    no_unwind
;

// replaces std_specs/num u::wrapping_add_signed
pub assume_specification[ promisebook::u16s::wrapping_add_signed ](x: u16, y: i16) -> (r: u16)
    ensures
        r == u16_specs::wrapping_add_signed(x, y),
    opens_invariants none
    no_unwind
;

// replaces std_specs/num u::wrapping_sub
pub assume_specification[ promisebook::u16s::wrapping_sub ](x: u16, y: u16) -> (r: u16)
    ensures
        r == u16_specs::wrapping_sub(x, y),
    opens_invariants none
    no_unwind
;

// replaces std_specs/num u::wrapping_mul
pub assume_specification[ promisebook::u16s::wrapping_mul ](x: u16, y: u16) -> (r: u16)
    ensures
        r == u16_specs::wrapping_mul(x, y),
    opens_invariants none
    no_unwind
;

// replaces std_specs/num u::wrapping_shl
pub assume_specification[ promisebook::u16s::wrapping_shl ](x: u16, rhs: u32) -> (r: u16)
    ensures
        r == u16_specs::wrapping_shl(x, rhs),
    opens_invariants none
    no_unwind
;

// replaces std_specs/num u::wrapping_shr
pub assume_specification[ promisebook::u16s::wrapping_shr ](x: u16, rhs: u32) -> (r: u16)
    ensures
        r == u16_specs::wrapping_shr(x, rhs),
    opens_invariants none
    no_unwind
;

// replaces std_specs/num u::checked_add
pub assume_specification[ promisebook::u16s::checked_add ](x: u16, y: u16) -> (r: Option<u16>)
    ensures
        r == (if u16::MIN <= x + y <= u16::MAX { Some((x + y) as u16) } else { None }),
    opens_invariants none
    no_unwind
;

// replaces std_specs/num u::checked_add_signed
pub assume_specification[ promisebook::u16s::checked_add_signed ](x: u16, y: i16) -> (r: Option<u16>)
    ensures
        r == (if u16::MIN <= x + y <= u16::MAX { Some((x + y) as u16) } else { None }),
    opens_invariants none
    no_unwind
;

// replaces std_specs/num u::checked_sub
pub assume_specification[ promisebook::u16s::checked_sub ](x: u16, y: u16) -> (r: Option<u16>)
    ensures
        r == (if u16::MIN <= x - y <= u16::MAX { Some((x - y) as u16) } else { None }),
    opens_invariants none
    no_unwind
;

// replaces std_specs/num u::checked_mul
pub assume_specification[ promisebook::u16s::checked_mul ](x: u16, y: u16) -> (r: Option<u16>)
    ensures
        r == (if u16::MIN <= x * y <= u16::MAX { Some((x * y) as u16) } else { None }),
    opens_invariants none
    no_unwind
;

// replaces std_specs/num u::checked_next_multiple_of
pub assume_specification[ promisebook::u16s::checked_next_multiple_of ](x: u16, y: u16) -> (r: Option<u16>)
    ensures
        r == (if y != 0 && next_multiple_of(x as int, y as int) <= u16::MAX { Some(next_multiple_of(x as int, y as int) as u16) } else { None }),
    opens_invariants none
    no_unwind
;

// replaces std_specs/num u::checked_div
pub assume_specification[ promisebook::u16s::checked_div ](x: u16, y: u16) -> (r: Option<u16>)
    ensures
        r == (if y != 0 { Some(x / y) } else { None }),
    opens_invariants none
    no_unwind
;

// replaces std_specs/num u::checked_div_euclid
pub assume_specification[ promisebook::u16s::checked_div_euclid ](x: u16, y: u16) -> (r: Option<u16>)
    ensures
        r == (if y != 0 { Some(x / y) } else { None }),
    opens_invariants none
    no_unwind
;

// replaces std_specs/num u::checked_rem
pub assume_specification[ promisebook::u16s::checked_rem ](x: u16, y: u16) -> (r: Option<u16>)
    ensures
        r == (if y != 0 { Some(x % y) } else { None }),
    opens_invariants none
    no_unwind
;

// replaces std_specs/num u::checked_rem_euclid
pub assume_specification[ promisebook::u16s::checked_rem_euclid ](x: u16, y: u16) -> (r: Option<u16>)
    ensures
        r == (if y != 0 { Some(x % y) } else { None }),
    opens_invariants none
    no_unwind
;

// replaces std_specs/num u::saturating_add
pub assume_specification[ promisebook::u16s::saturating_add ](x: u16, y: u16) -> (r: u16)
    ensures
        r == (if x + y <= u16::MAX { (x + y) as u16 } else { u16::MAX }),
    opens_invariants none
    no_unwind
;

// replaces std_specs/num u::saturating_sub
pub assume_specification[ promisebook::u16s::saturating_sub ](x: u16, y: u16) -> (r: u16)
    ensures
        r == (if u16::MIN <= x - y { (x - y) as u16 } else { u16::MIN }),
    opens_invariants none
    no_unwind
;

// replaces std_specs/num u::saturating_mul
pub assume_specification[ promisebook::u16s::saturating_mul ](x: u16, y: u16) -> (r: u16)
    ensures
        r == (if x * y <= u16::MAX { (x * y) as u16 } else { u16::MAX }),
    opens_invariants none
    no_unwind
;

// replaces std_specs/num u::is_multiple_of
pub assume_specification[ promisebook::u16s::is_multiple_of ](x: u16, y: u16) -> (r: bool)
    ensures
        r == (if y == 0 { x == 0 } else { x % y == 0 }),
    opens_invariants none
    no_unwind
;

// replaces std_specs/num u::clone
pub assume_specification[ promisebook::u16s::clone ](x: u16) -> (r: u16)
    ensures
        r == x,
    opens_invariants none
    no_unwind
;

// replaces std_specs/num u::eq
pub assume_specification[ promisebook::u16s::eq ](x: u16, y: u16) -> (r: bool)
    ensures
        r == (x == y),
    opens_invariants none
    no_unwind
;

// replaces std_specs/num u::ne
pub assume_specification[ promisebook::u16s::ne ](x: u16, y: u16) -> (r: bool)
    ensures
        r == (x != y),
    opens_invariants none
    no_unwind
;

// replaces std_specs/num u::lt
pub assume_specification[ promisebook::u16s::lt ](x: u16, y: u16) -> (r: bool)
    ensures
        r == (x < y),
    opens_invariants none
    no_unwind
;

// replaces std_specs/num u::le
pub assume_specification[ promisebook::u16s::le ](x: u16, y: u16) -> (r: bool)
    ensures
        r == (x <= y),
    opens_invariants none
    no_unwind
;

// replaces std_specs/num u::gt
pub assume_specification[ promisebook::u16s::gt ](x: u16, y: u16) -> (r: bool)
    ensures
        r == (x > y),
    opens_invariants none
    no_unwind
;

// replaces std_specs/num u::ge
pub assume_specification[ promisebook::u16s::ge ](x: u16, y: u16) -> (r: bool)
    ensures
        r == (x >= y),
    opens_invariants none
    no_unwind
;

// replaces std_specs/num u::cmp
pub assume_specification[ promisebook::u16s::cmp ](x: u16, y: u16) -> (r: Ordering)
    ensures
        r == (if x < y { Ordering::Less } else if x > y { Ordering::Greater } else { Ordering::Equal }),
    opens_invariants none
    no_unwind
;

// replaces std_specs/num u::partial_cmp
pub assume_specification[ promisebook::u16s::partial_cmp ](x: u16, y: u16) -> (r: Option<Ordering>)
    ensures
        r == Some(if x < y { Ordering::Less } else if x > y { Ordering::Greater } else { Ordering::Equal }),
    opens_invariants none
    no_unwind
;

// replaces std_specs/bits u16::leading_zeros
pub assume_specification[ promisebook::u16s::leading_zeros ](i: u16) -> (r: u32)
    ensures
        r == u16_leading_zeros(i),
    opens_invariants none
    no_unwind
;

// replaces std_specs/bits u16::leading_ones
pub assume_specification[ promisebook::u16s::leading_ones ](i: u16) -> (r: u32)
    ensures
        r == u16_leading_ones(i),
    opens_invariants none
    no_unwind
;

// replaces std_specs/bits u16::trailing_zeros
pub assume_specification[ promisebook::u16s::trailing_zeros ](i: u16) -> (r: u32)
    ensures
        r == u16_trailing_zeros(i),
    opens_invariants none
    no_unwind
;

// replaces std_specs/bits u16::trailing_ones
pub assume_specification[ promisebook::u16s::trailing_ones ](i: u16) -> (r: u32)
    ensures
        r == u16_trailing_ones(i),
    opens_invariants none
    no_unwind
;

// replaces bytes u16_from_le_bytes
pub assume_specification[ promisebook::u16s::from_le_bytes ](s: &[u8]) -> (r: Option<u16>)
    ensures
        r == (if s@.len() == 2 { Some(spec_u16_from_le_bytes(s@)) } else { None }),
    opens_invariants none
    no_unwind
;

// replaces bytes u16_from_le_bytes, of a part
pub assume_specification[ promisebook::u16s::from_le_bytes_in ](s: &[u8], part: Range<usize>) -> (r: Option<u16>)
    ensures
        r == (if is_part(s@, part) && part_of(s@, part).len() == 2 { Some(spec_u16_from_le_bytes(part_of(s@, part))) } else { None }),
    opens_invariants none
    no_unwind
;

// replaces bytes u16_to_le_bytes
pub assume_specification[ promisebook::u16s::to_le_bytes ](x: u16) -> (r: [u8; 2])
    ensures
        r@ == spec_u16_to_le_bytes(x),
    opens_invariants none
    no_unwind
;

// replaces bytes u16_to_le_bytes, of a part
pub assume_specification[ promisebook::u16s::to_le_bytes_in ](s: &mut [u8], part: Range<usize>, x: u16) -> (r: Option<()>)
    ensures
        r == (if is_part(old(s)@, part) && 2 <= part_of(old(s)@, part).len() { Some(()) } else { None }),
        final(s)@ == (if r is Some { with_part(old(s)@, part, begun(part_of(old(s)@, part), spec_u16_to_le_bytes(x))) } else { old(s)@ }),
    opens_invariants none
    no_unwind
;

// beyond vstd
pub assume_specification[ promisebook::u16s::from_be_bytes ](s: &[u8]) -> (r: Option<u16>)
    ensures
        r == (if s@.len() == 2 { Some(spec_u16_from_le_bytes(s@.reverse())) } else { None }),
    opens_invariants none
    no_unwind
;

// beyond vstd, of a part
pub assume_specification[ promisebook::u16s::from_be_bytes_in ](s: &[u8], part: Range<usize>) -> (r: Option<u16>)
    ensures
        r == (if is_part(s@, part) && part_of(s@, part).len() == 2 { Some(spec_u16_from_le_bytes(part_of(s@, part).reverse())) } else { None }),
    opens_invariants none
    no_unwind
;

// beyond vstd
pub assume_specification[ promisebook::u16s::to_be_bytes ](x: u16) -> (r: [u8; 2])
    ensures
        r@ == spec_u16_to_le_bytes(x).reverse(),
    opens_invariants none
    no_unwind
;

// beyond vstd, of a part
pub assume_specification[ promisebook::u16s::to_be_bytes_in ](s: &mut [u8], part: Range<usize>, x: u16) -> (r: Option<()>)
    ensures
        r == (if is_part(old(s)@, part) && 2 <= part_of(old(s)@, part).len() { Some(()) } else { None }),
        final(s)@ == (if r is Some { with_part(old(s)@, part, begun(part_of(old(s)@, part), spec_u16_to_le_bytes(x).reverse())) } else { old(s)@ }),
    opens_invariants none
    no_unwind
;

// beyond vstd
pub assume_specification[ promisebook::u16s::read_decimal ](s: &[u8]) -> (r: Result<u16, NotDecimal>)
    ensures
        r == (if !says_natural(s@) { Err(NotDecimal::NoNumber) } else if natural(s@) > u16::MAX { Err(NotDecimal::TooLarge) } else { Ok(natural(s@) as u16) }),
    opens_invariants none
    no_unwind
;

// beyond vstd, of a part
pub assume_specification[ promisebook::u16s::read_decimal_in ](s: &[u8], part: Range<usize>) -> (r: Option<Result<u16, NotDecimal>>)
    ensures
        r == (
            if is_part(s@, part) {
                Some(
                    if !says_natural(part_of(s@, part)) {
                        Err(NotDecimal::NoNumber)
                    } else if natural(part_of(s@, part)) > u16::MAX {
                        Err(NotDecimal::TooLarge)
                    } else {
                        Ok(natural(part_of(s@, part)) as u16)
                    }
                )
            } else {
                None
            }
        ),
    opens_invariants none
    no_unwind
;

// beyond vstd
pub assume_specification[ promisebook::u16s::write_decimal ](s: &mut [u8], x: u16) -> (r: Option<usize>)
    ensures
        r == (if figures(x as nat).len() <= old(s)@.len() { Some(figures(x as nat).len() as usize) } else { None }),
        final(s)@ == (if r is Some { begun(old(s)@, figures(x as nat)) } else { old(s)@ }),
    opens_invariants none
    no_unwind
;

// beyond vstd, of a part
pub assume_specification[ promisebook::u16s::write_decimal_in ](s: &mut [u8], part: Range<usize>, x: u16) -> (r: Option<usize>)
    ensures
        r == (if is_part(old(s)@, part) && figures(x as nat).len() <= part_of(old(s)@, part).len() { Some(figures(x as nat).len() as usize) } else { None }),
        final(s)@ == (if r is Some { with_part(old(s)@, part, begun(part_of(old(s)@, part), figures(x as nat))) } else { old(s)@ }),
    opens_invariants none
    no_unwind
;

// ---- u32s

// replaces std_specs/num u::wrapping_add
pub assume_specification[ promisebook::u32s::wrapping_add ](x: u32, y: u32) -> (r: u32)
    ensures
        r == u32_specs::wrapping_add(x, y),
    opens_invariants none
    no_unwind
;

// replaces std_specs/num u::wrapping_add_signed
pub assume_specification[ promisebook::u32s::wrapping_add_signed ](x: u32, y: i32) -> (r: u32)
    ensures
        r == u32_specs::wrapping_add_signed(x, y),
    opens_invariants none
    no_unwind
;

// replaces std_specs/num u::wrapping_sub
pub assume_specification[ promisebook::u32s::wrapping_sub ](x: u32, y: u32) -> (r: u32)
    ensures
        r == u32_specs::wrapping_sub(x, y),
    opens_invariants none
    no_unwind
;

// replaces std_specs/num u::wrapping_mul
pub assume_specification[ promisebook::u32s::wrapping_mul ](x: u32, y: u32) -> (r: u32)
    ensures
        r == u32_specs::wrapping_mul(x, y),
    opens_invariants none
    no_unwind
;

// replaces std_specs/num u::wrapping_shl
pub assume_specification[ promisebook::u32s::wrapping_shl ](x: u32, rhs: u32) -> (r: u32)
    ensures
        r == u32_specs::wrapping_shl(x, rhs),
    opens_invariants none
    no_unwind
;

// replaces std_specs/num u::wrapping_shr
pub assume_specification[ promisebook::u32s::wrapping_shr ](x: u32, rhs: u32) -> (r: u32)
    ensures
        r == u32_specs::wrapping_shr(x, rhs),
    opens_invariants none
    no_unwind
;

// replaces std_specs/num u::checked_add
pub assume_specification[ promisebook::u32s::checked_add ](x: u32, y: u32) -> (r: Option<u32>)
    ensures
        r == (if u32::MIN <= x + y <= u32::MAX { Some((x + y) as u32) } else { None }),
    opens_invariants none
    no_unwind
;

// replaces std_specs/num u::checked_add_signed
pub assume_specification[ promisebook::u32s::checked_add_signed ](x: u32, y: i32) -> (r: Option<u32>)
    ensures
        r == (if u32::MIN <= x + y <= u32::MAX { Some((x + y) as u32) } else { None }),
    opens_invariants none
    no_unwind
;

// replaces std_specs/num u::checked_sub
pub assume_specification[ promisebook::u32s::checked_sub ](x: u32, y: u32) -> (r: Option<u32>)
    ensures
        r == (if u32::MIN <= x - y <= u32::MAX { Some((x - y) as u32) } else { None }),
    opens_invariants none
    no_unwind
;

// replaces std_specs/num u::checked_mul
pub assume_specification[ promisebook::u32s::checked_mul ](x: u32, y: u32) -> (r: Option<u32>)
    ensures
        r == (if u32::MIN <= x * y <= u32::MAX { Some((x * y) as u32) } else { None }),
    opens_invariants none
    no_unwind
;

// replaces std_specs/num u::checked_next_multiple_of
pub assume_specification[ promisebook::u32s::checked_next_multiple_of ](x: u32, y: u32) -> (r: Option<u32>)
    ensures
        r == (if y != 0 && next_multiple_of(x as int, y as int) <= u32::MAX { Some(next_multiple_of(x as int, y as int) as u32) } else { None }),
    opens_invariants none
    no_unwind
;

// replaces std_specs/num u::checked_div
pub assume_specification[ promisebook::u32s::checked_div ](x: u32, y: u32) -> (r: Option<u32>)
    ensures
        r == (if y != 0 { Some(x / y) } else { None }),
    opens_invariants none
    no_unwind
;

// replaces std_specs/num u::checked_div_euclid
pub assume_specification[ promisebook::u32s::checked_div_euclid ](x: u32, y: u32) -> (r: Option<u32>)
    ensures
        r == (if y != 0 { Some(x / y) } else { None }),
    opens_invariants none
    no_unwind
;

// replaces std_specs/num u::checked_rem
pub assume_specification[ promisebook::u32s::checked_rem ](x: u32, y: u32) -> (r: Option<u32>)
    ensures
        r == (if y != 0 { Some(x % y) } else { None }),
    opens_invariants none
    no_unwind
;

// replaces std_specs/num u::checked_rem_euclid
pub assume_specification[ promisebook::u32s::checked_rem_euclid ](x: u32, y: u32) -> (r: Option<u32>)
    ensures
        r == (if y != 0 { Some(x % y) } else { None }),
    opens_invariants none
    no_unwind
;

// replaces std_specs/num u::saturating_add
pub assume_specification[ promisebook::u32s::saturating_add ](x: u32, y: u32) -> (r: u32)
    ensures
        r == (if x + y <= u32::MAX { (x + y) as u32 } else { u32::MAX }),
    opens_invariants none
    no_unwind
;

// replaces std_specs/num u::saturating_sub
pub assume_specification[ promisebook::u32s::saturating_sub ](x: u32, y: u32) -> (r: u32)
    ensures
        r == (if u32::MIN <= x - y { (x - y) as u32 } else { u32::MIN }),
    opens_invariants none
    no_unwind
;

// replaces std_specs/num u::saturating_mul
pub assume_specification[ promisebook::u32s::saturating_mul ](x: u32, y: u32) -> (r: u32)
    ensures
        r == (if x * y <= u32::MAX { (x * y) as u32 } else { u32::MAX }),
    opens_invariants none
    no_unwind
;

// replaces std_specs/num u::is_multiple_of
pub assume_specification[ promisebook::u32s::is_multiple_of ](x: u32, y: u32) -> (r: bool)
    ensures
        r == (if y == 0 { x == 0 } else { x % y == 0 }),
    opens_invariants none
    no_unwind
;

// replaces std_specs/num u::clone
pub assume_specification[ promisebook::u32s::clone ](x: u32) -> (r: u32)
    ensures
        r == x,
    opens_invariants none
    no_unwind
;

// replaces std_specs/num u::eq
pub assume_specification[ promisebook::u32s::eq ](x: u32, y: u32) -> (r: bool)
    ensures
        r == (x == y),
    opens_invariants none
    no_unwind
;

// replaces std_specs/num u::ne
pub assume_specification[ promisebook::u32s::ne ](x: u32, y: u32) -> (r: bool)
    ensures
        r == (x != y),
    opens_invariants none
    no_unwind
;

// replaces std_specs/num u::lt
pub assume_specification[ promisebook::u32s::lt ](x: u32, y: u32) -> (r: bool)
    ensures
        r == (x < y),
    opens_invariants none
    no_unwind
;

// replaces std_specs/num u::le
pub assume_specification[ promisebook::u32s::le ](x: u32, y: u32) -> (r: bool)
    ensures
        r == (x <= y),
    opens_invariants none
    no_unwind
;

// replaces std_specs/num u::gt
pub assume_specification[ promisebook::u32s::gt ](x: u32, y: u32) -> (r: bool)
    ensures
        r == (x > y),
    opens_invariants none
    no_unwind
;

// replaces std_specs/num u::ge
pub assume_specification[ promisebook::u32s::ge ](x: u32, y: u32) -> (r: bool)
    ensures
        r == (x >= y),
    opens_invariants none
    no_unwind
;

// replaces std_specs/num u::cmp
pub assume_specification[ promisebook::u32s::cmp ](x: u32, y: u32) -> (r: Ordering)
    ensures
        r == (if x < y { Ordering::Less } else if x > y { Ordering::Greater } else { Ordering::Equal }),
    opens_invariants none
    no_unwind
;

// replaces std_specs/num u::partial_cmp
pub assume_specification[ promisebook::u32s::partial_cmp ](x: u32, y: u32) -> (r: Option<Ordering>)
    ensures
        r == Some(if x < y { Ordering::Less } else if x > y { Ordering::Greater } else { Ordering::Equal }),
    opens_invariants none
    no_unwind
;

// replaces std_specs/bits u32::leading_zeros
pub assume_specification[ promisebook::u32s::leading_zeros ](i: u32) -> (r: u32)
    ensures
        r == u32_leading_zeros(i),
    opens_invariants none
    no_unwind
;

// replaces std_specs/bits u32::leading_ones
pub assume_specification[ promisebook::u32s::leading_ones ](i: u32) -> (r: u32)
    ensures
        r == u32_leading_ones(i),
    opens_invariants none
    no_unwind
;

// replaces std_specs/bits u32::trailing_zeros
pub assume_specification[ promisebook::u32s::trailing_zeros ](i: u32) -> (r: u32)
    ensures
        r == u32_trailing_zeros(i),
    opens_invariants none
    no_unwind
;

// replaces std_specs/bits u32::trailing_ones
pub assume_specification[ promisebook::u32s::trailing_ones ](i: u32) -> (r: u32)
    ensures
        r == u32_trailing_ones(i),
    opens_invariants none
    no_unwind
;

// replaces bytes u32_from_le_bytes
pub assume_specification[ promisebook::u32s::from_le_bytes ](s: &[u8]) -> (r: Option<u32>)
    ensures
        r == (if s@.len() == 4 { Some(spec_u32_from_le_bytes(s@)) } else { None }),
    opens_invariants none
    no_unwind
;

// replaces bytes u32_from_le_bytes, of a part
pub assume_specification[ promisebook::u32s::from_le_bytes_in ](s: &[u8], part: Range<usize>) -> (r: Option<u32>)
    ensures
        r == (if is_part(s@, part) && part_of(s@, part).len() == 4 { Some(spec_u32_from_le_bytes(part_of(s@, part))) } else { None }),
    opens_invariants none
    no_unwind
;

// replaces bytes u32_to_le_bytes
pub assume_specification[ promisebook::u32s::to_le_bytes ](x: u32) -> (r: [u8; 4])
    ensures
        r@ == spec_u32_to_le_bytes(x),
    opens_invariants none
    no_unwind
;

// replaces bytes u32_to_le_bytes, of a part
pub assume_specification[ promisebook::u32s::to_le_bytes_in ](s: &mut [u8], part: Range<usize>, x: u32) -> (r: Option<()>)
    ensures
        r == (if is_part(old(s)@, part) && 4 <= part_of(old(s)@, part).len() { Some(()) } else { None }),
        final(s)@ == (if r is Some { with_part(old(s)@, part, begun(part_of(old(s)@, part), spec_u32_to_le_bytes(x))) } else { old(s)@ }),
    opens_invariants none
    no_unwind
;

// beyond vstd
pub assume_specification[ promisebook::u32s::from_be_bytes ](s: &[u8]) -> (r: Option<u32>)
    ensures
        r == (if s@.len() == 4 { Some(spec_u32_from_le_bytes(s@.reverse())) } else { None }),
    opens_invariants none
    no_unwind
;

// beyond vstd, of a part
pub assume_specification[ promisebook::u32s::from_be_bytes_in ](s: &[u8], part: Range<usize>) -> (r: Option<u32>)
    ensures
        r == (if is_part(s@, part) && part_of(s@, part).len() == 4 { Some(spec_u32_from_le_bytes(part_of(s@, part).reverse())) } else { None }),
    opens_invariants none
    no_unwind
;

// beyond vstd
pub assume_specification[ promisebook::u32s::to_be_bytes ](x: u32) -> (r: [u8; 4])
    ensures
        r@ == spec_u32_to_le_bytes(x).reverse(),
    opens_invariants none
    no_unwind
;

// beyond vstd, of a part
pub assume_specification[ promisebook::u32s::to_be_bytes_in ](s: &mut [u8], part: Range<usize>, x: u32) -> (r: Option<()>)
    ensures
        r == (if is_part(old(s)@, part) && 4 <= part_of(old(s)@, part).len() { Some(()) } else { None }),
        final(s)@ == (if r is Some { with_part(old(s)@, part, begun(part_of(old(s)@, part), spec_u32_to_le_bytes(x).reverse())) } else { old(s)@ }),
    opens_invariants none
    no_unwind
;

// beyond vstd
pub assume_specification[ promisebook::u32s::read_decimal ](s: &[u8]) -> (r: Result<u32, NotDecimal>)
    ensures
        r == (if !says_natural(s@) { Err(NotDecimal::NoNumber) } else if natural(s@) > u32::MAX { Err(NotDecimal::TooLarge) } else { Ok(natural(s@) as u32) }),
    opens_invariants none
    no_unwind
;

// beyond vstd, of a part
pub assume_specification[ promisebook::u32s::read_decimal_in ](s: &[u8], part: Range<usize>) -> (r: Option<Result<u32, NotDecimal>>)
    ensures
        r == (
            if is_part(s@, part) {
                Some(
                    if !says_natural(part_of(s@, part)) {
                        Err(NotDecimal::NoNumber)
                    } else if natural(part_of(s@, part)) > u32::MAX {
                        Err(NotDecimal::TooLarge)
                    } else {
                        Ok(natural(part_of(s@, part)) as u32)
                    }
                )
            } else {
                None
            }
        ),
    opens_invariants none
    no_unwind
;

// beyond vstd
pub assume_specification[ promisebook::u32s::write_decimal ](s: &mut [u8], x: u32) -> (r: Option<usize>)
    ensures
        r == (if figures(x as nat).len() <= old(s)@.len() { Some(figures(x as nat).len() as usize) } else { None }),
        final(s)@ == (if r is Some { begun(old(s)@, figures(x as nat)) } else { old(s)@ }),
    opens_invariants none
    no_unwind
;

// beyond vstd, of a part
pub assume_specification[ promisebook::u32s::write_decimal_in ](s: &mut [u8], part: Range<usize>, x: u32) -> (r: Option<usize>)
    ensures
        r == (if is_part(old(s)@, part) && figures(x as nat).len() <= part_of(old(s)@, part).len() { Some(figures(x as nat).len() as usize) } else { None }),
        final(s)@ == (if r is Some { with_part(old(s)@, part, begun(part_of(old(s)@, part), figures(x as nat))) } else { old(s)@ }),
    opens_invariants none
    no_unwind
;

// ---- u64s

// replaces std_specs/num u::wrapping_add
pub assume_specification[ promisebook::u64s::wrapping_add ](x: u64, y: u64) -> (r: u64)
    ensures
        r == u64_specs::wrapping_add(x, y),
    opens_invariants none
    no_unwind
;

// replaces std_specs/num u::wrapping_add_signed
pub assume_specification[ promisebook::u64s::wrapping_add_signed ](x: u64, y: i64) -> (r: u64)
    ensures
        r == u64_specs::wrapping_add_signed(x, y),
    opens_invariants none
    no_unwind
;

// replaces std_specs/num u::wrapping_sub
pub assume_specification[ promisebook::u64s::wrapping_sub ](x: u64, y: u64) -> (r: u64)
    ensures
        r == u64_specs::wrapping_sub(x, y),
    opens_invariants none
    no_unwind
;

// replaces std_specs/num u::wrapping_mul
pub assume_specification[ promisebook::u64s::wrapping_mul ](x: u64, y: u64) -> (r: u64)
    ensures
        r == u64_specs::wrapping_mul(x, y),
    opens_invariants none
    no_unwind
;

// replaces std_specs/num u::wrapping_shl
pub assume_specification[ promisebook::u64s::wrapping_shl ](x: u64, rhs: u32) -> (r: u64)
    ensures
        r == u64_specs::wrapping_shl(x, rhs),
    opens_invariants none
    no_unwind
;

// replaces std_specs/num u::wrapping_shr
pub assume_specification[ promisebook::u64s::wrapping_shr ](x: u64, rhs: u32) -> (r: u64)
    ensures
        r == u64_specs::wrapping_shr(x, rhs),
    opens_invariants none
    no_unwind
;

// replaces std_specs/num u::checked_add
pub assume_specification[ promisebook::u64s::checked_add ](x: u64, y: u64) -> (r: Option<u64>)
    ensures
        r == (if u64::MIN <= x + y <= u64::MAX { Some((x + y) as u64) } else { None }),
    opens_invariants none
    no_unwind
;

// replaces std_specs/num u::checked_add_signed
pub assume_specification[ promisebook::u64s::checked_add_signed ](x: u64, y: i64) -> (r: Option<u64>)
    ensures
        r == (if u64::MIN <= x + y <= u64::MAX { Some((x + y) as u64) } else { None }),
    opens_invariants none
    no_unwind
;

// replaces std_specs/num u::checked_sub
pub assume_specification[ promisebook::u64s::checked_sub ](x: u64, y: u64) -> (r: Option<u64>)
    ensures
        r == (if u64::MIN <= x - y <= u64::MAX { Some((x - y) as u64) } else { None }),
    opens_invariants none
    no_unwind
;

// replaces std_specs/num u::checked_mul
pub assume_specification[ promisebook::u64s::checked_mul ](x: u64, y: u64) -> (r: Option<u64>)
    ensures
        r == (if u64::MIN <= x * y <= u64::MAX { Some((x * y) as u64) } else { None }),
    opens_invariants none
    no_unwind
;

// replaces std_specs/num u::checked_next_multiple_of
pub assume_specification[ promisebook::u64s::checked_next_multiple_of ](x: u64, y: u64) -> (r: Option<u64>)
    ensures
        r == (if y != 0 && next_multiple_of(x as int, y as int) <= u64::MAX { Some(next_multiple_of(x as int, y as int) as u64) } else { None }),
    opens_invariants none
    no_unwind
;

// replaces std_specs/num u::checked_div
pub assume_specification[ promisebook::u64s::checked_div ](x: u64, y: u64) -> (r: Option<u64>)
    ensures
        r == (if y != 0 { Some(x / y) } else { None }),
    opens_invariants none
    no_unwind
;

// replaces std_specs/num u::checked_div_euclid
pub assume_specification[ promisebook::u64s::checked_div_euclid ](x: u64, y: u64) -> (r: Option<u64>)
    ensures
        r == (if y != 0 { Some(x / y) } else { None }),
    opens_invariants none
    no_unwind
;

// replaces std_specs/num u::checked_rem
pub assume_specification[ promisebook::u64s::checked_rem ](x: u64, y: u64) -> (r: Option<u64>)
    ensures
        r == (if y != 0 { Some(x % y) } else { None }),
    opens_invariants none
    no_unwind
;

// replaces std_specs/num u::checked_rem_euclid
pub assume_specification[ promisebook::u64s::checked_rem_euclid ](x: u64, y: u64) -> (r: Option<u64>)
    ensures
        r == (if y != 0 { Some(x % y) } else { None }),
    opens_invariants none
    no_unwind
;

// replaces std_specs/num u::saturating_add
pub assume_specification[ promisebook::u64s::saturating_add ](x: u64, y: u64) -> (r: u64)
    ensures
        r == (if x + y <= u64::MAX { (x + y) as u64 } else { u64::MAX }),
    opens_invariants none
    no_unwind
;

// replaces std_specs/num u::saturating_sub
pub assume_specification[ promisebook::u64s::saturating_sub ](x: u64, y: u64) -> (r: u64)
    ensures
        r == (if u64::MIN <= x - y { (x - y) as u64 } else { u64::MIN }),
    opens_invariants none
    no_unwind
;

// replaces std_specs/num u::saturating_mul
pub assume_specification[ promisebook::u64s::saturating_mul ](x: u64, y: u64) -> (r: u64)
    ensures
        r == (if x * y <= u64::MAX { (x * y) as u64 } else { u64::MAX }),
    opens_invariants none
    no_unwind
;

// replaces std_specs/num u::is_multiple_of
pub assume_specification[ promisebook::u64s::is_multiple_of ](x: u64, y: u64) -> (r: bool)
    ensures
        r == (if y == 0 { x == 0 } else { x % y == 0 }),
    opens_invariants none
    no_unwind
;

// replaces std_specs/num u::clone
pub assume_specification[ promisebook::u64s::clone ](x: u64) -> (r: u64)
    ensures
        r == x,
    opens_invariants none
    no_unwind
;

// replaces std_specs/num u::eq
pub assume_specification[ promisebook::u64s::eq ](x: u64, y: u64) -> (r: bool)
    ensures
        r == (x == y),
    opens_invariants none
    no_unwind
;

// replaces std_specs/num u::ne
pub assume_specification[ promisebook::u64s::ne ](x: u64, y: u64) -> (r: bool)
    ensures
        r == (x != y),
    opens_invariants none
    no_unwind
;

// replaces std_specs/num u::lt
pub assume_specification[ promisebook::u64s::lt ](x: u64, y: u64) -> (r: bool)
    ensures
        r == (x < y),
    opens_invariants none
    no_unwind
;

// replaces std_specs/num u::le
pub assume_specification[ promisebook::u64s::le ](x: u64, y: u64) -> (r: bool)
    ensures
        r == (x <= y),
    opens_invariants none
    no_unwind
;

// replaces std_specs/num u::gt
pub assume_specification[ promisebook::u64s::gt ](x: u64, y: u64) -> (r: bool)
    ensures
        r == (x > y),
    opens_invariants none
    no_unwind
;

// replaces std_specs/num u::ge
pub assume_specification[ promisebook::u64s::ge ](x: u64, y: u64) -> (r: bool)
    ensures
        r == (x >= y),
    opens_invariants none
    no_unwind
;

// replaces std_specs/num u::cmp
pub assume_specification[ promisebook::u64s::cmp ](x: u64, y: u64) -> (r: Ordering)
    ensures
        r == (if x < y { Ordering::Less } else if x > y { Ordering::Greater } else { Ordering::Equal }),
    opens_invariants none
    no_unwind
;

// replaces std_specs/num u::partial_cmp
pub assume_specification[ promisebook::u64s::partial_cmp ](x: u64, y: u64) -> (r: Option<Ordering>)
    ensures
        r == Some(if x < y { Ordering::Less } else if x > y { Ordering::Greater } else { Ordering::Equal }),
    opens_invariants none
    no_unwind
;

// replaces std_specs/bits u64::leading_zeros
pub assume_specification[ promisebook::u64s::leading_zeros ](i: u64) -> (r: u32)
    ensures
        r == u64_leading_zeros(i),
    opens_invariants none
    no_unwind
;

// replaces std_specs/bits u64::leading_ones
pub assume_specification[ promisebook::u64s::leading_ones ](i: u64) -> (r: u32)
    ensures
        r == u64_leading_ones(i),
    opens_invariants none
    no_unwind
;

// replaces std_specs/bits u64::trailing_zeros
pub assume_specification[ promisebook::u64s::trailing_zeros ](i: u64) -> (r: u32)
    ensures
        r == u64_trailing_zeros(i),
    opens_invariants none
    no_unwind
;

// replaces std_specs/bits u64::trailing_ones
pub assume_specification[ promisebook::u64s::trailing_ones ](i: u64) -> (r: u32)
    ensures
        r == u64_trailing_ones(i),
    opens_invariants none
    no_unwind
;

// replaces bytes u64_from_le_bytes
pub assume_specification[ promisebook::u64s::from_le_bytes ](s: &[u8]) -> (r: Option<u64>)
    ensures
        r == (if s@.len() == 8 { Some(spec_u64_from_le_bytes(s@)) } else { None }),
    opens_invariants none
    no_unwind
;

// replaces bytes u64_from_le_bytes, of a part
pub assume_specification[ promisebook::u64s::from_le_bytes_in ](s: &[u8], part: Range<usize>) -> (r: Option<u64>)
    ensures
        r == (if is_part(s@, part) && part_of(s@, part).len() == 8 { Some(spec_u64_from_le_bytes(part_of(s@, part))) } else { None }),
    opens_invariants none
    no_unwind
;

// replaces bytes u64_to_le_bytes
pub assume_specification[ promisebook::u64s::to_le_bytes ](x: u64) -> (r: [u8; 8])
    ensures
        r@ == spec_u64_to_le_bytes(x),
    opens_invariants none
    no_unwind
;

// replaces bytes u64_to_le_bytes, of a part
pub assume_specification[ promisebook::u64s::to_le_bytes_in ](s: &mut [u8], part: Range<usize>, x: u64) -> (r: Option<()>)
    ensures
        r == (if is_part(old(s)@, part) && 8 <= part_of(old(s)@, part).len() { Some(()) } else { None }),
        final(s)@ == (if r is Some { with_part(old(s)@, part, begun(part_of(old(s)@, part), spec_u64_to_le_bytes(x))) } else { old(s)@ }),
    opens_invariants none
    no_unwind
;

// beyond vstd
pub assume_specification[ promisebook::u64s::from_be_bytes ](s: &[u8]) -> (r: Option<u64>)
    ensures
        r == (if s@.len() == 8 { Some(spec_u64_from_le_bytes(s@.reverse())) } else { None }),
    opens_invariants none
    no_unwind
;

// beyond vstd, of a part
pub assume_specification[ promisebook::u64s::from_be_bytes_in ](s: &[u8], part: Range<usize>) -> (r: Option<u64>)
    ensures
        r == (if is_part(s@, part) && part_of(s@, part).len() == 8 { Some(spec_u64_from_le_bytes(part_of(s@, part).reverse())) } else { None }),
    opens_invariants none
    no_unwind
;

// beyond vstd
pub assume_specification[ promisebook::u64s::to_be_bytes ](x: u64) -> (r: [u8; 8])
    ensures
        r@ == spec_u64_to_le_bytes(x).reverse(),
    opens_invariants none
    no_unwind
;

// beyond vstd, of a part
pub assume_specification[ promisebook::u64s::to_be_bytes_in ](s: &mut [u8], part: Range<usize>, x: u64) -> (r: Option<()>)
    ensures
        r == (if is_part(old(s)@, part) && 8 <= part_of(old(s)@, part).len() { Some(()) } else { None }),
        final(s)@ == (if r is Some { with_part(old(s)@, part, begun(part_of(old(s)@, part), spec_u64_to_le_bytes(x).reverse())) } else { old(s)@ }),
    opens_invariants none
    no_unwind
;

// beyond vstd
pub assume_specification[ promisebook::u64s::read_decimal ](s: &[u8]) -> (r: Result<u64, NotDecimal>)
    ensures
        r == (if !says_natural(s@) { Err(NotDecimal::NoNumber) } else if natural(s@) > u64::MAX { Err(NotDecimal::TooLarge) } else { Ok(natural(s@) as u64) }),
    opens_invariants none
    no_unwind
;

// beyond vstd, of a part
pub assume_specification[ promisebook::u64s::read_decimal_in ](s: &[u8], part: Range<usize>) -> (r: Option<Result<u64, NotDecimal>>)
    ensures
        r == (
            if is_part(s@, part) {
                Some(
                    if !says_natural(part_of(s@, part)) {
                        Err(NotDecimal::NoNumber)
                    } else if natural(part_of(s@, part)) > u64::MAX {
                        Err(NotDecimal::TooLarge)
                    } else {
                        Ok(natural(part_of(s@, part)) as u64)
                    }
                )
            } else {
                None
            }
        ),
    opens_invariants none
    no_unwind
;

// beyond vstd
pub assume_specification[ promisebook::u64s::write_decimal ](s: &mut [u8], x: u64) -> (r: Option<usize>)
    ensures
        r == (if figures(x as nat).len() <= old(s)@.len() { Some(figures(x as nat).len() as usize) } else { None }),
        final(s)@ == (if r is Some { begun(old(s)@, figures(x as nat)) } else { old(s)@ }),
    opens_invariants none
    no_unwind
;

// beyond vstd, of a part
pub assume_specification[ promisebook::u64s::write_decimal_in ](s: &mut [u8], part: Range<usize>, x: u64) -> (r: Option<usize>)
    ensures
        r == (if is_part(old(s)@, part) && figures(x as nat).len() <= part_of(old(s)@, part).len() { Some(figures(x as nat).len() as usize) } else { None }),
        final(s)@ == (if r is Some { with_part(old(s)@, part, begun(part_of(old(s)@, part), figures(x as nat))) } else { old(s)@ }),
    opens_invariants none
    no_unwind
;

// ---- usizes

// replaces std_specs/num u::wrapping_add
pub assume_specification[ promisebook::usizes::wrapping_add ](x: usize, y: usize) -> (r: usize)
    ensures
        r == usize_specs::wrapping_add(x, y),
    opens_invariants none
    no_unwind
;

// replaces std_specs/num u::wrapping_add_signed
pub assume_specification[ promisebook::usizes::wrapping_add_signed ](x: usize, y: isize) -> (r: usize)
    ensures
        r == usize_specs::wrapping_add_signed(x, y),
    opens_invariants none
    no_unwind
;

// replaces std_specs/num u::wrapping_sub
pub assume_specification[ promisebook::usizes::wrapping_sub ](x: usize, y: usize) -> (r: usize)
    ensures
        r == usize_specs::wrapping_sub(x, y),
    opens_invariants none
    no_unwind
;

// replaces std_specs/num u::wrapping_mul
pub assume_specification[ promisebook::usizes::wrapping_mul ](x: usize, y: usize) -> (r: usize)
    ensures
        r == usize_specs::wrapping_mul(x, y),
    opens_invariants none
    no_unwind
;

// replaces std_specs/num u::wrapping_shl
pub assume_specification[ promisebook::usizes::wrapping_shl ](x: usize, rhs: u32) -> (r: usize)
    ensures
        r == usize_specs::wrapping_shl(x, rhs),
    opens_invariants none
    no_unwind
;

// replaces std_specs/num u::wrapping_shr
pub assume_specification[ promisebook::usizes::wrapping_shr ](x: usize, rhs: u32) -> (r: usize)
    ensures
        r == usize_specs::wrapping_shr(x, rhs),
    opens_invariants none
    no_unwind
;

// replaces std_specs/num u::checked_add
pub assume_specification[ promisebook::usizes::checked_add ](x: usize, y: usize) -> (r: Option<usize>)
    ensures
        r == (if usize::MIN <= x + y <= usize::MAX { Some((x + y) as usize) } else { None }),
    opens_invariants none
    no_unwind
;

// replaces std_specs/num u::checked_add_signed
pub assume_specification[ promisebook::usizes::checked_add_signed ](x: usize, y: isize) -> (r: Option<usize>)
    ensures
        r == (if usize::MIN <= x + y <= usize::MAX { Some((x + y) as usize) } else { None }),
    opens_invariants none
    no_unwind
;

// replaces std_specs/num u::checked_sub
pub assume_specification[ promisebook::usizes::checked_sub ](x: usize, y: usize) -> (r: Option<usize>)
    ensures
        r == (if usize::MIN <= x - y <= usize::MAX { Some((x - y) as usize) } else { None }),
    opens_invariants none
    no_unwind
;

// replaces std_specs/num u::checked_mul
pub assume_specification[ promisebook::usizes::checked_mul ](x: usize, y: usize) -> (r: Option<usize>)
    ensures
        r == (if usize::MIN <= x * y <= usize::MAX { Some((x * y) as usize) } else { None }),
    opens_invariants none
    no_unwind
;

// replaces std_specs/num u::checked_next_multiple_of
pub assume_specification[ promisebook::usizes::checked_next_multiple_of ](x: usize, y: usize) -> (r: Option<usize>)
    ensures
        r == (if y != 0 && next_multiple_of(x as int, y as int) <= usize::MAX { Some(next_multiple_of(x as int, y as int) as usize) } else { None }),
    opens_invariants none
    no_unwind
;

// replaces std_specs/num u::checked_div
pub assume_specification[ promisebook::usizes::checked_div ](x: usize, y: usize) -> (r: Option<usize>)
    ensures
        r == (if y != 0 { Some(x / y) } else { None }),
    opens_invariants none
    no_unwind
;

// replaces std_specs/num u::checked_div_euclid
pub assume_specification[ promisebook::usizes::checked_div_euclid ](x: usize, y: usize) -> (r: Option<usize>)
    ensures
        r == (if y != 0 { Some(x / y) } else { None }),
    opens_invariants none
    no_unwind
;

// replaces std_specs/num u::checked_rem
pub assume_specification[ promisebook::usizes::checked_rem ](x: usize, y: usize) -> (r: Option<usize>)
    ensures
        r == (if y != 0 { Some(x % y) } else { None }),
    opens_invariants none
    no_unwind
;

// replaces std_specs/num u::checked_rem_euclid
pub assume_specification[ promisebook::usizes::checked_rem_euclid ](x: usize, y: usize) -> (r: Option<usize>)
    ensures
        r == (if y != 0 { Some(x % y) } else { None }),
    opens_invariants none
    no_unwind
;

// replaces std_specs/num u::saturating_add
pub assume_specification[ promisebook::usizes::saturating_add ](x: usize, y: usize) -> (r: usize)
    ensures
        r == (if x + y <= usize::MAX { (x + y) as usize } else { usize::MAX }),
    opens_invariants none
    no_unwind
;

// replaces std_specs/num u::saturating_sub
pub assume_specification[ promisebook::usizes::saturating_sub ](x: usize, y: usize) -> (r: usize)
    ensures
        r == (if usize::MIN <= x - y { (x - y) as usize } else { usize::MIN }),
    opens_invariants none
    no_unwind
;

// replaces std_specs/num u::saturating_mul
pub assume_specification[ promisebook::usizes::saturating_mul ](x: usize, y: usize) -> (r: usize)
    ensures
        r == (if x * y <= usize::MAX { (x * y) as usize } else { usize::MAX }),
    opens_invariants none
    no_unwind
;

// replaces std_specs/num u::is_multiple_of
pub assume_specification[ promisebook::usizes::is_multiple_of ](x: usize, y: usize) -> (r: bool)
    ensures
        r == (if y == 0 { x == 0 } else { x % y == 0 }),
    opens_invariants none
    no_unwind
;

// replaces std_specs/num u::clone
pub assume_specification[ promisebook::usizes::clone ](x: usize) -> (r: usize)
    ensures
        r == x,
    opens_invariants none
    no_unwind
;

// replaces std_specs/num u::eq
pub assume_specification[ promisebook::usizes::eq ](x: usize, y: usize) -> (r: bool)
    ensures
        r == (x == y),
    opens_invariants none
    no_unwind
;

// replaces std_specs/num u::ne
pub assume_specification[ promisebook::usizes::ne ](x: usize, y: usize) -> (r: bool)
    ensures
        r == (x != y),
    opens_invariants none
    no_unwind
;

// replaces std_specs/num u::lt
pub assume_specification[ promisebook::usizes::lt ](x: usize, y: usize) -> (r: bool)
    ensures
        r == (x < y),
    opens_invariants none
    no_unwind
;

// replaces std_specs/num u::le
pub assume_specification[ promisebook::usizes::le ](x: usize, y: usize) -> (r: bool)
    ensures
        r == (x <= y),
    opens_invariants none
    no_unwind
;

// replaces std_specs/num u::gt
pub assume_specification[ promisebook::usizes::gt ](x: usize, y: usize) -> (r: bool)
    ensures
        r == (x > y),
    opens_invariants none
    no_unwind
;

// replaces std_specs/num u::ge
pub assume_specification[ promisebook::usizes::ge ](x: usize, y: usize) -> (r: bool)
    ensures
        r == (x >= y),
    opens_invariants none
    no_unwind
;

// replaces std_specs/num u::cmp
pub assume_specification[ promisebook::usizes::cmp ](x: usize, y: usize) -> (r: Ordering)
    ensures
        r == (if x < y { Ordering::Less } else if x > y { Ordering::Greater } else { Ordering::Equal }),
    opens_invariants none
    no_unwind
;

// replaces std_specs/num u::partial_cmp
pub assume_specification[ promisebook::usizes::partial_cmp ](x: usize, y: usize) -> (r: Option<Ordering>)
    ensures
        r == Some(if x < y { Ordering::Less } else if x > y { Ordering::Greater } else { Ordering::Equal }),
    opens_invariants none
    no_unwind
;

// beyond vstd
pub assume_specification[ promisebook::usizes::read_decimal ](s: &[u8]) -> (r: Result<usize, NotDecimal>)
    ensures
        r == (
            if !says_natural(s@) { Err(NotDecimal::NoNumber) } else if natural(s@) > usize::MAX { Err(NotDecimal::TooLarge) } else { Ok(natural(s@) as usize) }
        ),
    opens_invariants none
    no_unwind
;

// beyond vstd, of a part
pub assume_specification[ promisebook::usizes::read_decimal_in ](s: &[u8], part: Range<usize>) -> (r: Option<Result<usize, NotDecimal>>)
    ensures
        r == (
            if is_part(s@, part) {
                Some(
                    if !says_natural(part_of(s@, part)) {
                        Err(NotDecimal::NoNumber)
                    } else if natural(part_of(s@, part)) > usize::MAX {
                        Err(NotDecimal::TooLarge)
                    } else {
                        Ok(natural(part_of(s@, part)) as usize)
                    }
                )
            } else {
                None
            }
        ),
    opens_invariants none
    no_unwind
;

// beyond vstd
pub assume_specification[ promisebook::usizes::write_decimal ](s: &mut [u8], x: usize) -> (r: Option<usize>)
    ensures
        r == (if figures(x as nat).len() <= old(s)@.len() { Some(figures(x as nat).len() as usize) } else { None }),
        final(s)@ == (if r is Some { begun(old(s)@, figures(x as nat)) } else { old(s)@ }),
    opens_invariants none
    no_unwind
;

// beyond vstd, of a part
pub assume_specification[ promisebook::usizes::write_decimal_in ](s: &mut [u8], part: Range<usize>, x: usize) -> (r: Option<usize>)
    ensures
        r == (if is_part(old(s)@, part) && figures(x as nat).len() <= part_of(old(s)@, part).len() { Some(figures(x as nat).len() as usize) } else { None }),
        final(s)@ == (if r is Some { with_part(old(s)@, part, begun(part_of(old(s)@, part), figures(x as nat))) } else { old(s)@ }),
    opens_invariants none
    no_unwind
;

// ---- i8s

// replaces std_specs/num i::wrapping_add
pub assume_specification[ promisebook::i8s::wrapping_add ](x: i8, y: i8) -> (r: i8)
    ensures
        r == i8_specs::wrapping_add(x, y),
    opens_invariants none
    no_unwind
;

// replaces std_specs/num i::wrapping_add_unsigned
pub assume_specification[ promisebook::i8s::wrapping_add_unsigned ](x: i8, y: u8) -> (r: i8)
    ensures
        r == i8_specs::wrapping_add_unsigned(x, y),
    opens_invariants none
    no_unwind
;

// replaces std_specs/num i::wrapping_sub
pub assume_specification[ promisebook::i8s::wrapping_sub ](x: i8, y: i8) -> (r: i8)
    ensures
        r == i8_specs::wrapping_sub(x, y),
    opens_invariants none
    no_unwind
;

// replaces std_specs/num i::wrapping_mul
pub assume_specification[ promisebook::i8s::wrapping_mul ](x: i8, y: i8) -> (r: i8)
    ensures
        r == i8_specs::wrapping_mul(x, y),
    opens_invariants none
    no_unwind
;

// replaces std_specs/num i::wrapping_shl
pub assume_specification[ promisebook::i8s::wrapping_shl ](x: i8, rhs: u32) -> (r: i8)
    ensures
        r == i8_specs::wrapping_shl(x, rhs),
    opens_invariants none
    no_unwind
;

// replaces std_specs/num i::wrapping_shr
pub assume_specification[ promisebook::i8s::wrapping_shr ](x: i8, rhs: u32) -> (r: i8)
    ensures
        r == i8_specs::wrapping_shr(x, rhs),
    opens_invariants none
    no_unwind
;

// replaces std_specs/num i::checked_add
pub assume_specification[ promisebook::i8s::checked_add ](x: i8, y: i8) -> (r: Option<i8>)
    ensures
        r == (if i8::MIN <= x + y <= i8::MAX { Some((x + y) as i8) } else { None }),
    opens_invariants none
    no_unwind
;

// replaces std_specs/num i::checked_add_unsigned
pub assume_specification[ promisebook::i8s::checked_add_unsigned ](x: i8, y: u8) -> (r: Option<i8>)
    ensures
        r == (if i8::MIN <= x + y <= i8::MAX { Some((x + y) as i8) } else { None }),
    opens_invariants none
    no_unwind
;

// replaces std_specs/num i::checked_sub
pub assume_specification[ promisebook::i8s::checked_sub ](x: i8, y: i8) -> (r: Option<i8>)
    ensures
        r == (if i8::MIN <= x - y <= i8::MAX { Some((x - y) as i8) } else { None }),
    opens_invariants none
    no_unwind
;

// replaces std_specs/num i::checked_sub_unsigned
pub assume_specification[ promisebook::i8s::checked_sub_unsigned ](x: i8, y: u8) -> (r: Option<i8>)
    ensures
        r == (if i8::MIN <= x - y <= i8::MAX { Some((x - y) as i8) } else { None }),
    opens_invariants none
    no_unwind
;

// replaces std_specs/num i::checked_mul
pub assume_specification[ promisebook::i8s::checked_mul ](x: i8, y: i8) -> (r: Option<i8>)
    ensures
        r == (if i8::MIN <= x * y <= i8::MAX { Some((x * y) as i8) } else { None }),
    opens_invariants none
    no_unwind
;

// replaces std_specs/num i::checked_div
pub assume_specification[ promisebook::i8s::checked_div ](x: i8, y: i8) -> (r: Option<i8>)
    ensures
        r == (if y != 0 && !(x == i8::MIN && y == -1) { Some(rust_div(x as int, y as int) as i8) } else { None }),
    opens_invariants none
    no_unwind
;

// replaces std_specs/num i::checked_div_euclid
pub assume_specification[ promisebook::i8s::checked_div_euclid ](x: i8, y: i8) -> (r: Option<i8>)
    ensures
        r == (if y != 0 && !(x == i8::MIN && y == -1) { Some((x / y) as i8) } else { None }),
    opens_invariants none
    no_unwind
;

// replaces std_specs/num i::checked_rem
pub assume_specification[ promisebook::i8s::checked_rem ](x: i8, y: i8) -> (r: Option<i8>)
    ensures
        r == (if y != 0 && !(x == i8::MIN && y == -1) { Some(rust_rem(x as int, y as int) as i8) } else { None }),
    opens_invariants none
    no_unwind
;

// replaces std_specs/num i::checked_rem_euclid
pub assume_specification[ promisebook::i8s::checked_rem_euclid ](x: i8, y: i8) -> (r: Option<i8>)
    ensures
        r == (if y != 0 && !(x == i8::MIN && y == -1) { Some((x % y) as i8) } else { None }),
    opens_invariants none
    no_unwind
;

// replaces std_specs/num i::clone
pub assume_specification[ promisebook::i8s::clone ](x: i8) -> (r: i8)
    ensures
        r == x,
    opens_invariants none
    no_unwind
;

// replaces std_specs/num i::eq
pub assume_specification[ promisebook::i8s::eq ](x: i8, y: i8) -> (r: bool)
    ensures
        r == (x == y),
    opens_invariants none
    no_unwind
;

// replaces std_specs/num i::ne
pub assume_specification[ promisebook::i8s::ne ](x: i8, y: i8) -> (r: bool)
    ensures
        r == (x != y),
    opens_invariants none
    no_unwind
;

// replaces std_specs/num i::lt
pub assume_specification[ promisebook::i8s::lt ](x: i8, y: i8) -> (r: bool)
    ensures
        r == (x < y),
    opens_invariants none
    no_unwind
;

// replaces std_specs/num i::le
pub assume_specification[ promisebook::i8s::le ](x: i8, y: i8) -> (r: bool)
    ensures
        r == (x <= y),
    opens_invariants none
    no_unwind
;

// replaces std_specs/num i::gt
pub assume_specification[ promisebook::i8s::gt ](x: i8, y: i8) -> (r: bool)
    ensures
        r == (x > y),
    opens_invariants none
    no_unwind
;

// replaces std_specs/num i::ge
pub assume_specification[ promisebook::i8s::ge ](x: i8, y: i8) -> (r: bool)
    ensures
        r == (x >= y),
    opens_invariants none
    no_unwind
;

// replaces std_specs/num i::cmp
pub assume_specification[ promisebook::i8s::cmp ](x: i8, y: i8) -> (r: Ordering)
    ensures
        r == (if x < y { Ordering::Less } else if x > y { Ordering::Greater } else { Ordering::Equal }),
    opens_invariants none
    no_unwind
;

// replaces std_specs/num i::partial_cmp
pub assume_specification[ promisebook::i8s::partial_cmp ](x: i8, y: i8) -> (r: Option<Ordering>)
    ensures
        r == Some(if x < y { Ordering::Less } else if x > y { Ordering::Greater } else { Ordering::Equal }),
    opens_invariants none
    no_unwind
;

// beyond vstd
pub assume_specification[ promisebook::i8s::read_decimal ](s: &[u8]) -> (r: Result<i8, NotDecimal>)
    ensures
        r == (
            if !says_whole(s@) { Err(NotDecimal::NoNumber) } else if i8::MIN <= whole(s@) <= i8::MAX { Ok(whole(s@) as i8) } else { Err(NotDecimal::TooLarge) }
        ),
    opens_invariants none
    no_unwind
;

// beyond vstd, of a part
pub assume_specification[ promisebook::i8s::read_decimal_in ](s: &[u8], part: Range<usize>) -> (r: Option<Result<i8, NotDecimal>>)
    ensures
        r == (
            if is_part(s@, part) {
                Some(
                    if !says_whole(part_of(s@, part)) {
                        Err(NotDecimal::NoNumber)
                    } else if i8::MIN <= whole(part_of(s@, part)) <= i8::MAX {
                        Ok(whole(part_of(s@, part)) as i8)
                    } else {
                        Err(NotDecimal::TooLarge)
                    }
                )
            } else {
                None
            }
        ),
    opens_invariants none
    no_unwind
;

// beyond vstd
pub assume_specification[ promisebook::i8s::write_decimal ](s: &mut [u8], x: i8) -> (r: Option<usize>)
    ensures
        r == (if decimal(x as int).len() <= old(s)@.len() { Some(decimal(x as int).len() as usize) } else { None }),
        final(s)@ == (if r is Some { begun(old(s)@, decimal(x as int)) } else { old(s)@ }),
    opens_invariants none
    no_unwind
;

// beyond vstd, of a part
pub assume_specification[ promisebook::i8s::write_decimal_in ](s: &mut [u8], part: Range<usize>, x: i8) -> (r: Option<usize>)
    ensures
        r == (if is_part(old(s)@, part) && decimal(x as int).len() <= part_of(old(s)@, part).len() { Some(decimal(x as int).len() as usize) } else { None }),
        final(s)@ == (if r is Some { with_part(old(s)@, part, begun(part_of(old(s)@, part), decimal(x as int))) } else { old(s)@ }),
    opens_invariants none
    no_unwind
;

// ---- i16s

// replaces std_specs/num i::wrapping_add
pub assume_specification[ promisebook::i16s::wrapping_add ](x: i16, y: i16) -> (r: i16)
    ensures
        r == i16_specs::wrapping_add(x, y),
    opens_invariants none
    no_unwind
;

// replaces std_specs/num i::wrapping_add_unsigned
pub assume_specification[ promisebook::i16s::wrapping_add_unsigned ](x: i16, y: u16) -> (r: i16)
    ensures
        r == i16_specs::wrapping_add_unsigned(x, y),
    opens_invariants none
    no_unwind
;

// replaces std_specs/num i::wrapping_sub
pub assume_specification[ promisebook::i16s::wrapping_sub ](x: i16, y: i16) -> (r: i16)
    ensures
        r == i16_specs::wrapping_sub(x, y),
    opens_invariants none
    no_unwind
;

// replaces std_specs/num i::wrapping_mul
pub assume_specification[ promisebook::i16s::wrapping_mul ](x: i16, y: i16) -> (r: i16)
    ensures
        r == i16_specs::wrapping_mul(x, y),
    opens_invariants none
    no_unwind
;

// replaces std_specs/num i::wrapping_shl
pub assume_specification[ promisebook::i16s::wrapping_shl ](x: i16, rhs: u32) -> (r: i16)
    ensures
        r == i16_specs::wrapping_shl(x, rhs),
    opens_invariants none
    no_unwind
;

// replaces std_specs/num i::wrapping_shr
pub assume_specification[ promisebook::i16s::wrapping_shr ](x: i16, rhs: u32) -> (r: i16)
    ensures
        r == i16_specs::wrapping_shr(x, rhs),
    opens_invariants none
    no_unwind
;

// replaces std_specs/num i::checked_add
pub assume_specification[ promisebook::i16s::checked_add ](x: i16, y: i16) -> (r: Option<i16>)
    ensures
        r == (if i16::MIN <= x + y <= i16::MAX { Some((x + y) as i16) } else { None }),
    opens_invariants none
    no_unwind
;

// replaces std_specs/num i::checked_add_unsigned
pub assume_specification[ promisebook::i16s::checked_add_unsigned ](x: i16, y: u16) -> (r: Option<i16>)
    ensures
        r == (if i16::MIN <= x + y <= i16::MAX { Some((x + y) as i16) } else { None }),
    opens_invariants none
    no_unwind
;

// replaces std_specs/num i::checked_sub
pub assume_specification[ promisebook::i16s::checked_sub ](x: i16, y: i16) -> (r: Option<i16>)
    ensures
        r == (if i16::MIN <= x - y <= i16::MAX { Some((x - y) as i16) } else { None }),
    opens_invariants none
    no_unwind
;

// replaces std_specs/num i::checked_sub_unsigned
pub assume_specification[ promisebook::i16s::checked_sub_unsigned ](x: i16, y: u16) -> (r: Option<i16>)
    ensures
        r == (if i16::MIN <= x - y <= i16::MAX { Some((x - y) as i16) } else { None }),
    opens_invariants none
    no_unwind
;

// replaces std_specs/num i::checked_mul
pub assume_specification[ promisebook::i16s::checked_mul ](x: i16, y: i16) -> (r: Option<i16>)
    ensures
        r == (if i16::MIN <= x * y <= i16::MAX { Some((x * y) as i16) } else { None }),
    opens_invariants none
    no_unwind
;

// replaces std_specs/num i::checked_div
pub assume_specification[ promisebook::i16s::checked_div ](x: i16, y: i16) -> (r: Option<i16>)
    ensures
        r == (if y != 0 && !(x == i16::MIN && y == -1) { Some(rust_div(x as int, y as int) as i16) } else { None }),
    opens_invariants none
    no_unwind
;

// replaces std_specs/num i::checked_div_euclid
pub assume_specification[ promisebook::i16s::checked_div_euclid ](x: i16, y: i16) -> (r: Option<i16>)
    ensures
        r == (if y != 0 && !(x == i16::MIN && y == -1) { Some((x / y) as i16) } else { None }),
    opens_invariants none
    no_unwind
;

// replaces std_specs/num i::checked_rem
pub assume_specification[ promisebook::i16s::checked_rem ](x: i16, y: i16) -> (r: Option<i16>)
    ensures
        r == (if y != 0 && !(x == i16::MIN && y == -1) { Some(rust_rem(x as int, y as int) as i16) } else { None }),
    opens_invariants none
    no_unwind
;

// replaces std_specs/num i::checked_rem_euclid
pub assume_specification[ promisebook::i16s::checked_rem_euclid ](x: i16, y: i16) -> (r: Option<i16>)
    ensures
        r == (if y != 0 && !(x == i16::MIN && y == -1) { Some((x % y) as i16) } else { None }),
    opens_invariants none
    no_unwind
;

// replaces std_specs/num i::clone
pub assume_specification[ promisebook::i16s::clone ](x: i16) -> (r: i16)
    ensures
        r == x,
    opens_invariants none
    no_unwind
;

// replaces std_specs/num i::eq
pub assume_specification[ promisebook::i16s::eq ](x: i16, y: i16) -> (r: bool)
    ensures
        r == (x == y),
    opens_invariants none
    no_unwind
;

// replaces std_specs/num i::ne
pub assume_specification[ promisebook::i16s::ne ](x: i16, y: i16) -> (r: bool)
    ensures
        r == (x != y),
    opens_invariants none
    no_unwind
;

// replaces std_specs/num i::lt
pub assume_specification[ promisebook::i16s::lt ](x: i16, y: i16) -> (r: bool)
    ensures
        r == (x < y),
    opens_invariants none
    no_unwind
;

// replaces std_specs/num i::le
pub assume_specification[ promisebook::i16s::le ](x: i16, y: i16) -> (r: bool)
    ensures
        r == (x <= y),
    opens_invariants none
    no_unwind
;

// replaces std_specs/num i::gt
pub assume_specification[ promisebook::i16s::gt ](x: i16, y: i16) -> (r: bool)
    ensures
        r == (x > y),
    opens_invariants none
    no_unwind
;

// replaces std_specs/num i::ge
pub assume_specification[ promisebook::i16s::ge ](x: i16, y: i16) -> (r: bool)
    ensures
        r == (x >= y),
    opens_invariants none
    no_unwind
;

// replaces std_specs/num i::cmp
pub assume_specification[ promisebook::i16s::cmp ](x: i16, y: i16) -> (r: Ordering)
    ensures
        r == (if x < y { Ordering::Less } else if x > y { Ordering::Greater } else { Ordering::Equal }),
    opens_invariants none
    no_unwind
;

// replaces std_specs/num i::partial_cmp
pub assume_specification[ promisebook::i16s::partial_cmp ](x: i16, y: i16) -> (r: Option<Ordering>)
    ensures
        r == Some(if x < y { Ordering::Less } else if x > y { Ordering::Greater } else { Ordering::Equal }),
    opens_invariants none
    no_unwind
;

// beyond vstd
pub assume_specification[ promisebook::i16s::read_decimal ](s: &[u8]) -> (r: Result<i16, NotDecimal>)
    ensures
        r == (
            if !says_whole(s@) {
                Err(NotDecimal::NoNumber)
            } else if i16::MIN <= whole(s@) <= i16::MAX {
                Ok(whole(s@) as i16)
            } else {
                Err(NotDecimal::TooLarge)
            }
        ),
    opens_invariants none
    no_unwind
;

// beyond vstd, of a part
pub assume_specification[ promisebook::i16s::read_decimal_in ](s: &[u8], part: Range<usize>) -> (r: Option<Result<i16, NotDecimal>>)
    ensures
        r == (
            if is_part(s@, part) {
                Some(
                    if !says_whole(part_of(s@, part)) {
                        Err(NotDecimal::NoNumber)
                    } else if i16::MIN <= whole(part_of(s@, part)) <= i16::MAX {
                        Ok(whole(part_of(s@, part)) as i16)
                    } else {
                        Err(NotDecimal::TooLarge)
                    }
                )
            } else {
                None
            }
        ),
    opens_invariants none
    no_unwind
;

// beyond vstd
pub assume_specification[ promisebook::i16s::write_decimal ](s: &mut [u8], x: i16) -> (r: Option<usize>)
    ensures
        r == (if decimal(x as int).len() <= old(s)@.len() { Some(decimal(x as int).len() as usize) } else { None }),
        final(s)@ == (if r is Some { begun(old(s)@, decimal(x as int)) } else { old(s)@ }),
    opens_invariants none
    no_unwind
;

// beyond vstd, of a part
pub assume_specification[ promisebook::i16s::write_decimal_in ](s: &mut [u8], part: Range<usize>, x: i16) -> (r: Option<usize>)
    ensures
        r == (if is_part(old(s)@, part) && decimal(x as int).len() <= part_of(old(s)@, part).len() { Some(decimal(x as int).len() as usize) } else { None }),
        final(s)@ == (if r is Some { with_part(old(s)@, part, begun(part_of(old(s)@, part), decimal(x as int))) } else { old(s)@ }),
    opens_invariants none
    no_unwind
;

// beyond vstd
pub assume_specification[ promisebook::i16s::from_le_bytes ](s: &[u8]) -> (r: Option<i16>)
    ensures
        r == (if s@.len() == 2 { Some(i16_of(spec_u16_from_le_bytes(s@))) } else { None }),
    opens_invariants none
    no_unwind
;

// beyond vstd, of a part
pub assume_specification[ promisebook::i16s::from_le_bytes_in ](s: &[u8], part: Range<usize>) -> (r: Option<i16>)
    ensures
        r == (if is_part(s@, part) && part_of(s@, part).len() == 2 { Some(i16_of(spec_u16_from_le_bytes(part_of(s@, part)))) } else { None }),
    opens_invariants none
    no_unwind
;

// beyond vstd
pub assume_specification[ promisebook::i16s::to_le_bytes ](x: i16) -> (r: [u8; 2])
    ensures
        r@ == spec_u16_to_le_bytes(u16_of(x)),
    opens_invariants none
    no_unwind
;

// beyond vstd, of a part
pub assume_specification[ promisebook::i16s::to_le_bytes_in ](s: &mut [u8], part: Range<usize>, x: i16) -> (r: Option<()>)
    ensures
        r == (if is_part(old(s)@, part) && 2 <= part_of(old(s)@, part).len() { Some(()) } else { None }),
        final(s)@ == (if r is Some { with_part(old(s)@, part, begun(part_of(old(s)@, part), spec_u16_to_le_bytes(u16_of(x)))) } else { old(s)@ }),
    opens_invariants none
    no_unwind
;

// beyond vstd
pub assume_specification[ promisebook::i16s::from_be_bytes ](s: &[u8]) -> (r: Option<i16>)
    ensures
        r == (if s@.len() == 2 { Some(i16_of(spec_u16_from_le_bytes(s@.reverse()))) } else { None }),
    opens_invariants none
    no_unwind
;

// beyond vstd, of a part
pub assume_specification[ promisebook::i16s::from_be_bytes_in ](s: &[u8], part: Range<usize>) -> (r: Option<i16>)
    ensures
        r == (if is_part(s@, part) && part_of(s@, part).len() == 2 { Some(i16_of(spec_u16_from_le_bytes(part_of(s@, part).reverse()))) } else { None }),
    opens_invariants none
    no_unwind
;

// beyond vstd
pub assume_specification[ promisebook::i16s::to_be_bytes ](x: i16) -> (r: [u8; 2])
    ensures
        r@ == spec_u16_to_le_bytes(u16_of(x)).reverse(),
    opens_invariants none
    no_unwind
;

// beyond vstd, of a part
pub assume_specification[ promisebook::i16s::to_be_bytes_in ](s: &mut [u8], part: Range<usize>, x: i16) -> (r: Option<()>)
    ensures
        r == (if is_part(old(s)@, part) && 2 <= part_of(old(s)@, part).len() { Some(()) } else { None }),
        final(s)@ == (if r is Some { with_part(old(s)@, part, begun(part_of(old(s)@, part), spec_u16_to_le_bytes(u16_of(x)).reverse())) } else { old(s)@ }),
    opens_invariants none
    no_unwind
;

// ---- i32s

// replaces std_specs/num i::wrapping_add
pub assume_specification[ promisebook::i32s::wrapping_add ](x: i32, y: i32) -> (r: i32)
    ensures
        r == i32_specs::wrapping_add(x, y),
    opens_invariants none
    no_unwind
;

// replaces std_specs/num i::wrapping_add_unsigned
pub assume_specification[ promisebook::i32s::wrapping_add_unsigned ](x: i32, y: u32) -> (r: i32)
    ensures
        r == i32_specs::wrapping_add_unsigned(x, y),
    opens_invariants none
    no_unwind
;

// replaces std_specs/num i::wrapping_sub
pub assume_specification[ promisebook::i32s::wrapping_sub ](x: i32, y: i32) -> (r: i32)
    ensures
        r == i32_specs::wrapping_sub(x, y),
    opens_invariants none
    no_unwind
;

// replaces std_specs/num i::wrapping_mul
pub assume_specification[ promisebook::i32s::wrapping_mul ](x: i32, y: i32) -> (r: i32)
    ensures
        r == i32_specs::wrapping_mul(x, y),
    opens_invariants none
    no_unwind
;

// replaces std_specs/num i::wrapping_shl
pub assume_specification[ promisebook::i32s::wrapping_shl ](x: i32, rhs: u32) -> (r: i32)
    ensures
        r == i32_specs::wrapping_shl(x, rhs),
    opens_invariants none
    no_unwind
;

// replaces std_specs/num i::wrapping_shr
pub assume_specification[ promisebook::i32s::wrapping_shr ](x: i32, rhs: u32) -> (r: i32)
    ensures
        r == i32_specs::wrapping_shr(x, rhs),
    opens_invariants none
    no_unwind
;

// replaces std_specs/num i::checked_add
pub assume_specification[ promisebook::i32s::checked_add ](x: i32, y: i32) -> (r: Option<i32>)
    ensures
        r == (if i32::MIN <= x + y <= i32::MAX { Some((x + y) as i32) } else { None }),
    opens_invariants none
    no_unwind
;

// replaces std_specs/num i::checked_add_unsigned
pub assume_specification[ promisebook::i32s::checked_add_unsigned ](x: i32, y: u32) -> (r: Option<i32>)
    ensures
        r == (if i32::MIN <= x + y <= i32::MAX { Some((x + y) as i32) } else { None }),
    opens_invariants none
    no_unwind
;

// replaces std_specs/num i::checked_sub
pub assume_specification[ promisebook::i32s::checked_sub ](x: i32, y: i32) -> (r: Option<i32>)
    ensures
        r == (if i32::MIN <= x - y <= i32::MAX { Some((x - y) as i32) } else { None }),
    opens_invariants none
    no_unwind
;

// replaces std_specs/num i::checked_sub_unsigned
pub assume_specification[ promisebook::i32s::checked_sub_unsigned ](x: i32, y: u32) -> (r: Option<i32>)
    ensures
        r == (if i32::MIN <= x - y <= i32::MAX { Some((x - y) as i32) } else { None }),
    opens_invariants none
    no_unwind
;

// replaces std_specs/num i::checked_mul
pub assume_specification[ promisebook::i32s::checked_mul ](x: i32, y: i32) -> (r: Option<i32>)
    ensures
        r == (if i32::MIN <= x * y <= i32::MAX { Some((x * y) as i32) } else { None }),
    opens_invariants none
    no_unwind
;

// replaces std_specs/num i::checked_div
pub assume_specification[ promisebook::i32s::checked_div ](x: i32, y: i32) -> (r: Option<i32>)
    ensures
        r == (if y != 0 && !(x == i32::MIN && y == -1) { Some(rust_div(x as int, y as int) as i32) } else { None }),
    opens_invariants none
    no_unwind
;

// replaces std_specs/num i::checked_div_euclid
pub assume_specification[ promisebook::i32s::checked_div_euclid ](x: i32, y: i32) -> (r: Option<i32>)
    ensures
        r == (if y != 0 && !(x == i32::MIN && y == -1) { Some((x / y) as i32) } else { None }),
    opens_invariants none
    no_unwind
;

// replaces std_specs/num i::checked_rem
pub assume_specification[ promisebook::i32s::checked_rem ](x: i32, y: i32) -> (r: Option<i32>)
    ensures
        r == (if y != 0 && !(x == i32::MIN && y == -1) { Some(rust_rem(x as int, y as int) as i32) } else { None }),
    opens_invariants none
    no_unwind
;

// replaces std_specs/num i::checked_rem_euclid
pub assume_specification[ promisebook::i32s::checked_rem_euclid ](x: i32, y: i32) -> (r: Option<i32>)
    ensures
        r == (if y != 0 && !(x == i32::MIN && y == -1) { Some((x % y) as i32) } else { None }),
    opens_invariants none
    no_unwind
;

// replaces std_specs/num i::clone
pub assume_specification[ promisebook::i32s::clone ](x: i32) -> (r: i32)
    ensures
        r == x,
    opens_invariants none
    no_unwind
;

// replaces std_specs/num i::eq
pub assume_specification[ promisebook::i32s::eq ](x: i32, y: i32) -> (r: bool)
    ensures
        r == (x == y),
    opens_invariants none
    no_unwind
;

// replaces std_specs/num i::ne
pub assume_specification[ promisebook::i32s::ne ](x: i32, y: i32) -> (r: bool)
    ensures
        r == (x != y),
    opens_invariants none
    no_unwind
;

// replaces std_specs/num i::lt
pub assume_specification[ promisebook::i32s::lt ](x: i32, y: i32) -> (r: bool)
    ensures
        r == (x < y),
    opens_invariants none
    no_unwind
;

// replaces std_specs/num i::le
pub assume_specification[ promisebook::i32s::le ](x: i32, y: i32) -> (r: bool)
    ensures
        r == (x <= y),
    opens_invariants none
    no_unwind
;

// replaces std_specs/num i::gt
pub assume_specification[ promisebook::i32s::gt ](x: i32, y: i32) -> (r: bool)
    ensures
        r == (x > y),
    opens_invariants none
    no_unwind
;

// replaces std_specs/num i::ge
pub assume_specification[ promisebook::i32s::ge ](x: i32, y: i32) -> (r: bool)
    ensures
        r == (x >= y),
    opens_invariants none
    no_unwind
;

// replaces std_specs/num i::cmp
pub assume_specification[ promisebook::i32s::cmp ](x: i32, y: i32) -> (r: Ordering)
    ensures
        r == (if x < y { Ordering::Less } else if x > y { Ordering::Greater } else { Ordering::Equal }),
    opens_invariants none
    no_unwind
;

// replaces std_specs/num i::partial_cmp
pub assume_specification[ promisebook::i32s::partial_cmp ](x: i32, y: i32) -> (r: Option<Ordering>)
    ensures
        r == Some(if x < y { Ordering::Less } else if x > y { Ordering::Greater } else { Ordering::Equal }),
    opens_invariants none
    no_unwind
;

// beyond vstd
pub assume_specification[ promisebook::i32s::read_decimal ](s: &[u8]) -> (r: Result<i32, NotDecimal>)
    ensures
        r == (
            if !says_whole(s@) {
                Err(NotDecimal::NoNumber)
            } else if i32::MIN <= whole(s@) <= i32::MAX {
                Ok(whole(s@) as i32)
            } else {
                Err(NotDecimal::TooLarge)
            }
        ),
    opens_invariants none
    no_unwind
;

// beyond vstd, of a part
pub assume_specification[ promisebook::i32s::read_decimal_in ](s: &[u8], part: Range<usize>) -> (r: Option<Result<i32, NotDecimal>>)
    ensures
        r == (
            if is_part(s@, part) {
                Some(
                    if !says_whole(part_of(s@, part)) {
                        Err(NotDecimal::NoNumber)
                    } else if i32::MIN <= whole(part_of(s@, part)) <= i32::MAX {
                        Ok(whole(part_of(s@, part)) as i32)
                    } else {
                        Err(NotDecimal::TooLarge)
                    }
                )
            } else {
                None
            }
        ),
    opens_invariants none
    no_unwind
;

// beyond vstd
pub assume_specification[ promisebook::i32s::write_decimal ](s: &mut [u8], x: i32) -> (r: Option<usize>)
    ensures
        r == (if decimal(x as int).len() <= old(s)@.len() { Some(decimal(x as int).len() as usize) } else { None }),
        final(s)@ == (if r is Some { begun(old(s)@, decimal(x as int)) } else { old(s)@ }),
    opens_invariants none
    no_unwind
;

// beyond vstd, of a part
pub assume_specification[ promisebook::i32s::write_decimal_in ](s: &mut [u8], part: Range<usize>, x: i32) -> (r: Option<usize>)
    ensures
        r == (if is_part(old(s)@, part) && decimal(x as int).len() <= part_of(old(s)@, part).len() { Some(decimal(x as int).len() as usize) } else { None }),
        final(s)@ == (if r is Some { with_part(old(s)@, part, begun(part_of(old(s)@, part), decimal(x as int))) } else { old(s)@ }),
    opens_invariants none
    no_unwind
;

// beyond vstd
pub assume_specification[ promisebook::i32s::from_le_bytes ](s: &[u8]) -> (r: Option<i32>)
    ensures
        r == (if s@.len() == 4 { Some(i32_of(spec_u32_from_le_bytes(s@))) } else { None }),
    opens_invariants none
    no_unwind
;

// beyond vstd, of a part
pub assume_specification[ promisebook::i32s::from_le_bytes_in ](s: &[u8], part: Range<usize>) -> (r: Option<i32>)
    ensures
        r == (if is_part(s@, part) && part_of(s@, part).len() == 4 { Some(i32_of(spec_u32_from_le_bytes(part_of(s@, part)))) } else { None }),
    opens_invariants none
    no_unwind
;

// beyond vstd
pub assume_specification[ promisebook::i32s::to_le_bytes ](x: i32) -> (r: [u8; 4])
    ensures
        r@ == spec_u32_to_le_bytes(u32_of(x)),
    opens_invariants none
    no_unwind
;

// beyond vstd, of a part
pub assume_specification[ promisebook::i32s::to_le_bytes_in ](s: &mut [u8], part: Range<usize>, x: i32) -> (r: Option<()>)
    ensures
        r == (if is_part(old(s)@, part) && 4 <= part_of(old(s)@, part).len() { Some(()) } else { None }),
        final(s)@ == (if r is Some { with_part(old(s)@, part, begun(part_of(old(s)@, part), spec_u32_to_le_bytes(u32_of(x)))) } else { old(s)@ }),
    opens_invariants none
    no_unwind
;

// beyond vstd
pub assume_specification[ promisebook::i32s::from_be_bytes ](s: &[u8]) -> (r: Option<i32>)
    ensures
        r == (if s@.len() == 4 { Some(i32_of(spec_u32_from_le_bytes(s@.reverse()))) } else { None }),
    opens_invariants none
    no_unwind
;

// beyond vstd, of a part
pub assume_specification[ promisebook::i32s::from_be_bytes_in ](s: &[u8], part: Range<usize>) -> (r: Option<i32>)
    ensures
        r == (if is_part(s@, part) && part_of(s@, part).len() == 4 { Some(i32_of(spec_u32_from_le_bytes(part_of(s@, part).reverse()))) } else { None }),
    opens_invariants none
    no_unwind
;

// beyond vstd
pub assume_specification[ promisebook::i32s::to_be_bytes ](x: i32) -> (r: [u8; 4])
    ensures
        r@ == spec_u32_to_le_bytes(u32_of(x)).reverse(),
    opens_invariants none
    no_unwind
;

// beyond vstd, of a part
pub assume_specification[ promisebook::i32s::to_be_bytes_in ](s: &mut [u8], part: Range<usize>, x: i32) -> (r: Option<()>)
    ensures
        r == (if is_part(old(s)@, part) && 4 <= part_of(old(s)@, part).len() { Some(()) } else { None }),
        final(s)@ == (if r is Some { with_part(old(s)@, part, begun(part_of(old(s)@, part), spec_u32_to_le_bytes(u32_of(x)).reverse())) } else { old(s)@ }),
    opens_invariants none
    no_unwind
;

// ---- i64s

// replaces std_specs/num i::wrapping_add
pub assume_specification[ promisebook::i64s::wrapping_add ](x: i64, y: i64) -> (r: i64)
    ensures
        r == i64_specs::wrapping_add(x, y),
    opens_invariants none
    no_unwind
;

// replaces std_specs/num i::wrapping_add_unsigned
pub assume_specification[ promisebook::i64s::wrapping_add_unsigned ](x: i64, y: u64) -> (r: i64)
    ensures
        r == i64_specs::wrapping_add_unsigned(x, y),
    opens_invariants none
    no_unwind
;

// replaces std_specs/num i::wrapping_sub
pub assume_specification[ promisebook::i64s::wrapping_sub ](x: i64, y: i64) -> (r: i64)
    ensures
        r == i64_specs::wrapping_sub(x, y),
    opens_invariants none
    no_unwind
;

// replaces std_specs/num i::wrapping_mul
pub assume_specification[ promisebook::i64s::wrapping_mul ](x: i64, y: i64) -> (r: i64)
    ensures
        r == i64_specs::wrapping_mul(x, y),
    opens_invariants none
    no_unwind
;

// replaces std_specs/num i::wrapping_shl
pub assume_specification[ promisebook::i64s::wrapping_shl ](x: i64, rhs: u32) -> (r: i64)
    ensures
        r == i64_specs::wrapping_shl(x, rhs),
    opens_invariants none
    no_unwind
;

// replaces std_specs/num i::wrapping_shr
pub assume_specification[ promisebook::i64s::wrapping_shr ](x: i64, rhs: u32) -> (r: i64)
    ensures
        r == i64_specs::wrapping_shr(x, rhs),
    opens_invariants none
    no_unwind
;

// replaces std_specs/num i::checked_add
pub assume_specification[ promisebook::i64s::checked_add ](x: i64, y: i64) -> (r: Option<i64>)
    ensures
        r == (if i64::MIN <= x + y <= i64::MAX { Some((x + y) as i64) } else { None }),
    opens_invariants none
    no_unwind
;

// replaces std_specs/num i::checked_add_unsigned
pub assume_specification[ promisebook::i64s::checked_add_unsigned ](x: i64, y: u64) -> (r: Option<i64>)
    ensures
        r == (if i64::MIN <= x + y <= i64::MAX { Some((x + y) as i64) } else { None }),
    opens_invariants none
    no_unwind
;

// replaces std_specs/num i::checked_sub
pub assume_specification[ promisebook::i64s::checked_sub ](x: i64, y: i64) -> (r: Option<i64>)
    ensures
        r == (if i64::MIN <= x - y <= i64::MAX { Some((x - y) as i64) } else { None }),
    opens_invariants none
    no_unwind
;

// replaces std_specs/num i::checked_sub_unsigned
pub assume_specification[ promisebook::i64s::checked_sub_unsigned ](x: i64, y: u64) -> (r: Option<i64>)
    ensures
        r == (if i64::MIN <= x - y <= i64::MAX { Some((x - y) as i64) } else { None }),
    opens_invariants none
    no_unwind
;

// replaces std_specs/num i::checked_mul
pub assume_specification[ promisebook::i64s::checked_mul ](x: i64, y: i64) -> (r: Option<i64>)
    ensures
        r == (if i64::MIN <= x * y <= i64::MAX { Some((x * y) as i64) } else { None }),
    opens_invariants none
    no_unwind
;

// replaces std_specs/num i::checked_div
pub assume_specification[ promisebook::i64s::checked_div ](x: i64, y: i64) -> (r: Option<i64>)
    ensures
        r == (if y != 0 && !(x == i64::MIN && y == -1) { Some(rust_div(x as int, y as int) as i64) } else { None }),
    opens_invariants none
    no_unwind
;

// replaces std_specs/num i::checked_div_euclid
pub assume_specification[ promisebook::i64s::checked_div_euclid ](x: i64, y: i64) -> (r: Option<i64>)
    ensures
        r == (if y != 0 && !(x == i64::MIN && y == -1) { Some((x / y) as i64) } else { None }),
    opens_invariants none
    no_unwind
;

// replaces std_specs/num i::checked_rem
pub assume_specification[ promisebook::i64s::checked_rem ](x: i64, y: i64) -> (r: Option<i64>)
    ensures
        r == (if y != 0 && !(x == i64::MIN && y == -1) { Some(rust_rem(x as int, y as int) as i64) } else { None }),
    opens_invariants none
    no_unwind
;

// replaces std_specs/num i::checked_rem_euclid
pub assume_specification[ promisebook::i64s::checked_rem_euclid ](x: i64, y: i64) -> (r: Option<i64>)
    ensures
        r == (if y != 0 && !(x == i64::MIN && y == -1) { Some((x % y) as i64) } else { None }),
    opens_invariants none
    no_unwind
;

// replaces std_specs/num i::clone
pub assume_specification[ promisebook::i64s::clone ](x: i64) -> (r: i64)
    ensures
        r == x,
    opens_invariants none
    no_unwind
;

// replaces std_specs/num i::eq
pub assume_specification[ promisebook::i64s::eq ](x: i64, y: i64) -> (r: bool)
    ensures
        r == (x == y),
    opens_invariants none
    no_unwind
;

// replaces std_specs/num i::ne
pub assume_specification[ promisebook::i64s::ne ](x: i64, y: i64) -> (r: bool)
    ensures
        r == (x != y),
    opens_invariants none
    no_unwind
;

// replaces std_specs/num i::lt
pub assume_specification[ promisebook::i64s::lt ](x: i64, y: i64) -> (r: bool)
    ensures
        r == (x < y),
    opens_invariants none
    no_unwind
;

// replaces std_specs/num i::le
pub assume_specification[ promisebook::i64s::le ](x: i64, y: i64) -> (r: bool)
    ensures
        r == (x <= y),
    opens_invariants none
    no_unwind
;

// replaces std_specs/num i::gt
pub assume_specification[ promisebook::i64s::gt ](x: i64, y: i64) -> (r: bool)
    ensures
        r == (x > y),
    opens_invariants none
    no_unwind
;

// replaces std_specs/num i::ge
pub assume_specification[ promisebook::i64s::ge ](x: i64, y: i64) -> (r: bool)
    ensures
        r == (x >= y),
    opens_invariants none
    no_unwind
;

// replaces std_specs/num i::cmp
pub assume_specification[ promisebook::i64s::cmp ](x: i64, y: i64) -> (r: Ordering)
    ensures
        r == (if x < y { Ordering::Less } else if x > y { Ordering::Greater } else { Ordering::Equal }),
    opens_invariants none
    no_unwind
;

// replaces std_specs/num i::partial_cmp
pub assume_specification[ promisebook::i64s::partial_cmp ](x: i64, y: i64) -> (r: Option<Ordering>)
    ensures
        r == Some(if x < y { Ordering::Less } else if x > y { Ordering::Greater } else { Ordering::Equal }),
    opens_invariants none
    no_unwind
;

// beyond vstd
pub assume_specification[ promisebook::i64s::read_decimal ](s: &[u8]) -> (r: Result<i64, NotDecimal>)
    ensures
        r == (
            if !says_whole(s@) {
                Err(NotDecimal::NoNumber)
            } else if i64::MIN <= whole(s@) <= i64::MAX {
                Ok(whole(s@) as i64)
            } else {
                Err(NotDecimal::TooLarge)
            }
        ),
    opens_invariants none
    no_unwind
;

// beyond vstd, of a part
pub assume_specification[ promisebook::i64s::read_decimal_in ](s: &[u8], part: Range<usize>) -> (r: Option<Result<i64, NotDecimal>>)
    ensures
        r == (
            if is_part(s@, part) {
                Some(
                    if !says_whole(part_of(s@, part)) {
                        Err(NotDecimal::NoNumber)
                    } else if i64::MIN <= whole(part_of(s@, part)) <= i64::MAX {
                        Ok(whole(part_of(s@, part)) as i64)
                    } else {
                        Err(NotDecimal::TooLarge)
                    }
                )
            } else {
                None
            }
        ),
    opens_invariants none
    no_unwind
;

// beyond vstd
pub assume_specification[ promisebook::i64s::write_decimal ](s: &mut [u8], x: i64) -> (r: Option<usize>)
    ensures
        r == (if decimal(x as int).len() <= old(s)@.len() { Some(decimal(x as int).len() as usize) } else { None }),
        final(s)@ == (if r is Some { begun(old(s)@, decimal(x as int)) } else { old(s)@ }),
    opens_invariants none
    no_unwind
;

// beyond vstd, of a part
pub assume_specification[ promisebook::i64s::write_decimal_in ](s: &mut [u8], part: Range<usize>, x: i64) -> (r: Option<usize>)
    ensures
        r == (if is_part(old(s)@, part) && decimal(x as int).len() <= part_of(old(s)@, part).len() { Some(decimal(x as int).len() as usize) } else { None }),
        final(s)@ == (if r is Some { with_part(old(s)@, part, begun(part_of(old(s)@, part), decimal(x as int))) } else { old(s)@ }),
    opens_invariants none
    no_unwind
;

// beyond vstd
pub assume_specification[ promisebook::i64s::from_le_bytes ](s: &[u8]) -> (r: Option<i64>)
    ensures
        r == (if s@.len() == 8 { Some(i64_of(spec_u64_from_le_bytes(s@))) } else { None }),
    opens_invariants none
    no_unwind
;

// beyond vstd, of a part
pub assume_specification[ promisebook::i64s::from_le_bytes_in ](s: &[u8], part: Range<usize>) -> (r: Option<i64>)
    ensures
        r == (if is_part(s@, part) && part_of(s@, part).len() == 8 { Some(i64_of(spec_u64_from_le_bytes(part_of(s@, part)))) } else { None }),
    opens_invariants none
    no_unwind
;

// beyond vstd
pub assume_specification[ promisebook::i64s::to_le_bytes ](x: i64) -> (r: [u8; 8])
    ensures
        r@ == spec_u64_to_le_bytes(u64_of(x)),
    opens_invariants none
    no_unwind
;

// beyond vstd, of a part
pub assume_specification[ promisebook::i64s::to_le_bytes_in ](s: &mut [u8], part: Range<usize>, x: i64) -> (r: Option<()>)
    ensures
        r == (if is_part(old(s)@, part) && 8 <= part_of(old(s)@, part).len() { Some(()) } else { None }),
        final(s)@ == (if r is Some { with_part(old(s)@, part, begun(part_of(old(s)@, part), spec_u64_to_le_bytes(u64_of(x)))) } else { old(s)@ }),
    opens_invariants none
    no_unwind
;

// beyond vstd
pub assume_specification[ promisebook::i64s::from_be_bytes ](s: &[u8]) -> (r: Option<i64>)
    ensures
        r == (if s@.len() == 8 { Some(i64_of(spec_u64_from_le_bytes(s@.reverse()))) } else { None }),
    opens_invariants none
    no_unwind
;

// beyond vstd, of a part
pub assume_specification[ promisebook::i64s::from_be_bytes_in ](s: &[u8], part: Range<usize>) -> (r: Option<i64>)
    ensures
        r == (if is_part(s@, part) && part_of(s@, part).len() == 8 { Some(i64_of(spec_u64_from_le_bytes(part_of(s@, part).reverse()))) } else { None }),
    opens_invariants none
    no_unwind
;

// beyond vstd
pub assume_specification[ promisebook::i64s::to_be_bytes ](x: i64) -> (r: [u8; 8])
    ensures
        r@ == spec_u64_to_le_bytes(u64_of(x)).reverse(),
    opens_invariants none
    no_unwind
;

// beyond vstd, of a part
pub assume_specification[ promisebook::i64s::to_be_bytes_in ](s: &mut [u8], part: Range<usize>, x: i64) -> (r: Option<()>)
    ensures
        r == (if is_part(old(s)@, part) && 8 <= part_of(old(s)@, part).len() { Some(()) } else { None }),
        final(s)@ == (if r is Some { with_part(old(s)@, part, begun(part_of(old(s)@, part), spec_u64_to_le_bytes(u64_of(x)).reverse())) } else { old(s)@ }),
    opens_invariants none
    no_unwind
;

// ---- isizes

// replaces std_specs/num i::wrapping_add
pub assume_specification[ promisebook::isizes::wrapping_add ](x: isize, y: isize) -> (r: isize)
    ensures
        r == isize_specs::wrapping_add(x, y),
    opens_invariants none
    no_unwind
;

// replaces std_specs/num i::wrapping_add_unsigned
pub assume_specification[ promisebook::isizes::wrapping_add_unsigned ](x: isize, y: usize) -> (r: isize)
    ensures
        r == isize_specs::wrapping_add_unsigned(x, y),
    opens_invariants none
    no_unwind
;

// replaces std_specs/num i::wrapping_sub
pub assume_specification[ promisebook::isizes::wrapping_sub ](x: isize, y: isize) -> (r: isize)
    ensures
        r == isize_specs::wrapping_sub(x, y),
    opens_invariants none
    no_unwind
;

// replaces std_specs/num i::wrapping_mul
pub assume_specification[ promisebook::isizes::wrapping_mul ](x: isize, y: isize) -> (r: isize)
    ensures
        r == isize_specs::wrapping_mul(x, y),
    opens_invariants none
    no_unwind
;

// replaces std_specs/num i::wrapping_shl
pub assume_specification[ promisebook::isizes::wrapping_shl ](x: isize, rhs: u32) -> (r: isize)
    ensures
        r == isize_specs::wrapping_shl(x, rhs),
    opens_invariants none
    no_unwind
;

// replaces std_specs/num i::wrapping_shr
pub assume_specification[ promisebook::isizes::wrapping_shr ](x: isize, rhs: u32) -> (r: isize)
    ensures
        r == isize_specs::wrapping_shr(x, rhs),
    opens_invariants none
    no_unwind
;

// replaces std_specs/num i::checked_add
pub assume_specification[ promisebook::isizes::checked_add ](x: isize, y: isize) -> (r: Option<isize>)
    ensures
        r == (if isize::MIN <= x + y <= isize::MAX { Some((x + y) as isize) } else { None }),
    opens_invariants none
    no_unwind
;

// replaces std_specs/num i::checked_add_unsigned
pub assume_specification[ promisebook::isizes::checked_add_unsigned ](x: isize, y: usize) -> (r: Option<isize>)
    ensures
        r == (if isize::MIN <= x + y <= isize::MAX { Some((x + y) as isize) } else { None }),
    opens_invariants none
    no_unwind
;

// replaces std_specs/num i::checked_sub
pub assume_specification[ promisebook::isizes::checked_sub ](x: isize, y: isize) -> (r: Option<isize>)
    ensures
        r == (if isize::MIN <= x - y <= isize::MAX { Some((x - y) as isize) } else { None }),
    opens_invariants none
    no_unwind
;

// replaces std_specs/num i::checked_sub_unsigned
pub assume_specification[ promisebook::isizes::checked_sub_unsigned ](x: isize, y: usize) -> (r: Option<isize>)
    ensures
        r == (if isize::MIN <= x - y <= isize::MAX { Some((x - y) as isize) } else { None }),
    opens_invariants none
    no_unwind
;

// replaces std_specs/num i::checked_mul
pub assume_specification[ promisebook::isizes::checked_mul ](x: isize, y: isize) -> (r: Option<isize>)
    ensures
        r == (if isize::MIN <= x * y <= isize::MAX { Some((x * y) as isize) } else { None }),
    opens_invariants none
    no_unwind
;

// replaces std_specs/num i::checked_div
pub assume_specification[ promisebook::isizes::checked_div ](x: isize, y: isize) -> (r: Option<isize>)
    ensures
        r == (if y != 0 && !(x == isize::MIN && y == -1) { Some(rust_div(x as int, y as int) as isize) } else { None }),
    opens_invariants none
    no_unwind
;

// replaces std_specs/num i::checked_div_euclid
pub assume_specification[ promisebook::isizes::checked_div_euclid ](x: isize, y: isize) -> (r: Option<isize>)
    ensures
        r == (if y != 0 && !(x == isize::MIN && y == -1) { Some((x / y) as isize) } else { None }),
    opens_invariants none
    no_unwind
;

// replaces std_specs/num i::checked_rem
pub assume_specification[ promisebook::isizes::checked_rem ](x: isize, y: isize) -> (r: Option<isize>)
    ensures
        r == (if y != 0 && !(x == isize::MIN && y == -1) { Some(rust_rem(x as int, y as int) as isize) } else { None }),
    opens_invariants none
    no_unwind
;

// replaces std_specs/num i::checked_rem_euclid
pub assume_specification[ promisebook::isizes::checked_rem_euclid ](x: isize, y: isize) -> (r: Option<isize>)
    ensures
        r == (if y != 0 && !(x == isize::MIN && y == -1) { Some((x % y) as isize) } else { None }),
    opens_invariants none
    no_unwind
;

// replaces std_specs/num i::clone
pub assume_specification[ promisebook::isizes::clone ](x: isize) -> (r: isize)
    ensures
        r == x,
    opens_invariants none
    no_unwind
;

// replaces std_specs/num i::eq
pub assume_specification[ promisebook::isizes::eq ](x: isize, y: isize) -> (r: bool)
    ensures
        r == (x == y),
    opens_invariants none
    no_unwind
;

// replaces std_specs/num i::ne
pub assume_specification[ promisebook::isizes::ne ](x: isize, y: isize) -> (r: bool)
    ensures
        r == (x != y),
    opens_invariants none
    no_unwind
;

// replaces std_specs/num i::lt
pub assume_specification[ promisebook::isizes::lt ](x: isize, y: isize) -> (r: bool)
    ensures
        r == (x < y),
    opens_invariants none
    no_unwind
;

// replaces std_specs/num i::le
pub assume_specification[ promisebook::isizes::le ](x: isize, y: isize) -> (r: bool)
    ensures
        r == (x <= y),
    opens_invariants none
    no_unwind
;

// replaces std_specs/num i::gt
pub assume_specification[ promisebook::isizes::gt ](x: isize, y: isize) -> (r: bool)
    ensures
        r == (x > y),
    opens_invariants none
    no_unwind
;

// replaces std_specs/num i::ge
pub assume_specification[ promisebook::isizes::ge ](x: isize, y: isize) -> (r: bool)
    ensures
        r == (x >= y),
    opens_invariants none
    no_unwind
;

// replaces std_specs/num i::cmp
pub assume_specification[ promisebook::isizes::cmp ](x: isize, y: isize) -> (r: Ordering)
    ensures
        r == (if x < y { Ordering::Less } else if x > y { Ordering::Greater } else { Ordering::Equal }),
    opens_invariants none
    no_unwind
;

// replaces std_specs/num i::partial_cmp
pub assume_specification[ promisebook::isizes::partial_cmp ](x: isize, y: isize) -> (r: Option<Ordering>)
    ensures
        r == Some(if x < y { Ordering::Less } else if x > y { Ordering::Greater } else { Ordering::Equal }),
    opens_invariants none
    no_unwind
;

// beyond vstd
pub assume_specification[ promisebook::isizes::read_decimal ](s: &[u8]) -> (r: Result<isize, NotDecimal>)
    ensures
        r == (
            if !says_whole(s@) {
                Err(NotDecimal::NoNumber)
            } else if isize::MIN <= whole(s@) <= isize::MAX {
                Ok(whole(s@) as isize)
            } else {
                Err(NotDecimal::TooLarge)
            }
        ),
    opens_invariants none
    no_unwind
;

// beyond vstd, of a part
pub assume_specification[ promisebook::isizes::read_decimal_in ](s: &[u8], part: Range<usize>) -> (r: Option<Result<isize, NotDecimal>>)
    ensures
        r == (
            if is_part(s@, part) {
                Some(
                    if !says_whole(part_of(s@, part)) {
                        Err(NotDecimal::NoNumber)
                    } else if isize::MIN <= whole(part_of(s@, part)) <= isize::MAX {
                        Ok(whole(part_of(s@, part)) as isize)
                    } else {
                        Err(NotDecimal::TooLarge)
                    }
                )
            } else {
                None
            }
        ),
    opens_invariants none
    no_unwind
;

// beyond vstd
pub assume_specification[ promisebook::isizes::write_decimal ](s: &mut [u8], x: isize) -> (r: Option<usize>)
    ensures
        r == (if decimal(x as int).len() <= old(s)@.len() { Some(decimal(x as int).len() as usize) } else { None }),
        final(s)@ == (if r is Some { begun(old(s)@, decimal(x as int)) } else { old(s)@ }),
    opens_invariants none
    no_unwind
;

// beyond vstd, of a part
pub assume_specification[ promisebook::isizes::write_decimal_in ](s: &mut [u8], part: Range<usize>, x: isize) -> (r: Option<usize>)
    ensures
        r == (if is_part(old(s)@, part) && decimal(x as int).len() <= part_of(old(s)@, part).len() { Some(decimal(x as int).len() as usize) } else { None }),
        final(s)@ == (if r is Some { with_part(old(s)@, part, begun(part_of(old(s)@, part), decimal(x as int))) } else { old(s)@ }),
    opens_invariants none
    no_unwind
;

// ---- bytes

// replaces slice <[T]>::len
pub assume_specification[ promisebook::bytes::len ](s: &[u8]) -> (r: usize)
    ensures
        r == s@.len() as usize,
    opens_invariants none
    no_unwind
;

// replaces slice <[T]>::len, of a part
pub assume_specification[ promisebook::bytes::len_in ](s: &[u8], part: Range<usize>) -> (r: Option<usize>)
    ensures
        r == (if is_part(s@, part) { Some(part_of(s@, part).len() as usize) } else { None }),
    opens_invariants none
    no_unwind
;

// replaces slice <[T]>::is_empty
pub assume_specification[ promisebook::bytes::is_empty ](s: &[u8]) -> (r: bool)
    ensures
        r == (s@.len() == 0),
    opens_invariants none
    no_unwind
;

// replaces slice <[T]>::is_empty, of a part
pub assume_specification[ promisebook::bytes::is_empty_in ](s: &[u8], part: Range<usize>) -> (r: Option<bool>)
    ensures
        r == (if is_part(s@, part) { Some(part_of(s@, part).len() == 0) } else { None }),
    opens_invariants none
    no_unwind
;

// replaces std_specs/slice <usize as SliceIndex>::get
pub assume_specification[ promisebook::bytes::get ](s: &[u8], i: usize) -> (r: Option<u8>)
    ensures
        r == (if i < s@.len() { Some(s@[i as int]) } else { None }),
    opens_invariants none
    no_unwind
;

// replaces std_specs/slice <usize as SliceIndex>::get, of a part
pub assume_specification[ promisebook::bytes::get_in ](s: &[u8], part: Range<usize>, i: usize) -> (r: Option<u8>)
    ensures
        r == (if is_part(s@, part) && i < part_of(s@, part).len() { Some(part_of(s@, part)[i as int]) } else { None }),
    opens_invariants none
    no_unwind
;

// replaces std_specs/slice <[T]>::first
pub assume_specification[ promisebook::bytes::first ](s: &[u8]) -> (r: Option<u8>)
    ensures
        r == (if s@.len() > 0 { Some(s@[0]) } else { None }),
    opens_invariants none
    no_unwind
;

// replaces std_specs/slice <[T]>::first, of a part
pub assume_specification[ promisebook::bytes::first_in ](s: &[u8], part: Range<usize>) -> (r: Option<u8>)
    ensures
        r == (if is_part(s@, part) && part_of(s@, part).len() > 0 { Some(part_of(s@, part)[0]) } else { None }),
    opens_invariants none
    no_unwind
;

// replaces std_specs/slice <[T]>::last
pub assume_specification[ promisebook::bytes::last ](s: &[u8]) -> (r: Option<u8>)
    ensures
        r == (if s@.len() > 0 { Some(s@.last()) } else { None }),
    opens_invariants none
    no_unwind
;

// replaces std_specs/slice <[T]>::last, of a part
pub assume_specification[ promisebook::bytes::last_in ](s: &[u8], part: Range<usize>) -> (r: Option<u8>)
    ensures
        r == (if is_part(s@, part) && part_of(s@, part).len() > 0 { Some(part_of(s@, part).last()) } else { None }),
    opens_invariants none
    no_unwind
;

// replaces std_specs/slice <Range<usize> as SliceIndex>::get
pub assume_specification[ promisebook::bytes::sub_range ](s: &[u8], range: Range<usize>) -> (r: Option<&[u8]>)
    ensures
        r is Some <==> range.start <= range.end <= s@.len(),
        r matches Some(v) ==> v@ == s@.subrange(range.start as int, range.end as int),
    opens_invariants none
    no_unwind
;

// replaces std_specs/slice <Range<usize> as SliceIndex>::get, of a part
pub assume_specification[ promisebook::bytes::sub_range_in ](s: &[u8], part: Range<usize>, range: Range<usize>) -> (r: Option<Range<usize>>)
    ensures
        r is Some <==> is_part(s@, part) && range.start <= range.end <= part_of(s@, part).len(),
        r matches Some(v) ==> v.start == part.start + range.start && v.end == part.start + range.end,
    opens_invariants none
    no_unwind
;

// replaces std_specs/slice <[T]>::split_at
pub assume_specification[ promisebook::bytes::split_at ](s: &[u8], m: usize) -> (r: Option<(&[u8], &[u8])>)
    ensures
        r is Some <==> m <= s@.len(),
        r matches Some((a, b)) ==> a@ == s@.subrange(0, m as int) && b@ == s@.subrange(m as int, s@.len() as int),
    opens_invariants none
    no_unwind
;

// replaces std_specs/slice <[T]>::split_at, of a part
pub assume_specification[ promisebook::bytes::split_at_in ](s: &[u8], part: Range<usize>, m: usize) -> (r: Option<(Range<usize>, Range<usize>)>)
    ensures
        r is Some <==> is_part(s@, part) && m <= part_of(s@, part).len(),
        r matches Some((a, b)) ==> a.start == part.start && a.end == part.start + m && b.start == part.start + m && b.end == part.end,
    opens_invariants none
    no_unwind
;

// replaces std_specs/slice <[T]>::split_first
pub assume_specification[ promisebook::bytes::split_first ](s: &[u8]) -> (r: Option<(u8, &[u8])>)
    ensures
        r is Some <==> s@.len() > 0,
        r matches Some((a, b)) ==> a == s@[0] && b@ == s@.subrange(1, s@.len() as int),
    opens_invariants none
    no_unwind
;

// replaces std_specs/slice <[T]>::split_first, of a part
pub assume_specification[ promisebook::bytes::split_first_in ](s: &[u8], part: Range<usize>) -> (r: Option<(u8, Range<usize>)>)
    ensures
        r is Some <==> is_part(s@, part) && part_of(s@, part).len() > 0,
        r matches Some((a, b)) ==> a == part_of(s@, part)[0] && b.start == part.start + 1 && b.end == part.end,
    opens_invariants none
    no_unwind
;

// replaces std_specs/slice <[T]>::chunks
pub assume_specification[ promisebook::bytes::next_piece ](s: &[u8], n: usize) -> (r: Option<(&[u8], &[u8])>)
    ensures
        r is Some <==> s@.len() > 0 && n > 0,
        r matches Some((a, b)) ==> a@ == s@.subrange(0, min(n as int, s@.len() as int) as int)
            && b@ == s@.subrange(min(n as int, s@.len() as int) as int, s@.len() as int),
    opens_invariants none
    no_unwind
;

// replaces std_specs/slice <[T]>::chunks, of a part
pub assume_specification[ promisebook::bytes::next_piece_in ](s: &[u8], part: Range<usize>, n: usize) -> (r: Option<(Range<usize>, Range<usize>)>)
    ensures
        r is Some <==> is_part(s@, part) && part_of(s@, part).len() > 0 && n > 0,
        r matches Some((a, b)) ==> a.start == part.start && a.end == part.start + min(n as int, part_of(s@, part).len() as int)
            && b.start == part.start + min(n as int, part_of(s@, part).len() as int) && b.end == part.end,
    opens_invariants none
    no_unwind
;

// replaces std_specs/slice <[T]>::starts_with
pub assume_specification[ promisebook::bytes::starts_with ](s: &[u8], needle: &[u8]) -> (r: bool)
    ensures
        r == (needle@.len() <= s@.len() && s@.subrange(0, needle@.len() as int) == needle@),
    opens_invariants none
    no_unwind
;

// replaces std_specs/slice <[T]>::starts_with, of a part
pub assume_specification[ promisebook::bytes::starts_with_in ](s: &[u8], part: Range<usize>, needle: &[u8]) -> (r: Option<bool>)
    ensures
        r == (
            if is_part(s@, part) {
                Some(needle@.len() <= part_of(s@, part).len() && part_of(s@, part).subrange(0, needle@.len() as int) == needle@)
            } else {
                None
            }
        ),
    opens_invariants none
    no_unwind
;

// replaces std_specs/slice <[T]>::ends_with
pub assume_specification[ promisebook::bytes::ends_with ](s: &[u8], needle: &[u8]) -> (r: bool)
    ensures
        r == (needle@.len() <= s@.len() && s@.subrange(s@.len() - needle@.len(), s@.len() as int) == needle@),
    opens_invariants none
    no_unwind
;

// replaces std_specs/slice <[T]>::ends_with, of a part
pub assume_specification[ promisebook::bytes::ends_with_in ](s: &[u8], part: Range<usize>, needle: &[u8]) -> (r: Option<bool>)
    ensures
        r == (
            if is_part(s@, part) {
                Some(
                    needle@.len() <= part_of(s@, part).len()
                        && part_of(s@, part).subrange(part_of(s@, part).len() - needle@.len(), part_of(s@, part).len() as int) == needle@
                )
            } else {
                None
            }
        ),
    opens_invariants none
    no_unwind
;

// replaces std_specs/slice <[T]>::contains
pub assume_specification[ promisebook::bytes::contains ](s: &[u8], v: u8) -> (r: bool)
    ensures
        r == s@.contains(v),
    opens_invariants none
    no_unwind
;

// replaces std_specs/slice <[T]>::contains, of a part
pub assume_specification[ promisebook::bytes::contains_in ](s: &[u8], part: Range<usize>, v: u8) -> (r: Option<bool>)
    ensures
        r == (if is_part(s@, part) { Some(part_of(s@, part).contains(v)) } else { None }),
    opens_invariants none
    no_unwind
;

// replaces std_specs/slice <[T] as PartialEq>::eq
pub assume_specification[ promisebook::bytes::equal ](s: &[u8], other: &[u8]) -> (r: bool)
    ensures
        r == (s@ == other@),
    opens_invariants none
    no_unwind
;

// replaces std_specs/slice <[T] as PartialEq>::eq, of a part
pub assume_specification[ promisebook::bytes::equal_in ](s: &[u8], part: Range<usize>, other: &[u8]) -> (r: Option<bool>)
    ensures
        r == (if is_part(s@, part) { Some(part_of(s@, part) == other@) } else { None }),
    opens_invariants none
    no_unwind
;

// replaces std_specs/slice <usize as SliceIndex>::get_mut
pub assume_specification[ promisebook::bytes::set ](s: &mut [u8], i: usize, v: u8) -> (r: Option<()>)
    ensures
        r == (if i < old(s)@.len() { Some(()) } else { None }),
        final(s)@ == (if r is Some { old(s)@.update(i as int, v) } else { old(s)@ }),
    opens_invariants none
    no_unwind
;

// replaces std_specs/slice <usize as SliceIndex>::get_mut, of a part
pub assume_specification[ promisebook::bytes::set_in ](s: &mut [u8], part: Range<usize>, i: usize, v: u8) -> (r: Option<()>)
    ensures
        r == (if is_part(old(s)@, part) && i < part_of(old(s)@, part).len() { Some(()) } else { None }),
        final(s)@ == (if r is Some { with_part(old(s)@, part, part_of(old(s)@, part).update(i as int, v)) } else { old(s)@ }),
    opens_invariants none
    no_unwind
;

// replaces std_specs/slice <[T]>::reverse
pub assume_specification[ promisebook::bytes::reverse ](s: &mut [u8])
    ensures
        final(s)@ == old(s)@.reverse(),
    opens_invariants none
    no_unwind
;

// replaces std_specs/slice <[T]>::reverse, of a part
pub assume_specification[ promisebook::bytes::reverse_in ](s: &mut [u8], part: Range<usize>) -> (r: Option<()>)
    ensures
        r == (if is_part(old(s)@, part) { Some(()) } else { None }),
        final(s)@ == (if r is Some { with_part(old(s)@, part, part_of(old(s)@, part).reverse()) } else { old(s)@ }),
    opens_invariants none
    no_unwind
;

// replaces std_specs/slice <[T]>::copy_from_slice
pub assume_specification[ promisebook::bytes::copy_from ](s: &mut [u8], other: &[u8]) -> (r: Option<()>)
    ensures
        r == (if other@.len() == old(s)@.len() { Some(()) } else { None }),
        final(s)@ == (if r is Some { other@ } else { old(s)@ }),
    opens_invariants none
    no_unwind
;

// replaces std_specs/slice <[T]>::copy_from_slice, of a part
pub assume_specification[ promisebook::bytes::copy_from_in ](s: &mut [u8], part: Range<usize>, other: &[u8]) -> (r: Option<()>)
    ensures
        r == (if is_part(old(s)@, part) && other@.len() == part_of(old(s)@, part).len() { Some(()) } else { None }),
        final(s)@ == (if r is Some { with_part(old(s)@, part, other@) } else { old(s)@ }),
    opens_invariants none
    no_unwind
;

// replaces std_specs/slice <[T]>::copy_within
pub assume_specification[ promisebook::bytes::copy_within ](s: &mut [u8], range: Range<usize>, at: usize) -> (r: Option<()>)
    ensures
        r == (if range.start <= range.end <= old(s)@.len() && at + (range.end - range.start) <= old(s)@.len() { Some(()) } else { None }),
        final(s)@ == (if r is Some { copy_within_result(old(s)@, range.start as int, range.end as int, at as int) } else { old(s)@ }),
    opens_invariants none
    no_unwind
;

// replaces std_specs/slice <[T]>::copy_within, of a part
pub assume_specification[ promisebook::bytes::copy_within_in ](s: &mut [u8], part: Range<usize>, range: Range<usize>, at: usize) -> (r: Option<()>)
    ensures
        r == (
            if is_part(old(s)@, part) && range.start <= range.end <= part_of(old(s)@, part).len()
                && at + (range.end - range.start) <= part_of(old(s)@, part).len() {
                Some(())
            } else {
                None
            }
        ),
        final(s)@ == (
            if r is Some {
                with_part(old(s)@, part, copy_within_result(part_of(old(s)@, part), range.start as int, range.end as int, at as int))
            } else {
                old(s)@
            }
        ),
    opens_invariants none
    no_unwind
;

// ---- text

// replaces std_specs/char char::len_utf8
pub assume_specification[ promisebook::text::scalar_len ](c: u32) -> (r: Option<usize>)
    ensures
        r == (if is_scalar(c) { Some(encode_scalar(c).len() as usize) } else { None }),
    opens_invariants none
    no_unwind
;

// replaces std_specs/char char::is_whitespace
pub assume_specification[ promisebook::text::is_white_space ](c: u32) -> (r: bool)
    ensures
        r == (is_scalar(c) && is_white_space(c as char)),
    opens_invariants none
    no_unwind
;

// computes utf8 encode_scalar
pub assume_specification[ promisebook::text::write ](out: &mut [u8], c: u32) -> (r: Option<usize>)
    ensures
        r == (if is_scalar(c) && encode_scalar(c).len() <= old(out)@.len() { Some(encode_scalar(c).len() as usize) } else { None }),
        final(out)@ == (if r is Some { begun(old(out)@, encode_scalar(c)) } else { old(out)@ }),
    opens_invariants none
    no_unwind
;

// computes utf8 encode_scalar, of a part
pub assume_specification[ promisebook::text::write_in ](out: &mut [u8], part: Range<usize>, c: u32) -> (r: Option<usize>)
    ensures
        r == (
            if is_part(old(out)@, part) && is_scalar(c) && encode_scalar(c).len() <= part_of(old(out)@, part).len() {
                Some(encode_scalar(c).len() as usize)
            } else {
                None
            }
        ),
        final(out)@ == (if r is Some { with_part(old(out)@, part, begun(part_of(old(out)@, part), encode_scalar(c))) } else { old(out)@ }),
    opens_invariants none
    no_unwind
;

// computes utf8 decode_first_scalar
pub assume_specification[ promisebook::text::read_first ](s: &[u8]) -> (r: Option<Read>)
    ensures
        r is Some <==> valid_first_scalar(s@),
        r matches Some(v) ==> v.value == decode_first_scalar(s@) && v.length == length_of_first_scalar(s@) as usize,
    opens_invariants none
    no_unwind
;

// computes utf8 decode_first_scalar, of a part
pub assume_specification[ promisebook::text::read_first_in ](s: &[u8], part: Range<usize>) -> (r: Option<Read>)
    ensures
        r is Some <==> is_part(s@, part) && valid_first_scalar(part_of(s@, part)),
        r matches Some(v) ==> v.value == decode_first_scalar(part_of(s@, part)) && v.length == length_of_first_scalar(part_of(s@, part)) as usize,
    opens_invariants none
    no_unwind
;

// computes utf8 decode_last_scalar
pub assume_specification[ promisebook::text::read_last ](s: &[u8]) -> (r: Option<Read>)
    ensures
        r is Some <==> length_at_end(s@) > 0,
        r matches Some(v) ==> v.value == scalar_at_end(s@) && v.length == length_at_end(s@) as usize
            && (valid_utf8(s@) ==> v.value == decode_last_scalar(s@) && v.length == length_of_last_scalar(s@)),
    opens_invariants none
    no_unwind
;

// computes utf8 decode_last_scalar, of a part
pub assume_specification[ promisebook::text::read_last_in ](s: &[u8], part: Range<usize>) -> (r: Option<Read>)
    ensures
        r is Some <==> is_part(s@, part) && length_at_end(part_of(s@, part)) > 0,
        r matches Some(v) ==> v.value == scalar_at_end(part_of(s@, part)) && v.length == length_at_end(part_of(s@, part)) as usize
            && (valid_utf8(part_of(s@, part)) ==> v.value == decode_last_scalar(part_of(s@, part)) && v.length == length_of_last_scalar(part_of(s@, part))),
    opens_invariants none
    no_unwind
;

// computes utf8 valid_utf8
pub assume_specification[ promisebook::text::valid ](s: &[u8]) -> (r: bool)
    ensures
        r == valid_utf8(s@),
    opens_invariants none
    no_unwind
;

// computes utf8 valid_utf8, of a part
pub assume_specification[ promisebook::text::valid_in ](s: &[u8], part: Range<usize>) -> (r: Option<bool>)
    ensures
        r == (if is_part(s@, part) { Some(valid_utf8(part_of(s@, part))) } else { None }),
    opens_invariants none
    no_unwind
;

// computes utf8 decode_utf8
pub assume_specification[ promisebook::text::count ](s: &[u8]) -> (r: Option<usize>)
    ensures
        r == (if valid_utf8(s@) { Some(decode_utf8(s@).len() as usize) } else { None }),
    opens_invariants none
    no_unwind
;

// computes utf8 decode_utf8, of a part
pub assume_specification[ promisebook::text::count_in ](s: &[u8], part: Range<usize>) -> (r: Option<usize>)
    ensures
        r == (if is_part(s@, part) && valid_utf8(part_of(s@, part)) { Some(decode_utf8(part_of(s@, part)).len() as usize) } else { None }),
    opens_invariants none
    no_unwind
;

// computes utf8 is_char_boundary
pub assume_specification[ promisebook::text::is_boundary ](s: &[u8], at: usize) -> (r: Option<bool>)
    ensures
        r == (if valid_utf8(s@) { Some(is_char_boundary(s@, at as int)) } else { None }),
    opens_invariants none
    no_unwind
;

// computes utf8 is_char_boundary, of a part
pub assume_specification[ promisebook::text::is_boundary_in ](s: &[u8], part: Range<usize>, at: usize) -> (r: Option<bool>)
    ensures
        r == (if is_part(s@, part) && valid_utf8(part_of(s@, part)) { Some(is_char_boundary(part_of(s@, part), at as int)) } else { None }),
    opens_invariants none
    no_unwind
;

// computes utf8 valid_utf8_split
pub assume_specification[ promisebook::text::split_at ](s: &[u8], at: usize) -> (r: Option<(&[u8], &[u8])>)
    ensures
        r is Some <==> valid_utf8(s@) && is_char_boundary(s@, at as int),
        r matches Some((a, b)) ==> a@ == s@.subrange(0, at as int) && b@ == s@.subrange(at as int, s@.len() as int),
    opens_invariants none
    no_unwind
;

// computes utf8 valid_utf8_split, of a part
pub assume_specification[ promisebook::text::split_at_in ](s: &[u8], part: Range<usize>, at: usize) -> (r: Option<(Range<usize>, Range<usize>)>)
    ensures
        r is Some <==> is_part(s@, part) && valid_utf8(part_of(s@, part)) && is_char_boundary(part_of(s@, part), at as int),
        r matches Some((a, b)) ==> a.start == part.start && a.end == part.start + at && b.start == part.start + at && b.end == part.end,
    opens_invariants none
    no_unwind
;

// computes utf8 is_ascii_chars
pub assume_specification[ promisebook::text::is_ascii ](s: &[u8]) -> (r: bool)
    ensures
        r == is_ascii_bytes(s@),
        (valid_utf8(s@) ==> r == is_ascii_chars(decode_utf8(s@))),
    opens_invariants none
    no_unwind
;

// computes utf8 is_ascii_chars, of a part
pub assume_specification[ promisebook::text::is_ascii_in ](s: &[u8], part: Range<usize>) -> (r: Option<bool>)
    ensures
        r is Some <==> is_part(s@, part),
        r matches Some(v) ==> v == is_ascii_bytes(part_of(s@, part)) && (valid_utf8(part_of(s@, part)) ==> v == is_ascii_chars(decode_utf8(part_of(s@, part)))),
    opens_invariants none
    no_unwind
;

// computes utf8 partial_valid_utf8
pub assume_specification[ promisebook::text::valid_up_to ](s: &[u8]) -> (r: usize)
    ensures
        partial_valid_utf8(s@, r as int) && (forall|i: int| r < i <= s@.len() ==> !(#[trigger] partial_valid_utf8(s@, i))),
    opens_invariants none
    no_unwind
;

// computes utf8 partial_valid_utf8, of a part
pub assume_specification[ promisebook::text::valid_up_to_in ](s: &[u8], part: Range<usize>) -> (r: Option<usize>)
    ensures
        r is Some <==> is_part(s@, part),
        r matches Some(v) ==> partial_valid_utf8(part_of(s@, part), v as int)
            && (forall|i: int| v < i <= part_of(s@, part).len() ==> !(#[trigger] partial_valid_utf8(part_of(s@, part), i))),
    opens_invariants none
    no_unwind
;

} // verus!
