//! Operations on u8, the unsigned numbers of 8 bits: 0 to 255.

use crate::exported;
use crate::ordering;
use crate::{not_decimal, NotDecimal};
use core::cmp::Ordering;
use core::ops::Range;

/// The sum `x + y`, wrapped: the unsigned number of 8 bits that differs from it by a multiple of 2^8.
///
/// ```
/// use promisebook::u8s;
/// assert_eq!(u8s::wrapping_add(200, 100), 44);
/// assert_eq!(u8s::wrapping_add(100, 100), 200);
/// ```
///
/// Cited by rows A1; clause vstd_integers/Unsigned.wrapping_add; contract promisebook_u8::pb_u8_wrapping_add; law
/// vstd_integers/Unsigned.wrapping_add_kept; pinned by vstd_integers/Pinned.pinned_unsigned; refused
/// unsigned_sums/wrapping_add.one_too_few, sum_of_255_wraps.
#[inline]
#[must_use]
pub fn wrapping_add(x: u8, y: u8) -> u8 {
    exported::pb_u8_wrapping_add(x, y)
}

/// The sum `x + y`, wrapped: the unsigned number of 8 bits that differs from it by a multiple of 2^8.
///
/// ```
/// use promisebook::u8s;
/// assert_eq!(u8s::wrapping_add_signed(3, -5), 254);
/// assert_eq!(u8s::wrapping_add_signed(200, -100), 100);
/// assert_eq!(u8s::wrapping_add_signed(200, 100), 44);
/// ```
///
/// Cited by rows A2; clause vstd_integers/Unsigned.wrapping_add_signed; contract
/// promisebook_u8::pb_u8_wrapping_add_signed; law vstd_integers/Unsigned.wrapping_add_signed_kept; pinned by
/// vstd_integers/Pinned.pinned_unsigned; refused signed_sums/wrapping_add_signed.other_summand, subtracts.
#[inline]
#[must_use]
pub fn wrapping_add_signed(x: u8, y: i8) -> u8 {
    exported::pb_u8_wrapping_add_signed(x, y)
}

/// The difference `x - y`, wrapped: the unsigned number of 8 bits that differs from it by a multiple of 2^8.
///
/// ```
/// use promisebook::u8s;
/// assert_eq!(u8s::wrapping_sub(3, 5), 254);
/// assert_eq!(u8s::wrapping_sub(5, 3), 2);
/// ```
///
/// Cited by rows A3; clause vstd_integers/Unsigned.wrapping_sub; contract promisebook_u8::pb_u8_wrapping_sub; law
/// vstd_integers/Unsigned.wrapping_sub_kept; pinned by vstd_integers/Pinned.pinned_unsigned; refused
/// unsigned_sums/wrapping_sub.one_too_many, zero_borrows.
#[inline]
#[must_use]
pub fn wrapping_sub(x: u8, y: u8) -> u8 {
    exported::pb_u8_wrapping_sub(x, y)
}

/// The product `x * y`, wrapped: the unsigned number of 8 bits that differs from it by a multiple of 2^8.
///
/// ```
/// use promisebook::u8s;
/// assert_eq!(u8s::wrapping_mul(16, 17), 16);
/// assert_eq!(u8s::wrapping_mul(15, 17), 255);
/// assert_eq!(u8s::wrapping_mul(15, 15), 225);
/// ```
///
/// Cited by rows A4; clause vstd_integers/Unsigned.wrapping_mul; contract promisebook_u8::pb_u8_wrapping_mul; law
/// vstd_integers/Unsigned.wrapping_mul_kept; pinned by vstd_integers/Pinned.pinned_unsigned; refused
/// unsigned_sums/wrapping_mul.square, integers/wrapping_mul.modulo_255, integers/product.one_cross_product_twice,
/// upper_half_left_out.
#[inline]
#[must_use]
pub fn wrapping_mul(x: u8, y: u8) -> u8 {
    exported::pb_u8_wrapping_mul(x, y)
}

/// `x` shifted to the left by `rhs` modulo 8: zeros come in, and what leaves the 8 bits is lost.
///
/// ```
/// use promisebook::u8s;
/// assert_eq!(u8s::wrapping_shl(1, 9), 2);
/// assert_eq!(u8s::wrapping_shl(3, 7), 128);
/// ```
///
/// Cited by rows A5; clause vstd_integers/Unsigned.wrapping_shl; contract promisebook_u8::pb_u8_wrapping_shl; law
/// vstd_integers/Unsigned.wrapping_shl_kept; pinned by vstd_integers/Pinned.pinned_unsigned; refused
/// unsigned_bits/wrapping_shl.by_the_width_is_0, modulo_7.
#[inline]
#[must_use]
pub fn wrapping_shl(x: u8, rhs: u32) -> u8 {
    exported::pb_u8_wrapping_shl(x, rhs)
}

/// `x` shifted to the right by `rhs` modulo 8: zeros come in.
///
/// ```
/// use promisebook::u8s;
/// assert_eq!(u8s::wrapping_shr(128, 15), 1);
/// ```
///
/// Cited by rows A6; clause vstd_integers/Unsigned.wrapping_shr; contract promisebook_u8::pb_u8_wrapping_shr; law
/// vstd_integers/Unsigned.wrapping_shr_kept; pinned by vstd_integers/Pinned.pinned_unsigned; refused
/// unsigned_bits/wrapping_shr.by_the_width_is_0, modulo_7.
#[inline]
#[must_use]
pub fn wrapping_shr(x: u8, rhs: u32) -> u8 {
    exported::pb_u8_wrapping_shr(x, rhs)
}

/// The sum `x + y`. Refused where it is not from 0 to 255.
///
/// ```
/// use promisebook::u8s;
/// assert_eq!(u8s::checked_add(200, 100), None);
/// assert_eq!(u8s::checked_add(100, 100), Some(200));
/// ```
///
/// Cited by rows A7; clause vstd_integers/Unsigned.checked_add; contract promisebook_u8::pb_u8_checked_add; law
/// vstd_integers/Unsigned.checked_add_kept; pinned by vstd_integers/Pinned.pinned_unsigned_option; refused
/// unsigned_sums/checked_add.second_summand_alone, sum_of_255_refused, vstd_integers/checked_add.largest_refused.
#[inline]
#[must_use]
pub fn checked_add(x: u8, y: u8) -> Option<u8> {
    let answer = exported::pb_u8_checked_add(x, y);
    answer.ok.then_some(answer.value)
}

/// The sum `x + y`. Refused where it is not from 0 to 255.
///
/// ```
/// use promisebook::u8s;
/// assert_eq!(u8s::checked_add_signed(3, -5), None);
/// assert_eq!(u8s::checked_add_signed(200, -100), Some(100));
/// assert_eq!(u8s::checked_add_signed(200, 100), None);
/// ```
///
/// Cited by rows A8; clause vstd_integers/Unsigned.checked_add_signed; contract
/// promisebook_u8::pb_u8_checked_add_signed; law vstd_integers/Unsigned.checked_add_signed_kept; pinned by
/// vstd_integers/Pinned.pinned_unsigned_option; refused signed_sums/checked_add_signed.first_summand, other_side.
#[inline]
#[must_use]
pub fn checked_add_signed(x: u8, y: i8) -> Option<u8> {
    let answer = exported::pb_u8_checked_add_signed(x, y);
    answer.ok.then_some(answer.value)
}

/// The difference `x - y`. Refused where it is not from 0 to 255.
///
/// ```
/// use promisebook::u8s;
/// assert_eq!(u8s::checked_sub(3, 5), None);
/// assert_eq!(u8s::checked_sub(5, 3), Some(2));
/// ```
///
/// Cited by rows A9; clause vstd_integers/Unsigned.checked_sub; contract promisebook_u8::pb_u8_checked_sub; law
/// vstd_integers/Unsigned.checked_sub_kept; pinned by vstd_integers/Pinned.pinned_unsigned_option; refused
/// unsigned_sums/checked_sub.nothing_taken, other_way_round.
#[inline]
#[must_use]
pub fn checked_sub(x: u8, y: u8) -> Option<u8> {
    let answer = exported::pb_u8_checked_sub(x, y);
    answer.ok.then_some(answer.value)
}

/// The product `x * y`. Refused where it is not from 0 to 255.
///
/// ```
/// use promisebook::u8s;
/// assert_eq!(u8s::checked_mul(16, 17), None);
/// assert_eq!(u8s::checked_mul(15, 17), Some(255));
/// assert_eq!(u8s::checked_mul(15, 15), Some(225));
/// ```
///
/// Cited by rows A10; clause vstd_integers/Unsigned.checked_mul; contract promisebook_u8::pb_u8_checked_mul; law
/// vstd_integers/Unsigned.checked_mul_kept; pinned by vstd_integers/Pinned.pinned_unsigned_option; refused
/// unsigned_sums/checked_mul.larger_quotient_taken, square.
#[inline]
#[must_use]
pub fn checked_mul(x: u8, y: u8) -> Option<u8> {
    let answer = exported::pb_u8_checked_mul(x, y);
    answer.ok.then_some(answer.value)
}

/// The smallest multiple of `y` that is at least `x`. Refused where `y` is 0 or the multiple is above 255.
///
/// ```
/// use promisebook::u8s;
/// assert_eq!(u8s::checked_next_multiple_of(250, 7), Some(252));
/// assert_eq!(u8s::checked_next_multiple_of(250, 16), None);
/// assert_eq!(u8s::checked_next_multiple_of(7, 0), None);
/// ```
///
/// Cited by rows A11; clause vstd_integers/Unsigned.checked_next_multiple_of; contract
/// promisebook_u8::pb_u8_checked_next_multiple_of; law vstd_integers/Unsigned.checked_next_multiple_of_kept;
/// pinned by vstd_integers/Pinned.pinned_unsigned_option; refused
/// unsigned_division/checked_next_multiple_of.always_a_multiple, first_multiple,
/// vstd_integers/checked_next_multiple_of.zero_not_refused, promisebook_u8/checked_next_multiple_of.nine_bits.
#[inline]
#[must_use]
pub fn checked_next_multiple_of(x: u8, y: u8) -> Option<u8> {
    let answer = exported::pb_u8_checked_next_multiple_of(x, y);
    answer.ok.then_some(answer.value)
}

/// The quotient of `x` by `y`, rounded towards zero. Refused where `y` is 0.
///
/// ```
/// use promisebook::u8s;
/// assert_eq!(u8s::checked_div(7, 3), Some(2));
/// assert_eq!(u8s::checked_div(255, 10), Some(25));
/// assert_eq!(u8s::checked_div(7, 0), None);
/// ```
///
/// Cited by rows A12; clause vstd_integers/Unsigned.checked_div; contract promisebook_u8::pb_u8_checked_div; law
/// vstd_integers/Unsigned.checked_div_kept; pinned by vstd_integers/Pinned.pinned_unsigned_option; refused
/// unsigned_division/checked_div.by_zero_is_0, other_dividend.
#[inline]
#[must_use]
pub fn checked_div(x: u8, y: u8) -> Option<u8> {
    let answer = exported::pb_u8_checked_div(x, y);
    answer.ok.then_some(answer.value)
}

/// The quotient of `x` by `y` whose remainder is not negative. Refused where `y` is 0.
///
/// ```
/// use promisebook::u8s;
/// assert_eq!(u8s::checked_div_euclid(7, 3), Some(2));
/// assert_eq!(u8s::checked_div_euclid(255, 10), Some(25));
/// assert_eq!(u8s::checked_div_euclid(7, 0), None);
/// ```
///
/// Cited by rows A13; clause vstd_integers/Unsigned.checked_div; contract
/// promisebook_u8::pb_u8_checked_div_euclid; law vstd_integers/Unsigned.checked_div_euclid_kept; pinned by
/// vstd_integers/Pinned.pinned_unsigned_option; refused unsigned_division/checked_div_euclid.by_zero_is_0,
/// other_way_round.
#[inline]
#[must_use]
pub fn checked_div_euclid(x: u8, y: u8) -> Option<u8> {
    let answer = exported::pb_u8_checked_div_euclid(x, y);
    answer.ok.then_some(answer.value)
}

/// The remainder of `x` by `y`. Refused where `y` is 0.
///
/// ```
/// use promisebook::u8s;
/// assert_eq!(u8s::checked_rem(7, 3), Some(1));
/// assert_eq!(u8s::checked_rem(255, 10), Some(5));
/// assert_eq!(u8s::checked_rem(7, 0), None);
/// ```
///
/// Cited by rows A14; clause vstd_integers/Unsigned.checked_rem; contract promisebook_u8::pb_u8_checked_rem; law
/// vstd_integers/Unsigned.checked_rem_kept; pinned by vstd_integers/Pinned.pinned_unsigned_option; refused
/// unsigned_division/checked_rem.by_zero_is_dividend, other_dividend.
#[inline]
#[must_use]
pub fn checked_rem(x: u8, y: u8) -> Option<u8> {
    let answer = exported::pb_u8_checked_rem(x, y);
    answer.ok.then_some(answer.value)
}

/// The remainder of `x` by `y` that is not negative. Refused where `y` is 0.
///
/// ```
/// use promisebook::u8s;
/// assert_eq!(u8s::checked_rem_euclid(7, 3), Some(1));
/// assert_eq!(u8s::checked_rem_euclid(255, 10), Some(5));
/// assert_eq!(u8s::checked_rem_euclid(7, 0), None);
/// ```
///
/// Cited by rows A15; clause vstd_integers/Unsigned.checked_rem; contract
/// promisebook_u8::pb_u8_checked_rem_euclid; law vstd_integers/Unsigned.checked_rem_euclid_kept; pinned by
/// vstd_integers/Pinned.pinned_unsigned_option; refused unsigned_division/checked_rem_euclid.by_zero_is_dividend,
/// other_way_round.
#[inline]
#[must_use]
pub fn checked_rem_euclid(x: u8, y: u8) -> Option<u8> {
    let answer = exported::pb_u8_checked_rem_euclid(x, y);
    answer.ok.then_some(answer.value)
}

/// The sum `x + y`, or 255 where it is larger.
///
/// ```
/// use promisebook::u8s;
/// assert_eq!(u8s::saturating_add(200, 100), 255);
/// assert_eq!(u8s::saturating_add(100, 100), 200);
/// ```
///
/// Cited by rows A16; clause vstd_integers/Unsigned.saturating_add; contract
/// promisebook_u8::pb_u8_saturating_add; law vstd_integers/Unsigned.saturating_add_kept; pinned by
/// vstd_integers/Pinned.pinned_unsigned; refused unsigned_sums/saturating_add.first_summand, wraps_to_0.
#[inline]
#[must_use]
pub fn saturating_add(x: u8, y: u8) -> u8 {
    exported::pb_u8_saturating_add(x, y)
}

/// The difference `x - y`, or 0 where it is below that.
///
/// ```
/// use promisebook::u8s;
/// assert_eq!(u8s::saturating_sub(3, 5), 0);
/// assert_eq!(u8s::saturating_sub(5, 3), 2);
/// ```
///
/// Cited by rows A17; clause vstd_integers/Unsigned.saturating_sub; contract
/// promisebook_u8::pb_u8_saturating_sub; law vstd_integers/Unsigned.saturating_sub_kept; pinned by
/// vstd_integers/Pinned.pinned_unsigned; refused unsigned_sums/saturating_sub.other_side, stops_at_1,
/// promisebook_u8/saturating_sub.wraps.
#[inline]
#[must_use]
pub fn saturating_sub(x: u8, y: u8) -> u8 {
    exported::pb_u8_saturating_sub(x, y)
}

/// The product `x * y`, or 255 where it is larger.
///
/// ```
/// use promisebook::u8s;
/// assert_eq!(u8s::saturating_mul(16, 17), 255);
/// assert_eq!(u8s::saturating_mul(15, 17), 255);
/// assert_eq!(u8s::saturating_mul(15, 15), 225);
/// ```
///
/// Cited by rows A18; clause vstd_integers/Unsigned.saturating_mul; contract
/// promisebook_u8::pb_u8_saturating_mul; law vstd_integers/Unsigned.saturating_mul_kept; pinned by
/// vstd_integers/Pinned.pinned_unsigned; refused unsigned_sums/saturating_mul.square, wraps_to_0,
/// vstd_integers/saturating_mul.wraps.
#[inline]
#[must_use]
pub fn saturating_mul(x: u8, y: u8) -> u8 {
    exported::pb_u8_saturating_mul(x, y)
}

/// Whether `x` is a multiple of `y`; of 0 only 0 is.
///
/// ```
/// use promisebook::u8s;
/// assert!(u8s::is_multiple_of(252, 7));
/// assert!(!u8s::is_multiple_of(250, 7));
/// assert!(u8s::is_multiple_of(0, 0));
/// assert!(!u8s::is_multiple_of(7, 0));
/// ```
///
/// Cited by rows A19; clause vstd_integers/Unsigned.is_multiple_of; contract
/// promisebook_u8::pb_u8_is_multiple_of; law vstd_integers/Unsigned.is_multiple_of_kept; pinned by
/// vstd_integers/Pinned.pinned_equation; refused unsigned_division/is_multiple_of.all_of_zero, remainder_of_1,
/// vstd_integers/is_multiple_of.all_of_zero.
#[inline]
#[must_use]
pub fn is_multiple_of(x: u8, y: u8) -> bool {
    exported::pb_u8_is_multiple_of(x, y)
}

/// `x` itself.
///
/// ```
/// use promisebook::u8s;
/// assert_eq!(u8s::clone(255), 255);
/// assert_eq!(u8s::clone(0), 0);
/// ```
///
/// Cited by rows A35; clause vstd_integers/Compare.clone; contract promisebook_u8::pb_u8_clone; law
/// vstd_integers/Compare.clone_kept; pinned by vstd_integers/Pinned.pinned_unsigned, pinned_equation; refused
/// promisebook_u8/clone.always_0, promisebook_i8/clone.always_0.
#[inline]
#[must_use]
pub fn clone(x: u8) -> u8 {
    exported::pb_u8_clone(x)
}

/// Whether `x` and `y` are equal.
///
/// ```
/// use promisebook::u8s;
/// assert!(!u8s::eq(3, 5));
/// assert!(u8s::eq(5, 5));
/// assert!(!u8s::eq(255, 0));
/// ```
///
/// Cited by rows A36; clause vstd_integers/Compare.eq; contract promisebook_u8::pb_u8_eq; law
/// vstd_integers/Compare.eq_kept; pinned by vstd_integers/Pinned.pinned_equation; refused
/// ordering/is_eq.less_is_equal, never.
#[inline]
#[must_use]
pub fn eq(x: u8, y: u8) -> bool {
    exported::pb_u8_eq(x, y)
}

/// Whether `x` and `y` differ.
///
/// ```
/// use promisebook::u8s;
/// assert!(u8s::ne(3, 5));
/// assert!(!u8s::ne(5, 5));
/// assert!(u8s::ne(255, 0));
/// ```
///
/// Cited by rows A37; clause vstd_integers/Compare.ne; contract promisebook_u8::pb_u8_ne; law
/// vstd_integers/Compare.ne_kept; pinned by vstd_integers/Pinned.pinned_equation; refused
/// ordering/is_ne.equal_differs, greater_only.
#[inline]
#[must_use]
pub fn ne(x: u8, y: u8) -> bool {
    exported::pb_u8_ne(x, y)
}

/// Whether `x` is less than `y`.
///
/// ```
/// use promisebook::u8s;
/// assert!(u8s::lt(3, 5));
/// assert!(!u8s::lt(5, 5));
/// assert!(!u8s::lt(255, 0));
/// ```
///
/// Cited by rows A40; clause vstd_integers/Compare.lt; contract promisebook_u8::pb_u8_lt; law
/// vstd_integers/Compare.lt_kept; pinned by vstd_integers/Pinned.pinned_equation; refused
/// ordering/is_lt.equal_is_less, greater_is_less.
#[inline]
#[must_use]
pub fn lt(x: u8, y: u8) -> bool {
    exported::pb_u8_lt(x, y)
}

/// Whether `x` is less than `y` or equal to it.
///
/// ```
/// use promisebook::u8s;
/// assert!(u8s::le(3, 5));
/// assert!(u8s::le(5, 5));
/// assert!(!u8s::le(255, 0));
/// ```
///
/// Cited by rows A41; clause vstd_integers/Compare.le; contract promisebook_u8::pb_u8_le; law
/// vstd_integers/Compare.le_kept; pinned by vstd_integers/Pinned.pinned_equation; refused
/// ordering/is_le.equal_is_more, greater_is_at_most, vstd_integers/le.equal_is_more.
#[inline]
#[must_use]
pub fn le(x: u8, y: u8) -> bool {
    exported::pb_u8_le(x, y)
}

/// Whether `x` is greater than `y`.
///
/// ```
/// use promisebook::u8s;
/// assert!(!u8s::gt(3, 5));
/// assert!(!u8s::gt(5, 5));
/// assert!(u8s::gt(255, 0));
/// ```
///
/// Cited by rows A42; clause vstd_integers/Compare.gt; contract promisebook_u8::pb_u8_gt; law
/// vstd_integers/Compare.gt_kept; pinned by vstd_integers/Pinned.pinned_equation; refused
/// ordering/is_gt.equal_is_greater, less_is_greater.
#[inline]
#[must_use]
pub fn gt(x: u8, y: u8) -> bool {
    exported::pb_u8_gt(x, y)
}

/// Whether `x` is greater than `y` or equal to it.
///
/// ```
/// use promisebook::u8s;
/// assert!(!u8s::ge(3, 5));
/// assert!(u8s::ge(5, 5));
/// assert!(u8s::ge(255, 0));
/// ```
///
/// Cited by rows A43; clause vstd_integers/Compare.ge; contract promisebook_u8::pb_u8_ge; law
/// vstd_integers/Compare.ge_kept; pinned by vstd_integers/Pinned.pinned_equation; refused
/// ordering/is_ge.equal_is_less, less_is_at_least.
#[inline]
#[must_use]
pub fn ge(x: u8, y: u8) -> bool {
    exported::pb_u8_ge(x, y)
}

/// How `x` stands to `y`: less (-1), equal (0) or greater (1).
///
/// ```
/// use core::cmp::Ordering;
/// use promisebook::u8s;
/// assert_eq!(u8s::cmp(3, 5), Ordering::Less);
/// assert_eq!(u8s::cmp(5, 5), Ordering::Equal);
/// assert_eq!(u8s::cmp(255, 0), Ordering::Greater);
/// ```
///
/// Cited by rows A38; clause vstd_integers/Compare.cmp; contract promisebook_u8::pb_u8_cmp; law
/// vstd_integers/Compare.cmp_kept; pinned by vstd_integers/Pinned.pinned_equation; refused
/// ordering/number.greater_is_0, less_is_1, unsigned_order/compare.equal_is_greater, less_is_greater,
/// signed_order/compare.equal_is_greater, less_is_greater.
#[inline]
#[must_use]
pub fn cmp(x: u8, y: u8) -> Ordering {
    ordering(exported::pb_u8_cmp(x, y))
}

/// How `x` stands to `y`: less (-1), equal (0) or greater (1). Never refused.
///
/// ```
/// use core::cmp::Ordering;
/// use promisebook::u8s;
/// assert_eq!(u8s::partial_cmp(3, 5), Some(Ordering::Less));
/// assert_eq!(u8s::partial_cmp(5, 5), Some(Ordering::Equal));
/// assert_eq!(u8s::partial_cmp(255, 0), Some(Ordering::Greater));
/// ```
///
/// Cited by rows A39; clause vstd_integers/Compare.cmp; contract promisebook_u8::pb_u8_partial_cmp; law
/// vstd_integers/Compare.cmp_kept; pinned by vstd_integers/Pinned.pinned_option.
#[inline]
#[must_use]
pub fn partial_cmp(x: u8, y: u8) -> Option<Ordering> {
    let answer = exported::pb_u8_partial_cmp(x, y);
    answer.ok.then_some(ordering(answer.value))
}

/// How many bits of `i` are 0 from the highest on, up to the first 1; 8 where all are.
///
/// ```
/// use promisebook::u8s;
/// assert_eq!(u8s::leading_zeros(80), 1);
/// assert_eq!(u8s::leading_zeros(247), 0);
/// assert_eq!(u8s::leading_zeros(0), 8);
/// assert_eq!(u8s::leading_zeros(255), 0);
/// ```
///
/// Cited by rows B3; clause vstd_zeros/Zeros.vstd_leading_zeros; contract promisebook_zeros::pb_u8_leading_zeros;
/// law vstd_zeros/Zeros.vstd_leading_zeros_is; pinned by vstd_integers/Pinned.pinned_equation; refused
/// zeros/leading_zeros_u8.highest_bit_is_ignored, zero_has_one_less, vstd_zeros/leading_zeros.zero_has_one_less,
/// promisebook_zeros/leading_zeros.of_eight_bits.
#[inline]
#[must_use]
pub fn leading_zeros(i: u8) -> u32 {
    exported::pb_u8_leading_zeros(i)
}

/// How many bits of `i` are 1 from the highest on, up to the first 0; 8 where all are.
///
/// ```
/// use promisebook::u8s;
/// assert_eq!(u8s::leading_ones(80), 0);
/// assert_eq!(u8s::leading_ones(247), 4);
/// assert_eq!(u8s::leading_ones(0), 0);
/// assert_eq!(u8s::leading_ones(255), 8);
/// ```
///
/// Cited by rows B4; clause vstd_zeros/Zeros.vstd_leading_ones; contract promisebook_zeros::pb_u8_leading_ones;
/// law vstd_zeros/Zeros.vstd_leading_ones_is; pinned by vstd_integers/Pinned.pinned_equation; refused
/// zeros/leading_ones_u8.highest_bit_counts_as_one, zeros_are_counted, promisebook_zeros/leading_ones.zeros.
#[inline]
#[must_use]
pub fn leading_ones(i: u8) -> u32 {
    exported::pb_u8_leading_ones(i)
}

/// How many bits of `i` are 0 from the lowest on, up to the first 1; 8 where all are.
///
/// ```
/// use promisebook::u8s;
/// assert_eq!(u8s::trailing_zeros(80), 4);
/// assert_eq!(u8s::trailing_zeros(247), 0);
/// assert_eq!(u8s::trailing_zeros(0), 8);
/// assert_eq!(u8s::trailing_zeros(255), 0);
/// ```
///
/// Cited by rows B1; clause vstd_zeros/Zeros.vstd_trailing_zeros; contract
/// promisebook_zeros::pb_u8_trailing_zeros; law vstd_zeros/Zeros.vstd_trailing_zeros_is; pinned by
/// vstd_integers/Pinned.pinned_equation; refused zeros/trailing_zeros_u8.lowest_bit_is_ignored,
/// zero_has_one_less, vstd_zeros/trailing_zeros.ones_are_counted.
#[inline]
#[must_use]
pub fn trailing_zeros(i: u8) -> u32 {
    exported::pb_u8_trailing_zeros(i)
}

/// How many bits of `i` are 1 from the lowest on, up to the first 0; 8 where all are.
///
/// ```
/// use promisebook::u8s;
/// assert_eq!(u8s::trailing_ones(80), 0);
/// assert_eq!(u8s::trailing_ones(247), 3);
/// assert_eq!(u8s::trailing_ones(0), 0);
/// assert_eq!(u8s::trailing_ones(255), 8);
/// ```
///
/// Cited by rows B2; clause vstd_zeros/Zeros.vstd_trailing_ones; contract promisebook_zeros::pb_u8_trailing_ones;
/// law vstd_zeros/Zeros.vstd_trailing_ones_is; pinned by vstd_integers/Pinned.pinned_equation; refused
/// zeros/trailing_ones_u8.lowest_bit_counts_as_one, zeros_are_counted, vstd_zeros/trailing_ones.of_the_number.
#[inline]
#[must_use]
pub fn trailing_ones(i: u8) -> u32 {
    exported::pb_u8_trailing_ones(i)
}

/// The number that `s` says in decimal: one figure or more from 0 to 9, without a sign. Zeros in front are read,
/// and '+' is not. Refused with the reason where it says no number, and where that is above 255.
///
/// ```
/// use promisebook::{u8s, NotDecimal};
/// assert_eq!(u8s::read_decimal(b"255"), Ok(255));
/// assert_eq!(u8s::read_decimal(b"256"), Err(NotDecimal::TooLarge));
/// assert_eq!(u8s::read_decimal(b"0"), Ok(0));
/// assert_eq!(u8s::read_decimal(b"-1"), Err(NotDecimal::NoNumber));
/// assert_eq!(u8s::read_decimal(b"007"), Ok(7));
/// assert_eq!(u8s::read_decimal(b"-0"), Err(NotDecimal::NoNumber));
/// assert_eq!(u8s::read_decimal(b"+5"), Err(NotDecimal::NoNumber));
/// assert_eq!(u8s::read_decimal(b"-"), Err(NotDecimal::NoNumber));
/// assert_eq!(u8s::read_decimal(b""), Err(NotDecimal::NoNumber));
/// assert_eq!(u8s::read_decimal(b"42"), Ok(42));
/// assert_eq!(u8s::read_decimal(b"=42"), Err(NotDecimal::NoNumber));
/// ```
///
/// Cited by rows F6; clause theory_decimal/Read.natural_in, read_in; contract
/// promisebook_decimal::pb_u8_read_decimal; law theory_decimal/Reading.so_far_all, no_text, past_the_end; pinned
/// by vstd_integers/Pinned.pinned_unsigned_option; refused decimal_read/read_u64.colon_is_a_figure,
/// largest_number_refused, last_figure_left_out, nothing_is_zero, runs_over,
/// decimal_read/read_u8.largest_number_refused, too_large_taken, promisebook_decimal/read_decimal.too_large.
#[inline]
pub fn read_decimal(s: &[u8]) -> Result<u8, NotDecimal> {
    let answer = exported::u8_read_decimal(s, 0, s.len());
    answer.ok.then_some(answer.value).ok_or_else(|| not_decimal(s, false))
}

/// The number that the part says in decimal: one figure or more from 0 to 9, without a sign. Zeros in front are
/// read, and '+' is not. Refused with the reason where it says no number, and where that is above 255. Refused,
/// too, where `s` has no such part.
///
/// ```
/// use promisebook::{u8s, NotDecimal};
/// let s = b"n=42;";
/// assert_eq!(u8s::read_decimal_in(s, 2..4), Some(Ok(42)));
/// assert_eq!(u8s::read_decimal_in(s, 1..4), Some(Err(NotDecimal::NoNumber)));
/// assert_eq!(u8s::read_decimal_in(s, 2..6), None);
/// assert_eq!(u8s::read_decimal_in(s, 4..2), None);
/// ```
///
/// Cited by rows F6; clause theory_decimal/Read.natural_in, read_in; contract
/// promisebook_decimal::pb_u8_read_decimal; law theory_decimal/Reading.so_far_all, no_text, past_the_end; pinned
/// by vstd_integers/Pinned.pinned_unsigned_option; refused decimal_read/read_u64.colon_is_a_figure,
/// largest_number_refused, last_figure_left_out, nothing_is_zero, runs_over,
/// decimal_read/read_u8.largest_number_refused, too_large_taken, promisebook_decimal/read_decimal.too_large.
#[inline]
#[must_use]
pub fn read_decimal_in(s: &[u8], part: Range<usize>) -> Option<Result<u8, NotDecimal>> {
    Some(read_decimal(s.get(part)?))
}

/// Writes `x` in decimal at the start of `s`, with no zero in front, changes no other byte, and answers how many
/// bytes it has written. Refused where they do not fit.
///
/// ```
/// use promisebook::u8s;
/// let mut s = *b"....";
/// assert_eq!(u8s::write_decimal(&mut s, 255), Some(3));
/// assert_eq!(s, *b"255.");
/// let mut s = *b"..";
/// assert_eq!(u8s::write_decimal(&mut s, 0), Some(1));
/// assert_eq!(s, *b"0.");
/// let mut s = *b"..";
/// assert_eq!(u8s::write_decimal(&mut s, 10), Some(2));
/// assert_eq!(s, *b"10");
/// let mut s = *b".";
/// assert_eq!(u8s::write_decimal(&mut s, 0), Some(1));
/// assert_eq!(s, *b"0");
/// let mut s = *b"..";
/// assert_eq!(u8s::write_decimal(&mut s, 255), None);
/// assert_eq!(s, *b"..");
/// let mut s = *b".";
/// assert_eq!(u8s::write_decimal(&mut s, 10), None);
/// assert_eq!(s, *b".");
/// ```
///
/// Cited by rows F8; clause theory_decimal/Written.Shows, natural; contract
/// promisebook_decimal::pb_u8_write_decimal; law theory_decimal/Showing.natural_shown; pinned by
/// theory_decimal/Showing.pinned_shows; refused decimal_write/write_u64.last_place_refused, ten_in_one_place,
/// tens_lost, theory_decimal/shows.refusal_counts_anything.
#[inline]
#[must_use]
pub fn write_decimal(s: &mut [u8], x: u8) -> Option<usize> {
    let answer = exported::u8_write_decimal(x, s, 0);
    answer.ok.then_some(answer.value)
}

/// Writes `x` in decimal at the start of the part, with no zero in front, changes no other byte, and answers how
/// many bytes it has written. Refused where they do not fit. Refused, too, where `s` has no such part.
///
/// ```
/// use promisebook::u8s;
/// let mut s = *b".....";
/// assert_eq!(u8s::write_decimal_in(&mut s, 1..5, 255), Some(3));
/// assert_eq!(s, *b".255.");
/// let mut s = *b"...";
/// assert_eq!(u8s::write_decimal_in(&mut s, 1..3, 0), Some(1));
/// assert_eq!(s, *b".0.");
/// let mut s = *b"...";
/// assert_eq!(u8s::write_decimal_in(&mut s, 2..3, 0), Some(1));
/// assert_eq!(s, *b"..0");
/// let mut s = *b"...";
/// assert_eq!(u8s::write_decimal_in(&mut s, 1..3, 255), None);
/// assert_eq!(s, *b"...");
/// let mut s = *b".";
/// assert_eq!(u8s::write_decimal_in(&mut s, 2..1, 7), None);
/// assert_eq!(s, *b".");
/// ```
///
/// Cited by rows F8; clause theory_decimal/Written.Shows, natural; contract
/// promisebook_decimal::pb_u8_write_decimal; law theory_decimal/Showing.natural_shown; pinned by
/// theory_decimal/Showing.pinned_shows; refused decimal_write/write_u64.last_place_refused, ten_in_one_place,
/// tens_lost, theory_decimal/shows.refusal_counts_anything.
#[inline]
#[must_use]
pub fn write_decimal_in(s: &mut [u8], part: Range<usize>, x: u8) -> Option<usize> {
    write_decimal(s.get_mut(part)?, x)
}
