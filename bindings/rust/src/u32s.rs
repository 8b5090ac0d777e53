//! Operations on u32, the unsigned numbers of 32 bits: 0 to 4294967295.

use crate::exported;
use crate::ordering;
use crate::{not_decimal, NotDecimal};
use core::cmp::Ordering;
use core::ops::Range;

/// The sum `x + y`, wrapped: the unsigned number of 32 bits that differs from it by a multiple of 2^32.
///
/// ```
/// use promisebook::u32s;
/// assert_eq!(u32s::wrapping_add(4294967240, 100), 44);
/// assert_eq!(u32s::wrapping_add(4294967140, 100), 4294967240);
/// ```
///
/// Cited by rows A1; clause vstd_integers/Unsigned.wrapping_add; contract promisebook_u32::pb_u32_wrapping_add;
/// law vstd_integers/Unsigned.wrapping_add_kept; pinned by vstd_integers/Pinned.pinned_unsigned; refused
/// unsigned_sums/wrapping_add.one_too_few, sum_of_255_wraps.
#[inline]
#[must_use]
pub fn wrapping_add(x: u32, y: u32) -> u32 {
    exported::pb_u32_wrapping_add(x, y)
}

/// The sum `x + y`, wrapped: the unsigned number of 32 bits that differs from it by a multiple of 2^32.
///
/// ```
/// use promisebook::u32s;
/// assert_eq!(u32s::wrapping_add_signed(3, -5), 4294967294);
/// assert_eq!(u32s::wrapping_add_signed(4294967240, -100), 4294967140);
/// assert_eq!(u32s::wrapping_add_signed(4294967240, 100), 44);
/// ```
///
/// Cited by rows A2; clause vstd_integers/Unsigned.wrapping_add_signed; contract
/// promisebook_u32::pb_u32_wrapping_add_signed; law vstd_integers/Unsigned.wrapping_add_signed_kept; pinned by
/// vstd_integers/Pinned.pinned_unsigned; refused signed_sums/wrapping_add_signed.other_summand, subtracts.
#[inline]
#[must_use]
pub fn wrapping_add_signed(x: u32, y: i32) -> u32 {
    exported::pb_u32_wrapping_add_signed(x, y)
}

/// The difference `x - y`, wrapped: the unsigned number of 32 bits that differs from it by a multiple of 2^32.
///
/// ```
/// use promisebook::u32s;
/// assert_eq!(u32s::wrapping_sub(3, 5), 4294967294);
/// assert_eq!(u32s::wrapping_sub(5, 3), 2);
/// ```
///
/// Cited by rows A3; clause vstd_integers/Unsigned.wrapping_sub; contract promisebook_u32::pb_u32_wrapping_sub;
/// law vstd_integers/Unsigned.wrapping_sub_kept; pinned by vstd_integers/Pinned.pinned_unsigned; refused
/// unsigned_sums/wrapping_sub.one_too_many, zero_borrows.
#[inline]
#[must_use]
pub fn wrapping_sub(x: u32, y: u32) -> u32 {
    exported::pb_u32_wrapping_sub(x, y)
}

/// The product `x * y`, wrapped: the unsigned number of 32 bits that differs from it by a multiple of 2^32.
///
/// ```
/// use promisebook::u32s;
/// assert_eq!(u32s::wrapping_mul(65536, 65537), 65536);
/// assert_eq!(u32s::wrapping_mul(65535, 65537), 4294967295);
/// assert_eq!(u32s::wrapping_mul(65535, 65535), 4294836225);
/// ```
///
/// Cited by rows A4; clause vstd_integers/Unsigned.wrapping_mul; contract promisebook_u32::pb_u32_wrapping_mul;
/// law vstd_integers/Unsigned.wrapping_mul_kept; pinned by vstd_integers/Pinned.pinned_unsigned; refused
/// unsigned_sums/wrapping_mul.square, integers/wrapping_mul.modulo_255, integers/product.one_cross_product_twice,
/// upper_half_left_out.
#[inline]
#[must_use]
pub fn wrapping_mul(x: u32, y: u32) -> u32 {
    exported::pb_u32_wrapping_mul(x, y)
}

/// `x` shifted to the left by `rhs` modulo 32: zeros come in, and what leaves the 32 bits is lost.
///
/// ```
/// use promisebook::u32s;
/// assert_eq!(u32s::wrapping_shl(1, 33), 2);
/// assert_eq!(u32s::wrapping_shl(3, 31), 2147483648);
/// ```
///
/// Cited by rows A5; clause vstd_integers/Unsigned.wrapping_shl; contract promisebook_u32::pb_u32_wrapping_shl;
/// law vstd_integers/Unsigned.wrapping_shl_kept; pinned by vstd_integers/Pinned.pinned_unsigned; refused
/// unsigned_bits/wrapping_shl.by_the_width_is_0, modulo_7.
#[inline]
#[must_use]
pub fn wrapping_shl(x: u32, rhs: u32) -> u32 {
    exported::pb_u32_wrapping_shl(x, rhs)
}

/// `x` shifted to the right by `rhs` modulo 32: zeros come in.
///
/// ```
/// use promisebook::u32s;
/// assert_eq!(u32s::wrapping_shr(2147483648, 63), 1);
/// ```
///
/// Cited by rows A6; clause vstd_integers/Unsigned.wrapping_shr; contract promisebook_u32::pb_u32_wrapping_shr;
/// law vstd_integers/Unsigned.wrapping_shr_kept; pinned by vstd_integers/Pinned.pinned_unsigned; refused
/// unsigned_bits/wrapping_shr.by_the_width_is_0, modulo_7.
#[inline]
#[must_use]
pub fn wrapping_shr(x: u32, rhs: u32) -> u32 {
    exported::pb_u32_wrapping_shr(x, rhs)
}

/// The sum `x + y`. Refused where it is not from 0 to 4294967295.
///
/// ```
/// use promisebook::u32s;
/// assert_eq!(u32s::checked_add(4294967240, 100), None);
/// assert_eq!(u32s::checked_add(4294967140, 100), Some(4294967240));
/// ```
///
/// Cited by rows A7; clause vstd_integers/Unsigned.checked_add; contract promisebook_u32::pb_u32_checked_add; law
/// vstd_integers/Unsigned.checked_add_kept; pinned by vstd_integers/Pinned.pinned_unsigned_option; refused
/// unsigned_sums/checked_add.second_summand_alone, sum_of_255_refused, vstd_integers/checked_add.largest_refused.
#[inline]
#[must_use]
pub fn checked_add(x: u32, y: u32) -> Option<u32> {
    let answer = exported::pb_u32_checked_add(x, y);
    answer.ok.then_some(answer.value)
}

/// The sum `x + y`. Refused where it is not from 0 to 4294967295.
///
/// ```
/// use promisebook::u32s;
/// assert_eq!(u32s::checked_add_signed(3, -5), None);
/// assert_eq!(u32s::checked_add_signed(4294967240, -100), Some(4294967140));
/// assert_eq!(u32s::checked_add_signed(4294967240, 100), None);
/// ```
///
/// Cited by rows A8; clause vstd_integers/Unsigned.checked_add_signed; contract
/// promisebook_u32::pb_u32_checked_add_signed; law vstd_integers/Unsigned.checked_add_signed_kept; pinned by
/// vstd_integers/Pinned.pinned_unsigned_option; refused signed_sums/checked_add_signed.first_summand, other_side.
#[inline]
#[must_use]
pub fn checked_add_signed(x: u32, y: i32) -> Option<u32> {
    let answer = exported::pb_u32_checked_add_signed(x, y);
    answer.ok.then_some(answer.value)
}

/// The difference `x - y`. Refused where it is not from 0 to 4294967295.
///
/// ```
/// use promisebook::u32s;
/// assert_eq!(u32s::checked_sub(3, 5), None);
/// assert_eq!(u32s::checked_sub(5, 3), Some(2));
/// ```
///
/// Cited by rows A9; clause vstd_integers/Unsigned.checked_sub; contract promisebook_u32::pb_u32_checked_sub; law
/// vstd_integers/Unsigned.checked_sub_kept; pinned by vstd_integers/Pinned.pinned_unsigned_option; refused
/// unsigned_sums/checked_sub.nothing_taken, other_way_round.
#[inline]
#[must_use]
pub fn checked_sub(x: u32, y: u32) -> Option<u32> {
    let answer = exported::pb_u32_checked_sub(x, y);
    answer.ok.then_some(answer.value)
}

/// The product `x * y`. Refused where it is not from 0 to 4294967295.
///
/// ```
/// use promisebook::u32s;
/// assert_eq!(u32s::checked_mul(65536, 65537), None);
/// assert_eq!(u32s::checked_mul(65535, 65537), Some(4294967295));
/// assert_eq!(u32s::checked_mul(65535, 65535), Some(4294836225));
/// ```
///
/// Cited by rows A10; clause vstd_integers/Unsigned.checked_mul; contract promisebook_u32::pb_u32_checked_mul;
/// law vstd_integers/Unsigned.checked_mul_kept; pinned by vstd_integers/Pinned.pinned_unsigned_option; refused
/// unsigned_sums/checked_mul.larger_quotient_taken, square.
#[inline]
#[must_use]
pub fn checked_mul(x: u32, y: u32) -> Option<u32> {
    let answer = exported::pb_u32_checked_mul(x, y);
    answer.ok.then_some(answer.value)
}

/// The smallest multiple of `y` that is at least `x`. Refused where `y` is 0 or the multiple is above 4294967295.
///
/// ```
/// use promisebook::u32s;
/// assert_eq!(u32s::checked_next_multiple_of(4294967290, 7), Some(4294967292));
/// assert_eq!(u32s::checked_next_multiple_of(4294967290, 16), None);
/// assert_eq!(u32s::checked_next_multiple_of(7, 0), None);
/// ```
///
/// Cited by rows A11; clause vstd_integers/Unsigned.checked_next_multiple_of; contract
/// promisebook_u32::pb_u32_checked_next_multiple_of; law vstd_integers/Unsigned.checked_next_multiple_of_kept;
/// pinned by vstd_integers/Pinned.pinned_unsigned_option; refused
/// unsigned_division/checked_next_multiple_of.always_a_multiple, first_multiple,
/// vstd_integers/checked_next_multiple_of.zero_not_refused, promisebook_u8/checked_next_multiple_of.nine_bits.
#[inline]
#[must_use]
pub fn checked_next_multiple_of(x: u32, y: u32) -> Option<u32> {
    let answer = exported::pb_u32_checked_next_multiple_of(x, y);
    answer.ok.then_some(answer.value)
}

/// The quotient of `x` by `y`, rounded towards zero. Refused where `y` is 0.
///
/// ```
/// use promisebook::u32s;
/// assert_eq!(u32s::checked_div(7, 3), Some(2));
/// assert_eq!(u32s::checked_div(4294967295, 10), Some(429496729));
/// assert_eq!(u32s::checked_div(7, 0), None);
/// ```
///
/// Cited by rows A12; clause vstd_integers/Unsigned.checked_div; contract promisebook_u32::pb_u32_checked_div;
/// law vstd_integers/Unsigned.checked_div_kept; pinned by vstd_integers/Pinned.pinned_unsigned_option; refused
/// unsigned_division/checked_div.by_zero_is_0, other_dividend.
#[inline]
#[must_use]
pub fn checked_div(x: u32, y: u32) -> Option<u32> {
    let answer = exported::pb_u32_checked_div(x, y);
    answer.ok.then_some(answer.value)
}

/// The quotient of `x` by `y` whose remainder is not negative. Refused where `y` is 0.
///
/// ```
/// use promisebook::u32s;
/// assert_eq!(u32s::checked_div_euclid(7, 3), Some(2));
/// assert_eq!(u32s::checked_div_euclid(4294967295, 10), Some(429496729));
/// assert_eq!(u32s::checked_div_euclid(7, 0), None);
/// ```
///
/// Cited by rows A13; clause vstd_integers/Unsigned.checked_div; contract
/// promisebook_u32::pb_u32_checked_div_euclid; law vstd_integers/Unsigned.checked_div_euclid_kept; pinned by
/// vstd_integers/Pinned.pinned_unsigned_option; refused unsigned_division/checked_div_euclid.by_zero_is_0,
/// other_way_round.
#[inline]
#[must_use]
pub fn checked_div_euclid(x: u32, y: u32) -> Option<u32> {
    let answer = exported::pb_u32_checked_div_euclid(x, y);
    answer.ok.then_some(answer.value)
}

/// The remainder of `x` by `y`. Refused where `y` is 0.
///
/// ```
/// use promisebook::u32s;
/// assert_eq!(u32s::checked_rem(7, 3), Some(1));
/// assert_eq!(u32s::checked_rem(4294967295, 10), Some(5));
/// assert_eq!(u32s::checked_rem(7, 0), None);
/// ```
///
/// Cited by rows A14; clause vstd_integers/Unsigned.checked_rem; contract promisebook_u32::pb_u32_checked_rem;
/// law vstd_integers/Unsigned.checked_rem_kept; pinned by vstd_integers/Pinned.pinned_unsigned_option; refused
/// unsigned_division/checked_rem.by_zero_is_dividend, other_dividend.
#[inline]
#[must_use]
pub fn checked_rem(x: u32, y: u32) -> Option<u32> {
    let answer = exported::pb_u32_checked_rem(x, y);
    answer.ok.then_some(answer.value)
}

/// The remainder of `x` by `y` that is not negative. Refused where `y` is 0.
///
/// ```
/// use promisebook::u32s;
/// assert_eq!(u32s::checked_rem_euclid(7, 3), Some(1));
/// assert_eq!(u32s::checked_rem_euclid(4294967295, 10), Some(5));
/// assert_eq!(u32s::checked_rem_euclid(7, 0), None);
/// ```
///
/// Cited by rows A15; clause vstd_integers/Unsigned.checked_rem; contract
/// promisebook_u32::pb_u32_checked_rem_euclid; law vstd_integers/Unsigned.checked_rem_euclid_kept; pinned by
/// vstd_integers/Pinned.pinned_unsigned_option; refused unsigned_division/checked_rem_euclid.by_zero_is_dividend,
/// other_way_round.
#[inline]
#[must_use]
pub fn checked_rem_euclid(x: u32, y: u32) -> Option<u32> {
    let answer = exported::pb_u32_checked_rem_euclid(x, y);
    answer.ok.then_some(answer.value)
}

/// The sum `x + y`, or 4294967295 where it is larger.
///
/// ```
/// use promisebook::u32s;
/// assert_eq!(u32s::saturating_add(4294967240, 100), 4294967295);
/// assert_eq!(u32s::saturating_add(4294967140, 100), 4294967240);
/// ```
///
/// Cited by rows A16; clause vstd_integers/Unsigned.saturating_add; contract
/// promisebook_u32::pb_u32_saturating_add; law vstd_integers/Unsigned.saturating_add_kept; pinned by
/// vstd_integers/Pinned.pinned_unsigned; refused unsigned_sums/saturating_add.first_summand, wraps_to_0.
#[inline]
#[must_use]
pub fn saturating_add(x: u32, y: u32) -> u32 {
    exported::pb_u32_saturating_add(x, y)
}

/// The difference `x - y`, or 0 where it is below that.
///
/// ```
/// use promisebook::u32s;
/// assert_eq!(u32s::saturating_sub(3, 5), 0);
/// assert_eq!(u32s::saturating_sub(5, 3), 2);
/// ```
///
/// Cited by rows A17; clause vstd_integers/Unsigned.saturating_sub; contract
/// promisebook_u32::pb_u32_saturating_sub; law vstd_integers/Unsigned.saturating_sub_kept; pinned by
/// vstd_integers/Pinned.pinned_unsigned; refused unsigned_sums/saturating_sub.other_side, stops_at_1,
/// promisebook_u8/saturating_sub.wraps.
#[inline]
#[must_use]
pub fn saturating_sub(x: u32, y: u32) -> u32 {
    exported::pb_u32_saturating_sub(x, y)
}

/// The product `x * y`, or 4294967295 where it is larger.
///
/// ```
/// use promisebook::u32s;
/// assert_eq!(u32s::saturating_mul(65536, 65537), 4294967295);
/// assert_eq!(u32s::saturating_mul(65535, 65537), 4294967295);
/// assert_eq!(u32s::saturating_mul(65535, 65535), 4294836225);
/// ```
///
/// Cited by rows A18; clause vstd_integers/Unsigned.saturating_mul; contract
/// promisebook_u32::pb_u32_saturating_mul; law vstd_integers/Unsigned.saturating_mul_kept; pinned by
/// vstd_integers/Pinned.pinned_unsigned; refused unsigned_sums/saturating_mul.square, wraps_to_0,
/// vstd_integers/saturating_mul.wraps.
#[inline]
#[must_use]
pub fn saturating_mul(x: u32, y: u32) -> u32 {
    exported::pb_u32_saturating_mul(x, y)
}

/// Whether `x` is a multiple of `y`; of 0 only 0 is.
///
/// ```
/// use promisebook::u32s;
/// assert!(u32s::is_multiple_of(252, 7));
/// assert!(!u32s::is_multiple_of(250, 7));
/// assert!(u32s::is_multiple_of(0, 0));
/// assert!(!u32s::is_multiple_of(7, 0));
/// ```
///
/// Cited by rows A19; clause vstd_integers/Unsigned.is_multiple_of; contract
/// promisebook_u32::pb_u32_is_multiple_of; law vstd_integers/Unsigned.is_multiple_of_kept; pinned by
/// vstd_integers/Pinned.pinned_equation; refused unsigned_division/is_multiple_of.all_of_zero, remainder_of_1,
/// vstd_integers/is_multiple_of.all_of_zero.
#[inline]
#[must_use]
pub fn is_multiple_of(x: u32, y: u32) -> bool {
    exported::pb_u32_is_multiple_of(x, y)
}

/// `x` itself.
///
/// ```
/// use promisebook::u32s;
/// assert_eq!(u32s::clone(4294967295), 4294967295);
/// assert_eq!(u32s::clone(0), 0);
/// ```
///
/// Cited by rows A35; clause vstd_integers/Compare.clone; contract promisebook_u32::pb_u32_clone; law
/// vstd_integers/Compare.clone_kept; pinned by vstd_integers/Pinned.pinned_unsigned, pinned_equation; refused
/// promisebook_u8/clone.always_0, promisebook_i8/clone.always_0.
#[inline]
#[must_use]
pub fn clone(x: u32) -> u32 {
    exported::pb_u32_clone(x)
}

/// Whether `x` and `y` are equal.
///
/// ```
/// use promisebook::u32s;
/// assert!(!u32s::eq(3, 5));
/// assert!(u32s::eq(5, 5));
/// assert!(!u32s::eq(4294967295, 0));
/// ```
///
/// Cited by rows A36; clause vstd_integers/Compare.eq; contract promisebook_u32::pb_u32_eq; law
/// vstd_integers/Compare.eq_kept; pinned by vstd_integers/Pinned.pinned_equation; refused
/// ordering/is_eq.less_is_equal, never.
#[inline]
#[must_use]
pub fn eq(x: u32, y: u32) -> bool {
    exported::pb_u32_eq(x, y)
}

/// Whether `x` and `y` differ.
///
/// ```
/// use promisebook::u32s;
/// assert!(u32s::ne(3, 5));
/// assert!(!u32s::ne(5, 5));
/// assert!(u32s::ne(4294967295, 0));
/// ```
///
/// Cited by rows A37; clause vstd_integers/Compare.ne; contract promisebook_u32::pb_u32_ne; law
/// vstd_integers/Compare.ne_kept; pinned by vstd_integers/Pinned.pinned_equation; refused
/// ordering/is_ne.equal_differs, greater_only.
#[inline]
#[must_use]
pub fn ne(x: u32, y: u32) -> bool {
    exported::pb_u32_ne(x, y)
}

/// Whether `x` is less than `y`.
///
/// ```
/// use promisebook::u32s;
/// assert!(u32s::lt(3, 5));
/// assert!(!u32s::lt(5, 5));
/// assert!(!u32s::lt(4294967295, 0));
/// ```
///
/// Cited by rows A40; clause vstd_integers/Compare.lt; contract promisebook_u32::pb_u32_lt; law
/// vstd_integers/Compare.lt_kept; pinned by vstd_integers/Pinned.pinned_equation; refused
/// ordering/is_lt.equal_is_less, greater_is_less.
#[inline]
#[must_use]
pub fn lt(x: u32, y: u32) -> bool {
    exported::pb_u32_lt(x, y)
}

/// Whether `x` is less than `y` or equal to it.
///
/// ```
/// use promisebook::u32s;
/// assert!(u32s::le(3, 5));
/// assert!(u32s::le(5, 5));
/// assert!(!u32s::le(4294967295, 0));
/// ```
///
/// Cited by rows A41; clause vstd_integers/Compare.le; contract promisebook_u32::pb_u32_le; law
/// vstd_integers/Compare.le_kept; pinned by vstd_integers/Pinned.pinned_equation; refused
/// ordering/is_le.equal_is_more, greater_is_at_most, vstd_integers/le.equal_is_more.
#[inline]
#[must_use]
pub fn le(x: u32, y: u32) -> bool {
    exported::pb_u32_le(x, y)
}

/// Whether `x` is greater than `y`.
///
/// ```
/// use promisebook::u32s;
/// assert!(!u32s::gt(3, 5));
/// assert!(!u32s::gt(5, 5));
/// assert!(u32s::gt(4294967295, 0));
/// ```
///
/// Cited by rows A42; clause vstd_integers/Compare.gt; contract promisebook_u32::pb_u32_gt; law
/// vstd_integers/Compare.gt_kept; pinned by vstd_integers/Pinned.pinned_equation; refused
/// ordering/is_gt.equal_is_greater, less_is_greater.
#[inline]
#[must_use]
pub fn gt(x: u32, y: u32) -> bool {
    exported::pb_u32_gt(x, y)
}

/// Whether `x` is greater than `y` or equal to it.
///
/// ```
/// use promisebook::u32s;
/// assert!(!u32s::ge(3, 5));
/// assert!(u32s::ge(5, 5));
/// assert!(u32s::ge(4294967295, 0));
/// ```
///
/// Cited by rows A43; clause vstd_integers/Compare.ge; contract promisebook_u32::pb_u32_ge; law
/// vstd_integers/Compare.ge_kept; pinned by vstd_integers/Pinned.pinned_equation; refused
/// ordering/is_ge.equal_is_less, less_is_at_least.
#[inline]
#[must_use]
pub fn ge(x: u32, y: u32) -> bool {
    exported::pb_u32_ge(x, y)
}

/// How `x` stands to `y`: less (-1), equal (0) or greater (1).
///
/// ```
/// use core::cmp::Ordering;
/// use promisebook::u32s;
/// assert_eq!(u32s::cmp(3, 5), Ordering::Less);
/// assert_eq!(u32s::cmp(5, 5), Ordering::Equal);
/// assert_eq!(u32s::cmp(4294967295, 0), Ordering::Greater);
/// ```
///
/// Cited by rows A38; clause vstd_integers/Compare.cmp; contract promisebook_u32::pb_u32_cmp; law
/// vstd_integers/Compare.cmp_kept; pinned by vstd_integers/Pinned.pinned_equation; refused
/// ordering/number.greater_is_0, less_is_1, unsigned_order/compare.equal_is_greater, less_is_greater,
/// signed_order/compare.equal_is_greater, less_is_greater.
#[inline]
#[must_use]
pub fn cmp(x: u32, y: u32) -> Ordering {
    ordering(exported::pb_u32_cmp(x, y))
}

/// How `x` stands to `y`: less (-1), equal (0) or greater (1). Never refused.
///
/// ```
/// use core::cmp::Ordering;
/// use promisebook::u32s;
/// assert_eq!(u32s::partial_cmp(3, 5), Some(Ordering::Less));
/// assert_eq!(u32s::partial_cmp(5, 5), Some(Ordering::Equal));
/// assert_eq!(u32s::partial_cmp(4294967295, 0), Some(Ordering::Greater));
/// ```
///
/// Cited by rows A39; clause vstd_integers/Compare.cmp; contract promisebook_u32::pb_u32_partial_cmp; law
/// vstd_integers/Compare.cmp_kept; pinned by vstd_integers/Pinned.pinned_option.
#[inline]
#[must_use]
pub fn partial_cmp(x: u32, y: u32) -> Option<Ordering> {
    let answer = exported::pb_u32_partial_cmp(x, y);
    answer.ok.then_some(ordering(answer.value))
}

/// How many bits of `i` are 0 from the highest on, up to the first 1; 32 where all are.
///
/// ```
/// use promisebook::u32s;
/// assert_eq!(u32s::leading_zeros(80), 25);
/// assert_eq!(u32s::leading_zeros(247), 24);
/// assert_eq!(u32s::leading_zeros(0), 32);
/// assert_eq!(u32s::leading_zeros(4294967295), 0);
/// ```
///
/// Cited by rows B3; clause vstd_zeros/Zeros.vstd_leading_zeros; contract
/// promisebook_zeros::pb_u32_leading_zeros; law vstd_zeros/Zeros.vstd_leading_zeros_is; pinned by
/// vstd_integers/Pinned.pinned_equation; refused zeros/leading_zeros_u8.highest_bit_is_ignored,
/// zero_has_one_less, vstd_zeros/leading_zeros.zero_has_one_less, promisebook_zeros/leading_zeros.of_eight_bits.
#[inline]
#[must_use]
pub fn leading_zeros(i: u32) -> u32 {
    exported::pb_u32_leading_zeros(i)
}

/// How many bits of `i` are 1 from the highest on, up to the first 0; 32 where all are.
///
/// ```
/// use promisebook::u32s;
/// assert_eq!(u32s::leading_ones(80), 0);
/// assert_eq!(u32s::leading_ones(247), 0);
/// assert_eq!(u32s::leading_ones(0), 0);
/// assert_eq!(u32s::leading_ones(4294967295), 32);
/// ```
///
/// Cited by rows B4; clause vstd_zeros/Zeros.vstd_leading_ones; contract promisebook_zeros::pb_u32_leading_ones;
/// law vstd_zeros/Zeros.vstd_leading_ones_is; pinned by vstd_integers/Pinned.pinned_equation; refused
/// zeros/leading_ones_u8.highest_bit_counts_as_one, zeros_are_counted, promisebook_zeros/leading_ones.zeros.
#[inline]
#[must_use]
pub fn leading_ones(i: u32) -> u32 {
    exported::pb_u32_leading_ones(i)
}

/// How many bits of `i` are 0 from the lowest on, up to the first 1; 32 where all are.
///
/// ```
/// use promisebook::u32s;
/// assert_eq!(u32s::trailing_zeros(80), 4);
/// assert_eq!(u32s::trailing_zeros(247), 0);
/// assert_eq!(u32s::trailing_zeros(0), 32);
/// assert_eq!(u32s::trailing_zeros(4294967295), 0);
/// ```
///
/// Cited by rows B1; clause vstd_zeros/Zeros.vstd_trailing_zeros; contract
/// promisebook_zeros::pb_u32_trailing_zeros; law vstd_zeros/Zeros.vstd_trailing_zeros_is; pinned by
/// vstd_integers/Pinned.pinned_equation; refused zeros/trailing_zeros_u8.lowest_bit_is_ignored,
/// zero_has_one_less, vstd_zeros/trailing_zeros.ones_are_counted.
#[inline]
#[must_use]
pub fn trailing_zeros(i: u32) -> u32 {
    exported::pb_u32_trailing_zeros(i)
}

/// How many bits of `i` are 1 from the lowest on, up to the first 0; 32 where all are.
///
/// ```
/// use promisebook::u32s;
/// assert_eq!(u32s::trailing_ones(80), 0);
/// assert_eq!(u32s::trailing_ones(247), 3);
/// assert_eq!(u32s::trailing_ones(0), 0);
/// assert_eq!(u32s::trailing_ones(4294967295), 32);
/// ```
///
/// Cited by rows B2; clause vstd_zeros/Zeros.vstd_trailing_ones; contract
/// promisebook_zeros::pb_u32_trailing_ones; law vstd_zeros/Zeros.vstd_trailing_ones_is; pinned by
/// vstd_integers/Pinned.pinned_equation; refused zeros/trailing_ones_u8.lowest_bit_counts_as_one,
/// zeros_are_counted, vstd_zeros/trailing_ones.of_the_number.
#[inline]
#[must_use]
pub fn trailing_ones(i: u32) -> u32 {
    exported::pb_u32_trailing_ones(i)
}

/// The number whose 4 bytes are `s`, lowest first. Refused where `s` has another length.
///
/// ```
/// use promisebook::u32s;
/// assert_eq!(u32s::from_le_bytes(&[4, 3, 2, 1]), Some(16909060));
/// assert_eq!(u32s::from_le_bytes(&[3, 2, 1]), None);
/// ```
///
/// Cited by rows C1, C2; clause vstd_number_bytes/Bytes.from_le_bytes, spec_from_le_bytes; contract
/// promisebook_number_bytes::pb_u32_from_le_bytes; law vstd_number_bytes/Bytes.from_le_bytes_kept; pinned by
/// vstd_integers/Pinned.pinned_unsigned_option; refused number_bytes/from_le_bytes.two_bytes_for_three,
/// vstd_number_bytes/from_le_bytes.any_length, one_byte_fewer, number_bytes/from_le_bytes.highest_first,
/// vstd_number_bytes/from_le_bytes.first_byte_last.
#[inline]
#[must_use]
pub fn from_le_bytes(s: &[u8]) -> Option<u32> {
    let answer = exported::u32_from_le_bytes(s);
    answer.ok.then_some(answer.value)
}

/// The number whose 4 bytes are the part, lowest first. Refused where the part has another length. Refused, too,
/// where `s` has no such part.
///
/// ```
/// use promisebook::u32s;
/// assert_eq!(u32s::from_le_bytes_in(&[9, 4, 3, 2, 1, 9], 1..5), Some(16909060));
/// assert_eq!(u32s::from_le_bytes_in(&[9, 3, 2, 1, 9], 1..4), None);
/// assert_eq!(u32s::from_le_bytes_in(&[9, 3, 2, 1, 9], 1..6), None);
/// ```
///
/// Cited by rows C1, C2; clause vstd_number_bytes/Bytes.from_le_bytes, spec_from_le_bytes; contract
/// promisebook_number_bytes::pb_u32_from_le_bytes; law vstd_number_bytes/Bytes.from_le_bytes_kept; pinned by
/// vstd_integers/Pinned.pinned_unsigned_option; refused number_bytes/from_le_bytes.two_bytes_for_three,
/// vstd_number_bytes/from_le_bytes.any_length, one_byte_fewer, number_bytes/from_le_bytes.highest_first,
/// vstd_number_bytes/from_le_bytes.first_byte_last.
#[inline]
#[must_use]
pub fn from_le_bytes_in(s: &[u8], part: Range<usize>) -> Option<u32> {
    from_le_bytes(s.get(part)?)
}

/// The 4 bytes of `x`, lowest first.
///
/// ```
/// use promisebook::u32s;
/// assert_eq!(u32s::to_le_bytes(16909060), [4, 3, 2, 1]);
/// ```
///
/// Cited by rows C3; clause vstd_number_bytes/Bytes.spec_to_le_bytes; contract
/// promisebook_number_bytes::pb_u32_to_le_bytes; law vstd_number_bytes/Bytes.to_le_bytes_is; pinned by
/// theory_lists/Written.pinned_writes; refused number_bytes/to_le_bytes.highest_first, lowest_twice,
/// number_bytes/write_le_bytes.elsewhere, one_place_too_far, byte_behind_changes,
/// vstd_number_bytes/to_le_bytes.lowest_byte_only, seven_bits, promisebook_number_bytes/to_le_bytes.four_bytes.
#[inline]
#[must_use]
pub fn to_le_bytes(x: u32) -> [u8; 4] {
    let mut bytes = [0; 4];
    exported::u32_to_le_bytes(x, &mut bytes, 0);
    bytes
}

/// Writes the 4 bytes of `x` at the start of the part, lowest first, and changes no other byte. Refused where
/// they do not fit. Refused, too, where `s` has no such part.
///
/// ```
/// use promisebook::u32s;
/// let mut s = [0, 0, 0, 0, 0];
/// assert_eq!(u32s::to_le_bytes_in(&mut s, 1..5, 16909060), Some(()));
/// assert_eq!(s, [0, 4, 3, 2, 1]);
/// let mut s = [0, 0, 0, 0, 0];
/// assert_eq!(u32s::to_le_bytes_in(&mut s, 2..5, 16909060), None);
/// assert_eq!(s, [0, 0, 0, 0, 0]);
/// ```
///
/// Cited by rows C3; clause vstd_number_bytes/Bytes.spec_to_le_bytes; contract
/// promisebook_number_bytes::pb_u32_to_le_bytes; law vstd_number_bytes/Bytes.to_le_bytes_is; pinned by
/// theory_lists/Written.pinned_writes; refused number_bytes/to_le_bytes.highest_first, lowest_twice,
/// number_bytes/write_le_bytes.elsewhere, one_place_too_far, byte_behind_changes,
/// vstd_number_bytes/to_le_bytes.lowest_byte_only, seven_bits, promisebook_number_bytes/to_le_bytes.four_bytes.
#[inline]
#[must_use]
pub fn to_le_bytes_in(s: &mut [u8], part: Range<usize>, x: u32) -> Option<()> {
    exported::u32_to_le_bytes(x, s.get_mut(part)?, 0).then_some(())
}

/// The number whose 4 bytes are `s`, highest first. Refused where `s` has another length.
///
/// ```
/// use promisebook::u32s;
/// assert_eq!(u32s::from_be_bytes(&[1, 2, 3, 4]), Some(16909060));
/// assert_eq!(u32s::from_be_bytes(&[2, 3, 4]), None);
/// ```
///
/// Cited by rows C67; clause theory_digits/Number.number_high; contract
/// promisebook_number_bytes::pb_u32_from_be_bytes; law theory_digits/Reading.number_high_of_digits_high; pinned
/// by vstd_integers/Pinned.pinned_unsigned_option; refused number_bytes/from_be_bytes.lowest_first,
/// two_bytes_for_one.
#[inline]
#[must_use]
pub fn from_be_bytes(s: &[u8]) -> Option<u32> {
    let answer = exported::u32_from_be_bytes(s);
    answer.ok.then_some(answer.value)
}

/// The number whose 4 bytes are the part, highest first. Refused where the part has another length. Refused, too,
/// where `s` has no such part.
///
/// ```
/// use promisebook::u32s;
/// assert_eq!(u32s::from_be_bytes_in(&[9, 1, 2, 3, 4, 9], 1..5), Some(16909060));
/// assert_eq!(u32s::from_be_bytes_in(&[9, 2, 3, 4, 9], 1..4), None);
/// assert_eq!(u32s::from_be_bytes_in(&[9, 2, 3, 4, 9], 1..6), None);
/// ```
///
/// Cited by rows C67; clause theory_digits/Number.number_high; contract
/// promisebook_number_bytes::pb_u32_from_be_bytes; law theory_digits/Reading.number_high_of_digits_high; pinned
/// by vstd_integers/Pinned.pinned_unsigned_option; refused number_bytes/from_be_bytes.lowest_first,
/// two_bytes_for_one.
#[inline]
#[must_use]
pub fn from_be_bytes_in(s: &[u8], part: Range<usize>) -> Option<u32> {
    from_be_bytes(s.get(part)?)
}

/// The 4 bytes of `x`, highest first.
///
/// ```
/// use promisebook::u32s;
/// assert_eq!(u32s::to_be_bytes(16909060), [1, 2, 3, 4]);
/// ```
///
/// Cited by rows C68; clause theory_digits/Digits.digits_high; contract
/// promisebook_number_bytes::pb_u32_to_be_bytes; law theory_digits/Reading.digits_high_of_number_high; pinned by
/// theory_lists/Written.pinned_writes; refused number_bytes/to_be_bytes.highest_twice, lowest_first,
/// number_bytes/write_be_bytes.complement, last_place_is_refused, byte_changes_twice,
/// promisebook_number_bytes/to_be_bytes.lowest_first.
#[inline]
#[must_use]
pub fn to_be_bytes(x: u32) -> [u8; 4] {
    let mut bytes = [0; 4];
    exported::u32_to_be_bytes(x, &mut bytes, 0);
    bytes
}

/// Writes the 4 bytes of `x` at the start of the part, highest first, and changes no other byte. Refused where
/// they do not fit. Refused, too, where `s` has no such part.
///
/// ```
/// use promisebook::u32s;
/// let mut s = [0, 0, 0, 0, 0];
/// assert_eq!(u32s::to_be_bytes_in(&mut s, 1..5, 16909060), Some(()));
/// assert_eq!(s, [0, 1, 2, 3, 4]);
/// let mut s = [0, 0, 0, 0, 0];
/// assert_eq!(u32s::to_be_bytes_in(&mut s, 2..5, 16909060), None);
/// assert_eq!(s, [0, 0, 0, 0, 0]);
/// ```
///
/// Cited by rows C68; clause theory_digits/Digits.digits_high; contract
/// promisebook_number_bytes::pb_u32_to_be_bytes; law theory_digits/Reading.digits_high_of_number_high; pinned by
/// theory_lists/Written.pinned_writes; refused number_bytes/to_be_bytes.highest_twice, lowest_first,
/// number_bytes/write_be_bytes.complement, last_place_is_refused, byte_changes_twice,
/// promisebook_number_bytes/to_be_bytes.lowest_first.
#[inline]
#[must_use]
pub fn to_be_bytes_in(s: &mut [u8], part: Range<usize>, x: u32) -> Option<()> {
    exported::u32_to_be_bytes(x, s.get_mut(part)?, 0).then_some(())
}

/// The number that `s` says in decimal: one figure or more from 0 to 9, without a sign. Zeros in front are read,
/// and '+' is not. Refused with the reason where it says no number, and where that is above 4294967295.
///
/// ```
/// use promisebook::{u32s, NotDecimal};
/// assert_eq!(u32s::read_decimal(b"4294967295"), Ok(4294967295));
/// assert_eq!(u32s::read_decimal(b"4294967296"), Err(NotDecimal::TooLarge));
/// assert_eq!(u32s::read_decimal(b"0"), Ok(0));
/// assert_eq!(u32s::read_decimal(b"-1"), Err(NotDecimal::NoNumber));
/// assert_eq!(u32s::read_decimal(b"007"), Ok(7));
/// assert_eq!(u32s::read_decimal(b"-0"), Err(NotDecimal::NoNumber));
/// assert_eq!(u32s::read_decimal(b"+5"), Err(NotDecimal::NoNumber));
/// assert_eq!(u32s::read_decimal(b"-"), Err(NotDecimal::NoNumber));
/// assert_eq!(u32s::read_decimal(b""), Err(NotDecimal::NoNumber));
/// assert_eq!(u32s::read_decimal(b"42"), Ok(42));
/// assert_eq!(u32s::read_decimal(b"=42"), Err(NotDecimal::NoNumber));
/// ```
///
/// Cited by rows F6; clause theory_decimal/Read.natural_in, read_in; contract
/// promisebook_decimal::pb_u32_read_decimal; law theory_decimal/Reading.so_far_all, no_text, past_the_end; pinned
/// by vstd_integers/Pinned.pinned_unsigned_option; refused decimal_read/read_u64.colon_is_a_figure,
/// largest_number_refused, last_figure_left_out, nothing_is_zero, runs_over,
/// decimal_read/read_u8.largest_number_refused, too_large_taken, promisebook_decimal/read_decimal.too_large.
#[inline]
pub fn read_decimal(s: &[u8]) -> Result<u32, NotDecimal> {
    let answer = exported::u32_read_decimal(s, 0, s.len());
    answer.ok.then_some(answer.value).ok_or_else(|| not_decimal(s, false))
}

/// The number that the part says in decimal: one figure or more from 0 to 9, without a sign. Zeros in front are
/// read, and '+' is not. Refused with the reason where it says no number, and where that is above 4294967295.
/// Refused, too, where `s` has no such part.
///
/// ```
/// use promisebook::{u32s, NotDecimal};
/// let s = b"n=42;";
/// assert_eq!(u32s::read_decimal_in(s, 2..4), Some(Ok(42)));
/// assert_eq!(u32s::read_decimal_in(s, 1..4), Some(Err(NotDecimal::NoNumber)));
/// assert_eq!(u32s::read_decimal_in(s, 2..6), None);
/// assert_eq!(u32s::read_decimal_in(s, 4..2), None);
/// ```
///
/// Cited by rows F6; clause theory_decimal/Read.natural_in, read_in; contract
/// promisebook_decimal::pb_u32_read_decimal; law theory_decimal/Reading.so_far_all, no_text, past_the_end; pinned
/// by vstd_integers/Pinned.pinned_unsigned_option; refused decimal_read/read_u64.colon_is_a_figure,
/// largest_number_refused, last_figure_left_out, nothing_is_zero, runs_over,
/// decimal_read/read_u8.largest_number_refused, too_large_taken, promisebook_decimal/read_decimal.too_large.
#[inline]
#[must_use]
pub fn read_decimal_in(s: &[u8], part: Range<usize>) -> Option<Result<u32, NotDecimal>> {
    Some(read_decimal(s.get(part)?))
}

/// Writes `x` in decimal at the start of `s`, with no zero in front, changes no other byte, and answers how many
/// bytes it has written. Refused where they do not fit.
///
/// ```
/// use promisebook::u32s;
/// let mut s = *b"...........";
/// assert_eq!(u32s::write_decimal(&mut s, 4294967295), Some(10));
/// assert_eq!(s, *b"4294967295.");
/// let mut s = *b"..";
/// assert_eq!(u32s::write_decimal(&mut s, 0), Some(1));
/// assert_eq!(s, *b"0.");
/// let mut s = *b"..";
/// assert_eq!(u32s::write_decimal(&mut s, 10), Some(2));
/// assert_eq!(s, *b"10");
/// let mut s = *b".";
/// assert_eq!(u32s::write_decimal(&mut s, 0), Some(1));
/// assert_eq!(s, *b"0");
/// let mut s = *b".........";
/// assert_eq!(u32s::write_decimal(&mut s, 4294967295), None);
/// assert_eq!(s, *b".........");
/// let mut s = *b".";
/// assert_eq!(u32s::write_decimal(&mut s, 10), None);
/// assert_eq!(s, *b".");
/// ```
///
/// Cited by rows F8; clause theory_decimal/Written.Shows, natural; contract
/// promisebook_decimal::pb_u32_write_decimal; law theory_decimal/Showing.natural_shown; pinned by
/// theory_decimal/Showing.pinned_shows; refused decimal_write/write_u64.last_place_refused, ten_in_one_place,
/// tens_lost, theory_decimal/shows.refusal_counts_anything.
#[inline]
#[must_use]
pub fn write_decimal(s: &mut [u8], x: u32) -> Option<usize> {
    let answer = exported::u32_write_decimal(x, s, 0);
    answer.ok.then_some(answer.value)
}

/// Writes `x` in decimal at the start of the part, with no zero in front, changes no other byte, and answers how
/// many bytes it has written. Refused where they do not fit. Refused, too, where `s` has no such part.
///
/// ```
/// use promisebook::u32s;
/// let mut s = *b"............";
/// assert_eq!(u32s::write_decimal_in(&mut s, 1..12, 4294967295), Some(10));
/// assert_eq!(s, *b".4294967295.");
/// let mut s = *b"...";
/// assert_eq!(u32s::write_decimal_in(&mut s, 1..3, 0), Some(1));
/// assert_eq!(s, *b".0.");
/// let mut s = *b"...";
/// assert_eq!(u32s::write_decimal_in(&mut s, 2..3, 0), Some(1));
/// assert_eq!(s, *b"..0");
/// let mut s = *b"..........";
/// assert_eq!(u32s::write_decimal_in(&mut s, 1..10, 4294967295), None);
/// assert_eq!(s, *b"..........");
/// let mut s = *b".";
/// assert_eq!(u32s::write_decimal_in(&mut s, 2..1, 7), None);
/// assert_eq!(s, *b".");
/// ```
///
/// Cited by rows F8; clause theory_decimal/Written.Shows, natural; contract
/// promisebook_decimal::pb_u32_write_decimal; law theory_decimal/Showing.natural_shown; pinned by
/// theory_decimal/Showing.pinned_shows; refused decimal_write/write_u64.last_place_refused, ten_in_one_place,
/// tens_lost, theory_decimal/shows.refusal_counts_anything.
#[inline]
#[must_use]
pub fn write_decimal_in(s: &mut [u8], part: Range<usize>, x: u32) -> Option<usize> {
    write_decimal(s.get_mut(part)?, x)
}
