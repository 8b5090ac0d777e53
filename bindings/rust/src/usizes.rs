//! Operations on usize, the unsigned numbers of 64 bits: 0 to 18446744073709551615.

use crate::exported;
use crate::ordering;
use crate::{not_decimal, NotDecimal};
use core::cmp::Ordering;
use core::ops::Range;

/// The sum `x + y`, wrapped: the unsigned number of 64 bits that differs from it by a multiple of 2^64.
///
/// ```
/// use promisebook::usizes;
/// assert_eq!(usizes::wrapping_add(18446744073709551560, 100), 44);
/// assert_eq!(usizes::wrapping_add(18446744073709551460, 100), 18446744073709551560);
/// ```
///
/// Cited by rows A1; clause vstd_integers/Unsigned.wrapping_add; contract
/// promisebook_usize::pb_usize_wrapping_add; law vstd_integers/Unsigned.wrapping_add_kept; pinned by
/// vstd_integers/Pinned.pinned_unsigned; refused unsigned_sums/wrapping_add.one_too_few, sum_of_255_wraps.
#[inline]
#[must_use]
pub fn wrapping_add(x: usize, y: usize) -> usize {
    exported::pb_usize_wrapping_add(x, y)
}

/// The sum `x + y`, wrapped: the unsigned number of 64 bits that differs from it by a multiple of 2^64.
///
/// ```
/// use promisebook::usizes;
/// assert_eq!(usizes::wrapping_add_signed(3, -5), 18446744073709551614);
/// assert_eq!(usizes::wrapping_add_signed(18446744073709551560, -100), 18446744073709551460);
/// assert_eq!(usizes::wrapping_add_signed(18446744073709551560, 100), 44);
/// ```
///
/// Cited by rows A2; clause vstd_integers/Unsigned.wrapping_add_signed; contract
/// promisebook_usize::pb_usize_wrapping_add_signed; law vstd_integers/Unsigned.wrapping_add_signed_kept; pinned
/// by vstd_integers/Pinned.pinned_unsigned; refused signed_sums/wrapping_add_signed.other_summand, subtracts.
#[inline]
#[must_use]
pub fn wrapping_add_signed(x: usize, y: isize) -> usize {
    exported::pb_usize_wrapping_add_signed(x, y)
}

/// The difference `x - y`, wrapped: the unsigned number of 64 bits that differs from it by a multiple of 2^64.
///
/// ```
/// use promisebook::usizes;
/// assert_eq!(usizes::wrapping_sub(3, 5), 18446744073709551614);
/// assert_eq!(usizes::wrapping_sub(5, 3), 2);
/// ```
///
/// Cited by rows A3; clause vstd_integers/Unsigned.wrapping_sub; contract
/// promisebook_usize::pb_usize_wrapping_sub; law vstd_integers/Unsigned.wrapping_sub_kept; pinned by
/// vstd_integers/Pinned.pinned_unsigned; refused unsigned_sums/wrapping_sub.one_too_many, zero_borrows.
#[inline]
#[must_use]
pub fn wrapping_sub(x: usize, y: usize) -> usize {
    exported::pb_usize_wrapping_sub(x, y)
}

/// The product `x * y`, wrapped: the unsigned number of 64 bits that differs from it by a multiple of 2^64.
///
/// ```
/// use promisebook::usizes;
/// assert_eq!(usizes::wrapping_mul(4294967296, 4294967297), 4294967296);
/// assert_eq!(usizes::wrapping_mul(4294967295, 4294967297), 18446744073709551615);
/// assert_eq!(usizes::wrapping_mul(4294967295, 4294967295), 18446744065119617025);
/// ```
///
/// Cited by rows A4; clause vstd_integers/Unsigned.wrapping_mul; contract
/// promisebook_usize::pb_usize_wrapping_mul; law vstd_integers/Unsigned.wrapping_mul_kept; pinned by
/// vstd_integers/Pinned.pinned_unsigned; refused unsigned_sums/wrapping_mul.square,
/// integers/wrapping_mul.modulo_255, integers/product.one_cross_product_twice, upper_half_left_out.
#[inline]
#[must_use]
pub fn wrapping_mul(x: usize, y: usize) -> usize {
    exported::pb_usize_wrapping_mul(x, y)
}

/// `x` shifted to the left by `rhs` modulo 64: zeros come in, and what leaves the 64 bits is lost.
///
/// ```
/// use promisebook::usizes;
/// assert_eq!(usizes::wrapping_shl(1, 65), 2);
/// assert_eq!(usizes::wrapping_shl(3, 63), 9223372036854775808);
/// ```
///
/// Cited by rows A5; clause vstd_integers/Unsigned.wrapping_shl; contract
/// promisebook_usize::pb_usize_wrapping_shl; law vstd_integers/Unsigned.wrapping_shl_kept; pinned by
/// vstd_integers/Pinned.pinned_unsigned; refused unsigned_bits/wrapping_shl.by_the_width_is_0, modulo_7.
#[inline]
#[must_use]
pub fn wrapping_shl(x: usize, rhs: u32) -> usize {
    exported::pb_usize_wrapping_shl(x, rhs)
}

/// `x` shifted to the right by `rhs` modulo 64: zeros come in.
///
/// ```
/// use promisebook::usizes;
/// assert_eq!(usizes::wrapping_shr(9223372036854775808, 127), 1);
/// ```
///
/// Cited by rows A6; clause vstd_integers/Unsigned.wrapping_shr; contract
/// promisebook_usize::pb_usize_wrapping_shr; law vstd_integers/Unsigned.wrapping_shr_kept; pinned by
/// vstd_integers/Pinned.pinned_unsigned; refused unsigned_bits/wrapping_shr.by_the_width_is_0, modulo_7.
#[inline]
#[must_use]
pub fn wrapping_shr(x: usize, rhs: u32) -> usize {
    exported::pb_usize_wrapping_shr(x, rhs)
}

/// The sum `x + y`. Refused where it is not from 0 to 18446744073709551615.
///
/// ```
/// use promisebook::usizes;
/// assert_eq!(usizes::checked_add(18446744073709551560, 100), None);
/// assert_eq!(usizes::checked_add(18446744073709551460, 100), Some(18446744073709551560));
/// ```
///
/// Cited by rows A7; clause vstd_integers/Unsigned.checked_add; contract promisebook_usize::pb_usize_checked_add;
/// law vstd_integers/Unsigned.checked_add_kept; pinned by vstd_integers/Pinned.pinned_unsigned_option; refused
/// unsigned_sums/checked_add.second_summand_alone, sum_of_255_refused, vstd_integers/checked_add.largest_refused.
#[inline]
#[must_use]
pub fn checked_add(x: usize, y: usize) -> Option<usize> {
    let answer = exported::pb_usize_checked_add(x, y);
    answer.ok.then_some(answer.value)
}

/// The sum `x + y`. Refused where it is not from 0 to 18446744073709551615.
///
/// ```
/// use promisebook::usizes;
/// assert_eq!(usizes::checked_add_signed(3, -5), None);
/// assert_eq!(usizes::checked_add_signed(18446744073709551560, -100), Some(18446744073709551460));
/// assert_eq!(usizes::checked_add_signed(18446744073709551560, 100), None);
/// ```
///
/// Cited by rows A8; clause vstd_integers/Unsigned.checked_add_signed; contract
/// promisebook_usize::pb_usize_checked_add_signed; law vstd_integers/Unsigned.checked_add_signed_kept; pinned by
/// vstd_integers/Pinned.pinned_unsigned_option; refused signed_sums/checked_add_signed.first_summand, other_side.
#[inline]
#[must_use]
pub fn checked_add_signed(x: usize, y: isize) -> Option<usize> {
    let answer = exported::pb_usize_checked_add_signed(x, y);
    answer.ok.then_some(answer.value)
}

/// The difference `x - y`. Refused where it is not from 0 to 18446744073709551615.
///
/// ```
/// use promisebook::usizes;
/// assert_eq!(usizes::checked_sub(3, 5), None);
/// assert_eq!(usizes::checked_sub(5, 3), Some(2));
/// ```
///
/// Cited by rows A9; clause vstd_integers/Unsigned.checked_sub; contract promisebook_usize::pb_usize_checked_sub;
/// law vstd_integers/Unsigned.checked_sub_kept; pinned by vstd_integers/Pinned.pinned_unsigned_option; refused
/// unsigned_sums/checked_sub.nothing_taken, other_way_round.
#[inline]
#[must_use]
pub fn checked_sub(x: usize, y: usize) -> Option<usize> {
    let answer = exported::pb_usize_checked_sub(x, y);
    answer.ok.then_some(answer.value)
}

/// The product `x * y`. Refused where it is not from 0 to 18446744073709551615.
///
/// ```
/// use promisebook::usizes;
/// assert_eq!(usizes::checked_mul(4294967296, 4294967297), None);
/// assert_eq!(usizes::checked_mul(4294967295, 4294967297), Some(18446744073709551615));
/// assert_eq!(usizes::checked_mul(4294967295, 4294967295), Some(18446744065119617025));
/// ```
///
/// Cited by rows A10; clause vstd_integers/Unsigned.checked_mul; contract
/// promisebook_usize::pb_usize_checked_mul; law vstd_integers/Unsigned.checked_mul_kept; pinned by
/// vstd_integers/Pinned.pinned_unsigned_option; refused unsigned_sums/checked_mul.larger_quotient_taken, square.
#[inline]
#[must_use]
pub fn checked_mul(x: usize, y: usize) -> Option<usize> {
    let answer = exported::pb_usize_checked_mul(x, y);
    answer.ok.then_some(answer.value)
}

/// The smallest multiple of `y` that is at least `x`. Refused where `y` is 0 or the multiple is above
/// 18446744073709551615.
///
/// ```
/// use promisebook::usizes;
/// assert_eq!(usizes::checked_next_multiple_of(18446744073709551610, 7), Some(18446744073709551614));
/// assert_eq!(usizes::checked_next_multiple_of(18446744073709551610, 16), None);
/// assert_eq!(usizes::checked_next_multiple_of(7, 0), None);
/// ```
///
/// Cited by rows A11; clause vstd_integers/Unsigned.checked_next_multiple_of; contract
/// promisebook_usize::pb_usize_checked_next_multiple_of; law
/// vstd_integers/Unsigned.checked_next_multiple_of_kept; pinned by vstd_integers/Pinned.pinned_unsigned_option;
/// refused unsigned_division/checked_next_multiple_of.always_a_multiple, first_multiple,
/// vstd_integers/checked_next_multiple_of.zero_not_refused, promisebook_u8/checked_next_multiple_of.nine_bits.
#[inline]
#[must_use]
pub fn checked_next_multiple_of(x: usize, y: usize) -> Option<usize> {
    let answer = exported::pb_usize_checked_next_multiple_of(x, y);
    answer.ok.then_some(answer.value)
}

/// The quotient of `x` by `y`, rounded towards zero. Refused where `y` is 0.
///
/// ```
/// use promisebook::usizes;
/// assert_eq!(usizes::checked_div(7, 3), Some(2));
/// assert_eq!(usizes::checked_div(18446744073709551615, 10), Some(1844674407370955161));
/// assert_eq!(usizes::checked_div(7, 0), None);
/// ```
///
/// Cited by rows A12; clause vstd_integers/Unsigned.checked_div; contract
/// promisebook_usize::pb_usize_checked_div; law vstd_integers/Unsigned.checked_div_kept; pinned by
/// vstd_integers/Pinned.pinned_unsigned_option; refused unsigned_division/checked_div.by_zero_is_0,
/// other_dividend.
#[inline]
#[must_use]
pub fn checked_div(x: usize, y: usize) -> Option<usize> {
    let answer = exported::pb_usize_checked_div(x, y);
    answer.ok.then_some(answer.value)
}

/// The quotient of `x` by `y` whose remainder is not negative. Refused where `y` is 0.
///
/// ```
/// use promisebook::usizes;
/// assert_eq!(usizes::checked_div_euclid(7, 3), Some(2));
/// assert_eq!(usizes::checked_div_euclid(18446744073709551615, 10), Some(1844674407370955161));
/// assert_eq!(usizes::checked_div_euclid(7, 0), None);
/// ```
///
/// Cited by rows A13; clause vstd_integers/Unsigned.checked_div; contract
/// promisebook_usize::pb_usize_checked_div_euclid; law vstd_integers/Unsigned.checked_div_euclid_kept; pinned by
/// vstd_integers/Pinned.pinned_unsigned_option; refused unsigned_division/checked_div_euclid.by_zero_is_0,
/// other_way_round.
#[inline]
#[must_use]
pub fn checked_div_euclid(x: usize, y: usize) -> Option<usize> {
    let answer = exported::pb_usize_checked_div_euclid(x, y);
    answer.ok.then_some(answer.value)
}

/// The remainder of `x` by `y`. Refused where `y` is 0.
///
/// ```
/// use promisebook::usizes;
/// assert_eq!(usizes::checked_rem(7, 3), Some(1));
/// assert_eq!(usizes::checked_rem(18446744073709551615, 10), Some(5));
/// assert_eq!(usizes::checked_rem(7, 0), None);
/// ```
///
/// Cited by rows A14; clause vstd_integers/Unsigned.checked_rem; contract
/// promisebook_usize::pb_usize_checked_rem; law vstd_integers/Unsigned.checked_rem_kept; pinned by
/// vstd_integers/Pinned.pinned_unsigned_option; refused unsigned_division/checked_rem.by_zero_is_dividend,
/// other_dividend.
#[inline]
#[must_use]
pub fn checked_rem(x: usize, y: usize) -> Option<usize> {
    let answer = exported::pb_usize_checked_rem(x, y);
    answer.ok.then_some(answer.value)
}

/// The remainder of `x` by `y` that is not negative. Refused where `y` is 0.
///
/// ```
/// use promisebook::usizes;
/// assert_eq!(usizes::checked_rem_euclid(7, 3), Some(1));
/// assert_eq!(usizes::checked_rem_euclid(18446744073709551615, 10), Some(5));
/// assert_eq!(usizes::checked_rem_euclid(7, 0), None);
/// ```
///
/// Cited by rows A15; clause vstd_integers/Unsigned.checked_rem; contract
/// promisebook_usize::pb_usize_checked_rem_euclid; law vstd_integers/Unsigned.checked_rem_euclid_kept; pinned by
/// vstd_integers/Pinned.pinned_unsigned_option; refused unsigned_division/checked_rem_euclid.by_zero_is_dividend,
/// other_way_round.
#[inline]
#[must_use]
pub fn checked_rem_euclid(x: usize, y: usize) -> Option<usize> {
    let answer = exported::pb_usize_checked_rem_euclid(x, y);
    answer.ok.then_some(answer.value)
}

/// The sum `x + y`, or 18446744073709551615 where it is larger.
///
/// ```
/// use promisebook::usizes;
/// assert_eq!(usizes::saturating_add(18446744073709551560, 100), 18446744073709551615);
/// assert_eq!(usizes::saturating_add(18446744073709551460, 100), 18446744073709551560);
/// ```
///
/// Cited by rows A16; clause vstd_integers/Unsigned.saturating_add; contract
/// promisebook_usize::pb_usize_saturating_add; law vstd_integers/Unsigned.saturating_add_kept; pinned by
/// vstd_integers/Pinned.pinned_unsigned; refused unsigned_sums/saturating_add.first_summand, wraps_to_0.
#[inline]
#[must_use]
pub fn saturating_add(x: usize, y: usize) -> usize {
    exported::pb_usize_saturating_add(x, y)
}

/// The difference `x - y`, or 0 where it is below that.
///
/// ```
/// use promisebook::usizes;
/// assert_eq!(usizes::saturating_sub(3, 5), 0);
/// assert_eq!(usizes::saturating_sub(5, 3), 2);
/// ```
///
/// Cited by rows A17; clause vstd_integers/Unsigned.saturating_sub; contract
/// promisebook_usize::pb_usize_saturating_sub; law vstd_integers/Unsigned.saturating_sub_kept; pinned by
/// vstd_integers/Pinned.pinned_unsigned; refused unsigned_sums/saturating_sub.other_side, stops_at_1,
/// promisebook_u8/saturating_sub.wraps.
#[inline]
#[must_use]
pub fn saturating_sub(x: usize, y: usize) -> usize {
    exported::pb_usize_saturating_sub(x, y)
}

/// The product `x * y`, or 18446744073709551615 where it is larger.
///
/// ```
/// use promisebook::usizes;
/// assert_eq!(usizes::saturating_mul(4294967296, 4294967297), 18446744073709551615);
/// assert_eq!(usizes::saturating_mul(4294967295, 4294967297), 18446744073709551615);
/// assert_eq!(usizes::saturating_mul(4294967295, 4294967295), 18446744065119617025);
/// ```
///
/// Cited by rows A18; clause vstd_integers/Unsigned.saturating_mul; contract
/// promisebook_usize::pb_usize_saturating_mul; law vstd_integers/Unsigned.saturating_mul_kept; pinned by
/// vstd_integers/Pinned.pinned_unsigned; refused unsigned_sums/saturating_mul.square, wraps_to_0,
/// vstd_integers/saturating_mul.wraps.
#[inline]
#[must_use]
pub fn saturating_mul(x: usize, y: usize) -> usize {
    exported::pb_usize_saturating_mul(x, y)
}

/// Whether `x` is a multiple of `y`; of 0 only 0 is.
///
/// ```
/// use promisebook::usizes;
/// assert!(usizes::is_multiple_of(252, 7));
/// assert!(!usizes::is_multiple_of(250, 7));
/// assert!(usizes::is_multiple_of(0, 0));
/// assert!(!usizes::is_multiple_of(7, 0));
/// ```
///
/// Cited by rows A19; clause vstd_integers/Unsigned.is_multiple_of; contract
/// promisebook_usize::pb_usize_is_multiple_of; law vstd_integers/Unsigned.is_multiple_of_kept; pinned by
/// vstd_integers/Pinned.pinned_equation; refused unsigned_division/is_multiple_of.all_of_zero, remainder_of_1,
/// vstd_integers/is_multiple_of.all_of_zero.
#[inline]
#[must_use]
pub fn is_multiple_of(x: usize, y: usize) -> bool {
    exported::pb_usize_is_multiple_of(x, y)
}

/// `x` itself.
///
/// ```
/// use promisebook::usizes;
/// assert_eq!(usizes::clone(18446744073709551615), 18446744073709551615);
/// assert_eq!(usizes::clone(0), 0);
/// ```
///
/// Cited by rows A35; clause vstd_integers/Compare.clone; contract promisebook_usize::pb_usize_clone; law
/// vstd_integers/Compare.clone_kept; pinned by vstd_integers/Pinned.pinned_unsigned, pinned_equation; refused
/// promisebook_u8/clone.always_0, promisebook_i8/clone.always_0.
#[inline]
#[must_use]
pub fn clone(x: usize) -> usize {
    exported::pb_usize_clone(x)
}

/// Whether `x` and `y` are equal.
///
/// ```
/// use promisebook::usizes;
/// assert!(!usizes::eq(3, 5));
/// assert!(usizes::eq(5, 5));
/// assert!(!usizes::eq(18446744073709551615, 0));
/// ```
///
/// Cited by rows A36; clause vstd_integers/Compare.eq; contract promisebook_usize::pb_usize_eq; law
/// vstd_integers/Compare.eq_kept; pinned by vstd_integers/Pinned.pinned_equation; refused
/// ordering/is_eq.less_is_equal, never.
#[inline]
#[must_use]
pub fn eq(x: usize, y: usize) -> bool {
    exported::pb_usize_eq(x, y)
}

/// Whether `x` and `y` differ.
///
/// ```
/// use promisebook::usizes;
/// assert!(usizes::ne(3, 5));
/// assert!(!usizes::ne(5, 5));
/// assert!(usizes::ne(18446744073709551615, 0));
/// ```
///
/// Cited by rows A37; clause vstd_integers/Compare.ne; contract promisebook_usize::pb_usize_ne; law
/// vstd_integers/Compare.ne_kept; pinned by vstd_integers/Pinned.pinned_equation; refused
/// ordering/is_ne.equal_differs, greater_only.
#[inline]
#[must_use]
pub fn ne(x: usize, y: usize) -> bool {
    exported::pb_usize_ne(x, y)
}

/// Whether `x` is less than `y`.
///
/// ```
/// use promisebook::usizes;
/// assert!(usizes::lt(3, 5));
/// assert!(!usizes::lt(5, 5));
/// assert!(!usizes::lt(18446744073709551615, 0));
/// ```
///
/// Cited by rows A40; clause vstd_integers/Compare.lt; contract promisebook_usize::pb_usize_lt; law
/// vstd_integers/Compare.lt_kept; pinned by vstd_integers/Pinned.pinned_equation; refused
/// ordering/is_lt.equal_is_less, greater_is_less.
#[inline]
#[must_use]
pub fn lt(x: usize, y: usize) -> bool {
    exported::pb_usize_lt(x, y)
}

/// Whether `x` is less than `y` or equal to it.
///
/// ```
/// use promisebook::usizes;
/// assert!(usizes::le(3, 5));
/// assert!(usizes::le(5, 5));
/// assert!(!usizes::le(18446744073709551615, 0));
/// ```
///
/// Cited by rows A41; clause vstd_integers/Compare.le; contract promisebook_usize::pb_usize_le; law
/// vstd_integers/Compare.le_kept; pinned by vstd_integers/Pinned.pinned_equation; refused
/// ordering/is_le.equal_is_more, greater_is_at_most, vstd_integers/le.equal_is_more.
#[inline]
#[must_use]
pub fn le(x: usize, y: usize) -> bool {
    exported::pb_usize_le(x, y)
}

/// Whether `x` is greater than `y`.
///
/// ```
/// use promisebook::usizes;
/// assert!(!usizes::gt(3, 5));
/// assert!(!usizes::gt(5, 5));
/// assert!(usizes::gt(18446744073709551615, 0));
/// ```
///
/// Cited by rows A42; clause vstd_integers/Compare.gt; contract promisebook_usize::pb_usize_gt; law
/// vstd_integers/Compare.gt_kept; pinned by vstd_integers/Pinned.pinned_equation; refused
/// ordering/is_gt.equal_is_greater, less_is_greater.
#[inline]
#[must_use]
pub fn gt(x: usize, y: usize) -> bool {
    exported::pb_usize_gt(x, y)
}

/// Whether `x` is greater than `y` or equal to it.
///
/// ```
/// use promisebook::usizes;
/// assert!(!usizes::ge(3, 5));
/// assert!(usizes::ge(5, 5));
/// assert!(usizes::ge(18446744073709551615, 0));
/// ```
///
/// Cited by rows A43; clause vstd_integers/Compare.ge; contract promisebook_usize::pb_usize_ge; law
/// vstd_integers/Compare.ge_kept; pinned by vstd_integers/Pinned.pinned_equation; refused
/// ordering/is_ge.equal_is_less, less_is_at_least.
#[inline]
#[must_use]
pub fn ge(x: usize, y: usize) -> bool {
    exported::pb_usize_ge(x, y)
}

/// How `x` stands to `y`: less (-1), equal (0) or greater (1).
///
/// ```
/// use core::cmp::Ordering;
/// use promisebook::usizes;
/// assert_eq!(usizes::cmp(3, 5), Ordering::Less);
/// assert_eq!(usizes::cmp(5, 5), Ordering::Equal);
/// assert_eq!(usizes::cmp(18446744073709551615, 0), Ordering::Greater);
/// ```
///
/// Cited by rows A38; clause vstd_integers/Compare.cmp; contract promisebook_usize::pb_usize_cmp; law
/// vstd_integers/Compare.cmp_kept; pinned by vstd_integers/Pinned.pinned_equation; refused
/// ordering/number.greater_is_0, less_is_1, unsigned_order/compare.equal_is_greater, less_is_greater,
/// signed_order/compare.equal_is_greater, less_is_greater.
#[inline]
#[must_use]
pub fn cmp(x: usize, y: usize) -> Ordering {
    ordering(exported::pb_usize_cmp(x, y))
}

/// How `x` stands to `y`: less (-1), equal (0) or greater (1). Never refused.
///
/// ```
/// use core::cmp::Ordering;
/// use promisebook::usizes;
/// assert_eq!(usizes::partial_cmp(3, 5), Some(Ordering::Less));
/// assert_eq!(usizes::partial_cmp(5, 5), Some(Ordering::Equal));
/// assert_eq!(usizes::partial_cmp(18446744073709551615, 0), Some(Ordering::Greater));
/// ```
///
/// Cited by rows A39; clause vstd_integers/Compare.cmp; contract promisebook_usize::pb_usize_partial_cmp; law
/// vstd_integers/Compare.cmp_kept; pinned by vstd_integers/Pinned.pinned_option.
#[inline]
#[must_use]
pub fn partial_cmp(x: usize, y: usize) -> Option<Ordering> {
    let answer = exported::pb_usize_partial_cmp(x, y);
    answer.ok.then_some(ordering(answer.value))
}

/// The number that `s` says in decimal: one figure or more from 0 to 9, without a sign. Zeros in front are read,
/// and '+' is not. Refused with the reason where it says no number, and where that is above 18446744073709551615.
///
/// ```
/// use promisebook::{usizes, NotDecimal};
/// assert_eq!(usizes::read_decimal(b"18446744073709551615"), Ok(18446744073709551615));
/// assert_eq!(usizes::read_decimal(b"18446744073709551616"), Err(NotDecimal::TooLarge));
/// assert_eq!(usizes::read_decimal(b"0"), Ok(0));
/// assert_eq!(usizes::read_decimal(b"-1"), Err(NotDecimal::NoNumber));
/// assert_eq!(usizes::read_decimal(b"007"), Ok(7));
/// assert_eq!(usizes::read_decimal(b"-0"), Err(NotDecimal::NoNumber));
/// assert_eq!(usizes::read_decimal(b"+5"), Err(NotDecimal::NoNumber));
/// assert_eq!(usizes::read_decimal(b"-"), Err(NotDecimal::NoNumber));
/// assert_eq!(usizes::read_decimal(b""), Err(NotDecimal::NoNumber));
/// assert_eq!(usizes::read_decimal(b"42"), Ok(42));
/// assert_eq!(usizes::read_decimal(b"=42"), Err(NotDecimal::NoNumber));
/// ```
///
/// Cited by rows F6; clause theory_decimal/Read.natural_in, read_in; contract
/// promisebook_decimal::pb_usize_read_decimal; law theory_decimal/Reading.so_far_all, no_text, past_the_end;
/// pinned by vstd_integers/Pinned.pinned_unsigned_option; refused decimal_read/read_u64.colon_is_a_figure,
/// largest_number_refused, last_figure_left_out, nothing_is_zero, runs_over,
/// decimal_read/read_u8.largest_number_refused, too_large_taken, promisebook_decimal/read_decimal.too_large.
#[inline]
pub fn read_decimal(s: &[u8]) -> Result<usize, NotDecimal> {
    let answer = exported::usize_read_decimal(s, 0, s.len());
    answer.ok.then_some(answer.value).ok_or_else(|| not_decimal(s, false))
}

/// The number that the part says in decimal: one figure or more from 0 to 9, without a sign. Zeros in front are
/// read, and '+' is not. Refused with the reason where it says no number, and where that is above
/// 18446744073709551615. Refused, too, where `s` has no such part.
///
/// ```
/// use promisebook::{usizes, NotDecimal};
/// let s = b"n=42;";
/// assert_eq!(usizes::read_decimal_in(s, 2..4), Some(Ok(42)));
/// assert_eq!(usizes::read_decimal_in(s, 1..4), Some(Err(NotDecimal::NoNumber)));
/// assert_eq!(usizes::read_decimal_in(s, 2..6), None);
/// assert_eq!(usizes::read_decimal_in(s, 4..2), None);
/// ```
///
/// Cited by rows F6; clause theory_decimal/Read.natural_in, read_in; contract
/// promisebook_decimal::pb_usize_read_decimal; law theory_decimal/Reading.so_far_all, no_text, past_the_end;
/// pinned by vstd_integers/Pinned.pinned_unsigned_option; refused decimal_read/read_u64.colon_is_a_figure,
/// largest_number_refused, last_figure_left_out, nothing_is_zero, runs_over,
/// decimal_read/read_u8.largest_number_refused, too_large_taken, promisebook_decimal/read_decimal.too_large.
#[inline]
#[must_use]
pub fn read_decimal_in(s: &[u8], part: Range<usize>) -> Option<Result<usize, NotDecimal>> {
    Some(read_decimal(s.get(part)?))
}

/// Writes `x` in decimal at the start of `s`, with no zero in front, changes no other byte, and answers how many
/// bytes it has written. Refused where they do not fit.
///
/// ```
/// use promisebook::usizes;
/// let mut s = *b".....................";
/// assert_eq!(usizes::write_decimal(&mut s, 18446744073709551615), Some(20));
/// assert_eq!(s, *b"18446744073709551615.");
/// let mut s = *b"..";
/// assert_eq!(usizes::write_decimal(&mut s, 0), Some(1));
/// assert_eq!(s, *b"0.");
/// let mut s = *b"..";
/// assert_eq!(usizes::write_decimal(&mut s, 10), Some(2));
/// assert_eq!(s, *b"10");
/// let mut s = *b".";
/// assert_eq!(usizes::write_decimal(&mut s, 0), Some(1));
/// assert_eq!(s, *b"0");
/// let mut s = *b"...................";
/// assert_eq!(usizes::write_decimal(&mut s, 18446744073709551615), None);
/// assert_eq!(s, *b"...................");
/// let mut s = *b".";
/// assert_eq!(usizes::write_decimal(&mut s, 10), None);
/// assert_eq!(s, *b".");
/// ```
///
/// Cited by rows F8; clause theory_decimal/Written.Shows, natural; contract
/// promisebook_decimal::pb_usize_write_decimal; law theory_decimal/Showing.natural_shown; pinned by
/// theory_decimal/Showing.pinned_shows; refused decimal_write/write_u64.last_place_refused, ten_in_one_place,
/// tens_lost, theory_decimal/shows.refusal_counts_anything.
#[inline]
#[must_use]
pub fn write_decimal(s: &mut [u8], x: usize) -> Option<usize> {
    let answer = exported::usize_write_decimal(x, s, 0);
    answer.ok.then_some(answer.value)
}

/// Writes `x` in decimal at the start of the part, with no zero in front, changes no other byte, and answers how
/// many bytes it has written. Refused where they do not fit. Refused, too, where `s` has no such part.
///
/// ```
/// use promisebook::usizes;
/// let mut s = *b"......................";
/// assert_eq!(usizes::write_decimal_in(&mut s, 1..22, 18446744073709551615), Some(20));
/// assert_eq!(s, *b".18446744073709551615.");
/// let mut s = *b"...";
/// assert_eq!(usizes::write_decimal_in(&mut s, 1..3, 0), Some(1));
/// assert_eq!(s, *b".0.");
/// let mut s = *b"...";
/// assert_eq!(usizes::write_decimal_in(&mut s, 2..3, 0), Some(1));
/// assert_eq!(s, *b"..0");
/// let mut s = *b"....................";
/// assert_eq!(usizes::write_decimal_in(&mut s, 1..20, 18446744073709551615), None);
/// assert_eq!(s, *b"....................");
/// let mut s = *b".";
/// assert_eq!(usizes::write_decimal_in(&mut s, 2..1, 7), None);
/// assert_eq!(s, *b".");
/// ```
///
/// Cited by rows F8; clause theory_decimal/Written.Shows, natural; contract
/// promisebook_decimal::pb_usize_write_decimal; law theory_decimal/Showing.natural_shown; pinned by
/// theory_decimal/Showing.pinned_shows; refused decimal_write/write_u64.last_place_refused, ten_in_one_place,
/// tens_lost, theory_decimal/shows.refusal_counts_anything.
#[inline]
#[must_use]
pub fn write_decimal_in(s: &mut [u8], part: Range<usize>, x: usize) -> Option<usize> {
    write_decimal(s.get_mut(part)?, x)
}
