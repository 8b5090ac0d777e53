//! Operations on isize, the signed numbers of 64 bits: -9223372036854775808 to 9223372036854775807.

use crate::exported;
use crate::ordering;
use crate::{not_decimal, NotDecimal};
use core::cmp::Ordering;
use core::ops::Range;

/// The sum `x + y`, wrapped: the signed number of 64 bits that differs from it by a multiple of 2^64.
///
/// ```
/// use promisebook::isizes;
/// assert_eq!(isizes::wrapping_add(9223372036854775780, 100), -9223372036854775736);
/// assert_eq!(isizes::wrapping_add(-100, 100), 0);
/// ```
///
/// Cited by rows A20; clause vstd_integers/Signed.wrapping_add; contract
/// promisebook_isize::pb_isize_wrapping_add; law vstd_integers/Signed.wrapping_add_kept; pinned by
/// vstd_integers/Pinned.pinned_equation; refused signed_sums/wrapping_add.complement, twice.
#[inline]
#[must_use]
pub fn wrapping_add(x: isize, y: isize) -> isize {
    exported::pb_isize_wrapping_add(x, y)
}

/// The sum `x + y`, wrapped: the signed number of 64 bits that differs from it by a multiple of 2^64.
///
/// ```
/// use promisebook::isizes;
/// assert_eq!(isizes::wrapping_add_unsigned(-9223372036854775780, 18446744073709551560), 9223372036854775780);
/// assert_eq!(isizes::wrapping_add_unsigned(100, 18446744073709551560), 44);
/// ```
///
/// Cited by rows A21; clause vstd_integers/Signed.wrapping_add_unsigned; contract
/// promisebook_isize::pb_isize_wrapping_add_unsigned; law vstd_integers/Signed.wrapping_add_unsigned_kept; pinned
/// by vstd_integers/Pinned.pinned_equation; refused signed_sums/wrapping_add_unsigned.complement, subtracts.
#[inline]
#[must_use]
pub fn wrapping_add_unsigned(x: isize, y: usize) -> isize {
    exported::pb_isize_wrapping_add_unsigned(x, y)
}

/// The difference `x - y`, wrapped: the signed number of 64 bits that differs from it by a multiple of 2^64.
///
/// ```
/// use promisebook::isizes;
/// assert_eq!(isizes::wrapping_sub(-9223372036854775808, 1), 9223372036854775807);
/// assert_eq!(isizes::wrapping_sub(-9223372036854775807, 1), -9223372036854775808);
/// ```
///
/// Cited by rows A22; clause vstd_integers/Signed.wrapping_sub; contract
/// promisebook_isize::pb_isize_wrapping_sub; law vstd_integers/Signed.wrapping_sub_kept; pinned by
/// vstd_integers/Pinned.pinned_equation; refused signed_sums/wrapping_sub.nothing_left, other_way_round,
/// vstd_integers/wrapping_sub.passes_the_top.
#[inline]
#[must_use]
pub fn wrapping_sub(x: isize, y: isize) -> isize {
    exported::pb_isize_wrapping_sub(x, y)
}

/// The product `x * y`, wrapped: the signed number of 64 bits that differs from it by a multiple of 2^64.
///
/// ```
/// use promisebook::isizes;
/// assert_eq!(isizes::wrapping_mul(-9223372036854775808, -1), -9223372036854775808);
/// assert_eq!(isizes::wrapping_mul(-9223372036854775807, -1), 9223372036854775807);
/// ```
///
/// Cited by rows A23; clause vstd_integers/Signed.wrapping_mul; contract
/// promisebook_isize::pb_isize_wrapping_mul; law vstd_integers/Signed.wrapping_mul_kept; pinned by
/// vstd_integers/Pinned.pinned_equation; refused signed_sums/wrapping_mul.complement, square.
#[inline]
#[must_use]
pub fn wrapping_mul(x: isize, y: isize) -> isize {
    exported::pb_isize_wrapping_mul(x, y)
}

/// `x` shifted to the left by `rhs` modulo 64: zeros come in, and what leaves the 64 bits is lost.
///
/// ```
/// use promisebook::isizes;
/// assert_eq!(isizes::wrapping_shl(1, 65), 2);
/// assert_eq!(isizes::wrapping_shl(3, 63), -9223372036854775808);
/// ```
///
/// Cited by rows A24; clause vstd_integers/Signed.wrapping_shl; contract
/// promisebook_isize::pb_isize_wrapping_shl; law vstd_integers/Signed.wrapping_shl_kept; pinned by
/// vstd_integers/Pinned.pinned_equation; refused signed_bits/wrapping_shl.by_the_width_is_0, modulo_7.
#[inline]
#[must_use]
pub fn wrapping_shl(x: isize, rhs: u32) -> isize {
    exported::pb_isize_wrapping_shl(x, rhs)
}

/// `x` shifted to the right by `rhs` modulo 64: the sign comes in, so that it is the quotient by 2 to that power,
/// rounded down.
///
/// ```
/// use promisebook::isizes;
/// assert_eq!(isizes::wrapping_shr(-9223372036854775808, 127), -1);
/// assert_eq!(isizes::wrapping_shr(-7, 65), -4);
/// ```
///
/// Cited by rows A25; clause vstd_integers/Signed.wrapping_shr; contract
/// promisebook_isize::pb_isize_wrapping_shr; law vstd_integers/Signed.wrapping_shr_kept; pinned by
/// vstd_integers/Pinned.pinned_equation; refused signed_bits/wrapping_shr.modulo_7, towards_zero.
#[inline]
#[must_use]
pub fn wrapping_shr(x: isize, rhs: u32) -> isize {
    exported::pb_isize_wrapping_shr(x, rhs)
}

/// The sum `x + y`. Refused where it is not from -9223372036854775808 to 9223372036854775807.
///
/// ```
/// use promisebook::isizes;
/// assert_eq!(isizes::checked_add(9223372036854775780, 100), None);
/// assert_eq!(isizes::checked_add(-100, 100), Some(0));
/// ```
///
/// Cited by rows A26; clause vstd_integers/Signed.checked_add; contract promisebook_isize::pb_isize_checked_add;
/// law vstd_integers/Signed.checked_add_kept; pinned by vstd_integers/Pinned.pinned_option; refused
/// signed_sums/checked_add.first_summand, largest_refused, other_signs_refused.
#[inline]
#[must_use]
pub fn checked_add(x: isize, y: isize) -> Option<isize> {
    let answer = exported::pb_isize_checked_add(x, y);
    answer.ok.then_some(answer.value)
}

/// The sum `x + y`. Refused where it is not from -9223372036854775808 to 9223372036854775807.
///
/// ```
/// use promisebook::isizes;
/// assert_eq!(isizes::checked_add_unsigned(-9223372036854775780, 18446744073709551560), Some(9223372036854775780));
/// assert_eq!(isizes::checked_add_unsigned(100, 18446744073709551560), None);
/// ```
///
/// Cited by rows A27; clause vstd_integers/Signed.checked_add_unsigned; contract
/// promisebook_isize::pb_isize_checked_add_unsigned; law vstd_integers/Signed.checked_add_unsigned_kept; pinned
/// by vstd_integers/Pinned.pinned_option; refused signed_sums/checked_add_unsigned.first_summand, rise_refused.
#[inline]
#[must_use]
pub fn checked_add_unsigned(x: isize, y: usize) -> Option<isize> {
    let answer = exported::pb_isize_checked_add_unsigned(x, y);
    answer.ok.then_some(answer.value)
}

/// The difference `x - y`. Refused where it is not from -9223372036854775808 to 9223372036854775807.
///
/// ```
/// use promisebook::isizes;
/// assert_eq!(isizes::checked_sub(-9223372036854775808, 1), None);
/// assert_eq!(isizes::checked_sub(-9223372036854775807, 1), Some(-9223372036854775808));
/// ```
///
/// Cited by rows A28; clause vstd_integers/Signed.checked_sub; contract promisebook_isize::pb_isize_checked_sub;
/// law vstd_integers/Signed.checked_sub_kept; pinned by vstd_integers/Pinned.pinned_option; refused
/// signed_sums/checked_sub.least_refused, other_way_round, other_signs_refused.
#[inline]
#[must_use]
pub fn checked_sub(x: isize, y: isize) -> Option<isize> {
    let answer = exported::pb_isize_checked_sub(x, y);
    answer.ok.then_some(answer.value)
}

/// The difference `x - y`. Refused where it is not from -9223372036854775808 to 9223372036854775807.
///
/// ```
/// use promisebook::isizes;
/// assert_eq!(isizes::checked_sub_unsigned(100, 200), Some(-100));
/// assert_eq!(isizes::checked_sub_unsigned(-9223372036854775780, 200), None);
/// ```
///
/// Cited by rows A29; clause vstd_integers/Signed.checked_sub_unsigned; contract
/// promisebook_isize::pb_isize_checked_sub_unsigned; law vstd_integers/Signed.checked_sub_unsigned_kept; pinned
/// by vstd_integers/Pinned.pinned_option; refused signed_sums/checked_sub_unsigned.fall_refused, first_number.
#[inline]
#[must_use]
pub fn checked_sub_unsigned(x: isize, y: usize) -> Option<isize> {
    let answer = exported::pb_isize_checked_sub_unsigned(x, y);
    answer.ok.then_some(answer.value)
}

/// The product `x * y`. Refused where it is not from -9223372036854775808 to 9223372036854775807.
///
/// ```
/// use promisebook::isizes;
/// assert_eq!(isizes::checked_mul(-9223372036854775808, -1), None);
/// assert_eq!(isizes::checked_mul(-9223372036854775807, -1), Some(9223372036854775807));
/// ```
///
/// Cited by rows A30; clause vstd_integers/Signed.checked_mul; contract promisebook_isize::pb_isize_checked_mul;
/// law vstd_integers/Signed.checked_mul_kept; pinned by vstd_integers/Pinned.pinned_option; refused
/// signed_sums/checked_mul.larger_quotient_taken, square.
#[inline]
#[must_use]
pub fn checked_mul(x: isize, y: isize) -> Option<isize> {
    let answer = exported::pb_isize_checked_mul(x, y);
    answer.ok.then_some(answer.value)
}

/// The quotient of `x` by `y`, rounded towards zero. Refused where `y` is 0, and where `x` is
/// -9223372036854775808 and `y` is -1, since the quotient does not fit.
///
/// ```
/// use promisebook::isizes;
/// assert_eq!(isizes::checked_div(7, 3), Some(2));
/// assert_eq!(isizes::checked_div(-7, 3), Some(-2));
/// assert_eq!(isizes::checked_div(7, -3), Some(-2));
/// assert_eq!(isizes::checked_div(-7, -3), Some(2));
/// assert_eq!(isizes::checked_div(-9223372036854775808, -1), None);
/// assert_eq!(isizes::checked_div(7, 0), None);
/// ```
///
/// Cited by rows A31; clause vstd_integers/Signed.checked_div; contract promisebook_isize::pb_isize_checked_div;
/// law vstd_integers/Signed.checked_div_kept; pinned by vstd_integers/Pinned.pinned_option; refused
/// signed_division/checked_div.least_by_minus_one_wraps, other_dividend, vstd_integers/checked_div.euclidean,
/// vstd_integers/divided_unless.least_by_minus_one_not_refused.
#[inline]
#[must_use]
pub fn checked_div(x: isize, y: isize) -> Option<isize> {
    let answer = exported::pb_isize_checked_div(x, y);
    answer.ok.then_some(answer.value)
}

/// The quotient of `x` by `y` whose remainder is not negative. Refused where `y` is 0, and where `x` is
/// -9223372036854775808 and `y` is -1, since the quotient does not fit.
///
/// ```
/// use promisebook::isizes;
/// assert_eq!(isizes::checked_div_euclid(7, 3), Some(2));
/// assert_eq!(isizes::checked_div_euclid(-7, 3), Some(-3));
/// assert_eq!(isizes::checked_div_euclid(7, -3), Some(-2));
/// assert_eq!(isizes::checked_div_euclid(-7, -3), Some(3));
/// assert_eq!(isizes::checked_div_euclid(-9223372036854775808, -1), None);
/// assert_eq!(isizes::checked_div_euclid(7, 0), None);
/// ```
///
/// Cited by rows A32; clause vstd_integers/Signed.checked_div_euclid; contract
/// promisebook_isize::pb_isize_checked_div_euclid; law vstd_integers/Signed.checked_div_euclid_kept; pinned by
/// vstd_integers/Pinned.pinned_option; refused signed_division/checked_div_euclid.not_mended, towards_zero,
/// promisebook_i8/checked_div_euclid.towards_zero.
#[inline]
#[must_use]
pub fn checked_div_euclid(x: isize, y: isize) -> Option<isize> {
    let answer = exported::pb_isize_checked_div_euclid(x, y);
    answer.ok.then_some(answer.value)
}

/// The remainder of `x` by `y`, which has the sign of `x`. Refused where `y` is 0, and where `x` is
/// -9223372036854775808 and `y` is -1, since the quotient does not fit.
///
/// ```
/// use promisebook::isizes;
/// assert_eq!(isizes::checked_rem(7, 3), Some(1));
/// assert_eq!(isizes::checked_rem(-7, 3), Some(-1));
/// assert_eq!(isizes::checked_rem(7, -3), Some(1));
/// assert_eq!(isizes::checked_rem(-7, -3), Some(-1));
/// assert_eq!(isizes::checked_rem(-9223372036854775808, -1), None);
/// assert_eq!(isizes::checked_rem(7, 0), None);
/// ```
///
/// Cited by rows A33; clause vstd_integers/Signed.checked_rem; contract promisebook_isize::pb_isize_checked_rem;
/// law vstd_integers/Signed.checked_rem_kept; pinned by vstd_integers/Pinned.pinned_option; refused
/// signed_division/checked_rem.euclidean, least_by_minus_one_is_0, promisebook_i8/checked_rem.euclidean.
#[inline]
#[must_use]
pub fn checked_rem(x: isize, y: isize) -> Option<isize> {
    let answer = exported::pb_isize_checked_rem(x, y);
    answer.ok.then_some(answer.value)
}

/// The remainder of `x` by `y` that is not negative. Refused where `y` is 0, and where `x` is
/// -9223372036854775808 and `y` is -1, since the quotient does not fit.
///
/// ```
/// use promisebook::isizes;
/// assert_eq!(isizes::checked_rem_euclid(7, 3), Some(1));
/// assert_eq!(isizes::checked_rem_euclid(-7, 3), Some(2));
/// assert_eq!(isizes::checked_rem_euclid(7, -3), Some(1));
/// assert_eq!(isizes::checked_rem_euclid(-7, -3), Some(2));
/// assert_eq!(isizes::checked_rem_euclid(-9223372036854775808, -1), None);
/// assert_eq!(isizes::checked_rem_euclid(7, 0), None);
/// ```
///
/// Cited by rows A34; clause vstd_integers/Signed.checked_rem_euclid; contract
/// promisebook_isize::pb_isize_checked_rem_euclid; law vstd_integers/Signed.checked_rem_euclid_kept; pinned by
/// vstd_integers/Pinned.pinned_option; refused signed_division/checked_rem_euclid.absolute_value, not_mended.
#[inline]
#[must_use]
pub fn checked_rem_euclid(x: isize, y: isize) -> Option<isize> {
    let answer = exported::pb_isize_checked_rem_euclid(x, y);
    answer.ok.then_some(answer.value)
}

/// `x` itself.
///
/// ```
/// use promisebook::isizes;
/// assert_eq!(isizes::clone(9223372036854775807), 9223372036854775807);
/// assert_eq!(isizes::clone(-9223372036854775808), -9223372036854775808);
/// ```
///
/// Cited by rows A35; clause vstd_integers/Compare.clone; contract promisebook_isize::pb_isize_clone; law
/// vstd_integers/Compare.clone_kept; pinned by vstd_integers/Pinned.pinned_unsigned, pinned_equation; refused
/// promisebook_u8/clone.always_0, promisebook_i8/clone.always_0.
#[inline]
#[must_use]
pub fn clone(x: isize) -> isize {
    exported::pb_isize_clone(x)
}

/// Whether `x` and `y` are equal.
///
/// ```
/// use promisebook::isizes;
/// assert!(!isizes::eq(3, 5));
/// assert!(isizes::eq(5, 5));
/// assert!(!isizes::eq(9223372036854775807, -9223372036854775808));
/// ```
///
/// Cited by rows A36; clause vstd_integers/Compare.eq; contract promisebook_isize::pb_isize_eq; law
/// vstd_integers/Compare.eq_kept; pinned by vstd_integers/Pinned.pinned_equation; refused
/// ordering/is_eq.less_is_equal, never.
#[inline]
#[must_use]
pub fn eq(x: isize, y: isize) -> bool {
    exported::pb_isize_eq(x, y)
}

/// Whether `x` and `y` differ.
///
/// ```
/// use promisebook::isizes;
/// assert!(isizes::ne(3, 5));
/// assert!(!isizes::ne(5, 5));
/// assert!(isizes::ne(9223372036854775807, -9223372036854775808));
/// ```
///
/// Cited by rows A37; clause vstd_integers/Compare.ne; contract promisebook_isize::pb_isize_ne; law
/// vstd_integers/Compare.ne_kept; pinned by vstd_integers/Pinned.pinned_equation; refused
/// ordering/is_ne.equal_differs, greater_only.
#[inline]
#[must_use]
pub fn ne(x: isize, y: isize) -> bool {
    exported::pb_isize_ne(x, y)
}

/// Whether `x` is less than `y`.
///
/// ```
/// use promisebook::isizes;
/// assert!(isizes::lt(3, 5));
/// assert!(!isizes::lt(5, 5));
/// assert!(!isizes::lt(9223372036854775807, -9223372036854775808));
/// ```
///
/// Cited by rows A40; clause vstd_integers/Compare.lt; contract promisebook_isize::pb_isize_lt; law
/// vstd_integers/Compare.lt_kept; pinned by vstd_integers/Pinned.pinned_equation; refused
/// ordering/is_lt.equal_is_less, greater_is_less.
#[inline]
#[must_use]
pub fn lt(x: isize, y: isize) -> bool {
    exported::pb_isize_lt(x, y)
}

/// Whether `x` is less than `y` or equal to it.
///
/// ```
/// use promisebook::isizes;
/// assert!(isizes::le(3, 5));
/// assert!(isizes::le(5, 5));
/// assert!(!isizes::le(9223372036854775807, -9223372036854775808));
/// ```
///
/// Cited by rows A41; clause vstd_integers/Compare.le; contract promisebook_isize::pb_isize_le; law
/// vstd_integers/Compare.le_kept; pinned by vstd_integers/Pinned.pinned_equation; refused
/// ordering/is_le.equal_is_more, greater_is_at_most, vstd_integers/le.equal_is_more.
#[inline]
#[must_use]
pub fn le(x: isize, y: isize) -> bool {
    exported::pb_isize_le(x, y)
}

/// Whether `x` is greater than `y`.
///
/// ```
/// use promisebook::isizes;
/// assert!(!isizes::gt(3, 5));
/// assert!(!isizes::gt(5, 5));
/// assert!(isizes::gt(9223372036854775807, -9223372036854775808));
/// ```
///
/// Cited by rows A42; clause vstd_integers/Compare.gt; contract promisebook_isize::pb_isize_gt; law
/// vstd_integers/Compare.gt_kept; pinned by vstd_integers/Pinned.pinned_equation; refused
/// ordering/is_gt.equal_is_greater, less_is_greater.
#[inline]
#[must_use]
pub fn gt(x: isize, y: isize) -> bool {
    exported::pb_isize_gt(x, y)
}

/// Whether `x` is greater than `y` or equal to it.
///
/// ```
/// use promisebook::isizes;
/// assert!(!isizes::ge(3, 5));
/// assert!(isizes::ge(5, 5));
/// assert!(isizes::ge(9223372036854775807, -9223372036854775808));
/// ```
///
/// Cited by rows A43; clause vstd_integers/Compare.ge; contract promisebook_isize::pb_isize_ge; law
/// vstd_integers/Compare.ge_kept; pinned by vstd_integers/Pinned.pinned_equation; refused
/// ordering/is_ge.equal_is_less, less_is_at_least.
#[inline]
#[must_use]
pub fn ge(x: isize, y: isize) -> bool {
    exported::pb_isize_ge(x, y)
}

/// How `x` stands to `y`: less (-1), equal (0) or greater (1).
///
/// ```
/// use core::cmp::Ordering;
/// use promisebook::isizes;
/// assert_eq!(isizes::cmp(3, 5), Ordering::Less);
/// assert_eq!(isizes::cmp(5, 5), Ordering::Equal);
/// assert_eq!(isizes::cmp(9223372036854775807, -9223372036854775808), Ordering::Greater);
/// ```
///
/// Cited by rows A38; clause vstd_integers/Compare.cmp; contract promisebook_isize::pb_isize_cmp; law
/// vstd_integers/Compare.cmp_kept; pinned by vstd_integers/Pinned.pinned_equation; refused
/// ordering/number.greater_is_0, less_is_1, unsigned_order/compare.equal_is_greater, less_is_greater,
/// signed_order/compare.equal_is_greater, less_is_greater.
#[inline]
#[must_use]
pub fn cmp(x: isize, y: isize) -> Ordering {
    ordering(exported::pb_isize_cmp(x, y))
}

/// How `x` stands to `y`: less (-1), equal (0) or greater (1). Never refused.
///
/// ```
/// use core::cmp::Ordering;
/// use promisebook::isizes;
/// assert_eq!(isizes::partial_cmp(3, 5), Some(Ordering::Less));
/// assert_eq!(isizes::partial_cmp(5, 5), Some(Ordering::Equal));
/// assert_eq!(isizes::partial_cmp(9223372036854775807, -9223372036854775808), Some(Ordering::Greater));
/// ```
///
/// Cited by rows A39; clause vstd_integers/Compare.cmp; contract promisebook_isize::pb_isize_partial_cmp; law
/// vstd_integers/Compare.cmp_kept; pinned by vstd_integers/Pinned.pinned_option.
#[inline]
#[must_use]
pub fn partial_cmp(x: isize, y: isize) -> Option<Ordering> {
    let answer = exported::pb_isize_partial_cmp(x, y);
    answer.ok.then_some(ordering(answer.value))
}

/// The number that `s` says in decimal: one figure or more from 0 to 9, with '-' in front or without. Zeros in
/// front are read, and '+' is not. Refused with the reason where it says no number, and where that is not from
/// -9223372036854775808 to 9223372036854775807.
///
/// ```
/// use promisebook::{isizes, NotDecimal};
/// assert_eq!(isizes::read_decimal(b"9223372036854775807"), Ok(9223372036854775807));
/// assert_eq!(isizes::read_decimal(b"9223372036854775808"), Err(NotDecimal::TooLarge));
/// assert_eq!(isizes::read_decimal(b"-9223372036854775808"), Ok(-9223372036854775808));
/// assert_eq!(isizes::read_decimal(b"-9223372036854775809"), Err(NotDecimal::TooLarge));
/// assert_eq!(isizes::read_decimal(b"007"), Ok(7));
/// assert_eq!(isizes::read_decimal(b"-0"), Ok(0));
/// assert_eq!(isizes::read_decimal(b"+5"), Err(NotDecimal::NoNumber));
/// assert_eq!(isizes::read_decimal(b"-"), Err(NotDecimal::NoNumber));
/// assert_eq!(isizes::read_decimal(b""), Err(NotDecimal::NoNumber));
/// assert_eq!(isizes::read_decimal(b"42"), Ok(42));
/// assert_eq!(isizes::read_decimal(b"=42"), Err(NotDecimal::NoNumber));
/// ```
///
/// Cited by rows F7; clause theory_decimal/Read.whole_in, read_in; contract
/// promisebook_decimal::pb_isize_read_decimal; pinned by vstd_integers/Pinned.pinned_option; refused
/// decimal_read_signed/read_i8.sign_lost, sign_read_as_a_figure, promisebook_decimal/read_decimal.sign_refused.
#[inline]
pub fn read_decimal(s: &[u8]) -> Result<isize, NotDecimal> {
    let answer = exported::isize_read_decimal(s, 0, s.len());
    answer.ok.then_some(answer.value).ok_or_else(|| not_decimal(s, true))
}

/// The number that the part says in decimal: one figure or more from 0 to 9, with '-' in front or without. Zeros
/// in front are read, and '+' is not. Refused with the reason where it says no number, and where that is not from
/// -9223372036854775808 to 9223372036854775807. Refused, too, where `s` has no such part.
///
/// ```
/// use promisebook::{isizes, NotDecimal};
/// let s = b"n=42;";
/// assert_eq!(isizes::read_decimal_in(s, 2..4), Some(Ok(42)));
/// assert_eq!(isizes::read_decimal_in(s, 1..4), Some(Err(NotDecimal::NoNumber)));
/// assert_eq!(isizes::read_decimal_in(s, 2..6), None);
/// assert_eq!(isizes::read_decimal_in(s, 4..2), None);
/// ```
///
/// Cited by rows F7; clause theory_decimal/Read.whole_in, read_in; contract
/// promisebook_decimal::pb_isize_read_decimal; pinned by vstd_integers/Pinned.pinned_option; refused
/// decimal_read_signed/read_i8.sign_lost, sign_read_as_a_figure, promisebook_decimal/read_decimal.sign_refused.
#[inline]
#[must_use]
pub fn read_decimal_in(s: &[u8], part: Range<usize>) -> Option<Result<isize, NotDecimal>> {
    Some(read_decimal(s.get(part)?))
}

/// Writes `x` in decimal at the start of `s`, with no zero in front and '-' before a negative number, changes no
/// other byte, and answers how many bytes it has written. Refused where they do not fit.
///
/// ```
/// use promisebook::isizes;
/// let mut s = *b"....................";
/// assert_eq!(isizes::write_decimal(&mut s, 9223372036854775807), Some(19));
/// assert_eq!(s, *b"9223372036854775807.");
/// let mut s = *b".....................";
/// assert_eq!(isizes::write_decimal(&mut s, -9223372036854775808), Some(20));
/// assert_eq!(s, *b"-9223372036854775808.");
/// let mut s = *b"..";
/// assert_eq!(isizes::write_decimal(&mut s, 10), Some(2));
/// assert_eq!(s, *b"10");
/// let mut s = *b".";
/// assert_eq!(isizes::write_decimal(&mut s, 0), Some(1));
/// assert_eq!(s, *b"0");
/// let mut s = *b"..................";
/// assert_eq!(isizes::write_decimal(&mut s, 9223372036854775807), None);
/// assert_eq!(s, *b"..................");
/// let mut s = *b".";
/// assert_eq!(isizes::write_decimal(&mut s, 10), None);
/// assert_eq!(s, *b".");
/// ```
///
/// Cited by rows F9; clause theory_decimal/Written.Shows, whole; contract
/// promisebook_decimal::pb_isize_write_decimal; law theory_decimal/Showing.with_sign_shown; pinned by
/// theory_decimal/Showing.pinned_shows; refused decimal_write/write_i8.sign_left_out, zero_with_a_sign.
#[inline]
#[must_use]
pub fn write_decimal(s: &mut [u8], x: isize) -> Option<usize> {
    let answer = exported::isize_write_decimal(x, s, 0);
    answer.ok.then_some(answer.value)
}

/// Writes `x` in decimal at the start of the part, with no zero in front and '-' before a negative number,
/// changes no other byte, and answers how many bytes it has written. Refused where they do not fit. Refused, too,
/// where `s` has no such part.
///
/// ```
/// use promisebook::isizes;
/// let mut s = *b".....................";
/// assert_eq!(isizes::write_decimal_in(&mut s, 1..21, 9223372036854775807), Some(19));
/// assert_eq!(s, *b".9223372036854775807.");
/// let mut s = *b"......................";
/// assert_eq!(isizes::write_decimal_in(&mut s, 1..22, -9223372036854775808), Some(20));
/// assert_eq!(s, *b".-9223372036854775808.");
/// let mut s = *b"...";
/// assert_eq!(isizes::write_decimal_in(&mut s, 2..3, 0), Some(1));
/// assert_eq!(s, *b"..0");
/// let mut s = *b"...................";
/// assert_eq!(isizes::write_decimal_in(&mut s, 1..19, 9223372036854775807), None);
/// assert_eq!(s, *b"...................");
/// let mut s = *b".";
/// assert_eq!(isizes::write_decimal_in(&mut s, 2..1, 7), None);
/// assert_eq!(s, *b".");
/// ```
///
/// Cited by rows F9; clause theory_decimal/Written.Shows, whole; contract
/// promisebook_decimal::pb_isize_write_decimal; law theory_decimal/Showing.with_sign_shown; pinned by
/// theory_decimal/Showing.pinned_shows; refused decimal_write/write_i8.sign_left_out, zero_with_a_sign.
#[inline]
#[must_use]
pub fn write_decimal_in(s: &mut [u8], part: Range<usize>, x: isize) -> Option<usize> {
    write_decimal(s.get_mut(part)?, x)
}
