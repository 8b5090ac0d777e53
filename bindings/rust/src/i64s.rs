//! Operations on i64, the signed numbers of 64 bits: -9223372036854775808 to 9223372036854775807.

use crate::exported;
use crate::ordering;
use crate::{not_decimal, NotDecimal};
use core::cmp::Ordering;
use core::ops::Range;

/// The sum `x + y`, wrapped: the signed number of 64 bits that differs from it by a multiple of 2^64.
///
/// ```
/// use promisebook::i64s;
/// assert_eq!(i64s::wrapping_add(9223372036854775780, 100), -9223372036854775736);
/// assert_eq!(i64s::wrapping_add(-100, 100), 0);
/// ```
///
/// Cited by rows A20; clause vstd_integers/Signed.wrapping_add; contract promisebook_i64::pb_i64_wrapping_add;
/// law vstd_integers/Signed.wrapping_add_kept; pinned by vstd_integers/Pinned.pinned_equation; refused
/// signed_sums/wrapping_add.complement, twice.
#[inline]
#[must_use]
pub fn wrapping_add(x: i64, y: i64) -> i64 {
    exported::pb_i64_wrapping_add(x, y)
}

/// The sum `x + y`, wrapped: the signed number of 64 bits that differs from it by a multiple of 2^64.
///
/// ```
/// use promisebook::i64s;
/// assert_eq!(i64s::wrapping_add_unsigned(-9223372036854775780, 18446744073709551560), 9223372036854775780);
/// assert_eq!(i64s::wrapping_add_unsigned(100, 18446744073709551560), 44);
/// ```
///
/// Cited by rows A21; clause vstd_integers/Signed.wrapping_add_unsigned; contract
/// promisebook_i64::pb_i64_wrapping_add_unsigned; law vstd_integers/Signed.wrapping_add_unsigned_kept; pinned by
/// vstd_integers/Pinned.pinned_equation; refused signed_sums/wrapping_add_unsigned.complement, subtracts.
#[inline]
#[must_use]
pub fn wrapping_add_unsigned(x: i64, y: u64) -> i64 {
    exported::pb_i64_wrapping_add_unsigned(x, y)
}

/// The difference `x - y`, wrapped: the signed number of 64 bits that differs from it by a multiple of 2^64.
///
/// ```
/// use promisebook::i64s;
/// assert_eq!(i64s::wrapping_sub(-9223372036854775808, 1), 9223372036854775807);
/// assert_eq!(i64s::wrapping_sub(-9223372036854775807, 1), -9223372036854775808);
/// ```
///
/// Cited by rows A22; clause vstd_integers/Signed.wrapping_sub; contract promisebook_i64::pb_i64_wrapping_sub;
/// law vstd_integers/Signed.wrapping_sub_kept; pinned by vstd_integers/Pinned.pinned_equation; refused
/// signed_sums/wrapping_sub.nothing_left, other_way_round, vstd_integers/wrapping_sub.passes_the_top.
#[inline]
#[must_use]
pub fn wrapping_sub(x: i64, y: i64) -> i64 {
    exported::pb_i64_wrapping_sub(x, y)
}

/// The product `x * y`, wrapped: the signed number of 64 bits that differs from it by a multiple of 2^64.
///
/// ```
/// use promisebook::i64s;
/// assert_eq!(i64s::wrapping_mul(-9223372036854775808, -1), -9223372036854775808);
/// assert_eq!(i64s::wrapping_mul(-9223372036854775807, -1), 9223372036854775807);
/// ```
///
/// Cited by rows A23; clause vstd_integers/Signed.wrapping_mul; contract promisebook_i64::pb_i64_wrapping_mul;
/// law vstd_integers/Signed.wrapping_mul_kept; pinned by vstd_integers/Pinned.pinned_equation; refused
/// signed_sums/wrapping_mul.complement, square.
#[inline]
#[must_use]
pub fn wrapping_mul(x: i64, y: i64) -> i64 {
    exported::pb_i64_wrapping_mul(x, y)
}

/// `x` shifted to the left by `rhs` modulo 64: zeros come in, and what leaves the 64 bits is lost.
///
/// ```
/// use promisebook::i64s;
/// assert_eq!(i64s::wrapping_shl(1, 65), 2);
/// assert_eq!(i64s::wrapping_shl(3, 63), -9223372036854775808);
/// ```
///
/// Cited by rows A24; clause vstd_integers/Signed.wrapping_shl; contract promisebook_i64::pb_i64_wrapping_shl;
/// law vstd_integers/Signed.wrapping_shl_kept; pinned by vstd_integers/Pinned.pinned_equation; refused
/// signed_bits/wrapping_shl.by_the_width_is_0, modulo_7.
#[inline]
#[must_use]
pub fn wrapping_shl(x: i64, rhs: u32) -> i64 {
    exported::pb_i64_wrapping_shl(x, rhs)
}

/// `x` shifted to the right by `rhs` modulo 64: the sign comes in, so that it is the quotient by 2 to that power,
/// rounded down.
///
/// ```
/// use promisebook::i64s;
/// assert_eq!(i64s::wrapping_shr(-9223372036854775808, 127), -1);
/// assert_eq!(i64s::wrapping_shr(-7, 65), -4);
/// ```
///
/// Cited by rows A25; clause vstd_integers/Signed.wrapping_shr; contract promisebook_i64::pb_i64_wrapping_shr;
/// law vstd_integers/Signed.wrapping_shr_kept; pinned by vstd_integers/Pinned.pinned_equation; refused
/// signed_bits/wrapping_shr.modulo_7, towards_zero.
#[inline]
#[must_use]
pub fn wrapping_shr(x: i64, rhs: u32) -> i64 {
    exported::pb_i64_wrapping_shr(x, rhs)
}

/// The sum `x + y`. Refused where it is not from -9223372036854775808 to 9223372036854775807.
///
/// ```
/// use promisebook::i64s;
/// assert_eq!(i64s::checked_add(9223372036854775780, 100), None);
/// assert_eq!(i64s::checked_add(-100, 100), Some(0));
/// ```
///
/// Cited by rows A26; clause vstd_integers/Signed.checked_add; contract promisebook_i64::pb_i64_checked_add; law
/// vstd_integers/Signed.checked_add_kept; pinned by vstd_integers/Pinned.pinned_option; refused
/// signed_sums/checked_add.first_summand, largest_refused, other_signs_refused.
#[inline]
#[must_use]
pub fn checked_add(x: i64, y: i64) -> Option<i64> {
    let answer = exported::pb_i64_checked_add(x, y);
    answer.ok.then_some(answer.value)
}

/// The sum `x + y`. Refused where it is not from -9223372036854775808 to 9223372036854775807.
///
/// ```
/// use promisebook::i64s;
/// assert_eq!(i64s::checked_add_unsigned(-9223372036854775780, 18446744073709551560), Some(9223372036854775780));
/// assert_eq!(i64s::checked_add_unsigned(100, 18446744073709551560), None);
/// ```
///
/// Cited by rows A27; clause vstd_integers/Signed.checked_add_unsigned; contract
/// promisebook_i64::pb_i64_checked_add_unsigned; law vstd_integers/Signed.checked_add_unsigned_kept; pinned by
/// vstd_integers/Pinned.pinned_option; refused signed_sums/checked_add_unsigned.first_summand, rise_refused.
#[inline]
#[must_use]
pub fn checked_add_unsigned(x: i64, y: u64) -> Option<i64> {
    let answer = exported::pb_i64_checked_add_unsigned(x, y);
    answer.ok.then_some(answer.value)
}

/// The difference `x - y`. Refused where it is not from -9223372036854775808 to 9223372036854775807.
///
/// ```
/// use promisebook::i64s;
/// assert_eq!(i64s::checked_sub(-9223372036854775808, 1), None);
/// assert_eq!(i64s::checked_sub(-9223372036854775807, 1), Some(-9223372036854775808));
/// ```
///
/// Cited by rows A28; clause vstd_integers/Signed.checked_sub; contract promisebook_i64::pb_i64_checked_sub; law
/// vstd_integers/Signed.checked_sub_kept; pinned by vstd_integers/Pinned.pinned_option; refused
/// signed_sums/checked_sub.least_refused, other_way_round, other_signs_refused.
#[inline]
#[must_use]
pub fn checked_sub(x: i64, y: i64) -> Option<i64> {
    let answer = exported::pb_i64_checked_sub(x, y);
    answer.ok.then_some(answer.value)
}

/// The difference `x - y`. Refused where it is not from -9223372036854775808 to 9223372036854775807.
///
/// ```
/// use promisebook::i64s;
/// assert_eq!(i64s::checked_sub_unsigned(100, 200), Some(-100));
/// assert_eq!(i64s::checked_sub_unsigned(-9223372036854775780, 200), None);
/// ```
///
/// Cited by rows A29; clause vstd_integers/Signed.checked_sub_unsigned; contract
/// promisebook_i64::pb_i64_checked_sub_unsigned; law vstd_integers/Signed.checked_sub_unsigned_kept; pinned by
/// vstd_integers/Pinned.pinned_option; refused signed_sums/checked_sub_unsigned.fall_refused, first_number.
#[inline]
#[must_use]
pub fn checked_sub_unsigned(x: i64, y: u64) -> Option<i64> {
    let answer = exported::pb_i64_checked_sub_unsigned(x, y);
    answer.ok.then_some(answer.value)
}

/// The product `x * y`. Refused where it is not from -9223372036854775808 to 9223372036854775807.
///
/// ```
/// use promisebook::i64s;
/// assert_eq!(i64s::checked_mul(-9223372036854775808, -1), None);
/// assert_eq!(i64s::checked_mul(-9223372036854775807, -1), Some(9223372036854775807));
/// ```
///
/// Cited by rows A30; clause vstd_integers/Signed.checked_mul; contract promisebook_i64::pb_i64_checked_mul; law
/// vstd_integers/Signed.checked_mul_kept; pinned by vstd_integers/Pinned.pinned_option; refused
/// signed_sums/checked_mul.larger_quotient_taken, square.
#[inline]
#[must_use]
pub fn checked_mul(x: i64, y: i64) -> Option<i64> {
    let answer = exported::pb_i64_checked_mul(x, y);
    answer.ok.then_some(answer.value)
}

/// The quotient of `x` by `y`, rounded towards zero. Refused where `y` is 0, and where `x` is
/// -9223372036854775808 and `y` is -1, since the quotient does not fit.
///
/// ```
/// use promisebook::i64s;
/// assert_eq!(i64s::checked_div(7, 3), Some(2));
/// assert_eq!(i64s::checked_div(-7, 3), Some(-2));
/// assert_eq!(i64s::checked_div(7, -3), Some(-2));
/// assert_eq!(i64s::checked_div(-7, -3), Some(2));
/// assert_eq!(i64s::checked_div(-9223372036854775808, -1), None);
/// assert_eq!(i64s::checked_div(7, 0), None);
/// ```
///
/// Cited by rows A31; clause vstd_integers/Signed.checked_div; contract promisebook_i64::pb_i64_checked_div; law
/// vstd_integers/Signed.checked_div_kept; pinned by vstd_integers/Pinned.pinned_option; refused
/// signed_division/checked_div.least_by_minus_one_wraps, other_dividend, vstd_integers/checked_div.euclidean,
/// vstd_integers/divided_unless.least_by_minus_one_not_refused.
#[inline]
#[must_use]
pub fn checked_div(x: i64, y: i64) -> Option<i64> {
    let answer = exported::pb_i64_checked_div(x, y);
    answer.ok.then_some(answer.value)
}

/// The quotient of `x` by `y` whose remainder is not negative. Refused where `y` is 0, and where `x` is
/// -9223372036854775808 and `y` is -1, since the quotient does not fit.
///
/// ```
/// use promisebook::i64s;
/// assert_eq!(i64s::checked_div_euclid(7, 3), Some(2));
/// assert_eq!(i64s::checked_div_euclid(-7, 3), Some(-3));
/// assert_eq!(i64s::checked_div_euclid(7, -3), Some(-2));
/// assert_eq!(i64s::checked_div_euclid(-7, -3), Some(3));
/// assert_eq!(i64s::checked_div_euclid(-9223372036854775808, -1), None);
/// assert_eq!(i64s::checked_div_euclid(7, 0), None);
/// ```
///
/// Cited by rows A32; clause vstd_integers/Signed.checked_div_euclid; contract
/// promisebook_i64::pb_i64_checked_div_euclid; law vstd_integers/Signed.checked_div_euclid_kept; pinned by
/// vstd_integers/Pinned.pinned_option; refused signed_division/checked_div_euclid.not_mended, towards_zero,
/// promisebook_i8/checked_div_euclid.towards_zero.
#[inline]
#[must_use]
pub fn checked_div_euclid(x: i64, y: i64) -> Option<i64> {
    let answer = exported::pb_i64_checked_div_euclid(x, y);
    answer.ok.then_some(answer.value)
}

/// The remainder of `x` by `y`, which has the sign of `x`. Refused where `y` is 0, and where `x` is
/// -9223372036854775808 and `y` is -1, since the quotient does not fit.
///
/// ```
/// use promisebook::i64s;
/// assert_eq!(i64s::checked_rem(7, 3), Some(1));
/// assert_eq!(i64s::checked_rem(-7, 3), Some(-1));
/// assert_eq!(i64s::checked_rem(7, -3), Some(1));
/// assert_eq!(i64s::checked_rem(-7, -3), Some(-1));
/// assert_eq!(i64s::checked_rem(-9223372036854775808, -1), None);
/// assert_eq!(i64s::checked_rem(7, 0), None);
/// ```
///
/// Cited by rows A33; clause vstd_integers/Signed.checked_rem; contract promisebook_i64::pb_i64_checked_rem; law
/// vstd_integers/Signed.checked_rem_kept; pinned by vstd_integers/Pinned.pinned_option; refused
/// signed_division/checked_rem.euclidean, least_by_minus_one_is_0, promisebook_i8/checked_rem.euclidean.
#[inline]
#[must_use]
pub fn checked_rem(x: i64, y: i64) -> Option<i64> {
    let answer = exported::pb_i64_checked_rem(x, y);
    answer.ok.then_some(answer.value)
}

/// The remainder of `x` by `y` that is not negative. Refused where `y` is 0, and where `x` is
/// -9223372036854775808 and `y` is -1, since the quotient does not fit.
///
/// ```
/// use promisebook::i64s;
/// assert_eq!(i64s::checked_rem_euclid(7, 3), Some(1));
/// assert_eq!(i64s::checked_rem_euclid(-7, 3), Some(2));
/// assert_eq!(i64s::checked_rem_euclid(7, -3), Some(1));
/// assert_eq!(i64s::checked_rem_euclid(-7, -3), Some(2));
/// assert_eq!(i64s::checked_rem_euclid(-9223372036854775808, -1), None);
/// assert_eq!(i64s::checked_rem_euclid(7, 0), None);
/// ```
///
/// Cited by rows A34; clause vstd_integers/Signed.checked_rem_euclid; contract
/// promisebook_i64::pb_i64_checked_rem_euclid; law vstd_integers/Signed.checked_rem_euclid_kept; pinned by
/// vstd_integers/Pinned.pinned_option; refused signed_division/checked_rem_euclid.absolute_value, not_mended.
#[inline]
#[must_use]
pub fn checked_rem_euclid(x: i64, y: i64) -> Option<i64> {
    let answer = exported::pb_i64_checked_rem_euclid(x, y);
    answer.ok.then_some(answer.value)
}

/// `x` itself.
///
/// ```
/// use promisebook::i64s;
/// assert_eq!(i64s::clone(9223372036854775807), 9223372036854775807);
/// assert_eq!(i64s::clone(-9223372036854775808), -9223372036854775808);
/// ```
///
/// Cited by rows A35; clause vstd_integers/Compare.clone; contract promisebook_i64::pb_i64_clone; law
/// vstd_integers/Compare.clone_kept; pinned by vstd_integers/Pinned.pinned_unsigned, pinned_equation; refused
/// promisebook_u8/clone.always_0, promisebook_i8/clone.always_0.
#[inline]
#[must_use]
pub fn clone(x: i64) -> i64 {
    exported::pb_i64_clone(x)
}

/// Whether `x` and `y` are equal.
///
/// ```
/// use promisebook::i64s;
/// assert!(!i64s::eq(3, 5));
/// assert!(i64s::eq(5, 5));
/// assert!(!i64s::eq(9223372036854775807, -9223372036854775808));
/// ```
///
/// Cited by rows A36; clause vstd_integers/Compare.eq; contract promisebook_i64::pb_i64_eq; law
/// vstd_integers/Compare.eq_kept; pinned by vstd_integers/Pinned.pinned_equation; refused
/// ordering/is_eq.less_is_equal, never.
#[inline]
#[must_use]
pub fn eq(x: i64, y: i64) -> bool {
    exported::pb_i64_eq(x, y)
}

/// Whether `x` and `y` differ.
///
/// ```
/// use promisebook::i64s;
/// assert!(i64s::ne(3, 5));
/// assert!(!i64s::ne(5, 5));
/// assert!(i64s::ne(9223372036854775807, -9223372036854775808));
/// ```
///
/// Cited by rows A37; clause vstd_integers/Compare.ne; contract promisebook_i64::pb_i64_ne; law
/// vstd_integers/Compare.ne_kept; pinned by vstd_integers/Pinned.pinned_equation; refused
/// ordering/is_ne.equal_differs, greater_only.
#[inline]
#[must_use]
pub fn ne(x: i64, y: i64) -> bool {
    exported::pb_i64_ne(x, y)
}

/// Whether `x` is less than `y`.
///
/// ```
/// use promisebook::i64s;
/// assert!(i64s::lt(3, 5));
/// assert!(!i64s::lt(5, 5));
/// assert!(!i64s::lt(9223372036854775807, -9223372036854775808));
/// ```
///
/// Cited by rows A40; clause vstd_integers/Compare.lt; contract promisebook_i64::pb_i64_lt; law
/// vstd_integers/Compare.lt_kept; pinned by vstd_integers/Pinned.pinned_equation; refused
/// ordering/is_lt.equal_is_less, greater_is_less.
#[inline]
#[must_use]
pub fn lt(x: i64, y: i64) -> bool {
    exported::pb_i64_lt(x, y)
}

/// Whether `x` is less than `y` or equal to it.
///
/// ```
/// use promisebook::i64s;
/// assert!(i64s::le(3, 5));
/// assert!(i64s::le(5, 5));
/// assert!(!i64s::le(9223372036854775807, -9223372036854775808));
/// ```
///
/// Cited by rows A41; clause vstd_integers/Compare.le; contract promisebook_i64::pb_i64_le; law
/// vstd_integers/Compare.le_kept; pinned by vstd_integers/Pinned.pinned_equation; refused
/// ordering/is_le.equal_is_more, greater_is_at_most, vstd_integers/le.equal_is_more.
#[inline]
#[must_use]
pub fn le(x: i64, y: i64) -> bool {
    exported::pb_i64_le(x, y)
}

/// Whether `x` is greater than `y`.
///
/// ```
/// use promisebook::i64s;
/// assert!(!i64s::gt(3, 5));
/// assert!(!i64s::gt(5, 5));
/// assert!(i64s::gt(9223372036854775807, -9223372036854775808));
/// ```
///
/// Cited by rows A42; clause vstd_integers/Compare.gt; contract promisebook_i64::pb_i64_gt; law
/// vstd_integers/Compare.gt_kept; pinned by vstd_integers/Pinned.pinned_equation; refused
/// ordering/is_gt.equal_is_greater, less_is_greater.
#[inline]
#[must_use]
pub fn gt(x: i64, y: i64) -> bool {
    exported::pb_i64_gt(x, y)
}

/// Whether `x` is greater than `y` or equal to it.
///
/// ```
/// use promisebook::i64s;
/// assert!(!i64s::ge(3, 5));
/// assert!(i64s::ge(5, 5));
/// assert!(i64s::ge(9223372036854775807, -9223372036854775808));
/// ```
///
/// Cited by rows A43; clause vstd_integers/Compare.ge; contract promisebook_i64::pb_i64_ge; law
/// vstd_integers/Compare.ge_kept; pinned by vstd_integers/Pinned.pinned_equation; refused
/// ordering/is_ge.equal_is_less, less_is_at_least.
#[inline]
#[must_use]
pub fn ge(x: i64, y: i64) -> bool {
    exported::pb_i64_ge(x, y)
}

/// How `x` stands to `y`: less (-1), equal (0) or greater (1).
///
/// ```
/// use core::cmp::Ordering;
/// use promisebook::i64s;
/// assert_eq!(i64s::cmp(3, 5), Ordering::Less);
/// assert_eq!(i64s::cmp(5, 5), Ordering::Equal);
/// assert_eq!(i64s::cmp(9223372036854775807, -9223372036854775808), Ordering::Greater);
/// ```
///
/// Cited by rows A38; clause vstd_integers/Compare.cmp; contract promisebook_i64::pb_i64_cmp; law
/// vstd_integers/Compare.cmp_kept; pinned by vstd_integers/Pinned.pinned_equation; refused
/// ordering/number.greater_is_0, less_is_1, unsigned_order/compare.equal_is_greater, less_is_greater,
/// signed_order/compare.equal_is_greater, less_is_greater.
#[inline]
#[must_use]
pub fn cmp(x: i64, y: i64) -> Ordering {
    ordering(exported::pb_i64_cmp(x, y))
}

/// How `x` stands to `y`: less (-1), equal (0) or greater (1). Never refused.
///
/// ```
/// use core::cmp::Ordering;
/// use promisebook::i64s;
/// assert_eq!(i64s::partial_cmp(3, 5), Some(Ordering::Less));
/// assert_eq!(i64s::partial_cmp(5, 5), Some(Ordering::Equal));
/// assert_eq!(i64s::partial_cmp(9223372036854775807, -9223372036854775808), Some(Ordering::Greater));
/// ```
///
/// Cited by rows A39; clause vstd_integers/Compare.cmp; contract promisebook_i64::pb_i64_partial_cmp; law
/// vstd_integers/Compare.cmp_kept; pinned by vstd_integers/Pinned.pinned_option.
#[inline]
#[must_use]
pub fn partial_cmp(x: i64, y: i64) -> Option<Ordering> {
    let answer = exported::pb_i64_partial_cmp(x, y);
    answer.ok.then_some(ordering(answer.value))
}

/// The number that `s` says in decimal: one figure or more from 0 to 9, with '-' in front or without. Zeros in
/// front are read, and '+' is not. Refused with the reason where it says no number, and where that is not from
/// -9223372036854775808 to 9223372036854775807.
///
/// ```
/// use promisebook::{i64s, NotDecimal};
/// assert_eq!(i64s::read_decimal(b"9223372036854775807"), Ok(9223372036854775807));
/// assert_eq!(i64s::read_decimal(b"9223372036854775808"), Err(NotDecimal::TooLarge));
/// assert_eq!(i64s::read_decimal(b"-9223372036854775808"), Ok(-9223372036854775808));
/// assert_eq!(i64s::read_decimal(b"-9223372036854775809"), Err(NotDecimal::TooLarge));
/// assert_eq!(i64s::read_decimal(b"007"), Ok(7));
/// assert_eq!(i64s::read_decimal(b"-0"), Ok(0));
/// assert_eq!(i64s::read_decimal(b"+5"), Err(NotDecimal::NoNumber));
/// assert_eq!(i64s::read_decimal(b"-"), Err(NotDecimal::NoNumber));
/// assert_eq!(i64s::read_decimal(b""), Err(NotDecimal::NoNumber));
/// assert_eq!(i64s::read_decimal(b"42"), Ok(42));
/// assert_eq!(i64s::read_decimal(b"=42"), Err(NotDecimal::NoNumber));
/// ```
///
/// Cited by rows F7; clause theory_decimal/Read.whole_in, read_in; contract
/// promisebook_decimal::pb_i64_read_decimal; pinned by vstd_integers/Pinned.pinned_option; refused
/// decimal_read_signed/read_i8.sign_lost, sign_read_as_a_figure, promisebook_decimal/read_decimal.sign_refused.
#[inline]
pub fn read_decimal(s: &[u8]) -> Result<i64, NotDecimal> {
    let answer = exported::i64_read_decimal(s, 0, s.len());
    answer.ok.then_some(answer.value).ok_or_else(|| not_decimal(s, true))
}

/// The number that the part says in decimal: one figure or more from 0 to 9, with '-' in front or without. Zeros
/// in front are read, and '+' is not. Refused with the reason where it says no number, and where that is not from
/// -9223372036854775808 to 9223372036854775807. Refused, too, where `s` has no such part.
///
/// ```
/// use promisebook::{i64s, NotDecimal};
/// let s = b"n=42;";
/// assert_eq!(i64s::read_decimal_in(s, 2..4), Some(Ok(42)));
/// assert_eq!(i64s::read_decimal_in(s, 1..4), Some(Err(NotDecimal::NoNumber)));
/// assert_eq!(i64s::read_decimal_in(s, 2..6), None);
/// assert_eq!(i64s::read_decimal_in(s, 4..2), None);
/// ```
///
/// Cited by rows F7; clause theory_decimal/Read.whole_in, read_in; contract
/// promisebook_decimal::pb_i64_read_decimal; pinned by vstd_integers/Pinned.pinned_option; refused
/// decimal_read_signed/read_i8.sign_lost, sign_read_as_a_figure, promisebook_decimal/read_decimal.sign_refused.
#[inline]
#[must_use]
pub fn read_decimal_in(s: &[u8], part: Range<usize>) -> Option<Result<i64, NotDecimal>> {
    Some(read_decimal(s.get(part)?))
}

/// Writes `x` in decimal at the start of `s`, with no zero in front and '-' before a negative number, changes no
/// other byte, and answers how many bytes it has written. Refused where they do not fit.
///
/// ```
/// use promisebook::i64s;
/// let mut s = *b"....................";
/// assert_eq!(i64s::write_decimal(&mut s, 9223372036854775807), Some(19));
/// assert_eq!(s, *b"9223372036854775807.");
/// let mut s = *b".....................";
/// assert_eq!(i64s::write_decimal(&mut s, -9223372036854775808), Some(20));
/// assert_eq!(s, *b"-9223372036854775808.");
/// let mut s = *b"..";
/// assert_eq!(i64s::write_decimal(&mut s, 10), Some(2));
/// assert_eq!(s, *b"10");
/// let mut s = *b".";
/// assert_eq!(i64s::write_decimal(&mut s, 0), Some(1));
/// assert_eq!(s, *b"0");
/// let mut s = *b"..................";
/// assert_eq!(i64s::write_decimal(&mut s, 9223372036854775807), None);
/// assert_eq!(s, *b"..................");
/// let mut s = *b".";
/// assert_eq!(i64s::write_decimal(&mut s, 10), None);
/// assert_eq!(s, *b".");
/// ```
///
/// Cited by rows F9; clause theory_decimal/Written.Shows, whole; contract
/// promisebook_decimal::pb_i64_write_decimal; law theory_decimal/Showing.with_sign_shown; pinned by
/// theory_decimal/Showing.pinned_shows; refused decimal_write/write_i8.sign_left_out, zero_with_a_sign.
#[inline]
#[must_use]
pub fn write_decimal(s: &mut [u8], x: i64) -> Option<usize> {
    let answer = exported::i64_write_decimal(x, s, 0);
    answer.ok.then_some(answer.value)
}

/// Writes `x` in decimal at the start of the part, with no zero in front and '-' before a negative number,
/// changes no other byte, and answers how many bytes it has written. Refused where they do not fit. Refused, too,
/// where `s` has no such part.
///
/// ```
/// use promisebook::i64s;
/// let mut s = *b".....................";
/// assert_eq!(i64s::write_decimal_in(&mut s, 1..21, 9223372036854775807), Some(19));
/// assert_eq!(s, *b".9223372036854775807.");
/// let mut s = *b"......................";
/// assert_eq!(i64s::write_decimal_in(&mut s, 1..22, -9223372036854775808), Some(20));
/// assert_eq!(s, *b".-9223372036854775808.");
/// let mut s = *b"...";
/// assert_eq!(i64s::write_decimal_in(&mut s, 2..3, 0), Some(1));
/// assert_eq!(s, *b"..0");
/// let mut s = *b"...................";
/// assert_eq!(i64s::write_decimal_in(&mut s, 1..19, 9223372036854775807), None);
/// assert_eq!(s, *b"...................");
/// let mut s = *b".";
/// assert_eq!(i64s::write_decimal_in(&mut s, 2..1, 7), None);
/// assert_eq!(s, *b".");
/// ```
///
/// Cited by rows F9; clause theory_decimal/Written.Shows, whole; contract
/// promisebook_decimal::pb_i64_write_decimal; law theory_decimal/Showing.with_sign_shown; pinned by
/// theory_decimal/Showing.pinned_shows; refused decimal_write/write_i8.sign_left_out, zero_with_a_sign.
#[inline]
#[must_use]
pub fn write_decimal_in(s: &mut [u8], part: Range<usize>, x: i64) -> Option<usize> {
    write_decimal(s.get_mut(part)?, x)
}

/// The number whose 8 bytes are `s`, lowest first. Refused where `s` has another length.
///
/// ```
/// use promisebook::i64s;
/// assert_eq!(i64s::from_le_bytes(&[8, 7, 6, 5, 4, 3, 2, 1]), Some(72623859790382856));
/// assert_eq!(i64s::from_le_bytes(&[247, 248, 249, 250, 251, 252, 253, 254]), Some(-72623859790382857));
/// assert_eq!(i64s::from_le_bytes(&[7, 6, 5, 4, 3, 2, 1]), None);
/// assert_eq!(i64s::from_le_bytes(&[248, 249, 250, 251, 252, 253, 254]), None);
/// ```
///
/// Cited by rows C1, C2; clause vstd_number_bytes/Bytes.from_le_bytes, spec_from_le_bytes; contract
/// promisebook_number_bytes::pb_u64_from_le_bytes; law vstd_number_bytes/Bytes.from_le_bytes_kept; pinned by
/// vstd_integers/Pinned.pinned_unsigned_option; refused number_bytes/from_le_bytes.two_bytes_for_three,
/// vstd_number_bytes/from_le_bytes.any_length, one_byte_fewer, number_bytes/from_le_bytes.highest_first,
/// vstd_number_bytes/from_le_bytes.first_byte_last.
#[inline]
#[must_use]
pub fn from_le_bytes(s: &[u8]) -> Option<i64> {
    let answer = exported::u64_from_le_bytes(s);
    answer.ok.then_some(answer.value as i64)
}

/// The number whose 8 bytes are the part, lowest first. Refused where the part has another length. Refused, too,
/// where `s` has no such part.
///
/// ```
/// use promisebook::i64s;
/// assert_eq!(i64s::from_le_bytes_in(&[9, 8, 7, 6, 5, 4, 3, 2, 1, 9], 1..9), Some(72623859790382856));
/// assert_eq!(i64s::from_le_bytes_in(&[9, 247, 248, 249, 250, 251, 252, 253, 254, 9], 1..9), Some(-72623859790382857));
/// assert_eq!(i64s::from_le_bytes_in(&[9, 7, 6, 5, 4, 3, 2, 1, 9], 1..8), None);
/// assert_eq!(i64s::from_le_bytes_in(&[9, 248, 249, 250, 251, 252, 253, 254, 9], 1..10), None);
/// ```
///
/// Cited by rows C1, C2; clause vstd_number_bytes/Bytes.from_le_bytes, spec_from_le_bytes; contract
/// promisebook_number_bytes::pb_u64_from_le_bytes; law vstd_number_bytes/Bytes.from_le_bytes_kept; pinned by
/// vstd_integers/Pinned.pinned_unsigned_option; refused number_bytes/from_le_bytes.two_bytes_for_three,
/// vstd_number_bytes/from_le_bytes.any_length, one_byte_fewer, number_bytes/from_le_bytes.highest_first,
/// vstd_number_bytes/from_le_bytes.first_byte_last.
#[inline]
#[must_use]
pub fn from_le_bytes_in(s: &[u8], part: Range<usize>) -> Option<i64> {
    from_le_bytes(s.get(part)?)
}

/// The 8 bytes of `x`, lowest first.
///
/// ```
/// use promisebook::i64s;
/// assert_eq!(i64s::to_le_bytes(72623859790382856), [8, 7, 6, 5, 4, 3, 2, 1]);
/// assert_eq!(i64s::to_le_bytes(-72623859790382857), [247, 248, 249, 250, 251, 252, 253, 254]);
/// ```
///
/// Cited by rows C3; clause vstd_number_bytes/Bytes.spec_to_le_bytes; contract
/// promisebook_number_bytes::pb_u64_to_le_bytes; law vstd_number_bytes/Bytes.to_le_bytes_is; pinned by
/// theory_lists/Written.pinned_writes; refused number_bytes/to_le_bytes.highest_first, lowest_twice,
/// number_bytes/write_le_bytes.elsewhere, one_place_too_far, byte_behind_changes,
/// vstd_number_bytes/to_le_bytes.lowest_byte_only, seven_bits, promisebook_number_bytes/to_le_bytes.four_bytes.
#[inline]
#[must_use]
pub fn to_le_bytes(x: i64) -> [u8; 8] {
    let mut bytes = [0; 8];
    exported::u64_to_le_bytes(x as u64, &mut bytes, 0);
    bytes
}

/// Writes the 8 bytes of `x` at the start of the part, lowest first, and changes no other byte. Refused where
/// they do not fit. Refused, too, where `s` has no such part.
///
/// ```
/// use promisebook::i64s;
/// let mut s = [0, 0, 0, 0, 0, 0, 0, 0, 0];
/// assert_eq!(i64s::to_le_bytes_in(&mut s, 1..9, 72623859790382856), Some(()));
/// assert_eq!(s, [0, 8, 7, 6, 5, 4, 3, 2, 1]);
/// let mut s = [0, 0, 0, 0, 0, 0, 0, 0, 0];
/// assert_eq!(i64s::to_le_bytes_in(&mut s, 1..9, -72623859790382857), Some(()));
/// assert_eq!(s, [0, 247, 248, 249, 250, 251, 252, 253, 254]);
/// let mut s = [0, 0, 0, 0, 0, 0, 0, 0, 0];
/// assert_eq!(i64s::to_le_bytes_in(&mut s, 2..9, 72623859790382856), None);
/// assert_eq!(s, [0, 0, 0, 0, 0, 0, 0, 0, 0]);
/// let mut s = [0, 0, 0, 0, 0, 0, 0, 0, 0];
/// assert_eq!(i64s::to_le_bytes_in(&mut s, 2..9, -72623859790382857), None);
/// assert_eq!(s, [0, 0, 0, 0, 0, 0, 0, 0, 0]);
/// ```
///
/// Cited by rows C3; clause vstd_number_bytes/Bytes.spec_to_le_bytes; contract
/// promisebook_number_bytes::pb_u64_to_le_bytes; law vstd_number_bytes/Bytes.to_le_bytes_is; pinned by
/// theory_lists/Written.pinned_writes; refused number_bytes/to_le_bytes.highest_first, lowest_twice,
/// number_bytes/write_le_bytes.elsewhere, one_place_too_far, byte_behind_changes,
/// vstd_number_bytes/to_le_bytes.lowest_byte_only, seven_bits, promisebook_number_bytes/to_le_bytes.four_bytes.
#[inline]
#[must_use]
pub fn to_le_bytes_in(s: &mut [u8], part: Range<usize>, x: i64) -> Option<()> {
    exported::u64_to_le_bytes(x as u64, s.get_mut(part)?, 0).then_some(())
}

/// The number whose 8 bytes are `s`, highest first. Refused where `s` has another length.
///
/// ```
/// use promisebook::i64s;
/// assert_eq!(i64s::from_be_bytes(&[1, 2, 3, 4, 5, 6, 7, 8]), Some(72623859790382856));
/// assert_eq!(i64s::from_be_bytes(&[254, 253, 252, 251, 250, 249, 248, 247]), Some(-72623859790382857));
/// assert_eq!(i64s::from_be_bytes(&[2, 3, 4, 5, 6, 7, 8]), None);
/// assert_eq!(i64s::from_be_bytes(&[253, 252, 251, 250, 249, 248, 247]), None);
/// ```
///
/// Cited by rows C67; clause theory_digits/Number.number_high; contract
/// promisebook_number_bytes::pb_u64_from_be_bytes; law theory_digits/Reading.number_high_of_digits_high; pinned
/// by vstd_integers/Pinned.pinned_unsigned_option; refused number_bytes/from_be_bytes.lowest_first,
/// two_bytes_for_one.
#[inline]
#[must_use]
pub fn from_be_bytes(s: &[u8]) -> Option<i64> {
    let answer = exported::u64_from_be_bytes(s);
    answer.ok.then_some(answer.value as i64)
}

/// The number whose 8 bytes are the part, highest first. Refused where the part has another length. Refused, too,
/// where `s` has no such part.
///
/// ```
/// use promisebook::i64s;
/// assert_eq!(i64s::from_be_bytes_in(&[9, 1, 2, 3, 4, 5, 6, 7, 8, 9], 1..9), Some(72623859790382856));
/// assert_eq!(i64s::from_be_bytes_in(&[9, 254, 253, 252, 251, 250, 249, 248, 247, 9], 1..9), Some(-72623859790382857));
/// assert_eq!(i64s::from_be_bytes_in(&[9, 2, 3, 4, 5, 6, 7, 8, 9], 1..8), None);
/// assert_eq!(i64s::from_be_bytes_in(&[9, 253, 252, 251, 250, 249, 248, 247, 9], 1..10), None);
/// ```
///
/// Cited by rows C67; clause theory_digits/Number.number_high; contract
/// promisebook_number_bytes::pb_u64_from_be_bytes; law theory_digits/Reading.number_high_of_digits_high; pinned
/// by vstd_integers/Pinned.pinned_unsigned_option; refused number_bytes/from_be_bytes.lowest_first,
/// two_bytes_for_one.
#[inline]
#[must_use]
pub fn from_be_bytes_in(s: &[u8], part: Range<usize>) -> Option<i64> {
    from_be_bytes(s.get(part)?)
}

/// The 8 bytes of `x`, highest first.
///
/// ```
/// use promisebook::i64s;
/// assert_eq!(i64s::to_be_bytes(72623859790382856), [1, 2, 3, 4, 5, 6, 7, 8]);
/// assert_eq!(i64s::to_be_bytes(-72623859790382857), [254, 253, 252, 251, 250, 249, 248, 247]);
/// ```
///
/// Cited by rows C68; clause theory_digits/Digits.digits_high; contract
/// promisebook_number_bytes::pb_u64_to_be_bytes; law theory_digits/Reading.digits_high_of_number_high; pinned by
/// theory_lists/Written.pinned_writes; refused number_bytes/to_be_bytes.highest_twice, lowest_first,
/// number_bytes/write_be_bytes.complement, last_place_is_refused, byte_changes_twice,
/// promisebook_number_bytes/to_be_bytes.lowest_first.
#[inline]
#[must_use]
pub fn to_be_bytes(x: i64) -> [u8; 8] {
    let mut bytes = [0; 8];
    exported::u64_to_be_bytes(x as u64, &mut bytes, 0);
    bytes
}

/// Writes the 8 bytes of `x` at the start of the part, highest first, and changes no other byte. Refused where
/// they do not fit. Refused, too, where `s` has no such part.
///
/// ```
/// use promisebook::i64s;
/// let mut s = [0, 0, 0, 0, 0, 0, 0, 0, 0];
/// assert_eq!(i64s::to_be_bytes_in(&mut s, 1..9, 72623859790382856), Some(()));
/// assert_eq!(s, [0, 1, 2, 3, 4, 5, 6, 7, 8]);
/// let mut s = [0, 0, 0, 0, 0, 0, 0, 0, 0];
/// assert_eq!(i64s::to_be_bytes_in(&mut s, 1..9, -72623859790382857), Some(()));
/// assert_eq!(s, [0, 254, 253, 252, 251, 250, 249, 248, 247]);
/// let mut s = [0, 0, 0, 0, 0, 0, 0, 0, 0];
/// assert_eq!(i64s::to_be_bytes_in(&mut s, 2..9, 72623859790382856), None);
/// assert_eq!(s, [0, 0, 0, 0, 0, 0, 0, 0, 0]);
/// let mut s = [0, 0, 0, 0, 0, 0, 0, 0, 0];
/// assert_eq!(i64s::to_be_bytes_in(&mut s, 2..9, -72623859790382857), None);
/// assert_eq!(s, [0, 0, 0, 0, 0, 0, 0, 0, 0]);
/// ```
///
/// Cited by rows C68; clause theory_digits/Digits.digits_high; contract
/// promisebook_number_bytes::pb_u64_to_be_bytes; law theory_digits/Reading.digits_high_of_number_high; pinned by
/// theory_lists/Written.pinned_writes; refused number_bytes/to_be_bytes.highest_twice, lowest_first,
/// number_bytes/write_be_bytes.complement, last_place_is_refused, byte_changes_twice,
/// promisebook_number_bytes/to_be_bytes.lowest_first.
#[inline]
#[must_use]
pub fn to_be_bytes_in(s: &mut [u8], part: Range<usize>, x: i64) -> Option<()> {
    exported::u64_to_be_bytes(x as u64, s.get_mut(part)?, 0).then_some(())
}
