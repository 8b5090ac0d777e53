/* Promisebook: operations on integers, bytes and text whose contracts are proved, for C and C++.
   Written by generate/generate.py from the exports of the crates promisebook_*: change it there.

   Every function answers for all arguments, and ends. "Refused" in a promise means:
   - of an answer with a field ok, that ok is false and every other field 0;
   - of a function that writes and answers a bool, that it answers false, and true otherwise.
   A function that refuses has written nothing.

   A byte is a uint8_t. A slice is passed as a pointer to its first byte and its length: that many bytes are there, and
   stay there during the call. Of a slice of length 0 nothing is read or written, and its pointer may be NULL. Slices that
   are only read may overlap, or be the same. A slice that is written shares no byte with another argument.

   No function keeps anything between calls, allocates, waits, or calls another library, and none has memory of its own:
   each may be called by several threads at once, and by what interrupts another call, as long as no other writes to the
   bytes that are passed. An interrupt handler saves the registers of SSE2 as it saves the others. A call takes at most
   PB_STACK_BYTES of stack, its return address among them, and most take 8: docs/STACK.md has each.

   Link with libpromisebook.a, which dist/ has and bindings/archive writes: cc program.c libpromisebook.a */
#ifndef PROMISEBOOK_H
#define PROMISEBOOK_H

#include <stdbool.h>
#include <stddef.h>
#include <stdint.h>

#define PB_VERSION_MAJOR 0
#define PB_VERSION_MINOR 2
#define PB_VERSION_PATCH 0
#define PB_VERSION "0.2.0"

#define PB_STACK_BYTES 2168

#ifdef __cplusplus
extern "C" {
static_assert(sizeof(size_t) == 8, "the size type has 64 bits");
#else
_Static_assert(sizeof(size_t) == 8, "the size type has 64 bits");
#endif

typedef struct {
    bool ok;
    uint8_t value;
} pb_answer_u8;

typedef struct {
    bool ok;
    int8_t value;
} pb_answer_i8;

typedef struct {
    bool ok;
    size_t value;
} pb_answer_usize;

typedef struct {
    bool ok;
    uint16_t value;
} pb_answer_u16;

typedef struct {
    bool ok;
    uint32_t value;
} pb_answer_u32;

typedef struct {
    bool ok;
    uint64_t value;
} pb_answer_u64;

typedef struct {
    bool ok;
    int16_t value;
} pb_answer_i16;

typedef struct {
    bool ok;
    int32_t value;
} pb_answer_i32;

typedef struct {
    bool ok;
    int64_t value;
} pb_answer_i64;

typedef struct {
    bool ok;
    ptrdiff_t value;
} pb_answer_isize;

typedef struct {
    bool ok;
    bool value;
} pb_answer_bool;

/* The bytes from `from` up to and without `to`. */
typedef struct {
    bool ok;
    size_t from;
    size_t to;
} pb_bytes_range;

/* Two parts: from `from` up to and without `middle`, and from there up to and without `to`. */
typedef struct {
    bool ok;
    size_t from;
    size_t middle;
    size_t to;
} pb_bytes_split;

/* The first byte, and the rest from `from` up to and without `to`. */
typedef struct {
    bool ok;
    uint8_t first;
    size_t from;
    size_t to;
} pb_bytes_first_and_rest;

/* A scalar value, and the length of its form. */
typedef struct {
    bool ok;
    uint32_t value;
    size_t length;
} pb_text_read;

/* The two parts of a text: up to `middle`, and from there to `end`. */
typedef struct {
    bool ok;
    size_t middle;
    size_t end;
} pb_text_split;

/* What the archive that is linked was made from, in a line: the version, the kit, the hash of the crates, vstd's release
   (docs/CITING.md). */
const char *pb_version(void);

/* ---- Operations on u8, the unsigned numbers of 8 bits: 0 to 255. */

/* The sum `x + y`, wrapped: the unsigned number of 8 bits that differs from it by a multiple of 2^8.
   Cited by rows A1; clause vstd_integers/Unsigned.wrapping_add; contract promisebook_u8::pb_u8_wrapping_add; law
   vstd_integers/Unsigned.wrapping_add_kept; pinned by vstd_integers/Pinned.pinned_unsigned; refused
   unsigned_sums/wrapping_add.one_too_few, sum_of_255_wraps. */
uint8_t pb_u8_wrapping_add(uint8_t x, uint8_t y);

/* The sum `x + y`, wrapped: the unsigned number of 8 bits that differs from it by a multiple of 2^8.
   Cited by rows A2; clause vstd_integers/Unsigned.wrapping_add_signed; contract
   promisebook_u8::pb_u8_wrapping_add_signed; law vstd_integers/Unsigned.wrapping_add_signed_kept; pinned by
   vstd_integers/Pinned.pinned_unsigned; refused signed_sums/wrapping_add_signed.other_summand, subtracts. */
uint8_t pb_u8_wrapping_add_signed(uint8_t x, int8_t y);

/* The difference `x - y`, wrapped: the unsigned number of 8 bits that differs from it by a multiple of 2^8.
   Cited by rows A3; clause vstd_integers/Unsigned.wrapping_sub; contract promisebook_u8::pb_u8_wrapping_sub; law
   vstd_integers/Unsigned.wrapping_sub_kept; pinned by vstd_integers/Pinned.pinned_unsigned; refused
   unsigned_sums/wrapping_sub.one_too_many, zero_borrows. */
uint8_t pb_u8_wrapping_sub(uint8_t x, uint8_t y);

/* The product `x * y`, wrapped: the unsigned number of 8 bits that differs from it by a multiple of 2^8.
   Cited by rows A4; clause vstd_integers/Unsigned.wrapping_mul; contract promisebook_u8::pb_u8_wrapping_mul; law
   vstd_integers/Unsigned.wrapping_mul_kept; pinned by vstd_integers/Pinned.pinned_unsigned; refused
   unsigned_sums/wrapping_mul.square, integers/wrapping_mul.modulo_255, integers/product.one_cross_product_twice,
   upper_half_left_out. */
uint8_t pb_u8_wrapping_mul(uint8_t x, uint8_t y);

/* `x` shifted to the left by `rhs` modulo 8: zeros come in, and what leaves the 8 bits is lost.
   Cited by rows A5; clause vstd_integers/Unsigned.wrapping_shl; contract promisebook_u8::pb_u8_wrapping_shl; law
   vstd_integers/Unsigned.wrapping_shl_kept; pinned by vstd_integers/Pinned.pinned_unsigned; refused
   unsigned_bits/wrapping_shl.by_the_width_is_0, modulo_7. */
uint8_t pb_u8_wrapping_shl(uint8_t x, uint32_t rhs);

/* `x` shifted to the right by `rhs` modulo 8: zeros come in.
   Cited by rows A6; clause vstd_integers/Unsigned.wrapping_shr; contract promisebook_u8::pb_u8_wrapping_shr; law
   vstd_integers/Unsigned.wrapping_shr_kept; pinned by vstd_integers/Pinned.pinned_unsigned; refused
   unsigned_bits/wrapping_shr.by_the_width_is_0, modulo_7. */
uint8_t pb_u8_wrapping_shr(uint8_t x, uint32_t rhs);

/* The sum `x + y`. Refused where it is not from 0 to 255.
   Cited by rows A7; clause vstd_integers/Unsigned.checked_add; contract promisebook_u8::pb_u8_checked_add; law
   vstd_integers/Unsigned.checked_add_kept; pinned by vstd_integers/Pinned.pinned_unsigned_option; refused
   unsigned_sums/checked_add.second_summand_alone, sum_of_255_refused, vstd_integers/checked_add.largest_refused. */
pb_answer_u8 pb_u8_checked_add(uint8_t x, uint8_t y);

/* The sum `x + y`. Refused where it is not from 0 to 255.
   Cited by rows A8; clause vstd_integers/Unsigned.checked_add_signed; contract
   promisebook_u8::pb_u8_checked_add_signed; law vstd_integers/Unsigned.checked_add_signed_kept; pinned by
   vstd_integers/Pinned.pinned_unsigned_option; refused signed_sums/checked_add_signed.first_summand, other_side. */
pb_answer_u8 pb_u8_checked_add_signed(uint8_t x, int8_t y);

/* The difference `x - y`. Refused where it is not from 0 to 255.
   Cited by rows A9; clause vstd_integers/Unsigned.checked_sub; contract promisebook_u8::pb_u8_checked_sub; law
   vstd_integers/Unsigned.checked_sub_kept; pinned by vstd_integers/Pinned.pinned_unsigned_option; refused
   unsigned_sums/checked_sub.nothing_taken, other_way_round. */
pb_answer_u8 pb_u8_checked_sub(uint8_t x, uint8_t y);

/* The product `x * y`. Refused where it is not from 0 to 255.
   Cited by rows A10; clause vstd_integers/Unsigned.checked_mul; contract promisebook_u8::pb_u8_checked_mul; law
   vstd_integers/Unsigned.checked_mul_kept; pinned by vstd_integers/Pinned.pinned_unsigned_option; refused
   unsigned_sums/checked_mul.larger_quotient_taken, square. */
pb_answer_u8 pb_u8_checked_mul(uint8_t x, uint8_t y);

/* The smallest multiple of `y` that is at least `x`. Refused where `y` is 0 or the multiple is above 255.
   Cited by rows A11; clause vstd_integers/Unsigned.checked_next_multiple_of; contract
   promisebook_u8::pb_u8_checked_next_multiple_of; law vstd_integers/Unsigned.checked_next_multiple_of_kept;
   pinned by vstd_integers/Pinned.pinned_unsigned_option; refused
   unsigned_division/checked_next_multiple_of.always_a_multiple, first_multiple,
   vstd_integers/checked_next_multiple_of.zero_not_refused, promisebook_u8/checked_next_multiple_of.nine_bits. */
pb_answer_u8 pb_u8_checked_next_multiple_of(uint8_t x, uint8_t y);

/* The quotient of `x` by `y`, rounded towards zero. Refused where `y` is 0.
   Cited by rows A12; clause vstd_integers/Unsigned.checked_div; contract promisebook_u8::pb_u8_checked_div; law
   vstd_integers/Unsigned.checked_div_kept; pinned by vstd_integers/Pinned.pinned_unsigned_option; refused
   unsigned_division/checked_div.by_zero_is_0, other_dividend. */
pb_answer_u8 pb_u8_checked_div(uint8_t x, uint8_t y);

/* The quotient of `x` by `y` whose remainder is not negative. Refused where `y` is 0.
   Cited by rows A13; clause vstd_integers/Unsigned.checked_div; contract promisebook_u8::pb_u8_checked_div_euclid;
   law vstd_integers/Unsigned.checked_div_euclid_kept; pinned by vstd_integers/Pinned.pinned_unsigned_option;
   refused unsigned_division/checked_div_euclid.by_zero_is_0, other_way_round. */
pb_answer_u8 pb_u8_checked_div_euclid(uint8_t x, uint8_t y);

/* The remainder of `x` by `y`. Refused where `y` is 0.
   Cited by rows A14; clause vstd_integers/Unsigned.checked_rem; contract promisebook_u8::pb_u8_checked_rem; law
   vstd_integers/Unsigned.checked_rem_kept; pinned by vstd_integers/Pinned.pinned_unsigned_option; refused
   unsigned_division/checked_rem.by_zero_is_dividend, other_dividend. */
pb_answer_u8 pb_u8_checked_rem(uint8_t x, uint8_t y);

/* The remainder of `x` by `y` that is not negative. Refused where `y` is 0.
   Cited by rows A15; clause vstd_integers/Unsigned.checked_rem; contract promisebook_u8::pb_u8_checked_rem_euclid;
   law vstd_integers/Unsigned.checked_rem_euclid_kept; pinned by vstd_integers/Pinned.pinned_unsigned_option;
   refused unsigned_division/checked_rem_euclid.by_zero_is_dividend, other_way_round. */
pb_answer_u8 pb_u8_checked_rem_euclid(uint8_t x, uint8_t y);

/* The sum `x + y`, or 255 where it is larger.
   Cited by rows A16; clause vstd_integers/Unsigned.saturating_add; contract promisebook_u8::pb_u8_saturating_add;
   law vstd_integers/Unsigned.saturating_add_kept; pinned by vstd_integers/Pinned.pinned_unsigned; refused
   unsigned_sums/saturating_add.first_summand, wraps_to_0. */
uint8_t pb_u8_saturating_add(uint8_t x, uint8_t y);

/* The difference `x - y`, or 0 where it is below that.
   Cited by rows A17; clause vstd_integers/Unsigned.saturating_sub; contract promisebook_u8::pb_u8_saturating_sub;
   law vstd_integers/Unsigned.saturating_sub_kept; pinned by vstd_integers/Pinned.pinned_unsigned; refused
   unsigned_sums/saturating_sub.other_side, stops_at_1, promisebook_u8/saturating_sub.wraps. */
uint8_t pb_u8_saturating_sub(uint8_t x, uint8_t y);

/* The product `x * y`, or 255 where it is larger.
   Cited by rows A18; clause vstd_integers/Unsigned.saturating_mul; contract promisebook_u8::pb_u8_saturating_mul;
   law vstd_integers/Unsigned.saturating_mul_kept; pinned by vstd_integers/Pinned.pinned_unsigned; refused
   unsigned_sums/saturating_mul.square, wraps_to_0, vstd_integers/saturating_mul.wraps. */
uint8_t pb_u8_saturating_mul(uint8_t x, uint8_t y);

/* Whether `x` is a multiple of `y`; of 0 only 0 is.
   Cited by rows A19; clause vstd_integers/Unsigned.is_multiple_of; contract promisebook_u8::pb_u8_is_multiple_of;
   law vstd_integers/Unsigned.is_multiple_of_kept; pinned by vstd_integers/Pinned.pinned_equation; refused
   unsigned_division/is_multiple_of.all_of_zero, remainder_of_1, vstd_integers/is_multiple_of.all_of_zero. */
bool pb_u8_is_multiple_of(uint8_t x, uint8_t y);

/* `x` itself.
   Cited by rows A35; clause vstd_integers/Compare.clone; contract promisebook_u8::pb_u8_clone; law
   vstd_integers/Compare.clone_kept; pinned by vstd_integers/Pinned.pinned_unsigned, pinned_equation; refused
   promisebook_u8/clone.always_0, promisebook_i8/clone.always_0. */
uint8_t pb_u8_clone(uint8_t x);

/* Whether `x` and `y` are equal.
   Cited by rows A36; clause vstd_integers/Compare.eq; contract promisebook_u8::pb_u8_eq; law
   vstd_integers/Compare.eq_kept; pinned by vstd_integers/Pinned.pinned_equation; refused
   ordering/is_eq.less_is_equal, never. */
bool pb_u8_eq(uint8_t x, uint8_t y);

/* Whether `x` and `y` differ.
   Cited by rows A37; clause vstd_integers/Compare.ne; contract promisebook_u8::pb_u8_ne; law
   vstd_integers/Compare.ne_kept; pinned by vstd_integers/Pinned.pinned_equation; refused
   ordering/is_ne.equal_differs, greater_only. */
bool pb_u8_ne(uint8_t x, uint8_t y);

/* Whether `x` is less than `y`.
   Cited by rows A40; clause vstd_integers/Compare.lt; contract promisebook_u8::pb_u8_lt; law
   vstd_integers/Compare.lt_kept; pinned by vstd_integers/Pinned.pinned_equation; refused
   ordering/is_lt.equal_is_less, greater_is_less. */
bool pb_u8_lt(uint8_t x, uint8_t y);

/* Whether `x` is less than `y` or equal to it.
   Cited by rows A41; clause vstd_integers/Compare.le; contract promisebook_u8::pb_u8_le; law
   vstd_integers/Compare.le_kept; pinned by vstd_integers/Pinned.pinned_equation; refused
   ordering/is_le.equal_is_more, greater_is_at_most, vstd_integers/le.equal_is_more. */
bool pb_u8_le(uint8_t x, uint8_t y);

/* Whether `x` is greater than `y`.
   Cited by rows A42; clause vstd_integers/Compare.gt; contract promisebook_u8::pb_u8_gt; law
   vstd_integers/Compare.gt_kept; pinned by vstd_integers/Pinned.pinned_equation; refused
   ordering/is_gt.equal_is_greater, less_is_greater. */
bool pb_u8_gt(uint8_t x, uint8_t y);

/* Whether `x` is greater than `y` or equal to it.
   Cited by rows A43; clause vstd_integers/Compare.ge; contract promisebook_u8::pb_u8_ge; law
   vstd_integers/Compare.ge_kept; pinned by vstd_integers/Pinned.pinned_equation; refused
   ordering/is_ge.equal_is_less, less_is_at_least. */
bool pb_u8_ge(uint8_t x, uint8_t y);

/* How `x` stands to `y`: less (-1), equal (0) or greater (1).
   Cited by rows A38; clause vstd_integers/Compare.cmp; contract promisebook_u8::pb_u8_cmp; law
   vstd_integers/Compare.cmp_kept; pinned by vstd_integers/Pinned.pinned_equation; refused
   ordering/number.greater_is_0, less_is_1, unsigned_order/compare.equal_is_greater, less_is_greater,
   signed_order/compare.equal_is_greater, less_is_greater. */
int8_t pb_u8_cmp(uint8_t x, uint8_t y);

/* How `x` stands to `y`: less (-1), equal (0) or greater (1). Never refused.
   Cited by rows A39; clause vstd_integers/Compare.cmp; contract promisebook_u8::pb_u8_partial_cmp; law
   vstd_integers/Compare.cmp_kept; pinned by vstd_integers/Pinned.pinned_option. */
pb_answer_i8 pb_u8_partial_cmp(uint8_t x, uint8_t y);

/* How many bits of `i` are 0 from the highest on, up to the first 1; 8 where all are.
   Cited by rows B3; clause vstd_zeros/Zeros.vstd_leading_zeros; contract promisebook_zeros::pb_u8_leading_zeros; law
   vstd_zeros/Zeros.vstd_leading_zeros_is; pinned by vstd_integers/Pinned.pinned_equation; refused
   zeros/leading_zeros_u8.highest_bit_is_ignored, zero_has_one_less, vstd_zeros/leading_zeros.zero_has_one_less,
   promisebook_zeros/leading_zeros.of_eight_bits. */
uint32_t pb_u8_leading_zeros(uint8_t i);

/* How many bits of `i` are 1 from the highest on, up to the first 0; 8 where all are.
   Cited by rows B4; clause vstd_zeros/Zeros.vstd_leading_ones; contract promisebook_zeros::pb_u8_leading_ones; law
   vstd_zeros/Zeros.vstd_leading_ones_is; pinned by vstd_integers/Pinned.pinned_equation; refused
   zeros/leading_ones_u8.highest_bit_counts_as_one, zeros_are_counted, promisebook_zeros/leading_ones.zeros. */
uint32_t pb_u8_leading_ones(uint8_t i);

/* How many bits of `i` are 0 from the lowest on, up to the first 1; 8 where all are.
   Cited by rows B1; clause vstd_zeros/Zeros.vstd_trailing_zeros; contract promisebook_zeros::pb_u8_trailing_zeros;
   law vstd_zeros/Zeros.vstd_trailing_zeros_is; pinned by vstd_integers/Pinned.pinned_equation; refused
   zeros/trailing_zeros_u8.lowest_bit_is_ignored, zero_has_one_less, vstd_zeros/trailing_zeros.ones_are_counted. */
uint32_t pb_u8_trailing_zeros(uint8_t i);

/* How many bits of `i` are 1 from the lowest on, up to the first 0; 8 where all are.
   Cited by rows B2; clause vstd_zeros/Zeros.vstd_trailing_ones; contract promisebook_zeros::pb_u8_trailing_ones; law
   vstd_zeros/Zeros.vstd_trailing_ones_is; pinned by vstd_integers/Pinned.pinned_equation; refused
   zeros/trailing_ones_u8.lowest_bit_counts_as_one, zeros_are_counted, vstd_zeros/trailing_ones.of_the_number. */
uint32_t pb_u8_trailing_ones(uint8_t i);

/* The number that the bytes of `s` from `from` up to and without `to` say in decimal: one figure or more from 0 to
   9, without a sign. Zeros in front are read, and '+' is not. Refused where they say no number, where it is not
   from 0 to 255, and where `to` is past the end.
   Cited by rows F6; clause theory_decimal/Read.natural_in, read_in; contract
   promisebook_decimal::pb_u8_read_decimal; law theory_decimal/Reading.so_far_all, no_text, past_the_end; pinned
   by vstd_integers/Pinned.pinned_unsigned_option; refused decimal_read/read_u64.colon_is_a_figure,
   largest_number_refused, last_figure_left_out, nothing_is_zero, runs_over,
   decimal_read/read_u8.largest_number_refused, too_large_taken, promisebook_decimal/read_decimal.too_large. */
pb_answer_u8 pb_u8_read_decimal(const uint8_t *s, size_t s_len, size_t from, size_t to);

/* Writes `x` in decimal into `s` from the place `at` on, with no zero in front, changes no other byte, and answers
   how many bytes it has written. Refused where they do not fit there.
   Cited by rows F8; clause theory_decimal/Written.Shows, natural; contract promisebook_decimal::pb_u8_write_decimal;
   law theory_decimal/Showing.natural_shown; pinned by theory_decimal/Showing.pinned_shows; refused
   decimal_write/write_u64.last_place_refused, ten_in_one_place, tens_lost,
   theory_decimal/shows.refusal_counts_anything. */
pb_answer_usize pb_u8_write_decimal(uint8_t x, uint8_t *s, size_t s_len, size_t at);

/* ---- Operations on u16, the unsigned numbers of 16 bits: 0 to 65535. */

/* The sum `x + y`, wrapped: the unsigned number of 16 bits that differs from it by a multiple of 2^16.
   Cited by rows A1; clause vstd_integers/Unsigned.wrapping_add; contract promisebook_u16::pb_u16_wrapping_add; law
   vstd_integers/Unsigned.wrapping_add_kept; pinned by vstd_integers/Pinned.pinned_unsigned; refused
   unsigned_sums/wrapping_add.one_too_few, sum_of_255_wraps. */
uint16_t pb_u16_wrapping_add(uint16_t x, uint16_t y);

/* The sum `x + y`, wrapped: the unsigned number of 16 bits that differs from it by a multiple of 2^16.
   Cited by rows A2; clause vstd_integers/Unsigned.wrapping_add_signed; contract
   promisebook_u16::pb_u16_wrapping_add_signed; law vstd_integers/Unsigned.wrapping_add_signed_kept; pinned by
   vstd_integers/Pinned.pinned_unsigned; refused signed_sums/wrapping_add_signed.other_summand, subtracts. */
uint16_t pb_u16_wrapping_add_signed(uint16_t x, int16_t y);

/* The difference `x - y`, wrapped: the unsigned number of 16 bits that differs from it by a multiple of 2^16.
   Cited by rows A3; clause vstd_integers/Unsigned.wrapping_sub; contract promisebook_u16::pb_u16_wrapping_sub; law
   vstd_integers/Unsigned.wrapping_sub_kept; pinned by vstd_integers/Pinned.pinned_unsigned; refused
   unsigned_sums/wrapping_sub.one_too_many, zero_borrows. */
uint16_t pb_u16_wrapping_sub(uint16_t x, uint16_t y);

/* The product `x * y`, wrapped: the unsigned number of 16 bits that differs from it by a multiple of 2^16.
   Cited by rows A4; clause vstd_integers/Unsigned.wrapping_mul; contract promisebook_u16::pb_u16_wrapping_mul; law
   vstd_integers/Unsigned.wrapping_mul_kept; pinned by vstd_integers/Pinned.pinned_unsigned; refused
   unsigned_sums/wrapping_mul.square, integers/wrapping_mul.modulo_255, integers/product.one_cross_product_twice,
   upper_half_left_out. */
uint16_t pb_u16_wrapping_mul(uint16_t x, uint16_t y);

/* `x` shifted to the left by `rhs` modulo 16: zeros come in, and what leaves the 16 bits is lost.
   Cited by rows A5; clause vstd_integers/Unsigned.wrapping_shl; contract promisebook_u16::pb_u16_wrapping_shl; law
   vstd_integers/Unsigned.wrapping_shl_kept; pinned by vstd_integers/Pinned.pinned_unsigned; refused
   unsigned_bits/wrapping_shl.by_the_width_is_0, modulo_7. */
uint16_t pb_u16_wrapping_shl(uint16_t x, uint32_t rhs);

/* `x` shifted to the right by `rhs` modulo 16: zeros come in.
   Cited by rows A6; clause vstd_integers/Unsigned.wrapping_shr; contract promisebook_u16::pb_u16_wrapping_shr; law
   vstd_integers/Unsigned.wrapping_shr_kept; pinned by vstd_integers/Pinned.pinned_unsigned; refused
   unsigned_bits/wrapping_shr.by_the_width_is_0, modulo_7. */
uint16_t pb_u16_wrapping_shr(uint16_t x, uint32_t rhs);

/* The sum `x + y`. Refused where it is not from 0 to 65535.
   Cited by rows A7; clause vstd_integers/Unsigned.checked_add; contract promisebook_u16::pb_u16_checked_add; law
   vstd_integers/Unsigned.checked_add_kept; pinned by vstd_integers/Pinned.pinned_unsigned_option; refused
   unsigned_sums/checked_add.second_summand_alone, sum_of_255_refused, vstd_integers/checked_add.largest_refused. */
pb_answer_u16 pb_u16_checked_add(uint16_t x, uint16_t y);

/* The sum `x + y`. Refused where it is not from 0 to 65535.
   Cited by rows A8; clause vstd_integers/Unsigned.checked_add_signed; contract
   promisebook_u16::pb_u16_checked_add_signed; law vstd_integers/Unsigned.checked_add_signed_kept; pinned by
   vstd_integers/Pinned.pinned_unsigned_option; refused signed_sums/checked_add_signed.first_summand, other_side. */
pb_answer_u16 pb_u16_checked_add_signed(uint16_t x, int16_t y);

/* The difference `x - y`. Refused where it is not from 0 to 65535.
   Cited by rows A9; clause vstd_integers/Unsigned.checked_sub; contract promisebook_u16::pb_u16_checked_sub; law
   vstd_integers/Unsigned.checked_sub_kept; pinned by vstd_integers/Pinned.pinned_unsigned_option; refused
   unsigned_sums/checked_sub.nothing_taken, other_way_round. */
pb_answer_u16 pb_u16_checked_sub(uint16_t x, uint16_t y);

/* The product `x * y`. Refused where it is not from 0 to 65535.
   Cited by rows A10; clause vstd_integers/Unsigned.checked_mul; contract promisebook_u16::pb_u16_checked_mul; law
   vstd_integers/Unsigned.checked_mul_kept; pinned by vstd_integers/Pinned.pinned_unsigned_option; refused
   unsigned_sums/checked_mul.larger_quotient_taken, square. */
pb_answer_u16 pb_u16_checked_mul(uint16_t x, uint16_t y);

/* The smallest multiple of `y` that is at least `x`. Refused where `y` is 0 or the multiple is above 65535.
   Cited by rows A11; clause vstd_integers/Unsigned.checked_next_multiple_of; contract
   promisebook_u16::pb_u16_checked_next_multiple_of; law vstd_integers/Unsigned.checked_next_multiple_of_kept;
   pinned by vstd_integers/Pinned.pinned_unsigned_option; refused
   unsigned_division/checked_next_multiple_of.always_a_multiple, first_multiple,
   vstd_integers/checked_next_multiple_of.zero_not_refused, promisebook_u8/checked_next_multiple_of.nine_bits. */
pb_answer_u16 pb_u16_checked_next_multiple_of(uint16_t x, uint16_t y);

/* The quotient of `x` by `y`, rounded towards zero. Refused where `y` is 0.
   Cited by rows A12; clause vstd_integers/Unsigned.checked_div; contract promisebook_u16::pb_u16_checked_div; law
   vstd_integers/Unsigned.checked_div_kept; pinned by vstd_integers/Pinned.pinned_unsigned_option; refused
   unsigned_division/checked_div.by_zero_is_0, other_dividend. */
pb_answer_u16 pb_u16_checked_div(uint16_t x, uint16_t y);

/* The quotient of `x` by `y` whose remainder is not negative. Refused where `y` is 0.
   Cited by rows A13; clause vstd_integers/Unsigned.checked_div; contract promisebook_u16::pb_u16_checked_div_euclid;
   law vstd_integers/Unsigned.checked_div_euclid_kept; pinned by vstd_integers/Pinned.pinned_unsigned_option;
   refused unsigned_division/checked_div_euclid.by_zero_is_0, other_way_round. */
pb_answer_u16 pb_u16_checked_div_euclid(uint16_t x, uint16_t y);

/* The remainder of `x` by `y`. Refused where `y` is 0.
   Cited by rows A14; clause vstd_integers/Unsigned.checked_rem; contract promisebook_u16::pb_u16_checked_rem; law
   vstd_integers/Unsigned.checked_rem_kept; pinned by vstd_integers/Pinned.pinned_unsigned_option; refused
   unsigned_division/checked_rem.by_zero_is_dividend, other_dividend. */
pb_answer_u16 pb_u16_checked_rem(uint16_t x, uint16_t y);

/* The remainder of `x` by `y` that is not negative. Refused where `y` is 0.
   Cited by rows A15; clause vstd_integers/Unsigned.checked_rem; contract promisebook_u16::pb_u16_checked_rem_euclid;
   law vstd_integers/Unsigned.checked_rem_euclid_kept; pinned by vstd_integers/Pinned.pinned_unsigned_option;
   refused unsigned_division/checked_rem_euclid.by_zero_is_dividend, other_way_round. */
pb_answer_u16 pb_u16_checked_rem_euclid(uint16_t x, uint16_t y);

/* The sum `x + y`, or 65535 where it is larger.
   Cited by rows A16; clause vstd_integers/Unsigned.saturating_add; contract promisebook_u16::pb_u16_saturating_add;
   law vstd_integers/Unsigned.saturating_add_kept; pinned by vstd_integers/Pinned.pinned_unsigned; refused
   unsigned_sums/saturating_add.first_summand, wraps_to_0. */
uint16_t pb_u16_saturating_add(uint16_t x, uint16_t y);

/* The difference `x - y`, or 0 where it is below that.
   Cited by rows A17; clause vstd_integers/Unsigned.saturating_sub; contract promisebook_u16::pb_u16_saturating_sub;
   law vstd_integers/Unsigned.saturating_sub_kept; pinned by vstd_integers/Pinned.pinned_unsigned; refused
   unsigned_sums/saturating_sub.other_side, stops_at_1, promisebook_u8/saturating_sub.wraps. */
uint16_t pb_u16_saturating_sub(uint16_t x, uint16_t y);

/* The product `x * y`, or 65535 where it is larger.
   Cited by rows A18; clause vstd_integers/Unsigned.saturating_mul; contract promisebook_u16::pb_u16_saturating_mul;
   law vstd_integers/Unsigned.saturating_mul_kept; pinned by vstd_integers/Pinned.pinned_unsigned; refused
   unsigned_sums/saturating_mul.square, wraps_to_0, vstd_integers/saturating_mul.wraps. */
uint16_t pb_u16_saturating_mul(uint16_t x, uint16_t y);

/* Whether `x` is a multiple of `y`; of 0 only 0 is.
   Cited by rows A19; clause vstd_integers/Unsigned.is_multiple_of; contract promisebook_u16::pb_u16_is_multiple_of;
   law vstd_integers/Unsigned.is_multiple_of_kept; pinned by vstd_integers/Pinned.pinned_equation; refused
   unsigned_division/is_multiple_of.all_of_zero, remainder_of_1, vstd_integers/is_multiple_of.all_of_zero. */
bool pb_u16_is_multiple_of(uint16_t x, uint16_t y);

/* `x` itself.
   Cited by rows A35; clause vstd_integers/Compare.clone; contract promisebook_u16::pb_u16_clone; law
   vstd_integers/Compare.clone_kept; pinned by vstd_integers/Pinned.pinned_unsigned, pinned_equation; refused
   promisebook_u8/clone.always_0, promisebook_i8/clone.always_0. */
uint16_t pb_u16_clone(uint16_t x);

/* Whether `x` and `y` are equal.
   Cited by rows A36; clause vstd_integers/Compare.eq; contract promisebook_u16::pb_u16_eq; law
   vstd_integers/Compare.eq_kept; pinned by vstd_integers/Pinned.pinned_equation; refused
   ordering/is_eq.less_is_equal, never. */
bool pb_u16_eq(uint16_t x, uint16_t y);

/* Whether `x` and `y` differ.
   Cited by rows A37; clause vstd_integers/Compare.ne; contract promisebook_u16::pb_u16_ne; law
   vstd_integers/Compare.ne_kept; pinned by vstd_integers/Pinned.pinned_equation; refused
   ordering/is_ne.equal_differs, greater_only. */
bool pb_u16_ne(uint16_t x, uint16_t y);

/* Whether `x` is less than `y`.
   Cited by rows A40; clause vstd_integers/Compare.lt; contract promisebook_u16::pb_u16_lt; law
   vstd_integers/Compare.lt_kept; pinned by vstd_integers/Pinned.pinned_equation; refused
   ordering/is_lt.equal_is_less, greater_is_less. */
bool pb_u16_lt(uint16_t x, uint16_t y);

/* Whether `x` is less than `y` or equal to it.
   Cited by rows A41; clause vstd_integers/Compare.le; contract promisebook_u16::pb_u16_le; law
   vstd_integers/Compare.le_kept; pinned by vstd_integers/Pinned.pinned_equation; refused
   ordering/is_le.equal_is_more, greater_is_at_most, vstd_integers/le.equal_is_more. */
bool pb_u16_le(uint16_t x, uint16_t y);

/* Whether `x` is greater than `y`.
   Cited by rows A42; clause vstd_integers/Compare.gt; contract promisebook_u16::pb_u16_gt; law
   vstd_integers/Compare.gt_kept; pinned by vstd_integers/Pinned.pinned_equation; refused
   ordering/is_gt.equal_is_greater, less_is_greater. */
bool pb_u16_gt(uint16_t x, uint16_t y);

/* Whether `x` is greater than `y` or equal to it.
   Cited by rows A43; clause vstd_integers/Compare.ge; contract promisebook_u16::pb_u16_ge; law
   vstd_integers/Compare.ge_kept; pinned by vstd_integers/Pinned.pinned_equation; refused
   ordering/is_ge.equal_is_less, less_is_at_least. */
bool pb_u16_ge(uint16_t x, uint16_t y);

/* How `x` stands to `y`: less (-1), equal (0) or greater (1).
   Cited by rows A38; clause vstd_integers/Compare.cmp; contract promisebook_u16::pb_u16_cmp; law
   vstd_integers/Compare.cmp_kept; pinned by vstd_integers/Pinned.pinned_equation; refused
   ordering/number.greater_is_0, less_is_1, unsigned_order/compare.equal_is_greater, less_is_greater,
   signed_order/compare.equal_is_greater, less_is_greater. */
int8_t pb_u16_cmp(uint16_t x, uint16_t y);

/* How `x` stands to `y`: less (-1), equal (0) or greater (1). Never refused.
   Cited by rows A39; clause vstd_integers/Compare.cmp; contract promisebook_u16::pb_u16_partial_cmp; law
   vstd_integers/Compare.cmp_kept; pinned by vstd_integers/Pinned.pinned_option. */
pb_answer_i8 pb_u16_partial_cmp(uint16_t x, uint16_t y);

/* How many bits of `i` are 0 from the highest on, up to the first 1; 16 where all are.
   Cited by rows B3; clause vstd_zeros/Zeros.vstd_leading_zeros; contract promisebook_zeros::pb_u16_leading_zeros;
   law vstd_zeros/Zeros.vstd_leading_zeros_is; pinned by vstd_integers/Pinned.pinned_equation; refused
   zeros/leading_zeros_u8.highest_bit_is_ignored, zero_has_one_less, vstd_zeros/leading_zeros.zero_has_one_less,
   promisebook_zeros/leading_zeros.of_eight_bits. */
uint32_t pb_u16_leading_zeros(uint16_t i);

/* How many bits of `i` are 1 from the highest on, up to the first 0; 16 where all are.
   Cited by rows B4; clause vstd_zeros/Zeros.vstd_leading_ones; contract promisebook_zeros::pb_u16_leading_ones; law
   vstd_zeros/Zeros.vstd_leading_ones_is; pinned by vstd_integers/Pinned.pinned_equation; refused
   zeros/leading_ones_u8.highest_bit_counts_as_one, zeros_are_counted, promisebook_zeros/leading_ones.zeros. */
uint32_t pb_u16_leading_ones(uint16_t i);

/* How many bits of `i` are 0 from the lowest on, up to the first 1; 16 where all are.
   Cited by rows B1; clause vstd_zeros/Zeros.vstd_trailing_zeros; contract promisebook_zeros::pb_u16_trailing_zeros;
   law vstd_zeros/Zeros.vstd_trailing_zeros_is; pinned by vstd_integers/Pinned.pinned_equation; refused
   zeros/trailing_zeros_u8.lowest_bit_is_ignored, zero_has_one_less, vstd_zeros/trailing_zeros.ones_are_counted. */
uint32_t pb_u16_trailing_zeros(uint16_t i);

/* How many bits of `i` are 1 from the lowest on, up to the first 0; 16 where all are.
   Cited by rows B2; clause vstd_zeros/Zeros.vstd_trailing_ones; contract promisebook_zeros::pb_u16_trailing_ones;
   law vstd_zeros/Zeros.vstd_trailing_ones_is; pinned by vstd_integers/Pinned.pinned_equation; refused
   zeros/trailing_ones_u8.lowest_bit_counts_as_one, zeros_are_counted, vstd_zeros/trailing_ones.of_the_number. */
uint32_t pb_u16_trailing_ones(uint16_t i);

/* The number whose 2 bytes are `s`, lowest first. Refused where `s` has another length.
   Cited by rows C1, C2; clause vstd_number_bytes/Bytes.from_le_bytes, spec_from_le_bytes; contract
   promisebook_number_bytes::pb_u16_from_le_bytes; law vstd_number_bytes/Bytes.from_le_bytes_kept; pinned by
   vstd_integers/Pinned.pinned_unsigned_option; refused number_bytes/from_le_bytes.two_bytes_for_three,
   vstd_number_bytes/from_le_bytes.any_length, one_byte_fewer, number_bytes/from_le_bytes.highest_first,
   vstd_number_bytes/from_le_bytes.first_byte_last. */
pb_answer_u16 pb_u16_from_le_bytes(const uint8_t *s, size_t s_len);

/* Writes the 2 bytes of `x` into `s` from the place `at` on, lowest first, and changes no other byte. Refused where
   they do not fit there.
   Cited by rows C3; clause vstd_number_bytes/Bytes.spec_to_le_bytes; contract
   promisebook_number_bytes::pb_u16_to_le_bytes; law vstd_number_bytes/Bytes.to_le_bytes_is; pinned by
   theory_lists/Written.pinned_writes; refused number_bytes/to_le_bytes.highest_first, lowest_twice,
   number_bytes/write_le_bytes.elsewhere, one_place_too_far, byte_behind_changes,
   vstd_number_bytes/to_le_bytes.lowest_byte_only, seven_bits, promisebook_number_bytes/to_le_bytes.four_bytes. */
bool pb_u16_to_le_bytes(uint16_t x, uint8_t *s, size_t s_len, size_t at);

/* The number whose 2 bytes are `s`, highest first. Refused where `s` has another length.
   Cited by rows C67; clause theory_digits/Number.number_high; contract
   promisebook_number_bytes::pb_u16_from_be_bytes; law theory_digits/Reading.number_high_of_digits_high; pinned by
   vstd_integers/Pinned.pinned_unsigned_option; refused number_bytes/from_be_bytes.lowest_first,
   two_bytes_for_one. */
pb_answer_u16 pb_u16_from_be_bytes(const uint8_t *s, size_t s_len);

/* Writes the 2 bytes of `x` into `s` from the place `at` on, highest first, and changes no other byte. Refused where
   they do not fit there.
   Cited by rows C68; clause theory_digits/Digits.digits_high; contract promisebook_number_bytes::pb_u16_to_be_bytes;
   law theory_digits/Reading.digits_high_of_number_high; pinned by theory_lists/Written.pinned_writes; refused
   number_bytes/to_be_bytes.highest_twice, lowest_first, number_bytes/write_be_bytes.complement,
   last_place_is_refused, byte_changes_twice, promisebook_number_bytes/to_be_bytes.lowest_first. */
bool pb_u16_to_be_bytes(uint16_t x, uint8_t *s, size_t s_len, size_t at);

/* The number that the bytes of `s` from `from` up to and without `to` say in decimal: one figure or more from 0 to
   9, without a sign. Zeros in front are read, and '+' is not. Refused where they say no number, where it is not
   from 0 to 65535, and where `to` is past the end.
   Cited by rows F6; clause theory_decimal/Read.natural_in, read_in; contract
   promisebook_decimal::pb_u16_read_decimal; law theory_decimal/Reading.so_far_all, no_text, past_the_end; pinned
   by vstd_integers/Pinned.pinned_unsigned_option; refused decimal_read/read_u64.colon_is_a_figure,
   largest_number_refused, last_figure_left_out, nothing_is_zero, runs_over,
   decimal_read/read_u8.largest_number_refused, too_large_taken, promisebook_decimal/read_decimal.too_large. */
pb_answer_u16 pb_u16_read_decimal(const uint8_t *s, size_t s_len, size_t from, size_t to);

/* Writes `x` in decimal into `s` from the place `at` on, with no zero in front, changes no other byte, and answers
   how many bytes it has written. Refused where they do not fit there.
   Cited by rows F8; clause theory_decimal/Written.Shows, natural; contract
   promisebook_decimal::pb_u16_write_decimal; law theory_decimal/Showing.natural_shown; pinned by
   theory_decimal/Showing.pinned_shows; refused decimal_write/write_u64.last_place_refused, ten_in_one_place,
   tens_lost, theory_decimal/shows.refusal_counts_anything. */
pb_answer_usize pb_u16_write_decimal(uint16_t x, uint8_t *s, size_t s_len, size_t at);

/* ---- Operations on u32, the unsigned numbers of 32 bits: 0 to 4294967295. */

/* The sum `x + y`, wrapped: the unsigned number of 32 bits that differs from it by a multiple of 2^32.
   Cited by rows A1; clause vstd_integers/Unsigned.wrapping_add; contract promisebook_u32::pb_u32_wrapping_add; law
   vstd_integers/Unsigned.wrapping_add_kept; pinned by vstd_integers/Pinned.pinned_unsigned; refused
   unsigned_sums/wrapping_add.one_too_few, sum_of_255_wraps. */
uint32_t pb_u32_wrapping_add(uint32_t x, uint32_t y);

/* The sum `x + y`, wrapped: the unsigned number of 32 bits that differs from it by a multiple of 2^32.
   Cited by rows A2; clause vstd_integers/Unsigned.wrapping_add_signed; contract
   promisebook_u32::pb_u32_wrapping_add_signed; law vstd_integers/Unsigned.wrapping_add_signed_kept; pinned by
   vstd_integers/Pinned.pinned_unsigned; refused signed_sums/wrapping_add_signed.other_summand, subtracts. */
uint32_t pb_u32_wrapping_add_signed(uint32_t x, int32_t y);

/* The difference `x - y`, wrapped: the unsigned number of 32 bits that differs from it by a multiple of 2^32.
   Cited by rows A3; clause vstd_integers/Unsigned.wrapping_sub; contract promisebook_u32::pb_u32_wrapping_sub; law
   vstd_integers/Unsigned.wrapping_sub_kept; pinned by vstd_integers/Pinned.pinned_unsigned; refused
   unsigned_sums/wrapping_sub.one_too_many, zero_borrows. */
uint32_t pb_u32_wrapping_sub(uint32_t x, uint32_t y);

/* The product `x * y`, wrapped: the unsigned number of 32 bits that differs from it by a multiple of 2^32.
   Cited by rows A4; clause vstd_integers/Unsigned.wrapping_mul; contract promisebook_u32::pb_u32_wrapping_mul; law
   vstd_integers/Unsigned.wrapping_mul_kept; pinned by vstd_integers/Pinned.pinned_unsigned; refused
   unsigned_sums/wrapping_mul.square, integers/wrapping_mul.modulo_255, integers/product.one_cross_product_twice,
   upper_half_left_out. */
uint32_t pb_u32_wrapping_mul(uint32_t x, uint32_t y);

/* `x` shifted to the left by `rhs` modulo 32: zeros come in, and what leaves the 32 bits is lost.
   Cited by rows A5; clause vstd_integers/Unsigned.wrapping_shl; contract promisebook_u32::pb_u32_wrapping_shl; law
   vstd_integers/Unsigned.wrapping_shl_kept; pinned by vstd_integers/Pinned.pinned_unsigned; refused
   unsigned_bits/wrapping_shl.by_the_width_is_0, modulo_7. */
uint32_t pb_u32_wrapping_shl(uint32_t x, uint32_t rhs);

/* `x` shifted to the right by `rhs` modulo 32: zeros come in.
   Cited by rows A6; clause vstd_integers/Unsigned.wrapping_shr; contract promisebook_u32::pb_u32_wrapping_shr; law
   vstd_integers/Unsigned.wrapping_shr_kept; pinned by vstd_integers/Pinned.pinned_unsigned; refused
   unsigned_bits/wrapping_shr.by_the_width_is_0, modulo_7. */
uint32_t pb_u32_wrapping_shr(uint32_t x, uint32_t rhs);

/* The sum `x + y`. Refused where it is not from 0 to 4294967295.
   Cited by rows A7; clause vstd_integers/Unsigned.checked_add; contract promisebook_u32::pb_u32_checked_add; law
   vstd_integers/Unsigned.checked_add_kept; pinned by vstd_integers/Pinned.pinned_unsigned_option; refused
   unsigned_sums/checked_add.second_summand_alone, sum_of_255_refused, vstd_integers/checked_add.largest_refused. */
pb_answer_u32 pb_u32_checked_add(uint32_t x, uint32_t y);

/* The sum `x + y`. Refused where it is not from 0 to 4294967295.
   Cited by rows A8; clause vstd_integers/Unsigned.checked_add_signed; contract
   promisebook_u32::pb_u32_checked_add_signed; law vstd_integers/Unsigned.checked_add_signed_kept; pinned by
   vstd_integers/Pinned.pinned_unsigned_option; refused signed_sums/checked_add_signed.first_summand, other_side. */
pb_answer_u32 pb_u32_checked_add_signed(uint32_t x, int32_t y);

/* The difference `x - y`. Refused where it is not from 0 to 4294967295.
   Cited by rows A9; clause vstd_integers/Unsigned.checked_sub; contract promisebook_u32::pb_u32_checked_sub; law
   vstd_integers/Unsigned.checked_sub_kept; pinned by vstd_integers/Pinned.pinned_unsigned_option; refused
   unsigned_sums/checked_sub.nothing_taken, other_way_round. */
pb_answer_u32 pb_u32_checked_sub(uint32_t x, uint32_t y);

/* The product `x * y`. Refused where it is not from 0 to 4294967295.
   Cited by rows A10; clause vstd_integers/Unsigned.checked_mul; contract promisebook_u32::pb_u32_checked_mul; law
   vstd_integers/Unsigned.checked_mul_kept; pinned by vstd_integers/Pinned.pinned_unsigned_option; refused
   unsigned_sums/checked_mul.larger_quotient_taken, square. */
pb_answer_u32 pb_u32_checked_mul(uint32_t x, uint32_t y);

/* The smallest multiple of `y` that is at least `x`. Refused where `y` is 0 or the multiple is above 4294967295.
   Cited by rows A11; clause vstd_integers/Unsigned.checked_next_multiple_of; contract
   promisebook_u32::pb_u32_checked_next_multiple_of; law vstd_integers/Unsigned.checked_next_multiple_of_kept;
   pinned by vstd_integers/Pinned.pinned_unsigned_option; refused
   unsigned_division/checked_next_multiple_of.always_a_multiple, first_multiple,
   vstd_integers/checked_next_multiple_of.zero_not_refused, promisebook_u8/checked_next_multiple_of.nine_bits. */
pb_answer_u32 pb_u32_checked_next_multiple_of(uint32_t x, uint32_t y);

/* The quotient of `x` by `y`, rounded towards zero. Refused where `y` is 0.
   Cited by rows A12; clause vstd_integers/Unsigned.checked_div; contract promisebook_u32::pb_u32_checked_div; law
   vstd_integers/Unsigned.checked_div_kept; pinned by vstd_integers/Pinned.pinned_unsigned_option; refused
   unsigned_division/checked_div.by_zero_is_0, other_dividend. */
pb_answer_u32 pb_u32_checked_div(uint32_t x, uint32_t y);

/* The quotient of `x` by `y` whose remainder is not negative. Refused where `y` is 0.
   Cited by rows A13; clause vstd_integers/Unsigned.checked_div; contract promisebook_u32::pb_u32_checked_div_euclid;
   law vstd_integers/Unsigned.checked_div_euclid_kept; pinned by vstd_integers/Pinned.pinned_unsigned_option;
   refused unsigned_division/checked_div_euclid.by_zero_is_0, other_way_round. */
pb_answer_u32 pb_u32_checked_div_euclid(uint32_t x, uint32_t y);

/* The remainder of `x` by `y`. Refused where `y` is 0.
   Cited by rows A14; clause vstd_integers/Unsigned.checked_rem; contract promisebook_u32::pb_u32_checked_rem; law
   vstd_integers/Unsigned.checked_rem_kept; pinned by vstd_integers/Pinned.pinned_unsigned_option; refused
   unsigned_division/checked_rem.by_zero_is_dividend, other_dividend. */
pb_answer_u32 pb_u32_checked_rem(uint32_t x, uint32_t y);

/* The remainder of `x` by `y` that is not negative. Refused where `y` is 0.
   Cited by rows A15; clause vstd_integers/Unsigned.checked_rem; contract promisebook_u32::pb_u32_checked_rem_euclid;
   law vstd_integers/Unsigned.checked_rem_euclid_kept; pinned by vstd_integers/Pinned.pinned_unsigned_option;
   refused unsigned_division/checked_rem_euclid.by_zero_is_dividend, other_way_round. */
pb_answer_u32 pb_u32_checked_rem_euclid(uint32_t x, uint32_t y);

/* The sum `x + y`, or 4294967295 where it is larger.
   Cited by rows A16; clause vstd_integers/Unsigned.saturating_add; contract promisebook_u32::pb_u32_saturating_add;
   law vstd_integers/Unsigned.saturating_add_kept; pinned by vstd_integers/Pinned.pinned_unsigned; refused
   unsigned_sums/saturating_add.first_summand, wraps_to_0. */
uint32_t pb_u32_saturating_add(uint32_t x, uint32_t y);

/* The difference `x - y`, or 0 where it is below that.
   Cited by rows A17; clause vstd_integers/Unsigned.saturating_sub; contract promisebook_u32::pb_u32_saturating_sub;
   law vstd_integers/Unsigned.saturating_sub_kept; pinned by vstd_integers/Pinned.pinned_unsigned; refused
   unsigned_sums/saturating_sub.other_side, stops_at_1, promisebook_u8/saturating_sub.wraps. */
uint32_t pb_u32_saturating_sub(uint32_t x, uint32_t y);

/* The product `x * y`, or 4294967295 where it is larger.
   Cited by rows A18; clause vstd_integers/Unsigned.saturating_mul; contract promisebook_u32::pb_u32_saturating_mul;
   law vstd_integers/Unsigned.saturating_mul_kept; pinned by vstd_integers/Pinned.pinned_unsigned; refused
   unsigned_sums/saturating_mul.square, wraps_to_0, vstd_integers/saturating_mul.wraps. */
uint32_t pb_u32_saturating_mul(uint32_t x, uint32_t y);

/* Whether `x` is a multiple of `y`; of 0 only 0 is.
   Cited by rows A19; clause vstd_integers/Unsigned.is_multiple_of; contract promisebook_u32::pb_u32_is_multiple_of;
   law vstd_integers/Unsigned.is_multiple_of_kept; pinned by vstd_integers/Pinned.pinned_equation; refused
   unsigned_division/is_multiple_of.all_of_zero, remainder_of_1, vstd_integers/is_multiple_of.all_of_zero. */
bool pb_u32_is_multiple_of(uint32_t x, uint32_t y);

/* `x` itself.
   Cited by rows A35; clause vstd_integers/Compare.clone; contract promisebook_u32::pb_u32_clone; law
   vstd_integers/Compare.clone_kept; pinned by vstd_integers/Pinned.pinned_unsigned, pinned_equation; refused
   promisebook_u8/clone.always_0, promisebook_i8/clone.always_0. */
uint32_t pb_u32_clone(uint32_t x);

/* Whether `x` and `y` are equal.
   Cited by rows A36; clause vstd_integers/Compare.eq; contract promisebook_u32::pb_u32_eq; law
   vstd_integers/Compare.eq_kept; pinned by vstd_integers/Pinned.pinned_equation; refused
   ordering/is_eq.less_is_equal, never. */
bool pb_u32_eq(uint32_t x, uint32_t y);

/* Whether `x` and `y` differ.
   Cited by rows A37; clause vstd_integers/Compare.ne; contract promisebook_u32::pb_u32_ne; law
   vstd_integers/Compare.ne_kept; pinned by vstd_integers/Pinned.pinned_equation; refused
   ordering/is_ne.equal_differs, greater_only. */
bool pb_u32_ne(uint32_t x, uint32_t y);

/* Whether `x` is less than `y`.
   Cited by rows A40; clause vstd_integers/Compare.lt; contract promisebook_u32::pb_u32_lt; law
   vstd_integers/Compare.lt_kept; pinned by vstd_integers/Pinned.pinned_equation; refused
   ordering/is_lt.equal_is_less, greater_is_less. */
bool pb_u32_lt(uint32_t x, uint32_t y);

/* Whether `x` is less than `y` or equal to it.
   Cited by rows A41; clause vstd_integers/Compare.le; contract promisebook_u32::pb_u32_le; law
   vstd_integers/Compare.le_kept; pinned by vstd_integers/Pinned.pinned_equation; refused
   ordering/is_le.equal_is_more, greater_is_at_most, vstd_integers/le.equal_is_more. */
bool pb_u32_le(uint32_t x, uint32_t y);

/* Whether `x` is greater than `y`.
   Cited by rows A42; clause vstd_integers/Compare.gt; contract promisebook_u32::pb_u32_gt; law
   vstd_integers/Compare.gt_kept; pinned by vstd_integers/Pinned.pinned_equation; refused
   ordering/is_gt.equal_is_greater, less_is_greater. */
bool pb_u32_gt(uint32_t x, uint32_t y);

/* Whether `x` is greater than `y` or equal to it.
   Cited by rows A43; clause vstd_integers/Compare.ge; contract promisebook_u32::pb_u32_ge; law
   vstd_integers/Compare.ge_kept; pinned by vstd_integers/Pinned.pinned_equation; refused
   ordering/is_ge.equal_is_less, less_is_at_least. */
bool pb_u32_ge(uint32_t x, uint32_t y);

/* How `x` stands to `y`: less (-1), equal (0) or greater (1).
   Cited by rows A38; clause vstd_integers/Compare.cmp; contract promisebook_u32::pb_u32_cmp; law
   vstd_integers/Compare.cmp_kept; pinned by vstd_integers/Pinned.pinned_equation; refused
   ordering/number.greater_is_0, less_is_1, unsigned_order/compare.equal_is_greater, less_is_greater,
   signed_order/compare.equal_is_greater, less_is_greater. */
int8_t pb_u32_cmp(uint32_t x, uint32_t y);

/* How `x` stands to `y`: less (-1), equal (0) or greater (1). Never refused.
   Cited by rows A39; clause vstd_integers/Compare.cmp; contract promisebook_u32::pb_u32_partial_cmp; law
   vstd_integers/Compare.cmp_kept; pinned by vstd_integers/Pinned.pinned_option. */
pb_answer_i8 pb_u32_partial_cmp(uint32_t x, uint32_t y);

/* How many bits of `i` are 0 from the highest on, up to the first 1; 32 where all are.
   Cited by rows B3; clause vstd_zeros/Zeros.vstd_leading_zeros; contract promisebook_zeros::pb_u32_leading_zeros;
   law vstd_zeros/Zeros.vstd_leading_zeros_is; pinned by vstd_integers/Pinned.pinned_equation; refused
   zeros/leading_zeros_u8.highest_bit_is_ignored, zero_has_one_less, vstd_zeros/leading_zeros.zero_has_one_less,
   promisebook_zeros/leading_zeros.of_eight_bits. */
uint32_t pb_u32_leading_zeros(uint32_t i);

/* How many bits of `i` are 1 from the highest on, up to the first 0; 32 where all are.
   Cited by rows B4; clause vstd_zeros/Zeros.vstd_leading_ones; contract promisebook_zeros::pb_u32_leading_ones; law
   vstd_zeros/Zeros.vstd_leading_ones_is; pinned by vstd_integers/Pinned.pinned_equation; refused
   zeros/leading_ones_u8.highest_bit_counts_as_one, zeros_are_counted, promisebook_zeros/leading_ones.zeros. */
uint32_t pb_u32_leading_ones(uint32_t i);

/* How many bits of `i` are 0 from the lowest on, up to the first 1; 32 where all are.
   Cited by rows B1; clause vstd_zeros/Zeros.vstd_trailing_zeros; contract promisebook_zeros::pb_u32_trailing_zeros;
   law vstd_zeros/Zeros.vstd_trailing_zeros_is; pinned by vstd_integers/Pinned.pinned_equation; refused
   zeros/trailing_zeros_u8.lowest_bit_is_ignored, zero_has_one_less, vstd_zeros/trailing_zeros.ones_are_counted. */
uint32_t pb_u32_trailing_zeros(uint32_t i);

/* How many bits of `i` are 1 from the lowest on, up to the first 0; 32 where all are.
   Cited by rows B2; clause vstd_zeros/Zeros.vstd_trailing_ones; contract promisebook_zeros::pb_u32_trailing_ones;
   law vstd_zeros/Zeros.vstd_trailing_ones_is; pinned by vstd_integers/Pinned.pinned_equation; refused
   zeros/trailing_ones_u8.lowest_bit_counts_as_one, zeros_are_counted, vstd_zeros/trailing_ones.of_the_number. */
uint32_t pb_u32_trailing_ones(uint32_t i);

/* The number whose 4 bytes are `s`, lowest first. Refused where `s` has another length.
   Cited by rows C1, C2; clause vstd_number_bytes/Bytes.from_le_bytes, spec_from_le_bytes; contract
   promisebook_number_bytes::pb_u32_from_le_bytes; law vstd_number_bytes/Bytes.from_le_bytes_kept; pinned by
   vstd_integers/Pinned.pinned_unsigned_option; refused number_bytes/from_le_bytes.two_bytes_for_three,
   vstd_number_bytes/from_le_bytes.any_length, one_byte_fewer, number_bytes/from_le_bytes.highest_first,
   vstd_number_bytes/from_le_bytes.first_byte_last. */
pb_answer_u32 pb_u32_from_le_bytes(const uint8_t *s, size_t s_len);

/* Writes the 4 bytes of `x` into `s` from the place `at` on, lowest first, and changes no other byte. Refused where
   they do not fit there.
   Cited by rows C3; clause vstd_number_bytes/Bytes.spec_to_le_bytes; contract
   promisebook_number_bytes::pb_u32_to_le_bytes; law vstd_number_bytes/Bytes.to_le_bytes_is; pinned by
   theory_lists/Written.pinned_writes; refused number_bytes/to_le_bytes.highest_first, lowest_twice,
   number_bytes/write_le_bytes.elsewhere, one_place_too_far, byte_behind_changes,
   vstd_number_bytes/to_le_bytes.lowest_byte_only, seven_bits, promisebook_number_bytes/to_le_bytes.four_bytes. */
bool pb_u32_to_le_bytes(uint32_t x, uint8_t *s, size_t s_len, size_t at);

/* The number whose 4 bytes are `s`, highest first. Refused where `s` has another length.
   Cited by rows C67; clause theory_digits/Number.number_high; contract
   promisebook_number_bytes::pb_u32_from_be_bytes; law theory_digits/Reading.number_high_of_digits_high; pinned by
   vstd_integers/Pinned.pinned_unsigned_option; refused number_bytes/from_be_bytes.lowest_first,
   two_bytes_for_one. */
pb_answer_u32 pb_u32_from_be_bytes(const uint8_t *s, size_t s_len);

/* Writes the 4 bytes of `x` into `s` from the place `at` on, highest first, and changes no other byte. Refused where
   they do not fit there.
   Cited by rows C68; clause theory_digits/Digits.digits_high; contract promisebook_number_bytes::pb_u32_to_be_bytes;
   law theory_digits/Reading.digits_high_of_number_high; pinned by theory_lists/Written.pinned_writes; refused
   number_bytes/to_be_bytes.highest_twice, lowest_first, number_bytes/write_be_bytes.complement,
   last_place_is_refused, byte_changes_twice, promisebook_number_bytes/to_be_bytes.lowest_first. */
bool pb_u32_to_be_bytes(uint32_t x, uint8_t *s, size_t s_len, size_t at);

/* The number that the bytes of `s` from `from` up to and without `to` say in decimal: one figure or more from 0 to
   9, without a sign. Zeros in front are read, and '+' is not. Refused where they say no number, where it is not
   from 0 to 4294967295, and where `to` is past the end.
   Cited by rows F6; clause theory_decimal/Read.natural_in, read_in; contract
   promisebook_decimal::pb_u32_read_decimal; law theory_decimal/Reading.so_far_all, no_text, past_the_end; pinned
   by vstd_integers/Pinned.pinned_unsigned_option; refused decimal_read/read_u64.colon_is_a_figure,
   largest_number_refused, last_figure_left_out, nothing_is_zero, runs_over,
   decimal_read/read_u8.largest_number_refused, too_large_taken, promisebook_decimal/read_decimal.too_large. */
pb_answer_u32 pb_u32_read_decimal(const uint8_t *s, size_t s_len, size_t from, size_t to);

/* Writes `x` in decimal into `s` from the place `at` on, with no zero in front, changes no other byte, and answers
   how many bytes it has written. Refused where they do not fit there.
   Cited by rows F8; clause theory_decimal/Written.Shows, natural; contract
   promisebook_decimal::pb_u32_write_decimal; law theory_decimal/Showing.natural_shown; pinned by
   theory_decimal/Showing.pinned_shows; refused decimal_write/write_u64.last_place_refused, ten_in_one_place,
   tens_lost, theory_decimal/shows.refusal_counts_anything. */
pb_answer_usize pb_u32_write_decimal(uint32_t x, uint8_t *s, size_t s_len, size_t at);

/* ---- Operations on u64, the unsigned numbers of 64 bits: 0 to 18446744073709551615. */

/* The sum `x + y`, wrapped: the unsigned number of 64 bits that differs from it by a multiple of 2^64.
   Cited by rows A1; clause vstd_integers/Unsigned.wrapping_add; contract promisebook_u64::pb_u64_wrapping_add; law
   vstd_integers/Unsigned.wrapping_add_kept; pinned by vstd_integers/Pinned.pinned_unsigned; refused
   unsigned_sums/wrapping_add.one_too_few, sum_of_255_wraps. */
uint64_t pb_u64_wrapping_add(uint64_t x, uint64_t y);

/* The sum `x + y`, wrapped: the unsigned number of 64 bits that differs from it by a multiple of 2^64.
   Cited by rows A2; clause vstd_integers/Unsigned.wrapping_add_signed; contract
   promisebook_u64::pb_u64_wrapping_add_signed; law vstd_integers/Unsigned.wrapping_add_signed_kept; pinned by
   vstd_integers/Pinned.pinned_unsigned; refused signed_sums/wrapping_add_signed.other_summand, subtracts. */
uint64_t pb_u64_wrapping_add_signed(uint64_t x, int64_t y);

/* The difference `x - y`, wrapped: the unsigned number of 64 bits that differs from it by a multiple of 2^64.
   Cited by rows A3; clause vstd_integers/Unsigned.wrapping_sub; contract promisebook_u64::pb_u64_wrapping_sub; law
   vstd_integers/Unsigned.wrapping_sub_kept; pinned by vstd_integers/Pinned.pinned_unsigned; refused
   unsigned_sums/wrapping_sub.one_too_many, zero_borrows. */
uint64_t pb_u64_wrapping_sub(uint64_t x, uint64_t y);

/* The product `x * y`, wrapped: the unsigned number of 64 bits that differs from it by a multiple of 2^64.
   Cited by rows A4; clause vstd_integers/Unsigned.wrapping_mul; contract promisebook_u64::pb_u64_wrapping_mul; law
   vstd_integers/Unsigned.wrapping_mul_kept; pinned by vstd_integers/Pinned.pinned_unsigned; refused
   unsigned_sums/wrapping_mul.square, integers/wrapping_mul.modulo_255, integers/product.one_cross_product_twice,
   upper_half_left_out. */
uint64_t pb_u64_wrapping_mul(uint64_t x, uint64_t y);

/* `x` shifted to the left by `rhs` modulo 64: zeros come in, and what leaves the 64 bits is lost.
   Cited by rows A5; clause vstd_integers/Unsigned.wrapping_shl; contract promisebook_u64::pb_u64_wrapping_shl; law
   vstd_integers/Unsigned.wrapping_shl_kept; pinned by vstd_integers/Pinned.pinned_unsigned; refused
   unsigned_bits/wrapping_shl.by_the_width_is_0, modulo_7. */
uint64_t pb_u64_wrapping_shl(uint64_t x, uint32_t rhs);

/* `x` shifted to the right by `rhs` modulo 64: zeros come in.
   Cited by rows A6; clause vstd_integers/Unsigned.wrapping_shr; contract promisebook_u64::pb_u64_wrapping_shr; law
   vstd_integers/Unsigned.wrapping_shr_kept; pinned by vstd_integers/Pinned.pinned_unsigned; refused
   unsigned_bits/wrapping_shr.by_the_width_is_0, modulo_7. */
uint64_t pb_u64_wrapping_shr(uint64_t x, uint32_t rhs);

/* The sum `x + y`. Refused where it is not from 0 to 18446744073709551615.
   Cited by rows A7; clause vstd_integers/Unsigned.checked_add; contract promisebook_u64::pb_u64_checked_add; law
   vstd_integers/Unsigned.checked_add_kept; pinned by vstd_integers/Pinned.pinned_unsigned_option; refused
   unsigned_sums/checked_add.second_summand_alone, sum_of_255_refused, vstd_integers/checked_add.largest_refused. */
pb_answer_u64 pb_u64_checked_add(uint64_t x, uint64_t y);

/* The sum `x + y`. Refused where it is not from 0 to 18446744073709551615.
   Cited by rows A8; clause vstd_integers/Unsigned.checked_add_signed; contract
   promisebook_u64::pb_u64_checked_add_signed; law vstd_integers/Unsigned.checked_add_signed_kept; pinned by
   vstd_integers/Pinned.pinned_unsigned_option; refused signed_sums/checked_add_signed.first_summand, other_side. */
pb_answer_u64 pb_u64_checked_add_signed(uint64_t x, int64_t y);

/* The difference `x - y`. Refused where it is not from 0 to 18446744073709551615.
   Cited by rows A9; clause vstd_integers/Unsigned.checked_sub; contract promisebook_u64::pb_u64_checked_sub; law
   vstd_integers/Unsigned.checked_sub_kept; pinned by vstd_integers/Pinned.pinned_unsigned_option; refused
   unsigned_sums/checked_sub.nothing_taken, other_way_round. */
pb_answer_u64 pb_u64_checked_sub(uint64_t x, uint64_t y);

/* The product `x * y`. Refused where it is not from 0 to 18446744073709551615.
   Cited by rows A10; clause vstd_integers/Unsigned.checked_mul; contract promisebook_u64::pb_u64_checked_mul; law
   vstd_integers/Unsigned.checked_mul_kept; pinned by vstd_integers/Pinned.pinned_unsigned_option; refused
   unsigned_sums/checked_mul.larger_quotient_taken, square. */
pb_answer_u64 pb_u64_checked_mul(uint64_t x, uint64_t y);

/* The smallest multiple of `y` that is at least `x`. Refused where `y` is 0 or the multiple is above
   18446744073709551615.
   Cited by rows A11; clause vstd_integers/Unsigned.checked_next_multiple_of; contract
   promisebook_u64::pb_u64_checked_next_multiple_of; law vstd_integers/Unsigned.checked_next_multiple_of_kept;
   pinned by vstd_integers/Pinned.pinned_unsigned_option; refused
   unsigned_division/checked_next_multiple_of.always_a_multiple, first_multiple,
   vstd_integers/checked_next_multiple_of.zero_not_refused, promisebook_u8/checked_next_multiple_of.nine_bits. */
pb_answer_u64 pb_u64_checked_next_multiple_of(uint64_t x, uint64_t y);

/* The quotient of `x` by `y`, rounded towards zero. Refused where `y` is 0.
   Cited by rows A12; clause vstd_integers/Unsigned.checked_div; contract promisebook_u64::pb_u64_checked_div; law
   vstd_integers/Unsigned.checked_div_kept; pinned by vstd_integers/Pinned.pinned_unsigned_option; refused
   unsigned_division/checked_div.by_zero_is_0, other_dividend. */
pb_answer_u64 pb_u64_checked_div(uint64_t x, uint64_t y);

/* The quotient of `x` by `y` whose remainder is not negative. Refused where `y` is 0.
   Cited by rows A13; clause vstd_integers/Unsigned.checked_div; contract promisebook_u64::pb_u64_checked_div_euclid;
   law vstd_integers/Unsigned.checked_div_euclid_kept; pinned by vstd_integers/Pinned.pinned_unsigned_option;
   refused unsigned_division/checked_div_euclid.by_zero_is_0, other_way_round. */
pb_answer_u64 pb_u64_checked_div_euclid(uint64_t x, uint64_t y);

/* The remainder of `x` by `y`. Refused where `y` is 0.
   Cited by rows A14; clause vstd_integers/Unsigned.checked_rem; contract promisebook_u64::pb_u64_checked_rem; law
   vstd_integers/Unsigned.checked_rem_kept; pinned by vstd_integers/Pinned.pinned_unsigned_option; refused
   unsigned_division/checked_rem.by_zero_is_dividend, other_dividend. */
pb_answer_u64 pb_u64_checked_rem(uint64_t x, uint64_t y);

/* The remainder of `x` by `y` that is not negative. Refused where `y` is 0.
   Cited by rows A15; clause vstd_integers/Unsigned.checked_rem; contract promisebook_u64::pb_u64_checked_rem_euclid;
   law vstd_integers/Unsigned.checked_rem_euclid_kept; pinned by vstd_integers/Pinned.pinned_unsigned_option;
   refused unsigned_division/checked_rem_euclid.by_zero_is_dividend, other_way_round. */
pb_answer_u64 pb_u64_checked_rem_euclid(uint64_t x, uint64_t y);

/* The sum `x + y`, or 18446744073709551615 where it is larger.
   Cited by rows A16; clause vstd_integers/Unsigned.saturating_add; contract promisebook_u64::pb_u64_saturating_add;
   law vstd_integers/Unsigned.saturating_add_kept; pinned by vstd_integers/Pinned.pinned_unsigned; refused
   unsigned_sums/saturating_add.first_summand, wraps_to_0. */
uint64_t pb_u64_saturating_add(uint64_t x, uint64_t y);

/* The difference `x - y`, or 0 where it is below that.
   Cited by rows A17; clause vstd_integers/Unsigned.saturating_sub; contract promisebook_u64::pb_u64_saturating_sub;
   law vstd_integers/Unsigned.saturating_sub_kept; pinned by vstd_integers/Pinned.pinned_unsigned; refused
   unsigned_sums/saturating_sub.other_side, stops_at_1, promisebook_u8/saturating_sub.wraps. */
uint64_t pb_u64_saturating_sub(uint64_t x, uint64_t y);

/* The product `x * y`, or 18446744073709551615 where it is larger.
   Cited by rows A18; clause vstd_integers/Unsigned.saturating_mul; contract promisebook_u64::pb_u64_saturating_mul;
   law vstd_integers/Unsigned.saturating_mul_kept; pinned by vstd_integers/Pinned.pinned_unsigned; refused
   unsigned_sums/saturating_mul.square, wraps_to_0, vstd_integers/saturating_mul.wraps. */
uint64_t pb_u64_saturating_mul(uint64_t x, uint64_t y);

/* Whether `x` is a multiple of `y`; of 0 only 0 is.
   Cited by rows A19; clause vstd_integers/Unsigned.is_multiple_of; contract promisebook_u64::pb_u64_is_multiple_of;
   law vstd_integers/Unsigned.is_multiple_of_kept; pinned by vstd_integers/Pinned.pinned_equation; refused
   unsigned_division/is_multiple_of.all_of_zero, remainder_of_1, vstd_integers/is_multiple_of.all_of_zero. */
bool pb_u64_is_multiple_of(uint64_t x, uint64_t y);

/* `x` itself.
   Cited by rows A35; clause vstd_integers/Compare.clone; contract promisebook_u64::pb_u64_clone; law
   vstd_integers/Compare.clone_kept; pinned by vstd_integers/Pinned.pinned_unsigned, pinned_equation; refused
   promisebook_u8/clone.always_0, promisebook_i8/clone.always_0. */
uint64_t pb_u64_clone(uint64_t x);

/* Whether `x` and `y` are equal.
   Cited by rows A36; clause vstd_integers/Compare.eq; contract promisebook_u64::pb_u64_eq; law
   vstd_integers/Compare.eq_kept; pinned by vstd_integers/Pinned.pinned_equation; refused
   ordering/is_eq.less_is_equal, never. */
bool pb_u64_eq(uint64_t x, uint64_t y);

/* Whether `x` and `y` differ.
   Cited by rows A37; clause vstd_integers/Compare.ne; contract promisebook_u64::pb_u64_ne; law
   vstd_integers/Compare.ne_kept; pinned by vstd_integers/Pinned.pinned_equation; refused
   ordering/is_ne.equal_differs, greater_only. */
bool pb_u64_ne(uint64_t x, uint64_t y);

/* Whether `x` is less than `y`.
   Cited by rows A40; clause vstd_integers/Compare.lt; contract promisebook_u64::pb_u64_lt; law
   vstd_integers/Compare.lt_kept; pinned by vstd_integers/Pinned.pinned_equation; refused
   ordering/is_lt.equal_is_less, greater_is_less. */
bool pb_u64_lt(uint64_t x, uint64_t y);

/* Whether `x` is less than `y` or equal to it.
   Cited by rows A41; clause vstd_integers/Compare.le; contract promisebook_u64::pb_u64_le; law
   vstd_integers/Compare.le_kept; pinned by vstd_integers/Pinned.pinned_equation; refused
   ordering/is_le.equal_is_more, greater_is_at_most, vstd_integers/le.equal_is_more. */
bool pb_u64_le(uint64_t x, uint64_t y);

/* Whether `x` is greater than `y`.
   Cited by rows A42; clause vstd_integers/Compare.gt; contract promisebook_u64::pb_u64_gt; law
   vstd_integers/Compare.gt_kept; pinned by vstd_integers/Pinned.pinned_equation; refused
   ordering/is_gt.equal_is_greater, less_is_greater. */
bool pb_u64_gt(uint64_t x, uint64_t y);

/* Whether `x` is greater than `y` or equal to it.
   Cited by rows A43; clause vstd_integers/Compare.ge; contract promisebook_u64::pb_u64_ge; law
   vstd_integers/Compare.ge_kept; pinned by vstd_integers/Pinned.pinned_equation; refused
   ordering/is_ge.equal_is_less, less_is_at_least. */
bool pb_u64_ge(uint64_t x, uint64_t y);

/* How `x` stands to `y`: less (-1), equal (0) or greater (1).
   Cited by rows A38; clause vstd_integers/Compare.cmp; contract promisebook_u64::pb_u64_cmp; law
   vstd_integers/Compare.cmp_kept; pinned by vstd_integers/Pinned.pinned_equation; refused
   ordering/number.greater_is_0, less_is_1, unsigned_order/compare.equal_is_greater, less_is_greater,
   signed_order/compare.equal_is_greater, less_is_greater. */
int8_t pb_u64_cmp(uint64_t x, uint64_t y);

/* How `x` stands to `y`: less (-1), equal (0) or greater (1). Never refused.
   Cited by rows A39; clause vstd_integers/Compare.cmp; contract promisebook_u64::pb_u64_partial_cmp; law
   vstd_integers/Compare.cmp_kept; pinned by vstd_integers/Pinned.pinned_option. */
pb_answer_i8 pb_u64_partial_cmp(uint64_t x, uint64_t y);

/* How many bits of `i` are 0 from the highest on, up to the first 1; 64 where all are.
   Cited by rows B3; clause vstd_zeros/Zeros.vstd_leading_zeros; contract promisebook_zeros::pb_u64_leading_zeros;
   law vstd_zeros/Zeros.vstd_leading_zeros_is; pinned by vstd_integers/Pinned.pinned_equation; refused
   zeros/leading_zeros_u8.highest_bit_is_ignored, zero_has_one_less, vstd_zeros/leading_zeros.zero_has_one_less,
   promisebook_zeros/leading_zeros.of_eight_bits. */
uint32_t pb_u64_leading_zeros(uint64_t i);

/* How many bits of `i` are 1 from the highest on, up to the first 0; 64 where all are.
   Cited by rows B4; clause vstd_zeros/Zeros.vstd_leading_ones; contract promisebook_zeros::pb_u64_leading_ones; law
   vstd_zeros/Zeros.vstd_leading_ones_is; pinned by vstd_integers/Pinned.pinned_equation; refused
   zeros/leading_ones_u8.highest_bit_counts_as_one, zeros_are_counted, promisebook_zeros/leading_ones.zeros. */
uint32_t pb_u64_leading_ones(uint64_t i);

/* How many bits of `i` are 0 from the lowest on, up to the first 1; 64 where all are.
   Cited by rows B1; clause vstd_zeros/Zeros.vstd_trailing_zeros; contract promisebook_zeros::pb_u64_trailing_zeros;
   law vstd_zeros/Zeros.vstd_trailing_zeros_is; pinned by vstd_integers/Pinned.pinned_equation; refused
   zeros/trailing_zeros_u8.lowest_bit_is_ignored, zero_has_one_less, vstd_zeros/trailing_zeros.ones_are_counted. */
uint32_t pb_u64_trailing_zeros(uint64_t i);

/* How many bits of `i` are 1 from the lowest on, up to the first 0; 64 where all are.
   Cited by rows B2; clause vstd_zeros/Zeros.vstd_trailing_ones; contract promisebook_zeros::pb_u64_trailing_ones;
   law vstd_zeros/Zeros.vstd_trailing_ones_is; pinned by vstd_integers/Pinned.pinned_equation; refused
   zeros/trailing_ones_u8.lowest_bit_counts_as_one, zeros_are_counted, vstd_zeros/trailing_ones.of_the_number. */
uint32_t pb_u64_trailing_ones(uint64_t i);

/* The number whose 8 bytes are `s`, lowest first. Refused where `s` has another length.
   Cited by rows C1, C2; clause vstd_number_bytes/Bytes.from_le_bytes, spec_from_le_bytes; contract
   promisebook_number_bytes::pb_u64_from_le_bytes; law vstd_number_bytes/Bytes.from_le_bytes_kept; pinned by
   vstd_integers/Pinned.pinned_unsigned_option; refused number_bytes/from_le_bytes.two_bytes_for_three,
   vstd_number_bytes/from_le_bytes.any_length, one_byte_fewer, number_bytes/from_le_bytes.highest_first,
   vstd_number_bytes/from_le_bytes.first_byte_last. */
pb_answer_u64 pb_u64_from_le_bytes(const uint8_t *s, size_t s_len);

/* Writes the 8 bytes of `x` into `s` from the place `at` on, lowest first, and changes no other byte. Refused where
   they do not fit there.
   Cited by rows C3; clause vstd_number_bytes/Bytes.spec_to_le_bytes; contract
   promisebook_number_bytes::pb_u64_to_le_bytes; law vstd_number_bytes/Bytes.to_le_bytes_is; pinned by
   theory_lists/Written.pinned_writes; refused number_bytes/to_le_bytes.highest_first, lowest_twice,
   number_bytes/write_le_bytes.elsewhere, one_place_too_far, byte_behind_changes,
   vstd_number_bytes/to_le_bytes.lowest_byte_only, seven_bits, promisebook_number_bytes/to_le_bytes.four_bytes. */
bool pb_u64_to_le_bytes(uint64_t x, uint8_t *s, size_t s_len, size_t at);

/* The number whose 8 bytes are `s`, highest first. Refused where `s` has another length.
   Cited by rows C67; clause theory_digits/Number.number_high; contract
   promisebook_number_bytes::pb_u64_from_be_bytes; law theory_digits/Reading.number_high_of_digits_high; pinned by
   vstd_integers/Pinned.pinned_unsigned_option; refused number_bytes/from_be_bytes.lowest_first,
   two_bytes_for_one. */
pb_answer_u64 pb_u64_from_be_bytes(const uint8_t *s, size_t s_len);

/* Writes the 8 bytes of `x` into `s` from the place `at` on, highest first, and changes no other byte. Refused where
   they do not fit there.
   Cited by rows C68; clause theory_digits/Digits.digits_high; contract promisebook_number_bytes::pb_u64_to_be_bytes;
   law theory_digits/Reading.digits_high_of_number_high; pinned by theory_lists/Written.pinned_writes; refused
   number_bytes/to_be_bytes.highest_twice, lowest_first, number_bytes/write_be_bytes.complement,
   last_place_is_refused, byte_changes_twice, promisebook_number_bytes/to_be_bytes.lowest_first. */
bool pb_u64_to_be_bytes(uint64_t x, uint8_t *s, size_t s_len, size_t at);

/* The number that the bytes of `s` from `from` up to and without `to` say in decimal: one figure or more from 0 to
   9, without a sign. Zeros in front are read, and '+' is not. Refused where they say no number, where it is not
   from 0 to 18446744073709551615, and where `to` is past the end.
   Cited by rows F6; clause theory_decimal/Read.natural_in, read_in; contract
   promisebook_decimal::pb_u64_read_decimal; law theory_decimal/Reading.so_far_all, no_text, past_the_end; pinned
   by vstd_integers/Pinned.pinned_unsigned_option; refused decimal_read/read_u64.colon_is_a_figure,
   largest_number_refused, last_figure_left_out, nothing_is_zero, runs_over,
   decimal_read/read_u8.largest_number_refused, too_large_taken, promisebook_decimal/read_decimal.too_large. */
pb_answer_u64 pb_u64_read_decimal(const uint8_t *s, size_t s_len, size_t from, size_t to);

/* Writes `x` in decimal into `s` from the place `at` on, with no zero in front, changes no other byte, and answers
   how many bytes it has written. Refused where they do not fit there.
   Cited by rows F8; clause theory_decimal/Written.Shows, natural; contract
   promisebook_decimal::pb_u64_write_decimal; law theory_decimal/Showing.natural_shown; pinned by
   theory_decimal/Showing.pinned_shows; refused decimal_write/write_u64.last_place_refused, ten_in_one_place,
   tens_lost, theory_decimal/shows.refusal_counts_anything. */
pb_answer_usize pb_u64_write_decimal(uint64_t x, uint8_t *s, size_t s_len, size_t at);

/* ---- Operations on usize, the unsigned numbers of 64 bits: 0 to 18446744073709551615. */

/* The sum `x + y`, wrapped: the unsigned number of 64 bits that differs from it by a multiple of 2^64.
   Cited by rows A1; clause vstd_integers/Unsigned.wrapping_add; contract promisebook_usize::pb_usize_wrapping_add;
   law vstd_integers/Unsigned.wrapping_add_kept; pinned by vstd_integers/Pinned.pinned_unsigned; refused
   unsigned_sums/wrapping_add.one_too_few, sum_of_255_wraps. */
size_t pb_usize_wrapping_add(size_t x, size_t y);

/* The sum `x + y`, wrapped: the unsigned number of 64 bits that differs from it by a multiple of 2^64.
   Cited by rows A2; clause vstd_integers/Unsigned.wrapping_add_signed; contract
   promisebook_usize::pb_usize_wrapping_add_signed; law vstd_integers/Unsigned.wrapping_add_signed_kept; pinned by
   vstd_integers/Pinned.pinned_unsigned; refused signed_sums/wrapping_add_signed.other_summand, subtracts. */
size_t pb_usize_wrapping_add_signed(size_t x, ptrdiff_t y);

/* The difference `x - y`, wrapped: the unsigned number of 64 bits that differs from it by a multiple of 2^64.
   Cited by rows A3; clause vstd_integers/Unsigned.wrapping_sub; contract promisebook_usize::pb_usize_wrapping_sub;
   law vstd_integers/Unsigned.wrapping_sub_kept; pinned by vstd_integers/Pinned.pinned_unsigned; refused
   unsigned_sums/wrapping_sub.one_too_many, zero_borrows. */
size_t pb_usize_wrapping_sub(size_t x, size_t y);

/* The product `x * y`, wrapped: the unsigned number of 64 bits that differs from it by a multiple of 2^64.
   Cited by rows A4; clause vstd_integers/Unsigned.wrapping_mul; contract promisebook_usize::pb_usize_wrapping_mul;
   law vstd_integers/Unsigned.wrapping_mul_kept; pinned by vstd_integers/Pinned.pinned_unsigned; refused
   unsigned_sums/wrapping_mul.square, integers/wrapping_mul.modulo_255, integers/product.one_cross_product_twice,
   upper_half_left_out. */
size_t pb_usize_wrapping_mul(size_t x, size_t y);

/* `x` shifted to the left by `rhs` modulo 64: zeros come in, and what leaves the 64 bits is lost.
   Cited by rows A5; clause vstd_integers/Unsigned.wrapping_shl; contract promisebook_usize::pb_usize_wrapping_shl;
   law vstd_integers/Unsigned.wrapping_shl_kept; pinned by vstd_integers/Pinned.pinned_unsigned; refused
   unsigned_bits/wrapping_shl.by_the_width_is_0, modulo_7. */
size_t pb_usize_wrapping_shl(size_t x, uint32_t rhs);

/* `x` shifted to the right by `rhs` modulo 64: zeros come in.
   Cited by rows A6; clause vstd_integers/Unsigned.wrapping_shr; contract promisebook_usize::pb_usize_wrapping_shr;
   law vstd_integers/Unsigned.wrapping_shr_kept; pinned by vstd_integers/Pinned.pinned_unsigned; refused
   unsigned_bits/wrapping_shr.by_the_width_is_0, modulo_7. */
size_t pb_usize_wrapping_shr(size_t x, uint32_t rhs);

/* The sum `x + y`. Refused where it is not from 0 to 18446744073709551615.
   Cited by rows A7; clause vstd_integers/Unsigned.checked_add; contract promisebook_usize::pb_usize_checked_add; law
   vstd_integers/Unsigned.checked_add_kept; pinned by vstd_integers/Pinned.pinned_unsigned_option; refused
   unsigned_sums/checked_add.second_summand_alone, sum_of_255_refused, vstd_integers/checked_add.largest_refused. */
pb_answer_usize pb_usize_checked_add(size_t x, size_t y);

/* The sum `x + y`. Refused where it is not from 0 to 18446744073709551615.
   Cited by rows A8; clause vstd_integers/Unsigned.checked_add_signed; contract
   promisebook_usize::pb_usize_checked_add_signed; law vstd_integers/Unsigned.checked_add_signed_kept; pinned by
   vstd_integers/Pinned.pinned_unsigned_option; refused signed_sums/checked_add_signed.first_summand, other_side. */
pb_answer_usize pb_usize_checked_add_signed(size_t x, ptrdiff_t y);

/* The difference `x - y`. Refused where it is not from 0 to 18446744073709551615.
   Cited by rows A9; clause vstd_integers/Unsigned.checked_sub; contract promisebook_usize::pb_usize_checked_sub; law
   vstd_integers/Unsigned.checked_sub_kept; pinned by vstd_integers/Pinned.pinned_unsigned_option; refused
   unsigned_sums/checked_sub.nothing_taken, other_way_round. */
pb_answer_usize pb_usize_checked_sub(size_t x, size_t y);

/* The product `x * y`. Refused where it is not from 0 to 18446744073709551615.
   Cited by rows A10; clause vstd_integers/Unsigned.checked_mul; contract promisebook_usize::pb_usize_checked_mul;
   law vstd_integers/Unsigned.checked_mul_kept; pinned by vstd_integers/Pinned.pinned_unsigned_option; refused
   unsigned_sums/checked_mul.larger_quotient_taken, square. */
pb_answer_usize pb_usize_checked_mul(size_t x, size_t y);

/* The smallest multiple of `y` that is at least `x`. Refused where `y` is 0 or the multiple is above
   18446744073709551615.
   Cited by rows A11; clause vstd_integers/Unsigned.checked_next_multiple_of; contract
   promisebook_usize::pb_usize_checked_next_multiple_of; law vstd_integers/Unsigned.checked_next_multiple_of_kept;
   pinned by vstd_integers/Pinned.pinned_unsigned_option; refused
   unsigned_division/checked_next_multiple_of.always_a_multiple, first_multiple,
   vstd_integers/checked_next_multiple_of.zero_not_refused, promisebook_u8/checked_next_multiple_of.nine_bits. */
pb_answer_usize pb_usize_checked_next_multiple_of(size_t x, size_t y);

/* The quotient of `x` by `y`, rounded towards zero. Refused where `y` is 0.
   Cited by rows A12; clause vstd_integers/Unsigned.checked_div; contract promisebook_usize::pb_usize_checked_div;
   law vstd_integers/Unsigned.checked_div_kept; pinned by vstd_integers/Pinned.pinned_unsigned_option; refused
   unsigned_division/checked_div.by_zero_is_0, other_dividend. */
pb_answer_usize pb_usize_checked_div(size_t x, size_t y);

/* The quotient of `x` by `y` whose remainder is not negative. Refused where `y` is 0.
   Cited by rows A13; clause vstd_integers/Unsigned.checked_div; contract
   promisebook_usize::pb_usize_checked_div_euclid; law vstd_integers/Unsigned.checked_div_euclid_kept; pinned by
   vstd_integers/Pinned.pinned_unsigned_option; refused unsigned_division/checked_div_euclid.by_zero_is_0,
   other_way_round. */
pb_answer_usize pb_usize_checked_div_euclid(size_t x, size_t y);

/* The remainder of `x` by `y`. Refused where `y` is 0.
   Cited by rows A14; clause vstd_integers/Unsigned.checked_rem; contract promisebook_usize::pb_usize_checked_rem;
   law vstd_integers/Unsigned.checked_rem_kept; pinned by vstd_integers/Pinned.pinned_unsigned_option; refused
   unsigned_division/checked_rem.by_zero_is_dividend, other_dividend. */
pb_answer_usize pb_usize_checked_rem(size_t x, size_t y);

/* The remainder of `x` by `y` that is not negative. Refused where `y` is 0.
   Cited by rows A15; clause vstd_integers/Unsigned.checked_rem; contract
   promisebook_usize::pb_usize_checked_rem_euclid; law vstd_integers/Unsigned.checked_rem_euclid_kept; pinned by
   vstd_integers/Pinned.pinned_unsigned_option; refused unsigned_division/checked_rem_euclid.by_zero_is_dividend,
   other_way_round. */
pb_answer_usize pb_usize_checked_rem_euclid(size_t x, size_t y);

/* The sum `x + y`, or 18446744073709551615 where it is larger.
   Cited by rows A16; clause vstd_integers/Unsigned.saturating_add; contract
   promisebook_usize::pb_usize_saturating_add; law vstd_integers/Unsigned.saturating_add_kept; pinned by
   vstd_integers/Pinned.pinned_unsigned; refused unsigned_sums/saturating_add.first_summand, wraps_to_0. */
size_t pb_usize_saturating_add(size_t x, size_t y);

/* The difference `x - y`, or 0 where it is below that.
   Cited by rows A17; clause vstd_integers/Unsigned.saturating_sub; contract
   promisebook_usize::pb_usize_saturating_sub; law vstd_integers/Unsigned.saturating_sub_kept; pinned by
   vstd_integers/Pinned.pinned_unsigned; refused unsigned_sums/saturating_sub.other_side, stops_at_1,
   promisebook_u8/saturating_sub.wraps. */
size_t pb_usize_saturating_sub(size_t x, size_t y);

/* The product `x * y`, or 18446744073709551615 where it is larger.
   Cited by rows A18; clause vstd_integers/Unsigned.saturating_mul; contract
   promisebook_usize::pb_usize_saturating_mul; law vstd_integers/Unsigned.saturating_mul_kept; pinned by
   vstd_integers/Pinned.pinned_unsigned; refused unsigned_sums/saturating_mul.square, wraps_to_0,
   vstd_integers/saturating_mul.wraps. */
size_t pb_usize_saturating_mul(size_t x, size_t y);

/* Whether `x` is a multiple of `y`; of 0 only 0 is.
   Cited by rows A19; clause vstd_integers/Unsigned.is_multiple_of; contract
   promisebook_usize::pb_usize_is_multiple_of; law vstd_integers/Unsigned.is_multiple_of_kept; pinned by
   vstd_integers/Pinned.pinned_equation; refused unsigned_division/is_multiple_of.all_of_zero, remainder_of_1,
   vstd_integers/is_multiple_of.all_of_zero. */
bool pb_usize_is_multiple_of(size_t x, size_t y);

/* `x` itself.
   Cited by rows A35; clause vstd_integers/Compare.clone; contract promisebook_usize::pb_usize_clone; law
   vstd_integers/Compare.clone_kept; pinned by vstd_integers/Pinned.pinned_unsigned, pinned_equation; refused
   promisebook_u8/clone.always_0, promisebook_i8/clone.always_0. */
size_t pb_usize_clone(size_t x);

/* Whether `x` and `y` are equal.
   Cited by rows A36; clause vstd_integers/Compare.eq; contract promisebook_usize::pb_usize_eq; law
   vstd_integers/Compare.eq_kept; pinned by vstd_integers/Pinned.pinned_equation; refused
   ordering/is_eq.less_is_equal, never. */
bool pb_usize_eq(size_t x, size_t y);

/* Whether `x` and `y` differ.
   Cited by rows A37; clause vstd_integers/Compare.ne; contract promisebook_usize::pb_usize_ne; law
   vstd_integers/Compare.ne_kept; pinned by vstd_integers/Pinned.pinned_equation; refused
   ordering/is_ne.equal_differs, greater_only. */
bool pb_usize_ne(size_t x, size_t y);

/* Whether `x` is less than `y`.
   Cited by rows A40; clause vstd_integers/Compare.lt; contract promisebook_usize::pb_usize_lt; law
   vstd_integers/Compare.lt_kept; pinned by vstd_integers/Pinned.pinned_equation; refused
   ordering/is_lt.equal_is_less, greater_is_less. */
bool pb_usize_lt(size_t x, size_t y);

/* Whether `x` is less than `y` or equal to it.
   Cited by rows A41; clause vstd_integers/Compare.le; contract promisebook_usize::pb_usize_le; law
   vstd_integers/Compare.le_kept; pinned by vstd_integers/Pinned.pinned_equation; refused
   ordering/is_le.equal_is_more, greater_is_at_most, vstd_integers/le.equal_is_more. */
bool pb_usize_le(size_t x, size_t y);

/* Whether `x` is greater than `y`.
   Cited by rows A42; clause vstd_integers/Compare.gt; contract promisebook_usize::pb_usize_gt; law
   vstd_integers/Compare.gt_kept; pinned by vstd_integers/Pinned.pinned_equation; refused
   ordering/is_gt.equal_is_greater, less_is_greater. */
bool pb_usize_gt(size_t x, size_t y);

/* Whether `x` is greater than `y` or equal to it.
   Cited by rows A43; clause vstd_integers/Compare.ge; contract promisebook_usize::pb_usize_ge; law
   vstd_integers/Compare.ge_kept; pinned by vstd_integers/Pinned.pinned_equation; refused
   ordering/is_ge.equal_is_less, less_is_at_least. */
bool pb_usize_ge(size_t x, size_t y);

/* How `x` stands to `y`: less (-1), equal (0) or greater (1).
   Cited by rows A38; clause vstd_integers/Compare.cmp; contract promisebook_usize::pb_usize_cmp; law
   vstd_integers/Compare.cmp_kept; pinned by vstd_integers/Pinned.pinned_equation; refused
   ordering/number.greater_is_0, less_is_1, unsigned_order/compare.equal_is_greater, less_is_greater,
   signed_order/compare.equal_is_greater, less_is_greater. */
int8_t pb_usize_cmp(size_t x, size_t y);

/* How `x` stands to `y`: less (-1), equal (0) or greater (1). Never refused.
   Cited by rows A39; clause vstd_integers/Compare.cmp; contract promisebook_usize::pb_usize_partial_cmp; law
   vstd_integers/Compare.cmp_kept; pinned by vstd_integers/Pinned.pinned_option. */
pb_answer_i8 pb_usize_partial_cmp(size_t x, size_t y);

/* The number that the bytes of `s` from `from` up to and without `to` say in decimal: one figure or more from 0 to
   9, without a sign. Zeros in front are read, and '+' is not. Refused where they say no number, where it is not
   from 0 to 18446744073709551615, and where `to` is past the end.
   Cited by rows F6; clause theory_decimal/Read.natural_in, read_in; contract
   promisebook_decimal::pb_usize_read_decimal; law theory_decimal/Reading.so_far_all, no_text, past_the_end;
   pinned by vstd_integers/Pinned.pinned_unsigned_option; refused decimal_read/read_u64.colon_is_a_figure,
   largest_number_refused, last_figure_left_out, nothing_is_zero, runs_over,
   decimal_read/read_u8.largest_number_refused, too_large_taken, promisebook_decimal/read_decimal.too_large. */
pb_answer_usize pb_usize_read_decimal(const uint8_t *s, size_t s_len, size_t from, size_t to);

/* Writes `x` in decimal into `s` from the place `at` on, with no zero in front, changes no other byte, and answers
   how many bytes it has written. Refused where they do not fit there.
   Cited by rows F8; clause theory_decimal/Written.Shows, natural; contract
   promisebook_decimal::pb_usize_write_decimal; law theory_decimal/Showing.natural_shown; pinned by
   theory_decimal/Showing.pinned_shows; refused decimal_write/write_u64.last_place_refused, ten_in_one_place,
   tens_lost, theory_decimal/shows.refusal_counts_anything. */
pb_answer_usize pb_usize_write_decimal(size_t x, uint8_t *s, size_t s_len, size_t at);

/* ---- Operations on i8, the signed numbers of 8 bits: -128 to 127. */

/* The sum `x + y`, wrapped: the signed number of 8 bits that differs from it by a multiple of 2^8.
   Cited by rows A20; clause vstd_integers/Signed.wrapping_add; contract promisebook_i8::pb_i8_wrapping_add; law
   vstd_integers/Signed.wrapping_add_kept; pinned by vstd_integers/Pinned.pinned_equation; refused
   signed_sums/wrapping_add.complement, twice. */
int8_t pb_i8_wrapping_add(int8_t x, int8_t y);

/* The sum `x + y`, wrapped: the signed number of 8 bits that differs from it by a multiple of 2^8.
   Cited by rows A21; clause vstd_integers/Signed.wrapping_add_unsigned; contract
   promisebook_i8::pb_i8_wrapping_add_unsigned; law vstd_integers/Signed.wrapping_add_unsigned_kept; pinned by
   vstd_integers/Pinned.pinned_equation; refused signed_sums/wrapping_add_unsigned.complement, subtracts. */
int8_t pb_i8_wrapping_add_unsigned(int8_t x, uint8_t y);

/* The difference `x - y`, wrapped: the signed number of 8 bits that differs from it by a multiple of 2^8.
   Cited by rows A22; clause vstd_integers/Signed.wrapping_sub; contract promisebook_i8::pb_i8_wrapping_sub; law
   vstd_integers/Signed.wrapping_sub_kept; pinned by vstd_integers/Pinned.pinned_equation; refused
   signed_sums/wrapping_sub.nothing_left, other_way_round, vstd_integers/wrapping_sub.passes_the_top. */
int8_t pb_i8_wrapping_sub(int8_t x, int8_t y);

/* The product `x * y`, wrapped: the signed number of 8 bits that differs from it by a multiple of 2^8.
   Cited by rows A23; clause vstd_integers/Signed.wrapping_mul; contract promisebook_i8::pb_i8_wrapping_mul; law
   vstd_integers/Signed.wrapping_mul_kept; pinned by vstd_integers/Pinned.pinned_equation; refused
   signed_sums/wrapping_mul.complement, square. */
int8_t pb_i8_wrapping_mul(int8_t x, int8_t y);

/* `x` shifted to the left by `rhs` modulo 8: zeros come in, and what leaves the 8 bits is lost.
   Cited by rows A24; clause vstd_integers/Signed.wrapping_shl; contract promisebook_i8::pb_i8_wrapping_shl; law
   vstd_integers/Signed.wrapping_shl_kept; pinned by vstd_integers/Pinned.pinned_equation; refused
   signed_bits/wrapping_shl.by_the_width_is_0, modulo_7. */
int8_t pb_i8_wrapping_shl(int8_t x, uint32_t rhs);

/* `x` shifted to the right by `rhs` modulo 8: the sign comes in, so that it is the quotient by 2 to that power,
   rounded down.
   Cited by rows A25; clause vstd_integers/Signed.wrapping_shr; contract promisebook_i8::pb_i8_wrapping_shr; law
   vstd_integers/Signed.wrapping_shr_kept; pinned by vstd_integers/Pinned.pinned_equation; refused
   signed_bits/wrapping_shr.modulo_7, towards_zero. */
int8_t pb_i8_wrapping_shr(int8_t x, uint32_t rhs);

/* The sum `x + y`. Refused where it is not from -128 to 127.
   Cited by rows A26; clause vstd_integers/Signed.checked_add; contract promisebook_i8::pb_i8_checked_add; law
   vstd_integers/Signed.checked_add_kept; pinned by vstd_integers/Pinned.pinned_option; refused
   signed_sums/checked_add.first_summand, largest_refused, other_signs_refused. */
pb_answer_i8 pb_i8_checked_add(int8_t x, int8_t y);

/* The sum `x + y`. Refused where it is not from -128 to 127.
   Cited by rows A27; clause vstd_integers/Signed.checked_add_unsigned; contract
   promisebook_i8::pb_i8_checked_add_unsigned; law vstd_integers/Signed.checked_add_unsigned_kept; pinned by
   vstd_integers/Pinned.pinned_option; refused signed_sums/checked_add_unsigned.first_summand, rise_refused. */
pb_answer_i8 pb_i8_checked_add_unsigned(int8_t x, uint8_t y);

/* The difference `x - y`. Refused where it is not from -128 to 127.
   Cited by rows A28; clause vstd_integers/Signed.checked_sub; contract promisebook_i8::pb_i8_checked_sub; law
   vstd_integers/Signed.checked_sub_kept; pinned by vstd_integers/Pinned.pinned_option; refused
   signed_sums/checked_sub.least_refused, other_way_round, other_signs_refused. */
pb_answer_i8 pb_i8_checked_sub(int8_t x, int8_t y);

/* The difference `x - y`. Refused where it is not from -128 to 127.
   Cited by rows A29; clause vstd_integers/Signed.checked_sub_unsigned; contract
   promisebook_i8::pb_i8_checked_sub_unsigned; law vstd_integers/Signed.checked_sub_unsigned_kept; pinned by
   vstd_integers/Pinned.pinned_option; refused signed_sums/checked_sub_unsigned.fall_refused, first_number. */
pb_answer_i8 pb_i8_checked_sub_unsigned(int8_t x, uint8_t y);

/* The product `x * y`. Refused where it is not from -128 to 127.
   Cited by rows A30; clause vstd_integers/Signed.checked_mul; contract promisebook_i8::pb_i8_checked_mul; law
   vstd_integers/Signed.checked_mul_kept; pinned by vstd_integers/Pinned.pinned_option; refused
   signed_sums/checked_mul.larger_quotient_taken, square. */
pb_answer_i8 pb_i8_checked_mul(int8_t x, int8_t y);

/* The quotient of `x` by `y`, rounded towards zero. Refused where `y` is 0, and where `x` is -128 and `y` is -1,
   since the quotient does not fit.
   Cited by rows A31; clause vstd_integers/Signed.checked_div; contract promisebook_i8::pb_i8_checked_div; law
   vstd_integers/Signed.checked_div_kept; pinned by vstd_integers/Pinned.pinned_option; refused
   signed_division/checked_div.least_by_minus_one_wraps, other_dividend, vstd_integers/checked_div.euclidean,
   vstd_integers/divided_unless.least_by_minus_one_not_refused. */
pb_answer_i8 pb_i8_checked_div(int8_t x, int8_t y);

/* The quotient of `x` by `y` whose remainder is not negative. Refused where `y` is 0, and where `x` is -128 and `y`
   is -1, since the quotient does not fit.
   Cited by rows A32; clause vstd_integers/Signed.checked_div_euclid; contract
   promisebook_i8::pb_i8_checked_div_euclid; law vstd_integers/Signed.checked_div_euclid_kept; pinned by
   vstd_integers/Pinned.pinned_option; refused signed_division/checked_div_euclid.not_mended, towards_zero,
   promisebook_i8/checked_div_euclid.towards_zero. */
pb_answer_i8 pb_i8_checked_div_euclid(int8_t x, int8_t y);

/* The remainder of `x` by `y`, which has the sign of `x`. Refused where `y` is 0, and where `x` is -128 and `y` is
   -1, since the quotient does not fit.
   Cited by rows A33; clause vstd_integers/Signed.checked_rem; contract promisebook_i8::pb_i8_checked_rem; law
   vstd_integers/Signed.checked_rem_kept; pinned by vstd_integers/Pinned.pinned_option; refused
   signed_division/checked_rem.euclidean, least_by_minus_one_is_0, promisebook_i8/checked_rem.euclidean. */
pb_answer_i8 pb_i8_checked_rem(int8_t x, int8_t y);

/* The remainder of `x` by `y` that is not negative. Refused where `y` is 0, and where `x` is -128 and `y` is -1,
   since the quotient does not fit.
   Cited by rows A34; clause vstd_integers/Signed.checked_rem_euclid; contract
   promisebook_i8::pb_i8_checked_rem_euclid; law vstd_integers/Signed.checked_rem_euclid_kept; pinned by
   vstd_integers/Pinned.pinned_option; refused signed_division/checked_rem_euclid.absolute_value, not_mended. */
pb_answer_i8 pb_i8_checked_rem_euclid(int8_t x, int8_t y);

/* `x` itself.
   Cited by rows A35; clause vstd_integers/Compare.clone; contract promisebook_i8::pb_i8_clone; law
   vstd_integers/Compare.clone_kept; pinned by vstd_integers/Pinned.pinned_unsigned, pinned_equation; refused
   promisebook_u8/clone.always_0, promisebook_i8/clone.always_0. */
int8_t pb_i8_clone(int8_t x);

/* Whether `x` and `y` are equal.
   Cited by rows A36; clause vstd_integers/Compare.eq; contract promisebook_i8::pb_i8_eq; law
   vstd_integers/Compare.eq_kept; pinned by vstd_integers/Pinned.pinned_equation; refused
   ordering/is_eq.less_is_equal, never. */
bool pb_i8_eq(int8_t x, int8_t y);

/* Whether `x` and `y` differ.
   Cited by rows A37; clause vstd_integers/Compare.ne; contract promisebook_i8::pb_i8_ne; law
   vstd_integers/Compare.ne_kept; pinned by vstd_integers/Pinned.pinned_equation; refused
   ordering/is_ne.equal_differs, greater_only. */
bool pb_i8_ne(int8_t x, int8_t y);

/* Whether `x` is less than `y`.
   Cited by rows A40; clause vstd_integers/Compare.lt; contract promisebook_i8::pb_i8_lt; law
   vstd_integers/Compare.lt_kept; pinned by vstd_integers/Pinned.pinned_equation; refused
   ordering/is_lt.equal_is_less, greater_is_less. */
bool pb_i8_lt(int8_t x, int8_t y);

/* Whether `x` is less than `y` or equal to it.
   Cited by rows A41; clause vstd_integers/Compare.le; contract promisebook_i8::pb_i8_le; law
   vstd_integers/Compare.le_kept; pinned by vstd_integers/Pinned.pinned_equation; refused
   ordering/is_le.equal_is_more, greater_is_at_most, vstd_integers/le.equal_is_more. */
bool pb_i8_le(int8_t x, int8_t y);

/* Whether `x` is greater than `y`.
   Cited by rows A42; clause vstd_integers/Compare.gt; contract promisebook_i8::pb_i8_gt; law
   vstd_integers/Compare.gt_kept; pinned by vstd_integers/Pinned.pinned_equation; refused
   ordering/is_gt.equal_is_greater, less_is_greater. */
bool pb_i8_gt(int8_t x, int8_t y);

/* Whether `x` is greater than `y` or equal to it.
   Cited by rows A43; clause vstd_integers/Compare.ge; contract promisebook_i8::pb_i8_ge; law
   vstd_integers/Compare.ge_kept; pinned by vstd_integers/Pinned.pinned_equation; refused
   ordering/is_ge.equal_is_less, less_is_at_least. */
bool pb_i8_ge(int8_t x, int8_t y);

/* How `x` stands to `y`: less (-1), equal (0) or greater (1).
   Cited by rows A38; clause vstd_integers/Compare.cmp; contract promisebook_i8::pb_i8_cmp; law
   vstd_integers/Compare.cmp_kept; pinned by vstd_integers/Pinned.pinned_equation; refused
   ordering/number.greater_is_0, less_is_1, unsigned_order/compare.equal_is_greater, less_is_greater,
   signed_order/compare.equal_is_greater, less_is_greater. */
int8_t pb_i8_cmp(int8_t x, int8_t y);

/* How `x` stands to `y`: less (-1), equal (0) or greater (1). Never refused.
   Cited by rows A39; clause vstd_integers/Compare.cmp; contract promisebook_i8::pb_i8_partial_cmp; law
   vstd_integers/Compare.cmp_kept; pinned by vstd_integers/Pinned.pinned_option. */
pb_answer_i8 pb_i8_partial_cmp(int8_t x, int8_t y);

/* The number that the bytes of `s` from `from` up to and without `to` say in decimal: one figure or more from 0 to
   9, with '-' in front or without. Zeros in front are read, and '+' is not. Refused where they say no number,
   where it is not from -128 to 127, and where `to` is past the end.
   Cited by rows F7; clause theory_decimal/Read.whole_in, read_in; contract promisebook_decimal::pb_i8_read_decimal;
   pinned by vstd_integers/Pinned.pinned_option; refused decimal_read_signed/read_i8.sign_lost,
   sign_read_as_a_figure, promisebook_decimal/read_decimal.sign_refused. */
pb_answer_i8 pb_i8_read_decimal(const uint8_t *s, size_t s_len, size_t from, size_t to);

/* Writes `x` in decimal into `s` from the place `at` on, with no zero in front and '-' before a negative number,
   changes no other byte, and answers how many bytes it has written. Refused where they do not fit there.
   Cited by rows F9; clause theory_decimal/Written.Shows, whole; contract promisebook_decimal::pb_i8_write_decimal;
   law theory_decimal/Showing.with_sign_shown; pinned by theory_decimal/Showing.pinned_shows; refused
   decimal_write/write_i8.sign_left_out, zero_with_a_sign. */
pb_answer_usize pb_i8_write_decimal(int8_t x, uint8_t *s, size_t s_len, size_t at);

/* ---- Operations on i16, the signed numbers of 16 bits: -32768 to 32767. */

/* The sum `x + y`, wrapped: the signed number of 16 bits that differs from it by a multiple of 2^16.
   Cited by rows A20; clause vstd_integers/Signed.wrapping_add; contract promisebook_i16::pb_i16_wrapping_add; law
   vstd_integers/Signed.wrapping_add_kept; pinned by vstd_integers/Pinned.pinned_equation; refused
   signed_sums/wrapping_add.complement, twice. */
int16_t pb_i16_wrapping_add(int16_t x, int16_t y);

/* The sum `x + y`, wrapped: the signed number of 16 bits that differs from it by a multiple of 2^16.
   Cited by rows A21; clause vstd_integers/Signed.wrapping_add_unsigned; contract
   promisebook_i16::pb_i16_wrapping_add_unsigned; law vstd_integers/Signed.wrapping_add_unsigned_kept; pinned by
   vstd_integers/Pinned.pinned_equation; refused signed_sums/wrapping_add_unsigned.complement, subtracts. */
int16_t pb_i16_wrapping_add_unsigned(int16_t x, uint16_t y);

/* The difference `x - y`, wrapped: the signed number of 16 bits that differs from it by a multiple of 2^16.
   Cited by rows A22; clause vstd_integers/Signed.wrapping_sub; contract promisebook_i16::pb_i16_wrapping_sub; law
   vstd_integers/Signed.wrapping_sub_kept; pinned by vstd_integers/Pinned.pinned_equation; refused
   signed_sums/wrapping_sub.nothing_left, other_way_round, vstd_integers/wrapping_sub.passes_the_top. */
int16_t pb_i16_wrapping_sub(int16_t x, int16_t y);

/* The product `x * y`, wrapped: the signed number of 16 bits that differs from it by a multiple of 2^16.
   Cited by rows A23; clause vstd_integers/Signed.wrapping_mul; contract promisebook_i16::pb_i16_wrapping_mul; law
   vstd_integers/Signed.wrapping_mul_kept; pinned by vstd_integers/Pinned.pinned_equation; refused
   signed_sums/wrapping_mul.complement, square. */
int16_t pb_i16_wrapping_mul(int16_t x, int16_t y);

/* `x` shifted to the left by `rhs` modulo 16: zeros come in, and what leaves the 16 bits is lost.
   Cited by rows A24; clause vstd_integers/Signed.wrapping_shl; contract promisebook_i16::pb_i16_wrapping_shl; law
   vstd_integers/Signed.wrapping_shl_kept; pinned by vstd_integers/Pinned.pinned_equation; refused
   signed_bits/wrapping_shl.by_the_width_is_0, modulo_7. */
int16_t pb_i16_wrapping_shl(int16_t x, uint32_t rhs);

/* `x` shifted to the right by `rhs` modulo 16: the sign comes in, so that it is the quotient by 2 to that power,
   rounded down.
   Cited by rows A25; clause vstd_integers/Signed.wrapping_shr; contract promisebook_i16::pb_i16_wrapping_shr; law
   vstd_integers/Signed.wrapping_shr_kept; pinned by vstd_integers/Pinned.pinned_equation; refused
   signed_bits/wrapping_shr.modulo_7, towards_zero. */
int16_t pb_i16_wrapping_shr(int16_t x, uint32_t rhs);

/* The sum `x + y`. Refused where it is not from -32768 to 32767.
   Cited by rows A26; clause vstd_integers/Signed.checked_add; contract promisebook_i16::pb_i16_checked_add; law
   vstd_integers/Signed.checked_add_kept; pinned by vstd_integers/Pinned.pinned_option; refused
   signed_sums/checked_add.first_summand, largest_refused, other_signs_refused. */
pb_answer_i16 pb_i16_checked_add(int16_t x, int16_t y);

/* The sum `x + y`. Refused where it is not from -32768 to 32767.
   Cited by rows A27; clause vstd_integers/Signed.checked_add_unsigned; contract
   promisebook_i16::pb_i16_checked_add_unsigned; law vstd_integers/Signed.checked_add_unsigned_kept; pinned by
   vstd_integers/Pinned.pinned_option; refused signed_sums/checked_add_unsigned.first_summand, rise_refused. */
pb_answer_i16 pb_i16_checked_add_unsigned(int16_t x, uint16_t y);

/* The difference `x - y`. Refused where it is not from -32768 to 32767.
   Cited by rows A28; clause vstd_integers/Signed.checked_sub; contract promisebook_i16::pb_i16_checked_sub; law
   vstd_integers/Signed.checked_sub_kept; pinned by vstd_integers/Pinned.pinned_option; refused
   signed_sums/checked_sub.least_refused, other_way_round, other_signs_refused. */
pb_answer_i16 pb_i16_checked_sub(int16_t x, int16_t y);

/* The difference `x - y`. Refused where it is not from -32768 to 32767.
   Cited by rows A29; clause vstd_integers/Signed.checked_sub_unsigned; contract
   promisebook_i16::pb_i16_checked_sub_unsigned; law vstd_integers/Signed.checked_sub_unsigned_kept; pinned by
   vstd_integers/Pinned.pinned_option; refused signed_sums/checked_sub_unsigned.fall_refused, first_number. */
pb_answer_i16 pb_i16_checked_sub_unsigned(int16_t x, uint16_t y);

/* The product `x * y`. Refused where it is not from -32768 to 32767.
   Cited by rows A30; clause vstd_integers/Signed.checked_mul; contract promisebook_i16::pb_i16_checked_mul; law
   vstd_integers/Signed.checked_mul_kept; pinned by vstd_integers/Pinned.pinned_option; refused
   signed_sums/checked_mul.larger_quotient_taken, square. */
pb_answer_i16 pb_i16_checked_mul(int16_t x, int16_t y);

/* The quotient of `x` by `y`, rounded towards zero. Refused where `y` is 0, and where `x` is -32768 and `y` is -1,
   since the quotient does not fit.
   Cited by rows A31; clause vstd_integers/Signed.checked_div; contract promisebook_i16::pb_i16_checked_div; law
   vstd_integers/Signed.checked_div_kept; pinned by vstd_integers/Pinned.pinned_option; refused
   signed_division/checked_div.least_by_minus_one_wraps, other_dividend, vstd_integers/checked_div.euclidean,
   vstd_integers/divided_unless.least_by_minus_one_not_refused. */
pb_answer_i16 pb_i16_checked_div(int16_t x, int16_t y);

/* The quotient of `x` by `y` whose remainder is not negative. Refused where `y` is 0, and where `x` is -32768 and
   `y` is -1, since the quotient does not fit.
   Cited by rows A32; clause vstd_integers/Signed.checked_div_euclid; contract
   promisebook_i16::pb_i16_checked_div_euclid; law vstd_integers/Signed.checked_div_euclid_kept; pinned by
   vstd_integers/Pinned.pinned_option; refused signed_division/checked_div_euclid.not_mended, towards_zero,
   promisebook_i8/checked_div_euclid.towards_zero. */
pb_answer_i16 pb_i16_checked_div_euclid(int16_t x, int16_t y);

/* The remainder of `x` by `y`, which has the sign of `x`. Refused where `y` is 0, and where `x` is -32768 and `y` is
   -1, since the quotient does not fit.
   Cited by rows A33; clause vstd_integers/Signed.checked_rem; contract promisebook_i16::pb_i16_checked_rem; law
   vstd_integers/Signed.checked_rem_kept; pinned by vstd_integers/Pinned.pinned_option; refused
   signed_division/checked_rem.euclidean, least_by_minus_one_is_0, promisebook_i8/checked_rem.euclidean. */
pb_answer_i16 pb_i16_checked_rem(int16_t x, int16_t y);

/* The remainder of `x` by `y` that is not negative. Refused where `y` is 0, and where `x` is -32768 and `y` is -1,
   since the quotient does not fit.
   Cited by rows A34; clause vstd_integers/Signed.checked_rem_euclid; contract
   promisebook_i16::pb_i16_checked_rem_euclid; law vstd_integers/Signed.checked_rem_euclid_kept; pinned by
   vstd_integers/Pinned.pinned_option; refused signed_division/checked_rem_euclid.absolute_value, not_mended. */
pb_answer_i16 pb_i16_checked_rem_euclid(int16_t x, int16_t y);

/* `x` itself.
   Cited by rows A35; clause vstd_integers/Compare.clone; contract promisebook_i16::pb_i16_clone; law
   vstd_integers/Compare.clone_kept; pinned by vstd_integers/Pinned.pinned_unsigned, pinned_equation; refused
   promisebook_u8/clone.always_0, promisebook_i8/clone.always_0. */
int16_t pb_i16_clone(int16_t x);

/* Whether `x` and `y` are equal.
   Cited by rows A36; clause vstd_integers/Compare.eq; contract promisebook_i16::pb_i16_eq; law
   vstd_integers/Compare.eq_kept; pinned by vstd_integers/Pinned.pinned_equation; refused
   ordering/is_eq.less_is_equal, never. */
bool pb_i16_eq(int16_t x, int16_t y);

/* Whether `x` and `y` differ.
   Cited by rows A37; clause vstd_integers/Compare.ne; contract promisebook_i16::pb_i16_ne; law
   vstd_integers/Compare.ne_kept; pinned by vstd_integers/Pinned.pinned_equation; refused
   ordering/is_ne.equal_differs, greater_only. */
bool pb_i16_ne(int16_t x, int16_t y);

/* Whether `x` is less than `y`.
   Cited by rows A40; clause vstd_integers/Compare.lt; contract promisebook_i16::pb_i16_lt; law
   vstd_integers/Compare.lt_kept; pinned by vstd_integers/Pinned.pinned_equation; refused
   ordering/is_lt.equal_is_less, greater_is_less. */
bool pb_i16_lt(int16_t x, int16_t y);

/* Whether `x` is less than `y` or equal to it.
   Cited by rows A41; clause vstd_integers/Compare.le; contract promisebook_i16::pb_i16_le; law
   vstd_integers/Compare.le_kept; pinned by vstd_integers/Pinned.pinned_equation; refused
   ordering/is_le.equal_is_more, greater_is_at_most, vstd_integers/le.equal_is_more. */
bool pb_i16_le(int16_t x, int16_t y);

/* Whether `x` is greater than `y`.
   Cited by rows A42; clause vstd_integers/Compare.gt; contract promisebook_i16::pb_i16_gt; law
   vstd_integers/Compare.gt_kept; pinned by vstd_integers/Pinned.pinned_equation; refused
   ordering/is_gt.equal_is_greater, less_is_greater. */
bool pb_i16_gt(int16_t x, int16_t y);

/* Whether `x` is greater than `y` or equal to it.
   Cited by rows A43; clause vstd_integers/Compare.ge; contract promisebook_i16::pb_i16_ge; law
   vstd_integers/Compare.ge_kept; pinned by vstd_integers/Pinned.pinned_equation; refused
   ordering/is_ge.equal_is_less, less_is_at_least. */
bool pb_i16_ge(int16_t x, int16_t y);

/* How `x` stands to `y`: less (-1), equal (0) or greater (1).
   Cited by rows A38; clause vstd_integers/Compare.cmp; contract promisebook_i16::pb_i16_cmp; law
   vstd_integers/Compare.cmp_kept; pinned by vstd_integers/Pinned.pinned_equation; refused
   ordering/number.greater_is_0, less_is_1, unsigned_order/compare.equal_is_greater, less_is_greater,
   signed_order/compare.equal_is_greater, less_is_greater. */
int8_t pb_i16_cmp(int16_t x, int16_t y);

/* How `x` stands to `y`: less (-1), equal (0) or greater (1). Never refused.
   Cited by rows A39; clause vstd_integers/Compare.cmp; contract promisebook_i16::pb_i16_partial_cmp; law
   vstd_integers/Compare.cmp_kept; pinned by vstd_integers/Pinned.pinned_option. */
pb_answer_i8 pb_i16_partial_cmp(int16_t x, int16_t y);

/* The number that the bytes of `s` from `from` up to and without `to` say in decimal: one figure or more from 0 to
   9, with '-' in front or without. Zeros in front are read, and '+' is not. Refused where they say no number,
   where it is not from -32768 to 32767, and where `to` is past the end.
   Cited by rows F7; clause theory_decimal/Read.whole_in, read_in; contract promisebook_decimal::pb_i16_read_decimal;
   pinned by vstd_integers/Pinned.pinned_option; refused decimal_read_signed/read_i8.sign_lost,
   sign_read_as_a_figure, promisebook_decimal/read_decimal.sign_refused. */
pb_answer_i16 pb_i16_read_decimal(const uint8_t *s, size_t s_len, size_t from, size_t to);

/* Writes `x` in decimal into `s` from the place `at` on, with no zero in front and '-' before a negative number,
   changes no other byte, and answers how many bytes it has written. Refused where they do not fit there.
   Cited by rows F9; clause theory_decimal/Written.Shows, whole; contract promisebook_decimal::pb_i16_write_decimal;
   law theory_decimal/Showing.with_sign_shown; pinned by theory_decimal/Showing.pinned_shows; refused
   decimal_write/write_i8.sign_left_out, zero_with_a_sign. */
pb_answer_usize pb_i16_write_decimal(int16_t x, uint8_t *s, size_t s_len, size_t at);

/* ---- Operations on i32, the signed numbers of 32 bits: -2147483648 to 2147483647. */

/* The sum `x + y`, wrapped: the signed number of 32 bits that differs from it by a multiple of 2^32.
   Cited by rows A20; clause vstd_integers/Signed.wrapping_add; contract promisebook_i32::pb_i32_wrapping_add; law
   vstd_integers/Signed.wrapping_add_kept; pinned by vstd_integers/Pinned.pinned_equation; refused
   signed_sums/wrapping_add.complement, twice. */
int32_t pb_i32_wrapping_add(int32_t x, int32_t y);

/* The sum `x + y`, wrapped: the signed number of 32 bits that differs from it by a multiple of 2^32.
   Cited by rows A21; clause vstd_integers/Signed.wrapping_add_unsigned; contract
   promisebook_i32::pb_i32_wrapping_add_unsigned; law vstd_integers/Signed.wrapping_add_unsigned_kept; pinned by
   vstd_integers/Pinned.pinned_equation; refused signed_sums/wrapping_add_unsigned.complement, subtracts. */
int32_t pb_i32_wrapping_add_unsigned(int32_t x, uint32_t y);

/* The difference `x - y`, wrapped: the signed number of 32 bits that differs from it by a multiple of 2^32.
   Cited by rows A22; clause vstd_integers/Signed.wrapping_sub; contract promisebook_i32::pb_i32_wrapping_sub; law
   vstd_integers/Signed.wrapping_sub_kept; pinned by vstd_integers/Pinned.pinned_equation; refused
   signed_sums/wrapping_sub.nothing_left, other_way_round, vstd_integers/wrapping_sub.passes_the_top. */
int32_t pb_i32_wrapping_sub(int32_t x, int32_t y);

/* The product `x * y`, wrapped: the signed number of 32 bits that differs from it by a multiple of 2^32.
   Cited by rows A23; clause vstd_integers/Signed.wrapping_mul; contract promisebook_i32::pb_i32_wrapping_mul; law
   vstd_integers/Signed.wrapping_mul_kept; pinned by vstd_integers/Pinned.pinned_equation; refused
   signed_sums/wrapping_mul.complement, square. */
int32_t pb_i32_wrapping_mul(int32_t x, int32_t y);

/* `x` shifted to the left by `rhs` modulo 32: zeros come in, and what leaves the 32 bits is lost.
   Cited by rows A24; clause vstd_integers/Signed.wrapping_shl; contract promisebook_i32::pb_i32_wrapping_shl; law
   vstd_integers/Signed.wrapping_shl_kept; pinned by vstd_integers/Pinned.pinned_equation; refused
   signed_bits/wrapping_shl.by_the_width_is_0, modulo_7. */
int32_t pb_i32_wrapping_shl(int32_t x, uint32_t rhs);

/* `x` shifted to the right by `rhs` modulo 32: the sign comes in, so that it is the quotient by 2 to that power,
   rounded down.
   Cited by rows A25; clause vstd_integers/Signed.wrapping_shr; contract promisebook_i32::pb_i32_wrapping_shr; law
   vstd_integers/Signed.wrapping_shr_kept; pinned by vstd_integers/Pinned.pinned_equation; refused
   signed_bits/wrapping_shr.modulo_7, towards_zero. */
int32_t pb_i32_wrapping_shr(int32_t x, uint32_t rhs);

/* The sum `x + y`. Refused where it is not from -2147483648 to 2147483647.
   Cited by rows A26; clause vstd_integers/Signed.checked_add; contract promisebook_i32::pb_i32_checked_add; law
   vstd_integers/Signed.checked_add_kept; pinned by vstd_integers/Pinned.pinned_option; refused
   signed_sums/checked_add.first_summand, largest_refused, other_signs_refused. */
pb_answer_i32 pb_i32_checked_add(int32_t x, int32_t y);

/* The sum `x + y`. Refused where it is not from -2147483648 to 2147483647.
   Cited by rows A27; clause vstd_integers/Signed.checked_add_unsigned; contract
   promisebook_i32::pb_i32_checked_add_unsigned; law vstd_integers/Signed.checked_add_unsigned_kept; pinned by
   vstd_integers/Pinned.pinned_option; refused signed_sums/checked_add_unsigned.first_summand, rise_refused. */
pb_answer_i32 pb_i32_checked_add_unsigned(int32_t x, uint32_t y);

/* The difference `x - y`. Refused where it is not from -2147483648 to 2147483647.
   Cited by rows A28; clause vstd_integers/Signed.checked_sub; contract promisebook_i32::pb_i32_checked_sub; law
   vstd_integers/Signed.checked_sub_kept; pinned by vstd_integers/Pinned.pinned_option; refused
   signed_sums/checked_sub.least_refused, other_way_round, other_signs_refused. */
pb_answer_i32 pb_i32_checked_sub(int32_t x, int32_t y);

/* The difference `x - y`. Refused where it is not from -2147483648 to 2147483647.
   Cited by rows A29; clause vstd_integers/Signed.checked_sub_unsigned; contract
   promisebook_i32::pb_i32_checked_sub_unsigned; law vstd_integers/Signed.checked_sub_unsigned_kept; pinned by
   vstd_integers/Pinned.pinned_option; refused signed_sums/checked_sub_unsigned.fall_refused, first_number. */
pb_answer_i32 pb_i32_checked_sub_unsigned(int32_t x, uint32_t y);

/* The product `x * y`. Refused where it is not from -2147483648 to 2147483647.
   Cited by rows A30; clause vstd_integers/Signed.checked_mul; contract promisebook_i32::pb_i32_checked_mul; law
   vstd_integers/Signed.checked_mul_kept; pinned by vstd_integers/Pinned.pinned_option; refused
   signed_sums/checked_mul.larger_quotient_taken, square. */
pb_answer_i32 pb_i32_checked_mul(int32_t x, int32_t y);

/* The quotient of `x` by `y`, rounded towards zero. Refused where `y` is 0, and where `x` is -2147483648 and `y` is
   -1, since the quotient does not fit.
   Cited by rows A31; clause vstd_integers/Signed.checked_div; contract promisebook_i32::pb_i32_checked_div; law
   vstd_integers/Signed.checked_div_kept; pinned by vstd_integers/Pinned.pinned_option; refused
   signed_division/checked_div.least_by_minus_one_wraps, other_dividend, vstd_integers/checked_div.euclidean,
   vstd_integers/divided_unless.least_by_minus_one_not_refused. */
pb_answer_i32 pb_i32_checked_div(int32_t x, int32_t y);

/* The quotient of `x` by `y` whose remainder is not negative. Refused where `y` is 0, and where `x` is -2147483648
   and `y` is -1, since the quotient does not fit.
   Cited by rows A32; clause vstd_integers/Signed.checked_div_euclid; contract
   promisebook_i32::pb_i32_checked_div_euclid; law vstd_integers/Signed.checked_div_euclid_kept; pinned by
   vstd_integers/Pinned.pinned_option; refused signed_division/checked_div_euclid.not_mended, towards_zero,
   promisebook_i8/checked_div_euclid.towards_zero. */
pb_answer_i32 pb_i32_checked_div_euclid(int32_t x, int32_t y);

/* The remainder of `x` by `y`, which has the sign of `x`. Refused where `y` is 0, and where `x` is -2147483648 and
   `y` is -1, since the quotient does not fit.
   Cited by rows A33; clause vstd_integers/Signed.checked_rem; contract promisebook_i32::pb_i32_checked_rem; law
   vstd_integers/Signed.checked_rem_kept; pinned by vstd_integers/Pinned.pinned_option; refused
   signed_division/checked_rem.euclidean, least_by_minus_one_is_0, promisebook_i8/checked_rem.euclidean. */
pb_answer_i32 pb_i32_checked_rem(int32_t x, int32_t y);

/* The remainder of `x` by `y` that is not negative. Refused where `y` is 0, and where `x` is -2147483648 and `y` is
   -1, since the quotient does not fit.
   Cited by rows A34; clause vstd_integers/Signed.checked_rem_euclid; contract
   promisebook_i32::pb_i32_checked_rem_euclid; law vstd_integers/Signed.checked_rem_euclid_kept; pinned by
   vstd_integers/Pinned.pinned_option; refused signed_division/checked_rem_euclid.absolute_value, not_mended. */
pb_answer_i32 pb_i32_checked_rem_euclid(int32_t x, int32_t y);

/* `x` itself.
   Cited by rows A35; clause vstd_integers/Compare.clone; contract promisebook_i32::pb_i32_clone; law
   vstd_integers/Compare.clone_kept; pinned by vstd_integers/Pinned.pinned_unsigned, pinned_equation; refused
   promisebook_u8/clone.always_0, promisebook_i8/clone.always_0. */
int32_t pb_i32_clone(int32_t x);

/* Whether `x` and `y` are equal.
   Cited by rows A36; clause vstd_integers/Compare.eq; contract promisebook_i32::pb_i32_eq; law
   vstd_integers/Compare.eq_kept; pinned by vstd_integers/Pinned.pinned_equation; refused
   ordering/is_eq.less_is_equal, never. */
bool pb_i32_eq(int32_t x, int32_t y);

/* Whether `x` and `y` differ.
   Cited by rows A37; clause vstd_integers/Compare.ne; contract promisebook_i32::pb_i32_ne; law
   vstd_integers/Compare.ne_kept; pinned by vstd_integers/Pinned.pinned_equation; refused
   ordering/is_ne.equal_differs, greater_only. */
bool pb_i32_ne(int32_t x, int32_t y);

/* Whether `x` is less than `y`.
   Cited by rows A40; clause vstd_integers/Compare.lt; contract promisebook_i32::pb_i32_lt; law
   vstd_integers/Compare.lt_kept; pinned by vstd_integers/Pinned.pinned_equation; refused
   ordering/is_lt.equal_is_less, greater_is_less. */
bool pb_i32_lt(int32_t x, int32_t y);

/* Whether `x` is less than `y` or equal to it.
   Cited by rows A41; clause vstd_integers/Compare.le; contract promisebook_i32::pb_i32_le; law
   vstd_integers/Compare.le_kept; pinned by vstd_integers/Pinned.pinned_equation; refused
   ordering/is_le.equal_is_more, greater_is_at_most, vstd_integers/le.equal_is_more. */
bool pb_i32_le(int32_t x, int32_t y);

/* Whether `x` is greater than `y`.
   Cited by rows A42; clause vstd_integers/Compare.gt; contract promisebook_i32::pb_i32_gt; law
   vstd_integers/Compare.gt_kept; pinned by vstd_integers/Pinned.pinned_equation; refused
   ordering/is_gt.equal_is_greater, less_is_greater. */
bool pb_i32_gt(int32_t x, int32_t y);

/* Whether `x` is greater than `y` or equal to it.
   Cited by rows A43; clause vstd_integers/Compare.ge; contract promisebook_i32::pb_i32_ge; law
   vstd_integers/Compare.ge_kept; pinned by vstd_integers/Pinned.pinned_equation; refused
   ordering/is_ge.equal_is_less, less_is_at_least. */
bool pb_i32_ge(int32_t x, int32_t y);

/* How `x` stands to `y`: less (-1), equal (0) or greater (1).
   Cited by rows A38; clause vstd_integers/Compare.cmp; contract promisebook_i32::pb_i32_cmp; law
   vstd_integers/Compare.cmp_kept; pinned by vstd_integers/Pinned.pinned_equation; refused
   ordering/number.greater_is_0, less_is_1, unsigned_order/compare.equal_is_greater, less_is_greater,
   signed_order/compare.equal_is_greater, less_is_greater. */
int8_t pb_i32_cmp(int32_t x, int32_t y);

/* How `x` stands to `y`: less (-1), equal (0) or greater (1). Never refused.
   Cited by rows A39; clause vstd_integers/Compare.cmp; contract promisebook_i32::pb_i32_partial_cmp; law
   vstd_integers/Compare.cmp_kept; pinned by vstd_integers/Pinned.pinned_option. */
pb_answer_i8 pb_i32_partial_cmp(int32_t x, int32_t y);

/* The number that the bytes of `s` from `from` up to and without `to` say in decimal: one figure or more from 0 to
   9, with '-' in front or without. Zeros in front are read, and '+' is not. Refused where they say no number,
   where it is not from -2147483648 to 2147483647, and where `to` is past the end.
   Cited by rows F7; clause theory_decimal/Read.whole_in, read_in; contract promisebook_decimal::pb_i32_read_decimal;
   pinned by vstd_integers/Pinned.pinned_option; refused decimal_read_signed/read_i8.sign_lost,
   sign_read_as_a_figure, promisebook_decimal/read_decimal.sign_refused. */
pb_answer_i32 pb_i32_read_decimal(const uint8_t *s, size_t s_len, size_t from, size_t to);

/* Writes `x` in decimal into `s` from the place `at` on, with no zero in front and '-' before a negative number,
   changes no other byte, and answers how many bytes it has written. Refused where they do not fit there.
   Cited by rows F9; clause theory_decimal/Written.Shows, whole; contract promisebook_decimal::pb_i32_write_decimal;
   law theory_decimal/Showing.with_sign_shown; pinned by theory_decimal/Showing.pinned_shows; refused
   decimal_write/write_i8.sign_left_out, zero_with_a_sign. */
pb_answer_usize pb_i32_write_decimal(int32_t x, uint8_t *s, size_t s_len, size_t at);

/* ---- Operations on i64, the signed numbers of 64 bits: -9223372036854775808 to 9223372036854775807. */

/* The sum `x + y`, wrapped: the signed number of 64 bits that differs from it by a multiple of 2^64.
   Cited by rows A20; clause vstd_integers/Signed.wrapping_add; contract promisebook_i64::pb_i64_wrapping_add; law
   vstd_integers/Signed.wrapping_add_kept; pinned by vstd_integers/Pinned.pinned_equation; refused
   signed_sums/wrapping_add.complement, twice. */
int64_t pb_i64_wrapping_add(int64_t x, int64_t y);

/* The sum `x + y`, wrapped: the signed number of 64 bits that differs from it by a multiple of 2^64.
   Cited by rows A21; clause vstd_integers/Signed.wrapping_add_unsigned; contract
   promisebook_i64::pb_i64_wrapping_add_unsigned; law vstd_integers/Signed.wrapping_add_unsigned_kept; pinned by
   vstd_integers/Pinned.pinned_equation; refused signed_sums/wrapping_add_unsigned.complement, subtracts. */
int64_t pb_i64_wrapping_add_unsigned(int64_t x, uint64_t y);

/* The difference `x - y`, wrapped: the signed number of 64 bits that differs from it by a multiple of 2^64.
   Cited by rows A22; clause vstd_integers/Signed.wrapping_sub; contract promisebook_i64::pb_i64_wrapping_sub; law
   vstd_integers/Signed.wrapping_sub_kept; pinned by vstd_integers/Pinned.pinned_equation; refused
   signed_sums/wrapping_sub.nothing_left, other_way_round, vstd_integers/wrapping_sub.passes_the_top. */
int64_t pb_i64_wrapping_sub(int64_t x, int64_t y);

/* The product `x * y`, wrapped: the signed number of 64 bits that differs from it by a multiple of 2^64.
   Cited by rows A23; clause vstd_integers/Signed.wrapping_mul; contract promisebook_i64::pb_i64_wrapping_mul; law
   vstd_integers/Signed.wrapping_mul_kept; pinned by vstd_integers/Pinned.pinned_equation; refused
   signed_sums/wrapping_mul.complement, square. */
int64_t pb_i64_wrapping_mul(int64_t x, int64_t y);

/* `x` shifted to the left by `rhs` modulo 64: zeros come in, and what leaves the 64 bits is lost.
   Cited by rows A24; clause vstd_integers/Signed.wrapping_shl; contract promisebook_i64::pb_i64_wrapping_shl; law
   vstd_integers/Signed.wrapping_shl_kept; pinned by vstd_integers/Pinned.pinned_equation; refused
   signed_bits/wrapping_shl.by_the_width_is_0, modulo_7. */
int64_t pb_i64_wrapping_shl(int64_t x, uint32_t rhs);

/* `x` shifted to the right by `rhs` modulo 64: the sign comes in, so that it is the quotient by 2 to that power,
   rounded down.
   Cited by rows A25; clause vstd_integers/Signed.wrapping_shr; contract promisebook_i64::pb_i64_wrapping_shr; law
   vstd_integers/Signed.wrapping_shr_kept; pinned by vstd_integers/Pinned.pinned_equation; refused
   signed_bits/wrapping_shr.modulo_7, towards_zero. */
int64_t pb_i64_wrapping_shr(int64_t x, uint32_t rhs);

/* The sum `x + y`. Refused where it is not from -9223372036854775808 to 9223372036854775807.
   Cited by rows A26; clause vstd_integers/Signed.checked_add; contract promisebook_i64::pb_i64_checked_add; law
   vstd_integers/Signed.checked_add_kept; pinned by vstd_integers/Pinned.pinned_option; refused
   signed_sums/checked_add.first_summand, largest_refused, other_signs_refused. */
pb_answer_i64 pb_i64_checked_add(int64_t x, int64_t y);

/* The sum `x + y`. Refused where it is not from -9223372036854775808 to 9223372036854775807.
   Cited by rows A27; clause vstd_integers/Signed.checked_add_unsigned; contract
   promisebook_i64::pb_i64_checked_add_unsigned; law vstd_integers/Signed.checked_add_unsigned_kept; pinned by
   vstd_integers/Pinned.pinned_option; refused signed_sums/checked_add_unsigned.first_summand, rise_refused. */
pb_answer_i64 pb_i64_checked_add_unsigned(int64_t x, uint64_t y);

/* The difference `x - y`. Refused where it is not from -9223372036854775808 to 9223372036854775807.
   Cited by rows A28; clause vstd_integers/Signed.checked_sub; contract promisebook_i64::pb_i64_checked_sub; law
   vstd_integers/Signed.checked_sub_kept; pinned by vstd_integers/Pinned.pinned_option; refused
   signed_sums/checked_sub.least_refused, other_way_round, other_signs_refused. */
pb_answer_i64 pb_i64_checked_sub(int64_t x, int64_t y);

/* The difference `x - y`. Refused where it is not from -9223372036854775808 to 9223372036854775807.
   Cited by rows A29; clause vstd_integers/Signed.checked_sub_unsigned; contract
   promisebook_i64::pb_i64_checked_sub_unsigned; law vstd_integers/Signed.checked_sub_unsigned_kept; pinned by
   vstd_integers/Pinned.pinned_option; refused signed_sums/checked_sub_unsigned.fall_refused, first_number. */
pb_answer_i64 pb_i64_checked_sub_unsigned(int64_t x, uint64_t y);

/* The product `x * y`. Refused where it is not from -9223372036854775808 to 9223372036854775807.
   Cited by rows A30; clause vstd_integers/Signed.checked_mul; contract promisebook_i64::pb_i64_checked_mul; law
   vstd_integers/Signed.checked_mul_kept; pinned by vstd_integers/Pinned.pinned_option; refused
   signed_sums/checked_mul.larger_quotient_taken, square. */
pb_answer_i64 pb_i64_checked_mul(int64_t x, int64_t y);

/* The quotient of `x` by `y`, rounded towards zero. Refused where `y` is 0, and where `x` is -9223372036854775808
   and `y` is -1, since the quotient does not fit.
   Cited by rows A31; clause vstd_integers/Signed.checked_div; contract promisebook_i64::pb_i64_checked_div; law
   vstd_integers/Signed.checked_div_kept; pinned by vstd_integers/Pinned.pinned_option; refused
   signed_division/checked_div.least_by_minus_one_wraps, other_dividend, vstd_integers/checked_div.euclidean,
   vstd_integers/divided_unless.least_by_minus_one_not_refused. */
pb_answer_i64 pb_i64_checked_div(int64_t x, int64_t y);

/* The quotient of `x` by `y` whose remainder is not negative. Refused where `y` is 0, and where `x` is
   -9223372036854775808 and `y` is -1, since the quotient does not fit.
   Cited by rows A32; clause vstd_integers/Signed.checked_div_euclid; contract
   promisebook_i64::pb_i64_checked_div_euclid; law vstd_integers/Signed.checked_div_euclid_kept; pinned by
   vstd_integers/Pinned.pinned_option; refused signed_division/checked_div_euclid.not_mended, towards_zero,
   promisebook_i8/checked_div_euclid.towards_zero. */
pb_answer_i64 pb_i64_checked_div_euclid(int64_t x, int64_t y);

/* The remainder of `x` by `y`, which has the sign of `x`. Refused where `y` is 0, and where `x` is
   -9223372036854775808 and `y` is -1, since the quotient does not fit.
   Cited by rows A33; clause vstd_integers/Signed.checked_rem; contract promisebook_i64::pb_i64_checked_rem; law
   vstd_integers/Signed.checked_rem_kept; pinned by vstd_integers/Pinned.pinned_option; refused
   signed_division/checked_rem.euclidean, least_by_minus_one_is_0, promisebook_i8/checked_rem.euclidean. */
pb_answer_i64 pb_i64_checked_rem(int64_t x, int64_t y);

/* The remainder of `x` by `y` that is not negative. Refused where `y` is 0, and where `x` is -9223372036854775808
   and `y` is -1, since the quotient does not fit.
   Cited by rows A34; clause vstd_integers/Signed.checked_rem_euclid; contract
   promisebook_i64::pb_i64_checked_rem_euclid; law vstd_integers/Signed.checked_rem_euclid_kept; pinned by
   vstd_integers/Pinned.pinned_option; refused signed_division/checked_rem_euclid.absolute_value, not_mended. */
pb_answer_i64 pb_i64_checked_rem_euclid(int64_t x, int64_t y);

/* `x` itself.
   Cited by rows A35; clause vstd_integers/Compare.clone; contract promisebook_i64::pb_i64_clone; law
   vstd_integers/Compare.clone_kept; pinned by vstd_integers/Pinned.pinned_unsigned, pinned_equation; refused
   promisebook_u8/clone.always_0, promisebook_i8/clone.always_0. */
int64_t pb_i64_clone(int64_t x);

/* Whether `x` and `y` are equal.
   Cited by rows A36; clause vstd_integers/Compare.eq; contract promisebook_i64::pb_i64_eq; law
   vstd_integers/Compare.eq_kept; pinned by vstd_integers/Pinned.pinned_equation; refused
   ordering/is_eq.less_is_equal, never. */
bool pb_i64_eq(int64_t x, int64_t y);

/* Whether `x` and `y` differ.
   Cited by rows A37; clause vstd_integers/Compare.ne; contract promisebook_i64::pb_i64_ne; law
   vstd_integers/Compare.ne_kept; pinned by vstd_integers/Pinned.pinned_equation; refused
   ordering/is_ne.equal_differs, greater_only. */
bool pb_i64_ne(int64_t x, int64_t y);

/* Whether `x` is less than `y`.
   Cited by rows A40; clause vstd_integers/Compare.lt; contract promisebook_i64::pb_i64_lt; law
   vstd_integers/Compare.lt_kept; pinned by vstd_integers/Pinned.pinned_equation; refused
   ordering/is_lt.equal_is_less, greater_is_less. */
bool pb_i64_lt(int64_t x, int64_t y);

/* Whether `x` is less than `y` or equal to it.
   Cited by rows A41; clause vstd_integers/Compare.le; contract promisebook_i64::pb_i64_le; law
   vstd_integers/Compare.le_kept; pinned by vstd_integers/Pinned.pinned_equation; refused
   ordering/is_le.equal_is_more, greater_is_at_most, vstd_integers/le.equal_is_more. */
bool pb_i64_le(int64_t x, int64_t y);

/* Whether `x` is greater than `y`.
   Cited by rows A42; clause vstd_integers/Compare.gt; contract promisebook_i64::pb_i64_gt; law
   vstd_integers/Compare.gt_kept; pinned by vstd_integers/Pinned.pinned_equation; refused
   ordering/is_gt.equal_is_greater, less_is_greater. */
bool pb_i64_gt(int64_t x, int64_t y);

/* Whether `x` is greater than `y` or equal to it.
   Cited by rows A43; clause vstd_integers/Compare.ge; contract promisebook_i64::pb_i64_ge; law
   vstd_integers/Compare.ge_kept; pinned by vstd_integers/Pinned.pinned_equation; refused
   ordering/is_ge.equal_is_less, less_is_at_least. */
bool pb_i64_ge(int64_t x, int64_t y);

/* How `x` stands to `y`: less (-1), equal (0) or greater (1).
   Cited by rows A38; clause vstd_integers/Compare.cmp; contract promisebook_i64::pb_i64_cmp; law
   vstd_integers/Compare.cmp_kept; pinned by vstd_integers/Pinned.pinned_equation; refused
   ordering/number.greater_is_0, less_is_1, unsigned_order/compare.equal_is_greater, less_is_greater,
   signed_order/compare.equal_is_greater, less_is_greater. */
int8_t pb_i64_cmp(int64_t x, int64_t y);

/* How `x` stands to `y`: less (-1), equal (0) or greater (1). Never refused.
   Cited by rows A39; clause vstd_integers/Compare.cmp; contract promisebook_i64::pb_i64_partial_cmp; law
   vstd_integers/Compare.cmp_kept; pinned by vstd_integers/Pinned.pinned_option. */
pb_answer_i8 pb_i64_partial_cmp(int64_t x, int64_t y);

/* The number that the bytes of `s` from `from` up to and without `to` say in decimal: one figure or more from 0 to
   9, with '-' in front or without. Zeros in front are read, and '+' is not. Refused where they say no number,
   where it is not from -9223372036854775808 to 9223372036854775807, and where `to` is past the end.
   Cited by rows F7; clause theory_decimal/Read.whole_in, read_in; contract promisebook_decimal::pb_i64_read_decimal;
   pinned by vstd_integers/Pinned.pinned_option; refused decimal_read_signed/read_i8.sign_lost,
   sign_read_as_a_figure, promisebook_decimal/read_decimal.sign_refused. */
pb_answer_i64 pb_i64_read_decimal(const uint8_t *s, size_t s_len, size_t from, size_t to);

/* Writes `x` in decimal into `s` from the place `at` on, with no zero in front and '-' before a negative number,
   changes no other byte, and answers how many bytes it has written. Refused where they do not fit there.
   Cited by rows F9; clause theory_decimal/Written.Shows, whole; contract promisebook_decimal::pb_i64_write_decimal;
   law theory_decimal/Showing.with_sign_shown; pinned by theory_decimal/Showing.pinned_shows; refused
   decimal_write/write_i8.sign_left_out, zero_with_a_sign. */
pb_answer_usize pb_i64_write_decimal(int64_t x, uint8_t *s, size_t s_len, size_t at);

/* ---- Operations on isize, the signed numbers of 64 bits: -9223372036854775808 to 9223372036854775807. */

/* The sum `x + y`, wrapped: the signed number of 64 bits that differs from it by a multiple of 2^64.
   Cited by rows A20; clause vstd_integers/Signed.wrapping_add; contract promisebook_isize::pb_isize_wrapping_add;
   law vstd_integers/Signed.wrapping_add_kept; pinned by vstd_integers/Pinned.pinned_equation; refused
   signed_sums/wrapping_add.complement, twice. */
ptrdiff_t pb_isize_wrapping_add(ptrdiff_t x, ptrdiff_t y);

/* The sum `x + y`, wrapped: the signed number of 64 bits that differs from it by a multiple of 2^64.
   Cited by rows A21; clause vstd_integers/Signed.wrapping_add_unsigned; contract
   promisebook_isize::pb_isize_wrapping_add_unsigned; law vstd_integers/Signed.wrapping_add_unsigned_kept; pinned
   by vstd_integers/Pinned.pinned_equation; refused signed_sums/wrapping_add_unsigned.complement, subtracts. */
ptrdiff_t pb_isize_wrapping_add_unsigned(ptrdiff_t x, size_t y);

/* The difference `x - y`, wrapped: the signed number of 64 bits that differs from it by a multiple of 2^64.
   Cited by rows A22; clause vstd_integers/Signed.wrapping_sub; contract promisebook_isize::pb_isize_wrapping_sub;
   law vstd_integers/Signed.wrapping_sub_kept; pinned by vstd_integers/Pinned.pinned_equation; refused
   signed_sums/wrapping_sub.nothing_left, other_way_round, vstd_integers/wrapping_sub.passes_the_top. */
ptrdiff_t pb_isize_wrapping_sub(ptrdiff_t x, ptrdiff_t y);

/* The product `x * y`, wrapped: the signed number of 64 bits that differs from it by a multiple of 2^64.
   Cited by rows A23; clause vstd_integers/Signed.wrapping_mul; contract promisebook_isize::pb_isize_wrapping_mul;
   law vstd_integers/Signed.wrapping_mul_kept; pinned by vstd_integers/Pinned.pinned_equation; refused
   signed_sums/wrapping_mul.complement, square. */
ptrdiff_t pb_isize_wrapping_mul(ptrdiff_t x, ptrdiff_t y);

/* `x` shifted to the left by `rhs` modulo 64: zeros come in, and what leaves the 64 bits is lost.
   Cited by rows A24; clause vstd_integers/Signed.wrapping_shl; contract promisebook_isize::pb_isize_wrapping_shl;
   law vstd_integers/Signed.wrapping_shl_kept; pinned by vstd_integers/Pinned.pinned_equation; refused
   signed_bits/wrapping_shl.by_the_width_is_0, modulo_7. */
ptrdiff_t pb_isize_wrapping_shl(ptrdiff_t x, uint32_t rhs);

/* `x` shifted to the right by `rhs` modulo 64: the sign comes in, so that it is the quotient by 2 to that power,
   rounded down.
   Cited by rows A25; clause vstd_integers/Signed.wrapping_shr; contract promisebook_isize::pb_isize_wrapping_shr;
   law vstd_integers/Signed.wrapping_shr_kept; pinned by vstd_integers/Pinned.pinned_equation; refused
   signed_bits/wrapping_shr.modulo_7, towards_zero. */
ptrdiff_t pb_isize_wrapping_shr(ptrdiff_t x, uint32_t rhs);

/* The sum `x + y`. Refused where it is not from -9223372036854775808 to 9223372036854775807.
   Cited by rows A26; clause vstd_integers/Signed.checked_add; contract promisebook_isize::pb_isize_checked_add; law
   vstd_integers/Signed.checked_add_kept; pinned by vstd_integers/Pinned.pinned_option; refused
   signed_sums/checked_add.first_summand, largest_refused, other_signs_refused. */
pb_answer_isize pb_isize_checked_add(ptrdiff_t x, ptrdiff_t y);

/* The sum `x + y`. Refused where it is not from -9223372036854775808 to 9223372036854775807.
   Cited by rows A27; clause vstd_integers/Signed.checked_add_unsigned; contract
   promisebook_isize::pb_isize_checked_add_unsigned; law vstd_integers/Signed.checked_add_unsigned_kept; pinned by
   vstd_integers/Pinned.pinned_option; refused signed_sums/checked_add_unsigned.first_summand, rise_refused. */
pb_answer_isize pb_isize_checked_add_unsigned(ptrdiff_t x, size_t y);

/* The difference `x - y`. Refused where it is not from -9223372036854775808 to 9223372036854775807.
   Cited by rows A28; clause vstd_integers/Signed.checked_sub; contract promisebook_isize::pb_isize_checked_sub; law
   vstd_integers/Signed.checked_sub_kept; pinned by vstd_integers/Pinned.pinned_option; refused
   signed_sums/checked_sub.least_refused, other_way_round, other_signs_refused. */
pb_answer_isize pb_isize_checked_sub(ptrdiff_t x, ptrdiff_t y);

/* The difference `x - y`. Refused where it is not from -9223372036854775808 to 9223372036854775807.
   Cited by rows A29; clause vstd_integers/Signed.checked_sub_unsigned; contract
   promisebook_isize::pb_isize_checked_sub_unsigned; law vstd_integers/Signed.checked_sub_unsigned_kept; pinned by
   vstd_integers/Pinned.pinned_option; refused signed_sums/checked_sub_unsigned.fall_refused, first_number. */
pb_answer_isize pb_isize_checked_sub_unsigned(ptrdiff_t x, size_t y);

/* The product `x * y`. Refused where it is not from -9223372036854775808 to 9223372036854775807.
   Cited by rows A30; clause vstd_integers/Signed.checked_mul; contract promisebook_isize::pb_isize_checked_mul; law
   vstd_integers/Signed.checked_mul_kept; pinned by vstd_integers/Pinned.pinned_option; refused
   signed_sums/checked_mul.larger_quotient_taken, square. */
pb_answer_isize pb_isize_checked_mul(ptrdiff_t x, ptrdiff_t y);

/* The quotient of `x` by `y`, rounded towards zero. Refused where `y` is 0, and where `x` is -9223372036854775808
   and `y` is -1, since the quotient does not fit.
   Cited by rows A31; clause vstd_integers/Signed.checked_div; contract promisebook_isize::pb_isize_checked_div; law
   vstd_integers/Signed.checked_div_kept; pinned by vstd_integers/Pinned.pinned_option; refused
   signed_division/checked_div.least_by_minus_one_wraps, other_dividend, vstd_integers/checked_div.euclidean,
   vstd_integers/divided_unless.least_by_minus_one_not_refused. */
pb_answer_isize pb_isize_checked_div(ptrdiff_t x, ptrdiff_t y);

/* The quotient of `x` by `y` whose remainder is not negative. Refused where `y` is 0, and where `x` is
   -9223372036854775808 and `y` is -1, since the quotient does not fit.
   Cited by rows A32; clause vstd_integers/Signed.checked_div_euclid; contract
   promisebook_isize::pb_isize_checked_div_euclid; law vstd_integers/Signed.checked_div_euclid_kept; pinned by
   vstd_integers/Pinned.pinned_option; refused signed_division/checked_div_euclid.not_mended, towards_zero,
   promisebook_i8/checked_div_euclid.towards_zero. */
pb_answer_isize pb_isize_checked_div_euclid(ptrdiff_t x, ptrdiff_t y);

/* The remainder of `x` by `y`, which has the sign of `x`. Refused where `y` is 0, and where `x` is
   -9223372036854775808 and `y` is -1, since the quotient does not fit.
   Cited by rows A33; clause vstd_integers/Signed.checked_rem; contract promisebook_isize::pb_isize_checked_rem; law
   vstd_integers/Signed.checked_rem_kept; pinned by vstd_integers/Pinned.pinned_option; refused
   signed_division/checked_rem.euclidean, least_by_minus_one_is_0, promisebook_i8/checked_rem.euclidean. */
pb_answer_isize pb_isize_checked_rem(ptrdiff_t x, ptrdiff_t y);

/* The remainder of `x` by `y` that is not negative. Refused where `y` is 0, and where `x` is -9223372036854775808
   and `y` is -1, since the quotient does not fit.
   Cited by rows A34; clause vstd_integers/Signed.checked_rem_euclid; contract
   promisebook_isize::pb_isize_checked_rem_euclid; law vstd_integers/Signed.checked_rem_euclid_kept; pinned by
   vstd_integers/Pinned.pinned_option; refused signed_division/checked_rem_euclid.absolute_value, not_mended. */
pb_answer_isize pb_isize_checked_rem_euclid(ptrdiff_t x, ptrdiff_t y);

/* `x` itself.
   Cited by rows A35; clause vstd_integers/Compare.clone; contract promisebook_isize::pb_isize_clone; law
   vstd_integers/Compare.clone_kept; pinned by vstd_integers/Pinned.pinned_unsigned, pinned_equation; refused
   promisebook_u8/clone.always_0, promisebook_i8/clone.always_0. */
ptrdiff_t pb_isize_clone(ptrdiff_t x);

/* Whether `x` and `y` are equal.
   Cited by rows A36; clause vstd_integers/Compare.eq; contract promisebook_isize::pb_isize_eq; law
   vstd_integers/Compare.eq_kept; pinned by vstd_integers/Pinned.pinned_equation; refused
   ordering/is_eq.less_is_equal, never. */
bool pb_isize_eq(ptrdiff_t x, ptrdiff_t y);

/* Whether `x` and `y` differ.
   Cited by rows A37; clause vstd_integers/Compare.ne; contract promisebook_isize::pb_isize_ne; law
   vstd_integers/Compare.ne_kept; pinned by vstd_integers/Pinned.pinned_equation; refused
   ordering/is_ne.equal_differs, greater_only. */
bool pb_isize_ne(ptrdiff_t x, ptrdiff_t y);

/* Whether `x` is less than `y`.
   Cited by rows A40; clause vstd_integers/Compare.lt; contract promisebook_isize::pb_isize_lt; law
   vstd_integers/Compare.lt_kept; pinned by vstd_integers/Pinned.pinned_equation; refused
   ordering/is_lt.equal_is_less, greater_is_less. */
bool pb_isize_lt(ptrdiff_t x, ptrdiff_t y);

/* Whether `x` is less than `y` or equal to it.
   Cited by rows A41; clause vstd_integers/Compare.le; contract promisebook_isize::pb_isize_le; law
   vstd_integers/Compare.le_kept; pinned by vstd_integers/Pinned.pinned_equation; refused
   ordering/is_le.equal_is_more, greater_is_at_most, vstd_integers/le.equal_is_more. */
bool pb_isize_le(ptrdiff_t x, ptrdiff_t y);

/* Whether `x` is greater than `y`.
   Cited by rows A42; clause vstd_integers/Compare.gt; contract promisebook_isize::pb_isize_gt; law
   vstd_integers/Compare.gt_kept; pinned by vstd_integers/Pinned.pinned_equation; refused
   ordering/is_gt.equal_is_greater, less_is_greater. */
bool pb_isize_gt(ptrdiff_t x, ptrdiff_t y);

/* Whether `x` is greater than `y` or equal to it.
   Cited by rows A43; clause vstd_integers/Compare.ge; contract promisebook_isize::pb_isize_ge; law
   vstd_integers/Compare.ge_kept; pinned by vstd_integers/Pinned.pinned_equation; refused
   ordering/is_ge.equal_is_less, less_is_at_least. */
bool pb_isize_ge(ptrdiff_t x, ptrdiff_t y);

/* How `x` stands to `y`: less (-1), equal (0) or greater (1).
   Cited by rows A38; clause vstd_integers/Compare.cmp; contract promisebook_isize::pb_isize_cmp; law
   vstd_integers/Compare.cmp_kept; pinned by vstd_integers/Pinned.pinned_equation; refused
   ordering/number.greater_is_0, less_is_1, unsigned_order/compare.equal_is_greater, less_is_greater,
   signed_order/compare.equal_is_greater, less_is_greater. */
int8_t pb_isize_cmp(ptrdiff_t x, ptrdiff_t y);

/* How `x` stands to `y`: less (-1), equal (0) or greater (1). Never refused.
   Cited by rows A39; clause vstd_integers/Compare.cmp; contract promisebook_isize::pb_isize_partial_cmp; law
   vstd_integers/Compare.cmp_kept; pinned by vstd_integers/Pinned.pinned_option. */
pb_answer_i8 pb_isize_partial_cmp(ptrdiff_t x, ptrdiff_t y);

/* The number that the bytes of `s` from `from` up to and without `to` say in decimal: one figure or more from 0 to
   9, with '-' in front or without. Zeros in front are read, and '+' is not. Refused where they say no number,
   where it is not from -9223372036854775808 to 9223372036854775807, and where `to` is past the end.
   Cited by rows F7; clause theory_decimal/Read.whole_in, read_in; contract
   promisebook_decimal::pb_isize_read_decimal; pinned by vstd_integers/Pinned.pinned_option; refused
   decimal_read_signed/read_i8.sign_lost, sign_read_as_a_figure, promisebook_decimal/read_decimal.sign_refused. */
pb_answer_isize pb_isize_read_decimal(const uint8_t *s, size_t s_len, size_t from, size_t to);

/* Writes `x` in decimal into `s` from the place `at` on, with no zero in front and '-' before a negative number,
   changes no other byte, and answers how many bytes it has written. Refused where they do not fit there.
   Cited by rows F9; clause theory_decimal/Written.Shows, whole; contract
   promisebook_decimal::pb_isize_write_decimal; law theory_decimal/Showing.with_sign_shown; pinned by
   theory_decimal/Showing.pinned_shows; refused decimal_write/write_i8.sign_left_out, zero_with_a_sign. */
pb_answer_usize pb_isize_write_decimal(ptrdiff_t x, uint8_t *s, size_t s_len, size_t at);

/* ---- Slices of bytes, by parts: the bytes of `s` from the place `from` up to and without `to`. */

/* How many bytes the part has. Refused where `from` is past `to`, or `to` past the end.
   Cited by rows D65; clause vstd_slices/Promises.Len, theory_lists/Part.part; contract
   promisebook_slices::pb_bytes_len; law vstd_slices/Kept.len_kept; pinned by vstd_slices/Pinned.len_pinned;
   refused slices/len.counts_from_the_start, is_where_the_part_begins. */
pb_answer_usize pb_bytes_len(const uint8_t *s, size_t s_len, size_t from, size_t to);

/* Whether the part has no byte. Refused where `from` is past `to`, or `to` past the end.
   Cited by rows D66; clause vstd_slices/Promises.IsEmpty, theory_lists/Part.part; contract
   promisebook_slices::pb_bytes_is_empty; law vstd_slices/Kept.is_empty_kept; pinned by
   vstd_slices/Pinned.is_empty_pinned; refused slices/is_empty.only_at_the_start, other_way_round. */
pb_answer_bool pb_bytes_is_empty(const uint8_t *s, size_t s_len, size_t from, size_t to);

/* The byte `i` of the part, counted from `from`. Refused where `from` is past `to`, or `to` past the end, and where
   the part has no byte `i`.
   Cited by rows D1, D2, D3, D4, D6, D22, D24, D25, D69, D70; clause vstd_slices/Promises.Get,
   vstd_slices/Slices.Got, vstd_slices/Promises.SubRange, vstd_slices/Slices.Subrange; contract
   promisebook_slices::pb_bytes_get; law vstd_slices/Promised.get_promised, vstd_slices/Kept.get_kept,
   vstd_slices/Promised.sub_range_promised, vstd_slices/Kept.sub_range_kept; pinned by
   vstd_slices/Pinned.get_pinned, sub_range_pinned; refused slices/get.bound_from_the_start, one_past_the_end,
   vstd_slices/get.last_element_refused. */
pb_answer_u8 pb_bytes_get(const uint8_t *s, size_t s_len, size_t from, size_t to, size_t i);

/* The first byte of the part. Refused where `from` is past `to`, or `to` past the end, and where the part is empty.
   Cited by rows D38, D39, D43; clause vstd_slices/Promises.First, vstd_slices/Slices.First,
   vstd_slices/Promises.Last, vstd_slices/Slices.Last; contract promisebook_slices::pb_bytes_first; law
   vstd_slices/Promised.first_promised, vstd_slices/Kept.first_kept, vstd_slices/Promised.last_promised,
   vstd_slices/Kept.last_kept; pinned by vstd_slices/Pinned.first_pinned, last_pinned; refused
   slices/first.is_the_byte_after, of_the_slice, promisebook_slices/first.last. */
pb_answer_u8 pb_bytes_first(const uint8_t *s, size_t s_len, size_t from, size_t to);

/* The last byte of the part. Refused where `from` is past `to`, or `to` past the end, and where the part is empty.
   Cited by rows D40, D41, D43; clause vstd_slices/Promises.Last, vstd_slices/Slices.Last,
   vstd_slices/Promises.First, vstd_slices/Slices.First; contract promisebook_slices::pb_bytes_last; law
   vstd_slices/Promised.last_promised, vstd_slices/Kept.last_kept, vstd_slices/Promised.first_promised,
   vstd_slices/Kept.first_kept; pinned by vstd_slices/Pinned.last_pinned, first_pinned; refused
   slices/last.is_before_the_part, is_the_one_before. */
pb_answer_u8 pb_bytes_last(const uint8_t *s, size_t s_len, size_t from, size_t to);

/* The bytes from `a` up to and without `e` of the part, counted from `from`, by their places in `s`. Refused where
   `from` is past `to`, or `to` past the end, and where `a` is past `e` or `e` past the part's end.
   Cited by rows D10, D11, D12, D13, D22, D25, D72, D73; clause vstd_slices/Promises.SubRange,
   vstd_slices/Slices.Subrange, vstd_slices/Promises.Get, vstd_slices/Slices.Got; contract
   promisebook_slices::pb_bytes_sub_range; law vstd_slices/Promised.sub_range_promised,
   vstd_slices/Kept.sub_range_kept, vstd_slices/Promised.get_promised, vstd_slices/Kept.get_kept; pinned by
   vstd_slices/Pinned.sub_range_pinned, get_pinned; refused slices_parts/sub_range.begins_from_the_start,
   may_leave_the_part, may_run_backwards, slices_parts/sub_slice.is_empty, up_to_the_end,
   vstd_slices/places.begin_left_open, end_left_open. */
pb_bytes_range pb_bytes_sub_range(const uint8_t *s, size_t s_len, size_t from, size_t to, size_t a, size_t e);

/* The first `m` bytes of the part and the rest, by their places in `s`. Refused where `from` is past `to`, or `to`
   past the end, and where the part has fewer than `m` bytes.
   Cited by rows D45, D46, D47, D48, D50, D51; clause vstd_slices/Promises.SplitAt, vstd_slices/Slices.SplitAt;
   contract promisebook_slices::pb_bytes_split_at; law vstd_slices/Promised.split_at_promised,
   vstd_slices/Kept.split_at_kept; pinned by vstd_slices/Pinned.split_at_pinned; refused
   slices_parts/split_at.from_the_start, may_leave_the_part. */
pb_bytes_split pb_bytes_split_at(const uint8_t *s, size_t s_len, size_t from, size_t to, size_t m);

/* The first byte of the part, and the rest by its places in `s`. Refused where `from` is past `to`, or `to` past the
   end, and where the part is empty.
   Cited by rows D52, D53, D54, D55; clause vstd_slices/Promises.SplitFirst, vstd_slices/Slices.SplitFirst; contract
   promisebook_slices::pb_bytes_split_first; law vstd_slices/Promised.split_first_promised,
   vstd_slices/Kept.split_first_kept; pinned by vstd_slices/Pinned.split_first_pinned; refused
   slices/split_first.first_of_the_slice, skips_one, vstd_slices/split_first.rest_with_the_first. */
pb_bytes_first_and_rest pb_bytes_split_first(const uint8_t *s, size_t s_len, size_t from, size_t to);

/* The first `n` bytes of the part, or all of them where it has fewer, by their places in `s`. Refused where `from`
   is past `to`, or `to` past the end, and where the part is empty or `n` is 0.
   Cited by rows D61, D63; clause vstd_slices/Promises.NextPiece, vstd_slices/Slices.Chunks; contract
   promisebook_slices::pb_bytes_next_piece; law vstd_slices/Promised.next_piece_promised,
   vstd_slices/Kept.next_piece_kept; pinned by vstd_slices/Pinned.next_piece_pinned; refused
   slices_parts/next_piece.none_of_one, one_more. */
pb_bytes_range pb_bytes_next_piece(const uint8_t *s, size_t s_len, size_t from, size_t to, size_t n);

/* Whether the part begins with `needle`. Refused where `from` is past `to`, or `to` past the end.
   Cited by rows D18, D19; clause vstd_slices/Promises.StartsWith, vstd_slices/Slices.FalseWhereLonger, StartsWith;
   contract promisebook_slices::pb_bytes_starts_with; law vstd_slices/Promised.starts_with_promised,
   vstd_slices/Kept.starts_with_longer_kept, starts_with_kept; pinned by vstd_slices/Pinned.starts_with_pinned;
   refused slices_compare/starts_with.after_the_front, whole_part. */
pb_answer_bool pb_bytes_starts_with(
    const uint8_t *s, size_t s_len, size_t from, size_t to, const uint8_t *needle, size_t needle_len);

/* Whether the part ends with `needle`. Refused where `from` is past `to`, or `to` past the end.
   Cited by rows D20, D21; clause vstd_slices/Promises.EndsWith, vstd_slices/Slices.FalseWhereLonger, EndsWith;
   contract promisebook_slices::pb_bytes_ends_with; law vstd_slices/Promised.ends_with_promised,
   vstd_slices/Kept.ends_with_longer_kept, ends_with_kept; pinned by vstd_slices/Pinned.ends_with_pinned; refused
   slices_compare/ends_with.after_the_front, whole_part, vstd_slices/ends_with.compared_from_the_front. */
pb_answer_bool pb_bytes_ends_with(
    const uint8_t *s, size_t s_len, size_t from, size_t to, const uint8_t *needle, size_t needle_len);

/* Whether `v` is a byte of the part. Refused where `from` is past `to`, or `to` past the end.
   Cited by rows D33; clause vstd_slices/Promises.Contains, theory_lists/Part.Has; contract
   promisebook_slices::pb_bytes_contains; law vstd_slices/Kept.contains_kept; pinned by
   vstd_slices/Pinned.contains_pinned; refused slices_compare/contains.after_the_part, before_the_part,
   vstd_slices/contains.silent_where_refused, slices_whole/has.always, every_byte, only_in_the_first_block. */
pb_answer_bool pb_bytes_contains(const uint8_t *s, size_t s_len, size_t from, size_t to, uint8_t v);

/* Whether the part and `other` have the same bytes. Refused where `from` is past `to`, or `to` past the end.
   Cited by rows D32; clause vstd_slices/Promises.Equal, vstd_slices/Slices.SameElements; contract
   promisebook_slices::pb_bytes_equal; law vstd_slices/Promised.equal_promised, vstd_slices/Kept.equal_kept;
   pinned by vstd_slices/Pinned.equal_pinned; refused slices_compare/equal.up_to_the_end, with_itself,
   slices_whole/same.any_byte_alike, blocks_unread, last_block_unread, never. */
pb_answer_bool pb_bytes_equal(
    const uint8_t *s, size_t s_len, size_t from, size_t to, const uint8_t *other, size_t other_len);

/* Makes `v` the byte `i` of the part, counted from `from`, and changes no other byte. Refused where `from` is past
   `to`, or `to` past the end, and where the part has no byte `i`.
   Cited by rows D5, D7, D8, D9, D23, D26, D27, D42, D44, D56, D67, D68; clause vstd_slices/Promises.Set,
   vstd_slices/Slices.Updated, vstd_slices/Promises.CopyFrom, vstd_slices/Slices.PartReplaced; contract
   promisebook_slices::pb_bytes_set; law vstd_slices/Promised.set_promised, vstd_slices/Kept.set_kept,
   vstd_slices/Promised.copy_from_promised, vstd_slices/Kept.copy_from_kept; pinned by
   vstd_slices/Pinned.set_pinned, copy_from_pinned; refused slices_mut/set.last_instead, one_past_the_end,
   vstd_slices/set.refusal_leaves_anything. */
bool pb_bytes_set(uint8_t *s, size_t s_len, size_t from, size_t to, size_t i, uint8_t v);

/* Turns the part the other way round and changes no byte outside it. Refused where `from` is past `to`, or `to` past
   the end.
   Cited by rows D14, D15, D16, D34; clause vstd_slices/Promises.CopyFrom, Reverse, CopyWithin,
   vstd_slices/Slices.PartReplaced, Reversed; contract promisebook_slices::pb_bytes_reverse; law
   vstd_slices/Promised.copy_from_promised, reverse_promised, copy_within_promised,
   vstd_slices/Kept.copy_from_kept, reverse_kept; pinned by vstd_slices/Pinned.copy_from_pinned, reverse_pinned,
   copy_within_pinned; refused slices_reverse/reverse.back_block_twice, blocks_overlap, from_the_start,
   one_byte_everywhere, two_left_as_they_are. */
bool pb_bytes_reverse(uint8_t *s, size_t s_len, size_t from, size_t to);

/* Makes the part's bytes those of `other` and changes no byte outside it. Refused where `from` is past `to`, or `to`
   past the end, and where `other` has another length than the part.
   Cited by rows D14, D15, D16, D17, D23, D26, D27, D49, D56, D57, D58; clause vstd_slices/Promises.CopyFrom,
   Reverse, CopyWithin, vstd_slices/Slices.PartReplaced, Reversed, vstd_slices/Promises.Set,
   vstd_slices/Slices.Updated; contract promisebook_slices::pb_bytes_copy_from; law
   vstd_slices/Promised.copy_from_promised, reverse_promised, copy_within_promised,
   vstd_slices/Kept.copy_from_kept, reverse_kept, vstd_slices/Promised.set_promised, vstd_slices/Kept.set_kept;
   pinned by vstd_slices/Pinned.copy_from_pinned, reverse_pinned, copy_within_pinned, set_pinned; refused
   slices_copy/copy_from.blocks_in_one_place, first_block_and_last, longer_is_cut, to_the_start,
   vstd_slices/part_replaced.byte_behind_left_open, promisebook_slices/copy_from.before_and_after. */
bool pb_bytes_copy_from(uint8_t *s, size_t s_len, size_t from, size_t to, const uint8_t *other, size_t other_len);

/* Copies the part to the place `at` on, as if all of it had been read before a byte is written: both may overlap.
   Changes no other byte. Refused where `from` is past `to`, or `to` past the end, and where the copy would go
   past the end.
   Cited by rows D14, D16, D59, D60; clause vstd_slices/Promises.CopyFrom, Reverse, CopyWithin,
   vstd_slices/Slices.CopiedWithin; contract promisebook_slices::pb_bytes_copy_within; law
   vstd_slices/Promised.copy_from_promised, reverse_promised, copy_within_promised,
   vstd_slices/Kept.copy_within_kept; pinned by vstd_slices/Pinned.copy_from_pinned, reverse_pinned,
   copy_within_pinned; refused slices_move/copy_within.a_byte_further, a_byte_nearer, first_block_last,
   front_loop_when_behind, front_when_behind, not_up_to_the_end, past_the_end, where_it_was,
   vstd_slices/copy_within.reads_what_it_wrote. */
bool pb_bytes_copy_within(uint8_t *s, size_t s_len, size_t from, size_t to, size_t at);

/* ---- Text: bytes that are valid UTF-8 or not, and scalar values, the numbers up to 0x10ffff without 0xd800 to 0xdfff. */

/* How many bytes the UTF-8 form of `c` has. Refused where `c` is no scalar value.
   Cited by rows E63; clause vstd_text/Promises.ScalarLen, vstd_text/Encoding.encode_scalar; contract
   promisebook_text::pb_text_scalar_len; law vstd_text/Promised.scalar_len_promised,
   vstd_text/Kept.scalar_len_kept; pinned by vstd_text/Pinned.scalar_len_pinned; refused
   text_scalar/scalar_len.four_bytes_for_three, three_bytes_for_two,
   promisebook_text/pb_text_scalar_len.always_four. */
pb_answer_usize pb_text_scalar_len(uint32_t c);

/* Whether `c` is one of the 25 scalar values of Unicode's property White_Space.
   Cited by rows E65; clause vstd_text/Promises.IsWhiteSpace, vstd_text/Characters.is_white_space; contract
   promisebook_text::pb_text_is_white_space; law vstd_text/Promised.is_white_space_promised,
   vstd_text/Kept.is_white_space_kept; pinned by vstd_text/Pinned.is_white_space_pinned; refused
   text_scalar/is_white_space.next_line_left_out, zero_width_space_counted. */
bool pb_text_is_white_space(uint32_t c);

/* Writes the UTF-8 form of `c` into `out` from the place `at` on, changes no other byte, and answers how many bytes
   it has. Refused where `c` is no scalar value or its form does not fit there.
   Cited by rows E28; clause vstd_text/Promises.Write, vstd_text/Encoding.encode_scalar; contract
   promisebook_text::pb_text_write; law vstd_text/Promised.write_promised, vstd_text/Kept.write_kept,
   vstd_text/Encoding.encode_scalar_same; pinned by vstd_text/Pinned.write_pinned; refused
   text_write/write.form_past_the_end, wrong_digit_first, wrong_mark, vstd_text/write.refusal_leaves_anything,
   promisebook_text/pb_text_write.slice_as_it_was. */
pb_answer_usize pb_text_write(uint8_t *out, size_t out_len, size_t at, uint32_t c);

/* The scalar value whose form the part from `from` up to and without `to` begins with, and how many bytes the form
   has. Refused where there is no such part, or no form begins it.
   Cited by rows E13, E14; clause vstd_text/Promises.ReadFirst, vstd_text/Decoding.decode_first_scalar,
   length_of_first_scalar; contract promisebook_text::pb_text_read_first; law
   vstd_text/Promised.read_first_promised, vstd_text/Kept.read_first_kept; pinned by
   vstd_text/Pinned.read_first_pinned; refused text_read/read_first.byte_80_accepted, cut_off_accepted,
   longer_than_needed, surrogate_accepted, too_large_accepted, promisebook_text/pb_text_read_first.ends_exchanged. */
pb_text_read pb_text_read_first(const uint8_t *s, size_t s_len, size_t from, size_t to);

/* The scalar value whose form the part from `from` up to and without `to` ends with, and how many bytes the form
   has. Refused where there is no such part, or no form ends it.
   Cited by rows E21, E23; clause vstd_text/Promises.ReadLast, vstd_text/Decoding.length_of_last_scalar,
   decode_last_scalar; contract promisebook_text::pb_text_read_last; law vstd_text/Promised.read_last_promised,
   vstd_text/Kept.read_last_kept; pinned by vstd_text/Pinned.read_last_pinned; refused
   text_read/read_last.one_byte_short, shorter_form_accepted, stops_at_a_following_byte,
   vstd_text/read_last.any_length, promisebook_text/pb_text_read_last.the_first. */
pb_text_read pb_text_read_last(const uint8_t *s, size_t s_len, size_t from, size_t to);

/* Whether `s` is valid UTF-8.
   Cited by rows E17; clause vstd_text/Promises.Valid, vstd_text/Decoding.ValidUtf8; contract
   promisebook_text::pb_text_valid; law vstd_text/Promised.valid_promised, vstd_text/Kept.valid_kept,
   vstd_text/Whole.valid_utf8_is, valid_utf8_same; pinned by vstd_text/Pinned.valid_pinned; refused
   text_valid/valid.always, wrong_from_the_start. */
bool pb_text_valid(const uint8_t *s, size_t s_len);

/* How many scalar values the text `s` has. Refused where it is not valid UTF-8.
   Cited by rows E19; clause vstd_text/Promises.Count, vstd_text/Decoding.decode_utf8; contract
   promisebook_text::pb_text_count; law vstd_text/Promised.count_promised, vstd_text/Kept.count_kept,
   vstd_text/Whole.decode_utf8_is, decode_utf8_same; pinned by vstd_text/Pinned.count_pinned; refused
   text_valid/count.marks_confused, one_too_many, vstd_text/count.refusal_with_any_number. */
pb_answer_usize pb_text_count(const uint8_t *s, size_t s_len);

/* Whether the place `at` of the text `s` lies between two scalar values or at an end. Refused where `s` is not valid
   UTF-8.
   Cited by rows E32; clause vstd_text/Promises.IsBoundary, vstd_text/Places.IsCharBoundary; contract
   promisebook_text::pb_text_is_boundary; law vstd_text/Promised.is_boundary_promised,
   vstd_text/Kept.is_boundary_kept, vstd_text/Places.is_char_boundary_is; pinned by
   vstd_text/Pinned.is_boundary_pinned; refused text_valid/is_boundary.end_left_out, inside_the_last_scalar,
   vstd_text/is_boundary.refusal_may_say_true, vstd_text/is_char_boundary.inside_the_first_scalar,
   promisebook_text/pb_text_is_boundary.not_valid_is_none. */
pb_answer_bool pb_text_is_boundary(const uint8_t *s, size_t s_len, size_t at);

/* Splits the text `s` at `at` into two texts, up to `middle` and from there to `end`. Refused where `s` is not valid
   UTF-8 or `at` is no boundary.
   Cited by rows E52; clause vstd_text/Promises.SplitAt, vstd_text/Decoding.ValidUtf8; contract
   promisebook_text::pb_text_split_at; law vstd_text/Promised.split_at_promised, vstd_text/Kept.split_at_kept,
   vstd_text/Boundaries.valid_utf8_split; pinned by vstd_text/Pinned.split_at_pinned; refused
   text_valid/split_at.first_part_empty, inside_a_scalar, vstd_text/split_at.end_not_mentioned,
   promisebook_text/pb_text_split_at.middle_and_end_exchanged. */
pb_text_split pb_text_split_at(const uint8_t *s, size_t s_len, size_t at);

/* Whether every byte of `s` is ASCII, at most 0x7f.
   Cited by rows E33; clause vstd_text/Promises.IsAscii, vstd_text/Characters.IsAsciiChars; contract
   promisebook_text::pb_text_is_ascii; law vstd_text/Promised.is_ascii_promised, vstd_text/Kept.is_ascii_kept,
   vstd_text/Characters.is_ascii_chars_same; pinned by vstd_text/Pinned.is_ascii_pinned; refused
   text_ascii/is_ascii.any_byte, blocks_unread, with_0x80. */
bool pb_text_is_ascii(const uint8_t *s, size_t s_len);

/* The length of the longest beginning of `s` that is valid UTF-8: of all of `s` where that is valid.
   Cited by rows E30; clause vstd_text/Promises.ValidUpTo, vstd_text/Places.PartialValidUtf8; contract
   promisebook_text::pb_text_valid_up_to; law vstd_text/Promised.valid_up_to_promised; pinned by
   vstd_text/Pinned.valid_up_to_pinned; refused text_valid/valid_up_to.byte_out_of_place, wrong_byte_passed_over,
   vstd_text/valid_up_to.not_the_most. */
size_t pb_text_valid_up_to(const uint8_t *s, size_t s_len);

#ifdef __cplusplus
}
#endif

#endif
