/* Every export, called as promisebook.h declares it, with answers worked out from its promise. Written by generate/generate.py. */
#include <stdio.h>
#include <string.h>

#include "promisebook.h"

static int asked = 0, wrong = 0;

static void check(const char *name, bool right)
{
    asked++;
    if (!right) {
        wrong++;
        printf("wrong: %s\n", name);
    }
}

static void of_u8(void)
{
    { uint8_t r = pb_u8_wrapping_add(200u, 100u); check("pb_u8_wrapping_add", r == 44u); }
    { uint8_t r = pb_u8_wrapping_add(100u, 100u); check("pb_u8_wrapping_add", r == 200u); }
    { uint8_t r = pb_u8_wrapping_add_signed(3u, -5); check("pb_u8_wrapping_add_signed", r == 254u); }
    { uint8_t r = pb_u8_wrapping_add_signed(200u, -100); check("pb_u8_wrapping_add_signed", r == 100u); }
    { uint8_t r = pb_u8_wrapping_add_signed(200u, 100); check("pb_u8_wrapping_add_signed", r == 44u); }
    { uint8_t r = pb_u8_wrapping_sub(3u, 5u); check("pb_u8_wrapping_sub", r == 254u); }
    { uint8_t r = pb_u8_wrapping_sub(5u, 3u); check("pb_u8_wrapping_sub", r == 2u); }
    { uint8_t r = pb_u8_wrapping_mul(16u, 17u); check("pb_u8_wrapping_mul", r == 16u); }
    { uint8_t r = pb_u8_wrapping_mul(15u, 17u); check("pb_u8_wrapping_mul", r == 255u); }
    { uint8_t r = pb_u8_wrapping_mul(15u, 15u); check("pb_u8_wrapping_mul", r == 225u); }
    { uint8_t r = pb_u8_wrapping_shl(1u, 9u); check("pb_u8_wrapping_shl", r == 2u); }
    { uint8_t r = pb_u8_wrapping_shl(3u, 7u); check("pb_u8_wrapping_shl", r == 128u); }
    { uint8_t r = pb_u8_wrapping_shr(128u, 15u); check("pb_u8_wrapping_shr", r == 1u); }
    { pb_answer_u8 r = pb_u8_checked_add(200u, 100u); check("pb_u8_checked_add", !r.ok && r.value == 0u); }
    { pb_answer_u8 r = pb_u8_checked_add(100u, 100u); check("pb_u8_checked_add", r.ok && r.value == 200u); }
    { pb_answer_u8 r = pb_u8_checked_add_signed(3u, -5); check("pb_u8_checked_add_signed", !r.ok && r.value == 0u); }
    { pb_answer_u8 r = pb_u8_checked_add_signed(200u, -100); check("pb_u8_checked_add_signed", r.ok && r.value == 100u); }
    { pb_answer_u8 r = pb_u8_checked_add_signed(200u, 100); check("pb_u8_checked_add_signed", !r.ok && r.value == 0u); }
    { pb_answer_u8 r = pb_u8_checked_sub(3u, 5u); check("pb_u8_checked_sub", !r.ok && r.value == 0u); }
    { pb_answer_u8 r = pb_u8_checked_sub(5u, 3u); check("pb_u8_checked_sub", r.ok && r.value == 2u); }
    { pb_answer_u8 r = pb_u8_checked_mul(16u, 17u); check("pb_u8_checked_mul", !r.ok && r.value == 0u); }
    { pb_answer_u8 r = pb_u8_checked_mul(15u, 17u); check("pb_u8_checked_mul", r.ok && r.value == 255u); }
    { pb_answer_u8 r = pb_u8_checked_mul(15u, 15u); check("pb_u8_checked_mul", r.ok && r.value == 225u); }
    { pb_answer_u8 r = pb_u8_checked_next_multiple_of(250u, 7u); check("pb_u8_checked_next_multiple_of", r.ok && r.value == 252u); }
    { pb_answer_u8 r = pb_u8_checked_next_multiple_of(250u, 16u); check("pb_u8_checked_next_multiple_of", !r.ok && r.value == 0u); }
    { pb_answer_u8 r = pb_u8_checked_next_multiple_of(7u, 0u); check("pb_u8_checked_next_multiple_of", !r.ok && r.value == 0u); }
    { pb_answer_u8 r = pb_u8_checked_div(7u, 3u); check("pb_u8_checked_div", r.ok && r.value == 2u); }
    { pb_answer_u8 r = pb_u8_checked_div(255u, 10u); check("pb_u8_checked_div", r.ok && r.value == 25u); }
    { pb_answer_u8 r = pb_u8_checked_div(7u, 0u); check("pb_u8_checked_div", !r.ok && r.value == 0u); }
    { pb_answer_u8 r = pb_u8_checked_div_euclid(7u, 3u); check("pb_u8_checked_div_euclid", r.ok && r.value == 2u); }
    { pb_answer_u8 r = pb_u8_checked_div_euclid(255u, 10u); check("pb_u8_checked_div_euclid", r.ok && r.value == 25u); }
    { pb_answer_u8 r = pb_u8_checked_div_euclid(7u, 0u); check("pb_u8_checked_div_euclid", !r.ok && r.value == 0u); }
    { pb_answer_u8 r = pb_u8_checked_rem(7u, 3u); check("pb_u8_checked_rem", r.ok && r.value == 1u); }
    { pb_answer_u8 r = pb_u8_checked_rem(255u, 10u); check("pb_u8_checked_rem", r.ok && r.value == 5u); }
    { pb_answer_u8 r = pb_u8_checked_rem(7u, 0u); check("pb_u8_checked_rem", !r.ok && r.value == 0u); }
    { pb_answer_u8 r = pb_u8_checked_rem_euclid(7u, 3u); check("pb_u8_checked_rem_euclid", r.ok && r.value == 1u); }
    { pb_answer_u8 r = pb_u8_checked_rem_euclid(255u, 10u); check("pb_u8_checked_rem_euclid", r.ok && r.value == 5u); }
    { pb_answer_u8 r = pb_u8_checked_rem_euclid(7u, 0u); check("pb_u8_checked_rem_euclid", !r.ok && r.value == 0u); }
    { uint8_t r = pb_u8_saturating_add(200u, 100u); check("pb_u8_saturating_add", r == 255u); }
    { uint8_t r = pb_u8_saturating_add(100u, 100u); check("pb_u8_saturating_add", r == 200u); }
    { uint8_t r = pb_u8_saturating_sub(3u, 5u); check("pb_u8_saturating_sub", r == 0u); }
    { uint8_t r = pb_u8_saturating_sub(5u, 3u); check("pb_u8_saturating_sub", r == 2u); }
    { uint8_t r = pb_u8_saturating_mul(16u, 17u); check("pb_u8_saturating_mul", r == 255u); }
    { uint8_t r = pb_u8_saturating_mul(15u, 17u); check("pb_u8_saturating_mul", r == 255u); }
    { uint8_t r = pb_u8_saturating_mul(15u, 15u); check("pb_u8_saturating_mul", r == 225u); }
    { bool r = pb_u8_is_multiple_of(252u, 7u); check("pb_u8_is_multiple_of", r == true); }
    { bool r = pb_u8_is_multiple_of(250u, 7u); check("pb_u8_is_multiple_of", r == false); }
    { bool r = pb_u8_is_multiple_of(0u, 0u); check("pb_u8_is_multiple_of", r == true); }
    { bool r = pb_u8_is_multiple_of(7u, 0u); check("pb_u8_is_multiple_of", r == false); }
    { uint8_t r = pb_u8_clone(255u); check("pb_u8_clone", r == 255u); }
    { uint8_t r = pb_u8_clone(0u); check("pb_u8_clone", r == 0u); }
    { bool r = pb_u8_eq(3u, 5u); check("pb_u8_eq", r == false); }
    { bool r = pb_u8_eq(5u, 5u); check("pb_u8_eq", r == true); }
    { bool r = pb_u8_eq(255u, 0u); check("pb_u8_eq", r == false); }
    { bool r = pb_u8_ne(3u, 5u); check("pb_u8_ne", r == true); }
    { bool r = pb_u8_ne(5u, 5u); check("pb_u8_ne", r == false); }
    { bool r = pb_u8_ne(255u, 0u); check("pb_u8_ne", r == true); }
    { bool r = pb_u8_lt(3u, 5u); check("pb_u8_lt", r == true); }
    { bool r = pb_u8_lt(5u, 5u); check("pb_u8_lt", r == false); }
    { bool r = pb_u8_lt(255u, 0u); check("pb_u8_lt", r == false); }
    { bool r = pb_u8_le(3u, 5u); check("pb_u8_le", r == true); }
    { bool r = pb_u8_le(5u, 5u); check("pb_u8_le", r == true); }
    { bool r = pb_u8_le(255u, 0u); check("pb_u8_le", r == false); }
    { bool r = pb_u8_gt(3u, 5u); check("pb_u8_gt", r == false); }
    { bool r = pb_u8_gt(5u, 5u); check("pb_u8_gt", r == false); }
    { bool r = pb_u8_gt(255u, 0u); check("pb_u8_gt", r == true); }
    { bool r = pb_u8_ge(3u, 5u); check("pb_u8_ge", r == false); }
    { bool r = pb_u8_ge(5u, 5u); check("pb_u8_ge", r == true); }
    { bool r = pb_u8_ge(255u, 0u); check("pb_u8_ge", r == true); }
    { int8_t r = pb_u8_cmp(3u, 5u); check("pb_u8_cmp", r == -1); }
    { int8_t r = pb_u8_cmp(5u, 5u); check("pb_u8_cmp", r == 0); }
    { int8_t r = pb_u8_cmp(255u, 0u); check("pb_u8_cmp", r == 1); }
    { pb_answer_i8 r = pb_u8_partial_cmp(3u, 5u); check("pb_u8_partial_cmp", r.ok && r.value == -1); }
    { pb_answer_i8 r = pb_u8_partial_cmp(5u, 5u); check("pb_u8_partial_cmp", r.ok && r.value == 0); }
    { pb_answer_i8 r = pb_u8_partial_cmp(255u, 0u); check("pb_u8_partial_cmp", r.ok && r.value == 1); }
    { uint32_t r = pb_u8_leading_zeros(80u); check("pb_u8_leading_zeros", r == 1u); }
    { uint32_t r = pb_u8_leading_zeros(247u); check("pb_u8_leading_zeros", r == 0u); }
    { uint32_t r = pb_u8_leading_zeros(0u); check("pb_u8_leading_zeros", r == 8u); }
    { uint32_t r = pb_u8_leading_zeros(255u); check("pb_u8_leading_zeros", r == 0u); }
    { uint32_t r = pb_u8_leading_ones(80u); check("pb_u8_leading_ones", r == 0u); }
    { uint32_t r = pb_u8_leading_ones(247u); check("pb_u8_leading_ones", r == 4u); }
    { uint32_t r = pb_u8_leading_ones(0u); check("pb_u8_leading_ones", r == 0u); }
    { uint32_t r = pb_u8_leading_ones(255u); check("pb_u8_leading_ones", r == 8u); }
    { uint32_t r = pb_u8_trailing_zeros(80u); check("pb_u8_trailing_zeros", r == 4u); }
    { uint32_t r = pb_u8_trailing_zeros(247u); check("pb_u8_trailing_zeros", r == 0u); }
    { uint32_t r = pb_u8_trailing_zeros(0u); check("pb_u8_trailing_zeros", r == 8u); }
    { uint32_t r = pb_u8_trailing_zeros(255u); check("pb_u8_trailing_zeros", r == 0u); }
    { uint32_t r = pb_u8_trailing_ones(80u); check("pb_u8_trailing_ones", r == 0u); }
    { uint32_t r = pb_u8_trailing_ones(247u); check("pb_u8_trailing_ones", r == 3u); }
    { uint32_t r = pb_u8_trailing_ones(0u); check("pb_u8_trailing_ones", r == 0u); }
    { uint32_t r = pb_u8_trailing_ones(255u); check("pb_u8_trailing_ones", r == 8u); }
    { const uint8_t s[] = {50, 53, 53}; pb_answer_u8 r = pb_u8_read_decimal(s, 3, 0u, 3u); check("pb_u8_read_decimal", r.ok && r.value == 255u); }
    { const uint8_t s[] = {50, 53, 54}; pb_answer_u8 r = pb_u8_read_decimal(s, 3, 0u, 3u); check("pb_u8_read_decimal", !r.ok && r.value == 0u); }
    { const uint8_t s[] = {48}; pb_answer_u8 r = pb_u8_read_decimal(s, 1, 0u, 1u); check("pb_u8_read_decimal", r.ok && r.value == 0u); }
    { const uint8_t s[] = {45, 49}; pb_answer_u8 r = pb_u8_read_decimal(s, 2, 0u, 2u); check("pb_u8_read_decimal", !r.ok && r.value == 0u); }
    { const uint8_t s[] = {48, 48, 55}; pb_answer_u8 r = pb_u8_read_decimal(s, 3, 0u, 3u); check("pb_u8_read_decimal", r.ok && r.value == 7u); }
    { const uint8_t s[] = {45, 48}; pb_answer_u8 r = pb_u8_read_decimal(s, 2, 0u, 2u); check("pb_u8_read_decimal", !r.ok && r.value == 0u); }
    { const uint8_t s[] = {43, 53}; pb_answer_u8 r = pb_u8_read_decimal(s, 2, 0u, 2u); check("pb_u8_read_decimal", !r.ok && r.value == 0u); }
    { const uint8_t s[] = {45}; pb_answer_u8 r = pb_u8_read_decimal(s, 1, 0u, 1u); check("pb_u8_read_decimal", !r.ok && r.value == 0u); }
    { const uint8_t s[] = {0}; pb_answer_u8 r = pb_u8_read_decimal(s, 0, 0u, 0u); check("pb_u8_read_decimal", !r.ok && r.value == 0u); }
    { const uint8_t s[] = {110, 61, 52, 50, 59}; pb_answer_u8 r = pb_u8_read_decimal(s, 5, 2u, 4u); check("pb_u8_read_decimal", r.ok && r.value == 42u); }
    { const uint8_t s[] = {110, 61, 52, 50, 59}; pb_answer_u8 r = pb_u8_read_decimal(s, 5, 1u, 4u); check("pb_u8_read_decimal", !r.ok && r.value == 0u); }
    { const uint8_t s[] = {110, 61, 52, 50, 59}; pb_answer_u8 r = pb_u8_read_decimal(s, 5, 2u, 6u); check("pb_u8_read_decimal", !r.ok && r.value == 0u); }
    { const uint8_t s[] = {110, 61, 52, 50, 59}; pb_answer_u8 r = pb_u8_read_decimal(s, 5, 4u, 2u); check("pb_u8_read_decimal", !r.ok && r.value == 0u); }
    { uint8_t s[] = {46, 46, 46, 46, 46}; pb_answer_usize r = pb_u8_write_decimal(255u, s, 5, 1u); const uint8_t s_after[] = {46, 50, 53, 53, 46}; check("pb_u8_write_decimal", r.ok && r.value == 3u && memcmp(s, s_after, 5) == 0); }
    { uint8_t s[] = {46, 46, 46}; pb_answer_usize r = pb_u8_write_decimal(0u, s, 3, 1u); const uint8_t s_after[] = {46, 48, 46}; check("pb_u8_write_decimal", r.ok && r.value == 1u && memcmp(s, s_after, 3) == 0); }
    { uint8_t s[] = {46, 46}; pb_answer_usize r = pb_u8_write_decimal(10u, s, 2, 0u); const uint8_t s_after[] = {49, 48}; check("pb_u8_write_decimal", r.ok && r.value == 2u && memcmp(s, s_after, 2) == 0); }
    { uint8_t s[] = {46, 46, 46}; pb_answer_usize r = pb_u8_write_decimal(0u, s, 3, 2u); const uint8_t s_after[] = {46, 46, 48}; check("pb_u8_write_decimal", r.ok && r.value == 1u && memcmp(s, s_after, 3) == 0); }
    { uint8_t s[] = {46, 46, 46}; pb_answer_usize r = pb_u8_write_decimal(255u, s, 3, 1u); const uint8_t s_after[] = {46, 46, 46}; check("pb_u8_write_decimal", !r.ok && r.value == 0u && memcmp(s, s_after, 3) == 0); }
    { uint8_t s[] = {46}; pb_answer_usize r = pb_u8_write_decimal(10u, s, 1, 0u); const uint8_t s_after[] = {46}; check("pb_u8_write_decimal", !r.ok && r.value == 0u && memcmp(s, s_after, 1) == 0); }
    { uint8_t s[] = {46}; pb_answer_usize r = pb_u8_write_decimal(7u, s, 1, 2u); const uint8_t s_after[] = {46}; check("pb_u8_write_decimal", !r.ok && r.value == 0u && memcmp(s, s_after, 1) == 0); }
}

static void of_u16(void)
{
    { uint16_t r = pb_u16_wrapping_add(65480u, 100u); check("pb_u16_wrapping_add", r == 44u); }
    { uint16_t r = pb_u16_wrapping_add(65380u, 100u); check("pb_u16_wrapping_add", r == 65480u); }
    { uint16_t r = pb_u16_wrapping_add_signed(3u, -5); check("pb_u16_wrapping_add_signed", r == 65534u); }
    { uint16_t r = pb_u16_wrapping_add_signed(65480u, -100); check("pb_u16_wrapping_add_signed", r == 65380u); }
    { uint16_t r = pb_u16_wrapping_add_signed(65480u, 100); check("pb_u16_wrapping_add_signed", r == 44u); }
    { uint16_t r = pb_u16_wrapping_sub(3u, 5u); check("pb_u16_wrapping_sub", r == 65534u); }
    { uint16_t r = pb_u16_wrapping_sub(5u, 3u); check("pb_u16_wrapping_sub", r == 2u); }
    { uint16_t r = pb_u16_wrapping_mul(256u, 257u); check("pb_u16_wrapping_mul", r == 256u); }
    { uint16_t r = pb_u16_wrapping_mul(255u, 257u); check("pb_u16_wrapping_mul", r == 65535u); }
    { uint16_t r = pb_u16_wrapping_mul(255u, 255u); check("pb_u16_wrapping_mul", r == 65025u); }
    { uint16_t r = pb_u16_wrapping_shl(1u, 17u); check("pb_u16_wrapping_shl", r == 2u); }
    { uint16_t r = pb_u16_wrapping_shl(3u, 15u); check("pb_u16_wrapping_shl", r == 32768u); }
    { uint16_t r = pb_u16_wrapping_shr(32768u, 31u); check("pb_u16_wrapping_shr", r == 1u); }
    { pb_answer_u16 r = pb_u16_checked_add(65480u, 100u); check("pb_u16_checked_add", !r.ok && r.value == 0u); }
    { pb_answer_u16 r = pb_u16_checked_add(65380u, 100u); check("pb_u16_checked_add", r.ok && r.value == 65480u); }
    { pb_answer_u16 r = pb_u16_checked_add_signed(3u, -5); check("pb_u16_checked_add_signed", !r.ok && r.value == 0u); }
    { pb_answer_u16 r = pb_u16_checked_add_signed(65480u, -100); check("pb_u16_checked_add_signed", r.ok && r.value == 65380u); }
    { pb_answer_u16 r = pb_u16_checked_add_signed(65480u, 100); check("pb_u16_checked_add_signed", !r.ok && r.value == 0u); }
    { pb_answer_u16 r = pb_u16_checked_sub(3u, 5u); check("pb_u16_checked_sub", !r.ok && r.value == 0u); }
    { pb_answer_u16 r = pb_u16_checked_sub(5u, 3u); check("pb_u16_checked_sub", r.ok && r.value == 2u); }
    { pb_answer_u16 r = pb_u16_checked_mul(256u, 257u); check("pb_u16_checked_mul", !r.ok && r.value == 0u); }
    { pb_answer_u16 r = pb_u16_checked_mul(255u, 257u); check("pb_u16_checked_mul", r.ok && r.value == 65535u); }
    { pb_answer_u16 r = pb_u16_checked_mul(255u, 255u); check("pb_u16_checked_mul", r.ok && r.value == 65025u); }
    { pb_answer_u16 r = pb_u16_checked_next_multiple_of(65530u, 7u); check("pb_u16_checked_next_multiple_of", r.ok && r.value == 65534u); }
    { pb_answer_u16 r = pb_u16_checked_next_multiple_of(65530u, 16u); check("pb_u16_checked_next_multiple_of", !r.ok && r.value == 0u); }
    { pb_answer_u16 r = pb_u16_checked_next_multiple_of(7u, 0u); check("pb_u16_checked_next_multiple_of", !r.ok && r.value == 0u); }
    { pb_answer_u16 r = pb_u16_checked_div(7u, 3u); check("pb_u16_checked_div", r.ok && r.value == 2u); }
    { pb_answer_u16 r = pb_u16_checked_div(65535u, 10u); check("pb_u16_checked_div", r.ok && r.value == 6553u); }
    { pb_answer_u16 r = pb_u16_checked_div(7u, 0u); check("pb_u16_checked_div", !r.ok && r.value == 0u); }
    { pb_answer_u16 r = pb_u16_checked_div_euclid(7u, 3u); check("pb_u16_checked_div_euclid", r.ok && r.value == 2u); }
    { pb_answer_u16 r = pb_u16_checked_div_euclid(65535u, 10u); check("pb_u16_checked_div_euclid", r.ok && r.value == 6553u); }
    { pb_answer_u16 r = pb_u16_checked_div_euclid(7u, 0u); check("pb_u16_checked_div_euclid", !r.ok && r.value == 0u); }
    { pb_answer_u16 r = pb_u16_checked_rem(7u, 3u); check("pb_u16_checked_rem", r.ok && r.value == 1u); }
    { pb_answer_u16 r = pb_u16_checked_rem(65535u, 10u); check("pb_u16_checked_rem", r.ok && r.value == 5u); }
    { pb_answer_u16 r = pb_u16_checked_rem(7u, 0u); check("pb_u16_checked_rem", !r.ok && r.value == 0u); }
    { pb_answer_u16 r = pb_u16_checked_rem_euclid(7u, 3u); check("pb_u16_checked_rem_euclid", r.ok && r.value == 1u); }
    { pb_answer_u16 r = pb_u16_checked_rem_euclid(65535u, 10u); check("pb_u16_checked_rem_euclid", r.ok && r.value == 5u); }
    { pb_answer_u16 r = pb_u16_checked_rem_euclid(7u, 0u); check("pb_u16_checked_rem_euclid", !r.ok && r.value == 0u); }
    { uint16_t r = pb_u16_saturating_add(65480u, 100u); check("pb_u16_saturating_add", r == 65535u); }
    { uint16_t r = pb_u16_saturating_add(65380u, 100u); check("pb_u16_saturating_add", r == 65480u); }
    { uint16_t r = pb_u16_saturating_sub(3u, 5u); check("pb_u16_saturating_sub", r == 0u); }
    { uint16_t r = pb_u16_saturating_sub(5u, 3u); check("pb_u16_saturating_sub", r == 2u); }
    { uint16_t r = pb_u16_saturating_mul(256u, 257u); check("pb_u16_saturating_mul", r == 65535u); }
    { uint16_t r = pb_u16_saturating_mul(255u, 257u); check("pb_u16_saturating_mul", r == 65535u); }
    { uint16_t r = pb_u16_saturating_mul(255u, 255u); check("pb_u16_saturating_mul", r == 65025u); }
    { bool r = pb_u16_is_multiple_of(252u, 7u); check("pb_u16_is_multiple_of", r == true); }
    { bool r = pb_u16_is_multiple_of(250u, 7u); check("pb_u16_is_multiple_of", r == false); }
    { bool r = pb_u16_is_multiple_of(0u, 0u); check("pb_u16_is_multiple_of", r == true); }
    { bool r = pb_u16_is_multiple_of(7u, 0u); check("pb_u16_is_multiple_of", r == false); }
    { uint16_t r = pb_u16_clone(65535u); check("pb_u16_clone", r == 65535u); }
    { uint16_t r = pb_u16_clone(0u); check("pb_u16_clone", r == 0u); }
    { bool r = pb_u16_eq(3u, 5u); check("pb_u16_eq", r == false); }
    { bool r = pb_u16_eq(5u, 5u); check("pb_u16_eq", r == true); }
    { bool r = pb_u16_eq(65535u, 0u); check("pb_u16_eq", r == false); }
    { bool r = pb_u16_ne(3u, 5u); check("pb_u16_ne", r == true); }
    { bool r = pb_u16_ne(5u, 5u); check("pb_u16_ne", r == false); }
    { bool r = pb_u16_ne(65535u, 0u); check("pb_u16_ne", r == true); }
    { bool r = pb_u16_lt(3u, 5u); check("pb_u16_lt", r == true); }
    { bool r = pb_u16_lt(5u, 5u); check("pb_u16_lt", r == false); }
    { bool r = pb_u16_lt(65535u, 0u); check("pb_u16_lt", r == false); }
    { bool r = pb_u16_le(3u, 5u); check("pb_u16_le", r == true); }
    { bool r = pb_u16_le(5u, 5u); check("pb_u16_le", r == true); }
    { bool r = pb_u16_le(65535u, 0u); check("pb_u16_le", r == false); }
    { bool r = pb_u16_gt(3u, 5u); check("pb_u16_gt", r == false); }
    { bool r = pb_u16_gt(5u, 5u); check("pb_u16_gt", r == false); }
    { bool r = pb_u16_gt(65535u, 0u); check("pb_u16_gt", r == true); }
    { bool r = pb_u16_ge(3u, 5u); check("pb_u16_ge", r == false); }
    { bool r = pb_u16_ge(5u, 5u); check("pb_u16_ge", r == true); }
    { bool r = pb_u16_ge(65535u, 0u); check("pb_u16_ge", r == true); }
    { int8_t r = pb_u16_cmp(3u, 5u); check("pb_u16_cmp", r == -1); }
    { int8_t r = pb_u16_cmp(5u, 5u); check("pb_u16_cmp", r == 0); }
    { int8_t r = pb_u16_cmp(65535u, 0u); check("pb_u16_cmp", r == 1); }
    { pb_answer_i8 r = pb_u16_partial_cmp(3u, 5u); check("pb_u16_partial_cmp", r.ok && r.value == -1); }
    { pb_answer_i8 r = pb_u16_partial_cmp(5u, 5u); check("pb_u16_partial_cmp", r.ok && r.value == 0); }
    { pb_answer_i8 r = pb_u16_partial_cmp(65535u, 0u); check("pb_u16_partial_cmp", r.ok && r.value == 1); }
    { uint32_t r = pb_u16_leading_zeros(80u); check("pb_u16_leading_zeros", r == 9u); }
    { uint32_t r = pb_u16_leading_zeros(247u); check("pb_u16_leading_zeros", r == 8u); }
    { uint32_t r = pb_u16_leading_zeros(0u); check("pb_u16_leading_zeros", r == 16u); }
    { uint32_t r = pb_u16_leading_zeros(65535u); check("pb_u16_leading_zeros", r == 0u); }
    { uint32_t r = pb_u16_leading_ones(80u); check("pb_u16_leading_ones", r == 0u); }
    { uint32_t r = pb_u16_leading_ones(247u); check("pb_u16_leading_ones", r == 0u); }
    { uint32_t r = pb_u16_leading_ones(0u); check("pb_u16_leading_ones", r == 0u); }
    { uint32_t r = pb_u16_leading_ones(65535u); check("pb_u16_leading_ones", r == 16u); }
    { uint32_t r = pb_u16_trailing_zeros(80u); check("pb_u16_trailing_zeros", r == 4u); }
    { uint32_t r = pb_u16_trailing_zeros(247u); check("pb_u16_trailing_zeros", r == 0u); }
    { uint32_t r = pb_u16_trailing_zeros(0u); check("pb_u16_trailing_zeros", r == 16u); }
    { uint32_t r = pb_u16_trailing_zeros(65535u); check("pb_u16_trailing_zeros", r == 0u); }
    { uint32_t r = pb_u16_trailing_ones(80u); check("pb_u16_trailing_ones", r == 0u); }
    { uint32_t r = pb_u16_trailing_ones(247u); check("pb_u16_trailing_ones", r == 3u); }
    { uint32_t r = pb_u16_trailing_ones(0u); check("pb_u16_trailing_ones", r == 0u); }
    { uint32_t r = pb_u16_trailing_ones(65535u); check("pb_u16_trailing_ones", r == 16u); }
    { const uint8_t s[] = {2, 1}; pb_answer_u16 r = pb_u16_from_le_bytes(s, 2); check("pb_u16_from_le_bytes", r.ok && r.value == 258u); }
    { const uint8_t s[] = {1}; pb_answer_u16 r = pb_u16_from_le_bytes(s, 1); check("pb_u16_from_le_bytes", !r.ok && r.value == 0u); }
    { uint8_t s[] = {0, 0, 0}; bool r = pb_u16_to_le_bytes(258u, s, 3, 1u); const uint8_t s_after[] = {0, 2, 1}; check("pb_u16_to_le_bytes", r == true && memcmp(s, s_after, 3) == 0); }
    { uint8_t s[] = {0, 0, 0}; bool r = pb_u16_to_le_bytes(258u, s, 3, 2u); const uint8_t s_after[] = {0, 0, 0}; check("pb_u16_to_le_bytes", r == false && memcmp(s, s_after, 3) == 0); }
    { const uint8_t s[] = {1, 2}; pb_answer_u16 r = pb_u16_from_be_bytes(s, 2); check("pb_u16_from_be_bytes", r.ok && r.value == 258u); }
    { const uint8_t s[] = {2}; pb_answer_u16 r = pb_u16_from_be_bytes(s, 1); check("pb_u16_from_be_bytes", !r.ok && r.value == 0u); }
    { uint8_t s[] = {0, 0, 0}; bool r = pb_u16_to_be_bytes(258u, s, 3, 1u); const uint8_t s_after[] = {0, 1, 2}; check("pb_u16_to_be_bytes", r == true && memcmp(s, s_after, 3) == 0); }
    { uint8_t s[] = {0, 0, 0}; bool r = pb_u16_to_be_bytes(258u, s, 3, 2u); const uint8_t s_after[] = {0, 0, 0}; check("pb_u16_to_be_bytes", r == false && memcmp(s, s_after, 3) == 0); }
    { const uint8_t s[] = {54, 53, 53, 51, 53}; pb_answer_u16 r = pb_u16_read_decimal(s, 5, 0u, 5u); check("pb_u16_read_decimal", r.ok && r.value == 65535u); }
    { const uint8_t s[] = {54, 53, 53, 51, 54}; pb_answer_u16 r = pb_u16_read_decimal(s, 5, 0u, 5u); check("pb_u16_read_decimal", !r.ok && r.value == 0u); }
    { const uint8_t s[] = {48}; pb_answer_u16 r = pb_u16_read_decimal(s, 1, 0u, 1u); check("pb_u16_read_decimal", r.ok && r.value == 0u); }
    { const uint8_t s[] = {45, 49}; pb_answer_u16 r = pb_u16_read_decimal(s, 2, 0u, 2u); check("pb_u16_read_decimal", !r.ok && r.value == 0u); }
    { const uint8_t s[] = {48, 48, 55}; pb_answer_u16 r = pb_u16_read_decimal(s, 3, 0u, 3u); check("pb_u16_read_decimal", r.ok && r.value == 7u); }
    { const uint8_t s[] = {45, 48}; pb_answer_u16 r = pb_u16_read_decimal(s, 2, 0u, 2u); check("pb_u16_read_decimal", !r.ok && r.value == 0u); }
    { const uint8_t s[] = {43, 53}; pb_answer_u16 r = pb_u16_read_decimal(s, 2, 0u, 2u); check("pb_u16_read_decimal", !r.ok && r.value == 0u); }
    { const uint8_t s[] = {45}; pb_answer_u16 r = pb_u16_read_decimal(s, 1, 0u, 1u); check("pb_u16_read_decimal", !r.ok && r.value == 0u); }
    { const uint8_t s[] = {0}; pb_answer_u16 r = pb_u16_read_decimal(s, 0, 0u, 0u); check("pb_u16_read_decimal", !r.ok && r.value == 0u); }
    { const uint8_t s[] = {110, 61, 52, 50, 59}; pb_answer_u16 r = pb_u16_read_decimal(s, 5, 2u, 4u); check("pb_u16_read_decimal", r.ok && r.value == 42u); }
    { const uint8_t s[] = {110, 61, 52, 50, 59}; pb_answer_u16 r = pb_u16_read_decimal(s, 5, 1u, 4u); check("pb_u16_read_decimal", !r.ok && r.value == 0u); }
    { const uint8_t s[] = {110, 61, 52, 50, 59}; pb_answer_u16 r = pb_u16_read_decimal(s, 5, 2u, 6u); check("pb_u16_read_decimal", !r.ok && r.value == 0u); }
    { const uint8_t s[] = {110, 61, 52, 50, 59}; pb_answer_u16 r = pb_u16_read_decimal(s, 5, 4u, 2u); check("pb_u16_read_decimal", !r.ok && r.value == 0u); }
    { uint8_t s[] = {46, 46, 46, 46, 46, 46, 46}; pb_answer_usize r = pb_u16_write_decimal(65535u, s, 7, 1u); const uint8_t s_after[] = {46, 54, 53, 53, 51, 53, 46}; check("pb_u16_write_decimal", r.ok && r.value == 5u && memcmp(s, s_after, 7) == 0); }
    { uint8_t s[] = {46, 46, 46}; pb_answer_usize r = pb_u16_write_decimal(0u, s, 3, 1u); const uint8_t s_after[] = {46, 48, 46}; check("pb_u16_write_decimal", r.ok && r.value == 1u && memcmp(s, s_after, 3) == 0); }
    { uint8_t s[] = {46, 46}; pb_answer_usize r = pb_u16_write_decimal(10u, s, 2, 0u); const uint8_t s_after[] = {49, 48}; check("pb_u16_write_decimal", r.ok && r.value == 2u && memcmp(s, s_after, 2) == 0); }
    { uint8_t s[] = {46, 46, 46}; pb_answer_usize r = pb_u16_write_decimal(0u, s, 3, 2u); const uint8_t s_after[] = {46, 46, 48}; check("pb_u16_write_decimal", r.ok && r.value == 1u && memcmp(s, s_after, 3) == 0); }
    { uint8_t s[] = {46, 46, 46, 46, 46}; pb_answer_usize r = pb_u16_write_decimal(65535u, s, 5, 1u); const uint8_t s_after[] = {46, 46, 46, 46, 46}; check("pb_u16_write_decimal", !r.ok && r.value == 0u && memcmp(s, s_after, 5) == 0); }
    { uint8_t s[] = {46}; pb_answer_usize r = pb_u16_write_decimal(10u, s, 1, 0u); const uint8_t s_after[] = {46}; check("pb_u16_write_decimal", !r.ok && r.value == 0u && memcmp(s, s_after, 1) == 0); }
    { uint8_t s[] = {46}; pb_answer_usize r = pb_u16_write_decimal(7u, s, 1, 2u); const uint8_t s_after[] = {46}; check("pb_u16_write_decimal", !r.ok && r.value == 0u && memcmp(s, s_after, 1) == 0); }
}

static void of_u32(void)
{
    { uint32_t r = pb_u32_wrapping_add(4294967240u, 100u); check("pb_u32_wrapping_add", r == 44u); }
    { uint32_t r = pb_u32_wrapping_add(4294967140u, 100u); check("pb_u32_wrapping_add", r == 4294967240u); }
    { uint32_t r = pb_u32_wrapping_add_signed(3u, -5); check("pb_u32_wrapping_add_signed", r == 4294967294u); }
    { uint32_t r = pb_u32_wrapping_add_signed(4294967240u, -100); check("pb_u32_wrapping_add_signed", r == 4294967140u); }
    { uint32_t r = pb_u32_wrapping_add_signed(4294967240u, 100); check("pb_u32_wrapping_add_signed", r == 44u); }
    { uint32_t r = pb_u32_wrapping_sub(3u, 5u); check("pb_u32_wrapping_sub", r == 4294967294u); }
    { uint32_t r = pb_u32_wrapping_sub(5u, 3u); check("pb_u32_wrapping_sub", r == 2u); }
    { uint32_t r = pb_u32_wrapping_mul(65536u, 65537u); check("pb_u32_wrapping_mul", r == 65536u); }
    { uint32_t r = pb_u32_wrapping_mul(65535u, 65537u); check("pb_u32_wrapping_mul", r == 4294967295u); }
    { uint32_t r = pb_u32_wrapping_mul(65535u, 65535u); check("pb_u32_wrapping_mul", r == 4294836225u); }
    { uint32_t r = pb_u32_wrapping_shl(1u, 33u); check("pb_u32_wrapping_shl", r == 2u); }
    { uint32_t r = pb_u32_wrapping_shl(3u, 31u); check("pb_u32_wrapping_shl", r == 2147483648u); }
    { uint32_t r = pb_u32_wrapping_shr(2147483648u, 63u); check("pb_u32_wrapping_shr", r == 1u); }
    { pb_answer_u32 r = pb_u32_checked_add(4294967240u, 100u); check("pb_u32_checked_add", !r.ok && r.value == 0u); }
    { pb_answer_u32 r = pb_u32_checked_add(4294967140u, 100u); check("pb_u32_checked_add", r.ok && r.value == 4294967240u); }
    { pb_answer_u32 r = pb_u32_checked_add_signed(3u, -5); check("pb_u32_checked_add_signed", !r.ok && r.value == 0u); }
    { pb_answer_u32 r = pb_u32_checked_add_signed(4294967240u, -100); check("pb_u32_checked_add_signed", r.ok && r.value == 4294967140u); }
    { pb_answer_u32 r = pb_u32_checked_add_signed(4294967240u, 100); check("pb_u32_checked_add_signed", !r.ok && r.value == 0u); }
    { pb_answer_u32 r = pb_u32_checked_sub(3u, 5u); check("pb_u32_checked_sub", !r.ok && r.value == 0u); }
    { pb_answer_u32 r = pb_u32_checked_sub(5u, 3u); check("pb_u32_checked_sub", r.ok && r.value == 2u); }
    { pb_answer_u32 r = pb_u32_checked_mul(65536u, 65537u); check("pb_u32_checked_mul", !r.ok && r.value == 0u); }
    { pb_answer_u32 r = pb_u32_checked_mul(65535u, 65537u); check("pb_u32_checked_mul", r.ok && r.value == 4294967295u); }
    { pb_answer_u32 r = pb_u32_checked_mul(65535u, 65535u); check("pb_u32_checked_mul", r.ok && r.value == 4294836225u); }
    { pb_answer_u32 r = pb_u32_checked_next_multiple_of(4294967290u, 7u); check("pb_u32_checked_next_multiple_of", r.ok && r.value == 4294967292u); }
    { pb_answer_u32 r = pb_u32_checked_next_multiple_of(4294967290u, 16u); check("pb_u32_checked_next_multiple_of", !r.ok && r.value == 0u); }
    { pb_answer_u32 r = pb_u32_checked_next_multiple_of(7u, 0u); check("pb_u32_checked_next_multiple_of", !r.ok && r.value == 0u); }
    { pb_answer_u32 r = pb_u32_checked_div(7u, 3u); check("pb_u32_checked_div", r.ok && r.value == 2u); }
    { pb_answer_u32 r = pb_u32_checked_div(4294967295u, 10u); check("pb_u32_checked_div", r.ok && r.value == 429496729u); }
    { pb_answer_u32 r = pb_u32_checked_div(7u, 0u); check("pb_u32_checked_div", !r.ok && r.value == 0u); }
    { pb_answer_u32 r = pb_u32_checked_div_euclid(7u, 3u); check("pb_u32_checked_div_euclid", r.ok && r.value == 2u); }
    { pb_answer_u32 r = pb_u32_checked_div_euclid(4294967295u, 10u); check("pb_u32_checked_div_euclid", r.ok && r.value == 429496729u); }
    { pb_answer_u32 r = pb_u32_checked_div_euclid(7u, 0u); check("pb_u32_checked_div_euclid", !r.ok && r.value == 0u); }
    { pb_answer_u32 r = pb_u32_checked_rem(7u, 3u); check("pb_u32_checked_rem", r.ok && r.value == 1u); }
    { pb_answer_u32 r = pb_u32_checked_rem(4294967295u, 10u); check("pb_u32_checked_rem", r.ok && r.value == 5u); }
    { pb_answer_u32 r = pb_u32_checked_rem(7u, 0u); check("pb_u32_checked_rem", !r.ok && r.value == 0u); }
    { pb_answer_u32 r = pb_u32_checked_rem_euclid(7u, 3u); check("pb_u32_checked_rem_euclid", r.ok && r.value == 1u); }
    { pb_answer_u32 r = pb_u32_checked_rem_euclid(4294967295u, 10u); check("pb_u32_checked_rem_euclid", r.ok && r.value == 5u); }
    { pb_answer_u32 r = pb_u32_checked_rem_euclid(7u, 0u); check("pb_u32_checked_rem_euclid", !r.ok && r.value == 0u); }
    { uint32_t r = pb_u32_saturating_add(4294967240u, 100u); check("pb_u32_saturating_add", r == 4294967295u); }
    { uint32_t r = pb_u32_saturating_add(4294967140u, 100u); check("pb_u32_saturating_add", r == 4294967240u); }
    { uint32_t r = pb_u32_saturating_sub(3u, 5u); check("pb_u32_saturating_sub", r == 0u); }
    { uint32_t r = pb_u32_saturating_sub(5u, 3u); check("pb_u32_saturating_sub", r == 2u); }
    { uint32_t r = pb_u32_saturating_mul(65536u, 65537u); check("pb_u32_saturating_mul", r == 4294967295u); }
    { uint32_t r = pb_u32_saturating_mul(65535u, 65537u); check("pb_u32_saturating_mul", r == 4294967295u); }
    { uint32_t r = pb_u32_saturating_mul(65535u, 65535u); check("pb_u32_saturating_mul", r == 4294836225u); }
    { bool r = pb_u32_is_multiple_of(252u, 7u); check("pb_u32_is_multiple_of", r == true); }
    { bool r = pb_u32_is_multiple_of(250u, 7u); check("pb_u32_is_multiple_of", r == false); }
    { bool r = pb_u32_is_multiple_of(0u, 0u); check("pb_u32_is_multiple_of", r == true); }
    { bool r = pb_u32_is_multiple_of(7u, 0u); check("pb_u32_is_multiple_of", r == false); }
    { uint32_t r = pb_u32_clone(4294967295u); check("pb_u32_clone", r == 4294967295u); }
    { uint32_t r = pb_u32_clone(0u); check("pb_u32_clone", r == 0u); }
    { bool r = pb_u32_eq(3u, 5u); check("pb_u32_eq", r == false); }
    { bool r = pb_u32_eq(5u, 5u); check("pb_u32_eq", r == true); }
    { bool r = pb_u32_eq(4294967295u, 0u); check("pb_u32_eq", r == false); }
    { bool r = pb_u32_ne(3u, 5u); check("pb_u32_ne", r == true); }
    { bool r = pb_u32_ne(5u, 5u); check("pb_u32_ne", r == false); }
    { bool r = pb_u32_ne(4294967295u, 0u); check("pb_u32_ne", r == true); }
    { bool r = pb_u32_lt(3u, 5u); check("pb_u32_lt", r == true); }
    { bool r = pb_u32_lt(5u, 5u); check("pb_u32_lt", r == false); }
    { bool r = pb_u32_lt(4294967295u, 0u); check("pb_u32_lt", r == false); }
    { bool r = pb_u32_le(3u, 5u); check("pb_u32_le", r == true); }
    { bool r = pb_u32_le(5u, 5u); check("pb_u32_le", r == true); }
    { bool r = pb_u32_le(4294967295u, 0u); check("pb_u32_le", r == false); }
    { bool r = pb_u32_gt(3u, 5u); check("pb_u32_gt", r == false); }
    { bool r = pb_u32_gt(5u, 5u); check("pb_u32_gt", r == false); }
    { bool r = pb_u32_gt(4294967295u, 0u); check("pb_u32_gt", r == true); }
    { bool r = pb_u32_ge(3u, 5u); check("pb_u32_ge", r == false); }
    { bool r = pb_u32_ge(5u, 5u); check("pb_u32_ge", r == true); }
    { bool r = pb_u32_ge(4294967295u, 0u); check("pb_u32_ge", r == true); }
    { int8_t r = pb_u32_cmp(3u, 5u); check("pb_u32_cmp", r == -1); }
    { int8_t r = pb_u32_cmp(5u, 5u); check("pb_u32_cmp", r == 0); }
    { int8_t r = pb_u32_cmp(4294967295u, 0u); check("pb_u32_cmp", r == 1); }
    { pb_answer_i8 r = pb_u32_partial_cmp(3u, 5u); check("pb_u32_partial_cmp", r.ok && r.value == -1); }
    { pb_answer_i8 r = pb_u32_partial_cmp(5u, 5u); check("pb_u32_partial_cmp", r.ok && r.value == 0); }
    { pb_answer_i8 r = pb_u32_partial_cmp(4294967295u, 0u); check("pb_u32_partial_cmp", r.ok && r.value == 1); }
    { uint32_t r = pb_u32_leading_zeros(80u); check("pb_u32_leading_zeros", r == 25u); }
    { uint32_t r = pb_u32_leading_zeros(247u); check("pb_u32_leading_zeros", r == 24u); }
    { uint32_t r = pb_u32_leading_zeros(0u); check("pb_u32_leading_zeros", r == 32u); }
    { uint32_t r = pb_u32_leading_zeros(4294967295u); check("pb_u32_leading_zeros", r == 0u); }
    { uint32_t r = pb_u32_leading_ones(80u); check("pb_u32_leading_ones", r == 0u); }
    { uint32_t r = pb_u32_leading_ones(247u); check("pb_u32_leading_ones", r == 0u); }
    { uint32_t r = pb_u32_leading_ones(0u); check("pb_u32_leading_ones", r == 0u); }
    { uint32_t r = pb_u32_leading_ones(4294967295u); check("pb_u32_leading_ones", r == 32u); }
    { uint32_t r = pb_u32_trailing_zeros(80u); check("pb_u32_trailing_zeros", r == 4u); }
    { uint32_t r = pb_u32_trailing_zeros(247u); check("pb_u32_trailing_zeros", r == 0u); }
    { uint32_t r = pb_u32_trailing_zeros(0u); check("pb_u32_trailing_zeros", r == 32u); }
    { uint32_t r = pb_u32_trailing_zeros(4294967295u); check("pb_u32_trailing_zeros", r == 0u); }
    { uint32_t r = pb_u32_trailing_ones(80u); check("pb_u32_trailing_ones", r == 0u); }
    { uint32_t r = pb_u32_trailing_ones(247u); check("pb_u32_trailing_ones", r == 3u); }
    { uint32_t r = pb_u32_trailing_ones(0u); check("pb_u32_trailing_ones", r == 0u); }
    { uint32_t r = pb_u32_trailing_ones(4294967295u); check("pb_u32_trailing_ones", r == 32u); }
    { const uint8_t s[] = {4, 3, 2, 1}; pb_answer_u32 r = pb_u32_from_le_bytes(s, 4); check("pb_u32_from_le_bytes", r.ok && r.value == 16909060u); }
    { const uint8_t s[] = {3, 2, 1}; pb_answer_u32 r = pb_u32_from_le_bytes(s, 3); check("pb_u32_from_le_bytes", !r.ok && r.value == 0u); }
    { uint8_t s[] = {0, 0, 0, 0, 0}; bool r = pb_u32_to_le_bytes(16909060u, s, 5, 1u); const uint8_t s_after[] = {0, 4, 3, 2, 1}; check("pb_u32_to_le_bytes", r == true && memcmp(s, s_after, 5) == 0); }
    { uint8_t s[] = {0, 0, 0, 0, 0}; bool r = pb_u32_to_le_bytes(16909060u, s, 5, 2u); const uint8_t s_after[] = {0, 0, 0, 0, 0}; check("pb_u32_to_le_bytes", r == false && memcmp(s, s_after, 5) == 0); }
    { const uint8_t s[] = {1, 2, 3, 4}; pb_answer_u32 r = pb_u32_from_be_bytes(s, 4); check("pb_u32_from_be_bytes", r.ok && r.value == 16909060u); }
    { const uint8_t s[] = {2, 3, 4}; pb_answer_u32 r = pb_u32_from_be_bytes(s, 3); check("pb_u32_from_be_bytes", !r.ok && r.value == 0u); }
    { uint8_t s[] = {0, 0, 0, 0, 0}; bool r = pb_u32_to_be_bytes(16909060u, s, 5, 1u); const uint8_t s_after[] = {0, 1, 2, 3, 4}; check("pb_u32_to_be_bytes", r == true && memcmp(s, s_after, 5) == 0); }
    { uint8_t s[] = {0, 0, 0, 0, 0}; bool r = pb_u32_to_be_bytes(16909060u, s, 5, 2u); const uint8_t s_after[] = {0, 0, 0, 0, 0}; check("pb_u32_to_be_bytes", r == false && memcmp(s, s_after, 5) == 0); }
    { const uint8_t s[] = {52, 50, 57, 52, 57, 54, 55, 50, 57, 53}; pb_answer_u32 r = pb_u32_read_decimal(s, 10, 0u, 10u); check("pb_u32_read_decimal", r.ok && r.value == 4294967295u); }
    { const uint8_t s[] = {52, 50, 57, 52, 57, 54, 55, 50, 57, 54}; pb_answer_u32 r = pb_u32_read_decimal(s, 10, 0u, 10u); check("pb_u32_read_decimal", !r.ok && r.value == 0u); }
    { const uint8_t s[] = {48}; pb_answer_u32 r = pb_u32_read_decimal(s, 1, 0u, 1u); check("pb_u32_read_decimal", r.ok && r.value == 0u); }
    { const uint8_t s[] = {45, 49}; pb_answer_u32 r = pb_u32_read_decimal(s, 2, 0u, 2u); check("pb_u32_read_decimal", !r.ok && r.value == 0u); }
    { const uint8_t s[] = {48, 48, 55}; pb_answer_u32 r = pb_u32_read_decimal(s, 3, 0u, 3u); check("pb_u32_read_decimal", r.ok && r.value == 7u); }
    { const uint8_t s[] = {45, 48}; pb_answer_u32 r = pb_u32_read_decimal(s, 2, 0u, 2u); check("pb_u32_read_decimal", !r.ok && r.value == 0u); }
    { const uint8_t s[] = {43, 53}; pb_answer_u32 r = pb_u32_read_decimal(s, 2, 0u, 2u); check("pb_u32_read_decimal", !r.ok && r.value == 0u); }
    { const uint8_t s[] = {45}; pb_answer_u32 r = pb_u32_read_decimal(s, 1, 0u, 1u); check("pb_u32_read_decimal", !r.ok && r.value == 0u); }
    { const uint8_t s[] = {0}; pb_answer_u32 r = pb_u32_read_decimal(s, 0, 0u, 0u); check("pb_u32_read_decimal", !r.ok && r.value == 0u); }
    { const uint8_t s[] = {110, 61, 52, 50, 59}; pb_answer_u32 r = pb_u32_read_decimal(s, 5, 2u, 4u); check("pb_u32_read_decimal", r.ok && r.value == 42u); }
    { const uint8_t s[] = {110, 61, 52, 50, 59}; pb_answer_u32 r = pb_u32_read_decimal(s, 5, 1u, 4u); check("pb_u32_read_decimal", !r.ok && r.value == 0u); }
    { const uint8_t s[] = {110, 61, 52, 50, 59}; pb_answer_u32 r = pb_u32_read_decimal(s, 5, 2u, 6u); check("pb_u32_read_decimal", !r.ok && r.value == 0u); }
    { const uint8_t s[] = {110, 61, 52, 50, 59}; pb_answer_u32 r = pb_u32_read_decimal(s, 5, 4u, 2u); check("pb_u32_read_decimal", !r.ok && r.value == 0u); }
    { uint8_t s[] = {46, 46, 46, 46, 46, 46, 46, 46, 46, 46, 46, 46}; pb_answer_usize r = pb_u32_write_decimal(4294967295u, s, 12, 1u); const uint8_t s_after[] = {46, 52, 50, 57, 52, 57, 54, 55, 50, 57, 53, 46}; check("pb_u32_write_decimal", r.ok && r.value == 10u && memcmp(s, s_after, 12) == 0); }
    { uint8_t s[] = {46, 46, 46}; pb_answer_usize r = pb_u32_write_decimal(0u, s, 3, 1u); const uint8_t s_after[] = {46, 48, 46}; check("pb_u32_write_decimal", r.ok && r.value == 1u && memcmp(s, s_after, 3) == 0); }
    { uint8_t s[] = {46, 46}; pb_answer_usize r = pb_u32_write_decimal(10u, s, 2, 0u); const uint8_t s_after[] = {49, 48}; check("pb_u32_write_decimal", r.ok && r.value == 2u && memcmp(s, s_after, 2) == 0); }
    { uint8_t s[] = {46, 46, 46}; pb_answer_usize r = pb_u32_write_decimal(0u, s, 3, 2u); const uint8_t s_after[] = {46, 46, 48}; check("pb_u32_write_decimal", r.ok && r.value == 1u && memcmp(s, s_after, 3) == 0); }
    { uint8_t s[] = {46, 46, 46, 46, 46, 46, 46, 46, 46, 46}; pb_answer_usize r = pb_u32_write_decimal(4294967295u, s, 10, 1u); const uint8_t s_after[] = {46, 46, 46, 46, 46, 46, 46, 46, 46, 46}; check("pb_u32_write_decimal", !r.ok && r.value == 0u && memcmp(s, s_after, 10) == 0); }
    { uint8_t s[] = {46}; pb_answer_usize r = pb_u32_write_decimal(10u, s, 1, 0u); const uint8_t s_after[] = {46}; check("pb_u32_write_decimal", !r.ok && r.value == 0u && memcmp(s, s_after, 1) == 0); }
    { uint8_t s[] = {46}; pb_answer_usize r = pb_u32_write_decimal(7u, s, 1, 2u); const uint8_t s_after[] = {46}; check("pb_u32_write_decimal", !r.ok && r.value == 0u && memcmp(s, s_after, 1) == 0); }
}

static void of_u64(void)
{
    { uint64_t r = pb_u64_wrapping_add(18446744073709551560u, 100u); check("pb_u64_wrapping_add", r == 44u); }
    { uint64_t r = pb_u64_wrapping_add(18446744073709551460u, 100u); check("pb_u64_wrapping_add", r == 18446744073709551560u); }
    { uint64_t r = pb_u64_wrapping_add_signed(3u, -5); check("pb_u64_wrapping_add_signed", r == 18446744073709551614u); }
    { uint64_t r = pb_u64_wrapping_add_signed(18446744073709551560u, -100); check("pb_u64_wrapping_add_signed", r == 18446744073709551460u); }
    { uint64_t r = pb_u64_wrapping_add_signed(18446744073709551560u, 100); check("pb_u64_wrapping_add_signed", r == 44u); }
    { uint64_t r = pb_u64_wrapping_sub(3u, 5u); check("pb_u64_wrapping_sub", r == 18446744073709551614u); }
    { uint64_t r = pb_u64_wrapping_sub(5u, 3u); check("pb_u64_wrapping_sub", r == 2u); }
    { uint64_t r = pb_u64_wrapping_mul(4294967296u, 4294967297u); check("pb_u64_wrapping_mul", r == 4294967296u); }
    { uint64_t r = pb_u64_wrapping_mul(4294967295u, 4294967297u); check("pb_u64_wrapping_mul", r == 18446744073709551615u); }
    { uint64_t r = pb_u64_wrapping_mul(4294967295u, 4294967295u); check("pb_u64_wrapping_mul", r == 18446744065119617025u); }
    { uint64_t r = pb_u64_wrapping_shl(1u, 65u); check("pb_u64_wrapping_shl", r == 2u); }
    { uint64_t r = pb_u64_wrapping_shl(3u, 63u); check("pb_u64_wrapping_shl", r == 9223372036854775808u); }
    { uint64_t r = pb_u64_wrapping_shr(9223372036854775808u, 127u); check("pb_u64_wrapping_shr", r == 1u); }
    { pb_answer_u64 r = pb_u64_checked_add(18446744073709551560u, 100u); check("pb_u64_checked_add", !r.ok && r.value == 0u); }
    { pb_answer_u64 r = pb_u64_checked_add(18446744073709551460u, 100u); check("pb_u64_checked_add", r.ok && r.value == 18446744073709551560u); }
    { pb_answer_u64 r = pb_u64_checked_add_signed(3u, -5); check("pb_u64_checked_add_signed", !r.ok && r.value == 0u); }
    { pb_answer_u64 r = pb_u64_checked_add_signed(18446744073709551560u, -100); check("pb_u64_checked_add_signed", r.ok && r.value == 18446744073709551460u); }
    { pb_answer_u64 r = pb_u64_checked_add_signed(18446744073709551560u, 100); check("pb_u64_checked_add_signed", !r.ok && r.value == 0u); }
    { pb_answer_u64 r = pb_u64_checked_sub(3u, 5u); check("pb_u64_checked_sub", !r.ok && r.value == 0u); }
    { pb_answer_u64 r = pb_u64_checked_sub(5u, 3u); check("pb_u64_checked_sub", r.ok && r.value == 2u); }
    { pb_answer_u64 r = pb_u64_checked_mul(4294967296u, 4294967297u); check("pb_u64_checked_mul", !r.ok && r.value == 0u); }
    { pb_answer_u64 r = pb_u64_checked_mul(4294967295u, 4294967297u); check("pb_u64_checked_mul", r.ok && r.value == 18446744073709551615u); }
    { pb_answer_u64 r = pb_u64_checked_mul(4294967295u, 4294967295u); check("pb_u64_checked_mul", r.ok && r.value == 18446744065119617025u); }
    { pb_answer_u64 r = pb_u64_checked_next_multiple_of(18446744073709551610u, 7u); check("pb_u64_checked_next_multiple_of", r.ok && r.value == 18446744073709551614u); }
    { pb_answer_u64 r = pb_u64_checked_next_multiple_of(18446744073709551610u, 16u); check("pb_u64_checked_next_multiple_of", !r.ok && r.value == 0u); }
    { pb_answer_u64 r = pb_u64_checked_next_multiple_of(7u, 0u); check("pb_u64_checked_next_multiple_of", !r.ok && r.value == 0u); }
    { pb_answer_u64 r = pb_u64_checked_div(7u, 3u); check("pb_u64_checked_div", r.ok && r.value == 2u); }
    { pb_answer_u64 r = pb_u64_checked_div(18446744073709551615u, 10u); check("pb_u64_checked_div", r.ok && r.value == 1844674407370955161u); }
    { pb_answer_u64 r = pb_u64_checked_div(7u, 0u); check("pb_u64_checked_div", !r.ok && r.value == 0u); }
    { pb_answer_u64 r = pb_u64_checked_div_euclid(7u, 3u); check("pb_u64_checked_div_euclid", r.ok && r.value == 2u); }
    { pb_answer_u64 r = pb_u64_checked_div_euclid(18446744073709551615u, 10u); check("pb_u64_checked_div_euclid", r.ok && r.value == 1844674407370955161u); }
    { pb_answer_u64 r = pb_u64_checked_div_euclid(7u, 0u); check("pb_u64_checked_div_euclid", !r.ok && r.value == 0u); }
    { pb_answer_u64 r = pb_u64_checked_rem(7u, 3u); check("pb_u64_checked_rem", r.ok && r.value == 1u); }
    { pb_answer_u64 r = pb_u64_checked_rem(18446744073709551615u, 10u); check("pb_u64_checked_rem", r.ok && r.value == 5u); }
    { pb_answer_u64 r = pb_u64_checked_rem(7u, 0u); check("pb_u64_checked_rem", !r.ok && r.value == 0u); }
    { pb_answer_u64 r = pb_u64_checked_rem_euclid(7u, 3u); check("pb_u64_checked_rem_euclid", r.ok && r.value == 1u); }
    { pb_answer_u64 r = pb_u64_checked_rem_euclid(18446744073709551615u, 10u); check("pb_u64_checked_rem_euclid", r.ok && r.value == 5u); }
    { pb_answer_u64 r = pb_u64_checked_rem_euclid(7u, 0u); check("pb_u64_checked_rem_euclid", !r.ok && r.value == 0u); }
    { uint64_t r = pb_u64_saturating_add(18446744073709551560u, 100u); check("pb_u64_saturating_add", r == 18446744073709551615u); }
    { uint64_t r = pb_u64_saturating_add(18446744073709551460u, 100u); check("pb_u64_saturating_add", r == 18446744073709551560u); }
    { uint64_t r = pb_u64_saturating_sub(3u, 5u); check("pb_u64_saturating_sub", r == 0u); }
    { uint64_t r = pb_u64_saturating_sub(5u, 3u); check("pb_u64_saturating_sub", r == 2u); }
    { uint64_t r = pb_u64_saturating_mul(4294967296u, 4294967297u); check("pb_u64_saturating_mul", r == 18446744073709551615u); }
    { uint64_t r = pb_u64_saturating_mul(4294967295u, 4294967297u); check("pb_u64_saturating_mul", r == 18446744073709551615u); }
    { uint64_t r = pb_u64_saturating_mul(4294967295u, 4294967295u); check("pb_u64_saturating_mul", r == 18446744065119617025u); }
    { bool r = pb_u64_is_multiple_of(252u, 7u); check("pb_u64_is_multiple_of", r == true); }
    { bool r = pb_u64_is_multiple_of(250u, 7u); check("pb_u64_is_multiple_of", r == false); }
    { bool r = pb_u64_is_multiple_of(0u, 0u); check("pb_u64_is_multiple_of", r == true); }
    { bool r = pb_u64_is_multiple_of(7u, 0u); check("pb_u64_is_multiple_of", r == false); }
    { uint64_t r = pb_u64_clone(18446744073709551615u); check("pb_u64_clone", r == 18446744073709551615u); }
    { uint64_t r = pb_u64_clone(0u); check("pb_u64_clone", r == 0u); }
    { bool r = pb_u64_eq(3u, 5u); check("pb_u64_eq", r == false); }
    { bool r = pb_u64_eq(5u, 5u); check("pb_u64_eq", r == true); }
    { bool r = pb_u64_eq(18446744073709551615u, 0u); check("pb_u64_eq", r == false); }
    { bool r = pb_u64_ne(3u, 5u); check("pb_u64_ne", r == true); }
    { bool r = pb_u64_ne(5u, 5u); check("pb_u64_ne", r == false); }
    { bool r = pb_u64_ne(18446744073709551615u, 0u); check("pb_u64_ne", r == true); }
    { bool r = pb_u64_lt(3u, 5u); check("pb_u64_lt", r == true); }
    { bool r = pb_u64_lt(5u, 5u); check("pb_u64_lt", r == false); }
    { bool r = pb_u64_lt(18446744073709551615u, 0u); check("pb_u64_lt", r == false); }
    { bool r = pb_u64_le(3u, 5u); check("pb_u64_le", r == true); }
    { bool r = pb_u64_le(5u, 5u); check("pb_u64_le", r == true); }
    { bool r = pb_u64_le(18446744073709551615u, 0u); check("pb_u64_le", r == false); }
    { bool r = pb_u64_gt(3u, 5u); check("pb_u64_gt", r == false); }
    { bool r = pb_u64_gt(5u, 5u); check("pb_u64_gt", r == false); }
    { bool r = pb_u64_gt(18446744073709551615u, 0u); check("pb_u64_gt", r == true); }
    { bool r = pb_u64_ge(3u, 5u); check("pb_u64_ge", r == false); }
    { bool r = pb_u64_ge(5u, 5u); check("pb_u64_ge", r == true); }
    { bool r = pb_u64_ge(18446744073709551615u, 0u); check("pb_u64_ge", r == true); }
    { int8_t r = pb_u64_cmp(3u, 5u); check("pb_u64_cmp", r == -1); }
    { int8_t r = pb_u64_cmp(5u, 5u); check("pb_u64_cmp", r == 0); }
    { int8_t r = pb_u64_cmp(18446744073709551615u, 0u); check("pb_u64_cmp", r == 1); }
    { pb_answer_i8 r = pb_u64_partial_cmp(3u, 5u); check("pb_u64_partial_cmp", r.ok && r.value == -1); }
    { pb_answer_i8 r = pb_u64_partial_cmp(5u, 5u); check("pb_u64_partial_cmp", r.ok && r.value == 0); }
    { pb_answer_i8 r = pb_u64_partial_cmp(18446744073709551615u, 0u); check("pb_u64_partial_cmp", r.ok && r.value == 1); }
    { uint32_t r = pb_u64_leading_zeros(80u); check("pb_u64_leading_zeros", r == 57u); }
    { uint32_t r = pb_u64_leading_zeros(247u); check("pb_u64_leading_zeros", r == 56u); }
    { uint32_t r = pb_u64_leading_zeros(0u); check("pb_u64_leading_zeros", r == 64u); }
    { uint32_t r = pb_u64_leading_zeros(18446744073709551615u); check("pb_u64_leading_zeros", r == 0u); }
    { uint32_t r = pb_u64_leading_ones(80u); check("pb_u64_leading_ones", r == 0u); }
    { uint32_t r = pb_u64_leading_ones(247u); check("pb_u64_leading_ones", r == 0u); }
    { uint32_t r = pb_u64_leading_ones(0u); check("pb_u64_leading_ones", r == 0u); }
    { uint32_t r = pb_u64_leading_ones(18446744073709551615u); check("pb_u64_leading_ones", r == 64u); }
    { uint32_t r = pb_u64_trailing_zeros(80u); check("pb_u64_trailing_zeros", r == 4u); }
    { uint32_t r = pb_u64_trailing_zeros(247u); check("pb_u64_trailing_zeros", r == 0u); }
    { uint32_t r = pb_u64_trailing_zeros(0u); check("pb_u64_trailing_zeros", r == 64u); }
    { uint32_t r = pb_u64_trailing_zeros(18446744073709551615u); check("pb_u64_trailing_zeros", r == 0u); }
    { uint32_t r = pb_u64_trailing_ones(80u); check("pb_u64_trailing_ones", r == 0u); }
    { uint32_t r = pb_u64_trailing_ones(247u); check("pb_u64_trailing_ones", r == 3u); }
    { uint32_t r = pb_u64_trailing_ones(0u); check("pb_u64_trailing_ones", r == 0u); }
    { uint32_t r = pb_u64_trailing_ones(18446744073709551615u); check("pb_u64_trailing_ones", r == 64u); }
    { const uint8_t s[] = {8, 7, 6, 5, 4, 3, 2, 1}; pb_answer_u64 r = pb_u64_from_le_bytes(s, 8); check("pb_u64_from_le_bytes", r.ok && r.value == 72623859790382856u); }
    { const uint8_t s[] = {7, 6, 5, 4, 3, 2, 1}; pb_answer_u64 r = pb_u64_from_le_bytes(s, 7); check("pb_u64_from_le_bytes", !r.ok && r.value == 0u); }
    { uint8_t s[] = {0, 0, 0, 0, 0, 0, 0, 0, 0}; bool r = pb_u64_to_le_bytes(72623859790382856u, s, 9, 1u); const uint8_t s_after[] = {0, 8, 7, 6, 5, 4, 3, 2, 1}; check("pb_u64_to_le_bytes", r == true && memcmp(s, s_after, 9) == 0); }
    { uint8_t s[] = {0, 0, 0, 0, 0, 0, 0, 0, 0}; bool r = pb_u64_to_le_bytes(72623859790382856u, s, 9, 2u); const uint8_t s_after[] = {0, 0, 0, 0, 0, 0, 0, 0, 0}; check("pb_u64_to_le_bytes", r == false && memcmp(s, s_after, 9) == 0); }
    { const uint8_t s[] = {1, 2, 3, 4, 5, 6, 7, 8}; pb_answer_u64 r = pb_u64_from_be_bytes(s, 8); check("pb_u64_from_be_bytes", r.ok && r.value == 72623859790382856u); }
    { const uint8_t s[] = {2, 3, 4, 5, 6, 7, 8}; pb_answer_u64 r = pb_u64_from_be_bytes(s, 7); check("pb_u64_from_be_bytes", !r.ok && r.value == 0u); }
    { uint8_t s[] = {0, 0, 0, 0, 0, 0, 0, 0, 0}; bool r = pb_u64_to_be_bytes(72623859790382856u, s, 9, 1u); const uint8_t s_after[] = {0, 1, 2, 3, 4, 5, 6, 7, 8}; check("pb_u64_to_be_bytes", r == true && memcmp(s, s_after, 9) == 0); }
    { uint8_t s[] = {0, 0, 0, 0, 0, 0, 0, 0, 0}; bool r = pb_u64_to_be_bytes(72623859790382856u, s, 9, 2u); const uint8_t s_after[] = {0, 0, 0, 0, 0, 0, 0, 0, 0}; check("pb_u64_to_be_bytes", r == false && memcmp(s, s_after, 9) == 0); }
    { const uint8_t s[] = {49, 56, 52, 52, 54, 55, 52, 52, 48, 55, 51, 55, 48, 57, 53, 53, 49, 54, 49, 53}; pb_answer_u64 r = pb_u64_read_decimal(s, 20, 0u, 20u); check("pb_u64_read_decimal", r.ok && r.value == 18446744073709551615u); }
    { const uint8_t s[] = {49, 56, 52, 52, 54, 55, 52, 52, 48, 55, 51, 55, 48, 57, 53, 53, 49, 54, 49, 54}; pb_answer_u64 r = pb_u64_read_decimal(s, 20, 0u, 20u); check("pb_u64_read_decimal", !r.ok && r.value == 0u); }
    { const uint8_t s[] = {48}; pb_answer_u64 r = pb_u64_read_decimal(s, 1, 0u, 1u); check("pb_u64_read_decimal", r.ok && r.value == 0u); }
    { const uint8_t s[] = {45, 49}; pb_answer_u64 r = pb_u64_read_decimal(s, 2, 0u, 2u); check("pb_u64_read_decimal", !r.ok && r.value == 0u); }
    { const uint8_t s[] = {48, 48, 55}; pb_answer_u64 r = pb_u64_read_decimal(s, 3, 0u, 3u); check("pb_u64_read_decimal", r.ok && r.value == 7u); }
    { const uint8_t s[] = {45, 48}; pb_answer_u64 r = pb_u64_read_decimal(s, 2, 0u, 2u); check("pb_u64_read_decimal", !r.ok && r.value == 0u); }
    { const uint8_t s[] = {43, 53}; pb_answer_u64 r = pb_u64_read_decimal(s, 2, 0u, 2u); check("pb_u64_read_decimal", !r.ok && r.value == 0u); }
    { const uint8_t s[] = {45}; pb_answer_u64 r = pb_u64_read_decimal(s, 1, 0u, 1u); check("pb_u64_read_decimal", !r.ok && r.value == 0u); }
    { const uint8_t s[] = {0}; pb_answer_u64 r = pb_u64_read_decimal(s, 0, 0u, 0u); check("pb_u64_read_decimal", !r.ok && r.value == 0u); }
    { const uint8_t s[] = {110, 61, 52, 50, 59}; pb_answer_u64 r = pb_u64_read_decimal(s, 5, 2u, 4u); check("pb_u64_read_decimal", r.ok && r.value == 42u); }
    { const uint8_t s[] = {110, 61, 52, 50, 59}; pb_answer_u64 r = pb_u64_read_decimal(s, 5, 1u, 4u); check("pb_u64_read_decimal", !r.ok && r.value == 0u); }
    { const uint8_t s[] = {110, 61, 52, 50, 59}; pb_answer_u64 r = pb_u64_read_decimal(s, 5, 2u, 6u); check("pb_u64_read_decimal", !r.ok && r.value == 0u); }
    { const uint8_t s[] = {110, 61, 52, 50, 59}; pb_answer_u64 r = pb_u64_read_decimal(s, 5, 4u, 2u); check("pb_u64_read_decimal", !r.ok && r.value == 0u); }
    { uint8_t s[] = {46, 46, 46, 46, 46, 46, 46, 46, 46, 46, 46, 46, 46, 46, 46, 46, 46, 46, 46, 46, 46, 46}; pb_answer_usize r = pb_u64_write_decimal(18446744073709551615u, s, 22, 1u); const uint8_t s_after[] = {46, 49, 56, 52, 52, 54, 55, 52, 52, 48, 55, 51, 55, 48, 57, 53, 53, 49, 54, 49, 53, 46}; check("pb_u64_write_decimal", r.ok && r.value == 20u && memcmp(s, s_after, 22) == 0); }
    { uint8_t s[] = {46, 46, 46}; pb_answer_usize r = pb_u64_write_decimal(0u, s, 3, 1u); const uint8_t s_after[] = {46, 48, 46}; check("pb_u64_write_decimal", r.ok && r.value == 1u && memcmp(s, s_after, 3) == 0); }
    { uint8_t s[] = {46, 46}; pb_answer_usize r = pb_u64_write_decimal(10u, s, 2, 0u); const uint8_t s_after[] = {49, 48}; check("pb_u64_write_decimal", r.ok && r.value == 2u && memcmp(s, s_after, 2) == 0); }
    { uint8_t s[] = {46, 46, 46}; pb_answer_usize r = pb_u64_write_decimal(0u, s, 3, 2u); const uint8_t s_after[] = {46, 46, 48}; check("pb_u64_write_decimal", r.ok && r.value == 1u && memcmp(s, s_after, 3) == 0); }
    { uint8_t s[] = {46, 46, 46, 46, 46, 46, 46, 46, 46, 46, 46, 46, 46, 46, 46, 46, 46, 46, 46, 46}; pb_answer_usize r = pb_u64_write_decimal(18446744073709551615u, s, 20, 1u); const uint8_t s_after[] = {46, 46, 46, 46, 46, 46, 46, 46, 46, 46, 46, 46, 46, 46, 46, 46, 46, 46, 46, 46}; check("pb_u64_write_decimal", !r.ok && r.value == 0u && memcmp(s, s_after, 20) == 0); }
    { uint8_t s[] = {46}; pb_answer_usize r = pb_u64_write_decimal(10u, s, 1, 0u); const uint8_t s_after[] = {46}; check("pb_u64_write_decimal", !r.ok && r.value == 0u && memcmp(s, s_after, 1) == 0); }
    { uint8_t s[] = {46}; pb_answer_usize r = pb_u64_write_decimal(7u, s, 1, 2u); const uint8_t s_after[] = {46}; check("pb_u64_write_decimal", !r.ok && r.value == 0u && memcmp(s, s_after, 1) == 0); }
}

static void of_usize(void)
{
    { size_t r = pb_usize_wrapping_add(18446744073709551560u, 100u); check("pb_usize_wrapping_add", r == 44u); }
    { size_t r = pb_usize_wrapping_add(18446744073709551460u, 100u); check("pb_usize_wrapping_add", r == 18446744073709551560u); }
    { size_t r = pb_usize_wrapping_add_signed(3u, -5); check("pb_usize_wrapping_add_signed", r == 18446744073709551614u); }
    { size_t r = pb_usize_wrapping_add_signed(18446744073709551560u, -100); check("pb_usize_wrapping_add_signed", r == 18446744073709551460u); }
    { size_t r = pb_usize_wrapping_add_signed(18446744073709551560u, 100); check("pb_usize_wrapping_add_signed", r == 44u); }
    { size_t r = pb_usize_wrapping_sub(3u, 5u); check("pb_usize_wrapping_sub", r == 18446744073709551614u); }
    { size_t r = pb_usize_wrapping_sub(5u, 3u); check("pb_usize_wrapping_sub", r == 2u); }
    { size_t r = pb_usize_wrapping_mul(4294967296u, 4294967297u); check("pb_usize_wrapping_mul", r == 4294967296u); }
    { size_t r = pb_usize_wrapping_mul(4294967295u, 4294967297u); check("pb_usize_wrapping_mul", r == 18446744073709551615u); }
    { size_t r = pb_usize_wrapping_mul(4294967295u, 4294967295u); check("pb_usize_wrapping_mul", r == 18446744065119617025u); }
    { size_t r = pb_usize_wrapping_shl(1u, 65u); check("pb_usize_wrapping_shl", r == 2u); }
    { size_t r = pb_usize_wrapping_shl(3u, 63u); check("pb_usize_wrapping_shl", r == 9223372036854775808u); }
    { size_t r = pb_usize_wrapping_shr(9223372036854775808u, 127u); check("pb_usize_wrapping_shr", r == 1u); }
    { pb_answer_usize r = pb_usize_checked_add(18446744073709551560u, 100u); check("pb_usize_checked_add", !r.ok && r.value == 0u); }
    { pb_answer_usize r = pb_usize_checked_add(18446744073709551460u, 100u); check("pb_usize_checked_add", r.ok && r.value == 18446744073709551560u); }
    { pb_answer_usize r = pb_usize_checked_add_signed(3u, -5); check("pb_usize_checked_add_signed", !r.ok && r.value == 0u); }
    { pb_answer_usize r = pb_usize_checked_add_signed(18446744073709551560u, -100); check("pb_usize_checked_add_signed", r.ok && r.value == 18446744073709551460u); }
    { pb_answer_usize r = pb_usize_checked_add_signed(18446744073709551560u, 100); check("pb_usize_checked_add_signed", !r.ok && r.value == 0u); }
    { pb_answer_usize r = pb_usize_checked_sub(3u, 5u); check("pb_usize_checked_sub", !r.ok && r.value == 0u); }
    { pb_answer_usize r = pb_usize_checked_sub(5u, 3u); check("pb_usize_checked_sub", r.ok && r.value == 2u); }
    { pb_answer_usize r = pb_usize_checked_mul(4294967296u, 4294967297u); check("pb_usize_checked_mul", !r.ok && r.value == 0u); }
    { pb_answer_usize r = pb_usize_checked_mul(4294967295u, 4294967297u); check("pb_usize_checked_mul", r.ok && r.value == 18446744073709551615u); }
    { pb_answer_usize r = pb_usize_checked_mul(4294967295u, 4294967295u); check("pb_usize_checked_mul", r.ok && r.value == 18446744065119617025u); }
    { pb_answer_usize r = pb_usize_checked_next_multiple_of(18446744073709551610u, 7u); check("pb_usize_checked_next_multiple_of", r.ok && r.value == 18446744073709551614u); }
    { pb_answer_usize r = pb_usize_checked_next_multiple_of(18446744073709551610u, 16u); check("pb_usize_checked_next_multiple_of", !r.ok && r.value == 0u); }
    { pb_answer_usize r = pb_usize_checked_next_multiple_of(7u, 0u); check("pb_usize_checked_next_multiple_of", !r.ok && r.value == 0u); }
    { pb_answer_usize r = pb_usize_checked_div(7u, 3u); check("pb_usize_checked_div", r.ok && r.value == 2u); }
    { pb_answer_usize r = pb_usize_checked_div(18446744073709551615u, 10u); check("pb_usize_checked_div", r.ok && r.value == 1844674407370955161u); }
    { pb_answer_usize r = pb_usize_checked_div(7u, 0u); check("pb_usize_checked_div", !r.ok && r.value == 0u); }
    { pb_answer_usize r = pb_usize_checked_div_euclid(7u, 3u); check("pb_usize_checked_div_euclid", r.ok && r.value == 2u); }
    { pb_answer_usize r = pb_usize_checked_div_euclid(18446744073709551615u, 10u); check("pb_usize_checked_div_euclid", r.ok && r.value == 1844674407370955161u); }
    { pb_answer_usize r = pb_usize_checked_div_euclid(7u, 0u); check("pb_usize_checked_div_euclid", !r.ok && r.value == 0u); }
    { pb_answer_usize r = pb_usize_checked_rem(7u, 3u); check("pb_usize_checked_rem", r.ok && r.value == 1u); }
    { pb_answer_usize r = pb_usize_checked_rem(18446744073709551615u, 10u); check("pb_usize_checked_rem", r.ok && r.value == 5u); }
    { pb_answer_usize r = pb_usize_checked_rem(7u, 0u); check("pb_usize_checked_rem", !r.ok && r.value == 0u); }
    { pb_answer_usize r = pb_usize_checked_rem_euclid(7u, 3u); check("pb_usize_checked_rem_euclid", r.ok && r.value == 1u); }
    { pb_answer_usize r = pb_usize_checked_rem_euclid(18446744073709551615u, 10u); check("pb_usize_checked_rem_euclid", r.ok && r.value == 5u); }
    { pb_answer_usize r = pb_usize_checked_rem_euclid(7u, 0u); check("pb_usize_checked_rem_euclid", !r.ok && r.value == 0u); }
    { size_t r = pb_usize_saturating_add(18446744073709551560u, 100u); check("pb_usize_saturating_add", r == 18446744073709551615u); }
    { size_t r = pb_usize_saturating_add(18446744073709551460u, 100u); check("pb_usize_saturating_add", r == 18446744073709551560u); }
    { size_t r = pb_usize_saturating_sub(3u, 5u); check("pb_usize_saturating_sub", r == 0u); }
    { size_t r = pb_usize_saturating_sub(5u, 3u); check("pb_usize_saturating_sub", r == 2u); }
    { size_t r = pb_usize_saturating_mul(4294967296u, 4294967297u); check("pb_usize_saturating_mul", r == 18446744073709551615u); }
    { size_t r = pb_usize_saturating_mul(4294967295u, 4294967297u); check("pb_usize_saturating_mul", r == 18446744073709551615u); }
    { size_t r = pb_usize_saturating_mul(4294967295u, 4294967295u); check("pb_usize_saturating_mul", r == 18446744065119617025u); }
    { bool r = pb_usize_is_multiple_of(252u, 7u); check("pb_usize_is_multiple_of", r == true); }
    { bool r = pb_usize_is_multiple_of(250u, 7u); check("pb_usize_is_multiple_of", r == false); }
    { bool r = pb_usize_is_multiple_of(0u, 0u); check("pb_usize_is_multiple_of", r == true); }
    { bool r = pb_usize_is_multiple_of(7u, 0u); check("pb_usize_is_multiple_of", r == false); }
    { size_t r = pb_usize_clone(18446744073709551615u); check("pb_usize_clone", r == 18446744073709551615u); }
    { size_t r = pb_usize_clone(0u); check("pb_usize_clone", r == 0u); }
    { bool r = pb_usize_eq(3u, 5u); check("pb_usize_eq", r == false); }
    { bool r = pb_usize_eq(5u, 5u); check("pb_usize_eq", r == true); }
    { bool r = pb_usize_eq(18446744073709551615u, 0u); check("pb_usize_eq", r == false); }
    { bool r = pb_usize_ne(3u, 5u); check("pb_usize_ne", r == true); }
    { bool r = pb_usize_ne(5u, 5u); check("pb_usize_ne", r == false); }
    { bool r = pb_usize_ne(18446744073709551615u, 0u); check("pb_usize_ne", r == true); }
    { bool r = pb_usize_lt(3u, 5u); check("pb_usize_lt", r == true); }
    { bool r = pb_usize_lt(5u, 5u); check("pb_usize_lt", r == false); }
    { bool r = pb_usize_lt(18446744073709551615u, 0u); check("pb_usize_lt", r == false); }
    { bool r = pb_usize_le(3u, 5u); check("pb_usize_le", r == true); }
    { bool r = pb_usize_le(5u, 5u); check("pb_usize_le", r == true); }
    { bool r = pb_usize_le(18446744073709551615u, 0u); check("pb_usize_le", r == false); }
    { bool r = pb_usize_gt(3u, 5u); check("pb_usize_gt", r == false); }
    { bool r = pb_usize_gt(5u, 5u); check("pb_usize_gt", r == false); }
    { bool r = pb_usize_gt(18446744073709551615u, 0u); check("pb_usize_gt", r == true); }
    { bool r = pb_usize_ge(3u, 5u); check("pb_usize_ge", r == false); }
    { bool r = pb_usize_ge(5u, 5u); check("pb_usize_ge", r == true); }
    { bool r = pb_usize_ge(18446744073709551615u, 0u); check("pb_usize_ge", r == true); }
    { int8_t r = pb_usize_cmp(3u, 5u); check("pb_usize_cmp", r == -1); }
    { int8_t r = pb_usize_cmp(5u, 5u); check("pb_usize_cmp", r == 0); }
    { int8_t r = pb_usize_cmp(18446744073709551615u, 0u); check("pb_usize_cmp", r == 1); }
    { pb_answer_i8 r = pb_usize_partial_cmp(3u, 5u); check("pb_usize_partial_cmp", r.ok && r.value == -1); }
    { pb_answer_i8 r = pb_usize_partial_cmp(5u, 5u); check("pb_usize_partial_cmp", r.ok && r.value == 0); }
    { pb_answer_i8 r = pb_usize_partial_cmp(18446744073709551615u, 0u); check("pb_usize_partial_cmp", r.ok && r.value == 1); }
    { const uint8_t s[] = {49, 56, 52, 52, 54, 55, 52, 52, 48, 55, 51, 55, 48, 57, 53, 53, 49, 54, 49, 53}; pb_answer_usize r = pb_usize_read_decimal(s, 20, 0u, 20u); check("pb_usize_read_decimal", r.ok && r.value == 18446744073709551615u); }
    { const uint8_t s[] = {49, 56, 52, 52, 54, 55, 52, 52, 48, 55, 51, 55, 48, 57, 53, 53, 49, 54, 49, 54}; pb_answer_usize r = pb_usize_read_decimal(s, 20, 0u, 20u); check("pb_usize_read_decimal", !r.ok && r.value == 0u); }
    { const uint8_t s[] = {48}; pb_answer_usize r = pb_usize_read_decimal(s, 1, 0u, 1u); check("pb_usize_read_decimal", r.ok && r.value == 0u); }
    { const uint8_t s[] = {45, 49}; pb_answer_usize r = pb_usize_read_decimal(s, 2, 0u, 2u); check("pb_usize_read_decimal", !r.ok && r.value == 0u); }
    { const uint8_t s[] = {48, 48, 55}; pb_answer_usize r = pb_usize_read_decimal(s, 3, 0u, 3u); check("pb_usize_read_decimal", r.ok && r.value == 7u); }
    { const uint8_t s[] = {45, 48}; pb_answer_usize r = pb_usize_read_decimal(s, 2, 0u, 2u); check("pb_usize_read_decimal", !r.ok && r.value == 0u); }
    { const uint8_t s[] = {43, 53}; pb_answer_usize r = pb_usize_read_decimal(s, 2, 0u, 2u); check("pb_usize_read_decimal", !r.ok && r.value == 0u); }
    { const uint8_t s[] = {45}; pb_answer_usize r = pb_usize_read_decimal(s, 1, 0u, 1u); check("pb_usize_read_decimal", !r.ok && r.value == 0u); }
    { const uint8_t s[] = {0}; pb_answer_usize r = pb_usize_read_decimal(s, 0, 0u, 0u); check("pb_usize_read_decimal", !r.ok && r.value == 0u); }
    { const uint8_t s[] = {110, 61, 52, 50, 59}; pb_answer_usize r = pb_usize_read_decimal(s, 5, 2u, 4u); check("pb_usize_read_decimal", r.ok && r.value == 42u); }
    { const uint8_t s[] = {110, 61, 52, 50, 59}; pb_answer_usize r = pb_usize_read_decimal(s, 5, 1u, 4u); check("pb_usize_read_decimal", !r.ok && r.value == 0u); }
    { const uint8_t s[] = {110, 61, 52, 50, 59}; pb_answer_usize r = pb_usize_read_decimal(s, 5, 2u, 6u); check("pb_usize_read_decimal", !r.ok && r.value == 0u); }
    { const uint8_t s[] = {110, 61, 52, 50, 59}; pb_answer_usize r = pb_usize_read_decimal(s, 5, 4u, 2u); check("pb_usize_read_decimal", !r.ok && r.value == 0u); }
    { uint8_t s[] = {46, 46, 46, 46, 46, 46, 46, 46, 46, 46, 46, 46, 46, 46, 46, 46, 46, 46, 46, 46, 46, 46}; pb_answer_usize r = pb_usize_write_decimal(18446744073709551615u, s, 22, 1u); const uint8_t s_after[] = {46, 49, 56, 52, 52, 54, 55, 52, 52, 48, 55, 51, 55, 48, 57, 53, 53, 49, 54, 49, 53, 46}; check("pb_usize_write_decimal", r.ok && r.value == 20u && memcmp(s, s_after, 22) == 0); }
    { uint8_t s[] = {46, 46, 46}; pb_answer_usize r = pb_usize_write_decimal(0u, s, 3, 1u); const uint8_t s_after[] = {46, 48, 46}; check("pb_usize_write_decimal", r.ok && r.value == 1u && memcmp(s, s_after, 3) == 0); }
    { uint8_t s[] = {46, 46}; pb_answer_usize r = pb_usize_write_decimal(10u, s, 2, 0u); const uint8_t s_after[] = {49, 48}; check("pb_usize_write_decimal", r.ok && r.value == 2u && memcmp(s, s_after, 2) == 0); }
    { uint8_t s[] = {46, 46, 46}; pb_answer_usize r = pb_usize_write_decimal(0u, s, 3, 2u); const uint8_t s_after[] = {46, 46, 48}; check("pb_usize_write_decimal", r.ok && r.value == 1u && memcmp(s, s_after, 3) == 0); }
    { uint8_t s[] = {46, 46, 46, 46, 46, 46, 46, 46, 46, 46, 46, 46, 46, 46, 46, 46, 46, 46, 46, 46}; pb_answer_usize r = pb_usize_write_decimal(18446744073709551615u, s, 20, 1u); const uint8_t s_after[] = {46, 46, 46, 46, 46, 46, 46, 46, 46, 46, 46, 46, 46, 46, 46, 46, 46, 46, 46, 46}; check("pb_usize_write_decimal", !r.ok && r.value == 0u && memcmp(s, s_after, 20) == 0); }
    { uint8_t s[] = {46}; pb_answer_usize r = pb_usize_write_decimal(10u, s, 1, 0u); const uint8_t s_after[] = {46}; check("pb_usize_write_decimal", !r.ok && r.value == 0u && memcmp(s, s_after, 1) == 0); }
    { uint8_t s[] = {46}; pb_answer_usize r = pb_usize_write_decimal(7u, s, 1, 2u); const uint8_t s_after[] = {46}; check("pb_usize_write_decimal", !r.ok && r.value == 0u && memcmp(s, s_after, 1) == 0); }
}

static void of_i8(void)
{
    { int8_t r = pb_i8_wrapping_add(100, 100); check("pb_i8_wrapping_add", r == -56); }
    { int8_t r = pb_i8_wrapping_add(-100, 100); check("pb_i8_wrapping_add", r == 0); }
    { int8_t r = pb_i8_wrapping_add_unsigned(-100, 200u); check("pb_i8_wrapping_add_unsigned", r == 100); }
    { int8_t r = pb_i8_wrapping_add_unsigned(100, 200u); check("pb_i8_wrapping_add_unsigned", r == 44); }
    { int8_t r = pb_i8_wrapping_sub(-128, 1); check("pb_i8_wrapping_sub", r == 127); }
    { int8_t r = pb_i8_wrapping_sub(-127, 1); check("pb_i8_wrapping_sub", r == -128); }
    { int8_t r = pb_i8_wrapping_mul(-128, -1); check("pb_i8_wrapping_mul", r == -128); }
    { int8_t r = pb_i8_wrapping_mul(-127, -1); check("pb_i8_wrapping_mul", r == 127); }
    { int8_t r = pb_i8_wrapping_shl(1, 9u); check("pb_i8_wrapping_shl", r == 2); }
    { int8_t r = pb_i8_wrapping_shl(3, 7u); check("pb_i8_wrapping_shl", r == -128); }
    { int8_t r = pb_i8_wrapping_shr(-128, 15u); check("pb_i8_wrapping_shr", r == -1); }
    { int8_t r = pb_i8_wrapping_shr(-7, 9u); check("pb_i8_wrapping_shr", r == -4); }
    { pb_answer_i8 r = pb_i8_checked_add(100, 100); check("pb_i8_checked_add", !r.ok && r.value == 0); }
    { pb_answer_i8 r = pb_i8_checked_add(-100, 100); check("pb_i8_checked_add", r.ok && r.value == 0); }
    { pb_answer_i8 r = pb_i8_checked_add_unsigned(-100, 200u); check("pb_i8_checked_add_unsigned", r.ok && r.value == 100); }
    { pb_answer_i8 r = pb_i8_checked_add_unsigned(100, 200u); check("pb_i8_checked_add_unsigned", !r.ok && r.value == 0); }
    { pb_answer_i8 r = pb_i8_checked_sub(-128, 1); check("pb_i8_checked_sub", !r.ok && r.value == 0); }
    { pb_answer_i8 r = pb_i8_checked_sub(-127, 1); check("pb_i8_checked_sub", r.ok && r.value == -128); }
    { pb_answer_i8 r = pb_i8_checked_sub_unsigned(100, 200u); check("pb_i8_checked_sub_unsigned", r.ok && r.value == -100); }
    { pb_answer_i8 r = pb_i8_checked_sub_unsigned(-100, 200u); check("pb_i8_checked_sub_unsigned", !r.ok && r.value == 0); }
    { pb_answer_i8 r = pb_i8_checked_mul(-128, -1); check("pb_i8_checked_mul", !r.ok && r.value == 0); }
    { pb_answer_i8 r = pb_i8_checked_mul(-127, -1); check("pb_i8_checked_mul", r.ok && r.value == 127); }
    { pb_answer_i8 r = pb_i8_checked_div(7, 3); check("pb_i8_checked_div", r.ok && r.value == 2); }
    { pb_answer_i8 r = pb_i8_checked_div(-7, 3); check("pb_i8_checked_div", r.ok && r.value == -2); }
    { pb_answer_i8 r = pb_i8_checked_div(7, -3); check("pb_i8_checked_div", r.ok && r.value == -2); }
    { pb_answer_i8 r = pb_i8_checked_div(-7, -3); check("pb_i8_checked_div", r.ok && r.value == 2); }
    { pb_answer_i8 r = pb_i8_checked_div(-128, -1); check("pb_i8_checked_div", !r.ok && r.value == 0); }
    { pb_answer_i8 r = pb_i8_checked_div(7, 0); check("pb_i8_checked_div", !r.ok && r.value == 0); }
    { pb_answer_i8 r = pb_i8_checked_div_euclid(7, 3); check("pb_i8_checked_div_euclid", r.ok && r.value == 2); }
    { pb_answer_i8 r = pb_i8_checked_div_euclid(-7, 3); check("pb_i8_checked_div_euclid", r.ok && r.value == -3); }
    { pb_answer_i8 r = pb_i8_checked_div_euclid(7, -3); check("pb_i8_checked_div_euclid", r.ok && r.value == -2); }
    { pb_answer_i8 r = pb_i8_checked_div_euclid(-7, -3); check("pb_i8_checked_div_euclid", r.ok && r.value == 3); }
    { pb_answer_i8 r = pb_i8_checked_div_euclid(-128, -1); check("pb_i8_checked_div_euclid", !r.ok && r.value == 0); }
    { pb_answer_i8 r = pb_i8_checked_div_euclid(7, 0); check("pb_i8_checked_div_euclid", !r.ok && r.value == 0); }
    { pb_answer_i8 r = pb_i8_checked_rem(7, 3); check("pb_i8_checked_rem", r.ok && r.value == 1); }
    { pb_answer_i8 r = pb_i8_checked_rem(-7, 3); check("pb_i8_checked_rem", r.ok && r.value == -1); }
    { pb_answer_i8 r = pb_i8_checked_rem(7, -3); check("pb_i8_checked_rem", r.ok && r.value == 1); }
    { pb_answer_i8 r = pb_i8_checked_rem(-7, -3); check("pb_i8_checked_rem", r.ok && r.value == -1); }
    { pb_answer_i8 r = pb_i8_checked_rem(-128, -1); check("pb_i8_checked_rem", !r.ok && r.value == 0); }
    { pb_answer_i8 r = pb_i8_checked_rem(7, 0); check("pb_i8_checked_rem", !r.ok && r.value == 0); }
    { pb_answer_i8 r = pb_i8_checked_rem_euclid(7, 3); check("pb_i8_checked_rem_euclid", r.ok && r.value == 1); }
    { pb_answer_i8 r = pb_i8_checked_rem_euclid(-7, 3); check("pb_i8_checked_rem_euclid", r.ok && r.value == 2); }
    { pb_answer_i8 r = pb_i8_checked_rem_euclid(7, -3); check("pb_i8_checked_rem_euclid", r.ok && r.value == 1); }
    { pb_answer_i8 r = pb_i8_checked_rem_euclid(-7, -3); check("pb_i8_checked_rem_euclid", r.ok && r.value == 2); }
    { pb_answer_i8 r = pb_i8_checked_rem_euclid(-128, -1); check("pb_i8_checked_rem_euclid", !r.ok && r.value == 0); }
    { pb_answer_i8 r = pb_i8_checked_rem_euclid(7, 0); check("pb_i8_checked_rem_euclid", !r.ok && r.value == 0); }
    { int8_t r = pb_i8_clone(127); check("pb_i8_clone", r == 127); }
    { int8_t r = pb_i8_clone(-128); check("pb_i8_clone", r == -128); }
    { bool r = pb_i8_eq(3, 5); check("pb_i8_eq", r == false); }
    { bool r = pb_i8_eq(5, 5); check("pb_i8_eq", r == true); }
    { bool r = pb_i8_eq(127, -128); check("pb_i8_eq", r == false); }
    { bool r = pb_i8_ne(3, 5); check("pb_i8_ne", r == true); }
    { bool r = pb_i8_ne(5, 5); check("pb_i8_ne", r == false); }
    { bool r = pb_i8_ne(127, -128); check("pb_i8_ne", r == true); }
    { bool r = pb_i8_lt(3, 5); check("pb_i8_lt", r == true); }
    { bool r = pb_i8_lt(5, 5); check("pb_i8_lt", r == false); }
    { bool r = pb_i8_lt(127, -128); check("pb_i8_lt", r == false); }
    { bool r = pb_i8_le(3, 5); check("pb_i8_le", r == true); }
    { bool r = pb_i8_le(5, 5); check("pb_i8_le", r == true); }
    { bool r = pb_i8_le(127, -128); check("pb_i8_le", r == false); }
    { bool r = pb_i8_gt(3, 5); check("pb_i8_gt", r == false); }
    { bool r = pb_i8_gt(5, 5); check("pb_i8_gt", r == false); }
    { bool r = pb_i8_gt(127, -128); check("pb_i8_gt", r == true); }
    { bool r = pb_i8_ge(3, 5); check("pb_i8_ge", r == false); }
    { bool r = pb_i8_ge(5, 5); check("pb_i8_ge", r == true); }
    { bool r = pb_i8_ge(127, -128); check("pb_i8_ge", r == true); }
    { int8_t r = pb_i8_cmp(3, 5); check("pb_i8_cmp", r == -1); }
    { int8_t r = pb_i8_cmp(5, 5); check("pb_i8_cmp", r == 0); }
    { int8_t r = pb_i8_cmp(127, -128); check("pb_i8_cmp", r == 1); }
    { pb_answer_i8 r = pb_i8_partial_cmp(3, 5); check("pb_i8_partial_cmp", r.ok && r.value == -1); }
    { pb_answer_i8 r = pb_i8_partial_cmp(5, 5); check("pb_i8_partial_cmp", r.ok && r.value == 0); }
    { pb_answer_i8 r = pb_i8_partial_cmp(127, -128); check("pb_i8_partial_cmp", r.ok && r.value == 1); }
    { const uint8_t s[] = {49, 50, 55}; pb_answer_i8 r = pb_i8_read_decimal(s, 3, 0u, 3u); check("pb_i8_read_decimal", r.ok && r.value == 127); }
    { const uint8_t s[] = {49, 50, 56}; pb_answer_i8 r = pb_i8_read_decimal(s, 3, 0u, 3u); check("pb_i8_read_decimal", !r.ok && r.value == 0); }
    { const uint8_t s[] = {45, 49, 50, 56}; pb_answer_i8 r = pb_i8_read_decimal(s, 4, 0u, 4u); check("pb_i8_read_decimal", r.ok && r.value == -128); }
    { const uint8_t s[] = {45, 49, 50, 57}; pb_answer_i8 r = pb_i8_read_decimal(s, 4, 0u, 4u); check("pb_i8_read_decimal", !r.ok && r.value == 0); }
    { const uint8_t s[] = {48, 48, 55}; pb_answer_i8 r = pb_i8_read_decimal(s, 3, 0u, 3u); check("pb_i8_read_decimal", r.ok && r.value == 7); }
    { const uint8_t s[] = {45, 48}; pb_answer_i8 r = pb_i8_read_decimal(s, 2, 0u, 2u); check("pb_i8_read_decimal", r.ok && r.value == 0); }
    { const uint8_t s[] = {43, 53}; pb_answer_i8 r = pb_i8_read_decimal(s, 2, 0u, 2u); check("pb_i8_read_decimal", !r.ok && r.value == 0); }
    { const uint8_t s[] = {45}; pb_answer_i8 r = pb_i8_read_decimal(s, 1, 0u, 1u); check("pb_i8_read_decimal", !r.ok && r.value == 0); }
    { const uint8_t s[] = {0}; pb_answer_i8 r = pb_i8_read_decimal(s, 0, 0u, 0u); check("pb_i8_read_decimal", !r.ok && r.value == 0); }
    { const uint8_t s[] = {110, 61, 52, 50, 59}; pb_answer_i8 r = pb_i8_read_decimal(s, 5, 2u, 4u); check("pb_i8_read_decimal", r.ok && r.value == 42); }
    { const uint8_t s[] = {110, 61, 52, 50, 59}; pb_answer_i8 r = pb_i8_read_decimal(s, 5, 1u, 4u); check("pb_i8_read_decimal", !r.ok && r.value == 0); }
    { const uint8_t s[] = {110, 61, 52, 50, 59}; pb_answer_i8 r = pb_i8_read_decimal(s, 5, 2u, 6u); check("pb_i8_read_decimal", !r.ok && r.value == 0); }
    { const uint8_t s[] = {110, 61, 52, 50, 59}; pb_answer_i8 r = pb_i8_read_decimal(s, 5, 4u, 2u); check("pb_i8_read_decimal", !r.ok && r.value == 0); }
    { uint8_t s[] = {46, 46, 46, 46, 46}; pb_answer_usize r = pb_i8_write_decimal(127, s, 5, 1u); const uint8_t s_after[] = {46, 49, 50, 55, 46}; check("pb_i8_write_decimal", r.ok && r.value == 3u && memcmp(s, s_after, 5) == 0); }
    { uint8_t s[] = {46, 46, 46, 46, 46, 46}; pb_answer_usize r = pb_i8_write_decimal(-128, s, 6, 1u); const uint8_t s_after[] = {46, 45, 49, 50, 56, 46}; check("pb_i8_write_decimal", r.ok && r.value == 4u && memcmp(s, s_after, 6) == 0); }
    { uint8_t s[] = {46, 46}; pb_answer_usize r = pb_i8_write_decimal(10, s, 2, 0u); const uint8_t s_after[] = {49, 48}; check("pb_i8_write_decimal", r.ok && r.value == 2u && memcmp(s, s_after, 2) == 0); }
    { uint8_t s[] = {46, 46, 46}; pb_answer_usize r = pb_i8_write_decimal(0, s, 3, 2u); const uint8_t s_after[] = {46, 46, 48}; check("pb_i8_write_decimal", r.ok && r.value == 1u && memcmp(s, s_after, 3) == 0); }
    { uint8_t s[] = {46, 46, 46}; pb_answer_usize r = pb_i8_write_decimal(127, s, 3, 1u); const uint8_t s_after[] = {46, 46, 46}; check("pb_i8_write_decimal", !r.ok && r.value == 0u && memcmp(s, s_after, 3) == 0); }
    { uint8_t s[] = {46}; pb_answer_usize r = pb_i8_write_decimal(10, s, 1, 0u); const uint8_t s_after[] = {46}; check("pb_i8_write_decimal", !r.ok && r.value == 0u && memcmp(s, s_after, 1) == 0); }
    { uint8_t s[] = {46}; pb_answer_usize r = pb_i8_write_decimal(7, s, 1, 2u); const uint8_t s_after[] = {46}; check("pb_i8_write_decimal", !r.ok && r.value == 0u && memcmp(s, s_after, 1) == 0); }
}

static void of_i16(void)
{
    { int16_t r = pb_i16_wrapping_add(32740, 100); check("pb_i16_wrapping_add", r == -32696); }
    { int16_t r = pb_i16_wrapping_add(-100, 100); check("pb_i16_wrapping_add", r == 0); }
    { int16_t r = pb_i16_wrapping_add_unsigned(-32740, 65480u); check("pb_i16_wrapping_add_unsigned", r == 32740); }
    { int16_t r = pb_i16_wrapping_add_unsigned(100, 65480u); check("pb_i16_wrapping_add_unsigned", r == 44); }
    { int16_t r = pb_i16_wrapping_sub(-32768, 1); check("pb_i16_wrapping_sub", r == 32767); }
    { int16_t r = pb_i16_wrapping_sub(-32767, 1); check("pb_i16_wrapping_sub", r == -32768); }
    { int16_t r = pb_i16_wrapping_mul(-32768, -1); check("pb_i16_wrapping_mul", r == -32768); }
    { int16_t r = pb_i16_wrapping_mul(-32767, -1); check("pb_i16_wrapping_mul", r == 32767); }
    { int16_t r = pb_i16_wrapping_shl(1, 17u); check("pb_i16_wrapping_shl", r == 2); }
    { int16_t r = pb_i16_wrapping_shl(3, 15u); check("pb_i16_wrapping_shl", r == -32768); }
    { int16_t r = pb_i16_wrapping_shr(-32768, 31u); check("pb_i16_wrapping_shr", r == -1); }
    { int16_t r = pb_i16_wrapping_shr(-7, 17u); check("pb_i16_wrapping_shr", r == -4); }
    { pb_answer_i16 r = pb_i16_checked_add(32740, 100); check("pb_i16_checked_add", !r.ok && r.value == 0); }
    { pb_answer_i16 r = pb_i16_checked_add(-100, 100); check("pb_i16_checked_add", r.ok && r.value == 0); }
    { pb_answer_i16 r = pb_i16_checked_add_unsigned(-32740, 65480u); check("pb_i16_checked_add_unsigned", r.ok && r.value == 32740); }
    { pb_answer_i16 r = pb_i16_checked_add_unsigned(100, 65480u); check("pb_i16_checked_add_unsigned", !r.ok && r.value == 0); }
    { pb_answer_i16 r = pb_i16_checked_sub(-32768, 1); check("pb_i16_checked_sub", !r.ok && r.value == 0); }
    { pb_answer_i16 r = pb_i16_checked_sub(-32767, 1); check("pb_i16_checked_sub", r.ok && r.value == -32768); }
    { pb_answer_i16 r = pb_i16_checked_sub_unsigned(100, 200u); check("pb_i16_checked_sub_unsigned", r.ok && r.value == -100); }
    { pb_answer_i16 r = pb_i16_checked_sub_unsigned(-32740, 200u); check("pb_i16_checked_sub_unsigned", !r.ok && r.value == 0); }
    { pb_answer_i16 r = pb_i16_checked_mul(-32768, -1); check("pb_i16_checked_mul", !r.ok && r.value == 0); }
    { pb_answer_i16 r = pb_i16_checked_mul(-32767, -1); check("pb_i16_checked_mul", r.ok && r.value == 32767); }
    { pb_answer_i16 r = pb_i16_checked_div(7, 3); check("pb_i16_checked_div", r.ok && r.value == 2); }
    { pb_answer_i16 r = pb_i16_checked_div(-7, 3); check("pb_i16_checked_div", r.ok && r.value == -2); }
    { pb_answer_i16 r = pb_i16_checked_div(7, -3); check("pb_i16_checked_div", r.ok && r.value == -2); }
    { pb_answer_i16 r = pb_i16_checked_div(-7, -3); check("pb_i16_checked_div", r.ok && r.value == 2); }
    { pb_answer_i16 r = pb_i16_checked_div(-32768, -1); check("pb_i16_checked_div", !r.ok && r.value == 0); }
    { pb_answer_i16 r = pb_i16_checked_div(7, 0); check("pb_i16_checked_div", !r.ok && r.value == 0); }
    { pb_answer_i16 r = pb_i16_checked_div_euclid(7, 3); check("pb_i16_checked_div_euclid", r.ok && r.value == 2); }
    { pb_answer_i16 r = pb_i16_checked_div_euclid(-7, 3); check("pb_i16_checked_div_euclid", r.ok && r.value == -3); }
    { pb_answer_i16 r = pb_i16_checked_div_euclid(7, -3); check("pb_i16_checked_div_euclid", r.ok && r.value == -2); }
    { pb_answer_i16 r = pb_i16_checked_div_euclid(-7, -3); check("pb_i16_checked_div_euclid", r.ok && r.value == 3); }
    { pb_answer_i16 r = pb_i16_checked_div_euclid(-32768, -1); check("pb_i16_checked_div_euclid", !r.ok && r.value == 0); }
    { pb_answer_i16 r = pb_i16_checked_div_euclid(7, 0); check("pb_i16_checked_div_euclid", !r.ok && r.value == 0); }
    { pb_answer_i16 r = pb_i16_checked_rem(7, 3); check("pb_i16_checked_rem", r.ok && r.value == 1); }
    { pb_answer_i16 r = pb_i16_checked_rem(-7, 3); check("pb_i16_checked_rem", r.ok && r.value == -1); }
    { pb_answer_i16 r = pb_i16_checked_rem(7, -3); check("pb_i16_checked_rem", r.ok && r.value == 1); }
    { pb_answer_i16 r = pb_i16_checked_rem(-7, -3); check("pb_i16_checked_rem", r.ok && r.value == -1); }
    { pb_answer_i16 r = pb_i16_checked_rem(-32768, -1); check("pb_i16_checked_rem", !r.ok && r.value == 0); }
    { pb_answer_i16 r = pb_i16_checked_rem(7, 0); check("pb_i16_checked_rem", !r.ok && r.value == 0); }
    { pb_answer_i16 r = pb_i16_checked_rem_euclid(7, 3); check("pb_i16_checked_rem_euclid", r.ok && r.value == 1); }
    { pb_answer_i16 r = pb_i16_checked_rem_euclid(-7, 3); check("pb_i16_checked_rem_euclid", r.ok && r.value == 2); }
    { pb_answer_i16 r = pb_i16_checked_rem_euclid(7, -3); check("pb_i16_checked_rem_euclid", r.ok && r.value == 1); }
    { pb_answer_i16 r = pb_i16_checked_rem_euclid(-7, -3); check("pb_i16_checked_rem_euclid", r.ok && r.value == 2); }
    { pb_answer_i16 r = pb_i16_checked_rem_euclid(-32768, -1); check("pb_i16_checked_rem_euclid", !r.ok && r.value == 0); }
    { pb_answer_i16 r = pb_i16_checked_rem_euclid(7, 0); check("pb_i16_checked_rem_euclid", !r.ok && r.value == 0); }
    { int16_t r = pb_i16_clone(32767); check("pb_i16_clone", r == 32767); }
    { int16_t r = pb_i16_clone(-32768); check("pb_i16_clone", r == -32768); }
    { bool r = pb_i16_eq(3, 5); check("pb_i16_eq", r == false); }
    { bool r = pb_i16_eq(5, 5); check("pb_i16_eq", r == true); }
    { bool r = pb_i16_eq(32767, -32768); check("pb_i16_eq", r == false); }
    { bool r = pb_i16_ne(3, 5); check("pb_i16_ne", r == true); }
    { bool r = pb_i16_ne(5, 5); check("pb_i16_ne", r == false); }
    { bool r = pb_i16_ne(32767, -32768); check("pb_i16_ne", r == true); }
    { bool r = pb_i16_lt(3, 5); check("pb_i16_lt", r == true); }
    { bool r = pb_i16_lt(5, 5); check("pb_i16_lt", r == false); }
    { bool r = pb_i16_lt(32767, -32768); check("pb_i16_lt", r == false); }
    { bool r = pb_i16_le(3, 5); check("pb_i16_le", r == true); }
    { bool r = pb_i16_le(5, 5); check("pb_i16_le", r == true); }
    { bool r = pb_i16_le(32767, -32768); check("pb_i16_le", r == false); }
    { bool r = pb_i16_gt(3, 5); check("pb_i16_gt", r == false); }
    { bool r = pb_i16_gt(5, 5); check("pb_i16_gt", r == false); }
    { bool r = pb_i16_gt(32767, -32768); check("pb_i16_gt", r == true); }
    { bool r = pb_i16_ge(3, 5); check("pb_i16_ge", r == false); }
    { bool r = pb_i16_ge(5, 5); check("pb_i16_ge", r == true); }
    { bool r = pb_i16_ge(32767, -32768); check("pb_i16_ge", r == true); }
    { int8_t r = pb_i16_cmp(3, 5); check("pb_i16_cmp", r == -1); }
    { int8_t r = pb_i16_cmp(5, 5); check("pb_i16_cmp", r == 0); }
    { int8_t r = pb_i16_cmp(32767, -32768); check("pb_i16_cmp", r == 1); }
    { pb_answer_i8 r = pb_i16_partial_cmp(3, 5); check("pb_i16_partial_cmp", r.ok && r.value == -1); }
    { pb_answer_i8 r = pb_i16_partial_cmp(5, 5); check("pb_i16_partial_cmp", r.ok && r.value == 0); }
    { pb_answer_i8 r = pb_i16_partial_cmp(32767, -32768); check("pb_i16_partial_cmp", r.ok && r.value == 1); }
    { const uint8_t s[] = {51, 50, 55, 54, 55}; pb_answer_i16 r = pb_i16_read_decimal(s, 5, 0u, 5u); check("pb_i16_read_decimal", r.ok && r.value == 32767); }
    { const uint8_t s[] = {51, 50, 55, 54, 56}; pb_answer_i16 r = pb_i16_read_decimal(s, 5, 0u, 5u); check("pb_i16_read_decimal", !r.ok && r.value == 0); }
    { const uint8_t s[] = {45, 51, 50, 55, 54, 56}; pb_answer_i16 r = pb_i16_read_decimal(s, 6, 0u, 6u); check("pb_i16_read_decimal", r.ok && r.value == -32768); }
    { const uint8_t s[] = {45, 51, 50, 55, 54, 57}; pb_answer_i16 r = pb_i16_read_decimal(s, 6, 0u, 6u); check("pb_i16_read_decimal", !r.ok && r.value == 0); }
    { const uint8_t s[] = {48, 48, 55}; pb_answer_i16 r = pb_i16_read_decimal(s, 3, 0u, 3u); check("pb_i16_read_decimal", r.ok && r.value == 7); }
    { const uint8_t s[] = {45, 48}; pb_answer_i16 r = pb_i16_read_decimal(s, 2, 0u, 2u); check("pb_i16_read_decimal", r.ok && r.value == 0); }
    { const uint8_t s[] = {43, 53}; pb_answer_i16 r = pb_i16_read_decimal(s, 2, 0u, 2u); check("pb_i16_read_decimal", !r.ok && r.value == 0); }
    { const uint8_t s[] = {45}; pb_answer_i16 r = pb_i16_read_decimal(s, 1, 0u, 1u); check("pb_i16_read_decimal", !r.ok && r.value == 0); }
    { const uint8_t s[] = {0}; pb_answer_i16 r = pb_i16_read_decimal(s, 0, 0u, 0u); check("pb_i16_read_decimal", !r.ok && r.value == 0); }
    { const uint8_t s[] = {110, 61, 52, 50, 59}; pb_answer_i16 r = pb_i16_read_decimal(s, 5, 2u, 4u); check("pb_i16_read_decimal", r.ok && r.value == 42); }
    { const uint8_t s[] = {110, 61, 52, 50, 59}; pb_answer_i16 r = pb_i16_read_decimal(s, 5, 1u, 4u); check("pb_i16_read_decimal", !r.ok && r.value == 0); }
    { const uint8_t s[] = {110, 61, 52, 50, 59}; pb_answer_i16 r = pb_i16_read_decimal(s, 5, 2u, 6u); check("pb_i16_read_decimal", !r.ok && r.value == 0); }
    { const uint8_t s[] = {110, 61, 52, 50, 59}; pb_answer_i16 r = pb_i16_read_decimal(s, 5, 4u, 2u); check("pb_i16_read_decimal", !r.ok && r.value == 0); }
    { uint8_t s[] = {46, 46, 46, 46, 46, 46, 46}; pb_answer_usize r = pb_i16_write_decimal(32767, s, 7, 1u); const uint8_t s_after[] = {46, 51, 50, 55, 54, 55, 46}; check("pb_i16_write_decimal", r.ok && r.value == 5u && memcmp(s, s_after, 7) == 0); }
    { uint8_t s[] = {46, 46, 46, 46, 46, 46, 46, 46}; pb_answer_usize r = pb_i16_write_decimal(-32768, s, 8, 1u); const uint8_t s_after[] = {46, 45, 51, 50, 55, 54, 56, 46}; check("pb_i16_write_decimal", r.ok && r.value == 6u && memcmp(s, s_after, 8) == 0); }
    { uint8_t s[] = {46, 46}; pb_answer_usize r = pb_i16_write_decimal(10, s, 2, 0u); const uint8_t s_after[] = {49, 48}; check("pb_i16_write_decimal", r.ok && r.value == 2u && memcmp(s, s_after, 2) == 0); }
    { uint8_t s[] = {46, 46, 46}; pb_answer_usize r = pb_i16_write_decimal(0, s, 3, 2u); const uint8_t s_after[] = {46, 46, 48}; check("pb_i16_write_decimal", r.ok && r.value == 1u && memcmp(s, s_after, 3) == 0); }
    { uint8_t s[] = {46, 46, 46, 46, 46}; pb_answer_usize r = pb_i16_write_decimal(32767, s, 5, 1u); const uint8_t s_after[] = {46, 46, 46, 46, 46}; check("pb_i16_write_decimal", !r.ok && r.value == 0u && memcmp(s, s_after, 5) == 0); }
    { uint8_t s[] = {46}; pb_answer_usize r = pb_i16_write_decimal(10, s, 1, 0u); const uint8_t s_after[] = {46}; check("pb_i16_write_decimal", !r.ok && r.value == 0u && memcmp(s, s_after, 1) == 0); }
    { uint8_t s[] = {46}; pb_answer_usize r = pb_i16_write_decimal(7, s, 1, 2u); const uint8_t s_after[] = {46}; check("pb_i16_write_decimal", !r.ok && r.value == 0u && memcmp(s, s_after, 1) == 0); }
}

static void of_i32(void)
{
    { int32_t r = pb_i32_wrapping_add(2147483620, 100); check("pb_i32_wrapping_add", r == -2147483576); }
    { int32_t r = pb_i32_wrapping_add(-100, 100); check("pb_i32_wrapping_add", r == 0); }
    { int32_t r = pb_i32_wrapping_add_unsigned(-2147483620, 4294967240u); check("pb_i32_wrapping_add_unsigned", r == 2147483620); }
    { int32_t r = pb_i32_wrapping_add_unsigned(100, 4294967240u); check("pb_i32_wrapping_add_unsigned", r == 44); }
    { int32_t r = pb_i32_wrapping_sub(-2147483648, 1); check("pb_i32_wrapping_sub", r == 2147483647); }
    { int32_t r = pb_i32_wrapping_sub(-2147483647, 1); check("pb_i32_wrapping_sub", r == -2147483648); }
    { int32_t r = pb_i32_wrapping_mul(-2147483648, -1); check("pb_i32_wrapping_mul", r == -2147483648); }
    { int32_t r = pb_i32_wrapping_mul(-2147483647, -1); check("pb_i32_wrapping_mul", r == 2147483647); }
    { int32_t r = pb_i32_wrapping_shl(1, 33u); check("pb_i32_wrapping_shl", r == 2); }
    { int32_t r = pb_i32_wrapping_shl(3, 31u); check("pb_i32_wrapping_shl", r == -2147483648); }
    { int32_t r = pb_i32_wrapping_shr(-2147483648, 63u); check("pb_i32_wrapping_shr", r == -1); }
    { int32_t r = pb_i32_wrapping_shr(-7, 33u); check("pb_i32_wrapping_shr", r == -4); }
    { pb_answer_i32 r = pb_i32_checked_add(2147483620, 100); check("pb_i32_checked_add", !r.ok && r.value == 0); }
    { pb_answer_i32 r = pb_i32_checked_add(-100, 100); check("pb_i32_checked_add", r.ok && r.value == 0); }
    { pb_answer_i32 r = pb_i32_checked_add_unsigned(-2147483620, 4294967240u); check("pb_i32_checked_add_unsigned", r.ok && r.value == 2147483620); }
    { pb_answer_i32 r = pb_i32_checked_add_unsigned(100, 4294967240u); check("pb_i32_checked_add_unsigned", !r.ok && r.value == 0); }
    { pb_answer_i32 r = pb_i32_checked_sub(-2147483648, 1); check("pb_i32_checked_sub", !r.ok && r.value == 0); }
    { pb_answer_i32 r = pb_i32_checked_sub(-2147483647, 1); check("pb_i32_checked_sub", r.ok && r.value == -2147483648); }
    { pb_answer_i32 r = pb_i32_checked_sub_unsigned(100, 200u); check("pb_i32_checked_sub_unsigned", r.ok && r.value == -100); }
    { pb_answer_i32 r = pb_i32_checked_sub_unsigned(-2147483620, 200u); check("pb_i32_checked_sub_unsigned", !r.ok && r.value == 0); }
    { pb_answer_i32 r = pb_i32_checked_mul(-2147483648, -1); check("pb_i32_checked_mul", !r.ok && r.value == 0); }
    { pb_answer_i32 r = pb_i32_checked_mul(-2147483647, -1); check("pb_i32_checked_mul", r.ok && r.value == 2147483647); }
    { pb_answer_i32 r = pb_i32_checked_div(7, 3); check("pb_i32_checked_div", r.ok && r.value == 2); }
    { pb_answer_i32 r = pb_i32_checked_div(-7, 3); check("pb_i32_checked_div", r.ok && r.value == -2); }
    { pb_answer_i32 r = pb_i32_checked_div(7, -3); check("pb_i32_checked_div", r.ok && r.value == -2); }
    { pb_answer_i32 r = pb_i32_checked_div(-7, -3); check("pb_i32_checked_div", r.ok && r.value == 2); }
    { pb_answer_i32 r = pb_i32_checked_div(-2147483648, -1); check("pb_i32_checked_div", !r.ok && r.value == 0); }
    { pb_answer_i32 r = pb_i32_checked_div(7, 0); check("pb_i32_checked_div", !r.ok && r.value == 0); }
    { pb_answer_i32 r = pb_i32_checked_div_euclid(7, 3); check("pb_i32_checked_div_euclid", r.ok && r.value == 2); }
    { pb_answer_i32 r = pb_i32_checked_div_euclid(-7, 3); check("pb_i32_checked_div_euclid", r.ok && r.value == -3); }
    { pb_answer_i32 r = pb_i32_checked_div_euclid(7, -3); check("pb_i32_checked_div_euclid", r.ok && r.value == -2); }
    { pb_answer_i32 r = pb_i32_checked_div_euclid(-7, -3); check("pb_i32_checked_div_euclid", r.ok && r.value == 3); }
    { pb_answer_i32 r = pb_i32_checked_div_euclid(-2147483648, -1); check("pb_i32_checked_div_euclid", !r.ok && r.value == 0); }
    { pb_answer_i32 r = pb_i32_checked_div_euclid(7, 0); check("pb_i32_checked_div_euclid", !r.ok && r.value == 0); }
    { pb_answer_i32 r = pb_i32_checked_rem(7, 3); check("pb_i32_checked_rem", r.ok && r.value == 1); }
    { pb_answer_i32 r = pb_i32_checked_rem(-7, 3); check("pb_i32_checked_rem", r.ok && r.value == -1); }
    { pb_answer_i32 r = pb_i32_checked_rem(7, -3); check("pb_i32_checked_rem", r.ok && r.value == 1); }
    { pb_answer_i32 r = pb_i32_checked_rem(-7, -3); check("pb_i32_checked_rem", r.ok && r.value == -1); }
    { pb_answer_i32 r = pb_i32_checked_rem(-2147483648, -1); check("pb_i32_checked_rem", !r.ok && r.value == 0); }
    { pb_answer_i32 r = pb_i32_checked_rem(7, 0); check("pb_i32_checked_rem", !r.ok && r.value == 0); }
    { pb_answer_i32 r = pb_i32_checked_rem_euclid(7, 3); check("pb_i32_checked_rem_euclid", r.ok && r.value == 1); }
    { pb_answer_i32 r = pb_i32_checked_rem_euclid(-7, 3); check("pb_i32_checked_rem_euclid", r.ok && r.value == 2); }
    { pb_answer_i32 r = pb_i32_checked_rem_euclid(7, -3); check("pb_i32_checked_rem_euclid", r.ok && r.value == 1); }
    { pb_answer_i32 r = pb_i32_checked_rem_euclid(-7, -3); check("pb_i32_checked_rem_euclid", r.ok && r.value == 2); }
    { pb_answer_i32 r = pb_i32_checked_rem_euclid(-2147483648, -1); check("pb_i32_checked_rem_euclid", !r.ok && r.value == 0); }
    { pb_answer_i32 r = pb_i32_checked_rem_euclid(7, 0); check("pb_i32_checked_rem_euclid", !r.ok && r.value == 0); }
    { int32_t r = pb_i32_clone(2147483647); check("pb_i32_clone", r == 2147483647); }
    { int32_t r = pb_i32_clone(-2147483648); check("pb_i32_clone", r == -2147483648); }
    { bool r = pb_i32_eq(3, 5); check("pb_i32_eq", r == false); }
    { bool r = pb_i32_eq(5, 5); check("pb_i32_eq", r == true); }
    { bool r = pb_i32_eq(2147483647, -2147483648); check("pb_i32_eq", r == false); }
    { bool r = pb_i32_ne(3, 5); check("pb_i32_ne", r == true); }
    { bool r = pb_i32_ne(5, 5); check("pb_i32_ne", r == false); }
    { bool r = pb_i32_ne(2147483647, -2147483648); check("pb_i32_ne", r == true); }
    { bool r = pb_i32_lt(3, 5); check("pb_i32_lt", r == true); }
    { bool r = pb_i32_lt(5, 5); check("pb_i32_lt", r == false); }
    { bool r = pb_i32_lt(2147483647, -2147483648); check("pb_i32_lt", r == false); }
    { bool r = pb_i32_le(3, 5); check("pb_i32_le", r == true); }
    { bool r = pb_i32_le(5, 5); check("pb_i32_le", r == true); }
    { bool r = pb_i32_le(2147483647, -2147483648); check("pb_i32_le", r == false); }
    { bool r = pb_i32_gt(3, 5); check("pb_i32_gt", r == false); }
    { bool r = pb_i32_gt(5, 5); check("pb_i32_gt", r == false); }
    { bool r = pb_i32_gt(2147483647, -2147483648); check("pb_i32_gt", r == true); }
    { bool r = pb_i32_ge(3, 5); check("pb_i32_ge", r == false); }
    { bool r = pb_i32_ge(5, 5); check("pb_i32_ge", r == true); }
    { bool r = pb_i32_ge(2147483647, -2147483648); check("pb_i32_ge", r == true); }
    { int8_t r = pb_i32_cmp(3, 5); check("pb_i32_cmp", r == -1); }
    { int8_t r = pb_i32_cmp(5, 5); check("pb_i32_cmp", r == 0); }
    { int8_t r = pb_i32_cmp(2147483647, -2147483648); check("pb_i32_cmp", r == 1); }
    { pb_answer_i8 r = pb_i32_partial_cmp(3, 5); check("pb_i32_partial_cmp", r.ok && r.value == -1); }
    { pb_answer_i8 r = pb_i32_partial_cmp(5, 5); check("pb_i32_partial_cmp", r.ok && r.value == 0); }
    { pb_answer_i8 r = pb_i32_partial_cmp(2147483647, -2147483648); check("pb_i32_partial_cmp", r.ok && r.value == 1); }
    { const uint8_t s[] = {50, 49, 52, 55, 52, 56, 51, 54, 52, 55}; pb_answer_i32 r = pb_i32_read_decimal(s, 10, 0u, 10u); check("pb_i32_read_decimal", r.ok && r.value == 2147483647); }
    { const uint8_t s[] = {50, 49, 52, 55, 52, 56, 51, 54, 52, 56}; pb_answer_i32 r = pb_i32_read_decimal(s, 10, 0u, 10u); check("pb_i32_read_decimal", !r.ok && r.value == 0); }
    { const uint8_t s[] = {45, 50, 49, 52, 55, 52, 56, 51, 54, 52, 56}; pb_answer_i32 r = pb_i32_read_decimal(s, 11, 0u, 11u); check("pb_i32_read_decimal", r.ok && r.value == -2147483648); }
    { const uint8_t s[] = {45, 50, 49, 52, 55, 52, 56, 51, 54, 52, 57}; pb_answer_i32 r = pb_i32_read_decimal(s, 11, 0u, 11u); check("pb_i32_read_decimal", !r.ok && r.value == 0); }
    { const uint8_t s[] = {48, 48, 55}; pb_answer_i32 r = pb_i32_read_decimal(s, 3, 0u, 3u); check("pb_i32_read_decimal", r.ok && r.value == 7); }
    { const uint8_t s[] = {45, 48}; pb_answer_i32 r = pb_i32_read_decimal(s, 2, 0u, 2u); check("pb_i32_read_decimal", r.ok && r.value == 0); }
    { const uint8_t s[] = {43, 53}; pb_answer_i32 r = pb_i32_read_decimal(s, 2, 0u, 2u); check("pb_i32_read_decimal", !r.ok && r.value == 0); }
    { const uint8_t s[] = {45}; pb_answer_i32 r = pb_i32_read_decimal(s, 1, 0u, 1u); check("pb_i32_read_decimal", !r.ok && r.value == 0); }
    { const uint8_t s[] = {0}; pb_answer_i32 r = pb_i32_read_decimal(s, 0, 0u, 0u); check("pb_i32_read_decimal", !r.ok && r.value == 0); }
    { const uint8_t s[] = {110, 61, 52, 50, 59}; pb_answer_i32 r = pb_i32_read_decimal(s, 5, 2u, 4u); check("pb_i32_read_decimal", r.ok && r.value == 42); }
    { const uint8_t s[] = {110, 61, 52, 50, 59}; pb_answer_i32 r = pb_i32_read_decimal(s, 5, 1u, 4u); check("pb_i32_read_decimal", !r.ok && r.value == 0); }
    { const uint8_t s[] = {110, 61, 52, 50, 59}; pb_answer_i32 r = pb_i32_read_decimal(s, 5, 2u, 6u); check("pb_i32_read_decimal", !r.ok && r.value == 0); }
    { const uint8_t s[] = {110, 61, 52, 50, 59}; pb_answer_i32 r = pb_i32_read_decimal(s, 5, 4u, 2u); check("pb_i32_read_decimal", !r.ok && r.value == 0); }
    { uint8_t s[] = {46, 46, 46, 46, 46, 46, 46, 46, 46, 46, 46, 46}; pb_answer_usize r = pb_i32_write_decimal(2147483647, s, 12, 1u); const uint8_t s_after[] = {46, 50, 49, 52, 55, 52, 56, 51, 54, 52, 55, 46}; check("pb_i32_write_decimal", r.ok && r.value == 10u && memcmp(s, s_after, 12) == 0); }
    { uint8_t s[] = {46, 46, 46, 46, 46, 46, 46, 46, 46, 46, 46, 46, 46}; pb_answer_usize r = pb_i32_write_decimal(-2147483648, s, 13, 1u); const uint8_t s_after[] = {46, 45, 50, 49, 52, 55, 52, 56, 51, 54, 52, 56, 46}; check("pb_i32_write_decimal", r.ok && r.value == 11u && memcmp(s, s_after, 13) == 0); }
    { uint8_t s[] = {46, 46}; pb_answer_usize r = pb_i32_write_decimal(10, s, 2, 0u); const uint8_t s_after[] = {49, 48}; check("pb_i32_write_decimal", r.ok && r.value == 2u && memcmp(s, s_after, 2) == 0); }
    { uint8_t s[] = {46, 46, 46}; pb_answer_usize r = pb_i32_write_decimal(0, s, 3, 2u); const uint8_t s_after[] = {46, 46, 48}; check("pb_i32_write_decimal", r.ok && r.value == 1u && memcmp(s, s_after, 3) == 0); }
    { uint8_t s[] = {46, 46, 46, 46, 46, 46, 46, 46, 46, 46}; pb_answer_usize r = pb_i32_write_decimal(2147483647, s, 10, 1u); const uint8_t s_after[] = {46, 46, 46, 46, 46, 46, 46, 46, 46, 46}; check("pb_i32_write_decimal", !r.ok && r.value == 0u && memcmp(s, s_after, 10) == 0); }
    { uint8_t s[] = {46}; pb_answer_usize r = pb_i32_write_decimal(10, s, 1, 0u); const uint8_t s_after[] = {46}; check("pb_i32_write_decimal", !r.ok && r.value == 0u && memcmp(s, s_after, 1) == 0); }
    { uint8_t s[] = {46}; pb_answer_usize r = pb_i32_write_decimal(7, s, 1, 2u); const uint8_t s_after[] = {46}; check("pb_i32_write_decimal", !r.ok && r.value == 0u && memcmp(s, s_after, 1) == 0); }
}

static void of_i64(void)
{
    { int64_t r = pb_i64_wrapping_add(9223372036854775780, 100); check("pb_i64_wrapping_add", r == -9223372036854775736); }
    { int64_t r = pb_i64_wrapping_add(-100, 100); check("pb_i64_wrapping_add", r == 0); }
    { int64_t r = pb_i64_wrapping_add_unsigned(-9223372036854775780, 18446744073709551560u); check("pb_i64_wrapping_add_unsigned", r == 9223372036854775780); }
    { int64_t r = pb_i64_wrapping_add_unsigned(100, 18446744073709551560u); check("pb_i64_wrapping_add_unsigned", r == 44); }
    { int64_t r = pb_i64_wrapping_sub((-9223372036854775807 - 1), 1); check("pb_i64_wrapping_sub", r == 9223372036854775807); }
    { int64_t r = pb_i64_wrapping_sub(-9223372036854775807, 1); check("pb_i64_wrapping_sub", r == (-9223372036854775807 - 1)); }
    { int64_t r = pb_i64_wrapping_mul((-9223372036854775807 - 1), -1); check("pb_i64_wrapping_mul", r == (-9223372036854775807 - 1)); }
    { int64_t r = pb_i64_wrapping_mul(-9223372036854775807, -1); check("pb_i64_wrapping_mul", r == 9223372036854775807); }
    { int64_t r = pb_i64_wrapping_shl(1, 65u); check("pb_i64_wrapping_shl", r == 2); }
    { int64_t r = pb_i64_wrapping_shl(3, 63u); check("pb_i64_wrapping_shl", r == (-9223372036854775807 - 1)); }
    { int64_t r = pb_i64_wrapping_shr((-9223372036854775807 - 1), 127u); check("pb_i64_wrapping_shr", r == -1); }
    { int64_t r = pb_i64_wrapping_shr(-7, 65u); check("pb_i64_wrapping_shr", r == -4); }
    { pb_answer_i64 r = pb_i64_checked_add(9223372036854775780, 100); check("pb_i64_checked_add", !r.ok && r.value == 0); }
    { pb_answer_i64 r = pb_i64_checked_add(-100, 100); check("pb_i64_checked_add", r.ok && r.value == 0); }
    { pb_answer_i64 r = pb_i64_checked_add_unsigned(-9223372036854775780, 18446744073709551560u); check("pb_i64_checked_add_unsigned", r.ok && r.value == 9223372036854775780); }
    { pb_answer_i64 r = pb_i64_checked_add_unsigned(100, 18446744073709551560u); check("pb_i64_checked_add_unsigned", !r.ok && r.value == 0); }
    { pb_answer_i64 r = pb_i64_checked_sub((-9223372036854775807 - 1), 1); check("pb_i64_checked_sub", !r.ok && r.value == 0); }
    { pb_answer_i64 r = pb_i64_checked_sub(-9223372036854775807, 1); check("pb_i64_checked_sub", r.ok && r.value == (-9223372036854775807 - 1)); }
    { pb_answer_i64 r = pb_i64_checked_sub_unsigned(100, 200u); check("pb_i64_checked_sub_unsigned", r.ok && r.value == -100); }
    { pb_answer_i64 r = pb_i64_checked_sub_unsigned(-9223372036854775780, 200u); check("pb_i64_checked_sub_unsigned", !r.ok && r.value == 0); }
    { pb_answer_i64 r = pb_i64_checked_mul((-9223372036854775807 - 1), -1); check("pb_i64_checked_mul", !r.ok && r.value == 0); }
    { pb_answer_i64 r = pb_i64_checked_mul(-9223372036854775807, -1); check("pb_i64_checked_mul", r.ok && r.value == 9223372036854775807); }
    { pb_answer_i64 r = pb_i64_checked_div(7, 3); check("pb_i64_checked_div", r.ok && r.value == 2); }
    { pb_answer_i64 r = pb_i64_checked_div(-7, 3); check("pb_i64_checked_div", r.ok && r.value == -2); }
    { pb_answer_i64 r = pb_i64_checked_div(7, -3); check("pb_i64_checked_div", r.ok && r.value == -2); }
    { pb_answer_i64 r = pb_i64_checked_div(-7, -3); check("pb_i64_checked_div", r.ok && r.value == 2); }
    { pb_answer_i64 r = pb_i64_checked_div((-9223372036854775807 - 1), -1); check("pb_i64_checked_div", !r.ok && r.value == 0); }
    { pb_answer_i64 r = pb_i64_checked_div(7, 0); check("pb_i64_checked_div", !r.ok && r.value == 0); }
    { pb_answer_i64 r = pb_i64_checked_div_euclid(7, 3); check("pb_i64_checked_div_euclid", r.ok && r.value == 2); }
    { pb_answer_i64 r = pb_i64_checked_div_euclid(-7, 3); check("pb_i64_checked_div_euclid", r.ok && r.value == -3); }
    { pb_answer_i64 r = pb_i64_checked_div_euclid(7, -3); check("pb_i64_checked_div_euclid", r.ok && r.value == -2); }
    { pb_answer_i64 r = pb_i64_checked_div_euclid(-7, -3); check("pb_i64_checked_div_euclid", r.ok && r.value == 3); }
    { pb_answer_i64 r = pb_i64_checked_div_euclid((-9223372036854775807 - 1), -1); check("pb_i64_checked_div_euclid", !r.ok && r.value == 0); }
    { pb_answer_i64 r = pb_i64_checked_div_euclid(7, 0); check("pb_i64_checked_div_euclid", !r.ok && r.value == 0); }
    { pb_answer_i64 r = pb_i64_checked_rem(7, 3); check("pb_i64_checked_rem", r.ok && r.value == 1); }
    { pb_answer_i64 r = pb_i64_checked_rem(-7, 3); check("pb_i64_checked_rem", r.ok && r.value == -1); }
    { pb_answer_i64 r = pb_i64_checked_rem(7, -3); check("pb_i64_checked_rem", r.ok && r.value == 1); }
    { pb_answer_i64 r = pb_i64_checked_rem(-7, -3); check("pb_i64_checked_rem", r.ok && r.value == -1); }
    { pb_answer_i64 r = pb_i64_checked_rem((-9223372036854775807 - 1), -1); check("pb_i64_checked_rem", !r.ok && r.value == 0); }
    { pb_answer_i64 r = pb_i64_checked_rem(7, 0); check("pb_i64_checked_rem", !r.ok && r.value == 0); }
    { pb_answer_i64 r = pb_i64_checked_rem_euclid(7, 3); check("pb_i64_checked_rem_euclid", r.ok && r.value == 1); }
    { pb_answer_i64 r = pb_i64_checked_rem_euclid(-7, 3); check("pb_i64_checked_rem_euclid", r.ok && r.value == 2); }
    { pb_answer_i64 r = pb_i64_checked_rem_euclid(7, -3); check("pb_i64_checked_rem_euclid", r.ok && r.value == 1); }
    { pb_answer_i64 r = pb_i64_checked_rem_euclid(-7, -3); check("pb_i64_checked_rem_euclid", r.ok && r.value == 2); }
    { pb_answer_i64 r = pb_i64_checked_rem_euclid((-9223372036854775807 - 1), -1); check("pb_i64_checked_rem_euclid", !r.ok && r.value == 0); }
    { pb_answer_i64 r = pb_i64_checked_rem_euclid(7, 0); check("pb_i64_checked_rem_euclid", !r.ok && r.value == 0); }
    { int64_t r = pb_i64_clone(9223372036854775807); check("pb_i64_clone", r == 9223372036854775807); }
    { int64_t r = pb_i64_clone((-9223372036854775807 - 1)); check("pb_i64_clone", r == (-9223372036854775807 - 1)); }
    { bool r = pb_i64_eq(3, 5); check("pb_i64_eq", r == false); }
    { bool r = pb_i64_eq(5, 5); check("pb_i64_eq", r == true); }
    { bool r = pb_i64_eq(9223372036854775807, (-9223372036854775807 - 1)); check("pb_i64_eq", r == false); }
    { bool r = pb_i64_ne(3, 5); check("pb_i64_ne", r == true); }
    { bool r = pb_i64_ne(5, 5); check("pb_i64_ne", r == false); }
    { bool r = pb_i64_ne(9223372036854775807, (-9223372036854775807 - 1)); check("pb_i64_ne", r == true); }
    { bool r = pb_i64_lt(3, 5); check("pb_i64_lt", r == true); }
    { bool r = pb_i64_lt(5, 5); check("pb_i64_lt", r == false); }
    { bool r = pb_i64_lt(9223372036854775807, (-9223372036854775807 - 1)); check("pb_i64_lt", r == false); }
    { bool r = pb_i64_le(3, 5); check("pb_i64_le", r == true); }
    { bool r = pb_i64_le(5, 5); check("pb_i64_le", r == true); }
    { bool r = pb_i64_le(9223372036854775807, (-9223372036854775807 - 1)); check("pb_i64_le", r == false); }
    { bool r = pb_i64_gt(3, 5); check("pb_i64_gt", r == false); }
    { bool r = pb_i64_gt(5, 5); check("pb_i64_gt", r == false); }
    { bool r = pb_i64_gt(9223372036854775807, (-9223372036854775807 - 1)); check("pb_i64_gt", r == true); }
    { bool r = pb_i64_ge(3, 5); check("pb_i64_ge", r == false); }
    { bool r = pb_i64_ge(5, 5); check("pb_i64_ge", r == true); }
    { bool r = pb_i64_ge(9223372036854775807, (-9223372036854775807 - 1)); check("pb_i64_ge", r == true); }
    { int8_t r = pb_i64_cmp(3, 5); check("pb_i64_cmp", r == -1); }
    { int8_t r = pb_i64_cmp(5, 5); check("pb_i64_cmp", r == 0); }
    { int8_t r = pb_i64_cmp(9223372036854775807, (-9223372036854775807 - 1)); check("pb_i64_cmp", r == 1); }
    { pb_answer_i8 r = pb_i64_partial_cmp(3, 5); check("pb_i64_partial_cmp", r.ok && r.value == -1); }
    { pb_answer_i8 r = pb_i64_partial_cmp(5, 5); check("pb_i64_partial_cmp", r.ok && r.value == 0); }
    { pb_answer_i8 r = pb_i64_partial_cmp(9223372036854775807, (-9223372036854775807 - 1)); check("pb_i64_partial_cmp", r.ok && r.value == 1); }
    { const uint8_t s[] = {57, 50, 50, 51, 51, 55, 50, 48, 51, 54, 56, 53, 52, 55, 55, 53, 56, 48, 55}; pb_answer_i64 r = pb_i64_read_decimal(s, 19, 0u, 19u); check("pb_i64_read_decimal", r.ok && r.value == 9223372036854775807); }
    { const uint8_t s[] = {57, 50, 50, 51, 51, 55, 50, 48, 51, 54, 56, 53, 52, 55, 55, 53, 56, 48, 56}; pb_answer_i64 r = pb_i64_read_decimal(s, 19, 0u, 19u); check("pb_i64_read_decimal", !r.ok && r.value == 0); }
    { const uint8_t s[] = {45, 57, 50, 50, 51, 51, 55, 50, 48, 51, 54, 56, 53, 52, 55, 55, 53, 56, 48, 56}; pb_answer_i64 r = pb_i64_read_decimal(s, 20, 0u, 20u); check("pb_i64_read_decimal", r.ok && r.value == (-9223372036854775807 - 1)); }
    { const uint8_t s[] = {45, 57, 50, 50, 51, 51, 55, 50, 48, 51, 54, 56, 53, 52, 55, 55, 53, 56, 48, 57}; pb_answer_i64 r = pb_i64_read_decimal(s, 20, 0u, 20u); check("pb_i64_read_decimal", !r.ok && r.value == 0); }
    { const uint8_t s[] = {48, 48, 55}; pb_answer_i64 r = pb_i64_read_decimal(s, 3, 0u, 3u); check("pb_i64_read_decimal", r.ok && r.value == 7); }
    { const uint8_t s[] = {45, 48}; pb_answer_i64 r = pb_i64_read_decimal(s, 2, 0u, 2u); check("pb_i64_read_decimal", r.ok && r.value == 0); }
    { const uint8_t s[] = {43, 53}; pb_answer_i64 r = pb_i64_read_decimal(s, 2, 0u, 2u); check("pb_i64_read_decimal", !r.ok && r.value == 0); }
    { const uint8_t s[] = {45}; pb_answer_i64 r = pb_i64_read_decimal(s, 1, 0u, 1u); check("pb_i64_read_decimal", !r.ok && r.value == 0); }
    { const uint8_t s[] = {0}; pb_answer_i64 r = pb_i64_read_decimal(s, 0, 0u, 0u); check("pb_i64_read_decimal", !r.ok && r.value == 0); }
    { const uint8_t s[] = {110, 61, 52, 50, 59}; pb_answer_i64 r = pb_i64_read_decimal(s, 5, 2u, 4u); check("pb_i64_read_decimal", r.ok && r.value == 42); }
    { const uint8_t s[] = {110, 61, 52, 50, 59}; pb_answer_i64 r = pb_i64_read_decimal(s, 5, 1u, 4u); check("pb_i64_read_decimal", !r.ok && r.value == 0); }
    { const uint8_t s[] = {110, 61, 52, 50, 59}; pb_answer_i64 r = pb_i64_read_decimal(s, 5, 2u, 6u); check("pb_i64_read_decimal", !r.ok && r.value == 0); }
    { const uint8_t s[] = {110, 61, 52, 50, 59}; pb_answer_i64 r = pb_i64_read_decimal(s, 5, 4u, 2u); check("pb_i64_read_decimal", !r.ok && r.value == 0); }
    { uint8_t s[] = {46, 46, 46, 46, 46, 46, 46, 46, 46, 46, 46, 46, 46, 46, 46, 46, 46, 46, 46, 46, 46}; pb_answer_usize r = pb_i64_write_decimal(9223372036854775807, s, 21, 1u); const uint8_t s_after[] = {46, 57, 50, 50, 51, 51, 55, 50, 48, 51, 54, 56, 53, 52, 55, 55, 53, 56, 48, 55, 46}; check("pb_i64_write_decimal", r.ok && r.value == 19u && memcmp(s, s_after, 21) == 0); }
    { uint8_t s[] = {46, 46, 46, 46, 46, 46, 46, 46, 46, 46, 46, 46, 46, 46, 46, 46, 46, 46, 46, 46, 46, 46}; pb_answer_usize r = pb_i64_write_decimal((-9223372036854775807 - 1), s, 22, 1u); const uint8_t s_after[] = {46, 45, 57, 50, 50, 51, 51, 55, 50, 48, 51, 54, 56, 53, 52, 55, 55, 53, 56, 48, 56, 46}; check("pb_i64_write_decimal", r.ok && r.value == 20u && memcmp(s, s_after, 22) == 0); }
    { uint8_t s[] = {46, 46}; pb_answer_usize r = pb_i64_write_decimal(10, s, 2, 0u); const uint8_t s_after[] = {49, 48}; check("pb_i64_write_decimal", r.ok && r.value == 2u && memcmp(s, s_after, 2) == 0); }
    { uint8_t s[] = {46, 46, 46}; pb_answer_usize r = pb_i64_write_decimal(0, s, 3, 2u); const uint8_t s_after[] = {46, 46, 48}; check("pb_i64_write_decimal", r.ok && r.value == 1u && memcmp(s, s_after, 3) == 0); }
    { uint8_t s[] = {46, 46, 46, 46, 46, 46, 46, 46, 46, 46, 46, 46, 46, 46, 46, 46, 46, 46, 46}; pb_answer_usize r = pb_i64_write_decimal(9223372036854775807, s, 19, 1u); const uint8_t s_after[] = {46, 46, 46, 46, 46, 46, 46, 46, 46, 46, 46, 46, 46, 46, 46, 46, 46, 46, 46}; check("pb_i64_write_decimal", !r.ok && r.value == 0u && memcmp(s, s_after, 19) == 0); }
    { uint8_t s[] = {46}; pb_answer_usize r = pb_i64_write_decimal(10, s, 1, 0u); const uint8_t s_after[] = {46}; check("pb_i64_write_decimal", !r.ok && r.value == 0u && memcmp(s, s_after, 1) == 0); }
    { uint8_t s[] = {46}; pb_answer_usize r = pb_i64_write_decimal(7, s, 1, 2u); const uint8_t s_after[] = {46}; check("pb_i64_write_decimal", !r.ok && r.value == 0u && memcmp(s, s_after, 1) == 0); }
}

static void of_isize(void)
{
    { ptrdiff_t r = pb_isize_wrapping_add(9223372036854775780, 100); check("pb_isize_wrapping_add", r == -9223372036854775736); }
    { ptrdiff_t r = pb_isize_wrapping_add(-100, 100); check("pb_isize_wrapping_add", r == 0); }
    { ptrdiff_t r = pb_isize_wrapping_add_unsigned(-9223372036854775780, 18446744073709551560u); check("pb_isize_wrapping_add_unsigned", r == 9223372036854775780); }
    { ptrdiff_t r = pb_isize_wrapping_add_unsigned(100, 18446744073709551560u); check("pb_isize_wrapping_add_unsigned", r == 44); }
    { ptrdiff_t r = pb_isize_wrapping_sub((-9223372036854775807 - 1), 1); check("pb_isize_wrapping_sub", r == 9223372036854775807); }
    { ptrdiff_t r = pb_isize_wrapping_sub(-9223372036854775807, 1); check("pb_isize_wrapping_sub", r == (-9223372036854775807 - 1)); }
    { ptrdiff_t r = pb_isize_wrapping_mul((-9223372036854775807 - 1), -1); check("pb_isize_wrapping_mul", r == (-9223372036854775807 - 1)); }
    { ptrdiff_t r = pb_isize_wrapping_mul(-9223372036854775807, -1); check("pb_isize_wrapping_mul", r == 9223372036854775807); }
    { ptrdiff_t r = pb_isize_wrapping_shl(1, 65u); check("pb_isize_wrapping_shl", r == 2); }
    { ptrdiff_t r = pb_isize_wrapping_shl(3, 63u); check("pb_isize_wrapping_shl", r == (-9223372036854775807 - 1)); }
    { ptrdiff_t r = pb_isize_wrapping_shr((-9223372036854775807 - 1), 127u); check("pb_isize_wrapping_shr", r == -1); }
    { ptrdiff_t r = pb_isize_wrapping_shr(-7, 65u); check("pb_isize_wrapping_shr", r == -4); }
    { pb_answer_isize r = pb_isize_checked_add(9223372036854775780, 100); check("pb_isize_checked_add", !r.ok && r.value == 0); }
    { pb_answer_isize r = pb_isize_checked_add(-100, 100); check("pb_isize_checked_add", r.ok && r.value == 0); }
    { pb_answer_isize r = pb_isize_checked_add_unsigned(-9223372036854775780, 18446744073709551560u); check("pb_isize_checked_add_unsigned", r.ok && r.value == 9223372036854775780); }
    { pb_answer_isize r = pb_isize_checked_add_unsigned(100, 18446744073709551560u); check("pb_isize_checked_add_unsigned", !r.ok && r.value == 0); }
    { pb_answer_isize r = pb_isize_checked_sub((-9223372036854775807 - 1), 1); check("pb_isize_checked_sub", !r.ok && r.value == 0); }
    { pb_answer_isize r = pb_isize_checked_sub(-9223372036854775807, 1); check("pb_isize_checked_sub", r.ok && r.value == (-9223372036854775807 - 1)); }
    { pb_answer_isize r = pb_isize_checked_sub_unsigned(100, 200u); check("pb_isize_checked_sub_unsigned", r.ok && r.value == -100); }
    { pb_answer_isize r = pb_isize_checked_sub_unsigned(-9223372036854775780, 200u); check("pb_isize_checked_sub_unsigned", !r.ok && r.value == 0); }
    { pb_answer_isize r = pb_isize_checked_mul((-9223372036854775807 - 1), -1); check("pb_isize_checked_mul", !r.ok && r.value == 0); }
    { pb_answer_isize r = pb_isize_checked_mul(-9223372036854775807, -1); check("pb_isize_checked_mul", r.ok && r.value == 9223372036854775807); }
    { pb_answer_isize r = pb_isize_checked_div(7, 3); check("pb_isize_checked_div", r.ok && r.value == 2); }
    { pb_answer_isize r = pb_isize_checked_div(-7, 3); check("pb_isize_checked_div", r.ok && r.value == -2); }
    { pb_answer_isize r = pb_isize_checked_div(7, -3); check("pb_isize_checked_div", r.ok && r.value == -2); }
    { pb_answer_isize r = pb_isize_checked_div(-7, -3); check("pb_isize_checked_div", r.ok && r.value == 2); }
    { pb_answer_isize r = pb_isize_checked_div((-9223372036854775807 - 1), -1); check("pb_isize_checked_div", !r.ok && r.value == 0); }
    { pb_answer_isize r = pb_isize_checked_div(7, 0); check("pb_isize_checked_div", !r.ok && r.value == 0); }
    { pb_answer_isize r = pb_isize_checked_div_euclid(7, 3); check("pb_isize_checked_div_euclid", r.ok && r.value == 2); }
    { pb_answer_isize r = pb_isize_checked_div_euclid(-7, 3); check("pb_isize_checked_div_euclid", r.ok && r.value == -3); }
    { pb_answer_isize r = pb_isize_checked_div_euclid(7, -3); check("pb_isize_checked_div_euclid", r.ok && r.value == -2); }
    { pb_answer_isize r = pb_isize_checked_div_euclid(-7, -3); check("pb_isize_checked_div_euclid", r.ok && r.value == 3); }
    { pb_answer_isize r = pb_isize_checked_div_euclid((-9223372036854775807 - 1), -1); check("pb_isize_checked_div_euclid", !r.ok && r.value == 0); }
    { pb_answer_isize r = pb_isize_checked_div_euclid(7, 0); check("pb_isize_checked_div_euclid", !r.ok && r.value == 0); }
    { pb_answer_isize r = pb_isize_checked_rem(7, 3); check("pb_isize_checked_rem", r.ok && r.value == 1); }
    { pb_answer_isize r = pb_isize_checked_rem(-7, 3); check("pb_isize_checked_rem", r.ok && r.value == -1); }
    { pb_answer_isize r = pb_isize_checked_rem(7, -3); check("pb_isize_checked_rem", r.ok && r.value == 1); }
    { pb_answer_isize r = pb_isize_checked_rem(-7, -3); check("pb_isize_checked_rem", r.ok && r.value == -1); }
    { pb_answer_isize r = pb_isize_checked_rem((-9223372036854775807 - 1), -1); check("pb_isize_checked_rem", !r.ok && r.value == 0); }
    { pb_answer_isize r = pb_isize_checked_rem(7, 0); check("pb_isize_checked_rem", !r.ok && r.value == 0); }
    { pb_answer_isize r = pb_isize_checked_rem_euclid(7, 3); check("pb_isize_checked_rem_euclid", r.ok && r.value == 1); }
    { pb_answer_isize r = pb_isize_checked_rem_euclid(-7, 3); check("pb_isize_checked_rem_euclid", r.ok && r.value == 2); }
    { pb_answer_isize r = pb_isize_checked_rem_euclid(7, -3); check("pb_isize_checked_rem_euclid", r.ok && r.value == 1); }
    { pb_answer_isize r = pb_isize_checked_rem_euclid(-7, -3); check("pb_isize_checked_rem_euclid", r.ok && r.value == 2); }
    { pb_answer_isize r = pb_isize_checked_rem_euclid((-9223372036854775807 - 1), -1); check("pb_isize_checked_rem_euclid", !r.ok && r.value == 0); }
    { pb_answer_isize r = pb_isize_checked_rem_euclid(7, 0); check("pb_isize_checked_rem_euclid", !r.ok && r.value == 0); }
    { ptrdiff_t r = pb_isize_clone(9223372036854775807); check("pb_isize_clone", r == 9223372036854775807); }
    { ptrdiff_t r = pb_isize_clone((-9223372036854775807 - 1)); check("pb_isize_clone", r == (-9223372036854775807 - 1)); }
    { bool r = pb_isize_eq(3, 5); check("pb_isize_eq", r == false); }
    { bool r = pb_isize_eq(5, 5); check("pb_isize_eq", r == true); }
    { bool r = pb_isize_eq(9223372036854775807, (-9223372036854775807 - 1)); check("pb_isize_eq", r == false); }
    { bool r = pb_isize_ne(3, 5); check("pb_isize_ne", r == true); }
    { bool r = pb_isize_ne(5, 5); check("pb_isize_ne", r == false); }
    { bool r = pb_isize_ne(9223372036854775807, (-9223372036854775807 - 1)); check("pb_isize_ne", r == true); }
    { bool r = pb_isize_lt(3, 5); check("pb_isize_lt", r == true); }
    { bool r = pb_isize_lt(5, 5); check("pb_isize_lt", r == false); }
    { bool r = pb_isize_lt(9223372036854775807, (-9223372036854775807 - 1)); check("pb_isize_lt", r == false); }
    { bool r = pb_isize_le(3, 5); check("pb_isize_le", r == true); }
    { bool r = pb_isize_le(5, 5); check("pb_isize_le", r == true); }
    { bool r = pb_isize_le(9223372036854775807, (-9223372036854775807 - 1)); check("pb_isize_le", r == false); }
    { bool r = pb_isize_gt(3, 5); check("pb_isize_gt", r == false); }
    { bool r = pb_isize_gt(5, 5); check("pb_isize_gt", r == false); }
    { bool r = pb_isize_gt(9223372036854775807, (-9223372036854775807 - 1)); check("pb_isize_gt", r == true); }
    { bool r = pb_isize_ge(3, 5); check("pb_isize_ge", r == false); }
    { bool r = pb_isize_ge(5, 5); check("pb_isize_ge", r == true); }
    { bool r = pb_isize_ge(9223372036854775807, (-9223372036854775807 - 1)); check("pb_isize_ge", r == true); }
    { int8_t r = pb_isize_cmp(3, 5); check("pb_isize_cmp", r == -1); }
    { int8_t r = pb_isize_cmp(5, 5); check("pb_isize_cmp", r == 0); }
    { int8_t r = pb_isize_cmp(9223372036854775807, (-9223372036854775807 - 1)); check("pb_isize_cmp", r == 1); }
    { pb_answer_i8 r = pb_isize_partial_cmp(3, 5); check("pb_isize_partial_cmp", r.ok && r.value == -1); }
    { pb_answer_i8 r = pb_isize_partial_cmp(5, 5); check("pb_isize_partial_cmp", r.ok && r.value == 0); }
    { pb_answer_i8 r = pb_isize_partial_cmp(9223372036854775807, (-9223372036854775807 - 1)); check("pb_isize_partial_cmp", r.ok && r.value == 1); }
    { const uint8_t s[] = {57, 50, 50, 51, 51, 55, 50, 48, 51, 54, 56, 53, 52, 55, 55, 53, 56, 48, 55}; pb_answer_isize r = pb_isize_read_decimal(s, 19, 0u, 19u); check("pb_isize_read_decimal", r.ok && r.value == 9223372036854775807); }
    { const uint8_t s[] = {57, 50, 50, 51, 51, 55, 50, 48, 51, 54, 56, 53, 52, 55, 55, 53, 56, 48, 56}; pb_answer_isize r = pb_isize_read_decimal(s, 19, 0u, 19u); check("pb_isize_read_decimal", !r.ok && r.value == 0); }
    { const uint8_t s[] = {45, 57, 50, 50, 51, 51, 55, 50, 48, 51, 54, 56, 53, 52, 55, 55, 53, 56, 48, 56}; pb_answer_isize r = pb_isize_read_decimal(s, 20, 0u, 20u); check("pb_isize_read_decimal", r.ok && r.value == (-9223372036854775807 - 1)); }
    { const uint8_t s[] = {45, 57, 50, 50, 51, 51, 55, 50, 48, 51, 54, 56, 53, 52, 55, 55, 53, 56, 48, 57}; pb_answer_isize r = pb_isize_read_decimal(s, 20, 0u, 20u); check("pb_isize_read_decimal", !r.ok && r.value == 0); }
    { const uint8_t s[] = {48, 48, 55}; pb_answer_isize r = pb_isize_read_decimal(s, 3, 0u, 3u); check("pb_isize_read_decimal", r.ok && r.value == 7); }
    { const uint8_t s[] = {45, 48}; pb_answer_isize r = pb_isize_read_decimal(s, 2, 0u, 2u); check("pb_isize_read_decimal", r.ok && r.value == 0); }
    { const uint8_t s[] = {43, 53}; pb_answer_isize r = pb_isize_read_decimal(s, 2, 0u, 2u); check("pb_isize_read_decimal", !r.ok && r.value == 0); }
    { const uint8_t s[] = {45}; pb_answer_isize r = pb_isize_read_decimal(s, 1, 0u, 1u); check("pb_isize_read_decimal", !r.ok && r.value == 0); }
    { const uint8_t s[] = {0}; pb_answer_isize r = pb_isize_read_decimal(s, 0, 0u, 0u); check("pb_isize_read_decimal", !r.ok && r.value == 0); }
    { const uint8_t s[] = {110, 61, 52, 50, 59}; pb_answer_isize r = pb_isize_read_decimal(s, 5, 2u, 4u); check("pb_isize_read_decimal", r.ok && r.value == 42); }
    { const uint8_t s[] = {110, 61, 52, 50, 59}; pb_answer_isize r = pb_isize_read_decimal(s, 5, 1u, 4u); check("pb_isize_read_decimal", !r.ok && r.value == 0); }
    { const uint8_t s[] = {110, 61, 52, 50, 59}; pb_answer_isize r = pb_isize_read_decimal(s, 5, 2u, 6u); check("pb_isize_read_decimal", !r.ok && r.value == 0); }
    { const uint8_t s[] = {110, 61, 52, 50, 59}; pb_answer_isize r = pb_isize_read_decimal(s, 5, 4u, 2u); check("pb_isize_read_decimal", !r.ok && r.value == 0); }
    { uint8_t s[] = {46, 46, 46, 46, 46, 46, 46, 46, 46, 46, 46, 46, 46, 46, 46, 46, 46, 46, 46, 46, 46}; pb_answer_usize r = pb_isize_write_decimal(9223372036854775807, s, 21, 1u); const uint8_t s_after[] = {46, 57, 50, 50, 51, 51, 55, 50, 48, 51, 54, 56, 53, 52, 55, 55, 53, 56, 48, 55, 46}; check("pb_isize_write_decimal", r.ok && r.value == 19u && memcmp(s, s_after, 21) == 0); }
    { uint8_t s[] = {46, 46, 46, 46, 46, 46, 46, 46, 46, 46, 46, 46, 46, 46, 46, 46, 46, 46, 46, 46, 46, 46}; pb_answer_usize r = pb_isize_write_decimal((-9223372036854775807 - 1), s, 22, 1u); const uint8_t s_after[] = {46, 45, 57, 50, 50, 51, 51, 55, 50, 48, 51, 54, 56, 53, 52, 55, 55, 53, 56, 48, 56, 46}; check("pb_isize_write_decimal", r.ok && r.value == 20u && memcmp(s, s_after, 22) == 0); }
    { uint8_t s[] = {46, 46}; pb_answer_usize r = pb_isize_write_decimal(10, s, 2, 0u); const uint8_t s_after[] = {49, 48}; check("pb_isize_write_decimal", r.ok && r.value == 2u && memcmp(s, s_after, 2) == 0); }
    { uint8_t s[] = {46, 46, 46}; pb_answer_usize r = pb_isize_write_decimal(0, s, 3, 2u); const uint8_t s_after[] = {46, 46, 48}; check("pb_isize_write_decimal", r.ok && r.value == 1u && memcmp(s, s_after, 3) == 0); }
    { uint8_t s[] = {46, 46, 46, 46, 46, 46, 46, 46, 46, 46, 46, 46, 46, 46, 46, 46, 46, 46, 46}; pb_answer_usize r = pb_isize_write_decimal(9223372036854775807, s, 19, 1u); const uint8_t s_after[] = {46, 46, 46, 46, 46, 46, 46, 46, 46, 46, 46, 46, 46, 46, 46, 46, 46, 46, 46}; check("pb_isize_write_decimal", !r.ok && r.value == 0u && memcmp(s, s_after, 19) == 0); }
    { uint8_t s[] = {46}; pb_answer_usize r = pb_isize_write_decimal(10, s, 1, 0u); const uint8_t s_after[] = {46}; check("pb_isize_write_decimal", !r.ok && r.value == 0u && memcmp(s, s_after, 1) == 0); }
    { uint8_t s[] = {46}; pb_answer_usize r = pb_isize_write_decimal(7, s, 1, 2u); const uint8_t s_after[] = {46}; check("pb_isize_write_decimal", !r.ok && r.value == 0u && memcmp(s, s_after, 1) == 0); }
}

static void of_bytes(void)
{
    { const uint8_t s[] = {10, 20, 30, 40, 50, 60}; pb_answer_usize r = pb_bytes_len(s, 6, 1u, 5u); check("pb_bytes_len", r.ok && r.value == 4u); }
    { const uint8_t s[] = {10, 20, 30, 40, 50, 60}; pb_answer_usize r = pb_bytes_len(s, 6, 5u, 1u); check("pb_bytes_len", !r.ok && r.value == 0u); }
    { const uint8_t s[] = {10, 20, 30, 40, 50, 60}; pb_answer_usize r = pb_bytes_len(s, 6, 1u, 7u); check("pb_bytes_len", !r.ok && r.value == 0u); }
    { const uint8_t s[] = {10, 20, 30, 40, 50, 60}; pb_answer_bool r = pb_bytes_is_empty(s, 6, 2u, 2u); check("pb_bytes_is_empty", r.ok && r.value == true); }
    { const uint8_t s[] = {10, 20, 30, 40, 50, 60}; pb_answer_bool r = pb_bytes_is_empty(s, 6, 2u, 3u); check("pb_bytes_is_empty", r.ok && r.value == false); }
    { const uint8_t s[] = {10, 20, 30, 40, 50, 60}; pb_answer_bool r = pb_bytes_is_empty(s, 6, 7u, 7u); check("pb_bytes_is_empty", !r.ok && r.value == false); }
    { const uint8_t s[] = {10, 20, 30, 40, 50, 60}; pb_answer_u8 r = pb_bytes_get(s, 6, 2u, 5u, 1u); check("pb_bytes_get", r.ok && r.value == 40u); }
    { const uint8_t s[] = {10, 20, 30, 40, 50, 60}; pb_answer_u8 r = pb_bytes_get(s, 6, 2u, 5u, 3u); check("pb_bytes_get", !r.ok && r.value == 0u); }
    { const uint8_t s[] = {10, 20, 30, 40, 50, 60}; pb_answer_u8 r = pb_bytes_first(s, 6, 2u, 5u); check("pb_bytes_first", r.ok && r.value == 30u); }
    { const uint8_t s[] = {10, 20, 30, 40, 50, 60}; pb_answer_u8 r = pb_bytes_first(s, 6, 2u, 2u); check("pb_bytes_first", !r.ok && r.value == 0u); }
    { const uint8_t s[] = {10, 20, 30, 40, 50, 60}; pb_answer_u8 r = pb_bytes_last(s, 6, 2u, 5u); check("pb_bytes_last", r.ok && r.value == 50u); }
    { const uint8_t s[] = {10, 20, 30, 40, 50, 60}; pb_answer_u8 r = pb_bytes_last(s, 6, 2u, 2u); check("pb_bytes_last", !r.ok && r.value == 0u); }
    { const uint8_t s[] = {10, 20, 30, 40, 50, 60}; pb_bytes_range r = pb_bytes_sub_range(s, 6, 1u, 6u, 2u, 4u); check("pb_bytes_sub_range", r.ok && r.from == 3u && r.to == 5u); }
    { const uint8_t s[] = {10, 20, 30, 40, 50, 60}; pb_bytes_range r = pb_bytes_sub_range(s, 6, 1u, 6u, 2u, 6u); check("pb_bytes_sub_range", !r.ok && r.from == 0u && r.to == 0u); }
    { const uint8_t s[] = {10, 20, 30, 40, 50, 60}; pb_bytes_split r = pb_bytes_split_at(s, 6, 1u, 6u, 2u); check("pb_bytes_split_at", r.ok && r.from == 1u && r.middle == 3u && r.to == 6u); }
    { const uint8_t s[] = {10, 20, 30, 40, 50, 60}; pb_bytes_split r = pb_bytes_split_at(s, 6, 1u, 6u, 6u); check("pb_bytes_split_at", !r.ok && r.from == 0u && r.middle == 0u && r.to == 0u); }
    { const uint8_t s[] = {10, 20, 30, 40, 50, 60}; pb_bytes_first_and_rest r = pb_bytes_split_first(s, 6, 2u, 5u); check("pb_bytes_split_first", r.ok && r.first == 30u && r.from == 3u && r.to == 5u); }
    { const uint8_t s[] = {10, 20, 30, 40, 50, 60}; pb_bytes_first_and_rest r = pb_bytes_split_first(s, 6, 2u, 2u); check("pb_bytes_split_first", !r.ok && r.first == 0u && r.from == 0u && r.to == 0u); }
    { const uint8_t s[] = {10, 20, 30, 40, 50, 60}; pb_bytes_range r = pb_bytes_next_piece(s, 6, 0u, 6u, 4u); check("pb_bytes_next_piece", r.ok && r.from == 0u && r.to == 4u); }
    { const uint8_t s[] = {10, 20, 30, 40, 50, 60}; pb_bytes_range r = pb_bytes_next_piece(s, 6, 4u, 6u, 4u); check("pb_bytes_next_piece", r.ok && r.from == 4u && r.to == 6u); }
    { const uint8_t s[] = {10, 20, 30, 40, 50, 60}; pb_bytes_range r = pb_bytes_next_piece(s, 6, 6u, 6u, 4u); check("pb_bytes_next_piece", !r.ok && r.from == 0u && r.to == 0u); }
    { const uint8_t s[] = {10, 20, 30, 40, 50, 60}; pb_bytes_range r = pb_bytes_next_piece(s, 6, 0u, 6u, 0u); check("pb_bytes_next_piece", !r.ok && r.from == 0u && r.to == 0u); }
    { const uint8_t s[] = {10, 20, 30, 40, 50, 60}; const uint8_t needle[] = {20, 30}; pb_answer_bool r = pb_bytes_starts_with(s, 6, 1u, 4u, needle, 2); check("pb_bytes_starts_with", r.ok && r.value == true); }
    { const uint8_t s[] = {10, 20, 30, 40, 50, 60}; const uint8_t needle[] = {30}; pb_answer_bool r = pb_bytes_starts_with(s, 6, 1u, 4u, needle, 1); check("pb_bytes_starts_with", r.ok && r.value == false); }
    { const uint8_t s[] = {10, 20, 30, 40, 50, 60}; const uint8_t needle[] = {0}; pb_answer_bool r = pb_bytes_starts_with(s, 6, 1u, 7u, needle, 0); check("pb_bytes_starts_with", !r.ok && r.value == false); }
    { const uint8_t s[] = {10, 20, 30, 40, 50, 60}; const uint8_t needle[] = {30, 40}; pb_answer_bool r = pb_bytes_ends_with(s, 6, 1u, 4u, needle, 2); check("pb_bytes_ends_with", r.ok && r.value == true); }
    { const uint8_t s[] = {10, 20, 30, 40, 50, 60}; const uint8_t needle[] = {50}; pb_answer_bool r = pb_bytes_ends_with(s, 6, 1u, 4u, needle, 1); check("pb_bytes_ends_with", r.ok && r.value == false); }
    { const uint8_t s[] = {10, 20, 30, 40, 50, 60}; const uint8_t needle[] = {0}; pb_answer_bool r = pb_bytes_ends_with(s, 6, 1u, 7u, needle, 0); check("pb_bytes_ends_with", !r.ok && r.value == false); }
    { const uint8_t s[] = {10, 20, 30, 40, 50, 60}; pb_answer_bool r = pb_bytes_contains(s, 6, 1u, 4u, 40u); check("pb_bytes_contains", r.ok && r.value == true); }
    { const uint8_t s[] = {10, 20, 30, 40, 50, 60}; pb_answer_bool r = pb_bytes_contains(s, 6, 1u, 4u, 50u); check("pb_bytes_contains", r.ok && r.value == false); }
    { const uint8_t s[] = {10, 20, 30, 40, 50, 60}; pb_answer_bool r = pb_bytes_contains(s, 6, 4u, 1u, 40u); check("pb_bytes_contains", !r.ok && r.value == false); }
    { const uint8_t s[] = {10, 20, 30, 40, 50, 60}; const uint8_t other[] = {20, 30}; pb_answer_bool r = pb_bytes_equal(s, 6, 1u, 3u, other, 2); check("pb_bytes_equal", r.ok && r.value == true); }
    { const uint8_t s[] = {10, 20, 30, 40, 50, 60}; const uint8_t other[] = {20, 30, 40}; pb_answer_bool r = pb_bytes_equal(s, 6, 1u, 3u, other, 3); check("pb_bytes_equal", r.ok && r.value == false); }
    { const uint8_t s[] = {10, 20, 30, 40, 50, 60}; const uint8_t other[] = {0}; pb_answer_bool r = pb_bytes_equal(s, 6, 1u, 7u, other, 0); check("pb_bytes_equal", !r.ok && r.value == false); }
    { uint8_t s[] = {10, 20, 30, 40, 50, 60}; bool r = pb_bytes_set(s, 6, 2u, 5u, 1u, 7u); const uint8_t s_after[] = {10, 20, 30, 7, 50, 60}; check("pb_bytes_set", r == true && memcmp(s, s_after, 6) == 0); }
    { uint8_t s[] = {10, 20, 30, 40, 50, 60}; bool r = pb_bytes_set(s, 6, 2u, 5u, 3u, 7u); const uint8_t s_after[] = {10, 20, 30, 40, 50, 60}; check("pb_bytes_set", r == false && memcmp(s, s_after, 6) == 0); }
    { uint8_t s[] = {10, 20, 30, 40, 50, 60}; bool r = pb_bytes_reverse(s, 6, 1u, 5u); const uint8_t s_after[] = {10, 50, 40, 30, 20, 60}; check("pb_bytes_reverse", r == true && memcmp(s, s_after, 6) == 0); }
    { uint8_t s[] = {10, 20, 30, 40, 50, 60}; bool r = pb_bytes_reverse(s, 6, 1u, 7u); const uint8_t s_after[] = {10, 20, 30, 40, 50, 60}; check("pb_bytes_reverse", r == false && memcmp(s, s_after, 6) == 0); }
    { uint8_t s[] = {10, 20, 30, 40, 50, 60}; const uint8_t other[] = {7, 8, 9}; bool r = pb_bytes_copy_from(s, 6, 1u, 4u, other, 3); const uint8_t s_after[] = {10, 7, 8, 9, 50, 60}; check("pb_bytes_copy_from", r == true && memcmp(s, s_after, 6) == 0); }
    { uint8_t s[] = {10, 20, 30, 40, 50, 60}; const uint8_t other[] = {7, 8}; bool r = pb_bytes_copy_from(s, 6, 1u, 4u, other, 2); const uint8_t s_after[] = {10, 20, 30, 40, 50, 60}; check("pb_bytes_copy_from", r == false && memcmp(s, s_after, 6) == 0); }
    { uint8_t s[] = {10, 20, 30, 40, 50, 60}; bool r = pb_bytes_copy_within(s, 6, 0u, 4u, 2u); const uint8_t s_after[] = {10, 20, 10, 20, 30, 40}; check("pb_bytes_copy_within", r == true && memcmp(s, s_after, 6) == 0); }
    { uint8_t s[] = {10, 20, 30, 40, 50, 60}; bool r = pb_bytes_copy_within(s, 6, 0u, 4u, 3u); const uint8_t s_after[] = {10, 20, 30, 40, 50, 60}; check("pb_bytes_copy_within", r == false && memcmp(s, s_after, 6) == 0); }
}

static void of_text(void)
{
    { pb_answer_usize r = pb_text_scalar_len(2047u); check("pb_text_scalar_len", r.ok && r.value == 2u); }
    { pb_answer_usize r = pb_text_scalar_len(2048u); check("pb_text_scalar_len", r.ok && r.value == 3u); }
    { pb_answer_usize r = pb_text_scalar_len(1114111u); check("pb_text_scalar_len", r.ok && r.value == 4u); }
    { pb_answer_usize r = pb_text_scalar_len(55296u); check("pb_text_scalar_len", !r.ok && r.value == 0u); }
    { bool r = pb_text_is_white_space(12288u); check("pb_text_is_white_space", r == true); }
    { bool r = pb_text_is_white_space(133u); check("pb_text_is_white_space", r == true); }
    { bool r = pb_text_is_white_space(8203u); check("pb_text_is_white_space", r == false); }
    { uint8_t out[] = {0, 0, 0, 0}; pb_answer_usize r = pb_text_write(out, 4, 1u, 8364u); const uint8_t out_after[] = {0, 226, 130, 172}; check("pb_text_write", r.ok && r.value == 3u && memcmp(out, out_after, 4) == 0); }
    { uint8_t out[] = {0, 0, 0, 0}; pb_answer_usize r = pb_text_write(out, 4, 2u, 8364u); const uint8_t out_after[] = {0, 0, 0, 0}; check("pb_text_write", !r.ok && r.value == 0u && memcmp(out, out_after, 4) == 0); }
    { uint8_t out[] = {0, 0, 0, 0}; pb_answer_usize r = pb_text_write(out, 4, 0u, 57343u); const uint8_t out_after[] = {0, 0, 0, 0}; check("pb_text_write", !r.ok && r.value == 0u && memcmp(out, out_after, 4) == 0); }
    { const uint8_t s[] = {65, 195, 169, 226, 130, 172, 240, 144, 141, 136}; pb_text_read r = pb_text_read_first(s, 10, 3u, 10u); check("pb_text_read_first", r.ok && r.value == 8364u && r.length == 3u); }
    { const uint8_t s[] = {65, 195, 169, 226, 130, 172, 240, 144, 141, 136}; pb_text_read r = pb_text_read_first(s, 10, 2u, 10u); check("pb_text_read_first", !r.ok && r.value == 0u && r.length == 0u); }
    { const uint8_t s[] = {65, 195, 169, 226, 130, 172, 240, 144, 141, 136}; pb_text_read r = pb_text_read_first(s, 10, 3u, 5u); check("pb_text_read_first", !r.ok && r.value == 0u && r.length == 0u); }
    { const uint8_t s[] = {65, 195, 169, 226, 130, 172, 240, 144, 141, 136}; pb_text_read r = pb_text_read_last(s, 10, 0u, 10u); check("pb_text_read_last", r.ok && r.value == 66376u && r.length == 4u); }
    { const uint8_t s[] = {65, 195, 169, 226, 130, 172, 240, 144, 141, 136}; pb_text_read r = pb_text_read_last(s, 10, 0u, 3u); check("pb_text_read_last", r.ok && r.value == 233u && r.length == 2u); }
    { const uint8_t s[] = {65, 195, 169, 226, 130, 172, 240, 144, 141, 136}; pb_text_read r = pb_text_read_last(s, 10, 0u, 5u); check("pb_text_read_last", !r.ok && r.value == 0u && r.length == 0u); }
    { const uint8_t s[] = {65, 195, 169, 226, 130, 172, 240, 144, 141, 136}; bool r = pb_text_valid(s, 10); check("pb_text_valid", r == true); }
    { const uint8_t s[] = {244, 143, 191, 191}; bool r = pb_text_valid(s, 4); check("pb_text_valid", r == true); }
    { const uint8_t s[] = {192, 128}; bool r = pb_text_valid(s, 2); check("pb_text_valid", r == false); }
    { const uint8_t s[] = {237, 160, 128}; bool r = pb_text_valid(s, 3); check("pb_text_valid", r == false); }
    { const uint8_t s[] = {240, 159, 152}; bool r = pb_text_valid(s, 3); check("pb_text_valid", r == false); }
    { const uint8_t s[] = {65, 195, 169, 226, 130, 172, 240, 144, 141, 136}; pb_answer_usize r = pb_text_count(s, 10); check("pb_text_count", r.ok && r.value == 4u); }
    { const uint8_t s[] = {226, 130}; pb_answer_usize r = pb_text_count(s, 2); check("pb_text_count", !r.ok && r.value == 0u); }
    { const uint8_t s[] = {65, 195, 169, 226, 130, 172, 240, 144, 141, 136}; pb_answer_bool r = pb_text_is_boundary(s, 10, 3u); check("pb_text_is_boundary", r.ok && r.value == true); }
    { const uint8_t s[] = {65, 195, 169, 226, 130, 172, 240, 144, 141, 136}; pb_answer_bool r = pb_text_is_boundary(s, 10, 8u); check("pb_text_is_boundary", r.ok && r.value == false); }
    { const uint8_t s[] = {65, 195, 169, 226, 130, 172, 240, 144, 141, 136}; pb_answer_bool r = pb_text_is_boundary(s, 10, 11u); check("pb_text_is_boundary", r.ok && r.value == false); }
    { const uint8_t s[] = {255}; pb_answer_bool r = pb_text_is_boundary(s, 1, 0u); check("pb_text_is_boundary", !r.ok && r.value == false); }
    { const uint8_t s[] = {65, 195, 169, 226, 130, 172, 240, 144, 141, 136}; pb_text_split r = pb_text_split_at(s, 10, 3u); check("pb_text_split_at", r.ok && r.middle == 3u && r.end == 10u); }
    { const uint8_t s[] = {65, 195, 169, 226, 130, 172, 240, 144, 141, 136}; pb_text_split r = pb_text_split_at(s, 10, 4u); check("pb_text_split_at", !r.ok && r.middle == 0u && r.end == 0u); }
    { const uint8_t s[] = {112, 108, 97, 105, 110}; bool r = pb_text_is_ascii(s, 5); check("pb_text_is_ascii", r == true); }
    { const uint8_t s[] = {65, 195, 169, 226, 130, 172, 240, 144, 141, 136}; bool r = pb_text_is_ascii(s, 10); check("pb_text_is_ascii", r == false); }
    { const uint8_t s[] = {0}; bool r = pb_text_is_ascii(s, 0); check("pb_text_is_ascii", r == true); }
    { const uint8_t s[] = {65, 195, 169, 226, 130, 172, 240, 144, 141, 136}; size_t r = pb_text_valid_up_to(s, 10); check("pb_text_valid_up_to", r == 10u); }
    { const uint8_t s[] = {65, 195, 169, 226, 130, 172, 240, 144, 141}; size_t r = pb_text_valid_up_to(s, 9); check("pb_text_valid_up_to", r == 6u); }
    { const uint8_t s[] = {97, 98, 255}; size_t r = pb_text_valid_up_to(s, 3); check("pb_text_valid_up_to", r == 2u); }
    { const uint8_t s[] = {128}; size_t r = pb_text_valid_up_to(s, 1); check("pb_text_valid_up_to", r == 0u); }
    { const uint8_t s[] = {0}; size_t r = pb_text_valid_up_to(s, 0); check("pb_text_valid_up_to", r == 0u); }
}

static void of_no_bytes(void)
{
    { pb_answer_u8 r = pb_u8_read_decimal(NULL, 0, 0u, 0u); check("pb_u8_read_decimal", !r.ok && r.value == 0u); }
    { pb_answer_u8 r = pb_u8_read_decimal(NULL, 0, 1u, 1u); check("pb_u8_read_decimal", !r.ok && r.value == 0u); }
    { pb_answer_usize r = pb_u8_write_decimal(0u, NULL, 0, 0u); check("pb_u8_write_decimal", !r.ok && r.value == 0u); }
    { pb_answer_usize r = pb_u8_write_decimal(1u, NULL, 0, 1u); check("pb_u8_write_decimal", !r.ok && r.value == 0u); }
    { pb_answer_u16 r = pb_u16_from_le_bytes(NULL, 0); check("pb_u16_from_le_bytes", !r.ok && r.value == 0u); }
    { pb_answer_u16 r = pb_u16_from_le_bytes(NULL, 0); check("pb_u16_from_le_bytes", !r.ok && r.value == 0u); }
    { bool r = pb_u16_to_le_bytes(0u, NULL, 0, 0u); check("pb_u16_to_le_bytes", r == false); }
    { bool r = pb_u16_to_le_bytes(1u, NULL, 0, 1u); check("pb_u16_to_le_bytes", r == false); }
    { pb_answer_u16 r = pb_u16_from_be_bytes(NULL, 0); check("pb_u16_from_be_bytes", !r.ok && r.value == 0u); }
    { pb_answer_u16 r = pb_u16_from_be_bytes(NULL, 0); check("pb_u16_from_be_bytes", !r.ok && r.value == 0u); }
    { bool r = pb_u16_to_be_bytes(0u, NULL, 0, 0u); check("pb_u16_to_be_bytes", r == false); }
    { bool r = pb_u16_to_be_bytes(1u, NULL, 0, 1u); check("pb_u16_to_be_bytes", r == false); }
    { pb_answer_u16 r = pb_u16_read_decimal(NULL, 0, 0u, 0u); check("pb_u16_read_decimal", !r.ok && r.value == 0u); }
    { pb_answer_u16 r = pb_u16_read_decimal(NULL, 0, 1u, 1u); check("pb_u16_read_decimal", !r.ok && r.value == 0u); }
    { pb_answer_usize r = pb_u16_write_decimal(0u, NULL, 0, 0u); check("pb_u16_write_decimal", !r.ok && r.value == 0u); }
    { pb_answer_usize r = pb_u16_write_decimal(1u, NULL, 0, 1u); check("pb_u16_write_decimal", !r.ok && r.value == 0u); }
    { pb_answer_u32 r = pb_u32_from_le_bytes(NULL, 0); check("pb_u32_from_le_bytes", !r.ok && r.value == 0u); }
    { pb_answer_u32 r = pb_u32_from_le_bytes(NULL, 0); check("pb_u32_from_le_bytes", !r.ok && r.value == 0u); }
    { bool r = pb_u32_to_le_bytes(0u, NULL, 0, 0u); check("pb_u32_to_le_bytes", r == false); }
    { bool r = pb_u32_to_le_bytes(1u, NULL, 0, 1u); check("pb_u32_to_le_bytes", r == false); }
    { pb_answer_u32 r = pb_u32_from_be_bytes(NULL, 0); check("pb_u32_from_be_bytes", !r.ok && r.value == 0u); }
    { pb_answer_u32 r = pb_u32_from_be_bytes(NULL, 0); check("pb_u32_from_be_bytes", !r.ok && r.value == 0u); }
    { bool r = pb_u32_to_be_bytes(0u, NULL, 0, 0u); check("pb_u32_to_be_bytes", r == false); }
    { bool r = pb_u32_to_be_bytes(1u, NULL, 0, 1u); check("pb_u32_to_be_bytes", r == false); }
    { pb_answer_u32 r = pb_u32_read_decimal(NULL, 0, 0u, 0u); check("pb_u32_read_decimal", !r.ok && r.value == 0u); }
    { pb_answer_u32 r = pb_u32_read_decimal(NULL, 0, 1u, 1u); check("pb_u32_read_decimal", !r.ok && r.value == 0u); }
    { pb_answer_usize r = pb_u32_write_decimal(0u, NULL, 0, 0u); check("pb_u32_write_decimal", !r.ok && r.value == 0u); }
    { pb_answer_usize r = pb_u32_write_decimal(1u, NULL, 0, 1u); check("pb_u32_write_decimal", !r.ok && r.value == 0u); }
    { pb_answer_u64 r = pb_u64_from_le_bytes(NULL, 0); check("pb_u64_from_le_bytes", !r.ok && r.value == 0u); }
    { pb_answer_u64 r = pb_u64_from_le_bytes(NULL, 0); check("pb_u64_from_le_bytes", !r.ok && r.value == 0u); }
    { bool r = pb_u64_to_le_bytes(0u, NULL, 0, 0u); check("pb_u64_to_le_bytes", r == false); }
    { bool r = pb_u64_to_le_bytes(1u, NULL, 0, 1u); check("pb_u64_to_le_bytes", r == false); }
    { pb_answer_u64 r = pb_u64_from_be_bytes(NULL, 0); check("pb_u64_from_be_bytes", !r.ok && r.value == 0u); }
    { pb_answer_u64 r = pb_u64_from_be_bytes(NULL, 0); check("pb_u64_from_be_bytes", !r.ok && r.value == 0u); }
    { bool r = pb_u64_to_be_bytes(0u, NULL, 0, 0u); check("pb_u64_to_be_bytes", r == false); }
    { bool r = pb_u64_to_be_bytes(1u, NULL, 0, 1u); check("pb_u64_to_be_bytes", r == false); }
    { pb_answer_u64 r = pb_u64_read_decimal(NULL, 0, 0u, 0u); check("pb_u64_read_decimal", !r.ok && r.value == 0u); }
    { pb_answer_u64 r = pb_u64_read_decimal(NULL, 0, 1u, 1u); check("pb_u64_read_decimal", !r.ok && r.value == 0u); }
    { pb_answer_usize r = pb_u64_write_decimal(0u, NULL, 0, 0u); check("pb_u64_write_decimal", !r.ok && r.value == 0u); }
    { pb_answer_usize r = pb_u64_write_decimal(1u, NULL, 0, 1u); check("pb_u64_write_decimal", !r.ok && r.value == 0u); }
    { pb_answer_usize r = pb_usize_read_decimal(NULL, 0, 0u, 0u); check("pb_usize_read_decimal", !r.ok && r.value == 0u); }
    { pb_answer_usize r = pb_usize_read_decimal(NULL, 0, 1u, 1u); check("pb_usize_read_decimal", !r.ok && r.value == 0u); }
    { pb_answer_usize r = pb_usize_write_decimal(0u, NULL, 0, 0u); check("pb_usize_write_decimal", !r.ok && r.value == 0u); }
    { pb_answer_usize r = pb_usize_write_decimal(1u, NULL, 0, 1u); check("pb_usize_write_decimal", !r.ok && r.value == 0u); }
    { pb_answer_i8 r = pb_i8_read_decimal(NULL, 0, 0u, 0u); check("pb_i8_read_decimal", !r.ok && r.value == 0); }
    { pb_answer_i8 r = pb_i8_read_decimal(NULL, 0, 1u, 1u); check("pb_i8_read_decimal", !r.ok && r.value == 0); }
    { pb_answer_usize r = pb_i8_write_decimal(0, NULL, 0, 0u); check("pb_i8_write_decimal", !r.ok && r.value == 0u); }
    { pb_answer_usize r = pb_i8_write_decimal(1, NULL, 0, 1u); check("pb_i8_write_decimal", !r.ok && r.value == 0u); }
    { pb_answer_i16 r = pb_i16_read_decimal(NULL, 0, 0u, 0u); check("pb_i16_read_decimal", !r.ok && r.value == 0); }
    { pb_answer_i16 r = pb_i16_read_decimal(NULL, 0, 1u, 1u); check("pb_i16_read_decimal", !r.ok && r.value == 0); }
    { pb_answer_usize r = pb_i16_write_decimal(0, NULL, 0, 0u); check("pb_i16_write_decimal", !r.ok && r.value == 0u); }
    { pb_answer_usize r = pb_i16_write_decimal(1, NULL, 0, 1u); check("pb_i16_write_decimal", !r.ok && r.value == 0u); }
    { pb_answer_i32 r = pb_i32_read_decimal(NULL, 0, 0u, 0u); check("pb_i32_read_decimal", !r.ok && r.value == 0); }
    { pb_answer_i32 r = pb_i32_read_decimal(NULL, 0, 1u, 1u); check("pb_i32_read_decimal", !r.ok && r.value == 0); }
    { pb_answer_usize r = pb_i32_write_decimal(0, NULL, 0, 0u); check("pb_i32_write_decimal", !r.ok && r.value == 0u); }
    { pb_answer_usize r = pb_i32_write_decimal(1, NULL, 0, 1u); check("pb_i32_write_decimal", !r.ok && r.value == 0u); }
    { pb_answer_i64 r = pb_i64_read_decimal(NULL, 0, 0u, 0u); check("pb_i64_read_decimal", !r.ok && r.value == 0); }
    { pb_answer_i64 r = pb_i64_read_decimal(NULL, 0, 1u, 1u); check("pb_i64_read_decimal", !r.ok && r.value == 0); }
    { pb_answer_usize r = pb_i64_write_decimal(0, NULL, 0, 0u); check("pb_i64_write_decimal", !r.ok && r.value == 0u); }
    { pb_answer_usize r = pb_i64_write_decimal(1, NULL, 0, 1u); check("pb_i64_write_decimal", !r.ok && r.value == 0u); }
    { pb_answer_isize r = pb_isize_read_decimal(NULL, 0, 0u, 0u); check("pb_isize_read_decimal", !r.ok && r.value == 0); }
    { pb_answer_isize r = pb_isize_read_decimal(NULL, 0, 1u, 1u); check("pb_isize_read_decimal", !r.ok && r.value == 0); }
    { pb_answer_usize r = pb_isize_write_decimal(0, NULL, 0, 0u); check("pb_isize_write_decimal", !r.ok && r.value == 0u); }
    { pb_answer_usize r = pb_isize_write_decimal(1, NULL, 0, 1u); check("pb_isize_write_decimal", !r.ok && r.value == 0u); }
    { pb_answer_usize r = pb_bytes_len(NULL, 0, 0u, 0u); check("pb_bytes_len", r.ok && r.value == 0u); }
    { pb_answer_usize r = pb_bytes_len(NULL, 0, 1u, 1u); check("pb_bytes_len", !r.ok && r.value == 0u); }
    { pb_answer_bool r = pb_bytes_is_empty(NULL, 0, 0u, 0u); check("pb_bytes_is_empty", r.ok && r.value == true); }
    { pb_answer_bool r = pb_bytes_is_empty(NULL, 0, 1u, 1u); check("pb_bytes_is_empty", !r.ok && r.value == false); }
    { pb_answer_u8 r = pb_bytes_get(NULL, 0, 0u, 0u, 0u); check("pb_bytes_get", !r.ok && r.value == 0u); }
    { pb_answer_u8 r = pb_bytes_get(NULL, 0, 1u, 1u, 1u); check("pb_bytes_get", !r.ok && r.value == 0u); }
    { pb_answer_u8 r = pb_bytes_first(NULL, 0, 0u, 0u); check("pb_bytes_first", !r.ok && r.value == 0u); }
    { pb_answer_u8 r = pb_bytes_first(NULL, 0, 1u, 1u); check("pb_bytes_first", !r.ok && r.value == 0u); }
    { pb_answer_u8 r = pb_bytes_last(NULL, 0, 0u, 0u); check("pb_bytes_last", !r.ok && r.value == 0u); }
    { pb_answer_u8 r = pb_bytes_last(NULL, 0, 1u, 1u); check("pb_bytes_last", !r.ok && r.value == 0u); }
    { pb_bytes_range r = pb_bytes_sub_range(NULL, 0, 0u, 0u, 0u, 0u); check("pb_bytes_sub_range", r.ok && r.from == 0u && r.to == 0u); }
    { pb_bytes_range r = pb_bytes_sub_range(NULL, 0, 1u, 1u, 1u, 1u); check("pb_bytes_sub_range", !r.ok && r.from == 0u && r.to == 0u); }
    { pb_bytes_split r = pb_bytes_split_at(NULL, 0, 0u, 0u, 0u); check("pb_bytes_split_at", r.ok && r.from == 0u && r.middle == 0u && r.to == 0u); }
    { pb_bytes_split r = pb_bytes_split_at(NULL, 0, 1u, 1u, 1u); check("pb_bytes_split_at", !r.ok && r.from == 0u && r.middle == 0u && r.to == 0u); }
    { pb_bytes_first_and_rest r = pb_bytes_split_first(NULL, 0, 0u, 0u); check("pb_bytes_split_first", !r.ok && r.first == 0u && r.from == 0u && r.to == 0u); }
    { pb_bytes_first_and_rest r = pb_bytes_split_first(NULL, 0, 1u, 1u); check("pb_bytes_split_first", !r.ok && r.first == 0u && r.from == 0u && r.to == 0u); }
    { pb_bytes_range r = pb_bytes_next_piece(NULL, 0, 0u, 0u, 0u); check("pb_bytes_next_piece", !r.ok && r.from == 0u && r.to == 0u); }
    { pb_bytes_range r = pb_bytes_next_piece(NULL, 0, 1u, 1u, 1u); check("pb_bytes_next_piece", !r.ok && r.from == 0u && r.to == 0u); }
    { pb_answer_bool r = pb_bytes_starts_with(NULL, 0, 0u, 0u, NULL, 0); check("pb_bytes_starts_with", r.ok && r.value == true); }
    { pb_answer_bool r = pb_bytes_starts_with(NULL, 0, 1u, 1u, NULL, 0); check("pb_bytes_starts_with", !r.ok && r.value == false); }
    { pb_answer_bool r = pb_bytes_ends_with(NULL, 0, 0u, 0u, NULL, 0); check("pb_bytes_ends_with", r.ok && r.value == true); }
    { pb_answer_bool r = pb_bytes_ends_with(NULL, 0, 1u, 1u, NULL, 0); check("pb_bytes_ends_with", !r.ok && r.value == false); }
    { pb_answer_bool r = pb_bytes_contains(NULL, 0, 0u, 0u, 0u); check("pb_bytes_contains", r.ok && r.value == false); }
    { pb_answer_bool r = pb_bytes_contains(NULL, 0, 1u, 1u, 1u); check("pb_bytes_contains", !r.ok && r.value == false); }
    { pb_answer_bool r = pb_bytes_equal(NULL, 0, 0u, 0u, NULL, 0); check("pb_bytes_equal", r.ok && r.value == true); }
    { pb_answer_bool r = pb_bytes_equal(NULL, 0, 1u, 1u, NULL, 0); check("pb_bytes_equal", !r.ok && r.value == false); }
    { bool r = pb_bytes_set(NULL, 0, 0u, 0u, 0u, 0u); check("pb_bytes_set", r == false); }
    { bool r = pb_bytes_set(NULL, 0, 1u, 1u, 1u, 1u); check("pb_bytes_set", r == false); }
    { bool r = pb_bytes_reverse(NULL, 0, 0u, 0u); check("pb_bytes_reverse", r == true); }
    { bool r = pb_bytes_reverse(NULL, 0, 1u, 1u); check("pb_bytes_reverse", r == false); }
    { bool r = pb_bytes_copy_from(NULL, 0, 0u, 0u, NULL, 0); check("pb_bytes_copy_from", r == true); }
    { bool r = pb_bytes_copy_from(NULL, 0, 1u, 1u, NULL, 0); check("pb_bytes_copy_from", r == false); }
    { bool r = pb_bytes_copy_within(NULL, 0, 0u, 0u, 0u); check("pb_bytes_copy_within", r == true); }
    { bool r = pb_bytes_copy_within(NULL, 0, 1u, 1u, 1u); check("pb_bytes_copy_within", r == false); }
    { pb_answer_usize r = pb_text_write(NULL, 0, 0u, 0u); check("pb_text_write", !r.ok && r.value == 0u); }
    { pb_answer_usize r = pb_text_write(NULL, 0, 1u, 1u); check("pb_text_write", !r.ok && r.value == 0u); }
    { pb_text_read r = pb_text_read_first(NULL, 0, 0u, 0u); check("pb_text_read_first", !r.ok && r.value == 0u && r.length == 0u); }
    { pb_text_read r = pb_text_read_first(NULL, 0, 1u, 1u); check("pb_text_read_first", !r.ok && r.value == 0u && r.length == 0u); }
    { pb_text_read r = pb_text_read_last(NULL, 0, 0u, 0u); check("pb_text_read_last", !r.ok && r.value == 0u && r.length == 0u); }
    { pb_text_read r = pb_text_read_last(NULL, 0, 1u, 1u); check("pb_text_read_last", !r.ok && r.value == 0u && r.length == 0u); }
    { bool r = pb_text_valid(NULL, 0); check("pb_text_valid", r == true); }
    { bool r = pb_text_valid(NULL, 0); check("pb_text_valid", r == true); }
    { pb_answer_usize r = pb_text_count(NULL, 0); check("pb_text_count", r.ok && r.value == 0u); }
    { pb_answer_usize r = pb_text_count(NULL, 0); check("pb_text_count", r.ok && r.value == 0u); }
    { pb_answer_bool r = pb_text_is_boundary(NULL, 0, 0u); check("pb_text_is_boundary", r.ok && r.value == true); }
    { pb_answer_bool r = pb_text_is_boundary(NULL, 0, 1u); check("pb_text_is_boundary", r.ok && r.value == false); }
    { pb_text_split r = pb_text_split_at(NULL, 0, 0u); check("pb_text_split_at", r.ok && r.middle == 0u && r.end == 0u); }
    { pb_text_split r = pb_text_split_at(NULL, 0, 1u); check("pb_text_split_at", !r.ok && r.middle == 0u && r.end == 0u); }
    { bool r = pb_text_is_ascii(NULL, 0); check("pb_text_is_ascii", r == true); }
    { bool r = pb_text_is_ascii(NULL, 0); check("pb_text_is_ascii", r == true); }
    { size_t r = pb_text_valid_up_to(NULL, 0); check("pb_text_valid_up_to", r == 0u); }
    { size_t r = pb_text_valid_up_to(NULL, 0); check("pb_text_valid_up_to", r == 0u); }
}

static void of_one_slice_twice(void)
{
    { const uint8_t same[] = {1, 2, 3}; pb_answer_bool r = pb_bytes_starts_with(same, 3, 0u, 3u, same, 3); check("pb_bytes_starts_with", r.ok && r.value == true); }
    { const uint8_t same[] = {1, 2, 3}; pb_answer_bool r = pb_bytes_ends_with(same, 3, 0u, 3u, same, 3); check("pb_bytes_ends_with", r.ok && r.value == true); }
    { const uint8_t same[] = {1, 2, 3}; pb_answer_bool r = pb_bytes_equal(same, 3, 0u, 3u, same, 3); check("pb_bytes_equal", r.ok && r.value == true); }
}

int main(void)
{
    of_u8();
    of_u16();
    of_u32();
    of_u64();
    of_usize();
    of_i8();
    of_i16();
    of_i32();
    of_i64();
    of_isize();
    of_bytes();
    of_text();
    of_no_bytes();
    of_one_slice_twice();
    check("pb_version", strncmp(pb_version(), "promisebook " PB_VERSION "; ", strlen("promisebook " PB_VERSION "; ")) == 0);
    printf("%d answers, %d wrong\n", asked, wrong);
    return wrong != 0;
}
