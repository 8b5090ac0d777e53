/* A record is the length of a text in two bytes, lowest first, and the text. This program writes one, reads it back, and refuses damaged ones.

   cc -std=c11 example.c libpromisebook.a && ./a.out */
#include <inttypes.h>
#include <stdio.h>

#include "promisebook.h"

/* Writes the record of one scalar value; answers how many bytes it has, or 0 where the record does not fit. */
static size_t write_record(uint8_t *out, size_t out_len, uint32_t scalar)
{
    pb_answer_usize length = pb_text_scalar_len(scalar);
    if (!length.ok || !pb_u16_to_le_bytes((uint16_t)length.value, out, out_len, 0)) {
        return 0;
    }
    pb_answer_usize written = pb_text_write(out, out_len, 2, scalar);
    return written.ok ? 2 + written.value : 0;
}

/* How many scalar values the record's text has; refused where the record is cut off or its text is not valid. */
static pb_answer_usize read_record(const uint8_t *record, size_t record_len)
{
    pb_answer_usize refused = {false, 0};
    pb_bytes_split split = pb_bytes_split_at(record, record_len, 0, record_len, 2);
    if (!split.ok) {
        return refused;
    }
    pb_answer_u16 length = pb_u16_from_le_bytes(record, split.middle);
    pb_answer_usize end = pb_usize_checked_add(2, length.value);
    if (!length.ok || !end.ok || !pb_usize_eq(end.value, record_len)) {
        return refused;
    }
    return pb_text_count(record + split.middle, length.value);
}

static int failures = 0;

static void expect(const char *what, uint64_t answer, uint64_t expected)
{
    printf("%s: %" PRIu64 "\n", what, answer);
    if (answer != expected) {
        printf("  expected %" PRIu64 "\n", expected);
        failures++;
    }
}

int main(void)
{
    uint8_t record[8] = {0};
    expect("bytes of the record of U+20AC", write_record(record, sizeof record, 0x20ac), 5);
    expect("scalar values in it", read_record(record, 5).value, 1);
    expect("it is read", read_record(record, 5).ok, true);
    expect("it is read without its last byte", read_record(record, 4).ok, false);
    expect("bytes of the record of a surrogate", write_record(record, sizeof record, 0xd800), 0);

    expect("its size in blocks of 8 bytes", pb_usize_checked_next_multiple_of(5, 8).value, 8);
    expect("leading zeros of that, in 32 bits", pb_u32_leading_zeros(8), 28);

    record[3] = 0xff;
    expect("the damaged record is read", read_record(record, 5).ok, false);
    expect("the record can be moved up by 3", pb_bytes_copy_within(record, sizeof record, 0, 5, 3), true);
    expect("the first byte is now at 3", record[3], 3);
    expect("the damaged byte is now at 6", record[6], 0xff);
    expect("the record can be moved up by 4", pb_bytes_copy_within(record, sizeof record, 0, 5, 4), false);

    expect("-7 by 3 leaves, Euclidean", (uint64_t)pb_i64_checked_rem_euclid(-7, 3).value, 2);
    expect("the least number by -1 is answered", pb_i64_checked_div(INT64_MIN, -1).ok, false);

    uint8_t line[20] = {0};
    size_t figures = pb_u64_write_decimal(UINT64_MAX, line, sizeof line, 0).value;
    expect("figures of the largest number", figures, 20);
    expect("read back, it is", pb_u64_read_decimal(line, sizeof line, 0, figures).value, UINT64_MAX);
    expect("it is read as a signed number", pb_i64_read_decimal(line, sizeof line, 0, figures).ok, false);
    printf("%d answers are wrong\n", failures);
    return failures != 0;
}
