/* Reads the telegram of a point machine, which tells how far its two blades stand off their rails, and refuses what is damaged or cannot be; then tries itself
   on good and damaged telegrams.

   A telegram is the length of its text (2 bytes, highest first), the text, and a checksum of the text (2 bytes, highest first). The text has three fields, each
   with ';' behind it: the name of the point, then how far the left and the right blade stand off, in tenths of a millimetre.

   cc -std=c11 telegram.c libpromisebook.a && ./a.out */
#include <stdio.h>
#include <string.h>

#include "promisebook.h"

/* What is wrong with a telegram. Each fault is told by itself: whoever maintains the machine looks elsewhere for a cut cable than for a bent blade. */
typedef enum {
    NO_FAULT,
    CUT_OFF,            /* it ends before its length says */
    TOO_LONG,           /* it goes on behind its checksum */
    WRONG_CHECKSUM,
    WRONG_FIELDS,       /* one is missing, or there is one too many */
    NAME_NOT_TEXT,      /* the point's name is no UTF-8 */
    DISTANCE_NOT_READ,  /* a distance is no number, or too large */
    WRONG_OPENING       /* no point stands so: the blades stand off too far together, or not far enough */
} fault;

typedef enum { LEFT, RIGHT, BETWEEN } side;

typedef struct {
    const uint8_t *point; /* text in the telegram, which ends without a zero */
    size_t point_len;
    side lies;
    int16_t opening; /* how far both blades stand off together, in tenths of a millimetre */
} report;

/* A blade lies at its rail where it stands off no farther than CLOSED; together both stand off so far, at least and at most. */
enum { CLOSED = 30, LEAST_OPENING = 1400, GREATEST_OPENING = 1600 };

/* CRC-16 of CCITT: the polynomial 0x1021, begun with 0xffff. */
static uint16_t checksum_of(const uint8_t *text, size_t text_len)
{
    uint16_t sum = 0xffff;
    for (size_t place = 0; place < text_len; place++) {
        sum ^= pb_u16_wrapping_shl(text[place], 8);
        for (int bit = 0; bit < 8; bit++) {
            uint16_t shifted = pb_u16_wrapping_shl(sum, 1);
            sum = sum < 0x8000 ? shifted : shifted ^ 0x1021;
        }
    }
    return sum;
}

/* The field that begins at `from`: up to the first ';', which stands at the answer's `to`. Refused where there is none. */
static pb_bytes_range field(const uint8_t *text, size_t text_len, size_t from)
{
    pb_bytes_range none = {false, 0, 0};
    size_t length = 0;
    pb_answer_u8 byte = pb_bytes_get(text, text_len, from, text_len, length);
    while (byte.ok && byte.value != ';') {
        length++;
        byte = pb_bytes_get(text, text_len, from, text_len, length);
    }
    return byte.ok ? pb_bytes_sub_range(text, text_len, from, text_len, 0, length) : none;
}

static fault read_text(const uint8_t *text, size_t text_len, report *out)
{
    pb_bytes_range name = field(text, text_len, 0);
    pb_bytes_range first = field(text, text_len, name.to + 1);
    pb_bytes_range second = field(text, text_len, first.to + 1);
    if (!name.ok || !first.ok || !second.ok || second.to + 1 != text_len) {
        return WRONG_FIELDS;
    }
    if (!pb_text_valid(text, name.to)) {
        return NAME_NOT_TEXT;
    }
    pb_answer_i16 left = pb_i16_read_decimal(text, text_len, first.from, first.to);
    pb_answer_i16 right = pb_i16_read_decimal(text, text_len, second.from, second.to);
    if (!left.ok || !right.ok) {
        return DISTANCE_NOT_READ;
    }
    pb_answer_i16 opening = pb_i16_checked_add(left.value, right.value);
    if (!opening.ok || opening.value < LEAST_OPENING || opening.value > GREATEST_OPENING) {
        return WRONG_OPENING;
    }
    out->point = text;
    out->point_len = name.to;
    out->lies = left.value <= CLOSED && right.value > CLOSED ? LEFT : right.value <= CLOSED && left.value > CLOSED ? RIGHT : BETWEEN;
    out->opening = opening.value;
    return NO_FAULT;
}

static fault read_telegram(const uint8_t *telegram, size_t telegram_len, report *out)
{
    pb_bytes_split head = pb_bytes_split_at(telegram, telegram_len, 0, telegram_len, 2);
    if (!head.ok) {
        return CUT_OFF;
    }
    pb_answer_u16 length = pb_u16_from_be_bytes(telegram, head.middle);
    pb_bytes_split body = pb_bytes_split_at(telegram, telegram_len, head.middle, telegram_len, length.value);
    if (!length.ok || !body.ok) {
        return CUT_OFF;
    }
    pb_answer_usize checksum_len = pb_bytes_len(telegram, telegram_len, body.middle, telegram_len);
    pb_answer_u16 checksum = pb_u16_from_be_bytes(telegram + body.middle, checksum_len.value);
    if (!checksum.ok) {
        return checksum_len.value < 2 ? CUT_OFF : TOO_LONG;
    }
    if (checksum.value != checksum_of(telegram + body.from, length.value)) {
        return WRONG_CHECKSUM;
    }
    return read_text(telegram + body.from, length.value, out);
}

/* ---- the same telegrams as in bindings/rust/examples/telegram.rs */

static int failures = 0;

static void check(const char *what, bool holds)
{
    if (!holds) {
        printf("wrong: %s\n", what);
        failures++;
    }
}

enum { ROOM = 64 };

/* Writes a telegram with this text, and the right length and checksum; answers how many bytes it has, or 0 where there is no room. */
static size_t make(uint8_t *telegram, const char *text)
{
    size_t length = strlen(text);
    bool made = pb_u16_to_be_bytes((uint16_t)length, telegram, ROOM, 0)
        && pb_bytes_copy_from(telegram, ROOM, 2, 2 + length, (const uint8_t *)text, length)
        && pb_u16_to_be_bytes(checksum_of((const uint8_t *)text, length), telegram, ROOM, 2 + length);
    return made ? 4 + length : 0;
}

static void good(const char *text, const char *point, side lies, int16_t opening)
{
    uint8_t telegram[ROOM];
    report found = {NULL, 0, BETWEEN, 0};
    check(text, read_telegram(telegram, make(telegram, text), &found) == NO_FAULT);
    check(text, found.point_len == strlen(point) && found.point != NULL && memcmp(found.point, point, found.point_len) == 0);
    check(text, found.lies == lies && found.opening == opening);
}

static void refused(const char *text, fault why)
{
    uint8_t telegram[ROOM];
    report unused;
    check(text, read_telegram(telegram, make(telegram, text), &unused) == why);
}

static void damaged(const char *text)
{
    uint8_t telegram[ROOM] = {0};
    report unused;
    size_t size = make(telegram, text);
    for (size_t length = 0; length < size; length++) {
        check("cut off", read_telegram(telegram, length, &unused) == CUT_OFF);
    }
    check("too long", read_telegram(telegram, size + 1, &unused) == TOO_LONG);
    for (size_t bit = 16; bit < 8 * size; bit++) {
        telegram[bit / 8] ^= (uint8_t)(1u << bit % 8);
        check("one bit is another", read_telegram(telegram, size, &unused) == WRONG_CHECKSUM);
        telegram[bit / 8] ^= (uint8_t)(1u << bit % 8);
    }
}

int main(void)
{
    good("W12;4;1497;", "W12", LEFT, 1501);
    good("W12;1570;30;", "W12", RIGHT, 1600);
    good("W12;31;1369;", "W12", BETWEEN, 1400);
    good("S\xc3\xbc" "d 7;-3;1500;", "S\xc3\xbc" "d 7", LEFT, 1497);
    good(";0;1500;", "", LEFT, 1500);
    refused("", WRONG_FIELDS);
    refused("W12;4;1497", WRONG_FIELDS);
    refused("W12;4;1497;;", WRONG_FIELDS);
    refused("W\xc3;4;1497;", NAME_NOT_TEXT);
    refused("W12;;1497;", DISTANCE_NOT_READ);
    refused("W12;4;14a7;", DISTANCE_NOT_READ);
    refused("W12;4;+1497;", DISTANCE_NOT_READ);
    refused("W12;4;32768;", DISTANCE_NOT_READ);
    refused("W12;4;1597;", WRONG_OPENING);
    refused("W12;4;1395;", WRONG_OPENING);
    refused("W12;20000;20000;", WRONG_OPENING);
    damaged("W12;4;1497;");
    check("the known checksum", checksum_of((const uint8_t *)"123456789", 9) == 0x29b1);
    printf("%d answers about telegrams are wrong\n", failures);
    return failures != 0;
}
