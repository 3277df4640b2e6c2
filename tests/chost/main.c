/* Calls the library as a C program does, and compares each answer with one worked out here, bit by bit.
 * Prints a line for each group, then 'chost: ok', or the first difference and nothing after it. */
#include <stdio.h>

#include "ruttedwhite.h"

#define LAST (~(uint64_t)0)

static const uint8_t record[12] = { 0x00, 0x00, 0x5E, 0x52, 0x77, 0x48, 0x84, 0x5F, 0x4C, 0x00, 0x61, 0x80 };
static uint8_t large[STRIP_MAX_BYTES + 1]; /* filled by limit() */
static int failed;

/* The refusal, with no sum that could wrap. */
static uint32_t refusal_of(uint64_t place, uint32_t width, size_t len)
{
    uint64_t bits = 8 * (uint64_t)len;

    if (len > STRIP_MAX_BYTES)
        return 1;
    if (width > 64)
        return 3;
    return place > bits || width > bits - place ? 9 : 0;
}

/* The field's value, each bit by its own worth. */
static uint64_t value_of(uint32_t order, uint64_t place, uint32_t width, const uint8_t *src, size_t len)
{
    uint64_t value = 0;
    uint32_t i;

    if (refusal_of(place, width, len) != 0)
        return 0;
    for (i = 0; i < width; i++) {
        uint64_t k = place + i;
        uint64_t bit = order == 0 ? src[k / 8] >> k % 8 & 1 : src[k / 8] >> (7 - k % 8) & 1;
        value |= bit << (order == 0 ? i : width - 1 - i);
    }
    return value;
}

/* Prints a difference, once. */
static void compare(const char *what, uint64_t is, uint64_t must, uint32_t order, uint64_t place, uint32_t width, size_t len)
{
    if (is != must && !failed) {
        failed = 1;
        printf("chost: order %lu, place %lu, width %lu, %lu bytes: the %s is %lu, must be %lu\n", (unsigned long)order,
               (unsigned long)place, (unsigned long)width, (unsigned long)len, what, (unsigned long)is, (unsigned long)must);
    }
}

/* Both calls against the two answers given. */
static void must_be(uint32_t refusal, uint64_t value, uint32_t order, uint64_t place, uint32_t width, const uint8_t *src,
                    size_t len)
{
    compare("refusal", strip_refusal(order, place, width, src, len), refusal, order, place, width, len);
    if (!failed)
        compare("value", strip_value(order, place, width, src, len), value, order, place, width, len);
}

/* Both calls against the answers worked out above, in four orders: any number but 0 is big. */
static void in_all_orders(uint64_t place, uint32_t width, const uint8_t *src, size_t len)
{
    static const uint32_t numbers[4] = { 0, 1, 2, 0xFFFFFFFF };
    int i;

    for (i = 0; i < 4; i++)
        must_be(refusal_of(place, width, len), value_of(numbers[i], place, width, src, len), numbers[i], place, width, src, len);
}

static void group(const char *name)
{
    if (!failed)
        printf("chost: %s\n", name);
}

static void worked_record(void)
{
    must_be(0, 5, STRIP_BIG, STRIP_STAR_PLACE, STRIP_STAR_WIDTH, record, 12);
    must_be(0, 246052364817, STRIP_BIG, STRIP_DATE_PLACE, STRIP_DATE_WIDTH, record, 12);
    must_be(0, 0, STRIP_BIG, STRIP_LIMIT_PLACE, STRIP_LIMIT_WIDTH, record, 12);
    must_be(0, 65536 - 1440, STRIP_BIG, STRIP_MAGNITUDE_PLACE, STRIP_MAGNITUDE_WIDTH, record, 12);
    must_be(0, 12, STRIP_BIG, STRIP_ERROR_PLACE, STRIP_ERROR_WIDTH, record, 12);
    must_be(0, 3, STRIP_BIG, STRIP_FILTER_PLACE, STRIP_FILTER_WIDTH, record, 12);
    must_be(9, 0, STRIP_BIG, STRIP_RECORD, STRIP_STAR_WIDTH, record, 12);
    group("the worked record");
}

static void orders(void)
{
    static const uint8_t three[3] = { 0x00, 0xFF, 0x04 };

    must_be(0, 0x7F, STRIP_LITTLE, 9, 8, three, 3);
    must_be(0, 0xFE, STRIP_BIG, 9, 8, three, 3);
    must_be(0, 0xFE, 2, 9, 8, three, 3);
    group("little, big, and order 2, which is big");
}

static void widths(void)
{
    must_be(0, 0, STRIP_BIG, 0, 0, record, 12);
    must_be(0, 0x5E527748845F, STRIP_BIG, 0, 64, record, 12);
    must_be(0, 0x5F844877525E0000, STRIP_LITTLE, 0, 64, record, 12);
    must_be(3, 0, STRIP_BIG, 0, 65, record, 12);
    must_be(3, 0, STRIP_BIG, LAST, 0xFFFFFFFF, record, 12);
    group("widths 0, 64, 65");
}

static void places(void)
{
    uint64_t place;
    uint32_t width;

    must_be(0, 0, STRIP_BIG, 95, 1, record, 12);
    must_be(0, 0, STRIP_BIG, 96, 0, record, 12);
    must_be(9, 0, STRIP_BIG, 96, 1, record, 12);
    must_be(9, 0, STRIP_BIG, 97, 0, record, 12);
    for (width = 0; width <= 65; width++)
        for (place = LAST; place >= LAST - 64; place--)
            in_all_orders(place, width, record, 12);
    group("places at the end, past it, and up to 2^64 - 1, where place + width does not wrap");
}

static void null(void)
{
    must_be(0, 0, STRIP_BIG, 0, 0, (const uint8_t *)0, 0);
    must_be(9, 0, STRIP_BIG, 0, 1, (const uint8_t *)0, 0);
    must_be(9, 0, STRIP_LITTLE, 1, 0, (const uint8_t *)0, 0);
    must_be(3, 0, STRIP_LITTLE, 0, 65, (const uint8_t *)0, 0);
    group("NULL with length 0");
}

static void limit(void)
{
    uint32_t width;
    size_t i;

    for (i = 0; i < sizeof large; i++)
        large[i] = (uint8_t)(i * 167 + i / 256);
    for (width = 0; width <= 65; width++) {
        in_all_orders(8 * (uint64_t)STRIP_MAX_BYTES - width, width, large, STRIP_MAX_BYTES);
        in_all_orders(8 * (uint64_t)STRIP_MAX_BYTES - width + 1, width, large, STRIP_MAX_BYTES);
        in_all_orders(0, width, large, STRIP_MAX_BYTES);
        must_be(1, 0, STRIP_BIG, 0, width, large, STRIP_MAX_BYTES + 1);
    }
    must_be(0, large[STRIP_MAX_BYTES - 1], STRIP_BIG, 8 * (uint64_t)(STRIP_MAX_BYTES - 1), 8, large, STRIP_MAX_BYTES);
    must_be(1, 0, STRIP_LITTLE, LAST, 65, large, STRIP_MAX_BYTES + 1);
    group("16,777,216 bytes, and 16,777,217");
}

static void short_slices(void)
{
    uint64_t place;
    uint32_t width;
    size_t len;

    for (len = 0; len <= 20; len++)
        for (place = 0; place <= 8 * len + 2; place++)
            for (width = 0; width <= 66; width++)
                in_all_orders(place, width, large + 1000 + len, len);
    group("every place and width on slices of 0 to 20 bytes");
}

int main(void)
{
    worked_record();
    orders();
    widths();
    places();
    null();
    limit();
    short_slices();
    if (!failed)
        printf("chost: ok\n");
    return failed;
}
