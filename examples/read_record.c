/* Reads one record of a strip and prints its six numbers, then its line as ./strip lists it. On x86-64 Linux, from the repository's folder:
 *
 *     tests/archive host && cc examples/read_record.c -Iinclude target/staticlib/libhost.a -o target/read_record && target/read_record
 */
#include <stdio.h>

#include "ruttedwhite.h"

/* a strip of one record: 89 bits, and 7 zeros to the end of the byte */
static const uint8_t strip[12] = { 0x00, 0x00, 0x5E, 0x52, 0x77, 0x48, 0x84, 0x5F, 0x4C, 0x00, 0x61, 0x80 };

/* the field at `place` of record `i` */
static uint64_t field(uint64_t i, uint64_t place, uint32_t width)
{
    return strip_value(STRIP_BIG, STRIP_RECORD * i + place, width, strip, sizeof strip);
}

int main(void)
{
    uint64_t i = 0;
    unsigned long star, date, limit, error, filter, size;
    long magnitude;

    /* asked once for the whole record, by its last field: after that, a value 0 is no refusal */
    uint32_t refusal = strip_refusal(STRIP_BIG, STRIP_RECORD * i + STRIP_FILTER_PLACE, STRIP_FILTER_WIDTH, strip, sizeof strip);
    if (refusal != STRIP_DONE) {
        printf("refused: %lu\n", (unsigned long)refusal);
        return 1;
    }

    star = (unsigned long)field(i, STRIP_STAR_PLACE, STRIP_STAR_WIDTH);
    date = (unsigned long)field(i, STRIP_DATE_PLACE, STRIP_DATE_WIDTH);
    limit = (unsigned long)field(i, STRIP_LIMIT_PLACE, STRIP_LIMIT_WIDTH);
    error = (unsigned long)field(i, STRIP_ERROR_PLACE, STRIP_ERROR_WIDTH);
    filter = (unsigned long)field(i, STRIP_FILTER_PLACE, STRIP_FILTER_WIDTH);

    /* the magnitude is signed: from 0x8000 on its 16 bits are a number below 0 */
    magnitude = (long)(field(i, STRIP_MAGNITUDE_PLACE, STRIP_MAGNITUDE_WIDTH) ^ 0x8000) - 0x8000;

    printf("star %lu\ndate %lu\nlimit %lu\nmagnitude %ld\nerror %lu\nfilter %lu\n", star, date, limit, magnitude, error, filter);

    /* whole and decimal part by integers: a float can't hold a date in full */
    size = (unsigned long)(magnitude < 0 ? -magnitude : magnitude);
    printf("%lu,%lu.%05lu,%lu,%s%lu.%03lu,%lu.%03lu,%lu\n", star, date / 100000, date % 100000, limit, magnitude < 0 ? "-" : "",
           size / 1000, size % 1000, error / 1000, error % 1000, filter);
    return 0;
}
