/* Ruttedwhite: the fields of an observation strip, for a program in C (C89 or later) or C++.
 *
 * The kit proves the library and makes an archive of it, which needs no other library. From the repository's folder:
 *
 *     tests/archive host
 *     cc examples/read_record.c -Iinclude target/staticlib/libhost.a -o target/read_record
 *
 * The archive is for x86-64 Linux alone. Elsewhere read a strip by the words of docs/FORMAT.md, as examples/strip.py does.
 *
 * - The caller sees to it that `src` points to `len` bytes, and that nobody writes them during the call. NULL with length 0 is
 *   allowed.
 * - Everything else is checked: any order, place and width may be handed in. What can't be read is refused by a number, and no
 *   byte outside the slice is read.
 * - The library keeps no pointer, writes nothing, allocates nothing and has no state: any number of threads may call it at once.
 *
 * The library's code is proved to answer as said below for every input; the compiler that makes the archive of it is not.
 */
#ifndef RUTTEDWHITE_H
#define RUTTEDWHITE_H

#if defined(__STDC_HOSTED__) && !__STDC_HOSTED__ && defined(__UINT64_TYPE__)
/* freestanding, perhaps with no headers at all */
#ifndef UINT64_MAX
typedef __UINT8_TYPE__ uint8_t;
typedef __UINT32_TYPE__ uint32_t;
typedef __UINT64_TYPE__ uint64_t;
#endif
typedef __SIZE_TYPE__ size_t;
#else
#include <stddef.h>
#include <stdint.h>
#endif

#ifdef __cplusplus
extern "C" {
#endif

/* The order of bits: the first bit of a byte is its least significant (little) or its most (big).
 * Any number but 0 is big. Strips are big. */
#define STRIP_LITTLE 0
#define STRIP_BIG 1

/* The refusals: these four and no other. Where several apply, the lowest number is given. */
#define STRIP_DONE 0     /* the field can be read */
#define STRIP_TOO_LONG 1 /* the slice is longer than STRIP_MAX_BYTES bytes */
#define STRIP_TOO_WIDE 3 /* the width is above 64 */
#define STRIP_TOO_FEW 9  /* place + width is above 8 * len (the sum does not wrap) */

#define STRIP_MAX_BYTES 16777216

/* Why the field can't be read, or STRIP_DONE.
 *
 * order  STRIP_LITTLE or STRIP_BIG; it doesn't change the answer
 * place  the number of the field's first bit; the slice's first bit is 0, and bit k lies in byte k / 8
 * width  how many bits the field has, 0 to 64
 * src    the bytes; only lent
 * len    how many there are
 */
uint32_t strip_refusal(uint32_t order, uint64_t place, uint32_t width, const uint8_t *src, size_t len);

/* The field's value, with the same arguments; 0 where strip_refusal is not STRIP_DONE, and at width 0. A field may well be 0: only
 * strip_refusal tells whether it is there.
 *
 * Big, the field's first bit is its most significant; little, its least. The value is unsigned. A signed field of w bits,
 * w from 1 to 64, takes one line more, where m is (uint64_t)1 << (w - 1):
 *
 *     int64_t number = (int64_t)((value ^ m) - m);
 */
uint64_t strip_value(uint32_t order, uint64_t place, uint32_t width, const uint8_t *src, size_t len);

/* The record of a strip, order STRIP_BIG. Record i, counted from 0, starts at bit STRIP_RECORD * i, and a field's place is counted from
 * there.
 *
 *     bit 0     star       20 bits
 *         20    date       38    Julian Date in 0.00001 day
 *         58    limit       1    1: the star was fainter than the magnitude
 *         59    magnitude  16    signed, in 0.001
 *         75    error      10    in 0.001
 *         85    filter      4
 *         89    the next record
 *
 * A whole strip: `count` records, then a tail of `left` bits, which is good if they are fewer than 8 and all 0. A bad one shows that
 * something was cut off or added.
 *
 *     uint64_t bits = 8 * (uint64_t)len, count = bits / STRIP_RECORD, left = bits % STRIP_RECORD, i;
 *     if (strip_refusal(STRIP_BIG, 0, 0, src, len) != STRIP_DONE) ..      longer than STRIP_MAX_BYTES: not one field can be read
 *     for (i = 0; i < count; i++) {
 *         uint64_t star = strip_value(STRIP_BIG, STRIP_RECORD * i + STRIP_STAR_PLACE, STRIP_STAR_WIDTH, src, len);
 *         ..
 *     }
 *     if (left >= 8 || strip_value(STRIP_BIG, bits - left, (uint32_t)left, src, len) != 0) ..      a bad tail
 */
#define STRIP_RECORD 89
#define STRIP_STAR_PLACE 0
#define STRIP_STAR_WIDTH 20
#define STRIP_DATE_PLACE 20
#define STRIP_DATE_WIDTH 38
#define STRIP_LIMIT_PLACE 58
#define STRIP_LIMIT_WIDTH 1
#define STRIP_MAGNITUDE_PLACE 59
#define STRIP_MAGNITUDE_WIDTH 16
#define STRIP_ERROR_PLACE 75
#define STRIP_ERROR_WIDTH 10
#define STRIP_FILTER_PLACE 85
#define STRIP_FILTER_WIDTH 4

#ifdef __cplusplus
}
#endif

#endif
