/* Refusal 1 in the calls that the crate past_the_limit hands on: a slice of 16,777,217 bytes is refused with 1 everywhere, one of 16,777,216 nowhere; and the plan
 * check comes back from a plan of 16,777,216 bytes, whose steps it does not follow. */
#include <stdio.h>
typedef unsigned char u8;
typedef unsigned int u32;
extern u32 limits_read(u32 call, const u8 *src, unsigned long len);
extern u32 limits_write(u32 call, u8 *out, unsigned long len);

#define LIMIT 16777216ul
static u8 bytes[LIMIT + 1];

int main(void) {
    u32 call, got;
    unsigned long i;
    for (i = 0; i < LIMIT + 1; i++) bytes[i] = 0x41;
    for (call = 0; call <= 24; call++) {
        if ((got = limits_read(call, bytes, LIMIT + 1)) != 1) { printf("limits: read %u past the limit gives %u\n", call, got); return 1; }
        if ((got = limits_read(call, bytes, LIMIT)) == 1) { printf("limits: read %u at the limit gives 1\n", call); return 1; }
    }
    for (call = 0; call <= 15; call++) {
        if ((got = limits_write(call, bytes, LIMIT + 1)) != 1) { printf("limits: write %u past the limit gives %u\n", call, got); return 1; }
        for (i = 0; i < LIMIT + 1; i++) if (bytes[i] != 0x41) { printf("limits: write %u, refused, changed byte %lu\n", call, i); return 1; }
    }
    for (call = 0; call <= 15; call++)
        if ((got = limits_write(call, bytes, LIMIT)) == 1) { printf("limits: write %u at the limit gives 1\n", call); return 1; }
    if ((got = limits_read(11, bytes, LIMIT)) != 0) { printf("limits: the end of a slice at the limit gives %u\n", got); return 1; }
    if ((got = limits_read(11, bytes, LIMIT - 1)) != 13) { printf("limits: an end past the slice gives %u\n", got); return 1; }
    if ((got = limits_write(7, bytes, LIMIT)) != 16) { printf("limits: a single at the limit gives %u\n", got); return 1; }
    if ((got = limits_read(15, bytes, LIMIT)) != 6) { printf("limits: a plan of takes without end gives %u\n", got); return 1; }
    for (i = 0; i < LIMIT; i++) bytes[i] = i % 2 ? 0x78 : 0;
    if ((got = limits_read(15, bytes, LIMIT)) != 6) { printf("limits: a plan of refills and takes without end gives %u\n", got); return 1; }
    if ((got = limits_read(15, bytes, 128)) != 0) { printf("limits: a plan of 64 fields gives %u\n", got); return 1; }
    if ((got = limits_read(15, bytes, 130)) != 6) { printf("limits: a plan of 65 fields gives %u\n", got); return 1; }
    printf("limits: ok\n");
    return 0;
}
