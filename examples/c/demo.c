/* Packs a short series, unpacks it again, and shows what is refused. What it must print is in demo.out. */
#include <inttypes.h>
#include <stdio.h>
#include <stdlib.h>
#include <string.h>

#include "tsz.h"

static void tell(const char *what, const uint64_t said[4])
{
    printf("%s: refusal %" PRIu64 ", points %" PRIu64 ", bits %" PRIu64 ", bytes %" PRIu64 "\n", what, said[0], said[1], said[2], said[3]);
}

static void tell_bytes(const uint8_t *bytes, uint64_t count)
{
    for (uint64_t i = 0; i < count; i++)
        printf("%s%02x", i == 0 ? "" : " ", bytes[i]);
    printf("\n");
}

static void tell_points(const uint64_t *times, const uint64_t *values, uint64_t count)
{
    for (uint64_t i = 0; i < count; i++)
        printf("%" PRIu64 " %016" PRIx64 "\n", times[i], values[i]);
}

/* The bits of a double. */
static uint64_t bits_of(double x)
{
    uint64_t bits;
    memcpy(&bits, &x, sizeof bits);
    return bits;
}

/* A hundred points with one value at one distance, two bits each behind the first; and as many of them as 40 bytes hold. */
static void tell_repeated(void)
{
    enum { MANY = 100 };
    uint64_t times[MANY], values[MANY], t[MANY], v[MANY], said[4];
    uint8_t out[48];

    for (int i = 0; i < MANY; i++) {
        times[i] = 10 * (uint64_t)(i + 1);
        values[i] = bits_of(1.0);
    }
    tsz_pack(0, times, MANY, values, MANY, out, sizeof out, said);
    tell("points that repeat", said);
    tell_bytes(out, said[3]);
    tsz_unpack(out, said[3], t, MANY, v, MANY, said);
    tell("unpack them", said);
    tell_points(t + MANY - 1, v + MANY - 1, 1);
    tsz_pack(0, times, MANY, values, MANY, out, 40, said);
    tell("into 40 bytes", said);
}

/* The longest buffer there may be, and one byte more. */
static void tell_limit(const uint64_t *times, const uint64_t *values)
{
    uint8_t *large = calloc(TSZ_LIMIT + 1, 1);
    uint64_t said[4];

    if (large == NULL) {
        fprintf(stderr, "no memory for %d bytes\n", TSZ_LIMIT + 1);
        exit(1);
    }
    tsz_pack(0, times, 2, values, 2, large, TSZ_LIMIT, said);
    tell("pack into 16777216 bytes", said);
    tsz_pack(0, times, 2, values, 2, large, TSZ_LIMIT + 1, said);
    tell("pack into 16777217 bytes", said);
    tsz_unpack(large, TSZ_LIMIT, NULL, 0, NULL, 0, said);
    tell("unpack 16777216 bytes", said);
    tsz_unpack(large, TSZ_LIMIT + 1, NULL, 0, NULL, 0, said);
    tell("unpack 16777217 bytes", said);
    free(large);
}

int main(void)
{
    const uint64_t times[2] = {10, 20};
    const uint64_t values[2] = {bits_of(0.0), bits_of(1.0)};
    const uint64_t falling[3] = {10, 9, 20};
    const uint64_t zeros[3] = {0, 0, 0};
    uint64_t t[3] = {7, 7, 7};
    uint64_t v[3] = {7, 7, 7};
    uint64_t said[4];
    uint8_t out[32];
    uint8_t small[23];

    memset(out, 0xaa, sizeof out);
    memset(small, 0xaa, sizeof small);

    tsz_pack(0, times, 2, values, 2, out, sizeof out, said);
    tell("pack", said);
    tell_bytes(out, said[3]);
    printf("behind it: %02x\n", out[said[3]]);

    tsz_unpack(out, sizeof out, t, 3, v, 3, said);
    tell("unpack", said);
    tell_points(t, v, 3);

    tsz_unpack(out, 26, t, 2, v, 2, said);
    tell("lists of the right length", said);

    tsz_unpack(out, 20, t, 2, v, 2, said);
    tell("torn after 20 bytes", said);

    tsz_unpack(out, 26, t, 1, v, 2, said);
    tell("one list too short", said);

    tsz_unpack(out, 26, NULL, 0, NULL, 0, said);
    tell("no lists", said);

    tsz_unpack(NULL, 0, t, 3, v, 3, said);
    tell("no bytes", said);

    tsz_pack(0, times, 2, values, 2, small, sizeof small, said);
    tell("no room for the second point", said);

    tsz_pack(0, falling, 3, zeros, 3, out, sizeof out, said);
    tell("a time that falls", said);
    tsz_unpack(out, said[3], t, 3, v, 3, said);
    tell("what was packed before it", said);

    tsz_pack(0, times, 2, values, 2, out, 12, said);
    tell("12 bytes", said);

    tell_repeated();
    tell_limit(times, values);
    return 0;
}
