/*
 * Gorilla compression of time series: a whole series in one call.
 *
 * A series has a start and points. A point is a time and a value; times and the start are whole numbers of any unit,
 * values are 64 bits, for a double its IEEE 754 bits. Points come back bit for bit, NaNs too.
 *
 * Each call writes four numbers to `said`:
 *
 *     said[0]  the refusal, 0 for none
 *     said[1]  points: how many were packed, or put into the lists
 *     said[2]  bits
 *     said[3]  bytes, as many as hold those bits
 *
 * The refusals:
 *
 *      1  no room           packing: `out` has fewer than 13 bytes, or the point and the end do not fit in what is left;
 *                           unpacking: there is a point more than the lists have entries
 *      2  time falls        packing: a time below the one before it (the start, for the first)
 *      3  first delta       packing: the first time is more than 16,383 above the start
 *      4  dod range         packing: the delta of a time less the delta before it is outside -(2^31 - 1) to 2^31
 *      5  too long          `out` or `src` has more than 16,777,216 bytes
 *      6  no start          unpacking: `src` has fewer than 8 bytes
 *      7  cut short         unpacking: the stream ends within a point or before its end marker
 *      8  bad end           unpacking: instead of a first point or the end marker there is something else
 *      9  bad window        unpacking: leading zeros and digits of a value are more than 64 bits
 *     10  read time falls   unpacking: a time below the one before it
 *     11  read time passes  unpacking: a time above 2^64 - 1
 *     12  closed            never said by these two calls
 *     13  no fit            never said by these two calls
 *
 * Lent memory: at most 16,777,216 bytes in `out` and in `src`; the lists have no limit. Nothing is allocated and nothing is kept
 * between calls: there is no global state, so that calls from several threads need no lock as long as what one of them writes is not
 * used by another at the same time. What is lent to one call must not overlap. A list or a buffer of length 0 may be NULL; `said` must
 * not be. Lists and `said` are aligned as uint64_t is. Memory that is lent has been written before, `out` too; what it holds does not
 * matter.
 */
#ifndef TSZ_H
#define TSZ_H

#include <stddef.h>
#include <stdint.h>

#ifdef __cplusplus
extern "C" {
#endif

/* The most bytes that `out` or `src` may have. */
#define TSZ_LIMIT 16777216

/* The fewest bytes that `out` may have: a series without points. */
#define TSZ_LEAST 13

/*
 * Packs a series into `out`. The points are those of the two lists, as many as the shorter has; compare said[1] with your own count.
 * They are taken in order until one is refused; that one and the points behind it are left out.
 *
 * If `out` itself is refused, by 5 or 1, said is that refusal, 0, 0, 0, and `out` is as it was. Otherwise the stream is closed, also when
 * a point was refused: said is the refusal of the point or 0, the points packed, the bits of the stream and its bytes. The first said[3]
 * bytes of `out` are the stream of those points; the bytes behind it are as they were.
 */
void tsz_pack(uint64_t start,
              const uint64_t *times, size_t times_len,
              const uint64_t *values, size_t values_len,
              uint8_t *out, size_t out_len,
              uint64_t said[4]);

/*
 * Unpacks a series into the first entries of two lists, as many as the shorter has. Entries past said[1] are as they were. What stands
 * behind the stream's end in `src` is not looked at.
 *
 * At the end of the stream, said is 0, the points, and the bits and bytes of the stream. Where the lists are too short for it, said is 1,
 * the points put into them, and the bits and bytes up to the last of these. Where the stream is refused, said is that refusal, the points
 * before it, and the bits and bytes up to the last of these. Lists of exactly the right length are long enough.
 */
void tsz_unpack(const uint8_t *src, size_t src_len,
                uint64_t *times, size_t times_len,
                uint64_t *values, size_t values_len,
                uint64_t said[4]);

#ifdef __cplusplus
}
#endif

#endif
