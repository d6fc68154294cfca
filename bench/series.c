#include "series.h"

#include <math.h>
#include <string.h>

/* xorshift64*: small, and the same everywhere. */
static uint64_t state;

static uint64_t bits(void)
{
    state ^= state >> 12;
    state ^= state << 25;
    state ^= state >> 27;
    return state * UINT64_C(2685821657736338717);
}

/* From 0 up to 1. */
static double part(void)
{
    return (double)(bits() >> 11) * 0x1p-53;
}

static uint64_t bits_of(double x)
{
    uint64_t b;
    memcpy(&b, &x, sizeof b);
    return b;
}

/* Shot times in milliseconds: every 8 s, up to 15 ms early or late. The first lies within 16,383 of the start. */
static void shot_times(uint64_t *times, size_t n)
{
    for (size_t i = 0; i < n; i++)
        times[i] = 8000 * (uint64_t)(i + 1) - 15 + bits() % 31;
}

/* An amplitude that drifts along the line, with noise. */
static double amplitude(size_t i)
{
    return 1000.0 + 400.0 * sin((double)i / 250.0) + 50.0 * (part() - 0.5);
}

static void noisy(uint64_t *times, uint64_t *values, size_t n)
{
    state = 1;
    shot_times(times, n);
    for (size_t i = 0; i < n; i++)
        values[i] = bits_of(amplitude(i));
}

static void quarters(uint64_t *times, uint64_t *values, size_t n)
{
    state = 1;
    shot_times(times, n);
    for (size_t i = 0; i < n; i++)
        values[i] = bits_of(round(4.0 * amplitude(i)) / 4.0);
}

static void constant(uint64_t *times, uint64_t *values, size_t n)
{
    for (size_t i = 0; i < n; i++) {
        times[i] = 8000 * (uint64_t)(i + 1);
        values[i] = bits_of(1.5);
    }
}

static void random_bits(uint64_t *times, uint64_t *values, size_t n)
{
    uint64_t t = 0;

    state = 2;
    for (size_t i = 0; i < n; i++) {
        t += bits() % 16384;
        times[i] = t;
        values[i] = bits();
    }
}

/* The nearest number that an IBM single can hold: a fraction of six hexadecimal digits, the first of them not 0. */
static double ibm_single(double x)
{
    int e;

    if (x == 0.0)
        return 0.0;
    frexp(x, &e);
    int hexits = (e + 3) >> 2;
    double unit = ldexp(1.0, 4 * hexits - 24);
    return round(x / unit) * unit;
}

/* A decaying wavelet every 512 samples, with noise. */
static void samples(uint64_t *times, uint64_t *values, size_t n)
{
    state = 3;
    for (size_t i = 0; i < n; i++) {
        double t = (double)(i % 512) * 0.002;
        double trace = 1000.0 * exp(-3.0 * t) * cos(188.5 * t);

        times[i] = 2 * (uint64_t)(i + 1);
        values[i] = bits_of(ibm_single(trace + 10.0 * (part() - 0.5)));
    }
}

/*
 * Every later point takes 113 bits: its delta jumps between 0 and 2^20, and the digits of its xor lie by turns in the upper and in the lower 63
 * bits, so that no window is used twice.
 */
static void worst(uint64_t *times, uint64_t *values, size_t n)
{
    uint64_t t = 0, v = 0;

    state = 4;
    for (size_t i = 0; i < n; i++) {
        uint64_t xor = (bits() >> 2 << 1) | UINT64_C(1) << 62 | 1;

        if (i % 2 == 0)
            xor = (xor >> 1 << 2) | UINT64_C(1) << 63 | 2;
        if (i % 2 == 1)
            t += UINT64_C(1) << 20;
        v ^= xor;
        times[i] = t;
        values[i] = v;
    }
}

const struct series SERIES[] = {
    {"shots, noisy doubles", noisy},
    {"shots, quarters", quarters},
    {"constant", constant},
    {"random bits", random_bits},
    {"2 ms, IBM singles", samples},
    {"sustained worst case", worst},
};

const size_t SERIES_LEN = sizeof SERIES / sizeof SERIES[0];
