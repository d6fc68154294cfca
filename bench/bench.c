/*
 * Times tsz_pack and tsz_unpack beside the Rust crate on the same series, and how the time grows with the number of points.
 *
 *     bench NAME=LIBRARY..
 *
 * Each LIBRARY is rust.rs compiled in another way. A time is the best of RUNS, or of up to a hundred times as many where there are fewer points;
 * the contestants take turns, run by run, so that what else the machine does meets them alike. Before a run all memory is there: `out`, the lists, and
 * a Rust writer with room for the whole stream. `out` is not cleared between runs; the lists of what was unpacked are overwritten, so that each run
 * has to fill them. What each of them packs and unpacks must be equal.
 */
#define _POSIX_C_SOURCE 200809L
#include "series.h"
#include "tsz.h"

#include <dlfcn.h>
#include <stdbool.h>
#include <stdio.h>
#include <stdlib.h>
#include <string.h>
#include <time.h>

enum { POINTS = 1000000, RUNS = 15, MOST = 4 };

/* A contestant: ours has no library. */
struct side {
    const char *name;
    void *(*writer)(size_t bytes);
    void *(*pack)(uint64_t start, const uint64_t *times, const uint64_t *values, size_t n, void *writer);
    bool (*same)(void *packed, const uint8_t *bytes, size_t n);
    void *(*reader)(const uint8_t *bytes, size_t n);
    size_t (*unpack)(void *reader, uint64_t *times, uint64_t *values, size_t n);
};

/* Best times in ns a point. */
struct best {
    double pack, unpack;
};

static struct side sides[MOST];
static size_t sides_len;
static uint64_t *times, *values, *got_times, *got_values;
static uint8_t *out;

static void die(const char *what, const char *which)
{
    fprintf(stderr, "bench: %s: %s\n", what, which);
    exit(1);
}

static double now(void)
{
    struct timespec t;

    clock_gettime(CLOCK_MONOTONIC, &t);
    return 1e9 * (double)t.tv_sec + (double)t.tv_nsec;
}

static void least(double *best, double ns, size_t n)
{
    if (*best == 0.0 || ns / (double)n < *best)
        *best = ns / (double)n;
}

/* Packs and unpacks the first n points by our calls. Answers the stream's bytes. */
static size_t run_ours(size_t n, struct best *b)
{
    uint64_t said[4];
    double t = now();

    tsz_pack(0, times, n, values, n, out, TSZ_LIMIT, said);
    least(&b->pack, now() - t, n);
    if (said[0] != 0 || said[1] != n)
        die("not all points were packed by", "tsz_pack");
    size_t bytes = said[3];
    t = now();
    tsz_unpack(out, bytes, got_times, n, got_values, n, said);
    least(&b->unpack, now() - t, n);
    if (said[0] != 0 || said[1] != n)
        die("not all points were unpacked by", "tsz_unpack");
    return bytes;
}

static void run_rust(const struct side *s, size_t n, size_t bytes, struct best *b)
{
    void *w = s->writer(bytes);
    double t = now();
    void *packed = s->pack(0, times, values, n, w);

    least(&b->pack, now() - t, n);
    if (!s->same(packed, out, bytes))
        die("other bytes than ours were packed by", s->name);
    void *r = s->reader(out, bytes);
    t = now();
    size_t points = s->unpack(r, got_times, got_values, n);
    least(&b->unpack, now() - t, n);
    if (points != n)
        die("not all points were unpacked by", s->name);
}

static void check_points(const char *name, size_t n)
{
    if (memcmp(times, got_times, n * sizeof *times) != 0 || memcmp(values, got_values, n * sizeof *values) != 0)
        die("other points than those packed came from", name);
    memset(got_times, 0xA5, n * sizeof *times);
    memset(got_values, 0xA5, n * sizeof *values);
}

/* The best of each over so many runs, by turns. Answers the stream's bytes. */
static size_t measure(size_t n, int runs, struct best *best)
{
    size_t bytes = 0;

    memset(best, 0, MOST * sizeof *best);
    for (int run = 0; run < runs; run++) {
        bytes = run_ours(n, &best[0]);
        check_points("tsz_unpack", n);
        for (size_t i = 1; i < sides_len; i++) {
            run_rust(&sides[i], n, bytes, &best[i]);
            check_points(sides[i].name, n);
        }
    }
    return bytes;
}

static void heading(const char *first)
{
    printf("| %s | bits a point | ours, pack | unpack |", first);
    for (size_t i = 1; i < sides_len; i++)
        printf(" Rust %s, pack | unpack | ratio, pack | unpack |", sides[i].name);
    printf("\n|---|---|---|---|");
    for (size_t i = 1; i < sides_len; i++)
        printf("---|---|---|---|");
    printf("\n");
}

static void line(size_t n, size_t bytes, const struct best *best)
{
    printf(" %.1f | %.2f | %.2f |", 8.0 * (double)bytes / (double)n, best[0].pack, best[0].unpack);
    for (size_t i = 1; i < sides_len; i++)
        printf(" %.2f | %.2f | %.2f | %.2f |", best[i].pack, best[i].unpack, best[0].pack / best[i].pack, best[0].unpack / best[i].unpack);
    printf("\n");
    fflush(stdout);
}

static void *symbol(void *library, const char *name)
{
    void *p = dlsym(library, name);

    if (p == NULL)
        die("not in the library", name);
    return p;
}

static void add_side(char *word)
{
    char *path = strchr(word, '=');

    if (path == NULL || sides_len == MOST)
        die("not NAME=LIBRARY, or one too many", word);
    *path++ = '\0';
    void *library = dlopen(path, RTLD_NOW | RTLD_LOCAL);
    if (library == NULL)
        die("can't be loaded", dlerror());
    struct side *s = &sides[sides_len++];
    s->name = word;
    *(void **)&s->writer = symbol(library, "rust_writer");
    *(void **)&s->pack = symbol(library, "rust_pack");
    *(void **)&s->same = symbol(library, "rust_same");
    *(void **)&s->reader = symbol(library, "rust_reader");
    *(void **)&s->unpack = symbol(library, "rust_unpack");
}

static void *room(size_t bytes)
{
    void *p = malloc(bytes);

    if (p == NULL)
        die("no memory for", "the series");
    return memset(p, 0xA5, bytes);
}

int main(int argc, char **argv)
{
    struct best best[MOST];

    sides_len = 1;
    for (int i = 1; i < argc; i++)
        add_side(argv[i]);
    times = room(POINTS * sizeof *times);
    values = room(POINTS * sizeof *values);
    got_times = room(POINTS * sizeof *times);
    got_values = room(POINTS * sizeof *values);
    out = room(TSZ_LIMIT);

    printf("ns a point, best of %d runs by turns, %d points; ratio: ours by the Rust's\n\n", RUNS, POINTS);
    heading("series");
    for (size_t i = 0; i < SERIES_LEN; i++) {
        SERIES[i].fill(times, values, POINTS);
        printf("| %s |", SERIES[i].name);
        line(POINTS, measure(POINTS, RUNS, best), best);
    }
    printf("\n");
    heading("points of the first series");
    SERIES[0].fill(times, values, POINTS);
    for (size_t n = 1000; n <= POINTS; n *= 10) {
        printf("| %zu |", n);
        line(n, measure(n, (int)(RUNS * (POINTS / n > 100 ? 100 : POINTS / n)), best), best);
    }
    return 0;
}
