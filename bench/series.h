/* The series that are measured. Each is made by a generator of its own with a fixed seed, so that two runs pack the same bits. */
#ifndef SERIES_H
#define SERIES_H

#include <stddef.h>
#include <stdint.h>

struct series {
    const char *name;
    void (*fill)(uint64_t *times, uint64_t *values, size_t n);
};

/* All of them start at 0. */
extern const struct series SERIES[];
extern const size_t SERIES_LEN;

#endif
