/* What the benches share: drawn places, clocks, and the least of many short runs, since others may use the machine meanwhile. */
#include <stdint.h>
#include <stdio.h>
#include <stdlib.h>
#include <time.h>

enum { PAGES = 4000, BYTES = PAGES * 512, RUNS = 60, FORCES = 30 };

static uint64_t state = 88172645463325252u;

static uint32_t drawn(uint32_t below) {
    state ^= state << 13;
    state ^= state >> 7;
    state ^= state << 17;
    return (uint32_t)(state >> 16) % below;
}

static double seconds(clockid_t of) {
    struct timespec t;
    clock_gettime(of, &t);
    return (double)t.tv_sec + (double)t.tv_nsec * 1e-9;
}

static void must(int good, const char *what) {
    if (good) return;
    fprintf(stderr, "%s failed\n", what);
    exit(1);
}

/* one call that is measured: bytes of this size at a place below BYTES */
typedef void reference(uint32_t at, uint32_t size);

/* nanoseconds of processor time a call at drawn places; the least of the runs so far is kept */
static void run(reference *call, uint32_t size, double *least) {
    uint32_t i, count = size <= 512 ? 20000 : 4000000 / size;
    double start = seconds(CLOCK_PROCESS_CPUTIME_ID), each;
    for (i = 0; i < count; i++) call(drawn(BYTES / size) * size, size);
    each = (seconds(CLOCK_PROCESS_CPUTIME_ID) - start) / count * 1e9;
    if (*least == 0 || each < *least) *least = each;
}
