/* How long loads, stores, forces and saves take, and beside each the same with a plain file.
 *
 *     bench IMAGE        makes the image and IMAGE.plain anew, and prints a line a figure */
#include "bench.h"
#include "pilot.h"
#include <fcntl.h>
#include <string.h>
#include <sys/mman.h>
#include <unistd.h>

enum { DOCUMENT = 100000, SAVES = 20 };

static pilot p = PILOT_HANDLE;
static uint32_t from;
static unsigned char buffer[DOCUMENT], *mapped;

static void call(int code, const char *what) {
    if (code != PILOT_OK) fprintf(stderr, "%s\n", pilot_text(code));
    must(code == PILOT_OK, what);
}

static void load(uint32_t at, uint32_t size) {
    size_t done;
    call(pilot_load(&p, from + at, buffer, size, &done), "pilot_load");
}

static void store(uint32_t at, uint32_t size) {
    size_t done;
    call(pilot_store(&p, from + at, buffer, size, &done), "pilot_store");
}

static void load_mapped(uint32_t at, uint32_t size) {
    memcpy(buffer, mapped + at, size);
    __asm__ volatile("" : : "r"(buffer) : "memory");
}

static void store_mapped(uint32_t at, uint32_t size) {
    memcpy(mapped + at, buffer, size);
    __asm__ volatile("" : : "r"(mapped) : "memory");
}

/* a file of so many pages, shown from an address on */
static uint32_t show(uint32_t pages, uint64_t *file, uint32_t *space) {
    pilot_reply r;
    uint32_t at;
    call(pilot_create(&p, pages, 9, &r), "pilot_create");
    *file = r.file;
    call(pilot_space(&p, 0, pages, &r), "pilot_space");
    *space = r.space;
    at = r.page * 512;
    call(pilot_map(&p, *space, *file, 0, true, &r), "pilot_map");
    return at;
}

static void references(void) {
    static reference *const calls[] = {load, store, load_mapped, store_mapped};
    static const uint32_t sizes[] = {64, 512, 4096, 65536};
    double least[4][4] = {{0}};
    int i, k, c;
    for (i = 0; i < RUNS; i++)
        for (k = 0; k < 4; k++)
            for (c = 0; c < 4; c++) run(calls[c], sizes[k], &least[k][c]);
    for (k = 0; k < 4; k++)
        printf("%5u bytes: load %.0f ns, store %.0f ns; mapped file %.0f and %.0f ns\n", sizes[k], least[k][0], least[k][1],
            least[k][2], least[k][3]);
    for (k = 1; k < 4; k++)
        printf("%5u bytes by 64: load %.2f, store %.2f\n", sizes[k], least[k][0] / least[0][0], least[k][1] / least[0][1]);
}

/* pages forced a second, by the clock, so many at a time */
static double forces(uint32_t space, uint32_t pages) {
    double start = seconds(CLOCK_MONOTONIC);
    uint32_t i, k;
    for (i = 0; i < FORCES; i++) {
        for (k = 0; k < pages; k++) store(drawn(PAGES) * 512, 512);
        call(pilot_force(&p, space), "pilot_force");
    }
    return FORCES * pages / (seconds(CLOCK_MONOTONIC) - start);
}

/* milliseconds by the clock of a document that is made, stored, forced, kept and let go: the least of all */
static double saves(void) {
    double best = 1e9, took;
    uint64_t file;
    uint32_t i, space;
    pilot_reply r;
    size_t done;
    for (i = 0; i < SAVES; i++) {
        double start = seconds(CLOCK_MONOTONIC);
        uint32_t at = show((DOCUMENT + 511) / 512, &file, &space);
        call(pilot_store(&p, at, buffer, DOCUMENT, &done), "pilot_store");
        call(pilot_force(&p, space), "pilot_force");
        call(pilot_permanent(&p, file), "pilot_permanent");
        call(pilot_unmap(&p, space), "pilot_unmap");
        call(pilot_remove(&p, space, &r), "pilot_remove");
        took = (seconds(CLOCK_MONOTONIC) - start) * 1e3;
        if (took < best) best = took;
    }
    return best;
}

/* the same as a plain file of these bytes with one fdatasync */
static double plain_saves(const char *path) {
    double best = 1e9, took;
    int i;
    for (i = 0; i < SAVES; i++) {
        double start = seconds(CLOCK_MONOTONIC);
        int fd = open(path, O_CREAT | O_WRONLY | O_TRUNC, 0666);
        must(fd >= 0 && write(fd, buffer, DOCUMENT) == DOCUMENT && fdatasync(fd) == 0, path);
        close(fd);
        took = (seconds(CLOCK_MONOTONIC) - start) * 1e3;
        if (took < best) best = took;
    }
    return best;
}

int main(int argc, char **argv) {
    uint64_t file;
    uint32_t space, k;
    char plain[4096];
    double kept;
    int fd;
    if (argc != 2 || snprintf(plain, sizeof plain, "%s.plain", argv[1]) >= (int)sizeof plain) return 2;
    unlink(argv[1]);
    call(pilot_format(argv[1], 65536, 7, 1), "pilot_format");
    call(pilot_open(&p, argv[1], 4096), "pilot_open");
    fd = open(plain, O_CREAT | O_RDWR | O_TRUNC, 0666);
    must(fd >= 0 && ftruncate(fd, BYTES) == 0, plain);
    mapped = mmap(NULL, BYTES, PROT_READ | PROT_WRITE, MAP_SHARED, fd, 0);
    must(mapped != MAP_FAILED, "mmap");
    memset(mapped, 1, BYTES);
    from = show(PAGES, &file, &space);
    for (k = 0; k < PAGES; k++) store(k * 512, 512);
    references();
    for (k = 1; k <= 64; k *= 64) printf("forced, %u at a time: %.0f pages/s\n", k, forces(space, k));
    call(pilot_unmap(&p, space), "pilot_unmap");
    kept = saves();
    printf("a save of %d bytes: %.2f ms; plain file %.2f ms\n", DOCUMENT, kept, plain_saves(plain));
    call(pilot_close(&p), "pilot_close");
    pilot_free(&p);
    unlink(plain);
    return 0;
}
