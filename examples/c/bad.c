/* What is not carried out, and what fails: wrong paths and numbers, calls without a session, a volume that was not closed, memory that
 * is not there, and a file that can't be read or written. Each answers its code, and the volume can be restored and opened after it.
 *
 *     bad FOLDER        linked with -Wl,--wrap=malloc,--wrap=pread,--wrap=pwrite,--wrap=fdatasync; the folder is there */
#include "pilot.h"
#include <errno.h>
#include <stdio.h>
#include <stdlib.h>
#include <string.h>
#include <sys/types.h>
#include <unistd.h>

#define CODE(call, code) expect(call, code, #call)

enum { PAGES = 40, BYTES = PAGES * 512 };

static char image[4096], other[4096];
static uint8_t buffer[BYTES];
static size_t done;
static pilot_reply r;

/* ---- What fails: the call of this number, 0 being none; on a full disk those after it too. */

static long memory, transfers;
static int why;

void *__real_malloc(size_t size);
ssize_t __real_pread(int fd, void *into, size_t size, off_t at);
ssize_t __real_pwrite(int fd, const void *bytes, size_t size, off_t at);

static int fails(long *left) {
    if (*left > 1) --*left;
    else if (*left == 1) return why == ENOSPC || --*left == 0;
    return 0;
}

void *__wrap_malloc(size_t size) {
    if (!fails(&memory)) return __real_malloc(size);
    errno = ENOMEM;
    return NULL;
}

ssize_t __wrap_pread(int fd, void *into, size_t size, off_t at) {
    if (why == ENOSPC || !fails(&transfers)) return __real_pread(fd, into, size, at);
    errno = why;
    return -1;
}

ssize_t __wrap_pwrite(int fd, const void *bytes, size_t size, off_t at) {
    if (!fails(&transfers)) return __real_pwrite(fd, bytes, size, at);
    errno = why;
    return -1;
}

/* the medium is not waited for: no power is cut here */
int __wrap_fdatasync(int fd) {
    (void)fd;
    if (why == ENOSPC || !fails(&transfers)) return 0;
    errno = why;
    return -1;
}

/* ---- What is wanted. */

static void expect(int got, int code, const char *what) {
    if (got == code) return;
    fprintf(stderr, "%s: %s, wanted %s\n", what, pilot_text(got), pilot_text(code));
    exit(1);
}

static void must(int good, const char *what) {
    if (good) return;
    fprintf(stderr, "not so: %s\n", what);
    exit(1);
}

/* a new volume, with a session that shows 40 pages at page 0 */
static void begin(pilot *p) {
    unlink(image);
    CODE(pilot_format(image, 256, 7, 1), PILOT_OK);
    CODE(pilot_open(p, image, 24), PILOT_OK);
    CODE(pilot_create(p, PAGES, 3, &r), PILOT_OK);
    CODE(pilot_space(p, 0, PAGES, &r), PILOT_OK);
    CODE(pilot_map(p, 1, 0x700000001, 0, true, &r), PILOT_OK);
}

static void paths(void) {
    pilot p = PILOT_HANDLE, q = PILOT_HANDLE;
    pilot_report report;
    FILE *file;
    CODE(pilot_open(&p, other, 64), PILOT_SYSTEM);
    must(errno == ENOENT, "a file that is missing");
    CODE(pilot_scavenge(other, &report), PILOT_SYSTEM);
    CODE(pilot_open(&p, "/", 64), PILOT_SYSTEM);
    CODE(pilot_open(&p, "/dev/null", 64), PILOT_SYSTEM);
    must(errno == EINVAL, "what is no file");
    CODE(pilot_format(other, 255, 7, 1), PILOT_COUNT);
    CODE(pilot_format(other, 1048577, 7, 1), PILOT_COUNT);
    must(access(other, F_OK) != 0, "no file is made");
    must((file = fopen(other, "w")) != NULL && fputs("short", file) >= 0 && fclose(file) == 0, "a short file");
    CODE(pilot_open(&p, other, 64), PILOT_COUNT);
    CODE(pilot_format(other, 256, 7, 1), PILOT_SYSTEM);
    must(errno == EEXIST, "a file that is there");
    must(truncate(other, 256 * 528) == 0, "a longer file");
    CODE(pilot_open(&p, other, 64), PILOT_NOTVOLUME);
    CODE(pilot_format(other, 0, 0, 1), PILOT_ARGUMENT);
    CODE(pilot_format(other, 0, 7, 0), PILOT_ARGUMENT);
    CODE(pilot_format(other, 0, 7, 1), PILOT_OK);
    CODE(pilot_open(&p, other, 0), PILOT_ARGUMENT);
    CODE(pilot_open(&p, other, 23), PILOT_ARGUMENT);
    CODE(pilot_open(&p, other, 4097), PILOT_ARGUMENT);
    CODE(pilot_open(&p, other, 4096), PILOT_OK);
    CODE(pilot_open(&p, other, 4096), PILOT_OPEN);
    CODE(pilot_open(&q, other, 64), PILOT_INUSE);
    CODE(pilot_scavenge(other, &report), PILOT_INUSE);
    CODE(pilot_format(other, 0, 7, 1), PILOT_INUSE);
    CODE(pilot_close(&p), PILOT_OK);
    CODE(pilot_open(&q, other, 64), PILOT_OK);
    CODE(pilot_close(&q), PILOT_OK);
    pilot_free(&p);
    pilot_free(&q);
    unlink(other);
}

static void references(void) {
    pilot p = PILOT_HANDLE;
    begin(&p);
    memset(buffer, 7, BYTES);
    CODE(pilot_load(&p, 5, buffer, 0, &done), PILOT_OK);
    CODE(pilot_store(&p, 0xffffffff, buffer, 0, &done), PILOT_OK);
    must(done == 0, "no byte of none is moved");
    CODE(pilot_store(&p, BYTES - 700, buffer, 2000, &done), PILOT_NOMAP);
    must(done == 700, "a store moves what is before the page that is not shown");
    CODE(pilot_load(&p, BYTES - 700, buffer, 2000, &done), PILOT_NOMAP);
    must(done == 700, "and so does a load");
    CODE(pilot_load(&p, 0xffffffff, buffer, 2, &done), PILOT_NOMAP);
    CODE(pilot_store(&p, 0xffffff00, buffer, 1000, &done), PILOT_NOMAP);
    must(done == 0, "past the last address there is no byte");
    CODE(pilot_protect(&p, 1, false), PILOT_OK);
    CODE(pilot_store(&p, 0, buffer, 1, &done), PILOT_READONLY);
    CODE(pilot_close(&p), PILOT_OK);
    pilot_free(&p);
}

/* each call, without a session */
static void closed(pilot *p) {
    CODE(pilot_create(p, 1, 1, &r), PILOT_CLOSED);
    CODE(pilot_delete(p, 1, &r), PILOT_CLOSED);
    CODE(pilot_attributes(p, 1, &r), PILOT_CLOSED);
    CODE(pilot_setsize(p, 1, 1, &r), PILOT_CLOSED);
    CODE(pilot_permanent(p, 1), PILOT_CLOSED);
    CODE(pilot_immutable(p, 1, &r), PILOT_CLOSED);
    CODE(pilot_next(p, 0, &r), PILOT_CLOSED);
    CODE(pilot_volume(p, &r), PILOT_CLOSED);
    CODE(pilot_space(p, 0, 1, &r), PILOT_CLOSED);
    CODE(pilot_space_at(p, 0, 1, 1, &r), PILOT_CLOSED);
    CODE(pilot_remove(p, 1, &r), PILOT_CLOSED);
    CODE(pilot_where(p, 1, &r), PILOT_CLOSED);
    CODE(pilot_units(p, 1, 1), PILOT_CLOSED);
    CODE(pilot_map(p, 1, 1, 0, true, &r), PILOT_CLOSED);
    CODE(pilot_mapdata(p, 1, &r), PILOT_CLOSED);
    CODE(pilot_unmap(p, 1), PILOT_CLOSED);
    CODE(pilot_protect(p, 1, true), PILOT_CLOSED);
    CODE(pilot_activate(p, 1), PILOT_CLOSED);
    CODE(pilot_deactivate(p, 1), PILOT_CLOSED);
    CODE(pilot_kill(p, 1), PILOT_CLOSED);
    CODE(pilot_force(p, 1), PILOT_CLOSED);
    CODE(pilot_load(p, 0, buffer, 1, &done), PILOT_CLOSED);
    CODE(pilot_store(p, 0, buffer, 1, &done), PILOT_CLOSED);
    CODE(pilot_close(p), PILOT_CLOSED);
    CODE(pilot_halt(p), PILOT_CLOSED);
    must(!pilot_is_open(p) && done == 0, "there is no session");
}

static void ends(void) {
    pilot p = PILOT_HANDLE;
    pilot_report report;
    begin(&p);
    CODE(pilot_close(&p), PILOT_OK);
    closed(&p);
    CODE(pilot_open(&p, image, 24), PILOT_OK);
    CODE(pilot_halt(&p), PILOT_OK);
    closed(&p);
    CODE(pilot_open(&p, image, 24), PILOT_UNCLEAN);
    closed(&p);
    CODE(pilot_scavenge(image, &report), PILOT_OK);
    CODE(pilot_open(&p, image, 24), PILOT_OK);
    CODE(pilot_close(&p), PILOT_OK);
    pilot_free(&p);
}

/* ---- A client from a new volume to its end, where something fails. */

/* whether the client goes on; a code that is none of these ends the program */
static int goes_on(int code, int failed) {
    must(code == PILOT_OK || code == failed, pilot_text(code));
    return code == PILOT_OK;
}

static int works(pilot *p, int failed) {
    return goes_on(pilot_open(p, image, 24), failed) && goes_on(pilot_create(p, PAGES, 3, &r), failed)
        && goes_on(pilot_space(p, 0, PAGES, &r), failed) && goes_on(pilot_map(p, 1, 0x700000001, 0, true, &r), failed)
        && goes_on(pilot_store(p, 0, buffer, BYTES, &done), failed) && goes_on(pilot_load(p, 0, buffer, BYTES, &done), failed)
        && goes_on(pilot_force(p, 1), failed) && goes_on(pilot_permanent(p, 0x700000001), failed) && goes_on(pilot_close(p), failed);
}

/* fails one call after the other, until none is left to fail; how many there were */
static long each(long *left, int code) {
    long k;
    for (k = 1;; k++) {
        pilot p = PILOT_HANDLE;
        pilot_report report;
        int made, all;
        unlink(image);
        *left = k;
        made = goes_on(pilot_format(image, 256, 7, 1), code);
        all = made && works(&p, code);
        if (made && !all && p.engine && code == PILOT_DISK) closed(&p);
        pilot_free(&p);
        if (*left > 0 && all) {
            *left = 0;
            return k - 1;
        }
        *left = 0;
        if (!made) CODE(pilot_format(image, access(image, F_OK) ? 256 : 0, 7, 1), PILOT_OK);
        CODE(pilot_scavenge(image, &report), PILOT_OK);
        CODE(pilot_open(&p, image, 24), PILOT_OK);
        CODE(pilot_close(&p), PILOT_OK);
        pilot_free(&p);
    }
}

int main(int argc, char **argv) {
    long asked, moved, full;
    if (argc != 2 || snprintf(image, sizeof image, "%s/image", argv[1]) >= (int)sizeof image) return 2;
    snprintf(other, sizeof other, "%s/other", argv[1]);
    paths();
    references();
    ends();
    asked = each(&memory, PILOT_NOMEMORY);
    why = EIO;
    moved = each(&transfers, PILOT_DISK);
    why = ENOSPC;
    full = each(&transfers, PILOT_DISK);
    must(asked > 3 && moved > 200 && full > 100, "each was failed in turn");
    puts("each answers its code; memory, transfers and a full disk failed in turn");
    unlink(image);
    return 0;
}
