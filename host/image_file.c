/* The edge in C: an image file is opened and locked, and a handle gets its memory. Read, not proved: docs/TRUST.md. */
#include "pilot.h"
#include <errno.h>
#include <fcntl.h>
#include <stdlib.h>
#include <sys/file.h>
#include <sys/stat.h>
#include <unistd.h>

/* of the proved library, for this file alone */
size_t pilot_size(void);
void pilot_place(void *room, int *file);
int pilot_make(pilot *p, uint32_t serial, uint32_t counter);
int pilot_restore(pilot *p, pilot_report *report);
int pilot_start(pilot *p, uint32_t frames);
void pilot_release(pilot *p);

static int fail(int fd, int code) {
    int why = errno;
    close(fd);
    errno = why;
    return code;
}

/* an open file above the three standard streams, or -1 */
static int open_above(const char *path, int how) {
    int fd = open(path, how | O_RDWR | O_CLOEXEC | O_NOCTTY | O_NONBLOCK, 0666);
    return fd < 0 || fd > 2 ? fd : fail(fd, fcntl(fd, F_DUPFD_CLOEXEC, 3));
}

/* an engine without a session, over the file of a path: one that is there, or a new one of so many sectors */
static int attach(pilot *p, const char *path, uint32_t sectors) {
    struct stat is;
    int fd;
    p->engine = NULL;
    if (sectors && (sectors < 256 || sectors > 1048576)) return PILOT_COUNT;
    if ((fd = open_above(path, sectors ? O_CREAT | O_EXCL : 0)) < 0) return PILOT_SYSTEM;
    if (fstat(fd, &is)) return fail(fd, PILOT_SYSTEM);
    errno = EINVAL;
    if (!S_ISREG(is.st_mode)) return fail(fd, PILOT_SYSTEM);
    if (flock(fd, LOCK_EX | LOCK_NB)) return fail(fd, errno == EWOULDBLOCK ? PILOT_INUSE : PILOT_SYSTEM);
    if (sectors && ftruncate(fd, (off_t)sectors * 528)) {
        unlink(path);
        return fail(fd, PILOT_SYSTEM);
    }
    if (!(p->engine = malloc(pilot_size()))) return fail(fd, PILOT_NOMEMORY);
    pilot_place(p->engine, &fd);
    return PILOT_OK;
}

void pilot_free(pilot *p) {
    if (p->engine) pilot_release(p);
    free(p->engine);
    p->engine = NULL;
}

int pilot_open(pilot *p, const char *path, uint32_t frames) {
    int code;
    if (p->engine && pilot_is_open(p)) return PILOT_OPEN;
    pilot_free(p);
    if ((code = attach(p, path, 0)) == PILOT_OK && (code = pilot_start(p, frames)) != PILOT_OK) pilot_release(p);
    return code;
}

int pilot_format(const char *path, uint32_t sectors, uint32_t serial, uint32_t counter) {
    pilot p;
    int code = attach(&p, path, sectors);
    if (code == PILOT_OK) code = pilot_make(&p, serial, counter);
    pilot_free(&p);
    return code;
}

int pilot_scavenge(const char *path, pilot_report *report) {
    pilot p;
    int code = attach(&p, path, 0);
    if (code == PILOT_OK) code = pilot_restore(&p, report);
    pilot_free(&p);
    return code;
}
