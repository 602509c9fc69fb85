/* pilot.h: files of pages in an image file, mapped into one memory of bytes, inside your process.
 *
 * Link with -lpilot. Each call answers 0 or one of the codes below. docs/LIBRARY.md has each call, its codes, and what
 * is on the medium when it returns. */
#ifndef PILOT_H
#define PILOT_H

#include <stdbool.h>
#include <stddef.h>
#include <stdint.h>

#ifdef __cplusplus
extern "C" {
#endif

enum {
    PILOT_OK = 0,

    /* the call is refused, and changed nothing */
    PILOT_SYNTAX = 1,
    PILOT_SPACE = 2,
    PILOT_FILE = 3,
    PILOT_SIZE = 4,
    PILOT_FULL = 5,
    PILOT_SPACES = 6,
    PILOT_GAP = 7,
    PILOT_RANGE = 8,
    PILOT_CHILDREN = 9,
    PILOT_MAPPED = 10,
    PILOT_WINDOW = 11,
    PILOT_IMMUTABLE = 12,
    PILOT_NOTMAPPED = 13,
    PILOT_NOMAP = 14,
    PILOT_READONLY = 15,
    PILOT_FILEMAPPED = 16,
    PILOT_ROOT = 17,
    PILOT_IDS = 18,

    PILOT_NOFILE = 19, /* there is no further file */

    /* the session stopped for good, or none began */
    PILOT_DISK = 20,    /* the file could not be read or written */
    PILOT_DAMAGED = 21, /* pilot_evidence says what was found */

    /* no session begins on the volume */
    PILOT_NOTVOLUME = 22,
    PILOT_UNCLEAN = 23, /* it was not closed: pilot_scavenge restores it */
    PILOT_VERSION = 24,
    PILOT_COUNT = 25, /* no volume has so many sectors */

    PILOT_NOMEMORY = 26,
    PILOT_CLOSED = 27,   /* the handle has no session */
    PILOT_OPEN = 28,     /* the handle has one already */
    PILOT_ARGUMENT = 29, /* the call does not take such a number */
    PILOT_SYSTEM = 30,   /* errno says why the file can't be had */
    PILOT_INUSE = 31     /* another handle or program has the file */
};

/* A handle. Begin with PILOT_HANDLE; its memory is the library's from pilot_open to pilot_free. */
typedef struct pilot {
    void *engine;
} pilot;
#define PILOT_HANDLE {0}

/* The numbers of an answer; those that it does not have are 0. */
typedef struct pilot_reply {
    uint64_t file;
    uint32_t space; /* PILOT_MAPPED and PILOT_FILEMAPPED: which one */
    uint32_t page;  /* the first page of a space; PILOT_NOMAP and PILOT_READONLY: which page */
    uint32_t pages; /* of a file or a space; of a volume all that files may have */
    uint32_t free;  /* how many of these no file has */
    uint16_t kind;
    bool permanent;
    bool immutable;
} pilot_reply;

/* What a restoration found. */
typedef struct pilot_report {
    uint32_t files, pages, freed, lost;
} pilot_report;

/* What stopped a session, or kept it from beginning. */
typedef struct pilot_finding {
    uint32_t what; /* 0 nothing; 1 the disk failed; 2 a label; 3 a page of map `file`; 4 a missing page */
    uint32_t sector;
    uint64_t file, found_file;
    uint32_t page, found_page;
} pilot_finding;

/* Volumes in image files. With sectors 0 the file is one that is there, else a new one of so many sectors. */
int pilot_format(const char *path, uint32_t sectors, uint32_t serial, uint32_t counter);
int pilot_scavenge(const char *path, pilot_report *report);

/* A session: 24 to 4,096 frames of memory. */
int pilot_open(pilot *p, const char *path, uint32_t frames);
int pilot_close(pilot *p);
int pilot_halt(pilot *p);
void pilot_free(pilot *p);
bool pilot_is_open(pilot *p);
int pilot_evidence(pilot *p, pilot_finding *finding);

/* Files. */
int pilot_create(pilot *p, uint32_t pages, uint16_t kind, pilot_reply *reply);
int pilot_delete(pilot *p, uint64_t file, pilot_reply *reply);
int pilot_attributes(pilot *p, uint64_t file, pilot_reply *reply);
int pilot_setsize(pilot *p, uint64_t file, uint32_t pages, pilot_reply *reply);
int pilot_permanent(pilot *p, uint64_t file);
int pilot_immutable(pilot *p, uint64_t file, pilot_reply *reply);
int pilot_next(pilot *p, uint64_t file, pilot_reply *reply);
int pilot_volume(pilot *p, pilot_reply *reply);

/* Spaces. Page n has the bytes from address 512 * n on. */
int pilot_space(pilot *p, uint32_t parent, uint32_t pages, pilot_reply *reply);
int pilot_space_at(pilot *p, uint32_t parent, uint32_t pages, uint32_t first, pilot_reply *reply);
int pilot_remove(pilot *p, uint32_t space, pilot_reply *reply);
int pilot_where(pilot *p, uint32_t page, pilot_reply *reply);
int pilot_units(pilot *p, uint32_t space, uint32_t pages);
int pilot_map(pilot *p, uint32_t space, uint64_t file, uint32_t page, bool writable, pilot_reply *reply);
int pilot_mapdata(pilot *p, uint32_t space, pilot_reply *reply);
int pilot_unmap(pilot *p, uint32_t space);
int pilot_protect(pilot *p, uint32_t space, bool writable);
int pilot_activate(pilot *p, uint32_t space);
int pilot_deactivate(pilot *p, uint32_t space);
int pilot_kill(pilot *p, uint32_t space);
int pilot_force(pilot *p, uint32_t space);

/* Bytes of any length. `done` says how many of the first were loaded or stored: all at PILOT_OK. */
int pilot_load(pilot *p, uint32_t address, uint8_t *into, size_t length, size_t *done);
int pilot_store(pilot *p, uint32_t address, const uint8_t *bytes, size_t length, size_t *done);

const char *pilot_text(int code);
const char *pilot_version(void);

#ifdef __cplusplus
}
#endif
#endif
