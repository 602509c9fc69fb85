/* A mail store that grows: letters are appended to one file through one window, and read through another.
 *
 *     mail IMAGE */
#include "pilot.h"
#include <stdio.h>
#include <stdlib.h>
#include <string.h>

#define MUST(call) must(call, #call)

enum { LETTER = 1000, LETTERS = 50, KIND = 12 };

static void must(int code, const char *what) {
    if (code != PILOT_OK) {
        fprintf(stderr, "%s: %s\n", what, pilot_text(code));
        exit(1);
    }
}

static void write_letter(char *letter, int number) {
    memset(letter, '.', LETTER);
    snprintf(letter, LETTER, "letter %d", number);
}

/* a window over the whole file */
static pilot_reply window(pilot *p, uint64_t file, uint32_t pages, bool writable) {
    pilot_reply space, map;
    MUST(pilot_space(p, 0, pages, &space));
    MUST(pilot_map(p, space.space, file, 0, writable, &map));
    return space;
}

static void close_window(pilot *p, pilot_reply space) {
    MUST(pilot_unmap(p, space.space));
    MUST(pilot_remove(p, space.space, &space));
}

int main(int argc, char **argv) {
    pilot p = PILOT_HANDLE;
    pilot_reply file, is, space;
    char letter[LETTER], back[LETTER];
    uint32_t pages = 1;
    size_t done;
    int n;
    if (argc != 2) return 2;
    MUST(pilot_format(argv[1], 1024, 8, 1));
    MUST(pilot_open(&p, argv[1], 64));
    MUST(pilot_create(&p, pages, KIND, &file));
    MUST(pilot_permanent(&p, file.file));
    for (n = 0; n < LETTERS; n++) {
        uint32_t wanted = (uint32_t)((n + 1) * LETTER + 511) / 512;
        if (wanted > pages) MUST(pilot_setsize(&p, file.file, pages = wanted, &is));
        space = window(&p, file.file, pages, true);
        write_letter(letter, n);
        MUST(pilot_store(&p, space.page * 512 + n * LETTER, (const unsigned char *)letter, LETTER, &done));
        MUST(pilot_force(&p, space.space));
        close_window(&p, space);
    }
    space = window(&p, file.file, pages, false);
    for (n = 0; n < LETTERS; n++) {
        write_letter(letter, n);
        MUST(pilot_load(&p, space.page * 512 + n * LETTER, (unsigned char *)back, LETTER, &done));
        if (memcmp(letter, back, LETTER) != 0) return 1;
    }
    if (pilot_store(&p, space.page * 512, (const unsigned char *)letter, LETTER, &done) != PILOT_READONLY || done != 0) return 1;
    /* past the last page: what lies before comes */
    if (pilot_load(&p, (space.page + pages) * 512 - 100, (unsigned char *)back, LETTER, &done) != PILOT_NOMAP || done != 100) return 1;
    close_window(&p, space);
    MUST(pilot_close(&p));
    pilot_free(&p);
    printf("%d letters in %u pages\n", LETTERS, pages);
    return 0;
}
