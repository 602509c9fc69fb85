/* An editor's save: a document goes into a file of its own, which is forced, and only then marked permanent. So a kill at any
 * moment leaves the document whole, or not there.
 *
 *     editor IMAGE        makes the volume where there is none, saves a text and reads it back in a second session */
#include "pilot.h"
#include <stdio.h>
#include <stdlib.h>
#include <string.h>

#define MUST(call) must(call, #call)

enum { BYTES = 100000, PAGES = (BYTES + 511) / 512, KIND = 9 };

static unsigned char text[BYTES], back[BYTES];

static void must(int code, const char *what) {
    if (code != PILOT_OK) {
        fprintf(stderr, "%s: %s\n", what, pilot_text(code));
        exit(1);
    }
}

/* saves bytes as a new document */
static uint64_t save(pilot *p, const unsigned char *bytes, size_t length) {
    pilot_reply file, space, map;
    uint32_t pages = (uint32_t)((length + 511) / 512);
    size_t done;
    MUST(pilot_create(p, pages, KIND, &file));
    MUST(pilot_space(p, 0, pages, &space));
    MUST(pilot_map(p, space.space, file.file, 0, true, &map));
    MUST(pilot_store(p, space.page * 512, bytes, length, &done));
    MUST(pilot_force(p, space.space));
    MUST(pilot_permanent(p, file.file));
    MUST(pilot_unmap(p, space.space));
    MUST(pilot_remove(p, space.space, &space));
    return file.file;
}

/* reads the first bytes of a document */
static void read_back(pilot *p, uint64_t file, unsigned char *into, size_t length) {
    pilot_reply is, space, map;
    size_t done;
    MUST(pilot_attributes(p, file, &is));
    MUST(pilot_space(p, 0, is.pages, &space));
    MUST(pilot_map(p, space.space, file, 0, false, &map));
    MUST(pilot_load(p, space.page * 512, into, length, &done));
    MUST(pilot_unmap(p, space.space));
    MUST(pilot_remove(p, space.space, &space));
}

int main(int argc, char **argv) {
    pilot p = PILOT_HANDLE;
    uint64_t file;
    int code, i;
    if (argc != 2) return 2;
    for (i = 0; i < BYTES; i++) text[i] = (unsigned char)(i * 31 + i / 256);
    code = pilot_open(&p, argv[1], 64);
    if (code == PILOT_SYSTEM) {
        MUST(pilot_format(argv[1], 4096, 7, 1));
        code = pilot_open(&p, argv[1], 64);
    }
    must(code, "pilot_open");
    file = save(&p, text, BYTES);
    MUST(pilot_close(&p));

    MUST(pilot_open(&p, argv[1], 24));
    read_back(&p, file, back, BYTES);
    MUST(pilot_close(&p));
    pilot_free(&p);
    if (memcmp(text, back, BYTES) != 0) return 1;
    printf("saved %016llx, and %d bytes came back\n", (unsigned long long)file, BYTES);
    return 0;
}
