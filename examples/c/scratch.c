/* A compiler's anonymous pages: memory that no file keeps, larger than the frames. And what a handle answers when it can't.
 *
 *     scratch IMAGE */
#include "pilot.h"
#include <stdio.h>
#include <stdlib.h>
#include <string.h>

#define MUST(call) must(call, #call)
#define WANT(code, call) want(code, call, #call)

enum { PAGES = 400 };

static void want(int code, int got, const char *what) {
    if (got != code) {
        fprintf(stderr, "%s: %s, and not %s\n", what, pilot_text(got), pilot_text(code));
        exit(1);
    }
}

static void must(int code, const char *what) { want(PILOT_OK, code, what); }

int main(int argc, char **argv) {
    pilot p = PILOT_HANDLE, other = PILOT_HANDLE;
    pilot_reply space, reply;
    pilot_report report;
    pilot_finding finding;
    unsigned char page[512], back[512];
    size_t done;
    uint32_t i;
    if (argc != 2) return 2;
    WANT(PILOT_COUNT, pilot_format(argv[1], 255, 9, 1));
    WANT(PILOT_SYSTEM, pilot_open(&p, argv[1], 24));
    WANT(PILOT_ARGUMENT, pilot_format(argv[1], 1024, 0, 1));
    WANT(PILOT_NOTVOLUME, pilot_open(&p, argv[1], 24));
    MUST(pilot_format(argv[1], 0, 9, 1));
    WANT(PILOT_ARGUMENT, pilot_open(&p, argv[1], 23));
    WANT(PILOT_ARGUMENT, pilot_open(&p, argv[1], 4097));
    MUST(pilot_open(&p, argv[1], 24));
    WANT(PILOT_OPEN, pilot_open(&p, argv[1], 24));
    WANT(PILOT_INUSE, pilot_open(&other, argv[1], 24));
    WANT(PILOT_INUSE, pilot_scavenge(argv[1], &report));

    MUST(pilot_space(&p, 0, PAGES, &space));
    MUST(pilot_mapdata(&p, space.space, &reply));
    for (i = 0; i < PAGES; i++) {
        memset(page, (int)i, sizeof page);
        MUST(pilot_store(&p, (space.page + i) * 512, page, sizeof page, &done));
    }
    for (i = 0; i < PAGES; i++) {
        memset(page, (int)i, sizeof page);
        MUST(pilot_load(&p, (space.page + i) * 512, back, sizeof back, &done));
        if (memcmp(page, back, sizeof page) != 0) return 1;
    }
    MUST(pilot_load(&p, 0, back, 0, &done));
    WANT(PILOT_NOMAP, pilot_load(&p, 0xffffffff, back, 512, &done));
    WANT(PILOT_SPACE, pilot_unmap(&p, 77));
    WANT(PILOT_NOFILE, pilot_next(&p, 0, &reply));

    MUST(pilot_halt(&p));
    WANT(PILOT_CLOSED, pilot_load(&p, 0, back, 1, &done));
    WANT(PILOT_CLOSED, pilot_close(&p));
    WANT(PILOT_UNCLEAN, pilot_open(&p, argv[1], 24));
    MUST(pilot_evidence(&p, &finding));
    MUST(pilot_scavenge(argv[1], &report));
    MUST(pilot_open(&p, argv[1], 24));
    MUST(pilot_close(&p));
    pilot_free(&p);
    printf("%d pages came back; %u files after the restoration\n", PAGES, report.files);
    return (int)finding.what;
}
