/* The editor saves documents, one after the other, and is killed at a drawn moment. Then the volume is restored: each document that
 * it has must be whole, and none may be missing of which pilot_permanent had answered that it is kept.
 *
 *     kills IMAGE COUNT      makes the image anew, and prints what was there; ends with 1 where a document is torn or missing */
#include "pilot.h"
#include <fcntl.h>
#include <signal.h>
#include <stdio.h>
#include <stdlib.h>
#include <string.h>
#include <sys/wait.h>
#include <unistd.h>

/* the editor's own calls of pilot_permanent say so, once it has answered */
static int answers;

static int keep(pilot *p, uint64_t file) {
    int code = pilot_permanent(p, file);
    if (code == PILOT_OK && write(answers, &file, sizeof file) != sizeof file) exit(1);
    return code;
}

#define pilot_permanent keep
#define main edit
#include "editor.c"
#undef main
#undef pilot_permanent

enum { LONGEST = 60000, MOST = 1000 };

/* runs the editor again and again, until it is killed after so many microseconds; puts the documents that were kept into kept */
static int run(char *path, unsigned after, uint64_t *kept) {
    char *words[] = {"editor", path, NULL};
    int ends[2], status, count = 0;
    pid_t child;
    if (pipe(ends) || (child = fork()) < 0) exit(1);
    if (child == 0) {
        answers = ends[1];
        if (!freopen("/dev/null", "w", stdout)) exit(1);
        while (edit(2, words) == 0) continue;
        exit(1);
    }
    close(ends[1]);
    usleep(after);
    kill(child, SIGKILL);
    if (waitpid(child, &status, 0) != child || !WIFSIGNALED(status)) exit(1);
    while (count < MOST && read(ends[0], &kept[count], sizeof *kept) == sizeof *kept) count++;
    close(ends[0]);
    return count;
}

/* whether a document has its bytes */
static int is_whole(pilot *p, uint64_t file) {
    pilot_reply is;
    MUST(pilot_attributes(p, file, &is));
    if (is.pages != PAGES || is.kind != KIND || !is.permanent) return 0;
    memset(back, 0, BYTES);
    read_back(p, file, back, BYTES);
    return memcmp(text, back, BYTES) == 0;
}

/* tests and removes all documents of a volume; adds to found how many of the kept ones are there */
static int look(const char *path, const uint64_t *kept, int count, int *found) {
    pilot p = PILOT_HANDLE;
    pilot_reply next, r;
    int documents = 0, k;
    MUST(pilot_open(&p, path, 64));
    while (pilot_next(&p, 0, &next) == PILOT_OK) {
        for (k = 0; k < count; k++) *found += kept[k] == next.file;
        if (!is_whole(&p, next.file)) {
            fprintf(stderr, "torn: %016llx\n", (unsigned long long)next.file);
            exit(1);
        }
        MUST(pilot_delete(&p, next.file, &r));
        documents++;
    }
    MUST(pilot_close(&p));
    pilot_free(&p);
    return documents;
}

int main(int argc, char **argv) {
    static uint64_t kept[MOST];
    int kills, i, documents = 0, answered = 0, found = 0, within = 0;
    if (argc != 3) return 2;
    kills = atoi(argv[2]);
    srand(5);
    for (i = 0; i < BYTES; i++) text[i] = (unsigned char)(i * 31 + i / 256);
    unlink(argv[1]);
    MUST(pilot_format(argv[1], 16384, 7, 1));
    for (i = 0; i < kills; i++) {
        pilot_report report;
        int count = run(argv[1], (unsigned)(rand() % LONGEST), kept);
        MUST(pilot_scavenge(argv[1], &report));
        answered += count;
        within += report.freed > 0;
        documents += look(argv[1], kept, count, &found);
    }
    printf("%d kills, after %d of them sectors were freed; %d documents were kept, %d of them are there; %d whole ones in all\n",
        kills, within, answered, found, documents);
    return found == answered ? 0 : 1;
}
