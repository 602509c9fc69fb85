/* Reads a trace from standard input, makes the calls of its lines by the library, and writes the replies that `pilot IMAGE run` writes.
 *
 *     trace IMAGE [FRAMES [CALLS]]      ends with 1 where a session does not begin, or stops
 *
 * CALLS gets the trace of what the library did: the same lines, but that a load or a store over the end of a page is one line a page,
 * up to the page that was refused, and that a store over the end of a page first asks whether both pages may be stored to. */
#include "pilot.h"
#include <stdio.h>
#include <stdlib.h>
#include <string.h>

enum { WORDS = 6, MOST = 256 };

static pilot p = PILOT_HANDLE;
static FILE *calls;
static char *words[WORDS];
static int count;

/* decimal digits without a leading zero, below a bound */
static int number(const char *word, uint64_t below, uint32_t *n) {
    uint64_t value = 0;
    size_t i, size = strlen(word);
    if (size == 0 || size > 10 || (size > 1 && word[0] == '0')) return 0;
    for (i = 0; i < size; i++) {
        if (word[i] < '0' || word[i] > '9') return 0;
        value = value * 10 + (uint64_t)(word[i] - '0');
    }
    *n = (uint32_t)value;
    return value < below;
}

static int digit(char c) {
    if (c >= '0' && c <= '9') return c - '0';
    if (c >= 'a' && c <= 'f') return c - 'a' + 10;
    if (c >= 'A' && c <= 'F') return c - 'A' + 10;
    return -1;
}

static int identifier(const char *word, uint64_t *id) {
    int i;
    *id = 0;
    if (strlen(word) != 16) return 0;
    for (i = 0; i < 16; i++) {
        if (digit(word[i]) < 0) return 0;
        *id = *id << 4 | (uint64_t)digit(word[i]);
    }
    return 1;
}

/* 2 to 128 digits, two a byte */
static int bytes_of(const char *word, uint8_t *bytes, uint32_t *size) {
    size_t i, digits = strlen(word);
    if (digits < 2 || digits > 128 || digits % 2) return 0;
    for (i = 0; i < digits; i += 2) {
        if (digit(word[i]) < 0 || digit(word[i + 1]) < 0) return 0;
        bytes[i / 2] = (uint8_t)(digit(word[i]) << 4 | digit(word[i + 1]));
    }
    *size = (uint32_t)digits / 2;
    return 1;
}

static int is_writable(const char *word, bool *writable) {
    *writable = strcmp(word, "rw") == 0;
    return *writable || strcmp(word, "ro") == 0;
}

/* cuts a line into words at single spaces; a word more than there may be makes it no call */
static int cut(char *line) {
    count = 0;
    for (;;) {
        char *end = strchr(line, ' ');
        if (count == WORDS) return 0;
        words[count++] = line;
        if (!end) return 1;
        *end = 0;
        line = end + 1;
    }
}

static int is(const char *name, int parts) {
    return count == parts && strcmp(words[0], name) == 0;
}

/* what a refusal says; a session that stops ends the program */
static void refused(int code, uint32_t with) {
    if (code == PILOT_NOFILE) {
        puts("none");
    } else if (code >= PILOT_DISK) {
        fprintf(stderr, "trace: %s\n", pilot_text(code));
        exit(1);
    } else if (code == PILOT_MAPPED || code == PILOT_FILEMAPPED || code == PILOT_NOMAP || code == PILOT_READONLY) {
        printf("error %s %u\n", pilot_text(code), with);
    } else {
        printf("error %s\n", pilot_text(code));
    }
}

/* a call that replies nothing */
static int plain(int code, uint32_t space) {
    if (code == PILOT_OK) puts("ok");
    else refused(code, space);
    return 1;
}

static void note_piece(uint32_t at, const uint8_t *bytes, uint32_t size) {
    uint32_t i;
    fprintf(calls, bytes ? "store %u " : "load %u %u", at, size);
    for (i = 0; bytes && i < size; i++) fprintf(calls, "%02x", bytes[i]);
    putc('\n', calls);
}

/* writes a reference of at most 64 bytes down, a line a page, of which so many bytes were moved; of a load there are no bytes */
static void note(uint32_t at, const uint8_t *bytes, uint32_t size, size_t done) {
    uint32_t first = 512 - at % 512;
    if (!calls) return;
    note_piece(at, bytes, size < first ? size : first);
    if (first < size && first <= done && first <= UINT32_MAX - at) note_piece(at + first, bytes ? bytes + first : NULL, size - first);
}

static int load_at(uint32_t at, uint8_t *bytes, uint32_t size, size_t *done) {
    int code = pilot_load(&p, at, bytes, size, done);
    note(at, NULL, size, *done);
    return code;
}

static int store_at(uint32_t at, const uint8_t *bytes, uint32_t size) {
    size_t done;
    int code = pilot_store(&p, at, bytes, size, &done);
    note(at, bytes, size, done);
    return code;
}

static int load(void) {
    uint32_t at, size, i;
    uint8_t bytes[64];
    size_t done;
    int code;
    if (!number(words[1], 1ull << 32, &at) || !number(words[2], 65, &size) || size == 0) return 0;
    code = load_at(at, bytes, size, &done);
    if (code != PILOT_OK) {
        refused(code, (uint32_t)((at + (uint64_t)done) / 512));
        return 1;
    }
    fputs("bytes ", stdout);
    for (i = 0; i < size; i++) printf("%02x", bytes[i]);
    putchar('\n');
    return 1;
}

/* whether all pages of a store may be stored to: each is asked for a byte, and given it back; else why not, and which not */
static int may_store(uint32_t at, uint32_t size, uint32_t *page) {
    uint32_t ends[2] = {at, at + size - 1};
    uint8_t byte[2];
    size_t done;
    int i, code;
    for (i = 0; i < 2; i++) {
        *page = ends[i] / 512;
        if ((code = load_at(ends[i], &byte[i], 1, &done)) != PILOT_OK) return code;
    }
    for (i = 0; i < 2; i++) {
        *page = ends[i] / 512;
        if ((code = store_at(ends[i], &byte[i], 1)) != PILOT_OK) return code;
    }
    return PILOT_OK;
}

/* a trace stores all bytes or none, where the library stores those before the page that may not be stored to */
static int store(void) {
    uint32_t at, size, page;
    uint8_t bytes[64];
    int code = PILOT_OK;
    if (!number(words[1], 1ull << 32, &at) || !bytes_of(words[2], bytes, &size)) return 0;
    page = at / 512;
    if (at % 512 + size > 512) code = may_store(at, size, &page);
    if (code == PILOT_OK) code = store_at(at, bytes, size);
    return plain(code, page);
}

static int on_files(void) {
    pilot_reply r;
    uint32_t pages, kind;
    uint64_t id;
    int code;
    if (is("create", 3)) {
        if (!number(words[1], 1ull << 32, &pages) || !number(words[2], 65536, &kind)) return 0;
        code = pilot_create(&p, pages, (uint16_t)kind, &r);
        if (code == PILOT_OK) printf("file %016llx\n", (unsigned long long)r.file);
        else refused(code, r.space);
        return 1;
    }
    if (is("volume", 1)) {
        code = pilot_volume(&p, &r);
        if (code == PILOT_OK) printf("volume %u %u\n", r.pages, r.free);
        else refused(code, r.space);
        return 1;
    }
    if (is("setsize", 3)) {
        if (!identifier(words[1], &id) || !number(words[2], 1ull << 32, &pages)) return 0;
        code = pilot_setsize(&p, id, pages, &r);
        return plain(code, r.space);
    }
    if (count != 2 || !identifier(words[1], &id)) return 0;
    if (is("permanent", 2)) return plain(pilot_permanent(&p, id), 0);
    if (is("delete", 2) || is("immutable", 2)) {
        code = is("delete", 2) ? pilot_delete(&p, id, &r) : pilot_immutable(&p, id, &r);
        return plain(code, r.space);
    }
    if (is("next", 2)) {
        code = pilot_next(&p, id, &r);
        if (code == PILOT_OK) printf("file %016llx\n", (unsigned long long)r.file);
        else refused(code, 0);
        return 1;
    }
    if (!is("attr", 2)) return 0;
    code = pilot_attributes(&p, id, &r);
    if (code == PILOT_OK)
        printf("attr %u %u %s %s\n", r.pages, r.kind, r.permanent ? "perm" : "temp", r.immutable ? "immutable" : "mutable");
    else refused(code, r.space);
    return 1;
}

static int with_space(uint32_t space) {
    pilot_reply r;
    int code;
    if (is("unmap", 2)) return plain(pilot_unmap(&p, space), 0);
    if (is("activate", 2)) return plain(pilot_activate(&p, space), 0);
    if (is("deactivate", 2)) return plain(pilot_deactivate(&p, space), 0);
    if (is("kill", 2)) return plain(pilot_kill(&p, space), 0);
    if (is("force", 2)) return plain(pilot_force(&p, space), 0);
    if (is("where", 2)) {
        code = pilot_where(&p, space, &r);
        if (code == PILOT_OK) printf("where %u %u %u\n", r.space, r.page, r.pages);
        else refused(code, 0);
        return 1;
    }
    if (!is("remove", 2) && !is("mapdata", 2)) return 0;
    code = is("remove", 2) ? pilot_remove(&p, space, &r) : pilot_mapdata(&p, space, &r);
    return plain(code, r.space);
}

static int on_spaces(void) {
    pilot_reply r;
    uint32_t space, pages, first = 0;
    uint64_t id;
    bool writable;
    int code;
    if (count < 2 || !number(words[1], 1ull << 32, &space)) return 0;
    if (count == 2) return with_space(space);
    if (is("map", 5)) {
        if (!identifier(words[2], &id) || !number(words[3], 1ull << 32, &first) || !is_writable(words[4], &writable)) return 0;
        code = pilot_map(&p, space, id, first, writable, &r);
        return plain(code, r.space);
    }
    if (is("protect", 3)) return is_writable(words[2], &writable) ? plain(pilot_protect(&p, space, writable), 0) : 0;
    if (!number(words[2], 1ull << 32, &pages)) return 0;
    if (is("units", 3)) return plain(pilot_units(&p, space, pages), 0);
    if (is("space", 4) && !number(words[3], 1ull << 32, &first)) return 0;
    if (!is("space", 3) && !is("space", 4)) return 0;
    code = count == 3 ? pilot_space(&p, space, pages, &r) : pilot_space_at(&p, space, pages, first, &r);
    if (code == PILOT_OK) printf("space %u %u\n", r.space, r.page);
    else refused(code, r.space);
    return 1;
}

/* whether there is a call after the line */
static int answer(char *line) {
    if (calls && strncmp(line, "load ", 5) != 0 && strncmp(line, "store ", 6) != 0) fprintf(calls, "%s\n", line);
    if (strcmp(line, "close") == 0 || strcmp(line, "halt") == 0) {
        plain(line[0] == 'c' ? pilot_close(&p) : pilot_halt(&p), 0);
        return 0;
    }
    if (!cut(line) || !(is("load", 3) ? load() : is("store", 3) ? store() : on_files() || on_spaces())) refused(PILOT_SYNTAX, 0);
    return 1;
}

/* the next line, without its end; a longer one than a call has is none */
static int next_line(char *line) {
    int size = 0, c;
    while ((c = getchar()) != EOF && c != '\n')
        if (size < MOST) line[size++] = (char)(c ? c : '?');
    line[size < MOST ? size : 0] = 0;
    return size > 0 || c == '\n';
}

int main(int argc, char **argv) {
    char line[MOST + 1];
    int code;
    if (argc < 2 || (argc > 3 && !(calls = fopen(argv[3], "w")))) return 2;
    code = pilot_open(&p, argv[1], argc > 2 ? (uint32_t)atoi(argv[2]) : 64);
    if (code != PILOT_OK) refused(code < PILOT_DISK ? PILOT_DISK : code, 0);
    while (next_line(line))
        if (!answer(line)) break;
    if (pilot_is_open(&p) && (code = pilot_close(&p)) != PILOT_OK) refused(code, 0);
    pilot_free(&p);
    return calls && fclose(calls) ? 2 : 0;
}
