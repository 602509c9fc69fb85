/* The same work with SQLite (a journal ahead, and all on the medium at each commit): records of 512 bytes by number, of each of
 * which 64 bytes are loaded or stored in one transaction, and records stored 64 at a time, each time in a transaction of its own.
 *
 *     bench_sqlite FILE        the file is not there yet */
#include "bench.h"
#include <sqlite3.h>
#include <string.h>

static sqlite3 *db;
static sqlite3_stmt *get, *put;
static unsigned char buffer[512];

static void call(const char *words) {
    must(sqlite3_exec(db, words, NULL, NULL, NULL) == SQLITE_OK, words);
}

static sqlite3_stmt *prepared(const char *words) {
    sqlite3_stmt *made;
    must(sqlite3_prepare_v2(db, words, -1, &made, NULL) == SQLITE_OK, words);
    return made;
}

/* copies the record of a number */
static void record(uint32_t number, unsigned char *into, uint32_t from, uint32_t size) {
    sqlite3_bind_int(get, 1, (int)number);
    must(sqlite3_step(get) == SQLITE_ROW, "a load");
    memcpy(into, (const unsigned char *)sqlite3_column_blob(get, 0) + from, size);
    sqlite3_reset(get);
}

static void replace(uint32_t number, const unsigned char *bytes) {
    sqlite3_bind_int(put, 1, (int)number);
    sqlite3_bind_blob(put, 2, bytes, 512, SQLITE_STATIC);
    must(sqlite3_step(put) == SQLITE_DONE, "a store");
    sqlite3_reset(put);
}

static void load(uint32_t at, uint32_t size) {
    record(at / 512, buffer, at % 512, size);
}

static void store(uint32_t at, uint32_t size) {
    unsigned char page[512];
    record(at / 512, page, 0, 512);
    memcpy(page + at % 512, buffer, size);
    replace(at / 512, page);
}

int main(int argc, char **argv) {
    uint32_t k, i;
    double start, loaded = 0, stored = 0;
    if (argc != 2) return 2;
    must(sqlite3_open(argv[1], &db) == SQLITE_OK, argv[1]);
    call("pragma journal_mode = wal; pragma synchronous = full; create table pages (number integer primary key, bytes blob)");
    get = prepared("select bytes from pages where number = ?");
    put = prepared("replace into pages values (?, ?)");
    call("begin");
    for (k = 0; k < PAGES; k++) replace(k, buffer);
    call("commit; begin");
    for (i = 0; i < RUNS; i++) {
        run(load, 64, &loaded);
        run(store, 64, &stored);
    }
    call("commit");
    printf("SQLite, 64 bytes: load %.0f ns, store %.0f ns\n", loaded, stored);
    start = seconds(CLOCK_MONOTONIC);
    for (i = 0; i < FORCES; i++) {
        call("begin");
        for (k = 0; k < 64; k++) replace(drawn(PAGES), buffer);
        call("commit");
    }
    printf("SQLite, forced, 64 at a time: %.0f pages/s\n", FORCES * 64 / (seconds(CLOCK_MONOTONIC) - start));
    sqlite3_finalize(get);
    sqlite3_finalize(put);
    sqlite3_close(db);
    return 0;
}
