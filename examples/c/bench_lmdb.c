/* The same work with LMDB: records of 512 bytes by number, of each of which 64 bytes are loaded or stored in one transaction, and
 * records stored 64 at a time, each time in a transaction of its own that is on the medium.
 *
 *     bench_lmdb FOLDER        the folder is there, and empty */
#include "bench.h"
#include <lmdb.h>
#include <string.h>

static MDB_env *env;
static MDB_txn *txn;
static MDB_dbi dbi;
static unsigned char buffer[512];

static void begin(unsigned int how) {
    must(mdb_txn_begin(env, NULL, how, &txn) == 0, "mdb_txn_begin");
}

/* the record of a number, as it lies in the file */
static MDB_val record(uint32_t *number) {
    MDB_val key = {sizeof *number, number}, found;
    must(mdb_get(txn, dbi, &key, &found) == 0, "mdb_get");
    return found;
}

static void put(uint32_t number, void *bytes) {
    MDB_val key = {sizeof number, &number}, value = {512, bytes};
    must(mdb_put(txn, dbi, &key, &value, 0) == 0, "mdb_put");
}

static void load(uint32_t at, uint32_t size) {
    uint32_t number = at / 512;
    memcpy(buffer, (unsigned char *)record(&number).mv_data + at % 512, size);
    __asm__ volatile("" : : "r"(buffer) : "memory");
}

static void store(uint32_t at, uint32_t size) {
    uint32_t number = at / 512;
    unsigned char page[512];
    memcpy(page, record(&number).mv_data, 512);
    memcpy(page + at % 512, buffer, size);
    put(number, page);
}

int main(int argc, char **argv) {
    uint32_t k, i;
    double start, loaded = 0, stored = 0;
    if (argc != 2) return 2;
    must(mdb_env_create(&env) == 0 && mdb_env_set_mapsize(env, 64 << 20) == 0 && mdb_env_open(env, argv[1], 0, 0666) == 0, argv[1]);
    begin(0);
    must(mdb_dbi_open(txn, NULL, MDB_INTEGERKEY, &dbi) == 0, "mdb_dbi_open");
    for (k = 0; k < PAGES; k++) put(k, buffer);
    must(mdb_txn_commit(txn) == 0, "mdb_txn_commit");
    begin(MDB_RDONLY);
    for (i = 0; i < RUNS; i++) run(load, 64, &loaded);
    mdb_txn_abort(txn);
    begin(0);
    for (i = 0; i < RUNS; i++) run(store, 64, &stored);
    must(mdb_txn_commit(txn) == 0, "mdb_txn_commit");
    printf("LMDB, 64 bytes: load %.0f ns, store %.0f ns\n", loaded, stored);
    start = seconds(CLOCK_MONOTONIC);
    for (i = 0; i < FORCES; i++) {
        begin(0);
        for (k = 0; k < 64; k++) put(drawn(PAGES), buffer);
        must(mdb_txn_commit(txn) == 0, "mdb_txn_commit");
    }
    printf("LMDB, forced, 64 at a time: %.0f pages/s\n", FORCES * 64 / (seconds(CLOCK_MONOTONIC) - start));
    mdb_env_close(env);
    return 0;
}
