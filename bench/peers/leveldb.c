/* LevelDB, by synced batches. A key is a time, eight bytes with the greatest first. It has one form. */

#include <endian.h>
#include <string.h>

#include <leveldb/c.h>

#include "peer.h"

const int peer_holds_truth = 1;

static leveldb_t *db;
static leveldb_options_t *options;
static leveldb_readoptions_t *reading;
static leveldb_writeoptions_t *synced;
static leveldb_writebatch_t *batch;

static void must(const char *error, const char *call)
{
    if (error)
        fail(call, error);
}

void peer_open(const char *folder, const char *form)
{
    char *error = NULL;
    (void)form;
    options = leveldb_options_create();
    leveldb_options_set_create_if_missing(options, 1);
    reading = leveldb_readoptions_create();
    synced = leveldb_writeoptions_create();
    leveldb_writeoptions_set_sync(synced, 1);
    batch = leveldb_writebatch_create();
    db = leveldb_open(options, path_in(folder, "bench.leveldb"), &error);
    must(error, "leveldb_open");
}

void peer_append(const uint64_t *times, const int64_t *values, size_t count)
{
    char *error = NULL;
    leveldb_writebatch_clear(batch);
    for (size_t at = 0; at < count; at++) {
        uint64_t key = htobe64(times[at]);
        leveldb_writebatch_put(batch, (const char *)&key, sizeof key, (const char *)&values[at], sizeof values[at]);
    }
    leveldb_write(db, synced, batch, &error);
    must(error, "leveldb_write");
}

struct sum peer_sum(uint64_t from, uint64_t to)
{
    uint64_t begin = htobe64(from), time;
    int64_t sum = 0, number;
    size_t length;
    leveldb_iterator_t *rows = leveldb_create_iterator(db, reading);
    for (leveldb_iter_seek(rows, (const char *)&begin, sizeof begin); leveldb_iter_valid(rows); leveldb_iter_next(rows)) {
        memcpy(&time, leveldb_iter_key(rows, &length), sizeof time);
        if (be64toh(time) > to)
            break;
        memcpy(&number, leveldb_iter_value(rows, &length), sizeof number);
        sum += number;
    }
    leveldb_iter_destroy(rows);
    struct sum told = {sum, sum};
    return told;
}

void peer_close(void)
{
    leveldb_close(db);
    leveldb_writebatch_destroy(batch);
    leveldb_writeoptions_destroy(synced);
    leveldb_readoptions_destroy(reading);
    leveldb_options_destroy(options);
}
