/* LMDB, with its own syncs. A key is a time, eight bytes with the greatest first. Its form is `put`, or `append`, which says that
 * each key comes behind all others. */

#include <endian.h>
#include <string.h>

#include <lmdb.h>

#include "peer.h"

static const size_t MAP_SIZE = (size_t)1 << 30;

const int peer_holds_truth = 1;

static MDB_env *env;
static MDB_dbi readings;
static MDB_txn *asking;
static unsigned flags;

static void must(int code, const char *call)
{
    if (code != 0)
        fail(call, mdb_strerror(code));
}

void peer_open(const char *folder, const char *form)
{
    MDB_txn *txn;
    flags = strcmp(form, "append") == 0 ? MDB_APPEND : 0;
    must(mdb_env_create(&env), "mdb_env_create");
    must(mdb_env_set_mapsize(env, MAP_SIZE), "mdb_env_set_mapsize");
    must(mdb_env_open(env, path_in(folder, "bench.lmdb"), MDB_NOSUBDIR, 0600), "mdb_env_open");
    must(mdb_txn_begin(env, NULL, 0, &txn), "mdb_txn_begin");
    must(mdb_dbi_open(txn, NULL, 0, &readings), "mdb_dbi_open");
    must(mdb_txn_commit(txn), "mdb_txn_commit");
    must(mdb_txn_begin(env, NULL, MDB_RDONLY, &asking), "mdb_txn_begin");
    mdb_txn_reset(asking);
}

void peer_append(const uint64_t *times, const int64_t *values, size_t count)
{
    MDB_txn *txn;
    must(mdb_txn_begin(env, NULL, 0, &txn), "mdb_txn_begin");
    for (size_t at = 0; at < count; at++) {
        uint64_t time = htobe64(times[at]);
        int64_t number = values[at];
        MDB_val key = {sizeof time, &time}, value = {sizeof number, &number};
        must(mdb_put(txn, readings, &key, &value, flags), "mdb_put");
    }
    must(mdb_txn_commit(txn), "mdb_txn_commit");
}

struct sum peer_sum(uint64_t from, uint64_t to)
{
    MDB_cursor *cursor;
    uint64_t begin = htobe64(from), time;
    int64_t sum = 0, number;
    MDB_val key = {sizeof begin, &begin}, value;
    must(mdb_txn_renew(asking), "mdb_txn_renew");
    must(mdb_cursor_open(asking, readings, &cursor), "mdb_cursor_open");
    for (int code = mdb_cursor_get(cursor, &key, &value, MDB_SET_RANGE); code == 0;
         code = mdb_cursor_get(cursor, &key, &value, MDB_NEXT)) {
        memcpy(&time, key.mv_data, sizeof time);
        if (be64toh(time) > to)
            break;
        memcpy(&number, value.mv_data, sizeof number);
        sum += number;
    }
    mdb_cursor_close(cursor);
    mdb_txn_reset(asking);
    struct sum told = {sum, sum};
    return told;
}

void peer_close(void)
{
    mdb_txn_abort(asking);
    mdb_env_close(env);
}
