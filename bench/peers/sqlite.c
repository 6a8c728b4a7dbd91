/* SQLite, a table with the time as its key, synchronous=FULL. Its form is a journal_mode. */

#include <stdio.h>

#include <sqlite3.h>

#include "peer.h"

const int peer_holds_truth = 1;

static sqlite3 *db;
static sqlite3_stmt *begin, *commit, *insert, *sum;

static void run(const char *words)
{
    if (sqlite3_exec(db, words, NULL, NULL, NULL) != SQLITE_OK)
        fail(words, sqlite3_errmsg(db));
}

static sqlite3_stmt *prepared(const char *words)
{
    sqlite3_stmt *statement;
    if (sqlite3_prepare_v2(db, words, -1, &statement, NULL) != SQLITE_OK)
        fail(words, sqlite3_errmsg(db));
    return statement;
}

static void step(sqlite3_stmt *statement)
{
    if (sqlite3_step(statement) != SQLITE_DONE)
        fail(sqlite3_sql(statement), sqlite3_errmsg(db));
    sqlite3_reset(statement);
}

void peer_open(const char *folder, const char *form)
{
    char mode[64];
    snprintf(mode, sizeof mode, "pragma journal_mode=%s", form);
    if (sqlite3_open(path_in(folder, "bench.db"), &db) != SQLITE_OK)
        fail("sqlite3_open", sqlite3_errmsg(db));
    run(mode);
    run("pragma synchronous=full");
    run("create table readings (t integer primary key, v integer)");
    begin = prepared("begin");
    commit = prepared("commit");
    insert = prepared("insert into readings values (?1, ?2)");
    sum = prepared("select sum(v) from readings where t between ?1 and ?2");
}

void peer_append(const uint64_t *times, const int64_t *values, size_t count)
{
    if (count > 1)
        step(begin);
    for (size_t at = 0; at < count; at++) {
        sqlite3_bind_int64(insert, 1, (sqlite3_int64)times[at]);
        sqlite3_bind_int64(insert, 2, values[at]);
        step(insert);
    }
    if (count > 1)
        step(commit);
}

struct sum peer_sum(uint64_t from, uint64_t to)
{
    sqlite3_bind_int64(sum, 1, (sqlite3_int64)from);
    sqlite3_bind_int64(sum, 2, (sqlite3_int64)to);
    if (sqlite3_step(sum) != SQLITE_ROW)
        fail("sum", sqlite3_errmsg(db));
    struct sum told = {sqlite3_column_int64(sum, 0), sqlite3_column_int64(sum, 0)};
    sqlite3_reset(sum);
    return told;
}

void peer_close(void)
{
    sqlite3_stmt *all[] = {begin, commit, insert, sum};
    for (size_t at = 0; at < sizeof all / sizeof *all; at++)
        sqlite3_finalize(all[at]);
    sqlite3_close(db);
}
