/* SummaryStore's library. Its form is a stream's target. */

#include <stdio.h>
#include <string.h>

#include <summarystore.h>

#include "peer.h"

const int peer_holds_truth = 1;

static const char NAME[] = "s";
enum { LENGTH = sizeof NAME - 1 };

static summarystore *store;

static void must(int status, const char *call)
{
    if (status >= SUMMARYSTORE_REFUSED)
        fail(call, summarystore_refusal(status));
    if (status != SUMMARYSTORE_DONE)
        fail(call, store ? summarystore_message(store) : "no connection");
}

void peer_open(const char *folder, const char *form)
{
    const char *path = path_in(folder, "bench.store");
    char line[128];
    summarystore_text reply;
    int length = snprintf(line, sizeof line, "create %s %s", NAME, form);
    must(summarystore_open(path, strlen(path), 0, &store), "summarystore_open");
    must(summarystore_call(store, line, (size_t)length, &reply), "summarystore_call");
    if (strncmp(reply.bytes, "ok ", 3) != 0)
        fail(line, reply.bytes);
}

void peer_append(const uint64_t *times, const int64_t *values, size_t count)
{
    size_t taken;
    if (count == 1)
        must(summarystore_append(store, NAME, LENGTH, times[0], values[0], NULL), "summarystore_append");
    else
        must(summarystore_append_many(store, NAME, LENGTH, times, values, count, &taken, NULL), "summarystore_append_many");
}

/* Sums here have 64 bits. */
struct sum peer_sum(uint64_t from, uint64_t to)
{
    summarystore_interval answer;
    must(summarystore_query(store, NAME, LENGTH, SUMMARYSTORE_SUM, from, to, &answer), "summarystore_query");
    struct sum told = {(int64_t)answer.lo.low, (int64_t)answer.hi.low};
    return told;
}

void peer_close(void) { must(summarystore_close(store), "summarystore_close"); }
