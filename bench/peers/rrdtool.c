/* RRDtool's librrd: minutes in rows of an hour for a year and of a day for ten years, each with average, least and greatest. It has
 * one form. Nothing is synced. A sum is that of the averages of the rows, so it is off where rows are cut. */

#include <math.h>
#include <stdio.h>
#include <stdlib.h>
#include <string.h>
#include <time.h>

#include <rrd.h>

#include "peer.h"

enum { MINUTE = 60, START = 1451606400, MOST = 10000, ROOM = 40 };

const int peer_holds_truth = 0;

static char file[4096];

static void must(int code, const char *call)
{
    if (code != 0)
        fail(call, rrd_get_error());
}

void peer_open(const char *folder, const char *form)
{
    const char *words[] = {"DS:v:GAUGE:120:U:U",
                           "RRA:AVERAGE:0.5:60:8760", "RRA:MIN:0.5:60:8760", "RRA:MAX:0.5:60:8760",
                           "RRA:AVERAGE:0.5:1440:3653", "RRA:MIN:0.5:1440:3653", "RRA:MAX:0.5:1440:3653"};
    (void)form;
    snprintf(file, sizeof file, "%s", path_in(folder, "bench.rrd"));
    must(rrd_create_r(file, MINUTE, START, sizeof words / sizeof *words, words), "rrd_create_r");
}

void peer_append(const uint64_t *times, const int64_t *values, size_t count)
{
    static char room[MOST][ROOM];
    static const char *words[MOST];
    if (count > MOST)
        fail("peer_append", "too many together");
    for (size_t at = 0; at < count; at++) {
        snprintf(room[at], ROOM, "%lld:%lld", (long long)(START + MINUTE * (int64_t)times[at]), (long long)values[at]);
        words[at] = room[at];
    }
    must(rrd_update_r(file, NULL, (int)count, words), "rrd_update_r");
}

struct sum peer_sum(uint64_t from, uint64_t to)
{
    time_t start = START + MINUTE * ((time_t)from - 1), end = START + MINUTE * (time_t)to;
    unsigned long step = 1, sources;
    char **names;
    rrd_value_t *rows;
    double sum = 0;
    must(rrd_fetch_r(file, "AVERAGE", &start, &end, &step, &sources, &names, &rows), "rrd_fetch_r");
    size_t count = (size_t)(end - start) / step;
    for (size_t at = 0; at < count; at++)
        sum += isnan(rows[at]) ? 0 : rows[at] * (double)(step / MINUTE);
    for (size_t at = 0; at < sources; at++)
        rrd_freemem(names[at]);
    rrd_freemem(names);
    rrd_freemem(rows);
    struct sum told = {llround(sum), llround(sum)};
    return told;
}

void peer_close(void) {}
