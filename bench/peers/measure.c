/* Times one store by its calls, in one process: bench/library builds it with each peer, and runs it.
 *
 *     PEER append FOLDER FORM READINGS GROUP     appends so many, GROUP together
 *     PEER query FOLDER FORM READINGS            appends so many, then asks for sums
 *
 * It prints for `append` the seconds on the wall, of the processor, and of these beside system calls. For `query` it prints a line
 * for each range: its name, a sum's us on the wall and of the processor, in the middle of many rounds, and its ends beside the truth.
 * It ends with 1 where a call fails or a sum is wrong. */

#include <stdio.h>
#include <stdlib.h>
#include <string.h>
#include <sys/resource.h>
#include <time.h>

#include "peer.h"

enum { PIECE = 10000, MOST_ROUNDS = 1001, LEAST_ROUNDS = 5 };

/* What a round of queries takes at least, and all rounds at the most, in seconds. */
static const double ROUND = 2e-4, ALL_ROUNDS = 2;

static uint64_t *times;
static int64_t *values;

void fail(const char *call, const char *why)
{
    fprintf(stderr, "%s: %s\n", call, why);
    exit(1);
}

const char *path_in(const char *folder, const char *name)
{
    static char path[4096];
    int length = snprintf(path, sizeof path, "%s/%s", folder, name);
    if (length < 0 || (size_t)length >= sizeof path)
        fail("path_in", "too long");
    return path;
}

static double seconds_of(clockid_t clock)
{
    struct timespec now;
    clock_gettime(clock, &now);
    return (double)now.tv_sec + 1e-9 * (double)now.tv_nsec;
}

static double wall(void) { return seconds_of(CLOCK_MONOTONIC); }

static double processor(void) { return seconds_of(CLOCK_PROCESS_CPUTIME_ID); }

static double beside_calls(void)
{
    struct rusage usage;
    getrusage(RUSAGE_SELF, &usage);
    return (double)usage.ru_utime.tv_sec + 1e-6 * (double)usage.ru_utime.tv_usec;
}

/* Readings at the times 1, 2, 3, .. of values that look random and are the same each time. */
static void make(size_t readings)
{
    uint64_t x = 1;
    times = malloc(readings * sizeof *times);
    values = malloc(readings * sizeof *values);
    if (!times || !values)
        fail("malloc", "out of memory");
    for (size_t at = 0; at < readings; at++) {
        x = x * 16807 % 2147483647;
        times[at] = at + 1;
        values[at] = (int64_t)(x % 901) + 100;
    }
}

static void append_all(size_t readings, size_t group)
{
    for (size_t at = 0; at < readings; at += group)
        peer_append(times + at, values + at, group < readings - at ? group : readings - at);
}

static int64_t truth(uint64_t from, uint64_t to)
{
    int64_t sum = 0;
    for (uint64_t at = from; at <= to; at++)
        sum += values[at - 1];
    return sum;
}

/* A range's sum has to hold the truth. */
static struct sum checked(uint64_t from, uint64_t to)
{
    struct sum sum = peer_sum(from, to);
    int64_t is = truth(from, to);
    if (peer_holds_truth && (sum.low > is || is > sum.high))
        fail("peer_sum", "the truth lies outside");
    return sum;
}

static int by_size(const void *one, const void *other)
{
    double a = *(const double *)one, b = *(const double *)other;
    return (a > b) - (a < b);
}

static double middle(double *figures, size_t count)
{
    qsort(figures, count, sizeof *figures, by_size);
    return figures[count / 2];
}

static size_t queries_of_a_round(uint64_t from, uint64_t to)
{
    size_t queries = 0;
    for (double start = wall(); wall() - start < ROUND; queries++)
        peer_sum(from, to);
    return queries;
}

static void time_sums(const char *name, uint64_t from, uint64_t to)
{
    static double walls[MOST_ROUNDS], processors[MOST_ROUNDS];
    struct sum sum = checked(from, to);
    size_t queries = queries_of_a_round(from, to), rounds = 0;
    double begin = wall();
    while (rounds < MOST_ROUNDS && (rounds < LEAST_ROUNDS || wall() - begin < ALL_ROUNDS)) {
        double start = wall(), spent = processor();
        for (size_t at = 0; at < queries; at++)
            peer_sum(from, to);
        processors[rounds] = (processor() - spent) / (double)queries;
        walls[rounds++] = (wall() - start) / (double)queries;
    }
    printf("%s %.4f %.4f %lld %lld %lld\n", name, 1e6 * middle(walls, rounds), 1e6 * middle(processors, rounds),
           (long long)sum.low, (long long)sum.high, (long long)truth(from, to));
}

static void time_appends(size_t readings, size_t group)
{
    double start = wall(), spent = processor(), user = beside_calls();
    append_all(readings, group);
    double took = wall() - start;
    spent = processor() - spent;
    user = beside_calls() - user;
    checked(1, readings);
    printf("%.6f %.6f %.6f\n", took, spent, user);
}

int main(int count, char **words)
{
    size_t readings = count > 4 ? strtoul(words[4], NULL, 10) : 0;
    size_t group = count > 5 ? strtoul(words[5], NULL, 10) : PIECE;
    if (readings < 100 || group == 0)
        fail(words[0], "append FOLDER FORM READINGS GROUP, or query FOLDER FORM READINGS");
    make(readings);
    peer_open(words[2], words[3]);
    if (strcmp(words[1], "append") == 0) {
        time_appends(readings, group);
    } else {
        append_all(readings, group);
        uint64_t part = readings / 100;
        time_sums("newest", readings - part - 3, readings - 3);
        time_sums("old", readings / 7, readings / 7 + part);
        time_sums("all", 1, readings);
    }
    peer_close();
    return 0;
}
