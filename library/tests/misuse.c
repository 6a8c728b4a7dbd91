/* Calls that can't be meant. Nothing is done by them. */
#include "calls.h"

#include <unistd.h>

void try_null_connections(void)
{
    summarystore_text text;
    summarystore_ack ack;
    summarystore_interval answer;
    summarystore_newest newest;
    summarystore_target target = {SUMMARYSTORE_EXP, {2, 1, 1, 0}, 0};
    uint64_t time = 1;
    int64_t value = 1;
    size_t count;
    int presence;
    HOLDS(summarystore_close(NULL) == SUMMARYSTORE_DONE);
    HOLDS(summarystore_status(NULL) == SUMMARYSTORE_MISUSE);
    HOLDS(strcmp(summarystore_message(NULL), "") == 0);
    HOLDS(summarystore_call(NULL, "list", 4, &text) == SUMMARYSTORE_MISUSE);
    HOLDS(summarystore_next(NULL, &text) == SUMMARYSTORE_MISUSE);
    HOLDS(summarystore_create(NULL, "a", 1, &target, &ack) == SUMMARYSTORE_MISUSE);
    HOLDS(summarystore_append(NULL, "a", 1, 1, 1, &ack) == SUMMARYSTORE_MISUSE);
    HOLDS(summarystore_append_many(NULL, "a", 1, &time, &value, 1, &count, &ack) == SUMMARYSTORE_MISUSE);
    HOLDS(summarystore_seal(NULL) == SUMMARYSTORE_MISUSE);
    HOLDS(summarystore_query(NULL, "a", 1, SUMMARYSTORE_COUNT, 0, 1, &answer) == SUMMARYSTORE_MISUSE);
    HOLDS(summarystore_estimate(NULL, "a", 1, SUMMARYSTORE_COUNT, 0, 1, &answer) == SUMMARYSTORE_MISUSE);
    HOLDS(summarystore_series(NULL, "a", 1, SUMMARYSTORE_COUNT, 0, 1, 1, &answer, 1, &count) == SUMMARYSTORE_MISUSE);
    HOLDS(summarystore_has(NULL, "a", 1, 1, 0, 1, &presence) == SUMMARYSTORE_MISUSE);
    HOLDS(summarystore_last(NULL, "a", 1, &newest) == SUMMARYSTORE_MISUSE);
    HOLDS(summarystore_streams(NULL, &count) == SUMMARYSTORE_MISUSE);
}

void try_misuse_of_open(void)
{
    static char long_path[4097];
    summarystore *store = (summarystore *)&store;
    memset(long_path, 'x', sizeof long_path);
    HOLDS(summarystore_open("x.store", 7, 0, NULL) == SUMMARYSTORE_MISUSE);
    HOLDS(summarystore_open(NULL, 7, 0, &store) == SUMMARYSTORE_MISUSE && store == NULL);
    HOLDS(summarystore_open("x.store", 7, 16, &store) == SUMMARYSTORE_MISUSE && store == NULL);
    HOLDS(summarystore_open("x\0store", 7, 0, &store) == SUMMARYSTORE_MISUSE && store == NULL);
    HOLDS(summarystore_open(long_path, sizeof long_path, 0, &store) == SUMMARYSTORE_MISUSE && store == NULL);
    HOLDS(summarystore_open("x.store", 7, SUMMARYSTORE_LOOK | SUMMARYSTORE_BATCH, &store) == SUMMARYSTORE_MISUSE && store == NULL);
    HOLDS(summarystore_open("x.store", 7, SUMMARYSTORE_LOOK | SUMMARYSTORE_CHECKED, &store) == SUMMARYSTORE_MISUSE && store == NULL);
    HOLDS(access("x.store", F_OK) != 0);
}

void try_misuse(void)
{
    static const char *const long_name = "a23456789012345678901234567890123";
    summarystore_text text;
    summarystore_interval answer;
    summarystore_newest newest;
    summarystore_target target = {SUMMARYSTORE_EXP, {2, 1, 1, 0}, 0}, no_family = {2, {2, 1, 1, 0}, 0};
    uint64_t times[2] = {40, 50};
    int64_t values[2] = {1, 2};
    size_t count = 7;
    int presence;
    summarystore *store = begun("misuse.store", 0);
    HOLDS(summarystore_call(store, NULL, 4, &text) == SUMMARYSTORE_MISUSE);
    HOLDS(summarystore_call(store, "list", 4, NULL) == SUMMARYSTORE_MISUSE);
    HOLDS(summarystore_call(store, "append a 40 1\nlist", 18, &text) == SUMMARYSTORE_MISUSE);
    HOLDS(summarystore_call(store, "append a 40 1\n\n", 15, &text) == SUMMARYSTORE_MISUSE);
    HOLDS(summarystore_next(store, NULL) == SUMMARYSTORE_MISUSE);
    HOLDS(summarystore_create(store, NULL, 1, &target, NULL) == SUMMARYSTORE_MISUSE);
    HOLDS(summarystore_create(store, "b", 1, NULL, NULL) == SUMMARYSTORE_MISUSE);
    HOLDS(summarystore_create(store, "b", 1, &no_family, NULL) == SUMMARYSTORE_MISUSE);
    HOLDS(summarystore_append(store, NULL, 1, 40, 1, NULL) == SUMMARYSTORE_MISUSE);
    HOLDS(summarystore_append(store, "a", 0, 40, 1, NULL) == SUMMARYSTORE_MISUSE);
    HOLDS(strlen(long_name) == 33 && summarystore_append(store, NAMED(long_name), 40, 1, NULL) == SUMMARYSTORE_MISUSE);
    HOLDS(summarystore_append(store, long_name, 32, 40, 1, NULL) == SUMMARYSTORE_REFUSED_UNKNOWN);
    HOLDS(summarystore_append(store, "a/b", 3, 40, 1, NULL) == SUMMARYSTORE_REFUSED_NAME);
    HOLDS(summarystore_append(store, "a\0b", 3, 40, 1, NULL) == SUMMARYSTORE_REFUSED_NAME);
    HOLDS(summarystore_append_many(store, "a", 1, NULL, values, 2, &count, NULL) == SUMMARYSTORE_MISUSE);
    HOLDS(summarystore_append_many(store, "a", 1, times, NULL, 2, &count, NULL) == SUMMARYSTORE_MISUSE);
    HOLDS(summarystore_append_many(store, "a", 1, times, values, 2, NULL, NULL) == SUMMARYSTORE_MISUSE);
    HOLDS(summarystore_append_many(store, "a", 1, times, values, SIZE_MAX / 4, &count, NULL) == SUMMARYSTORE_MISUSE);
    HOLDS(summarystore_query(store, "a", 1, -1, 0, 1, &answer) == SUMMARYSTORE_MISUSE);
    HOLDS(summarystore_query(store, "a", 1, 5, 0, 1, &answer) == SUMMARYSTORE_MISUSE);
    HOLDS(summarystore_query(store, "a", 1, SUMMARYSTORE_COUNT, 0, 1, NULL) == SUMMARYSTORE_MISUSE);
    HOLDS(summarystore_estimate(store, "a", 1, SUMMARYSTORE_MIN, 0, 1, &answer) == SUMMARYSTORE_MISUSE);
    HOLDS(summarystore_estimate(store, "a", 1, SUMMARYSTORE_MAX, 0, 1, &answer) == SUMMARYSTORE_MISUSE);
    HOLDS(summarystore_estimate(store, "a", 1, SUMMARYSTORE_SUM, 0, 1, NULL) == SUMMARYSTORE_MISUSE);
    HOLDS(summarystore_series(store, "a", 1, 5, 0, 1, 1, &answer, 1, &count) == SUMMARYSTORE_MISUSE);
    HOLDS(summarystore_series(store, "a", 1, SUMMARYSTORE_COUNT, 0, 1, 1, NULL, 1, &count) == SUMMARYSTORE_MISUSE);
    HOLDS(summarystore_series(store, "a", 1, SUMMARYSTORE_COUNT, 0, 1, 1, &answer, 1, NULL) == SUMMARYSTORE_MISUSE);
    HOLDS(summarystore_has(store, "a", 1, 5, 0, 99, NULL) == SUMMARYSTORE_MISUSE);
    HOLDS(summarystore_last(store, "a", 1, NULL) == SUMMARYSTORE_MISUSE);
    HOLDS(summarystore_last(store, NAMED(long_name), &newest) == SUMMARYSTORE_MISUSE);
    HOLDS(summarystore_has(store, NAMED(long_name), 5, 0, 99, &presence) == SUMMARYSTORE_MISUSE);
    HOLDS(summarystore_streams(store, NULL) == SUMMARYSTORE_MISUSE);
    HOLDS(summarystore_status(store) == SUMMARYSTORE_DONE && strcmp(summarystore_message(store), "") == 0);
    HOLDS(says(store, "list", "list 1\n") || says(store, "list", "list 1\na exp 2 1 1 3 2 0 0\n"));
    HOLDS(counted(store, "a") == 3);
    HOLDS(summarystore_close(store) == SUMMARYSTORE_DONE);
}
