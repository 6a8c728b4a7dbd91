/* What lines, events and questions are answered. */
#include "calls.h"

#include <pthread.h>

#define MANY 10000

void try_lines(void)
{
    char line[300];
    summarystore_text text;
    summarystore *store = begun("lines.store", 0);
    memset(line, ' ', sizeof line);
    memcpy(line, "query a count 0 99", 18);
    HOLDS(summarystore_call(store, line, 256, &text) == SUMMARYSTORE_DONE && strcmp(text.bytes, "count 3 3\n") == 0);
    HOLDS(summarystore_call(store, line, 257, &text) == SUMMARYSTORE_DONE && strcmp(text.bytes, "refused LINE\n") == 0);
    line[256] = '\n';
    HOLDS(summarystore_call(store, line, 257, &text) == SUMMARYSTORE_DONE && strcmp(text.bytes, "count 3 3\n") == 0);
    line[256] = '\r';
    line[257] = '\n';
    HOLDS(summarystore_call(store, line, 258, &text) == SUMMARYSTORE_DONE && strcmp(text.bytes, "count 3 3\n") == 0);
    HOLDS(says(store, "", "") && says(store, "\n", "") && says(store, "  \t ", "") && says(store, "# a note", ""));
    HOLDS(says(store, "append a 30 1", "refused TIME\n"));
    HOLDS(says(store, "append b 40 1", "refused UNKNOWN\n"));
    HOLDS(says(store, "nonsense", "refused SYNTAX\n"));
    HOLDS(summarystore_call(store, "list\0", 5, &text) == SUMMARYSTORE_DONE && strcmp(text.bytes, "refused SYNTAX\n") == 0);
    HOLDS(summarystore_call(store, "append a 40 \xff", 13, &text) == SUMMARYSTORE_DONE && strcmp(text.bytes, "refused NUMBER\n") == 0);
    HOLDS(says(store, "landmark a open 40", "ok 3 2\n") && says(store, "append a 40 95", "ok 3 2\n"));
    HOLDS(says(store, "landmark a close 50", "ok 3 2\n") && says(store, "drop a", "ok 0 0\n"));
    HOLDS(summarystore_close(store) == SUMMARYSTORE_DONE);
}

/* A reply of more bytes than go into a piece, and that another connection's calls leave it as it is. */
void try_pieces(void)
{
    static uint64_t times[MANY];
    static int64_t values[MANY];
    static char before[20000];
    summarystore_text text, other_text;
    size_t taken, lines = 0, pieces = 0, length = 0;
    summarystore_interval answer;
    summarystore_ack ack;
    summarystore *store = opened("pieces.store", 0), *other = begun("other.store", 0);
    HOLDS(summarystore_next(store, &text) == SUMMARYSTORE_DONE && text.length == 0);
    HOLDS(says(store, "create w power 1 0 1 1", "ok 0 0\n"));
    for (size_t k = 0; k < MANY; k++) {
        times[k] = k;
        values[k] = -(int64_t)k;
    }
    HOLDS(summarystore_append_many(store, "w", 1, times, values, MANY, &taken, &ack) == SUMMARYSTORE_DONE && taken == MANY);
    HOLDS(ack.values == MANY && ack.windows == MANY);
    HOLDS(summarystore_call(store, "windows w", 9, &text) == SUMMARYSTORE_DONE && text.length > 0);
    while (text.length > 0) {
        pieces++;
        length += text.length;
        HOLDS(text.length < sizeof before && text.bytes[text.length - 1] == '\n' && text.bytes[text.length] == 0);
        memcpy(before, text.bytes, text.length);
        HOLDS(summarystore_call(other, "windows a", 9, &other_text) == SUMMARYSTORE_DONE);
        HOLDS(counted(other, "a") == 3 && memcmp(before, text.bytes, text.length) == 0);
        for (size_t k = 0; k < text.length; k++)
            lines += text.bytes[k] == '\n';
        HOLDS(summarystore_next(store, &text) == SUMMARYSTORE_DONE);
    }
    HOLDS(lines == MANY + 1 && pieces > length / 16384);
    HOLDS(summarystore_next(store, &text) == SUMMARYSTORE_DONE && text.length == 0);
    HOLDS(summarystore_call(store, "windows w", 9, &text) == SUMMARYSTORE_DONE);
    HOLDS(summarystore_query(store, "w", 1, SUMMARYSTORE_SUM, 0, MANY, &answer) == SUMMARYSTORE_DONE);
    HOLDS(is_number(answer.lo, -49995000, 1) && is_number(answer.hi, -49995000, 1));
    HOLDS(summarystore_next(store, &text) == SUMMARYSTORE_DONE && text.length == 0);
    HOLDS(summarystore_call(store, "windows w", 9, &text) == SUMMARYSTORE_DONE);
    HOLDS(summarystore_append(store, "a/b", 3, 1, 1, NULL) == SUMMARYSTORE_REFUSED_NAME);
    HOLDS(summarystore_next(store, &text) == SUMMARYSTORE_DONE && text.length == 0);
    HOLDS(summarystore_call(store, "windows w", 9, &text) == SUMMARYSTORE_DONE);
    HOLDS(summarystore_streams(store, &taken) == SUMMARYSTORE_DONE && taken == 1);
    HOLDS(summarystore_next(store, &text) == SUMMARYSTORE_DONE && text.length == 0);
    HOLDS(summarystore_close(store) == SUMMARYSTORE_DONE && summarystore_close(other) == SUMMARYSTORE_DONE);
}

void try_events(void)
{
    static const uint64_t times[5] = {40, 50, 50, 60, 70};
    static const int64_t values[5] = {1, 2, 3, 4, INT64_MIN};
    static const uint64_t beyond_time = ((uint64_t)1 << 62) + 1;
    summarystore_target days = {SUMMARYSTORE_EXP, {2, 60, 1, 0}, 86400}, beyond = {SUMMARYSTORE_EXP, {17, 1, 1, 0}, 0};
    summarystore_target power = {SUMMARYSTORE_POWER, {1, 1, 4, 1}, 0};
    summarystore_ack ack = {9, 9};
    size_t taken = 9, streams = 9;
    summarystore *store = begun("events.store", 0);
    HOLDS(summarystore_create(store, "d", 1, &days, &ack) == SUMMARYSTORE_DONE && ack.values == 0 && ack.windows == 0);
    HOLDS(summarystore_create(store, "d", 1, &days, NULL) == SUMMARYSTORE_REFUSED_EXISTS);
    HOLDS(summarystore_create(store, "e", 1, &beyond, NULL) == SUMMARYSTORE_REFUSED_PARAM);
    HOLDS(summarystore_create(store, "p", 1, &power, NULL) == SUMMARYSTORE_DONE);
    HOLDS(summarystore_streams(store, &streams) == SUMMARYSTORE_DONE && streams == 3);
    HOLDS(summarystore_append_many(store, "a", 1, times, values, 5, &taken, &ack) == SUMMARYSTORE_REFUSED_TIME);
    HOLDS(taken == 2 && ack.values == 5 && counted(store, "a") == 5);
    HOLDS(summarystore_append_many(store, "a", 1, times + 3, values + 3, 2, &taken, &ack) == SUMMARYSTORE_DONE);
    HOLDS(taken == 2 && ack.values == 7);
    HOLDS(summarystore_append_many(store, "a", 1, NULL, NULL, 0, &taken, NULL) == SUMMARYSTORE_DONE && taken == 0);
    HOLDS(summarystore_append_many(store, "a", 1, &beyond_time, values, 1, &taken, NULL) == SUMMARYSTORE_REFUSED_NUMBER && taken == 0);
    HOLDS(summarystore_append_many(store, "a/b", 3, &beyond_time, values, 1, &taken, NULL) == SUMMARYSTORE_REFUSED_NAME && taken == 0);
    HOLDS(summarystore_append(store, "a/b", 3, beyond_time, 1, NULL) == SUMMARYSTORE_REFUSED_NUMBER);
    HOLDS(summarystore_append_many(store, "b", 1, times, values, 5, &taken, NULL) == SUMMARYSTORE_REFUSED_UNKNOWN && taken == 0);
    HOLDS(summarystore_append(store, "a", 1, 80, INT64_MAX, &ack) == SUMMARYSTORE_DONE && ack.values == 8);
    HOLDS(summarystore_append(store, "a", 1, 80, 1, &ack) == SUMMARYSTORE_REFUSED_TIME && ack.values == 8);
    HOLDS(summarystore_append(store, "a", 1, beyond_time, 1, &ack) == SUMMARYSTORE_REFUSED_NUMBER);
    HOLDS(summarystore_append(store, "a", 1, (uint64_t)1 << 62, 1, NULL) == SUMMARYSTORE_DONE && counted(store, "a") == 9);
    HOLDS(summarystore_seal(store) == SUMMARYSTORE_DONE);
    HOLDS(summarystore_close(store) == SUMMARYSTORE_DONE);
    store = opened("events.store", SUMMARYSTORE_EXISTING);
    HOLDS(counted(store, "a") == 9);
    HOLDS(summarystore_close(store) == SUMMARYSTORE_DONE);
}

void try_questions(void)
{
    summarystore_interval answer, rows[4];
    summarystore_newest newest;
    size_t count;
    int presence = -1;
    summarystore *store = begun("questions.store", 0);
    HOLDS(summarystore_query(store, "a", 1, SUMMARYSTORE_SUM, 0, 25, &answer) == SUMMARYSTORE_DONE && is_number(answer.lo, 2, 1));
    HOLDS(is_number(answer.hi, 2, 1) && !answer.none && !answer.maybe_none && is_number(answer.guess, 0, 1));
    HOLDS(summarystore_query(store, "a", 1, SUMMARYSTORE_MEAN, 0, 25, &answer) == SUMMARYSTORE_DONE && is_number(answer.lo, 1, 1));
    HOLDS(summarystore_query(store, "a", 1, SUMMARYSTORE_MEAN, 0, 99, &answer) == SUMMARYSTORE_DONE && is_number(answer.hi, 10, 3));
    HOLDS(summarystore_query(store, "a", 1, SUMMARYSTORE_MIN, 0, 99, &answer) == SUMMARYSTORE_DONE && is_number(answer.lo, -3, 1));
    HOLDS(summarystore_query(store, "a", 1, SUMMARYSTORE_MAX, 12, 18, &answer) == SUMMARYSTORE_DONE && answer.none);
    HOLDS(summarystore_query(store, "a", 1, SUMMARYSTORE_MAX, 40, 50, &answer) == SUMMARYSTORE_DONE && answer.none && is_number(answer.hi, 0, 1));
    HOLDS(summarystore_query(store, "a", 1, SUMMARYSTORE_SUM, 40, 50, &answer) == SUMMARYSTORE_DONE && !answer.none && is_number(answer.lo, 0, 1));
    HOLDS(summarystore_query(store, "a", 1, SUMMARYSTORE_SUM, 2, 1, &answer) == SUMMARYSTORE_REFUSED_RANGE);
    HOLDS(summarystore_query(store, "b", 1, SUMMARYSTORE_SUM, 1, 2, &answer) == SUMMARYSTORE_REFUSED_UNKNOWN);
    HOLDS(summarystore_query(store, "a", 1, SUMMARYSTORE_SUM, 1, UINT64_MAX, &answer) == SUMMARYSTORE_REFUSED_NUMBER);
    HOLDS(summarystore_estimate(store, "a", 1, SUMMARYSTORE_SUM, 0, 99, &answer) == SUMMARYSTORE_DONE && is_number(answer.guess, 10, 1));
    HOLDS(summarystore_estimate(store, "a", 1, SUMMARYSTORE_MEAN, 40, 99, &answer) == SUMMARYSTORE_DONE && answer.none);
    memset(rows, 7, sizeof rows);
    HOLDS(summarystore_series(store, "a", 1, SUMMARYSTORE_MAX, 0, 49, 10, rows, 3, &count) == SUMMARYSTORE_DONE && count == 5);
    HOLDS(rows[0].none && rows[3].none == 0x07070707);
    HOLDS(summarystore_series(store, "a", 1, SUMMARYSTORE_SUM, 30, 49, 10, rows, 4, &count) == SUMMARYSTORE_DONE && count == 2);
    HOLDS(is_number(rows[0].lo, 8, 1) && is_number(rows[0].hi, 8, 1) && is_number(rows[1].hi, 0, 1) && rows[3].none == 0x07070707);
    HOLDS(summarystore_series(store, "a", 1, SUMMARYSTORE_SUM, 0, 99999, 1, NULL, 0, &count) == SUMMARYSTORE_DONE && count == 100000);
    HOLDS(summarystore_series(store, "a", 1, SUMMARYSTORE_SUM, 0, 100000, 1, rows, 4, &count) == SUMMARYSTORE_REFUSED_NUMBER);
    HOLDS(summarystore_series(store, "a", 1, SUMMARYSTORE_SUM, 0, 10, 0, rows, 4, &count) == SUMMARYSTORE_REFUSED_NUMBER);
    HOLDS(summarystore_has(store, "a", 1, 8, 0, 99, &presence) == SUMMARYSTORE_DONE && presence == SUMMARYSTORE_PRESENT);
    HOLDS(summarystore_has(store, "a", 1, 9, 0, 99, &presence) == SUMMARYSTORE_DONE && presence == SUMMARYSTORE_ABSENT);
    HOLDS(summarystore_has(store, "b", 1, 9, 0, 99, &presence) == SUMMARYSTORE_REFUSED_UNKNOWN && presence == SUMMARYSTORE_ABSENT);
    HOLDS(summarystore_last(store, "a", 1, &newest) == SUMMARYSTORE_DONE && newest.has_last && newest.has_value);
    HOLDS(newest.last == 30 && newest.time == 30 && newest.lo == 8 && newest.hi == 8);
    HOLDS(says(store, "landmark a open 40", "ok 3 2\n") && summarystore_last(store, "a", 1, &newest) == SUMMARYSTORE_DONE);
    HOLDS(newest.last == 40 && newest.time == 30);
    HOLDS(says(store, "create n exp 2 1 1", "ok 0 0\n") && summarystore_last(store, "n", 1, &newest) == SUMMARYSTORE_DONE);
    HOLDS(!newest.has_last && !newest.has_value && newest.last == 0);
    HOLDS(says(store, "landmark n open 40", "ok 0 0\n") && summarystore_last(store, "n", 1, &newest) == SUMMARYSTORE_DONE);
    HOLDS(newest.has_last && !newest.has_value && newest.last == 40);
    HOLDS(summarystore_close(store) == SUMMARYSTORE_DONE);
}

static void *append_by_thread(void *of)
{
    summarystore *store = of;
    for (uint64_t time = 100; time < 300; time++)
        if (summarystore_append(store, "a", 1, time, 1, NULL) != SUMMARYSTORE_DONE || counted(store, "a") != time - 96)
            return NULL;
    return store;
}

/* Two connections in two threads, and one that goes from one thread to another. */
void try_threads(void)
{
    pthread_t threads[2];
    void *ended[2] = {NULL, NULL};
    summarystore *stores[2] = {begun("first.store", 0), begun("second.store", SUMMARYSTORE_CHECKED)};
    for (int k = 0; k < 2; k++)
        HOLDS(pthread_create(&threads[k], NULL, append_by_thread, stores[k]) == 0);
    for (int k = 0; k < 2; k++)
        HOLDS(pthread_join(threads[k], &ended[k]) == 0 && ended[k] == stores[k]);
    for (int k = 0; k < 2; k++)
        HOLDS(counted(stores[k], "a") == 203 && summarystore_close(stores[k]) == SUMMARYSTORE_DONE);
}

void try_words(void)
{
    HOLDS(strcmp(summarystore_version(), SUMMARYSTORE_VERSION) == 0);
    HOLDS(sizeof(summarystore_text) == 16 && sizeof(summarystore_ack) == 16 && sizeof(summarystore_target) == 24);
    HOLDS(sizeof(summarystore_number) == 24 && sizeof(summarystore_interval) == 80 && sizeof(summarystore_newest) == 40);
    HOLDS(strcmp(summarystore_refusal(SUMMARYSTORE_REFUSED_LINE), "LINE") == 0);
    HOLDS(strcmp(summarystore_refusal(SUMMARYSTORE_REFUSED_UNKNOWN), "UNKNOWN") == 0);
    HOLDS(strcmp(summarystore_refusal(SUMMARYSTORE_REFUSED_STORE_FULL), "STORE_FULL") == 0);
    HOLDS(strcmp(summarystore_refusal(SUMMARYSTORE_REFUSED_FRAME), "FRAME") == 0);
    HOLDS(strcmp(summarystore_refusal(145), "") == 0 && strcmp(summarystore_refusal(127), "") == 0 && strcmp(summarystore_refusal(-1), "") == 0);
}
