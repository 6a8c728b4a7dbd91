/* Refuses each request for memory of the same calls, one in each turn, and then all from one on. A call that gets none answers so, also of what is to be written, and what
 * was acknowledged is in the store. Linked with --wrap, by which the library's requests come here. The last line counts the turns.
 * Usage: memory FOLDER */
#include <inttypes.h>
#include <stdio.h>
#include <stdlib.h>
#include <string.h>
#include <summarystore.h>
#include <unistd.h>

#define GROUP 50

void *__real_malloc(size_t size);
void *__real_calloc(size_t count, size_t size);
void *__real_realloc(void *block, size_t size);
void *__wrap_malloc(size_t size);
void *__wrap_calloc(size_t count, size_t size);
void *__wrap_realloc(void *block, size_t size);

static long requests, refused_from = -1, refused_to = -1;

/* Whether this request is refused. */
static int is_refused(void)
{
    requests++;
    return requests >= refused_from && requests <= refused_to;
}

void *__wrap_malloc(size_t size)
{
    return is_refused() ? NULL : __real_malloc(size);
}

void *__wrap_calloc(size_t count, size_t size)
{
    return is_refused() ? NULL : __real_calloc(count, size);
}

void *__wrap_realloc(void *block, size_t size)
{
    return is_refused() ? NULL : __real_realloc(block, size);
}

/* What is acknowledged so far: of the stream, and of its values. */
static int is_made;
static uint64_t acknowledged;

/* How many more values may be in the store: some first ones of a group that stopped. */
static uint64_t unsure;

/* Makes calls until one isn't done, and answers what that one answered. */
static int make_calls(summarystore *store)
{
    static const summarystore_target target = {SUMMARYSTORE_EXP, {2, 1, 1, 0}, 0};
    uint64_t times[GROUP];
    int64_t values[GROUP];
    size_t taken, rows;
    summarystore_text text;
    summarystore_interval answer[3];
    int done = summarystore_create(store, "a", 1, &target, NULL);
    is_made = done == SUMMARYSTORE_DONE;
    if (done == SUMMARYSTORE_DONE)
        done = summarystore_append(store, "a", 1, 1, 7, NULL);
    acknowledged = done == SUMMARYSTORE_DONE;
    for (size_t k = 0; k < GROUP; k++) {
        times[k] = k + 2;
        values[k] = (int64_t)k;
    }
    if (done == SUMMARYSTORE_DONE) {
        done = summarystore_append_many(store, "a", 1, times, values, GROUP, &taken, NULL);
        unsure = done == SUMMARYSTORE_DONE ? 0 : GROUP;
    }
    if (done == SUMMARYSTORE_DONE) {
        acknowledged += taken;
        done = summarystore_query(store, "a", 1, SUMMARYSTORE_SUM, 3, 30, answer);
    }
    if (done == SUMMARYSTORE_DONE)
        done = summarystore_series(store, "a", 1, SUMMARYSTORE_MEAN, 0, 60, 20, answer, 3, &rows);
    if (done == SUMMARYSTORE_DONE)
        done = summarystore_call(store, "certify a sum lo 3 30", 21, &text);
    while (done == SUMMARYSTORE_DONE && text.length > 0)
        done = summarystore_next(store, &text);
    if (done == SUMMARYSTORE_DONE)
        done = summarystore_call(store, "append a 100 1", 14, &text);
    acknowledged += done == SUMMARYSTORE_DONE;
    return done;
}

/* Whether the store holds what was acknowledged. */
static int is_kept(const char *path)
{
    summarystore *store = NULL;
    summarystore_interval answer;
    int opens = summarystore_open(path, strlen(path), 0, &store);
    int asked = opens == SUMMARYSTORE_DONE ? summarystore_query(store, "a", 1, SUMMARYSTORE_COUNT, 0, 1000, &answer) : opens;
    int is_so = is_made ? asked == SUMMARYSTORE_DONE && answer.lo.low == answer.hi.low && answer.lo.low >= acknowledged
                                  && answer.lo.low <= acknowledged + unsure
                        : asked == SUMMARYSTORE_REFUSED_UNKNOWN;
    return summarystore_close(store) == SUMMARYSTORE_DONE && is_so;
}

/* One turn over a new store: whether it went as it has to. Where no request was refused *is_last is set. */
static int turn(const char *path, long from, long to, int *is_last)
{
    summarystore *store = NULL;
    is_made = 0;
    acknowledged = 0;
    unsure = 0;
    remove(path);
    requests = 0;
    refused_from = from;
    refused_to = to;
    int answer = summarystore_open(path, strlen(path), 0, &store);
    if (answer == SUMMARYSTORE_DONE)
        answer = make_calls(store);
    *is_last = requests < from;
    int again = store != NULL ? summarystore_status(store) : answer;
    int is_told = answer == SUMMARYSTORE_OUT_OF_MEMORY
        || (answer == SUMMARYSTORE_DISK_FAULT && strstr(summarystore_message(store), "no memory") != NULL);
    int closed = summarystore_close(store);
    refused_from = refused_to = -1;
    int is_right = answer == SUMMARYSTORE_DONE ? again == answer && closed == answer : is_told && again == answer;
    return is_right && is_kept(path);
}

int main(int count, char **words)
{
    int passed = 0, failed = 0;
    if (count != 2 || chdir(words[1]) != 0)
        return 2;
    for (int all = 0; all < 2; all++)
        for (long from = 1, is_last = 0; !is_last; from++) {
            int ended = 0;
            if (turn("memory.store", from, all ? 1L << 60 : from, &ended)) {
                passed++;
            } else {
                failed++;
                printf("memory: request %ld%s refused FAILED\n", from, all ? " and all later ones" : "");
            }
            is_last = ended || from > 10000;
        }
    printf("%d passed, %d failed\n", passed, failed);
    return failed > 0;
}
