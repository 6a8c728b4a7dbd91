/* Appends to two streams until it is killed, and tells what it is about to do and what returned: faults/library kills it.
 * Usage: steady STORE FLAGS SEED
 * Each value stands at its number among those of its stream, from 1 on. A line `try a 7` comes before the call that may bring stream a to
 * seven values, and `has a 7` when so many are acknowledged. */
#include <inttypes.h>
#include <stdio.h>
#include <stdlib.h>
#include <string.h>
#include <summarystore.h>
#include <unistd.h>

#define MOST 40

static summarystore *store;
static uint64_t counts[2];

/* Writes a line at once. */
static void tell(const char *what, int stream)
{
    char line[60];
    int length = snprintf(line, sizeof line, "%s %c %" PRIu64 "\n", what, "ab"[stream], counts[stream]);
    if (write(STDOUT_FILENO, line, (size_t)length) != length)
        exit(98);
}

/* Ends where a call isn't done. */
static void must(int answer)
{
    if (answer == SUMMARYSTORE_DONE)
        return;
    fprintf(stderr, "steady: %d %s%s\n", answer, summarystore_message(store), summarystore_refusal(answer));
    exit(97);
}

static int64_t value_at(uint64_t time)
{
    return (int64_t)(time * 7919 % 2001) - 1000;
}

/* Takes the next values of a stream, one by one call where it is one, and else in a group. */
static void take(int stream, size_t count)
{
    uint64_t times[MOST];
    int64_t values[MOST];
    size_t taken = 1;
    for (size_t k = 0; k < count; k++) {
        times[k] = ++counts[stream];
        values[k] = value_at(times[k]);
    }
    tell("try", stream);
    if (count == 1)
        must(summarystore_append(store, &"ab"[stream], 1, times[0], values[0], NULL));
    else
        must(summarystore_append_many(store, &"ab"[stream], 1, times, values, count, &taken, NULL));
    if (taken != count)
        exit(96);
}

/* Makes a stream, or finds how many values it has. */
static void begin(int stream, const summarystore_target *target)
{
    summarystore_interval answer;
    int made = summarystore_create(store, &"ab"[stream], 1, target, NULL);
    must(made == SUMMARYSTORE_REFUSED_EXISTS ? SUMMARYSTORE_DONE : made);
    must(summarystore_query(store, &"ab"[stream], 1, SUMMARYSTORE_COUNT, 0, (uint64_t)1 << 62, &answer));
    if (answer.lo.low != answer.hi.low)
        exit(95);
    counts[stream] = answer.lo.low;
    tell("begins", stream);
}

int main(int count, char **words)
{
    static const summarystore_target single = {SUMMARYSTORE_POWER, {1, 0, 1, 1}, 0}, merged = {SUMMARYSTORE_EXP, {2, 1, 1, 0}, 700};
    if (count != 4)
        return 2;
    unsigned flags = (unsigned)atoi(words[2]);
    srand((unsigned)atoi(words[3]));
    must(summarystore_open(words[1], strlen(words[1]), flags, &store));
    begin(0, &single);
    begin(1, &merged);
    for (;;) {
        int calls = (flags & SUMMARYSTORE_BATCH) != 0 ? 1 + rand() % 12 : 1, touched[2] = {0, 0};
        for (int k = 0; k < calls; k++) {
            int stream = rand() % 2;
            touched[stream] = 1;
            take(stream, rand() % 2 ? 1 : 1 + (size_t)(rand() % MOST));
        }
        must(summarystore_seal(store));
        for (int stream = 0; stream < 2; stream++)
            if (touched[stream])
                tell("has", stream);
    }
}
