/* Stores readings: each line of the input is a time and a value. The store and the stream are made where there are none.
 *
 *     cc logger.c $(pkg-config --cflags --libs summarystore) -o logger
 *     printf '1764410400 215\n1764410460 219\n' | ./logger room.store hall
 *
 * A reading is told when it is on the disk. One that is refused is told with the reason and changes nothing, so the same input
 * can be given again. Ends with 0, with 1 where a reading was left out, and else with what stopped it. */
#include <errno.h>
#include <stdio.h>
#include <stdlib.h>
#include <string.h>
#include <summarystore.h>

/* The next line of the input, without what goes beyond the room; that makes it no reading. */
static int has_line(char *line, size_t room)
{
    if (fgets(line, (int)room, stdin) == NULL)
        return 0;
    if (strchr(line, '\n') == NULL && !feof(stdin))
        for (int next = getchar(); next != EOF && next != '\n'; next = getchar())
            line[0] = '?';
    return 1;
}

/* Stores the reading of a line. */
static int store_reading(summarystore *store, const char *name, const char *line, summarystore_ack *ack)
{
    char *middle, *end;
    errno = 0;
    uint64_t time = strtoull(line, &middle, 10);
    int64_t value = strtoll(middle, &end, 10);
    if (errno != 0 || end == middle || (*end != '\n' && *end != 0))
        return SUMMARYSTORE_REFUSED_NUMBER;
    return summarystore_append(store, name, strlen(name), time, value, ack);
}

int main(int count, char **words)
{
    static const summarystore_target days = {SUMMARYSTORE_POWER, {1, 1, 4, 1}, 86400};
    summarystore *store = NULL;
    summarystore_ack ack;
    char line[100];
    int left_out = 0;

    if (count != 3)
        return fprintf(stderr, "usage: logger STORE NAME < READINGS\n"), 2;
    int status = summarystore_open(words[1], strlen(words[1]), 0, &store);
    if (status == SUMMARYSTORE_DONE)
        status = summarystore_create(store, words[2], strlen(words[2]), &days, NULL);
    if (status == SUMMARYSTORE_REFUSED_EXISTS)
        status = SUMMARYSTORE_DONE;
    while (status == SUMMARYSTORE_DONE && has_line(line, sizeof line)) {
        int answer = store_reading(store, words[2], line, &ack);
        if (answer == SUMMARYSTORE_DONE)
            printf("%s has %llu values\n", words[2], (unsigned long long)ack.values);
        else if (answer >= SUMMARYSTORE_REFUSED)
            left_out = printf("%s: left out: %.*s\n", summarystore_refusal(answer), (int)strcspn(line, "\n"), line);
        else
            status = answer;
    }
    if (status != SUMMARYSTORE_DONE)
        fprintf(stderr, "%s%s (status %d)\n", summarystore_message(store), summarystore_refusal(status), status);
    summarystore_close(store);
    return status != SUMMARYSTORE_DONE ? status : left_out != 0;
}
