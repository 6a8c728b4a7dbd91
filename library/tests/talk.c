/* Speaks the lines of its input to a store, and writes the replies as the program does: by `summarystore_call`, and with the word `typed`
 * by typed calls, where there is one for the line.
 * Usage: talk STORE FLAGS [typed] < LINES
 * Ends as the program does. Between the lines a second connection of another store is used, so that no reply rests on the first one's. */
#include <inttypes.h>
#include <stdio.h>
#include <stdlib.h>
#include <string.h>
#include <summarystore.h>
#include <sys/stat.h>
#include <unistd.h>

#define MOST_ROWS 100000

typedef __int128 wide;

static const char *const kinds[] = {"count", "sum", "min", "max", "mean"};
static summarystore *store, *other;
static summarystore_interval rows[MOST_ROWS];

/* Ends as the program does where the answer is a stop. */
static void go_on(int answer)
{
    if (answer == SUMMARYSTORE_DONE || answer >= SUMMARYSTORE_REFUSED)
        return;
    fprintf(stderr, "%s\n", summarystore_message(store));
    summarystore_close(store);
    summarystore_close(other);
    exit(answer);
}

/* Writes a refusal, and says whether there was one. */
static int is_refused(int answer)
{
    go_on(answer);
    if (answer != SUMMARYSTORE_DONE)
        printf("refused %s\n", summarystore_refusal(answer));
    return answer != SUMMARYSTORE_DONE;
}

static void put_wide(wide number)
{
    char digits[48], *at = digits + sizeof digits - 1;
    unsigned __int128 rest = number < 0 ? -(unsigned __int128)number : (unsigned __int128)number;
    *at = 0;
    do {
        *--at = '0' + (char)(rest % 10);
        rest /= 10;
    } while (rest > 0);
    printf(" %s%s", number < 0 ? "-" : "", at);
}

static void put_number(summarystore_number number)
{
    put_wide((wide)(((unsigned __int128)(uint64_t)number.high << 64) + number.low));
    if (number.under != 1)
        printf("/%" PRIu64, number.under);
}

/* Writes what stands behind the first word of an answer. */
static void put_interval(const summarystore_interval *answer, int is_guess)
{
    if (answer->none) {
        puts(" none");
        return;
    }
    put_number(answer->lo);
    if (is_guess)
        put_number(answer->guess);
    put_number(answer->hi);
    puts(answer->maybe_none ? " maybe-none" : "");
}

static void put_ack(int answer, summarystore_ack ack)
{
    if (!is_refused(answer))
        printf("ok %" PRIu64 " %" PRIu64 "\n", ack.values, ack.windows);
}

static int kind_of(const char *word)
{
    for (int kind = 0; kind < 5; kind++)
        if (strcmp(word, kinds[kind]) == 0)
            return kind;
    return -1;
}

/* The parts of a line, and the same line printed anew from them. Where it differs the line isn't spelled as a typed call is. */
static char name[40], word[40], again[600];
static uint64_t first, last, step;
static int64_t value;
static unsigned numbers[4], within;

static int is_again(const char *line)
{
    return strcmp(line, again) == 0;
}

static int is_append(const char *line)
{
    if (sscanf(line, "append %32s %" SCNu64 " %" SCNd64, name, &first, &value) != 3)
        return 0;
    snprintf(again, sizeof again, "append %s %" PRIu64 " %" PRId64, name, first, value);
    return is_again(line);
}

static int is_asked(const char *line, const char *verb)
{
    char form[60];
    snprintf(form, sizeof form, "%s %%32s %%5s %%" SCNu64 " %%" SCNu64, verb);
    if (sscanf(line, form, name, word, &first, &last) != 4)
        return 0;
    snprintf(again, sizeof again, "%s %s %s %" PRIu64 " %" PRIu64, verb, name, word, first, last);
    return is_again(line) && kind_of(word) >= 0;
}

static int is_series(const char *line)
{
    if (sscanf(line, "series %32s %5s %" SCNu64 " %" SCNu64 " %" SCNu64, name, word, &first, &last, &step) != 5)
        return 0;
    snprintf(again, sizeof again, "series %s %s %" PRIu64 " %" PRIu64 " %" PRIu64, name, word, first, last, step);
    return is_again(line) && kind_of(word) >= 0;
}

static int is_has(const char *line)
{
    if (sscanf(line, "query %32s has %" SCNd64 " %" SCNu64 " %" SCNu64, name, &value, &first, &last) != 4)
        return 0;
    snprintf(again, sizeof again, "query %s has %" PRId64 " %" PRIu64 " %" PRIu64, name, value, first, last);
    return is_again(line);
}

static int is_last(const char *line)
{
    if (sscanf(line, "last %32s", name) != 1)
        return 0;
    snprintf(again, sizeof again, "last %s", name);
    return is_again(line);
}

/* A creation of the family, which has so many numbers. */
static int is_create(const char *line, const char *family, int count)
{
    char form[80];
    unsigned *n = numbers;
    memset(numbers, 0, sizeof numbers);
    snprintf(form, sizeof form, "create %%32s %s%s", family, count == 3 ? " %u %u %u" : " %u %u %u %u");
    if (sscanf(line, form, name, n, n + 1, n + 2, n + 3) != 1 + count)
        return 0;
    const char *behind = strstr(line, " within ");
    within = behind != NULL ? (unsigned)strtoul(behind + 8, NULL, 10) : 0;
    int size = count == 3 ? snprintf(again, sizeof again, "create %s %s %u %u %u", name, family, n[0], n[1], n[2])
                          : snprintf(again, sizeof again, "create %s %s %u %u %u %u", name, family, n[0], n[1], n[2], n[3]);
    if (behind != NULL)
        snprintf(again + size, sizeof again - (size_t)size, " within %u", within);
    return is_again(line) && (behind == NULL || within > 0);
}

static void create(uint32_t family)
{
    summarystore_ack ack = {0, 0};
    summarystore_target target = {family, {numbers[0], numbers[1], numbers[2], numbers[3]}, within};
    int answer = summarystore_create(store, name, strlen(name), &target, &ack);
    put_ack(answer, ack);
}

static void append(void)
{
    summarystore_ack ack = {0, 0};
    int answer = summarystore_append(store, name, strlen(name), first, value, &ack);
    put_ack(answer, ack);
}

static void query(void)
{
    summarystore_interval answer;
    if (!is_refused(summarystore_query(store, name, strlen(name), kind_of(word), first, last, &answer))) {
        printf("%s", word);
        put_interval(&answer, 0);
    }
}

static void estimate(void)
{
    summarystore_interval answer;
    if (!is_refused(summarystore_estimate(store, name, strlen(name), kind_of(word), first, last, &answer))) {
        printf("estimate");
        put_interval(&answer, 1);
    }
}

static void series(void)
{
    size_t count;
    if (!is_refused(summarystore_series(store, name, strlen(name), kind_of(word), first, last, step, rows, MOST_ROWS, &count))) {
        printf("series %zu\n", count);
        for (size_t k = 0; k < count; k++) {
            printf("%" PRIu64, first + k * step);
            put_interval(rows + k, 0);
        }
    }
}

static void has(void)
{
    static const char *const words[] = {"absent", "present", "maybe"};
    int presence;
    if (!is_refused(summarystore_has(store, name, strlen(name), value, first, last, &presence)))
        printf("has %s\n", words[presence]);
}

static void newest(void)
{
    summarystore_newest found;
    if (is_refused(summarystore_last(store, name, strlen(name), &found)))
        return;
    if (!found.has_last)
        puts("last none");
    else if (!found.has_value)
        printf("last %" PRIu64 "\n", found.last);
    else
        printf("last %" PRIu64 " %" PRIu64 " %" PRId64 " %" PRId64 "\n", found.last, found.time, found.lo, found.hi);
}

/* Does a line by a typed call, where there is one, and says whether there is. */
static int is_typed(const char *line)
{
    if (is_append(line))
        append();
    else if (is_create(line, "exp", 3))
        create(SUMMARYSTORE_EXP);
    else if (is_create(line, "power", 4))
        create(SUMMARYSTORE_POWER);
    else if (is_asked(line, "query"))
        query();
    else if (is_asked(line, "estimate") && strcmp(word, "min") != 0 && strcmp(word, "max") != 0)
        estimate();
    else if (is_series(line))
        series();
    else if (is_has(line))
        has();
    else if (is_last(line))
        newest();
    else
        return 0;
    return 1;
}

/* Does a line by the grammar, and writes its reply in pieces. Another store is asked before a piece is written. */
static void speak(const char *line, size_t length)
{
    summarystore_text piece, unwanted;
    int answer = summarystore_call(store, line, length, &piece);
    go_on(answer);
    while (piece.length > 0) {
        go_on(summarystore_call(other, "list", 4, &unwanted));
        if (piece.bytes[piece.length] != 0)
            exit(99);
        fwrite(piece.bytes, 1, piece.length, stdout);
        go_on(summarystore_next(store, &piece));
    }
}

int main(int count, char **words)
{
    char *line = NULL;
    size_t room = 0;
    ssize_t length;
    int number = 0;
    if (count < 3)
        return 2;
    int is_by_types = count > 3 && strcmp(words[3], "typed") == 0;
    int answer = summarystore_open(words[1], strlen(words[1]), (unsigned)atoi(words[2]), &store);
    go_on(answer);
    /* The other store lies in a folder of its own. */
    char folder[5000], beside[5020];
    snprintf(folder, sizeof folder, "%s.folder", words[1]);
    snprintf(beside, sizeof beside, "%s/other", folder);
    mkdir(folder, 0700);
    go_on(summarystore_open(beside, strlen(beside), 0, &other));
    while ((length = getline(&line, &room, stdin)) > 0) {
        /* Every second line goes without its line end. */
        size_t size = (size_t)length - (line[length - 1] == '\n' && ++number % 2 == 0);
        char *bare = strndup(line, (size_t)length - (line[length - 1] == '\n'));
        if (!is_by_types || strlen(bare) > 256 || !is_typed(bare))
            speak(line, size);
        free(bare);
    }
    free(line);
    summarystore_close(other);
    remove(beside);
    rmdir(folder);
    answer = summarystore_close(store);
    if (answer != SUMMARYSTORE_DONE)
        fprintf(stderr, "closing: %d\n", answer);
    return answer;
}
