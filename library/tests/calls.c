/* Each call of the library, with what it answers: also to what can't be meant. The last line counts what passed.
 * Usage: calls FOLDER
 * FOLDER is empty, and gets the stores. */
#include "calls.h"

#include <stdio.h>
#include <unistd.h>

static int passed, failed;
const char *subject;

void holds(int is_so, const char *what, int line)
{
    if (is_so) {
        passed++;
    } else {
        failed++;
        printf("calls: %s, line %d: %s FAILED\n", subject, line, what);
    }
}

summarystore *opened(const char *path, unsigned flags)
{
    summarystore *store = NULL;
    int answer = summarystore_open(NAMED(path), flags, &store);
    if (answer != SUMMARYSTORE_DONE)
        printf("calls: %s: %s doesn't open: %d, %s\n", subject, path, answer, store != NULL ? summarystore_message(store) : "");
    HOLDS(answer == SUMMARYSTORE_DONE && store != NULL);
    return store;
}

int says(summarystore *store, const char *line, const char *reply)
{
    summarystore_text text = {NULL, 0};
    return summarystore_call(store, NAMED(line), &text) == SUMMARYSTORE_DONE && text.length == strlen(reply) &&
           memcmp(text.bytes, reply, text.length + 1) == 0;
}

summarystore *begun(const char *path, unsigned flags)
{
    summarystore *store = opened(path, flags);
    HOLDS(says(store, "create a exp 2 1 1", "ok 0 0\n"));
    HOLDS(says(store, "append a 10 5\n", "ok 1 1\n"));
    HOLDS(says(store, "append a 20 -3\r\n", "ok 2 2\n"));
    HOLDS(says(store, "  append a 30 8", "ok 3 2\n"));
    return store;
}

uint64_t counted(summarystore *store, const char *name)
{
    summarystore_interval answer;
    if (summarystore_query(store, NAMED(name), SUMMARYSTORE_COUNT, 0, (uint64_t)1 << 62, &answer) != SUMMARYSTORE_DONE)
        return UINT64_MAX;
    return answer.lo.low == answer.hi.low && answer.lo.high == 0 && answer.hi.high == 0 ? answer.lo.low : UINT64_MAX;
}

int is_number(summarystore_number number, int64_t over, uint64_t under)
{
    return number.high == (over < 0 ? -1 : 0) && number.low == (uint64_t)over && number.under == under;
}

int has_message(const summarystore *store, const char *part)
{
    int is_there = strstr(summarystore_message(store), part) != NULL;
    if (!is_there)
        printf("calls: %s: the message is '%s'\n", subject, summarystore_message(store));
    return is_there;
}

int main(int count, char **words)
{
    static const struct {
        const char *name;
        void (*run)(void);
    } tests[] = {
        {"null connections", try_null_connections}, {"misuse of open", try_misuse_of_open}, {"misuse", try_misuse}, {"lines", try_lines},
        {"pieces", try_pieces}, {"events", try_events}, {"questions", try_questions}, {"files", try_files}, {"looking", try_looking},
        {"ends", try_ends}, {"a full disk", try_full}, {"threads", try_threads}, {"words", try_words},
    };
    if (count < 2 || chdir(words[1]) != 0)
        return 2;
    for (size_t k = 0; k < sizeof tests / sizeof *tests; k++) {
        subject = tests[k].name;
        tests[k].run();
    }
    printf("%d passed, %d failed\n", passed, failed);
    return failed > 0;
}
