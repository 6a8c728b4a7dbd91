/* Files that can't be opened, are in use or full, and what is in them when a process ends. */
#define _GNU_SOURCE
#include "calls.h"

#include <signal.h>
#include <stdio.h>
#include <stdlib.h>
#include <sys/resource.h>
#include <sys/stat.h>
#include <sys/wait.h>
#include <unistd.h>

/* Where the records begin: docs/FORMAT.md. */
#define FIRST_SLOT 36864

static void write_file(const char *path, const void *bytes, size_t length)
{
    FILE *file = fopen(path, "wb");
    HOLDS(file != NULL && fwrite(bytes, 1, length, file) == length && fclose(file) == 0);
}

/* Changes a byte of a file. */
static void spoil(const char *path, long place)
{
    FILE *file = fopen(path, "r+b");
    HOLDS(file != NULL && fseek(file, place, SEEK_SET) == 0 && fputc(0xff, file) == 0xff && fclose(file) == 0);
}

static int has_bytes(const char *path, const void *bytes, size_t length)
{
    static char found[1000];
    FILE *file = fopen(path, "rb");
    size_t size = file != NULL ? fread(found, 1, sizeof found, file) : 0;
    if (file != NULL)
        fclose(file);
    return size == length && memcmp(found, bytes, length) == 0;
}

void try_files(void)
{
    static const char zeros[20] = "\0hello", text[] = "hello";
    static const summarystore_target target = {SUMMARYSTORE_EXP, {2, 1, 1, 0}, 0};
    summarystore *store, *second;
    summarystore_text reply;
    summarystore_interval answer;
    summarystore_newest newest;
    uint64_t time = UINT64_MAX;
    int64_t value = 1;
    size_t count = 7;
    int presence;
    HOLDS(summarystore_open(NAMED("no/folder.store"), 0, &store) == SUMMARYSTORE_DISK_FAULT && has_message(store, "no such folder"));
    HOLDS(summarystore_status(store) == SUMMARYSTORE_DISK_FAULT);
    HOLDS(summarystore_call(store, "list", 4, &reply) == SUMMARYSTORE_DISK_FAULT);
    HOLDS(summarystore_append(store, "a", 1, 1, 1, NULL) == SUMMARYSTORE_DISK_FAULT);
    HOLDS(summarystore_append(store, "a/b", 3, UINT64_MAX, 1, NULL) == SUMMARYSTORE_DISK_FAULT);
    HOLDS(summarystore_append_many(store, "a/b", 3, &time, &value, 1, &count, NULL) == SUMMARYSTORE_DISK_FAULT && count == 0);
    HOLDS(summarystore_create(store, "a/b", 3, &target, NULL) == SUMMARYSTORE_DISK_FAULT);
    HOLDS(summarystore_query(store, "a/b", 3, SUMMARYSTORE_SUM, 2, 1, &answer) == SUMMARYSTORE_DISK_FAULT);
    HOLDS(summarystore_estimate(store, "a/b", 3, SUMMARYSTORE_SUM, 2, 1, &answer) == SUMMARYSTORE_DISK_FAULT);
    HOLDS(summarystore_series(store, "a/b", 3, SUMMARYSTORE_SUM, 2, 1, 0, &answer, 1, &count) == SUMMARYSTORE_DISK_FAULT);
    HOLDS(summarystore_has(store, "a/b", 3, 1, 2, 1, &presence) == SUMMARYSTORE_DISK_FAULT);
    HOLDS(summarystore_last(store, "a/b", 3, &newest) == SUMMARYSTORE_DISK_FAULT);
    HOLDS(summarystore_streams(store, &count) == SUMMARYSTORE_DISK_FAULT && summarystore_next(store, &reply) == SUMMARYSTORE_DISK_FAULT);
    HOLDS(summarystore_seal(store) == SUMMARYSTORE_DISK_FAULT);
    summarystore_close(store);
    HOLDS(summarystore_open(NAMED("none.store"), SUMMARYSTORE_EXISTING, &store) == SUMMARYSTORE_DISK_FAULT);
    HOLDS(has_message(store, "no such file") && access("none.store", F_OK) != 0);
    summarystore_close(store);
    HOLDS(summarystore_open("", 0, 0, &store) == SUMMARYSTORE_DISK_FAULT && has_message(store, "the store has no name"));
    summarystore_close(store);
    HOLDS(summarystore_open(".", 1, 0, &store) == SUMMARYSTORE_DISK_FAULT && has_message(store, "is a folder"));
    summarystore_close(store);
    write_file("foreign", text, 5);
    HOLDS(summarystore_open(NAMED("foreign"), 0, &store) == SUMMARYSTORE_REFUSED_STORE && has_message(store, "not a store"));
    HOLDS(summarystore_call(store, "list", 4, &reply) == SUMMARYSTORE_REFUSED_STORE && has_bytes("foreign", text, 5));
    summarystore_close(store);
    write_file("zeros", zeros, sizeof zeros);
    HOLDS(summarystore_open(NAMED("zeros"), 0, &store) == SUMMARYSTORE_DONE || has_message(store, "isn't formatted"));
    summarystore_close(store);
    HOLDS(summarystore_close(begun("damaged.store", 0)) == SUMMARYSTORE_DONE);
    HOLDS(summarystore_close(opened("damaged.store", 0)) == SUMMARYSTORE_DONE);
    spoil("damaged.store", FIRST_SLOT);
    HOLDS(summarystore_open(NAMED("damaged.store"), 0, &store) == SUMMARYSTORE_REFUSED_STORE && has_message(store, "damaged slot 0"));
    summarystore_close(store);
    store = begun("locked.store", 0);
    HOLDS(summarystore_open(NAMED("locked.store"), 0, &second) == SUMMARYSTORE_BUSY && has_message(second, "another process uses it"));
    HOLDS(summarystore_call(second, "list", 4, &reply) == SUMMARYSTORE_BUSY && summarystore_status(second) == SUMMARYSTORE_BUSY);
    summarystore_close(second);
    HOLDS(counted(store, "a") == 3 && summarystore_close(store) == SUMMARYSTORE_DONE);
    store = opened("locked.store", 0);
    HOLDS(counted(store, "a") == 3 && summarystore_close(store) == SUMMARYSTORE_DONE);
    HOLDS(summarystore_open(NAMED("locked.store"), SUMMARYSTORE_CHECKED, &store) == SUMMARYSTORE_DISK_FAULT && has_message(store, "plain"));
    summarystore_close(store);
    store = begun("checked.store", SUMMARYSTORE_CHECKED);
    HOLDS(summarystore_close(store) == SUMMARYSTORE_DONE);
    store = opened("checked.store", SUMMARYSTORE_CHECKED | SUMMARYSTORE_EXISTING);
    HOLDS(counted(store, "a") == 3 && summarystore_close(store) == SUMMARYSTORE_DONE);
}

void try_looking(void)
{
    summarystore *store, *second, *third;
    summarystore_text reply;
    struct stat before, after;
    char line[257];
    unsigned look = SUMMARYSTORE_LOOK | SUMMARYSTORE_EXISTING;
    HOLDS(summarystore_close(begun("looked.store", 0)) == SUMMARYSTORE_DONE);
    HOLDS(stat("looked.store", &before) == 0);
    store = opened("looked.store", look);
    second = opened("looked.store", look);
    HOLDS(counted(store, "a") == 3 && counted(second, "a") == 3);
    HOLDS(summarystore_append(store, "a", 1, 40, 1, NULL) == SUMMARYSTORE_READ_ONLY);
    HOLDS(summarystore_call(store, "append a 40 1", 13, &reply) == SUMMARYSTORE_READ_ONLY);
    HOLDS(summarystore_call(store, "append a 40 1\r\n", 15, &reply) == SUMMARYSTORE_READ_ONLY);
    memset(line, ' ', sizeof line);
    memcpy(line, "append a 40 1", 13);
    line[256] = '\r';
    HOLDS(summarystore_call(store, line, 257, &reply) == SUMMARYSTORE_READ_ONLY);
    HOLDS(summarystore_status(store) == SUMMARYSTORE_DONE && counted(store, "a") == 3);
    HOLDS(says(store, "query a sum 0 99", "sum 10 10\n"));
    HOLDS(summarystore_open(NAMED("looked.store"), 0, &third) == SUMMARYSTORE_BUSY);
    summarystore_close(third);
    HOLDS(summarystore_close(store) == SUMMARYSTORE_DONE && summarystore_close(second) == SUMMARYSTORE_DONE);
    HOLDS(stat("looked.store", &after) == 0 && before.st_mtim.tv_sec == after.st_mtim.tv_sec && before.st_mtim.tv_nsec == after.st_mtim.tv_nsec);
    store = opened("looked.store", 0);
    HOLDS(summarystore_open(NAMED("looked.store"), look, &third) == SUMMARYSTORE_BUSY);
    summarystore_close(third);
    HOLDS(summarystore_close(store) == SUMMARYSTORE_DONE);
    HOLDS(summarystore_open(NAMED("unseen.store"), look, &third) == SUMMARYSTORE_DISK_FAULT && access("unseen.store", F_OK) != 0);
    summarystore_close(third);
}

/* Does something in a process of its own, which ends there without a further call, and answers its status. */
static int apart(int (*what)(void))
{
    int status = 0;
    fflush(stdout);
    pid_t child = fork();
    if (child == 0)
        _exit(what());
    return child > 0 && waitpid(child, &status, 0) == child && WIFEXITED(status) ? WEXITSTATUS(status) : -1;
}

/* What a process that ends has open then, and what the one before it has. */
static summarystore *open_then, *open_before;

static int append_and_end(void)
{
    return summarystore_open(NAMED("ended.store"), 0, &open_then) != SUMMARYSTORE_DONE ||
           summarystore_append(open_then, "a", 1, 40, 1, NULL) != SUMMARYSTORE_DONE;
}

static int seal_and_end(void)
{
    return summarystore_open(NAMED("ended.store"), SUMMARYSTORE_BATCH, &open_then) != SUMMARYSTORE_DONE ||
           summarystore_append(open_then, "a", 1, 50, 1, NULL) != SUMMARYSTORE_DONE || summarystore_seal(open_then) != SUMMARYSTORE_DONE ||
           summarystore_append(open_then, "a", 1, 60, 1, NULL) != SUMMARYSTORE_DONE || counted(open_then, "a") != 6;
}

static int open_what_is_open(void)
{
    return summarystore_open(NAMED("ended.store"), 0, &open_then);
}

/* What is durable when a process ends: each event, and in a batch what was sealed. */
void try_ends(void)
{
    uint64_t count;
    HOLDS(summarystore_close(begun("ended.store", 0)) == SUMMARYSTORE_DONE);
    HOLDS(apart(append_and_end) == 0);
    open_before = opened("ended.store", 0);
    HOLDS(counted(open_before, "a") == 4);
    HOLDS(apart(open_what_is_open) == SUMMARYSTORE_BUSY);
    HOLDS(summarystore_close(open_before) == SUMMARYSTORE_DONE);
    HOLDS(apart(seal_and_end) == 0);
    open_before = opened("ended.store", SUMMARYSTORE_BATCH);
    count = counted(open_before, "a");
    HOLDS(count == 5 || count == 6);
    HOLDS(summarystore_append(open_before, "a", 1, 70, 1, NULL) == SUMMARYSTORE_DONE && counted(open_before, "a") == count + 1);
    HOLDS(says(open_before, "append a 80 1", count == 5 ? "ok 7 4\n" : "ok 8 4\n") || counted(open_before, "a") == count + 2);
    HOLDS(summarystore_append(open_before, "a", 1, 80, 1, NULL) == SUMMARYSTORE_REFUSED_TIME);
    HOLDS(summarystore_append(open_before, "a", 1, 90, 1, NULL) == SUMMARYSTORE_DONE);
    HOLDS(summarystore_close(open_before) == SUMMARYSTORE_DONE);
    open_before = opened("ended.store", 0);
    HOLDS(counted(open_before, "a") == count + 3 && summarystore_close(open_before) == SUMMARYSTORE_DONE);
}

/* Appends until the file can't grow: the status of the stop where all later calls answer it too, and else 0. */
static int fill_up(void)
{
    struct rlimit limit = {100000, 100000};
    summarystore *store;
    summarystore_interval answer;
    int stopped = 0;
    signal(SIGXFSZ, SIG_IGN);
    if (setrlimit(RLIMIT_FSIZE, &limit) != 0 || summarystore_open(NAMED("full.store"), 0, &store) != SUMMARYSTORE_DONE)
        return 0;
    FILE *told = fopen("told", "w");
    for (uint64_t time = 1; stopped == 0 && time < 100000; time++) {
        stopped = summarystore_append(store, "w", 1, time, 7, NULL);
        if (stopped == 0)
            fprintf(told, "%" PRIu64 "\n", time);
    }
    fclose(told);
    int again = summarystore_append(store, "w", 1, 100001, 7, NULL);
    int named = summarystore_append(store, "a/b", 3, UINT64_MAX, 7, NULL);
    int asked = summarystore_query(store, "w", 1, SUMMARYSTORE_COUNT, 0, 9, &answer);
    int has_words = summarystore_message(store)[0] != 0;
    int closed = summarystore_close(store);
    return again == stopped && named == stopped && asked == stopped && closed == stopped && has_words ? stopped : 0;
}

void try_full(void)
{
    char line[40] = "";
    uint64_t last = 0, count;
    summarystore *store = opened("full.store", 0);
    HOLDS(says(store, "create w power 1 0 1 1", "ok 0 0\n") && summarystore_close(store) == SUMMARYSTORE_DONE);
    HOLDS(apart(fill_up) == SUMMARYSTORE_DISK_FAULT);
    FILE *told = fopen("told", "r");
    while (told != NULL && fgets(line, sizeof line, told) != NULL)
        last = strtoull(line, NULL, 10);
    if (told != NULL)
        fclose(told);
    store = opened("full.store", 0);
    count = counted(store, "w");
    HOLDS(last > 100 && (count == last || count == last + 1));
    HOLDS(summarystore_close(store) == SUMMARYSTORE_DONE);
}
