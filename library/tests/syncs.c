/* How often the file is synced: each event by itself has syncs of its own, and those of a group or a batch share them. Linked with --wrap, by
 * which the library's syncs are counted here. The last line counts what passed.
 * Usage: syncs FOLDER */
#include <inttypes.h>
#include <stdio.h>
#include <string.h>
#include <summarystore.h>
#include <unistd.h>

#define MANY 1000

int __real_fdatasync(int descriptor);
int __wrap_fdatasync(int descriptor);

static unsigned long syncs;

int __wrap_fdatasync(int descriptor)
{
    syncs++;
    return __real_fdatasync(descriptor);
}

static int passed, failed;

static void holds(int is_so, const char *what, unsigned long count)
{
    passed += is_so;
    failed += !is_so;
    if (!is_so)
        printf("syncs: %s FAILED: %lu\n", what, count);
}

/* How many syncs so many values take, one by one. */
static unsigned long one_by_one(const char *path, unsigned flags)
{
    static const summarystore_target target = {SUMMARYSTORE_EXP, {2, 1, 1, 0}, 0};
    summarystore *store = NULL;
    unsigned long before, fewest = MANY;
    int done = summarystore_open(path, strlen(path), flags, &store) | summarystore_create(store, "a", 1, &target, NULL);
    syncs = 0;
    for (uint64_t time = 0; time < MANY; time++) {
        before = syncs;
        done |= summarystore_append(store, "a", 1, time, 7, NULL);
        fewest = syncs - before < fewest ? syncs - before : fewest;
    }
    before = syncs;
    holds((flags & SUMMARYSTORE_BATCH) != 0 || fewest > 0, "an append that isn't synced", fewest);
    done |= summarystore_close(store);
    holds((flags & SUMMARYSTORE_BATCH) == 0 || syncs > before, "a batch that isn't synced when it is closed", syncs);
    holds(done == 0, "appends", (unsigned long)done);
    return syncs;
}

/* The same by one call. */
static unsigned long together(const char *path)
{
    static const summarystore_target target = {SUMMARYSTORE_EXP, {2, 1, 1, 0}, 0};
    static uint64_t times[MANY];
    static int64_t values[MANY];
    summarystore *store = NULL;
    size_t taken = 0;
    for (uint64_t k = 0; k < MANY; k++)
        times[k] = k;
    int done = summarystore_open(path, strlen(path), 0, &store) | summarystore_create(store, "a", 1, &target, NULL);
    syncs = 0;
    done |= summarystore_append_many(store, "a", 1, times, values, MANY, &taken, NULL);
    unsigned long count = syncs;
    holds(done == 0 && taken == MANY && count > 0, "values by one call", count);
    summarystore_interval answer;
    holds(summarystore_query(store, "a", 1, SUMMARYSTORE_MAX, 0, MANY, &answer) == 0 && syncs == count, "a query that syncs", syncs);
    holds(summarystore_seal(store) == 0 && summarystore_close(store) == 0 && syncs == count, "a seal of nothing that syncs", syncs);
    return count;
}

int main(int count, char **words)
{
    if (count != 2 || chdir(words[1]) != 0)
        return 2;
    unsigned long single = one_by_one("single.store", 0), batch = one_by_one("batch.store", SUMMARYSTORE_BATCH), group = together("group.store");
    holds(single >= 2 * MANY, "syncs of values one by one", single);
    holds(batch * 10 < single, "syncs of a batch", batch);
    holds(group * 10 < single, "syncs of a group", group);
    printf("syncs of %d values: %lu one by one, %lu in a batch, %lu by one call\n", MANY, single, batch, group);
    printf("%d passed, %d failed\n", passed, failed);
    return failed > 0;
}
