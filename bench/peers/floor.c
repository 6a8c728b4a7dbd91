/* No store: so many writes of 128 bytes as its form says, with a sync each, in a file that has its length. */

#include <fcntl.h>
#include <stdlib.h>
#include <unistd.h>

#include "peer.h"

enum { RECORD = 128, RECORDS = 288 };

const int peer_holds_truth = 0;

static int file, syncs, at;

static void put(const void *bytes, size_t length, size_t offset)
{
    if (pwrite(file, bytes, length, (off_t)offset) != (ssize_t)length || fdatasync(file) != 0)
        fail("floor", "a write or a sync failed");
}

void peer_open(const char *folder, const char *form)
{
    static const char empty[RECORDS * RECORD];
    syncs = atoi(form);
    file = open(path_in(folder, "floor"), O_RDWR | O_CREAT, 0600);
    put(empty, sizeof empty, 0);
    fsync(file);
}

void peer_append(const uint64_t *times, const int64_t *values, size_t count)
{
    char record[RECORD];
    for (size_t byte = 0; byte < sizeof record; byte++)
        record[byte] = (char)(times[0] + (uint64_t)values[0] + count + byte);
    for (int sync = 0; sync < syncs; sync++)
        put(record, sizeof record, (size_t)(at++ % RECORDS) * RECORD);
}

struct sum peer_sum(uint64_t from, uint64_t to)
{
    struct sum none = {(int64_t)from, (int64_t)to};
    return none;
}

void peer_close(void) { close(file); }
