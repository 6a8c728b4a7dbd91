/* What each store of this folder does for measure.c. A call that fails ends the program with 1. */

#ifndef PEER_H
#define PEER_H

#include <stddef.h>
#include <stdint.h>

/* A sum, between two ends. */
struct sum {
    int64_t low, high;
};

/* Whether a sum's ends hold the truth. Where it is 0 a sum is of whole rows, and may be off. */
extern const int peer_holds_truth;

/* Makes a new store of one series in a folder, in a form that the peer knows. */
void peer_open(const char *folder, const char *form);

/* Appends readings, the oldest first. They are durable together when it returns. */
void peer_append(const uint64_t *times, const int64_t *values, size_t count);

/* The sum over the times from one to another, both included. */
struct sum peer_sum(uint64_t from, uint64_t to);

void peer_close(void);

/* Ends the program with 1, and says why. */
void fail(const char *call, const char *why);

/* The path of a file in a folder. It stays until the next call. */
const char *path_in(const char *folder, const char *name);

#endif
