/* What the proved library exports, in C's words. Nobody but library/c calls it, and no shared library shows it. Rattle takes a slice as a
 * pointer and a length; neither that pointer nor one to an answer is null, also where the length is 0. Nothing checks that: the functions
 * of summarystore.c see to it. */
#ifndef HELD_H
#define HELD_H

#include "../../include/summarystore.h"

/* A box of the proved library, or null. */
struct held {
    void *at;
};

/* Opens the store of a file that holds these bytes. The box is null where there was no memory for one. Else it holds a connection, which has
 * stopped where the answer isn't 0. */
int32_t summarystore_held_open(const unsigned char *content, size_t length, uint32_t flags, struct held *held);

/* Frees the box, with all that waits. */
void summarystore_held_free(struct held *held);

/* What is to be done next to the file. */
enum { HELD_NOTHING = 0, HELD_SYNC = 1, HELD_WRITE = 2, HELD_ROOM = 3 };

/* Takes it: a write of *count bytes, which are in the room then, from *at on; or *count is the room that is needed, and nothing is taken. */
int32_t summarystore_held_take(struct held *held, uint64_t *at, unsigned char *room, size_t size, size_t *count);

int32_t summarystore_held_status(struct held *held);

/* Puts what there is to say of the stop into the room, as much as fits, and answers how many bytes these are. */
size_t summarystore_held_message(struct held *held, unsigned char *room, size_t size);

/* Of a reply in rows at most 16,384 bytes are said at once. With so much room each piece ends at the end of a line. */
int32_t summarystore_held_call(struct held *held, const unsigned char *line, size_t length, unsigned char *room, size_t size, size_t *filled);
int32_t summarystore_held_next(struct held *held, unsigned char *room, size_t size, size_t *filled);

int32_t summarystore_held_create(struct held *held, const unsigned char *name, size_t length, const summarystore_target *target,
                                 summarystore_ack *ack);
int32_t summarystore_held_append(struct held *held, const unsigned char *name, size_t length, uint64_t time, int64_t value,
                                 summarystore_ack *ack);
int32_t summarystore_held_append_many(struct held *held, const unsigned char *name, size_t length, const uint64_t *times, size_t count,
                                      const int64_t *values, size_t as_many, size_t *taken, summarystore_ack *ack);
int32_t summarystore_held_seal(struct held *held);

int32_t summarystore_held_query(struct held *held, const unsigned char *name, size_t length, uint32_t kind, uint64_t from, uint64_t to,
                                summarystore_interval *answer);
int32_t summarystore_held_estimate(struct held *held, const unsigned char *name, size_t length, uint32_t kind, uint64_t from, uint64_t to,
                                   summarystore_interval *answer);
int32_t summarystore_held_series(struct held *held, const unsigned char *name, size_t length, uint32_t kind, uint64_t from, uint64_t to,
                                 uint64_t step, summarystore_interval *rows, size_t room, size_t *count);
int32_t summarystore_held_has(struct held *held, const unsigned char *name, size_t length, int64_t value, uint64_t from, uint64_t to,
                              uint32_t *presence);
int32_t summarystore_held_last(struct held *held, const unsigned char *name, size_t length, summarystore_newest *newest);
int32_t summarystore_held_streams(struct held *held, size_t *count);

#endif
