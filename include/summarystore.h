/* libsummarystore: a store of timestamped whole numbers in one small file, in one's own process. Old values are merged into
 * windows that get longer with age, and each query is answered by an interval that surely holds the truth. docs/GUIDE.md tells what the
 * commands, replies and refusals mean, and which promises are proved.
 *
 * The whole file is in memory while it is open, up to some 134 MB, beside what the store itself needs.
 *
 * Times are whole numbers from 0 to 2^62, in whatever unit the caller counts, and values are whole numbers of 64 bits. A name has 1 to 32
 * bytes, each a letter, a digit, `_`, `-` or `.`, and no 0 behind it: its length is handed in.
 *
 * What a caller owes, and nothing checks:
 * - A connection is one that `summarystore_open` gave and `summarystore_close` hasn't taken. One thread uses it at a time, and who hands it
 *   to another orders that by a lock or a join. Two connections may be used at the same time.
 * - A pointer with a length is readable so far, a pointer to an answer has room for one, and arrays have as many entries as is said.
 * - No call is made from a signal handler. A child of `fork` uses and closes no connection of its parent; where the parent ends without closing
 *   it, the file stays locked until the child ends, or becomes another program.
 * What can be seen, as a null pointer, is answered by SUMMARYSTORE_MISUSE, and nothing is done. Where an answer is wanted no null is taken.
 * An answer is set where the status is 0, and else where it is said. */
#ifndef SUMMARYSTORE_H
#define SUMMARYSTORE_H

#include <stddef.h>
#include <stdint.h>

#ifdef __cplusplus
extern "C" {
#endif

#define SUMMARYSTORE_VERSION "1.0.0"

/* What a call answers. From 3 to 9 the connection has stopped: each later call that isn't a misuse answers the same, and does nothing. But
 * for 5 they are the program's. From 128 on stand the refusals: nothing was changed, and the connection goes on. */
enum {
    SUMMARYSTORE_DONE = 0,
    SUMMARYSTORE_REFUSED_STORE = 3,  /* the file is no store, or a damaged one; it was left as it was */
    SUMMARYSTORE_DISK_FAULT = 4,     /* the file couldn't be opened, locked, read, written or synced, or there was no memory for what is written */
    SUMMARYSTORE_BUSY = 5,           /* another connection, or another process, has the file; from `open`, and then from each call */
    SUMMARYSTORE_OUT_OF_MEMORY = 7,
    SUMMARYSTORE_RECORD_CHANGED = 9, /* a record isn't what was put; the file is read once, at `open`, so what changes it later goes unseen */
    SUMMARYSTORE_MISUSE = 64,        /* a call that can't be meant; the connection goes on */
    SUMMARYSTORE_READ_ONLY = 65,     /* an event, by a connection that only looks; it goes on */
    SUMMARYSTORE_REFUSED = 128,      /* 128 and more: refused, for one of the reasons that follow */
    SUMMARYSTORE_REFUSED_LINE = 128,
    SUMMARYSTORE_REFUSED_SYNTAX = 129,
    SUMMARYSTORE_REFUSED_NUMBER = 130,
    SUMMARYSTORE_REFUSED_NAME = 131,
    SUMMARYSTORE_REFUSED_PARAM = 132,
    SUMMARYSTORE_REFUSED_EXISTS = 133,
    SUMMARYSTORE_REFUSED_STREAMS = 134,
    SUMMARYSTORE_REFUSED_UNKNOWN = 135,
    SUMMARYSTORE_REFUSED_OPEN = 136,
    SUMMARYSTORE_REFUSED_NOT_OPEN = 137,
    SUMMARYSTORE_REFUSED_TIME = 138,
    SUMMARYSTORE_REFUSED_RANGE = 139,
    SUMMARYSTORE_REFUSED_STREAM_FULL = 140,
    SUMMARYSTORE_REFUSED_STORE_FULL = 141,
    SUMMARYSTORE_REFUSED_BUSY = 142,
    SUMMARYSTORE_REFUSED_NO_CURSOR = 143,
    SUMMARYSTORE_REFUSED_FRAME = 144
};

/* How a store is opened. They may be added, but LOOK to EXISTING alone. */
enum {
    SUMMARYSTORE_EXISTING = 1, /* makes no store: where there is none the answer is SUMMARYSTORE_DISK_FAULT */
    SUMMARYSTORE_CHECKED = 2,  /* makes a store with checksums where there is none; where a plain one stands, SUMMARYSTORE_DISK_FAULT */
    SUMMARYSTORE_BATCH = 4,    /* typed events wait until they are sealed */
    SUMMARYSTORE_LOOK = 8      /* writes nothing, and shares the file with others that only look */
};

/* What a query asks for. */
enum { SUMMARYSTORE_COUNT = 0, SUMMARYSTORE_SUM = 1, SUMMARYSTORE_MIN = 2, SUMMARYSTORE_MAX = 3, SUMMARYSTORE_MEAN = 4 };

/* Whether a value is there. */
enum { SUMMARYSTORE_ABSENT = 0, SUMMARYSTORE_PRESENT = 1, SUMMARYSTORE_MAYBE = 2 };

/* The families of targets. */
enum { SUMMARYSTORE_EXP = 0, SUMMARYSTORE_POWER = 1 };

/* A store that is open. */
typedef struct summarystore summarystore;

/* Some bytes of a reply, which the connection owns; they stay until its next call. A 0 stands behind them that isn't counted. */
typedef struct summarystore_text {
    const char *bytes;
    size_t length;
} summarystore_text;

/* How a stream stands after an event: the N and K of its `ok`. */
typedef struct summarystore_ack {
    uint64_t values;  /* how many values it has taken outside landmarks */
    uint64_t windows; /* how many windows stand */
} summarystore_ack;

/* How the windows of a stream get longer: of EXP the numbers B, R and S, and a fourth that isn't looked at, of POWER P, Q, R and S. */
typedef struct summarystore_target {
    uint32_t family;
    uint32_t numbers[4];
    uint32_t within; /* no window crosses a multiple of it; 0 where there is no such bound */
} summarystore_target;

/* The number (high * 2^64 + low) / under. `under` is 1 but for a mean, which is in lowest terms, and never 0. */
typedef struct summarystore_number {
    int64_t high;
    uint64_t low;
    uint64_t under;
} summarystore_number;

/* What is answered: the truth is at least `lo` and at most `hi`, where there is a value in the range. */
typedef struct summarystore_interval {
    int32_t none;       /* 1: there is surely no value, so no least one, no greatest one and no mean, and the numbers are 0 / 1; else 0 */
    int32_t maybe_none; /* 1: there may be no value; else 0. Of a count or a sum both are 0. */
    summarystore_number lo, hi;
    summarystore_number guess; /* the likeliest, of `summarystore_estimate` alone; else 0 / 1 */
} summarystore_interval;

/* How far a stream has come. */
typedef struct summarystore_newest {
    int32_t has_last;  /* 0: nothing has happened in it since it was made; all else is 0 then */
    int32_t has_value; /* 0: it took no value, and landmarks alone have times */
    uint64_t last;     /* its last time */
    uint64_t time;     /* the time of its newest value */
    int64_t lo, hi;    /* this value is at least lo and at most hi */
} summarystore_newest;

/* Opens the store at a path, which has so many bytes, and makes it where there is none and the flags allow it. The file is locked until the
 * connection is closed, and a store that was made is durable when the call returns.
 * Where the answer isn't 0, *connection has stopped, and tells why by `summarystore_message`; it is to be closed as any, and has no file. It
 * is null where there was no memory for one, and at a misuse: an unknown flag, LOOK with another than EXISTING, or a path of more than 4,096
 * bytes or with a 0 in it. */
int summarystore_open(const char *path, size_t length, unsigned flags, summarystore **connection);

/* Makes durable what waits, unless the connection has stopped, gives the lock back, also where a child of `fork` has the file open, and frees
 * the connection, whatever the answer is. The answer is that of `summarystore_seal`, and 0 for a null pointer. */
int summarystore_close(summarystore *connection);

/* Why the connection has stopped, or 0 where it goes on. */
int summarystore_status(const summarystore *connection);

/* The same in words, with the system's in brackets, and '' where it goes on. The text stays until the next call. */
const char *summarystore_message(const summarystore *connection);

/* Does one line of the program's grammar, which may end in a line end but has none inside. The reply is the text that the program prints: a
 * refusal is a reply, and the answer is then 0. A line without words, and a comment, have a reply of no bytes. Of a reply in rows these are the
 * first lines, and `summarystore_next` has the rest. What the line changes, and what waited, is durable when the call returns. */
int summarystore_call(summarystore *connection, const char *line, size_t length, summarystore_text *reply);

/* Further rows of the last call's reply, whole lines; a length of 0 says that there are no more. Any other call that isn't a misuse ends
 * them, but for `status` and `message`. */
int summarystore_next(summarystore *connection, summarystore_text *rows);

/* Typed events. Each is durable when it returns, but in a batch when it is sealed: until then a crash or a stop leaves some first ones of those
 * that wait. The `ack` may be null. The reasons for which one is refused are tested in the order in which they are told. */

/* Makes a stream. Refused by NAME, PARAM, EXISTS, STREAMS or STORE_FULL. */
int summarystore_create(summarystore *connection, const char *name, size_t length, const summarystore_target *target, summarystore_ack *ack);

/* Takes a value. Refused by NUMBER (a time above 2^62), NAME, UNKNOWN, TIME, STREAM_FULL or STORE_FULL. */
int summarystore_append(summarystore *connection, const char *name, size_t length, uint64_t time, int64_t value, summarystore_ack *ack);

/* Takes so many values, each at its time, until one is refused; the answer is then that of the refused one. *taken says how many were taken
 * before, which are durable when the call returns, or in a batch when it is sealed, and `ack` is that of the last of them, set where there is
 * one. The name is looked at before the times. A crash meanwhile leaves some first of them. Where the answer is a stop, *taken is 0, and some
 * first ones may be on the disk. */
int summarystore_append_many(summarystore *connection, const char *name, size_t length, const uint64_t *times, const int64_t *values,
                             size_t count, size_t *taken, summarystore_ack *ack);

/* Makes durable what waits. Without a batch nothing does. */
int summarystore_seal(summarystore *connection);

/* Questions. They count what waits too. Refused by NUMBER (a time above 2^62), NAME, UNKNOWN or RANGE (`to` is less than `from`), and by the
 * first of these that applies. */

/* What is known of the values with times from `from` to `to`, both included. */
int summarystore_query(summarystore *connection, const char *name, size_t length, int kind, uint64_t from, uint64_t to,
                       summarystore_interval *answer);

/* The same, of a count, a sum or a mean, with the likeliest number. */
int summarystore_estimate(summarystore *connection, const char *name, size_t length, int kind, uint64_t from, uint64_t to,
                          summarystore_interval *answer);

/* The queries of `step` times each, from `from` on; the last one may have fewer. *count says how many rows there are, and the first of them, as
 * many as there is room for, are set. Refused by NUMBER too where the step is 0 or above 2^62, or there are more than 100,000 rows. */
int summarystore_series(summarystore *connection, const char *name, size_t length, int kind, uint64_t from, uint64_t to, uint64_t step,
                        summarystore_interval *rows, size_t room, size_t *count);

/* Whether one of these values is `value`: SUMMARYSTORE_ABSENT, _PRESENT or _MAYBE. */
int summarystore_has(summarystore *connection, const char *name, size_t length, int64_t value, uint64_t from, uint64_t to, int *presence);

/* How far a stream has come, and what is known of its newest value. */
int summarystore_last(summarystore *connection, const char *name, size_t length, summarystore_newest *newest);

/* How many streams stand. */
int summarystore_streams(summarystore *connection, size_t *count);

/* The word of a refusal, as "UNKNOWN", and '' for any other answer. It stays for ever. */
const char *summarystore_refusal(int answer);

/* The version of the library, as SUMMARYSTORE_VERSION is that of the header. */
const char *summarystore_version(void);

#ifdef __cplusplus
}
#endif

#endif
