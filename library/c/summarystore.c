/* The calls of include/summarystore.h. Each looks that no pointer is null and no length absurd, hands the rest to the proved library, and then
 * does to the file what that has noted, before it hands the answer on. No proof covers this file: it is trusted. */
#include "file.h"
#include "held.h"

#include <stdlib.h>
#include <string.h>

#define LONGEST_NAME 32
#define LONGEST_PATH 4096
#define MOST_SAID 16384
#define FIRST_ROOM 65536
#define KNOWN_FLAGS (SUMMARYSTORE_EXISTING | SUMMARYSTORE_CHECKED | SUMMARYSTORE_BATCH | SUMMARYSTORE_LOOK)

typedef unsigned char byte;

struct summarystore {
    struct held held;
    struct file file;
    int stopped; /* why the file can't be used, or 0 */
    char path[LONGEST_PATH + 1];
    char message[LONGEST_PATH + 256];
    char text[MOST_SAID + 1];
    byte *room; /* for what is written */
    size_t size;
};

/* Stops the connection: no further call is made of the proved library or the file. */
static int stops(summarystore *connection, int status)
{
    connection->stopped = status;
    return status;
}

/* Keeps what there is to say of a stop, and hands the answer on. */
static int told(summarystore *connection, int answer)
{
    if (answer >= SUMMARYSTORE_REFUSED_STORE && answer < SUMMARYSTORE_MISUSE && connection->message[0] == 0) {
        size_t room = sizeof connection->message - 1;
        size_t filled = summarystore_held_message(&connection->held, (byte *)connection->message, room);
        connection->message[filled < room ? filled : room] = 0;
        if (filled == 0 && answer == SUMMARYSTORE_OUT_OF_MEMORY)
            strcpy(connection->message, "out of memory");
    }
    return answer;
}

/* Makes the room for what is written as long as it has to be. */
static int widen(summarystore *connection, size_t size)
{
    byte *room = realloc(connection->room, size);
    if (room == NULL) {
        strcpy(connection->message, "no memory for what is to be written to the file");
        return SUMMARYSTORE_DISK_FAULT;
    }
    connection->room = room;
    connection->size = size;
    return 0;
}

/* Does to the file what is noted, in that order, and then hands the answer on. Where something can't be done the connection stops. */
static int done(summarystore *connection, int answer)
{
    char *message = connection->message;
    size_t room = sizeof connection->message, count = 0;
    uint64_t at = 0;
    int next, failed = 0;
    while (failed == 0 && (next = summarystore_held_take(&connection->held, &at, connection->room, connection->size, &count)) != HELD_NOTHING) {
        if (next == HELD_WRITE)
            failed = file_write(&connection->file, at, connection->room, count, connection->path, message, room);
        else if (next == HELD_SYNC)
            failed = file_sync(&connection->file, connection->path, message, room);
        else
            failed = widen(connection, count);
    }
    return failed != 0 ? stops(connection, failed) : told(connection, answer);
}

/* Whether there is a name that may be one. */
static int is_name(const char *name, size_t length)
{
    return name != NULL && length > 0 && length <= LONGEST_NAME;
}

/* Whether the kind is one of those that a query asks for. */
static int is_kind(int kind)
{
    return kind >= SUMMARYSTORE_COUNT && kind <= SUMMARYSTORE_MEAN;
}

/* Whether there are so many of eight bytes each. */
static int is_array(const void *first, size_t count)
{
    return (first != NULL || count == 0) && count <= PTRDIFF_MAX / 8;
}

/* Puts the path before what there is to say of the file. */
static void name_file(summarystore *connection)
{
    size_t length = strlen(connection->path), said = strlen(connection->message);
    if (length + said + 3 > sizeof connection->message)
        return;
    memmove(connection->message + length + 2, connection->message, said + 1);
    memcpy(connection->message, connection->path, length);
    memcpy(connection->message + length, ": ", 2);
}

/* Opens the file, and then the store that it holds. Of a file that was refused nothing is written. */
static int begins(summarystore *made, unsigned flags)
{
    byte *content = NULL;
    size_t length = 0;
    int answer = made->room != NULL ? 0 : SUMMARYSTORE_OUT_OF_MEMORY;
    if (answer == 0)
        answer = file_open(&made->file, made->path, flags, &content, &length, made->message, sizeof made->message);
    if (answer == 0)
        answer = summarystore_held_open(content, length, flags & ~(unsigned)SUMMARYSTORE_EXISTING, &made->held);
    free(content);
    if (answer == 0)
        answer = done(made, answer);
    if (answer == 0)
        return answer;
    told(made, answer);
    if (answer == SUMMARYSTORE_DISK_FAULT && strncmp(made->message, made->path, strlen(made->path)) != 0)
        name_file(made);
    file_close(&made->file);
    return stops(made, answer);
}

int summarystore_open(const char *path, size_t length, unsigned flags, summarystore **connection)
{
    if (connection == NULL)
        return SUMMARYSTORE_MISUSE;
    *connection = NULL;
    if (path == NULL || length > LONGEST_PATH || (flags & ~(unsigned)KNOWN_FLAGS) != 0 || memchr(path, 0, length) != NULL)
        return SUMMARYSTORE_MISUSE;
    if ((flags & SUMMARYSTORE_LOOK) != 0 && (flags & (SUMMARYSTORE_CHECKED | SUMMARYSTORE_BATCH)) != 0)
        return SUMMARYSTORE_MISUSE;
    summarystore *made = calloc(1, sizeof *made);
    if (made == NULL)
        return SUMMARYSTORE_OUT_OF_MEMORY;
    made->file.descriptor = -1;
    memcpy(made->path, path, length);
    made->room = malloc(FIRST_ROOM);
    made->size = made->room != NULL ? FIRST_ROOM : 0;
    *connection = made;
    return begins(made, flags);
}

int summarystore_close(summarystore *connection)
{
    if (connection == NULL)
        return SUMMARYSTORE_DONE;
    int answer = summarystore_seal(connection);
    summarystore_held_free(&connection->held);
    file_close(&connection->file);
    free(connection->room);
    free(connection);
    return answer;
}

int summarystore_status(const summarystore *connection)
{
    if (connection == NULL || connection->stopped != 0)
        return connection != NULL ? connection->stopped : SUMMARYSTORE_MISUSE;
    return summarystore_held_status((struct held *)&connection->held);
}

const char *summarystore_message(const summarystore *connection)
{
    return connection != NULL ? connection->message : "";
}

/* Hands out what was filled, with a 0 behind it. */
static int shown(summarystore *connection, int answer, size_t filled, summarystore_text *text)
{
    if (answer == SUMMARYSTORE_DONE) {
        connection->text[filled] = 0;
        text->bytes = connection->text;
        text->length = filled;
    }
    return answer;
}

int summarystore_call(summarystore *connection, const char *line, size_t length, summarystore_text *reply)
{
    if (connection == NULL || line == NULL || reply == NULL)
        return SUMMARYSTORE_MISUSE;
    if (length > 0 && memchr(line, '\n', length - 1) != NULL)
        return SUMMARYSTORE_MISUSE;
    if (connection->stopped != 0)
        return connection->stopped;
    size_t filled = 0;
    int answer = summarystore_held_call(&connection->held, (const byte *)line, length, (byte *)connection->text,
                                        MOST_SAID, &filled);
    return shown(connection, done(connection, answer), filled, reply);
}

int summarystore_next(summarystore *connection, summarystore_text *rows)
{
    if (connection == NULL || rows == NULL)
        return SUMMARYSTORE_MISUSE;
    if (connection->stopped != 0)
        return connection->stopped;
    size_t filled = 0;
    int answer = summarystore_held_next(&connection->held, (byte *)connection->text, MOST_SAID, &filled);
    return shown(connection, done(connection, answer), filled, rows);
}

int summarystore_create(summarystore *connection, const char *name, size_t length, const summarystore_target *target, summarystore_ack *ack)
{
    summarystore_ack unseen;
    if (connection == NULL || !is_name(name, length) || target == NULL || target->family > SUMMARYSTORE_POWER)
        return SUMMARYSTORE_MISUSE;
    if (connection->stopped != 0)
        return connection->stopped;
    return done(connection, summarystore_held_create(&connection->held, (const byte *)name, length, target, ack != NULL ? ack : &unseen));
}

int summarystore_append(summarystore *connection, const char *name, size_t length, uint64_t time, int64_t value, summarystore_ack *ack)
{
    summarystore_ack unseen;
    if (connection == NULL || !is_name(name, length))
        return SUMMARYSTORE_MISUSE;
    if (connection->stopped != 0)
        return connection->stopped;
    return done(connection, summarystore_held_append(&connection->held, (const byte *)name, length, time, value, ack != NULL ? ack : &unseen));
}

int summarystore_append_many(summarystore *connection, const char *name, size_t length, const uint64_t *times, const int64_t *values,
                             size_t count, size_t *taken, summarystore_ack *ack)
{
    static const uint64_t no_times[1];
    static const int64_t no_values[1];
    summarystore_ack unseen;
    if (connection == NULL || !is_name(name, length) || taken == NULL || !is_array(times, count) || !is_array(values, count))
        return SUMMARYSTORE_MISUSE;
    *taken = 0;
    if (connection->stopped != 0)
        return connection->stopped;
    return done(connection, summarystore_held_append_many(&connection->held, (const byte *)name, length, times != NULL ? times : no_times, count,
                                                          values != NULL ? values : no_values, count, taken, ack != NULL ? ack : &unseen));
}

int summarystore_seal(summarystore *connection)
{
    if (connection == NULL)
        return SUMMARYSTORE_MISUSE;
    if (connection->stopped != 0)
        return connection->stopped;
    return done(connection, summarystore_held_seal(&connection->held));
}

int summarystore_query(summarystore *connection, const char *name, size_t length, int kind, uint64_t from, uint64_t to,
                       summarystore_interval *answer)
{
    if (connection == NULL || !is_name(name, length) || !is_kind(kind) || answer == NULL)
        return SUMMARYSTORE_MISUSE;
    if (connection->stopped != 0)
        return connection->stopped;
    return done(connection, summarystore_held_query(&connection->held, (const byte *)name, length, (uint32_t)kind, from, to, answer));
}

int summarystore_estimate(summarystore *connection, const char *name, size_t length, int kind, uint64_t from, uint64_t to,
                          summarystore_interval *answer)
{
    if (connection == NULL || !is_name(name, length) || answer == NULL)
        return SUMMARYSTORE_MISUSE;
    if (kind != SUMMARYSTORE_COUNT && kind != SUMMARYSTORE_SUM && kind != SUMMARYSTORE_MEAN)
        return SUMMARYSTORE_MISUSE;
    if (connection->stopped != 0)
        return connection->stopped;
    return done(connection, summarystore_held_estimate(&connection->held, (const byte *)name, length, (uint32_t)kind, from, to, answer));
}

int summarystore_series(summarystore *connection, const char *name, size_t length, int kind, uint64_t from, uint64_t to, uint64_t step,
                        summarystore_interval *rows, size_t room, size_t *count)
{
    summarystore_interval no_rows;
    if (connection == NULL || !is_name(name, length) || !is_kind(kind) || count == NULL)
        return SUMMARYSTORE_MISUSE;
    if ((rows == NULL && room > 0) || room > PTRDIFF_MAX / sizeof *rows)
        return SUMMARYSTORE_MISUSE;
    if (connection->stopped != 0)
        return connection->stopped;
    return done(connection, summarystore_held_series(&connection->held, (const byte *)name, length, (uint32_t)kind, from, to, step,
                                                     rows != NULL ? rows : &no_rows, room, count));
}

int summarystore_has(summarystore *connection, const char *name, size_t length, int64_t value, uint64_t from, uint64_t to, int *presence)
{
    uint32_t found = SUMMARYSTORE_MAYBE;
    if (connection == NULL || !is_name(name, length) || presence == NULL)
        return SUMMARYSTORE_MISUSE;
    if (connection->stopped != 0)
        return connection->stopped;
    int answer = summarystore_held_has(&connection->held, (const byte *)name, length, value, from, to, &found);
    if (answer == SUMMARYSTORE_DONE)
        *presence = (int)found;
    return done(connection, answer);
}

int summarystore_last(summarystore *connection, const char *name, size_t length, summarystore_newest *newest)
{
    if (connection == NULL || !is_name(name, length) || newest == NULL)
        return SUMMARYSTORE_MISUSE;
    if (connection->stopped != 0)
        return connection->stopped;
    return done(connection, summarystore_held_last(&connection->held, (const byte *)name, length, newest));
}

int summarystore_streams(summarystore *connection, size_t *count)
{
    if (connection == NULL || count == NULL)
        return SUMMARYSTORE_MISUSE;
    if (connection->stopped != 0)
        return connection->stopped;
    return done(connection, summarystore_held_streams(&connection->held, count));
}

const char *summarystore_refusal(int answer)
{
    static const char *const words[] = {"LINE", "SYNTAX", "NUMBER", "NAME", "PARAM", "EXISTS", "STREAMS", "UNKNOWN", "OPEN",
        "NOT_OPEN", "TIME", "RANGE", "STREAM_FULL", "STORE_FULL", "BUSY", "NO_CURSOR", "FRAME"};
    if (answer < SUMMARYSTORE_REFUSED || answer >= SUMMARYSTORE_REFUSED + (int)(sizeof words / sizeof *words))
        return "";
    return words[answer - SUMMARYSTORE_REFUSED];
}

const char *summarystore_version(void)
{
    return SUMMARYSTORE_VERSION;
}
