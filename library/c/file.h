/* The file of a store: what library/c/file.c does of it. */
#ifndef FILE_H
#define FILE_H

#include <stddef.h>
#include <stdint.h>

/* An open file, or -1, and whether it may only be read. */
struct file {
    int descriptor;
    int is_read_only;
};

/* Opens the file at a path, and locks it; one that is made, or that an earlier process left, is durable then, with its name. Its bytes are
 * read whole into *bytes, which the caller frees. Answers 0, or a status of the header with the words for it put into the message. */
int file_open(struct file *file, const char *path, unsigned flags, unsigned char **bytes, size_t *length, char *message, size_t room);

/* Writes all of the bytes from a place on, or syncs what was written. Answers 0, or a status with its words. */
int file_write(struct file *file, uint64_t at, const unsigned char *bytes, size_t count, const char *path, char *message, size_t room);
int file_sync(struct file *file, const char *path, char *message, size_t room);

/* Gives the lock back, also where a child of `fork` has the file open, and closes it. */
void file_close(struct file *file);

#endif
