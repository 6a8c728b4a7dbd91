/* The file of a store. No proof covers this: it is trusted to do to the file what the proved library says, in that order. */
#define _DEFAULT_SOURCE
#include "file.h"

#include "../../include/summarystore.h"

#include <errno.h>
#include <fcntl.h>
#include <limits.h>
#include <stdio.h>
#include <stdlib.h>
#include <string.h>
#include <sys/file.h>
#include <sys/stat.h>
#include <unistd.h>

/* Room for the words of a reason. */
struct told {
    const char *path;
    char *message;
    size_t room;
};

/* Puts the words into the message, with the path before them, and the system's reason behind them where there is one. */
static int says(struct told told, int status, const char *words, int reason)
{
    if (reason != 0)
        snprintf(told.message, told.room, "%s: %s [%s]", told.path, words, strerror(reason));
    else
        snprintf(told.message, told.room, "%s: %s", told.path, words);
    return status;
}

/* The same of a call that failed. */
static int fails(struct told told, const char *words)
{
    int reason = errno;
    return says(told, SUMMARYSTORE_DISK_FAULT, reason == ENOSPC || reason == EDQUOT ? "no space left on the device" : words, reason);
}

/* The same of a path that can't be looked at, or a file that can't be opened. */
static int is_unreachable(struct told told)
{
    if (errno == ENOENT || errno == ENOTDIR)
        return fails(told, "no such folder");
    return fails(told, errno == EACCES || errno == EPERM ? "may not be read" : "can't be opened");
}

/* Fails where this isn't a regular file: to open a pipe or a device might wait, or do something. */
static int require_regular(struct told told, mode_t mode)
{
    if (S_ISREG(mode))
        return 0;
    return says(told, SUMMARYSTORE_DISK_FAULT, S_ISDIR(mode) ? "is a folder" : S_ISFIFO(mode) ? "is a pipe"
                : S_ISSOCK(mode) ? "is a socket" : "is a device", 0);
}

/* Opens a path. A standard stream that the process has closed isn't stood in for: what is meant for it would go into the file. */
static int opens(const char *path, int how)
{
    int descriptor;
    do
        descriptor = open(path, how | O_CLOEXEC, 0666);
    while (descriptor < 0 && errno == EINTR);
    if (descriptor >= 0 && descriptor <= STDERR_FILENO) {
        int higher = fcntl(descriptor, F_DUPFD_CLOEXEC, STDERR_FILENO + 1);
        int reason = errno;
        close(descriptor);
        errno = reason;
        return higher;
    }
    return descriptor;
}

/* Whether an error says that a file may not be written. */
static int may_be_readable(int reason)
{
    return reason == EACCES || reason == EPERM || reason == EROFS;
}

/* Puts the folder of a path into the room, '.' where it names none. */
static void folder_of(const char *path, char folder[PATH_MAX])
{
    const char *end = strrchr(path, '/');
    size_t length = end == NULL ? 0 : end == path ? 1 : (size_t)(end - path);
    memcpy(folder, length > 0 ? path : ".", length > 0 ? length : 1);
    folder[length > 0 ? length : 1] = 0;
}

/* Why there is no file, where none may be made. */
static int is_missing(struct told told)
{
    char folder[PATH_MAX];
    struct stat found;
    folder_of(told.path, folder);
    return stat(folder, &found) != 0 ? is_unreachable(told) : says(told, SUMMARYSTORE_DISK_FAULT, "no such file", 0);
}

/* Opens the file to be read alone. */
static int open_to_read(struct file *file, struct told told, const char *words)
{
    int reason = errno;
    file->descriptor = opens(told.path, O_RDONLY);
    file->is_read_only = 1;
    if (file->descriptor >= 0)
        return 0;
    if (errno != ENOENT)
        return is_unreachable(told);
    errno = reason;
    return words == NULL ? is_missing(told) : fails(told, words);
}

/* Opens the file as the flags say, and makes it where it is missing and they allow it. One that may only be read is opened so. */
static int open_as(struct file *file, unsigned flags, struct told told)
{
    struct stat found;
    int is_there = stat(told.path, &found) == 0;
    if (!is_there && errno != ENOENT)
        return is_unreachable(told);
    if (is_there && require_regular(told, found.st_mode) != 0)
        return SUMMARYSTORE_DISK_FAULT;
    if (!is_there && (flags & (SUMMARYSTORE_EXISTING | SUMMARYSTORE_LOOK)) != 0)
        return is_missing(told);
    if ((flags & SUMMARYSTORE_LOOK) != 0)
        return open_to_read(file, told, NULL);
    if (!is_there)
        file->descriptor = opens(told.path, O_RDWR | O_CREAT | O_EXCL);
    if (is_there || (file->descriptor < 0 && errno == EEXIST))
        file->descriptor = opens(told.path, O_RDWR);
    if (file->descriptor >= 0)
        return 0;
    return may_be_readable(errno) ? open_to_read(file, told, is_there ? NULL : "may not be made") : is_unreachable(told);
}

/* Fails where a standard stream goes into the open file. */
static int require_apart(const struct stat *file, struct told told)
{
    struct stat stream;
    if (fstat(STDERR_FILENO, &stream) == 0 && stream.st_dev == file->st_dev && stream.st_ino == file->st_ino)
        return says(told, SUMMARYSTORE_DISK_FAULT, "standard error goes into it", 0);
    if (fstat(STDOUT_FILENO, &stream) == 0 && stream.st_dev == file->st_dev && stream.st_ino == file->st_ino)
        return says(told, SUMMARYSTORE_DISK_FAULT, "standard output goes into it", 0);
    return 0;
}

/* Locks the open file, shared where it is only read, and doesn't wait for it. */
static int lock(struct file *file, struct told told)
{
    int locked;
    do
        locked = flock(file->descriptor, (file->is_read_only ? LOCK_SH : LOCK_EX) | LOCK_NB);
    while (locked != 0 && errno == EINTR);
    if (locked == 0)
        return 0;
    return errno == EWOULDBLOCK ? says(told, SUMMARYSTORE_BUSY, "another process uses it", 0) : fails(told, "can't be locked");
}

/* Makes a call that syncs, and makes it again where a signal came in between. */
static int syncs(int (*sync)(int), int descriptor)
{
    int synced;
    do
        synced = sync(descriptor);
    while (synced != 0 && errno == EINTR);
    return synced;
}

/* Makes durable what an earlier process left of the file, and then its name, in the folder where it really lies. A file that may only be
 * read may lie where nothing can be synced. */
static int settle(const struct file *file, struct told told)
{
    char real[PATH_MAX], folder[PATH_MAX];
    int descriptor, synced;
    if (syncs(fsync, file->descriptor) != 0 && !(file->is_read_only && (errno == EINVAL || errno == EROFS)))
        return fails(told, "a sync failed");
    if (file->is_read_only)
        return 0;
    if (realpath(told.path, real) == NULL)
        return fails(told, "its folder can't be opened");
    folder_of(real, folder);
    descriptor = opens(folder, O_RDONLY | O_DIRECTORY);
    if (descriptor < 0)
        return fails(told, "its folder can't be opened");
    synced = syncs(fsync, descriptor) == 0 ? 0 : fails(told, "a sync failed");
    close(descriptor);
    return synced;
}

/* Reads so many bytes, the whole of the file. */
static int read_whole(const struct file *file, unsigned char *bytes, size_t length, struct told told)
{
    size_t count = 0;
    while (count < length) {
        ssize_t more = pread(file->descriptor, bytes + count, length - count, (off_t)count);
        if (more < 0 && errno == EINTR)
            continue;
        if (more <= 0) {
            errno = more == 0 ? EIO : errno;
            return fails(told, "a read failed");
        }
        count += (size_t)more;
    }
    return 0;
}

/* Sees to it that the open file is what it has to be, locks it, makes it durable and reads it. */
static int begin(struct file *file, unsigned char **bytes, size_t *length, struct told told)
{
    struct stat found;
    int status;
    if (fstat(file->descriptor, &found) != 0)
        return fails(told, "can't be opened");
    status = require_apart(&found, told);
    status = status != 0 ? status : lock(file, told);
    status = status != 0 ? status : require_regular(told, found.st_mode);
    status = status != 0 ? status : settle(file, told);
    if (status != 0)
        return status;
    if (fstat(file->descriptor, &found) != 0)
        return fails(told, "a read failed");
    *length = (size_t)found.st_size;
    *bytes = malloc(*length > 0 ? *length : 1);
    if (*bytes == NULL)
        return says(told, SUMMARYSTORE_OUT_OF_MEMORY, "no memory for what it holds", 0);
    return read_whole(file, *bytes, *length, told);
}

int file_open(struct file *file, const char *path, unsigned flags, unsigned char **bytes, size_t *length, char *message, size_t room)
{
    struct told told = {path, message, room};
    int status;
    *file = (struct file){-1, 0};
    if (path[0] == 0) {
        snprintf(message, room, "the store has no name");
        return SUMMARYSTORE_DISK_FAULT;
    }
    status = open_as(file, flags, told);
    return status != 0 ? status : begin(file, bytes, length, told);
}

int file_write(struct file *file, uint64_t at, const unsigned char *bytes, size_t count, const char *path, char *message, size_t room)
{
    struct told told = {path, message, room};
    size_t written = 0;
    if (file->is_read_only)
        return says(told, SUMMARYSTORE_DISK_FAULT, "may only be read", 0);
    while (written < count) {
        ssize_t more = pwrite(file->descriptor, bytes + written, count - written, (off_t)(at + written));
        if (more < 0 && errno == EINTR)
            continue;
        if (more <= 0) {
            errno = more == 0 ? EIO : errno;
            return fails(told, "a write failed");
        }
        written += (size_t)more;
    }
    return 0;
}

int file_sync(struct file *file, const char *path, char *message, size_t room)
{
    struct told told = {path, message, room};
    return syncs(fdatasync, file->descriptor) == 0 ? 0 : fails(told, "a sync failed");
}

void file_close(struct file *file)
{
    if (file->descriptor < 0)
        return;
    flock(file->descriptor, LOCK_UN);
    close(file->descriptor);
    file->descriptor = -1;
}
