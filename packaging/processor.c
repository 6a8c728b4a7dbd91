/* What the program takes the system to be, held to the C library of a processor: each constant of the toolchain's `libc/src/lib.rt`
 * that C has, which stand in constants.h as SAME(NAME, VALUE), and the structs that pass between both. It doesn't compile where one
 * differs. Run, it tries what can only be seen then, and prints what differs from processor to processor. */
#define _GNU_SOURCE
#include <errno.h>
#include <fcntl.h>
#include <limits.h>
#include <poll.h>
#include <sched.h>
#include <stddef.h>
#include <stdint.h>
#include <stdio.h>
#include <string.h>
#include <sys/file.h>
#include <sys/mman.h>
#include <sys/resource.h>
#include <sys/socket.h>
#include <sys/stat.h>
#include <sys/wait.h>
#include <time.h>
#include <unistd.h>

#define SAME(name, value) _Static_assert((name) == (value), #name);
#include "constants.h"

/* The structs of the toolchain's `libc/src/types.rt` that the program passes. */
SAME(sizeof(struct timespec), 16)
SAME(offsetof(struct timespec, tv_nsec), 8)
SAME(sizeof(struct statx), 256)
SAME(offsetof(struct statx, stx_mode), 28)
SAME(offsetof(struct statx, stx_ino), 32)
SAME(offsetof(struct statx, stx_size), 40)
SAME(offsetof(struct statx, stx_btime), 80)
SAME(offsetof(struct statx, stx_rdev_major), 128)
SAME(offsetof(struct statx, stx_dev_major), 136)
SAME(offsetof(struct statx, stx_dev_minor), 140)
SAME(sizeof(void *), 8)
SAME(sizeof(off_t), 8)
SAME(sizeof(long), 8)
_Static_assert(__BYTE_ORDER__ == __ORDER_LITTLE_ENDIAN__, "the lower byte first");

/* Whether the bytes of a number may begin at any address. */
static int reads_unaligned(void)
{
    unsigned char bytes[16];
    for (int i = 0; i < 16; i++) bytes[i] = (unsigned char)i;
    for (int at = 0; at < 8; at++) {
        volatile uint64_t *p = (volatile uint64_t *)(bytes + at);
        uint64_t found = *p, wanted;
        memcpy(&wanted, bytes + at, 8);
        if (found != wanted) return 0;
    }
    return 1;
}

int main(void)
{
    printf("page %ld\n", sysconf(_SC_PAGESIZE));
    printf("reads a number at any address %d\n", reads_unaligned());
    printf("char has a sign %d\n", CHAR_MIN < 0);
    printf("struct stat %zu bytes, st_mode at %zu, st_nlink at %zu\n", sizeof(struct stat), offsetof(struct stat, st_mode), offsetof(struct stat, st_nlink));
    printf("O_DIRECTORY %#o, O_NOFOLLOW %#o, O_DIRECT %#o\n", O_DIRECTORY, O_NOFOLLOW, O_DIRECT);
    return 0;
}
