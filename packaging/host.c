/* What the program and the library call of the system but for the C library, on processors for which the toolchain has no build of it.
 * The contracts are the toolchain's, in `libc/src/heap.rt` and `os/src/c.rt` below its folder of sources. No proof covers
 * this file: it is trusted. On x86-64 the gate compares each function with the toolchain's own. */
#include <errno.h>
#include <stdbool.h>
#include <stddef.h>
#include <stdint.h>
#include <stdlib.h>
#include <string.h>

#ifndef HOST
#define HOST(name) rattle_##name
#endif

/* Whether there is memory, and where: `Tried` of the toolchain's `libc/src/types.rt`. */
struct tried {
    bool ok;
    void *p;
};

/* A slice of bytes, as Rattle passes one: two arguments. */
typedef unsigned char byte;

static byte nothing;

static struct tried tried(void *p)
{
    return (struct tried){.ok = p != NULL, .p = p != NULL ? p : &nothing};
}

/* Memory for `size` bytes, at a multiple of `align`, which divides 16; where there is none, no memory, and a place that nobody owns. */
struct tried HOST(alloc)(size_t size, size_t align)
{
    return tried(malloc(size != 0 ? size : align));
}

/* Makes the block at `p` one of `size` bytes, the first `kept` of which stay as they were; where it fails, the block stays. */
struct tried HOST(realloc)(void *p, size_t kept, size_t size, size_t align)
{
    (void)kept;
    return tried(realloc(p, size != 0 ? size : align));
}

/* Frees what one of the two gave. */
void HOST(dealloc)(void *p)
{
    free(p);
}

/* The number of the last error of this thread. */
int32_t HOST(errno)(void)
{
    return errno;
}

/* Sets that number. */
void HOST(set_errno)(int32_t error)
{
    errno = error;
}

/* A library has none. */
#ifndef WITHOUT_ARGUMENTS

static int count;
static char **arguments;

/* glibc calls this before `main`, with what the program was called with. */
__attribute__((constructor)) static void keep_arguments(int argc, char **argv)
{
    count = argc;
    arguments = argv;
}

/* How many words the program was called with, its name among them. */
size_t HOST(arg_count)(void)
{
    return (size_t)count;
}

/* Puts word `i` at the front of the buffer, without its 0, and answers its length; -1 where there is no such word, and -2 where
 * it doesn't fit, and the buffer is full then. */
ptrdiff_t HOST(arg)(size_t i, byte *buffer, size_t room)
{
    if (i >= (size_t)count || arguments[i] == NULL)
        return -1;
    size_t length = strlen(arguments[i]);
    memcpy(buffer, arguments[i], length < room ? length : room);
    return length <= room ? (ptrdiff_t)length : -2;
}

#endif
