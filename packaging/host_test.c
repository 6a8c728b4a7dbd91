/* Compares each function of host.c, which is compiled with HOST(name) as own_name, with that of the toolchain: both are called with
 * the same, and have to answer the same. Called with other words, it compares what both say of these words. */
#include <errno.h>
#include <stdbool.h>
#include <stddef.h>
#include <stdint.h>
#include <stdio.h>
#include <stdlib.h>
#include <string.h>

struct tried {
    bool ok;
    unsigned char *p;
};

#define BOTH(type, name, ...) type rattle_##name(__VA_ARGS__); type own_##name(__VA_ARGS__);
BOTH(struct tried, alloc, size_t, size_t)
BOTH(struct tried, realloc, void *, size_t, size_t, size_t)
BOTH(void, dealloc, void *)
BOTH(int32_t, errno, void)
BOTH(void, set_errno, int32_t)
BOTH(size_t, arg_count, void)
BOTH(ptrdiff_t, arg, size_t, unsigned char *, size_t)

static int failed;

static void judge(bool holds, const char *what, size_t at)
{
    if (!holds) {
        failed++;
        printf("host_test: %s differs at %zu\n", what, at);
    }
}

/* Whether a block is there, is aligned and takes its bytes. Where there is none, p is a place, too. */
static bool is_block(struct tried t, size_t size, size_t align)
{
    if (t.ok && (uintptr_t)t.p % align == 0)
        memset(t.p, 7, size);
    return t.p != NULL && (!t.ok || (uintptr_t)t.p % align == 0);
}

static void try_memory(void)
{
    const size_t sizes[] = {0, 1, 7, 16, 100, 4096, 1 << 20, (size_t)1 << 62, ((size_t)1 << 63) - 1};
    for (size_t n = 0; n < sizeof sizes / sizeof *sizes; n++)
        for (size_t align = 1; align <= 16; align *= 2) {
            struct tried theirs = rattle_alloc(sizes[n], align), ours = own_alloc(sizes[n], align);
            judge(theirs.ok == ours.ok && is_block(theirs, sizes[n], align) && is_block(ours, sizes[n], align), "alloc", n);
            judge(ours.ok == (sizes[n] < (size_t)1 << 40), "alloc, and whether there is room,", n);
            if (theirs.ok) rattle_dealloc(theirs.p);
            if (ours.ok) own_dealloc(ours.p);
        }
}

static bool keeps(const unsigned char *p, size_t count)
{
    for (size_t i = 0; i < count; i++)
        if (p[i] != 7) return false;
    return true;
}

static void try_growth(void)
{
    const size_t sizes[] = {0, 1, 100, 5000, 1 << 20, (size_t)1 << 62};
    for (size_t n = 0; n < sizeof sizes / sizeof *sizes; n++) {
        struct tried theirs = rattle_alloc(100, 8), ours = own_alloc(100, 8);
        memset(theirs.p, 7, 100);
        memset(ours.p, 7, 100);
        size_t kept = sizes[n] < 100 ? sizes[n] : 100;
        struct tried more = rattle_realloc(theirs.p, kept, sizes[n], 8), own = own_realloc(ours.p, kept, sizes[n], 8);
        judge(more.ok == own.ok && keeps(more.ok ? more.p : theirs.p, kept) && keeps(own.ok ? own.p : ours.p, kept), "realloc", n);
        rattle_dealloc(more.ok ? more.p : theirs.p);
        own_dealloc(own.ok ? own.p : ours.p);
    }
}

static void try_errors(void)
{
    const int32_t numbers[] = {0, 1, EINVAL, 133, INT32_MAX, -1, INT32_MIN};
    for (size_t n = 0; n < sizeof numbers / sizeof *numbers; n++) {
        own_set_errno(numbers[n]);
        judge(rattle_errno() == numbers[n] && own_errno() == numbers[n], "set_errno", n);
        rattle_set_errno(~numbers[n]);
        judge(own_errno() == ~numbers[n] && errno == ~numbers[n], "errno", n);
    }
}

/* Each word, and two more, in each room from none to two bytes more than it takes. */
static void try_words(int argc, char **argv)
{
    judge(own_arg_count() == rattle_arg_count() && own_arg_count() == (size_t)argc, "arg_count", 0);
    for (size_t i = 0; i < (size_t)argc + 2; i++) {
        size_t most = i < (size_t)argc ? strlen(argv[i]) + 2 : 2;
        unsigned char *theirs = malloc(most + 1), *ours = malloc(most + 1);
        for (size_t room = 0; room <= most; room++) {
            memset(theirs, 9, most + 1);
            memset(ours, 9, most + 1);
            judge(rattle_arg(i, theirs, room) == own_arg(i, ours, room) && memcmp(theirs, ours, most + 1) == 0, "arg", i);
        }
        free(theirs);
        free(ours);
    }
    judge(own_arg(SIZE_MAX, NULL, 0) == rattle_arg(SIZE_MAX, NULL, 0), "arg past all", 0);
}

int main(int argc, char **argv)
{
    try_memory();
    try_growth();
    try_errors();
    try_words(argc, argv);
    return failed > 0;
}
