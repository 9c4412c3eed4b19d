// Stands between a program and its memory, preloaded by bench/fail_alloc, which compiles it. No crate is linked with it. The
// program's allocator asks by malloc and realloc, and the C library by calloc where it starts a thread.
//
// ALLOC_FAILS=N       the Nth of these calls of the process fails
// ALLOC_TOLD=FILE     it makes this file then, so that it is known whether there were so many
#include <errno.h>
#include <fcntl.h>
#include <stdatomic.h>
#include <stdlib.h>
#include <unistd.h>

// The C library's own, by the names that glibc has for them: to look them up would take memory.
void *__libc_malloc(size_t size);
void *__libc_calloc(size_t count, size_t size);
void *__libc_realloc(void *old, size_t size);

static atomic_long made; // so many calls were made

// Counts a call, and says whether it is the one that fails.
static int fails(void)
{
    const char *number = getenv("ALLOC_FAILS"), *told = getenv("ALLOC_TOLD");
    if (!number || !told || atomic_fetch_add(&made, 1) + 1 != atol(number))
        return 0;
    close(open(told, O_WRONLY | O_CREAT | O_CLOEXEC, 0600));
    errno = ENOMEM;
    return 1;
}

void *malloc(size_t size)
{
    return fails() ? NULL : __libc_malloc(size);
}

void *calloc(size_t count, size_t size)
{
    return fails() ? NULL : __libc_calloc(count, size);
}

void *realloc(void *old, size_t size)
{
    return fails() ? NULL : __libc_realloc(old, size);
}
