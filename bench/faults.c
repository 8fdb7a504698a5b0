/* Faults that a program meets outside of itself, for bench/outside and bench/allocations.
 *
 *   cc -shared -fPIC -O2 -o faults.so faults.c
 *   LD_PRELOAD=faults.so FAULT=VALUE PROGRAM ..
 *
 * FAIL_ALLOC=N       the Nth call for memory gives none, and the file MARK_FILE is made then
 * INTERRUPT=N        N of N + 1 calls of read and write are interrupted, and move nothing
 * READ_AT_MOST=N     a read gives at most N bytes
 * WRITE_AT_MOST=N    a write takes at most N bytes
 */
#define _GNU_SOURCE
#include <errno.h>
#include <fcntl.h>
#include <stddef.h>
#include <stdlib.h>
#include <sys/syscall.h>
#include <unistd.h>

extern void *__libc_malloc(size_t);
extern void *__libc_calloc(size_t, size_t);
extern void *__libc_realloc(void *, size_t);
extern void *__libc_memalign(size_t, size_t);

static long failing, calls, interruptions, most_read, most_write;
static const char *mark;

static long number(const char *name)
{
    const char *text = getenv(name);
    return text ? atol(text) : 0;
}

__attribute__((constructor)) static void begin(void)
{
    failing = number("FAIL_ALLOC");
    interruptions = number("INTERRUPT");
    most_read = number("READ_AT_MOST");
    most_write = number("WRITE_AT_MOST");
    mark = getenv("MARK_FILE");
}

/* Whether this call for memory is the one that fails */
static int fails(void)
{
    if (!failing || __atomic_add_fetch(&calls, 1, __ATOMIC_SEQ_CST) != failing)
        return 0;
    if (mark)
        close(open(mark, O_WRONLY | O_CREAT, 0644));
    errno = ENOMEM;
    return 1;
}

void *malloc(size_t size) { return fails() ? NULL : __libc_malloc(size); }

void *calloc(size_t count, size_t size) { return fails() ? NULL : __libc_calloc(count, size); }

void *realloc(void *old, size_t size) { return fails() ? NULL : __libc_realloc(old, size); }

void *memalign(size_t alignment, size_t size) { return fails() ? NULL : __libc_memalign(alignment, size); }

void *aligned_alloc(size_t alignment, size_t size) { return fails() ? NULL : __libc_memalign(alignment, size); }

int posix_memalign(void **place, size_t alignment, size_t size)
{
    if (fails())
        return ENOMEM;
    *place = __libc_memalign(alignment, size);
    return *place ? 0 : ENOMEM;
}

/* Whether this call is interrupted */
static int interrupted(void)
{
    static long passed;
    if (interruptions && passed++ % (interruptions + 1) != interruptions) {
        errno = EINTR;
        return 1;
    }
    return 0;
}

static size_t least(size_t size, long most) { return most && size > (size_t)most ? (size_t)most : size; }

ssize_t read(int file, void *bytes, size_t size)
{
    return interrupted() ? -1 : syscall(SYS_read, file, bytes, least(size, most_read));
}

ssize_t write(int file, const void *bytes, size_t size)
{
    return interrupted() ? -1 : syscall(SYS_write, file, bytes, least(size, most_write));
}
