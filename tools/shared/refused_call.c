/* Refuses one growth, one read or one write of a program that is started with this library loaded before its own.

   The environment says which: REFUSE_GROWTH=N, REFUSE_TAKE=N or REFUSE_PUT=N, the Nth from 1. Growths are the
   calls of malloc, calloc, realloc, aligned_alloc, memalign and posix_memalign that ask for bytes; takes are
   reads of standard input, and puts writes to standard output. REFUSE_CUT=1 has each take and each put handle
   one byte at most. Where a call is refused, the byte '!' goes to the file that is open as REFUSE_TOLD. */
#define _GNU_SOURCE
#include <errno.h>
#include <stdatomic.h>
#include <stdlib.h>
#include <string.h>
#include <sys/syscall.h>
#include <sys/uio.h>
#include <unistd.h>

extern void *__libc_malloc(size_t size);
extern void *__libc_calloc(size_t count, size_t size);
extern void *__libc_realloc(void *block, size_t size);
extern void *__libc_memalign(size_t alignment, size_t size);

struct kind {
    atomic_long seen;
    long refused;
};

static struct kind growths, takes, puts;
static int cut, told = -1;

static long number_of(const char *name, long other)
{
    const char *text = getenv(name);
    return text ? atol(text) : other;
}

/* Before the program begins; growths before that are the loader's and are not counted. */
__attribute__((constructor)) static void begin(void)
{
    growths.refused = number_of("REFUSE_GROWTH", 0);
    takes.refused = number_of("REFUSE_TAKE", 0);
    puts.refused = number_of("REFUSE_PUT", 0);
    cut = number_of("REFUSE_CUT", 0) != 0;
    told = (int)number_of("REFUSE_TOLD", -1);
    atomic_store(&growths.seen, 0);
}

static int is_refused(struct kind *kind)
{
    if (atomic_fetch_add(&kind->seen, 1) + 1 != kind->refused)
        return 0;
    if (told >= 0)
        syscall(SYS_write, told, "!", 1);
    return 1;
}

static int refuses_growth(size_t size)
{
    if (size == 0 || !is_refused(&growths))
        return 0;
    errno = ENOMEM;
    return 1;
}

void *malloc(size_t size)
{
    return refuses_growth(size) ? NULL : __libc_malloc(size);
}

void *calloc(size_t count, size_t size)
{
    return refuses_growth(count && size) ? NULL : __libc_calloc(count, size);
}

void *realloc(void *block, size_t size)
{
    return refuses_growth(size) ? NULL : __libc_realloc(block, size);
}

void *memalign(size_t alignment, size_t size)
{
    return refuses_growth(size) ? NULL : __libc_memalign(alignment, size);
}

void *aligned_alloc(size_t alignment, size_t size)
{
    return memalign(alignment, size);
}

int posix_memalign(void **block, size_t alignment, size_t size)
{
    void *made = memalign(alignment, size);
    if (!made && size)
        return ENOMEM;
    *block = made;
    return 0;
}

ssize_t read(int file, void *into, size_t size)
{
    if (file == 0 && is_refused(&takes)) {
        errno = EIO;
        return -1;
    }
    return syscall(SYS_read, file, into, file == 0 && cut && size ? 1 : size);
}

ssize_t write(int file, const void *from, size_t size)
{
    if (file == 1 && is_refused(&puts)) {
        errno = EIO;
        return -1;
    }
    return syscall(SYS_write, file, from, file == 1 && cut && size ? 1 : size);
}

/* The names under which the program's own library calls them. */
ssize_t __read(int file, void *into, size_t size) __attribute__((alias("read")));
ssize_t __write(int file, const void *from, size_t size) __attribute__((alias("write")));

ssize_t writev(int file, const struct iovec *pieces, int count)
{
    for (int place = 0; place < count; place++)
        if (pieces[place].iov_len)
            return write(file, pieces[place].iov_base, pieces[place].iov_len);
    return 0;
}
