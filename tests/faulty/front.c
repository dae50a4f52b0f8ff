/* Loaded in front of the C library (LD_PRELOAD), or linked into a program: refuses growths of memory, and lets reads and writes
   fail, come short or be interrupted. What it does, and what it has counted, stands in a page that it shares with whoever started
   the program, or with the program itself: the file named by FRONT_PAGE, or else the file `page` in the folder where it runs.
   tests/faulty/front.py has the other side, and tests/calling. */
#define _GNU_SOURCE
#include <errno.h>
#include <fcntl.h>
#include <stdatomic.h>
#include <stdlib.h>
#include <sys/mman.h>
#include <sys/syscall.h>
#include <sys/types.h>
#include <sys/uio.h>
#include <unistd.h>

/* 0 stands for never, or for no bound. */
struct page {
    /* counted, from 1 on */
    atomic_ulong growths, reads, writes;
    /* the growth that is refused, and the first of those of which each is */
    atomic_ulong growth, growths_from;
    /* the read and the write that fail, and the first of those of which each does */
    atomic_ulong read, reads_from, write, writes_from;
    /* the most bytes of a read and of a write */
    atomic_ulong read_bytes, write_bytes;
    /* each read and write whose number this divides is interrupted before it does anything */
    atomic_ulong interrupted;
};

static struct page *page;

/* What gives the memory: the C library, or what is named when this is compiled, as AddressSanitizer is. */
#ifndef BELOW
#define BELOW(name) __libc_##name
#endif
void *BELOW(malloc)(size_t);
void *BELOW(calloc)(size_t, size_t);
void *BELOW(realloc)(void *, size_t);
void *BELOW(memalign)(size_t, size_t);

__attribute__((constructor)) static void begin(void)
{
    const char *name = getenv("FRONT_PAGE");
    int file = open(name ? name : "page", O_RDWR | O_CLOEXEC);
    if (file < 0)
        _exit(99);
    void *found = mmap(NULL, sizeof *page, PROT_READ | PROT_WRITE, MAP_SHARED, file, 0);
    if (found == MAP_FAILED)
        _exit(99);
    syscall(SYS_close, file);
    page = found;
}

/* Whether this one, which is counted, is the one that is picked, or at or behind the first of several. */
static int is_picked(atomic_ulong *counted, atomic_ulong *one, atomic_ulong *first)
{
    unsigned long number = atomic_fetch_add(counted, 1) + 1;
    unsigned long from = atomic_load(first);
    return number == atomic_load(one) || (from && number >= from);
}

static int is_refused(void)
{
    if (!page || !is_picked(&page->growths, &page->growth, &page->growths_from))
        return 0;
    errno = ENOMEM;
    return 1;
}

void *malloc(size_t size)
{
    return is_refused() ? NULL : BELOW(malloc)(size);
}

void *calloc(size_t count, size_t size)
{
    return is_refused() ? NULL : BELOW(calloc)(count, size);
}

void *realloc(void *at, size_t size)
{
    return is_refused() ? NULL : BELOW(realloc)(at, size);
}

void *memalign(size_t alignment, size_t size)
{
    return is_refused() ? NULL : BELOW(memalign)(alignment, size);
}

void *aligned_alloc(size_t alignment, size_t size)
{
    return memalign(alignment, size);
}

int posix_memalign(void **at, size_t alignment, size_t size)
{
    void *found = memalign(alignment, size);
    if (!found)
        return ENOMEM;
    *at = found;
    return 0;
}

/* Whether a read or write is to go on: else it has failed, or was interrupted. */
static int goes_on(atomic_ulong *counted, atomic_ulong *one, atomic_ulong *first)
{
    if (is_picked(counted, one, first)) {
        errno = EIO;
        return 0;
    }
    unsigned long each = atomic_load(&page->interrupted);
    if (each && atomic_load(counted) % each == 0) {
        errno = EINTR;
        return 0;
    }
    return 1;
}

static size_t at_most(size_t size, atomic_ulong *bound)
{
    unsigned long most = atomic_load(bound);
    return most && most < size ? most : size;
}

ssize_t read(int file, void *to, size_t size)
{
    if (page && !goes_on(&page->reads, &page->read, &page->reads_from))
        return -1;
    return syscall(SYS_read, file, to, page ? at_most(size, &page->read_bytes) : size);
}

ssize_t write(int file, const void *from, size_t size)
{
    if (page && !goes_on(&page->writes, &page->write, &page->writes_from))
        return -1;
    return syscall(SYS_write, file, from, page ? at_most(size, &page->write_bytes) : size);
}
