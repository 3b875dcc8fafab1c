/* Preloaded into a program, it refuses growths of memory, and fails reads and writes, as the environment says:

   FAULT_GROWTH=N    the N-th growth is refused
   FAULT_GROWTHS=N   the N-th growth and each later one is refused
   FAULT_READ=N      the N-th read of standard input fails, or answers as if nothing were left
   FAULT_WRITE=N     the N-th write to standard output fails, or takes no byte
   FAULT_ANSWER=W    the read or write that is named answers so: "fail" or "nothing"
   FAULT_PIECE=K     each read and write moves K bytes at most
   FAULT_REPORT=FD   each fault that is met writes a byte to this file

   A growth is a call of malloc, calloc, realloc, posix_memalign or aligned_alloc, of the program, of its threads or of the
   C library. Growths are counted from the first to the last of the process. */
#define _GNU_SOURCE
#include <errno.h>
#include <stdatomic.h>
#include <stddef.h>
#include <stdlib.h>
#include <string.h>
#include <sys/syscall.h>
#include <unistd.h>

/* what malloc and its like are in the GNU C library */
extern void *__libc_malloc(size_t);
extern void *__libc_calloc(size_t, size_t);
extern void *__libc_realloc(void *, size_t);
extern void *__libc_memalign(size_t, size_t);

static unsigned long one_growth, first_growth, one_read, one_write, piece;
static int answers_nothing, report = -1;
static atomic_ulong growths, reads, writes;

static unsigned long number(const char *name)
{
    const char *text = getenv(name);
    return text ? strtoul(text, NULL, 10) : 0;
}

__attribute__((constructor)) static void read_environment(void)
{
    const char *answer = getenv("FAULT_ANSWER");
    one_growth = number("FAULT_GROWTH");
    first_growth = number("FAULT_GROWTHS");
    one_read = number("FAULT_READ");
    one_write = number("FAULT_WRITE");
    piece = number("FAULT_PIECE");
    answers_nothing = answer && strcmp(answer, "nothing") == 0;
    report = getenv("FAULT_REPORT") ? (int)number("FAULT_REPORT") : -1;
    atomic_store(&growths, 0);
}

static void tell(void)
{
    int kept = errno;
    if (report >= 0)
        syscall(SYS_write, report, "!", 1);
    errno = kept;
}

static int refuses(void)
{
    unsigned long count = atomic_fetch_add(&growths, 1) + 1;
    if (count == one_growth || (first_growth && count >= first_growth)) {
        tell();
        errno = ENOMEM;
        return 1;
    }
    return 0;
}

void *malloc(size_t size)
{
    return refuses() ? NULL : __libc_malloc(size);
}

void *calloc(size_t count, size_t size)
{
    return refuses() ? NULL : __libc_calloc(count, size);
}

void *realloc(void *place, size_t size)
{
    return refuses() ? NULL : __libc_realloc(place, size);
}

void *aligned_alloc(size_t alignment, size_t size)
{
    return refuses() ? NULL : __libc_memalign(alignment, size);
}

int posix_memalign(void **place, size_t alignment, size_t size)
{
    void *made = refuses() ? NULL : __libc_memalign(alignment, size);
    if (!made)
        return ENOMEM;
    *place = made;
    return 0;
}

static ssize_t failed(void)
{
    tell();
    if (answers_nothing)
        return 0;
    errno = EIO;
    return -1;
}

static size_t at_most(size_t size)
{
    return piece && piece < size ? piece : size;
}

ssize_t read(int file, void *buffer, size_t size)
{
    if (file != STDIN_FILENO)
        return syscall(SYS_read, file, buffer, size);
    if (atomic_fetch_add(&reads, 1) + 1 == one_read)
        return failed();
    return syscall(SYS_read, file, buffer, at_most(size));
}

ssize_t write(int file, const void *bytes, size_t size)
{
    if (file != STDOUT_FILENO)
        return syscall(SYS_write, file, bytes, size);
    if (atomic_fetch_add(&writes, 1) + 1 == one_write)
        return failed();
    return syscall(SYS_write, file, bytes, at_most(size));
}
