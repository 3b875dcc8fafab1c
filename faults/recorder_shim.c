/* Preloaded into a process that records, it has one call fail, or end the process, once `fault_arm` is called in it. Calls are counted
   in memory that a forked process shares with the one that it was forked off.

   A growth is a call of malloc, calloc, realloc, posix_memalign or aligned_alloc. What is written to standard output and to standard
   error, the program's own and the messages, is no call that fails. */
#define _GNU_SOURCE
#include <errno.h>
#include <fcntl.h>
#include <signal.h>
#include <stdarg.h>
#include <stdatomic.h>
#include <stddef.h>
#include <stdio.h>
#include <stdlib.h>
#include <sys/mman.h>
#include <sys/stat.h>
#include <sys/syscall.h>
#include <unistd.h>

extern void *__libc_malloc(size_t);
extern void *__libc_calloc(size_t, size_t);
extern void *__libc_realloc(void *, size_t);
extern void *__libc_memalign(size_t, size_t);

/* the order of the kinds is that of faults/recorder_faults.py */
enum { OPEN, WRITE, SYNC, RENAME, UNLINK, CALL, GROWTH, KINDS };

static const int errors[KINDS] = {EMFILE, ENOSPC, EIO, EACCES, EACCES, EIO, ENOMEM};

static struct {
    atomic_long counts[KINDS];
    atomic_long met;
} *shared;

static int armed = -1, kills;
static long wanted;
static struct stat output, messages;

__attribute__((constructor)) static void share(void)
{
    shared = mmap(NULL, sizeof *shared, PROT_READ | PROT_WRITE, MAP_SHARED | MAP_ANONYMOUS, -1, 0);
}

/* From here on the call of this number and kind fails, or kills the process. With the number 0 calls are only counted. */
void fault_arm(int kind, long number, int does_kill)
{
    for (int one = 0; one < KINDS; one++)
        atomic_store(&shared->counts[one], 0);
    atomic_store(&shared->met, 0);
    fstat(STDOUT_FILENO, &output);
    fstat(STDERR_FILENO, &messages);
    wanted = number;
    kills = does_kill;
    armed = kind;
}

/* From here on no call fails, and none is counted. */
void fault_disarm(void)
{
    armed = -1;
}

long fault_count(int kind)
{
    return atomic_load(&shared->counts[kind]);
}

long fault_met(void)
{
    return atomic_load(&shared->met);
}

static int meets(int kind)
{
    long count = atomic_fetch_add(&shared->counts[kind], 1) + 1;
    if (kind != armed || count != wanted)
        return 0;
    atomic_store(&shared->met, 1);
    if (kills)
        syscall(SYS_kill, getpid(), SIGKILL);
    errno = errors[kind];
    return 1;
}

static int fails(int kind)
{
    if (armed < 0)
        return 0;
    if (kind == GROWTH)
        return meets(GROWTH);
    return meets(CALL) | meets(kind);
}

void *malloc(size_t size)
{
    return fails(GROWTH) ? NULL : __libc_malloc(size);
}

void *calloc(size_t count, size_t size)
{
    return fails(GROWTH) ? NULL : __libc_calloc(count, size);
}

void *realloc(void *place, size_t size)
{
    return fails(GROWTH) ? NULL : __libc_realloc(place, size);
}

void *aligned_alloc(size_t alignment, size_t size)
{
    return fails(GROWTH) ? NULL : __libc_memalign(alignment, size);
}

int posix_memalign(void **place, size_t alignment, size_t size)
{
    void *made = fails(GROWTH) ? NULL : __libc_memalign(alignment, size);
    if (!made)
        return ENOMEM;
    *place = made;
    return 0;
}

static int opened(int folder, const char *path, int flags, mode_t mode)
{
    return fails(OPEN) ? -1 : (int)syscall(SYS_openat, folder, path, flags, mode);
}

static mode_t mode_of(int flags, va_list words)
{
    return flags & (O_CREAT | O_TMPFILE) ? va_arg(words, mode_t) : 0;
}

#define OPENS(name, first, folder)                  \
    int name(first const char *path, int flags, ...) \
    {                                               \
        va_list words;                              \
        va_start(words, flags);                     \
        mode_t mode = mode_of(flags, words);        \
        va_end(words);                              \
        return opened(folder, path, flags, mode);   \
    }
#define NOTHING
#define FOLDER int folder,

OPENS(open, NOTHING, AT_FDCWD)
OPENS(open64, NOTHING, AT_FDCWD)
OPENS(openat, FOLDER, folder)
OPENS(openat64, FOLDER, folder)

int pipe2(int files[2], int flags)
{
    return fails(OPEN) ? -1 : (int)syscall(SYS_pipe2, files, flags);
}

int epoll_create1(int flags)
{
    return fails(OPEN) ? -1 : (int)syscall(SYS_epoll_create1, flags);
}

static int is_of_program(int file)
{
    struct stat found;
    if (armed < 0 || fstat(file, &found) != 0)
        return 1;
    return (found.st_dev == output.st_dev && found.st_ino == output.st_ino) ||
           (found.st_dev == messages.st_dev && found.st_ino == messages.st_ino);
}

ssize_t write(int file, const void *bytes, size_t size)
{
    return !is_of_program(file) && fails(WRITE) ? -1 : syscall(SYS_write, file, bytes, size);
}

int fsync(int file)
{
    return fails(SYNC) ? -1 : (int)syscall(SYS_fsync, file);
}

int rename(const char *from, const char *to)
{
    return fails(RENAME) ? -1 : (int)syscall(SYS_rename, from, to);
}

int unlink(const char *path)
{
    return fails(UNLINK) ? -1 : (int)syscall(SYS_unlink, path);
}
