/* Has calls of the C library fail or do a part of their work. A program that is started with this library preloaded
   asks it for memory, reads, writes, syncs and connections in place of the C library, which it hands the requests on
   to.

   FAULT_CALL is a letter of the calls that are meant: m for memory, r for what reads, w for what writes, f for what
   writes to a file that has a name, s for what syncs, a for what accepts, b for what binds to a port, c for what
   connects. They are counted from 1 on, and FAULT_FIRST and FAULT_LAST tell the first and the last one that fails by
   the error with the number FAULT_ERROR; where that is 0 it is cut to one byte. FAULT_COUNTS is an open file of five
   numbers of eight bytes: how many such calls there were so far, how many bytes were read and written, how many syncs
   there were, and the number of the folder that was synced last. */
#define _GNU_SOURCE
#include <errno.h>
#include <stdatomic.h>
#include <stdlib.h>
#include <sys/mman.h>
#include <sys/socket.h>
#include <sys/stat.h>
#include <sys/syscall.h>
#include <unistd.h>

/* The C library's own requests, by names that no library before it takes. */
void *__libc_malloc(size_t size);
void *__libc_calloc(size_t number, size_t size);
void *__libc_realloc(void *old, size_t size);

struct counts {
    atomic_ullong calls, read, written, syncs, folder;
};

static struct counts before_start;
static struct counts *counts = &before_start;
static unsigned long long first, last;
static int error;
static char meant;

/* The number in this variable of the environment. */
static unsigned long long given(const char *name)
{
    return strtoull(getenv(name), NULL, 10);
}

__attribute__((constructor)) static void start(void)
{
    counts = mmap(NULL, sizeof *counts, PROT_READ | PROT_WRITE, MAP_SHARED, (int)given("FAULT_COUNTS"), 0);
    if (counts == MAP_FAILED)
        abort();
    first = given("FAULT_FIRST");
    last = given("FAULT_LAST");
    error = (int)given("FAULT_ERROR");
    meant = *getenv("FAULT_CALL");
}

/* Counts a call where it is meant, and tells whether it is one of those to spoil. */
static int is_spoilt(char call)
{
    if (call != meant)
        return 0;
    unsigned long long number = atomic_fetch_add(&counts->calls, 1) + 1;
    return first <= number && number <= last;
}

/* The length that a call has, or 0 where it fails. */
static size_t length_of(char call, size_t length)
{
    if (length == 0 || !is_spoilt(call))
        return length;
    errno = error;
    return error == 0 ? 1 : 0;
}

static ssize_t counted(atomic_ullong *count, ssize_t length)
{
    if (length > 0)
        atomic_fetch_add(count, (unsigned long long)length);
    return length;
}

void *malloc(size_t size)
{
    if (is_spoilt('m')) {
        errno = ENOMEM;
        return NULL;
    }
    return __libc_malloc(size);
}

void *calloc(size_t number, size_t size)
{
    if (is_spoilt('m')) {
        errno = ENOMEM;
        return NULL;
    }
    return __libc_calloc(number, size);
}

void *realloc(void *old, size_t size)
{
    if (is_spoilt('m')) {
        errno = ENOMEM;
        return NULL;
    }
    return __libc_realloc(old, size);
}

/* Whether threads wake each other by this file: it is a counter, whose eight bytes the system moves together. */
static int is_counter(int file)
{
    struct stat about;
    return fstat(file, &about) == 0 && (about.st_mode & S_IFMT) == 0;
}

ssize_t read(int file, void *room, size_t length)
{
    if (is_counter(file))
        return syscall(SYS_read, file, room, length);
    size_t some = length_of('r', length);
    if (some == 0 && length != 0)
        return -1;
    return counted(&counts->read, syscall(SYS_read, file, room, some));
}

ssize_t recv(int file, void *room, size_t length, int flags)
{
    size_t some = length_of('r', length);
    if (some == 0 && length != 0)
        return -1;
    return counted(&counts->read, syscall(SYS_recvfrom, file, room, some, flags, NULL, NULL));
}

/* Whether this is a file that has a name in a folder. */
static int is_named(int file)
{
    struct stat about;
    return fstat(file, &about) == 0 && S_ISREG(about.st_mode) && about.st_nlink > 0;
}

ssize_t write(int file, const void *bytes, size_t length)
{
    if (is_counter(file))
        return syscall(SYS_write, file, bytes, length);
    size_t some = length_of(meant == 'f' && is_named(file) ? 'f' : 'w', length);
    if (some == 0 && length != 0)
        return -1;
    return counted(&counts->written, syscall(SYS_write, file, bytes, some));
}

ssize_t __write(int file, const void *bytes, size_t length)
{
    return write(file, bytes, length);
}

ssize_t send(int file, const void *bytes, size_t length, int flags)
{
    size_t some = length_of('w', length);
    if (some == 0 && length != 0)
        return -1;
    return counted(&counts->written, syscall(SYS_sendto, file, bytes, some, flags, NULL, 0));
}

/* Has a sync done, or fail. */
static int synced(long call, int file)
{
    struct stat about;
    atomic_fetch_add(&counts->syncs, 1);
    if (fstat(file, &about) == 0 && S_ISDIR(about.st_mode))
        counts->folder = about.st_ino;
    if (is_spoilt('s')) {
        errno = error;
        return -1;
    }
    return (int)syscall(call, file);
}

int fsync(int file)
{
    return synced(SYS_fsync, file);
}

int fdatasync(int file)
{
    return synced(SYS_fdatasync, file);
}

int accept4(int file, struct sockaddr *restrict address, socklen_t *restrict length, int flags)
{
    if (is_spoilt('a')) {
        errno = error;
        return -1;
    }
    return (int)syscall(SYS_accept4, file, address, length, flags);
}

int bind(int file, const struct sockaddr *address, socklen_t length)
{
    if (is_spoilt('b')) {
        errno = error;
        return -1;
    }
    return (int)syscall(SYS_bind, file, address, length);
}

int connect(int file, const struct sockaddr *address, socklen_t length)
{
    if (is_spoilt('c')) {
        errno = error;
        return -1;
    }
    return (int)syscall(SYS_connect, file, address, length);
}
