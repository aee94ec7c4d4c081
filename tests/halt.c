/* Halts a program, so that a test may do something meanwhile. A program that is started with this library preloaded
   asks it in place of the C library, which it hands the calls on to.

   HALT_CALL is a letter: l to halt before the first lock, o to halt after the first open that found no file, s to halt
   before each sync but the first HALT_SKIP. HALT_FILE is an open socket: a byte is written to it as the program halts,
   and it goes on once one is read from it. */
#define _GNU_SOURCE
#include <errno.h>
#include <fcntl.h>
#include <stdarg.h>
#include <stdatomic.h>
#include <stdlib.h>
#include <sys/file.h>
#include <sys/syscall.h>
#include <unistd.h>

static char meant;
static int file;
static atomic_int skipped;

__attribute__((constructor)) static void start(void)
{
    meant = *getenv("HALT_CALL");
    file = atoi(getenv("HALT_FILE"));
    skipped = atoi(getenv("HALT_SKIP"));
}

/* Halts where this call is meant; at a lock and an open never again. */
static void halt(char call)
{
    char byte = call;
    if (call != meant)
        return;
    if (call != 's')
        meant = 0;
    if (syscall(SYS_write, file, &byte, 1) != 1 || syscall(SYS_read, file, &byte, 1) != 1)
        abort();
}

int flock(int locked, int how)
{
    halt('l');
    return (int)syscall(SYS_flock, locked, how);
}

int open(const char *path, int how, ...)
{
    va_list more;
    va_start(more, how);
    int opened = (int)syscall(SYS_openat, AT_FDCWD, path, how, how & O_CREAT ? va_arg(more, mode_t) : 0);
    va_end(more);
    if (opened == -1 && errno == ENOENT) {
        halt('o');
        errno = ENOENT;
    }
    return opened;
}

/* Has a sync done, once it may go on. */
static int synced(long call, int which)
{
    if (meant == 's' && atomic_fetch_sub(&skipped, 1) <= 0)
        halt('s');
    return (int)syscall(call, which);
}

int fsync(int which)
{
    return synced(SYS_fsync, which);
}

int fdatasync(int which)
{
    return synced(SYS_fdatasync, which);
}
