/* Notes the syncs and renames of a program in their order, and has one sync fail. A program that is started with this
   library preloaded asks it in place of the C library, which it hands the calls on to.

   SYNCS_NOTES is an open file. A line is written to it before each such call: `file` with the inode, the bytes and the
   rights that the synced file has by then, `folder` with the inode of a synced folder, or `rename` with the inode of
   the file that gets another name. A sync of a file's data alone is `data` instead of `file`. SYNCS_FAIL is the number
   of the sync that fails, counted from 1 on, or 0. */
#define _GNU_SOURCE
#include <errno.h>
#include <fcntl.h>
#include <stdatomic.h>
#include <stdint.h>
#include <stdio.h>
#include <stdlib.h>
#include <sys/stat.h>
#include <sys/syscall.h>
#include <unistd.h>

static int notes;
static atomic_int left;

__attribute__((constructor)) static void start(void)
{
    notes = atoi(getenv("SYNCS_NOTES"));
    left = atoi(getenv("SYNCS_FAIL"));
}

/* Has a sync done, or fail. */
static int synced(long call, int file, const char *kind)
{
    struct stat about;
    if (fstat(file, &about) != 0)
        return -1;
    if (S_ISDIR(about.st_mode))
        dprintf(notes, "folder %ju\n", (uintmax_t)about.st_ino);
    else
        dprintf(notes, "%s %ju %jd %o\n", kind, (uintmax_t)about.st_ino, (intmax_t)about.st_size, about.st_mode & 07777);
    if (atomic_fetch_sub(&left, 1) == 1) {
        errno = EIO;
        return -1;
    }
    return (int)syscall(call, file);
}

int fsync(int file)
{
    return synced(SYS_fsync, file, "file");
}

int fdatasync(int file)
{
    return synced(SYS_fdatasync, file, "data");
}

int rename(const char *old, const char *new)
{
    struct stat about;
    if (stat(old, &about) == 0)
        dprintf(notes, "rename %ju\n", (uintmax_t)about.st_ino);
    return (int)syscall(SYS_renameat, AT_FDCWD, old, AT_FDCWD, new);
}
