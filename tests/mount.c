/* Has a path lead to another device, to the file of the same number there. A program that is started with this library
   preloaded asks it what a path leads to in place of the C library. MOUNT_PATH is the path. */
#define _GNU_SOURCE
#include <stdlib.h>
#include <string.h>
#include <sys/stat.h>
#include <sys/syscall.h>
#include <unistd.h>

int statx(int folder, const char *restrict path, int how, unsigned asked, struct statx *restrict about)
{
    int status = (int)syscall(SYS_statx, folder, path, how, asked, about);
    if (status == 0 && strcmp(path, getenv("MOUNT_PATH")) == 0)
        about->stx_dev_minor ^= 1;
    return status;
}
