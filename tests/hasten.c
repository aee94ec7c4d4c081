/* Makes long waits short. A program that is started with this library preloaded waits for what a connection sends or
   takes a tenth of the time that it asks for, where that is 20 seconds or more, and a sixtieth from two minutes on;
   with HASTEN_TEN in its environment a quarter from ten seconds on. Shorter waits stay. */
#define _GNU_SOURCE
#include <stdlib.h>
#include <sys/socket.h>
#include <sys/syscall.h>
#include <sys/time.h>
#include <unistd.h>

/* How many times shorter a wait of so many seconds is. */
static long long haste(long long seconds)
{
    return seconds >= 120 ? 60 : seconds >= 20 ? 10 : seconds >= 10 && getenv("HASTEN_TEN") ? 4 : 1;
}

int setsockopt(int socket, int level, int name, const void *value, socklen_t size)
{
    struct timeval shorter;
    if (level == SOL_SOCKET && (name == SO_RCVTIMEO || name == SO_SNDTIMEO) && size == sizeof shorter) {
        const struct timeval *asked = value;
        long long all = (asked->tv_sec * 1000000LL + asked->tv_usec) / haste(asked->tv_sec);
        shorter.tv_sec = all / 1000000;
        shorter.tv_usec = all % 1000000;
        value = &shorter;
    }
    return (int)syscall(SYS_setsockopt, socket, level, name, value, size);
}
