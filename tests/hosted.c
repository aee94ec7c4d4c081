/* Calls each function of the host's part of the program at its edges, and writes the name of each check that holds.
 * It ends with status 1 at the first that doesn't. */
#include "../release/host.c"
#include <fcntl.h>
#include <malloc.h>
#include <pthread.h>
#include <stdio.h>
#include <sys/socket.h>
#include <unistd.h>

static void holds(const char *name, bool it)
{
    printf("%s %s\n", it ? "ok" : "FAILED", name);
    if (!it)
        exit(1);
}

static void of_arguments(void)
{
    enum { LONG = 200000 };
    static char word[LONG + 1], copy[LONG + 1], odd[] = "\xff\xfe\xc3";
    memset(word, 'w', LONG);
    char *words[] = {"name", "", word, odd, NULL};
    keep_arguments(4, words);
    holds("the name", rattle_arg(0, copy, LONG) == 4 && memcmp(copy, "name", 4) == 0);
    holds("an empty argument", rattle_arg(1, copy, LONG) == 0);
    holds("an empty argument without room", rattle_arg(1, NULL, 0) == 0);
    holds("a long argument, one byte short of room", rattle_arg(2, copy, LONG - 1) == -2);
    copy[LONG] = '!';
    holds("a long argument", rattle_arg(2, copy, LONG) == LONG && memcmp(copy, word, LONG) == 0 && copy[LONG] == '!');
    holds("an argument that is no UTF-8", rattle_arg(3, copy, 3) == 3 && memcmp(copy, odd, 3) == 0);
    holds("no argument at the end", rattle_arg(4, copy, LONG) == -1);
    holds("no argument far off", rattle_arg(UINT64_MAX, copy, LONG) == -1);
    char *none[] = {NULL};
    keep_arguments(0, none);
    holds("no arguments", rattle_arg(0, copy, LONG) == -1);
    keep_arguments(1, none);
    holds("an argument that is missing", rattle_arg(0, copy, LONG) == -1);
}

static bool is_aligned(void *at, uint64_t align)
{
    return (uintptr_t)at % align == 0;
}

/* the first bytes are the numbers from 0 on */
static bool counts(const unsigned char *at, size_t length)
{
    for (size_t i = 0; i < length; i++)
        if (at[i] != i % 251)
            return false;
    return true;
}

static void count(unsigned char *at, size_t length)
{
    for (size_t i = 0; i < length; i++)
        at[i] = i % 251;
}

static void of_memory(uint64_t align)
{
    enum { MANY = 100 };
    struct made made[MANY];
    bool all_made = true, all_aligned = true, all_kept = true, all_apart = true;
    for (int i = 0; i < MANY; i++) {
        made[i] = rattle_alloc(i, align);
        all_made = all_made && made[i].is_made == 1;
        all_aligned = all_aligned && is_aligned(made[i].at, align);
        count(made[i].at, i);
        for (int j = 0; j < i; j++)
            all_apart = all_apart && made[i].at != made[j].at;
    }
    holds("memory is made", all_made);
    holds("memory is aligned", all_aligned);
    holds("each has an address of its own, that of nothing too", all_apart);
    for (int i = 0; i < MANY; i++) {
        size_t next = i % 2 ? 5000 + i : i / 2;
        made[i] = rattle_realloc(made[i].at, i, next, align);
        all_made = all_made && made[i].is_made == 1;
        all_aligned = all_aligned && is_aligned(made[i].at, align);
        all_kept = all_kept && counts(made[i].at, next < (size_t)i ? next : (size_t)i);
        memset(made[i].at, 0, next);
    }
    holds("memory grows and shrinks", all_made);
    holds("memory that grew is aligned", all_aligned);
    holds("what both reach is kept", all_kept);
    for (int i = 0; i < MANY; i++)
        rattle_dealloc(made[i].at);

    struct made one = rattle_alloc(64, align);
    count(one.at, 64);
    for (uint64_t size = UINT64_MAX; size > (UINT64_MAX >> 2); size /= 2) {
        struct made none = rattle_alloc(size, align);
        holds("too much is refused", none.is_made == 0 && none.at != NULL);
        none = rattle_realloc(one.at, 64, size, align);
        holds("to grow too much is refused", none.is_made == 0 && none.at != NULL);
        holds("what was there stays", counts(one.at, 64));
    }
    rattle_dealloc(one.at);
}

static size_t bytes_in_use(void)
{
    struct mallinfo2 info = mallinfo2();
    return info.uordblks + info.hblkhd;
}

/* what grows leaves nothing behind: of 64 blocks of 1 MB one is in use at a time, and then none */
static void of_growth(uint64_t align)
{
    enum { MEGABYTE = 1000000 };
    size_t before = bytes_in_use();
    struct made made = rattle_alloc(MEGABYTE, align);
    for (int i = 1; i <= 64; i++)
        made = rattle_realloc(made.at, MEGABYTE + i - 1, MEGABYTE + i, align);
    rattle_dealloc(made.at);
    holds("what grew came back", bytes_in_use() < before + MEGABYTE);
}

static void *set_elsewhere(void *unused)
{
    rattle_set_errno(7);
    return unused;
}

static void of_errors(void)
{
    rattle_set_errno(EAGAIN);
    holds("an error that was set", rattle_errno() == EAGAIN && errno == EAGAIN);
    pthread_t thread;
    pthread_create(&thread, NULL, set_elsewhere, NULL);
    pthread_join(thread, NULL);
    holds("another thread has its own", rattle_errno() == EAGAIN);
    close(-1);
    holds("that of a call", rattle_errno() == EBADF);
}

static void of_sockets(void)
{
    int ends[2];
    socketpair(AF_UNIX, SOCK_STREAM, 0, ends);
    holds("a socket that doesn't block", rattle_set_nonblocking(ends[0], true) == 0 && fcntl(ends[0], F_GETFL) & O_NONBLOCK);
    char byte;
    holds("returns at once", read(ends[0], &byte, 1) == -1 && rattle_errno() == EAGAIN);
    holds("the other end waits", !(fcntl(ends[1], F_GETFL) & O_NONBLOCK));
    holds("it waits again", rattle_set_nonblocking(ends[0], false) == 0 && !(fcntl(ends[0], F_GETFL) & O_NONBLOCK));
    holds("no socket", rattle_set_nonblocking(-1, true) == -1 && rattle_errno() == EBADF);
}

static void of_waits(void)
{
    enum { PAIRS = 3 };
    int set = epoll_create1(EPOLL_CLOEXEC), ends[PAIRS][2];
    struct ready found[PAIRS + 1];
    memset(found, 0x55, sizeof found);
    for (int i = 0; i < PAIRS; i++) {
        socketpair(AF_UNIX, SOCK_STREAM, 0, ends[i]);
        holds("one more to wait for", rattle_epoll_ctl(set, EPOLL_CTL_ADD, ends[i][0], EPOLLIN | EPOLLET, UINT64_MAX - i) == 0);
    }
    holds("nothing is ready", rattle_epoll_wait(set, found, PAIRS, 0) == 0);
    for (int i = 0; i < PAIRS; i++)
        holds("a byte is sent", write(ends[i][1], "x", 1) == 1);
    holds("all are ready", rattle_epoll_wait(set, found, PAIRS + 1, -1) == PAIRS);
    uint64_t sum = 0;
    for (int i = 0; i < PAIRS; i++) {
        holds("there is something to read", found[i].events == EPOLLIN);
        sum += UINT64_MAX - found[i].data;
    }
    holds("each with its number", sum == 0 + 1 + 2);
    holds("nothing is put behind them", found[PAIRS].data == 0x5555555555555555);
    for (int i = 0; i < PAIRS; i++)
        holds("one more byte is sent", write(ends[i][1], "x", 1) == 1);
    holds("no more than there is room for", rattle_epoll_wait(set, found, 1, -1) == 1);
    holds("the others come next", rattle_epoll_wait(set, found, PAIRS, -1) == PAIRS - 1);
    holds("one less to wait for", rattle_epoll_ctl(set, EPOLL_CTL_DEL, ends[0][0], 0, 0) == 0);
    holds("it isn't there", rattle_epoll_ctl(set, EPOLL_CTL_DEL, ends[0][0], 0, 0) == -1 && rattle_errno() == ENOENT);
    holds("no room", rattle_epoll_wait(set, found, 0, 0) == -1 && rattle_errno() == EINVAL);
    holds("no set", rattle_epoll_wait(-1, found, 1, 0) == -1 && rattle_errno() == EBADF);
}

int main(int count_of, char **words)
{
    /* before anything else: what the process was started with, as the program asks for it */
    char copy[8];
    holds("the process's own arguments",
          argument_count == count_of && rattle_arg(count_of - 1, copy, 8) == (int64_t)strlen(words[count_of - 1]) &&
              memcmp(copy, words[count_of - 1], strlen(words[count_of - 1])) == 0);
    of_arguments();
    of_memory(1);
    of_memory(16);
    of_memory(64);
    of_memory(4096);
    of_growth(16);
    of_growth(64);
    of_errors();
    of_sockets();
    of_waits();
    puts("all hold");
    return 0;
}
