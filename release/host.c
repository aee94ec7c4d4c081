/* What the program asks of its host, besides the C library: its arguments, memory, `errno`, sockets that don't block,
 * and waits for several of them.
 *
 * The program is an object file, `sheet.o`, which the toolchain made from proved sources. It calls the nine functions
 * below by name and assumes what their comments say. They are written by hand and are not proved, so each is as small
 * as it can be. The calling convention is that of C on Linux x86-64.
 */
#include <errno.h>
#include <stdbool.h>
#include <stddef.h>
#include <stdint.h>
#include <stdlib.h>
#include <string.h>
#include <sys/epoll.h>
#include <sys/ioctl.h>

/* The arguments of the process. They never change, so any thread may read them. */
static int argument_count;
static char **arguments;

/* glibc hands each constructor what `main` gets, in a static program too. It runs before `main`, which the object has. */
__attribute__((constructor)) static void keep_arguments(int count, char **words)
{
    argument_count = count;
    arguments = words;
}

/* Copies the argument at `index` to `to`, which has room for `room` bytes, and returns its length. The copy has no zero
 * byte at its end. The result is -1 where there is no such argument, and -2 where it is longer than `room`: the caller
 * then comes again with more room. An argument may hold any bytes but zero, so nothing here asks for UTF-8.
 */
int64_t rattle_arg(uint64_t index, char *to, uint64_t room)
{
    /* a process may be started with no argument at all, not even its own name */
    if (index >= (uint64_t)argument_count || arguments[index] == NULL)
        return -1;
    size_t length = strlen(arguments[index]);
    if (length > room)
        return -2;
    /* where the length is 0, `to` may lead nowhere */
    if (length > 0)
        memcpy(to, arguments[index], length);
    return (int64_t)length;
}

/* What a request for memory came to, in two registers: 1 and the memory, or 0 and an address that nobody follows. */
struct made {
    uint64_t is_made;
    void *at;
};

/* The program holds addresses that are never null, so a refusal has one too. */
static char nothing;

static struct made made_of(void *at)
{
    return at != NULL ? (struct made){1, at} : (struct made){0, &nothing};
}

/* Is an address from `malloc` a multiple of this power of two, whatever it is? */
static bool suits_malloc(uint64_t align)
{
    return align <= _Alignof(max_align_t);
}

/* A request for nothing has an address of its own, too: it takes as many bytes as its alignment. */
static uint64_t bytes_for(uint64_t size, uint64_t align)
{
    return size > 0 ? size : align;
}

/* Gives `size` bytes at a multiple of `align`, a power of two, with any content; or refuses, and nothing has changed.
 * `malloc` aligns to 16 bytes. A larger alignment is asked of `aligned_alloc`, whose memory `free` takes as well.
 */
struct made rattle_alloc(uint64_t size, uint64_t align)
{
    uint64_t bytes = bytes_for(size, align);
    return made_of(suits_malloc(align) ? malloc(bytes) : aligned_alloc(align, bytes));
}

/* Gives `size` bytes at a multiple of `align` that begin with what the `old` bytes at `at` held, as many as both have.
 * `at` came from one of these two functions with the same alignment, and isn't used any more. After a refusal it is as
 * it was. `realloc` keeps the alignment of `malloc` alone, so a larger one is met by a copy.
 */
struct made rattle_realloc(void *at, uint64_t old, uint64_t size, uint64_t align)
{
    if (suits_malloc(align))
        return made_of(realloc(at, bytes_for(size, align)));
    struct made made = rattle_alloc(size, align);
    if (made.is_made) {
        memcpy(made.at, at, old < size ? old : size);
        free(at);
    }
    return made;
}

/* Takes back memory that came from one of the two functions above. */
void rattle_dealloc(void *at)
{
    free(at);
}

/* Gives and sets the number of the last error of this thread: `errno` is a macro, which the object can't name. */
int32_t rattle_errno(void)
{
    return errno;
}

void rattle_set_errno(int32_t number)
{
    errno = number;
}

/* Makes calls on a socket return at once, or wait again. Returns 0, or -1 and sets `errno`. */
int32_t rattle_set_nonblocking(int32_t descriptor, bool is_on)
{
    int value = is_on;
    return ioctl(descriptor, FIONBIO, &value);
}

/* What a wait found: what a descriptor is ready for, and the number that was given with it. It has 16 bytes, and the
 * system's `struct epoll_event` 12.
 */
struct ready {
    uint32_t events;
    uint64_t data;
};

/* Adds a descriptor to a set, changes what is asked of it or removes it. Returns 0, or -1 and sets `errno`. */
int32_t rattle_epoll_ctl(int32_t set, int32_t what, int32_t descriptor, uint32_t events, uint64_t data)
{
    struct epoll_event event = {.events = events, .data.u64 = data};
    return epoll_ctl(set, what, descriptor, &event);
}

/* The most that one wait finds. What else is ready is found by the next one. */
#define MOST_READY 256

/* Waits until a descriptor of a set is ready, for so many milliseconds at most, or without a limit below 0. Puts what
 * it finds at `found`, which has room for `room`, and returns how many, or -1 and sets `errno`.
 */
int64_t rattle_epoll_wait(int32_t set, struct ready *found, uint64_t room, int32_t milliseconds)
{
    struct epoll_event events[MOST_READY];
    int count = epoll_wait(set, events, room < MOST_READY ? (int)room : MOST_READY, milliseconds);
    for (int place = 0; place < count; place++) {
        found[place] = (struct ready){events[place].events, events[place].data.u64};
    }
    return count;
}
