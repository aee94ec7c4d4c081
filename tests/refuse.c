/* Refuses requests for memory. A program that is started with this library preloaded asks it instead of the C library,
   which it hands the requests on to.

   Requests are counted from 1 on. REFUSE_FIRST and REFUSE_LAST tell the first and the last one that is refused;
   REFUSE_COUNT is an open file of eight bytes, which tell how many there were so far. */
#include <errno.h>
#include <stdatomic.h>
#include <stdlib.h>
#include <sys/mman.h>

/* The C library's own requests, by names that no library before it takes. */
void *__libc_malloc(size_t size);
void *__libc_calloc(size_t number, size_t size);
void *__libc_realloc(void *old, size_t size);
void *__libc_memalign(size_t alignment, size_t size);

static atomic_ullong before_start;
static atomic_ullong *count = &before_start;
static unsigned long long first, last;

/* The number in this variable of the environment. */
static unsigned long long given(const char *name)
{
    return strtoull(getenv(name), NULL, 10);
}

__attribute__((constructor)) static void start(void)
{
    first = given("REFUSE_FIRST");
    last = given("REFUSE_LAST");
    count = mmap(NULL, sizeof *count, PROT_READ | PROT_WRITE, MAP_SHARED, (int)given("REFUSE_COUNT"), 0);
    if (count == MAP_FAILED)
        abort();
}

/* Counts a request, and tells whether it is one to refuse. */
static int is_refused(void)
{
    unsigned long long number = atomic_fetch_add(count, 1) + 1;
    if (number < first || last < number)
        return 0;
    errno = ENOMEM;
    return 1;
}

void *malloc(size_t size)
{
    return is_refused() ? NULL : __libc_malloc(size);
}

void *calloc(size_t number, size_t size)
{
    return is_refused() ? NULL : __libc_calloc(number, size);
}

void *realloc(void *old, size_t size)
{
    return is_refused() ? NULL : __libc_realloc(old, size);
}

void *aligned_alloc(size_t alignment, size_t size)
{
    return is_refused() ? NULL : __libc_memalign(alignment, size);
}

int posix_memalign(void **place, size_t alignment, size_t size)
{
    void *room = aligned_alloc(alignment, size);
    if (room == NULL)
        return ENOMEM;
    *place = room;
    return 0;
}
