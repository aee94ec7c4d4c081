/* Counts the threads that a program starts, and the processor time that they take. A program that is started with this
   library preloaded asks it for each thread in place of the C library, which it hands the request on to.

   THREADS_COUNT is an open file of three numbers of eight bytes: how many there were so far, the nanoseconds of all that
   have ended, and those of the one that took most. */
#define _GNU_SOURCE
#include <dlfcn.h>
#include <pthread.h>
#include <stdatomic.h>
#include <stdlib.h>
#include <sys/mman.h>
#include <time.h>

struct tally {
    atomic_ullong count, all, most;
};

/* What a thread is to run. */
struct task {
    void *(*run)(void *);
    void *given;
};

static struct tally *tally;
static int (*create)(pthread_t *, const pthread_attr_t *, void *(*)(void *), void *);

__attribute__((constructor)) static void start(void)
{
    int file = (int)strtoull(getenv("THREADS_COUNT"), NULL, 10);
    tally = mmap(NULL, sizeof *tally, PROT_READ | PROT_WRITE, MAP_SHARED, file, 0);
    *(void **)&create = dlsym(RTLD_NEXT, "pthread_create");
    if (tally == MAP_FAILED || create == NULL)
        abort();
}

/* Runs a task, and counts its time. */
static void *timed(void *given)
{
    struct task task = *(struct task *)given;
    free(given);
    void *result = task.run(task.given);
    struct timespec time;
    clock_gettime(CLOCK_THREAD_CPUTIME_ID, &time);
    unsigned long long took = (unsigned long long)time.tv_sec * 1000000000 + (unsigned long long)time.tv_nsec;
    unsigned long long most = atomic_load(&tally->most);
    while (most < took && !atomic_compare_exchange_weak(&tally->most, &most, took))
        ;
    atomic_fetch_add(&tally->all, took);
    return result;
}

int pthread_create(pthread_t *thread, const pthread_attr_t *how, void *(*run)(void *), void *given)
{
    struct task *task = malloc(sizeof *task);
    if (task == NULL)
        abort();
    *task = (struct task){run, given};
    atomic_fetch_add(&tally->count, 1);
    int failed = create(thread, how, timed, task);
    if (failed)
        free(task);
    return failed;
}
