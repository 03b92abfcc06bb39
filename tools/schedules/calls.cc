// The C functions that a program's threads call, over the scheduler. In the program's text each has its name behind `schedules_`.
#include "scheduler.h"

#include <cerrno>
#include <cstdarg>
#include <cstdint>
#include <cstdio>
#include <cstdlib>
#include <cstring>
#include <ctime>
#include <linux/futex.h>
#include <pthread.h>
#include <sys/syscall.h>
#include <unistd.h>

namespace {

constexpr uint64_t SECOND = 1'000'000'000;

uint64_t nanos(const timespec &time) { return time.tv_sec * SECOND + time.tv_nsec; }

long fail(int why)
{
    errno = why;
    return -1;
}

[[noreturn]] void refuse(const char *what, long number)
{
    fprintf(stderr, "the program calls %s %ld, which the scheduler does not know\n", what, number);
    abort();
}

long wait(const uint32_t *word, bool by_the_clock, uint32_t expected, const timespec *time)
{
    if (__atomic_load_n(word, __ATOMIC_SEQ_CST) != expected)
        return fail(EAGAIN);
    uint64_t deadline = time ? nanos(*time) + (by_the_clock ? 0 : scheduler::now()) : 0;
    switch (scheduler::wait(word, time ? &deadline : nullptr)) {
    case Wait::TimedOut: return fail(ETIMEDOUT);
    case Wait::ForNoReason: return scheduler::random() % 2 ? 0 : fail(EINTR);
    case Wait::Told: return 0;
    }
    abort();
}

// What the kit's functions answer that get memory: whether they got it, and where it is.
struct Block {
    bool got;
    void *at;
};

// Larger than any memory: so a block is refused by the kit's own function.
constexpr size_t TOO_LARGE = size_t(1) << 62;

// Whether a request for memory is refused: one in so many of a thread that is not the first one, where any are.
bool is_refused()
{
    static const char *often = getenv("SCHEDULES_REFUSED_ONCE_IN");
    return often && scheduler::self() != 0 && scheduler::random() % atol(often) == 0;
}

void write_counts()
{
    const char *path = getenv("SCHEDULES_COUNTS");
    FILE *file = path ? fopen(path, "w") : nullptr;
    if (!file)
        return;
    const Counts &it = scheduler::counts();
    for (uint64_t number : {it.rounds, it.points, it.switches, it.timed_out, it.for_no_reason})
        fprintf(file, "%llu ", static_cast<unsigned long long>(number));
    fclose(file);
}

struct WrittenAtTheEnd {
    WrittenAtTheEnd() { atexit(write_counts); }
} written_at_the_end;

} // namespace

extern "C" {

Block rattle_alloc(size_t size, size_t align);
Block rattle_realloc(void *at, size_t kept, size_t size, size_t align);

Block schedules_rattle_alloc(size_t size, size_t align) { return rattle_alloc(is_refused() ? TOO_LARGE : size, align); }

Block schedules_rattle_realloc(void *at, size_t kept, size_t size, size_t align)
{
    return rattle_realloc(at, kept, is_refused() ? TOO_LARGE : size, align);
}

[[noreturn]] void schedules__exit(int status)
{
    write_counts();
    _exit(status);
}

void schedules_point() { scheduler::point(__builtin_return_address(0)); }

int schedules_sched_yield()
{
    scheduler::yield();
    return 0;
}

int schedules_pthread_create(pthread_t *thread, const pthread_attr_t *, Work work, void *argument)
{
    static const char *most = getenv("SCHEDULES_THREADS");
    static long started = 0;
    if (most && started++ >= atol(most))
        return EAGAIN;
    *thread = scheduler::start(work, argument) + 1;
    schedules_point();
    return 0;
}

int schedules_pthread_join(pthread_t thread, void **result)
{
    schedules_point();
    void *got = scheduler::join(thread - 1);
    if (result)
        *result = got;
    return 0;
}

int schedules_pthread_detach(pthread_t thread)
{
    scheduler::detach(thread - 1);
    return 0;
}

pthread_t schedules_pthread_self() { return scheduler::self() + 1; }

int schedules_clock_gettime(int, timespec *time)
{
    schedules_point();
    uint64_t now = scheduler::now();
    time->tv_sec = now / SECOND;
    time->tv_nsec = now % SECOND;
    return 0;
}

int schedules_nanosleep(const timespec *time, timespec *)
{
    scheduler::sleep(scheduler::now() + nanos(*time));
    return 0;
}

int schedules_getentropy(void *to, size_t length)
{
    for (size_t at = 0; at < length; at++)
        static_cast<unsigned char *>(to)[at] = scheduler::random();
    return 0;
}

long schedules_syscall(long number, void *word, long operation, long value, void *time, ...)
{
    if (number != SYS_futex)
        refuse("the system by number", number);
    schedules_point();
    switch (operation & ~(FUTEX_PRIVATE_FLAG | FUTEX_CLOCK_REALTIME)) {
    case FUTEX_WAIT: return wait(static_cast<uint32_t *>(word), false, value, static_cast<timespec *>(time));
    case FUTEX_WAIT_BITSET: return wait(static_cast<uint32_t *>(word), true, value, static_cast<timespec *>(time));
    case FUTEX_WAKE:
    case FUTEX_WAKE_BITSET: return scheduler::wake(word, value);
    default: refuse("a futex operation", operation);
    }
}
}
