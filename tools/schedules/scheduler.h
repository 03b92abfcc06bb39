// Which thread goes on: all threads of a program are fibers, and a seed says who runs when.
//
// A thread is stopped at points: before each atomic instruction, and in the calls that wait, wake, yield, start or end a thread. All
// atomic accesses are sequentially consistent, and the points are all the places where another thread could see a difference, so no
// interleaving is lost by running one thread at a time.
//
// A round begins when the program's first thread starts another one and no third is there. Each round draws how its threads take
// turns: by chance, after so many points on average, or by priorities that change at a few points. Waits end for no reason now and
// then, and timed ones at any moment: the clock then stands at their end.
#pragma once

#include "fibers.h"

#include <cstdint>

// What was tried so far.
struct Counts {
    uint64_t rounds = 0;
    uint64_t points = 0;
    uint64_t switches = 0;
    uint64_t timed_out = 0;
    uint64_t for_no_reason = 0;
};

// How a wait on a word ended.
enum class Wait { Told, TimedOut, ForNoReason };

namespace scheduler {

// Before an atomic instruction: perhaps others run first. `place` is the instruction's.
void point(const void *place);

// The running thread lets others go first.
void yield();

// A new thread with this work: its number.
int start(Work work, void *argument);

// Waits until the thread has ended: what it returned. Its number may be given again then.
void *join(int thread);

// Nobody will wait for this thread's end.
void detach(int thread);

// The running thread's number.
int self();

// Waits on a word, to the end of time or to `deadline`, if there is one.
Wait wait(const void *word, const uint64_t *deadline);

// Wakes so many of those who wait on a word, whichever: how many it found.
long wake(const void *word, long most);

// Waits until then.
void sleep(uint64_t deadline);

// The time, in nanoseconds. It stands still but for points, and for waits that time out.
uint64_t now();

// A number that nobody can foretell but who knows the seed.
uint64_t random();

const Counts &counts();

} // namespace scheduler
