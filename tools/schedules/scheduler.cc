#include "scheduler.h"

#include "random.h"

#include <algorithm>
#include <cstdio>
#include <cstdlib>
#include <memory>
#include <unistd.h>
#include <vector>

namespace {

enum class State { Ready, WaitsOnWord, Sleeps, Joins, Ended, Free };

struct Thread {
    Stack stack;
    State state = State::Ready;
    Work work = nullptr;
    void *argument = nullptr;
    void *result = nullptr;
    bool detached = false;
    const void *word = nullptr; // on which it waits
    int joined = 0;             // whose end it awaits
    bool timed = false;
    uint64_t deadline = 0;
    bool told = false;
    int64_t priority = 0;
    const void *place = nullptr; // of its last point
    unsigned visits = 0;         // how often in a row it was there
};

// How the threads of a round take turns.
struct Policy {
    bool by_priority = false;
    uint64_t gap = 4;     // by chance: so many points on average between two turns
    uint64_t changes = 0; // by priority: how many points are left at which the running thread falls behind all others,
    uint64_t span = 1;    // each within so many points after the last
};

constexpr int STUCK = 3, ENDLESS = 4; // what the program ends with then
constexpr uint64_t NANOS_OF_POINT = 50;
constexpr uint64_t TIME_OUT_ONCE_IN = 16;
constexpr uint64_t WAKE_FOR_NO_REASON_ONCE_IN = 64;
// So often in a round all may wait at once but for time to pass: a watchdog has long given up then. (The kit's waits all end after a
// time, and are made anew.)
constexpr uint64_t MOST_IDLE = 50'000;
// Whoever was so often in a row at one place looks for what another one has to do.
constexpr unsigned PATIENCE = 40;
// By priority nobody runs for longer on end: a thread may go round and round until another one has done something.
constexpr uint64_t LONGEST_TURN = 4'000;
constexpr int64_t MOST_PRIORITY = 1 << 20;

uint64_t number_in(const char *variable, uint64_t otherwise)
{
    const char *number = getenv(variable);
    return number ? strtoull(number, nullptr, 10) : otherwise;
}

const uint64_t SEED = number_in("SCHEDULES_SEED", 1);
const uint64_t MOST_POINTS = number_in("SCHEDULES_POINTS", 100'000'000);

std::vector<std::unique_ptr<Thread>> threads;
std::vector<int> ready; // the running one too
int running = 0, alive = 1;
uint64_t idle = 0; // how often in this round nobody could go on but by waiting
int64_t lowest = 0;
uint64_t clock_now = 1'000'000'000, left = 1;
Random dice(SEED);
Policy policy;
Counts counted;

Thread &one(int number) { return *threads[number]; }

struct First {
    First()
    {
        threads.push_back(std::make_unique<Thread>());
        ready.push_back(0);
    }
} first;

bool is_any_timed()
{
    return std::any_of(threads.begin(), threads.end(), [](auto &it) { return it->timed; });
}

void make_ready(int number)
{
    one(number).state = State::Ready;
    one(number).timed = false;
    ready.push_back(number);
}

void stop_running(State state)
{
    one(running).state = state;
    ready.erase(std::find(ready.begin(), ready.end(), running));
}

void draw_turn()
{
    if (!policy.by_priority) {
        left = 1 + dice.below(2 * policy.gap);
    } else if (policy.changes == 0) {
        left = LONGEST_TURN;
    } else {
        policy.changes--;
        left = 1 + dice.below(policy.span);
    }
}

void begin_round()
{
    static const uint64_t gaps[] = {1, 2, 4, 8, 16, 64}, spans[] = {30, 100, 300, 1000, 4000};
    counted.rounds++;
    idle = 0;
    policy.by_priority = dice.once_in(2);
    policy.gap = gaps[dice.below(6)];
    policy.changes = 1 + dice.below(5);
    policy.span = spans[dice.below(5)];
    one(0).priority = dice.below(MOST_PRIORITY);
    lowest = 0;
    draw_turn();
}

void fall_behind() { one(running).priority = --lowest; }

// The clock comes to the end of some timed wait, and with it each that ends no later.
void let_time_pass()
{
    std::vector<int> timed;
    for (int number = 0; number < int(threads.size()); number++)
        if (one(number).timed)
            timed.push_back(number);
    clock_now = std::max(clock_now, one(timed[dice.below(timed.size())]).deadline);
    for (int number : timed)
        if (one(number).deadline <= clock_now) {
            counted.timed_out++;
            make_ready(number);
        }
}

const char *name_of(State state)
{
    switch (state) {
    case State::Ready: return "could go on";
    case State::WaitsOnWord: return "waits";
    case State::Sleeps: return "sleeps";
    case State::Joins: return "waits for a thread's end";
    default: return "has ended";
    }
}

// Says where everybody stands, by the addresses to which calls return, and ends the program.
[[noreturn]] void give_up(const char *why, int status)
{
    fflush(stdout);
    fprintf(stderr, "%s\n", why);
    for (int number = 0; number < int(threads.size()); number++) {
        Thread &it = one(number);
        if (it.state == State::Free || it.state == State::Ended)
            continue;
        fprintf(stderr, "thread %d %s:", number, name_of(it.state));
        for (const void *call : number == running ? calls_of_running() : calls_of(it.stack))
            fprintf(stderr, " @%p", call);
        fprintf(stderr, "\n");
    }
    fflush(stderr);
    exit(status);
}

int choose()
{
    bool is_idle = ready.empty();
    if (is_idle && (!is_any_timed() || ++idle > MOST_IDLE))
        give_up("nobody can go on", STUCK);
    if (is_idle || (is_any_timed() && dice.once_in(TIME_OUT_ONCE_IN)))
        let_time_pass();
    if (!policy.by_priority)
        return ready[dice.below(ready.size())];
    auto less = [](int left, int right) { return one(left).priority < one(right).priority; };
    return *std::max_element(ready.begin(), ready.end(), less);
}

void take_turns()
{
    int next = choose();
    if (next == running)
        return;
    counted.switches++;
    Thread &before = one(running);
    running = next;
    switch_to(before.stack, one(next).stack);
}

void end_running()
{
    Thread &it = one(running);
    alive--;
    stop_running(it.detached ? State::Free : State::Ended);
    for (size_t number = 0; number < threads.size(); number++)
        if (one(number).state == State::Joins && one(number).joined == running)
            make_ready(number);
}

void run_work()
{
    Thread &it = one(running);
    it.result = it.work(it.argument);
    end_running();
    take_turns();
    abort();
}

int free_number()
{
    for (size_t number = 1; number < threads.size(); number++)
        if (one(number).state == State::Free)
            return number;
    threads.push_back(std::make_unique<Thread>());
    return threads.size() - 1;
}

} // namespace

void scheduler::point(const void *place)
{
    if (++counted.points >= MOST_POINTS)
        give_up("no end is in sight", ENDLESS);
    clock_now += NANOS_OF_POINT;
    Thread &it = one(running);
    it.visits = it.place == place ? it.visits + 1 : 0;
    it.place = place;
    if (it.visits >= PATIENCE) {
        it.visits = 0;
        yield();
    } else if (--left == 0) {
        if (policy.by_priority)
            fall_behind();
        draw_turn();
        take_turns();
    }
}

void scheduler::yield()
{
    fall_behind();
    if (!policy.by_priority)
        draw_turn();
    take_turns();
}

int scheduler::start(Work work, void *argument)
{
    if (running == 0 && alive == 1)
        begin_round();
    alive++;
    int number = free_number();
    Thread &it = one(number);
    Stack stack = it.stack;
    it = Thread();
    it.stack = stack;
    it.work = work;
    it.argument = argument;
    it.priority = dice.below(MOST_PRIORITY);
    open_stack(it.stack, run_work);
    make_ready(number);
    return number;
}

void *scheduler::join(int thread)
{
    Thread &other = one(thread);
    if (other.state != State::Ended) {
        one(running).joined = thread;
        stop_running(State::Joins);
        take_turns();
    }
    other.state = State::Free;
    return other.result;
}

void scheduler::detach(int thread)
{
    Thread &other = one(thread);
    other.detached = true;
    if (other.state == State::Ended)
        other.state = State::Free;
}

int scheduler::self() { return running; }

Wait scheduler::wait(const void *word, const uint64_t *deadline)
{
    if (dice.once_in(WAKE_FOR_NO_REASON_ONCE_IN)) {
        counted.for_no_reason++;
        take_turns();
        return Wait::ForNoReason;
    }
    Thread &it = one(running);
    it.word = word;
    it.told = false;
    it.timed = deadline != nullptr;
    it.deadline = deadline ? *deadline : 0;
    stop_running(State::WaitsOnWord);
    take_turns();
    return it.told ? Wait::Told : Wait::TimedOut;
}

long scheduler::wake(const void *word, long most)
{
    std::vector<int> waiting;
    for (size_t number = 0; number < threads.size(); number++)
        if (one(number).state == State::WaitsOnWord && one(number).word == word)
            waiting.push_back(number);
    long woken = 0;
    for (; woken < most && !waiting.empty(); woken++) {
        size_t which = dice.below(waiting.size());
        one(waiting[which]).told = true;
        make_ready(waiting[which]);
        waiting.erase(waiting.begin() + which);
    }
    return woken;
}

void scheduler::sleep(uint64_t deadline)
{
    Thread &it = one(running);
    it.timed = true;
    it.deadline = deadline;
    stop_running(State::Sleeps);
    take_turns();
}

uint64_t scheduler::now() { return clock_now; }

uint64_t scheduler::random() { return dice.next(); }

const Counts &scheduler::counts() { return counted; }
