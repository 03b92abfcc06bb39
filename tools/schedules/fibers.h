// Fibers: each has a stack of its own, and all take turns on one system thread.
#pragma once

#include <cstddef>
#include <vector>

using Work = void *(*)(void *);

// Where a fiber stands while another one runs.
struct Stack {
    void *top = nullptr;
    char *memory = nullptr; // none for the first fiber, which has the system's
    int saved_errno = 0;
};

// Memory for a stack, with a page below it that nobody may touch. `begin` is called at the first switch to it, and never returns.
void open_stack(Stack &stack, void (*begin)());

// Goes on with another fiber. Returns when one switches back.
void switch_to(Stack &from, Stack &to);

// The addresses to which the calls return of a fiber that stands still, or of the one that runs, the innermost first.
std::vector<const void *> calls_of(const Stack &stack);
std::vector<const void *> calls_of_running();
