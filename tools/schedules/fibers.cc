#include "fibers.h"

#include <cerrno>
#include <cstdint>
#include <cstdio>
#include <cstdlib>
#include <sys/mman.h>

namespace {

constexpr size_t STACK = 512 << 10;
constexpr size_t PAGE = 4096;
constexpr size_t MOST_CALLS = 24;

// The registers that a call keeps, as `switch_registers` lays them on the stack, and then where it returns to.
enum Saved { R15, R14, R13, R12, RBX, FRAME, RETURN, SAVED };

// Each call's frame begins with that of its caller, and then says where it returns to.
void add_calls(std::vector<const void *> &calls, void **frame)
{
    while (frame && frame[1] && calls.size() < MOST_CALLS) {
        calls.push_back(frame[1]);
        void **outer = static_cast<void **>(frame[0]);
        frame = outer > frame ? outer : nullptr;
    }
}

} // namespace

extern "C" void switch_registers(void **from, void *to);

asm(R"(
.text
.globl switch_registers
switch_registers:
    pushq %rbp
    pushq %rbx
    pushq %r12
    pushq %r13
    pushq %r14
    pushq %r15
    movq %rsp, (%rdi)
    movq %rsi, %rsp
    popq %r15
    popq %r14
    popq %r13
    popq %r12
    popq %rbx
    popq %rbp
    ret
)");

void open_stack(Stack &stack, void (*begin)())
{
    if (!stack.memory) {
        void *got = mmap(nullptr, STACK, PROT_READ | PROT_WRITE, MAP_PRIVATE | MAP_ANONYMOUS | MAP_NORESERVE, -1, 0);
        if (got == MAP_FAILED || mprotect(got, PAGE, PROT_NONE)) {
            perror("no memory for a stack");
            abort();
        }
        stack.memory = static_cast<char *>(got);
    }
    // A function finds its stack 8 bytes off a multiple of 16, as after a call.
    void **end = reinterpret_cast<void **>(stack.memory + STACK) - 1;
    *end = nullptr;
    void **top = end - SAVED;
    for (int kept = R15; kept <= FRAME; kept++)
        top[kept] = nullptr;
    top[RETURN] = reinterpret_cast<void *>(begin);
    stack.top = top;
}

void switch_to(Stack &from, Stack &to)
{
    from.saved_errno = errno;
    switch_registers(&from.top, to.top);
    errno = from.saved_errno;
}

std::vector<const void *> calls_of(const Stack &stack)
{
    void **top = static_cast<void **>(stack.top);
    std::vector<const void *> calls{top[RETURN]};
    add_calls(calls, static_cast<void **>(top[FRAME]));
    return calls;
}

std::vector<const void *> calls_of_running()
{
    std::vector<const void *> calls;
    add_calls(calls, static_cast<void **>(__builtin_frame_address(0)));
    return calls;
}
