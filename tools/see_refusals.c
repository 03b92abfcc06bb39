/* Says which requests for memory of a call are refused: preloaded before tests over `scarcity`, by see_refusals.py.
 *
 * Those tests take all memory before each attempt of a call, in blocks of falling sizes: the first that is asked for has 65,536 or
 * 32,768 bytes, and the last 24, which is refused. What comes then, up to the next of these or to the end, is the attempt; before
 * it the rest of a block of 65,536 may be taken, which leaves a hole. For each attempt a line is written to the file that
 * SEEN_REFUSALS names: the number of the first request that was refused, or 0, and how many bytes each request up to that one was
 * for, or each of all. What is made with ample memory has no line. A block that is to grow within what it has already makes no
 * request: the C library meets that whatever there is. Nor do blocks of 1,032 bytes or more that are to grow by 16 at most before
 * the attempt: by these it is counted how much was taken. */
#define _GNU_SOURCE
#include <fcntl.h>
#include <malloc.h>
#include <stdio.h>
#include <stdlib.h>
#include <unistd.h>

enum { FILLER = 65536, SMALLEST = 24, LEAST_REST = 9000, LARGE = 100000, AMPLE = 48000, COUNTED = 1032, MOST = 1000 };

static enum { ELSEWHERE, TAKING, TRYING } at;
static size_t hole, requests, first_refused, sizes[MOST];

static void tell(void)
{
    if (hole == AMPLE)
        return;
    static int file = -1;
    const char *path = getenv("SEEN_REFUSALS");
    if (file < 0 && path)
        file = open(path, O_WRONLY | O_CREAT | O_APPEND, 0666);
    static char line[20 * MOST];
    int length = sprintf(line, "%zu", first_refused);
    size_t told = first_refused ? first_refused : requests;
    for (size_t at = 0; at < told; at++)
        length += sprintf(line + length, " %zu", sizes[at]);
    line[length++] = '\n';
    if (file >= 0 && write(file, line, length) != length)
        _exit(3);
}

static void *seen(size_t size, void *block)
{
    if (size == FILLER || size == FILLER / 2) {
        if (at == TRYING)
            tell();
        at = TAKING;
    } else if (at == TAKING && size == SMALLEST && !block) {
        at = TRYING;
        hole = requests = first_refused = 0;
    } else if (at == TRYING && !hole && !requests && size > LEAST_REST && (FILLER - size) % 16 == 0) {
        hole = FILLER - size;
    } else if (at == TRYING) {
        if (requests == MOST)
            _exit(4);
        sizes[requests++] = size;
        if (!block && !first_refused)
            first_refused = requests;
    }
    return block;
}

/* The C library's own, under the names that it gives them for such a use. */
extern void *__libc_malloc(size_t size);
extern void *__libc_calloc(size_t count, size_t size);
extern void *__libc_realloc(void *old, size_t size);
extern void __libc_free(void *block);

void *malloc(size_t size)
{
    return seen(size, __libc_malloc(size));
}

void *calloc(size_t count, size_t size)
{
    return seen(count * size, __libc_calloc(count, size));
}

void *realloc(void *old, size_t size)
{
    size_t had = old ? malloc_usable_size(old) : 0;
    void *block = __libc_realloc(old, size);
    int counts = at == TRYING && !hole && !requests && had >= COUNTED && size <= had + 16;
    return counts || (size && size <= had) ? block : seen(size, block);
}

/* A large block is let go only once the last attempt is made. */
void free(void *block)
{
    if (block && at == TRYING && malloc_usable_size(block) > LARGE) {
        tell();
        at = ELSEWHERE;
    }
    __libc_free(block);
}
