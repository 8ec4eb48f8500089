/* tools/refusals loads this before the C library: it counts the allocations of a program, and lets some of them fail. An allocation is a
   call of malloc, or one of realloc for more than the block has; the programs of this repository call no other of the kind.

   The variable REFUSALS has four numbers, FIRST LAST LARGE STREAM: the allocations from the FIRST to the LAST fail, counted from 1
   behind the first one of LARGE bytes, if LARGE is not 0. How many bytes the FIRST one asks for is written to STREAM. */
#include <errno.h>
#include <malloc.h>
#include <stdlib.h>
#include <unistd.h>

void *__libc_malloc(size_t), *__libc_realloc(void *, size_t);
static size_t first, last, large, growths;
static int stream = -1;

__attribute__((constructor)) static void begin(void) {
    char *words = getenv("REFUSALS");
    if (!words) return;
    first = strtoul(words, &words, 10), last = strtoul(words, &words, 10), large = strtoul(words, &words, 10);
    stream = atoi(words);
}

static int counts(size_t size) {
    size_t awaited = large;
    if (size >= large) large = 0;
    return stream >= 0 && !awaited;
}

__attribute__((noinline)) int is_refused(size_t size) { /* a debugger can stop here */
    if (!counts(size) || ++growths < first) return 0;
    if (growths == first && write(stream, &size, sizeof size) < 0) abort();
    errno = ENOMEM;
    return growths <= last;
}

/* A block may have 15 bytes more than were asked for. */
static int grows(void *block, size_t size) { return !block || size + 16 > malloc_usable_size(block); }

void *malloc(size_t size) { return is_refused(size) ? 0 : __libc_malloc(size); }
void *realloc(void *block, size_t size) { return grows(block, size) && is_refused(size) ? 0 : __libc_realloc(block, size); }
