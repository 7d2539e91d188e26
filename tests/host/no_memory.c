/*
 * The host's entry where memory runs out: each of its allocations fails once, alone and with all later ones. Link it
 * with -Wl,--wrap=malloc,--wrap=free. Prints the number of calls.
 */
#include "route_book.h"

#include <stdio.h>
#include <string.h>

void *__real_malloc(size_t size);
void __real_free(void *block);

enum { NEVER = 1000000 };

static int watching;
static int fail_from = NEVER, fail_to = NEVER;
static int taken, standing;

void *__wrap_malloc(size_t size)
{
    if (!watching)
        return __real_malloc(size);
    int number = taken++;
    void *block = number >= fail_from && number < fail_to ? NULL : __real_malloc(size);
    standing += block != NULL;
    return block;
}

void __wrap_free(void *block)
{
    if (watching)
        standing -= block != NULL;
    __real_free(block);
}

static const uint8_t image[26] = {'P', 'L', 1, 'A', 'P', 'L', 1, 'B', 'C', 'T', 0, 0, 0,
                                  1,   0,   0, 0,   2,   0,   0, 0,   5,   'E', 'N', 0, 3};
static const uint8_t answer[12] = {0, 1, 0, 1, 0, 0, 0, 5, 0, 0, 0, 0};
static uint8_t output[ROUTE_BOOK_OUTPUT_SIZE];
static int calls, faults;

static void check(int truth, const char *what)
{
    if (!truth) {
        fprintf(stderr, "no_memory.c: allocations %d to %d fail: %s\n", fail_from, fail_to, what);
        faults++;
    }
}

static uint32_t call(size_t len, int from, int to)
{
    memset(output, 0xA5, sizeof output);
    fail_from = from;
    fail_to = to;
    taken = standing = 0;
    watching = 1;
    uint32_t result = route_book_safest(image, len, output, sizeof output, 0, 1, 1, ROUTE_BOOK_ONE_PLUS_ONE);
    watching = 0;
    calls++;
    check(standing == 0, "a block is not given back");
    size_t written = result == ROUTE_BOOK_OK ? sizeof answer : 0;
    check(memcmp(output, answer, written) == 0, "the answer is wrong");
    for (size_t i = written; i < sizeof output; i++)
        if (output[i] != 0xA5)
            check(0, "the output is written to");
    return result;
}

int main(void)
{
    check(call(sizeof image, NEVER, NEVER) == ROUTE_BOOK_OK, "the call is refused");
    int needed = taken;
    for (int i = 0; i < needed; i++) {
        check(call(sizeof image, i, i + 1) == ROUTE_BOOK_NO_MEMORY, "the result is not 255");
        check(call(sizeof image, i, NEVER) == ROUTE_BOOK_NO_MEMORY, "the result is not 255");
    }
    check(call(sizeof image - 1, 0, NEVER) == ROUTE_BOOK_SHORT, "the image does not come first");
    if (faults)
        return 1;
    printf("%d\n", calls);
    return 0;
}
