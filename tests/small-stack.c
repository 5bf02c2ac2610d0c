/* Linked with a test program, this has every call of the library made on a stack of its own, of 4 KiB, with a guard page below it: the linker is told (--wrap) to
 * take the function here for the library's, and this one changes the stack, lays the arguments that go by the stack, and calls the library's. The test programs
 * know nothing of it. Which functions there are, and how many of their arguments go by the stack, is drawn from nwb.h (tests/x86-64.sh, build_small).
 *
 * The stacks are painted once. How much of its stack each function overwrote in all calls, its return address and its stack arguments counted, is appended to the
 * file that NWB_STACKS names, a line a function; a function that was not called has 0. */
#define _DEFAULT_SOURCE
#include "memory-and-books.h"

enum { SMALL = 4096, PAINT = 0xa5 };

/* %rbp is the callee's to keep, so that the caller's stack is found again. */
#define FUNCTION(name, words)                                                                     \
    uint8_t *small_top_##name;                                                                    \
    __asm__(".globl __wrap_" #name "\n__wrap_" #name ":\n"                                        \
            "push %rbp\nmov %rsp, %rbp\nmov small_top_" #name "(%rip), %rsp\n"                    \
            ".if " #words " % 2\nsub $8, %rsp\n.endif\n"                                          \
            ".set word, " #words "\n.rept " #words "\npush 8 + 8 * word(%rbp)\n.set word, word - 1\n.endr\n" \
            "call __real_" #name "\nmov %rbp, %rsp\npop %rbp\nret\n");
#include "functions.h"
#undef FUNCTION

#define FUNCTION(name, words) {#name, &small_top_##name, {0}},
static struct { const char *name; uint8_t **top; struct area area; } stacks[] = {
#include "functions.h"
};
enum { STACKS = sizeof stacks / sizeof *stacks };

static void report(void)
{
    const char *path = getenv("NWB_STACKS");
    FILE *f = path ? fopen(path, "a") : NULL;
    for (int i = 0; f && i < STACKS; i++) {
        const uint8_t *low = stacks[i].area.start;
        while (low < *stacks[i].top && *low == PAINT)
            low++;
        fprintf(f, "%s %td\n", stacks[i].name, *stacks[i].top - low);
    }
    if (path && (!f || fclose(f) != 0)) {
        perror(path);
        _exit(2);
    }
}

__attribute__((constructor)) static void open_stacks(void)
{
    for (int i = 0; i < STACKS; i++) {
        area_open(&stacks[i].area, SMALL);
        memset(stacks[i].area.start, PAINT, SMALL);
        *stacks[i].top = stacks[i].area.start + SMALL;
    }
    atexit(report);
}
