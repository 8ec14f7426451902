/* Makes the chart of a sheet from standard input, finds the way to its last block, and where the chart parts from one whose last block has a
   label of its own and from itself, on a stack of 64 KiB, below which nothing can be written: the header promises that this suffices.
   Writes what the four calls answer. */
#define _DEFAULT_SOURCE
#include "pilfstera.h"
#include <stdio.h>
#include <string.h>
#include <sys/mman.h>
#include <ucontext.h>

enum { STACK = 65536 };

static uint8_t sheet[PILFSTERA_SHEET], chart[PILFSTERA_CHART], another[PILFSTERA_CHART], list[PILFSTERA_LIST];
static uint8_t actions[PILFSTERA_PART], equal[2];
static size_t length, blocks, way, part[2];
static unsigned made, found, compared[2];

static void call(void) {
    made = pilfstera_make(sheet, length, chart, sizeof chart, list, sizeof list, &blocks);
    found = pilfstera_way(sheet, length, blocks - 1, actions, sizeof actions, &way);
    size_t count = PILFSTERA_CHART_LENGTH(blocks, chart[5]), last = PILFSTERA_CHART_LENGTH(blocks - 1, chart[5]);
    memcpy(another, chart, count);
    another[last] = another[last + 1] = 254;
    compared[0] = pilfstera_part(chart, count, another, count, actions, sizeof actions, &part[0], &equal[0]);
    compared[1] = pilfstera_part(chart, count, chart, count, actions, sizeof actions, &part[1], &equal[1]);
}

int main(void) {
    ucontext_t caller, callee;
    /* as many bytes below the stack as on it, so that no call can step over them */
    char *room = mmap(NULL, 2 * STACK, PROT_READ | PROT_WRITE, MAP_PRIVATE | MAP_ANONYMOUS, -1, 0);
    if (room == MAP_FAILED || mprotect(room, STACK, PROT_NONE) || getcontext(&callee))
        return 1;
    length = fread(sheet, 1, sizeof sheet, stdin);
    callee.uc_stack.ss_sp = room + STACK;
    callee.uc_stack.ss_size = STACK;
    callee.uc_link = &caller;
    makecontext(&callee, call, 0);
    if (swapcontext(&caller, &callee))
        return 1;
    printf("made %u, %zu blocks; way %u, %zu actions", made, blocks, found, way);
    for (int i = 0; i < 2; i++)
        printf("; part %u, %s, %zu actions", compared[i], equal[i] ? "equal" : "apart", part[i]);
    puts("");
    return 0;
}
