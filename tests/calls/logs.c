/* Lays logs beside each other, either way round, and writes the first index at which they differ, in which log the rest lies, from which
   entry on, and its length. First come logs in arrays of our own. Then logs right before a page that cannot be read: a read behind the
   first difference, or behind the end of the shorter log, ends the program. Those have lengths beyond what can be read, which no caller
   may rely on, since a length promises memory that can be read; what is tried there is the work done. */
#define _DEFAULT_SOURCE
#include "pilfstera.h"
#include <stdio.h>
#include <stdlib.h>
#include <string.h>
#include <sys/mman.h>
#include <unistd.h>

/* The last entry of each is in no log, so that no log ends where another begins. */
static const uint16_t one[] = {10, 10, 20, 65535, 20, 0, 0}, other[] = {10, 10, 20, 65535, 30, 0, 0, 0};

static struct pilfstera_log part(const uint16_t *entries, size_t length) {
    struct pilfstera_log log = {entries, length};
    return log;
}

/* Whether a pointer is one into a log or to its end, and to which entry. It is compared as a number, since it may point anywhere. */
static int lies_in(const uint16_t *entries, struct pilfstera_log log, size_t *start) {
    uintptr_t distance = (uintptr_t)entries - (uintptr_t)log.entries;
    *start = distance / sizeof *entries;
    return distance % sizeof *entries == 0 && *start <= log.length;
}

static void ask(const char *what, struct pilfstera_log first, struct pilfstera_log second) {
    static const uint16_t another[] = {10, 20, 30};
    struct pilfstera_log rest = part(another, 3);
    size_t start, index = pilfstera_first_difference(first.entries, first.length, second.entries, second.length);
    pilfstera_rest(first.entries, first.length, second.entries, second.length, &rest);
    const char *place = "in neither";
    if (lies_in(rest.entries, first, &start))
        place = "in the first";
    else if (lies_in(rest.entries, second, &start))
        place = "in the second";
    printf("%s: index %zu, rest %s from %zu, length %zu\n", what, index, place, start, rest.length);
    /* what was written is there, should the next call end the program */
    fflush(stdout);
}

static void ask_both_ways(const char *what, struct pilfstera_log first, struct pilfstera_log second) {
    ask(what, first, second);
    ask(what, second, first);
}

/* A log of this length whose first entries, so many, lie right before a page without access. */
static struct pilfstera_log closed_behind(const uint16_t *entries, size_t count, size_t length) {
    size_t page = (size_t)sysconf(_SC_PAGESIZE);
    char *pages = mmap(NULL, 2 * page, PROT_READ | PROT_WRITE, MAP_PRIVATE | MAP_ANONYMOUS, -1, 0);
    if (pages == MAP_FAILED || mprotect(pages + page, page, PROT_NONE) != 0) {
        perror("pages");
        exit(1);
    }
    uint16_t *closed = (uint16_t *)(pages + page);
    memcpy(closed - count, entries, count * sizeof *entries);
    return part(closed - count, length);
}

int main(void) {
    const size_t far = (size_t)1 << 40;
    ask_both_ways("differ", part(one, 6), part(other, 7));
    ask_both_ways("differ at the last index", part(one, 5), part(other, 5));
    ask_both_ways("differ at the last index of one", part(one, 5), part(other, 7));
    ask_both_ways("differ at index 0", part(one + 4, 2), part(other + 4, 3));
    ask_both_ways("equal", part(one, 4), part(other, 4));
    ask("one and the same", part(one, 6), part(one, 6));
    ask_both_ways("a beginning", part(one, 3), part(other, 4));
    ask_both_ways("a beginning, more left", part(one, 1), part(other, 7));
    ask_both_ways("one empty", part(one, 0), part(other, 7));
    ask_both_ways("both empty", part(one, 0), part(other, 0));

    ask_both_ways("closed behind the difference", closed_behind(one, 5, 105), closed_behind(other, 5, 205));
    ask_both_ways("closed behind a difference at index 0", closed_behind(one + 4, 1, 101), closed_behind(other + 4, 1, 101));
    ask_both_ways("closed behind the shorter", closed_behind(one, 4, 4), closed_behind(other, 4, 104));
    ask_both_ways("closed behind equal logs", closed_behind(one, 4, 4), closed_behind(other, 4, 4));
    ask_both_ways("closed from the beginning", closed_behind(one, 0, 0), closed_behind(other, 0, 100));
    ask_both_ways("closed, both empty", closed_behind(one, 0, 0), closed_behind(other, 0, 0));

    /* 32 bits do not hold these lengths */
    ask_both_ways("long behind the difference", closed_behind(one, 5, far + 5), closed_behind(other, 5, far + 6));
    ask_both_ways("long behind the shorter", closed_behind(one, 4, 4), closed_behind(other, 4, far + 1));
    return 0;
}
