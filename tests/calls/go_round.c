/* Asks for the counts of counters that go round, and writes the number of the refusal and what was stored, or that a buffer was altered that
   had to stay. First come calls at the limits and one beyond. Then increments that lie right before a page that cannot be read, where they
   cannot be written either, and counts right before such a page: a read behind the last increment, or a write behind the last count, ends
   the program. Last come numbers of increments beside which none may be read, with a pointer to such a page. No caller may rely on
   that, since a length promises memory that can be read; what is tried there is the work done. */
#define _DEFAULT_SOURCE
#include "pilfstera.h"
#include <inttypes.h>
#include <stdio.h>
#include <stdlib.h>
#include <string.h>
#include <sys/mman.h>
#include <unistd.h>

enum { MOST = PILFSTERA_MOST_INCREMENTS };

/* What stands in the counts, and on both sides of them, before a call. */
static const uint64_t noise = 0xA5A5A5A5A5A5A5A5;

static const uint64_t ones[MOST + 1] = {1, 1, 1, 1, 1, 1, 1, 1, 1}, powers[MOST] = {1, 2, 4, 8, 16, 32, 64, 128};

static int is_noise(const uint64_t *numbers, size_t count) {
    for (size_t i = 0; i < count; i++)
        if (numbers[i] != noise)
            return 0;
    return 1;
}

static void write_answer(const char *what, unsigned refused, size_t returned, const uint64_t *counts) {
    printf("%s: %u, returned %zu,", what, refused, returned);
    if (is_noise(counts, MOST))
        printf(" counts as they were");
    else
        for (int i = 0; i < MOST; i++)
            printf(" %" PRIu64, counts[i]);
    putchar('\n');
    /* what was written is there, should the next call end the program */
    fflush(stdout);
}

static void ask(const char *what, uint64_t modulus, uint64_t start, uint64_t wanted, const uint64_t *increments, size_t count) {
    uint64_t room[3 * MOST];
    size_t returned = 77;
    for (int i = 0; i < 3 * MOST; i++)
        room[i] = noise;
    unsigned refused = pilfstera_go_round(modulus, start, wanted, increments, count, room + MOST, &returned);
    write_answer(what, refused, returned, room + MOST);
    if (!is_noise(room, MOST) || !is_noise(room + 2 * MOST, MOST))
        puts("altered beside the counts");
}

/* So many numbers right before a page without access. They can be altered themselves, or not. */
static uint64_t *closed_behind(const uint64_t *numbers, size_t count, int access) {
    size_t page = (size_t)sysconf(_SC_PAGESIZE);
    char *pages = mmap(NULL, 2 * page, PROT_READ | PROT_WRITE, MAP_PRIVATE | MAP_ANONYMOUS, -1, 0);
    if (pages == MAP_FAILED) {
        perror("pages");
        exit(1);
    }
    uint64_t *closed = (uint64_t *)(pages + page);
    memcpy(closed - count, numbers, count * sizeof *numbers);
    if (mprotect(pages, page, access) != 0 || mprotect(closed, page, PROT_NONE) != 0) {
        perror("pages");
        exit(1);
    }
    return closed - count;
}

static void ask_at_limits(void) {
    ask("modulus 0", 0, 0, 0, ones, 1);
    ask("modulus 1", 1, 0, 0, ones, 1);
    ask("modulus 2", 2, 0, 1, ones, 1);
    ask("modulus 65536", 65536, 1, 0, ones, 1);
    ask("modulus 65537", 65537, 1, 0, ones, 1);
    ask("modulus 12 and 2^32", ((uint64_t)1 << 32) + 12, 1, 0, ones, 1);
    ask("modulus 2^64 - 1", UINT64_MAX, 1, 0, ones, 1);
    ask("start 11", 12, 11, 0, ones, 1);
    ask("start 12", 12, 12, 0, ones, 1);
    ask("start 11 and 2^32", 12, ((uint64_t)1 << 32) + 11, 0, ones, 1);
    ask("start 2^64 - 1", 12, UINT64_MAX, 0, ones, 1);
    ask("wanted 11", 12, 0, 11, ones, 1);
    ask("wanted 12", 12, 0, 12, ones, 1);
    ask("wanted 11 and 2^32", 12, 0, ((uint64_t)1 << 32) + 11, ones, 1);
    ask("wanted 2^64 - 1", 12, 0, UINT64_MAX, ones, 1);
    ask("no increments", 12, 0, 1, ones, 0);
    ask("eight increments", 12, 0, 1, ones, 8);
    ask("nine increments", 12, 0, 1, ones, 9);
    ask("eight powers of two", 65536, 0, 65535, powers, 8);
}

/* Each increment in its turn at the most that it may be, and beyond. */
static void ask_for_each_increment(void) {
    static const uint64_t numbers[] = {11, 12, ((uint64_t)1 << 32) + 11, UINT64_MAX};
    static const char *const names[] = {"11", "12", "11 and 2^32", "2^64 - 1"};
    uint64_t increments[MOST];
    char what[40];
    for (int place = 0; place < MOST; place++)
        for (int i = 0; i < 4; i++) {
            memset(increments, 0, sizeof increments);
            increments[place] = numbers[i];
            snprintf(what, sizeof what, "increment %d is %s", place, names[i]);
            ask(what, 12, 0, 1, increments, MOST);
        }
}

/* One to eight increments, twice each; and the eight with counts right before a closed page as well. */
static void ask_before_closed_pages(void) {
    char what[40];
    for (size_t count = 1; count <= MOST; count++) {
        const uint64_t *closed = closed_behind(powers, count, PROT_READ);
        snprintf(what, sizeof what, "closed behind %zu of 8 increments", count);
        ask(what, 256, 0, 255, closed, count);
        ask(what, 256, 0, 255, closed, count);
        closed = closed_behind(powers + MOST - count, count, PROT_READ);
        ask(what, 256, 1, 0, closed, count);
    }
    const uint64_t before[MOST] = {noise, noise, noise, noise, noise, noise, noise, noise};
    uint64_t *counts = closed_behind(before, MOST, PROT_READ | PROT_WRITE);
    size_t returned = 77;
    unsigned refused = pilfstera_go_round(256, 0, 255, powers, MOST, counts, &returned);
    write_answer("counts closed behind", refused, returned, counts);
}

static void ask_with_nothing_to_read(void) {
    static const size_t lengths[] = {0, 9, 256 + 1, 65536 + 1, SIZE_MAX / 8};
    const uint64_t *closed = closed_behind(ones, 0, PROT_READ);
    char what[60];
    for (size_t i = 0; i < sizeof lengths / sizeof lengths[0]; i++) {
        snprintf(what, sizeof what, "%zu increments, none of them open", lengths[i]);
        ask(what, 12, 0, 1, closed, lengths[i]);
    }
    /* one increment can be read: that is what is left of these numbers in 32 bits, or where they are counted in bytes */
    closed = closed_behind(ones, 1, PROT_READ);
    ask("2^32 + 1 increments", 12, 0, 1, closed, ((size_t)1 << 32) + 1);
    ask("2^61 + 1 increments", 12, 0, 1, closed, ((size_t)1 << 61) + 1);
}

int main(void) {
    ask("counts", 12, 1, 3, (const uint64_t[]){8, 3}, 2);
    ask("counts the other way round", 12, 1, 3, (const uint64_t[]){3, 8}, 2);
    ask("none", 12, 1, 2, (const uint64_t[]){8, 6}, 2);
    ask("wanted value at the start", 12, 1, 1, (const uint64_t[]){8, 6}, 2);
    ask("increments that are 0", 12, 1, 2, (const uint64_t[]){0, 0}, 2);
    ask_at_limits();
    ask_for_each_increment();
    ask_before_closed_pages();
    ask_with_nothing_to_read();
    return 0;
}
