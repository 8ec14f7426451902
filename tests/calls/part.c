/* Lays charts beside each other that lie right before a page that cannot be read, where they cannot be written either, with the buffer right
   before such a page: a read behind either chart, or a write behind the buffer, ends the program. Writes the number of the refusal and what
   was stored. Then come charts of which only the header can be read, with lengths up to the end of size_t. No caller may rely on that, since
   a length promises memory that can be read; what is tried there is the work done. */
#define _DEFAULT_SOURCE
#include "pilfstera.h"
#include <stdio.h>
#include <stdlib.h>
#include <string.h>
#include <sys/mman.h>
#include <unistd.h>

/* What stands in the buffer, and in the place of `equal`, before a call. */
enum { NOISE = 0xA5 };

/* A chart, or the beginning of one that has this length. */
struct chart { const uint8_t *bytes; size_t length; };

/* So many bytes right before a page without access. They can be altered themselves, or not. */
static uint8_t *closed_behind(const uint8_t *bytes, size_t count, int access) {
    size_t page = (size_t)sysconf(_SC_PAGESIZE);
    uint8_t *pages = mmap(NULL, 2 * page, PROT_READ | PROT_WRITE, MAP_PRIVATE | MAP_ANONYMOUS, -1, 0);
    if (pages == MAP_FAILED) {
        perror("pages");
        exit(1);
    }
    uint8_t *closed = pages + page - count;
    memcpy(closed, bytes, count);
    if (mprotect(pages, page, access) != 0 || mprotect(pages + page, page, PROT_NONE) != 0) {
        perror("pages");
        exit(1);
    }
    return closed;
}

static struct chart closed_chart(const uint8_t *bytes, size_t count) {
    struct chart chart = {closed_behind(bytes, count, PROT_READ), count};
    return chart;
}

static void ask(const char *what, struct chart first, struct chart second, size_t room) {
    uint8_t noise[PILFSTERA_PART], equal[3] = {NOISE, NOISE, NOISE};
    size_t returned = 77;
    memset(noise, NOISE, sizeof noise);
    uint8_t *actions = closed_behind(noise, room, PROT_READ | PROT_WRITE);
    unsigned refused = pilfstera_part(first.bytes, first.length, second.bytes, second.length, actions, room, &returned, &equal[1]);
    printf("%s: %u, returned %zu, equal ", what, refused, returned);
    if (equal[1] == NOISE)
        printf("as it was,");
    else
        printf("%d,", equal[1]);
    size_t written = 0;
    while (written < room && actions[written] != NOISE)
        printf(" %d", actions[written++]);
    puts(memcmp(actions + written, noise, room - written) ? " altered further on" : written ? "" : " nothing written");
    if (equal[0] != NOISE || equal[2] != NOISE)
        puts("altered beside equal");
    /* what was written is there, should the next call end the program */
    fflush(stdout);
}

static void ask_both_ways(const char *what, struct chart first, struct chart second, size_t room) {
    ask(what, first, second, room);
    ask(what, second, first, room);
}

static struct chart of_length(struct chart chart, size_t length) {
    chart.length = length;
    return chart;
}

int main(void) {
    /* three blocks in a row; the same with another label, or a bar, at the end; two actions */
    static const uint8_t row[] = {'B', 'C', 'H', 1, 0, 1, 3, 10, 0, 1, 10, 0, 2, 20, 0, 2};
    static const uint8_t labelled[] = {'B', 'C', 'H', 1, 0, 1, 3, 10, 0, 1, 10, 0, 2, 30, 0, 2};
    static const uint8_t barred[] = {'B', 'C', 'H', 1, 0, 1, 3, 10, 0, 1, 10, 0, 2, 20, 0, 255};
    static const uint8_t wider[] = {'B', 'C', 'H', 1, 0, 2, 1, 10, 0, 0, 0};
    struct chart plain = closed_chart(row, sizeof row), same = closed_chart(row, sizeof row);
    struct chart other = closed_chart(labelled, sizeof labelled), bars = closed_chart(barred, sizeof barred);
    struct chart wide = closed_chart(wider, sizeof wider), header = closed_chart(row, 7), none = closed_chart(row, 0);
    ask("equal", plain, same, 5);
    ask("one and the same", plain, plain, 5);
    ask_both_ways("another label", plain, other, 5);
    ask_both_ways("a bar", plain, bars, 5);
    ask_both_ways("a buffer one byte short", plain, bars, 4);
    ask("no buffer", plain, same, 0);
    ask_both_ways("two actions and one", plain, wide, 0);
    ask_both_ways("cut behind the header", plain, header, 5);
    ask_both_ways("no chart", plain, none, 5);
    ask_both_ways("all but the last byte", plain, of_length(closed_chart(row, sizeof row - 1), sizeof row - 1), 5);

    /* 32 bits do not hold these lengths; raised by the first's 16 bytes, the last ones do not fit into 64 */
    static const size_t lengths[] = {
        ((size_t)1 << 32) + 16, (size_t)1 << 63, SIZE_MAX - 17, SIZE_MAX - 16, SIZE_MAX - 15, SIZE_MAX - 1, SIZE_MAX};
    for (size_t i = 0; i < sizeof lengths / sizeof lengths[0]; i++) {
        printf("of length %zu, ", lengths[i]);
        ask("the second", plain, of_length(header, lengths[i]), 5);
        printf("of length %zu, ", lengths[i]);
        ask("the first", of_length(header, lengths[i]), plain, 5);
    }
    return 0;
}
