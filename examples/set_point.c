/* Takes factor and offset of a carry rule and a wanted value as arguments, and writes which old value brings a counter there or just
   below, or the refusal. */
#include "pilfstera.h"
#include <ctype.h>
#include <errno.h>
#include <inttypes.h>
#include <stdio.h>
#include <stdlib.h>

/* Whether a word is a whole number that fits, and nothing else. */
static int is_number(const char *word, int64_t *number) {
    char *end;
    errno = 0;
    *number = strtoll(word, &end, 10);
    /* strtoll itself passes over leading space */
    return !isspace((unsigned char)word[0]) && end != word && *end == 0 && errno == 0;
}

int main(int count, char **words) {
    int64_t factor, offset, wanted, old = 0, remainder = 0;
    size_t returned = 0;
    if (count != 4 || !is_number(words[1], &factor) || !is_number(words[2], &offset) || !is_number(words[3], &wanted)) {
        fputs("usage: set_point FACTOR OFFSET WANTED\n", stderr);
        return 2;
    }
    unsigned refused = pilfstera_set_point(PILFSTERA_CARRY, factor, offset, wanted, &returned, &old, &remainder);
    if (refused) {
        printf("refused %u at %zu\n", refused, returned);
        return 1;
    }
    printf("old value %" PRId64 " gives %" PRId64, old, factor * old + offset);
    if (remainder)
        printf(", %" PRId64 " below %" PRId64, remainder, wanted);
    putchar('\n');
    return 0;
}
