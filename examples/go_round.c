/* Takes a modulus, the start of a counter, a wanted value and increments as arguments, and writes how often to use each increment and what
   the counter then shows, or that none of this leads to the wanted value, or the refusal. */
#include "pilfstera.h"
#include <ctype.h>
#include <errno.h>
#include <inttypes.h>
#include <stdio.h>
#include <stdlib.h>

/* Whether a word is a number in digits that fits into 64 bits, and nothing else. */
static int is_number(const char *word, uint64_t *number) {
    char *end;
    errno = 0;
    *number = strtoull(word, &end, 10);
    /* strtoull itself takes leading space and a sign */
    return isdigit((unsigned char)word[0]) && *end == 0 && errno == 0;
}

/* Whether all words behind the program's name are numbers, three or more. */
static int read_numbers(int count, char **words, uint64_t *numbers) {
    for (int i = 1; i < count; i++)
        if (!is_number(words[i], &numbers[i - 1]))
            return 0;
    return count > 3;
}

/* What is shown is counted here once more, from the counts. */
static int go_round(uint64_t modulus, uint64_t start, uint64_t wanted, const uint64_t *increments, size_t count) {
    uint64_t counts[PILFSTERA_MOST_INCREMENTS], shown = start;
    size_t returned = 0;
    unsigned refused = pilfstera_go_round(modulus, start, wanted, increments, count, counts, &returned);
    if (refused) {
        printf("refused %u at %zu\n", refused, returned);
        return 1;
    }
    if (returned == 0) {
        puts("none");
        return 0;
    }
    for (size_t i = 0; i < count; i++) {
        printf("%s%" PRIu64 " times %" PRIu64, i ? ", " : "", counts[i], increments[i]);
        shown += counts[i] * increments[i];
    }
    printf(": the counter shows %" PRIu64 "\n", shown % modulus);
    return 0;
}

int main(int count, char **words) {
    int status = 2;
    /* the program's name is a word as well, so there are fewer numbers */
    uint64_t *numbers = malloc((size_t)count * sizeof *numbers);
    if (!numbers)
        abort();
    if (read_numbers(count, words, numbers))
        status = go_round(numbers[0], numbers[1], numbers[2], numbers + 3, (size_t)count - 4);
    else
        fputs("usage: go_round MODULUS START WANTED [INCREMENT..]\n", stderr);
    free(numbers);
    return status;
}
