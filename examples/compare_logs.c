/* Takes the labels of two logs as arguments, parted by --, and writes the first index at which they differ, or that they are equal, or
   which of them is the beginning of the other and what is left of that. */
#include "pilfstera.h"
#include <ctype.h>
#include <stdio.h>
#include <stdlib.h>
#include <string.h>

/* Whether a word is a label, a number from 0 to 65535 in digits, and nothing else. */
static int is_label(const char *word, uint16_t *label) {
    char *end;
    unsigned long number = strtoul(word, &end, 10);
    *label = (uint16_t)number;
    /* strtoul itself takes leading space and a sign, and gives the greatest number where one does not fit */
    return isdigit((unsigned char)word[0]) && *end == 0 && number <= UINT16_MAX;
}

/* Stores the labels of both logs, one behind the other, and counts them. Whether all words are labels, but for one that parts the logs. */
static int read_logs(int count, char **words, uint16_t *labels, size_t lengths[2]) {
    int log = 0;
    for (int i = 1; i < count; i++) {
        if (log == 0 && strcmp(words[i], "--") == 0)
            log = 1;
        else if (is_label(words[i], &labels[lengths[0] + lengths[1]]))
            lengths[log]++;
        else
            return 0;
    }
    return log;
}

static const char *entries(size_t count) {
    return count == 1 ? "entry" : "entries";
}

static void compare(const uint16_t *first, size_t first_length, const uint16_t *second, size_t second_length) {
    size_t index = pilfstera_first_difference(first, first_length, second, second_length);
    if (index < first_length && index < second_length) {
        printf("differ at index %zu\n", index);
        return;
    }
    struct pilfstera_log rest = {first, 0};
    pilfstera_rest(first, first_length, second, second_length, &rest);
    if (rest.length == 0) {
        printf("equal, %zu %s\n", index, entries(index));
        return;
    }
    /* the rest lies in the longer log itself, so it tells where it begins there */
    int of_second = first_length < second_length;
    size_t start = (size_t)(rest.entries - (of_second ? second : first));
    printf("the %s is the beginning of the %s, ", of_second ? "first" : "second", of_second ? "second" : "first");
    printf("%zu %s left from index %zu:", rest.length, entries(rest.length), start);
    for (size_t i = 0; i < rest.length; i++)
        printf(" %u", (unsigned)rest.entries[i]);
    putchar('\n');
}

int main(int count, char **words) {
    size_t lengths[2] = {0, 0};
    /* the program's name is a word as well, so there are fewer labels */
    uint16_t *labels = malloc((size_t)count * sizeof *labels);
    if (!labels)
        abort();
    int parted = read_logs(count, words, labels, lengths);
    if (parted)
        compare(labels, lengths[0], labels + lengths[0], lengths[1]);
    else
        fputs("usage: compare_logs [LABEL..] -- [LABEL..]\n", stderr);
    free(labels);
    return parted ? 0 : 2;
}
