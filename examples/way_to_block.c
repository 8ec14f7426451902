/* Reads a sheet from standard input and writes the way to a block of its chart, which is named as argument: the shortest action sequence that
   brings a controller there from its start. Or the refusal. */
#include "pilfstera.h"
#include <errno.h>
#include <stdio.h>
#include <stdlib.h>

/* A number of digits alone that fits. */
static int read_number(const char *word, size_t *number) {
    char *end;
    if (*word < '0' || *word > '9')
        return 0;
    errno = 0;
    unsigned long long value = strtoull(word, &end, 10);
    *number = (size_t)value;
    return *end == '\0' && errno == 0 && *number == value;
}

int main(int count, char **words) {
    uint8_t sheet[PILFSTERA_SHEET + 1], actions[PILFSTERA_WAY];
    size_t block = 0, returned = 0;
    if (count != 2 || !read_number(words[1], &block)) {
        fputs("usage: way_to_block BLOCK < SHEET\n", stderr);
        return 2;
    }
    size_t length = fread(sheet, 1, sizeof sheet, stdin);
    unsigned refused = pilfstera_way(sheet, length, block, actions, sizeof actions, &returned);
    if (refused) {
        printf("refused %u at %zu\n", refused, returned);
        return 1;
    }
    printf("%zu %s", returned, returned == 1 ? "action" : "actions");
    for (size_t i = 0; i < returned; i++)
        printf("%s%d", i ? " " : ": ", actions[i]);
    puts("");
    return 0;
}
