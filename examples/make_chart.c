/* Reads a sheet from standard input and writes its chart as hexadecimal, or the refusal. */
#include "pilfstera.h"
#include <stdio.h>

int main(void) {
    uint8_t sheet[PILFSTERA_SHEET + 1], chart[PILFSTERA_CHART], list[PILFSTERA_LIST];
    size_t length = fread(sheet, 1, sizeof sheet, stdin), returned = 0;
    unsigned refused = pilfstera_make(sheet, length, chart, sizeof chart, list, sizeof list, &returned);
    if (refused) {
        printf("refused %u at %zu\n", refused, returned);
        return 1;
    }
    for (size_t i = 0; i < PILFSTERA_CHART_LENGTH(returned, chart[5]); i++)
        printf(i ? " %02X" : "%02X", chart[i]);
    printf("\n");
    return 0;
}
