/* Reads a sheet from standard input and writes how many blocks its chart has and its settling depth, or the refusal. */
#include "pilfstera.h"
#include <stdio.h>

int main(void) {
    uint8_t sheet[PILFSTERA_SHEET + 1], chart[PILFSTERA_CHART], list[PILFSTERA_LIST];
    size_t length = fread(sheet, 1, sizeof sheet, stdin), blocks = 0, depth = 0;
    unsigned refused = pilfstera_make(sheet, length, chart, sizeof chart, list, sizeof list, &blocks);
    if (refused) {
        printf("refused %u at %zu\n", refused, blocks);
        return 1;
    }
    /* a chart that was made obeys the chart rules, so this one is not refused */
    pilfstera_depth(chart, PILFSTERA_CHART_LENGTH(blocks, chart[5]), &depth);
    printf("%zu blocks, settling depth %zu\n", blocks, depth);
    return 0;
}
