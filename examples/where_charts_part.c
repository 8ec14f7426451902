/* Takes two files with sheets as arguments and writes whether their charts are equal in behaviour, or where they part: the shortest action
   sequence whose readings differ, then both readings side by side, a line for the start and one for each action. Or the refusal. */
#include "pilfstera.h"
#include <stdio.h>

/* Two charts, one for each sheet, with their lengths, and what a run of the sequence that parts them reads. */
static uint8_t charts[2][PILFSTERA_CHART];
static size_t lengths[2];
static uint16_t readings[2][PILFSTERA_RUN_ROOM(PILFSTERA_PART)];

/* Makes the chart of the sheet in a file. 0 where it is made, else the exit status. */
static int make_chart(const char *name, uint8_t *chart, size_t *length) {
    uint8_t sheet[PILFSTERA_SHEET + 1], list[PILFSTERA_LIST];
    size_t blocks = 0;
    FILE *file = fopen(name, "rb");
    if (!file) {
        perror(name);
        return 2;
    }
    size_t count = fread(sheet, 1, sizeof sheet, file);
    fclose(file);
    unsigned refused = pilfstera_make(sheet, count, chart, PILFSTERA_CHART, list, sizeof list, &blocks);
    if (refused) {
        printf("%s: refused %u at %zu\n", name, refused, blocks);
        return 1;
    }
    *length = PILFSTERA_CHART_LENGTH(blocks, chart[5]);
    return 0;
}

static void write_parting(const uint8_t *actions, size_t count) {
    size_t entries, barred;
    /* the charts have these actions, so that the runs are not refused */
    for (int i = 0; i < 2; i++)
        pilfstera_run_chart(charts[i], lengths[i], actions, count, readings[i], PILFSTERA_RUN_ROOM(count), &entries, &barred);
    printf("part after %zu %s", count, count == 1 ? "action" : "actions");
    for (size_t i = 0; i < count; i++)
        printf("%s%d", i ? " " : ": ", actions[i]);
    printf("\nstart: %d %d\n", readings[0][0], readings[1][0]);
    for (size_t i = 0; i < count; i++)
        printf("action %d: %d %d\n", actions[i], readings[0][i + 1], readings[1][i + 1]);
}

int main(int count, char **words) {
    uint8_t actions[PILFSTERA_PART], equal = 0;
    size_t returned = 0;
    if (count != 3) {
        fputs("usage: where_charts_part SHEET SHEET\n", stderr);
        return 2;
    }
    for (int i = 0; i < 2; i++) {
        int status = make_chart(words[i + 1], charts[i], &lengths[i]);
        if (status)
            return status;
    }
    unsigned refused = pilfstera_part(charts[0], lengths[0], charts[1], lengths[1], actions, sizeof actions, &returned, &equal);
    if (refused) {
        /* a chart that was made obeys the chart rules, so the two of them have different numbers of actions */
        printf("both sheets: refused %u at %zu\n", refused, returned);
        return 1;
    }
    if (equal)
        puts("equal in behaviour");
    else
        write_parting(actions, returned);
    return 0;
}
