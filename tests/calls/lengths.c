/* Writes the lengths and limits of the header, as C and as C++, the refusal of an empty sheet, the ways to two blocks of the sample sheet
   and the refusal of a third, the depth of the sample chart, where it parts from another, from itself and from none, the set-points of a carry rule and of a set rule, the counts of a counter that
   goes round, none and its refusal, and what is told of two logs. */
#include "pilfstera.h"
#include <inttypes.h>
#include <stdio.h>

int main(void) {
    uint8_t chart[PILFSTERA_CHART_LENGTH(PILFSTERA_MOST_BLOCKS, PILFSTERA_MOST_ACTIONS)];
    uint8_t narrow[PILFSTERA_LIST_LENGTH(1, PILFSTERA_MOST_BLOCKS, PILFSTERA_MOST_COUNTERS)];
    uint8_t wide[PILFSTERA_LIST_LENGTH(2, PILFSTERA_MOST_BLOCKS, PILFSTERA_MOST_COUNTERS)];
    uint16_t entries[PILFSTERA_RUN_ROOM(PILFSTERA_ACTIONS)];
    uint8_t way[PILFSTERA_WAY_ROOM(PILFSTERA_MOST_BLOCKS)];
    uint8_t part[PILFSTERA_PART_ROOM(PILFSTERA_MOST_BLOCKS, PILFSTERA_MOST_BLOCKS)], equal = 0;
    uint8_t sheet[43] = {'M', 'S', 'H', 1, 0, 1, 1, 2, 0, 2, 0, 10, 0, 0, 0, 0, 7, 0, 1, 0, 1, 0, 2, 1, 0, 0, 0, 20, 0, 0, 8, 0, 15};
    uint8_t sample[] = {'B', 'C', 'H', 1, 0, 1, 3, 10, 0, 1, 10, 0, 2, 20, 0, 255};
    uint8_t another[] = {'B', 'C', 'H', 1, 0, 1, 3, 10, 0, 1, 10, 0, 2, 30, 0, 255};
    size_t returned = 1;
    int64_t old = 0, remainder = 0;
    const uint64_t increments[] = {8, 3};
    uint64_t counts[PILFSTERA_MOST_INCREMENTS];
    const uint16_t log[] = {10, 10, 20, PILFSTERA_SKIPPED}, other[] = {10, 10, 30};
    struct pilfstera_log rest = {log, 0};
    printf("%d %d %d %d\n", PILFSTERA_SHEET, PILFSTERA_CHART, PILFSTERA_LIST, PILFSTERA_ACTIONS);
    printf("%d %d\n", PILFSTERA_VERSION_1_SHEET, PILFSTERA_VERSION_1_LIST);
    printf("%d %d %d %d\n", PILFSTERA_MOST_BLOCKS, PILFSTERA_MOST_ACTIONS, PILFSTERA_MOST_COUNTERS, PILFSTERA_MOST_REGIONS);
    printf("%zu %zu %zu %zu\n", sizeof chart, sizeof narrow, sizeof wide, sizeof entries / sizeof entries[0]);
    printf("%d %zu\n", PILFSTERA_WAY, sizeof way);
    printf("%d %zu\n", PILFSTERA_PART, sizeof part);
    printf("%zu %zu\n", PILFSTERA_BOUND_SIZE(1), PILFSTERA_BOUND_SIZE(2));
    printf("%d\n", PILFSTERA_SKIPPED);
    printf("%d %d %d %d %d\n", PILFSTERA_SET, PILFSTERA_CARRY, PILFSTERA_MOST_FACTOR, PILFSTERA_MOST_OFFSET, PILFSTERA_MOST_VALUE);
    printf("%d %d %d\n", PILFSTERA_LEAST_MODULUS, PILFSTERA_MOST_MODULUS, PILFSTERA_MOST_INCREMENTS);
    unsigned refused = pilfstera_check_sheet(sheet, 0, &returned);
    printf("refused %u at %zu\n", refused, returned);
    if (pilfstera_way(sheet, sizeof sheet, 0, way, sizeof way, &returned) == 0)
        printf("way of %zu\n", returned);
    if (pilfstera_way(sheet, sizeof sheet, 2, way, PILFSTERA_WAY_ROOM(3), &returned) == 0)
        printf("way of %zu: %d %d\n", returned, way[0], way[1]);
    refused = pilfstera_way(sheet, sizeof sheet, SIZE_MAX, way, 0, &returned);
    printf("refused %u at %zu\n", refused, returned);
    if (pilfstera_depth(sample, sizeof sample, &returned) == 0)
        printf("depth %zu\n", returned);
    if (pilfstera_part(sample, sizeof sample, another, sizeof another, part, PILFSTERA_PART_ROOM(3, 3), &returned, &equal) == 0 && !equal)
        printf("part after %zu: %d %d\n", returned, part[0], part[1]);
    if (pilfstera_part(sample, sizeof sample, sample, sizeof sample, part, sizeof part, &returned, &equal) == 0 && equal)
        printf("equal, %zu\n", returned);
    refused = pilfstera_part(sample, sizeof sample, another, 0, part, 0, &returned, &equal);
    printf("refused %u at %zu\n", refused, returned);
    if (pilfstera_set_point(PILFSTERA_CARRY, 3, 5, 16, &returned, &old, &remainder) == 0)
        printf("old value %" PRId64 ", remainder %" PRId64 "\n", old, remainder);
    returned = 1;
    refused = pilfstera_set_point(PILFSTERA_SET, 3, 5, 16, &returned, &old, &remainder);
    printf("refused %u at %zu\n", refused, returned);
    if (pilfstera_go_round(12, 1, 3, increments, 2, counts, &returned) == 0)
        printf("counts, %zu: %" PRIu64 " %" PRIu64 " .. %" PRIu64 "\n", returned, counts[0], counts[1], counts[7]);
    if (pilfstera_go_round(12, 1, 3, increments, 1, counts, &returned) == 0 && returned == 0)
        puts("none");
    returned = 1;
    refused = pilfstera_go_round(12, 1, 12, increments, 2, counts, &returned);
    printf("refused %u at %zu\n", refused, returned);
    printf("first difference %zu\n", pilfstera_first_difference(log, 4, other, 3));
    pilfstera_rest(other, 2, log, 4, &rest);
    printf("rest of %zu: %d %d\n", rest.length, rest.entries[0], rest.entries[1]);
    return 0;
}
