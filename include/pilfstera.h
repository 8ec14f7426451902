/* Pilfstera for C and C++: link libpilfstera.a, which `tools/static-library` writes into target/staticlib.

   Each function returns 0 where it was done, else the number of the refusal, 1 to 16, 19 or 22, and stores a number through
   `returned`: what its comment says where it was done, else what the table says. A refusal alters no buffer. The last two, which compare
   logs, are the exception: they refuse nothing and have no `returned`. Nothing is asked of what the buffers hold.

   A slice is a pointer and a length, in bytes or in entries of 16 or 64 bits. A pointer beside a length of 0 is not read, but is not
   null either. No two of the buffers and numbers that are written may overlap, and none of them a buffer that is read. The functions
   allocate nothing and keep nothing from call to call, so threads may call them at once; making a chart, finding the
   way to a block, or where two charts part, takes less than 64 KiB of stack.

   A sheet has version 1 or 2, which is its byte 3. Version 1 has bounds and start values of 16 bits, and offsets from -4,000,000 to
   4,000,000; version 2 has bounds and start values of 32 bits, from -1,000,000 to 1,000,000, and offsets from -200,000,000 to
   200,000,000. The bounds of a box list have as many bits as those of its sheet. A chart has no bounds: sheets that behave alike give
   the same chart, whatever their versions.

   Refusal  Of                 Why                                                          `*returned`
     1      sheet, chart       shorter than its header, or wrong mark or version            0
     2      sheet, chart       a count outside its limits                                   place of the first
     3      sheet, chart, run  length differs from what the counts give; a sequence
                               above 4,096 actions                                          actual length
     4      sheet, chart       a field with a value that is not allowed, such as the
                               label 65,535, or a bound beyond its limits                   its place; of high, where low is above it
     5      sheet              a label repeated                                             place of the later label
     6      sheet              two regions that share a configuration                       place of the later region
     7      sheet              the start is in no region                                    8, place of the start state
     8      sheet              an open move that leads out of all regions                   place of the first such move record
     9      making, way        more than 255 blocks                                         0
    10      making, run, way,
            two charts         a buffer too short; chart, then list                         length needed, in entries of the buffer
    11      run                an action that the sheet or chart lacks                      index of the first
    12      chart              blocks not numbered as first named                           place of the target or record
    13      chart              same label, other actions barred                             place of the later record
    14      chart              two blocks that no sequence tells apart                      place of the later record
    15      way                a block number not below the number of blocks                the number of blocks
    16      two charts         different numbers of actions                                 5, place of the number of actions
    19      set-point          no carry rule with allowed factor and offset, or the
                               wanted value beyond its bounds                               0
    22      going round        modulus, number of increments, start, an increment or
                               the wanted value outside its limits                          0

   Places count bytes from 0. The first check that fails gives the refusal. Checks run in the order of their numbers, except that a
   run checks its sheet or chart, then 3 for the sequence, 11, 10, and a way its sheet, then 9, 15, 10. Of two charts the first is
   checked, then the second, then come 16 and 10. What a refusal of the second chart returns, be it a place, a length or 0, is raised by
   the first's length: so its places count on from the end of the first. Where the sum does not fit, it is SIZE_MAX. */
#ifndef PILFSTERA_H
#define PILFSTERA_H

#include <stddef.h>
#include <stdint.h>

/* Longest sheet, chart and box list in bytes, of either version, and longest sequence of actions. Every chart and box list fits into
   buffers of these lengths. A reader of sheets may stop one byte past the longest: whatever is longer is refused. */
enum { PILFSTERA_SHEET = 6773, PILFSTERA_CHART = 2557, PILFSTERA_LIST = 6375, PILFSTERA_ACTIONS = 4096 };

/* Longest sheet and box list of version 1, for callers that meet no other. */
enum { PILFSTERA_VERSION_1_SHEET = 6383, PILFSTERA_VERSION_1_LIST = 3315 };

/* Most blocks of a chart, and most actions, counters and regions of a sheet. Blocks and actions are numbered from 0; 255 in the place
   of a chart's target says that the action is barred. */
enum { PILFSTERA_MOST_BLOCKS = 255, PILFSTERA_MOST_ACTIONS = 8, PILFSTERA_MOST_COUNTERS = 3, PILFSTERA_MOST_REGIONS = 32 };

/* Bytes of a bound, in a sheet of a version and in its box list: 2 for version 1, 4 for version 2. */
#define PILFSTERA_BOUND_SIZE(version) ((version) == 1 ? (size_t)2 : (size_t)4)

/* Bytes of a chart and of a box list. Byte 5 of a chart is its number of actions; bytes 3, 5 and 6 of an accepted sheet are its version
   and its numbers of counters and of actions. */
#define PILFSTERA_CHART_LENGTH(blocks, actions) (7 + (size_t)(blocks) * (2 + (size_t)(actions)))
#define PILFSTERA_LIST_LENGTH(version, blocks, counters) \
    ((size_t)(blocks) * (1 + 2 * PILFSTERA_BOUND_SIZE(version) * (size_t)(counters)))

/* Entries that a run writes: one for the start, and one for each action. */
#define PILFSTERA_RUN_ROOM(actions) ((size_t)(actions) + 1)

/* Bytes of the longest way to a block, and those that the buffer for a way needs on a chart of so many blocks, whichever block is asked
   for. */
enum { PILFSTERA_WAY = 254 };
#define PILFSTERA_WAY_ROOM(blocks) ((size_t)(blocks) - 1)

/* Bytes of a buffer that suffices for where any two charts part, and those that the buffer needs for charts of so many blocks, also where
   they are equal in behaviour. */
enum { PILFSTERA_PART = 509 };
#define PILFSTERA_PART_ROOM(first_blocks, second_blocks) ((size_t)(first_blocks) + (size_t)(second_blocks) - 1)

/* What a run writes in the place of a label for an action that is barred. No label is this number: as one it is refused 4. */
enum { PILFSTERA_SKIPPED = 65535 };

/* Kinds of a rule, as in a sheet's rule record: a set rule gives one value whatever the old one was, a carry rule factor * x + offset
   for the old value x. */
enum { PILFSTERA_SET = 0, PILFSTERA_CARRY = 1 };

/* Most that a carry rule's factor, its offset and a wanted value are without their signs, as in version 2 of the sheet. No factor is 0. */
enum { PILFSTERA_MOST_FACTOR = 100, PILFSTERA_MOST_OFFSET = 200000000, PILFSTERA_MOST_VALUE = 1000000 };

/* Least and most that the modulus of a counter that goes round is, and most increments of one call; there is at least one. Start, wanted
   value and increments are from 0 to one less than the modulus. */
enum { PILFSTERA_LEAST_MODULUS = 2, PILFSTERA_MOST_MODULUS = 65536, PILFSTERA_MOST_INCREMENTS = 8 };

/* A log of labels, or a part of one: so many entries, from a pointer on. */
struct pilfstera_log { const uint16_t *entries; size_t length; };

#ifdef __cplusplus
extern "C" {
#endif

/* Checks a sheet: refusals 1 to 8. `returned` is 0 where it is accepted. */
uint8_t pilfstera_check_sheet(const uint8_t *sheet, size_t length, size_t *returned);

/* Makes a sheet's chart and box list: refusals 1 to 10. `returned` is the number of blocks N. For A actions and V counters, and bounds of
   w bytes (2 or 4, by the version), the chart takes 7 + N * (2 + A) bytes and the list N * (1 + 2 * w * V), from the front of each buffer;
   what lies behind is left as it was. */
uint8_t pilfstera_make(const uint8_t *sheet, size_t length, uint8_t *chart, size_t chart_room, uint8_t *list,
                       size_t list_room, size_t *returned);

/* Checks a chart: refusals 1 to 4 and 12 to 14. `length` is the chart's own, not that of its buffer. `returned` is 0 where it is
   accepted. */
uint8_t pilfstera_check_chart(const uint8_t *chart, size_t length, size_t *returned);

/* The settling depth of a chart: refusals 1 to 4 and 12 to 14, those of its check. `length` is the chart's own, not that of its buffer.
   `returned` is the depth d, the length of the sequences that a bench plan needs: every two blocks are told apart by some sequence of at
   most d actions, and where d is above 0, some two of them by none shorter. A sequence tells two blocks apart if what a run writes from
   the one differs from what it writes from the other, where the first entry is the block's own label. For N blocks, d is at most N less
   the number of different labels, so never above 253; it is 0 for one block, and where no two blocks have the same label. */
uint8_t pilfstera_depth(const uint8_t *chart, size_t length, size_t *returned);

/* Runs `count` actions on a sheet or on a chart: refusals of the sheet or chart, then 3, 11 and 10. Writes the label of the start, then an
   entry for each action: the label where it leads, or PILFSTERA_SKIPPED where it is barred. A barred action changes nothing, and the
   run goes on. `room` counts entries and must be above `count`. `returned` is the number of entries written, `count` + 1, from the
   front; what lies behind is left as it was. `barred` is the index of the first barred action, or `count` if nothing was barred, and
   is left as it was by a refusal. */
uint8_t pilfstera_run_sheet(const uint8_t *sheet, size_t length, const uint8_t *actions, size_t count, uint16_t *entries,
                            size_t room, size_t *returned, size_t *barred);
uint8_t pilfstera_run_chart(const uint8_t *chart, size_t length, const uint8_t *actions, size_t count, uint16_t *entries,
                            size_t room, size_t *returned, size_t *barred);

/* The way to a block of a sheet's chart, the action sequence that brings a controller there from its start: refusals 1 to 9, then 15 and
   10. Writes the shortest sequence that leads from the start to a configuration of the block, and of several the one that comes first in
   dictionary order by action number, a byte for each action. `returned` is its length, 0 for block 0; only so many bytes are written, from
   the front, and what lies behind is left as it was. Blocks are numbered from 0, as in the chart and the box list that pilfstera_make gives
   for the same sheet; any number may be handed in. For N blocks `room` must be at least N - 1, also where the way is shorter. No way is
   longer, and none has a barred action: a run of it on the sheet ends inside the box that record `block` of the box list holds. It takes
   about as long as making the chart. */
uint8_t pilfstera_way(const uint8_t *sheet, size_t length, size_t block, uint8_t *actions, size_t room, size_t *returned);

/* Where two charts part: refusals 1 to 4 and 12 to 14 of the first, then of the second, then 16 and 10. Says that the charts are equal in
   behaviour, or writes the shortest action sequence whose readings differ, and of several the one that comes first in dictionary order by
   action number, a byte for each action. A reading is what pilfstera_run_chart writes: the label of block 0, then for each action the label
   where it leads, or PILFSTERA_SKIPPED where it is barred. So the last entries of the two readings differ, and no others. Each length is the
   chart's own, not that of its buffer; the two may be one and the same chart.

   `equal` is 1 where no sequence of whatever length reads differently on the two, and `returned` is 0 then. Else `equal` is 0 and `returned`
   is the length of the sequence: 0 where the blocks 0 have different labels, which the empty sequence reads. Only so many bytes are written,
   from the front, and what lies behind is left as it was. For N1 and N2 blocks `room` must be at least N1 + N2 - 1, also where the sequence
   is shorter or the charts are equal; no sequence is longer. A refusal leaves `equal` as it was. Beside the checks of the two charts it takes
   at most N1 + N2 - 1 looks at the actions of two blocks. */
uint8_t pilfstera_part(const uint8_t *first, size_t first_length, const uint8_t *second, size_t second_length, uint8_t *actions,
                       size_t room, size_t *returned, uint8_t *equal);

/* The set-point of a rule, the old value that brings a counter to a wanted reading or just below it: refusal 19. A carry rule gives
   factor * x + offset for the old value x. `old` is the x and `remainder` the r with wanted - offset = factor * x + r and r from 0 to one
   less than the factor without its sign. Exactly one such pair exists, for a negative factor and a negative wanted value too. A fitter
   reads from it that with x the rule gives wanted - r, so just the wanted value where r is 0. For a positive factor no greater old value
   stays at or below the wanted value, for a negative factor no smaller one. So a carry with factor 3 and offset 5 and the wanted value 16
   give x = 3 and r = 2, since 3 * 3 + 5 = 14 is 2 below. `returned` is 0. x is at most 201,000,000 without its sign and need not lie in
   any region; r is at most 99.

   Refused are every `kind` but PILFSTERA_CARRY, whatever the other numbers are, a factor that is 0 or beyond PILFSTERA_MOST_FACTOR, an
   offset beyond PILFSTERA_MOST_OFFSET, and a wanted value beyond PILFSTERA_MOST_VALUE, on either side of 0. A refusal leaves `old` and
   `remainder` as they were. Any numbers may be handed in, the ends of int64_t too. The source of the rule plays no part. It takes a fixed
   number of steps. */
uint8_t pilfstera_set_point(uint8_t kind, int64_t factor, int64_t offset, int64_t wanted, size_t *returned, int64_t *old,
                            int64_t *remainder);

/* How often to use each of some increments, so that a counter that goes round comes from its start to a wanted value: refusal 22. Such a
   counter, as of a dial without end stops, counts modulo `modulus`. `counts` are numbers from 0 to one less than the modulus, for which the
   start and the sum of counts[i] * increments[i] give the wanted value modulo `modulus`; of all that do, those that come first in dictionary
   order, so with the least counts[0], then with the least counts[1], and so on. All eight are written: one for each of the `count`
   increments, in their order, then 0. `returned` is 8, or 0 where no counts lead to the wanted value, just if wanted value and start differ
   modulo the greatest common divisor of the modulus and all increments; `counts` are left as they were then. So the modulus 12, the start
   1, the wanted value 3 and the increments 8 and 3 give 1 and 2, since 1 + 1 * 8 + 2 * 3 = 15, which is 3 modulo 12; and the wanted value 2
   gives none with the increments 8 and 6, since all that they reach from 1 is odd.

   Refused are a modulus below PILFSTERA_LEAST_MODULUS or above PILFSTERA_MOST_MODULUS, a `count` of 0 or above PILFSTERA_MOST_INCREMENTS,
   beside which no increment is read, and a start, a wanted value or an increment that is not below the modulus. A refusal leaves `counts` as
   they were. Any numbers may be handed in, the ends of uint64_t too. It takes at most 36 steps of Euclid's algorithm and a few operations for
   each increment, whatever the modulus. */
uint8_t pilfstera_go_round(uint64_t modulus, uint64_t start, uint64_t wanted, const uint64_t *increments, size_t count,
                           uint64_t counts[PILFSTERA_MOST_INCREMENTS], size_t *returned);

/* Two logs of the same run, laid beside each other: returns the first index at which they differ, or the length of the shorter log where
   they differ at no index that both have. So they differ just if the index is below both lengths. 10 10 20 and 10 10 30 20 give 2;
   10 10 and 10 10 30 give 2 as well, the length of the first. Logs of any lengths, 0 too, and any entries, PILFSTERA_SKIPPED too, are
   answered. The logs are only read, so they may overlap or be one and the same. It takes one comparison for each index up to the first
   difference; what lies behind is not read and has no influence. */
size_t pilfstera_first_difference(const uint16_t *first, size_t first_length, const uint16_t *second, size_t second_length);

/* What is left of the longer of two logs where the other is its beginning: stores through `rest` the part of the caller's own log from the
   length of the shorter on. Equal logs, and logs that differ, give the empty rest of the first, the one at its end: first + first_length
   and the length 0. So 10 10 and 10 10 30 20 give second + 2 and the length 2; 10 10 20 and 10 10 30 20 give first + 3 and 0. Whether
   logs differ or are equal is told by pilfstera_first_difference. All that is said there of what is answered, read and compared holds here
   as well. Nothing is copied: what is stored is valid for as long as the caller's log is.

   Before the call `*rest` must hold a log too, whose pointer is not null, such as first and 0; it is only written, so that this log is
   replaced and its entries are neither read nor altered. `*rest` must not lie inside either log. */
void pilfstera_rest(const uint16_t *first, size_t first_length, const uint16_t *second, size_t second_length,
                    struct pilfstera_log *rest);

#ifdef __cplusplus
}
#endif

#endif
