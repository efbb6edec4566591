/* Ishkrela: plans that move a table between the devices of a mesh.
 *
 * A mesh is a grid of up to 1,024 devices with 1 to 6 axes. A table (a tensor of rank 1 to 4, at
 * most 65,536 words of 32 bits) is spread over it: each dimension is split along some of the axes.
 * How it is spread is its sharding. A plan is a small file that names the mesh's sizes, the
 * table's sizes, the sharding at the start, and up to 64 steps that change it: all-slice,
 * all-gather, all-reduce (by sum), all-to-all and reduce-scatter, and repeats of blocks of steps.
 * State 0 is the start, state k is after the k-th of these steps, where a repeat with all that is in
 * it is one.
 *
 * These calls judge a plan, say where its shards lie, run it, and list device groups; they write the
 * file of a plan and read it back, and make the plan from one sharding to another. Their code is
 * proved to answer what the rules define on every input: any bytes may be handed over, nothing
 * asks for a valid plan, and no call stops the program. Build (for x86-64 Linux) and link:
 *
 *     tools/build
 *     cc -I include program.c target/staticlib/libcapi.a
 *
 * or put it with `tools/install PREFIX` where other programs find it, and let pkg-config say the flags:
 *
 *     cc program.c $(pkg-config --cflags --libs ishkrela)
 *
 *
 * WORDS
 *
 * axis      an axis of the mesh, numbered from 0
 * D         the number of devices, the product of the mesh's sizes
 * device    a device, by its number, 0 to D-1. In plain order that is the row-major number of its
 *           coordinates, the last axis fastest
 * order     the device at each coordinate tuple, tuples in row-major order: how devices are numbered
 *           where it is not the plain way
 * shard     the part of the table that one device holds; its sizes are one number a dimension
 * sharding  for each dimension a list of axes that it is split along, outer to inner; a list of
 *           unreduced axes, along which the devices' shards are parts of a sum; and a list of
 *           axes that are to stay replicated. These and the axes in no list are replicated:
 *           devices that differ only there hold equal shards
 * group     for a list of axes: devices that agree on all other axes. The position in a group
 *           counts along the list, its first axis most significant
 * room      the words that the run of a plan needs: D times the most words of a shard in any state,
 *           inside blocks too, 67,108,864 at most
 * moved     the words that cross between devices when a plan is run: for each new word of each step, the
 *           number of other devices whose word it is made from. A block counts in each of its rounds. A
 *           step moves 1,023 times 67,108,864 at most. With groups of g devices along all axes of the
 *           step, and shards of m words before it: 0 for all-slice, D*m*(g-1) for all-gather and
 *           all-reduce, D*m*(g-1)/g for all-to-all and reduce-scatter
 *
 *
 * A PLAN FILE
 *
 * 18 to 8,192 bytes; 16-bit numbers are little-endian. Without gaps:
 *
 *     header     nine 16-bit numbers: edition, number of axes, rank, number of outermost steps, the
 *                offsets of mesh sizes (18), table sizes, sharding and steps, and the length of the
 *                file
 *     mesh       a 16-bit size for each axis; in edition 3 the order, D 16-bit device numbers
 *     table      a 16-bit size for each dimension
 *     sharding   a list for each dimension, the unreduced list, in editions 2 and 3 the replicated
 *                list
 *     steps      a kind byte, then
 *                    1 all-slice, 2 all-gather   a list for each dimension
 *                    3 all-reduce                one list
 *                    4 all-to-all                source dimension, target dimension (bytes), one list
 *                    5 reduce-scatter            a list for each dimension
 *                    9 repeat                    count, number of inner steps (bytes), these steps
 *
 * A list is a count byte and that many axis bytes. A plan has one file: its edition is 3 where its
 * devices have an order; of those in plain order it is 1 where the replicated list is empty and 2
 * where it is not. docs/PROMISES.md goes through the rules, and crates/rules/specs/PlanFile.antt has
 * them, test by test.
 *
 *
 * THE FIVE STEPS
 *
 * Numbers in parentheses are refusals. Every step names at least one axis (21), and axes of the
 * mesh alone (22). No step changes the replicated list. docs/COLLECTIVES.md draws each step before
 * and after.
 *
 * all-slice   splits further. It has a list for each dimension, of axes in no list of the sharding,
 *             named once (23); each list is joined to the end of its dimension's list. Of its shard
 *             a device keeps, along each dimension, the piece whose number is its position for the
 *             step's list. The pieces are equal: the present shard size is divisible (25)
 * all-gather  joins again. It has a list for each dimension, the tail of its dimension's list in
 *             the same order (24), and that tail is cut off. A device's new shard joins, along each
 *             dimension, the shards of its group in order of position for the step's list
 * all-reduce  adds. It has one strictly increasing list (26) of axes that split no dimension and are
 *             not to stay replicated (27). Each device gets the word-by-word sum over its group,
 *             modulo 2^32; the shard's sizes stay. Unreduced axes become replicated. Along an axis
 *             that no list names the shards of a table are equal, and their sum is the table's words
 *             times the axis's size
 * all-to-all  moves a split from a source dimension to another, the target (28). Its one list is
 *             gathered off the source (24) and then sliced on the target (25), as one step: there
 *             is no state between, and no room is needed for one
 * reduce-scatter
 *             adds and splits. It has a list for each dimension, of unreduced axes (27), each named
 *             once in the step (23). It is an all-reduce along all of them and then the all-slice
 *             with its lists (25), as one step: the axes leave the unreduced list and join the ends of
 *             their dimensions' lists
 *
 *
 * REPEATS
 *
 * A repeat runs a block, its inner steps, as often as its count says: 1 to 255 times (44), a block of
 * 1 to 255 steps (44). These may be repeats themselves, down to depth 4 (42); an outermost repeat has
 * depth 1. After the block the sharding is the one before it, list for list (41). A plan runs at most
 * 4,096 plain steps, the five above, each counted as often as it is run (43). State numbers and the
 * numbers of steps in the header and in the check's answer count outermost steps alone.
 *
 *
 * STEP RECORDS
 *
 * The steps of a plan that is to be written are records, one for each kind byte in file order, those
 * inside a block right after their repeat. A record is an ishkrela_step, 38 bytes: kind, source and
 * target; how many axes each of five lists has; and six places for each list's axes. The first four
 * lists are for dimensions 0 to 3, the fifth is the one list of an all-reduce or an all-to-all. A
 * repeat has its count in source and its number of inner steps in target. What a kind does not use
 * counts for nothing. Records are handed over as bytes, as many as they take; bytes after the last
 * whole record count for nothing:
 *
 *     ishkrela_step gather = {.kind = ISHKRELA_ALL_GATHER, .counts = {0, 1}, .axes = {[6] = 1}};
 *     ishkrela_write(mesh, 2, NULL, 0, table, 2, start, (uint8_t *)&gather, sizeof gather, file, sizeof file);
 *
 *
 * A PLAN IS MADE
 *
 * from a start to a goal, two shardings of one table, in at most three steps: an all-reduce of the
 * start's unreduced axes that are not the goal's; an all-gather that cuts each dimension's list back
 * to its longest common beginning with the goal's list; an all-slice of what then stands in the goal's
 * list. A step that would name no axis is left out. The check accepts every such plan, it ends at the
 * goal, and its run carries a table from the start to the goal. There is none where the goal has an
 * unreduced axis that is not the start's, or where the replicated lists differ (40).
 *
 *
 * REFUSALS
 *
 * Each call answers a refusal as one number, 0 for none. Otherwise it is
 *
 *     refusal number + 256 * step        ISHKRELA_NUMBER(refusal), ISHKRELA_STEP(refusal)
 *
 * where the step is 0 for numbers outside 20 to 28 and 41 to 44. Steps are numbered from 1 by their
 * kind bytes in file order: a repeat has a number, and its inner steps have the next ones. 43 has that
 * of a repeat which alone runs too many plain steps, or else that of the outermost step with which
 * the plan so far does. ISHKRELA_REFUSALS below has the number, the name and the text of each;
 * ishkrela_refusal_text answers the text, and docs/REFUSALS.md has an example of each, and what to do.
 *
 *
 * MEMORY
 *
 * All memory is the caller's. It is used during the call only; nothing is allocated or kept. On a
 * refusal every other field of the answer is 0 (but for the place beside 32), and memory lent for
 * writing is as it was.
 * Compare two answers field by field, not as bytes: what lies between fields has no value.
 *
 * A pointer and the length after it, which counts elements and not bytes, are a slice: the pointer
 * is aligned for its type, and that many elements may be read (and written, where it is not const)
 * and have been written before. Memory lent for writing overlaps no other memory of the call;
 * memory that is only read may overlap. Nothing is read or written through a pointer whose length
 * is 0, so it may be null. The calls keep no state of their own: threads may call at once where none
 * lends memory for writing that another uses.
 *
 * A call takes less than 26 KiB of stack (ISHKRELA_STACK_BYTES): on the cases of tests/ at most 25,472
 * bytes for a run, 12,512 for a placement of a list, 10,608 for one of a device, 8,464 for a read, 8,416
 * for a check, 1,288 for a group listing by an order and 200 for one without; 5,184 for a write and 3,192
 * for making a plan (tests/stack.c, which tools/try_c runs).
 */
#ifndef ISHKRELA_H
#define ISHKRELA_H

#include <stddef.h>
#include <stdint.h>

#ifdef __cplusplus
extern "C" {
#endif

/* The version of this header and of what is linked with it. Before 1.0.0 a new minor version may change
 * a struct: compile and link with what was installed together. */
#define ISHKRELA_VERSION_MAJOR 0
#define ISHKRELA_VERSION_MINOR 1
#define ISHKRELA_VERSION_PATCH 0
#define ISHKRELA_VERSION "0.1.0"

/* The limits, and beside each the refusal of what is beyond it. */
#define ISHKRELA_MOST_AXES 6       /* of a mesh (5) */
#define ISHKRELA_MOST_DEVICES 1024 /* of a mesh, D (11) */
#define ISHKRELA_MOST_DIMS 4       /* of a table, its rank (5) */
#define ISHKRELA_MOST_WORDS 65536  /* of a table (13) */
#define ISHKRELA_MOST_STEPS 64     /* of a plan, outermost ones (5) */
#define ISHKRELA_MOST_RUN 4096     /* of a plan, plain steps that are run (43) */
#define ISHKRELA_MOST_DEPTH 4      /* of a repeat (42) */
#define ISHKRELA_LEAST_BYTES 18    /* of a file (1) */
#define ISHKRELA_MOST_BYTES 8192   /* of a file (2) */
#define ISHKRELA_LATEST_EDITION 3  /* of a file (3) */

/* What no accepted plan's room is above, and the bytes of stack that a call stays below. */
#define ISHKRELA_MOST_ROOM (ISHKRELA_MOST_DEVICES * ISHKRELA_MOST_WORDS)
#define ISHKRELA_STACK_BYTES 26624

/* Every refusal: its number, its name and its text, in one list, so that none has a name and no text.
 * ISHKRELA_REFUSED_NOT_TAIL is 24, and so for each. */
#define ISHKRELA_REFUSALS(X) \
    X(1, FILE_TOO_SHORT, "fewer than 18 bytes") \
    X(2, FILE_TOO_LONG, "more than 8,192 bytes, given or to be written") \
    X(3, UNKNOWN_EDITION, "the edition is none of 1, 2 and 3") \
    X(4, WRONG_LENGTH, "total length is not the number of bytes given") \
    X(5, COUNT_OUTSIDE_LIMITS, "number of axes, rank or number of steps outside its limits") \
    X(6, WRONG_OFFSET, "an offset is wrong") \
    X(7, SECTION_PAST_END, "a section runs past the end; records end inside a block") \
    X(8, LIST_TOO_LONG, "a list's count is above the number of axes") \
    X(9, BYTES_LEFT, "bytes left after the last step") \
    X(10, MESH_SIZE_ZERO, "a mesh size is 0") \
    X(11, TOO_MANY_DEVICES, "the product of mesh sizes passes 1,024") \
    X(12, TENSOR_SIZE_ZERO, "a table size is 0") \
    X(13, TOO_MANY_WORDS, "the product of table sizes passes 65,536") \
    X(14, START_AXIS_TOO_LARGE, "start or goal: no such axis") \
    X(15, START_AXIS_REPEATED, "start or goal: an axis named before") \
    X(16, START_NOT_INCREASING, "start or goal: unreduced or replicated list not strictly increasing") \
    X(17, START_NOT_DIVISIBLE, "start or goal: a dimension is not divisible") \
    X(18, REPLICATED_EMPTY, "start: the replicated list of edition 2 is empty") \
    X(19, WRONG_ORDER, "the order is no rearrangement of 0 to D-1, or it is the plain one") \
    X(20, UNKNOWN_KIND, "unknown kind of step") \
    X(21, NO_AXIS, "a step names no axis") \
    X(22, AXIS_TOO_LARGE, "step: no such axis") \
    X(23, NOT_REPLICATED, "an axis was named earlier in this step or, by an all-slice, " \
                          "is in a list of the sharding") \
    X(24, NOT_TAIL, "the gathered list is not the tail of the dimension's list") \
    X(25, SHARD_NOT_DIVISIBLE, "a dimension's shard size is not divisible") \
    X(26, NOT_INCREASING, "all-reduce: list not strictly increasing") \
    X(27, NOT_REDUCIBLE, "all-reduce: an axis splits a dimension or is to stay replicated; " \
                         "reduce-scatter: an axis is not unreduced") \
    X(28, WRONG_DIMS, "all-to-all: source or target is no dimension, or they are equal") \
    X(30, WORK_TOO_SHORT, "work is shorter than the room") \
    X(31, SPARE_TOO_SHORT, "spare is shorter than the room") \
    X(32, NO_SUCH_DEVICE, "no such device") \
    X(33, OUTPUT_TOO_SHORT, "an output is too short: for all groups, all first indexes, " \
                            "the order or the records of a file") \
    X(34, NO_SUCH_STATE, "no such state") \
    X(35, BUFFER_TOO_SHORT, "the buffer is shorter than the file") \
    X(40, GOAL_OUT_OF_REACH, "the goal has an unreduced axis that is not the start's, or another replicated list") \
    X(41, SHARDING_CHANGED, "repeat: the sharding after the block is not the one before it") \
    X(42, TOO_DEEP, "repeat: deeper than 4") \
    X(43, TOO_MANY_RUN, "more than 4,096 plain steps are run") \
    X(44, REPEAT_OF_NOTHING, "repeat: the count or the number of inner steps is 0")

#define ISHKRELA_NUMBER(refusal) ((refusal) % 256)
#define ISHKRELA_STEP(refusal) ((refusal) / 256)

#define ISHKRELA_NAMED(number, name, text) ISHKRELA_REFUSED_##name = number,
enum ishkrela_refused { ISHKRELA_REFUSALS(ISHKRELA_NAMED) };
#undef ISHKRELA_NAMED

/* The text of a refusal, whatever its step. Never null: that of 0 is "no refusal", and that of a number
 * which no call gives is "unknown refusal". */
static inline const char *ishkrela_refusal_text(uint32_t refusal)
{
    if (refusal == 0)
        return "no refusal";
#define ISHKRELA_CASE(number, name, text) \
    case number:                          \
        return text;
    switch (ISHKRELA_NUMBER(refusal)) {
        ISHKRELA_REFUSALS(ISHKRELA_CASE)
    default:
        return "unknown refusal";
    }
#undef ISHKRELA_CASE
}

/* The six lists of a sharding: dimensions 0 to 3, the unreduced list, and the list of the axes that
 * are to stay replicated. Axis i of a list is ISHKRELA_AXIS(sharding, list, i). In a sharding that is
 * handed over, places that are not used count for nothing, and so do lists of dimensions past the
 * rank; a count above the number of axes, also one above six, is refused (8). */
#define ISHKRELA_UNREDUCED 4
#define ISHKRELA_REPLICATED 5
#define ISHKRELA_AXIS(sharding, list, i) ((sharding).axes[6 * (list) + (i)])
typedef struct {
    uint8_t counts[6]; /* how many axes each list has; 0 for dimensions past the rank */
    uint8_t axes[36];  /* the axes of each list, in six places; 0 in places not used */
} ishkrela_sharding;

/* A step record: the lists of dimensions 0 to 3, then the one list. Axis i of a list is
 * ISHKRELA_AXIS(step, list, i). In an answer places that are not used are 0. */
#define ISHKRELA_ALL_SLICE 1
#define ISHKRELA_ALL_GATHER 2
#define ISHKRELA_ALL_REDUCE 3
#define ISHKRELA_ALL_TO_ALL 4
#define ISHKRELA_REDUCE_SCATTER 5
#define ISHKRELA_REPEAT 9
#define ISHKRELA_ONE_LIST 4
typedef struct {
    uint8_t kind;      /* one of the kinds above */
    uint8_t source;    /* all-to-all: the source dimension; repeat: the count */
    uint8_t target;    /* all-to-all: the target dimension; repeat: the number of inner steps */
    uint8_t counts[5]; /* how many axes each list has */
    uint8_t axes[30];  /* the axes of each list, in six places */
} ishkrela_step;

/* The answer of the check, of the last state. */
typedef struct {
    uint32_t refusal;            /* 0, or the refusal; every other field is then 0 */
    uint32_t room;               /* the words that work and spare need for a run */
    uint16_t devices;            /* D */
    uint16_t steps;              /* the number of outermost steps: of the last state */
    uint16_t rank;               /* the number of dimensions */
    uint16_t shard[4];           /* the sizes of a shard; 0 past the rank */
    ishkrela_sharding sharding;  /* how the table is spread */
    uint64_t moved;              /* the words that a run moves between devices */
} ishkrela_checked;

/* The answer of the run. */
typedef struct {
    uint32_t refusal;  /* 0, or the refusal */
    uint64_t moved;    /* the words that the run moved between devices, the check's number; 0 where it is refused */
} ishkrela_ran;

/* The answer of the placement, of the state asked for. */
typedef struct {
    uint32_t refusal;            /* 0, or the refusal; every other field is then 0 */
    uint16_t rank;               /* the number of dimensions */
    uint16_t shard[4];           /* the sizes of a shard; 0 past the rank */
    uint16_t first[4];           /* where in the table the device's shard begins; 0 past the rank */
    ishkrela_sharding sharding;  /* how the table is spread */
} ishkrela_placed;

/* The answer of the placement of a list of devices. */
typedef struct {
    uint32_t refusal; /* 0, or the refusal */
    size_t place;     /* beside 32 the place in the list, from 0, of the first device refused; else 0 */
} ishkrela_placed_all;

/* The answer of the write. */
typedef struct {
    uint32_t refusal; /* 0, or the refusal; bytes is then 0 */
    size_t bytes;     /* how many bytes the file has */
} ishkrela_written;

/* The answer of the reading call. */
typedef struct {
    uint32_t refusal;        /* 0, or the refusal; every other field is then 0 */
    uint16_t n;              /* the number of axes */
    uint16_t rank;           /* the number of dimensions */
    uint16_t mesh[6];        /* the sizes of the mesh; 0 past its axes */
    uint16_t table[4];       /* the sizes of the table; 0 past the rank */
    ishkrela_sharding start; /* the starting sharding */
    size_t order;            /* how many device numbers were written; 0 where the order is plain */
    size_t steps_bytes;      /* how many bytes of step records were written, 38 for each */
} ishkrela_opened;

/* The answer of the planner. */
typedef struct {
    uint32_t refusal;       /* 0, or the refusal; every other field is then 0 */
    uint32_t count;         /* the number of steps, 0 to 3 */
    ishkrela_step steps[3]; /* the steps; those past the count are 0 */
} ishkrela_planned;

/* Judges a plan file, and announces its last state. Refusals 1 to 28, and 41 to 44. */
ishkrela_checked ishkrela_check(const uint8_t *file, size_t file_len);

/* Announces a state of a plan, the start or that after an outermost step, and where a device's shard
 * begins in the table.
 * Refusals of the check; then 34, then 32. */
ishkrela_placed ishkrela_place(const uint8_t *file, size_t file_len, uint16_t state, uint16_t device);

/* Announces where the shard of each device of a list begins, in a state of a plan: writes the first
 * indexes that the call above gives for each in turn, as many as the rank (the check has it). A device
 * may be named again, and a list may be empty. Numbers after those that are written stay.
 * Refusals of the check; then 34; then 33, where first is shorter than devices_len times the rank; then
 * 32, with its place in the list. */
ishkrela_placed_all ishkrela_place_all(const uint8_t *file, size_t file_len, uint16_t state,
                                       const uint16_t *devices, size_t devices_len, uint16_t *first,
                                       size_t first_len);

/* Lists the devices of a mesh, group by group along a list of axes: groups in row-major order of
 * the other axes, devices by position. Writes D numbers; those after them stay.
 * Refusals 5, 10, 11, 14, 15, 33, in that order. */
uint32_t ishkrela_groups(const uint16_t *mesh, size_t mesh_len, const uint8_t *axes, size_t axes_len,
                         uint16_t *out, size_t out_len);

/* The same of devices with an order. Refusals 5, 10, 11, 19, 14, 15, 33, in that order; 19 also where
 * the order has not D numbers, or none: plain order is for the call above. */
uint32_t ishkrela_groups_ordered(const uint16_t *mesh, size_t mesh_len, const uint16_t *order, size_t order_len,
                                 const uint8_t *axes, size_t axes_len, uint16_t *out, size_t out_len);

/* Runs a plan. Work begins with the shards of the start, by device number, each in row-major order,
 * without gaps. Afterwards it begins with those of the last state, and the rest of work and all of
 * spare are 0. Any words may be handed over, a spread of a table or not. Both buffers need the
 * `room` of the check, in words. Refusals of the check; then 30, then 31. */
ishkrela_ran ishkrela_run(const uint8_t *file, size_t file_len, uint32_t *work, size_t work_len,
                          uint32_t *spare, size_t spare_len);

/* Writes the file of a plan that is given by the sizes of its mesh and of its table, its starting
 * sharding and its step records; and by the order of its devices, where it has one: an order of no
 * numbers is none. The file is the one that the check reads as these records, and bytes after it stay;
 * 8,192 bytes are enough for every plan. Refusals 5, 10, 11, 19, 12, 13, 8, 14 to 17; then those of the
 * records in turn, 20 to 28 and 41 to 44, 8 and 7 among them; then 2, then 35. Every record is
 * judged, however many there are; a refusal of one past the 65,535th, which a step number does not
 * reach, is 2. */
ishkrela_written ishkrela_write(const uint16_t *mesh, size_t mesh_len, const uint16_t *order, size_t order_len,
                                const uint16_t *table, size_t table_len, ishkrela_sharding start,
                                const uint8_t *steps, size_t steps_bytes, uint8_t *file, size_t file_len);

/* Reads a plan file back: what it answers and writes are the arguments with which the write makes the
 * same file. Device numbers and step records after those that it writes stay; 1,024 numbers and 38
 * bytes for every three bytes of the file are enough. Refusals of the check; then 33, where the order's
 * output is too short or that of the records. */
ishkrela_opened ishkrela_read(const uint8_t *file, size_t file_len, uint16_t *order, size_t order_len,
                              uint8_t *steps, size_t steps_bytes);

/* Makes the plan from one sharding of a table to another, as step records for the write. Refusals 5,
 * 10, 11, 19, 12, 13; then 8, 14 to 17 of the start, then of the goal; then 40. */
ishkrela_planned ishkrela_plan(const uint16_t *mesh, size_t mesh_len, const uint16_t *order, size_t order_len,
                               const uint16_t *table, size_t table_len, ishkrela_sharding start,
                               ishkrela_sharding goal);

#ifdef __cplusplus
}
#endif

#endif
