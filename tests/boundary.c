/* What include/ishkrela.h says, tried from C: the layout of the structs and each field of them,
 * lists and kinds by their macros, fields beside a refusal, empty slices at null, and memory after a
 * refusal.
 * Prints nothing. */
#include <assert.h>
#include <stdio.h>
#include <string.h>
#include "ishkrela.h"

#define FIELD(type, field, offset, size) \
    _Static_assert(offsetof(type, field) == (offset) && sizeof(((type *)0)->field) == (size), #type "." #field)

FIELD(ishkrela_sharding, counts, 0, 6);
FIELD(ishkrela_sharding, axes, 6, 36);
_Static_assert(sizeof(ishkrela_sharding) == 42, "ishkrela_sharding");

FIELD(ishkrela_checked, refusal, 0, 4);
FIELD(ishkrela_checked, room, 4, 4);
FIELD(ishkrela_checked, devices, 8, 2);
FIELD(ishkrela_checked, steps, 10, 2);
FIELD(ishkrela_checked, rank, 12, 2);
FIELD(ishkrela_checked, shard, 14, 8);
FIELD(ishkrela_checked, sharding, 22, 42);
FIELD(ishkrela_checked, moved, 64, 8);
_Static_assert(sizeof(ishkrela_checked) == 72, "ishkrela_checked");

FIELD(ishkrela_ran, refusal, 0, 4);
FIELD(ishkrela_ran, moved, 8, 8);
_Static_assert(sizeof(ishkrela_ran) == 16, "ishkrela_ran");

FIELD(ishkrela_placed, refusal, 0, 4);
FIELD(ishkrela_placed, rank, 4, 2);
FIELD(ishkrela_placed, shard, 6, 8);
FIELD(ishkrela_placed, first, 14, 8);
FIELD(ishkrela_placed, sharding, 22, 42);
_Static_assert(sizeof(ishkrela_placed) == 64, "ishkrela_placed");

FIELD(ishkrela_placed_all, refusal, 0, 4);
FIELD(ishkrela_placed_all, place, 8, 8);
_Static_assert(sizeof(ishkrela_placed_all) == 16, "ishkrela_placed_all");

FIELD(ishkrela_step, kind, 0, 1);
FIELD(ishkrela_step, source, 1, 1);
FIELD(ishkrela_step, target, 2, 1);
FIELD(ishkrela_step, counts, 3, 5);
FIELD(ishkrela_step, axes, 8, 30);
_Static_assert(sizeof(ishkrela_step) == 38, "ishkrela_step");

FIELD(ishkrela_written, refusal, 0, 4);
FIELD(ishkrela_written, bytes, 8, 8);
_Static_assert(sizeof(ishkrela_written) == 16, "ishkrela_written");

FIELD(ishkrela_opened, refusal, 0, 4);
FIELD(ishkrela_opened, n, 4, 2);
FIELD(ishkrela_opened, rank, 6, 2);
FIELD(ishkrela_opened, mesh, 8, 12);
FIELD(ishkrela_opened, table, 20, 8);
FIELD(ishkrela_opened, start, 28, 42);
FIELD(ishkrela_opened, order, 72, 8);
FIELD(ishkrela_opened, steps_bytes, 80, 8);
_Static_assert(sizeof(ishkrela_opened) == 88, "ishkrela_opened");

FIELD(ishkrela_planned, refusal, 0, 4);
FIELD(ishkrela_planned, count, 4, 4);
FIELD(ishkrela_planned, steps, 8, 114);
_Static_assert(sizeof(ishkrela_planned) == 124, "ishkrela_planned");

/* mesh 2x2, table of 4, sharding [[1, 0]], gather of [0], and of [1], which is not the tail */
static const uint8_t tail[] = {1, 0, 2, 0, 1, 0, 1, 0, 18, 0, 22, 0, 24, 0, 28, 0, 31, 0,
                               2, 0, 2, 0, 4, 0, 2, 1, 0, 0, 2, 1, 0};
static const uint8_t front[] = {1, 0, 2, 0, 1, 0, 1, 0, 18, 0, 22, 0, 24, 0, 28, 0, 31, 0,
                                2, 0, 2, 0, 4, 0, 2, 1, 0, 0, 2, 1, 1};

/* edition 2: mesh 2x3x2x2, table of 6, sharding [[1]] with unreduced [2] and replicated [0, 3]; gather
 * of [1], and slice of [0], which is to stay replicated */
static const uint8_t kept[] = {2, 0, 4, 0, 1, 0, 1, 0, 18, 0, 26, 0, 28, 0, 35, 0, 38, 0,
                               2, 0, 3, 0, 2, 0, 2, 0, 6, 0, 1, 1, 1, 2, 2, 0, 3, 2, 1, 1};
static const uint8_t unkept[] = {2, 0, 4, 0, 1, 0, 1, 0, 18, 0, 26, 0, 28, 0, 35, 0, 38, 0,
                                 2, 0, 3, 0, 2, 0, 2, 0, 6, 0, 1, 1, 1, 2, 2, 0, 3, 1, 1, 0};

/* edition 3: mesh 3x2 with the devices 0 2 4 1 3 5, table of 6, sharding [[0]] with an empty replicated
 * list; gather of [0]. The second has the plain order, which is for editions 1 and 2 */
static const uint8_t cabled[] = {3, 0, 2, 0, 1, 0, 1, 0, 18, 0, 34, 0, 36, 0, 40, 0, 43, 0,
                                 3, 0, 2, 0, 0, 0, 2, 0, 4, 0, 1, 0, 3, 0, 5, 0, 6, 0, 1, 0, 0, 0, 2, 1, 0};
static const uint8_t plain[] = {3, 0, 2, 0, 1, 0, 1, 0, 18, 0, 34, 0, 36, 0, 40, 0, 43, 0,
                                3, 0, 2, 0, 0, 0, 1, 0, 2, 0, 3, 0, 4, 0, 5, 0, 6, 0, 1, 0, 0, 0, 2, 1, 0};

/* mesh 2x3x2x2x3x2, table 12x6x15x2, sharding [[5, 0], [1], [4], [2]] with unreduced [3]; gather of
 * [0] off dimension 0, and slice of it on again */
static const uint8_t full[] = {1, 0, 6, 0, 4, 0, 2, 0, 18, 0, 30, 0, 38, 0, 49, 0, 61, 0,
                               2, 0, 3, 0, 2, 0, 2, 0, 3, 0, 2, 0, 12, 0, 6, 0, 15, 0, 2, 0,
                               2, 5, 0, 1, 1, 1, 4, 1, 2, 1, 3, 2, 1, 0, 0, 0, 0, 1, 1, 0, 0, 0, 0};

/* mesh 2, table of 2, nothing split; slice and gather of [0], 3 times. The repeat is at byte 24 */
static const uint8_t block[] = {1, 0, 1, 0, 1, 0, 1, 0, 18, 0, 20, 0, 22, 0, 24, 0, 33, 0,
                                2, 0, 2, 0, 0, 0, 9, 3, 2, 1, 1, 0, 2, 1, 0};

/* Each field where it is not 0, and with a value that tells it from the others. */
static void fields(void)
{
    const uint16_t shard[4] = {3, 2, 5, 1}, first[4] = {9, 4, 10, 1};
    const ishkrela_sharding lists = {
        {2, 1, 1, 1, 1},
        {5, 0, 0, 0, 0, 0, 1, 0, 0, 0, 0, 0, 4, 0, 0, 0, 0, 0, 2, 0, 0, 0, 0, 0, 3},
    };
    ishkrela_checked checked = ishkrela_check(full, sizeof full);
    assert(checked.refusal == 0 && checked.room == 8640 && checked.devices == 144);
    assert(checked.steps == 2 && checked.rank == 4 && memcmp(checked.shard, shard, sizeof shard) == 0);
    assert(memcmp(&checked.sharding, &lists, sizeof lists) == 0);
    ishkrela_placed placed = ishkrela_place(full, sizeof full, 2, 143);
    assert(placed.refusal == 0 && placed.rank == 4);
    assert(memcmp(placed.shard, shard, sizeof shard) == 0 && memcmp(placed.first, first, sizeof first) == 0);
    assert(memcmp(&placed.sharding, &lists, sizeof lists) == 0);
    assert(ishkrela_check(full, sizeof full - 1).refusal == 4);
    assert(ishkrela_place(full, sizeof full, 2, 144).refusal == 32);
}

static void answers(void)
{
    ishkrela_checked checked = ishkrela_check(tail, sizeof tail);
    assert(checked.refusal == 0 && checked.room == 8 && checked.devices == 4 && checked.steps == 1);
    assert(checked.rank == 1 && checked.shard[0] == 2 && checked.shard[1] == 0 && checked.moved == 4);
    assert(checked.sharding.counts[0] == 1 && ISHKRELA_AXIS(checked.sharding, 0, 0) == 1);
    assert(checked.sharding.counts[ISHKRELA_UNREDUCED] == 0 && checked.sharding.counts[ISHKRELA_REPLICATED] == 0);
    ishkrela_placed placed = ishkrela_place(tail, sizeof tail, 0, 1);
    assert(placed.refusal == 0 && placed.rank == 1 && placed.shard[0] == 1 && placed.first[0] == 2);
    assert(ISHKRELA_AXIS(placed.sharding, 0, 0) == 1 && ISHKRELA_AXIS(placed.sharding, 0, 1) == 0);
    assert(placed.sharding.counts[0] == 2);
}

static void replicated(void)
{
    const ishkrela_sharding before = {{1, 0, 0, 0, 1, 2}, {[0] = 1, [24] = 2, [30] = 0, [31] = 3}};
    const ishkrela_sharding after = {{0, 0, 0, 0, 1, 2}, {[24] = 2, [30] = 0, [31] = 3}};
    ishkrela_placed placed = ishkrela_place(kept, sizeof kept, 0, 23);
    assert(placed.refusal == 0 && placed.first[0] == 4 && memcmp(&placed.sharding, &before, sizeof before) == 0);
    ishkrela_checked checked = ishkrela_check(kept, sizeof kept);
    assert(checked.refusal == 0 && memcmp(&checked.sharding, &after, sizeof after) == 0);
    assert(ISHKRELA_AXIS(checked.sharding, ISHKRELA_UNREDUCED, 0) == 2);
    assert(ISHKRELA_AXIS(checked.sharding, ISHKRELA_REPLICATED, 1) == 3);
    assert(ishkrela_check(unkept, sizeof unkept).refusal == 23 + 256);
}

/* A run answers this refusal and these words moved. */
static int ran(const uint8_t *file, size_t len, uint32_t *work, size_t words, uint32_t *spare, size_t more,
               uint32_t refusal, uint64_t moved)
{
    ishkrela_ran answer = ishkrela_run(file, len, work, words, spare, more);
    return answer.refusal == refusal && answer.moved == moved;
}

/* Devices 0 and 2 stand in row 0 of the mesh, 4 and 1 in row 1, 3 and 5 in row 2. */
static void ordered(void)
{
    const uint16_t first[6] = {0, 2, 0, 4, 2, 4};
    const uint32_t left[36] = {1, 2,  9, 10, 7, 8, 5, 6, 3, 4,  11, 12, 5, 6, 3, 4,  11, 12,
                               1, 2,  9, 10, 7, 8, 1, 2, 9, 10, 7,  8,  5, 6, 3, 4,  11, 12};
    uint32_t work[36] = {1, 2, 3, 4, 5, 6, 7, 8, 9, 10, 11, 12}, spare[36];
    memset(spare, 0x55, sizeof spare);
    ishkrela_checked checked = ishkrela_check(cabled, sizeof cabled);
    assert(checked.refusal == 0 && checked.devices == 6 && checked.room == 36 && checked.shard[0] == 6);
    assert(checked.moved == 24);
    for (uint16_t device = 0; device < 6; device++) {
        ishkrela_placed placed = ishkrela_place(cabled, sizeof cabled, 0, device);
        assert(placed.refusal == 0 && placed.shard[0] == 2 && placed.first[0] == first[device]);
    }
    assert(ishkrela_place(cabled, sizeof cabled, 0, 6).refusal == 32);
    assert(ishkrela_check(plain, sizeof plain).refusal == 19);
    assert(ran(plain, sizeof plain, work, 36, spare, 36, 19, 0) && work[0] == 1 && spare[0] == 0x55555555);
    assert(ran(cabled, sizeof cabled, work, 36, spare, 36, 0, 24) && spare[0] == 0 && spare[35] == 0);
    assert(memcmp(work, left, sizeof left) == 0);
}

/* The refusal of a plan that begins as the one above and has these bytes for its steps. */
static uint32_t refused(uint16_t steps, const uint8_t *bytes, size_t len)
{
    static uint8_t file[8192];
    memcpy(file, block, 24);
    memcpy(file + 24, bytes, len);
    file[6] = (uint8_t)steps;
    file[16] = (uint8_t)((24 + len) % 256);
    file[17] = (uint8_t)((24 + len) / 256);
    return ishkrela_check(file, 24 + len).refusal;
}

/* States and the number of steps count outermost steps; a refusal's step counts kind bytes. */
static void repeats(void)
{
    const uint8_t elsewhere[] = {9, 1, 1, 1, 1, 0}, deep[] = {9, 1, 1, 9, 1, 1, 9, 1, 1, 9, 1, 1, 9, 1, 1};
    const uint8_t often[] = {9, 17, 1, 9, 128, 2, 1, 1, 0, 2, 1, 0}, none[] = {9, 0}, empty[] = {9, 1, 0};
    const uint8_t so_far[] = {9, 16, 1, 9, 128, 2, 1, 1, 0, 2, 1, 0, 1, 1, 0};
    uint8_t many[2 * (3 + 254 * 3) + 1] = {0};
    uint32_t work[5] = {1, 2, 3, 4, 5}, spare[5] = {6, 7, 8, 9, 10};
    const uint32_t left[5] = {1, 4, 1, 4}, zeros[5] = {0};
    ishkrela_checked checked = ishkrela_check(block, sizeof block);
    assert(checked.refusal == 0 && checked.room == 4 && checked.devices == 2 && checked.steps == 1);
    assert(ishkrela_place(block, sizeof block, 1, 1).shard[0] == 2);
    assert(ishkrela_place(block, sizeof block, 2, 1).refusal == 34);
    assert(checked.moved == 6 && ran(block, sizeof block, work, 5, spare, 5, 0, 6));
    assert(memcmp(work, left, sizeof work) == 0 && memcmp(spare, zeros, sizeof spare) == 0);
    assert(refused(1, block + 24, 9) == 0 && refused(1, elsewhere, sizeof elsewhere) == 41 + 256);
    assert(refused(1, deep, sizeof deep) == 42 + 256 * 5 && refused(1, often, sizeof often) == 43 + 256);
    assert(refused(1, so_far, sizeof so_far - 3) == 0 && refused(2, so_far, sizeof so_far) == 43 + 256 * 5);
    assert(refused(1, none, sizeof none) == 44 + 256 && refused(1, empty, sizeof empty) == 44 + 256);
    for (size_t at = 0; at < sizeof many - 1; at += 3) {
        const uint8_t steps[3][3] = {{9, 1, 254}, {1, 1, 0}, {2, 1, 0}};
        size_t kind = at / 3 % 255;
        memcpy(many + at, steps[kind == 0 ? 0 : 2 - kind % 2], 3);
    }
    uint32_t refusal = refused(3, many, sizeof many);
    assert(ISHKRELA_NUMBER(refusal) == 20 && ISHKRELA_STEP(refusal) == 511);
}

static void refusals(void)
{
    ishkrela_checked none = {0}, checked = ishkrela_check(front, sizeof front);
    assert(ISHKRELA_NUMBER(checked.refusal) == 24 && ISHKRELA_STEP(checked.refusal) == 1);
    none.refusal = checked.refusal;
    assert(memcmp(&none, &checked, sizeof none) == 0);
    ishkrela_placed nowhere = {0}, placed = ishkrela_place(tail, sizeof tail, 2, 0);
    nowhere.refusal = 34;
    assert(memcmp(&nowhere, &placed, sizeof nowhere) == 0);
    assert(ishkrela_place(tail, sizeof tail, 1, 4).refusal == 32);
}

/* Whether a list of devices gets this answer, and its output has these numbers afterwards. */
static int placed_all(const uint8_t *file, size_t len, uint16_t state, const uint16_t *devices, size_t count,
                      size_t room, ishkrela_placed_all answer, const uint16_t left[9])
{
    uint16_t first[9];
    memset(first, 0x55, sizeof first);
    ishkrela_placed_all placed = ishkrela_place_all(file, len, state, devices, count, first, room);
    return placed.refusal == answer.refusal && placed.place == answer.place && memcmp(first, left, sizeof first) == 0;
}

/* W4's four devices, and the second again, in both states; of a table of four dimensions; and by an order. */
static void places_all(void)
{
    const uint16_t w4[] = {0, 1, 2, 3, 1, 4, 9}, ends[] = {143, 0, 144}, by_order[] = {5, 3, 1, 4, 2, 0, 5, 6};
    const uint16_t before[9] = {0, 2, 1, 3, 2, 0x5555, 0x5555, 0x5555, 0x5555};
    const uint16_t after[9] = {0, 2, 0, 2, 2, 0x5555, 0x5555, 0x5555, 0x5555};
    const uint16_t corners[9] = {9, 4, 10, 1, 0, 0, 0, 0, 0x5555}, cables[9] = {4, 4, 2, 2, 0, 0, 4, 0x5555, 0x5555};
    const ishkrela_placed_all all = {0, 0};
    assert(placed_all(tail, sizeof tail, 0, w4, 5, 5, all, before));
    assert(placed_all(tail, sizeof tail, 1, w4, 5, 9, all, after));
    assert(placed_all(full, sizeof full, 2, ends, 2, 8, all, corners));
    assert(placed_all(cabled, sizeof cabled, 0, by_order, 7, 9, all, cables));
}

/* The first of two devices that are not there; before it an output that is one short, the state, the file. */
static void places_none(void)
{
    const uint16_t w4[] = {0, 1, 2, 3, 1, 4, 9}, ends[] = {143, 0, 144}, by_order[] = {5, 3, 6};
    const uint16_t none[9] = {0x5555, 0x5555, 0x5555, 0x5555, 0x5555, 0x5555, 0x5555, 0x5555, 0x5555};
    const ishkrela_placed_all all = {0, 0}, shorter = {33, 0}, stateless = {34, 0}, spoilt = {24 + 256, 0};
    assert(placed_all(tail, sizeof tail, 0, w4, 7, 7, (ishkrela_placed_all){32, 5}, none));
    assert(placed_all(tail, sizeof tail, 1, w4 + 5, 2, 9, (ishkrela_placed_all){32, 0}, none));
    assert(placed_all(full, sizeof full, 0, ends, 3, 12, (ishkrela_placed_all){32, 2}, none));
    assert(placed_all(cabled, sizeof cabled, 0, by_order, 3, 3, (ishkrela_placed_all){32, 2}, none));
    assert(placed_all(tail, sizeof tail, 0, w4, 7, 6, shorter, none));
    assert(placed_all(tail, sizeof tail, 1, w4, 4, 3, shorter, none));
    assert(placed_all(full, sizeof full, 0, ends, 3, 11, shorter, none));
    assert(placed_all(full, sizeof full, 2, ends, 2, 7, shorter, none));
    assert(placed_all(tail, sizeof tail, 2, w4, 7, 6, stateless, none));
    assert(placed_all(tail, sizeof tail, 2, NULL, 0, 9, stateless, none));
    assert(placed_all(front, sizeof front, 2, w4, 7, 6, spoilt, none));
    assert(placed_all(tail, sizeof tail, 1, NULL, 0, 9, all, none));
}

static void groups(void)
{
    const uint16_t mesh[] = {2, 3, 4, 5};
    const uint8_t axes[] = {3, 1};
    uint16_t out[121];
    memset(out, 0x55, sizeof out);
    assert(ishkrela_groups(mesh, 4, axes, 2, out, 119) == 33 && out[0] == 0x5555);
    assert(ishkrela_groups(mesh, 4, axes, 2, out, 121) == 0);
    assert(out[0] == 0 && out[1] == 20 && out[2] == 40 && out[3] == 1 && out[119] == 119 && out[120] == 0x5555);
}

static void groups_ordered(void)
{
    const uint16_t mesh[] = {3, 2}, order[] = {0, 2, 4, 1, 3, 5}, plain_order[] = {0, 1, 2, 3, 4, 5};
    const uint16_t twice[] = {0, 2, 4, 1, 3, 3}, past[] = {0, 2, 4, 1, 3, 6}, rows[] = {0, 2, 4, 1, 3, 5, 0x5555};
    const uint16_t columns[] = {0, 4, 3, 2, 1, 5, 0x5555}, zero[] = {3, 0}, many[] = {1025};
    const uint8_t axes[] = {1, 0, 2}, again[] = {1, 1, 2};
    uint16_t out[7];
    memset(out, 0x55, sizeof out);
    assert(ishkrela_groups_ordered(NULL, 0, NULL, 0, axes + 2, 1, out, 0) == 5);
    assert(ishkrela_groups_ordered(zero, 2, NULL, 0, axes + 2, 1, out, 0) == 10);
    assert(ishkrela_groups_ordered(many, 1, NULL, 0, axes + 2, 1, out, 0) == 11);
    assert(ishkrela_groups_ordered(mesh, 2, NULL, 0, axes + 2, 1, out, 0) == 19);
    assert(ishkrela_groups_ordered(mesh, 2, order, 5, axes + 2, 1, out, 0) == 19);
    assert(ishkrela_groups_ordered(mesh, 2, plain_order, 6, axes + 2, 1, out, 0) == 19);
    assert(ishkrela_groups_ordered(mesh, 2, twice, 6, axes + 2, 1, out, 0) == 19);
    assert(ishkrela_groups_ordered(mesh, 2, past, 6, axes + 2, 1, out, 0) == 19);
    assert(ishkrela_groups_ordered(mesh, 2, order, 6, axes, 3, out, 0) == 14);
    assert(ishkrela_groups_ordered(mesh, 2, order, 6, again, 3, out, 0) == 15);
    assert(ishkrela_groups_ordered(mesh, 2, order, 6, NULL, 0, out, 5) == 33 && out[0] == 0x5555);
    assert(ishkrela_groups_ordered(mesh, 2, order, 6, axes, 1, out, 7) == 0 && memcmp(out, rows, sizeof out) == 0);
    assert(ishkrela_groups_ordered(mesh, 2, order, 6, axes + 1, 1, out, 7) == 0);
    assert(memcmp(out, columns, sizeof out) == 0);
}

static void runs(void)
{
    uint32_t work[10] = {10, 30, 20, 40, 7, 7, 7, 7, 7, 7}, spare[9] = {8, 8, 8, 8, 8, 8, 8, 8, 8};
    const uint32_t given[10] = {10, 30, 20, 40, 7, 7, 7, 7, 7, 7}, left[10] = {10, 20, 30, 40, 10, 20, 30, 40, 0, 0};
    const uint32_t eights[9] = {8, 8, 8, 8, 8, 8, 8, 8, 8}, zeros[9] = {0};
    assert(ran(tail, sizeof tail, work, 7, spare, 9, 30, 0));
    assert(ran(tail, sizeof tail, work, 10, spare, 7, 31, 0));
    assert(ran(front, sizeof front, work, 10, spare, 9, 24 + 256, 0));
    assert(memcmp(work, given, sizeof work) == 0 && memcmp(spare, eights, sizeof spare) == 0);
    assert(ran(tail, sizeof tail, work, 10, spare, 9, 0, 4));
    assert(memcmp(work, left, sizeof work) == 0 && memcmp(spare, zeros, sizeof spare) == 0);
}

/* W1: mesh 2x2, table 4x4, sharding [[0], [1]], gather of [1] off dimension 1. */
static const uint16_t two[] = {2, 2}, four[] = {4, 4};
static const ishkrela_sharding both = {{1, 1}, {[0] = 0, [6] = 1}};
static const uint8_t w1[] = {1, 0, 2, 0, 2, 0, 1, 0, 18, 0, 22, 0, 26, 0, 31, 0, 35, 0,
                             2, 0, 2, 0, 4, 0, 4, 0, 1, 0, 1, 1, 0, 2, 0, 1, 1};

static ishkrela_written write_w1(ishkrela_sharding start, const void *steps, size_t bytes, uint8_t *file, size_t len)
{
    return ishkrela_write(two, 2, NULL, 0, four, 2, start, steps, bytes, file, len);
}

/* What is not used of the records counts for nothing; a refusal leaves the buffer. */
static void writes(void)
{
    const ishkrela_step gather = {ISHKRELA_ALL_GATHER, 7, 7, {0, 1, 7, 7, 7}, {[6] = 1, [7] = 7, [12] = 7, [29] = 7}};
    ishkrela_sharding unused = both, seven = both, past = both;
    uint8_t file[40], given[40];
    unused.counts[2] = unused.counts[3] = unused.axes[1] = unused.axes[35] = 7;
    seven.counts[ISHKRELA_UNREDUCED] = 7;
    past.axes[6] = 2;
    memset(file, 0x55, sizeof file);
    memset(given, 0x55, sizeof given);
    ishkrela_written written = write_w1(both, &gather, 38, file, 34);
    assert(written.refusal == 35 && written.bytes == 0);
    assert(write_w1(seven, &gather, 38, file, 40).refusal == 8 && write_w1(past, &gather, 38, file, 40).refusal == 14);
    assert(memcmp(file, given, sizeof file) == 0);
    written = write_w1(unused, &gather, 75, file, 40);
    assert(written.refusal == 0 && written.bytes == 35 && memcmp(file, w1, sizeof w1) == 0);
    assert(memcmp(file + 35, given + 35, 5) == 0);
    assert(write_w1(both, &gather, 37, file, 40).bytes == 31 && ishkrela_check(file, 31).steps == 0);
}

/* The records of a repeat, with and without its inner steps; an order makes edition 3. */
static void writes_blocks(void)
{
    const ishkrela_step steps[] = {
        {.kind = ISHKRELA_REPEAT, .source = 3, .target = 2},
        {.kind = ISHKRELA_ALL_SLICE, .counts = {1}},
        {.kind = ISHKRELA_ALL_GATHER, .counts = {1}},
        {.kind = 6},
    };
    const uint16_t mesh[] = {2}, table[] = {2}, cables[] = {1, 0}, unmoved[] = {0, 1};
    const ishkrela_sharding whole = {0};
    const uint8_t *records = (const uint8_t *)steps;
    uint8_t file[64];
    ishkrela_written written = ishkrela_write(mesh, 1, NULL, 0, table, 1, whole, records, 3 * 38, file, 64);
    assert(written.refusal == 0 && written.bytes == sizeof block && memcmp(file, block, sizeof block) == 0);
    assert(ishkrela_write(mesh, 1, NULL, 0, table, 1, whole, records, 2 * 38, file, 64).refusal == 7);
    assert(ishkrela_write(mesh, 1, NULL, 0, table, 1, whole, records, 4 * 38, file, 64).refusal == 20 + 256 * 4);
    assert(ishkrela_write(mesh, 1, unmoved, 2, table, 1, whole, records, 3 * 38, file, 64).refusal == 19);
    written = ishkrela_write(mesh, 1, cables, 2, table, 1, whole, records, 3 * 38, file, 64);
    assert(written.refusal == 0 && written.bytes == 38 && file[0] == 3 && file[20] == 1 && file[22] == 0);
    assert(ishkrela_check(file, 38).steps == 1);
}

/* Whether every field beside the refusal is 0. */
static int unread(ishkrela_opened opened)
{
    const ishkrela_opened none = {0};
    return opened.n == 0 && opened.rank == 0 && memcmp(opened.mesh, none.mesh, sizeof none.mesh) == 0 &&
           memcmp(opened.table, none.table, sizeof none.table) == 0 &&
           memcmp(&opened.start, &none.start, sizeof none.start) == 0 && opened.order == 0 && opened.steps_bytes == 0;
}

/* A file with so many device numbers and records, read and written again, comes out byte for byte; an output
 * that is too short by one is refused, and what stands behind the last stays. */
static void again(const uint8_t *file, size_t len, size_t numbers, size_t records)
{
    uint16_t order[8];
    uint8_t steps[38 * 4], written[64];
    memset(order, 0x55, sizeof order);
    memset(steps, 0x55, sizeof steps);
    ishkrela_opened opened = ishkrela_read(file, len, order, 8, steps, 38 * records - 1);
    assert(opened.refusal == 33 && unread(opened) && order[0] == 0x5555 && steps[0] == 0x55);
    if (numbers != 0) {
        opened = ishkrela_read(file, len, order, numbers - 1, steps, sizeof steps);
        assert(opened.refusal == 33 && unread(opened) && order[0] == 0x5555 && steps[0] == 0x55);
    }
    opened = ishkrela_read(file, len, order, 8, steps, sizeof steps);
    assert(opened.refusal == 0 && opened.order == numbers && opened.steps_bytes == 38 * records);
    assert(order[numbers] == 0x5555 && steps[38 * records] == 0x55);
    ishkrela_written answer = ishkrela_write(opened.mesh, opened.n, order, opened.order, opened.table, opened.rank,
                                             opened.start, steps, opened.steps_bytes, written, sizeof written);
    assert(answer.refusal == 0 && answer.bytes == len && memcmp(written, file, len) == 0);
}

static void reads(void)
{
    const uint16_t sizes[6] = {2, 3, 2, 2, 3, 2}, table[4] = {12, 6, 15, 2};
    const ishkrela_sharding lists = {
        {2, 1, 1, 1, 1},
        {5, 0, 0, 0, 0, 0, 1, 0, 0, 0, 0, 0, 4, 0, 0, 0, 0, 0, 2, 0, 0, 0, 0, 0, 3},
    };
    const ishkrela_step steps[2] = {
        {.kind = ISHKRELA_ALL_GATHER, .counts = {1}},
        {.kind = ISHKRELA_ALL_SLICE, .counts = {1}},
    };
    ishkrela_step left[2];
    ishkrela_opened opened = ishkrela_read(full, sizeof full, NULL, 0, (uint8_t *)left, sizeof left);
    assert(opened.refusal == 0 && opened.n == 6 && opened.rank == 4 && opened.order == 0 && opened.steps_bytes == 76);
    assert(memcmp(opened.mesh, sizes, sizeof sizes) == 0 && memcmp(opened.table, table, sizeof table) == 0);
    assert(memcmp(&opened.start, &lists, sizeof lists) == 0 && memcmp(left, steps, sizeof steps) == 0);
    again(w1, sizeof w1, 0, 1);
    again(tail, sizeof tail, 0, 1);
    again(kept, sizeof kept, 0, 1);
    again(cabled, sizeof cabled, 6, 1);
    again(full, sizeof full, 0, 2);
    again(block, sizeof block, 0, 3);
    assert(ishkrela_read(front, sizeof front, NULL, 0, NULL, 0).refusal == 24 + 256);
}

/* Mesh 2x2x2, table of 8: from [[2]] with unreduced [0, 1] to [[0]] with unreduced [1], in three steps. */
static void plans(void)
{
    const uint16_t mesh[] = {2, 2, 2}, table[] = {8};
    const ishkrela_sharding start = {{1, 0, 0, 0, 2}, {[0] = 2, [24] = 0, [25] = 1}};
    const ishkrela_sharding goal = {{1, 0, 0, 0, 1}, {[24] = 1}};
    const ishkrela_step steps[3] = {
        {.kind = ISHKRELA_ALL_REDUCE, .counts = {[ISHKRELA_ONE_LIST] = 1}},
        {.kind = ISHKRELA_ALL_GATHER, .counts = {1}, .axes = {2}},
        {.kind = ISHKRELA_ALL_SLICE, .counts = {1}},
    };
    uint8_t file[64];
    ishkrela_planned none = {0}, planned = ishkrela_plan(mesh, 3, NULL, 0, table, 1, start, goal);
    assert(planned.refusal == 0 && planned.count == 3 && memcmp(planned.steps, steps, sizeof steps) == 0);
    ishkrela_written written =
        ishkrela_write(mesh, 3, NULL, 0, table, 1, start, (uint8_t *)planned.steps, 38 * planned.count, file, 64);
    assert(written.refusal == 0);
    ishkrela_checked checked = ishkrela_check(file, written.bytes);
    assert(checked.refusal == 0 && memcmp(&checked.sharding, &goal, sizeof goal) == 0);
    planned = ishkrela_plan(mesh, 3, NULL, 0, table, 1, start, start);
    assert(memcmp(&none, &planned, sizeof none) == 0);
    planned = ishkrela_plan(mesh, 3, NULL, 0, table, 1, goal, start);
    none.refusal = 40;
    assert(memcmp(&none, &planned, sizeof none) == 0);
}

/* The plan of one step on mesh 2, table 2x2, leads from the one sharding to the other. */
static int leads(ishkrela_sharding from, ishkrela_step step, ishkrela_sharding to)
{
    const uint16_t mesh[] = {2}, table[] = {2, 2};
    uint8_t file[64];
    ishkrela_written written =
        ishkrela_write(mesh, 1, NULL, 0, table, 2, from, (uint8_t *)&step, sizeof step, file, sizeof file);
    ishkrela_checked checked = ishkrela_check(file, written.bytes);
    return written.refusal == 0 && checked.refusal == 0 && memcmp(&checked.sharding, &to, sizeof to) == 0;
}

/* Each name of a kind is its kind: no other kind leads from the one sharding to the other. */
static void kinds(void)
{
    const ishkrela_sharding whole = {{0}, {0}}, rows = {{1}, {0}}, columns = {{0, 1}, {0}}, sum = {{[4] = 1}, {0}};
    assert(leads(whole, (ishkrela_step){.kind = ISHKRELA_ALL_SLICE, .counts = {1}}, rows));
    assert(leads(rows, (ishkrela_step){.kind = ISHKRELA_ALL_GATHER, .counts = {1}}, whole));
    assert(leads(sum, (ishkrela_step){.kind = ISHKRELA_ALL_REDUCE, .counts = {[ISHKRELA_ONE_LIST] = 1}}, whole));
    assert(leads(rows, (ishkrela_step){ISHKRELA_ALL_TO_ALL, 0, 1, {[ISHKRELA_ONE_LIST] = 1}, {0}}, columns));
    assert(leads(sum, (ishkrela_step){.kind = ISHKRELA_REDUCE_SCATTER, .counts = {1}}, rows));
}

static void version(void)
{
    char said[16];
    snprintf(said, sizeof said, "%d.%d.%d", ISHKRELA_VERSION_MAJOR, ISHKRELA_VERSION_MINOR, ISHKRELA_VERSION_PATCH);
    assert(strcmp(said, ISHKRELA_VERSION) == 0);
}

static void empty(void)
{
    const uint16_t mesh[] = {2};
    uint16_t out[2] = {9, 9};
    assert(ishkrela_check(NULL, 0).refusal == 1 && ishkrela_place(NULL, 0, 0, 0).refusal == 1);
    assert(ishkrela_place_all(NULL, 0, 0, NULL, 0, NULL, 0).refusal == 1);
    assert(ishkrela_place_all(tail, sizeof tail, 0, NULL, 0, NULL, 0).refusal == 0);
    assert(ishkrela_place_all(tail, sizeof tail, 0, mesh, 1, NULL, 0).refusal == 33);
    assert(ran(NULL, 0, NULL, 0, NULL, 0, 1, 0) && ran(tail, sizeof tail, NULL, 0, NULL, 0, 30, 0));
    assert(ishkrela_groups(NULL, 0, NULL, 0, NULL, 0) == 5 && ishkrela_groups(mesh, 1, NULL, 0, NULL, 0) == 33);
    assert(ishkrela_groups(mesh, 1, NULL, 0, out, 2) == 0 && out[0] == 0 && out[1] == 1);
    assert(ishkrela_write(NULL, 0, NULL, 0, NULL, 0, both, NULL, 0, NULL, 0).refusal == 5);
    assert(ishkrela_write(two, 2, NULL, 0, four, 2, both, NULL, 0, NULL, 0).refusal == 35);
    assert(ishkrela_read(NULL, 0, NULL, 0, NULL, 0).refusal == 1);
    assert(ishkrela_read(w1, sizeof w1, NULL, 0, NULL, 0).refusal == 33);
    assert(ishkrela_plan(NULL, 0, NULL, 0, NULL, 0, both, both).refusal == 5);
}

int main(void)
{
    fields();
    answers();
    replicated();
    ordered();
    repeats();
    refusals();
    places_all();
    places_none();
    groups();
    groups_ordered();
    runs();
    writes();
    writes_blocks();
    reads();
    plans();
    kinds();
    version();
    empty();
    return 0;
}
