/* plan: makes the plan from one sharding of a table to another, writes its file, and runs it.
 *
 * The table 4x4 is spread over a mesh of 2x2 devices: its rows are split along axis 0 at the start, its
 * columns at the goal, and along axis 1 the devices hold parts of a sum, which the goal asks for whole.
 * Prints the steps, and the words of each device before and after. */
#include <stdio.h>
#include <stdlib.h>
#include "ishkrela.h"

static const uint16_t mesh[] = {2, 2}, table[] = {4, 4};
static const ishkrela_sharding start = {
    .counts = {[0] = 1, [ISHKRELA_UNREDUCED] = 1},
    .axes = {[0] = 0, [6 * ISHKRELA_UNREDUCED] = 1},
};
static const ishkrela_sharding goal = {.counts = {[1] = 1}, .axes = {[6] = 0}};

/* Ends the program where a call refuses. */
static void accepted(uint32_t refusal)
{
    if (refusal == 0)
        return;
    printf("refused: %u in step %u: %s\n", (unsigned)ISHKRELA_NUMBER(refusal), (unsigned)ISHKRELA_STEP(refusal),
           ishkrela_refusal_text(refusal));
    exit(1);
}

static void print_step(ishkrela_step step)
{
    static const char *const names[] = {"", "all-slice", "all-gather", "all-reduce", "all-to-all"};
    printf("%s", names[step.kind]);
    for (int list = 0; list < 5; list++)
        for (int i = 0; i < step.counts[list]; i++) {
            if (list == ISHKRELA_ONE_LIST)
                printf(" axis %d", ISHKRELA_AXIS(step, list, i));
            else
                printf(" dimension %d axis %d", list, ISHKRELA_AXIS(step, list, i));
        }
    printf("\n");
}

static void print_words(const char *when, const uint32_t *words, int devices, int shard)
{
    printf("%s\n", when);
    for (int device = 0; device < devices; device++) {
        printf("device %d:", device);
        for (int word = 0; word < shard; word++)
            printf(" %u", (unsigned)words[device * shard + word]);
        printf("\n");
    }
}

int main(void)
{
    static uint8_t file[8192];
    static uint32_t work[64], spare[64];

    ishkrela_planned plan = ishkrela_plan(mesh, 2, NULL, 0, table, 2, start, goal);
    accepted(plan.refusal);
    for (uint32_t step = 0; step < plan.count; step++)
        print_step(plan.steps[step]);

    ishkrela_written written = ishkrela_write(mesh, 2, NULL, 0, table, 2, start, (const uint8_t *)plan.steps,
                                              plan.count * sizeof plan.steps[0], file, sizeof file);
    accepted(written.refusal);
    ishkrela_checked checked = ishkrela_check(file, written.bytes);
    accepted(checked.refusal);
    printf("%zu bytes, room for %u words\n", written.bytes, (unsigned)checked.room);

    for (uint32_t word = 0; word < 32; word++)
        work[word] = word / 8 % 2 ? 100 : word / 16 * 8 + word % 8; /* devices 1 and 3 hold the other part */
    print_words("before", work, checked.devices, 8);
    accepted(ishkrela_run(file, written.bytes, work, 64, spare, 64).refusal);
    print_words("after", work, checked.devices, checked.shard[0] * checked.shard[1]);
    return 0;
}
