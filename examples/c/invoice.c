/* invoice: moves a table from one sharding to another, and prints what that costs.
 *
 * The table 4x4 is spread over a mesh of 2x2 devices: its rows are split along axis 0, and along axis 1
 * the devices hold parts of a sum. At the goal each device holds a column. Prints the words of each
 * device before and after, and how many words cross between devices: in each step and in all, as the
 * check announces it before anything is run, and beside it what the run answers. */
#include <stdio.h>
#include <stdlib.h>
#include "ishkrela.h"

static const uint16_t mesh[] = {2, 2}, table[] = {4, 4};
static const ishkrela_sharding start = {
    .counts = {[0] = 1, [ISHKRELA_UNREDUCED] = 1},
    .axes = {[0] = 0, [6 * ISHKRELA_UNREDUCED] = 1},
};
static const ishkrela_sharding goal = {.counts = {[1] = 2}, .axes = {[6] = 0, [7] = 1}};
static const char *const kinds[] = {
    [ISHKRELA_ALL_REDUCE] = "all-reduce",
    [ISHKRELA_ALL_GATHER] = "all-gather",
    [ISHKRELA_ALL_SLICE] = "all-slice",
};

static uint8_t file[ISHKRELA_MOST_BYTES];
static size_t file_len;

/* Ends the program where a call refuses. */
static void accepted(uint32_t refusal)
{
    if (refusal == 0)
        return;
    printf("refused: %u in step %u: %s\n", (unsigned)ISHKRELA_NUMBER(refusal), (unsigned)ISHKRELA_STEP(refusal),
           ishkrela_refusal_text(refusal));
    exit(1);
}

/* Writes the file of the first steps of a plan, and answers what the check announces of it. */
static ishkrela_checked announced(const ishkrela_step *steps, size_t count)
{
    ishkrela_written written = ishkrela_write(mesh, 2, NULL, 0, table, 2, start, (const uint8_t *)steps,
                                              count * sizeof *steps, file, sizeof file);
    accepted(written.refusal);
    file_len = written.bytes;
    ishkrela_checked checked = ishkrela_check(file, file_len);
    accepted(checked.refusal);
    return checked;
}

static void print_words(const char *when, const uint32_t *words, ishkrela_checked state)
{
    int shard = state.shard[0] * state.shard[1];
    printf("%s\n", when);
    for (int device = 0; device < state.devices; device++) {
        printf("device %d:", device);
        for (int word = 0; word < shard; word++)
            printf(" %u", (unsigned)words[device * shard + word]);
        printf("\n");
    }
}

int main(void)
{
    ishkrela_planned plan = ishkrela_plan(mesh, 2, NULL, 0, table, 2, start, goal);
    accepted(plan.refusal);

    /* A step's part is what the plan that ends with it moves more than the one that ends before it. */
    ishkrela_checked before = announced(plan.steps, 0), after = before;
    for (uint32_t step = 0; step < plan.count; step++) {
        uint64_t so_far = after.moved;
        after = announced(plan.steps, step + 1);
        printf("%s: %llu words\n", kinds[plan.steps[step].kind], (unsigned long long)(after.moved - so_far));
    }

    uint32_t *work = calloc(after.room, sizeof *work), *spare = calloc(after.room, sizeof *spare);
    if (!work || !spare)
        return 1;
    for (uint32_t word = 0; word < 32; word++)
        work[word] = word / 8 % 2 ? 100 : word / 16 * 8 + word % 8; /* devices 1 and 3 hold the other part */
    print_words("before", work, before);
    ishkrela_ran ran = ishkrela_run(file, file_len, work, after.room, spare, after.room);
    accepted(ran.refusal);
    print_words("after", work, after);
    printf("announced %llu words, moved %llu\n", (unsigned long long)after.moved, (unsigned long long)ran.moved);
    free(work);
    free(spare);
    return 0;
}
