/* announce PLAN: prints what a plan announces, and where each device's shard begins.
 *
 * Judges the file, and prints for each state its sharding and shard sizes, and the first indexes
 * of the devices. Ends with status 1 where the plan is refused or cannot be read. */
#include <errno.h>
#include <stdio.h>
#include <string.h>
#include "ishkrela.h"

static void print_list(ishkrela_sharding sharding, int list)
{
    printf("[");
    for (int i = 0; i < sharding.counts[list]; i++)
        printf("%s%d", i ? " " : "", ISHKRELA_AXIS(sharding, list, i));
    printf("]");
}

static void print_sharding(ishkrela_sharding sharding, int rank)
{
    for (int d = 0; d < rank; d++)
        print_list(sharding, d);
    printf(" unreduced ");
    print_list(sharding, ISHKRELA_UNREDUCED);
    if (sharding.counts[ISHKRELA_REPLICATED]) {
        printf(" replicated ");
        print_list(sharding, ISHKRELA_REPLICATED);
    }
}

static void print_sizes(const uint16_t *sizes, int rank)
{
    for (int d = 0; d < rank; d++)
        printf("%s%d", d ? "x" : "", sizes[d]);
}

static int refused(uint32_t refusal)
{
    printf("refused: %u in step %u: %s\n", (unsigned)ISHKRELA_NUMBER(refusal), (unsigned)ISHKRELA_STEP(refusal),
           ishkrela_refusal_text(refusal));
    return 1;
}

static void print_state(const uint8_t *file, size_t len, uint16_t state, uint16_t devices)
{
    ishkrela_placed at = ishkrela_place(file, len, state, 0);
    printf("state %d: ", state);
    print_sharding(at.sharding, at.rank);
    printf(", shards of ");
    print_sizes(at.shard, at.rank);
    printf(", first indexes");
    for (uint16_t device = 0; device < devices; device++) {
        at = ishkrela_place(file, len, state, device);
        printf(" ");
        print_sizes(at.first, at.rank);
    }
    printf("\n");
}

static int unread(const char *path)
{
    fprintf(stderr, "announce: %s: %s: name a plan file, such as examples/gather_tail.plan\n", path, strerror(errno));
    return 1;
}

int main(int argc, char **argv)
{
    if (argc != 2) {
        fprintf(stderr, "usage: announce PLAN; PLAN is a file such as examples/gather_tail.plan\n");
        return 1;
    }
    FILE *in = fopen(argv[1], "rb");
    if (!in)
        return unread(argv[1]);
    uint8_t file[8193]; /* one byte more than a plan may have: a longer file is refused, not cut */
    size_t len = fread(file, 1, sizeof file, in);
    if (ferror(in))
        return unread(argv[1]);
    fclose(in);

    ishkrela_checked plan = ishkrela_check(file, len);
    if (plan.refusal)
        return refused(plan.refusal);
    printf("%d devices, %d steps, room for %u words\n", plan.devices, plan.steps, (unsigned)plan.room);
    for (uint16_t state = 0; state <= plan.steps; state++)
        print_state(file, len, state, plan.devices);
    return 0;
}
