/* stack CASES ..: how much stack each call takes, on the plan files that begin the lines of CASES; the
 * write on a block at depth 4, the planner on a plan of three steps, both by an order.
 *
 * Each call is made in a thread of its own whose stack was painted; what is no longer painted
 * afterwards was used. Fails where a call takes more than include/ishkrela.h says. */
#define _GNU_SOURCE
#include <pthread.h>
#include <stdio.h>
#include <stdlib.h>
#include <string.h>
#include "ishkrela.h"

enum { CALLS = 9, PAINT = 0xa5, STACK = 1 << 18, ROOM = ISHKRELA_MOST_ROOM, SAID = ISHKRELA_STACK_BYTES };

static _Alignas(64) unsigned char stack[STACK];
static uint32_t work[ROOM], spare[ROOM];
static uint8_t file[10000];
static size_t len;
static ishkrela_checked plan;
static size_t deepest[CALLS];
static uint32_t refused;

/* mesh 2x3x2x2x3x2, table 12x6x15x2: [[5, 0], [1], [4], [2]] with unreduced [3], and [[0], [1], [4], [5]] */
static const ishkrela_sharding start = {{2, 1, 1, 1, 1}, {[0] = 5, [6] = 1, [12] = 4, [18] = 2, [24] = 3}};
static const ishkrela_sharding goal = {{1, 1, 1, 1}, {[0] = 0, [6] = 1, [12] = 4, [18] = 5}};
static const ishkrela_step nested[] = {
    {ISHKRELA_REPEAT, 1, 1, {0}, {0}}, {ISHKRELA_REPEAT, 1, 1, {0}, {0}},     {ISHKRELA_REPEAT, 1, 1, {0}, {0}},
    {ISHKRELA_REPEAT, 2, 2, {0}, {0}}, {ISHKRELA_ALL_GATHER, 0, 0, {1}, {0}}, {ISHKRELA_ALL_SLICE, 0, 0, {1}, {0}},
};

static const uint16_t mesh[] = {2, 3, 2, 2, 3, 2}, table[] = {12, 6, 15, 2};
static const uint8_t axes[] = {5, 1, 3, 0, 4, 2};
static uint16_t order[144], out[1024], every[1024], first[4 * 1024];
static uint8_t written[8192], records[38 * 8192 / 3];

static void check(void)
{
    plan = ishkrela_check(file, len);
}

static void place(void)
{
    ishkrela_place(file, len, plan.steps, plan.devices - 1);
}

static void place_all(void)
{
    ishkrela_place_all(file, len, plan.steps, every, plan.devices, first, 4 * 1024);
}

static void groups(void)
{
    ishkrela_groups(mesh, 6, axes, len % 7, out, 1024);
}

static void groups_ordered(void)
{
    ishkrela_groups_ordered(mesh, 6, order, 144, axes, len % 7, out, 1024);
}

static void run(void)
{
    ishkrela_run(file, len, work, plan.room, spare, plan.room);
}

static void write_nested(void)
{
    const uint8_t *steps = (const uint8_t *)nested;
    refused |= ishkrela_write(mesh, 6, order, 144, table, 4, start, steps, sizeof nested, written, 8192).refusal;
}

static void read_back(void)
{
    ishkrela_read(file, len, out, 1024, records, sizeof records);
}

static void plan_goal(void)
{
    refused |= ishkrela_plan(mesh, 6, order, 144, table, 4, start, goal).refusal;
}

static const char *const names[CALLS] = {
    "check", "place", "place_all", "groups", "groups_ordered", "run", "write", "read", "plan",
};
static void (*volatile const calls[CALLS])(void) = {
    check, place, place_all, groups, groups_ordered, run, write_nested, read_back, plan_goal,
};

static void *calling(void *which)
{
    unsigned char *top = __builtin_frame_address(0);
    calls[*(int *)which]();
    return top;
}

static void measure(int call)
{
    pthread_t thread;
    pthread_attr_t attributes;
    void *top;
    memset(stack, PAINT, sizeof stack);
    pthread_attr_init(&attributes);
    if (pthread_attr_setstack(&attributes, stack, sizeof stack) || pthread_create(&thread, &attributes, calling, &call) ||
        pthread_join(thread, &top)) {
        fprintf(stderr, "stack: a thread cannot be made\n");
        exit(1);
    }
    size_t low = 0;
    while (stack[low] == PAINT)
        low++;
    size_t used = (size_t)((unsigned char *)top - (stack + low));
    if (used > deepest[call])
        deepest[call] = used;
}

static void read_hex(const char *text)
{
    unsigned byte;
    for (len = 0; len < sizeof file && sscanf(text, "%2x", &byte) == 1; text += 2)
        file[len++] = (uint8_t)byte;
}

int main(int argc, char **argv)
{
    static char line[1 << 16];
    int count = 0, over = 0;
    for (uint16_t at = 0; at < 144; at++)
        order[at] = (uint16_t)(143 - at);
    for (uint16_t device = 0; device < 1024; device++)
        every[device] = device;
    for (int i = 1; i < argc; i++) {
        FILE *cases = fopen(argv[i], "r");
        if (!cases) {
            fprintf(stderr, "stack: %s cannot be read: name a file of cases, such as tests/plans.txt\n", argv[i]);
            return 1;
        }
        while (fgets(line, sizeof line, cases)) {
            if (line[0] == '#' || line[0] == '\n')
                continue;
            read_hex(line);
            for (int call = 0; call < CALLS; call++)
                measure(call);
            count++;
        }
        fclose(cases);
    }
    printf("bytes of stack on %d cases:", count);
    for (int call = 0; call < CALLS; call++) {
        printf(" %s %zu", names[call], deepest[call]);
        over |= deepest[call] > SAID;
    }
    printf("\n");
    return over || refused || !count;
}
