/* Every function once, on a thread whose stack is CUNDVREST_STACK: a plan is written from numbers, read back, checked
 * and asked, a trace is held against it, and frontiers are asked, compared and merged. Prints what each call told. */
#include <pthread.h>
#include <stdio.h>
#include <string.h>

#include "cundvrest.h"

#define COUNT(array) (sizeof(array) / sizeof((array)[0]))

/* Three queues with axes 10, 20 and 30; semaphore 0 owned by queue 0, semaphore 1 by queue 1; a buffer of 4,096 bytes; three operations. */
static const uint64_t numbers[] = {
    3, 10, 20, 30,
    2, 0, 1,
    1, 4096,
    3,
    /* queue; waits; signals; marks */
    0, 0, 1, 0, 1, 1, 0, 0,
    1, 1, 0, 1, 1, 1, 1, 2, 0, 0, 0, 1,
    2, 1, 1, 1, 0, 1, 0, 0
};

static void show(const char *call, const uint64_t told[3])
{
    printf("%s %lu %lu %lu\n", call, (unsigned long)told[0], (unsigned long)told[1], (unsigned long)told[2]);
}

static void show_frontier(const uint64_t f[CUNDVREST_FRONTIER])
{
    uint64_t i;
    printf("  %s", f[33] == 0 ? "whole" : "tainted");
    for (i = 0; i < f[32]; i++)
        printf(" %lu:%lu", (unsigned long)f[i], (unsigned long)f[16 + i]);
    putchar('\n');
}

/* The answer for an axis that was looked up. */
static void show_axis(uint64_t answer, uint64_t epoch)
{
    if (answer == CUNDVREST_LISTED)
        printf("  listed with %lu\n", (unsigned long)epoch);
    else
        puts("  absent");
}

/* The answer for a trace that departs at a wait, and how far three queues and two semaphores had come before. */
static void show_trace(uint64_t answer, const uint64_t found[CUNDVREST_FOUND], const uint64_t state[CUNDVREST_STATE])
{
    if (answer == CUNDVREST_WAIT_NOT_MET)
        printf("  step %lu, operation %lu, wait %lu not met;",
               (unsigned long)found[0], (unsigned long)found[1], (unsigned long)found[2]);
    printf(" queues %lu %lu %lu, semaphores %lu %lu\n", (unsigned long)state[0], (unsigned long)state[1],
           (unsigned long)state[2], (unsigned long)state[16], (unsigned long)state[17]);
}

static void *tour(void *unused)
{
    static uint8_t plan[CUNDVREST_MOST_BYTES];
    static uint64_t back[CUNDVREST_MOST_NUMBERS];
    uint32_t table[3 * CUNDVREST_TABLE_WIDTH], list[3 * CUNDVREST_LIST_WIDTH];
    uint64_t first[CUNDVREST_FRONTIER], last[CUNDVREST_FRONTIER], raised[CUNDVREST_FRONTIER], merged[CUNDVREST_FRONTIER];
    uint64_t state[CUNDVREST_STATE], found[CUNDVREST_FOUND];
    uint64_t fewer[COUNT(numbers)], epoch, wait[2], told[3];
    size_t length;
    /* two steps: operation 0, then operation 2, which should have waited for operation 1 */
    static const uint8_t trace[] = {2, 0, 0, 0, 2, 0};
    static const uint8_t nothing[6] = {0};

    cundvrest_write(numbers, COUNT(numbers), plan, sizeof plan, told);
    show("write", told);
    length = (size_t)told[2];
    cundvrest_read(plan, length, back, COUNT(back), told);
    show("read", told);
    cundvrest_check(plan, length, table, COUNT(table), list, COUNT(list), told);
    show("check", told);
    cundvrest_reuse(plan, length, 2, 0, table, COUNT(table), list, COUNT(list), told);
    show("reuse", told);
    cundvrest_frontier(plan, length, 0, 16, table, COUNT(table), list, COUNT(list), first, told);
    show("frontier", told);
    show_frontier(first);
    cundvrest_frontier(plan, length, 2, 16, table, COUNT(table), list, COUNT(list), last, told);
    show("frontier", told);
    show_frontier(last);
    cundvrest_trace(plan, length, trace, sizeof trace, table, COUNT(table), list, COUNT(list),
                    state, COUNT(state), found, told);
    show("trace", told);
    show_trace(told[2], found, state);
    cundvrest_lookup(last, 20, &epoch, told);
    show("lookup", told);
    show_axis(told[2], epoch);
    cundvrest_lookup(first, 20, &epoch, told);
    show("lookup", told);
    show_axis(told[2], epoch);
    cundvrest_dominates(last, first, told);
    show("dominates", told);
    cundvrest_dominates(first, last, told);
    show("dominates", told);
    cundvrest_raise(first, 40, 7, 16, raised, told);
    show("raise", told);
    show_frontier(raised);
    cundvrest_merge(raised, last, 2, merged, told);
    show("merge", told);
    show_frontier(merged);
    cundvrest_merge(raised, last, 17, merged, told);
    show("merge", told);
    show_frontier(merged);

    /* without its last operation, eight numbers, the plan frees the buffer: what is queue 0 to wait for? */
    memcpy(fewer, numbers, sizeof fewer);
    fewer[9] = 2;
    cundvrest_write(fewer, COUNT(fewer) - 8, plan, sizeof plan, told);
    show("write", told);
    cundvrest_suggest(plan, (size_t)told[2], 0, 0, table, COUNT(table), list, COUNT(list), wait, told);
    show("suggest", told);
    if (told[2] == CUNDVREST_WAIT)
        printf("  until semaphore %lu is at %lu\n", (unsigned long)wait[0], (unsigned long)wait[1]);

    /* a length of 0 needs no memory */
    cundvrest_read(NULL, 0, NULL, 0, told);
    show("read", told);
    cundvrest_check(nothing, sizeof nothing, NULL, 0, NULL, 0, told);
    show("check", told);
    return unused;
}

int main(void)
{
    pthread_attr_t attributes;
    pthread_t thread;
    if (pthread_attr_init(&attributes) != 0 || pthread_attr_setstacksize(&attributes, CUNDVREST_STACK) != 0
        || pthread_create(&thread, &attributes, tour, NULL) != 0 || pthread_join(thread, NULL) != 0) {
        fputs("no thread\n", stderr);
        return 2;
    }
    return fflush(stdout) == 0 ? 0 : 2;
}
