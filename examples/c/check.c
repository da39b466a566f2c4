/* Checks the stored plan in a file and prints the verdict: `passed 0`, or `refused NUMBER PLACE`. Exits with 0, 1, or 2
 * where there is no verdict. */
#include <stdio.h>

#include "cundvrest.h"

/* One byte more than the longest plan: of a longer file the check sees that bytes follow. */
static uint8_t plan[CUNDVREST_MOST_BYTES + 1];
static uint32_t table[CUNDVREST_TABLE_WIDTH * CUNDVREST_MOST_OPERATIONS];
static uint32_t list[CUNDVREST_LIST_WIDTH * CUNDVREST_MOST_OPERATIONS];

int main(int argc, char **argv)
{
    FILE *file;
    size_t plan_len;
    uint64_t told[3];

    if (argc != 2) {
        fprintf(stderr, "usage: %s FILE\n", argc > 0 ? argv[0] : "check");
        return 2;
    }
    file = fopen(argv[1], "rb");
    if (file == NULL) {
        perror(argv[1]);
        return 2;
    }
    plan_len = fread(plan, 1, sizeof plan, file);
    if (ferror(file)) {
        perror(argv[1]);
        return 2;
    }
    fclose(file);

    cundvrest_check(plan, plan_len, table, sizeof table / sizeof table[0], list, sizeof list / sizeof list[0],
                    told);

    if (told[0] == CUNDVREST_PASSED)
        puts("passed 0");
    else
        printf("refused %lu %lu\n", (unsigned long)told[0], (unsigned long)told[1]);
    if (fflush(stdout) != 0) {
        perror("standard output");
        return 2;
    }
    return told[0] == CUNDVREST_PASSED ? 0 : 1;
}
