/* Grades the grid that its argument is, or a sample: prints the verdict, the trials and the legal
 * completion, where there is just one. The status is 1 for a refused grid. */
#include <grader.h>
#include <inttypes.h>
#include <stdio.h>
#include <string.h>

/* AI Escargot, a hard published grid. */
static const char sample[] =
    "100007090030020008009600500005300900010080002600004000300000010040000007007000300";

static const char *const verdicts[] = {
    "no legal completion",
    "unit propagation on the minimal clause set solves it",
    "unit propagation on the extended clause set solves it",
    "trials on the minimal clause set solve it",
    "trials on the extended clause set solve it",
    "no technique solves it",
    "the trials ran out",
    "several legal completions",
};

/* Says why the grid was refused; the other refusals are faults of a program, not of a grid. */
static int refused(unsigned number, uint64_t place)
{
    switch (number) {
    case GRADER_GRID_LENGTH:
        fprintf(stderr, "refused: the grid is not %d bytes long\n", GRADER_GRID);
        break;
    case GRADER_GRID_BYTE:
        fprintf(stderr, "refused: no digit, `0` or `.` at place %" PRIu64 "\n", place);
        break;
    default:
        fprintf(stderr, "refusal %u at place %" PRIu64 "\n", number, place);
    }
    return 1;
}

int main(int argc, char **argv)
{
    const char *grid = argc > 1 ? argv[1] : sample;
    int16_t order[GRADER_ORDER];
    uint8_t completion[GRADER_GRID];

    grader_default_order(order);
    grader_answer answer = grader_grade((const uint8_t *)grid, strlen(grid), order, GRADER_ORDER,
                                        GRADER_CEILING, completion, sizeof completion);
    if (grader_refusal(answer) != 0)
        return refused(grader_refusal(answer), grader_place(answer));

    unsigned verdict = grader_result(answer);
    printf("verdict %u: %s\n", verdict, verdicts[verdict]);
    printf("trials %" PRIu32 "\n", grader_count(answer));
    if (verdict != GRADER_NO_COMPLETION && verdict != GRADER_SEVERAL_COMPLETIONS)
        for (int row = 0; row < 9; row++)
            printf("%.9s\n", (const char *)completion + 9 * row);
    return 0;
}
