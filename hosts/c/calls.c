/* Each call of grader.h with every refusal that it can give, in the order of its tests, and then
 * answered: nothing else holds the declarations to the library. A call is lent every fault at
 * once, and the one that it tells is mended before it is called again. The status is 1 at a
 * difference. */
#include <grader.h>
#include <stdbool.h>
#include <stdio.h>
#include <string.h>

/* The full grid G. */
static const char full[] =
    "123456789456789123789123456231564897564897231897231564312645978645978312978312645";

/* What the calls are lent; a call takes of it what it needs. The job file has a piece with the
 * grid, one with the technique at 85, and one with the order at 90. */
static struct lent {
    uint8_t grid[2 * GRADER_GRID + 1], marks[2 * GRADER_MARKS], first[GRADER_GRID],
        second[GRADER_GRID], file[94 + 2 * GRADER_ORDER];
    int16_t order[GRADER_ORDER], order_buffer[GRADER_ORDER], literals[GRADER_LITERALS];
    uint32_t answers[4], technique, set, number;
    size_t grid_length, marks_length, buffer_length, file_length, order_length,
        order_buffer_length, literals_length, answers_length;
} lent;

/* Some grids with all faults: the last one has a bad byte at 17, the order a bad entry at 900 and a
 * repeat at 5. Without its faults the order is not the default one. */
static void lend(size_t grids)
{
    memset(&lent, 77, sizeof lent);
    for (size_t i = 0; i < grids; i++)
        memcpy(lent.grid + GRADER_GRID * i, full, GRADER_GRID);
    lent.grid[GRADER_GRID * (grids - 1) + 17] = 'x';
    grader_default_order(lent.order);
    lent.order[0] = -1;
    lent.order[1] = 1;
    lent.order[900] = 730;
    lent.order[5] = 3;
    lent.technique = 5;
    lent.set = 3;
    lent.number = 11988;
    lent.grid_length = GRADER_GRID * grids + 1;
    lent.marks_length = GRADER_MARKS * grids - 1;
    lent.answers_length = 2 * grids - 1;
    lent.buffer_length = GRADER_GRID - 1;
    lent.literals_length = GRADER_LITERALS - 1;
    lent.order_length = lent.order_buffer_length = GRADER_ORDER - 1;

    memcpy(lent.file, (uint8_t[]){81, 0, 1, 0}, 4);
    memcpy(lent.file + 4, lent.grid, GRADER_GRID);
    memcpy(lent.file + 85, (uint8_t[]){2, 0, 9, 0, 5}, 5);
    memcpy(lent.file + 90, (uint8_t[]){0x64, 0x0b, 4, 0}, 4);
    memcpy(lent.file + 94, lent.order, sizeof lent.order);
    lent.file_length = 90;
}

/* Mends what a refusal names. */
static void mend(unsigned number)
{
    switch (number) {
    case GRADER_GRID_LENGTH:
    case GRADER_BATCH_LENGTH: lent.grid_length--; break;
    case GRADER_GRID_BYTE:
        *(uint8_t *)memchr(lent.grid, 'x', sizeof lent.grid) = '.';
        lent.file[4 + 17] = '.';
        break;
    case GRADER_TECHNIQUE: lent.technique = lent.file[89] = 1; break;
    case GRADER_ORDER_LENGTH: lent.order_length++; break;
    case GRADER_ORDER_ENTRY: lent.order[900] = 451; break;
    case GRADER_ORDER_REPEAT: lent.order[5] = -3; break;
    case GRADER_PIECE_CUT: lent.file_length = 91; break;
    case GRADER_PIECE_KIND: lent.file[87] = 2; break;
    case GRADER_PIECE_LENGTH: lent.file[85] = 1; lent.file_length = 85; break;
    case GRADER_PIECE_MISSING: lent.file_length = sizeof lent.file; break;
    case GRADER_MARKS_LENGTH: lent.marks_length++; break;
    case GRADER_BUFFER_LENGTH: lent.buffer_length++; break;
    case GRADER_CLAUSE_SET: lent.set = 2; break;
    case GRADER_CLAUSE_NUMBER: lent.number = 11987; break;
    case GRADER_LITERALS_LENGTH: lent.literals_length++; break;
    case GRADER_ORDER_BUFFER: lent.order_buffer_length++; break;
    case GRADER_ANSWERS_LENGTH: lent.answers_length++; break;
    }
    memcpy(lent.file + 94, lent.order, sizeof lent.order);
}

static grader_answer check_grid(void)
{
    return grader_check_grid(lent.grid, lent.grid_length);
}

static grader_answer is_completion(void)
{
    return grader_is_completion(lent.grid, lent.grid_length, (const uint8_t *)full, GRADER_GRID);
}

static grader_answer clause(void)
{
    return grader_clause(lent.set, lent.number, lent.literals, lent.literals_length);
}

static grader_answer job(void)
{
    return grader_job(lent.grid, lent.grid_length, lent.technique, lent.order, lent.order_length, 0,
                      lent.marks, lent.marks_length);
}

/* The first buffer has the faulty length. */
static grader_answer search_first(void)
{
    return grader_search(lent.grid, lent.grid_length, lent.first, lent.buffer_length, lent.second,
                         GRADER_GRID);
}

/* The second buffer has it. */
static grader_answer search_second(void)
{
    return grader_search(lent.grid, lent.grid_length, lent.first, GRADER_GRID, lent.second,
                         lent.buffer_length);
}

static grader_answer grade(void)
{
    return grader_grade(lent.grid, lent.grid_length, lent.order, lent.order_length, 0, lent.first,
                        lent.buffer_length);
}

static grader_answer batch(void)
{
    return grader_batch(lent.grid, lent.grid_length, lent.technique, lent.order, lent.order_length,
                        0, lent.marks, lent.marks_length, lent.answers, lent.answers_length);
}

static grader_answer read_job_file(void)
{
    return grader_read_job_file(lent.file, lent.file_length, lent.first, lent.buffer_length,
                                lent.order_buffer, lent.order_buffer_length);
}

static int status;

static void expect(bool as_expected, const char *what)
{
    if (!as_expected) {
        fprintf(stderr, "calls: another answer or buffer: %s\n", what);
        status = 1;
    }
}

#define EXPECT(condition) expect(condition, #condition)

struct refusal {
    unsigned number;
    uint64_t place;
};

/* The call is refused so in turn, with nothing changed, and then answered so. */
static void run(const char *name, grader_answer (*call)(void), size_t grids,
                const struct refusal *refusals, unsigned result, uint32_t count)
{
    static struct lent before;
    lend(grids);
    for (const struct refusal *refusal = refusals; refusal->number != 0; refusal++) {
        memcpy(&before, &lent, sizeof lent);
        grader_answer answer = call();
        expect(grader_refusal(answer) == refusal->number, name);
        expect(grader_place(answer) == refusal->place, name);
        expect(memcmp(&before, &lent, sizeof lent) == 0, name);
        mend(refusal->number);
    }
    grader_answer answer = call();
    expect(grader_refusal(answer) == 0, name);
    expect(grader_result(answer) == result && grader_count(answer) == count, name);
}

#define RUN(call, grids, result, count, ...)                                                      \
    run(#call, call, grids, (const struct refusal[]){__VA_ARGS__, {0, 0}}, result, count)

/* Whether some marks are those of the full grid. */
static bool marked(const uint8_t *marks)
{
    for (int v = 0; v < GRADER_MARKS; v++)
        if (marks[v] != (full[v / 9] == '1' + v % 9 ? GRADER_TRUE : GRADER_FALSE))
            return false;
    return true;
}

int main(void)
{
    RUN(check_grid, 1, 0, 0, {11, 0}, {12, 17});

    RUN(is_completion, 1, 1, 0, {11, 0}, {12, 17});
    EXPECT(grader_is_completion(lent.grid, GRADER_GRID, lent.grid, GRADER_GRID) == 0);
    EXPECT(grader_is_completion(lent.grid, GRADER_GRID, (const uint8_t *)full, 80) == 0);

    RUN(clause, 1, 9, 0, {43, 0}, {44, 0}, {45, 0});
    EXPECT(lent.literals[0] == 549 && lent.literals[8] == 729);

    RUN(job, 1, GRADER_SOLVED, 0, {41, 0}, {11, 0}, {12, 17}, {21, 0}, {22, 0}, {23, 900}, {24, 5});
    EXPECT(marked(lent.marks));

    RUN(search_first, 1, 1, 0, {42, 0}, {11, 0}, {12, 17});
    RUN(search_second, 1, 1, 0, {42, 0}, {11, 0}, {12, 17});
    EXPECT(memcmp(lent.first, full, GRADER_GRID) == 0);
    EXPECT(memcmp(lent.second, (const uint8_t[GRADER_GRID]){0}, GRADER_GRID) == 0);

    RUN(grade, 1, GRADER_UNIT_MINIMAL, 0, {42, 0}, {11, 0}, {12, 17}, {22, 0}, {23, 900}, {24, 5});
    EXPECT(memcmp(lent.first, full, GRADER_GRID) == 0);

    RUN(batch, 2, 0, 0, {47, 0}, {41, 0}, {48, 0}, {12, GRADER_GRID + 17}, {21, 0}, {22, 0},
        {23, 900}, {24, 5});
    EXPECT(marked(lent.marks) && marked(lent.marks + GRADER_MARKS));
    EXPECT(memcmp(lent.answers, (const uint32_t[]){1, 0, 1, 0}, sizeof lent.answers) == 0);

    RUN(read_job_file, 1, GRADER_UNIT_MINIMAL, GRADER_CEILING, {42, 0}, {46, 0}, {31, 85}, {32, 85},
        {33, 85}, {34, 0}, {12, 17}, {21, 0}, {23, 900}, {24, 5});
    EXPECT(memcmp(lent.first, lent.grid, GRADER_GRID) == 0);
    EXPECT(memcmp(lent.order_buffer, lent.order, sizeof lent.order) == 0);

    /* The line is written over the header, of which the rest stays. */
    uint8_t line[GRADER_LINE], past[GRADER_LINE - 20];
    memset(line, 77, sizeof line);
    memset(past, 77, sizeof past);
    EXPECT(grader_header(line) == 20);
    EXPECT(memcmp(line, "line verdict trials\n", 20) == 0);
    EXPECT(grader_list_line(12, (const uint8_t *)full, GRADER_GRID, line) == 7);
    EXPECT(memcmp(line, "12 1 0\nrdict trials\n", 20) == 0);
    EXPECT(memcmp(line + 20, past, sizeof past) == 0);
    return status;
}
