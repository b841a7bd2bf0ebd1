/* The proved grader of number-place grids, for C99 and C++: every call of libgrader.a.
 *
 * A call is lent pointers with lengths in elements, or a pointer alone to an array of fixed length.
 * A caller owes this: no pointer is null, each points to as many elements as its length says, and
 * what a call writes overlaps nothing else that it is lent. Any length and any content is then
 * answered, and every call returns.
 *
 * A call that can refuse returns one 64-bit number, to be read with grader_refusal and its
 * companions below. A refused call changes no buffer. Refusals are tested in the order in which a
 * call lists them, and the first is told.
 *
 * The library allocates nothing and keeps nothing between calls, so that threads may call it at
 * once. Of the C library it needs memcpy and memset alone. A call takes less than 256 kB of stack.
 */
#ifndef GRADER_H
#define GRADER_H

#include <stddef.h>
#include <stdint.h>

#ifdef __cplusplus
extern "C" {
#endif

/* Lengths in elements. */
enum {
    GRADER_GRID = 81,    /* bytes of a grid, row by row: digits, and `0` or `.` for a blank */
    GRADER_MARKS = 729,  /* marks of a job, one a variable */
    GRADER_ORDER = 1458, /* literals of an order */
    GRADER_LITERALS = 9, /* literals lent for a clause */
    GRADER_BATCH = 64,   /* grids of a batch, at most */
    GRADER_LINE = 64     /* bytes lent for a line of a listing */
};

/* The ceiling where none is named. No job counts more trials. */
#define GRADER_CEILING UINT32_C(1062882)

/* Variable v = 81(x-1) + 9(y-1) + z stands for digit z in row x and column y, each from 1 to 9. A
 * literal is +v or -v. Mark v-1 is one of these. */
enum { GRADER_UNDECIDED = 0, GRADER_TRUE = 1, GRADER_FALSE = 2 };

/* Techniques: unit propagation, or trials, on the minimal or the extended clause set. */
enum {
    GRADER_UNIT_MINIMAL = 1,
    GRADER_UNIT_EXTENDED = 2,
    GRADER_TRIALS_MINIMAL = 3,
    GRADER_TRIALS_EXTENDED = 4
};

/* Outcomes of a job. */
enum { GRADER_SOLVED = 1, GRADER_OPEN = 2, GRADER_STOPPED = 3, GRADER_CONTRADICTION = 4 };

/* Verdicts of a grading; 1 to 4 are the first technique that solves. */
enum {
    GRADER_NO_COMPLETION = 0,
    GRADER_NOT_SOLVED = 5,
    GRADER_TRIALS_RAN_OUT = 6,
    GRADER_SEVERAL_COMPLETIONS = 7
};

/* Refusals: the keyer's, the operator's, the layout software's, the host program's. After a colon
 * stands what the place is; it is 0 for the others. */
enum {
    GRADER_GRID_LENGTH = 11,     /* the grid is not 81 bytes long */
    GRADER_GRID_BYTE = 12,       /* a byte is no digit, `0` or `.`: its place in grid or batch */

    GRADER_TECHNIQUE = 21,       /* the technique is not 1 to 4 */
    GRADER_ORDER_LENGTH = 22,    /* the order is not 1,458 literals long */
    GRADER_ORDER_ENTRY = 23,     /* an entry is 0 or outside -729 to 729: its place */
    GRADER_ORDER_REPEAT = 24,    /* an entry equals an earlier one: its place */

    GRADER_PIECE_CUT = 31,       /* a piece is cut short: where it begins */
    GRADER_PIECE_KIND = 32,      /* a piece's kind is unknown or does not rise: where it begins */
    GRADER_PIECE_LENGTH = 33,    /* a piece's body has the wrong length: where it begins */
    GRADER_PIECE_MISSING = 34,   /* the job file has no grid or no technique */

    GRADER_MARKS_LENGTH = 41,    /* the marks are not 729 a grid */
    GRADER_BUFFER_LENGTH = 42,   /* a buffer for a grid or a completion is not 81 bytes long */
    GRADER_CLAUSE_SET = 43,      /* the clause set is not 1 or 2 */
    GRADER_CLAUSE_NUMBER = 44,   /* the set has no clause of that number */
    GRADER_LITERALS_LENGTH = 45, /* the literals are not nine */
    GRADER_ORDER_BUFFER = 46,    /* the buffer for an order is not 1,458 literals long */
    GRADER_BATCH_LENGTH = 47,    /* the bytes are not 1 to 64 grids end to end */
    GRADER_ANSWERS_LENGTH = 48   /* the answer list is not two numbers a grid */
};

/* An answer: bits 56 to 63 hold a refusal's number, 0 for none; bits 48 to 55 a small result; bits
 * 0 to 47 the place of a refusal, else a count. */
typedef uint64_t grader_answer;

/* The number of the refusal, or 0 for a call that was not refused. */
static inline unsigned grader_refusal(grader_answer answer)
{
    return (unsigned)(answer >> 56);
}

/* The place of a refusal, counted from 0. */
static inline uint64_t grader_place(grader_answer answer)
{
    return answer & UINT64_C(0xffffffffffff);
}

/* The result of a call that was not refused. */
static inline unsigned grader_result(grader_answer answer)
{
    return (unsigned)(answer >> 48 & 0xff);
}

/* The count of a call that was not refused. */
static inline uint32_t grader_count(grader_answer answer)
{
    return (uint32_t)answer;
}

/* Fills in the order where none is named: +1, -1, +2, -2 to -729. */
static inline void grader_default_order(int16_t order[GRADER_ORDER])
{
    for (int16_t v = 1; v <= GRADER_MARKS; v++) {
        order[2 * v - 2] = v;
        order[2 * v - 1] = (int16_t)-v;
    }
}

/* Accepts a grid of 81 bytes, each `1` to `9`, `0` or `.`.
 * Refusals: 11, 12. No result. */
grader_answer grader_check_grid(const uint8_t *grid, size_t grid_length);

/* Tests whether a candidate is a legal completion of a grid: 81 digits that keep all givens and
 * have each digit once in each row, column and box.
 * Refusals: 11, 12, both of the grid.
 * Result: 1 where it is one, 0 where it is not. */
grader_answer grader_is_completion(const uint8_t *grid, size_t grid_length,
                                   const uint8_t *candidate, size_t candidate_length);

/* A clause of set 1 (minimal, numbers 0 to 8,828) or 2 (extended, 0 to 11,987).
 * Refusals: 43, 44, 45.
 * Result: the clause's length, 2 or 9. The nine literals are the clause's in index order, then
 * zeros. */
grader_answer grader_clause(uint32_t set, uint32_t number, int16_t *literals,
                            size_t literals_length);

/* A job: what one technique makes of a grid. It tries literals in the given order, and stops before
 * a trial where the count of trials has come to the ceiling.
 * Refusals: 41, 11, 12, 21, 22, 23, 24.
 * Result: the outcome, 1 to 4; count: the trials made. The marks are what was decided, all 0 after
 * a contradiction. Techniques 1 and 2 make no trials and never stop. */
grader_answer grader_job(const uint8_t *grid, size_t grid_length, uint32_t technique,
                         const int16_t *order, size_t order_length, uint32_t ceiling,
                         uint8_t *marks, size_t marks_length);

/* The search for legal completions.
 * Refusals: 42, 11, 12.
 * Result: 0, 1 or 2 for none, one or several. The buffers hold the smallest one or two in byte
 * order, as digits; a buffer that is not used holds zero bytes. */
grader_answer grader_search(const uint8_t *grid, size_t grid_length, uint8_t *first,
                            size_t first_length, uint8_t *second, size_t second_length);

/* The grading of a grid. Each technique gets what the earlier ones left of the ceiling.
 * Refusals: 42, 11, 12, 22, 23, 24.
 * Result: the verdict, 0 for no legal completion, 7 for several, 1 to 4 for the first technique
 * that solves, 5 if none does, 6 if the trials run out; count: the trials of all techniques. The
 * buffer holds the completion for 1 to 6, zero bytes for 0 and 7. */
grader_answer grader_grade(const uint8_t *grid, size_t grid_length, const int16_t *order,
                           size_t order_length, uint32_t ceiling, uint8_t *completion,
                           size_t completion_length);

/* A batch: a job for each of 1 to 64 grids that stand end to end, in turn, each with what the
 * earlier ones left of the ceiling.
 * Refusals: 47, 41, 48, 12, 21, 22, 23, 24. No result.
 * Grid i, from 0, has its marks from marks[729 * i] on, its outcome in answers[2 * i] and its count
 * in answers[2 * i + 1]. */
grader_answer grader_batch(const uint8_t *grids, size_t grids_length, uint32_t technique,
                           const int16_t *order, size_t order_length, uint32_t ceiling,
                           uint8_t *marks, size_t marks_length, uint32_t *answers,
                           size_t answers_length);

/* Reads a job file: pieces of body length (2 bytes), kind (2 bytes) and body, little-endian. Kinds
 * rise: 1 grid (81 bytes), 2 technique (1 byte), 3 ceiling (4), 4 order (2,916, two's complement);
 * 1 and 2 must be there.
 * Refusals: 42, 46; 31, 32, 33 piece by piece; 34, 12 with its place in the grid, 21, 23, 24.
 * Result: the technique, 1 to 4; count: the ceiling, GRADER_CEILING where the file has none. The
 * buffers hold the grid as it is in the file, and the order, the default one where it has none. */
grader_answer grader_read_job_file(const uint8_t *file, size_t file_length, uint8_t *grid,
                                   size_t grid_length, int16_t *order, size_t order_length);

/* Writes a listing's header, `line verdict trials` and a newline, at the start of the lent bytes.
 * Returns the length, 20; bytes past it stay as they were. */
size_t grader_header(uint8_t out[GRADER_LINE]);

/* Grades a line of input under the default order and ceiling, and writes its output line at the
 * start of the lent bytes: the number, the verdict and the trials, or the number, `R` and the
 * refusal, then a newline. Returns the length; bytes past it stay as they were. */
size_t grader_list_line(uint64_t number, const uint8_t *line, size_t line_length,
                        uint8_t out[GRADER_LINE]);

#ifdef __cplusplus
}
#endif

#endif
