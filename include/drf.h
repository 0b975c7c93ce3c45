/* The proved judge of run files, and clauses from a lookup table, for C99 and C++. docs/INTEGRATION.md says how it is built and linked, and
 * what is proved of it.
 *
 * drf_judge writes the listing of a file, drf_inspect the listing and after it the final state, drf_inspect_numbers the same with the numbers
 * that accepted steps hand on. What holds of the three, whatever the file's bytes are:
 *
 * - Read are the file_len bytes from file on. They stay as they are. A file of more than DRF_MOST_FILE bytes is refused as too long, whatever is in
 *   it, so that a host need read no more than DRF_MOST_READ.
 * - The text is written from out on, and its length is answered. It ends with a newline, and no zero byte is put after it: the bytes of the
 *   buffer past it stay as they were.
 * - 0 is answered exactly if the buffer is short: out_len below DRF_MOST_LISTING (drf_judge), DRF_MOST_INSPECTION (drf_inspect) or
 *   DRF_MOST_WITH_NUMBERS (drf_inspect_numbers), however short the text would be. Then nothing is written, to ends neither.
 * - Else, if ends_len is 2 or more, ends[0] is the number and ends[1] the place that judging ended with, and the other slots stay. If it is
 *   0 or 1, ends stays.
 *
 * After the line of each accepted Propagate, Decide, Conflict and Backtrack drf_inspect_numbers writes one more: the word numbers, and for each
 * constant, in their order, a space and its number. The numbers rise, and every atom that the step asks about holds of them; docs/FORMAT.md says
 * which they are.
 *
 * drf_table writes the input clauses of a lookup table, as a run file has them and without their number. What holds of it, whatever the
 * numbers are:
 *
 * - There are keys_len rows: each key with the result at its place. Read are keys and results; they stay as they are. A key that has no
 *   result is refused by 20, and results past the keys are not looked at.
 * - approximate 0 is exact match, any other number approximate match.
 * - If the table is accepted, the clauses are written from out on, and the number of their bytes is answered, DRF_MOST_TABLE at most; 0 for
 *   no rows. The bytes of the buffer past them stay as they were.
 * - If it is refused, 256 times the refusal's number plus its place, which is 0, is answered, and the buffer stays as it was:
 *   DRF_TOO_MANY_ROWS, DRF_NOT_IN_ORDER or DRF_BUFFER_SHORT, the first of them that is so. A buffer is short exactly if the clauses do not
 *   fit.
 *
 * What holds of all four: nothing else is written, and nothing is kept: no allocation, no global state, no lock, no call of the system. So
 * they may be called from any thread, and from many at once; these may share what is read.
 *
 * What they count on:
 *
 * - Each pointer is that of as many elements as the length beside it says; a length is of elements, so that of ends counts slots of 8 bytes.
 *   A null pointer goes with length 0 alone (docs/INTEGRATION.md, "Null").
 * - What is written to, buffer and ends, overlaps nothing else that is lent, and nothing else writes to what is lent, or reads buffer or
 *   ends, before the call returns.
 * - The thread has DRF_STACK bytes of stack.
 */
#ifndef DRF_H
#define DRF_H

#include <stddef.h>
#include <stdint.h>

#ifdef __cplusplus
extern "C" {
#endif

/* "From version 2 on a valid file may have up to 65,536 bytes": a longer one is refused as DRF_TOO_LONG, whatever is in it. */
#define DRF_MOST_FILE 65536

/* "Of any file the program reads one byte more and no further." */
#define DRF_MOST_READ 65537

/* A buffer of so many bytes has room for every listing. */
#define DRF_MOST_LISTING 54008

/* A buffer of so many bytes has room for every listing with its final state. */
#define DRF_MOST_INSPECTION 136558

/* A buffer of so many bytes has room for every listing with its final state and the numbers that steps hand on. */
#define DRF_MOST_WITH_NUMBERS 536558

/* "Make the input clauses from up to 48 rows of key and result." */
#define DRF_MOST_ROWS 48

/* The largest key and the largest result of a table; the least is as far below 0. It is the largest c of an atom. */
#define DRF_MOST_C 1000000

/* A buffer of so many bytes has room for the clauses of every table. */
#define DRF_MOST_TABLE 1488

/* The stack of a thread that calls, in bytes; what is lent is not in it. */
#define DRF_STACK 180224

uint64_t drf_judge(const uint8_t *file, size_t file_len, uint8_t *out, size_t out_len, uint64_t *ends, size_t ends_len);
uint64_t drf_inspect(const uint8_t *file, size_t file_len, uint8_t *out, size_t out_len, uint64_t *ends, size_t ends_len);
uint64_t drf_inspect_numbers(const uint8_t *file, size_t file_len, uint8_t *out, size_t out_len, uint64_t *ends, size_t ends_len);
uint32_t drf_table(const int32_t *keys, size_t keys_len, const int32_t *results, size_t results_len, uint8_t approximate, uint8_t *out,
                   size_t out_len);

/* The refusal numbers. docs/REFUSALS.md says when each is given. */
enum drf_refusal {
    DRF_ACCEPTED = 0,
    DRF_ENDS_INSIDE = 1,
    DRF_WRONG_MARK = 2,
    DRF_ABOVE_LIMIT = 3,
    DRF_OUT_OF_RANGE = 4,
    DRF_OCCURS_NOWHERE = 5,
    DRF_LACKS_BOUND = 6,
    DRF_UNKNOWN_RULE = 7,
    DRF_SURPLUS = 8,
    DRF_WRONG_MOMENT = 9,
    DRF_NO_SUCH = 10,
    DRF_ALREADY_DEFINED = 11,
    DRF_NOT_FALSE = 12,
    DRF_NOT_POSSIBLE = 13,
    DRF_NO_ENTRY = 14,
    DRF_WRONG_LITERAL = 15,
    DRF_NOT_ABOVE = 16,
    DRF_KEPT_NOT_POSSIBLE = 17,
    DRF_NO_ROOM = 18,
    DRF_TOO_MANY_ROWS = 19,
    DRF_NOT_IN_ORDER = 20,
    DRF_BUFFER_SHORT = 21,
    DRF_TOO_LONG = 22
};

/* The last line of a listing. */
enum drf_verdict {
    DRF_SHORT = 0,    /* no verdict: the buffer is short */
    DRF_REFUTED = 1,  /* the conflict standing has no literals: the file's clauses have no model */
    DRF_OPEN = 2,     /* every step was accepted */
    DRF_STOPPED = 3,  /* a step was refused */
    DRF_BAD_FILE = 4  /* the file is refused, and none of its steps was tried */
};

/* What is told of a file. */
struct drf_told {
    size_t count; /* of the bytes of text at the buffer's front; 0 where the buffer is short */
    enum drf_verdict verdict;
    uint8_t number; /* of the answer to the last step tried, also under DRF_REFUTED; of a bad file its refusal's; 0 where nothing was refused */
    uint64_t place; /* of refusal 12 the literal, of a bad file the byte; else 0 */
};

/* The verdict of a text that drf_judge, drf_inspect or drf_inspect_numbers wrote. A step's line begins with its number, and a line of numbers with
 * an n. So the first line that begins with neither is the listing's last, or a bad file's only one; the final state comes after it and is not
 * reached. The four differ in their first letter. */
static inline enum drf_verdict drf_verdict_of(const uint8_t *text, size_t count)
{
    size_t at = 0;
    while (at < count && ((text[at] >= '0' && text[at] <= '9') || text[at] == 'n')) {
        while (at < count && text[at] != '\n')
            at++;
        at++;
    }
    switch (at < count ? text[at] : 0) {
    case 'r':
        return DRF_REFUTED;
    case 'o':
        return DRF_OPEN;
    case 's':
        return DRF_STOPPED;
    case 'b':
        return DRF_BAD_FILE;
    default:
        return DRF_SHORT;
    }
}

/* The verdict in the listing's words */
static inline const char *drf_verdict_name(enum drf_verdict verdict)
{
    switch (verdict) {
    case DRF_REFUTED:
        return "refuted";
    case DRF_OPEN:
        return "open";
    case DRF_STOPPED:
        return "stopped";
    case DRF_BAD_FILE:
        return "bad file";
    case DRF_SHORT:
        break;
    }
    return "short";
}

/* What a call left: the answer, the buffer and the two slots of ends, which begin as 0. */
static inline struct drf_told drf_told_of(uint64_t count, const uint8_t *out, const uint64_t *ends)
{
    struct drf_told told;
    told.count = (size_t)count;
    told.verdict = drf_verdict_of(out, told.count);
    told.number = (uint8_t)ends[0];
    told.place = ends[1];
    return told;
}

/* drf_judge with a typed result */
static inline struct drf_told drf_judged(const uint8_t *file, size_t file_len, uint8_t *out, size_t out_len)
{
    uint64_t ends[2] = {0, 0};
    uint64_t count = drf_judge(file, file_len, out, out_len, ends, 2);
    return drf_told_of(count, out, ends);
}

/* drf_inspect with a typed result */
static inline struct drf_told drf_inspected(const uint8_t *file, size_t file_len, uint8_t *out, size_t out_len)
{
    uint64_t ends[2] = {0, 0};
    uint64_t count = drf_inspect(file, file_len, out, out_len, ends, 2);
    return drf_told_of(count, out, ends);
}

/* drf_inspect_numbers with a typed result */
static inline struct drf_told drf_inspected_numbers(const uint8_t *file, size_t file_len, uint8_t *out, size_t out_len)
{
    uint64_t ends[2] = {0, 0};
    uint64_t count = drf_inspect_numbers(file, file_len, out, out_len, ends, 2);
    return drf_told_of(count, out, ends);
}

/* The kind of match by which a row of a table is found at x. */
enum drf_match {
    DRF_EXACT = 0,      /* the row of the equal key */
    DRF_APPROXIMATE = 1 /* the row of the largest key not above x */
};

/* What is made of a table. */
struct drf_made {
    size_t count;   /* of the bytes of clauses at the buffer's front; 0 for no rows, and where the table is refused */
    uint8_t number; /* of the refusal; DRF_ACCEPTED where the clauses are written */
    uint8_t place;  /* of the refusal: 0 */
};

/* The answer of drf_table. No table has more than DRF_MOST_TABLE bytes, and the least refusal is 19 times 256. */
static inline struct drf_made drf_made_of(uint32_t answer)
{
    struct drf_made made = {0, DRF_ACCEPTED, 0};
    if (answer <= DRF_MOST_TABLE) {
        made.count = answer;
    } else {
        made.number = (uint8_t)(answer / 256);
        made.place = (uint8_t)(answer % 256);
    }
    return made;
}

/* drf_table with a typed result */
static inline struct drf_made drf_tabled(const int32_t *keys, size_t keys_len, const int32_t *results, size_t results_len,
                                         enum drf_match kind, uint8_t *out, size_t out_len)
{
    return drf_made_of(drf_table(keys, keys_len, results, results_len, kind != DRF_EXACT, out, out_len));
}

#ifdef __cplusplus
}
#endif

#endif
