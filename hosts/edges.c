/* usage: edges FILE
 * The ends of what include/drf.h says, tried on a good run file: buffers one byte short and exactly long enough, ends of every length, null
 * pointers with length 0, and that no other byte is written; and on files of as many bytes as are judged, and of more. Buffers are on the heap and
 * exactly so long, so that valgrind sees a step beyond them. Of tables the same, with what is lent at the end of a page behind which nothing can be
 * touched. Status 1 where something differs, and standard error names it. */
#define _DEFAULT_SOURCE
#include <pthread.h>
#include <stdio.h>
#include <stdlib.h>
#include <string.h>
#include <sys/mman.h>
#include <unistd.h>

#include "lent.h"

#define BLANK 0xA5

typedef uint64_t exported(const uint8_t *, size_t, uint8_t *, size_t, uint64_t *, size_t);

/* An exported function, its name, and the least buffer that it takes */
struct tried {
    exported *call;
    const char *name;
    size_t most;
};

#define TELLING 3

static const struct tried telling[TELLING] = {
    {drf_judge, "drf_judge", DRF_MOST_LISTING},
    {drf_inspect, "drf_inspect", DRF_MOST_INSPECTION},
    {drf_inspect_numbers, "drf_inspect_numbers", DRF_MOST_WITH_NUMBERS},
};

static int faults = 0;

static void hold_of(int holds, const char *name, const char *what)
{
    if (holds)
        return;
    fprintf(stderr, "edges: %s: not so: %s\n", name, what);
    faults++;
}

static void hold(int holds, const struct tried *tried, const char *what)
{
    hold_of(holds, tried->name, what);
}

static void *blank(size_t size)
{
    void *bytes = malloc(size);
    if (!bytes) {
        fprintf(stderr, "edges: no memory\n");
        exit(2);
    }
    memset(bytes, BLANK, size);
    return bytes;
}

static int is_blank(const void *bytes, size_t size)
{
    for (size_t k = 0; k < size; k++)
        if (((const uint8_t *)bytes)[k] != BLANK)
            return 0;
    return 1;
}

/* A buffer one byte short: 0, and neither it nor the ends are touched. One that is a byte longer: text, and what stands past it stays. */
static void lengths(const struct tried *tried, const uint8_t *file, size_t count)
{
    uint8_t *out = (uint8_t *)blank(tried->most - 1);
    uint64_t *ends = (uint64_t *)blank(2 * sizeof *ends);
    hold(tried->call(file, count, out, tried->most - 1, ends, 2) == 0, tried, "a short buffer is answered by 0");
    hold(is_blank(out, tried->most - 1) && is_blank(ends, 2 * sizeof *ends), tried, "a short buffer and its ends stay");
    free(out);
    out = (uint8_t *)blank(tried->most);
    size_t text = (size_t)tried->call(file, count, out, tried->most, ends, 2);
    hold(text > 0 && text < tried->most && out[text - 1] == '\n', tried, "a buffer that is long enough has the text");
    hold(is_blank(out + text, tried->most - text), tried, "the bytes past the text stay");
    free(out);
    free(ends);
}

/* Ends of 0 and 1 slots stay; of more the first two are written. */
static void slots(const struct tried *tried, const uint8_t *file, size_t count)
{
    for (size_t n = 0; n < 4; n++) {
        size_t written = n < 2 ? 0 : 2;
        uint8_t *out = (uint8_t *)blank(tried->most);
        uint64_t *ends = (uint64_t *)blank(n * sizeof *ends + (n == 0));
        hold(tried->call(file, count, out, tried->most, ends, n) > 0, tried, "ends of any length do");
        hold(is_blank(ends + written, (n - written) * sizeof *ends), tried, "slots from the third on, or a single one, stay");
        hold(written == 0 || (ends[0] == 0 && ends[1] == 0), tried, "number and place of a file that is accepted are 0");
        free(out);
        free(ends);
    }
}

/* A null pointer with length 0 is an empty slice. */
static void nulls(const struct tried *tried, const uint8_t *file, size_t count)
{
    static const char empty[] = "bad file 1 0\n";
    uint8_t *out = (uint8_t *)blank(tried->most);
    uint8_t *same = (uint8_t *)blank(tried->most);
    uint64_t ends[2] = {BLANK, BLANK};
    size_t text = (size_t)tried->call(NULL, 0, out, tried->most, ends, 2);
    hold(text == sizeof empty - 1 && memcmp(out, empty, text) == 0, tried, "a null file of length 0 is an empty one");
    hold(ends[0] == DRF_ENDS_INSIDE && ends[1] == 0, tried, "number and place of an empty file are 1 and 0");
    hold(tried->call(file, count, NULL, 0, ends, 2) == 0 && ends[0] == DRF_ENDS_INSIDE, tried, "a null buffer of length 0 is a short one");
    hold(tried->call(NULL, 0, NULL, 0, NULL, 0) == 0, tried, "all null, of length 0");
    text = (size_t)tried->call(file, count, out, tried->most, NULL, 0);
    size_t other = (size_t)tried->call(file, count, same, tried->most, ends, 2);
    hold(text > 0 && text == other && memcmp(out, same, text) == 0, tried, "null ends of length 0 change no text");
    free(out);
    free(same);
}

/* A file of as many bytes as a valid one can have is judged. One byte more is too long, whatever is in it, and so is any longer one. */
static void file_lengths(const struct tried *tried)
{
    static const char judged[] = "bad file 2 0\n", too_long[] = "bad file 22 65536\n";
    static const size_t counts[] = {DRF_MOST_FILE, DRF_MOST_READ, 2 * DRF_MOST_READ};
    for (size_t k = 0; k < sizeof counts / sizeof *counts; k++) {
        const char *said = counts[k] <= DRF_MOST_FILE ? judged : too_long;
        uint8_t *out = (uint8_t *)blank(tried->most);
        uint8_t *file = (uint8_t *)blank(counts[k]);
        size_t text = (size_t)tried->call(file, counts[k], out, tried->most, NULL, 0);
        hold(text == strlen(said) && memcmp(out, said, text) == 0, tried, "a file is too long exactly above DRF_MOST_FILE bytes");
        free(file);
        free(out);
    }
}

/* ---- tables */

static void hold_table(int holds, const char *what)
{
    hold_of(holds, "drf_table", what);
}

/* So many bytes up to the end of a page. The page behind it can't be touched: a step beyond the bytes ends the program by a signal. They are
 * never given back. */
static void *at_page_end(size_t size)
{
    size_t page = (size_t)sysconf(_SC_PAGESIZE);
    uint8_t *at = (uint8_t *)mmap(NULL, 2 * page, PROT_READ | PROT_WRITE, MAP_PRIVATE | MAP_ANONYMOUS, -1, 0);
    if (at == MAP_FAILED || mprotect(at + page, page, PROT_NONE) != 0) {
        fprintf(stderr, "edges: no memory\n");
        exit(2);
    }
    memset(at, BLANK, page);
    return at + page - size;
}

/* Rising numbers from the first on, so many */
static int32_t *rising(int32_t first, size_t count)
{
    int32_t *numbers = (int32_t *)at_page_end(count * sizeof *numbers);
    for (size_t k = 0; k < count; k++)
        numbers[k] = first + (int32_t)k;
    return numbers;
}

/* Whether a table is refused by this number, at place 0, and the buffer, which is blank, stays */
static int refused(uint8_t number, const int32_t *keys, size_t keys_len, const int32_t *results, size_t results_len, uint8_t *out,
                   size_t out_len)
{
    for (uint8_t kind = 0; kind < 2; kind++) {
        uint32_t answer = drf_table(keys, keys_len, results, results_len, kind, out, out_len);
        struct drf_made made = drf_made_of(answer);
        if (answer != 256u * number || made.count != 0 || made.number != number || made.place != 0 || !is_blank(out, out_len))
            return 0;
    }
    return 1;
}

/* A full table fills its buffer to the last byte, and one byte less is refused. One row less leaves the bytes past it, and one more is refused. */
static void table_lengths(uint8_t kind)
{
    size_t rows = DRF_MOST_ROWS, most = DRF_MOST_TABLE - (kind ? 6 : 0);
    int32_t *keys = rising(-DRF_MOST_C, rows + 1);
    int32_t *results = rising(DRF_MOST_C - DRF_MOST_ROWS, rows + 1);
    uint8_t *out = (uint8_t *)at_page_end(most);
    hold_table(refused(DRF_TOO_MANY_ROWS, keys, rows + 1, results, rows + 1, out, most), "one row too many is refused");
    uint32_t count = drf_table(keys, rows - 1, results, rows, kind, out, most);
    hold_table(count == most - 31 && is_blank(out + count, most - count), "the bytes past the clauses stay");
    hold_table(drf_table(keys + 1, rows, results + 1, rows, kind, out, most) == most && out[most - 1] == 2, "a full table fills its buffer");
    out = (uint8_t *)at_page_end(most - 1);
    count = drf_table(keys, rows, results, rows, kind, out, most - 1);
    hold_table(count == 256 * DRF_BUFFER_SHORT && is_blank(out, most - 1), "a buffer one byte short is refused and stays");
}

/* Any number but 0 is approximate match. */
static void table_kinds(void)
{
    static const int32_t rows[] = {4100, 4120, 4200};
    uint8_t one[DRF_MOST_TABLE], other[DRF_MOST_TABLE];
    struct drf_made made = drf_tabled(rows, 3, rows, 3, DRF_EXACT, one, sizeof one);
    hold_table(made.count == 93 && made.number == DRF_ACCEPTED && made.place == 0, "exact match bounds every row");
    made = drf_tabled(rows, 3, rows, 3, DRF_APPROXIMATE, one, sizeof one);
    hold_table(made.count == 87 && made.number == DRF_ACCEPTED && made.place == 0, "the last row of approximate match has no upper end");
    for (int kind = 1; kind < 256; kind++) {
        uint32_t count = drf_table(rows, 3, rows, 3, (uint8_t)kind, other, sizeof other);
        hold_table(count == made.count && memcmp(one, other, count) == 0, "any number but 0 is approximate match");
    }
}

/* What is not in order is refused, also beside a buffer that is short. */
static void table_order(void)
{
    static const int32_t beyond[] = {DRF_MOST_C + 1, -DRF_MOST_C - 1, INT32_MAX, INT32_MIN};
    static const int32_t equal[] = {4100, 4100};
    uint8_t *out = (uint8_t *)at_page_end(DRF_MOST_TABLE);
    for (size_t k = 0; k < sizeof beyond / sizeof *beyond; k++) {
        hold_table(refused(DRF_NOT_IN_ORDER, &beyond[k], 1, equal, 1, out, DRF_MOST_TABLE), "a key beyond its range is refused");
        hold_table(refused(DRF_NOT_IN_ORDER, equal, 1, &beyond[k], 1, out, DRF_MOST_TABLE), "a result beyond its range is refused");
    }
    hold_table(refused(DRF_NOT_IN_ORDER, equal, 2, equal, 2, out, DRF_MOST_TABLE), "equal keys are refused");
    hold_table(refused(DRF_NOT_IN_ORDER, equal, 2, equal, 2, out, 0), "the keys are looked at before the buffer");
    hold_table(refused(DRF_NOT_IN_ORDER, rising(1, 2), 2, rising(1, 1), 1, out, DRF_MOST_TABLE), "a key without a result is refused");
}

/* A null pointer with length 0 is an empty slice. */
static void table_nulls(void)
{
    uint8_t *out = (uint8_t *)at_page_end(1);
    int32_t *one = rising(1, 1);
    hold_table(drf_table(NULL, 0, NULL, 0, 0, NULL, 0) == 0, "all null, of length 0, is an empty table");
    hold_table(drf_table(NULL, 0, one, 1, 1, out, 1) == 0 && is_blank(out, 1), "null keys of length 0 are an empty table");
    hold_table(refused(DRF_NOT_IN_ORDER, one, 1, NULL, 0, out, 1), "null results of length 0 are none");
    hold_table(refused(DRF_BUFFER_SHORT, one, 1, one, 1, NULL, 0), "a null buffer of length 0 is a short one");
}

int main(int count, char **words)
{
    static struct file read;
    if (count != 2) {
        fprintf(stderr, "usage: edges FILE\n");
        return 2;
    }
    if (!read_file(words[1], &read))
        return 2;
    uint8_t *file = (uint8_t *)blank(read.count);
    memcpy(file, read.bytes, read.count);
    for (size_t k = 0; k < TELLING; k++) {
        lengths(&telling[k], file, read.count);
        slots(&telling[k], file, read.count);
        nulls(&telling[k], file, read.count);
        file_lengths(&telling[k]);
        hold(memcmp(file, read.bytes, read.count) == 0, &telling[k], "the file stays");
    }
    table_lengths(DRF_EXACT);
    table_lengths(DRF_APPROXIMATE);
    table_kinds();
    table_order();
    table_nulls();
    free(file);
    return faults ? 1 : 0;
}
