/* The row pair refiner's C interface: the archive librefiner.a, by `rt lib` in crates/refiner.
 *
 * Every function takes its texts, buffers and results as address and length; a length counts
 * elements. An address whose length is 0 may be anything, NULL too. Nothing else is asked of the
 * arguments, except that no buffer which a function may write overlaps another argument.
 *
 * Threads: nothing is kept between calls. Any number of threads may call at the same time, each
 * with buffers of its own; texts that are only read may be shared.
 *
 * Stack: a call of Place takes up to 160 KB, of Score up to 35 KB, of Reasons up to 35 KB, of Fault
 * line up to 35 KB, of Read up to 25 KB, of Load up to 1 KB, as measured on the deepest jobs known.
 * Nothing is taken from the heap.
 *
 * Every operation returns its refusal number, or 0 for an answer. It writes to `results`, as far
 * as that reaches: the number, the line (counted from 1; 0 if no line is at fault), and then the
 * operation's fields, which are all 0 after a refusal. Entries after the fields stay as they were.
 *
 *   number  meaning
 *   1       the line is not in the job's form
 *   2       a field of the line is out of range
 *   3       the line's cell is the 65th, or the 25th tall one
 *   4       the line's given site is below an earlier one in its row
 *   5       the placement's line is bad, missing or surplus
 *   6       the store has fewer than 1,048,576 words, or 4,194,304 for a job with R 2
 *   7       the output has fewer than 9 bytes per cell
 *   8       no legal placement exists
 *   9       the count of cells of a load is over 64
 *   10      the output of a load has fewer than 8,192 bytes
 *   11      the output of a sentence has fewer than 1,024 bytes
 *
 * README.md has the same table with what to do about each.
 *
 * A placement and its rules: they are tried in this order, and a later one only if all earlier ones
 * hold.
 *
 *   rule    what it asks
 *   1       the layout number is below the cell's count; the mark is 0, or 1 on a mirrorable cell;
 *           a fixed cell has layout 0 and mark 0
 *   2       site plus width is at most sites
 *   3       site and given site differ by at most D; those of a fixed cell are the same
 *   4       no two cells share a site in a row
 *   5       between neighbours in a row there is never just one empty site
 *   6       a cell's place in each of its rows differs from its place in file order by at most R
 *   7       tall cells keep their file order from left to right
 *   8       a row with cells never has just one empty site before its first or after its last
 *
 * A sentence of Reasons calls a broken rule by its phrase.
 *
 *   rule    phrase
 *   1       choice not offered
 *   2       outside row
 *   3       shifted too far
 *   4       overlap
 *   5       one-site gap
 *   6       order moved too far
 *   7       tall order changed
 *   8       one-site row end
 *
 * A fixed cell is one whose line in the job is led by F instead of C. Its fields are the same and
 * are refused for the same; it counts towards the limits as any cell does.
 *
 * A filled step is one at a gap of 2 or 3 sites. A job's first line has one of two forms: led by J
 * its field step weighs all steps, led by K the filled ones have a weight of their own behind swap.
 *
 *   J,rows,sites,D,R,step,shift,mirror,swap
 *   K,rows,sites,D,R,step,shift,mirror,swap,filled
 */
#ifndef REFINER_H
#define REFINER_H

#include <stddef.h>
#include <stdint.h>

#define REFINER_VERSION "0.1.0"

/* A job's limits: cells, and how many of them may be tall. */
#define REFINER_MAX_CELLS 64
#define REFINER_MAX_TALL 24

/* What Place needs: words of store, the second figure for a job with R 2 and the first for others,
 * and bytes of output for each cell of the job. A larger store does too; Place clears all of it.
 */
#define REFINER_STORE_WORDS 1048576
#define REFINER_STORE_WORDS_BY_TWO 4194304
#define REFINER_OUTPUT_BYTES_PER_CELL 9

/* What Load needs: bytes of output, whatever the count of cells. */
#define REFINER_LOAD_BYTES 8192

/* What Reasons needs: bytes of output, whatever the sentence's length. */
#define REFINER_REASONS_BYTES 1024

/* What a function returns; the table above has the meanings. */
enum {
    REFINER_ANSWERED = 0,
    REFINER_REFUSED_FORM = 1,
    REFINER_REFUSED_RANGE = 2,
    REFINER_REFUSED_COUNT = 3,
    REFINER_REFUSED_ORDER = 4,
    REFINER_REFUSED_PLACEMENT = 5,
    REFINER_REFUSED_STORE = 6,
    REFINER_REFUSED_OUTPUT = 7,
    REFINER_REFUSED_NO_LEGAL = 8,
    REFINER_REFUSED_LOAD_COUNT = 9,
    REFINER_REFUSED_LOAD_OUTPUT = 10,
    REFINER_REFUSED_REASONS_OUTPUT = 11
};

/* Where the numbers stand in `results`: these two of every operation, then its own fields. The name
 * that ends in RESULTS is how many entries the operation has in all. Drift is the mean signed shift
 * in hundredths of a site, rounded to nearest, halves to even.
 *
 * If the first two bytes of the job text are `K,`, then Score and Place, also where they refuse it,
 * have one entry more, the filled steps behind drift. The names with a K are for such texts.
 */
enum { REFINER_NUMBER = 0, REFINER_LINE = 1 };

enum { REFINER_READ_CELLS = 2, REFINER_READ_RESULTS = 3 };

enum {
    REFINER_SCORE_RULE = 2,
    REFINER_SCORE_CELL = 3,
    REFINER_SCORE_STEPS = 4,
    REFINER_SCORE_SHIFTED = 5,
    REFINER_SCORE_MIRRORED = 6,
    REFINER_SCORE_CHANGED = 7,
    REFINER_SCORE_COST = 8,
    REFINER_SCORE_DRIFT = 9,
    REFINER_SCORE_RESULTS = 10,
    REFINER_SCORE_K_FILLED_STEPS = 10,
    REFINER_SCORE_K_RESULTS = 11
};

enum {
    REFINER_PLACE_STEPS = 2,
    REFINER_PLACE_SHIFTED = 3,
    REFINER_PLACE_MIRRORED = 4,
    REFINER_PLACE_CHANGED = 5,
    REFINER_PLACE_COST = 6,
    REFINER_PLACE_DRIFT = 7,
    REFINER_PLACE_TEXT_LENGTH = 8,
    REFINER_PLACE_RESULTS = 9,
    REFINER_PLACE_K_FILLED_STEPS = 8,
    REFINER_PLACE_K_TEXT_LENGTH = 9,
    REFINER_PLACE_K_RESULTS = 10
};

enum { REFINER_LOAD_TEXT_LENGTH = 2, REFINER_LOAD_RESULTS = 3 };

enum { REFINER_REASONS_TEXT_LENGTH = 2, REFINER_REASONS_RESULTS = 3 };

/* Where the numbers stand in Fault line's `part`, how many they are, and which text is which. */
enum {
    REFINER_PART_TEXT = 0,
    REFINER_PART_START = 1,
    REFINER_PART_LENGTH = 2,
    REFINER_PART_NUMBERS = 3
};

enum { REFINER_TEXT_JOB = 0, REFINER_TEXT_PLACEMENT = 1 };

#ifdef __cplusplus
extern "C" {
#endif

/* Read. Refuses 1 to 4. Results: number, line, cells. */
uint32_t refiner_read(const uint8_t *job, size_t job_len, int32_t *results, size_t results_len);

/* Score. Refuses 1 to 4 as Read does, then 5. Results: number, line, rule, cell, steps, sites
 * shifted, mirrored, changed, cost, drift, and for a job text that begins with `K,` filled steps.
 * Rule and cell are 0 if the placement is legal, and otherwise the first broken rule of those above
 * and its lowest cell, counted from 1; the numbers from steps on are then 0.
 */
uint32_t refiner_score(const uint8_t *job, size_t job_len, const uint8_t *placement,
                       size_t placement_len, int32_t *results, size_t results_len);

/* Fault line. Writes to `part`, as far as it reaches, where the line stands that Score reports of
 * the same two texts: which text (0 the job, 1 the placement), its first byte, and its length with
 * its line feed. A missing line and no fault give length 0 at the placement's end, a missing first
 * job line length 0 at the job's start. Returns Score's number.
 */
uint32_t refiner_fault(const uint8_t *job, size_t job_len, const uint8_t *placement,
                       size_t placement_len, uint64_t *part, size_t part_len);

/* Fault line, and the line itself: as refiner_fault, and the line's bytes go to the start of
 * `output` as far as that reaches; bytes past them stay as they were. `part`'s third number is the
 * length that `output` needs for the whole line.
 */
uint32_t refiner_fault_line(const uint8_t *job, size_t job_len, const uint8_t *placement,
                            size_t placement_len, uint8_t *output, size_t output_len,
                            uint64_t *part, size_t part_len);

/* Place. Refuses 1 to 4 as Read does, then 6, 7 and 8. Results: number, line, steps, sites
 * shifted, mirrored, changed, cost, drift, for a job text that begins with `K,` filled steps, and
 * text length. An answer's placement is legal and none is cheaper; its text goes to the start of
 * `output`, and bytes past it stay as they were. The whole store is zero after an answer and after
 * 8; any other refusal leaves it as it was.
 */
uint32_t refiner_place(const uint8_t *job, size_t job_len, uint32_t *store, size_t store_len,
                       uint8_t *output, size_t output_len, int32_t *results, size_t results_len);

/* Load. Writes the farm's job of a seed, 0 taken as 1, and a count of cells to the start of
 * `output`: the same on each machine, and Read accepts it. Refuses 9, then 10, both before a byte
 * is written, and takes every seed. Results: number, line, text length. Bytes past the text stay as
 * they were.
 */
uint32_t refiner_load(uint32_t seed, uint32_t cells, uint8_t *output, size_t output_len,
                      int32_t *results, size_t results_len);

/* Reasons. Writes a sentence on the placement to the start of `output`: the phrase of the first
 * broken rule, a colon and a space, `cell N` for every cell that breaks it, in rising order and
 * parted by a comma and a space, and a full stop; or `legal.` No line feed and no zero byte follow.
 * Refuses 1 to 5 as Score does, then 11, all before a byte is written. Results: number, line, text
 * length. Bytes past the sentence stay as they were.
 */
uint32_t refiner_reasons(const uint8_t *job, size_t job_len, const uint8_t *placement,
                         size_t placement_len, uint8_t *output, size_t output_len,
                         int32_t *results, size_t results_len);

#ifdef __cplusplus
}
#endif

#endif
