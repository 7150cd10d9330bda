/* Reads a job on standard input, places it and prints what `refine` prints: the numbers
 * `cost,steps,sites shifted,mirrored,changed,drift`, of some jobs the filled steps, and the
 * placement, or `refused,number,line`.
 *
 * Exit status: 0 an answer, 1 a refusal, 2 an input or output error.
 */
#include "refiner.h"

#include <inttypes.h>
#include <stdio.h>
#include <stdlib.h>

static uint32_t store[REFINER_STORE_WORDS_BY_TWO]; /* enough for every job */
static uint8_t placement[REFINER_MAX_CELLS * REFINER_OUTPUT_BYTES_PER_CELL];
static int32_t results[REFINER_PLACE_K_RESULTS]; /* the most that there are */

/* All of standard input, and its length in `length`. */
static uint8_t *job_text(size_t *length) {
    uint8_t *text = NULL;
    size_t room = 0, taken = 1;
    for (*length = 0; taken > 0; *length += taken) {
        if (*length == room) {
            room = 2 * room + 4096;
            text = (uint8_t *)realloc(text, room);
            if (text == NULL) {
                fputs("place: the job does not fit into memory\n", stderr);
                exit(2);
            }
        }
        taken = fread(text + *length, 1, room - *length, stdin);
    }
    if (ferror(stdin)) {
        perror("place: standard input");
        exit(2);
    }
    return text;
}

/* Whether the job's first two bytes say that its numbers end with the filled steps. */
static int has_filled_steps(const uint8_t *job, size_t length) {
    return length >= 2 && job[0] == 'K' && job[1] == ',';
}

static void print_placement(int filled) {
    int32_t length = results[filled ? REFINER_PLACE_K_TEXT_LENGTH : REFINER_PLACE_TEXT_LENGTH];
    printf("%" PRId32 ",%" PRId32 ",%" PRId32 ",%" PRId32 ",%" PRId32 ",%" PRId32,
           results[REFINER_PLACE_COST], results[REFINER_PLACE_STEPS],
           results[REFINER_PLACE_SHIFTED], results[REFINER_PLACE_MIRRORED],
           results[REFINER_PLACE_CHANGED], results[REFINER_PLACE_DRIFT]);
    if (filled) {
        printf(",%" PRId32, results[REFINER_PLACE_K_FILLED_STEPS]);
    }
    putchar('\n');
    fwrite(placement, 1, (size_t)length, stdout);
}

int main(void) {
    size_t length;
    uint8_t *job = job_text(&length);
    int filled = has_filled_steps(job, length);
    uint32_t number = refiner_place(job, length, store, REFINER_STORE_WORDS_BY_TWO, placement,
                                    sizeof placement, results, REFINER_PLACE_K_RESULTS);
    free(job);
    if (number == REFINER_ANSWERED) {
        print_placement(filled);
    } else {
        printf("refused,%" PRIu32 ",%" PRId32 "\n", number, results[REFINER_LINE]);
    }
    if (fflush(stdout) != 0) {
        perror("place: standard output");
        return 2;
    }
    return number == REFINER_ANSWERED ? 0 : 1;
}
