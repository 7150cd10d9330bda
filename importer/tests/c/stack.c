/* Prints how many bytes of stack each function touches, one line `name bytes` each. The job stands
 * in the file of the first argument, its placement in that of the second.
 *
 * The call runs in a thread on a painted stack; the lowest byte that lost its paint shows how deep
 * it went.
 */
#define _POSIX_C_SOURCE 200809L
#include "refiner.h"

#include <pthread.h>
#include <stdio.h>
#include <stdlib.h>
#include <string.h>

enum { STACK = 1 << 20, PAINT = 0xA5, LONGEST = 1 << 16 };

static uint8_t job[LONGEST], placement[LONGEST];
static size_t job_len, placement_len;
static uint32_t store[REFINER_STORE_WORDS_BY_TWO];
static uint8_t output[REFINER_MAX_CELLS * REFINER_OUTPUT_BYTES_PER_CELL];
static uint8_t loaded[REFINER_LOAD_BYTES];
static uint8_t sentence[REFINER_REASONS_BYTES];
static int32_t results[REFINER_SCORE_K_RESULTS];
static uint64_t part[REFINER_PART_NUMBERS];

static uint32_t call_read(void) {
    return refiner_read(job, job_len, results, REFINER_READ_RESULTS);
}

static uint32_t call_score(void) {
    return refiner_score(job, job_len, placement, placement_len, results, REFINER_SCORE_K_RESULTS);
}

static uint32_t call_fault(void) {
    return refiner_fault(job, job_len, placement, placement_len, part, REFINER_PART_NUMBERS);
}

static uint32_t call_fault_line(void) {
    return refiner_fault_line(job, job_len, placement, placement_len, output, sizeof output, part,
                              REFINER_PART_NUMBERS);
}

static uint32_t call_place(void) {
    return refiner_place(job, job_len, store, REFINER_STORE_WORDS_BY_TWO, output, sizeof output,
                         results, REFINER_PLACE_K_RESULTS);
}

static uint32_t call_load(void) {
    return refiner_load(1, REFINER_MAX_CELLS, loaded, sizeof loaded, results, REFINER_LOAD_RESULTS);
}

static uint32_t call_reasons(void) {
    return refiner_reasons(job, job_len, placement, placement_len, sentence, sizeof sentence,
                           results, REFINER_REASONS_RESULTS);
}

struct run {
    uint32_t (*call)(void);
    uint32_t number;
    uint8_t *start; /* where the stack stood before the call */
};

static void *started(void *given) {
    struct run *run = (struct run *)given;
    uint8_t here;
    run->start = &here;
    run->number = run->call();
    return NULL;
}

static void fail(const char *what) {
    fprintf(stderr, "stack: %s\n", what);
    exit(2);
}

static void measure(const char *name, uint32_t (*call)(void)) {
    struct run run = {call, 0, NULL};
    pthread_attr_t attributes;
    pthread_t thread;
    void *memory;
    uint8_t *lowest;
    if (posix_memalign(&memory, 4096, STACK) != 0) {
        fail("no memory");
    }
    memset(memory, PAINT, STACK);
    if (pthread_attr_init(&attributes) != 0 || pthread_attr_setstack(&attributes, memory, STACK) != 0 ||
        pthread_create(&thread, &attributes, started, &run) != 0 || pthread_join(thread, NULL) != 0) {
        fail("no thread");
    }
    for (lowest = (uint8_t *)memory; *lowest == PAINT; lowest++) {
    }
    if (run.number != REFINER_ANSWERED) {
        fail("the job or its placement is refused");
    }
    printf("%s %ld\n", name, (long)(run.start - lowest));
    pthread_attr_destroy(&attributes);
    free(memory);
}

static size_t whole(const char *path, uint8_t *text) {
    FILE *file = fopen(path, "rb");
    size_t length;
    if (file == NULL) {
        fail("a file is missing");
    }
    length = fread(text, 1, LONGEST, file);
    fclose(file);
    return length;
}

int main(int count, char **arguments) {
    if (count != 3) {
        fail("usage: stack JOBFILE PLACEMENTFILE");
    }
    job_len = whole(arguments[1], job);
    placement_len = whole(arguments[2], placement);
    measure("refiner_read", call_read);
    measure("refiner_score", call_score);
    measure("refiner_fault", call_fault);
    measure("refiner_fault_line", call_fault_line);
    measure("refiner_place", call_place);
    measure("refiner_load", call_load);
    measure("refiner_reasons", call_reasons);
    return 0;
}
