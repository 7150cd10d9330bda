/* Calls every function with each choice of its arguments empty, once with NULL and once with an
 * address, and compares what the two calls leave. Prints how many pairs of calls agree.
 */
#include "refiner.h"

#include <stdio.h>
#include <string.h>

enum { JOB = 1, PLACEMENT = 2, STORE = 4, OUTPUT = 8, NUMBERS = 16, ALL = 31 };

struct text {
    const uint8_t *start;
    size_t length;
};

struct lent {
    uint32_t store[REFINER_STORE_WORDS];
    uint8_t output[REFINER_LOAD_BYTES]; /* more than Place and Reasons need */
    int32_t results[REFINER_SCORE_K_RESULTS];
    uint64_t part[REFINER_PART_NUMBERS];
};

static struct lent with_null, with_address;
static uint64_t nowhere;

/* The address of an argument, and its length: what is lent, or nothing at `empty`. */
#define CONST_BYTES(bit, text) \
    (empties & (bit)) ? (const uint8_t *)empty : (text).start, \
    (empties & (bit)) ? 0 : (text).length
#define LENT(bit, type, buffer) \
    (empties & (bit)) ? (type *)empty : (buffer), \
    (empties & (bit)) ? 0 : sizeof(buffer) / sizeof *(buffer)

static uint32_t call_read(struct text job, struct text placement, struct lent *lent, int empties,
                          void *empty) {
    (void)placement;
    return refiner_read(CONST_BYTES(JOB, job), LENT(NUMBERS, int32_t, lent->results));
}

static uint32_t call_score(struct text job, struct text placement, struct lent *lent, int empties,
                           void *empty) {
    return refiner_score(CONST_BYTES(JOB, job), CONST_BYTES(PLACEMENT, placement),
                         LENT(NUMBERS, int32_t, lent->results));
}

static uint32_t call_fault(struct text job, struct text placement, struct lent *lent, int empties,
                           void *empty) {
    return refiner_fault(CONST_BYTES(JOB, job), CONST_BYTES(PLACEMENT, placement),
                         LENT(NUMBERS, uint64_t, lent->part));
}

static uint32_t call_fault_line(struct text job, struct text placement, struct lent *lent,
                                int empties, void *empty) {
    return refiner_fault_line(CONST_BYTES(JOB, job), CONST_BYTES(PLACEMENT, placement),
                              LENT(OUTPUT, uint8_t, lent->output),
                              LENT(NUMBERS, uint64_t, lent->part));
}

static uint32_t call_place(struct text job, struct text placement, struct lent *lent, int empties,
                           void *empty) {
    (void)placement;
    return refiner_place(CONST_BYTES(JOB, job), LENT(STORE, uint32_t, lent->store),
                         LENT(OUTPUT, uint8_t, lent->output),
                         LENT(NUMBERS, int32_t, lent->results));
}

static uint32_t call_load(struct text job, struct text placement, struct lent *lent, int empties,
                          void *empty) {
    return refiner_load((uint32_t)job.length, (uint32_t)placement.length,
                        LENT(OUTPUT, uint8_t, lent->output),
                        LENT(NUMBERS, int32_t, lent->results));
}

static uint32_t call_reasons(struct text job, struct text placement, struct lent *lent, int empties,
                             void *empty) {
    return refiner_reasons(CONST_BYTES(JOB, job), CONST_BYTES(PLACEMENT, placement),
                           LENT(OUTPUT, uint8_t, lent->output),
                           LENT(NUMBERS, int32_t, lent->results));
}

struct function {
    const char *name;
    int arguments;
    uint32_t (*call)(struct text, struct text, struct lent *, int, void *);
};

static const struct function FUNCTIONS[] = {
    {"refiner_read", JOB | NUMBERS, call_read},
    {"refiner_score", JOB | PLACEMENT | NUMBERS, call_score},
    {"refiner_fault", JOB | PLACEMENT | NUMBERS, call_fault},
    {"refiner_fault_line", JOB | PLACEMENT | OUTPUT | NUMBERS, call_fault_line},
    {"refiner_place", JOB | STORE | OUTPUT | NUMBERS, call_place},
    {"refiner_load", OUTPUT | NUMBERS, call_load},
    {"refiner_reasons", JOB | PLACEMENT | OUTPUT | NUMBERS, call_reasons},
};

static int agree(const struct function *function, struct text job, struct text placement,
                 int empties) {
    uint32_t number, expected;
    memset(&with_null, 7, sizeof with_null);
    memset(&with_address, 7, sizeof with_address);
    number = function->call(job, placement, &with_null, empties, NULL);
    expected = function->call(job, placement, &with_address, empties, &nowhere);
    return number == expected && memcmp(&with_null, &with_address, sizeof with_null) == 0;
}

static struct text text_of(const char *text) {
    struct text whole;
    whole.start = (const uint8_t *)text;
    whole.length = strlen(text);
    return whole;
}

int main(void) {
    static const char *const JOBS[] = {
        "J,1,20,1,1,100,1,100,50\nC,0,2,1,1,4,3,3,2,2\nC,0,6,0,1,4,3,3,2,2\n",
        "J,1,20,1,1,100,1,100,50\nC,0,2,1,1,4,3,3,2,2\nC,0,1,0,1,4,3,3,2,2\n",
        "J,1,20,1,1,100,1,100,50\n",
        "K,1,20,1,1,100,1,100,50,30\nC,0,2,1,1,4,3,3,2,2\nC,0,6,0,1,4,3,3,2,2\n"};
    static const char *const PLACEMENTS[] = {"2,0,1\n6,0,0\n", "2,0,1\n7,0,0\n", "2,0,1\n6,0\n"};
    int calls = 0, empties;
    size_t function, job, placement;
    for (function = 0; function < sizeof FUNCTIONS / sizeof *FUNCTIONS; function++) {
        for (empties = 0; empties <= ALL; empties++) {
            if ((empties & ~FUNCTIONS[function].arguments) != 0) {
                continue;
            }
            for (job = 0; job < sizeof JOBS / sizeof *JOBS; job++) {
                for (placement = 0; placement < sizeof PLACEMENTS / sizeof *PLACEMENTS; placement++) {
                    if (!agree(&FUNCTIONS[function], text_of(JOBS[job]),
                               text_of(PLACEMENTS[placement]), empties)) {
                        printf("%s differs with NULL for arguments %d, job %d, placement %d\n",
                               FUNCTIONS[function].name, empties, (int)job, (int)placement);
                        return 1;
                    }
                    calls++;
                }
            }
        }
    }
    printf("%d\n", calls);
    return 0;
}
