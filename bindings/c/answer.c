/* Reads a query record from standard input and prints its answer. */
#include <stdio.h>
#include "lampsickle.h"

/* One byte more than the longest record, so that a longer one is seen as such. */
static uint8_t record[LAMPSICKLE_RECORD_MOST + 1];
static uint8_t page[LAMPSICKLE_PAGE_ENOUGH];

static void print_entries(void) {
    size_t count = ((size_t)page[1] << 8 | page[2]) / 3;
    for (size_t index = 0; index < count; index++) {
        const uint8_t *entry = page + LAMPSICKLE_REPORT_BYTES(index);
        printf("assertion %zu reason %u at %u\n", index, entry[0], entry[1] << 8 | entry[2]);
    }
}

int main(void) {
    size_t length = fread(record, 1, sizeof record, stdin);
    if (ferror(stdin)) {
        perror("standard input");
        return 2;
    }
    struct lampsickle_outcome outcome = lampsickle_answer(record, length, page, sizeof page);
    if (outcome.number != LAMPSICKLE_ANSWERED) {
        printf("refused %u at %zu\n", outcome.number, outcome.place);
        return 1;
    }
    /* The count of compliance values stands behind the version. */
    printf("rank %u of %u\nrounds %zu\nreached %zu\n", outcome.rank, record[1], outcome.rounds, outcome.reached);
    print_entries();
    return 0;
}
