/* Appends two answers to a page, lets the power fail within a third, recovers, and prints the entries after each step. */
#include <stdio.h>
#include <string.h>
#include "lampsickle.h"
#include "lampsickle_journal.h"

static uint8_t page[64] = {1};

static void print_entries(const char *when) {
    size_t at = 1;
    printf("%s:", when);
    while (at + 3 < sizeof page) {
        size_t length = (size_t)page[at] << 8 | page[at + 1];
        if (length == 0 || sizeof page - at - 3 < length || page[at + 2 + length] != 1)
            break;
        printf(" [%.*s]", (int)length, (const char *)page + at + 2);
        at += LAMPSICKLE_JOURNAL_ENTRY(length);
    }
    printf("\n");
}

static unsigned append(const char *answer, size_t stores) {
    return lampsickle_journal_append_cut(page, sizeof page, (const uint8_t *)answer, strlen(answer), stores).number;
}

/* The answer to an empty record, as a line. Both libraries are linked here. */
static const char *refusal(void) {
    static char line[32];
    uint8_t none = 0;
    struct lampsickle_outcome outcome = lampsickle_answer(&none, 0, &none, 0);
    snprintf(line, sizeof line, "refused %u at %zu", outcome.number, outcome.place);
    return line;
}

int main(void) {
    const char *first = refusal();
    if (lampsickle_journal_append(page, sizeof page, (const uint8_t *)first, strlen(first)).number != LAMPSICKLE_JOURNAL_GRANTED)
        return 1;
    print_entries("appended");
    if (append("rank 1 of 2", 4) != LAMPSICKLE_JOURNAL_GRANTED)
        return 1;
    print_entries("cut behind 4 stores");
    printf("append: number %u\n", append("rank 1 of 2", sizeof page));
    if (lampsickle_journal_recover(page, sizeof page).number != LAMPSICKLE_JOURNAL_GRANTED)
        return 1;
    print_entries("recovered");
    printf("append: number %u\n", append("rank 1 of 2", sizeof page));
    print_entries("appended");
    printf("append: number %u\n", append("an answer for which there is no more room", sizeof page));
    return 0;
}
