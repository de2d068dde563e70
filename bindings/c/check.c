/*
 * check RECORDS: asks the library about each record of a file written by `generate` of second/ (a length in four bytes, big-endian, then the
 * record) and compares what it gives with the line in RECORDS.outcomes.
 *
 * Record and page lie against memory that may not be touched, first behind it and then before it, so that a read or a write one byte outside
 * stops the program. The record lies in memory that may only be read. Pages of every size around the need are filled with noise, and every
 * byte is compared after.
 */
#define _GNU_SOURCE
#include <stdbool.h>
#include <stdio.h>
#include <stdlib.h>
#include <string.h>
#include <sys/mman.h>
#include "lampsickle.h"

#define BLOCK 4096
#define AROUND 3
#define RECORD_ROOM (32 * BLOCK)
#define PAGE_ROOM BLOCK
#define LINE_ROOM 2048

/* A room between two blocks that may not be touched. */
struct room {
    uint8_t *start;
    size_t size;
};

static uint8_t record[RECORD_ROOM];
static uint8_t noise[PAGE_ROOM];
static unsigned long calls;

static void stop(const char *what) {
    fprintf(stderr, "check: %s\n", what);
    exit(2);
}

static struct room fenced(size_t size) {
    uint8_t *all = mmap(NULL, size + 2 * BLOCK, PROT_READ | PROT_WRITE, MAP_PRIVATE | MAP_ANONYMOUS, -1, 0);
    if (all == MAP_FAILED || mprotect(all, BLOCK, PROT_NONE) || mprotect(all + BLOCK + size, BLOCK, PROT_NONE))
        stop("no memory");
    return (struct room){all + BLOCK, size};
}

static void allow(struct room room, int protection) {
    if (mprotect(room.start, room.size, protection))
        stop("mprotect");
}

/* Where length bytes lie in a room: at its end or at its start. */
static uint8_t *at(struct room room, size_t length, bool end) {
    return end ? room.start + room.size - length : room.start;
}

static uint32_t word(const uint8_t *bytes) {
    return (uint32_t)bytes[0] << 24 | (uint32_t)bytes[1] << 16 | (uint32_t)bytes[2] << 8 | bytes[3];
}

static void make_noise(void) {
    static uint32_t state = 2704;
    for (size_t index = 0; index < sizeof noise; index++) {
        state = state * 1664525 + 1013904223;
        noise[index] = (uint8_t)(state >> 24);
    }
}

/* What the library is to give for a record. */
struct expected {
    struct lampsickle_outcome outcome;
    uint8_t report[LAMPSICKLE_PAGE_ENOUGH];
    size_t report_length;
};

static void read_report(struct expected *expected, const char *digits) {
    expected->report_length = 0;
    if (strcmp(digits, "-") == 0)
        return;
    size_t length = strlen(digits) / 2;
    if (length > sizeof expected->report)
        stop("a report that is too long");
    for (size_t index = 0; index < length; index++) {
        unsigned byte;
        if (sscanf(digits + 2 * index, "%2x", &byte) != 1)
            stop("a report that isn't in hexadecimal digits");
        expected->report[index] = (uint8_t)byte;
    }
    expected->report_length = length;
}

static struct expected read_expected(FILE *outcomes) {
    static char line[LINE_ROOM], digits[LINE_ROOM];
    struct expected expected;
    unsigned number, rank;
    if (!fgets(line, sizeof line, outcomes))
        stop("a record without an outcome");
    if (sscanf(line, "%u %zu %u %zu %zu %2047s", &number, &expected.outcome.place, &rank, &expected.outcome.rounds, &expected.outcome.reached,
               digits) != 6)
        stop("an outcome that can't be read");
    expected.outcome.number = (uint8_t)number;
    expected.outcome.rank = (uint8_t)rank;
    read_report(&expected, digits);
    return expected;
}

static bool same(struct lampsickle_outcome a, struct lampsickle_outcome b) {
    return a.number == b.number && a.place == b.place && a.rank == b.rank && a.rounds == b.rounds && a.reached == b.reached;
}

/* The outcome with a page of a size: as expected, or number 9 where the report doesn't fit. */
static struct lampsickle_outcome with_page(const struct expected *expected, size_t size) {
    if (expected->outcome.number == LAMPSICKLE_ANSWERED && size < expected->report_length)
        return (struct lampsickle_outcome){.number = LAMPSICKLE_ROOM};
    return expected->outcome;
}

static bool page_fine(const uint8_t *page, size_t size, const struct expected *expected, struct lampsickle_outcome found) {
    size_t written = found.number == LAMPSICKLE_ANSWERED ? expected->report_length : 0;
    return memcmp(page, expected->report, written) == 0 && memcmp(page + written, noise + written, size - written) == 0;
}

static bool ask(const uint8_t *lent, size_t length, struct room pages, size_t size, bool end, const struct expected *expected) {
    uint8_t *page = at(pages, size, end);
    memcpy(page, noise, size);
    struct lampsickle_outcome found = lampsickle_answer(lent, length, page, size);
    calls++;
    return same(found, with_page(expected, size)) && page_fine(page, size, expected, found);
}

static bool ask_all(struct room records, struct room pages, size_t length, const struct expected *expected) {
    size_t need = expected->report_length;
    size_t least = need > AROUND ? need - AROUND : 0;
    for (int end = 0; end < 2; end++) {
        uint8_t *lent = at(records, length, end);
        allow(records, PROT_READ | PROT_WRITE);
        memcpy(lent, record, length);
        allow(records, PROT_READ);
        for (size_t size = least; size <= need + AROUND; size++)
            if (!ask(lent, length, pages, size, end, expected))
                return false;
        if (!ask(lent, length, pages, 0, end, expected) || !ask(lent, length, pages, need, end, expected))
            return false;
    }
    return true;
}

static FILE *opened(const char *name) {
    FILE *file = fopen(name, "rb");
    if (!file) {
        perror(name);
        exit(2);
    }
    return file;
}

/* Reads the next record and gives its length, or says that there is none. */
static bool next_record(FILE *file, size_t *length) {
    uint8_t prefix[4];
    if (fread(prefix, 1, sizeof prefix, file) != sizeof prefix)
        return false;
    *length = word(prefix);
    if (*length > sizeof record || fread(record, 1, *length, file) != *length)
        stop("a record that is too long or cut short");
    return true;
}

int main(int count, char **arguments) {
    static char name[LINE_ROOM];
    if (count != 2 || snprintf(name, sizeof name, "%s.outcomes", arguments[1]) >= (int)sizeof name)
        stop("usage: check RECORDS");
    FILE *file = opened(arguments[1]), *outcomes = opened(name);
    struct room records = fenced(RECORD_ROOM), pages = fenced(PAGE_ROOM);
    unsigned long number = 0;
    size_t length;
    make_noise();
    for (; next_record(file, &length); number++) {
        struct expected expected = read_expected(outcomes);
        if (!ask_all(records, pages, length, &expected)) {
            printf("record %lu differs\n", number);
            return 1;
        }
    }
    printf("%lu records, %lu calls, all alike\n", number, calls);
    return number > 0 ? 0 : 2;
}
