/*
 * Lampsickle: the answer to a KeyNote (RFC 2704) query.
 *
 * Link with -lkeynote from target/staticlib, which `tools/build keynote` writes, for Linux on x86-64. The library allocates nothing, reads
 * and writes no file, and keeps no state between calls, so it may be called from many threads at once. Its tables lie on the stack: a thread
 * that calls it needs 2 MiB (docs/ARCHITECTURE.md has what was measured).
 */
#ifndef LAMPSICKLE_H
#define LAMPSICKLE_H

#include <stddef.h>
#include <stdint.h>

#ifdef __cplusplus
extern "C" {
#endif

/* The longest record that is read, in bytes; a longer one is refused with number 1. */
#define LAMPSICKLE_RECORD_MOST 65535

/* The most assertions in a query. */
#define LAMPSICKLE_ASSERTIONS_MOST 200

/* The report's bytes for so many assertions, and a page that any report fits on. */
#define LAMPSICKLE_REPORT_BYTES(assertions) (3 + 3 * (size_t)(assertions))
#define LAMPSICKLE_PAGE_ENOUGH LAMPSICKLE_REPORT_BYTES(LAMPSICKLE_ASSERTIONS_MOST)

/* Why a query is refused. LAMPSICKLE_ANSWERED is none of the reasons: the query was answered. */
enum lampsickle_number {
    LAMPSICKLE_ANSWERED = 0,
    LAMPSICKLE_OVERSIZE = 1,   /* the record is over 65,535 bytes; place 0 */
    LAMPSICKLE_VERSION = 2,    /* the record is empty or its version isn't 1; place 0 */
    LAMPSICKLE_FIT = 3,        /* a field doesn't fit, or bytes are left over; place: its start, or the first byte left */
    LAMPSICKLE_COUNT = 4,      /* a count is out of range; place: the count byte */
    LAMPSICKLE_LENGTH = 5,     /* a length is out of range; place: its first byte */
    LAMPSICKLE_BYTE = 6,       /* a byte isn't permitted; place: that byte */
    LAMPSICKLE_REPEATED = 7,   /* a value or an attribute's name is repeated; place: the later one's first byte */
    LAMPSICKLE_STANDING = 8,   /* a standing is above 2; place: that byte */
    LAMPSICKLE_ROOM = 9,       /* the page is too small for the report; place 0 */
    LAMPSICKLE_POLICY = 10     /* a requester is named POLICY; place: its first byte */
};

/* What became of an assertion: an entry's reason. LAMPSICKLE_KEPT has place 0; else the place lies in the assertion's text. */
enum lampsickle_reason {
    LAMPSICKLE_KEPT = 0,
    LAMPSICKLE_NO_TOKEN = 1,     /* no token can be formed */
    LAMPSICKLE_GRAMMAR = 2,      /* the field's grammar allows no continuation after this token */
    LAMPSICKLE_LINE = 3,         /* a line's start, a label, a repetition or the order is wrong, or there is no Authorizer */
    LAMPSICKLE_NAME = 4,         /* a constant repeated or reserved */
    LAMPSICKLE_INTEGER = 5,      /* an integer or a threshold is out of range */
    LAMPSICKLE_NOT_2 = 6,        /* KeyNote-Version isn't 2 */
    LAMPSICKLE_LIMIT = 7,        /* a limit is passed */
    /* No reason is 8. */
    LAMPSICKLE_UNVERIFIED = 9,   /* standing 0, or a credential whose Authorizer evaluates to POLICY */
    LAMPSICKLE_IDENTIFIER = 10   /* a principal's expression is an error in this query, or not of 1 to 256 bytes */
};

/* The result of a query. */
struct lampsickle_outcome {
    uint8_t number;  /* an enum lampsickle_number */
    size_t place;    /* where in the record a refusal's cause lies; 0 for an answer */
    uint8_t rank;    /* the class: 0 for the weakest compliance value, the count of values less 1 for the strongest */
    size_t rounds;   /* how many rounds the ranks took to settle on the principals reached */
    size_t reached;  /* how many principals POLICY reaches, itself among them */
};

/*
 * Answers the query in a record and writes the report to the front of a page.
 *
 * The caller owes only what C always asks: `record` points to `record_length` bytes that may be read, `page` to `page_length` bytes that may
 * be read and written, neither is NULL (also where its length is 0), and the two don't overlap. Nothing need be tested before: the bytes of
 * both may be any, and every length is fine.
 *
 * Gives back, for every record:
 * - number 0: the query is answered. `rank`, `rounds` and `reached` are the answer, and `place` is 0. The page begins with the report: the
 *   byte 1; the length of what follows in two bytes, big-endian, which is 3 n for n assertions; then for each assertion, in the record's
 *   order, a reason byte (an enum lampsickle_reason) and a place in two bytes, big-endian. The bytes of the page beyond these 3 + 3 n keep
 *   their values.
 * - number 1 to 10: the query is refused. `place` says where; `rank`, `rounds` and `reached` are 0; every byte of the page keeps its value.
 *
 * The record is never written. The same record gives the same outcome and the same report whatever the page held and whatever its size, as
 * long as the report fits; where it doesn't fit, the number is 9. Two queries that differ only in the values of attributes that aren't read, in
 * Conditions of assertions within POLICY's reach or in Authorizer or Licensees of any well-formed text, get the same outcome and report.
 */
struct lampsickle_outcome lampsickle_answer(const uint8_t *record, size_t record_length, uint8_t *page, size_t page_length);

#ifdef __cplusplus
}
#endif

#endif
