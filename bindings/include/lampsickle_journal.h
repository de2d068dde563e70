/*
 * Lampsickle's journal: answers on a lent page, in an order of stores that survives a power cut.
 *
 * Link with -ljournal from target/staticlib, which `tools/build journal` writes, for Linux on x86-64. The library allocates nothing, reads and
 * writes no file, and keeps no state between calls, so it may be called from many threads at once, on pages of their own.
 *
 * A page begins with the byte 1. Behind it stand finished entries: an answer's length in two bytes, big-endian, never 0; the answer; and the
 * closing byte 1. The unused room behind the last is zeros. So a new page is the byte 1 and zeros.
 */
#ifndef LAMPSICKLE_JOURNAL_H
#define LAMPSICKLE_JOURNAL_H

#include <stddef.h>
#include <stdint.h>

#ifdef __cplusplus
extern "C" {
#endif

/* A page's bytes. */
#define LAMPSICKLE_JOURNAL_LEAST 16
#define LAMPSICKLE_JOURNAL_MOST 65535

/* The bytes of an entry, which are also its stores; the last is that of the closing byte. */
#define LAMPSICKLE_JOURNAL_ENTRY(answer_length) ((size_t)(answer_length) + 3)

/* Why a request is refused, tested in this order. The numbers are those of lampsickle.h where the cause is alike. */
enum lampsickle_journal_number {
    LAMPSICKLE_JOURNAL_GRANTED = 0,
    LAMPSICKLE_JOURNAL_SIZE = 5,     /* the page is outside 16 to 65,535 bytes, or the answer is empty */
    LAMPSICKLE_JOURNAL_VERSION = 2,  /* the page's first byte isn't 1 */
    LAMPSICKLE_JOURNAL_UNCLEAN = 3,  /* in appending: the page isn't finished entries and zeros; recover it first */
    LAMPSICKLE_JOURNAL_ROOM = 9      /* in appending: the entry is longer than the room left */
};

struct lampsickle_journal_outcome {
    uint8_t number;  /* an enum lampsickle_journal_number */
    size_t place;    /* 0 */
};

/*
 * For all four functions the caller owes only what C always asks: `page` points to `page_length` bytes that may be read and written, `answer` to
 * `answer_length` bytes that may be read, neither is NULL (also where its length is 0), and the two don't overlap. Nothing need be tested
 * before. A refusal stores nothing; no byte of the answer is ever written.
 */

/* Appends an answer: stores its length, the answer and the closing byte at the front of the unused room. */
struct lampsickle_journal_outcome lampsickle_journal_append(uint8_t *page, size_t page_length, const uint8_t *answer, size_t answer_length);

/* Keeps the finished entries from the front and clears all bytes behind them, from the page's end towards the front. */
struct lampsickle_journal_outcome lampsickle_journal_recover(uint8_t *page, size_t page_length);

/*
 * The same, but only the first `stores` single byte stores are made: the page is then what a power cut behind them leaves. Recovery of such a page
 * gives all entries that were finished, and the interrupted one exactly if its closing byte was stored; recovery of a page whose recovery was
 * cut ends with the same page as without the cut. The outcome is that of the whole request.
 */
struct lampsickle_journal_outcome lampsickle_journal_append_cut(uint8_t *page, size_t page_length, const uint8_t *answer, size_t answer_length,
                                                                size_t stores);
struct lampsickle_journal_outcome lampsickle_journal_recover_cut(uint8_t *page, size_t page_length, size_t stores);

#ifdef __cplusplus
}
#endif

#endif
