/*
 * Lampsickle: a register of priority moves.
 *
 * Link with -lregister from target/staticlib, which `tools/build register` writes, for Linux on x86-64; -lkeynote may stand beside it. The
 * library allocates nothing, reads and writes no file, and keeps no state between calls: a register is bytes that the caller lends.
 */
#ifndef LAMPSICKLE_REGISTER_H
#define LAMPSICKLE_REGISTER_H

#include <stdbool.h>
#include <stddef.h>
#include <stdint.h>

#ifdef __cplusplus
extern "C" {
#endif

/* The principals that a register holds at most: its places. */
#define LAMPSICKLE_REGISTER_PLACES 64

/* The most moves in one call, and the most that are ever issued. */
#define LAMPSICKLE_REGISTER_MOVES 1000000

/*
 * The bytes of a register: byte 0 is the version, 1; then all moves ever issued, in 8 bytes; then 13 bytes for each place: a mark, which is 1
 * where the place holds a principal and 0 where it is free, the principal in 4 bytes and its moves in 8. Numbers are big-endian. What stands
 * behind a mark of 0 counts for nothing; a call that is granted leaves zeros there.
 */
#define LAMPSICKLE_REGISTER_HEAD 9
#define LAMPSICKLE_REGISTER_PLACE 13
#define LAMPSICKLE_REGISTER_BYTES (LAMPSICKLE_REGISTER_HEAD + LAMPSICKLE_REGISTER_PLACES * LAMPSICKLE_REGISTER_PLACE)

/*
 * Why a call is refused. The first three say that the bytes are no register, and are tested first, in the order 5, 2, 6; then comes 20, then
 * the others as they are numbered. The place is 0 but for number 6.
 */
enum lampsickle_register_number {
    LAMPSICKLE_REGISTER_GRANTED = 0,
    LAMPSICKLE_REGISTER_BAD_VERSION = 2, /* byte 0 isn't 1 */
    LAMPSICKLE_REGISTER_BAD_LENGTH = 5,  /* the length isn't LAMPSICKLE_REGISTER_BYTES */
    LAMPSICKLE_REGISTER_BAD_MARK = 6,    /* a mark is above 1; place: the first such byte */
    LAMPSICKLE_REGISTER_AMOUNT = 14,     /* an amount outside 1 to 1,000,000 */
    LAMPSICKLE_REGISTER_UNKNOWN = 15,    /* an unknown payer, receiver or principal to remove */
    LAMPSICKLE_REGISTER_EXCEEDED = 16,   /* passing or spending more than is held */
    LAMPSICKLE_REGISTER_LIMIT = 17,      /* an issue that takes all moves ever issued above 1,000,000 */
    LAMPSICKLE_REGISTER_FULL = 18,       /* an issue to one not held while 64 are */
    LAMPSICKLE_REGISTER_HOLDING = 19,    /* removing one that still holds moves */
    LAMPSICKLE_REGISTER_DAMAGED = 20     /* a principal twice, more moves than all issued, or over 1,000,000 issued */
};

struct lampsickle_register_reply {
    uint8_t number; /* an enum lampsickle_register_number */
    size_t place;   /* where in the bytes a refusal's cause lies */
};

/* What finding gives. It isn't refused with 20. */
struct lampsickle_register_search {
    uint8_t number; /* 0, 2, 5 or 6 */
    size_t place;
    bool held;   /* whether the principal is held */
    size_t at;   /* its place, from 0; 0 where it isn't held */
    size_t work; /* the held entries compared in place order up to it, at most 64 */
};

/*
 * Each call takes the bytes of a register, `bytes` not NULL and pointing to `length` bytes that may be read and written (find: read). Nothing
 * need be tested before: the bytes may be any, and every length is fine. Number 0 says that the call is granted and the bytes are those of the
 * register after it. After any other number every byte is as it was.
 */
struct lampsickle_register_reply lampsickle_register_empty(uint8_t *bytes, size_t length);
struct lampsickle_register_reply lampsickle_register_issue(uint8_t *bytes, size_t length, uint32_t principal, uint64_t amount);
struct lampsickle_register_reply lampsickle_register_pass(uint8_t *bytes, size_t length, uint32_t payer, uint32_t receiver, uint64_t amount);
struct lampsickle_register_reply lampsickle_register_spend(uint8_t *bytes, size_t length, uint32_t payer, uint64_t amount);
struct lampsickle_register_reply lampsickle_register_remove(uint8_t *bytes, size_t length, uint32_t principal);
struct lampsickle_register_search lampsickle_register_find(const uint8_t *bytes, size_t length, uint32_t principal);

#ifdef __cplusplus
}
#endif

#endif
