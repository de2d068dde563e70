/* A register of priority moves: calls, what they answer, and what is held at the end. Linked with both libraries. */
#include <stdio.h>
#include <string.h>
#include "lampsickle.h"
#include "lampsickle_register.h"

#define FENCE 16

/* The register lies between fences. */
static uint8_t field[FENCE + LAMPSICKLE_REGISTER_BYTES + FENCE];
static uint8_t before[sizeof field];
static uint8_t *const bytes = field + FENCE;
static int wrong;

static uint64_t number_at(const uint8_t *at, int count) {
    uint64_t number = 0;
    for (int index = 0; index < count; index++)
        number = number << 8 | at[index];
    return number;
}

static void demand(int met, const char *what) {
    if (!met) {
        printf("wrong: %s\n", what);
        wrong = 1;
    }
}

/* Prints an answer; after a refusal every byte is as it was, and the fences are always. */
static void told(const char *call, struct lampsickle_register_reply reply) {
    size_t end = FENCE + LAMPSICKLE_REGISTER_BYTES;
    if (reply.number == LAMPSICKLE_REGISTER_GRANTED) {
        printf("%s: granted\n", call);
    } else {
        printf("%s: refused %u at %zu\n", call, reply.number, reply.place);
        demand(memcmp(field, before, sizeof field) == 0, "bytes after a refusal");
    }
    demand(memcmp(field, before, FENCE) == 0 && memcmp(field + end, before + end, FENCE) == 0, "bytes beside the register");
    memcpy(before, field, sizeof field);
}

static void find(uint32_t principal) {
    struct lampsickle_register_search search = lampsickle_register_find(bytes, LAMPSICKLE_REGISTER_BYTES, principal);
    if (search.number != LAMPSICKLE_REGISTER_GRANTED)
        printf("find %u: refused %u at %zu\n", principal, search.number, search.place);
    else if (search.held)
        printf("find %u: place %zu work %zu\n", principal, search.at, search.work);
    else
        printf("find %u: not held work %zu\n", principal, search.work);
    demand(memcmp(field, before, sizeof field) == 0, "bytes after finding");
}

static void list(void) {
    printf("issued %llu\n", (unsigned long long)number_at(bytes + 1, 8));
    for (size_t place = 0; place < LAMPSICKLE_REGISTER_PLACES; place++) {
        const uint8_t *at = bytes + LAMPSICKLE_REGISTER_HEAD + place * LAMPSICKLE_REGISTER_PLACE;
        if (at[0] == 1)
            printf("place %zu %llu %llu\n", place, (unsigned long long)number_at(at + 1, 4), (unsigned long long)number_at(at + 5, 8));
    }
}

int main(void) {
    const size_t length = LAMPSICKLE_REGISTER_BYTES;
    memset(field, 0xc3, sizeof field);
    memcpy(before, field, sizeof field);
    told("empty, a byte short", lampsickle_register_empty(bytes, length - 1));
    told("issue 1 5, no register yet", lampsickle_register_issue(bytes, length, 1, 5));
    told("empty", lampsickle_register_empty(bytes, length));
    told("issue 1 5", lampsickle_register_issue(bytes, length, 1, 5));
    told("issue 2 5", lampsickle_register_issue(bytes, length, 2, 5));
    told("pass 1 2 6", lampsickle_register_pass(bytes, length, 1, 2, 6));
    told("pass 1 2 2", lampsickle_register_pass(bytes, length, 1, 2, 2));
    told("spend 1 3", lampsickle_register_spend(bytes, length, 1, 3));
    told("remove 2", lampsickle_register_remove(bytes, length, 2));
    told("remove 1", lampsickle_register_remove(bytes, length, 1));
    find(2);
    find(1);
    told("issue 4294967295 1", lampsickle_register_issue(bytes, length, 4294967295u, 1));
    find(4294967295u);
    list();
    bytes[LAMPSICKLE_REGISTER_HEAD] = 2;
    memcpy(before, field, sizeof field);
    told("spend 2 1, a mark of 2", lampsickle_register_spend(bytes, length, 2, 1));
    /* The other library in the same program. */
    demand(lampsickle_answer(bytes, 0, bytes, 0).number == LAMPSICKLE_VERSION, "an empty record");
    return wrong;
}
