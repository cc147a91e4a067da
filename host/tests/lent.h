/* What one side of a comparison is lent: image, guest memory low and high, answers and pairs, with guard bytes around each. */
#ifndef LENT_H
#define LENT_H

#include <stdbool.h>
#include <stddef.h>
#include <stdint.h>

#include "guest.h"
#include "pastrulow.h"

enum {
    LENT_GUARD = 64,
    LENT_SHIFTS = 16, /* a part may stand at any alignment */
    LENT_IMAGE = 2048,
    LENT_MANY = 72, /* pairs and their records: more than a call takes */
    LENT_ANSWER = 32,
    LENT_ANSWERS = LENT_ANSWER * LENT_MANY,
    LENT_PAIR = 16,
    LENT_PAIRS = LENT_PAIR * LENT_MANY,
    LENT_BYTES = LENT_IMAGE + 2 * GUEST_SLICE + LENT_ANSWERS + LENT_PAIRS + 6 * (LENT_GUARD + LENT_SHIFTS)
};

/* The longest slice of guest memory that is lent. */
#define LENT_FAR (PASTRULOW_HIGH_BASE + GUEST_SLICE)

struct lent {
    size_t image, low, high, answers, pairs; /* where each part stands; a single answer is the first of the answers */
    uint8_t bytes[LENT_BYTES];
};

/* Parts at random places, all bytes random but guest memory, which is zero. */
void lent_make(struct random *random, struct lent *lent);
/* The first byte in which two sides differ, or LENT_BYTES. */
size_t lent_difference(const struct lent *one, const struct lent *other);
/* Guest memory of so many bytes. If a side has no room for them, they are zeros that both sides share: there is no table among
   them, so a right call writes none. */
uint8_t *lent_low(struct lent *lent, size_t length);
uint8_t *lent_high(struct lent *lent, size_t length);
/* Says where a byte stands, such as "image word 4 (byte 3)". */
void lent_describe(const struct lent *lent, size_t at, char *text, size_t length);

uint64_t lent_image_word(const struct lent *lent, unsigned number);
void lent_put_image_word(struct lent *lent, unsigned number, uint64_t word);
/* At a physical address of the guest's. */
void lent_put_memory_word(struct lent *lent, uint64_t address, uint64_t word);

#endif
