#include "lent.h"

#include <stdio.h>
#include <string.h>

#include "sparse.h"

/* A place for the part that follows one which ends here. */
static size_t place_after(struct random *random, size_t end)
{
    return end + LENT_GUARD + random_below(random, LENT_SHIFTS);
}

static void fill(struct random *random, struct lent *lent, size_t from, size_t end)
{
    for (size_t i = from; i < end; i++)
        lent->bytes[i] = (uint8_t)random_word(random);
}

void lent_make(struct random *random, struct lent *lent)
{
    lent->image = place_after(random, 0);
    lent->low = place_after(random, lent->image + LENT_IMAGE);
    lent->high = place_after(random, lent->low + GUEST_SLICE);
    lent->answers = place_after(random, lent->high + GUEST_SLICE);
    lent->pairs = place_after(random, lent->answers + LENT_ANSWERS);
    fill(random, lent, 0, lent->low);
    fill(random, lent, lent->low + GUEST_SLICE, lent->high);
    fill(random, lent, lent->high + GUEST_SLICE, LENT_BYTES);
    memset(lent->bytes + lent->low, 0, GUEST_SLICE);
    memset(lent->bytes + lent->high, 0, GUEST_SLICE);
}

/* The zeros for one slice, made when they are first asked for. */
static uint8_t *far_zeros(unsigned slice)
{
    static uint8_t *zeros[2];
    if (zeros[slice] == NULL)
        zeros[slice] = sparse(LENT_FAR);
    return zeros[slice];
}

uint8_t *lent_low(struct lent *lent, size_t length)
{
    return length <= GUEST_SLICE + LENT_GUARD ? lent->bytes + lent->low : far_zeros(0);
}

uint8_t *lent_high(struct lent *lent, size_t length)
{
    return length <= GUEST_SLICE + LENT_GUARD ? lent->bytes + lent->high : far_zeros(1);
}

size_t lent_difference(const struct lent *one, const struct lent *other)
{
    if (memcmp(one->bytes, other->bytes, LENT_BYTES) == 0)
        return LENT_BYTES;
    size_t at = 0;
    while (one->bytes[at] == other->bytes[at])
        at++;
    return at;
}

void lent_describe(const struct lent *lent, size_t at, char *text, size_t length)
{
    if (at >= lent->image && at < lent->image + LENT_IMAGE)
        snprintf(text, length, "image word %zu (byte %zu of it)", (at - lent->image) / 8, (at - lent->image) % 8);
    else if (at >= lent->low && at < lent->low + GUEST_SLICE)
        snprintf(text, length, "low at 0x%zx", at - lent->low);
    else if (at >= lent->high && at < lent->high + GUEST_SLICE)
        snprintf(text, length, "high at 0x%zx above 4 GiB", at - lent->high);
    else if (at >= lent->answers && at < lent->answers + LENT_ANSWERS)
        snprintf(text, length, "answer word %zu (byte %zu of it)", (at - lent->answers) / 8, (at - lent->answers) % 8);
    else if (at >= lent->pairs && at < lent->pairs + LENT_PAIRS)
        snprintf(text, length, "pair %zu (byte %zu of it)", (at - lent->pairs) / LENT_PAIR, (at - lent->pairs) % LENT_PAIR);
    else
        snprintf(text, length, "a guard byte, %zu", at);
}

uint64_t lent_image_word(const struct lent *lent, unsigned number)
{
    return pastrulow_word(lent->bytes + lent->image + 8 * number);
}

void lent_put_image_word(struct lent *lent, unsigned number, uint64_t word)
{
    pastrulow_put_word(lent->bytes + lent->image + 8 * number, word);
}

void lent_put_memory_word(struct lent *lent, uint64_t address, uint64_t word)
{
    size_t place = address < PASTRULOW_HIGH_BASE ? lent->low + address : lent->high + (address - PASTRULOW_HIGH_BASE);
    pastrulow_put_word(lent->bytes + place, word);
}
