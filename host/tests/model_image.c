/* The model: numbers, and the image as a state. */
#include "model_parts.h"

#include <string.h>

bool bit(uint64_t word, unsigned number)
{
    return word >> number & 1;
}

uint64_t bits(uint64_t word, unsigned high, unsigned low)
{
    uint64_t above = high == 63 ? 0 : word >> (high + 1) << (high + 1);
    return (word - above) >> low;
}

/* The tests run on x86-64 alone, which is little endian as the image and guest memory are. */
uint64_t word_at(const uint8_t *bytes)
{
    uint64_t word;
    memcpy(&word, bytes, sizeof word);
    return word;
}

void put_word(uint8_t *bytes, uint64_t word)
{
    memcpy(bytes, &word, sizeof word);
}

bool canonical(uint64_t address)
{
    int64_t number = (int64_t)address;
    return number >= -(INT64_C(1) << 47) && number <= (INT64_C(1) << 47) - 1;
}

void set_flags(struct state *state, uint64_t flags)
{
    state->flags = flags;
    state->pg = bit(flags, 0);
    state->wp = bit(flags, 1);
    state->pge = bit(flags, 2);
    state->pcide = bit(flags, 3);
    state->nxe = bit(flags, 4);
    state->smep = bit(flags, 5);
    state->smap = bit(flags, 6);
}

struct state decode(const uint8_t *image)
{
    struct state state;
    state.width = word_at(image);
    set_flags(&state, word_at(image + 8));
    state.cr3 = word_at(image + 16);
    state.victims = word_at(image + 24);
    for (unsigned i = 0; i < SLOTS; i++) {
        state.slots[i].tag = word_at(image + 8 * (4 + 2 * i));
        state.slots[i].data = word_at(image + 8 * (4 + 2 * i + 1));
    }
    for (unsigned i = 0; i < REST_WORDS; i++)
        state.rest[i] = word_at(image + 8 * (204 + i));
    return state;
}

void encode(const struct state *state, uint8_t *image)
{
    put_word(image, state->width);
    put_word(image + 8, state->flags);
    put_word(image + 16, state->cr3);
    put_word(image + 24, state->victims);
    for (unsigned i = 0; i < SLOTS; i++) {
        put_word(image + 8 * (4 + 2 * i), state->slots[i].tag);
        put_word(image + 8 * (4 + 2 * i + 1), state->slots[i].data);
    }
    for (unsigned i = 0; i < REST_WORDS; i++)
        put_word(image + 8 * (204 + i), state->rest[i]);
}
