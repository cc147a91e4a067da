/* Parts of the translator in plain C: the answer, the image's checks, sets and slots, matches. */
#ifndef BASELINE_PARTS_H
#define BASELINE_PARTS_H

#include <emmintrin.h>
#include <stdbool.h>

#include "baseline_words.h"

/* Places in the image, in bytes. */
enum { FLAGS_AT = 8, CR3_AT = 16, VICTIMS_AT = 24, SLOTS_AT = 32, REST_AT = 1632, SLOT = 16, SET = 64 };

/* A tag and a data word. */
enum { HELD = 1, GLOBAL = 2, PCID_FIELD = 4095 << 2 };
enum { WRITABLE = 1, USER = 2, EXECUTABLE = 4, DIRTY = 8 };
#define PAGE_FIELD UINT64_C(0x3ffffffffc000)
#define BASE_FIELD UINT64_C(0xffffffffff000)

/* An entry. */
enum { PRESENT = 1, ACCESSED = 0x20, ENTRY_DIRTY = 0x40, LARGE = 0x80 };

/* What a kind of access is with AC set: a supervisor's read and write, which SMAP then leaves alone, are kinds of their own. */
static const uint8_t kinds_by_ac[6] = {6, 7, 2, 3, 4, 5};

/*
 * By kind, what is looked at in a data word, and which of it must be there, the rest being what must not; then the same with
 * WP on. Given are the rights that a supervisor's read or write, and a fetch, must not find.
 */
#define RULES(data, fetch)                                                                                               \
    data, 0, data, 0,                                                                                                    \
    data | DIRTY, DIRTY, data | WRITABLE | DIRTY, WRITABLE | DIRTY,                                                      \
    fetch | EXECUTABLE, EXECUTABLE, fetch | EXECUTABLE, EXECUTABLE,                                                      \
    USER, USER, USER, USER,                                                                                              \
    USER | WRITABLE | DIRTY, USER | WRITABLE | DIRTY, USER | WRITABLE | DIRTY, USER | WRITABLE | DIRTY,                  \
    USER | EXECUTABLE, USER | EXECUTABLE, USER | EXECUTABLE, USER | EXECUTABLE,                                          \
    0, 0, 0, 0,                                                                                                          \
    DIRTY, DIRTY, WRITABLE | DIRTY, WRITABLE | DIRTY

/* Of a place here WP, SMEP and SMAP are the same bits as of the flags; the kind is those between. */
static const uint8_t rules[128] = {RULES(0, 0), RULES(0, USER), RULES(USER, 0), RULES(USER, USER)};

PART const uint8_t *rules_of(uint64_t flags)
{
    return rules + (flags & (PASTRULOW_WP | PASTRULOW_SMEP | PASTRULOW_SMAP));
}

/* Whether a data word is as it must be. */
PART bool serves(uint64_t data, const uint8_t *in_force, uint64_t kind)
{
    return ((uint8_t)data & in_force[4 * kind]) == in_force[4 * kind + 1];
}

/* Keeps a value in a register, and what it is from the compiler. */
#define PIN(value) __asm__("" : "+r"(value))

/* Else the compiler keeps some 0 that it has met, in a register that must be saved, up to the return. */
PART uint64_t none(void)
{
    uint64_t number = 0;
    PIN(number);
    return number;
}

PART uint64_t answer_words(uint8_t *answer, uint64_t kind, uint64_t value, uint64_t size, uint64_t read)
{
    store(answer, kind);
    store(answer + 8, value);
    store(answer + 16, size);
    store(answer + 24, read);
    return none();
}

/* From the data word of a slot that holds the page. */
PART uint64_t answer_held(uint8_t *answer, uint64_t data, uint64_t address, unsigned length)
{
    uint64_t base = data & (BIT(52) - BIT(length)), offset = address & (BIT(length) - 1);
    return answer_words(answer, PASTRULOW_ADDRESS, base | offset, BIT(length), 0);
}

PART uint64_t answer_done(uint8_t *answer)
{
    return answer_words(answer, PASTRULOW_DONE, 0, 0, 0);
}

APART uint64_t refuse(uint8_t *answer, uint64_t number)
{
    answer_words(answer, PASTRULOW_REFUSED, number, 0, 0);
    return number;
}

/* What is asked goes along in the record, until the answer is written over it. */
PART uint8_t *ask(uint8_t *answer, uint64_t kind, uint64_t address)
{
    PIN(kind); /* else the compiler moves both through a vector register */
    store(answer, kind);
    store(answer + 8, address);
    return answer;
}

PART uint64_t asked_kind(const uint8_t *answer)
{
    return load(answer);
}

PART uint64_t asked_address(const uint8_t *answer)
{
    return load(answer + 8);
}

/* 16 * blocks bytes: the first and the last 16 at any alignment, and aligned blocks that reach from the one into the other. */
PART bool all_zero(const uint8_t *bytes, unsigned blocks)
{
    const __m128i *aligned = (const __m128i *)(((uintptr_t)bytes + 15) & ~(uintptr_t)15);
    __m128i seen = _mm_loadu_si128((const __m128i *)bytes);
    seen = _mm_or_si128(seen, _mm_loadu_si128((const __m128i *)(bytes + 16 * (blocks - 1))));
#pragma GCC unroll 32
    for (unsigned i = 0; i < blocks - 1; i++)
        seen = _mm_or_si128(seen, _mm_load_si128(aligned + i));
    return _mm_movemask_epi8(_mm_cmpeq_epi8(seen, _mm_setzero_si128())) == 0xffff;
}

PART bool image_fits(const uint8_t *image)
{
    return LIKELY(load(image) - 36 <= 16) &&
           LIKELY((load(image + FLAGS_AT) >> 7 | load(image + VICTIMS_AT) >> 50) == 0) && LIKELY(all_zero(image + REST_AT, 26));
}

/* Rotated by a page's bits, a length that is not whole pages is above every limit. */
PART bool memory_fits(size_t low_len, size_t high_len)
{
    return (low_len >> 12 | low_len << 52) <= PASTRULOW_LOW_MAX >> 12 && high_len % PASTRULOW_PAGE_BYTES == 0;
}

PART bool canonical(uint64_t address)
{
    return (address + BIT(47)) >> 48 == 0;
}

PART uint64_t pcid_of(uint64_t flags, uint64_t cr3)
{
    return flags & PASTRULOW_PCIDE ? cr3 & 4095 : 0;
}

PART uint64_t current_pcid(const uint8_t *image)
{
    return pcid_of(load(image + FLAGS_AT), load(image + CR3_AT));
}

/* Where the set of an address begins, among the pages of 2^length bytes. */
PART uint8_t *set_of(uint8_t *image, uint64_t address, unsigned length)
{
    switch (length) {
    case 12:
        return image + (address >> 6 & 15 * SET) + SLOTS_AT;
    case 21:
        return image + (address >> 15 & 7 * SET) + (SLOTS_AT + 16 * SET);
    default:
        return image + SLOTS_AT + 24 * SET;
    }
}

/* The page number where a tag has it. */
PART uint64_t page_of(uint64_t address, unsigned length)
{
    return length == 12 ? address << 2 & PAGE_FIELD : address >> (length - 14) & (BIT(62 - length) - BIT(14));
}

/* A slot of this page may be another PCID's. Given are the bits in which its tag differs from one of the current PCID that is
   not global. */
PART bool is_ours_by(uint64_t difference)
{
    return LIKELY((difference & PCID_FIELD) == 0) || (difference & GLOBAL) != 0;
}

/* The same by its tag. */
PART bool is_ours(const uint8_t *image, uint64_t tag)
{
    if (UNLIKELY(image[FLAGS_AT] & PASTRULOW_PCIDE))
        tag ^= load(image + CR3_AT) << 2;
    return is_ours_by(tag);
}

/* The same of a slot whose tag is read again, so that the search for it need not keep it. */
PART bool slot_is_ours(const uint8_t *image, const uint8_t **slot)
{
    PIN(*slot);
    return is_ours(image, load(*slot));
}

PART uint8_t *find_ours(uint8_t *image, uint64_t address, unsigned length)
{
    uint8_t *set = set_of(image, address, length);
    uint64_t wanted = page_of(address, length) | HELD;
    for (unsigned way = 0; way < 4; way++, set += SLOT)
        if ((load(set) & (PAGE_FIELD | HELD)) == wanted && is_ours(image, load(set)))
            return set;
    return NULL;
}

PART void zero_slot(uint8_t *slot)
{
    _mm_storeu_si128((__m128i *)slot, _mm_setzero_si128());
}

PART void drop_matches_of(uint8_t *image, uint64_t address, unsigned length)
{
    uint8_t *set = set_of(image, address, length);
    uint64_t wanted = page_of(address, length) | HELD, mask = PAGE_FIELD | HELD;
    PIN(mask);
#pragma GCC unroll 4
    for (unsigned way = 0; way < 4; way++, set += SLOT)
        if (UNLIKELY((load(set) & mask) == wanted) && is_ours(image, load(set)))
            zero_slot(set);
}

PART void drop_matches(uint8_t *image, uint64_t address)
{
    drop_matches_of(image, address, 12);
    drop_matches_of(image, address, 21);
    drop_matches_of(image, address, 30);
}

#endif
