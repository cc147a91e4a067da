/* What all of the plain C that the archive is measured against is made with: hints to the compiler, bits, words. */
#ifndef BASELINE_WORDS_H
#define BASELINE_WORDS_H

#include <string.h>

#include "pastrulow.h"

#define LIKELY(x) __builtin_expect(!!(x), 1)
#define UNLIKELY(x) __builtin_expect(!!(x), 0)
#define BIT(n) (UINT64_C(1) << (n))
#define APART static __attribute__((noipa)) /* kept out of the short way through its caller, arguments as written */
#define PART static inline __attribute__((always_inline))

PART uint64_t load(const uint8_t *bytes)
{
    uint64_t word;
    memcpy(&word, bytes, sizeof word);
    return word;
}

PART void store(uint8_t *bytes, uint64_t word)
{
    memcpy(bytes, &word, sizeof word);
}

#endif
