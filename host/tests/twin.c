/*
 * The program `replay` once more, in plain C: a trace on standard input, a line for each of its lines and the totals on
 * standard output. Its calls are the model's; with -DCALLS=pastrulow they are those of the header, of whatever is linked.
 */
#include <stdbool.h>
#include <stdio.h>
#include <stdlib.h>
#include <string.h>

#include "model.h"
#include "pastrulow.h"

#ifndef CALLS
#define CALLS model
#endif
#define JOIN(prefix, name) prefix##_##name
#define NAMED(prefix, name) JOIN(prefix, name)
#define CALL(name) NAMED(CALLS, name)

enum {
    GUEST_BYTES = 64 * 1024, /* all of them low */
    BLOCK = 64 * 1024,
    ENOUGH = 53, /* bytes that show that a line is too long: a letter and three numbers, the longest that is good, are 52 */
    ROOM = 80,   /* more than any line that is printed */
    BAD = 4      /* a fifth kind beside those of the record */
};

struct order {
    uint8_t letter;
    uint64_t numbers[3];
};

static uint8_t image[PASTRULOW_IMAGE_BYTES], record[PASTRULOW_ANSWER_BYTES], low[GUEST_BYTES];
static uint8_t input[ENOUGH + BLOCK + 1]; /* the start of a line that has no end yet, a block, and a line feed behind it */
static char output[BLOCK];
static size_t printed;
static uint32_t lines;
static uint64_t answers[5], hits; /* answers by their kinds */

/* How many numbers follow a letter, and a digit's value plus 1; 0 for what is no such letter or digit. */
static const uint8_t numbers_after[256] = {['S'] = 1, ['M'] = 1, ['C'] = 1, ['I'] = 1, ['T'] = 2, ['P'] = 2, ['V'] = 3};
static const uint8_t digit_at[256] = {
    ['0'] = 1,  ['1'] = 2,  ['2'] = 3,  ['3'] = 4,  ['4'] = 5,  ['5'] = 6,  ['6'] = 7,  ['7'] = 8,
    ['8'] = 9,  ['9'] = 10, ['a'] = 11, ['b'] = 12, ['c'] = 13, ['d'] = 14, ['e'] = 15, ['f'] = 16,
    ['A'] = 11, ['B'] = 12, ['C'] = 13, ['D'] = 14, ['E'] = 15, ['F'] = 16,
};

/* A tab and a number; moves on to the byte after them, or to the one that is wrong. */
static inline bool read_number(const uint8_t **at, uint64_t *number)
{
    if (**at != '\t')
        return false;
    const uint8_t *first = *at + 1, *next = first;
    uint64_t value = 0;
    for (unsigned digit; (digit = digit_at[*next]) != 0; next++)
        value = (value << 4) + digit - 1;
    *number = value;
    *at = next;
    return next - first >= 1 && next - first <= 16;
}

/* Whether a good line stands here; moves on to its end, or to some byte of a bad line. A line feed must follow. */
static inline bool read_order(const uint8_t **at, struct order *order)
{
    unsigned count = numbers_after[**at];
    if (count == 0)
        return false;
    order->letter = *(*at)++;
    for (unsigned i = 0; i < count; i++)
        if (!read_number(at, &order->numbers[i]))
            return false;
    return **at == '\n';
}

static bool store(uint64_t address, uint64_t word)
{
    if (address % 8 != 0 || address >= GUEST_BYTES)
        return false;
    pastrulow_put_word(low + address, word);
    return true;
}

static struct pastrulow_answer perform(const struct order *order)
{
    const uint64_t *n = order->numbers;
    switch (order->letter) {
    case 'S': /* with no flag on */
        CALL(start_with)(image, sizeof image, n[0], 0, record, sizeof record);
        break;
    case 'M':
        CALL(write_mode)(image, sizeof image, n[0], record, sizeof record);
        break;
    case 'C':
        CALL(write_cr3)(image, sizeof image, n[0], record, sizeof record);
        break;
    case 'I':
        CALL(invlpg)(image, sizeof image, n[0], record, sizeof record);
        break;
    case 'V':
        CALL(invpcid)(image, sizeof image, n[0], n[1], n[2], record, sizeof record);
        break;
    case 'T':
        CALL(translate)(image, sizeof image, low, sizeof low, NULL, 0, n[0], n[1], 0, record, sizeof record);
        break;
    default:
        return (struct pastrulow_answer){store(n[0], n[1]) ? PASTRULOW_DONE : BAD, 0, 0, 0};
    }
    return pastrulow_read_answer(record);
}

static void count(const struct pastrulow_answer *answer)
{
    answers[answer->kind]++;
    if (answer->kind == PASTRULOW_ADDRESS && answer->size != 0 && answer->read == 0)
        hits++;
}

static void flush(void)
{
    if (fwrite(output, 1, printed, stdout) != printed)
        exit(1);
    printed = 0;
}

/* A number without leading zeros, and what stands after it. */
static inline char *put_number(char *to, uint64_t number, char after)
{
    char *end = to + (63 - __builtin_clzll(number | 1)) / 4 + 1;
    *end = after;
    for (char *at = end; at > to; number >>= 4)
        *--at = "0123456789abcdef"[number & 15];
    return end + 1;
}

static void print_answer(const struct pastrulow_answer *answer)
{
    static const char words[5][8] = {"address", "fault", "refused", "done", "bad"};
    static const uint8_t lengths[5] = {7, 5, 7, 4, 3};
    char *to = put_number(output + printed, lines, '\t');
    memcpy(to, words[answer->kind], 8);
    to += lengths[answer->kind];
    *to++ = '\t';
    to = put_number(to, answer->value, '\t');
    to = put_number(to, answer->size, '\t');
    to = put_number(to, answer->read, '\n');
    printed = (size_t)(to - output);
    if (printed > sizeof output - ROOM)
        flush();
}

static void print_totals(void)
{
    char *to = output + printed;
    memcpy(to, "total\t", 6);
    to = put_number(to + 6, answers[PASTRULOW_ADDRESS], '\t');
    to = put_number(to, hits, '\t');
    to = put_number(to, answers[PASTRULOW_FAULT], '\t');
    to = put_number(to, answers[PASTRULOW_REFUSED], '\n');
    printed = (size_t)(to - output);
    flush();
}

/* Does the lines up to this end, where a line feed stands that is no part of the trace. Gives where the line begins that has
   no other end. */
static const uint8_t *take_lines(const uint8_t *at, const uint8_t *end)
{
    static const struct pastrulow_answer bad = {BAD, 0, 0, 0};
    while (lines < UINT32_MAX) {
        const uint8_t *first = at;
        struct order order;
        bool good = read_order(&at, &order);
        if (!good)
            at = memchr(at, '\n', (size_t)(end - at) + 1);
        if (at == end)
            return first;
        struct pastrulow_answer answer = good ? perform(&order) : bad;
        lines++;
        count(&answer);
        print_answer(&answer);
        at++;
    }
    return end;
}

/* Does the block's lines, the first of which may begin before it, and keeps what has no end. Gives how much that is. */
static size_t take_block(size_t kept, size_t length)
{
    uint8_t *block = input + ENOUGH, *end = block + length;
    *end = '\n';
    const uint8_t *rest = take_lines(block - kept, end);
    kept = (size_t)(end - rest);
    if (kept > ENOUGH)
        kept = ENOUGH;
    memmove(block - kept, rest, kept);
    return kept;
}

int main(void)
{
    size_t kept = 0, length;
    while (lines < UINT32_MAX && (length = fread(input + ENOUGH, 1, BLOCK, stdin)) > 0)
        kept = take_block(kept, length);
    if (kept > 0) {
        input[ENOUGH] = '\n'; /* the end that the last line lacks */
        take_block(kept, 1);
    }
    print_totals();
    return 0;
}
