/*
 * A random trace on standard output: traces SEED LINES
 *
 * Guests follow one another, each with its tables and then its calls, edits between them; a tenth of the lines is damaged. With
 * an even seed the last line lacks its end.
 */
#include <inttypes.h>
#include <stdio.h>
#include <stdlib.h>
#include <string.h>

#include "call.h"
#include "guest.h"
#include "pastrulow.h"

enum { GUEST_STEPS = 250, EARLY_STEPS = 40, BLOCK = 64 * 1024, LINE_ROOM = 2 * BLOCK };

static char line[LINE_ROOM];
static size_t length, offset; /* of the line, and where in the trace it begins */
static unsigned long wanted, written;
static unsigned begun; /* of the three calls that a guest begins with, how many are made */

/* Now and then with zeros before it, or in upper case. */
static void put_number(struct random *random, uint64_t number)
{
    int digits = random_percent(random, 12) ? (int)(1 + random_below(random, 16)) : 1;
    bool upper = random_percent(random, 12);
    length += (size_t)snprintf(line + length, LINE_ROOM - length, upper ? "\t%0*" PRIX64 : "\t%0*" PRIx64, digits, number);
}

static void make_line(struct random *random, char letter, const uint64_t *numbers, unsigned count)
{
    length = 0;
    line[length++] = letter;
    for (unsigned i = 0; i < count; i++)
        put_number(random, numbers[i]);
}

static void make_store(struct random *random, uint64_t address, uint64_t word)
{
    const uint64_t numbers[2] = {address, word};
    make_line(random, 'P', numbers, 2);
}

/* Puts bytes in the place of some others. */
static void replace(size_t at, size_t removed, const char *bytes, size_t count)
{
    memmove(line + at + count, line + at + removed, length - at - removed);
    memcpy(line + at, bytes, count);
    length = length - removed + count;
}

static void damage_byte(struct random *random)
{
    static const char likely[] = "\0\t\n\r 09:@AFG`afgSMCIVTPsx\x7f\x80\xff";
    char byte = likely[random_below(random, sizeof likely)];
    if (random_percent(random, 30))
        byte = (char)random_below(random, 256);
    size_t at = random_below(random, length);
    switch (random_below(random, 3)) {
    case 0:
        replace(at, 1, &byte, 1);
        break;
    case 1:
        replace(at, 1, "", 0);
        break;
    default:
        replace(at, 0, &byte, 1);
    }
}

/* Where some number's tab stands. */
static size_t some_tab(struct random *random)
{
    size_t at = random_below(random, length);
    while (line[at] != '\t')
        at = (at + 1) % length;
    return at;
}

/* Of a number's 17 digits and of its 16, mostly zeros. */
static void lengthen_number(struct random *random, size_t tab)
{
    size_t digits = 0, wished = random_percent(random, 75) ? 17 : 16;
    while (tab + 1 + digits < length && line[tab + 1 + digits] != '\t')
        digits++;
    replace(tab + 1, 0, "00000000000000000", wished - digits);
}

static void damage_fields(struct random *random)
{
    size_t tab = some_tab(random);
    switch (random_below(random, 7)) {
    case 0:
        lengthen_number(random, tab);
        break;
    case 1:
        replace(tab, 0, "\t", 1);
        break;
    case 2:
        replace(tab, 1, " ", 1);
        break;
    case 3:
        replace(length, 0, "\t", 1);
        break;
    case 4:
        replace(length, 0, "\t0", 2);
        break;
    case 5:
        replace(tab + 1, 1, "", 0);
        break;
    default:
        length = tab;
    }
}

/* Mostly by some hundred bytes; else up to where a block ends that a program may read at once. There the line ends too, or has
   once more what by itself is good. */
static void make_long(struct random *random)
{
    static const char fills[] = "0\t S\r";
    char fill = fills[random_below(random, sizeof fills - 1)];
    bool to_block = random_percent(random, 10);
    size_t good = length, count = to_block ? BLOCK - (offset + length) % BLOCK : random_below(random, 900);
    memset(line + length, fill, count);
    length += count;
    if (to_block && random_percent(random, 50))
        replace(length, 0, line, good);
}

/* Outside guest memory, or not a multiple of 8. */
static void store_nowhere(struct random *random)
{
    static const uint64_t outside[] = {0x10000, 0x10008, 0x12340, UINT64_C(0x100000000), UINT64_C(0xfffffffffffffff8)};
    uint64_t address = random_below(random, 0x10000);
    if (address % 8 == 0)
        address = outside[random_below(random, sizeof outside / sizeof *outside)];
    make_store(random, address, address);
}

static void damage_line(struct random *random)
{
    switch (random_below(random, 6)) {
    case 0:
        line[0] |= 0x20;
        break;
    case 1:
        line[0] = (char)('A' + random_below(random, 26));
        break;
    case 2:
        length = 0;
        break;
    case 3:
        replace(length, 0, random_percent(random, 70) ? "\r" : " ", 1);
        break;
    case 4:
        make_long(random);
        break;
    default:
        store_nowhere(random);
    }
}

/* Line ends stand between lines, so that the last can do without. */
static void write_line(struct random *random)
{
    if (random_percent(random, 10)) {
        static void (*const ways[3])(struct random *) = {damage_byte, damage_fields, damage_line};
        ways[random_below(random, 3)](random);
    }
    if (written++ > 0)
        putchar('\n');
    fwrite(line, 1, length, stdout);
    offset += length + 1;
}

static void make_call(struct random *random, const struct call *call)
{
    static const char letters[] = {
        [START] = 'S', [TRANSLATE] = 'T', [INVLPG] = 'I', [INVPCID] = 'V', [WRITE_CR3] = 'C', [WRITE_MODE] = 'M'};
    unsigned count = call->name == INVPCID ? 3 : call->name == TRANSLATE ? 2 : 1;
    make_line(random, letters[call->name], call->numbers, count);
}

static void random_step(struct random *random, const struct guest *guest)
{
    if (random_percent(random, 5)) {
        unsigned page;
        uint64_t place = guest_entry_place(random, guest, &page);
        make_store(random, place, guest_entry(random, guest, page));
        return;
    }
    struct call call = call_make(random, guest);
    while (call.name == TRANSLATE_MANY || call.name == START_WITH) /* which a trace has no lines for */
        call = call_make(random, guest);
    if (call.name == START && call.numbers[0] == guest->width)
        begun = 1;
    make_call(random, &call);
}

static void write_steps(struct random *random, const struct guest *guest, unsigned steps)
{
    for (unsigned i = 0; i < steps && written < wanted; i++) {
        if (begun == 3) {
            random_step(random, guest);
        } else {
            struct call call = call_begin(guest, begun++);
            make_call(random, &call);
        }
        write_line(random);
    }
}

static uint8_t tables[GUEST_SLICE];

static void keep_entry(uint64_t address, uint64_t word)
{
    pastrulow_put_word(tables + address, word);
}

static void write_tables(struct random *random, const struct guest *guest)
{
    memset(tables, 0, sizeof tables);
    guest_tables(random, guest, keep_entry);
    for (size_t at = 0; at < sizeof tables && written < wanted; at += 8) {
        uint64_t word = pastrulow_word(tables + at);
        if (word == 0)
            continue;
        make_store(random, at, word);
        write_line(random);
    }
}

int main(int count, char **arguments)
{
    if (count != 3) {
        printf("usage: traces SEED LINES\n");
        return 2;
    }
    uint64_t seed = strtoull(arguments[1], NULL, 0);
    wanted = strtoul(arguments[2], NULL, 0);
    struct random random = random_start(seed, 0);
    begun = 3; /* nothing begins in the first lines, so that calls meet an image of zeros */
    for (unsigned steps = EARLY_STEPS; written < wanted; steps = GUEST_STEPS) {
        struct guest guest = guest_make(&random);
        write_tables(&random, &guest);
        write_steps(&random, &guest, steps);
        begun = 0;
    }
    if (seed % 2 != 0)
        putchar('\n');
    return 0;
}
