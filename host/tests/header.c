/*
 * What the header says beside the calls: the version, a record's words, a pair's words, a fault's level, the root in force, a
 * journal's words.
 */
#include <string.h>

#include "check.h"
#include "machine.h"

static struct machine machine;

/* Bytes that are all different, at every distance from an aligned address. */
static void read_records(void)
{
    uint8_t bytes[PASTRULOW_ANSWER_BYTES + 8];
    for (unsigned at = 0; at < 8; at++) {
        for (unsigned i = 0; i < PASTRULOW_ANSWER_BYTES; i++)
            bytes[at + i] = (uint8_t)(0x81 + i);
        struct pastrulow_answer answer = pastrulow_read_answer(bytes + at);
        check("kind", answer.kind, UINT64_C(0x8887868584838281));
        check("value", answer.value, UINT64_C(0x908f8e8d8c8b8a89));
        check("size", answer.size, UINT64_C(0x9897969594939291));
        check("read", answer.read, UINT64_C(0xa09f9e9d9c9b9a99));
    }
}

/* One pair among bytes that are all 0. */
static void put_pair(uint8_t *pairs, size_t number)
{
    uint8_t expected[PASTRULOW_PAIRS_MAX * PASTRULOW_PAIR_BYTES] = {0};
    for (unsigned i = 0; i < PASTRULOW_PAIR_BYTES; i++)
        expected[PASTRULOW_PAIR_BYTES * number + i] = (uint8_t)(0x81 + i);
    memset(pairs, 0, sizeof expected);
    pastrulow_put_pair(pairs, number, UINT64_C(0x8887868584838281), UINT64_C(0x908f8e8d8c8b8a89));
    check("pair", memcmp(pairs, expected, sizeof expected) != 0, 0);
}

/* Each of 64 pairs, at every distance from an aligned address. */
static void put_pairs(void)
{
    static uint8_t bytes[PASTRULOW_PAIRS_MAX * PASTRULOW_PAIR_BYTES + 8];
    for (size_t at = 0; at < 8; at++)
        for (size_t number = 0; number < PASTRULOW_PAIRS_MAX; number++)
            put_pair(bytes + at, number);
}

/* The tables grow by one level at a time, so each walk stops a level lower, at an entry that is not there. */
static void fault_at_each_level(void)
{
    static uint8_t low[5 * PASTRULOW_PAGE_BYTES];
    machine.low = low;
    machine.low_len = sizeof low;
    check("load", machine_load(&machine, 40, PASTRULOW_PG, 0x1000).kind, PASTRULOW_DONE);
    for (uint64_t level = 4; level > 0; level--) {
        struct pastrulow_answer fault = machine_translate(&machine, PASTRULOW_READ, 0, 0);
        check("kind", fault.kind, PASTRULOW_FAULT);
        check("level", 5 - fault.read, level);
        uint64_t table = (5 - level) * PASTRULOW_PAGE_BYTES;
        machine_put_word(&machine, table, table + PASTRULOW_PAGE_BYTES + 7);
    }
}

static void put_word(uint8_t *bytes, uint64_t word)
{
    for (unsigned i = 0; i < 8; i++)
        bytes[i] = (uint8_t)(word >> 8 * i);
}

/* Bit by bit: CR3's from 12 up to the width, and the width itself not. */
static uint64_t plain_root(uint64_t width, uint64_t cr3)
{
    uint64_t root = 0;
    for (unsigned bit = 12; bit < 64; bit++)
        if (bit < width && (cr3 >> bit & 1) != 0)
            root += UINT64_C(1) << bit;
    return root;
}

static void read_root(uint64_t width, uint64_t cr3)
{
    static uint8_t image[PASTRULOW_IMAGE_BYTES];
    memset(image, 0xa5, sizeof image);
    put_word(image, width);
    put_word(image + 16, cr3);
    check("root", pastrulow_root(image), plain_root(width, cr3));
}

/* CR3 with every bit set, with each alone, and a few others; the widths that start takes and others. */
static void read_roots_of_width(uint64_t width)
{
    read_root(width, 0);
    read_root(width, UINT64_MAX);
    read_root(width, UINT64_C(0x0123456789abcdef));
    read_root(width, UINT64_C(0xfedcba9876543210));
    for (unsigned bit = 0; bit < 64; bit++)
        read_root(width, UINT64_C(1) << bit);
}

static void read_roots(void)
{
    static const uint64_t widths[] = {0, 1, 11, 12, 13, 53, 63, 64, 65, 76, UINT64_C(0x100000028), UINT64_C(1) << 63,
                                      UINT64_MAX};
    for (size_t i = 0; i < sizeof widths / sizeof *widths; i++)
        read_roots_of_width(widths[i]);
    for (uint64_t width = PASTRULOW_WIDTH_MIN; width <= PASTRULOW_WIDTH_MAX; width++)
        read_roots_of_width(width);
}

/* What the test writes into a journal's words: all different, and so are the bytes of each. */
static uint64_t journal_word(unsigned number)
{
    return UINT64_C(0xf8e7d6c5b4a39281) + UINT64_C(0x0100010001000100) * number + number / 128;
}

static void read_journal(const uint8_t *journal)
{
    struct pastrulow_journal_counts counts = pastrulow_read_journal_counts(journal);
    check("held", counts.held, journal_word(0));
    check("lost", counts.lost, journal_word(1));
    check("reports", counts.reports, journal_word(2));
    for (unsigned i = 0; i < PASTRULOW_JOURNAL_RECORDS; i++) {
        struct pastrulow_journal_record record = pastrulow_read_journal_record(journal, i);
        check("page", record.page, journal_word(8 + 5 * i));
        check("code", record.code, journal_word(9 + 5 * i));
        check("root", record.root, journal_word(10 + 5 * i));
        check("first", record.first, journal_word(11 + 5 * i));
        check("repeats", record.repeats, journal_word(12 + 5 * i));
    }
}

/* A journal at every distance from an aligned address. */
static void read_journals(void)
{
    static uint8_t bytes[PASTRULOW_JOURNAL_BYTES + 8];
    for (unsigned at = 0; at < 8; at++) {
        for (unsigned i = 0; i < PASTRULOW_JOURNAL_BYTES / 8; i++)
            put_word(bytes + at + 8 * i, journal_word(i));
        read_journal(bytes + at);
    }
}

int main(void)
{
    check("version", pastrulow_version(), PASTRULOW_VERSION);
    read_records();
    put_pairs();
    fault_at_each_level();
    read_roots();
    read_journals();
    return checked(PASTRULOW_LITTLE_ENDIAN ? "header" : "header, words byte by byte");
}
