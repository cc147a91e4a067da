/*
 * One operation, many times: bench OPERATION TIMES call|empty
 *
 * Linked once with the archive and once with the plain C. With "empty" the loop is the same, but the call goes to a function
 * that returns at once; the difference in instructions is the operation's own. "bench" alone lists the operations, each after
 * the number of its pairs, which is 0 unless it is a batch.
 * Before the loop the operation is made once, and its record, of a batch the last one, or of the journal its counts, held to
 * what is expected.
 */
#include <inttypes.h>
#include <stdbool.h>
#include <stdio.h>
#include <stdlib.h>
#include <string.h>

#include "pastrulow.h"

/* Newer guests run with both SMEP and SMAP on. */
enum { GUEST_BYTES = 24 * 1024, FLAGS = 23, NEWER = 119, ROOT = 0x1000, CODE = 4 };

static _Alignas(64) uint8_t images[PASTRULOW_IMAGE_BYTES + 64], kept[PASTRULOW_IMAGE_BYTES];
static _Alignas(64) uint8_t memory[2 * GUEST_BYTES], tables[2 * GUEST_BYTES]; /* of each: low, then high */
static _Alignas(64) uint8_t record[PASTRULOW_ANSWER_BYTES];
static _Alignas(64) uint8_t pairs[PASTRULOW_PAIRS_MAX * PASTRULOW_PAIR_BYTES];
static _Alignas(64) uint8_t records[PASTRULOW_PAIRS_MAX * PASTRULOW_ANSWER_BYTES];
static _Alignas(64) uint8_t journal[PASTRULOW_JOURNAL_BYTES], kept_journal[PASTRULOW_JOURNAL_BYTES];
static uint8_t *image = images;
static uint8_t *const low = memory, *const high = memory + GUEST_BYTES;
static uint8_t *lent_high; /* high or, where it is not lent, NULL */
static size_t high_len;

struct door {
    uint64_t (*start)(uint8_t *, size_t, uint64_t, uint8_t *, size_t);
    uint64_t (*start_with)(uint8_t *, size_t, uint64_t, uint64_t, uint8_t *, size_t);
    uint64_t (*translate)(uint8_t *, size_t, uint8_t *, size_t, uint8_t *, size_t, uint64_t, uint64_t, uint64_t, uint8_t *,
                          size_t);
    uint64_t (*translate_many)(uint8_t *, size_t, uint8_t *, size_t, uint8_t *, size_t, const uint8_t *, size_t, uint8_t *,
                               size_t);
    uint64_t (*invlpg)(uint8_t *, size_t, uint64_t, uint8_t *, size_t);
    uint64_t (*invpcid)(uint8_t *, size_t, uint64_t, uint64_t, uint64_t, uint8_t *, size_t);
    uint64_t (*write_cr3)(uint8_t *, size_t, uint64_t, uint8_t *, size_t);
    uint64_t (*write_mode)(uint8_t *, size_t, uint64_t, uint8_t *, size_t);
    uint64_t (*clear)(uint8_t *, size_t);
    uint64_t (*report)(uint8_t *, size_t, uint64_t, uint64_t, uint64_t);
};

static const struct door full = {pastrulow_start,          pastrulow_start_with, pastrulow_translate,
                                 pastrulow_translate_many, pastrulow_invlpg,     pastrulow_invpcid,
                                 pastrulow_write_cr3,      pastrulow_write_mode, pastrulow_journal_clear,
                                 pastrulow_journal_report};

/* Calls that do nothing but return: two instructions each. */
static uint64_t no_start(uint8_t *i, size_t il, uint64_t w, uint8_t *a, size_t al)
{
    return (void)i, (void)il, (void)w, (void)a, (void)al, 0;
}

static uint64_t no_start_with(uint8_t *i, size_t il, uint64_t w, uint64_t f, uint8_t *a, size_t al)
{
    return (void)i, (void)il, (void)w, (void)f, (void)a, (void)al, 0;
}

static uint64_t no_translate(uint8_t *i, size_t il, uint8_t *l, size_t ll, uint8_t *h, size_t hl, uint64_t k, uint64_t v,
                             uint64_t ac, uint8_t *a, size_t al)
{
    return (void)i, (void)il, (void)l, (void)ll, (void)h, (void)hl, (void)k, (void)v, (void)ac, (void)a, (void)al, 0;
}

static uint64_t no_many(uint8_t *i, size_t il, uint8_t *l, size_t ll, uint8_t *h, size_t hl, const uint8_t *p, size_t pl,
                        uint8_t *a, size_t al)
{
    return (void)i, (void)il, (void)l, (void)ll, (void)h, (void)hl, (void)p, (void)pl, (void)a, (void)al, 0;
}

static uint64_t no_invpcid(uint8_t *i, size_t il, uint64_t t, uint64_t p, uint64_t v, uint8_t *a, size_t al)
{
    return (void)i, (void)il, (void)t, (void)p, (void)v, (void)a, (void)al, 0;
}

static uint64_t no_clear(uint8_t *j, size_t jl)
{
    return (void)j, (void)jl, 0;
}

static uint64_t no_report(uint8_t *j, size_t jl, uint64_t v, uint64_t c, uint64_t r)
{
    return (void)j, (void)jl, (void)v, (void)c, (void)r, 0;
}

static const struct door empty = {no_start,   no_start_with, no_translate, no_many,  no_start,
                                  no_invpcid, no_start,      no_start,     no_clear, no_report};

enum name { START, START_WITH, TRANSLATE, TRANSLATE_MANY, INVLPG, INVPCID, WRITE_CR3, WRITE_MODE, CLEAR, REPORT };

/*
 * What the buffer holds before the call: nothing; the page of 0x123, 0x212345 or 0x40000010; a page in each of the 100 slots,
 * with those of 0x123 and 0x212345 in the last ways of their sets, or with none of the three, or all of them global. Or what
 * the journal holds: 63 or 64 records, each with its own number as its page.
 */
enum held { NOTHING, PAGE_4K, PAGE_2M, PAGE_1G, FULL, FULL_OF_OTHERS, FULL_OF_GLOBAL, RECORDS_63, RECORDS_64 };

/* What is put back before each call: nothing, the image, or with it the guest's tables, which then have no accessed bit set; or
   the journal. */
enum restored { NONE, IMAGE, IMAGE_AND_TABLES, JOURNAL };

/* What is lent, and which of the guest's four tables stand in high: low alone, with the image aligned to 64 bytes or 8 off;
   low and high, with none there, all, or those of levels 3 and 1. */
enum lent { LOW, UNALIGNED, LOW_AND_HIGH, HIGH, MIXED };

struct operation {
    const char *title;
    enum name name;
    uint64_t numbers[3]; /* of a batch: its pairs, the first address, how far it is from each address to the next */
    enum held held;
    enum restored restored;
    enum lent lent;
    uint64_t flags;       /* that the guest runs with */
    uint64_t expected[4]; /* the record's words; or records held, lost, reports, and the repeats of record 63 */
};

#define FAR_ADDRESS UINT64_C(0x00007FFFFFFFF000)

static const struct operation operations[] = {
    {"hit, 4 KiB", TRANSLATE, {0, 0x123, 0}, PAGE_4K, NONE, LOW, FLAGS, {0, 0x5123, 4096, 0}},
    {"hit, 4 KiB, image not aligned", TRANSLATE, {0, 0x123, 0}, PAGE_4K, NONE, UNALIGNED, FLAGS, {0, 0x5123, 4096, 0}},
    {"hit, 4 KiB, last way, all held", TRANSLATE, {0, 0x123, 0}, FULL, NONE, LOW, FLAGS, {0, 0x5123, 4096, 0}},
    {"hit, 2 MiB", TRANSLATE, {0, 0x212345, 0}, PAGE_2M, NONE, LOW, FLAGS, {0, 0x612345, 2097152, 0}},
    {"hit, 2 MiB, last way, all held", TRANSLATE, {0, 0x212345, 0}, FULL, NONE, LOW, FLAGS, {0, 0x612345, 2097152, 0}},
    {"hit, 1 GiB", TRANSLATE, {0, 0x40000010, 0}, PAGE_1G, NONE, LOW, FLAGS, {0, 0x40000010, 1073741824, 0}},
    {"miss, 4 KiB: 4 levels and fill", TRANSLATE, {0, 0x123, 0}, NOTHING, IMAGE, LOW, FLAGS, {0, 0x5123, 4096, 4}},
    {"miss, 4 KiB, sets accessed bits", TRANSLATE, {0, 0x123, 0}, NOTHING, IMAGE_AND_TABLES, LOW, FLAGS, {0, 0x5123, 4096, 4}},
    {"miss, 4 KiB, all held: a victim", TRANSLATE, {0, 0x123, 0}, FULL_OF_OTHERS, IMAGE, LOW, FLAGS, {0, 0x5123, 4096, 4}},
    {"miss, 2 MiB: 3 levels and fill", TRANSLATE, {0, 0x212345, 0}, NOTHING, IMAGE, LOW, FLAGS, {0, 0x612345, 2097152, 3}},
    {"fault at level 4", TRANSLATE, {0, FAR_ADDRESS, 0}, NOTHING, NONE, LOW, FLAGS, {1, 0, 0, 1}},
    {"hit, 4 KiB, SMEP and SMAP on", TRANSLATE, {0, 0x123, 0}, PAGE_4K, NONE, LOW, NEWER, {0, 0x5123, 4096, 0}},
    {"hit, 4 KiB, both on, a fetch", TRANSLATE, {2, 0x123, 0}, PAGE_4K, NONE, LOW, NEWER, {0, 0x5123, 4096, 0}},
    {"hit, 2 MiB, both on, AC set", TRANSLATE, {0, 0x212345, 1}, PAGE_2M, NONE, LOW, NEWER, {0, 0x612345, 2097152, 0}},
    {"hit, 1 GiB, both on", TRANSLATE, {0, 0x40000010, 0}, PAGE_1G, NONE, LOW, NEWER, {0, 0x40000010, 1073741824, 0}},
    {"miss, 4 KiB, both on", TRANSLATE, {0, 0x123, 0}, NOTHING, IMAGE, LOW, NEWER, {0, 0x5123, 4096, 4}},
    {"fault by SMAP: 3 levels", TRANSLATE, {0, 0x212345, 0}, NOTHING, NONE, LOW, NEWER, {1, 1, 0, 3}},
    {"hit, 4 KiB, high lent too", TRANSLATE, {0, 0x123, 0}, PAGE_4K, NONE, LOW_AND_HIGH, FLAGS, {0, 0x5123, 4096, 0}},
    {"miss, 4 KiB, tables in high", TRANSLATE, {0, 0x123, 0}, NOTHING, IMAGE, HIGH, FLAGS, {0, 0x5123, 4096, 4}},
    {"miss, 4 KiB, low and high mixed", TRANSLATE, {0, 0x123, 0}, NOTHING, IMAGE, MIXED, FLAGS, {0, 0x5123, 4096, 4}},
    {"many: 1 hit, 4 KiB", TRANSLATE_MANY, {1, 0x123, 0}, PAGE_4K, NONE, LOW, FLAGS, {0, 0x5123, 4096, 0}},
    {"many: 8 hits, 4 KiB", TRANSLATE_MANY, {8, 0x123, 0}, PAGE_4K, NONE, LOW, FLAGS, {0, 0x5123, 4096, 0}},
    {"many: 64 hits, 4 KiB", TRANSLATE_MANY, {64, 0x123, 0}, PAGE_4K, NONE, LOW, FLAGS, {0, 0x5123, 4096, 0}},
    {"many: 64 hits, 4 KiB, both on", TRANSLATE_MANY, {64, 0x123, 0}, PAGE_4K, NONE, LOW, NEWER, {0, 0x5123, 4096, 0}},
    {"many: 64 hits, 2 MiB", TRANSLATE_MANY, {64, 0x212345, 0}, PAGE_2M, NONE, LOW, FLAGS, {0, 0x612345, 2097152, 0}},
    {"many: 64 hits, 1 GiB", TRANSLATE_MANY, {64, 0x40000010, 0}, PAGE_1G, NONE, LOW, FLAGS, {0, 0x40000010, 1073741824, 0}},
    {"many: 64 misses, 4 KiB", TRANSLATE_MANY, {64, 0x123, 0x1000}, NOTHING, IMAGE, LOW, FLAGS, {0, 0x5123, 4096, 4}},
    {"INVLPG of a page held", INVLPG, {0x123, 0, 0}, PAGE_4K, IMAGE, LOW, FLAGS, {3, 0, 0, 0}},
    {"CR3 write, buffer empty", WRITE_CR3, {ROOT, 0, 0}, NOTHING, NONE, LOW, FLAGS, {3, 0, 0, 0}},
    {"CR3 write, all held and dropped", WRITE_CR3, {ROOT, 0, 0}, FULL, IMAGE, LOW, FLAGS, {3, 0, 0, 0}},
    {"CR3 write, all held and global", WRITE_CR3, {ROOT, 0, 0}, FULL_OF_GLOBAL, NONE, LOW, FLAGS, {3, 0, 0, 0}},
    {"mode write, nothing changes", WRITE_MODE, {FLAGS, 0, 0}, PAGE_4K, NONE, LOW, FLAGS, {3, 0, 0, 0}},
    {"mode write, all dropped", WRITE_MODE, {FLAGS & ~4, 0, 0}, PAGE_4K, IMAGE, LOW, FLAGS, {3, 0, 0, 0}},
    {"INVPCID type 0 of a page held", INVPCID, {0, 0, 0x123}, PAGE_4K, IMAGE, LOW, FLAGS, {3, 0, 0, 0}},
    {"INVPCID type 1, one page held", INVPCID, {1, 0, 0}, PAGE_4K, IMAGE, LOW, FLAGS, {3, 0, 0, 0}},
    {"INVPCID type 2, one page held", INVPCID, {2, 0, 0}, PAGE_4K, IMAGE, LOW, FLAGS, {3, 0, 0, 0}},
    {"INVPCID type 3, one page held", INVPCID, {3, 0, 0}, PAGE_4K, IMAGE, LOW, FLAGS, {3, 0, 0, 0}},
    {"start", START, {40, 0, 0}, NOTHING, NONE, LOW, FLAGS, {3, 0, 0, 0}},
    {"start with flags", START_WITH, {40, FLAGS, 0}, NOTHING, NONE, LOW, FLAGS, {3, 0, 0, 0}},
    {"journal: report equal to record 0", REPORT, {0x123, CODE, ROOT}, RECORDS_64, JOURNAL, LOW, FLAGS, {64, 0, 65, 0}},
    {"journal: report equal to record 63", REPORT, {0x3f123, CODE, ROOT}, RECORDS_64, JOURNAL, LOW, FLAGS, {64, 0, 65, 1}},
    {"journal: report lost", REPORT, {0x40123, CODE, ROOT}, RECORDS_64, JOURNAL, LOW, FLAGS, {64, 1, 65, 0}},
    {"journal: a new fault, 63 held", REPORT, {0x3f123, CODE, ROOT}, RECORDS_63, JOURNAL, LOW, FLAGS, {64, 0, 64, 0}},
    {"journal clear", CLEAR, {0, 0, 0}, RECORDS_64, JOURNAL, LOW, FLAGS, {0, 0, 0, 0}},
};

enum { OPERATIONS = sizeof operations / sizeof *operations };

static uint64_t make(const struct door *door, const struct operation *operation)
{
    const uint64_t *n = operation->numbers;
    size_t image_len = PASTRULOW_IMAGE_BYTES;
    switch (operation->name) {
    case START:
        return door->start(image, image_len, n[0], record, sizeof record);
    case START_WITH:
        return door->start_with(image, image_len, n[0], n[1], record, sizeof record);
    case TRANSLATE:
        return door->translate(image, image_len, low, GUEST_BYTES, lent_high, high_len, n[0], n[1], n[2], record,
                               sizeof record);
    case TRANSLATE_MANY:
        return door->translate_many(image, image_len, low, GUEST_BYTES, lent_high, high_len, pairs,
                                    n[0] * PASTRULOW_PAIR_BYTES, records, n[0] * PASTRULOW_ANSWER_BYTES);
    case INVLPG:
        return door->invlpg(image, image_len, n[0], record, sizeof record);
    case INVPCID:
        return door->invpcid(image, image_len, n[0], n[1], n[2], record, sizeof record);
    case WRITE_CR3:
        return door->write_cr3(image, image_len, n[0], record, sizeof record);
    case WRITE_MODE:
        return door->write_mode(image, image_len, n[0], record, sizeof record);
    case CLEAR:
        return door->clear(journal, sizeof journal);
    default:
        return door->report(journal, sizeof journal, n[0], n[1], n[2]);
    }
}

static uint64_t pairs_of(const struct operation *operation)
{
    return operation->name == TRANSLATE_MANY ? operation->numbers[0] : 0;
}

static void put_pairs(const struct operation *operation)
{
    for (uint64_t i = 0; i < pairs_of(operation); i++)
        pastrulow_put_pair(pairs, i, PASTRULOW_READ, operation->numbers[1] + i * operation->numbers[2]);
}

/* All slots of one size. A page's number is its set's, and a round of the sets more for each way that it is before the last. */
static void hold_pages(unsigned first, unsigned sets, uint64_t base, unsigned round, bool global)
{
    for (unsigned slot = 0; slot < 4 * sets; slot++) {
        uint64_t number = (uint64_t)sets * (3 - slot % 4 + round) + slot / 4, place = 32 + 16 * (4 * first + slot);
        pastrulow_put_word(image + place, 1 | (global ? 2 : 0) | number << 14);
        pastrulow_put_word(image + place + 8, base | 0xf);
    }
}

static void hold_records(unsigned records)
{
    pastrulow_journal_clear(journal, sizeof journal);
    for (uint64_t page = 0; page < records; page++)
        pastrulow_journal_report(journal, sizeof journal, page * PASTRULOW_PAGE_BYTES, CODE, ROOT);
}

static void hold(enum held held)
{
    static const uint64_t pages[] = {[PAGE_4K] = 0x123, [PAGE_2M] = 0x212345, [PAGE_1G] = 0x40000010};
    unsigned round = held == FULL_OF_OTHERS ? 1 : 0;
    if (held == NOTHING)
        return;
    if (held >= RECORDS_63) {
        hold_records(held == RECORDS_63 ? 63 : 64);
        return;
    }
    if (held <= PAGE_1G) {
        pastrulow_translate(image, PASTRULOW_IMAGE_BYTES, low, GUEST_BYTES, lent_high, high_len, 0, pages[held], 1, record,
                            sizeof record);
        return;
    }
    hold_pages(0, 16, 0x5000, round, held == FULL_OF_GLOBAL);
    hold_pages(16, 8, 0x600000, round, held == FULL_OF_GLOBAL);
    hold_pages(24, 1, 0x40000000, round, held == FULL_OF_GLOBAL);
}

/* Where the table of a level stands. */
static uint64_t table_of(unsigned level, enum lent lent)
{
    bool in_high = lent == HIGH || (lent == MIXED && level % 2 == 1);
    return ROOT * (5 - level) + (in_high ? PASTRULOW_HIGH_BASE : 0);
}

static void put_entry(uint64_t table, unsigned number, uint64_t entry)
{
    pastrulow_put_word(pastrulow_page(low, GUEST_BYTES, high, GUEST_BYTES, table) + 8 * number, entry);
}

/* The part of document 01's trial guest that the operations use, with every accessed bit set or with none; its first page 64
   times, so that as many pairs can miss. */
static void put_tables(enum lent lent, uint64_t accessed)
{
    put_entry(table_of(4, lent), 0, table_of(3, lent) | 7 | accessed);
    put_entry(table_of(3, lent), 0, table_of(2, lent) | 7 | accessed);
    put_entry(table_of(3, lent), 1, 0x40000083 | accessed);
    put_entry(table_of(2, lent), 0, table_of(1, lent) | 7 | accessed);
    put_entry(table_of(2, lent), 1, 0x600087 | accessed);
    for (unsigned i = 0; i < PASTRULOW_PAIRS_MAX; i++)
        put_entry(table_of(1, lent), i, 0x5003 | accessed);
}

static void set_up(const struct operation *operation)
{
    size_t image_len = PASTRULOW_IMAGE_BYTES;
    enum lent lent = operation->lent;
    image = images + (lent == UNALIGNED ? 8 : 0);
    lent_high = lent < LOW_AND_HIGH ? NULL : high;
    high_len = lent < LOW_AND_HIGH ? 0 : GUEST_BYTES;
    put_tables(lent, operation->restored == IMAGE_AND_TABLES ? 0 : 0x20);
    put_pairs(operation);
    pastrulow_start(image, image_len, 40, record, sizeof record);
    pastrulow_write_cr3(image, image_len, table_of(4, lent), record, sizeof record);
    pastrulow_write_mode(image, image_len, operation->flags, record, sizeof record);
    hold(operation->held);
    memcpy(kept, image, image_len);
    memcpy(tables, memory, sizeof memory);
    memcpy(kept_journal, journal, sizeof journal);
}

static void restore(enum restored restored)
{
    if (restored == IMAGE || restored == IMAGE_AND_TABLES)
        memcpy(image, kept, PASTRULOW_IMAGE_BYTES);
    if (restored == IMAGE_AND_TABLES)
        memcpy(memory, tables, sizeof memory);
    if (restored == JOURNAL)
        memcpy(journal, kept_journal, sizeof journal);
}

static bool record_is(const uint8_t *bytes, const uint64_t *expected)
{
    struct pastrulow_answer answer = pastrulow_read_answer(bytes);
    return answer.kind == expected[0] && answer.value == expected[1] && answer.size == expected[2] &&
           answer.read == expected[3];
}

static bool journal_is(const uint64_t *expected)
{
    struct pastrulow_journal_counts counts = pastrulow_read_journal_counts(journal);
    struct pastrulow_journal_record last = pastrulow_read_journal_record(journal, PASTRULOW_JOURNAL_RECORDS - 1);
    return counts.held == expected[0] && counts.lost == expected[1] && counts.reports == expected[2] &&
           last.repeats == expected[3];
}

static bool as_expected(const struct operation *operation)
{
    uint64_t refusal = make(&full, operation);
    bool of_journal = operation->name >= CLEAR;
    uint64_t count = pairs_of(operation);
    const uint8_t *last = count == 0 ? record : records + (count - 1) * PASTRULOW_ANSWER_BYTES;
    bool right = of_journal ? journal_is(operation->expected) : record_is(last, operation->expected);
    restore(of_journal ? JOURNAL : IMAGE);
    return refusal == 0 && right;
}

int main(int count, char **arguments)
{
    if (count != 4) {
        for (unsigned i = 0; i < OPERATIONS; i++)
            printf("%" PRIu64 " %s\n", pairs_of(&operations[i]), operations[i].title);
        return 0;
    }
    const struct operation *operation = &operations[strtoul(arguments[1], NULL, 10) % OPERATIONS];
    unsigned long times = strtoul(arguments[2], NULL, 10);
    const struct door *door = strcmp(arguments[3], "call") == 0 ? &full : &empty;
    set_up(operation);
    if (!as_expected(operation)) {
        printf("%s: not as expected\n", operation->title);
        return 1;
    }
    for (unsigned long i = 0; i < times; i++) {
        restore(operation->restored);
        make(door, operation);
    }
    return 0;
}
