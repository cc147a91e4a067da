/* Guest memory of fitting and of other lengths, low at its limit among them, with a table at each end of both slices. */
#include <string.h>

#include "check.h"
#include "machine.h"
#include "sparse.h"

/* A short slice, and the longest, whose length has the same low 32 bits. */
enum { SLICE = 2 * PASTRULOW_PAGE_BYTES };
#define LONGEST (PASTRULOW_HIGH_BASE + SLICE)

static struct machine machine;
static uint8_t answer[PASTRULOW_ANSWER_BYTES];

static void set_lengths(size_t low_len, size_t high_len)
{
    machine.low_len = low_len;
    machine.high_len = high_len;
}

/* Paging on with this root. */
static void begin(uint64_t root)
{
    check("start", machine_start(&machine, 52).kind, PASTRULOW_DONE);
    check("CR3 write", machine_write_cr3(&machine, root).kind, PASTRULOW_DONE);
    check("mode write", machine_write_mode(&machine, PASTRULOW_PG | PASTRULOW_NXE).kind, PASTRULOW_DONE);
}

static void gives(uint64_t address, uint64_t value, uint64_t size, uint64_t read)
{
    struct pastrulow_answer came = machine_translate(&machine, PASTRULOW_READ, address, 0);
    check("kind", came.kind, PASTRULOW_ADDRESS);
    check("value", came.value, value);
    check("size", came.size, size);
    check("read", came.read, read);
}

static void is_refused(struct pastrulow_answer came, uint64_t number)
{
    check("kind", came.kind, PASTRULOW_REFUSED);
    check("value", came.value, number);
    check("size", came.size, 0);
    check("read", came.read, 0);
}

/* Alone and as a pair; image and slices stay as they are. */
static void refuses(uint64_t kind, uint64_t address, uint64_t number)
{
    static uint8_t image_before[PASTRULOW_IMAGE_BYTES], low_before[SLICE], high_before[SLICE];
    uint8_t pair[PASTRULOW_PAIR_BYTES];
    memcpy(image_before, machine.image, sizeof image_before);
    memcpy(low_before, machine.low, SLICE);
    memcpy(high_before, machine.high, SLICE);
    is_refused(machine_translate(&machine, kind, address, 0), number);
    pastrulow_put_pair(pair, 0, kind, address);
    check("translate many",
          pastrulow_translate_many(machine.image, sizeof machine.image, machine.low, machine.low_len, machine.high,
                                   machine.high_len, pair, sizeof pair, answer, sizeof answer),
          0);
    is_refused(pastrulow_read_answer(answer), number);
    check("image", memcmp(machine.image, image_before, sizeof image_before) != 0, 0);
    check("low", memcmp(machine.low, low_before, SLICE) != 0, 0);
    check("high", memcmp(machine.high, high_before, SLICE) != 0, 0);
}

/* Two entries, the first in low and the second, of a page of 1 GiB, in high, which no walk has marked yet. */
static void put_entries(void)
{
    set_lengths(SLICE, SLICE);
    machine_put_word(&machine, 0, PASTRULOW_HIGH_BASE | 3);
    machine_put_word(&machine, PASTRULOW_HIGH_BASE, 0x83);
}

static void takes_slices(size_t low_len, size_t high_len)
{
    put_entries();
    set_lengths(low_len, high_len);
    begin(0);
    gives(0x123, 0x123, 0x40000000, 2);
    check("mark in low", machine_word(&machine, 0), PASTRULOW_HIGH_BASE | 0x23);
    check("mark in high", machine_word(&machine, PASTRULOW_HIGH_BASE), 0xa3);
    refuses(PASTRULOW_READ, UINT64_C(1) << 47, 5);
}

/* Refusal 4 comes after 2 and 3 and before 5, with paging on and off. */
static void refuses_slices(size_t low_len, size_t high_len)
{
    put_entries();
    set_lengths(low_len, high_len);
    begin(0);
    refuses(PASTRULOW_READ, 0, 4);
    refuses(PASTRULOW_READ, UINT64_C(1) << 47, 4);
    refuses(6, 0, 3);
    refuses(6, UINT64_C(1) << 47, 3);
    check("no image", pastrulow_translate(NULL, 0, machine.low, low_len, machine.high, high_len, 0, 0, 0, answer, 32), 2);
    check("start", machine_start(&machine, 52).kind, PASTRULOW_DONE);
    refuses(PASTRULOW_READ, 0, 4);
    refuses(PASTRULOW_READ, PASTRULOW_HIGH_BASE, 4);
}

static void ragged_slices(void)
{
    takes_slices(SLICE, SLICE);
    for (size_t length = 1; length < SLICE; length++)
        if (length % PASTRULOW_PAGE_BYTES != 0) {
            refuses_slices(length, SLICE);
            refuses_slices(SLICE, length);
        }
    refuses_slices(1, 0);
    refuses_slices(0, 1);
    refuses_slices(SLICE - 1, SLICE + 1);
}

/* Low at its limit and above, also by so much that the low 32 bits of its length would do. High has no limit. */
static void low_limit(void)
{
    takes_slices(PASTRULOW_LOW_MAX, SLICE);
    refuses_slices(PASTRULOW_LOW_MAX + 1, SLICE);
    refuses_slices(PASTRULOW_LOW_MAX + PASTRULOW_PAGE_BYTES, SLICE);
    refuses_slices(PASTRULOW_LOW_MAX + PASTRULOW_PAGE_BYTES, 0);
    refuses_slices(PASTRULOW_LOW_MAX + PASTRULOW_PAGE_BYTES, SLICE + 1);
    refuses_slices(PASTRULOW_HIGH_BASE, SLICE);
    refuses_slices(LONGEST, SLICE);
    takes_slices(PASTRULOW_LOW_MAX, PASTRULOW_LOW_MAX + PASTRULOW_PAGE_BYTES);
    takes_slices(SLICE, LONGEST);
    refuses_slices(SLICE, LONGEST - 1);
}

/* A table that by its first and its last entry leads to itself at all four levels. */
static void walks_inside(uint64_t table)
{
    uint64_t last = table + PASTRULOW_PAGE_BYTES - 8;
    machine_put_word(&machine, table, table | 3);
    machine_put_word(&machine, last, table | 3);
    begin(table);
    gives(0x123, table | 0x123, PASTRULOW_PAGE_BYTES, 4);
    gives(UINT64_MAX, table | 0xfff, PASTRULOW_PAGE_BYTES, 4);
    check("first entry marked", machine_word(&machine, table), table | 0x23);
    check("last entry marked", machine_word(&machine, last), table | 0x23);
}

/* All ones, as an entry at level 4, have a reserved bit. */
static void root_outside(uint64_t table)
{
    begin(table);
    struct pastrulow_answer came = machine_translate(&machine, PASTRULOW_READ, UINT64_MAX, 0);
    check("kind", came.kind, PASTRULOW_FAULT);
    check("value", came.value, PASTRULOW_CODE_PRESENT | PASTRULOW_CODE_RESERVED);
    check("read", came.read, 1);
}

/* At level 1 they are the entry of the highest page. The tables above stand in a page that is inside, and are that page. */
static void last_table_outside(uint64_t inside, uint64_t table)
{
    machine_put_word(&machine, inside, inside | 3);
    machine_put_word(&machine, inside + 8, table | 3);
    begin(inside);
    gives(0x200fff, (UINT64_C(1) << 52) - 1, PASTRULOW_PAGE_BYTES, 4);
}

static void walks_outside(uint64_t table)
{
    root_outside(table);
    if (machine.low_len > 0)
        last_table_outside(0, table);
    if (machine.high_len > 0)
        last_table_outside(PASTRULOW_HIGH_BASE, table);
}

/* Tables in the first and in the last page of each slice, at its end, just below 4 GiB, and in the highest page. */
static void walks_at_ends(size_t low_len, size_t high_len)
{
    uint64_t high_end = PASTRULOW_HIGH_BASE + high_len, page = PASTRULOW_PAGE_BYTES;
    set_lengths(low_len, high_len);
    walks_outside(low_len);
    walks_outside(PASTRULOW_HIGH_BASE - page);
    walks_outside(high_end);
    walks_outside((UINT64_C(1) << 52) - page);
    if (low_len > 0) {
        walks_inside(0);
        walks_inside(low_len - page);
    }
    if (high_len > 0) {
        walks_inside(PASTRULOW_HIGH_BASE);
        walks_inside(high_end - page);
    }
}

static void ends_of_slices(void)
{
    static const size_t lows[] = {0, PASTRULOW_PAGE_BYTES, SLICE, PASTRULOW_LOW_MAX};
    static const size_t highs[] = {0, PASTRULOW_PAGE_BYTES, SLICE, PASTRULOW_LOW_MAX + PASTRULOW_PAGE_BYTES, LONGEST};
    for (size_t i = 0; i < sizeof lows / sizeof *lows; i++)
        for (size_t j = 0; j < sizeof highs / sizeof *highs; j++)
            walks_at_ends(lows[i], highs[j]);
}

int main(void)
{
    machine.low = sparse(LONGEST);
    machine.high = sparse(LONGEST);
    ragged_slices();
    low_limit();
    ends_of_slices();
    return checked("slices");
}
