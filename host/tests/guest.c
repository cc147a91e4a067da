#include "guest.h"

#include "pastrulow.h"

enum { PRESENT = 1, WRITABLE = 2, USER = 4, LARGE = 0x80, GLOBAL = 0x100 };

static uint64_t low_bits(uint64_t word, unsigned count)
{
    return word & ((UINT64_C(1) << count) - 1);
}

static unsigned pages_a_level(const struct guest *guest)
{
    return guest->pages >= 8 ? 2 : 1;
}

/* The level that a page's entries are meant for if tables are layered: the root's pages first. */
static unsigned level_of(const struct guest *guest, unsigned page)
{
    unsigned layer = page / pages_a_level(guest);
    return layer < 3 ? 4 - layer : 1;
}

static unsigned next_page(struct random *random, const struct guest *guest, unsigned page)
{
    if (!guest->layered)
        return (unsigned)random_below(random, guest->pages);
    unsigned each = pages_a_level(guest);
    return (5 - level_of(guest, page)) * each + (unsigned)random_below(random, each);
}

static uint64_t rights_and_marks(struct random *random)
{
    uint64_t entry = PRESENT;
    if (random_percent(random, 88))
        entry |= WRITABLE;
    if (random_percent(random, 88))
        entry |= USER;
    entry |= random_word(random) & 0x60; /* accessed, dirty */
    if (random_percent(random, 35))
        entry |= GLOBAL;
    if (random_percent(random, 30))
        entry |= random_word(random) & UINT64_C(0x7ff0000000000e18); /* bits that no rule looks at */
    if (random_percent(random, 5))
        entry |= UINT64_C(1) << 63;
    return entry;
}

static uint64_t large_page(struct random *random, const struct guest *guest, unsigned level)
{
    unsigned from = level == 3 ? 30 : 21;
    uint64_t base = low_bits(random_word(random), (unsigned)guest->width) >> from << from;
    return base | LARGE | (random_word(random) & 0x1000);
}

/* One bit that is, or at some level would be, reserved. */
static uint64_t reserved_bit(struct random *random, const struct guest *guest)
{
    switch (random_below(random, 4)) {
    case 0:
        return UINT64_C(1) << 63;
    case 1:
        return guest->width < 52 ? UINT64_C(1) << (guest->width + random_below(random, 52 - guest->width)) : LARGE;
    case 2:
        return LARGE | UINT64_C(1) << (13 + random_below(random, 17));
    default:
        return LARGE;
    }
}

/* A page at an end of a slice, inside or out, be that of GUEST_SLICE bytes or far longer; without high only at low's end. */
static uint64_t edge(struct random *random, const struct guest *guest)
{
    static const uint64_t edges[] = {0,
                                     GUEST_SLICE - 4096,
                                     GUEST_SLICE,
                                     PASTRULOW_LOW_MAX - 4096,
                                     PASTRULOW_LOW_MAX,
                                     PASTRULOW_HIGH_BASE - 4096,
                                     PASTRULOW_HIGH_BASE,
                                     PASTRULOW_HIGH_BASE + GUEST_SLICE - 4096,
                                     PASTRULOW_HIGH_BASE + GUEST_SLICE,
                                     2 * PASTRULOW_HIGH_BASE};
    return guest->high ? edges[random_below(random, sizeof edges / sizeof *edges)] : GUEST_SLICE;
}

static uint64_t table_or_page(struct random *random, const struct guest *guest, unsigned page)
{
    unsigned level = guest->layered ? level_of(guest, page) : (unsigned)(1 + random_below(random, 4));
    uint64_t far = low_bits(random_word(random), (unsigned)guest->width) & ~UINT64_C(0xfff);
    if ((level == 3 || level == 2) && random_percent(random, guest->large_often ? 80 : 20))
        return large_page(random, guest, level);
    if (random_percent(random, guest->high ? 6 : 3))
        return random_percent(random, 50) ? far : edge(random, guest);
    if (guest->layered && level == 1)
        return far | (random_word(random) & LARGE);
    return guest->places[next_page(random, guest, page)];
}

uint64_t guest_entry(struct random *random, const struct guest *guest, unsigned page)
{
    uint64_t entry = table_or_page(random, guest, page) | rights_and_marks(random);
    if (random_percent(random, 4))
        entry &= ~(uint64_t)PRESENT;
    if (random_percent(random, 3))
        entry |= reserved_bit(random, guest);
    return entry;
}

uint64_t guest_entry_place(struct random *random, const struct guest *guest, unsigned *page)
{
    *page = (unsigned)random_below(random, guest->pages);
    return guest->places[*page] + 8 * guest->indexes[random_below(random, GUEST_INDEXES)];
}

void guest_tables(struct random *random, const struct guest *guest, void (*store)(uint64_t address, uint64_t word))
{
    for (unsigned page = 0; page < guest->pages; page++)
        for (unsigned i = 0; i < GUEST_INDEXES; i++)
            store(guest->places[page] + 8 * guest->indexes[i], guest_entry(random, guest, page));
}

static uint64_t address_by_indexes(struct random *random, const struct guest *guest)
{
    uint64_t address = 0;
    for (unsigned level = 0; level < 4; level++)
        address = address << 9 | guest->indexes[random_below(random, GUEST_INDEXES)];
    address = address << 12 | random_below(random, 4096);
    return address >> 47 & 1 ? address | UINT64_C(0xffff000000000000) : address;
}

static uint64_t odd_address(struct random *random)
{
    static const uint64_t edges[] = {0, UINT64_MAX, UINT32_MAX, UINT64_C(1) << 32, (UINT64_C(1) << 47) - 1, UINT64_C(1) << 47,
                                     UINT64_C(0xffff7fffffffffff), UINT64_C(0xffff800000000000), UINT64_C(1) << 63};
    if (random_percent(random, 30))
        return random_word(random);
    return edges[random_below(random, sizeof edges / sizeof *edges)];
}

uint64_t guest_address(struct random *random, const struct guest *guest)
{
    uint64_t which = random_below(random, 100);
    if (which < 3)
        return odd_address(random);
    if (which < 5)
        return guest->favourites[0] ^ UINT64_C(1) << (47 + random_below(random, 17)); /* mostly not canonical */
    if (which < 8)
        return random_below(random, UINT64_C(1) << 32);
    if (which < 20)
        return address_by_indexes(random, guest);
    unsigned among = random_percent(random, 60) ? 5 : GUEST_FAVOURITES;
    uint64_t address = guest->favourites[random_below(random, among)];
    return random_percent(random, 30) ? address ^ random_below(random, 4096) : address;
}

uint64_t guest_cr3(struct random *random, const struct guest *guest)
{
    uint64_t value = guest->pcids[random_below(random, GUEST_PCIDS)];
    unsigned roots = guest->layered ? pages_a_level(guest) : guest->pages;
    value |= guest->places[random_below(random, roots)];
    uint64_t which = random_below(random, 100);
    if (which < 1)
        value |= low_bits(random_word(random), (unsigned)guest->width); /* a root outside memory */
    if (which == 1 && guest->high)
        value = (value & PASTRULOW_CR3_PCID) | edge(random, guest); /* a root where a slice ends */
    if (which == 2)
        value |= UINT64_C(1) << (guest->width + random_below(random, 63 - guest->width));
    if (which >= 3 && which < (guest->flags & PASTRULOW_PCIDE ? 30 : 6))
        value |= PASTRULOW_CR3_KEEP;
    return value;
}

struct guest guest_make(struct random *random)
{
    struct guest guest = {.low = true, .pages = (unsigned)(4 + random_below(random, GUEST_PAGES_MAX - 3))};
    for (unsigned page = 0; page < GUEST_PAGES_MAX; page++)
        guest.places[page] = UINT64_C(4096) * page;
    guest.width = random_percent(random, 25) ? 52 : 36 + random_below(random, 17);
    guest.layered = random_percent(random, 60);
    guest.large_often = guest.layered && random_percent(random, 50);
    guest.flags = PASTRULOW_PG | random_below(random, 32);
    if (random_percent(random, 60))
        guest.flags |= PASTRULOW_NXE;
    if (random_percent(random, 35))
        guest.flags |= PASTRULOW_SMEP;
    if (random_percent(random, 35))
        guest.flags |= PASTRULOW_SMAP;
    bool one_set = random_percent(random, 50); /* indexes alike modulo the number of sets */
    for (unsigned i = 0; i < GUEST_INDEXES; i++)
        guest.indexes[i] = (unsigned)(one_set && i > 0 ? (guest.indexes[0] + 16 * random_below(random, 32)) % 512
                                                       : random_below(random, 512));
    for (unsigned i = 0; i < GUEST_FAVOURITES; i++)
        guest.favourites[i] = address_by_indexes(random, &guest);
    guest.pcids[1] = 1;
    guest.pcids[2] = 4095;
    guest.pcids[3] = random_below(random, 4096);
    if (!(guest.flags & PASTRULOW_PCIDE) && random_percent(random, 80))
        guest.pcids[1] = guest.pcids[2] = guest.pcids[3] = 0;
    return guest;
}

void guest_spread(struct random *random, struct guest *guest)
{
    uint64_t which = random_below(random, 100);
    if (which < 15)
        return;
    guest->high = true;
    guest->low = which >= 30;
    uint64_t turn = random_below(random, GUEST_PAGES_MAX); /* so that any page of a slice may be the first table's */
    for (unsigned page = 0; page < GUEST_PAGES_MAX; page++) {
        guest->places[page] = 4096 * ((page + turn) % GUEST_PAGES_MAX);
        if (!guest->low || random_percent(random, 50))
            guest->places[page] += PASTRULOW_HIGH_BASE;
    }
}
