/* A random guest: page tables in a few pages of its memory, and the addresses that lead through them. */
#ifndef GUEST_H
#define GUEST_H

#include "random.h"

enum {
    GUEST_PAGES_MAX = 8,
    GUEST_SLICE = 4096 * GUEST_PAGES_MAX, /* bytes of low, and of high, if the machine has it */
    GUEST_INDEXES = 4,
    GUEST_FAVOURITES = 24,
    GUEST_PCIDS = 4
};

struct guest {
    uint64_t width;
    bool low, high;                    /* the slices of guest memory that the machine has */
    unsigned pages;                    /* of guest memory that hold tables */
    uint64_t places[GUEST_PAGES_MAX];  /* their physical addresses */
    bool layered;                      /* each page serves one level; otherwise any entry leads to any page, its own too */
    bool large_often;                  /* most entries of levels 3 and 2 are pages */
    uint64_t flags;                    /* the flags that mode writes mostly ask for */
    unsigned indexes[GUEST_INDEXES];   /* the only ones with entries in a table */
    uint64_t favourites[GUEST_FAVOURITES];
    uint64_t pcids[GUEST_PCIDS];
};

/* A guest with low alone. */
struct guest guest_make(struct random *random);
/* Gives most guests high, and puts tables there: all of them, and takes low away, or each by chance. */
void guest_spread(struct random *random, struct guest *guest);
/* Has all entries of all tables stored, in memory that is zero. */
void guest_tables(struct random *random, const struct guest *guest, void (*store)(uint64_t address, uint64_t word));
/* An entry for a table in this page, and the place of one that walks read. */
uint64_t guest_entry(struct random *random, const struct guest *guest, unsigned page);
uint64_t guest_entry_place(struct random *random, const struct guest *guest, unsigned *page);
/* An address, mostly a favourite or near one; now and then not canonical. */
uint64_t guest_address(struct random *random, const struct guest *guest);
/* A value for CR3: mostly the root with one of the PCIDs. */
uint64_t guest_cr3(struct random *random, const struct guest *guest);

#endif
