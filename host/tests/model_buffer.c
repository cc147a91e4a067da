/* The model: the translation buffer. */
#include "model_parts.h"

uint64_t page_length(unsigned size)
{
    static const uint64_t lengths[SIZES] = {4096, 2097152, 1073741824};
    return lengths[size];
}

/* Sets of each size, and the number of its first one among all 25. */
static const unsigned sets_of[SIZES] = {16, 8, 1};
static const unsigned first_set[SIZES] = {0, 16, 24};

static uint64_t page_number(uint64_t address, unsigned size)
{
    return bits(address, 47, 0) / page_length(size);
}

static unsigned set_of(uint64_t address, unsigned size)
{
    return first_set[size] + (unsigned)(page_number(address, size) % sets_of[size]);
}

uint64_t current_pcid(const struct state *state)
{
    return state->pcide ? bits(state->cr3, 11, 0) : 0;
}

bool slot_held(struct slot slot)
{
    return bit(slot.tag, 0);
}

bool slot_global(struct slot slot)
{
    return bit(slot.tag, 1);
}

uint64_t slot_pcid(struct slot slot)
{
    return bits(slot.tag, 13, 2);
}

struct rights slot_rights(struct slot slot)
{
    struct rights rights = {bit(slot.data, 0), bit(slot.data, 1), bit(slot.data, 2)};
    return rights;
}

bool slot_dirty(struct slot slot)
{
    return bit(slot.data, 3);
}

unsigned slot_size(unsigned number)
{
    unsigned set = number / WAYS;
    return set < first_set[1] ? 0 : set < first_set[2] ? 1 : 2;
}

bool slot_in_place(const struct state *state, unsigned number, uint64_t address)
{
    unsigned size = slot_size(number);
    return number / WAYS == set_of(address, size) && bits(state->slots[number].tag, 49, 14) == page_number(address, size);
}

bool slot_matches(const struct state *state, unsigned number, uint64_t address)
{
    struct slot slot = state->slots[number];
    return slot_held(slot) && slot_in_place(state, number, address) &&
           (slot_global(slot) || slot_pcid(slot) == current_pcid(state));
}

void drop(struct state *state, unsigned number)
{
    struct slot *slot = &state->slots[number];
    if (!slot_held(*slot) && (slot->tag != 0 || slot->data != 0))
        event(EVENT_DROP_NOT_HELD);
    batch_drops(number);
    slot->tag = 0;
    slot->data = 0;
}

static void count_fill(const struct state *state, unsigned first, unsigned way, struct walked page)
{
    event(EVENT_FILL_4K + page.size);
    if (page.global)
        event(EVENT_FILL_GLOBAL);
    if (!page.dirty)
        event(EVENT_FILL_CLEAN);
    for (unsigned after = way + 1; after < WAYS; after++)
        if (!slot_held(state->slots[first + way]) && slot_held(state->slots[first + after])) {
            event(EVENT_FILL_GAP);
            return;
        }
}

/* The set's victim, whose number moves on by one. */
static unsigned take_victim(struct state *state, unsigned set, unsigned size)
{
    unsigned victim = (unsigned)bits(state->victims, 2 * set + 1, 2 * set);
    uint64_t next = (victim + 1) % WAYS;
    state->victims &= ~(UINT64_C(3) << 2 * set);
    state->victims |= next << 2 * set;
    event(EVENT_EVICT_4K + size);
    batch_evicts(WAYS * set + victim);
    if (next == 0)
        event(EVENT_VICTIM_WRAPS);
    return victim;
}

void fill(struct state *state, uint64_t address, struct walked page)
{
    unsigned set = set_of(address, page.size);
    unsigned first = WAYS * set;
    unsigned way = 0;
    while (way < WAYS && slot_held(state->slots[first + way]))
        way++;
    if (way == WAYS)
        way = take_victim(state, set, page.size);
    count_fill(state, first, way, page);
    batch_fills(first + way);
    struct slot *slot = &state->slots[first + way];
    slot->tag = 1 | (uint64_t)page.global << 1 | current_pcid(state) << 2 | page_number(address, page.size) << 14;
    slot->data = (uint64_t)page.rights.writable | (uint64_t)page.rights.user << 1 |
                 (uint64_t)page.rights.executable << 2 | (uint64_t)page.dirty << 3 | page.base;
}
