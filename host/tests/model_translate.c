/* The model: translate. */
#include "model.h"

#include "model_parts.h"

/* The first match, or SLOTS if there is none. Slots stand in the order of size, then way. */
static unsigned first_match(const struct state *state, uint64_t address)
{
    unsigned number = 0;
    while (number < SLOTS && !slot_matches(state, number, address))
        number++;
    return number;
}

static bool serves(const struct state *state, struct access access, unsigned number)
{
    struct slot slot = state->slots[number];
    if (!allows(state, access, slot_rights(slot))) {
        event(EVENT_MATCH_BARRED);
        if (slot_rights(slot).user && kept_off(state, access))
            event(access.fetch ? EVENT_MATCH_SMEP : EVENT_MATCH_SMAP);
        return false;
    }
    if (access.write && !slot_dirty(slot)) {
        event(EVENT_MATCH_CLEAN);
        return false;
    }
    return true;
}

static void count_hit(const struct state *state, struct access access, uint64_t address, unsigned number)
{
    struct slot slot = state->slots[number];
    event(EVENT_HIT_4K + slot_size(number));
    batch_hits(number);
    if (slot_pcid(slot) != current_pcid(state))
        event(EVENT_HIT_GLOBAL_OTHER);
    if (access.write)
        event(slot_rights(slot).writable ? EVENT_HIT_WRITE : EVENT_HIT_FALSE_WP);
    if (state->smap && access.ac && !access.user && !access.fetch && slot_rights(slot).user)
        event(EVENT_HIT_AC);
    for (unsigned i = number + 1; i < SLOTS; i++)
        if (slot_matches(state, i, address)) {
            event(EVENT_HIT_SECOND);
            return;
        }
}

static void answer_hit(const struct state *state, uint64_t address, unsigned number, uint8_t *answer)
{
    static const unsigned low[SIZES] = {12, 21, 30};
    unsigned size = slot_size(number);
    uint64_t base = bits(state->slots[number].data, 51, low[size]) << low[size];
    put_answer(answer, ADDRESS, base | address % page_length(size), page_length(size), 0);
}

static void drop_matches(struct state *state, uint64_t address)
{
    unsigned dropped = 0;
    bool matches[SLOTS];
    for (unsigned i = 0; i < SLOTS; i++)
        matches[i] = slot_matches(state, i, address);
    for (unsigned i = 0; i < SLOTS; i++)
        if (matches[i]) {
            event(EVENT_MISS_DROP_4K + slot_size(i));
            drop(state, i);
            dropped++;
        }
    if (dropped > 1)
        event(EVENT_MISS_DROP_SEVERAL);
}

static void count_fetch_fault(const struct state *state, enum cause cause)
{
    enum event first = EVENT_FETCH_UNTOLD_ABSENT;
    if (state->nxe)
        first = EVENT_FETCH_TOLD_ABSENT;
    else if (state->smep)
        first = EVENT_FETCH_BY_SMEP_ABSENT;
    event(first + (cause - NOT_PRESENT));
}

static uint64_t fault_code(const struct state *state, struct access access, enum cause cause)
{
    if (access.fetch)
        count_fetch_fault(state, cause);
    bool fetch_told = access.fetch && (state->nxe || state->smep);
    return (uint64_t)(cause != NOT_PRESENT) | (uint64_t)access.write << 1 | (uint64_t)access.user << 2 |
           (uint64_t)(cause == RESERVED) << 3 | (uint64_t)fetch_told << 4;
}

static void translate_paged(struct state *state, struct memory memory, struct access access, uint64_t address,
                            uint8_t *answer)
{
    unsigned number = first_match(state, address);
    if (number < SLOTS && serves(state, access, number)) {
        count_hit(state, access, address, number);
        answer_hit(state, address, number, answer);
        return;
    }
    drop_matches(state, address);
    struct walked walked = walk(state, memory, access, address);
    if (walked.cause != NO_FAULT) {
        put_answer(answer, FAULT, fault_code(state, access, walked.cause), 0, walked.read);
        return;
    }
    if (walked.dirty && !access.write)
        event(EVENT_FILL_DIRTY_READ);
    fill(state, address, walked);
    uint64_t length = page_length(walked.size);
    put_answer(answer, ADDRESS, walked.base + address % length, length, walked.read);
}

uint64_t model_translate(uint8_t *image, size_t image_len, uint8_t *low, size_t low_len, uint8_t *high, size_t high_len,
                         uint64_t kind, uint64_t address, uint64_t ac, uint8_t *answer, size_t answer_len)
{
    struct memory memory = {low, high, low_len, high_len};
    enum event which;
    if (answer_len != 32)
        return refused(answer, 1, EVENT_TRANSLATE_1);
    if (bad_image(image, image_len))
        return refused(answer, 2, EVENT_TRANSLATE_2);
    if (kind > 5)
        return refused(answer, 3, EVENT_TRANSLATE_3);
    if (memory_refused(memory, &which))
        return refused(answer, 4, which);
    struct state state = decode(image);
    if (state.pg && !canonical(address))
        return refused(answer, 5, EVENT_TRANSLATE_5_ON);
    if (!state.pg && address > UINT32_MAX)
        return refused(answer, 5, EVENT_TRANSLATE_5_OFF);
    if (!state.pg) {
        event(EVENT_PAGING_OFF);
        put_answer(answer, ADDRESS, address, 0, 0);
        return 0;
    }
    struct access access = {kind % 3 == 1, kind % 3 == 2, kind >= 3, ac != 0};
    count_memory(memory);
    translate_paged(&state, memory, access, address, answer);
    encode(&state, image);
    return 0;
}
