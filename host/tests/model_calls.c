/* The model: refusals, and the six calls that are lent no guest memory. */
#include "model.h"

#include "model_parts.h"

void put_answer(uint8_t *answer, uint64_t kind, uint64_t value, uint64_t size, uint64_t read)
{
    put_word(answer, kind);
    put_word(answer + 8, value);
    put_word(answer + 16, size);
    put_word(answer + 24, read);
}

uint64_t refused(uint8_t *answer, uint64_t number, enum event which)
{
    event(which);
    if (number != 1)
        put_answer(answer, REFUSED, number, 0, 0);
    return number;
}

static uint64_t done(uint8_t *image, const struct state *state, uint8_t *answer)
{
    encode(state, image);
    put_answer(answer, DONE, 0, 0, 0);
    return 0;
}

static bool width_allowed(uint64_t width)
{
    return width >= 36 && width <= 52;
}

unsigned image_flaws(const uint8_t *image, size_t image_len)
{
    if (image_len != 2048)
        return 1;
    struct state state = decode(image);
    bool bad_rest = false;
    for (unsigned i = 0; i < REST_WORDS; i++)
        bad_rest = bad_rest || state.rest[i] != 0;
    bool bad_flags = bits(state.flags, 63, 7) != 0;
    bool bad_victims = bits(state.victims, 63, 50) != 0;
    return (unsigned)!width_allowed(state.width) << 1 | (unsigned)bad_flags << 2 | (unsigned)bad_victims << 3 |
           (unsigned)bad_rest << 4;
}

bool bad_image(const uint8_t *image, size_t image_len)
{
    unsigned flaws = image_flaws(image, image_len);
    for (unsigned i = 0; i < 5; i++)
        if (bit(flaws, i))
            event(EVENT_IMAGE_LENGTH + i);
    return flaws != 0;
}

/* Refusal 7: the first of its conditions that holds, in the order of its events. */
enum mode_flaw { NO_SUCH_FLAG, PCIDE_WITHOUT_PG, PCIDE_OVER_PCID, NO_MODE_FLAW };

static enum mode_flaw mode_flaw(const struct state *before, uint64_t flags)
{
    bool pg = bit(flags, 0), pcide = bit(flags, 3);
    if (flags > 127)
        return NO_SUCH_FLAG;
    if (pcide && !pg)
        return PCIDE_WITHOUT_PG;
    if (pcide && !before->pcide && bits(before->cr3, 11, 0) != 0)
        return PCIDE_OVER_PCID;
    return NO_MODE_FLAW;
}

/* What a start's flags are judged from: flags 0 and CR3 0. */
static const struct state all_zero;

/* What the plain start and the one with flags count, each for itself. */
struct start_events {
    enum event answer, length, width, done;
};

static uint64_t start(uint8_t *image, size_t image_len, uint64_t width, uint64_t flags, uint8_t *answer, size_t answer_len,
                      const struct start_events *events)
{
    if (answer_len != 32)
        return refused(answer, 1, events->answer);
    if (image_len != 2048)
        return refused(answer, 2, events->length);
    if (!width_allowed(width))
        return refused(answer, 2, events->width);
    enum mode_flaw flaw = mode_flaw(&all_zero, flags);
    if (flaw != NO_MODE_FLAW)
        return refused(answer, 7, EVENT_START_WITH_7_VALUE + flaw);
    struct state state = {.width = width};
    set_flags(&state, flags);
    event(events->done);
    return done(image, &state, answer);
}

/* Write protect is on. */
uint64_t model_start(uint8_t *image, size_t image_len, uint64_t width, uint8_t *answer, size_t answer_len)
{
    static const struct start_events events = {EVENT_START_1, EVENT_START_2_LENGTH, EVENT_START_2_WIDTH, EVENT_START_DONE};
    return start(image, image_len, width, 2, answer, answer_len, &events);
}

/* Told is also whether a mode write of these flags would be refused for the CR3 that the image had. */
static void count_start_with(uint64_t flags, uint64_t refusal, bool over_pcid)
{
    if (refusal == 2 && mode_flaw(&all_zero, flags) != NO_MODE_FLAW)
        event(EVENT_START_WITH_2_AND_7);
    if (refusal != 0)
        return;
    if (bit(flags, 0))
        event(EVENT_START_WITH_PG);
    if (bit(flags, 3))
        event(EVENT_START_WITH_PCIDE);
    if (over_pcid)
        event(EVENT_START_WITH_OVER_PCID);
}

uint64_t model_start_with(uint8_t *image, size_t image_len, uint64_t width, uint64_t flags, uint8_t *answer, size_t answer_len)
{
    static const struct start_events events = {EVENT_START_WITH_1, EVENT_START_WITH_2_LENGTH, EVENT_START_WITH_2_WIDTH,
                                               EVENT_START_WITH_DONE};
    struct state before = image_len == 2048 ? decode(image) : all_zero;
    uint64_t refusal = start(image, image_len, width, flags, answer, answer_len, &events);
    count_start_with(flags, refusal, mode_flaw(&before, flags) == PCIDE_OVER_PCID);
    return refusal;
}

static void count_invlpg(const struct state *state, unsigned number)
{
    event(EVENT_INVLPG_DROP_4K + slot_size(number));
    if (slot_global(state->slots[number]))
        event(EVENT_INVLPG_DROP_GLOBAL);
}

uint64_t model_invlpg(uint8_t *image, size_t image_len, uint64_t address, uint8_t *answer, size_t answer_len)
{
    if (answer_len != 32)
        return refused(answer, 1, EVENT_INVLPG_1);
    if (bad_image(image, image_len))
        return refused(answer, 2, EVENT_INVLPG_2);
    struct state state = decode(image);
    if (!canonical(address)) {
        event(EVENT_INVLPG_OUTSIDE);
        return done(image, &state, answer);
    }
    for (unsigned i = 0; i < SLOTS; i++) {
        if (slot_matches(&state, i, address)) {
            count_invlpg(&state, i);
            drop(&state, i);
        } else if (slot_held(state.slots[i]) && slot_in_place(&state, i, address)) {
            event(EVENT_INVLPG_SPARES);
        }
    }
    return done(image, &state, answer);
}

/* Refusal 8. The event says which of its conditions holds; if several do, the first. */
static bool invpcid_refused(const struct state *state, uint64_t type, uint64_t pcid, uint64_t address, enum event *which)
{
    *which = EVENT_INVPCID_8_TYPE;
    if (type > 3)
        return true;
    *which = EVENT_INVPCID_8_PCID;
    if (pcid > 4095)
        return true;
    *which = EVENT_INVPCID_8_ADDRESS;
    if (type == 0 && !canonical(address))
        return true;
    *which = EVENT_INVPCID_8_OFF;
    return (type == 0 || type == 1) && !state->pcide && pcid != 0;
}

/* What INVPCID drops, global slots aside. */
static bool invpcid_names(const struct state *state, uint64_t type, uint64_t pcid, uint64_t address, unsigned number)
{
    bool of_pcid = slot_pcid(state->slots[number]) == pcid;
    switch (type) {
    case 0:
        return slot_in_place(state, number, address) && of_pcid;
    case 1:
        return of_pcid;
    default:
        return true;
    }
}

static void invpcid_slot(struct state *state, uint64_t type, uint64_t pcid, uint64_t address, unsigned number)
{
    static const enum event drops[4] = {EVENT_INVPCID_0_DROP, EVENT_INVPCID_1_DROP, EVENT_INVPCID_2_DROP,
                                        EVENT_INVPCID_3_DROP};
    static const enum event spares[4] = {EVENT_INVPCID_0_SPARES, EVENT_INVPCID_1_SPARES, EVENT_COUNT,
                                         EVENT_INVPCID_3_SPARES};
    bool held = slot_held(state->slots[number]);
    if (!invpcid_names(state, type, pcid, address, number))
        return;
    if (type != 2 && slot_global(state->slots[number])) {
        if (held)
            event(spares[type]);
        return;
    }
    if (held)
        event(drops[type]);
    drop(state, number);
}

uint64_t model_invpcid(uint8_t *image, size_t image_len, uint64_t type, uint64_t pcid, uint64_t address, uint8_t *answer,
                       size_t answer_len)
{
    if (answer_len != 32)
        return refused(answer, 1, EVENT_INVPCID_1);
    if (bad_image(image, image_len))
        return refused(answer, 2, EVENT_INVPCID_2);
    struct state state = decode(image);
    enum event which;
    if (invpcid_refused(&state, type, pcid, address, &which))
        return refused(answer, 8, which);
    for (unsigned i = 0; i < SLOTS; i++)
        invpcid_slot(&state, type, pcid, address, i);
    return done(image, &state, answer);
}

static void cr3_slot(struct state *state, unsigned number)
{
    struct slot slot = state->slots[number];
    bool current = slot_pcid(slot) == current_pcid(state);
    if (current && !slot_global(slot)) {
        if (slot_held(slot))
            event(EVENT_CR3_DROP);
        drop(state, number);
    } else if (slot_held(slot)) {
        event(current ? EVENT_CR3_SPARES_GLOBAL : EVENT_CR3_SPARES_OTHER);
    }
}

uint64_t model_write_cr3(uint8_t *image, size_t image_len, uint64_t value, uint8_t *answer, size_t answer_len)
{
    if (answer_len != 32)
        return refused(answer, 1, EVENT_CR3_1);
    if (bad_image(image, image_len))
        return refused(answer, 2, EVENT_CR3_2);
    struct state state = decode(image);
    if (bits(value, 62, (unsigned)state.width) != 0)
        return refused(answer, 6, EVENT_CR3_6_BITS);
    if (bit(value, 63) && !state.pcide)
        return refused(answer, 6, EVENT_CR3_6_KEEP);
    state.cr3 = bits(value, 62, 0);
    if (bit(value, 63)) {
        event(EVENT_CR3_KEEPS);
        return done(image, &state, answer);
    }
    for (unsigned i = 0; i < SLOTS; i++)
        cr3_slot(&state, i);
    return done(image, &state, answer);
}

static void drop_all(struct state *state)
{
    for (unsigned i = 0; i < SLOTS; i++) {
        if (slot_held(state->slots[i]))
            event(EVENT_MODE_DROP);
        drop(state, i);
    }
}

static void count_kept(const struct state *before, const struct state *after)
{
    if (after->wp != before->wp)
        event(EVENT_MODE_KEEPS);
    if (after->smep != before->smep)
        event(EVENT_MODE_KEEPS_SMEP);
    if (after->smap != before->smap)
        event(EVENT_MODE_KEEPS_SMAP);
}

uint64_t model_write_mode(uint8_t *image, size_t image_len, uint64_t flags, uint8_t *answer, size_t answer_len)
{
    if (answer_len != 32)
        return refused(answer, 1, EVENT_MODE_1);
    if (bad_image(image, image_len))
        return refused(answer, 2, EVENT_MODE_2);
    struct state before = decode(image);
    enum mode_flaw flaw = mode_flaw(&before, flags);
    if (flaw != NO_MODE_FLAW)
        return refused(answer, 7, EVENT_MODE_7_VALUE + flaw);
    struct state after = before;
    set_flags(&after, flags);
    if (after.pg != before.pg || after.pge != before.pge || after.pcide != before.pcide || after.nxe != before.nxe)
        drop_all(&after);
    else
        count_kept(&before, &after);
    return done(image, &after, answer);
}
