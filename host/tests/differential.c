/*
 * The translator's calls, the archive against the model of the paper, on random sequences of them: return, records, image,
 * both slices of guest memory and pairs are compared after each call, and the guard bytes around them.
 *
 *     differential [SEED [SEQUENCE [COUNT]]]
 *
 * runs every sequence under a seed, or COUNT (1 if not given) from one on. A run over every sequence also prints how often
 * each thing that the paper speaks of happened, and fails if one never did.
 */
#include <inttypes.h>
#include <stdio.h>
#include <stdlib.h>

#include "call.h"
#include "events.h"
#include "guest.h"
#include "lent.h"
#include "pastrulow.h"

enum { SEQUENCES = 4200, STEPS = 250, DEFAULT_SEED = 1 };

static struct lent door_side, model_side;
static unsigned long calls, pairs;
static unsigned begun; /* of the three calls that a guest begins with, how many are made */

static void put_both_image(unsigned number, uint64_t word)
{
    lent_put_image_word(&door_side, number, word);
    lent_put_image_word(&model_side, number, word);
}

static void put_both_memory(uint64_t address, uint64_t word)
{
    lent_put_memory_word(&door_side, address, word);
    lent_put_memory_word(&model_side, address, word);
}

/* The words of a part that differ. */
static void print_words(const char *title, size_t part, unsigned words)
{
    for (unsigned i = 0; i < words; i++) {
        uint64_t door = pastrulow_word(door_side.bytes + part + 8 * i), model = pastrulow_word(model_side.bytes + part + 8 * i);
        if (door != model)
            printf("  %s word %u: archive 0x%" PRIx64 ", model 0x%" PRIx64 "\n", title, i, door, model);
    }
}

/* Runs one call on both sides and compares everything. */
static bool agree(const struct call *call)
{
    call_lend(call, &model_side);
    call_lend(call, &door_side);
    uint64_t from_model = call_model(call, &model_side);
    uint64_t from_door = call_door(call, &door_side);
    size_t at = lent_difference(&door_side, &model_side);
    calls++;
    pairs += from_model == 0 ? call_pairs(call) : 0;
    if ((call->name == START || call->name == START_WITH) && from_door == 0)
        begun = 1;
    if (from_door == from_model && at == LENT_BYTES)
        return true;
    printf("archive and model differ\n");
    call_print(call);
    printf("  returned: archive %" PRIu64 ", model %" PRIu64 "\n", from_door, from_model);
    if (at < LENT_BYTES) {
        char place[64];
        lent_describe(&door_side, at, place, sizeof place);
        printf("  first difference: %s\n", place);
    }
    print_words("answer", door_side.answers, LENT_ANSWERS / 8);
    print_words("image", door_side.image, LENT_IMAGE / 8);
    return false;
}

/* The host writes an entry that walks may read. */
static void edit_table(struct random *random, const struct guest *guest)
{
    unsigned page;
    uint64_t place = guest_entry_place(random, guest, &page);
    put_both_memory(place, guest_entry(random, guest, page));
}

/* A hand-made slot: for an address of the guest, in its own set or another, held or not, with bits that nothing reads. */
static void make_slot(struct random *random, const struct guest *guest)
{
    static const unsigned sets[3] = {16, 8, 1}, first[3] = {0, 16, 24}, length[3] = {12, 21, 30};
    uint64_t size = random_below(random, 3);
    uint64_t page = (guest_address(random, guest) & UINT64_C(0xffffffffffff)) >> length[size];
    uint64_t set = first[size] + (random_percent(random, 90) ? page : random_word(random)) % sets[size];
    uint64_t slot = 4 * set + random_below(random, 4);
    uint64_t tag = page << 14 | guest->pcids[random_below(random, GUEST_PCIDS)] << 2 | random_below(random, 4);
    uint64_t data = random_word(random);
    if (random_percent(random, 70))
        tag |= 1;
    if (random_percent(random, 10))
        tag ^= UINT64_C(1) << random_below(random, 64);
    put_both_image((unsigned)(4 + 2 * slot), tag);
    put_both_image((unsigned)(5 + 2 * slot), data);
}

/* Most of a buffer by hand. */
static void make_buffer(struct random *random, const struct guest *guest)
{
    for (unsigned i = 0; i < 100; i++)
        make_slot(random, guest);
}

/* Hand-made control words that no refusal names. */
static void make_control(struct random *random)
{
    switch (random_below(random, 4)) {
    case 0:
        put_both_image(1, random_below(random, 128));
        break;
    case 1:
        put_both_image(2, random_word(random));
        break;
    case 2:
        put_both_image(3, random_below(random, UINT64_C(1) << 50));
        break;
    default:
        put_both_image(0, 36 + random_below(random, 17));
    }
}

/* A word changed so that refusal 2 applies; gives its number. */
static unsigned damage(struct random *random)
{
    static const uint64_t widths[] = {0, 35, 53, UINT64_C(0x100000028)};
    unsigned rest = (unsigned)(204 + random_below(random, 52));
    switch (random_below(random, 4)) {
    case 0:
        put_both_image(0, widths[random_below(random, 4)]);
        return 0;
    case 1:
        put_both_image(1, lent_image_word(&door_side, 1) | UINT64_C(1) << (7 + random_below(random, 57)));
        return 1;
    case 2:
        put_both_image(3, lent_image_word(&door_side, 3) | UINT64_C(1) << (50 + random_below(random, 14)));
        return 3;
    default:
        put_both_image(rest, UINT64_C(1) << random_below(random, 64));
        return rest;
    }
}

/* One call on a damaged image, which is mended unless a start has made a new one. */
static bool damaged_call(struct random *random, const struct guest *guest)
{
    uint64_t before[256];
    for (unsigned i = 0; i < 256; i++)
        before[i] = lent_image_word(&door_side, i);
    unsigned number = damage(random);
    struct call call = call_make(random, guest);
    if (!agree(&call))
        return false;
    if (begun == 3)
        put_both_image(number, before[number]);
    return true;
}

static bool random_step(struct random *random, const struct guest *guest)
{
    uint64_t which = random_below(random, 100);
    if (which < 5)
        edit_table(random, guest);
    else if (which < 7)
        make_slot(random, guest);
    else if (which == 7 && random_percent(random, 20))
        make_control(random);
    else if (which == 7 && random_percent(random, 20))
        make_buffer(random, guest);
    else if (which == 8)
        return damaged_call(random, guest);
    struct call call = call_make(random, guest);
    return agree(&call);
}

static bool step(struct random *random, const struct guest *guest)
{
    if (begun == 3)
        return random_step(random, guest);
    struct call call = call_begin(guest, begun++);
    return agree(&call);
}

static bool run_sequence(uint64_t seed, uint64_t sequence)
{
    struct random random = random_start(seed, sequence);
    struct guest guest = guest_make(&random);
    guest_spread(&random, &guest);
    lent_make(&random, &door_side);
    model_side = door_side;
    guest_tables(&random, &guest, put_both_memory);
    begun = 0;
    for (unsigned number = 0; number < STEPS; number++)
        if (!step(&random, &guest)) {
            printf("  seed %" PRIu64 ", sequence %" PRIu64 ", step %u\n", seed, sequence, number);
            printf("  again: differential %" PRIu64 " %" PRIu64 "\n", seed, sequence);
            return false;
        }
    return true;
}

int main(int count, char **arguments)
{
    uint64_t seed = count > 1 ? strtoull(arguments[1], NULL, 0) : DEFAULT_SEED;
    uint64_t first = count > 2 ? strtoull(arguments[2], NULL, 0) : 0;
    uint64_t sequences = count > 3 ? strtoull(arguments[3], NULL, 0) : count > 2 ? 1 : SEQUENCES;
    printf("differential: seed %" PRIu64 ", sequences %" PRIu64 " to %" PRIu64 "\n", seed, first, first + sequences - 1);
    for (uint64_t sequence = first; sequence < first + sequences; sequence++)
        if (!run_sequence(seed, sequence))
            return 1;
    bool every_sequence = count <= 2;
    size_t missing = every_sequence ? translator_events_print() : 0;
    printf("differential: %lu calls agree, with %lu pairs in batches\n", calls, pairs);
    if (missing > 0)
        printf("differential: %zu kinds of event never happened\n", missing);
    return missing > 0;
}
