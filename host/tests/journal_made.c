/* Journals made by hand and random calls on them: return, journal and guard bytes around it are compared after each call. */
#include <inttypes.h>
#include <stdio.h>
#include <string.h>

#include "journal.h"
#include "model_journal.h"
#include "pastrulow.h"
#include "random.h"

enum { STEPS = 16, POOL = 3, GUARD = 64, SHIFTS = 16, SIDE_BYTES = JOURNAL_BYTES + 2 * GUARD + SHIFTS };

/* What one side of the comparison is lent. */
struct side {
    size_t at; /* where the journal stands */
    uint8_t bytes[SIDE_BYTES];
};

/* The numbers that most records and reports of one journal are made of, so that many are equal, or nearly. */
struct pool {
    uint64_t pages[POOL], codes[POOL], roots[POOL];
};

struct call {
    bool clear;
    size_t length;
    bool null; /* no bytes, lent as NULL */
    uint64_t address, code, root;
};

static struct side door_side, model_side;
static unsigned long calls;

/* A number and others that differ from it in one bit below a limit. */
static void fill_pool(struct random *random, uint64_t *numbers, uint64_t first, unsigned limit)
{
    for (unsigned i = 0; i < POOL; i++)
        numbers[i] = i == 0 ? first : first ^ UINT64_C(1) << random_below(random, limit);
}

static struct pool make_pool(struct random *random)
{
    struct pool pool;
    fill_pool(random, pool.pages, random_below(random, UINT64_C(1) << 45), 45);
    fill_pool(random, pool.codes, random_percent(random, 80) ? random_below(random, 32) : random_word(random), 64);
    fill_pool(random, pool.roots, random_percent(random, 80) ? random_below(random, 65536) << 12 : random_word(random), 64);
    return pool;
}

static struct fault pool_fault(struct random *random, const struct pool *pool)
{
    struct fault fault = {pool->pages[random_below(random, POOL)], pool->codes[random_below(random, POOL)],
                          pool->roots[random_below(random, POOL)]};
    return fault;
}

/* A record's words are any numbers; a page of more than 45 bits is equal to none. */
static struct fault record_fault(struct random *random, const struct pool *pool)
{
    struct fault fault = pool_fault(random, pool);
    if (random_percent(random, 75))
        fault.page ^= UINT64_C(1) << random_below(random, 64);
    if (random_percent(random, 10))
        fault.code ^= UINT64_C(1) << random_below(random, 64);
    if (random_percent(random, 10))
        fault.root = random_word(random);
    return fault;
}

/* A count that a report takes: often where it stops, or one before. */
static uint64_t fit_count(struct random *random)
{
    uint64_t which = random_below(random, 100);
    if (which < 50)
        return random_below(random, 100);
    if (which < 65)
        return PASTRULOW_COUNT_MAX;
    return which < 80 ? PASTRULOW_COUNT_MAX - 1 : random_below(random, PASTRULOW_COUNT_MAX);
}

/* A count that a report refuses. */
static uint64_t unfit_count(struct random *random)
{
    uint64_t which = random_below(random, 3);
    if (which == 0)
        return PASTRULOW_COUNT_MAX + 1;
    return which == 1 ? UINT64_C(1) << (32 + random_below(random, 32)) : random_word(random) | UINT64_C(1) << 40;
}

static uint64_t some_count(struct random *random)
{
    return random_percent(random, 94) ? fit_count(random) : unfit_count(random);
}

static uint64_t some_held(struct random *random)
{
    uint64_t which = random_below(random, 100);
    if (which < 40)
        return random_below(random, JOURNAL_RECORDS + 1);
    if (which < 75)
        return JOURNAL_RECORDS - random_below(random, 4);
    if (which < 90)
        return random_below(random, 4);
    if (which < 95)
        return JOURNAL_RECORDS + 1 + random_below(random, 2);
    return random_below(random, JOURNAL_RECORDS + 1) | UINT64_C(1) << (7 + random_below(random, 57));
}

/* Repeats of records held are fit, but in one journal of five one of them; those of others may be anything. */
static void make_repeats(struct random *random, struct journal *journal)
{
    for (unsigned i = 0; i < JOURNAL_RECORDS; i++) {
        bool free = i >= journal->held && random_percent(random, 50);
        journal->records[i].repeats = free ? random_word(random) : fit_count(random);
    }
    if (journal->held == 0 || journal->held > JOURNAL_RECORDS || random_percent(random, 80))
        return;
    uint64_t last = journal->held - 1;
    journal->records[random_percent(random, 50) ? last : random_below(random, journal->held)].repeats = unfit_count(random);
}

static struct journal make_journal(struct random *random, const struct pool *pool)
{
    struct journal journal = {some_held(random), some_count(random), some_count(random), {0}, {{{0, 0, 0}, 0, 0}}};
    bool rest = random_percent(random, 30);
    for (unsigned i = 0; i < JOURNAL_REST && rest; i++)
        journal.rest[i] = random_word(random);
    for (unsigned i = 0; i < JOURNAL_RECORDS; i++) {
        journal.records[i].fault = record_fault(random, pool);
        journal.records[i].first = random_percent(random, 95) ? fit_count(random) : random_word(random);
    }
    make_repeats(random, &journal);
    return journal;
}

/* Guard bytes are random, or behind the journal zero, as a record there that nothing refuses. The journals stand at every
   alignment in turn. */
static void make_sides(struct random *random, const struct pool *pool, uint64_t number)
{
    struct journal journal = make_journal(random, pool);
    for (size_t i = 0; i < SIDE_BYTES; i++)
        door_side.bytes[i] = (uint8_t)random_word(random);
    door_side.at = GUARD + number % SHIFTS;
    if (random_percent(random, 50))
        memset(door_side.bytes + door_side.at + JOURNAL_BYTES, 0, GUARD);
    encode_journal(&journal, door_side.bytes + door_side.at);
    model_side = door_side;
}

static size_t wrong_length(struct random *random)
{
    static const int offsets[] = {-40, -8, -1, 1, 8, 40};
    if (random_percent(random, 40))
        return random_percent(random, 50) ? 0 : random_below(random, JOURNAL_BYTES);
    return JOURNAL_BYTES + (size_t)offsets[random_below(random, sizeof offsets / sizeof *offsets)];
}

/* The address has any bits below 12 and above 56, or none there. */
static struct call make_call(struct random *random, const struct pool *pool)
{
    struct fault fault = pool_fault(random, pool);
    struct call call = {.clear = random_percent(random, 3), .length = JOURNAL_BYTES, .code = fault.code, .root = fault.root};
    if (random_percent(random, 30))
        fault.page ^= UINT64_C(1) << random_below(random, 45);
    call.address = fault.page << 12;
    if (random_percent(random, 60))
        call.address |= random_below(random, 4096);
    if (random_percent(random, 60))
        call.address |= random_word(random) << 57;
    if (random_percent(random, 5))
        call.length = wrong_length(random);
    call.null = call.length == 0 && random_percent(random, 50);
    return call;
}

static uint64_t call_door(const struct call *call, struct side *side)
{
    uint8_t *journal = call->null ? NULL : side->bytes + side->at;
    if (call->clear)
        return pastrulow_journal_clear(journal, call->length);
    return pastrulow_journal_report(journal, call->length, call->address, call->code, call->root);
}

static uint64_t call_model(const struct call *call, struct side *side)
{
    uint8_t *journal = call->null ? NULL : side->bytes + side->at;
    if (call->clear)
        return model_journal_clear(journal, call->length);
    return model_journal_report(journal, call->length, call->address, call->code, call->root);
}

static size_t difference(void)
{
    size_t at = 0;
    while (at < SIDE_BYTES && door_side.bytes[at] == model_side.bytes[at])
        at++;
    return at;
}

static void print_difference(const struct call *call, uint64_t from_door, uint64_t from_model)
{
    size_t at = difference();
    printf("archive and model differ\n");
    printf("  call %s, %zu bytes, address 0x%" PRIx64 ", code 0x%" PRIx64 ", root 0x%" PRIx64 "\n",
           call->clear ? "clear" : "report", call->length, call->address, call->code, call->root);
    printf("  returned: archive %" PRIu64 ", model %" PRIu64 "\n", from_door, from_model);
    if (at >= door_side.at && at < door_side.at + JOURNAL_BYTES) {
        size_t place = (at - door_side.at) / 8 * 8 + door_side.at;
        printf("  journal word %zu: archive 0x%" PRIx64 ", model 0x%" PRIx64 "\n", (at - door_side.at) / 8,
               pastrulow_word(door_side.bytes + place), pastrulow_word(model_side.bytes + place));
    } else if (at < SIDE_BYTES) {
        printf("  a guard byte, %zu, of a journal at %zu\n", at, door_side.at);
    }
}

/* Makes one call on both sides and compares everything. */
static bool agree(const struct call *call)
{
    uint64_t from_model = call_model(call, &model_side), from_door = call_door(call, &door_side);
    calls++;
    if (from_door == from_model && memcmp(door_side.bytes, model_side.bytes, SIDE_BYTES) == 0)
        return true;
    print_difference(call, from_door, from_model);
    return false;
}

static bool made_journal_agrees(uint64_t seed, uint64_t number)
{
    struct random random = random_start(seed, 1 + number);
    struct pool pool = make_pool(&random);
    make_sides(&random, &pool, number);
    for (unsigned step = 0; step < STEPS; step++) {
        struct call call = make_call(&random, &pool);
        if (!agree(&call)) {
            printf("  seed %" PRIu64 ", journal %" PRIu64 ", step %u\n", seed, number, step);
            printf("  again: journal %" PRIu64 " %" PRIu64 "\n", seed, number);
            return false;
        }
    }
    return true;
}

bool made_journals_agree(uint64_t seed, uint64_t first, uint64_t count)
{
    for (uint64_t number = first; number < first + count; number++)
        if (!made_journal_agrees(seed, number))
            return false;
    printf("journal: %lu calls on %" PRIu64 " journals made by hand agree\n", calls, count);
    return true;
}
