#include "call.h"

#include <inttypes.h>
#include <stdio.h>

#include "pastrulow.h"

static enum call_name random_name(struct random *random)
{
    uint64_t which = random_below(random, 200);
    if (which < 144)
        return TRANSLATE;
    if (which < 150)
        return TRANSLATE_MANY;
    if (which < 164)
        return INVLPG;
    if (which < 179)
        return INVPCID;
    if (which < 190)
        return WRITE_CR3;
    if (which < 199)
        return WRITE_MODE;
    return random_percent(random, 50) ? START : START_WITH;
}

/* Mostly the guest's own flags, else with one or more of them changed; rarely a value that does not exist. */
static uint64_t random_flags(struct random *random, const struct guest *guest)
{
    uint64_t which = random_below(random, 100);
    if (which < 60)
        return guest->flags;
    if (which < 68)
        return guest->flags ^ PASTRULOW_WP;
    if (which < 78)
        return guest->flags ^ (random_percent(random, 50) ? PASTRULOW_SMEP : PASTRULOW_SMAP);
    if (which < 86)
        return guest->flags ^ UINT64_C(1) << random_below(random, 7);
    if (which < 95)
        return random_below(random, 128) | (random_percent(random, 80) ? PASTRULOW_PG : 0);
    return UINT64_C(1) << random_below(random, 64);
}

static size_t wrong_length(struct random *random, size_t right)
{
    static const int offsets[] = {-32, -16, -8, -1, 1, 8, 16, 32, LENT_GUARD};
    if (right > 0 && random_percent(random, 20))
        return random_below(random, right);
    int offset = offsets[random_below(random, sizeof offsets / sizeof *offsets)];
    return offset < 0 && right < (size_t)-offset ? right + 1 : right + (size_t)offset;
}

static uint64_t odd_word(struct random *random)
{
    return random_percent(random, 50) ? random_word(random) : random_below(random, 70);
}

static uint64_t random_width(struct random *random, const struct guest *guest)
{
    return random_percent(random, 40) ? odd_word(random) : guest->width;
}

/* Now and then one that only by its low bits is a kind. */
static uint64_t random_kind(struct random *random)
{
    uint64_t kind = random_below(random, 6);
    if (random_percent(random, 1))
        return kind | UINT64_C(1) << (3 + random_below(random, 61));
    return random_percent(random, 3) ? odd_word(random) : kind;
}

/* As often set as not, by 1 or by any other number. */
static uint64_t random_ac(struct random *random)
{
    if (random_percent(random, 50))
        return 0;
    return random_percent(random, 50) ? 1 : UINT64_C(1) << random_below(random, 64);
}

/* Mostly few pairs, and often as many as are a limit. The answers are for each whole pair, or twice as long as the pairs, which
   is the same unless these are ragged. */
static void random_pairs(struct random *random, const struct guest *guest, struct call *call)
{
    static const size_t limits[] = {0, 1, 2, 63, 64, 65};
    size_t count = random_below(random, random_percent(random, 20) ? 65 : 16);
    if (random_percent(random, 40))
        count = limits[random_below(random, sizeof limits / sizeof *limits)];
    for (size_t i = 0; i < LENT_MANY; i++) {
        uint64_t kind = random_kind(random);
        pastrulow_put_pair(call->pairs, i, kind, guest_address(random, guest));
    }
    call->pairs_len = LENT_PAIR * count;
    if (random_percent(random, 8))
        call->pairs_len = wrong_length(random, call->pairs_len);
    call->answer_len = random_percent(random, 50) ? LENT_ANSWER * (call->pairs_len / LENT_PAIR) : 2 * call->pairs_len;
}

static void random_numbers(struct random *random, const struct guest *guest, struct call *call)
{
    switch (call->name) {
    case START:
        call->numbers[0] = random_width(random, guest);
        break;
    case START_WITH:
        call->numbers[0] = random_width(random, guest);
        call->numbers[1] = random_percent(random, 50) ? random_below(random, 128) : random_flags(random, guest);
        break;
    case TRANSLATE:
        call->numbers[0] = random_kind(random);
        call->numbers[1] = guest_address(random, guest);
        call->numbers[2] = random_ac(random);
        break;
    case TRANSLATE_MANY:
        random_pairs(random, guest, call);
        break;
    case INVLPG:
        call->numbers[0] = guest_address(random, guest);
        break;
    case INVPCID:
        call->numbers[0] =
            random_percent(random, 3) ? odd_word(random) : random_below(random, random_percent(random, 60) ? 2 : 4);
        call->numbers[1] = random_percent(random, 3) ? random_word(random) >> random_below(random, 64)
                                                     : guest->pcids[random_below(random, GUEST_PCIDS)];
        call->numbers[2] = guest_address(random, guest);
        break;
    case WRITE_CR3:
        call->numbers[0] = guest_cr3(random, guest);
        break;
    case WRITE_MODE:
        call->numbers[0] = random_flags(random, guest);
        break;
    }
}

/* Mostly the slice whole, if the machine has it. */
static size_t random_slice(struct random *random, bool there)
{
    size_t length = there ? GUEST_SLICE : 0;
    if (random_percent(random, 5))
        length = 4096 * random_below(random, GUEST_PAGES_MAX + 1);
    if (random_percent(random, 1))
        length = wrong_length(random, length);
    return length;
}

/* For a guest with high; now and then a slice is far longer than the guest's own. */
static void random_high(struct random *random, struct call *call)
{
    static const size_t far[] = {PASTRULOW_LOW_MAX, PASTRULOW_LOW_MAX + 4096, LENT_FAR};
    call->high_len = random_slice(random, true);
    if (random_percent(random, 3))
        call->low_len = far[random_below(random, sizeof far / sizeof *far)];
    if (random_percent(random, 3))
        call->high_len = far[random_below(random, sizeof far / sizeof *far)];
    call->low_null = call->low_len == 0 && random_percent(random, 50);
    call->high_null = call->high_len == 0 && random_percent(random, 50);
}

struct call call_make(struct random *random, const struct guest *guest)
{
    struct call call = {.name = random_name(random), .image_len = LENT_IMAGE, .answer_len = LENT_ANSWER, .high_null = true};
    random_numbers(random, guest, &call);
    call.low_len = random_slice(random, guest->low);
    if (guest->high)
        random_high(random, &call);
    if (random_percent(random, 1))
        call.image_len = wrong_length(random, LENT_IMAGE);
    if (random_percent(random, call.name == TRANSLATE_MANY ? 8 : 1))
        call.answer_len = wrong_length(random, call.answer_len);
    return call;
}

struct call call_begin(const struct guest *guest, unsigned step)
{
    static const enum call_name names[3] = {START, WRITE_MODE, WRITE_CR3};
    const uint64_t numbers[3] = {guest->width, guest->flags, guest->places[0] | guest->pcids[1]};
    struct call call = {.name = names[step], .numbers = {numbers[step]}, .image_len = LENT_IMAGE, .answer_len = LENT_ANSWER};
    return call;
}

size_t call_pairs(const struct call *call)
{
    return call->pairs_len / LENT_PAIR;
}

void call_print(const struct call *call)
{
    static const char *const names[] = {"start",  "start_with", "translate", "translate_many",
                                        "invlpg", "invpcid",    "write_cr3", "write_mode"};
    printf("  call %s 0x%" PRIx64 " 0x%" PRIx64 " 0x%" PRIx64 ", image %zu, low %zu, high %zu, pairs %zu, answer %zu bytes\n",
           names[call->name], call->numbers[0], call->numbers[1], call->numbers[2], call->image_len, call->low_len,
           call->high_len, call->pairs_len, call->answer_len);
    for (size_t i = 0; i < call_pairs(call); i++)
        printf("  pair %zu: 0x%" PRIx64 " 0x%" PRIx64 "\n", i, pastrulow_word(call->pairs + LENT_PAIR * i),
               pastrulow_word(call->pairs + LENT_PAIR * i + 8));
}
