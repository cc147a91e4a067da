/*
 * The page of guest memory that holds a physical address: the header's function against the library's own, and both against
 * what that page is.
 */
#include <stdbool.h>

#include "check.h"
#include "pastrulow.h"
#include "random.h"
#include "sparse.h"

/* Numbers of the header's, written once more because it is on trial. */
#define LOW_MOST UINT64_C(0xB0000000)
#define HIGH_FIRST UINT64_C(0x100000000)
enum { PAGE = 4096 };

/* A short slice and the longest. */
enum { SLICE = 6 * PAGE };
#define LONGEST (HIGH_FIRST + SLICE)

enum { SHIFTS = 16, ROUNDS = 4000, RANDOM_LOOKS = 20 };

/* The library's function: the word at the start of the page that it hands back, or all ones if it hands back none. */
uint64_t page_word(const uint8_t *low, size_t low_len, const uint8_t *high, size_t high_len, uint64_t physical);

/* Slices as they are lent, and how many bytes there are behind each. */
struct slices {
    uint8_t *low, *high;
    size_t low_len, high_len;
    size_t low_room, high_room;
};

static unsigned long in_low, in_high, outside, refused;

/* What the test has at the start of each page: no two are alike, and none is all ones. */
static uint64_t word_of(uint64_t physical)
{
    return UINT64_C(0x5a5a5a5a5a5a5a5a) + physical / PAGE;
}

/* Puts the word of the page that holds an address, if the slice has room for it. */
static void put_page(uint8_t *slice, size_t room, uint64_t first, uint64_t physical)
{
    uint64_t number = physical - first, start = number - number % PAGE;
    if (physical >= first && start < room && room - start >= PAGE)
        pastrulow_put_word(slice + start, word_of(physical));
}

/* The page that holds a byte of a slice of whole pages. */
static void check_page(const uint8_t *page, const uint8_t *slice, size_t length, uint64_t number)
{
    uint64_t start = (uint64_t)((uintptr_t)page - (uintptr_t)slice);
    check("page in the slice", start <= length - PAGE, true);
    check("start of a page", start % PAGE, 0);
    check("page with the byte", number - start < PAGE, true);
}

static void look(const struct slices *slices, uint64_t physical)
{
    size_t low_len = slices->low_len, high_len = slices->high_len;
    bool bad = low_len % PAGE != 0 || high_len % PAGE != 0 || low_len > LOW_MOST;
    bool is_low = !bad && physical < low_len;
    bool is_high = !bad && physical >= HIGH_FIRST && physical - HIGH_FIRST < high_len;
    put_page(slices->low, slices->low_room, 0, physical);
    put_page(slices->high, slices->high_room, HIGH_FIRST, physical);
    const uint8_t *page = pastrulow_page(slices->low, low_len, slices->high, high_len, physical);
    uint64_t word = page_word(slices->low, low_len, slices->high, high_len, physical);
    check("page", page != NULL, is_low || is_high);
    check("library's word", word, is_low || is_high ? word_of(physical) : UINT64_MAX);
    check("header's word", page == NULL ? UINT64_MAX : pastrulow_word(page), word);
    if (page != NULL && is_low)
        check_page(page, slices->low, low_len, physical);
    if (page != NULL && is_high)
        check_page(page, slices->high, high_len, physical - HIGH_FIRST);
    in_low += is_low;
    in_high += is_high;
    outside += !bad && !is_low && !is_high;
    refused += bad;
}

/* Around each end of a slice, and where an address or a length would be cut off; the last of all addresses lies below 0. */
static void look_at_ends(const struct slices *slices)
{
    const uint64_t ends[] = {0, PAGE, slices->low_len, LOW_MOST, HIGH_FIRST,
                             HIGH_FIRST + slices->high_len, 2 * HIGH_FIRST, UINT64_C(1) << 63};
    for (unsigned i = 0; i < sizeof ends / sizeof *ends; i++) {
        look(slices, ends[i] - PAGE - 1);
        look(slices, ends[i] - PAGE);
        look(slices, ends[i] - 1);
        look(slices, ends[i]);
        look(slices, ends[i] + 1);
        look(slices, ends[i] + PAGE - 1);
    }
}

static uint64_t random_physical(struct random *random)
{
    uint64_t near = random_below(random, 2 * SLICE);
    switch (random_below(random, 4)) {
    case 0:
        return near;
    case 1:
        return HIGH_FIRST + near;
    case 2:
        return (UINT64_C(1) << random_below(random, 64)) + near;
    default:
        return random_word(random);
    }
}

/* Whole pages or, now and then, any number of bytes. */
static size_t random_length(struct random *random)
{
    return random_percent(random, 80) ? PAGE * random_below(random, SLICE / PAGE + 1) : random_below(random, SLICE + 1);
}

/* Short slices at any alignment, with the word of each page; those of no bytes also as NULL. */
static void look_at_short(struct random *random)
{
    static uint8_t low[SLICE + SHIFTS], high[SLICE + SHIFTS];
    struct slices slices = {low + random_below(random, SHIFTS), high + random_below(random, SHIFTS), random_length(random),
                            random_length(random), SLICE, SLICE};
    for (uint64_t start = 0; start < SLICE; start += PAGE) {
        put_page(slices.low, SLICE, 0, start);
        put_page(slices.high, SLICE, HIGH_FIRST, HIGH_FIRST + start);
    }
    if (slices.low_len == 0 && random_percent(random, 50)) {
        slices.low = NULL;
        slices.low_room = 0;
    }
    if (slices.high_len == 0 && random_percent(random, 50)) {
        slices.high = NULL;
        slices.high_room = 0;
    }
    look_at_ends(&slices);
    for (unsigned i = 0; i < RANDOM_LOOKS; i++)
        look(&slices, random_physical(random));
}

/* Low around its limit, and high longer than that. */
static void look_at_long(void)
{
    static const size_t lows[] = {0, SLICE, LOW_MOST - PAGE, LOW_MOST - 1, LOW_MOST,
                                  LOW_MOST + 1, LOW_MOST + PAGE, HIGH_FIRST, LONGEST};
    static const size_t highs[] = {0, SLICE, LOW_MOST + PAGE, HIGH_FIRST, LONGEST - 1, LONGEST};
    struct slices slices = {sparse(LONGEST), sparse(LONGEST), 0, 0, LONGEST, LONGEST};
    for (unsigned i = 0; i < sizeof lows / sizeof *lows; i++)
        for (unsigned j = 0; j < sizeof highs / sizeof *highs; j++) {
            slices.low_len = lows[i];
            slices.high_len = highs[j];
            look_at_ends(&slices);
        }
}

int main(void)
{
    struct random random = random_start(1, 0);
    for (unsigned i = 0; i < ROUNDS; i++)
        look_at_short(&random);
    look_at_long();
    check("all four met", in_low > 0 && in_high > 0 && outside > 0 && refused > 0, true);
    return checked("page");
}
