/* The model: the walk over the guest's tables. */
#include "model_parts.h"

static const uint64_t all_ones = UINT64_MAX;

/* One entry that a walk has read. */
struct entry {
    uint64_t address;
    uint64_t word;
    uint8_t *place; /* NULL if it lies outside */
};

static struct entry read_entry(struct memory memory, uint64_t address, unsigned level)
{
    struct entry entry = {address, all_ones, place_of(memory, address)};
    count_place(memory, address);
    if (entry.place != NULL) {
        entry.word = word_at(entry.place);
        batch_reads(address);
    } else {
        event(EVENT_OUTSIDE_1 + (level - 1));
    }
    return entry;
}

static unsigned index_at(uint64_t address, unsigned level)
{
    static const unsigned low[5] = {0, 12, 21, 30, 39};
    return (unsigned)bits(address, low[level] + 8, low[level]);
}

/* The entry is the page itself and not a table's. */
static bool is_page(uint64_t word, unsigned level)
{
    return level == 1 || ((level == 3 || level == 2) && bit(word, 7));
}

static bool reserved_bit_set(const struct state *state, uint64_t word, unsigned level)
{
    bool by_width = state->width < 52 && bits(word, 51, (unsigned)state->width) != 0;
    bool by_xd = !state->nxe && bit(word, 63);
    bool top_ps = level == 4 && bit(word, 7);
    bool by_length = (level == 3 && is_page(word, level) && bits(word, 29, 13) != 0) ||
                     (level == 2 && is_page(word, level) && bits(word, 20, 13) != 0);
    if (by_width)
        event(EVENT_RESERVED_BY_WIDTH);
    if (by_xd)
        event(EVENT_RESERVED_BY_XD);
    if (top_ps)
        event(EVENT_RESERVED_TOP_PS);
    if (by_length)
        event(EVENT_RESERVED_BY_LENGTH);
    return by_width || by_xd || top_ps || by_length;
}

static struct rights rights_over(const struct entry *entries, unsigned read)
{
    struct rights rights = {true, true, true};
    for (unsigned i = 0; i < read; i++) {
        rights.writable = rights.writable && bit(entries[i].word, 1);
        rights.user = rights.user && bit(entries[i].word, 2);
        rights.executable = rights.executable && !bit(entries[i].word, 63);
    }
    return rights;
}

bool kept_off(const struct state *state, struct access access)
{
    if (access.user)
        return false;
    return access.fetch ? state->smep : state->smap && !access.ac;
}

bool allows(const struct state *state, struct access access, struct rights rights)
{
    if (access.user && !rights.user)
        return false;
    if (access.write && !rights.writable && (access.user || state->wp))
        return false;
    if (access.fetch && !rights.executable)
        return false;
    if (rights.user && kept_off(state, access))
        return false;
    return true;
}

/* Adds one bit to what memory holds; gives whether it was not there. */
static bool add_bit(struct entry entry, unsigned number)
{
    if (entry.place == NULL)
        return false;
    uint64_t word = word_at(entry.place);
    put_word(entry.place, word | UINT64_C(1) << number);
    if (!bit(word, number))
        batch_marks(entry.address);
    return !bit(word, number);
}

static void mark(struct access access, const struct entry *entries, const struct walked *walked)
{
    unsigned last = walked->read - 1;
    for (unsigned i = 0; i <= last; i++)
        if (add_bit(entries[i], 5)) {
            event(i == last ? EVENT_ACCESSED_PAGE : EVENT_ACCESSED_UPPER);
            event(in_high(entries[i].address) ? EVENT_ACCESSED_HIGH : EVENT_ACCESSED_LOW);
        }
    if (access.write && add_bit(entries[last], 6)) {
        event(EVENT_DIRTY_4K + walked->size);
        event(in_high(entries[last].address) ? EVENT_DIRTY_HIGH : EVENT_DIRTY_LOW);
    }
}

static void count_barred(const struct state *state, struct access access, struct rights rights, struct rights last)
{
    if (access.user && !rights.user)
        event(EVENT_BARRED_USER);
    if (access.write && !rights.writable && (access.user || state->wp))
        event(EVENT_BARRED_WRITE);
    if (access.fetch && !rights.executable)
        event(EVENT_BARRED_FETCH);
    if (rights.user && kept_off(state, access)) {
        event(access.fetch ? EVENT_BARRED_SMEP : EVENT_BARRED_SMAP);
        if (access.write && !state->wp)
            event(EVENT_BARRED_SMAP_FALSE_WP);
    }
    if (allows(state, access, last))
        event(EVENT_BARRED_ABOVE);
}

/* An access that SMEP or SMAP could have kept off the page. */
static void count_let_through(const struct state *state, struct access access, struct rights rights)
{
    bool flag = access.fetch ? state->smep : state->smap;
    if (!flag)
        return;
    if (access.user)
        event(EVENT_SPARED_USER);
    else if (rights.user)
        event(EVENT_SPARED_AC);
    else
        event(EVENT_SPARED_SUPERVISOR);
}

/* The slices that the entries stand in, none of them outside. */
static void count_slices(const struct entry *entries, unsigned read)
{
    bool first_high = in_high(entries[0].address);
    unsigned ups = 0, downs = 0;
    for (unsigned i = 1; i < read; i++) {
        bool before = in_high(entries[i - 1].address), now = in_high(entries[i].address);
        ups += !before && now;
        downs += before && !now;
    }
    if (ups + downs == 0)
        event(first_high ? EVENT_WALK_HIGH : EVENT_WALK_LOW);
    else if (ups + downs == 1)
        event(first_high ? EVENT_WALK_DOWN : EVENT_WALK_UP);
    else
        event(first_high ? EVENT_WALK_DOWN_AND_UP : EVENT_WALK_UP_AND_DOWN);
}

static void count_success(struct access access, const struct entry *entries, const struct walked *walked)
{
    if (access.write && !walked->rights.writable)
        event(EVENT_WALK_FALSE_WP);
    if (entries[walked->read - 1].place == NULL)
        event(EVENT_OUTSIDE_PAGE);
    else
        count_slices(entries, walked->read);
    for (unsigned i = 0; i < walked->read; i++)
        for (unsigned j = 0; j < i; j++)
            if (entries[i].place != NULL && entries[i].address == entries[j].address) {
                event(EVENT_ENTRY_TWICE);
                return;
            }
}

/* The walk has come to a page: rights are judged, and memory is marked if they suffice. */
static void judge(const struct state *state, struct access access, const struct entry *entries, struct walked *walked)
{
    static const unsigned low[SIZES] = {12, 21, 30};
    const struct entry *last = &entries[walked->read - 1];
    walked->size = 4 - walked->read;
    walked->rights = rights_over(entries, walked->read);
    if (!allows(state, access, walked->rights)) {
        walked->cause = PROTECTION;
        count_barred(state, access, walked->rights, rights_over(last, 1));
        event(EVENT_PROTECTED_1 + walked->size);
        return;
    }
    unsigned from = low[walked->size];
    walked->base = bits(last->word, (unsigned)state->width - 1, from) << from;
    walked->global = state->pge && bit(last->word, 8);
    count_let_through(state, access, walked->rights);
    count_success(access, entries, walked);
    mark(access, entries, walked);
    walked->dirty = last->place == NULL ? true : bit(word_at(last->place), 6);
    if (bit(last->word, 8) && !state->pge)
        event(EVENT_FILL_PGE_OFF);
}

struct walked walk(const struct state *state, struct memory memory, struct access access, uint64_t address)
{
    struct walked walked = {.cause = NO_FAULT};
    struct entry entries[4];
    uint64_t table = bits(state->cr3, (unsigned)state->width - 1, 12) << 12;
    for (unsigned level = 4; level >= 1; level--) {
        struct entry entry = read_entry(memory, table + 8 * index_at(address, level), level);
        entries[walked.read++] = entry;
        if (!bit(entry.word, 0)) {
            walked.cause = NOT_PRESENT;
            event(EVENT_ABSENT_1 + (level - 1));
            if (!allows(state, access, rights_over(entries, walked.read - 1)))
                event(EVENT_ABSENT_BELOW_BARRED);
            return walked;
        }
        if (reserved_bit_set(state, entry.word, level)) {
            walked.cause = RESERVED;
            event(EVENT_RESERVED_1 + (level - 1));
            return walked;
        }
        if (is_page(entry.word, level))
            break;
        table = bits(entry.word, (unsigned)state->width - 1, 12) << 12;
    }
    judge(state, access, entries, &walked);
    return walked;
}
