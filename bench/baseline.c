/*
 * The translator's calls in plain C, as fast as C for any x86-64 makes them: what the archive is measured against.
 * Same image, same refusals, same record. It is held to the model of the paper by the differential test; nothing is proved.
 */
#include "baseline_parts.h"

/* A fetch is told with NXE or SMEP on, which are the same bits of a place among the codes as of the flags. */
APART uint64_t fault(uint8_t *answer, const uint8_t *image, uint64_t cause, uint64_t read)
{
    static const uint8_t codes[64] = {
        0, 2, 0,  4, 6, 4,  0, 2, 0, 0, 0, 0, 0, 0, 0, 0, 0, 2, 16, 4, 6, 20, 0, 2, 0, 0, 0, 0, 0, 0, 0, 0,
        0, 2, 16, 4, 6, 20, 0, 2, 0, 0, 0, 0, 0, 0, 0, 0, 0, 2, 16, 4, 6, 20, 0, 2, 0, 0, 0, 0, 0, 0, 0, 0,
    };
    uint64_t telling = image[FLAGS_AT] & (PASTRULOW_NXE | PASTRULOW_SMEP);
    return answer_words(answer, PASTRULOW_FAULT, codes[telling + asked_kind(answer)] | cause, 0, read);
}

/* The victim's way; its number moves on. */
APART uint8_t *victim_way(uint8_t *image, uint8_t *set)
{
    unsigned place = 2 * (unsigned)((set - image - SLOTS_AT) / SET);
    uint64_t victims = load(image + VICTIMS_AT);
    uint64_t victim = victims >> place & 3;
    store(image + VICTIMS_AT, (victims & ~(UINT64_C(3) << place)) | ((victim + 1) & 3) << place);
    return set + SLOT * victim;
}

PART uint8_t *way_to_fill(uint8_t *image, uint8_t *set)
{
#pragma GCC unroll 4
    for (unsigned way = 0; way < 4; way++)
        if (!(set[SLOT * way] & HELD))
            return set + SLOT * way;
    return victim_way(image, set);
}

/* What a walk gathers: bits set in every entry, bits set in any. */
struct walk {
    uint8_t *low, *high;
    size_t low_len, high_len;
    uint64_t frame, reserved, every, any, entry;
};

/* As a place in high, an address below 4 GiB is more than any slice is long. */
PART uint64_t entry_at(const struct walk *walk, uint64_t at)
{
    if (LIKELY(at < walk->low_len))
        return load(walk->low + at);
    at -= PASTRULOW_HIGH_BASE;
    return at < walk->high_len ? load(walk->high + at) : UINT64_MAX;
}

/* Goes the walk once more to set the bits that some entry lacks. Only the last can be outside, as all ones lead to no table. */
APART void mark(uint8_t *image, const uint8_t *answer, uint8_t *low, size_t low_len, uint8_t *high, size_t high_len,
                unsigned length, uint8_t last_marks)
{
    uint64_t frame = BIT(load(image)) - 4096, table = load(image + CR3_AT) & frame, address = asked_address(answer);
#pragma GCC unroll 4
    for (unsigned shift = 39; shift >= 12; shift -= 9) {
        uint64_t at = table + (address >> (shift - 3) & 0xff8);
        uint8_t *entry;
        if (LIKELY(at < low_len))
            entry = low + at;
        else if (at - PASTRULOW_HIGH_BASE < high_len)
            entry = high + (at - PASTRULOW_HIGH_BASE);
        else
            return;
        if (shift == length) {
            *entry |= last_marks;
            return;
        }
        *entry |= ACCESSED;
        table = load(entry) & frame;
    }
}

PART uint64_t take_page(uint8_t *image, uint8_t *answer, const struct walk *walk, uint64_t address, unsigned length)
{
    uint64_t flags = load(image + FLAGS_AT), offset = BIT(length) - 1, read = (48 - length) / 9, kind = asked_kind(answer);
    uint64_t rights = (walk->every >> 1 & 3) | (~walk->any >> 61 & EXECUTABLE);
    if (UNLIKELY(!serves(rights | DIRTY, rules_of(flags), kind)))
        return fault(answer, image, PASTRULOW_CODE_PRESENT, read);
    bool write = (rules_of(flags)[4 * kind + 1] & DIRTY) != 0;
    uint64_t entry = walk->entry | (write ? ENTRY_DIRTY : 0);
    if (UNLIKELY(!(walk->every & ACCESSED) || entry != walk->entry))
        mark(image, answer, walk->low, walk->low_len, walk->high, walk->high_len, length,
             write ? ACCESSED | ENTRY_DIRTY : ACCESSED);
    uint64_t base = entry & walk->frame & ~offset;
    uint64_t global = flags & PASTRULOW_PGE ? entry >> 7 & GLOBAL : 0;
    uint8_t *slot = way_to_fill(image, set_of(image, address, length));
    store(slot, page_of(address, length) | current_pcid(image) << 2 | global | HELD);
    store(slot + 8, base | (entry >> 3 & DIRTY) | rights);
    return answer_words(answer, PASTRULOW_ADDRESS, base | (address & offset), BIT(length), read);
}

/* The cause of a fault as bits of its code. */
enum { NOT_PRESENT = 0, RESERVED = 9, NO_FAULT = 64 };

/* Reads the next entry. The bits named are reserved too where it has bit 7. */
PART uint64_t step(struct walk *walk, uint64_t address, unsigned shift, uint64_t large)
{
    walk->entry = entry_at(walk, (walk->entry & walk->frame) + (address >> (shift - 3) & 0xff8));
    walk->every &= walk->entry;
    walk->any |= walk->entry;
    if (UNLIKELY(!(walk->entry & PRESENT)))
        return NOT_PRESENT;
    if (UNLIKELY((walk->entry & walk->reserved) != 0) || (UNLIKELY(walk->entry & LARGE) && (walk->entry & large) != 0))
        return RESERVED;
    return NO_FAULT;
}

/* One level: the fault ends the walk. Entries read, the index's lowest bit, bits that are reserved where bit 7 is set. */
#define LEVEL(read, shift, large)                                                                                        \
    do {                                                                                                                 \
        uint64_t cause = step(&walk, address, shift, large);                                                             \
        if (UNLIKELY(cause != NO_FAULT))                                                                                 \
            return fault(answer, image, cause, read);                                                                    \
    } while (0)

/* This and what follows take their arguments where translate has its own, and what is asked from the record, so that few are
   moved on the way. */
APART uint64_t walk_tables(uint8_t *image, uint8_t *answer, uint8_t *low, size_t low_len, uint8_t *high, size_t high_len)
{
    uint64_t width = load(image), frame = BIT(width) - 4096, reserved = BIT(52) - BIT(width);
    uint64_t address = asked_address(answer);
    struct walk walk = {low, high, low_len, high_len, frame, reserved, UINT64_MAX, 0, load(image + CR3_AT)};
    if (!(image[FLAGS_AT] & PASTRULOW_NXE))
        walk.reserved |= BIT(63);
    LEVEL(1, 39, LARGE);
    LEVEL(2, 30, 0x3fffe000);
    if (UNLIKELY(walk.entry & LARGE))
        return take_page(image, answer, &walk, address, 30);
    LEVEL(3, 21, 0x1fe000);
    if (UNLIKELY(walk.entry & LARGE))
        return take_page(image, answer, &walk, address, 21);
    LEVEL(4, 12, 0);
    return take_page(image, answer, &walk, address, 12);
}

APART uint64_t drop_and_walk(uint8_t *image, uint8_t *answer, uint8_t *low, size_t low_len, uint8_t *high, size_t high_len)
{
    drop_matches(image, asked_address(answer));
    return walk_tables(image, answer, low, low_len, high, high_len);
}

/* Translate where a refusal from 3 on, or paging off, makes it short. */
PART uint64_t translate_shortly(const uint8_t *image, uint8_t *answer, size_t low_len, size_t high_len, uint64_t kind,
                                uint64_t address)
{
    if (kind > 5)
        return refuse(answer, 3);
    if (!memory_fits(low_len, high_len))
        return refuse(answer, 4);
    if (image[FLAGS_AT] & PASTRULOW_PG || address >> 32 != 0)
        return refuse(answer, 5);
    return answer_words(answer, PASTRULOW_ADDRESS, address, 0, 0);
}

/* The same where the image may be refused too. It has its length. */
APART uint64_t translate_oddly(uint8_t *image, uint8_t *answer, uint8_t *low, size_t low_len, uint8_t *high, size_t high_len)
{
    (void)low, (void)high;
    if (!image_fits(image))
        return refuse(answer, 2);
    return translate_shortly(image, answer, low_len, high_len, asked_kind(answer), asked_address(answer));
}

/* The whole search, for an address whose page some slot holds for another PCID. */
APART uint64_t search(uint8_t *image, uint8_t *answer, uint8_t *low, size_t low_len, uint8_t *high, size_t high_len)
{
    uint64_t address = asked_address(answer);
#pragma GCC unroll 3
    for (unsigned length = 12; length <= 30; length += 9) {
        const uint8_t *slot = find_ours(image, address, length);
        if (slot == NULL)
            continue;
        if (!serves(load(slot + 8), rules_of(image[FLAGS_AT]), asked_kind(answer)))
            return drop_and_walk(image, answer, low, low_len, high, high_len);
        return answer_held(answer, load(slot + 8), address, length);
    }
    return walk_tables(image, answer, low, low_len, high, high_len);
}

PART const uint8_t *first_with(const uint8_t *set, uint64_t wanted)
{
#pragma GCC unroll 4
    for (unsigned way = 0; way < 4; way++, set += SLOT)
        if (((load(set) ^ wanted) & (PAGE_FIELD | HELD)) == 0)
            return set;
    return NULL;
}

/* Leaves the short way. */
#define GO_ON(next) next(image, ask(answer, kind, address), low, low_len, high, high_len)

/* Answers from the first slot of a size that holds the page, if one does and it is this PCID's, as `ours` says of the slot,
   and serves the access. */
#define TRY(length, sought, wanted, ours, in_force)                                                                      \
    do {                                                                                                                 \
        const uint8_t *slot = first_with(set_of(image, sought, length), wanted);                                         \
        if (slot != NULL) {                                                                                              \
            if (UNLIKELY(!(ours)))                                                                                       \
                return GO_ON(search);                                                                                    \
            uint64_t data = load(slot + 8);                                                                              \
            if (UNLIKELY(!serves(data, in_force, kind)))                                                                 \
                return GO_ON(drop_and_walk);                                                                             \
            return answer_held(answer, data, address, length);                                                           \
        }                                                                                                                \
    } while (0)

/* What is volatile is read where the caller has it whenever it is needed, and not kept in a register that must be saved. */
uint64_t pastrulow_translate(uint8_t *image, size_t image_len, uint8_t *low, size_t low_len, uint8_t *high, size_t high_len,
                             volatile uint64_t kind, volatile uint64_t address, uint64_t ac, uint8_t *volatile answer,
                             size_t answer_len)
{
    if (UNLIKELY(answer_len != PASTRULOW_ANSWER_BYTES))
        return 1;
    if (UNLIKELY(image_len != PASTRULOW_IMAGE_BYTES))
        return refuse(answer, 2);
    if (UNLIKELY(!image_fits(image) || kind > 5 || !memory_fits(low_len, high_len) || !(image[FLAGS_AT] & PASTRULOW_PG)))
        return GO_ON(translate_oddly);
    uint64_t sought = address;
    if (UNLIKELY(!canonical(sought)))
        return GO_ON(translate_oddly);
    if (UNLIKELY(ac != 0))
        kind = kinds_by_ac[kind];
    PIN(image); /* so that the flags are read again too */
    TRY(12, sought, sought << 2 | HELD, slot_is_ours(image, &slot), rules_of(image[FLAGS_AT]));
    sought = address;
    TRY(21, sought, page_of(sought, 21) | HELD, slot_is_ours(image, &slot), rules_of(image[FLAGS_AT]));
    sought = address;
    TRY(30, sought, page_of(sought, 30) | HELD, slot_is_ours(image, &slot), rules_of(image[FLAGS_AT]));
    return GO_ON(walk_tables);
}

/* Every pair is refused for the image. */
APART void refuse_many(uint8_t *answers, size_t answers_len)
{
    for (size_t at = 0; at < answers_len; at += PASTRULOW_ANSWER_BYTES)
        refuse(answers + at, 2);
}

/* Every pair is refused or, with paging off, given its address. */
APART void translate_many_shortly(const uint8_t *image, uint8_t *answers, size_t low_len, size_t high_len,
                                  const uint8_t *pairs, size_t pairs_len)
{
    for (size_t at = 0; at < pairs_len; at += PASTRULOW_PAIR_BYTES)
        translate_shortly(image, answers + 2 * at, low_len, high_len, load(pairs + at), load(pairs + at + 8));
}

/* The rules in force, and what a tag of this PCID has beside the page, are the same for all pairs of a call. */
PART uint64_t translate_pair(uint8_t *image, uint8_t *answer, uint8_t *low, size_t low_len, uint8_t *high, size_t high_len,
                             uint64_t kind, uint64_t address, const uint8_t *in_force, uint64_t own)
{
    uint64_t small = (address & ~UINT64_C(4095)) << 2 | own;
    uint64_t large = page_of(address, 21) | own, largest = page_of(address, 30) | own;
    if (UNLIKELY(kind > 5 || !canonical(address)))
        return translate_shortly(image, answer, low_len, high_len, kind, address);
    TRY(12, address, small, is_ours_by(load(slot) ^ small), in_force);
    TRY(21, address, large, is_ours_by(load(slot) ^ large), in_force);
    TRY(30, address, largest, is_ours_by(load(slot) ^ largest), in_force);
    return GO_ON(walk_tables);
}

/* No translation makes an image unfit, or turns paging off: both are asked once. */
uint64_t pastrulow_translate_many(uint8_t *image, size_t image_len, uint8_t *low, size_t low_len, uint8_t *high,
                                  size_t high_len, const uint8_t *pairs, size_t pairs_len, uint8_t *answers,
                                  size_t answers_len)
{
    if (UNLIKELY(pairs_len % PASTRULOW_PAIR_BYTES != 0 || pairs_len > PASTRULOW_PAIR_BYTES * PASTRULOW_PAIRS_MAX ||
                 answers_len != 2 * pairs_len))
        return PASTRULOW_REFUSED_PAIRS;
    if (UNLIKELY(image_len != PASTRULOW_IMAGE_BYTES || !image_fits(image))) {
        refuse_many(answers, answers_len);
        return 0;
    }
    if (UNLIKELY(!memory_fits(low_len, high_len) || !(image[FLAGS_AT] & PASTRULOW_PG))) {
        translate_many_shortly(image, answers, low_len, high_len, pairs, pairs_len);
        return 0;
    }
    const uint8_t *in_force = rules_of(image[FLAGS_AT]);
    uint64_t own = current_pcid(image) << 2 | HELD;
    for (size_t at = 0; at < pairs_len; at += PASTRULOW_PAIR_BYTES)
        translate_pair(image, answers + 2 * at, low, low_len, high, high_len, load(pairs + at), load(pairs + at + 8),
                       in_force, own);
    return 0;
}

/* Flags of which these change, over this CR3. */
PART bool mode_fits(uint64_t flags, uint64_t changed, uint64_t cr3)
{
    bool without_paging = (flags & (PASTRULOW_PCIDE | PASTRULOW_PG)) == PASTRULOW_PCIDE;
    bool turned_on = (flags & changed & PASTRULOW_PCIDE) != 0;
    return flags <= 127 && !without_paging && !(turned_on && (cr3 & 4095) != 0);
}

PART uint64_t start(uint8_t *image, size_t image_len, uint64_t width, uint64_t flags, uint8_t *answer, size_t answer_len)
{
    if (UNLIKELY(answer_len != PASTRULOW_ANSWER_BYTES))
        return 1;
    if (UNLIKELY(image_len != PASTRULOW_IMAGE_BYTES || width - 36 > 16))
        return refuse(answer, 2);
    if (UNLIKELY(!mode_fits(flags, flags, 0)))
        return refuse(answer, 7);
    memset(image, 0, PASTRULOW_IMAGE_BYTES);
    store(image, width);
    store(image + FLAGS_AT, flags);
    return answer_done(answer);
}

uint64_t pastrulow_start(uint8_t *image, size_t image_len, uint64_t width, uint8_t *answer, size_t answer_len)
{
    return start(image, image_len, width, PASTRULOW_WP, answer, answer_len);
}

uint64_t pastrulow_start_with(uint8_t *image, size_t image_len, uint64_t width, uint64_t flags, uint8_t *answer,
                              size_t answer_len)
{
    return start(image, image_len, width, flags, answer, answer_len);
}

uint64_t pastrulow_invlpg(uint8_t *image, size_t image_len, uint64_t address, uint8_t *answer, size_t answer_len)
{
    if (UNLIKELY(answer_len != PASTRULOW_ANSWER_BYTES))
        return 1;
    if (UNLIKELY(image_len != PASTRULOW_IMAGE_BYTES || !image_fits(image)))
        return refuse(answer, 2);
    if (LIKELY(canonical(address)))
        drop_matches(image, address);
    return answer_done(answer);
}

/* Drops every slot whose tag's low half, under a mask, is a number. Five sets at a time are passed over if all zero. */
PART void sweep(uint8_t *image, uint32_t mask, uint32_t number)
{
    for (uint8_t *sets = image + SLOTS_AT; sets < image + REST_AT; sets += 5 * SET) {
        if (all_zero(sets, 20))
            continue;
#pragma GCC unroll 20
        for (unsigned i = 0; i < 20; i++)
            if (((uint32_t)load(sets + SLOT * i) & mask) == number)
                zero_slot(sets + SLOT * i);
    }
}

PART void drop_all(uint8_t *image)
{
    memset(image + SLOTS_AT, 0, REST_AT - SLOTS_AT);
}

PART void drop_page_of(uint8_t *image, uint64_t address, uint64_t pcid, unsigned length)
{
    uint8_t *set = set_of(image, address, length);
    uint64_t wanted = page_of(address, length) | pcid << 2, mask = PAGE_FIELD | PCID_FIELD | GLOBAL;
    PIN(mask);
#pragma GCC unroll 4
    for (unsigned way = 0; way < 4; way++, set += SLOT)
        if (UNLIKELY((load(set) & mask) == wanted))
            zero_slot(set);
}

uint64_t pastrulow_invpcid(uint8_t *image, size_t image_len, uint64_t type, uint64_t pcid, uint64_t address, uint8_t *answer,
                           size_t answer_len)
{
    if (UNLIKELY(answer_len != PASTRULOW_ANSWER_BYTES))
        return 1;
    if (UNLIKELY(image_len != PASTRULOW_IMAGE_BYTES || !image_fits(image)))
        return refuse(answer, 2);
    bool off = !(image[FLAGS_AT] & PASTRULOW_PCIDE);
    if (UNLIKELY(type > 3 || pcid > 4095 || (type == 0 && !canonical(address)) || (type <= 1 && off && pcid != 0)))
        return refuse(answer, 8);
    if (type == 0) {
        drop_page_of(image, address, pcid, 12);
        drop_page_of(image, address, pcid, 21);
        drop_page_of(image, address, pcid, 30);
    } else if (type == 2) {
        drop_all(image);
    } else {
        sweep(image, type == 1 ? GLOBAL | PCID_FIELD : GLOBAL, type == 1 ? (uint32_t)pcid << 2 : 0);
    }
    return answer_done(answer);
}

uint64_t pastrulow_write_cr3(uint8_t *image, size_t image_len, uint64_t value, uint8_t *answer, size_t answer_len)
{
    if (UNLIKELY(answer_len != PASTRULOW_ANSWER_BYTES))
        return 1;
    if (UNLIKELY(image_len != PASTRULOW_IMAGE_BYTES || !image_fits(image)))
        return refuse(answer, 2);
    uint64_t flags = load(image + FLAGS_AT), kept = value & ~PASTRULOW_CR3_KEEP;
    if (UNLIKELY(kept >> load(image) != 0 || (kept != value && !(flags & PASTRULOW_PCIDE))))
        return refuse(answer, 6);
    store(image + CR3_AT, kept);
    if (kept == value)
        sweep(image, GLOBAL | PCID_FIELD, (uint32_t)pcid_of(flags, kept) << 2);
    return answer_done(answer);
}

uint64_t pastrulow_write_mode(uint8_t *image, size_t image_len, uint64_t flags, uint8_t *answer, size_t answer_len)
{
    if (UNLIKELY(answer_len != PASTRULOW_ANSWER_BYTES))
        return 1;
    if (UNLIKELY(image_len != PASTRULOW_IMAGE_BYTES || !image_fits(image)))
        return refuse(answer, 2);
    uint64_t changed = flags ^ load(image + FLAGS_AT);
    if (UNLIKELY(!mode_fits(flags, changed, load(image + CR3_AT))))
        return refuse(answer, 7);
    store(image + FLAGS_AT, flags);
    if ((changed & ~(PASTRULOW_WP | PASTRULOW_SMEP | PASTRULOW_SMAP)) != 0)
        drop_all(image);
    return answer_done(answer);
}
