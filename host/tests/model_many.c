/* The model: many translations in one call, and what its pairs do to one another, counted. */
#include "model.h"

#include <string.h>

#include "model_parts.h"

/* A pair marks at most four entries, and the last of them twice. */
enum { PAIRS_MAX = 64, MARKS_MAX = 5 * PAIRS_MAX };

/* The batch under way: which slots its pairs have filled, where they have set bits in guest memory, which refusals they got. */
static struct {
    bool under_way;
    bool filled[SLOTS];
    uint64_t marked[MARKS_MAX];
    unsigned marks;
    bool refused[6];
} batch;

void batch_hits(unsigned slot)
{
    if (batch.filled[slot])
        event(EVENT_PAIR_HIT_4K + slot_size(slot));
}

void batch_drops(unsigned slot)
{
    if (batch.filled[slot])
        event(EVENT_PAIR_DROPS);
    batch.filled[slot] = false;
}

void batch_evicts(unsigned slot)
{
    if (batch.filled[slot])
        event(EVENT_PAIR_EVICTS);
}

void batch_fills(unsigned slot)
{
    batch.filled[slot] = batch.under_way;
}

/* A walk reads all its entries before it marks one, so what is marked by now is an earlier pair's. */
void batch_reads(uint64_t address)
{
    for (unsigned i = 0; i < batch.marks; i++)
        if (batch.marked[i] == address) {
            event(EVENT_PAIR_READS_MARK);
            return;
        }
}

void batch_marks(uint64_t address)
{
    if (batch.under_way)
        batch.marked[batch.marks++] = address;
}

/* Refusal 10. The event says which of its conditions holds; if several do, the first. */
static bool many_refused(size_t pairs_len, size_t answers_len, enum event *which)
{
    *which = EVENT_BATCH_10_RAGGED;
    if (pairs_len % 16 != 0)
        return true;
    *which = EVENT_BATCH_10_PAIRS;
    if (pairs_len / 16 > PAIRS_MAX)
        return true;
    size_t fitting = 32 * (pairs_len / 16);
    *which = answers_len < fitting ? EVENT_BATCH_10_FEWER : EVENT_BATCH_10_MORE;
    return answers_len != fitting;
}

static void count_pairs(size_t pairs, bool image_unfit)
{
    if (pairs == 0)
        event(image_unfit ? EVENT_BATCH_NONE_IMAGE : EVENT_BATCH_NONE);
    if (pairs == 1)
        event(EVENT_BATCH_ONE);
    if (pairs == PAIRS_MAX)
        event(EVENT_BATCH_64);
}

/* A record beside the kind of the one before it. */
static void count_record(const uint8_t *record, uint64_t before)
{
    uint64_t kind = word_at(record), value = word_at(record + 8), size = word_at(record + 16);
    if (kind == ADDRESS && size == 0)
        event(EVENT_PAIR_PAGING_OFF);
    if (kind == REFUSED) {
        event(EVENT_PAIR_2 + (value - 2));
        batch.refused[value] = true;
    } else if (before == REFUSED) {
        event(EVENT_PAIR_AFTER_REFUSED);
    } else if (before == FAULT && kind == ADDRESS) {
        event(EVENT_PAIR_AFTER_FAULT);
    }
}

uint64_t model_translate_many(uint8_t *image, size_t image_len, uint8_t *low, size_t low_len, uint8_t *high, size_t high_len,
                              const uint8_t *pairs, size_t pairs_len, uint8_t *answers, size_t answers_len)
{
    bool image_unfit = image_flaws(image, image_len) != 0;
    enum event which;
    if (many_refused(pairs_len, answers_len, &which)) {
        event(which);
        if (image_unfit)
            event(EVENT_BATCH_10_IMAGE);
        return 10;
    }
    count_pairs(pairs_len / 16, image_unfit);
    batch.under_way = true;
    for (size_t i = 0; i < pairs_len / 16; i++) {
        uint64_t kind = word_at(pairs + 16 * i), address = word_at(pairs + 16 * i + 8);
        model_translate(image, image_len, low, low_len, high, high_len, kind, address, 0, answers + 32 * i, 32);
        count_record(answers + 32 * i, i == 0 ? DONE : word_at(answers + 32 * (i - 1)));
    }
    if (batch.refused[3] && batch.refused[4])
        event(EVENT_BATCH_3_AND_4);
    memset(&batch, 0, sizeof batch);
    return 0;
}
