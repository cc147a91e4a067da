/*
 * The journal's calls in plain C: what the archive is measured against. Each pass over the records is one loop, which the
 * compiler unrolls. It is not the fastest C: docs/PERFORMANCE.md has the counts of a faster one. Same journal, same refusal. It is held to the models of the paper by the journal's test; nothing is proved.
 */
#include "baseline_words.h"

/* Places in the journal, and in a record, in bytes. */
enum { LOST_AT = 8, REPORTS_AT = 16, RECORDS_AT = 64, RECORD = 40 };
enum { CODE_AT = 8, ROOT_AT = 16, FIRST_AT = 24, REPEATS_AT = 32 };

/* The repeats of all records held, or-ed to other counts. */
PART uint64_t with_repeats(uint64_t seen, const uint8_t *end, uint64_t held)
{
#pragma GCC unroll 8
    for (const uint8_t *record = end - RECORD * held; record != end; record += RECORD)
        seen |= load(record + REPEATS_AT);
    return seen;
}

/* The first record held that is equal, or the end. */
PART uint8_t *find_equal(uint8_t *end, uint64_t held, uint64_t page, uint64_t code, uint64_t root)
{
    uint8_t *record = end - RECORD * held;
#pragma GCC unroll 8
    for (; record != end; record += RECORD)
        if (UNLIKELY(load(record) == page) && load(record + CODE_AT) == code && load(record + ROOT_AT) == root)
            return record;
    return end;
}

/* One more, of a count that is no larger than where it stops. */
PART uint64_t one_more(uint64_t count)
{
    return count + ((uint32_t)count < UINT32_MAX);
}

uint64_t pastrulow_journal_clear(uint8_t *journal, size_t journal_len)
{
    if (UNLIKELY(journal_len != PASTRULOW_JOURNAL_BYTES))
        return PASTRULOW_REFUSED_JOURNAL;
    memset(journal, 0, PASTRULOW_JOURNAL_BYTES);
    return 0;
}

uint64_t pastrulow_journal_report(uint8_t *journal, size_t journal_len, uint64_t address, uint64_t code, uint64_t root)
{
    if (UNLIKELY(journal_len != PASTRULOW_JOURNAL_BYTES))
        return PASTRULOW_REFUSED_JOURNAL;
    uint64_t held = load(journal), lost = load(journal + LOST_AT), reports = load(journal + REPORTS_AT);
    uint64_t page = address << 7 >> 19;
    if (UNLIKELY(held > PASTRULOW_JOURNAL_RECORDS))
        return PASTRULOW_REFUSED_JOURNAL;
    uint8_t *end = journal + RECORDS_AT + RECORD * held;
    if (UNLIKELY(with_repeats(lost | reports, end, held) > PASTRULOW_COUNT_MAX))
        return PASTRULOW_REFUSED_JOURNAL;
    reports = one_more(reports);
    store(journal + REPORTS_AT, reports);
    uint8_t *record = find_equal(end, held, page, code, root);
    if (record != end) {
        store(record + REPEATS_AT, one_more(load(record + REPEATS_AT)));
    } else if (held == PASTRULOW_JOURNAL_RECORDS) {
        store(journal + LOST_AT, one_more(lost));
    } else {
        store(journal, held + 1);
        store(record, page);
        store(record + CODE_AT, code);
        store(record + ROOT_AT, root);
        store(record + FIRST_AT, reports);
        store(record + REPEATS_AT, 0);
    }
    return 0;
}
