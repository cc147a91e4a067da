/* The model of the journal: what the whole history of reports says. */
#include "model_journal.h"

/* A count of the journal; none that a test can reach is stopped. */
static uint64_t stopped(size_t count)
{
    return count < UINT32_MAX ? count : UINT32_MAX;
}

/* Whether a report is the first of its fault. */
static bool is_first(const struct fault *history, size_t number)
{
    for (size_t i = 0; i < number; i++)
        if (same_fault(history[i], history[number]))
            return false;
    return true;
}

static size_t reports_of(const struct fault *history, size_t reports, struct fault fault)
{
    size_t count = 0;
    for (size_t i = 0; i < reports; i++)
        count += same_fault(history[i], fault);
    return count;
}

/* Whether a fault is among the records. */
static bool has_record(const struct journal *journal, struct fault fault)
{
    for (unsigned i = 0; i < journal->held; i++)
        if (same_fault(journal->records[i].fault, fault))
            return true;
    return false;
}

struct journal model_history(const struct fault *history, size_t reports)
{
    struct journal journal = {.reports = stopped(reports)};
    for (size_t i = 0; i < reports && journal.held < JOURNAL_RECORDS; i++) {
        if (!is_first(history, i))
            continue;
        struct journal_record record = {history[i], stopped(i + 1), stopped(reports_of(history, reports, history[i]) - 1)};
        journal.records[journal.held++] = record;
    }
    size_t lost = 0;
    for (size_t i = 0; i < reports; i++)
        lost += !has_record(&journal, history[i]);
    journal.lost = stopped(lost);
    return journal;
}
