/* The model of the journal: its words, a clear and one report. */
#include "model_journal.h"

#include <string.h>

#include "model_parts.h"

static const uint64_t count_max = (UINT64_C(1) << 32) - 1;

struct fault fault_of(uint64_t address, uint64_t code, uint64_t root)
{
    struct fault fault = {bits(address, 56, 12), code, root};
    return fault;
}

bool same_fault(struct fault one, struct fault other)
{
    return one.page == other.page && one.code == other.code && one.root == other.root;
}

struct journal decode_journal(const uint8_t *bytes)
{
    struct journal journal = {.held = word_at(bytes), .lost = word_at(bytes + 8), .reports = word_at(bytes + 16)};
    for (unsigned i = 0; i < JOURNAL_REST; i++)
        journal.rest[i] = word_at(bytes + 8 * (3 + i));
    for (unsigned i = 0; i < JOURNAL_RECORDS; i++) {
        const uint8_t *words = bytes + 8 * (8 + 5 * i);
        struct fault fault = {word_at(words), word_at(words + 8), word_at(words + 16)};
        struct journal_record record = {fault, word_at(words + 24), word_at(words + 32)};
        journal.records[i] = record;
    }
    return journal;
}

void encode_journal(const struct journal *journal, uint8_t *bytes)
{
    put_word(bytes, journal->held);
    put_word(bytes + 8, journal->lost);
    put_word(bytes + 16, journal->reports);
    for (unsigned i = 0; i < JOURNAL_REST; i++)
        put_word(bytes + 8 * (3 + i), journal->rest[i]);
    for (unsigned i = 0; i < JOURNAL_RECORDS; i++) {
        const struct journal_record *record = &journal->records[i];
        uint8_t *words = bytes + 8 * (8 + 5 * i);
        put_word(words, record->fault.page);
        put_word(words + 8, record->fault.code);
        put_word(words + 16, record->fault.root);
        put_word(words + 24, record->first);
        put_word(words + 32, record->repeats);
    }
}

/* How many records held have repeats above the largest count. */
static unsigned high_repeats(const struct journal *journal)
{
    unsigned high = 0;
    for (unsigned i = 0; i < journal->held; i++)
        high += journal->records[i].repeats > count_max;
    return high;
}

/* Refusal 9, save by the length. */
static bool unfit(const struct journal *journal)
{
    return journal->held > JOURNAL_RECORDS || journal->lost > count_max || journal->reports > count_max ||
           high_repeats(journal) > 0;
}

/* The first record held that is equal to a fault, or the number held. */
static unsigned first_equal(const struct journal *journal, struct fault fault)
{
    unsigned number = 0;
    while (number < journal->held && !same_fault(journal->records[number].fault, fault))
        number++;
    return number;
}

static void count_refusal(const struct journal *journal, struct fault fault)
{
    if (journal->lost > count_max)
        event(EVENT_REPORT_LOST);
    if (journal->reports > count_max)
        event(EVENT_REPORT_REPORTS);
    if (journal->held > JOURNAL_RECORDS) {
        event(EVENT_REPORT_HELD);
        return;
    }
    unsigned high = high_repeats(journal), equal = first_equal(journal, fault);
    if (high == 0)
        return;
    event(EVENT_REPORT_REPEATS);
    if (high == 1 && journal->records[journal->held - 1].repeats > count_max)
        event(EVENT_REPORT_REPEATS_LAST);
    bool before = true;
    for (unsigned i = 0; i <= equal && i < journal->held; i++)
        before = before && journal->records[i].repeats <= count_max;
    if (before && equal < journal->held)
        event(EVENT_REPORT_REPEATS_BEHIND);
}

/* What a report that is done met and left alone. */
static void count_taken(const struct journal *journal)
{
    bool not_held = false, first = false, rest = false;
    for (unsigned i = 0; i < JOURNAL_RECORDS; i++)
        if (i < journal->held)
            first = first || journal->records[i].first > count_max;
        else
            not_held = not_held || journal->records[i].repeats > count_max;
    for (unsigned i = 0; i < JOURNAL_REST; i++)
        rest = rest || journal->rest[i] != 0;
    if (not_held)
        event(EVENT_TAKEN_NOT_HELD);
    if (first)
        event(EVENT_TAKEN_FIRST);
    if (rest)
        event(EVENT_TAKEN_REST);
}

static void count_equal(const struct journal *journal, struct fault fault, uint64_t address)
{
    unsigned equal = 0;
    for (unsigned i = 0; i < journal->held; i++)
        equal += same_fault(journal->records[i].fault, fault);
    event(equal == 1 ? EVENT_EQUAL : EVENT_EQUAL_SEVERAL);
    if (first_equal(journal, fault) == JOURNAL_RECORDS - 1)
        event(EVENT_EQUAL_LAST);
    if (bits(address, 11, 0) != 0)
        event(EVENT_EQUAL_BIT_BELOW);
    if (bits(address, 63, 57) != 0)
        event(EVENT_EQUAL_BIT_ABOVE);
}

/* A fault that no record held is equal to: which are nearly, and whether one behind them is. */
static void count_unequal(const struct journal *journal, struct fault fault)
{
    bool page = false, code = false, root = false, behind = false;
    for (unsigned i = 0; i < JOURNAL_RECORDS; i++) {
        struct fault other = journal->records[i].fault;
        bool held = i < journal->held;
        page = page || (held && other.page != fault.page && other.code == fault.code && other.root == fault.root);
        code = code || (held && other.page == fault.page && other.code != fault.code && other.root == fault.root);
        root = root || (held && other.page == fault.page && other.code == fault.code && other.root != fault.root);
        behind = behind || (!held && same_fault(other, fault));
    }
    if (page)
        event(EVENT_OTHER_PAGE);
    if (code)
        event(EVENT_OTHER_CODE);
    if (root)
        event(EVENT_OTHER_ROOT);
    if (behind)
        event(EVENT_NEW_BEHIND);
}

/* Adds one to a count, which stops. */
static void add_one(uint64_t *count, enum event reaches, enum event stops)
{
    if (*count == count_max) {
        event(stops);
        return;
    }
    *count += 1;
    if (*count == count_max)
        event(reaches);
}

static void take_place(struct journal *journal, struct fault fault)
{
    struct journal_record record = {fault, journal->reports, 0};
    event(journal->held == 0 ? EVENT_NEW : journal->held < JOURNAL_RECORDS - 1 ? EVENT_NEW_NEXT : EVENT_NEW_LAST);
    if (journal->reports == count_max)
        event(EVENT_FIRST_STOPS);
    journal->records[journal->held] = record;
    journal->held++;
}

static void report(struct journal *journal, struct fault fault)
{
    unsigned equal = first_equal(journal, fault);
    add_one(&journal->reports, EVENT_REPORTS_REACHES, EVENT_REPORTS_STOPS);
    if (equal < journal->held) {
        add_one(&journal->records[equal].repeats, EVENT_REPEATS_REACHES, EVENT_REPEATS_STOPS);
    } else if (journal->held < JOURNAL_RECORDS) {
        take_place(journal, fault);
    } else {
        event(EVENT_LOST);
        add_one(&journal->lost, EVENT_LOST_REACHES, EVENT_LOST_STOPS);
    }
}

uint64_t model_journal_report(uint8_t *bytes, size_t length, uint64_t address, uint64_t code, uint64_t root)
{
    if (length != JOURNAL_BYTES) {
        event(bytes == NULL ? EVENT_REPORT_NULL : EVENT_REPORT_LENGTH);
        return 9;
    }
    struct journal journal = decode_journal(bytes);
    struct fault fault = fault_of(address, code, root);
    if (unfit(&journal)) {
        count_refusal(&journal, fault);
        return 9;
    }
    count_taken(&journal);
    if (first_equal(&journal, fault) < journal.held)
        count_equal(&journal, fault, address);
    else
        count_unequal(&journal, fault);
    report(&journal, fault);
    encode_journal(&journal, bytes);
    return 0;
}

uint64_t model_journal_clear(uint8_t *bytes, size_t length)
{
    if (length != JOURNAL_BYTES) {
        event(bytes == NULL ? EVENT_CLEAR_NULL : EVENT_CLEAR_LENGTH);
        return 9;
    }
    struct journal journal = decode_journal(bytes);
    event(EVENT_CLEAR_DONE);
    if (unfit(&journal))
        event(EVENT_CLEAR_OF_REFUSED);
    memset(bytes, 0, JOURNAL_BYTES);
    return 0;
}
