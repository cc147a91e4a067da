/*
 * The journal of request W-202 once more, in plain C, written from its text alone, slow and simple: a clear, one report, and
 * what the whole history of reports since a clear says. The first two count what happens (events.h).
 */
#ifndef MODEL_JOURNAL_H
#define MODEL_JOURNAL_H

#include <stdbool.h>
#include <stddef.h>
#include <stdint.h>

enum { JOURNAL_BYTES = 2624, JOURNAL_WORDS = 328, JOURNAL_RECORDS = 64, JOURNAL_REST = 5 };

struct fault {
    uint64_t page, code, root;
};

struct journal_record {
    struct fault fault;
    uint64_t first, repeats;
};

struct journal {
    uint64_t held, lost, reports;
    uint64_t rest[JOURNAL_REST]; /* words 3 to 7 */
    struct journal_record records[JOURNAL_RECORDS];
};

struct fault fault_of(uint64_t address, uint64_t code, uint64_t root);
bool same_fault(struct fault one, struct fault other);
struct journal decode_journal(const uint8_t *bytes);
void encode_journal(const struct journal *journal, uint8_t *bytes);

uint64_t model_journal_clear(uint8_t *bytes, size_t length);
uint64_t model_journal_report(uint8_t *bytes, size_t length, uint64_t address, uint64_t code, uint64_t root);

/* The journal by all reports since a clear, not step by step: which faults came first, and how often each was reported. */
struct journal model_history(const struct fault *history, size_t reports);

#endif
