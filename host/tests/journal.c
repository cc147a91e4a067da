/*
 * The journal's calls, the archive against the models of request W-202: a guest's faults by their whole history, and journals
 * made by hand call by call.
 *
 *     journal [SEED [JOURNAL [COUNT]]]
 *
 * runs the history and every journal under a seed, or COUNT journals (1 if not given) from one on. A run over every journal
 * also prints how often each thing that the request speaks of happened, and fails if one never did.
 */
#include "journal.h"

#include <inttypes.h>
#include <stdio.h>
#include <stdlib.h>

#include "events.h"

enum { DEFAULT_SEED = 1 };

int main(int count, char **arguments)
{
    uint64_t seed = count > 1 ? strtoull(arguments[1], NULL, 0) : DEFAULT_SEED;
    uint64_t first = count > 2 ? strtoull(arguments[2], NULL, 0) : 0;
    uint64_t journals = count > 3 ? strtoull(arguments[3], NULL, 0) : count > 2 ? 1 : MADE_JOURNALS;
    printf("journal: seed %" PRIu64 ", journals %" PRIu64 " to %" PRIu64 "\n", seed, first, first + journals - 1);
    if (!history_agrees(seed) || !made_journals_agree(seed, first, journals))
        return 1;
    bool every_journal = count <= 2;
    size_t missing = every_journal ? journal_events_print() : 0;
    if (missing > 0)
        printf("journal: %zu kinds of event never happened\n", missing);
    return missing > 0;
}
