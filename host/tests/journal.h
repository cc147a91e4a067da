/* The two parts of the journal's test. Each says what differs, and gives whether nothing does. */
#ifndef JOURNAL_H
#define JOURNAL_H

#include <stdbool.h>
#include <stdint.h>

/* A guest's faults, reported one by one, against the model of their whole history. */
bool history_agrees(uint64_t seed);
/* Journals made by hand, from one number on, against the model of one call. */
enum { MADE_JOURNALS = 20000 };
bool made_journals_agree(uint64_t seed, uint64_t first, uint64_t count);

#endif
