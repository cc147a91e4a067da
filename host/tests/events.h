/* What can happen in a call, by the rules of the paper. The models count each, so that a test can say what it has met. */
#ifndef EVENTS_H
#define EVENTS_H

#include <stddef.h>

/* Of the translator. Page sizes are numbered 0 (4 KiB), 1 (2 MiB), 2 (1 GiB) wherever events come in threes. A batch is a call
   of translate_many. */
#define TRANSLATOR_EVENTS(X)                                                          \
    X(HIT_4K, "hit, 4 KiB page")                                                      \
    X(HIT_2M, "hit, 2 MiB page")                                                      \
    X(HIT_1G, "hit, 1 GiB page")                                                      \
    X(HIT_GLOBAL_OTHER, "hit, global slot tagged with another PCID")                  \
    X(HIT_FALSE_WP, "hit, supervisor's write to a read-only page with WP off")        \
    X(HIT_AC, "hit, user page under SMAP with AC set")                                \
    X(HIT_WRITE, "hit, write to a dirty slot")                                        \
    X(HIT_SECOND, "hit with a further match behind it")                               \
    X(MATCH_BARRED, "first match does not allow the access")                          \
    X(MATCH_SMEP, "first match is kept off by SMEP")                                  \
    X(MATCH_SMAP, "first match is kept off by SMAP")                                  \
    X(MATCH_CLEAN, "first match allows the write but is clean (upgrade)")             \
    X(MISS_DROP_4K, "4 KiB slots dropped before a walk")                              \
    X(MISS_DROP_2M, "2 MiB slots dropped before a walk")                              \
    X(MISS_DROP_1G, "1 GiB slots dropped before a walk")                              \
    X(MISS_DROP_SEVERAL, "misses that dropped several matches")                       \
    X(FILL_4K, "fill, 4 KiB page")                                                    \
    X(FILL_2M, "fill, 2 MiB page")                                                    \
    X(FILL_1G, "fill, 1 GiB page")                                                    \
    X(FILL_GLOBAL, "fill, global")                                                    \
    X(FILL_PGE_OFF, "fill, bit 8 set but PGE off")                                    \
    X(FILL_CLEAN, "fill, clean")                                                      \
    X(FILL_DIRTY_READ, "fill, dirty by an access that is no write")                   \
    X(FILL_GAP, "fill, a free way below a held one")                                  \
    X(EVICT_4K, "eviction, 4 KiB page")                                               \
    X(EVICT_2M, "eviction, 2 MiB page")                                               \
    X(EVICT_1G, "eviction, 1 GiB page")                                               \
    X(VICTIM_WRAPS, "victim number moves from 3 to 0")                                \
    X(ABSENT_1, "fault, not present, level 1")                                        \
    X(ABSENT_2, "fault, not present, level 2")                                        \
    X(ABSENT_3, "fault, not present, level 3")                                        \
    X(ABSENT_4, "fault, not present, level 4")                                        \
    X(RESERVED_1, "fault, reserved bit, level 1")                                     \
    X(RESERVED_2, "fault, reserved bit, level 2")                                     \
    X(RESERVED_3, "fault, reserved bit, level 3")                                     \
    X(RESERVED_4, "fault, reserved bit, level 4")                                     \
    X(PROTECTED_1, "fault, protection, level 1")                                      \
    X(PROTECTED_2, "fault, protection, level 2")                                      \
    X(PROTECTED_3, "fault, protection, level 3")                                      \
    X(FETCH_TOLD_ABSENT, "fetch's fault with NXE on, not present")                    \
    X(FETCH_TOLD_RESERVED, "fetch's fault with NXE on, reserved bit")                 \
    X(FETCH_TOLD_PROTECTED, "fetch's fault with NXE on, protection")                  \
    X(FETCH_BY_SMEP_ABSENT, "fetch's fault with NXE off and SMEP on, not present")    \
    X(FETCH_BY_SMEP_RESERVED, "fetch's fault with NXE off and SMEP on, reserved bit") \
    X(FETCH_BY_SMEP_PROTECTED, "fetch's fault with NXE off and SMEP on, protection")  \
    X(FETCH_UNTOLD_ABSENT, "fetch's fault with NXE and SMEP off, not present")        \
    X(FETCH_UNTOLD_RESERVED, "fetch's fault with NXE and SMEP off, reserved bit")     \
    X(FETCH_UNTOLD_PROTECTED, "fetch's fault with NXE and SMEP off, protection")      \
    X(RESERVED_BY_WIDTH, "reserved: a bit of 51..M")                                  \
    X(RESERVED_BY_XD, "reserved: bit 63 with NXE off")                                \
    X(RESERVED_BY_LENGTH, "reserved: a bit below a large page's base")                \
    X(RESERVED_TOP_PS, "reserved: bit 7 at level 4")                                  \
    X(ABSENT_BELOW_BARRED, "not present below an entry that forbids the access")      \
    X(BARRED_USER, "protection: user access to a supervisor's page")                  \
    X(BARRED_WRITE, "protection: write to a read-only page")                          \
    X(BARRED_FETCH, "protection: fetch from a page with bit 63")                      \
    X(BARRED_SMEP, "protection: supervisor's fetch from a user page by SMEP")         \
    X(BARRED_SMAP, "protection: supervisor's access to a user page by SMAP")          \
    X(BARRED_SMAP_FALSE_WP, "protection: supervisor's write by SMAP with WP off")     \
    X(BARRED_ABOVE, "protection: only an upper entry forbids it")                     \
    X(WALK_FALSE_WP, "walk, supervisor's write to a read-only page with WP off")      \
    X(SPARED_AC, "walk, user page under SMAP with AC set")                            \
    X(SPARED_USER, "walk, user's access under SMEP or SMAP")                          \
    X(SPARED_SUPERVISOR, "walk, page that is not user under SMEP or SMAP")            \
    X(OUTSIDE_1, "entry outside guest memory, level 1")                               \
    X(OUTSIDE_2, "entry outside guest memory, level 2")                               \
    X(OUTSIDE_3, "entry outside guest memory, level 3")                               \
    X(OUTSIDE_4, "entry outside guest memory, level 4")                               \
    X(OUTSIDE_PAGE, "page whose entry lies outside guest memory")                     \
    X(PLACE_LOW_LAST, "entry in low's last page")                                     \
    X(PLACE_LOW_END, "entry in the page at low's end")                                \
    X(PLACE_LIMIT_LAST, "entry in low's last page, low at its limit")                 \
    X(PLACE_LIMIT, "entry in the page at low's end, low at its limit")                \
    X(PLACE_NO_LOW, "entry in the page at 0, no low lent")                            \
    X(PLACE_HOLE, "entry in the hole")                                                \
    X(PLACE_BELOW_HIGH, "entry in the page just below 4 GiB")                         \
    X(PLACE_HIGH_FIRST, "entry in high's first page")                                 \
    X(PLACE_HIGH_LAST, "entry in high's last page")                                   \
    X(PLACE_HIGH_FAR, "entry in high, at 8 GiB or above")                             \
    X(PLACE_HIGH_END, "entry in the page at high's end")                              \
    X(PLACE_NO_HIGH, "entry in the page at 4 GiB, no high lent")                      \
    X(PLACE_BEYOND, "entry above the page at high's end")                             \
    X(WALK_LOW, "walk to a page, all tables in low")                                  \
    X(WALK_HIGH, "walk to a page, all tables in high")                                \
    X(WALK_UP, "walk to a page, once from low to high")                               \
    X(WALK_DOWN, "walk to a page, once from high to low")                             \
    X(WALK_UP_AND_DOWN, "walk to a page, from low to high and back")                  \
    X(WALK_DOWN_AND_UP, "walk to a page, from high to low and back")                  \
    X(ENTRY_TWICE, "successful walk that reads one word at two levels")               \
    X(ACCESSED_UPPER, "accessed bit newly set above the page's entry")                \
    X(ACCESSED_PAGE, "accessed bit newly set in the page's entry")                    \
    X(ACCESSED_LOW, "accessed bit newly set in low")                                  \
    X(ACCESSED_HIGH, "accessed bit newly set in high")                                \
    X(DIRTY_4K, "dirty bit newly set, 4 KiB page")                                    \
    X(DIRTY_2M, "dirty bit newly set, 2 MiB page")                                    \
    X(DIRTY_1G, "dirty bit newly set, 1 GiB page")                                    \
    X(DIRTY_LOW, "dirty bit newly set in low")                                        \
    X(DIRTY_HIGH, "dirty bit newly set in high")                                      \
    X(NO_LOW, "translation with no low, lent as NULL")                                \
    X(NO_HIGH, "translation with no high, lent as NULL")                              \
    X(LOW_AT_LIMIT, "translation with low at its limit")                              \
    X(HIGH_ABOVE_LIMIT, "translation with high longer than low may be")               \
    X(PAGING_OFF, "address given with paging off")                                    \
    X(START_1, "start refused 1")                                                     \
    X(START_2_LENGTH, "start refused 2, length")                                      \
    X(START_2_WIDTH, "start refused 2, width")                                        \
    X(START_DONE, "start done")                                                       \
    X(START_WITH_1, "start_with refused 1")                                           \
    X(START_WITH_2_LENGTH, "start_with refused 2, length")                            \
    X(START_WITH_2_WIDTH, "start_with refused 2, width")                              \
    X(START_WITH_2_AND_7, "start_with refused 2, the flags refused 7 too")            \
    X(START_WITH_7_VALUE, "start_with refused 7, value above 127")                    \
    X(START_WITH_7_PG, "start_with refused 7, PCIDE without PG")                      \
    X(START_WITH_DONE, "start_with done")                                             \
    X(START_WITH_PG, "start_with done, PG on")                                        \
    X(START_WITH_PCIDE, "start_with done, PCIDE on")                                  \
    X(START_WITH_OVER_PCID, "start_with done, PCIDE on over the old CR3's low bits")  \
    X(TRANSLATE_1, "translate refused 1")                                             \
    X(TRANSLATE_2, "translate refused 2")                                             \
    X(TRANSLATE_3, "translate refused 3")                                             \
    X(TRANSLATE_4_LOW, "translate refused 4, low not whole pages")                    \
    X(TRANSLATE_4_LIMIT, "translate refused 4, low above its limit")                  \
    X(TRANSLATE_4_HIGH, "translate refused 4, high not whole pages")                  \
    X(TRANSLATE_5_ON, "translate refused 5, paging on")                               \
    X(TRANSLATE_5_OFF, "translate refused 5, paging off")                             \
    X(BATCH_10_RAGGED, "batch refused 10, pair bytes no multiple of 16")              \
    X(BATCH_10_PAIRS, "batch refused 10, more than 64 pairs")                         \
    X(BATCH_10_FEWER, "batch refused 10, too few answer bytes")                       \
    X(BATCH_10_MORE, "batch refused 10, too many answer bytes")                       \
    X(BATCH_10_IMAGE, "batch refused 10, the image unfit too")                        \
    X(BATCH_NONE, "batch of no pairs")                                                \
    X(BATCH_NONE_IMAGE, "batch of no pairs, the image unfit")                         \
    X(BATCH_ONE, "batch of one pair")                                                 \
    X(BATCH_64, "batch of 64 pairs")                                                  \
    X(PAIR_2, "pair refused 2")                                                       \
    X(PAIR_3, "pair refused 3")                                                       \
    X(PAIR_4, "pair refused 4")                                                       \
    X(PAIR_5, "pair refused 5")                                                       \
    X(PAIR_AFTER_REFUSED, "pair not refused, the one before refused")                 \
    X(PAIR_AFTER_FAULT, "pair given an address, the one before a fault")              \
    X(PAIR_PAGING_OFF, "pair given an address with paging off")                       \
    X(BATCH_3_AND_4, "batch with pairs refused 3 and 4")                              \
    X(PAIR_HIT_4K, "pair's hit, 4 KiB slot that an earlier pair filled")              \
    X(PAIR_HIT_2M, "pair's hit, 2 MiB slot that an earlier pair filled")              \
    X(PAIR_HIT_1G, "pair's hit, 1 GiB slot that an earlier pair filled")              \
    X(PAIR_DROPS, "pair drops a slot that an earlier pair filled")                    \
    X(PAIR_EVICTS, "pair evicts a slot that an earlier pair filled")                  \
    X(PAIR_READS_MARK, "pair's walk reads a word in which an earlier pair set a bit") \
    X(INVLPG_1, "INVLPG refused 1")                                                   \
    X(INVLPG_2, "INVLPG refused 2")                                                   \
    X(INVLPG_OUTSIDE, "INVLPG done, address not canonical")                           \
    X(INVLPG_DROP_4K, "INVLPG drops a 4 KiB slot")                                    \
    X(INVLPG_DROP_2M, "INVLPG drops a 2 MiB slot")                                    \
    X(INVLPG_DROP_1G, "INVLPG drops a 1 GiB slot")                                    \
    X(INVLPG_DROP_GLOBAL, "INVLPG drops a global slot")                               \
    X(INVLPG_SPARES, "INVLPG spares another PCID's slot of the address")              \
    X(INVPCID_1, "INVPCID refused 1")                                                 \
    X(INVPCID_2, "INVPCID refused 2")                                                 \
    X(INVPCID_8_TYPE, "INVPCID refused 8, type")                                      \
    X(INVPCID_8_PCID, "INVPCID refused 8, PCID above 4095")                           \
    X(INVPCID_8_ADDRESS, "INVPCID refused 8, address")                                \
    X(INVPCID_8_OFF, "INVPCID refused 8, PCID with PCIDE off")                        \
    X(INVPCID_0_DROP, "INVPCID type 0 drops a slot")                                  \
    X(INVPCID_0_SPARES, "INVPCID type 0 spares a global slot of the address")         \
    X(INVPCID_1_DROP, "INVPCID type 1 drops a slot")                                  \
    X(INVPCID_1_SPARES, "INVPCID type 1 spares a global slot of the PCID")            \
    X(INVPCID_2_DROP, "INVPCID type 2 drops a slot")                                  \
    X(INVPCID_3_DROP, "INVPCID type 3 drops a slot")                                  \
    X(INVPCID_3_SPARES, "INVPCID type 3 spares a global slot")                        \
    X(CR3_1, "CR3 write refused 1")                                                   \
    X(CR3_2, "CR3 write refused 2")                                                   \
    X(CR3_6_BITS, "CR3 write refused 6, a bit of 62..M")                              \
    X(CR3_6_KEEP, "CR3 write refused 6, bit 63 with PCIDE off")                       \
    X(CR3_KEEPS, "CR3 write with bit 63, drops nothing")                              \
    X(CR3_DROP, "CR3 write drops a slot")                                             \
    X(CR3_SPARES_GLOBAL, "CR3 write spares a global slot of the PCID")                \
    X(CR3_SPARES_OTHER, "CR3 write spares another PCID's slot")                       \
    X(MODE_1, "mode write refused 1")                                                 \
    X(MODE_2, "mode write refused 2")                                                 \
    X(MODE_7_VALUE, "mode write refused 7, value above 127")                          \
    X(MODE_7_PG, "mode write refused 7, PCIDE without PG")                            \
    X(MODE_7_CR3, "mode write refused 7, PCIDE turned on over CR3's low bits")        \
    X(MODE_DROP, "mode write drops a slot")                                           \
    X(MODE_KEEPS, "mode write that changes WP and keeps slots")                       \
    X(MODE_KEEPS_SMEP, "mode write that changes SMEP and keeps slots")                \
    X(MODE_KEEPS_SMAP, "mode write that changes SMAP and keeps slots")                \
    X(IMAGE_LENGTH, "refusal 2 by the image's length")                                \
    X(IMAGE_WIDTH, "refusal 2 by word 0")                                             \
    X(IMAGE_FLAGS, "refusal 2 by word 1")                                             \
    X(IMAGE_VICTIMS, "refusal 2 by word 3")                                           \
    X(IMAGE_REST, "refusal 2 by words 204 to 255")                                    \
    X(DROP_NOT_HELD, "a slot that is not held but not zero is dropped")

/* Of the journal. */
#define JOURNAL_EVENTS(X)                                                                       \
    X(REPORT_NULL, "report refused: no bytes, lent as NULL")                                    \
    X(REPORT_LENGTH, "report refused: another length")                                          \
    X(REPORT_HELD, "report refused: more than 64 held")                                         \
    X(REPORT_LOST, "report refused: lost above 2^32 - 1")                                       \
    X(REPORT_REPORTS, "report refused: reports above 2^32 - 1")                                 \
    X(REPORT_REPEATS, "report refused: repeats of a record held above 2^32 - 1")                \
    X(REPORT_REPEATS_LAST, "report refused: such repeats in the last record held alone")        \
    X(REPORT_REPEATS_BEHIND, "report refused: such repeats, and an equal record before them")   \
    X(EQUAL, "report equal to one record held")                                                 \
    X(EQUAL_SEVERAL, "report equal to several records held")                                    \
    X(EQUAL_LAST, "report equal to record 63 alone")                                            \
    X(EQUAL_BIT_BELOW, "report equal to a record, the address with a bit below 12")             \
    X(EQUAL_BIT_ABOVE, "report equal to a record, the address with a bit above 56")             \
    X(NEW, "new fault, record 0")                                                               \
    X(NEW_NEXT, "new fault, a record from 1 to 62")                                             \
    X(NEW_LAST, "new fault, record 63")                                                         \
    X(NEW_BEHIND, "new fault, equal to a record that is not held")                              \
    X(LOST, "lost")                                                                             \
    X(OTHER_PAGE, "new fault or lost: a record held differs in page alone")                     \
    X(OTHER_CODE, "new fault or lost: a record held differs in code alone")                     \
    X(OTHER_ROOT, "new fault or lost: a record held differs in root alone")                     \
    X(LOST_REACHES, "lost reaches 2^32 - 1")                                                    \
    X(LOST_STOPS, "lost stops at 2^32 - 1")                                                     \
    X(REPORTS_REACHES, "reports reaches 2^32 - 1")                                              \
    X(REPORTS_STOPS, "reports stops at 2^32 - 1")                                               \
    X(FIRST_STOPS, "new fault, its first stops at 2^32 - 1")                                    \
    X(REPEATS_REACHES, "repeats reaches 2^32 - 1")                                              \
    X(REPEATS_STOPS, "repeats stops at 2^32 - 1")                                               \
    X(TAKEN_NOT_HELD, "report done: repeats above 2^32 - 1 in a record not held")               \
    X(TAKEN_FIRST, "report done: first above 2^32 - 1 in a record held")                        \
    X(TAKEN_REST, "report done: words 3 to 7 not zero")                                         \
    X(CLEAR_NULL, "clear refused: no bytes, lent as NULL")                                      \
    X(CLEAR_LENGTH, "clear refused: another length")                                            \
    X(CLEAR_DONE, "clear done")                                                                 \
    X(CLEAR_OF_REFUSED, "clear done of a journal that a report refuses")

enum event {
#define EVENT_NAME(name, text) EVENT_##name,
    TRANSLATOR_EVENTS(EVENT_NAME)
        EVENT_TRANSLATOR_END,
    JOURNAL_EVENTS(EVENT_NAME)
        EVENT_COUNT
#undef EVENT_NAME
};

void event(enum event which);
/* Each prints the events of one model with their counts, and gives the number of those that never happened. */
size_t translator_events_print(void);
size_t journal_events_print(void);

#endif
