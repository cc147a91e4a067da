/*
 * pastrulow: x86-64 address translation with a translation buffer, and a journal of page faults, for a host in C or C++.
 *
 * The translator's eight calls: the host keeps the whole state in an image of 2,048 bytes and lends it to each of them. Seven
 * of them write an answer record of 32 bytes and return the refusal number, or 0. The eighth, translate_many, writes a record
 * for each of many addresses, and returns the refusal number of the whole call, which is 10, or 0.
 * The journal's two calls: the host lends a journal of 2,624 bytes and nothing else. They write no answer record, and return
 * the refusal number, which is 9, or 0. A host that wants no journal need not have one.
 * The library keeps nothing between calls.
 *
 * What a host owes:
 *   - each pointer is good for as many bytes as the length beside it says, to read and, pairs aside, to write; a pointer may be
 *     NULL if its length is 0; no alignment is asked for;
 *   - the slices of one call (image, low, high, pairs, answer or answers) do not overlap; nor does a journal overlap what
 *     another call is lent at the same time;
 *   - an image, an answer, the answers of many and a journal are each lent to one call at a time, and guest memory to one
 *     translate or translate_many at a time, which reads table entries there and sets their accessed and dirty bits by plain
 *     loads and stores. Where several processors share guest memory, each with its own image, the host needs a lock of its own
 *     around these two, and around other writes to tables; images that share no guest memory need no care. Where they share a
 *     journal, it needs one around the journal's calls;
 *   - lengths are in bytes. A wrong length is no error of the host's: the call refuses it.
 *
 * Between calls the image is best left alone. An image made or changed by hand is safe to lend, and each call follows the same
 * rules on it, but what it answers from its buffer is then what the host wrote there. The same holds of a journal and of what
 * it says.
 */
#ifndef PASTRULOW_H
#define PASTRULOW_H

#include <stddef.h>
#include <stdint.h>
#include <string.h>

#ifdef __cplusplus
extern "C" {
#endif

/*
 * The version of the calls, raised whenever the parameters or the meaning of an exported call change. The archive has the same
 * number, and a host should compare the two at its start. This does not help a host that does not ask; and nothing checks the
 * declarations below against the archive. A call that is new raises nothing: with an archive that lacks it a host does not
 * link.
 *   2: a fault's code has PASTRULOW_CODE_FETCH only while NXE is on; in version 1 every fetch had it
 *   3: translate takes AC, after the address; SMEP and SMAP are flags, and with SMEP on a fetch's fault has
 *      PASTRULOW_CODE_FETCH too
 *   4: translate and translate_many take guest memory as two slices, low and high; low has a limit (refusal 4)
 *   5: start leaves write protect on; start_with is new, and with flags 0 it is the start of before
 */
#define PASTRULOW_VERSION UINT64_C(5)
uint64_t pastrulow_version(void);

/* Lengths in bytes. */
#define PASTRULOW_IMAGE_BYTES 2048
#define PASTRULOW_ANSWER_BYTES 32
#define PASTRULOW_PAGE_BYTES 4096
#define PASTRULOW_PAIR_BYTES 16

/*
 * Guest memory is lent as two slices of whole pages: low, from physical address 0 up, and high, from 4 GiB up. A machine
 * without RAM above 4 GiB lends NULL and 0 as high. Between low's end and 4 GiB lies the hole, where a machine has devices and
 * no RAM. An address in the hole, or past high's end, is outside guest memory: a table entry there reads as all ones, and is
 * not marked.
 */
#define PASTRULOW_LOW_MAX UINT64_C(0xB0000000)    /* bytes of low, at most; high has no limit */
#define PASTRULOW_HIGH_BASE UINT64_C(0x100000000) /* the physical address of high's first byte */

/* The pairs that translate_many takes, at most. */
#define PASTRULOW_PAIRS_MAX 64

/* The physical width that a start takes, in bits. */
#define PASTRULOW_WIDTH_MIN 36
#define PASTRULOW_WIDTH_MAX 52

/* Flags of a mode write, and of start_with. */
#define PASTRULOW_PG UINT64_C(1)     /* paging */
#define PASTRULOW_WP UINT64_C(2)     /* read-only pages bind a supervisor's writes too */
#define PASTRULOW_PGE UINT64_C(4)    /* global pages */
#define PASTRULOW_PCIDE UINT64_C(8)  /* the low 12 bits of CR3 are the PCID */
#define PASTRULOW_NXE UINT64_C(16)   /* bit 63 of an entry bars fetches; reserved while this is off */
#define PASTRULOW_SMEP UINT64_C(32)  /* the supervisor fetches from no user page */
#define PASTRULOW_SMAP UINT64_C(64)  /* the supervisor reads and writes no user page, unless AC is set */

/* Parts of a value for CR3: the PCID, while PCIDE is on; and bit 63, to drop nothing, which is not stored. */
#define PASTRULOW_CR3_PCID UINT64_C(0xFFF)
#define PASTRULOW_CR3_KEEP (UINT64_C(1) << 63)

/* Access kinds. */
#define PASTRULOW_READ UINT64_C(0)
#define PASTRULOW_WRITE UINT64_C(1)
#define PASTRULOW_FETCH UINT64_C(2)
#define PASTRULOW_USER_READ UINT64_C(3)
#define PASTRULOW_USER_WRITE UINT64_C(4)
#define PASTRULOW_USER_FETCH UINT64_C(5)

/* INVPCID types. */
#define PASTRULOW_INVPCID_ADDRESS UINT64_C(0)    /* one address of one PCID, not global */
#define PASTRULOW_INVPCID_PCID UINT64_C(1)       /* one PCID, not global */
#define PASTRULOW_INVPCID_ALL UINT64_C(2)        /* everything */
#define PASTRULOW_INVPCID_NOT_GLOBAL UINT64_C(3) /* everything that is not global */

/* Answer kinds: the first word of the record. */
#define PASTRULOW_ADDRESS UINT64_C(0) /* value: the physical address */
#define PASTRULOW_FAULT UINT64_C(1)   /* value: the page fault's code */
#define PASTRULOW_REFUSED UINT64_C(2) /* value: the refusal number */
#define PASTRULOW_DONE UINT64_C(3)    /* value: 0 */

/* Bits of a page fault's code. */
#define PASTRULOW_CODE_PRESENT UINT64_C(1)   /* the entry was there: reserved bit or protection */
#define PASTRULOW_CODE_WRITE UINT64_C(2)     /* the access was a write */
#define PASTRULOW_CODE_USER UINT64_C(4)      /* the access was a user's */
#define PASTRULOW_CODE_RESERVED UINT64_C(8)  /* a reserved bit was set */
#define PASTRULOW_CODE_FETCH UINT64_C(16)    /* the access was a fetch, with NXE or SMEP on; with both off a fetch has a read's
                                                code */

/*
 * Refusals of the translator's calls; the journal's is below. If several apply, the lowest is given, but 10 before all others.
 * Refusals 1 and 10 write nothing; the others write only the record, and neither the image nor guest memory changes. Those of
 * translate are in translate_many each pair's own, and stand in its record alone.
 */
#define PASTRULOW_REFUSED_ANSWER UINT64_C(1)  /* all but translate_many: the answer is not 32 bytes long */
#define PASTRULOW_REFUSED_IMAGE UINT64_C(2)   /* all: the image is not 2,048 bytes long; start and start_with: the width is not
                                                 36 to 52; the others: the image holds such a width, a flag that does not exist,
                                                 a bit after the victim numbers, or a byte other than 0 after the slots */
#define PASTRULOW_REFUSED_KIND UINT64_C(3)    /* translate: no such access kind */
#define PASTRULOW_REFUSED_MEMORY UINT64_C(4)  /* translate: low or high is not whole pages, or low is longer than its limit */
#define PASTRULOW_REFUSED_ADDRESS UINT64_C(5) /* translate: not canonical with paging on; above 32 bits with paging off */
#define PASTRULOW_REFUSED_CR3 UINT64_C(6)     /* CR3 write: a bit from the width up to 62, or bit 63 with PCIDE off */
#define PASTRULOW_REFUSED_MODE UINT64_C(7)    /* mode write: no such flag; PCIDE without PG; PCIDE turned on while the low 12
                                                 bits of CR3 are not 0; start_with: as a mode write from flags 0 and CR3 0 */
#define PASTRULOW_REFUSED_INVPCID UINT64_C(8) /* INVPCID: no such type; PCID above 4095; type 0 and the address not canonical;
                                                 type 0 or 1, PCIDE off and the PCID not 0 */
#define PASTRULOW_REFUSED_PAIRS UINT64_C(10)  /* translate_many: the pairs' length is no multiple of 16, or they are more
                                                 than 64; or the answers' length is not 32 a pair */

/*
 * Makes a new image for a machine of this physical width: write protect on and all other flags off, CR3 0, buffer empty. What
 * the image held before is not read. A mode write sets all flags, so one that turns paging on keeps write protect only if it
 * names both. A host that needs all flags off, such as a loader or a replay of traces that were written for version 4, calls
 * start_with with flags 0 instead.
 */
uint64_t pastrulow_start(uint8_t *image, size_t image_len, uint64_t width, uint8_t *answer, size_t answer_len);

/*
 * The same, with these flags. They are judged as those of a mode write from flags 0 and CR3 0, so PCIDE is taken with PG and
 * refused without (refusal 7). With PG on, paging is on at once, and the root is 0 until the first CR3 write.
 */
uint64_t pastrulow_start_with(uint8_t *image, size_t image_len, uint64_t width, uint64_t flags, uint8_t *answer,
                              size_t answer_len);

/*
 * Translates an address for one access, from the buffer or by a walk that sets accessed and dirty bits in guest memory. AC is
 * the processor's flag of that name (bit 18 of RFLAGS), set by any number but 0, so that rflags & 0x40000 will do; it is asked
 * for only by a supervisor's read or write while SMAP is on. A page is a user page if each entry that leads to it says so.
 * Which rights are needed goes by the flags and by AC of now, of a page that is held too.
 */
uint64_t pastrulow_translate(uint8_t *image, size_t image_len, uint8_t *low, size_t low_len, uint8_t *high, size_t high_len,
                             uint64_t kind, uint64_t address, uint64_t ac, uint8_t *answer, size_t answer_len);

/*
 * Translates up to 64 addresses in one call. The pairs, which pastrulow_put_pair writes, are judged one after the other:
 * records, image and guest memory are those of as many calls of translate in that order, with AC 0, each lent what the one
 * before left.
 * The answers are a record of 32 bytes a pair, in the pairs' order, which a host reads one by one:
 * pastrulow_read_answer(answers + PASTRULOW_ANSWER_BYTES * i).
 * The call's own number is 10, and then nothing is written, or 0, whatever the records say: refusals from 2 on stand in the
 * records, and the pairs after a refused one are judged all the same. No pairs and no answers are no refusal.
 */
uint64_t pastrulow_translate_many(uint8_t *image, size_t image_len, uint8_t *low, size_t low_len, uint8_t *high,
                                  size_t high_len, const uint8_t *pairs, size_t pairs_len, uint8_t *answers,
                                  size_t answers_len);

/* The INVLPG instruction: drops what the buffer holds for this address under the current PCID, global pages too; of an address
   that is not canonical nothing, which is no refusal. */
uint64_t pastrulow_invlpg(uint8_t *image, size_t image_len, uint64_t address, uint8_t *answer, size_t answer_len);

/* The INVPCID instruction: drops by type; the address is looked at for type 0 only. */
uint64_t pastrulow_invpcid(uint8_t *image, size_t image_len, uint64_t type, uint64_t pcid, uint64_t address, uint8_t *answer,
                           size_t answer_len);

/* A write to CR3: sets the table root and the PCID, and drops that PCID's pages that are not global unless bit 63 says keep. */
uint64_t pastrulow_write_cr3(uint8_t *image, size_t image_len, uint64_t value, uint8_t *answer, size_t answer_len);

/* Sets all seven flags; drops everything if PG, PGE, PCIDE or NXE changes, and nothing if only WP, SMEP or SMAP does: by these
   rights are judged, at each translate anew. */
uint64_t pastrulow_write_mode(uint8_t *image, size_t image_len, uint64_t flags, uint8_t *answer, size_t answer_len);

/*
 * A saved state, which is a width, flags, and CR3 without bit 63, is loaded by four calls, always in this order: start_with the
 * width and the flags less PG and PCIDE; the CR3 write with its low 12 bits 0, so that the root is there when paging is turned
 * on, and PCIDE can be (refusal 7); the mode write with all the flags; the CR3 write again, with the whole value. None is
 * refused if calls have led to that state before. The buffer is then empty, and no root but the saved one was in force while
 * paging was on.
 */

/* The record, read. */
struct pastrulow_answer {
    uint64_t kind;  /* address, fault, refused or done */
    uint64_t value; /* as the kind says */
    uint64_t size;  /* length of the page in bytes; 0 unless an address was given with paging on */
    uint64_t read;  /* table entries read: 0 if there was no walk, else one a level from 4 down, so that the walk stopped at
                       level 5 - read. A fault has always read at least one */
};

/* Whether the host is known to be little-endian. It may be defined beforehand: 0 is right, and slower, on every host. */
#ifndef PASTRULOW_LITTLE_ENDIAN
#if defined(_WIN32) || (defined(__BYTE_ORDER__) && __BYTE_ORDER__ == __ORDER_LITTLE_ENDIAN__)
#define PASTRULOW_LITTLE_ENDIAN 1
#else
#define PASTRULOW_LITTLE_ENDIAN 0
#endif
#endif

/* One little-endian word of 64 bits, on a host of either byte order. */
static inline uint64_t pastrulow_word(const uint8_t *bytes)
{
    uint64_t word = 0;
#if PASTRULOW_LITTLE_ENDIAN
    memcpy(&word, bytes, sizeof word);
#else
    for (int i = 7; i >= 0; i--)
        word = word << 8 | bytes[i];
#endif
    return word;
}

/* Writes such a word. */
static inline void pastrulow_put_word(uint8_t *bytes, uint64_t word)
{
#if PASTRULOW_LITTLE_ENDIAN
    memcpy(bytes, &word, sizeof word);
#else
    for (int i = 0; i < 8; i++)
        bytes[i] = (uint8_t)(word >> 8 * i);
#endif
}

/* Writes one of the pairs that translate_many is lent, numbered from 0: two words, the access kind and the address. */
static inline void pastrulow_put_pair(uint8_t *pairs, size_t number, uint64_t kind, uint64_t address)
{
    uint8_t *pair = pairs + PASTRULOW_PAIR_BYTES * number;
    pastrulow_put_word(pair, kind);
    pastrulow_put_word(pair + 8, address);
}

/* Reads a record of 32 bytes that a call has written. */
static inline struct pastrulow_answer pastrulow_read_answer(const uint8_t *answer)
{
    struct pastrulow_answer read;
    read.kind = pastrulow_word(answer);
    read.value = pastrulow_word(answer + 8);
    read.size = pastrulow_word(answer + 16);
    read.read = pastrulow_word(answer + 24);
    return read;
}

/* The table root in force: CR3's bits from 12 up to the width, which an image made by hand may have of any size. */
static inline uint64_t pastrulow_root(const uint8_t *image)
{
    uint64_t width = pastrulow_word(image), cr3 = pastrulow_word(image + 16);
    uint64_t below = width < 64 ? (UINT64_C(1) << width) - 1 : UINT64_MAX;
    return cr3 & below & ~UINT64_C(0xFFF);
}

/*
 * The first byte of the 4 KiB page of guest memory that holds a physical address, such as translate answers; NULL if the
 * address is outside guest memory, or if translate would refuse this memory (refusal 4). Unless it is NULL, the address's own
 * byte is the one at physical % PASTRULOW_PAGE_BYTES from there. A guest's larger page may lie in guest memory in part only: a
 * host asks for each 4 KiB of it.
 */
static inline uint8_t *pastrulow_page(uint8_t *low, size_t low_len, uint8_t *high, size_t high_len, uint64_t physical)
{
    uint64_t within = physical % PASTRULOW_PAGE_BYTES;
    if (low_len % PASTRULOW_PAGE_BYTES != 0 || high_len % PASTRULOW_PAGE_BYTES != 0 || low_len > PASTRULOW_LOW_MAX)
        return NULL;
    if (physical < low_len)
        return low + (physical - within);
    if (physical >= PASTRULOW_HIGH_BASE && physical - PASTRULOW_HIGH_BASE < high_len)
        return high + (physical - PASTRULOW_HIGH_BASE - within);
    return NULL;
}

/*
 * The journal: which page faults a guest has met, each once however often it was tried again.
 *
 * The host clears a journal before its first report and whenever it wants to begin anew, and reports each fault that translate
 * answers. Two faults are equal if page, code and root are. A fault that no record held is equal to takes the next place, until
 * 64 are held: those that come first keep their places. From then on a report of any other fault is only counted, as lost.
 *
 * The bytes are 328 little-endian words of 64 bits:
 *   word 0       records held, 0 to 64
 *   word 1       lost: reports of faults that found no place
 *   word 2       reports since the clear
 *   words 3 to 7 0 after a clear; a report neither reads nor writes them
 *   words 8 on   64 records of five words each, record i at byte 64 + 40 * i: page, code, root, first, repeats
 * All counts (lost, reports, first, repeats) stop at 2^32 - 1.
 */
#define PASTRULOW_JOURNAL_BYTES 2624
#define PASTRULOW_JOURNAL_RECORDS 64
#define PASTRULOW_COUNT_MAX UINT64_C(0xFFFFFFFF)

/* The one refusal of the journal's calls. A refused call changes nothing. Of records that are not held nothing is asked. */
#define PASTRULOW_REFUSED_JOURNAL UINT64_C(9) /* both calls: the journal is not 2,624 bytes long; report: it holds more than 64
                                                 records, or its lost, its reports or the repeats of a record held are above
                                                 2^32 - 1 */

/* Sets every byte of the journal to 0. What it held before is not read. */
uint64_t pastrulow_journal_clear(uint8_t *journal, size_t journal_len);

/*
 * Reports a page fault: the address that was translated, the code that was answered, and the table root in force at that time,
 * which pastrulow_root reads. Any three numbers are taken; of the address only bits 56 to 12 are looked at. A fault equal to
 * records held adds one to the repeats of the first of them.
 */
uint64_t pastrulow_journal_report(uint8_t *journal, size_t journal_len, uint64_t address, uint64_t code, uint64_t root);

/* What the journal counts, read. */
struct pastrulow_journal_counts {
    uint64_t held;    /* records held: those numbered 0 to held - 1 */
    uint64_t lost;    /* reports of faults that found no place */
    uint64_t reports; /* reports since the clear */
};

/* Reads the counts of a journal of 2,624 bytes. */
static inline struct pastrulow_journal_counts pastrulow_read_journal_counts(const uint8_t *journal)
{
    struct pastrulow_journal_counts read;
    read.held = pastrulow_word(journal);
    read.lost = pastrulow_word(journal + 8);
    read.reports = pastrulow_word(journal + 16);
    return read;
}

/* A record of the journal, read. */
struct pastrulow_journal_record {
    uint64_t page;    /* bits 56 to 12 of the address */
    uint64_t code;    /* the page fault's code, as it was reported */
    uint64_t root;    /* the table root, as it was reported */
    uint64_t first;   /* the number of its first report among all reports since the clear, from 1 */
    uint64_t repeats; /* how often it was reported again */
};

/* Reads one of the 64 records, numbered from 0, of a journal of 2,624 bytes. Whether it is held the counts say. */
static inline struct pastrulow_journal_record pastrulow_read_journal_record(const uint8_t *journal, size_t number)
{
    const uint8_t *record = journal + 64 + 40 * number;
    struct pastrulow_journal_record read;
    read.page = pastrulow_word(record);
    read.code = pastrulow_word(record + 8);
    read.root = pastrulow_word(record + 16);
    read.first = pastrulow_word(record + 24);
    read.repeats = pastrulow_word(record + 32);
    return read;
}

#ifdef __cplusplus
}
#endif

#endif
