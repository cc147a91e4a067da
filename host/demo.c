/*
 * An example host: the trial guest of document 01, with RAM above 4 GiB too; a few accesses, a byte of guest memory, an INVLPG,
 * a CR3 switch, a saved state with PCIDs, many addresses in one call, a user page under SMEP and SMAP, and a processor that is
 * reset; and a journal of the faults. It may be copied; it compiles as C11 and as C++17. Link it with libpastrulow.a.
 */
#include <inttypes.h>
#include <stdio.h>
#include <stdlib.h>

#include "pastrulow.h"

/* The trial guest's flags. */
#define FLAGS (PASTRULOW_PG | PASTRULOW_WP | PASTRULOW_PGE | PASTRULOW_NXE)

/* How often the guest tries again. */
#define TRIES 1000

/* All that a host keeps for one processor. */
static uint8_t image[PASTRULOW_IMAGE_BYTES];
static uint8_t low[6 * PASTRULOW_PAGE_BYTES], high[2 * PASTRULOW_PAGE_BYTES]; /* RAM from address 0 on, and from 4 GiB on */
static uint8_t record[PASTRULOW_ANSWER_BYTES];
static uint8_t journal[PASTRULOW_JOURNAL_BYTES];
static uint64_t ac; /* the processor's AC flag, which STAC sets and CLAC clears */

/* The byte at a physical address, or NULL where the machine has no RAM. */
static uint8_t *ram(uint64_t physical)
{
    uint8_t *page = pastrulow_page(low, sizeof low, high, sizeof high, physical);
    return page == NULL ? NULL : page + physical % PASTRULOW_PAGE_BYTES;
}

static void store(uint64_t physical, uint64_t word)
{
    pastrulow_put_word(ram(physical), word);
}

/* Four levels of tables at 0x1000, 0x2000, 0x3000, 0x4000; data pages at 0x5000 and where there is no RAM. Above 4 GiB one more
   table of level 1, and its page. */
static void write_tables(void)
{
    store(0x1000, 0x2007);                         /* level 4 */
    store(0x2000, 0x3007);                         /* level 3 */
    store(0x2008, 0x40000083);                     /* a 1 GiB page, supervisor's */
    store(0x3000, 0x4007);                         /* level 2 */
    store(0x3008, 0x600087);                       /* a 2 MiB page */
    store(0x3010, UINT64_C(0x100000007));          /* the table above 4 GiB */
    store(0x4000, 0x5003);                         /* level 1: a supervisor's page */
    store(0x4008, 0x5005);                         /* read-only */
    store(0x4010, UINT64_C(0x8000000000005007));   /* not executable */
    store(0x4020, UINT64_C(0x10000005007));        /* a reserved bit, as the physical width is 40 */
    store(0x4028, 0x5107);                         /* global */
    store(UINT64_C(0x100000000), UINT64_C(0x100001007)); /* its page */
}

/* A refusal means that the host has made a mistake: the header says which. */
static void must(uint64_t refusal, const char *what)
{
    if (refusal == 0)
        return;
    fprintf(stderr, "%s: refusal %" PRIu64 "\n", what, refusal);
    exit(1);
}

static void write_mode(uint64_t flags)
{
    must(pastrulow_write_mode(image, sizeof image, flags, record, sizeof record), "mode write");
}

static void write_cr3(uint64_t value)
{
    must(pastrulow_write_cr3(image, sizeof image, value, record, sizeof record), "CR3 write");
}

/* Calls of another version may take other parameters, or mean something else. */
static void check_version(void)
{
    if (pastrulow_version() == PASTRULOW_VERSION)
        return;
    fprintf(stderr, "pastrulow.h has version %" PRIu64 ", the archive version %" PRIu64 "\n", PASTRULOW_VERSION,
            pastrulow_version());
    exit(1);
}

/* A fresh image in a given state, such as a saved one. Paging comes on over the right root, and PCIDE, which cannot be turned on
   while CR3 has a PCID, before that. */
static void load_state(uint64_t width, uint64_t flags, uint64_t cr3)
{
    uint64_t early = flags & ~(PASTRULOW_PG | PASTRULOW_PCIDE);
    must(pastrulow_start_with(image, sizeof image, width, early, record, sizeof record), "start");
    write_cr3(cr3 & ~PASTRULOW_CR3_PCID);
    write_mode(flags);
    write_cr3(cr3);
}

static void clear_journal(void)
{
    must(pastrulow_journal_clear(journal, sizeof journal), "clear");
}

/* A fault goes into the journal with the root under which it came, so before CR3 is written again. */
static void report_fault(uint64_t address, uint64_t code)
{
    must(pastrulow_journal_report(journal, sizeof journal, address, code, pastrulow_root(image)), "report");
}

static struct pastrulow_answer translate(uint64_t kind, uint64_t address)
{
    pastrulow_translate(image, sizeof image, low, sizeof low, high, sizeof high, kind, address, ac, record, sizeof record);
    struct pastrulow_answer answer = pastrulow_read_answer(record);
    if (answer.kind == PASTRULOW_FAULT)
        report_fault(address, answer.value);
    return answer;
}

static const char *const names[] = {"read", "write", "fetch", "user read", "user write", "user fetch"};

/* The access as a code tells it. With NXE and SMEP off it would tell a fetch as a read. */
static const char *access_told(uint64_t code)
{
    uint64_t user = code & PASTRULOW_CODE_USER ? PASTRULOW_USER_READ : PASTRULOW_READ;
    if (code & PASTRULOW_CODE_FETCH)
        return names[user + PASTRULOW_FETCH];
    return code & PASTRULOW_CODE_WRITE ? names[user + PASTRULOW_WRITE] : names[user];
}

static const char *cause(uint64_t code)
{
    if (!(code & PASTRULOW_CODE_PRESENT))
        return "not present";
    return code & PASTRULOW_CODE_RESERVED ? "reserved bit" : "protection";
}

static void show_answer(uint64_t kind, uint64_t address, struct pastrulow_answer answer)
{
    char result[64];
    if (answer.kind == PASTRULOW_ADDRESS)
        snprintf(result, sizeof result, "0x%" PRIx64, answer.value);
    else if (answer.kind == PASTRULOW_FAULT)
        snprintf(result, sizeof result, "fault 0x%" PRIx64 ", %s", answer.value, cause(answer.value));
    else
        snprintf(result, sizeof result, "refusal %" PRIu64, answer.value);
    printf("0x%016" PRIx64 "  %-10s  %-24s  %10" PRIu64 "  %" PRIu64 "\n", address, names[kind], result, answer.size,
           answer.read);
}

static struct pastrulow_answer access_memory(uint64_t kind, uint64_t address)
{
    struct pastrulow_answer answer = translate(kind, address);
    show_answer(kind, address, answer);
    return answer;
}

/* A guest that makes one access again and again, as if it waited for the page. */
static void retry_access(uint64_t kind, uint64_t address)
{
    unsigned faults = 0;
    for (unsigned i = 0; i < TRIES; i++)
        if (translate(kind, address).kind == PASTRULOW_FAULT)
            faults++;
    printf("0x%016" PRIx64 "  %-10s  %u tries, %u faults\n", address, names[kind], (unsigned)TRIES, faults);
}

static void show_accesses(void)
{
    access_memory(PASTRULOW_READ, 0x123);
    access_memory(PASTRULOW_READ, 0x456);   /* the same page: from the buffer */
    access_memory(PASTRULOW_WRITE, 0x123);  /* held, but clean: walked again to set the dirty bit */
    access_memory(PASTRULOW_WRITE, 0x123);
    access_memory(PASTRULOW_READ, 0x212345);
    access_memory(PASTRULOW_WRITE, 0x40000010);
    access_memory(PASTRULOW_READ, 0x5000);
    access_memory(PASTRULOW_USER_READ, 0x123);
    access_memory(PASTRULOW_WRITE, 0x1000);
    access_memory(PASTRULOW_USER_FETCH, 0x2000);
    access_memory(PASTRULOW_USER_READ, 0x3000);
    access_memory(PASTRULOW_READ, 0x4000);
    access_memory(PASTRULOW_READ, UINT64_C(0x800000000000));
    retry_access(PASTRULOW_USER_READ, 0x3abc); /* as at 0x3000: the same page, code and root */
}

static void write_byte(uint64_t address, uint8_t value)
{
    struct pastrulow_answer answer = access_memory(PASTRULOW_WRITE, address);
    uint8_t *byte = answer.kind == PASTRULOW_ADDRESS ? ram(answer.value) : NULL;
    if (byte != NULL)
        *byte = value;
}

/* Where there is no RAM a host has its devices, or nothing. */
static void read_byte(uint64_t address)
{
    struct pastrulow_answer answer = access_memory(PASTRULOW_READ, address);
    if (answer.kind != PASTRULOW_ADDRESS)
        return;
    const uint8_t *byte = ram(answer.value);
    if (byte != NULL)
        printf("the byte is 0x%02x\n", *byte);
    else
        printf("there is no RAM\n");
}

static void show_bytes(void)
{
    printf("a byte above 4 GiB is written and read, and then one in the hole below\n");
    write_byte(0x400123, 0x5a);
    read_byte(0x400123);
    read_byte(0x40000010);
}

static void show_invlpg(void)
{
    printf("page 0 is unmapped, and INVLPG says so\n");
    store(0x4000, 0);
    must(pastrulow_invlpg(image, sizeof image, 0x123, record, sizeof record), "INVLPG");
    access_memory(PASTRULOW_READ, 0x123);
    access_memory(PASTRULOW_READ, 0x212345);
}

static void show_cr3_switch(void)
{
    printf("CR3 is switched to a root under which all is read-only: what is not global is dropped\n");
    store(0x0, 0x2005);
    write_cr3(0);
    access_memory(PASTRULOW_READ, 0x212345);
    access_memory(PASTRULOW_WRITE, 0x212345);
    access_memory(PASTRULOW_READ, 0x5000); /* global: still held */
    retry_access(PASTRULOW_USER_READ, 0x3abc); /* another root, so to the journal another fault */
}

static void show_saved_state(void)
{
    printf("a saved state with PCIDE on and PCID 5 is loaded: its buffer is empty\n");
    load_state(40, FLAGS | PASTRULOW_PCIDE, 0x1005);
    access_memory(PASTRULOW_READ, 0x212345);
    access_memory(PASTRULOW_READ, 0x212345);
    printf("CR3 is switched to PCID 6 and back, and nothing is dropped\n");
    write_cr3(0x1006 | PASTRULOW_CR3_KEEP);
    access_memory(PASTRULOW_READ, 0x212345); /* held for PCID 5 only */
    write_cr3(0x1005 | PASTRULOW_CR3_KEEP);
    access_memory(PASTRULOW_READ, 0x212345);
}

/* What a disassembler asks for: two places in one page, the first of them again, a page that it may not fetch from, an address
   that is not canonical, and a page that is held. */
static const uint64_t asked[] = {0x1000, 0x1ffc, 0x1000, 0x2000, UINT64_C(0x800000000000), 0x212345};
enum { ASKED = sizeof asked / sizeof *asked };
static uint8_t pairs[ASKED * PASTRULOW_PAIR_BYTES], answers[ASKED * PASTRULOW_ANSWER_BYTES];

static void put_pairs(void)
{
    for (size_t i = 0; i < ASKED; i++)
        pastrulow_put_pair(pairs, i, PASTRULOW_FETCH, asked[i]);
}

/* Neither the fault nor the refusal among them ends the call. The guest has not met this fault, so the journal is not told. */
static void show_many(void)
{
    printf("a disassembler asks for %u addresses in one call\n", (unsigned)ASKED);
    put_pairs();
    must(pastrulow_translate_many(image, sizeof image, low, sizeof low, high, sizeof high, pairs, sizeof pairs, answers,
                                  sizeof answers),
         "translate many");
    for (size_t i = 0; i < ASKED; i++)
        show_answer(PASTRULOW_FETCH, asked[i], pastrulow_read_answer(answers + PASTRULOW_ANSWER_BYTES * i));
}

/* What is held stays, and is judged by the flags and AC of now. */
static void show_user_page(void)
{
    printf("SMEP and SMAP are turned on: the supervisor is kept off user pages\n");
    write_mode(FLAGS | PASTRULOW_PCIDE | PASTRULOW_SMEP | PASTRULOW_SMAP);
    access_memory(PASTRULOW_USER_READ, 0x212345); /* still held */
    access_memory(PASTRULOW_READ, 0x212345);
    printf("AC is set, as a kernel does that copies from the user's memory\n");
    ac = 1;
    access_memory(PASTRULOW_READ, 0x212345); /* walked: the fault dropped what was held */
    access_memory(PASTRULOW_READ, 0x212345);
    access_memory(PASTRULOW_FETCH, 0x212345);
    ac = 0;
}

/* A mode write sets all flags: one that turns paging on says of write protect too whether it stays on. */
static void show_reset(void)
{
    printf("the processor is reset: it starts with write protect on, and the guest turns paging on beside it\n");
    must(pastrulow_start(image, sizeof image, 40, record, sizeof record), "start");
    write_cr3(0x1000);
    write_mode(PASTRULOW_PG | PASTRULOW_WP);
    access_memory(PASTRULOW_WRITE, 0x1000);
    printf("the guest turns write protect off\n");
    write_mode(PASTRULOW_PG);
    access_memory(PASTRULOW_WRITE, 0x1000);
}

static void show_record(size_t number)
{
    struct pastrulow_journal_record fault = pastrulow_read_journal_record(journal, number);
    char told[64];
    snprintf(told, sizeof told, "%s, %s", access_told(fault.code), cause(fault.code));
    printf("0x%012" PRIx64 "  %-26s  0x%010" PRIx64 "  %5" PRIu64 "  %7" PRIu64 "\n", fault.page, told, fault.root, fault.first,
           fault.repeats);
}

static void show_journal(void)
{
    struct pastrulow_journal_counts counts = pastrulow_read_journal_counts(journal);
    printf("the journal, of %" PRIu64 " faults\n", counts.reports);
    printf("%-14s  %-26s  %-12s  %5s  %7s\n", "page", "fault", "root", "first", "repeats");
    for (size_t i = 0; i < counts.held; i++)
        show_record(i);
    printf("%" PRIu64 " held, %" PRIu64 " lost\n", counts.held, counts.lost);
}

int main(void)
{
    check_version();
    clear_journal();
    write_tables();
    load_state(40, FLAGS, 0x1000);
    printf("%-18s  %-10s  %-24s  %10s  %s\n", "address", "kind", "result", "page size", "entries read");
    show_accesses();
    show_bytes();
    show_invlpg();
    show_cr3_switch();
    show_saved_state();
    show_many();
    show_user_page();
    show_reset();
    show_journal();
    return 0;
}
