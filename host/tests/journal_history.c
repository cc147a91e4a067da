/*
 * A guest that faults again and again, under several roots: every fault comes from translate and is reported, and the journal
 * is held to what the whole history of the reports says.
 */
#include <inttypes.h>
#include <stdio.h>
#include <string.h>

#include "journal.h"
#include "machine.h"
#include "model_journal.h"
#include "random.h"

enum { WIDTH = 40, ROOTS = 3, PAGES = 7, KINDS = 6, FAULTS = 70, REPORTS = 100000, REPORTS_BEFORE = 1000, EACH_UP_TO = 400 };
enum { FLAGS = PASTRULOW_PG | PASTRULOW_WP | PASTRULOW_PGE | PASTRULOW_PCIDE | PASTRULOW_NXE };

/* An access that faults. */
struct attempt {
    unsigned root; /* its number */
    uint64_t page, kind;
};

static struct machine machine;
static uint8_t low[7 * PASTRULOW_PAGE_BYTES], journal[JOURNAL_BYTES];
static struct attempt attempts[FAULTS];
static struct fault history[REPORTS];
static size_t reports;

/* Two roots lead to the same tables, so that faults under them differ in root alone; under the third, outside memory, an entry
   has every bit set, the reserved ones too. */
static const uint64_t roots[ROOTS] = {0x1000, 0x2000, UINT64_C(0xfffffff000)};
static const uint64_t pages[PAGES] = {0, 0x1000, 0x2000, 0x3000, 0x4000, 0x5000, UINT64_C(0xffff800000000000)};

static void write_tables(void)
{
    memset(low, 0, sizeof low);
    machine.low = low;
    machine.low_len = sizeof low;
    machine_put_word(&machine, roots[0], 0x3007);
    machine_put_word(&machine, roots[1], 0x3007);
    machine_put_word(&machine, 0x3000, 0x4007);
    machine_put_word(&machine, 0x4000, 0x5007);
    machine_put_word(&machine, 0x5000, 0x6007);                       /* never faults; 0x1000 is not present */
    machine_put_word(&machine, 0x5010, UINT64_C(0x10000006007));      /* a reserved bit */
    machine_put_word(&machine, 0x5018, 0x6003);                       /* a supervisor's page */
    machine_put_word(&machine, 0x5020, 0x6005);                       /* read-only */
    machine_put_word(&machine, 0x5028, UINT64_C(0x8000000000006007)); /* not executable */
}

/* Switches to a root under one of its own PCIDs, dropping or keeping what is held. */
static void switch_root(struct random *random, unsigned root)
{
    uint64_t pcid = ROOTS * random_below(random, 4096 / ROOTS) + root;
    uint64_t keep = random_percent(random, 50) ? PASTRULOW_CR3_KEEP : 0;
    machine_write_cr3(&machine, roots[root] | pcid | keep);
}

static bool faults(struct random *random, const struct attempt *attempt)
{
    switch_root(random, attempt->root);
    return machine_translate(&machine, attempt->kind, attempt->page, 0).kind == PASTRULOW_FAULT;
}

/* The first 70 accesses that fault, by root, page and kind. */
static bool find_attempts(struct random *random)
{
    unsigned found = 0;
    for (unsigned root = 0; root < ROOTS; root++)
        for (unsigned page = 0; page < PAGES; page++)
            for (uint64_t kind = 0; kind < KINDS && found < FAULTS; kind++) {
                struct attempt attempt = {root, pages[page], kind};
                if (faults(random, &attempt))
                    attempts[found++] = attempt;
            }
    if (found < FAULTS)
        printf("journal: the guest has %u faults, not %d\n", found, FAULTS);
    return found == FAULTS;
}

static bool start_guest(struct random *random)
{
    write_tables();
    machine_start(&machine, WIDTH);
    machine_write_mode(&machine, FLAGS);
    return find_attempts(random);
}

/* Reports a fault as a host does. The history has the address's page, the code, and the root that was written to CR3. */
static bool report_fault(struct random *random, const struct attempt *attempt)
{
    uint64_t address = attempt->page + random_below(random, 4096);
    struct pastrulow_answer answer = machine_translate(&machine, attempt->kind, address, 0);
    uint64_t root = pastrulow_root(machine.image);
    if (answer.kind != PASTRULOW_FAULT || root != roots[attempt->root]) {
        printf("journal: at 0x%" PRIx64 " kind %" PRIu64 ", no fault or a wrong root, 0x%" PRIx64 "\n", address, attempt->kind,
               root);
        return false;
    }
    uint64_t refusal = pastrulow_journal_report(journal, sizeof journal, address, answer.value, root);
    if (refusal != 0) {
        printf("journal: refusal %" PRIu64 " after %zu reports\n", refusal, reports);
        return false;
    }
    history[reports++] = fault_of(address, answer.value, roots[attempt->root]);
    return true;
}

static bool journal_agrees(void)
{
    uint8_t expected[JOURNAL_BYTES];
    struct journal model = model_history(history, reports);
    encode_journal(&model, expected);
    for (unsigned i = 0; i < JOURNAL_WORDS; i++)
        if (pastrulow_word(journal + 8 * i) != pastrulow_word(expected + 8 * i)) {
            printf("journal: after %zu reports word %u is 0x%" PRIx64 ", by the history 0x%" PRIx64 "\n", reports, i,
                   pastrulow_word(journal + 8 * i), pastrulow_word(expected + 8 * i));
            return false;
        }
    return true;
}

static bool clear_journal(void)
{
    uint64_t refusal = pastrulow_journal_clear(journal, sizeof journal);
    reports = 0;
    if (refusal != 0)
        printf("journal: clear refused, %" PRIu64 "\n", refusal);
    return refusal == 0 && journal_agrees();
}

/* Reports up to a number: in a random order, and often the same access again, as in a retry loop. */
static bool report_up_to(struct random *random, size_t end)
{
    static const struct attempt *attempt;
    while (reports < end) {
        if (reports == 0 || random_percent(random, 60)) {
            attempt = &attempts[random_below(random, FAULTS)];
            switch_root(random, attempt->root);
        }
        if (!report_fault(random, attempt))
            return false;
    }
    return true;
}

/* A clear and so many reports. The journal is compared after each of the first ones, then at growing distances. */
static bool run(struct random *random, size_t length)
{
    if (!clear_journal())
        return false;
    while (reports < length) {
        size_t next = reports < EACH_UP_TO ? reports + 1 : reports + reports / 20;
        if (!report_up_to(random, next < length ? next : length) || !journal_agrees())
            return false;
    }
    return true;
}

/* How many faults of the history are distinct. */
static unsigned distinct(void)
{
    unsigned count = 0;
    for (size_t i = 0; i < reports; i++) {
        size_t before = 0;
        while (!same_fault(history[before], history[i]))
            before++;
        count += before == i;
    }
    return count;
}

bool history_agrees(uint64_t seed)
{
    struct random random = random_start(seed, 0);
    if (!start_guest(&random) || !run(&random, REPORTS_BEFORE) || !run(&random, REPORTS))
        return false;
    struct pastrulow_journal_counts counts = pastrulow_read_journal_counts(journal);
    unsigned met = distinct();
    printf("journal: %zu faults, %u distinct, agree with their history: %" PRIu64 " held, %" PRIu64 " lost\n", reports, met,
           counts.held, counts.lost);
    if (met == FAULTS && counts.lost > 0)
        return true;
    printf("journal: not every fault was met, or none was lost\n");
    return false;
}
