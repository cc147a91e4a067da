/*
 * The pages of a running Linux, as QEMU listed them: vectors_linux GUEST.bin GUEST.txt
 * Each page is asked for by all six kinds, cold, again, and warm from the other kinds, with write protect on and off, SMEP and
 * SMAP off and on, with AC and without. If the guest has high, some of the tables that walks read must lie there.
 */
#include <inttypes.h>
#include <stdlib.h>
#include <string.h>

#include "sparse.h"
#include "vectors.h"

struct page {
    uint64_t virtual, physical, size;
    bool user, writable, executable;
};

static struct machine machine;
static uint64_t width, flags; /* the guest's own */
static uint64_t mode, ac;     /* under which it is asked */
static unsigned long roots, pages, singles, absent, hits, misses, faults, failed;
static unsigned long tables_read, high_tables_read;

static void must_be_done(struct pastrulow_answer answer, const char *what)
{
    if (answer.kind == PASTRULOW_DONE)
        return;
    printf("%s was not done\n", what);
    exit(1);
}

static void load_tables(FILE *file)
{
    uint8_t record[8 + PASTRULOW_PAGE_BYTES];
    unsigned long loaded = 0;
    while (fread(record, sizeof record, 1, file) == 1) {
        uint64_t address = pastrulow_word(record);
        uint8_t *page = machine_page(&machine, address);
        if (address % PASTRULOW_PAGE_BYTES != 0 || page == NULL)
            bad_line("a table outside guest memory");
        memcpy(page, record + 8, PASTRULOW_PAGE_BYTES);
        loaded++;
    }
    printf("linux: %lu pages of tables in %zu MiB of low and %zu MiB of high\n", loaded, machine.low_len >> 20,
           machine.high_len >> 20);
}

/* The tables of a walk that has read so many entries, one from each. */
static void count_tables(uint64_t address, uint64_t read)
{
    uint64_t table = pastrulow_root(machine.image);
    for (unsigned from = 39; from >= 12 && read > 0; from -= 9, read--) {
        tables_read++;
        high_tables_read += table >= PASTRULOW_HIGH_BASE;
        table = machine_word(&machine, table + 8 * (address >> from & 511)) & UINT64_C(0xffffffffff000);
    }
}

/* What the rights of a page, and the flags by which they are judged, let an access of this kind come to. */
static struct pastrulow_answer due(const struct page *page, uint64_t kind, uint64_t address)
{
    bool user = kind >= PASTRULOW_USER_READ;
    bool write = kind % 3 == PASTRULOW_WRITE;
    bool fetch = kind % 3 == PASTRULOW_FETCH;
    bool kept_off = !user && page->user && (fetch ? mode & PASTRULOW_SMEP : mode & PASTRULOW_SMAP && ac == 0);
    bool barred = (user && !page->user) || (write && !page->writable && (user || mode & PASTRULOW_WP)) ||
                  (fetch && !page->executable) || kept_off;
    struct pastrulow_answer answer = {PASTRULOW_ADDRESS, page->physical + (address - page->virtual), page->size, 0};
    if (barred) {
        answer.kind = PASTRULOW_FAULT;
        answer.size = 0;
        answer.value = PASTRULOW_CODE_PRESENT | (write ? PASTRULOW_CODE_WRITE : 0) | (user ? PASTRULOW_CODE_USER : 0) |
                       (fetch && mode & (PASTRULOW_NXE | PASTRULOW_SMEP) ? PASTRULOW_CODE_FETCH : 0);
    }
    return answer;
}

static void wrong(uint64_t kind, uint64_t address, struct pastrulow_answer expected, struct pastrulow_answer came)
{
    printf("kind %" PRIu64 " at %" PRIx64 "\n", kind, address);
    print_answer("expected", expected);
    print_answer("came", came);
    failed++;
}

enum warmth { COLD, HELD, EITHER };

/* The entries read must fit: all levels if cold, none if the page is held. A fault always walks. */
static void ask(const struct page *page, uint64_t kind, uint64_t address, enum warmth warmth)
{
    struct pastrulow_answer expected = due(page, kind, address);
    struct pastrulow_answer came = machine_translate(&machine, kind, address, ac);
    uint64_t levels = page->size == 4096 ? 4 : page->size == 2097152 ? 3 : 2;
    bool hit = came.kind == PASTRULOW_ADDRESS && came.read == 0;
    bool may_hit = warmth != COLD && expected.kind == PASTRULOW_ADDRESS;
    bool may_miss = warmth != HELD || expected.kind == PASTRULOW_FAULT;
    hits += hit;
    misses += came.kind == PASTRULOW_ADDRESS && !hit;
    faults += came.kind == PASTRULOW_FAULT;
    if (same_result(came, expected) && ((hit && may_hit) || (came.read == levels && may_miss)))
        count_tables(address, came.read);
    else
        wrong(kind, address, expected, came);
}

static void try_page(const struct page *page)
{
    uint64_t last = page->virtual + page->size - 1;
    for (uint64_t kind = 0; kind <= PASTRULOW_USER_FETCH; kind++) {
        must_be_done(machine_invlpg(&machine, page->virtual), "INVLPG");
        ask(page, kind, page->virtual, COLD);
        ask(page, kind, last, HELD);
    }
    for (uint64_t kind = 0; kind <= PASTRULOW_USER_FETCH; kind++)
        ask(page, kind, page->virtual, EITHER);
}

/* The flags that rights are judged by, and AC. The recorded guests ran under the first or the third of these. */
static const uint64_t judging = PASTRULOW_WP | PASTRULOW_SMEP | PASTRULOW_SMAP;
static const struct {
    uint64_t flags, ac;
} judged[] = {{PASTRULOW_WP, 0},
              {0, 0},
              {PASTRULOW_WP | PASTRULOW_SMEP | PASTRULOW_SMAP, 0},
              {PASTRULOW_WP | PASTRULOW_SMEP | PASTRULOW_SMAP, 1},
              {PASTRULOW_SMEP | PASTRULOW_SMAP, 0}};

static void take_page(const char *line)
{
    struct page page;
    char marks[16], rights[8], fetch[4];
    if (sscanf(line, "t %" SCNx64 " %" SCNx64 " %" SCNx64 " %15s %7s %3s", &page.virtual, &page.physical, &page.size, marks,
               rights, fetch) != 6)
        bad_line(line);
    page.user = strchr(rights, 'u') != NULL;
    page.writable = strchr(rights, 'w') != NULL;
    page.executable = fetch[0] == 'x';
    pages++;
    for (unsigned i = 0; i < sizeof judged / sizeof *judged; i++) {
        mode = (flags & ~judging) | judged[i].flags;
        ac = judged[i].ac;
        must_be_done(machine_write_mode(&machine, mode), "mode write");
        try_page(&page);
    }
    must_be_done(machine_write_mode(&machine, flags), "mode write");
}

/* One address that QEMU was asked for: where it lies, whatever its rights, or that nothing is there. With AC set the supervisor
   may read every page. */
static void take_single(const char *line)
{
    uint64_t address, physical;
    int numbers = sscanf(line, "g %" SCNx64 " %" SCNx64, &address, &physical);
    if (numbers < 1 || (numbers == 1 && strstr(line, " none") == NULL))
        bad_line(line);
    struct pastrulow_answer came = machine_translate(&machine, PASTRULOW_READ, address, 1);
    struct pastrulow_answer expected = {numbers == 2 ? PASTRULOW_ADDRESS : PASTRULOW_FAULT, numbers == 2 ? physical : 0,
                                        numbers == 2 ? came.size : 0, came.read};
    singles++;
    absent += numbers == 1;
    if (same_answer(came, expected))
        count_tables(address, came.read);
    else
        wrong(PASTRULOW_READ, address, expected, came);
}

static void take_machine(const char *line)
{
    uint64_t low, high;
    if (sscanf(line, "machine low %" SCNx64 " high %" SCNx64 " m %" SCNx64 " flags %" SCNx64, &low, &high, &width,
               &flags) != 4)
        bad_line(line);
    machine.low_len = low;
    machine.low = sparse(low);
    machine.high_len = high;
    machine.high = sparse(high);
}

static void take_root(const char *line)
{
    uint64_t cr3;
    if (sscanf(line, "root cr3 %" SCNx64, &cr3) != 1)
        bad_line(line);
    must_be_done(machine_load(&machine, width, flags, cr3), "loading the root's state");
    roots++;
}

static void take_line(FILE *tables, const char *line)
{
    if (strncmp(line, "machine", 7) == 0) {
        take_machine(line);
        load_tables(tables);
    } else if (strncmp(line, "root", 4) == 0) {
        take_root(line);
    } else if (line[0] == 't') {
        take_page(line);
    } else if (line[0] == 'g') {
        take_single(line);
    } else if (line[0] != '#' && line[0] != 0) {
        bad_line(line);
    }
}

int main(int count, char **arguments)
{
    static const char usage[] = "vectors_linux GUEST.bin GUEST.txt";
    FILE *tables = open_vectors(count, arguments, 1, usage);
    FILE *list = open_vectors(count, arguments, 2, usage);
    for (char *line = next_line(list); line != NULL; line = next_line(list))
        take_line(tables, line);
    fclose(tables);
    fclose(list);
    printf("linux: %lu pages under %lu roots, six kinds each, and %lu single addresses, %lu of them not mapped\n", pages, roots,
           singles, absent);
    printf("linux: %lu hits, %lu misses, %lu faults; %lu tables read, %lu of them above 4 GiB\n", hits, misses, faults,
           tables_read, high_tables_read);
    printf("linux: %lu failed\n", failed);
    return failed != 0 || pages == 0 || (machine.high_len > 0 && high_tables_read == 0);
}
