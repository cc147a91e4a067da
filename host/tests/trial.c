/* Every trial case of the paper, through the archive. */
#include <inttypes.h>
#include <stdio.h>
#include <string.h>

#include "machine.h"

enum { GUEST_BYTES = 24 * 1024, FLAGS = 23 };

static uint8_t low[GUEST_BYTES];
static struct machine machine;
static const char *case_name;
static unsigned checks, failed;

static void check(const char *what, struct pastrulow_answer got, struct pastrulow_answer expected)
{
    checks++;
    if (same_answer(got, expected))
        return;
    failed++;
    printf("%s: %s\n", case_name, what);
    print_answer("expected", expected);
    print_answer("came", got);
}

static void check_word(uint64_t address, uint64_t expected)
{
    uint64_t got = machine_word(&machine, address);
    checks++;
    if (got == expected)
        return;
    failed++;
    printf("%s: guest memory at 0x%" PRIx64 ": expected 0x%" PRIx64 ", came 0x%" PRIx64 "\n", case_name, address, expected,
           got);
}

static void gives_address(uint64_t kind, uint64_t address, uint64_t value, uint64_t size, uint64_t read)
{
    struct pastrulow_answer expected = {PASTRULOW_ADDRESS, value, size, read};
    check("translate", machine_translate(&machine, kind, address, 0), expected);
}

static void faults(uint64_t kind, uint64_t address, uint64_t code, uint64_t read)
{
    struct pastrulow_answer expected = {PASTRULOW_FAULT, code, 0, read};
    check("translate", machine_translate(&machine, kind, address, 0), expected);
}

static void is_done(const char *what, struct pastrulow_answer got)
{
    struct pastrulow_answer expected = {PASTRULOW_DONE, 0, 0, 0};
    check(what, got, expected);
}

static void is_refused(const char *what, struct pastrulow_answer got, uint64_t number)
{
    struct pastrulow_answer expected = {PASTRULOW_REFUSED, number, 0, 0};
    check(what, got, expected);
}

/* The trial guest as it stands before each case. */
static void afresh(const char *name)
{
    static const struct {
        uint64_t address, word;
    } words[] = {{0x1000, 0x2007},     {0x2000, 0x3007},
                 {0x2008, 0x40000083}, {0x3000, 0x4007},
                 {0x3008, 0x600087},   {0x4000, 0x5003},
                 {0x4008, 0x5005},     {0x4010, UINT64_C(0x8000000000005007)},
                 {0x4028, 0x5107},     {0x4020, UINT64_C(0x10000005007)}};
    case_name = name;
    memset(low, 0, sizeof low);
    machine.low = low;
    machine.low_len = sizeof low;
    for (size_t i = 0; i < sizeof words / sizeof *words; i++)
        machine_put_word(&machine, words[i].address, words[i].word);
    is_done("start", machine_start(&machine, 40));
    is_done("CR3 write", machine_write_cr3(&machine, 0x1000));
    is_done("mode write", machine_write_mode(&machine, FLAGS));
}

static void reads_and_writes(void)
{
    afresh("kind 0 at 0x123");
    gives_address(0, 0x123, 0x5123, 4096, 4);
    check_word(0x4000, 0x5023);
    check_word(0x1000, 0x2027);
    case_name = "then kind 1 at 0x123";
    gives_address(1, 0x123, 0x5123, 4096, 4);
    check_word(0x4000, 0x5063);
    case_name = "then kind 1 again";
    gives_address(1, 0x123, 0x5123, 4096, 0);
}

static void protection(void)
{
    afresh("kind 3 at 0x123");
    faults(3, 0x123, 5, 4);
    afresh("kind 4 at 0x1000");
    faults(4, 0x1000, 7, 4);
    afresh("kind 1 at 0x1000");
    faults(1, 0x1000, 3, 4);
    afresh("kind 1 at 0x1000 with WP off");
    is_done("mode write", machine_write_mode(&machine, FLAGS & ~PASTRULOW_WP));
    gives_address(1, 0x1000, 0x5000, 4096, 4);
    check_word(0x4008, 0x5065);
    afresh("kind 5 at 0x2000");
    faults(5, 0x2000, 0x15, 4);
}

static void absent_and_reserved(void)
{
    afresh("kind 3 at 0x3000");
    faults(3, 0x3000, 4, 4);
    afresh("kind 5 at 0x3000");
    faults(5, 0x3000, 0x14, 4);
    afresh("kind 5 at 0x3000 with NXE off");
    is_done("mode write", machine_write_mode(&machine, FLAGS & ~PASTRULOW_NXE));
    faults(5, 0x3000, 4, 4);
    afresh("kind 0 at 0x4000");
    faults(0, 0x4000, 9, 4);
}

static void large_pages(void)
{
    afresh("kind 0 at 0x212345");
    gives_address(0, 0x212345, 0x612345, 2097152, 3);
    afresh("kind 1 at 0x40000010");
    gives_address(1, 0x40000010, 0x40000010, 1073741824, 2);
    check_word(0x2008, 0x400000E3);
}

static void edges(void)
{
    afresh("0x0000800000000000");
    is_refused("translate", machine_translate(&machine, 0, UINT64_C(0x0000800000000000), 0), 5);
    afresh("kind 0 at 0x00007FFFFFFFFFFF");
    faults(0, UINT64_C(0x00007FFFFFFFFFFF), 0, 1);
    afresh("CR3 0x7000, kind 0 at 0");
    is_done("CR3 write", machine_write_cr3(&machine, 0x7000));
    faults(0, 0, 9, 1);
    afresh("CR3 with bit 40");
    is_refused("CR3 write", machine_write_cr3(&machine, UINT64_C(1) << 40), 6);
    afresh("CR3 with bit 39");
    is_done("CR3 write", machine_write_cr3(&machine, UINT64_C(1) << 39));
}

static void global_page(void)
{
    afresh("read 0x5000, write CR3 0x1000, read 0x5000");
    gives_address(0, 0x5000, 0x5000, 4096, 4);
    is_done("CR3 write", machine_write_cr3(&machine, 0x1000));
    gives_address(0, 0x5000, 0x5000, 4096, 0);
}

int main(void)
{
    reads_and_writes();
    protection();
    absent_and_reserved();
    large_pages();
    edges();
    global_page();
    printf("trial: %u checks, %u failed\n", checks, failed);
    return failed != 0;
}
