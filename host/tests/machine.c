#include "machine.h"

#include <inttypes.h>
#include <stdio.h>
#include <stdlib.h>

static uint8_t record[PASTRULOW_ANSWER_BYTES];

static struct pastrulow_answer read_record(uint64_t returned)
{
    struct pastrulow_answer answer = pastrulow_read_answer(record);
    if (returned != (answer.kind == PASTRULOW_REFUSED ? answer.value : 0)) {
        printf("returned %" PRIu64 " beside a record of kind %" PRIu64 ", value %" PRIu64 "\n", returned, answer.kind,
               answer.value);
        exit(1);
    }
    return answer;
}

struct pastrulow_answer machine_start(struct machine *machine, uint64_t width)
{
    return read_record(pastrulow_start(machine->image, sizeof machine->image, width, record, sizeof record));
}

struct pastrulow_answer machine_start_with(struct machine *machine, uint64_t width, uint64_t flags)
{
    return read_record(pastrulow_start_with(machine->image, sizeof machine->image, width, flags, record, sizeof record));
}

struct pastrulow_answer machine_translate(struct machine *machine, uint64_t kind, uint64_t address, uint64_t ac)
{
    return read_record(pastrulow_translate(machine->image, sizeof machine->image, machine->low, machine->low_len,
                                           machine->high, machine->high_len, kind, address, ac, record, sizeof record));
}

struct pastrulow_answer machine_invlpg(struct machine *machine, uint64_t address)
{
    return read_record(pastrulow_invlpg(machine->image, sizeof machine->image, address, record, sizeof record));
}

struct pastrulow_answer machine_invpcid(struct machine *machine, uint64_t type, uint64_t pcid, uint64_t address)
{
    return read_record(pastrulow_invpcid(machine->image, sizeof machine->image, type, pcid, address, record, sizeof record));
}

struct pastrulow_answer machine_write_cr3(struct machine *machine, uint64_t value)
{
    return read_record(pastrulow_write_cr3(machine->image, sizeof machine->image, value, record, sizeof record));
}

struct pastrulow_answer machine_write_mode(struct machine *machine, uint64_t flags)
{
    return read_record(pastrulow_write_mode(machine->image, sizeof machine->image, flags, record, sizeof record));
}

struct pastrulow_answer machine_load(struct machine *machine, uint64_t width, uint64_t flags, uint64_t cr3)
{
    struct pastrulow_answer answer = machine_start_with(machine, width, flags & ~(PASTRULOW_PG | PASTRULOW_PCIDE));
    if (answer.kind == PASTRULOW_DONE)
        answer = machine_write_cr3(machine, cr3 & ~PASTRULOW_CR3_PCID);
    if (answer.kind == PASTRULOW_DONE)
        answer = machine_write_mode(machine, flags);
    if (answer.kind == PASTRULOW_DONE)
        answer = machine_write_cr3(machine, cr3);
    return answer;
}

uint8_t *machine_page(const struct machine *machine, uint64_t address)
{
    return pastrulow_page(machine->low, machine->low_len, machine->high, machine->high_len, address);
}

uint64_t machine_word(const struct machine *machine, uint64_t address)
{
    return pastrulow_word(machine_page(machine, address) + address % PASTRULOW_PAGE_BYTES);
}

void machine_put_word(struct machine *machine, uint64_t address, uint64_t word)
{
    pastrulow_put_word(machine_page(machine, address) + address % PASTRULOW_PAGE_BYTES, word);
}

bool same_answer(struct pastrulow_answer one, struct pastrulow_answer other)
{
    return one.kind == other.kind && one.value == other.value && one.size == other.size && one.read == other.read;
}

void print_answer(const char *title, struct pastrulow_answer answer)
{
    printf("  %s: kind %" PRIu64 ", value 0x%" PRIx64 ", size 0x%" PRIx64 ", read %" PRIu64 "\n", title, answer.kind,
           answer.value, answer.size, answer.read);
}
