/* Single accesses with a cold buffer, as Bochs made them: vectors_bochs bochs.txt */
#include <inttypes.h>
#include <stdlib.h>
#include <string.h>

#include "vectors.h"

struct single {
    uint64_t id, flags, ac, width, cr3, kind, address;
    struct pastrulow_answer result;
    bool beyond; /* noted beyond-64k: memory that the case does not give */
};

static uint8_t low[VECTOR_LOW], expected_low[VECTOR_LOW];
static struct machine machine = {.low = low, .low_len = VECTOR_LOW};
static struct machine expected = {.low = expected_low, .low_len = VECTOR_LOW};
static unsigned long made, newer_flags, ac_set, addresses, faults, refusals, hits, beyond_memory, failed;

static void wrong(const struct single *single, const char *what, struct pastrulow_answer came)
{
    printf("case %" PRIx64 ": %s\n", single->id, what);
    print_answer("expected", single->result);
    print_answer("came", came);
    failed++;
}

/* The access once more: a page that was found is held now. */
static void make_again(const struct single *single)
{
    struct pastrulow_answer again = machine_translate(&machine, single->kind, single->address, single->ac);
    if (!same_result(again, single->result) || (again.kind == PASTRULOW_ADDRESS && again.read != 0))
        wrong(single, "the same access again", again);
    hits += again.kind == PASTRULOW_ADDRESS && again.read == 0;
}

static void make(const struct single *single)
{
    made++;
    newer_flags += single->flags >= PASTRULOW_SMEP;
    ac_set += single->ac != 0;
    if (machine_load(&machine, single->width, single->flags, single->cr3).kind != PASTRULOW_DONE) {
        wrong(single, "setting up was refused", single->result);
        return;
    }
    struct pastrulow_answer answer = machine_translate(&machine, single->kind, single->address, single->ac);
    addresses += answer.kind == PASTRULOW_ADDRESS;
    faults += answer.kind == PASTRULOW_FAULT;
    refusals += answer.kind == PASTRULOW_REFUSED;
    if (!same_result(answer, single->result) || (answer.kind != PASTRULOW_REFUSED && answer.read == 0))
        wrong(single, "result", answer);
    if (memcmp(low, expected_low, sizeof low) != 0)
        wrong(single, "guest memory", answer);
    make_again(single);
}

/* A line of the case; its words go into the memory before it and the memory expected after. */
static void take_line(struct single *single, const char *line)
{
    if (sscanf(line, "case %" SCNx64, &single->id) == 1)
        return;
    if (sscanf(line, "flags %" SCNx64 " ac %" SCNx64 " m %" SCNx64 " cr3 %" SCNx64 " kind %" SCNx64 " addr %" SCNx64,
               &single->flags, &single->ac, &single->width, &single->cr3, &single->kind, &single->address) == 6)
        return;
    if (strncmp(line, "before", 6) == 0)
        put_words(&machine, line + 6);
    else if (strncmp(line, "after", 5) == 0)
        put_words(&expected, line + 5);
    else if (strncmp(line, "result ", 7) == 0)
        single->result = read_result(line + 7);
    else if (strcmp(line, "note beyond-64k") == 0)
        single->beyond = true;
    else if (strncmp(line, "note ", 5) != 0)
        bad_line(line);
}

static void end_case(struct single *single)
{
    struct single none = {0};
    if (single->beyond)
        beyond_memory++;
    else if (single->width != 0)
        make(single);
    *single = none;
    memset(low, 0, sizeof low);
    memset(expected_low, 0, sizeof expected_low);
}

int main(int count, char **arguments)
{
    FILE *file = open_vectors(count, arguments, 1, "vectors_bochs bochs.txt");
    struct single single = {0};
    for (char *line = next_line(file); line != NULL; line = next_line(file)) {
        if (line[0] == 0)
            end_case(&single);
        else if (line[0] != '#')
            take_line(&single, line);
    }
    end_case(&single);
    fclose(file);
    printf("bochs: %lu accesses made: %lu addresses, %lu faults, %lu refused; %lu hits when made again\n", made, addresses,
           faults, refusals, hits);
    printf("bochs: %lu with SMEP or SMAP on, %lu with AC set; skipped: %lu noted beyond-64k\n", newer_flags, ac_set,
           beyond_memory);
    printf("bochs: %lu failed\n", failed);
    return failed != 0 || made == 0;
}
