/* Sequences of operations with a warm buffer, as Bochs made them: vectors_sequences sequences.txt */
#include <inttypes.h>
#include <stdlib.h>
#include <string.h>

#include "vectors.h"

static uint8_t low[VECTOR_LOW], expected_low[VECTOR_LOW];
static struct machine machine = {.low = low, .low_len = VECTOR_LOW};
static struct machine expected = {.low = expected_low, .low_len = VECTOR_LOW};
static unsigned long sequence;
static unsigned long whole, hits, misses, faults, operations, stores, failed;

static void wrong(const char *line)
{
    printf("sequence %lx: %s\n", sequence, line);
    failed++;
}

static void begin(const char *line)
{
    if (sscanf(line, "# sequence %lx", &sequence) != 1)
        return;
    memset(low, 0, sizeof low);
    memset(machine.image, 0, sizeof machine.image);
}

/* The tables at the sequence's end. */
static void end(const char *words)
{
    whole++;
    memset(expected_low, 0, sizeof expected_low);
    put_words(&expected, words);
    if (memcmp(low, expected_low, sizeof low) != 0)
        wrong("guest memory at the end");
}

static void translate(const char *line)
{
    uint64_t kind, address;
    const char *result = strstr(line, "=\t");
    if (result == NULL || sscanf(line, "T %" SCNx64 " %" SCNx64, &kind, &address) != 2)
        bad_line(line);
    struct pastrulow_answer recorded = read_result(result + 2);
    struct pastrulow_answer answer = machine_translate(&machine, kind, address, 0);
    hits += answer.kind == PASTRULOW_ADDRESS && answer.read == 0;
    misses += answer.kind == PASTRULOW_ADDRESS && answer.read != 0;
    faults += answer.kind == PASTRULOW_FAULT;
    if (!same_result(answer, recorded)) {
        wrong(line);
        print_answer("came", answer);
    }
}

static void store(const char *line)
{
    uint64_t address, word;
    if (sscanf(line, "P %" SCNx64 " %" SCNx64, &address, &word) != 2 || address % 8 != 0 || address >= VECTOR_LOW)
        bad_line(line);
    machine_put_word(&machine, address, word);
    stores++;
}

/* One of the operations that answer "done". */
static void operate(const char *line)
{
    uint64_t one = 0, two = 0, three = 0;
    int numbers = sscanf(line + 1, " %" SCNx64 " %" SCNx64 " %" SCNx64, &one, &two, &three);
    struct pastrulow_answer answer = {0, 0, 0, 0};
    if (numbers != (line[0] == 'V' ? 3 : 1))
        bad_line(line);
    switch (line[0]) {
    case 'S':
        answer = machine_start_with(&machine, one, 0);
        break;
    case 'M':
        answer = machine_write_mode(&machine, one);
        break;
    case 'C':
        answer = machine_write_cr3(&machine, one);
        break;
    case 'I':
        answer = machine_invlpg(&machine, one);
        break;
    case 'V':
        answer = machine_invpcid(&machine, one, two, three);
        break;
    default:
        bad_line(line);
    }
    operations++;
    if (answer.kind != PASTRULOW_DONE)
        wrong(line);
}

static void take_line(const char *line)
{
    if (strncmp(line, "# words ", 8) == 0)
        end(line + 8);
    else if (line[0] == '#')
        begin(line);
    else if (line[0] == 'T')
        translate(line);
    else if (line[0] == 'P')
        store(line);
    else
        operate(line);
}

int main(int count, char **arguments)
{
    FILE *file = open_vectors(count, arguments, 1, "vectors_sequences sequences.txt");
    for (char *line = next_line(file); line != NULL; line = next_line(file))
        take_line(line);
    fclose(file);
    printf("sequences: %lu of them: %lu hits, %lu misses, %lu faults, %lu operations, %lu stores\n", whole, hits, misses, faults,
           operations, stores);
    printf("sequences: %lu failed\n", failed);
    return failed != 0 || whole == 0 || hits == 0;
}
