#include "vectors.h"

#include <inttypes.h>
#include <stdlib.h>
#include <string.h>

FILE *open_vectors(int count, char **arguments, int which, const char *usage)
{
    FILE *file = which < count ? fopen(arguments[which], "rb") : NULL;
    if (file == NULL) {
        printf("usage: %s, files that can be read\n", usage);
        exit(2);
    }
    return file;
}

char *next_line(FILE *file)
{
    static char line[4096];
    if (fgets(line, sizeof line, file) == NULL)
        return NULL;
    char *end = strchr(line, '\n');
    if (end == NULL) {
        printf("a line is too long: %.40s\n", line);
        exit(2);
    }
    *end = 0;
    return line;
}

void bad_line(const char *line)
{
    printf("not understood: %.200s\n", line);
    exit(2);
}

void put_words(struct machine *machine, const char *words)
{
    uint64_t address, word;
    int used;
    while (sscanf(words, " %" SCNx64 ":%" SCNx64 "%n", &address, &word, &used) == 2) {
        if (address % 8 != 0 || machine_page(machine, address) == NULL)
            bad_line(words);
        machine_put_word(machine, address, word);
        words += used;
    }
    if (words[strspn(words, " ")] != 0)
        bad_line(words);
}

struct pastrulow_answer read_result(const char *text)
{
    struct pastrulow_answer answer = {0, 0, 0, 0};
    if (sscanf(text, "address %" SCNx64 " %" SCNx64, &answer.value, &answer.size) == 2) {
        answer.kind = PASTRULOW_ADDRESS;
    } else if (sscanf(text, "fault %" SCNx64, &answer.value) == 1) {
        answer.kind = PASTRULOW_FAULT;
    } else if (sscanf(text, "refused %" SCNx64, &answer.value) == 1) {
        answer.kind = PASTRULOW_REFUSED;
    } else {
        bad_line(text);
    }
    return answer;
}

bool same_result(struct pastrulow_answer one, struct pastrulow_answer other)
{
    other.read = one.read;
    return same_answer(one, other);
}
