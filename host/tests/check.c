#include "check.h"

#include <inttypes.h>
#include <stdio.h>

static unsigned checks, failed;

void check(const char *what, uint64_t got, uint64_t expected)
{
    checks++;
    if (got == expected)
        return;
    failed++;
    printf("%s: expected %" PRIu64 ", came %" PRIu64 "\n", what, expected, got);
}

int checked(const char *program)
{
    printf("%s: %u checks, %u failed\n", program, checks, failed);
    return failed != 0;
}
