/* Checks of numbers, counted. */
#ifndef CHECK_H
#define CHECK_H

#include <stdint.h>

void check(const char *what, uint64_t got, uint64_t expected);
/* Prints the count, and gives the status to end the program with. */
int checked(const char *program);

#endif
