/* Reading the recorded vectors, whose numbers are hex. */
#ifndef VECTORS_H
#define VECTORS_H

#include <stdbool.h>
#include <stdio.h>

#include "machine.h"

enum { VECTOR_LOW = 64 * 1024 }; /* what Bochs' machines have; they have no high */

/* Opens a file or ends the program. */
FILE *open_vectors(int count, char **arguments, int which, const char *usage);
/* The next line without its end, or NULL; good until the next call. Ends the program at a line that is too long. */
char *next_line(FILE *file);
/* Ends the program: the line is not of the form expected. */
void bad_line(const char *line);
/* Stores words written as PA:WORD, parted by spaces. */
void put_words(struct machine *machine, const char *words);
/* "address PA SIZE", "fault CODE" or "refused NUMBER" as an answer with no entries read. */
struct pastrulow_answer read_result(const char *text);
/* Both give an address, or both a fault, or both a refusal, alike but for the entries read. */
bool same_result(struct pastrulow_answer one, struct pastrulow_answer other);

#endif
