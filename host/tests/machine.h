/* A machine as a host has it: an image, and guest memory low and high; each call of the translator that writes one record,
   through the archive, and the record read. */
#ifndef MACHINE_H
#define MACHINE_H

#include <stdbool.h>

#include "pastrulow.h"

struct machine {
    uint8_t image[PASTRULOW_IMAGE_BYTES];
    uint8_t *low, *high;
    size_t low_len, high_len;
};

/* Each of these ends the program if the number returned is not the one that the record says. */
struct pastrulow_answer machine_start(struct machine *machine, uint64_t width);
struct pastrulow_answer machine_start_with(struct machine *machine, uint64_t width, uint64_t flags);
struct pastrulow_answer machine_translate(struct machine *machine, uint64_t kind, uint64_t address, uint64_t ac);
struct pastrulow_answer machine_invlpg(struct machine *machine, uint64_t address);
struct pastrulow_answer machine_invpcid(struct machine *machine, uint64_t type, uint64_t pcid, uint64_t address);
struct pastrulow_answer machine_write_cr3(struct machine *machine, uint64_t value);
struct pastrulow_answer machine_write_mode(struct machine *machine, uint64_t flags);
/* The header's four calls that load a saved state: the answer of the last, or of the first that is not done. */
struct pastrulow_answer machine_load(struct machine *machine, uint64_t width, uint64_t flags, uint64_t cr3);

/* The 4 KiB page that holds a physical address, or NULL if that is outside guest memory. */
uint8_t *machine_page(const struct machine *machine, uint64_t address);
/* A word at a physical address, which must be inside. */
uint64_t machine_word(const struct machine *machine, uint64_t address);
void machine_put_word(struct machine *machine, uint64_t address, uint64_t word);

bool same_answer(struct pastrulow_answer one, struct pastrulow_answer other);
void print_answer(const char *title, struct pastrulow_answer answer);

#endif
