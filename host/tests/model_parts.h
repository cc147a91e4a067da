/* The parts of the model: the state as named fields, guest memory, the walk, the buffer. */
#ifndef MODEL_PARTS_H
#define MODEL_PARTS_H

#include <stdbool.h>
#include <stddef.h>
#include <stdint.h>

#include "events.h"

enum { SLOTS = 100, SETS = 25, REST_WORDS = 52, SIZES = 3, WAYS = 4 };

/* A slot as its two words: bits that the rules do not name stay as they were found. */
struct slot {
    uint64_t tag;
    uint64_t data;
};

struct state {
    uint64_t width;
    bool pg, wp, pge, pcide, nxe, smep, smap;
    uint64_t flags; /* word 1 whole; the seven bools are its bits */
    uint64_t cr3;
    uint64_t victims;
    struct slot slots[SLOTS];
    uint64_t rest[REST_WORDS];
};

struct access {
    bool write, fetch, user, ac;
};

struct memory {
    uint8_t *low, *high;
    size_t low_length, high_length;
};

/* A page with the rights over all its levels: what a slot holds and what a walk finds. */
struct rights {
    bool writable, user, executable;
};

enum cause { NO_FAULT, NOT_PRESENT, RESERVED, PROTECTION };

/* What a walk comes to. Base, rights, dirty, global and size mean something only with NO_FAULT. */
struct walked {
    enum cause cause;
    unsigned read;
    unsigned size; /* 0, 1, 2: 4 KiB, 2 MiB, 1 GiB */
    uint64_t base;
    struct rights rights;
    bool dirty, global;
};

/* Numbers. */
bool bit(uint64_t word, unsigned number);
uint64_t bits(uint64_t word, unsigned high, unsigned low); /* bits high..low, moved down to 0 */
uint64_t word_at(const uint8_t *bytes);
void put_word(uint8_t *bytes, uint64_t word);
bool canonical(uint64_t address);

/* The image as bytes and as a state. */
void set_flags(struct state *state, uint64_t flags);
struct state decode(const uint8_t *image);
void encode(const struct state *state, uint8_t *image);

/* Guest memory. */
bool in_high(uint64_t address);                               /* from 4 GiB up */
uint8_t *place_of(struct memory memory, uint64_t address);    /* in a slice, or NULL if it is outside */
bool memory_refused(struct memory memory, enum event *which); /* refusal 4, and why */
void count_memory(struct memory memory);                      /* that a translation is lent */
void count_place(struct memory memory, uint64_t address);     /* that a walk reads */

/* Rights. The supervisor is kept off user pages: a fetch by SMEP, a read or a write by SMAP unless AC is set. */
bool kept_off(const struct state *state, struct access access);
bool allows(const struct state *state, struct access access, struct rights rights);

/* The walk; marks guest memory if it succeeds. */
struct walked walk(const struct state *state, struct memory memory, struct access access, uint64_t address);

/* The buffer. */
uint64_t page_length(unsigned size);
uint64_t current_pcid(const struct state *state);
bool slot_held(struct slot slot);
bool slot_global(struct slot slot);
uint64_t slot_pcid(struct slot slot);
struct rights slot_rights(struct slot slot);
bool slot_dirty(struct slot slot);
unsigned slot_size(unsigned number); /* the size that slot number's place is for */
bool slot_in_place(const struct state *state, unsigned number, uint64_t address);
bool slot_matches(const struct state *state, unsigned number, uint64_t address);
void drop(struct state *state, unsigned number);
void fill(struct state *state, uint64_t address, struct walked page);

/* Answers and refusals. */
enum { ADDRESS, FAULT, REFUSED, DONE };
void put_answer(uint8_t *answer, uint64_t kind, uint64_t value, uint64_t size, uint64_t read);
uint64_t refused(uint8_t *answer, uint64_t number, enum event which);
unsigned image_flaws(const uint8_t *image, size_t image_len); /* what is wrong with it: bit i for event IMAGE_LENGTH + i */
bool bad_image(const uint8_t *image, size_t image_len);       /* refusal 2 for every call but the starts */

/* These are told what a translation does, and count where an earlier pair of the same batch comes in; else nothing. */
void batch_hits(unsigned slot);
void batch_drops(unsigned slot);
void batch_evicts(unsigned slot);
void batch_fills(unsigned slot);
void batch_reads(uint64_t address); /* an entry in guest memory */
void batch_marks(uint64_t address);

#endif
