/* A call as a value, made at random and run on either side. */
#ifndef CALL_H
#define CALL_H

#include "guest.h"
#include "lent.h"

enum call_name { START, START_WITH, TRANSLATE, TRANSLATE_MANY, INVLPG, INVPCID, WRITE_CR3, WRITE_MODE };

struct call {
    enum call_name name;
    uint64_t numbers[3]; /* width; width, flags; kind, address, AC; none; address; type, PCID, address; value; flags */
    uint8_t pairs[LENT_PAIRS];
    size_t image_len, low_len, high_len, pairs_len, answer_len;
    bool low_null, high_null; /* no bytes, lent as NULL */
};

/* A call with mostly fitting arguments; now and then each argument and each length is wrong. */
struct call call_make(struct random *random, const struct guest *guest);
/* Start, mode write and CR3 write, in this order, as a guest would begin. */
struct call call_begin(const struct guest *guest, unsigned step);
/* Puts the pairs where the call finds them. */
void call_lend(const struct call *call, struct lent *lent);
uint64_t call_door(const struct call *call, struct lent *lent);
uint64_t call_model(const struct call *call, struct lent *lent);
/* How many whole pairs there are. */
size_t call_pairs(const struct call *call);
void call_print(const struct call *call);

#endif
