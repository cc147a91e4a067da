/* A call on either side of the comparison. */
#include "call.h"

#include <string.h>

#include "model.h"
#include "pastrulow.h"

void call_lend(const struct call *call, struct lent *lent)
{
    if (call->name == TRANSLATE_MANY)
        memcpy(lent->bytes + lent->pairs, call->pairs, LENT_PAIRS);
}

static uint8_t *low_of(const struct call *call, struct lent *lent)
{
    return call->low_null ? NULL : lent_low(lent, call->low_len);
}

static uint8_t *high_of(const struct call *call, struct lent *lent)
{
    return call->high_null ? NULL : lent_high(lent, call->high_len);
}

uint64_t call_door(const struct call *call, struct lent *lent)
{
    uint8_t *image = lent->bytes + lent->image;
    uint8_t *low = low_of(call, lent), *high = high_of(call, lent);
    uint8_t *answer = lent->bytes + lent->answers;
    const uint64_t *n = call->numbers;
    switch (call->name) {
    case START:
        return pastrulow_start(image, call->image_len, n[0], answer, call->answer_len);
    case START_WITH:
        return pastrulow_start_with(image, call->image_len, n[0], n[1], answer, call->answer_len);
    case TRANSLATE:
        return pastrulow_translate(image, call->image_len, low, call->low_len, high, call->high_len, n[0], n[1], n[2], answer,
                                   call->answer_len);
    case TRANSLATE_MANY:
        return pastrulow_translate_many(image, call->image_len, low, call->low_len, high, call->high_len,
                                        lent->bytes + lent->pairs, call->pairs_len, answer, call->answer_len);
    case INVLPG:
        return pastrulow_invlpg(image, call->image_len, n[0], answer, call->answer_len);
    case INVPCID:
        return pastrulow_invpcid(image, call->image_len, n[0], n[1], n[2], answer, call->answer_len);
    case WRITE_CR3:
        return pastrulow_write_cr3(image, call->image_len, n[0], answer, call->answer_len);
    default:
        return pastrulow_write_mode(image, call->image_len, n[0], answer, call->answer_len);
    }
}

uint64_t call_model(const struct call *call, struct lent *lent)
{
    uint8_t *image = lent->bytes + lent->image;
    uint8_t *low = low_of(call, lent), *high = high_of(call, lent);
    uint8_t *answer = lent->bytes + lent->answers;
    const uint64_t *n = call->numbers;
    switch (call->name) {
    case START:
        return model_start(image, call->image_len, n[0], answer, call->answer_len);
    case START_WITH:
        return model_start_with(image, call->image_len, n[0], n[1], answer, call->answer_len);
    case TRANSLATE:
        return model_translate(image, call->image_len, low, call->low_len, high, call->high_len, n[0], n[1], n[2], answer,
                               call->answer_len);
    case TRANSLATE_MANY:
        return model_translate_many(image, call->image_len, low, call->low_len, high, call->high_len,
                                    lent->bytes + lent->pairs, call->pairs_len, answer, call->answer_len);
    case INVLPG:
        return model_invlpg(image, call->image_len, n[0], answer, call->answer_len);
    case INVPCID:
        return model_invpcid(image, call->image_len, n[0], n[1], n[2], answer, call->answer_len);
    case WRITE_CR3:
        return model_write_cr3(image, call->image_len, n[0], answer, call->answer_len);
    default:
        return model_write_mode(image, call->image_len, n[0], answer, call->answer_len);
    }
}
