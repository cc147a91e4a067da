/* The model: guest memory, which has two slices and a hole between them. */
#include "model_parts.h"

static const uint64_t low_most = 0xB0000000, high_first = 0x100000000;

bool in_high(uint64_t address)
{
    return address >= high_first;
}

uint8_t *place_of(struct memory memory, uint64_t address)
{
    if (address < memory.low_length)
        return memory.low + address;
    if (in_high(address) && address - high_first < memory.high_length)
        return memory.high + (address - high_first);
    return NULL;
}

/* The event says which of the conditions holds; if several do, the first. */
bool memory_refused(struct memory memory, enum event *which)
{
    *which = EVENT_TRANSLATE_4_LOW;
    if (memory.low_length % 4096 != 0)
        return true;
    *which = EVENT_TRANSLATE_4_LIMIT;
    if (memory.low_length > low_most)
        return true;
    *which = EVENT_TRANSLATE_4_HIGH;
    return memory.high_length % 4096 != 0;
}

void count_memory(struct memory memory)
{
    if (memory.low == NULL)
        event(EVENT_NO_LOW);
    if (memory.high == NULL)
        event(EVENT_NO_HIGH);
    if (memory.low_length == low_most)
        event(EVENT_LOW_AT_LIMIT);
    if (memory.high_length > low_most)
        event(EVENT_HIGH_ABOVE_LIMIT);
}

static void count_low_place(struct memory memory, uint64_t page)
{
    if (page + 4096 == memory.low_length)
        event(memory.low_length == low_most ? EVENT_PLACE_LIMIT_LAST : EVENT_PLACE_LOW_LAST);
    if (page < memory.low_length)
        return;
    event(EVENT_PLACE_HOLE);
    if (page == memory.low_length && page == 0)
        event(EVENT_PLACE_NO_LOW);
    else if (page == memory.low_length)
        event(page == low_most ? EVENT_PLACE_LIMIT : EVENT_PLACE_LOW_END);
    if (page + 4096 == high_first)
        event(EVENT_PLACE_BELOW_HIGH);
}

static void count_high_place(struct memory memory, uint64_t page)
{
    uint64_t number = page - high_first;
    if (number == 0)
        event(memory.high_length == 0 ? EVENT_PLACE_NO_HIGH : EVENT_PLACE_HIGH_FIRST);
    if (number + 4096 == memory.high_length)
        event(EVENT_PLACE_HIGH_LAST);
    if (number == memory.high_length && number != 0)
        event(EVENT_PLACE_HIGH_END);
    if (number > memory.high_length)
        event(EVENT_PLACE_BEYOND);
    if (number >= high_first && number < memory.high_length)
        event(EVENT_PLACE_HIGH_FAR);
}

void count_place(struct memory memory, uint64_t address)
{
    uint64_t page = address - address % 4096;
    if (in_high(address))
        count_high_place(memory, page);
    else
        count_low_place(memory, page);
}
