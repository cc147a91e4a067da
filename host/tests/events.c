#include "events.h"

#include <stdio.h>

static const char *const texts[EVENT_COUNT] = {
#define EVENT_TEXT(name, text) [EVENT_##name] = text,
    TRANSLATOR_EVENTS(EVENT_TEXT)
    JOURNAL_EVENTS(EVENT_TEXT)
#undef EVENT_TEXT
};

static unsigned long counts[EVENT_COUNT];

void event(enum event which)
{
    counts[which]++;
}

static size_t events_print(size_t first, size_t end)
{
    size_t missing = 0;
    for (size_t i = first; i < end; i++) {
        printf("%12lu  %s\n", counts[i], texts[i]);
        missing += counts[i] == 0;
    }
    return missing;
}

size_t translator_events_print(void)
{
    return events_print(0, EVENT_TRANSLATOR_END);
}

size_t journal_events_print(void)
{
    return events_print(EVENT_TRANSLATOR_END + 1, EVENT_COUNT);
}
