#include "trace.h"

#include <string.h>

/* The trace number stands after the places of all floats, however many are asked. */
enum { WHOSE = 7 + FLOATS };

const trace_entry trace_entries[TRACE_ENTRIES] = {
    {.operation = 61, .cut = umb_cut_trace, .keeps_touches = false},
    {.operation = 62, .cut = umb_cut_trace_with_touches, .keeps_touches = true},
};

const trace_entry *entry_for(const request *r)
{
    for (size_t i = 0; i < TRACE_ENTRIES; i++)
        if (trace_entries[i].operation == r->words[0])
            return &trace_entries[i];
    return NULL;
}

size_t trace_length(const request *r)
{
    return length_at(r, 2, LONGEST);
}

lent trace(const request *r, size_t length)
{
    const size_t count = length_at(r, 1, FLOATS);
    double samples[FLOATS];
    uint8_t *const out = lend(length);
    lent t = {.length = length};

    memcpy(samples, r->words + 7, sizeof samples);
    t.answer = of_trace(entry_for(r)->cut(samples, count, rect_at(r, 3), u32_at(r, WHOSE), out, length));
    t.intact = guards_stand(out, length) && memcmp(samples, r->words + 7, sizeof samples) == 0;
    memcpy(t.bytes, out, length);
    return t;
}

bool same_counts(umb_trace_answer one, umb_trace_answer other)
{
    const answer a = of_trace(one), b = of_trace(other);
    return same_answer(&a, &b);
}

umb_trace_answer with_edge(umb_trace_answer counted, uint8_t number)
{
    counted.kept += number == UMB_DONE;
    counted.missed += number == UMB_MISSED;
    counted.refused += number == UMB_NOT_FINITE;
    counted.edges++;
    return counted;
}
