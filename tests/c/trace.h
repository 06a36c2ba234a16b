#ifndef TRACE_H
#define TRACE_H

#include "lent.h"
#include "request.h"

/* The library's function for a whole trace, without touches or with them, and the operation that asks for it. */
typedef struct trace_entry {
    uint64_t operation;
    umb_trace_answer (*cut)(const double *samples, size_t samples_length, umb_rect window, uint32_t whose, uint8_t *out,
                            size_t out_length);
    bool keeps_touches;
} trace_entry;

/* Without touches, then with them. */
enum { TRACE_ENTRIES = 2 };
extern const trace_entry trace_entries[TRACE_ENTRIES];

/* The entry that the request asks for; null where it asks for no trace. */
const trace_entry *entry_for(const request *r);
/* The length of the buffer that the request asks for. */
size_t trace_length(const request *r);
/* The trace that it asks for, with a buffer of another length. */
lent trace(const request *r, size_t length);

bool same_counts(umb_trace_answer one, umb_trace_answer other);
/* With one edge more among the counted, the one with this number. */
umb_trace_answer with_edge(umb_trace_answer counted, uint8_t number);

#endif
