/* The kinds of edges that a trace has to have for its check to show what becomes of touches. */
#ifndef KINDS_H
#define KINDS_H

#include "edge.h"

enum { KINDS = 14 };

/* Marks the kinds that the edge is of. */
void see_kinds(const edge *e, bool seen[KINDS]);
/* That the trace has an edge of a kind, where none was seen; null where each was. */
const char *kind_not_seen(const bool seen[KINDS]);

#endif
