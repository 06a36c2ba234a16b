/* Long traces, each record beside what umb_clip_edge answers for its edge, and without touches beside with them. */
#include "long_trace.h"

#include "kinds.h"
#include "record.h"
#include "samples.h"
#include "trace.h"

#include <string.h>

enum { LIMIT = 4096 };

/* One sample more than a call takes. */
static double samples[2 * (LIMIT + 1)];
static const umb_rect window = {{0, 1}, {0, 1}}, turned = {{1, 0}, {0, 1}};
/* A trace number of which no two bytes are the same. */
static const uint32_t some_number = 0x89abcdef;

static umb_point sample_at(size_t place)
{
    return (umb_point){samples[2 * place], samples[2 * place + 1]};
}

static edge edge_at(size_t place)
{
    return edge_of(sample_at(place), sample_at(place + 1), window);
}

/* ---- a trace through an entry */

/* A trace of so many samples under this trace number, with so many bytes lent beyond its records. */
typedef struct asked {
    size_t count;
    uint32_t whose;
    size_t spare;
} asked;

/* What an entry answered to it and left. */
typedef struct left {
    umb_trace_answer answer;
    uint8_t bytes[MOST_LENT];
} left;

static const char *wrong_with_records(const trace_entry *entry, const asked *t, const left *found)
{
    umb_trace_answer counted = {.number = UMB_DONE};
    while (counted.edges + 1 < t->count) {
        const edge e = edge_at(counted.edges);
        const umb_cut due = cut_due(&e, entry->keeps_touches);
        if (!is_record(found->bytes + RECORD * counted.edges, due.number, t->whose, due.a, due.b))
            return "each record is the answer for its edge, without touches or with them, under the trace's number";
        counted = with_edge(counted, due.number);
    }
    return same_counts(found->answer, counted) ? NULL : "the counts are those of the edges";
}

static const char *wrong_with_trace(const trace_entry *entry, const asked *t, left *found)
{
    const size_t length = RECORD * (t->count - 1) + t->spare;
    uint8_t *const out = lend(length);
    found->answer = entry->cut(samples, 2 * t->count, window, t->whose, out, length);
    memcpy(found->bytes, out, length);
    if (!untouched(out + length - t->spare, t->spare) || !guards_stand(out, length))
        return "it writes its records alone";
    return wrong_with_records(entry, t, found);
}

/* ---- the two entries */

static bool same_record(const left *one, const left *other, size_t place)
{
    return memcmp(one->bytes + RECORD * place, other->bytes + RECORD * place, RECORD) == 0;
}

static bool fewer_by(size_t touches, umb_trace_answer without, umb_trace_answer with)
{
    with.kept -= touches;
    with.missed += touches;
    return same_counts(without, with);
}

static const char *wrong_beside(const asked *t, const left *without, const left *with)
{
    bool seen[KINDS] = {false};
    size_t touches = 0;
    for (size_t i = 0; i + 1 < t->count; i++) {
        const edge e = edge_at(i);
        see_kinds(&e, seen);
        touches += only_touches(&e);
        if (same_record(without, with, i) == only_touches(&e))
            return "with touches a record is another exactly where its edge only touches the window";
    }
    if (!fewer_by(touches, without->answer, with->answer))
        return "with touches as many more are kept, and fewer missed, as edges only touch the window";
    return kind_not_seen(seen);
}

static const char *wrong_with_both(asked t)
{
    static left found[TRACE_ENTRIES];
    const char *wrong = NULL;
    for (size_t i = 0; i < TRACE_ENTRIES && wrong == NULL; i++)
        wrong = wrong_with_trace(&trace_entries[i], &t, &found[i]);
    return wrong != NULL ? wrong : wrong_beside(&t, &found[0], &found[1]);
}

/* ---- refusals */

static bool refused(uint8_t number, size_t floats, umb_rect to, size_t length)
{
    for (size_t i = 0; i < TRACE_ENTRIES; i++) {
        uint8_t *const out = lend(length);
        const umb_trace_answer given = trace_entries[i].cut(samples, floats, to, some_number, out, length);
        if (!same_counts(given, (umb_trace_answer){.number = number}) || !untouched(out, length) ||
            !guards_stand(out, length))
            return false;
    }
    return true;
}

static const char *wrong_with_refusals(void)
{
    const size_t room = RECORD * (LIMIT - 1);
    if (!refused(UMB_SHORT_BUFFER, 2 * LIMIT, window, room - 1) || !refused(UMB_SHORT_BUFFER, 2 * LIMIT, window, 0))
        return "8 where the records have no room, and nothing is written";
    if (!refused(UMB_BAD_TRACE, 2 * LIMIT + 2, window, MOST_LENT))
        return "10 for a sample more than 4,096";
    if (!refused(UMB_BAD_TRACE, 2 * LIMIT + 1, window, room) || !refused(UMB_BAD_TRACE, 2 * LIMIT - 1, window, room))
        return "10 for an odd count of floats";
    if (!refused(UMB_BAD_TRACE, 2 * LIMIT + 2, turned, 0) || !refused(UMB_BAD_WINDOW, 2 * LIMIT, turned, 0))
        return "10 comes before 3, and 3 before 8";
    return NULL;
}

const char *wrong_with_long_traces(void)
{
    static double before[2 * (LIMIT + 1)];
    make_samples(samples, LIMIT + 1);
    memcpy(before, samples, sizeof before);

    const char *wrong = wrong_with_both((asked){LIMIT, 0, 0});
    if (wrong == NULL)
        wrong = wrong_with_both((asked){LIMIT, some_number, 1});
    if (wrong == NULL)
        wrong = wrong_with_both((asked){LIMIT - 1, some_number, RECORD});
    if (wrong == NULL)
        wrong = wrong_with_refusals();
    if (wrong == NULL && memcmp(before, samples, sizeof before) != 0)
        wrong = "the samples are only read";
    return wrong;
}
