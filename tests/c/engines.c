/* Two engines in one buffer: each has a part of it for a trace or a walk, and neither order of the two may show. */
#include "engines.h"

#include "lent.h"
#include "record.h"

#include <string.h>

/* A buffer, and the bytes of it before the first part; those after the second are what is left. */
enum { BUFFER = 512, BEFORE = 7, MOST_RECORDS = 5 };

/* ---- what an engine asks for: each gives the number of the answer */

typedef uint8_t asks(uint32_t whose, uint8_t *out, size_t length);

static const umb_rect window = {{1, 3}, {0, 2}}, turned = {{3, 1}, {0, 2}};
/* With a dead sample each, two of them at the end; the last touches two sides and a corner in passing. Not const: a
 * write there is for a check to find. */
static double longer[] = {0, 0, 4, 2, 4, 0x1p501, 0, 2, 4, 0, 4, 5}, shorter[] = {1.25, 1, 2.5, 1.5, 0x1p501, 1};
static double touching[] = {2, 3, 2, 2, 3, 1, 4, 1, 2, 3, 2, 0x1p501};
enum {
    LONGER = sizeof longer / sizeof longer[0],
    SHORTER = sizeof shorter / sizeof shorter[0],
    TOUCHING = sizeof touching / sizeof touching[0]
};

static uint8_t longer_trace(uint32_t whose, uint8_t *out, size_t length)
{
    return umb_cut_trace(longer, LONGER, window, whose, out, length).number;
}

static uint8_t shorter_trace(uint32_t whose, uint8_t *out, size_t length)
{
    return umb_cut_trace(shorter, SHORTER, window, whose, out, length).number;
}

static uint8_t touching_trace(uint32_t whose, uint8_t *out, size_t length)
{
    return umb_cut_trace(touching, TOUCHING, window, whose, out, length).number;
}

static uint8_t touching_trace_with_touches(uint32_t whose, uint8_t *out, size_t length)
{
    return umb_cut_trace_with_touches(touching, TOUCHING, window, whose, out, length).number;
}

static uint8_t trace_to_no_window(uint32_t whose, uint8_t *out, size_t length)
{
    return umb_cut_trace(longer, LONGER, turned, whose, out, length).number;
}

static uint8_t trace_with_touches_to_no_window(uint32_t whose, uint8_t *out, size_t length)
{
    return umb_cut_trace_with_touches(touching, TOUCHING, turned, whose, out, length).number;
}

static uint8_t trace_of_half_a_sample(uint32_t whose, uint8_t *out, size_t length)
{
    return umb_cut_trace(longer, LONGER - 1, window, whose, out, length).number;
}

static const umb_uv middle = {0, 0}, aside = {0.25, -0.5};
static const umb_vector level = {0, 0, 1}, upright = {1, 0, 0};

static uint8_t longer_walk(uint32_t whose, uint8_t *out, size_t length)
{
    return umb_walk(0, middle, 3, middle, level, whose, out, length).number;
}

static uint8_t walk_on_a_face(uint32_t whose, uint8_t *out, size_t length)
{
    return umb_walk(4, aside, 4, middle, level, whose, out, length).number;
}

static uint8_t walk_from_no_face(uint32_t whose, uint8_t *out, size_t length)
{
    return umb_walk(6, middle, 3, middle, level, whose, out, length).number;
}

static uint8_t walk_off_its_face(uint32_t whose, uint8_t *out, size_t length)
{
    return umb_walk(0, middle, 1, middle, upright, whose, out, length).number;
}

static uint8_t walk_without_end(uint32_t whose, uint8_t *out, size_t length)
{
    return umb_walk(0, middle, 2, middle, level, whose, out, length).number;
}

/* ---- the engines, each with the answer and the records that are due */

typedef struct engine {
    asks *ask;
    uint8_t number;
    size_t count;
    struct {
        uint8_t first;
        umb_point a, b;
    } records[MOST_RECORDS];
} engine;

static const engine engines[] = {
    {longer_trace,
     UMB_DONE,
     5,
     {{UMB_DONE, {1, 0.5}, {3, 1.5}},
      {.first = UMB_NOT_FINITE},
      {.first = UMB_NOT_FINITE},
      {UMB_DONE, {1, 1.5}, {3, 0.5}},
      {.first = UMB_MISSED}}},
    {shorter_trace, UMB_DONE, 2, {{UMB_DONE, {1.25, 1}, {2.5, 1.5}}, {.first = UMB_NOT_FINITE}}},
    {touching_trace,
     UMB_DONE,
     5,
     {{.first = UMB_MISSED},
      {UMB_DONE, {2, 2}, {3, 1}},
      {.first = UMB_MISSED},
      {.first = UMB_MISSED},
      {.first = UMB_NOT_FINITE}}},
    {touching_trace_with_touches,
     UMB_DONE,
     5,
     {{UMB_DONE, {2, 2}, {2, 2}},
      {UMB_DONE, {2, 2}, {3, 1}},
      {UMB_DONE, {3, 1}, {3, 1}},
      {UMB_DONE, {3, 2}, {3, 2}},
      {.first = UMB_NOT_FINITE}}},
    {longer_walk, UMB_DONE, 3, {{0, {0, 0}, {1, -0.0}}, {1, {-1, -0.0}, {1, 0}}, {3, {-0.0, -1}, {0, 0}}}},
    {walk_on_a_face, UMB_DONE, 1, {{4, {0.25, -0.5}, {0, 0}}}},
    {.ask = trace_to_no_window, .number = UMB_BAD_WINDOW},
    {.ask = trace_with_touches_to_no_window, .number = UMB_BAD_WINDOW},
    {.ask = trace_of_half_a_sample, .number = UMB_BAD_TRACE},
    {.ask = walk_from_no_face, .number = UMB_BAD_FACE},
    {.ask = walk_off_its_face, .number = UMB_OFF_FACE},
    {.ask = walk_without_end, .number = UMB_UNFINISHED},
};
enum { ENGINES = sizeof engines / sizeof engines[0] };

/* ---- their parts */

typedef struct part {
    const engine *of;
    uint32_t whose;
    size_t begin, length;
} part;

static size_t records_length(const engine *e)
{
    return RECORD * e->count;
}

static bool write_part(const part *p, uint8_t *buffer)
{
    return p->of->ask(p->whose, buffer + p->begin, p->length) == p->of->number;
}

/* The buffer after both, in this order, and whether they answered what was due and left alone what is around it. */
static bool write_both(const part *first, const part *second, uint8_t after[BUFFER])
{
    uint8_t *const buffer = lend(BUFFER);
    const bool first_due = write_part(first, buffer), second_due = write_part(second, buffer);
    memcpy(after, buffer, BUFFER);
    return first_due && second_due && guards_stand(buffer, BUFFER);
}

static bool has_its_records(const part *p, const uint8_t *buffer)
{
    for (size_t i = 0; i < p->of->count; i++)
        if (!is_record(buffer + p->begin + RECORD * i, p->of->records[i].first, p->whose, p->of->records[i].a,
                       p->of->records[i].b))
            return false;
    return true;
}

static bool rest_is_untouched(const part *p, const uint8_t *buffer)
{
    const size_t written = records_length(p->of);
    return untouched(buffer + p->begin + written, p->length - written);
}

/* A buffer with the neighbour's records in it stays as it is where a byte is missing. */
static bool refused_without_room(const part *p, const part *neighbour)
{
    static uint8_t before[BUFFER];
    uint8_t *const buffer = lend(BUFFER);
    if (p->of->count == 0)
        return true;
    write_part(neighbour, buffer);
    memcpy(before, buffer, BUFFER);
    return p->of->ask(p->whose, buffer + p->begin, records_length(p->of) - 1) == UMB_SHORT_BUFFER &&
           memcmp(buffer, before, BUFFER) == 0 && guards_stand(buffer, BUFFER);
}

/* ---- what has to hold */

static const char *wrong_with_parts(const part *one, const part *other)
{
    static uint8_t forth[BUFFER], back[BUFFER];
    const size_t end = other->begin + other->length;

    if (!write_both(one, other, forth) || !write_both(other, one, back))
        return "each is answered as if it were alone, and writes in its buffer";
    if (memcmp(forth, back, BUFFER) != 0)
        return "the bytes are the same whichever is written first";
    if (!has_its_records(one, forth) || !has_its_records(other, forth))
        return "every record stands whole in its own part, under its own number";
    if (!rest_is_untouched(one, forth) || !rest_is_untouched(other, forth))
        return "after its last record a part is as it was";
    if (!untouched(forth, one->begin) || !untouched(forth + end, BUFFER - end))
        return "before and after the two parts the buffer is as it was";
    if (!refused_without_room(one, other) || !refused_without_room(other, one))
        return "what has no room changes nothing, of its own part or the other";
    return NULL;
}

/* The part of an engine, with so many bytes more than its records take. */
static part part_of(const engine *e, uint32_t whose, size_t begin, size_t spare)
{
    return (part){e, whose, begin, records_length(e) + spare};
}

static const char *wrong_under_numbers(uint32_t one_number, uint32_t other_number, size_t spare)
{
    const char *wrong = NULL;
    for (size_t i = 0; i < ENGINES * ENGINES && wrong == NULL; i++) {
        const part one = part_of(&engines[i / ENGINES], one_number, BEFORE, spare);
        const part other = part_of(&engines[i % ENGINES], other_number, one.begin + one.length, spare);
        wrong = wrong_with_parts(&one, &other);
    }
    return wrong;
}

const char *wrong_with_two_engines(void)
{
    static const uint32_t numbers[][2] = {{0x89abcdef, 0x01234567}, {0, 0x89abcdef}, {1, 0}, {0, 0}};
    const char *wrong = NULL;
    for (size_t i = 0; i < sizeof numbers / sizeof numbers[0]; i++)
        for (size_t spare = 0; spare <= RECORD && wrong == NULL; spare += RECORD / 2)
            wrong = wrong_under_numbers(numbers[i][0], numbers[i][1], spare);
    return wrong;
}
