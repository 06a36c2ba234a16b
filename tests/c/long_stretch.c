/* The longest clean stretch of traces up to the limit of 4,096 samples: of some in which it is known where it is, and
 * of some in which every run is tried. */
#include "samples.h"
#include "stretch.h"

#include <string.h>

enum { LIMIT = 4096, MARKED = 3, TRIED = 512 };

/* One sample more than a call takes. */
static double samples[2 * (LIMIT + 1)];
static const umb_rect window = {{0, 1}, {0, 1}}, turned = {{0, 1}, {1, 0}};

static bool gives(size_t floats, umb_rect to, umb_stretch_answer due)
{
    static double before[2 * (LIMIT + 1)];
    memcpy(before, samples, sizeof before);
    return same_stretch(umb_longest_clean(samples, floats, to), due) && memcmp(before, samples, sizeof before) == 0;
}

/* ---- traces in which it is known */

/* A trace of 4,096 samples that are all clean, or none of which is, but for those at the marked places: there it is the
 * other way round. LIMIT is no place of it. */
static const struct known {
    const char *has_to_be;
    bool clean;
    size_t marked[MARKED];
    size_t first, count;
} known[] = {
    {"all of a clean trace is its stretch", true, {LIMIT, LIMIT, LIMIT}, 0, LIMIT},
    {"nothing is the stretch where no sample is clean, and is at the start", false, {LIMIT, LIMIT, LIMIT}, 0, 0},
    {"a sample in the middle parts the trace, the longer part before it", true, {2048, LIMIT, LIMIT}, 0, 2048},
    {"a sample in the middle parts the trace, the longer part after it", true, {2047, LIMIT, LIMIT}, 2048, 2048},
    {"the first sample alone may be left out", true, {0, LIMIT, LIMIT}, 1, LIMIT - 1},
    {"the last sample alone may be left out", true, {LIMIT - 1, LIMIT, LIMIT}, 0, LIMIT - 1},
    {"the first of two as long", true, {1365, 2731, LIMIT}, 0, 1365},
    {"the first of two as long, a shorter one before them", true, {100, 2098, LIMIT}, 101, 1997},
    {"the last of four is a sample longer", true, {1023, 2047, 3071}, 3072, 1024},
    {"the longest is between two others", true, {1000, 3000, 3001}, 1001, 1999},
    {"a sample alone at the start", false, {0, LIMIT, LIMIT}, 0, 1},
    {"a sample alone at the end", false, {LIMIT - 1, LIMIT, LIMIT}, LIMIT - 1, 1},
    {"the first of three samples alone", false, {7, 4000, LIMIT - 1}, 7, 1},
    {"two together after one alone", false, {1, LIMIT - 2, LIMIT - 1}, LIMIT - 2, 2},
};

static const double inside[][2] = {{0, 0}, {0.5, 0.25}, {1, 1}, {-0.0, 1}, {0.75, -0.0}, {1, 0.5}, {0x1p-1074, 1}};

/* Dead in one coordinate or in both, and one float beyond each side, as bits: NaN, both infinities, the float above
 * 2^500 of either sign, and the floats beside 0 and 1; 3fe is a half. */
static const uint64_t spoiled[][2] = {
    {0x7ff8000000000000, 0x3fe0000000000000}, {0x3fe0000000000000, 0xfff8000000000001},
    {0x7ff0000000000000, 0x3fe0000000000000}, {0x3fe0000000000000, 0xfff0000000000000},
    {0xdf30000000000001, 0x3fe0000000000000}, {0x3fe0000000000000, 0x5f30000000000001},
    {0x7ff8000000000000, 0x7ff8000000000000}, {0x8000000000000001, 0x3fe0000000000000},
    {0x3ff0000000000001, 0x3fe0000000000000}, {0x3fe0000000000000, 0x8000000000000001},
    {0x3fe0000000000000, 0x3ff0000000000001},
};
enum { INSIDE = sizeof inside / sizeof inside[0], SPOILED = sizeof spoiled / sizeof spoiled[0] };

static bool is_marked(const struct known *k, size_t place)
{
    for (size_t i = 0; i < MARKED; i++)
        if (k->marked[i] == place)
            return true;
    return false;
}

/* What is not clean is all of one kind. */
static void make_known(const struct known *k, size_t kind)
{
    for (size_t i = 0; i <= LIMIT; i++)
        memcpy(samples + 2 * i, k->clean != is_marked(k, i) ? (const void *)inside[i % INSIDE] : spoiled[kind],
               2 * sizeof samples[0]);
}

static const char *wrong_with_known(void)
{
    for (size_t i = 0; i < sizeof known / sizeof known[0]; i++)
        for (size_t kind = 0; kind < SPOILED; kind++) {
            make_known(&known[i], kind);
            if (!gives(2 * LIMIT, window, (umb_stretch_answer){UMB_DONE, known[i].first, known[i].count}))
                return known[i].has_to_be;
        }
    return NULL;
}

/* ---- traces in which every run is tried */

static bool is_clean(size_t place)
{
    const double x = samples[2 * place], y = samples[2 * place + 1];
    return -0x1p500 <= x && x <= 0x1p500 && -0x1p500 <= y && y <= 0x1p500 && window.x.lo <= x && x <= window.x.hi &&
           window.y.lo <= y && y <= window.y.hi;
}

/* Every first sample with every count that goes on from it. */
static umb_stretch_answer by_every_run(size_t count)
{
    umb_stretch_answer best = {.number = UMB_DONE};
    size_t spoiled_before[TRIED + 1] = {0};
    for (size_t i = 0; i < count; i++)
        spoiled_before[i + 1] = spoiled_before[i] + !is_clean(i);
    for (size_t first = 0; first <= count; first++)
        for (size_t run = 0; first + run <= count; run++)
            if (spoiled_before[first + run] == spoiled_before[first] && run > best.count)
                best = (umb_stretch_answer){UMB_DONE, first, run};
    return best;
}

static const char *wrong_with_tried(void)
{
    make_samples(samples, LIMIT + 1);
    for (size_t count = 0; count <= TRIED; count = 2 * count + 1)
        if (!gives(2 * count, window, by_every_run(count)))
            return "no run that is clean is longer, or as long and before it";
    return NULL;
}

/* ---- refusals */

static bool refused(uint8_t number, size_t floats, umb_rect to)
{
    return gives(floats, to, (umb_stretch_answer){.number = number});
}

static const char *wrong_with_refusals(void)
{
    make_known(&known[0], 0);
    if (!refused(UMB_BAD_TRACE, 2 * LIMIT + 2, window))
        return "10 for a sample more than 4,096";
    if (!refused(UMB_BAD_TRACE, 2 * LIMIT + 1, window) || !refused(UMB_BAD_TRACE, 2 * LIMIT - 1, window) ||
        !refused(UMB_BAD_TRACE, 1, window))
        return "10 for an odd count of floats";
    if (!refused(UMB_BAD_WINDOW, 2 * LIMIT, turned) || !refused(UMB_BAD_WINDOW, 0, turned))
        return "3 for a bad window";
    if (!refused(UMB_BAD_TRACE, 2 * LIMIT + 2, turned) || !refused(UMB_BAD_TRACE, 3, turned))
        return "10 comes before 3";
    if (!gives(0, window, (umb_stretch_answer){.number = UMB_DONE}))
        return "of no sample nothing is the stretch";
    return NULL;
}

const char *wrong_with_long_stretches(void)
{
    const char *wrong = wrong_with_known();
    if (wrong == NULL)
        wrong = wrong_with_tried();
    return wrong != NULL ? wrong : wrong_with_refusals();
}
