/* driver.c: calls the contestants. Each is the same functions of include/umblacet.h under its own name, or some of
 * them, and every call goes through the same loop.
 *
 *     driver count CONTESTANT INPUT COUNT ROUNDS    makes COUNT inputs, calls the contestant on each ROUNDS times, and
 *                                                   prints what it answered: how many were done, and a sum of all bits;
 *                                                   a trace is one input of COUNT edges, or where its longest clean
 *                                                   stretch or its boxes are asked for of COUNT samples, those in the
 *                                                   stretch being done; where a trace is looked for in pages, COUNT is
 *                                                   theirs, those being done that it is in
 *     driver time INPUT COUNT ROUNDS                the same for every contestant that is linked in, in turn, and prints
 *                                                   each one's nanoseconds a call in its best round
 *
 * Status 3 where the contestant is not linked in or has no such function. */
#include "inputs.h"

/* The kit's clang comes without the C library's headers: what is used of it is declared here, for x86-64 Linux. */
int printf(const char *format, ...);
int strcmp(const char *one, const char *other);
long atol(const char *text);
void *calloc(size_t count, size_t size);
void *memcpy(void *to, const void *from, size_t size);
int sched_yield(void);
struct timespec {
    long seconds, nanoseconds;
};
int clock_gettime(int clock, struct timespec *now);
enum { CLOCK_MONOTONIC = 1 };

typedef umb_cut cut_function(umb_point a, umb_point b, umb_rect window);
typedef umb_yes_no meets_function(umb_vector n);
typedef umb_walk_answer walk_function(uint8_t face, umb_uv a, uint8_t target, umb_uv b, umb_vector normal,
                                      uint32_t whose, uint8_t *out, size_t out_length);
typedef umb_trace_answer trace_function(const double *samples, size_t samples_length, umb_rect window, uint32_t whose,
                                        uint8_t *out, size_t out_length);
typedef umb_stretch_answer stretch_function(const double *samples, size_t samples_length, umb_rect window);
typedef umb_pages_answer build_function(const double *samples, size_t samples_length, double *boxes,
                                        size_t boxes_length);
typedef umb_kept_answer kept_function(const double *samples, size_t samples_length, umb_rect window,
                                      const double *boxes, size_t boxes_length);

/* Weak, so that what cannot be built may be left out. */
#define OPTIONAL __attribute__((weak))
extern cut_function nothing_clip_edge, crate_clip_edge OPTIONAL, s2_clip_edge OPTIONAL;
extern meets_function nothing_intersects_face, crate_intersects_face OPTIONAL;
extern walk_function nothing_walk, crate_walk OPTIONAL;
extern trace_function crate_cut_trace OPTIONAL;
extern stretch_function plain_longest_clean OPTIONAL, plain_longest_clean_at_ends OPTIONAL;
extern kept_function nothing_first_kept, plain_first_kept OPTIONAL;

/* The record of an edge: its number, three zero bytes, whose it is, then the floats of its answer. The first two are
 * stored apart, which takes four instructions less than one word of both. */
static void put_record(uint8_t *record, umb_cut cut, uint32_t whose) {
    uint32_t first = cut.number;
    __builtin_memcpy(record, &first, 4);
    __builtin_memcpy(record + 4, &whose, 4);
    __builtin_memcpy(record + 8, &cut.a, 16);
    __builtin_memcpy(record + 24, &cut.b, 16);
}

/* Whether two numbers differ, neither a NaN: one comparison and one jump, where != takes a jump more. */
static bool differ(double x, double y) {
    return (x < y) | (y < x);
}

/* Whether the edge with these ends only touches the window: both kept points are the same, though the ends differ. */
static bool only_touches(const double *ends, const umb_cut *cut) {
    if (cut->number != UMB_DONE || differ(cut->a.x, cut->b.x) || differ(cut->a.y, cut->b.y)) return false;
    return differ(ends[0], ends[2]) || differ(ends[1], ends[3]);
}

/* A whole trace with a call for each edge, as it is done where there is no function for it. It refuses no trace: the
 * crate's function refuses each edge by itself, the window with it. */
static umb_trace_answer crate_edge_by_edge(const double *samples, size_t samples_length, umb_rect window,
                                           uint32_t whose, uint8_t *out, size_t out_length) {
    umb_trace_answer counted = {0};
    for (size_t i = 0; i + 3 < samples_length && out_length >= RECORD_BYTES; i += 2) {
        const double *ends = samples + i;
        umb_cut cut = crate_clip_edge((umb_point){ends[0], ends[1]}, (umb_point){ends[2], ends[3]}, window);
        if (only_touches(ends, &cut)) {
            put_record(out, (umb_cut){.number = UMB_MISSED}, whose);
            counted.missed++;
        } else {
            put_record(out, cut, whose);
            counted.kept += cut.number == UMB_DONE;
            counted.missed += cut.number == UMB_MISSED;
        }
        counted.edges++;
        out += RECORD_BYTES;
        out_length -= RECORD_BYTES;
    }
    counted.refused = counted.edges - counted.kept - counted.missed;
    return counted;
}

static uint8_t *records;
static size_t records_length;

/* The first kept edge by the records of all, as it is found where there are no boxes: the first record that says so,
 * where one does. */
static umb_kept_answer first_record(const double *samples, size_t samples_length, umb_rect window, const double *boxes,
                                    size_t boxes_length) {
    (void)boxes, (void)boxes_length;
    umb_trace_answer cut = umb_cut_trace_with_touches(samples, samples_length, window, 0, records, records_length);
    if (cut.number != UMB_DONE || cut.kept == 0) return (umb_kept_answer){cut.number ? cut.number : UMB_MISSED, 0, 0};
    size_t edge = 0;
    while (records[edge * RECORD_BYTES] != UMB_DONE) edge++;
    return (umb_kept_answer){UMB_DONE, edge, 0};
}

static const struct contestant {
    const char *name;
    cut_function *cut;
    meets_function *meets;
    walk_function *walk;
    trace_function *trace;
    stretch_function *stretch;
    build_function *build;
    kept_function *kept;
    bool opened; /* the boxes that are opened are what is done */
} contestants[] = {
    {"ours", umb_clip_edge, umb_intersects_face, umb_walk, umb_cut_trace, umb_longest_clean, umb_build_pages,
     umb_first_kept, false},
    {"opened", .kept = umb_first_kept, .opened = true},
    {"records", .kept = first_record},
    {"with-touches", .trace = umb_cut_trace_with_touches},
    {"crate", crate_clip_edge, crate_intersects_face, crate_walk, .trace = crate_edge_by_edge},
    {"loop", .trace = crate_cut_trace},
    {"plain", .stretch = plain_longest_clean},
    {"plain-at-ends", .stretch = plain_longest_clean_at_ends},
    {"plain-scan", .kept = plain_first_kept},
    {"s2", .cut = s2_clip_edge},
    {"nothing", nothing_clip_edge, nothing_intersects_face, nothing_walk, .kept = nothing_first_kept},
};
enum { CONTESTANTS = sizeof contestants / sizeof contestants[0] };

static const struct input {
    const char *name;
    void (*make)(edge *edges, size_t count);     /* edges */
    umb_point (*sample)(size_t i, size_t count); /* a whole trace */
    walk_input (*walk)(size_t segments);         /* walks */
    size_t segments;
    bool stretch; /* of a trace, its longest clean stretch is asked for */
    bool build;   /* or its boxes */
    umb_rect (*page)(size_t i, const double *samples, size_t edges); /* in which a trace is looked for */
    size_t edges;                                                    /* of that trace */
} inputs[] = {
    {"random", .make = random_edges},
    {"trace", .make = trace_edges},
    {"outside", .make = outside_edges},
    {"inside", .make = inside_edges},
    {.name = "line"},
    {"walk", .walk = walk_of},
    {"walk-1", .walk = walk_of, .segments = 1},
    {"walk-2", .walk = walk_of, .segments = 2},
    {"walk-3", .walk = walk_of, .segments = 3},
    {"walk-4", .walk = walk_of, .segments = 4},
    {"walk-5", .walk = walk_of, .segments = 5},
    {"walk-6", .walk = walk_of, .segments = 6},
    {"walk-tight-1", .walk = tight_walk, .segments = 1},
    {"walk-tight-2", .walk = tight_walk, .segments = 2},
    {"walk-tight-3", .walk = tight_walk, .segments = 3},
    {"walk-tight-4", .walk = tight_walk, .segments = 4},
    {"walk-tight-5", .walk = tight_walk, .segments = 5},
    {"walk-off-face", .walk = walk_off_face},
    {"walk-unfinished", .walk = unfinished_walk},
    {"walk-short", .walk = short_walk},
    {"whole-trace", .sample = sample},
    {"whole-random", .sample = anywhere},
    {"whole-outside", .sample = along_sides},
    {"whole-inside", .sample = inside},
    {"whole-seldom-dead", .sample = seldom_dead},
    {"whole-in-and-out", .sample = in_and_out},
    {"whole-across", .sample = across},
    {"whole-corners", .sample = round_corners},
    {"whole-dead", .sample = dead},
    {"whole-touching", .sample = touching},
    {"whole-past-a-corner", .sample = past_a_corner},
    {"whole-upright", .sample = upright},
    {"stretch-slow", .sample = sample, .stretch = true},
    {"stretch-random", .sample = about, .stretch = true},
    {"stretch-inside", .sample = inside, .stretch = true},
    {"stretch-left", .sample = left, .stretch = true},
    {"stretch-right", .sample = right, .stretch = true},
    {"stretch-below", .sample = below, .stretch = true},
    {"stretch-above", .sample = above, .stretch = true},
    {"stretch-dead", .sample = all_nan, .stretch = true},
    {"stretch-dead-in-y", .sample = nan_in_y, .stretch = true},
    {"stretch-in-and-above", .sample = in_and_above, .stretch = true},
    {"stretch-in-and-below", .sample = in_and_below, .stretch = true},
    {"stretch-seldom-dead", .sample = seldom_dead, .stretch = true},
    {"build", .sample = sample, .build = true},
    {"pages-beyond-256", .sample = sample, .page = page_beyond, .edges = 255},
    {"pages-between-256", .sample = sample, .page = page_between, .edges = 255},
    {"pages-met-256", .sample = sample, .page = page_met, .edges = 255},
    {"pages-mixed-256", .sample = sample, .page = page_mixed, .edges = 255},
    {"pages-beyond-1024", .sample = sample, .page = page_beyond, .edges = 1023},
    {"pages-between-1024", .sample = sample, .page = page_between, .edges = 1023},
    {"pages-met-1024", .sample = sample, .page = page_met, .edges = 1023},
    {"pages-mixed-1024", .sample = sample, .page = page_mixed, .edges = 1023},
    {"pages-beyond-4096", .sample = sample, .page = page_beyond, .edges = 4095},
    {"pages-between-4096", .sample = sample, .page = page_between, .edges = 4095},
    {"pages-met-4096", .sample = sample, .page = page_met, .edges = 4095},
    {"pages-mixed-4096", .sample = sample, .page = page_mixed, .edges = 4095},
};
enum { INPUTS = sizeof inputs / sizeof inputs[0], LINE = 4 };

static size_t input, count;
static uint32_t trace_number;
static edge *edges;
static umb_cut *cuts;
static umb_vector *lines;
static umb_yes_no *answers;
static walk_input *walked;
static umb_walk_answer *ends;
static double *samples;
static size_t samples_length; /* of a trace that is looked for in pages */
static umb_trace_answer counts;
static umb_stretch_answer longest;
static double *boxes;
static size_t boxes_length;
static umb_pages_answer built;
static umb_rect *pages;
static umb_kept_answer *found;

static bool is_trace(void) {
    return inputs[input].sample != 0;
}

static bool is_stretch(void) {
    return inputs[input].stretch;
}

static bool is_build(void) {
    return inputs[input].build;
}

static bool is_paged(void) {
    return inputs[input].page != 0;
}

static bool is_walk(void) {
    return inputs[input].walk != 0;
}

/* One sample more than edges. */
static void make_trace(size_t edge_count) {
    for (size_t i = 0; i <= edge_count; i++) {
        umb_point p = inputs[input].sample(i, edge_count);
        samples[2 * i] = p.x;
        samples[2 * i + 1] = p.y;
    }
}

/* Five floats for each box of so many edges. */
static void make_boxes(size_t edge_count) {
    boxes_length = 5 * (2 * edge_count - 1);
    boxes = calloc(boxes_length, sizeof *boxes);
}

/* The trace, its boxes, which are not counted, and the pages. */
static void make_pages(void) {
    size_t edge_count = inputs[input].edges;
    samples_length = 2 * (edge_count + 1);
    samples = calloc(samples_length, sizeof *samples);
    make_trace(edge_count);
    make_boxes(edge_count);
    umb_build_pages(samples, samples_length, boxes, boxes_length);
    records_length = edge_count * RECORD_BYTES;
    records = calloc(edge_count, RECORD_BYTES);
    pages = calloc(count, sizeof *pages);
    found = calloc(count, sizeof *found);
    /* The same draws, however many samples there were. */
    state = 0;
    for (size_t i = 0; i < count; i++) pages[i] = inputs[input].page(i, samples, edge_count);
}

static void make_walks(void) {
    for (size_t i = 0; i < count; i++) walked[i] = inputs[input].walk(inputs[input].segments);
}

static void make_inputs(void) {
    edges = calloc(count, sizeof *edges);
    cuts = calloc(count, sizeof *cuts);
    lines = calloc(count, sizeof *lines);
    answers = calloc(count, sizeof *answers);
    walked = calloc(count, sizeof *walked);
    ends = calloc(count, sizeof *ends);
    samples = calloc(count + 1, 2 * sizeof *samples);
    records = calloc(count, WALK_BYTES);
    /* No byte is right before it is written. */
    for (size_t byte = 0; byte < count * WALK_BYTES; byte++) records[byte] = 0xee;
    if (is_build()) make_boxes(count - 1);
    if (is_paged()) make_pages();
    else if (is_trace()) make_trace(count);
    else if (input == LINE) normals(lines, count);
    else if (is_walk()) make_walks();
    else inputs[input].make(edges, count);
    /* Not 0, and no one's to know before the call. */
    trace_number = (uint32_t)next_number() | 1;
}

/* ---- the loops */

static void cut_all(cut_function *cut) {
    for (size_t i = 0; i < count; i++) cuts[i] = cut(edges[i].a, edges[i].b, WINDOW);
}

static void test_all(meets_function *meets) {
    for (size_t i = 0; i < count; i++) answers[i] = meets(lines[i]);
}

static void walk_all(walk_function *walk) {
    for (size_t i = 0; i < count; i++) {
        const walk_input *w = &walked[i];
        ends[i] = walk(w->face, w->a, w->target, w->b, w->normal, trace_number, records + i * WALK_BYTES, w->room);
    }
}

static void cut_trace(trace_function *trace) {
    counts = trace(samples, 2 * (count + 1), WINDOW, trace_number, records, count * RECORD_BYTES);
}

static stretch_function *stretch;
static build_function *build;
static kept_function *kept;

/* The longest clean stretch, asked for in the place of a cut: of as many samples as there are edges, one fewer than the
 * trace has. */
static umb_trace_answer find_stretch(const double *trace, size_t length, umb_rect window, uint32_t whose, uint8_t *out,
                                     size_t out_length) {
    (void)whose, (void)out, (void)out_length;
    longest = stretch(trace, length - 2, window);
    return (umb_trace_answer){0};
}

/* The boxes, asked for in the same place. */
static umb_trace_answer find_boxes(const double *trace, size_t length, umb_rect window, uint32_t whose, uint8_t *out,
                                   size_t out_length) {
    (void)window, (void)whose, (void)out, (void)out_length;
    built = build(trace, length - 2, boxes, boxes_length);
    return (umb_trace_answer){0};
}

/* And each page of a trace. */
static umb_trace_answer find_pages(const double *trace, size_t length, umb_rect window, uint32_t whose, uint8_t *out,
                                   size_t out_length) {
    (void)length, (void)window, (void)whose, (void)out, (void)out_length;
    for (size_t i = 0; i < count; i++) found[i] = kept(trace, samples_length, pages[i], boxes, boxes_length);
    return (umb_trace_answer){0};
}

/* The contestant as the input asks it, so that no call is made dearer by the question. */
static struct contestant as_asked(struct contestant c) {
    if (is_stretch()) {
        stretch = c.stretch;
        c.trace = find_stretch;
    }
    if (is_build()) {
        build = c.build;
        c.trace = find_boxes;
    }
    if (is_paged()) {
        kept = c.kept;
        c.trace = find_pages;
    }
    return c;
}

static bool has(const struct contestant *c) {
    if (is_paged()) return c->kept != 0;
    if (is_build()) return c->build != 0;
    if (is_stretch()) return c->stretch != 0;
    if (is_trace()) return c->trace == crate_edge_by_edge ? c->cut != 0 : c->trace != 0;
    return input == LINE ? c->meets != 0 : is_walk() ? c->walk != 0 : c->cut != 0;
}

static void call_all(const struct contestant *c) {
    if (is_trace()) cut_trace(c->trace);
    else if (input == LINE) test_all(c->meets);
    else if (is_walk()) walk_all(c->walk);
    else cut_all(c->cut);
}

/* ---- what was answered */

static uint64_t sum;

static void add(uint64_t word) {
    sum = (sum ^ word) * 0x100000001b3u;
}

static void add_words(const void *from, size_t words) {
    for (size_t i = 0; i < words; i++) {
        uint64_t word;
        memcpy(&word, (const uint8_t *)from + 8 * i, 8);
        add(word);
    }
}

static void add_bytes(const uint8_t *bytes, size_t length) {
    for (size_t i = 0; i < length; i++) add(bytes[i]);
}

static void add_counts(void) {
    add(counts.number);
    add(counts.kept);
    add(counts.missed);
    add(counts.refused);
    add(counts.edges);
}

static void add_stretch(void) {
    add(longest.number);
    add(longest.first);
    add(longest.count);
}

static void add_boxes(void) {
    add(built.number);
    add(built.floats);
    add_words(boxes, built.floats);
}

/* Adds answer i to the sum, padding left out, and says whether something was done: kept, met, walked as was due or, of a
 * sample, in the longest clean stretch. How many boxes were opened is not in it, since a scan opens none. */
static bool add_answer(size_t i) {
    if (is_build()) return true;
    if (is_paged()) {
        add(found[i].number);
        add(found[i].edge);
        return found[i].number == UMB_DONE;
    }
    if (is_stretch()) return longest.first <= i && i - longest.first < longest.count;
    if (is_trace()) {
        add_bytes(records + i * RECORD_BYTES, RECORD_BYTES);
        return records[i * RECORD_BYTES] == UMB_DONE;
    }
    if (input == LINE) {
        add(answers[i].number);
        add(answers[i].yes);
        return answers[i].yes;
    }
    if (is_walk()) {
        const umb_walk_answer *due = &walked[i].due;
        add(ends[i].number);
        add(ends[i].count);
        add_bytes(records + i * WALK_BYTES, WALK_BYTES);
        return ends[i].number == due->number && ends[i].count == due->count;
    }
    add(cuts[i].number);
    add_words(&cuts[i].a, 2);
    add_words(&cuts[i].b, 2);
    return cuts[i].number == UMB_DONE;
}

static void print_answers(bool opened) {
    size_t done = 0;
    add_counts();
    add_stretch();
    add_boxes();
    for (size_t i = 0; i < count; i++) {
        bool is_done = add_answer(i);
        done += opened ? found[i].opened : is_done;
    }
    printf("%lu of %lu, sum %016lx\n", (unsigned long)done, (unsigned long)count, (unsigned long)sum);
}

/* ---- the two commands */

static int count_calls(const char *name, size_t rounds) {
    for (size_t c = 0; c < CONTESTANTS; c++) {
        if (strcmp(contestants[c].name, name) != 0 || !has(&contestants[c])) continue;
        struct contestant asked = as_asked(contestants[c]);
        sched_yield(); /* tells step.c that what is to be counted begins */
        for (size_t round = 0; round < rounds; round++) call_all(&asked);
        print_answers(asked.opened);
        return 0;
    }
    return 3;
}

static double now(void) {
    struct timespec t;
    clock_gettime(CLOCK_MONOTONIC, &t);
    return (double)t.seconds * 1e9 + (double)t.nanoseconds;
}

static int time_calls(size_t rounds) {
    double best[CONTESTANTS];
    for (size_t round = 0; round < rounds; round++) {
        for (size_t c = 0; c < CONTESTANTS; c++) {
            if (!has(&contestants[c])) continue;
            struct contestant asked = as_asked(contestants[c]);
            double start = now();
            call_all(&asked);
            double taken = now() - start;
            if (round == 0 || taken < best[c]) best[c] = taken;
        }
    }
    for (size_t c = 0; c < CONTESTANTS; c++) {
        if (has(&contestants[c])) printf("%s %.2f\n", contestants[c].name, best[c] / (double)count);
    }
    return 0;
}

static bool find_input(const char *name) {
    for (input = 0; input < INPUTS; input++) {
        if (strcmp(inputs[input].name, name) == 0) return true;
    }
    return false;
}

int main(int argc, char **argv) {
    bool counting = argc == 6 && strcmp(argv[1], "count") == 0;
    bool timing = argc == 5 && strcmp(argv[1], "time") == 0;
    if (!(counting || timing) || !find_input(argv[argc - 3])) {
        printf("usage: driver count CONTESTANT INPUT COUNT ROUNDS, or driver time INPUT COUNT ROUNDS\n");
        return 2;
    }
    count = (size_t)atol(argv[argc - 2]);
    size_t rounds = (size_t)atol(argv[argc - 1]);
    make_inputs();
    return counting ? count_calls(argv[2], rounds) : time_calls(rounds);
}
