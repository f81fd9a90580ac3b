/* Tests the library for C on cases: requests, and what the program answers to each, as `cases.py` writes them.

   test CASES          every case, each in rooms of several sizes; then all of them shared by four threads at once
   test CASES refused COUNT
                       so many cases among them with each growth of memory refused in turn

   It is linked with --wrap=malloc and --wrap=realloc, so that it can refuse memory to the library alone. */
#define _POSIX_C_SOURCE 200809L
#include <i_overlay_mesh.h>
#include <pthread.h>
#include <stdarg.h>
#include <stdatomic.h>
#include <stddef.h>
#include <stdio.h>
#include <stdlib.h>
#include <string.h>

/* No nearness is as great. */
static const uint64_t UNTOLD = UINT64_MAX;

enum { THREADS = 4, STACK = 256 * 1024, MARGIN = 16, MARK = 0xA5 };

/* The sizes that `crates/mesh_arrays/src/layout.rt` proves of the library's own structs. Each is the sum of the fields', so
   fields in the same order lie in the same places. */
_Static_assert(sizeof(mesh_arc) == 8 && offsetof(mesh_arc, precision) == 4, "mesh_arc");
_Static_assert(sizeof(mesh_join) == 20 && offsetof(mesh_join, miter_angle) == 4 && offsetof(mesh_join, miter_min_turn) == 8
                   && offsetof(mesh_join, arc) == 12, "mesh_join");
_Static_assert(sizeof(mesh_outline_style) == 28 && offsetof(mesh_outline_style, inner_offset) == 4
                   && offsetof(mesh_outline_style, join) == 8, "mesh_outline_style");
_Static_assert(sizeof(mesh_cap) == 12 && offsetof(mesh_cap, arc) == 4, "mesh_cap");
_Static_assert(sizeof(mesh_stroke_style) == 56 && offsetof(mesh_stroke_style, join) == 4
                   && offsetof(mesh_stroke_style, start_cap) == 24 && offsetof(mesh_stroke_style, end_cap) == 36
                   && offsetof(mesh_stroke_style, side) == 48 && offsetof(mesh_stroke_style, closed) == 52,
               "mesh_stroke_style");
_Static_assert(sizeof(mesh_options) == 16 && offsetof(mesh_options, clockwise) == 8
                   && offsetof(mesh_options, collinear) == 12, "mesh_options");
_Static_assert(sizeof(mesh_boolean) == 12 && offsetof(mesh_boolean, subject_fill) == 4
                   && offsetof(mesh_boolean, clip_fill) == 8, "mesh_boolean");
_Static_assert(sizeof(mesh_shape_counts) == 24 && offsetof(mesh_shape_counts, contours) == 8
                   && offsetof(mesh_shape_counts, shapes) == 16, "mesh_shape_counts");
_Static_assert(sizeof(mesh_edge_counts) == 16 && offsetof(mesh_edge_counts, paths) == 8, "mesh_edge_counts");
_Static_assert(sizeof(mesh_net_clearance) == 24 && offsetof(mesh_net_clearance, second) == 8
                   && offsetof(mesh_net_clearance, squared) == 16, "mesh_net_clearance");
_Static_assert(sizeof(mesh_point_i32) == 8 && sizeof(mesh_vertex_i32) == 12 && sizeof(mesh_edge_i32) == 16, "32 bits");
_Static_assert(sizeof(mesh_point_i16) == 4 && sizeof(mesh_vertex_i16) == 6 && sizeof(mesh_edge_i16) == 8, "16 bits");

struct text {
    const uint8_t *bytes;
    size_t size;
};

struct numbers {
    int32_t *numbers;
    size_t count;
};

enum { OUTLINE, STROKE, VARIABLE_STROKE };

struct lists;

/* A drawing; `start` and `end` are the points of custom caps. Or, where there are any, given shapes without slivers, or
   combined with others. */
struct drawing {
    int operation, width, for_edges;
    mesh_outline_style outline;
    mesh_stroke_style stroke;
    mesh_arc arc;
    mesh_options options;
    size_t *ends, end_count;
    struct numbers start, end, items;
    const struct lists *given, *clip;
    uint32_t sliver_width;
    mesh_boolean boolean;
};

struct test_case {
    struct text request;
    struct text line;
    int status;
    int is_drawn;
    struct drawing drawing;
};

struct cases {
    struct test_case *all;
    size_t count;
};

static void fail(const struct test_case *it, const char *what)
{
    fprintf(stderr, "%s: %.*s\n", what, (int)it->request.size, (const char *)it->request.bytes);
    exit(1);
}

/* ---- memory */

void *__real_malloc(size_t size);
void *__real_realloc(void *before, size_t size);

/* How many growths there were in this thread, and the number of the one that is refused, 0 for none. */
static _Thread_local size_t grown, refused;

void *__wrap_malloc(size_t size)
{
    return ++grown == refused ? NULL : __real_malloc(size);
}

void *__wrap_realloc(void *before, size_t size)
{
    return ++grown == refused ? NULL : __real_realloc(before, size);
}

static void *taken(size_t size)
{
    void *block = __real_malloc(size);
    if (!block)
        abort();
    return block;
}

/* ---- cases */

static struct text file_text(const char *name)
{
    FILE *file = fopen(name, "rb");
    if (!file || fseek(file, 0, SEEK_END))
        abort();
    size_t size = (size_t)ftell(file);
    rewind(file);
    uint8_t *bytes = taken(size + 1);
    if (fread(bytes, 1, size, file) != size)
        abort();
    bytes[size] = 0;
    fclose(file);
    return (struct text){bytes, size};
}

static long long number_at(const char **at)
{
    char *after;
    long long number = strtoll(*at, &after, 10);
    if (after == *at)
        abort();
    *at = after;
    return number;
}

static struct numbers items_at(const char **at, size_t width)
{
    struct numbers items = {NULL, (size_t)number_at(at)};
    items.numbers = taken(items.count * width * sizeof(int32_t));
    for (size_t i = 0; i < items.count * width; i++)
        items.numbers[i] = (int32_t)number_at(at);
    return items;
}

static mesh_arc arc_at(const char **at)
{
    mesh_arc arc = {.max_step = (uint32_t)number_at(at)};
    arc.precision = (uint32_t)number_at(at);
    return arc;
}

static mesh_join join_at(const char **at)
{
    mesh_join join = {.kind = (uint32_t)number_at(at)};
    join.miter_angle = (uint32_t)number_at(at);
    join.miter_min_turn = (uint32_t)number_at(at);
    join.arc = arc_at(at);
    return join;
}

static mesh_cap cap_at(const char **at)
{
    mesh_cap cap = {.kind = (uint32_t)number_at(at)};
    cap.arc = arc_at(at);
    return cap;
}

static void read_style(struct drawing *it, const char **at)
{
    if (it->operation == OUTLINE) {
        it->outline.outer_offset = (int32_t)number_at(at);
        it->outline.inner_offset = (int32_t)number_at(at);
        it->outline.join = join_at(at);
    } else if (it->operation == STROKE) {
        it->stroke.width = (int32_t)number_at(at);
        it->stroke.join = join_at(at);
        it->stroke.start_cap = cap_at(at);
        it->stroke.end_cap = cap_at(at);
        it->stroke.side = (uint32_t)number_at(at);
        it->stroke.closed = (uint32_t)number_at(at);
        it->start = items_at(at, 2);
        it->end = items_at(at, 2);
    } else {
        it->arc = arc_at(at);
    }
}

static struct drawing drawing_at(const char *at)
{
    struct drawing it = {.operation = (int)number_at(&at)};
    it.width = (int)number_at(&at);
    it.for_edges = (int)number_at(&at);
    read_style(&it, &at);
    it.options.min_area = (uint64_t)number_at(&at);
    it.options.clockwise = (uint32_t)number_at(&at);
    it.options.collinear = (uint32_t)number_at(&at);
    it.end_count = (size_t)number_at(&at);
    it.ends = taken(it.end_count * sizeof(size_t));
    for (size_t i = 0; i < it.end_count; i++)
        it.ends[i] = (size_t)number_at(&at);
    it.items = items_at(&at, it.operation == VARIABLE_STROKE ? 3 : 2);
    return it;
}

static struct cases cases_in(struct text file)
{
    struct cases cases = {taken(sizeof(struct test_case) * 10000), 0};
    const uint8_t *at = file.bytes, *end = file.bytes + file.size;
    while (at < end) {
        struct test_case *it = &cases.all[cases.count++];
        int head;
        size_t numbers;
        if (sscanf((const char *)at, "%zu %zu %d %zu%n", &it->request.size, &it->line.size, &it->status, &numbers,
                   &head) != 4)
            abort();
        it->request.bytes = at + head + 1;
        it->line.bytes = it->request.bytes + it->request.size;
        at = it->line.bytes + it->line.size;
        it->is_drawn = numbers > 0;
        if (it->is_drawn)
            it->drawing = drawing_at((const char *)at);
        at = (const uint8_t *)strchr((const char *)at, '\n') + 1;
    }
    return cases;
}

static void drop_cases(struct cases cases)
{
    for (size_t i = 0; i < cases.count; i++)
        if (cases.all[i].is_drawn) {
            struct drawing *it = &cases.all[i].drawing;
            free(it->ends);
            free(it->start.numbers);
            free(it->end.numbers);
            free(it->items.numbers);
        }
    free(cases.all);
}

static int status_of(mesh_outcome outcome)
{
    switch (outcome) {
    case MESH_ANSWERED: return 0;
    case MESH_OUT_OF_RANGE: case MESH_OUT_OF_MEMORY: return 1;
    case MESH_MALFORMED: return 2;
    default: return -1;
    }
}

/* ---- one call */

/* A room with marked margins on both sides. */
struct room {
    uint8_t *block;
    size_t size;
};

static struct room room_of(size_t size)
{
    struct room room = {taken(size + 2 * MARGIN), size};
    memset(room.block, MARK, size + 2 * MARGIN);
    return room;
}

static int is_marked(const uint8_t *bytes, size_t size)
{
    for (size_t i = 0; i < size; i++)
        if (bytes[i] != MARK)
            return 0;
    return 1;
}

/* How many requests took more than one split. */
static size_t lines_given_up;

typedef mesh_outcome caller(const struct test_case *it, uint64_t most, struct room room, size_t *needed);

static mesh_outcome call(const struct test_case *it, uint64_t most, struct room room, size_t *needed)
{
    (void)most;
    return mesh_answer(it->request.bytes, it->request.size, room.block + MARGIN, room.size, needed);
}

static mesh_outcome call_within(const struct test_case *it, uint64_t most, struct room room, size_t *needed)
{
    return mesh_answer_within(it->request.bytes, it->request.size, most, room.block + MARGIN, room.size, needed);
}

/* Whether the room begins with the line, and all else in it and beside it stays marked. */
static int holds(struct room room, struct text line)
{
    const uint8_t *inside = room.block + MARGIN;
    return is_marked(room.block, MARGIN) && line.size <= room.size && !memcmp(inside, line.bytes, line.size)
        && is_marked(inside + line.size, room.size - line.size + MARGIN);
}

/* A call in a room of this size, which tells the line of the case or that the room is too small. */
static void check(const struct test_case *it, size_t size)
{
    struct room room = room_of(size);
    size_t needed = 0;
    mesh_outcome outcome = call(it, 0, room, &needed);
    if (needed != it->line.size)
        fail(it, "another size is told");
    if (size < needed) {
        if (outcome != MESH_ROOM_TOO_SMALL || !holds(room, (struct text){room.block, 0}))
            fail(it, "a room that is too small is changed, or not told");
    } else if (status_of(outcome) != it->status || !holds(room, it->line)) {
        fail(it, "another answer than the program's");
    }
    free(room.block);
}

/* With a limit a request has the same line, or one that tells of the limit. */
static void check_within(const struct test_case *it, uint64_t most)
{
    static const char PAST[] = "{\"refused\":\"splitting took more than 1 splits\"}\n";
    struct room room = room_of(it->line.size + sizeof PAST);
    size_t needed = 0;
    mesh_outcome outcome = call_within(it, most, room, &needed);
    struct text line = it->line;
    if (outcome == MESH_TOO_MANY_SPLITS) {
        line = (struct text){(const uint8_t *)PAST, sizeof PAST - 1};
        lines_given_up++;
    }
    if (outcome == MESH_TOO_MANY_SPLITS ? most != 1 || it->status : status_of(outcome) != it->status)
        fail(it, "another outcome with a limit than without");
    if (needed != line.size || !holds(room, line))
        fail(it, "another line with a limit than without");
    free(room.block);
}

/* ---- drawings in arrays */

/* The caller's lists for edges. */
struct edge_lists {
    void *edges;
    size_t *path_ends;
    size_t edge_room, path_room;
    mesh_edge_counts counts;
};

/* The caller's lists for shapes. */
struct lists {
    void *points;
    size_t *contour_ends, *shape_ends;
    size_t point_room, contour_room, shape_room;
    mesh_shape_counts counts;
};

struct place {
    __int128 x, y;
};

struct writer {
    char *text;
    size_t size, room;
};

static void take_lists(struct lists *to, mesh_shape_counts room);

static void put(struct writer *to, const char *format, ...)
{
    va_list words;
    va_start(words, format);
    to->size += (size_t)vsnprintf(to->text + to->size, to->size < to->room ? to->room - to->size : 0, format, words);
    va_end(words);
}

#define OF(name) name##_i32
#include "draw.h"
#include "slivers.h"
#include "clearance.h"
#include "inner_reach.h"
#include "booleans.h"
#include "nets.h"
#undef OF
#define OF(name) name##_i16
#include "draw.h"
#include "slivers.h"
#include "clearance.h"
#include "inner_reach.h"
#include "booleans.h"
#include "nets.h"
#undef OF

static void take_lists(struct lists *to, mesh_shape_counts room)
{
    to->point_room = room.points;
    to->contour_room = room.contours;
    to->shape_room = room.shapes;
    to->points = taken(room.points * sizeof(mesh_point_i32));
    to->contour_ends = taken(room.contours * sizeof(size_t));
    to->shape_ends = taken(room.shapes * sizeof(size_t));
    memset(to->points, MARK, room.points * sizeof(mesh_point_i32));
    memset(to->contour_ends, MARK, room.contours * sizeof(size_t));
    memset(to->shape_ends, MARK, room.shapes * sizeof(size_t));
    to->counts = (mesh_shape_counts){77, 77, 77};
}

static void drop_lists(struct lists *it)
{
    free(it->points);
    free(it->contour_ends);
    free(it->shape_ends);
}

static int are_marked(const struct lists *it)
{
    return is_marked(it->points, it->point_room * sizeof(mesh_point_i32))
        && is_marked((const uint8_t *)it->contour_ends, it->contour_room * sizeof(size_t))
        && is_marked((const uint8_t *)it->shape_ends, it->shape_room * sizeof(size_t));
}

static mesh_outcome draw(const struct drawing *it, struct lists *to)
{
    return it->width == 32 ? draw_shapes_i32(it, to) : draw_shapes_i16(it, to);
}

static mesh_outcome draw_near(const struct drawing *it, uint64_t most, struct lists *to, uint64_t *nearness)
{
    return (it->width == 32 ? draw_near_i32 : draw_near_i16)(it, most, to, nearness);
}

/* The same with no limit. The nearness is told where the counts are. */
static mesh_outcome draw_with_nearness(const struct drawing *it, struct lists *to)
{
    uint64_t nearness = UNTOLD;
    mesh_outcome outcome = draw_near(it, 0, to, &nearness);
    if ((nearness != UNTOLD) != (outcome == MESH_ANSWERED || outcome == MESH_ROOM_TOO_SMALL))
        abort();
    return outcome;
}

/* Whether the lists have what the line of the case says. */
static int are_answer(const struct test_case *it, const struct lists *lists)
{
    struct writer told = {taken(it->line.size + 1), 0, it->line.size + 1};
    if (it->drawing.width == 32)
        write_shapes_i32(&told, lists);
    else
        write_shapes_i16(&told, lists);
    int is_same = told.size == it->line.size && !memcmp(told.text, it->line.bytes, told.size);
    free(told.text);
    return is_same;
}

typedef mesh_outcome drawer(const struct drawing *it, struct lists *to);

static void check_drawing_by(drawer *draw, const struct test_case *it)
{
    struct lists lists;
    take_lists(&lists, (mesh_shape_counts){0, 0, 0});
    mesh_outcome first = draw(&it->drawing, &lists);
    mesh_shape_counts counts = lists.counts;
    drop_lists(&lists);
    if (first == MESH_OUT_OF_RANGE) {
        if (it->status != 1 || counts.points != 77)
            fail(it, "a drawing that is refused is told otherwise");
        return;
    }
    if (counts.shapes && first != MESH_ROOM_TOO_SMALL)
        fail(it, "a room for nothing is told to be large enough");

    /* One item less in one of the lists, and just as many as are needed. */
    for (int which = 0; which < 4; which++) {
        mesh_shape_counts room = counts;
        size_t *short_one = which == 0 ? &room.points : which == 1 ? &room.contours : which == 2 ? &room.shapes : NULL;
        if (short_one && !(*short_one)--)
            continue;
        take_lists(&lists, room);
        mesh_outcome outcome = draw(&it->drawing, &lists);
        if (memcmp(&lists.counts, &counts, sizeof counts))
            fail(it, "other counts are told");
        if (short_one && (outcome != MESH_ROOM_TOO_SMALL || !are_marked(&lists)))
            fail(it, "a list that is too small is changed, or not told");
        if (!short_one && (outcome != MESH_ANSWERED || it->status || !are_answer(it, &lists)))
            fail(it, "other shapes than the program's");
        drop_lists(&lists);
    }
}

/* How many drawings took more than one split. */
static atomic_size_t given_up;

/* With a limit a drawing has the same answer, or none. */
static void check_limit(const struct test_case *it, uint64_t most)
{
    struct lists lists, plain;
    uint64_t nearness = UNTOLD, told = UNTOLD;
    take_lists(&plain, (mesh_shape_counts){0, 0, 0});
    mesh_outcome outcome = draw_near(&it->drawing, 0, &plain, &nearness);
    take_lists(&lists, outcome == MESH_OUT_OF_RANGE ? (mesh_shape_counts){9, 9, 9} : plain.counts);
    outcome = draw_near(&it->drawing, most, &lists, &told);
    if (outcome == MESH_TOO_MANY_SPLITS) {
        if (most > 1 || told != UNTOLD || lists.counts.points != 77 || !are_marked(&lists))
            fail(it, "a drawing that is given up is told otherwise");
        given_up++;
    } else if (told != nearness || (it->status ? outcome != MESH_OUT_OF_RANGE : outcome != MESH_ANSWERED)
               || (outcome == MESH_ANSWERED && !are_answer(it, &lists))) {
        fail(it, "another answer with a limit than without");
    }
    drop_lists(&plain);
    drop_lists(&lists);
}

static size_t check_drawing_refused(drawer *draw, const struct test_case *it);

#include "edge_checks.h"
#include "sliver_checks.h"
#include "clearance_checks.h"
#include "inner_reach_checks.h"
#include "boolean_checks.h"
#include "net_checks.h"

static void check_drawing(const struct test_case *it)
{
    check_drawing_by(draw, it);
    check_drawing_by(draw_with_nearness, it);
    check_limit(it, 1);
    check_limit(it, UINT64_MAX);
    check_slivers(it);
    check_clearance(it);
    check_inner_reach(it);
    check_booleans(it);
}

/* A drawing whose ends are none, or whose style stands for nothing, is told as malformed. */
static void check_malformed(const struct test_case *it)
{
    struct drawing wrong = it->drawing;
    struct lists lists;
    take_lists(&lists, (mesh_shape_counts){9, 9, 9});
    for (int way = 0; way < 4; way++) {
        size_t ends[2] = {way == 1 ? wrong.items.count + 1 : 2, 1};
        wrong = it->drawing;
        if (way < 3)
            wrong.ends = ends, wrong.end_count = way == 0 ? 2 : way == 1 ? 1 : 0;
        else
            wrong.options.collinear = 2;
        if (draw(&wrong, &lists) != MESH_MALFORMED || draw_with_nearness(&wrong, &lists) != MESH_MALFORMED
            || !are_marked(&lists) || lists.counts.points != 77)
            fail(it, "a drawing that is none is not told as malformed");
    }
    drop_lists(&lists);
}

/* A drawing that is drawn stays in range, and its padding is told. */
static void check_range(const struct test_case *it)
{
    int64_t padding = -77;
    mesh_outcome outcome = (it->drawing.width == 32 ? validate_i32 : validate_i16)(&it->drawing, &padding);
    if (padding < 0 || (it->status == 0 && outcome != MESH_ANSWERED) || outcome > MESH_OUT_OF_RANGE)
        fail(it, "another range than the program's");
    if (it->status == 1 && outcome != MESH_OUT_OF_RANGE && it->drawing.operation != OUTLINE)
        fail(it, "a drawing that is refused is told to stay in range");
}

/* There is a reason exactly where the program takes a request for none. */
static void check_why(const struct test_case *it)
{
    struct room small = room_of(0), room = room_of(1000);
    size_t needed = 77, told = 77;
    mesh_outcome first = mesh_why(it->request.bytes, it->request.size, small.block + MARGIN, 0, &needed);
    mesh_outcome outcome = mesh_why(it->request.bytes, it->request.size, room.block + MARGIN, room.size, &told);
    struct text reason = {room.block + MARGIN, told};
    if (outcome != (it->status == 2 ? MESH_MALFORMED : MESH_ANSWERED) || needed != told || !told != (it->status != 2))
        fail(it, "a reason too few or too many");
    if (first != (told ? MESH_ROOM_TOO_SMALL : MESH_ANSWERED) || !holds(small, (struct text){small.block, 0}))
        fail(it, "a room that is too small for the reason is changed, or not told");
    if (!holds(room, reason))
        fail(it, "a reason is longer than told");
    free(small.block);
    free(room.block);
}

/* ---- all cases */

/* What a thread does: the cases from one on, and every fourth after it. */
struct share {
    const struct cases *cases;
    size_t first;
};

static void *check_share(void *given)
{
    const struct share *share = given;
    for (size_t i = share->first; i < share->cases->count; i += THREADS) {
        const struct test_case *it = &share->cases->all[i];
        check(it, it->line.size);
        if (it->is_drawn)
            (it->drawing.for_edges ? check_edges : check_drawing)(it);
    }
    return NULL;
}

static void check_in_threads(struct cases *cases)
{
    pthread_t threads[THREADS];
    struct share shares[THREADS];
    pthread_attr_t attributes;
    pthread_attr_init(&attributes);
    pthread_attr_setstacksize(&attributes, STACK);
    for (int i = 0; i < THREADS; i++) {
        shares[i] = (struct share){cases, (size_t)i};
        if (pthread_create(&threads[i], &attributes, check_share, &shares[i]))
            abort();
    }
    for (int i = 0; i < THREADS; i++)
        pthread_join(threads[i], NULL);
    pthread_attr_destroy(&attributes);
}

/* ---- refused memory */

static const char NO_MEMORY[] = "{\"refused\":\"mesh construction ran out of memory\"}\n";

/* Calls with each growth refused in turn, up to the first call that meets no refusal. Returns how many there were. */
static size_t check_refused(caller *call, const struct test_case *it)
{
    struct text told = {(const uint8_t *)NO_MEMORY, sizeof NO_MEMORY - 1};
    size_t size = it->line.size + told.size, needed, number = 0;
    for (;;) {
        struct room room = room_of(size);
        grown = 0;
        refused = ++number;
        mesh_outcome outcome = call(it, UINT64_MAX, room, &needed);
        int is_met = grown >= number;
        refused = 0;
        int is_answer = status_of(outcome) == it->status && needed == it->line.size && holds(room, it->line);
        int is_told = outcome == MESH_OUT_OF_MEMORY && needed == told.size && holds(room, told);
        if (!is_answer && !(is_met && is_told))
            fail(it, "refused memory is not told");
        free(room.block);
        if (!is_met)
            return number - 1;
    }
}

/* The same of a drawing. */
static size_t check_drawing_refused(drawer *draw, const struct test_case *it)
{
    struct lists lists;
    for (size_t number = 1;; number++) {
        take_lists(&lists, (mesh_shape_counts){1000, 100, 100});
        grown = 0;
        refused = number;
        mesh_outcome outcome = draw(&it->drawing, &lists);
        int is_met = grown >= number;
        refused = 0;
        int is_answer = outcome == MESH_ANSWERED && !it->status && are_answer(it, &lists);
        int is_told = outcome == MESH_OUT_OF_MEMORY && are_marked(&lists) && lists.counts.points == 77;
        int is_same = outcome == MESH_ROOM_TOO_SMALL || (outcome == MESH_OUT_OF_RANGE && it->status == 1);
        if (!is_answer && !is_same && !(is_met && is_told))
            fail(it, "refused memory is not told of a drawing");
        drop_lists(&lists);
        if (!is_met)
            return number - 1;
    }
}

/* The same of the range of a drawing. */
static size_t check_range_refused(const struct test_case *it)
{
    for (size_t number = 1;; number++) {
        int64_t padding = -77;
        grown = 0;
        refused = number;
        mesh_outcome outcome = (it->drawing.width == 32 ? validate_i32 : validate_i16)(&it->drawing, &padding);
        int is_met = grown >= number;
        refused = 0;
        int is_told = outcome == MESH_OUT_OF_MEMORY && padding == -77;
        int is_answer = (outcome == MESH_ANSWERED || outcome == MESH_OUT_OF_RANGE) && padding >= 0;
        if (!is_answer && !(is_met && is_told))
            fail(it, "refused memory is not told of a range");
        if (!is_met)
            return number - 1;
    }
}

static size_t check_all_refused(const struct test_case *it)
{
    size_t growths = check_refused(call, it) + check_refused(call_within, it);
    if (!it->is_drawn)
        return growths;
    growths += check_range_refused(it);
    if (it->drawing.for_edges)
        return growths + check_edges_refused(it);
    return growths + check_drawing_refused(draw, it) + check_drawing_refused(draw_with_nearness, it)
        + check_slivers_refused(it) + check_clearance_refused(it) + check_inner_reach_refused(it)
        + check_booleans_refused(it);
}

int main(int count, char **words)
{
    if (count < 2)
        return 2;
    struct text file = file_text(words[1]);
    struct cases cases = cases_in(file);
    if (count == 2) {
        size_t drawn = 0;
        check_rows();
        check_nets();
        for (size_t i = 0; i < cases.count; i++) {
            check(&cases.all[i], 0);
            check(&cases.all[i], cases.all[i].line.size - 1);
            check(&cases.all[i], cases.all[i].line.size + 100);
            check_within(&cases.all[i], 0);
            check_within(&cases.all[i], 1);
            check_why(&cases.all[i]);
            if (cases.all[i].is_drawn)
                check_range(&cases.all[i]);
            if (cases.all[i].is_drawn && cases.all[i].drawing.items.count > 2) {
                check_malformed(&cases.all[i]);
                drawn++;
            }
        }
        check_in_threads(&cases);
        if (!drawn || !given_up || !lines_given_up || !left_out || !measured || !held || !combined)
            return 1;
        printf("C: %zu requests and %zu drawings in arrays are answered as by the program, in %d threads at once.\n",
               cases.count, drawn, THREADS);
    } else {
        size_t growths = check_nets_refused(), wanted = count == 4 ? strtoul(words[3], NULL, 10) : 0;
        if (!wanted)
            return 2;
        for (size_t i = 0; i < cases.count; i += 1 + cases.count / wanted)
            growths += check_all_refused(&cases.all[i]);
        if (!growths)
            return 1;
        printf("C: %zu growths of memory were refused, one in each call, and all told.\n", growths);
    }
    drop_cases(cases);
    free((void *)file.bytes);
    return 0;
}
