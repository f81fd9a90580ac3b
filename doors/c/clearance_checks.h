/* The call for the clearance against measures of each edge and each path, on the shapes of cases and what they were drawn
   from. Coordinates of cases that are drawn are so small that no measure passes 128 bits. */

enum { MOST_MEASURES = 10000 };

struct segment {
    struct place from, to;
};

static __int128 turn(struct place a, struct place b, struct place c)
{
    return (b.x - a.x) * (c.y - a.y) - (b.y - a.y) * (c.x - a.x);
}

static __int128 along(struct place a, struct place b, struct place c)
{
    return (b.x - a.x) * (c.x - a.x) + (b.y - a.y) * (c.y - a.y);
}

/* The square of the distance of a point from a segment, rounded down. */
static __int128 square_from(struct place p, struct segment s)
{
    if (along(s.from, s.to, p) <= 0)
        return along(s.from, p, p);
    if (along(s.to, s.from, p) <= 0)
        return along(s.to, p, p);
    __int128 far = turn(s.from, s.to, p);
    return far * far / along(s.from, s.to, s.to);
}

static int sign(__int128 number)
{
    return (number > 0) - (number < 0);
}

/* Two segments that only touch have an end of one on the other, which is told as a distance. */
static __int128 square_between(struct segment s, struct segment t)
{
    if (sign(turn(s.from, s.to, t.from)) * sign(turn(s.from, s.to, t.to)) < 0
        && sign(turn(t.from, t.to, s.from)) * sign(turn(t.from, t.to, s.to)) < 0)
        return 0;
    __int128 squares[] = {square_from(s.from, t), square_from(s.to, t), square_from(t.from, s), square_from(t.to, s)};
    __int128 least = squares[0];
    for (int i = 1; i < 4; i++)
        least = squares[i] < least ? squares[i] : least;
    return least;
}

/* The segments of paths that stand end to end. Returns how many there are. */
static size_t segments_of(const struct place *places, const size_t *ends, size_t count, int closed, struct segment *to)
{
    size_t first = 0, told = 0;
    for (size_t path = 0; path < count; first = ends[path++])
        for (size_t i = first; i < ends[path]; i++)
            if (closed || i + 1 < ends[path])
                to[told++] = (struct segment){places[i], places[i + 1 < ends[path] ? i + 1 : first]};
    return told;
}

static struct place *places_of(const struct test_case *it, const void *points, size_t count)
{
    struct place *places = taken((count + 1) * sizeof *places);
    for (size_t i = 0; i < count; i++)
        places[i] = it->drawing.width == 32 ? place_i32(points, i) : place_i16(points, i);
    return places;
}

static mesh_outcome measure(const struct test_case *it, const struct lists *given, const void *path, const size_t *ends,
                            uint32_t closed, uint64_t *clearance)
{
    return (it->drawing.width == 32 ? measure_i32 : measure_i16)(given, path, it->drawing.items.count, ends,
                                                                it->drawing.end_count, closed, clearance);
}

/* The points of what was drawn, without widths. */
static void *path_of(const struct test_case *it)
{
    const struct drawing *from = &it->drawing;
    size_t size = from->operation == VARIABLE_STROKE ? 3 : 2;
    int32_t *numbers = taken(2 * (from->items.count + 1) * sizeof *numbers);
    for (size_t i = 0; i < 2 * from->items.count; i++)
        numbers[i] = from->items.numbers[i / 2 * size + i % 2];
    void *points = (from->width == 32 ? points_i32 : points_i16)(numbers, from->items.count);
    free(numbers);
    return points;
}

/* How many clearances were more than nothing, and less than the greatest. */
static atomic_size_t measured;

static void check_measure(const struct test_case *it, const struct lists *given, const void *path, uint32_t closed)
{
    const struct drawing *from = &it->drawing;
    struct place *places = places_of(it, given->points, given->counts.points);
    struct place *stops = places_of(it, path, from->items.count);
    struct segment *edges = taken((given->counts.points + 1) * sizeof *edges);
    struct segment *sections = taken((from->items.count + 1) * sizeof *sections);
    size_t edge_count = segments_of(places, given->contour_ends, given->counts.contours, 1, edges);
    size_t count = segments_of(stops, from->ends, from->end_count, (int)closed, sections);
    __int128 least = UINT64_MAX;
    uint64_t told = 77;

    if (edge_count * count <= MOST_MEASURES) {
        for (size_t i = 0; i < edge_count; i++)
            for (size_t j = 0; j < count; j++) {
                __int128 square = square_between(edges[i], sections[j]);
                least = square < least ? square : least;
            }
        if (measure(it, given, path, from->ends, closed, &told) != MESH_ANSWERED || told != (uint64_t)least)
            fail(it, "another clearance than is measured");
        measured += least && told != UINT64_MAX;
    }
    free(places);
    free(stops);
    free(edges);
    free(sections);
}

static void check_no_clearance(const struct test_case *it, const struct lists *given, const void *path)
{
    const struct drawing *from = &it->drawing;
    size_t wrong_ends[2] = {from->items.count + 1, from->items.count + 1};
    struct lists wrong = *given;
    uint64_t told = 77;
    wrong.counts.shapes--;
    if (measure(it, given, path, from->ends, 2, &told) != MESH_MALFORMED || told != 77
        || measure(it, &wrong, path, from->ends, 1, &told) != MESH_MALFORMED || told != 77)
        fail(it, "a clearance of nothing that can be read is told");
    if (from->end_count && from->end_count <= 2
        && (measure(it, given, path, wrong_ends, 1, &told) != MESH_MALFORMED || told != 77))
        fail(it, "a clearance to paths that are none is told");
}

static void check_clearance(const struct test_case *it)
{
    struct lists given;
    if (!take_answer(it, &given))
        return;
    void *path = path_of(it);
    check_measure(it, &given, path, 0);
    check_measure(it, &given, path, 1);
    if (given.counts.shapes)
        check_no_clearance(it, &given, path);
    free(path);
    drop_lists(&given);
}

/* With each growth refused in turn. Returns how many there were. */
static size_t check_clearance_refused(const struct test_case *it)
{
    struct lists given;
    size_t number = 0;
    if (!take_answer(it, &given))
        return 0;
    void *path = path_of(it);
    for (int is_met = 1; is_met;) {
        uint64_t told = 77;
        grown = 0;
        refused = ++number;
        mesh_outcome outcome = measure(it, &given, path, it->drawing.ends, 1, &told);
        is_met = grown >= number;
        refused = 0;
        if (is_met ? outcome != MESH_OUT_OF_MEMORY || told != 77 : outcome != MESH_ANSWERED)
            fail(it, "refused memory is not told of a clearance");
    }
    free(path);
    drop_lists(&given);
    return number - 1;
}
