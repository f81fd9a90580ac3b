/* The call for how near to its paths a stroke holds all points, against the edges that are drawn of each path: these
   have to wind round points that are near enough to a section of it. Points are taken at half grid units, and all
   lengths here are in these. Points on drawn edges are left out, since winding is not told there. */

enum { BASES = 5, HEADINGS = 16, MOST_TRIES = 1000000 };

/* Directions of the length 1024. */
static const int16_t HEADING[HEADINGS][2] = {
    {1024, 0}, {946, 392}, {724, 724}, {392, 946}, {0, 1024}, {-392, 946}, {-724, 724}, {-946, 392},
    {-1024, 0}, {-946, -392}, {-724, -724}, {-392, -946}, {0, -1024}, {392, -946}, {724, -724}, {946, -392},
};

/* How many points were found to be held. */
static atomic_size_t held;

static mesh_outcome tell_reach(const struct drawing *it, uint64_t *reach)
{
    return (it->width == 32 ? tell_reach_i32 : tell_reach_i16)(it, reach);
}

/* The root of a square, rounded down. */
static __int128 root_of(__int128 square)
{
    __int128 root = 0;
    for (__int128 bit = (__int128)1 << 62; bit; bit >>= 1)
        if ((root + bit) * (root + bit) <= square)
            root += bit;
    return root;
}

static int is_within(struct place p, struct segment s, __int128 square)
{
    if (along(s.from, s.to, p) <= 0)
        return along(s.from, p, p) <= square;
    if (along(s.to, s.from, p) <= 0)
        return along(s.to, p, p) <= square;
    __int128 far = turn(s.from, s.to, p);
    return far * far <= square * along(s.from, s.to, s.to);
}

/* Whether edges wind round a point, or one has it on itself. */
static int is_wound_round(struct place p, const struct segment *edges, size_t count)
{
    int winding = 0;
    for (size_t i = 0; i < count; i++) {
        struct place a = edges[i].from, b = edges[i].to;
        __int128 side = turn(a, b, p);
        if (side == 0 && along(a, b, p) >= 0 && along(b, a, p) >= 0)
            return 1;
        winding += (a.y <= p.y && p.y < b.y && side > 0) - (b.y <= p.y && p.y < a.y && side < 0);
    }
    return winding > 0;
}

/* Whether a point may lie beyond the end of a path, or on the line across it. That line runs as the rounded direction
   of the last section, which is the radius long, says. */
static int may_be_beyond(struct place p, struct segment last, __int128 radius)
{
    __int128 before = along(last.to, last.from, p), beside = turn(last.from, last.to, p);
    __int128 length = root_of(along(last.from, last.to, last.to)) + 1;
    return before * radius <= 2 * (beside < 0 ? -beside : beside) + 4 * radius * length;
}

/* One path: its sections, and the edges that are drawn of it. */
struct stroked {
    struct segment *sections, *edges;
    size_t section_count, edge_count;
};

static int is_left_out(const mesh_stroke_style *style, const struct stroked *path, struct place p)
{
    struct segment first = path->sections[0], last = path->sections[path->section_count - 1];
    struct segment back = {first.to, first.from};
    __int128 radius = ((__int128)style->width + 1) / 2;
    return !style->closed
        && ((style->start_cap.kind == MESH_CAP_BUTT && may_be_beyond(p, back, radius))
            || (style->end_cap.kind == MESH_CAP_BUTT && may_be_beyond(p, last, radius)));
}

/* Points round a section, at just the distance that is told and at half of it. */
static void check_section(const struct test_case *it, const struct stroked *path, struct segment s, uint64_t reach)
{
    __int128 square = 4 * (__int128)reach, far = root_of(square);
    for (int i = 0; i < BASES * HEADINGS * 2; i++) {
        const int16_t *heading = HEADING[i / 2 % HEADINGS];
        __int128 base = i / (2 * HEADINGS), length = i % 2 ? far : far / 2;
        struct place p = {s.from.x + (s.to.x - s.from.x) * base / (BASES - 1) + heading[0] * length / 1024,
                          s.from.y + (s.to.y - s.from.y) * base / (BASES - 1) + heading[1] * length / 1024};
        if (!is_within(p, s, square) || is_left_out(&it->drawing.stroke, path, p))
            continue;
        if (!is_wound_round(p, path->edges, path->edge_count))
            fail(it, "a point that is told to be held is not");
        held++;
    }
}

static struct segment doubled(struct segment s)
{
    return (struct segment){{2 * s.from.x, 2 * s.from.y}, {2 * s.to.x, 2 * s.to.y}};
}

/* The sections of a path that have a length. */
static size_t sections_of(const struct test_case *it, const struct place *places, size_t path, struct segment *to)
{
    const struct drawing *from = &it->drawing;
    size_t first = path ? from->ends[path - 1] : 0, end = from->ends[path] - first, count = 0;
    size_t all = segments_of(places + first, &end, 1, (int)from->stroke.closed, to);
    for (size_t i = 0; i < all; i++)
        if (to[i].from.x != to[i].to.x || to[i].from.y != to[i].to.y)
            to[count++] = doubled(to[i]);
    return count;
}

static void check_held(const struct test_case *it, uint64_t reach)
{
    const struct drawing *from = &it->drawing;
    struct edge_lists lists;
    take_edge_lists(&lists, (mesh_edge_counts){0, 0});
    draw_edges(from, &lists);
    mesh_edge_counts counts = lists.counts;
    drop_edge_lists(&lists);
    take_edge_lists(&lists, counts);
    if (draw_edges(from, &lists) != MESH_ANSWERED)
        fail(it, "something is told of a stroke that is not drawn");

    void *points = path_of(it);
    struct place *places = places_of(it, points, from->items.count);
    struct stroked path = {taken((from->items.count + 1) * sizeof(struct segment)),
                           taken((counts.edges + 1) * sizeof(struct segment)), 0, 0};
    for (size_t number = 0, edge = 0; number < counts.paths; number++) {
        path.section_count = sections_of(it, places, number, path.sections);
        for (path.edge_count = 0; edge < lists.path_ends[number]; edge++) {
            struct segment ends;
            (from->width == 32 ? put_ends_i32 : put_ends_i16)(lists.edges, edge, &ends.from, &ends.to);
            path.edges[path.edge_count++] = doubled(ends);
        }
        if (path.section_count * path.edge_count * BASES * HEADINGS * 2 <= MOST_TRIES)
            for (size_t i = 0; i < path.section_count; i++)
                check_section(it, &path, path.sections[i], reach);
    }
    free(points);
    free(places);
    free(path.sections);
    free(path.edges);
    drop_edge_lists(&lists);
}

static int has_custom_cap(const mesh_stroke_style *style)
{
    return !style->closed && (style->start_cap.kind == MESH_CAP_CUSTOM || style->end_cap.kind == MESH_CAP_CUSTOM);
}

static void check_no_reach(const struct test_case *it)
{
    struct drawing wrong = it->drawing;
    size_t ends[2] = {wrong.items.count + 1, wrong.items.count + 1};
    uint64_t reach = 77;
    wrong.stroke.closed = 2;
    if (tell_reach(&wrong, &reach) != MESH_MALFORMED || reach != 77)
        fail(it, "an inner reach is told where nothing says whether paths are closed");
    wrong = it->drawing;
    wrong.ends = ends, wrong.end_count = 2;
    if (tell_reach(&wrong, &reach) != MESH_MALFORMED || reach != 77)
        fail(it, "an inner reach to paths that are none is told");
    wrong = it->drawing;
    wrong.stroke.side = it->drawing.stroke.side ? 0 : 1 + (uint32_t)wrong.items.count % 2;
    mesh_outcome outcome = tell_reach(&wrong, &reach);
    if (wrong.stroke.side && (outcome == MESH_ANSWERED ? reach != 0 : outcome != MESH_OUT_OF_RANGE || reach != 77))
        fail(it, "an inner reach of one side is told");
}

static void check_inner_reach(const struct test_case *it)
{
    uint64_t reach = 77;
    int64_t padding = -77;
    if (it->drawing.operation != STROKE)
        return;
    mesh_outcome outcome = tell_reach(&it->drawing, &reach);
    if (outcome != (it->drawing.width == 32 ? validate_i32 : validate_i16)(&it->drawing, &padding)
        || (outcome != MESH_ANSWERED && reach != 77))
        fail(it, "another outcome of an inner reach than of the range");
    if (outcome == MESH_ANSWERED && reach && !has_custom_cap(&it->drawing.stroke))
        check_held(it, reach);
    check_no_reach(it);
}

/* With each growth refused in turn. Returns how many there were. */
static size_t check_inner_reach_refused(const struct test_case *it)
{
    size_t number = 0;
    if (it->drawing.operation != STROKE)
        return 0;
    for (int is_met = 1; is_met;) {
        uint64_t reach = 77;
        grown = 0;
        refused = ++number;
        mesh_outcome outcome = tell_reach(&it->drawing, &reach);
        is_met = grown >= number;
        refused = 0;
        if (is_met ? outcome != MESH_OUT_OF_MEMORY || reach != 77 : outcome > MESH_OUT_OF_RANGE)
            fail(it, "refused memory is not told of an inner reach");
    }
    return number - 1;
}
