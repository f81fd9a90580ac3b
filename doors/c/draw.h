/* Draws by the calls of one width, and writes their answer as the program does. It is included once for each width,
   with OF(name) as a name of that width. */

static void *OF(points)(const int32_t *numbers, size_t count)
{
    OF(mesh_point) *points = taken(count * sizeof *points);
    for (size_t i = 0; i < count; i++)
        points[i] = (OF(mesh_point)){numbers[2 * i], numbers[2 * i + 1]};
    return points;
}

static void *OF(vertices)(const int32_t *numbers, size_t count)
{
    OF(mesh_vertex) *vertices = taken(count * sizeof *vertices);
    for (size_t i = 0; i < count; i++)
        vertices[i] = (OF(mesh_vertex)){numbers[3 * i], numbers[3 * i + 1], numbers[3 * i + 2]};
    return vertices;
}

static mesh_outcome OF(draw_shapes)(const struct drawing *it, struct lists *to)
{
    int is_variable = it->operation == VARIABLE_STROKE;
    void *items = (is_variable ? OF(vertices) : OF(points))(it->items.numbers, it->items.count);
    void *start = OF(points)(it->start.numbers, it->start.count);
    void *end = OF(points)(it->end.numbers, it->end.count);
    mesh_outcome outcome;
    switch (it->operation) {
    case OUTLINE:
        outcome = OF(mesh_outline)(items, it->items.count, it->ends, it->end_count, &it->outline, &it->options,
                                   to->points, to->point_room, to->contour_ends, to->contour_room,
                                   to->shape_ends, to->shape_room, &to->counts);
        break;
    case STROKE:
        outcome = OF(mesh_stroke)(items, it->items.count, it->ends, it->end_count, &it->stroke, start, it->start.count,
                                  end, it->end.count, &it->options, to->points, to->point_room,
                                  to->contour_ends, to->contour_room, to->shape_ends, to->shape_room, &to->counts);
        break;
    default:
        outcome = OF(mesh_variable_stroke)(items, it->items.count, it->ends, it->end_count, &it->arc, &it->options,
                                           to->points, to->point_room, to->contour_ends, to->contour_room,
                                           to->shape_ends, to->shape_room, &to->counts);
    }
    free(items);
    free(start);
    free(end);
    return outcome;
}

static mesh_outcome OF(draw_near)(const struct drawing *it, uint64_t most, struct lists *to, uint64_t *nearness)
{
    int is_variable = it->operation == VARIABLE_STROKE;
    void *items = (is_variable ? OF(vertices) : OF(points))(it->items.numbers, it->items.count);
    void *start = OF(points)(it->start.numbers, it->start.count);
    void *end = OF(points)(it->end.numbers, it->end.count);
    mesh_outcome outcome;
    switch (it->operation) {
    case OUTLINE:
        outcome = OF(mesh_outline_near)(items, it->items.count, it->ends, it->end_count, &it->outline, &it->options, most,
                                        to->points, to->point_room, to->contour_ends, to->contour_room,
                                        to->shape_ends, to->shape_room, &to->counts, nearness);
        break;
    case STROKE:
        outcome = OF(mesh_stroke_near)(items, it->items.count, it->ends, it->end_count, &it->stroke,
                                       start, it->start.count, end, it->end.count, &it->options, most,
                                       to->points, to->point_room, to->contour_ends, to->contour_room,
                                       to->shape_ends, to->shape_room, &to->counts, nearness);
        break;
    default:
        outcome = OF(mesh_variable_stroke_near)(items, it->items.count, it->ends, it->end_count, &it->arc, &it->options,
                                                most, to->points, to->point_room, to->contour_ends, to->contour_room,
                                                to->shape_ends, to->shape_room, &to->counts, nearness);
    }
    free(items);
    free(start);
    free(end);
    return outcome;
}

static mesh_outcome OF(draw_edges)(const struct drawing *it, struct edge_lists *to)
{
    int is_variable = it->operation == VARIABLE_STROKE;
    void *items = (is_variable ? OF(vertices) : OF(points))(it->items.numbers, it->items.count);
    void *start = OF(points)(it->start.numbers, it->start.count);
    void *end = OF(points)(it->end.numbers, it->end.count);
    mesh_outcome outcome;
    switch (it->operation) {
    case OUTLINE:
        outcome = OF(mesh_outline_edges)(items, it->items.count, it->ends, it->end_count, &it->outline,
                                         to->edges, to->edge_room, to->path_ends, to->path_room, &to->counts);
        break;
    case STROKE:
        outcome = OF(mesh_stroke_edges)(items, it->items.count, it->ends, it->end_count, &it->stroke,
                                        start, it->start.count, end, it->end.count,
                                        to->edges, to->edge_room, to->path_ends, to->path_room, &to->counts);
        break;
    default:
        outcome = OF(mesh_variable_stroke_edges)(items, it->items.count, it->ends, it->end_count, &it->arc,
                                                 to->edges, to->edge_room, to->path_ends, to->path_room, &to->counts);
    }
    free(items);
    free(start);
    free(end);
    return outcome;
}

static mesh_outcome OF(validate)(const struct drawing *it, int64_t *padding)
{
    int is_variable = it->operation == VARIABLE_STROKE;
    void *items = (is_variable ? OF(vertices) : OF(points))(it->items.numbers, it->items.count);
    void *start = OF(points)(it->start.numbers, it->start.count);
    void *end = OF(points)(it->end.numbers, it->end.count);
    mesh_outcome outcome;
    switch (it->operation) {
    case OUTLINE:
        outcome = OF(mesh_validate_outline)(items, it->items.count, it->ends, it->end_count, &it->outline, padding);
        break;
    case STROKE:
        outcome = OF(mesh_validate_stroke)(items, it->items.count, it->ends, it->end_count, &it->stroke,
                                           start, it->start.count, end, it->end.count, padding);
        break;
    default:
        outcome = OF(mesh_validate_variable_stroke)(items, it->items.count, it->ends, it->end_count, &it->arc, padding);
    }
    free(items);
    free(start);
    free(end);
    return outcome;
}

static void OF(write_shapes)(struct writer *to, const struct lists *from)
{
    const OF(mesh_point) *points = from->points;
    size_t point = 0, contour = 0;
    put(to, "{\"shapes\":[");
    for (size_t shape = 0; shape < from->counts.shapes; shape++) {
        put(to, shape ? ",[" : "[");
        for (size_t first = contour; contour < from->shape_ends[shape]; contour++) {
            put(to, contour > first ? ",[" : "[");
            for (size_t begin = point; point < from->contour_ends[contour]; point++)
                put(to, "%s[%d,%d]", point > begin ? "," : "", points[point].x, points[point].y);
            put(to, "]");
        }
        put(to, "]");
    }
    put(to, "]}\n");
}

static void OF(write_edges)(struct writer *to, const struct edge_lists *from)
{
    const OF(mesh_edge) *edges = from->edges;
    size_t edge = 0;
    put(to, "{\"edges\":[");
    for (size_t path = 0; path < from->counts.paths; path++) {
        put(to, path ? ",[" : "[");
        for (size_t begin = edge; edge < from->path_ends[path]; edge++)
            put(to, "%s[[%d,%d],[%d,%d]]", edge > begin ? "," : "", edges[edge].start.x, edges[edge].start.y,
                edges[edge].end.x, edges[edge].end.y);
        put(to, "]");
    }
    put(to, "]}\n");
}
