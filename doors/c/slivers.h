/* Shapes without their slivers, of one width of coordinates: by the rule of the header, and by the library's call. It is
   included once for each width, with OF(name) as a name of that width. */

static int64_t OF(distance)(const OF(mesh_point) *a, const OF(mesh_point) *b)
{
    int64_t dx = llabs((long long)b->x - a->x), dy = llabs((long long)b->y - a->y);
    return dx < dy ? dy : dx;
}

static int OF(is_sliver)(const OF(mesh_point) *points, size_t count, uint32_t width)
{
    size_t end = 0;
    for (size_t i = 1; i < count; i++)
        if (OF(distance)(points, points + i) > OF(distance)(points, points + end))
            end = i;
    int64_t x = points[0].x, y = points[0].y, dx = points[end].x - x, dy = points[end].y - y;
    __int128 most = (__int128)width * OF(distance)(points, points + end);
    for (size_t i = 0; i < count; i++) {
        __int128 turn = (__int128)dx * (points[i].y - y) - (__int128)dy * (points[i].x - x);
        if (turn > most || -turn > most)
            return 0;
    }
    return 1;
}

static int OF(is_sliver_at)(const struct lists *from, size_t contour, uint32_t width)
{
    size_t first = contour ? from->contour_ends[contour - 1] : 0;
    const OF(mesh_point) *points = from->points;
    return OF(is_sliver)(points + first, from->contour_ends[contour] - first, width);
}

static void OF(add_contour)(const struct lists *from, size_t contour, struct lists *to)
{
    size_t first = contour ? from->contour_ends[contour - 1] : 0, count = from->contour_ends[contour] - first;
    const OF(mesh_point) *points = from->points;
    OF(mesh_point) *left = to->points;
    memcpy(left + to->counts.points, points + first, count * sizeof *points);
    to->counts.points += count;
    to->contour_ends[to->counts.contours++] = to->counts.points;
}

static void OF(leave)(const struct lists *from, uint32_t width, struct lists *to)
{
    size_t first = 0;
    to->counts = (mesh_shape_counts){0, 0, 0};
    for (size_t shape = 0; shape < from->counts.shapes; shape++) {
        size_t end = from->shape_ends[shape];
        int is_left = 0;
        for (size_t contour = first; contour < end; contour++)
            is_left |= !OF(is_sliver_at)(from, contour, width);
        for (size_t contour = first; is_left && contour < end; contour++)
            if (contour == first || !OF(is_sliver_at)(from, contour, width))
                OF(add_contour)(from, contour, to);
        if (is_left)
            to->shape_ends[to->counts.shapes++] = to->counts.contours;
        first = end;
    }
}

static mesh_outcome OF(leave_out)(const struct lists *from, uint32_t width, struct lists *to)
{
    return OF(mesh_without_slivers)(from->points, from->counts.points, from->contour_ends, from->counts.contours,
                                    from->shape_ends, from->counts.shapes, width, to->points, to->point_room,
                                    to->contour_ends, to->contour_room, to->shape_ends, to->shape_room, &to->counts);
}
