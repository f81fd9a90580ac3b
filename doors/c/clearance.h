/* The library's call for the clearance, of one width of coordinates. It is included once for each width, with OF(name) as
   a name of that width. */

static struct place OF(place)(const void *points, size_t index)
{
    const OF(mesh_point) *point = (const OF(mesh_point) *)points + index;
    return (struct place){point->x, point->y};
}

static mesh_outcome OF(measure)(const struct lists *from, const void *path, size_t path_count, const size_t *ends,
                                size_t end_count, uint32_t closed, uint64_t *clearance)
{
    return OF(mesh_clearance)(from->points, from->counts.points, from->contour_ends, from->counts.contours,
                              from->shape_ends, from->counts.shapes, path, path_count, ends, end_count, closed,
                              clearance);
}
