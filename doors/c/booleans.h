/* The library's calls for booleans, of one width of coordinates. It is included once for each width, with OF(name) as a
   name of that width. */

static mesh_outcome OF(combine)(const struct lists *subject, const struct lists *clip, const mesh_boolean *boolean,
                                const mesh_options *options, struct lists *to)
{
    return OF(mesh_boolean)(subject->points, subject->counts.points, subject->contour_ends, subject->counts.contours,
                            clip->points, clip->counts.points, clip->contour_ends, clip->counts.contours, boolean,
                            options, to->points, to->point_room, to->contour_ends, to->contour_room,
                            to->shape_ends, to->shape_room, &to->counts);
}

static mesh_outcome OF(combine_near)(const struct lists *subject, const struct lists *clip, const mesh_boolean *boolean,
                                     const mesh_options *options, uint64_t most, struct lists *to, uint64_t *nearness)
{
    return OF(mesh_boolean_near)(subject->points, subject->counts.points, subject->contour_ends,
                                 subject->counts.contours, clip->points, clip->counts.points, clip->contour_ends,
                                 clip->counts.contours, boolean, options, most, to->points, to->point_room,
                                 to->contour_ends, to->contour_room, to->shape_ends, to->shape_room, &to->counts,
                                 nearness);
}

/* A list of contours, each of so many points, of the numbers of all. */
static void OF(take_contours)(struct lists *to, const int32_t *numbers, const size_t *ends, size_t count)
{
    take_lists(to, (mesh_shape_counts){count ? ends[count - 1] : 0, count, 0});
    free(to->points);
    to->counts = (mesh_shape_counts){to->point_room, count, 0};
    to->points = OF(points)(numbers, to->point_room);
    memcpy(to->contour_ends, ends, count * sizeof *ends);
}
