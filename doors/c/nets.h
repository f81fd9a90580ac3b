/* The library's call for nets that are near to each other, of one width of coordinates. It is included once for each
   width, with OF(name) as a name of that width. The shapes of the lists are the nets. */

static mesh_outcome OF(find_near)(const struct lists *nets, uint32_t distance, mesh_net_clearance *pairs, size_t room,
                                  size_t *count)
{
    return OF(mesh_clearances)(nets->points, nets->counts.points, nets->contour_ends, nets->counts.contours,
                               nets->shape_ends, nets->counts.shapes, distance, pairs, room, count);
}
