/* The library's call for how near to its paths a stroke holds all points, of one width of coordinates. It is included
   once for each width, with OF(name) as a name of that width. */

static mesh_outcome OF(tell_reach)(const struct drawing *it, uint64_t *reach)
{
    void *items = OF(points)(it->items.numbers, it->items.count);
    void *start = OF(points)(it->start.numbers, it->start.count);
    void *end = OF(points)(it->end.numbers, it->end.count);
    mesh_outcome outcome = OF(mesh_inner_reach)(items, it->items.count, it->ends, it->end_count, &it->stroke,
                                                start, it->start.count, end, it->end.count, reach);
    free(items);
    free(start);
    free(end);
    return outcome;
}

static void OF(put_ends)(const void *edges, size_t index, struct place *from, struct place *to)
{
    const OF(mesh_edge) *edge = (const OF(mesh_edge) *)edges + index;
    *from = (struct place){edge->start.x, edge->start.y};
    *to = (struct place){edge->end.x, edge->end.y};
}
