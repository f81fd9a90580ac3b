/* The calls for edges, in lists of several sizes. */

static void take_edge_lists(struct edge_lists *to, mesh_edge_counts room)
{
    to->edge_room = room.edges;
    to->path_room = room.paths;
    to->edges = taken(room.edges * sizeof(mesh_edge_i32));
    to->path_ends = taken(room.paths * sizeof(size_t));
    memset(to->edges, MARK, room.edges * sizeof(mesh_edge_i32));
    memset(to->path_ends, MARK, room.paths * sizeof(size_t));
    to->counts = (mesh_edge_counts){77, 77};
}

static void drop_edge_lists(struct edge_lists *it)
{
    free(it->edges);
    free(it->path_ends);
}

static mesh_outcome draw_edges(const struct drawing *it, struct edge_lists *to)
{
    return (it->width == 32 ? draw_edges_i32 : draw_edges_i16)(it, to);
}

static int are_edges_marked(const struct edge_lists *it)
{
    return is_marked(it->edges, it->edge_room * sizeof(mesh_edge_i32))
        && is_marked((const uint8_t *)it->path_ends, it->path_room * sizeof(size_t));
}

/* Whether the lists have what the line of the case says. */
static int are_its_edges(const struct test_case *it, const struct edge_lists *lists)
{
    struct writer told = {taken(it->line.size + 1), 0, it->line.size + 1};
    (it->drawing.width == 32 ? write_edges_i32 : write_edges_i16)(&told, lists);
    int is_same = !it->status && told.size == it->line.size && !memcmp(told.text, it->line.bytes, told.size);
    free(told.text);
    return is_same;
}

/* Edges in lists of this size. Returns how many there are. */
static mesh_edge_counts check_edges_in(const struct test_case *it, mesh_edge_counts room)
{
    struct edge_lists lists;
    take_edge_lists(&lists, room);
    mesh_outcome outcome = draw_edges(&it->drawing, &lists);
    int is_unchanged = are_edges_marked(&lists);
    if (outcome == MESH_ANSWERED) {
        if (!are_its_edges(it, &lists))
            fail(it, "other edges than the program's");
    } else if (outcome == MESH_OUT_OF_RANGE) {
        if (it->status != 1 || lists.counts.edges != 77 || !is_unchanged)
            fail(it, "edges that are refused are told otherwise");
        lists.counts = (mesh_edge_counts){0, 0};
    } else if (outcome != MESH_ROOM_TOO_SMALL || !is_unchanged
               || (room.edges >= lists.counts.edges && room.paths >= lists.counts.paths)) {
        fail(it, "a list of edges that is too small is changed, or not told");
    }
    drop_edge_lists(&lists);
    return lists.counts;
}

/* Edges in lists of just their size, and in those that are too small for one item. */
static void check_edges(const struct test_case *it)
{
    mesh_edge_counts counts = check_edges_in(it, (mesh_edge_counts){0, 0});
    check_edges_in(it, counts);
    if (counts.edges)
        check_edges_in(it, (mesh_edge_counts){counts.edges - 1, counts.paths});
    if (counts.paths)
        check_edges_in(it, (mesh_edge_counts){counts.edges, counts.paths - 1});
}

/* With each growth refused in turn. Returns how many there were. */
static size_t check_edges_refused(const struct test_case *it)
{
    struct edge_lists lists;
    for (size_t number = 1;; number++) {
        take_edge_lists(&lists, (mesh_edge_counts){1000, 100});
        grown = 0;
        refused = number;
        mesh_outcome outcome = draw_edges(&it->drawing, &lists);
        int is_met = grown >= number;
        refused = 0;
        int is_answer = outcome == MESH_ANSWERED && are_its_edges(it, &lists);
        int is_told = outcome == MESH_OUT_OF_MEMORY && are_edges_marked(&lists) && lists.counts.edges == 77;
        int is_same = outcome == MESH_ROOM_TOO_SMALL || (outcome == MESH_OUT_OF_RANGE && it->status == 1);
        if (!is_answer && !is_same && !(is_met && is_told))
            fail(it, "refused memory is not told of edges");
        drop_edge_lists(&lists);
        if (!is_met)
            return number - 1;
    }
}
