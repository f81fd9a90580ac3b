/* The calls for near nets, on boards of squares: a net is some squares, of which some have a square hole. Such a frame is
   four rectangles, so distances are those of rectangles. */

enum { BOARDS = 300, MOST_NETS = 6, MOST_CONTOURS = 36, MOST_RECTANGLES = 72, MOST_PAIRS = 15 };

struct rectangle {
    size_t net;
    int64_t west, south, east, north;
};

struct board {
    int32_t numbers[8 * MOST_CONTOURS];
    size_t contour_ends[MOST_CONTOURS], net_ends[MOST_NETS];
    size_t contours, nets;
    struct rectangle rectangles[MOST_RECTANGLES];
    size_t rectangle_count;
};

static void fail_board(const char *what)
{
    static const uint8_t board[] = "a board of squares";
    fail(&(struct test_case){.request = {board, sizeof board - 1}}, what);
}

static int32_t number_below(int32_t most)
{
    static uint64_t state = 76;
    state = state * 6364136223846793005u + 1442695040888963407u;
    return (int32_t)((state >> 33) % (uint32_t)most);
}

/* Adds a contour, which runs counterclockwise, or clockwise round a hole. */
static void add_contour(struct board *to, int32_t x, int32_t y, int32_t size, int is_hole)
{
    int32_t corners[] = {x, y, x + size, y, x + size, y + size, x, y + size};
    int32_t *numbers = to->numbers + 8 * to->contours++;
    for (int i = 0; i < 4; i++)
        memcpy(numbers + 2 * i, corners + 2 * (is_hole ? 3 - i : i), 2 * sizeof *corners);
    to->contour_ends[to->contours - 1] = 4 * to->contours;
}

static void add_rectangle(struct board *to, int32_t west, int32_t south, int32_t east, int32_t north)
{
    to->rectangles[to->rectangle_count++] = (struct rectangle){to->nets, west, south, east, north};
}

/* Adds a square to the last net, or a frame round a hole. */
static void add_square(struct board *to, int32_t unit)
{
    int32_t x = (number_below(30) - 20) * unit, y = (number_below(30) - 20) * unit, size = 1 + number_below(10);
    int32_t east = x + size * unit, north = y + size * unit;
    add_contour(to, x, y, size * unit, 0);
    if (size < 3 || number_below(2)) {
        add_rectangle(to, x, y, east, north);
        return;
    }
    int32_t hole = 1 + number_below(size - 2);
    int32_t west_of = x + (1 + number_below(size - hole - 1)) * unit, east_of = west_of + hole * unit;
    int32_t south_of = y + (1 + number_below(size - hole - 1)) * unit, north_of = south_of + hole * unit;
    add_contour(to, west_of, south_of, hole * unit, 1);
    add_rectangle(to, x, y, west_of, north);
    add_rectangle(to, east_of, y, east, north);
    add_rectangle(to, west_of, y, east_of, south_of);
    add_rectangle(to, west_of, north_of, east_of, north);
}

static struct board random_board(int32_t unit)
{
    struct board board = {.contours = 0};
    size_t nets = (size_t)number_below(MOST_NETS + 1);
    while (board.nets < nets) {
        for (int squares = number_below(4); squares > 0; squares--)
            add_square(&board, unit);
        board.net_ends[board.nets++] = board.contours;
    }
    return board;
}

static uint64_t gap(int64_t low, int64_t high, int64_t other_low, int64_t other_high)
{
    return (uint64_t)(other_low > high ? other_low - high : low > other_high ? low - other_high : 0);
}

/* The square of the distance of two nets, the greatest number where one has no square. */
static uint64_t square_apart(const struct board *it, size_t first, size_t second)
{
    uint64_t least = UINT64_MAX;
    for (size_t i = 0; i < it->rectangle_count; i++)
        for (size_t j = 0; j < it->rectangle_count; j++) {
            const struct rectangle *a = it->rectangles + i, *b = it->rectangles + j;
            uint64_t x = gap(a->west, a->east, b->west, b->east), y = gap(a->south, a->north, b->south, b->north);
            if (a->net == first && b->net == second && x * x + y * y < least)
                least = x * x + y * y;
        }
    return least;
}

static size_t pairs_of(const struct board *it, uint32_t distance, mesh_net_clearance *pairs)
{
    size_t count = 0;
    for (size_t i = 0; i < it->nets; i++)
        for (size_t j = i + 1; j < it->nets; j++) {
            uint64_t squared = square_apart(it, i, j);
            if (squared < (uint64_t)distance * distance)
                pairs[count++] = (mesh_net_clearance){i, j, squared};
        }
    return count;
}

static struct lists lists_of(struct board *it, int width)
{
    return (struct lists){
        .points = (width == 32 ? points_i32 : points_i16)(it->numbers, 4 * it->contours),
        .contour_ends = it->contour_ends,
        .shape_ends = it->net_ends,
        .counts = {4 * it->contours, it->contours, it->nets},
    };
}

/* The call in a room for so many pairs; `told` has to be how many it tells, of which it writes those in `pairs`. */
static void check_call(const struct lists *nets, int width, uint32_t distance, size_t size, mesh_outcome expected,
                       size_t told, const mesh_net_clearance *pairs)
{
    struct room room = room_of(size * sizeof *pairs);
    struct text written = {(const uint8_t *)pairs, expected == MESH_ANSWERED ? told * sizeof *pairs : 0};
    size_t count = 77;
    mesh_outcome outcome = (width == 32 ? find_near_i32 : find_near_i16)(nets, distance, (void *)(room.block + MARGIN),
                                                                         size, &count);
    if (outcome != expected || count != told || !holds(room, written))
        fail_board("other near nets than are measured");
    free(room.block);
}

/* Ends that are none, of contours or of nets. */
static void check_malformed_nets(struct board *it, int width)
{
    struct lists nets = lists_of(it, width), wrong = nets;
    mesh_net_clearance none[1];
    size_t contours = it->contours, wrong_ends[][2] = {{contours, contours + 1}, {contours, contours - 1}, {0, 0}};
    wrong.counts.contours--;
    check_call(&wrong, width, 9, MOST_PAIRS, MESH_MALFORMED, 77, none);
    wrong.counts = nets.counts;
    wrong.counts.points--;
    check_call(&wrong, width, 9, MOST_PAIRS, MESH_MALFORMED, 77, none);
    wrong.counts = (mesh_shape_counts){nets.counts.points, contours, 2};
    for (int way = 0; way < 3; way++) {
        wrong.shape_ends = wrong_ends[way];
        check_call(&wrong, width, 9, MOST_PAIRS, MESH_MALFORMED, 77, none);
    }
    free(nets.points);
}

static void check_board(struct board *it, int width, uint32_t distance)
{
    struct lists nets = lists_of(it, width);
    mesh_net_clearance pairs[MOST_PAIRS];
    size_t count = pairs_of(it, distance, pairs);
    for (size_t size = 0; size <= count + 1; size++)
        check_call(&nets, width, distance, size, size < count ? MESH_ROOM_TOO_SMALL : MESH_ANSWERED, count, pairs);
    free(nets.points);
}

static void check_nets(void)
{
    static const int32_t UNITS[][2] = {{1, 16}, {1000, 16}, {1, 32}, {1 << 26, 32}};
    for (int i = 0; i < BOARDS; i++) {
        int32_t unit = UNITS[i % 4][0], width = UNITS[i % 4][1];
        struct board board = random_board(unit);
        uint32_t distance = (uint32_t)number_below(12) * (uint32_t)unit;
        check_board(&board, width, distance);
        check_board(&board, width, distance + 1);
        check_board(&board, width, UINT32_MAX);
        if (board.contours)
            check_malformed_nets(&board, width);
    }
}

/* With each growth refused in turn. Returns how many there were. */
static size_t check_nets_refused(void)
{
    struct board board = {.contours = 0};
    while (board.nets < MOST_NETS) {
        add_square(&board, 1);
        board.net_ends[board.nets++] = board.contours;
    }
    for (size_t number = 1;; number++) {
        struct lists nets = lists_of(&board, 32);
        mesh_net_clearance pairs[MOST_PAIRS] = {0};
        size_t count = 77;
        grown = 0;
        refused = number;
        mesh_outcome outcome = find_near_i32(&nets, UINT32_MAX, pairs, MOST_PAIRS, &count);
        int is_met = grown >= number;
        refused = 0;
        int is_told = outcome == MESH_OUT_OF_MEMORY && count == 77 && !pairs[0].second;
        if (is_met ? !is_told : outcome != MESH_ANSWERED || count != MOST_PAIRS)
            fail_board("refused memory is not told of nets");
        free(nets.points);
        if (!is_met)
            return number - 1;
    }
}
