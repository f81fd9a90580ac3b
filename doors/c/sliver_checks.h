/* The call for shapes without their slivers against the rule of the header, on the shapes of cases. */

static const uint32_t SLIVER_WIDTHS[] = {0, 1, 12, 300, UINT32_MAX};

/* How many contours were left out. */
static atomic_size_t left_out;

static mesh_outcome leave_out(const struct drawing *it, struct lists *to)
{
    return (it->width == 32 ? leave_out_i32 : leave_out_i16)(it->given, it->sliver_width, to);
}

/* The shapes of a case, where it has any. */
static int take_answer(const struct test_case *it, struct lists *answer)
{
    take_lists(answer, (mesh_shape_counts){0, 0, 0});
    mesh_outcome outcome = draw(&it->drawing, answer);
    if (outcome == MESH_ROOM_TOO_SMALL) {
        mesh_shape_counts counts = answer->counts;
        drop_lists(answer);
        take_lists(answer, counts);
        outcome = draw(&it->drawing, answer);
    }
    if (outcome != MESH_ANSWERED)
        drop_lists(answer);
    return outcome == MESH_ANSWERED;
}

/* The case of shapes without slivers of a width. Its line is to be freed. */
static struct test_case case_without(const struct test_case *it, const struct lists *given, uint32_t width)
{
    struct test_case left = *it;
    struct lists kept;
    struct writer line = {taken(it->line.size + 1), 0, it->line.size + 1};
    take_lists(&kept, given->counts);
    (it->drawing.width == 32 ? leave_i32 : leave_i16)(given, width, &kept);
    (it->drawing.width == 32 ? write_shapes_i32 : write_shapes_i16)(&line, &kept);
    left_out += given->counts.contours - kept.counts.contours;
    drop_lists(&kept);
    left.line = (struct text){(uint8_t *)line.text, line.size};
    left.drawing.given = given;
    left.drawing.sliver_width = width;
    return left;
}

static void tell_malformed(const struct test_case *it, const struct lists *wrong)
{
    struct test_case left = *it;
    struct lists lists;
    left.drawing.given = wrong;
    take_lists(&lists, (mesh_shape_counts){9, 9, 9});
    if (leave_out(&left.drawing, &lists) != MESH_MALFORMED || !are_marked(&lists) || lists.counts.points != 77)
        fail(it, "shapes that are none are not told as malformed");
    drop_lists(&lists);
}

/* Ends that are none, of contours or of shapes: one past all items, one less than that before it, or items behind all. */
static void check_malformed_shapes(const struct test_case *it, const struct lists *given)
{
    size_t points = given->counts.points, contours = given->counts.contours;
    size_t wrong_contours[][2] = {{points + 1, points + 1}, {points, points - 1}, {0, points - 1}};
    size_t wrong_shapes[][2] = {{contours + 1, contours + 1}, {contours, contours - 1}, {0, contours - 1}};
    size_t one_shape = 2;
    for (int way = 0; way < 3; way++) {
        struct lists wrong = *given;
        wrong.contour_ends = wrong_contours[way];
        wrong.counts.contours = 2;
        wrong.shape_ends = &one_shape;
        wrong.counts.shapes = 1;
        tell_malformed(it, &wrong);
        wrong = *given;
        wrong.shape_ends = wrong_shapes[way];
        wrong.counts.shapes = 2;
        tell_malformed(it, &wrong);
    }
    struct lists none = *given;
    none.counts.shapes = 0;
    tell_malformed(it, &none);
    none.counts.contours = 0;
    tell_malformed(it, &none);
}

static void check_slivers(const struct test_case *it)
{
    struct lists given;
    if (!take_answer(it, &given))
        return;
    for (size_t i = 0; i < sizeof SLIVER_WIDTHS / sizeof *SLIVER_WIDTHS; i++) {
        struct test_case left = case_without(it, &given, SLIVER_WIDTHS[i]);
        check_drawing_by(leave_out, &left);
        free((void *)left.line.bytes);
    }
    if (given.counts.shapes)
        check_malformed_shapes(it, &given);
    drop_lists(&given);
}

/* With each growth refused in turn. Returns how many there were. */
static size_t check_slivers_refused(const struct test_case *it)
{
    struct lists given;
    if (!take_answer(it, &given))
        return 0;
    struct test_case left = case_without(it, &given, 12);
    size_t growths = check_drawing_refused(leave_out, &left);
    free((void *)left.line.bytes);
    drop_lists(&given);
    return growths;
}
