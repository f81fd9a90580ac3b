/* The calls for booleans: worked rows, and what is known of shapes of cases combined with themselves and with nothing. */

enum { SAME, NOTHING };

/* What is left of shapes by a rule, where the clip is the same shapes or nothing. */
static const struct {
    uint32_t rule;
    int clip, left;
} KNOWN[] = {
    {MESH_RULE_SUBJECT, NOTHING, SAME}, {MESH_RULE_CLIP, NOTHING, NOTHING}, {MESH_RULE_CLIP, SAME, SAME},
    {MESH_RULE_INTERSECT, SAME, SAME}, {MESH_RULE_INTERSECT, NOTHING, NOTHING}, {MESH_RULE_UNION, SAME, SAME},
    {MESH_RULE_UNION, NOTHING, SAME}, {MESH_RULE_DIFFERENCE, SAME, NOTHING}, {MESH_RULE_DIFFERENCE, NOTHING, SAME},
    {MESH_RULE_INVERSE_DIFFERENCE, NOTHING, NOTHING}, {MESH_RULE_XOR, SAME, NOTHING}, {MESH_RULE_XOR, NOTHING, SAME},
};

static mesh_outcome combine(const struct drawing *it, struct lists *to)
{
    return (it->width == 32 ? combine_i32 : combine_i16)(it->given, it->clip, &it->boolean, &it->options, to);
}

/* The same with no limit. The nearness is told where the counts are. */
static mesh_outcome combine_near(const struct drawing *it, struct lists *to)
{
    uint64_t nearness = UNTOLD;
    mesh_outcome outcome = (it->width == 32 ? combine_near_i32 : combine_near_i16)(
        it->given, it->clip, &it->boolean, &it->options, 0, to, &nearness);
    if ((nearness != UNTOLD) != (outcome == MESH_ANSWERED || outcome == MESH_ROOM_TOO_SMALL))
        abort();
    return outcome;
}

/* With a limit it has the same answer, or none. */
static mesh_outcome combine_within_one(const struct drawing *it, struct lists *to)
{
    uint64_t nearness = UNTOLD;
    mesh_outcome outcome = (it->width == 32 ? combine_near_i32 : combine_near_i16)(
        it->given, it->clip, &it->boolean, &it->options, 1, to, &nearness);
    if ((nearness != UNTOLD) != (outcome == MESH_ANSWERED || outcome == MESH_ROOM_TOO_SMALL))
        abort();
    return outcome;
}

static const char NO_SHAPES[] = "{\"shapes\":[]}\n";

/* A boolean of shapes of a case with themselves or with nothing, whose answer is known. */
static struct test_case case_of_boolean(const struct test_case *it, const struct lists *given, const struct lists *none,
                                        size_t number)
{
    struct test_case combined = *it;
    uint32_t fill = it->drawing.options.clockwise ? MESH_FILL_NEGATIVE : MESH_FILL_POSITIVE;
    if (KNOWN[number].left == NOTHING)
        combined.line = (struct text){(const uint8_t *)NO_SHAPES, sizeof NO_SHAPES - 1};
    combined.drawing.given = given;
    combined.drawing.clip = KNOWN[number].clip == SAME ? given : none;
    combined.drawing.boolean = (mesh_boolean){KNOWN[number].rule, fill, fill};
    combined.drawing.options.min_area = 0;
    return combined;
}

static void tell_malformed_boolean(const struct test_case *it)
{
    struct lists lists;
    take_lists(&lists, (mesh_shape_counts){9, 9, 9});
    if (combine(&it->drawing, &lists) != MESH_MALFORMED || combine_near(&it->drawing, &lists) != MESH_MALFORMED
        || !are_marked(&lists) || lists.counts.points != 77)
        fail(it, "a boolean that is none is not told as malformed");
    drop_lists(&lists);
}

/* An unknown rule, an unknown fill of either operand, options that stand for none, and ends that are none. */
static void check_malformed_boolean(const struct test_case *it)
{
    struct test_case wrong = *it;
    size_t ends[] = {it->drawing.given->counts.points + 1};
    struct lists given = *it->drawing.given;
    given.contour_ends = ends;
    given.counts.contours = 1;
    wrong.drawing.boolean.rule = MESH_RULE_XOR + 1;
    tell_malformed_boolean(&wrong);
    wrong = *it;
    wrong.drawing.boolean.subject_fill = MESH_FILL_NEGATIVE + 1;
    tell_malformed_boolean(&wrong);
    wrong = *it;
    wrong.drawing.boolean.clip_fill = UINT32_MAX;
    tell_malformed_boolean(&wrong);
    wrong = *it;
    wrong.drawing.options.clockwise = 2;
    tell_malformed_boolean(&wrong);
    wrong = *it;
    wrong.drawing.given = &given;
    tell_malformed_boolean(&wrong);
    wrong.drawing.given = it->drawing.given;
    wrong.drawing.clip = &given;
    tell_malformed_boolean(&wrong);
}

/* How many booleans were checked. */
static atomic_size_t combined;

static void check_booleans(const struct test_case *it)
{
    struct lists given, none;
    if (!take_answer(it, &given))
        return;
    take_lists(&none, (mesh_shape_counts){0, 0, 0});
    none.counts = (mesh_shape_counts){0, 0, 0};
    for (size_t i = 0; i < sizeof KNOWN / sizeof *KNOWN; i++) {
        /* Operands that are resolved alone first lose the vertices that contours run straight through. */
        if (it->drawing.options.collinear && KNOWN[i].rule > MESH_RULE_CLIP && KNOWN[i].left == SAME)
            continue;
        struct test_case known = case_of_boolean(it, &given, &none, i);
        check_drawing_by(i % 2 ? combine : combine_near, &known);
        combined++;
    }
    struct test_case known = case_of_boolean(it, &given, &none, 0);
    check_malformed_boolean(&known);
    drop_lists(&none);
    drop_lists(&given);
}

/* With each growth refused in turn. Returns how many there were. */
static size_t check_booleans_refused(const struct test_case *it)
{
    struct lists given, none;
    if (!take_answer(it, &given))
        return 0;
    take_lists(&none, (mesh_shape_counts){0, 0, 0});
    none.counts = (mesh_shape_counts){0, 0, 0};
    struct test_case same = case_of_boolean(it, &given, &none, 0), nothing = case_of_boolean(it, &given, &none, 7);
    size_t growths = check_drawing_refused(combine, &same) + check_drawing_refused(combine_near, &nothing);
    drop_lists(&none);
    drop_lists(&given);
    return growths;
}

/* ---- worked rows */

/* Squares: A, one that overlaps it at a corner, one inside it, one that touches it along a side. A again, clockwise. */
static const int32_t A[] = {0, 0, 4, 0, 4, 4, 0, 4}, B[] = {2, 2, 6, 2, 6, 6, 2, 6}, I[] = {1, 1, 3, 1, 3, 3, 1, 3};
static const int32_t R[] = {4, 0, 8, 0, 8, 4, 4, 4}, BACK[] = {0, 4, 4, 4, 4, 0, 0, 0};
/* A triangle and a square whose edges meet off the grid. */
static const int32_t S[] = {0, 0, 5, 0, 5, 3}, U[] = {3, 0, 7, 0, 7, 4, 3, 4};
/* A and B as one operand, and a square round both. A point of no 16-bit grid. */
static const int32_t AB[] = {0, 0, 4, 0, 4, 4, 0, 4, 2, 2, 6, 2, 6, 6, 2, 6}, Q[] = {0, 0, 6, 0, 6, 6, 0, 6};
static const int32_t FAR[] = {16384, 0, 0, 1, 1, 0};
static const size_t ONE[] = {4}, THREE[] = {3}, TWO[] = {4, 8};

static const struct {
    const int32_t *subject, *clip;
    const size_t *subject_ends, *clip_ends;
    size_t subject_count, clip_count;
    mesh_boolean boolean;
    const char *shapes;
} ROWS[] = {
    {A, B, ONE, ONE, 1, 1, {MESH_RULE_UNION, 1, 1}, "[[[[0,0],[4,0],[4,2],[6,2],[6,6],[2,6],[2,4],[0,4]]]]"},
    {A, B, ONE, ONE, 1, 1, {MESH_RULE_INTERSECT, 1, 1}, "[[[[2,2],[4,2],[4,4],[2,4]]]]"},
    {A, B, ONE, ONE, 1, 1, {MESH_RULE_DIFFERENCE, 1, 1}, "[[[[0,0],[4,0],[4,2],[2,2],[2,4],[0,4]]]]"},
    {A, B, ONE, ONE, 1, 1, {MESH_RULE_INVERSE_DIFFERENCE, 1, 1}, "[[[[2,4],[4,4],[4,2],[6,2],[6,6],[2,6]]]]"},
    {A, B, ONE, ONE, 1, 1, {MESH_RULE_XOR, 1, 1},
     "[[[[0,0],[4,0],[4,2],[2,2],[2,4],[0,4]]],[[[2,4],[4,4],[4,2],[6,2],[6,6],[2,6]]]]"},
    {A, R, ONE, ONE, 1, 1, {MESH_RULE_UNION, 1, 1}, "[[[[0,0],[8,0],[8,4],[0,4]]]]"},
    {A, R, ONE, ONE, 1, 1, {MESH_RULE_INTERSECT, 1, 1}, "[]"},
    {A, I, ONE, ONE, 1, 1, {MESH_RULE_DIFFERENCE, 1, 1},
     "[[[[0,0],[4,0],[4,4],[0,4]],[[1,1],[1,3],[3,3],[3,1]]]]"},
    {A, BACK, ONE, ONE, 1, 1, {MESH_RULE_XOR, 1, 1}, "[]"},
    {AB, Q, TWO, ONE, 2, 1, {MESH_RULE_INTERSECT, 0, 0},
     "[[[[0,0],[4,0],[4,2],[2,2],[2,4],[0,4]]],[[[2,4],[4,4],[4,2],[6,2],[6,6],[2,6]]]]"},
    {AB, Q, TWO, ONE, 2, 1, {MESH_RULE_INTERSECT, 1, 1}, "[[[[0,0],[4,0],[4,2],[6,2],[6,6],[2,6],[2,4],[0,4]]]]"},
    {BACK, B, ONE, ONE, 1, 1, {MESH_RULE_INTERSECT, 3, 2}, "[[[[2,2],[4,2],[4,4],[2,4]]]]"},
    {BACK, B, ONE, ONE, 1, 1, {MESH_RULE_INTERSECT, 2, 3}, "[]"},
    {S, U, THREE, ONE, 1, 1, {MESH_RULE_INTERSECT, 1, 1}, "[[[[3,0],[5,0],[5,3],[3,2]]]]"},
    {S, U, THREE, ONE, 1, 1, {MESH_RULE_DIFFERENCE, 1, 1}, "[[[[0,0],[3,0],[3,2]]]]"},
};

/* A row in one width. */
static void check_row(size_t number, int width)
{
    char line[300];
    struct lists subject, clip, lists;
    struct test_case it = {.drawing = {.width = width, .given = &subject, .clip = &clip, .boolean = ROWS[number].boolean}};
    int size = snprintf(line, sizeof line, "{\"shapes\":%s}\n", ROWS[number].shapes);
    it.request = it.line = (struct text){(const uint8_t *)line, (size_t)size};
    (width == 32 ? take_contours_i32 : take_contours_i16)(&subject, ROWS[number].subject, ROWS[number].subject_ends,
                                                          ROWS[number].subject_count);
    (width == 32 ? take_contours_i32 : take_contours_i16)(&clip, ROWS[number].clip, ROWS[number].clip_ends,
                                                          ROWS[number].clip_count);
    check_drawing_by(combine, &it);
    check_drawing_by(combine_near, &it);
    take_lists(&lists, (mesh_shape_counts){9, 9, 9});
    mesh_outcome outcome = combine_within_one(&it.drawing, &lists);
    if (outcome == MESH_ANSWERED ? !are_answer(&it, &lists) : outcome != MESH_TOO_MANY_SPLITS || !are_marked(&lists))
        fail(&it, "another boolean with a limit than without");
    drop_lists(&lists);
    drop_lists(&subject);
    drop_lists(&clip);
}

/* A point out of range in either operand is refused, also where the rule does not look at it; in 32 bits it is none. */
static void check_range_of_operands(void)
{
    for (int which = 0; which < 2; which++)
        for (uint32_t rule = MESH_RULE_SUBJECT; rule <= MESH_RULE_XOR; rule++)
            for (int width = 16; width <= 32; width += 16) {
                struct lists far, near, lists;
                struct test_case it = {.drawing = {.width = width, .boolean = {rule, 1, 1}}};
                it.request = (struct text){(const uint8_t *)NO_SHAPES, sizeof NO_SHAPES - 1};
                (width == 32 ? take_contours_i32 : take_contours_i16)(&far, FAR, THREE, 1);
                (width == 32 ? take_contours_i32 : take_contours_i16)(&near, A, ONE, 1);
                it.drawing.given = which ? &near : &far;
                it.drawing.clip = which ? &far : &near;
                take_lists(&lists, (mesh_shape_counts){99, 9, 9});
                mesh_outcome outcome = combine(&it.drawing, &lists);
                if (outcome != (width == 16 ? MESH_OUT_OF_RANGE : MESH_ANSWERED))
                    fail(&it, "another range of operands than the header's");
                outcome = combine_near(&it.drawing, &lists);
                if (outcome != (width == 16 ? MESH_OUT_OF_RANGE : MESH_ANSWERED))
                    fail(&it, "another range of operands than the header's");
                if (width == 16 && (!are_marked(&lists) || lists.counts.points != 77))
                    fail(&it, "operands that are refused are told otherwise");
                drop_lists(&lists);
                drop_lists(&far);
                drop_lists(&near);
            }
}

static void check_rows(void)
{
    for (size_t i = 0; i < sizeof ROWS / sizeof *ROWS; i++) {
        check_row(i, 16);
        check_row(i, 32);
    }
    check_range_of_operands();
}
