/* Processor time of one call of the library, at best: door_calls REQUEST DRAWING prints the microseconds of
   `mesh_answer` for a request, and of `mesh_outline_i32` for the drawing: two offsets, then the coordinates of one contour, with
   bevels. */
#include <i_overlay_mesh.h>
#include <stdio.h>
#include <stdlib.h>
#include <time.h>

enum { ROUNDS = 9, MOST = 1 << 22 };

static uint8_t request[MOST], line[MOST];
static mesh_point_i32 points[MOST], shape_points[MOST];
static size_t contour_ends[MOST], shape_ends[MOST];

static double now(void)
{
    struct timespec at;
    clock_gettime(CLOCK_PROCESS_CPUTIME_ID, &at);
    return 1e6 * (double)at.tv_sec + 1e-3 * (double)at.tv_nsec;
}

static size_t request_size, point_count;
static mesh_outline_style style = {0, 0, {MESH_BEVEL, 0, MESH_MIN_TURN, {0, 0}}};

static mesh_outcome answer(void)
{
    size_t needed;
    return mesh_answer(request, request_size, line, sizeof line, &needed);
}

static mesh_outcome outline(void)
{
    mesh_options options = {0, 0, 0};
    mesh_shape_counts counts;
    return mesh_outline_i32(points, point_count, &point_count, 1, &style, &options, shape_points, MOST, contour_ends,
                            MOST, shape_ends, MOST, &counts);
}

static double best(mesh_outcome (*call)(void), int calls)
{
    double least = 1e18;
    for (int round = 0; round < ROUNDS; round++) {
        double before = now();
        for (int i = 0; i < calls; i++)
            if (call() != MESH_ANSWERED)
                exit(1);
        double each = (now() - before) / calls;
        least = each < least ? each : least;
    }
    return least;
}

int main(int count, char **words)
{
    FILE *file = count == 3 ? fopen(words[1], "rb") : NULL;
    if (!file)
        return 2;
    request_size = fread(request, 1, sizeof request, file);
    fclose(file);
    file = fopen(words[2], "r");
    if (!file || fscanf(file, "%d %d", &style.outer_offset, &style.inner_offset) != 2)
        return 2;
    while (point_count < MOST && fscanf(file, "%d %d", &points[point_count].x, &points[point_count].y) == 2)
        point_count++;
    fclose(file);
    int calls = 1 + (int)(20000 / point_count);
    printf("%f %f\n", best(answer, calls), best(outline, calls));
    return 0;
}
