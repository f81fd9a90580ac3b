/* Many drawings by one call, for the package for Python: between two calls of the library Python would take longer than
   the library takes for a small drawing, and its threads would wait for each other. No more than a loop over the calls of
   the header, so it is tested and not proved. It stands in the shared object alone, and not in the header. */
#include "i_overlay_mesh.h"

/* Where the lists of a drawing lie in those of all. */
typedef struct {
    size_t item, items, path, paths;
} mesh_part;

/* The grid of a drawing: the sum of a place and the origin, times the unit, is a coordinate. The unit is a power of two. */
typedef struct {
    int64_t x, y;
    double unit;
} mesh_grid;

enum { MESH_OUTLINE = 0, MESH_STROKE = 1, MESH_VARIABLE_STROKE = 2 };

/* Writes the coordinates of shapes. Each contour ends where it starts, as rings of Shapely do: its first point stands at
   its end again, unless the last one has the same coordinates. The ends of contours and the count of points become those
   of what is written. */
static void write_rings(const mesh_point_i32 *points, mesh_grid grid, size_t *contour_ends, mesh_shape_counts *counts,
                        double *coordinates)
{
    size_t written = 0, point = 0;

    for (size_t contour = 0; contour < counts->contours; ++contour) {
        const double *first = coordinates + 2 * written;

        for (; point < contour_ends[contour]; ++point, ++written) {
            coordinates[2 * written] = (double)(points[point].x + grid.x) * grid.unit;
            coordinates[2 * written + 1] = (double)(points[point].y + grid.y) * grid.unit;
        }
        if (first[0] != coordinates[2 * written - 2] || first[1] != coordinates[2 * written - 1]) {
            coordinates[2 * written] = first[0];
            coordinates[2 * written + 1] = first[1];
            ++written;
        }
        contour_ends[contour] = written;
    }
    counts->points = written;
}

/* Draws one drawing after the other, as the calls of the header do, until `is_stopped` is not 0.

   operation          of the enumeration above
   numbers, ends      the points or vertices and the ends of all drawings; the ends of each count from its own start
   style              of all, as the operation takes it; and the points of a stroke's custom caps
   shape_points       receives the points of one drawing, and then of the next one
   contour_ends, ..   receive the lists of all shapes, one drawing's behind the other's
   coordinates        receives two for each point of all shapes, whose contours end where they start; there is room for
                      as many points as in shape_points and contour_ends together
   counts, outcomes   receive for each drawing how many items it has in these lists, and how it ended
   done               receives how many drawings are done

   MESH_ROOM_TOO_SMALL: there is no room for the next one, whose counts say what it needs. */
mesh_outcome mesh_draw_each_i32(
    uint32_t operation, const int32_t *numbers, const size_t *ends, const mesh_part *parts, size_t part_count,
    const mesh_grid *grids, const void *style, const mesh_point_i32 *start_points, size_t start_point_count,
    const mesh_point_i32 *end_points, size_t end_point_count,
    mesh_point_i32 *shape_points, size_t shape_point_room, size_t *contour_ends, size_t contour_room,
    size_t *shape_ends, size_t shape_room, mesh_shape_counts *counts, double *coordinates, mesh_outcome *outcomes,
    const volatile uint8_t *is_stopped, size_t *done)
{
    const mesh_options options = {0, 0, 0};
    const size_t size = operation == MESH_VARIABLE_STROKE ? 3 : 2;

    for (*done = 0; *done < part_count && !*is_stopped; ++*done) {
        const mesh_part part = parts[*done];
        const mesh_grid grid = grids[*done];
        const void *items = numbers + size * part.item;
        const size_t *own = ends + part.path;
        mesh_shape_counts *told = counts + *done;
        mesh_outcome outcome = MESH_MALFORMED;

        *told = (mesh_shape_counts){0, 0, 0};
        if (operation == MESH_OUTLINE)
            outcome = mesh_outline_i32(items, part.items, own, part.paths, style, &options, shape_points,
                                       shape_point_room, contour_ends, contour_room, shape_ends, shape_room, told);
        else if (operation == MESH_STROKE)
            outcome = mesh_stroke_i32(items, part.items, own, part.paths, style, start_points, start_point_count,
                                      end_points, end_point_count, &options, shape_points, shape_point_room,
                                      contour_ends, contour_room, shape_ends, shape_room, told);
        else if (operation == MESH_VARIABLE_STROKE)
            outcome = mesh_variable_stroke_i32(items, part.items, own, part.paths, style, &options, shape_points,
                                               shape_point_room, contour_ends, contour_room, shape_ends, shape_room,
                                               told);
        if (outcome == MESH_ROOM_TOO_SMALL)
            return outcome;
        outcomes[*done] = outcome;
        shape_point_room -= told->points;
        write_rings(shape_points, grid, contour_ends, told, coordinates);
        coordinates += 2 * told->points;
        contour_ends += told->contours;
        contour_room -= told->contours;
        shape_ends += told->shapes;
        shape_room -= told->shapes;
    }
    return MESH_ANSWERED;
}
