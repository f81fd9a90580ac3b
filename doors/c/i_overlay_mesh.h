/* Polygon offsetting and booleans on an integer grid, for C.

   You pass everything that a call reads, and every array that it writes. A call keeps no pointers, and frees what it
   allocates before it returns. Calls may run in many threads at once, each with arrays of its own. Do not call from a
   signal handler, nor in the forked child of a process with threads. Stacks of 256 KiB are tested.

   An array is a pointer and a number of items. The pointer has to be valid, aligned and not NULL, even if the array is
   empty. An array that a call writes must not overlap any other array that you pass.

   Versions are semantic. Within a major version, a program runs with any later shared object: no call is removed, no
   struct or enum value changes, and an answer changes only if it broke its contract. A minor version may add calls. The
   name of the shared object ends in the major version. */
#ifndef I_OVERLAY_MESH_H
#define I_OVERLAY_MESH_H

#define MESH_VERSION_MAJOR 1
#define MESH_VERSION_MINOR 2
#define MESH_VERSION_PATCH 0
#define MESH_VERSION "1.2.0"

#include <stddef.h>
#include <stdint.h>

#ifdef __cplusplus
extern "C" {
#endif

/* How a call ended. */
typedef uint8_t mesh_outcome;

enum {
    MESH_ANSWERED = 0,        /* Success: the answer is in the caller's arrays. */
    MESH_OUT_OF_RANGE = 1,    /* The drawing would leave the range of coordinates, or a contour's area is too large. */
    MESH_MALFORMED = 2,       /* Invalid argument. */
    MESH_OUT_OF_MEMORY = 3,   /* An allocation failed. */
    MESH_TOO_MANY_SPLITS = 4, /* More splits were made than the given limit. */
    MESH_ROOM_TOO_SMALL = 5   /* An array is too small. All are unchanged; the sizes needed are reported. */
};

/* Answers a request in JSON, as the program mesh_run does.

   request        the bytes of the request
   room           receives the line that the program would print, with its line feed, but without a zero at the end
   needed         receives the number of bytes of that line, with every outcome

   A line is written with every outcome but MESH_ROOM_TOO_SMALL, also if the request is refused or cannot be read; bytes
   after it are unchanged. The exit status of the program would be 0 for MESH_ANSWERED, 1 for MESH_OUT_OF_RANGE and
   MESH_OUT_OF_MEMORY, and 2 for MESH_MALFORMED. */
mesh_outcome mesh_answer(const uint8_t *request, size_t request_size, uint8_t *room, size_t room_size, size_t *needed);

/* Answers a request that you did not write: the same within a limit on the work.

   most_splits    how many splits of edges may be made, counting attempts that were given up; 0 means any number

   MESH_TOO_MANY_SPLITS: more splits were made than the limit, and the line says so. An answer is the same as without a
   limit, and a request for edges needs no splits. */
mesh_outcome mesh_answer_within(
    const uint8_t *request, size_t request_size, uint64_t most_splits,
    uint8_t *room, size_t room_size, size_t *needed);

/* Says why bytes are not a valid request.

   MESH_MALFORMED: they are not, and the room receives a text that says why and where, without a line feed.
   MESH_ANSWERED: they are, and `needed` is 0. Rooms and sizes are as for mesh_answer. */
mesh_outcome mesh_why(const uint8_t *request, size_t request_size, uint8_t *room, size_t room_size, size_t *needed);

/* ---- Drawings in arrays

   Coordinates and lengths are in grid units, in 16 or 32 bits. Angles are whole numbers, 2^32 to a full turn. An unknown
   kind, or a length that does not fit 16 bits in a call for 16 bits, is an invalid argument: MESH_MALFORMED. */

typedef struct { int32_t x, y; } mesh_point_i32;         /* A point; y points upwards. */
typedef struct { int16_t x, y; } mesh_point_i16;
typedef struct { int32_t x, y, width; } mesh_vertex_i32; /* A point, and the width of a stroke there. */
typedef struct { int16_t x, y, width; } mesh_vertex_i16;
typedef struct { mesh_point_i32 start, end; } mesh_edge_i32; /* A directed edge. */
typedef struct { mesh_point_i16 start, end; } mesh_edge_i16;

/* How finely an arc is drawn. */
typedef struct {
    uint32_t max_step;  /* The greatest angle between neighbouring points, clamped to 2^22 .. 2^29. */
    uint32_t precision; /* How near a step comes to that angle, clamped to 4 .. 32. */
} mesh_arc;

enum { MESH_BEVEL = 0, MESH_MITER = 1, MESH_ROUND = 2 };

/* A join of outer corners. Fields that its kind does not need are ignored. */
typedef struct {
    uint32_t kind;           /* MESH_BEVEL, MESH_MITER or MESH_ROUND. */
    uint32_t miter_angle;    /* Corners sharper than this angle are clipped. */
    uint32_t miter_min_turn; /* Turns smaller than this are bevelled; use MESH_MIN_TURN. */
    mesh_arc arc;            /* The arc of a round join. */
} mesh_join;

#define MESH_MIN_TURN 59652323u /* 5 degrees, rounded down. */

/* The style of an outline. */
typedef struct {
    int32_t outer_offset; /* How far outer boundaries, which run counterclockwise, move: outwards above 0. */
    int32_t inner_offset; /* How far holes' boundaries, which run clockwise, move: into the hole above 0. */
    mesh_join join;
} mesh_outline_style;

enum { MESH_CAP_BUTT = 0, MESH_CAP_SQUARE = 1, MESH_CAP_ROUND = 2, MESH_CAP_CUSTOM = 3 };

/* A cap of an open path. Fields that its kind does not need are ignored. */
typedef struct {
    uint32_t kind; /* One of the four kinds. The points of a custom cap are arguments of the call. */
    mesh_arc arc;  /* The arc of a round cap. */
} mesh_cap;

enum { MESH_SIDE_BOTH = 0, MESH_SIDE_LEFT = 1, MESH_SIDE_RIGHT = 2 };

/* The style of a stroke. */
typedef struct {
    int32_t width;                /* The width; half of it is rounded up. Nothing is drawn for a width of at most 2. */
    mesh_join join;
    mesh_cap start_cap, end_cap;
    uint32_t side;                /* Which side of the path the stroke covers. */
    uint32_t closed;              /* Whether each path goes on from its last point to its first: 0 or 1. */
} mesh_stroke_style;

/* Options of the result; all zero by default. */
typedef struct {
    uint64_t min_area;  /* Contours of a smaller area, in square grid units, are left out. */
    uint32_t clockwise; /* Whether outer contours run clockwise and holes counterclockwise: 0 or 1. */
    uint32_t collinear; /* Whether vertices on a straight line are kept: 0 or 1. */
} mesh_options;

/* How many items each list of a result has. A shape is a polygon with its holes. */
typedef struct {
    size_t points;   /* The points of all contours. */
    size_t contours; /* The contours of all shapes. */
    size_t shapes;
} mesh_shape_counts;

typedef struct {
    size_t edges; /* The edges of all paths. */
    size_t paths;
} mesh_edge_counts;

/* Draws paths and returns polygons.

   points, vertices   the points or vertices of all paths, path by path
   ends               for each path, the index after its last item: how many items it and all paths before it have
   start_points, ..   the points of custom caps, for a path that runs along the x axis, rightwards, and ends at (0, 0),
                      from its right side (y below 0) to its left
   shape_points       receives the points of all contours, contour by contour; each shape begins with its outer contour
   contour_ends       receives, for each contour, the index after its last point in shape_points
   shape_ends         receives, for each shape, the index after its last contour in contour_ends
   counts             receives how many items these three arrays hold, or would have to hold (MESH_ROOM_TOO_SMALL); it is
                      unchanged with any outcome but this one and MESH_ANSWERED

   With MESH_ANSWERED the three arrays begin with the result; items after it are unchanged. With any other outcome all
   three are unchanged. MESH_MALFORMED: `ends` that decrease, or do not end with the number of points; an unknown kind. */
mesh_outcome mesh_outline_i32(
    const mesh_point_i32 *points, size_t point_count, const size_t *ends, size_t end_count,
    const mesh_outline_style *style, const mesh_options *options,
    mesh_point_i32 *shape_points, size_t shape_point_room, size_t *contour_ends, size_t contour_room,
    size_t *shape_ends, size_t shape_room, mesh_shape_counts *counts);

mesh_outcome mesh_outline_i16(
    const mesh_point_i16 *points, size_t point_count, const size_t *ends, size_t end_count,
    const mesh_outline_style *style, const mesh_options *options,
    mesh_point_i16 *shape_points, size_t shape_point_room, size_t *contour_ends, size_t contour_room,
    size_t *shape_ends, size_t shape_room, mesh_shape_counts *counts);

mesh_outcome mesh_stroke_i32(
    const mesh_point_i32 *points, size_t point_count, const size_t *ends, size_t end_count,
    const mesh_stroke_style *style,
    const mesh_point_i32 *start_points, size_t start_point_count,
    const mesh_point_i32 *end_points, size_t end_point_count, const mesh_options *options,
    mesh_point_i32 *shape_points, size_t shape_point_room, size_t *contour_ends, size_t contour_room,
    size_t *shape_ends, size_t shape_room, mesh_shape_counts *counts);

mesh_outcome mesh_stroke_i16(
    const mesh_point_i16 *points, size_t point_count, const size_t *ends, size_t end_count,
    const mesh_stroke_style *style,
    const mesh_point_i16 *start_points, size_t start_point_count,
    const mesh_point_i16 *end_points, size_t end_point_count, const mesh_options *options,
    mesh_point_i16 *shape_points, size_t shape_point_room, size_t *contour_ends, size_t contour_room,
    size_t *shape_ends, size_t shape_room, mesh_shape_counts *counts);

mesh_outcome mesh_variable_stroke_i32(
    const mesh_vertex_i32 *vertices, size_t vertex_count, const size_t *ends, size_t end_count,
    const mesh_arc *arc, const mesh_options *options,
    mesh_point_i32 *shape_points, size_t shape_point_room, size_t *contour_ends, size_t contour_room,
    size_t *shape_ends, size_t shape_room, mesh_shape_counts *counts);

mesh_outcome mesh_variable_stroke_i16(
    const mesh_vertex_i16 *vertices, size_t vertex_count, const size_t *ends, size_t end_count,
    const mesh_arc *arc, const mesh_options *options,
    mesh_point_i16 *shape_points, size_t shape_point_room, size_t *contour_ends, size_t contour_room,
    size_t *shape_ends, size_t shape_room, mesh_shape_counts *counts);

/* Draws paths and returns polygons with an error bound, which is proved for options with `min_area` 0 and `clockwise` 0.
   All is as above, and

   most_splits   a limit on splits of edges, those of attempts that were given up included; 0 for no limit
   nearness      receives the error bound whenever counts are written, in 64ths of a grid unit, rounded up: the polygons
                 are exactly right at each point that is farther than this from the offset curve. Distance is the
                 greater of the differences in x and in y. 0 means that rounding moved nothing

   MESH_TOO_MANY_SPLITS: the limit was passed. A few points that lie nearly on one line can take very many splits, so
   set a limit for untrusted input. */
mesh_outcome mesh_outline_near_i32(
    const mesh_point_i32 *points, size_t point_count, const size_t *ends, size_t end_count,
    const mesh_outline_style *style, const mesh_options *options, uint64_t most_splits,
    mesh_point_i32 *shape_points, size_t shape_point_room, size_t *contour_ends, size_t contour_room,
    size_t *shape_ends, size_t shape_room, mesh_shape_counts *counts,
    uint64_t *nearness);

mesh_outcome mesh_outline_near_i16(
    const mesh_point_i16 *points, size_t point_count, const size_t *ends, size_t end_count,
    const mesh_outline_style *style, const mesh_options *options, uint64_t most_splits,
    mesh_point_i16 *shape_points, size_t shape_point_room, size_t *contour_ends, size_t contour_room,
    size_t *shape_ends, size_t shape_room, mesh_shape_counts *counts,
    uint64_t *nearness);

mesh_outcome mesh_stroke_near_i32(
    const mesh_point_i32 *points, size_t point_count, const size_t *ends, size_t end_count,
    const mesh_stroke_style *style,
    const mesh_point_i32 *start_points, size_t start_point_count,
    const mesh_point_i32 *end_points, size_t end_point_count, const mesh_options *options, uint64_t most_splits,
    mesh_point_i32 *shape_points, size_t shape_point_room, size_t *contour_ends, size_t contour_room,
    size_t *shape_ends, size_t shape_room, mesh_shape_counts *counts,
    uint64_t *nearness);

mesh_outcome mesh_stroke_near_i16(
    const mesh_point_i16 *points, size_t point_count, const size_t *ends, size_t end_count,
    const mesh_stroke_style *style,
    const mesh_point_i16 *start_points, size_t start_point_count,
    const mesh_point_i16 *end_points, size_t end_point_count, const mesh_options *options, uint64_t most_splits,
    mesh_point_i16 *shape_points, size_t shape_point_room, size_t *contour_ends, size_t contour_room,
    size_t *shape_ends, size_t shape_room, mesh_shape_counts *counts,
    uint64_t *nearness);

mesh_outcome mesh_variable_stroke_near_i32(
    const mesh_vertex_i32 *vertices, size_t vertex_count, const size_t *ends, size_t end_count,
    const mesh_arc *arc, const mesh_options *options, uint64_t most_splits,
    mesh_point_i32 *shape_points, size_t shape_point_room, size_t *contour_ends, size_t contour_room,
    size_t *shape_ends, size_t shape_room, mesh_shape_counts *counts,
    uint64_t *nearness);

mesh_outcome mesh_variable_stroke_near_i16(
    const mesh_vertex_i16 *vertices, size_t vertex_count, const size_t *ends, size_t end_count,
    const mesh_arc *arc, const mesh_options *options, uint64_t most_splits,
    mesh_point_i16 *shape_points, size_t shape_point_room, size_t *contour_ends, size_t contour_room,
    size_t *shape_ends, size_t shape_room, mesh_shape_counts *counts,
    uint64_t *nearness);

/* Draws the offset curve of each path, before it is cleaned up, and returns its edges, sorted by their starts and then
   by their ends. All is as for polygons, and

   edges       receives the edges of all paths, path by path
   path_ends   receives, for each path, the index after its last edge in edges */
mesh_outcome mesh_outline_edges_i32(
    const mesh_point_i32 *points, size_t point_count, const size_t *ends, size_t end_count,
    const mesh_outline_style *style,
    mesh_edge_i32 *edges, size_t edge_room, size_t *path_ends, size_t path_room, mesh_edge_counts *counts);

mesh_outcome mesh_outline_edges_i16(
    const mesh_point_i16 *points, size_t point_count, const size_t *ends, size_t end_count,
    const mesh_outline_style *style,
    mesh_edge_i16 *edges, size_t edge_room, size_t *path_ends, size_t path_room, mesh_edge_counts *counts);

mesh_outcome mesh_stroke_edges_i32(
    const mesh_point_i32 *points, size_t point_count, const size_t *ends, size_t end_count,
    const mesh_stroke_style *style,
    const mesh_point_i32 *start_points, size_t start_point_count,
    const mesh_point_i32 *end_points, size_t end_point_count,
    mesh_edge_i32 *edges, size_t edge_room, size_t *path_ends, size_t path_room, mesh_edge_counts *counts);

mesh_outcome mesh_stroke_edges_i16(
    const mesh_point_i16 *points, size_t point_count, const size_t *ends, size_t end_count,
    const mesh_stroke_style *style,
    const mesh_point_i16 *start_points, size_t start_point_count,
    const mesh_point_i16 *end_points, size_t end_point_count,
    mesh_edge_i16 *edges, size_t edge_room, size_t *path_ends, size_t path_room, mesh_edge_counts *counts);

mesh_outcome mesh_variable_stroke_edges_i32(
    const mesh_vertex_i32 *vertices, size_t vertex_count, const size_t *ends, size_t end_count,
    const mesh_arc *arc,
    mesh_edge_i32 *edges, size_t edge_room, size_t *path_ends, size_t path_room, mesh_edge_counts *counts);

mesh_outcome mesh_variable_stroke_edges_i16(
    const mesh_vertex_i16 *vertices, size_t vertex_count, const size_t *ends, size_t end_count,
    const mesh_arc *arc,
    mesh_edge_i16 *edges, size_t edge_room, size_t *path_ends, size_t path_room, mesh_edge_counts *counts);

/* Tests whether every point of a drawing stays in range when it moves by the padding of the style. Coordinates have to
   stay strictly between -2^14 and 2^14 in 16 bits, and between -2^30 and 2^30 in 32 bits. MESH_ANSWERED: they do.
   MESH_OUT_OF_RANGE: they do not.

   padding   receives a bound on how far the style moves points in x or in y, with both of these outcomes */
mesh_outcome mesh_validate_outline_i32(
    const mesh_point_i32 *points, size_t point_count, const size_t *ends, size_t end_count,
    const mesh_outline_style *style, int64_t *padding);

mesh_outcome mesh_validate_outline_i16(
    const mesh_point_i16 *points, size_t point_count, const size_t *ends, size_t end_count,
    const mesh_outline_style *style, int64_t *padding);

mesh_outcome mesh_validate_stroke_i32(
    const mesh_point_i32 *points, size_t point_count, const size_t *ends, size_t end_count,
    const mesh_stroke_style *style,
    const mesh_point_i32 *start_points, size_t start_point_count,
    const mesh_point_i32 *end_points, size_t end_point_count, int64_t *padding);

mesh_outcome mesh_validate_stroke_i16(
    const mesh_point_i16 *points, size_t point_count, const size_t *ends, size_t end_count,
    const mesh_stroke_style *style,
    const mesh_point_i16 *start_points, size_t start_point_count,
    const mesh_point_i16 *end_points, size_t end_point_count, int64_t *padding);

mesh_outcome mesh_validate_variable_stroke_i32(
    const mesh_vertex_i32 *vertices, size_t vertex_count, const size_t *ends, size_t end_count,
    const mesh_arc *arc, int64_t *padding);

mesh_outcome mesh_validate_variable_stroke_i16(
    const mesh_vertex_i16 *vertices, size_t vertex_count, const size_t *ends, size_t end_count,
    const mesh_arc *arc, int64_t *padding);

/* ---- Booleans */

/* Which points of two operands, the subject and the clip, a boolean keeps. */
enum {
    MESH_RULE_SUBJECT = 0,            /* Those of the subject. The contours of the clip are not looked at. */
    MESH_RULE_CLIP = 1,               /* Those of the clip. */
    MESH_RULE_INTERSECT = 2,          /* Those of both. */
    MESH_RULE_UNION = 3,              /* Those of one of them, or of both. */
    MESH_RULE_DIFFERENCE = 4,         /* Those of the subject that are not in the clip. */
    MESH_RULE_INVERSE_DIFFERENCE = 5, /* Those of the clip that are not in the subject. */
    MESH_RULE_XOR = 6                 /* Those of exactly one of them. */
};

/* Which points the contours of an operand fill, by their winding number: odd, not 0, above 0, or below 0. */
enum { MESH_FILL_EVEN_ODD = 0, MESH_FILL_NON_ZERO = 1, MESH_FILL_POSITIVE = 2, MESH_FILL_NEGATIVE = 3 };

typedef struct {
    uint32_t rule;                    /* MESH_RULE_.. */
    uint32_t subject_fill, clip_fill; /* MESH_FILL_.. of each operand. */
} mesh_boolean;

/* Combines two regions, and returns polygons.

   subject_points, clip_points   the points of all contours of an operand, contour by contour. Contours are closed, and
                                 may run either way, cross themselves and each other, and touch
   subject_ends, clip_ends       for each contour, the index after its last point
   shape_points, ..              as for drawings, and so are the outcomes

   Each operand is resolved alone, with default options; then both are resolved together, with the given ones. Where
   operands only touch, they have nothing in common. For operands that earlier calls answered with default options, use
   MESH_FILL_POSITIVE. MESH_OUT_OF_RANGE: some coordinate of either operand, even of one that the rule does not look at,
   is not strictly between -2^14 and 2^14 in 16 bits, or between -2^30 and 2^30 in 32 bits. MESH_MALFORMED: ends that
   decrease, or do not end with the number of points; an unknown rule or fill. */
mesh_outcome mesh_boolean_i32(
    const mesh_point_i32 *subject_points, size_t subject_point_count,
    const size_t *subject_ends, size_t subject_end_count,
    const mesh_point_i32 *clip_points, size_t clip_point_count, const size_t *clip_ends, size_t clip_end_count,
    const mesh_boolean *boolean, const mesh_options *options,
    mesh_point_i32 *shape_points, size_t shape_point_room, size_t *contour_ends, size_t contour_room,
    size_t *shape_ends, size_t shape_room, mesh_shape_counts *counts);

mesh_outcome mesh_boolean_i16(
    const mesh_point_i16 *subject_points, size_t subject_point_count,
    const size_t *subject_ends, size_t subject_end_count,
    const mesh_point_i16 *clip_points, size_t clip_point_count, const size_t *clip_ends, size_t clip_end_count,
    const mesh_boolean *boolean, const mesh_options *options,
    mesh_point_i16 *shape_points, size_t shape_point_room, size_t *contour_ends, size_t contour_room,
    size_t *shape_ends, size_t shape_room, mesh_shape_counts *counts);

/* The same with an error bound, in 64ths of a grid unit, rounded up, and a limit on splits, 0 for none. The polygons are
   exactly right at each point that is farther than `nearness` from every edge of the operands that are looked at, as long
   as options have `min_area` 0 and `clockwise` 0. All is as for drawings. */
mesh_outcome mesh_boolean_near_i32(
    const mesh_point_i32 *subject_points, size_t subject_point_count,
    const size_t *subject_ends, size_t subject_end_count,
    const mesh_point_i32 *clip_points, size_t clip_point_count, const size_t *clip_ends, size_t clip_end_count,
    const mesh_boolean *boolean, const mesh_options *options, uint64_t most_splits,
    mesh_point_i32 *shape_points, size_t shape_point_room, size_t *contour_ends, size_t contour_room,
    size_t *shape_ends, size_t shape_room, mesh_shape_counts *counts,
    uint64_t *nearness);

mesh_outcome mesh_boolean_near_i16(
    const mesh_point_i16 *subject_points, size_t subject_point_count,
    const size_t *subject_ends, size_t subject_end_count,
    const mesh_point_i16 *clip_points, size_t clip_point_count, const size_t *clip_ends, size_t clip_end_count,
    const mesh_boolean *boolean, const mesh_options *options, uint64_t most_splits,
    mesh_point_i16 *shape_points, size_t shape_point_room, size_t *contour_ends, size_t contour_room,
    size_t *shape_ends, size_t shape_room, mesh_shape_counts *counts,
    uint64_t *nearness);

/* Returns polygons without slivers: contours that are thin, whatever their area, as rounding may leave them where nearly
   parallel edges cross. A contour is a sliver where each of its vertices lies at most `width` from the line that leads
   from its first vertex to the vertex farthest from that (the first one, if several are as far). Distances between
   points are the greater of the differences in x and in y; the distance from the line is measured along the axis along
   which its two points differ less.

   points             the points of all contours, contour by contour; each shape begins with its outer contour, as the
                      calls above return them. Any coordinates are allowed
   contour_ends       for each contour, the index after its last point in points
   shape_ends         for each shape, the index after its last contour in contour_ends
   width              in grid units
   left_points, ..    receive the shapes that are left. Arrays as large as those you pass are large enough
   counts             as for polygons above, and so are the outcomes

   Holes that are slivers are dropped, and shapes all of whose contours are; everything else stays as it is, in its
   order. At each point farther than `width` from every dropped edge, winding numbers are as before.
   MESH_MALFORMED: invalid ends. */
mesh_outcome mesh_without_slivers_i32(
    const mesh_point_i32 *points, size_t point_count, const size_t *contour_ends, size_t contour_count,
    const size_t *shape_ends, size_t shape_count, uint32_t width,
    mesh_point_i32 *left_points, size_t left_point_room, size_t *left_contour_ends, size_t left_contour_room,
    size_t *left_shape_ends, size_t left_shape_room, mesh_shape_counts *counts);

mesh_outcome mesh_without_slivers_i16(
    const mesh_point_i16 *points, size_t point_count, const size_t *contour_ends, size_t contour_count,
    const size_t *shape_ends, size_t shape_count, uint32_t width,
    mesh_point_i16 *left_points, size_t left_point_room, size_t *left_contour_ends, size_t left_contour_room,
    size_t *left_shape_ends, size_t left_shape_room, mesh_shape_counts *counts);

/* Checks a distance: tells how near the edges of polygons come to paths, such as the ones that they were drawn from. If
   one vertex of each path is inside the polygons, every point nearer to a path than this distance is inside as well. If
   the vertex is outside, every such point is outside.

   points, ..        polygons, as for mesh_without_slivers_i32
   path_points       the points of all paths, path by path
   path_ends         for each path, the offset of its end in path_points
   closed            whether each path goes on from its last point to its first: 0 or 1. A closed path of one point is
                     that point; an open one is nothing
   clearance         receives the square of the least distance between an edge and a path, in square grid units, rounded
                     down: nothing is nearer than its root. It is unchanged at any outcome but MESH_ANSWERED

   Coordinates may be any. If there are no polygons or no paths, and if the square does not fit, which takes coordinates
   of 2^30 or more in size, `clearance` is UINT64_MAX. MESH_MALFORMED: invalid offsets, or `closed` is neither 0 nor 1. */
mesh_outcome mesh_clearance_i32(
    const mesh_point_i32 *points, size_t point_count, const size_t *contour_ends, size_t contour_count,
    const size_t *shape_ends, size_t shape_count, const mesh_point_i32 *path_points, size_t path_point_count,
    const size_t *path_ends, size_t path_count, uint32_t closed, uint64_t *clearance);

mesh_outcome mesh_clearance_i16(
    const mesh_point_i16 *points, size_t point_count, const size_t *contour_ends, size_t contour_count,
    const size_t *shape_ends, size_t shape_count, const mesh_point_i16 *path_points, size_t path_point_count,
    const size_t *path_ends, size_t path_count, uint32_t closed, uint64_t *clearance);

/* Tells how near to its paths a stroke holds every point for certain, wherever the paths turn and whatever the joins and
   caps are: the greatest number for which every section, join and cap leaves room.

   points, ..        paths, a style and points of custom caps, as for mesh_stroke_i32
   reach             receives the square of that distance, in square grid units, rounded down: the stroke of a path
                     holds each point whose squared distance from a section of it is at most this, on the grid and
                     between its points. It is 0 if nothing is told, not even of points of the paths. It is unchanged at
                     any outcome but MESH_ANSWERED

   Left out are points beyond the ends of an open path that have butt caps, and on the lines across these ends.
   Polygons, of options with `min_area` 0 and `clockwise` 0 and without custom caps, hold those of the points that are
   farther than their error bound from the offset curve. Nothing is told of one side, of widths of at most 2 or above
   2^13 in 16 bits or 2^29 in 32, where no path has a section, and where a join or cap leaves no room, as a bevel does
   where a path turns back. Outcomes are as for mesh_validate_stroke_i32. */
mesh_outcome mesh_inner_reach_i32(
    const mesh_point_i32 *points, size_t point_count, const size_t *ends, size_t end_count,
    const mesh_stroke_style *style,
    const mesh_point_i32 *start_points, size_t start_point_count,
    const mesh_point_i32 *end_points, size_t end_point_count, uint64_t *reach);

mesh_outcome mesh_inner_reach_i16(
    const mesh_point_i16 *points, size_t point_count, const size_t *ends, size_t end_count,
    const mesh_stroke_style *style,
    const mesh_point_i16 *start_points, size_t start_point_count,
    const mesh_point_i16 *end_points, size_t end_point_count, uint64_t *reach);

/* Two nets that are nearer to each other than a distance. */
typedef struct {
    size_t first, second; /* Their indices, from 0. The first one is the lesser. */
    uint64_t squared;     /* The square of their distance, in square grid units, rounded down. */
} mesh_net_clearance;

/* Checks a board: finds the pairs of nets that are nearer to each other than a distance. Of all other pairs, every point
   of one net is at least that far from every point of the other, on the grid and between its points.

   points            the points of all contours, net by net. Any coordinates are allowed
   contour_ends      for each contour, the index after its last point in points
   net_ends          for each net, the index after its last contour in contour_ends. Pass all contours of an answer as
                     one net; where its polygons end is not asked for
   distance          in grid units
   pairs             receives the pairs, each once, in ascending order of `first`, then of `second`
   pair_count        receives how many pairs `pairs` holds, or would have to hold (MESH_ROOM_TOO_SMALL); it is unchanged
                     with any other outcome but MESH_ANSWERED

   A point belongs to a net if it lies on an edge, or if the windings of the net's contours round it do not add up to 0.
   So the distance is 0 if nets touch or overlap, or one lies within the other. Nothing is nearer than 0, so with that
   distance there are no pairs. A net without points is far from all others. MESH_MALFORMED: invalid ends. */
mesh_outcome mesh_clearances_i32(
    const mesh_point_i32 *points, size_t point_count, const size_t *contour_ends, size_t contour_count,
    const size_t *net_ends, size_t net_count, uint32_t distance,
    mesh_net_clearance *pairs, size_t pair_room, size_t *pair_count);

mesh_outcome mesh_clearances_i16(
    const mesh_point_i16 *points, size_t point_count, const size_t *contour_ends, size_t contour_count,
    const size_t *net_ends, size_t net_count, uint32_t distance,
    mesh_net_clearance *pairs, size_t pair_room, size_t *pair_count);

#ifdef __cplusplus
}
#endif

#endif
