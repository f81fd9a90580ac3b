// Offsets a drawing with a library beside ours, again and again, and prints the least processor seconds of one time, on
// average in each of five parts, the number of vertices that come of it, and its area.
//
//     peers clipper|boost|geos SECONDS|xTIMES < drawing
//
// The drawing is words: its kind (outline, closed or open, the last two strokes), the join (bevel, miter or round), the
// offset (of a stroke half its width), how many paths there are; then each path's number of points, and their x and y.
#include "shared.hpp"

// How many steps a round join has in a quarter of a turn, as ours with steps of 45 degrees.
const int QUARTER_STEPS = 2;

// How many offsets a miter reaches at most.
const double MITER_LIMIT = 10;

struct Drawing {
    std::string kind, join;
    double offset;
    Contours paths;
};

static Drawing read_drawing() {
    Drawing drawing;
    std::cin >> drawing.kind >> drawing.join >> drawing.offset;
    drawing.paths = read_contours();
    return drawing;
}

// ---- Clipper

static Answer with_clipper(const Drawing& drawing, const ClipperLib::Paths& paths) {
    using namespace ClipperLib;
    // the arc tolerance that gives as many steps as ours
    double tolerance = drawing.offset * (1 - std::cos(M_PI / 4 / QUARTER_STEPS));
    ClipperOffset offset(MITER_LIMIT, tolerance);
    JoinType join = drawing.join == "miter" ? jtMiter : drawing.join == "round" ? jtRound : jtSquare;
    EndType end = drawing.kind == "outline" ? etClosedPolygon : drawing.kind == "closed" ? etClosedLine : etOpenButt;
    offset.AddPaths(paths, join, end);
    PolyTree tree;
    offset.Execute(tree, drawing.offset);
    return clipper_answer(tree);
}

static std::function<Answer()> clipper(const Drawing& drawing) {
    ClipperLib::Paths paths = clipper_paths(drawing.paths);
    return [&drawing, paths] { return with_clipper(drawing, paths); };
}

// ---- Boost.Polygon, which offsets outlines alone

static std::function<Answer()> boost_polygon(const Drawing& drawing) {
    if (drawing.kind != "outline") return nullptr;
    BoostPolygons polygons = boost_polygons(drawing.paths);
    return [&drawing, polygons] {
        BoostSet set = boost_set(polygons);
        set.resize(int(drawing.offset), drawing.join == "round", 4 * QUARTER_STEPS);
        return boost_answer(set);
    };
}

// ---- GEOS, in floating point

// Polygons of the contours, or lines.
static GEOSGeometry* geometry(GEOSContextHandle_t geos, const Drawing& drawing) {
    if (drawing.kind == "outline") return geos_polygons(geos, drawing.paths);
    std::vector<GEOSGeometry*> parts;
    for (const auto& path : drawing.paths)
        parts.push_back(GEOSGeom_createLineString_r(geos, geos_places(geos, path, drawing.kind == "closed")));
    return GEOSGeom_createCollection_r(geos, GEOS_MULTILINESTRING, parts.data(), unsigned(parts.size()));
}

static std::function<Answer()> geos(const Drawing& drawing) {
    GEOSContextHandle_t geos = GEOS_init_r();
    GEOSGeometry* drawn = geometry(geos, drawing);
    GEOSBufferParams* style = GEOSBufferParams_create_r(geos);
    GEOSBufferParams_setEndCapStyle_r(geos, style, GEOSBUF_CAP_FLAT);
    GEOSBufferParams_setJoinStyle_r(geos, style,
        drawing.join == "miter" ? GEOSBUF_JOIN_MITRE : drawing.join == "round" ? GEOSBUF_JOIN_ROUND : GEOSBUF_JOIN_BEVEL);
    GEOSBufferParams_setMitreLimit_r(geos, style, MITER_LIMIT);
    GEOSBufferParams_setQuadrantSegments_r(geos, style, QUARTER_STEPS);
    return [=, &drawing] { return geos_answer(geos, GEOSBufferWithParams_r(geos, drawn, style, drawing.offset)); };
}

int main(int count, char** words) {
    if (count != 3) {
        std::fprintf(stderr, "usage: %s clipper|boost|geos SECONDS|xTIMES < drawing\n", words[0]);
        return 2;
    }
    std::string peer = words[1];
    Drawing drawing = read_drawing();
    auto draw = peer == "clipper" ? clipper(drawing) : peer == "boost" ? boost_polygon(drawing) : geos(drawing);
    if (!draw) return 3;
    print_time(words[2], draw);
}
