// What the drivers of the libraries beside ours share: contours, read as words and as each library takes them, and the
// least processor time of an answer.
#pragma once
#include <algorithm>
#include <boost/polygon/polygon.hpp>
#include <climits>
#include <cmath>
#include <cstdio>
#include <cstdlib>
#include <ctime>
#include <functional>
#include <geos_c.h>
#include <iostream>
#include <polyclipping/clipper.hpp>
#include <string>
#include <vector>

struct Place {
    long long x, y;
};

typedef std::vector<std::vector<Place>> Contours;

struct Answer {
    long long count;
    double area;
};

// How many contours there are; then each one's number of points, and their x and y.
static inline Contours read_contours() {
    size_t count = 0;
    std::cin >> count;
    Contours contours(count);
    for (auto& contour : contours) {
        size_t points = 0;
        std::cin >> points;
        contour.resize(points);
        for (Place& place : contour) std::cin >> place.x >> place.y;
    }
    return contours;
}

static inline double twice_area(const std::vector<Place>& path) {
    double sum = 0;
    for (size_t i = 0; i < path.size(); i++) {
        const Place& a = path[i];
        const Place& b = path[(i + 1) % path.size()];
        sum += double(a.x) * double(b.y) - double(a.y) * double(b.x);
    }
    return sum;
}

static inline ClipperLib::Paths clipper_paths(const Contours& contours) {
    ClipperLib::Paths paths;
    for (const auto& contour : contours) {
        ClipperLib::Path points;
        for (const Place& place : contour) points.push_back(ClipperLib::IntPoint(place.x, place.y));
        paths.push_back(points);
    }
    return paths;
}

static inline Answer clipper_answer(const ClipperLib::PolyTree& tree) {
    ClipperLib::Paths found;
    ClosedPathsFromPolyTree(tree, found);
    Answer answer = {0, 0};
    for (const ClipperLib::Path& path : found) {
        answer.count += (long long)path.size();
        answer.area += Area(path);
    }
    return answer;
}

typedef boost::polygon::polygon_data<int> BoostPolygon;
typedef boost::polygon::polygon_with_holes_data<int> BoostShape;
typedef boost::polygon::polygon_set_data<int> BoostSet;

// Polygons, and whether each is a hole.
typedef std::vector<std::pair<BoostPolygon, bool>> BoostPolygons;

static inline BoostPolygons boost_polygons(const Contours& contours) {
    BoostPolygons polygons;
    for (const auto& contour : contours) {
        std::vector<boost::polygon::point_data<int>> points;
        for (const Place& place : contour) points.emplace_back(int(place.x), int(place.y));
        BoostPolygon polygon;
        polygon.set(points.begin(), points.end());
        polygons.emplace_back(polygon, twice_area(contour) < 0);
    }
    return polygons;
}

static inline BoostSet boost_set(const BoostPolygons& polygons) {
    BoostSet set;
    for (const auto& [polygon, is_hole] : polygons) set.insert(polygon, is_hole);
    return set;
}

static inline Answer boost_answer(const BoostSet& set) {
    std::vector<BoostShape> shapes;
    set.get(shapes);
    Answer answer = {0, 0};
    for (const BoostShape& shape : shapes) {
        answer.area += double(boost::polygon::area(shape));
        answer.count += (long long)shape.size();
        for (auto hole = shape.begin_holes(); hole != shape.end_holes(); ++hole) answer.count += (long long)hole->size();
    }
    return answer;
}

static inline GEOSCoordSequence* geos_places(GEOSContextHandle_t geos, const std::vector<Place>& path, bool closed) {
    unsigned points = unsigned(path.size()) + (closed ? 1 : 0);
    GEOSCoordSequence* places = GEOSCoordSeq_create_r(geos, points, 2);
    for (unsigned i = 0; i < points; i++) {
        const Place& place = path[i % path.size()];
        GEOSCoordSeq_setXY_r(geos, places, i, double(place.x), double(place.y));
    }
    return places;
}

// Polygons of the contours, each clockwise one a hole of the one before it.
static inline GEOSGeometry* geos_polygons(GEOSContextHandle_t geos, const Contours& contours) {
    std::vector<GEOSGeometry*> parts;
    for (size_t i = 0; i < contours.size();) {
        GEOSGeometry* shell = GEOSGeom_createLinearRing_r(geos, geos_places(geos, contours[i++], true));
        std::vector<GEOSGeometry*> holes;
        while (i < contours.size() && twice_area(contours[i]) < 0)
            holes.push_back(GEOSGeom_createLinearRing_r(geos, geos_places(geos, contours[i++], true)));
        parts.push_back(GEOSGeom_createPolygon_r(geos, shell, holes.data(), unsigned(holes.size())));
    }
    return GEOSGeom_createCollection_r(geos, GEOS_MULTIPOLYGON, parts.data(), unsigned(parts.size()));
}

// The vertices and the area of a geometry, which is freed.
static inline Answer geos_answer(GEOSContextHandle_t geos, GEOSGeometry* found) {
    Answer answer = {0, 0};
    if (found == nullptr) return answer;
    answer.count = GEOSGetNumCoordinates_r(geos, found);
    GEOSArea_r(geos, found, &answer.area);
    GEOSGeom_destroy_r(geos, found);
    return answer;
}

// As many parts are timed, each of as many answers as take so long.
const int PARTS = 5;

static inline double processor_seconds() {
    timespec now;
    clock_gettime(CLOCK_PROCESS_CPUTIME_ID, &now);
    return now.tv_sec + 1e-9 * now.tv_nsec;
}

// Answers for about as many seconds as the word says, or as many times as follows an x, and prints the least seconds of
// one answer, on average in a part, and what the answer is.
static inline void print_time(const char* word, const std::function<Answer()>& answered) {
    long asked = word[0] == 'x' ? std::atol(word + 1) : 0;
    double wanted = asked > 0 ? 0 : std::atof(word);
    double least = INFINITY, spent = 0;
    Answer answer = {0, 0};
    long times = asked > 0 ? asked : 1;
    while (spent < wanted || least == INFINITY) {
        double start = processor_seconds();
        for (long i = 0; i < times; i++) answer = answered();
        double seconds = processor_seconds() - start;
        if (seconds * PARTS < wanted) {
            times *= 2;
            continue;
        }
        least = std::min(least, seconds / times);
        spent += seconds;
    }
    std::printf("%.9f %lld %.0f\n", least, answer.count, answer.area);
}
