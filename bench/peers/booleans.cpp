// Combines polygons with a library beside ours, again and again, and prints the least processor seconds of one time, on
// average in each of five parts, how many vertices come of it, or how many pairs that overlap, and the area of all.
//
//     booleans clipper|boost|geos SECONDS|xTIMES < request
//
// The request is words: what is made (union, intersect, difference, xor or overlaps), how many operands there are; then
// each operand's number of contours, each contour's number of points, and their x and y. Operands are filled by the
// even-odd rule, and by Boost.Polygon by its own.
#include "shared.hpp"

struct Request {
    std::string made;
    std::vector<Contours> operands;
};

static Request read_request() {
    Request request;
    size_t operands = 0;
    std::cin >> request.made >> operands;
    for (size_t i = 0; i < operands; i++) request.operands.push_back(read_contours());
    return request;
}

// ---- Pairs of operands that may overlap, for libraries that find none

struct Box {
    size_t place;
    long long west, east, south, north;
};

static Box box_of(size_t place, const Contours& operand) {
    Box box = {place, LLONG_MAX, LLONG_MIN, LLONG_MAX, LLONG_MIN};
    for (const auto& contour : operand)
        for (const Place& at : contour) {
            box.west = std::min(box.west, at.x);
            box.east = std::max(box.east, at.x);
            box.south = std::min(box.south, at.y);
            box.north = std::max(box.north, at.y);
        }
    return box;
}

typedef std::vector<std::pair<size_t, size_t>> Pairs;

// The pairs whose boxes meet, as ours are found: each box is compared with those that begin within its range of x.
static Pairs meeting_pairs(const std::vector<Contours>& operands) {
    std::vector<Box> boxes;
    for (size_t i = 0; i < operands.size(); i++) boxes.push_back(box_of(i, operands[i]));
    std::sort(boxes.begin(), boxes.end(), [](const Box& a, const Box& b) { return a.west < b.west; });
    Pairs pairs;
    for (size_t i = 0; i < boxes.size(); i++)
        for (size_t j = i + 1; j < boxes.size() && boxes[j].west <= boxes[i].east; j++)
            if (boxes[j].south <= boxes[i].north && boxes[i].south <= boxes[j].north)
                pairs.push_back(std::minmax(boxes[i].place, boxes[j].place));
    std::sort(pairs.begin(), pairs.end());
    return pairs;
}

// ---- The libraries, each with its operands, what is made of two of them, and the pairs that may overlap

struct Clipper {
    typedef ClipperLib::Paths Operand;

    static Operand operand(const Contours& contours) { return clipper_paths(contours); }

    static Answer made(const std::string& rule, const Operand& subject, const Operand& clip) {
        using namespace ClipperLib;
        ClipType type = rule == "union" ? ctUnion : rule == "intersect" ? ctIntersection :
            rule == "difference" ? ctDifference : ctXor;
        ClipperLib::Clipper clipper;
        clipper.AddPaths(subject, ptSubject, true);
        clipper.AddPaths(clip, ptClip, true);
        PolyTree tree;
        clipper.Execute(type, tree, pftEvenOdd, pftEvenOdd);
        return clipper_answer(tree);
    }

    static Pairs pairs(const Request& request, const std::vector<Operand>&) { return meeting_pairs(request.operands); }
};

struct Boost {
    typedef BoostPolygons Operand;

    static Operand operand(const Contours& contours) { return boost_polygons(contours); }

    static Answer made(const std::string& rule, const Operand& subject, const Operand& clip) {
        using namespace boost::polygon::operators;
        BoostSet set = boost_set(subject);
        BoostSet other = boost_set(clip);
        if (rule == "union") set |= other;
        else if (rule == "intersect") set &= other;
        else if (rule == "difference") set -= other;
        else set ^= other;
        return boost_answer(set);
    }

    static Pairs pairs(const Request& request, const std::vector<Operand>&) { return meeting_pairs(request.operands); }
};

// It computes in floating point, and takes valid polygons alone: what crosses itself is made valid before it is timed.
struct Geos {
    typedef GEOSGeometry* Operand;

    static GEOSContextHandle_t context() {
        static GEOSContextHandle_t context = GEOS_init_r();
        return context;
    }

    static Operand operand(const Contours& contours) {
        GEOSGeometry* polygons = geos_polygons(context(), contours);
        return GEOSisValid_r(context(), polygons) == 1 ? polygons : GEOSMakeValid_r(context(), polygons);
    }

    static Answer made(const std::string& rule, const Operand& subject, const Operand& clip) {
        auto call = rule == "union" ? GEOSUnion_r : rule == "intersect" ? GEOSIntersection_r :
            rule == "difference" ? GEOSDifference_r : GEOSSymDifference_r;
        return geos_answer(context(), call(context(), subject, clip));
    }

    // What a search of the tree finds for one operand: of each pair it is noted once.
    struct Search {
        size_t own;
        Pairs* pairs;
    };

    static void note(void* item, void* search) {
        size_t place = (size_t)item;
        auto [own, pairs] = *(Search*)search;
        if (own < place) pairs->emplace_back(own, place);
    }

    static Pairs pairs(const Request&, const std::vector<Operand>& operands) {
        GEOSSTRtree* tree = GEOSSTRtree_create_r(context(), 10);
        for (size_t i = 0; i < operands.size(); i++)
            GEOSSTRtree_insert_r(context(), tree, operands[i], (void*)i);
        Pairs pairs;
        for (size_t i = 0; i < operands.size(); i++) {
            Search search = {i, &pairs};
            GEOSSTRtree_query_r(context(), tree, operands[i], note, &search);
        }
        GEOSSTRtree_destroy_r(context(), tree);
        return pairs;
    }
};

// ---- What is asked, with one of them

template <class Library>
static Answer overlaps(const Request& request, const std::vector<typename Library::Operand>& operands) {
    Answer all = {0, 0};
    for (auto [first, second] : Library::pairs(request, operands)) {
        Answer own = Library::made("intersect", operands[first], operands[second]);
        if (own.area > 0) all.count++;
        all.area += own.area;
    }
    return all;
}

template <class Library>
static std::function<Answer()> answers(const Request& request) {
    std::vector<typename Library::Operand> operands;
    for (const Contours& contours : request.operands) operands.push_back(Library::operand(contours));
    if (request.made == "overlaps") return [&request, operands] { return overlaps<Library>(request, operands); };
    return [&request, operands] { return Library::made(request.made, operands.at(0), operands.at(1)); };
}

int main(int count, char** words) {
    if (count != 3) {
        std::fprintf(stderr, "usage: %s clipper|boost|geos SECONDS|xTIMES < request\n", words[0]);
        return 2;
    }
    std::string peer = words[1];
    Request request = read_request();
    print_time(words[2], peer == "clipper" ? answers<Clipper>(request) :
        peer == "boost" ? answers<Boost>(request) : answers<Geos>(request));
}
