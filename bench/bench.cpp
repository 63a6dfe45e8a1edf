// Feltloquat's calls side by side with CGAL, Boost.Geometry and GEOS, on the same rounds, in one run.
//
// Rounds: at random, on a circle, all in line; 16, 128 and 1,024 boxes. Each time is the best of many repetitions, in microseconds. A verdict is measured on two
// plugs; of Feltloquat's two times the longer counts, of a peer's the shorter.
// Feltloquat is handed the box list and writes its answer; a peer is handed its own points, made beforehand, and makes its own polygon.
#include "feltloquat.h"
#include "rounds.hpp"

#include <CGAL/Exact_predicates_inexact_constructions_kernel.h>
#include <CGAL/Polygon_2_algorithms.h>
#include <CGAL/Simple_cartesian.h>
#include <CGAL/ch_akl_toussaint.h>
#include <CGAL/ch_graham_andrew.h>
#include <boost/geometry.hpp>
#include <boost/geometry/geometries/multi_point.hpp>
#include <boost/geometry/geometries/point_xy.hpp>
#include <boost/geometry/geometries/polygon.hpp>
#include <geos_c.h>

#include <algorithm>
#include <chrono>
#include <cmath>
#include <cstdint>
#include <cstdio>
#include <cstring>
#include <iterator>
#include <string>
#include <vector>

namespace bg = boost::geometry;
// CGAL's kernel for exact predicates, and the one of plain doubles, which is exact too for whole coordinates as small as these.
using Exact = CGAL::Exact_predicates_inexact_constructions_kernel;
using Plain = CGAL::Simple_cartesian<double>;

static volatile uint64_t sink;

// The best of many repetitions, in microseconds; at least 20 and about a third of a second in all.
template <class Work> static double best(Work work) {
    using clock = std::chrono::steady_clock;
    double least = 1e18;
    auto start = clock::now();
    for (int k = 0; k < 20 || (k < 20000 && clock::now() - start < std::chrono::milliseconds(300)); ++k) {
        auto from = clock::now();
        sink = sink + work();
        least = std::min(least, std::chrono::duration<double, std::micro>(clock::now() - from).count());
    }
    return least;
}

static std::vector<Plug> plugs_of(size_t count) {
    Generator g{4};
    std::vector<Plug> plugs;
    for (size_t k = 0; k < count; ++k) {
        int32_t e = int32_t(g.below(31001)) - 15500;
        plugs.push_back({e, int32_t(g.below(31001)) - 15500});
    }
    return plugs;
}

// The points of the outer polygon (corner -1) and of one corner polygon.
static std::vector<Plug> points_of(const Boxes &boxes, int corner) {
    std::vector<Plug> points;
    for (const Box &b : boxes) {
        Plug all[4] = {{b.west, b.south}, {b.east, b.south}, {b.east, b.north}, {b.west, b.north}};
        if (corner < 0) points.insert(points.end(), all, all + 4);
        else points.push_back(all[corner]);
    }
    return points;
}

// A peer: hulls of five sets of points, and whether a plug lies in the hull.
template <class Kernel> struct Cgal {
    using Point = typename Kernel::Point_2;
    bool akl;
    std::vector<Point> points[5], hull[5];
    Cgal(const Boxes &boxes, bool akl) : akl(akl) {
        for (int k = 0; k < 5; ++k)
            for (const Plug &p : points_of(boxes, k - 1)) points[k].emplace_back(p.first, p.second);
    }
    size_t make(int k) {
        hull[k].clear();
        if (akl) CGAL::ch_akl_toussaint(points[k].begin(), points[k].end(), std::back_inserter(hull[k]));
        else CGAL::ch_graham_andrew(points[k].begin(), points[k].end(), std::back_inserter(hull[k]));
        return hull[k].size();
    }
    size_t in(int k, const Plug &p) {
        return CGAL::bounded_side_2(hull[k].begin(), hull[k].end(), Point(p.first, p.second), Kernel()) != CGAL::ON_UNBOUNDED_SIDE;
    }
};

template <class Number> struct Boost {
    using Point = bg::model::d2::point_xy<Number>;
    bg::model::multi_point<Point> points[5];
    bg::model::polygon<Point> hull[5];
    explicit Boost(const Boxes &boxes) {
        for (int k = 0; k < 5; ++k)
            for (const Plug &p : points_of(boxes, k - 1)) points[k].push_back(Point(p.first, p.second));
    }
    size_t make(int k) {
        hull[k].clear();
        bg::convex_hull(points[k], hull[k]);
        return hull[k].outer().size();
    }
    size_t in(int k, const Plug &p) { return bg::covered_by(Point(p.first, p.second), hull[k]); }
};

struct Geos {
    GEOSGeometry *points[5], *hull[5] = {};
    const GEOSPreparedGeometry *ready[5] = {};
    explicit Geos(const Boxes &boxes) {
        for (int k = 0; k < 5; ++k) {
            std::vector<GEOSGeometry *> all;
            for (const Plug &p : points_of(boxes, k - 1)) all.push_back(GEOSGeom_createPointFromXY(p.first, p.second));
            points[k] = GEOSGeom_createCollection(GEOS_MULTIPOINT, all.data(), unsigned(all.size()));
        }
    }
    ~Geos() {
        for (int k = 0; k < 5; ++k) { drop(k); GEOSGeom_destroy(points[k]); }
    }
    void drop(int k) {
        if (ready[k]) GEOSPreparedGeom_destroy(ready[k]);
        if (hull[k]) GEOSGeom_destroy(hull[k]);
        ready[k] = nullptr;
        hull[k] = nullptr;
    }
    size_t make(int k) {
        drop(k);
        hull[k] = GEOSConvexHull(points[k]);
        return size_t(GEOSGetNumCoordinates(hull[k]));
    }
    size_t in(int k, const Plug &p) {
        if (!ready[k]) ready[k] = GEOSPrepare(hull[k]);
        GEOSGeometry *q = GEOSGeom_createPointFromXY(p.first, p.second);
        size_t r = size_t(GEOSPreparedIntersects(ready[k], q));
        GEOSGeom_destroy(q);
        return r;
    }
};

// A peer's time for each work: outer, corners, one verdict, many plugs.
template <class Peer> static std::vector<double> times(Peer &peer, const std::vector<Plug> &plugs) {
    auto hulls = [&](int from, int to) { size_t n = 0; for (int k = from; k < to; ++k) n += peer.make(k); return n; };
    auto tests = [&](const Plug &p) { size_t n = 0; for (int k = 0; k < 5; ++k) n += peer.in(k, p); return n; };
    return {
        best([&] { return hulls(0, 1); }),
        best([&] { return hulls(1, 5); }),
        std::min(best([&] { size_t n = hulls(0, 5); return n + tests(verdict_plugs[0]); }), best([&] { size_t n = hulls(0, 5); return n + tests(verdict_plugs[1]); })),
        best([&] { size_t n = hulls(0, 5); for (const Plug &p : plugs) n += tests(p); return n; }),
    };
}

// The round file of boxes and plugs.
static std::vector<uint8_t> file_of(const std::vector<int32_t> &boxes, const std::vector<Plug> &plugs) {
    std::vector<int32_t> list;
    for (const Plug &p : plugs) list.insert(list.end(), {p.first, p.second});
    std::vector<uint8_t> file(18 * boxes.size() / 4 + 10 * plugs.size() + 2);
    auto written = feltloquat_write_round(boxes.data(), boxes.size(), list.data(), list.size(), file.data(), file.size());
    if (written.refused) { std::printf("writing refused %u\n", written.refused); std::exit(1); }
    return file;
}

static double verdict(const std::vector<int32_t> &list, const Plug &p) {
    return best([&] { return feltloquat_verdict(list.data(), list.size(), p.first, p.second).word; });
}

static std::vector<double> ours(const std::vector<int32_t> &list, const std::vector<Plug> &plugs) {
    std::vector<int32_t> answer(2 * list.size());
    std::vector<uint8_t> file = file_of(list, plugs);
    std::vector<uint8_t> text(FELTLOQUAT_TEXT_LENGTH);
    return {
        best([&] { return feltloquat_outer_polygon(list.data(), list.size(), answer.data(), answer.size()).vertices; }),
        best([&] { return feltloquat_corner_polygons(list.data(), list.size(), answer.data(), answer.size()).southwest; }),
        std::max(verdict(list, verdict_plugs[0]), verdict(list, verdict_plugs[1])),
        best([&] { return feltloquat_print_round(file.data(), file.size(), text.data()); }),
    };
}

// The peers, each with its strongest settings.
static const char *const peers[7] = {"andrew", "andrew+", "akl", "akl+", "boost", "boost+", "geos"};

static std::vector<std::vector<double>> peer_times(const Boxes &boxes, const std::vector<Plug> &plugs) {
    Cgal<Exact> andrew(boxes, false), akl(boxes, true);
    Cgal<Plain> plain_andrew(boxes, false), plain_akl(boxes, true);
    Boost<double> boost(boxes);
    Boost<int> whole_boost(boxes);
    Geos geos(boxes);
    return {times(andrew, plugs), times(plain_andrew, plugs), times(akl, plugs), times(plain_akl, plugs), times(boost, plugs), times(whole_boost, plugs), times(geos, plugs)};
}

int main() {
    initGEOS(nullptr, nullptr);
    const char *works[4] = {"outer polygon", "corner polygons", "one verdict", "plugs of one round"};
    std::printf("CGAL's ch_graham_andrew and ch_akl_toussaint with exact predicates and, +, with plain doubles; Boost with doubles and, +, with whole numbers.\n");
    std::printf("%-20s %-7s %6s %10s", "work", "shape", "boxes", "feltloquat");
    for (const char *peer : peers) std::printf(" %10s", peer);
    std::printf(" %7s\n", "ratio");
    std::vector<double> worst(4, 0);
    for (int shape = 0; shape < 3; ++shape)
        for (size_t count : {size_t(16), size_t(128), size_t(1024)}) {
            Boxes boxes = boxes_of(shape, count);
            std::vector<Plug> plugs = plugs_of(count == 1024 ? 4700 : 6000);
            std::vector<double> us = ours(flat(boxes), plugs);
            std::vector<std::vector<double>> theirs = peer_times(boxes, plugs);
            for (int k = 0; k < 4; ++k) {
                std::printf("%-20s %-7s %6zu %10.2f", works[k], shapes[shape], count, us[k]);
                double least = 1e18;
                for (const std::vector<double> &t : theirs) {
                    std::printf(" %10.2f", t[k]);
                    least = std::min(least, t[k]);
                }
                worst[k] = std::max(worst[k], us[k] / least);
                std::printf(" %7.2f\n", us[k] / least);
            }
            std::fflush(stdout);
        }
    for (int k = 0; k < 4; ++k) std::printf("largest ratio to the best peer, %s: %.2f\n", works[k], worst[k]);

    // The largest file that the program takes: 65,536 bytes.
    std::vector<int32_t> list = flat(random_boxes(1024));
    std::vector<Plug> plugs = plugs_of(4710);
    std::vector<uint8_t> file = file_of(list, plugs);
    std::vector<int32_t> boxes(list.size()), places(2 * plugs.size());
    double read = best([&] { return feltloquat_read_round(file.data(), file.size(), boxes.data(), boxes.size(), places.data(), places.size()).boxes; });
    double write = best([&] { return feltloquat_write_round(boxes.data(), boxes.size(), places.data(), places.size(), file.data(), file.size()).bytes; });
    std::printf("reading %zu bytes: %.1f, writing: %.1f microseconds\n", file.size(), read, write);
    finishGEOS();
}
