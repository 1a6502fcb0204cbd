// Boost.Polygon, of `int`: `polygon_set_data`, or with -DRECTILINEAR `polygon_90_set_data`, for sides along the axes alone. Its sets are
// where the winding is above 0, and it turns each polygon counterclockwise when it is inserted. A union is one set of all polygons.
#include "race.h"
#include <iostream>
#include <boost/polygon/polygon.hpp>
namespace bp = boost::polygon;
using namespace boost::polygon::operators;
#ifdef RECTILINEAR
typedef bp::polygon_90_set_data<int> Set;
typedef bp::polygon_90_data<int> Polygon;
typedef bp::polygon_90_with_holes_data<int> Holed;
#else
typedef bp::polygon_set_data<int> Set;
typedef bp::polygon_data<int> Polygon;
typedef bp::polygon_with_holes_data<int> Holed;
#endif

struct Peer {
    std::vector<Polygon> shape[2];
    std::vector<Holed> result;

    void load(const Shapes &shapes) {
        for (int s = 0; s < 2; s++) for (auto &contour : shapes.of[s]) {
            std::vector<bp::point_data<int>> points;
            for (auto &p : contour) points.push_back(bp::point_data<int>(p.x, p.y));
            Polygon polygon;
            bp::set_points(polygon, points.begin(), points.end());
            shape[s].push_back(polygon);
        }
    }
    void clear() { std::vector<Holed>().swap(result); }
    double run(const std::string &rule) {
        Set a, b;
        for (auto &polygon : shape[0]) a.insert(polygon);
        for (auto &polygon : shape[1]) (rule == "union" ? a : b).insert(polygon);
        if (rule == "intersect") a &= b;
        else if (rule == "difference") a -= b;
        else if (rule == "xor") a ^= b;
        a.get(result);
        return 0;
    }
    template <class R> static std::vector<Corner> ring(const R &given) {
        std::vector<Corner> ring;
        for (auto p = bp::begin_points(given); p != bp::end_points(given); ++p) ring.push_back({(double)bp::x(*p), (double)bp::y(*p)});
        return ring;
    }
    void collect(Total &total) {
        for (auto &polygon : result) {
            total.add_ring(ring(polygon), false);
            for (auto hole = bp::begin_holes(polygon); hole != bp::end_holes(polygon); ++hole) total.add_ring(ring(*hole), true);
        }
    }
};

int main(int count, char **words) { return race<Peer>(count, words); }
