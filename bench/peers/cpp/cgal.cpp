// CGAL `Polygon_set_2` over the exact kernel with lazy constructions: results are exact, with rational corners, which become doubles
// after the time is taken. It takes simple polygons that run counterclockwise. Those of a shape are joined in one call (`prepare`); a
// union is one join of all.
#include "race.h"
#include <CGAL/Exact_predicates_exact_constructions_kernel.h>
#include <CGAL/Polygon_set_2.h>
#include <CGAL/Polygon_with_holes_2.h>
typedef CGAL::Exact_predicates_exact_constructions_kernel Kernel;
typedef CGAL::Polygon_2<Kernel> Polygon;
typedef CGAL::Polygon_with_holes_2<Kernel> Holed;
typedef CGAL::Polygon_set_2<Kernel> Set;

struct Peer {
    std::vector<Polygon> shape[2], all;
    std::vector<Holed> result;

    void load(const Shapes &shapes) {
        for (int s = 0; s < 2; s++) for (auto &contour : shapes.of[s]) {
            Polygon polygon;
            for (auto &p : contour) polygon.push_back(Kernel::Point_2(p.x, p.y));
            if (!polygon.is_simple()) throw std::runtime_error("a polygon that is not simple");
            if (polygon.is_clockwise_oriented()) polygon.reverse_orientation();
            shape[s].push_back(polygon);
            all.push_back(polygon);
        }
    }
    void clear() { std::vector<Holed>().swap(result); }
    double run(const std::string &rule) {
        Set a, b;
        double from = wall();
        if (rule == "union") a.join(all.begin(), all.end());
        else a.join(shape[0].begin(), shape[0].end()), b.join(shape[1].begin(), shape[1].end());
        double prepare = rule == "union" ? 0 : wall() - from;
        if (rule == "intersect") a.intersection(b);
        else if (rule == "difference") a.difference(b);
        else if (rule == "xor") a.symmetric_difference(b);
        a.polygons_with_holes(std::back_inserter(result));
        return prepare;
    }
    static std::vector<Corner> ring(const Polygon &given) {
        std::vector<Corner> ring;
        for (auto p = given.vertices_begin(); p != given.vertices_end(); ++p)
            ring.push_back({CGAL::to_double(CGAL::exact(p->x())), CGAL::to_double(CGAL::exact(p->y()))});
        return ring;
    }
    void collect(Total &total) {
        for (auto &polygon : result) {
            if (!polygon.is_unbounded()) total.add_ring(ring(polygon.outer_boundary()), false);
            for (auto hole = polygon.holes_begin(); hole != polygon.holes_end(); ++hole) total.add_ring(ring(*hole), true);
        }
    }
};

int main(int count, char **words) { return race<Peer>(count, words); }
