// Boost.Geometry over points of doubles, as its documentation has them. It takes valid multi_polygons: where the polygons of a shape
// overlap or share sides, they are united first (`prepare`), by pairs in order of x. Results have doubles as corners.
#include "race.h"
#include <boost/geometry.hpp>
#include <boost/geometry/geometries/multi_polygon.hpp>
#include <boost/geometry/geometries/point_xy.hpp>
#include <boost/geometry/geometries/polygon.hpp>
namespace bg = boost::geometry;
typedef bg::model::polygon<bg::model::d2::point_xy<double>> Polygon;
typedef bg::model::multi_polygon<Polygon> Shape;

struct Peer {
    Shape shape[2], result;
    bool is_valid[2];

    void load(const Shapes &shapes) {
        for (int s = 0; s < 2; s++) {
            for (auto &contour : shapes.of[s]) {
                Polygon polygon;
                for (auto &p : contour) bg::append(polygon.outer(), bg::model::d2::point_xy<double>(p.x, p.y));
                bg::correct(polygon);
                shape[s].push_back(polygon);
            }
            auto is_left = [](const Polygon &a, const Polygon &b) { return a.outer()[0].x() < b.outer()[0].x(); };
            std::sort(shape[s].begin(), shape[s].end(), is_left);
            is_valid[s] = bg::is_valid(shape[s]);
        }
    }
    void clear() { Shape().swap(result); }
    static Shape unite(const Shape &given) {
        std::vector<Shape> parts;
        for (auto &polygon : given) parts.push_back({polygon});
        while (parts.size() > 1) {
            std::vector<Shape> next;
            for (size_t i = 0; i + 1 < parts.size(); i += 2) next.emplace_back(), bg::union_(parts[i], parts[i + 1], next.back());
            if (parts.size() % 2) next.push_back(std::move(parts.back()));
            parts.swap(next);
        }
        return parts.empty() ? Shape() : parts[0];
    }
    double run(const std::string &rule) {
        double from = wall();
        Shape united[2];
        for (int s = 0; s < 2; s++) if (!is_valid[s]) united[s] = unite(shape[s]);
        double prepare = is_valid[0] && is_valid[1] ? 0 : wall() - from;
        const Shape &a = is_valid[0] ? shape[0] : united[0], &b = is_valid[1] ? shape[1] : united[1];
        if (rule == "union") bg::union_(a, b, result);
        else if (rule == "intersect") bg::intersection(a, b, result);
        else if (rule == "difference") bg::difference(a, b, result);
        else bg::sym_difference(a, b, result);
        return prepare;
    }
    template <class R> static std::vector<Corner> ring(const R &given) {
        std::vector<Corner> ring;
        for (auto &p : given) ring.push_back({p.x(), p.y()});
        return ring;
    }
    void collect(Total &total) {
        for (auto &polygon : result) {
            total.add_ring(ring(polygon.outer()), false);
            for (auto &hole : polygon.inners()) total.add_ring(ring(hole), true);
        }
    }
};

int main(int count, char **words) { return race<Peer>(count, words); }
