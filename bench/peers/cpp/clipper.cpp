// Clipper 6, coordinates of 64 bits within its `loRange`, so by its faster arithmetic; the result as flat `Paths`, which its
// documentation calls faster than a `PolyTree`.
#include "race.h"
#include <polyclipping/clipper.hpp>
using namespace ClipperLib;

struct Peer {
    Paths shape[2], result;

    void load(const Shapes &shapes) {
        for (int s = 0; s < 2; s++) for (auto &contour : shapes.of[s]) {
            Path path;
            for (auto &p : contour) path.push_back(IntPoint(p.x, p.y));
            shape[s].push_back(path);
        }
    }
    void clear() { Paths().swap(result); }
    double run(const std::string &rule) {
        Clipper clipper;
        clipper.AddPaths(shape[0], ptSubject, true);
        clipper.AddPaths(shape[1], ptClip, true);
        ClipType type = rule == "union" ? ctUnion : rule == "intersect" ? ctIntersection : rule == "difference" ? ctDifference : ctXor;
        if (!clipper.Execute(type, result, pftNonZero, pftNonZero)) throw std::runtime_error("Execute returned false");
        return 0;
    }
    void collect(Total &total) {
        for (auto &path : result) {
            std::vector<Corner> ring;
            for (auto &p : path) ring.push_back({(double)p.X, (double)p.Y});
            total.add_turned(ring);
        }
    }
};

int main(int count, char **words) { return race<Peer>(count, words); }
