// GEOS by its C interface: `GEOSIntersectionPrec` and the like, snap rounding on the grid 1, or with -DFLOATING `GEOSIntersection` and the
// like. It takes valid (multi)polygons: where the polygons of a shape overlap or share sides, they are united first (`prepare`). A
// union is one unary union of all polygons.
#include "race.h"
#include <cstdarg>
#include <geos_c.h>
typedef GEOSGeometry Geometry;

static std::string fault;
static void hear(const char *, ...) {}
static void keep(const char *text, ...) {
    char buffer[400];
    va_list list;
    va_start(list, text);
    vsnprintf(buffer, sizeof buffer, text, list);
    va_end(list);
    fault = buffer;
}
static Geometry *ok(Geometry *made) {
    if (!made) throw std::runtime_error(fault);
    return made;
}
#ifdef FLOATING
#define UNITE(a) ok(GEOSUnaryUnion(a))
#define BOTH(name, a, b) ok(name(a, b))
#else
#define UNITE(a) ok(GEOSUnaryUnionPrec(a, 1.0))
#define BOTH(name, a, b) ok(name##Prec(a, b, 1.0))
#endif

struct Peer {
    Geometry *shape[2], *all, *result = nullptr;
    bool is_valid[2];

    static Geometry *polygon(const Contour &contour) {
        size_t n = contour.size();
        GEOSCoordSequence *points = GEOSCoordSeq_create(n + 1, 2);
        for (size_t i = 0; i <= n; i++) GEOSCoordSeq_setXY(points, i, contour[i % n].x, contour[i % n].y);
        return ok(GEOSGeom_createPolygon(ok(GEOSGeom_createLinearRing(points)), nullptr, 0));
    }
    static Geometry *multipolygon(const std::vector<const Contour *> &contours) {
        std::vector<Geometry *> parts;
        for (auto contour : contours) parts.push_back(polygon(*contour));
        return ok(GEOSGeom_createCollection(GEOS_MULTIPOLYGON, parts.data(), parts.size()));
    }
    void load(const Shapes &shapes) {
        initGEOS(hear, keep);
        std::vector<const Contour *> both;
        for (int s = 0; s < 2; s++) {
            std::vector<const Contour *> one;
            for (auto &contour : shapes.of[s]) one.push_back(&contour), both.push_back(&contour);
            shape[s] = multipolygon(one);
            is_valid[s] = GEOSisValid(shape[s]) == 1;
        }
        all = multipolygon(both);
    }
    void clear() {
        if (result) GEOSGeom_destroy(result);
        result = nullptr;
    }
    double run(const std::string &rule) {
        if (rule == "union") return result = UNITE(all), 0;
        double from = wall();
        Geometry *a = is_valid[0] ? shape[0] : UNITE(shape[0]), *b = is_valid[1] ? shape[1] : UNITE(shape[1]);
        double prepare = is_valid[0] && is_valid[1] ? 0 : wall() - from;
        if (rule == "intersect") result = BOTH(GEOSIntersection, a, b);
        else if (rule == "difference") result = BOTH(GEOSDifference, a, b);
        else result = BOTH(GEOSSymDifference, a, b);
        if (a != shape[0]) GEOSGeom_destroy(a);
        if (b != shape[1]) GEOSGeom_destroy(b);
        return prepare;
    }
    static std::vector<Corner> ring(const Geometry *given) {
        const GEOSCoordSequence *points = GEOSGeom_getCoordSeq(given);
        unsigned n = 0;
        GEOSCoordSeq_getSize(points, &n);
        std::vector<Corner> ring(n);
        for (unsigned i = 0; i < n; i++) GEOSCoordSeq_getXY(points, i, &ring[i].x, &ring[i].y);
        return ring;
    }
    static void take(Total &total, const Geometry *given) {
        int type = GEOSGeomTypeId(given);
        if (type == GEOS_POLYGON && !GEOSisEmpty(given)) {
            total.add_ring(ring(GEOSGetExteriorRing(given)), false);
            for (int i = 0; i < GEOSGetNumInteriorRings(given); i++) total.add_ring(ring(GEOSGetInteriorRingN(given, i)), true);
        } else if (type == GEOS_MULTIPOLYGON || type == GEOS_GEOMETRYCOLLECTION)
            for (int i = 0; i < GEOSGetNumGeometries(given); i++) take(total, GEOSGetGeometryN(given, i));
    }
    void collect(Total &total) { take(total, result); }
};

int main(int count, char **words) { return race<Peer>(count, words); }
