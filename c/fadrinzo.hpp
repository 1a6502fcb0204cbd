/* Overlays of polygons with whole coordinates for C++17 and later, over fadrinzo.h: an overlay that frees itself, contours and shapes as
   vectors, and errors as exceptions.

       fadrinzo::Overlay overlay;
       overlay.add_contour(fadrinzo::ShapeType::Subject, {{0, 0}, {8, 0}, {8, 8}, {0, 8}});
       overlay.add_contour(fadrinzo::ShapeType::Clip, {{2, 2}, {6, 2}, {6, 6}, {2, 6}});
       for (const fadrinzo::Shape &shape : overlay.overlay_shapes(fadrinzo::OverlayRule::Difference, fadrinzo::FillRule::NonZero))
           use(shape);

   Each call that fails throws OutOfMemory or Error, with the sentence of fadrinzo_text; then the overlay may be used again. What a call means
   is said in fadrinzo.h, beside the call of its name. */
#ifndef FADRINZO_HPP
#define FADRINZO_HPP

#ifdef FADRINZO_H
#error "fadrinzo.hpp includes fadrinzo.h, whose type `fadrinzo` has the name of the namespace here: include fadrinzo.hpp before it, or alone"
#endif
/* behind this header the type `fadrinzo` of C is fadrinzo_handle */
#define fadrinzo fadrinzo_handle
#include "fadrinzo.h"
#undef fadrinzo

#include <cstddef>
#include <cstdint>
#include <iterator>
#include <limits>
#include <memory>
#include <new>
#include <stdexcept>
#include <string>
#include <tuple>
#include <type_traits>
#include <utility>
#include <vector>

namespace fadrinzo {

class Point;

}

/* so that a point can be taken apart: `for (auto [x, y] : contour)` */
template <> struct std::tuple_size<fadrinzo::Point> : std::integral_constant<std::size_t, 2> {
};
template <std::size_t I> struct std::tuple_element<I, fadrinzo::Point> {
    using type = std::int32_t;
};

namespace fadrinzo {

/* Whether each number of a type is one of int32_t. */
template <class T>
inline constexpr bool is_coordinate = std::is_integral_v<T> && !std::is_same_v<std::remove_cv_t<T>, bool> && std::numeric_limits<T>::digits <= 31;

/* A point. Numbers of wider types, int64_t and double among them, are refused by the compiler: test their range, and convert them. */
class Point {
public:
    constexpr Point() = default;
    constexpr Point(std::int32_t x, std::int32_t y) : x_(x), y_(y) {}
    template <class X, class Y, std::enable_if_t<!(is_coordinate<X> && is_coordinate<Y>), int> = 0> Point(X, Y) = delete;

    constexpr std::int32_t x() const { return x_; }
    constexpr std::int32_t y() const { return y_; }
    template <std::size_t I> constexpr std::int32_t get() const
    {
        static_assert(I < 2, "a point has two coordinates");
        return I == 0 ? x_ : y_;
    }
    friend constexpr bool operator==(Point a, Point b) { return a.x_ == b.x_ && a.y_ == b.y_; }
    friend constexpr bool operator!=(Point a, Point b) { return !(a == b); }

private:
    std::int32_t x_ = 0;
    std::int32_t y_ = 0;
};

/* The points of a contour, without a last one that repeats the first. */
using Contour = std::vector<Point>;

/* A simple polygon: its outer boundary, which is counterclockwise, and behind it its holes, which are clockwise. */
using Shape = std::vector<Contour>;

/* A segment, and how often it winds for the subject and for the clip: above 0 from a to b, below 0 from b to a. */
struct Edge {
    Point a;
    Point b;
    std::int32_t subject = 1;
    std::int32_t clip = 0;
};

/* A rectangle that is wider and higher than 0, for a tile: from its left and lower to its right and upper border. */
using Box = fadrinzo_box;

/* The shape to which a contour is added. */
enum class ShapeType { Subject = FADRINZO_SUBJECT, Clip = FADRINZO_CLIP };

/* Which points an overlay keeps; `table` makes others. */
enum class OverlayRule {
    Subject = FADRINZO_RULE_SUBJECT,
    Clip = FADRINZO_RULE_CLIP,
    Intersect = FADRINZO_RULE_INTERSECT,
    Union = FADRINZO_RULE_UNION,
    Difference = FADRINZO_RULE_DIFFERENCE,
    InverseDifference = FADRINZO_RULE_INVERSE_DIFFERENCE,
    Xor = FADRINZO_RULE_XOR
};

/* The rule that keeps or drops points in neither shape, in the subject alone, in the clip alone, and in both. */
constexpr OverlayRule table(bool neither, bool subject, bool clip, bool both)
{
    return static_cast<OverlayRule>(FADRINZO_RULE_TABLE + neither + 2 * subject + 4 * clip + 8 * both);
}

/* Which points are inside contours, by how often these wind around them. */
enum class FillRule {
    EvenOdd = FADRINZO_FILL_EVEN_ODD,
    NonZero = FADRINZO_FILL_NON_ZERO,
    Positive = FADRINZO_FILL_POSITIVE,
    Negative = FADRINZO_FILL_NEGATIVE
};

/* Where a point lies. */
enum class PointLocation { Inside = FADRINZO_INSIDE, OnBoundary = FADRINZO_ON_BOUNDARY, Outside = FADRINZO_OUTSIDE };

/* A relation of the subject and the clip. */
enum class Relation {
    InteriorsMeet = FADRINZO_INTERIORS_MEET,
    Covers = FADRINZO_COVERS,
    IsWithin = FADRINZO_IS_WITHIN,
    SameRegion = FADRINZO_SAME_REGION,
    Touch = FADRINZO_TOUCH,
    Disjoint = FADRINZO_DISJOINT
};

/* How crossings without integer coordinates are rounded. */
enum class Rounding { SnapRounding = FADRINZO_SNAP_ROUNDING, Pairwise = FADRINZO_PAIRWISE };

/* Which parts of lines are kept: those inside contours or, if `invert`, those outside. Parts along the boundary count as inside if
   `boundary_included`. */
struct ClipRule {
    bool invert = false;
    bool boundary_included = false;
};

/* A part of a line: the number of the line, from 0, and the points of the part, in the direction of the line. */
struct LinePart {
    std::size_t line;
    std::vector<Point> points;
};

/* Whether points at which a contour goes straight on are in results. */
enum class Collinear { Keep, Drop };

/* A call was refused, for the reason that its status and its sentence name. */
class Error : public std::runtime_error {
public:
    explicit Error(fadrinzo_status status) : std::runtime_error(fadrinzo_text(status)), status_(status) {}
    fadrinzo_status status() const noexcept { return status_; }

private:
    fadrinzo_status status_;
};

/* The library was refused memory. */
class OutOfMemory : public std::bad_alloc {
public:
    const char *what() const noexcept override { return fadrinzo_text(FADRINZO_NO_MEMORY); }
};

namespace detail {

using std::get;
template <std::size_t I> constexpr std::int32_t get(const Point &point) { return point.get<I>(); }

/* The coordinates of a point of any type: its members x and y, or its two elements, as those of std::pair and std::array. */
template <class P> constexpr auto coordinates(const P &point, int) -> decltype(std::make_pair(point.x, point.y))
{
    return std::make_pair(point.x, point.y);
}
template <class P>
constexpr auto coordinates(const P &point, long) -> std::enable_if_t<std::tuple_size<P>::value == 2, decltype(std::make_pair(get<0>(point), get<1>(point)))>
{
    return std::make_pair(get<0>(point), get<1>(point));
}

template <class P> using coordinates_of = decltype(coordinates(std::declval<const P &>(), 0));
template <class R> using item_of = std::decay_t<decltype(*std::begin(std::declval<const R &>()))>;

template <class P, class = void> inline constexpr bool is_point = false;
template <class P>
inline constexpr bool is_point<P, std::void_t<coordinates_of<P>>>
    = is_coordinate<typename coordinates_of<P>::first_type> && is_coordinate<typename coordinates_of<P>::second_type>;

template <class R, class = void> inline constexpr bool is_points = false;
template <class R> inline constexpr bool is_points<R, std::void_t<item_of<R>>> = is_point<item_of<R>>;

template <class R, class = void> inline constexpr bool is_rings = false;
template <class R> inline constexpr bool is_rings<R, std::void_t<item_of<R>>> = is_points<item_of<R>>;

inline void check(fadrinzo_status status)
{
    if (status == FADRINZO_NO_MEMORY)
        throw OutOfMemory();
    if (status != FADRINZO_OK)
        throw Error(status);
}

/* Appends points as x, y, x, y, .., and returns how many there are. */
template <class Points> std::size_t append(std::vector<std::int32_t> &xy, const Points &points)
{
    std::size_t before = xy.size();
    for (const auto &point : points) {
        auto [x, y] = coordinates(point, 0);
        xy.push_back(x);
        xy.push_back(y);
    }
    return (xy.size() - before) / 2;
}

/* The coordinates of contours, one after another, and how many points each has. */
struct Numbers {
    std::vector<std::int32_t> xy;
    std::vector<std::size_t> lengths;

    template <class Contours> explicit Numbers(const Contours &contours)
    {
        for (const auto &contour : contours)
            lengths.push_back(append(xy, contour));
    }
};

/* The points from an index to before another. */
inline std::vector<Point> points(const std::int32_t *xy, std::size_t first, std::size_t end)
{
    std::vector<Point> made;
    made.reserve(end - first);
    for (std::size_t at = first; at < end; at++)
        made.emplace_back(xy[2 * at], xy[2 * at + 1]);
    return made;
}

inline std::vector<Contour> contours(const fadrinzo_result &found, std::size_t first, std::size_t end)
{
    std::vector<Contour> made;
    made.reserve(end - first);
    for (std::size_t i = first; i < end; i++)
        made.push_back(points(found.xy, found.contour_starts[i], found.contour_starts[i + 1]));
    return made;
}

inline std::vector<std::vector<Contour>> parts(const fadrinzo_result &found)
{
    std::vector<std::vector<Contour>> made;
    made.reserve(found.shapes);
    for (std::size_t i = 0; i < found.shapes; i++)
        made.push_back(contours(found, found.shape_starts[i], found.shape_starts[i + 1]));
    return made;
}

}

/* The contours of a subject and of a clip. It can be moved, not copied; one that was moved from refuses each call. Of use to one thread at a
   time. */
class Overlay {
public:
    Overlay() : handle_(fadrinzo_new())
    {
        if (!handle_)
            throw OutOfMemory();
    }

    /* Drops the contours and the result. */
    void clear() { detail::check(fadrinzo_clear(handle())); }

    /* Adds a contour of so many points, each x and y. */
    void add_contour(ShapeType shape, const std::int32_t *xy, std::size_t points)
    {
        detail::check(fadrinzo_add_contour(handle(), static_cast<int>(shape), xy, points));
    }
    template <class T, std::enable_if_t<!std::is_same_v<T, std::int32_t>, int> = 0> void add_contour(ShapeType, const T *, std::size_t) = delete;

    /* Adds a contour of points of any type with members x and y, or of two elements as std::pair and std::array. Types with wider numbers than
       int32_t are refused by the compiler. */
    template <class Points, std::enable_if_t<detail::is_points<Points>, int> = 0> void add_contour(ShapeType shape, const Points &points)
    {
        std::vector<std::int32_t> xy;
        std::size_t count = detail::append(xy, points);
        add_contour(shape, xy.data(), count);
    }
    template <class Points, std::enable_if_t<!detail::is_points<Points>, int> = 0> void add_contour(ShapeType, const Points &) = delete;
    void add_contour(ShapeType shape, const Contour &points) { add_contour<Contour>(shape, points); }

    /* Adds many contours, as `add_contour` adds each. If a point is out of range nothing is added. */
    template <class Contours, std::enable_if_t<detail::is_rings<Contours>, int> = 0> void add_contours(ShapeType shape, const Contours &contours)
    {
        detail::Numbers given(contours);
        detail::check(fadrinzo_add_contours(handle(), static_cast<int>(shape), given.xy.data(), given.lengths.data(), given.lengths.size()));
    }
    template <class Contours, std::enable_if_t<!detail::is_rings<Contours>, int> = 0> void add_contours(ShapeType, const Contours &) = delete;
    void add_contours(ShapeType shape, const std::vector<Contour> &contours) { add_contours<std::vector<Contour>>(shape, contours); }

    /* Adds what a box, a tile of the plane, has of a contour: what follows is the part of the overlay that belongs to the tile. */
    template <class Points, std::enable_if_t<detail::is_points<Points>, int> = 0> void add_contour_in_tile(ShapeType shape, const Points &points, const Box &tile)
    {
        std::vector<std::int32_t> xy;
        std::size_t count = detail::append(xy, points);
        detail::check(fadrinzo_add_contour_in_tile(handle(), static_cast<int>(shape), xy.data(), count, &tile));
    }
    template <class Points, std::enable_if_t<!detail::is_points<Points>, int> = 0> void add_contour_in_tile(ShapeType, const Points &, const Box &) = delete;
    void add_contour_in_tile(ShapeType shape, const Contour &points, const Box &tile) { add_contour_in_tile<Contour>(shape, points, tile); }

    /* The contours of a shape that were added, as far as tiles have them. */
    std::vector<Contour> given(ShapeType shape)
    {
        detail::check(fadrinzo_given(handle(), static_cast<int>(shape)));
        return all_contours();
    }

    /* Adds a polygon of rings that run either way, the outer boundary first: a shape of a result, or other rings of points. */
    template <class Rings, std::enable_if_t<detail::is_rings<Rings>, int> = 0> void add_polygon(ShapeType shape, const Rings &rings)
    {
        detail::Numbers given(rings);
        detail::check(fadrinzo_add_polygon(handle(), static_cast<int>(shape), given.xy.data(), given.lengths.data(), given.lengths.size()));
    }
    template <class Rings, std::enable_if_t<!detail::is_rings<Rings>, int> = 0> void add_polygon(ShapeType, const Rings &) = delete;
    void add_polygon(ShapeType shape, const Shape &rings) { add_polygon<Shape>(shape, rings); }

    /* The overlay as contours: outer boundaries counterclockwise, holes clockwise. */
    std::vector<Contour> overlay(OverlayRule rule, FillRule fill_rule)
    {
        detail::check(fadrinzo_overlay(handle(), static_cast<int>(rule), static_cast<int>(fill_rule)));
        return all_contours();
    }

    /* The overlay as shapes. */
    std::vector<Shape> overlay_shapes(OverlayRule rule, FillRule fill_rule)
    {
        detail::check(fadrinzo_overlay_shapes(handle(), static_cast<int>(rule), static_cast<int>(fill_rule)));
        return detail::parts(result());
    }

    /* For each rule the contours of its overlay, of one split. */
    std::vector<std::vector<Contour>> overlay_by_rules(const std::vector<OverlayRule> &rules, FillRule fill_rule)
    {
        std::vector<int> codes;
        for (OverlayRule rule : rules)
            codes.push_back(static_cast<int>(rule));
        detail::check(fadrinzo_overlay_by_rules(handle(), codes.data(), codes.size(), static_cast<int>(fill_rule)));
        return detail::parts(result());
    }

    /* Splits and sweeps the contours for `arranged` and `arranged_shapes`, which need no further split. */
    void arrange(FillRule fill_rule) { detail::check(fadrinzo_arrange(handle(), static_cast<int>(fill_rule))); }

    /* The overlay of the contours as they were arranged last, as contours. */
    std::vector<Contour> arranged(OverlayRule rule, Collinear collinear = Collinear::Keep)
    {
        detail::check(fadrinzo_arranged(handle(), static_cast<int>(rule), collinear == Collinear::Drop));
        return all_contours();
    }

    /* The same as shapes. */
    std::vector<Shape> arranged_shapes(OverlayRule rule, Collinear collinear = Collinear::Keep)
    {
        detail::check(fadrinzo_arranged_shapes(handle(), static_cast<int>(rule), collinear == Collinear::Drop));
        return detail::parts(result());
    }

    /* How far the last overlay moved edges at most, in x and in y, in halves of a unit: 0 or 1. */
    std::uint64_t reach() const { return result().reach; }

    /* Where a point lies with respect to the contours of a shape. */
    PointLocation locate(ShapeType shape, FillRule fill_rule, Point point) const
    {
        fadrinzo_location found = fadrinzo_locate(handle(), static_cast<int>(shape), static_cast<int>(fill_rule), point.x(), point.y());
        if (found == FADRINZO_LOCATION_BAD_ARGUMENT)
            throw Error(FADRINZO_BAD_ARGUMENT);
        return static_cast<PointLocation>(found);
    }

    /* Whether a relation holds between the subject and the clip, exactly. Error, with FADRINZO_SUBJECT_NOT_EXACT or FADRINZO_CLIP_NOT_EXACT, if two
       edges of one shape cross at a point without integer coordinates. */
    bool relation(Relation relation, FillRule fill_rule) const
    {
        int holds = 0;
        detail::check(fadrinzo_relation(handle(), static_cast<int>(relation), static_cast<int>(fill_rule), &holds));
        return holds != 0;
    }

    /* Which parts of the subject meet which parts of the clip: nine letters, row by row, T if some point is in both parts, else F. */
    std::string relate(FillRule fill_rule) const
    {
        char letters[10];
        detail::check(fadrinzo_relate(handle(), static_cast<int>(fill_rule), letters));
        return letters;
    }

    /* Prepares the region of the subject that was added for relations to others, and returns its number. It is kept with the overlay. */
    std::size_t add_region(FillRule fill_rule)
    {
        std::size_t number = 0;
        detail::check(fadrinzo_add_region(handle(), static_cast<int>(fill_rule), &number));
        return number;
    }

    /* Whether a relation holds between two regions, by their numbers. Error, with FADRINZO_BAD_ARGUMENT, if there is no such region. */
    bool region_relation(std::size_t first, std::size_t second, Relation relation) const
    {
        int holds = 0;
        detail::check(fadrinzo_region_relation(handle(), first, second, static_cast<int>(relation), &holds));
        return holds != 0;
    }

    /* Which parts of two regions meet, by their numbers, as relate returns it. */
    std::string region_relate(std::size_t first, std::size_t second) const
    {
        char letters[10];
        detail::check(fadrinzo_region_relate(handle(), first, second, letters));
        return letters;
    }

    /* Splits segments into a planar arrangement, by their ends in x and then in y. Contours and the result stay. */
    std::vector<Edge> split(const std::vector<Edge> &edges, Rounding rounding = Rounding::SnapRounding)
    {
        std::vector<fadrinzo_edge> given;
        given.reserve(edges.size());
        for (const Edge &it : edges)
            given.push_back({it.a.x(), it.a.y(), it.b.x(), it.b.y(), it.subject, it.clip});
        detail::check(fadrinzo_split(handle(), given.data(), given.size(), static_cast<int>(rounding)));
        fadrinzo_edges found = fadrinzo_get_edges(handle());
        std::vector<Edge> made;
        made.reserve(found.count);
        for (std::size_t i = 0; i < found.count; i++) {
            const fadrinzo_edge &it = found.edges[i];
            made.push_back({{it.ax, it.ay}, {it.bx, it.by}, it.subject, it.clip});
        }
        return made;
    }

    /* The parts of lines that a clip rule keeps, inside the contours of the subject or outside, line by line and in order along them. A line is
       a list of points, each joined to the next one. Contours and the result stay. */
    template <class Lines, std::enable_if_t<detail::is_rings<Lines>, int> = 0>
    std::vector<LinePart> clip_lines(const Lines &lines, ClipRule clip_rule, FillRule fill_rule, Rounding rounding = Rounding::SnapRounding)
    {
        detail::Numbers given(lines);
        detail::check(fadrinzo_clip_lines(handle(), given.xy.data(), given.lengths.data(), given.lengths.size(), clip_rule.invert,
                                          clip_rule.boundary_included, static_cast<int>(fill_rule), static_cast<int>(rounding)));
        fadrinzo_parts found = fadrinzo_get_parts(handle());
        std::vector<LinePart> made;
        made.reserve(found.count);
        for (std::size_t i = 0; i < found.count; i++)
            made.push_back({found.lines[i], detail::points(found.xy, found.starts[i], found.starts[i + 1])});
        return made;
    }
    template <class Lines, std::enable_if_t<!detail::is_rings<Lines>, int> = 0>
    std::vector<LinePart> clip_lines(const Lines &, ClipRule, FillRule, Rounding = Rounding::SnapRounding) = delete;
    std::vector<LinePart> clip_lines(const std::vector<std::vector<Point>> &lines, ClipRule clip_rule, FillRule fill_rule,
                                     Rounding rounding = Rounding::SnapRounding)
    {
        return clip_lines<std::vector<std::vector<Point>>>(lines, clip_rule, fill_rule, rounding);
    }

    /* The result of the last overlay in the memory of the library, without a copy. */
    fadrinzo_result result() const { return fadrinzo_get(handle()); }

    /* The overlay for calls of C, which stays with this one. */
    fadrinzo_handle *handle() const noexcept { return handle_.get(); }

private:
    struct Free {
        void operator()(fadrinzo_handle *handle) const noexcept { fadrinzo_free(handle); }
    };

    std::vector<Contour> all_contours() const
    {
        fadrinzo_result found = result();
        return detail::contours(found, 0, found.contours);
    }

    std::unique_ptr<fadrinzo_handle, Free> handle_;
};

}

#endif
