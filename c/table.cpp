/* What each call of fadrinzo.hpp makes of squares whose areas are found by hand, and what it refuses: at run time by an exception, and by the
   compiler. Prints the first difference, and ends with 1. */
#include "fadrinzo.hpp"

#include <array>
#include <cstdio>
#include <cstdlib>

using namespace fadrinzo;

#define CHECK(...) \
    do { \
        if (!(__VA_ARGS__)) { \
            std::printf("%s:%d: %s\n", __FILE__, __LINE__, #__VA_ARGS__); \
            std::exit(1); \
        } \
    } while (0)

namespace {

/* Points of callers. */
struct Whole {
    short x, y;
};
struct Wide {
    std::int64_t x, y;
};
struct HalfWide {
    std::int32_t x;
    std::int64_t y;
};

/* Whether the compiler takes a call. */
template <class T, class = void> constexpr bool takes_contour = false;
template <class T>
constexpr bool takes_contour<T, std::void_t<decltype(std::declval<Overlay &>().add_contour(ShapeType::Clip, std::declval<T>()))>> = true;
template <class T, class = void> constexpr bool takes_contours = false;
template <class T>
constexpr bool takes_contours<T, std::void_t<decltype(std::declval<Overlay &>().add_contours(ShapeType::Clip, std::declval<T>()))>> = true;
template <class T, class = void> constexpr bool takes_polygon = false;
template <class T>
constexpr bool takes_polygon<T, std::void_t<decltype(std::declval<Overlay &>().add_polygon(ShapeType::Clip, std::declval<T>()))>> = true;
template <class T, class = void> constexpr bool takes_lines = false;
template <class T>
constexpr bool takes_lines<T, std::void_t<decltype(std::declval<Overlay &>().clip_lines(std::declval<T>(), ClipRule(), FillRule::NonZero))>> = true;
template <class T, class = void> constexpr bool takes_numbers = false;
template <class T>
constexpr bool takes_numbers<T, std::void_t<decltype(std::declval<Overlay &>().add_contour(ShapeType::Clip, std::declval<T *>(), 4))>> = true;

/* What the compiler takes, and what it refuses: coordinates of wider types, points of more than two, and copies. */
void check_types()
{
    CHECK(takes_numbers<std::int32_t> && takes_numbers<const std::int32_t>);
    CHECK(!takes_numbers<const std::int64_t> && !takes_numbers<const std::uint32_t> && !takes_numbers<const double> && !takes_numbers<const short>);
    CHECK(takes_contour<Contour> && takes_contour<std::vector<Whole>> && takes_contour<std::array<std::pair<int, short>, 3>>);
    CHECK(takes_contour<std::vector<std::array<std::int32_t, 2>>> && takes_contour<const Point (&)[3]>);
    CHECK(!takes_contour<std::vector<Wide>> && !takes_contour<std::vector<HalfWide>> && !takes_contour<std::vector<std::pair<int, std::int64_t>>>);
    CHECK(!takes_contour<std::vector<std::array<std::int64_t, 2>>> && !takes_contour<std::vector<std::array<std::uint32_t, 2>>>);
    CHECK(!takes_contour<std::vector<std::array<double, 2>>> && !takes_contour<std::vector<std::array<std::int32_t, 3>>>);
    CHECK(!takes_contour<std::vector<std::int32_t>> && !takes_contour<Shape>);
    CHECK(takes_contours<Shape> && takes_contours<std::vector<std::vector<Whole>>> && !takes_contours<std::vector<std::vector<Wide>>>);
    CHECK(takes_polygon<Shape> && takes_polygon<std::vector<std::vector<Whole>>> && !takes_polygon<std::vector<std::vector<Wide>>>);
    CHECK(std::is_constructible_v<Point, int, short> && !std::is_constructible_v<Point, std::int64_t, int>);
    CHECK(!std::is_constructible_v<Point, int, std::int64_t> && !std::is_constructible_v<Point, unsigned, int>);
    CHECK(!std::is_constructible_v<Point, int, double> && !std::is_constructible_v<Point, bool, bool>);
    CHECK(!std::is_copy_constructible_v<Overlay> && !std::is_copy_assignable_v<Overlay>);
    CHECK(std::is_nothrow_move_constructible_v<Overlay> && std::is_nothrow_move_assignable_v<Overlay>);
}

/* The corners of a rectangle, counterclockwise. */
Contour rectangle(std::int32_t left, std::int32_t bottom, std::int32_t right, std::int32_t top)
{
    return {{left, bottom}, {right, bottom}, {right, top}, {left, top}};
}

Contour reversed(const Contour &contour)
{
    return Contour(contour.rbegin(), contour.rend());
}

/* The area of contours, in half units; less than 0 for those that run clockwise. */
std::int64_t doubled_area(const std::vector<Contour> &contours)
{
    std::int64_t sum = 0;
    for (const Contour &contour : contours)
        for (std::size_t i = 0; i < contour.size(); i++) {
            const Point a = contour[i], b = contour[(i + 1) % contour.size()];
            sum += std::int64_t{a.x()} * b.y() - std::int64_t{a.y()} * b.x();
        }
    return sum;
}

std::int64_t doubled_area(const std::vector<Shape> &shapes)
{
    std::int64_t sum = 0;
    for (const Shape &shape : shapes)
        sum += doubled_area(shape);
    return sum;
}

/* A square of 5 by 5 and a rectangle of 4 by 3, which share a square of 2 by 2: 21 in the subject alone, 8 in the clip alone, 4 in both. */
Overlay two_squares()
{
    Overlay overlay;
    overlay.add_contour(ShapeType::Subject, rectangle(0, 0, 5, 5));
    overlay.add_contour(ShapeType::Clip, rectangle(3, 3, 7, 6));
    return overlay;
}

struct RuleOfArea {
    OverlayRule rule;
    std::int64_t area;
};

void check_rules()
{
    const std::vector<RuleOfArea> rules = {
        {OverlayRule::Subject, 25}, {OverlayRule::Clip, 12}, {OverlayRule::Intersect, 4}, {OverlayRule::Union, 33},
        {OverlayRule::Difference, 21}, {OverlayRule::InverseDifference, 8}, {OverlayRule::Xor, 29},
    };
    Overlay overlay = two_squares();
    std::vector<OverlayRule> all;
    for (const auto &[rule, area] : rules) {
        CHECK(doubled_area(overlay.overlay(rule, FillRule::NonZero)) == 2 * area);
        CHECK(doubled_area(overlay.overlay_shapes(rule, FillRule::NonZero)) == 2 * area);
        all.push_back(rule);
    }
    const auto found = overlay.overlay_by_rules(all, FillRule::NonZero);
    CHECK(found.size() == rules.size());
    for (std::size_t i = 0; i < rules.size(); i++)
        CHECK(doubled_area(found[i]) == 2 * rules[i].area);
    overlay.arrange(FillRule::NonZero);
    for (const auto &[rule, area] : rules) {
        CHECK(doubled_area(overlay.arranged(rule)) == 2 * area);
        CHECK(doubled_area(overlay.arranged_shapes(rule, Collinear::Drop)) == 2 * area);
    }
}

/* Contours of a rule that keeps the points outside run clockwise along those that it drops. */
void check_tables()
{
    Overlay overlay = two_squares();
    for (int bits = 0; bits < 16; bits++) {
        const bool neither = bits & 1, subject = bits & 2, clip = bits & 4, both = bits & 8;
        const std::int64_t area = 21 * (subject - neither) + 8 * (clip - neither) + 4 * (both - neither);
        CHECK(doubled_area(overlay.overlay(table(neither, subject, clip, both), FillRule::NonZero)) == 2 * area);
    }
}

/* Squares apart: 16 on which two contours wind twice, 9 on which one winds -1 times, and 4 on which one winds once. */
void check_fill_rules()
{
    const std::pair<FillRule, std::int64_t> areas[] = {
        {FillRule::EvenOdd, 9 + 4}, {FillRule::NonZero, 16 + 9 + 4}, {FillRule::Positive, 16 + 4}, {FillRule::Negative, 9}};
    Overlay overlay;
    overlay.add_contours(ShapeType::Subject, {rectangle(0, 0, 4, 4), rectangle(0, 0, 4, 4), reversed(rectangle(10, 0, 13, 3)), rectangle(20, 0, 22, 2)});
    for (const auto &[fill_rule, area] : areas) {
        CHECK(doubled_area(overlay.overlay(OverlayRule::Union, fill_rule)) == 2 * area);
        CHECK(doubled_area(overlay.overlay_shapes(OverlayRule::Union, fill_rule)) == 2 * area);
        overlay.arrange(fill_rule);
        CHECK(doubled_area(overlay.arranged(OverlayRule::Union)) == 2 * area);
        CHECK((overlay.locate(ShapeType::Subject, fill_rule, {1, 1}) == PointLocation::Inside) == (fill_rule == FillRule::NonZero || fill_rule == FillRule::Positive));
        CHECK((overlay.locate(ShapeType::Subject, fill_rule, {11, 1}) == PointLocation::Inside) == (fill_rule != FillRule::Positive));
    }
}

/* A frame of 64 with a window of 16, and an island of 4 in that; then the result as polygons of another overlay, whose rings run either way. */
void check_shapes()
{
    Overlay overlay;
    overlay.add_contour(ShapeType::Subject, rectangle(0, 0, 8, 8));
    overlay.add_contour(ShapeType::Subject, reversed(rectangle(2, 2, 6, 6)));
    overlay.add_contour(ShapeType::Clip, rectangle(3, 3, 5, 5));
    const auto shapes = overlay.overlay_shapes(OverlayRule::Union, FillRule::NonZero);
    CHECK(shapes.size() == 2 && shapes[0].size() + shapes[1].size() == 3);
    const Shape &frame = shapes[shapes[0].size() == 2 ? 0 : 1], &island = shapes[shapes[0].size() == 2 ? 1 : 0];
    CHECK(frame.size() == 2 && frame[0].size() == 4 && frame[1].size() == 4 && island.size() == 1 && island[0].size() == 4);
    CHECK(doubled_area({frame[0]}) == 128 && doubled_area({frame[1]}) == -32 && doubled_area({island[0]}) == 8);

    Overlay next;
    next.add_polygon(ShapeType::Subject, frame);
    next.add_polygon(ShapeType::Clip, Shape{reversed(rectangle(0, 0, 4, 8)), rectangle(1, 1, 2, 2)});
    // of the frame lie 32 in the left half without 8 of the window and 1 of the hole
    CHECK(doubled_area(next.overlay(OverlayRule::Intersect, FillRule::NonZero)) == 2 * (32 - 8 - 1));
    CHECK(doubled_area(next.overlay(OverlayRule::Subject, FillRule::Positive)) == 2 * 48);
    CHECK(doubled_area(next.overlay(OverlayRule::Clip, FillRule::Positive)) == 2 * 31);
    next.clear();
    CHECK(next.overlay(OverlayRule::Union, FillRule::NonZero).empty());
}

/* Points of other types, each a triangle of 8. */
void check_points()
{
    const std::int32_t numbers[] = {0, 0, 4, 0, 0, 4};
    const Point points[] = {{0, 0}, {4, 0}, {0, 4}};
    const std::vector<Whole> whole = {{0, 0}, {4, 0}, {0, 4}};
    const std::array<std::pair<short, int>, 3> pairs = {{{short{0}, 0}, {short{4}, 0}, {short{0}, 4}}};
    const std::vector<std::array<std::int32_t, 2>> arrays = {{0, 0}, {4, 0}, {0, 4}};
    const auto area_of = [](auto add) {
        Overlay overlay;
        add(overlay);
        CHECK(overlay.overlay(OverlayRule::Clip, FillRule::NonZero).empty());
        return doubled_area(overlay.overlay(OverlayRule::Subject, FillRule::Positive));
    };
    CHECK(area_of([&](Overlay &it) { it.add_contour(ShapeType::Subject, numbers, 3); }) == 16);
    CHECK(area_of([&](Overlay &it) { it.add_contour(ShapeType::Subject, points); }) == 16);
    CHECK(area_of([&](Overlay &it) { it.add_contour(ShapeType::Subject, {{0, 0}, {4, 0}, {0, 4}}); }) == 16);
    CHECK(area_of([&](Overlay &it) { it.add_contour(ShapeType::Subject, whole); }) == 16);
    CHECK(area_of([&](Overlay &it) { it.add_contour(ShapeType::Subject, pairs); }) == 16);
    CHECK(area_of([&](Overlay &it) { it.add_contour(ShapeType::Subject, arrays); }) == 16);
    CHECK(area_of([&](Overlay &it) { it.add_contours(ShapeType::Subject, std::array<std::vector<Whole>, 2>{whole, {}}); }) == 16);
    CHECK(area_of([&](Overlay &it) { it.add_polygon(ShapeType::Subject, std::vector<std::vector<Whole>>{whole}); }) == 16);
    CHECK(area_of([&](Overlay &it) { it.add_contour(ShapeType::Subject, Contour()); }) == 0);
    CHECK((Point{1, 2} == Point{1, 2}) && (Point{1, 2} != Point{2, 1}) && Point().x() == 0);
}

/* Two squares beside one another: the ends of the side that they share are kept or not. And triangles that cross at (12.5, 12.5). */
void check_arrangement()
{
    Overlay overlay;
    overlay.add_contour(ShapeType::Subject, rectangle(0, 0, 4, 4));
    overlay.add_contour(ShapeType::Clip, rectangle(4, 0, 8, 4));
    overlay.arrange(FillRule::NonZero);
    const auto all = overlay.arranged(OverlayRule::Union), corners = overlay.arranged(OverlayRule::Union, Collinear::Drop);
    CHECK(all.size() == 1 && all[0].size() == 6 && corners.size() == 1 && corners[0].size() == 4);
    const auto shape = overlay.arranged_shapes(OverlayRule::Union), plain = overlay.arranged_shapes(OverlayRule::Union, Collinear::Drop);
    CHECK(shape.size() == 1 && shape[0].size() == 1 && shape[0][0].size() == 6 && plain.size() == 1 && plain[0][0].size() == 4);
    CHECK(overlay.reach() == 0 && overlay.result().shapes == 1);
    overlay.clear();
    overlay.add_contour(ShapeType::Subject, {{0, 0}, {25, 25}, {0, 25}});
    overlay.add_contour(ShapeType::Clip, {{0, 25}, {25, 0}, {25, 25}});
    overlay.overlay(OverlayRule::Xor, FillRule::NonZero);
    CHECK(overlay.reach() == 1);
}

void check_location()
{
    const Overlay overlay = two_squares();
    CHECK(overlay.locate(ShapeType::Subject, FillRule::NonZero, {1, 4}) == PointLocation::Inside);
    CHECK(overlay.locate(ShapeType::Subject, FillRule::NonZero, {1, 5}) == PointLocation::OnBoundary);
    CHECK(overlay.locate(ShapeType::Subject, FillRule::NonZero, {1, 6}) == PointLocation::Outside);
    CHECK(overlay.locate(ShapeType::Clip, FillRule::NonZero, {6, 4}) == PointLocation::Inside);
    CHECK(overlay.locate(ShapeType::Clip, FillRule::NonZero, {1, 4}) == PointLocation::Outside);
}

/* A square of 4 by 4 beside others: which relations hold, in the order of their names, and which parts meet. */
void check_relations()
{
    struct Pair {
        Contour clip;
        std::array<bool, 6> holds;
        const char *letters;
    };
    const Pair pairs[] = {
        {rectangle(2, 2, 6, 6), {true, false, false, false, false, false}, "TTTTTTTTT"},
        {rectangle(1, 1, 3, 3), {true, true, false, false, false, false}, "TTTFFTFFT"},
        {rectangle(-1, -1, 5, 5), {true, false, true, false, false, false}, "TFFTFFTTT"},
        {rectangle(0, 0, 4, 4), {true, true, true, true, false, false}, "TFFFTFFFT"},
        {rectangle(4, 4, 6, 6), {false, false, false, false, true, false}, "FFTFTTTTT"},
        {rectangle(5, 5, 6, 6), {false, false, false, false, false, true}, "FFTFFTTTT"},
    };
    const Relation relations[] = {Relation::InteriorsMeet, Relation::Covers, Relation::IsWithin, Relation::SameRegion, Relation::Touch, Relation::Disjoint};
    for (const Pair &pair : pairs) {
        Overlay overlay;
        overlay.add_contour(ShapeType::Subject, rectangle(0, 0, 4, 4));
        overlay.add_contour(ShapeType::Clip, pair.clip);
        for (std::size_t i = 0; i < 6; i++)
            CHECK(overlay.relation(relations[i], FillRule::NonZero) == pair.holds[i]);
        CHECK(overlay.relate(FillRule::NonZero) == pair.letters);
        Overlay regions;
        const Contour contours[] = {rectangle(0, 0, 4, 4), pair.clip};
        for (std::size_t i = 0; i < 2; i++) {
            regions.add_contour(ShapeType::Subject, contours[i]);
            CHECK(regions.add_region(FillRule::NonZero) == i);
            regions.clear();
        }
        for (std::size_t i = 0; i < 6; i++)
            CHECK(regions.region_relation(0, 1, relations[i]) == pair.holds[i]);
        CHECK(regions.region_relate(0, 1) == pair.letters);
        // under Negative nothing is inside contours that run counterclockwise
        CHECK(!overlay.relation(Relation::InteriorsMeet, FillRule::Negative) && overlay.relation(Relation::SameRegion, FillRule::Negative));
    }
}

/* The diagonals of a square are cut at its middle; a segment that is given twice is one, with the sum of its counts. */
void check_split()
{
    Overlay overlay;
    for (Rounding rounding : {Rounding::SnapRounding, Rounding::Pairwise}) {
        const auto found = overlay.split({{{0, 0}, {4, 4}}, {{4, 0}, {0, 4}, 0, 3}, {{0, 0}, {4, 4}, 2, 0}}, rounding);
        const Edge wanted[] = {{{0, 0}, {2, 2}, 3, 0}, {{0, 4}, {2, 2}, 0, -3}, {{2, 2}, {4, 0}, 0, -3}, {{2, 2}, {4, 4}, 3, 0}};
        CHECK(found.size() == 4);
        for (std::size_t i = 0; i < 4; i++)
            CHECK(found[i].a == wanted[i].a && found[i].b == wanted[i].b && found[i].subject == wanted[i].subject && found[i].clip == wanted[i].clip);
    }
    CHECK(overlay.split({}).empty());
}

/* Lines through a square of ten by ten, in the direction of each: points of any type, and parts with the numbers of their lines. */
void check_clip_lines()
{
    Overlay overlay;
    overlay.add_contour(ShapeType::Subject, rectangle(0, 0, 10, 10));
    const std::vector<std::vector<Point>> lines = {{{20, 5}, {-5, 5}}, {{1, 1}}, {{2, 2}, {4, 2}, {4, 30}}};
    for (Rounding rounding : {Rounding::SnapRounding, Rounding::Pairwise}) {
        const auto inside = overlay.clip_lines(lines, {}, FillRule::NonZero, rounding);
        CHECK(inside.size() == 2 && inside[0].line == 0 && inside[1].line == 2);
        CHECK(inside[0].points == std::vector<Point>{{10, 5}, {0, 5}} && inside[1].points == std::vector<Point>{{2, 2}, {4, 2}, {4, 10}});
    }
    const auto outside = overlay.clip_lines(lines, ClipRule{true, false}, FillRule::NonZero);
    CHECK(outside.size() == 3 && outside[1].line == 0 && outside[1].points == std::vector<Point>{{0, 5}, {-5, 5}});
    CHECK(outside[2].line == 2 && outside[2].points == std::vector<Point>{{4, 10}, {4, 30}});
    const std::vector<std::vector<Whole>> along = {{{0, 2}, {0, 8}}};
    CHECK(overlay.clip_lines(along, {}, FillRule::NonZero).empty() && overlay.clip_lines(along, {false, true}, FillRule::NonZero).size() == 1);
    CHECK(overlay.clip_lines({{{0, 2}, {0, 8}}}, {true, false}, FillRule::NonZero).size() == 1);
    CHECK(overlay.clip_lines(along, {true, true}, FillRule::NonZero).empty() && overlay.clip_lines({}, {}, FillRule::NonZero).empty());
    CHECK(!takes_lines<std::vector<std::vector<Wide>>> && takes_lines<std::vector<std::vector<Whole>>>);
}

/* The status of what a call throws, with its sentence. */
template <class Call> int status_of(Call call)
{
    try {
        call();
    } catch (const Error &error) {
        CHECK(error.what() == std::string(fadrinzo_text(error.status())));
        CHECK(error.status() != FADRINZO_NO_MEMORY);
        return error.status();
    } catch (const std::bad_alloc &error) {
        CHECK(error.what() == std::string(fadrinzo_text(FADRINZO_NO_MEMORY)));
        return FADRINZO_NO_MEMORY;
    }
    return FADRINZO_OK;
}

void check_refusals()
{
    Overlay overlay = two_squares();
    const FillRule fill_rule = FillRule::NonZero;
    CHECK(status_of([&] { overlay.add_contour(ShapeType::Clip, {{0, 0}, {1, 0}, {0, FADRINZO_MAX_COORD + 1}}); }) == FADRINZO_POINT_OUT_OF_RANGE);
    CHECK(status_of([&] { overlay.add_contours(ShapeType::Clip, {rectangle(0, 0, 9, 9), rectangle(0, 0, 9, FADRINZO_MAX_COORD + 1)}); }) == FADRINZO_POINT_OUT_OF_RANGE);
    CHECK(status_of([&] { overlay.add_polygon(ShapeType::Clip, Shape{{{0, 0}, {1, 0}, {FADRINZO_MIN_COORD - 1, 1}}}); }) == FADRINZO_POINT_OUT_OF_RANGE);
    CHECK(status_of([&] { overlay.add_contour(static_cast<ShapeType>(9), Contour()); }) == FADRINZO_BAD_ARGUMENT);
    CHECK(status_of([&] { overlay.overlay(static_cast<OverlayRule>(99), fill_rule); }) == FADRINZO_BAD_ARGUMENT);
    CHECK(status_of([&] { overlay.overlay_shapes(OverlayRule::Union, static_cast<FillRule>(66)); }) == FADRINZO_BAD_ARGUMENT);
    CHECK(status_of([&] { overlay.overlay_by_rules({OverlayRule::Union, static_cast<OverlayRule>(99)}, fill_rule); }) == FADRINZO_BAD_ARGUMENT);
    CHECK(status_of([&] { overlay.arranged(OverlayRule::Union); }) == FADRINZO_BAD_ARGUMENT);
    CHECK(status_of([&] { overlay.arranged_shapes(OverlayRule::Union); }) == FADRINZO_BAD_ARGUMENT);
    CHECK(status_of([&] { overlay.arrange(static_cast<FillRule>(66)); }) == FADRINZO_BAD_ARGUMENT);
    CHECK(status_of([&] { overlay.locate(ShapeType::Clip, static_cast<FillRule>(66), {1, 1}); }) == FADRINZO_BAD_ARGUMENT);
    CHECK(status_of([&] { overlay.relation(static_cast<Relation>(66), fill_rule); }) == FADRINZO_BAD_ARGUMENT);
    CHECK(status_of([&] { overlay.relate(static_cast<FillRule>(66)); }) == FADRINZO_BAD_ARGUMENT);
    CHECK(status_of([&] { overlay.add_region(static_cast<FillRule>(66)); }) == FADRINZO_BAD_ARGUMENT);
    CHECK(status_of([&] { overlay.region_relation(0, 0, Relation::Touch); }) == FADRINZO_BAD_ARGUMENT);
    CHECK(status_of([&] { overlay.region_relate(0, 0); }) == FADRINZO_BAD_ARGUMENT);
    CHECK(status_of([&] { overlay.split({{{1, 1}, {1, 1}}}); }) == FADRINZO_BAD_ARGUMENT);
    CHECK(status_of([&] { overlay.clip_lines({{{1, 1}, {1, FADRINZO_MAX_COORD + 1}}}, {}, fill_rule); }) == FADRINZO_POINT_OUT_OF_RANGE);
    CHECK(status_of([&] { overlay.clip_lines({}, {}, fill_rule, static_cast<Rounding>(9)); }) == FADRINZO_BAD_ARGUMENT);
    CHECK(status_of([] { detail::check(FADRINZO_NO_MEMORY); }) == FADRINZO_NO_MEMORY);
    CHECK(status_of([] { detail::check(FADRINZO_OK); }) == FADRINZO_OK);
    // what was refused has changed nothing
    CHECK(doubled_area(overlay.overlay(OverlayRule::Union, fill_rule)) == 66);
    // a bow tie whose edges cross at (0.5, 0.5)
    overlay.add_contour(ShapeType::Clip, {{0, 0}, {1, 1}, {1, 0}, {0, 1}});
    CHECK(status_of([&] { overlay.relation(Relation::Covers, fill_rule); }) == FADRINZO_CLIP_NOT_EXACT);
    CHECK(status_of([&] { overlay.relate(fill_rule); }) == FADRINZO_CLIP_NOT_EXACT);
}

void check_tile()
{
    Overlay overlay;
    overlay.add_contour_in_tile(ShapeType::Subject, rectangle(0, 0, 6, 6), {4, 2, 9, 5});
    overlay.add_contour_in_tile(ShapeType::Clip, {{10, 0}, {12, 0}, {12, 9}}, {4, 2, 9, 5});
    CHECK(doubled_area(overlay.given(ShapeType::Subject)) == 2 * 2 * 3 && overlay.given(ShapeType::Clip).empty());
    CHECK(doubled_area(overlay.overlay(OverlayRule::Xor, FillRule::NonZero)) == 2 * 2 * 3);
    CHECK(status_of([&] { overlay.add_contour_in_tile(ShapeType::Subject, rectangle(0, 0, 6, 6), {4, 2, 4, 5}); }) == FADRINZO_BAD_ARGUMENT);
}

void check_moves()
{
    Overlay first = two_squares();
    Overlay second = std::move(first);
    CHECK(first.handle() == nullptr && first.result().points == 0);
    CHECK(status_of([&] { first.overlay(OverlayRule::Union, FillRule::NonZero); }) == FADRINZO_BAD_ARGUMENT);
    CHECK(status_of([&] { first.locate(ShapeType::Clip, FillRule::NonZero, {1, 1}); }) == FADRINZO_BAD_ARGUMENT);
    CHECK(doubled_area(second.overlay(OverlayRule::Union, FillRule::NonZero)) == 66);
    second = Overlay();
    CHECK(second.overlay(OverlayRule::Union, FillRule::NonZero).empty());
    std::vector<Overlay> many;
    for (int i = 0; i < 10; i++)
        many.push_back(two_squares());
    for (Overlay &it : many)
        CHECK(doubled_area(it.overlay(OverlayRule::Intersect, FillRule::NonZero)) == 8);
}

}

int main()
{
    check_types();
    check_rules();
    check_tables();
    check_fill_rules();
    check_shapes();
    check_points();
    check_arrangement();
    check_location();
    check_relations();
    check_split();
    check_clip_lines();
    check_refusals();
    check_tile();
    check_moves();
    return 0;
}
