/* One table of all rules, truth tables, fill rules and refusals, over two inputs. What a call has to make is found from definitions: how
   often contours wind around the middle of each unit square, which windings a fill rule counts as inside, and what a rule says of
   inside and outside. Prints the first difference, and ends with 1. */
#include "fadrinzo.h"

#include <stdio.h>
#include <stdlib.h>
#include <string.h>

#define CHECK(condition, ...) \
    do { \
        if (!(condition)) { \
            printf("%s:%d: %s: ", __FILE__, __LINE__, #condition); \
            printf(__VA_ARGS__); \
            puts(""); \
            exit(1); \
        } \
    } while (0)

enum { POINTS = 4, CONTOURS = 4, SPAN = 24, NAMED = 7, TABLES = 16, RULES = NAMED + TABLES, FILLS = 4, RELATIONS = 6 };

/* A contour of a shape; of so many points. */
typedef struct {
    int shape;
    size_t points;
    int32_t xy[2 * POINTS];
} contour;

/* Contours that wind -1, 0, 1 and 2 times for the subject, and for the clip, in all pairs of signs; they cross at whole points. */
static const contour squares[CONTOURS + 2] = {
    {FADRINZO_SUBJECT, 4, {0, 0, 12, 0, 12, 12, 0, 12}},
    {FADRINZO_SUBJECT, 4, {2, 2, 10, 2, 10, 10, 2, 10}},
    {FADRINZO_SUBJECT, 4, {8, 6, 8, 20, 20, 20, 20, 6}},
    {FADRINZO_CLIP, 4, {4, 1, 18, 1, 18, 9, 4, 9}},
    {FADRINZO_CLIP, 4, {6, 3, 15, 3, 15, 8, 6, 8}},
    {FADRINZO_CLIP, 4, {1, 5, 1, 17, 14, 17, 14, 5}},
};

/* Two triangles whose edges cross at (12.5, 12.5), which snap rounding moves by half a unit. */
static const contour triangles[2] = {
    {FADRINZO_SUBJECT, 3, {0, 0, 25, 25, 0, 25}},
    {FADRINZO_CLIP, 3, {0, 25, 25, 0, 25, 25}},
};

/* How often a contour winds around (x + 1/2, y + 1/2), which lies on none of its steps. */
static int winding(const int32_t *xy, size_t points, int x, int y)
{
    int sum = 0;
    for (size_t i = 0; i < points; i++) {
        size_t next = (i + 1) % points;
        int64_t ax = 2 * xy[2 * i] - (2 * x + 1), ay = 2 * xy[2 * i + 1] - (2 * y + 1);
        int64_t bx = 2 * xy[2 * next] - (2 * x + 1), by = 2 * xy[2 * next + 1] - (2 * y + 1);
        int64_t turn = ax * by - ay * bx;
        sum += (ay <= 0 && by > 0 && turn > 0) - (by <= 0 && ay > 0 && turn < 0);
    }
    return sum;
}

static int is_inside(int fill_rule, int winds)
{
    switch (fill_rule) {
    case FADRINZO_FILL_EVEN_ODD: return winds % 2 != 0;
    case FADRINZO_FILL_NON_ZERO: return winds != 0;
    case FADRINZO_FILL_POSITIVE: return winds > 0;
    default: return winds < 0;
    }
}

/* What the rule at an index says of a point inside the subject or not, and inside the clip or not. */
static int holds(int index, int s, int c)
{
    switch (index) {
    case 0: return s;
    case 1: return c;
    case 2: return s && c;
    case 3: return s || c;
    case 4: return s && !c;
    case 5: return c && !s;
    case 6: return s != c;
    default: return (index - NAMED) / (1 << (s + 2 * c)) % 2;
    }
}

static int code_of(int index)
{
    static const int named[NAMED] = {
        FADRINZO_RULE_SUBJECT, FADRINZO_RULE_CLIP, FADRINZO_RULE_INTERSECT, FADRINZO_RULE_UNION,
        FADRINZO_RULE_DIFFERENCE, FADRINZO_RULE_INVERSE_DIFFERENCE, FADRINZO_RULE_XOR,
    };
    return index < NAMED ? named[index] : FADRINZO_RULE_TABLE + index - NAMED;
}

/* Whether a unit square has no point of a given edge within half a unit of its middle: so in the squares, and in the triangles but
   along their slanted edges. */
static int is_far(int is_exact, int x, int y)
{
    return is_exact || (abs(x - y) > 1 && abs(x + y - 24) > 1);
}

static const contour *given;
static size_t given_count;
static int given_is_exact;

static int winding_of_given(int shape, int x, int y)
{
    int sum = 0;
    for (size_t i = 0; i < given_count; i++)
        sum += given[i].shape == shape ? winding(given[i].xy, given[i].points, x, y) : 0;
    return sum;
}

/* Fails where contours from one to before another do not wind as the rule at an index says, once more or less for those that hold outside. */
static void check_contours(fadrinzo_result found, size_t first, size_t end, int index, int fill_rule, const char *call)
{
    int outside = holds(index, 0, 0);
    for (int x = -2; x < SPAN + 2; x++)
        for (int y = -2; y < SPAN + 2; y++) {
            if (!is_far(given_is_exact, x, y))
                continue;
            int s = is_inside(fill_rule, winding_of_given(FADRINZO_SUBJECT, x, y));
            int c = is_inside(fill_rule, winding_of_given(FADRINZO_CLIP, x, y));
            int winds = 0;
            for (size_t i = first; i < end; i++)
                winds += winding(found.xy + 2 * found.contour_starts[i], found.contour_starts[i + 1] - found.contour_starts[i], x, y);
            CHECK(winds == holds(index, s, c) - outside, "%s, rule %d, fill %d, at %d %d: %d", call, index, fill_rule, x, y, winds);
        }
}

/* Twice the area of a contour. */
static int64_t doubled_area(fadrinzo_result found, size_t i)
{
    const int32_t *xy = found.xy + 2 * found.contour_starts[i];
    size_t points = found.contour_starts[i + 1] - found.contour_starts[i];
    int64_t sum = 0;
    for (size_t k = 0; k < points; k++) {
        size_t next = (k + 1) % points;
        sum += (int64_t)xy[2 * k] * xy[2 * next + 1] - (int64_t)xy[2 * k + 1] * xy[2 * next];
    }
    return sum;
}

/* Of shapes the first contour is the boundary, and the others are holes, which run the other way. */
static void check_shapes(fadrinzo_result found, int index, const char *call)
{
    CHECK(found.shape_starts[found.shapes] == found.contours && found.contour_starts[found.contours] == found.points, "%s, rule %d", call, index);
    for (size_t shape = 0; shape < found.shapes && !holds(index, 0, 0); shape++)
        for (size_t i = found.shape_starts[shape]; i < found.shape_starts[shape + 1]; i++)
            CHECK((doubled_area(found, i) > 0) == (i == found.shape_starts[shape]), "%s, rule %d, shape %zu", call, index, shape);
}

/* Whether a contour goes straight on at a point. */
static int has_collinear(fadrinzo_result found)
{
    for (size_t i = 0; i < found.contours; i++) {
        const int32_t *xy = found.xy + 2 * found.contour_starts[i];
        size_t points = found.contour_starts[i + 1] - found.contour_starts[i];
        for (size_t k = 0; k < points; k++) {
            const int32_t *a = xy + 2 * k, *b = xy + 2 * ((k + 1) % points), *c = xy + 2 * ((k + 2) % points);
            if ((int64_t)(b[0] - a[0]) * (c[1] - b[1]) == (int64_t)(b[1] - a[1]) * (c[0] - b[0]))
                return 1;
        }
    }
    return 0;
}

static void check_result(fadrinzo *overlay, int index, int fill_rule, uint64_t reach, const char *call)
{
    fadrinzo_result found = fadrinzo_get(overlay);
    check_contours(found, 0, found.contours, index, fill_rule, call);
    CHECK(found.reach == reach, "%s, rule %d: reach %d", call, index, (int)found.reach);
}

/* All calls by the rule at an index. */
static void check_rule(fadrinzo *overlay, int index, int fill_rule, uint64_t reach)
{
    int rule = code_of(index);
    CHECK(fadrinzo_overlay(overlay, rule, fill_rule) == FADRINZO_OK, "rule %d", index);
    check_result(overlay, index, fill_rule, reach, "overlay");
    CHECK(fadrinzo_get(overlay).shapes == 0, "rule %d", index);
    CHECK(fadrinzo_overlay_shapes(overlay, rule, fill_rule) == FADRINZO_OK, "rule %d", index);
    check_result(overlay, index, fill_rule, reach, "shapes");
    check_shapes(fadrinzo_get(overlay), index, "shapes");
    for (int corners = 0; corners < 2; corners++) {
        CHECK(fadrinzo_arranged(overlay, rule, corners) == FADRINZO_OK, "rule %d", index);
        check_result(overlay, index, fill_rule, reach, "arranged");
        CHECK(!corners || !has_collinear(fadrinzo_get(overlay)), "rule %d", index);
        CHECK(fadrinzo_arranged_shapes(overlay, rule, corners) == FADRINZO_OK, "rule %d", index);
        check_result(overlay, index, fill_rule, reach, "arranged shapes");
        check_shapes(fadrinzo_get(overlay), index, "arranged shapes");
        CHECK(!corners || !has_collinear(fadrinzo_get(overlay)), "rule %d", index);
    }
}

/* All rules in one call: the contours of each are one shape of the result. */
static void check_by_rules(fadrinzo *overlay, int fill_rule, uint64_t reach)
{
    int rules[RULES];
    for (int index = 0; index < RULES; index++)
        rules[index] = code_of(index);
    CHECK(fadrinzo_overlay_by_rules(overlay, rules, RULES, fill_rule) == FADRINZO_OK, "fill %d", fill_rule);
    fadrinzo_result found = fadrinzo_get(overlay);
    CHECK(found.shapes == RULES && found.reach == reach, "fill %d", fill_rule);
    for (int index = 0; index < RULES; index++)
        check_contours(found, found.shape_starts[index], found.shape_starts[index + 1], index, fill_rule, "by rules");
    CHECK(fadrinzo_overlay_by_rules(overlay, NULL, 0, fill_rule) == FADRINZO_OK, "no rules");
    CHECK(fadrinzo_get(overlay).shapes == 0 && fadrinzo_get(overlay).contours == 0, "no rules");
}

/* A corner of each contour lies on the boundary, its neighbors to the sides as the windings say, as far as these are known. */
static void check_locations(fadrinzo *overlay, int shape, int fill_rule)
{
    for (size_t i = 0; i < given_count; i++) {
        const contour *it = &given[i];
        int expected = it->shape == shape ? FADRINZO_ON_BOUNDARY : -1;
        for (size_t k = 0; k < it->points && expected >= 0; k++)
            CHECK((int)fadrinzo_locate(overlay, shape, fill_rule, it->xy[2 * k], it->xy[2 * k + 1]) == expected, "corner %zu of %zu", k, i);
    }
}

static void add_all(fadrinzo *overlay, const contour *contours, size_t count)
{
    for (size_t i = 0; i < count; i++)
        CHECK(fadrinzo_add_contour(overlay, contours[i].shape, contours[i].xy, contours[i].points) == FADRINZO_OK, "contour %zu", i);
}

static void check_input(const contour *contours, size_t count, int is_exact)
{
    given = contours;
    given_count = count;
    given_is_exact = is_exact;
    uint64_t reach = is_exact ? 0 : 1;
    fadrinzo *overlay = fadrinzo_new();
    CHECK(overlay, "memory");
    add_all(overlay, contours, count);
    for (int fill_rule = 0; fill_rule < FILLS; fill_rule++) {
        CHECK(fadrinzo_arrange(overlay, fill_rule) == FADRINZO_OK, "fill %d", fill_rule);
        for (int index = 0; index < RULES; index++)
            check_rule(overlay, index, fill_rule, reach);
        check_by_rules(overlay, fill_rule, reach);
        for (int shape = 0; shape < 2; shape++)
            check_locations(overlay, shape, fill_rule);
    }
    CHECK(fadrinzo_clear(overlay) == FADRINZO_OK && fadrinzo_get(overlay).points == 0, "clear");
    CHECK(fadrinzo_overlay(overlay, FADRINZO_RULE_UNION, 1) == FADRINZO_OK && fadrinzo_get(overlay).points == 0, "cleared");
    fadrinzo_free(overlay);
}

static void check_reach(fadrinzo *overlay, fadrinzo_status status, uint64_t reach)
{
    CHECK(status == FADRINZO_OK && fadrinzo_get(overlay).reach == reach, "status %d, reach %d", status, (int)fadrinzo_get(overlay).reach);
}

/* What comes from an arrangement has its reach, whatever was overlaid before it was made, and since. */
static void check_reach_of_arrangements(void)
{
    static const contour *const inputs[2] = {squares, triangles};
    static const size_t counts[2] = {6, 2};
    for (uint64_t reach = 0; reach < 2; reach++) {
        uint64_t other = 1 - reach;
        fadrinzo *overlay = fadrinzo_new();
        CHECK(overlay, "memory");
        add_all(overlay, inputs[other], counts[other]);
        check_reach(overlay, fadrinzo_overlay(overlay, FADRINZO_RULE_XOR, FADRINZO_FILL_NON_ZERO), other);
        CHECK(fadrinzo_clear(overlay) == FADRINZO_OK, "clear");
        add_all(overlay, inputs[reach], counts[reach]);
        CHECK(fadrinzo_arrange(overlay, FADRINZO_FILL_NON_ZERO) == FADRINZO_OK, "arrange");
        check_reach(overlay, fadrinzo_arranged(overlay, FADRINZO_RULE_XOR, 0), reach);
        check_reach(overlay, fadrinzo_arranged_shapes(overlay, FADRINZO_RULE_XOR, 1), reach);
        CHECK(fadrinzo_clear(overlay) == FADRINZO_OK && fadrinzo_get(overlay).reach == 0, "clear");
        add_all(overlay, inputs[other], counts[other]);
        check_reach(overlay, fadrinzo_overlay(overlay, FADRINZO_RULE_XOR, FADRINZO_FILL_NON_ZERO), other);
        check_reach(overlay, fadrinzo_arranged(overlay, FADRINZO_RULE_XOR, 1), reach);
        check_reach(overlay, fadrinzo_arranged_shapes(overlay, FADRINZO_RULE_XOR, 0), reach);
        fadrinzo_free(overlay);
    }
}

/* Locations of the middles of unit squares, of contours at twice their size. */
static void check_middles(void)
{
    fadrinzo *overlay = fadrinzo_new();
    CHECK(overlay, "memory");
    for (size_t i = 0; i < 6; i++) {
        int32_t xy[8];
        for (size_t k = 0; k < 8; k++)
            xy[k] = 2 * squares[i].xy[k];
        CHECK(fadrinzo_add_contour(overlay, squares[i].shape, xy, 4) == FADRINZO_OK, "contour %zu", i);
    }
    given = squares;
    given_count = 6;
    for (int shape = 0; shape < 2; shape++)
        for (int fill_rule = 0; fill_rule < FILLS; fill_rule++)
            for (int x = -2; x < SPAN; x++)
                for (int y = -2; y < SPAN; y++) {
                    int wanted = is_inside(fill_rule, winding_of_given(shape, x, y)) ? FADRINZO_INSIDE : FADRINZO_OUTSIDE;
                    CHECK((int)fadrinzo_locate(overlay, shape, fill_rule, 2 * x + 1, 2 * y + 1) == wanted, "shape %d, fill %d, %d %d", shape, fill_rule, x, y);
                }
    fadrinzo_free(overlay);
}

/* Contours in one call are those of a call for each, and none is added where a point of the last is out of range. */
static void check_many_contours(void)
{
    fadrinzo *one = fadrinzo_new(), *many = fadrinzo_new();
    CHECK(one && many, "memory");
    int32_t xy[2 * POINTS * 6];
    size_t lengths[3 + 1] = {POINTS, POINTS, POINTS, 0};
    for (int shape = FADRINZO_SUBJECT; shape <= FADRINZO_CLIP; shape++) {
        for (size_t i = 0; i < 3; i++) {
            memcpy(xy + 2 * POINTS * i, squares[3 * (size_t)shape + i].xy, sizeof squares[0].xy);
            CHECK(fadrinzo_add_contour(one, shape, squares[3 * (size_t)shape + i].xy, POINTS) == FADRINZO_OK, "contour %zu", i);
        }
        CHECK(fadrinzo_add_contours(many, shape, xy, lengths, 4) == FADRINZO_OK, "shape %d", shape);
    }
    CHECK(fadrinzo_add_contours(many, 0, NULL, NULL, 0) == FADRINZO_OK && fadrinzo_add_contours(many, 0, NULL, lengths + 3, 1) == FADRINZO_OK, "none");
    xy[2 * POINTS * 3 - 1] = FADRINZO_MAX_COORD + 1;
    CHECK(fadrinzo_add_contours(many, 0, xy, lengths, 3) == FADRINZO_POINT_OUT_OF_RANGE, "a point out of range");
    CHECK(fadrinzo_add_contours(many, 2, xy, lengths, 1) == FADRINZO_BAD_ARGUMENT, "shape 2");
    CHECK(fadrinzo_add_contours(many, 0, NULL, lengths, 1) == FADRINZO_BAD_ARGUMENT, "null");
    CHECK(fadrinzo_add_contours(many, 0, xy, NULL, 1) == FADRINZO_BAD_ARGUMENT, "null");
    CHECK(fadrinzo_add_contours(NULL, 0, xy, lengths, 1) == FADRINZO_BAD_ARGUMENT, "null");
    for (int fill_rule = 0; fill_rule < FILLS; fill_rule++)
        for (int rule = 0; rule < NAMED; rule++) {
            CHECK(fadrinzo_overlay(one, rule, fill_rule) == FADRINZO_OK && fadrinzo_overlay(many, rule, fill_rule) == FADRINZO_OK, "rule %d", rule);
            fadrinzo_result a = fadrinzo_get(one), b = fadrinzo_get(many);
            CHECK(a.points == b.points && a.contours == b.contours, "rule %d, fill %d", rule, fill_rule);
            CHECK(!memcmp(a.xy, b.xy, 2 * a.points * sizeof *a.xy), "rule %d, fill %d", rule, fill_rule);
            CHECK(!memcmp(a.contour_starts, b.contour_starts, (a.contours + 1) * sizeof *a.contour_starts), "rule %d, fill %d", rule, fill_rule);
        }
    fadrinzo_free(one);
    fadrinzo_free(many);
}

/* How often a result winds around the middle of a unit square. */
static int winding_of(fadrinzo_result found, int x, int y)
{
    int winds = 0;
    for (size_t i = 0; i < found.contours; i++)
        winds += winding(found.xy + 2 * found.contour_starts[i], found.contour_starts[i + 1] - found.contour_starts[i], x, y);
    return winds;
}

static void add_in_tile(fadrinzo *overlay, const fadrinzo_box *tile)
{
    for (size_t i = 0; i < given_count; i++)
        CHECK(fadrinzo_add_contour_in_tile(overlay, given[i].shape, given[i].xy, given[i].points, tile) == FADRINZO_OK, "contour %zu", i);
}

/* What a tile has of contours winds in it as they do; by the rule at an index its part winds there as the rule says, and outside as
   where it holds for no contour. */
static void check_tile(const fadrinzo_box *tile, int index, int fill_rule)
{
    fadrinzo *overlay = fadrinzo_new();
    CHECK(overlay, "memory");
    add_in_tile(overlay, tile);
    for (int shape = 0; shape < 2; shape++) {
        CHECK(fadrinzo_given(overlay, shape) == FADRINZO_OK && !fadrinzo_get(overlay).shapes, "shape %d", shape);
        for (int x = tile->min_x; x < tile->max_x; x++)
            for (int y = tile->min_y; y < tile->max_y; y++)
                CHECK(winding_of(fadrinzo_get(overlay), x, y) == winding_of_given(shape, x, y), "shape %d, at %d %d", shape, x, y);
    }
    CHECK(fadrinzo_overlay(overlay, code_of(index), fill_rule) == FADRINZO_OK, "rule %d", index);
    for (int x = -2; x < SPAN + 2; x++)
        for (int y = -2; y < SPAN + 2; y++) {
            int is_in = tile->min_x <= x && x < tile->max_x && tile->min_y <= y && y < tile->max_y;
            int s = is_in && is_inside(fill_rule, winding_of_given(FADRINZO_SUBJECT, x, y));
            int c = is_in && is_inside(fill_rule, winding_of_given(FADRINZO_CLIP, x, y));
            int wanted = holds(index, s, c) - holds(index, 0, 0);
            CHECK(winding_of(fadrinzo_get(overlay), x, y) == wanted, "rule %d, fill %d, at %d %d", index, fill_rule, x, y);
        }
    fadrinzo_free(overlay);
}

/* Tiles inside, across and beside the squares, and boxes that are none. */
static void check_tiles(void)
{
    static const fadrinzo_box tiles[] = {{3, 2, 11, 7}, {-5, -5, 9, 30}, {12, 9, 20, 17}, {0, 0, 20, 20}, {21, 0, 22, 24}};
    given = squares;
    given_count = 6;
    for (size_t i = 0; i < sizeof tiles / sizeof *tiles; i++)
        for (int fill_rule = 0; fill_rule < FILLS; fill_rule++)
            for (int index = 0; index < RULES; index++)
                check_tile(&tiles[i], index, fill_rule);
    static const fadrinzo_box none[] = {{0, 0, 0, 4}, {0, 4, 4, 4}, {4, 0, 0, 4}, {0, 0, 4, FADRINZO_MAX_COORD + 1}, {FADRINZO_MIN_COORD - 1, 0, 4, 4}};
    fadrinzo *overlay = fadrinzo_new();
    CHECK(overlay, "memory");
    for (size_t i = 0; i < sizeof none / sizeof *none; i++)
        CHECK(fadrinzo_add_contour_in_tile(overlay, 0, squares[0].xy, 4, &none[i]) == FADRINZO_BAD_ARGUMENT, "box %zu", i);
    CHECK(fadrinzo_add_contour_in_tile(overlay, 0, squares[0].xy, 4, NULL) == FADRINZO_BAD_ARGUMENT, "null");
    CHECK(fadrinzo_add_contour_in_tile(overlay, 2, squares[0].xy, 4, tiles) == FADRINZO_BAD_ARGUMENT, "shape 2");
    CHECK(fadrinzo_add_contour_in_tile(NULL, 0, squares[0].xy, 4, tiles) == FADRINZO_BAD_ARGUMENT, "null");
    static const int32_t far[4] = {0, 0, FADRINZO_MAX_COORD + 1, 0};
    CHECK(fadrinzo_add_contour_in_tile(overlay, 0, far, 2, tiles) == FADRINZO_POINT_OUT_OF_RANGE, "a point out of range");
    CHECK(fadrinzo_given(overlay, 0) == FADRINZO_OK && !fadrinzo_get(overlay).contours, "nothing is added");
    CHECK(fadrinzo_given(overlay, 2) == FADRINZO_BAD_ARGUMENT && fadrinzo_given(NULL, 0) == FADRINZO_BAD_ARGUMENT, "bad arguments");
    fadrinzo_free(overlay);
}

/* A polygon with a hole, each of its rings either way and closed or not: the hole is one. */
static void check_polygons(void)
{
    for (int ways = 0; ways < 16; ways++) {
        int32_t xy[20];
        size_t lengths[2], points = 0;
        for (int ring = 0; ring < 2; ring++) {
            const int32_t *corners = squares[ring].xy;
            lengths[ring] = ways >> (2 + ring) & 1 ? 5 : 4;
            for (size_t k = 0; k < lengths[ring]; k++, points++) {
                size_t at = (ways >> ring & 1 ? 4 - k % 4 : k) % 4;
                xy[2 * points] = corners[2 * at];
                xy[2 * points + 1] = corners[2 * at + 1];
            }
        }
        fadrinzo *overlay = fadrinzo_new();
        CHECK(overlay, "memory");
        CHECK(fadrinzo_add_polygon(overlay, FADRINZO_SUBJECT, xy, lengths, 2) == FADRINZO_OK, "ways %x", ways);
        CHECK(fadrinzo_add_polygon(overlay, FADRINZO_SUBJECT, NULL, NULL, 0) == FADRINZO_OK, "no rings");
        CHECK(fadrinzo_overlay_shapes(overlay, FADRINZO_RULE_SUBJECT, FADRINZO_FILL_POSITIVE) == FADRINZO_OK, "ways %x", ways);
        fadrinzo_result found = fadrinzo_get(overlay);
        CHECK(found.shapes == 1 && found.contours == 2 && found.points == 8, "ways %x", ways);
        CHECK(doubled_area(found, 0) == 288 && doubled_area(found, 1) == -128, "ways %x", ways);
        xy[0] = FADRINZO_MAX_COORD;
        xy[2 * points - 1] = FADRINZO_MIN_COORD - 1;
        CHECK(fadrinzo_clear(overlay) == FADRINZO_OK, "clear");
        CHECK(fadrinzo_add_polygon(overlay, FADRINZO_CLIP, xy, lengths, 2) == FADRINZO_POINT_OUT_OF_RANGE, "a point out of range");
        CHECK(fadrinzo_overlay(overlay, FADRINZO_RULE_CLIP, FADRINZO_FILL_NON_ZERO) == FADRINZO_OK, "a point out of range");
        CHECK(!fadrinzo_get(overlay).contours, "nothing is added");
        fadrinzo_free(overlay);
    }
    /* a ring along the ends of the range: its area has 63 bits */
    int32_t least = FADRINZO_MIN_COORD, most = FADRINZO_MAX_COORD, whole[8] = {least, least, least, most, most, most, most, least};
    size_t length = 4;
    fadrinzo *overlay = fadrinzo_new();
    CHECK(overlay, "memory");
    CHECK(fadrinzo_add_polygon(overlay, FADRINZO_CLIP, whole, &length, 1) == FADRINZO_OK, "the whole range");
    CHECK(fadrinzo_overlay(overlay, FADRINZO_RULE_CLIP, FADRINZO_FILL_POSITIVE) == FADRINZO_OK, "the whole range");
    CHECK(fadrinzo_get(overlay).contours == 1, "the whole range");
    CHECK(fadrinzo_add_polygon(overlay, 2, whole, &length, 1) == FADRINZO_BAD_ARGUMENT, "shape 2");
    CHECK(fadrinzo_add_polygon(overlay, 0, NULL, &length, 1) == FADRINZO_BAD_ARGUMENT, "null");
    CHECK(fadrinzo_add_polygon(overlay, 0, whole, NULL, 1) == FADRINZO_BAD_ARGUMENT, "null");
    CHECK(fadrinzo_add_polygon(NULL, 0, whole, &length, 1) == FADRINZO_BAD_ARGUMENT, "null");
    fadrinzo_free(overlay);
}

/* Squares in one another, for the subject and for the clip, and one that has a corner in common with the largest. */
static const contour nested[6] = {
    {FADRINZO_SUBJECT, 4, {0, 0, 12, 0, 12, 12, 0, 12}},
    {FADRINZO_SUBJECT, 4, {2, 2, 10, 2, 10, 10, 2, 10}},
    {FADRINZO_SUBJECT, 4, {12, 12, 12, 20, 20, 20, 20, 12}},
    {FADRINZO_CLIP, 4, {2, 10, 10, 10, 10, 2, 2, 2}},
    {FADRINZO_CLIP, 4, {0, 0, 12, 0, 12, 12, 0, 12}},
    {FADRINZO_CLIP, 4, {4, 4, 6, 4, 6, 6, 4, 6}},
};

/* Whether one of the four unit squares at a corner is inside a shape of such contours, so that the shape has the corner. */
static int is_at(int shape, int fill_rule, int x, int y)
{
    int found = 0;
    for (int of = 0; of < 4; of++)
        found |= is_inside(fill_rule, winding_of_given(shape, x - of % 2, y - of / 2));
    return found;
}

/* Whether a relation holds between the given contours, by its definition: their sides lie along the axes, so each unit square is inside or
   outside as a whole. */
static int relation_of_given(int relation, int fill_rule)
{
    int in_both = 0, in_subject_alone = 0, in_clip_alone = 0, share = 0;
    for (int x = 0; x <= SPAN; x++)
        for (int y = 0; y <= SPAN; y++) {
            int s = is_inside(fill_rule, winding_of_given(FADRINZO_SUBJECT, x, y));
            int c = is_inside(fill_rule, winding_of_given(FADRINZO_CLIP, x, y));
            in_both |= s && c;
            in_subject_alone |= s && !c;
            in_clip_alone |= c && !s;
            share |= is_at(FADRINZO_SUBJECT, fill_rule, x, y) && is_at(FADRINZO_CLIP, fill_rule, x, y);
        }
    switch (relation) {
    case FADRINZO_INTERIORS_MEET: return in_both;
    case FADRINZO_COVERS: return !in_clip_alone;
    case FADRINZO_IS_WITHIN: return !in_subject_alone;
    case FADRINZO_SAME_REGION: return !in_subject_alone && !in_clip_alone;
    case FADRINZO_TOUCH: return share && !in_both;
    default: return !share;
    }
}

/* The part of a shape of such contours in which a point at halves of a unit lies, by the unit squares around it: 0 for its interior, 1 for its
   boundary, 2 for its exterior. */
static int part_at(int shape, int fill_rule, int x, int y)
{
    int in = 0, out = 0;
    for (int of_x = (x + 1) / 2 - 1; of_x <= x / 2; of_x++)
        for (int of_y = (y + 1) / 2 - 1; of_y <= y / 2; of_y++)
            if (is_inside(fill_rule, winding_of_given(shape, of_x, of_y)))
                in = 1;
            else
                out = 1;
    return in && out ? 1 : in ? 0 : 2;
}

static void check_matrix(fadrinzo *overlay, int fill_rule)
{
    char wanted[10] = "FFFFFFFFF", found[10] = "";
    for (int x = 0; x <= 2 * SPAN; x++)
        for (int y = 0; y <= 2 * SPAN; y++)
            wanted[3 * part_at(FADRINZO_SUBJECT, fill_rule, x, y) + part_at(FADRINZO_CLIP, fill_rule, x, y)] = 'T';
    CHECK(fadrinzo_relate(overlay, fill_rule, found) == FADRINZO_OK, "fill %d", fill_rule);
    CHECK(!strcmp(found, wanted), "fill %d: %s, not %s", fill_rule, found, wanted);
}

/* Prepares the region of the given contours of a shape, and drops the contours. Returns its number. */
static size_t region_of_given(fadrinzo *overlay, int shape, int fill_rule)
{
    size_t number = SIZE_MAX;
    for (size_t i = 0; i < given_count; i++)
        if (given[i].shape == shape)
            CHECK(fadrinzo_add_contour(overlay, FADRINZO_SUBJECT, given[i].xy, given[i].points) == FADRINZO_OK, "contour %zu", i);
    CHECK(fadrinzo_add_region(overlay, fill_rule, &number) == FADRINZO_OK, "fill %d", fill_rule);
    fadrinzo_clear(overlay);
    return number;
}

/* Each relation of the regions of both shapes is that of the shapes, and so are the letters. */
static void check_regions(fadrinzo *overlay, int fill_rule)
{
    fadrinzo *regions = fadrinzo_new();
    CHECK(regions, "memory");
    size_t clip = region_of_given(regions, FADRINZO_CLIP, fill_rule), subject = region_of_given(regions, FADRINZO_SUBJECT, fill_rule);
    CHECK(clip == 0 && subject == 1, "numbers %zu and %zu", clip, subject);
    for (int relation = 0; relation < RELATIONS; relation++) {
        int found = -1, wanted = relation_of_given(relation, fill_rule);
        CHECK(fadrinzo_region_relation(regions, subject, clip, relation, &found) == FADRINZO_OK, "relation %d", relation);
        CHECK(found == wanted, "relation %d, fill %d", relation, fill_rule);
    }
    char wanted[10] = "", letters[10] = "unchanged";
    CHECK(fadrinzo_relate(overlay, fill_rule, wanted) == FADRINZO_OK && fadrinzo_region_relate(regions, subject, clip, letters) == FADRINZO_OK, "letters");
    CHECK(!strcmp(letters, wanted), "fill %d: %s, not %s", fill_rule, letters, wanted);
    fadrinzo_free(regions);
}

/* All relations of each choice of the nested squares. */
static void check_relations(void)
{
    for (unsigned chosen = 0; chosen < 64; chosen++) {
        contour some[6];
        size_t count = 0;
        for (unsigned i = 0; i < 6; i++)
            if (chosen >> i & 1)
                some[count++] = nested[i];
        given = some;
        given_count = count;
        fadrinzo *overlay = fadrinzo_new();
        CHECK(overlay, "memory");
        add_all(overlay, some, count);
        for (int fill_rule = 0; fill_rule < FILLS; fill_rule++) {
            check_matrix(overlay, fill_rule);
            check_regions(overlay, fill_rule);
            for (int relation = 0; relation < RELATIONS; relation++) {
                int found = -1, wanted = relation_of_given(relation, fill_rule);
                CHECK(fadrinzo_relation(overlay, relation, fill_rule, &found) == FADRINZO_OK, "relation %d", relation);
                CHECK(found == wanted, "squares %x, relation %d, fill %d", chosen, relation, fill_rule);
            }
        }
        fadrinzo_free(overlay);
    }
}

/* A shape whose edges cross in the middle of a unit is named, the subject first, and nothing is written. */
static void check_not_exact(void)
{
    static const int32_t bow[8] = {0, 0, 1, 1, 1, 0, 0, 1};
    for (int shape = FADRINZO_CLIP; shape >= FADRINZO_SUBJECT; shape--)
        for (int both = 0; both < 2; both++) {
            fadrinzo *overlay = fadrinzo_new();
            CHECK(overlay, "memory");
            CHECK(fadrinzo_add_contour(overlay, shape, bow, 4) == FADRINZO_OK, "shape %d", shape);
            CHECK(fadrinzo_add_contour(overlay, 1 - shape, both ? bow : squares[0].xy, 4) == FADRINZO_OK, "shape %d", shape);
            int wanted = both || shape == FADRINZO_SUBJECT ? FADRINZO_SUBJECT_NOT_EXACT : FADRINZO_CLIP_NOT_EXACT;
            for (int relation = 0; relation < RELATIONS; relation++) {
                int found = -1;
                CHECK((int)fadrinzo_relation(overlay, relation, 0, &found) == wanted, "shape %d, relation %d", shape, relation);
                CHECK(found == -1, "shape %d, relation %d", shape, relation);
            }
            char letters[10] = "unchanged";
            CHECK((int)fadrinzo_relate(overlay, 0, letters) == wanted && !strcmp(letters, "unchanged"), "shape %d", shape);
            size_t number = 77;
            int of_region = both || shape == FADRINZO_SUBJECT ? FADRINZO_SUBJECT_NOT_EXACT : FADRINZO_OK;
            CHECK((int)fadrinzo_add_region(overlay, 0, &number) == of_region && number == (of_region ? 77 : 0), "shape %d", shape);
            fadrinzo_free(overlay);
        }
}

/* The overlay has a result of one contour; a call that is refused leaves none. */
static void check_drops(fadrinzo *overlay, fadrinzo_status found)
{
    CHECK(found == FADRINZO_BAD_ARGUMENT, "status %d", found);
    fadrinzo_result none = fadrinzo_get(overlay);
    CHECK(!none.xy && !none.points && !none.contours && !none.shapes && !none.reach, "a result is left");
    CHECK(fadrinzo_overlay(overlay, FADRINZO_RULE_SUBJECT, 1) == FADRINZO_OK && fadrinzo_get(overlay).contours == 1, "afterwards");
}

static void check_codes(fadrinzo *overlay)
{
    static const int wrong_rules[] = {-1, 7, 8, 15, 32, 33, 256, 272, INT32_MIN, INT32_MAX}, wrong_fills[] = {-1, 4, 5, 256, 257, INT32_MAX};
    check_drops(overlay, fadrinzo_arranged(overlay, 0, 0));
    check_drops(overlay, fadrinzo_arranged_shapes(overlay, 0, 0));
    CHECK(fadrinzo_arrange(overlay, 1) == FADRINZO_OK && fadrinzo_get(overlay).contours == 1, "arrange");
    for (size_t i = 0; i < sizeof wrong_rules / sizeof *wrong_rules; i++) {
        int rules[2] = {0, wrong_rules[i]};
        check_drops(overlay, fadrinzo_overlay(overlay, wrong_rules[i], 1));
        check_drops(overlay, fadrinzo_overlay_shapes(overlay, wrong_rules[i], 1));
        check_drops(overlay, fadrinzo_overlay_by_rules(overlay, rules, 2, 1));
        check_drops(overlay, fadrinzo_arranged(overlay, wrong_rules[i], 0));
        check_drops(overlay, fadrinzo_arranged_shapes(overlay, wrong_rules[i], 1));
    }
    for (size_t i = 0; i < sizeof wrong_fills / sizeof *wrong_fills; i++) {
        int rules[1] = {0}, fill_rule = wrong_fills[i];
        check_drops(overlay, fadrinzo_overlay(overlay, 0, fill_rule));
        check_drops(overlay, fadrinzo_overlay_shapes(overlay, 0, fill_rule));
        check_drops(overlay, fadrinzo_overlay_by_rules(overlay, rules, 1, fill_rule));
        CHECK(fadrinzo_arrange(overlay, fill_rule) == FADRINZO_BAD_ARGUMENT, "fill %d", fill_rule);
        CHECK(fadrinzo_locate(overlay, 0, fill_rule, 0, 0) == FADRINZO_LOCATION_BAD_ARGUMENT, "fill %d", fill_rule);
    }
    check_drops(overlay, fadrinzo_overlay_by_rules(overlay, NULL, 1, 1));
    static const int wrong_relations[] = {-1, RELATIONS, 256, INT32_MAX};
    int found = -1;
    for (size_t i = 0; i < sizeof wrong_relations / sizeof *wrong_relations; i++)
        CHECK(fadrinzo_relation(overlay, wrong_relations[i], 1, &found) == FADRINZO_BAD_ARGUMENT && found == -1, "code %zu", i);
    CHECK(fadrinzo_relation(overlay, 0, 4, &found) == FADRINZO_BAD_ARGUMENT && found == -1, "fill 4");
    CHECK(fadrinzo_relation(overlay, 0, 1, NULL) == FADRINZO_BAD_ARGUMENT, "null");
    char letters[10] = "unchanged";
    CHECK(fadrinzo_relate(overlay, 1, NULL) == FADRINZO_BAD_ARGUMENT, "null");
    CHECK(fadrinzo_relate(overlay, 4, letters) == FADRINZO_BAD_ARGUMENT && fadrinzo_relate(NULL, 1, letters) == FADRINZO_BAD_ARGUMENT, "fill 4");
    size_t number = 77;
    CHECK(fadrinzo_add_region(overlay, 4, &number) == FADRINZO_BAD_ARGUMENT && fadrinzo_add_region(NULL, 1, &number) == FADRINZO_BAD_ARGUMENT, "region");
    CHECK(fadrinzo_add_region(overlay, 1, NULL) == FADRINZO_BAD_ARGUMENT && number == 77, "null");
    CHECK(fadrinzo_add_region(overlay, 1, &number) == FADRINZO_OK && number == 0, "a region");
    for (size_t other = 0; other < 2; other++) {
        CHECK(fadrinzo_region_relation(overlay, other, 1 - other, 0, &found) == FADRINZO_BAD_ARGUMENT && found == -1, "no region 1");
        CHECK(fadrinzo_region_relate(overlay, other, 1 - other, letters) == FADRINZO_BAD_ARGUMENT && !strcmp(letters, "unchanged"), "no region 1");
    }
    CHECK(fadrinzo_region_relation(overlay, 0, 0, RELATIONS, &found) == FADRINZO_BAD_ARGUMENT && found == -1, "code");
    CHECK(fadrinzo_region_relation(overlay, 0, 0, 0, NULL) == FADRINZO_BAD_ARGUMENT && fadrinzo_region_relate(overlay, 0, 0, NULL) == FADRINZO_BAD_ARGUMENT, "null");
    CHECK(fadrinzo_region_relation(NULL, 0, 0, 0, &found) == FADRINZO_BAD_ARGUMENT && fadrinzo_region_relate(NULL, 0, 0, letters) == FADRINZO_BAD_ARGUMENT, "null");
    CHECK(fadrinzo_relation(overlay, 0, 1, &found) == FADRINZO_OK && found == 0 && fadrinzo_get(overlay).contours == 1, "a relation");
    static const int wrong_shapes[] = {-1, 2, 256, 257, INT32_MIN};
    for (size_t i = 0; i < sizeof wrong_shapes / sizeof *wrong_shapes; i++) {
        CHECK(fadrinzo_add_contour(overlay, wrong_shapes[i], squares[0].xy, 4) == FADRINZO_BAD_ARGUMENT, "shape %d", wrong_shapes[i]);
        CHECK(fadrinzo_locate(overlay, wrong_shapes[i], 1, 0, 0) == FADRINZO_LOCATION_BAD_ARGUMENT, "shape %d", wrong_shapes[i]);
    }
    CHECK(fadrinzo_add_contour(overlay, 0, NULL, 1) == FADRINZO_BAD_ARGUMENT, "null");
    CHECK(fadrinzo_add_contour(overlay, 0, NULL, 0) == FADRINZO_OK, "a contour of no points");
}

static void check_bounds(fadrinzo *overlay)
{
    static const int32_t ends[2] = {FADRINZO_MIN_COORD, FADRINZO_MAX_COORD};
    for (int axis = 0; axis < 2; axis++)
        for (int end = 0; end < 2; end++) {
            int32_t xy[2] = {0, 0};
            xy[axis] = ends[end];
            CHECK(fadrinzo_add_contour(overlay, 1, xy, 1) == FADRINZO_OK, "axis %d, end %d", axis, end);
            xy[axis] += end ? 1 : -1;
            CHECK(fadrinzo_add_contour(overlay, 1, xy, 1) == FADRINZO_POINT_OUT_OF_RANGE, "axis %d, end %d", axis, end);
            CHECK(fadrinzo_locate(overlay, 0, 1, xy[0], xy[1]) == FADRINZO_OUTSIDE, "axis %d, end %d", axis, end);
        }
    CHECK(FADRINZO_MIN_COORD == -(1 << 30) && FADRINZO_MAX_COORD == (1 << 30) - 1, "bounds");
}

static void check_refusals(void)
{
    fadrinzo *overlay = fadrinzo_new();
    CHECK(overlay, "memory");
    CHECK(fadrinzo_add_contour(overlay, 0, squares[0].xy, 4) == FADRINZO_OK, "a square");
    CHECK(fadrinzo_overlay(overlay, 0, 1) == FADRINZO_OK, "a square");
    check_codes(overlay);
    check_bounds(overlay);
    fadrinzo_free(overlay);
    int rules[1] = {0};
    CHECK(fadrinzo_add_contour(NULL, 0, squares[0].xy, 4) == FADRINZO_BAD_ARGUMENT, "null");
    CHECK(fadrinzo_overlay(NULL, 0, 0) == FADRINZO_BAD_ARGUMENT, "null");
    CHECK(fadrinzo_overlay_shapes(NULL, 0, 0) == FADRINZO_BAD_ARGUMENT, "null");
    CHECK(fadrinzo_overlay_by_rules(NULL, rules, 1, 0) == FADRINZO_BAD_ARGUMENT, "null");
    CHECK(fadrinzo_arrange(NULL, 0) == FADRINZO_BAD_ARGUMENT, "null");
    CHECK(fadrinzo_arranged(NULL, 0, 0) == FADRINZO_BAD_ARGUMENT, "null");
    CHECK(fadrinzo_arranged_shapes(NULL, 0, 0) == FADRINZO_BAD_ARGUMENT, "null");
    CHECK(fadrinzo_clear(NULL) == FADRINZO_BAD_ARGUMENT, "null");
    CHECK(fadrinzo_locate(NULL, 0, 0, 0, 0) == FADRINZO_LOCATION_BAD_ARGUMENT, "null");
    CHECK(fadrinzo_relation(NULL, 0, 0, rules) == FADRINZO_BAD_ARGUMENT, "null");
    CHECK(!fadrinzo_get(NULL).xy && !fadrinzo_get(NULL).contours, "null");
    fadrinzo_free(NULL);
}

/* A closed chain of six edges that are nearly parallel, over most of the range. */
static const int32_t chain[6][2] = {{929775894, 738301379},  {-820272779, 900600856}, {929775891, 738301379},
                                    {-820272780, 900600857}, {929775893, 738301379},  {-820272774, 900600852}};

/* Each segment runs from its lesser end to the other, and comes behind the one before. */
static void check_order(fadrinzo_edges found)
{
    for (size_t i = 0; i < found.count; i++) {
        fadrinzo_edge e = found.edges[i];
        CHECK(e.ax < e.bx || (e.ax == e.bx && e.ay < e.by), "segment %zu", i);
        CHECK(e.subject || e.clip, "segment %zu", i);
        if (i) {
            fadrinzo_edge d = found.edges[i - 1];
            int32_t before[4] = {d.ax, d.ay, d.bx, d.by}, here[4] = {e.ax, e.ay, e.bx, e.by};
            int at = 0;
            while (at < 3 && before[at] == here[at])
                at++;
            CHECK(before[at] < here[at], "segment %zu", i);
        }
    }
}

static void check_splits(void)
{
    fadrinzo *overlay = fadrinzo_new();
    CHECK(overlay, "memory");
    fadrinzo_edge edges[6];
    for (size_t i = 0; i < 6; i++) {
        const int32_t *a = chain[i], *b = chain[(i + 1) % 6];
        edges[i] = (fadrinzo_edge){a[0], a[1], b[0], b[1], 1, 0};
    }
    for (size_t count = 5; count <= 6; count++) {
        CHECK(fadrinzo_split(overlay, edges, count, FADRINZO_SNAP_ROUNDING) == FADRINZO_OK, "%zu", count);
        fadrinzo_edges found = fadrinzo_get_edges(overlay);
        /* back and forth, all six cancel where they go through the same points; of five a path of six segments is left */
        CHECK(found.count == (count == 5 ? 6 : 0), "%zu segments", found.count);
        check_order(found);
    }
    CHECK(fadrinzo_split(overlay, edges, 6, FADRINZO_PAIRWISE) == FADRINZO_OK, "pairwise");
    CHECK(fadrinzo_get_edges(overlay).count == 238653, "%zu segments", fadrinzo_get_edges(overlay).count);
    check_order(fadrinzo_get_edges(overlay));
    /* two that cross at (2, 2), and a third on one of them, back, for the clip */
    static const fadrinzo_edge cross[] = {{0, 0, 4, 4, 1, 0}, {0, 4, 4, 0, 2, 0}, {4, 4, 0, 0, 0, 3}};
    static const fadrinzo_edge wanted[] = {{0, 0, 2, 2, 1, -3}, {0, 4, 2, 2, 2, 0}, {2, 2, 4, 0, 2, 0}, {2, 2, 4, 4, 1, -3}};
    for (int rounding = 0; rounding < 2; rounding++) {
        CHECK(fadrinzo_split(overlay, cross, 3, rounding) == FADRINZO_OK, "rounding %d", rounding);
        fadrinzo_edges found = fadrinzo_get_edges(overlay);
        CHECK(found.count == 4 && !memcmp(found.edges, wanted, sizeof wanted), "rounding %d", rounding);
    }
    fadrinzo_free(overlay);
}

static void check_split_refusals(void)
{
    fadrinzo *overlay = fadrinzo_new();
    CHECK(overlay, "memory");
    CHECK(fadrinzo_add_contour(overlay, 0, squares[0].xy, 4) == FADRINZO_OK && fadrinzo_overlay(overlay, 0, 1) == FADRINZO_OK, "a square");
    const fadrinzo_edge good = {0, 0, 1, 1, 1, 0};
    static const struct {
        fadrinzo_edge edge;
        fadrinzo_status status;
    } wrong[] = {{{0, 0, 0, 0, 1, 0}, FADRINZO_BAD_ARGUMENT}, {{0, 0, 1, 1, 0, 0}, FADRINZO_BAD_ARGUMENT},
                 {{0, 0, 1, 1, INT32_MIN, 0}, FADRINZO_BAD_ARGUMENT}, {{0, 0, 1, FADRINZO_MAX_COORD + 1, 1, 0}, FADRINZO_POINT_OUT_OF_RANGE},
                 {{FADRINZO_MIN_COORD - 1, 0, 1, 1, 1, 0}, FADRINZO_POINT_OUT_OF_RANGE}};
    for (size_t i = 0; i < sizeof wrong / sizeof *wrong; i++) {
        CHECK(fadrinzo_split(overlay, &good, 1, 0) == FADRINZO_OK && fadrinzo_get_edges(overlay).count == 1, "a segment");
        CHECK(fadrinzo_split(overlay, &wrong[i].edge, 1, 0) == wrong[i].status, "wrong %zu", i);
        CHECK(!fadrinzo_get_edges(overlay).count && !fadrinzo_get_edges(overlay).edges, "wrong %zu", i);
    }
    fadrinzo_edge great[2] = {{0, 0, 1, 1, INT32_MAX, 0}, {0, 0, 1, 1, 1, 0}};
    CHECK(fadrinzo_split(overlay, great, 2, 0) == FADRINZO_COUNT_OUT_OF_RANGE, "a sum");
    static const int wrong_roundings[] = {-1, 2, 256, INT32_MAX};
    for (size_t i = 0; i < sizeof wrong_roundings / sizeof *wrong_roundings; i++)
        CHECK(fadrinzo_split(overlay, &good, 1, wrong_roundings[i]) == FADRINZO_BAD_ARGUMENT, "rounding %d", wrong_roundings[i]);
    CHECK(fadrinzo_split(overlay, NULL, 1, 0) == FADRINZO_BAD_ARGUMENT && fadrinzo_split(NULL, &good, 1, 0) == FADRINZO_BAD_ARGUMENT, "null");
    CHECK(fadrinzo_split(overlay, NULL, 0, 0) == FADRINZO_OK && !fadrinzo_get_edges(overlay).count, "nothing");
    CHECK(!fadrinzo_get_edges(NULL).count, "null");
    CHECK(fadrinzo_get(overlay).contours == 1, "a split leaves the last overlay");
    fadrinzo_free(overlay);
}

/* A square of ten by ten. */
static const int32_t ten[8] = {0, 0, 10, 0, 10, 10, 0, 10};

/* Lines, one after another, and which parts of them lie inside the square or outside: found by hand. */
typedef struct {
    size_t lines;
    size_t lengths[5];
    int32_t xy[20];
    int invert;
    int boundary_included;
    size_t count;
    size_t of_line[5];
    /* where parts start, and where the last one ends */
    size_t starts[6];
    int32_t points[20];
} clip_by_hand;

static const clip_by_hand by_hand[] = {
    /* across and down, in the direction of each line; two equal points are no step, and one point or none no line */
    {5, {2, 2, 4, 1, 0}, {20, 5, -5, 5, 5, 20, 5, -20, 2, 2, 4, 2, 4, 2, 4, 30, 1, 1}, 0, 0,
     3, {0, 1, 2}, {0, 2, 4, 7}, {10, 5, 0, 5, 5, 10, 5, 0, 2, 2, 4, 2, 4, 10}},
    {5, {2, 2, 4, 1, 0}, {20, 5, -5, 5, 5, 20, 5, -20, 2, 2, 4, 2, 4, 2, 4, 30, 1, 1}, 1, 0,
     5, {0, 0, 1, 1, 2}, {0, 2, 4, 6, 8, 10}, {20, 5, 10, 5, 0, 5, -5, 5, 5, 20, 5, 10, 5, 0, 5, -20, 4, 10, 4, 30}},
    /* the line leaves the square between two parts, and comes back to the point at which it left */
    {1, {5}, {5, 5, 12, 5, 12, 9, 12, 5, 2, 5}, 0, 0, 2, {0, 0}, {0, 2, 4}, {5, 5, 10, 5, 10, 5, 2, 5}},
    {1, {5}, {5, 5, 12, 5, 12, 9, 12, 5, 2, 5}, 1, 0, 1, {0}, {0, 5}, {10, 5, 12, 5, 12, 9, 12, 5, 10, 5}},
    {1, {3}, {5, 5, 15, 5, 5, 5}, 0, 0, 2, {0, 0}, {0, 2, 4}, {5, 5, 10, 5, 10, 5, 5, 5}},
    {1, {3}, {15, 5, 5, 5, 15, 5}, 1, 0, 2, {0, 0}, {0, 2, 4}, {15, 5, 10, 5, 10, 5, 15, 5}},
    /* within the square a turn is no end */
    {1, {3}, {5, 5, 8, 5, 5, 5}, 0, 0, 1, {0}, {0, 3}, {5, 5, 8, 5, 5, 5}},
    /* along the boundary */
    {1, {3}, {0, 2, 0, 8, -3, 8}, 0, 0, 0, {0}, {0}, {0}},
    {1, {3}, {0, 2, 0, 8, -3, 8}, 0, 1, 1, {0}, {0, 2}, {0, 2, 0, 8}},
    {1, {3}, {0, 2, 0, 8, -3, 8}, 1, 1, 1, {0}, {0, 2}, {0, 8, -3, 8}},
    {1, {3}, {0, 2, 0, 8, -3, 8}, 1, 0, 1, {0}, {0, 3}, {0, 2, 0, 8, -3, 8}},
    /* lines that cross have no point there; those that overlap have a part each */
    {3, {2, 2, 2}, {1, 5, 9, 5, 5, 1, 5, 9, 9, 5, 3, 5}, 0, 0, 3, {0, 1, 2}, {0, 2, 4, 6}, {1, 5, 9, 5, 5, 1, 5, 9, 9, 5, 3, 5}},
    /* nothing at all */
    {0, {0}, {0}, 1, 1, 0, {0}, {0}, {0}},
};

static void check_parts(const clip_by_hand *row, fadrinzo_parts found, size_t index)
{
    CHECK(found.count == row->count && found.points == row->starts[row->count], "row %zu: %zu parts", index, found.count);
    CHECK(!memcmp(found.starts, row->starts, (row->count + 1) * sizeof *found.starts), "row %zu", index);
    CHECK(!memcmp(found.lines, row->of_line, row->count * sizeof *found.lines), "row %zu", index);
    CHECK(!memcmp(found.xy, row->points, 2 * found.points * sizeof *found.xy), "row %zu", index);
}

static void check_clips(void)
{
    fadrinzo *overlay = fadrinzo_new();
    CHECK(overlay, "memory");
    CHECK(fadrinzo_add_contour(overlay, FADRINZO_SUBJECT, ten, 4) == FADRINZO_OK, "a square");
    /* a clip counts for nothing */
    CHECK(fadrinzo_add_contour(overlay, FADRINZO_CLIP, squares[2].xy, 4) == FADRINZO_OK && fadrinzo_overlay(overlay, FADRINZO_RULE_CLIP, 1) == FADRINZO_OK, "a clip");
    for (size_t i = 0; i < sizeof by_hand / sizeof *by_hand; i++)
        for (int rounding = FADRINZO_SNAP_ROUNDING; rounding <= FADRINZO_PAIRWISE; rounding++)
            for (int fill_rule = 0; fill_rule < FADRINZO_FILL_NEGATIVE; fill_rule++) {
                const clip_by_hand *row = &by_hand[i];
                CHECK(fadrinzo_clip_lines(overlay, row->xy, row->lengths, row->lines, row->invert, row->boundary_included, fill_rule, rounding)
                          == FADRINZO_OK, "row %zu", i);
                check_parts(row, fadrinzo_get_parts(overlay), i);
            }
    static const int32_t inside[4] = {2, 2, 3, 3};
    static const size_t two[1] = {2};
    CHECK(fadrinzo_clip_lines(overlay, inside, two, 1, 0, 0, FADRINZO_FILL_NEGATIVE, 0) == FADRINZO_OK && !fadrinzo_get_parts(overlay).count, "negative");
    CHECK(fadrinzo_clip_lines(overlay, inside, two, 1, 7, 0, FADRINZO_FILL_NEGATIVE, 0) == FADRINZO_OK && fadrinzo_get_parts(overlay).count == 1, "outside");
    CHECK(fadrinzo_get(overlay).contours == 1 && fadrinzo_get(overlay).xy[0] >= 8, "a clip of lines leaves the last overlay");
    fadrinzo_free(overlay);
}

/* Steps of a line whose ends are as far apart as can be, through two columns, on both sides of their middles. */
static void check_far_clips(void)
{
    enum { LOW = FADRINZO_MIN_COORD, HIGH = FADRINZO_MAX_COORD };
    static const int32_t left[] = {-110, LOW, -90, LOW, -90, HIGH, -110, HIGH}, right[] = {100, LOW, 120, LOW, 120, HIGH, 100, HIGH};
    static const int32_t line[] = {HIGH, 7, LOW, 7, LOW, HIGH, HIGH, HIGH, LOW, LOW};
    /* along the tops of the columns, which count as inside, and along the diagonal on its way back */
    static const int32_t wanted[] = {120, 7, 100, 7, -90, 7, -110, 7, -110, HIGH, -90, HIGH, 100, HIGH, 120, HIGH, 120, 120, 100, 100, -90, -90, -110, -110};
    static const size_t length[1] = {5};
    fadrinzo *overlay = fadrinzo_new();
    CHECK(overlay, "memory");
    CHECK(fadrinzo_add_contour(overlay, 0, left, 4) == FADRINZO_OK && fadrinzo_add_contour(overlay, 0, right, 4) == FADRINZO_OK, "columns");
    CHECK(fadrinzo_clip_lines(overlay, line, length, 1, 0, 1, 1, 0) == FADRINZO_OK, "a line");
    fadrinzo_parts found = fadrinzo_get_parts(overlay);
    CHECK(found.count == 6 && found.points == 12 && !memcmp(found.xy, wanted, sizeof wanted), "%zu parts", found.count);
    fadrinzo_free(overlay);
}

/* Points at which sides meet a line stay, and sides far beside it wind around it all the same. */
static void check_sides_of_clips(void)
{
    static const int32_t over[8] = {5, -5, 15, -5, 15, 15, 5, 15}, line[4] = {1, 5, 14, 5}, wanted[8] = {1, 5, 5, 5, 10, 5, 14, 5};
    static const int32_t far[10] = {-90000, -90000, 0, -95000, 90000, -90000, 90000, 90000, -90000, 90000};
    static const size_t length[1] = {2};
    fadrinzo *overlay = fadrinzo_new();
    CHECK(overlay, "memory");
    CHECK(fadrinzo_add_contour(overlay, 0, ten, 4) == FADRINZO_OK && fadrinzo_add_contour(overlay, 0, over, 4) == FADRINZO_OK, "squares");
    CHECK(fadrinzo_clip_lines(overlay, line, length, 1, 0, 0, 1, 0) == FADRINZO_OK, "a line");
    fadrinzo_parts found = fadrinzo_get_parts(overlay);
    CHECK(found.count == 1 && found.points == 4 && !memcmp(found.xy, wanted, sizeof wanted), "%zu points", found.points);
    CHECK(fadrinzo_clear(overlay) == FADRINZO_OK && fadrinzo_get_parts(overlay).count == 1, "cleared");
    CHECK(fadrinzo_add_contour(overlay, 0, far, 5) == FADRINZO_OK && fadrinzo_clip_lines(overlay, line, length, 1, 0, 0, 1, 0) == FADRINZO_OK, "far");
    found = fadrinzo_get_parts(overlay);
    CHECK(found.count == 1 && found.points == 2 && !memcmp(found.xy, line, sizeof line), "%zu parts", found.count);
    fadrinzo_free(overlay);
}

static void check_clip_refusals(void)
{
    fadrinzo *overlay = fadrinzo_new();
    CHECK(overlay, "memory");
    static const int32_t line[4] = {1, 1, 9, 9}, far[4] = {1, 1, 9, FADRINZO_MAX_COORD + 1};
    static const size_t length[1] = {2}, none[2] = {0, 0};
    CHECK(fadrinzo_add_contour(overlay, 0, ten, 4) == FADRINZO_OK, "a square");
    static const int wrong[] = {-1, 4, 256, INT32_MAX};
    for (size_t i = 0; i < sizeof wrong / sizeof *wrong; i++)
        for (int of = 0; of < 2; of++) {
            CHECK(fadrinzo_clip_lines(overlay, line, length, 1, 0, 0, 1, 0) == FADRINZO_OK && fadrinzo_get_parts(overlay).count == 1, "a line");
            CHECK(fadrinzo_clip_lines(overlay, line, length, 1, 0, 0, of ? wrong[i] : 1, of ? 0 : wrong[i]) == FADRINZO_BAD_ARGUMENT, "code %d", wrong[i]);
            CHECK(!fadrinzo_get_parts(overlay).count && !fadrinzo_get_parts(overlay).xy, "code %d", wrong[i]);
        }
    CHECK(fadrinzo_clip_lines(overlay, line, length, 1, 0, 0, 1, 2) == FADRINZO_BAD_ARGUMENT, "rounding");
    CHECK(fadrinzo_clip_lines(overlay, far, length, 1, 0, 0, 1, 0) == FADRINZO_POINT_OUT_OF_RANGE && !fadrinzo_get_parts(overlay).starts, "range");
    CHECK(fadrinzo_clip_lines(overlay, NULL, length, 1, 0, 0, 1, 0) == FADRINZO_BAD_ARGUMENT, "null");
    CHECK(fadrinzo_clip_lines(overlay, line, NULL, 1, 0, 0, 1, 0) == FADRINZO_BAD_ARGUMENT, "null");
    CHECK(fadrinzo_clip_lines(NULL, line, length, 1, 0, 0, 1, 0) == FADRINZO_BAD_ARGUMENT && !fadrinzo_get_parts(NULL).count, "null");
    CHECK(fadrinzo_clip_lines(overlay, NULL, none, 2, 0, 0, 1, 0) == FADRINZO_OK && !fadrinzo_get_parts(overlay).count, "no points");
    CHECK(fadrinzo_clip_lines(overlay, NULL, NULL, 0, 0, 0, 1, 0) == FADRINZO_OK && fadrinzo_get_parts(overlay).starts[0] == 0, "no lines");
    fadrinzo_free(overlay);
}

static void check_texts(void)
{
    static const int codes[] = {FADRINZO_OK, FADRINZO_NO_MEMORY, FADRINZO_COUNT_OUT_OF_RANGE, FADRINZO_POINT_OUT_OF_RANGE, FADRINZO_BAD_ARGUMENT,
                                FADRINZO_SUBJECT_NOT_EXACT, FADRINZO_CLIP_NOT_EXACT, 3, -1};
    static const char *const parts[] = {"done", "memory", "2147483647", "-1073741824 to 1073741823", "null",
                                         "the subject cross", "the clip cross", "no such status", "no such status"};
    for (size_t i = 0; i < sizeof codes / sizeof *codes; i++)
        CHECK(strstr(fadrinzo_text(codes[i]), parts[i]), "status %d", codes[i]);
    CHECK(fadrinzo_version() == FADRINZO_VERSION, "version");
}

int main(void)
{
    check_input(squares, 6, 1);
    check_input(triangles, 2, 0);
    check_reach_of_arrangements();
    check_middles();
    check_polygons();
    check_many_contours();
    check_tiles();
    check_relations();
    check_not_exact();
    check_refusals();
    check_splits();
    check_split_refusals();
    check_clips();
    check_far_clips();
    check_sides_of_clips();
    check_clip_refusals();
    check_texts();
    puts("all as the definitions say");
    return 0;
}
