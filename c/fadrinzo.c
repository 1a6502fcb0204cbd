/* The calls of fadrinzo.h over the exports of the proved library: arguments are tested, and results are kept. */
#include "fadrinzo.h"

#include "fadrinzo_exports.h"

#include <stdlib.h>

struct fadrinzo {
    fadrinzo_handle handle;
    fadrinzo_result result;
    fadrinzo_point *points;
    size_t *contour_starts;
    size_t *shape_starts;
    fadrinzo_segment *segments;
    size_t segment_count;
    fadrinzo_parts parts;
    fadrinzo_point *part_points;
    size_t *part_starts;
    size_t *part_lines;
    /* how many regions the engine keeps */
    size_t regions;
};

uint32_t fadrinzo_version(void)
{
    return FADRINZO_VERSION;
}

const char *fadrinzo_text(int status)
{
    switch (status) {
    case FADRINZO_OK: return "done";
    case FADRINZO_NO_MEMORY: return "there is not enough memory";
    case FADRINZO_COUNT_OUT_OF_RANGE: return "the contours wind more than 2147483647 times around a point";
    case FADRINZO_POINT_OUT_OF_RANGE: return "a coordinate is outside of -1073741824 to 1073741823";
    case FADRINZO_BAD_ARGUMENT: return "a pointer is null, no contours are arranged, a segment has no length or no count, or there is no such shape, rule, fill rule, relation, region or rounding";
    case FADRINZO_SUBJECT_NOT_EXACT: return "two edges of the subject cross at a point without integer coordinates";
    case FADRINZO_CLIP_NOT_EXACT: return "two edges of the clip cross at a point without integer coordinates";
    default: return "there is no such status";
    }
}

static void drop_result(fadrinzo *overlay)
{
    free(overlay->points);
    free(overlay->contour_starts);
    free(overlay->shape_starts);
    overlay->points = NULL;
    overlay->contour_starts = overlay->shape_starts = NULL;
    overlay->result = (fadrinzo_result){0};
}

static void drop_segments(fadrinzo *overlay)
{
    free(overlay->segments);
    overlay->segments = NULL;
    overlay->segment_count = 0;
}

static void drop_parts(fadrinzo *overlay)
{
    free(overlay->part_points);
    free(overlay->part_starts);
    free(overlay->part_lines);
    overlay->part_points = NULL;
    overlay->part_starts = overlay->part_lines = NULL;
    overlay->parts = (fadrinzo_parts){0};
}

fadrinzo *fadrinzo_new(void)
{
    fadrinzo *overlay = calloc(1, sizeof *overlay);
    if (overlay && !overlay_c_new(&overlay->handle, 256)) {
        free(overlay);
        return NULL;
    }
    return overlay;
}

void fadrinzo_free(fadrinzo *overlay)
{
    if (overlay) {
        drop_result(overlay);
        drop_segments(overlay);
        drop_parts(overlay);
        overlay_c_free(&overlay->handle);
        free(overlay);
    }
}

fadrinzo_status fadrinzo_clear(fadrinzo *overlay)
{
    if (!overlay)
        return FADRINZO_BAD_ARGUMENT;
    drop_result(overlay);
    overlay_c_clear(&overlay->handle);
    return FADRINZO_OK;
}

/* What an export returns where a box is no tile. */
enum { NO_TILE = 5 };

static int is_shape(int shape)
{
    return shape == FADRINZO_SUBJECT || shape == FADRINZO_CLIP;
}

fadrinzo_status fadrinzo_add_contour(fadrinzo *overlay, int shape, const int32_t *xy, size_t points)
{
    if (!overlay || (!xy && points) || !is_shape(shape))
        return FADRINZO_BAD_ARGUMENT;
    return (fadrinzo_status)overlay_c_add_contour(&overlay->handle, (const fadrinzo_point *)xy, points, (uint8_t)shape);
}

fadrinzo_status fadrinzo_add_contour_in_tile(fadrinzo *overlay, int shape, const int32_t *xy, size_t points, const fadrinzo_box *tile)
{
    if (!overlay || (!xy && points) || !is_shape(shape) || !tile)
        return FADRINZO_BAD_ARGUMENT;
    fadrinzo_tile borders = {.min_x = tile->min_x, .min_y = tile->min_y, .max_x = tile->max_x, .max_y = tile->max_y};
    const fadrinzo_point *first = (const fadrinzo_point *)xy;
    uint8_t status = overlay_c_add_contour_in_tile(&overlay->handle, first, points, (uint8_t)shape, &borders);
    return status == NO_TILE ? FADRINZO_BAD_ARGUMENT : (fadrinzo_status)status;
}

/* Whether points are in range. */
static int are_in_range(const int32_t *xy, size_t points)
{
    for (size_t i = 0; i < points; i++)
        for (size_t axis = 0; axis < 2; axis++)
            if (xy[2 * i + axis] < FADRINZO_MIN_COORD || xy[2 * i + axis] > FADRINZO_MAX_COORD)
                return 0;
    return 1;
}

/* The sign of the area of a ring of points in range, exactly: the halves of its terms are added up apart, so no sum leaves 64 bits. */
static int sign_of_area(const int32_t *xy, size_t points)
{
    int64_t high = 0, low = 0;
    for (size_t i = 0; i < points; i++) {
        size_t next = i + 1 < points ? i + 1 : 0;
        int64_t term = (int64_t)xy[2 * i] * xy[2 * next + 1] - (int64_t)xy[2 * i + 1] * xy[2 * next];
        int64_t rest = term & 0xffffffff;
        high += (term - rest) / 4294967296;
        low += rest;
    }
    high += low / 4294967296;
    return high < 0 ? -1 : high > 0 || low % 4294967296 != 0;
}

/* Adds a ring, turned if it runs the other way. */
static fadrinzo_status add_ring(fadrinzo *overlay, int shape, const int32_t *xy, size_t points, int wanted_sign)
{
    if (points > 1 && xy[0] == xy[2 * points - 2] && xy[1] == xy[2 * points - 1])
        points--;
    if (sign_of_area(xy, points) != -wanted_sign)
        return fadrinzo_add_contour(overlay, shape, xy, points);
    int32_t *turned = malloc(points * 2 * sizeof *turned);
    if (!turned)
        return FADRINZO_NO_MEMORY;
    for (size_t i = 0; i < points; i++) {
        turned[2 * i] = xy[2 * (points - 1 - i)];
        turned[2 * i + 1] = xy[2 * (points - 1 - i) + 1];
    }
    fadrinzo_status status = fadrinzo_add_contour(overlay, shape, turned, points);
    free(turned);
    return status;
}

/* How many points lists of such lengths have. */
static size_t points_of(const size_t *lengths, size_t count)
{
    size_t points = 0;
    for (size_t i = 0; i < count; i++)
        points += lengths[i];
    return points;
}

/* Adds the contour at an index of many, whose points are in range. */
typedef fadrinzo_status add_one(fadrinzo *overlay, int shape, const int32_t *xy, size_t points, size_t index);

static fadrinzo_status add_as_given(fadrinzo *overlay, int shape, const int32_t *xy, size_t points, size_t index)
{
    (void)index;
    return fadrinzo_add_contour(overlay, shape, xy, points);
}

static fadrinzo_status add_turned(fadrinzo *overlay, int shape, const int32_t *xy, size_t points, size_t index)
{
    return add_ring(overlay, shape, xy, points, index == 0 ? 1 : -1);
}

static fadrinzo_status add_each(fadrinzo *overlay, int shape, const int32_t *xy, const size_t *lengths, size_t count, add_one *add)
{
    if (!overlay || (!lengths && count) || !is_shape(shape))
        return FADRINZO_BAD_ARGUMENT;
    size_t points = points_of(lengths, count);
    if (!xy && points)
        return FADRINZO_BAD_ARGUMENT;
    if (!are_in_range(xy, points))
        return FADRINZO_POINT_OUT_OF_RANGE;
    size_t start = 0;
    for (size_t i = 0; i < count; i++) {
        fadrinzo_status status = add(overlay, shape, points ? xy + 2 * start : NULL, lengths[i], i);
        if (status != FADRINZO_OK)
            return status;
        start += lengths[i];
    }
    return FADRINZO_OK;
}

fadrinzo_status fadrinzo_add_contours(fadrinzo *overlay, int shape, const int32_t *xy, const size_t *lengths, size_t contours)
{
    return add_each(overlay, shape, xy, lengths, contours, add_as_given);
}

fadrinzo_status fadrinzo_add_polygon(fadrinzo *overlay, int shape, const int32_t *xy, const size_t *lengths, size_t rings)
{
    return add_each(overlay, shape, xy, lengths, rings, add_turned);
}

/* Makes starts of so many lengths, with one element of room behind them. */
static void sum_up(size_t *lengths, size_t count)
{
    size_t start = 0;
    for (size_t i = 0; i <= count; i++) {
        size_t length = i < count ? lengths[i] : 0;
        lengths[i] = start;
        start += length;
    }
}

/* A list of so many elements and one more, or null. */
static void *room(size_t count, size_t size)
{
    return count < SIZE_MAX / size ? malloc((count + 1) * size) : NULL;
}

/* Copies the result out of the engine, with how far edges were moved. */
static fadrinzo_status keep_result(fadrinzo *overlay, uint64_t reach)
{
    fadrinzo_sizes sizes = overlay_c_sizes(&overlay->handle);
    overlay->points = room(sizes.contour_points, sizeof *overlay->points);
    overlay->contour_starts = room(sizes.contours, sizeof *overlay->contour_starts);
    overlay->shape_starts = room(sizes.shapes, sizeof *overlay->shape_starts);
    if (!overlay->points || !overlay->contour_starts || !overlay->shape_starts) {
        drop_result(overlay);
        return FADRINZO_NO_MEMORY;
    }
    overlay_c_contours(&overlay->handle, overlay->contour_starts, sizes.contours, overlay->points, sizes.contour_points);
    overlay_c_shape_lengths(&overlay->handle, overlay->shape_starts, sizes.shapes);
    sum_up(overlay->contour_starts, sizes.contours);
    sum_up(overlay->shape_starts, sizes.shapes);
    overlay->result = (fadrinzo_result){
        .xy = &overlay->points->x,
        .contour_starts = overlay->contour_starts,
        .shape_starts = overlay->shape_starts,
        .points = sizes.contour_points,
        .contours = sizes.contours,
        .shapes = sizes.shapes,
        .reach = reach,
    };
    return FADRINZO_OK;
}

/* Copies the result of a call that reports how far edges were moved. */
static fadrinzo_status keep_reported(fadrinzo *overlay)
{
    return keep_result(overlay, overlay_c_report(&overlay->handle).reach.low);
}

/* Drops the result, if there is an overlay: one that fails leaves none. */
static fadrinzo_status refuse(fadrinzo *overlay)
{
    if (overlay)
        drop_result(overlay);
    return FADRINZO_BAD_ARGUMENT;
}

static int is_rule(int rule)
{
    return (rule >= FADRINZO_RULE_SUBJECT && rule <= FADRINZO_RULE_XOR)
        || (rule >= FADRINZO_RULE_TABLE && rule < FADRINZO_RULE_TABLE + 16);
}

static int is_fill_rule(int fill_rule)
{
    return fill_rule >= FADRINZO_FILL_EVEN_ODD && fill_rule <= FADRINZO_FILL_NEGATIVE;
}

static int is_rounding(int rounding)
{
    return rounding == FADRINZO_SNAP_ROUNDING || rounding == FADRINZO_PAIRWISE;
}

static int is_relation(int relation)
{
    return relation >= FADRINZO_INTERIORS_MEET && relation <= FADRINZO_DISJOINT;
}

/* The strategy Auto, snap rounding. */
static fadrinzo_settings settings_for(int fill_rule)
{
    return (fadrinzo_settings){.progression = 1, .strategy = 3, .fill_rule = (uint8_t)fill_rule};
}

fadrinzo_status fadrinzo_given(fadrinzo *overlay, int shape)
{
    if (!overlay || !is_shape(shape))
        return refuse(overlay);
    drop_result(overlay);
    fadrinzo_status status = (fadrinzo_status)overlay_c_given(&overlay->handle, (uint8_t)shape);
    return status == FADRINZO_OK ? keep_result(overlay, 0) : status;
}

typedef uint8_t overlay_call(fadrinzo_handle *handle, const fadrinzo_settings *settings, uint8_t rule);

static fadrinzo_status make(fadrinzo *overlay, int rule, int fill_rule, overlay_call *call)
{
    if (!overlay || !is_rule(rule) || !is_fill_rule(fill_rule))
        return refuse(overlay);
    drop_result(overlay);
    fadrinzo_settings settings = settings_for(fill_rule);
    fadrinzo_status status = (fadrinzo_status)call(&overlay->handle, &settings, (uint8_t)rule);
    return status == FADRINZO_OK ? keep_reported(overlay) : status;
}

fadrinzo_status fadrinzo_overlay(fadrinzo *overlay, int rule, int fill_rule)
{
    return make(overlay, rule, fill_rule, overlay_c_polygons);
}

fadrinzo_status fadrinzo_overlay_shapes(fadrinzo *overlay, int rule, int fill_rule)
{
    return make(overlay, rule, fill_rule, overlay_c_shapes);
}

fadrinzo_status fadrinzo_overlay_by_rules(fadrinzo *overlay, const int *rules, size_t count, int fill_rule)
{
    if (!overlay || (!rules && count) || !is_fill_rule(fill_rule))
        return refuse(overlay);
    for (size_t i = 0; i < count; i++)
        if (!is_rule(rules[i]))
            return refuse(overlay);
    drop_result(overlay);
    uint8_t *codes = room(count, sizeof *codes);
    if (!codes)
        return FADRINZO_NO_MEMORY;
    for (size_t i = 0; i < count; i++)
        codes[i] = (uint8_t)rules[i];
    fadrinzo_settings settings = settings_for(fill_rule);
    fadrinzo_status status = (fadrinzo_status)overlay_c_polygons_by_rules(&overlay->handle, &settings, codes, count);
    free(codes);
    return status == FADRINZO_OK ? keep_reported(overlay) : status;
}

fadrinzo_status fadrinzo_arrange(fadrinzo *overlay, int fill_rule)
{
    if (!overlay || !is_fill_rule(fill_rule))
        return FADRINZO_BAD_ARGUMENT;
    fadrinzo_settings settings = settings_for(fill_rule);
    return (fadrinzo_status)overlay_c_arrange(&overlay->handle, &settings);
}

typedef uint8_t arranged_call(fadrinzo_handle *handle, uint8_t rule, bool corners);

/* What the exports return where no contours were arranged. */
enum { NOT_ARRANGED = 3 };

static fadrinzo_status make_arranged(fadrinzo *overlay, int rule, int corners, arranged_call *call)
{
    if (!overlay || !is_rule(rule))
        return refuse(overlay);
    drop_result(overlay);
    uint8_t status = call(&overlay->handle, (uint8_t)rule, corners != 0);
    if (status == NOT_ARRANGED)
        return FADRINZO_BAD_ARGUMENT;
    if (status != FADRINZO_OK)
        return (fadrinzo_status)status;
    return keep_result(overlay, overlay_c_arranged_report(&overlay->handle).reach.low);
}

fadrinzo_status fadrinzo_arranged(fadrinzo *overlay, int rule, int corners)
{
    return make_arranged(overlay, rule, corners, overlay_c_arranged_contours);
}

fadrinzo_status fadrinzo_arranged_shapes(fadrinzo *overlay, int rule, int corners)
{
    return make_arranged(overlay, rule, corners, overlay_c_arranged_shapes);
}

fadrinzo_location fadrinzo_locate(fadrinzo *overlay, int shape, int fill_rule, int32_t x, int32_t y)
{
    if (!overlay || !is_shape(shape) || !is_fill_rule(fill_rule))
        return FADRINZO_LOCATION_BAD_ARGUMENT;
    fadrinzo_point point = {.x = x, .y = y};
    uint8_t code = overlay_c_locate(&overlay->handle, &point, (uint8_t)shape, (uint8_t)fill_rule);
    /* a point out of range lies outside of all contours */
    return code > FADRINZO_OUTSIDE ? FADRINZO_OUTSIDE : (fadrinzo_location)code;
}

/* Writes whether a relation holds, unless the call was refused. */
static fadrinzo_status write_holds(uint8_t status, bool found, int *holds)
{
    if (status == FADRINZO_OK)
        *holds = found;
    return (fadrinzo_status)status;
}

fadrinzo_status fadrinzo_relation(fadrinzo *overlay, int relation, int fill_rule, int *holds)
{
    if (!overlay || !holds || !is_relation(relation) || !is_fill_rule(fill_rule))
        return FADRINZO_BAD_ARGUMENT;
    fadrinzo_settings settings = settings_for(fill_rule);
    bool found = false;
    uint8_t status = overlay_c_relation(&overlay->handle, &settings, (uint8_t)relation, &found);
    return write_holds(status, found, holds);
}

/* Writes the letters of a matrix. */
static void write_letters(const fadrinzo_matrix *m, char letters[10])
{
    const bool entries[9] = {m->interior_interior, m->interior_boundary, m->interior_exterior, m->boundary_interior, m->boundary_boundary,
                             m->boundary_exterior, m->exterior_interior, m->exterior_boundary, m->exterior_exterior};
    for (size_t i = 0; i < 9; i++)
        letters[i] = entries[i] ? 'T' : 'F';
    letters[9] = 0;
}

fadrinzo_status fadrinzo_relate(fadrinzo *overlay, int fill_rule, char letters[10])
{
    if (!overlay || !letters || !is_fill_rule(fill_rule))
        return FADRINZO_BAD_ARGUMENT;
    fadrinzo_settings settings = settings_for(fill_rule);
    fadrinzo_matrix m = {0};
    uint8_t status = overlay_c_relate(&overlay->handle, &settings, &m);
    if (status == FADRINZO_OK)
        write_letters(&m, letters);
    return (fadrinzo_status)status;
}

fadrinzo_status fadrinzo_add_region(fadrinzo *overlay, int fill_rule, size_t *number)
{
    if (!overlay || !number || !is_fill_rule(fill_rule))
        return FADRINZO_BAD_ARGUMENT;
    fadrinzo_settings settings = settings_for(fill_rule);
    uint8_t status = overlay_c_add_region(&overlay->handle, &settings);
    if (status == FADRINZO_OK)
        *number = overlay->regions++;
    return (fadrinzo_status)status;
}

fadrinzo_status fadrinzo_region_relation(fadrinzo *overlay, size_t first, size_t second, int relation, int *holds)
{
    if (!overlay || !holds || !is_relation(relation) || first >= overlay->regions || second >= overlay->regions)
        return FADRINZO_BAD_ARGUMENT;
    fadrinzo_settings settings = settings_for(FADRINZO_FILL_NON_ZERO);
    bool found = false;
    uint8_t status = overlay_c_region_relation(&overlay->handle, &settings, first, second, (uint8_t)relation, &found);
    return write_holds(status, found, holds);
}

fadrinzo_status fadrinzo_region_relate(fadrinzo *overlay, size_t first, size_t second, char letters[10])
{
    if (!overlay || !letters || first >= overlay->regions || second >= overlay->regions)
        return FADRINZO_BAD_ARGUMENT;
    fadrinzo_settings settings = settings_for(FADRINZO_FILL_NON_ZERO);
    fadrinzo_matrix m = {0};
    uint8_t status = overlay_c_region_relate(&overlay->handle, &settings, first, second, &m);
    if (status == FADRINZO_OK)
        write_letters(&m, letters);
    return (fadrinzo_status)status;
}

/* What the exports return where segments may not be split: an end is out of range, or a segment has no length or no count. */
enum { NOT_SPLITTABLE = 3 };

/* Whether the ends of segments are in range. */
static int have_ends_in_range(const fadrinzo_edge *edges, size_t count)
{
    for (size_t i = 0; i < count; i++) {
        const int32_t ends[4] = {edges[i].ax, edges[i].ay, edges[i].bx, edges[i].by};
        if (!are_in_range(ends, 2))
            return 0;
    }
    return 1;
}

/* Copies the segments out of the engine. */
static fadrinzo_status keep_segments(fadrinzo *overlay)
{
    size_t count = overlay_c_sizes(&overlay->handle).segments;
    overlay->segments = room(count, sizeof *overlay->segments);
    if (!overlay->segments)
        return FADRINZO_NO_MEMORY;
    overlay_c_segments(&overlay->handle, overlay->segments, count);
    overlay->segment_count = count;
    return FADRINZO_OK;
}

fadrinzo_status fadrinzo_split(fadrinzo *overlay, const fadrinzo_edge *edges, size_t count, int rounding)
{
    if (!overlay)
        return FADRINZO_BAD_ARGUMENT;
    drop_segments(overlay);
    if ((!edges && count) || !is_rounding(rounding))
        return FADRINZO_BAD_ARGUMENT;
    if (!have_ends_in_range(edges, count))
        return FADRINZO_POINT_OUT_OF_RANGE;
    fadrinzo_settings settings = settings_for(FADRINZO_FILL_NON_ZERO);
    settings.rounding = (uint8_t)rounding;
    uint8_t status = overlay_c_split(&overlay->handle, (const fadrinzo_segment *)edges, count, &settings);
    if (status == NOT_SPLITTABLE)
        return FADRINZO_BAD_ARGUMENT;
    return status == FADRINZO_OK ? keep_segments(overlay) : (fadrinzo_status)status;
}

fadrinzo_edges fadrinzo_get_edges(const fadrinzo *overlay)
{
    if (!overlay)
        return (fadrinzo_edges){0};
    return (fadrinzo_edges){.edges = (const fadrinzo_edge *)overlay->segments, .count = overlay->segment_count};
}

/* A step of a line, between two points. */
typedef struct {
    size_t line;
    fadrinzo_point a;
    fadrinzo_point b;
} step;

/* A part of the step at an index, in its direction. Its middle lies at 2 * half + rest along the step, with a rest of 0 or 1. */
typedef struct {
    size_t step;
    int64_t half;
    int64_t rest;
    fadrinzo_point start;
    fadrinzo_point end;
} piece;

/* The lists of one clip of lines. */
typedef struct {
    step *steps;
    size_t step_count;
    /* the box of all steps */
    fadrinzo_box box;
    size_t *contour_lengths;
    fadrinzo_point *contour_points;
    /* sides of contours, and steps behind so many of them */
    fadrinzo_line *given;
    size_t given_count;
    size_t side_count;
    fadrinzo_line *segments;
    fadrinzo_link *links;
    size_t *counts;
    size_t *numbers;
    piece *pieces;
    size_t piece_count;
    /* the ends of sides, in order */
    fadrinzo_point *corners;
    size_t corner_count;
} clipping;

static void drop_clipping(clipping *it)
{
    free(it->steps);
    free(it->contour_lengths);
    free(it->contour_points);
    free(it->given);
    free(it->segments);
    free(it->links);
    free(it->counts);
    free(it->numbers);
    free(it->pieces);
    free(it->corners);
}

static int is_same_point(fadrinzo_point p, fadrinzo_point q)
{
    return p.x == q.x && p.y == q.y;
}

static int32_t lesser(int32_t p, int32_t q)
{
    return p < q ? p : q;
}

static int32_t greater(int32_t p, int32_t q)
{
    return p < q ? q : p;
}

/* Keeps a step, whose two ends differ. */
static void keep_step(clipping *it, size_t line, fadrinzo_point a, fadrinzo_point b)
{
    if (!it->step_count)
        it->box = (fadrinzo_box){.min_x = a.x, .min_y = a.y, .max_x = a.x, .max_y = a.y};
    it->box.min_x = lesser(it->box.min_x, lesser(a.x, b.x));
    it->box.min_y = lesser(it->box.min_y, lesser(a.y, b.y));
    it->box.max_x = greater(it->box.max_x, greater(a.x, b.x));
    it->box.max_y = greater(it->box.max_y, greater(a.y, b.y));
    it->steps[it->step_count++] = (step){.line = line, .a = a, .b = b};
}

/* Keeps the steps of lines, in order, but those between two equal points. */
static fadrinzo_status take_steps(clipping *it, const int32_t *xy, const size_t *lengths, size_t lines)
{
    it->steps = room(points_of(lengths, lines), sizeof *it->steps);
    if (!it->steps)
        return FADRINZO_NO_MEMORY;
    const fadrinzo_point *points = (const fadrinzo_point *)xy;
    size_t start = 0;
    for (size_t line = 0; line < lines; line++) {
        for (size_t i = 1; i < lengths[line]; i++)
            if (!is_same_point(points[start + i - 1], points[start + i]))
                keep_step(it, line, points[start + i - 1], points[start + i]);
        start += lengths[line];
    }
    return FADRINZO_OK;
}

/* How far beside the box of all lines points have to lie that are left out, in units. */
enum { FAR_BESIDE = 1024 };

/* On which sides of a box a point lies, far from it: a sum of 1 for left, 2 for right, 4 for below and 8 for above. */
static unsigned sides_of(const fadrinzo_box *box, fadrinzo_point point)
{
    int64_t x = point.x, y = point.y;
    unsigned left = x + FAR_BESIDE < box->min_x, right = box->max_x < x - FAR_BESIDE;
    unsigned below = y + FAR_BESIDE < box->min_y, above = box->max_y < y - FAR_BESIDE;
    return left | right << 1 | below << 2 | above << 3;
}

/* The points of a contour that are kept beside the box: those within a run along one side of it, far from it, are not. Such a run lies in a
   half-plane that has no point of the box. So does the step from its first point to its last one, and both wind around each point of the
   box alike. */
typedef struct {
    clipping *to;
    fadrinzo_point kept;
    fadrinzo_point last;
    /* on which sides all points from the last one that is kept lie */
    unsigned shared;
} run;

/* Gives the side from the point that was kept last to a point, and keeps that. */
static void keep_point(run *it, fadrinzo_point point)
{
    if (!is_same_point(it->kept, point))
        it->to->given[it->to->given_count++]
            = (fadrinzo_line){.ax = it->kept.x, .ay = it->kept.y, .bx = point.x, .by = point.y, .subj = 1};
    it->kept = point;
}

static void go_to(run *it, fadrinzo_point point)
{
    unsigned sides = sides_of(&it->to->box, point);
    if (!(it->shared & sides)) {
        keep_point(it, it->last);
        it->shared = sides_of(&it->to->box, it->last);
    }
    it->last = point;
    it->shared &= sides;
    if (!it->shared) {
        it->shared = sides;
        keep_point(it, point);
    }
}

/* Gives sides that wind around each point of the box as a contour does, and that are those of the contour near it: at most one for each of
   its points, and two. */
static void give_sides(clipping *it, const fadrinzo_point *points, size_t count)
{
    if (!count)
        return;
    run of = {.to = it, .kept = points[0], .last = points[0], .shared = sides_of(&it->box, points[0])};
    for (size_t i = 0; i <= count; i++)
        go_to(&of, points[i < count ? i : 0]);
    keep_point(&of, points[0]);
}

/* Gives the sides of the subject, and behind them the steps. */
static fadrinzo_status give_all(clipping *it, fadrinzo *overlay)
{
    fadrinzo_status status = (fadrinzo_status)overlay_c_given(&overlay->handle, FADRINZO_SUBJECT);
    if (status != FADRINZO_OK)
        return status;
    fadrinzo_sizes sizes = overlay_c_sizes(&overlay->handle);
    it->contour_lengths = room(sizes.contours, sizeof *it->contour_lengths);
    it->contour_points = room(sizes.contour_points, sizeof *it->contour_points);
    it->given = room(sizes.contour_points + 2 * sizes.contours + it->step_count, sizeof *it->given);
    if (!it->contour_lengths || !it->contour_points || !it->given)
        return FADRINZO_NO_MEMORY;
    overlay_c_contours(&overlay->handle, it->contour_lengths, sizes.contours, it->contour_points, sizes.contour_points);
    const fadrinzo_point *points = it->contour_points;
    for (size_t i = 0; i < sizes.contours; points += it->contour_lengths[i++])
        give_sides(it, points, it->contour_lengths[i]);
    it->side_count = it->given_count;
    for (size_t i = 0; i < it->step_count; i++) {
        fadrinzo_point a = it->steps[i].a, b = it->steps[i].b;
        it->given[it->given_count++] = (fadrinzo_line){.ax = a.x, .ay = a.y, .bx = b.x, .by = b.y, .mask = 2};
    }
    return FADRINZO_OK;
}

/* How far along a step a point in range lies. */
static int64_t along(const step *of, fadrinzo_point point)
{
    int64_t dx = (int64_t)of->b.x - of->a.x, dy = (int64_t)of->b.y - of->a.y;
    return ((int64_t)point.x - of->a.x) * dx + ((int64_t)point.y - of->a.y) * dy;
}

/* Half of a number, rounded down. */
static int64_t half_of(int64_t number)
{
    return number / 2 - (number % 2 < 0);
}

/* Keeps the piece of the step at an index that a segment is. */
static void keep_piece(clipping *it, size_t index, const fadrinzo_line *segment)
{
    fadrinzo_point p = {.x = segment->ax, .y = segment->ay}, q = {.x = segment->bx, .y = segment->by};
    int64_t of_p = along(&it->steps[index], p), of_q = along(&it->steps[index], q);
    int64_t rests = of_p - 2 * half_of(of_p) + of_q - 2 * half_of(of_q);
    piece found = {.step = index, .half = half_of(of_p) + half_of(of_q) + rests / 2, .rest = rests % 2, .start = p, .end = q};
    if (of_q < of_p) {
        found.start = q;
        found.end = p;
    }
    it->pieces[it->piece_count++] = found;
}

static int compare_numbers(int64_t p, int64_t q)
{
    return (p > q) - (p < q);
}

static int compare_points(const void *one, const void *other)
{
    const fadrinzo_point *p = one, *q = other;
    int found = compare_numbers(p->x, q->x);
    return found ? found : compare_numbers(p->y, q->y);
}

/* By their steps, and then along them. */
static int compare_pieces(const void *one, const void *other)
{
    const piece *p = one, *q = other;
    int found = (p->step > q->step) - (p->step < q->step);
    found = found ? found : compare_numbers(p->half, q->half);
    found = found ? found : compare_numbers(p->rest, q->rest);
    found = found ? found : compare_points(&p->start, &q->start);
    return found ? found : compare_points(&p->end, &q->end);
}

typedef int comparison(const void *one, const void *other);

/* A list that is sorted: items of so many bytes, by a comparison. */
typedef struct {
    char *items;
    size_t size;
    comparison *compare;
} sorting;

static void exchange(const sorting *it, size_t one, size_t other)
{
    char *p = it->items + one * it->size, *q = it->items + other * it->size;
    for (size_t i = 0; i < it->size; i++) {
        char kept = p[i];
        p[i] = q[i];
        q[i] = kept;
    }
}

static int is_before(const sorting *it, size_t one, size_t other)
{
    return it->compare(it->items + one * it->size, it->items + other * it->size) < 0;
}

/* Moves an item down the heap of the first so many until none below it comes behind it. */
static void sift(const sorting *it, size_t at, size_t count)
{
    for (size_t child = 2 * at + 1; child < count; child = 2 * at + 1) {
        if (child + 1 < count && is_before(it, child, child + 1))
            child++;
        if (!is_before(it, at, child))
            return;
        exchange(it, at, child);
        at = child;
    }
}

/* Sorts a list as a heap, in place. The page in the browser has no C library, and so no qsort. */
static void sort(void *items, size_t count, size_t size, comparison *compare)
{
    sorting it = {.items = items, .size = size, .compare = compare};
    for (size_t at = count / 2; at > 0; at--)
        sift(&it, at - 1, count);
    for (size_t end = count; end > 1; end--) {
        exchange(&it, 0, end - 1);
        sift(&it, 0, end - 1);
    }
}

/* Puts the pieces and the corners in order, each piece once. */
static void sort_pieces(clipping *it)
{
    sort(it->pieces, it->piece_count, sizeof *it->pieces, compare_pieces);
    sort(it->corners, it->corner_count, sizeof *it->corners, compare_points);
    size_t kept = 0;
    for (size_t i = 0; i < it->piece_count; i++)
        if (!i || compare_pieces(&it->pieces[kept - 1], &it->pieces[i]))
            it->pieces[kept++] = it->pieces[i];
    it->piece_count = kept;
}

/* Copies what a clip left out of the engine. */
static fadrinzo_status copy_clip(clipping *it, fadrinzo *overlay, const fadrinzo_sizes *sizes)
{
    it->segments = room(sizes->lines, sizeof *it->segments);
    it->links = room(sizes->links, sizeof *it->links);
    it->counts = room(sizes->line_counts, sizeof *it->counts);
    it->numbers = room(sizes->line_numbers, sizeof *it->numbers);
    it->pieces = room(sizes->line_numbers, sizeof *it->pieces);
    it->corners = room(2 * sizes->lines, sizeof *it->corners);
    if (!it->segments || !it->links || !it->counts || !it->numbers || !it->pieces || !it->corners)
        return FADRINZO_NO_MEMORY;
    overlay_c_lines(&overlay->handle, it->segments, sizes->lines);
    overlay_c_links(&overlay->handle, it->links, sizes->links);
    overlay_c_line_numbers(&overlay->handle, it->counts, sizes->line_counts, it->numbers, sizes->line_numbers);
    return FADRINZO_OK;
}

/* Whether a link is a segment. */
static int is_of_segment(const fadrinzo_link *link, const fadrinzo_line *segment)
{
    return link->ax == segment->ax && link->ay == segment->ay && link->bx == segment->bx && link->by == segment->by;
}

/* Finds the pieces of steps that are kept, and the ends of sides. */
static fadrinzo_status find_pieces(clipping *it, fadrinzo *overlay)
{
    fadrinzo_sizes sizes = overlay_c_sizes(&overlay->handle);
    fadrinzo_status status = copy_clip(it, overlay, &sizes);
    if (status != FADRINZO_OK)
        return status;
    const size_t *numbers = it->numbers;
    size_t link = 0;
    for (size_t i = 0; i < sizes.lines; numbers += it->counts[i++]) {
        const fadrinzo_line *segment = &it->segments[i];
        /* links are in the order of the segments */
        if (link < sizes.links && is_of_segment(&it->links[link], segment)) {
            link++;
            for (size_t of = 0; of < it->counts[i]; of++)
                keep_piece(it, numbers[of] - it->side_count, segment);
        }
        if (segment->subj) {
            it->corners[it->corner_count++] = (fadrinzo_point){.x = segment->ax, .y = segment->ay};
            it->corners[it->corner_count++] = (fadrinzo_point){.x = segment->bx, .y = segment->by};
        }
    }
    sort_pieces(it);
    return FADRINZO_OK;
}

/* Whether a part goes on with the piece at an index: from the one before it, on its step or from the end of the step before. */
static int goes_on(const clipping *it, size_t index)
{
    if (!index)
        return 0;
    const piece *last = &it->pieces[index - 1], *next = &it->pieces[index];
    const step *from = &it->steps[last->step];
    int is_next_step = next->step == last->step + 1 && it->steps[next->step].line == from->line && is_same_point(last->end, from->b);
    return is_same_point(last->end, next->start) && (next->step == last->step || is_next_step);
}

/* Whether a point is an end of a side. */
static int is_corner(const clipping *it, fadrinzo_point point)
{
    size_t from = 0, to = it->corner_count;
    while (from < to) {
        size_t middle = from + (to - from) / 2;
        int found = compare_points(&it->corners[middle], &point);
        if (!found)
            return 1;
        if (found < 0)
            from = middle + 1;
        else
            to = middle;
    }
    return 0;
}

/* Keeps the parts that pieces make up. Points at which lines alone meet are left out. */
static fadrinzo_status keep_parts(fadrinzo *overlay, const clipping *it)
{
    overlay->part_points = room(2 * it->piece_count, sizeof *overlay->part_points);
    overlay->part_starts = room(it->piece_count, sizeof *overlay->part_starts);
    overlay->part_lines = room(it->piece_count, sizeof *overlay->part_lines);
    if (!overlay->part_points || !overlay->part_starts || !overlay->part_lines) {
        drop_parts(overlay);
        return FADRINZO_NO_MEMORY;
    }
    size_t points = 0, count = 0;
    for (size_t i = 0; i < it->piece_count; i++) {
        const piece *next = &it->pieces[i];
        if (!goes_on(it, i)) {
            overlay->part_starts[count] = points;
            overlay->part_lines[count++] = it->steps[next->step].line;
            overlay->part_points[points++] = next->start;
        } else if (next->step == it->pieces[i - 1].step && !is_corner(it, next->start))
            points--;
        overlay->part_points[points++] = next->end;
    }
    overlay->part_starts[count] = points;
    overlay->parts = (fadrinzo_parts){
        .xy = &overlay->part_points->x, .starts = overlay->part_starts, .lines = overlay->part_lines, .points = points, .count = count};
    return FADRINZO_OK;
}

/* Clips the steps, by what the engine is set to. */
static fadrinzo_status clip_steps(fadrinzo *overlay, clipping *it, const fadrinzo_settings *settings, bool invert, bool boundary_included)
{
    fadrinzo_status status = FADRINZO_OK;
    if (it->step_count) {
        status = give_all(it, overlay);
        if (status == FADRINZO_OK)
            status = (fadrinzo_status)overlay_c_clip_with_numbers(
                &overlay->handle, it->given, it->given_count, settings, invert, boundary_included);
        if (status == FADRINZO_OK)
            status = find_pieces(it, overlay);
    }
    return status == FADRINZO_OK ? keep_parts(overlay, it) : status;
}

fadrinzo_status fadrinzo_clip_lines(fadrinzo *overlay, const int32_t *xy, const size_t *lengths, size_t lines, int invert, int boundary_included,
                                    int fill_rule, int rounding)
{
    if (!overlay)
        return FADRINZO_BAD_ARGUMENT;
    drop_parts(overlay);
    if ((!lengths && lines) || !is_fill_rule(fill_rule) || !is_rounding(rounding))
        return FADRINZO_BAD_ARGUMENT;
    size_t points = points_of(lengths, lines);
    if (!xy && points)
        return FADRINZO_BAD_ARGUMENT;
    if (!are_in_range(xy, points))
        return FADRINZO_POINT_OUT_OF_RANGE;
    fadrinzo_settings settings = settings_for(fill_rule);
    settings.rounding = (uint8_t)rounding;
    clipping it = {0};
    fadrinzo_status status = take_steps(&it, xy, lengths, lines);
    if (status == FADRINZO_OK)
        status = clip_steps(overlay, &it, &settings, invert != 0, boundary_included != 0);
    drop_clipping(&it);
    return status;
}

fadrinzo_parts fadrinzo_get_parts(const fadrinzo *overlay)
{
    return overlay ? overlay->parts : (fadrinzo_parts){0};
}

fadrinzo_result fadrinzo_get(const fadrinzo *overlay)
{
    return overlay ? overlay->result : (fadrinzo_result){0};
}
