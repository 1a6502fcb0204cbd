/* Overlays of polygons with whole coordinates. Every argument of these calls is tested. Below them lie the proved exports of
   libfadrinzo_exports.a, which fadrinzo_exports.h declares, and which test nothing. */
#ifndef FADRINZO_H
#define FADRINZO_H

#include <stddef.h>
#include <stdint.h>

#ifdef __cplusplus
extern "C" {
#endif

/* The version of these declarations. fadrinzo_version returns that of the library. */
#define FADRINZO_VERSION 2

/* The least and the greatest coordinate. */
#define FADRINZO_MIN_COORD (-1073741824)
#define FADRINZO_MAX_COORD 1073741823

/* What a call returns. After anything but FADRINZO_OK the overlay may be used again. */
typedef enum {
    FADRINZO_OK = 0,
    FADRINZO_NO_MEMORY = 1,
    FADRINZO_COUNT_OUT_OF_RANGE = 2,
    FADRINZO_POINT_OUT_OF_RANGE = 4,
    FADRINZO_BAD_ARGUMENT = 5,
    FADRINZO_SUBJECT_NOT_EXACT = 6,
    FADRINZO_CLIP_NOT_EXACT = 7
} fadrinzo_status;

/* The shape to which a contour is added. */
enum { FADRINZO_SUBJECT = 0, FADRINZO_CLIP = 1 };

/* Which points an overlay keeps, by whether they are in the subject and in the clip. */
enum {
    FADRINZO_RULE_SUBJECT = 0,
    FADRINZO_RULE_CLIP = 1,
    FADRINZO_RULE_INTERSECT = 2,
    FADRINZO_RULE_UNION = 3,
    FADRINZO_RULE_DIFFERENCE = 4,
    FADRINZO_RULE_INVERSE_DIFFERENCE = 5,
    FADRINZO_RULE_XOR = 6,
    /* and, plus a table of 0 to 15, those that the table keeps: bit s + 2 c is for points with s and c, 1 for inside */
    FADRINZO_RULE_TABLE = 16
};

/* Which points are inside contours, by how often these wind around them. */
enum {
    FADRINZO_FILL_EVEN_ODD = 0,
    FADRINZO_FILL_NON_ZERO = 1,
    FADRINZO_FILL_POSITIVE = 2,
    FADRINZO_FILL_NEGATIVE = 3
};

/* Where a point lies. */
typedef enum {
    FADRINZO_INSIDE = 0,
    FADRINZO_ON_BOUNDARY = 1,
    FADRINZO_OUTSIDE = 2,
    FADRINZO_LOCATION_BAD_ARGUMENT = 5
} fadrinzo_location;

/* A relation of the subject and the clip, by the points of the plane with any rational coordinates. */
enum {
    /* some point is inside both */
    FADRINZO_INTERIORS_MEET = 0,
    /* each point inside the clip is inside the subject */
    FADRINZO_COVERS = 1,
    /* each point inside the subject is inside the clip */
    FADRINZO_IS_WITHIN = 2,
    /* each point is inside both, or inside neither */
    FADRINZO_SAME_REGION = 3,
    /* they share a point, inside or on their boundaries, and no point is inside both */
    FADRINZO_TOUCH = 4,
    /* they share no point, neither inside nor on their boundaries */
    FADRINZO_DISJOINT = 5
};

/* How crossings of segments are rounded that have no integer coordinates. */
enum {
    /* by snap rounding, in one pass: no segment moves by more than half a unit, in x and in y, and few nearly parallel ones leave few */
    FADRINZO_SNAP_ROUNDING = 0,
    /* pair by pair, pass after pass, as i_overlay does: six nearly parallel segments can leave hundreds of thousands */
    FADRINZO_PAIRWISE = 1
};

/* The contours of a subject and of a clip, and the result of their last overlay. Of use to one thread at a time. */
typedef struct fadrinzo fadrinzo;

/* A segment from a to b, and how often it winds for the subject and for the clip: above 0 from a to b, below 0 from b to a. */
typedef struct {
    int32_t ax;
    int32_t ay;
    int32_t bx;
    int32_t by;
    int32_t subject;
    int32_t clip;
} fadrinzo_edge;

/* The segments that a split left, by their ends in x and then in y. Valid until the next split on the overlay. */
typedef struct {
    const fadrinzo_edge *edges;
    size_t count;
} fadrinzo_edges;

/* The parts of lines that a clip kept: points as x, y, x, y, .., part after part. Part i has the points from starts[i] to before
   starts[i + 1], and is one of line lines[i], from 0. Valid until the next clip of lines on the overlay. */
typedef struct {
    const int32_t *xy;
    const size_t *starts;
    const size_t *lines;
    size_t points;
    size_t count;
} fadrinzo_parts;

/* The result of the last overlay: points as x, y, x, y, .., contour after contour, and contours shape after shape. Contour i has the
   points from contour_starts[i] to before contour_starts[i + 1], and shape i the contours from shape_starts[i] to before
   shape_starts[i + 1], its outer boundary first. There are no shapes after fadrinzo_overlay. All is valid until the next call
   on the overlay but fadrinzo_locate and those on relations and regions. */
typedef struct {
    const int32_t *xy;
    const size_t *contour_starts;
    const size_t *shape_starts;
    size_t points;
    size_t contours;
    size_t shapes;
    /* How far edges were moved at most, in x and in y, in halves of a unit: by this overlay, or by the arrangement from which it comes.
       0 if no two edges cross at a point without whole coordinates, and never more than 1. */
    uint64_t reach;
} fadrinzo_result;

/* The version of the library. */
uint32_t fadrinzo_version(void);

/* A sentence for a status. */
const char *fadrinzo_text(int status);

/* Makes an overlay of no contours. Null if there is no memory. */
fadrinzo *fadrinzo_new(void);

/* Frees an overlay. Null is allowed. */
void fadrinzo_free(fadrinzo *overlay);

/* Drops the contours and the result. */
fadrinzo_status fadrinzo_clear(fadrinzo *overlay);

/* Adds a contour of so many points, each x and y, to the subject or to the clip. Under non-zero two contours that overlap and run in
   opposite directions cancel. Under even-odd the direction changes the region by no more than half a unit, but it may change points:
   edges with the same two ends cancel before anything is cut if they run against one another, and cut others if they run alike. */
fadrinzo_status fadrinzo_add_contour(fadrinzo *overlay, int shape, const int32_t *xy, size_t points);

/* Adds so many contours, as fadrinzo_add_contour adds each: contour i has lengths[i] points, behind those of the contours before it. If a point
   is out of range nothing is added; if there is no memory the contours before are. */
fadrinzo_status fadrinzo_add_contours(fadrinzo *overlay, int shape, const int32_t *xy, const size_t *lengths, size_t contours);

/* A rectangle that is wider and higher than 0. Its left and its upper border belong to it. */
typedef struct {
    int32_t min_x;
    int32_t min_y;
    int32_t max_x;
    int32_t max_y;
} fadrinzo_box;

/* Adds what a box, a tile of the plane, has of a contour: the contour, cut and clamped to it, or nothing where it lies beside it. So what follows
   is the part of the overlay that belongs to the tile. It is right at each point of the tile that is farther than a whole unit from every
   given edge along no axis, and all of it lies in the tile. FADRINZO_BAD_ARGUMENT if the box is null, is not wider and higher than 0, or has a
   border out of range. Many threads can make parts, each with an overlay of its own. */
fadrinzo_status fadrinzo_add_contour_in_tile(fadrinzo *overlay, int shape, const int32_t *xy, size_t points, const fadrinzo_box *tile);

/* Makes the contours of a shape that were added the result, in their order, as far as tiles have them. */
fadrinzo_status fadrinzo_given(fadrinzo *overlay, int shape);

/* Adds a polygon of so many rings to the subject or to the clip: ring i has lengths[i] points, behind those of the rings before it. The
   first ring is the outer boundary, and the others are holes. Rings may run either way: the outer boundary is turned counterclockwise
   and each hole clockwise, by the sign of the exact area. A last point that repeats the first is dropped. So holes that lie apart in the
   outer boundary are holes, under each fill rule but FADRINZO_FILL_NEGATIVE. If a point is out of range nothing is added; if there is no
   memory the rings before are. */
fadrinzo_status fadrinzo_add_polygon(fadrinzo *overlay, int shape, const int32_t *xy, const size_t *lengths, size_t rings);

/* Makes the overlay of the contours that were added, as contours: outer boundaries counterclockwise, holes clockwise. The contours
   that were added stay. */
fadrinzo_status fadrinzo_overlay(fadrinzo *overlay, int rule, int fill_rule);

/* The same in shapes: each an outer boundary, followed by its holes, all of them simple polygons. */
fadrinzo_status fadrinzo_overlay_shapes(fadrinzo *overlay, int rule, int fill_rule);

/* The overlays by so many rules, in their order, each as of fadrinzo_overlay. The contours are split once. In the result the
   contours of rule i are those of shape i, from shape_starts[i] to before shape_starts[i + 1]. */
fadrinzo_status fadrinzo_overlay_by_rules(fadrinzo *overlay, const int *rules, size_t count, int fill_rule);

/* Splits and sweeps the contours that were added, under a fill rule, so that overlays by any rules need no further split. The contours and
   the result stay. After a failure, or if contours are added or dropped, the last arrangement stays. */
fadrinzo_status fadrinzo_arrange(fadrinzo *overlay, int fill_rule);

/* The overlay by a rule of the contours as they were arranged last, as of fadrinzo_overlay. If corners is not 0, points at which a
   contour goes straight on are left out. The reach is that of the arrangement. FADRINZO_BAD_ARGUMENT if no contours were arranged. */
fadrinzo_status fadrinzo_arranged(fadrinzo *overlay, int rule, int corners);

/* The same in shapes, as of fadrinzo_overlay_shapes. */
fadrinzo_status fadrinzo_arranged_shapes(fadrinzo *overlay, int rule, int corners);

/* Where a point lies with respect to the contours of a shape that were added: on the boundary if it lies on a step of one of them, else
   inside or outside by the fill rule. FADRINZO_LOCATION_BAD_ARGUMENT if the overlay is null, or there is no such shape or fill rule. */
fadrinzo_location fadrinzo_locate(fadrinzo *overlay, int shape, int fill_rule, int32_t x, int32_t y);

/* Whether a relation holds between the subject and the clip that were added, exactly: nothing is rounded. After FADRINZO_OK holds is 1 or
   0, else it is unchanged. FADRINZO_SUBJECT_NOT_EXACT if two edges of the subject cross at a point without integer coordinates, as those of
   valid polygons never do, and FADRINZO_CLIP_NOT_EXACT if two edges of the clip do. The overlay of such a shape by FADRINZO_RULE_SUBJECT has
   no such crossing, and is the same region but for rounding. */
fadrinzo_status fadrinzo_relation(fadrinzo *overlay, int relation, int fill_rule, int *holds);

/* Which parts of the subject meet which parts of the clip that were added, exactly: the interior, the boundary and the exterior of each. After
   FADRINZO_OK letters has nine letters, row by row for the parts of the subject, and a last 0: T if some point is in both parts, and F
   if none is. Else it is unchanged. Other statuses are those of fadrinzo_relation. */
fadrinzo_status fadrinzo_relate(fadrinzo *overlay, int fill_rule, char letters[10]);

/* Prepares the region of the subject that was added for relations to others, and keeps it: until the overlay is freed, whatever is added or
   dropped. After FADRINZO_OK number is its number, from 0, else it is unchanged. FADRINZO_SUBJECT_NOT_EXACT as of fadrinzo_relation. */
fadrinzo_status fadrinzo_add_region(fadrinzo *overlay, int fill_rule, size_t *number);

/* Whether a relation holds between two regions, by their numbers: as of fadrinzo_relation, for a subject and a clip that have them. The work
   that depends on one region alone is not done again. FADRINZO_BAD_ARGUMENT if there is no region with a number. */
fadrinzo_status fadrinzo_region_relation(fadrinzo *overlay, size_t first, size_t second, int relation, int *holds);

/* Which parts of two regions meet, by their numbers, as of fadrinzo_relate. */
fadrinzo_status fadrinzo_region_relate(fadrinzo *overlay, size_t first, size_t second, char letters[10]);

/* Splits so many segments into a planar arrangement: of those that are left every two share at most a common end, and segments on the
   same two ends are one, with the sum of their counts. fadrinzo_get_edges returns them. Contours and the result of the last overlay stay.
   FADRINZO_BAD_ARGUMENT if two ends are one point, a count is below -2147483647, both counts are 0, or there is no such rounding. */
fadrinzo_status fadrinzo_split(fadrinzo *overlay, const fadrinzo_edge *edges, size_t count, int rounding);

/* The segments that the last split left. Nothing after one that failed, for whatever reason. */
fadrinzo_edges fadrinzo_get_edges(const fadrinzo *overlay);

/* Keeps the parts of so many lines that lie inside the contours that were added to the subject or, if invert is not 0, outside. Line i has
   lengths[i] points, behind those of the lines before it, each joined to the next one. A part along the boundary counts as inside if
   boundary_included is not 0. The direction of a contour counts. fadrinzo_get_parts returns the parts, line by line, in the direction and
   the order of their lines. A part goes on from a step to the next if it comes to the end of the step. Lines that overlap have a part each.
   Under FADRINZO_SNAP_ROUNDING the points of a part lie within half a unit of its steps, in x and in y. Points at which lines meet one
   another, and no contour, are left out. Contours and the result of the last overlay stay. What puts pieces together is tested, not proved. */
fadrinzo_status fadrinzo_clip_lines(fadrinzo *overlay, const int32_t *xy, const size_t *lengths, size_t lines, int invert, int boundary_included,
                                    int fill_rule, int rounding);

/* The parts that the last clip of lines kept. Nothing after one that failed, for whatever reason. */
fadrinzo_parts fadrinzo_get_parts(const fadrinzo *overlay);

/* The result of the last overlay. Nothing after one that failed, for whatever reason: a wrong argument, a refused growth, a count. A call that
   makes no overlay leaves it, but for fadrinzo_clear. */
fadrinzo_result fadrinzo_get(const fadrinzo *overlay);

#ifdef __cplusplus
}
#endif

#endif
