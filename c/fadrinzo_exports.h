/* The exports of libfadrinzo_exports.a. Written by tools/c_header.py from crates/overlay_c; do not edit.
   Each requires a full handle, which overlay_c_new makes, and slices of the lengths that overlay_c_sizes reports. No
   condition is tested: fadrinzo.h has calls that test theirs. */
#ifndef FADRINZO_EXPORTS_H
#define FADRINZO_EXPORTS_H

#include <stdbool.h>
#include <stddef.h>
#include <stdint.h>

#ifdef __cplusplus
extern "C" {
#endif

/* A segment, and how it winds for the subject and for the clip. */
typedef struct {
    int32_t ax;
    int32_t ay;
    int32_t bx;
    int32_t by;
    int32_t subj;
    int32_t clip;
} fadrinzo_segment;

/* A side of a polygon, which winds for the subject, or a step of a line, which has a mask. */
typedef struct {
    int32_t ax;
    int32_t ay;
    int32_t bx;
    int32_t by;
    int32_t subj;
    /* 2 for a line from the first end to the second, 1 for one that runs back, 3 for both, 0 for none. */
    uint8_t mask;
} fadrinzo_line;

/* A link of a graph. */
typedef struct {
    /* The number of the node at the first end. */
    size_t a_node;
    int32_t ax;
    int32_t ay;
    /* The number of the node at the second end. */
    size_t b_node;
    int32_t bx;
    int32_t by;
    uint8_t fill;
} fadrinzo_link;

/* What a call is set to. */
typedef struct {
    /* The exponent of the first pass. */
    size_t start;
    /* What each further pass adds to it. */
    size_t progression;
    /* 0 for List, 1 for Tree, 2 for Frag, 3 for Auto. */
    uint8_t strategy;
    /* 0 for EvenOdd, 1 for NonZero, 2 for Positive, 3 for Negative. */
    uint8_t fill_rule;
    /* 0 for coordinates of 32 bits, else those of 16. */
    uint8_t engine;
    /* Where crossings without integer coordinates go, of contours, of segments and of lines: 0 for snap rounding,
       in one pass, else pair by pair, pass after pass, as upstream does. Snap rounding takes no precision and no
       snap limit. */
    uint8_t rounding;
} fadrinzo_settings;

/* How much an engine keeps of its last result. */
typedef struct {
    size_t segments;
    size_t lines;
    /* Of how many segments of polygons and lines the last overlay_c_clip_with_numbers left numbers. */
    size_t line_counts;
    /* How many numbers of lines they have together. */
    size_t line_numbers;
    size_t links;
    /* Of how many links there is data. */
    size_t link_data;
    size_t nodes;
    size_t node_links;
    size_t walks;
    size_t walk_links;
    /* How many contours the last overlay of contours left, in shapes or not. */
    size_t contours;
    /* How many points they have together. */
    size_t contour_points;
    /* How many shapes it left: none where it was not in shapes. */
    size_t shapes;
    /* Whether there are closed walks: the call wanted them, and an even number of links meets at each node. */
    bool has_walks;
    /* Whether the last overlay_c_split joined equal segments or split one, or, if that came later, the last
       overlay_c_join joined some. Other calls leave it as it is. */
    bool has_changed;
    /* How many passes the last split made, up to u64::MAX: 1 by snap rounding. */
    uint64_t passes;
} fadrinzo_sizes;

/* A number of 128 bits. */
typedef struct {
    /* Its lower 64 bits. */
    uint64_t low;
    /* Its upper 64 bits. */
    uint64_t high;
} fadrinzo_words;

/* What an overlay of contours reports of its run. */
typedef struct {
    /* How many passes it made. */
    fadrinzo_words passes;
    /* How far these moved crossings at most, in x and in y, in halves of a unit. */
    fadrinzo_words reach;
} fadrinzo_report;

/* A point. */
typedef struct {
    int32_t x;
    int32_t y;
} fadrinzo_point;

/* A number that a caller gives a segment. Parts have that of the whole, and of segments that are merged the first
   one's is kept. */
typedef struct {
    uint64_t number;
} fadrinzo_tag;

/* A segment, and the number that is handed through to its links. */
typedef struct {
    fadrinzo_segment segment;
    fadrinzo_tag tag;
} fadrinzo_tagged;

/* Where two segments meet. */
typedef struct {
    int32_t x;
    int32_t y;
    /* 0 where they do not meet, 1 at an end of neither, 2 at one of the target, 3 at one of the other, 4 where all
       ends lie on one line. */
    uint8_t kind;
    bool is_rounded;
    /* Where all ends lie on one line, those that lie strictly inside the other segment: a sum of 1 and 2 for the
       target's, 4 and 8 for the other's; else 0. */
    uint8_t mask;
} fadrinzo_cross;

/* The place of an engine. It may go to another thread, for one call at a time. */
typedef struct {
    void *at;
} fadrinzo_handle;

/* Which parts of the subject meet which parts of the clip. */
typedef struct {
    /* Whether some point is inside the subject and inside the clip. */
    bool interior_interior;
    /* Whether some point is inside the subject and on the boundary of the clip. */
    bool interior_boundary;
    /* Whether some point is inside the subject and outside the clip. */
    bool interior_exterior;
    /* Whether some point is on the boundary of the subject and inside the clip. */
    bool boundary_interior;
    /* Whether some point is on the boundary of the subject and on the boundary of the clip. */
    bool boundary_boundary;
    /* Whether some point is on the boundary of the subject and outside the clip. */
    bool boundary_exterior;
    /* Whether some point is outside the subject and inside the clip. */
    bool exterior_interior;
    /* Whether some point is outside the subject and on the boundary of the clip. */
    bool exterior_boundary;
    /* Whether some point is outside the subject and outside the clip. */
    bool exterior_exterior;
} fadrinzo_matrix;

/* The borders of a tile: a rectangle with whole corners in range that is wider and higher than 0. */
typedef struct {
    /* The left border, which belongs to the tile. */
    int32_t min_x;
    /* The lower border, which does not. */
    int32_t min_y;
    /* The right border, which does not. */
    int32_t max_x;
    /* The upper border, which belongs to it. */
    int32_t max_y;
} fadrinzo_tile;

/* Makes an engine, in an empty handle. Returns whether there was memory. */
bool overlay_c_new(fadrinzo_handle *handle, uint32_t snap_limit);

/* Frees the engine of a handle, which is empty then. */
void overlay_c_free(fadrinzo_handle *handle);

/* The overlay of the segments that records describe, by the rule of a code (overlay_rule) and the engine that the
   settings name. Returns 0 where it is done, 1 where memory was refused, 2 where a count left the range, and 3
   where the segments may not be split with that engine. */
uint8_t overlay_c_overlay(fadrinzo_handle *handle, const fadrinzo_segment *given, size_t given_len, const fadrinzo_settings *settings, uint8_t rule, bool walks);

/* The overlay of the segments that records describe, with the data of each link, and without walks. A part of a
   segment has its data; of segments on one pair of ends the first one's is kept. Returns as overlay_c_overlay does. */
uint8_t overlay_c_overlay_with_data(fadrinzo_handle *handle, const fadrinzo_tagged *given, size_t given_len, const fadrinzo_settings *settings, uint8_t rule);

/* The split of the segments that records describe, without a graph. Returns as overlay_c_overlay does. */
uint8_t overlay_c_split(fadrinzo_handle *handle, const fadrinzo_segment *given, size_t given_len, const fadrinzo_settings *settings);

/* The graph of all of the arrangement that overlay_c_split left where it returned 0: a link for each segment, in
   their order. The links are written to records, as many as the segments of overlay_c_sizes; the engine keeps the
   nodes, which overlay_c_nodes copies out, and no links or walks. Of the settings it takes the strategy and the
   fill rule. What the engine keeps has to be an arrangement: that of an overlay_c_split that returned 0, without
   another call that was given segments since. Returns 0 where it is done, 1 where memory was refused, and 2 where a
   winding above a segment leaves the range. The arrangement stays. After 1 and 2 nothing is promised of records and
   nodes. */
uint8_t overlay_c_build(fadrinzo_handle *handle, const fadrinzo_settings *settings, fadrinzo_link *links, size_t links_len);

/* The join of the segments that records describe, without a graph, with the engine that the code of a width names,
   as in SettingsRecord. Returns as overlay_c_overlay does. After a refusal the list is empty. */
uint8_t overlay_c_join(fadrinzo_handle *handle, const fadrinzo_segment *given, size_t given_len, uint8_t width);

/* The parts of lines that a clip rule keeps. The arrangement of segments stays, and no walks are kept. Returns as
   overlay_c_overlay does. */
uint8_t overlay_c_clip(fadrinzo_handle *handle, const fadrinzo_line *given, size_t given_len, const fadrinzo_settings *settings, bool invert, bool boundary_included);

/* The parts of lines that a clip rule keeps, as of overlay_c_clip, and which of the given lines run along each
   segment of the arrangement of polygons and lines: overlay_c_line_numbers copies their numbers, the indexes of
   their records. Links are in the order of the segments. Returns as overlay_c_overlay does; nothing is promised of
   the numbers after a refusal. */
uint8_t overlay_c_clip_with_numbers(fadrinzo_handle *handle, const fadrinzo_line *given, size_t given_len, const fadrinzo_settings *settings, bool invert, bool boundary_included);

/* Copies a contour behind the others of the subject, where the shape's code is 0, or else of the clip. Returns 0
   where it is added; else nothing is: 1 where memory was refused, 4 where a point is out of range. */
uint8_t overlay_c_add_contour(fadrinzo_handle *handle, const fadrinzo_point *contour, size_t contour_len, uint8_t shape);

/* Copies what a tile has of a contour behind the others of the subject, where the shape's code is 0, or else of the
   clip: the contour, cut and clamped to the tile, or nothing where it lies beside it. What was added winds around
   each point of the tile as the given contours, if it is farther than half a unit from every given step that runs
   along no axis. So the overlays that follow return the part of the overlay that belongs to the tile. By snap
   rounding it is right at each point of the tile that is farther than a whole unit from these steps, and all its
   points lie in the tile. Returns 0 where it is done; else nothing is added: 1 where memory was refused, 4 where a
   point is out of range, 5 where the record has no tile, also where a point is out of range. */
uint8_t overlay_c_add_contour_in_tile(fadrinzo_handle *handle, const fadrinzo_point *contour, size_t contour_len, uint8_t shape, const fadrinzo_tile *borders);

/* Keeps the contours of a shape that were added, in that order, as those of a result in no shapes:
   overlay_c_contours then copies them out. So what a tile has of contours can be handed to another process. Returns
   0 where it is done, and 1 where memory was refused. The contours that were added stay. */
uint8_t overlay_c_given(fadrinzo_handle *handle, uint8_t shape);

/* The overlay of the contours that were added, as contours that have it on their left: outer boundaries run
   counterclockwise, and holes clockwise. Returns 0 where it is done, 1 where memory was refused, and 2 where a
   count left the range. The contours that were added stay. Crossings are rounded as the settings say: by snap
   rounding, or pair by pair, in passes, the first 256 of them snapping, whatever the limit of the engine is.
   Coordinates have 32 bits, whatever engine the settings name. */
uint8_t overlay_c_polygons(fadrinzo_handle *handle, const fadrinzo_settings *settings, uint8_t rule);

/* The overlay of the contours that were added, in shapes: each an outer boundary, followed by its holes, whose
   contours come to no point twice. Returns as overlay_c_polygons does, under the same settings. The contours that
   were added stay. */
uint8_t overlay_c_shapes(fadrinzo_handle *handle, const fadrinzo_settings *settings, uint8_t rule);

/* The overlays of the contours that were added by several rules, each as of overlay_c_polygons, in the order of the
   codes. They are kept as contours, rule by rule; overlay_c_shape_lengths then copies out how many each rule has.
   Returns as overlay_c_polygons does, under the same settings. The contours that were added stay. */
uint8_t overlay_c_polygons_by_rules(fadrinzo_handle *handle, const fadrinzo_settings *settings, const uint8_t *rules, size_t rules_len);

/* Keeps the arrangement of the contours that were added, split and swept once, from which
   overlay_c_arranged_contours and overlay_c_arranged_shapes make overlays by any rules. Returns as
   overlay_c_polygons does, under the same settings. The contours that were added stay, and so does what
   overlay_c_report returns. Where it is refused, the arrangement that was kept before stays. */
uint8_t overlay_c_arrange(fadrinzo_handle *handle, const fadrinzo_settings *settings);

/* The overlay by a rule of the contours that are arranged, as overlay_c_polygons keeps it; where only corners are
   wanted, without the points at which a contour goes straight on. Returns 0 where it is done, 1 where memory was
   refused, and 3 where no contours were arranged. The arrangement stays. */
uint8_t overlay_c_arranged_contours(fadrinzo_handle *handle, uint8_t rule, bool corners);

/* The overlay by a rule of the contours that are arranged, in shapes, as overlay_c_shapes keeps it; where only
   corners are wanted, without the points at which a contour goes straight on. Returns as
   overlay_c_arranged_contours does. The arrangement stays. */
uint8_t overlay_c_arranged_shapes(fadrinzo_handle *handle, uint8_t rule, bool corners);

/* Where a point lies with respect to the contours of a shape that were added, by the code of a fill rule: 0 for
   inside, 1 for on the boundary, which is on a step of a contour, 2 for outside, and 4 where the point is out of
   range. */
uint8_t overlay_c_locate(fadrinzo_handle *handle, const fadrinzo_point *point, uint8_t shape, uint8_t fill);

/* Whether a relation holds between the subject and the clip that were added, exactly: nothing is rounded. The
   relation is that of a code: 0 if some point is inside both, 1 if each point inside the clip is inside the
   subject, 2 if each point inside the subject is inside the clip, 3 if both are the same region, 4 if they share a
   point and no point is inside both, and else that they share no point. Points on edges count for 4 and 5 alone. Of
   the settings it takes the strategy and the fill rule. Returns 0 where holds says whether it does, 1 where memory
   was refused, 2 where a count left the range, 6 where two edges of the subject cross at a point without integer
   coordinates, and 7 where two edges of the clip do, and none of the subject. After any other code than 0 holds is
   unchanged. */
uint8_t overlay_c_relation(fadrinzo_handle *handle, const fadrinzo_settings *settings, uint8_t code, bool *holds);

/* Which parts of the subject meet which parts of the clip that were added, exactly: the inside, the boundary and
   the outside of each. A point is on the boundary of a shape if there are points inside and outside of it, however
   near to it. Of the settings it takes the strategy and the fill rule. Returns as overlay_c_relation does; after
   any other code than 0 matrix is unchanged. */
uint8_t overlay_c_relate(fadrinzo_handle *handle, const fadrinzo_settings *settings, fadrinzo_matrix *matrix);

/* Prepares the region of the subject that was added, under the fill rule of the settings, for relations to others,
   and keeps it behind those that are kept. Its number is how many were kept before, from 0. The contours that were
   added stay. Returns 0 where it is done, 1 where memory was refused, 2 where a count left the range, and 6 where
   two edges of the subject cross at a point without integer coordinates. After any other code than 0 the regions
   are those that were kept before. */
uint8_t overlay_c_add_region(fadrinzo_handle *handle, const fadrinzo_settings *settings);

/* Whether a relation holds between two regions that are kept, by their numbers and the code of overlay_c_relation,
   exactly. Of the settings it takes the strategy. Returns 0 where holds says whether it does, 1 where memory was
   refused, and 2 where a count left the range. After any other code than 0 holds is unchanged. */
uint8_t overlay_c_region_relation(fadrinzo_handle *handle, const fadrinzo_settings *settings, size_t first, size_t second, uint8_t code, bool *holds);

/* Which parts of two regions that are kept meet, by their numbers, exactly, as overlay_c_relate returns it. Returns
   as overlay_c_region_relation does; after any other code than 0 matrix is unchanged. */
uint8_t overlay_c_region_relate(fadrinzo_handle *handle, const fadrinzo_settings *settings, size_t first, size_t second, fadrinzo_matrix *matrix);

/* What the last overlay of contours, in shapes or not, reports of its run: how many passes it made, and how far
   these moved edges. What such an overlay leaves holds at every place that is farther than this from the edges of
   the contours that it was given. Both are 0 at first, and nothing is promised of them after an overlay that was
   refused. */
fadrinzo_report overlay_c_report(fadrinzo_handle *handle);

/* What the arrangement that is kept reports of its run: how many passes its split made, and how far these moved
   edges. What overlay_c_arranged_contours and overlay_c_arranged_shapes leave holds at every point that is farther
   than this from the edges of the contours that were arranged. Both are 0 where no contours are arranged. */
fadrinzo_report overlay_c_arranged_report(fadrinzo_handle *handle);

/* Drops the contours that were added. */
void overlay_c_clear(fadrinzo_handle *handle);

/* Where a target and another segment meet, with a squared radius within which a crossing is moved to an end, and,
   where all ends lie on one line, which of them lie strictly inside the other segment. The counts do not matter.
   All ends have to be in range, the two ends of each segment have to differ, and the squared radius has to be at
   least 1. */
fadrinzo_cross overlay_c_cross(const fadrinzo_segment *target, const fadrinzo_segment *other, int64_t radius_squared);

/* How much the engine keeps of its last result. */
fadrinzo_sizes overlay_c_sizes(fadrinzo_handle *handle);

/* Copies the arrangement out. */
void overlay_c_segments(fadrinzo_handle *handle, fadrinzo_segment *out, size_t out_len);

/* Copies the arrangement of polygons and lines out. */
void overlay_c_lines(fadrinzo_handle *handle, fadrinzo_line *out, size_t out_len);

/* Copies out how many given lines run along each segment of the arrangement of polygons and lines, and the numbers
   of these lines, segment by segment: those of the last overlay_c_clip_with_numbers. */
void overlay_c_line_numbers(fadrinzo_handle *handle, size_t *counts, size_t counts_len, size_t *numbers, size_t numbers_len);

/* Copies the links out. */
void overlay_c_links(fadrinzo_handle *handle, fadrinzo_link *out, size_t out_len);

/* Copies the data of links out: that of the last overlay with data, one for each of its links. */
void overlay_c_link_data(fadrinzo_handle *handle, fadrinzo_tag *out, size_t out_len);

/* Copies out how many links meet at each node, and the indexes of these links, node by node. */
void overlay_c_nodes(fadrinzo_handle *handle, size_t *degrees, size_t degrees_len, size_t *indexes, size_t indexes_len);

/* Copies out how many links each walk has, and the indexes of these links, walk by walk. */
void overlay_c_walks(fadrinzo_handle *handle, size_t *lengths, size_t lengths_len, size_t *indexes, size_t indexes_len);

/* Copies out how many points each contour of the last overlay of contours has, in shapes or not, and these points,
   contour by contour, those of shapes shape by shape. */
void overlay_c_contours(fadrinzo_handle *handle, size_t *lengths, size_t lengths_len, fadrinzo_point *points, size_t points_len);

/* Copies out how many contours each shape of the last overlay of contours has, or each rule where it was by several
   rules: of none where it was neither. */
void overlay_c_shape_lengths(fadrinzo_handle *handle, size_t *out, size_t out_len);

#ifdef __cplusplus
}
#endif

#endif
