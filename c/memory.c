/* Refuses each growth of each call in turn. A call is right, or returns FADRINZO_NO_MEMORY and leaves no result; and the next one works. */
#include "fadrinzo.h"

#include <assert.h>
#include <stdio.h>
#include <stdlib.h>
#include <string.h>

#ifndef __GLIBC__

int main(void)
{
    puts("no growth was refused: that takes glibc");
    return 0;
}

#else

/* The C library's own calls for memory. Those below lie in front of them. */
extern void *__libc_malloc(size_t size);
extern void *__libc_calloc(size_t count, size_t size);
extern void *__libc_realloc(void *at, size_t size);

/* how many growths are left until one is refused; 0 where none is */
static unsigned long left;
static unsigned long growths;

static int is_refused(void)
{
    growths++;
    return left && !--left;
}

void *malloc(size_t size)
{
    return is_refused() ? NULL : __libc_malloc(size);
}

void *calloc(size_t count, size_t size)
{
    return is_refused() ? NULL : __libc_calloc(count, size);
}

void *realloc(void *at, size_t size)
{
    return is_refused() ? NULL : __libc_realloc(at, size);
}

static const int32_t square[] = {0, 0, 12, 0, 12, 12, 0, 12}, hole[] = {3, 4, 3, 8, 9, 8, 9, 4}, triangle[] = {1, 1, 20, 4, 3, 15};
static const int rules[] = {FADRINZO_RULE_UNION, FADRINZO_RULE_XOR, FADRINZO_RULE_TABLE + 15};

static fadrinzo_status add(fadrinzo *overlay)
{
    fadrinzo_clear(overlay);
    fadrinzo_status status = fadrinzo_add_contour(overlay, FADRINZO_SUBJECT, square, 4);
    status = status ? status : fadrinzo_add_contour(overlay, FADRINZO_SUBJECT, hole, 4);
    return status ? status : fadrinzo_add_contour(overlay, FADRINZO_CLIP, triangle, 3);
}

static fadrinzo_status overlay_contours(fadrinzo *overlay)
{
    return fadrinzo_overlay(overlay, FADRINZO_RULE_XOR, FADRINZO_FILL_NON_ZERO);
}

static fadrinzo_status overlay_shapes(fadrinzo *overlay)
{
    return fadrinzo_overlay_shapes(overlay, FADRINZO_RULE_XOR, FADRINZO_FILL_EVEN_ODD);
}

static fadrinzo_status by_rules(fadrinzo *overlay)
{
    return fadrinzo_overlay_by_rules(overlay, rules, 3, FADRINZO_FILL_POSITIVE);
}

static fadrinzo_status arranged(fadrinzo *overlay)
{
    fadrinzo_status status = fadrinzo_arrange(overlay, FADRINZO_FILL_NON_ZERO);
    status = status ? status : fadrinzo_arranged(overlay, FADRINZO_RULE_DIFFERENCE, 1);
    return status ? status : fadrinzo_arranged_shapes(overlay, FADRINZO_RULE_UNION, 0);
}

static fadrinzo_status in_tile(fadrinzo *overlay)
{
    static const fadrinzo_box tile = {2, -3, 9, 6};
    fadrinzo_clear(overlay);
    fadrinzo_status status = fadrinzo_add_contour_in_tile(overlay, FADRINZO_SUBJECT, square, 4, &tile);
    status = status ? status : fadrinzo_add_contour_in_tile(overlay, FADRINZO_SUBJECT, triangle, 3, &tile);
    return status ? status : fadrinzo_given(overlay, FADRINZO_SUBJECT);
}

static fadrinzo_status split(fadrinzo *overlay)
{
    static const fadrinzo_edge edges[] = {{0, 0, 5, 5, 1, 0}, {0, 5, 5, 0, 1, 0}, {-7, 3, 9, 2, 0, 1}};
    for (int rounding = FADRINZO_SNAP_ROUNDING; rounding <= FADRINZO_PAIRWISE; rounding++) {
        fadrinzo_status status = fadrinzo_split(overlay, edges, 3, rounding);
        fadrinzo_edges found = fadrinzo_get_edges(overlay);
        assert(status ? !found.edges && !found.count : found.count > 3);
        if (status)
            return status;
    }
    return FADRINZO_OK;
}

static fadrinzo_status clip_lines(fadrinzo *overlay)
{
    static const int32_t lines[] = {-5, 6, 6, 6, 6, 20, 1, 1, 11, 2};
    static const size_t lengths[] = {3, 2};
    fadrinzo_status status = fadrinzo_clip_lines(overlay, lines, lengths, 2, 0, 0, FADRINZO_FILL_NON_ZERO, FADRINZO_SNAP_ROUNDING);
    fadrinzo_parts found = fadrinzo_get_parts(overlay);
    /* the hole is from 3 to 9 and from 4 to 8 */
    assert(status ? !found.xy && !found.starts && !found.lines && !found.count : found.count == 3 && found.lines[2] == 1);
    return status;
}

typedef fadrinzo_status call(fadrinzo *overlay);

static fadrinzo *full(void)
{
    fadrinzo *overlay = fadrinzo_new();
    assert(overlay && add(overlay) == FADRINZO_OK);
    return overlay;
}

static int is_same(fadrinzo_result one, fadrinzo_result other)
{
    return one.points == other.points && one.contours == other.contours && one.shapes == other.shapes && one.reach == other.reach
        && !memcmp(one.xy, other.xy, 2 * one.points * sizeof *one.xy)
        && !memcmp(one.contour_starts, other.contour_starts, (one.contours + 1) * sizeof *one.contour_starts)
        && !memcmp(one.shape_starts, other.shape_starts, (one.shapes + 1) * sizeof *one.shape_starts);
}

/* Returns how many growths of a call were refused. */
static unsigned long try_each(call *make, int has_result)
{
    fadrinzo *whole = full();
    assert(make(whole) == FADRINZO_OK);
    for (unsigned long growth = 1;; growth++) {
        fadrinzo *overlay = full();
        left = growth;
        fadrinzo_status status = make(overlay);
        int was_refused = !left;
        left = 0;
        /* a call may do without a growth, as a sort does, and is right then */
        assert(status == FADRINZO_OK || (status == FADRINZO_NO_MEMORY && was_refused));
        assert(!has_result || (status ? !fadrinzo_get(overlay).xy : is_same(fadrinzo_get(overlay), fadrinzo_get(whole))));
        assert(make(overlay) == FADRINZO_OK);
        assert(!has_result || is_same(fadrinzo_get(overlay), fadrinzo_get(whole)));
        fadrinzo_free(overlay);
        if (!was_refused) {
            fadrinzo_free(whole);
            return growth - 1;
        }
    }
}

int main(void)
{
    unsigned long refused = 0;
    for (unsigned long growth = 1;; growth++, refused++) {
        left = growth;
        fadrinzo *overlay = fadrinzo_new();
        int was_refused = !left;
        left = 0;
        assert(was_refused == !overlay);
        fadrinzo_free(overlay);
        if (!was_refused)
            break;
    }
    static call *const calls[] = {overlay_contours, overlay_shapes, by_rules, arranged, in_tile};
    refused += try_each(add, 0);
    refused += try_each(split, 0);
    refused += try_each(clip_lines, 0);
    for (size_t i = 0; i < sizeof calls / sizeof *calls; i++)
        refused += try_each(calls[i], 1);
    assert(refused > 200 && growths > refused);
    puts("each refused growth is a status");
    return 0;
}

#endif
