/* A square without another one, in shapes: its boundary and its hole. Then calls with wrong arguments, each of which is refused. */
#include "fadrinzo.h"

#include <assert.h>
#include <stdio.h>

static void print_shapes(const fadrinzo *overlay)
{
    fadrinzo_result result = fadrinzo_get(overlay);
    for (size_t shape = 0; shape < result.shapes; shape++) {
        puts("shape");
        for (size_t contour = result.shape_starts[shape]; contour < result.shape_starts[shape + 1]; contour++) {
            printf("contour");
            for (size_t point = result.contour_starts[contour]; point < result.contour_starts[contour + 1]; point++)
                printf(" %d %d", result.xy[2 * point], result.xy[2 * point + 1]);
            puts("");
        }
    }
}

int main(void)
{
    const int32_t outer[] = {0, 0, 8, 0, 8, 8, 0, 8}, inner[] = {2, 2, 6, 2, 6, 6, 2, 6}, far[] = {0, 0, 1, 0, 0, INT32_MAX};
    assert(fadrinzo_version() == FADRINZO_VERSION);
    fadrinzo *overlay = fadrinzo_new();
    assert(overlay);
    assert(fadrinzo_add_contour(overlay, FADRINZO_SUBJECT, outer, 4) == FADRINZO_OK);
    assert(fadrinzo_add_contour(overlay, FADRINZO_CLIP, inner, 4) == FADRINZO_OK);
    fadrinzo_status status = fadrinzo_overlay_shapes(overlay, FADRINZO_RULE_DIFFERENCE, FADRINZO_FILL_NON_ZERO);
    if (status != FADRINZO_OK) {
        puts(fadrinzo_text(status));
        return 1;
    }
    print_shapes(overlay);

    assert(fadrinzo_add_contour(overlay, FADRINZO_CLIP, far, 3) == FADRINZO_POINT_OUT_OF_RANGE);
    assert(fadrinzo_add_contour(overlay, 9, inner, 4) == FADRINZO_BAD_ARGUMENT);
    assert(fadrinzo_add_contour(overlay, FADRINZO_CLIP, NULL, 4) == FADRINZO_BAD_ARGUMENT);
    assert(fadrinzo_add_contour(overlay, FADRINZO_CLIP, NULL, 0) == FADRINZO_OK);
    assert(fadrinzo_overlay(overlay, 99, FADRINZO_FILL_NON_ZERO) == FADRINZO_BAD_ARGUMENT);
    assert(fadrinzo_overlay(overlay, FADRINZO_RULE_UNION, 66) == FADRINZO_BAD_ARGUMENT);
    assert(fadrinzo_overlay(NULL, FADRINZO_RULE_UNION, 0) == FADRINZO_BAD_ARGUMENT);
    assert(fadrinzo_get(NULL).contours == 0);
    assert(fadrinzo_overlay(overlay, FADRINZO_RULE_TABLE + 8, FADRINZO_FILL_NON_ZERO) == FADRINZO_OK);
    assert(fadrinzo_get(overlay).contours == 1 && fadrinzo_get(overlay).shapes == 0);

    const int rules[] = {FADRINZO_RULE_UNION, FADRINZO_RULE_INTERSECT, FADRINZO_RULE_DIFFERENCE}, wrong[] = {99};
    assert(fadrinzo_overlay_by_rules(overlay, wrong, 1, FADRINZO_FILL_NON_ZERO) == FADRINZO_BAD_ARGUMENT);
    assert(fadrinzo_overlay_by_rules(overlay, NULL, 1, FADRINZO_FILL_NON_ZERO) == FADRINZO_BAD_ARGUMENT);
    assert(fadrinzo_overlay_by_rules(overlay, rules, 3, FADRINZO_FILL_NON_ZERO) == FADRINZO_OK);
    assert(fadrinzo_get(overlay).shapes == 3 && fadrinzo_get(overlay).contours == 4);
    assert(fadrinzo_locate(overlay, FADRINZO_SUBJECT, FADRINZO_FILL_NON_ZERO, 1, 8) == FADRINZO_ON_BOUNDARY);
    assert(fadrinzo_locate(overlay, FADRINZO_SUBJECT, FADRINZO_FILL_NON_ZERO, 1, 4) == FADRINZO_INSIDE);
    assert(fadrinzo_locate(overlay, FADRINZO_CLIP, FADRINZO_FILL_NON_ZERO, 1, 4) == FADRINZO_OUTSIDE);
    assert(fadrinzo_locate(overlay, FADRINZO_CLIP, FADRINZO_FILL_NON_ZERO, INT32_MAX, 4) == FADRINZO_OUTSIDE);
    assert(fadrinzo_locate(NULL, FADRINZO_CLIP, FADRINZO_FILL_NON_ZERO, 1, 4) == FADRINZO_LOCATION_BAD_ARGUMENT);
    /* two squares that share a side, split once for two overlays; without the two points at which the boundary goes straight on */
    const int32_t beside[] = {8, 0, 16, 0, 16, 8, 8, 8};
    assert(fadrinzo_clear(overlay) == FADRINZO_OK && fadrinzo_get(overlay).points == 0);
    assert(fadrinzo_add_contour(overlay, FADRINZO_SUBJECT, outer, 4) == FADRINZO_OK);
    assert(fadrinzo_add_contour(overlay, FADRINZO_CLIP, beside, 4) == FADRINZO_OK);
    assert(fadrinzo_arrange(overlay, 66) == FADRINZO_BAD_ARGUMENT);
    assert(fadrinzo_arrange(NULL, FADRINZO_FILL_NON_ZERO) == FADRINZO_BAD_ARGUMENT);
    assert(fadrinzo_arrange(overlay, FADRINZO_FILL_NON_ZERO) == FADRINZO_OK);
    assert(fadrinzo_arranged(overlay, 99, 0) == FADRINZO_BAD_ARGUMENT);
    assert(fadrinzo_arranged(overlay, FADRINZO_RULE_UNION, 0) == FADRINZO_OK);
    assert(fadrinzo_get(overlay).contours == 1 && fadrinzo_get(overlay).points == 6);
    assert(fadrinzo_arranged_shapes(overlay, FADRINZO_RULE_UNION, 1) == FADRINZO_OK);
    assert(fadrinzo_get(overlay).shapes == 1 && fadrinzo_get(overlay).points == 4 && fadrinzo_get(overlay).reach == 0);
    assert(fadrinzo_arranged(overlay, FADRINZO_RULE_INTERSECT, 0) == FADRINZO_OK);
    assert(fadrinzo_get(overlay).contours == 0);
    fadrinzo *other = fadrinzo_new();
    assert(other && fadrinzo_arranged(other, FADRINZO_RULE_UNION, 0) == FADRINZO_BAD_ARGUMENT);
    fadrinzo_free(other);
    fadrinzo_free(overlay);
    fadrinzo_free(NULL);
    return 0;
}
