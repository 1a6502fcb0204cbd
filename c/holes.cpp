/* A square without another one, in shapes: its boundary and its hole. Then a point that is out of range, which is refused. */
#include "fadrinzo.hpp"

#include <iostream>

int main()
{
    using namespace fadrinzo;
    Overlay overlay;
    overlay.add_contour(ShapeType::Subject, {{0, 0}, {8, 0}, {8, 8}, {0, 8}});
    overlay.add_contour(ShapeType::Clip, {{2, 2}, {6, 2}, {6, 6}, {2, 6}});
    for (const Shape &shape : overlay.overlay_shapes(OverlayRule::Difference, FillRule::NonZero)) {
        std::cout << "shape\n";
        for (const Contour &contour : shape) {
            std::cout << "contour";
            for (auto [x, y] : contour)
                std::cout << ' ' << x << ' ' << y;
            std::cout << '\n';
        }
    }
    try {
        overlay.add_contour(ShapeType::Clip, {{0, 0}, {1, 0}, {0, INT32_MAX}});
    } catch (const Error &error) {
        return error.status() == FADRINZO_POINT_OUT_OF_RANGE ? 0 : 1;
    }
    return 1;
}
