//! Polygons with holes in, shapes with holes out. Rings may run either way, and may end with the point where they begin.

use fadrinzo::{doubled_area_of_shape, Error, FillRule, IntContour, IntPoint, Overlay, OverlayRule, ShapeType};

fn main() -> Result<(), Error> {
    let mut overlay = Overlay::new()?;
    // a frame, and a bar across its lower side
    overlay.add_polygon(&ring(0, 0, 10, 10), &[ring(2, 2, 8, 8)], ShapeType::Subject)?;
    overlay.add_polygon(&ring(4, -1, 6, 5), &[], ShapeType::Clip)?;
    let union = overlay.overlay_shapes(OverlayRule::Union, FillRule::NonZero)?;
    let rest = overlay.overlay_shapes(OverlayRule::Difference, FillRule::NonZero)?;
    for (name, shapes) in [("union", &union), ("difference", &rest)] {
        for shape in shapes {
            println!("{name}: {} holes, area {}", shape.len() - 1, doubled_area_of_shape(shape) / 2);
        }
    }
    // the bar closes no part of the hole off, and cuts the frame
    assert_eq!(union.iter().map(Vec::len).collect::<Vec<_>>(), [2]);
    assert_eq!(rest.iter().map(Vec::len).collect::<Vec<_>>(), [1]);
    assert_eq!(doubled_area_of_shape(&union[0]) / 2, 100 - 36 + 2 + 6);
    assert_eq!(doubled_area_of_shape(&rest[0]) / 2, 100 - 36 - 4);
    Ok(())
}

/// A closed ring around a rectangle, clockwise.
fn ring(left: i32, bottom: i32, right: i32, top: i32) -> IntContour {
    [(left, bottom), (left, top), (right, top), (right, bottom), (left, bottom)].map(IntPoint::from).to_vec()
}
