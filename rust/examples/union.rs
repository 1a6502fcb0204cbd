//! The union of two squares, and the texts of the rules that it is made by.

use fadrinzo::{bounding_box, doubled_area, Error, FillRule, IntPoint, Overlay, OverlayRule};

fn main() -> Result<(), Error> {
    let subject = [[0, 0], [4, 0], [4, 4], [0, 4]].map(IntPoint::from);
    let clip = [[2, 2], [6, 2], [6, 6], [2, 6]].map(IntPoint::from);
    let mut overlay = Overlay::with_contours(&[subject], &[clip])?;
    let (rule, fill_rule) = (OverlayRule::Union, FillRule::NonZero);
    let contours = overlay.overlay(rule, fill_rule)?;
    for contour in &contours {
        println!("{rule} under {fill_rule}: {:?}", contour.iter().copied().map(<[i32; 2]>::from).collect::<Vec<_>>());
    }
    assert_eq!(contours.len(), 1);
    // two squares of 16, which share one of 4
    assert_eq!(doubled_area(&contours[0]), 2 * (16 + 16 - 4));
    assert_eq!(bounding_box(&contours[0]), Some([[0, 0], [6, 6]].map(IntPoint::from)));
    // no crossing had to be moved
    assert_eq!(overlay.reach(), 0);
    Ok(())
}
