//! Contours of floating coordinates in meters: two plots of land that share a strip.

use fadrinzo::{area_of_shape, FillRule, FloatError, FloatOverlay, OverlayRule};

fn main() -> Result<(), FloatError> {
    let plot =
        [[412_000.0, 5_334_000.5], [412_020.25, 5_334_000.5], [412_020.25, 5_334_030.0], [412_000.0, 5_334_030.0]];
    let other = plot.map(|[x, y]| [x + 20.0, y + 5.0]);
    let mut overlay = FloatOverlay::with_contours(&[plot], &[other])?;
    let shared = overlay.overlay_shapes(OverlayRule::Intersect, FillRule::NonZero)?;
    println!("{shared:?}, within {:e} m", overlay.reach());
    let area = area_of_shape(&shared[0]);
    println!("{area} square meters");
    assert!((area - 0.25 * 24.5).abs() < 1e-4);
    Ok(())
}
