//! The lines of the input, `S ax ay bx by` or `C ax ay bx by`.

use crate::core::integer::OverlayInt;
use crate::core::overlay::ShapeType;
use crate::segm::boolean::ShapeCountBoolean;
use crate::segm::segment::Segment;
use crate::{Outcome, Stop};
use i_float::int::number::int::IntNumber;
use i_float::int::point::IntPoint;
use std::io::Read;
use std::ops::Range;

/// Whether a segment is of the clip, and its coordinates.
pub(crate) type Line = (bool, [i64; 4]);

pub(crate) type BooleanSegment<I> = Segment<ShapeCountBoolean, I>;

/// The lines of standard input, with coordinates in the range of the engine.
pub(crate) fn read(is_wide: bool) -> Outcome<Vec<Line>> {
    let mut input = Vec::new();
    if std::io::stdin().lock().read_to_end(&mut input).is_err() {
        return Err(Stop(5, "input failed".to_string()));
    }
    parse(&input, is_wide)
}

/// The lines of a text, with coordinates in the range of the engine.
pub(crate) fn parse(input: &[u8], is_wide: bool) -> Outcome<Vec<Line>> {
    let far = if is_wide { 1 << 30 } else { 1 << 14 };
    let lines = input.split(|&byte| byte == b'\n').enumerate();
    let given =
        lines.map(|(at, bytes)| line(bytes, -far..far).map_err(|fault| Stop(3, format!("line {}: {fault}", at + 1))));
    given.filter_map(Result::transpose).collect()
}

/// The segment of a line, or nothing where the line is empty.
fn line(bytes: &[u8], range: Range<i64>) -> Result<Option<Line>, &'static str> {
    let text = std::str::from_utf8(bytes).map_err(|_| "form")?;
    let items: Vec<&str> = text.strip_suffix('\r').unwrap_or(text).split(' ').filter(|item| !item.is_empty()).collect();
    let is_clip = match items.first() {
        None => return Ok(None),
        Some(&"S") => false,
        Some(&"C") => true,
        Some(_) => return Err("form"),
    };
    let numbers = items[1..].iter().map(|item| coordinate(item)).collect::<Option<Vec<i64>>>().ok_or("form")?;
    let numbers: [i64; 4] = numbers.try_into().map_err(|_| "form")?;
    if !numbers.iter().all(|number| range.contains(number)) {
        return Err("range");
    }
    if numbers[..2] == numbers[2..] {
        return Err("equal ends");
    }
    Ok(Some((is_clip, numbers)))
}

fn coordinate(text: &str) -> Option<i64> {
    let digits = text.strip_prefix('-').unwrap_or(text);
    let is_number = (1..=10).contains(&digits.len()) && digits.bytes().all(|byte| byte.is_ascii_digit());
    is_number.then(|| text.parse().ok()).flatten()
}

/// The segments of lines.
pub(crate) fn segments<I: OverlayInt + IntNumber<Wide = i64>>(lines: &[Line]) -> Vec<BooleanSegment<I>> {
    let point = |x, y| IntPoint::new(I::from_wide(x), I::from_wide(y));
    let segment = |&(is_clip, [ax, ay, bx, by]): &Line| {
        let shape = if is_clip { ShapeType::Clip } else { ShapeType::Subject };
        Segment::try_ab_and_data(point(ax, ay), point(bx, by), shape, (), &mut ()).expect("ends differ")
    };
    lines.iter().map(segment).collect()
}
