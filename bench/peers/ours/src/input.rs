//! What the programs of races read, and what they tell of themselves.
#![allow(dead_code, reason = "not each program uses all of it")]

use fadrinzo::{IntContour, IntPoint, OverlayRule};

pub type Contours = Vec<IntContour>;

/// The most memory of this process so far, in KiB.
pub fn most_memory() -> String {
    let text = std::fs::read_to_string("/proc/self/status").unwrap_or_default();
    let most = text.lines().find_map(|line| line.strip_prefix("VmHWM:"));
    most.map_or("0".to_string(), |number| {
        number.trim_end_matches("kB").trim().to_string()
    })
}

/// The contours of the subject and of the clip.
pub fn read(path: &str) -> [Contours; 2] {
    let mut shapes = [Vec::new(), Vec::new()];
    for line in std::fs::read_to_string(path).expect("a file").lines() {
        let (shape, numbers) = line.split_at(1);
        let numbers: Vec<i32> = numbers
            .split_ascii_whitespace()
            .map(|it| it.parse().expect("a number"))
            .collect();
        shapes[usize::from(shape == "C")].push(
            numbers
                .chunks(2)
                .map(|it| IntPoint::new(it[0], it[1]))
                .collect(),
        );
    }
    shapes
}

pub fn twice_area(contour: &[IntPoint]) -> i128 {
    let next = contour.iter().cycle().skip(1);
    contour
        .iter()
        .zip(next)
        .map(|(a, b)| a.x as i128 * b.y as i128 - a.y as i128 * b.x as i128)
        .sum()
}

pub fn rule(word: &str) -> OverlayRule {
    match word {
        "union" => OverlayRule::Union,
        "intersect" => OverlayRule::Intersect,
        "difference" => OverlayRule::Difference,
        _ => OverlayRule::Xor,
    }
}

#[repr(C)]
struct Timespec {
    seconds: i64,
    nanoseconds: i64,
}

extern "C" {
    fn clock_gettime(clock: i32, time: *mut Timespec) -> i32;
}

/// The processor's milliseconds of this process, all its threads together.
pub fn cpu() -> f64 {
    let mut time = Timespec {
        seconds: 0,
        nanoseconds: 0,
    };
    // SAFETY: `time` is a `struct timespec` of 64-bit Linux, and 2 is its CLOCK_PROCESS_CPUTIME_ID
    unsafe { clock_gettime(2, &mut time) };
    time.seconds as f64 * 1e3 + time.nanoseconds as f64 / 1e6
}
